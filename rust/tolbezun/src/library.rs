//! Declarations of the static library's functions, as `include/tolbezun.h` documents them. The tests
//! hold them to that header.

use crate::with_tables;

/// Declares functions. The tests have the declarations as text.
macro_rules! declare {
    ($(fn $name:ident $parameters:tt -> $answer:ty;)*) => {
        $(function! { $name $parameters -> $answer })*

        #[cfg(test)]
        pub const DECLARED: &[tests::Declared] = &[$(tests::Declared::$name),*];
    };
}

/// Declares a function, and for the tests has the declaration as text. One that is lent tables takes
/// N, every table as pointer and length, and then its arguments; these lengths have no names.
macro_rules! function {
    ($name:ident(tables: $($parameters:tt)*) -> $answer:ty) => {
        with_tables! { function($name(tables: $($parameters)*) -> $answer) }
    };
    (
        ($name:ident(tables: *$kind:tt $(, $argument:ident: $type:ty)*) -> $answer:ty)
        $(#$doc:tt $field:ident ($in_header:ident, $in_source:ident) [$entry:ty; $length:expr])*
    ) => {
        function! {
            $name(
                n: usize
                $(, $in_header: *$kind $entry, _: usize)*
                $(, $argument: $type)*
            ) -> $answer
        }
    };
    ($name:ident($($parameter:tt: $type:ty),*) -> $answer:ty) => {
        unsafe extern "C" {
            pub fn $name($($parameter: $type),*) -> $answer;
        }

        #[cfg(test)]
        impl tests::Declared {
            #[allow(non_upper_case_globals)]
            pub const $name: Self = Self {
                name: stringify!($name),
                parameters: &[$((stringify!($parameter), stringify!($type))),*],
                answer: stringify!($answer),
            };
        }
    };
}

declare! {
    fn tolbezun_set_up(tables: *mut) -> u8;

    fn tolbezun_take_in(
        tables: *mut,
        timestamp: u64,
        version: u16,
        program: *const u8,
        program_len: usize
    ) -> u8;

    fn tolbezun_withdraw(tables: *mut, timestamp: u64) -> u8;

    fn tolbezun_take_in_package(
        tables: *mut,
        package: *const u8,
        package_len: usize,
        answers: *mut u8,
        answers_len: usize
    ) -> u8;

    fn tolbezun_turn(tables: *mut, values: *mut u64, values_len: usize) -> u8;

    fn tolbezun_drain(tables: *mut, totals: *mut u16, totals_len: usize) -> u8;

    fn tolbezun_cutoff(tables: *mut, timestamp: u64) -> u8;

    fn tolbezun_current_value(tables: *const, setting: usize) -> i64;

    fn tolbezun_value_as_of(tables: *const, timestamp: u64, setting: usize) -> i64;

    fn tolbezun_standing(tables: *const, timestamp: u64) -> u32;

    fn tolbezun_plain_run(tables: *const, settings: *mut i32, settings_len: usize) -> u8;

    fn tolbezun_package_out(tables: *const, package: *mut u8, package_len: usize) -> u32;

    fn tolbezun_start_values(settings: *mut i32, settings_len: usize) -> u8;
}

#[cfg(test)]
mod tests;
