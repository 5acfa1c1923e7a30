//! The tables that a cabinet lends to each call.

/// The highest capacity.
pub const MAX_CAPACITY: usize = 4_096;

/// The number of settings.
pub const SETTINGS: usize = 1_024;

/// The number of ports.
pub const PORTS: usize = SETTINGS / FIELDS;

/// The number of fields of a port.
pub const FIELDS: usize = 16;

/// The entries that a place has for its read list, and for its write list.
pub const LIST_ENTRIES: usize = 32;

/// The number of a setting, by its port (0 to 63) and its field (0 to 15).
pub const fn setting(port: usize, field: usize) -> usize {
    port * FIELDS + field
}

/// Has a macro carried out with the list of the lent tables, in the order in which a call takes them.
/// Arguments for the macro come before the list, in parentheses.
///
/// The list has of each table its documentation, its field of [`Tables`], in parentheses its names in
/// `include/tolbezun.h` and in the library's source, and in brackets the type of an entry and the
/// number of entries by capacity.
///
/// ```
/// use tolbezun::{with_tables, Tables};
///
/// fn entries(tables: &Tables) -> usize {
///     macro_rules! add {
///         ($(#$doc:tt $field:ident $names:tt $entries:tt)*) => { 0 $(+ tables.$field.len())* };
///     }
///     with_tables!(add)
/// }
///
/// assert_eq!(entries(&Tables::new(0)), 2_050);
/// ```
#[macro_export]
macro_rules! with_tables {
    ($carry_out:ident $(($($argument:tt)*))?) => {
        $carry_out! {
            $(($($argument)*))?
            /// The held count (1 entry).
            held (held, held) [u16; |_| 1]
            /// The timestamp of each place (N).
            timestamps (timestamps, timestamps) [u64; |n| n]
            /// The places by rising timestamp (N).
            order (order, order) [u16; |n| n]
            /// The status of each place (N): 0 New, 1 Valid, 2 Invalid.
            status (status, status) [u16; |n| n]
            /// Whether each place is withdrawn (N): 0 or 1.
            withdrawn (withdrawn, withdrawn) [u16; |n| n]
            /// The program length of each place, in instructions (N).
            length (length, lengths) [u16; |n| n]
            /// The programs (256 × N bytes).
            programs (programs, programs) [u8; |n| 8 * $crate::MAX_INSTRUCTIONS * n]
            /// The number of settings that each place has read (N).
            read_count (read_count, reads) [u16; |n| n]
            /// The number of settings that each place has written (N).
            write_count (write_count, writes) [u16; |n| n]
            /// The settings that each place has read (32 × N).
            read_settings (read_settings, sources) [u16; |n| $crate::LIST_ENTRIES * n]
            /// The values that it saw (32 × N).
            seen_values (seen_values, seen) [i32; |n| $crate::LIST_ENTRIES * n]
            /// The settings that each place has written (32 × N).
            write_settings (write_settings, targets) [u16; |n| $crate::LIST_ENTRIES * n]
            /// The values that it wrote (32 × N).
            written_values (written_values, written) [i32; |n| $crate::LIST_ENTRIES * n]
            /// The current value of each setting (1,024).
            view (view, view) [i32; |_| $crate::SETTINGS]
            /// The version of each place (N): 0 or 1.
            version (versions, versions) [u16; |n| n]
            /// The cutoff (1 entry): no change stamped below it is held or taken in.
            cutoff (cutoff, cutoff) [u64; |_| 1]
            /// The value of each setting as of the cutoff (1,024).
            kept (kept, kept) [i32; |_| $crate::SETTINGS]
        }
    };
}

macro_rules! declare {
    ($(#$doc:tt $field:ident $names:tt [$entry:ty; $length:expr])*) => {
        /// The fourteen tables of document 01, "Tables", and from document 02 those of the versions
        /// (R-6), of the cutoff and of the kept values (R-7). A place is a change, in order of arrival.
        ///
        /// They may have any lengths and contents: a call refuses those that it cannot use.
        #[derive(Clone, Debug, PartialEq, Eq)]
        pub struct Tables {
            $(#$doc pub $field: Vec<$entry>,)*
        }

        impl Tables {
            /// Tables of the lengths for this capacity, with 0 in every slot. They are to be set up
            /// before other calls: the view and the kept values of tables just set up are the start
            /// values.
            pub fn new(capacity: usize) -> Self {
                let length = |of: fn(usize) -> usize| of(capacity);
                Self {
                    $($field: vec![0; length($length)],)*
                }
            }
        }
    };
}

with_tables!(declare);
