//! The proved library's tables as bytes: counted, read, copied.

use std::hint::black_box;
use std::ops::BitXor;
use tolbezun::{with_tables, Tables};

/// Has functions written out for all tables.
macro_rules! functions {
    ($(#$doc:tt $table:ident $names:tt $entries:tt)*) => {
        /// The bytes of all tables.
        pub fn bytes(tables: &Tables) -> usize {
            0 $(+ size_of_val(&tables.$table[..]))*
        }

        /// Reads all tables once.
        pub fn read(tables: &Tables) {
            $(black_box(all(&tables.$table));)*
        }

        /// Makes `copy` equal to the tables, in the memory that it has.
        pub fn copy_into(copy: &mut Tables, tables: &Tables) {
            $(copy.$table.clone_from(&tables.$table);)*
        }
    };
}

with_tables!(functions);

fn all<T: Copy + Default + BitXor<Output = T>>(table: &[T]) -> T {
    table.iter().fold(T::default(), |all, &slot| all ^ slot)
}
