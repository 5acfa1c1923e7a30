//! Programs of changes.

use tolbezun::{program, Instruction};

/// A change that sets a setting.
pub fn set(setting: i32, n: i32) -> Vec<u8> {
    program(&[
        Instruction::Constant { a: 0, n },
        Instruction::Write { a: 0, setting },
    ])
}

/// A change that copies a setting to another.
pub fn copy(from: i32, to: i32) -> Vec<u8> {
    program(&[
        Instruction::Read {
            a: 0,
            setting: from,
        },
        Instruction::Write { a: 0, setting: to },
    ])
}
