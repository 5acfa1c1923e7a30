//! Programs of changes, and packages, as hexadecimal digits.

/// The digits of these bytes.
pub fn hex(bytes: &[u8]) -> String {
    match bytes {
        [] => "-".to_string(),
        _ => bytes.iter().map(|byte| format!("{byte:02x}")).collect(),
    }
}

/// An instruction: operation, a, b, c and n.
pub fn instruction(op: u8, a: u8, b: u8, c: u8, n: i32) -> String {
    hex(&[op, a, b, c]) + &hex(&n.to_le_bytes())
}

/// ra = n.
pub fn constant(a: u8, n: i32) -> String {
    instruction(1, a, 0, 0, n)
}

/// ra = setting.
pub fn read(a: u8, setting: i32) -> String {
    instruction(11, a, 0, 0, setting)
}

/// setting = ra.
pub fn write(a: u8, setting: i32) -> String {
    instruction(13, a, 0, 0, setting)
}

/// Sets a setting to a value.
pub fn set(setting: i32, value: i32) -> String {
    constant(0, value) + &write(0, setting)
}

/// Copies a setting to another.
pub fn copy(from: i32, to: i32) -> String {
    read(0, from) + &write(0, to)
}

/// Adds to a setting.
pub fn add(setting: i32, value: i32) -> String {
    let sum = instruction(3, 0, 0, 1, 0);
    read(0, setting) + &constant(1, value) + &sum + &write(0, setting)
}

/// Takes from a setting, and sets another to 1 if the result is negative.
pub fn take(setting: i32, value: i32, alarm: i32) -> String {
    let (skip, stop) = (instruction(15, 0, 0, 0, 1), instruction(0, 0, 0, 0, 0));
    add(setting, -value) + &skip + &stop + &set(alarm, 1)
}

/// A package whose entries have these timestamps, kinds and bodies, and version 0.
pub fn package(entries: &[(u64, u8, &str)]) -> String {
    let of_version_0 = |&(timestamp, kind, body)| (timestamp, kind, 0, body);
    package_of_versions(&entries.iter().map(of_version_0).collect::<Vec<_>>())
}

/// A package whose entries have these timestamps, kinds, versions and bodies.
pub fn package_of_versions(entries: &[(u64, u8, u8, &str)]) -> String {
    let mut package = hex(&(entries.len() as u16).to_le_bytes());
    for (timestamp, kind, version, body) in entries {
        package += &hex(&timestamp.to_le_bytes());
        package += &hex(&[*kind, (body.len() / 16) as u8, *version, 0]);
    }
    for (_, _, _, body) in entries {
        package += body;
    }
    package
}

/// The line that takes in a change of version 0.
pub fn take_in(timestamp: u64, program: impl AsRef<str>) -> String {
    format!("take_in {timestamp} {}", program.as_ref())
}

/// The line that takes in a change of this version.
pub fn take_in_version(timestamp: u64, program: impl AsRef<str>, version: u16) -> String {
    format!("{} {version}", take_in(timestamp, program))
}
