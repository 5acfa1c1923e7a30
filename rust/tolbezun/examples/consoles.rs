// Which console's changes keep rerunning: those of one that reads what another sets.

use tolbezun::{program, setting, Cabinet, Instruction, Refusal, TotalsByConsole, Version};

/// The power left of a port.
const fn power(port: usize) -> usize {
    setting(port, 4)
}

/// A timestamp of a console.
fn stamp(time: u64, console: u8) -> u64 {
    256 * time + u64::from(console)
}

/// A change that sets a setting.
fn set(setting: usize, n: i32) -> Vec<u8> {
    let setting = setting as i32;
    program(&[
        Instruction::Constant { a: 0, n },
        Instruction::Write { a: 0, setting },
    ])
}

/// A change that copies a setting to another.
fn copy(from: usize, to: usize) -> Vec<u8> {
    let (from, to) = (from as i32, to as i32);
    program(&[
        Instruction::Read {
            a: 0,
            setting: from,
        },
        Instruction::Write { a: 0, setting: to },
    ])
}

/// Drains, prints and returns the totals.
fn show(cabinet: &mut Cabinet, story: &str) -> Result<TotalsByConsole, Refusal> {
    let totals = cabinet.drain()?;
    println!("{story}\n{totals}");
    Ok(totals)
}

fn main() -> Result<(), Refusal> {
    let mut cabinet = Cabinet::new(128)?;

    // Console 1 gives port 2 power, console 2 gives ports 3 and 4 as much, console 3 sets a VLAN.
    cabinet.take_in(stamp(1, 1), Version::Zero, &set(power(2), 400))?;
    cabinet.take_in(stamp(3, 2), Version::Zero, &copy(power(2), power(3)))?;
    cabinet.take_in(stamp(4, 2), Version::Zero, &copy(power(2), power(4)))?;
    cabinet.take_in(stamp(5, 3), Version::Zero, &set(setting(5, 2), 30))?;
    let totals = show(&mut cabinet, "four changes")?;
    assert_eq!(totals.sum().ran, 4);

    // A change of console 1 arrives late, and both of console 2 are run again.
    cabinet.take_in(stamp(2, 1), Version::Zero, &set(power(2), 250))?;
    let totals = show(&mut cabinet, "another power for port 2, late")?;
    assert_eq!(totals.of(2).ran, 2);

    // It is withdrawn, and they are run once more.
    cabinet.withdraw(stamp(2, 1))?;
    let totals = show(&mut cabinet, "it is withdrawn")?;
    assert_eq!(totals.of(2).ran, 2);
    Ok(())
}
