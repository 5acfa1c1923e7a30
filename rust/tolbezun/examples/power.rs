// The power budget of a port, kept by three changes, one of which arrives late.

use tolbezun::{program, setting, Cabinet, Instruction, Refusal, Version};

const POWER_LEFT: usize = setting(2, 4);
const POWER_ALARM: usize = setting(2, 5);

/// A change that sets the power left.
fn give(power: i32) -> Vec<u8> {
    let setting = POWER_LEFT as i32;
    program(&[
        Instruction::Constant { a: 0, n: power },
        Instruction::Write { a: 0, setting },
    ])
}

/// A change that takes some of it, and sets the alarm to 1 if what is left is negative.
fn take(power: i32) -> Vec<u8> {
    let (left, alarm) = (POWER_LEFT as i32, POWER_ALARM as i32);
    program(&[
        Instruction::Read {
            a: 0,
            setting: left,
        },
        Instruction::Constant { a: 1, n: power },
        Instruction::Subtract { a: 0, b: 0, c: 1 },
        Instruction::Write {
            a: 0,
            setting: left,
        },
        Instruction::SkipIfNegative { b: 0, n: 1 },
        Instruction::Stop,
        Instruction::Constant { a: 1, n: 1 },
        Instruction::Write {
            a: 1,
            setting: alarm,
        },
    ])
}

/// Drains, prints and returns the power left and the alarm.
fn show(cabinet: &mut Cabinet, story: &str) -> Result<(i32, i32), Refusal> {
    let totals = cabinet.drain()?.sum();
    let left = cabinet.current_value(POWER_LEFT)?;
    let alarm = cabinet.current_value(POWER_ALARM)?;
    println!("{story}: {totals}; power left {left}, alarm {alarm}");
    Ok((left, alarm))
}

fn main() -> Result<(), Refusal> {
    let mut cabinet = Cabinet::new(128)?;
    cabinet.take_in(10, Version::Zero, &give(400))?;
    cabinet.take_in(30, Version::Zero, &take(300))?;
    assert_eq!(show(&mut cabinet, "10 gives 400, 30 takes 300")?, (100, 0));

    // A change that was made between the two arrives late. The one after it is run again.
    cabinet.take_in(20, Version::Zero, &take(200))?;
    assert_eq!(show(&mut cabinet, "20 takes 200, late")?, (-100, 1));

    // It is withdrawn: all is as if it had never been made.
    cabinet.withdraw(20)?;
    assert_eq!(show(&mut cabinet, "20 is withdrawn")?, (100, 0));

    // A refusal says why, and alters nothing.
    if let Err(refusal) = cabinet.take_in(30, Version::Zero, &take(200)) {
        println!("{refusal}");
    }
    Ok(())
}
