use super::*;

/// Numbers that are no version. The lowest byte of some would be one.
const NO_VERSIONS: [u16; 7] = [2, 3, 255, 256, 257, 32_768, u16::MAX];

/// The refusal of these instructions as a program, or 0.
#[track_caller]
fn refusal_of(instructions: &[Instruction]) -> u8 {
    refusal(&assemble(instructions))
}

/// The refusal of a program, or 0, which is the same by both versions.
#[track_caller]
fn refusal(program: &[u8]) -> u8 {
    let [refusal, by_1] = [0, 1].map(|version| refusal_with(version, program));
    assert_eq!(refusal, by_1);
    refusal
}

#[track_caller]
fn refusal_with(version: u16, program: &[u8]) -> u8 {
    match check(version, program) {
        Ok(checked) => {
            assert_eq!(checked.number(), version);
            0
        }
        Err(malformed) => malformed.refusal(),
    }
}

fn assemble(instructions: &[Instruction]) -> Vec<u8> {
    instructions.iter().flat_map(|i| i.to_bytes()).collect()
}

/// Runs these instructions by version 0. Version 1 must give the same, unless the run comes to a
/// setting that it has written.
#[track_caller]
fn run_on(given: &[(u16, i32)], instructions: &[Instruction]) -> Outcome {
    let outcome = run_by(Version::Zero, given, instructions);
    let own_write = [Fault::ReadOfWritten, Fault::WrittenTwice];
    if !outcome
        .fault()
        .is_some_and(|(fault, _)| own_write.contains(&fault))
    {
        assert_eq!(run_by(Version::One, given, instructions), outcome);
    }
    outcome
}

/// The same by version 1, where version 0 faults so, at this place.
#[track_caller]
fn run_by_1(
    given: &[(u16, i32)],
    instructions: &[Instruction],
    fault: Fault,
    place: usize,
) -> Outcome {
    let outcome = run_by(Version::Zero, given, instructions);
    assert_eq!(outcome.fault(), Some((fault, place)));
    run_by(Version::One, given, instructions)
}

/// Runs these instructions, which must be well formed, on settings that are 0 but for `given`.
#[track_caller]
fn run_by(version: Version, given: &[(u16, i32)], instructions: &[Instruction]) -> Outcome {
    let program = assemble(instructions);
    assert_eq!(check(version.number(), &program), Ok(version));
    let mut settings = [0; SETTINGS];
    for &(setting, value) in given {
        settings[usize::from(setting)] = value;
    }
    run(version, &program, &settings)
}

#[track_caller]
fn assert_completed(outcome: &Outcome, reads: &[(u16, i32)], writes: &[(u16, i32)]) {
    assert_eq!(pairs(outcome.reads()), reads);
    assert_eq!(pairs(outcome.writes()), writes);
    assert_eq!(outcome.fault(), None);
}

/// A faulted run writes nothing.
#[track_caller]
fn assert_faulted(outcome: &Outcome, reads: &[(u16, i32)], fault: Fault, place: usize) {
    assert_eq!(pairs(outcome.reads()), reads);
    assert_eq!(pairs(outcome.writes()), []);
    assert_eq!(outcome.fault(), Some((fault, place)));
}

fn pairs(accesses: &[Access]) -> Vec<(u16, i32)> {
    accesses.iter().map(|x| (x.setting, x.value)).collect()
}

const fn ins(op: u8, a: u8, b: u8, c: u8, n: i32) -> Instruction {
    Instruction { op, a, b, c, n }
}

const STOP: Instruction = ins(op::STOP, 0, 0, 0, 0);

const fn constant(a: u8, n: i32) -> Instruction {
    ins(op::CONSTANT, a, 0, 0, n)
}

const fn read(a: u8, setting: i32) -> Instruction {
    ins(op::READ, a, 0, 0, setting)
}

const fn read_indexed(a: u8, b: u8) -> Instruction {
    ins(op::READ_INDEXED, a, b, 0, 0)
}

const fn write(setting: i32, a: u8) -> Instruction {
    ins(op::WRITE, a, 0, 0, setting)
}

const fn write_indexed(b: u8, a: u8) -> Instruction {
    ins(op::WRITE_INDEXED, a, b, 0, 0)
}

/// A well formed instruction of each operation, with every part that it uses other than 0, but for
/// skips, whose n is right anywhere.
const EXAMPLES: [Instruction; op::COUNT as usize] = [
    STOP,
    constant(7, -1),
    ins(op::MOVE, 7, 6, 0, 0),
    ins(op::ADD, 7, 6, 5, 0),
    ins(op::SUBTRACT, 7, 6, 5, 0),
    ins(op::NEGATE, 7, 6, 0, 0),
    ins(op::SHIFT_RIGHT, 7, 6, 0, 31),
    ins(op::COUNT_ONES, 7, 6, 0, 0),
    ins(op::AND, 7, 6, 5, 0),
    ins(op::OR, 7, 6, 5, 0),
    ins(op::XOR, 7, 6, 5, 0),
    read(7, 1023),
    read_indexed(7, 6),
    write(1023, 7),
    write_indexed(6, 7),
    ins(op::SKIP_IF_NEGATIVE, 0, 7, 0, 0),
    ins(op::SKIP_IF_ZERO, 0, 7, 0, 0),
    ins(op::SKIP, 0, 0, 0, 0),
];

// The form of a program.

#[test]
fn operations_have_the_numbers_of_the_table() {
    for (number, example) in EXAMPLES.iter().enumerate() {
        assert_eq!(usize::from(example.op), number);
    }
}

#[test]
fn instructions_are_eight_bytes_with_n_low_byte_first() {
    let bytes = [11, 7, 0, 0, 0xFF, 0x03, 0, 0];
    assert_eq!(read(7, 1023).to_bytes(), bytes);
    assert_eq!(Instruction::from_bytes(bytes), read(7, 1023));
    let bytes = [1, 2, 3, 4, 0xFE, 0xFF, 0xFF, 0xFF];
    assert_eq!(ins(1, 2, 3, 4, -2).to_bytes(), bytes);
    assert_eq!(Instruction::from_bytes(bytes), ins(1, 2, 3, 4, -2));
}

#[test]
fn every_operation_is_accepted() {
    for example in EXAMPLES {
        assert_eq!(refusal_of(&[example]), 0, "{example:?}");
    }
    assert_eq!(refusal_of(&EXAMPLES), 0);
}

#[test]
fn lengths_0_to_256_by_8_are_accepted() {
    for count in 0..=32 {
        assert_eq!(refusal(&vec![0; 8 * count]), 0);
    }
}

#[test]
fn over_256_bytes_or_no_multiple_of_8_is_6() {
    for length in [1, 7, 9, 12, 255, 257, 260, 264, 512, 4096] {
        assert_eq!(refusal(&vec![0; length]), 6, "{length} bytes");
    }
}

#[test]
fn refusal_6_comes_before_7() {
    for length in [1, 7, 9, 255, 257, 264] {
        assert_eq!(refusal(&vec![0xFF; length]), 6, "{length} bytes");
    }
    assert_eq!(refusal(&[0xFF; 8]), 7);
    assert_eq!(refusal(&[0xFF; 256]), 7);
}

#[test]
fn versions_are_0_and_1() {
    assert_eq!(Version::default(), Version::Zero);
    for (version, number) in Version::ALL.into_iter().zip([0, 1]) {
        assert_eq!(version.number(), number);
        assert_eq!(Version::from_number(number), Some(version));
    }
    for number in 2..=u16::MAX {
        assert_eq!(Version::from_number(number), None);
    }
}

#[test]
fn a_version_above_1_is_13() {
    for version in NO_VERSIONS {
        assert_eq!(refusal_with(version, &[]), 13, "version {version}");
        assert_eq!(refusal_with(version, &assemble(&EXAMPLES)), 13);
    }
}

/// "refusal 13, just after 6" (document 02, R-6), and so before 7.
#[test]
fn refusal_13_comes_after_6_and_before_7() {
    for version in NO_VERSIONS {
        for length in [1, 7, 9, 255, 257, 264] {
            assert_eq!(refusal_with(version, &vec![0; length]), 6, "{length} bytes");
            assert_eq!(refusal_with(version, &vec![0xFF; length]), 6);
        }
        assert_eq!(refusal_with(version, &[0xFF; 8]), 13);
        assert_eq!(refusal_with(version, &[0xFF; 256]), 13);
    }
}

#[test]
fn an_operation_that_is_not_in_the_table_is_7() {
    for op in 18..=255 {
        assert_eq!(refusal_of(&[ins(op, 0, 0, 0, 0)]), 7, "operation {op}");
    }
}

#[test]
fn a_register_above_7_is_7() {
    for example in EXAMPLES {
        for register in [8, 9, 16, 128, 255] {
            let with = |a, b, c| [Instruction { a, b, c, ..example }];
            let Instruction { a, b, c, .. } = example;
            assert_eq!(refusal_of(&with(register, b, c)), 7, "a of {example:?}");
            assert_eq!(refusal_of(&with(a, register, c)), 7, "b of {example:?}");
            assert_eq!(refusal_of(&with(a, b, register)), 7, "c of {example:?}");
        }
    }
}

#[test]
fn every_register_0_to_7_is_accepted() {
    for register in 0..8 {
        assert_eq!(refusal_of(&[ins(op::ADD, register, 0, 0, 0)]), 0);
        assert_eq!(refusal_of(&[ins(op::ADD, 0, register, 0, 0)]), 0);
        assert_eq!(refusal_of(&[ins(op::ADD, 0, 0, register, 0)]), 0);
    }
}

/// Unused: op 0 a b c n; 1 b c; 2 c n; 3 and 4 n; 5 c n; 6 c; 7 c n; 8 to 10 n; 11 and 13 b c; 12
/// and 14 c n; 15 and 16 a c; 17 a b c.
#[test]
fn an_unused_part_other_than_0_is_7() {
    const UNUSED: [&str; op::COUNT as usize] = [
        "abcn", "bc", "cn", "n", "n", "cn", "c", "cn", "n", "n", "n", "bc", "cn", "bc", "cn", "ac",
        "ac", "abc",
    ];
    for (example, unused) in EXAMPLES.into_iter().zip(UNUSED) {
        for part in unused.chars() {
            for value in [1, 7, 255] {
                let mut damaged = example;
                match part {
                    'a' => damaged.a = value,
                    'b' => damaged.b = value,
                    'c' => damaged.c = value,
                    _ => damaged.n = i32::from(value),
                }
                assert_eq!(refusal_of(&[damaged]), 7, "{damaged:?}");
            }
        }
        if unused.contains('n') {
            for n in [-1, 256, 1 << 16, 1 << 24, i32::MIN, i32::MAX] {
                let damaged = Instruction { n, ..example };
                assert_eq!(refusal_of(&[damaged]), 7, "{damaged:?}");
            }
        }
    }
}

#[test]
fn a_constant_is_any_number() {
    for n in [i32::MIN, -1, 0, 1, 1024, i32::MAX] {
        assert_eq!(refusal_of(&[constant(0, n)]), 0);
    }
}

#[test]
fn n_of_operation_6_is_0_to_31() {
    for n in 0..32 {
        assert_eq!(refusal_of(&[ins(op::SHIFT_RIGHT, 1, 2, 0, n)]), 0);
    }
    for n in [32, 33, 64, 256, -1, i32::MIN, i32::MAX] {
        assert_eq!(refusal_of(&[ins(op::SHIFT_RIGHT, 1, 2, 0, n)]), 7);
    }
}

#[test]
fn setting_n_is_0_to_1023() {
    for n in [0, 1, 255, 256, 1023] {
        assert_eq!(refusal_of(&[read(1, n)]), 0);
        assert_eq!(refusal_of(&[write(n, 1)]), 0);
    }
    for n in [1024, 1025, 65_536, -1, -1024, i32::MIN, i32::MAX] {
        assert_eq!(refusal_of(&[read(1, n)]), 7);
        assert_eq!(refusal_of(&[write(n, 1)]), 7);
    }
}

#[test]
fn a_skip_goes_at_most_to_exactly_the_end() {
    for op in [op::SKIP_IF_NEGATIVE, op::SKIP_IF_ZERO, op::SKIP] {
        for count in [1, 2, 5, 32] {
            for place in 0..count {
                let to_end = (count - place - 1) as i32;
                let refusal_with = |n| {
                    let mut instructions = vec![STOP; count];
                    instructions[place] = ins(op, 0, 0, 0, n);
                    refusal_of(&instructions)
                };
                for n in 0..=to_end {
                    assert_eq!(refusal_with(n), 0);
                }
                for n in [to_end + 1, to_end + 2, 256, -1, i32::MIN, i32::MAX] {
                    assert_eq!(refusal_with(n), 7, "skip {n} at place {place} of {count}");
                }
            }
        }
    }
}

#[test]
fn an_instruction_is_tested_wherever_it_stands() {
    for place in 0..32 {
        let mut instructions = [STOP; 32];
        instructions[place] = ins(18, 0, 0, 0, 0);
        assert_eq!(refusal_of(&instructions), 7, "place {place}");
    }
    let skipped = [ins(op::SKIP, 0, 0, 0, 1), read(8, 34), STOP];
    assert_eq!(refusal_of(&skipped), 7);
}

// Runs.

/// Copy 34 to 50.
const COPY: [Instruction; 2] = [read(0, 34), write(50, 0)];

/// Take `amount` from 36, and set 37 to 1 if that leaves it negative.
const fn take(amount: i32) -> [Instruction; 8] {
    [
        read(0, 36),
        constant(1, amount),
        ins(op::SUBTRACT, 0, 0, 1, 0),
        write(36, 0),
        ins(op::SKIP_IF_NEGATIVE, 0, 0, 0, 1),
        STOP,
        constant(2, 1),
        write(37, 2),
    ]
}

/// What `arithmetic` leaves in register 0, where registers 1 and 2 start at `x` and `y`.
#[track_caller]
fn result_of(arithmetic: Instruction, x: i32, y: i32) -> i32 {
    let program = [constant(1, x), constant(2, y), arithmetic, write(50, 0)];
    let outcome = run_on(&[], &program);
    assert_eq!(outcome.fault(), None);
    let [Access { setting: 50, value }] = *outcome.writes() else {
        panic!("{outcome:?}");
    };
    value
}

#[test]
fn the_empty_program_does_nothing() {
    assert_completed(&run_on(&[(0, 5)], &[]), &[], &[]);
    assert_eq!(run_on(&[], &[]), Outcome::EMPTY);
}

#[test]
fn p2_set() {
    let set = [constant(0, 5), write(34, 0)];
    assert_completed(&run_on(&[(34, 9)], &set), &[], &[(34, 5)]);
}

#[test]
fn p3_copy() {
    assert_completed(&run_on(&[], &COPY), &[(34, 0)], &[(50, 0)]);
    assert_completed(&run_on(&[(34, 7)], &COPY), &[(34, 7)], &[(50, 7)]);
}

#[test]
fn p6_increment() {
    let increment = [
        read(0, 34),
        constant(1, 1),
        ins(op::ADD, 0, 0, 1, 0),
        write(34, 0),
    ];
    assert_completed(&run_on(&[], &increment), &[(34, 0)], &[(34, 1)]);
    assert_completed(&run_on(&[(34, 7)], &increment), &[(34, 7)], &[(34, 8)]);
}

#[test]
fn p9_a_change_that_writes_34_twice_writes_nothing() {
    let twice = [constant(0, 5), write(34, 0), constant(0, 6), write(34, 0)];
    assert_faulted(&run_on(&[], &twice), &[], Fault::WrittenTwice, 3);
}

#[test]
fn p10_ends_of_the_range() {
    let negated = ins(op::NEGATE, 0, 1, 0, 0);
    let sum = ins(op::ADD, 0, 1, 2, 0);
    let halved = ins(op::SHIFT_RIGHT, 0, 1, 0, 1);
    let ones = ins(op::COUNT_ONES, 0, 1, 0, 0);
    assert_eq!(result_of(negated, -2_147_483_648, 0), -2_147_483_648);
    assert_eq!(result_of(sum, 2_147_483_647, 1), -2_147_483_648);
    assert_eq!(result_of(halved, -5, 0), -3);
    assert_eq!(result_of(ones, -1, 0), 32);
}

#[test]
fn p11_taking_power() {
    assert_completed(
        &run_on(&[(36, 400)], &take(300)),
        &[(36, 400)],
        &[(36, 100)],
    );
    assert_completed(
        &run_on(&[(36, 400)], &take(200)),
        &[(36, 400)],
        &[(36, 200)],
    );
    assert_completed(
        &run_on(&[(36, 200)], &take(300)),
        &[(36, 200)],
        &[(36, -100), (37, 1)],
    );
}

#[test]
fn p11_in_order_of_timestamps() {
    let set: &[_] = &[constant(0, 400), write(36, 0)];
    let leaves = |changes: &[&[Instruction]]| {
        let mut settings = [0; SETTINGS];
        for &change in changes {
            let outcome = run(Version::Zero, &assemble(change), &settings);
            assert_eq!(outcome.fault(), None);
            for write in outcome.writes() {
                settings[usize::from(write.setting)] = write.value;
            }
        }
        (settings[36], settings[37])
    };
    assert_eq!(leaves(&[set, &take(300)]), (100, 0));
    assert_eq!(leaves(&[set, &take(200), &take(300)]), (-100, 1));
}

#[test]
fn arithmetic_wraps() {
    let sum = ins(op::ADD, 0, 1, 2, 0);
    assert_eq!(result_of(sum, 3, -5), -2);
    assert_eq!(result_of(sum, i32::MIN, -1), i32::MAX);
    assert_eq!(result_of(sum, i32::MIN, i32::MIN), 0);
    assert_eq!(result_of(sum, i32::MAX, i32::MAX), -2);
    let difference = ins(op::SUBTRACT, 0, 1, 2, 0);
    assert_eq!(result_of(difference, 3, 5), -2);
    assert_eq!(result_of(difference, i32::MIN, 1), i32::MAX);
    assert_eq!(result_of(difference, i32::MAX, -1), i32::MIN);
    assert_eq!(result_of(difference, 0, i32::MIN), i32::MIN);
    let negated = ins(op::NEGATE, 0, 1, 0, 0);
    assert_eq!(result_of(negated, 5, 0), -5);
    assert_eq!(result_of(negated, i32::MAX, 0), -2_147_483_647);
}

#[test]
fn division_by_a_power_of_two_rounds_down() {
    let divided = |x, n| result_of(ins(op::SHIFT_RIGHT, 0, 1, 0, n), x, 0);
    assert_eq!(divided(5, 1), 2);
    assert_eq!(divided(5, 0), 5);
    assert_eq!(divided(-5, 0), -5);
    assert_eq!(divided(-1, 31), -1);
    assert_eq!(divided(i32::MIN, 31), -1);
    assert_eq!(divided(i32::MIN, 1), -1_073_741_824);
    assert_eq!(divided(i32::MAX, 30), 1);
    assert_eq!(divided(i32::MAX, 31), 0);
}

#[test]
fn patterns() {
    let ones = ins(op::COUNT_ONES, 0, 1, 0, 0);
    assert_eq!(result_of(ones, 0, 0), 0);
    assert_eq!(result_of(ones, i32::MIN, 0), 1);
    assert_eq!(result_of(ones, i32::MAX, 0), 31);
    assert_eq!(result_of(ones, 0b1011, 0), 3);
    assert_eq!(result_of(ins(op::AND, 0, 1, 2, 0), -4, 0b111), 0b100);
    assert_eq!(result_of(ins(op::OR, 0, 1, 2, 0), -4, 0b101), -3);
    assert_eq!(result_of(ins(op::XOR, 0, 1, 2, 0), -4, 0b101), -7);
    assert_eq!(result_of(ins(op::MOVE, 0, 1, 0, 0), -4, 9), -4);
}

#[test]
fn registers_start_at_0() {
    let program: Vec<_> = (0..8).map(|r| write(i32::from(r) + 34, r)).collect();
    let zeros: Vec<_> = (34..42).map(|setting| (setting, 0)).collect();
    assert_completed(&run_on(&[], &program), &[], &zeros);
}

#[test]
fn a_register_can_be_both_source_and_target() {
    let doubled = [
        constant(3, 21),
        ins(op::ADD, 3, 3, 3, 0),
        write(50, 3),
        ins(op::SUBTRACT, 3, 3, 3, 0),
        write(51, 3),
    ];
    assert_completed(&run_on(&[], &doubled), &[], &[(50, 42), (51, 0)]);
    // r3 names the setting that it is then set to.
    let followed = [constant(3, 34), read_indexed(3, 3), write_indexed(3, 3)];
    assert_completed(&run_on(&[(34, 50)], &followed), &[(34, 50)], &[(50, 50)]);
}

#[test]
fn the_read_list_holds_each_setting_once_in_order_of_first_reading() {
    let program = [
        read(0, 50),
        read(1, 34),
        read(2, 50),
        constant(4, 34),
        read_indexed(3, 4),
        read(5, 0),
        write(36, 2),
        write(37, 3),
    ];
    assert_completed(
        &run_on(&[(34, 5), (50, -7)], &program),
        &[(50, -7), (34, 5), (0, 0)],
        &[(36, -7), (37, 5)],
    );
}

#[test]
fn the_write_list_is_in_order_of_writing() {
    let program = [
        constant(0, 3),
        write(1023, 0),
        constant(1, 2),
        write_indexed(1, 0),
        write(500, 1),
        write(0, 7),
    ];
    assert_completed(
        &run_on(&[], &program),
        &[],
        &[(1023, 3), (2, 3), (500, 2), (0, 0)],
    );
}

#[test]
fn lists_hold_32_entries() {
    let reads: Vec<_> = (0..32).map(|i| read(0, 1023 - i)).collect();
    let expected: Vec<_> = (0..32).map(|i| (1023 - i, 0)).collect();
    assert_completed(&run_on(&[], &reads), &expected, &[]);
    let writes: Vec<_> = (0..32).map(|i| write(1023 - i, 0)).collect();
    assert_completed(&run_on(&[], &writes), &[], &expected);
}

#[test]
fn a_setting_can_be_read_and_then_written() {
    let program = [read(0, 34), constant(1, 8), write(34, 1)];
    assert_completed(&run_on(&[(34, 7)], &program), &[(34, 7)], &[(34, 8)]);
}

#[test]
fn a_register_that_names_no_setting_faults() {
    for number in [-1, 1024, 1025, 65_536, 65_570, -1024, i32::MIN, i32::MAX] {
        let reading = [
            read(0, 34),
            write(50, 0),
            constant(1, number),
            read_indexed(0, 1),
        ];
        assert_faulted(
            &run_on(&[(34, 7)], &reading),
            &[(34, 7)],
            Fault::NoSuchSetting,
            3,
        );
        let writing = [
            read(0, 34),
            write(50, 0),
            constant(1, number),
            write_indexed(1, 0),
        ];
        assert_faulted(
            &run_on(&[(34, 7)], &writing),
            &[(34, 7)],
            Fault::NoSuchSetting,
            3,
        );
    }
}

#[test]
fn a_register_names_settings_0_to_1023() {
    for number in [0, 1, 255, 256, 1023] {
        let setting = number as u16;
        let reading = [constant(1, number), read_indexed(0, 1)];
        assert_completed(&run_on(&[(setting, 6)], &reading), &[(setting, 6)], &[]);
        let writing = [constant(0, 6), constant(1, number), write_indexed(1, 0)];
        assert_completed(&run_on(&[], &writing), &[], &[(setting, 6)]);
    }
}

#[test]
fn reading_a_written_setting_faults() {
    let program = [read(0, 50), write(34, 0), read(1, 34), read(2, 51)];
    assert_faulted(
        &run_on(&[(50, 3)], &program),
        &[(50, 3)],
        Fault::ReadOfWritten,
        2,
    );
    let indexed = [constant(1, 34), write_indexed(1, 0), read_indexed(2, 1)];
    assert_faulted(&run_on(&[], &indexed), &[], Fault::ReadOfWritten, 2);
}

#[test]
fn reading_a_written_setting_faults_also_where_it_was_read_before() {
    let program = [read(0, 34), write(34, 0), read(1, 34)];
    assert_faulted(
        &run_on(&[(34, 7)], &program),
        &[(34, 7)],
        Fault::ReadOfWritten,
        2,
    );
}

#[test]
fn writing_a_setting_twice_faults() {
    let program = [
        write(34, 0),
        read(0, 50),
        write(35, 0),
        constant(1, 34),
        write_indexed(1, 0),
    ];
    assert_faulted(
        &run_on(&[(50, 3)], &program),
        &[(50, 3)],
        Fault::WrittenTwice,
        4,
    );
}

#[test]
fn writing_the_same_value_twice_faults() {
    let program = [constant(0, 5), write(34, 0), write(34, 0)];
    assert_faulted(&run_on(&[(34, 5)], &program), &[], Fault::WrittenTwice, 2);
}

#[test]
fn a_fault_ends_the_run() {
    let program = [
        write(34, 0),
        read(1, 34),
        read(2, 50),
        read_indexed(1, 3),
        write(34, 0),
    ];
    assert_faulted(&run_on(&[], &program), &[], Fault::ReadOfWritten, 1);
}

#[test]
fn stop_ends_the_run() {
    let program = [read(0, 34), STOP, write(50, 0)];
    assert_completed(&run_on(&[(34, 7)], &program), &[(34, 7)], &[]);
    assert_completed(&run_on(&[], &[STOP]), &[], &[]);
}

#[test]
fn skip_if_negative() {
    let skips = |x| {
        let program = [
            constant(1, x),
            ins(op::SKIP_IF_NEGATIVE, 0, 1, 0, 1),
            write(50, 1),
            write(51, 1),
        ];
        let outcome = run_on(&[], &program);
        assert_eq!(outcome.fault(), None);
        outcome.writes().len() == 1
    };
    for x in [i32::MIN, -2, -1] {
        assert!(skips(x), "{x}");
    }
    for x in [0, 1, i32::MAX] {
        assert!(!skips(x), "{x}");
    }
}

#[test]
fn skip_if_zero() {
    let skips = |x| {
        let program = [
            constant(1, x),
            ins(op::SKIP_IF_ZERO, 0, 1, 0, 1),
            write(50, 1),
            write(51, 1),
        ];
        let outcome = run_on(&[], &program);
        assert_eq!(outcome.fault(), None);
        outcome.writes().len() == 1
    };
    assert!(skips(0));
    for x in [i32::MIN, -1, 1, i32::MAX] {
        assert!(!skips(x), "{x}");
    }
}

#[test]
fn skip_always() {
    let program = [
        ins(op::SKIP, 0, 0, 0, 2),
        write(50, 0),
        write(51, 0),
        write(52, 0),
    ];
    assert_completed(&run_on(&[], &program), &[], &[(52, 0)]);
}

#[test]
fn skip_0_goes_on_with_the_next_instruction() {
    for op in [op::SKIP_IF_NEGATIVE, op::SKIP_IF_ZERO, op::SKIP] {
        assert_completed(
            &run_on(&[], &[ins(op, 0, 0, 0, 0), write(50, 0)]),
            &[],
            &[(50, 0)],
        );
    }
}

#[test]
fn a_skip_to_the_end_stops_the_run() {
    let mut program = [write(50, 0); 32];
    program[0] = ins(op::SKIP, 0, 0, 0, 31);
    assert_completed(&run_on(&[], &program), &[], &[]);
    program[0] = ins(op::SKIP, 0, 0, 0, 30);
    assert_completed(&run_on(&[], &program), &[], &[(50, 0)]);
    assert_completed(&run_on(&[], &[ins(op::SKIP, 0, 0, 0, 0)]), &[], &[]);
}

#[test]
fn a_given_outcome_is_overwritten() {
    let settings = [0; SETTINGS];
    let mut outcome = run_on(
        &[],
        &[
            read(0, 1),
            read(0, 2),
            write(3, 0),
            write(4, 0),
            write(3, 0),
        ],
    );
    assert_faulted(&outcome, &[(1, 0), (2, 0)], Fault::WrittenTwice, 4);
    run_into(Version::Zero, &assemble(&COPY), &settings, &mut outcome);
    assert_completed(&outcome, &[(34, 0)], &[(50, 0)]);
    run_into(Version::One, &[], &settings, &mut outcome);
    assert_eq!(outcome, Outcome::EMPTY);
}

/// With what the registers hold before each instruction: here the first of them.
#[test]
fn places_are_visited_in_order() {
    let program = assemble(&take(300));
    let mut outcome = Outcome::EMPTY;
    for version in Version::ALL {
        let mut visited_from = |power: i32| {
            let mut settings = [0; SETTINGS];
            settings[36] = power;
            let (mut places, mut first) = (Vec::new(), Vec::new());
            run_visiting(version, &program, &settings, &mut outcome, |place, r| {
                places.push(place);
                first.push(r[0]);
            });
            (places, first)
        };
        let (places, first) = visited_from(400);
        assert_eq!(places, [0, 1, 2, 3, 4, 5]);
        assert_eq!(first, [0, 400, 400, 100, 100, 100]);
        let (places, first) = visited_from(200);
        assert_eq!(places, [0, 1, 2, 3, 4, 6, 7]);
        assert_eq!(first, [0, 200, 200, -100, -100, -100, -100]);
    }
}

// Version 1 (document 02, R-6).

/// "Version 1 reads its own written value, which enters no read list".
#[test]
fn version_1_reads_back_what_it_wrote() {
    // By number and by register, and the other way round.
    for (write_34, read_34) in [
        (write(34, 0), read(2, 34)),
        (write(34, 0), read_indexed(2, 1)),
        (write_indexed(1, 0), read(2, 34)),
        (write_indexed(1, 0), read_indexed(2, 1)),
    ] {
        let program = [
            constant(0, 5),
            constant(1, 34),
            write_34,
            read_34,
            write(50, 2),
        ];
        assert_completed(
            &run_by_1(&[(34, 9)], &program, Fault::ReadOfWritten, 3),
            &[],
            &[(34, 5), (50, 5)],
        );
    }
}

/// The read list keeps the value seen before the write.
#[test]
fn a_setting_that_was_read_before_the_write_is_read_back_too() {
    let program = [
        read(0, 34),
        constant(1, 1),
        ins(op::ADD, 0, 0, 1, 0),
        write(34, 0),
        read(2, 34),
        write(50, 2),
        read(3, 35),
        write(51, 3),
    ];
    assert_completed(
        &run_by_1(&[(34, 7), (35, 3)], &program, Fault::ReadOfWritten, 4),
        &[(34, 7), (35, 3)],
        &[(34, 8), (50, 8), (51, 3)],
    );
}

#[test]
fn what_was_not_written_enters_the_read_list_as_before() {
    let program = [
        read(0, 50),
        write(34, 0),
        read(1, 34),
        read(2, 51),
        read(3, 34),
        read(4, 50),
        write(52, 2),
    ];
    assert_completed(
        &run_by_1(&[(50, 3), (51, 4)], &program, Fault::ReadOfWritten, 2),
        &[(50, 3), (51, 4)],
        &[(34, 3), (52, 4)],
    );
}

/// "a second write replaces the value in its first place in the list."
#[test]
fn a_second_write_replaces_the_value_in_its_first_place() {
    for second in [write(34, 1), write_indexed(3, 1)] {
        let program = [
            constant(0, 5),
            constant(1, 6),
            constant(3, 34),
            write(34, 0),
            write(35, 0),
            second,
            write(36, 1),
        ];
        assert_completed(
            &run_by_1(&[], &program, Fault::WrittenTwice, 5),
            &[],
            &[(34, 6), (35, 5), (36, 6)],
        );
    }
    // The first is by register.
    let program = [
        constant(0, 5),
        constant(3, 34),
        write_indexed(3, 0),
        write(35, 0),
        write(34, 7),
    ];
    assert_completed(
        &run_by_1(&[], &program, Fault::WrittenTwice, 4),
        &[],
        &[(34, 0), (35, 5)],
    );
}

#[test]
fn a_second_write_may_be_of_an_equal_value_and_a_third_may_follow() {
    let equal = [constant(0, 5), write(34, 0), write(34, 0)];
    assert_completed(
        &run_by_1(&[(34, 5)], &equal, Fault::WrittenTwice, 2),
        &[],
        &[(34, 5)],
    );
    let third = [
        constant(0, 5),
        write(35, 7),
        write(34, 0),
        write(34, 7),
        write(35, 0),
        constant(0, 6),
        write(34, 0),
    ];
    assert_completed(
        &run_by_1(&[], &third, Fault::WrittenTwice, 3),
        &[],
        &[(35, 5), (34, 6)],
    );
}

/// What is read back is the last value.
#[test]
fn what_was_written_twice_is_read_back() {
    let program = [
        constant(0, 5),
        write(34, 0),
        read(1, 34),
        constant(0, 6),
        write(34, 0),
        read(2, 34),
        write(50, 1),
        write(51, 2),
    ];
    assert_completed(
        &run_by_1(&[(34, 9)], &program, Fault::ReadOfWritten, 2),
        &[],
        &[(34, 6), (50, 5), (51, 6)],
    );
}

/// The value read back decides, and names settings.
#[test]
fn a_value_that_is_read_back_is_one_as_any_other() {
    let skipping = [
        constant(0, -1),
        write(34, 0),
        read(1, 34),
        ins(op::SKIP_IF_NEGATIVE, 0, 1, 0, 1),
        write(50, 0),
        write(51, 0),
    ];
    assert_completed(
        &run_by_1(&[(34, 9)], &skipping, Fault::ReadOfWritten, 2),
        &[],
        &[(34, -1), (51, -1)],
    );
    let naming = [
        constant(0, 50),
        write(34, 0),
        read(1, 34),
        read_indexed(2, 1),
        write_indexed(1, 7),
        write(51, 2),
    ];
    assert_completed(
        &run_by_1(&[(34, 9), (50, 8)], &naming, Fault::ReadOfWritten, 2),
        &[(50, 8)],
        &[(34, 50), (50, 0), (51, 8)],
    );
}

/// As by version 0; earlier reads stay, what was read back is none, and nothing is written.
#[test]
fn a_register_that_names_no_setting_faults_by_version_1_too() {
    for number in [-1, 1024, 65_536 + 34, i32::MIN, i32::MAX] {
        for faulting in [read_indexed(0, 1), write_indexed(1, 0)] {
            let program = [
                read(0, 50),
                constant(1, number),
                write(34, 0),
                read(2, 34),
                write(34, 2),
                faulting,
            ];
            assert_faulted(
                &run_by_1(&[(50, 3)], &program, Fault::ReadOfWritten, 3),
                &[(50, 3)],
                Fault::NoSuchSetting,
                5,
            );
        }
        // It was read back.
        let program = [
            constant(0, number),
            write(34, 0),
            read(1, 34),
            read_indexed(2, 1),
        ];
        assert_faulted(
            &run_by_1(&[], &program, Fault::ReadOfWritten, 2),
            &[],
            Fault::NoSuchSetting,
            3,
        );
    }
}

/// The lowest and the highest setting, and every place of the list.
#[test]
fn every_entry_is_read_back_and_replaced() {
    let settings: Vec<i32> = (0..15).map(|i| 1023 - 73 * i).chain([0]).collect();
    for again in 0..16 {
        let first = settings.iter().map(|&setting| write(setting, 0));
        let setting = settings[again];
        let rest = [
            constant(0, 9),
            write(setting, 0),
            read(1, setting),
            write(500, 1),
        ];
        let program: Vec<_> = first.chain(rest).collect();
        let mut written: Vec<(u16, i32)> = Vec::new();
        for (index, &setting) in settings.iter().enumerate() {
            written.push((setting as u16, if index == again { 9 } else { 0 }));
        }
        written.push((500, 9));
        assert_completed(
            &run_by_1(&[], &program, Fault::WrittenTwice, 17),
            &[],
            &written,
        );
    }
}

#[test]
fn version_1_writes_a_setting_31_times() {
    let mut program = vec![constant(0, 5)];
    program.extend((1..31).map(|_| write(34, 0)));
    program.push(write(34, 1));
    assert_completed(
        &run_by_1(&[], &program, Fault::WrittenTwice, 2),
        &[],
        &[(34, 0)],
    );
}
