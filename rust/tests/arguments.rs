//! What a rule is told: its parameters, the arguments for them, and those that are too many.

mod common;

use common::{at, file, image, rules, text, BUDGET};
use deletion_machine::{CheckError, Image, Machine, Outcome, StartError, Value, ARGUMENTS};

/// What luac and lua2image make of it, with the date in a parameter:
///
/// ```lua
/// local today = ...
/// local closed = 17850 -- 15 November 2018
/// if today - closed > 2557 then return "release", today - closed - 2557 end
/// return "keep", closed + 2557 - today
/// ```
const SEVEN_YEARS: [&str; 18] = [
    "a00401",
    "b00200000000000045ba",
    "b00200000000000009fd",
    "b00472656c65617365",
    "b0046b656570",
    "c00100010000",
    "c02200020001",
    "c01c01010102",
    "c00e00ff0004",
    "c00100020002",
    "c02200030001",
    "c02202030301",
    "c00c00020200",
    "c00100020003",
    "c02102030101",
    "c02200030300",
    "c00c00020200",
    "e001",
];

#[test]
fn the_answer_turns_on_the_date() {
    let image = image(&SEVEN_YEARS);
    for (today, decision, days) in [
        (20_000, &b"keep"[..], 407),
        (20_406, b"keep", 1),
        (20_407, b"keep", 0),
        (20_408, b"release", 1),
        (21_000, b"release", 593),
    ] {
        let mut machine = Machine::start(&image, &[Value::Integer(today)]).unwrap();
        assert_eq!(machine.run(BUDGET).outcome, Outcome::Finished);
        assert_eq!(
            machine.values(),
            [Value::String(decision), Value::Integer(days)],
            "{today}"
        );
    }
}

/// examples/one-record.lua: a record that was closed on 31 December 2017, day 17,531, is kept to 31 December 2024, day 20,088.
#[test]
fn an_example_that_is_told_its_inputs() {
    let image = Image::read(&file("examples/one-record.image")).unwrap();
    assert_eq!(image.parameters(), 3);
    for (today, hold, decision) in [
        (20_088, false, &b"keep"[..]),
        (20_089, false, b"release"),
        (20_407, false, b"release"),
        (20_407, true, b"keep"),
    ] {
        let told = [today.into(), 17_531.into(), hold.into()];
        let mut machine = Machine::start(&image, &told).unwrap();
        assert_eq!(machine.run(BUDGET).outcome, Outcome::Finished);
        assert_eq!(
            machine.values(),
            [
                Value::String(decision),
                Value::Integer(today - 17_531),
                Value::Integer(20_088)
            ]
        );
    }
}

#[test]
fn parameters() {
    assert_eq!(image(&SEVEN_YEARS).parameters(), 1);
    for (lines, parameters) in [
        (&["e000"][..], 0),
        (&["a00100", "e001"], 0),
        (&["a00903", "a00505", "e002"], 3),
        (&["a0ffff", "b000", "c0ffffffffff", "a00100", "e002"], 255),
    ] {
        assert_eq!(image(lines).parameters(), parameters, "{lines:?}");
    }
    for (name, text, _) in rules() {
        let image = Image::read(&text).unwrap();
        let first = std::str::from_utf8(&text[4..6]).unwrap();
        let said = usize::from_str_radix(first, 16).unwrap();
        assert_eq!(image.parameters(), said, "{name}");
    }
}

#[test]
fn surplus_ones_are_refused_or_dropped() {
    for parameters in 0..=9 {
        let registers = 9;
        let lines = [
            format!("a0{registers:02x}{parameters:02x}"),
            format!("c00c0000{registers:02x}00"),
            "e001".to_string(),
        ];
        let image = image(&lines);
        for given in 0..=ARGUMENTS {
            let arguments: Vec<Value> = (1..=given as i64).map(Value::Integer).collect();
            let started = Machine::start(&image, &arguments);
            let mut dropping = Machine::start_dropping(&image, &arguments).unwrap();
            if given <= parameters {
                let machine = started.unwrap();
                assert_eq!(machine.state(), dropping.state());
            } else {
                let error = started.unwrap_err();
                assert_eq!(error, StartError::Surplus { given, parameters });
                assert_eq!(error.number(), None);
            }
            assert_eq!(dropping.run(BUDGET).outcome, Outcome::Finished);
            let mut expected = arguments;
            expected.truncate(parameters);
            expected.resize(registers, Value::Nil);
            assert_eq!(dropping.values(), expected);
        }
    }
}

#[test]
fn the_machines_own_refusals_come_first() {
    let unchecked = Image::read(&text(&["a00100", "e001"])).unwrap();
    let error = Machine::start(&unchecked, &[Value::Nil; 3]).unwrap_err();
    assert_eq!(error, StartError::Check(CheckError::Target(at(0, 0))));

    let one = image(&["a00101", "c00c00000100", "e001"]);
    let refused = |arguments: &[Value]| Machine::start(&one, arguments).unwrap_err();
    assert_eq!(refused(&[Value::Nil; 9]), StartError::Arguments);
    let string = Value::String(b"ten");
    assert_eq!(refused(&[Value::Nil, string]), StartError::Arguments);
    let surplus = StartError::Surplus {
        given: 8,
        parameters: 1,
    };
    assert_eq!(refused(&[Value::Nil; 8]), surplus);
}

#[test]
fn texts_of_surplus() {
    for (given, parameters, text) in [
        (
            3,
            1,
            "3 arguments are given, and the rule has 1 parameter: the others would be dropped",
        ),
        (
            3,
            2,
            "3 arguments are given, and the rule has 2 parameters: the last would be dropped",
        ),
        (
            1,
            0,
            "1 argument is given, and the rule has no parameters: it would be dropped",
        ),
        (
            2,
            0,
            "2 arguments are given, and the rule has no parameters: they would be dropped",
        ),
    ] {
        let error = StartError::Surplus { given, parameters };
        assert_eq!(error.to_string(), text);
    }
}
