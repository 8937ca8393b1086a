//! Document 01's session and its example W13, the rules in `examples`, every kind of value, and figures that arrive as text.

mod common;

use common::{at, image, integer, program, rules, text, BUDGET};
use deletion_machine::{Answer, Image, LuaError, LuaErrorKind, Machine, Operand, Outcome, Value};

#[test]
fn the_session() {
    let session = b"a00100\nb0020000000000000007\nc00100000000\nc00c00000100\ne001\n";
    assert_eq!(
        program(session),
        "f0000000000200000100\nb0020000000000000007\n"
    );
}

#[test]
fn an_operand_is_named_in_the_last_byte() {
    let session = |operation: &str, right: &str| {
        program(&text(&[
            "a00100",
            "b0020000000000000007",
            right,
            operation,
            "c00c00000000",
            "e001",
        ]))
    };
    // 7 // 0, 7 // nil, and what isn't run names nothing
    assert_eq!(
        session("c02503000001", "b0020000000000000000"),
        "f02d0000000100000002\n"
    );
    assert_eq!(session("c02503000001", "b000"), "f0220000000100000002\n");
    assert_eq!(session("c02503010001", "b000"), "f00c0000000000000000\n");
    assert_eq!(session("c02503000001", "b0"), "f0020000000000000200\n");
}

#[test]
fn the_rules_of_the_examples() {
    for (name, text, result) in rules() {
        assert_eq!(program(&text), result, "{name}");
    }
}

#[test]
fn what_was_read_is_written_back() {
    let mut texts: Vec<Vec<u8>> = rules().into_iter().map(|(_, text, _)| text).collect();
    // images that the checker refuses are written back too
    texts.push(text(&["e000"]));
    texts.push(text(&["a0ffff", "c0ffffffffff", "e001"]));
    texts.push(text(&["a00100", "b000", "b00100", "b00101", "e001"]));
    texts.push(text(&[
        "a00100", "d10000", "d101ff", "b000", "a00100", "d100ff", "e002",
    ]));
    texts.push(text(&[
        "a00100",
        "b0037ff0000000000001", // a NaN keeps its bits
        "b004",
        &format!("b004{}", "00ff".repeat(32)),
        "e001",
    ]));
    for text in texts {
        let image = Image::read(&text).unwrap();
        assert_eq!(image.write(), text);
        assert_eq!(Image::read(&image.write()).unwrap(), image);
    }
}

fn w13() -> Image {
    image(&[
        "a00400",
        &integer(1),
        &integer(3),
        "c00100000000",
        "c00100010001",
        "c00100020000",
        "c01200000000",
        "c0130000ffff",
        "c00c00000000",
        "e001",
    ])
}

#[test]
fn w13_on_budget_8_and_9() {
    let image = w13();
    let place = at(0, 5);

    let mut machine = Machine::start(&image, &[]).unwrap();
    let paused = Answer {
        outcome: Outcome::Paused,
        count: 8,
        place,
    };
    assert_eq!(machine.run(8), paused);

    let mut machine = Machine::start(&image, &[]).unwrap();
    let finished = Answer {
        outcome: Outcome::Finished,
        count: 9,
        place,
    };
    assert_eq!(machine.run(9), finished);
    assert_eq!(machine.values(), []);
    assert_eq!(machine.state().kinds[0..4], [2, 2, 2, 2]);
    assert_eq!(machine.state().words[0..4], [4, 3, 1, 3]);
}

#[test]
fn values_of_every_kind() {
    let image = image(&[
        "a00a00",
        "b000",
        "b00100",
        "b00101",
        "b0028000000000000000",
        "b0033ff8000000000000",
        "b00400ff61",
        "b004",
        "b003fff8000000000000",
        "c00100000000",
        "c00100010001",
        "c00100020002",
        "c00100030003",
        "c00100040004",
        "c00100050005",
        "c00100060006",
        "c01100070100",
        "c00100080007",
        "c00c00000900",
        "a00100",
        "c00c00000000",
        "e002",
    ]);
    let mut machine = Machine::start(&image, &[]).unwrap();
    assert_eq!(machine.values(), [], "nothing before the end");
    assert_eq!(machine.run(BUDGET).outcome, Outcome::Finished);
    let values = machine.values();
    assert_eq!(
        values[..8],
        [
            Value::Nil,
            Value::Boolean(false),
            Value::Boolean(true),
            Value::Integer(i64::MIN),
            Value::Number(1.5),
            Value::String(&[0, 255, b'a']),
            Value::String(b""),
            Value::Function {
                prototype: 1,
                entry: 0
            },
        ]
    );
    // a constant that is copied keeps its bits, of a NaN too
    match values[8..] {
        [Value::Number(x)] => assert_eq!(x.to_bits(), 0xfff8_0000_0000_0000),
        ref other => panic!("{other:?}"),
    }
    let shown: Vec<String> = values.iter().map(Value::to_string).collect();
    assert_eq!(
        shown,
        [
            "nil",
            "false",
            "true",
            "-9223372036854775808",
            "1.5",
            "\"\\x00\\xffa\"",
            "\"\"",
            "function of prototype 1",
            "NaN",
        ]
    );
    // these live as long as the image, not the machine
    let values = machine.state().values(&image);
    drop(machine);
    assert_eq!(values[5], Value::String(b"\x00\xffa"));
}

#[test]
fn years_that_arrive_as_text() {
    // register 0 gets the text, register 1 the days of so many years
    let rule = |years: &[u8]| {
        let digits: String = years.iter().map(|byte| format!("{byte:02x}")).collect();
        image(&[
            "a00200",
            &format!("b004{digits}"),
            &integer(365),
            "c00100000000",
            "c02302010001",
            "c00c00000200",
            "e001",
        ])
    };
    for (years, days) in [
        (&b"7"[..], Value::Integer(2555)),
        (b" 12\t", Value::Integer(4380)),
        (b"0x0A", Value::Integer(3650)),
        (b"2.5", Value::Number(912.5)),
        (b"-1e1", Value::Number(-3650.0)),
    ] {
        let image = rule(years);
        let mut machine = Machine::start(&image, &[]).unwrap();
        assert_eq!(machine.run(BUDGET).outcome, Outcome::Finished, "{years:?}");
        assert_eq!(
            machine.values(),
            [Value::String(years), days],
            "the text stays"
        );
    }
    for years in [&b""[..], b"seven", b"7 years", b"1e23", b"0x"] {
        let image = rule(years);
        let mut machine = Machine::start(&image, &[]).unwrap();
        let outcome = Outcome::Failed(LuaError {
            kind: LuaErrorKind::Multiply,
            operand: Some(Operand::First),
        });
        assert_eq!(machine.run(BUDGET).outcome, outcome, "{years:?}");
    }
}

#[test]
fn arguments() {
    let image = image(&["a00404", "c00c00000400", "e001"]);
    let given = [Value::from(true), Value::from(-1), Value::from(0.5)];
    let mut machine = Machine::start(&image, &given).unwrap();
    machine.run(BUDGET);
    let [a, b, c] = given;
    assert_eq!(
        machine.values(),
        [a, b, c, Value::Nil],
        "a missing one is nil"
    );
}
