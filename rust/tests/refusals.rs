//! Every number that a host can meet, with its place and its text. (5 and 6, which the package's types rule out, are
//! tested beside the calls, in `src/ffi.rs`; which operand an error names, in `operands.rs`.)

mod common;

use common::{at, image, integer, mark, text, BUDGET};
use deletion_machine::{
    Answer, CheckError, Image, LuaError, LuaErrorKind, Machine, Operand, Outcome, Place, ReadError,
    StartError, State, Value, IMAGE_BYTES,
};
use std::collections::HashSet;
use std::error::Error;

// ---- reading: 1 to 4

fn refused(text: &[u8]) -> ReadError {
    Image::read(text).expect_err("refused")
}

#[test]
fn one() {
    for (text, line) in [
        (&b"\n"[..], 0),
        (b"a00100", 0),
        (b"a0010\n", 0),
        (b"A00100\n", 0),
        (b"a00100\r\n", 0),
        (b"a00100\nzz\n", 1),
        (b"a00100\nc00c00000000\ne001", 2),
        (b"\xff\xfe\x00", 0),
    ] {
        assert_eq!(refused(text), ReadError::NotHex { line }, "{text:?}");
    }
    assert_eq!(
        refused(b"\n").to_string(),
        "line 0 (from 0): empty, not pairs of lowercase hexadecimal digits, or without LF"
    );
}

#[test]
fn two() {
    for (lines, line) in [
        (&["d0"][..], 0),
        (&["a00000"], 0),
        (&["a00102"], 0),
        (&["a001"], 0),
        (&["b000"], 0),
        (&["c00c00000000"], 0),
        (&["a00100", "b00102"], 1),
        (&["a00100", "b005"], 1),
        (&["a00100", "c00c00000000", "b000"], 2),
        (&["a00100", "c00c00000000", "e002"], 2),
        (&["a00100", "c00c00000000", "e000"], 2),
        (&["d10000"], 0),
        (&["a00100", "d1"], 1),
        (&["a00100", "d10200"], 1),
        (&["a00100", "d1000000"], 1),
        (&["a00100", "b000", "d10000"], 2),
        (&["a00100", "c00c00000000", "d10000"], 2),
    ] {
        let error = refused(&text(lines));
        assert_eq!(error, ReadError::NotAFrame { line }, "{lines:?}");
    }
    let long = format!("b004{}", "61".repeat(65));
    let error = refused(&text(&["a00100", &long]));
    assert_eq!(error, ReadError::NotAFrame { line: 1 });
    assert_eq!(
        error.to_string(),
        "line 1 (from 0): no frame that can stand here: unknown kind, wrong length, tag, order or field"
    );
}

#[test]
fn three() {
    let longest = vec![b'\n'; IMAGE_BYTES];
    assert_eq!(refused(&longest), ReadError::NotHex { line: 0 });
    let error = refused(&vec![b'\n'; IMAGE_BYTES + 1]);
    assert_eq!(error, ReadError::TooLong { bytes: 65_537 });
    assert_eq!(
        error.to_string(),
        "65537 bytes: too many: an image has at most 65536 bytes and 32 prototypes, a prototype at most 8 descriptors, 256 constants and 4096 instructions"
    );

    let prototypes = |n: usize| text(&vec!["a00100"; n]);
    assert_eq!(refused(&prototypes(32)), ReadError::NoEnd { line: 32 });
    assert_eq!(refused(&prototypes(33)), ReadError::TooMany { line: 32 });

    let with = |frame: &'static str, n: usize| {
        let mut lines = vec!["a00100"];
        lines.resize(n + 1, frame);
        text(&lines)
    };
    let descriptors = |n| refused(&with("d10000", n));
    assert_eq!(descriptors(8), ReadError::NoEnd { line: 9 });
    assert_eq!(descriptors(9), ReadError::TooMany { line: 9 });
    let constants = |n| refused(&with("b000", n));
    assert_eq!(constants(256), ReadError::NoEnd { line: 257 });
    assert_eq!(constants(257), ReadError::TooMany { line: 257 });
    let instructions = |n| refused(&with("c00c00000000", n));
    assert_eq!(instructions(4096), ReadError::NoEnd { line: 4097 });
    assert_eq!(instructions(4097), ReadError::TooMany { line: 4097 });
    assert_eq!(
        instructions(4097).to_string(),
        "line 4097 (from 0): too many: an image has at most 65536 bytes and 32 prototypes, a prototype at most 8 descriptors, 256 constants and 4096 instructions"
    );
}

#[test]
fn four() {
    assert_eq!(refused(b""), ReadError::NoEnd { line: 0 });
    let whole = text(&["a00100", "c00c00000000", "e001"]);
    assert!(Image::read(&whole).is_ok());
    assert_eq!(refused(&whole[..20]), ReadError::NoEnd { line: 2 });
    for more in ["\n", "e", "e001\n", "\0"] {
        let text = [&whole, more.as_bytes()].concat();
        assert_eq!(refused(&text), ReadError::NoEnd { line: 3 }, "{more:?}");
    }
    assert_eq!(
        refused(b"").to_string(),
        "after 0 lines: no e0 line at the end, or a byte after it"
    );
}

#[test]
fn numbers_and_lines_of_reading() {
    let line = 9;
    for (error, number, at) in [
        (ReadError::NotHex { line }, 1, 9),
        (ReadError::NotAFrame { line }, 2, 9),
        (ReadError::TooLong { bytes: 70_000 }, 3, 0),
        (ReadError::TooMany { line }, 3, 9),
        (ReadError::NoEnd { line }, 4, 9),
    ] {
        assert_eq!((error.number(), error.line()), (number, at));
    }
}

// ---- checking: 10 to 16

/// Checks a prototype of two registers, one constant and these instructions, then a good one; starting refuses the
/// same.
fn checked(instructions: &[&str]) -> Result<(), CheckError> {
    let mut lines = vec!["a00200", "b000"];
    lines.extend(instructions);
    lines.extend(["a00100", "c00c00000000", "e002"]);
    let image = image(&lines);
    let result = image.check();
    match (result, Machine::start(&image, &[])) {
        (Ok(()), Ok(_)) => {}
        (Err(error), Err(StartError::Check(same))) => assert_eq!(error, same),
        (_, other) => panic!("check gives {result:?}, start {other:?}"),
    }
    result
}

const RETURN: &str = "c00c00000000";

#[test]
fn ten_to_sixteen() {
    assert_eq!(checked(&[RETURN]), Ok(()));
    for (instruction, error, number) in [
        ("c00400000000", CheckError::Operation(at(0, 1)), 10),
        ("c0ff00000000", CheckError::Operation(at(0, 1)), 10),
        ("c00a0000ff00", CheckError::Operation(at(0, 1)), 10),
        ("c00c0000ff00", CheckError::Operation(at(0, 1)), 10),
        ("c00000000001", CheckError::Unused(at(0, 1)), 11),
        ("c00001000000", CheckError::Unused(at(0, 1)), 11),
        ("c00200000200", CheckError::Unused(at(0, 1)), 11),
        ("c00000020000", CheckError::Register(at(0, 1)), 12),
        ("c00300010200", CheckError::Register(at(0, 1)), 12),
        ("c00e00020000", CheckError::Register(at(0, 1)), 12),
        ("c00e00fe8000", CheckError::Register(at(0, 1)), 12),
        ("c01800020000", CheckError::Register(at(0, 1)), 12),
        ("c01900000200", CheckError::Register(at(0, 1)), 12),
        ("c00100000001", CheckError::Constant(at(0, 1)), 13),
        ("c02101000100", CheckError::Constant(at(0, 1)), 13),
        ("c00e00ff0001", CheckError::Target(at(0, 1)), 14),
        ("c00e00ff8000", CheckError::Target(at(0, 1)), 14),
        ("c00f00000000", CheckError::Target(at(0, 1)), 14),
        ("c01100000200", CheckError::Prototype(at(0, 1)), 15),
        ("c01800000000", CheckError::Upvalue(at(0, 1)), 16),
        ("c01900000000", CheckError::Upvalue(at(0, 1)), 16),
    ] {
        let result = checked(&["c00300000200", instruction, RETURN]);
        assert_eq!(result, Err(error), "{instruction}");
        assert_eq!(error.number(), number);
        assert_eq!(error.place(), at(0, 1));
    }
}

#[test]
fn a_jump_may_close() {
    for instruction in ["c00e00000000", "c00e00010000", "c00e00ff0000"] {
        assert_eq!(checked(&[instruction, RETURN]), Ok(()), "{instruction}");
    }
}

/// Checks a prototype of two registers and no upvalue that makes a function of the next, which has these descriptors.
fn capturing(descriptors: &[&str]) -> Result<(), CheckError> {
    let mut lines = vec!["a00200", "c01100010100", RETURN, "a00100"];
    lines.extend(descriptors);
    lines.extend([RETURN, "e002"]);
    image(&lines).check()
}

/// The same of one with an upvalue, prototype 1.
fn capturing_inside(descriptors: &[&str]) -> Result<(), CheckError> {
    let mut lines = vec!["a00200", "c01100000100", RETURN];
    lines.extend(["a00200", "d10001", "c01100010200", RETURN, "a00100"]);
    lines.extend(descriptors);
    lines.extend([RETURN, "e003"]);
    image(&lines).check()
}

#[test]
fn descriptors() {
    assert_eq!(capturing(&["d10000", "d10001"]), Ok(()));
    assert_eq!(capturing_inside(&["d10000", "d10100", "d10001"]), Ok(()));
    let bad = Err(CheckError::Upvalue(at(0, 0)));
    assert_eq!(capturing(&["d10002"]), bad);
    assert_eq!(capturing(&["d10000", "d10100"]), bad);
    let bad = Err(CheckError::Upvalue(at(1, 0)));
    assert_eq!(capturing_inside(&["d10100", "d10002"]), bad);
    assert_eq!(capturing_inside(&["d10101"]), bad);

    // a prototype that no Closure names may have any; the first none
    let unnamed = image(&["a00100", RETURN, "a00100", "d101ff", RETURN, "e002"]);
    assert_eq!(unnamed.check(), Ok(()));
    let first = ["a00200", "d10000", "c00300000200", RETURN, "e001"];
    assert_eq!(image(&first).check(), Err(CheckError::Upvalue(at(0, 0))));
    let lower = ["a00200", "d10000", "c00300000300", RETURN, "e001"];
    assert_eq!(image(&lower).check(), Err(CheckError::Register(at(0, 0))));
    let none = ["a00200", "d10000", "e001"];
    assert_eq!(image(&none).check(), Err(CheckError::Target(at(0, 0))));
}

#[test]
fn images_with_nothing_to_run() {
    assert_eq!(checked(&[]), Err(CheckError::Target(at(0, 0))));
    let none = image(&["e000"]);
    assert_eq!(none.check(), Err(CheckError::Prototype(at(0, 0))));
    let second = image(&["a00100", RETURN, "a00100", "e002"]);
    assert_eq!(second.check(), Err(CheckError::Target(at(1, 0))));
}

#[test]
fn texts_of_checking() {
    let place = at(2, 17);
    for (error, what) in [
        (
            CheckError::Operation(place),
            "an operation that the machine doesn't have, or a count of 255 in a call or return",
        ),
        (
            CheckError::Unused(place),
            "an unused byte or flag that isn't zero, or a yes/no byte above 1",
        ),
        (
            CheckError::Register(place),
            "a register that the prototype doesn't have",
        ),
        (
            CheckError::Constant(place),
            "a constant that the prototype doesn't have",
        ),
        (
            CheckError::Target(place),
            "the next instruction may be one that isn't there",
        ),
        (
            CheckError::Prototype(place),
            "a prototype that isn't in the image",
        ),
        (
            CheckError::Upvalue(place),
            "an upvalue or a captured register that the prototype doesn't have, or descriptors on prototype 0",
        ),
    ] {
        let text = format!("prototype 2, instruction 17: {what}");
        assert_eq!(error.to_string(), text);
        let start = StartError::Check(error);
        assert_eq!(start.to_string(), text);
        assert_eq!(start.number(), Some(error.number()));
    }
}

// ---- starting: 20

#[test]
fn twenty() {
    let image = image(&["a00808", RETURN, "e001"]);
    let refused = |arguments: &[Value]| {
        let error = Machine::start(&image, arguments).unwrap_err();
        let same = Machine::start_dropping(&image, arguments).unwrap_err();
        assert_eq!(error, same);
        error
    };
    assert!(Machine::start(&image, &[Value::Nil; 8]).is_ok());
    assert_eq!(refused(&[Value::Nil; 9]), StartError::Arguments);
    assert_eq!(
        refused(&[Value::Nil, Value::String(b"")]),
        StartError::Arguments
    );
    let function = Value::Function {
        prototype: 0,
        entry: 0,
    };
    assert_eq!(refused(&[function]), StartError::Arguments);
    assert_eq!(StartError::Arguments.number(), Some(20));
    let error: Box<dyn Error> = StartError::Arguments.into();
    assert_eq!(
        error.to_string(),
        "more than 8 arguments, or one that is not nil, a boolean, an integer or a number"
    );
}

#[test]
fn the_checker_comes_before_the_arguments() {
    let image = image(&["e000"]);
    let error = Machine::start(&image, &[Value::Nil; 9]).unwrap_err();
    assert_eq!(error, StartError::Check(CheckError::Prototype(at(0, 0))));
}

// ---- running: 30 to 46, 50 to 54

/// An error that names the operand with this number, 0 for none.
fn naming(kind: LuaErrorKind, operand: usize) -> LuaError {
    let operands = [
        None,
        Some(Operand::First),
        Some(Operand::Second),
        Some(Operand::Third),
    ];
    LuaError {
        kind,
        operand: operands[operand],
    }
}

/// Runs the lines to a Lua error, sees it answered again, and answers it with its count and place.
fn failed(lines: &[&str]) -> (LuaError, u32, Place) {
    let image = image(lines);
    let mut machine = Machine::start(&image, &[]).unwrap();
    let answer = machine.run(BUDGET);
    let state = machine.state().clone();
    assert_eq!(machine.values(), []);
    let again = Answer { count: 0, ..answer };
    assert_eq!(machine.run(BUDGET), again);
    assert_eq!(machine.state(), &state);
    assert_eq!(state.frames[0], mark(&answer.outcome));
    match answer.outcome {
        Outcome::Failed(error) => {
            assert_eq!(answer.outcome.number(), error.number());
            assert_eq!(answer.outcome.to_string(), error.to_string());
            (error, answer.count, answer.place)
        }
        other => panic!("{lines:?}: {other}"),
    }
}

#[test]
fn thirty_to_forty_four() {
    // operation, and what it raises on nil
    for (operation, kind) in [
        (33, LuaErrorKind::Add),
        (34, LuaErrorKind::Subtract),
        (35, LuaErrorKind::Multiply),
        (36, LuaErrorKind::FloatDivide),
        (37, LuaErrorKind::FloorDivide),
        (38, LuaErrorKind::Modulo),
        (31, LuaErrorKind::UnaryNegate),
        (40, LuaErrorKind::BitAnd),
        (41, LuaErrorKind::BitOr),
        (42, LuaErrorKind::BitXor),
        (32, LuaErrorKind::BitNot),
        (43, LuaErrorKind::ShiftLeft),
        (44, LuaErrorKind::ShiftRight),
        (28, LuaErrorKind::LessThan),
        (29, LuaErrorKind::LessEqual),
    ] {
        let one = integer(1);
        let instruction = match operation {
            // left is register 0, nil; right is constant 0 where there is one
            31 | 32 => format!("c0{operation:02x}00000000"),
            _ => format!("c0{operation:02x}02000000"),
        };
        let lines = [
            "a00100",
            &one,
            "c00300000100",
            &instruction,
            RETURN,
            RETURN,
            "e001",
        ];
        assert_eq!(
            failed(&lines),
            (naming(kind, 1), 2, at(0, 1)),
            "{operation}"
        );
    }
}

#[test]
fn forty_five_and_forty_six() {
    for (operation, kind) in [
        ("25", LuaErrorKind::FloorDivideByZero),
        ("26", LuaErrorKind::ModuloByZero),
    ] {
        let zero = integer(0);
        let instruction = format!("c0{operation}03000000");
        let lines = ["a00100", &zero, &instruction, RETURN, "e001"];
        assert_eq!(failed(&lines), (naming(kind, 2), 1, at(0, 0)));
    }
}

#[test]
fn loops_over_what_is_no_number() {
    let prep = ["a00400", "c01200000000", RETURN, "e001"];
    assert_eq!(
        failed(&prep),
        (naming(LuaErrorKind::Subtract, 1), 1, at(0, 0))
    );
    let turn = ["a00400", "c01300000000", RETURN, "e001"];
    assert_eq!(failed(&turn), (naming(LuaErrorKind::Add, 1), 1, at(0, 0)));
}

#[test]
fn fifty_to_fifty_two() {
    let of_nil = ["a00100", "c00a00000000", RETURN, "e001"];
    assert_eq!(
        failed(&of_nil),
        (naming(LuaErrorKind::NotAFunction, 0), 1, at(0, 0))
    );

    // a function that calls itself: by 16 activations, or by registers before that
    let closure = "c01100000000";
    let call = "c00a00000000";
    let deep = ["a00100", closure, call, RETURN, "e001"];
    assert_eq!(
        failed(&deep),
        (naming(LuaErrorKind::TooDeep, 0), 32, at(0, 1))
    );
    let just = ["a08000", closure, call, RETURN, "e001"];
    assert_eq!(
        failed(&just),
        (naming(LuaErrorKind::TooDeep, 0), 32, at(0, 1))
    );
    let wide = ["a08100", closure, call, RETURN, "e001"];
    assert_eq!(
        failed(&wide),
        (naming(LuaErrorKind::TooManyRegisters, 0), 30, at(0, 1))
    );
}

#[test]
fn fifty_three_and_fifty_four() {
    // a loop that makes functions: the 65th; then over 3 registers each, which the jump back closes: 42 times 3 of 128 cells are used
    let functions = [
        "a00400",
        "c01100000100",
        "c00e0000fffe",
        RETURN,
        "a00100",
        RETURN,
        "e002",
    ];
    assert_eq!(
        failed(&functions),
        (naming(LuaErrorKind::TooManyFunctions, 0), 129, at(0, 0))
    );
    let mut cells = functions.to_vec();
    cells.splice(5..5, ["d10001", "d10002", "d10003"]);
    assert_eq!(
        failed(&cells),
        (naming(LuaErrorKind::TooManyCells, 0), 85, at(0, 0))
    );
    // over 2 registers each both are used up after 64, and the entries come first; without the closing the cells are the same two
    cells.remove(5);
    assert_eq!(
        failed(&cells),
        (naming(LuaErrorKind::TooManyFunctions, 0), 129, at(0, 0))
    );
    cells[2] = "c00e00fffffe";
    assert_eq!(
        failed(&cells),
        (naming(LuaErrorKind::TooManyFunctions, 0), 129, at(0, 0))
    );
}

#[test]
fn numbers_of_lua_errors_and_operands() {
    let numbers: Vec<u8> = LuaErrorKind::ALL.iter().map(LuaErrorKind::number).collect();
    let expected: Vec<u8> = (30..=46).chain(50..=54).collect();
    assert_eq!(numbers, expected);
    for &kind in LuaErrorKind::ALL {
        for operand in 0..4 {
            let error = naming(kind, operand);
            let outcome = Outcome::Failed(error);
            assert_eq!(
                (error.number(), outcome.number()),
                (kind.number(), kind.number())
            );
            assert_eq!(outcome.operand(), error.operand);
            assert_eq!(
                error.operand.map_or(0, |operand| operand.number().into()),
                operand
            );
        }
    }
    for outcome in [Outcome::Finished, Outcome::Paused, Outcome::Fault] {
        assert_eq!(outcome.operand(), None);
    }
}

#[test]
fn texts_of_lua_errors() {
    for (kind, operand, text) in [
        (
            LuaErrorKind::Add,
            1,
            "the left operand of `+` is not a number, nor a string that reads as one; in a loop: the index is not a number",
        ),
        (
            LuaErrorKind::Add,
            2,
            "the right operand of `+` is not a number, nor a string that reads as one; in a loop: the limit is not a number",
        ),
        (LuaErrorKind::Add, 3, "the step of a loop is not a number"),
        (
            LuaErrorKind::Subtract,
            1,
            "the left operand of `-` is not a number, nor a string that reads as one; in a loop: the index is not a number",
        ),
        (
            LuaErrorKind::Subtract,
            2,
            "the right operand of `-` is not a number, nor a string that reads as one",
        ),
        (LuaErrorKind::Subtract, 3, "the step of a loop is not a number"),
        (
            LuaErrorKind::Modulo,
            2,
            "the right operand of `%` is not a number, nor a string that reads as one",
        ),
        (
            LuaErrorKind::UnaryNegate,
            1,
            "the only operand of `-` is not a number, nor a string that reads as one",
        ),
        (
            LuaErrorKind::ShiftLeft,
            1,
            "the left operand of `<<` is not an integer, nor a number that equals one, nor a string that reads as either",
        ),
        (
            LuaErrorKind::BitNot,
            1,
            "the only operand of `~` is not an integer, nor a number that equals one, nor a string that reads as either",
        ),
        (
            LuaErrorKind::LessThan,
            1,
            "the left operand of `<` (the right one of `>`) can't be compared with the other: they are neither two numbers nor two strings",
        ),
        (
            LuaErrorKind::LessEqual,
            2,
            "the right operand of `<=` (the left one of `>=`) can't be compared with the other: they are neither two numbers nor two strings",
        ),
        (LuaErrorKind::FloorDivideByZero, 2, "the right operand of `//` is zero"),
        (LuaErrorKind::ModuloByZero, 2, "the right operand of `%` is zero"),
        (LuaErrorKind::NotAFunction, 0, "a call of a value that is not a function"),
        (
            LuaErrorKind::TooManyFunctions,
            0,
            "a function too many: this run has made 64, and there is no room for another",
        ),
        (
            LuaErrorKind::TooManyCells,
            0,
            "a function too many: of the 128 places for variables that functions use from outside, too few are left",
        ),
    ] {
        assert_eq!(naming(kind, operand).to_string(), text);
    }
    let answer = Answer {
        outcome: Outcome::Failed(naming(LuaErrorKind::NotAFunction, 0)),
        count: 3,
        place: at(1, 2),
    };
    assert_eq!(
        answer.to_string(),
        "prototype 1, instruction 2: a call of a value that is not a function (3 instructions)"
    );
}

#[test]
fn no_two_texts_are_the_same() {
    for operand in 0..3 {
        let texts: HashSet<String> = LuaErrorKind::ALL
            .iter()
            .map(|&kind| naming(kind, operand).to_string())
            .collect();
        assert_eq!(texts.len(), LuaErrorKind::ALL.len(), "operand {operand}");
    }
    // of what a run answers, the one operand is told from the other
    for &kind in LuaErrorKind::ALL {
        let told = naming(kind, 1).to_string() != naming(kind, 2).to_string();
        let only = matches!(kind.number(), 36 | 40 | 45 | 46 | 50..=54);
        assert_eq!(told, !only, "{kind:?}");
    }
}

#[test]
fn texts_of_operands_that_no_run_leaves() {
    let general = |kind| naming(kind, 0).to_string();
    assert_eq!(
        general(LuaErrorKind::Add),
        "an operand of `+` is not a number, nor a string that reads as one; in a loop: a control is not a number"
    );
    assert_eq!(
        general(LuaErrorKind::LessThan),
        "the operands of `<` (or `>`) can't be compared with each other: they are neither two numbers nor two strings"
    );
    for &kind in LuaErrorKind::ALL {
        let unheard: &[usize] = match kind.number() {
            30 | 31 => &[], // each is an operator's or a loop's
            36 | 40 => &[2, 3],
            45 | 46 => &[1, 3],
            50..=54 => &[1, 2, 3],
            _ => &[3],
        };
        for &operand in unheard {
            assert_eq!(naming(kind, operand).to_string(), general(kind));
        }
    }
}

// ---- running: 60, 70

#[test]
fn sixty() {
    let image = image(&["a00200", "c00300000200", "c00c00000200", "e001"]);
    let mut machine = Machine::start(&image, &[]).unwrap();
    machine.run(1);
    let good = machine.into_state();
    let fault = Answer {
        outcome: Outcome::Fault,
        count: 0,
        place: at(0, 0),
    };
    type Tamper = fn(&mut State);
    let tampers: [(&str, Tamper); 16] = [
        ("a mark that is none", |state| state.frames[0] = 99),
        ("finished, not at a Return", |state| {
            state.frames[0] = 0;
            state.frames[3] = 0
        }),
        ("no activation", |state| state.frames[1] = 0),
        ("17 activations", |state| state.frames[1] = 17),
        ("a prototype that isn't there", |state| state.frames[2] = 1),
        ("an instruction that isn't there", |state| {
            state.frames[3] = 2
        }),
        ("a register of no kind", |state| state.kinds[1] = 6),
        ("a boolean of 2", |state| {
            state.kinds[1] = 1;
            state.words[1] = 2
        }),
        ("a string that isn't there", |state| state.kinds[1] = 4),
        ("a function of a free entry", |state| state.kinds[1] = 5),
        ("a function of an entry that isn't there", |state| {
            state.kinds[1] = 5;
            state.words[1] = 64
        }),
        ("the first activation has a function", |state| {
            state.frames[34] = 1;
            state.frames[50] = 1
        }),
        ("an entry over a free cell", |state| {
            state.frames[50] = 1;
            state.frames[51] = 1
        }),
        ("frames too short", |state| state.frames.truncate(753)),
        ("kinds too short", |state| state.kinds.truncate(2_435)),
        ("no words", |state| state.words.clear()),
    ];
    for (what, tamper) in tampers {
        let mut state = good.clone();
        tamper(&mut state);
        let mut machine = Machine::resume(&image, state.clone());
        for budget in [0, 1, BUDGET] {
            assert_eq!(machine.run(budget), fault, "{what}");
        }
        assert_eq!(machine.standing(), fault, "{what}");
        assert_eq!(machine.values(), [], "{what}");
        assert_eq!(machine.state(), &state, "{what}: nothing is touched");
    }
    assert_eq!(fault.outcome.number(), 60);
    assert_eq!(
        fault.outcome.to_string(),
        "machine fault, the state doesn't fit the image"
    );

    // what is not live may hold anything
    let mut state = good.clone();
    state.kinds[2] = 9;
    state.frames[4] = 1_000;
    state.frames[51] = 7;
    state.kinds[2_308] = 9;
    let mut machine = Machine::resume(&image, state);
    assert_eq!(machine.run(BUDGET).outcome, Outcome::Finished);
}

#[test]
fn seventy() {
    // Jump to itself
    let image = image(&["a00100", "c00e00ffffff", RETURN, "e001"]);
    let mut machine = Machine::start(&image, &[]).unwrap();
    for count in [0, 1, 70, BUDGET] {
        let answer = machine.run(count);
        let paused = Answer {
            outcome: Outcome::Paused,
            count,
            place: at(0, 0),
        };
        assert_eq!(answer, paused);
        assert_eq!(machine.standing().outcome, Outcome::Paused);
        assert_eq!(machine.values(), []);
    }
    assert_eq!(Outcome::Paused.number(), 70);
    assert_eq!(Outcome::Paused.to_string(), "paused, its budget is used");
}
