//! Which operand an error names (document 02, 5/12): every operator on every pair of the values below, the controls of loops, and
//! what a state keeps of it.

mod common;

use common::{at, image, integer, mark, named, BUDGET};
use deletion_machine::{
    Answer, Image, LuaError, LuaErrorKind, Machine, Operand, Outcome, State, Value,
};

/// What arithmetic and bit operations take a value for.
#[derive(Clone, Copy, PartialEq)]
enum Figure {
    None,
    /// The integer 0.
    Zero,
    /// Any other integer.
    Integer,
    /// A number that equals an integer.
    Whole,
    /// A number that equals none of 64 bits.
    Fraction,
}

/// What comparisons and loops take a value for.
#[derive(Clone, Copy, PartialEq)]
enum Order {
    None,
    Number,
    Text,
}

/// A value, and what the operators take it for.
struct Sample {
    /// The line of its constant. A function has none.
    line: &'static str,
    figure: Figure,
    order: Order,
}

const fn sample(line: &'static str, figure: Figure, order: Order) -> Sample {
    Sample {
        line,
        figure,
        order,
    }
}

const FUNCTION: &str = "";
const SAMPLES: [Sample; 22] = [
    sample("b000", Figure::None, Order::None),
    sample("b00100", Figure::None, Order::None),
    sample(FUNCTION, Figure::None, Order::None),
    sample("b0020000000000000000", Figure::Zero, Order::Number),
    sample("b0020000000000000007", Figure::Integer, Order::Number),
    sample("b0028000000000000000", Figure::Integer, Order::Number),
    // 0.0, -0.0, 3.0, -2^63
    sample("b0030000000000000000", Figure::Whole, Order::Number),
    sample("b0038000000000000000", Figure::Whole, Order::Number),
    sample("b0034008000000000000", Figure::Whole, Order::Number),
    sample("b003c3e0000000000000", Figure::Whole, Order::Number),
    // 2^63, 1.5, infinity, NaN
    sample("b00343e0000000000000", Figure::Fraction, Order::Number),
    sample("b0033ff8000000000000", Figure::Fraction, Order::Number),
    sample("b0037ff0000000000000", Figure::Fraction, Order::Number),
    sample("b0037ff8000000000000", Figure::Fraction, Order::Number),
    // "7", " 0x0"
    sample("b00437", Figure::Integer, Order::Text),
    sample("b00420307830", Figure::Zero, Order::Text),
    // "0.0", "1e18"
    sample("b004302e30", Figure::Whole, Order::Text),
    sample("b00431653138", Figure::Whole, Order::Text),
    // "1.5", "1e19"
    sample("b004312e35", Figure::Fraction, Order::Text),
    sample("b00431653139", Figure::Fraction, Order::Text),
    // "seven", and 2^63 with all its 19 digits
    sample("b004736576656e", Figure::None, Order::Text),
    sample(
        "b00439323233333732303336383534373735383038",
        Figure::None,
        Order::Text,
    ),
];

fn error(kind: LuaErrorKind, operand: Operand) -> Option<LuaError> {
    Some(LuaError {
        kind,
        operand: Some(operand),
    })
}

const ARITHMETIC: [(u8, LuaErrorKind, Option<LuaErrorKind>); 6] = [
    (33, LuaErrorKind::Add, None),
    (34, LuaErrorKind::Subtract, None),
    (35, LuaErrorKind::Multiply, None),
    (36, LuaErrorKind::FloatDivide, None),
    (
        37,
        LuaErrorKind::FloorDivide,
        Some(LuaErrorKind::FloorDivideByZero),
    ),
    (38, LuaErrorKind::Modulo, Some(LuaErrorKind::ModuloByZero)),
];
const BITS: [(u8, LuaErrorKind); 5] = [
    (40, LuaErrorKind::BitAnd),
    (41, LuaErrorKind::BitOr),
    (42, LuaErrorKind::BitXor),
    (43, LuaErrorKind::ShiftLeft),
    (44, LuaErrorKind::ShiftRight),
];
const COMPARISONS: [(u8, LuaErrorKind); 2] =
    [(28, LuaErrorKind::LessThan), (29, LuaErrorKind::LessEqual)];

fn is_number(sample: &Sample) -> bool {
    sample.figure != Figure::None
}

fn is_integer(sample: &Sample) -> bool {
    matches!(sample.figure, Figure::Zero | Figure::Integer)
}

fn has_integer(sample: &Sample) -> bool {
    is_integer(sample) || sample.figure == Figure::Whole
}

/// The first of two that is unfit.
fn first_unfit(left: bool, right: bool) -> Option<Operand> {
    match (left, right) {
        (false, _) => Some(Operand::First),
        (true, false) => Some(Operand::Second),
        (true, true) => None,
    }
}

/// Runs an image to its end; sees that the mark keeps the error, if any, and that it is answered again. Answers it.
fn raised(image: &Image, count: u32) -> Option<LuaError> {
    let mut machine = Machine::start(image, &[]).unwrap();
    assert_eq!(machine.state().frames[0], 70);
    let answer = machine.run(BUDGET);
    assert_eq!(machine.state().frames[0], mark(&answer.outcome));
    let again = Answer { count: 0, ..answer };
    let state = machine.state().clone();
    for budget in [0, 1, BUDGET] {
        assert_eq!(machine.run(budget), again);
    }
    assert_eq!(machine.standing(), again);
    assert_eq!(machine.state(), &state);
    match answer.outcome {
        Outcome::Finished => None,
        Outcome::Failed(error) => {
            assert_eq!(
                (answer.count, answer.place.instruction as u32),
                (count, count - 1)
            );
            Some(error)
        }
        other => panic!("{other}"),
    }
}

const RETURN: &str = "c00c00000000";

/// An image that loads values into the registers from 0 on, then has an instruction, which may skip or go on.
fn loading(samples: &[&Sample], instruction: &str) -> Image {
    let constants = samples.iter().map(|sample| match sample.line {
        FUNCTION => "b000".to_string(),
        line => line.to_string(),
    });
    let loads = samples
        .iter()
        .enumerate()
        .map(|(i, sample)| match sample.line {
            FUNCTION => format!("c01100{i:02x}0000"),
            _ => format!("c00100{i:02x}{i:04x}"),
        });
    let ends = [instruction, RETURN, RETURN, "e001"].map(String::from);
    let lines: Vec<String> = ["a00400".to_string()]
        .into_iter()
        .chain(constants)
        .chain(loads)
        .chain(ends)
        .collect();
    image(&lines)
}

/// What an operator with two operands raises, as registers and as constants.
fn of_two(operation: u8, left: &Sample, right: &Sample) -> Option<LuaError> {
    let samples = [left, right];
    let of_registers = raised(&loading(&samples, &format!("c0{operation:02x}00000001")), 3);
    if samples.iter().all(|sample| sample.line != FUNCTION) {
        let of_constants = raised(&loading(&samples, &format!("c0{operation:02x}03000001")), 3);
        assert_eq!(of_registers, of_constants);
    }
    of_registers
}

#[test]
fn arithmetic() {
    for (operation, unfit, by_zero) in ARITHMETIC {
        for left in &SAMPLES {
            for right in &SAMPLES {
                let zero = is_integer(left) && right.figure == Figure::Zero;
                let expected = match (first_unfit(is_number(left), is_number(right)), by_zero) {
                    (Some(operand), _) => error(unfit, operand),
                    (None, Some(kind)) if zero => error(kind, Operand::Second),
                    (None, _) => None,
                };
                let said = of_two(operation, left, right);
                assert_eq!(
                    said, expected,
                    "{operation}: {} and {}",
                    left.line, right.line
                );
            }
        }
    }
}

#[test]
fn bit_operations() {
    for (operation, unfit) in BITS {
        for left in &SAMPLES {
            for right in &SAMPLES {
                let operand = first_unfit(has_integer(left), has_integer(right));
                let expected = operand.and_then(|operand| error(unfit, operand));
                let said = of_two(operation, left, right);
                assert_eq!(
                    said, expected,
                    "{operation}: {} and {}",
                    left.line, right.line
                );
            }
        }
    }
}

#[test]
fn comparisons() {
    for (operation, unfit) in COMPARISONS {
        for left in &SAMPLES {
            for right in &SAMPLES {
                let expected = match (left.order, right.order) {
                    (Order::None, _) => error(unfit, Operand::First),
                    (Order::Number, Order::Number) | (Order::Text, Order::Text) => None,
                    (Order::Number | Order::Text, _) => error(unfit, Operand::Second),
                };
                let said = of_two(operation, left, right);
                assert_eq!(
                    said, expected,
                    "{operation}: {} and {}",
                    left.line, right.line
                );
            }
        }
    }
    // Eq raises nothing
    for left in &SAMPLES {
        for right in &SAMPLES {
            assert_eq!(of_two(27, left, right), None);
        }
    }
}

#[test]
fn one_operand() {
    for sample in &SAMPLES {
        let minus = raised(&loading(&[sample], "c01f00000000"), 2);
        let unfit = error(LuaErrorKind::UnaryNegate, Operand::First);
        assert_eq!(
            minus,
            unfit.filter(|_| !is_number(sample)),
            "{}",
            sample.line
        );
        let not = raised(&loading(&[sample], "c02000000000"), 2);
        let unfit = error(LuaErrorKind::BitNot, Operand::First);
        assert_eq!(
            not,
            unfit.filter(|_| !has_integer(sample)),
            "{}",
            sample.line
        );
    }
}

#[test]
fn controls_of_loops() {
    let operands = [Operand::First, Operand::Second, Operand::Third];
    for index in &SAMPLES {
        for limit in &SAMPLES {
            for step in &SAMPLES {
                let controls = [index, limit, step];
                let first_of = |looked_at: &[usize]| {
                    looked_at
                        .iter()
                        .find(|&&i| controls[i].order != Order::Number)
                        .map(|&i| operands[i])
                };
                for (operation, unfit, looked_at) in [
                    (18, LuaErrorKind::Subtract, &[0, 2][..]),
                    (19, LuaErrorKind::Add, &[0, 1, 2]),
                ] {
                    let said = raised(
                        &loading(&controls, &format!("c0{operation:02x}00000000")),
                        4,
                    );
                    let expected = first_of(looked_at).and_then(|operand| error(unfit, operand));
                    assert_eq!(
                        said, expected,
                        "{operation}: {}, {}, {}",
                        index.line, limit.line, step.line
                    );
                }
            }
        }
    }
}

// ---- what a state keeps

fn is_lua_error(number: u8) -> bool {
    matches!(number, 30..=46 | 50..=54)
}

/// The marks to try: every number with every byte as its operand, and with each bit above that byte.
fn marks() -> impl Iterator<Item = u64> {
    let bits = (8..56).map(|bit| 1 << bit);
    let kept: Vec<u64> = (0..=255).chain(bits).chain([u64::MAX / 256]).collect();
    (0..=255).flat_map(move |number| {
        kept.clone()
            .into_iter()
            .map(move |kept| number + 256 * kept)
    })
}

/// An image of a LoadNil of two registers, then a Return of them, and the state of a machine that is about to return.
fn about_to_return() -> (Image, State) {
    let image = image(&["a00200", "c00300000200", "c00c00000200", "e001"]);
    let mut machine = Machine::start(&image, &[]).unwrap();
    machine.run(1);
    let state = machine.into_state();
    (image, state)
}

#[test]
fn every_mark() {
    let (image, good) = about_to_return();
    let (mut unfit, mut failed) = (0, 0);
    for kept in marks() {
        let mut state = good.clone();
        state.frames[0] = kept;
        let mut machine = Machine::resume(&image, state.clone());
        let (number, operand) = ((kept % 256) as u8, kept / 256);
        let fits = operand <= 3 && (number == 0 || number == 70 || is_lua_error(number));
        let expected = if fits { number } else { 60 };

        let answer = machine.run(0);
        assert_eq!(answer.outcome.number(), expected, "{kept:#x}");
        assert_eq!(answer.count, 0);
        assert_eq!(answer.place, if fits { at(0, 1) } else { at(0, 0) });
        let expected_operand = if is_lua_error(expected) { operand } else { 0 };
        assert_eq!(
            named(answer.outcome.operand()),
            expected_operand,
            "{kept:#x}"
        );
        assert_eq!(machine.standing(), answer);
        assert_eq!(machine.state(), &state, "{kept:#x}: nothing is touched");
        let values: &[Value] = if answer.outcome == Outcome::Finished {
            &[Value::Nil; 2]
        } else {
            &[]
        };
        assert_eq!(machine.values(), values);

        if answer.outcome == Outcome::Paused {
            assert_eq!(machine.run(1).outcome, Outcome::Finished);
            assert_eq!(machine.state().frames[0], 0, "finishing keeps no operand");
        } else {
            assert_eq!(machine.run(BUDGET), answer);
            assert_eq!(machine.state(), &state, "{kept:#x}: nothing is touched");
        }
        unfit += !fits as usize;
        failed += is_lua_error(expected) as usize;
    }
    assert_eq!(failed, 22 * 4);
    // of 256 numbers with 305 operands each, those of 24 with 0 to 3 fit
    assert_eq!(unfit, 256 * (256 + 48 + 1) - 24 * 4);
}

#[test]
fn a_kept_operand_that_no_run_leaves() {
    let (image, mut state) = about_to_return();
    state.frames[0] = 50 + 256;
    let mut machine = Machine::resume(&image, state);
    let outcome = Outcome::Failed(LuaError {
        kind: LuaErrorKind::NotAFunction,
        operand: Some(Operand::First),
    });
    let answer = machine.run(BUDGET);
    assert_eq!(answer.outcome, outcome);
    assert_eq!(
        answer.to_string(),
        "prototype 0, instruction 1: a call of a value that is not a function (0 instructions)"
    );
}

#[test]
fn a_running_machine_leaves_the_kept_operand_alone() {
    let seven = integer(7);
    // a jump, a LoadNil, then what ends it, and the mark then
    for (end, marked) in [
        ("c02202000000", 31 + 256),     // nil - 7
        ("c02501000000", 34 + 256 * 2), // 7 // nil
        ("c01300000000", 30 + 256),     // a loop of nils
        ("c00a00000000", 50),           // nil()
        ("c00c00000000", 0),
    ] {
        let image = image(&[
            "a00400",
            &seven,
            "c00e00ff0000",
            "c00300000400",
            end,
            RETURN,
            "e001",
        ]);
        for operand in 0..=3 {
            let mut state = Machine::start(&image, &[]).unwrap().into_state();
            state.frames[0] = 70 + 256 * operand;
            let mut machine = Machine::resume(&image, state);
            for budget in [0, 1, 0, 1] {
                assert_eq!(machine.run(budget).outcome, Outcome::Paused);
                assert_eq!(machine.state().frames[0], 70 + 256 * operand);
            }
            let answer = machine.run(1);
            assert_eq!(machine.state().frames[0], marked, "{end}");
            assert_eq!(mark(&answer.outcome), marked, "{end}");
        }
    }
}
