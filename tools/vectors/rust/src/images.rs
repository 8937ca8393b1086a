//! Whole images of document 01 through the original's `run_vm`. From the image come prototypes of the original's own
//! operations; what they do is the original's match arms, and thread/thread.rs's Call and Return.
//!
//! Read from front to back, as in crates/runs/stdin:
//!
//!   # words                a name, written as it is
//!   a0.. b0.. c0.. e0..    a line of an image that the checker accepts; after e0 `run` runs it without arguments
//!   s q.p .. b0.. ..       a state of the image before: its activations' places, the outermost first, and every register
//!                          of their windows; `step` carries out one instruction of it
//!
//! An answer is a line:
//!
//!   0 COUNT b0.. ..        it returned these values, after so many instructions
//!   30 q p                 an error's number in document 01, and the place of the instruction that raised it
//!   panic q p              the same of a panic; `running q p`: the budget is used; `full q p`: so is the stand-in's stack
//!   s ..                   a step's state afterwards
//!
//! NaNs are one.
use crate::{
    absent, bytes_of,
    opcode::{OpCode, Operation, RCIndex},
    thread::{
        run_whole,
        thread::{Activation, FunctionPrototype, Prototypes, Thread},
        vm::BinaryOperatorError,
        Ending,
    },
    types::{ConstantIndex16, ConstantIndex8, Opt254, PrototypeIndex, RegisterIndex, VarCount},
    word, Closure, Constant, Function, RuntimeError, String, Value,
};
use std::{io::BufRead, string::String as Text};

const BUDGET: u32 = 1_000_000;

// ---- the image

type Image = Vec<&'static FunctionPrototype<'static>>;

fn wide(bytes: &[u8]) -> u64 {
    bytes.iter().fold(0, |sum, &byte| sum << 8 | byte as u64)
}

/// A constant from its tag on.
fn constant(bytes: &[u8]) -> Constant<String<'static>> {
    let payload = &bytes[1..];
    match bytes[0] {
        0 => Constant::Nil,
        1 => Constant::Boolean(payload[0] == 1),
        2 => Constant::Integer(wide(payload) as i64),
        3 => Constant::Number(f64::from_bits(wide(payload))),
        4 => Constant::String(String(payload.to_vec().leak())),
        _ => absent(),
    }
}

fn source(is_constant: bool, index: u8) -> RCIndex {
    if is_constant {
        RCIndex::Constant(ConstantIndex8(index))
    } else {
        RCIndex::Register(RegisterIndex(index))
    }
}

/// An instruction: operation, flags, a, b, c. The checker has seen that Jump closes nothing and that no count is open.
fn operation(bytes: &[u8]) -> Operation {
    use Operation::*;
    let &[number, flags, a, b, c] = bytes else { absent() };
    let [dest, second] = [a, b].map(RegisterIndex);
    let [first_is, second_is, third_is] = [a, b, c].map(|byte| byte == 1);
    let (left, right) = (source(flags & 1 != 0, b), source(flags & 2 != 0, c));
    let offset = i16::from_be_bytes([b, c]);
    match number {
        0 => Move { dest, source: second },
        1 => LoadConstant { dest, constant: ConstantIndex16(u16::from_be_bytes([b, c])) },
        2 => LoadBool { dest, value: second_is, skip_next: third_is },
        3 => LoadNil { dest, count: b },
        10 => Call { func: dest, args: VarCount::constant(b), returns: VarCount::constant(c) },
        12 => Return { start: dest, count: VarCount::constant(b) },
        14 => Jump { offset, close_upvalues: Opt254::none() },
        15 => Test { value: dest, is_true: second_is },
        16 => TestSet { dest, value: second, is_true: third_is },
        17 => Closure { proto: PrototypeIndex(b), dest },
        18 => NumericForPrep { base: dest, jump: offset },
        19 => NumericForLoop { base: dest, jump: offset },
        27 => Eq { skip_if: first_is, left, right },
        28 => Less { skip_if: first_is, left, right },
        29 => LessEq { skip_if: first_is, left, right },
        30 => Not { dest, source: second },
        31 => Minus { dest, source: second },
        32 => BitNot { dest, source: second },
        33 => Add { dest, left, right },
        34 => Sub { dest, left, right },
        35 => Mul { dest, left, right },
        36 => Div { dest, left, right },
        37 => IDiv { dest, left, right },
        38 => Mod { dest, left, right },
        40 => BitAnd { dest, left, right },
        41 => BitOr { dest, left, right },
        42 => BitXor { dest, left, right },
        43 => ShiftLeft { dest, left, right },
        44 => ShiftRight { dest, left, right },
        _ => absent(),
    }
}

/// Takes a line of an image to its prototypes.
fn take(prototypes: &mut Vec<FunctionPrototype<'static>>, line: &[u8]) {
    if let &[0xa0, registers, parameters] = line {
        let (number, opcodes, constants, upvalues) = (prototypes.len() as u8, vec![], vec![], vec![]);
        let nested = Prototypes::default();
        let of = FunctionPrototype { number, registers, parameters, opcodes, constants, prototypes: nested, upvalues };
        prototypes.push(of);
        return;
    }
    let last = prototypes.last_mut().unwrap_or_else(|| absent());
    match line[0] {
        0xb0 => last.constants.push(constant(&line[1..])),
        0xc0 => last.opcodes.push(OpCode(operation(&line[1..]))),
        _ => absent(),
    }
}

/// Every prototype may make closures of all. They are leaked, since a closure's lifetime is that of its values.
fn tied(prototypes: Vec<FunctionPrototype<'static>>) -> Image {
    let image: Image = prototypes.into_iter().map(|prototype| &*Box::leak(Box::new(prototype))).collect();
    for prototype in &image {
        let _ = prototype.prototypes.0.set(image.clone());
    }
    image
}

// ---- values and states

fn shown_value(value: Value) -> Text {
    match value {
        Value::Nil => "b000".into(),
        Value::Boolean(b) => format!("b001{:02x}", b as u8),
        Value::Integer(i) => format!("b002{:016x}", i),
        Value::Number(x) => format!("b003{:016x}", word(x)),
        Value::String(s) => s.0.iter().fold("b004".into(), |text, byte| text + &format!("{:02x}", byte)),
        Value::Function(Function::Closure(f)) => format!("b005{:02x}", f.prototype().number),
        Value::Table(_) => absent(),
    }
}

fn shown_values(values: &[Value]) -> Text {
    values.iter().map(|&value| Text::from(" ") + &shown_value(value)).collect()
}

fn value_of(image: &Image, shown: &str) -> Value<'static> {
    let bytes = bytes_of(&shown[2..]);
    if bytes[0] == 5 {
        return Value::Function(Function::Closure(Closure(image[bytes[1] as usize])));
    }
    constant(&bytes).into()
}

fn shown_state(thread: &Thread) -> Text {
    let places = thread.activations.iter().map(|a| format!(" {}.{}", a.closure.prototype().number, a.pc));
    Text::from("s") + &places.collect::<Text>() + &shown_values(&thread.registers)
}

fn state_of(image: &Image, line: &str) -> Thread<'static> {
    let mut thread = Thread::default();
    let mut base = 0;
    for part in line.split(' ').skip(1) {
        if let Some((q, pc)) = part.split_once('.') {
            let prototype = image[q.parse::<usize>().unwrap()];
            thread.activations.push(Activation { closure: Closure(prototype), base, pc: pc.parse().unwrap() });
            base += prototype.registers as usize;
        } else {
            thread.registers.push(value_of(image, part));
        }
    }
    thread
}

// ---- answers

/// Document 01's number of an error.
fn number_of(error: RuntimeError) -> u8 {
    let RuntimeError::Operator(error) = error else {
        return if let RuntimeError::NoFunction = error { 50 } else { absent() };
    };
    match error {
        BinaryOperatorError::Add => 30,
        BinaryOperatorError::Subtract => 31,
        BinaryOperatorError::Multiply => 32,
        BinaryOperatorError::FloatDivide => 33,
        BinaryOperatorError::FloorDivide => 34,
        BinaryOperatorError::Modulo => 35,
        BinaryOperatorError::UnaryNegate => 36,
        BinaryOperatorError::BitAnd => 37,
        BinaryOperatorError::BitOr => 38,
        BinaryOperatorError::BitXor => 39,
        BinaryOperatorError::BitNot => 40,
        BinaryOperatorError::ShiftLeft => 41,
        BinaryOperatorError::ShiftRight => 42,
        BinaryOperatorError::LessThan => 43,
        BinaryOperatorError::LessEqual => 44,
        BinaryOperatorError::Exponentiate => absent(),
    }
}

/// What ended a run, at the innermost activation's place. `run_vm` counts its place up before it carries an instruction
/// out, so the one that raised or panicked stands just before.
fn shown_ending(thread: &Thread, ending: Ending, count: u32) -> Text {
    if let Ending::Returned(values) = ending {
        return format!("0 {}", count) + &shown_values(&values);
    }
    let innermost = thread.innermost();
    let at = |word: &str, p| format!("{} {} {}", word, innermost.closure.prototype().number, p);
    match ending {
        Ending::Raised(error) => at(&number_of(error).to_string(), innermost.pc - 1),
        Ending::Panicked => at("panic", innermost.pc - 1),
        Ending::Full => at("full", innermost.pc),
        _ => at("running", innermost.pc),
    }
}

fn run(image: &Image) -> Text {
    let mut thread = Thread::default();
    thread.enter(Closure(image[0]), &[]);
    let (ending, count) = run_whole(&mut thread, BUDGET);
    shown_ending(&thread, ending, count)
}

fn step(image: &Image, line: &str) -> Text {
    let mut thread = state_of(image, line);
    match run_whole(&mut thread, 1) {
        (Ending::Running, _) => shown_state(&thread),
        (ending, count) => shown_ending(&thread, ending, count),
    }
}

/// Answers the list on standard input: every image where `whole`, every state otherwise.
pub fn answer(whole: bool) {
    let mut prototypes = vec![];
    let mut image = vec![];
    for line in std::io::stdin().lock().lines() {
        let line = line.unwrap();
        match line.as_bytes()[0] {
            b'#' => println!("{}", line),
            b's' => println!("{}", step(&image, &line)),
            b'e' => {
                image = tied(std::mem::take(&mut prototypes));
                if whole {
                    println!("{}", run(&image));
                }
            }
            _ => take(&mut prototypes, &bytes_of(&line)),
        }
    }
}
