//! What the Rust original answers to the vectors. `constant.rs`, `raw_ops.rs`, `types.rs`, `compiler/lexer.rs` and
//! `thread/vm.rs` are the original's files, unchanged: build.sh puts them beside the others, which stand in for files of
//! it that are not here. Those only hand values on, but for what Call and Return do (thread/thread.rs).
//!
//! `oracle lists FOLDER` writes every operator on every pair of FOLDER/values.txt and FOLDER/strings.txt, and `%` on every
//! pair of FOLDER/remainders.txt, in the format of lua_vectors.lua; `p` is a panic. `oracle loops FOLDER` writes
//! NumericForLoop on every index, limit and step that values.txt marks: the new index, and whether it is past the end.
//! `oracle facts` writes what single inputs give.
//! `oracle images` and `oracle steps` run whole images and single steps from standard input: images.rs says how.
//! `oracle figures` writes what `read_integer` and `read_float` make of each line of standard input, a string in hexadecimal.
#![allow(dead_code)]

mod constant;
mod images;
mod meta_ops;
mod opcode;
mod raw_ops;
mod table;
mod thread;
mod types;
mod value;
mod compiler {
    pub mod lexer;

    pub trait StringInterner {
        type String: AsRef<[u8]> + Clone;
        fn intern(&mut self, s: &[u8]) -> Self::String;
    }
}

pub use constant::Constant;
pub use table::Table;
pub use value::{Closure, Context, Function, RuntimeError, String, Value};

use opcode::{Operation, RCIndex};
use std::{
    panic::{catch_unwind, AssertUnwindSafe},
    string::String as Text,
};
use thread::run_one;
use types::{Opt254, RegisterIndex, VarCount};

/// What is reached only where a file that is not here would be needed. It ends the run, where a panic would be taken for
/// one of the original's.
pub fn absent() -> ! {
    std::process::abort()
}

fn word(x: f64) -> u64 {
    if x.is_nan() {
        0x7ff8_0000_0000_0000
    } else {
        x.to_bits()
    }
}

fn shown_value(answer: Option<Value>) -> Text {
    match answer {
        None => "e".into(),
        Some(Value::Integer(i)) => format!("i{:016x}", i),
        Some(Value::Number(x)) => format!("n{:016x}", word(x)),
        Some(_) => absent(),
    }
}

fn shown_bool(answer: Option<bool>) -> Text {
    match answer {
        None => "e".into(),
        Some(true) => "t".into(),
        Some(false) => "f".into(),
    }
}

fn or_panic(f: impl FnOnce() -> Text) -> Text {
    catch_unwind(AssertUnwindSafe(f)).unwrap_or("p".into())
}

type Unary = for<'gc> fn(Value<'gc>) -> Option<Value<'gc>>;
type Binary = for<'gc> fn(Value<'gc>, Value<'gc>) -> Option<Value<'gc>>;
type Test = for<'gc> fn(Value<'gc>, Value<'gc>) -> Option<bool>;

fn is_equal<'gc>(a: Value<'gc>, b: Value<'gc>) -> Option<bool> {
    Some(a.to_constant()?.is_equal(&b.to_constant()?))
}

// Operation and error number, both hexadecimal and of document 01; the name; the operator.
const UNARY: [(&str, &str, Unary); 2] =
    [("1f 24", "negate", raw_ops::negate), ("20 28", "bitwise_not", raw_ops::bitwise_not)];
const BINARY: [(&str, &str, Binary); 11] = [
    ("21 1e", "add", raw_ops::add),
    ("22 1f", "subtract", raw_ops::subtract),
    ("23 20", "multiply", raw_ops::multiply),
    ("24 21", "float_divide", raw_ops::float_divide),
    ("25 22", "floor_divide", raw_ops::floor_divide),
    ("26 23", "modulo", raw_ops::modulo),
    ("28 25", "bitwise_and", raw_ops::bitwise_and),
    ("29 26", "bitwise_or", raw_ops::bitwise_or),
    ("2a 27", "bitwise_xor", raw_ops::bitwise_xor),
    ("2b 29", "shift_left", raw_ops::shift_left),
    ("2c 2a", "shift_right", raw_ops::shift_right),
];
const TESTS: [(&str, &str, Test); 3] = [
    ("1b 00", "is_equal", is_equal),
    ("1c 2b", "less_than", raw_ops::less_than),
    ("1d 2c", "less_equal", raw_ops::less_equal),
];

fn bytes_of(hex: &str) -> Vec<u8> {
    (0..hex.len() / 2).map(|i| u8::from_str_radix(&hex[2 * i..2 * i + 2], 16).unwrap()).collect()
}

/// A value of values.txt.
fn value_of(line: &str) -> Value<'static> {
    let word = u64::from_str_radix(&line[2..18], 16).unwrap();
    match &line[0..1] {
        "0" => Value::Nil,
        "1" => Value::Boolean(word == 1),
        "2" => Value::Integer(word as i64),
        "3" => Value::Number(f64::from_bits(word)),
        _ => absent(),
    }
}

fn read(folder: &str, name: &str) -> Vec<Text> {
    let text = std::fs::read_to_string(format!("{}/{}", folder, name)).unwrap();
    text.lines().filter(|line| !line.starts_with('#')).map(Text::from).collect()
}

fn head(numbers: &str, count: usize, name: &str) {
    println!("o{} {:06x} rust {}", numbers, count, name);
}

fn table<'gc>(numbers: &str, name: &str, values: &[Value<'gc>], f: impl Fn(Value<'gc>, Value<'gc>) -> Text) {
    head(numbers, values.len() * values.len(), name);
    for &a in values {
        println!("{}", values.iter().map(|&b| or_panic(|| f(a, b))).collect::<Text>());
    }
}

/// The values of a file, which it writes too.
fn values_of(folder: &str, name: &str) -> Vec<Value<'static>> {
    let lines = read(folder, name);
    println!("w{:02x}", lines.len());
    for line in &lines {
        println!("v{}", &line[0..18]);
    }
    lines.iter().map(|line| value_of(line)).collect()
}

fn lists(folder: &str) {
    let values = values_of(folder, "values.txt");
    for (numbers, name, op) in UNARY {
        head(numbers, values.len(), name);
        println!("{}", values.iter().map(|&a| or_panic(|| shown_value(op(a)))).collect::<Text>());
    }
    for (numbers, name, op) in BINARY {
        table(numbers, name, &values, |a, b| shown_value(op(a, b)));
    }
    for (numbers, name, op) in TESTS {
        table(numbers, name, &values, |a, b| shown_bool(op(a, b)));
    }

    let lines = read(folder, "strings.txt");
    let hexes: Vec<&str> = lines.iter().map(|line| line.split(' ').next().unwrap()).collect();
    let texts: Vec<Vec<u8>> = hexes.iter().map(|hex| bytes_of(&hex[2..])).collect();
    let strings: Vec<Value> = texts.iter().map(|text| Value::String(String(&text[..]))).collect();
    println!("w{:02x}", hexes.len());
    for hex in hexes {
        println!("s{} {}", &hex[..2], &hex[2..]);
    }
    for (numbers, name, op) in TESTS {
        table(numbers, &format!("strings {}", name), &strings, |a, b| shown_bool(op(a, b)));
    }

    let remainders = values_of(folder, "remainders.txt");
    table("26 23", "hard numbers modulo", &remainders, |a, b| shown_value(raw_ops::modulo(a, b)));
}

/// NumericForLoop at instruction 0 with offset 1: the new index, and whether the loop is past its end.
fn loop_once<'gc>(index: Value<'gc>, limit: Value<'gc>, step: Value<'gc>) -> Text {
    let mut registers = [index, limit, step, Value::Nil];
    match run_one(Operation::NumericForLoop { base: RegisterIndex(0), jump: 1 }, 0, &mut registers) {
        Ok(next) => shown_value(Some(registers[0])) + if next == 1 { "t" } else { "f" },
        Err(_) => "e".into(),
    }
}

/// NumericForPrep at instruction 0: the index that it leaves.
fn prepared<'gc>(index: Value<'gc>, limit: Value<'gc>, step: Value<'gc>) -> Text {
    let mut registers = [index, limit, step];
    match run_one(Operation::NumericForPrep { base: RegisterIndex(0), jump: 0 }, 0, &mut registers) {
        Ok(_) => shown_value(Some(registers[0])),
        Err(_) => "e".into(),
    }
}

fn loops(folder: &str) {
    let marked: Vec<Text> = read(folder, "values.txt").into_iter().filter(|line| &line[19..20] == "*").collect();
    for index in &marked {
        for limit in &marked {
            for step in &marked {
                let answer = or_panic(|| loop_once(value_of(index), value_of(limit), value_of(step)));
                println!("{} {} {} {}", &index[0..18], &limit[0..18], &step[0..18], answer);
            }
        }
    }
}

/// The error that an operation raises, by its name in `BinaryOperatorError`.
fn raised(op: Operation) -> Text {
    match run_one(op, 0, &mut [Value::Nil; 4]) {
        Err(RuntimeError::Operator(error)) => format!("{:?}", error),
        _ => "none".into(),
    }
}

fn facts() {
    let text = |s: &'static str| Value::String(String(s.as_bytes()));
    let integer = Value::Integer;
    let fact = |input: &str, f: &dyn Fn() -> Text| println!("{}\t{}", input, or_panic(f));
    fact("1 % 9223372036854775807", &|| shown_value(raw_ops::modulo(integer(1), integer(i64::MAX))));
    for (a, b) in [
        (1.0, f64::INFINITY),
        (-1.0, f64::INFINITY),
        (-4.0, 2.0),
        (4.0, -2.0),
        (1e-20, 1.0),
        (-1e-20, 1.0),
        (1e308, 1.7e308),
    ] {
        fact(&format!("{:?} % {:?}", a, b), &|| shown_value(raw_ops::modulo(Value::Number(a), Value::Number(b))));
    }
    fact("1 << 64", &|| shown_value(raw_ops::shift_left(integer(1), integer(64))));
    fact("1 >> 64", &|| shown_value(raw_ops::shift_right(integer(1), integer(64))));
    for (name, op, right) in [
        ("\"0\" + 0", raw_ops::add as Binary, 0),
        ("\"0\" - 0", raw_ops::subtract, 0),
        ("\"0\" * 0", raw_ops::multiply, 0),
        ("\"0\" / 0", raw_ops::float_divide, 0),
        ("\"0\" // 1", raw_ops::floor_divide, 1),
        ("\"0\" % 1", raw_ops::modulo, 1),
    ] {
        fact(name, &|| shown_value(op(text("0"), integer(right))));
    }
    for (sign, op) in [
        ("&", raw_ops::bitwise_and as Binary),
        ("|", raw_ops::bitwise_or),
        ("~", raw_ops::bitwise_xor),
        ("<<", raw_ops::shift_left),
        (">>", raw_ops::shift_right),
    ] {
        for digits in ["1", "0", ""] {
            fact(&format!("\"{}\" {} 0", digits, sign), &|| shown_value(op(text(digits), integer(0))));
        }
    }
    for digits in ["3", "1", "0", ""] {
        fact(&format!("~\"{}\"", digits), &|| shown_value(raw_ops::bitwise_not(text(digits))));
    }
    fact("-\"0\"", &|| shown_value(raw_ops::negate(text("0"))));
    for (left, sign, op, right) in [
        ("10", "+", raw_ops::add as Binary, 1),
        ("10", "/", raw_ops::float_divide, 4),
        ("0", "//", raw_ops::floor_divide, 0),
        ("1", "//", raw_ops::floor_divide, 0),
        ("0", "%", raw_ops::modulo, 0),
        (" 0", "+", raw_ops::add, 0),
        ("0 ", "+", raw_ops::add, 0),
        (" 0", "|", raw_ops::bitwise_or, 0),
        ("0x8000000000000000", "+", raw_ops::add, 0),
        ("0x8000000000000000", "|", raw_ops::bitwise_or, 0),
        ("0xffffffffffffffff", "|", raw_ops::bitwise_or, 0),
        ("0x200000000000010", "/", raw_ops::float_divide, 1),
        ("0x200000000000011", "/", raw_ops::float_divide, 1),
        ("-9223372036854775808", "+", raw_ops::add, 0),
        ("-9223372036854775808", "|", raw_ops::bitwise_or, 0),
        ("9223372036854775808", "+", raw_ops::add, 0),
        ("9223372036854775808", "|", raw_ops::bitwise_or, 0),
        ("1e23", "+", raw_ops::add, 0),
        ("1e-23", "+", raw_ops::add, 0),
        ("0.1000000000000001", "+", raw_ops::add, 0),
        ("0x.8", "+", raw_ops::add, 0),
        ("0x0p0", "|", raw_ops::bitwise_or, 0),
        ("inf", "+", raw_ops::add, 0),
        ("nan", "+", raw_ops::add, 0),
        ("0x", "|", raw_ops::bitwise_or, 0),
        ("-", "|", raw_ops::bitwise_or, 0),
        ("0x", "+", raw_ops::add, 0),
        ("", "+", raw_ops::add, 0),
        ("3.0", "|", raw_ops::bitwise_or, 0),
        ("1.5", "|", raw_ops::bitwise_or, 0),
    ] {
        fact(&format!("\"{}\" {} {}", left, sign, right), &|| shown_value(op(text(left), integer(right))));
    }
    for digits in ["-9223372036854775808", "-9223372036854775807", "0x8000000000000000", " 1"] {
        fact(&format!("read_integer(\"{}\")", digits), &|| {
            format!("{:?}", compiler::lexer::read_integer(digits.as_bytes()))
        });
    }
    fact("\"0\" < 0", &|| shown_bool(raw_ops::less_than(text("0"), integer(0))));
    fact("\"0\" <= 0", &|| shown_bool(raw_ops::less_equal(text("0"), integer(0))));
    fact("\"1\" < 2", &|| shown_bool(raw_ops::less_than(text("1"), integer(2))));
    fact("1 <= \"2\"", &|| shown_bool(raw_ops::less_equal(integer(1), text("2"))));
    fact("\"1\" == 1", &|| shown_bool(is_equal(text("1"), integer(1))));
    fact("-(the NaN 7ff8000000000000), its bits", &|| match raw_ops::negate(Value::Number(f64::from_bits(
        0x7ff8_0000_0000_0000,
    ))) {
        Some(Value::Number(x)) => format!("{:016x}", x.to_bits()),
        _ => absent(),
    });
    fact("NumericForLoop on \"0\", 0, 0", &|| loop_once(text("0"), integer(0), integer(0)));
    fact("NumericForLoop on 0, \"0\", 0", &|| loop_once(integer(0), text("0"), integer(0)));
    fact("NumericForLoop on 0, 0, \"0\"", &|| loop_once(integer(0), integer(0), text("0")));
    fact("NumericForPrep on \"0\", 0, 0", &|| prepared(text("0"), integer(0), integer(0)));
    fact("NumericForPrep on \"1\", 3, 1", &|| prepared(text("1"), integer(3), integer(1)));
    fact("NumericForPrep on 0, 0, \"0\"", &|| prepared(integer(0), integer(0), text("0")));

    let (dest, nil) = (RegisterIndex(0), RCIndex::Register(RegisterIndex(0)));
    fact("nil + nil raises", &|| raised(Operation::Add { dest, left: nil, right: nil }));
    fact("nil - nil raises", &|| raised(Operation::Sub { dest, left: nil, right: nil }));
    fact("nil * nil raises", &|| raised(Operation::Mul { dest, left: nil, right: nil }));
    fact("NumericForPrep on nil raises", &|| raised(Operation::NumericForPrep { base: dest, jump: 0 }));
    fact("NumericForLoop on nil raises", &|| raised(Operation::NumericForLoop { base: dest, jump: 0 }));

    let jump = |pc, offset| {
        let op = Operation::Jump { offset, close_upvalues: Opt254::none() };
        run_one(op, pc, &mut []).map_or("error".into(), |next| next.to_string())
    };
    fact("Jump by -32767 at instruction 32767 goes to", &|| jump(32767, -32767));
    fact("Jump by -32768 at instruction 32767 goes to", &|| jump(32767, -32768));
    fact("Opt254::some(254).to_u8()", &|| format!("{:?}", Opt254::some(254).to_u8()));
    fact("Opt254::try_some(255)", &|| format!("{:?}", Opt254::try_some(255)));
    fact("Opt254::some(255)", &|| format!("{:?}", Opt254::some(255)));
    fact("Opt254::new(Some(255))", &|| format!("{:?}", Opt254::new(Some(255))));
    fact("VarCount::constant(255)", &|| format!("{:?}", VarCount::constant(255)));
}

fn figures() {
    use compiler::lexer::{read_float, read_integer};
    for line in std::io::stdin().lines() {
        let text = bytes_of(&line.unwrap());
        let integer = or_panic(|| shown_value(read_integer(&text).map(Value::Integer)));
        let number = or_panic(|| shown_value(read_float(&text).map(Value::Number)));
        println!("{} {}", integer, number);
    }
}

fn main() {
    std::panic::set_hook(Box::new(|_| {}));
    let args: Vec<Text> = std::env::args().collect();
    match args[1].as_str() {
        "lists" => lists(&args[2]),
        "loops" => loops(&args[2]),
        "facts" => facts(),
        "figures" => figures(),
        "images" => images::answer(true),
        "steps" => images::answer(false),
        _ => absent(),
    }
}
