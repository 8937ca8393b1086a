//! What the tests share: the program of document 01 as a host would write it, images in pieces, and random numbers.
#![allow(dead_code)]

use deletion_machine::{Answer, Image, Machine, Operand, Outcome, Place, StartError, Value};
use std::fmt::Write;
use std::io;
use std::path::PathBuf;
use std::sync::Once;

/// The budget of document 01's program.
pub const BUDGET: u32 = 1_000_000;

/// An image of these lines.
pub fn text<S: AsRef<str>>(lines: &[S]) -> Vec<u8> {
    lines
        .iter()
        .flat_map(|line| [line.as_ref(), "\n"])
        .collect::<String>()
        .into_bytes()
}

/// An image of these lines, read.
pub fn image<S: AsRef<str>>(lines: &[S]) -> Image {
    Image::read(&text(lines)).expect("the test's image reads")
}

/// A place.
pub fn at(prototype: usize, instruction: usize) -> Place {
    Place {
        prototype,
        instruction,
    }
}

/// A line of an integer constant.
pub fn integer(i: i64) -> String {
    format!("b002{i:016x}")
}

/// A file of the repository, by its path there.
pub fn repository(path: &str) -> PathBuf {
    PathBuf::from(concat!(env!("CARGO_MANIFEST_DIR"), "/..")).join(path)
}

/// What such a file has in it.
pub fn file(path: &str) -> Vec<u8> {
    let path = repository(path);
    std::fs::read(&path).unwrap_or_else(|error| panic!("{}: {error}", path.display()))
}

/// A C program that was built over the same library, from the folder that DELETION_MACHINE_C names. `tools/hosts` builds them
/// there. Without it, it is said once that this part of the tests is left out.
pub fn c_program(name: &str) -> Option<PathBuf> {
    static SAID: Once = Once::new();
    let folder = std::env::var_os("DELETION_MACHINE_C");
    if folder.is_none() {
        SAID.call_once(|| {
            // not by a macro, whose lines are seen of failing tests alone
            let note = b"nothing is compared with C: DELETION_MACHINE_C is not set (tools/hosts sets it)\n";
            let _ = io::Write::write_all(&mut io::stderr(), note);
        });
    }
    folder.map(|folder| PathBuf::from(folder).join(name))
}

/// The rules of the repository's `examples` that take no arguments: name, image, and the lines that the program writes for it.
pub fn rules() -> Vec<(&'static str, Vec<u8>, String)> {
    [
        "seven-years",
        "by-class",
        "thin-backups",
        "years-as-text",
        "sundays",
    ]
    .into_iter()
    .map(|name| {
        let result = file(&format!("examples/{name}.result"));
        let image = file(&format!("examples/{name}.image"));
        (name, image, String::from_utf8(result).unwrap())
    })
    .collect()
}

/// The mark of a machine that ended so.
pub fn mark(outcome: &Outcome) -> u64 {
    u64::from(outcome.number()) + 256 * named(outcome.operand())
}

/// The number of an operand that is named, or 0.
pub fn named(operand: Option<Operand>) -> u64 {
    operand.map_or(0, |operand| operand.number().into())
}

/// The first line that the program writes: answer, count, prototype, instruction or line, and the operand that is named.
pub fn f0(number: u8, count: u32, place: Place, operand: Option<Operand>) -> String {
    let Place {
        prototype,
        instruction,
    } = place;
    let operand = named(operand);
    format!("f0{number:02x}{count:08x}{prototype:02x}{instruction:04x}{operand:02x}\n")
}

/// The line that the program writes for a returned value.
pub fn b0(value: &Value<'_>) -> String {
    let mut line = String::from("b0");
    match value {
        Value::Nil => line.push_str("00"),
        Value::Boolean(b) => write!(line, "01{:02x}", *b as u8).unwrap(),
        Value::Integer(i) => write!(line, "02{i:016x}").unwrap(),
        Value::Number(x) => write!(line, "03{:016x}", x.to_bits()).unwrap(),
        Value::String(bytes) => {
            line.push_str("04");
            for byte in *bytes {
                write!(line, "{byte:02x}").unwrap();
            }
        }
        Value::Function { prototype, .. } => write!(line, "05{prototype:02x}").unwrap(),
        other => panic!("the program has no line for {other}"),
    }
    line.push('\n');
    line
}

/// What the program writes for a machine's answer.
pub fn output<I: AsRef<Image>>(answer: &Answer, machine: &Machine<I>) -> String {
    let outcome = answer.outcome;
    let mut out = f0(
        outcome.number(),
        answer.count,
        answer.place,
        outcome.operand(),
    );
    if outcome == Outcome::Finished {
        out.extend(machine.values().iter().map(b0));
    }
    out
}

/// What the program writes for an image.
pub fn program(text: &[u8]) -> String {
    let image = match Image::read(text) {
        Ok(image) => image,
        Err(error) => return f0(error.number(), 0, at(0, error.line()), None),
    };
    let mut machine = match Machine::start(&image, &[]) {
        Ok(machine) => machine,
        Err(StartError::Check(error)) => return f0(error.number(), 0, error.place(), None),
        Err(other) => unreachable!("no arguments, and {other}"),
    };
    let answer = machine.run(BUDGET);
    output(&answer, &machine)
}

/// Random numbers, the same in every run: xorshift64*.
pub struct Random(u64);

impl Random {
    pub fn new(seed: u64) -> Random {
        Random(seed | 1)
    }

    /// From 0 to `most`.
    pub fn up_to(&mut self, most: u32) -> u32 {
        self.0 ^= self.0 >> 12;
        self.0 ^= self.0 << 25;
        self.0 ^= self.0 >> 27;
        let high = self.0.wrapping_mul(0x2545_f491_4f6c_dd1d) >> 32;
        (high % (u64::from(most) + 1)) as u32
    }
}
