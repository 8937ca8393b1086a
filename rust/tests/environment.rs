//! What a host has to leave alone: the floating-point environment of the thread that runs a machine. The proofs speak of
//! rounding to nearest with subnormal numbers; under another mode a run still ends as it should, with other numbers.
#![cfg(any(target_arch = "x86_64", target_arch = "aarch64"))]

mod common;

use common::{image, output, BUDGET};
use deletion_machine::{Image, Machine};

/// The control word of the processor's floating point, and which bits of it are the modes.
#[cfg(target_arch = "x86_64")]
mod control {
    use std::arch::asm;

    pub const UPWARD: u64 = 2 << 13;
    pub const FLUSH: u64 = 1 << 15 | 1 << 6;

    pub fn get() -> u64 {
        let mut word = 0u32;
        let place: *mut u32 = &mut word;
        unsafe { asm!("stmxcsr [{}]", in(reg) place) };
        u64::from(word)
    }

    pub fn set(word: u64) {
        let word = word as u32;
        let place: *const u32 = &word;
        unsafe { asm!("ldmxcsr [{}]", in(reg) place) };
    }
}

#[cfg(target_arch = "aarch64")]
mod control {
    use std::arch::asm;

    pub const UPWARD: u64 = 1 << 22;
    pub const FLUSH: u64 = 1 << 24;

    pub fn get() -> u64 {
        let word: u64;
        unsafe { asm!("mrs {}, fpcr", out(reg) word) };
        word
    }

    pub fn set(word: u64) {
        unsafe { asm!("msr fpcr, {}", in(reg) word) };
    }
}

/// What the program writes for an image that is run in this mode. No number is touched in between but by the machine.
fn in_mode(image: &Image, mode: u64) -> String {
    let mut machine = Machine::start(image, &[]).unwrap();
    let before = control::get();
    control::set(before | mode);
    let answer = machine.run(BUDGET);
    control::set(before);
    output(&answer, &machine)
}

/// The quotient of two numbers, by their bits.
fn quotient(a: &str, b: &str) -> Image {
    let constants = [format!("b003{a}"), format!("b003{b}")];
    image(&[
        "a00100",
        &constants[0],
        &constants[1],
        "c02403000001",
        "c00c00000100",
        "e001",
    ])
}

const FINISHED: &str = "f0000000000200000100\n";

#[test]
fn another_rounding_mode_gives_other_numbers() {
    let third = quotient("3ff0000000000000", "4008000000000000");
    let nearest = format!("{FINISHED}b0033fd5555555555555\n");
    assert_eq!(in_mode(&third, 0), nearest);
    assert_eq!(
        in_mode(&third, control::UPWARD),
        format!("{FINISHED}b0033fd5555555555556\n")
    );
    assert_eq!(
        in_mode(&third, 0),
        nearest,
        "the mode is the thread's, the machine keeps nothing"
    );
}

#[test]
fn flushing_to_zero_gives_other_numbers() {
    let subnormal = quotient("0010000000000000", "4000000000000000");
    assert_eq!(
        in_mode(&subnormal, 0),
        format!("{FINISHED}b0030008000000000000\n")
    );
    assert_eq!(
        in_mode(&subnormal, control::FLUSH),
        format!("{FINISHED}b0030000000000000000\n")
    );
}
