//! Reads, checks and runs the images of retention rules on the deletion machine.
//!
//! The machine itself is a static library, proved to do what its definitions say (`docs/PROMISES.md` of the
//! repository); this package is a thin, safe face of it. An [`Image`] is what a rule was compiled to. A [`Machine`]
//! runs one, a budget of instructions at a time, and can be paused, put away ([`Machine::to_bytes`]) and resumed
//! ([`Machine::from_bytes`]) between any two of them.
//!
//! ```
//! use deletion_machine::{Image, Machine, Outcome, Value};
//!
//! let text = b"a00100\nb0020000000000000007\nc00100000000\nc00c00000100\ne001\n";
//! let image = Image::read(text)?;
//! let mut machine = Machine::start(&image, &[])?;
//!
//! let answer = machine.run(1_000_000);
//! assert_eq!(answer.outcome, Outcome::Finished);
//! assert_eq!(answer.count, 2);
//! assert_eq!(machine.values(), [Value::Integer(7)]);
//! # Ok::<(), Box<dyn std::error::Error>>(())
//! ```
//!
//! Whatever the bytes are, nothing here stops the process: an image that is wrong is refused with a number that says
//! what it was and a place that says where, and a run ends by its budget. Each error is one of these numbers;
//! `number()` tells it, and its text says what the number says. An operator's error also names the operand at fault:
//!
//! ```
//! use deletion_machine::{Image, Machine, Operand};
//!
//! let image = Image::read(b"a00101\nb0020000000000000007\nc02602000000\nc00c00000100\ne001\n")?;
//! let mut machine = Machine::start(&image, &[])?; // its argument % 7, and there is none
//! let answer = machine.run(1_000);
//! assert_eq!((answer.outcome.number(), answer.outcome.operand()), (35, Some(Operand::First)));
//! assert_eq!(
//!     answer.to_string(),
//!     "prototype 0, instruction 0: the left operand of `%` is not a number, nor a string that reads as one (1 instructions)"
//! );
//! # Ok::<(), Box<dyn std::error::Error>>(())
//! ```
//!
//! The proofs speak of numbers that are rounded to nearest. So a host leaves the floating-point environment of the thread that
//! runs a machine as Rust has it: no other rounding mode, no flush-to-zero (`tests/environment.rs` shows what these would do).
//!
//! The library keeps nothing between calls, so any number of machines may run at once, on any threads, and several
//! may share an image:
//!
//! ```
//! # use deletion_machine::{Image, Machine, Value};
//! # let text = b"a00201\nb0020000000000000001\nc02102000000\nc00c00000100\ne001\n";
//! let image = Image::read(text)?; // one more than its argument
//! std::thread::scope(|scope| {
//!     for years in 0..4 {
//!         let image = &image;
//!         scope.spawn(move || {
//!             let mut machine = Machine::start(image, &[years.into()]).unwrap();
//!             machine.run(1_000);
//!             assert_eq!(machine.values(), [Value::Integer(years + 1)]);
//!         });
//!     }
//! });
//! # Ok::<(), Box<dyn std::error::Error>>(())
//! ```

#![deny(unsafe_code)]
#![warn(missing_docs)]

mod digest;
#[allow(unsafe_code)]
mod ffi;
mod image;
mod machine;
mod state;
mod storage;
mod stored;
mod value;

use std::sync::Once;

pub use image::{CheckError, Image, Place, ReadError, IMAGE_BYTES};
pub use machine::{
    Answer, LuaError, LuaErrorKind, Machine, Operand, Outcome, StartError, ARGUMENTS,
};
pub use state::State;
pub use stored::{StateError, STATE_BYTES};
pub use value::Value;

/// The version of the static library that is linked: major, minor and patch. This package is for the one with its own version,
/// and [`Image::read`] panics where it is another.
///
/// ```
/// let (major, minor, patch) = deletion_machine::library_version();
/// println!("on the deletion machine {major}.{minor}.{patch}");
/// # assert_eq!(format!("{major}.{minor}.{patch}"), "0.3.0");
/// ```
pub fn library_version() -> (u32, u32, u32) {
    let version = ffi::version();
    (version / 10_000, version / 100 % 100, version % 100)
}

/// Sees, once, that the linked library has this package's version: another one's answers may mean something else.
fn demand_version() {
    static SEEN: Once = Once::new();
    SEEN.call_once(|| {
        let (major, minor, patch) = library_version();
        let linked = format!("{major}.{minor}.{patch}");
        let own = env!("CARGO_PKG_VERSION");
        assert_eq!(
            linked, own,
            "the static library that is linked (left) is not the one that this version of deletion-machine (right) is for"
        );
    });
}

/// Has the tests try the example there.
#[cfg(doctest)]
#[doc = include_str!("../README.md")]
struct Readme;

/// The static library gave a number that no function of it gives there: it is not the one that this package was
/// written for. (5 and 6 are never met: what is lent is long enough, and only what was read is run.)
#[cold]
fn unknown(number: u32) -> ! {
    panic!(
        "the static library answered {number}, which this version of deletion-machine doesn't know"
    )
}
