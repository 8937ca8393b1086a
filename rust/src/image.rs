use crate::digest::sha256;
use crate::ffi::{self, Told};
use crate::storage::Storage;
use std::error::Error;
use std::fmt;

/// The longest image, in bytes.
pub const IMAGE_BYTES: usize = 65_536;

/// An image that was read: what a rule was compiled to. It owns all that it was read into, about 150 kilobytes.
///
/// Images are equal where their bytes are.
#[derive(Clone, PartialEq, Eq)]
pub struct Image {
    storage: Storage,
}

impl Image {
    /// Reads an image, lines of hexadecimal digits.
    ///
    /// ```
    /// use deletion_machine::{Image, ReadError};
    ///
    /// let error = Image::read(b"a00100\nb0020000000000000007\nB0\n").unwrap_err();
    /// assert_eq!(error, ReadError::NotHex { line: 2 });
    /// assert_eq!(error.number(), 1);
    /// ```
    pub fn read(text: &[u8]) -> Result<Image, ReadError> {
        crate::demand_version();
        let mut storage = Storage::empty();
        let told = ffi::read(text, &mut storage);
        let line = told.instruction;
        Err(match told.number {
            0 => return Ok(Image { storage }),
            1 => ReadError::NotHex { line },
            2 => ReadError::NotAFrame { line },
            // the length is looked at before any line is
            3 if text.len() > IMAGE_BYTES => ReadError::TooLong { bytes: text.len() },
            3 => ReadError::TooMany { line },
            4 => ReadError::NoEnd { line },
            number => crate::unknown(number),
        })
    }

    /// Writes the image: the bytes that it was read from.
    ///
    /// ```
    /// # use deletion_machine::Image;
    /// let text = b"a00100\nc00c00000000\ne001\n";
    /// assert_eq!(Image::read(text)?.write(), text);
    /// # Ok::<(), deletion_machine::ReadError>(())
    /// ```
    pub fn write(&self) -> Vec<u8> {
        let mut out = vec![0; IMAGE_BYTES];
        let told = ffi::write(&self.storage, &mut out);
        if told.number != 0 {
            crate::unknown(told.number);
        }
        out.truncate(told.first);
        out
    }

    /// The SHA-256 of the image's bytes, by which a stored state knows its rule: what `sha256sum` prints for the image's file.
    ///
    /// ```
    /// # use deletion_machine::Image;
    /// let image = Image::read(b"a00100\nc00c00000000\ne001\n")?;
    /// assert_eq!(image.digest()[..4], [0x4c, 0x38, 0x2c, 0xf6]);
    /// # Ok::<(), deletion_machine::ReadError>(())
    /// ```
    pub fn digest(&self) -> [u8; 32] {
        sha256(&self.write())
    }

    /// How many parameters the rule has, those of its first prototype; 0 where it has no prototype. More arguments than these
    /// are not for this rule: [`Machine::start`](crate::Machine::start) refuses them.
    ///
    /// ```
    /// # use deletion_machine::Image;
    /// let image = Image::read(b"a00302\nc00c00000100\ne001\n")?; // 3 registers, 2 of them parameters
    /// assert_eq!(image.parameters(), 2);
    /// # Ok::<(), deletion_machine::ReadError>(())
    /// ```
    pub fn parameters(&self) -> usize {
        self.storage.parameters()
    }

    /// Whether a machine can carry the image out; if not, its first bad instruction.
    ///
    /// ```
    /// use deletion_machine::{CheckError, Image, Place};
    ///
    /// // Move to register 0 from register 1, of 1
    /// let image = Image::read(b"a00100\nc00000000100\nc00c00000000\ne001\n")?;
    /// let at = Place { prototype: 0, instruction: 0 };
    /// assert_eq!(image.check(), Err(CheckError::Register(at)));
    /// # Ok::<(), deletion_machine::ReadError>(())
    /// ```
    pub fn check(&self) -> Result<(), CheckError> {
        let told = ffi::check(&self.storage);
        match told.number {
            0 => Ok(()),
            number => Err(CheckError::told(&told).unwrap_or_else(|| crate::unknown(number))),
        }
    }

    pub(crate) fn storage(&self) -> &Storage {
        &self.storage
    }

    /// The bytes of a string, from the word that stands for it in a register.
    pub(crate) fn string(&self, word: u64) -> &[u8] {
        let told = ffi::text(&self.storage, word);
        if told.number != 0 {
            crate::unknown(told.number);
        }
        &self.storage.texts[told.first..][..told.second]
    }
}

/// So that a [`Machine`](crate::Machine) is started on an image or on what leads to one, as `&Image` and `Arc<Image>` do.
impl AsRef<Image> for Image {
    fn as_ref(&self) -> &Image {
        self
    }
}

impl fmt::Debug for Image {
    fn fmt(&self, f: &mut fmt::Formatter<'_>) -> fmt::Result {
        f.debug_struct("Image").finish_non_exhaustive()
    }
}

/// A place in an image's code. Both numbers count from 0.
#[derive(Clone, Copy, Debug, PartialEq, Eq, Hash)]
pub struct Place {
    /// Which prototype.
    pub prototype: usize,
    /// Which of its instructions.
    pub instruction: usize,
}

impl Place {
    pub(crate) fn told(told: &Told) -> Place {
        Place {
            prototype: told.prototype,
            instruction: told.instruction,
        }
    }
}

impl fmt::Display for Place {
    fn fmt(&self, f: &mut fmt::Formatter<'_>) -> fmt::Result {
        let Place {
            prototype,
            instruction,
        } = self;
        write!(f, "prototype {prototype}, instruction {instruction}")
    }
}

/// Why bytes are no image. Lines count from 0, and each is judged by 1, then 2, then 3.
#[derive(Clone, Copy, Debug, PartialEq, Eq, Hash)]
#[non_exhaustive]
pub enum ReadError {
    /// 1: the line is empty, is not pairs of lowercase hexadecimal digits, or has no LF.
    NotHex {
        /// The line at fault.
        line: usize,
    },
    /// 2: the line is no frame that can stand there: unknown kind, wrong length, tag, order or field; or the number of
    /// prototypes in `e0` is wrong.
    NotAFrame {
        /// The line at fault.
        line: usize,
    },
    /// 3: more than [`IMAGE_BYTES`] bytes. No line was looked at.
    TooLong {
        /// How many bytes there are.
        bytes: usize,
    },
    /// 3: with this line there are more than 32 prototypes, or more than 8 descriptors, 256 constants or 4,096 instructions in one.
    TooMany {
        /// The line at fault.
        line: usize,
    },
    /// 4: no `e0` at the end, or a byte after it.
    NoEnd {
        /// How many lines were read.
        line: usize,
    },
}

impl ReadError {
    /// The number that the machine answers: 1 to 4.
    pub fn number(&self) -> u8 {
        match self {
            ReadError::NotHex { .. } => 1,
            ReadError::NotAFrame { .. } => 2,
            ReadError::TooLong { .. } | ReadError::TooMany { .. } => 3,
            ReadError::NoEnd { .. } => 4,
        }
    }

    /// The line that the machine answers, from 0; for [`ReadError::TooLong`] it is 0.
    pub fn line(&self) -> usize {
        match *self {
            ReadError::TooLong { .. } => 0,
            ReadError::NotHex { line }
            | ReadError::NotAFrame { line }
            | ReadError::TooMany { line }
            | ReadError::NoEnd { line } => line,
        }
    }
}

/// What 3 says, of bytes and of lines.
const TOO_MANY: &str = "too many: an image has at most 65536 bytes and 32 prototypes, a prototype at most 8 descriptors, 256 constants and 4096 instructions";

impl fmt::Display for ReadError {
    fn fmt(&self, f: &mut fmt::Formatter<'_>) -> fmt::Result {
        match self {
            ReadError::NotHex { line } => write!(
                f,
                "line {line} (from 0): empty, not pairs of lowercase hexadecimal digits, or without LF"
            ),
            ReadError::NotAFrame { line } => write!(
                f,
                "line {line} (from 0): no frame that can stand here: unknown kind, wrong length, tag, order or field"
            ),
            ReadError::TooLong { bytes } => write!(f, "{bytes} bytes: {TOO_MANY}"),
            ReadError::TooMany { line } => write!(f, "line {line} (from 0): {TOO_MANY}"),
            ReadError::NoEnd { line } => write!(
                f,
                "after {line} lines: no e0 line at the end, or a byte after it"
            ),
        }
    }
}

impl Error for ReadError {}

/// Why a machine can't carry an image out: the first bad instruction of the first bad prototype, and the lowest number
/// there.
#[derive(Clone, Copy, Debug, PartialEq, Eq, Hash)]
#[non_exhaustive]
pub enum CheckError {
    /// 10: an operation that the machine doesn't have, or a count of 255 in Call or Return.
    Operation(Place),
    /// 11: an unused byte or flag that isn't zero, or a yes/no byte above 1.
    Unused(Place),
    /// 12: a register that the prototype doesn't have; also the one from which a Jump closes.
    Register(Place),
    /// 13: a constant that the prototype doesn't have.
    Constant(Place),
    /// 14: the next instruction may be one that isn't there; or the prototype has none at all.
    Target(Place),
    /// 15: a Closure of a prototype that isn't in the image; or the image has no prototype at all.
    Prototype(Place),
    /// 16: an upvalue that the prototype doesn't have; a Closure of a prototype with a descriptor of a register or an upvalue that this
    /// one doesn't have; or the first prototype has descriptors, at its instruction 0.
    Upvalue(Place),
}

impl CheckError {
    pub(crate) fn told(told: &Told) -> Option<CheckError> {
        let place = Place::told(told);
        Some(match told.number {
            10 => CheckError::Operation(place),
            11 => CheckError::Unused(place),
            12 => CheckError::Register(place),
            13 => CheckError::Constant(place),
            14 => CheckError::Target(place),
            15 => CheckError::Prototype(place),
            16 => CheckError::Upvalue(place),
            _ => return None,
        })
    }

    /// The number that the machine answers: 10 to 16.
    pub fn number(&self) -> u8 {
        match self {
            CheckError::Operation(_) => 10,
            CheckError::Unused(_) => 11,
            CheckError::Register(_) => 12,
            CheckError::Constant(_) => 13,
            CheckError::Target(_) => 14,
            CheckError::Prototype(_) => 15,
            CheckError::Upvalue(_) => 16,
        }
    }

    /// The instruction at fault.
    pub fn place(&self) -> Place {
        match *self {
            CheckError::Operation(place)
            | CheckError::Unused(place)
            | CheckError::Register(place)
            | CheckError::Constant(place)
            | CheckError::Target(place)
            | CheckError::Prototype(place)
            | CheckError::Upvalue(place) => place,
        }
    }
}

impl fmt::Display for CheckError {
    fn fmt(&self, f: &mut fmt::Formatter<'_>) -> fmt::Result {
        let what = match self {
            CheckError::Operation(_) => {
                "an operation that the machine doesn't have, or a count of 255 in a call or return"
            }
            CheckError::Unused(_) => {
                "an unused byte or flag that isn't zero, or a yes/no byte above 1"
            }
            CheckError::Register(_) => "a register that the prototype doesn't have",
            CheckError::Constant(_) => "a constant that the prototype doesn't have",
            CheckError::Target(_) => "the next instruction may be one that isn't there",
            CheckError::Prototype(_) => "a prototype that isn't in the image",
            CheckError::Upvalue(_) => {
                "an upvalue or a captured register that the prototype doesn't have, or descriptors on prototype 0"
            }
        };
        write!(f, "{}: {what}", self.place())
    }
}

impl Error for CheckError {}
