//! A state in bytes, which belong to their rule. C hosts write and read the same: `include/deletion_machine.c`.

use crate::digest::sha256;
use crate::image::Image;
use crate::state::{State, FRAMES, REGISTERS};
use std::error::Error;
use std::fmt;

/// How many bytes [`State::to_bytes`] makes of a machine's state.
pub const STATE_BYTES: usize = HEAD + 8 * FRAMES + REGISTERS + 8 * REGISTERS + CHECKSUM;

const MAGIC: [u8; 8] = *b"DMSTATE\n";
const VERSION: u32 = 2;
/// The bytes before the frames, and those of the checksum.
const HEAD: usize = 64;
const CHECKSUM: usize = 32;

impl State {
    /// The state in bytes, to be put away: with the image's digest, so that it is resumed on this rule alone, and with a
    /// checksum. [`State::from_bytes`] and [`Machine::from_bytes`] take them back. Of a machine there are always
    /// [`STATE_BYTES`] of them; a state whose vectors have other lengths is written too, but not taken back.
    ///
    /// C hosts read and write the same bytes (`dm_state_to_bytes` in `include/deletion_machine.h`). All numbers are
    /// little-endian:
    ///
    /// | bytes | what |
    /// |---|---|
    /// | 0 to 7 | `DMSTATE` and LF |
    /// | 8 to 11 | the version of this layout: 2 |
    /// | 12 to 15 | how many bytes there are in all |
    /// | 16 to 47 | the SHA-256 of the image's bytes: [`Image::digest`] |
    /// | 48 to 51, 52 to 55, 56 to 59 | how many frames, kinds and words follow: 754, 2436 and 2436 |
    /// | 60 to 63 | 0 |
    /// | from 64 | the frames, 8 bytes each; the kinds, a byte each; the words, 8 bytes each |
    /// | the last 32 | the SHA-256 of all bytes before them |
    ///
    /// The checksum tells damage, not intent: who can write the bytes can write another state, as a host can.
    ///
    /// 0.2.0 wrote version 1, of a state without closure entries and cells. It is refused ([`StateError::Version`]): a machine that
    /// was put away so goes on where 0.2.0 runs, or is started again.
    ///
    /// [`Machine::from_bytes`]: crate::Machine::from_bytes
    pub fn to_bytes(&self, image: &Image) -> Vec<u8> {
        let State {
            frames,
            kinds,
            words,
        } = self;
        let all = HEAD + 8 * frames.len() + kinds.len() + 8 * words.len() + CHECKSUM;
        let mut bytes = Vec::with_capacity(all);
        bytes.extend(MAGIC);
        bytes.extend(VERSION.to_le_bytes());
        bytes.extend(told(all));
        bytes.extend(image.digest());
        for length in [frames.len(), kinds.len(), words.len(), 0] {
            bytes.extend(told(length));
        }
        bytes.extend(frames.iter().flat_map(|frame| frame.to_le_bytes()));
        bytes.extend(kinds);
        bytes.extend(words.iter().flat_map(|word| word.to_le_bytes()));
        bytes.extend(sha256(&bytes));
        bytes
    }

    /// The state in the bytes that [`State::to_bytes`] made of a machine on this image.
    ///
    /// What is refused is the first of [`StateError`] that holds. So a state that is taken is the one that was put away, and
    /// of this rule.
    ///
    /// ```
    /// use deletion_machine::{Image, Machine, State, StateError};
    ///
    /// let seven = Image::read(b"a00100\nb0020000000000000007\nc00100000000\nc00c00000100\ne001\n")?;
    /// let eight = Image::read(b"a00100\nb0020000000000000008\nc00100000000\nc00c00000100\ne001\n")?;
    /// let machine = Machine::start(&seven, &[])?;
    /// let mut bytes = machine.state().to_bytes(&seven);
    ///
    /// assert_eq!(State::from_bytes(&seven, &bytes), Ok(machine.into_state()));
    /// assert!(matches!(State::from_bytes(&eight, &bytes), Err(StateError::OtherRule { .. })));
    /// bytes[100] ^= 1;
    /// assert_eq!(State::from_bytes(&seven, &bytes), Err(StateError::Damaged));
    /// # Ok::<(), Box<dyn std::error::Error>>(())
    /// ```
    pub fn from_bytes(image: &Image, bytes: &[u8]) -> Result<State, StateError> {
        if !bytes.starts_with(&MAGIC) {
            return Err(StateError::NotAState);
        }
        let length = StateError::Length {
            bytes: bytes.len(),
            says: word(bytes, 12),
        };
        match word(bytes, 8) {
            Some(VERSION) => {}
            Some(found) => return Err(StateError::Version { found }),
            None => return Err(length),
        }
        if word(bytes, 12).map(u64::from) != Some(bytes.len() as u64) {
            return Err(length);
        }
        // now to what the checksum speaks of: the rest of the head, and what follows it
        if bytes.len() < HEAD + CHECKSUM {
            return Err(StateError::Damaged);
        }
        let (whole, checksum) = bytes.split_at(bytes.len() - CHECKSUM);
        let (head, body) = whole.split_at(HEAD);
        let at = |place| word(head, place).expect("the head has 64 bytes");
        let (frames, kinds, words) = (at(48), at(52), at(56));
        let follow = 8 * u64::from(frames) + u64::from(kinds) + 8 * u64::from(words);
        if sha256(whole) != checksum || at(60) != 0 || body.len() as u64 != follow {
            return Err(StateError::Damaged);
        }
        let (rule, digest) = (&head[16..48], image.digest());
        if rule != digest {
            return Err(StateError::OtherRule {
                state: rule.try_into().expect("32 bytes"),
                image: digest,
            });
        }
        if [frames, kinds, words].map(u64::from) != SIZES.map(|size| size as u64) {
            return Err(StateError::Sizes {
                frames,
                kinds,
                words,
            });
        }
        let (frames, rest) = body.split_at(8 * FRAMES);
        let (kinds, words) = rest.split_at(REGISTERS);
        Ok(State {
            frames: longs(frames),
            kinds: kinds.to_vec(),
            words: longs(words),
        })
    }
}

/// The lengths of a machine's vectors.
const SIZES: [usize; 3] = [FRAMES, REGISTERS, REGISTERS];

/// A length as it stands in the head. One beyond 32 bits can't; it is none of a machine's, so the bytes are refused
/// either way.
fn told(length: usize) -> [u8; 4] {
    u32::try_from(length).unwrap_or(u32::MAX).to_le_bytes()
}

/// The number at a place of the head, where there are so many bytes.
fn word(bytes: &[u8], place: usize) -> Option<u32> {
    let bytes = bytes.get(place..place + 4)?;
    Some(u32::from_le_bytes(bytes.try_into().expect("4 bytes")))
}

fn longs(bytes: &[u8]) -> Vec<u64> {
    bytes
        .chunks_exact(8)
        .map(|bytes| u64::from_le_bytes(bytes.try_into().expect("8 bytes")))
        .collect()
}

/// Why bytes are not taken for a state of a machine on an image. They are looked at in this order, and the first that
/// holds is answered.
#[derive(Clone, Copy, Debug, PartialEq, Eq, Hash)]
#[non_exhaustive]
pub enum StateError {
    /// 1: no stored state at all: other bytes stand at its beginning.
    NotAState,
    /// 2: of another version of the layout, as 0.2.0 wrote it.
    Version {
        /// Which one.
        found: u32,
    },
    /// 3: cut off, or longer than it says.
    Length {
        /// How many bytes there are.
        bytes: usize,
        /// How many it says, where it is long enough to say it.
        says: Option<u32>,
    },
    /// 4: damaged: the checksum is not that of the bytes. (Or it is, of bytes that [`State::to_bytes`] doesn't write: the
    /// lengths don't add up.)
    Damaged,
    /// 5: the state of a machine on another image.
    OtherRule {
        /// The digest of the image that the state was put away with.
        state: [u8; 32],
        /// The digest of the image that was given.
        image: [u8; 32],
    },
    /// 6: a state of other sizes than a machine's. `State::to_bytes` writes such a one where its vectors were changed.
    Sizes {
        /// How many frames it has.
        frames: u32,
        /// How many kinds.
        kinds: u32,
        /// How many words.
        words: u32,
    },
}

impl StateError {
    /// The number that `dm_state_from_bytes` answers for the same bytes in C: 1 to 6.
    pub fn number(&self) -> u8 {
        match self {
            StateError::NotAState => 1,
            StateError::Version { .. } => 2,
            StateError::Length { .. } => 3,
            StateError::Damaged => 4,
            StateError::OtherRule { .. } => 5,
            StateError::Sizes { .. } => 6,
        }
    }
}

impl fmt::Display for StateError {
    fn fmt(&self, f: &mut fmt::Formatter<'_>) -> fmt::Result {
        match self {
            StateError::NotAState => write!(f, "no stored state: it doesn't begin with DMSTATE"),
            StateError::Version { found } => {
                let by = if *found == 1 { ", which 0.2.0 wrote" } else { "" };
                write!(
                    f,
                    "a stored state of version {found}{by}, and version {VERSION} is the one that is read here"
                )
            }
            StateError::Length { bytes, says: None } => write!(
                f,
                "a stored state that is cut off: {bytes} bytes, too few to say its length"
            ),
            StateError::Length {
                bytes,
                says: Some(says),
            } => {
                let how = if *bytes as u64 > u64::from(*says) {
                    "longer than it says"
                } else {
                    "cut off"
                };
                write!(
                    f,
                    "a stored state that is {how}: {bytes} bytes, and it says {says}"
                )
            }
            StateError::Damaged => write!(f, "a stored state that is damaged: its checksum is not that of its bytes"),
            StateError::OtherRule { state, image } => write!(
                f,
                "a stored state of another rule: its image's digest begins with {}, this one's with {}",
                Beginning(state),
                Beginning(image)
            ),
            StateError::Sizes {
                frames,
                kinds,
                words,
            } => write!(
                f,
                "a stored state of other sizes than a machine's: {frames} frames, {kinds} kinds, {words} words, and not {FRAMES}, {REGISTERS}, {REGISTERS}"
            ),
        }
    }
}

/// The first 8 hexadecimal digits of a digest.
struct Beginning<'a>(&'a [u8; 32]);

impl fmt::Display for Beginning<'_> {
    fn fmt(&self, f: &mut fmt::Formatter<'_>) -> fmt::Result {
        self.0[..4]
            .iter()
            .try_for_each(|byte| write!(f, "{byte:02x}"))
    }
}

impl Error for StateError {}
