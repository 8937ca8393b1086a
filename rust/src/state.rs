//! A machine's state: plain data, as it is lent to the static library. `stored.rs` has what it is in bytes.

use std::fmt;

/// The published sizes, in elements.
pub(crate) const FRAMES: usize = 754;
pub(crate) const REGISTERS: usize = 2_436;

/// Where the closure entries begin in the frames, and how many frames each has.
const ENTRIES: usize = 50;
const ENTRY: usize = 9;

/// A machine's state, to be put away and resumed. It holds no pointer, so it may be stored and sent: as bytes that belong
/// to their rule ([`State::to_bytes`], [`Machine::from_bytes`]), or as it is ([`Machine::resume`]). Nothing is assumed of
/// one that comes back.
///
/// [`Machine::from_bytes`]: crate::Machine::from_bytes
/// [`Machine::resume`]: crate::Machine::resume
#[derive(Clone, PartialEq, Eq)]
pub struct State {
    /// The mark, the activations, the functions and their cells:
    ///
    /// | place | what |
    /// |---|---|
    /// | 0 | the mark: 70 while the machine runs, 0 when it is finished, else its Lua error's number and 256 times the operand that it names |
    /// | 1 | how many activations are alive |
    /// | 2 + 2 i, 3 + 2 i | of activation i, from 0, the outermost: its prototype and its instruction |
    /// | 34 + i | the function that was called for it: 0 none, of the outermost; else its entry + 1 |
    /// | 50 + 9 e | closure entry e, 0 to 63, a function: 0 free, else its prototype + 1 |
    /// | 51 + 9 e + j | its upvalue j, 0 to 7: 0 none, else the cell + 1 |
    /// | 626 + c | cell c, 0 to 127, a variable that functions share: 0 free, 1 closed, 2 + r open on register r |
    pub frames: Vec<u64>,
    /// The kind of each register's value: 0 nil, 1 boolean, 2 integer, 3 number, 4 string, 5 function. From 2,308 on those of
    /// the values of the cells that are closed.
    pub kinds: Vec<u8>,
    /// The word of each register's value: its 64 bits; of a string the number of its constant in the image, of a function its
    /// closure entry in the frames. From 2,308 on those of the values of the cells that are closed.
    pub words: Vec<u64>,
}

impl State {
    /// Of the published sizes, all zero.
    pub(crate) fn empty() -> State {
        State {
            frames: vec![0; FRAMES],
            kinds: vec![0; REGISTERS],
            words: vec![0; REGISTERS],
        }
    }

    /// The prototype of the function in a closure entry that is in use.
    pub(crate) fn prototype(&self, entry: usize) -> usize {
        self.frames[ENTRIES + ENTRY * entry] as usize - 1
    }
}

/// The mark and the number of activations, and not thousands of registers.
impl fmt::Debug for State {
    fn fmt(&self, f: &mut fmt::Formatter<'_>) -> fmt::Result {
        let mut shown = f.debug_struct("State");
        for (name, frame) in ["mark", "activations"].into_iter().zip(&self.frames) {
            shown.field(name, frame);
        }
        shown.finish_non_exhaustive()
    }
}
