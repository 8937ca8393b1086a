//! What an image is read to: plain data, as it is lent to the static library.

/// The published sizes, in elements.
pub(crate) const TABLE: usize = 421;
pub(crate) const CODE: usize = 5_041;
pub(crate) const CONSTANTS: usize = 8_448;
pub(crate) const TEXTS: usize = 32_768;

/// What a read image fills.
#[derive(Clone, PartialEq, Eq)]
pub(crate) struct Storage {
    /// The number of prototypes; then for each its registers, its parameters, its first constant and its first instruction; from
    /// 133 on for each how many descriptors it has, and these.
    pub table: Vec<u64>,
    pub code: Vec<u64>,
    pub const_kinds: Vec<u8>,
    pub const_words: Vec<u64>,
    pub texts: Vec<u8>,
}

impl Storage {
    /// Of the published sizes, all zero.
    pub fn empty() -> Storage {
        Storage {
            table: vec![0; TABLE],
            code: vec![0; CODE],
            const_kinds: vec![0; CONSTANTS],
            const_words: vec![0; CONSTANTS],
            texts: vec![0; TEXTS],
        }
    }

    /// The parameters of prototype 0; 0 where there is none.
    pub fn parameters(&self) -> usize {
        match self.table[0] {
            0 => 0,
            _ => self.table[2] as usize,
        }
    }
}
