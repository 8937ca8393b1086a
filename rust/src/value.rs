use std::fmt;

/// A value of the machine: an argument, or what a finished machine returned.
///
/// Equal as in Rust: two [`Value::Number`]s as `f64`s are, an integer and a number never. Two [`Value::Function`]s of one machine
/// are equal where the machine takes them for equal, which is where they are one closure entry; those of two machines have
/// nothing to do with each other, and are equal where both numbers happen to be.
#[derive(Clone, Copy, Debug, PartialEq)]
#[non_exhaustive]
pub enum Value<'image> {
    /// `nil`
    Nil,
    /// `true` or `false`
    Boolean(bool),
    /// A whole number of 64 bits.
    Integer(i64),
    /// A floating-point number.
    Number(f64),
    /// A string: its bytes, which lie in the image.
    String(&'image [u8]),
    /// A function: the prototype that it carries out, and the closure entry that it is. Each time that a rule makes a function it is
    /// another entry, also of the same prototype: they may have other variables.
    ///
    /// ```
    /// use deletion_machine::{Image, Machine, Value};
    ///
    /// // makes two functions of prototype 1, and returns the first, the first once more, and the second
    /// let image = Image::read(
    ///     b"a00300\nc01100000100\nc00000010000\nc01100020100\nc00c00000300\na00100\nc00c00000000\ne002\n",
    /// )?;
    /// let mut machine = Machine::start(&image, &[])?;
    /// machine.run(1_000);
    /// let values = machine.values();
    /// for value in &values {
    ///     assert!(matches!(value, Value::Function { prototype: 1, .. }));
    /// }
    /// assert_eq!(values[0], values[1]);
    /// assert_ne!(values[0], values[2]);
    /// # Ok::<(), Box<dyn std::error::Error>>(())
    /// ```
    Function {
        /// The number of its prototype in the image.
        prototype: usize,
        /// The number of its closure entry in the machine's state: 0 to 63.
        entry: usize,
    },
}

impl Value<'_> {
    /// The kind and the word that stand for an argument. A string or a function is not permitted as one, so its word
    /// says nothing.
    pub(crate) fn as_argument(self) -> (u8, u64) {
        match self {
            Value::Nil => (0, 0),
            Value::Boolean(b) => (1, b.into()),
            Value::Integer(i) => (2, i as u64),
            Value::Number(x) => (3, x.to_bits()),
            Value::String(_) => (4, 0),
            Value::Function { .. } => (5, 0),
        }
    }
}

impl From<bool> for Value<'_> {
    fn from(b: bool) -> Self {
        Value::Boolean(b)
    }
}

impl From<i64> for Value<'_> {
    fn from(i: i64) -> Self {
        Value::Integer(i)
    }
}

impl From<f64> for Value<'_> {
    fn from(x: f64) -> Self {
        Value::Number(x)
    }
}

/// As Rust writes it; a string in quotes, with escapes for what is not printable ASCII.
impl fmt::Display for Value<'_> {
    fn fmt(&self, f: &mut fmt::Formatter<'_>) -> fmt::Result {
        match self {
            Value::Nil => write!(f, "nil"),
            Value::Boolean(b) => write!(f, "{b}"),
            Value::Integer(i) => write!(f, "{i}"),
            Value::Number(x) => write!(f, "{x:?}"),
            Value::String(bytes) => write!(f, "\"{}\"", bytes.escape_ascii()),
            Value::Function { prototype, .. } => write!(f, "function of prototype {prototype}"),
        }
    }
}
