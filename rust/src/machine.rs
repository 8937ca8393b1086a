use crate::ffi::{self, Told};
use crate::image::{CheckError, Image, Place};
use crate::state::State;
use crate::stored::StateError;
use crate::value::Value;
use std::error::Error;
use std::fmt;

/// The most arguments that a machine is started with.
pub const ARGUMENTS: usize = 8;

/// A machine that runs an image. It owns its state, about 28 kilobytes, and holds the image as it was given: `&Image`, which
/// it borrows; `Arc<Image>`, which it shares; or an `Image` of its own.
///
/// One that borrows costs nothing and is the shortest to write:
///
/// ```
/// # use deletion_machine::{Image, Machine, Value};
/// # let text = b"a00100\nb0020000000000000007\nc00100000000\nc00c00000100\ne001\n";
/// let image = Image::read(text)?;
/// let mut machine = Machine::start(&image, &[])?;
/// machine.run(1_000);
/// assert_eq!(machine.values(), [Value::Integer(7)]);
/// # Ok::<(), Box<dyn std::error::Error>>(())
/// ```
///
/// One that shares its image can be kept and sent, and needs nobody to keep the image for it:
///
/// ```
/// use deletion_machine::{Image, Machine, Outcome};
/// use std::sync::Arc;
///
/// struct Job {
///     name: String,
///     machine: Machine<Arc<Image>>,
/// }
///
/// # let text = b"a00100\nb0020000000000000007\nc00100000000\nc00c00000100\ne001\n";
/// let image = Arc::new(Image::read(text)?);
/// let mut jobs = Vec::new();
/// for name in ["invoices", "letters"] {
///     let machine = Machine::start(Arc::clone(&image), &[])?;
///     jobs.push(Job { name: name.to_string(), machine });
/// }
/// let threads = jobs.into_iter().map(|mut job| {
///     std::thread::spawn(move || match job.machine.run(1_000).outcome {
///         Outcome::Finished => println!("{}: {:?}", job.name, job.machine.values()),
///         outcome => println!("{}: {outcome}", job.name),
///     })
/// });
/// threads.for_each(|thread| thread.join().unwrap());
/// # Ok::<(), Box<dyn std::error::Error>>(())
/// ```
#[derive(Clone)]
pub struct Machine<I> {
    image: I,
    state: State,
}

impl<I: AsRef<Image>> Machine<I> {
    /// Starts a machine at the image's first prototype, with arguments for its parameters: at most [`ARGUMENTS`], each
    /// nil, a boolean, an integer or a number. Missing ones are nil. More than the rule has parameters are refused: they were
    /// meant for another rule, or for a newer one. The image is checked first.
    ///
    /// ```
    /// use deletion_machine::{Image, Machine, StartError, Value};
    ///
    /// let image = Image::read(b"a00101\nc00c00000100\ne001\n")?; // returns its argument
    /// assert!(Machine::start(&image, &[Value::Integer(10)]).is_ok());
    /// let error = Machine::start(&image, &[Value::String(b"ten")]).unwrap_err();
    /// assert_eq!(error, StartError::Arguments);
    /// let error = Machine::start(&image, &[Value::Integer(10), true.into()]).unwrap_err();
    /// assert_eq!(error, StartError::Surplus { given: 2, parameters: 1 });
    /// # Ok::<(), deletion_machine::ReadError>(())
    /// ```
    pub fn start(image: I, arguments: &[Value<'_>]) -> Result<Machine<I>, StartError> {
        let machine = Machine::start_dropping(image, arguments)?;
        let (given, parameters) = (arguments.len(), machine.image.as_ref().parameters());
        if given > parameters {
            return Err(StartError::Surplus { given, parameters });
        }
        Ok(machine)
    }

    /// The same, but arguments for which the rule has no parameter are dropped: what the machine itself does. For a host that
    /// hands the same arguments to all its rules, whichever of them a rule takes.
    ///
    /// ```
    /// # use deletion_machine::{Image, Machine, Value};
    /// let image = Image::read(b"a00101\nc00c00000100\ne001\n")?; // returns its argument
    /// let mut machine = Machine::start_dropping(&image, &[Value::Integer(10), true.into()])?;
    /// machine.run(1_000);
    /// assert_eq!(machine.values(), [Value::Integer(10)]);
    /// # Ok::<(), Box<dyn std::error::Error>>(())
    /// ```
    pub fn start_dropping(image: I, arguments: &[Value<'_>]) -> Result<Machine<I>, StartError> {
        let (kinds, words): (Vec<u8>, Vec<u64>) =
            arguments.iter().map(|value| value.as_argument()).unzip();
        let mut state = State::empty();
        let told = ffi::start(image.as_ref().storage(), &mut state, &kinds, &words);
        match told.number {
            0 => Ok(Machine { image, state }),
            20 => Err(StartError::Arguments),
            number => match CheckError::told(&told) {
                Some(error) => Err(StartError::Check(error)),
                None => crate::unknown(number),
            },
        }
    }

    /// Goes on with a machine that was put away by [`Machine::to_bytes`], on the same rule. Bytes that are damaged, or of a
    /// machine on another rule, are refused.
    ///
    /// ```
    /// use deletion_machine::{Image, Machine, Outcome};
    ///
    /// let image = Image::read(b"a00100\nc00300000100\nc00c00000000\ne001\n")?;
    /// let mut machine = Machine::start(&image, &[])?;
    /// assert_eq!(machine.run(1).outcome, Outcome::Paused);
    /// let bytes = machine.to_bytes();
    ///
    /// // later, elsewhere
    /// let mut machine = Machine::from_bytes(&image, &bytes)?;
    /// assert_eq!(machine.run(1).outcome, Outcome::Finished);
    /// # Ok::<(), Box<dyn std::error::Error>>(())
    /// ```
    pub fn from_bytes(image: I, bytes: &[u8]) -> Result<Machine<I>, StateError> {
        let state = State::from_bytes(image.as_ref(), bytes)?;
        Ok(Machine { image, state })
    }

    /// Its state in bytes, to put away; they belong to its rule. [`State::to_bytes`] says what they are.
    pub fn to_bytes(&self) -> Vec<u8> {
        self.state.to_bytes(self.image.as_ref())
    }

    /// Goes on with a state as it is. Any state is taken: what came from elsewhere had better come as bytes, by
    /// [`Machine::from_bytes`].
    ///
    /// What is noticed: a state that can be none of a machine on this image, as one of an instruction or a register that isn't
    /// there. Each run answers [`Outcome::Fault`] then, and changes nothing.
    ///
    /// What is not: a state of another rule that fits this one too. The machine goes on with what it has in its registers, and
    /// gives a wrong list: a rule of seven years that is paused, and resumed on the same rule with 70, has worked out its seven
    /// years and releases what they say. And damage that leaves a state fit: another number in a register, another instruction.
    ///
    /// ```
    /// use deletion_machine::{Image, Machine, Outcome, Value};
    ///
    /// // loads the years, and returns them
    /// let seven = Image::read(b"a00100\nb0020000000000000007\nc00100000000\nc00c00000100\ne001\n")?;
    /// let seventy = Image::read(b"a00100\nb0020000000000000046\nc00100000000\nc00c00000100\ne001\n")?;
    /// let mut machine = Machine::start(&seven, &[])?;
    /// machine.run(1);
    /// let bytes = machine.to_bytes();
    /// let state = machine.into_state();
    ///
    /// let mut machine = Machine::resume(&seventy, state);
    /// assert_eq!(machine.run(1).outcome, Outcome::Finished);
    /// assert_eq!(machine.values(), [Value::Integer(7)]); // not noticed
    /// assert!(Machine::from_bytes(&seventy, &bytes).is_err()); // noticed
    /// # Ok::<(), Box<dyn std::error::Error>>(())
    /// ```
    pub fn resume(image: I, state: State) -> Machine<I> {
        Machine { image, state }
    }

    /// Carries out instructions until the machine is finished, fails, or has carried out `budget` of them. A finished or
    /// failed machine answers the same again, with count 0.
    ///
    /// Parts don't matter: of a machine that was started (its image was accepted), a run of `a`, then one of `b`, leave the
    /// state and give the outcome and the place of one run of `a + b`, and their counts add up to its count.
    pub fn run(&mut self, budget: u32) -> Answer {
        let storage = self.image.as_ref().storage();
        Answer::told(&ffi::run(storage, &mut self.state, budget))
    }

    /// What a run on budget 0 would answer.
    pub fn standing(&self) -> Answer {
        Answer::told(&ffi::returned(self.image.as_ref().storage(), &self.state))
    }

    /// What a finished machine returned; nothing of any other. The strings among the values lie in the image.
    pub fn values(&self) -> Vec<Value<'_>> {
        self.state.values(self.image.as_ref())
    }

    /// The image that it runs, as it was given.
    pub fn image(&self) -> &I {
        &self.image
    }

    /// Its state, to look at or to put away.
    pub fn state(&self) -> &State {
        &self.state
    }

    /// Its state, to put away.
    pub fn into_state(self) -> State {
        self.state
    }
}

/// A line: where the machine stands, and how.
impl<I: AsRef<Image>> fmt::Debug for Machine<I> {
    fn fmt(&self, f: &mut fmt::Formatter<'_>) -> fmt::Result {
        match self.standing() {
            Answer {
                outcome: Outcome::Paused,
                place,
                ..
            } => write!(f, "Machine {{ {place}: running }}"),
            Answer { outcome, place, .. } => write!(f, "Machine {{ {place}: {outcome} }}"),
        }
    }
}

impl State {
    /// What a finished machine in this state on the image returned; nothing of any other. [`Machine::values`] are the same,
    /// but these live as long as the image, whatever becomes of the machine.
    pub fn values<'image>(&self, image: &'image Image) -> Vec<Value<'image>> {
        let told = ffi::returned(image.storage(), self);
        let registers = told.first..told.first + told.second;
        registers
            .map(|register| self.value(image, register))
            .collect()
    }

    /// What a live register of the outermost activation holds.
    fn value<'image>(&self, image: &'image Image, register: usize) -> Value<'image> {
        let word = self.words[register];
        match self.kinds[register] {
            0 => Value::Nil,
            1 => Value::Boolean(word != 0),
            2 => Value::Integer(word as i64),
            3 => Value::Number(f64::from_bits(word)),
            4 => Value::String(image.string(word)),
            5 => {
                // an entry in use: below 64, and it has a prototype
                let entry = word as usize;
                let prototype = self.prototype(entry);
                Value::Function { prototype, entry }
            }
            kind => {
                unreachable!("a live register of a fit state has a kind up to 5, and not {kind}")
            }
        }
    }
}

/// What a run answers.
#[derive(Clone, Copy, Debug, PartialEq, Eq, Hash)]
pub struct Answer {
    /// How the run ended.
    pub outcome: Outcome,
    /// How many instructions it carried out, the one that returned or raised too.
    pub count: u32,
    /// The instruction that returned, raised or faulted; of a pause the next one.
    pub place: Place,
}

impl Answer {
    fn told(told: &Told) -> Answer {
        let outcome = match told.number {
            0 => Outcome::Finished,
            60 => Outcome::Fault,
            70 => Outcome::Paused,
            number => match LuaErrorKind::told(number) {
                Some(kind) => Outcome::Failed(LuaError {
                    kind,
                    operand: Operand::told(told.operand),
                }),
                None => crate::unknown(number),
            },
        };
        Answer {
            outcome,
            count: told.count,
            place: Place::told(told),
        }
    }
}

impl fmt::Display for Answer {
    fn fmt(&self, f: &mut fmt::Formatter<'_>) -> fmt::Result {
        let Answer {
            outcome,
            count,
            place,
        } = self;
        write!(f, "{place}: {outcome} ({count} instructions)")
    }
}

/// How a run ended.
#[derive(Clone, Copy, Debug, PartialEq, Eq, Hash)]
#[non_exhaustive]
pub enum Outcome {
    /// 0: the outermost Return is done; [`Machine::values`] has what it returned.
    Finished,
    /// A [`LuaError`]'s number: the rule did what Lua forbids, went too deep or made too many functions. An operator's error names
    /// the operand at fault.
    Failed(LuaError),
    /// 70: the budget is used, and the machine still runs.
    Paused,
    /// 60: the state is none of a machine on this image. A machine that was started here never answers it; one that
    /// was resumed may, where its state or image was damaged or mixed up.
    Fault,
}

impl Outcome {
    /// The number that the machine answers.
    pub fn number(&self) -> u8 {
        match self {
            Outcome::Finished => 0,
            Outcome::Failed(error) => error.number(),
            Outcome::Paused => 70,
            Outcome::Fault => 60,
        }
    }

    /// The operand that the machine answers: a [`LuaError`]'s, where it names one.
    pub fn operand(&self) -> Option<Operand> {
        match self {
            Outcome::Failed(error) => error.operand,
            Outcome::Finished | Outcome::Paused | Outcome::Fault => None,
        }
    }
}

impl fmt::Display for Outcome {
    fn fmt(&self, f: &mut fmt::Formatter<'_>) -> fmt::Result {
        match self {
            Outcome::Finished => write!(f, "finished"),
            Outcome::Failed(error) => write!(f, "{error}"),
            Outcome::Paused => write!(f, "paused, its budget is used"),
            Outcome::Fault => write!(f, "machine fault, the state doesn't fit the image"),
        }
    }
}

/// Why a machine isn't started.
#[derive(Clone, Copy, Debug, PartialEq, Eq, Hash)]
#[non_exhaustive]
pub enum StartError {
    /// 10 to 16: the image can't be carried out.
    Check(CheckError),
    /// 20: more than [`ARGUMENTS`] arguments, or one that is not nil, a boolean, an integer or a number.
    Arguments,
    /// More arguments than the rule has parameters. The machine itself would drop the last ones, and so would
    /// [`Machine::start_dropping`]; this refusal is the package's own, and comes after the machine's.
    Surplus {
        /// How many arguments there are.
        given: usize,
        /// How many parameters the rule has.
        parameters: usize,
    },
}

impl StartError {
    /// The number that the machine answers: 10 to 16, or 20. For [`StartError::Surplus`], which the machine doesn't refuse, it
    /// has none.
    pub fn number(&self) -> Option<u8> {
        match self {
            StartError::Check(error) => Some(error.number()),
            StartError::Arguments => Some(20),
            StartError::Surplus { .. } => None,
        }
    }
}

impl fmt::Display for StartError {
    fn fmt(&self, f: &mut fmt::Formatter<'_>) -> fmt::Result {
        match self {
            StartError::Check(error) => error.fmt(f),
            StartError::Arguments => write!(
                f,
                "more than {ARGUMENTS} arguments, or one that is not nil, a boolean, an integer or a number"
            ),
            StartError::Surplus { given, parameters } => {
                match given {
                    1 => write!(f, "1 argument is given")?,
                    _ => write!(f, "{given} arguments are given")?,
                }
                match parameters {
                    0 => write!(f, ", and the rule has no parameters")?,
                    1 => write!(f, ", and the rule has 1 parameter")?,
                    _ => write!(f, ", and the rule has {parameters} parameters")?,
                }
                let surplus = match (parameters, given.saturating_sub(*parameters)) {
                    (0, 1) => "it",
                    (0, _) => "they",
                    (_, 1) => "the last",
                    (_, _) => "the others",
                };
                write!(f, ": {surplus} would be dropped")
            }
        }
    }
}

impl Error for StartError {
    fn source(&self) -> Option<&(dyn Error + 'static)> {
        match self {
            // its text is this one's
            StartError::Check(error) => error.source(),
            StartError::Arguments | StartError::Surplus { .. } => None,
        }
    }
}

/// What a rule did wrong, and with which operand. The answer's place says which instruction did it, and the state is as it was
/// before it, but for its mark, which keeps both: a failed machine answers them again.
///
/// ```
/// use deletion_machine::{Image, LuaErrorKind, Machine, Operand, Outcome, Value};
///
/// // divides its first argument by its second one
/// let image = Image::read(b"a00202\nc02500000001\nc00c00000100\ne001\n")?;
/// let error = |left: Value, right: Value| match Machine::start(&image, &[left, right]).unwrap().run(100).outcome {
///     Outcome::Failed(error) => error,
///     other => panic!("{other}"),
/// };
///
/// let by_zero = error(Value::Integer(7), Value::Integer(0));
/// assert_eq!(by_zero.kind, LuaErrorKind::FloorDivideByZero);
/// assert_eq!(by_zero.number(), 45);
/// assert_eq!(by_zero.operand, Some(Operand::Second));
/// assert_eq!(by_zero.to_string(), "the right operand of `//` is zero");
///
/// let of_nil = error(Value::Nil, Value::Integer(7));
/// assert_eq!((of_nil.kind, of_nil.operand), (LuaErrorKind::FloorDivide, Some(Operand::First)));
/// assert_eq!(
///     of_nil.to_string(),
///     "the left operand of `//` is not a number, nor a string that reads as one"
/// );
/// # Ok::<(), deletion_machine::ReadError>(())
/// ```
#[derive(Clone, Copy, Debug, PartialEq, Eq, Hash)]
pub struct LuaError {
    /// What was wrong.
    pub kind: LuaErrorKind,
    /// The operand that is named: the first that is unfit, or the zero divisor. An operator's error names one, that of a call or
    /// of a function that is made none.
    ///
    /// A machine that was resumed answers the operand that its state keeps, also one that no run leaves there, as with a call; then
    /// the text says what it says without one.
    pub operand: Option<Operand>,
}

impl LuaError {
    /// The number that the machine answers.
    pub fn number(&self) -> u8 {
        self.kind.number()
    }
}

/// An operand, as an error names it. Left and right are the instruction's: `a > b` in Lua's code is `b < a`.
#[derive(Clone, Copy, Debug, PartialEq, Eq, Hash)]
#[repr(u8)]
#[non_exhaustive]
pub enum Operand {
    /// 1: the left or only one; the index of a numeric `for`.
    First = 1,
    /// 2: the right one; the limit of a numeric `for`.
    Second = 2,
    /// 3: the step of a numeric `for`.
    Third = 3,
}

impl Operand {
    fn told(number: u32) -> Option<Operand> {
        match number {
            0 => None,
            1 => Some(Operand::First),
            2 => Some(Operand::Second),
            3 => Some(Operand::Third),
            _ => crate::unknown(number),
        }
    }

    /// The number that the machine answers: 1 to 3.
    pub fn number(&self) -> u8 {
        *self as u8
    }
}

/// The Lua errors.
///
/// 30 to 44 say that an operand is unfit for its operator. Arithmetic and bit operations (30 to 42) take a string where it
/// reads as an integer or a number, as `"7"`, `" 12 "`, `"0x0A"` and `"2.5"` do; comparisons (43, 44) and the controls of
/// a numeric `for` take none for a number. Where two kinds don't go together in a comparison, the right operand is named if the left one
/// is an integer, a number or a string, else the left one.
#[derive(Clone, Copy, Debug, PartialEq, Eq, Hash)]
#[repr(u8)]
#[non_exhaustive]
pub enum LuaErrorKind {
    /// 30: `+`, or the controls of a numeric `for`.
    Add = 30,
    /// 31: `-` with two operands, or the start and step of a numeric `for`.
    Subtract = 31,
    /// 32: `*`.
    Multiply = 32,
    /// 33: `/`.
    FloatDivide = 33,
    /// 34: `//`.
    FloorDivide = 34,
    /// 35: `%`.
    Modulo = 35,
    /// 36: `-` with one operand.
    UnaryNegate = 36,
    /// 37: `&`.
    BitAnd = 37,
    /// 38: `|`.
    BitOr = 38,
    /// 39: `~` with two operands.
    BitXor = 39,
    /// 40: `~` with one operand.
    BitNot = 40,
    /// 41: `<<`.
    ShiftLeft = 41,
    /// 42: `>>`.
    ShiftRight = 42,
    /// 43: `<` or `>`.
    LessThan = 43,
    /// 44: `<=` or `>=`.
    LessEqual = 44,
    /// 45: `//` of an integer by the integer 0.
    FloorDivideByZero = 45,
    /// 46: `%` of an integer by the integer 0.
    ModuloByZero = 46,
    /// 50: a call of a value that is no function.
    NotAFunction = 50,
    /// 51: a call with 16 activations live.
    TooDeep = 51,
    /// 52: a call that would pass 2,048 registers in all live windows.
    TooManyRegisters = 52,
    /// 53: a function is made, and no closure entry is free for it: the run has made 64.
    TooManyFunctions = 53,
    /// 54: a function is made, and of the 128 cells, for variables that functions use from outside, fewer are free than it needs.
    TooManyCells = 54,
}

impl LuaErrorKind {
    /// Every one of them, in the order of the numbers.
    pub const ALL: &'static [LuaErrorKind] = &[
        LuaErrorKind::Add,
        LuaErrorKind::Subtract,
        LuaErrorKind::Multiply,
        LuaErrorKind::FloatDivide,
        LuaErrorKind::FloorDivide,
        LuaErrorKind::Modulo,
        LuaErrorKind::UnaryNegate,
        LuaErrorKind::BitAnd,
        LuaErrorKind::BitOr,
        LuaErrorKind::BitXor,
        LuaErrorKind::BitNot,
        LuaErrorKind::ShiftLeft,
        LuaErrorKind::ShiftRight,
        LuaErrorKind::LessThan,
        LuaErrorKind::LessEqual,
        LuaErrorKind::FloorDivideByZero,
        LuaErrorKind::ModuloByZero,
        LuaErrorKind::NotAFunction,
        LuaErrorKind::TooDeep,
        LuaErrorKind::TooManyRegisters,
        LuaErrorKind::TooManyFunctions,
        LuaErrorKind::TooManyCells,
    ];

    fn told(number: u32) -> Option<LuaErrorKind> {
        Self::ALL
            .iter()
            .copied()
            .find(|kind| u32::from(kind.number()) == number)
    }

    /// The number that the machine answers.
    pub fn number(&self) -> u8 {
        *self as u8
    }
}

// What arithmetic and bit operations say of an operand that they don't take.
const NO_NUMBER: &str = "is not a number, nor a string that reads as one";
const NO_INTEGER: &str =
    "is not an integer, nor a number that equals one, nor a string that reads as either";

impl LuaError {
    /// The operand that is named, in words.
    fn side(&self) -> &'static str {
        match self.operand {
            Some(Operand::First) => "the left operand",
            Some(Operand::Second) => "the right operand",
            Some(Operand::Third) | None => "an operand",
        }
    }

    /// What the same number says in a loop, where it may be a loop's. One's beginning (31) doesn't look at the limit.
    fn in_a_loop(&self) -> &'static str {
        match (self.kind, self.operand) {
            (_, Some(Operand::First)) => "; in a loop: the index is not a number",
            (LuaErrorKind::Add, Some(Operand::Second)) => "; in a loop: the limit is not a number",
            (_, None) => "; in a loop: a control is not a number",
            (_, Some(_)) => "",
        }
    }

    /// The text of a comparison: `less` and what Lua's code has as the same with its operands exchanged.
    fn not_compared(&self, f: &mut fmt::Formatter<'_>, less: &str, greater: &str) -> fmt::Result {
        match self.operand {
            Some(Operand::First) => write!(f, "the left operand of `{less}` (the right one of `{greater}`) can't be compared with the other"),
            Some(Operand::Second) => write!(f, "the right operand of `{less}` (the left one of `{greater}`) can't be compared with the other"),
            Some(Operand::Third) | None => write!(f, "the operands of `{less}` (or `{greater}`) can't be compared with each other"),
        }?;
        write!(f, ": they are neither two numbers nor two strings")
    }
}

impl fmt::Display for LuaError {
    fn fmt(&self, f: &mut fmt::Formatter<'_>) -> fmt::Result {
        let side = self.side();
        match self.kind {
            LuaErrorKind::Add | LuaErrorKind::Subtract if self.operand == Some(Operand::Third) => {
                write!(f, "the step of a loop is not a number")
            }
            LuaErrorKind::Add => write!(f, "{side} of `+` {NO_NUMBER}{}", self.in_a_loop()),
            LuaErrorKind::Subtract => write!(f, "{side} of `-` {NO_NUMBER}{}", self.in_a_loop()),
            LuaErrorKind::Multiply => write!(f, "{side} of `*` {NO_NUMBER}"),
            LuaErrorKind::FloatDivide => write!(f, "{side} of `/` {NO_NUMBER}"),
            LuaErrorKind::FloorDivide => write!(f, "{side} of `//` {NO_NUMBER}"),
            LuaErrorKind::Modulo => write!(f, "{side} of `%` {NO_NUMBER}"),
            LuaErrorKind::UnaryNegate => write!(f, "the only operand of `-` {NO_NUMBER}"),
            LuaErrorKind::BitAnd => write!(f, "{side} of `&` {NO_INTEGER}"),
            LuaErrorKind::BitOr => write!(f, "{side} of `|` {NO_INTEGER}"),
            LuaErrorKind::BitXor => write!(f, "{side} of `~` {NO_INTEGER}"),
            LuaErrorKind::BitNot => write!(f, "the only operand of `~` {NO_INTEGER}"),
            LuaErrorKind::ShiftLeft => write!(f, "{side} of `<<` {NO_INTEGER}"),
            LuaErrorKind::ShiftRight => write!(f, "{side} of `>>` {NO_INTEGER}"),
            LuaErrorKind::LessThan => self.not_compared(f, "<", ">"),
            LuaErrorKind::LessEqual => self.not_compared(f, "<=", ">="),
            LuaErrorKind::FloorDivideByZero => write!(f, "the right operand of `//` is zero"),
            LuaErrorKind::ModuloByZero => write!(f, "the right operand of `%` is zero"),
            LuaErrorKind::NotAFunction => write!(f, "a call of a value that is not a function"),
            LuaErrorKind::TooDeep => write!(f, "a call too deep: 16 functions are active already"),
            LuaErrorKind::TooManyRegisters => write!(
                f,
                "a call too deep: the active functions would have more than 2048 registers"
            ),
            LuaErrorKind::TooManyFunctions => write!(
                f,
                "a function too many: this run has made 64, and there is no room for another"
            ),
            LuaErrorKind::TooManyCells => write!(
                f,
                "a function too many: of the 128 places for variables that functions use from outside, too few are left"
            ),
        }
    }
}

impl Error for LuaError {}
