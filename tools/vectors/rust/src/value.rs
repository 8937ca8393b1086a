//! Stands in for the original's value.rs, string.rs, closure.rs, function.rs, lua.rs and error.rs, which are not here:
//! values, and what run_vm raises. What a value does is left to the original's `Constant`.
use crate::{
    absent,
    constant::Constant,
    table::Table,
    thread::{
        thread::{FunctionPrototype, UpValue},
        vm::BinaryOperatorError,
        VMError,
    },
};
use gc_arena::allocator_api::MetricsAlloc;
use std::marker::PhantomData;

#[derive(Debug, Clone, Copy)]
pub struct String<'gc>(pub &'gc [u8]);

impl<'gc> AsRef<[u8]> for String<'gc> {
    fn as_ref(&self) -> &[u8] {
        self.0
    }
}

impl<'gc> String<'gc> {
    pub fn concat(_: Context<'gc>, _: &[Value<'gc>]) -> Result<String<'gc>, RuntimeError> {
        absent()
    }
}

#[derive(Clone, Copy)]
pub struct Closure<'gc>(pub &'gc FunctionPrototype<'gc>);

impl<'gc> Closure<'gc> {
    pub fn prototype(self) -> &'gc FunctionPrototype<'gc> {
        self.0
    }

    pub fn upvalues(self) -> &'gc [UpValue] {
        &[]
    }

    pub fn from_parts(
        _: &Context<'gc>,
        proto: &'gc FunctionPrototype<'gc>,
        _: allocator_api2::vec::Vec<UpValue, MetricsAlloc>,
    ) -> Self {
        Closure(proto)
    }
}

#[derive(Clone, Copy)]
pub enum Function<'gc> {
    Closure(Closure<'gc>),
}

#[derive(Clone, Copy)]
pub enum Value<'gc> {
    Nil,
    Boolean(bool),
    Integer(i64),
    Number(f64),
    String(String<'gc>),
    Table(Table),
    Function(Function<'gc>),
}

impl<'gc> Value<'gc> {
    pub fn to_constant(self) -> Option<Constant<String<'gc>>> {
        match self {
            Value::Nil => Some(Constant::Nil),
            Value::Boolean(b) => Some(Constant::Boolean(b)),
            Value::Integer(i) => Some(Constant::Integer(i)),
            Value::Number(x) => Some(Constant::Number(x)),
            Value::String(s) => Some(Constant::String(s)),
            Value::Table(_) | Value::Function(_) => None,
        }
    }

    pub fn to_bool(self) -> bool {
        self.to_constant().map_or(true, |c| c.to_bool())
    }

    pub fn to_number(self) -> Option<f64> {
        self.to_constant()?.to_number()
    }

    pub fn not(self) -> Value<'gc> {
        Value::Boolean(!self.to_bool())
    }
}

impl<'gc> From<Constant<String<'gc>>> for Value<'gc> {
    fn from(constant: Constant<String<'gc>>) -> Self {
        match constant {
            Constant::Nil => Value::Nil,
            Constant::Boolean(b) => Value::Boolean(b),
            Constant::Integer(i) => Value::Integer(i),
            Constant::Number(x) => Value::Number(x),
            Constant::String(s) => Value::String(s),
        }
    }
}

#[derive(Clone, Copy, Default)]
pub struct Context<'gc>(PhantomData<&'gc ()>);

pub enum RuntimeError {
    Operator(BinaryOperatorError),
    /// A Call of a value that is no function.
    NoFunction,
    VM,
}

impl From<BinaryOperatorError> for RuntimeError {
    fn from(error: BinaryOperatorError) -> Self {
        RuntimeError::Operator(error)
    }
}

impl From<VMError> for RuntimeError {
    fn from(_: VMError) -> Self {
        RuntimeError::VM
    }
}
