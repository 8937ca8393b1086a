//! Stands in for the original's meta_ops.rs, which is not here. Equality goes to the original's `Constant`, and of
//! functions it is document 01's: they are equal when their prototypes are. Nothing that is run needs the rest.
use crate::{absent, Context, Function, RuntimeError, Value};

pub enum MetaResult<'gc> {
    Value(Value<'gc>),
    Call(MetaCall<'gc>),
}

pub struct MetaCall<'gc> {
    pub function: Function<'gc>,
    pub args: Vec<Value<'gc>>,
}

pub fn index<'gc>(_: Context<'gc>, _: Value<'gc>, _: Value<'gc>) -> Result<MetaResult<'gc>, RuntimeError> {
    absent()
}

pub fn new_index<'gc>(
    _: Context<'gc>,
    _: Value<'gc>,
    _: Value<'gc>,
    _: Value<'gc>,
) -> Result<Option<MetaCall<'gc>>, RuntimeError> {
    absent()
}

pub fn len<'gc>(_: Context<'gc>, _: Value<'gc>) -> Result<MetaResult<'gc>, RuntimeError> {
    absent()
}

pub fn equal<'gc>(_: Context<'gc>, left: Value<'gc>, right: Value<'gc>) -> Result<MetaResult<'gc>, RuntimeError> {
    let equal = match (left, right) {
        (Value::Function(Function::Closure(a)), Value::Function(Function::Closure(b))) => std::ptr::eq(a.0, b.0),
        _ => left.to_constant().zip(right.to_constant()).map_or(false, |(a, b)| a.is_equal(&b)),
    };
    Ok(MetaResult::Value(Value::Boolean(equal)))
}
