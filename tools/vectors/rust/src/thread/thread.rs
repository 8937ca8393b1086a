//! Stands in for the original's thread/thread.rs, which is not here: prototypes, the stack of activations, and the frame
//! of the innermost one, on which `run_vm` works. What Call and Return do is the missing file's work, and is done here as
//! document 01 says it. The rest of that file's work (upvalues, metamethods, tail calls, open counts) nothing that is
//! run needs.
use crate::{
    absent,
    opcode::{OpCode, Operation},
    types::{RegisterIndex, UpValueDescriptor, VarCount},
    Closure, Constant, Context, Function, RuntimeError, String, Value,
};
use std::{cell::OnceCell, iter::repeat, ops::Index};

pub struct FunctionPrototype<'gc> {
    /// Its number in the image.
    pub number: u8,
    pub registers: u8,
    pub parameters: u8,
    pub opcodes: Vec<OpCode>,
    pub constants: Vec<Constant<String<'gc>>>,
    pub prototypes: Prototypes<'gc>,
    pub upvalues: Vec<UpValueDescriptor>,
}

/// The prototypes that a Closure may name. The original's are those nested in the one that runs; document 01's are all of
/// the image, the one that runs too, so they are put here after they are made.
#[derive(Default)]
pub struct Prototypes<'gc>(pub OnceCell<Vec<&'gc FunctionPrototype<'gc>>>);

impl<'gc> Index<usize> for Prototypes<'gc> {
    type Output = &'gc FunctionPrototype<'gc>;

    fn index(&self, i: usize) -> &Self::Output {
        self.0.get().and_then(|all| all.get(i)).unwrap_or_else(|| absent())
    }
}

pub enum MetaReturn {
    None,
    Register(RegisterIndex),
    SkipIf(bool),
}

#[derive(Clone, Copy)]
pub struct UpValue;

/// A function that was called, where its window begins and where it stands.
pub struct Activation<'gc> {
    pub closure: Closure<'gc>,
    pub base: usize,
    pub pc: usize,
}

/// The activations, the outermost first, and their windows one behind the other, so that the innermost one's is the last.
#[derive(Default)]
pub struct Thread<'gc> {
    pub activations: Vec<Activation<'gc>>,
    pub registers: Vec<Value<'gc>>,
    /// What the outermost activation returned.
    pub returned: Option<Vec<Value<'gc>>>,
}

/// The values that there are, as many as asked for, nil where they are short.
fn filled<'gc>(values: &[Value<'gc>], count: usize) -> Vec<Value<'gc>> {
    values.iter().copied().chain(repeat(Value::Nil)).take(count).collect()
}

fn constant(count: VarCount) -> usize {
    count.to_constant().unwrap_or_else(|| absent()) as usize
}

impl<'gc> Thread<'gc> {
    /// A function at its first instruction, in a window directly above the others.
    pub fn enter(&mut self, closure: Closure<'gc>, arguments: &[Value<'gc>]) {
        let prototype = closure.prototype();
        let taken = arguments.len().min(prototype.parameters as usize);
        let base = self.registers.len();
        self.registers.extend(filled(&arguments[..taken], prototype.registers as usize));
        self.activations.push(Activation { closure, base, pc: 0 });
    }

    /// Ends the innermost activation. Its values go down from the called function's register, or out of the machine.
    pub fn leave(&mut self, values: &[Value<'gc>]) {
        let base = self.activations.pop().unwrap_or_else(|| absent()).base;
        self.registers.truncate(base);
        let Some(caller) = self.activations.last() else {
            self.returned = Some(values.to_vec());
            return;
        };
        let Operation::Call { func, returns, .. } = caller.closure.prototype().opcodes[caller.pc - 1].decode() else {
            absent()
        };
        let first = caller.base + func.0 as usize;
        let asked = filled(values, constant(returns));
        self.registers[first..first + asked.len()].copy_from_slice(&asked);
    }

    pub fn innermost(&self) -> &Activation<'gc> {
        self.activations.last().unwrap_or_else(|| absent())
    }

    /// So many registers of the innermost window.
    fn taken(&self, first: usize, count: usize) -> Vec<Value<'gc>> {
        self.registers[self.innermost().base + first..][..count].to_vec()
    }
}

/// The innermost activation.
pub struct LuaFrame<'gc, 'a>(pub &'a mut Thread<'gc>);

pub struct LuaRegisters<'gc, 'a> {
    pub pc: &'a mut usize,
    pub stack_frame: &'a mut [Value<'gc>],
}

impl<'gc, 'a> LuaFrame<'gc, 'a> {
    pub fn closure(&self) -> Closure<'gc> {
        self.0.innermost().closure
    }

    pub fn registers(&mut self) -> LuaRegisters<'gc, '_> {
        let innermost = self.0.activations.last_mut().unwrap_or_else(|| absent());
        LuaRegisters { pc: &mut innermost.pc, stack_frame: &mut self.0.registers[innermost.base..] }
    }

    pub fn call_function(
        &mut self,
        _: Context<'gc>,
        func: RegisterIndex,
        args: VarCount,
        _: VarCount,
    ) -> Result<(), RuntimeError> {
        let function = func.0 as usize;
        let Value::Function(Function::Closure(closure)) = self.0.taken(function, 1)[0] else {
            return Err(RuntimeError::NoFunction);
        };
        let arguments = self.0.taken(function + 1, constant(args));
        self.0.enter(closure, &arguments);
        Ok(())
    }

    pub fn call_function_keep(
        &mut self,
        _: Context<'gc>,
        _: RegisterIndex,
        _: u8,
        _: VarCount,
    ) -> Result<(), RuntimeError> {
        absent()
    }

    pub fn call_meta_function(
        &mut self,
        _: Context<'gc>,
        _: Function<'gc>,
        _: &[Value<'gc>],
        _: MetaReturn,
    ) -> Result<(), RuntimeError> {
        absent()
    }

    pub fn tail_call_function(&mut self, _: Context<'gc>, _: RegisterIndex, _: VarCount) -> Result<(), RuntimeError> {
        absent()
    }

    pub fn return_upper(
        &mut self,
        _: &Context<'gc>,
        start: RegisterIndex,
        count: VarCount,
    ) -> Result<(), RuntimeError> {
        let values = self.0.taken(start.0 as usize, constant(count));
        self.0.leave(&values);
        Ok(())
    }

    pub fn varargs(&mut self, _: RegisterIndex, _: VarCount) -> Result<(), RuntimeError> {
        absent()
    }

    pub fn set_table_list(&mut self, _: &Context<'gc>, _: RegisterIndex, _: VarCount) -> Result<(), RuntimeError> {
        absent()
    }
}

impl<'gc, 'a> LuaRegisters<'gc, 'a> {
    pub fn open_upvalue(&mut self, _: &Context<'gc>, _: RegisterIndex) -> UpValue {
        absent()
    }

    pub fn close_upvalues(&mut self, _: &Context<'gc>, _: RegisterIndex) {
        absent()
    }

    pub fn get_upvalue(&self, _: &Context<'gc>, _: UpValue) -> Value<'gc> {
        absent()
    }

    pub fn set_upvalue(&mut self, _: &Context<'gc>, _: UpValue, _: Value<'gc>) {
        absent()
    }
}
