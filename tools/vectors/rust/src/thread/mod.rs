//! The original's thread/vm.rs, unchanged, beside what stands in for the file that it calls; and what hands it work.
pub mod thread;
pub mod vm;

use crate::{opcode::OpCode, opcode::Operation, Closure, Context, RuntimeError, Value};
use std::panic::{catch_unwind, AssertUnwindSafe};
use thread::{Activation, FunctionPrototype, LuaFrame, Prototypes, Thread};

pub enum VMError {
    BadEnvUpValue,
}

/// One operation at instruction `pc` of a function, carried out by the original's `run_vm`: where it goes next.
pub fn run_one<'gc>(op: Operation, pc: usize, registers: &mut [Value<'gc>]) -> Result<usize, RuntimeError> {
    let filler = (0..pc).map(|_| OpCode(Operation::Jump { offset: 0, close_upvalues: crate::types::Opt254::none() }));
    let opcodes = filler.chain([OpCode(op)]).collect();
    let (number, parameters, constants, upvalues) = (0, 0, vec![], vec![]);
    let prototypes = Prototypes::default();
    let of = registers.len() as u8;
    let prototype = FunctionPrototype { number, registers: of, parameters, opcodes, constants, prototypes, upvalues };
    // A closure's lifetime is that of its values; a leaked prototype outlives them all.
    let closure = Closure(Box::leak(Box::new(prototype)));
    let activations = vec![Activation { closure, base: 0, pc }];
    let mut thread = Thread { activations, registers: registers.to_vec(), returned: None };
    vm::run_vm(Context::default(), LuaFrame(&mut thread), 1)?;
    registers.copy_from_slice(&thread.registers);
    Ok(thread.innermost().pc)
}

/// How a run ended.
pub enum Ending<'gc> {
    Returned(Vec<Value<'gc>>),
    Raised(RuntimeError),
    Panicked,
    /// The budget is used.
    Running,
    /// The stack that stands in for the original's has no room left.
    Full,
}

/// What the stand-in's windows may have together. Document 01's limits are far below; the files that are here have none.
const MOST_REGISTERS: usize = 100_000;

/// The original's `run_vm`, again and again, since it comes back at every Call and Return: how the run ended, and after
/// how many instructions. `run_vm` doesn't count a Call or a Return, and an error ends it without a count.
pub fn run_whole<'gc>(thread: &mut Thread<'gc>, budget: u32) -> (Ending<'gc>, u32) {
    let mut count = 0;
    while count < budget {
        let left = budget - count;
        match catch_unwind(AssertUnwindSafe(|| vm::run_vm(Context::default(), LuaFrame(thread), left))) {
            Err(_) => return (Ending::Panicked, count),
            Ok(Err(error)) => return (Ending::Raised(error), count),
            Ok(Ok(run)) => count += if run < left { run + 1 } else { run },
        }
        if let Some(values) = thread.returned.take() {
            return (Ending::Returned(values), count);
        }
        if thread.registers.len() > MOST_REGISTERS {
            return (Ending::Full, count);
        }
    }
    (Ending::Running, count)
}
