//! Stands in for the original's opcode.rs: the operations, with the fields that its `run_vm` names.
use crate::types::{ConstantIndex16, ConstantIndex8, Opt254, PrototypeIndex, RegisterIndex, UpValueIndex, VarCount};

#[derive(Clone, Copy)]
pub enum RCIndex {
    Register(RegisterIndex),
    Constant(ConstantIndex8),
}

#[derive(Clone, Copy)]
pub enum Operation {
    Move { dest: RegisterIndex, source: RegisterIndex },
    LoadConstant { dest: RegisterIndex, constant: ConstantIndex16 },
    LoadBool { dest: RegisterIndex, value: bool, skip_next: bool },
    LoadNil { dest: RegisterIndex, count: u8 },
    NewTable { dest: RegisterIndex, array_size: u8, map_size: u8 },
    GetTable { dest: RegisterIndex, table: RegisterIndex, key: RCIndex },
    SetTable { table: RegisterIndex, key: RCIndex, value: RCIndex },
    GetUpTable { dest: RegisterIndex, table: UpValueIndex, key: RCIndex },
    SetUpTable { table: UpValueIndex, key: RCIndex, value: RCIndex },
    SetList { base: RegisterIndex, count: VarCount },
    Call { func: RegisterIndex, args: VarCount, returns: VarCount },
    TailCall { func: RegisterIndex, args: VarCount },
    Return { start: RegisterIndex, count: VarCount },
    VarArgs { dest: RegisterIndex, count: VarCount },
    Jump { offset: i16, close_upvalues: Opt254 },
    Test { value: RegisterIndex, is_true: bool },
    TestSet { dest: RegisterIndex, value: RegisterIndex, is_true: bool },
    Closure { proto: PrototypeIndex, dest: RegisterIndex },
    NumericForPrep { base: RegisterIndex, jump: i16 },
    NumericForLoop { base: RegisterIndex, jump: i16 },
    GenericForCall { base: RegisterIndex, var_count: u8 },
    GenericForLoop { base: RegisterIndex, jump: i16 },
    Method { base: RegisterIndex, table: RegisterIndex, key: RCIndex },
    Concat { dest: RegisterIndex, source: RegisterIndex, count: u8 },
    GetUpValue { source: UpValueIndex, dest: RegisterIndex },
    SetUpValue { source: RegisterIndex, dest: UpValueIndex },
    Length { dest: RegisterIndex, source: RegisterIndex },
    Eq { skip_if: bool, left: RCIndex, right: RCIndex },
    Less { skip_if: bool, left: RCIndex, right: RCIndex },
    LessEq { skip_if: bool, left: RCIndex, right: RCIndex },
    Not { dest: RegisterIndex, source: RegisterIndex },
    Minus { dest: RegisterIndex, source: RegisterIndex },
    BitNot { dest: RegisterIndex, source: RegisterIndex },
    Add { dest: RegisterIndex, left: RCIndex, right: RCIndex },
    Sub { dest: RegisterIndex, left: RCIndex, right: RCIndex },
    Mul { dest: RegisterIndex, left: RCIndex, right: RCIndex },
    Div { dest: RegisterIndex, left: RCIndex, right: RCIndex },
    IDiv { dest: RegisterIndex, left: RCIndex, right: RCIndex },
    Mod { dest: RegisterIndex, left: RCIndex, right: RCIndex },
    Pow { dest: RegisterIndex, left: RCIndex, right: RCIndex },
    BitAnd { dest: RegisterIndex, left: RCIndex, right: RCIndex },
    BitOr { dest: RegisterIndex, left: RCIndex, right: RCIndex },
    BitXor { dest: RegisterIndex, left: RCIndex, right: RCIndex },
    ShiftLeft { dest: RegisterIndex, left: RCIndex, right: RCIndex },
    ShiftRight { dest: RegisterIndex, left: RCIndex, right: RCIndex },
}

/// The original packs an operation into 32 bits; here it stands as it is.
pub struct OpCode(pub Operation);

impl OpCode {
    pub fn decode(&self) -> Operation {
        self.0
    }
}
