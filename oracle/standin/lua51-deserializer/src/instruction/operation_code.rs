//! Stand-in (not among the files at hand: instruction/operation_code.rs): the low six bits of
//! a little-endian word, in lopcodes.h's order; above 37 is a failure.
use nom::{
    error::{Error, ErrorKind, ParseError},
    number::complete::le_u32,
    Err, IResult,
};
use num_traits::ToPrimitive;

macro_rules! codes {
    ($($name:ident),* $(,)?) => {
        #[derive(Debug, Clone, Copy, PartialEq, Eq)]
        pub enum OperationCode { $($name),* }
        const ALL: &[OperationCode] = &[$(OperationCode::$name),*];
    };
}

codes!(
    Move, LoadConstant, LoadBoolean, LoadNil, GetUpvalue, GetGlobal, GetIndex, SetGlobal,
    SetUpvalue, SetIndex, NewTable, PrepMethodCall, Add, Subtract, Multiply, Divide, Modulo,
    Power, Minus, Not, Length, Concatenate, Jump, Equal, LessThan, LessThanOrEqual, Test,
    TestSet, Call, TailCall, Return, IterateNumericForLoop, InitNumericForLoop,
    IterateGenericForLoop, SetList, Close, Closure, VarArg,
);

impl OperationCode {
    pub fn parse(input: &[u8]) -> IResult<&[u8], Self> {
        let (rest, word) = le_u32(input)?;
        match ALL.get((word & 0x3f) as usize) {
            Some(code) => Ok((rest, *code)),
            None => Err(Err::Failure(Error::from_error_kind(
                input,
                ErrorKind::Switch,
            ))),
        }
    }
}

impl ToPrimitive for OperationCode {
    fn to_i64(&self) -> Option<i64> {
        Some(*self as i64)
    }
    fn to_u64(&self) -> Option<u64> {
        Some(*self as u64)
    }
}
