//! Stand-in (not among the files at hand: instruction/layout.rs): opcode 6 bits, A 8, C 9, B 9
//! from the lowest; Bx the upper 18, sBx = Bx - 131071; the form by opcode as in
//! lopcodes.c's opmodes.
use nom::{number::complete::le_u32, IResult};

#[derive(Debug, Clone, Copy)]
pub enum Layout {
    BC { a: u8, b: u16, c: u16 },
    BX { a: u8, b_x: u32 },
    BSx { a: u8, b_sx: i32 },
}

impl Layout {
    pub fn parse(input: &[u8], operation_code: u8) -> IResult<&[u8], Self> {
        let (input, word) = le_u32(input)?;
        let a = (word >> 6) as u8;
        let layout = match operation_code {
            // LOADK, GETGLOBAL, SETGLOBAL, CLOSURE
            1 | 5 | 7 | 36 => Layout::BX { a, b_x: word >> 14 },
            // JMP, FORLOOP, FORPREP
            22 | 31 | 32 => Layout::BSx {
                a,
                b_sx: (word >> 14) as i32 - 131071,
            },
            _ => Layout::BC {
                a,
                b: (word >> 23) as u16,
                c: ((word >> 14) & 0x1ff) as u16,
            },
        };
        Ok((input, layout))
    }
}
