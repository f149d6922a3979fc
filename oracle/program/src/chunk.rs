//! Reads a compiled Lua 5.1 chunk, and makes of each function the record that `Lifter::lift` takes. Constants go through the
//! original `Value::parse`, words through the original `Instruction::parse`.
use std::{
    panic::{AssertUnwindSafe, catch_unwind},
    sync::OnceLock,
};

use lua51_deserializer::{Function, Instruction, Value, function::Closures};

use crate::last_panic;

const HEADER: [u8; 12] = [0x1b, 0x4c, 0x75, 0x61, 0x51, 0, 1, 4, 4, 4, 8, 0];

const MOST_DEPTH: usize = 200;

pub struct Raw<'a> {
    pub number: usize,
    pub upvalues: u8,
    pub parameters: u8,
    pub flags: u8,
    pub stack: u8,
    pub words: Vec<&'a [u8]>,
    pub constants: Vec<&'a [u8]>,
    pub children: Vec<Raw<'a>>,
}

/// How nested functions and constants are handed to the lifter.
#[derive(Clone, Copy)]
pub struct Given {
    /// The nested functions themselves. If not, each is the single word RETURN 0 1 with as many upvalues.
    pub nested: bool,
    /// The constants themselves. If not, each tells its index: constant 7 is the number 7, or the string "7".
    pub constants: bool,
}

pub type Read<T> = Result<T, String>;

struct Reader<'a> {
    bytes: &'a [u8],
    at: usize,
    next: usize,
}

impl<'a> Reader<'a> {
    fn take(&mut self, n: usize) -> Read<&'a [u8]> {
        if self.bytes.len() - self.at < n {
            return Err(format!("bytes end at offset {}", self.at));
        }
        let taken = &self.bytes[self.at..self.at + n];
        self.at += n;
        Ok(taken)
    }

    fn byte(&mut self) -> Read<u8> {
        Ok(self.take(1)?[0])
    }

    fn int(&mut self) -> Read<usize> {
        Ok(u32::from_le_bytes(self.take(4)?.try_into().unwrap()) as usize)
    }

    fn string(&mut self) -> Read<()> {
        let size = self.int()?;
        self.take(size)?;
        Ok(())
    }

    /// The bytes of a constant: how many they are is found by the original `Value::parse`.
    fn constant(&mut self) -> Read<&'a [u8]> {
        let from = self.at;
        let rest = &self.bytes[from..];
        match catch_unwind(AssertUnwindSafe(|| Value::parse(rest))) {
            Ok(Ok((left, _))) => self.at += rest.len() - left.len(),
            Ok(Err(e)) => return Err(format!("constant at {from}: {}", cause(&e))),
            Err(_) => return Err(format!("constant at {from}: {}", last_panic())),
        }
        Ok(&self.bytes[from..self.at])
    }

    fn function(&mut self, depth: usize) -> Read<Raw<'a>> {
        if MOST_DEPTH < depth {
            return Err("nested too deep".into());
        }
        let number = self.next;
        self.next += 1;
        self.string()?;
        self.take(8)?;
        let upvalues = self.byte()?;
        let parameters = self.byte()?;
        let flags = self.byte()?;
        let stack = self.byte()?;
        let mut words = vec![];
        for _ in 0..self.int()? {
            words.push(self.take(4)?);
        }
        let mut constants = vec![];
        for _ in 0..self.int()? {
            constants.push(self.constant()?);
        }
        let mut children = vec![];
        for _ in 0..self.int()? {
            children.push(self.function(depth + 1)?);
        }
        let lines = self.int()?;
        self.take(lines.saturating_mul(4))?;
        for _ in 0..self.int()? {
            self.string()?;
            self.take(8)?;
        }
        for _ in 0..self.int()? {
            self.string()?;
        }
        Ok(Raw {
            number,
            upvalues,
            parameters,
            flags,
            stack,
            words,
            constants,
            children,
        })
    }
}

fn cause<E>(e: &nom::Err<nom::error::Error<E>>) -> String {
    match e {
        nom::Err::Incomplete(_) => "incomplete".into(),
        nom::Err::Error(e) | nom::Err::Failure(e) => format!("nom {:?}", e.code),
    }
}

/// The main function of a chunk.
pub fn read(bytes: &[u8]) -> Read<Raw<'_>> {
    if !bytes.starts_with(&HEADER) {
        return Err("header".into());
    }
    let mut reader = Reader {
        bytes,
        at: HEADER.len(),
        next: 0,
    };
    let main = reader.function(1)?;
    if reader.at != bytes.len() {
        return Err(format!("bytes left over at {}", reader.at));
    }
    Ok(main)
}

/// The digits of an index, kept for the run.
fn digits(i: usize) -> &'static [u8] {
    static DIGITS: OnceLock<Vec<String>> = OnceLock::new();
    let all = DIGITS.get_or_init(|| (0..65_536).map(|i: usize| i.to_string()).collect());
    all[i].as_bytes()
}

fn constant<'a>(bytes: &'a [u8], i: usize, itself: bool) -> Value<'a> {
    let value = Value::parse(bytes).unwrap().1;
    match value {
        _ if itself => value,
        Value::String(_) => Value::String(digits(i)),
        _ => Value::Number(i as f64),
    }
}

fn placeholder<'a>(raw: &Raw<'a>) -> Function<'a> {
    Function {
        number_of_upvalues: raw.upvalues,
        number_of_parameters: 0,
        vararg_flag: 0,
        maximum_stack_size: 2,
        code: vec![Instruction::Return(0u8.into(), 1)],
        constants: vec![],
        closures: Closures(vec![]),
        number: raw.number,
    }
}

/// The record of a function.
pub fn decode<'a>(raw: &Raw<'a>, given: Given) -> Read<Function<'a>> {
    let mut code = vec![];
    for (i, word) in raw.words.iter().enumerate() {
        match catch_unwind(AssertUnwindSafe(|| Instruction::parse(word))) {
            Ok(Ok((_, instruction))) => code.push(instruction),
            Ok(Err(e)) => return Err(format!("word {i}: {}", cause(&e))),
            Err(_) => return Err(format!("word {i}: {}", last_panic())),
        }
    }
    let mut closures = vec![];
    for child in &raw.children {
        closures.push(match given.nested {
            true => decode(child, given)?,
            false => placeholder(child),
        });
    }
    Ok(Function {
        number_of_upvalues: raw.upvalues,
        number_of_parameters: raw.parameters,
        vararg_flag: raw.flags,
        maximum_stack_size: raw.stack,
        code,
        constants: raw
            .constants
            .iter()
            .enumerate()
            .map(|(i, bytes)| constant(bytes, i, given.constants))
            .collect(),
        closures: Closures(closures),
        number: raw.number,
    })
}
