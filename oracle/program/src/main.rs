//! The original `Lifter::lift` on every function of compiled Lua 5.1 chunks.
//!
//! Standard input: chunks, each behind its length in four bytes, lowest first. Standard output: for each chunk a line `C`, then
//! for each function
//!
//!   F, K   as document 01 has them: parameters and upvalues counted in what `lift` gave back, constants by `Value::parse`
//!   L      how many functions `lift` lifted, itself among them
//!   P      only where `lift` did not come back: with what message. The function is then lifted once more with its nested functions
//!          replaced by single returns, and if that does not come back either, a second P ends the function
//!   V      then the lines B, S, E matched as document 01 says, literals as values
//!   I      the same with literals as indexes of constants
//!   W      the same as found: numbers and orders those of the original
//!
//! or one line `R` with a message for a chunk that is not read.
mod chunk;
mod lines;

use std::{
    cell::RefCell,
    io::{Read, Write},
    panic::{AssertUnwindSafe, catch_unwind},
};

use chunk::{Given, Raw, decode};
use lines::{Literals, Printer, constants, line};
use lua51_deserializer::function;
use lua51_lifter::Lifter;

thread_local!(static PANIC: RefCell<String> = const { RefCell::new(String::new()) });

pub fn last_panic() -> String {
    PANIC.with(|p| p.borrow().clone())
}

/// What one lift gives.
struct Lifted {
    parameters: usize,
    upvalues: usize,
    functions: usize,
    matched: String,
    found: String,
}

fn lift(raw: &Raw, given: Given, literals: Literals) -> Result<Lifted, String> {
    let f = decode(raw, given)?;
    rustc_hash::log_clear();
    function::log_take();
    let base = triomphe::peek_id();
    let mut nested = vec![];
    let (graph, upvalues) = catch_unwind(AssertUnwindSafe(|| Lifter::lift(&f, &mut nested))).map_err(|_| last_panic())?;
    let keys = rustc_hash::log_take();
    let closures = function::log_take();
    let printer = Printer {
        function: &f,
        literals,
        base,
        closures: closures.into_iter().map(|(made, n)| (made + 1, n)).collect(),
    };
    // registers and upvalues are told apart as they should be
    for (i, u) in upvalues.iter().enumerate() {
        let mut run = vec![];
        printer.local(u, &mut run);
        assert_eq!(run, [5, i]);
    }
    for (i, l) in graph.parameters.iter().enumerate() {
        assert_eq!(printer.register(l), i);
    }
    // nodes made before the entry's are those of the code blocks
    let firsts = &keys[..graph.entry().unwrap().index()];
    Ok(Lifted {
        parameters: graph.parameters.len(),
        upvalues: upvalues.len(),
        functions: nested.len() + 1,
        matched: printer.graph(&graph, firsts, false),
        found: printer.graph(&graph, firsts, true),
    })
}

fn each(raw: &Raw, out: &mut String) {
    let alone = Given { nested: false, constants: true };
    let whole = Given { nested: true, constants: true };
    let indexed = Given { nested: false, constants: false };
    let mut refused = String::new();
    let mut answer = lift(raw, whole, Literals::Values);
    let functions = answer.as_ref().map_or(0, |a| a.functions);
    if let Err(message) = &answer {
        refused += &format!("P {message}\n");
        answer = lift(raw, alone, Literals::Values);
        if let Err(message) = &answer {
            refused += &format!("P {message}\n");
        }
    }
    let (parameters, upvalues) = match &answer {
        Ok(a) => (a.parameters, a.upvalues),
        Err(_) => (raw.parameters as usize, raw.upvalues as usize),
    };
    line(out, 'F', &[raw.number, parameters, upvalues, raw.stack as usize]);
    if let Ok(f) = decode(raw, alone) {
        constants(out, &f);
    }
    line(out, 'L', &[functions]);
    *out += &refused;
    let Ok(values) = answer else {
        return;
    };
    let indexes = lift(raw, indexed, Literals::Indexes).unwrap();
    *out += "V\n";
    *out += &values.matched;
    *out += "I\n";
    *out += &indexes.matched;
    *out += "W\n";
    *out += &indexes.found;
}

fn all(raw: &Raw, out: &mut String) {
    each(raw, out);
    for child in &raw.children {
        all(child, out);
    }
}

fn run() {
    let mut input = vec![];
    std::io::stdin().read_to_end(&mut input).unwrap();
    let mut stdout = std::io::BufWriter::new(std::io::stdout().lock());
    let mut rest = &input[..];
    while let Some((length, behind)) = rest.split_first_chunk::<4>() {
        let (bytes, behind) = behind.split_at(u32::from_le_bytes(*length) as usize);
        let mut out = String::from("C\n");
        match chunk::read(bytes) {
            Ok(main) => all(&main, &mut out),
            Err(message) => out += &format!("R {message}\n"),
        }
        stdout.write_all(out.as_bytes()).unwrap();
        rest = behind;
    }
    stdout.flush().unwrap();
}

fn main() {
    std::panic::set_hook(Box::new(|info| {
        let payload = info.payload();
        let message = match (payload.downcast_ref::<&str>(), payload.downcast_ref::<String>()) {
            (Some(s), _) => s.to_string(),
            (_, Some(s)) => s.clone(),
            _ => "?".into(),
        };
        let place = info.location().map(|l| format!(" [{}:{}]", l.file(), l.line()));
        let text = message.replace('\n', " ") + &place.unwrap_or_default();
        PANIC.with(|p| *p.borrow_mut() = text.clone());
        if message.starts_with("program") {
            eprintln!("{text}");
        }
    }));
    // `lift` calls itself for each nested function
    let run = std::thread::Builder::new().stack_size(1 << 30).spawn(run).unwrap();
    if run.join().is_err() {
        eprintln!("{}", "the program that runs the original failed");
        std::process::exit(1);
    }
}
