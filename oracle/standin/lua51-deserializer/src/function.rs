//! Stand-in (not among the files at hand: the deserializer's function.rs): the record that
//! lifter.rs reads, and `Closures`, a list that notes which of its places is
//! indexed (so that a lifted closure can be given its function's number).
use crate::{Instruction, Value};
use std::{cell::RefCell, ops::Index};

#[derive(Debug)]
pub struct Function<'a> {
    pub number_of_upvalues: u8,
    pub number_of_parameters: u8,
    pub vararg_flag: u8,
    pub maximum_stack_size: u8,
    pub code: Vec<Instruction>,
    pub constants: Vec<Value<'a>>,
    pub closures: Closures<'a>,
    /// number in the chunk, preorder
    pub number: usize,
}

#[derive(Debug, Default)]
pub struct Closures<'a>(pub Vec<Function<'a>>);

thread_local!(static LOG: RefCell<Vec<(u64, usize)>> = const { RefCell::new(Vec::new()) });

/// (creation number taken at the indexing, number of the function indexed)
pub fn log_take() -> Vec<(u64, usize)> {
    LOG.with(|l| std::mem::take(&mut *l.borrow_mut()))
}

impl<'a> Index<usize> for Closures<'a> {
    type Output = Function<'a>;
    fn index(&self, index: usize) -> &Function<'a> {
        let f = &self.0[index];
        // lifter.rs makes the closure's own Arc next after this indexing
        LOG.with(|l| l.borrow_mut().push((triomphe::next_id(), f.number)));
        f
    }
}
