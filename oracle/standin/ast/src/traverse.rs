//! Stand-in (not among the files at hand: ast/src/traverse.rs): only the three methods that
//! the record files implement.
use crate::{LValue, RValue};

pub trait Traverse {
    fn lvalues_mut(&mut self) -> Vec<&mut LValue> {
        Vec::new()
    }
    fn rvalues_mut(&mut self) -> Vec<&mut RValue> {
        Vec::new()
    }
    fn rvalues(&self) -> Vec<&RValue> {
        Vec::new()
    }
}
