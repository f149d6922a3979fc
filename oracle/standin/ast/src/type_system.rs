//! Stand-in (not among the files at hand: ast/src/type_system.rs): names only.
use crate::RcLocal;
use std::marker::PhantomData;

#[derive(Debug, Clone, PartialEq)]
pub enum Type {
    Any,
    Nil,
    Boolean,
    Number,
    String,
    Vector,
    VarArg,
}

pub struct TypeSystem<'a> {
    any: Type,
    _p: PhantomData<&'a ()>,
}

impl<'a> TypeSystem<'a> {
    pub fn type_of(&self, _local: &RcLocal) -> &Type {
        &self.any
    }
}

pub trait Infer {
    fn infer<'a: 'b, 'b>(&'a mut self, system: &mut TypeSystem<'b>) -> Type;
}
