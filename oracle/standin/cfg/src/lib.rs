//! Stand-in (not among the files at hand: cfg/src/lib.rs): the two original modules.
pub mod block;
pub mod function;
