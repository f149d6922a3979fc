//! Stand-in (not among the files at hand: the deserializer's lib.rs).
pub mod function;
pub mod instruction;
pub mod value;

pub use function::Function;
pub use instruction::{argument, Instruction};
pub use value::Value;
