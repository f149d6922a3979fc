//! Stand-in (not among the files at hand: lua51-lifter/src/lib.rs): the original module.
mod lifter;
pub use lifter::Lifter;
