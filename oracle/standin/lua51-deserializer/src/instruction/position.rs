//! Stand-in: empty (not among the files at hand: instruction/position.rs).
