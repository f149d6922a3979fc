//! Stand-in: empty (not among the files at hand: ast/src/name_locals.rs; nothing here uses it).
