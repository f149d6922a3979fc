//! Stand-in: empty (not among the files at hand: ast/src/replace_locals.rs; nothing here uses it).
