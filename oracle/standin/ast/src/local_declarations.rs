//! Stand-in: empty (not among the files at hand: ast/src/local_declarations.rs; nothing here uses it).
