//! Stand-in (not among the files at hand: ast/src/side_effects.rs).
pub trait SideEffects {
    fn has_side_effects(&self) -> bool {
        false
    }
}

#[macro_export]
macro_rules! has_side_effects {
    ($name:ident) => {
        impl $crate::SideEffects for $name {
            fn has_side_effects(&self) -> bool {
                true
            }
        }
    };
}
