//! The crate is written for bitflags 2, which leaves the derives to its caller; Debian has 1.3, which derives the
//! same traits by itself. This macro drops the caller's attributes and hands the rest to 1.3.
pub use real;

#[macro_export]
macro_rules! bitflags {
    ($(#[$attribute:meta])* $visible:vis struct $name:ident: $bits:ty { $($flags:tt)* }) => {
        $crate::real::bitflags! { $visible struct $name: $bits { $($flags)* } }
    };
}
