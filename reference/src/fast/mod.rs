//! The same answers as `plain`, quickly: sums of products stay unreduced in
//! 64 bits and are reduced once per coefficient, a tree's key is folded once
//! per node, and multiplication by s(a,b) takes d steps. The degree is a
//! constant inside the loops, so that the compiler can unroll them, and so is
//! the width of the modulus: tables are copied to words of that width.

mod narrow;
mod opening;
mod relaxed;
mod ring;
mod text;
mod wide;

use narrow::Narrow;
use opening::claims;
use wide::Wide;

pub use opening::{check, check_cause, commit, whole_opening};
pub use relaxed::{extract, judge};
pub use text::{prove, read, verify, write};

/// Runs a function at the constant degree and the width of a shape, which
/// comes from settings that have been tested.
macro_rules! at_degree {
    ($shape:expr, $function:ident($($argument:expr),* $(,)?)) => {
        if $shape.q < 1 << 31 {
            $crate::fast::at_degree!(@ Narrow, $shape, $function($($argument),*))
        } else {
            $crate::fast::at_degree!(@ Wide, $shape, $function($($argument),*))
        }
    };
    (@ $modulus:ty, $shape:expr, $function:ident($($argument:expr),*)) => {
        match $shape.d {
            2 => $function::<2, $modulus>($($argument),*),
            4 => $function::<4, $modulus>($($argument),*),
            8 => $function::<8, $modulus>($($argument),*),
            16 => $function::<16, $modulus>($($argument),*),
            32 => $function::<32, $modulus>($($argument),*),
            64 => $function::<64, $modulus>($($argument),*),
            _ => $function::<128, $modulus>($($argument),*),
        }
    };
}
use at_degree;
