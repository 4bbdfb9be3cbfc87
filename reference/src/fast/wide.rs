//! Arithmetic modulo q below 2^61: a residue in 64 bits. In a sum of products
//! a key coefficient is taken in two parts of 31 bits, each summed in 64.

use super::ring::{self, add_window, Modulus};
use crate::types::Residue;

/// Bits of the low part of a number that is taken in two.
const PART: u32 = 31;

/// A number of at most 62 bits in two parts.
#[inline]
fn in_two(x: u64) -> [u32; 2] {
    [(x & ((1 << PART) - 1)) as u32, (x >> PART) as u32]
}

#[derive(Clone, Copy)]
pub struct Wide {
    q: u64,
}

impl Wide {
    fn reduce(self, x: u128) -> u64 {
        (x % u128::from(self.q)) as u64
    }

    fn reduce_signed(self, x: i128) -> u64 {
        x.rem_euclid(i128::from(self.q)) as u64
    }
}

impl Modulus for Wide {
    type Word = u64;
    type Total = i128;
    type Sum<const D: usize> = Sum<D>;

    fn new(q: Residue) -> Wide {
        Wide { q }
    }

    #[inline]
    fn q(self) -> Residue {
        self.q
    }

    #[inline]
    fn word(x: Residue) -> u64 {
        x
    }

    #[inline]
    fn residue(x: u64) -> Residue {
        x
    }

    #[inline]
    fn add(self, x: u64, y: u64) -> u64 {
        // Both are below 2^61, so the sum fits.
        let sum = x + y;
        sum.min(sum.wrapping_sub(self.q))
    }

    #[inline]
    fn subtract(self, x: u64, y: u64) -> u64 {
        let difference = x.wrapping_sub(y);
        difference.min(difference.wrapping_add(self.q))
    }

    #[inline]
    fn multiply(self, x: u64, y: u64) -> u64 {
        self.reduce(u128::from(x) * u128::from(y))
    }

    #[inline]
    fn plain_sum(x: u64, y: u64) -> u64 {
        x + y
    }

    #[inline]
    fn scaled(self, x: u64, factor: u32) -> u64 {
        self.multiply(x, factor.into())
    }

    #[inline]
    fn more(total: i128, x: Residue) -> i128 {
        total + i128::from(x)
    }

    #[inline]
    fn less(total: i128, x: Residue) -> i128 {
        total - i128::from(x)
    }

    #[inline]
    fn reduce_total(self, total: i128) -> u64 {
        self.reduce_signed(total)
    }

    /// Each w is reduced and then taken in two parts, so that sums over all
    /// n·D products fit in 128 bits: 2^31·2^61·2^15.
    fn inner_product_any<const D: usize>(self, w: &[[i64; D]], g: &[[u64; D]]) -> [u64; D] {
        let mut sums = [[0u128; D]; 2];
        for (w, g) in w.iter().zip(g) {
            for (i, &x) in w.iter().enumerate() {
                let parts = in_two(self.reduce_signed(x.into()));
                for k in 0..D {
                    // The coefficient of X^k in X^i·g.
                    let y = if k < i {
                        self.q - g[D + k - i]
                    } else {
                        g[k - i]
                    };
                    for (sum, part) in sums.iter_mut().zip(parts) {
                        sum[k] += u128::from(part) * u128::from(y);
                    }
                }
            }
        }
        std::array::from_fn(|k| {
            let [low, high] = [self.reduce(sums[0][k]), self.reduce(sums[1][k])];
            self.reduce(u128::from(low) + (u128::from(high) << PART))
        })
    }
}

/// No sum exceeds 64 bits, as a part has no more than 31 of them: a lift times
/// the number of elements is at most 2^16, and D·2^31 at most 2^38.
pub struct Sum<const D: usize> {
    lift: i32,
    parts: [[u64; D]; 2],
    keys: [u128; D],
}

impl<const D: usize> ring::Sum<D, Wide> for Sum<D> {
    fn new(lift: i64) -> Sum<D> {
        Sum {
            lift: lift as i32,
            parts: [[0; D]; 2],
            keys: [0; D],
        }
    }

    #[inline]
    fn add_product(&mut self, m: &[i32; D], g: &[u64; D], top: u64) {
        let mut windows = [[[0; D]; 2]; 2];
        for (k, &y) in g.iter().enumerate() {
            let (before, behind) = (in_two(top - y), in_two(y));
            for (part, window) in windows.iter_mut().enumerate() {
                window[0][k] = before[part];
                window[1][k] = behind[part];
            }
            self.keys[k] += u128::from(y);
        }
        let lifted = m.map(|x| u64::from((x + self.lift) as u32));
        for (places, window) in self.parts.iter_mut().zip(&windows) {
            add_window(places, &lifted, window);
        }
    }

    /// What the lift adds is taken away as in the narrow sum.
    fn residues(&self, modulus: Wide) -> [u64; D] {
        let total: u128 = self.keys.iter().sum();
        let mut difference = -(total as i128);
        let [low, high] = &self.parts;
        std::array::from_fn(|k| {
            difference += 2 * self.keys[k] as i128;
            let sum = i128::from(low[k]) + (i128::from(high[k]) << PART);
            modulus.reduce_signed(sum - i128::from(self.lift) * difference)
        })
    }
}
