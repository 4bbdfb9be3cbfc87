//! Arithmetic modulo q below 2^31: a residue in 32 bits, sums of products in
//! 64.

use super::ring::{self, add_window, Modulus};
use crate::types::Residue;

/// A modulus with what a quick reduction needs.
#[derive(Clone, Copy)]
pub struct Narrow {
    q: u32,
    /// 2^64 divided by q, rounded down.
    reciprocal: u64,
}

impl Narrow {
    /// x modulo q: the estimated quotient is at most 1 too small.
    #[inline]
    fn reduce(self, x: u64) -> u32 {
        let quotient = ((u128::from(x) * u128::from(self.reciprocal)) >> 64) as u64;
        let rest = x - quotient * u64::from(self.q);
        self.once(rest)
    }

    /// A number below 2q, brought below q.
    #[inline]
    fn once(self, x: u64) -> u32 {
        let q = u64::from(self.q);
        if x >= q {
            (x - q) as u32
        } else {
            x as u32
        }
    }

    /// A signed number modulo q.
    #[inline]
    fn reduce_signed(self, x: i64) -> u32 {
        let rest = self.reduce(x.unsigned_abs());
        if x < 0 && rest != 0 {
            self.q - rest
        } else {
            rest
        }
    }
}

impl Modulus for Narrow {
    type Word = u32;
    type Total = i64;
    type Sum<const D: usize> = Sum<D>;

    fn new(q: Residue) -> Narrow {
        // q is odd, so it does not divide 2^64.
        let reciprocal = u64::MAX / q;
        let q = q as u32;
        Narrow { q, reciprocal }
    }

    #[inline]
    fn q(self) -> Residue {
        self.q.into()
    }

    #[inline]
    fn word(x: Residue) -> u32 {
        x as u32
    }

    #[inline]
    fn residue(x: u32) -> Residue {
        x.into()
    }

    #[inline]
    fn add(self, x: u32, y: u32) -> u32 {
        // Both are below 2^31, so the sum fits.
        let sum = x + y;
        sum.min(sum.wrapping_sub(self.q))
    }

    #[inline]
    fn subtract(self, x: u32, y: u32) -> u32 {
        let difference = x.wrapping_sub(y);
        difference.min(difference.wrapping_add(self.q))
    }

    #[inline]
    fn multiply(self, x: u32, y: u32) -> u32 {
        self.reduce(u64::from(x) * u64::from(y))
    }

    #[inline]
    fn plain_sum(x: u32, y: u32) -> u32 {
        x + y
    }

    #[inline]
    fn scaled(self, x: u32, factor: u32) -> u32 {
        self.multiply(x, factor)
    }

    #[inline]
    fn more(total: i64, x: Residue) -> i64 {
        total + x as i64
    }

    #[inline]
    fn less(total: i64, x: Residue) -> i64 {
        total - x as i64
    }

    #[inline]
    fn reduce_total(self, total: i64) -> u32 {
        self.reduce_signed(total)
    }

    /// Each w is reduced and then taken in two parts of at most 16 bits, so
    /// that sums over all n·D products fit in 64 bits: 2^16·2^31·2^15. A small
    /// modulus leaves the high part 0.
    fn inner_product_any<const D: usize>(self, w: &[[i64; D]], g: &[[u32; D]]) -> [u32; D] {
        use ring::Sum as _;
        let mut low = Sum::<D>::new(0);
        let mut high = Sum::<D>::new(0);
        let small = self.q <= 1 << 16;
        for (w, g) in w.iter().zip(g) {
            let w = w.map(|x| self.reduce_signed(x));
            low.add_product(&w.map(|x| (x & 0xffff) as i32), g, self.q);
            if !small {
                high.add_product(&w.map(|x| (x >> 16) as i32), g, self.q);
            }
        }
        let low = low.residues(self);
        let high = high.residues(self);
        std::array::from_fn(|k| self.reduce(u64::from(low[k]) + (u64::from(high[k]) << 16)))
    }
}

/// No sum exceeds 64 bits: a lift times the number of elements is at most
/// 2^16, and D·2^32 at most 2^39.
pub struct Sum<const D: usize> {
    lift: i32,
    places: [u64; D],
    keys: [u64; D],
}

impl<const D: usize> ring::Sum<D, Narrow> for Sum<D> {
    fn new(lift: i64) -> Sum<D> {
        Sum {
            lift: lift as i32,
            places: [0; D],
            keys: [0; D],
        }
    }

    #[inline]
    fn add_product(&mut self, m: &[i32; D], g: &[u32; D], top: u32) {
        let mut window = [[0; D]; 2];
        for (k, &y) in g.iter().enumerate() {
            window[0][k] = top - y;
            window[1][k] = y;
            self.keys[k] += u64::from(y);
        }
        let lifted = m.map(|x| u64::from((x + self.lift) as u32));
        add_window(&mut self.places, &lifted, &window);
    }

    /// The lift times 1 + X + ... + X^(D-1) times the keys is too much; its
    /// coefficient at X^k is the lift times the keys up to k less those behind.
    fn residues(&self, modulus: Narrow) -> [u32; D] {
        let total: u64 = self.keys.iter().sum();
        let mut difference = -(total as i64);
        std::array::from_fn(|k| {
            difference += 2 * self.keys[k] as i64;
            modulus.reduce_signed(self.places[k] as i64 - i64::from(self.lift) * difference)
        })
    }
}
