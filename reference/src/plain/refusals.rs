//! The refusals of every call, for the simple version alone: document 01's
//! table read off call by call. Each call is a straight list of numbers in
//! the order in which they are tested, each with the test that says whether
//! it applies. A test may rely on the ones before it: lengths are worked out
//! from settings that have passed 3 to 6 and 16, and numbers are looked at in
//! tables whose lengths have passed 7.
//!
//! Nothing here is shared with `refuse` and `admit`, which the fast version
//! uses.

use crate::types::{Parts, Polynomial, Record, Residue, Residues, Rows, Settings, PARTS};

/// A number of the table, and whether it applies.
pub type Line<'a> = (u32, &'a dyn Fn() -> bool);

/// The first number of a list that applies, or 0.
pub fn first(list: &[Line]) -> u32 {
    for (number, applies) in list {
        if applies() {
            return *number;
        }
    }
    0
}

/// The settings as whole numbers.
#[derive(Clone, Copy)]
pub struct Whole {
    d: i128,
    l: i128,
    q: i128,
    b: i128,
    rows: i128,
}

impl Whole {
    pub fn of(s: Settings) -> Whole {
        Whole {
            d: s.degree.into(),
            l: s.depth.into(),
            q: s.modulus.into(),
            b: s.bound.into(),
            rows: s.rows.into(),
        }
    }

    fn no_degree(self) -> bool {
        ![2, 4, 8, 16, 32, 64].contains(&self.d) && (self.d, self.q) != (128, 12_289)
    }

    fn no_depth(self) -> bool {
        self.l > 8
    }

    fn no_modulus(self) -> bool {
        self.q % 2 == 0 || self.q < 3 || self.q > 2_305_843_009_213_693_951
    }

    fn no_bound(self) -> bool {
        self.b == 0 || self.b > 127
    }

    fn no_rows(self) -> bool {
        ![1, 2, 3, 4].contains(&self.rows)
    }

    /// Elements of a message, and of a row of a key.
    fn n(self) -> i128 {
        (0..self.l).fold(1, |n, _| 2 * n)
    }

    /// Leaves of a tree.
    fn leaves(self) -> i128 {
        (0..self.l).fold(1, |leaves, _| 3 * leaves)
    }

    /// The length of a message, and of w.
    fn table(self) -> i128 {
        self.n() * self.d
    }

    /// The length of a key.
    fn key(self) -> i128 {
        self.rows * self.n() * self.d
    }

    /// The length of so many round polynomials.
    fn polynomials(self, count: i128) -> i128 {
        self.rows * 3 * count * self.d
    }

    /// The length of the claims: one element a row after each round.
    fn claims(self) -> i128 {
        self.rows * self.l * self.d
    }

    /// Branching nodes: 1 + 3 + .. + 3^(L-1).
    fn nodes(self) -> i128 {
        (0..self.l).fold(0, |nodes, _| 3 * nodes + 1)
    }

    /// Whether a coefficient is no residue.
    fn no_residue(self, x: Residue) -> bool {
        self.q <= i128::from(x)
    }

    /// Whether an exponent is no challenge.
    fn no_challenge(self, e: u32) -> bool {
        self.d + self.d <= i128::from(e)
    }

    fn some_no_residue(self, table: &[Residue]) -> bool {
        table.iter().any(|&x| self.no_residue(x))
    }

    /// The same of an element by value, whose places from d on are not read.
    fn element_no_residue(self, places: &Residues) -> bool {
        (0..self.d as usize).any(|k| self.no_residue(places[k]))
    }

    /// The same of what is passed by value for each row, of which nothing past
    /// the rows is read.
    fn rows_no_residue(self, places: &Rows) -> bool {
        (0..self.rows as usize).any(|row| self.element_no_residue(&places[row]))
    }

    fn some_no_challenge(self, list: &[u32]) -> bool {
        list.iter().any(|&e| self.no_challenge(e))
    }

    /// Whether one of the first `elements` elements of a message goes beyond
    /// `times` times the bound.
    fn too_tall(self, message: &[i32], elements: i128, times: i128) -> bool {
        let mut coefficients = message.iter().take((elements * self.d) as usize);
        coefficients.any(|&m| i128::from(m).abs() > times * self.b)
    }

    /// Whether what is left of a message after t rounds is too tall.
    fn left_too_tall(self, message: &[i32], t: u32) -> bool {
        let times = (0..t).fold(1, |times, _| 2 * times);
        self.too_tall(message, self.n() / times, times)
    }

    /// Whether some number over 1 divides both c and q.
    fn shares_a_factor(self, c: u32) -> bool {
        let (c, q) = (Residue::from(c), self.q as Residue);
        (2..=c).any(|factor| c % factor == 0 && q % factor == 0)
    }

    /// Whether (8·d²)^L·B is over 2^62. A product that has no room in 128
    /// bits is.
    fn grows(self) -> bool {
        let factor = 8 * self.d * self.d;
        let growth = (0..self.l).try_fold(self.b, |g, _| g.checked_mul(factor));
        growth.map_or(true, |g| g > 4_611_686_018_427_387_904)
    }
}

/// The lengths of all that can be lent to a call.
#[derive(Clone, Copy, Debug, PartialEq, Eq)]
pub struct Lengths {
    pub element: usize,
    /// A message, or the vector of a root.
    pub table: usize,
    pub key: usize,
    pub commitment: usize,
    pub polynomial: usize,
    pub rounds: usize,
    pub challenges: usize,
    pub claims: usize,
    pub tree_rounds: usize,
    pub tree_challenges: usize,
    pub leaves: usize,
}

/// The lengths for settings that are not refused.
pub fn lengths(s: Settings) -> Lengths {
    let w = Whole::of(s);
    Lengths {
        element: w.d as usize,
        table: w.table() as usize,
        key: w.key() as usize,
        commitment: (w.rows * w.d) as usize,
        polynomial: w.polynomials(1) as usize,
        rounds: w.polynomials(w.l) as usize,
        challenges: w.l as usize,
        claims: w.claims() as usize,
        tree_rounds: w.polynomials(w.nodes()) as usize,
        tree_challenges: (3 * w.nodes()) as usize,
        leaves: (w.leaves() * w.d) as usize,
    }
}

/// Whether some length is not the wanted one.
fn other(pairs: &[(usize, i128)]) -> bool {
    pairs.iter().any(|&(found, wanted)| found as i128 != wanted)
}

/// 3 to 6, and 16.
pub fn settings(s: Settings) -> u32 {
    let w = Whole::of(s);
    first(&[
        (3, &|| w.no_degree()),
        (4, &|| w.no_depth()),
        (5, &|| w.no_modulus()),
        (6, &|| w.no_bound()),
        (16, &|| w.no_rows()),
    ])
}

/// Call 1.
pub fn commit(s: Settings, key: &[Residue], message: &[i32]) -> u32 {
    let w = Whole::of(s);
    first(&[
        (3, &|| w.no_degree()),
        (4, &|| w.no_depth()),
        (5, &|| w.no_modulus()),
        (6, &|| w.no_bound()),
        (16, &|| w.no_rows()),
        (7, &|| {
            other(&[(key.len(), w.key()), (message.len(), w.table())])
        }),
        (8, &|| w.some_no_residue(key)),
        (9, &|| w.too_tall(message, w.n(), 1)),
    ])
}

/// Call 2.
pub fn prover_round(s: Settings, t: u32, key: &[Residue], message: &[i32]) -> u32 {
    let w = Whole::of(s);
    first(&[
        (3, &|| w.no_degree()),
        (4, &|| w.no_depth()),
        (5, &|| w.no_modulus()),
        (6, &|| w.no_bound()),
        (16, &|| w.no_rows()),
        (7, &|| {
            other(&[(key.len(), w.key()), (message.len(), w.table())])
        }),
        (8, &|| w.some_no_residue(key)),
        (9, &|| i128::from(t) < w.l && w.left_too_tall(message, t)),
        (11, &|| i128::from(t) >= w.l),
    ])
}

/// Call 3.
pub fn fold(s: Settings, t: u32, e: u32, key: &[Residue], message: &[i32]) -> u32 {
    let w = Whole::of(s);
    first(&[
        (3, &|| w.no_degree()),
        (4, &|| w.no_depth()),
        (5, &|| w.no_modulus()),
        (6, &|| w.no_bound()),
        (16, &|| w.no_rows()),
        (7, &|| {
            other(&[(key.len(), w.key()), (message.len(), w.table())])
        }),
        (8, &|| w.some_no_residue(key)),
        (9, &|| i128::from(t) < w.l && w.left_too_tall(message, t)),
        (10, &|| w.no_challenge(e)),
        (11, &|| i128::from(t) >= w.l),
    ])
}

/// Call 4, which takes no key.
pub fn prover_end(s: Settings, t: u32, message: &[i32]) -> u32 {
    let w = Whole::of(s);
    first(&[
        (3, &|| w.no_degree()),
        (4, &|| w.no_depth()),
        (5, &|| w.no_modulus()),
        (6, &|| w.no_bound()),
        (16, &|| w.no_rows()),
        (7, &|| other(&[(message.len(), w.table())])),
        (9, &|| i128::from(t) <= w.l && w.left_too_tall(message, t)),
        (11, &|| i128::from(t) != w.l),
    ])
}

/// Call 5.
pub fn opening(
    s: Settings,
    key: &[Residue],
    message: &[i32],
    challenges: &[u32],
    rounds: &[Residue],
) -> u32 {
    let w = Whole::of(s);
    let lengths = || {
        [
            (key.len(), w.key()),
            (message.len(), w.table()),
            (challenges.len(), w.l),
            (rounds.len(), w.polynomials(w.l)),
        ]
    };
    first(&[
        (3, &|| w.no_degree()),
        (4, &|| w.no_depth()),
        (5, &|| w.no_modulus()),
        (6, &|| w.no_bound()),
        (16, &|| w.no_rows()),
        (7, &|| other(&lengths())),
        (8, &|| w.some_no_residue(key)),
        (9, &|| w.too_tall(message, w.n(), 1)),
        (10, &|| w.some_no_challenge(challenges)),
    ])
}

/// Call 6.
pub fn session_start(s: Settings, commitment: &Rows) -> u32 {
    let w = Whole::of(s);
    first(&[
        (3, &|| w.no_degree()),
        (4, &|| w.no_depth()),
        (5, &|| w.no_modulus()),
        (6, &|| w.no_bound()),
        (16, &|| w.no_rows()),
        (8, &|| w.rows_no_residue(commitment)),
    ])
}

/// Call 7.
pub fn session_round(record: &Record, polynomial: &Polynomial, e: u32) -> u32 {
    let w = Whole::of(record.settings);
    first(&[
        (3, &|| w.no_degree()),
        (4, &|| w.no_depth()),
        (5, &|| w.no_modulus()),
        (6, &|| w.no_bound()),
        (16, &|| w.no_rows()),
        (8, &|| w.rows_no_residue(&record.claims)),
        (8, &|| polynomial.iter().any(|c| w.rows_no_residue(c))),
        (10, &|| {
            w.some_no_challenge(&record.challenges) || w.no_challenge(e)
        }),
        (11, &|| record.closed || i128::from(record.done) >= w.l),
    ])
}

/// Call 8.
pub fn session_end(record: &Record, key: &[Residue]) -> u32 {
    let w = Whole::of(record.settings);
    first(&[
        (3, &|| w.no_degree()),
        (4, &|| w.no_depth()),
        (5, &|| w.no_modulus()),
        (6, &|| w.no_bound()),
        (16, &|| w.no_rows()),
        (7, &|| other(&[(key.len(), w.key())])),
        (8, &|| {
            w.some_no_residue(key) || w.rows_no_residue(&record.claims)
        }),
        (10, &|| w.some_no_challenge(&record.challenges)),
        (11, &|| record.closed || i128::from(record.done) != w.l),
    ])
}

/// Call 9.
pub fn check(
    s: Settings,
    commitment: &Rows,
    key: &[Residue],
    rounds: &[Residue],
    challenges: &[u32],
) -> u32 {
    let w = Whole::of(s);
    let lengths = || {
        [
            (key.len(), w.key()),
            (rounds.len(), w.polynomials(w.l)),
            (challenges.len(), w.l),
        ]
    };
    first(&[
        (3, &|| w.no_degree()),
        (4, &|| w.no_depth()),
        (5, &|| w.no_modulus()),
        (6, &|| w.no_bound()),
        (16, &|| w.no_rows()),
        (7, &|| other(&lengths())),
        (8, &|| w.rows_no_residue(commitment)),
        (8, &|| w.some_no_residue(key) || w.some_no_residue(rounds)),
        (10, &|| w.some_no_challenge(challenges)),
    ])
}

/// Call 10.
pub fn judge(s: Settings, commitment: &Rows, c: u32, key: &[Residue], vector: &[i64]) -> u32 {
    let w = Whole::of(s);
    first(&[
        (3, &|| w.no_degree()),
        (4, &|| w.no_depth()),
        (5, &|| w.no_modulus()),
        (6, &|| w.no_bound()),
        (16, &|| w.no_rows()),
        (7, &|| {
            other(&[(key.len(), w.key()), (vector.len(), w.table())])
        }),
        (8, &|| {
            w.some_no_residue(key) || w.rows_no_residue(commitment)
        }),
        (14, &|| w.grows()),
        (15, &|| c == 0 || c > 65_536 || w.shares_a_factor(c)),
    ])
}

/// A tree with what is lent beside it.
pub struct Tree<'a> {
    pub settings: Settings,
    pub commitment: &'a Rows,
    pub key: &'a [Residue],
    pub rounds: &'a [Residue],
    pub challenges: &'a [u32],
    pub leaves: &'a [i32],
    pub w: &'a [i64],
}

/// Call 11; `rejected` says whether the verifier rejects some path, and is
/// asked where nothing before 13 applies.
pub fn extract(tree: &Tree, rejected: &dyn Fn() -> bool) -> u32 {
    let w = Whole::of(tree.settings);
    let lengths = || {
        [
            (tree.key.len(), w.key()),
            (tree.rounds.len(), w.polynomials(w.nodes())),
            (tree.challenges.len(), 3 * w.nodes()),
            (tree.leaves.len(), w.leaves() * w.d),
            (tree.w.len(), w.table()),
        ]
    };
    let equal = |a: usize, b: usize| tree.challenges[a] == tree.challenges[b];
    let twin_at = |k: usize| {
        equal(3 * k, 3 * k + 1) || equal(3 * k, 3 * k + 2) || equal(3 * k + 1, 3 * k + 2)
    };
    first(&[
        (3, &|| w.no_degree()),
        (4, &|| w.no_depth()),
        (5, &|| w.no_modulus()),
        (6, &|| w.no_bound()),
        (16, &|| w.no_rows()),
        (7, &|| other(&lengths())),
        (8, &|| w.rows_no_residue(tree.commitment)),
        (8, &|| {
            w.some_no_residue(tree.key) || w.some_no_residue(tree.rounds)
        }),
        (10, &|| w.some_no_challenge(tree.challenges)),
        (12, &|| (0..w.nodes() as usize).any(twin_at)),
        (13, rejected),
        (14, &|| w.grows()),
    ])
}

/// The wanted lengths of the tables of parts 1 to 7.
pub fn part_lengths(s: Settings, parts: Parts) -> [usize; PARTS] {
    let w = Whole::of(s);
    let wanted = [
        w.key(),
        w.table(),
        w.rows * w.d,
        w.polynomials(w.l),
        w.l,
        w.d,
        w.claims(),
    ];
    std::array::from_fn(|i| if parts[i] { wanted[i] as usize } else { 0 })
}

/// Values of parts 1 to 7, as a text or tables have them: 8 to 10. A final
/// coefficient of -2,147,483,648 only a table can have.
pub fn values(s: Settings, values: &[Vec<i128>; PARTS]) -> u32 {
    let w = Whole::of(s);
    let beyond = |part: usize, low: i128, high: i128| {
        let mut coefficients = values[part - 1].iter();
        coefficients.any(|&x| x < low || x > high)
    };
    let no_residues = |part: usize| beyond(part, 0, w.q - 1);
    first(&[
        (8, &|| [1, 3, 4, 7].into_iter().any(no_residues)),
        (9, &|| beyond(2, -w.b, w.b)),
        (9, &|| beyond(6, -2_147_483_647, i128::MAX)),
        (10, &|| beyond(5, 0, 2 * w.d - 1)),
    ])
}
