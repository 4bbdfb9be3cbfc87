//! Settings, and the lengths of tables.

use core::ops::Range;

use crate::{library, Refusal};

/// Settings that are allowed: the degree d, the depth L, the modulus q, the
/// bound B and the number of rows. From them follows the length of every
/// table.
///
/// ```
/// use wovenrock::{Refusal, Settings};
///
/// let settings = Settings::new(2, 1, 17, 1, 1)?;
/// assert_eq!(settings.table_len(), 4);
/// let settings = Settings::new(2, 1, 17, 1, 3)?;
/// assert_eq!(settings.key_len(), 3 * settings.table_len());
/// # Ok::<(), Refusal>(())
/// ```
#[derive(Clone, Copy, Debug, PartialEq, Eq, Hash)]
pub struct Settings {
    degree: u32,
    depth: u32,
    modulus: u64,
    bound: u32,
    rows: u32,
}

impl Settings {
    /// The largest modulus, 2^61 − 1.
    ///
    /// ```
    /// use wovenrock::{Refusal, Settings};
    ///
    /// let most = Settings::LARGEST_MODULUS;
    /// assert_eq!(most, (1 << 61) - 1);
    /// assert!(Settings::new(64, 8, most, 127, 1).is_ok());
    /// assert_eq!(Settings::new(64, 8, most + 2, 127, 1), Err(Refusal::Modulus));
    /// ```
    pub const LARGEST_MODULUS: u64 = 2_305_843_009_213_693_951;

    /// The largest degree, and the one modulus with which it is allowed.
    ///
    /// ```
    /// use wovenrock::{Refusal, Settings};
    ///
    /// let (d, q) = (Settings::LARGEST_DEGREE, Settings::MODULUS_OF_LARGEST_DEGREE);
    /// assert_eq!((d, q), (128, 12_289));
    /// assert!(Settings::new(d, 8, q, 127, 1).is_ok());
    /// assert_eq!(Settings::new(d, 8, q - 2, 127, 1), Err(Refusal::Degree));
    /// assert_eq!(Settings::new(d, 8, q - 1, 127, 1), Err(Refusal::Degree));
    /// ```
    pub const LARGEST_DEGREE: u32 = 128;

    /// See [`Settings::LARGEST_DEGREE`].
    ///
    /// ```
    /// assert_eq!(wovenrock::Settings::MODULUS_OF_LARGEST_DEGREE, 12_289);
    /// ```
    pub const MODULUS_OF_LARGEST_DEGREE: u64 = 12_289;

    /// The most rows that a key has.
    ///
    /// ```
    /// use wovenrock::{Refusal, Settings};
    ///
    /// let most = Settings::MOST_ROWS;
    /// assert!(Settings::new(64, 8, 12_289, 127, most).is_ok());
    /// assert_eq!(Settings::new(64, 8, 12_289, 127, most + 1), Err(Refusal::Rows));
    /// ```
    pub const MOST_ROWS: u32 = 4;

    /// The settings d (2, 4, 8, 16, 32 or 64, and 128 with modulus 12289
    /// alone), L (0 to 8), q (odd, 3 to [`Settings::LARGEST_MODULUS`]), B
    /// (1 to 127) and rows (1 to [`Settings::MOST_ROWS`]). Refusals 3 to 6, 16,
    /// and no other call than this, [`look`](crate::look),
    /// [`read`](crate::read), [`prove`](crate::prove),
    /// [`verify`](crate::verify) and
    /// [`Session::restore`](crate::Session::restore) gives those.
    ///
    /// ```
    /// use wovenrock::{Refusal, Settings};
    ///
    /// assert!(Settings::new(64, 8, 12_289, 127, 1).is_ok());
    /// assert_eq!(Settings::new(3, 8, 12_289, 127, 1), Err(Refusal::Degree));
    /// assert_eq!(Settings::new(64, 9, 12_289, 127, 1), Err(Refusal::Depth));
    /// assert_eq!(Settings::new(64, 8, 12_288, 127, 1), Err(Refusal::Modulus));
    /// assert_eq!(Settings::new(64, 8, 12_289, 128, 1), Err(Refusal::Bound));
    /// assert_eq!(Settings::new(64, 8, 12_289, 127, 0), Err(Refusal::Rows));
    /// ```
    pub fn new(
        degree: u32,
        depth: u32,
        modulus: u64,
        bound: u32,
        rows: u32,
    ) -> Result<Settings, Refusal> {
        let number = unsafe { library::wovenrock_settings(degree, depth, modulus, bound, rows) };
        Refusal::answer(number).map(|()| Settings {
            degree,
            depth,
            modulus,
            bound,
            rows,
        })
    }

    /// Settings that the library has tested, in the order in which it writes
    /// them.
    pub(crate) fn tested(numbers: [u64; 5]) -> Settings {
        let [degree, depth, modulus, bound, rows] = numbers;
        Settings {
            degree: degree as u32,
            depth: depth as u32,
            modulus,
            bound: bound as u32,
            rows: rows as u32,
        }
    }

    /// The degree d: an element has d coefficients, that of X^0 first.
    ///
    /// ```
    /// # use wovenrock::Settings;
    /// assert_eq!(Settings::new(2, 1, 17, 3, 1)?.degree(), 2);
    /// # Ok::<(), wovenrock::Refusal>(())
    /// ```
    pub fn degree(self) -> u32 {
        self.degree
    }

    /// The depth L: an opening has L rounds.
    ///
    /// ```
    /// # use wovenrock::Settings;
    /// assert_eq!(Settings::new(2, 1, 17, 3, 1)?.depth(), 1);
    /// # Ok::<(), wovenrock::Refusal>(())
    /// ```
    pub fn depth(self) -> u32 {
        self.depth
    }

    /// The modulus q.
    ///
    /// ```
    /// # use wovenrock::Settings;
    /// assert_eq!(Settings::new(2, 1, 17, 3, 1)?.modulus(), 17);
    /// # Ok::<(), wovenrock::Refusal>(())
    /// ```
    pub fn modulus(self) -> u64 {
        self.modulus
    }

    /// The bound B of a message's coefficients.
    ///
    /// ```
    /// # use wovenrock::Settings;
    /// assert_eq!(Settings::new(2, 1, 17, 3, 1)?.bound(), 3);
    /// # Ok::<(), wovenrock::Refusal>(())
    /// ```
    pub fn bound(self) -> u32 {
        self.bound
    }

    /// The number of rows: a key has so many rows of 2^L elements, and a
    /// commitment has one element for each.
    ///
    /// ```
    /// # use wovenrock::Settings;
    /// assert_eq!(Settings::new(2, 1, 17, 3, 2)?.rows(), 2);
    /// # Ok::<(), wovenrock::Refusal>(())
    /// ```
    pub fn rows(self) -> u32 {
        self.rows
    }

    /// Challenges are exponents below this, 2·d.
    ///
    /// ```
    /// # use wovenrock::Settings;
    /// assert_eq!(Settings::new(2, 1, 17, 3, 1)?.exponents(), 4);
    /// # Ok::<(), wovenrock::Refusal>(())
    /// ```
    pub fn exponents(self) -> u32 {
        2 * self.degree
    }

    /// Numbers of an element, such as the final one: d.
    ///
    /// ```
    /// # use wovenrock::Settings;
    /// assert_eq!(Settings::new(4, 2, 17, 3, 1)?.element_len(), 4);
    /// # Ok::<(), wovenrock::Refusal>(())
    /// ```
    pub fn element_len(self) -> usize {
        self.degree as usize
    }

    /// Numbers of a commitment and of a session's claims: rows·d, one element
    /// for each row.
    ///
    /// ```
    /// # use wovenrock::Settings;
    /// assert_eq!(Settings::new(4, 2, 17, 3, 2)?.commitment_len(), 8);
    /// # Ok::<(), wovenrock::Refusal>(())
    /// ```
    pub fn commitment_len(self) -> usize {
        self.rows as usize * self.element_len()
    }

    /// Numbers of a round polynomial: 3·rows·d. First c0 of every row, then
    /// c1 of every row, then c2.
    ///
    /// ```
    /// # use wovenrock::Settings;
    /// assert_eq!(Settings::new(4, 2, 17, 3, 1)?.polynomial_len(), 12);
    /// assert_eq!(Settings::new(4, 2, 17, 3, 2)?.polynomial_len(), 24);
    /// # Ok::<(), wovenrock::Refusal>(())
    /// ```
    pub fn polynomial_len(self) -> usize {
        3 * self.commitment_len()
    }

    /// Numbers of a message and of an extracted vector: 2^L·d.
    ///
    /// ```
    /// # use wovenrock::Settings;
    /// assert_eq!(Settings::new(4, 2, 17, 3, 1)?.table_len(), 16);
    /// # Ok::<(), wovenrock::Refusal>(())
    /// ```
    pub fn table_len(self) -> usize {
        self.element_len() << self.depth
    }

    /// Numbers of a key: rows·2^L·d, its rows one after the other.
    ///
    /// ```
    /// # use wovenrock::Settings;
    /// assert_eq!(Settings::new(4, 2, 17, 3, 2)?.key_len(), 32);
    /// # Ok::<(), wovenrock::Refusal>(())
    /// ```
    pub fn key_len(self) -> usize {
        self.rows as usize * self.table_len()
    }

    /// Which numbers of a key are one of its rows; rows count from 0.
    ///
    /// ```
    /// # use wovenrock::Settings;
    /// let settings = Settings::new(2, 1, 17, 1, 2)?;
    /// let key = [3, 5, 7, 2, 2, 0, 5, 0];
    /// assert_eq!(key[settings.key_row(1)], [2, 0, 5, 0]);
    /// # Ok::<(), wovenrock::Refusal>(())
    /// ```
    pub fn key_row(self, row: u32) -> Range<usize> {
        part(row, self.table_len())
    }

    /// Which numbers of a commitment, or of a session's claims, are the element
    /// of one row.
    ///
    /// ```
    /// # use wovenrock::{commit, Settings};
    /// let settings = Settings::new(2, 1, 17, 1, 2)?;
    /// let commitment = commit(settings, &[3, 5, 7, 2, 2, 0, 5, 0], &[1, -1, 1, 0])?;
    /// assert_eq!(commitment[settings.commitment_row(0)], [15, 4]);
    /// assert_eq!(commitment[settings.commitment_row(1)], [7, 15]);
    /// # Ok::<(), wovenrock::Refusal>(())
    /// ```
    pub fn commitment_row(self, row: u32) -> Range<usize> {
        part(row, self.element_len())
    }

    /// Which numbers of a round polynomial are the element c_j of one row, j
    /// being 0, 1 or 2.
    ///
    /// ```
    /// # use wovenrock::{round, Settings};
    /// let settings = Settings::new(2, 1, 17, 1, 2)?;
    /// let polynomial = round(settings, 0, &[3, 5, 7, 2, 2, 0, 5, 0], &[1, -1, 1, 0])?;
    /// assert_eq!(polynomial[settings.polynomial_row(1, 0)], [6, 0]);
    /// assert_eq!(polynomial[settings.polynomial_row(1, 1)], [12, 6]);
    /// # Ok::<(), wovenrock::Refusal>(())
    /// ```
    pub fn polynomial_row(self, j: u32, row: u32) -> Range<usize> {
        part(self.rows * j + row, self.element_len())
    }

    /// Numbers of a transcript's round elements: rows·3·L·d. The polynomial of
    /// round i is numbers 3·rows·d·(i−1) to 3·rows·d·i of them.
    ///
    /// ```
    /// # use wovenrock::Settings;
    /// assert_eq!(Settings::new(4, 2, 17, 3, 1)?.rounds_len(), 24);
    /// assert_eq!(Settings::new(4, 2, 17, 3, 4)?.rounds_len(), 96);
    /// # Ok::<(), wovenrock::Refusal>(())
    /// ```
    pub fn rounds_len(self) -> usize {
        self.challenges_len() * self.polynomial_len()
    }

    /// Numbers of a transcript's claims, as a text has them: rows·L·d. The
    /// claim of a row after round i is element rows·(i−1) + row, so the claims
    /// after that round, as [`Session::claims`](crate::Session::claims) has
    /// them, are numbers rows·d·(i−1) to rows·d·i.
    ///
    /// ```
    /// # use wovenrock::Settings;
    /// assert_eq!(Settings::new(4, 2, 17, 3, 1)?.claims_len(), 8);
    /// assert_eq!(Settings::new(4, 2, 17, 3, 4)?.claims_len(), 32);
    /// assert_eq!(Settings::new(4, 0, 17, 3, 4)?.claims_len(), 0);
    /// # Ok::<(), wovenrock::Refusal>(())
    /// ```
    pub fn claims_len(self) -> usize {
        self.challenges_len() * self.commitment_len()
    }

    /// Challenges of a transcript: L.
    ///
    /// ```
    /// # use wovenrock::Settings;
    /// assert_eq!(Settings::new(4, 2, 17, 3, 1)?.challenges_len(), 2);
    /// # Ok::<(), wovenrock::Refusal>(())
    /// ```
    pub fn challenges_len(self) -> usize {
        self.depth as usize
    }

    /// Leaves of a full tree: 3^L.
    ///
    /// ```
    /// # use wovenrock::Settings;
    /// assert_eq!(Settings::new(4, 2, 17, 3, 1)?.leaves(), 9);
    /// # Ok::<(), wovenrock::Refusal>(())
    /// ```
    pub fn leaves(self) -> usize {
        3usize.pow(self.depth)
    }

    /// Branching nodes of a full tree: (3^L − 1)/2. They are numbered from the
    /// root, 0, and the children of node k are 3k+1, 3k+2, 3k+3; number
    /// `nodes()` + j is leaf j.
    ///
    /// ```
    /// # use wovenrock::Settings;
    /// assert_eq!(Settings::new(4, 2, 17, 3, 1)?.nodes(), 4);
    /// # Ok::<(), wovenrock::Refusal>(())
    /// ```
    pub fn nodes(self) -> usize {
        (self.leaves() - 1) / 2
    }

    /// Numbers of a full tree's round elements: 3·rows·d for each branching
    /// node.
    ///
    /// ```
    /// # use wovenrock::Settings;
    /// assert_eq!(Settings::new(4, 2, 17, 3, 1)?.tree_rounds_len(), 48);
    /// # Ok::<(), wovenrock::Refusal>(())
    /// ```
    pub fn tree_rounds_len(self) -> usize {
        self.nodes() * self.polynomial_len()
    }

    /// Challenges of a full tree: 3 for each branching node.
    ///
    /// ```
    /// # use wovenrock::Settings;
    /// assert_eq!(Settings::new(4, 2, 17, 3, 1)?.tree_challenges_len(), 12);
    /// # Ok::<(), wovenrock::Refusal>(())
    /// ```
    pub fn tree_challenges_len(self) -> usize {
        3 * self.nodes()
    }

    /// Numbers of a full tree's leaves: d for each.
    ///
    /// ```
    /// # use wovenrock::Settings;
    /// assert_eq!(Settings::new(4, 2, 17, 3, 1)?.leaves_len(), 36);
    /// # Ok::<(), wovenrock::Refusal>(())
    /// ```
    pub fn leaves_len(self) -> usize {
        self.leaves() * self.element_len()
    }

    /// The slack of an extracted opening: 4^L.
    ///
    /// ```
    /// # use wovenrock::Settings;
    /// assert_eq!(Settings::new(4, 2, 17, 3, 1)?.slack(), 16);
    /// # Ok::<(), wovenrock::Refusal>(())
    /// ```
    pub fn slack(self) -> u32 {
        4u32.pow(self.depth)
    }
}

/// Part number `at` of a table whose parts have so many numbers.
fn part(at: u32, numbers: usize) -> Range<usize> {
    let at = at as usize;
    at * numbers..(at + 1) * numbers
}
