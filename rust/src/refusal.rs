//! The table of refusals.

use core::error::Error;
use core::fmt;

/// Why a call was refused: the first that applies, in the order of the call's
/// tests; [`Refusal::Rows`] is tested straight after [`Refusal::Bound`]. A
/// refused call has written nothing. That a call is not refused does
/// not say that anything was accepted: that is a verdict's part.
///
/// ```
/// use wovenrock::{commit, Refusal, Settings};
///
/// let settings = Settings::new(2, 1, 17, 1, 1)?;
/// let refused = commit(settings, &[3, 5, 7, 17], &[1, -1, 1, 0]).unwrap_err();
/// assert_eq!(refused, Refusal::Residue);
/// assert_eq!(refused.to_string(), "refused 8: residue");
/// # Ok::<(), Refusal>(())
/// ```
#[derive(Clone, Copy, Debug, PartialEq, Eq, PartialOrd, Ord, Hash)]
#[repr(u32)]
#[non_exhaustive]
pub enum Refusal {
    /// A text, read or to be written, over 65,536 bytes.
    Long = 1,
    /// A line not of the stated shape, or a text that does not begin with its
    /// settings.
    Text = 2,
    /// The degree is not listed, or is 128 with another modulus than 12289.
    Degree = 3,
    /// The depth is over 8.
    Depth = 4,
    /// The modulus is even or out of range.
    Modulus = 5,
    /// The bound is out of range.
    Bound = 6,
    /// A slice has not exactly its length, the lines of a text are not the
    /// required ones in order, or a slice is shorter than the text.
    Size = 7,
    /// A coefficient of a key, commitment, round polynomial or claim is not
    /// 0 to q − 1.
    Residue = 8,
    /// A message coefficient is beyond its bound; in the writer, a final
    /// coefficient is −2,147,483,648.
    Tall = 9,
    /// An exponent is not 0 to 2d − 1.
    Challenge = 10,
    /// A round with all rounds done, an end before, a closed session.
    Turn = 11,
    /// Two equal exponents at one node.
    Twin = 12,
    /// A path of the tree that the verifier rejects.
    Branch = 13,
    /// (8·d²)^L·B is over 2^62.
    Growth = 14,
    /// The slack is not 1 to 65,536, or shares a factor with q.
    Slack = 15,
    /// The number of rows is not 1 to 4.
    Rows = 16,
}

impl Refusal {
    /// All refusals, in the order of their numbers.
    ///
    /// ```
    /// use wovenrock::Refusal;
    ///
    /// for (place, refusal) in Refusal::ALL.iter().enumerate() {
    ///     assert_eq!(refusal.number() as usize, place + 1);
    /// }
    /// ```
    pub const ALL: &'static [Refusal] = &[
        Refusal::Long,
        Refusal::Text,
        Refusal::Degree,
        Refusal::Depth,
        Refusal::Modulus,
        Refusal::Bound,
        Refusal::Size,
        Refusal::Residue,
        Refusal::Tall,
        Refusal::Challenge,
        Refusal::Turn,
        Refusal::Twin,
        Refusal::Branch,
        Refusal::Growth,
        Refusal::Slack,
        Refusal::Rows,
    ];

    /// The number in the table of refusals.
    ///
    /// ```
    /// assert_eq!(wovenrock::Refusal::Size.number(), 7);
    /// ```
    pub fn number(self) -> u32 {
        self as u32
    }

    /// The word in the table of refusals.
    ///
    /// ```
    /// assert_eq!(wovenrock::Refusal::Size.word(), "size");
    /// ```
    pub fn word(self) -> &'static str {
        match self {
            Refusal::Long => "long",
            Refusal::Text => "text",
            Refusal::Degree => "degree",
            Refusal::Depth => "depth",
            Refusal::Modulus => "modulus",
            Refusal::Bound => "bound",
            Refusal::Size => "size",
            Refusal::Residue => "residue",
            Refusal::Tall => "tall",
            Refusal::Challenge => "challenge",
            Refusal::Turn => "turn",
            Refusal::Twin => "twin",
            Refusal::Branch => "branch",
            Refusal::Growth => "growth",
            Refusal::Slack => "slack",
            Refusal::Rows => "rows",
        }
    }

    /// What the number that a call answers says.
    pub(crate) fn answer(number: u32) -> Result<(), Refusal> {
        if number == 0 {
            return Ok(());
        }
        let refusal = Refusal::ALL.get(number as usize - 1);
        Err(*refusal.expect("a call answers 0 or a number of the table"))
    }
}

impl fmt::Display for Refusal {
    fn fmt(&self, f: &mut fmt::Formatter<'_>) -> fmt::Result {
        write!(f, "refused {}: {}", self.number(), self.word())
    }
}

impl Error for Refusal {}
