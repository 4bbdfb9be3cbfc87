//! The prover's calls, and the whole opening.

use crate::{library, EndVerdict, Polynomial, Refusal, Residues, Settings, Wholes};

/// The commitment to a message: for each row of the key, the sum of m_i·G_i
/// modulo q. The key has exactly [`Settings::key_len`] numbers, the message
/// [`Settings::table_len`]. Refusals 7 to 9.
///
/// ```
/// use wovenrock::{commit, Refusal, Settings};
///
/// let settings = Settings::new(2, 1, 17, 1, 1)?;
/// assert_eq!(commit(settings, &[3, 5, 7, 2], &[1, -1, 1, 0])?, [15, 4]);
/// assert_eq!(commit(settings, &[3, 5, 7, 2], &[1, -1, 1]), Err(Refusal::Size));
/// assert_eq!(commit(settings, &[3, 5, 7, 2], &[1, -1, 1, 2]), Err(Refusal::Tall));
///
/// // a second row
/// let settings = Settings::new(2, 1, 17, 1, 2)?;
/// let commitment = commit(settings, &[3, 5, 7, 2, 2, 0, 5, 0], &[1, -1, 1, 0])?;
/// assert_eq!(commitment, [15, 4, 7, 15]);
/// # Ok::<(), Refusal>(())
/// ```
pub fn commit(settings: Settings, key: &[u64], message: &[i32]) -> Result<Residues, Refusal> {
    let s = settings;
    let mut commitment = Residues::zeros(s.commitment_len());
    let written = commitment.lent();
    let number = unsafe {
        library::wovenrock_commit(
            s.degree(),
            s.depth(),
            s.modulus(),
            s.bound(),
            s.rows(),
            key.as_ptr(),
            key.len(),
            message.as_ptr(),
            message.len(),
            written.as_mut_ptr(),
            written.len(),
        )
    };
    Refusal::answer(number).map(|()| commitment)
}

/// The round polynomial of round `done` + 1, both tables being folded `done`
/// times. The key has exactly [`Settings::key_len`] numbers, the message
/// [`Settings::table_len`]. Refusals 7 to 9, 11; what is left of the message
/// must lie within ±2^done·B.
///
/// ```
/// use wovenrock::{round, Refusal, Settings};
///
/// let settings = Settings::new(2, 1, 17, 1, 1)?;
/// let (key, message) = ([3, 5, 7, 2], [1, -1, 1, 0]);
/// assert_eq!(round(settings, 0, &key, &message)?, [4, 1, 6, 0, 12, 1]);
/// assert_eq!(round(settings, 1, &key, &message), Err(Refusal::Turn));
///
/// // two rows: c0 of both, c1 of both, c2 of both
/// let settings = Settings::new(2, 1, 17, 1, 2)?;
/// let polynomial = round(settings, 0, &[3, 5, 7, 2, 2, 0, 5, 0], &message)?;
/// assert_eq!(polynomial, [4, 1, 1, 16, 6, 0, 12, 6, 12, 1, 11, 0]);
/// # Ok::<(), Refusal>(())
/// ```
pub fn round(
    settings: Settings,
    done: u32,
    key: &[u64],
    message: &[i32],
) -> Result<Polynomial, Refusal> {
    let s = settings;
    let mut polynomial = Polynomial::zeros(s.polynomial_len());
    let written = polynomial.lent();
    let number = unsafe {
        library::wovenrock_round(
            s.degree(),
            s.depth(),
            s.modulus(),
            s.bound(),
            s.rows(),
            done,
            key.as_ptr(),
            key.len(),
            message.as_ptr(),
            message.len(),
            written.as_mut_ptr(),
            written.len(),
        )
    };
    Refusal::answer(number).map(|()| polynomial)
}

/// The fold of both tables by X^exponent, with `done` rounds done: the first
/// half of what is left becomes first half plus X^exponent times second half,
/// in the message and in each row of the key, and every number behind it
/// stays. The key has exactly [`Settings::key_len`] numbers, the message
/// [`Settings::table_len`]. Refusals 7 to 11; what is left of the message must
/// lie within ±2^done·B.
///
/// ```
/// use wovenrock::{fold, Refusal, Settings};
///
/// let settings = Settings::new(2, 1, 17, 1, 1)?;
/// let (mut key, mut message) = ([3, 5, 7, 2], [1, -1, 1, 0]);
/// fold(settings, 0, 1, &mut key, &mut message)?;
/// assert_eq!((key, message), ([1, 12, 7, 2], [1, 0, 1, 0]));
///
/// // each row folds in its own places
/// let settings = Settings::new(2, 1, 17, 1, 2)?;
/// let (mut key, mut message) = ([3, 5, 7, 2, 2, 0, 5, 0], [1, -1, 1, 0]);
/// fold(settings, 0, 1, &mut key, &mut message)?;
/// assert_eq!(key, [1, 12, 7, 2, 2, 5, 5, 0]);
/// # Ok::<(), Refusal>(())
/// ```
pub fn fold(
    settings: Settings,
    done: u32,
    exponent: u32,
    key: &mut [u64],
    message: &mut [i32],
) -> Result<(), Refusal> {
    let s = settings;
    let number = unsafe {
        library::wovenrock_fold(
            s.degree(),
            s.depth(),
            s.modulus(),
            s.bound(),
            s.rows(),
            done,
            exponent,
            key.as_mut_ptr(),
            key.len(),
            message.as_mut_ptr(),
            message.len(),
        )
    };
    Refusal::answer(number)
}

/// The final element: the first of a message that was folded L times, which
/// has exactly [`Settings::table_len`] numbers. Refusals 7, 9, 11.
///
/// ```
/// use wovenrock::{end, Refusal, Settings};
///
/// let settings = Settings::new(2, 1, 17, 1, 1)?;
/// assert_eq!(end(settings, 1, &[1, 0, 1, 0])?, [1, 0]);
/// assert_eq!(end(settings, 0, &[1, 0, 1, 0]), Err(Refusal::Turn));
/// # Ok::<(), Refusal>(())
/// ```
pub fn end(settings: Settings, done: u32, message: &[i32]) -> Result<Wholes, Refusal> {
    let s = settings;
    let mut last = Wholes::zeros(s.element_len());
    let written = last.lent();
    let number = unsafe {
        library::wovenrock_end(
            s.degree(),
            s.depth(),
            s.modulus(),
            s.bound(),
            s.rows(),
            done,
            message.as_ptr(),
            message.len(),
            written.as_mut_ptr(),
            written.len(),
        )
    };
    Refusal::answer(number).map(|()| last)
}

/// What a whole opening gives besides its round elements.
///
/// ```
/// use wovenrock::{open, Opened, Settings};
///
/// let settings = Settings::new(2, 0, 17, 1, 1)?;
/// let opened: Opened = open(settings, &mut [3, 5], &mut [1, -1], &[], &mut [])?;
/// assert_eq!(opened.commitment, [8, 2]);
/// assert_eq!(opened.last, [1, -1]);
/// assert!(opened.verdict.is_accepted());
/// # Ok::<(), wovenrock::Refusal>(())
/// ```
#[derive(Clone, Debug, PartialEq, Eq)]
#[non_exhaustive]
#[must_use = "an opening that is not refused may still have been rejected"]
pub struct Opened {
    /// The commitment, one element for each row.
    pub commitment: Residues,
    /// The final element.
    pub last: Wholes,
    /// What the verifier says at the end.
    pub verdict: EndVerdict,
}

/// The whole opening by the given challenges, of which there are L. The round
/// elements go to `rounds`, which has exactly [`Settings::rounds_len`] numbers.
/// The key has exactly [`Settings::key_len`], the message
/// [`Settings::table_len`], and both stay as L folds leave them. Refusals 7 to
/// 10.
///
/// ```
/// use wovenrock::{open, Refusal, Settings};
///
/// let settings = Settings::new(2, 1, 17, 1, 1)?;
/// let (mut key, mut message, mut rounds) = ([3, 5, 7, 2], [1, -1, 1, 0], [0; 6]);
/// let refused = open(settings, &mut key, &mut message, &[4], &mut rounds);
/// assert_eq!(refused, Err(Refusal::Challenge));
///
/// let opened = open(settings, &mut key, &mut message, &[1], &mut rounds)?;
/// assert!(opened.verdict.is_accepted());
/// assert_eq!(rounds, [4, 1, 6, 0, 12, 1]);
/// # Ok::<(), Refusal>(())
/// ```
pub fn open(
    settings: Settings,
    key: &mut [u64],
    message: &mut [i32],
    challenges: &[u32],
    rounds: &mut [u64],
) -> Result<Opened, Refusal> {
    let s = settings;
    let mut commitment = Residues::zeros(s.commitment_len());
    let mut last = Wholes::zeros(s.element_len());
    let mut verdict = 0;
    let (first_written, last_written) = (commitment.lent(), last.lent());
    let number = unsafe {
        library::wovenrock_open(
            s.degree(),
            s.depth(),
            s.modulus(),
            s.bound(),
            s.rows(),
            key.as_mut_ptr(),
            key.len(),
            message.as_mut_ptr(),
            message.len(),
            challenges.as_ptr(),
            challenges.len(),
            rounds.as_mut_ptr(),
            rounds.len(),
            first_written.as_mut_ptr(),
            first_written.len(),
            last_written.as_mut_ptr(),
            last_written.len(),
            &mut verdict,
        )
    };
    Refusal::answer(number).map(|()| Opened {
        commitment,
        last,
        verdict: EndVerdict::said(verdict),
    })
}
