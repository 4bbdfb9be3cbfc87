//! The verifier's session.

use crate::{library, EndVerdict, Numbers, Polynomial, Refusal, Residues, RoundVerdict, Settings};

/// A verifier's session: settings, rounds done, a claim for each row,
/// challenges, and whether it is closed. A rejection closes it, and so does an
/// end.
///
/// ```
/// use wovenrock::{Session, Settings};
///
/// let key = [3, 5, 7, 2];
/// let mut session = Session::start(Settings::new(2, 1, 17, 1, 1)?, &[15, 4])?;
/// assert!(session.round(&[4, 1, 6, 0, 12, 1], 1)?.holds());
/// assert!(session.end(&[1, 0], &key)?.is_accepted());
/// # Ok::<(), wovenrock::Refusal>(())
/// ```
#[derive(Clone, Debug, PartialEq, Eq)]
pub struct Session {
    record: [u64; Session::RECORD],
}

/// Places in a record; the settings are its first five numbers. A claim has
/// room for the largest degree, and there is room for four.
const DONE: usize = 5;
const CLOSED: usize = 6;
const CHALLENGES: usize = 7;
const CLAIMS: usize = 15;
const CLAIM: usize = Settings::LARGEST_DEGREE as usize;

/// A number of the record that is none of 64 bits: the library counts one that
/// has no room in 32 as the largest that has.
fn narrow(number: u64) -> u32 {
    u32::try_from(number).unwrap_or(u32::MAX)
}

impl Session {
    /// Numbers of a saved session: degree, depth, modulus, bound, rows, rounds
    /// done, closed (0 or 1), eight challenges, four claims of 128 places each.
    ///
    /// ```
    /// use wovenrock::{Session, Settings};
    ///
    /// let session = Session::start(Settings::new(2, 1, 17, 1, 1)?, &[15, 4])?;
    /// assert_eq!(session.save().len(), Session::RECORD);
    /// # Ok::<(), wovenrock::Refusal>(())
    /// ```
    pub const RECORD: usize = 527;

    /// A session starts at a commitment, which has exactly
    /// [`Settings::commitment_len`] numbers. Refusals 7, 8.
    ///
    /// ```
    /// use wovenrock::{Refusal, Session, Settings};
    ///
    /// let settings = Settings::new(2, 1, 17, 1, 1)?;
    /// assert_eq!(Session::start(settings, &[15, 4])?.claims(), [15, 4]);
    /// assert_eq!(Session::start(settings, &[15, 4, 0]), Err(Refusal::Size));
    /// assert_eq!(Session::start(settings, &[15, 17]), Err(Refusal::Residue));
    /// # Ok::<(), Refusal>(())
    /// ```
    pub fn start(settings: Settings, commitment: &[u64]) -> Result<Session, Refusal> {
        let s = settings;
        let mut record = [0; Session::RECORD];
        let number = unsafe {
            library::wovenrock_session_start(
                s.degree(),
                s.depth(),
                s.modulus(),
                s.bound(),
                s.rows(),
                commitment.as_ptr(),
                commitment.len(),
                record.as_mut_ptr(),
                record.len(),
            )
        };
        Refusal::answer(number).map(|()| Session { record })
    }

    /// A round: does 2·(c0 + c2) equal the claim in every row? Where it does,
    /// the round is counted, and each claim becomes c0 + r·c1 + r²·c2 with
    /// r = X^exponent; else the session is closed. The polynomial has exactly
    /// [`Settings::polynomial_len`] numbers: what [`round`](crate::round)
    /// answers, or a part of the table that [`open`](crate::open) wrote. A
    /// refused round changes nothing. Refusals 7, 8, 10, 11.
    ///
    /// ```
    /// use wovenrock::{Refusal, Session, Settings};
    ///
    /// let mut session = Session::start(Settings::new(2, 1, 17, 1, 1)?, &[15, 4])?;
    /// let polynomial = [4, 1, 6, 0, 12, 1];
    /// assert_eq!(session.round(&polynomial[..5], 1), Err(Refusal::Size));
    /// assert_eq!(session.round(&polynomial, 4), Err(Refusal::Challenge));
    /// assert!(session.round(&polynomial, 1)?.holds());
    /// assert_eq!(session.claims(), [9, 6]);
    /// assert_eq!(session.round(&polynomial, 1), Err(Refusal::Turn));
    /// # Ok::<(), Refusal>(())
    /// ```
    pub fn round(&mut self, polynomial: &[u64], exponent: u32) -> Result<RoundVerdict, Refusal> {
        let mut verdict = 0;
        let number = unsafe {
            library::wovenrock_session_round(
                polynomial.as_ptr(),
                polynomial.len(),
                exponent,
                self.record.as_mut_ptr(),
                self.record.len(),
                &mut verdict,
            )
        };
        Refusal::answer(number).map(|()| RoundVerdict::said(verdict))
    }

    /// The end, with the final element ([`Settings::element_len`] numbers) and
    /// the unfolded key ([`Settings::key_len`] numbers). It closes the
    /// session. A refused end changes nothing. Refusals 7, 8, 11.
    ///
    /// ```
    /// use wovenrock::{Refusal, Session, Settings};
    ///
    /// let mut session = Session::start(Settings::new(2, 0, 17, 1, 1)?, &[8, 2])?;
    /// assert_eq!(session.end(&[1, -1], &[3, 5, 7]), Err(Refusal::Size));
    /// assert!(session.end(&[1, -1], &[3, 5])?.is_accepted());
    /// assert_eq!(session.end(&[1, -1], &[3, 5]), Err(Refusal::Turn));
    /// # Ok::<(), Refusal>(())
    /// ```
    pub fn end(&mut self, last: &[i32], key: &[u64]) -> Result<EndVerdict, Refusal> {
        let mut verdict = 0;
        let number = unsafe {
            library::wovenrock_session_end(
                last.as_ptr(),
                last.len(),
                key.as_ptr(),
                key.len(),
                self.record.as_mut_ptr(),
                self.record.len(),
                &mut verdict,
            )
        };
        Refusal::answer(number).map(|()| EndVerdict::said(verdict))
    }

    /// The session's record, to be kept and given to [`Session::restore`].
    ///
    /// ```
    /// use wovenrock::{Session, Settings};
    ///
    /// let session = Session::start(Settings::new(2, 1, 17, 1, 1)?, &[15, 4])?;
    /// assert_eq!(session.save()[..7], [2, 1, 17, 1, 1, 0, 0]);
    /// assert_eq!(session.save()[15..17], [15, 4]);
    ///
    /// // the claim of a second row stands 128 numbers behind that of the first
    /// let settings = Settings::new(2, 1, 17, 1, 2)?;
    /// let session = Session::start(settings, &[15, 4, 7, 15])?;
    /// assert_eq!(session.save()[143..145], [7, 15]);
    /// # Ok::<(), wovenrock::Refusal>(())
    /// ```
    pub fn save(&self) -> [u64; Session::RECORD] {
        self.record
    }

    /// The session whose record was saved. The library tests the record, as
    /// it does in every move. Refusals 7 where it has not
    /// [`Session::RECORD`] numbers, then 3 to 6 and 16 for its settings, 7
    /// where it is neither open nor closed, 8 for its claims and 10 for its
    /// eight challenges.
    ///
    /// ```
    /// use wovenrock::{Refusal, Session, Settings};
    ///
    /// let mut session = Session::start(Settings::new(2, 1, 17, 1, 1)?, &[15, 4])?;
    /// let saved = session.save();
    /// assert!(session.round(&[4, 1, 6, 0, 12, 1], 1)?.holds());
    ///
    /// let mut earlier = Session::restore(&saved)?;
    /// assert_eq!(earlier.done(), 0);
    /// assert!(earlier.round(&[4, 1, 6, 0, 12, 1], 1)?.holds());
    /// assert_eq!(earlier, session);
    /// assert_eq!(Session::restore(&saved[1..]), Err(Refusal::Size));
    /// assert_eq!(Session::restore(&[0; Session::RECORD]), Err(Refusal::Degree));
    /// # Ok::<(), Refusal>(())
    /// ```
    pub fn restore(record: &[u64]) -> Result<Session, Refusal> {
        let record = record.try_into().map_err(|_| Refusal::Size)?;
        let session = Session { record };
        // A round by zeros, on a copy: it tests the whole record, and 11 is
        // about the round alone. Other settings than these are refused first.
        let degree = record[0].min(Settings::LARGEST_DEGREE.into()) as usize;
        let rows = record[4].min(Settings::MOST_ROWS.into()) as usize;
        let zeros = Polynomial::zeros(3 * rows * degree);
        match session.clone().round(&zeros, 0) {
            Ok(_) | Err(Refusal::Turn) => Ok(session),
            Err(refusal) => Err(refusal),
        }
    }

    /// The settings that it was started with.
    ///
    /// ```
    /// use wovenrock::{Session, Settings};
    ///
    /// let settings = Settings::new(2, 1, 17, 1, 1)?;
    /// assert_eq!(Session::start(settings, &[15, 4])?.settings(), settings);
    /// # Ok::<(), wovenrock::Refusal>(())
    /// ```
    pub fn settings(&self) -> Settings {
        let [degree, depth, modulus, bound, rows, ..] = self.record;
        Settings::tested([degree, depth, modulus, bound, rows])
    }

    /// Rounds that held.
    ///
    /// ```
    /// use wovenrock::{Session, Settings};
    ///
    /// let mut session = Session::start(Settings::new(2, 1, 17, 1, 1)?, &[15, 4])?;
    /// assert_eq!(session.done(), 0);
    /// assert!(session.round(&[4, 1, 6, 0, 12, 1], 1)?.holds());
    /// assert_eq!(session.done(), 1);
    /// # Ok::<(), wovenrock::Refusal>(())
    /// ```
    pub fn done(&self) -> u32 {
        narrow(self.record[DONE])
    }

    /// Whether it is closed, so that every move is refused. This does not say
    /// what the verdict was.
    ///
    /// ```
    /// use wovenrock::{Session, Settings};
    ///
    /// let mut session = Session::start(Settings::new(2, 0, 17, 1, 1)?, &[8, 2])?;
    /// assert!(!session.is_closed());
    /// assert!(!session.end(&[1, 1], &[3, 5])?.is_accepted());
    /// assert!(session.is_closed());
    /// # Ok::<(), wovenrock::Refusal>(())
    /// ```
    pub fn is_closed(&self) -> bool {
        self.record[CLOSED] == 1
    }

    /// The eight challenges, the unused ones 0.
    ///
    /// ```
    /// use wovenrock::{Session, Settings};
    ///
    /// let mut session = Session::start(Settings::new(2, 1, 17, 1, 1)?, &[15, 4])?;
    /// assert!(session.round(&[4, 1, 6, 0, 12, 1], 3)?.holds());
    /// assert_eq!(session.challenges(), [3, 0, 0, 0, 0, 0, 0, 0]);
    /// # Ok::<(), wovenrock::Refusal>(())
    /// ```
    pub fn challenges(&self) -> [u32; CLAIMS - CHALLENGES] {
        core::array::from_fn(|k| narrow(self.record[CHALLENGES + k]))
    }

    /// The claims, one for each row: [`Settings::commitment_len`] numbers.
    ///
    /// ```
    /// use wovenrock::{Session, Settings};
    ///
    /// let session = Session::start(Settings::new(2, 1, 17, 1, 1)?, &[15, 4])?;
    /// assert_eq!(session.claims(), [15, 4]);
    ///
    /// let settings = Settings::new(2, 1, 17, 1, 2)?;
    /// let mut session = Session::start(settings, &[15, 4, 7, 15])?;
    /// assert!(session.round(&[4, 1, 1, 16, 6, 0, 12, 6, 12, 1, 11, 0], 1)?.holds());
    /// assert_eq!(session.claims()[settings.commitment_row(1)], [1, 11]);
    /// # Ok::<(), wovenrock::Refusal>(())
    /// ```
    pub fn claims(&self) -> Residues {
        let s = self.settings();
        let mut claims = Numbers::zeros(s.commitment_len());
        let stored = self.record[CLAIMS..].chunks(CLAIM);
        for (claim, stored) in claims.lent().chunks_mut(s.element_len()).zip(stored) {
            claim.copy_from_slice(&stored[..claim.len()]);
        }
        claims
    }
}
