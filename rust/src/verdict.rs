//! What verifier and judge say where nothing is refused.

/// What the verifier says of a round.
///
/// ```
/// use wovenrock::{RoundVerdict, Session, Settings};
///
/// let mut session = Session::start(Settings::new(2, 1, 17, 1, 1)?, &[15, 4])?;
/// let verdict = session.round(&[4, 1, 6, 0, 12, 1], 1)?;
/// assert_eq!(verdict, RoundVerdict::Holds);
/// # Ok::<(), wovenrock::Refusal>(())
/// ```
#[derive(Clone, Copy, Debug, PartialEq, Eq, Hash)]
#[must_use = "a call that is not refused may still have rejected"]
pub enum RoundVerdict {
    /// The round holds: its polynomial fits the claim. This says nothing yet
    /// of the opening, which is accepted or rejected at its end.
    Holds,
    /// The round does not hold, and the session is closed.
    Rejected,
}

impl RoundVerdict {
    /// Whether the round holds.
    ///
    /// ```
    /// use wovenrock::{Session, Settings};
    ///
    /// let mut session = Session::start(Settings::new(2, 1, 17, 1, 1)?, &[15, 4])?;
    /// assert!(!session.round(&[0, 0, 6, 0, 12, 1], 1)?.holds());
    /// assert!(session.is_closed());
    /// # Ok::<(), wovenrock::Refusal>(())
    /// ```
    pub fn holds(self) -> bool {
        self == RoundVerdict::Holds
    }

    /// The library's number; a round that is not refused has one of these.
    pub(crate) fn said(number: u32) -> RoundVerdict {
        match number {
            1 => RoundVerdict::Holds,
            3 => RoundVerdict::Rejected,
            _ => unreachable!("a round that is not refused holds or is rejected"),
        }
    }
}

/// What the verifier says of a whole transcript.
///
/// ```
/// use wovenrock::{check, EndVerdict, Settings};
///
/// let settings = Settings::new(2, 1, 17, 1, 1)?;
/// let (key, rounds) = ([3, 5, 7, 2], [4, 1, 6, 0, 12, 1]);
/// let verdict = check(settings, &[15, 4], &[1, 0], &key, &rounds, &[1])?;
/// assert_eq!(verdict, EndVerdict::Accepted);
/// # Ok::<(), wovenrock::Refusal>(())
/// ```
#[derive(Clone, Copy, Debug, PartialEq, Eq, Hash)]
#[must_use = "a call that is not refused may still have rejected"]
pub enum EndVerdict {
    /// Every round holds, the final element is within its bound, and the last
    /// equation is met.
    Accepted,
    /// One of these fails.
    Rejected,
}

impl EndVerdict {
    /// Whether the transcript is accepted.
    ///
    /// ```
    /// use wovenrock::{check, Settings};
    ///
    /// let settings = Settings::new(2, 1, 17, 1, 1)?;
    /// let (key, rounds) = ([3, 5, 7, 2], [4, 1, 6, 0, 12, 1]);
    /// assert!(!check(settings, &[15, 4], &[2, 0], &key, &rounds, &[1])?.is_accepted());
    /// # Ok::<(), wovenrock::Refusal>(())
    /// ```
    pub fn is_accepted(self) -> bool {
        self == EndVerdict::Accepted
    }

    /// The library's number; a check that is not refused has one of these.
    pub(crate) fn said(number: u32) -> EndVerdict {
        match number {
            2 => EndVerdict::Accepted,
            3 => EndVerdict::Rejected,
            _ => unreachable!("an end that is not refused is accepted or rejected"),
        }
    }
}

/// What the judge says of a relaxed opening.
///
/// ```
/// use wovenrock::{judge, Judgement, Settings};
///
/// let settings = Settings::new(2, 0, 17, 1, 1)?;
/// let judgement = judge(settings, &[8, 2], 1, &[3, 5], &[1, -1])?;
/// assert_eq!(judgement, Judgement::Opens);
/// # Ok::<(), wovenrock::Refusal>(())
/// ```
#[derive(Clone, Copy, Debug, PartialEq, Eq, Hash)]
#[must_use = "a call that is not refused may still have said no"]
pub enum Judgement {
    /// Yes: the vector opens slack times the commitment, within its bound.
    Opens,
    /// No.
    DoesNot,
}

impl Judgement {
    /// Whether the judge says yes.
    ///
    /// ```
    /// use wovenrock::{judge, Settings};
    ///
    /// let settings = Settings::new(2, 0, 17, 1, 1)?;
    /// assert!(!judge(settings, &[8, 2], 2, &[3, 5], &[1, -1])?.is_opening());
    /// # Ok::<(), wovenrock::Refusal>(())
    /// ```
    pub fn is_opening(self) -> bool {
        self == Judgement::Opens
    }

    pub(crate) fn said(yes: u32) -> Judgement {
        match yes {
            1 => Judgement::Opens,
            0 => Judgement::DoesNot,
            _ => unreachable!("a judge that does not refuse says yes or no"),
        }
    }
}
