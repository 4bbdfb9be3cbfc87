//! Settings, elements by value, the session record and the answers.

/// Places of an element that is passed by value.
pub const PLACES: usize = 128;

/// The largest degree, and the one modulus with which it is admitted.
pub const LARGEST_DEGREE: u32 = 128;
pub const ITS_MODULUS: Residue = 12_289;

/// The most rows of a key, and the places for rows in what is passed by value
/// for each row.
pub const ROWS: usize = 4;

/// Places of the list of challenges in a session record.
pub const ROUNDS: usize = 8;

/// Longest text that is read or written, in bytes.
pub const LONGEST_TEXT: usize = 65_536;

/// A coefficient modulo q, and the modulus itself.
pub type Residue = u64;

/// The largest modulus, 2^61 - 1.
pub const LARGEST_MODULUS: Residue = 2_305_843_009_213_693_951;

/// The largest magnitude of a value in a text that is no value of a message, a
/// challenge or a final element; of these, and the largest part, item and place.
pub const LARGEST_VALUE: u64 = 2_305_843_009_213_693_951;
pub const LARGEST_NARROW: u64 = 2_147_483_647;

/// An element modulo q by value; places from the degree on are 0 when new.
pub type Residues = [Residue; PLACES];

/// An element over whole numbers by value.
pub type Wholes = [i32; PLACES];

/// What is passed by value for each row: an element modulo q. Those past the
/// rows are 0 when new.
pub type Rows = [Residues; ROWS];

/// A round polynomial by value: c0, c1, c2, each with an element a row.
pub type Polynomial = [Rows; 3];

/// Parts of a text behind the settings.
pub const PARTS: usize = 7;

/// Which of the text's parts 1 to 7 are there: key, message, commitment,
/// rounds, challenges, final element, claims. Part 0, the settings, always is.
pub type Parts = [bool; PARTS];

/// What `prove` reads: key, message, challenges.
pub const PROVE_READS: Parts = [true, true, false, false, true, false, false];

/// What `prove` prints: all but key and message.
pub const PROVE_PRINTS: Parts = [false, false, true, true, true, true, true];

/// What `verify` reads: all but the message.
pub const VERIFY_READS: Parts = [true, false, true, true, true, true, true];

pub const ZERO_RESIDUES: Residues = [0; PLACES];
pub const ZERO_WHOLES: Wholes = [0; PLACES];
pub const ZERO_ROWS: Rows = [ZERO_RESIDUES; ROWS];
pub const ZERO_POLYNOMIAL: Polynomial = [ZERO_ROWS; 3];

/// Verdicts as numbers in the answers.
pub const NONE: u32 = 0;
pub const HOLDS: u32 = 1;
pub const ACCEPTED: u32 = 2;
pub const REJECTED: u32 = 3;

/// The settings d, L, q, B and the number of rows.
#[derive(Clone, Copy, Debug, PartialEq, Eq, Default)]
pub struct Settings {
    pub degree: u32,
    pub depth: u32,
    pub modulus: Residue,
    pub bound: u32,
    pub rows: u32,
}

impl Settings {
    /// Settings of a key with one row.
    pub fn new(degree: u32, depth: u32, modulus: Residue, bound: u32) -> Settings {
        Settings {
            degree,
            depth,
            modulus,
            bound,
            rows: 1,
        }
    }

    /// The same with another number of rows.
    pub fn with_rows(self, rows: u32) -> Settings {
        Settings { rows, ..self }
    }
}

/// A verifier's session record.
#[derive(Clone, Copy, Debug, PartialEq, Eq)]
pub struct Record {
    pub settings: Settings,
    pub done: u32,
    pub claims: Rows,
    pub challenges: [u32; ROUNDS],
    pub closed: bool,
}

impl Record {
    /// What a refused start hands back: a closed record of zeros.
    pub fn refused() -> Record {
        Record {
            settings: Settings::default(),
            done: 0,
            claims: ZERO_ROWS,
            challenges: [0; ROUNDS],
            closed: true,
        }
    }
}

/// Why the verifier rejects a transcript: a round whose equation fails in some
/// row, the bound, or the last equation of some row, the bound being tested
/// before the last equation. Rounds count from 1.
#[derive(Clone, Copy, Debug, PartialEq, Eq)]
pub enum Cause {
    Round(u32),
    Bound,
    Equation,
}

#[derive(Clone, Copy, Debug, PartialEq, Eq)]
pub struct CommitAnswer {
    pub number: u32,
    pub commitment: Rows,
}

#[derive(Clone, Copy, Debug, PartialEq, Eq)]
pub struct RoundAnswer {
    pub number: u32,
    pub polynomial: Polynomial,
}

#[derive(Clone, Copy, Debug, PartialEq, Eq)]
pub struct EndAnswer {
    pub number: u32,
    pub final_element: Wholes,
}

#[derive(Clone, Copy, Debug, PartialEq, Eq)]
pub struct OpeningAnswer {
    pub number: u32,
    pub commitment: Rows,
    pub final_element: Wholes,
    pub verdict: u32,
}

#[derive(Clone, Copy, Debug, PartialEq, Eq)]
pub struct StartAnswer {
    pub number: u32,
    pub record: Record,
}

#[derive(Clone, Copy, Debug, PartialEq, Eq)]
pub struct MoveAnswer {
    pub number: u32,
    pub verdict: u32,
    pub record: Record,
}

#[derive(Clone, Copy, Debug, PartialEq, Eq)]
pub struct CheckAnswer {
    pub number: u32,
    pub verdict: u32,
}

#[derive(Clone, Copy, Debug, PartialEq, Eq)]
pub struct JudgeAnswer {
    pub number: u32,
    pub yes: bool,
}

#[derive(Clone, Copy, Debug, PartialEq, Eq)]
pub struct ReadAnswer {
    pub number: u32,
    pub settings: Settings,
}

#[derive(Clone, Copy, Debug, PartialEq, Eq)]
pub struct WriteAnswer {
    pub number: u32,
    pub length: usize,
}

/// The answer of `verify` on a text.
#[derive(Clone, Copy, Debug, PartialEq, Eq)]
pub enum Verification {
    Accepted,
    Rejected,
    Refused(u32),
}
