//! Openings of tables by a verified sumcheck argument over the ring of
//! polynomials modulo X^d + 1.
//!
//! A prover commits to a table of small numbers and later shows that it still
//! has that table, without sending it. Every function here is a thin, safe
//! shell around a function of the static library, which is proved to meet its
//! contract for every input; `include/wovenrock.h` has the contracts in words.
//! A function needs nothing of its arguments: what is not as it should be is
//! answered by a [`Refusal`], and then nothing that was lent has changed.
//!
//! **`Ok` says that a call was not refused, and not that anything was
//! accepted.** What a verifier says is a [`RoundVerdict`] or an
//! [`EndVerdict`], and what a judge says is a [`Judgement`].
//!
//! Tables are flat and lent by the caller: element i of a table begins at
//! number i·d. A key has 1 to 4 rows, one behind the other, and a commitment
//! has one element for each. Every slice has exactly the length that
//! [`Settings`] gives; no function fills one up or cuts it off.
//!
//! # An opening
//!
//! ```
//! use wovenrock::{commit, open, Settings};
//!
//! let settings = Settings::new(2, 1, 17, 1, 1)?;
//! let mut key = [3, 5, 7, 2];
//! let mut message = [1, -1, 1, 0];
//! let commitment = commit(settings, &key, &message)?;
//! assert_eq!(commitment, [15, 4]);
//!
//! let mut rounds = vec![0; settings.rounds_len()];
//! let opened = open(settings, &mut key, &mut message, &[1], &mut rounds)?;
//! assert_eq!(opened.commitment, commitment);
//! assert_eq!(rounds, [4, 1, 6, 0, 12, 1]);
//! assert_eq!(opened.last, [1, 0]);
//! assert!(opened.verdict.is_accepted());
//! # Ok::<(), wovenrock::Refusal>(())
//! ```
//!
//! The modulus goes up to 2^61 − 1, and residues are numbers of 64 bits with
//! every modulus:
//!
//! ```
//! use wovenrock::{commit, Settings};
//!
//! let q = Settings::LARGEST_MODULUS;
//! let settings = Settings::new(2, 1, q, 1, 1)?;
//! let commitment = commit(settings, &[3, 5, q - 7, 1 << 60], &[1, -1, 1, 0])?;
//! assert_eq!(commitment, [1, (1 << 60) + 2]);
//! # Ok::<(), wovenrock::Refusal>(())
//! ```
//!
//! # Several rows, and public weights
//!
//! A key has 1 to 4 rows of 2^L elements. One message is committed to in all of
//! them, and is opened in all of them by the same challenges. A row may be a
//! list of public weights, with the number g_i as the constant of its element
//! i: then its element of the commitment is the sum of g_i·m_i modulo q, which
//! everybody can read, and an opening has to hold for it as for the other rows:
//!
//! ```
//! use wovenrock::{commit, judge, open, Settings};
//!
//! let settings = Settings::new(2, 1, 17, 1, 2)?;
//! let message = [1, -1, 1, 0];
//! // the second row: weight 2 for 1 − X, and 5 for 1
//! let (row, weights) = ([3, 5, 7, 2], [2, 0, 5, 0]);
//! let key = [row, weights].concat();
//! let commitment = commit(settings, &key, &message)?;
//! // 2·(1 − X) + 5·1 = 7 − 2X, and −2 is 15 modulo 17
//! assert_eq!(commitment[settings.commitment_row(1)], [7, 15]);
//! // the other row's element is what it is without the weights
//! assert_eq!(commitment[settings.commitment_row(0)], [15, 4]);
//!
//! let (mut folded, mut message) = (key.clone(), message);
//! let mut rounds = vec![0; settings.rounds_len()];
//! let opened = open(settings, &mut folded, &mut message, &[1], &mut rounds)?;
//! assert!(opened.verdict.is_accepted());
//! assert_eq!(rounds[settings.polynomial_row(0, 1)], [1, 16]);
//!
//! // one vector opens both rows, with one slack
//! assert!(judge(settings, &commitment, 4, &key, &[4, -4, 4, 0])?.is_opening());
//! # Ok::<(), wovenrock::Refusal>(())
//! ```
//!
//! # A verification
//!
//! By a session, move by move, and by one check of the whole transcript:
//!
//! ```
//! use wovenrock::{check, Session, Settings};
//!
//! let settings = Settings::new(2, 1, 17, 1, 1)?;
//! let key = [3, 5, 7, 2];
//! let (commitment, rounds, last) = ([15, 4], [4, 1, 6, 0, 12, 1], [1, 0]);
//!
//! let mut session = Session::start(settings, &commitment)?;
//! assert!(session.round(&rounds, 1)?.holds());
//! assert_eq!(session.claims(), [9, 6]);
//! assert!(session.end(&last, &key)?.is_accepted());
//!
//! let verdict = check(settings, &commitment, &last, &key, &rounds, &[1])?;
//! assert!(verdict.is_accepted());
//! # Ok::<(), wovenrock::Refusal>(())
//! ```
//!
//! # An extraction
//!
//! Three challenges at the one node of a tree of depth 1 give a vector that
//! opens 4 times the commitment:
//!
//! ```
//! use wovenrock::{extract, judge, Settings};
//!
//! let settings = Settings::new(2, 1, 17, 1, 1)?;
//! let key = [3, 5, 7, 2];
//! let commitment = [15, 4];
//! let leaves = [2, -1, 1, 0, 0, -1];
//! let mut w = vec![0; settings.table_len()];
//! extract(settings, &commitment, &key, &[4, 1, 6, 0, 12, 1], &[0, 1, 2], &leaves, &mut w)?;
//! assert_eq!(w, [4, -4, 4, 0]);
//! assert!(judge(settings, &commitment, settings.slack(), &key, &w)?.is_opening());
//! # Ok::<(), wovenrock::Refusal>(())
//! ```
//!
//! # Tables as text
//!
//! A text has a line of names and then a line for each number: its part, item
//! and place, and its value. Parts are 0 settings, 1 key, 2 message,
//! 3 commitment, 4 rounds, 5 challenges, 6 final element, 7 claims. There is
//! one text for the same tables, and a text is read only where it is that one.
//! An opening from text to text, whose last lines are the claim after its round:
//!
//! ```
//! use wovenrock::{prove, LONGEST_TEXT};
//!
//! let text = b"part item place value
//! 0 0 0 2
//! 0 0 1 1
//! 0 0 2 17
//! 0 0 3 1
//! 0 0 4 1
//! 1 0 0 3
//! 1 0 1 5
//! 1 1 0 7
//! 1 1 1 2
//! 2 0 0 1
//! 2 0 1 -1
//! 2 1 0 1
//! 2 1 1 0
//! 5 0 0 1
//! ";
//! let mut out = [0; LONGEST_TEXT];
//! let listing = prove(text, &mut out)?;
//! assert!(listing.ends_with(b"6 0 0 1\n6 0 1 0\n7 0 0 9\n7 0 1 6\n"));
//! # Ok::<(), wovenrock::Refusal>(())
//! ```
//!
//! Its verification, and tables that are read and written:
//!
//! ```
//! use wovenrock::{look, read, verify, write, Refusal, Tables, TablesMut};
//!
//! let text = b"part item place value
//! 0 0 0 2
//! 0 0 1 1
//! 0 0 2 17
//! 0 0 3 1
//! 0 0 4 1
//! 1 0 0 3
//! 1 0 1 5
//! 1 1 0 7
//! 1 1 1 2
//! 3 0 0 15
//! 3 0 1 4
//! 4 0 0 4
//! 4 0 1 1
//! 4 1 0 6
//! 4 1 1 0
//! 4 2 0 12
//! 4 2 1 1
//! 5 0 0 1
//! 6 0 0 1
//! 6 0 1 0
//! 7 0 0 9
//! 7 0 1 6
//! ";
//! assert!(verify(text)?.is_accepted());
//!
//! let settings = look(text)?;
//! let mut key = vec![0; settings.key_len()];
//! let mut commitment = vec![0; settings.commitment_len()];
//! let mut rounds = vec![0; settings.rounds_len()];
//! let mut challenges = vec![0; settings.challenges_len()];
//! let mut last = vec![0; settings.element_len()];
//! let mut claims = vec![0; settings.claims_len()];
//! let tables = TablesMut {
//!     key: Some(&mut key),
//!     commitment: Some(&mut commitment),
//!     rounds: Some(&mut rounds),
//!     challenges: Some(&mut challenges),
//!     last: Some(&mut last),
//!     claims: Some(&mut claims),
//!     ..TablesMut::default()
//! };
//! read(text, tables)?;
//! assert_eq!((key, commitment.clone()), (vec![3, 5, 7, 2], vec![15, 4]));
//! assert_eq!(claims, [9, 6]);
//!
//! let mut out = [0; 1000];
//! let tables = Tables {
//!     commitment: Some(&commitment),
//!     last: Some(&last),
//!     ..Tables::default()
//! };
//! let written = write(settings, tables, &mut out)?;
//! assert!(written.ends_with(b"3 0 0 15\n3 0 1 4\n6 0 0 1\n6 0 1 0\n"));
//! assert_eq!(verify(written), Err(Refusal::Size));
//! # Ok::<(), wovenrock::Refusal>(())
//! ```
#![no_std]
#![deny(missing_docs)]

mod library;
mod numbers;
mod prover;
mod refusal;
mod relaxed;
mod session;
mod settings;
mod text;
mod verdict;
mod verifier;

pub use numbers::{Numbers, Polynomial, Residues, Wholes};
pub use prover::{commit, end, fold, open, round, Opened};
pub use refusal::Refusal;
pub use relaxed::{extract, judge};
pub use session::Session;
pub use settings::Settings;
pub use text::{look, prove, read, verify, write, Tables, TablesMut, LONGEST_TEXT};
pub use verdict::{EndVerdict, Judgement, RoundVerdict};
pub use verifier::check;

/// The programs in the guide are run as well.
#[cfg(doctest)]
#[doc = include_str!("../../docs/LINKING.md")]
struct Guide;
