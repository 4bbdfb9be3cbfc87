//! The check of a whole transcript.

use crate::{library, EndVerdict, Refusal, Settings};

/// The check of a transcript: is it accepted, with the claims started at the
/// commitment? It is where every row's equations hold. The commitment has
/// exactly [`Settings::commitment_len`] numbers, the final element
/// [`Settings::element_len`], the unfolded key [`Settings::key_len`], the round
/// elements [`Settings::rounds_len`], and there are L challenges. Refusals 7,
/// 8, 10.
///
/// ```
/// use wovenrock::{check, Settings};
///
/// let settings = Settings::new(2, 1, 17, 1, 1)?;
/// let (commitment, key, rounds) = ([15, 4], [3, 5, 7, 2], [4, 1, 6, 0, 12, 1]);
/// let check = |last| check(settings, &commitment, last, &key, &rounds, &[1]);
/// assert!(check(&[1, 0])?.is_accepted());
/// assert!(!check(&[3, 0])?.is_accepted());
///
/// // one row that does not hold is enough for a rejection
/// let settings = Settings::new(2, 1, 17, 1, 2)?;
/// let key = [3, 5, 7, 2, 2, 0, 5, 0];
/// let rounds = [4, 1, 1, 16, 6, 0, 12, 6, 12, 1, 11, 0];
/// let check = |commitment| wovenrock::check(settings, commitment, &[1, 0], &key, &rounds, &[1]);
/// assert!(check(&[15, 4, 7, 15])?.is_accepted());
/// assert!(!check(&[15, 4, 7, 14])?.is_accepted());
/// # Ok::<(), wovenrock::Refusal>(())
/// ```
pub fn check(
    settings: Settings,
    commitment: &[u64],
    last: &[i32],
    key: &[u64],
    rounds: &[u64],
    challenges: &[u32],
) -> Result<EndVerdict, Refusal> {
    let s = settings;
    let mut verdict = 0;
    let number = unsafe {
        library::wovenrock_check(
            s.degree(),
            s.depth(),
            s.modulus(),
            s.bound(),
            s.rows(),
            commitment.as_ptr(),
            commitment.len(),
            last.as_ptr(),
            last.len(),
            key.as_ptr(),
            key.len(),
            rounds.as_ptr(),
            rounds.len(),
            challenges.as_ptr(),
            challenges.len(),
            &mut verdict,
        )
    };
    Refusal::answer(number).map(|()| EndVerdict::said(verdict))
}
