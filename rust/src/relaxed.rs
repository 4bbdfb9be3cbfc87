//! Relaxed openings: the judge and the extractor.

use crate::{library, Judgement, Refusal, Settings};

/// The judge: is in every row `slack` times the commitment the sum of w_i·G_i
/// modulo q, and no coefficient of w beyond (8·d²)^L·B? A slack that shares a
/// factor with q is refused: it would open commitments that have nothing behind
/// them. The commitment has exactly [`Settings::commitment_len`] numbers, the
/// key [`Settings::key_len`], w [`Settings::table_len`]. Refusals 7, 8, 14, 15.
///
/// ```
/// use wovenrock::{judge, Refusal, Settings};
///
/// let settings = Settings::new(2, 1, 17, 1, 1)?;
/// let (commitment, key, w) = ([15, 4], [3, 5, 7, 2], [4, -4, 4, 0]);
/// assert!(judge(settings, &commitment, 4, &key, &w)?.is_opening());
/// assert!(!judge(settings, &commitment, 5, &key, &w)?.is_opening());
/// assert_eq!(judge(settings, &commitment, 0, &key, &w), Err(Refusal::Slack));
/// assert_eq!(judge(settings, &commitment, 17, &key, &[0; 4]), Err(Refusal::Slack));
///
/// // one w for all rows
/// let settings = Settings::new(2, 1, 17, 1, 2)?;
/// let key = [3, 5, 7, 2, 2, 0, 5, 0];
/// assert!(judge(settings, &[15, 4, 7, 15], 4, &key, &w)?.is_opening());
/// assert!(!judge(settings, &[15, 4, 7, 16], 4, &key, &w)?.is_opening());
/// # Ok::<(), Refusal>(())
/// ```
pub fn judge(
    settings: Settings,
    commitment: &[u64],
    slack: u32,
    key: &[u64],
    w: &[i64],
) -> Result<Judgement, Refusal> {
    let s = settings;
    let mut yes = 0;
    let number = unsafe {
        library::wovenrock_judge(
            s.degree(),
            s.depth(),
            s.modulus(),
            s.bound(),
            s.rows(),
            commitment.as_ptr(),
            commitment.len(),
            slack,
            key.as_ptr(),
            key.len(),
            w.as_ptr(),
            w.len(),
            &mut yes,
        )
    };
    Refusal::answer(number).map(|()| Judgement::said(yes))
}

/// The extractor: from a full tree of accepted transcripts one vector w that
/// opens 4^L times the commitment ([`Settings::slack`]) in every row. The tree
/// is numbered as [`Settings::nodes`] says. Element rows·(3k+j) + row of
/// `rounds` is c_j of node k in that row, number 3k+j of `challenges` leads
/// from node k to node 3k+1+j, and `leaves` has the final elements. Lengths are
/// exactly [`Settings::commitment_len`], [`Settings::key_len`],
/// [`Settings::tree_rounds_len`], [`Settings::tree_challenges_len`],
/// [`Settings::leaves_len`], and [`Settings::table_len`] for w. Where the call
/// is refused w is as it was. Refusals 7, 8, 10, 12, 13, 14.
///
/// ```
/// use wovenrock::{extract, Refusal, Settings};
///
/// let settings = Settings::new(2, 1, 17, 1, 1)?;
/// let (commitment, key, rounds) = ([15, 4], [3, 5, 7, 2], [4, 1, 6, 0, 12, 1]);
/// let leaves = [2, -1, 1, 0, 0, -1];
/// let mut w = [0; 4];
/// extract(settings, &commitment, &key, &rounds, &[0, 1, 2], &leaves, &mut w)?;
/// assert_eq!(w, [4, -4, 4, 0]);
///
/// let refused = extract(settings, &commitment, &key, &rounds, &[0, 1, 1], &leaves, &mut w);
/// assert_eq!(refused, Err(Refusal::Twin));
/// # Ok::<(), Refusal>(())
/// ```
pub fn extract(
    settings: Settings,
    commitment: &[u64],
    key: &[u64],
    rounds: &[u64],
    challenges: &[u32],
    leaves: &[i32],
    w: &mut [i64],
) -> Result<(), Refusal> {
    let s = settings;
    let number = unsafe {
        library::wovenrock_extract(
            s.degree(),
            s.depth(),
            s.modulus(),
            s.bound(),
            s.rows(),
            commitment.as_ptr(),
            commitment.len(),
            key.as_ptr(),
            key.len(),
            rounds.as_ptr(),
            rounds.len(),
            challenges.as_ptr(),
            challenges.len(),
            leaves.as_ptr(),
            leaves.len(),
            w.as_mut_ptr(),
            w.len(),
        )
    };
    Refusal::answer(number)
}
