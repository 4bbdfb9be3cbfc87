//! Tables as text.

use crate::{library, EndVerdict, Refusal, Settings};

/// The longest text, in bytes; so much room is enough for every text that is
/// written.
///
/// ```
/// use wovenrock::{look, Refusal, LONGEST_TEXT};
///
/// assert_eq!(look(&[b' '; LONGEST_TEXT]), Err(Refusal::Text));
/// assert_eq!(look(&[b' '; LONGEST_TEXT + 1]), Err(Refusal::Long));
/// ```
pub const LONGEST_TEXT: usize = 65_536;

/// Tables that a text is read into, one for each part that is wanted. Each has
/// exactly its length: [`Settings::key_len`] for the key,
/// [`Settings::table_len`] for the message, [`Settings::commitment_len`] for
/// the commitment, [`Settings::rounds_len`] for the round elements,
/// [`Settings::challenges_len`] for the challenges,
/// [`Settings::element_len`] for the final element and
/// [`Settings::claims_len`] for the claims. A later version may have more of
/// them, so end the list by `..TablesMut::default()`.
///
/// ```
/// use wovenrock::{read, TablesMut};
///
/// let text = b"part item place value
/// 0 0 0 2
/// 0 0 1 0
/// 0 0 2 17
/// 0 0 3 1
/// 0 0 4 1
/// 6 0 0 1
/// 6 0 1 -1
/// ";
/// let mut last = [0; 2];
/// read(text, TablesMut { last: Some(&mut last), ..TablesMut::default() })?;
/// assert_eq!(last, [1, -1]);
/// # Ok::<(), wovenrock::Refusal>(())
/// ```
#[derive(Debug, Default)]
pub struct TablesMut<'a> {
    /// Part 1.
    pub key: Option<&'a mut [u64]>,
    /// Part 2.
    pub message: Option<&'a mut [i32]>,
    /// Part 3.
    pub commitment: Option<&'a mut [u64]>,
    /// Part 4: the round elements, c_j of round i as element
    /// rows·(3·(i−1)+j) + row.
    pub rounds: Option<&'a mut [u64]>,
    /// Part 5.
    pub challenges: Option<&'a mut [u32]>,
    /// Part 6: the final element.
    pub last: Option<&'a mut [i32]>,
    /// Part 7: the claims, that of a row after round i as element
    /// rows·(i−1) + row. Whether they are right, [`verify`] says.
    pub claims: Option<&'a mut [u64]>,
}

/// Tables of which a text is written, one for each part that is to be there,
/// of the same lengths as in [`TablesMut`]. A later version may have more of
/// them, so end the list by `..Tables::default()`.
///
/// ```
/// use wovenrock::{write, Settings, Tables};
///
/// let settings = Settings::new(2, 0, 17, 1, 1)?;
/// let mut out = [0; 100];
/// let tables = Tables { last: Some(&[1, -1]), ..Tables::default() };
/// let text = write(settings, tables, &mut out)?;
/// assert!(text.ends_with(b"0 0 3 1\n0 0 4 1\n6 0 0 1\n6 0 1 -1\n"));
/// # Ok::<(), wovenrock::Refusal>(())
/// ```
#[derive(Clone, Copy, Debug, Default)]
pub struct Tables<'a> {
    /// Part 1.
    pub key: Option<&'a [u64]>,
    /// Part 2.
    pub message: Option<&'a [i32]>,
    /// Part 3.
    pub commitment: Option<&'a [u64]>,
    /// Part 4: the round elements, c_j of round i as element
    /// rows·(3·(i−1)+j) + row.
    pub rounds: Option<&'a [u64]>,
    /// Part 5.
    pub challenges: Option<&'a [u32]>,
    /// Part 6: the final element.
    pub last: Option<&'a [i32]>,
    /// Part 7: the claims, that of a row after round i as element
    /// rows·(i−1) + row.
    pub claims: Option<&'a [u64]>,
}

/// The library's number for which of parts 1 to 7 are there.
fn parts(there: [bool; 7]) -> u32 {
    let bit = |i: usize| u32::from(there[i]) << i;
    (0..7).map(bit).sum()
}

/// The settings of a text, from which the lengths of its tables are known.
/// Every line of the text is tested. Refusals 1 to 6, 16.
///
/// ```
/// use wovenrock::{look, Refusal, Settings};
///
/// let text = b"part item place value\n0 0 0 2\n0 0 1 1\n0 0 2 17\n0 0 3 1\n0 0 4 1\n";
/// assert_eq!(look(text)?, Settings::new(2, 1, 17, 1, 1)?);
/// assert_eq!(look(&text[1..]), Err(Refusal::Text));
/// # Ok::<(), Refusal>(())
/// ```
pub fn look(text: &[u8]) -> Result<Settings, Refusal> {
    let mut settings = [0; 5];
    let number = unsafe {
        library::wovenrock_look(
            text.as_ptr(),
            text.len(),
            settings.as_mut_ptr(),
            settings.len(),
        )
    };
    Refusal::answer(number).map(|()| Settings::tested(settings))
}

/// Reads the parts for which a table is given: these and no others must be in
/// the text. No table is written where the call is refused. Refusals 1 to 10,
/// 16.
///
/// ```
/// use wovenrock::{look, read, Refusal, TablesMut};
///
/// let text = b"part item place value
/// 0 0 0 2
/// 0 0 1 1
/// 0 0 2 17
/// 0 0 3 1
/// 0 0 4 1
/// 1 0 0 3
/// 1 0 1 5
/// 1 1 0 7
/// 1 1 1 2
/// ";
/// let mut key = vec![0; look(text)?.key_len()];
/// read(text, TablesMut { key: Some(&mut key), ..TablesMut::default() })?;
/// assert_eq!(key, [3, 5, 7, 2]);
///
/// // a text with a part that is not wanted
/// assert_eq!(read(text, TablesMut::default()), Err(Refusal::Size));
/// # Ok::<(), Refusal>(())
/// ```
pub fn read(text: &[u8], tables: TablesMut<'_>) -> Result<Settings, Refusal> {
    let mut settings = [0; 5];
    let parts = parts([
        tables.key.is_some(),
        tables.message.is_some(),
        tables.commitment.is_some(),
        tables.rounds.is_some(),
        tables.challenges.is_some(),
        tables.last.is_some(),
        tables.claims.is_some(),
    ]);
    let key = tables.key.unwrap_or_default();
    let message = tables.message.unwrap_or_default();
    let commitment = tables.commitment.unwrap_or_default();
    let rounds = tables.rounds.unwrap_or_default();
    let challenges = tables.challenges.unwrap_or_default();
    let last = tables.last.unwrap_or_default();
    let claims = tables.claims.unwrap_or_default();
    let number = unsafe {
        library::wovenrock_read(
            parts,
            text.as_ptr(),
            text.len(),
            settings.as_mut_ptr(),
            settings.len(),
            key.as_mut_ptr(),
            key.len(),
            message.as_mut_ptr(),
            message.len(),
            commitment.as_mut_ptr(),
            commitment.len(),
            rounds.as_mut_ptr(),
            rounds.len(),
            challenges.as_mut_ptr(),
            challenges.len(),
            last.as_mut_ptr(),
            last.len(),
            claims.as_mut_ptr(),
            claims.len(),
        )
    };
    Refusal::answer(number).map(|()| Settings::tested(settings))
}

/// Writes the text of the tables that are given to the front of `out`, and
/// answers that part of it; bytes behind it stay. Refusals 7 to 10, then 1 for
/// a text that is too long, then 7 where `out` is shorter than the text.
///
/// ```
/// use wovenrock::{write, Refusal, Settings, Tables};
///
/// let settings = Settings::new(2, 1, 17, 1, 1)?;
/// let tables = Tables { challenges: Some(&[3]), ..Tables::default() };
/// let mut out = [0; 100];
/// let text = write(settings, tables, &mut out)?;
/// assert_eq!(
///     text,
///     b"part item place value\n0 0 0 2\n0 0 1 1\n0 0 2 17\n0 0 3 1\n0 0 4 1\n5 0 0 3\n"
/// );
/// assert_eq!(write(settings, tables, &mut [0; 10]), Err(Refusal::Size));
/// # Ok::<(), Refusal>(())
/// ```
pub fn write<'o>(
    settings: Settings,
    tables: Tables<'_>,
    out: &'o mut [u8],
) -> Result<&'o [u8], Refusal> {
    let s = settings;
    let mut count = 0;
    let parts = parts([
        tables.key.is_some(),
        tables.message.is_some(),
        tables.commitment.is_some(),
        tables.rounds.is_some(),
        tables.challenges.is_some(),
        tables.last.is_some(),
        tables.claims.is_some(),
    ]);
    let key = tables.key.unwrap_or_default();
    let message = tables.message.unwrap_or_default();
    let commitment = tables.commitment.unwrap_or_default();
    let rounds = tables.rounds.unwrap_or_default();
    let challenges = tables.challenges.unwrap_or_default();
    let last = tables.last.unwrap_or_default();
    let claims = tables.claims.unwrap_or_default();
    let number = unsafe {
        library::wovenrock_write(
            s.degree(),
            s.depth(),
            s.modulus(),
            s.bound(),
            s.rows(),
            parts,
            key.as_ptr(),
            key.len(),
            message.as_ptr(),
            message.len(),
            commitment.as_ptr(),
            commitment.len(),
            rounds.as_ptr(),
            rounds.len(),
            challenges.as_ptr(),
            challenges.len(),
            last.as_ptr(),
            last.len(),
            claims.as_ptr(),
            claims.len(),
            out.as_mut_ptr(),
            out.len(),
            &mut count,
        )
    };
    Refusal::answer(number).map(|()| &out[..count])
}

/// The program `prove` as a call: opens the key and message in a text by its
/// challenges, which are its three parts. The text of settings, commitment,
/// round elements, challenges, final element and claims goes to the front of
/// `out`, for which no more than [`LONGEST_TEXT`] bytes are wanted, and is the
/// answer. With depth 0 it has no claims. Refusals 1 to 10, 16, then 1 and 7 as
/// in [`write()`].
///
/// ```
/// use wovenrock::{prove, LONGEST_TEXT};
///
/// let text = b"part item place value
/// 0 0 0 2
/// 0 0 1 0
/// 0 0 2 17
/// 0 0 3 1
/// 0 0 4 1
/// 1 0 0 3
/// 1 0 1 5
/// 2 0 0 1
/// 2 0 1 -1
/// ";
/// let mut out = [0; LONGEST_TEXT];
/// let listing = prove(text, &mut out)?;
/// assert!(listing.ends_with(b"0 0 3 1\n0 0 4 1\n3 0 0 8\n3 0 1 2\n6 0 0 1\n6 0 1 -1\n"));
/// # Ok::<(), wovenrock::Refusal>(())
/// ```
pub fn prove<'o>(text: &[u8], out: &'o mut [u8]) -> Result<&'o [u8], Refusal> {
    let mut count = 0;
    let number = unsafe {
        library::wovenrock_prove(
            text.as_ptr(),
            text.len(),
            out.as_mut_ptr(),
            out.len(),
            &mut count,
        )
    };
    Refusal::answer(number).map(|()| &out[..count])
}

/// The program `verify` as a call: is the transcript in a text accepted? The
/// text has settings, key, commitment, round elements, challenges, final
/// element and, where the depth is not 0, claims. A claim that is not the one
/// of its round and row is a reason to reject. Refusals 1 to 8, 10, 16.
///
/// ```
/// use wovenrock::{verify, Refusal};
///
/// let text = "part item place value
/// 0 0 0 2
/// 0 0 1 1
/// 0 0 2 17
/// 0 0 3 1
/// 0 0 4 1
/// 1 0 0 3
/// 1 0 1 5
/// 1 1 0 7
/// 1 1 1 2
/// 3 0 0 15
/// 3 0 1 4
/// 4 0 0 4
/// 4 0 1 1
/// 4 1 0 6
/// 4 1 1 0
/// 4 2 0 12
/// 4 2 1 1
/// 5 0 0 1
/// 6 0 0 1
/// 6 0 1 0
/// 7 0 0 9
/// 7 0 1 6
/// ";
/// assert!(verify(text.as_bytes())?.is_accepted());
///
/// // another claim, one that is no residue, and none
/// let changed = text.replace("7 0 1 6", "7 0 1 5");
/// assert!(!verify(changed.as_bytes())?.is_accepted());
/// let changed = text.replace("7 0 1 6", "7 0 1 17");
/// assert_eq!(verify(changed.as_bytes()), Err(Refusal::Residue));
/// let changed = text.replace("7 0 0 9\n7 0 1 6\n", "");
/// assert_eq!(verify(changed.as_bytes()), Err(Refusal::Size));
/// # Ok::<(), Refusal>(())
/// ```
pub fn verify(text: &[u8]) -> Result<EndVerdict, Refusal> {
    let mut verdict = 0;
    let number = unsafe { library::wovenrock_verify(text.as_ptr(), text.len(), &mut verdict) };
    Refusal::answer(number).map(|()| EndVerdict::said(verdict))
}
