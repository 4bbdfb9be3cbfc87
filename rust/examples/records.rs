//! Tables as text: reads a transcript with its key from standard input, takes
//! it apart into tables, and writes the tables as text again. The text that
//! comes out is the text that went in, byte for byte: a table has one text.

use std::fmt::Write;
use std::io::Read;
use wovenrock::{look, read, verify, write, Refusal, Tables, TablesMut, LONGEST_TEXT};

fn main() -> Result<(), Box<dyn std::error::Error>> {
    // One byte more than the longest text: without it a longer one would be
    // cut off, and not refused.
    let mut text = Vec::new();
    let mut input = std::io::stdin().take(LONGEST_TEXT as u64 + 1);
    input.read_to_end(&mut text)?;
    print!("{}", report(&text)?);
    Ok(())
}

/// What is printed for a text.
pub fn report(text: &[u8]) -> Result<String, Box<dyn std::error::Error>> {
    let mut said = String::new();
    let s = look(text)?;
    let (degree, depth, modulus, bound) = (s.degree(), s.depth(), s.modulus(), s.bound());
    let rows = s.rows();
    writeln!(
        said,
        "degree {degree}, depth {depth}, modulus {modulus}, bound {bound}, rows {rows}"
    )?;

    // The settings give every length.
    let mut key = vec![0; s.key_len()];
    let mut commitment = vec![0; s.commitment_len()];
    let mut rounds = vec![0; s.rounds_len()];
    let mut challenges = vec![0; s.challenges_len()];
    let mut last = vec![0; s.element_len()];
    let mut claims = vec![0; s.claims_len()];
    let wanted = TablesMut {
        key: Some(&mut key),
        commitment: Some(&mut commitment),
        rounds: Some(&mut rounds),
        challenges: Some(&mut challenges),
        last: Some(&mut last),
        claims: Some(&mut claims),
        ..TablesMut::default()
    };
    read(text, wanted)?;
    for (name, table) in [("commitment", &commitment), ("claims", &claims)] {
        let words: Vec<String> = table.iter().map(u64::to_string).collect();
        writeln!(said, "{name}: {}", words.join(" "))?;
    }

    let mut out = vec![0; LONGEST_TEXT];
    let tables = Tables {
        key: Some(&key),
        commitment: Some(&commitment),
        rounds: Some(&rounds),
        challenges: Some(&challenges),
        last: Some(&last),
        claims: Some(&claims),
        ..Tables::default()
    };
    let written = write(s, tables, &mut out)?;
    let same = if written == text {
        "the same"
    } else {
        "not the same"
    };
    writeln!(
        said,
        "{} bytes read, {} written, {same}",
        text.len(),
        written.len()
    )?;
    writeln!(said, "as it was read: {}", verdict(text))?;

    // Another final element is well formed, and is rejected.
    let mut other = last.clone();
    other[0] = if last[0] == 0 { 1 } else { 0 };
    let tables = Tables {
        last: Some(&other),
        ..tables
    };
    let written = write(s, tables, &mut out)?;
    writeln!(said, "with another final element: {}", verdict(written))?;

    // Nor is a claim taken that is not the one of its round.
    let mut other = claims.clone();
    if let Some(claim) = other.first_mut() {
        *claim = (*claim + 1) % modulus;
    }
    let tables = Tables {
        last: Some(&last),
        claims: Some(&other),
        ..tables
    };
    let written = write(s, tables, &mut out)?;
    writeln!(said, "with another claim: {}", verdict(written))?;

    // A second way to write the same numbers is no text.
    let mut spaced = text.to_vec();
    *spaced.last_mut().expect("a text is not empty") = b' ';
    writeln!(
        said,
        "with a space for the last line feed: {}",
        verdict(&spaced)
    )?;
    Ok(said)
}

/// What `verify` says of a text.
fn verdict(text: &[u8]) -> String {
    match verify(text) {
        Ok(verdict) if verdict.is_accepted() => "accepted".into(),
        Ok(_) => "rejected".into(),
        Err(refusal) => Refusal::to_string(&refusal),
    }
}
