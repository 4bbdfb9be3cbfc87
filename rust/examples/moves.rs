//! A prover and a verifier, move by move. The prover has the key and the
//! message; the verifier has the key and a session, which starts at the
//! commitment, and draws a challenge after each round polynomial.

use std::fmt::Write;
use wovenrock::{commit, end, fold, round, Session, Settings};

fn main() -> Result<(), Box<dyn std::error::Error>> {
    print!("{}", report()?);
    Ok(())
}

/// What is printed.
pub fn report() -> Result<String, Box<dyn std::error::Error>> {
    let q = Settings::LARGEST_MODULUS;
    let settings = Settings::new(8, 3, q, 3, 1)?;
    // Any numbers in range. A real key is drawn at random.
    let numbers = 0..settings.table_len() as u64;
    let key: Vec<u64> = numbers.clone().map(|i| q - 1 - i * i * i).collect();
    let mut message: Vec<i32> = numbers.map(|i| (i % 7) as i32 - 3).collect();
    let mut folded_key = key.clone();
    let mut said = String::new();

    let commitment = commit(settings, &key, &message)?;
    let mut session = Session::start(settings, &commitment)?;
    for done in 0..settings.depth() {
        let polynomial = round(settings, done, &folded_key, &message)?;
        // The verifier draws this once it has the polynomial; here it is fixed.
        let challenge = (5 * done + 3) % settings.exponents();
        let verdict = session.round(&polynomial, challenge)?;
        let word = if verdict.holds() { "holds" } else { "rejected" };
        writeln!(said, "round {}: {word}", done + 1)?;
        fold(settings, done, challenge, &mut folded_key, &mut message)?;
    }

    let last = end(settings, settings.depth(), &message)?;
    writeln!(said, "final element: {}", spaced(&last))?;
    // The verifier uses its own key, which nobody folded.
    let verdict = session.end(&last, &key)?;
    let word = if verdict.is_accepted() {
        "accepted"
    } else {
        "rejected"
    };
    writeln!(said, "end: {word}")?;
    Ok(said)
}

fn spaced(numbers: &[i32]) -> String {
    let words: Vec<String> = numbers.iter().map(|x| x.to_string()).collect();
    words.join(" ")
}
