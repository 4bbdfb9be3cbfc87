//! A key with two rows, the second of public weights: the second element of the
//! commitment is the weighted sum of the message modulo q, which everybody can
//! read, and the opening of the one message has to hold in both rows. A
//! transcript with another sum is rejected.

use std::fmt::Write;
use wovenrock::{check, commit, open, Settings};

/// The last weight is −1.
const WEIGHTS: [u64; 4] = [1, 2, 3, 12_288];
const CHALLENGES: [u32; 2] = [5, 2];

fn main() -> Result<(), Box<dyn std::error::Error>> {
    print!("{}", report()?);
    Ok(())
}

/// What is printed.
pub fn report() -> Result<String, Box<dyn std::error::Error>> {
    let s = Settings::new(4, 2, 12_289, 9, 2)?;
    let (d, q) = (s.element_len(), s.modulus());
    let mut said = String::new();

    // A real key is drawn at random.
    let numbers = 0..s.table_len() as u64;
    let mut key: Vec<u64> = numbers.clone().map(|i| (i * i * i + 7) % q).collect();
    let message: Vec<i32> = numbers.map(|i| (5 * i % 19) as i32 - 9).collect();
    // A weight is the constant of an element in the second row; the other
    // places of the element are 0.
    key.resize(s.key_len(), 0);
    for (element, weight) in key[s.key_row(1)].chunks_mut(d).zip(WEIGHTS) {
        element[0] = weight;
    }

    let commitment = commit(s, &key, &message)?;
    let (first, second) = (s.commitment_row(0), s.commitment_row(1));
    writeln!(said, "first row: {}", spaced(&commitment[first]))?;
    writeln!(said, "second row: {}", spaced(&commitment[second.clone()]))?;

    // The same sum by hand.
    let mut sum = vec![0; d];
    for (element, weight) in message.chunks(d).zip(WEIGHTS) {
        for (total, &m) in sum.iter_mut().zip(element) {
            *total += weight as i64 * i64::from(m);
        }
    }
    let sum: Vec<u64> = sum.iter().map(|x| x.rem_euclid(q as i64) as u64).collect();
    writeln!(said, "weighted sum: {}", spaced(&sum))?;
    assert_eq!(commitment[second.clone()], sum);

    let (mut folded_key, mut folded) = (key.clone(), message);
    let mut rounds = vec![0; s.rounds_len()];
    let opened = open(s, &mut folded_key, &mut folded, &CHALLENGES, &mut rounds)?;
    let mut said_sum = opened.commitment.to_vec();
    let verdict = |commitment: &[u64]| {
        let verdict = check(s, commitment, &opened.last, &key, &rounds, &CHALLENGES)?;
        let accepted = verdict.is_accepted();
        Ok::<_, wovenrock::Refusal>(if accepted { "accepted" } else { "rejected" })
    };
    writeln!(said, "opened: {}", verdict(&said_sum)?)?;
    said_sum[second.start] = (said_sum[second.start] + 1) % q;
    writeln!(said, "with another sum: {}", verdict(&said_sum)?)?;
    Ok(said)
}

fn spaced(numbers: &[u64]) -> String {
    let words: Vec<String> = numbers.iter().map(u64::to_string).collect();
    words.join(" ")
}
