//! Counts of what was answered, and of who was compared with.

use crate::case::{Author, Outcome};
use std::collections::BTreeMap;

/// Counts of one call.
#[derive(Default)]
struct Counts {
    cases: usize,
    numbers: BTreeMap<u32, usize>,
    words: BTreeMap<String, usize>,
    simple: usize,
    fast: usize,
    refusals: usize,
}

/// How often each call gave each number and said each word.
#[derive(Default)]
pub struct Report {
    order: Vec<&'static str>,
    calls: BTreeMap<&'static str, Counts>,
}

impl Report {
    pub fn count(&mut self, call: &'static str, outcome: &Outcome, authors: &[Author]) {
        if !self.order.contains(&call) {
            self.order.push(call);
        }
        let counts = self.calls.entry(call).or_default();
        counts.cases += 1;
        for &number in &outcome.counted {
            *counts.numbers.entry(number).or_default() += 1;
        }
        for word in &outcome.words {
            *counts.words.entry(word.clone()).or_default() += 1;
        }
        for author in authors {
            match author {
                Author::Simple => counts.simple += 1,
                Author::Fast => counts.fast += 1,
                Author::Refusals => counts.refusals += 1,
            }
        }
    }

    /// The numbers and words that a call can answer and has answered less
    /// than `least` times.
    pub fn rare(
        &self,
        call: &'static str,
        numbers: &[u32],
        words: &[String],
        least: usize,
    ) -> Vec<String> {
        let none = Counts::default();
        let counts = self.calls.get(call).unwrap_or(&none);
        let rare_number = |number: &&u32| counts.numbers.get(*number).copied().unwrap_or(0) < least;
        let rare_word = |word: &&String| counts.words.get(*word).copied().unwrap_or(0) < least;
        let numbers = numbers.iter().filter(rare_number).map(u32::to_string);
        let words = words.iter().filter(rare_word).cloned();
        numbers.chain(words).collect()
    }

    /// The numbers and words that a call has answered and is not said to.
    pub fn strange(&self, call: &'static str, numbers: &[u32], words: &[String]) -> Vec<String> {
        let Some(counts) = self.calls.get(call) else {
            return Vec::new();
        };
        let other = |number: &&u32| !numbers.contains(number);
        let numbers = counts.numbers.keys().filter(other).map(u32::to_string);
        let other = |word: &&String| !words.contains(word);
        let words = counts.words.keys().filter(other).cloned();
        numbers.chain(words).collect()
    }

    /// All cases.
    pub fn total(&self) -> usize {
        self.calls.values().map(|counts| counts.cases).sum()
    }

    /// Two lines for each call: the cases, those of each number and what was
    /// said; who they were compared with, and how often each slice was one
    /// number too long and one too short.
    pub fn print(&self) {
        for call in &self.order {
            let counts = &self.calls[call];
            let numbers = counts
                .numbers
                .iter()
                .map(|(n, count)| format!("{n}:{count}"));
            let sliced = |word: &str| word.ends_with(" long") || word.ends_with(" short");
            let said = counts.words.iter().filter(|(word, _)| !sliced(word));
            let said = said.map(|(word, count)| format!("{word}:{count}"));
            let answers: Vec<String> = numbers.chain(said).collect();
            println!(
                "{call:<16}{:>8} cases   {}",
                counts.cases,
                answers.join(" ")
            );
            let mut authors = format!("simple {}, fast {}", counts.simple, counts.fast);
            if counts.refusals > 0 {
                authors += &format!(", fast's refusals {}", counts.refusals);
            }
            let slices: Vec<String> = counts.slices();
            if !slices.is_empty() {
                authors += &format!("; long/short: {}", slices.join(" "));
            }
            println!("{:<16}{:>8} with    {authors}", "", "");
        }
    }
}

impl Counts {
    /// Each slice with how often it was too long and too short.
    fn slices(&self) -> Vec<String> {
        let long = self.words.iter();
        let long = long.filter_map(|(word, count)| Some((word.strip_suffix(" long")?, count)));
        long.map(|(name, count)| {
            let short = self.words.get(&format!("{name} short")).unwrap_or(&0);
            format!("{name}:{count}/{short}")
        })
        .collect()
    }
}
