//! Compares the verified library with the reference implementation on drawn
//! inputs.
//!
//! Usage: differential [SEED [TIMES]]
//!
//! Without arguments it runs the quick set: seed 1, once. TIMES multiplies
//! the number of drawn inputs. Calls of an opening, on trees and on texts are run
//! beside each other, each from the seed. It leaves with 1 where any answer or any lent
//! table differs, and prints the smallest such case that it finds; and where
//! an answer that a call can give never came up.

use differential::calls::{large_numbers, names_lines, Look, Prove, Read, Verify, Write};
use differential::calls::{
    Check, Commit, End, Extract, Fold, Judge, Large, Largest, Moves, Opening,
};
use differential::calls::{ProverRound, SessionEnd, SessionRound, Sessions, SettingsCase, Start};
use differential::case::{self, Case, Difference, ROWS};
use differential::report::Report;
use reference::draw::Limits;
use reference::random::Random;
use std::process::ExitCode;
use std::thread;

/// As much stack as a process has for its first thread.
const STACK: usize = 8 << 20;

struct Run {
    random: Random,
    times: usize,
    report: Report,
}

/// What a call must say, and how its slices must be wrong.
fn words<C: Case>() -> Vec<String> {
    let said = C::WORDS.iter().map(|word| word.to_string());
    let slices = C::SLICES.iter();
    let wrong = slices.flat_map(|name| [format!("{name} short"), format!("{name} long")]);
    let rows = if C::OF_ROWS { &ROWS[..] } else { &[] };
    let of_settings = C::OF_SETTINGS
        .iter()
        .chain(rows)
        .map(|word| word.to_string());
    said.chain(wrong).chain(of_settings).collect()
}

impl Run {
    fn one<C: Case>(&mut self, limits: &Limits) -> Result<(), Difference> {
        let mut case = C::draw(&mut self.random, limits);
        if self.random.one_in(4) {
            case.disturb(&mut self.random);
        }
        self.given(case)
    }

    fn given<C: Case>(&mut self, case: C) -> Result<(), Difference> {
        let (outcome, authors) = case::check(&case)?;
        self.report.count(C::NAME, &outcome, &authors);
        Ok(())
    }

    /// Texts that end inside the names line, and texts with another byte in it.
    fn names(&mut self) -> Result<(), Difference> {
        for text in names_lines() {
            self.given(Look::at(text.clone()))?;
            self.given(Verify::of(text))?;
        }
        Ok(())
    }

    /// Texts with numbers at the limits in every column of every part.
    fn large_numbers(&mut self) -> Result<(), Difference> {
        for input in large_numbers() {
            let text = input.text();
            self.given(Look::at(text.clone()))?;
            self.given(Prove::of(text.clone(), 1))?;
            self.given(Verify::of(text))?;
            self.given(Read::of(input))?;
        }
        Ok(())
    }

    /// Drawn inputs of one call: mostly small ones, and some large ones. Every
    /// number and every word that it can answer must come up, and no other
    /// may. Where one is still missing as many inputs are drawn again.
    fn call<C: Case>(&mut self, small: usize, large: usize) -> Result<(), Difference> {
        let sizes = [
            (small / 2, Limits::new(64, 300)),
            (small / 2, Limits::new(1024, 2000)),
            (large, Limits::new(32_768, 20_000)),
        ];
        let words = words::<C>();
        for turn in 0..2 {
            for (count, limits) in &sizes {
                for _ in 0..count * self.times {
                    self.one::<C>(limits)?;
                }
            }
            let rare = self.report.rare(C::NAME, C::NUMBERS, &words, C::LEAST);
            if rare.is_empty() {
                break;
            }
            if turn == 1 {
                let text = format!("{}: answered too rarely: {}", C::NAME, rare.join(", "));
                return Err(Difference { text });
            }
        }
        let strange = self.report.strange(C::NAME, C::NUMBERS, &words);
        if !strange.is_empty() {
            let text = format!("{}: must not be answered: {}", C::NAME, strange.join(", "));
            return Err(Difference { text });
        }
        Ok(())
    }

    /// Drawn inputs with modulus 12289, degrees from 32 and depths from 3 on.
    fn transform<C: Case>(&mut self, count: usize) -> Result<(), Difference> {
        for _ in 0..count * self.times {
            self.one::<C>(&Limits::transform())?;
        }
        Ok(())
    }

    fn openings(&mut self) -> Result<(), Difference> {
        self.call::<SettingsCase>(20_000, 0)?;
        self.call::<Commit>(10_000, 200)?;
        self.call::<ProverRound>(10_000, 200)?;
        self.call::<Fold>(10_000, 200)?;
        self.call::<End>(10_000, 200)?;
        self.call::<Check>(6_000, 60)?;
        self.call::<Judge>(12_000, 200)?;
        self.call::<Start>(6_000, 100)?;
        self.call::<SessionRound>(8_000, 100)?;
        self.call::<SessionEnd>(8_000, 100)?;
        self.call::<Sessions>(3_000, 20)?;
        self.call::<Opening>(8_000, 40)?;
        self.call::<Moves>(6_000, 20)?;
        self.transform::<Commit>(200)?;
        self.transform::<ProverRound>(200)?;
        self.transform::<Opening>(80)?;
        self.transform::<Moves>(40)?;
        self.transform::<Check>(60)?;
        self.transform::<SessionEnd>(60)
    }

    fn trees(&mut self) -> Result<(), Difference> {
        self.call::<Extract>(5_000, 120)?;
        self.call::<Large>(0, 24)?;
        self.call::<Largest>(0, 6)
    }

    fn texts(&mut self) -> Result<(), Difference> {
        self.names()?;
        self.large_numbers()?;
        self.call::<Look>(10_000, 100)?;
        self.call::<Read>(16_000, 200)?;
        self.call::<Write>(10_000, 200)?;
        self.call::<Prove>(10_000, 100)?;
        self.call::<Verify>(10_000, 200)
    }
}

fn main() -> ExitCode {
    let words: Result<Vec<u64>, _> = std::env::args().skip(1).map(|w| w.parse()).collect();
    let (seed, times) = match words.as_deref() {
        Ok([]) => (1, 1),
        Ok([seed]) => (*seed, 1),
        Ok([seed, times]) => (*seed, *times as usize),
        _ => {
            eprintln!("usage: differential [SEED [TIMES]]");
            return ExitCode::FAILURE;
        }
    };
    let run = |part: fn(&mut Run) -> Result<(), Difference>| {
        let mut run = Run {
            random: Random::new(seed),
            times,
            report: Report::default(),
        };
        part(&mut run).map(|()| run.report)
    };
    let parts = [Run::openings, Run::trees, Run::texts];
    let reports: Result<Vec<Report>, Difference> = thread::scope(|scope| {
        let run = &run;
        let started = parts.map(|part| {
            thread::Builder::new()
                .stack_size(STACK)
                .spawn_scoped(scope, move || run(part))
                .expect("a thread")
        });
        let ended = started
            .into_iter()
            .map(|part| part.join().expect("its report"));
        ended.collect()
    });
    match reports {
        Ok(reports) => {
            let cases: usize = reports.iter().map(Report::total).sum();
            println!("differential: seed {seed}, {cases} cases, no difference");
            println!(
                "by call and number (0: not refused), and the references that answered the same"
            );
            for report in &reports {
                report.print();
            }
            ExitCode::SUCCESS
        }
        Err(Difference { text }) => {
            println!("differential: seed {seed}, FAILED\n{text}");
            ExitCode::FAILURE
        }
    }
}
