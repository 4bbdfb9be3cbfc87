//! Prints drawn cases with what `plain` answers.
//!
//! Usage: cases NAME SEED COUNT [DEGREE DEPTH]
//!
//! NAME is a call (commit, round, fold, end, opening, start, session_round,
//! session_end, check, judge, extract, read, write, prove, verify, or s for
//! the element s(a,b)), a chain of calls (session: one session with refused
//! moves between; moves: an opening move by move with refused calls between)
//! or small (a mixed set of small cases). DEGREE and DEPTH are the largest
//! to draw. The same SEED gives the same cases.
//!
//! A case is a header line with the name of its call and then lines of
//! decimal numbers with single spaces: the inputs, then the outputs. A chain
//! is printed as the cases of its calls, one after another.
//!
//! Kinds of lines:
//! - settings: d L q B rows
//! - table: its length, then its numbers (a text is a table of bytes)
//! - element: like a table; of an element's 128 places those behind the ones
//!   written are 0
//! - rows: what is passed by value for each row: four elements, a line each
//! - polynomial: twelve elements, a line each: rows of c0, of c1 and of c2
//! - record: seven lines: settings; rounds done, closed (0 or 1); claims
//!   (rows); the eight challenges
//! - parts: seven numbers, 1 when part 1 to 7 is there, else 0
//! - tables: seven tables, a line each: key, message, commitment, rounds,
//!   challenges, final element, claims
//! - room: the length of the output slice and the byte at all its places
//! - numbers: as named
//!
//! | Name | Inputs | Outputs |
//! |---|---|---|
//! | commit | settings; key; message | number; commitment (rows) |
//! | round | settings; t; key; message | number; polynomial |
//! | fold | settings; t e; key; message | number; key; message |
//! | end | settings; t; message | number; final (element) |
//! | opening | settings; key; message; challenges; rounds | number verdict; commitment (rows); final (element); key; message; rounds |
//! | start | settings; commitment (rows) | number; record |
//! | session_round | record; polynomial; e | number verdict; record |
//! | session_end | record; final (element); key | number verdict; record |
//! | check | settings; commitment (rows); final (element); key; rounds; challenges | number verdict; cause round |
//! | judge | settings; commitment (rows); c; key; w | number yes |
//! | extract | settings; commitment (rows); key; rounds; challenges; leaves; w | number; w |
//! | read | parts; text; tables | number; settings; tables |
//! | write | settings; parts; tables; room | number length; text |
//! | prove | text; room | number length; text |
//! | verify | text | number verdict |
//! | s | d a b | s(a,b) as a table |
//!
//! A number is the refusal's or 0; a verdict is 0 none, 1 the round holds, 2
//! accepted, 3 rejected; a cause is 0 none, 1 the round named beside it, 2
//! the bound, 3 the last equation; yes is 1 or 0. Tables among both inputs
//! and outputs are given before and after the call. The text among the
//! outputs is what was written; every other byte of the slice stays.

use reference::cases::{drawn, Page};
use reference::draw::Limits;
use reference::random::Random;
use std::io::{self, Write};
use std::process::ExitCode;

/// What the command line asks for.
struct Wanted {
    name: String,
    seed: u64,
    count: usize,
    limits: Limits,
}

fn parse(words: &[String]) -> Option<Wanted> {
    let limits = match words.len() {
        3 => Limits::new(1024, 1000),
        5 => {
            let degree: u32 = words[3].parse().ok()?;
            let depth: u32 = words[4].parse().ok()?;
            let valid = (2..=128).contains(&degree) && depth <= 8;
            valid.then_some(Limits {
                degree,
                depth,
                ..Limits::new(usize::MAX, usize::MAX)
            })?
        }
        _ => return None,
    };
    Some(Wanted {
        name: words[0].clone(),
        seed: words[1].parse().ok()?,
        count: words[2].parse().ok()?,
        limits,
    })
}

/// Prints the cases; answers whether the name is known.
fn run(wanted: &Wanted) -> io::Result<bool> {
    let mut random = Random::new(wanted.seed);
    let mut out = io::BufWriter::new(io::stdout().lock());
    for _ in 0..wanted.count {
        let mut page = Page::default();
        if !drawn::print(&mut page, &wanted.name, &mut random, &wanted.limits) {
            return Ok(false);
        }
        out.write_all(page.text.as_bytes())?;
    }
    out.flush()?;
    Ok(true)
}

fn main() -> ExitCode {
    let words: Vec<String> = std::env::args().skip(1).collect();
    let printed = parse(&words).map(|wanted| run(&wanted));
    match printed {
        Some(Ok(true)) => ExitCode::SUCCESS,
        Some(Err(error)) => {
            eprintln!("{error}");
            ExitCode::FAILURE
        }
        _ => {
            eprintln!("usage: cases NAME SEED COUNT [DEGREE DEPTH]");
            eprintln!("names: {}", drawn::NAMES.join(" "));
            ExitCode::FAILURE
        }
    }
}
