//! Times the verified library beside the reference and other libraries.
//!
//! Usage: bench REPETITIONS [native | LIBRARY...]
//!
//! Every row is measured in turns in one process: once the verified call,
//! once the other, and so on; the medians are compared. Both get the same
//! input, and output slices are filled anew before each turn, outside the
//! time that is taken. Libraries are those that the script `bench/run` of the
//! repository builds; it runs this program. `native` prints the rows without a
//! heading: for a reference that is built for this machine.

use differential::baseline::Baseline;
use differential::honest::Honest;
use differential::timing::{median, timed};
use differential::verified;
use reference::draw::base::{row_coefficients, shape};
use reference::draw::tables::{opening_at, OpeningInput};
use reference::draw::text::{self, Tables};
use reference::draw::tree::{honest_at, Tree};
use reference::random::Random;
use reference::refuse::GROWTH;
use reference::types::{
    Parts, Residue, Settings, Verification, ACCEPTED, ITS_MODULUS, LARGEST_DEGREE, LARGEST_MODULUS,
    LONGEST_TEXT,
};
use reference::{fast, plain};
use std::hint::black_box;
use std::time::Duration;

/// The largest prime below 2^31.
const Q: Residue = 2_147_483_647;

/// The name of a row: a modulus past 31 bits is named, and so is 12289.
fn name(call: &str, s: Settings) -> String {
    format!("{call}, d = {}, L = {}{}", s.degree, s.depth, modulus(s))
}

fn modulus(s: Settings) -> &'static str {
    match s.modulus {
        LARGEST_MODULUS => ", q = 2^61-1",
        ITS_MODULUS => ", q = 12289",
        _ => "",
    }
}

/// The settings of the transform's rows.
const TRANSFORM: [(u32, u32); 2] = [(64, 8), (LARGEST_DEGREE, 8)];

struct Table {
    repetitions: usize,
    label: &'static str,
}

impl Table {
    /// One row: both calls in turns.
    fn row(&self, name: &str, verified: &mut dyn FnMut(), other: &mut dyn FnMut()) {
        self.turns(name, self.label, &mut || timed(&mut *verified), &mut || {
            timed(&mut *other)
        });
    }

    /// One row of calls that say themselves what time is taken.
    fn turns(
        &self,
        name: &str,
        label: &str,
        verified: &mut dyn FnMut() -> Duration,
        other: &mut dyn FnMut() -> Duration,
    ) {
        let (mut ours, mut theirs) = (Vec::new(), Vec::new());
        for _ in 0..self.repetitions {
            ours.push(verified());
            theirs.push(other());
        }
        let (ours, theirs) = (median(ours), median(theirs));
        println!(
            "{name:<44} {label:<24} {:>11.1} {:>11.1} {:>7.3}",
            ours,
            theirs,
            ours / theirs
        );
    }

    fn heading(&self) {
        println!(
            "{:<44} {:<24} {:>11} {:>11} {:>7}",
            "call", "beside", "verified us", "other us", "ratio"
        );
    }

    fn commit(&self, s: Settings) {
        let OpeningInput { key, message, .. } = opening_at(&mut Random::new(7), s);
        let mut out = vec![0; s.degree as usize];
        self.row(
            &name("commit", s),
            &mut || {
                let number = verified::commit(s, black_box(&key), black_box(&message), &mut out);
                assert_eq!(black_box(number), 0);
            },
            &mut || {
                let answer = fast::commit(s, black_box(&key), black_box(&message));
                assert_eq!(black_box(answer).number, 0);
            },
        );
    }

    /// The transcript of a message, which is accepted.
    fn check(&self, s: Settings) {
        let honest = Honest::at(s);
        self.row(
            &name("check", s),
            &mut || black_box(&honest).check(),
            &mut || {
                let t = &black_box(&honest).transcript;
                let (c, f) = (t.commitment, t.final_element);
                let answer = fast::check(s, c, f, &t.key, &t.rounds, &t.challenges);
                assert_eq!(answer.verdict, ACCEPTED);
            },
        );
    }

    /// A vector that opens the commitment of a message.
    fn judge(&self, s: Settings) {
        let OpeningInput { key, message, .. } = opening_at(&mut Random::new(7), s);
        let commitment = fast::commit(s, &key, &message).commitment;
        let lent = row_coefficients(&shape(s), &commitment);
        let w: Vec<i64> = message.iter().map(|&x| i64::from(x)).collect();
        self.row(
            &name("judge", s),
            &mut || {
                let mut yes = 0;
                let (key, w) = (black_box(&key), black_box(&w));
                let number = verified::judge(s, &lent, 1, key, w, &mut yes);
                assert_eq!((number, yes), (0, 1));
            },
            &mut || {
                let answer = fast::judge(s, commitment, 1, black_box(&key), black_box(&w));
                assert!(answer.yes);
            },
        );
    }

    /// The whole opening; both tables are filled anew before each turn.
    fn open(&self, s: Settings) {
        let input = opening_at(&mut Random::new(7), s);
        let d = s.degree as usize;
        let (mut commitment, mut last) = (vec![0; d], vec![0; d]);
        self.turns(
            &name("open", s),
            self.label,
            &mut || {
                let mut t = input.clone();
                let mut verdict = 0;
                let time = timed(|| {
                    let (key, message, rounds) = (&mut t.key, &mut t.message, &mut t.rounds);
                    let (c, f) = (&mut commitment, &mut last);
                    verified::open(s, key, message, &t.challenges, rounds, c, f, &mut verdict);
                });
                assert_eq!(verdict, ACCEPTED);
                black_box(&t);
                time
            },
            &mut || {
                let mut t = input.clone();
                let mut verdict = 0;
                let time = timed(|| {
                    let (key, message, rounds) = (&mut t.key, &mut t.message, &mut t.rounds);
                    let answer = fast::whole_opening(s, key, message, &t.challenges, rounds);
                    verdict = answer.verdict;
                });
                assert_eq!(verdict, ACCEPTED);
                black_box(&t);
                time
            },
        );
    }

    /// The commitment beside another library's.
    fn commit_beside(&self, s: Settings, other: &Baseline) {
        let OpeningInput {
            key,
            message,
            challenges,
            ..
        } = opening_at(&mut Random::new(7), s);
        let mut prepared = other.prepare(s, &key, &message, &challenges);
        let d = s.degree as usize;
        let (mut ours, mut theirs) = (vec![0; d], vec![0; d]);
        self.turns(
            &name("commit", s),
            &other.name,
            &mut || {
                timed(|| {
                    let (key, message) = (black_box(&key), black_box(&message));
                    assert_eq!(verified::commit(s, key, message, &mut ours), 0);
                })
            },
            &mut || timed(|| assert_eq!(prepared.commit(black_box(&mut theirs)), 0)),
        );
        assert_eq!(ours, theirs);
    }

    /// The whole opening beside another library's; its tables are prepared
    /// anew before each turn.
    fn open_beside(&self, s: Settings, other: &Baseline) {
        let input = opening_at(&mut Random::new(7), s);
        let new = || {
            let d = s.degree as usize;
            let (c, f) = (vec![0; d], vec![0; d]);
            (vec![0; input.rounds.len()], c, f, 0)
        };
        let (mut ours, mut theirs) = (new(), new());
        self.turns(
            &name("open", s),
            &other.name,
            &mut || {
                let mut t = input.clone();
                let (rounds, c, f, verdict) = &mut ours;
                timed(|| {
                    let (key, message) = (&mut t.key, &mut t.message);
                    verified::open(s, key, message, &t.challenges, rounds, c, f, verdict);
                })
            },
            &mut || {
                let mut tables = other.prepare(s, &input.key, &input.message, &input.challenges);
                let (rounds, c, f, verdict) = &mut theirs;
                timed(|| *verdict = tables.open(rounds, c, f))
            },
        );
        assert_eq!(ours.3, ACCEPTED);
        assert!(ours == theirs, "{} answers otherwise", other.name);
    }

    /// A session of all rounds and the end, beside the check of the same
    /// transcript.
    fn session(&self, s: Settings) {
        let honest = Honest::at(s);
        let t = &honest.transcript;
        let (c, f) = (t.commitment, t.final_element);
        self.row(
            &name("session", s),
            &mut || black_box(&honest).session(),
            &mut || {
                let answer = fast::check(s, black_box(c), f, &t.key, &t.rounds, &t.challenges);
                assert_eq!(answer.verdict, ACCEPTED);
            },
        );
    }

    /// The tree of a message, which is accepted; `number` is 0 or 14.
    fn extract(&self, s: Settings, tree: &Tree, number: u32) {
        let t = tree;
        let (mut w, mut other) = (t.w.clone(), t.w.clone());
        let lent = row_coefficients(&t.shape, &t.commitment);
        let what = if number == GROWTH {
            "tree check"
        } else {
            "extract"
        };
        self.row(
            &name(what, s),
            &mut || assert_eq!(verified_extract(black_box(t), &lent, &mut w), number),
            &mut || {
                let t = black_box(t);
                let (key, rounds, leaves) = (&t.key, &t.rounds, &t.leaves);
                let c = t.commitment;
                let found = fast::extract(s, c, key, rounds, &t.challenges, leaves, &mut other);
                assert_eq!(found, number);
            },
        );
        assert_eq!(w, other);
    }

    /// The tree check beside the verified check of every path on its own.
    fn paths(&self, s: Settings, t: &Tree) {
        let d = t.shape.d;
        let paths: Vec<(Vec<Residue>, Vec<u32>)> = (0..t.shape.leaves())
            .map(|leaf| (path_rounds(t, leaf), t.path_challenges(leaf)))
            .collect();
        let mut w = t.w.clone();
        let lent = row_coefficients(&t.shape, &t.commitment);
        self.turns(
            &name("tree check", s),
            "verified, path by path",
            &mut || {
                timed(|| {
                    black_box(verified_extract(black_box(t), &lent, &mut w));
                })
            },
            &mut || {
                timed(|| {
                    for ((rounds, challenges), f) in paths.iter().zip(t.leaves.chunks(d)) {
                        let mut verdict = 0;
                        verified::check(s, &lent, f, &t.key, rounds, challenges, &mut verdict);
                        assert_eq!(verdict, ACCEPTED);
                    }
                })
            },
        );
    }

    /// The table reader and the table writer on one text.
    fn text(&self, s: Settings, parts: Parts, tables: &Tables) {
        let text = text::lines(s, tables).concat();
        let bits = verified::bits(parts);
        let (mut ours, mut theirs) = (tables.clone(), tables.clone());
        self.row(
            &format!("read, {} bytes{}", text.len(), modulus(s)),
            &mut || {
                let mut settings = [0; verified::SETTINGS];
                let number = verified::read(bits, black_box(&text), &mut settings, &mut ours);
                assert_eq!(number, 0);
            },
            &mut || {
                let t = &mut theirs;
                let answer = fast::read(
                    parts,
                    black_box(&text),
                    &mut t.key,
                    &mut t.message,
                    &mut t.commitment,
                    &mut t.rounds,
                    &mut t.challenges,
                    &mut t.final_element,
                    &mut t.claims,
                );
                assert_eq!(answer.number, 0);
            },
        );
        let (mut ours, mut theirs) = (vec![0; text.len()], vec![0; text.len()]);
        self.row(
            &format!("write, {} bytes{}", text.len(), modulus(s)),
            &mut || {
                let mut length = 0;
                verified::write(s, bits, black_box(tables), &mut ours, &mut length);
                assert_eq!(length, text.len());
            },
            &mut || {
                let t = black_box(tables);
                let answer = fast::write(
                    s,
                    parts,
                    &t.key,
                    &t.message,
                    &t.commitment,
                    &t.rounds,
                    &t.challenges,
                    &t.final_element,
                    &t.claims,
                    &mut theirs,
                );
                assert_eq!(answer.length, text.len());
            },
        );
        assert_eq!((&ours, &theirs), (&text, &text));
    }

    /// `prove` and `verify` as calls on text.
    fn programs(&self, s: Settings) {
        let input = opening_at(&mut Random::new(7), s);
        let given = Tables {
            key: input.key,
            message: input.message,
            challenges: input.challenges,
            ..Tables::default()
        };
        let text = text::lines(s, &given).concat();
        let (mut ours, mut theirs) = (vec![0; LONGEST_TEXT], vec![0; LONGEST_TEXT]);
        self.row(
            &name("prove, text", s),
            &mut || {
                let mut length = 0;
                let number = verified::prove(black_box(&text), &mut ours, &mut length);
                assert_eq!(number, 0);
            },
            &mut || assert_eq!(fast::prove(black_box(&text), &mut theirs).number, 0),
        );
        assert_eq!(ours, theirs);
        let Honest {
            transcript: t,
            commitment,
        } = Honest::at(s);
        let tables = Tables {
            claims: plain::claims(s, &t.rounds, &t.challenges),
            key: t.key,
            message: vec![],
            commitment,
            rounds: t.rounds,
            challenges: t.challenges,
            final_element: t.final_element[..t.shape.d].to_vec(),
        };
        let text = text::lines(s, &tables).concat();
        self.row(
            &name("verify, text", s),
            &mut || {
                let mut verdict = 0;
                verified::verify(black_box(&text), &mut verdict);
                assert_eq!(verdict, ACCEPTED);
            },
            &mut || {
                let answer = fast::verify(black_box(&text));
                assert_eq!(answer, Verification::Accepted);
            },
        );
    }
}

/// Texts of a key alone: the longest one, and ones of growing length.
fn text_rows(table: &Table) {
    let (settings, parts, tables) = text::tables_of_length(LONGEST_TEXT, Q);
    table.text(settings, parts, &tables);
    for depth in 3..=6 {
        let settings = Settings::new(64, depth, 1009, 1);
        let tables = Tables {
            key: opening_at(&mut Random::new(7), settings).key,
            ..Tables::default()
        };
        table.text(settings, parts, &tables);
    }
    table.programs(Settings::new(64, 4, 99_991, 127));
}

fn verified_extract(t: &Tree, commitment: &[Residue], w: &mut [i64]) -> u32 {
    let (key, rounds, leaves) = (&t.key, &t.rounds, &t.leaves);
    verified::extract(
        t.settings,
        commitment,
        key,
        rounds,
        &t.challenges,
        leaves,
        w,
    )
}

/// The round polynomials from the root to a leaf.
fn path_rounds(t: &Tree, leaf: usize) -> Vec<Residue> {
    let size = t.shape.polynomial();
    let mut node = t.shape.nodes() + leaf;
    let mut list = Vec::new();
    while node != 0 {
        node = (node - 1) / 3;
        list.push(&t.rounds[node * size..][..size]);
    }
    list.reverse();
    list.concat()
}

/// Rows beside the reference with the largest modulus.
fn wide_rows(table: &Table) {
    let wide = Settings::new(64, 8, LARGEST_MODULUS, 127);
    table.commit(wide);
    table.check(wide);
    table.judge(Settings::new(64, 3, LARGEST_MODULUS, 127));
    table.open(wide);
    table.session(wide);
    let s = Settings::new(64, 4, LARGEST_MODULUS, 4);
    let (tree, _) = honest_at(&mut Random::new(7), s);
    table.extract(s, &tree, 0);
    let (settings, parts, tables) = text::tables_of_length(LONGEST_TEXT, LARGEST_MODULUS);
    table.text(settings, parts, &tables);
}

/// Rows beside the reference with modulus 12289.
fn transform_rows(table: &Table) {
    for (degree, depth) in TRANSFORM {
        let s = Settings::new(degree, depth, ITS_MODULUS, 127);
        table.commit(s);
        table.check(s);
        table.open(s);
        table.session(s);
    }
    let s = Settings::new(LARGEST_DEGREE, 3, ITS_MODULUS, 127);
    table.judge(s);
    let (tree, _) = honest_at(&mut Random::new(7), s);
    table.extract(s, &tree, 0);
    table.programs(Settings::new(LARGEST_DEGREE, 4, ITS_MODULUS, 127));
}

/// Rows beside the reference.
fn reference_rows(table: &Table, large: Settings, native: bool) {
    table.commit(large);
    table.commit(Settings::new(4, 8, Q, 127));
    table.check(large);
    table.check(Settings::new(4, 8, Q, 127));
    table.judge(Settings::new(64, 3, Q, 127));
    table.judge(Settings::new(4, 8, Q, 2));
    table.open(large);
    table.open(Settings::new(4, 8, Q, 127));
    table.session(large);
    wide_rows(table);
    transform_rows(table);
    text_rows(table);
    for (s, number) in [
        (Settings::new(64, 3, Q, 127), 0),
        (Settings::new(64, 4, Q, 4), 0),
        (Settings::new(4, 8, Q, 2), 0),
        (large, GROWTH),
    ] {
        let (tree, _) = honest_at(&mut Random::new(7), s);
        table.extract(s, &tree, number);
        if !native && number == GROWTH {
            table.paths(s, &tree);
        }
    }
}

/// The settings that another library is measured with.
fn measured(other: &Baseline) -> Vec<Settings> {
    let mut list = Vec::new();
    if other.moduli & 1 != 0 {
        list.push(Settings::new(64, 8, Q, 127));
    }
    if other.moduli & 2 != 0 {
        list.push(Settings::new(64, 8, LARGEST_MODULUS, 127));
    }
    if other.moduli & 4 != 0 {
        list.extend(TRANSFORM.map(|(d, l)| Settings::new(d, l, ITS_MODULUS, 127)));
    }
    list
}

fn usage() -> ! {
    eprintln!("usage: bench REPETITIONS [native | LIBRARY...]");
    std::process::exit(1);
}

fn main() {
    let words: Vec<String> = std::env::args().skip(1).collect();
    let Some((Ok(repetitions @ 1..), rest)) = words.split_first().map(|(w, r)| (w.parse(), r))
    else {
        usage()
    };
    let native = rest.first().is_some_and(|w| w == "native");
    let label = if native {
        "fast, this machine"
    } else {
        "fast, plain x86-64"
    };
    let table = Table { repetitions, label };
    let large = Settings::new(64, 8, Q, 127);
    assert_eq!(shape(large).table(), 16_384);
    if native {
        return reference_rows(&table, large, native);
    }
    table.heading();
    for path in rest {
        match Baseline::load(path) {
            Ok(other) => {
                for s in measured(&other) {
                    table.commit_beside(s, &other);
                    table.open_beside(s, &other);
                }
            }
            Err(reason) => {
                eprintln!("{reason}");
                std::process::exit(1);
            }
        }
    }
    reference_rows(&table, large, native);
}
