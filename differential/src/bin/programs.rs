//! Runs drawn texts through the programs `prove` and `verify` and compares
//! what they print with the reference.
//!
//! Usage: programs [DRAWN [SEED]]
//!
//! Each program gets texts that are drawn for it and for the other one,
//! valid and damaged, and a few of the largest sizes. What `prove` prints
//! goes to `verify` with the key, which must accept it. A difference prints
//! the shortest text that shows it, and every run must leave with status 0.
//! Then input and output misbehave: closed, a folder, stopped in the middle, endless, one byte at a time, a full
//! disk, a disk that is full in the middle of a listing, a narrow pipe, a pipe
//! that nobody reads. Texts are among them that can be read and whose listings
//! are too long, or have 65,535, 65,536 or 65,537 bytes, by themselves or with
//! the key. Every answer that a program can give must come up.

use differential::calls::{long_listing, LIMITS};
use reference::draw::base::OTHER_MODULI;
use reference::draw::text::{
    damage_text, listing, listing_of_length, provable, provable_at, verifiable,
};
use reference::draw::Limits;
use reference::plain;
use reference::random::Random;
use reference::types::{
    Settings, Verification, ITS_MODULUS, LARGEST_DEGREE, LARGEST_MODULUS, LONGEST_TEXT,
};
use std::collections::BTreeMap;
use std::ffi::c_int;
use std::fs;
use std::io::{Read, Write};
use std::os::fd::AsRawFd;
use std::path::{Path, PathBuf};
use std::process::{Child, Command, ExitCode, Stdio};

/// Drawn texts from which on every answer must come up.
const ENOUGH: u64 = 300;

const NAMES: &[u8] = b"part item place value\n";

/// Lines of the names and the settings.
const SETTINGS: usize = 6;

struct Difference {
    program: &'static str,
    text: Vec<u8>,
    printed: Vec<u8>,
    wanted: Vec<u8>,
}

struct Run {
    folder: PathBuf,
    counts: BTreeMap<(&'static str, String), usize>,
    smallest: Option<Difference>,
}

/// What each program can print; a listing is named by its first line.
const PRINTED: [(&str, &[&str]); 2] = [
    (
        "prove",
        &[
            "a listing",
            "refused 1",
            "refused 2",
            "refused 3",
            "refused 4",
            "refused 5",
            "refused 6",
            "refused 16",
            "refused 7",
            "refused 8",
            "refused 9",
            "refused 10",
        ],
    ),
    (
        "verify",
        &[
            "accepted",
            "rejected",
            "refused 1",
            "refused 2",
            "refused 3",
            "refused 4",
            "refused 5",
            "refused 6",
            "refused 16",
            "refused 7",
            "refused 8",
            "refused 10",
        ],
    ),
];

fn start(folder: &Path, program: &str) -> Child {
    Command::new(folder.join(program))
        .stdin(Stdio::piped())
        .stdout(Stdio::piped())
        .spawn()
        .unwrap_or_else(|error| panic!("{program} does not start: {error}"))
}

/// What a program prints, with what it says where its status is not 0.
fn ended(child: Child) -> Vec<u8> {
    let output = child.wait_with_output().expect("it ends");
    let mut printed = output.stdout;
    if !output.status.success() {
        printed.extend_from_slice(format!("and left with {}\n", output.status).as_bytes());
    }
    printed
}

impl Run {
    fn output(&self, program: &str, text: &[u8]) -> Vec<u8> {
        let mut child = start(&self.folder, program);
        let mut input = child.stdin.take().expect("piped");
        // A program that has read enough closes its input.
        let _ = input.write_all(text);
        drop(input);
        ended(child)
    }

    fn compare(&mut self, program: &'static str, text: &[u8]) -> Vec<u8> {
        let wanted = match program {
            "prove" => prove_prints(text),
            _ => verify_prints(text),
        };
        self.compare_with(program, text, wanted)
    }

    fn compare_with(&mut self, program: &'static str, text: &[u8], wanted: Vec<u8>) -> Vec<u8> {
        let printed = self.output(program, text);
        let line = printed.split(|&b| b == b'\n').next().unwrap_or(b"");
        let kind = String::from_utf8_lossy(if printed.starts_with(NAMES) {
            b"a listing"
        } else {
            line
        });
        *self.counts.entry((program, kind.into_owned())).or_default() += 1;
        let shorter = |d: &Difference| text.len() < d.text.len();
        if printed != wanted && self.smallest.as_ref().is_none_or(shorter) {
            let (text, printed) = (text.to_vec(), printed.clone());
            self.smallest = Some(Difference {
                program,
                text,
                printed,
                wanted,
            });
        }
        printed
    }

    /// Both programs on a text; what `prove` prints must be accepted.
    fn both(&mut self, text: &[u8]) {
        self.compare("verify", text);
        let listing = self.compare("prove", text);
        if listing.starts_with(NAMES) {
            let record = with_key(&listing, text);
            let wanted: &[u8] = if record.len() > LONGEST_TEXT {
                b"refused 1\n"
            } else {
                b"accepted\n"
            };
            self.compare_with("verify", &record, wanted.to_vec());
        }
    }

    /// The answers that never came up.
    fn missing(&self) -> Vec<String> {
        let all = PRINTED
            .iter()
            .flat_map(|(program, answers)| answers.iter().map(move |answer| (*program, *answer)));
        all.filter(|(program, answer)| !self.counts.contains_key(&(*program, answer.to_string())))
            .map(|(program, answer)| format!("{program}: {answer}"))
            .collect()
    }
}

fn prove_prints(text: &[u8]) -> Vec<u8> {
    let mut out = vec![0; LONGEST_TEXT];
    let answer = plain::prove(text, &mut out);
    if answer.number != 0 {
        return format!("refused {}\n", answer.number).into_bytes();
    }
    out.truncate(answer.length);
    out
}

fn verify_prints(text: &[u8]) -> Vec<u8> {
    match plain::verify(text) {
        Verification::Accepted => b"accepted\n".to_vec(),
        Verification::Rejected => b"rejected\n".to_vec(),
        Verification::Refused(number) => format!("refused {number}\n").into_bytes(),
    }
}

/// A listing with the key's lines of the text that it was made from, behind the settings.
fn with_key(listing: &[u8], text: &[u8]) -> Vec<u8> {
    let lines = |t: &[u8]| -> Vec<Vec<u8>> {
        t.split_inclusive(|&b| b == b'\n')
            .map(<[u8]>::to_vec)
            .collect()
    };
    let (listing, text) = (lines(listing), lines(text));
    let key = text.into_iter().filter(|line| line.starts_with(b"1 "));
    let (settings, rest) = listing.split_at(SETTINGS);
    settings
        .iter()
        .cloned()
        .chain(key)
        .chain(rest.iter().cloned())
        .flatten()
        .collect()
}

/// Texts at the limits: nothing, the names line, the longest texts, and a number of 60,000 digits.
fn at_the_limits() -> Vec<Vec<u8>> {
    let long = |n: usize| vec![b'7'; n];
    let digits = [NAMES, b"0 0 0 ", &long(60_000), b"\n"].concat();
    vec![
        vec![],
        NAMES.to_vec(),
        NAMES[..21].to_vec(),
        long(LONGEST_TEXT),
        long(LONGEST_TEXT + 1),
        long(200_000),
        digits,
    ]
}

/// Texts of degree 128 at every depth that a text has room for, and of several rows, each with the record of its listing; and the smallest with other moduli.
fn of_largest_degree(random: &mut Random) -> Vec<Vec<u8>> {
    let mut texts = Vec::new();
    let rows = (0..=4).map(|depth| (depth, 1));
    for (depth, rows) in rows.chain([(0, 4), (1, 3), (2, 2), (2, 4)]) {
        let settings = Settings::new(LARGEST_DEGREE, depth, ITS_MODULUS, 127).with_rows(rows);
        let text = provable_at(random, settings).text();
        texts.push(with_key(&prove_prints(&text), &text));
        texts.push(text);
    }
    for modulus in OTHER_MODULI.map(|q| q.min(LARGEST_MODULUS)) {
        let line = format!("\n0 0 2 {modulus}\n");
        let text = String::from_utf8_lossy(&texts[1]).replacen("\n0 0 2 12289\n", &line, 1);
        texts.push(text.into_bytes());
    }
    texts
}

/// Texts whose listings have each of the lengths at the limit; and, for `verify`, listings that have them with the key.
fn at_the_length(random: &mut Random) -> Vec<Vec<u8>> {
    let mut texts = Vec::new();
    for length in LIMITS {
        let text = listing_of_length(random, &[length], false).text();
        let printed = prove_prints(&text);
        if length > LONGEST_TEXT {
            assert_eq!(printed, b"refused 1\n");
        } else {
            assert_eq!(printed.len(), length);
        }
        texts.push(text);
        let text = listing_of_length(random, &[length], true).text();
        texts.push(listing(&text, true));
        texts.push(text);
    }
    texts
}

/// What a shell's line prints that starts a program with odd input or output; a program that does not end within ten seconds has status 124.
fn fault(folder: &Path, work: &Path, line: &str) -> String {
    let output = Command::new("sh")
        .arg("-c")
        .arg(line)
        .env("P", folder)
        .current_dir(work)
        .stdin(Stdio::null())
        .output()
        .expect("sh starts");
    String::from_utf8_lossy(&output.stdout).into_owned()
}

/// Each line with what it must print. NAME is a program, and the file NAME.in a text that `prove` makes a listing of and `verify` accepts.
const FAULTS: &[(&str, &str)] = &[
    // A failed read is said and has no answer: closed input, and a folder.
    ("timeout 10 \"$P/NAME\" <&- 2>said; echo $?; cat said", "0\nNAME: cannot read standard input\n"),
    ("timeout 10 \"$P/NAME\" <. 2>said; echo $?; cat said", "0\nNAME: cannot read standard input\n"),
    // A program that is stopped in the middle of a read and goes on reads on.
    (
        "rm -f slow; mkfifo slow; \"$P/NAME\" <slow >got 2>said & p=$!; exec 3>slow; head -c 100 NAME.in >&3; sleep 0.1; \
         kill -STOP $p; sleep 0.1; kill -CONT $p; sleep 0.1; tail -c +101 NAME.in >&3; exec 3>&-; \
         wait $p; echo $?; cat said; cmp got NAME.out && echo all",
        "0\nall\n",
    ),
    ("timeout 10 \"$P/NAME\" </dev/null; echo $?", "refused 2\n0\n"),
    ("yes | timeout 10 \"$P/NAME\"; echo $?", "refused 1\n0\n"),
    ("printf 'part item' | timeout 10 \"$P/NAME\"; echo $?", "refused 2\n0\n"),
    ("(printf 'part item '; sleep 0.1; printf 'place value\\n'; sleep 0.1; printf '0 0 0 3\\n0 0 1 1\\n0 0 2 17\\n0 0 3 1\\n0 0 4 1\\n') | timeout 10 \"$P/NAME\"; echo $?", "refused 3\n0\n"),
    // A full disk and a closed output: the program says so and ends.
    ("timeout 10 \"$P/NAME\" </dev/null 2>said >/dev/full; echo $?; cat said", "0\nNAME: cannot write standard output\n"),
    ("timeout 10 \"$P/NAME\" <NAME.in 2>said >/dev/full; echo $?; cat said", "0\nNAME: cannot write standard output\n"),
    ("timeout 10 \"$P/NAME\" <NAME.in 2>said >&-; echo $?; cat said", "0\nNAME: cannot write standard output\n"),
    // Nowhere to say it: the program ends all the same.
    ("timeout 10 \"$P/NAME\" <NAME.in >&- 2>&-; echo $?", "0\n"),
    // A pipe that nobody reads any more: the program gives up, whether or not the signal for it was ignored before. (A program of this kit ignores it from its start.)
    ("(sleep 0.2; timeout 10 \"$P/NAME\" <NAME.in; echo $? >status) | true; cat status", "0\n"),
    ("(trap '' PIPE; sleep 0.2; timeout 10 \"$P/NAME\" <NAME.in; echo $? >status) | true; cat status", "0\n"),
    // A disk that becomes full in the middle of the output: what was written is the front of it.
    ("(trap '' XFSZ; ulimit -f 1; timeout 10 \"$P/NAME\" <NAME.in 2>/dev/null >part; echo $?); cmp -n $(wc -c <part) part NAME.out && test -s part && echo front", "0\nfront\n"),
    // A reader that is late.
    ("timeout 10 \"$P/NAME\" <NAME.in | (sleep 0.2; cmp - NAME.out) && echo all", "all\n"),
];

fn faults(folder: &Path, work: &Path) -> bool {
    let mut good = true;
    for program in ["prove", "verify"] {
        for (line, wanted) in FAULTS {
            let line = line.replace("NAME", program);
            let wanted = wanted.replace("NAME", program);
            let printed = fault(folder, work, &line);
            if printed != wanted {
                println!("{line}\nprints: {printed}\nwanted: {wanted}");
                good = false;
            }
        }
    }
    good
}

extern "C" {
    fn fcntl(file: c_int, command: c_int, argument: c_int) -> c_int;
}

/// What comes through a pipe that holds one page and is read a little at a time.
fn through_narrow_pipe(folder: &Path, program: &str, text: &[u8]) -> Vec<u8> {
    const SET_SIZE: c_int = 1031;
    let mut child = start(folder, program);
    let mut output = child.stdout.take().expect("piped");
    let size = unsafe { fcntl(output.as_raw_fd(), SET_SIZE, 4096) };
    assert_eq!(size, 4096, "the pipe keeps its size");
    let mut input = child.stdin.take().expect("piped");
    input.write_all(text).expect("it is read");
    drop(input);
    let mut printed = Vec::new();
    let mut some = [0; 100];
    loop {
        match output.read(&mut some).expect("it is readable") {
            0 => break,
            n => printed.extend_from_slice(&some[..n]),
        }
    }
    let mut rest = ended(child);
    printed.append(&mut rest);
    printed
}

/// One byte at a time.
fn dripped(folder: &Path, program: &str, text: &[u8]) -> Vec<u8> {
    let mut child = start(folder, program);
    let mut input = child.stdin.take().expect("piped");
    for byte in text.chunks(1) {
        let _ = input.write_all(byte).and_then(|()| input.flush());
    }
    drop(input);
    ended(child)
}

/// A text of many lines that `prove` answers with a listing of many lines, and the record of it that is accepted.
fn long_texts(random: &mut Random) -> (Vec<u8>, Vec<u8>, Vec<u8>) {
    let text = provable_at(random, Settings::new(64, 4, LARGEST_MODULUS, 127)).text();
    let listing = prove_prints(&text);
    let record = with_key(&listing, &text);
    (text, listing, record)
}

fn main() -> ExitCode {
    let mut words = std::env::args()
        .skip(1)
        .map(|word| word.parse().expect("a number"));
    let drawn = words.next().unwrap_or(ENOUGH);
    let seed = words.next().unwrap_or(1);
    let folder = Path::new(env!("CARGO_MANIFEST_DIR")).join("../target/bin");
    let mut run = Run {
        folder,
        counts: BTreeMap::new(),
        smallest: None,
    };
    let mut random = Random::new(seed);
    for text in at_the_limits()
        .into_iter()
        .chain(of_largest_degree(&mut random))
        .chain([long_listing(&mut random).text()])
        .chain(at_the_length(&mut random))
    {
        run.both(&text);
    }
    for turn in 0..drawn {
        let limits = if turn % 4 == 0 {
            Limits::new(2048, 36)
        } else {
            Limits::small().with_wide_moduli()
        };
        let mut inputs = [
            provable(&mut random, &limits),
            verifiable(&mut random, &limits).0,
        ];
        for input in &mut inputs {
            damage_text(&mut random, input);
            run.both(&input.text());
        }
    }
    if let Some(d) = run.smallest {
        println!("{} on a text of {} bytes:", d.program, d.text.len());
        println!(
            "{}",
            String::from_utf8_lossy(&d.text[..d.text.len().min(2_000)])
        );
        println!("prints: {}", String::from_utf8_lossy(&d.printed));
        println!("wanted: {}", String::from_utf8_lossy(&d.wanted));
        return ExitCode::FAILURE;
    }
    let small = provable(&mut random, &Limits::small()).text();
    let (text, listing, record) = long_texts(&mut random);
    let accepted = b"accepted\n".to_vec();
    let same = dripped(&run.folder, "prove", &small) == prove_prints(&small)
        && dripped(&run.folder, "verify", &small) == verify_prints(&small)
        && dripped(&run.folder, "verify", &record) == accepted
        && through_narrow_pipe(&run.folder, "prove", &text) == listing
        && through_narrow_pipe(&run.folder, "verify", &record) == accepted;
    if !same {
        println!("programs: a text that comes one byte at a time, or leaves through a narrow pipe, gives another answer");
        return ExitCode::FAILURE;
    }
    let work = run.folder.join("../programs");
    let files = [
        ("prove.in", &text),
        ("prove.out", &listing),
        ("verify.in", &record),
        ("verify.out", &accepted),
    ];
    fs::create_dir_all(&work).expect("target is writable");
    for (name, bytes) in files {
        fs::write(work.join(name), bytes).expect("target is writable");
    }
    if !faults(&run.folder, &work) {
        return ExitCode::FAILURE;
    }
    let missing = run.missing();
    if drawn >= ENOUGH && !missing.is_empty() {
        println!("programs: FAILED: never printed: {}", missing.join(", "));
        return ExitCode::FAILURE;
    }
    for (program, answers) in PRINTED {
        let count = |answer: &&str| run.counts.get(&(program, answer.to_string()));
        let line = |answer: &&str| format!("{answer}:{}", count(answer).unwrap_or(&0));
        let line: Vec<String> = answers.iter().map(|answer| line(answer)).collect();
        println!("{program:<9}{}", line.join(" ").replace("refused ", ""));
    }
    let texts: usize = run.counts.values().sum();
    println!("programs: seed {seed}, {texts} runs beside the simple reference, no difference");
    ExitCode::SUCCESS
}
