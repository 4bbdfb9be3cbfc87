//! Measures the stack that the verified calls use.
//!
//! Each call runs in a thread whose stack is a block of memory that was
//! filled with one byte; how far down that byte is gone tells what was used.
//! What an empty call uses is taken off. It leaves with 1 where a call uses
//! more than is allowed.

use differential::honest::Honest;
use differential::verified;
use reference::draw::base::row_coefficients;
use reference::draw::tables::opening_at;
use reference::draw::text::{lines, tables_of_length, Tables};
use reference::draw::tree::{free_at, Tree};
use reference::plain;
use reference::random::Random;
use reference::refuse::GROWTH;
use reference::types::{
    Residue, Settings, ACCEPTED, ITS_MODULUS, LARGEST_DEGREE, LARGEST_MODULUS, LONGEST_TEXT, ROWS,
};
use std::ffi::c_void;
use std::process::ExitCode;

/// The most that a call may use, in bytes.
const ALLOWED: usize = 512 * 1024;

const STACK: usize = 4 * 1024 * 1024;
const ALIGNMENT: usize = 4096;
const FILL: u8 = 0xa5;

/// Larger than the C library's own type.
#[repr(C, align(16))]
struct Attributes([u64; 16]);

extern "C" {
    fn pthread_attr_init(attributes: *mut Attributes) -> i32;
    fn pthread_attr_setstack(attributes: *mut Attributes, stack: *mut c_void, size: usize) -> i32;
    fn pthread_attr_destroy(attributes: *mut Attributes) -> i32;
    fn pthread_create(
        thread: *mut usize,
        attributes: *const Attributes,
        start: extern "C" fn(*mut c_void) -> *mut c_void,
        argument: *mut c_void,
    ) -> i32;
    fn pthread_join(thread: usize, result: *mut *mut c_void) -> i32;
}

type Call<'a> = Box<dyn FnMut() + Send + 'a>;

extern "C" fn start(argument: *mut c_void) -> *mut c_void {
    let call = unsafe { &mut *argument.cast::<Call>() };
    call();
    std::ptr::null_mut()
}

/// Bytes of its stack that a thread has written when the call is over.
fn used(mut call: Call) -> usize {
    let mut block = vec![FILL; STACK + ALIGNMENT];
    let skip = block.as_ptr().align_offset(ALIGNMENT);
    let stack = &mut block[skip..skip + STACK];
    let mut attributes = Attributes([0; 16]);
    let mut thread = 0;
    unsafe {
        assert_eq!(pthread_attr_init(&mut attributes), 0);
        let memory = stack.as_mut_ptr().cast();
        assert_eq!(pthread_attr_setstack(&mut attributes, memory, STACK), 0);
        let argument = (&raw mut call).cast();
        assert_eq!(pthread_create(&mut thread, &attributes, start, argument), 0);
        assert_eq!(pthread_join(thread, std::ptr::null_mut()), 0);
        assert_eq!(pthread_attr_destroy(&mut attributes), 0);
    }
    let untouched = stack.iter().take_while(|&&byte| byte == FILL).count();
    STACK - untouched
}

/// Numbers of an element of the largest degree, and of one a row.
const LARGEST: usize = LARGEST_DEGREE as usize;
const MOST: usize = ROWS * LARGEST;

/// Every call at the largest settings of this degree, modulus and number of
/// rows that it does not refuse; texts of the longest length where the modulus
/// is long.
fn calls(degree: u32, q: Residue, rows: u32) -> Vec<(String, Call<'static>)> {
    let settings = |d, l, b| Settings::new(d, l, q, b).with_rows(rows);
    let large = settings(degree, 8, 127);
    let bounded = settings(4, 8, 2);
    // The deepest tree of this degree that growth allows.
    let (depth, bound) = if degree == LARGEST_DEGREE {
        (3, 127)
    } else {
        (4, 4)
    };
    let grown = settings(degree, depth, bound);
    // A text of more rows has room for fewer elements.
    let texts = settings(degree, if rows == 1 { 4 } else { 1 }, 127);
    let input = opening_at(&mut Random::new(7), large);
    let (commit, round, mut fold, end) =
        (input.clone(), input.clone(), input.clone(), input.clone());
    let check = Honest::at(large);
    let session = check.clone();
    let judge = opening_at(&mut Random::new(7), bounded);
    let d = degree as usize;
    let of_commitment = rows as usize * d;
    let mut list: Vec<(&str, Settings, Call<'static>)> = vec![
        (
            "commit",
            large,
            Box::new(move || {
                let out = &mut [0; MOST][..of_commitment];
                let number = verified::commit(large, &commit.key, &commit.message, out);
                assert_eq!(number, 0);
            }),
        ),
        (
            "round",
            large,
            Box::new(move || {
                let out = &mut [0; 3 * MOST][..3 * of_commitment];
                let number = verified::round(large, 0, &round.key, &round.message, out);
                assert_eq!(number, 0);
            }),
        ),
        (
            "fold",
            large,
            Box::new(move || {
                let number = verified::fold(large, 0, 77, &mut fold.key, &mut fold.message);
                assert_eq!(number, 0);
            }),
        ),
        (
            "end",
            large,
            Box::new(move || {
                let out = &mut [0; LARGEST][..d];
                let number = verified::end(large, 8, &end.message, out);
                assert_eq!(number, 0);
            }),
        ),
        ("check", large, Box::new(move || check.check())),
        ("session", large, Box::new(move || session.session())),
        (
            "judge",
            bounded,
            Box::new(move || {
                let w = vec![0; judge.message.len()];
                let mut yes = 0;
                let c = &[0; 4 * ROWS][..4 * rows as usize];
                let number = verified::judge(bounded, c, 1, &judge.key, &w, &mut yes);
                assert_eq!((number, yes), (0, 1));
            }),
        ),
        ("open", large, open(large)),
        ("extract", grown, extract(grown, 0)),
        ("extract", bounded, extract(bounded, 0)),
        ("extract", large, extract(large, GROWTH)),
        ("prove", texts, prove(texts)),
        ("verify", texts, verify(texts)),
    ];
    let at = |name: &str, s: Settings| format!("{name}, d = {}, L = {}", s.degree, s.depth);
    let mut named: Vec<(String, Call<'static>)> = list
        .drain(..)
        .map(|(name, s, call)| (at(name, s), call))
        .collect();
    if q > 1 << 30 && rows == 1 {
        named.push(("read, 65,536 bytes".to_string(), read(q)));
        named.push(("write, 65,536 bytes".to_string(), write(q)));
    }
    named
}

fn open(s: Settings) -> Call<'static> {
    let mut t = opening_at(&mut Random::new(7), s);
    Box::new(move || {
        let (d, rows) = (s.degree as usize, s.rows as usize);
        let (mut c, mut f) = ([0; MOST], [0; LARGEST]);
        let (key, message, rounds_out) = (&mut t.key, &mut t.message, &mut t.rounds);
        let mut verdict = 0;
        let (c, f) = (&mut c[..rows * d], &mut f[..d]);
        let challenges = &t.challenges;
        verified::open(s, key, message, challenges, rounds_out, c, f, &mut verdict);
        assert_eq!(verdict, ACCEPTED);
    })
}

/// An accepted tree; `number` is 0 or 14.
fn extract(s: Settings, number: u32) -> Call<'static> {
    let mut t: Tree = free_at(&mut Random::new(7), s);
    let commitment = row_coefficients(&t.shape, &t.commitment);
    Box::new(move || {
        let (key, rounds, leaves) = (&t.key, &t.rounds, &t.leaves);
        let (c, e) = (&commitment, &t.challenges);
        let found = verified::extract(s, c, key, rounds, e, leaves, &mut t.w);
        assert_eq!(found, number);
    })
}

fn read(q: Residue) -> Call<'static> {
    let (settings, parts, mut tables) = tables_of_length(LONGEST_TEXT, q);
    let text = lines(settings, &tables).concat();
    Box::new(move || {
        let mut settings = [0; verified::SETTINGS];
        let parts = verified::bits(parts);
        let number = verified::read(parts, &text, &mut settings, &mut tables);
        assert_eq!(number, 0);
    })
}

fn write(q: Residue) -> Call<'static> {
    let (settings, parts, tables) = tables_of_length(LONGEST_TEXT, q);
    let mut out = vec![0; LONGEST_TEXT];
    Box::new(move || {
        let mut length = 0;
        let parts = verified::bits(parts);
        let number = verified::write(settings, parts, &tables, &mut out, &mut length);
        assert_eq!((number, length), (0, LONGEST_TEXT));
    })
}

fn prove(s: Settings) -> Call<'static> {
    let t = opening_at(&mut Random::new(7), s);
    let tables = Tables {
        key: t.key,
        message: t.message,
        challenges: t.challenges,
        ..Tables::default()
    };
    let text = lines(s, &tables).concat();
    let mut out = vec![0; LONGEST_TEXT];
    Box::new(move || {
        let mut length = 0;
        let number = verified::prove(&text, &mut out, &mut length);
        assert_eq!(number, 0);
    })
}

/// A transcript that is accepted, as text.
fn verify(s: Settings) -> Call<'static> {
    let Honest {
        transcript: t,
        commitment,
    } = Honest::at(s);
    let tables = Tables {
        claims: plain::claims(s, &t.rounds, &t.challenges),
        key: t.key,
        message: vec![],
        commitment,
        rounds: t.rounds,
        challenges: t.challenges,
        final_element: t.final_element[..t.shape.d].to_vec(),
    };
    let text = lines(s, &tables).concat();
    Box::new(move || {
        let mut verdict = 0;
        let number = verified::verify(&text, &mut verdict);
        assert_eq!((number, verdict), (0, ACCEPTED));
    })
}

fn main() -> ExitCode {
    let empty = used(Box::new(|| ()));
    let mut most = 0;
    for (degree, q, rows, others) in [
        (64, (1 << 31) - 1, 1, ""),
        (64, LARGEST_MODULUS, 1, ", q = 2^61-1"),
        (64, ITS_MODULUS, 1, ", q = 12289"),
        (LARGEST_DEGREE, ITS_MODULUS, 1, ", q = 12289"),
        (64, LARGEST_MODULUS, 4, ", q = 2^61-1, 4 rows"),
        (LARGEST_DEGREE, ITS_MODULUS, 4, ", q = 12289, 4 rows"),
    ] {
        for (name, call) in calls(degree, q, rows) {
            let bytes = used(call).saturating_sub(empty);
            let name = format!("{name}{others}");
            println!("{name:<44} {bytes:>9} bytes of stack");
            most = most.max(bytes);
        }
    }
    println!("{:<44} {ALLOWED:>9} bytes", "allowed");
    if most > ALLOWED {
        return ExitCode::FAILURE;
    }
    ExitCode::SUCCESS
}
