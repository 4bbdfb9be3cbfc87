//! Texts of about the longest length, and numbers of very many digits.

use reference::random::Random;
use reference::types::LONGEST_TEXT;

/// Makes a text very long, in one of its lines or behind them.
pub fn stretch(random: &mut Random, lines: &mut Vec<Vec<u8>>) {
    match random.below(3) {
        0 => many_digits(random, lines),
        1 => {
            let missing = missing(random, lines);
            lines.push(lines_of_length(missing));
        }
        _ => {
            let missing = missing(random, lines);
            let byte = random.pick(&[b'0', b'9', b' ', b'\n', b'-', 0]);
            lines.push(vec![byte; missing]);
        }
    }
}

/// How many bytes a text lacks up to 65,536, or one byte fewer or more.
fn missing(random: &mut Random, lines: &[Vec<u8>]) -> usize {
    let length: usize = lines.iter().map(Vec::len).sum();
    (LONGEST_TEXT - 1 + random.below(3)).saturating_sub(length)
}

/// Lines of the stated shape that no text has.
fn lines_of_length(length: usize) -> Vec<u8> {
    const LINE: &[u8] = b"8 0 0 0\n";
    if length < LINE.len() {
        return vec![b'\n'; length];
    }
    let mut lines = LINE.repeat(length / LINE.len() - 1);
    let digits = "1".repeat(1 + length % LINE.len());
    lines.extend_from_slice(format!("8 0 0 {digits}\n").as_bytes());
    lines
}

/// A number of 60,000 digits in a drawn line.
fn many_digits(random: &mut Random, lines: &mut [Vec<u8>]) {
    if lines.is_empty() {
        return;
    }
    let place = random.below(lines.len());
    let line = &mut lines[place];
    let at = random.below(line.len().max(1));
    let digit = random.pick(b"019");
    line.splice(at..at, vec![digit; 60_000]);
}
