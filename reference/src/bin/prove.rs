//! The program `prove`: a text on standard input, the opening's text or
//! `refused N` on standard output.

use reference::plain::prove;
use reference::types::LONGEST_TEXT;
use std::io::{self, Read, Write};

fn main() -> io::Result<()> {
    let mut text = Vec::new();
    io::stdin().read_to_end(&mut text)?;
    let mut out = vec![0; LONGEST_TEXT];
    let answer = prove(&text, &mut out);
    if answer.number == 0 {
        io::stdout().write_all(&out[..answer.length])
    } else {
        writeln!(io::stdout(), "refused {}", answer.number)
    }
}
