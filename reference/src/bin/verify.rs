//! The program `verify`: a text on standard input; `accepted`, `rejected` or
//! `refused N` on standard output.

use reference::plain::verify;
use reference::types::Verification;
use std::io::{self, Read, Write};

fn main() -> io::Result<()> {
    let mut text = Vec::new();
    io::stdin().read_to_end(&mut text)?;
    match verify(&text) {
        Verification::Accepted => writeln!(io::stdout(), "accepted"),
        Verification::Rejected => writeln!(io::stdout(), "rejected"),
        Verification::Refused(number) => writeln!(io::stdout(), "refused {number}"),
    }
}
