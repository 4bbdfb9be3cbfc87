//! Every public item has an example, which the tests run.

use std::fs;
use std::path::Path;

/// The lines of documentation right above a line, attributes left out.
fn documentation<'a>(lines: &[&'a str], at: usize) -> Vec<&'a str> {
    let above = lines[..at].iter().rev().map(|line| line.trim());
    let noted = above.take_while(|line| line.starts_with("///") || line.starts_with("#["));
    noted.filter(|line| line.starts_with("///")).collect()
}

/// Whether a public item begins here; the functions of the library itself are
/// not public.
fn is_item(line: &str) -> bool {
    let words: Vec<&str> = line.split_whitespace().take(2).collect();
    matches!(
        words[..],
        [
            "pub",
            "fn" | "struct" | "enum" | "const" | "type" | "trait" | "mod" | "static"
        ]
    )
}

#[test]
fn every_item_has_an_example() {
    let folder = Path::new(env!("CARGO_MANIFEST_DIR")).join("src");
    let mut items = 0;
    for file in fs::read_dir(folder).unwrap() {
        let path = file.unwrap().path();
        if path.ends_with("library.rs") {
            continue;
        }
        let text = fs::read_to_string(&path).unwrap();
        let lines: Vec<&str> = text.lines().collect();
        for (at, line) in lines.iter().enumerate().filter(|(_, line)| is_item(line)) {
            let example = documentation(&lines, at).contains(&"/// ```");
            assert!(example, "{}: no example for {line}", path.display());
            items += 1;
        }
    }
    assert!(items > 0);
}
