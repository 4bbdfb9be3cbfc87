//! The C header and this crate say the same of refusals, lengths and version.

use wovenrock::{Refusal, Session, Settings, LONGEST_TEXT};

const HEADER: &str = include_str!("../../include/wovenrock.h");

/// What the header defines under a name, without a comment.
fn defined(name: &str) -> &'static str {
    let start = format!("#define WOVENROCK_{name} ");
    let line = HEADER.lines().find_map(|line| line.strip_prefix(&start));
    let value = line.unwrap_or_else(|| panic!("WOVENROCK_{name} is not defined"));
    value.split("/*").next().unwrap_or_default().trim()
}

#[test]
fn names_and_words_of_refusals() {
    for refusal in Refusal::ALL {
        let (number, word) = (refusal.number().to_string(), refusal.word());
        assert_eq!(defined(&format!("REFUSED_{}", word.to_uppercase())), number);
        // the table in the header's first comment
        let row = format!(" * {number:>5}  {word}  ");
        assert!(HEADER.contains(&row), "no row {row:?}");
        // the list that wovenrock_word reads
        assert!(HEADER.contains(&format!("\"{word}\"")), "no word {word}");
    }
    let names = HEADER.matches("#define WOVENROCK_REFUSED_").count();
    assert_eq!(names, Refusal::ALL.len());
}

#[test]
fn version_and_lengths() {
    assert_eq!(
        defined("VERSION"),
        concat!('"', env!("CARGO_PKG_VERSION"), '"')
    );
    assert_eq!(defined("SESSION"), Session::RECORD.to_string());
    assert_eq!(defined("TEXT"), LONGEST_TEXT.to_string());
    let most = format!("UINT64_C({})", Settings::LARGEST_MODULUS);
    assert_eq!(defined("MODULUS_MAX"), most);
    let degree = Settings::LARGEST_DEGREE.to_string();
    assert_eq!(defined("DEGREE_MAX"), degree);
    let rows = Settings::MOST_ROWS.to_string();
    assert_eq!(defined("ROWS_MAX"), rows);
    let its = format!("UINT64_C({})", Settings::MODULUS_OF_LARGEST_DEGREE);
    assert_eq!(defined("MODULUS_OF_DEGREE_MAX"), its);
}
