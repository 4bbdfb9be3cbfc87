//! The examples print what those in C print.

#[path = "../examples/extractor.rs"]
#[allow(dead_code)]
mod extractor;
#[path = "../examples/moves.rs"]
#[allow(dead_code)]
mod moves;
#[path = "../examples/records.rs"]
#[allow(dead_code)]
mod records;
#[path = "../examples/weights.rs"]
#[allow(dead_code)]
mod weights;

#[test]
fn moves_of_prover_and_verifier() {
    let wanted = include_str!("../../examples/c/moves.out");
    assert_eq!(moves::report().unwrap(), wanted);
}

#[test]
fn an_extraction_by_rewinding() {
    let wanted = include_str!("../../examples/c/extractor.out");
    assert_eq!(extractor::report().unwrap(), wanted);
}

#[test]
fn a_row_of_public_weights() {
    let wanted = include_str!("../../examples/c/weights.out");
    assert_eq!(weights::report().unwrap(), wanted);
}

#[test]
fn a_record_that_is_read_and_written() {
    let text = include_bytes!("../../examples/c/records.in");
    let wanted = include_str!("../../examples/c/records.out");
    assert_eq!(records::report(text).unwrap(), wanted);
}
