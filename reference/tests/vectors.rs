//! The printed cases: the file of small ones is what the program prints, and
//! every name prints.

use reference::cases::{drawn, Page};
use reference::draw::Limits;
use reference::random::Random;

#[test]
fn small_file_is_up_to_date() {
    let mut page = Page::default();
    assert!(drawn::print(
        &mut page,
        "small",
        &mut Random::new(1),
        &Limits::small()
    ));
    assert_eq!(page.text, include_str!("../vectors/small.txt"));
}

#[test]
fn every_name_prints() {
    for name in drawn::NAMES {
        let mut random = Random::new(71);
        for _ in 0..20 {
            let mut page = Page::default();
            assert!(drawn::print(
                &mut page,
                name,
                &mut random,
                &Limits::new(64, 108)
            ));
            assert!(page.text.ends_with('\n') && !page.text.contains("\n\n"));
        }
    }
    let mut page = Page::default();
    assert!(!drawn::print(
        &mut page,
        "other",
        &mut Random::new(1),
        &Limits::small()
    ));
}
