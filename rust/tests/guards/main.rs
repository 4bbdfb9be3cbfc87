//! What the exported calls do to the memory that they are lent, at several
//! degrees and depths: every slice and every single number stands between two
//! guards of 16 numbers. Each call is made as it should be, with each fault for
//! which it has a refusal, with each slice one number too short and one too
//! long, and with both. A refused call leaves every byte as it was; but a
//! refused start writes a closed record of zeros, and a single number becomes 0.

#[path = "../../src/library.rs"]
mod library;

#[rustfmt::skip]
mod calls;
mod honest;
mod lent;
mod scenarios;

use honest::Opening;
use lent::{Table, Use};
use scenarios::Scenario;
use std::collections::BTreeSet;
use wovenrock::Settings;

/// The calls, and every refusal that each can give.
const REFUSALS: [(&str, &[u32]); 17] = [
    ("settings", &[3, 4, 5, 6, 16]),
    ("commit", &[3, 4, 5, 6, 16, 7, 8, 9]),
    ("round", &[3, 4, 5, 6, 16, 7, 8, 9, 11]),
    ("fold", &[3, 4, 5, 6, 16, 7, 8, 9, 10, 11]),
    ("end", &[3, 4, 5, 6, 16, 7, 9, 11]),
    ("open", &[3, 4, 5, 6, 16, 7, 8, 9, 10]),
    ("session_start", &[3, 4, 5, 6, 16, 7, 8]),
    ("session_round", &[3, 4, 5, 6, 16, 7, 8, 10, 11]),
    ("session_end", &[3, 4, 5, 6, 16, 7, 8, 10, 11]),
    ("check", &[3, 4, 5, 6, 16, 7, 8, 10]),
    ("judge", &[3, 4, 5, 6, 16, 7, 8, 14, 15]),
    ("extract", &[3, 4, 5, 6, 16, 7, 8, 10, 12, 13, 14]),
    ("look", &[1, 2, 3, 4, 5, 6, 16, 7]),
    ("read", &[1, 2, 3, 4, 5, 6, 16, 7, 8, 9, 10]),
    ("write", &[1, 3, 4, 5, 6, 16, 7, 8, 9, 10]),
    ("prove", &[1, 2, 3, 4, 5, 6, 16, 7, 8, 9, 10]),
    ("verify", &[1, 2, 3, 4, 5, 6, 16, 7, 8, 10]),
];

#[test]
fn every_call_between_guards() {
    let settings = |d, l, q, b, rows| Settings::new(d, l, q, b, rows).unwrap();
    let mut list = Vec::new();
    for s in [
        settings(2, 1, 17, 1, 1),
        settings(2, 0, 3, 127, 4),
        settings(4, 2, 12_289, 3, 2),
        settings(8, 3, 2_147_483_647, 127, 1),
        settings(16, 1, 255, 5, 3),
        settings(32, 2, 65_537, 1, 1),
        settings(64, 1, 12_289, 1, 2),
        settings(128, 1, 12_289, 1, 4),
        settings(2, 2, (1 << 32) + 1, 5, 4),
        settings(8, 2, Settings::LARGEST_MODULUS, 127, 3),
    ] {
        let opening = Opening::drawn(s);
        let mut of_opening = scenarios::of_prover(&opening);
        of_opening.extend(scenarios::of_verifier(&opening));
        of_opening.extend(scenarios::of_relaxed(&opening, 0));
        of_opening.extend(scenarios::of_text(&opening));
        if s.degree() == Settings::LARGEST_DEGREE {
            another_modulus_is_3(&mut of_opening);
        }
        list.extend(of_opening);
    }
    let growing = Opening::zeros(settings(64, 4, 17, 5, 2));
    list.extend(scenarios::of_relaxed(&growing, 14));
    let largest = Opening::zeros(settings(128, 4, 12_289, 1, 1));
    let mut of_largest = scenarios::of_relaxed(&largest, 14);
    another_modulus_is_3(&mut of_largest);
    list.extend(of_largest);
    list.push(scenarios::of_long_text(&Opening::zeros(settings(
        64, 8, 17, 1, 1,
    ))));

    let mut met = BTreeSet::new();
    for scenario in &list {
        let name = scenario.name;
        met.extend(met_by(scenario).into_iter().map(|number| (name, number)));
    }
    let each = |(name, numbers): &(&'static str, &[u32])| {
        let name = *name;
        let pairs = numbers.iter().map(|&number| (name, number));
        pairs.collect::<Vec<_>>()
    };
    assert_eq!(met, REFUSALS.iter().flat_map(each).collect());
}

/// The largest degree is refused with every modulus but its own, before that
/// modulus is tested.
fn another_modulus_is_3(list: &mut [Scenario]) {
    let faults = list.iter_mut().flat_map(|scenario| &mut scenario.faults);
    for (number, _) in faults.filter(|(number, _)| *number == 5) {
        *number = 3;
    }
}

/// Runs a scenario as it is, with its faults, with wrong lengths, and with a
/// fault and a wrong length at once; gives the refusals that were met.
fn met_by(scenario: &Scenario) -> BTreeSet<u32> {
    let (name, call) = (scenario.name, scenario.call);
    let mut inputs = vec![(scenario.answer, scenario.input.clone())];
    for (refusal, fault) in &scenario.faults {
        let mut input = scenario.input.clone();
        fault(&mut input);
        inputs.push((*refusal, input));
    }
    let mut met = BTreeSet::new();
    for (number, input) in &inputs {
        met.insert(lent::call(
            name,
            call,
            input,
            *number,
            "its lengths as they are",
        ));
        for (i, table) in input.tables.iter().enumerate() {
            let count = table.values.len();
            let lengths = match table.used {
                Use::Text | Use::Single => vec![],
                _ => vec![count.checked_sub(1), Some(count + 1)],
            };
            for wrong in lengths.into_iter().flatten() {
                let wanted = with_wrong_length(name, table, wrong > count, *number);
                let what = format!("{number}, and {} of {wrong} numbers", table.name);
                let mut input = input.clone();
                input.tables[i].values.resize(wrong, 0);
                met.insert(lent::call(name, call, &input, wanted, &what));
            }
        }
    }
    met.remove(&0);
    met
}

/// What a call that answers `number` answers where a slice has a wrong length
/// as well: 7 stands behind 1 to 6 and 16. An output may be longer than its
/// text, and is tested last where it is shorter; the writer tests the length of
/// its text just before that. A record that is not of 527 numbers is refused at
/// once.
fn with_wrong_length(name: &str, table: &Table, longer: bool, number: u32) -> u32 {
    let writer = name == "write" && number == 1;
    let record = table.name == "session" && table.used == Use::Written;
    match table.used {
        Use::Out if longer || number != 0 => number,
        _ if number == 0 || writer || record => 7,
        _ if number == 16 => 16,
        _ => number.min(7),
    }
}
