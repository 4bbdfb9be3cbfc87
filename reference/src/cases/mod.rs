//! Drawn cases as text: the inputs of a call and what `plain` answers. The
//! format is described in the program `cases`.

pub mod calls;
pub mod chains;
pub mod drawn;
pub mod small;

use crate::types::*;
use std::fmt::Display;

/// The text of cases, line by line.
#[derive(Default)]
pub struct Page {
    pub text: String,
}

impl Page {
    /// The first line of a case.
    pub fn header(&mut self, name: &str) {
        self.text.push_str(name);
        self.text.push('\n');
    }

    /// A line of numbers.
    pub fn numbers<T: Display>(&mut self, numbers: impl IntoIterator<Item = T>) {
        let words: Vec<String> = numbers.into_iter().map(|x| x.to_string()).collect();
        self.header(&words.join(" "));
    }

    /// A table: its length and its numbers.
    pub fn table<T: Display>(&mut self, table: &[T]) {
        let length = table.len().to_string();
        let words = table.iter().map(|x| x.to_string());
        self.numbers(std::iter::once(length).chain(words));
    }

    pub fn settings(&mut self, s: Settings) {
        let [d, l, b, rows] = [s.degree, s.depth, s.bound, s.rows].map(Residue::from);
        self.numbers([d, l, s.modulus, b, rows]);
    }

    /// An element by value: d places where those behind are 0, or all 128.
    pub fn element<T: Display + Default + PartialEq>(&mut self, places: &[T; PLACES], d: u32) {
        let d = (d as usize).min(PLACES);
        if places[d..].iter().all(|x| *x == T::default()) {
            self.table(&places[..d]);
        } else {
            self.table(places);
        }
    }

    /// What is passed by value for each row: four elements. Of one past the
    /// rows that is 0 no place is written.
    pub fn rows(&mut self, rows: &Rows, s: Settings) {
        for (row, element) in rows.iter().enumerate() {
            let there = row < s.rows as usize || *element != ZERO_RESIDUES;
            self.element(element, if there { s.degree } else { 0 });
        }
    }

    pub fn polynomial(&mut self, c: &Polynomial, s: Settings) {
        for rows in c {
            self.rows(rows, s);
        }
    }

    /// A session record.
    pub fn record(&mut self, record: &Record) {
        self.settings(record.settings);
        self.numbers([record.done, u32::from(record.closed)]);
        self.rows(&record.claims, record.settings);
        self.numbers(record.challenges);
    }
}
