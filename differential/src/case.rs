//! One input of one call: run by both implementations, compared, and made
//! smaller where they differ.

use reference::cases::Page;
use reference::draw::Limits;
use reference::plain::refusals::{self, Lengths};
use reference::random::Random;
use reference::refuse::{self, Shape};
use reference::types::{Residue, Settings, ITS_MODULUS, LARGEST_DEGREE};

/// What a call answered and left in every slice that it was lent.
#[derive(Clone, Debug)]
pub struct Outcome {
    pub number: u32,
    /// Each part of the answer and each lent table at exit, by name.
    pub parts: Vec<(&'static str, Vec<i128>)>,
    /// For the counts: the numbers that were answered, in a list of calls
    /// those of each call.
    pub counted: Vec<u32>,
    /// For the counts: what was said where nothing was refused.
    pub words: Vec<String>,
}

impl Outcome {
    pub fn new(number: u32) -> Outcome {
        Outcome {
            number,
            parts: Vec::new(),
            counted: vec![number],
            words: Vec::new(),
        }
    }

    /// Adds a part or a table.
    pub fn with<T: Copy + Into<i128>>(mut self, name: &'static str, values: &[T]) -> Outcome {
        let values = values.iter().map(|&x| x.into()).collect();
        self.parts.push((name, values));
        self
    }

    /// Adds a verdict, and the word of it that is counted.
    pub fn with_word(self, name: &'static str, value: u32, words: &[&'static str]) -> Outcome {
        let word = words.get(value as usize).copied().unwrap_or("?");
        let said = if self.number == 0 {
            vec![word.to_string()]
        } else {
            vec![]
        };
        Outcome {
            words: said,
            ..self.with(name, &[value])
        }
    }

    /// Whether answer and slices are the same.
    fn same(&self, other: &Outcome) -> bool {
        self.number == other.number && self.parts == other.parts
    }

    /// Whether everything that is named here is the same there.
    fn agrees(&self, other: &Outcome) -> bool {
        self.number == other.number && self.parts.iter().all(|part| other.parts.contains(part))
    }
}

/// What is counted where nothing is refused: a modulus of 2^31 or more, the
/// largest degree, and its modulus at a degree from 32 on with sixteen elements
/// or more; and each number of rows. And what is counted where 3 refuses the
/// largest degree with another modulus.
pub const WIDE: &str = "wide";
pub const LARGEST: &str = "degree 128";
pub const SIXTEENS: &str = "12289 from degree 32, sixteen elements";
pub const OTHER: &str = "128 with another modulus";
pub const ROWS: [&str; 4] = ["one row", "two rows", "three rows", "four rows"];

/// Who a case was compared with.
#[derive(Clone, Copy)]
pub enum Author {
    /// The simple reference.
    Simple,
    /// The fast reference.
    Fast,
    /// The refusals behind the fast reference, where it has no such call.
    Refusals,
}

/// A slice of a case. Its numbers may be put to 0 to make the case simpler,
/// and its length may be made a wrong one.
pub enum Table<'a> {
    Residues(&'a mut Vec<Residue>),
    Unsigned(&'a mut Vec<u32>),
    Signed(&'a mut Vec<i32>),
    Wide(&'a mut Vec<i64>),
}

impl Table<'_> {
    fn len(&self) -> usize {
        match self {
            Table::Residues(t) => t.len(),
            Table::Unsigned(t) => t.len(),
            Table::Signed(t) => t.len(),
            Table::Wide(t) => t.len(),
        }
    }

    /// Puts 0 to a range and answers whether that changed anything.
    fn clear(&mut self, range: std::ops::Range<usize>) -> bool {
        fn zero<T: Default + PartialEq>(t: &mut [T]) -> bool {
            let mut changed = false;
            for x in t {
                changed |= *x != T::default();
                *x = T::default();
            }
            changed
        }
        match self {
            Table::Residues(t) => zero(&mut t[range]),
            Table::Unsigned(t) => zero(&mut t[range]),
            Table::Signed(t) => zero(&mut t[range]),
            Table::Wide(t) => zero(&mut t[range]),
        }
    }

    fn resize(&mut self, length: usize) {
        match self {
            Table::Residues(t) => t.resize(length, 0),
            Table::Unsigned(t) => t.resize(length, 0),
            Table::Signed(t) => t.resize(length, 0),
            Table::Wide(t) => t.resize(length, 0),
        }
    }
}

/// An input of a call or of a list of calls.
pub trait Case: Clone {
    /// The call's name.
    const NAME: &'static str;

    /// The numbers that it can answer, each of which must come up.
    const NUMBERS: &'static [u32];

    /// What it can say where nothing is refused, and other things that must
    /// come up.
    const WORDS: &'static [&'static str] = &[];

    /// The slices that are lent to it and have exactly one length. For each,
    /// one number too few and one too many must come up as the only reason
    /// of a refusal by 7.
    const SLICES: &'static [&'static str] = &[];

    /// What must come up of degrees and moduli.
    const OF_SETTINGS: &'static [&'static str] = &[];

    /// Whether each number of rows must come up.
    const OF_ROWS: bool = false;

    /// How often each of these must come up.
    const LEAST: usize = 20;

    /// Draws a valid or a damaged input.
    fn draw(random: &mut Random, limits: &Limits) -> Self;

    /// Gives a slice one number too few or too many.
    fn disturb(&mut self, _random: &mut Random) {}

    /// What the simple reference answers.
    fn plain(&self) -> Outcome;

    /// What the fast reference answers, where it has the call. What it does
    /// not name is not compared.
    fn fast(&self) -> Option<Outcome> {
        None
    }

    /// The number by the refusals that the fast reference uses, where it has
    /// no such call.
    fn admitted(&self) -> Option<u32> {
        None
    }

    /// What the verified library answers.
    fn verified(&self) -> Outcome;

    /// The tables that a simpler case may clear.
    fn tables(&mut self) -> Vec<Table<'_>> {
        Vec::new()
    }

    /// What is counted besides the words of the answer.
    fn remarks(&self, _number: u32) -> Vec<String> {
        Vec::new()
    }

    /// Prints the case.
    fn print(&self, page: &mut Page);
}

/// An input of a single exported call: numbers, and the slices that are lent
/// to it. Both references take elements by value, so whether a slice has its
/// length is decided here, once for each reference: by its own test of the
/// settings and its own lengths. A refused call writes nothing.
pub trait Call: Clone {
    const NAME: &'static str;
    const NUMBERS: &'static [u32];
    const WORDS: &'static [&'static str] = &[];
    const SLICES: &'static [&'static str];
    const OF_SETTINGS: &'static [&'static str] = &[WIDE, LARGEST, SIXTEENS, OTHER];
    const OF_ROWS: bool = true;

    /// Whether the fast reference has the call.
    const FAST: bool = false;

    fn draw(random: &mut Random, limits: &Limits) -> Self;

    /// The settings that the slices' lengths go by; none where they are not
    /// among the inputs.
    fn settings(&self) -> Option<Settings>;

    /// Found and wanted length of each of SLICES; behind them, other pairs
    /// whose difference is refused by 7 too.
    fn pairs(&self, lengths: &Lengths) -> Vec<(usize, usize)>;

    /// The same where it can be said, for the counts.
    fn known_pairs(&self) -> Option<Vec<(usize, usize)>> {
        let s = self.settings()?;
        (refusals::settings(s) == 0).then(|| self.pairs(&refusals::lengths(s)))
    }

    /// The settings of an input that is not refused, for the counts.
    fn used(&self) -> Settings {
        self.settings().unwrap_or_default()
    }

    /// Whether its degree is the largest, refused or not.
    fn largest(&self) -> bool {
        self.settings().is_some_and(|s| s.degree == LARGEST_DEGREE)
    }

    /// A refusal before all others.
    fn at_once(&self) -> u32 {
        0
    }

    /// Runs the call by the simple reference, settings and lengths being
    /// right: the number, and the slices as it leaves them.
    fn by_plain(&mut self) -> u32;

    /// The same by the fast reference, which has the call where FAST says so.
    fn by_fast(&mut self) -> u32 {
        unreachable!("the fast reference has no such call")
    }

    /// The number by the fast reference's refusals, settings and lengths
    /// being right, where it has no such call but its refusals.
    fn by_admission(&self) -> Option<u32> {
        None
    }

    /// Runs the call by the verified library.
    fn by_verified(&mut self) -> u32;

    /// What a refused call leaves: 0 in a number behind a pointer.
    fn refuse(&mut self) {}

    /// All slices, those of SLICES first.
    fn slices(&mut self) -> Vec<Table<'_>>;

    /// What stands in the slices and behind the pointers.
    fn outcome(&self, number: u32) -> Outcome;

    /// What is counted besides words and slices.
    fn other_remarks(&self, _number: u32) -> Vec<String> {
        Vec::new()
    }

    /// The numbers of its input that are no slices.
    fn numbers(&self) -> Vec<u64>;

    /// Prints numbers and slices, or what is easier to read.
    fn show(&self, page: &mut Page) {
        page.header(<Self as Call>::NAME);
        page.numbers(self.numbers());
        for slice in self.clone().slices() {
            match slice {
                Table::Residues(t) => page.table(t),
                Table::Unsigned(t) => page.table(t),
                Table::Signed(t) => page.table(t),
                Table::Wide(t) => page.table(t),
            }
        }
    }
}

/// The simple reference's refusals 3 to 6 and 16, and 7 for the slices.
fn plain_border<C: Call>(case: &C) -> u32 {
    let Some(s) = case.settings() else {
        return 0;
    };
    let number = refusals::settings(s);
    if number != 0 {
        return number;
    }
    let pairs = case.pairs(&refusals::lengths(s));
    if pairs.iter().any(|(found, wanted)| found != wanted) {
        return 7;
    }
    0
}

/// The same by the refusals that the fast reference uses.
fn fast_border<C: Call>(case: &C) -> u32 {
    let Some(s) = case.settings() else {
        return 0;
    };
    let tested = refuse::settings(s).and_then(|shape| refuse::sizes(&case.pairs(&sizes(&shape))));
    tested.err().unwrap_or(0)
}

/// Lengths by the fast reference's shape.
fn sizes(shape: &Shape) -> Lengths {
    Lengths {
        element: shape.d,
        table: shape.table(),
        key: shape.key(),
        commitment: shape.commitment(),
        polynomial: shape.polynomial(),
        rounds: shape.rounds(),
        challenges: shape.l,
        claims: shape.claims(),
        tree_rounds: shape.tree_rounds(),
        tree_challenges: 3 * shape.nodes(),
        leaves: shape.leaves() * shape.d,
    }
}

/// The first number that is a refusal's.
fn first(numbers: impl IntoIterator<Item = u32>) -> u32 {
    numbers.into_iter().find(|&number| number != 0).unwrap_or(0)
}

/// What a call comes to: where it is refused the slices are as they were.
fn settled<C: Call>(before: &C, after: C, number: u32) -> Outcome {
    if number == 0 {
        return after.outcome(0);
    }
    let mut refused = before.clone();
    refused.refuse();
    refused.outcome(number)
}

impl<C: Call> Case for C {
    const NAME: &'static str = <C as Call>::NAME;
    const NUMBERS: &'static [u32] = <C as Call>::NUMBERS;
    const WORDS: &'static [&'static str] = <C as Call>::WORDS;
    const SLICES: &'static [&'static str] = <C as Call>::SLICES;
    const OF_SETTINGS: &'static [&'static str] = <C as Call>::OF_SETTINGS;
    const OF_ROWS: bool = <C as Call>::OF_ROWS;

    fn draw(random: &mut Random, limits: &Limits) -> C {
        <C as Call>::draw(random, limits)
    }

    fn disturb(&mut self, random: &mut Random) {
        let count = <C as Call>::SLICES.len();
        if count == 0 {
            return;
        }
        let slice = &mut self.slices()[random.below(count)];
        let length = slice.len();
        slice.resize(match random.below(8) {
            0 => random.pick(&[0, 1, 64, 128, 142, 256, 384, 512, 526, 528]),
            1..=3 => length.saturating_sub(1),
            _ => length + 1,
        });
    }

    fn plain(&self) -> Outcome {
        let mut t = self.clone();
        let border = first([self.at_once(), plain_border(self)]);
        let number = if border == 0 { t.by_plain() } else { border };
        settled(self, t, number)
    }

    fn fast(&self) -> Option<Outcome> {
        if !C::FAST {
            return None;
        }
        let mut t = self.clone();
        let border = first([self.at_once(), fast_border(self)]);
        let number = if border == 0 { t.by_fast() } else { border };
        Some(settled(self, t, number))
    }

    fn admitted(&self) -> Option<u32> {
        if C::FAST {
            return None;
        }
        match first([self.at_once(), fast_border(self)]) {
            0 => self.by_admission(),
            number => Some(number),
        }
    }

    fn verified(&self) -> Outcome {
        let mut t = self.clone();
        let number = t.by_verified();
        t.outcome(number)
    }

    fn tables(&mut self) -> Vec<Table<'_>> {
        self.slices()
    }

    /// Which slice is one number too short or too long, where that alone is
    /// the reason of a refusal by 7; and what is counted of its settings.
    fn remarks(&self, number: u32) -> Vec<String> {
        let mut remarks = self.other_remarks(number);
        let settings = of_settings(number, self.used(), self.largest());
        let (wanted, rows) = (<C as Call>::OF_SETTINGS, <C as Call>::OF_ROWS);
        remarks.extend(
            settings
                .into_iter()
                .filter(|word| wanted.contains(&&word[..]) || rows && ROWS.contains(&&word[..])),
        );
        let pairs = self.known_pairs().unwrap_or_default();
        let wrong: Vec<usize> = (0..pairs.len())
            .filter(|&i| pairs[i].0 != pairs[i].1)
            .collect();
        if let (7, [place]) = (number, &wrong[..]) {
            let (found, wanted) = pairs[*place];
            if let Some(name) = <C as Call>::SLICES.get(*place) {
                if found + 1 == wanted {
                    remarks.push(format!("{name} short"));
                } else if found == wanted + 1 {
                    remarks.push(format!("{name} long"));
                }
            }
        }
        remarks
    }

    fn print(&self, page: &mut Page) {
        self.show(page);
        let lengths: Vec<usize> = self.clone().slices().iter().map(Table::len).collect();
        page.header("lengths of its slices:");
        page.numbers(lengths);
    }
}

/// What is counted of the settings of an input, `used` being those of one that
/// is not refused.
pub fn of_settings(number: u32, used: Settings, largest: bool) -> Vec<String> {
    let sixteens = used.modulus == ITS_MODULUS && used.degree >= 32 && used.depth >= 4;
    let list = [
        (number == 0 && used.modulus >= 1 << 31, WIDE),
        (number == 0 && largest, LARGEST),
        (number == 0 && sixteens, SIXTEENS),
        (number == 3 && largest, OTHER),
    ];
    let said = list.iter().filter(|(said, _)| *said);
    let mut words: Vec<String> = said.map(|(_, word)| word.to_string()).collect();
    let rows = ROWS.get((used.rows as usize).wrapping_sub(1));
    words.extend(rows.filter(|_| number == 0).map(|word| word.to_string()));
    words
}

/// Two answers to one input that are not the same.
pub struct Difference {
    pub text: String,
}

/// Runs a case; answers what was said and who says the same, or the
/// difference.
pub fn run<C: Case>(case: &C) -> Result<(Outcome, Vec<Author>), Box<(Outcome, Outcome)>> {
    let verified = case.verified();
    let plain = case.plain();
    if !verified.same(&plain) {
        return Err(Box::new((plain, verified)));
    }
    let mut authors = vec![Author::Simple];
    if let Some(fast) = case.fast() {
        if !fast.agrees(&verified) {
            return Err(Box::new((fast, verified)));
        }
        authors.push(Author::Fast);
    }
    if let Some(number) = case.admitted() {
        if number != verified.number {
            return Err(Box::new((Outcome::new(number), verified)));
        }
        authors.push(Author::Refusals);
    }
    let mut outcome = verified;
    let remarks = case.remarks(outcome.number);
    outcome.words.extend(remarks);
    Ok((outcome, authors))
}

/// The same, with the smallest differing case that is found.
pub fn check<C: Case>(case: &C) -> Result<(Outcome, Vec<Author>), Difference> {
    run(case).map_err(|_| {
        let small = clear_tables(redraw_smaller(case));
        describe(&small)
    })
}

/// A differing case of the smallest settings that some draws find, or the
/// given one.
fn redraw_smaller<C: Case>(case: &C) -> C {
    const DRAWS: usize = 2000;
    let mut random = Random::new(1);
    let sizes = [(2, 0), (2, 1), (4, 1), (4, 2), (8, 2), (16, 2), (64, 1)];
    let sizes = sizes.into_iter().chain([(128, 0), (128, 1)]);
    for (rows, (degree, depth)) in sizes.flat_map(|size| [(1, size), (4, size)]) {
        let limits = Limits {
            degree,
            depth,
            rows,
            table: usize::MAX,
            tree: usize::MAX,
            wide: true,
            transform: false,
        };
        for _ in 0..DRAWS {
            let mut small = C::draw(&mut random, &limits);
            if random.one_in(3) {
                small.disturb(&mut random);
            }
            if run(&small).is_err() {
                return small;
            }
        }
    }
    case.clone()
}

/// Puts as many numbers of the tables to 0 as the difference allows.
fn clear_tables<C: Case>(mut case: C) -> C {
    let mut runs = 2000;
    let lengths: Vec<usize> = case.tables().iter().map(Table::len).collect();
    for (number, &length) in lengths.iter().enumerate() {
        let mut step = length;
        while step > 0 {
            for start in (0..length).step_by(step) {
                let mut simpler = case.clone();
                let end = (start + step).min(length);
                let changed = simpler.tables()[number].clear(start..end);
                if runs == 0 {
                    return case;
                }
                if changed {
                    runs -= 1;
                    if run(&simpler).is_err() {
                        case = simpler;
                    }
                }
            }
            step /= 2;
        }
    }
    case
}

fn describe<C: Case>(case: &C) -> Difference {
    let mut page = Page::default();
    case.print(&mut page);
    let mut text = format!("{}: the answers differ\n", C::NAME);
    text.push_str("the case, with what the reference answers:\n");
    text.push_str(&page.text);
    if let Err(both) = run(case) {
        let (wanted, found) = *both;
        text.push_str(&format!("number: {} and {}\n", wanted.number, found.number));
        for (name, a) in &wanted.parts {
            let Some((_, b)) = found.parts.iter().find(|part| part.0 == *name) else {
                continue;
            };
            if let Some(place) = (0..a.len().max(b.len())).find(|&i| a.get(i) != b.get(i)) {
                text.push_str(&format!(
                    "{name}: first differs at {place}: {:?} and {:?}\n",
                    a.get(place),
                    b.get(place)
                ));
            }
        }
        text.push_str("(the reference's first, then the verified library's)\n");
    }
    Difference { text }
}
