//! Slices between guards, and what is wanted of them after a call.

use wovenrock::Session;

/// How a call uses a slice.
#[derive(Clone, Copy, PartialEq, Eq)]
pub enum Use {
    /// Exactly its length, never written.
    Read,
    /// Exactly its length, written where nothing is refused.
    Written,
    /// The record of a start, which is a closed one of zeros where the start
    /// is refused.
    Started,
    /// Any length, never written.
    Text,
    /// At least the length of a text, written where nothing is refused.
    Out,
    /// One number behind a pointer, 0 where the call is refused.
    Single,
}

/// What a slice that is to be written holds before.
pub const BEFORE: u32 = 99;

/// A slice to be lent.
#[derive(Clone)]
pub struct Table {
    pub name: &'static str,
    pub used: Use,
    pub values: Vec<i64>,
    /// Bytes of a number.
    width: usize,
}

impl Table {
    fn of<T: Copy + Into<i64>>(name: &'static str, used: Use, width: usize, t: &[T]) -> Table {
        Table {
            name,
            used,
            values: t.iter().map(|&x| x.into()).collect(),
            width,
        }
    }

    /// Residues, which are below 2^63.
    pub fn u64(name: &'static str, used: Use, values: &[u64]) -> Table {
        let values: Vec<i64> = values.iter().map(|&x| x as i64).collect();
        Table::of(name, used, 8, &values)
    }

    pub fn u32(name: &'static str, used: Use, values: &[u32]) -> Table {
        Table::of(name, used, 4, values)
    }

    pub fn i32(name: &'static str, used: Use, values: &[i32]) -> Table {
        Table::of(name, used, 4, values)
    }

    pub fn i64(name: &'static str, used: Use, values: &[i64]) -> Table {
        Table::of(name, used, 8, values)
    }

    pub fn bytes(name: &'static str, used: Use, values: &[u8]) -> Table {
        Table::of(name, used, 1, values)
    }

    /// A slice of residues that is written.
    pub fn blank(name: &'static str, count: usize) -> Table {
        Table::u64(name, Use::Written, &vec![BEFORE.into(); count])
    }

    /// A single number of so many bytes.
    pub fn single(name: &'static str, width: usize) -> Table {
        Table::of(name, Use::Single, width, &[BEFORE])
    }

    /// The same slice, used in another way.
    pub fn used(self, used: Use) -> Table {
        Table { used, ..self }
    }

    pub fn text(&self) -> String {
        self.values.iter().map(|&x| x as u8 as char).collect()
    }

    pub fn set_text(&mut self, text: &str) {
        self.values = text.bytes().map(i64::from).collect();
    }
}

/// What a call is given.
#[derive(Clone)]
pub struct Input {
    pub settings: (u32, u32, u64, u32, u32),
    pub done: u32,
    pub exponent: u32,
    pub slack: u32,
    pub parts: u32,
    pub tables: Vec<Table>,
}

const GUARD: usize = 16;

/// A slice between two guards. Its backing is aligned for every width.
pub struct Room {
    backing: Vec<u64>,
    width: usize,
    count: usize,
}

impl Room {
    fn new(width: usize, values: &[i64]) -> Room {
        let bytes = |x: &i64| x.to_le_bytes().into_iter().take(width);
        let guard = vec![0xA5; GUARD * width];
        let middle: Vec<u8> = values.iter().flat_map(bytes).collect();
        let mut all = [guard.clone(), middle, guard].concat();
        all.resize(all.len().next_multiple_of(8), 0xA5);
        let word = |w: &[u8]| u64::from_le_bytes(w.try_into().expect("eight bytes"));
        Room {
            backing: all.chunks(8).map(word).collect(),
            width,
            count: values.len(),
        }
    }

    /// Where the slice begins.
    pub fn at<T>(&mut self) -> *mut T {
        let bytes: *mut u8 = self.backing.as_mut_ptr().cast();
        // The guard in front is a part of the backing.
        unsafe { bytes.add(GUARD * self.width).cast() }
    }

    pub fn len(&self) -> usize {
        self.count
    }

    /// All bytes, guards included.
    fn bytes(&self) -> Vec<u8> {
        self.backing.iter().flat_map(|w| w.to_le_bytes()).collect()
    }

    /// The bytes of the slice, in those of the room.
    fn middle(&self, count: usize) -> std::ops::Range<usize> {
        GUARD * self.width..(GUARD + count) * self.width
    }
}

/// What a refused call leaves of a slice.
fn left(table: &Table) -> Vec<i64> {
    let mut values = table.values.clone();
    match table.used {
        Use::Single => values = vec![0],
        Use::Started if values.len() == Session::RECORD => {
            values.fill(0);
            values[6] = 1;
        }
        _ => {}
    }
    values
}

/// A number of text bytes, where a call answers one.
fn answered(rooms: &[Room], tables: &[Table]) -> usize {
    let single = tables.iter().position(|t| t.used == Use::Single);
    let bytes = single.map(|i| rooms[i].bytes()[rooms[i].middle(1)].to_vec());
    bytes.map_or(0, |b| usize::from(b[0]) + 256 * usize::from(b[1]))
}

/// Makes a call and looks at all that it was lent: at every byte where it is
/// refused, and otherwise at the guards, at what is only read, and at the bytes
/// behind a text. Gives the number that it answers.
pub fn call(
    name: &str,
    call: fn(&Input, &mut [Room]) -> u32,
    input: &Input,
    wanted: u32,
    what: &str,
) -> u32 {
    let settings = input.settings;
    let room = |t: &Table| Room::new(t.width, &t.values);
    let mut rooms: Vec<Room> = input.tables.iter().map(room).collect();
    let number = call(input, &mut rooms);
    assert_eq!(number, wanted, "{name} {settings:?}, {what}");
    let count = answered(&rooms, &input.tables);
    for (table, room) in input.tables.iter().zip(&rooms) {
        let after = room.bytes();
        let mut wanted = if number == 0 {
            Room::new(table.width, &table.values).bytes()
        } else {
            Room::new(table.width, &left(table)).bytes()
        };
        if number == 0 {
            let written = match table.used {
                Use::Read | Use::Text => 0,
                Use::Out => count,
                _ => room.count,
            };
            wanted[room.middle(written)].copy_from_slice(&after[room.middle(written)]);
        }
        assert!(
            after == wanted,
            "{name} {settings:?}, {what}: {}",
            table.name
        );
    }
    number
}
