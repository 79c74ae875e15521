//! Tables to build cases from: good ones, exactly long ones, and damage of every kind.

use super::forms::in_mixed_case;
use super::values::value;
use crate::random::Random;
use crate::variables::{is_name_byte, Kind, HEADER, LONGEST_NAME, MARK};

/// Bytes at the edges of what a name may hold, all of them forbidden in it.
pub const FORBIDDEN: [u8; 12] = [0, 9, 10, 13, 31, 32, 34, 60, 62, 127, 128, 255];

/// Names that differ in little, and names that look like numbers or operators.
const NAMES: [&str; 26] = [
    "a", "b", "ab", "AC", "n", "m", "s$", "x_1", "Sys$Year", "mod", "NOT1", "AND3", "12x", "123",
    "2_", "37_1", "&", "&G", "4294967296_1", "99999999999x", "a|", "|!", "@", "`", "[z", "{z",
];

/// A record to be written, good by itself as long as its name and value are.
#[derive(Clone)]
pub struct Entry {
    pub kind: Kind,
    pub name: Vec<u8>,
    pub value: Vec<u8>,
}

impl Entry {
    pub fn string(name: &str, value: &[u8]) -> Self {
        Entry {
            kind: Kind::String,
            name: name.into(),
            value: value.into(),
        }
    }

    pub fn integer(name: &str, value: u32) -> Self {
        Entry {
            kind: Kind::Integer,
            name: name.into(),
            value: value.to_le_bytes().into(),
        }
    }

    pub fn macro_of(name: &str, value: &[u8]) -> Self {
        Entry {
            kind: Kind::Macro,
            name: name.into(),
            value: value.into(),
        }
    }

    fn length(&self) -> usize {
        HEADER + self.name.len() + self.value.len()
    }

    /// The record's bytes; a length too big for its byte is cut, which makes the record a bad one.
    fn bytes(&self) -> Vec<u8> {
        let lengths = [self.name.len() as u8, self.value.len() as u8];
        [
            &MARK[..],
            &[self.kind as u8],
            &lengths,
            &self.name,
            &self.value,
        ]
        .concat()
    }
}

/// The table of some records.
pub fn table(entries: &[Entry]) -> Vec<u8> {
    entries.iter().flat_map(Entry::bytes).collect()
}

/// A small table with a record of each kind.
pub fn one_of_each_kind() -> Vec<Entry> {
    vec![
        Entry::string("aB", b"xyz"),
        Entry::integer("n", 0x8000_0000),
        Entry::macro_of("m$1", b"<n>"),
    ]
}

/// A name of two bytes, another one for each index up to 935.
fn short_name(index: usize) -> String {
    const SECOND: &[u8; 36] = b"ABCDEFGHIJKLMNOPQRSTUVWXYZ0123456789";
    let first = char::from(b"abcdefghijklmnopqrstuvwxyz"[index / SECOND.len()]);
    let second = char::from(SECOND[index % SECOND.len()]);
    format!("{first}{second}")
}

/// So many records without values.
pub fn numbered(count: usize) -> Vec<Entry> {
    numbered_from(0, count)
}

/// So many records without values, their names from one index on.
pub fn numbered_from(first: usize, count: usize) -> Vec<Entry> {
    (first..first + count)
        .map(|index| Entry::string(&short_name(index), b""))
        .collect()
}

/// Good records of so many bytes in all, a few tens of thousands.
pub fn of_length(length: usize) -> Vec<Entry> {
    let mut entries = numbered(length.div_ceil(HEADER + 2 + 255));
    let mut left = length - table(&entries).len();
    for entry in &mut entries {
        entry.value = vec![b'.'; left.min(255)];
        left -= entry.value.len();
    }
    entries
}

/// Up to so many good records with different names.
pub fn random_entries(random: &mut Random, most: usize) -> Vec<Entry> {
    let count = random.below(most + 1);
    entries_by(random, count, random_name)
}

/// So many good records, fewer where the names that are made are not all different.
pub fn entries_by(
    random: &mut Random,
    count: usize,
    make_name: impl Fn(&mut Random) -> Vec<u8>,
) -> Vec<Entry> {
    let mut entries: Vec<Entry> = Vec::new();
    for _ in 0..count {
        let name = make_name(random);
        if !entries
            .iter()
            .any(|other| other.name.eq_ignore_ascii_case(&name))
        {
            let kind = random.pick(&[Kind::String, Kind::Integer, Kind::Macro]);
            let value = random_value(random, kind);
            entries.push(Entry { kind, name, value });
        }
    }
    entries
}

/// A name from the list in any case, or any name at all.
pub fn random_name(random: &mut Random) -> Vec<u8> {
    if random.below(4) > 0 {
        let name = random.pick(&NAMES);
        return in_mixed_case(random, name.as_bytes());
    }
    let length = random.pick(&[1, 2, 3, 4, 8, 31, LONGEST_NAME, LONGEST_NAME]);
    (0..length).map(|_| name_byte(random)).collect()
}

fn name_byte(random: &mut Random) -> u8 {
    let byte = random.between(33, 126) as u8;
    if is_name_byte(byte) {
        byte
    } else {
        byte + 1
    }
}

fn random_value(random: &mut Random, kind: Kind) -> Vec<u8> {
    if kind == Kind::Integer {
        return value(random).to_le_bytes().into();
    }
    let length = random.pick(&[0, 0, 1, 1, 2, 3, 4, 5, 7, 10]);
    let mut value: Vec<u8> = (0..length).map(|_| random.byte()).collect();
    if random.one_in(40) {
        value = vec![b'v'; random.pick(&[254, 255])];
    }
    value
}

/// The table of some records with one piece of damage; now and then it stays good.
pub fn damaged(random: &mut Random, entries: &[Entry]) -> Vec<u8> {
    let mut bytes = table(entries);
    match random.below(10) {
        0..=2 if !entries.is_empty() => spoil_field(random, entries, &mut bytes),
        3 if !entries.is_empty() => return with_twin(random, entries),
        9 if !entries.is_empty() => return misshapen(random, entries),
        4 => bytes.truncate(random.below(bytes.len() + 1)),
        5 => bytes.extend(&b"VR\0\x01"[..random.between(1, 4)]),
        6 => bytes.extend((0..random.between(1, 8)).map(|_| random.byte())),
        7 if !bytes.is_empty() => {
            bytes.remove(random.below(bytes.len()));
        }
        _ => {
            let place = random.below(bytes.len() + 1);
            bytes.insert(place, random.pick(&[0, 1, 2, 3, b'V', b'R', b'a', 255]));
        }
    }
    bytes
}

/// Spoils one of the six fields before the value of one record.
fn spoil_field(random: &mut Random, entries: &[Entry], bytes: &mut [u8]) {
    let index = random.below(entries.len());
    let place: usize = entries[..index].iter().map(Entry::length).sum();
    let field = random.below(FIELD_FAULTS.len());
    let within = match field {
        NAME_FIELD => HEADER + random.below(entries[index].name.len()),
        _ => field,
    };
    bytes[place + within] = match random.below(4) {
        0 => bytes[place + within].wrapping_add(1),
        1 => bytes[place + within].wrapping_sub(1),
        _ => random.pick(FIELD_FAULTS[field]),
    };
}

/// For each byte of a record up to the first of its name, values that are or may be wrong there.
pub const FIELD_FAULTS: [&[u8]; 6] = [
    &[0, 82, 85, 87, 118, 255],
    &[0, 81, 83, 86, 114, 255],
    &[0, 1, 2, 3, 4, 255],
    &[0, 1, 2, 32, 33, 255],
    &[0, 3, 4, 5, 255],
    &FORBIDDEN,
];
const NAME_FIELD: usize = 5;

/// The table with a name or an integer of the wrong length, which its record states truly.
fn misshapen(random: &mut Random, entries: &[Entry]) -> Vec<u8> {
    let mut entries = entries.to_vec();
    let index = random.below(entries.len());
    let entry = &mut entries[index];
    if entry.kind == Kind::Integer && random.one_in(2) {
        entry.value.resize(random.pick(&[0, 3, 5, 255]), 0);
    } else {
        entry.name.resize(random.pick(&[0, 33, 34, 255]), b'n');
    }
    table(&entries)
}

/// Another record whose name equals that of a given one.
pub fn twin_of(random: &mut Random, entry: &Entry) -> Entry {
    let name = in_mixed_case(random, &entry.name);
    let kind = random.pick(&[Kind::String, Kind::Integer, Kind::Macro]);
    let value = random_value(random, kind);
    Entry { kind, name, value }
}

/// The table with one more record somewhere, whose name equals one that is there.
fn with_twin(random: &mut Random, entries: &[Entry]) -> Vec<u8> {
    let known = random.below(entries.len());
    let twin = twin_of(random, &entries[known]);
    let mut entries = entries.to_vec();
    entries.insert(random.below(entries.len() + 1), twin);
    table(&entries)
}

#[cfg(test)]
mod tests {
    use super::*;
    use crate::variables::Table;

    #[test]
    fn the_long_tables_are_good_and_exactly_long() {
        for length in [65_534, 65_535, 65_536] {
            assert_eq!(table(&of_length(length)).len(), length);
        }
        assert!(Table::read(&table(&of_length(65_535))).is_ok());
        assert!(Table::read(&table(&numbered(256))).is_ok());
    }

    #[test]
    fn random_records_make_good_tables() {
        let mut random = Random::new(3);
        for _ in 0..1_000 {
            let entries = random_entries(&mut random, 8);
            assert!(Table::read(&table(&entries)).is_ok());
        }
    }
}
