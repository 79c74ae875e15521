//! Tables whose records are known, and by a second route the index that has to come of each.

use crate::cases::tables::{table, Entry};
use crate::variables::{Kind, Table, HEADER, LONGEST_NAME};

/// A table with what is known of it.
#[derive(Clone)]
pub struct Known {
    pub bytes: Vec<u8>,
    /// The index that has to come; a table that is not good has none.
    pub right: Vec<u8>,
    /// The records, or the number and the place of the refusal.
    pub judged: Result<Vec<Entry>, (u8, usize)>,
}

impl Known {
    pub fn good(entries: &[Entry]) -> Self {
        Known {
            bytes: table(entries),
            right: right_index(entries),
            judged: Ok(entries.to_vec()),
        }
    }

    pub fn over_long(bytes: Vec<u8>) -> Self {
        Known::refused(bytes, 18, 0)
    }

    pub fn bad(bytes: Vec<u8>, place: usize) -> Self {
        Known::refused(bytes, 13, place)
    }

    fn refused(bytes: Vec<u8>, number: u8, place: usize) -> Self {
        Known {
            bytes,
            right: Vec::new(),
            judged: Err((number, place)),
        }
    }

    /// A table of which only the bytes are at hand: whether it is good is for its own check to say.
    pub fn of(bytes: &[u8]) -> Self {
        match Table::read(bytes) {
            Ok(_) => Known::good(&entries_of(bytes)),
            Err(refused) => Known::refused(bytes.to_vec(), refused.refusal.number(), refused.place),
        }
    }

    /// The records of a good table; of another one, none.
    pub fn entries(&self) -> &[Entry] {
        self.judged.as_deref().unwrap_or_default()
    }

    /// The record of a name, with its place.
    pub fn record_of(&self, name: &[u8]) -> Option<(usize, &Entry)> {
        let entries = self.entries();
        let is_it = |entry: &&Entry| {
            entry.name.len() == name.len() && number_of(&entry.name) == number_of(name)
        };
        let mut with_places = places(entries).into_iter().zip(entries);
        with_places.find(|(_, entry)| is_it(entry))
    }
}

/// The records of a good table, from one to the next by their lengths.
fn entries_of(mut bytes: &[u8]) -> Vec<Entry> {
    let mut entries = Vec::new();
    while let [_, _, kind, name_length, value_length, behind @ ..] = bytes {
        let (name, behind) = behind.split_at((*name_length).into());
        let (value, behind) = behind.split_at((*value_length).into());
        let kinds = [Kind::String, Kind::Integer, Kind::Macro];
        entries.push(Entry {
            kind: kinds[usize::from(*kind)],
            name: name.to_vec(),
            value: value.to_vec(),
        });
        bytes = behind;
    }
    entries
}

/// The place of each record.
pub fn places(entries: &[Entry]) -> Vec<usize> {
    let length = |entry: &Entry| HEADER + entry.name.len() + entry.value.len();
    let up_to = |index| entries[..index].iter().map(length).sum();
    (0..entries.len()).map(up_to).collect()
}

/// A place as it stands in an index.
pub fn in_two_bytes(place: usize) -> [u8; 2] {
    [(place % 256) as u8, (place / 256) as u8]
}

/// The index of some records: each stands behind so many others as have smaller names.
pub fn right_index(entries: &[Entry]) -> Vec<u8> {
    let numbers: Vec<[u128; 2]> = entries.iter().map(|entry| number_of(&entry.name)).collect();
    let mut index = vec![[0; 2]; entries.len()];
    for (place, number) in places(entries).into_iter().zip(&numbers) {
        let smaller = numbers.iter().filter(|other| *other < number).count();
        index[smaller] = in_two_bytes(place);
    }
    index.concat()
}

/// A name as a number: its bytes are the first of 32 digits in base 256, the others are zero. Names
/// are in the order of their numbers.
fn number_of(name: &[u8]) -> [u128; 2] {
    let mut digits = [0; LONGEST_NAME];
    for (digit, &byte) in digits.iter_mut().zip(name) {
        let shift = if matches!(byte, 65..=90) { 32 } else { 0 };
        *digit = byte + shift;
    }
    let half = |digits: &[u8]| {
        let longer = |number, &digit: &u8| number * 256 + u128::from(digit);
        digits.iter().fold(0, longer)
    };
    [half(&digits[..16]), half(&digits[16..])]
}

#[cfg(test)]
mod tests {
    use super::*;
    use crate::cases::tables::{numbered, one_of_each_kind};

    #[test]
    fn numbers_are_in_the_order_of_names() {
        let longest = "N".repeat(31);
        let [small, great] = ["a", "B"].map(|last| format!("{longest}{last}"));
        let names = [
            "", "!", "9", "@", "[", "^", "_", "_a", "`", "a", "A!", "AA", "ab", "ABC", "b", "Z",
            "z~", "{", "~",
        ];
        for pair in names.windows(2) {
            let [one, other] = [pair[0], pair[1]].map(|name| number_of(name.as_bytes()));
            assert!(one < other, "{pair:?}");
        }
        let [longest, small, great] =
            [longest, small, great].map(|name| number_of(name.as_bytes()));
        assert!(longest < small && small < great);
        assert_eq!(number_of(b"aZ_@"), number_of(b"Az_@"));
        assert_ne!(number_of(b"["), number_of(b"{"));
    }

    #[test]
    fn a_small_table_has_the_index_that_was_worked_out_by_hand() {
        let known = Known::good(&one_of_each_kind());
        assert_eq!(places(known.entries()), [0, 10, 20]);
        assert_eq!(known.right, [0, 0, 20, 0, 10, 0]);
        let (place, entry) = known.record_of(b"M$1").expect("a known name");
        assert_eq!((place, entry.kind), (20, Kind::Macro));
        assert!(known.record_of(b"m$").is_none());
        assert!(known.record_of(b"m$1\0").is_none());
        assert!(known.record_of(&[b'a'; 33]).is_none());
    }

    #[test]
    fn records_are_read_back_as_they_were_written() {
        for entries in [one_of_each_kind(), numbered(256), Vec::new()] {
            let (made, read) = (Known::good(&entries), Known::of(&table(&entries)));
            assert_eq!(read.bytes, made.bytes);
            assert_eq!(read.right, made.right);
            assert_eq!(read.entries().len(), entries.len());
        }
        let bad = Known::of(&table(&numbered(257)));
        assert_eq!(bad.judged.as_ref().err(), Some(&(13, 256 * 7)));
        assert!(bad.right.is_empty() && bad.entries().is_empty());
    }
}
