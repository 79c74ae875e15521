//! House tables whose names tell two orders apart, and random ones.

use super::known::Known;
use crate::cases::forms::in_mixed_case;
use crate::cases::tables::{damaged, entries_by, numbered, random_entries, table, Entry};
use crate::random::Random;
use crate::variables::{is_name_byte, LONGEST_NAME};

/// Names in an order that is not theirs: letters between their neighbours, beginnings behind what
/// they begin, short ones among long ones.
const ROWS: [&[&str]; 14] = [
    &[],
    &["a"],
    &["_", "A"],
    &["b", "a"],
    &["Z", "_", "a"],
    &["a", "[", "^", "Z", "@", "`", "{"],
    &["aZ", "a_", "aa", "A", "a[", "AB"],
    &["abc", "AB", "a", "abcd", "b", "aBD"],
    &["a~", "a!", "A", "a_b", "a_", "Aa"],
    &["b", "aaa", "Ab", "aaaa", "B!", "c"],
    &["z9", "Z10", "z1", "9", "10", "1"],
    &["Sys$Year", "sys$", "SYS_", "Sys@Time", "SYS", "sysA"],
    &["~", "!", "A!", "!a", "~Z", "#"],
    &["m", "M_1", "m1", "m$", "mm", "M.", "m`", "m{", "M["],
];

/// Alphabets for random names, so small that beginnings and neighbours meet.
const ALPHABETS: [&[u8]; 7] = [
    b"aAbB", b"Zz_aA[", b"@[\\]^_`{|}~", b"019aZ_", b"nN", b"!#;=?~azAZ_", b"aB$_.",
];

/// The rows as tables, each as it stands and from its end.
pub fn telling() -> Vec<Vec<Entry>> {
    let mut houses = Vec::new();
    for row in ROWS {
        let house = records(row);
        let mut from_end = house.clone();
        from_end.reverse();
        houses.push(house);
        if row.len() > 1 {
            houses.push(from_end);
        }
    }
    houses.extend([every_byte(), beginnings(), long_names()]);
    houses
}

/// Records of all three kinds with values of many lengths, so that places tell them apart.
fn records(names: &[&str]) -> Vec<Entry> {
    let record = |(index, name): (usize, &&str)| match index % 3 {
        0 => Entry::string(name, &b"value of many bytes"[..index * 5 % 19]),
        1 => Entry::integer(name, index as u32),
        _ => Entry::macro_of(name, b"<a>"),
    };
    names.iter().enumerate().map(record).collect()
}

/// All that a name of one byte can be, letters in either case, far apart from their neighbours.
fn every_byte() -> Vec<Entry> {
    let bytes = (33..=126).filter(|&byte| is_name_byte(byte) && !byte.is_ascii_lowercase());
    let in_either_case = |byte: u8| match byte {
        b'A'..=b'Z' if byte.is_multiple_of(2) => byte.to_ascii_lowercase(),
        _ => byte,
    };
    let name = |byte| String::from(char::from(in_either_case(byte)));
    let names: Vec<String> = bytes.map(name).collect();
    let names: Vec<&str> = names.iter().map(String::as_str).collect();
    mixed(&records(&names), 24)
}

/// A name of 32 bytes and all its beginnings.
fn beginnings() -> Vec<Entry> {
    let longest = "aB_cD$eF.gH1iJ2kL3mN4oP5qR6sT7uV8w"[..LONGEST_NAME].to_owned();
    let names: Vec<&str> = (1..=LONGEST_NAME)
        .map(|length| &longest[..length])
        .collect();
    mixed(&records(&names), 13)
}

/// Names of 31 and 32 bytes that differ at their ends, or at their starts.
fn long_names() -> Vec<Entry> {
    let common = "n".repeat(30);
    let ends = ["nZ", "n_", "n", "na", "N{"].map(|end| format!("{common}{end}"));
    let starts = ["_", "Z", "a"].map(|start| format!("{start}{common}"));
    let names: Vec<&str> = ends.iter().chain(&starts).map(String::as_str).collect();
    records(&names)
}

/// So many records of short names in an order that is not theirs.
pub fn counted(count: usize) -> Vec<Entry> {
    mixed(&numbered(count), 101)
}

/// The records in steps of so many, which has to have no divisor in common with their number.
fn mixed(entries: &[Entry], step: usize) -> Vec<Entry> {
    let at = |index: usize| entries[index * step % entries.len()].clone();
    (0..entries.len()).map(at).collect()
}

/// A good table mostly, seldom a full one, at times a damaged one.
pub fn random_known(random: &mut Random) -> Known {
    let entries = random_house(random);
    match random.below(60) {
        0 => {
            let count = random.pick(&[254, 255, 256, 257]);
            Known::of(&table(&counted(count)))
        }
        1..=10 => Known::of(&damaged(random, &entries)),
        _ => Known::good(&entries),
    }
}

/// Up to twenty records of names that are near each other, or of telling names.
pub fn random_house(random: &mut Random) -> Vec<Entry> {
    if random.one_in(3) {
        return random_entries(random, 8);
    }
    let alphabet = random.pick(&ALPHABETS);
    let count = random.pick(&[0, 1, 2, 2, 3, 4, 5, 7, 10, 14, 20]);
    entries_by(random, count, |random| name_of(random, alphabet))
}

/// A name of few bytes, seldom of as many as there can be.
fn name_of(random: &mut Random, alphabet: &[u8]) -> Vec<u8> {
    let length = random.pick(&[1, 1, 2, 2, 2, 3, 3, 4, 5]);
    let mut name: Vec<u8> = (0..length).map(|_| random.pick(alphabet)).collect();
    if random.one_in(12) {
        let longer = vec![alphabet[0]; random.pick(&[30, 31, LONGEST_NAME]) - length];
        name.splice(0..0, longer);
    }
    in_mixed_case(random, &name)
}

#[cfg(test)]
mod tests {
    use super::*;
    use crate::variables::Table;

    fn count(entries: &[Entry]) -> Option<usize> {
        let bytes = table(entries);
        Table::read(&bytes).ok().map(|table| table.count())
    }

    #[test]
    fn all_tables_are_good() {
        for entries in telling() {
            assert_eq!(count(&entries), Some(entries.len()));
        }
        for so_many in [1, 2, 127, 128, 255, 256] {
            assert_eq!(count(&counted(so_many)), Some(so_many));
        }
        let mut random = Random::new(4);
        for _ in 0..1_000 {
            let entries = random_house(&mut random);
            assert_eq!(count(&entries), Some(entries.len()));
        }
    }
}
