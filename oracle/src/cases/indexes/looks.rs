//! Cases of look-ups in one table through its index.

use super::agreed::looked_through;
use super::building::{bad, longest};
use super::houses::{counted, random_known, telling};
use super::known::{in_two_bytes, Known};
use super::wrongs::{random_index, wrongs_once};
use crate::cases::pairs::{over_long_table, Pair};
use crate::cases::tables::{one_of_each_kind, table, Entry};
use crate::cases::variables::wanted_name;
use crate::lines::Case;
use crate::random::Random;
use crate::variables::MARK;

/// Names in every place of the order, long names, wrong indexes, full and bad tables, the longest
/// slices.
pub fn fixed() -> Vec<Case> {
    [
        names_in_order(),
        long_names(),
        wrong_indexes(),
        places_in_values(),
        in_full_tables(),
        in_bad_tables(),
        long(),
    ]
    .into_iter()
    .flatten()
    .collect()
}

/// Each letter in its other case.
pub fn in_other_case(name: &[u8]) -> Vec<u8> {
    let other = |byte: &u8| match byte {
        b'A'..=b'Z' | b'a'..=b'z' => byte ^ 0x20,
        _ => *byte,
    };
    name.iter().map(other).collect()
}

/// The names of all records, of many some; and unknown ones: before the first, behind the last and
/// between, such as begin a record's name and such as a record's name begins.
fn sought(entries: &[Entry]) -> Vec<Vec<u8>> {
    let mut names = vec![
        b"".to_vec(),
        b"!!".to_vec(),
        b"~~~".to_vec(),
        vec![b'n'; 33],
    ];
    let some = entries.iter().step_by(1 + entries.len() / 16);
    for (index, entry) in some.enumerate() {
        let name = in_other_case(&entry.name);
        names.push(match index % 3 {
            0 => name[..name.len() - 1].to_vec(),
            1 => [&name[..], b"!"].concat(),
            _ => [&name[..], b"~"].concat(),
        });
        names.push(name);
    }
    names
}

fn names_in_order() -> Vec<Case> {
    let mut cases = Vec::new();
    for entries in telling() {
        let house = Known::good(&entries);
        for name in sought(&entries) {
            cases.push(looked_through(&house.right, &house, &name));
        }
    }
    cases
}

/// Names around the longest, and such as have the length of a record's in one byte.
fn long_names() -> Vec<Case> {
    let names = [32, 1, 31].map(|length| "n".repeat(length));
    let entries = names.map(|name| Entry::string(&name, name.as_bytes()));
    let house = Known::good(&entries);
    [2, 30, 31, 32, 33, 64, 255, 256, 257, 287, 288]
        .map(|length| looked_through(&house.right, &house, &vec![b'N'; length]))
        .into()
}

/// Every wrong index of tables with none, one and more records, with known names and unknown ones.
fn wrong_indexes() -> Vec<Case> {
    let mut houses = telling();
    houses.push(counted(38));
    houses.retain(|entries| matches!(entries.len(), 0..=3 | 9 | 38));
    let mut cases = Vec::new();
    for entries in houses {
        let house = Known::good(&entries);
        for (turn, index) in wrongs_once(&house).iter().enumerate() {
            let name = match entries.get(turn % 5) {
                Some(entry) => entry.name.clone(),
                None => b"q".to_vec(),
            };
            cases.push(looked_through(index, &house, &name));
        }
    }
    cases
}

/// Values that hold whole records, and indexes with a place in one of them.
fn places_in_values() -> Vec<Case> {
    let inner = table(&[Entry::string("b", b""), Entry::string("D", b"x")]);
    let house = Known::good(&[
        Entry::string("e", &inner),
        Entry::macro_of("A", &inner),
        Entry::string("c", b"VR"),
    ]);
    let marks = house.bytes.windows(2).enumerate();
    let places = marks.filter(|(_, bytes)| *bytes == MARK);
    let mut cases = Vec::new();
    for (place, _) in places {
        for (rank, name) in ["a", "b", "d"].iter().enumerate() {
            let mut index = house.right.clone();
            index[2 * rank..][..2].copy_from_slice(&in_two_bytes(place));
            cases.push(looked_through(&index, &house, name.as_bytes()));
        }
    }
    cases
}

/// Around 256 records: each step of a search, and the 257th with an index for all or for 256.
fn in_full_tables() -> Vec<Case> {
    let mut cases = Vec::new();
    for count in [255, 256] {
        let entries = counted(count);
        let house = Known::good(&entries);
        for name in ["a0", "aa", "A!", "hd", "d9", "~"] {
            cases.push(looked_through(&house.right, &house, name.as_bytes()));
        }
        for index in [0, count / 2, count - 1] {
            let name = in_other_case(&entries[index].name);
            cases.push(looked_through(&house.right, &house, &name));
        }
        cases.push(looked_through(&house.right[2..], &house, b"aa"));
    }
    let over = counted(257);
    let house = Known::of(&table(&over));
    for index in [Known::good(&over).right, Known::good(&over[..256]).right] {
        cases.push(looked_through(&index, &house, &over[0].name));
    }
    cases
}

/// A bad table comes before an index that cannot fit it, and before every name.
fn in_bad_tables() -> Vec<Case> {
    let mut cases = Vec::new();
    for house in bad() {
        for index in [&[][..], &[0, 0], &[9, 0, 0, 0]] {
            cases.push(looked_through(index, &house, b"a"));
        }
        cases.push(looked_through(&[0], &house, b"q"));
    }
    cases
}

/// An index over 65,535 bytes is no longer a text or a table than another wrong one. Few cases, for
/// each is a long line.
fn long() -> Vec<Case> {
    let (longest, small) = (longest(), Known::good(&one_of_each_kind()));
    let with_filler = |length: usize| {
        let mut index = small.right.clone();
        index.resize(length, 0);
        index
    };
    vec![
        looked_through(&longest.right, &longest, b"AA"),
        looked_through(&[], &Known::over_long(over_long_table()), b"aa"),
        looked_through(&with_filler(65_536), &small, b"n"),
        // Its length would be the right one in two bytes.
        looked_through(&with_filler(65_536 + 6), &small, b"q"),
        // So would this name's, which is a record's then.
        looked_through(&small.right, &small, &[b'n'; 65_536 + 1]),
    ]
}

pub fn random(random: &mut Random) -> Case {
    let house = random_known(random);
    let index = random_index(random, &house);
    // Whichever table the name is taken from, it is this one.
    let both = Pair::of(house.entries(), house.entries());
    let name = wanted_name(random, &both);
    looked_through(&index, &house, &name)
}
