//! Cases of building an index, in rooms around its need.

use super::agreed::built;
use super::houses::{counted, random_known, telling};
use super::known::{places, Known};
use crate::cases::limits::room;
use crate::cases::pairs::{bad_table, over_long_table};
use crate::cases::tables::{of_length, one_of_each_kind, table, Entry};
use crate::lines::Case;
use crate::random::Random;

/// The telling tables, the counts of records, the bad tables, the longest ones.
pub fn fixed() -> Vec<Case> {
    let mut cases = Vec::new();
    for entries in telling() {
        cases.extend(in_rooms(&Known::good(&entries)));
    }
    cases.extend(around_the_last_record());
    cases.extend(cut_tables());
    cases.extend(bad_tables());
    cases.extend(long());
    cases
}

/// A table with no room, with the least room, with a byte less, a byte more, and with so much that
/// it is a byte less in one byte.
fn in_rooms(table: &Known) -> Vec<Case> {
    let need = table.right.len();
    let mut rooms = vec![0, 1, need.saturating_sub(1), need, need + 1, need + 255];
    rooms.sort();
    rooms.dedup();
    rooms.into_iter().map(|room| built(table, room)).collect()
}

/// Numbers of records whose need takes one byte or two, up to 256; then one and two too many.
fn around_the_last_record() -> Vec<Case> {
    let mut cases = Vec::new();
    for count in [126, 127, 128, 129, 254, 255, 256] {
        let table = Known::good(&counted(count));
        for room in [count, 2 * count - 1, 2 * count, 2 * count + 1] {
            cases.push(built(&table, room));
        }
    }
    for count in [257, 258] {
        let entries = counted(count);
        let table = Known::bad(table(&entries), places(&entries)[256]);
        for room in [0, 512, 2 * count, 600] {
            cases.push(built(&table, room));
        }
    }
    cases
}

/// A small table cut at each byte; a cut between two records leaves a good one.
fn cut_tables() -> Vec<Case> {
    let entries = one_of_each_kind();
    let (whole, starts) = (table(&entries), places(&entries));
    let mut cases = Vec::new();
    for length in 0..whole.len() {
        let begun = starts.iter().filter(|&&start| start < length).count();
        let cut = match starts.iter().position(|&start| start == length) {
            Some(count) => Known::good(&entries[..count]),
            None => Known::bad(whole[..length].to_vec(), starts[begun - 1]),
        };
        cases.push(built(&cut, 0));
        cases.push(built(&cut, 6));
    }
    cases
}

/// Tables that are bad at a known place, under rooms that are too small and large enough.
pub fn bad() -> Vec<Known> {
    let names = |names: &[&str]| -> Vec<Entry> {
        let entry = |name: &&str| Entry::string(name, b"xyz");
        names.iter().map(entry).collect()
    };
    let twins = names(&["b", "a", "B", "A"]);
    let long_name = names(&["b", &"n".repeat(33), "a"]);
    let no_name = names(&["b", "", "a"]);
    let spaced = names(&["b", "a", "c d"]);
    vec![
        Known::bad(bad_table(), 10),
        Known::bad(b"V".to_vec(), 0),
        Known::bad([table(&names(&["b", "a"])), b"V".to_vec()].concat(), 18),
        Known::bad(table(&twins), 18),
        Known::bad(table(&long_name), 9),
        Known::bad(table(&no_name), 9),
        Known::bad(table(&spaced), 18),
    ]
}

fn bad_tables() -> Vec<Case> {
    let mut cases = Vec::new();
    for table in bad() {
        for room in [0, 1, 4, 9] {
            cases.push(built(&table, room));
        }
    }
    cases
}

/// A table of 65,535 bytes, whose places take all of two bytes.
pub fn longest() -> Known {
    let mut entries = of_length(65_535);
    entries.reverse();
    Known::good(&entries)
}

/// Tables around 65,535 bytes; few, for each is a long line.
fn long() -> Vec<Case> {
    let longest = longest();
    let mut bad_at_last = longest.bytes.clone();
    let last = *places(longest.entries()).last().expect("a record");
    bad_at_last[last] = b'W';
    vec![
        built(&longest, longest.right.len()),
        built(&Known::bad(bad_at_last, last), 600),
        built(&Known::over_long(over_long_table()), 600),
    ]
}

pub fn random(random: &mut Random) -> Case {
    let table = random_known(random);
    let room = room(random, table.right.len());
    built(&table, room)
}
