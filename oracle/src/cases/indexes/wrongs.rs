//! Indexes that are near the one of a table; nearly all of them are another one.

use super::known::{in_two_bytes, places, right_index, Known};
use crate::cases::tables::Entry;
use crate::random::Random;

/// Each once: of another length, with entries exchanged or altered, in another order, of another
/// table.
pub fn wrongs_once(house: &Known) -> Vec<Vec<u8>> {
    let mut indexes = wrongs(house);
    indexes.sort();
    indexes.dedup();
    indexes
}

/// As many for each table that has records; in a table of few of them some are the right one.
fn wrongs(house: &Known) -> Vec<Vec<u8>> {
    let mut indexes = of_other_lengths(&house.right);
    if !house.right.is_empty() {
        indexes.extend(exchanged(&house.right));
        indexes.extend(altered(&house.right));
        indexes.extend(in_other_orders(house.entries()));
        indexes.extend(of_other_tables(house.entries()));
    }
    indexes
}

/// Shorter ones down to none, longer ones with a right beginning, and odd numbers of bytes.
fn of_other_lengths(right: &[u8]) -> Vec<Vec<u8>> {
    let length = right.len();
    let last = &right[length.saturating_sub(2)..];
    let mut indexes = vec![
        [right, &[0]].concat(),
        [right, &[0, 0]].concat(),
        [right, &[0xFF, 0xFF]].concat(),
        [right, last, &[0]].concat(),
        [right, right, &[0; 512]].concat(),
    ];
    if length > 0 {
        let cuts = [
            &right[..length - 1],
            &right[..length - 2],
            &right[1..],
            &right[2..],
        ];
        indexes.extend(cuts.map(<[u8]>::to_vec));
        indexes.push([right, last].concat());
        indexes.push(right.repeat(2));
        indexes.push(Vec::new());
    }
    indexes
}

/// The index with the entries at two ranks exchanged.
fn with_exchanged(right: &[u8], one: usize, other: usize) -> Vec<u8> {
    let mut entries: Vec<&[u8]> = right.chunks(2).collect();
    entries.swap(one, other);
    entries.concat()
}

/// Neighbours exchanged at the start, in the middle and at the end; the first and the last; all.
fn exchanged(right: &[u8]) -> Vec<Vec<u8>> {
    let last = right.len() / 2 - 1;
    let middle = last / 2;
    let before = last.saturating_sub(1);
    let backwards: Vec<&[u8]> = right.chunks(2).rev().collect();
    vec![
        with_exchanged(right, 0, last.min(1)),
        with_exchanged(right, middle, last.min(middle + 1)),
        with_exchanged(right, before, last),
        with_exchanged(right, 0, last),
        backwards.concat(),
    ]
}

/// The index with something done to the entry at a rank.
fn with_entry(right: &[u8], rank: usize, place_of: impl Fn(usize) -> usize) -> Vec<u8> {
    let mut index = right.to_vec();
    let entry = &mut index[2 * rank..][..2];
    let place = usize::from(entry[0]) + 256 * usize::from(entry[1]);
    entry.copy_from_slice(&in_two_bytes(place_of(place) % 65_536));
    index
}

/// Places inside a record and far behind, one entry twice, bytes exchanged or a little wrong.
fn altered(right: &[u8]) -> Vec<Vec<u8>> {
    let last = right.len() / 2 - 1;
    let all = |place_of: fn(usize) -> usize| {
        let each = |index: Vec<u8>, rank| with_entry(&index, rank, place_of);
        (0..=last).fold(right.to_vec(), each)
    };
    let [first_place, last_place] = [&right[..2], &right[2 * last..]];
    vec![
        with_entry(right, 0, |place| place + 1),
        with_entry(right, last, |place| place + 5),
        with_entry(right, last / 2, |place| place + 256),
        with_entry(right, last, |place| place + 32_768),
        with_entry(right, 0, |place| place + 65_535),
        all(|place| place + 5),
        all(|place| place + 1),
        all(|place| place % 256),
        all(|place| place % 256 * 256 + place / 256),
        all(|_| 0),
        [&right[..2 * last], first_place].concat(),
        [last_place, &right[2..]].concat(),
    ]
}

/// The places of the records in the order of a key that each name has.
fn sorted_by(entries: &[Entry], key: impl Fn(&[u8]) -> Vec<u8>) -> Vec<u8> {
    let mut keyed: Vec<(Vec<u8>, usize)> = entries
        .iter()
        .map(|entry| key(&entry.name))
        .zip(places(entries))
        .collect();
    keyed.sort();
    keyed
        .iter()
        .flat_map(|(_, place)| in_two_bytes(*place))
        .collect()
}

/// The orders that a reader could take for the right one.
fn in_other_orders(entries: &[Entry]) -> Vec<Vec<u8>> {
    let small = |name: &[u8]| name.to_ascii_lowercase();
    let sorted = |key: &dyn Fn(&[u8]) -> Vec<u8>| sorted_by(entries, key);
    vec![
        // As they stand in the table.
        sorted(&|_| Vec::new()),
        // Without folding, with folding to capitals, and with bit 5 set in every byte.
        sorted(&|name| name.to_vec()),
        sorted(&|name| name.to_ascii_uppercase()),
        sorted(&|name| name.iter().map(|byte| byte | 0x20).collect()),
        // Short names first, long names first, and a proper beginning behind.
        sorted(&|name| [vec![name.len() as u8], small(name)].concat()),
        sorted(&|name| [vec![255 - name.len() as u8], small(name)].concat()),
        sorted(&|name| [small(name), vec![255]].concat()),
        // From their last byte, by their first byte alone, by all but the last of 32.
        sorted(&|name| small(name).into_iter().rev().collect()),
        sorted(&|name| small(name)[..1].to_vec()),
        sorted(&|name| small(name)[..name.len().min(31)].to_vec()),
    ]
}

/// The indexes of tables that differ in little: a record renamed, gone, first, or longer.
fn of_other_tables(entries: &[Entry]) -> Vec<Vec<u8>> {
    let mut renamed = entries.to_vec();
    let length = renamed[0].name.len();
    renamed[0].name = vec![b'~'; length];
    let mut rotated = entries.to_vec();
    rotated.rotate_left(1);
    let mut longer = entries.to_vec();
    longer[0].value.push(0);
    vec![
        right_index(&renamed),
        right_index(&rotated),
        right_index(&longer),
        right_index(&entries[1..]),
        // The records' numbers in the stead of their places.
        (0..entries.len()).flat_map(in_two_bytes).collect(),
    ]
}

/// One of the wrong ones, or the right one with a bit flipped, or any bytes.
fn random_wrong(random: &mut Random, house: &Known) -> Vec<u8> {
    let mut index = house.right.clone();
    match random.below(8) {
        0 if !index.is_empty() => {
            let place = random.below(index.len());
            index[place] ^= 1 << random.below(8);
        }
        1 => index.iter_mut().for_each(|byte| *byte = random.byte()),
        2 if index.len() > 2 => {
            let ranks = index.len() / 2;
            let one = random.below(ranks - 1);
            return with_exchanged(&index, one, random.between(one + 1, ranks - 1));
        }
        _ => {
            let wrongs = wrongs(house);
            return wrongs[random.below(wrongs.len())].clone();
        }
    }
    index
}

/// The right index mostly.
pub fn random_index(random: &mut Random, house: &Known) -> Vec<u8> {
    if random.one_in(4) {
        random_wrong(random, house)
    } else {
        house.right.clone()
    }
}

#[cfg(test)]
mod tests {
    use super::*;
    use crate::cases::indexes::houses::{counted, telling};

    #[test]
    fn nearly_all_are_wrong_where_there_is_an_order() {
        for entries in telling().iter().filter(|entries| entries.len() > 2) {
            let house = Known::good(entries);
            let wrongs = wrongs(&house);
            let right = wrongs.iter().filter(|index| **index == house.right);
            let right = right.count();
            assert!(right <= wrongs.len() / 2, "{right} of {}", wrongs.len());
        }
    }

    #[test]
    fn each_wrong_index_is_wrong_for_some_table() {
        let mut houses = telling();
        houses.push(counted(200));
        let known: Vec<Known> = houses.iter().map(|house| Known::good(house)).collect();
        let all: Vec<Vec<Vec<u8>>> = known.iter().map(wrongs).collect();
        let most = all.iter().map(Vec::len).max().expect("a table");
        for which in 0..most {
            let mut of_it = all
                .iter()
                .zip(&known)
                .filter(|(wrongs, _)| wrongs.len() == most);
            assert!(
                of_it.any(|(wrongs, house)| wrongs[which] != house.right),
                "{which}"
            );
        }
    }
}
