//! Cases for the chapter "Variables": tables, and look-ups in them.

use super::forms::in_mixed_case;
use super::pairs::{bad_table, ill_pairs, over_long_table, random_pair, OneName, Pair};
use super::tables::{
    damaged, numbered, numbered_from, of_length, one_of_each_kind, random_entries, table, Entry,
    FIELD_FAULTS, FORBIDDEN,
};
use crate::lines::Case;
use crate::random::Random;
use crate::variables::LentTables;

fn is_good(table: Vec<u8>) -> Case {
    Case::Table { table }
}

fn look(pair: &Pair, name: &[u8]) -> Case {
    look_in(pair.lent(), name)
}

fn look_in(tables: LentTables, name: &[u8]) -> Case {
    let name = name.to_vec();
    Case::Look { tables, name }
}

/// The example, every damage to a small table, the names, the counts, the longest tables.
pub fn fixed_tables() -> Vec<Case> {
    let mut tables = vec![vec![86, 82, 0, 1, 1, 97, 120]];
    tables.extend(cut_and_lengthened());
    tables.extend(with_spoilt_fields());
    tables.extend(with_telling_names());
    tables.extend(with_telling_lengths());
    tables.extend(twins());
    tables.extend(around_the_last_record());
    tables.extend(around_the_longest());
    tables.into_iter().map(is_good).collect()
}

/// A small table cut at each byte, from none to all, then with bytes left over.
fn cut_and_lengthened() -> Vec<Vec<u8>> {
    let whole = table(&one_of_each_kind());
    let mut tables: Vec<Vec<u8>> = (0..=whole.len())
        .map(|length| whole[..length].to_vec())
        .collect();
    for length in 1..=5 {
        tables.push([&whole[..], &b"VR\0\x01\0"[..length]].concat());
        tables.push([&whole[..], &[0; 5][..length]].concat());
    }
    tables
}

/// A small table with each field of each record spoilt.
fn with_spoilt_fields() -> Vec<Vec<u8>> {
    let entries = one_of_each_kind();
    let mut tables = Vec::new();
    for index in 0..entries.len() {
        let place = table(&entries[..index]).len();
        for (field, faults) in FIELD_FAULTS.iter().enumerate() {
            for &fault in *faults {
                let mut spoilt = table(&entries);
                spoilt[place + field] = fault;
                tables.push(spoilt);
            }
        }
    }
    tables
}

/// Every allowed byte, the neighbours of forbidden ones, and forbidden ones at a name's end.
fn with_telling_names() -> Vec<Vec<u8>> {
    let mut tables = vec![table(&every_name_byte())];
    for byte in [33, 35, 59, 61, 63, 126] {
        let name = String::from(char::from(byte));
        tables.push(table(&[Entry::string(&name, b"")]));
    }
    for byte in FORBIDDEN {
        let mut entry = Entry::macro_of("abc", b"");
        entry.name[2] = byte;
        tables.push(table(&[entry]));
    }
    tables
}

/// Names and values that are as long as their records say, around the lengths allowed.
fn with_telling_lengths() -> Vec<Vec<u8>> {
    let names = [0, 1, 31, 32, 33, 64, 255].map(|length| Entry::string(&"n".repeat(length), b"x"));
    let integers = [0, 1, 3, 4, 5, 8, 255].map(|length| Entry {
        value: vec![0; length],
        ..Entry::integer("i", 0)
    });
    let values = [0, 4, 255].map(|length| Entry::macro_of("m", &vec![b'V'; length]));
    let entries = names.into_iter().chain(integers).chain(values);
    // Another record stands behind, so that a length read wrong leads astray.
    entries
        .map(|entry| table(&[entry, Entry::string("behind", b"")]))
        .collect()
}

/// All 91 bytes that a name may hold, in three names.
fn every_name_byte() -> Vec<Entry> {
    let allowed: Vec<u8> = (33..=126).filter(|byte| !b"\"<>".contains(byte)).collect();
    let entry = |name: &[u8]| Entry {
        name: name.to_vec(),
        ..Entry::string("", b"")
    };
    allowed.chunks(32).map(entry).collect()
}

/// Two names that differ in bit 5 alone: equal for letters, different for their neighbours.
fn twins() -> Vec<Vec<u8>> {
    let pair = |byte: u8| {
        let upper = String::from(char::from(byte));
        let lower = String::from(char::from(byte ^ 0x20));
        table(&[Entry::macro_of(&upper, b""), Entry::integer(&lower, 0)])
    };
    let mut tables: Vec<Vec<u8>> = (64..=95).map(pair).collect();
    let mut entries = one_of_each_kind();
    entries.push(Entry::string("Ab", b""));
    tables.push(table(&entries));
    tables
}

/// Around 256 records: good, one too many, and what stands behind the last one.
fn around_the_last_record() -> Vec<Vec<u8>> {
    let counted = |count| table(&numbered(count));
    let mut last_is_twin = numbered(255);
    last_is_twin.push(Entry::string("AA", b""));
    vec![
        counted(255),
        counted(256),
        counted(257),
        counted(258),
        [&counted(256)[..], b"V"].concat(),
        [&counted(255)[..], b"VR\0\x01"].concat(),
        table(&last_is_twin),
    ]
}

/// Tables around 65,535 bytes; few, for each is a long line.
fn around_the_longest() -> Vec<Vec<u8>> {
    let mut bad_at_last = of_length(65_535);
    let last = bad_at_last.last_mut().expect("a record");
    last.name[1] = b'<';
    vec![
        table(&of_length(65_534)),
        table(&of_length(65_535)),
        table(&bad_at_last),
        table(&of_length(65_536)),
        vec![0; 65_537],
    ]
}

/// Hits and misses in small tables, one name in both, letters and their neighbours, bad tables,
/// the longest tables.
pub fn fixed_looks() -> Vec<Case> {
    let example = [Entry::string("a", b"x")];
    let mut cases = vec![
        look(&Pair::in_house(&example), b"A"),
        look(&Pair::in_farm(&example), b"A"),
    ];
    cases.extend(hits_and_misses());
    cases.extend(one_name_everywhere());
    cases.extend(empty_values());
    cases.extend(neighbours_of_letters());
    cases.extend(longest_names());
    cases.extend(in_cut_tables());
    cases.extend(in_ill_pairs());
    cases.extend(in_full_tables());
    cases.extend(in_long_tables());
    cases
}

fn hits_and_misses() -> Vec<Case> {
    let names = [
        "aB", "Ab", "AB", "n", "N", "m$1", "M$1", "", "a", "b", "ab1", "m$", "m$2", "$1", "o",
        " n", "n ", "n\0", "<n>",
    ];
    let entries = one_of_each_kind();
    let in_turn = Pair::in_turn(&entries);
    let mut pairs = vec![Pair::in_house(&entries), Pair::in_farm(&entries)];
    pairs.extend([in_turn.swapped(), in_turn]);
    let mut cases = Vec::new();
    for pair in pairs {
        cases.extend(names.map(|name| look(&pair, name.as_bytes())));
    }
    cases.push(look(&Pair::default(), b""));
    cases.push(look(&Pair::default(), b"n"));
    cases
}

/// A name of every kind or none in either table, and names that stand beside it.
fn one_name_everywhere() -> Vec<Case> {
    let mut cases = Vec::new();
    for one_name in OneName::everywhere() {
        let pair = one_name.pair();
        for name in ["VV", "vv", "w", "only", "v"] {
            cases.push(look(&pair, name.as_bytes()));
        }
    }
    cases
}

/// An empty value is another answer than an unknown name, and hides one that is not empty.
fn empty_values() -> Vec<Case> {
    let empty = [Entry::string("e", b""), Entry::macro_of("m", b"")];
    let other = [Entry::macro_of("M", b"x"), Entry::integer("E", 0)];
    let pair = Pair::of(&empty, &other);
    let pairs = [
        pair.swapped(),
        pair,
        Pair::in_farm(&empty),
        Pair::in_house(&empty),
    ];
    let mut cases = Vec::new();
    for pair in pairs {
        cases.extend(["e", "m", "q"].map(|name| look(&pair, name.as_bytes())));
    }
    cases
}

/// Names that differ in bit 5 alone, where it is a letter's case and where it is not.
fn neighbours_of_letters() -> Vec<Case> {
    let mut cases = Vec::new();
    for byte in (64..=94).chain(97..=122) {
        let other = byte ^ 0x20;
        let named = |byte: u8| [Entry::string(&String::from(char::from(byte)), &[byte])];
        cases.push(look(&Pair::in_house(&named(byte)), &[other]));
        cases.push(look(&Pair::of(&named(byte), &named(other)), &[other]));
    }
    cases
}

/// Names around the longest one that a record can have; one over the longest text is only unknown.
fn longest_names() -> Vec<Case> {
    let entries = [Entry::string(&"w".repeat(32), b"long")];
    let shorter = [Entry::string(&"W".repeat(31), b"short")];
    let mut cases = Vec::new();
    for length in [31, 32, 33, 255, 256, 288] {
        let name = vec![b'W'; length];
        cases.push(look(&Pair::in_house(&entries), &name));
        cases.push(look(&Pair::in_farm(&entries), &name));
        cases.push(look(&Pair::of(&entries, &shorter), &name));
    }
    cases.push(look(&Pair::of(&shorter, &entries), &[b'w'; 65_536]));
    cases
}

/// A name that stands before the bad record, or in the other table, is not told.
fn in_cut_tables() -> Vec<Case> {
    let whole = table(&one_of_each_kind());
    let other = table(&[Entry::string("ab", b""), Entry::integer("x", 1)]);
    let mut cases = Vec::new();
    for length in 0..whole.len() {
        let (cut, other) = (whole[..length].to_vec(), other.clone());
        let cut_house = LentTables {
            farm: other.clone(),
            house: cut.clone(),
        };
        let cut_farm = LentTables {
            farm: cut,
            house: other,
        };
        cases.push(look_in(cut_house, b"ab"));
        cases.push(look_in(cut_farm, b"ab"));
    }
    cases
}

fn in_ill_pairs() -> Vec<Case> {
    let mut cases = Vec::new();
    for lent in ill_pairs() {
        for name in ["f", "H", "q"] {
            cases.push(look_in(lent.clone(), name.as_bytes()));
        }
    }
    cases
}

/// Around 256 records in each table, all of them shared or 512 names in all.
fn in_full_tables() -> Vec<Case> {
    let full = numbered(256);
    let mut cases = vec![look(&Pair::of(&full, &full), &full[255].name)];
    for (farm, house) in [(256, 256), (257, 256), (256, 257), (257, 257)] {
        let pair = Pair::of(&numbered(farm), &numbered_from(300, house));
        cases.push(look(&pair, &pair.farm[farm - 1].name));
        cases.push(look(&pair, &pair.house[house - 1].name));
    }
    cases
}

/// Tables around 65,535 bytes; few, for each is a long line.
fn in_long_tables() -> Vec<Case> {
    let longest = of_length(65_535);
    let mut ends_otherwise = longest.clone();
    ends_otherwise[longest.len() - 1].name = b"zz".to_vec();
    let bad_farm = LentTables {
        farm: bad_table(),
        house: over_long_table(),
    };
    let both_over_long = LentTables {
        farm: over_long_table(),
        house: vec![0; 65_537],
    };
    vec![
        look(&Pair::of(&longest, &ends_otherwise), b"ZZ"),
        look_in(bad_farm, b"aa"),
        look_in(both_over_long, b"aa"),
    ]
}

pub fn random_table(random: &mut Random) -> Case {
    let entries = random_entries(random, 6);
    is_good(if random.one_in(2) {
        table(&entries)
    } else {
        damaged(random, &entries)
    })
}

pub fn random_look(random: &mut Random) -> Case {
    let pair = random_pair(random, 7);
    let name = wanted_name(random, &pair);
    let tables = if random.one_in(5) {
        pair.damaged(random)
    } else {
        pair.lent()
    };
    Case::Look { tables, name }
}

/// The name of a table's first, last or any record, in any case or missed by one byte.
pub fn wanted_name(random: &mut Random, pair: &Pair) -> Vec<u8> {
    let tables = [&pair.farm, &pair.house];
    let entries = random.pick(&tables);
    if entries.is_empty() || random.one_in(20) {
        return random.pick(&["", "a", "n", "99999999999X"]).into();
    }
    let last = entries.len() - 1;
    let any = random.below(entries.len());
    let mut name = entries[random.pick(&[0, last, any])].name.clone();
    match random.below(8) {
        0..=4 => {}
        5 => missed(random, &mut name),
        6 => {
            // Bit 5 is a letter's case, and something else in other bytes.
            let place = random.below(name.len());
            name[place] ^= 0x20;
        }
        _ => name.extend(vec![b'x'; 33 - name.len()]),
    }
    in_mixed_case(random, &name)
}

/// Changes, drops or adds one byte.
fn missed(random: &mut Random, name: &mut Vec<u8>) {
    let place = random.below(name.len());
    match random.below(3) {
        0 => name[place] = name[place].wrapping_add(random.pick(&[1, 255, 128])),
        1 => {
            name.remove(place);
        }
        _ => name.insert(place, random.byte()),
    }
}
