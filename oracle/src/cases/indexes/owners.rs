//! Cases of look-ups in the farm's table and the house's, the house's through an index.

use super::agreed::{looked_up, Lent};
use super::houses::{counted, random_house, telling};
use super::known::Known;
use super::looks::in_other_case;
use super::wrongs::random_index;
use crate::cases::pairs::{bad_table, ill_pairs, over_long_table, OneName, Pair};
use crate::cases::tables::{of_length, one_of_each_kind, table, Entry};
use crate::cases::variables::wanted_name;
use crate::lines::Case;
use crate::random::Random;
use crate::variables::LentTables;

/// One name everywhere, tables that share all names, ill tables, full and long ones.
pub fn fixed() -> Vec<Case> {
    [
        one_name_everywhere(),
        shared_names(),
        names_of_either(),
        long_names(),
        empty_tables(),
        in_ill_pairs(),
        in_two_full_tables(),
        in_long_pairs(),
    ]
    .into_iter()
    .flatten()
    .collect()
}

/// Two good tables with every index that tells something: none, the right one, the farm's, an empty
/// one, and longer ones.
fn under_indexes(pair: &Pair) -> Vec<Lent> {
    let (farm, house) = (Known::good(&pair.farm), Known::good(&pair.house));
    let indexes = [
        house.right.clone(),
        farm.right.clone(),
        Vec::new(),
        [&house.right[..], &[0]].concat(),
        [&house.right[..], &farm.right].concat(),
    ];
    let mut all = vec![Lent::plainly(&farm, &house)];
    all.extend(indexes.map(|index| Lent::with(&farm, &house, &index)));
    all
}

/// A name of every kind or none in either table, and names that stand beside it.
fn one_name_everywhere() -> Vec<Case> {
    let mut cases = Vec::new();
    for one_name in OneName::everywhere() {
        let pair = one_name.pair();
        for lent in under_indexes(&pair) {
            cases.push(looked_up(&lent, b"VV"));
            cases.push(looked_up(&lent, b"q"));
        }
        for name in ["w", "only", "v"] {
            cases.push(looked_up(&Lent::rightly(&pair), name.as_bytes()));
        }
    }
    cases
}

/// Both tables with the same names, the house's from its end, so that it has another index.
fn shared_names() -> Vec<Case> {
    let mut cases = Vec::new();
    for entries in telling().iter().filter(|entries| entries.len() < 10) {
        let mut from_end = entries.clone();
        from_end.reverse();
        let name = entries
            .last()
            .map_or(b"a".to_vec(), |entry| in_other_case(&entry.name));
        for lent in under_indexes(&Pair::of(entries, &from_end)) {
            cases.push(looked_up(&lent, &name));
        }
        // The same table twice, so that the farm's index fits too.
        let twice = Pair::of(entries, entries);
        cases.push(looked_up(&Lent::rightly(&twice), &name));
    }
    cases
}

/// Each name in one of the two tables, found through the index where it is the house's.
fn names_of_either() -> Vec<Case> {
    let mut cases = Vec::new();
    for entries in telling() {
        let in_turn = Pair::in_turn(&entries);
        for pair in [in_turn.swapped(), in_turn] {
            let lent = Lent::rightly(&pair);
            for entry in entries.iter().step_by(1 + entries.len() / 8) {
                cases.push(looked_up(&lent, &in_other_case(&entry.name)));
            }
            cases.push(looked_up(&lent, b"M!"));
        }
    }
    cases
}

/// Names whose length is that of a farm's or a house's record in one byte.
fn long_names() -> Vec<Case> {
    let [one, longest] = [1, 32].map(|length| Entry::string(&"n".repeat(length), b""));
    let in_turn = Pair::in_turn(&[one, longest]);
    let mut cases = Vec::new();
    for pair in [in_turn.swapped(), in_turn] {
        for length in [1, 32, 33, 256, 256 + 1, 256 + 32] {
            cases.push(looked_up(&Lent::rightly(&pair), &vec![b'N'; length]));
        }
    }
    cases
}

/// An empty index fits an empty house table and no other.
fn empty_tables() -> Vec<Case> {
    let entries = one_of_each_kind();
    let pairs = [
        Pair::default(),
        Pair::in_farm(&entries),
        Pair::in_house(&entries),
    ];
    let mut cases = Vec::new();
    for pair in pairs {
        for lent in under_indexes(&pair) {
            for name in ["N", "", "q"] {
                cases.push(looked_up(&lent, name.as_bytes()));
            }
        }
    }
    cases
}

/// Bad tables come before an index that cannot fit, whichever is bad.
fn in_ill_pairs() -> Vec<Case> {
    let mut cases = Vec::new();
    for lent in ill_pairs() {
        let (farm, house) = (Known::of(&lent.farm), Known::of(&lent.house));
        cases.push(looked_up(&Lent::plainly(&farm, &house), b"f"));
        let indexes = [&house.right[..], &[10, 0, 0, 0], &[7]];
        for (index, name) in indexes.into_iter().zip(["h", "q", "F"]) {
            let lent = Lent::with(&farm, &house, index);
            cases.push(looked_up(&lent, name.as_bytes()));
        }
    }
    cases
}

/// 256 records of the house, half of them hidden by the farm's; then 257 in either table.
fn in_two_full_tables() -> Vec<Case> {
    let full = counted(256);
    let lent = Lent::rightly(&Pair::of(&full[..128], &full));
    let mut cases = vec![
        looked_up(&lent, &full[0].name),
        looked_up(&lent, &full[200].name),
        looked_up(&lent, b"~"),
    ];
    let over = Known::of(&table(&counted(257)));
    let in_farm = Lent {
        farm: over.clone(),
        ..lent.clone()
    };
    let in_house = Lent {
        house: over,
        ..lent
    };
    cases.push(looked_up(&in_farm, &full[0].name));
    cases.push(looked_up(&in_house, &full[200].name));
    cases
}

/// Over-long tables with an index that cannot fit; few, for each is a long line.
fn in_long_pairs() -> Vec<Case> {
    let over_long = Known::over_long(over_long_table());
    let small = Known::good(&one_of_each_kind());
    let bad = Known::bad(bad_table(), 10);
    let of_over_long = Known::good(&of_length(65_536)).right;
    let looked_up = |farm: &Known, house: &Known, index: &[u8], name: &[u8]| {
        looked_up(&Lent::with(farm, house, index), name)
    };
    vec![
        looked_up(&over_long, &bad, &[0], b"n"),
        looked_up(&bad, &over_long, &of_over_long, b"aa"),
        looked_up(&small, &bad, &[0; 65_536], b"n"),
        looked_up(&small, &small, &[0; 65_537], b"n"),
    ]
}

pub fn random(random: &mut Random) -> Case {
    let entries = random_house(random);
    let pair = Pair::dealt(random, entries);
    let name = wanted_name(random, &pair);
    let tables = if random.one_in(6) {
        pair.damaged(random)
    } else {
        pair.lent()
    };
    let mut lent = random_lent(random, &tables);
    if random.one_in(8) {
        lent.index = None;
    }
    looked_up(&lent, &name)
}

/// Two tables with an index, now and then the farm's in the stead of the house's.
pub fn random_lent(random: &mut Random, tables: &LentTables) -> Lent {
    let (farm, house) = (Known::of(&tables.farm), Known::of(&tables.house));
    let index = if random.one_in(12) {
        farm.right.clone()
    } else {
        random_index(random, &house)
    };
    Lent::with(&farm, &house, &index)
}
