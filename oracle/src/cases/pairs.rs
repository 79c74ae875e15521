//! The two tables of a case: names in the farm's, in the house's or in both, and damage to either.

use super::tables::{damaged, of_length, random_entries, table, twin_of, Entry};
use crate::random::Random;
use crate::variables::{Kind, LentTables};

/// The records of the farm's and of the house's table.
#[derive(Clone, Default)]
pub struct Pair {
    pub farm: Vec<Entry>,
    pub house: Vec<Entry>,
}

/// Who has a record of a name.
#[derive(Clone, Copy)]
enum Owner {
    Farm,
    House,
    Both,
}

impl Pair {
    pub fn of(farm: &[Entry], house: &[Entry]) -> Self {
        Pair {
            farm: farm.to_vec(),
            house: house.to_vec(),
        }
    }

    pub fn in_farm(entries: &[Entry]) -> Self {
        Pair::of(entries, &[])
    }

    pub fn in_house(entries: &[Entry]) -> Self {
        Pair::of(&[], entries)
    }

    /// The records to the farm and to the house in turn, the first one to the farm.
    pub fn in_turn(entries: &[Entry]) -> Self {
        Pair::split(entries, |index| index % 2 == 0)
    }

    /// The records at some places in their row to the farm, the others to the house.
    pub fn split(entries: &[Entry], is_farms: impl Fn(usize) -> bool) -> Self {
        let mut pair = Pair::default();
        for (index, entry) in entries.iter().enumerate() {
            let table = if is_farms(index) {
                &mut pair.farm
            } else {
                &mut pair.house
            };
            table.push(entry.clone());
        }
        pair
    }

    /// Each record to the farm, to the house, or to the farm with another of its name in the house.
    pub fn dealt(random: &mut Random, entries: Vec<Entry>) -> Self {
        let owners: &[Owner] = match random.below(8) {
            0 => &[Owner::Farm],
            1 => &[Owner::House],
            _ => &[Owner::Farm, Owner::House, Owner::Both, Owner::Both],
        };
        let mut pair = Pair::default();
        for entry in entries {
            match random.pick(owners) {
                Owner::Farm => pair.farm.push(entry),
                Owner::House => pair.house.push(entry),
                Owner::Both => {
                    pair.house.push(twin_of(random, &entry));
                    pair.farm.push(entry);
                }
            }
        }
        // Shared names then stand in another order.
        let first = random.below(pair.house.len() + 1);
        pair.house.rotate_left(first);
        pair
    }

    pub fn swapped(&self) -> Self {
        Pair::of(&self.house, &self.farm)
    }

    pub fn lent(&self) -> LentTables {
        LentTables {
            farm: table(&self.farm),
            house: table(&self.house),
        }
    }

    /// The two tables with a piece of damage to the farm's, to the house's or to each.
    pub fn damaged(&self, random: &mut Random) -> LentTables {
        let mut lent = self.lent();
        let which = random.below(3);
        if which != 0 {
            lent.farm = damaged(random, &self.farm);
        }
        if which != 1 {
            lent.house = damaged(random, &self.house);
        }
        lent
    }

    /// Each name once, in an order that has nothing to do with whose it is.
    pub fn names(&self) -> Vec<Vec<u8>> {
        let both = self.farm.iter().chain(&self.house);
        let mut names: Vec<Vec<u8>> = both.map(|entry| entry.name.clone()).collect();
        names.sort_by_key(|name| name.to_ascii_lowercase());
        names.dedup_by(|later, earlier| later.eq_ignore_ascii_case(earlier));
        names
    }
}

/// Up to so many names, over two tables.
pub fn random_pair(random: &mut Random, most: usize) -> Pair {
    let entries = random_entries(random, most);
    Pair::dealt(random, entries)
}

/// The name `Vv` in the farm's table and `vV` in the house's.
pub struct OneName {
    pub in_farm: Option<Kind>,
    pub in_house: Option<Kind>,
}

impl OneName {
    /// Each kind or none in the farm's table with each kind or none in the house's.
    pub fn everywhere() -> Vec<OneName> {
        let kinds = [
            None,
            Some(Kind::String),
            Some(Kind::Integer),
            Some(Kind::Macro),
        ];
        let with = |in_farm| kinds.map(|in_house| OneName { in_farm, in_house });
        kinds.into_iter().flat_map(with).collect()
    }

    /// The tables, in each of which the name has a value and a place of its own. Macros name a `w`
    /// that both tables hold.
    pub fn pair(&self) -> Pair {
        let farm = self.in_farm.map(|kind| match kind {
            Kind::String => Entry::string("Vv", b"farm"),
            Kind::Integer => Entry::integer("Vv", Self::OF_FARM),
            Kind::Macro => Entry::macro_of("Vv", b"f<w>"),
        });
        let house = self.in_house.map(|kind| match kind {
            Kind::String => Entry::string("vV", b"house"),
            Kind::Integer => Entry::integer("vV", Self::OF_HOUSE),
            Kind::Macro => Entry::macro_of("vV", b"<w>h"),
        });
        let mut pair = Pair::of(
            &[Entry::string("w", b"-f-")],
            &[Entry::integer("only", 9), Entry::string("W", b"-h-")],
        );
        pair.farm.extend(farm);
        pair.house.extend(house);
        pair
    }

    pub const OF_FARM: u32 = 1;
    pub const OF_HOUSE: u32 = 2;
}

/// Either table empty, good, bad at its start or bad further on, and at least one of them bad.
pub fn ill_pairs() -> Vec<LentTables> {
    let farm = table(&[Entry::string("f", b"farm")]);
    let house = table(&[Entry::integer("h", 7), Entry::string("s", b"")]);
    let states = |good: &[u8], bad: &[u8]| {
        [
            (false, Vec::new()),
            (false, good.to_vec()),
            (true, bad.to_vec()),
            (true, [good, bad].concat()),
        ]
    };
    let mut pairs = Vec::new();
    for (bad_farm, farm) in states(&farm, b"VR\x01\x01\x01i\x07") {
        for (bad_house, house) in states(&house, b"VR\0\x01") {
            if bad_farm || bad_house {
                let farm = farm.clone();
                pairs.push(LentTables { farm, house });
            }
        }
    }
    pairs
}

/// A table with a bad record behind a good one.
pub fn bad_table() -> Vec<u8> {
    [&table(&[Entry::integer("i", 7)])[..], b"VR\x03\x01\0n"].concat()
}

/// A table whose records are good, over the longest by one byte.
pub fn over_long_table() -> Vec<u8> {
    table(&of_length(65_536))
}

#[cfg(test)]
mod tests {
    use super::*;
    use crate::variables::Tables;

    #[test]
    fn dealt_records_keep_their_meaning() {
        let mut random = Random::new(5);
        for _ in 0..1_000 {
            let entries = random_entries(&mut random, 6);
            let lent = Pair::dealt(&mut random, entries.clone()).lent();
            let tables = Tables::read(&lent).expect("good tables");
            for entry in entries {
                let record = tables.look_up(&entry.name).expect("a known name").record;
                assert_eq!((record.kind, record.value), (entry.kind, &entry.value[..]));
            }
        }
    }

    #[test]
    fn each_name_is_told_once() {
        let named = |names: &[&str]| -> Vec<Entry> {
            let entry = |name: &&str| Entry::string(name, b"");
            names.iter().map(entry).collect()
        };
        let pair = Pair::of(&named(&["b", "A", "x"]), &named(&["c", "B", "X"]));
        let shown: Vec<Vec<u8>> = [b"A", b"b", b"c", b"x"].map(|name| name.to_vec()).into();
        assert_eq!(pair.names(), shown);
    }

    #[test]
    fn ill_pairs_are_all_refused() {
        let pairs = ill_pairs();
        assert_eq!(pairs.len(), 12);
        assert!(pairs.iter().all(|lent| Tables::read(lent).is_err()));
    }
}
