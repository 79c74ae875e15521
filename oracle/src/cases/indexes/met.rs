//! A case with its answer taken apart, to tell which kinds of case are met.

use super::agreed::Text;
use super::known::Known;
use crate::answers::answer;
use crate::lines::Case;
use crate::variables::LentTables;

/// A case with its answer; a table or an index that it has not is none or empty.
pub struct Met {
    pub farm: Known,
    pub house: Known,
    pub index: Option<Vec<u8>>,
    /// The name or the text.
    pub asked: Vec<u8>,
    pub room: usize,
    answer: String,
    /// What a translation is answered without an index.
    plainly: String,
}

impl Met {
    pub fn new(case: Case) -> Self {
        let (given, mut plainly) = (answer(&case), String::new());
        let (tables, index, asked, room) = match case {
            Case::Index { table, room } => (alone(table), None, Vec::new(), room),
            Case::Ilook { table, index, name } => (alone(table), Some(index), name, 0),
            Case::Flook {
                tables,
                index,
                name,
            } => (tables, index, name, 0),
            Case::Trans { .. } => {
                let (tables, index, text) = Text::taken_from(case);
                plainly = answer(&text.case(tables.clone(), None));
                (tables, index, text.text, text.room)
            }
            _ => panic!("no index: {case}"),
        };
        Met {
            farm: Known::of(&tables.farm),
            house: Known::of(&tables.house),
            index,
            asked,
            room,
            answer: given,
            plainly,
        }
    }

    pub fn is(&self, start: &str) -> bool {
        self.answer.starts_with(start)
    }

    pub fn would(&self, start: &str) -> bool {
        self.plainly.starts_with(start)
    }

    pub fn is_unfit(&self) -> bool {
        self.is("no 20 i 0")
    }

    pub fn given(&self) -> &[u8] {
        self.index.as_deref().unwrap_or_default()
    }

    pub fn fits(&self) -> bool {
        self.given() == self.house.right
    }

    pub fn need(&self) -> usize {
        self.house.right.len()
    }

    /// Whether the house table has but a few records.
    pub fn is_small(&self) -> bool {
        self.house.bytes.len() < 200
    }

    /// The house's names as they stand in its table.
    pub fn names(&self) -> Vec<Vec<u8>> {
        let entries = self.house.entries().iter();
        entries.map(|entry| entry.name.clone()).collect()
    }

    pub fn house_name(&self, place: usize) -> Vec<u8> {
        let length = usize::from(self.house.bytes[place + 3]);
        self.house.bytes[place + 5..][..length].to_vec()
    }

    /// The places in the order of the right index.
    fn places(&self) -> Vec<usize> {
        let place = |bytes: &[u8]| usize::from(bytes[0]) + 256 * usize::from(bytes[1]);
        self.house.right.chunks(2).map(place).collect()
    }

    pub fn is_ascending<K: PartialOrd>(&self, key: impl Fn(usize) -> K) -> bool {
        let places = self.places();
        places.windows(2).all(|pair| key(pair[0]) < key(pair[1]))
    }

    /// The rank of the house's record that was found through an index.
    pub fn rank(&self) -> Option<usize> {
        let (place, _) = self.house.record_of(&self.asked)?;
        let through = self.index.is_some() && self.is("rec") && !self.is("rec f");
        let rank = self.places().iter().position(|&other| other == place);
        rank.filter(|_| through)
    }

    /// Whether the name that was found has over three bytes, and each letter in its other case.
    pub fn is_in_other_case(&self, rank: usize) -> bool {
        let name = self.house_name(self.places()[rank]);
        let mut bytes = name.iter().zip(&self.asked);
        let is_other = |(one, other): (&u8, &u8)| one != other || !one.is_ascii_alphabetic();
        name.len() > 3 && name != self.asked && bytes.all(is_other)
    }

    /// Whether a name was unknown in a table that has records, through an index.
    pub fn misses(&self) -> bool {
        self.is("none") && self.index.is_some() && self.need() > 0
    }

    /// Where an unknown name would stand, as the number of smaller ones beside the number of all.
    pub fn misses_at(&self, there: fn(usize, usize) -> bool) -> bool {
        let asked = self.asked.to_ascii_lowercase();
        let names = self.names();
        let smaller = names
            .iter()
            .filter(|name| name.to_ascii_lowercase() < asked);
        self.misses() && there(smaller.count(), names.len())
    }
}

/// One table, the house's.
fn alone(house: Vec<u8>) -> LentTables {
    LentTables {
        farm: Vec::new(),
        house,
    }
}

/// Whether one row of bytes is a proper beginning of another, A to Z taken as a to z.
pub fn begins(one: &[u8], other: &[u8]) -> bool {
    let beginning = other.get(..one.len());
    one.len() < other.len() && beginning.is_some_and(|it| it.eq_ignore_ascii_case(one))
}
