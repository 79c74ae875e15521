//! Request "An index beside the table": the records' places, sorted by name.

use crate::refusal::{Located, Refusal, Refused, Slice};
use crate::variables::{Table, HEADER};
use std::cmp::Ordering;

/// The bytes that a place takes in an index, the low one first.
const PLACE_BYTES: usize = 2;
/// Where a record says how long its name is.
const NAME_LENGTH: usize = 3;

/// An index that found room; need is its length.
#[derive(Debug, PartialEq, Eq)]
pub struct Built {
    pub index: Vec<u8>,
    pub free: usize,
}

/// A refused building; its free count is the room.
#[derive(Debug, PartialEq, Eq)]
pub struct Unbuilt {
    pub refused: Located,
    pub need: usize,
}

/// Builds the index of a table, the house's: 18, 13, then 1.
pub fn build(lent: &[u8], room: usize) -> Result<Built, Unbuilt> {
    let table = Table::read(lent).map_err(|refused| Unbuilt {
        refused: refused.within(Slice::House),
        need: 0,
    })?;
    let index = index_of(&table);
    let need = index.len();
    let free = room.checked_sub(need).ok_or(Unbuilt {
        refused: Refusal::NoRoom.at(0).within(Slice::Text),
        need,
    })?;
    Ok(Built { index, free })
}

/// The one index that fits a table.
fn index_of(table: &Table) -> Vec<u8> {
    let mut records = table.records().to_vec();
    records.sort_by(|one, other| order(one.name, other.name));
    records
        .iter()
        .flat_map(|record| {
            let place = u16::try_from(record.place).expect("a place in a table that is not long");
            place.to_le_bytes()
        })
        .collect()
}

/// The order of names: as bytes, A to Z taken as a to z, a proper beginning first.
fn order(one: &[u8], other: &[u8]) -> Ordering {
    one.to_ascii_lowercase().cmp(&other.to_ascii_lowercase())
}

/// An index that fits, with the table whose places it holds.
#[derive(Debug, PartialEq, Eq)]
pub struct Index<'a> {
    bytes: &'a [u8],
    house: &'a [u8],
}

impl<'a> Index<'a> {
    /// Takes the one index that this table has; any other bytes are refused alike.
    pub fn read(bytes: &'a [u8], house: &'a [u8], table: &Table) -> Result<Self, Refused> {
        if bytes != index_of(table) {
            return Err(Refusal::BadIndex.at(0));
        }
        Ok(Index { bytes, house })
    }

    /// The place of the record of a name, sought by halving what is left of the index.
    pub fn place_of(&self, name: &[u8]) -> Option<usize> {
        let mut left = self.bytes;
        while !left.is_empty() {
            let middle = left.len() / PLACE_BYTES / 2 * PLACE_BYTES;
            let (before, from_middle) = left.split_at(middle);
            let place = usize::from(u16::from_le_bytes([from_middle[0], from_middle[1]]));
            left = match order(name, self.name_at(place)) {
                Ordering::Less => before,
                Ordering::Equal => return Some(place),
                Ordering::Greater => &from_middle[PLACE_BYTES..],
            };
        }
        None
    }

    /// The name of the record at a place, read from the table's bytes.
    fn name_at(&self, place: usize) -> &'a [u8] {
        let length = usize::from(self.house[place + NAME_LENGTH]);
        &self.house[place + HEADER..][..length]
    }
}

#[cfg(test)]
mod tests {
    use super::*;

    /// A table of strings with empty values.
    fn named(names: &[&str]) -> Vec<u8> {
        names.iter().flat_map(|name| record(name, 0)).collect()
    }

    /// A string of so many bytes, all of them 86 as in a mark.
    fn record(name: &str, length: u8) -> Vec<u8> {
        let header = [86, 82, 0, name.len() as u8, length];
        let value = vec![86; length.into()];
        [&header, name.as_bytes(), &value].concat()
    }

    /// The names in the order of the index, which has to take just its need.
    fn sorted(names: &[&str]) -> String {
        let table = named(names);
        let built = build(&table, 1_000).expect("room");
        assert_eq!(built.index.len() + built.free, 1_000);
        assert_eq!(built.index.len(), 2 * names.len());
        let index = Index {
            bytes: &built.index,
            house: &table,
        };
        let name =
            |place: &[u8]| index.name_at(usize::from(place[0]) + 256 * usize::from(place[1]));
        let in_order: Vec<&[u8]> = built.index.chunks(2).map(name).collect();
        String::from_utf8(in_order.join(&b' ')).expect("ASCII")
    }

    #[test]
    fn letters_are_taken_as_small_ones_and_everything_else_as_it_is() {
        assert_eq!(sorted(&["a", "Z", "_"]), "_ a Z");
        assert_eq!(sorted(&["b", "C", "A"]), "A b C");
        assert_eq!(
            sorted(&["{", "a", "`", "[", "Z", "@", "9", "^"]),
            "9 @ [ ^ ` a Z {"
        );
        assert_eq!(sorted(&["aZ", "a_", "AA"]), "a_ AA aZ");
    }

    #[test]
    fn a_proper_beginning_comes_first() {
        assert_eq!(sorted(&["abc", "AB", "a", "b"]), "a AB abc b");
        assert_eq!(sorted(&["a!", "A", "a~", "AA"]), "A a! AA a~");
    }

    #[test]
    fn the_first_unequal_byte_decides_and_not_the_length() {
        assert_eq!(sorted(&["b", "aaa", "ab"]), "aaa ab b");
        let longest = "n".repeat(31);
        let [small, great] = ["a", "Z"].map(|last| format!("{longest}{last}"));
        let in_order = format!("{longest} {small} {great}");
        assert_eq!(sorted(&[&great, &longest, &small]), in_order);
    }

    #[test]
    fn places_have_their_low_byte_first() {
        let table = [record("b", 250), record("a", 255), record("c", 0)].concat();
        let built = build(&table, 6).expect("room");
        assert_eq!(built.index, [0, 1, 0, 0, 5, 2]);
        assert_eq!(built.free, 0);
    }

    #[test]
    fn an_empty_table_needs_no_room() {
        let empty = |free| Built {
            index: Vec::new(),
            free,
        };
        assert_eq!(build(b"", 0), Ok(empty(0)));
        assert_eq!(build(b"", 1), Ok(empty(1)));
    }

    #[test]
    fn refusals_of_building_have_their_order() {
        let refused = |refused: Refused, slice, need| {
            Err(Unbuilt {
                refused: refused.within(slice),
                need,
            })
        };
        let good = named(&["b", "a"]);
        for room in 0..4 {
            let no_room = refused(Refusal::NoRoom.at(0), Slice::Text, 4);
            assert_eq!(build(&good, room), no_room);
        }
        assert!(build(&good, 4).is_ok());
        let bad = [&good[..], b"V"].concat();
        let bad_table = refused(Refusal::BadTable.at(12), Slice::House, 0);
        assert_eq!(build(&bad, 0), bad_table);
        let over_long = refused(Refusal::OverLong.at(0), Slice::House, 0);
        assert_eq!(build(&[0; 65_536], 0), over_long);
    }

    #[test]
    fn the_one_right_index_is_taken_and_no_other() {
        let lent = named(&["b", "A", "_"]);
        let table = Table::read(&lent).expect("a good table");
        let taken = |index: &[u8]| Index::read(index, &lent, &table).map(|_| ());
        let bad = Err(Refusal::BadIndex.at(0));
        assert_eq!(taken(&[12, 0, 6, 0, 0, 0]), Ok(()));
        for index in [
            &[][..],
            &[12, 0],
            &[12, 0, 6, 0],
            &[12, 0, 6, 0, 0],
            &[12, 0, 6, 0, 0, 0, 0],
            &[12, 0, 6, 0, 0, 0, 0, 0],
            &[6, 0, 12, 0, 0, 0],
            &[0, 0, 6, 0, 12, 0],
            &[0, 12, 0, 6, 0, 0],
            &[12, 0, 6, 0, 0, 1],
            &[12, 0, 6, 0, 1, 0],
        ] {
            assert_eq!(taken(index), bad, "{index:?}");
        }
        let mut long = vec![12, 0, 6, 0, 0, 0];
        long.resize(65_536 + 6, 0);
        assert_eq!(taken(&long), bad);
    }

    #[test]
    fn halving_finds_each_record_and_nothing_else() {
        for count in 0..=20 {
            let names: Vec<String> = (0..count)
                .map(|number| format!("N{:02}", number * 7 % 20))
                .collect();
            let lent = named(&names.iter().map(String::as_str).collect::<Vec<_>>());
            let table = Table::read(&lent).expect("a good table");
            let right = index_of(&table);
            let index = Index::read(&right, &lent, &table).expect("its index");
            for (number, name) in names.iter().enumerate() {
                let place = Some(8 * number);
                assert_eq!(index.place_of(name.as_bytes()), place);
                assert_eq!(index.place_of(name.to_lowercase().as_bytes()), place);
                for other in [&name[..2], &format!("{name}!"), &"n".repeat(33)] {
                    assert_eq!(index.place_of(other.as_bytes()), None);
                }
            }
            for unknown in ["", "!", "n", "n99", "~"] {
                assert_eq!(index.place_of(unknown.as_bytes()), None);
            }
        }
    }
}
