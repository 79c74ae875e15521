//! Chapter "Variables": a table of records, and what a name means over the farm's and the house's.

use crate::index::Index;
use crate::refusal::{check_length, Located, Refusal, Refused, Slice};

/// The two bytes that each record stands behind.
pub const MARK: [u8; 2] = [86, 82];
/// The mark, the kind and the two lengths come before the name.
pub const HEADER: usize = 5;
pub const LONGEST_NAME: usize = 32;
const MOST_RECORDS: usize = 256;

#[derive(Clone, Copy, Debug, PartialEq, Eq)]
pub enum Kind {
    String = 0,
    Integer = 1,
    Macro = 2,
}

/// One good record; its place is the offset of its mark.
#[derive(Clone, Copy, Debug, PartialEq, Eq)]
pub struct Record<'a> {
    pub place: usize,
    pub kind: Kind,
    pub name: &'a [u8],
    pub value: &'a [u8],
}

impl Record<'_> {
    /// The value of an integer variable, and of no other.
    pub fn integer(&self) -> Option<i32> {
        let bytes = self.value.try_into().ok()?;
        (self.kind == Kind::Integer).then_some(i32::from_le_bytes(bytes))
    }
}

/// A good table.
#[derive(Debug, PartialEq, Eq)]
pub struct Table<'a> {
    records: Vec<Record<'a>>,
}

impl<'a> Table<'a> {
    /// Reads a whole table, or refuses it at its first bad record.
    pub fn read(lent: &'a [u8]) -> Result<Self, Refused> {
        check_length(lent)?;
        let mut table = Table {
            records: Vec::new(),
        };
        let mut place = 0;
        while place < lent.len() {
            let record = table
                .next_record(lent, place)
                .ok_or(Refusal::BadTable.at(place))?;
            place += HEADER + record.name.len() + record.value.len();
            table.records.push(record);
        }
        Ok(table)
    }

    /// The record at a place, if it is a good one behind those read before it.
    fn next_record(&self, lent: &'a [u8], place: usize) -> Option<Record<'a>> {
        let record = record_at(lent, place)?;
        let good = self.count() < MOST_RECORDS && self.look_up(record.name).is_none();
        good.then_some(record)
    }

    pub fn count(&self) -> usize {
        self.records.len()
    }

    /// The records as they stand in the table.
    pub fn records(&self) -> &[Record<'a>] {
        &self.records
    }

    /// Names are equal when they differ only in the case of A to Z.
    pub fn look_up(&self, name: &[u8]) -> Option<Record<'a>> {
        let equal = |record: &&Record| record.name.eq_ignore_ascii_case(name);
        self.records.iter().find(equal).copied()
    }
}

/// The record at a place, judged by itself.
fn record_at(lent: &[u8], place: usize) -> Option<Record<'_>> {
    let header = lent.get(place..place + HEADER)?;
    let kind = kind(header[2])?;
    let (name_length, value_length) = (usize::from(header[3]), usize::from(header[4]));
    let good_lengths =
        (1..=LONGEST_NAME).contains(&name_length) && (kind != Kind::Integer || value_length == 4);
    if !header.starts_with(&MARK) || !good_lengths {
        return None;
    }
    let name_place = place + HEADER;
    let value_place = name_place + name_length;
    let name = lent.get(name_place..value_place)?;
    let value = lent.get(value_place..value_place + value_length)?;
    name.iter()
        .all(|&byte| is_name_byte(byte))
        .then_some(Record {
            place,
            kind,
            name,
            value,
        })
}

fn kind(byte: u8) -> Option<Kind> {
    match byte {
        0 => Some(Kind::String),
        1 => Some(Kind::Integer),
        2 => Some(Kind::Macro),
        _ => None,
    }
}

/// Whether a byte is allowed in a name.
pub fn is_name_byte(byte: u8) -> bool {
    matches!(byte, 33..=126) && !matches!(byte, b'"' | b'<' | b'>')
}

/// The bytes of the two tables that an operation is lent.
#[derive(Clone, Debug, Default, PartialEq, Eq)]
pub struct LentTables {
    pub farm: Vec<u8>,
    pub house: Vec<u8>,
}

/// Two good tables, the house's with a fitting index or without one. A name may stand in both.
#[derive(Debug, PartialEq, Eq)]
pub struct Tables<'a> {
    farm: Table<'a>,
    house: Table<'a>,
    index: Option<Index<'a>>,
}

/// A record, with the table that its place is counted in.
#[derive(Clone, Copy, Debug, PartialEq, Eq)]
pub struct Found<'a> {
    pub slice: Slice,
    pub record: Record<'a>,
}

impl<'a> Tables<'a> {
    /// Reads both tables: 18 for the farm's, for the house's; then 13 in that order.
    pub fn read(lent: &'a LentTables) -> Result<Self, Located> {
        let in_farm = |refused: Refused| refused.within(Slice::Farm);
        let in_house = |refused: Refused| refused.within(Slice::House);
        check_length(&lent.farm).map_err(in_farm)?;
        check_length(&lent.house).map_err(in_house)?;
        Ok(Tables {
            farm: Table::read(&lent.farm).map_err(in_farm)?,
            house: Table::read(&lent.house).map_err(in_house)?,
            index: None,
        })
    }

    /// Reads both tables; then 20 for an index of the house's, where one is lent.
    pub fn read_indexed(lent: &'a LentTables, index: Option<&'a [u8]>) -> Result<Self, Located> {
        let mut tables = Self::read(lent)?;
        if let Some(index) = index {
            let index = Index::read(index, &lent.house, &tables.house)
                .map_err(|refused| refused.within(Slice::Index))?;
            tables.index = Some(index);
        }
        Ok(tables)
    }

    /// What a name means: the farm's record, whatever the house has of that name, or the house's.
    pub fn look_up(&self, name: &[u8]) -> Option<Found<'a>> {
        let found_in = |slice| move |record| Found { slice, record };
        let in_farm = self.farm.look_up(name).map(found_in(Slice::Farm));
        let in_house = self.in_house(name).map(found_in(Slice::House));
        in_farm.or(in_house)
    }

    /// The house's record of a name; the index, where there is one, has to lead to the same.
    fn in_house(&self, name: &[u8]) -> Option<Record<'a>> {
        let record = self.house.look_up(name);
        if let Some(index) = &self.index {
            let place = record.map(|record| record.place);
            assert_eq!(index.place_of(name), place, "two ways to {name:?} differ");
        }
        record
    }
}

/// What every operation on a text begins with: 18 for the text, then the two tables and the index.
pub fn tables_for<'a>(
    text: &[u8],
    lent: &'a LentTables,
    index: Option<&'a [u8]>,
) -> Result<Tables<'a>, Located> {
    check_length(text).map_err(|refused| refused.within(Slice::Text))?;
    Tables::read_indexed(lent, index)
}

#[cfg(test)]
mod tests {
    use super::*;

    fn record(kind: u8, name: &[u8], value: &[u8]) -> Vec<u8> {
        let header = [86, 82, kind, name.len() as u8, value.len() as u8];
        [&header, name, value].concat()
    }

    /// The number of records, or the place of the first bad one.
    fn counted(table: &[u8]) -> Result<usize, usize> {
        match Table::read(table) {
            Ok(table) => Ok(table.count()),
            Err(refused) => {
                assert_eq!(refused.refusal, Refusal::BadTable);
                Err(refused.place)
            }
        }
    }

    fn numbered(count: usize) -> Vec<u8> {
        let name = |index: usize| format!("v{index}").into_bytes();
        (0..count)
            .flat_map(|index| record(0, &name(index), b""))
            .collect()
    }

    #[test]
    fn the_table_of_p13_is_good() {
        let bytes = [86, 82, 0, 1, 1, 97, 120];
        let table = Table::read(&bytes).expect("a good table");
        let found = table.look_up(b"A").expect("a known name");
        assert_eq!(
            (found.place, found.kind, found.value),
            (0, Kind::String, &b"x"[..])
        );
        assert_eq!(table.look_up(b""), None);
        assert_eq!(table.look_up(&[b'a'; 33]), None);
    }

    #[test]
    fn each_field_can_make_a_record_bad() {
        let first = record(2, b"m", b"<\0");
        let behind = |bad: &[u8]| counted(&[&first, bad].concat());
        assert_eq!(behind(&record(1, b"n", &[0, 0, 0, 128])), Ok(2));
        assert_eq!(behind(b"VS\0\x01\0n"), Err(8));
        assert_eq!(behind(b"WR\0\x01\0n"), Err(8));
        assert_eq!(behind(&record(3, b"n", b"")), Err(8));
        assert_eq!(behind(&record(0, b"", b"")), Err(8));
        assert_eq!(behind(&record(0, &[b'n'; 32], b"")), Ok(2));
        assert_eq!(behind(&record(0, &[b'n'; 33], b"")), Err(8));
        assert_eq!(behind(&record(1, b"n", b"123")), Err(8));
        assert_eq!(behind(&record(1, b"n", b"12345")), Err(8));
        for byte in [0, 32, 34, 60, 62, 127, 128, 255] {
            assert_eq!(behind(&record(0, &[byte], b"")), Err(8));
        }
    }

    #[test]
    fn a_cut_record_is_bad() {
        let table = [record(0, b"a", b"xy"), record(1, b"b", b"1234")].concat();
        for length in 0..table.len() {
            let expected = match length {
                0 => Ok(0),
                8 => Ok(1),
                _ => Err(if length < 8 { 0 } else { 8 }),
            };
            assert_eq!(counted(&table[..length]), expected);
        }
    }

    #[test]
    fn the_later_of_two_equal_names_is_bad() {
        let twins = [record(0, b"aB$", b""), record(2, b"Ab$", b"")].concat();
        assert_eq!(counted(&twins), Err(8));
        let others = [record(0, b"@", b""), record(0, b"`", b"")].concat();
        assert_eq!(counted(&others), Ok(2));
    }

    #[test]
    fn the_257th_record_is_bad() {
        let full = numbered(256);
        assert_eq!(counted(&full), Ok(256));
        assert_eq!(counted(&numbered(257)), Err(full.len()));
        assert_eq!(counted(&[&full[..], b"V"].concat()), Err(full.len()));
    }

    fn lent(farm: &[u8], house: &[u8]) -> LentTables {
        LentTables {
            farm: farm.to_vec(),
            house: house.to_vec(),
        }
    }

    #[test]
    fn lengths_are_judged_before_records_and_the_farm_before_the_house() {
        let long = vec![0; 65_536];
        let short = record(0, b"a", b"xyz");
        let bad = [&short[..], b"V"].concat();
        let other_bad = [&short[..], &record(0, b"b", b""), b"V"].concat();
        let over = Refusal::OverLong.at(0);
        let refused = |text: &[u8], farm: &[u8], house: &[u8]| {
            tables_for(text, &lent(farm, house), None).expect_err("a refusal")
        };
        assert_eq!(refused(&long, &long, &long), over.within(Slice::Text));
        assert_eq!(refused(&long, &bad, &bad), over.within(Slice::Text));
        assert_eq!(refused(b"", &long, &long), over.within(Slice::Farm));
        assert_eq!(refused(b"", &long, &bad), over.within(Slice::Farm));
        assert_eq!(refused(b"", &bad, &long), over.within(Slice::House));
        assert_eq!(refused(b"", b"", &long), over.within(Slice::House));
        let at = |place| Refusal::BadTable.at(place);
        assert_eq!(refused(b"", &bad, &other_bad), at(9).within(Slice::Farm));
        assert_eq!(refused(b"", &other_bad, &bad), at(15).within(Slice::Farm));
        assert_eq!(refused(b"", &bad, &short), at(9).within(Slice::Farm));
        assert_eq!(
            refused(b"", &short, &other_bad),
            at(15).within(Slice::House)
        );
    }

    #[test]
    fn the_farm_hides_the_house_whatever_the_kinds() {
        let value = |kind| if kind == 1 { &b"1234"[..] } else { b"" };
        for farm_kind in 0..3 {
            for house_kind in 0..3 {
                let farm = record(farm_kind, b"aB", value(farm_kind));
                let other = record(0, b"other", b"x");
                let house = [other, record(house_kind, b"Ab", value(house_kind))].concat();
                let both = lent(&farm, &house);
                let tables = Tables::read(&both).expect("good tables");
                let found = tables.look_up(b"AB").expect("a known name");
                assert_eq!((found.slice, found.record.place), (Slice::Farm, 0));
                assert_eq!(found.record.kind as u8, farm_kind);
                let alone = lent(b"", &house);
                let tables = Tables::read(&alone).expect("good tables");
                let found = tables.look_up(b"ab").expect("a known name");
                assert_eq!((found.slice, found.record.place), (Slice::House, 11));
                assert_eq!(found.record.kind as u8, house_kind);
                assert_eq!(tables.look_up(b"a"), None);
            }
        }
    }

    #[test]
    fn the_index_is_judged_behind_both_tables() {
        let long = vec![0; 65_536];
        let good = [record(0, b"b", b"x"), record(0, b"A", b"y")].concat();
        let bad = [&good[..], b"V"].concat();
        let refused = |farm: &[u8], house: &[u8], index: &[u8]| {
            Tables::read_indexed(&lent(farm, house), Some(index)).map(|_| ())
        };
        let unfit = Err(Refusal::BadIndex.at(0).within(Slice::Index));
        let right = [7, 0, 0, 0];
        assert_eq!(refused(b"", b"", b""), Ok(()));
        assert_eq!(refused(&good, b"", b""), Ok(()));
        assert_eq!(refused(&good, b"", &right), unfit);
        assert_eq!(refused(b"", &good, &right), Ok(()));
        assert_eq!(refused(b"", &good, b""), unfit);
        assert_eq!(refused(b"", &good, &long), unfit);
        let over = |slice| Err(Refusal::OverLong.at(0).within(slice));
        assert_eq!(refused(&long, &bad, b""), over(Slice::Farm));
        assert_eq!(refused(&bad, &long, b""), over(Slice::House));
        let at = |slice| Err(Refusal::BadTable.at(14).within(slice));
        for index in [&right[..], b"", &long] {
            assert_eq!(refused(&bad, &good, index), at(Slice::Farm));
            assert_eq!(refused(&good, &bad, index), at(Slice::House));
            assert_eq!(refused(&bad, &bad, index), at(Slice::Farm));
        }
    }

    #[test]
    fn an_index_changes_no_look_up() {
        let farm = record(0, b"Hidden", b"farm");
        let house = [
            record(2, b"hidden", b"house"),
            record(0, b"ab", b""),
            record(0, b"A_", b""),
            record(0, b"a", b""),
        ]
        .concat();
        let both = lent(&farm, &house);
        let plain = Tables::read(&both).expect("good tables");
        let index = [30, 0, 23, 0, 16, 0, 0, 0];
        let indexed = Tables::read_indexed(&both, Some(&index)).expect("its index");
        for name in [
            &b"HIDDEN"[..],
            b"A",
            b"a_",
            b"AB",
            b"",
            b"b",
            b"a!",
            b"abc",
            b"hidde",
            b"~",
            &[b'a'; 33],
        ] {
            assert_eq!(indexed.look_up(name), plain.look_up(name));
        }
        let found = indexed.look_up(b"hIDDEN").expect("a known name");
        assert_eq!(
            (found.slice, found.record.value),
            (Slice::Farm, &b"farm"[..])
        );
    }

    #[test]
    fn each_table_has_its_own_256_records() {
        let (full, over) = (numbered(256), numbered(257));
        assert!(Tables::read(&lent(&full, &full)).is_ok());
        let bad = Refusal::BadTable.at(full.len());
        let refused = |farm, house| Tables::read(&lent(farm, house)).map(|_| ());
        assert_eq!(refused(&over, &full), Err(bad.within(Slice::Farm)));
        assert_eq!(refused(&full, &over), Err(bad.within(Slice::House)));
        assert_eq!(refused(&over, &over), Err(bad.within(Slice::Farm)));
    }
}
