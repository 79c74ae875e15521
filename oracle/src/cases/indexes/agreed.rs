//! Cases of known tables, each held to the answer that has to come of it.

use super::known::Known;
use crate::answers::answer;
use crate::cases::pairs::Pair;
use crate::cases::tables::Entry;
use crate::lines::{hex, Case};
use crate::variables::LentTables;

const LONGEST_TEXT: usize = 65_535;

/// Two tables, and perhaps an index that is given for the house's.
#[derive(Clone)]
pub struct Lent {
    pub farm: Known,
    pub house: Known,
    pub index: Option<Vec<u8>>,
}

impl Lent {
    /// Two tables without an index.
    pub fn plainly(farm: &Known, house: &Known) -> Self {
        Lent {
            farm: farm.clone(),
            house: house.clone(),
            index: None,
        }
    }

    /// Two tables with an index, right or wrong.
    pub fn with(farm: &Known, house: &Known, index: &[u8]) -> Self {
        Lent {
            index: Some(index.to_vec()),
            ..Lent::plainly(farm, house)
        }
    }

    /// Two good tables with the right index.
    pub fn rightly(pair: &Pair) -> Self {
        let house = Known::good(&pair.house);
        Lent::with(&Known::good(&pair.farm), &house, &house.right)
    }

    fn tables(&self) -> LentTables {
        LentTables {
            farm: self.farm.bytes.clone(),
            house: self.house.bytes.clone(),
        }
    }

    /// The refusal that comes before a name or a text counts.
    fn refused(&self) -> Option<String> {
        for wanted in [18, 13] {
            for (table, letter) in [(&self.farm, 'f'), (&self.house, 'h')] {
                match table.judged {
                    Err((number, place)) if number == wanted => {
                        return Some(format!("no {number} {letter} {place}"));
                    }
                    _ => {}
                }
            }
        }
        let index = self.index.as_ref();
        let fits = index.is_none_or(|index| *index == self.house.right);
        (!fits).then(|| "no 20 i 0".to_owned())
    }
}

/// The case, once the oracle has given the answer that has to come.
fn agreed(case: Case, has_to_come: &str) -> Case {
    let answer = answer(&case);
    assert_eq!(answer, has_to_come, "two routes differ on {case}");
    case
}

/// The index of a table is built in a room.
pub fn built(table: &Known, room: usize) -> Case {
    let need = table.right.len();
    let has_to_come = match table.judged {
        Err((number, place)) => format!("no {number} h {place} 0 {room}"),
        Ok(_) if room < need => format!("no 1 t 0 {need} {room}"),
        Ok(_) => format!("ok {} {need} {}", hex(&table.right), room - need),
    };
    let table = table.bytes.clone();
    agreed(Case::Index { table, room }, &has_to_come)
}

/// A name is looked up in one table through an index.
pub fn looked_through(index: &[u8], house: &Known, name: &[u8]) -> Case {
    let lent = Lent::with(&Known::good(&[]), house, index);
    let found = || {
        house
            .record_of(name)
            .map(|found| format!("rec {}", shown(found)))
    };
    let case = Case::Ilook {
        table: house.bytes.clone(),
        index: index.to_vec(),
        name: name.to_vec(),
    };
    let has_to_come = lent.refused().or_else(found);
    agreed(case, &has_to_come.unwrap_or("none".to_owned()))
}

/// A name is looked up in both tables.
pub fn looked_up(lent: &Lent, name: &[u8]) -> Case {
    let found = |table: &Known, letter: char| {
        let found = table.record_of(name)?;
        Some(format!("rec {letter} {}", shown(found)))
    };
    let has_to_come = lent
        .refused()
        .or_else(|| found(&lent.farm, 'f'))
        .or_else(|| found(&lent.house, 'h'));
    let case = Case::Flook {
        tables: lent.tables(),
        index: lent.index.clone(),
        name: name.to_vec(),
    };
    agreed(case, &has_to_come.unwrap_or("none".to_owned()))
}

/// A record as an answer shows it.
fn shown((place, entry): (usize, &Entry)) -> String {
    format!("{place} {} {}", entry.kind as u8, hex(&entry.value))
}

/// A text to translate, with all that is beside its tables.
#[derive(Clone)]
pub struct Text {
    pub text: Vec<u8>,
    pub flags: u32,
    pub allowance: u32,
    pub room: usize,
}

impl Text {
    /// A translation's parts: its tables, its index, and the text with all that is beside them.
    pub fn taken_from(case: Case) -> (LentTables, Option<Vec<u8>>, Text) {
        let Case::Trans {
            text,
            tables,
            index,
            flags,
            allowance,
            room,
        } = case
        else {
            panic!("no translation: {case}");
        };
        let text = Text {
            text,
            flags,
            allowance,
            room,
        };
        (tables, index, text)
    }

    /// The translation over some tables, with an index or without one.
    pub fn case(&self, tables: LentTables, index: Option<Vec<u8>>) -> Case {
        Case::Trans {
            text: self.text.clone(),
            tables,
            index,
            flags: self.flags,
            allowance: self.allowance,
            room: self.room,
        }
    }
}

/// A text is translated; where nothing is refused before it counts, as without an index.
pub fn translated(lent: &Lent, text: &Text) -> Case {
    let has_to_come = match lent.refused() {
        _ if text.text.len() > LONGEST_TEXT => format!("no 18 t 0 0 {}", text.room),
        Some(refused) => format!("{refused} 0 {}", text.room),
        None => answer(&text.case(lent.tables(), None)),
    };
    agreed(text.case(lent.tables(), lent.index.clone()), &has_to_come)
}

#[cfg(test)]
mod tests {
    use super::*;
    use crate::cases::tables::one_of_each_kind;

    fn lent(index: Option<Vec<u8>>) -> Lent {
        Lent {
            farm: Known::good(&[Entry::string("f", b"")]),
            house: Known::good(&one_of_each_kind()),
            index,
        }
    }

    #[test]
    fn refusals_have_their_order() {
        let bad = |place| Known::bad(b"V".repeat(place + 1), place);
        let over_long = Known::over_long(vec![0; 65_536]);
        let refused = |farm: &Known, house: &Known| {
            let lent = Lent {
                farm: farm.clone(),
                house: house.clone(),
                index: Some(vec![9]),
            };
            lent.refused().expect("a refusal")
        };
        let good = Known::good(&one_of_each_kind());
        assert_eq!(refused(&over_long, &over_long), "no 18 f 0");
        assert_eq!(refused(&bad(0), &over_long), "no 18 h 0");
        assert_eq!(refused(&bad(3), &bad(4)), "no 13 f 3");
        assert_eq!(refused(&good, &bad(4)), "no 13 h 4");
        assert_eq!(refused(&good, &good), "no 20 i 0");
        assert_eq!(lent(Some(good.right)).refused(), None);
        assert_eq!(lent(None).refused(), None);
    }

    #[test]
    #[should_panic(expected = "two routes differ")]
    fn another_index_ends_it() {
        let mut known = Known::good(&one_of_each_kind());
        known.right.swap(0, 2);
        built(&known, 6);
    }

    #[test]
    #[should_panic(expected = "two routes differ")]
    fn another_record_ends_it() {
        let mut known = Known::good(&one_of_each_kind());
        let entries = known.judged.as_mut().expect("records");
        entries[1].value[0] = 1;
        looked_through(&known.right.clone(), &known, b"n");
    }

    #[test]
    #[should_panic(expected = "two routes differ")]
    fn an_index_that_is_taken_for_a_wrong_one_ends_it() {
        let mut lent = lent(None);
        lent.index = Some(lent.house.right.clone());
        lent.house.right.push(0);
        let text = Text {
            text: b"x".to_vec(),
            flags: 0,
            allowance: 0,
            room: 1,
        };
        translated(&lent, &text);
    }
}
