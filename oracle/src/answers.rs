//! The answer to a case, as a line of the line format.

use crate::dates::{self, Dated, Undated};
use crate::expressions::{self, Value};
use crate::gs::{self, Flags, Translated, Untranslated};
use crate::index::{self, Built};
use crate::lines::{hex, Case};
use crate::numbers;
use crate::reader;
use crate::refusal::{Located, Refused, Slice};
use crate::variables::{Found, LentTables, Record, Table, Tables};

pub fn answer(case: &Case) -> String {
    match case {
        Case::Conv { call, value, room } => conv(*call, *value, *room),
        Case::Read { text, whole, limit } => read(text, *whole, *limit),
        Case::Table { table } => count(table),
        Case::Look { tables, name } => look(tables, None, name),
        Case::Index { table, room } => build(table, *room),
        Case::Ilook { table, index, name } => look_through(index, table, name),
        Case::Flook {
            tables,
            index,
            name,
        } => look(tables, index.as_deref(), name),
        Case::Trans {
            text,
            tables,
            index,
            flags,
            allowance,
            room,
        } => {
            let translated = gs::translate(
                text,
                tables,
                index.as_deref(),
                Flags(*flags),
                *allowance,
                *room,
            );
            trans(translated, *room)
        }
        Case::Eval {
            text,
            tables,
            allowance,
        } => eval(text, tables, *allowance),
        Case::Date { time, format, room } => date(time, format, *room),
    }
}

fn conv(call: u32, value: u32, room: usize) -> String {
    match numbers::convert(call, value, room) {
        Ok(written) => {
            let string = hex(written.string.as_bytes());
            format!("ok {string} {} {}", written.offset, written.free)
        }
        Err(unwritten) => {
            let number = unwritten.refusal.number();
            format!("no {number} 0 {} {room}", unwritten.need)
        }
    }
}

fn read(text: &[u8], whole: bool, limit: Option<u32>) -> String {
    match reader::read(text, whole, limit) {
        Ok(number) => format!("val {} {}", number.value, number.end),
        Err(refused) => no(refused),
    }
}

fn count(table: &[u8]) -> String {
    match Table::read(table) {
        Ok(table) => format!("ok {}", table.count()),
        Err(refused) => no(refused),
    }
}

fn build(table: &[u8], room: usize) -> String {
    match index::build(table, room) {
        Ok(Built { index, free }) => format!("ok {} {} {free}", hex(&index), index.len()),
        Err(refusal) => format!("{} {} {room}", no_at(refusal.refused), refusal.need),
    }
}

fn look(tables: &LentTables, index: Option<&[u8]>, name: &[u8]) -> String {
    looked_up(tables, index, name, |Found { slice, record }| {
        format!("rec {} {}", letter(slice), shown(&record))
    })
}

/// A look-up in one table only does not say in which.
fn look_through(index: &[u8], table: &[u8], name: &[u8]) -> String {
    let alone = LentTables {
        farm: Vec::new(),
        house: table.to_vec(),
    };
    looked_up(&alone, Some(index), name, |found| {
        format!("rec {}", shown(&found.record))
    })
}

fn looked_up(
    tables: &LentTables,
    index: Option<&[u8]>,
    name: &[u8],
    line_of: impl Fn(Found) -> String,
) -> String {
    match Tables::read_indexed(tables, index) {
        Ok(tables) => tables.look_up(name).map_or("none".to_owned(), line_of),
        Err(refused) => no_at(refused),
    }
}

fn shown(record: &Record) -> String {
    let (place, kind) = (record.place, record.kind as u8);
    format!("{place} {kind} {}", hex(record.value))
}

fn trans(translated: Result<Translated, Untranslated>, room: usize) -> String {
    match translated {
        Ok(Translated { output, end, free }) => {
            format!("ok {} {end} {} {free}", hex(&output), output.len())
        }
        Err(refusal) => format!("{} {} {room}", no_at(refusal.refused), refusal.need),
    }
}

fn eval(text: &[u8], tables: &LentTables, allowance: u32) -> String {
    match expressions::evaluate(text, tables, allowance) {
        Ok(Value { value, end }) => format!("int {value} {end}"),
        Err(refused) => no_at(refused),
    }
}

fn date(time: &[u8], format: &[u8], room: usize) -> String {
    match dates::convert(time, format, room) {
        Ok(Dated {
            string,
            offset,
            free,
        }) => format!("ok {} {offset} {free}", hex(&string)),
        Err(Undated { refused, need }) => format!("{} {need} {room}", no(refused)),
    }
}

/// A refusal of an operation whose places are all counted in one slice.
fn no(refused: Refused) -> String {
    format!("no {} {}", refused.refusal.number(), refused.place)
}

/// A refusal that says in which slice its place is counted.
fn no_at(Located { refused, slice }: Located) -> String {
    let (number, which) = (refused.refusal.number(), letter(slice));
    format!("no {number} {which} {}", refused.place)
}

/// The letter that stands for a slice beside a place in it.
fn letter(slice: Slice) -> char {
    match slice {
        Slice::Text => 't',
        Slice::Farm => 'f',
        Slice::House => 'h',
        Slice::Index => 'i',
    }
}

#[cfg(test)]
mod tests {
    use super::*;
    use crate::lines::parse;

    fn assert_answered(lines: &[(&str, &str)]) {
        for (line, expected) in lines {
            let case = parse(line).expect(line);
            assert_eq!(answer(&case), *expected, "{line}");
        }
    }

    #[test]
    fn every_kind_of_answer_has_its_line() {
        assert_answered(&[
            ("conv 216 1048576 8", "ok 31303438353736 7 1"),
            ("conv 216 1048576 7", "no 1 0 8 7"),
            ("conv 40 1048576 7", "ok 31303438353736 7 0"),
            ("conv 40 1048576 6", "no 1 0 7 6"),
            ("conv 131112 1048576 7", "ok 31303438353736 7 0"),
            ("conv 220 1048576 8", "ok 31303438353736 7 1"),
            ("conv 220 1048576 7", "no 1 0 8 7"),
            ("conv 233 0 0", "no 14 0 0 0"),
            ("read 325f31313032 0 -", "val 6 5"),
            ("read 33375f31 0 -", "no 3 0"),
            ("table -", "ok 0"),
            ("table 5652", "no 13 0"),
            ("look - 56520001016178 41", "rec h 0 0 78"),
            ("look 56520001016178 565200010061 41", "rec f 0 0 78"),
            ("look 565200010061 56520001016178 41", "rec f 0 0 -"),
            (
                "look 56520001016178 565200010062565201010463 41",
                "no 13 h 6",
            ),
            (
                "look 565200010062 565200010063565202010161ff 41",
                "rec h 6 2 ff",
            ),
            ("look 56520001016178 - 42", "none"),
            ("look - - -", "none"),
            ("look - 5652 42", "no 13 h 0"),
            ("look 56520001016178ff 5652 41", "no 13 f 7"),
            ("trans - - - x 0 0 0", "ok - 0 0 0"),
            ("trans 3c413e62 - 56520001016178 x 0 1 3", "ok 7862 4 2 1"),
            (
                "trans 3c413e62 56520001016178 565200010061 x 0 1 3",
                "ok 7862 4 2 1",
            ),
            ("trans 6162 - - x 0 0 1", "no 1 t 0 2 1"),
            ("trans 613c - - x 0 0 9", "no 9 t 1 0 9"),
            ("trans 613c3235353e - - x 0 0 9", "ok 61ff 6 2 7"),
            ("trans 613c3235363e - - x 0 0 9", "no 21 t 1 0 9"),
            (
                "trans 613c6d3e - 56520201056d3c3235363e x 0 1 0",
                "no 21 t 1 0 0",
            ),
            ("trans - - 5652 x 0 0 9", "no 13 h 0 0 9"),
            ("trans - 56520001006156 5652 x 0 0 9", "no 13 f 6 0 9"),
            ("eval 323134373438333634372b31 - - 0", "int -2147483648 12"),
            ("eval 69 - 565201010469070000000a 1", "no 13 h 10"),
            ("eval 69 565201010469fdffffff 565200010049 1", "int -3 1"),
            ("eval 69 - 565200010049 1", "no 17 t 0"),
            ("eval 312f302b28 - - 0", "no 15 t 5"),
            ("eval - 56 - 0", "no 13 f 0"),
            ("date 0000000000 2557332c 7", "ok 4d6f6e2c 4 3"),
            ("date 0000000000 2557332c 4", "no 1 0 5 4"),
            ("date 0000000000 2c257733 9", "no 19 1 0 9"),
            ("date 00000000 257733 9", "no 18 0 0 9"),
            ("date ffffffffff - 1", "ok - 0 1"),
        ]);
    }

    #[test]
    fn every_kind_of_answer_with_an_index_has_its_line() {
        assert_answered(&[
            ("index - 0", "ok - 0 0"),
            ("index - 3", "ok - 0 3"),
            ("index 565200010062565200010041 5", "ok 06000000 4 1"),
            ("index 565200010062565200010041 3", "no 1 t 0 4 3"),
            ("index 56520001006256 9", "no 13 h 6 0 9"),
            ("ilook 565200010062565202010141ff 06000000 61", "rec 6 2 ff"),
            ("ilook 565200010062565202010141ff 06000000 42", "rec 0 0 -"),
            ("ilook 565200010062565202010141ff 06000000 -", "none"),
            ("ilook 565200010062565202010141ff 00000600 61", "no 20 i 0"),
            ("ilook 565200010062565202010141 - 61", "no 13 h 6"),
            ("ilook - - 61", "none"),
            ("ilook - 0000 61", "no 20 i 0"),
            ("flook 56520001016178 565200010061 0000 41", "rec f 0 0 78"),
            ("flook - 565200010061 0000 41", "rec h 0 0 -"),
            ("flook - 565200010061 x 41", "rec h 0 0 -"),
            ("flook - 565200010061 x 42", "none"),
            ("flook 565200010061 565200010061 - 41", "no 20 i 0"),
            ("flook 565200010061 - 0000 41", "no 20 i 0"),
            ("flook 565200010061 - - 41", "rec f 0 0 -"),
            ("flook 56 5652000100 - 41", "no 13 f 0"),
            ("flook - 56520001006156 - 41", "no 13 h 6"),
            ("trans 3c413e - 56520001016178 0000 0 1 3", "ok 78 3 1 2"),
            ("trans 7c - 56520001016178 0100 0 1 3", "no 20 i 0 0 3"),
            (
                "trans 3c3332313e - 56520001016178 0100 0 1 3", "no 20 i 0 0 3",
            ),
            (
                "trans 3c3332313e - 56520001016178 0000 0 1 3", "no 21 t 0 0 3",
            ),
            ("trans - 56 56520001016178 0100 0 1 3", "no 13 f 0 0 3"),
            ("trans - - - - 0 0 0", "ok - 0 0 0"),
        ]);
    }
}
