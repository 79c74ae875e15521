//! The line format: a case read from its line and written back.

use crate::variables::LentTables;
use std::fmt::{self, Display, Formatter};
use std::str::{FromStr, Split};

/// One case of one of the ten operations.
#[derive(Debug, PartialEq, Eq)]
pub enum Case {
    Conv {
        call: u32,
        value: u32,
        room: usize,
    },
    Read {
        text: Vec<u8>,
        whole: bool,
        limit: Option<u32>,
    },
    Table {
        table: Vec<u8>,
    },
    Look {
        tables: LentTables,
        name: Vec<u8>,
    },
    Index {
        table: Vec<u8>,
        room: usize,
    },
    /// A look-up through an index in one table, the house's.
    Ilook {
        table: Vec<u8>,
        index: Vec<u8>,
        name: Vec<u8>,
    },
    /// A look-up in both tables, the house's with an index or without one.
    Flook {
        tables: LentTables,
        index: Option<Vec<u8>>,
        name: Vec<u8>,
    },
    Trans {
        text: Vec<u8>,
        tables: LentTables,
        index: Option<Vec<u8>>,
        flags: u32,
        allowance: u32,
        room: usize,
    },
    Eval {
        text: Vec<u8>,
        tables: LentTables,
        allowance: u32,
    },
    Date {
        time: Vec<u8>,
        format: Vec<u8>,
        room: usize,
    },
}

/// What stands for an index of the house table where none is given.
const NO_INDEX: &str = "x";

/// A byte string as the format shows it: lower-case hex, the empty one as a dash.
pub fn hex(bytes: &[u8]) -> String {
    const DIGITS: &[u8; 16] = b"0123456789abcdef";
    if bytes.is_empty() {
        return "-".to_owned();
    }
    let mut shown = String::with_capacity(2 * bytes.len());
    for byte in bytes {
        shown.push(char::from(DIGITS[usize::from(byte >> 4)]));
        shown.push(char::from(DIGITS[usize::from(byte & 15)]));
    }
    shown
}

impl Display for Case {
    fn fmt(&self, out: &mut Formatter) -> fmt::Result {
        match self {
            Case::Conv { call, value, room } => write!(out, "conv {call} {value} {room}"),
            Case::Read { text, whole, limit } => {
                let limit = limit.map_or("-".to_owned(), |limit| limit.to_string());
                write!(out, "read {} {} {limit}", hex(text), u8::from(*whole))
            }
            Case::Table { table } => write!(out, "table {}", hex(table)),
            Case::Look { tables, name } => {
                write!(out, "look {} {}", both_in_hex(tables), hex(name))
            }
            Case::Index { table, room } => write!(out, "index {} {room}", hex(table)),
            Case::Ilook { table, index, name } => {
                write!(out, "ilook {} {} {}", hex(table), hex(index), hex(name))
            }
            Case::Flook {
                tables,
                index,
                name,
            } => write!(out, "flook {} {}", all_in_hex(tables, index), hex(name)),
            Case::Trans {
                text,
                tables,
                index,
                flags,
                allowance,
                room,
            } => {
                let (text, lent) = (hex(text), all_in_hex(tables, index));
                write!(out, "trans {text} {lent} {flags} {allowance} {room}")
            }
            Case::Eval {
                text,
                tables,
                allowance,
            } => {
                let (text, tables) = (hex(text), both_in_hex(tables));
                write!(out, "eval {text} {tables} {allowance}")
            }
            Case::Date { time, format, room } => {
                write!(out, "date {} {} {room}", hex(time), hex(format))
            }
        }
    }
}

/// The two fields of the tables, the farm's first.
fn both_in_hex(tables: &LentTables) -> String {
    format!("{} {}", hex(&tables.farm), hex(&tables.house))
}

/// The fields of the tables and of an index; none is another thing than an empty one.
fn all_in_hex(tables: &LentTables, index: &Option<Vec<u8>>) -> String {
    let index = index.as_deref().map_or(NO_INDEX.to_owned(), hex);
    format!("{} {index}", both_in_hex(tables))
}

/// Reads a case from its line, or says what is wrong with it.
pub fn parse(line: &str) -> Result<Case, String> {
    let mut fields = Fields(line.split(' '));
    let case = match fields.next("operation")? {
        "conv" => Case::Conv {
            call: fields.number("call")?,
            value: fields.number("value")?,
            room: fields.number("room")?,
        },
        "read" => Case::Read {
            text: fields.bytes("text")?,
            whole: fields.whole()?,
            limit: fields.limit()?,
        },
        "table" => Case::Table {
            table: fields.bytes("table")?,
        },
        "look" => Case::Look {
            tables: fields.tables()?,
            name: fields.bytes("name")?,
        },
        "index" => Case::Index {
            table: fields.bytes("table")?,
            room: fields.number("room")?,
        },
        "ilook" => fields.ilook()?,
        "flook" => fields.flook()?,
        "trans" => fields.trans()?,
        "eval" => Case::Eval {
            text: fields.bytes("text")?,
            tables: fields.tables()?,
            allowance: fields.number("allowance")?,
        },
        "date" => Case::Date {
            time: fields.bytes("time")?,
            format: fields.bytes("format")?,
            room: fields.number("room")?,
        },
        other => return Err(format!("unknown operation {other:?}")),
    };
    fields.end()?;
    Ok(case)
}

/// The fields of a line, separated by one space each.
struct Fields<'l>(Split<'l, char>);

impl<'l> Fields<'l> {
    fn next(&mut self, what: &str) -> Result<&'l str, String> {
        self.0.next().ok_or_else(|| format!("no {what}"))
    }

    fn number<N: FromStr>(&mut self, what: &str) -> Result<N, String> {
        let field = self.next(what)?;
        number(field).ok_or_else(|| format!("bad {what}"))
    }

    fn bytes(&mut self, what: &str) -> Result<Vec<u8>, String> {
        let field = self.next(what)?;
        bytes(field).ok_or_else(|| format!("bad {what}"))
    }

    fn ilook(&mut self) -> Result<Case, String> {
        Ok(Case::Ilook {
            table: self.bytes("table")?,
            index: self.bytes("index")?,
            name: self.bytes("name")?,
        })
    }

    fn flook(&mut self) -> Result<Case, String> {
        Ok(Case::Flook {
            tables: self.tables()?,
            index: self.index()?,
            name: self.bytes("name")?,
        })
    }

    fn trans(&mut self) -> Result<Case, String> {
        Ok(Case::Trans {
            text: self.bytes("text")?,
            tables: self.tables()?,
            index: self.index()?,
            flags: self.number("flags")?,
            allowance: self.number("allowance")?,
            room: self.number("room")?,
        })
    }

    fn tables(&mut self) -> Result<LentTables, String> {
        Ok(LentTables {
            farm: self.bytes("farm's table")?,
            house: self.bytes("house table")?,
        })
    }

    fn index(&mut self) -> Result<Option<Vec<u8>>, String> {
        match self.next("index")? {
            NO_INDEX => Ok(None),
            field => Ok(Some(bytes(field).ok_or("bad index")?)),
        }
    }

    fn whole(&mut self) -> Result<bool, String> {
        match self.next("whole")? {
            "0" => Ok(false),
            "1" => Ok(true),
            _ => Err("bad whole".to_owned()),
        }
    }

    fn limit(&mut self) -> Result<Option<u32>, String> {
        match self.next("limit")? {
            "-" => Ok(None),
            field => Ok(Some(number(field).ok_or("bad limit")?)),
        }
    }

    fn end(&mut self) -> Result<(), String> {
        match self.0.next() {
            None => Ok(()),
            Some(_) => Err("too many fields".to_owned()),
        }
    }
}

/// A number in decimal digits alone: no sign, which the library's own reading would allow.
fn number<N: FromStr>(field: &str) -> Option<N> {
    let digits_alone = field.bytes().all(|byte| byte.is_ascii_digit());
    field.parse().ok().filter(|_| digits_alone)
}

fn bytes(field: &str) -> Option<Vec<u8>> {
    if field == "-" {
        return Some(Vec::new());
    }
    if field.is_empty() || !field.len().is_multiple_of(2) {
        return None;
    }
    let byte = |pair: &[u8]| Some(nibble(pair[0])? << 4 | nibble(pair[1])?);
    field.as_bytes().chunks_exact(2).map(byte).collect()
}

fn nibble(digit: u8) -> Option<u8> {
    match digit {
        b'0'..=b'9' => Some(digit - b'0'),
        b'a'..=b'f' => Some(digit - b'a' + 10),
        _ => None,
    }
}

#[cfg(test)]
mod tests {
    use super::*;

    #[test]
    fn a_case_is_written_as_it_was_read() {
        for line in [
            "conv 216 1048576 8",
            "read 325f31313032 1 -",
            "read - 0 4294967295",
            "table 56520001016178",
            "look 56520001016178 - -",
            "look - 56520001016178 41",
            "index 5652 0",
            "index - 65535",
            "ilook 56520001016178 0000 41",
            "ilook - - -",
            "flook 56520001016178 565200010061 0000 41",
            "flook - 00 - -",
            "flook 01 - x 00",
            "trans 3c413e62 5652 56520001016178 x 4294967295 1 2",
            "trans 3c413e62 5652 56520001016178 - 4294967295 1 2",
            "trans 3c413e62 5652 56520001016178 000102 4294967295 1 2",
            "eval 00ff - 01 4294967295",
            "date 0102030405 25435300 3",
            "date - - 0",
        ] {
            assert_eq!(parse(line).expect(line).to_string(), line);
        }
    }

    #[test]
    fn malformed_lines_are_errors() {
        for line in [
            "", "conv", "conv 216 1 ", "conv 216 4294967296 8", "conv 216 +1 8", "conv 216  1 8",
            "conv 216 1 8 9", "read 3 1 -", "read  1 -", "read 3A 1 -", "read 30 2 -",
            "read 30 1 x", "Table -", "table -\r", "table - -", "look - 41", "look - - - -",
            "index -", "index - -", "index x 0", "index - 0 0", "index - - 0", "index 0 0",
            "ilook - -", "ilook - - - -", "ilook - x -", "ilook x - -", "ilook - 0 -",
            "ilook -  -", "flook - - -", "flook - - - - -", "flook - x - -", "flook x - - -",
            "flook - - X -", "flook - - 0 -", "flook - - xx -", "flook - -  -", "Index - 0",
            "Ilook - - -", "trans - - 0 0 0", "trans - - - 0 0 0", "trans - - - X 0 0 0",
            "trans - - - 0 0 0 0", "trans - - - 0F 0 0 0", "trans - - -  0 0 0",
            "trans - - - - x 0 0 0", "trans - - x 0 0 0", "eval 31 - 0", "eval 31 - - x 0",
            "date - -", "date - 0", "date - - 0 0", "date  - 0", "date - - -", "date 0 - 0",
            "date 00 25C3 0",
        ] {
            assert!(parse(line).is_err(), "{line:?}");
        }
    }
}
