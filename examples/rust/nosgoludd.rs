//! Nosgoludd for Rust: the declarations of include/nosgoludd.h, which has the rules, and a safe function over slices for each.
//! An operation comes whole, `Ok`, or it is an `Err(Refusal)` and no byte of a lent buffer was changed. For editions 2021 and 2024.

// a program that copies this module need not use all of it
#![allow(dead_code)]

use std::fmt;

/// The eight functions and their answers as the header declares them. Safe Rust has no way to break what they ask of a caller: a slice
/// is as long as it says, and nothing else reads or writes a `&mut [u8]` while it is lent. The pointer of an empty slice is not used.
mod c {
    use std::mem::{offset_of, size_of};

    #[repr(C)]
    pub struct Answer {
        pub number: u32,
        pub counted: u32,
        pub place: usize,
        pub need: usize,
        pub free: usize,
    }

    #[repr(C)]
    pub struct Number {
        pub number: u32,
        pub value: u32,
        pub place: usize,
    }

    #[repr(C)]
    pub struct Checked {
        pub number: u32,
        pub records: u32,
        pub place: usize,
    }

    #[repr(C)]
    pub struct Variable {
        pub number: u32,
        pub counted: u32,
        pub place: usize,
        pub kind: u32,
        pub length: u32,
        pub start: usize,
    }

    #[repr(C)]
    pub struct Value {
        pub number: u32,
        pub counted: u32,
        pub place: usize,
        pub value: i32,
    }

    unsafe extern "C" {
        pub fn nos_convert(call: u32, value: u32, buf: *mut u8, room: usize) -> Answer;
        pub fn nos_convert_date(
            time: *const u8,
            time_length: usize,
            format: *const u8,
            format_length: usize,
            buf: *mut u8,
            room: usize,
        ) -> Answer;
        pub fn nos_read_unsigned(text: *const u8, length: usize, whole: u32, limit: u32) -> Number;
        pub fn nos_check_table(table: *const u8, length: usize) -> Checked;
        pub fn nos_build_index(table: *const u8, length: usize, out: *mut u8, room: usize) -> Answer;
        pub fn nos_look_up(
            name: *const u8,
            name_length: usize,
            farm: *const u8,
            farm_length: usize,
            house: *const u8,
            house_length: usize,
            index: *const u8,
            index_length: usize,
            indexed: u32,
        ) -> Variable;
        pub fn nos_translate(
            text: *const u8,
            length: usize,
            farm: *const u8,
            farm_length: usize,
            house: *const u8,
            house_length: usize,
            index: *const u8,
            index_length: usize,
            indexed: u32,
            flags: u32,
            allowance: u32,
            out: *mut u8,
            room: usize,
        ) -> Answer;
        pub fn nos_evaluate(
            text: *const u8,
            length: usize,
            farm: *const u8,
            farm_length: usize,
            house: *const u8,
            house_length: usize,
            allowance: u32,
        ) -> Value;
    }

    // the structs lie in memory as the library lays them
    const _: () = assert!(size_of::<Answer>() == 32 && offset_of!(Answer, place) == 8 && offset_of!(Answer, free) == 24);
    const _: () = assert!(size_of::<Number>() == 16 && offset_of!(Number, value) == 4 && offset_of!(Number, place) == 8);
    const _: () = assert!(size_of::<Checked>() == 16 && offset_of!(Checked, records) == 4 && offset_of!(Checked, place) == 8);
    const _: () = assert!(size_of::<Variable>() == 32 && offset_of!(Variable, kind) == 16 && offset_of!(Variable, start) == 24);
    const _: () = assert!(size_of::<Value>() == 24 && offset_of!(Value, place) == 8 && offset_of!(Value, value) == 16);
}

/// The calls of `convert`. The number in a name is that of the digits for hex, and of the low bytes that are used for the others.
pub const DECIMAL: u32 = 0x28;
pub const HEX_1: u32 = 0xD0;
pub const HEX_2: u32 = 0xD1;
pub const HEX_4: u32 = 0xD2;
pub const HEX_6: u32 = 0xD3;
pub const HEX_8: u32 = 0xD4;
pub const UNSIGNED_1: u32 = 0xD5;
pub const UNSIGNED_2: u32 = 0xD6;
pub const UNSIGNED_3: u32 = 0xD7;
pub const UNSIGNED_4: u32 = 0xD8;
pub const SIGNED_1: u32 = 0xD9;
pub const SIGNED_2: u32 = 0xDA;
pub const SIGNED_3: u32 = 0xDB;
pub const SIGNED_4: u32 = 0xDC;
pub const BINARY_1: u32 = 0xDD;
pub const BINARY_2: u32 = 0xDE;
pub const BINARY_3: u32 = 0xDF;
pub const BINARY_4: u32 = 0xE0;
pub const SPACED_UNSIGNED_1: u32 = 0xE1;
pub const SPACED_UNSIGNED_2: u32 = 0xE2;
pub const SPACED_UNSIGNED_3: u32 = 0xE3;
pub const SPACED_UNSIGNED_4: u32 = 0xE4;
pub const SPACED_SIGNED_1: u32 = 0xE5;
pub const SPACED_SIGNED_2: u32 = 0xE6;
pub const SPACED_SIGNED_3: u32 = 0xE7;
pub const SPACED_SIGNED_4: u32 = 0xE8;

/// The flags of a text, to be combined by `|`.
pub const SPACE_ENDS: u32 = 1 << 29;
pub const BAR_PLAIN: u32 = 1 << 30;
pub const QUOTE_PLAIN: u32 = 1 << 31;

/// A limit that refuses nothing.
pub const NO_LIMIT: u32 = u32::MAX;

/// The refusal number of "No room", the one that can be helped by asking again with more room.
pub const NO_ROOM: u32 = 1;

/// The refusal number of "Index does not fit this table", which is helped by building the index again.
pub const BAD_INDEX: u32 = 20;

/// The refusal number of "Code over 255": a text has a number over 255 between "<" and ">", where a byte's has to be.
pub const CODE_OVER_255: u32 = 21;

/// The refusals in words, by their numbers, as the header's `nos_words` has them.
pub const WORDS: [&str; 22] = [
    "Accepted",
    "No room",
    "Bad number: no digit",
    "Bad base",
    "Too big: over 4,294,967,295",
    "Not ended",
    "Over the caller's limit",
    "Bad code",
    "Bad string",
    "Bad reference",
    "Unknown name",
    "Too deep",
    "Allowance spent",
    "Bad table",
    "Unknown call",
    "Bad expression",
    "Zero divisor",
    "Not an integer variable",
    "Text or table over 65,535 bytes, or a time not of five",
    "Bad field",
    "Index does not fit this table",
    "Code over 255",
];

/// The two tables that names are looked up in, each as by `check_table`: a farm's own variables, and those of the house, which all
/// farms share. A name means the farm's variable, else the house's. Either table may be empty; by default both are.
#[derive(Clone, Copy, Debug, Default, PartialEq, Eq)]
pub struct Tables<'a> {
    pub farm: &'a [u8],
    pub house: &'a [u8],
    /// The index of the house table, if there is one: what `build_index` gives for that table as it is now. It changes no answer, and
    /// saves time over a large table; one that does not fit is refused, by `BAD_INDEX`. `evaluate` does not look at it.
    pub index: Option<&'a [u8]>,
}

impl<'a> Tables<'a> {
    /// The bytes of one of the two.
    pub fn bytes_of(self, table: Table) -> &'a [u8] {
        match table {
            Table::Farm => self.farm,
            Table::House => self.house,
        }
    }
}

/// One of the two tables, by the header's number for what is counted in it.
#[derive(Clone, Copy, Debug, PartialEq, Eq)]
#[repr(u32)]
pub enum Table {
    House = 1,
    Farm = 2,
}

impl Table {
    /// The table that `counted` means, if it means one.
    fn counted_by(counted: u32) -> Option<Table> {
        [Table::House, Table::Farm].into_iter().find(|table| *table as u32 == counted)
    }
}

impl fmt::Display for Table {
    fn fmt(&self, f: &mut fmt::Formatter) -> fmt::Result {
        f.write_str(match self {
            Table::House => "the house table",
            Table::Farm => "the farm's table",
        })
    }
}

/// Why there is no answer.
#[derive(Clone, Copy, Debug, PartialEq, Eq)]
pub struct Refusal {
    /// The number, 1 to 21.
    pub number: u32,
    /// Where, in bytes from 0.
    pub place: usize,
    /// Which of the two tables the place is counted in; none where it is in the text or the format, in the one table of `check_table`,
    /// or in the index, as that of `BAD_INDEX` is.
    pub table: Option<Table>,
    /// The room that would have been enough, where the number is `NO_ROOM`; else 0.
    pub need: usize,
}

impl Refusal {
    /// The refusal in words.
    pub fn words(&self) -> &'static str {
        WORDS[self.number as usize]
    }
}

impl fmt::Display for Refusal {
    fn fmt(&self, f: &mut fmt::Formatter) -> fmt::Result {
        let Refusal { number, place, need, .. } = self;
        match (self.number, self.table) {
            (NO_ROOM, _) => write!(f, "refused {number}, {}, need {need}", self.words()),
            (_, Some(table)) => write!(f, "refused {number} at {place} in {table}, {}", self.words()),
            (_, None) => write!(f, "refused {number} at {place}, {}", self.words()),
        }
    }
}

impl std::error::Error for Refusal {}

/// Nothing where a number is that of an accepted answer, else the refusal.
fn accepted(number: u32, counted: u32, place: usize, need: usize) -> Result<(), Refusal> {
    match number {
        0 => Ok(()),
        _ => Err(Refusal { number, place, table: Table::counted_by(counted), need }),
    }
}

/// Writes a value as a string to the start of `buf`, with a zero byte behind it; the string without that byte. [`DECIMAL`] writes no
/// zero byte, so that its string may fill `buf`, and the next byte stays.
pub fn convert(call: u32, value: u32, buf: &mut [u8]) -> Result<&str, Refusal> {
    // SAFETY: the pointer and the room are those of one exclusive slice.
    let a = unsafe { c::nos_convert(call, value, buf.as_mut_ptr(), buf.len()) };
    accepted(a.number, a.counted, a.place, a.need)?;
    Ok(std::str::from_utf8(&buf[..a.place]).expect("digits, letters, spaces and a minus are ASCII"))
}

/// Writes a time, five bytes, by a format to the start of `buf`, with a zero byte behind it; the string without that byte.
pub fn convert_date<'a>(time: &[u8], format: &[u8], buf: &'a mut [u8]) -> Result<&'a [u8], Refusal> {
    // SAFETY: each pointer and the length behind it are those of one slice, and `buf` is exclusive, so it overlaps no other.
    let a = unsafe { c::nos_convert_date(time.as_ptr(), time.len(), format.as_ptr(), format.len(), buf.as_mut_ptr(), buf.len()) };
    accepted(a.number, a.counted, a.place, a.need)?;
    Ok(&buf[..a.place])
}

/// Writes a time by a format into as many bytes as that needs: asks with no room, and again with the need that the refusal carries.
/// The string comes without its zero byte.
pub fn convert_date_to_vec(time: &[u8], format: &[u8]) -> Result<Vec<u8>, Refusal> {
    match convert_date(time, format, &mut []) {
        Ok(_) => unreachable!("the zero byte takes room"),
        Err(Refusal { number: NO_ROOM, need, .. }) => {
            let mut buf = vec![0; need];
            convert_date(time, format, &mut buf)?;
            buf.pop(); // the zero byte
            Ok(buf)
        }
        Err(refusal) => Err(refusal),
    }
}

#[derive(Clone, Copy, Debug, PartialEq, Eq)]
pub struct Number {
    pub value: u32,
    /// The place of the first byte not read.
    pub end: usize,
}

/// Reads one unsigned number at the start of a text.
pub fn read_unsigned(text: &[u8], whole: bool, limit: u32) -> Result<Number, Refusal> {
    // SAFETY: the pointer and the length are those of one slice.
    let a = unsafe { c::nos_read_unsigned(text.as_ptr(), text.len(), whole.into(), limit) };
    accepted(a.number, 0, a.place, 0)?;
    Ok(Number { value: a.value, end: a.place })
}

/// Checks a table of variables; the number of its records.
pub fn check_table(table: &[u8]) -> Result<usize, Refusal> {
    // SAFETY: the pointer and the length are those of one slice.
    let a = unsafe { c::nos_check_table(table.as_ptr(), table.len()) };
    accepted(a.number, 0, a.place, 0)?;
    Ok(a.records as usize)
}

/// Writes the index of a table to the start of `out`; the index. A refusal of the table names it as the house's, whose index it is for.
pub fn build_index<'a>(table: &[u8], out: &'a mut [u8]) -> Result<&'a [u8], Refusal> {
    // SAFETY: each pointer and the length behind it are those of one slice, and `out` is exclusive, so it does not overlap `table`.
    let a = unsafe { c::nos_build_index(table.as_ptr(), table.len(), out.as_mut_ptr(), out.len()) };
    accepted(a.number, a.counted, a.place, a.need)?;
    Ok(&out[..a.need])
}

/// Writes the index of a table into as many bytes as it needs: asks with no room, and again with the need that the refusal carries.
pub fn build_index_to_vec(table: &[u8]) -> Result<Vec<u8>, Refusal> {
    match build_index(table, &mut []) {
        Ok(_) => Ok(Vec::new()), // of an empty table
        Err(Refusal { number: NO_ROOM, need, .. }) => {
            let mut out = vec![0; need];
            build_index(table, &mut out)?;
            Ok(out)
        }
        Err(refusal) => Err(refusal),
    }
}

/// The index as the library takes it: what it points to, its length, and whether it is there at all.
fn lent(index: Option<&[u8]>) -> (*const u8, usize, u32) {
    index.map_or((std::ptr::null(), 0, 0), |bytes| (bytes.as_ptr(), bytes.len(), 1))
}

#[derive(Clone, Copy, Debug, PartialEq, Eq)]
pub enum Variable<'a> {
    String(&'a [u8]),
    Integer(i32),
    Macro(&'a [u8]),
}

/// What a name means, and where.
#[derive(Clone, Copy, Debug, PartialEq, Eq)]
pub struct Found<'a> {
    /// The bytes of a string or a macro are a part of the table that holds them.
    pub variable: Variable<'a>,
    pub table: Table,
}

/// Looks a name up: in the farm's table, then in the house's, there through the index if there is one.
pub fn look_up<'a>(name: &[u8], tables: Tables<'a>) -> Result<Found<'a>, Refusal> {
    let Tables { farm, house, index } = tables;
    let (index, index_length, indexed) = lent(index);
    // SAFETY: each pointer and the length behind it are those of one slice; an index that is not there has no bytes.
    let a = unsafe {
        c::nos_look_up(
            name.as_ptr(),
            name.len(),
            farm.as_ptr(),
            farm.len(),
            house.as_ptr(),
            house.len(),
            index,
            index_length,
            indexed,
        )
    };
    accepted(a.number, a.counted, a.place, 0)?;
    let table = Table::counted_by(a.counted).expect("a variable stands in one of the tables");
    let value = &tables.bytes_of(table)[a.start..][..a.length as usize];
    let variable = match a.kind {
        0 => Variable::String(value),
        1 => Variable::Integer(i32::from_le_bytes(value.try_into().expect("an integer has 4 bytes"))),
        2 => Variable::Macro(value),
        _ => unreachable!("a good table has no other kind"),
    };
    Ok(Found { variable, table })
}

#[derive(Clone, Copy, Debug, PartialEq, Eq)]
pub struct Translated<'a> {
    /// The start of `out`, as far as it was written.
    pub bytes: &'a [u8],
    /// The place of the text's end.
    pub end: usize,
}

/// Translates a text into the start of `out`. Empty tables know no name; no translation takes more than 1,024 look-ups. A number between
/// "<" and ">" is a byte, 0 to 255; one over 255 is refused, by `CODE_OVER_255`, in a macro too.
pub fn translate<'a>(
    text: &[u8],
    Tables { farm, house, index }: Tables,
    flags: u32,
    allowance: u32,
    out: &'a mut [u8],
) -> Result<Translated<'a>, Refusal> {
    let (index, index_length, indexed) = lent(index);
    // SAFETY: each pointer and the length behind it are those of one slice, an index that is not there has no bytes, and `out` is
    // exclusive, so it overlaps no other.
    let a = unsafe {
        c::nos_translate(
            text.as_ptr(),
            text.len(),
            farm.as_ptr(),
            farm.len(),
            house.as_ptr(),
            house.len(),
            index,
            index_length,
            indexed,
            flags,
            allowance,
            out.as_mut_ptr(),
            out.len(),
        )
    };
    accepted(a.number, a.counted, a.place, a.need)?;
    Ok(Translated { bytes: &out[..a.need], end: a.place })
}

/// Translates a text into as many bytes as it needs: asks with no room, and again with the need that the refusal carries.
pub fn translate_to_vec(text: &[u8], tables: Tables, flags: u32, allowance: u32) -> Result<Vec<u8>, Refusal> {
    match translate(text, tables, flags, allowance, &mut []) {
        Ok(_) => Ok(Vec::new()),
        Err(Refusal { number: NO_ROOM, need, .. }) => {
            let mut out = vec![0; need];
            translate(text, tables, flags, allowance, &mut out)?;
            Ok(out)
        }
        Err(refusal) => Err(refusal),
    }
}

#[derive(Clone, Copy, Debug, PartialEq, Eq)]
pub struct Evaluated {
    pub value: i32,
    /// The place of the text's end.
    pub end: usize,
}

/// Evaluates an expression of signed 32-bit numbers over two tables of variables.
pub fn evaluate(text: &[u8], Tables { farm, house, .. }: Tables, allowance: u32) -> Result<Evaluated, Refusal> {
    // SAFETY: each pointer and the length behind it are those of one slice.
    let a =
        unsafe { c::nos_evaluate(text.as_ptr(), text.len(), farm.as_ptr(), farm.len(), house.as_ptr(), house.len(), allowance) };
    accepted(a.number, a.counted, a.place, 0)?;
    Ok(Evaluated { value: a.value, end: a.place })
}
