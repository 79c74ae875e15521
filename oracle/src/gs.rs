//! Chapter "GS strings": translation of a text with codes, quotes and references.

use crate::reader;
use crate::refusal::{Located, Refusal, Refused, Slice};
use crate::variables::{is_name_byte, tables_for, Kind, LentTables, Tables};

const QUOTE: u8 = b'"';
const TOP_BIT: u8 = 128;
/// The deepest text; a macro named in it would be too deep.
const DEEPEST: usize = 16;

/// The word that holds the three flags; its other bits count for nothing.
#[derive(Clone, Copy)]
pub struct Flags(pub u32);

impl Flags {
    pub const NONE: Flags = Flags(0);
    pub const SPACE_ENDS: u32 = 1 << 29;
    pub const BAR_IS_ORDINARY: u32 = 1 << 30;
    pub const QUOTES_ARE_ORDINARY: u32 = 1 << 31;

    fn has(self, flag: u32) -> bool {
        self.0 & flag != 0
    }
}

/// The look-ups that one whole operation may still spend.
pub struct Allowance {
    left: u32,
}

impl Allowance {
    pub const MOST: u32 = 1_024;

    pub fn new(allowed: u32) -> Self {
        Allowance {
            left: allowed.min(Self::MOST),
        }
    }

    /// Spends one look-up.
    pub fn spend(&mut self) -> Result<(), Refusal> {
        self.left = self.left.checked_sub(1).ok_or(Refusal::AllowanceSpent)?;
        Ok(())
    }
}

/// The output that found room; need is its length.
#[derive(Debug, PartialEq, Eq)]
pub struct Translated {
    pub output: Vec<u8>,
    pub end: usize,
    pub free: usize,
}

/// A refused translation; its free count is the room.
#[derive(Debug, PartialEq, Eq)]
pub struct Untranslated {
    pub refused: Located,
    pub need: usize,
}

impl From<Located> for Untranslated {
    /// Every refusal but "no room" has need 0.
    fn from(refused: Located) -> Self {
        Untranslated { refused, need: 0 }
    }
}

/// Translates a text: 18, 13, 20, then what the reading meets, and 1 last.
pub fn translate(
    text: &[u8],
    tables: &LentTables,
    index: Option<&[u8]>,
    flags: Flags,
    allowance: u32,
    room: usize,
) -> Result<Translated, Untranslated> {
    let mut translator = Translator {
        tables: tables_for(text, tables, index)?,
        allowance: Allowance::new(allowance),
        output: Vec::new(),
    };
    let in_text = |refused: Refused| refused.within(Slice::Text);
    let end = translator.lent(text, flags, 0).map_err(in_text)?;
    let output = translator.output;
    let need = output.len();
    if need > room {
        let refused = in_text(Refusal::NoRoom.at(0));
        return Err(Untranslated { refused, need });
    }
    Ok(Translated {
        output,
        end,
        free: room - need,
    })
}

/// The part of a lent slice before the first byte 0, 10 or 13.
pub fn until_end(lent: &[u8]) -> &[u8] {
    let end = lent.iter().position(|byte| matches!(byte, 0 | 10 | 13));
    &lent[..end.unwrap_or(lent.len())]
}

/// The first place from `start` on where no space stands.
pub fn behind_spaces(text: &[u8], start: usize) -> usize {
    let spaces = text[start..].iter().take_while(|&&byte| byte == b' ');
    start + spaces.count()
}

/// A text up to its end, the outer one or the value of a macro.
struct Text<'t> {
    bytes: &'t [u8],
    flags: Flags,
    depth: usize,
}

/// What the outer text and all macros under it share.
struct Translator<'a> {
    tables: Tables<'a>,
    allowance: Allowance,
    output: Vec<u8>,
}

impl Translator<'_> {
    /// Translates one lent text and gives the place of its end.
    fn lent(&mut self, lent: &[u8], flags: Flags, depth: usize) -> Result<usize, Refused> {
        let bytes = until_end(lent);
        let start = behind_spaces(bytes, 0);
        let text = Text {
            bytes,
            flags,
            depth,
        };
        if bytes.get(start) == Some(&QUOTE) && !flags.has(Flags::QUOTES_ARE_ORDINARY) {
            self.quoted(&text, start)
        } else {
            self.unquoted(text, start)
        }
    }

    fn unquoted(&mut self, mut text: Text, start: usize) -> Result<usize, Refused> {
        if text.flags.has(Flags::SPACE_ENDS) {
            let to_space = text.bytes[start..].iter().position(|&byte| byte == b' ');
            text.bytes = to_space.map_or(text.bytes, |length| &text.bytes[..start + length]);
        }
        let mut place = start;
        while place < text.bytes.len() {
            place = self.symbol(&text, place)?;
        }
        Ok(place)
    }

    fn quoted(&mut self, text: &Text, open: usize) -> Result<usize, Refused> {
        let mut place = open + 1;
        loop {
            match (text.bytes.get(place), text.bytes.get(place + 1)) {
                (None, _) => return Err(Refusal::BadString.at(open)),
                (Some(&QUOTE), Some(&QUOTE)) => {
                    self.output.push(QUOTE);
                    place += 2;
                }
                (Some(&QUOTE), _) => return behind_quote(text, place + 1),
                _ => place = self.symbol(text, place)?,
            }
        }
    }

    /// Translates the code, reference or ordinary byte at a place; gives the place behind it.
    fn symbol(&mut self, text: &Text, place: usize) -> Result<usize, Refused> {
        match text.bytes[place] {
            b'|' if !text.flags.has(Flags::BAR_IS_ORDINARY) => {
                let (byte, length) =
                    bar_symbol(&text.bytes[place..]).ok_or(Refusal::BadCode.at(place))?;
                self.output.push(byte);
                Ok(place + length)
            }
            b'<' => {
                let content = reference_content(&text.bytes[place..])
                    .ok_or(Refusal::BadReference.at(place))?;
                // Inside a macro this place is replaced by that of the "<" that named the macro.
                self.reference(content, text.depth)
                    .map_err(|refusal| refusal.at(place))?;
                Ok(place + content.len() + 2)
            }
            ordinary => {
                self.output.push(ordinary);
                Ok(place + 1)
            }
        }
    }

    /// A number up to 255 gives its byte, and a greater one is no name either; any refusal of the
    /// reader's but "too big" makes the content a name.
    fn reference(&mut self, content: &[u8], depth: usize) -> Result<(), Refusal> {
        match reader::read(content, true, None) {
            Ok(number) => {
                let byte = u8::try_from(number.value).map_err(|_| Refusal::CodeOver255)?;
                self.output.push(byte);
            }
            Err(refused) if refused.refusal == Refusal::TooBig => return Err(Refusal::TooBig),
            Err(_) => self.name(content, depth)?,
        }
        Ok(())
    }

    /// A name is refused in the order 10, 11, 12, and spends before a macro's value is read.
    fn name(&mut self, name: &[u8], depth: usize) -> Result<(), Refusal> {
        let found = self.tables.look_up(name).ok_or(Refusal::UnknownName)?;
        let record = found.record;
        if record.kind == Kind::Macro && depth == DEEPEST {
            return Err(Refusal::TooDeep);
        }
        self.allowance.spend()?;
        if let Some(integer) = record.integer() {
            self.output.extend(integer.to_string().bytes());
        } else if record.kind == Kind::String {
            self.output.extend(record.value);
        } else {
            self.lent(record.value, Flags::NONE, depth + 1)
                .map_err(|refused| refused.refusal)?;
        }
        Ok(())
    }
}

/// The end that must follow a closing quote, or the space that stands for it; gives its place.
fn behind_quote(text: &Text, behind: usize) -> Result<usize, Refused> {
    let end = if text.flags.has(Flags::SPACE_ENDS) {
        behind
    } else {
        behind_spaces(text.bytes, behind)
    };
    match text.bytes.get(end) {
        None | Some(b' ') => Ok(end),
        Some(_) => Err(Refusal::BadString.at(end)),
    }
}

/// The byte and the length of the symbol that a bar begins, if it is a good one.
fn bar_symbol(symbol: &[u8]) -> Option<(u8, usize)> {
    match *symbol {
        [_, b'!', b'|', behind, ..] => Some((TOP_BIT | code(behind)?, 4)),
        [_, b'!', b'|' | b'<' | QUOTE, ..] => None,
        [_, b'!', ordinary, ..] => Some((TOP_BIT | ordinary, 3)),
        [_, behind, ..] => Some((code(behind)?, 2)),
        _ => None,
    }
}

/// The codes behind a bar, all but "!".
fn code(behind: u8) -> Option<u8> {
    Some(match behind {
        b'@' => 0,
        letter @ (b'A'..=b'Z' | b'a'..=b'z') => letter.to_ascii_uppercase() - b'A' + 1,
        b'[' | b'{' => 27,
        b'\\' => 28,
        b']' | b'}' => 29,
        b'^' | b'~' => 30,
        b'_' | b'\'' => 31,
        b'?' => 127,
        b'|' | b'<' | QUOTE => behind,
        _ => return None,
    })
}

/// The bytes between a "<" and its ">", if they are one or more and each is allowed in a name.
fn reference_content(reference: &[u8]) -> Option<&[u8]> {
    let inside = &reference[1..];
    let length = inside
        .iter()
        .take_while(|&&byte| is_name_byte(byte))
        .count();
    let good = length > 0 && inside.get(length) == Some(&b'>');
    good.then_some(&inside[..length])
}

#[cfg(test)]
mod tests {
    use super::*;

    const ROOM: usize = 1_000;
    const SPACE: u32 = Flags::SPACE_ENDS;
    const BAR: u32 = Flags::BAR_IS_ORDINARY;
    const QUOTES: u32 = Flags::QUOTES_ARE_ORDINARY;

    fn record(kind: u8, name: &str, value: &[u8]) -> Vec<u8> {
        let header = [86, 82, kind, name.len() as u8, value.len() as u8];
        [&header, name.as_bytes(), value].concat()
    }

    /// The answer as a short text: the output "to" its end, or a refusal "at" its text's place.
    fn over(text: &str, tables: &LentTables, flags: u32, allowance: u32) -> String {
        match translate(text.as_bytes(), tables, None, Flags(flags), allowance, ROOM) {
            Ok(done) => format!("{} to {}", done.output.escape_ascii(), done.end),
            Err(Untranslated {
                refused:
                    Located {
                        refused,
                        slice: Slice::Text,
                    },
                ..
            }) => format!("no {} at {}", refused.refusal.number(), refused.place),
            Err(other) => format!("{other:?}"),
        }
    }

    fn lent(farm: &[u8], house: &[u8]) -> LentTables {
        LentTables {
            farm: farm.to_vec(),
            house: house.to_vec(),
        }
    }

    /// The answer over one table, which is the same whoever's table it is.
    fn shown(text: &str, table: &[u8], flags: u32, allowance: u32) -> String {
        let of_house = over(text, &lent(b"", table), flags, allowance);
        let of_farm = over(text, &lent(table, b""), flags, allowance);
        assert_eq!(of_farm, of_house);
        of_house
    }

    fn plain(text: &str) -> String {
        shown(text, b"", 0, 0)
    }

    fn flagged(text: &str, flags: u32) -> String {
        shown(text, b"", flags, 0)
    }

    #[test]
    fn examples_p10_to_p13() {
        assert_eq!(plain("|!|@"), "\\x80 to 4");
        assert_eq!(plain("\"a\"\"b\""), "a\\\"b to 6");
        assert_eq!(plain("<321>"), "no 21 at 0");
        assert_eq!(shown("<A>b", &[86, 82, 0, 1, 1, 97, 120], 0, 1), "xb to 4");
    }

    #[test]
    fn an_empty_text_needs_no_room() {
        let nothing = Translated {
            output: Vec::new(),
            end: 0,
            free: 0,
        };
        let none = LentTables::default();
        assert_eq!(translate(b"", &none, None, Flags::NONE, 0, 0), Ok(nothing));
    }

    #[test]
    fn a_macro_naming_itself_spends_or_goes_too_deep() {
        let table = record(2, "a", b"<a>");
        for (allowance, refusal) in [(3, 12), (15, 12), (16, 11), (17, 11), (1_024, 11)] {
            let expected = format!("no {refusal} at 0");
            assert_eq!(shown("<a>", &table, 0, allowance), expected);
        }
    }

    #[test]
    fn the_text_ends_everywhere_at_its_end_bytes() {
        assert_eq!(plain("a\nb"), "a to 1");
        assert_eq!(plain("a<\n"), "no 9 at 1");
        assert_eq!(plain("\"a\n\""), "no 8 at 0");
        assert_eq!(plain("<a\n>"), "no 9 at 0");
        assert_eq!(plain("\"a|"), "no 7 at 2");
        assert_eq!(plain("\"a<"), "no 9 at 2");
        assert_eq!(plain("   "), " to 3");
        assert_eq!(flagged("   ", SPACE | QUOTES), " to 3");
    }

    #[test]
    fn quotes_are_decided_from_the_left() {
        assert_eq!(plain("\"\"\""), "no 8 at 0");
        assert_eq!(plain("\"\"\"\""), "\\\" to 4");
        assert_eq!(plain("\"\"x"), "no 8 at 2");
        assert_eq!(plain("a\"b"), "a\\\"b to 3");
    }

    #[test]
    fn the_end_behind_a_closing_quote() {
        assert_eq!(plain("\"a\"  "), "a to 5");
        assert_eq!(flagged("\"a\"  ", SPACE), "a to 3");
        assert_eq!(plain("\"a\"  x"), "no 8 at 5");
        assert_eq!(flagged("\"a\"  x", SPACE), "a to 3");
        assert_eq!(flagged("\"a\"x", SPACE), "no 8 at 3");
        assert_eq!(flagged("\"a b\" ", SPACE), "a b to 5");
    }

    #[test]
    fn bad_codes_stand_at_their_first_bar() {
        for bad in [
            "|", "|!", "|!|", "|!|1", "|!|!", "|1", "| ", "|!<65>", "|!\"", "|!\"\"", "|`",
        ] {
            assert_eq!(plain(&format!("x{bad}")), "no 7 at 1");
        }
        assert_eq!(flagged("x|! ", SPACE), "no 7 at 1");
        assert_eq!(flagged("x|!\"", QUOTES), "no 7 at 1");
    }

    #[test]
    fn the_top_bit_is_set_on_ordinary_bytes_and_codes() {
        assert_eq!(plain("|!|\"|!|<|!||"), "\\xa2\\xbc\\xfc to 12");
        assert_eq!(plain("|! |!>|!\u{1}"), "\\xa0\\xbe\\x81 to 9");
        assert_eq!(flagged("\"|! \"", SPACE), "\\xa0 to 5");
        assert_eq!(
            plain("|A|z|[|}|~|'|?"),
            "\\x01\\x1a\\x1b\\x1d\\x1e\\x1f\\x7f to 14"
        );
    }

    #[test]
    fn flags_make_bars_and_quotes_ordinary() {
        assert_eq!(flagged("|<65>", BAR), "|A to 5");
        assert_eq!(flagged("\"|\"", BAR), "| to 3");
        assert_eq!(flagged("|\"", QUOTES), "\\\" to 2");
        assert_eq!(flagged("\"a", QUOTES), "\\\"a to 2");
        assert_eq!(flagged("  a b", SPACE), "a to 3");
        assert_eq!(flagged("a b", !(SPACE | BAR | QUOTES)), "a b to 3");
    }

    #[test]
    fn bad_references() {
        for bad in ["<", "<>", "<a", "<a b>", "<\"a\">", "<a<b>"] {
            assert_eq!(plain(&format!("x{bad}")), "no 9 at 1");
        }
        assert_eq!(plain("<99999999999x>"), "no 4 at 0");
        for name in [
            "<4294967296_1>", "<37_1>", "<2_>", "<&>", "<12x>", "<256x>", "<a|>", "<-256>",
        ] {
            assert_eq!(plain(name), "no 10 at 0");
        }
    }

    #[test]
    fn numbers_up_to_255_give_their_byte_in_every_spelling() {
        assert_eq!(plain("<0><9><65><254><255>"), "\\x00\\tA\\xfe\\xff to 20");
        for spelling in [
            "255", "&ff", "&FF", "&fF", "2_11111111", "8_377", "10_255", "16_Ff", "35_7a", "36_73",
            "000255", "&0000000000ff", "002_0011111111", "036_0073",
        ] {
            let end = spelling.len() + 2;
            assert_eq!(plain(&format!("<{spelling}>")), format!("\\xff to {end}"));
        }
    }

    #[test]
    fn numbers_over_255_are_refused_in_every_spelling() {
        for spelling in [
            "256", "257", "321", "511", "512", "65535", "65536", "65601", "4294967295", "&100",
            "&1Ff", "&fffffFFF", "2_100000000", "8_400", "10_256", "16_100", "35_7b", "36_74",
            "36_zZ", "000256", "&0000000000100", "002_00100000000", "036_0074",
        ] {
            assert_eq!(plain(&format!("xy<{spelling}>")), "no 21 at 2");
            assert_eq!(plain(&format!("  \"<{spelling}>\"")), "no 21 at 3");
        }
        for too_big in [
            "4294967296", "&100000041", "4_10000000000000000", "36_1z141z4",
        ] {
            assert_eq!(plain(&format!("xy<{too_big}>")), "no 4 at 2");
        }
    }

    #[test]
    fn a_variable_named_like_a_number_is_never_looked_up() {
        for kind in [0, 1, 2] {
            let named = |name| record(kind, name, b"abcd");
            let table = ["256", "&100", "65", "4294967296", "256x"]
                .map(named)
                .concat();
            for allowance in [0, 1, 1_024] {
                let refused = |text| shown(text, &table, 0, allowance);
                assert_eq!(refused("<256>"), "no 21 at 0");
                assert_eq!(refused("<&100>"), "no 21 at 0");
                assert_eq!(refused("<65>"), "A to 4");
                assert_eq!(refused("<4294967296>"), "no 4 at 0");
            }
            assert_eq!(shown("<256X>", &table, 0, 0), "no 12 at 0");
        }
        let named = record(0, "256X", b"name");
        assert_eq!(shown("<256x>", &named, 0, 1), "name to 6");
    }

    #[test]
    fn the_first_refusal_from_the_left_comes_before_a_code_over_255_or_behind_it() {
        for (text, answer) in [
            ("<256", "no 9 at 0"),
            ("<256\n>", "no 9 at 0"),
            ("<256 >", "no 9 at 0"),
            ("< 256>", "no 9 at 0"),
            ("<65><256", "no 9 at 4"),
            ("<256><", "no 21 at 0"),
            ("<<256>", "no 9 at 0"),
            ("<256><4294967296>", "no 21 at 0"),
            ("<4294967296><256>", "no 4 at 0"),
            ("<256><nope>", "no 21 at 0"),
            ("<nope><256>", "no 10 at 0"),
            ("<256>|1", "no 21 at 0"),
            ("|1<256>", "no 7 at 0"),
            ("\"<256>", "no 21 at 1"),
            ("\"<256>\"x", "no 21 at 1"),
            ("\"a\"<256>", "no 8 at 3"),
            ("a\n<256>", "a to 1"),
        ] {
            assert_eq!(plain(text), answer, "{text:?}");
        }
        let none = LentTables::default();
        let refused = translate(b"abc<256>", &none, None, Flags::NONE, 0, 0).expect_err("a code");
        let code = Refusal::CodeOver255.at(3).within(Slice::Text);
        assert_eq!(refused, Untranslated::from(code));
    }

    #[test]
    fn a_code_over_255_stands_where_a_reference_does() {
        assert_eq!(plain("|<256>"), "<256> to 6");
        assert_eq!(plain("|!|<256>"), "\\xbc256> to 8");
        assert_eq!(plain("x|!<256>"), "no 7 at 1");
        assert_eq!(flagged("|<256>", BAR), "no 21 at 1");
        assert_eq!(flagged("\"<256>\"", QUOTES), "no 21 at 1");
        assert_eq!(flagged("a <256>", SPACE), "a to 1");
        assert_eq!(flagged("\"a <256>\"", SPACE), "no 21 at 3");
    }

    #[test]
    fn a_code_over_255_inside_macros_has_the_outermost_place() {
        let table = [
            record(2, "a", b"xx<b>"),
            record(2, "b", b" \"y<256>"),
            record(2, "top", b"<255>"),
            record(2, "cut", b"z\n<256>"),
            record(0, "raw", b"<256>"),
        ]
        .concat();
        assert_eq!(shown("p<a>", &table, 0, 2), "no 21 at 1");
        assert_eq!(
            shown("pq<b>|1", &table, SPACE | BAR | QUOTES, 1),
            "no 21 at 2"
        );
        assert_eq!(shown("p<a>", &table, 0, 1), "no 12 at 1");
        assert_eq!(shown("<top><cut><raw>", &table, 0, 3), "\\xffz<256> to 15");
        // At depth 16 a macro of that name would be too deep.
        let mut deep = record(2, "256", b"");
        for depth in 1..=16 {
            let next = if depth == 16 {
                256.to_string()
            } else {
                format!("m{}", depth + 1)
            };
            deep.extend(record(
                2,
                &format!("m{depth}"),
                format!("<{next}>").as_bytes(),
            ));
        }
        assert_eq!(shown("p<m1>", &deep, 0, 1_024), "no 21 at 1");
    }

    #[test]
    fn what_a_reference_gives_is_not_read_again() {
        let table = [
            record(0, "s", b" \"|<\0"),
            record(1, "n", &[0, 0, 0, 128]),
            record(2, "m", b"  \"a|A\"\0junk"),
        ]
        .concat();
        assert_eq!(shown("\"<S>\" ", &table, SPACE, 1), " \\\"|<\\x00 to 5");
        assert_eq!(shown("<n>", &table, 0, 1), "-2147483648 to 3");
        assert_eq!(
            shown("x<m>", &table, SPACE | BAR | QUOTES, 1),
            "xa\\x01 to 4"
        );
    }

    #[test]
    fn a_refusal_inside_a_macro_has_the_outermost_place() {
        let table = [record(2, "a", b"xx<b>"), record(2, "b", b"y|1")].concat();
        assert_eq!(shown("p<a>", &table, 0, 2), "no 7 at 1");
        assert_eq!(shown("p<a>", &table, 0, 1), "no 12 at 1");
    }

    #[test]
    fn strings_are_fine_in_a_text_of_depth_16() {
        let chain = |last: &[u8]| {
            let mut table = record(0, "s", b"!");
            for index in 1..16 {
                let next = format!("<m{}>", index + 1);
                table.extend(record(2, &format!("m{index}"), next.as_bytes()));
            }
            table.extend(record(2, "m16", last));
            table
        };
        assert_eq!(shown("<m1>", &chain(b"<s>"), 0, 17), "! to 4");
        assert_eq!(shown("<m1>", &chain(b"<s>"), 0, 16), "no 12 at 0");
        assert_eq!(shown("<m1>", &chain(b"<m1>"), 0, 16), "no 11 at 0");
    }

    #[test]
    fn no_room_comes_last() {
        let none = LentTables::default();
        let short = translate(b"abc<nope>", &none, None, Flags::NONE, 0, 0).expect_err("a refusal");
        let unknown = Refusal::UnknownName.at(3).within(Slice::Text);
        assert_eq!(short, Untranslated::from(unknown));
        let short = translate(b"abc", &none, None, Flags::NONE, 0, 2).expect_err("a refusal");
        let refused = Refusal::NoRoom.at(0).within(Slice::Text);
        assert_eq!(short, Untranslated { refused, need: 3 });
    }

    #[test]
    fn macros_of_either_table_name_records_of_either() {
        let farm = [
            record(2, "m", b"f<x><w><n>"),
            record(0, "x", b"farm"),
            record(0, "n", b""),
        ]
        .concat();
        let house = [
            record(0, "X", b"house"),
            record(2, "w", b"h<x>"),
            record(0, "m", b"hidden"),
            record(1, "N", &[1, 0, 0, 0]),
        ]
        .concat();
        let both = lent(&farm, &house);
        assert_eq!(over("<M>", &both, 0, 5), "ffarmhfarm to 3");
        assert_eq!(over("<M>", &both, 0, 4), "no 12 at 0");
        assert_eq!(
            over("<m><w>", &lent(b"", &house), 0, 3),
            "hiddenhhouse to 6"
        );
        assert_eq!(over("<m>", &lent(&farm, b""), 0, 9), "no 10 at 0");
    }

    #[test]
    fn a_look_up_is_spent_once_wherever_it_ends() {
        let both = lent(&record(0, "f", b"F"), &record(0, "h", b"H"));
        assert_eq!(over("<h><f><h>", &both, 0, 3), "HFH to 9");
        assert_eq!(over("<h><f><h>", &both, 0, 2), "no 12 at 6");
        assert_eq!(over("<h>", &both, 0, 0), "no 12 at 0");
        assert_eq!(over("<h><q>", &both, 0, 1), "no 10 at 3");
        assert_eq!(over("<q>", &both, 0, 0), "no 10 at 0");
    }

    #[test]
    fn a_chain_through_both_tables_goes_too_deep_as_in_one() {
        let chain = |last: &[u8]| {
            let mut halves = [record(0, "s", b"!"), Vec::new()];
            for index in 1..=16 {
                let next = format!("<m{}>", index + 1).into_bytes();
                let value = if index == 16 { last } else { &next };
                halves[index % 2].extend(record(2, &format!("m{index}"), value));
            }
            lent(&halves[0], &halves[1])
        };
        assert_eq!(over("<m1>", &chain(b"<s>"), 0, 17), "! to 4");
        assert_eq!(over("<m1>", &chain(b"<s>"), 0, 16), "no 12 at 0");
        assert_eq!(over("<m1>", &chain(b"<m1>"), 0, 1_024), "no 11 at 0");
    }

    #[test]
    fn an_index_that_does_not_fit_is_refused_under_every_text() {
        let farm = record(0, "f", b"F");
        let house = [record(2, "m", b"<A><f>"), record(0, "a", b"x")].concat();
        let both = lent(&farm, &house);
        let (right, wrong) = ([12, 0, 0, 0], [0, 0, 12, 0]);
        let translated =
            |text: &[u8], index: &[u8]| translate(text, &both, Some(index), Flags::NONE, 9, 0);
        let unfit = Untranslated::from(Refusal::BadIndex.at(0).within(Slice::Index));
        for text in [
            "", "x", "|1", "<", "\"", "<4294967296>", "<256>", "<nope>", "<m>", "\n",
        ] {
            for index in [&wrong[..], &right[..3], b"", b"\x0c\0\0\0\0"] {
                assert_eq!(translated(text.as_bytes(), index).as_ref(), Err(&unfit));
            }
            let plain = translate(text.as_bytes(), &both, None, Flags::NONE, 9, 0);
            assert_eq!(translated(text.as_bytes(), &right), plain);
        }
        let done = translate(b"<m><f>", &both, Some(&right), Flags::NONE, 4, 3);
        assert_eq!(done.map(|done| done.output), Ok(b"xFF".to_vec()));
        let over = Untranslated::from(Refusal::OverLong.at(0).within(Slice::Text));
        assert_eq!(translated(&[b'a'; 65_536], &wrong), Err(over));
    }

    #[test]
    fn a_bad_table_is_refused_under_every_text() {
        let good = record(0, "a", b"xyz");
        let bad = [&good[..], b"VR"].concat();
        let at = |place, slice| Untranslated::from(Refusal::BadTable.at(place).within(slice));
        let refused = |farm: &[u8], house: &[u8]| {
            translate(b"|", &lent(farm, house), None, Flags::NONE, 0, 0).expect_err("a refusal")
        };
        assert_eq!(refused(&bad, &good), at(9, Slice::Farm));
        assert_eq!(refused(&good, &bad), at(9, Slice::House));
        assert_eq!(refused(&bad, b"V"), at(9, Slice::Farm));
        assert_eq!(refused(b"", b"V"), at(0, Slice::House));
    }
}
