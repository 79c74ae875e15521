//! Cases of references by number: bytes in every spelling, codes over 255, and variables of such
//! names.

use super::rows::{Piece, Row};
use super::{flags, nameless, trans, BAR, PLENTY, QUOTES, SPACE};
use crate::cases::forms::{in_mixed_case, in_some_form, plain_digits};
use crate::cases::limits::{allowance, room};
use crate::cases::pairs::Pair;
use crate::cases::tables::{entries_by, Entry};
use crate::cases::values::value;
use crate::lines::Case;
use crate::random::Random;
use crate::variables::LONGEST_NAME;

/// Values around 255, around what two bytes and four can hold, and such as are 65 in one byte.
const EDGES: [u64; 13] = [
    254, 255, 256, 257, 321, 511, 512, 65_535, 65_536, 65_601, 4_294_967_295, 4_294_967_296,
    4_294_967_361,
];

/// Names that are numbers, so that nothing leads to them.
const NUMBERS: [&str; 11] = [
    "0", "65", "255", "&FF", "256", "321", "&100", "2_100000000", "00256", "4294967295",
    "4294967296",
];

/// Texts with one code over 255, each with all flags: as it is met, behind and before other faults.
const UNDER_ALL_FLAGS: [&[u8]; 18] = [
    b"<256>", b"  a<256>", b"a <256>", b"\"<256>\"", b"\"a <256>\"", b"\"<256>", b"\"<256>\"x",
    b"\"a\"<256>", b"\"a\" <256>", b"|<256>", b"\"|<256>\"", b"|!<256>", b"|!|<256>", b"||<256>",
    b"a\n<256>", b"<256\n>", b"<256 >", b"\"|\"<256>",
];

/// Texts with a code over 255 at the same reference as another fault, or beside one.
const BESIDE_OTHERS: [&[u8]; 22] = [
    b"<256", b"<256<", b"<\"256\">", b"<256|>", b"<256x>", b"x<256_1>", b"<-256>", b"<256_>",
    b"<<256>", b"<65><256", b"<256><", b"<256><256", b"<256><4294967296>", b"<4294967296><256>",
    b"<4294967295><4294967296>", b"<256><nope>", b"<nope><256>", b"<256x><256>", b"<256>|1",
    b"|1<256>", b"<255><256>", b"<256><255>",
];

/// Every edge in its spellings, the edges of each base, codes among other things.
pub fn fixed() -> Vec<Case> {
    let mut cases: Vec<Case> = EDGES.into_iter().flat_map(edge).collect();
    cases.extend((2..=36).flat_map(edges_of_base));
    cases.push(all_bytes());
    for text in UNDER_ALL_FLAGS {
        for three_bits in 0..8 {
            cases.push(nameless(text, three_bits << 29, PLENTY));
        }
    }
    for text in BESIDE_OTHERS {
        // A refusal that the reading meets comes before "no room".
        cases.extend([nameless(text, 0, PLENTY), nameless(text, 0, 0)]);
    }
    cases
}

/// Variables of such names, and codes in macros.
pub fn over_tables() -> Vec<Case> {
    [beside_variables(), inside_macros(), at_the_end_of_chains()]
        .into_iter()
        .flatten()
        .collect()
}

fn number(value: u64, spelling: Vec<u8>) -> Piece {
    Piece::Number { value, spelling }
}

/// A value in base 10, 16, 2 and 36 as the forms write them, letters in both cases, behind zeros.
fn spellings(value: u64) -> Vec<Vec<u8>> {
    let mut spellings = Vec::new();
    for (form, base) in [("", 10), ("&", 16), ("16_", 16), ("2_", 2), ("036_", 36)] {
        let digits = plain_digits(value, base);
        for zeros in [0, 1, 300] {
            let digits = [vec![b'0'; zeros], digits.to_ascii_uppercase()].concat();
            spellings.push([form.as_bytes(), &digits].concat());
        }
        spellings.push([form.as_bytes(), &digits].concat());
    }
    spellings
}

fn edge(value: u64) -> Vec<Case> {
    let alone = |spelling| Row::alone(vec![Piece::Plain("x"), number(value, spelling)]);
    let agreed = |row: Row| row.agreed(&Pair::default());
    spellings(value)
        .into_iter()
        .map(alone)
        .map(agreed)
        .collect()
}

/// 255 and 256 in one base, each of them behind a byte of that base, by capitals in odd bases.
fn edges_of_base(base: u64) -> Vec<Case> {
    let spelled = |value| {
        let mut digits = plain_digits(value, base);
        if base % 2 == 1 {
            digits.make_ascii_uppercase();
        }
        let spelling = [format!("{base}_").as_bytes(), &digits].concat();
        number(value, spelling)
    };
    [255, 256]
        .map(|value| Row::alone(vec![spelled(65), spelled(value)]).agreed(&Pair::default()))
        .into()
}

/// Each number from 0 to 255 in one text.
fn all_bytes() -> Case {
    let decimal = |value: u64| number(value, value.to_string().into());
    Row::alone((0..256).map(decimal).collect()).agreed(&Pair::default())
}

/// Names that are numbers, with records of each kind, and two that only look like numbers.
fn named_like_numbers() -> Vec<Entry> {
    let records: [fn(&str) -> Entry; 3] = [
        |name| Entry::string(name, b"never"),
        |name| Entry::integer(name, 7),
        |name| Entry::macro_of(name, b"<65>"),
    ];
    let of_each_kind = |(index, name): (usize, &&str)| records[index % 3](name);
    let mut entries: Vec<Entry> = NUMBERS.iter().enumerate().map(of_each_kind).collect();
    entries.push(Entry::string("256x", b"a name"));
    entries.push(Entry::macro_of("37_256", b"<255>"));
    entries
}

/// Numbers where variables have their names; only what is no number spends a look-up.
fn beside_variables() -> Vec<Case> {
    let entries = named_like_numbers();
    let mut turned = entries.clone();
    turned.rotate_left(1);
    let of_other_kinds: Vec<Entry> = entries
        .iter()
        .zip(turned)
        .map(|(entry, other)| Entry {
            name: entry.name.clone(),
            ..other
        })
        .collect();
    let pairs = [
        Pair::in_farm(&entries),
        Pair::in_house(&of_other_kinds),
        Pair::of(&of_other_kinds, &entries),
    ];
    let mut cases = Vec::new();
    for pair in pairs {
        for entry in &entries {
            let text = [b"a<", &entry.name[..], b">"].concat();
            cases.push(trans(&text, &pair, 0, 0, PLENTY));
            cases.push(trans(&text, &pair, 0, 9, PLENTY));
        }
    }
    cases
}

/// Macros with a code over 255 beside other faults, and values in which it is no reference.
fn entries_with_codes() -> Vec<Entry> {
    vec![
        Entry::macro_of("m", b"x<256>"),
        Entry::macro_of("mm", b"<255><m>"),
        Entry::macro_of("mmm", b"z<mm><nope>"),
        Entry::macro_of("top", b"<255>"),
        Entry::macro_of("quoted", b"  \"<&100>\""),
        Entry::macro_of("open", b"\"<256>"),
        Entry::macro_of("closed", b"\"a\"<256>"),
        Entry::macro_of("before", b"<256><nope>"),
        Entry::macro_of("behind", b"<nope><256>"),
        Entry::macro_of("big", b"<4294967296><256>"),
        Entry::macro_of("small", b"<4294967295><4294967296>"),
        Entry::macro_of("code", b"|1<256>"),
        Entry::macro_of("cut", b"a\n<256>"),
        Entry::macro_of("space", b"a <256>"),
        Entry::macro_of("bar", b"|<256>"),
        Entry::string("raw", b"<256>"),
        Entry::string("256", b"never"),
        Entry::macro_of("name", b"<256x>"),
        Entry::integer("256x", 256),
    ]
}

/// A code over 255 in a text has its own place, and inside macros that of the outermost "<".
fn inside_macros() -> Vec<Case> {
    let texts: [&[u8]; 27] = [
        b"\"<256>\"", b"|<256>", b"a\n<256>", b"<255><256>", b"<256><nope>", b"<m>", b"ab<mm>",
        b"ab<mmm>c", b"\"ab<mm>\"", b"<top><m>", b"<m><nope>", b"<nope><m>", b"<m>|1", b"<256><m>",
        b"<quoted>", b"<open>", b"<closed>", b"<before>", b"<behind>", b"<big>", b"<small>",
        b"<code>", b"<cut>", b"<space>", b"<bar>", b"<raw>", b"<name>",
    ];
    let in_turn = Pair::in_turn(&entries_with_codes());
    let swapped = in_turn.swapped();
    let mut cases = Vec::new();
    for text in texts {
        cases.push(trans(text, &in_turn, 0, 9, PLENTY));
        cases.push(trans(text, &swapped, SPACE | BAR | QUOTES, 9, 0));
        cases.push(trans(text, &in_turn, 0, 1, PLENTY));
    }
    cases
}

/// A code at every depth, where a macro that has the code's name would be too deep or spend too much.
fn at_the_end_of_chains() -> Vec<Case> {
    let mut cases = Vec::new();
    for value in [255, 256, 4_294_967_296] {
        let last = vec![number(value, value.to_string().into())];
        for macros in 0..=16 {
            let row = Row {
                macros,
                allowance: macros as u32,
                ..Row::alone(last.clone())
            };
            let mut entries = row.macros();
            entries.push(Entry::macro_of(&value.to_string(), b""));
            cases.push(row.agreed(&Pair::in_turn(&entries)));
        }
    }
    cases
}

/// A name that is a number.
pub fn name(random: &mut Random) -> Vec<u8> {
    random.pick(&NUMBERS).into()
}

fn byte_value(random: &mut Random) -> u64 {
    match random.below(6) {
        0 => random.pick(&[254, 255]),
        // Bytes that would end, open or protect something if they stood in the text themselves.
        1 => u64::from(random.pick(b"\0\n\r \"<>|!")),
        _ => random.below(256) as u64,
    }
}

fn value_over_255(random: &mut Random) -> u64 {
    match random.below(4) {
        0 => random.pick(&EDGES[2..11]),
        // One that is a byte again if its other bits are dropped.
        1 => byte_value(random) + (random.between(1, 0xFF_FFFF) << 8) as u64,
        2 => random.between(256, 300) as u64,
        _ => u64::from(value(random).max(256)),
    }
}

/// A number that gives its byte, in any spelling.
pub fn byte(random: &mut Random) -> Vec<u8> {
    let value = byte_value(random);
    in_some_form(random, value)
}

/// A number that gives no byte and is not too big, in any spelling.
pub fn over_255(random: &mut Random) -> Vec<u8> {
    let value = value_over_255(random);
    in_some_form(random, value)
}

/// A reference by a number, mostly a byte's.
fn random_number(random: &mut Random) -> Piece {
    let value = match random.below(10) {
        0 => value_over_255(random),
        1 => random.pick(&EDGES),
        _ => byte_value(random),
    };
    let spelling = in_some_form(random, value);
    number(value, spelling)
}

/// A row of numbers, the text itself or inside macros, where some of them are variables' names.
pub fn random(random: &mut Random) -> Case {
    let mut pieces = Vec::new();
    for _ in 0..random.between(1, 4) {
        pieces.push(Piece::Plain(random.pick(&["", "", "x", "9", ">", "!&"])));
        pieces.push(random_number(random));
    }
    let macros = random.pick(&[0, 0, 0, 1, 1, 2, 3, 15, 16]);
    let mut row = Row {
        macros,
        flags: flags(random),
        allowance: allowance(random, macros as u32),
        ..Row::alone(pieces)
    };
    row.room = room(random, row.need());
    let mut entries = named_by(random, &row.pieces);
    entries.extend(row.macros());
    row.agreed(&Pair::dealt(random, entries))
}

/// Records of the names that some of the numbers are, in either case.
fn named_by(random: &mut Random, pieces: &[Piece]) -> Vec<Entry> {
    let spelling = |piece: &Piece| match piece {
        Piece::Number { spelling, .. } if spelling.len() <= LONGEST_NAME => Some(spelling.clone()),
        _ => None,
    };
    let names: Vec<Vec<u8>> = pieces.iter().filter_map(spelling).collect();
    let count = if names.is_empty() { 0 } else { random.below(4) };
    entries_by(random, count, |random| {
        let name = &names[random.below(names.len())];
        in_mixed_case(random, name)
    })
}

#[cfg(test)]
mod tests {
    use super::*;
    use crate::reader;

    #[test]
    fn numbers_are_on_their_side_of_255() {
        let mut random = Random::new(6);
        let read = |number: Vec<u8>| reader::read(&number, true, None).expect("a number").value;
        for _ in 0..2_000 {
            assert!(read(byte(&mut random)) <= 255);
            assert!(read(over_255(&mut random)) > 255);
        }
    }

    #[test]
    fn the_names_are_numbers() {
        for name in NUMBERS {
            let read = reader::read(name.as_bytes(), true, None);
            assert!(read.is_ok() || name == "4294967296", "{name}");
        }
    }
}
