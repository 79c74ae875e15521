//! Cases for the chapter "GS strings".

mod codes;
#[cfg(test)]
mod kinds;
mod rows;

use super::forms::{bad_base, in_mixed_case, no_digit, soup, spaces, too_big};
use super::limits::{allowance, least_allowance, room};
use super::pairs::{bad_table, ill_pairs, over_long_table, OneName, Pair};
use super::tables::{entries_by, numbered, numbered_from, one_of_each_kind, random_name, Entry};
use crate::gs::{translate, Flags};
use crate::lines::Case;
use crate::random::Random;
use crate::variables::{Kind, LentTables};

const SPACE: u32 = Flags::SPACE_ENDS;
const BAR: u32 = Flags::BAR_IS_ORDINARY;
const QUOTES: u32 = Flags::QUOTES_ARE_ORDINARY;
const PLENTY: usize = 1_000;

/// The bytes that are good behind a bar, all but "!".
const CODES: &[u8] = b"@ABCDEFGHIJKLMNOPQRSTUVWXYZabcdefghijklmnopqrstuvwxyz[{\\]}^~_'?|<\"";

/// Texts that tell two readings of the rules apart, under every combination of flags.
const SHARP_UNDER_ALL_FLAGS: [&[u8]; 23] = [
    b"   ", b"  a b  ", b"a\tb c", b"\"a\"\"b\"", b"\"\"", b"\"\"\"", b"\"\"\"\"", b"\"\"x",
    b"\"a\"  ", b"\"a\"  x", b"\"a\"x", b"\"a b\" c", b" \"a", b"a\"b\" c", b"|\"a\"", b"\"|\" x",
    b"|<65>", b"|!\"\"", b"|! x", b"\"|! x\"", b"\"a|", b"\"a<", b"<a b>",
];

/// Texts that need no flags to be sharp.
const SHARP: [&[u8]; 53] = [
    b"|!|@", b"<321>", b"a<", b"a\nb", b"a\0b", b"a\rb", b"\"a\n\"", b"<a\n>", b"|\nA", b"|!\nA",
    b"|!|\nA", b"\n", b"  \0", b"\"a\" \nx", b"|", b"|!", b"|!|", b"|!|1", b"|!|!", b"|!|!A",
    b"|!<65>", b"|!|<65>", b"|!|\"|!|<|!||", b"|!>|!\x01|!\x80|!\xFF|!\x09", b"| ", b"|1", b"|!!",
    b"<", b"<>", b"<<65>", b"<65", b"<65>>", b"<6 5>", b"<\"65\">", b"<65|>", b"<\x8065>",
    b"<&41><8_101><0065><2_1000001>", b"<0><&FF><255>", b"<256>", b"<4294967296>",
    b"x<99999999999x>", b"<&100000000>", b"<4294967296_1>", b"<37_1>", b"<2_>", b"<&>", b"<12x>",
    b"<-1>", b"<65 >", b"<|><a|>", b"ab<nope><4294967296>", b"|1<", b"<|1",
];

fn trans(text: &[u8], pair: &Pair, flags: u32, allowance: u32, room: usize) -> Case {
    Case::Trans {
        text: text.to_vec(),
        tables: pair.lent(),
        index: None,
        flags,
        allowance,
        room,
    }
}

/// A text without names, over two empty tables.
fn nameless(text: &[u8], flags: u32, room: usize) -> Case {
    trans(text, &Pair::default(), flags, 0, room)
}

/// A text with few look-ups over tables that are perhaps bad or over-long.
fn over(text: &[u8], farm: &[u8], house: &[u8], room: usize) -> Case {
    let tables = LentTables {
        farm: farm.to_vec(),
        house: house.to_vec(),
    };
    Case::Trans {
        text: text.to_vec(),
        tables,
        index: None,
        flags: 0,
        allowance: 1,
        room,
    }
}

/// The examples, the sharp texts, every code, the numbers, the texts over tables, long texts.
pub fn fixed() -> Vec<Case> {
    let mut cases = examples();
    for text in SHARP {
        cases.push(nameless(text, 0, PLENTY));
    }
    for text in SHARP_UNDER_ALL_FLAGS {
        for three_bits in 0..8 {
            cases.push(nameless(text, three_bits << 29, PLENTY));
        }
    }
    cases.extend(behind_bars());
    cases.extend(codes::fixed());
    cases.extend(over_tables());
    cases.extend(long());
    cases
}

/// The names, the depths, the allowances, the rooms, the tables.
pub fn over_tables() -> Vec<Case> {
    [
        named(),
        one_name_everywhere(),
        macros_across(),
        depths(),
        allowances(),
        rooms(),
        in_ill_pairs(),
        in_full_tables(),
        codes::over_tables(),
    ]
    .into_iter()
    .flatten()
    .collect()
}

/// P10 to P13 and the examples that are not marked.
fn examples() -> Vec<Case> {
    let itself = [Entry::macro_of("a", b"<a>")];
    let p13 = [Entry::string("a", b"x")];
    let mut cases = vec![
        nameless(b"|!|@", 0, 1),
        nameless(b"\"a\"\"b\"", 0, 3),
        nameless(b"<321>", 0, 1),
        trans(b"<A>b", &Pair::in_house(&p13), 0, 1, 2),
        trans(b"<A>b", &Pair::in_farm(&p13), 0, 1, 2),
        nameless(b"", 0, 0),
        nameless(b"a<\n", 0, 65_535),
    ];
    // The farm's macro never leads to what it hides.
    let hiding = Pair::of(&itself, &p13);
    for pair in [Pair::in_house(&itself), Pair::in_farm(&itself), hiding] {
        for allowance in [0, 1, 3, 15, 16, 17, 1_024, 1_025, u32::MAX] {
            cases.push(trans(b"<a>", &pair, 0, allowance, PLENTY));
        }
    }
    cases
}

/// All good codes in one text, then each bad one behind "|" and behind "|!|".
fn behind_bars() -> Vec<Case> {
    let each_behind = |bar: &[u8], bytes: &[u8]| -> Vec<u8> {
        let symbol = |&byte: &u8| [bar, &[byte]].concat();
        bytes.iter().flat_map(symbol).collect()
    };
    let ordinary: Vec<u8> = (1..=255)
        .filter(|byte| !b"\n\r\"<|".contains(byte))
        .collect();
    let mut cases = vec![
        nameless(&each_behind(b"|", CODES), 0, PLENTY),
        nameless(&each_behind(b"|!|", CODES), 0, PLENTY),
        nameless(&each_behind(b"|!", &ordinary), 0, PLENTY),
        nameless(&ordinary[1..], 0, PLENTY),
    ];
    for byte in (32..=128).chain([1, 9, 31, 160, 255]) {
        if !CODES.contains(&byte) {
            cases.push(nameless(&[b'x', b'|', byte, b'A'], 0, PLENTY));
            cases.push(nameless(&[b'x', b'|', b'!', b'|', byte], QUOTES, PLENTY));
        }
    }
    cases
}

/// Records that names in the sharp texts below lead to.
fn telling_entries() -> Vec<Entry> {
    vec![
        Entry::string("s", b" \"|<n>\0\n"),
        Entry::integer("n", 0x8000_0000),
        Entry::macro_of("m", b"  \"a|A<s>\" \0junk"),
        Entry::macro_of("space", b"a b"),
        Entry::macro_of("open", b"\"a"),
        Entry::macro_of("behind", b"\"a\" x"),
        Entry::macro_of("code", b"|1"),
        Entry::macro_of("cut", b"<n"),
        Entry::macro_of("big", b"<4294967296>"),
        Entry::macro_of("lost", b"x<nope>"),
        Entry::macro_of("over", b"y<lost>"),
        Entry::string("123", b"never"),
        Entry::string("12x", b"name"),
        Entry::string("99999999999x", b"never"),
        Entry::string("4294967296_1", b"base"),
        Entry::string("a|", b"bar"),
        Entry::integer("&", 7),
    ]
}

/// Names of every kind, among them such as look like numbers, and refusals inside macros.
fn named() -> Vec<Case> {
    let texts: [&[u8]; 24] = [
        b"<s>", b"\"<s>\"", b"\"<s>\" ", b"<N>", b"<m>", b"<M><m>", b"|!|<m>", b"<space>",
        b"<open>", b"<behind>", b"<code>", b"<cut>", b"<big>", b"pq<lost>", b"pq<over>r",
        b"<over><4294967296>", b"<123>", b"<12X>", b"<99999999999x>", b"<4294967296_1>", b"<a|>",
        b"<&>", b"<n <n>", b"<nnnnnnnnnnnnnnnnnnnnnnnnnnnnnnnnn>",
    ];
    let in_turn = Pair::in_turn(&telling_entries());
    let swapped = in_turn.swapped();
    let in_house = Pair::in_house(&telling_entries());
    let mut cases = Vec::new();
    for text in texts {
        cases.push(trans(text, &in_turn, 0, 1, PLENTY));
        cases.push(trans(text, &swapped, SPACE | BAR | QUOTES, 9, PLENTY));
        cases.push(trans(text, &in_house, 0, 0, 0));
    }
    cases
}

/// A name of every kind or none in either table, with no look-up, with one, with one for a macro.
fn one_name_everywhere() -> Vec<Case> {
    let mut cases = Vec::new();
    for one_name in OneName::everywhere() {
        let pair = one_name.pair();
        for allowance in 0..=2 {
            cases.push(trans(b"a<vv>", &pair, 0, allowance, PLENTY));
        }
        cases.push(trans(b"<VV><w><Vv>", &pair, 0, 9, PLENTY));
    }
    cases
}

/// A farm's and a house's records that name each other, hide each other and are hidden.
fn crossing_entries() -> Pair {
    let farm = [
        Entry::macro_of("m", b"[<h>]"),
        Entry::string("x", b"farm"),
        Entry::macro_of("self", b"<self>"),
        Entry::macro_of("mm", b"<hm><x>"),
        Entry::string("f", b"F"),
        Entry::integer("n", 5),
        Entry::string("e", b""),
    ];
    let house = [
        Entry::string("h", b"H"),
        Entry::macro_of("hm", b"(<f><h>)"),
        Entry::string("X", b"house"),
        Entry::macro_of("hx", b"<x>"),
        Entry::string("SELF", b"hidden"),
        Entry::macro_of("N", b"|1"),
        Entry::macro_of("k", b"<n>"),
        Entry::string("E", b"full"),
        Entry::macro_of("M", b"<nope>"),
    ];
    Pair::of(&farm, &house)
}

/// Macros of either table with names of either, and the look-ups that they spend.
fn macros_across() -> Vec<Case> {
    let texts: [&[u8]; 12] = [
        b"<m>", b"<mm>", b"<hx>", b"<self>", b"<n>", b"<k>", b"<e>", b"<h><f>", b"<e><nope>",
        b"<h><nope>", b"<m><hx><k>", b"<nope>",
    ];
    let pair = crossing_entries();
    let swapped = pair.swapped();
    let mut cases = Vec::new();
    for text in texts {
        for allowance in [0, 1, 2, 3, 4, 5, 6, 1_024] {
            cases.push(trans(text, &pair, 0, allowance, PLENTY));
        }
        for allowance in [0, 2, 1_024] {
            cases.push(trans(text, &swapped, 0, allowance, PLENTY));
        }
    }
    cases
}

/// Macros m1 to m-so-many, each naming the next, the last one with a value of its own.
fn chain(length: usize, last: &[u8]) -> Vec<Entry> {
    let mut entries: Vec<Entry> = (1..length)
        .map(|index| {
            let next = format!("<m{}>", index + 1);
            Entry::macro_of(&format!("m{index}"), next.as_bytes())
        })
        .collect();
    entries.push(Entry::macro_of(&format!("m{length}"), last));
    entries
}

/// Macros of both tables around depth 16, what the deepest one holds, and the look-ups they spend.
fn depths() -> Vec<Case> {
    let lasts: [&[u8]; 7] = [b"x", b"<s>", b"<n>", b"<65>", b"<256>", b"<m1>", b"<nope>"];
    let mut cases = Vec::new();
    for length in [15, 16, 17] {
        for last in lasts {
            let mut entries = chain(length, last);
            entries.push(Entry::string("s", b"deep"));
            entries.push(Entry::integer("n", 5));
            let in_turn = Pair::in_turn(&entries);
            let spent = length as u32;
            for allowance in [spent - 1, spent, spent + 1, u32::MAX] {
                cases.push(trans(b"ab<m1>", &in_turn, 0, allowance, PLENTY));
            }
            let ends_apart = Pair::split(&entries, |index| index == 0 || index + 1 == length);
            for pair in [in_turn.swapped(), ends_apart.swapped(), ends_apart] {
                cases.push(trans(b"ab<m1>", &pair, 0, u32::MAX, PLENTY));
            }
        }
    }
    cases
}

/// Texts that spend 1,023 to 1,025 look-ups, by macros of 85 and by themselves.
fn allowances() -> Vec<Case> {
    let in_both = [Entry::string("s", b"")];
    let hidden = [Entry::integer("S", 0)];
    let in_house = [
        Entry::macro_of("m", &b"<s><t>".repeat(42)),
        Entry::string("t", b""),
    ];
    let pair = Pair::of(&in_both, &[&in_house[..], &hidden].concat());
    let mut cases = Vec::new();
    for single in 3..=5 {
        let text = [b"<m>".repeat(12), b"<t>".repeat(single)].concat();
        for allowance in [1_023, 1_024, 1_025, u32::MAX] {
            cases.push(trans(&text, &pair, 0, allowance, PLENTY));
        }
    }
    let each_once_more = [b"<s><t>".repeat(512), b"<s>".to_vec()].concat();
    cases.push(trans(&each_once_more, &pair, 0, 2_000, PLENTY));
    cases.push(trans(&b"<t>".repeat(1_024), &pair, 0, 2_000, PLENTY));
    cases
}

/// Rooms around the need, and a refusal that comes before "no room".
fn rooms() -> Vec<Case> {
    let long = [Entry::string("s", &[b'v'; 255])];
    let short = [Entry::string("s", b"v")];
    let pair = Pair::of(&long, &short);
    let mut cases = Vec::new();
    for room in [0, 1, 255, 256, 257] {
        cases.push(trans(b"<s>x", &pair, 0, 1, room));
        cases.push(trans(b"<s>x", &pair.swapped(), 0, 1, room));
    }
    cases.push(trans(b"abc<nope>", &pair, 0, 1, 0));
    cases.push(trans(b"\"abc", &pair, 0, 1, 0));
    // The need is far over the longest text, 1,024 times 255.
    cases.push(trans(&b"<s>".repeat(1_024), &pair, 0, 1_024, 65_535));
    cases
}

/// Bad tables come before everything that a text meets, even where it names nothing.
fn in_ill_pairs() -> Vec<Case> {
    let texts: [&[u8]; 5] = [b"", b"|", b"<f>", b"<h>x", b"<256>"];
    let mut cases = Vec::new();
    for lent in ill_pairs() {
        for (room, text) in texts.iter().enumerate() {
            cases.push(over(text, &lent.farm, &lent.house, room));
        }
    }
    cases
}

/// Around 256 records in each table, 512 names in all.
fn in_full_tables() -> Vec<Case> {
    let mut cases = Vec::new();
    for (farm, house) in [(256, 256), (257, 256), (256, 257), (257, 257)] {
        let mut pair = Pair::of(&numbered(farm), &numbered_from(300, house));
        pair.farm[255].value = b"last of the farm".to_vec();
        pair.house[255].value = b"last of the house".to_vec();
        let [of_farm, of_house] = [&pair.farm[255].name, &pair.house[255].name];
        let text = [b"<", &of_farm[..], b"><", &of_house[..], b">"].concat();
        cases.push(trans(&text, &pair, 0, 2, PLENTY));
    }
    cases
}

/// Texts and tables around 65,535 bytes; few, for each is a long line.
fn long() -> Vec<Case> {
    let ended_early = [b"ab\0".to_vec(), vec![b'|'; 65_533]].concat();
    let longest = [b" ".to_vec(), b"\"\"".repeat(32_767)].concat();
    let (bad, over_long) = (bad_table(), over_long_table());
    vec![
        nameless(&longest, 0, 65_535),
        over(&ended_early, &over_long, &[0; 65_537], 2),
        over(b"|", &over_long, &over_long, 0),
        over(b"|", &over_long, &bad, 0),
        over(b"|", &bad, &over_long, 0),
    ]
}

pub fn random(random: &mut Random) -> Case {
    let (text, tables) = match random.below(12) {
        0 => deep(random),
        1 => in_any_tables(random),
        2 => (soup(random, b"\"\"||!!<>@a65 \n", 9), LentTables::default()),
        3 => return codes::random(random),
        _ => {
            let pair = pair(random);
            (text(random, &pair.names()), pair.lent())
        }
    };
    let flags = flags(random);
    with_limits(random, text, tables, flags)
}

/// No flags often, or each combination, with or without bits that count for nothing.
fn flags(random: &mut Random) -> u32 {
    let three_bits = random.pick(&[0, 0, 0, 0, 1, 2, 3, 4, 5, 6, 7]) << 29;
    let others = random.word() % (1 << 29);
    three_bits | random.pick(&[0, 0, others])
}

/// Adds an allowance and a room, both around the exact ones.
fn with_limits(random: &mut Random, text: Vec<u8>, tables: LentTables, flags: u32) -> Case {
    let under = |allowance| translate(&text, &tables, None, Flags(flags), allowance, usize::MAX);
    let exact = least_allowance(|allowance| under(allowance).err().map(|no| no.refused));
    let allowance = allowance(random, exact);
    let need = under(allowance).map_or(2, |translated| translated.output.len());
    Case::Trans {
        room: room(random, need),
        text,
        tables,
        index: None,
        flags,
        allowance,
    }
}

/// Records whose macros name mostly what is behind their own name, in either table, so that few
/// name themselves.
fn pair(random: &mut Random) -> Pair {
    let count = random.below(6);
    let entries = entries_by(random, count, name);
    let mut pair = Pair::dealt(random, entries);
    let names = pair.names();
    for entry in pair.farm.iter_mut().chain(&mut pair.house) {
        if entry.kind == Kind::Macro {
            let is_own = |name: &Vec<u8>| name.eq_ignore_ascii_case(&entry.name);
            let behind = names.iter().position(is_own).map_or(0, |own| own + 1);
            let first = if random.one_in(12) { 0 } else { behind };
            entry.value = text(random, &names[first..]);
            entry.value.truncate(255);
        }
    }
    pair
}

/// Any name, now and then one that is a number.
fn name(random: &mut Random) -> Vec<u8> {
    if random.one_in(8) {
        codes::name(random)
    } else {
        random_name(random)
    }
}

/// Any text with tables of which one or both are perhaps damaged.
fn in_any_tables(random: &mut Random) -> (Vec<u8>, LentTables) {
    let pair = pair(random);
    let text = text(random, &pair.names());
    (text, pair.damaged(random))
}

/// A chain of macros of a length around the deepest, entered at its first, second or third.
fn deep(random: &mut Random) -> (Vec<u8>, LentTables) {
    let length = random.pick(&[2, 14, 15, 16, 16, 17, 17, 18, 19]);
    let known = Pair::in_farm(&one_of_each_kind()).names();
    let last = text(random, &known);
    let mut entries = chain(length, &last);
    for entry in &mut entries {
        if random.one_in(8) {
            entry.value.splice(0..0, symbol(random, &known));
        }
    }
    entries.extend(one_of_each_kind());
    let before = symbol(random, &known);
    let entrance = format!("<M{}>", random.between(1, length.min(3)));
    let text = [before, entrance.into_bytes()].concat();
    (text, Pair::dealt(random, entries).lent())
}

/// A text with symbols of every kind, with faults in some, perhaps quoted, perhaps ended early.
fn text(random: &mut Random, names: &[Vec<u8>]) -> Vec<u8> {
    let count = random.below(6);
    let mut symbols: Vec<Vec<u8>> = (0..count).map(|_| symbol(random, names)).collect();
    if random.below(5) < 2 {
        let place = random.below(symbols.len() + 1);
        symbols.insert(place, fault(random));
    }
    let mut text = spaces(random);
    if random.one_in(3) {
        text.extend(quoted(random, &symbols.concat()));
    } else {
        text.extend(symbols.concat());
    }
    if random.one_in(6) {
        text.push(random.pick(&[0, 10, 13]));
        // No fault behind the end is met.
        text.extend(if random.one_in(2) {
            fault(random)
        } else {
            symbol(random, names)
        });
    }
    text
}

/// A quoted string and what follows it, mostly the end.
fn quoted(random: &mut Random, inside: &[u8]) -> Vec<u8> {
    let close = random.pick(&["\"", "\"", "\"", "\"", "\"\"\"", ""]);
    let behind = random.pick(&["", "", "", " ", "  ", "  x", "x", "\" ", " \""]);
    [b"\"", inside, close.as_bytes(), behind.as_bytes()].concat()
}

/// A symbol that is good in an unquoted text, and mostly in a quoted one.
fn symbol(random: &mut Random, names: &[Vec<u8>]) -> Vec<u8> {
    match random.below(16) {
        0..=2 => random
            .pick(&["a", "bc", "Z9", ">", "!", "{}", "\x7F"])
            .into(),
        3 => vec![random.between(1, 9) as u8, random.between(128, 255) as u8],
        4 => random.pick(&[" ", "  ", " x"]).into(),
        5 => random.pick(&["\"\"", "\"\"", "\""]).into(),
        6 | 7 => vec![b'|', random.pick(CODES)],
        8 => vec![b'|', b'!', b'|', random.pick(CODES)],
        9 => vec![b'|', b'!', random.pick(b" !>'1Az\x01\x7F\x80\xFF")],
        10 | 11 => [b"<", &codes::byte(random)[..], b">"].concat(),
        _ if names.is_empty() => b"|?".to_vec(),
        _ => {
            let name = &names[random.below(names.len())];
            [b"<", &in_mixed_case(random, name)[..], b">"].concat()
        }
    }
}

/// A symbol that is bad in itself or that names nothing.
fn fault(random: &mut Random) -> Vec<u8> {
    let in_brackets = |content: Vec<u8>| [b"<", &content[..], b">"].concat();
    match random.below(12) {
        0 => vec![b'|', random.byte()],
        1 => vec![b'|', b'!', b'|', random.byte()],
        2 => random
            .pick(&["|", "|!", "|!|", "|!<65>", "|!\"", "|!|!|!", "|1", "|!| "])
            .into(),
        3 | 4 => random
            .pick(&["<", "<>", "<a", "<a b>", "<\"a\">", "<a<", "<\x7F>"])
            .into(),
        5 => in_brackets(too_big(random)),
        6 => in_brackets(bad_base(random)),
        7 => in_brackets(no_digit(random)),
        8 => in_brackets(vec![b'q'; random.pick(&[1, 32, 33])]),
        9 | 10 => {
            // A bar makes it an ordinary row of bytes, unless bars are ordinary themselves.
            let bar = random.pick(&["", "", "|"]).into();
            [bar, in_brackets(codes::over_255(random))].concat()
        }
        _ => random
            .pick(&["\"", "\n", "\0", "<12x>", "<256x>", "<99999999999x>"])
            .into(),
    }
}
