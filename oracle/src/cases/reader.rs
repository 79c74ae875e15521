//! Cases for the chapter "The unsigned reader".

use super::forms::{bad_base, no_digit, number, plain_digits, soup, spaces, too_big};
use super::values::value;
use crate::lines::Case;
use crate::random::Random;
use crate::reader;

/// Texts that tell two readings of the rules apart.
const SHARP: [&[u8]; 48] = [
    b"2_1102", b"37_1", b"", b" ", b"   ", b"&", b"&G", b" &", b"2_", b"2_2", b"2__1", b"_1",
    b"-1", b"+1", b"\t1", b"\0", b"\xA01", b"a1", b"002_11", b"4294967298_1",
    b"18446744073709551618_1", b"&2_1", b"10_2_1", b"2_1_1", b"0_0", b"1_0", b" 1_", b"37_",
    b"  37_zz", b"37_99999999999", b"99999999999x", b" 99999999999 ", b"4294967295",
    b"4294967295x", b"4294967296", b"00000000000000004294967295", b"&FFFFFFFF", b"&100000000",
    b"&ffffFFFF G", b"2_11111111111111111111111111111111", b"2_100000000000000000000000000000000",
    b"36_1Z141Z3", b"36_1z141z4", b"16_&1", b"& 1", b"2_ 1", b"12x", b"7 x",
];

/// The bytes at the edges of what whole accepts behind a number.
const FOLLOWERS: [u8; 14] = [0, 9, 10, 13, 31, 32, 33, 34, 38, 95, 127, 128, 160, 255];

fn read(text: &[u8], whole: bool, limit: Option<u32>) -> Case {
    Case::Read {
        text: text.to_vec(),
        whole,
        limit,
    }
}

/// The sharp texts under each option, the edges of every base, the followers, the longest texts.
pub fn fixed() -> Vec<Case> {
    let mut cases = Vec::new();
    for text in SHARP {
        cases.push(read(text, false, None));
        cases.push(read(text, true, None));
        cases.push(read(text, true, Some(0)));
    }
    for base in 0..=40 {
        cases.extend(edges_of_base(base));
    }
    for follower in FOLLOWERS {
        cases.push(read(&[b'7', follower], true, Some(7)));
        cases.push(read(&[follower, b'7'], true, Some(6)));
    }
    cases.extend(neighbours_of_digits());
    cases.extend(long());
    cases
}

/// The highest value, the first too big and the first byte that is no digit of a base.
fn edges_of_base(base: u64) -> Vec<Case> {
    let texts = match base {
        2..=36 => vec![
            plain_digits(u64::from(u32::MAX), base),
            plain_digits(1 << 32, base),
            b"1/09:@aAzZ[`{"[..].to_vec(),
        ],
        _ => vec![b"1".to_vec()],
    };
    let with_base = |digits: &Vec<u8>| {
        let text = [format!("{base}_").as_bytes(), digits].concat();
        read(&text, false, None)
    };
    texts.iter().map(with_base).collect()
}

/// Bytes just outside the runs of digits, behind each kind of number.
fn neighbours_of_digits() -> Vec<Case> {
    let mut cases = Vec::new();
    for byte in *b"/0:@AFGZ[`afgz{" {
        for start in [&b"1"[..], b"&1", b"16_1", b"36_1", b"&", b"11_"] {
            cases.push(read(&[start, &[byte]].concat(), false, None));
        }
    }
    cases
}

/// Thousands of zeros, and texts around the longest one; few, for each is a long line.
fn long() -> Vec<Case> {
    let padded = |start: &str, fill: u8, length: usize, end: &str| {
        let filler = vec![fill; length - start.len() - end.len()];
        [start.as_bytes(), &filler, end.as_bytes()].concat()
    };
    vec![
        read(&padded("", b'0', 3_000, "12"), true, Some(12)),
        read(&padded("", b'0', 3_000, "4294967296"), true, None),
        read(&padded("", b'0', 3_000, "2_11"), true, None),
        read(&padded("", b'0', 3_000, "37_11"), true, None),
        read(&padded("36_", b'0', 3_000, "z "), true, Some(34)),
        read(&padded("&", b'f', 3_000, "x"), true, None),
        read(&padded("", b' ', 65_534, "5"), true, None),
        read(&padded("", b'0', 65_535, "4294967295"), true, None),
        read(&padded("7", b'9', 65_535, "x"), true, Some(0)),
        read(&padded("7 ", b'0', 65_536, ""), true, None),
        read(&padded("37_", b'1', 65_536, ""), true, None),
        read(&padded("", b' ', 65_537, ""), false, Some(0)),
    ]
}

pub fn random(random: &mut Random) -> Case {
    let text = [spaces(random), body(random), tail(random)].concat();
    let whole = random.one_in(2);
    let limit = limit(random, &text);
    Case::Read { text, whole, limit }
}

/// A number, good or bad in one of the ways that the order of refusals sorts.
fn body(random: &mut Random) -> Vec<u8> {
    match random.below(16) {
        0..=7 => number(random),
        8 => soup(random, b"00123_&&aFz ", 8),
        9 | 10 => too_big(random),
        11 | 12 => bad_base(random),
        13 | 14 => no_digit(random),
        _ => among_zeros(random),
    }
}

/// A good or too big number behind some hundreds of zeros.
fn among_zeros(random: &mut Random) -> Vec<u8> {
    let mut text = random.pick(&["", "&", "2_", "36_"]).as_bytes().to_vec();
    text.extend(vec![b'0'; random.between(1, 300)]);
    let digits = random.between(1, 34);
    text.extend((0..digits).map(|_| random.pick(b"01")));
    text
}

/// What follows the number: nothing, an end that whole accepts, or something else.
fn tail(random: &mut Random) -> Vec<u8> {
    match random.below(8) {
        0..=2 => Vec::new(),
        3 => vec![b' ', random.byte()],
        4 => vec![random.below(33) as u8],
        5 => vec![random.pick(b"_gGzZ&/:@[`{~\x7F"), random.byte()],
        6 => vec![random.pick(&[128, 160, 178, 255]), random.byte()],
        _ => vec![random.byte()],
    }
}

/// No limit, one around the value, or any.
fn limit(random: &mut Random, text: &[u8]) -> Option<u32> {
    let exact = reader::read(text, false, None).map_or(0, |number| number.value);
    match random.below(8) {
        0 | 1 => None,
        2 => Some(exact),
        3 | 4 => Some(exact.saturating_sub(1)),
        5 => Some(exact.saturating_add(1)),
        6 => Some(0),
        _ => Some(value(random)),
    }
}
