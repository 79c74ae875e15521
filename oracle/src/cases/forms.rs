//! Numbers written in every form that the unsigned reader knows, and in some it refuses.

use super::values::value;
use crate::random::Random;

/// Bases outside 2 to 36; some would wrap into it in 32 or 64 bits.
const BAD_BASES: [&str; 17] = [
    "0", "1", "00", "01", "37", "38", "39", "40", "037", "100", "256", "258", "65538",
    "4294967298", "4294967312", "18446744073709551626", "340282366920938463463374607431768211466",
];

/// A good number in any form, its value mostly a telling one.
pub fn number(random: &mut Random) -> Vec<u8> {
    let value = u64::from(value(random));
    in_some_form(random, value)
}

/// A number on the upper side of 4,294,967,295.
pub fn too_big(random: &mut Random) -> Vec<u8> {
    let bits = random.between(33, 64) as u32;
    let value = match random.below(3) {
        0 => (1 << 32) + random.below(3) as u64,
        // A multiple of 2 to the 32 and a little: small again if it wraps.
        1 => (random.of_bits(bits) >> 32 << 32) + random.below(40) as u64,
        _ => random.of_bits(bits),
    };
    let mut number = in_some_form(random, value);
    if random.one_in(4) {
        // These are digits of every base, so the form stays what it was.
        let more = random.between(1, 40);
        number.extend((0..more).map(|_| random.pick(b"01")));
    }
    number
}

/// A number of a bad base, its digits perhaps missing or too many.
pub fn bad_base(random: &mut Random) -> Vec<u8> {
    let mut number = random.pick(&BAD_BASES).as_bytes().to_vec();
    number.push(b'_');
    let digits = random.pick(&[0, 1, 1, 2, 12]);
    number.extend((0..digits).map(|_| random.pick(b"01127zZ_")));
    number
}

/// The beginning of a number whose first digit is missing.
pub fn no_digit(random: &mut Random) -> Vec<u8> {
    let starts = ["&", "2_", "10_", "16_", "36_", "007_", "_", ""];
    let behind = ["", "", "_1", "&1", " 1", "-1", "G", "z", "{", "@", "/", ":"];
    let start = random.pick(&starts);
    // What stands behind must be no digit of the base; "z" is one of base 36.
    let behind = match (start, random.pick(&behind)) {
        ("36_", "z" | "G") | ("", " 1" | "&1") => "",
        ("2_", "z") => "2",
        (_, behind) => behind,
    };
    [start, behind].concat().into_bytes()
}

/// A number of a known value in any of the three forms.
pub fn in_some_form(random: &mut Random, value: u64) -> Vec<u8> {
    match random.below(4) {
        0 => in_base(random, value, 10),
        1 => [vec![b'&'], in_base(random, value, 16)].concat(),
        _ => {
            let base = random.between(2, 36) as u64;
            let zeros = random.pick(&["", "", "", "0", "00"]);
            let prefix = format!("{zeros}{base}_").into_bytes();
            [prefix, in_base(random, value, base)].concat()
        }
    }
}

/// The digits of a value, behind some zeros, letters in either case.
fn in_base(random: &mut Random, value: u64, base: u64) -> Vec<u8> {
    let zeros = random.pick(&[0, 0, 0, 0, 1, 2, 9]);
    let digits = in_mixed_case(random, &plain_digits(value, base));
    [vec![b'0'; zeros], digits].concat()
}

/// The digits of a value without leading zeros, letters small.
pub fn plain_digits(mut value: u64, base: u64) -> Vec<u8> {
    let mut digits = Vec::new();
    while value > 0 || digits.is_empty() {
        digits.push(b"0123456789abcdefghijklmnopqrstuvwxyz"[(value % base) as usize]);
        value /= base;
    }
    digits.reverse();
    digits
}

/// The text with each of its letters in either case.
pub fn in_mixed_case(random: &mut Random, text: &[u8]) -> Vec<u8> {
    let mut mixed = text.to_vec();
    for byte in &mut mixed {
        if byte.is_ascii_alphabetic() && random.one_in(2) {
            *byte ^= 0x20;
        }
    }
    mixed
}

/// Some bytes of an alphabet in any order, down to none.
pub fn soup(random: &mut Random, alphabet: &[u8], most: usize) -> Vec<u8> {
    let length = random.below(most + 1);
    (0..length).map(|_| random.pick(alphabet)).collect()
}

/// No spaces mostly, or a few.
pub fn spaces(random: &mut Random) -> Vec<u8> {
    vec![b' '; random.pick(&[0, 0, 0, 1, 2, 3])]
}
