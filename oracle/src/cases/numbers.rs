//! Cases for the chapter "Numbers to strings".

use super::values::value;
use crate::lines::Case;
use crate::numbers::convert;
use crate::random::Random;

const V: u32 = 1_048_576;
const X_BIT: u32 = 1 << 17;
/// Call numbers on the other side of each limit, and some with a bit that counts.
const UNKNOWN: [u32; 14] = [
    0xCF, 0xE9, 0x27, 0x29, 0, 0xFF, 0x100D0, 0x400D0, 0x400E8, 0x128, 0x10028, 0x40028,
    0x8000_0028, 0xFFFF_FFFF,
];
/// The call without a zero byte, and the one that writes the same string with it.
const SAME_STRING: [u32; 2] = [0x28, 0xDC];
/// Signed numbers at the ends of their range and around a further digit.
const SIGNED: [&str; 10] = [
    "0", "9", "10", "1048576", "2147483647", "-1", "-9", "-10", "-1048576", "-2147483648",
];

fn conv(call: u32, value: u32, room: usize) -> Case {
    Case::Conv { call, value, room }
}

/// Every known call without bit 17.
fn calls() -> impl Iterator<Item = u32> {
    (0xD0..=0xE8).chain([0x28])
}

/// The examples, every call without room, the unknown calls, each call at its exact room, then
/// one string with a zero byte and without it.
pub fn fixed() -> Vec<Case> {
    let mut cases = examples();
    for call in calls() {
        cases.push(conv(call, V, 0));
        cases.push(conv(call | X_BIT, V, 0));
    }
    for call in UNKNOWN {
        cases.push(conv(call, V, 0));
        cases.push(conv(call ^ X_BIT, V, 100));
    }
    for call in calls() {
        for value in [0, 1 << 31, u32::MAX] {
            let need = need(call, value);
            cases.push(conv(call, value, need));
            cases.push(conv(call | X_BIT, value, need - 1));
        }
    }
    cases.extend(SIGNED.into_iter().flat_map(around_its_length));
    cases
}

/// A signed number by the calls that write it so, in rooms around its string's length.
fn around_its_length(string: &str) -> Vec<Case> {
    let value = string.parse::<i32>().expect("a signed number") as u32;
    let mut cases = Vec::new();
    for call in SAME_STRING {
        for room in [string.len() - 1, string.len(), string.len() + 1] {
            cases.push(conv(call, value, room));
            cases.push(conv(call | X_BIT, value, room));
        }
    }
    cases
}

/// P1 to P7, and what spaced strings look like.
fn examples() -> Vec<Case> {
    let mut cases = vec![
        conv(0xD8, V, 8),
        conv(0xD8, V, 7),
        conv(0xE4, V, 10),
        conv(0xE4, V, 9),
        conv(0xD5, V, 2),
        conv(0xD9, 128, 5),
        conv(0xE8, 1 << 31, 15),
        conv(0xE8, 1 << 31, 14),
        conv(0xD3, V, 7),
    ];
    for value in [100, 255, 999, 1_000, 123_456, 1_000_000_000] {
        cases.push(conv(0xE4, value, 20));
        cases.push(conv(0xE8, value.wrapping_neg(), 20));
    }
    cases
}

/// What a refusal without room says; an unknown call needs nothing.
fn need(call: u32, value: u32) -> usize {
    let refused = convert(call, value, 0).expect_err("no string is empty");
    refused.need
}

pub fn random(random: &mut Random) -> Case {
    let call = call(random);
    let value = value(random);
    let room = room(random, need(call, value));
    conv(call, value, room)
}

fn call(random: &mut Random) -> u32 {
    let known: Vec<u32> = calls().collect();
    let call = match random.below(16) {
        0 => random.pick(&UNKNOWN),
        1 => random.pick(&known) ^ 1 << random.below(32),
        2 if random.one_in(4) => random.word(),
        3..=5 => random.pick(&SAME_STRING),
        _ => random.pick(&known),
    };
    call ^ random.pick(&[0, X_BIT])
}

/// Rooms around the need.
fn room(random: &mut Random, need: usize) -> usize {
    match random.below(8) {
        0 => 0,
        1 => 1,
        2 => random.below(40),
        3 => need + random.between(2, 1_000),
        4 => need + 1,
        5 => need.saturating_sub(1),
        _ => need,
    }
}

#[cfg(test)]
mod tests {
    use super::*;

    /// Rooms less the string's length, on each side of a call's limit.
    const SIDES: [(u32, i32); 5] = [(0x28, -1), (0x28, 0), (0x28, 1), (0xDC, 0), (0xDC, 1)];

    /// A case's call, whether its value has a minus, and its room less the string's length.
    fn side(case: &Case) -> (u32, bool, i32) {
        let Case::Conv { call, value, room } = *case else {
            panic!("no number: {case}");
        };
        let signed = value as i32;
        let length = signed.to_string().len();
        (call, signed < 0, room as i32 - length as i32)
    }

    #[test]
    fn both_sides_of_the_limit_are_met_with_a_zero_byte_and_without() {
        let mut source = Random::new(1);
        let drawn: Vec<Case> = (0..3_000).map(|_| random(&mut source)).collect();
        for (cases, among) in [(fixed(), "fixed"), (drawn, "random")] {
            let met: Vec<(u32, bool, i32)> = cases.iter().map(side).collect();
            for (call, over) in SIDES {
                for call in [call, call | X_BIT] {
                    for minus in [false, true] {
                        let kind = (call, minus, over);
                        assert!(met.contains(&kind), "no case {among}: {kind:?}");
                    }
                }
            }
        }
    }
}
