//! Chapter "The unsigned reader": a number in one of three forms, with two options.

use crate::refusal::{check_length, Refusal, Refused};

/// A number that was read, with the first place not read.
#[derive(Clone, Copy, Debug, PartialEq, Eq)]
pub struct Number {
    pub value: u32,
    pub end: usize,
}

/// Where the digits of a number are wanted, and in which base.
struct Digits {
    base: u32,
    place: usize,
}

/// Reads a number; the refusals stand in their order: 18, 3, 2, 4, 5, 6.
pub fn read(text: &[u8], whole: bool, limit: Option<u32>) -> Result<Number, Refused> {
    check_length(text)?;
    let start = run_end(text, 0, |byte| byte == b' ');
    let digits = digits_wanted(text, start)?;
    let end = run_end(text, digits.place, |byte| is_digit(byte, digits.base));
    if end == digits.place {
        return Err(Refusal::NoDigit.at(end));
    }
    let value = value(&text[digits.place..end], digits.base).ok_or(Refusal::TooBig.at(start))?;
    if whole && text.get(end).is_some_and(|&next| next > 32) {
        return Err(Refusal::NotEnded.at(end));
    }
    if limit.is_some_and(|limit| value > limit) {
        return Err(Refusal::OverLimit.at(start));
    }
    Ok(Number { value, end })
}

/// Tells the three forms apart by what stands before the digits.
fn digits_wanted(text: &[u8], start: usize) -> Result<Digits, Refused> {
    if text.get(start) == Some(&b'&') {
        return Ok(Digits {
            base: 16,
            place: start + 1,
        });
    }
    let end = run_end(text, start, |byte| byte.is_ascii_digit());
    if end == start || text.get(end) != Some(&b'_') {
        return Ok(Digits {
            base: 10,
            place: start,
        });
    }
    // A base too big for the value's type is out of range all the same.
    match value(&text[start..end], 10) {
        Some(base @ 2..=36) => Ok(Digits {
            base,
            place: end + 1,
        }),
        _ => Err(Refusal::BadBase.at(start)),
    }
}

/// The place behind the run of bytes of one kind that starts at `start`.
fn run_end(text: &[u8], start: usize, belongs: impl Fn(u8) -> bool) -> usize {
    let run = text[start..].iter().take_while(|&&byte| belongs(byte));
    start + run.count()
}

fn is_digit(byte: u8, base: u32) -> bool {
    char::from(byte).is_digit(base)
}

/// The value of digits, or nothing where it is over 4,294,967,295.
fn value(digits: &[u8], base: u32) -> Option<u32> {
    digits.iter().try_fold(0u32, |value, &digit| {
        let digit = char::from(digit).to_digit(base)?;
        value.checked_mul(base)?.checked_add(digit)
    })
}

#[cfg(test)]
mod tests {
    use super::*;

    /// The answer as a short text: a value "to" its end, or a refusal "at" its place.
    fn shown(text: &str, whole: bool, limit: Option<u32>) -> String {
        match read(text.as_bytes(), whole, limit) {
            Ok(number) => format!("{} to {}", number.value, number.end),
            Err(refused) => format!("no {} at {}", refused.refusal.number(), refused.place),
        }
    }

    fn plain(text: &str) -> String {
        shown(text, false, None)
    }

    #[test]
    fn examples_p8_and_p9() {
        assert_eq!(plain("2_1102"), "6 to 5");
        assert_eq!(plain("37_1"), "no 3 at 0");
    }

    #[test]
    fn the_three_forms() {
        assert_eq!(plain("  &fF"), "255 to 5");
        assert_eq!(plain("36_zZ"), "1295 to 5");
        assert_eq!(plain("007x"), "7 to 3");
        assert_eq!(plain("002_11"), "3 to 6");
    }

    #[test]
    fn a_digit_is_wanted_behind_the_prefix() {
        for (text, place) in [("&", 1), ("&G", 1), ("2_", 2), ("2_2", 2), ("2__1", 2)] {
            assert_eq!(plain(text), format!("no 2 at {place}"));
        }
        assert_eq!(plain(""), "no 2 at 0");
        assert_eq!(plain("   "), "no 2 at 3");
        assert_eq!(plain("_1"), "no 2 at 0");
        assert_eq!(plain("\t1"), "no 2 at 0");
    }

    #[test]
    fn a_base_never_wraps() {
        assert_eq!(plain("4294967298_1"), "no 3 at 0");
        assert_eq!(plain("18446744073709551618_1"), "no 3 at 0");
        assert_eq!(plain(" 1_0"), "no 3 at 1");
        assert_eq!(plain("37_"), "no 3 at 0");
    }

    #[test]
    fn a_second_underscore_ends_the_number() {
        assert_eq!(plain("&2_1"), "2 to 2");
        assert_eq!(plain("10_2_1"), "2 to 4");
    }

    #[test]
    fn all_digits_are_read_before_the_value_is_judged() {
        assert_eq!(shown(" 99999999999x", true, Some(0)), "no 4 at 1");
        assert_eq!(shown(" 12x", true, Some(0)), "no 5 at 3");
        assert_eq!(shown(" 12 x", true, Some(11)), "no 6 at 1");
        assert_eq!(shown("12\0x", true, Some(12)), "12 to 2");
        assert_eq!(plain("4294967295"), "4294967295 to 10");
        assert_eq!(plain("4294967296"), "no 4 at 0");
    }

    #[test]
    fn the_length_is_judged_first() {
        let mut text = vec![b'0'; 65_535];
        assert_eq!(
            read(&text, true, Some(0)),
            Ok(Number {
                value: 0,
                end: 65_535
            })
        );
        text.push(b' ');
        assert_eq!(read(&text, true, None), Err(Refusal::OverLong.at(0)));
    }
}
