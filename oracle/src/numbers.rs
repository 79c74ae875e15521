//! Chapter "Numbers to strings": the conversion calls, &28 as the request about it corrects it.

use crate::refusal::Refusal;

/// Bit 17 of a call number, the X form, makes no difference.
const X_BIT: u32 = 1 << 17;

/// What a call writes: a string, and behind it a zero byte or nothing.
///
/// Need is their length together. The offset is the string's length, and all from there on is free:
/// a zero byte counts as free, and where there is none the byte there stays.
#[derive(Clone, Copy)]
struct Call {
    form: Form,
    zero_byte: bool,
}

/// What a string looks like, and how much of the value it shows.
#[derive(Clone, Copy)]
enum Form {
    Hex { digits: u32 },
    Unsigned { bytes: u32, spaced: bool },
    Signed { bytes: u32, spaced: bool },
    Binary { bytes: u32 },
}

/// A string that found room; it ends at `offset`.
#[derive(Debug, PartialEq, Eq)]
pub struct Written {
    pub string: String,
    pub offset: usize,
    pub free: usize,
}

/// A refused call; its place is always 0, its free count the room.
#[derive(Debug, PartialEq, Eq)]
pub struct Unwritten {
    pub refusal: Refusal,
    pub need: usize,
}

/// Answers a call: first 14, then 1.
pub fn convert(number: u32, value: u32, room: usize) -> Result<Written, Unwritten> {
    let call = call(number).ok_or(Unwritten {
        refusal: Refusal::UnknownCall,
        need: 0,
    })?;
    let string = string(call.form, value);
    let need = string.len() + usize::from(call.zero_byte);
    if need > room {
        return Err(Unwritten {
            refusal: Refusal::NoRoom,
            need,
        });
    }
    let offset = string.len();
    Ok(Written {
        string,
        offset,
        free: room - offset,
    })
}

fn string(form: Form, value: u32) -> String {
    match form {
        Form::Hex { digits } => {
            let nibbles = low_bits(value, 4 * digits);
            format!("{nibbles:0width$X}", width = digits as usize)
        }
        Form::Binary { bytes } => {
            let bits = low_bits(value, 8 * bytes);
            format!("{bits:0width$b}", width = 8 * bytes as usize)
        }
        Form::Unsigned { bytes, spaced } => decimal(low_bits(value, 8 * bytes), spaced),
        Form::Signed { bytes, spaced } => decimal(low_signed(value, 8 * bytes), spaced),
    }
}

/// The call of a number, or nothing where there is none.
fn call(number: u32) -> Option<Call> {
    let (same_string_as, zero_byte) = match number & !X_BIT {
        // The offset alone tells the caller where this string ends.
        0x28 => (0xDC, false),
        number => (number, true),
    };
    let form = form(same_string_as)?;
    Some(Call { form, zero_byte })
}

/// The form of each call that has a zero byte.
fn form(number: u32) -> Option<Form> {
    Some(match number {
        0xD0 => Form::Hex { digits: 1 },
        0xD1 => Form::Hex { digits: 2 },
        0xD2 => Form::Hex { digits: 4 },
        0xD3 => Form::Hex { digits: 6 },
        0xD4 => Form::Hex { digits: 8 },
        call @ 0xD5..=0xD8 => Form::Unsigned {
            bytes: call - 0xD4,
            spaced: false,
        },
        call @ 0xD9..=0xDC => Form::Signed {
            bytes: call - 0xD8,
            spaced: false,
        },
        call @ 0xDD..=0xE0 => Form::Binary { bytes: call - 0xDC },
        call @ 0xE1..=0xE4 => Form::Unsigned {
            bytes: call - 0xE0,
            spaced: true,
        },
        call @ 0xE5..=0xE8 => Form::Signed {
            bytes: call - 0xE4,
            spaced: true,
        },
        _ => return None,
    })
}

/// The low bits as an unsigned number, in a type wide enough to negate every one of them.
fn low_bits(value: u32, bits: u32) -> i64 {
    i64::from(value) % (1 << bits)
}

/// The low bits as a two's complement number.
fn low_signed(value: u32, bits: u32) -> i64 {
    let low = low_bits(value, bits);
    if low < 1 << (bits - 1) {
        low
    } else {
        low - (1 << bits)
    }
}

fn decimal(value: i64, spaced: bool) -> String {
    let digits = value.unsigned_abs().to_string();
    let sign = if value < 0 { "-" } else { "" };
    if spaced {
        sign.to_owned() + &in_groups(&digits)
    } else {
        sign.to_owned() + &digits
    }
}

/// One space between any two groups of three digits counted from the right.
fn in_groups(digits: &str) -> String {
    let mut grouped = String::new();
    for (index, digit) in digits.chars().enumerate() {
        let left = digits.len() - index;
        if index > 0 && left.is_multiple_of(3) {
            grouped.push(' ');
        }
        grouped.push(digit);
    }
    grouped
}

#[cfg(test)]
mod tests {
    use super::*;

    const V: u32 = 1_048_576;

    fn text(call: u32, value: u32) -> String {
        convert(call, value, 100).expect("a string").string
    }

    fn written(string: &str, free: usize) -> Result<Written, Unwritten> {
        Ok(Written {
            string: string.to_owned(),
            offset: string.len(),
            free,
        })
    }

    fn refused(call: u32, value: u32, room: usize) -> (u8, usize) {
        let unwritten = convert(call, value, room).expect_err("a refusal");
        (unwritten.refusal.number(), unwritten.need)
    }

    #[test]
    fn examples_p1_to_p7() {
        assert_eq!(convert(0xD8, V, 8), written("1048576", 1));
        assert_eq!(refused(0xD8, V, 7), (1, 8));
        assert_eq!(text(0xE4, V), "1 048 576");
        assert_eq!(refused(0xE4, V, 0), (1, 10));
        assert_eq!(text(0xD5, V), "0");
        assert_eq!(text(0xD9, 128), "-128");
        assert_eq!(text(0xE8, 1 << 31), "-2 147 483 648");
        assert_eq!(refused(0xE8, 1 << 31, 14), (1, 15));
        assert_eq!(text(0xD3, V), "100000");
    }

    #[test]
    fn every_other_call_than_28_needs_a_byte_more_than_its_string() {
        for call in 0xD0..=0xE8 {
            for call in [call, call | X_BIT] {
                let length = text(call, V).len();
                assert_eq!(refused(call, V, 0), (1, length + 1));
                assert_eq!(refused(call, V, length), (1, length + 1));
                assert_eq!(convert(call, V, length + 1), written(&text(call, V), 1));
            }
        }
    }

    #[test]
    fn call_28_writes_the_string_of_dc_without_a_zero_byte() {
        for string in [
            "0", "9", "10", "1048576", "2147483647", "-1", "-1048576", "-2147483648",
        ] {
            let value = string.parse::<i32>().expect("a signed number") as u32;
            let length = string.len();
            for x in [0, X_BIT] {
                let (plain, ended) = (0x28 | x, 0xDC | x);
                assert_eq!(refused(plain, value, 0), (1, length));
                assert_eq!(refused(plain, value, length - 1), (1, length));
                assert_eq!(convert(plain, value, length), written(string, 0));
                assert_eq!(convert(plain, value, length + 1), written(string, 1));
                assert_eq!(refused(ended, value, length), (1, length + 1));
                assert_eq!(convert(ended, value, length + 1), written(string, 1));
                assert_eq!(convert(ended, value, length + 2), written(string, 2));
            }
        }
    }

    #[test]
    fn spaces_stand_only_between_groups() {
        assert_eq!(text(0xE4, 100), "100");
        assert_eq!(text(0xE4, 123_456), "123 456");
        assert_eq!(text(0xE1, 255), "255");
        assert_eq!(text(0xE6, 0xFF9C), "-100");
        assert_eq!(text(0xE6, 0xFC18), "-1 000");
    }

    #[test]
    fn widths_and_leading_zeros() {
        assert_eq!(text(0xD0, 0xABCD), "D");
        assert_eq!(text(0xD4, 0xABCD), "0000ABCD");
        assert_eq!(text(0xDD, 0x105), "00000101");
        assert_eq!(text(0xE0, 1).len(), 32);
        assert_eq!(text(0xDB, 0x0080_0000), "-8388608");
        assert_eq!(text(0xD7, 0xFFFF_FFFF), "16777215");
    }

    #[test]
    fn only_bit_17_is_ignored_and_14_comes_before_1() {
        assert_eq!(text(0x20028, u32::MAX), "-1");
        for call in [0xCF, 0xE9, 0x27, 0x29, 0x128, 0x40028, 0x400D0, 0x8000_00D8] {
            assert_eq!(refused(call, 0, 0), (14, 0));
        }
    }
}
