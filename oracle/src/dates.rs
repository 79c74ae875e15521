//! Request "Dates of the diaries": a five-byte time as a string, by a format.

use crate::refusal::{check_length, Refusal, Refused};
use std::sync::OnceLock;

/// The length of a time; any other is refused.
const TIME_BYTES: usize = 5;
/// How many five-byte times there are.
const TIMES: u64 = 1 << 40;

const HUNDREDTHS_IN_A_SECOND: u64 = 100;
const HUNDREDTHS_IN_A_MINUTE: u64 = 60 * HUNDREDTHS_IN_A_SECOND;
const HUNDREDTHS_IN_AN_HOUR: u64 = 60 * HUNDREDTHS_IN_A_MINUTE;
const HUNDREDTHS_IN_A_DAY: u64 = 24 * HUNDREDTHS_IN_AN_HOUR;

/// The years of the calendar that divide by 4 and have no 29 February all the same.
const NOT_LEAP: [u32; 3] = [1900, 2100, 2200];

const MONTHS: [&str; 12] = [
    "Jan", "Feb", "Mar", "Apr", "May", "Jun", "Jul", "Aug", "Sep", "Oct", "Nov", "Dec",
];
const WEEKDAYS: [&str; 7] = ["Mon", "Tue", "Wed", "Thu", "Fri", "Sat", "Sun"];

/// A string that found room; the zero byte behind it stands at `offset` and counts as free.
#[derive(Debug, PartialEq, Eq)]
pub struct Dated {
    pub string: Vec<u8>,
    pub offset: usize,
    pub free: usize,
}

/// A refused conversion; its free count is the room.
#[derive(Debug, PartialEq, Eq)]
pub struct Undated {
    pub refused: Refused,
    pub need: usize,
}

/// Converts a time by a format: first 18, then 19, then 1.
pub fn convert(time: &[u8], format: &[u8], room: usize) -> Result<Dated, Undated> {
    let without_need = |refused| Undated { refused, need: 0 };
    check_length(format).map_err(without_need)?;
    let moment = Moment::read(time).map_err(without_need)?;
    let string = string(&moment, format).map_err(without_need)?;
    let need = string.len() + 1;
    if need > room {
        let refused = Refusal::NoRoom.at(0);
        return Err(Undated { refused, need });
    }
    let offset = string.len();
    Ok(Dated {
        string,
        offset,
        free: room - offset,
    })
}

/// The string that a format gives, without its zero byte; it is read from the left.
fn string(moment: &Moment, format: &[u8]) -> Result<Vec<u8>, Refused> {
    let text = up_to_the_zero_byte(format);
    let mut string = Vec::new();
    let mut rest = text;
    loop {
        rest = match rest {
            [] => return Ok(string),
            [b'%', b'%', behind @ ..] => {
                string.push(b'%');
                behind
            }
            [b'%', first, second, behind @ ..] => {
                let shown = moment.field([*first, *second]);
                let place = text.len() - rest.len();
                string.extend(shown.ok_or(Refusal::BadField.at(place))?.bytes());
                behind
            }
            // Too few characters are left for a field.
            [b'%', ..] => return Err(Refusal::BadField.at(text.len() - rest.len())),
            [copied, behind @ ..] => {
                string.push(*copied);
                behind
            }
        };
    }
}

/// The part of a format that is read; the bytes 10 and 13 do not end it.
fn up_to_the_zero_byte(format: &[u8]) -> &[u8] {
    match format.iter().position(|&byte| byte == 0) {
        Some(end) => &format[..end],
        None => format,
    }
}

/// A time taken apart: its day and the clock of that day.
struct Moment {
    day: Day,
    hour: u64,
    minute: u64,
    second: u64,
    hundredth: u64,
}

impl Moment {
    /// Reads a time, lowest byte first.
    fn read(time: &[u8]) -> Result<Self, Refused> {
        if time.len() != TIME_BYTES {
            return Err(Refusal::OverLong.at(0));
        }
        let highest_first = time.iter().rev();
        let hundredths = highest_first.fold(0, |high, &byte| high * 256 + u64::from(byte));
        let of_day = hundredths % HUNDREDTHS_IN_A_DAY;
        let of_hour = of_day % HUNDREDTHS_IN_AN_HOUR;
        let of_minute = of_hour % HUNDREDTHS_IN_A_MINUTE;
        Ok(Moment {
            day: days()[(hundredths / HUNDREDTHS_IN_A_DAY) as usize],
            hour: of_day / HUNDREDTHS_IN_AN_HOUR,
            minute: of_hour / HUNDREDTHS_IN_A_MINUTE,
            second: of_minute / HUNDREDTHS_IN_A_SECOND,
            hundredth: of_minute % HUNDREDTHS_IN_A_SECOND,
        })
    }

    /// What a field shows, or nothing where there is no field of that name.
    fn field(&self, name: [u8; 2]) -> Option<String> {
        let day = &self.day;
        Some(match &name {
            b"CS" => format!("{:02}", self.hundredth),
            b"SE" => format!("{:02}", self.second),
            b"MI" => format!("{:02}", self.minute),
            b"24" => format!("{:02}", self.hour),
            b"DY" => format!("{:02}", day.of_month),
            b"MN" => format!("{:02}", day.month),
            b"CE" => format!("{:02}", day.year / 100),
            b"YR" => format!("{:02}", day.year % 100),
            b"DN" => format!("{:03}", day.of_year),
            b"M3" => MONTHS[day.month as usize - 1].to_owned(),
            b"W3" => WEEKDAYS[day.of_week].to_owned(),
            _ => return None,
        })
    }
}

/// A day of the calendar; all but the day of the week, where Monday is 0, count from 1.
#[derive(Clone, Copy, Debug, PartialEq, Eq)]
struct Day {
    year: u32,
    month: u32,
    of_month: u32,
    of_year: u32,
    of_week: usize,
}

impl Day {
    const FIRST: Day = Day {
        year: 1900,
        month: 1,
        of_month: 1,
        of_year: 1,
        of_week: 0,
    };

    fn next(self) -> Day {
        let tomorrow = Day {
            of_month: self.of_month + 1,
            of_year: self.of_year + 1,
            of_week: (self.of_week + 1) % WEEKDAYS.len(),
            ..self
        };
        if self.of_month < days_in_month(self.month, self.year) {
            return tomorrow;
        }
        if self.month < 12 {
            return Day {
                month: self.month + 1,
                of_month: 1,
                ..tomorrow
            };
        }
        Day {
            year: self.year + 1,
            month: 1,
            of_month: 1,
            of_year: 1,
            ..tomorrow
        }
    }
}

fn days_in_month(month: u32, year: u32) -> u32 {
    match month {
        4 | 6 | 9 | 11 => 30,
        2 if has_29_february(year) => 29,
        2 => 28,
        _ => 31,
    }
}

fn has_29_february(year: u32) -> bool {
    year.is_multiple_of(4) && !NOT_LEAP.contains(&year)
}

/// Every day that some time falls on, walked once from the first to the last.
fn days() -> &'static [Day] {
    static DAYS: OnceLock<Vec<Day>> = OnceLock::new();
    let count = (TIMES - 1) / HUNDREDTHS_IN_A_DAY + 1;
    let walk = || std::iter::successors(Some(Day::FIRST), |day| Some(day.next()));
    DAYS.get_or_init(|| walk().take(count as usize).collect())
}

#[cfg(test)]
mod tests {
    use super::*;

    const EVERY_FIELD: &[u8] = b"%W3,%DY %M3 %CE%YR.%24:%MI:%SE.%CS %MN %DN";

    fn text(time: &[u8], format: &[u8]) -> String {
        let dated = convert(time, format, 100).expect("a string");
        String::from_utf8(dated.string).expect("ASCII")
    }

    /// The refusal's number and place, and the need.
    fn refused(time: &[u8], format: &[u8], room: usize) -> (u8, usize, usize) {
        let Undated { refused, need } = convert(time, format, room).expect_err("a refusal");
        (refused.refusal.number(), refused.place, need)
    }

    /// The number of a day from 0 where the calendar has it.
    fn number_of(year: u32, month: u32, of_month: u32) -> Option<usize> {
        let date = (year, month, of_month);
        let is_it = |day: &Day| (day.year, day.month, day.of_month) == date;
        days().iter().position(is_it)
    }

    #[test]
    fn the_first_and_the_last_times() {
        for (time, string) in [
            ([0; 5], "Mon,01 Jan 1900.00:00:00.00 01 001"),
            ([255; 5], "Sat,03 Jun 2248.06:57:57.75 06 155"),
            ([0, 0xD6, 0x83, 0, 0], "Tue,02 Jan 1900.00:00:00.00 01 002"),
            (
                [0xFF, 0xD5, 0x83, 0, 0],
                "Mon,01 Jan 1900.23:59:59.99 01 001",
            ),
            // The book's example, and a little more.
            (
                [0x96, 0x7E, 0x2A, 0x91, 0x41],
                "Tue,28 Mar 1989.13:25:54.78 03 087",
            ),
        ] {
            assert_eq!(text(&time, EVERY_FIELD), string);
        }
    }

    #[test]
    fn days_counted_elsewhere() {
        assert_eq!(days().len(), 127_259);
        for (year, month, day, number, weekday, of_year) in [
            (1900, 3, 1, 59, "Thu", 60),
            (1904, 2, 29, 1_519, "Mon", 60),
            (1969, 7, 20, 25_402, "Sun", 201),
            (2000, 2, 29, 36_583, "Tue", 60),
            (2100, 3, 1, 73_108, "Mon", 60),
            (2200, 3, 1, 109_632, "Sat", 60),
            (2248, 6, 3, 127_258, "Sat", 155),
        ] {
            assert_eq!(number_of(year, month, day), Some(number));
            assert_eq!(WEEKDAYS[days()[number].of_week], weekday);
            assert_eq!(days()[number].of_year, of_year);
        }
    }

    #[test]
    fn leap_years_of_the_centuries() {
        for year in [1900, 2100, 2200, 1901, 1902, 1999, 2001, 2247] {
            assert_eq!(number_of(year, 2, 29), None, "{year}");
        }
        for year in [1904, 1988, 2000, 2024, 2096, 2104, 2248] {
            assert!(number_of(year, 2, 29).is_some(), "{year}");
        }
        let leap = days().iter().filter(|day| day.of_year == 366);
        // The last year is cut off before its 366th day.
        assert_eq!(leap.count(), 84);
    }

    #[test]
    fn percent_signs_are_paired_from_the_left() {
        assert_eq!(text(&[7, 0, 0, 0, 0], b"%%CS%%%CS%%"), "%CS%07%");
        assert_eq!(refused(&[0; 5], b"%%%", 9), (19, 2, 0));
        assert_eq!(refused(&[0; 5], b"%CS%%%%%S", 9), (19, 7, 0));
    }

    #[test]
    fn the_zero_byte_ends_a_format_even_in_a_field() {
        assert_eq!(text(&[0; 5], b"%CS\0%"), "00");
        assert_eq!(text(&[0; 5], b"\n\r\0x"), "\n\r");
        assert_eq!(refused(&[0; 5], b"a%C\0S", 9), (19, 1, 0));
        assert_eq!(refused(&[0; 5], b"a%\0CS", 9), (19, 1, 0));
    }

    #[test]
    fn the_refusals_in_their_order() {
        let long = [b"%x\0".to_vec(), vec![b'%'; 65_533]].concat();
        assert_eq!(refused(&[0; 5], &long, 0), (18, 0, 0));
        assert_eq!(refused(&[0; 5], &long[..65_535], 0), (19, 0, 0));
        for length in [0, 4, 6, 261] {
            assert_eq!(refused(&vec![0; length], b"%x", 0), (18, 0, 0));
        }
        assert_eq!(refused(&[0; 5], b"%CS%cs%", 0), (19, 3, 0));
        assert_eq!(refused(&[0; 5], b"%CS", 2), (1, 0, 3));
        assert_eq!(refused(&[0; 5], b"", 0), (1, 0, 1));
    }

    #[test]
    fn the_zero_byte_counts_as_free() {
        for room in [3, 4, 100] {
            let dated = Dated {
                string: b"00".to_vec(),
                offset: 2,
                free: room - 2,
            };
            assert_eq!(convert(&[0; 5], b"%CS", room), Ok(dated));
        }
    }
}
