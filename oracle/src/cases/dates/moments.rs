//! Moments by a published formula for the numbers of days: a second route beside the walk of days.

pub const FIRST_YEAR: i64 = 1900;
pub const LAST_YEAR: i64 = 2248;
/// The hundredths of a second in a day.
pub const DAY: i64 = 8_640_000;
pub const LARGEST: i64 = 0xFF_FFFF_FFFF;
/// The names of the fields.
pub const FIELDS: [&str; 11] = [
    "CS", "SE", "MI", "24", "DY", "MN", "CE", "YR", "DN", "M3", "W3",
];

/// A date, and the hundredths of a second since its midnight.
#[derive(Clone, Copy)]
pub struct Moment {
    pub year: i64,
    pub month: i64,
    pub day: i64,
    pub clock: i64,
}

impl Moment {
    /// The moment so many hundredths of a second behind the first.
    pub fn of(hundredths: i64) -> Self {
        let days = hundredths / DAY;
        let julian = julian_day(FIRST_YEAR, 1, 1) + days;
        let begun = |year: i64, month: i64| julian_day(year, month, 1) <= julian;
        // No year is longer than 366 days, so this one has begun.
        let early = FIRST_YEAR + days / 366;
        let years = (early..=LAST_YEAR).take_while(|&year| begun(year, 1));
        let year = years.last().expect("a year");
        let months = (1..=12).take_while(|&month| begun(year, month));
        let month = months.last().expect("a month");
        Moment {
            year,
            month,
            day: julian - julian_day(year, month, 1) + 1,
            clock: hundredths % DAY,
        }
    }

    /// The midnight at which a day begins.
    pub fn midnight(year: i64, month: i64, day: i64) -> Self {
        Moment {
            year,
            month,
            day,
            clock: 0,
        }
    }

    pub fn hundredths(&self) -> i64 {
        (self.julian_day() - julian_day(FIRST_YEAR, 1, 1)) * DAY + self.clock
    }

    fn julian_day(&self) -> i64 {
        julian_day(self.year, self.month, self.day)
    }

    /// What one of the fields shows.
    pub fn shown(&self, field: &str) -> String {
        let three_of = |names: &str, index: i64| names[3 * index as usize..][..3].to_owned();
        let new_year = julian_day(self.year, 1, 1);
        match field {
            "CS" => two_digits(self.clock),
            "SE" => two_digits(self.clock / 100 % 60),
            "MI" => two_digits(self.clock / 6_000 % 60),
            "24" => two_digits(self.clock / 360_000),
            "DY" => two_digits(self.day),
            "MN" => two_digits(self.month),
            "CE" => two_digits(self.year / 100),
            "YR" => two_digits(self.year),
            "DN" => (1_001 + self.julian_day() - new_year).to_string()[1..].to_owned(),
            "M3" => three_of("JanFebMarAprMayJunJulAugSepOctNovDec", self.month - 1),
            // Julian day 0 was a Monday.
            "W3" => three_of("MonTueWedThuFriSatSun", self.julian_day() % 7),
            other => panic!("no field {other:?}"),
        }
    }
}

fn two_digits(value: i64) -> String {
    (100 + value % 100).to_string()[1..].to_owned()
}

/// The time of five bytes that counts so many hundredths.
pub fn time_of(hundredths: i64) -> Vec<u8> {
    assert!((0..=LARGEST).contains(&hundredths), "{hundredths}");
    hundredths.to_le_bytes()[..5].to_vec()
}

/// The Julian day number of a date of the Gregorian calendar, as Fliegel and Van Flandern give it.
pub fn julian_day(year: i64, month: i64, day: i64) -> i64 {
    let early = (month - 14) / 12;
    let centuries = (year + 4_900 + early) / 100;
    1_461 * (year + 4_800 + early) / 4 + 367 * (month - 2 - 12 * early) / 12 - 3 * centuries / 4
        + day
        - 32_075
}

#[cfg(test)]
mod tests {
    use super::*;

    #[test]
    fn published_day_numbers() {
        assert_eq!(julian_day(1858, 11, 17), 2_400_001);
        assert_eq!(julian_day(1970, 1, 1), 2_440_588);
        assert_eq!(julian_day(2000, 1, 1), 2_451_545);
    }

    #[test]
    fn there_and_back() {
        for hundredths in (0..=LARGEST).step_by(7_654_321).chain([LARGEST]) {
            assert_eq!(Moment::of(hundredths).hundredths(), hundredths);
        }
    }

    #[test]
    fn what_the_fields_show() {
        let moment = Moment {
            clock: 13 * 360_000 + 25 * 6_000 + 54 * 100 + 7,
            ..Moment::midnight(1989, 3, 28)
        };
        let shown = FIELDS.map(|field| moment.shown(field));
        assert_eq!(
            shown,
            ["07", "54", "25", "13", "28", "03", "19", "89", "087", "Mar", "Tue"]
        );
    }
}
