//! The edges of the calendar's years and months, and every one of its days.

use super::agreed::{agreed, known, need, written, Piece};
use super::moments::{julian_day, time_of, Moment, DAY, FIELDS, FIRST_YEAR, LARGEST, LAST_YEAR};
use crate::lines::Case;

/// Two common years and two leap years; of each kind one divides by 100.
const YEARS_BY_MONTHS: [i64; 4] = [1987, 1988, 2000, 2100];

/// Every day that a time falls on: its first hundredth of a second and its last.
pub fn calendar() -> impl Iterator<Item = Case> {
    let midnights = (0..=LARGEST).step_by(DAY as usize);
    let ends = midnights.flat_map(|midnight| [midnight, last_of_day(midnight)]);
    ends.map(every_field)
}

/// The last hundredth of the day that begins; the last day of all ends early.
fn last_of_day(midnight: i64) -> i64 {
    LARGEST.min(midnight + DAY - 1)
}

/// A case that shows every field at a moment, in the least room.
pub fn every_field(hundredths: i64) -> Case {
    let moment = Moment::of(hundredths);
    let pieces = FIELDS.map(Piece::Field);
    let known = known(&pieces, &moment);
    let time = time_of(hundredths);
    agreed(&time, &written(&pieces), need(&known), &known)
}

/// The first and last days of every year, every end of February, the months of some years.
pub fn edges() -> Vec<Case> {
    let years = FIRST_YEAR..=LAST_YEAR;
    let mut edges: Vec<i64> = years.clone().flat_map(ends_of_year).collect();
    edges.extend(years.flat_map(end_of_february));
    edges.extend(YEARS_BY_MONTHS.into_iter().flat_map(ends_of_months));
    // The last year is cut off in June.
    edges.retain(|&hundredths| hundredths <= LARGEST);
    edges.into_iter().map(every_field).collect()
}

/// The first hundredth and the last of a year's first day and of its last.
fn ends_of_year(year: i64) -> [i64; 4] {
    let first = Moment::midnight(year, 1, 1).hundredths();
    let last = Moment::midnight(year, 12, 31).hundredths();
    [first, first + DAY - 1, last, last + DAY - 1]
}

/// The last hundredth of 28 February, both ends of a 29 February, the first of 1 March.
fn end_of_february(year: i64) -> Vec<i64> {
    let march = Moment::midnight(year, 3, 1).hundredths();
    let mut ends = vec![Moment::midnight(year, 2, 28).hundredths() + DAY - 1];
    if julian_day(year, 3, 1) - julian_day(year, 2, 28) == 2 {
        ends.extend([march - DAY, march - 1]);
    }
    ends.push(march);
    ends
}

/// The first hundredth of each month and the one before it.
fn ends_of_months(year: i64) -> Vec<i64> {
    let first = |month| Moment::midnight(year, month, 1).hundredths();
    (1..=12)
        .flat_map(|month| [first(month) - 1, first(month)])
        .collect()
}

#[cfg(test)]
mod tests {
    use super::*;
    use crate::answers::answer;
    use crate::lines::hex;

    /// Making the cases holds both routes together on every day there is.
    #[test]
    fn every_day_is_in_the_calendar() {
        let cases: Vec<Case> = calendar().collect();
        assert_eq!(cases.len(), 2 * 127_259);
        for (case, string) in [
            (&cases[0], b"0000000001011900001JanMon"),
            (&cases[1], b"9959592301011900001JanMon"),
            (&cases[2 * 36_583], b"0000000029022000060FebTue"),
            (&cases[2 * 127_259 - 1], b"7557570603062248155JunSat"),
        ] {
            assert_eq!(answer(case), format!("ok {} 25 1", hex(string)));
        }
    }

    #[test]
    fn every_year_has_its_edges() {
        let years = FIRST_YEAR..=LAST_YEAR;
        let leap = |year: &i64| end_of_february(*year).len() == 4;
        assert_eq!(years.clone().filter(leap).count(), 85);
        for year in [1900, 2100, 2200] {
            assert!(!leap(&year), "{year}");
        }
        assert!(leap(&2000));
        // The last year has two edges of its first day and none of its last.
        let months = 24 * YEARS_BY_MONTHS.len();
        assert_eq!(edges().len(), 4 * 349 - 2 + 2 * 349 + 2 * 85 + months);
    }
}
