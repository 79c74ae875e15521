//! Kinds of case that must be met, so that none is lost unseen when the making of cases changes.

use super::growth::read_on;
use super::moments::{Moment, FIELDS, LARGEST};
use crate::answers::answer;
use crate::cases::kinds::{self, assert_met};
use crate::cases::operation;
use crate::lines::Case;

/// A case with its answer taken apart.
struct Met {
    time: Vec<u8>,
    format: Vec<u8>,
    room: usize,
    /// The refusal's number and place, where there is one.
    refused: Option<(u8, usize)>,
    /// The least room in which there is a string.
    need: Option<usize>,
}

type Kind = kinds::Kind<Met>;

/// Kinds that fixed cases and random ones have.
const EVERYWHERE: [Kind; 21] = [
    ("no room at all", |met| met.is(1) && met.room == 0),
    ("a byte too few", |met| met.need == Some(met.room + 1)),
    ("just room enough", |met| met.need == Some(met.room)),
    ("a byte too many", |met| {
        met.need.is_some_and(|need| need + 1 == met.room)
    }),
    ("an empty format", |met| met.format.is_empty()),
    ("two percent signs before a field's name", |met| {
        let behind = met.read().strip_prefix(b"%%").unwrap_or_default();
        met.is_good()
            && FIELDS
                .iter()
                .any(|field| behind.starts_with(field.as_bytes()))
    }),
    ("a byte 10 that is copied", |met| {
        met.is_good() && met.read().contains(&10)
    }),
    ("a byte 13 that is copied", |met| {
        met.is_good() && met.read().contains(&13)
    }),
    ("a high byte that is copied", |met| {
        met.is_good() && met.read().iter().any(|&byte| byte > 127)
    }),
    ("a percent sign and the end", |met| {
        met.fault() == Some(b"%") && !met.has_zero_byte()
    }),
    ("a percent sign, C and the end", |met| {
        met.fault() == Some(b"%C") && !met.has_zero_byte()
    }),
    ("a percent sign and a zero byte", |met| {
        met.fault() == Some(b"%") && met.has_zero_byte()
    }),
    ("a percent sign, C and a zero byte", |met| {
        met.fault() == Some(b"%C") && met.has_zero_byte()
    }),
    ("a field in small letters", |met| {
        met.fault().is_some_and(|fault| fault.starts_with(b"%cs"))
    }),
    ("a bad field behind a good one", |met| {
        matches!(met.refused, Some((19, 1..)))
    }),
    ("a bad field behind a bad one", |met| {
        let behind = met.fault().and_then(|fault| fault.get(3..));
        behind.is_some_and(|behind| met.is_bad(behind))
    }),
    ("a bad field behind the zero byte", |met| {
        let behind = met.format.get(met.read().len() + 1..);
        met.is_good() && behind.is_some_and(|behind| met.is_bad(behind))
    }),
    ("the first hundredth of a year", |met| met.starts_a_year(0)),
    ("the last hundredth of a year", |met| met.starts_a_year(1)),
    ("a 29 February", |met| {
        let moment = met.moment_behind(0);
        moment.is_some_and(|moment| (moment.month, moment.day) == (2, 29))
    }),
    ("a bad time before a bad field", |met| {
        met.is(18) && met.format.len() < 100 && met.is_bad(&met.format)
    }),
];

/// Kinds that few cases have, for their lines are long or they are each one of their kind.
const FIXED: [Kind; 9] = [
    ("no time", |met| met.time.is_empty()),
    ("a time of four bytes", |met| met.time.len() == 4),
    ("a time of six bytes", |met| met.time.len() == 6),
    ("a time that is five in one byte", |met| {
        met.time.len() == 261
    }),
    ("the largest time", |met| met.time == [255; 5]),
    ("the longest format, accepted", |met| {
        met.is_good() && met.format.len() == 65_535
    }),
    ("the longest format, bad at its end", |met| {
        met.refused == Some((19, 65_534))
    }),
    ("an over-long format with an early zero byte", |met| {
        met.is(18) && met.time.len() == 5 && met.read().len() < 65_535
    }),
    ("an over-long format with a bad time", |met| {
        met.time.len() != 5 && met.format.len() == 65_536
    }),
];

impl Met {
    fn new(case: Case) -> Self {
        let answer = answer(&case);
        let Case::Date { time, format, room } = case else {
            panic!("no date: {case}");
        };
        let words: Vec<&str> = answer.split(' ').collect();
        let number = |word: &str| word.parse().expect("a number");
        let (refused, need) = match words[..] {
            ["no", "1", place, need, _] => (Some((1, number(place))), Some(number(need))),
            ["no", refusal, place, ..] => (Some((number(refusal) as u8, number(place))), None),
            ["ok", _, offset, _] => (None, Some(number(offset) + 1)),
            _ => panic!("no answer: {answer}"),
        };
        Met {
            time,
            format,
            room,
            refused,
            need,
        }
    }

    fn is_good(&self) -> bool {
        self.refused.is_none()
    }

    fn is(&self, refusal: u8) -> bool {
        self.refused.is_some_and(|(number, _)| number == refusal)
    }

    /// The moment so many hundredths behind the time, where that is shown.
    fn moment_behind(&self, hundredths: i64) -> Option<Moment> {
        let high_to_low = self.time.iter().rev();
        let time = high_to_low.fold(0, |high, &byte| high << 8 | i64::from(byte));
        self.is_good().then(|| Moment::of(time + hundredths))
    }

    /// Whether a year begins so many hundredths behind the time.
    fn starts_a_year(&self, hundredths: i64) -> bool {
        let moment = self.moment_behind(hundredths);
        moment.is_some_and(|moment| (moment.month, moment.day, moment.clock) == (1, 1, 0))
    }

    /// The format up to its zero byte.
    fn read(&self) -> &[u8] {
        let mut parts = self.format.split(|&byte| byte == 0);
        parts.next().unwrap_or_default()
    }

    fn has_zero_byte(&self) -> bool {
        self.read().len() < self.format.len()
    }

    /// What is read from a bad field on.
    fn fault(&self) -> Option<&[u8]> {
        match self.refused {
            Some((19, place)) => Some(&self.read()[place..]),
            _ => None,
        }
    }

    /// Whether a short format has a bad field.
    fn is_bad(&self, format: &[u8]) -> bool {
        let moment = Moment::of(LARGEST);
        format.len() < 1_000 && read_on(format, 0, &moment).is_err()
    }
}

#[test]
fn every_kind_of_case_is_met() {
    let date = operation("date").expect("the operation");
    let fixed: Vec<Met> = (date.fixed)().into_iter().map(Met::new).collect();
    let random = date.cases(1).skip(fixed.len()).take(3_000);
    let random: Vec<Met> = random.map(Met::new).collect();
    assert_met(&FIXED, &fixed, "fixed");
    for (cases, among) in [(&fixed, "fixed"), (&random, "random")] {
        assert_met(&EVERYWHERE, cases, among);
        for field in FIELDS {
            let field = format!("%{field}");
            let shows = |met: &Met| met.is_good() && met.format.starts_with(field.as_bytes());
            assert!(cases.iter().any(shows), "no case {among}: {field}");
        }
    }
}
