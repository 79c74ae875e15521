//! Kinds of case that must be met, so that none is lost unseen when the making of cases changes.

use super::met::{begins, Met};
use crate::cases::kinds::{self, assert_met};
use crate::cases::operation;
use crate::random::Random;

type Kind = kinds::Kind<Met>;

/// Kinds of building that fixed cases and random ones have.
const BUILDING: [Kind; 11] = [
    ("no room at all", |met| met.is("no 1 ") && met.room == 0),
    ("a byte too few", |met| {
        met.is("no 1 ") && met.is_small() && met.room > 1 && met.room + 1 == met.need()
    }),
    ("just room enough", |met| {
        met.is("ok") && met.need() > 0 && met.room == met.need()
    }),
    ("a byte too many", |met| {
        met.is("ok") && met.need() > 0 && met.room == met.need() + 1
    }),
    ("no records and no room", |met| {
        met.is("ok") && met.house.bytes.is_empty() && met.room == 0
    }),
    ("places in the table's order", |met| {
        met.need() > 2 && met.is_ascending(|place| place)
    }),
    ("places in another order", |met| {
        !met.is_ascending(|place| place)
    }),
    ("another order without folding", |met| {
        !met.is_ascending(|place| met.house_name(place))
    }),
    ("another order with folding to capitals", |met| {
        !met.is_ascending(|place| met.house_name(place).to_ascii_uppercase())
    }),
    ("a beginning behind what it begins", |met| {
        let mut names = met.names();
        names.reverse();
        (1..names.len()).any(|index| begins(&names[index - 1], &names[index]))
    }),
    ("a bad table and no room", |met| {
        met.is("no 13") && met.is_small() && met.room == 0
    }),
];

/// Kinds of look-up that fixed cases and random ones have.
const LOOKING: [Kind; 17] = [
    ("the first of its order", |met| met.rank() == Some(0)),
    ("the last of its order", |met| {
        met.rank()
            .is_some_and(|rank| rank > 3 && 2 * rank + 2 == met.need())
    }),
    ("one between", |met| {
        met.rank()
            .is_some_and(|rank| rank > 1 && 2 * rank + 4 < met.need())
    }),
    ("a name in another case", |met| {
        met.rank().is_some_and(|rank| met.is_in_other_case(rank))
    }),
    ("unknown before the first", |met| {
        met.misses_at(|rank, _| rank == 0)
    }),
    ("unknown behind the last", |met| {
        met.misses_at(|rank, count| rank == count)
    }),
    ("unknown between", |met| {
        met.misses_at(|rank, count| 0 < rank && rank < count)
    }),
    ("unknown, the beginning of a name", |met| {
        met.misses() && met.names().iter().any(|name| begins(&met.asked, name))
    }),
    ("unknown, begun by a name", |met| {
        met.misses() && met.names().iter().any(|name| begins(name, &met.asked))
    }),
    ("unknown, over 32 bytes", |met| {
        met.misses() && met.asked.len() > 32
    }),
    ("a wrong index with a known name", |met| {
        met.is_unfit() && met.house.record_of(&met.asked).is_some()
    }),
    ("a wrong index with an unknown name", |met| {
        met.is_unfit() && met.house.record_of(&met.asked).is_none()
    }),
    ("an odd number of bytes", |met| {
        met.is_unfit() && !met.given().len().is_multiple_of(2)
    }),
    ("an entry too few", |met| {
        met.is_unfit() && met.given().len() + 2 == met.need()
    }),
    ("a right beginning", |met| {
        met.is_unfit() && met.need() > 0 && begins(&met.house.right, met.given())
    }),
    ("as many places in another order", |met| {
        let mut given: Vec<&[u8]> = met.given().chunks(2).collect();
        let mut right: Vec<&[u8]> = met.house.right.chunks(2).collect();
        given.sort();
        right.sort();
        met.is_unfit() && given == right
    }),
    ("an index for a bad table", |met| {
        met.is("no 13 h") && met.is_small() && met.index.is_some()
    }),
];

/// Kinds of look-up that are each one of their kind, or have long lines.
const FIXED_IN_ONE: [Kind; 10] = [
    ("an empty index that fits", |met| {
        met.is("none") && met.house.bytes.is_empty()
    }),
    ("an index for an empty table", |met| {
        met.is_unfit() && met.house.bytes.is_empty()
    }),
    ("256 records", |met| met.is("rec") && met.need() == 512),
    ("the high byte first", |met| {
        let turned: Vec<u8> = met
            .given()
            .chunks(2)
            .flat_map(|place| place.iter().rev().copied())
            .collect();
        met.is_unfit() && turned == met.house.right
    }),
    ("one entry twice", |met| {
        let [given, right] = [met.given(), &met.house.right].map(|index| index.chunks(2));
        let twice = met
            .given()
            .chunks(2)
            .skip(1)
            .any(|place| place == &met.given()[..2]);
        met.is_unfit() && twice && given.zip(right).filter(|(one, other)| one != other).count() == 1
    }),
    ("a place in the upper half", |met| {
        met.is("rec") && met.house.right.chunks(2).any(|place| place[1] > 127)
    }),
    ("an over-long index", |met| {
        met.is_unfit() && met.given().len() > 65_535
    }),
    ("an over-long name", |met| {
        met.misses() && met.asked.len() > 65_535
    }),
    ("a name whose length is a record's in one byte", |met| {
        met.misses()
            && met
                .house
                .record_of(&met.asked[..met.asked.len() % 256])
                .is_some()
    }),
    ("a name whose length is a record's in two bytes", |met| {
        met.misses()
            && met
                .house
                .record_of(&met.asked[..met.asked.len() % 65_536])
                .is_some()
    }),
];

/// Kinds of look-up in two tables that fixed cases and random ones have.
const IN_BOTH: [Kind; 8] = [
    ("a farm's name that hides the house's", |met| {
        met.is("rec f") && met.index.is_some() && met.house.record_of(&met.asked).is_some()
    }),
    ("a farm's name alone", |met| {
        met.is("rec f") && met.index.is_some() && met.house.record_of(&met.asked).is_none()
    }),
    ("a house's name beside a farm's", |met| {
        met.is("rec h") && met.index.is_some() && !met.farm.entries().is_empty()
    }),
    ("no index", |met| met.is("rec h") && met.index.is_none()),
    ("the farm's index", |met| {
        met.is_unfit() && met.need() > 2 && met.given().len() > 2 && met.given() == met.farm.right
    }),
    ("a wrong index with the farm's name", |met| {
        met.is_unfit() && met.farm.record_of(&met.asked).is_some()
    }),
    ("a bad farm's table with a wrong index", |met| {
        met.is("no 13 f") && met.house.judged.is_ok() && !met.fits()
    }),
    ("two bad tables", |met| {
        met.is("no 13 f") && met.house.judged.is_err()
    }),
];

/// Kinds of translation that fixed cases and random ones have.
const TRANSLATING: [Kind; 11] = [
    ("a text that would be accepted", |met| {
        met.is_unfit() && met.would("ok")
    }),
    ("a text with an unknown name", |met| {
        met.is_unfit() && met.would("no 10")
    }),
    ("a bad code", |met| met.is_unfit() && met.would("no 7")),
    ("a bad reference", |met| met.is_unfit() && met.would("no 9")),
    ("a code over 255", |met| {
        met.is_unfit() && met.would("no 21")
    }),
    ("too few look-ups", |met| {
        met.is_unfit() && met.would("no 12")
    }),
    ("too little room", |met| {
        met.is_unfit() && met.would("no 1 ")
    }),
    ("no text", |met| met.is_unfit() && met.asked.is_empty()),
    ("a bad farm's table", |met| met.is("no 13 f") && !met.fits()),
    ("a bad house table", |met| met.is("no 13 h")),
    ("a right index of many records", |met| {
        met.is("ok") && met.need() > 4 && met.asked.contains(&b'<')
    }),
];

/// The fixed cases of an operation, and random ones.
fn met(name: &str) -> [(Vec<Met>, &'static str); 2] {
    let operation = operation(name).expect("an operation");
    let mut random = Random::new(1);
    let drawn = (0..3_000).map(|_| (operation.random)(&mut random));
    let drawn = drawn.map(Met::new).collect();
    let fixed = (operation.fixed)().into_iter().map(Met::new).collect();
    [(fixed, "fixed"), (drawn, "random")]
}

#[test]
fn every_kind_of_building_is_met() {
    for (cases, among) in met("index") {
        assert_met(&BUILDING, &cases, among);
    }
}

#[test]
fn every_kind_of_look_up_in_one_table_is_met() {
    let [(fixed, _), (random, _)] = met("ilook");
    assert_met(&LOOKING, &fixed, "fixed");
    assert_met(&FIXED_IN_ONE, &fixed, "fixed");
    assert_met(&LOOKING, &random, "random");
}

#[test]
fn every_kind_of_look_up_in_two_tables_is_met() {
    let [(fixed, _), (random, _)] = met("flook");
    assert_met(&IN_BOTH, &fixed, "fixed");
    assert_met(&IN_BOTH, &random, "random");
    assert_met(&LOOKING, &random, "random");
}

#[test]
fn every_kind_of_translation_is_met_and_each_has_an_index() {
    for (cases, among) in met("itrans") {
        assert_met(&TRANSLATING, &cases, among);
        assert!(cases.iter().all(|met| met.index.is_some()), "{among}");
    }
}
