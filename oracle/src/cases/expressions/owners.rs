//! Names of the farm's table and of the house's: which one counts; which table is refused first.

use super::arithmetic::SUM;
use super::eval;
use super::pages::plain;
use super::trees::{Meaning, Tree};
use crate::cases::pairs::{ill_pairs, OneName, Pair};
use crate::cases::tables::{numbered, numbered_from, Entry};
use crate::lines::Case;
use crate::variables::Kind;

pub fn fixed() -> Vec<Case> {
    [
        one_name_everywhere(),
        shared_names(),
        in_ill_pairs(),
        in_full_tables(),
    ]
    .into_iter()
    .flatten()
    .collect()
}

/// A name of every kind or none in either table, alone and behind an integer of the house.
fn one_name_everywhere() -> Vec<Case> {
    let mut cases = Vec::new();
    for one_name in OneName::everywhere() {
        let name = Tree::leaf(b"VV", meaning(&one_name));
        let behind = Tree::binary(
            &SUM,
            Tree::leaf(b"only", Meaning::Variable(9)),
            name.clone(),
        );
        for allowance in 0..=3 {
            let lent = || one_name.pair().lent();
            cases.push(plain(&name).agreed(lent(), allowance));
            cases.push(plain(&behind).agreed(lent(), allowance));
        }
    }
    cases
}

/// The farm's kind decides where there is one, whatever the house has.
fn meaning(one_name: &OneName) -> Meaning {
    match (one_name.in_farm, one_name.in_house) {
        (Some(Kind::Integer), _) => Meaning::Variable(OneName::OF_FARM.into()),
        (None, Some(Kind::Integer)) => Meaning::Variable(OneName::OF_HOUSE.into()),
        (None, None) => Meaning::Refused(10),
        _ => Meaning::Refused(17),
    }
}

/// Names of one table and of both in one text, each spending one look-up.
fn shared_names() -> Vec<Case> {
    let farm = [
        Entry::integer("a", 100),
        Entry::integer("b", 20),
        Entry::string("s", b""),
    ];
    let house = [
        Entry::integer("B", 5_000),
        Entry::integer("c", 3),
        Entry::integer("S", 7),
        Entry::macro_of("A", b""),
    ];
    let texts = [
        "a", "b", "c", "a+b+c", "c+B+A", "c-c", "b/(c-3)", "c+s", "s+c", "c+q", "q+c", "c MOD a",
        "-(c*(b-a))",
    ];
    let pair = Pair::of(&farm, &house);
    let mut cases = Vec::new();
    for pair in [
        pair.swapped(),
        pair,
        Pair::in_farm(&farm),
        Pair::in_house(&house),
    ] {
        for text in texts {
            for allowance in 0..=3 {
                cases.push(eval(text.as_bytes(), &pair, allowance));
            }
        }
    }
    cases
}

/// Bad tables come before the syntax and before every name.
fn in_ill_pairs() -> Vec<Case> {
    let mut cases = Vec::new();
    for lent in ill_pairs() {
        for text in ["1", "(", "h", "q", "1/0"] {
            cases.push(Case::Eval {
                text: text.into(),
                tables: lent.clone(),
                allowance: 1,
            });
        }
    }
    cases
}

/// Around 256 records in each table, 512 names in all.
fn in_full_tables() -> Vec<Case> {
    let mut cases = Vec::new();
    for (farm, house) in [(256, 256), (257, 256), (256, 257), (257, 257)] {
        let mut pair = Pair::of(&numbered(farm - 1), &numbered_from(300, house - 1));
        pair.farm.push(Entry::integer("zx", 1));
        pair.house.push(Entry::integer("zy", 2));
        cases.push(eval(b"zx-zy", &pair, 2));
    }
    cases
}
