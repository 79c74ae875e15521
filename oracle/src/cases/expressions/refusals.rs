//! Two faults in one text, in either order, and the allowances that names run out of.

use super::arithmetic::{Binary, AND, DIFFERENCE, MINUS, NOT, QUOTIENT, REMAINDER, SUM};
use super::pages::plain;
use super::trees::{Meaning, Tree};
use crate::cases::pairs::Pair;
use crate::cases::tables::Entry;
use crate::lines::Case;

/// Joints of different levels; under the last one the right side is a divisor.
static JOINTS: [&Binary; 3] = [&AND, &SUM, &QUOTIENT];

/// Allowances around the most look-ups that any allowance gives.
const AROUND_THE_MOST: [u32; 4] = [1_023, 1_024, 1_025, u32::MAX];

pub fn fixed() -> Vec<Case> {
    [two_faults(), covered_faults(), exact_allowances()]
        .into_iter()
        .flatten()
        .collect()
}

/// A case over the house's integer of 7 and macro, and a string by which the farm hides an integer.
fn case(tree: &Tree, allowance: u32) -> Case {
    let farm = [Entry::string("s", b"7")];
    let house = [
        Entry::integer("i", 7),
        Entry::integer("S", 5),
        Entry::macro_of("m", b"7"),
    ];
    plain(tree).agreed(Pair::of(&farm, &house).lent(), allowance)
}

fn integer() -> Tree {
    Tree::leaf(b"I", Meaning::Variable(7))
}

fn name(name: &str, number: u8) -> Tree {
    Tree::leaf(name.as_bytes(), Meaning::Refused(number))
}

fn misplaced(written: &str, number: u8, within: usize) -> Tree {
    Tree::leaf(written.as_bytes(), Meaning::Misplaced { number, within })
}

/// A name that is fine as long as it is allowed, then trees of one fault each.
fn faults() -> Vec<Tree> {
    let zero = Tree::binary(&DIFFERENCE, integer(), integer());
    let by_zero = |operator, zero| Tree::binary(operator, Tree::number(1), zero);
    let too_deep = (0..17).fold(Tree::number(1), |inside, _| Tree::unary(&MINUS, inside));
    vec![
        integer(),
        by_zero(&QUOTIENT, zero.clone()),
        by_zero(&REMAINDER, zero),
        by_zero(&QUOTIENT, Tree::number(0)),
        by_zero(&REMAINDER, Tree::number(0)),
        name("q", 10),
        name(&"i".repeat(33), 10),
        name("S", 17),
        name("m", 17),
        misplaced("#", 15, 0),
        misplaced("&", 2, 1),
        misplaced("37_", 3, 0),
        misplaced("4294967296", 4, 0),
        too_deep,
    ]
}

/// Every fault before every other, with and without enough look-ups.
fn two_faults() -> Vec<Case> {
    let faults = faults();
    let mut cases = Vec::new();
    for (first_index, first) in faults.iter().enumerate() {
        for (second_index, second) in faults.iter().enumerate() {
            let joint = JOINTS[(first_index + second_index) % JOINTS.len()];
            let tree = Tree::binary(joint, first.clone(), second.clone());
            for allowance in [0, 1, 9] {
                cases.push(case(&tree, allowance));
            }
        }
    }
    cases
}

/// Every fault under covers, before a token that is wrong where it stands, and behind one.
fn covered_faults() -> Vec<Case> {
    let mut cases = Vec::new();
    for fault in faults() {
        let covered = Tree::unary(&NOT, Tree::bracketed(fault.clone()));
        let before = Tree::unjoined("(", fault.clone(), integer());
        let behind = Tree::unjoined("q", Tree::bracketed(integer()), fault);
        for tree in [covered, before, behind] {
            cases.push(case(&tree, 0));
            cases.push(case(&tree, 9));
        }
    }
    cases
}

/// So many names in a row, joined from the left.
fn sum(names: u32) -> Tree {
    let longer = |sum, _| Tree::binary(&SUM, sum, integer());
    (1..names).fold(integer(), longer)
}

/// So many names in a row, each of them before a bracket around the others.
fn nested(names: u32) -> Tree {
    let longer = |nested, _| Tree::binary(&DIFFERENCE, integer(), nested);
    (1..names).fold(integer(), longer)
}

/// A few names with every allowance near their number; then around the most look-ups.
fn exact_allowances() -> Vec<Case> {
    let mut cases = Vec::new();
    for names in 1..=5 {
        let near = [0, names - 1, names, names + 1];
        for allowance in near.into_iter().chain(AROUND_THE_MOST) {
            cases.push(case(&sum(names), allowance));
            cases.push(case(&nested(names), allowance));
        }
    }
    for names in [1_023, 1_024, 1_025] {
        for allowance in AROUND_THE_MOST {
            cases.push(case(&sum(names), allowance));
        }
    }
    cases
}
