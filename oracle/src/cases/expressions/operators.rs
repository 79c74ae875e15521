//! Every operator at its edges, and every two operators side by side.

use super::arithmetic::{Binary, Unary, BINARY, UNARY};
use super::pages::plain;
use super::trees::Tree;
use crate::lines::Case;
use crate::variables::LentTables;

/// Operands at the edges of what some operator does; those over the highest number are patterns.
const EDGES: [i64; 15] = [
    0, 1, -1, 2, 7, -7, 31, 32, 33, 65_535, 65_536, 2_147_483_647, 2_147_483_648, -2_147_483_648,
    4_294_967_295,
];

/// Values whose bits show where a shift takes them, and amounts around each multiple of 32.
const SHIFTED: [i64; 6] = [1, -1, 5, 2_147_483_647, -2_147_483_648, 2_147_483_649];
const AMOUNTS: [i64; 12] = [
    30, 63, 64, 65, 96, 255, 256, 257, -31, -32, -33, 4_294_967_264,
];

/// Small operands among which most pairs of operators show how they are grouped.
const SMALL: [i64; 9] = [0, 1, 2, 3, 5, 8, 31, -1, -3];

pub fn fixed() -> Vec<Case> {
    [pairs(), shifts(), one_sided(), neighbours(), covered()]
        .into_iter()
        .flatten()
        .collect()
}

fn case(tree: &Tree) -> Case {
    plain(tree).agreed(LentTables::default(), 0)
}

/// Every two-sided operator between every two edges.
fn pairs() -> Vec<Case> {
    let mut cases = Vec::new();
    for operator in BINARY {
        for left in EDGES {
            for right in EDGES {
                let (left, right) = (Tree::number(left), Tree::number(right));
                cases.push(case(&Tree::binary(operator, left, right)));
            }
        }
    }
    cases
}

fn shifts() -> Vec<Case> {
    let is_shift = |operator: &&Binary| ["<<", ">>", ">>>"].contains(&operator.sign);
    let mut cases = Vec::new();
    for operator in BINARY.into_iter().filter(is_shift) {
        for value in SHIFTED {
            for amount in AMOUNTS {
                let (value, amount) = (Tree::number(value), Tree::number(amount));
                cases.push(case(&Tree::binary(operator, value, amount)));
            }
        }
    }
    cases
}

/// Every one-sided operator over every edge, alone and under every other.
fn one_sided() -> Vec<Case> {
    let mut cases = Vec::new();
    for outer in UNARY {
        for edge in EDGES {
            cases.push(case(&Tree::unary(outer, Tree::number(edge))));
            for inner in UNARY {
                let inside = Tree::unary(inner, Tree::number(edge));
                cases.push(case(&Tree::unary(outer, inside)));
            }
        }
    }
    cases
}

/// Every two operators in a row, grouped by the levels and, in brackets, the other way.
fn neighbours() -> Vec<Case> {
    let mut cases = Vec::new();
    for first in BINARY {
        for second in BINARY {
            let operands = telling_operands(first, second);
            cases.push(case(&from_the_left(first, second, operands)));
            cases.push(case(&from_the_right(first, second, operands)));
        }
    }
    cases
}

/// Written without brackets unless the second operator is the tighter one.
fn from_the_left(first: &'static Binary, second: &'static Binary, operands: [i64; 3]) -> Tree {
    let [left, middle, right] = operands.map(Tree::number);
    Tree::binary(second, Tree::binary(first, left, middle), right)
}

/// Written without brackets where the second operator is the tighter one.
fn from_the_right(first: &'static Binary, second: &'static Binary, operands: [i64; 3]) -> Tree {
    let [left, middle, right] = operands.map(Tree::number);
    Tree::binary(first, left, Tree::binary(second, middle, right))
}

/// Three operands for which the two groupings differ in value, where there are any.
fn telling_operands(first: &Binary, second: &Binary) -> [i64; 3] {
    for left in SMALL {
        for middle in SMALL {
            for right in SMALL {
                let from_left =
                    (first.value)(left, middle).and_then(|value| (second.value)(value, right));
                let from_right =
                    (second.value)(middle, right).and_then(|value| (first.value)(left, value));
                if from_left.is_some() && from_right.is_some() && from_left != from_right {
                    return [left, middle, right];
                }
            }
        }
    }
    [8, 5, 3]
}

/// Every one-sided operator before either side of every two-sided one, and before both at once.
fn covered() -> Vec<Case> {
    let mut cases = Vec::new();
    for cover in UNARY {
        for operator in BINARY {
            let [left, right] = operands_under(cover, operator);
            let number = Tree::number;
            let covered = |value| Tree::unary(cover, number(value));
            let together = Tree::binary(operator, number(left), number(right));
            cases.push(case(&Tree::binary(operator, covered(left), number(right))));
            cases.push(case(&Tree::binary(operator, number(left), covered(right))));
            cases.push(case(&Tree::unary(cover, together)));
        }
    }
    cases
}

/// Two operands for which it makes a difference whether the left one or both are covered.
fn operands_under(cover: &Unary, operator: &Binary) -> [i64; 2] {
    for left in SMALL {
        for right in SMALL {
            let alone = (operator.value)((cover.value)(left), right);
            let together = (operator.value)(left, right).map(cover.value);
            if alone.is_some() && together.is_some() && alone != together {
                return [left, right];
            }
        }
    }
    [5, 3]
}
