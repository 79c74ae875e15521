//! Operands under about sixteen unary operators and brackets, the most that there may be.

use super::arithmetic::{MINUS, NOT, PLUS, SUM};
use super::growth::{binary, unary, Ground};
use super::pages::{plain, spaced, Brackets};
use super::trees::Tree;
use crate::lines::Case;
use crate::random::Random;
use crate::variables::LentTables;

type Cover = fn(Tree) -> Tree;

/// Covers that are laid on in turn, the innermost first.
const ROWS: [&[Cover]; 10] = [
    &[minus],
    &[not],
    &[plus],
    &[Tree::bracketed],
    &[minus, Tree::bracketed],
    &[Tree::bracketed, minus],
    &[not, minus, Tree::bracketed, plus],
    &[sum_in_brackets_on_the_left],
    &[sum_in_brackets_on_the_right],
    &[sum_in_brackets_on_the_left, sum_in_brackets_on_the_right],
];

fn minus(inside: Tree) -> Tree {
    Tree::unary(&MINUS, inside)
}

fn not(inside: Tree) -> Tree {
    Tree::unary(&NOT, inside)
}

fn plus(inside: Tree) -> Tree {
    Tree::unary(&PLUS, inside)
}

fn sum_in_brackets_on_the_left(inside: Tree) -> Tree {
    Tree::bracketed(Tree::binary(&SUM, inside, Tree::number(1)))
}

fn sum_in_brackets_on_the_right(inside: Tree) -> Tree {
    Tree::bracketed(Tree::binary(&SUM, Tree::number(1), inside))
}

/// A number under so many covers of one row.
fn under(row: &[Cover], count: usize) -> Tree {
    let covers = row.iter().cycle().take(count);
    covers.fold(Tree::number(3), |inside, cover| cover(inside))
}

/// Each row at each depth, alone, with a shallow operand behind it, and twice side by side.
pub fn fixed() -> Vec<Case> {
    let mut cases = Vec::new();
    for count in [15, 16, 17, 18] {
        for row in ROWS {
            let deep = || under(row, count);
            let shapes = [
                deep(),
                Tree::binary(&SUM, deep(), minus(Tree::number(1))),
                Tree::binary(&SUM, deep(), deep()),
            ];
            for tree in shapes {
                cases.push(plain(&tree).agreed(LentTables::default(), 0));
            }
        }
    }
    cases
}

/// Operands under 13 to 18 random covers in a row of shallower ones.
pub fn random(random: &mut Random) -> Case {
    let one_wrong_in = random.pick(&[None, None, Some(30)]);
    let ground = Ground::new(random, one_wrong_in);
    let mut tree = ground.tree(random, 1);
    for _ in 0..random.between(1, 3) {
        let covers = random.pick(&[1, 2, 13, 14, 15, 15, 16, 17, 18]);
        let operands = random.between(1, 2);
        let inside = ground.tree(random, operands);
        let deep = randomly_covered(random, inside, covers);
        tree = if random.one_in(2) {
            Tree::binary(binary(random), tree, deep)
        } else {
            Tree::binary(binary(random), deep, tree)
        };
    }
    let written = spaced(random, &tree, Brackets::Right);
    ground.case(random, written)
}

/// A bracket around what has one already, or a unary operator before all of it, and so on.
fn randomly_covered(random: &mut Random, inside: Tree, covers: usize) -> Tree {
    (0..covers).fold(inside, |inside, _| {
        if random.one_in(2) {
            Tree::bracketed(inside)
        } else {
            Tree::unary(unary(random), inside)
        }
    })
}
