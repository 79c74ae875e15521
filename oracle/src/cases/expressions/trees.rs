//! Expressions as trees, before they are written down.

use super::arithmetic::{signed, Binary, Unary, MINUS};

#[derive(Clone)]
pub enum Tree {
    Leaf(Leaf),
    Unary(&'static Unary, Box<Tree>),
    /// In brackets that the levels need not ask for.
    Bracketed(Box<Tree>),
    Binary(&'static Binary, Box<Tree>, Box<Tree>),
    /// Two operands with a token between them that is no two-sided operator.
    Unjoined(&'static str, Box<Tree>, Box<Tree>),
}

/// What stands where an operand is wanted.
#[derive(Clone)]
pub struct Leaf {
    pub written: Vec<u8>,
    pub meaning: Meaning,
}

#[derive(Clone, Copy)]
pub enum Meaning {
    Number(i64),
    Variable(i64),
    /// A name that is refused with this number when its turn comes.
    Refused(u8),
    /// A token that is refused at once, so many bytes behind its start.
    Misplaced {
        number: u8,
        within: usize,
    },
}

impl Tree {
    pub fn leaf(written: &[u8], meaning: Meaning) -> Tree {
        Tree::Leaf(Leaf {
            written: written.to_vec(),
            meaning,
        })
    }

    /// A number in decimal; a negative one behind a minus of its own.
    pub fn number(value: i64) -> Tree {
        if value < 0 {
            return Tree::unary(&MINUS, Tree::number(-value));
        }
        let written = value.to_string();
        Tree::leaf(written.as_bytes(), Meaning::Number(signed(value)))
    }

    pub fn unary(operator: &'static Unary, inside: Tree) -> Tree {
        Tree::Unary(operator, Box::new(inside))
    }

    pub fn bracketed(inside: Tree) -> Tree {
        Tree::Bracketed(Box::new(inside))
    }

    pub fn binary(operator: &'static Binary, left: Tree, right: Tree) -> Tree {
        Tree::Binary(operator, Box::new(left), Box::new(right))
    }

    pub fn unjoined(between: &'static str, left: Tree, right: Tree) -> Tree {
        Tree::Unjoined(between, Box::new(left), Box::new(right))
    }
}
