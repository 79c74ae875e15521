//! Random trees over random variables, good ones and such as hold faults.

use super::arithmetic::{signed, Binary, Unary, BINARY, TIGHTEST, UNARY};
use super::pages::{spaced, Brackets, Written};
use super::trees::{Meaning, Tree};
use crate::cases::forms::{in_mixed_case, in_some_form};
use crate::cases::limits::allowance;
use crate::cases::pairs::Pair;
use crate::cases::tables::Entry;
use crate::cases::values::value;
use crate::lines::Case;
use crate::random::Random;

/// Names of every shape; those that are operators in capitals are never written so.
const NAMES: [&str; 14] = [
    "i", "ab", "Sys$Year", "x_1", "mod", "and", "not", "AND3", "EORx", "n0", "z$", "b_", "OR_",
    "nnnnnnnnnnnnnnnnnnnnnnnnnnnnnnnn",
];
const UNKNOWN_NAMES: [&str; 7] = [
    "q", "MODx", "NOT1", "or", "i_", "nn$", "nnnnnnnnnnnnnnnnnnnnnnnnnnnnnnnnn",
];
const OPERATORS_IN_CAPITALS: [&[u8]; 5] = [b"MOD", b"AND", b"OR", b"EOR", b"NOT"];

/// Tokens that are refused where an operand is wanted: number, bytes behind their start.
const NO_OPERANDS: [(&[u8], u8, usize); 22] = [
    (b"*", 15, 0),
    (b"/", 15, 0),
    (b"MOD", 15, 0),
    (b"AND", 15, 0),
    (b"EOR", 15, 0),
    (b"=", 15, 0),
    (b">>>", 15, 0),
    (b")", 15, 0),
    (b"#", 15, 0),
    (b"_1", 15, 0),
    (b"$a", 15, 0),
    (b"\t", 15, 0),
    (b"\xFF", 15, 0),
    (b"\0", 15, 0),
    (b"\n", 15, 0),
    (b"\r", 15, 0),
    (b"&", 2, 1),
    (b"16_", 2, 3),
    (b"37_1", 3, 0),
    (b"4294967298_1", 3, 0),
    (b"4294967296", 4, 0),
    (b"&100000000", 4, 0),
];

/// Tokens that are refused where a two-sided operator is wanted.
const NO_OPERATORS: [&str; 10] = [
    "5", "q", "NOT", "(", "#", "37_1", "&", "4294967296", "mod", ".",
];

/// The variables that a tree can name, and how often something in it is wrong.
pub struct Ground {
    /// The records that count; the farm's can hide others of their names in the house.
    pub entries: Vec<Entry>,
    /// What each entry's name means in an expression.
    meanings: Vec<Meaning>,
    pub pair: Pair,
    /// One token in so many is wrong, if any.
    one_wrong_in: Option<usize>,
}

impl Ground {
    /// Some variables, all of them integers where nothing is to be wrong.
    pub fn new(random: &mut Random, one_wrong_in: Option<usize>) -> Self {
        let mut ground = Ground {
            entries: Vec::new(),
            meanings: Vec::new(),
            pair: Pair::default(),
            one_wrong_in,
        };
        for name in NAMES {
            if random.one_in(5) {
                ground.add(random, name);
            }
        }
        ground.pair = Pair::dealt(random, ground.entries.clone());
        ground
    }

    fn add(&mut self, random: &mut Random, name: &str) {
        let kind = self.one_wrong_in.map_or(0, |_| random.below(6));
        let (entry, meaning) = match kind {
            4 => (Entry::string(name, b"1"), Meaning::Refused(17)),
            5 => (Entry::macro_of(name, b"<1>"), Meaning::Refused(17)),
            _ => {
                let value = telling(random);
                let meaning = Meaning::Variable(signed(value.into()));
                (Entry::integer(name, value), meaning)
            }
        };
        self.entries.push(entry);
        self.meanings.push(meaning);
    }

    fn goes_wrong(&self, random: &mut Random) -> bool {
        self.one_wrong_in.is_some_and(|times| random.one_in(times))
    }

    /// A tree of so many operands in a random shape, here and there covered.
    pub fn tree(&self, random: &mut Random, operands: usize) -> Tree {
        let tree = if operands == 1 {
            self.operand(random)
        } else {
            let left = random.between(1, operands - 1);
            let (left, right) = (self.tree(random, left), self.tree(random, operands - left));
            self.joined(random, left, right)
        };
        match random.below(10) {
            0 => Tree::bracketed(tree),
            1 | 2 => Tree::unary(unary(random), tree),
            _ => tree,
        }
    }

    fn joined(&self, random: &mut Random, left: Tree, right: Tree) -> Tree {
        if self.goes_wrong(random) {
            return Tree::unjoined(random.pick(&NO_OPERATORS), left, right);
        }
        Tree::binary(binary(random), left, right)
    }

    fn operand(&self, random: &mut Random) -> Tree {
        if self.goes_wrong(random) {
            let (written, number, within) = random.pick(&NO_OPERANDS);
            return Tree::leaf(written, Meaning::Misplaced { number, within });
        }
        if self.goes_wrong(random) {
            let unknown = random.pick(&UNKNOWN_NAMES);
            return Tree::leaf(unknown.as_bytes(), Meaning::Refused(10));
        }
        if self.entries.is_empty() || random.one_in(2) {
            return number(random);
        }
        let index = random.below(self.entries.len());
        let name = in_some_case(random, &self.entries[index].name);
        Tree::leaf(&name, self.meanings[index])
    }

    /// The written tree as a case, under an allowance at the number of its look-ups or near it.
    pub fn case(&self, random: &mut Random, mut written: Written) -> Case {
        if random.one_in(8) {
            let ends = ["\0", "\n", "\r", "\n+1", "\0#", "\r )"];
            written.text.extend(random.pick(&ends).as_bytes());
        }
        let allowance = allowance(random, written.look_ups() as u32);
        written.agreed(self.pair.lent(), allowance)
    }
}

/// A tree without faults of its own making, though a divisor can come out as zero.
pub fn good(random: &mut Random) -> Case {
    let operands = random.pick(&[1, 2, 2, 3, 3, 4, 4, 5, 6, 7, 9, 12, 20]);
    grown(random, None, operands, Brackets::Right)
}

/// A tree in which one or more things are wrong: tokens, names or the brackets around it.
pub fn faulty(random: &mut Random) -> Case {
    let operands = random.pick(&[1, 2, 2, 3, 4, 5, 7]);
    let brackets = match random.below(8) {
        0 => Brackets::Unopened,
        1 => Brackets::Unclosed(random.pick(&[1, 1, 1, 2, 3])),
        _ => Brackets::Right,
    };
    let one_wrong_in = random.pick(&[5, 8, 12, 50]);
    grown(random, Some(one_wrong_in), operands, brackets)
}

fn grown(
    random: &mut Random,
    one_wrong_in: Option<usize>,
    operands: usize,
    brackets: Brackets,
) -> Case {
    let ground = Ground::new(random, one_wrong_in);
    let tree = ground.tree(random, operands);
    let written = spaced(random, &tree, brackets);
    ground.case(random, written)
}

pub fn unary(random: &mut Random) -> &'static Unary {
    random.pick(&UNARY)
}

/// Each level is as likely as any other, so that long ones do not drown short ones.
pub fn binary(random: &mut Random) -> &'static Binary {
    let level = random.below(TIGHTEST);
    let of_level: Vec<&Binary> = BINARY
        .into_iter()
        .filter(|operator| operator.level == level)
        .collect();
    random.pick(&of_level)
}

/// A small number, one of few bits set or cleared, or any telling one.
fn telling(random: &mut Random) -> u32 {
    match random.below(4) {
        0 => random.below(40) as u32,
        1 => (random.below(10) as u32).wrapping_neg(),
        _ => value(random),
    }
}

/// A number in decimal mostly, in hex or in some base.
fn number(random: &mut Random) -> Tree {
    let value = telling(random);
    let written = match random.below(3) {
        0 => in_some_form(random, value.into()),
        1 if random.one_in(2) => format!("&{value:X}").into_bytes(),
        _ => value.to_string().into_bytes(),
    };
    Tree::leaf(&written, Meaning::Number(signed(value.into())))
}

/// A name in any case in which it is not an operator.
fn in_some_case(random: &mut Random, name: &[u8]) -> Vec<u8> {
    let mixed = in_mixed_case(random, name);
    if OPERATORS_IN_CAPITALS.contains(&&mixed[..]) {
        name.to_vec()
    } else {
        mixed
    }
}
