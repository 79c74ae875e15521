//! Trees written down token by token, with the answer that has to come of it.

use super::arithmetic::{Binary, TIGHTEST};
use super::trees::{Leaf, Meaning, Tree};
use crate::answers::answer;
use crate::lines::Case;
use crate::random::Random;
use crate::variables::LentTables;
use std::ops::Range;

const MOST_COVERS: usize = 16;
const MOST_LOOK_UPS: usize = 1_024;

/// A value, or the first refusal that the values meet.
type Worth = Result<i64, Fault>;

/// A refusal of an operator or a name, with the look-ups that come before it.
#[derive(Clone, Copy)]
struct Fault {
    number: u8,
    place: usize,
    look_ups: usize,
}

/// A text under the pen. Without a source of gaps, spaces stand only where they must.
pub struct Page<'r> {
    gaps: Option<&'r mut Random>,
    text: Vec<u8>,
    tokens: Vec<Range<usize>>,
    /// The places of the names that spend a look-up.
    look_ups: Vec<usize>,
    /// The number and place of the first token that is refused before any value is looked at.
    misplaced: Option<(u8, usize)>,
}

/// A finished text. A byte that ends it can be appended, with anything behind.
pub struct Written {
    pub text: Vec<u8>,
    pub tokens: Vec<Range<usize>>,
    look_ups: Vec<usize>,
    misplaced: Option<(u8, usize)>,
    end: usize,
    worth: Worth,
}

/// What is wrong with the brackets around a whole tree.
#[derive(Clone, Copy, PartialEq, Eq)]
pub enum Brackets {
    Right,
    /// So many are opened before the tree and never closed.
    Unclosed(usize),
    /// One is closed behind the tree that was never opened.
    Unopened,
}

/// Writes a tree down without a space too many.
pub fn plain(tree: &Tree) -> Written {
    Page::new(None).written(tree, Brackets::Right)
}

/// Writes a tree down, every other one with spaces here and there.
pub fn spaced(random: &mut Random, tree: &Tree, brackets: Brackets) -> Written {
    let gaps = random.one_in(2).then_some(random);
    Page::new(gaps).written(tree, brackets)
}

impl<'r> Page<'r> {
    fn new(gaps: Option<&'r mut Random>) -> Self {
        Page {
            gaps,
            text: Vec::new(),
            tokens: Vec::new(),
            look_ups: Vec::new(),
            misplaced: None,
        }
    }

    fn written(mut self, tree: &Tree, brackets: Brackets) -> Written {
        let unclosed = match brackets {
            Brackets::Unclosed(count) => count,
            _ => 0,
        };
        for covers in 0..unclosed {
            self.cover("(", covers);
        }
        let worth = self.tree(tree, 0, unclosed);
        if brackets == Brackets::Unopened {
            let place = self.token(b")");
            self.refuse(15, place);
        }
        self.gap(false);
        let end = self.text.len();
        if unclosed > 0 {
            self.refuse(15, end);
        }
        Written {
            text: self.text,
            tokens: self.tokens,
            look_ups: self.look_ups,
            misplaced: self.misplaced,
            end,
            worth,
        }
    }

    /// Writes a tree where only levels from the given one on can stand without brackets.
    fn tree(&mut self, tree: &Tree, level: usize, covers: usize) -> Worth {
        match tree {
            Tree::Leaf(leaf) => self.leaf(leaf),
            Tree::Unary(operator, inside) => {
                self.cover(operator.sign, covers);
                let value = self.tree(inside, TIGHTEST, covers + 1)?;
                Ok((operator.value)(value))
            }
            Tree::Bracketed(inside) => self.bracketed(inside, covers),
            Tree::Binary(operator, ..) if operator.level < level => self.bracketed(tree, covers),
            Tree::Binary(operator, left, right) => self.binary(operator, left, right, covers),
            Tree::Unjoined(between, left, right) => {
                let worth = self.tree(left, TIGHTEST, covers);
                let place = self.token(between.as_bytes());
                self.refuse(15, place);
                worth.and(self.tree(right, TIGHTEST, covers))
            }
        }
    }

    fn bracketed(&mut self, inside: &Tree, covers: usize) -> Worth {
        self.cover("(", covers);
        let worth = self.tree(inside, 0, covers + 1);
        self.token(b")");
        worth
    }

    /// Both sides are written before the first of their refusals counts.
    fn binary(&mut self, operator: &Binary, left: &Tree, right: &Tree, covers: usize) -> Worth {
        let left = self.tree(left, operator.level, covers);
        let place = self.token(operator.sign.as_bytes());
        let right = self.tree(right, operator.level + 1, covers);
        (operator.value)(left?, right?).ok_or(self.fault(16, place))
    }

    fn leaf(&mut self, leaf: &Leaf) -> Worth {
        let place = self.token(&leaf.written);
        match leaf.meaning {
            Meaning::Number(value) => Ok(value),
            Meaning::Variable(value) => {
                self.look_ups.push(place);
                Ok(value)
            }
            Meaning::Refused(number) => Err(self.fault(number, place)),
            Meaning::Misplaced { number, within } => {
                self.refuse(number, place + within);
                Ok(0)
            }
        }
    }

    fn fault(&self, number: u8, place: usize) -> Fault {
        Fault {
            number,
            place,
            look_ups: self.look_ups.len(),
        }
    }

    /// A one-sided operator or an opening bracket under so many others.
    fn cover(&mut self, sign: &str, covers: usize) {
        let place = self.token(sign.as_bytes());
        if covers >= MOST_COVERS {
            self.refuse(11, place);
        }
    }

    /// Tokens are written from the left, so only the first refusal is kept.
    fn refuse(&mut self, number: u8, place: usize) {
        self.misplaced.get_or_insert((number, place));
    }

    /// Writes a token and gives its place.
    fn token(&mut self, written: &[u8]) -> usize {
        self.gap(self.would_grow(written[0]));
        let place = self.text.len();
        self.text.extend(written);
        self.tokens.push(place..self.text.len());
        place
    }

    fn gap(&mut self, must: bool) {
        let width = match &mut self.gaps {
            Some(random) => random.pick(&[0, 0, 0, 1, 1, 2]),
            None => 0,
        };
        let width = width.max(usize::from(must));
        self.text.extend(vec![b' '; width]);
    }

    /// Whether a byte directly behind the last token would change how that one is read.
    fn would_grow(&self, next: u8) -> bool {
        let last = self.tokens.last();
        last.is_some_and(|last| grows_by(&self.text[last.clone()], next))
    }
}

/// Whether a token becomes another one by a byte directly behind it.
pub fn grows_by(token: &[u8], next: u8) -> bool {
    match token[0] {
        b'&' | b'0'..=b'9' => next == b'_' || char::from(next).is_digit(base_of(token)),
        b'<' | b'>' => b"<>=".contains(&next),
        first => first.is_ascii_alphabetic() && in_word(next),
    }
}

fn in_word(byte: u8) -> bool {
    byte.is_ascii_alphanumeric() || b"_$".contains(&byte)
}

/// The base in which a number is written; of a refused base, the nearest that is none.
fn base_of(number: &[u8]) -> u32 {
    let is_bar = |&byte: &u8| byte == b'_';
    match number.iter().position(is_bar) {
        _ if number[0] == b'&' => 16,
        None => 10,
        Some(bar) => {
            let digits = String::from_utf8_lossy(&number[..bar]);
            digits.parse().unwrap_or(36u32).clamp(2, 36)
        }
    }
}

impl Written {
    /// The look-ups that come before the answer where all of them are allowed.
    pub fn look_ups(&self) -> usize {
        match self.worth {
            _ if self.misplaced.is_some() => 0,
            Ok(_) => self.look_ups.len(),
            Err(fault) => fault.look_ups,
        }
    }

    /// The answer that has to come, as a line of the line format.
    fn answer(&self, allowance: u32) -> String {
        let no = |number: u8, place: usize| format!("no {number} t {place}");
        if let Some((number, place)) = self.misplaced {
            return no(number, place);
        }
        let allowed = MOST_LOOK_UPS.min(allowance as usize);
        if self.look_ups() > allowed {
            return no(12, self.look_ups[allowed]);
        }
        match self.worth {
            Ok(value) => format!("int {value} {}", self.end),
            Err(fault) => no(fault.number, fault.place),
        }
    }

    /// The case over good tables, once the evaluator has given the answer that has to come.
    pub fn agreed(self, tables: LentTables, allowance: u32) -> Case {
        let known = self.answer(allowance);
        let shown = String::from_utf8_lossy(&self.text).into_owned();
        let case = Case::Eval {
            text: self.text,
            tables,
            allowance,
        };
        assert_eq!(
            answer(&case),
            known,
            "two routes differ on {shown:?}: {case}"
        );
        case
    }
}

#[cfg(test)]
mod tests {
    use super::super::arithmetic::{AND, DIFFERENCE, MINUS, NOT, QUOTIENT, SUM};
    use super::*;

    fn difference(left: Tree, right: Tree) -> Tree {
        Tree::binary(&DIFFERENCE, left, right)
    }

    fn variable(name: &str) -> Tree {
        Tree::leaf(name.as_bytes(), Meaning::Variable(7))
    }

    fn text(tree: &Tree) -> String {
        String::from_utf8(plain(tree).text).expect("ASCII")
    }

    #[test]
    fn brackets_and_spaces_stand_only_where_they_must() {
        let [one, two, three] = [1, 2, 3].map(Tree::number);
        let left = difference(difference(one.clone(), two.clone()), three.clone());
        let right = difference(one.clone(), difference(two.clone(), three.clone()));
        let both = Tree::binary(&AND, left.clone(), Tree::unary(&NOT, one.clone()));
        let over = Tree::binary(&QUOTIENT, left.clone(), Tree::unary(&MINUS, three));
        assert_eq!(text(&left), "1-2-3");
        assert_eq!(text(&right), "1-(2-3)");
        assert_eq!(text(&both), "1-2-3AND NOT 1");
        assert_eq!(text(&over), "(1-2-3)/-3");
        assert_eq!(text(&Tree::unary(&MINUS, left)), "-(1-2-3)");
        assert_eq!(text(&Tree::bracketed(two)), "(2)");
    }

    #[test]
    fn tokens_that_would_grow_together_are_kept_apart() {
        for (token, next) in [
            ("5", b'A'),
            ("&5", b'M'),
            ("2_1", b'2'),
            ("AND", b'&'),
            ("<", b'-'),
        ] {
            assert!(!grows_by(token.as_bytes(), next), "{token}");
        }
        for (token, next) in [
            ("5", b'_'),
            ("&5", b'A'),
            ("12_1", b'b'),
            ("AND", b'3'),
            ("<", b'>'),
        ] {
            assert!(grows_by(token.as_bytes(), next), "{token}");
        }
    }

    #[test]
    fn the_first_refusal_in_its_order_is_the_answer() {
        let sum = |left, right| plain(&Tree::binary(&SUM, left, right));
        let by_zero = Tree::binary(&QUOTIENT, variable("i"), Tree::number(0));
        let unknown = Tree::leaf(b"q", Meaning::Refused(10));
        let misplaced = Tree::leaf(
            b"&",
            Meaning::Misplaced {
                number: 2,
                within: 1,
            },
        );
        let first = sum(by_zero.clone(), unknown.clone());
        assert_eq!(first.answer(1), "no 16 t 1");
        assert_eq!(first.answer(0), "no 12 t 0");
        assert_eq!(sum(unknown, by_zero.clone()).answer(0), "no 10 t 0");
        assert_eq!(sum(by_zero, misplaced).answer(0), "no 2 t 5");
    }

    #[test]
    #[should_panic(expected = "two routes differ")]
    fn another_answer_of_the_evaluator_ends_it() {
        let wrong = Tree::leaf(b"1", Meaning::Number(2));
        plain(&wrong).agreed(LentTables::default(), 0);
    }
}
