//! Tokens and bytes in nearly any order: what comes of them, the evaluator alone says.

use super::growth::{binary, unary, Ground};
use super::pages::{grows_by, spaced, Brackets};
use crate::cases::forms::{bad_base, no_digit, number, soup, spaces, too_big};
use crate::cases::limits::{allowance, least_allowance};
use crate::cases::tables::Entry;
use crate::expressions::evaluate;
use crate::lines::Case;
use crate::random::Random;

type Tokens = Vec<Vec<u8>>;

/// Words and symbols that are nearly others, and bytes that start no token.
const ODD: [&str; 40] = [
    "MODx", "NOT1", "AND3", "5AND3", "mod", "Not", "EORx", "ORi", "&5AND", "< >", "> >", ">> >",
    ">>>>", "=<", "=>", "==", "<<=", "12abc", "&", "&&1", "37_1", "37_", "2_2", "10_2_1", "1_",
    "_", "$", "q$", "4294967296", "99999999999x", "#", "\"", "'", ".", "!", "|", "\x7F", "\t",
    "\0", "\n",
];

/// The bytes of tokens and of what spoils them.
const BYTES: &[u8] = b"0123579AaNnDdOoRrTtMmEeqx$__&&()<>=<>=+-*/   \t\n#\"\x80";

/// A tree with a flaw, tokens in any order, or bytes in any order; the tables good or bad.
pub fn random(random: &mut Random) -> Case {
    let ground = Ground::new(random, Some(20));
    let text = match random.below(8) {
        0..=2 => flawed(random, &ground),
        3..=5 => {
            let tokens = token_soup(random, &ground.entries);
            joined(random, &tokens)
        }
        6 => soup(random, BYTES, 14),
        _ => (0..random.below(8)).map(|_| random.byte()).collect(),
    };
    let tables = if random.one_in(6) {
        ground.pair.damaged(random)
    } else {
        ground.pair.lent()
    };
    let exact = least_allowance(|allowance| evaluate(&text, &tables, allowance).err());
    Case::Eval {
        allowance: allowance(random, exact),
        text,
        tables,
    }
}

/// The text of a tree with one token or one byte changed.
fn flawed(random: &mut Random, ground: &Ground) -> Vec<u8> {
    let operands = random.between(1, 6);
    let tree = ground.tree(random, operands);
    let written = spaced(random, &tree, Brackets::Right);
    if random.one_in(3) {
        return with_a_byte_changed(random, written.text);
    }
    let token = |place: &std::ops::Range<usize>| written.text[place.clone()].to_vec();
    let tokens = written.tokens.iter().map(token).collect();
    let tokens = with_a_token_changed(random, tokens);
    joined(random, &tokens)
}

fn with_a_byte_changed(random: &mut Random, mut text: Vec<u8>) -> Vec<u8> {
    let place = random.below(text.len());
    let byte = random.pick(BYTES);
    match random.below(3) {
        0 => text[place] = byte,
        1 => text.insert(place, byte),
        _ => {
            text.remove(place);
        }
    }
    text
}

/// One token dropped, doubled, exchanged, preceded by an odd one, or cut off with all behind it.
fn with_a_token_changed(random: &mut Random, mut tokens: Tokens) -> Tokens {
    let place = random.below(tokens.len());
    match random.below(6) {
        0 => {
            tokens.remove(place);
        }
        1 => tokens.insert(place, tokens[place].clone()),
        2 => tokens.truncate(place),
        3 => tokens.swap(place, place / 2),
        4 => tokens.insert(place, random.pick(&["(", ")", "NOT", "-", "1"]).into()),
        _ => tokens.insert(place, random.pick(&ODD).into()),
    }
    tokens
}

fn token_soup(random: &mut Random, entries: &[Entry]) -> Tokens {
    let count = random.below(10);
    let token = |_| token(random, entries);
    (0..count).map(token).collect()
}

/// Any token, operands somewhat more often than the others.
fn token(random: &mut Random, entries: &[Entry]) -> Vec<u8> {
    match random.below(16) {
        0..=2 => number(random),
        3 | 4 if !entries.is_empty() => entries[random.below(entries.len())].name.clone(),
        3..=5 => random.pick(&["0", "1", "7"]).into(),
        6..=9 => binary(random).sign.into(),
        10 => unary(random).sign.into(),
        11 => b"(".to_vec(),
        12 => b")".to_vec(),
        13 if random.one_in(3) => bad_base(random),
        13 if random.one_in(2) => no_digit(random),
        13 => too_big(random),
        _ => random.pick(&ODD).into(),
    }
}

/// The tokens with spaces between them, mostly where two would grow together.
fn joined(random: &mut Random, tokens: &[Vec<u8>]) -> Vec<u8> {
    let careless = random.one_in(4);
    let wide = random.one_in(2);
    let mut text = spaces(random);
    let mut last: &[u8] = b" ";
    for token in tokens.iter().filter(|token| !token.is_empty()) {
        if grows_by(last, token[0]) && !careless || wide && random.one_in(3) {
            text.push(b' ');
        }
        text.extend(token);
        last = token;
    }
    text.extend(spaces(random));
    text
}
