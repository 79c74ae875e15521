//! Chapter "Expressions", first half: cutting a text into tokens, longest first.

use crate::gs::behind_spaces;
use crate::reader;
use crate::refusal::{Refusal, Refused};

#[derive(Clone, Copy, Debug, PartialEq, Eq)]
pub enum Operator {
    Not,
    Times,
    Over,
    Mod,
    Plus,
    Minus,
    Equal,
    Unequal,
    Less,
    Greater,
    AtMost,
    AtLeast,
    ShiftLeft,
    ShiftRight,
    ShiftRightUnsigned,
    And,
    Or,
    Eor,
}

use Operator::*;

/// The operators that are words; any longer or smaller-cased word is a name.
const WORDS: [(&[u8], Operator); 5] = [
    (b"MOD", Mod),
    (b"AND", And),
    (b"OR", Or),
    (b"EOR", Eor),
    (b"NOT", Not),
];

/// The operators that are symbols, each one behind those that are longer.
const SYMBOLS: [(&[u8], Operator); 13] = [
    (b">>>", ShiftRightUnsigned),
    (b">>", ShiftRight),
    (b">=", AtLeast),
    (b"<<", ShiftLeft),
    (b"<=", AtMost),
    (b"<>", Unequal),
    (b">", Greater),
    (b"<", Less),
    (b"=", Equal),
    (b"*", Times),
    (b"/", Over),
    (b"+", Plus),
    (b"-", Minus),
];

#[derive(Clone, Copy, Debug, PartialEq, Eq)]
pub enum Kind<'t> {
    Operator(Operator),
    Number(u32),
    /// What began as a number but was refused; it counts only where an operand is wanted.
    RefusedNumber(Refused),
    Name(&'t [u8]),
    Open,
    Close,
    /// A byte that starts no token.
    Stray,
    End,
}

#[derive(Clone, Copy, Debug, PartialEq, Eq)]
pub struct Token<'t> {
    pub kind: Kind<'t>,
    pub place: usize,
    pub end: usize,
}

/// The first token from `start` on, spaces before it ignored.
pub fn next_token(text: &[u8], start: usize) -> Token<'_> {
    let place = behind_spaces(text, start);
    let rest = &text[place..];
    let (kind, length) = match rest.first() {
        None => (Kind::End, 0),
        Some(b'(') => (Kind::Open, 1),
        Some(b')') => (Kind::Close, 1),
        Some(b'&' | b'0'..=b'9') => number(rest, place),
        Some(b'A'..=b'Z' | b'a'..=b'z') => word(rest),
        Some(_) => symbol(rest),
    };
    Token {
        kind,
        place,
        end: place + length,
    }
}

/// A number is read without whole or limit; its refusal's place is moved into the text.
fn number(rest: &[u8], place: usize) -> (Kind<'_>, usize) {
    match reader::read(rest, false, None) {
        Ok(number) => (Kind::Number(number.value), number.end),
        Err(Refused {
            refusal,
            place: inside,
        }) => (Kind::RefusedNumber(refusal.at(place + inside)), 0),
    }
}

fn word(rest: &[u8]) -> (Kind<'_>, usize) {
    let belongs = |byte: &&u8| byte.is_ascii_alphanumeric() || matches!(byte, b'_' | b'$');
    let length = rest.iter().take_while(belongs).count();
    let name = &rest[..length];
    let operator = WORDS.iter().find(|(word, _)| *word == name);
    let kind = operator.map_or(Kind::Name(name), |&(_, operator)| Kind::Operator(operator));
    (kind, length)
}

fn symbol(rest: &[u8]) -> (Kind<'_>, usize) {
    match SYMBOLS.iter().find(|(symbol, _)| rest.starts_with(symbol)) {
        Some(&(symbol, operator)) => (Kind::Operator(operator), symbol.len()),
        None => (Kind::Stray, 1),
    }
}

impl Token<'_> {
    /// "Bad expression" at this token, or at the end.
    pub fn unwanted(&self) -> Refused {
        Refusal::BadExpression.at(self.place)
    }
}

#[cfg(test)]
mod tests {
    use super::*;

    fn kinds(text: &str) -> Vec<Kind<'_>> {
        let mut kinds = Vec::new();
        let mut end = 0;
        loop {
            let token = next_token(text.as_bytes(), end);
            if token.kind == Kind::End {
                return kinds;
            }
            kinds.push(token.kind);
            end = token.end;
        }
    }

    #[test]
    fn the_longest_token_wins_across_kinds() {
        assert_eq!(kinds("MODx"), [Kind::Name(b"MODx")]);
        assert_eq!(kinds("NOT1"), [Kind::Name(b"NOT1")]);
        assert_eq!(kinds("5AND3"), [Kind::Number(5), Kind::Name(b"AND3")]);
        assert_eq!(kinds("MOD mod"), [Kind::Operator(Mod), Kind::Name(b"mod")]);
        assert_eq!(
            kinds("&5AND 3"),
            [Kind::Number(0x5A), Kind::Name(b"ND"), Kind::Number(3)]
        );
    }

    #[test]
    fn symbols_are_cut_longest_first_and_span_no_space() {
        let operators = |text| {
            let kinds: Vec<Kind> = kinds(text);
            let operator = |kind: Kind| match kind {
                Kind::Operator(operator) => operator,
                other => panic!("{other:?}"),
            };
            kinds.into_iter().map(operator).collect::<Vec<_>>()
        };
        assert_eq!(operators(">>>>="), [ShiftRightUnsigned, AtLeast]);
        assert_eq!(operators("<<>"), [ShiftLeft, Greater]);
        assert_eq!(operators("<>>"), [Unequal, Greater]);
        assert_eq!(operators("> > >"), [Greater, Greater, Greater]);
        assert_eq!(operators("=<"), [Equal, Less]);
    }
}
