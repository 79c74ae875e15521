//! Rows of bytes and references by number, each held to the answer that has to come of it.

use super::chain;
use crate::answers::answer;
use crate::cases::pairs::Pair;
use crate::cases::tables::Entry;
use crate::lines::{hex, Case};

/// A piece of a row.
#[derive(Clone)]
pub enum Piece {
    /// Bytes that stand for themselves under every flag.
    Plain(&'static str),
    /// A reference by a number, whose value is known before it is spelled.
    Number { value: u64, spelling: Vec<u8> },
}

impl Piece {
    fn written(&self) -> Vec<u8> {
        match self {
            Piece::Plain(bytes) => bytes.as_bytes().to_vec(),
            Piece::Number { spelling, .. } => [b"<", &spelling[..], b">"].concat(),
        }
    }
}

/// A row that is the text itself or the value of a macro, and what its translation may use.
pub struct Row {
    pub pieces: Vec<Piece>,
    /// How many macros lead to the row, up to 16; each but the last names only the next one.
    pub macros: usize,
    pub flags: u32,
    pub allowance: u32,
    pub room: usize,
}

/// What stands before the reference that leads to a row.
const BEFORE: &[u8] = b"ab";

impl Row {
    /// A row that is the text itself, with no look-up and with room enough.
    pub fn alone(pieces: Vec<Piece>) -> Self {
        Row {
            pieces,
            macros: 0,
            flags: 0,
            allowance: 0,
            room: 1_000,
        }
    }

    fn written(&self) -> Vec<u8> {
        self.pieces.iter().flat_map(Piece::written).collect()
    }

    /// The macros that lead to the row.
    pub fn macros(&self) -> Vec<Entry> {
        match self.macros {
            0 => Vec::new(),
            length => chain(length, &self.written()),
        }
    }

    fn text(&self) -> Vec<u8> {
        match self.macros {
            0 => self.written(),
            _ => [BEFORE, b"<m1>"].concat(),
        }
    }

    /// The bytes that the row gives, or the number and the place of the first refusal in it.
    fn given(&self) -> Result<Vec<u8>, (u8, usize)> {
        let (mut place, mut given) = (0, Vec::new());
        for piece in &self.pieces {
            match piece {
                Piece::Plain(bytes) => given.extend(bytes.bytes()),
                Piece::Number { value, .. } => match value {
                    0..=255 => given.push(*value as u8),
                    256..=4_294_967_295 => return Err((21, place)),
                    _ => return Err((4, place)),
                },
            }
            place += piece.written().len();
        }
        Ok(given)
    }

    /// The text's output, or the number and the place of the refusal that the reading meets.
    fn output(&self) -> Result<Vec<u8>, (u8, usize)> {
        if self.macros == 0 {
            return self.given();
        }
        if (self.allowance as usize) < self.macros {
            return Err((12, BEFORE.len()));
        }
        let outermost = |(number, _)| (number, BEFORE.len());
        let given = self.given().map_err(outermost)?;
        Ok([BEFORE, &given].concat())
    }

    /// The room that is just enough; a refused row needs none.
    pub fn need(&self) -> usize {
        self.output().map_or(0, |output| output.len())
    }

    fn has_to_come(&self) -> String {
        let room = self.room;
        match self.output() {
            Err((number, place)) => format!("no {number} t {place} 0 {room}"),
            Ok(output) => match (room.checked_sub(output.len()), output.len()) {
                (None, need) => format!("no 1 t 0 {need} {room}"),
                (Some(free), need) => {
                    let end = self.text().len();
                    format!("ok {} {end} {need} {free}", hex(&output))
                }
            },
        }
    }

    /// The case over tables that hold the macros, once the oracle has given the answer that has to
    /// come. What else the tables hold decides nothing.
    pub fn agreed(&self, pair: &Pair) -> Case {
        let case = super::trans(&self.text(), pair, self.flags, self.allowance, self.room);
        assert_eq!(
            answer(&case),
            self.has_to_come(),
            "two routes differ on {case}"
        );
        case
    }
}

#[cfg(test)]
mod tests {
    use super::*;

    fn number(value: u64, spelling: &str) -> Piece {
        let spelling = spelling.into();
        Piece::Number { value, spelling }
    }

    #[test]
    fn answers_that_were_worked_out_by_hand() {
        let mut row = Row::alone(vec![
            Piece::Plain("x"),
            number(65, "&41"),
            number(255, "255"),
        ]);
        assert_eq!(row.has_to_come(), "ok 7841ff 11 3 997");
        row.room = 2;
        assert_eq!(row.has_to_come(), "no 1 t 0 3 2");
        (row.room, row.macros) = (5, 2);
        assert_eq!(row.has_to_come(), "no 12 t 2 0 5");
        row.allowance = 2;
        assert_eq!(row.has_to_come(), "ok 61627841ff 6 5 0");
        row.pieces.push(number(256, "256"));
        assert_eq!(row.has_to_come(), "no 21 t 2 0 5");
        row.macros = 0;
        assert_eq!(row.has_to_come(), "no 21 t 11 0 5");
        row.pieces.insert(1, number(1 << 32, "&100000000"));
        assert_eq!(row.has_to_come(), "no 4 t 1 0 5");
    }

    #[test]
    #[should_panic(expected = "two routes differ")]
    fn another_byte_ends_it() {
        Row::alone(vec![number(66, "65")]).agreed(&Pair::default());
    }

    #[test]
    #[should_panic(expected = "two routes differ")]
    fn a_code_that_is_taken_for_a_byte_ends_it() {
        Row::alone(vec![number(65, "321")]).agreed(&Pair::default());
    }
}
