//! Formats written down piece by piece, and the answer that has to come of one.

use super::moments::Moment;
use crate::answers::answer;
use crate::lines::{hex, Case};

/// What a format gives at a known moment: a string, or the place of its first bad field.
pub type Known = Result<Vec<u8>, usize>;

/// A piece of a format.
#[derive(Clone, Debug)]
pub enum Piece {
    /// Bytes other than zero and the percent sign.
    Copied(Vec<u8>),
    Field(&'static str),
    TwoPercentSigns,
    /// A percent sign and what makes it a bad field, whatever stands behind.
    Bad(Vec<u8>),
    /// The zero byte behind which nothing is read.
    Zero,
}

impl Piece {
    fn written(&self) -> Vec<u8> {
        match self {
            Piece::Copied(bytes) | Piece::Bad(bytes) => bytes.clone(),
            Piece::Field(name) => format!("%{name}").into_bytes(),
            Piece::TwoPercentSigns => b"%%".to_vec(),
            Piece::Zero => vec![0],
        }
    }
}

/// The bytes of a format.
pub fn written(pieces: &[Piece]) -> Vec<u8> {
    pieces.iter().flat_map(Piece::written).collect()
}

/// What pieces give: those before a zero byte count, and the first bad one decides.
pub fn known(pieces: &[Piece], moment: &Moment) -> Known {
    let mut place = 0;
    let mut string = Vec::new();
    for piece in pieces {
        match piece {
            Piece::Copied(bytes) => string.extend(bytes),
            Piece::Field(name) => string.extend(moment.shown(name).bytes()),
            Piece::TwoPercentSigns => string.push(b'%'),
            Piece::Bad(_) => return Err(place),
            Piece::Zero => break,
        }
        place += piece.written().len();
    }
    Ok(string)
}

/// The room that is just enough; a refused format needs none.
pub fn need(known: &Known) -> usize {
    known.as_ref().map_or(0, |string| string.len() + 1)
}

/// The case, once the conversion has given the answer that has to come.
pub fn agreed(time: &[u8], format: &[u8], room: usize, known: &Known) -> Case {
    let case = Case::Date {
        time: time.to_vec(),
        format: format.to_vec(),
        room,
    };
    let answer = answer(&case);
    let has_to_come = line(time, format, room, known);
    assert_eq!(answer, has_to_come, "two routes differ on {case}");
    case
}

/// The answer that has to come, as a line of the line format.
fn line(time: &[u8], format: &[u8], room: usize, known: &Known) -> String {
    if time.len() != 5 || format.len() > 65_535 {
        return format!("no 18 0 0 {room}");
    }
    match known {
        Err(place) => format!("no 19 {place} 0 {room}"),
        Ok(string) if string.len() < room => {
            let (offset, free) = (string.len(), room - string.len());
            format!("ok {} {offset} {free}", hex(string))
        }
        Ok(string) => format!("no 1 0 {} {room}", string.len() + 1),
    }
}

#[cfg(test)]
mod tests {
    use super::*;

    fn moment() -> Moment {
        Moment::midnight(2000, 2, 29)
    }

    #[test]
    fn pieces_behind_a_zero_byte_do_not_count() {
        let bad = Piece::Bad(b"%x".to_vec());
        let pieces = [
            Piece::Copied(b"a".to_vec()),
            Piece::Field("DN"),
            Piece::TwoPercentSigns,
            Piece::Zero,
            bad.clone(),
        ];
        assert_eq!(written(&pieces), b"a%DN%%\0%x");
        assert_eq!(known(&pieces, &moment()), Ok(b"a060%".to_vec()));
        let before = [&pieces[..3], &[bad], &pieces[3..]].concat();
        assert_eq!(known(&before, &moment()), Err(6));
    }

    #[test]
    #[should_panic(expected = "two routes differ")]
    fn another_string_ends_it() {
        agreed(&[0; 5], b"%DY", 3, &Ok(b"02".to_vec()));
    }

    #[test]
    #[should_panic(expected = "two routes differ")]
    fn another_place_ends_it() {
        agreed(&[0; 5], b"%dy", 3, &Err(1));
    }
}
