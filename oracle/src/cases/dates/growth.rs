//! Random moments under random formats, good ones and such as hold faults.

use super::agreed::{agreed, known, need, written, Known, Piece};
use super::moments::{time_of, Moment, DAY, FIELDS, FIRST_YEAR, LARGEST, LAST_YEAR};
use crate::cases::forms::{in_mixed_case, soup};
use crate::cases::limits;
use crate::lines::Case;
use crate::random::Random;

/// What the book has beside our fields, a zero byte in a field, and other bytes that name none.
const NO_FIELDS: [&[u8]; 18] = [
    b"%12", b"%AM", b"%PM", b"%WE", b"%WN", b"%ST", b"%MO", b"%WK", b"%0", b"%Z", b"%ZDY", b"%z24",
    b"%\0", b"%\0CS", b"%C\0", b"%2\0", b"% ", b"%\n",
];

/// What is copied, beside the names of fields and any one byte.
const COPIED: [&str; 14] = [
    " ", ",", ":", ".", "-", "/", "S", "E", "3", "12", "\n", "\r", "\r\n", "\t",
];

pub fn random(random: &mut Random) -> Case {
    let hundredths = hundredths(random);
    let moment = Moment::of(hundredths);
    let (format, known) = match random.below(8) {
        0 => {
            let format = soup(random, b"%%%%%CCSSEMI24DYNRW3\0a\n", 12);
            let known = read_on(&format, 0, &moment);
            (format, known)
        }
        _ => {
            let pieces = pieces(random);
            (written(&pieces), known(&pieces, &moment))
        }
    };
    let time = perhaps_ill(random, time_of(hundredths));
    let room = limits::room(random, need(&known));
    agreed(&time, &format, room, &known)
}

/// Mostly the time itself, at times with a byte or more too few or too many.
fn perhaps_ill(random: &mut Random, mut time: Vec<u8>) -> Vec<u8> {
    match random.below(48) {
        0 => time.truncate(random.below(5)),
        1 => time.resize(random.between(6, 12), 0),
        _ => (),
    }
    time
}

/// What a format gives from a place on, each place by those behind it.
pub fn read_on(format: &[u8], place: usize, moment: &Moment) -> Known {
    let then = |shown: &[u8], width: usize| {
        let behind = read_on(format, place + width, moment)?;
        Ok([shown, &behind].concat())
    };
    let byte = |ahead: usize| format.get(place + ahead).copied().unwrap_or(0);
    match (byte(0), [byte(1), byte(2)]) {
        (0, _) => Ok(Vec::new()),
        (b'%', [b'%', _]) => then(b"%", 2),
        (b'%', name) => {
            let field = FIELDS.into_iter().find(|field| field.as_bytes() == name);
            then(moment.shown(field.ok_or(place)?).as_bytes(), 3)
        }
        (copied, _) => then(&[copied], 1),
    }
}

/// Fields among other bytes; in some formats a bad field, in some a zero byte.
fn pieces(random: &mut Random) -> Vec<Piece> {
    let count = random.pick(&[0, 1, 1, 2, 3, 4, 5, 6, 8, 12]);
    let mut pieces: Vec<Piece> = (0..count).map(|_| good(random)).collect();
    while random.one_in(3) {
        let place = random.below(pieces.len() + 1);
        pieces.insert(place, bad(random));
    }
    if random.one_in(5) {
        let place = random.below(pieces.len() + 1);
        pieces.insert(place, Piece::Zero);
    }
    if random.one_in(10) {
        pieces.push(cut_off(random));
    }
    pieces
}

fn good(random: &mut Random) -> Piece {
    match random.below(8) {
        0 => Piece::TwoPercentSigns,
        1 => Piece::Copied(random.pick(&COPIED).into()),
        // A field's name alone; behind two percent signs it is no field either.
        2 => Piece::Copied(random.pick(&FIELDS).into()),
        3 => {
            let byte = random.byte();
            // A zero byte and a percent sign are not copied.
            Piece::Copied(vec![if byte == 0 || byte == b'%' { 255 } else { byte }])
        }
        _ => Piece::Field(random.pick(&FIELDS)),
    }
}

/// A field whose name is none.
fn bad(random: &mut Random) -> Piece {
    let field = random.pick(&FIELDS).as_bytes();
    let mut name = match random.below(4) {
        0 => return Piece::Bad(random.pick(&NO_FIELDS).to_vec()),
        1 => in_mixed_case(random, field),
        2 => vec![random.byte(), random.byte()],
        _ => field.to_vec(),
    };
    if FIELDS.iter().any(|field| field.as_bytes() == name) {
        name[random.below(2)] = random.pick(b"\0 @a[{Xx5\xC3");
    }
    if name[0] == b'%' {
        name[0] = b'&';
    }
    Piece::Bad([b"%", &name[..]].concat())
}

/// A field that the format's end cuts off, down to its percent sign.
fn cut_off(random: &mut Random) -> Piece {
    let field = random.pick(&FIELDS).as_bytes();
    let cut = random.pick(&[0, 1, 1]);
    Piece::Bad([b"%", &field[..cut]].concat())
}

/// A moment that is likely to be a telling one.
fn hundredths(random: &mut Random) -> i64 {
    let around = random.below(3) as i64 - 1;
    let year = random.between(FIRST_YEAR as usize, LAST_YEAR as usize) as i64;
    let any = (random.of_bits(41) - (1 << 40)) as i64;
    let hundredths = match random.below(12) {
        0 => (1 << random.below(41)) + around,
        1 => LARGEST - random.below(3 * DAY as usize) as i64,
        2 | 3 => any / DAY * DAY + around,
        4 => any / 360_000 * 360_000 + around,
        5 => any / 6_000 * 6_000 + around,
        6 => any / 100 * 100 + around,
        7 => {
            let month = random.between(1, 12) as i64;
            Moment::midnight(year, month, 1).hundredths() + around
        }
        8 => Moment::midnight(year, 3, 1).hundredths() - any % (2 * DAY),
        9 => Moment::midnight(year, 1, 1).hundredths() + any % (2 * DAY) - DAY,
        _ => any,
    };
    hundredths.clamp(0, LARGEST)
}
