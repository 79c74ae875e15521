//! Formats that tell two readings of the rules apart, and the fields beside what is none.

use super::agreed::{agreed, known, need, written, Known, Piece};
use super::moments::{time_of, Moment, FIELDS};
use crate::lines::Case;

/// 13:25:54.78 on Tuesday, 28 March 1989.
const MOMENT: Moment = Moment {
    year: 1989,
    month: 3,
    day: 28,
    clock: 4_835_478,
};

/// Good formats, and what each gives.
const GOOD: [(&[u8], &[u8]); 42] = [
    (
        b"%W3,%DY %M3 %CE%YR.%24:%MI:%SE", b"Tue,28 Mar 1989.13:25:54",
    ),
    (b"%CS/%MN/%DN", b"78/03/087"),
    (b"", b""),
    (b"a", b"a"),
    (b"CS", b"CS"),
    (b"24%24", b"2413"),
    (b"%2424", b"1324"),
    (b"%CSS", b"78S"),
    (b"C%SE", b"C54"),
    (b"%M33", b"Mar3"),
    (b"%CS%CS%CS", b"787878"),
    (b"%%", b"%"),
    (b"%%%%", b"%%"),
    (b"%%CS", b"%CS"),
    (b"%%cs", b"%cs"),
    (b"%%C", b"%C"),
    (b"%%%CS", b"%78"),
    (b"%%%%CS", b"%%CS"),
    (b"%%%%%CS", b"%%78"),
    (b"%CS%%", b"78%"),
    (b"%CS%%SE", b"78%SE"),
    (b"%CS%%%SE", b"78%54"),
    (b"%% CS", b"% CS"),
    (b"\0", b""),
    (b"\0%CS", b""),
    (b"\0%", b""),
    (b"a\0b", b"a"),
    (b"ab\0\0", b"ab"),
    (b"%CS\0", b"78"),
    (b"%CS\0%SE", b"78"),
    (b"%CS\0%", b"78"),
    (b"%CS\0%C", b"78"),
    (b"%CS\0%cs", b"78"),
    (b"%%\0%", b"%"),
    (b"a\0%%%", b"a"),
    (b"\n", b"\n"),
    (b"\r", b"\r"),
    (b"a\n%CS\r\n%SE", b"a\n78\r\n54"),
    (b"\x01\x1F \x7F\x80\xFF", b"\x01\x1F \x7F\x80\xFF"),
    (b"\xA5CS", b"\xA5CS"),
    (b"|<24>\"&_\\\t", b"|<24>\"&_\\\t"),
    (b"\xC3\xBC%DY\xE9", b"\xC3\xBC28\xE9"),
];

/// Formats with a bad field, the first one's place beside them.
const BAD: [(&[u8], usize); 34] = [
    (b"%", 0),
    (b"%C", 0),
    (b"%2", 0),
    (b"a%", 1),
    (b"a%C", 1),
    (b"%CS%", 3),
    (b"%CS%S", 3),
    (b"%CS%SE%", 6),
    (b"%%%", 2),
    (b"%%%C", 2),
    (b"%%%%%", 4),
    (b"%%%%%%%", 6),
    (b"%C%S", 0),
    (b"%C%CS", 0),
    (b"%C%%", 0),
    (b"% CS", 0),
    (b"%C S", 0),
    (b"%\0", 0),
    (b"%\0CS", 0),
    (b"%C\0", 0),
    (b"%C\0S", 0),
    (b"%%%\0%", 2),
    (b"%%%\0CS", 2),
    (b"%SE%\0CS", 3),
    (b"%SE%C\0S", 3),
    (b"%xx\0%CS", 0),
    (b"%xx%yy", 0),
    (b"%CS%xx%yy", 3),
    (b"%CSa%xx%", 4),
    (b"a%CS%%b%c%", 7),
    (b"%\nCS", 0),
    (b"%C\n", 0),
    (b"%\r\n", 0),
    (b"%C\xD3", 0),
];

/// Fields in small letters, those that the book has beside ours, and pairs of their characters.
const NO_FIELDS: [&str; 66] = [
    "cs", "Cs", "cS", "se", "mi", "dy", "mn", "ce", "yr", "dn", "m3", "w3", "Se", "mI", "Dy", "mN",
    "Ce", "yR", "Dn", "12", "AM", "PM", "WE", "WN", "ST", "MO", "WK", "am", "0", "00", "0CS", "Z",
    "ZDY", "ZMN", "zmn", "Z24", "ZDN", "ZCE", "TZ", "42", "22", "44", "3M", "3W", "M2", "M4", "W2",
    "W4", "SC", "ES", "EC", "IM", "YD", "NM", "RY", "ND", "CC", "SS", "MM", "DD", "YY", "HR", "MS",
    "YE", "D3", "Y4",
];

/// The formats in rooms around the need, each field, its neighbours, and it beside every field.
pub fn fixed() -> Vec<Case> {
    let mut cases = Vec::new();
    for (format, string) in GOOD {
        cases.extend(in_rooms(format, &Ok(string.to_vec())));
    }
    for (format, place) in BAD {
        cases.extend(in_rooms(format, &Err(place)));
    }
    for name in NO_FIELDS {
        cases.push(in_room(format!("%{name}").as_bytes(), 0, &Err(0)));
        cases.push(in_room(format!("%CS-%{name}%CS").as_bytes(), 9, &Err(4)));
    }
    for field in FIELDS {
        cases.extend(in_rooms(
            format!("%{field}").as_bytes(),
            &Ok(MOMENT.shown(field).into_bytes()),
        ));
        cases.extend(neighbours(field));
        cases.extend(FIELDS.map(|other| side_by_side(field, other)));
    }
    cases
}

fn in_room(format: &[u8], room: usize, known: &Known) -> Case {
    agreed(&time_of(MOMENT.hundredths()), format, room, known)
}

/// A format without room, in the least room, and in a byte less and a byte more.
fn in_rooms(format: &[u8], known: &Known) -> Vec<Case> {
    let need = need(known);
    let mut rooms = vec![0, need.saturating_sub(1), need, need + 1];
    rooms.dedup();
    let case = |room| in_room(format, room, known);
    rooms.into_iter().map(case).collect()
}

fn side_by_side(field: &'static str, other: &'static str) -> Case {
    let pieces = [Piece::Field(field), Piece::Field(other)];
    let known = known(&pieces, &MOMENT);
    in_room(&written(&pieces), need(&known), &known)
}

/// A field's name with one of its bytes a little wrong, or a zero byte, a space or a percent sign.
fn neighbours(field: &str) -> Vec<Case> {
    let mut cases = Vec::new();
    for place in 0..2 {
        let byte = field.as_bytes()[place];
        for wrong in [byte - 1, byte + 1, byte ^ 0x20, byte | 0x80, 0, b' ', b'%'] {
            let mut format = format!("%{field}").into_bytes();
            format[place + 1] = wrong;
            let known = match (place, wrong) {
                (0, b'%') => Ok(format[1..].to_vec()),
                _ => Err(0),
            };
            cases.push(in_room(&format, 4, &known));
        }
    }
    cases
}
