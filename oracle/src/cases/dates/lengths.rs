//! Times of other lengths than five bytes, and formats around the longest ones.

use super::agreed::{agreed, Known};
use super::moments::{time_of, Moment};
use crate::lines::Case;

/// Lengths beside five; the last would be five in one byte.
const ILL_LENGTHS: [usize; 10] = [0, 1, 2, 3, 4, 6, 7, 8, 10, 256 + 5];
/// A length that would be five in two bytes.
const FIVE_IN_TWO_BYTES: usize = 65_536 + 5;

pub fn fixed() -> Vec<Case> {
    let mut cases = ill_times();
    cases.extend(long());
    cases
}

/// A time of another length is refused before a bad field and before the room.
fn ill_times() -> Vec<Case> {
    let mut cases = Vec::new();
    for length in ILL_LENGTHS {
        for (format, room) in [
            ("", 0),
            ("", 1),
            ("%CS", 2),
            ("%CS", 3),
            ("%cs", 0),
            ("a%", 9),
        ] {
            cases.push(refused(&vec![1; length], format.as_bytes(), room));
        }
    }
    cases
}

/// A case that is refused whatever the format would give.
fn refused(time: &[u8], format: &[u8], room: usize) -> Case {
    agreed(time, format, room, &Err(0))
}

/// Formats of 65,535 bytes and of one more; few, for each is a long line.
fn long() -> Vec<Case> {
    let time = time_of(Moment::midnight(1999, 12, 31).hundredths());
    let of_length = |start: &[u8], fill: u8, length: usize| {
        let filler = vec![fill; length - start.len()];
        [start, &filler].concat()
    };
    let longest = |format: &[u8], room: usize, known: Known| agreed(&time, format, room, &known);
    vec![
        // The longest string there is, a byte too long for its room.
        longest(&b"%DN".repeat(21_845), 65_535, Ok(b"365".repeat(21_845))),
        longest(
            &[&b"%%".repeat(32_767)[..], b"a"].concat(),
            32_769,
            Ok([&b"%".repeat(32_767)[..], b"a"].concat()),
        ),
        longest(&of_length(b"", b'%', 65_535), 0, Err(65_534)),
        longest(&of_length(b"%YR\0", b'%', 65_535), 3, Ok(b"99".to_vec())),
        // The length is judged before the bad field, and counted behind the zero byte too.
        refused(&time, &of_length(b"%yr\0", b'a', 65_536), 3),
        refused(&time[1..], &of_length(b"%", b'a', 65_536), 0),
        refused(&vec![0; FIVE_IN_TWO_BYTES], b"%YR", 3),
    ]
}
