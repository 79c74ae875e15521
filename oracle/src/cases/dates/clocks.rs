//! Moments at which the clock's digits carry, and times at the edges of bytes and of bits.

use super::agreed::{agreed, known, need, written, Piece};
use super::calendar::every_field;
use super::moments::{time_of, Moment, LARGEST};
use crate::lines::Case;

const SECOND: i64 = 100;
const MINUTE: i64 = 60 * SECOND;
const HOUR: i64 = 60 * MINUTE;

/// Times of which each byte is another one, forwards and backwards, and of equal bytes.
const BYTES: [i64; 8] = [
    0x01_0203_0405, 0x05_0403_0201, 0x80_0000_0000, 0x7F_FFFF_FFFF, 0xFE_FDFC_FBFA, 0x80_8080_8080,
    0x00_FFFF_FFFF, LARGEST,
];

pub fn fixed() -> Vec<Case> {
    let mut cases: Vec<Case> = carries().into_iter().map(clock).collect();
    cases.extend(edges_of_bits().into_iter().map(every_field));
    cases
}

/// Both sides of every hour of a day, the ends of every minute and second, every hundredth.
fn carries() -> Vec<i64> {
    let day = Moment::midnight(2024, 2, 29).hundredths();
    let mut carries = Vec::new();
    for hour in 0..=24 {
        carries.extend([hour * HOUR - 1, hour * HOUR]);
    }
    for count in 0..60 {
        let hour = count % 24 * HOUR;
        carries.push(hour + (count + 1) * MINUTE - 1);
        carries.push(hour + (59 - count) * MINUTE + (count + 1) * SECOND - 1);
    }
    for count in 0..100 {
        // Steps of 7 and 11 meet every second and every minute too, each beside another hundredth.
        let clock = [
            count % 24 * HOUR,
            count * 11 % 60 * MINUTE,
            count * 7 % 60 * SECOND,
        ];
        carries.push(clock.into_iter().sum::<i64>() + count);
    }
    carries.into_iter().map(|clock| day + clock).collect()
}

/// A case that shows the clock.
fn clock(hundredths: i64) -> Case {
    let colon = || Piece::Copied(b":".to_vec());
    let pieces = [
        Piece::Field("24"),
        colon(),
        Piece::Field("MI"),
        colon(),
        Piece::Field("SE"),
        Piece::Copied(b".".to_vec()),
        Piece::Field("CS"),
    ];
    let known = known(&pieces, &Moment::of(hundredths));
    let time = time_of(hundredths);
    agreed(&time, &written(&pieces), need(&known), &known)
}

/// Both sides of every power of two, and bytes that tell their order.
fn edges_of_bits() -> Vec<i64> {
    let powers = (0..40).map(|bit| 1 << bit);
    powers
        .flat_map(|power| [power - 1, power])
        .chain(BYTES)
        .collect()
}
