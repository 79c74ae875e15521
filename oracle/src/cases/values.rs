//! Values at the edges of every width, and random ones of each bit length.

use crate::random::Random;

/// The first value of each power of two at which some width ends.
const POWERS_OF_TWO: [u32; 9] = [
    0,
    1,
    1 << 7,
    1 << 8,
    1 << 15,
    1 << 16,
    1 << 23,
    1 << 24,
    1 << 31,
];

/// A 32-bit value that is likely to be a telling one.
pub fn value(random: &mut Random) -> u32 {
    match random.below(8) {
        0..=2 => near(random, POWERS_OF_TWO),
        3 | 4 => near(random, powers_of_ten()),
        // Negative numbers of few digits, for the signed calls and for expressions.
        5 => near(random, powers_of_ten()).wrapping_neg(),
        6 => {
            let bits = random.between(1, 32) as u32;
            random.of_bits(bits) as u32
        }
        // An edge of a narrow width with other bits above it that must not count.
        _ => {
            let bits = random.pick(&[4, 8, 16, 24]);
            let low = near(random, powers_of_ten()) % (1 << bits);
            low | (random.word() << bits)
        }
    }
}

fn powers_of_ten() -> [u32; 9] {
    std::array::from_fn(|power| 10u32.pow(power as u32 + 1))
}

/// One of the edges or a neighbour of it; below 0 comes 4,294,967,295.
fn near<const N: usize>(random: &mut Random, edges: [u32; N]) -> u32 {
    let edge = random.pick(&edges);
    edge.wrapping_add(random.below(3) as u32).wrapping_sub(1)
}
