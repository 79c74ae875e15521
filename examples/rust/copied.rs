//! Prints what the module has of its own copy: the header's refusals in words, those that have a name, and the numbers of its calls and
//! tables. run compares.

mod nosgoludd;

use nosgoludd::*;

const CALLS: [u32; 26] = [
    DECIMAL,
    HEX_1,
    HEX_2,
    HEX_4,
    HEX_6,
    HEX_8,
    UNSIGNED_1,
    UNSIGNED_2,
    UNSIGNED_3,
    UNSIGNED_4,
    SIGNED_1,
    SIGNED_2,
    SIGNED_3,
    SIGNED_4,
    BINARY_1,
    BINARY_2,
    BINARY_3,
    BINARY_4,
    SPACED_UNSIGNED_1,
    SPACED_UNSIGNED_2,
    SPACED_UNSIGNED_3,
    SPACED_UNSIGNED_4,
    SPACED_SIGNED_1,
    SPACED_SIGNED_2,
    SPACED_SIGNED_3,
    SPACED_SIGNED_4,
];

fn main() {
    for (number, words) in WORDS.iter().enumerate() {
        println!("{number} {words}");
    }
    println!("{NO_ROOM}\n{BAD_INDEX}\n{CODE_OVER_255}");
    for call in CALLS {
        println!("{call}");
    }
    for table in [Table::House, Table::Farm] {
        println!("{}", table as u32);
    }
}
