//! Few look-ups, bad tables, long names, and texts and tables around the longest ones.

use super::eval;
use super::texts::known;
use crate::cases::pairs::{bad_table, over_long_table, Pair};
use crate::cases::tables::Entry;
use crate::lines::Case;
use crate::variables::LentTables;

pub fn fixed() -> Vec<Case> {
    [
        allowances(),
        bad_tables(),
        long_names(),
        long_texts(),
        longest_slices(),
    ]
    .into_iter()
    .flatten()
    .collect()
}

/// At the exact number of look-ups and around it, some of them before a refusal.
fn allowances() -> Vec<Case> {
    let known = known();
    let mut cases = Vec::new();
    for allowance in [0, 1, 2, 3, 4, u32::MAX] {
        for text in ["i+i*i", "i+s", "i+q", "i/0+i", "(i)", "1", "x_1*i/x_1+i"] {
            cases.push(eval(text.as_bytes(), &known, allowance));
        }
    }
    cases
}

/// A bad table comes before everything but the lengths, even where no name stands.
fn bad_tables() -> Vec<Case> {
    let nameless = [Entry::integer("i", 7), Entry::integer("", 0)];
    let twins = [Entry::integer("i", 7), Entry::string("I", b"")];
    let mut short = Entry::integer("i", 7);
    short.value.pop();
    let good = [Entry::string("I", b""), Entry::integer("j", 1)];
    let mut cases = Vec::new();
    for text in ["1", "(", "i", "", "37_1", "q", "1/0", "#", "1\0"] {
        cases.push(eval(text.as_bytes(), &Pair::of(&nameless, &good), 1));
        cases.push(eval(text.as_bytes(), &Pair::of(&good, &twins), 0));
        cases.push(eval(
            text.as_bytes(),
            &Pair::of(&[short.clone()], &twins),
            1,
        ));
    }
    cases
}

/// Names around the longest, with and without a variable that they begin with.
fn long_names() -> Vec<Case> {
    let longest = Pair::of(
        &[Entry::integer(&"n".repeat(31), 5)],
        &[Entry::integer(&"n".repeat(32), 1)],
    );
    let mut cases = Vec::new();
    for length in [31, 32, 33, 34, 64, 255, 256, 257, 288] {
        let name = "n".repeat(length);
        for text in [name.clone(), name.to_uppercase(), format!("1+{name}*2")] {
            cases.push(eval(text.as_bytes(), &longest, 1));
        }
    }
    cases
}

/// Thousands of brackets, terms and digits.
fn long_texts() -> Vec<Case> {
    let nameless = |text: Vec<u8>| eval(&text, &Pair::default(), 0);
    vec![
        nameless([b"1".to_vec(), b"+(1)".repeat(2_000)].concat()),
        nameless([b"1".to_vec(), b")".repeat(2_000)].concat()),
        nameless([b"(1)-".repeat(2_000), b"(".to_vec()].concat()),
        eval(&[vec![b'0'; 4_000], b"7+i".to_vec()].concat(), &known(), 1),
        eval(&[vec![b' '; 4_000], b"i".to_vec()].concat(), &known(), 1),
    ]
}

/// Slices of 65,535 bytes and of one more; few, for each is a long line.
fn longest_slices() -> Vec<Case> {
    let ended_early = [b"1\0".to_vec(), vec![b'('; 65_534]].concat();
    let over = |text: &[u8], farm: Vec<u8>, house: Vec<u8>| Case::Eval {
        text: text.to_vec(),
        tables: LentTables { farm, house },
        allowance: 0,
    };
    let longest = [b"1".to_vec(), b"-1".repeat(32_767)].concat();
    vec![
        eval(&longest, &Pair::default(), 0),
        over(&ended_early, vec![0; 65_536], bad_table()),
        over(b"1+(", bad_table(), over_long_table()),
        over(b"1+(", over_long_table(), bad_table()),
    ]
}
