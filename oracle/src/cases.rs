//! Cases to answer: for each operation its fixed edge cases first, then random ones.

mod dates;
mod expressions;
mod forms;
mod gs;
mod indexes;
#[cfg(test)]
mod kinds;
mod limits;
mod numbers;
mod pairs;
mod reader;
mod tables;
mod values;
mod variables;

pub use dates::calendar;

use crate::lines::Case;
use crate::random::Random;
use indexes::{building, looks, owners, texts};

/// One of the operations, or one with an index, with where its cases come from.
#[derive(Clone, Copy)]
pub struct Operation {
    name: &'static str,
    fixed: fn() -> Vec<Case>,
    random: fn(&mut Random) -> Case,
}

pub const OPERATIONS: [Operation; 11] = [
    Operation {
        name: "conv",
        fixed: numbers::fixed,
        random: numbers::random,
    },
    Operation {
        name: "read",
        fixed: reader::fixed,
        random: reader::random,
    },
    Operation {
        name: "table",
        fixed: variables::fixed_tables,
        random: variables::random_table,
    },
    Operation {
        name: "look",
        fixed: variables::fixed_looks,
        random: variables::random_look,
    },
    Operation {
        name: "trans",
        fixed: gs::fixed,
        random: gs::random,
    },
    Operation {
        name: "eval",
        fixed: expressions::fixed,
        random: expressions::random,
    },
    Operation {
        name: "date",
        fixed: dates::fixed,
        random: dates::random,
    },
    Operation {
        name: "index",
        fixed: building::fixed,
        random: building::random,
    },
    Operation {
        name: "ilook",
        fixed: looks::fixed,
        random: looks::random,
    },
    Operation {
        name: "flook",
        fixed: owners::fixed,
        random: owners::random,
    },
    // Translations with an index; their lines are those of `trans`.
    Operation {
        name: "itrans",
        fixed: texts::fixed,
        random: texts::random,
    },
];

/// The operation of a name.
pub fn operation(name: &str) -> Option<Operation> {
    OPERATIONS
        .into_iter()
        .find(|operation| operation.name == name)
}

/// So many cases, split evenly over the operations; the first ones take what is left over.
pub fn cases(seed: u64, count: usize, operations: &[Operation]) -> impl Iterator<Item = Case> + '_ {
    let (each, over) = (count / operations.len(), count % operations.len());
    operations
        .iter()
        .enumerate()
        .flat_map(move |(index, operation)| {
            let share = each + usize::from(index < over);
            operation.cases(seed).take(share)
        })
}

impl Operation {
    /// This operation's cases without an end; the seed alone decides them.
    fn cases(self, seed: u64) -> impl Iterator<Item = Case> {
        let mut random = Random::new(seed);
        let fixed = (self.fixed)().into_iter();
        fixed.chain(std::iter::repeat_with(move || (self.random)(&mut random)))
    }
}

#[cfg(test)]
mod tests {
    use super::*;
    use crate::answers::answer;
    use crate::lines::parse;

    fn written(seed: u64, count: usize, operations: &[Operation]) -> Vec<String> {
        cases(seed, count, operations)
            .map(|case| case.to_string())
            .collect()
    }

    #[test]
    fn the_count_is_split_evenly() {
        let written = written(1, 24, &OPERATIONS);
        let share = |word: &str| {
            let of_it = |line: &&String| line.split(' ').next() == Some(word);
            written.iter().filter(of_it).count()
        };
        let words = [
            "conv", "read", "table", "look", "eval", "date", "index", "ilook", "flook",
        ];
        assert_eq!(words.map(share), [3, 3, 2, 2, 2, 2, 2, 2, 2]);
        assert_eq!(share("trans"), 2 + 2);
    }

    /// The words of an answer that say what kind of answer it is, without values and places.
    fn kind_of(answer: &str) -> String {
        let mut words = answer.split(' ');
        let in_slice = |word: &&str| matches!(*word, "t" | "f" | "h" | "i");
        let mut kind = words.next().unwrap_or_default().to_owned();
        if kind == "no" {
            kind = format!("no {}", words.next().expect("a refusal number"));
        }
        match words.next().filter(in_slice) {
            Some(slice) => format!("{kind} {slice}"),
            None => kind,
        }
    }

    /// Every kind of answer that an operation with tables, an index or a format can give.
    const KINDS: [(&str, &[&str]); 8] = [
        (
            "look",
            &[
                "rec f", "rec h", "none", "no 18 f", "no 18 h", "no 13 f", "no 13 h",
            ],
        ),
        (
            "trans",
            &[
                "ok", "no 18 t", "no 18 f", "no 18 h", "no 13 f", "no 13 h", "no 1 t", "no 4 t",
                "no 7 t", "no 8 t", "no 9 t", "no 10 t", "no 11 t", "no 12 t", "no 21 t",
            ],
        ),
        (
            "eval",
            &[
                "int", "no 18 t", "no 18 f", "no 18 h", "no 13 f", "no 13 h", "no 2 t", "no 3 t",
                "no 4 t", "no 10 t", "no 11 t", "no 12 t", "no 15 t", "no 16 t", "no 17 t",
            ],
        ),
        ("date", &["ok", "no 18", "no 19", "no 1"]),
        ("index", &["ok", "no 18 h", "no 13 h", "no 1 t"]),
        ("ilook", &["rec", "none", "no 18 h", "no 13 h", "no 20 i"]),
        (
            "flook",
            &[
                "rec f", "rec h", "none", "no 18 f", "no 18 h", "no 13 f", "no 13 h", "no 20 i",
            ],
        ),
        (
            "itrans",
            &[
                "ok", "no 18 t", "no 18 f", "no 18 h", "no 13 f", "no 13 h", "no 20 i", "no 1 t",
                "no 4 t", "no 7 t", "no 8 t", "no 9 t", "no 10 t", "no 11 t", "no 12 t", "no 21 t",
            ],
        ),
    ];

    #[test]
    fn every_kind_of_answer_is_met_and_no_other() {
        for (name, kinds) in KINDS {
            let operation = operation(name).expect(name);
            let fixed = (operation.fixed)().len();
            let cases: Vec<Case> = operation.cases(1).take(fixed + 1_500).collect();
            let kind = |case: &Case| kind_of(&answer(case));
            let mut met: Vec<String> = cases.iter().map(kind).collect();
            // Over-long slices are long lines, so no random case has one.
            let among_random = |kind: &&str| met[fixed..].iter().any(|other| other == kind);
            for kind in kinds.iter().filter(|kind| !kind.starts_with("no 18")) {
                assert!(among_random(&kind), "{name}: {kind}");
            }
            met.sort();
            met.dedup();
            let mut kinds = kinds.to_vec();
            kinds.sort();
            assert_eq!(met, kinds, "{name}");
        }
    }

    #[test]
    fn no_line_is_longer_than_three_over_long_slices() {
        for operation in OPERATIONS {
            for case in (operation.fixed)() {
                let line = case.to_string();
                let longest = line.split(' ').map(str::len).max();
                assert!(longest <= Some(2 * 70_000), "{}", operation.name);
                assert!(line.len() < 2 * 210_000, "{}", operation.name);
            }
        }
    }

    #[test]
    fn cases_depend_on_the_seed_alone_and_can_be_read_back() {
        let first = written(7, 4_000, &OPERATIONS);
        assert_eq!(first, written(7, 4_000, &OPERATIONS));
        assert_ne!(first, written(8, 4_000, &OPERATIONS));
        for line in first {
            assert_eq!(parse(&line).expect(&line).to_string(), line);
        }
    }
}
