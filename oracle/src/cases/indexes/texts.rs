//! Cases of translations through an index of the house table.

use super::agreed::{translated, Lent, Text};
use super::building::longest;
use super::houses::{counted, random_house, telling};
use super::known::Known;
use super::owners::random_lent;
use super::wrongs::wrongs_once;
use crate::cases::gs;
use crate::cases::pairs::{bad_table, ill_pairs, over_long_table, Pair};
use crate::cases::tables::{one_of_each_kind, Entry};
use crate::lines::Case;
use crate::random::Random;
use crate::variables::{Kind, LentTables};

const PLENTY: usize = 1_000;

/// Texts that name nothing or every kind of record, and such as meet each refusal.
const TEXTS: [&str; 22] = [
    "", "x", "\n", " ", "a b", "<65>", "<h>", "<F><H>", "<m>", "<i>", "<x>", "|", "|1", "<", "<>",
    "\"a", "\"a\"x", "<4294967296>", "a<nope>", "ab<self>", "<255>", "a<256>",
];

fn text(text: &[u8], allowance: u32, room: usize) -> Text {
    Text {
        text: text.to_vec(),
        flags: 0,
        allowance,
        room,
    }
}

/// The texts over tables as they are known without an index; then what an index alone can decide.
pub fn fixed() -> Vec<Case> {
    let mut cases: Vec<Case> = gs::over_tables().into_iter().map(through_right).collect();
    cases.extend(under_wrong_indexes());
    cases.extend(under_every_wrong_index());
    cases.extend(all_names());
    cases.extend(long_names());
    cases.extend(empty_houses());
    cases.extend(in_ill_pairs());
    cases.extend(in_full_tables());
    cases.extend(long());
    cases
}

/// A translation with the right index.
fn through_right(case: Case) -> Case {
    let (tables, _, text) = Text::taken_from(case);
    let (farm, house) = (Known::of(&tables.farm), Known::of(&tables.house));
    translated(&Lent::with(&farm, &house, &house.right), &text)
}

/// A farm's and a house's records; the farm's `x` hides the house's, a macro leads through both.
fn of_both() -> Pair {
    let farm = [Entry::string("f", b"F"), Entry::string("x", b"farm")];
    let house = [
        Entry::macro_of("self", b"<self>"),
        Entry::string("X", b"house"),
        Entry::macro_of("M", b"[<f><h><x>]"),
        Entry::string("h", b"H"),
        Entry::integer("i", 7),
    ];
    Pair::of(&farm, &house)
}

/// An index that does not fit comes before all that a text can meet, and before the room.
fn under_wrong_indexes() -> Vec<Case> {
    let pair = of_both();
    let (farm, house) = (Known::good(&pair.farm), Known::good(&pair.house));
    let right = &house.right[..];
    let indexes = [
        right.to_vec(),
        [&right[2..4], &right[..2], &right[4..]].concat(),
        [right, &[0]].concat(),
        farm.right.clone(),
        Vec::new(),
    ];
    let mut cases = Vec::new();
    for index in indexes {
        let lent = Lent::with(&farm, &house, &index);
        for (turn, written) in TEXTS.iter().enumerate() {
            let (allowance, room) = if turn % 2 == 0 { (9, 9) } else { (4, 0) };
            for text in [
                text(written.as_bytes(), allowance, room),
                text(written.as_bytes(), 0, PLENTY),
            ] {
                cases.push(translated(&lent, &text));
            }
        }
    }
    cases
}

fn under_every_wrong_index() -> Vec<Case> {
    let mut cases = Vec::new();
    for entries in [of_both().house, one_of_each_kind(), counted(1)] {
        let house = Known::good(&entries);
        for (turn, index) in wrongs_once(&house).iter().enumerate() {
            let lent = Lent::with(&Known::good(&[]), &house, index);
            let written = ["<n>", "", "<AA>", "|"][turn % 4];
            cases.push(translated(&lent, &text(written.as_bytes(), 1, PLENTY)));
        }
    }
    cases
}

/// A text with the names of some records.
fn naming<'e>(entries: impl Iterator<Item = &'e Entry>) -> Vec<u8> {
    let reference = |entry: &Entry| [b"<", &entry.name[..], b">"].concat();
    entries.flat_map(reference).collect()
}

/// All names of the telling tables that are not macros, in one text each; half of them the farm's.
fn all_names() -> Vec<Case> {
    let is_plain = |entry: &&Entry| entry.kind != Kind::Macro;
    let mut cases = Vec::new();
    for entries in telling() {
        let all = text(&naming(entries.iter().filter(is_plain)), 99, PLENTY);
        for pair in [Pair::in_house(&entries), Pair::in_turn(&entries)] {
            cases.push(translated(&Lent::rightly(&pair), &all));
        }
    }
    cases
}

/// Names whose length is that of a record in one byte.
fn long_names() -> Vec<Case> {
    let [one, longest] = [1, 32].map(|length| Entry::string(&"n".repeat(length), b"x"));
    let lent = Lent::rightly(&Pair::in_house(&[longest, one]));
    [1, 32, 33, 256, 256 + 1, 256 + 32]
        .map(|length| [b"<", &vec![b'N'; length][..], b">"].concat())
        .map(|written| translated(&lent, &text(&written, 1, PLENTY)))
        .into()
}

/// An empty index fits an empty house table; the farm's own index does not.
fn empty_houses() -> Vec<Case> {
    let (farm, house) = (Known::good(&one_of_each_kind()), Known::good(&[]));
    let mut cases = Vec::new();
    for index in [&[][..], &[0], &[0, 0], &farm.right] {
        let lent = Lent::with(&farm, &house, index);
        for written in ["", "<n>", "<m$1>", "<nope>", "<"] {
            cases.push(translated(&lent, &text(written.as_bytes(), 2, 11)));
        }
    }
    cases
}

/// Bad tables come before an index that cannot fit.
fn in_ill_pairs() -> Vec<Case> {
    let mut cases = Vec::new();
    for tables in ill_pairs() {
        let (farm, house) = (Known::of(&tables.farm), Known::of(&tables.house));
        for index in [&house.right[..], &[0], &[10, 0, 0, 0]] {
            let lent = Lent::with(&farm, &house, index);
            for (room, written) in ["", "|", "<f>", "<h>x", "<256>"].iter().enumerate() {
                cases.push(translated(&lent, &text(written.as_bytes(), 1, room)));
            }
        }
    }
    cases
}

/// 256 records, of which a text names some, with the right index and with one entry too few.
fn in_full_tables() -> Vec<Case> {
    let mut entries = counted(256);
    for (index, entry) in entries.iter_mut().enumerate() {
        entry.value = vec![index as u8];
    }
    let (farm, house) = (Known::good(&entries[100..104]), Known::good(&entries));
    let some = text(&naming(entries.iter().step_by(9)), 29, PLENTY);
    [&house.right[..], &house.right[..510], &house.right[2..]]
        .map(|index| translated(&Lent::with(&farm, &house, index), &some))
        .into()
}

/// Slices around 65,535 bytes; few, for each is a long line.
fn long() -> Vec<Case> {
    let (longest, small) = (longest(), Known::good(&one_of_each_kind()));
    let over_long = Known::over_long(over_long_table());
    let bad = Known::bad(bad_table(), 10);
    let ended_early = [b"ab\0".to_vec(), vec![b'|'; 65_533]].concat();
    let mut filled = small.right.clone();
    filled.resize(65_536 + 6, 0);
    let case = |farm, house, index: &[u8], written: &[u8]| {
        translated(&Lent::with(farm, house, index), &text(written, 1, 300))
    };
    vec![
        case(&small, &longest, &longest.right, b"<AA>"),
        case(&small, &small, &[0], &ended_early),
        case(&over_long, &bad, &[0], b"<n>"),
        case(&bad, &over_long, &[0], b"|"),
        case(&small, &small, &filled, b"<n>"),
    ]
}

/// A random translation with an index, most of them of few records.
pub fn random(random: &mut Random) -> Case {
    let (tables, text) = if random.one_in(4) {
        over_more_records(random)
    } else {
        let (tables, _, text) = Text::taken_from(gs::random(random));
        (tables, text)
    };
    translated(&random_lent(random, &tables), &text)
}

/// A text that names some records of two tables that have more of them.
fn over_more_records(random: &mut Random) -> (LentTables, Text) {
    let entries = random_house(random);
    let pair = Pair::dealt(random, entries);
    let both: Vec<&Entry> = pair.farm.iter().chain(&pair.house).collect();
    let count = if both.is_empty() { 0 } else { random.below(5) };
    let named: Vec<&Entry> = (0..count).map(|_| random.pick(&both)).collect();
    let allowance = random.pick(&[4, 4, 9, 1]);
    let room = random.pick(&[PLENTY, PLENTY, 3]);
    let text = text(&naming(named.into_iter()), allowance, room);
    (pair.lent(), text)
}
