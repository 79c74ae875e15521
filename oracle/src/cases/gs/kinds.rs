//! Kinds of reference by number that must be met, so that none is lost unseen when the making of
//! cases changes.

use crate::answers::answer;
use crate::cases::indexes::Text;
use crate::cases::kinds::{self, assert_met};
use crate::cases::operation;
use crate::gs::{translate, until_end, Flags};
use crate::lines::Case;
use crate::random::Random;
use crate::reader;
use crate::refusal::Slice;
use crate::variables::{Found, Kind as RecordKind, LentTables, Tables};

/// A translation with its answer.
struct Met {
    asked: Text,
    tables: LentTables,
    answer: String,
}

type Kind = kinds::Kind<Met>;

/// Spellings that fixed cases have without an index, and random ones with an index and without.
const SPELLED: [Kind; 15] = [
    ("255 in decimal", |met| met.gives(b"255", 255)),
    ("255 in hex", |met| met.gives(b"&", 255)),
    ("a byte in another base", |met| {
        met.accepted().any(|content| content.contains(&b'_'))
    }),
    ("a byte behind zeros", |met| met.gives_any(b"&0")),
    ("a base behind zeros", |met| {
        met.accepted()
            .any(|content| content.starts_with(b"0") && content.contains(&b'_'))
    }),
    ("a byte by capitals", |met| {
        met.accepted()
            .any(|content| content.iter().any(|byte| matches!(byte, b'G'..=b'Z')))
    }),
    ("a byte by small letters", |met| {
        met.accepted()
            .any(|content| content.iter().any(|byte| matches!(byte, b'g'..=b'z')))
    }),
    ("a byte that would end a text", |met| {
        met.accepted()
            .any(|content| matches!(value(content), Some(0 | 10 | 13)))
    }),
    ("256 in decimal", |met| met.refuses(b"256", 256)),
    ("256 in hex", |met| met.refuses(b"&", 256)),
    ("a code behind zeros", |met| {
        met.code().is_some_and(|content| content.starts_with(b"&0"))
    }),
    ("a code in another base", |met| {
        met.code().is_some_and(|content| content.contains(&b'_'))
    }),
    ("a code that is a capital letter in one byte", |met| {
        let code = met.code().and_then(value);
        code.is_some_and(|code| matches!(code % 256, 65..=90))
    }),
    ("the greatest code", |met| met.refuses(b"", u32::MAX)),
    ("a byte's number that is too big by 2 to the 32", |met| {
        let content = met.content_refused("no 4 t ");
        content.is_some_and(|content| content == b"4294967296" || content == b"4294967361")
    }),
];

/// Kinds that fixed cases and random ones have, with an index and without.
const EVERYWHERE: [Kind; 11] = [
    ("a code that a farm's variable is named", |met| {
        met.is_named_by(Slice::Farm)
    }),
    ("a code that a house's variable is named", |met| {
        met.is_named_by(Slice::House)
    }),
    ("a code without a look-up", |met| {
        met.code().is_some() && met.asked.allowance == 0
    }),
    ("a code without room", |met| {
        met.code().is_some() && met.asked.room == 0
    }),
    ("a code in quotes", |met| {
        let behind_spaces = met.asked.text.trim_ascii_start();
        met.code().is_some() && behind_spaces.starts_with(b"\"") && met.asked.flags >> 31 == 0
    }),
    ("a code behind a byte's number", |met| {
        let place = met.place("no 21 t ").unwrap_or(0);
        met.code().is_some()
            && contents(&met.asked.text[..place]).any(|content| value(content).is_some())
    }),
    ("a code before another fault", |met| {
        met.code().is_some() && met.is_faulty_behind()
    }),
    ("a code behind an ordinary bar", |met| {
        let place = met.place("no 21 t ").unwrap_or(0);
        met.code().is_some()
            && place > 0
            && met.asked.text[place - 1] == b'|'
            && met.asked.flags >> 30 & 1 == 1
    }),
    ("a code in a macro", |met| {
        met.macro_refused().is_some_and(|value| has_code(&value))
    }),
    ("a code in a macro's macro", |met| {
        met.macro_refused().is_some_and(|value| !has_code(&value))
    }),
    ("a code behind the end", |met| {
        let read = until_end(&met.asked.text).len();
        met.is("ok") && has_code(&met.asked.text[read..])
    }),
];

/// Kinds that are each one of their kind.
const FIXED: [Kind; 11] = [
    ("a byte in base 2", |met| met.gives_any(b"2_")),
    ("a byte in base 36", |met| met.gives_any(b"36_")),
    ("every byte", |met| {
        let mut values: Vec<u32> = met.accepted().filter_map(value).collect();
        values.sort();
        values.dedup();
        values.len() == 256
    }),
    ("a byte behind more zeros than a name is long", |met| {
        met.gives_any(&[b'0'; 33])
    }),
    ("a code behind more zeros than a name is long", |met| {
        met.refuses(&[b'0'; 33], 256)
    }),
    ("the greatest code in base 2", |met| {
        met.refuses(b"2_1", u32::MAX)
    }),
    ("a code where a space ends the text", |met| {
        met.code().is_some() && met.asked.flags == Flags::SPACE_ENDS
    }),
    ("a code where a bar is ordinary", |met| {
        met.code().is_some() && met.asked.flags == Flags::BAR_IS_ORDINARY
    }),
    ("a code where quotes are ordinary", |met| {
        met.code().is_some() && met.asked.flags == Flags::QUOTES_ARE_ORDINARY
    }),
    ("a code's number that is no whole one", |met| {
        met.content_refused("no 10 t ") == Some(b"256x")
    }),
    ("a code without its end", |met| {
        met.place("no 9 t ")
            .is_some_and(|place| met.asked.text[place..] == *b"<256")
    }),
];

/// The value of a reference's content that is a number.
fn value(content: &[u8]) -> Option<u32> {
    let number = reader::read(content, true, None).ok()?;
    Some(number.value)
}

/// What stands between each "<" and the next ">".
fn contents(text: &[u8]) -> impl Iterator<Item = &[u8]> {
    let behind = text.split(|&byte| byte == b'<').skip(1);
    behind.filter_map(|behind| {
        let length = behind.iter().position(|&byte| byte == b'>')?;
        Some(&behind[..length])
    })
}

fn has_code(text: &[u8]) -> bool {
    contents(text).any(|content| value(content) > Some(255))
}

impl Met {
    fn new(case: Case) -> Self {
        let answer = answer(&case);
        let (tables, _, asked) = Text::taken_from(case);
        Met {
            asked,
            tables,
            answer,
        }
    }

    fn is(&self, start: &str) -> bool {
        self.answer.starts_with(start)
    }

    /// The numbers in an accepted text, of which no bar makes something else.
    fn accepted(&self) -> impl Iterator<Item = &[u8]> {
        let counts = self.is("ok") && !self.asked.text.contains(&b'|');
        let read: &[u8] = if counts {
            until_end(&self.asked.text)
        } else {
            b""
        };
        contents(read).filter(|content| value(content).is_some())
    }

    fn gives(&self, start: &[u8], byte: u32) -> bool {
        let is_it = |content: &[u8]| content.starts_with(start) && value(content) == Some(byte);
        self.accepted().any(is_it)
    }

    fn gives_any(&self, start: &[u8]) -> bool {
        self.accepted().any(|content| content.starts_with(start))
    }

    /// The place of a refusal that an answer starts with.
    fn place(&self, start: &str) -> Option<usize> {
        let behind = self.answer.strip_prefix(start)?;
        behind.split(' ').next()?.parse().ok()
    }

    /// The content of the text's own reference that is refused.
    fn content_refused(&self, start: &str) -> Option<&[u8]> {
        let place = self.place(start)?;
        contents(&self.asked.text[place..]).next()
    }

    /// The text's own reference that is refused for its code.
    fn code(&self) -> Option<&[u8]> {
        let content = self.content_refused("no 21 t ")?;
        value(content).map(|_| content)
    }

    fn refuses(&self, start: &[u8], code: u32) -> bool {
        let is_it = |content: &[u8]| content.starts_with(start) && value(content) == Some(code);
        self.code().is_some_and(is_it)
    }

    fn is_named_by(&self, owner: Slice) -> bool {
        let tables = Tables::read(&self.tables).ok();
        let found = |content: &[u8]| Some(tables?.look_up(content)?.slice);
        self.code().and_then(found) == Some(owner)
    }

    /// The value of the macro in which a code is refused.
    fn macro_refused(&self) -> Option<Vec<u8>> {
        let content = self.content_refused("no 21 t ")?;
        let tables = Tables::read(&self.tables).ok()?;
        let Found { record, .. } = tables.look_up(content)?;
        let is_macro = record.kind == RecordKind::Macro && value(content).is_none();
        is_macro.then(|| record.value.to_vec())
    }

    /// Whether what stands behind a refused reference would be refused by itself.
    fn is_faulty_behind(&self) -> bool {
        let place = self.place("no 21 t ").unwrap_or(0);
        let length = self.code().map_or(0, <[u8]>::len);
        let behind = &self.asked.text[place + length + 2..];
        translate(
            behind,
            &self.tables,
            None,
            Flags(self.asked.flags),
            0,
            1_000,
        )
        .is_err()
    }
}

#[test]
fn every_kind_of_number_is_met() {
    for name in ["trans", "itrans"] {
        let operation = operation(name).expect("an operation");
        let mut random = Random::new(1);
        let random = (0..30_000).map(|_| (operation.random)(&mut random));
        let random: Vec<Met> = random.map(Met::new).collect();
        let fixed: Vec<Met> = (operation.fixed)().into_iter().map(Met::new).collect();
        assert_met(&EVERYWHERE, &fixed, &format!("{name} fixed"));
        assert_met(&EVERYWHERE, &random, &format!("{name} random"));
        assert_met(&SPELLED, &random, &format!("{name} random"));
        if name == "trans" {
            assert_met(&SPELLED, &fixed, &format!("{name} fixed"));
            assert_met(&FIXED, &fixed, &format!("{name} fixed"));
        }
        assert_few_hidden(&random);
    }
}

/// Codes over 255 are met often, yet seldom enough that they hide little of what stands behind.
fn assert_few_hidden(cases: &[Met]) {
    let share = |is_it: fn(&Met) -> bool| {
        let met = cases.iter().filter(|met| is_it(met)).count();
        100 * met / cases.len()
    };
    let refused = share(|met| met.is("no 21"));
    assert!((3..=12).contains(&refused), "{refused} % of codes over 255");
    let given = share(|met| {
        let is_number = |content: &[u8]| value(content).is_some();
        met.is("ok") && contents(until_end(&met.asked.text)).any(is_number)
    });
    assert!(given >= 3, "{given} % of accepted numbers");
}
