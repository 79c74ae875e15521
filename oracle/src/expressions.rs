//! Chapter "Expressions", second half: the levels of the operators, and their values.

use crate::gs::{until_end, Allowance};
use crate::refusal::{Located, Refusal, Refused, Slice};
use crate::tokens::{next_token, Kind, Operator, Token};
use crate::variables::{tables_for, LentTables, Tables};

use Operator::*;

/// The most unary operators and brackets over one operand.
const DEEPEST: usize = 16;

/// The two-sided operators, level by level, the loosest first.
const LEVELS: [&[Operator]; 5] = [
    &[Or, Eor],
    &[And],
    &[
        Equal, Unequal, Less, Greater, AtMost, AtLeast, ShiftLeft, ShiftRight, ShiftRightUnsigned,
    ],
    &[Plus, Minus],
    &[Times, Over, Mod],
];

/// The value of a whole expression, with the place of the text's end.
#[derive(Debug, PartialEq, Eq)]
pub struct Value {
    pub value: i32,
    pub end: usize,
}

/// Evaluates a text: 18, 13; then the syntax of all of it; then the values from the left.
pub fn evaluate(lent: &[u8], tables: &LentTables, allowance: u32) -> Result<Value, Located> {
    // Expressions take no index.
    let tables = tables_for(lent, tables, None)?;
    let text = until_end(lent);
    let value = steps_of(text)
        .and_then(|steps| value_of(&steps, &tables, Allowance::new(allowance)))
        .map_err(|refused| refused.within(Slice::Text))?;
    Ok(Value {
        value,
        end: text.len(),
    })
}

/// One step of an evaluation; the steps stand as they are taken, each operator behind its operands.
enum Step<'t> {
    Number(u32),
    Name { name: &'t [u8], place: usize },
    Unary(Operator),
    Binary { operator: Operator, place: usize },
}

/// Reads a whole text into its steps, or refuses it at the first token that is wrong.
fn steps_of(text: &[u8]) -> Result<Vec<Step<'_>>, Refused> {
    let mut parser = Parser {
        text,
        token: next_token(text, 0),
        steps: Vec::new(),
    };
    parser.level(0, 0)?;
    match parser.token.kind {
        Kind::End => Ok(parser.steps),
        _ => Err(parser.token.unwanted()),
    }
}

/// The tokens from the left, the current one already cut, and the steps so far.
struct Parser<'t> {
    text: &'t [u8],
    token: Token<'t>,
    steps: Vec<Step<'t>>,
}

impl Parser<'_> {
    fn advance(&mut self) {
        self.token = next_token(self.text, self.token.end);
    }

    /// Operands of the next tighter level with this level's operators between them, from the left.
    fn level(&mut self, level: usize, depth: usize) -> Result<(), Refused> {
        let Some(operators) = LEVELS.get(level) else {
            return self.operand(depth);
        };
        self.level(level + 1, depth)?;
        while let Some(operator) = self.operator_among(operators) {
            let place = self.token.place;
            self.advance();
            self.level(level + 1, depth)?;
            self.steps.push(Step::Binary { operator, place });
        }
        Ok(())
    }

    fn operator_among(&self, operators: &[Operator]) -> Option<Operator> {
        match self.token.kind {
            Kind::Operator(operator) if operators.contains(&operator) => Some(operator),
            _ => None,
        }
    }

    fn operand(&mut self, depth: usize) -> Result<(), Refused> {
        match self.token.kind {
            Kind::Operator(operator @ (Not | Minus | Plus)) => {
                self.covered(depth, Self::operand)?;
                self.steps.push(Step::Unary(operator));
            }
            Kind::Open => {
                self.covered(depth, |parser, depth| parser.level(0, depth))?;
                if self.token.kind != Kind::Close {
                    return Err(self.token.unwanted());
                }
                self.advance();
            }
            Kind::Number(value) => self.take(Step::Number(value)),
            Kind::Name(name) => {
                let place = self.token.place;
                self.take(Step::Name { name, place });
            }
            Kind::RefusedNumber(refused) => return Err(refused),
            _ => return Err(self.token.unwanted()),
        }
        Ok(())
    }

    /// Reads what a unary operator or a bracket covers, one deeper; that token can be too deep.
    fn covered(
        &mut self,
        depth: usize,
        inside: impl FnOnce(&mut Self, usize) -> Result<(), Refused>,
    ) -> Result<(), Refused> {
        if depth == DEEPEST {
            return Err(Refusal::TooDeep.at(self.token.place));
        }
        self.advance();
        inside(self, depth + 1)
    }
}

impl<'t> Parser<'t> {
    fn take(&mut self, step: Step<'t>) {
        self.steps.push(step);
        self.advance();
    }
}

/// Takes the steps from the left; the first that cannot be taken refuses the whole.
fn value_of(steps: &[Step], tables: &Tables, mut allowance: Allowance) -> Result<i32, Refused> {
    let mut values = Vec::new();
    let pop = |values: &mut Vec<i32>| values.pop().expect("operands stand before operators");
    for step in steps {
        let value = match *step {
            Step::Number(pattern) => pattern as i32,
            Step::Name { name, place } => {
                named(name, tables, &mut allowance).map_err(|refusal| refusal.at(place))?
            }
            Step::Unary(operator) => unary(operator, pop(&mut values)),
            Step::Binary { operator, place } => {
                let right = pop(&mut values);
                let left = pop(&mut values);
                binary(operator, left, right).ok_or(Refusal::ZeroDivisor.at(place))?
            }
        };
        values.push(value);
    }
    Ok(pop(&mut values))
}

/// The value of a name; the order is 10, 17, 12.
fn named(name: &[u8], tables: &Tables, allowance: &mut Allowance) -> Result<i32, Refusal> {
    let found = tables.look_up(name).ok_or(Refusal::UnknownName)?;
    let value = found.record.integer().ok_or(Refusal::NotInteger)?;
    allowance.spend()?;
    Ok(value)
}

fn unary(operator: Operator, value: i32) -> i32 {
    match operator {
        Not => !value,
        Minus => value.wrapping_neg(),
        _ => value,
    }
}

/// The value of a two-sided operator, or nothing where its divisor is zero.
fn binary(operator: Operator, left: i32, right: i32) -> Option<i32> {
    let truth = |holds: bool| if holds { -1 } else { 0 };
    Some(match operator {
        Times => left.wrapping_mul(right),
        Plus => left.wrapping_add(right),
        Minus => left.wrapping_sub(right),
        Over | Mod => return divided(operator, left, right),
        Equal => truth(left == right),
        Unequal => truth(left != right),
        Less => truth(left < right),
        Greater => truth(left > right),
        AtMost => truth(left <= right),
        AtLeast => truth(left >= right),
        ShiftLeft | ShiftRight | ShiftRightUnsigned => shifted(operator, left, right as u32),
        And => left & right,
        Or => left | right,
        Eor => left ^ right,
        Not => unreachable!("NOT has one side"),
    })
}

/// Division drops the fraction toward zero; the lowest number over -1 gives itself.
fn divided(operator: Operator, left: i32, right: i32) -> Option<i32> {
    match (operator, right) {
        (_, 0) => None,
        (Over, _) => Some(left.wrapping_div(right)),
        _ => Some(left.wrapping_rem(right)),
    }
}

/// Shift amounts are unsigned; 32 or more moves every bit out.
fn shifted(operator: Operator, left: i32, amount: u32) -> i32 {
    match operator {
        ShiftLeft => left.checked_shl(amount).unwrap_or(0),
        ShiftRight => left >> amount.min(31),
        _ => (left as u32).checked_shr(amount).unwrap_or(0) as i32,
    }
}

#[cfg(test)]
mod tests {
    use super::*;

    /// The farm's integer `i` of 7 and its string `s`.
    const FARM: &[u8] = b"VR\x01\x01\x04i\x07\0\0\0VR\0\x01\0s";
    /// The house's macro `m`, its integer `j` of 5; a string and an integer that the farm hides.
    const HOUSE: &[u8] =
        b"VR\x02\x01\0mVR\x01\x01\x04j\x05\0\0\0VR\0\x01\0IVR\x01\x01\x04S\x03\0\0\0";

    fn over(text: &[u8], farm: &[u8], house: &[u8], allowance: u32) -> Result<Value, Located> {
        let tables = LentTables {
            farm: farm.to_vec(),
            house: house.to_vec(),
        };
        evaluate(text, &tables, allowance)
    }

    /// The answer as a short text: a value "to" its end, or a refusal "at" its place in the text.
    fn shown(text: &str, allowance: u32) -> String {
        match over(text.as_bytes(), FARM, HOUSE, allowance) {
            Ok(Value { value, end }) => format!("{value} to {end}"),
            Err(Located {
                refused,
                slice: Slice::Text,
            }) => format!("no {} at {}", refused.refusal.number(), refused.place),
            Err(other) => format!("{other:?}"),
        }
    }

    fn plain(text: &str) -> String {
        shown(text, 1_024)
    }

    fn value(text: &str) -> i32 {
        over(text.as_bytes(), FARM, HOUSE, 1_024)
            .unwrap_or_else(|refused| panic!("{text}: {refused:?}"))
            .value
    }

    #[test]
    fn examples_p14_and_p15() {
        assert_eq!(plain("2147483647+1"), "-2147483648 to 12");
        assert_eq!(plain("-7 MOD 2"), "-1 to 8");
    }

    #[test]
    fn syntax_is_judged_before_values() {
        assert_eq!(plain("1/0+("), "no 15 at 5");
        assert_eq!(plain("1/0+q"), "no 16 at 1");
        assert_eq!(plain("q+1/0"), "no 10 at 0");
        assert_eq!(plain("0 AND q"), "no 10 at 6");
        assert_eq!(plain("5 MOD 0"), "no 16 at 2");
    }

    #[test]
    fn tokens_that_stand_wrong() {
        assert_eq!(plain("12abc"), "no 15 at 2");
        assert_eq!(plain("1 37_1"), "no 15 at 2");
        assert_eq!(plain("1+  "), "no 15 at 4");
        assert_eq!(plain("  "), "no 15 at 2");
        assert_eq!(plain("(1 2"), "no 15 at 3");
        assert_eq!(plain("(1"), "no 15 at 2");
        assert_eq!(plain("1)"), "no 15 at 1");
        assert_eq!(plain("1 NOT 2"), "no 15 at 2");
        assert_eq!(plain("1#"), "no 15 at 1");
    }

    #[test]
    fn numbers_that_are_refused() {
        assert_eq!(plain("1+&"), "no 2 at 3");
        assert_eq!(plain("37_1 #"), "no 3 at 0");
        assert_eq!(plain("1+37_"), "no 3 at 2");
        assert_eq!(plain("(4294967296"), "no 4 at 1");
        assert_eq!(value("&FFFFFFFF"), -1);
        // What is over 255 is refused in a reference alone.
        assert_eq!(value("256+65601"), 65_857);
        assert_eq!(value("2<256>0"), 0);
        assert_eq!(plain("<256>"), "no 15 at 0");
    }

    #[test]
    fn the_17th_cover_is_too_deep() {
        assert_eq!(value(&format!("{}1", "-".repeat(16))), 1);
        assert_eq!(plain(&"+".repeat(17)), "no 11 at 16");
        let brackets = |count| format!("{}1{}", "(".repeat(count), ")".repeat(count));
        assert_eq!(value(&format!("{0}+{0}", brackets(16))), 2);
        assert_eq!(plain(&brackets(17)), "no 11 at 16");
        assert_eq!(plain(&"(".repeat(16)), "no 15 at 16");
    }

    #[test]
    fn names_are_refused_in_their_order() {
        assert_eq!(shown("I", 1), "7 to 1");
        assert_eq!(shown("i", 0), "no 12 at 0");
        assert_eq!(shown("s", 0), "no 17 at 0");
        assert_eq!(shown("m", 0), "no 17 at 0");
        let holds_a_code = b"VR\x02\x01\x05m<256>";
        let refused = over(b"m", b"", holds_a_code, 1).expect_err("a refusal");
        assert_eq!(refused, Refusal::NotInteger.at(0).within(Slice::Text));
        assert_eq!(shown("q", 0), "no 10 at 0");
        assert_eq!(shown(&"i".repeat(33), 0), "no 10 at 0");
        let sum = |count| vec!["i"; count].join("+");
        assert_eq!(value(&sum(1_024)), 7 * 1_024);
        assert_eq!(shown(&sum(1_025), u32::MAX), "no 12 at 2048");
    }

    #[test]
    fn names_of_both_tables_spend_one_look_up_each() {
        assert_eq!(shown("i+J", 2), "12 to 3");
        assert_eq!(shown("i+J", 1), "no 12 at 2");
        assert_eq!(shown("j", 1), "5 to 1");
        assert_eq!(shown("j", 0), "no 12 at 0");
        assert_eq!(shown("j+s", 1), "no 17 at 2");
        assert_eq!(shown("j+q", 1), "no 10 at 2");
        let only_in_house = over(b"i", b"", HOUSE, 1).expect_err("a refusal");
        assert_eq!(only_in_house, Refusal::NotInteger.at(0).within(Slice::Text));
        assert_eq!(over(b"s", b"", HOUSE, 1).expect("a value").value, 3);
    }

    #[test]
    fn both_tables_are_judged_before_the_syntax() {
        let cut = |table: &[u8]| table[..table.len() - 1].to_vec();
        let (farm, house) = (cut(FARM), cut(HOUSE));
        let at = |place| Refusal::BadTable.at(place);
        let refused =
            |farm: &[u8], house: &[u8]| over(b"(", farm, house, 0).expect_err("a refusal");
        assert_eq!(refused(&farm, &house), at(10).within(Slice::Farm));
        assert_eq!(refused(FARM, &house), at(22).within(Slice::House));
        assert_eq!(
            refused(FARM, HOUSE),
            Refusal::BadExpression.at(1).within(Slice::Text)
        );
    }

    #[test]
    fn values_at_their_edges() {
        assert_eq!(value("-2147483648/-1"), i32::MIN);
        assert_eq!(value("-2147483648 MOD -1"), 0);
        assert_eq!(value("-7/2"), -3);
        assert_eq!(value("7 MOD -2"), 1);
        assert_eq!(value("65536*65536"), 0);
        assert_eq!(value("1<<31"), i32::MIN);
        assert_eq!(value("1<<32"), 0);
        assert_eq!(value("1<<-1"), 0);
        assert_eq!(value("-1>>-1"), -1);
        assert_eq!(value("1>>32"), 0);
        assert_eq!(value("-1>>>31"), 1);
        assert_eq!(value("-1>>>32"), 0);
    }

    #[test]
    fn levels_bind_as_ordered() {
        assert_eq!(value("NOT 1+2"), 0);
        assert_eq!(value("2+3*4"), 14);
        assert_eq!(value("7-2-1"), 4);
        assert_eq!(value("1+1<<2"), 8);
        assert_eq!(value("1=1=1"), 0);
        assert_eq!(value("1 EOR 1 AND 0"), 1);
        assert_eq!(value("1 OR 2 EOR 3"), 0);
        assert_eq!(value("(1+2)*3"), 9);
    }

    #[test]
    fn the_text_ends_as_gs_strings_do() {
        assert_eq!(plain("1 \n+"), "1 to 2");
        assert_eq!(plain("\r1"), "no 15 at 0");
    }
}
