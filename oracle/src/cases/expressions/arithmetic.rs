//! What each operator is worth, counted in exact numbers: a second route beside the evaluator.

/// How many 32-bit patterns there are.
const PATTERNS: i64 = 1 << 32;

/// The level of what needs no brackets anywhere: numbers, names, one-sided operators.
pub const TIGHTEST: usize = 5;

/// A one-sided operator.
pub struct Unary {
    pub sign: &'static str,
    pub value: fn(i64) -> i64,
}

/// A two-sided operator; a higher level binds tighter. Without a value its divisor is zero.
pub struct Binary {
    pub sign: &'static str,
    pub level: usize,
    pub value: fn(i64, i64) -> Option<i64>,
}

pub static MINUS: Unary = unary("-", |value| signed(-value));
pub static NOT: Unary = unary("NOT", |value| -1 - value);
pub static PLUS: Unary = unary("+", |value| value);
pub static UNARY: [&Unary; 3] = [&MINUS, &NOT, &PLUS];

pub static SUM: Binary = binary("+", 3, |left, right| Some(signed(left + right)));
pub static DIFFERENCE: Binary = binary("-", 3, |left, right| Some(signed(left - right)));
pub static QUOTIENT: Binary = binary("/", 4, quotient);
pub static REMAINDER: Binary = binary("MOD", 4, remainder);
pub static AND: Binary = binary("AND", 1, |left, right| {
    by_bits(left, right, |ones| ones == 2)
});

/// All two-sided operators, the loosest first.
pub static BINARY: [&Binary; 17] = [
    &binary("OR", 0, |left, right| by_bits(left, right, |ones| ones > 0)),
    &binary("EOR", 0, |left, right| {
        by_bits(left, right, |ones| ones == 1)
    }),
    &AND,
    &binary("=", 2, |left, right| truth(left == right)),
    &binary("<>", 2, |left, right| truth(left != right)),
    &binary("<", 2, |left, right| truth(left < right)),
    &binary(">", 2, |left, right| truth(left > right)),
    &binary("<=", 2, |left, right| truth(left <= right)),
    &binary(">=", 2, |left, right| truth(left >= right)),
    &binary("<<", 2, |left, right| Some(signed(left * factor(right)))),
    &binary(">>", 2, floor_quotient),
    &binary(">>>", 2, |left, right| {
        floor_quotient(pattern(left), right).map(signed)
    }),
    &SUM,
    &DIFFERENCE,
    &binary("*", 4, |left, right| Some(signed(left * right))),
    &QUOTIENT,
    &REMAINDER,
];

const fn unary(sign: &'static str, value: fn(i64) -> i64) -> Unary {
    Unary { sign, value }
}

const fn binary(sign: &'static str, level: usize, value: fn(i64, i64) -> Option<i64>) -> Binary {
    Binary { sign, level, value }
}

/// The number from 0 up that has a value's 32 bits.
fn pattern(value: i64) -> i64 {
    value.rem_euclid(PATTERNS)
}

/// The signed number that any exact one is, modulo 2 to the 32.
pub fn signed(exact: i64) -> i64 {
    let half = PATTERNS / 2;
    (exact + half).rem_euclid(PATTERNS) - half
}

fn truth(holds: bool) -> Option<i64> {
    Some(if holds { -1 } else { 0 })
}

/// The quotient of the sizes, with a minus where the signs differ.
fn quotient(left: i64, right: i64) -> Option<i64> {
    let size = left.abs().checked_div(right.abs())?;
    let same_sign = (left < 0) == (right < 0);
    Some(signed(if same_sign { size } else { -size }))
}

/// The remainder of the sizes, with the sign of the left side.
fn remainder(left: i64, right: i64) -> Option<i64> {
    let size = left.abs().checked_rem(right.abs())?;
    Some(if left < 0 { -size } else { size })
}

/// What a shift to the left multiplies by: a power of two, or 0 where every bit goes out.
fn factor(amount: i64) -> i64 {
    match pattern(amount) {
        amount @ 0..=31 => (0..amount).fold(1, |power, _| 2 * power),
        _ => 0,
    }
}

/// A shift to the right divides by a power of two, downward; a big one leaves 0 or -1.
fn floor_quotient(left: i64, amount: i64) -> Option<i64> {
    Some(match factor(amount) {
        0 if left < 0 => -1,
        0 => 0,
        power => left.div_euclid(power),
    })
}

/// The number whose bits are told by how many of the two bits at the same place are ones.
fn by_bits(left: i64, right: i64, is_one: fn(i64) -> bool) -> Option<i64> {
    let (mut left, mut right) = (pattern(left), pattern(right));
    let (mut value, mut weight) = (0, 1);
    while weight < PATTERNS {
        if is_one(left % 2 + right % 2) {
            value += weight;
        }
        (left, right, weight) = (left / 2, right / 2, 2 * weight);
    }
    Some(signed(value))
}

#[cfg(test)]
mod tests {
    use super::*;

    const LOWEST: i64 = -2_147_483_648;

    fn value(left: i64, sign: &str, right: i64) -> Option<i64> {
        let named = |operator: &&&Binary| operator.sign == sign;
        let operator = BINARY.iter().find(named).expect(sign);
        (operator.value)(left, right)
    }

    #[test]
    fn edges_that_the_rules_name() {
        assert_eq!(value(2_147_483_647, "+", 1), Some(LOWEST));
        assert_eq!(value(-7, "MOD", 2), Some(-1));
        assert_eq!(value(LOWEST, "/", -1), Some(LOWEST));
        assert_eq!(value(LOWEST, "MOD", -1), Some(0));
        assert_eq!(value(7, "/", 0), None);
        assert_eq!(value(7, "MOD", 0), None);
        assert_eq!(value(1, "<<", -1), Some(0));
        assert_eq!(value(-1, ">>", -1), Some(-1));
        assert_eq!(value(-1, ">>>", 31), Some(1));
        assert_eq!(value(-1, ">>>", 0), Some(-1));
        assert_eq!(value(-4, "EOR", 6), Some(-6));
        assert_eq!((MINUS.value)(LOWEST), LOWEST);
        assert_eq!((NOT.value)(LOWEST), 2_147_483_647);
    }
}
