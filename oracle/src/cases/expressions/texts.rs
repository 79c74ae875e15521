//! Texts that tell two readings of the rules apart, each with what it is there for.

use super::eval;
use crate::cases::pairs::Pair;
use crate::cases::tables::Entry;
use crate::lines::Case;

/// P14, P15 and the example that is not marked.
const EXAMPLES: &[&str] = &["2147483647+1", "-7 MOD 2", "1/0+("];

/// Faults of two kinds in one text; i is 7, s a string, m a macro, q unknown.
const FAULTS_IN_ORDER: &[&str] = &[
    "1/0+q", "q+1/0", "0 AND q", "-1 OR q", "5 MOD 0", "i/(i-7)", "0/0", "(1/0", "1/0)", "1/0 2",
    "q+", "s+", "s+q", "q+s", "m", "i+s", "i+q+s", "I+i", "1/0+37_1", "q+4294967296", "37_1+1/0",
    "4294967296 37_1", "1/0 &",
];

/// Words and symbols that a longer token swallows, and some that only seem to be swallowed.
const LONGEST_TOKENS: &[&str] = &[
    "MODx", "NOT1", "NOT 1", "5AND3", "5AND 3", "&5AND 3", "MOD", "mod", "not 1", "Mod", "1MOD2",
    "1MOD 2", "1 MOD2", "1OR 2", "1EOR 3", "AND", "ORi", "iOR 1", "i OR 1", "<>", "1<>2", "1< >2",
    "1>>>0", "1>> >0", "1>>>>0", "1>>=0", "1<<=0", "1=>0", "1=<0", "1==0", "8>>1>>1", "1>-1",
    "1<-1", "1=-1", "1>>>-1", "1< <2", "1> =2", "MO D", "i _1", "x_1", "x_ 1", "Sys$Year", "1AND3",
];

/// Numbers and words that touch, as far as the number's base goes; symbols that touch.
const TOUCHING: &[&str] = &[
    "&5OR 3", "&5EOR 3", "&AND 1", "&AMOD 3", "36_zAND 1", "16_fOR 1", "2_1AND 1", "11_aAND 1",
    "10_9MOD 4", "7MOD(2)", "(7)MOD 2", "(7)MOD(2)", "NOT(1)", "NOT-1", "NOT&1", "1AND&1",
    "iAND 1", "(i)AND 1", "1 AND i", "1 ANDi", "NOTi", "NOT i", "1-NOT 1", "1<<<1", "1<<>1",
    "1<>>1", "1><1", "1>=-1", "1<=-1", "1>>-1", "1<>-1", "1<>+1", "1< = 1", "1 < > 1", "- 1",
    "1 - - 1", "+-+1", "mod MOD mod", "(mod)MOD(mod)", "MOD MOD MOD", "NOT mod", "NOTmod",
    "1 AND 3AND 3", "1 AND3", "1 MOD x_1", "1/x_1", "NOT NOT1", "NOT NOT 1", "1__2", "1 _2", "& 5",
    "&5 5", "5 &5", "5&5",
];

/// Numbers good and refused, where an operand is wanted and where an operator is.
const NUMBERS: &[&str] = &[
    "12abc", "1 2", "1 37_1", "1 &", "&", "1+&", "37_1 #", "1+37_", "37_", "# 37_1", "4294967295",
    "4294967296", "1+4294967296+(", "(4294967296", "2_102", "2_", "2_2", "10_2_1", "1_1", "_1",
    "& 1", "2_ 1", "2 _1", "&g", "36_zz", "0000000000000000000000009", "4294967298_1",
];

/// Bytes that start no token, ends that come too soon, brackets and one-sided operators.
const TOKENS_OUT_OF_PLACE: &[&str] = &[
    "$a", "i$", "i_", "a.b", "1,2", "1.5", "\"1\"", "1|2", "1!", "'", "[1]", "{1}", "1^2", "1%2",
    "", " ", "   ", "1+  ", " 1 ", "(", ")", "()", "( )", "(1", "(1 2", "1)", "((1)", "(1))",
    "1(2)", "(1)(2)", "(1)2", "i(1)", "1 NOT 2", "NOT", "NOT NOT 1", "--1", "-+-1", "1--1",
    "1+-+1", "NOT-1", "*1", "1*", "1**2", "(1+)", "(*1)", "1 i", "i i", "-", "1-", "MOD 1",
];

/// The levels, and each operator at its edges.
const VALUES: &[&str] = &[
    "2+3*4", "7-2-1", "-2*3", "2*-3", "NOT 1+2", "NOT(1+2)", "NOT 1*2", "NOT 7 MOD 2", "NOT 6/2",
    "-1+2", "1+1<<2", "1<<2+1", "1=1=1", "1<2<3", "3>2>1", "1 EOR 1 AND 0", "1 AND 1 EOR 1",
    "1 OR 2 EOR 3", "1=1 AND 2=2", "1+2=3", "2*3 MOD 4", "7 MOD 4*2", "8/4/2", "7/2*2", "(1+2)*3",
    "-2147483648/-1", "-2147483648 MOD -1", "-(-2147483648)", "2147483648", "-2147483649", "-7/2",
    "7/-2", "-7/-2", "7 MOD -2", "-7 MOD -2", "-6 MOD 2", "65536*65536", "2147483647*2147483647",
    "-2147483648*-1", "-2147483648-1", "1<<31", "1<<32", "1<<33", "1<<-1", "3<<31", "-1>>31",
    "-1>>32", "-1>>-1", "1>>32", "1>>-1", "2147483647>>31", "-1>>>31", "-1>>>32", "-1>>>-1",
    "-1>>>0", "-1>>0", "-1<<0", "-1<0", "&FFFFFFFF=-1", "&80000000<0", "&80000000>=&7FFFFFFF",
    "1<=1", "1>=2", "2<>2",
];

/// The text's end in the middle, and bytes that are no letters.
const ENDS: &[&str] = &[
    "1\0+", "1 \n+", "1+\r2", "(1\n)", "\n1", "37_\0z", "&\n1", "1\t", "\t1", "1\x7F", "\u{e9}",
];

/// An integer of 7, a string, a macro, and integers whose names are nearly operators; either
/// table has some of them.
pub fn known() -> Pair {
    Pair::in_turn(&[
        Entry::integer("i", 7),
        Entry::string("s", b"7"),
        Entry::macro_of("m", b"7"),
        Entry::integer("AND3", 0x8000_0000),
        Entry::integer("Sys$Year", 1_989),
        Entry::integer("x_1", 0),
        Entry::integer("mod", u32::MAX),
    ])
}

/// Every text, with enough look-ups.
pub fn fixed() -> Vec<Case> {
    let lists = [
        EXAMPLES, FAULTS_IN_ORDER, LONGEST_TOKENS, TOUCHING, NUMBERS, TOKENS_OUT_OF_PLACE, VALUES,
        ENDS,
    ];
    let known = known();
    let texts = lists.concat().into_iter();
    let cases = texts.map(|text| eval(text.as_bytes(), &known, 9));
    cases.chain(around_the_deepest()).collect()
}

/// Around sixteen covers, with an operand and without.
fn around_the_deepest() -> Vec<Case> {
    let texts = [15, 16, 17, 18].map(covered_so_often).concat();
    let cases = texts
        .iter()
        .map(|text| eval(text.as_bytes(), &Pair::default(), 0));
    cases.collect()
}

/// Rows of covers that nothing or a fault follows, and some that only seem to be too long.
fn covered_so_often(count: usize) -> Vec<String> {
    let (open, close) = ("(".repeat(count), ")".repeat(count));
    let minus = "-".repeat(count);
    vec![
        format!("{minus}1"),
        "+".repeat(count),
        "NOT ".repeat(count),
        open.clone(),
        "(-".repeat(count / 2 + 1),
        format!("{open}{close}"),
        format!("{open}1"),
        format!("{open}1{close})"),
        format!("{open}1{close}*{open}1{close}"),
        format!("{}-1{}", &open[1..], &close[1..]),
        format!("{}-1{}", "(1+".repeat(count - 1), &close[1..]),
        format!("-({}1)+{minus}1", &minus[2..]),
        format!("1+{open}#"),
        format!("{open}37_1"),
        format!("{open}q/0"),
    ]
}
