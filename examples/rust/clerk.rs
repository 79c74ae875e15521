//! A clerk who uses the library from Rust: a translation, a refusal and the second ask, and each of the other functions once. Every
//! answer is asserted, so that the program ends with a status other than 0 at the first one that is wrong.

mod nosgoludd;

use nosgoludd::{
    build_index, build_index_to_vec, check_table, convert, convert_date, convert_date_to_vec, evaluate, look_up, read_unsigned,
    translate, translate_to_vec, Evaluated, Found, Number, Refusal, Table, Tables, Variable, BAD_INDEX, BAR_PLAIN, CODE_OVER_255,
    DECIMAL, NO_LIMIT, NO_ROOM, QUOTE_PLAIN, SIGNED_4, SPACED_UNSIGNED_4, SPACE_ENDS, UNSIGNED_4,
};

/// Records one behind the other: V, R, kind, name length, value length, name, value. The house has a heading for every farm, and a
/// name for those that give none.
const FARM: &[u8] = b"VR\x00\x09\x09Farm$NameLower Ash\
                      VR\x01\x08\x04Quantity\x00\x00\x10\x00";
const HOUSE: &[u8] = b"VR\x00\x09\x07Farm$NameUnnamed\
                       VR\x02\x07\x1EHeading<Farm$Name>: <Quantity> <Unit>\
                       VR\x00\x04\x02Unitkg\
                       VR\x01\x04\x04Year\xC5\x07\x00\x00";

const TABLES: Tables = Tables { farm: FARM, house: HOUSE, index: None };

const WHOLE: &[u8] = b"Lower Ash: 1048576 kg";

/// A refusal that is neither in one of the tables nor for lack of room.
fn refused(number: u32, place: usize) -> Refusal {
    Refusal { number, place, table: None, need: 0 }
}

/// A refusal of one of the tables.
fn refused_in(table: Table, number: u32, place: usize) -> Refusal {
    Refusal { table: Some(table), ..refused(number, place) }
}

fn shown(bytes: &[u8]) -> String {
    String::from_utf8_lossy(bytes).into_owned()
}

/// Too little room, the need, and the whole.
fn ask_twice() -> Result<(), Refusal> {
    let text = b"<Heading>";
    let mut short = *b"................";
    let refusal = translate(text, TABLES, 0, 8, &mut short).expect_err("16 bytes are too few");
    assert_eq!(refusal, Refusal { need: 21, ..refused(NO_ROOM, 0) });
    assert_eq!(&short, b"................", "a refusal changes no byte");
    println!("{} with room for 16: {refusal}", shown(text));

    let mut enough = vec![0; refusal.need];
    let translated = translate(text, TABLES, 0, 8, &mut enough)?;
    assert_eq!((translated.bytes, translated.end), (WHOLE, 9));
    println!("{} with room for {}: {}", shown(text), refusal.need, shown(translated.bytes));

    // the same in one call
    assert_eq!(translate_to_vec(text, TABLES, 0, 8)?, WHOLE);
    assert_eq!(translate_to_vec(b"", Tables::default(), 0, 0)?, b"");
    Ok(())
}

/// Refusals that no room helps: the place says where the text is wrong.
fn mistakes() {
    let text = b"96 kg to <Farm$Nmae>";
    let refusal = translate_to_vec(text, TABLES, 0, 8).expect_err("the name is unknown");
    assert_eq!(refusal, refused(10, 9));
    println!("{}: {refusal}", shown(text));

    // the heading and its three names take four look-ups, whichever tables they are in
    assert_eq!(translate_to_vec(b"<Heading>", TABLES, 0, 3), Err(refused(12, 0)));
    assert!(translate_to_vec(b"<Heading>", TABLES, 0, 4).is_ok());
}

/// A number between "<" and ">" is a byte. Over 255 it is a mistake, whatever its low bits, and though a variable has it for a name.
fn codes() -> Result<(), Refusal> {
    let numbered = Tables { farm: b"VR\x00\x03\x01256xVR\x00\x05\x01256thyVR\x02\x04\x09Slipsee <256>", ..TABLES };
    assert_eq!(translate_to_vec(b"<65><&41><0><255><&FF><36_73>", numbered, 0, 0)?, b"AA\0\xFF\xFF\xFF");
    assert_eq!(look_up(b"256", numbered)?.variable, Variable::String(b"x"));
    assert_eq!(translate_to_vec(b"<256th>", numbered, 0, 1)?, b"y", "which is no number");
    for number in 0..=1024u32 {
        let given = translate_to_vec(format!("<{number}>").as_bytes(), numbered, 0, 0);
        assert_eq!(given, u8::try_from(number).map(|byte| vec![byte]).map_err(|_| refused(CODE_OVER_255, 0)), "{number}");
    }

    let text = b"<65>sh <321>";
    let mut out = *b"................";
    let refusal = translate(text, numbered, 0, 8, &mut out).expect_err("321 is over 255");
    assert_eq!(refusal, refused(CODE_OVER_255, 7));
    assert_eq!(&out, b"................", "a refusal changes no byte");
    println!("{}: {refusal}", shown(text));

    assert_eq!(translate_to_vec(b"row <Slip>", numbered, 0, 8), Err(refused(CODE_OVER_255, 4)), "the place of <Slip>");
    for text in [&b"<65601>"[..], b"<4294967295>"] {
        assert_eq!(translate_to_vec(text, numbered, 0, 0), Err(refused(CODE_OVER_255, 0)), "{}", shown(text));
    }
    assert_eq!(translate_to_vec(b"<4294967296>", numbered, 0, 0), Err(refused(4, 0)), "which the reader refuses");
    Ok(())
}

/// Refusals of a table, which come before the text's own: the place says where in it, and `table` which one it is.
fn bad_tables() {
    let cut_farm = Tables { farm: &FARM[..FARM.len() - 1], ..TABLES };
    let refusal = translate_to_vec(b"96 <", cut_farm, 0, 8).expect_err("the last record is cut off");
    assert_eq!(refusal, refused_in(Table::Farm, 13, 23));
    println!("without the last byte of the farm's table: {refusal}");

    let cut_house = Tables { house: &HOUSE[..HOUSE.len() - 1], ..TABLES };
    let refusal = translate_to_vec(b"96 <", cut_house, 0, 8).expect_err("the last record is cut off");
    assert_eq!(refusal, refused_in(Table::House, 13, 74));
    println!("without the last byte of the house's: {refusal}");

    let both = Tables { house: cut_house.house, ..cut_farm };
    assert_eq!(look_up(b"Quantity", both), Err(refused_in(Table::Farm, 13, 23)));
    let long = [0; 65536];
    assert_eq!(evaluate(b"1/0", Tables { house: &long, ..cut_farm }, 0), Err(refused_in(Table::House, 18, 0)));
    assert_eq!(evaluate(b"1/0", Tables { farm: &long, house: &long, index: None }, 0), Err(refused_in(Table::Farm, 18, 0)));
    assert_eq!(check_table(cut_house.house), Err(refused(13, 74)));
}

/// What a flag changes: a text with a space, a bar and a quote.
fn flags() -> Result<(), Refusal> {
    let text = b"\"a |A\" b";
    let none = Tables::default();
    assert_eq!(translate_to_vec(text, none, 0, 0), Err(refused(8, 7)));
    assert_eq!(translate_to_vec(text, none, SPACE_ENDS, 0)?, b"a \x01");
    assert_eq!(translate_to_vec(text, none, SPACE_ENDS | BAR_PLAIN, 0)?, b"a |A");
    assert_eq!(translate_to_vec(text, none, QUOTE_PLAIN, 0)?, b"\"a \x01\" b");
    Ok(())
}

fn numbers() -> Result<(), Refusal> {
    let mut buf = [b'.'; 16];
    assert_eq!(convert(SPACED_UNSIGNED_4, 4294967295, &mut buf)?, "4 294 967 295");
    assert_eq!(&buf, b"4 294 967 295\0..", "the bytes behind the zero byte stay");
    assert_eq!(convert(UNSIGNED_4, 4294967295, &mut buf)?, "4294967295");
    let refusal = convert(UNSIGNED_4, 1048576, &mut buf[..7]).expect_err("no room for the zero byte");
    assert_eq!((refusal.number, refusal.need), (NO_ROOM, 8));
    let string = convert(UNSIGNED_4, 1048576, &mut buf[..refusal.need])?;
    let number = read_unsigned(string.as_bytes(), true, NO_LIMIT)?;
    assert_eq!(number, Number { value: 1048576, end: 7 });
    println!("1048576 written and read back: {string}, {}", number.value);

    assert_eq!(convert(0xE9, 1, &mut buf), Err(refused(14, 0)));
    assert_eq!(read_unsigned(b"12kg", true, NO_LIMIT), Err(refused(5, 2)));
    assert_eq!(read_unsigned(b"101", false, 100), Err(refused(6, 0)));
    Ok(())
}

/// DECIMAL, in its X form too, fits as many bytes as it has characters, and the next byte stays; SIGNED_4 takes one more, for its zero
/// byte.
fn with_and_without_a_zero_byte() -> Result<(), Refusal> {
    for call in [DECIMAL, 0x20000 + DECIMAL] {
        let mut buf = [b'.'; 8];
        let refusal = convert(call, 1048576, &mut buf[..6]).expect_err("no room for the last digit");
        assert_eq!(refusal, Refusal { need: 7, ..refused(NO_ROOM, 0) });
        assert_eq!(&buf, b"........", "a refusal changes no byte");
        assert_eq!(convert(call, 1048576, &mut buf[..refusal.need])?, "1048576");
        assert_eq!(&buf, b"1048576.", "the next byte stays");
        assert_eq!(convert(call, 0x80000000, &mut [b'.'; 11])?, "-2147483648");
        assert_eq!(convert(call, 0xFFFFFFF9, &mut buf)?, "-7");
        assert_eq!(&buf, b"-748576.", "where there is more room, too");
    }
    let mut buf = [b'.'; 9];
    let refusal = convert(SIGNED_4, 1048576, &mut buf[..7]).expect_err("no room for the zero byte");
    assert_eq!(refusal, Refusal { need: 8, ..refused(NO_ROOM, 0) });
    assert_eq!(convert(SIGNED_4, 1048576, &mut buf[..refusal.need])?, "1048576");
    assert_eq!(&buf, b"1048576\0.");
    println!("1048576 by DECIMAL: room for 7; by SIGNED_4, with its zero byte: room for {}", refusal.need);
    Ok(())
}

/// The times of three entries by one format: the need goes by the format, so that one ask serves them all.
fn dates() -> Result<(), Refusal> {
    // hundredths of a second since 1900, the lowest byte first: the first time, the date of the book's example, the last time
    let times: [[u8; 5]; 3] = [[0; 5], [0x48, 0x7E, 0x2A, 0x91, 0x41], [0xFF; 5]];
    let column = ["Mon,01 Jan 1900.00:00:00.00 001", "Tue,28 Mar 1989.13:25:54.00 087", "Sat,03 Jun 2248.06:57:57.75 155"];
    let format = b"%W3,%DY %M3 %CE%YR.%24:%MI:%SE.%CS %DN";
    let mut short = [b'.'; 31];
    let refusal = convert_date(&times[0], format, &mut short).expect_err("no room for the zero byte");
    assert_eq!(refusal, Refusal { need: 32, ..refused(NO_ROOM, 0) });
    assert_eq!(short, [b'.'; 31], "a refusal changes no byte");
    for (time, row) in times.iter().zip(column) {
        let mut buf = [b'.'; 33];
        assert_eq!(convert_date(time, format, &mut buf[..refusal.need])?, row.as_bytes());
        assert_eq!(&buf[refusal.need - 1..], b"\0.", "a zero byte behind it, and the byte behind that stays");
        assert_eq!(convert_date_to_vec(time, format)?, row.as_bytes());
        println!("{} with room for {}: {row}", shown(format), refusal.need);
    }

    // a format may have any bytes, ends at a zero byte, and needs no field
    assert_eq!(convert_date_to_vec(&times[1], b"100%%\xFF\n%MN\0%")?, b"100%\xFF\n03");
    assert_eq!(convert_date_to_vec(&times[1], b"")?, b"");

    let wrong = b"%DY.%mn.%CE%YR";
    let refusal = convert_date_to_vec(&times[1], wrong).expect_err("small letters are no field");
    assert_eq!(refusal, refused(19, 4));
    println!("{}: {refusal}", shown(wrong));
    assert_eq!(convert_date_to_vec(&times[1][..4], wrong), Err(refused(18, 0)), "a time of four bytes");
    assert_eq!(convert_date_to_vec(&times[1], &[b'%'; 65536]), Err(refused(18, 0)), "a format too long");
    assert_eq!(convert_date_to_vec(&[], &[]), Err(refused(18, 0)));
    Ok(())
}

/// The farm's variables come before the house's.
fn variables() -> Result<(), Refusal> {
    assert_eq!((check_table(FARM)?, check_table(HOUSE)?), (2, 4));
    let name = look_up(b"FARM$NAME", TABLES)?;
    assert_eq!(name, Found { variable: Variable::String(b"Lower Ash"), table: Table::Farm });
    let alone = Tables { farm: &[], ..TABLES };
    let name_of_the_house = look_up(b"FARM$NAME", alone)?;
    assert_eq!(name_of_the_house, Found { variable: Variable::String(b"Unnamed"), table: Table::House });
    let heading = look_up(b"Heading", TABLES)?;
    assert_eq!(heading, Found { variable: Variable::Macro(b"<Farm$Name>: <Quantity> <Unit>"), table: Table::House });
    assert_eq!(look_up(b"quantity", TABLES)?, Found { variable: Variable::Integer(1048576), table: Table::Farm });
    assert_eq!(look_up(b"Nobody", TABLES), Err(refused(10, 0)));
    assert_eq!(look_up(&[b'n'; 65536], TABLES), Err(refused(10, 0)), "a name of any length is no text");
    println!("Farm$Name: in {}; without that: in {}", name.table, name_of_the_house.table);

    let sum = b"-(Quantity + 7) MOD 10";
    let evaluated = evaluate(sum, TABLES, 1)?;
    assert_eq!(evaluated, Evaluated { value: -3, end: 22 });
    println!("{}: {}", shown(sum), evaluated.value);
    assert_eq!(evaluate(b"Quantity - Year", TABLES, 2)?, Evaluated { value: 1046587, end: 15 });
    assert_eq!(evaluate(b"96/0", TABLES, 0), Err(refused(16, 2)));
    Ok(())
}

/// The index of the house table: too little room, the need, and the whole; then look-ups and a translation through it.
fn indexes() -> Result<(), Refusal> {
    let mut buf = [b'.'; 9];
    let refusal = build_index(HOUSE, &mut buf[..7]).expect_err("7 bytes are too few");
    assert_eq!(refusal, Refusal { need: 8, ..refused(NO_ROOM, 0) });
    assert_eq!(&buf, b".........", "a refusal changes no byte");
    println!("the index of the house table with room for 7: {refusal}");
    let index = build_index(HOUSE, &mut buf[..refusal.need])?;
    assert_eq!(index, [0, 0, 21, 0, 63, 0, 74, 0], "Farm$Name, Heading, Unit, Year");
    let with_index = Tables { index: Some(index), ..TABLES };
    for name in [&b"FARM$NAME"[..], b"heading", b"Unit", b"year", b"quantity", b"Nobody", b""] {
        assert_eq!(look_up(name, with_index), look_up(name, TABLES), "{}", shown(name));
    }
    assert_eq!(translate_to_vec(b"<Heading>", with_index, 0, 8)?, WHOLE);
    assert_eq!(translate_to_vec(b"<Nobody>", with_index, 0, 8), Err(refused(10, 0)));
    assert_eq!(evaluate(b"Year - 1989", with_index, 1)?.value, 0);
    println!("<Heading> through it: {}", shown(WHOLE));

    // the same in one call; behind what was written nothing changed, and more room gives no more
    assert_eq!(build_index_to_vec(HOUSE)?, index);
    assert_eq!(buf, [0, 0, 21, 0, 63, 0, 74, 0, b'.']);
    assert_eq!(build_index(HOUSE, &mut buf)?.len(), 8);
    assert_eq!(build_index_to_vec(b"")?, b"");
    assert!(look_up(b"Nobody", Tables { index: Some(&[]), ..Tables::default() }) == Err(refused(10, 0)), "of no table");
    let long = [0; 65536];
    assert_eq!(build_index(&long, &mut buf), Err(refused_in(Table::House, 18, 0)));
    assert_eq!(build_index_to_vec(&HOUSE[..HOUSE.len() - 1]), Err(refused_in(Table::House, 13, 74)));
    Ok(())
}

/// An index from before an edit is refused, whatever is asked for, until it is built again.
fn stale_index() -> Result<(), Refusal> {
    let (mut house, index) = (HOUSE.to_vec(), build_index_to_vec(HOUSE)?);
    house.extend(b"VR\x00\x04\x05Zonenorth");
    let stale = Tables { house: &house, index: Some(&index), ..TABLES };
    let refusal = look_up(b"Zone", stale).expect_err("the index lacks a record");
    assert_eq!(refusal, refused(BAD_INDEX, 0));
    println!("after an edit of the table: {refusal}");
    assert_eq!(look_up(b"Nobody", stale), Err(refusal), "before an unknown name");
    assert_eq!(translate_to_vec(b"<", stale, 0, 8), Err(refusal), "and before the text's own faults");
    for other in [&index[..6], &[&index[..], b"\0"].concat(), b"", &[0; 65536]] {
        assert_eq!(look_up(b"Unit", Tables { index: Some(other), ..TABLES }), Err(refusal));
    }

    let anew = build_index_to_vec(&house)?;
    let zone = look_up(b"Zone", Tables { index: Some(&anew), ..stale })?;
    assert_eq!(zone, Found { variable: Variable::String(b"north"), table: Table::House });
    println!("and built again: Zone is in {}", zone.table);
    Ok(())
}

fn main() -> Result<(), Refusal> {
    ask_twice()?;
    mistakes();
    codes()?;
    bad_tables();
    flags()?;
    numbers()?;
    with_and_without_a_zero_byte()?;
    dates()?;
    variables()?;
    indexes()?;
    stale_index()?;
    println!("nothing is off");
    Ok(())
}
