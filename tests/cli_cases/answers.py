"""The answers themselves: the examples of the header and of the rules, every call by its name and its number, and the help."""

import re

from . import header, variables
from .commands import ALL, COMMANDS, TABLE_COMMANDS
from .header import TIME
from .messages import SAY_LINES, after, gave, no_room, refusal
from .trial import Case, accepted, refused
from .variables import FARM, HOUSE, index, integer, macro, string, table

VALUE = 1048576
DECIMAL, X_FORM = 0x28, 0x20000
PAGE = {"farm": table(*FARM), "house": table(*HOUSE)}
LETTERS = {"farm": table(string(b"a", b"x")), "house": table(string(b"a", b"y"), macro(b"m", b"<A>|"))}
SMALL = "translate --farm farm --table house --allowance 2 --room 2"


def grouped(digits):
    """Digits with a space between groups of three, counted from the right."""
    return f"{int(digits):,}".replace(",", " ")


def signed(value, width):
    return int.from_bytes(value.to_bytes(4, "little")[:width], "little", signed=True)


def unsigned(value, width):
    return value % 256**width


# each family of calls, in the order of their numbers from &D0 on: its name, the widths, and the string of a value at a width
FAMILIES = [
    ("hex", (1, 2, 4, 6, 8), lambda value, width: f"{value % 16**width:0{width}X}"),
    ("unsigned", (1, 2, 3, 4), lambda value, width: f"{unsigned(value, width)}"),
    ("signed", (1, 2, 3, 4), lambda value, width: f"{signed(value, width)}"),
    ("binary", (1, 2, 3, 4), lambda value, width: f"{unsigned(value, width):0{8 * width}b}"),
    ("spaced-unsigned", (1, 2, 3, 4), lambda value, width: grouped(unsigned(value, width))),
    ("spaced-signed", (1, 2, 3, 4), lambda value, width: grouped(signed(value, width))),
]
VALUES = (0, 7, 128, 999, 1000, 65535, VALUE, 0x80000000, 0x89ABCDEF, 0xFFFFFFFF)


def calls():
    """The 26 calls: name, number, the string of a value, and how many zero bytes are counted after it."""
    yield "decimal", DECIMAL, lambda value: f"{signed(value, 4)}", 0
    number = 0xD0
    for family, widths, written in FAMILIES:
        for width in widths:
            yield f"{family}{width}", number, lambda value, width=width, written=written: written(value, width), 1
            number += 1


def of_every_call():
    for name, number, written, zeros in calls():
        for value in VALUES:
            yield accepted(f"convert {name} {value}", written(value) + "\n")
        value = 0x89ABCDEF
        need = len(written(value)) + zeros
        yield accepted(f"convert &{number:X} &{value:x}", written(value) + "\n")
        yield accepted(f"convert --room {need} {number + X_FORM} {value}", written(value) + "\n")
        yield refused(f"convert --room {need - 1} {name} {value}", no_room(need, need - 1))
        yield refused(f"convert --room {need - 1} {number + X_FORM} {value}", no_room(need, need - 1))
        yield refused(f"convert --room 0 {number} {value}", no_room(need, 0))


def second_ask(call, value, need):
    """A case: refused without room, and accepted with the room that the refusal says."""
    def work(trial):
        ran = trial.holds(f"convert --room 0 {call} {value}", 1, b"", no_room(need, 0))
        said = re.search(rb"ask again with --room (\d+)\n", ran.err)
        trial.holds(f"convert --room {said[1].decode()} {call} {value}", 0, f"{value}\n")
    return Case(f"nos convert {call} {value}, asked twice", work)


def of_zero_bytes():
    """The room of &28, which has no zero byte, at both sides, by every way to name it; and beside it that of &DC."""
    ways = ((("decimal", DECIMAL, f"&{DECIMAL:X}", f"&{DECIMAL + X_FORM:X}"), 0), (("signed4", "&DC", f"&{0xDC + X_FORM:X}"), 1))
    for names, zeros in ways:
        for value in (0, 9, -9, 10, VALUE, -VALUE, 2**31 - 1, -2**31):
            need = len(str(value)) + zeros
            for name in names:
                yield accepted(f"convert --room {need} {name} {value}", f"{value}\n")
                yield refused(f"convert --room {need - 1} {name} {value}", no_room(need, need - 1))
    yield refused(f"convert --room 6 decimal {VALUE}", [
        "refused 1, No room: 7 bytes are needed, and there was room for 6", "ask again with --room 7", "nothing was written",
    ])
    yield refused("convert decimal 7 --room 0", [
        "refused 1, No room: 1 byte is needed, and there was room for 0", "ask again with --room 1", "nothing was written",
    ])
    yield accepted(f"convert decimal {VALUE} --room 7 -o out", makes={"out": f"{VALUE}\n"})
    for call, need in (("decimal", 7), ("&28", 7), ("&20028", 7), ("signed4", 8), ("&200DC", 8)):
        yield second_ask(call, VALUE, need)


def of_numbers():
    """The examples of nos_convert, and P1 to P7."""
    yield accepted(f"convert --room 8 &D8 {VALUE}", "1048576\n")
    yield refused(f"convert --room 7 &D8 {VALUE}", no_room(8, 7))
    yield accepted(f"convert --room 7 &28 {VALUE}", "1048576\n")
    yield refused(f"convert --room 6 &28 {VALUE}", no_room(7, 6))
    yield accepted(f"convert &E4 {VALUE}", "1 048 576\n")
    yield refused(f"convert &E4 --room 9 {VALUE}", no_room(10, 9))
    yield accepted(f"convert &D5 {VALUE} --room 2", "0\n")
    yield accepted("convert &D9 128", "-128\n")
    yield refused("convert signed1 128 --room 0", no_room(5, 0))
    yield accepted("convert &E8 2147483648", "-2 147 483 648\n")
    yield refused("convert &E8 2147483648 --room 14", no_room(15, 14))
    yield accepted(f"convert &D3 {VALUE}", "100000\n")
    yield accepted("convert signed4 -1", "-1\n")
    yield accepted("convert decimal -2147483648", "-2147483648\n")
    yield accepted("convert hex8 -1", "FFFFFFFF\n")
    yield accepted("convert unsigned2 -2_11", "65533\n")
    yield accepted("convert spaced-signed4 -- -&3E8", "-1 000\n")
    yield accepted("convert 2_11011000 5", "5\n")


def of_dates():
    yield accepted(["date", "%W3,%DY %M3 %CE%YR.%24:%MI:%SE", TIME], "Tue,28 Mar 1989.13:25:54\n")
    yield refused(["date", "%W3,%DY %M3 %CE%YR.%24:%MI:%SE", TIME, "--room", "24"], no_room(25, 24))
    yield accepted(["date", "day %DN, 100%%", TIME], "day 087, 100%\n")
    yield accepted(["date", "%CE%YR-%MN-%DY", TIME, "--room", "11"], "1989-03-28\n")
    yield refused(["date", "%CE%YR-%MN-%DY", TIME, "--room", "10"], no_room(11, 10))
    yield refused(["date", "%DY.%mn.%12", TIME], refusal(19, 4, "the format", b"%DY.%mn.%12"))
    yield refused(["date", "100%", TIME], refusal(19, 3, "the format", b"100%"))
    yield accepted(["date", "%%CS", TIME], "%CS\n")
    yield accepted(["date", "%24:%MI:%SE.%CS %DY %M3 %CE%YR", "FFFFFFFFFF"], "06:57:57.75 03 Jun 2248\n")
    yield accepted(["date", "%W3 %DY %MN %CE%YR %DN %24%MI%SE%CS", "0000000000"], "Mon 01 01 1900 001 00000000\n")
    yield accepted(["date", "%CE%YR-%MN-%DY", TIME.lower()], "1989-03-28\n")
    yield accepted(["date", "", TIME], "\n")
    yield accepted(["date", "a\nb\rc", TIME], b"a\nb\rc\n")
    five = {"times": bytes.fromhex(TIME)}
    many = {"times": b"\xff" * 7 + bytes.fromhex(TIME) + b"\xff" * 3}
    yield accepted("date %CE%YR-%MN-%DY --from times", "1989-03-28\n", files=five)
    yield accepted("date --from=times %CE%YR-%MN-%DY --at 0", "1989-03-28\n", files=five)
    yield accepted("date --at 7 %CE%YR-%MN-%DY --from times", "1989-03-28\n", files=many)
    yield accepted("date --at=&7 --from=times %CE%YR-%MN-%DY --room=11", "1989-03-28\n", files=many)
    yield accepted("date %CE%YR-%MN-%DY --from -", "1989-03-28\n", given=bytes.fromhex(TIME))


def of_readings():
    """The examples of nos_read_unsigned, P8 and P9 among them."""
    def at(place, of, verb="read"):
        return [after(of, place, "the number", verb)]
    yield accepted("read 2_1102", "6\n", at(5, 1))
    yield refused("read 37_1", refusal(3, 0, "the text", b"37_1"))
    yield accepted("read ' &fFx'", "255\n", at(4, 1))
    yield refused("read &G", refusal(2, 1, "the text", b"&G"))
    yield accepted("read '12 sacks'", "12\n", at(2, 6))
    yield accepted("read '12 sacks' --whole", "12\n", at(2, 6))
    yield refused("read ''", refusal(2, 0, "the text", b""))
    yield accepted("read 12kg", "12\n", ["2 bytes after the number, at byte 2, were not read"])
    yield refused("read 12kg --whole", refusal(5, 2, "the text", b"12kg"))
    yield accepted("read 4294967295", "4294967295\n")
    yield refused("read 4294967296", refusal(4, 0, "the text", b"4294967296"))
    yield accepted("read --limit 12 12", "12\n")
    yield refused("read --limit 11 ' 12'", refusal(6, 1, "the text", b" 12"))
    yield accepted("read --limit=4294967295 4294967295", "4294967295\n")
    yield accepted("read --whole 007", "7\n")


def of_texts():
    """The examples of nos_translate and of the first page, P10 to P13, and the two lines under them."""
    for text, out in ((b"<A>b", b"xb"), (b"|!|@", b"\x80"), (b"<65>", b"A"), (b"<&FF>", b"\xff"), (b'""""', b'"')):
        yield accepted(SMALL, out, given=text, files=LETTERS)
    yield refused(SMALL, refusal(21, 0, "the text", b"<321>", told=[gave("321", 321, 0)]), given=b"<321>", files=LETTERS)
    yield refused(SMALL, refusal(8, 5, "the text", b'"b"  c'), given=b'"b"  c', files=LETTERS)
    yield accepted(f"{SMALL} --space-ends", b"b", [after(3, 3), SAY_LINES], given=b'"b"  c', files=LETTERS)
    for text, number, place in ((b"b<m>", 7, 1), (b"b<c>", 10, 1), (b"<a><a><a>", 12, 6), (b"<4294967296>", 4, 0),
                                (b"a<", 9, 1)):
        yield refused(SMALL, refusal(number, place, "the text", text), given=text, files=LETTERS)
    yield refused(SMALL, no_room(3, 2), given=b"<A>bc", files=LETTERS)
    yield accepted("translate", b'a"b', given=b'"a""b"')
    yield accepted("translate --table t --allowance 1", b"xb", given=b"<A>b", files={"t": bytes([86, 82, 0, 1, 1, 97, 120])})
    yield accepted("translate --room 0")
    own = {"table": table(macro(b"a", b"<a>"))}
    yield refused("translate --table table --allowance 3", refusal(12, 0, "the text", b"<a>"), given=b"<a>", files=own)
    yield refused("translate --table table --allowance 1024", refusal(11, 0, "the text", b"<a>"), given=b"<a>", files=own)
    row = b"<Farm$Name>: <Quantity> <Unit>"
    yield accepted("translate --farm farm --table house", "Lower Ash: 1048576 kg", given=row, files=PAGE)
    yield accepted("translate --farm farm --table house --room 21 row", "Lower Ash: 1048576 kg", files={**PAGE, "row": row})
    yield accepted("translate -", "Ash", given=b"Ash")
    yield accepted("translate --table house", "Unnamed", given=b"<farm$NAME>", files=PAGE)
    yield refused("translate --farm farm", refusal(10, 24, "the text", row), given=row, files=PAGE)
    yield refused("translate --farm=farm --table=house --room=16", [
        "refused 1, No room: 21 bytes are needed, and there was room for 16", "ask again with --room 21", "nothing was written",
    ], given=row, files=PAGE)


def of_flags():
    """Each of the three flags, alone and together with another one."""
    yield accepted("translate", b"\x01 b", given=b"|a b")
    yield accepted("translate --bar-plain", b"|a b", given=b"|a b")
    yield accepted("translate --space-ends", b"\x01", [after(2, 2), SAY_LINES], given=b"|a b")
    yield accepted("translate --bar-plain --space-ends", b"|a", [after(2, 2), SAY_LINES], given=b"|a b")
    yield accepted("translate", b"a b", given=b'  "a b"  ')
    yield accepted("translate --quote-plain", b'"a b"  ', given=b'  "a b"  ')
    yield accepted("translate --space-ends", b"a b", [after(2, 7), SAY_LINES], given=b'  "a b"  ')
    yield accepted("translate --quote-plain --space-ends", b'"a', [after(5, 4), SAY_LINES], given=b'  "a b"  ')
    yield accepted("translate --quote-plain --bar-plain", b'"|', given=b'"|')


def of_bytes():
    """Every byte value through a text, through number references and through a table's value."""
    plain = bytes(byte for byte in range(256) if byte not in b"\0\n\r|<")
    yield accepted("translate", b"." + plain, given=b"." + plain)
    yield accepted("translate text", b"." + plain, files={"text": b"." + plain})
    yield accepted("translate --lines", b"." + plain + b"\n", given=b"." + plain + b"\n")
    yield accepted("translate", bytes(range(256)), given=b"".join(b"<%d>" % byte for byte in range(256)))
    values = {"table": table(string(b"low", bytes(range(255))), string(b"high", bytes(range(255, 0, -1))))}
    yield accepted("translate --table table", bytes(range(255)) + bytes(range(255, 0, -1)), given=b"<low><HIGH>", files=values)
    yield accepted("translate --farm table -o out", makes={"out": bytes(range(255))}, given=b"<Low>", files=values)
    for byte in (*range(1, 10), 11, 12, *range(14, 33), *range(127, 256, 16), 255):
        shown = b"a" + bytes([byte]) + b"<>"
        yield refused("translate", refusal(9, 2, "the text", shown), given=shown)


def of_expressions():
    """The examples of nos_evaluate, P14, P15 and the line under them, and names of both tables."""
    for text, value in (("2147483647+1", -2147483648), ("-7 MOD 2", -1), ("1=1=1", 0), ("-8>>1", -4), ("2+3*4", 14),
                        ("&FFFFFFFF", -1), ("36_Zz", 1295), ("  7  ", 7), ("-1>>>31", 1), ("NOT 0 AND 255", 255)):
        yield accepted(["eval", text], f"{value}\n")
    yield accepted("eval -- '-(2+3)'", "-5\n")
    yield accepted("eval -- --5", "5\n")
    yield accepted("eval -5+3", "-2\n")
    for text, number, place in (("1/0+(", 15, 5), ("1/0", 16, 1), ("12abc", 15, 2), ("&", 2, 1)):
        yield refused(["eval", text], refusal(number, place, "the expression", text.encode()))
    files = {"farm": table(integer(b"q", 5)), "house": table(integer(b"Q", 7), integer(b"lowest", -2**31))}
    yield accepted("eval --table house q*2", "14\n", files=files)
    yield accepted("eval --farm farm --table house 'q*2 + lowest'", "-2147483638\n", files=files)
    yield accepted("eval --farm=farm --table=house --allowance=2 q+q", "10\n", files=files)
    yield accepted("eval 6*7 -o out", makes={"out": b"42\n"})


def of_tables():
    three = [*FARM, string(b"Remark")]
    size = len(table(*three))
    yield accepted("table check t", f"good: 3 variables, {size} bytes\n", files={"t": table(*three)})
    yield accepted("table check -", f"good: 3 variables, {size} bytes\n", given=table(*three))
    yield accepted("table check t", "good: 0 variables, 0 bytes\n", files={"t": b""})
    yield accepted("table show -", variables.text(*FARM), given=table(*FARM))
    yield accepted("table show t", "", files={"t": b""})
    yield accepted("table show -o out t", makes={"out": variables.text(*FARM)}, files={"t": table(*FARM)})
    yield accepted("table index t", index(*three), files={"t": table(*three)})
    yield accepted("table index -", index(*three), given=table(*three))
    yield accepted("table index t", "", files={"t": b""})
    yield accepted("table index -o out t", makes={"out": index(*FARM)}, files={"t": table(*FARM)})


def help_of(args, must_have):
    """A case: this help has all these words."""
    def work(trial):
        ran = trial.run(args)
        trial.judge(ran, 0, ran.out)
        lines = ran.out.decode("ascii")
        trial.expect("words that the help has not", [], [word for word in must_have if word not in lines])
        trial.expect("a line feed at the end", "\n", lines[-1:])
    return Case(f"nos {args}", work)


def version(trial):
    """The version is the header's."""
    ran = trial.run("--version")
    trial.judge(ran, 0, ran.out)
    trial.hold("NOS_VERSION", None if header.VERSION else "the header has none")
    version_line = rf"(nos )?{re.escape(str(header.VERSION))}\n"
    trial.hold("the version", None if re.fullmatch(version_line, ran.out.decode()) else f"seen {ran.out}")


def of_help():
    yield help_of("--help", ["nos", *COMMANDS, *TABLE_COMMANDS, "--help", "--version"])
    yield help_of("table --help", ["nos table", *TABLE_COMMANDS])
    for name, command in ALL.items():
        asked = " ".join(name)
        yield help_of(f"{asked} --help", [f"nos {asked}", *command.valued, *command.flags])
    yield Case("nos --version", version)


def cases():
    for some in (of_every_call, of_zero_bytes, of_numbers, of_dates, of_readings, of_texts, of_flags, of_bytes, of_expressions,
                 of_tables, of_help):
        yield from some()
