"""Every refusal that a command can meet, in one list. Each is tried with its answer to standard output, to a new file and in place
of an old one, those of a text with --lines too; and the list has every number that the header has for the command's function."""

import re
from typing import NamedTuple

from . import header
from .commands import ALL, WITH_OUTPUT
from .header import LONG, TIME
from .messages import ADVICE, IN_A_MACRO, NOT_IN_A_MACRO, NOTHING_WRITTEN, Shown, by_strict, gave, no_room, refusal
from .trial import Case, refused, words
from .variables import FARM, HOUSE, MOST_RECORDS, filled, index, integer, macro, string, table, text

MEND_NAME = "the name is in neither table: mend it, or set it with `nos table set`"
BUILD_ANEW = re.compile(r".*`nos table index`.*")
GIVE_TABLE = re.compile(r".*--table\b.*")

UNKNOWN_CALL = ["refused 14, Unknown call", ADVICE, NOTHING_WRITTEN]
NOT_IN_TABLE = refusal(10, 0, "the table t")

# the function of the library whose refusals a command has, or can have
FUNCTIONS = {"translate": "nos_translate", "eval": "nos_evaluate", "convert": "nos_convert", "read": "nos_read_unsigned",
             "date": "nos_convert_date", "table check": "nos_check_table", "table show": "nos_check_table",
             "table set": "nos_check_table", "table make": "nos_check_table", "table unset": "nos_look_up",
             "table index": "nos_build_index"}
# those of a function that a command cannot have: `unset` looks a name up without an index
NEVER = {"table unset": {20}}


class Refusal(NamedTuple):
    """A way to be refused: the command, its number (None: not the library's), all words, what is said, and what is there."""

    command: str
    number: int | None
    args: list
    says: list
    files: dict = {}
    given: bytes = b""


GOOD = {"farm": table(*FARM), "house": table(*HOUSE)}
BOTH = "--farm farm --table house"
# a good record, and a second one with a mark that is none
DAMAGED = string(b"a", b"x").record() + b"VX\0\1\1by"
LADDER = [macro(b"m%d" % level, b"<m%d>" % (level + 1)) for level in range(16)]
DEEP = table(*LADDER, macro(b"m16", b"."), macro(b"self", b"<self>"))
SHORT = {"farm": table(string(b"a", b"x")), "house": table(string(b"a", b"y"), macro(b"m", b"<A>|"), integer(b"n", 7))}
# three records; as many as there can be; and so many that but 5 bytes are left, the first of them with a value that can be longer
SEVERAL = [string(b"one", b"1"), string(b"two", b"2"), integer(b"three", 3)]
MANY = [string(b"%d" % n) for n in range(MOST_RECORDS)]
FULL = [string(b"grows"), *filled(header.LONGEST - len(string(b"grows").record()) - 5)]


def of_tables(command, argument, given=b""):
    """18 and 13 of the farm's table and of the house's, each in its order."""
    farm, house = "the farm's table farm", "the house table house"
    for farm_bytes, house_bytes, number, place, of in (
            (LONG, GOOD["house"], 18, 0, farm), (GOOD["farm"], LONG, 18, 0, house), (LONG, LONG, 18, 0, farm),
            (DAMAGED, LONG, 18, 0, house), (DAMAGED, GOOD["house"], 13, 7, farm), (GOOD["farm"], DAMAGED, 13, 7, house),
            (DAMAGED, b"V", 13, 7, farm), (GOOD["farm"], b"V", 13, 0, house)):
        yield Refusal(command, number, words(f"{command} {BOTH}") + argument, refusal(number, place, of),
                      {"farm": farm_bytes, "house": house_bytes}, given)


def text_is_refused(number, place, given, options=BOTH, files=SHORT, advice=NOT_IN_A_MACRO, told=()):
    says = refusal(number, place, "the text", given, advice, told)
    return Refusal("translate", number, words(f"translate {options}"), says, files, given)


def of_macros():
    """Texts that are right, but for what a macro has that they name."""
    for number, value in ((9, b"a<"), (4, b"<4294967296>"), (10, b"<nmae>"), (7, b"|5"), (8, b'"open'), (8, b'"a" b')):
        files = {"farm": table(macro(b"m", value), macro(b"outer", b"x<m>")), "house": b""}
        for given, place in ((b"b<m>", 1), (b"bc <Outer> <nmae>", 3)):
            yield text_is_refused(number, place, given, files=files, advice=IN_A_MACRO)
    files = {"farm": table(macro(b"m", b"<256>"), macro(b"outer", b"x<m>")), "house": b""}
    for given, place in ((b"b<m>", 1), (b"bc <Outer> <nmae>", 3)):
        yield text_is_refused(21, place, given, files=files, advice=IN_A_MACRO, told=[gave("256", 256, 0, "the farm's macro m")])


def of_index():
    """20, whatever the text is, for all but the index of the house table; where there is no table, for all but an empty index."""
    own, says = index(*HOUSE), refusal(20, 0, "the index i", advice=BUILD_ANEW)
    for data in (b"", own[:-1], own[:-2], own + b"\0", own + own, own[2:] + own[:2], own[::-1], index(*FARM), GOOD["house"],
                 LONG, own.ljust(header.LONGEST + 1, b"\0")):
        for options, given in (("", b"nothing named"), ("--allowance 0 --room 0", b"<Farm$Nmae> |5 <")):
            yield Refusal("translate", 20, words(f"translate {BOTH} --index i {options}"), says, {**GOOD, "i": data}, given)
    for options in ("", "--farm farm"):
        yield Refusal("translate", 20, words(f"translate --index i {options}"), refusal(20, 0, "the index i", advice=GIVE_TABLE),
                      {**GOOD, "i": own}, b"")


def of_translate():
    yield Refusal("translate", 18, words("translate"), refusal(18, 0, "the text"), {}, LONG)
    yield Refusal("translate", 18, words(f"translate {BOTH}"), refusal(18, 0, "the text"), {"farm": LONG, "house": LONG}, LONG)
    yield Refusal("translate", 18, words("translate"), refusal(18, 0, "the text"), {}, b"short\n" + LONG)
    yield from of_tables("translate", [], b"nothing named")
    yield from of_index()
    yield text_is_refused(9, 1, b"a<")
    yield text_is_refused(9, 2, b"ab<a")
    yield text_is_refused(4, 0, b"<4294967296>")
    yield text_is_refused(21, 0, b"<321>", told=[gave("321", 321, 0)])
    yield text_is_refused(21, 3, b"<a><256>|5", f"{BOTH} --allowance 1 --room 0", told=[gave("256", 256, 3)])
    yield text_is_refused(11, 1, b"b<self>", "--table deep", {"deep": DEEP}, ADVICE)
    yield text_is_refused(11, 3, b"<m><m0>", "--table deep --farm farm", {"deep": DEEP, "farm": table(macro(b"m", b"x"))}, ADVICE)
    yield text_is_refused(12, 6, b"<a><a><a>", f"{BOTH} --allowance 2")
    yield text_is_refused(12, 0, b"<a>", f"{BOTH} --allowance=0")
    yield text_is_refused(12, 3, b"<a><m>", "--table t --allowance 1", {"t": table(string(b"a"), macro(b"m", b"x"))})
    yield text_is_refused(7, 1, b"a|5")
    yield text_is_refused(7, 3, b"abc|!|!a")
    yield text_is_refused(7, 0, b"|5m>", "--table t", {"t": table(macro(b"5m", b"|5"))})
    yield from of_macros()
    indexed = {**SHORT, "i": index(string(b"a", b"y"), macro(b"m", b"<A>|"), integer(b"n", 7))}
    yield text_is_refused(10, 3, b"<a><nmae>", f"{BOTH} --index i", indexed)
    yield text_is_refused(7, 1, b"b<m>", f"{BOTH} --index i", indexed, IN_A_MACRO)
    yield text_is_refused(12, 3, b"<n><a>", f"{BOTH} --index i --allowance 1", indexed)
    yield text_is_refused(8, 5, b'"b"  c')
    yield text_is_refused(8, 2, b'  "b')
    row = b"96 kg to <Farm$Nmae>"
    yield Refusal("translate", 10, words(f"translate {BOTH}"), [
        "refused 10, Unknown name, at byte 9 of the text", Shown(row, 9), MEND_NAME, NOTHING_WRITTEN], GOOD, row)
    yield Refusal("translate", 1, words(f"translate {BOTH} --room 16"), no_room(21, 16), GOOD, b"<Farm$Name>: <Quantity> <Unit>")
    yield Refusal("translate", 1, words("translate --room 0"), no_room(1, 0), {}, b"a")
    yield Refusal("translate", None, words("translate --strict"), [by_strict(4, 3), NOTHING_WRITTEN], {}, b"Ash\ndue")


def of_eval():
    def expression(number, place, given, options="", files=SHORT):
        return Refusal("eval", number, words(f"eval {options}") + [given], refusal(number, place, "the expression", given), files)
    yield Refusal("eval", 18, [b"eval", b"1" * (header.LONGEST + 1)], refusal(18, 0, "the expression"))
    yield Refusal("eval", 18, words(f"eval {BOTH}") + [LONG], refusal(18, 0, "the expression"), {"farm": LONG, "house": DAMAGED})
    yield from of_tables("eval", [b"1"])
    yield expression(15, 5, b"1/0+(")
    yield expression(15, 0, b"")
    yield expression(11, 16, b"(" * 17 + b"1")
    yield expression(2, 1, b"&")
    yield expression(3, 2, b"1+37_1")
    yield expression(4, 2, b"1+4294967296")
    yield expression(10, 2, b"1+nmae", BOTH)
    yield expression(17, 4, b"n + a", BOTH)
    yield expression(17, 0, b"a", BOTH, {**SHORT, "house": table(integer(b"A", 1))})
    yield expression(12, 2, b"n+n", f"{BOTH} --allowance 1")
    yield expression(16, 2, b"n MOD (1-1)", BOTH)
    yield expression(16, 1, b"1/0")
    yield Refusal("eval", None, [b"eval", b"--strict", b"1\n2"],
                  [by_strict(2, 1, "the end of the expression"), NOTHING_WRITTEN])


def of_convert():
    for call in ("0", "&29", "&CF", "&E9", "&C1", "&400D8", "4294967295"):
        yield Refusal("convert", 14, words(f"convert {call} 5"), UNKNOWN_CALL)
    yield Refusal("convert", 14, words("convert --room 0 0 5"), UNKNOWN_CALL)
    yield Refusal("convert", 1, words("convert --room 7 &D8 1048576"), no_room(8, 7))
    for call in ("decimal", "&28", "&20028"):
        yield Refusal("convert", 1, words(f"convert --room 6 {call} 1048576"), no_room(7, 6))


def of_read():
    def number(refused_by, place, given, *options):
        return Refusal("read", refused_by, [b"read", *words(options), given], refusal(refused_by, place, "the text", given))
    yield Refusal("read", 18, [b"read", b"1" + LONG], refusal(18, 0, "the text"))
    yield number(3, 0, b"37_1")
    yield number(2, 2, b" &G")
    yield number(4, 1, b" 4294967296")
    yield number(5, 3, b" 12kg", "--whole")
    yield number(6, 2, b"  12", "--limit", "11")
    yield Refusal("read", None, words("read --strict 12kg"), [by_strict(2, 2, "the number"), NOTHING_WRITTEN])


def of_date():
    for data, at in ((b"", ""), (bytes(4), ""), (bytes(6), ""), (bytes(9), "--at 5"), (bytes(9), "--at 9"),
                     (bytes(9), "--at=4294967295")):
        yield Refusal("date", 18, words(f"date %DY --from times {at}"), refusal(18, 0, "the time"), {"times": data})
    yield Refusal("date", 18, [b"date", LONG, TIME.encode()], refusal(18, 0, "the format"))
    yield Refusal("date", 19, words(f"date %DY.%mn.%12 {TIME}"), refusal(19, 4, "the format", b"%DY.%mn.%12"))
    yield Refusal("date", 19, words("date 100% --from times"), refusal(19, 3, "the format", b"100%"), {"times": bytes(5)})
    yield Refusal("date", 1, words(f"date --room 10 %CE%YR-%MN-%DY {TIME}"), no_room(11, 10))


def of_one_table(command, *rest):
    """18 and 13 of a table that is there."""
    for data, number, place in ((LONG, 18, 0), (DAMAGED, 13, 7), (b"V", 13, 0), (table(string(b"a"), string(b"A")), 13, 6),
                                (table(*MANY) + b"V", 13, len(table(*MANY))),
                                (b"VR\3\1\0a", 13, 0), (b"VR\1\1\3abcd", 13, 0), (b"VR\0\1\0\x22", 13, 0), (b"VR\0\0\0", 13, 0)):
        yield Refusal(command, number, [*words(f"{command} t"), *rest], refusal(number, place, "the table t"), {"t": data})
        if command in ("table check", "table show", "table index"):
            yield Refusal(command, number, [*words(f"{command} -"), *rest], refusal(number, place, "the table -"), {}, data)


def of_set():
    yield from of_one_table("table set", b"b", b"string", b"x")
    three, full = table(*SEVERAL), table(*FULL)
    for data, name, kind, value, number, place in (
            (three, b"", "string", b"x", 13, len(three)), (three, b"n" * 33, "string", b"x", 13, len(three)),
            (three, b"a b", "string", b"x", 13, len(three)), (three, b"a\\x00b", "integer", b"1", 13, len(three)),
            (three, b"<a>", "string", b"x", 13, len(three)), (three, b'a"', "macro", b"x", 13, len(three)),
            (three, b"\\x7f", "string", b"x", 13, len(three)), (three, b"\\x80", "string", b"x", 13, len(three)),
            (three, b"c", "string", b"v" * 256, 13, len(three)),
            (three, b"TWO", "string", b"v" * 256, 13, len(table(SEVERAL[0]))),
            (three, b"two", "macro", b"\\x00" * 256, 13, len(table(SEVERAL[0]))),
            (table(*MANY), b"new", "string", b"x", 13, len(table(*MANY))),
            (full, b"new", "string", b"", 18, 0), (full, b"GROWS", "string", b"v" * 6, 18, 0)):
        yield Refusal("table set", number, [*words("table set t"), name, kind.encode(), value],
                      refusal(number, place, "the table t"), {"t": data})


def of_unset():
    yield from of_one_table("table unset", b"a")
    for name in (b"four", b"", b"on", b"one1", b"n" * 33, b"\\x00", b"a b"):
        yield Refusal("table unset", 10, [*words("table unset t"), name], NOT_IN_TABLE, {"t": table(*SEVERAL)})
    yield Refusal("table unset", 10, words("table unset t a"), NOT_IN_TABLE, {"t": b""})


def of_make():
    def made(number, place, given, line=4):
        advice = re.compile(rf".*\bline {line}\b.*") if number == 13 else ADVICE
        says = refusal(number, place, "the table new", advice=advice)
        return Refusal("table make", number, words("table make new"), says, {}, given)
    lines = text(*SEVERAL)
    place = len(table(*SEVERAL))
    yield made(13, place, lines + b"ONE integer 5\n")
    yield made(13, place, lines + b"n" * 33 + b" string x\n")
    yield made(13, place, lines + b'a" string x\n' + b"four string x\n")
    yield made(13, place, lines + b"\\x20 string x\n")
    yield made(13, place, lines + b"four string " + b"v" * 256 + b"\n")
    yield made(13, place, lines + b"four macro " + b"\\x07" * 256)
    yield made(13, place, b"# a\r\n\n" + lines + b"\rONE integer 5\n", line=7)
    yield made(13, len(table(*MANY)), text(*MANY, string(b"new")), line=MOST_RECORDS + 1)
    yield made(18, 0, text(*filled(header.LONGEST + 1)))


def of_building():
    yield from of_one_table("table index")
    yield from of_one_table("table index", b"--room", b"0")
    for some, need in ((FARM, 4), (SEVERAL[:1], 2), (MANY, 2 * MOST_RECORDS)):
        for room in {0, 1, need - 1}:
            yield Refusal("table index", 1, words(f"table index t --room {room}"), no_room(need, room), {"t": table(*some)})


def every_refusal():
    for some in (of_translate(), of_eval(), of_convert(), of_read(), of_date(), of_one_table("table check"),
                 of_one_table("table show"), of_set(), of_unset(), of_make(), of_building()):
        yield from some


def as_line(one):
    """The lines that a refused text has with --lines, as the second line of a file whose first one is empty."""
    first = one.says[0]
    if one.number == 1:
        return [f"{first}, in line 2", *one.says[1:]]
    return [entry.replace("the text", "line 2") if isinstance(entry, str) else entry for entry in one.says]


def tried(one):
    """The cases of a refusal."""
    def again(*more, files=None, **how):
        return refused([*one.args, *more], one.says, files={**one.files, **(files or {})}, **{"given": one.given, **how})
    yield again()
    if tuple(one.command.split()) in WITH_OUTPUT:
        yield again("-o", "new")
        yield again("-o", "old", files={"old": b"old"}, modes={"old": 0o604})
    if one.command == "table make":
        yield again(files={"new": b"old"}, modes={"new": 0o604})
        yield again("text", files={"text": one.given}, given=b"")
    if one.command == "translate":
        yield again("text", files={"text": one.given}, given=b"")
    if one.command == "translate" and one.number and b"\n" not in one.given and one.files.get("farm") != LONG:
        of_text = one.number == 1 or "the text" in one.says[0]
        yield refused([*one.args, "--lines", "-o", "new"], as_line(one) if of_text else one.says, files=one.files,
                      given=b"\n" + one.given + b"\n" if of_text else one.given)


def covered(trial):
    """The list has every number that the header has for each command's function, and no other."""
    seen = {command: set() for command in FUNCTIONS}
    for one in every_refusal():
        seen[one.command].add(one.number)
    for command, function in FUNCTIONS.items():
        trial.expect(f"numbers of {command}", set(header.REFUSES_BY[function]) - NEVER.get(command, set()), seen[command] - {None})
    trial.expect("commands", sorted(" ".join(name) for name in ALL), sorted(FUNCTIONS))
    numbers = set().union(*header.REFUSES_BY.values())
    trial.expect("every number but 0, accepted", set(range(1, len(header.WORDS))), numbers)


def cases():
    yield Case("the list of refusals", covered)
    for one in every_refusal():
        yield from tried(one)
