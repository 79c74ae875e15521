"""Tables as text: what `nos table show` writes, what `nos table make` reads, one out of the other, and mistakes by their line."""

import random
import re

from . import header, variables
from .commands import TOO_LOW
from .messages import NOTHING_WRITTEN, good
from .trial import Case, accepted, refused
from .variables import FARM, KINDS, LONGEST_NAME, LONGEST_VALUE, NAME_BYTES, Variable, integer, macro, string, table

# the text that docs/NOS.md has, and its variables
MANUAL = b"""Farm$Name string Lower Ash
Quantity integer 1048576
Heading macro <Farm$Name>: <Quantity> <Unit>
Remark string
Bell string \\x07 and a \\\\
"""
MANUALS = [*FARM, macro(b"Heading", b"<Farm$Name>: <Quantity> <Unit>"), string(b"Remark"), string(b"Bell", b"\x07 and a \\")]


def one_way(shown):
    """A text with the letters of hex digits as capitals, and no space before an empty value: docs/NOS.md leaves both free."""
    shown = re.sub(rb"\\(\\|x..)", lambda found: found[0] if found[0] == b"\\\\" else b"\\x" + found[1][1:].upper(), shown)
    return re.sub(rb"^(\S+ (?:string|macro)) $", rb"\1", shown, flags=re.M)


def both_ways(*some):
    """A case: these variables are shown by the rules, and what was shown is made into the same bytes."""
    def work(trial):
        trial.write({"t": table(*some)})
        ran = trial.run("table show t")
        trial.judge(ran, 0, ran.out)
        trial.expect("the text", variables.text(*some), one_way(ran.out))
        trial.holds("table make again", 0, makes={"again": table(*some)}, given=ran.out)
        trial.holds("table show -o out t", 0, makes={"out": ran.out})
        trial.holds("table make anew out", 0, makes={"anew": table(*some)})
    return Case(f"nos table show and make, {len(some)} variables, the first {some[0] if some else None}", work)


def random_variables(chance, count):
    """So many variables with names and values of all byte values; no two names are equal."""
    some = {}
    while len(some) < count:
        name = bytes(chance.choices(NAME_BYTES, k=chance.choice((1, 2, 5, LONGEST_NAME))))
        kind = chance.choice(KINDS)
        length = 4 if kind == "integer" else chance.choice((0, 1, 2, 3, 20, LONGEST_VALUE))
        value = bytes(chance.choices(b" \\x" if chance.random() < 0.2 else bytes(range(256)), k=length))
        some.setdefault(name.lower(), Variable(name, kind, value))
    return list(some.values())


def spelled(chance, data, first=False):
    """Bytes in one of the ways that `make` reads them. The first byte of a line is not a bare "#"."""
    def one(byte, at):
        bare = byte not in b"\\\n\r" and not (first and (byte == ord(" ") or at == 0 and byte == ord("#")))
        hexed = (b"\\x%02x" if chance.random() < 0.5 else b"\\x%02X") % byte
        ways = [hexed] + [bytes([byte])] * 3 * bare + [b"\\\\"] * (byte == ord("\\"))
        return chance.choice(ways)
    return b"".join(one(byte, at) for at, byte in enumerate(data))


def spelled_integer(chance, value):
    """An integer in one of the ways that a number is written, as itself or as its 32-bit pattern."""
    number = int.from_bytes(value, "little", signed=True)
    if number < 0 and chance.random() < 0.5:
        number %= 2**32
    magnitude = abs(number)
    written = chance.choice(("{}", "&{:x}", "&{:X}", "2_{:b}", "8_{:o}", "00{}")).format(magnitude)
    return (b"-" if number < 0 else b"") + written.encode()


def spelled_text(chance, some):
    """A text for these variables, with every freedom that there is."""
    lines = []
    for name, kind, value in some:
        lines += [chance.choice((b"", b"# nothing", b"#a string b", b"#"))] * chance.randrange(2)
        written = spelled_integer(chance, value) if kind == "integer" else spelled(chance, value)
        gap = b" " if written or chance.random() < 0.5 else b""
        lines.append(b" ".join([spelled(chance, name, first=True), kind.encode()]) + gap + written)
    ends = [chance.choice((b"\n", b"\r", b"\r\n")) for _ in lines]
    if ends and chance.random() < 0.5:
        ends[-1] = b""
    return b"".join(line + end for line, end in zip(lines, ends))


def of_the_manual():
    yield accepted("table make t", makes={"t": table(*MANUALS)}, given=MANUAL)
    yield accepted("table make t text", makes={"t": table(*MANUALS)}, files={"text": MANUAL, "t": b"old"})
    yield both_ways(*MANUALS)
    yield both_ways()


def of_values():
    """Values and names that need some care."""
    for value in (b" ", b"  ", b"   ", b" a", b"a ", b" a b ", b"\\", b"\\x41", b"#", b"\n", b"\r\n", b"\t", b"\x7f", b"\x80\xff",
                  b"\0", b"string", b" \\ "):
        yield both_ways(string(b"a", value), macro(b"b", value))
    for name in (b"#", b"##", b"a#", b"#a", b"\\", b"\\x41", b"a\\", b"string", b"!~", b"a" * 32, b"1", b"-5", b"|", b"'"):
        yield both_ways(string(name, b"x"), integer(b"other", 1))
    yield both_ways(*(integer(b"n%d" % number, number) for number in (0, 1, -1, 2**31 - 1, -2**31, 255, 65536)))
    yield both_ways(string(b"all", bytes(range(255))), macro(b"last", bytes(range(1, 256))))
    yield both_ways(*(string(b"n%d" % byte, bytes([byte])) for byte in range(256)))


def of_random_tables():
    for seed in range(30):
        chance = random.Random(seed)
        some = random_variables(chance, chance.choice((1, 2, 5, 20, 60)))
        yield both_ways(*some)
        given = spelled_text(chance, some)
        yield accepted("table make t", makes={"t": table(*some)}, given=given)
        yield accepted("table check -", good(len(some), len(table(*some))), given=table(*some))


def of_lines():
    """Which lines there are, and what stands in them."""
    one, two = string(b"a", b"x"), string(b"b", b"y")
    for given in (b"a string x\nb string y\n", b"a string x\nb string y", b"a string x\rb string y\r",
                  b"a string x\r\nb string y\r\n", b"\n\na string x\n\n\nb string y\n\n",
                  b"# a string z\na string x\r#\r\nb string y\n# the end", b"\r\r\na string x\n\rb string y"):
        yield accepted("table make t", makes={"t": table(one, two)}, given=given)
    for given in (b"", b"\n", b"\r\n\r", b"# nothing", b"#\n#\n"):
        yield accepted("table make t", makes={"t": b""}, given=given)
    for given, value in ((b"a string ", b""), (b"a string", b""), (b"a string  ", b" "), (b"a string  x ", b" x "),
                         (b"a string x # y", b"x # y"), (b"a string \0\xff\t", b"\0\xff\t"), (b"a string string", b"string"),
                         (b"a string \\x0a\\x0D\\\\n", b"\n\r\\n")):
        yield accepted("table make t", makes={"t": table(string(b"a", value))}, given=given)
    for given, number in ((b"5", 5), (b"-5", -5), (b"&ff", 255), (b"-&10", -16), (b"-2_101", -5), (b"4294967295", -1),
                          (b"&FFFFFFFF", -1), (b"2147483648", -2**31), (b"-2147483648", -2**31), (b"0", 0), (b"-0", 0)):
        yield accepted("table make t", makes={"t": table(integer(b"a", number))}, given=b"a integer " + given)
    yield accepted("table make t", makes={"t": table(string(b"#a", b"x"), string(b"A\\b", b""))},
                   given=b"\\x23a string x\n\\x41\\\\\\x62 string\n")


MISTAKES = [
    b"b", b"b ", b"b x", b"b  string x", b"b String x", b"b strings", b"b str x", b"b string\tx", b"b\tstring x", b"b string\\x20x",
    b"b string \\", b"b string \\q", b"b macro \\x", b"b macro \\x0", b"b string \\x0g", b"b string \\xg0", b"b string \\n",
    b"b string \\X41", b"\\q string x", b"b\\ string x", b"b integer", b"b integer ", b"b integer x", b"b integer 5x",
    b"b integer  5", b"b integer 5 ", b"b integer +5", b"b integer --5", b"b integer - 5", b"b integer 4294967296", b"b integer 0x10",
    b"b integer &", b"b integer 37_1", b"b integer \\x35", *(b"b integer " + word.encode() for word in TOO_LOW),
]


def mistake(line):
    """What is said of one mistake."""
    return [re.compile(rf"line {line}: .*\w.*"), NOTHING_WRITTEN]


def of_mistakes():
    """Each is reported by its line, whatever the lines before it end with, and no file is made or changed."""
    for before, line in ((b"", 1), (b"a string x\n", 2), (b"# a\r\n\r\na string x\r", 4), (b"\n\r\n\r\r\n", 5)):
        for wrong in MISTAKES if line in (1, 4) else MISTAKES[::6]:
            for end in (b"", b"\nc string z\n"):
                yield refused("table make new", mistake(line), given=before + wrong + end)
    no_kind = ["line 3: no kind: string, integer or macro", NOTHING_WRITTEN]
    yield refused("table make t", no_kind, given=b"a string x\n\nb", files={"t": b"old"})
    yield refused("table make t text", no_kind, files={"text": b"a string x\r\n#\nb strong y\n", "t": b"old"}, modes={"t": 0o604})
    yield refused("table make t", mistake(1), given=b"a" * 100000)
    # all of them are reported, and nothing else: the same name twice, of which the library would have to be asked, is not
    yield refused("table make t", [*mistake(1)[:-1], *mistake(4)[:-1], *mistake(5)],
                  given=b"a\nb string x\r\nB string x\r\nc integer x\rd string \\q\ne string y\n")


def of_long_lines():
    """A number may have as many digits as `nos read` takes. A line is never cut: what is too long is a mistake."""
    for digits in (65520, 65524, 65525, 65526, 65534, 65535, 65536, 65537, 70000, 200000):
        yield Case(f"nos table make, a number of {digits} digits", lambda trial, digits=digits: whole_number(trial, digits))


def whole_number(trial, digits):
    """A number of so many digits, all zeros but for the last two, is read whole, or it is a mistake in its line."""
    ran = trial.run("table make t", given=b"# long\na integer " + b"57".zfill(digits) + b"\n")
    if digits > header.LONGEST or ran.status == 1:
        trial.judge(ran, 1, says=mistake(2))
    trial.expect("the table", None if ran.status == 1 else table(integer(b"a", 57)), trial.read("t"))


def cases():
    for some in (of_the_manual, of_values, of_random_tables, of_lines, of_mistakes, of_long_lines):
        yield from some()


