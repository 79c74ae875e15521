"""`nos translate --lines`: each line a text of its own, its end kept as it stood; all refused lines are reported."""

import random
import re

from .header import WORDS
from .messages import ADVICE, NOTHING_WRITTEN, Shown, Something, after, by_strict, no_room, refusal
from .trial import accepted, refused
from .variables import macro, string, table

TABLE = {"t": table(string(b"a", b"x"), macro(b"m", b"<a><a>"), string(b"ends", b"1\r\n2\n"))}
# pieces of a line, and what each gives
PIECES = [(b"Lower Ash", b"Lower Ash"), (b"<65>", b"A"), (b"|J", b"\n"), (b"|M", b"\r"), (b"|@", b"\0"), (b"<a>", b"x"),
          (b"<m>", b"xx"), (b"||", b"|"), (b"\xff\x80", b"\xff\x80"), (b"<ends>", b"1\r\n2\n"), (b"a b", b"a b"), (b"", b""),
          (b'a"b', b'a"b')]
LINE_ENDS = [b"\n", b"\r", b"\r\n"]


def of_ends():
    """Line ends are kept byte by byte."""
    for given in (b"", b"\n", b"\r", b"\r\n", b"\n\r", b"\n\n", b"a", b"a\n", b"a\r", b"a\r\n", b"a\n\n", b"a\nb", b"a\r\n\r\nb",
                  b"a\n\r\n\rb\r", b"\na", b"\r\ra", b"a\r\nb\rc\n\nd\n\r\ne\r\r\nf"):
        for args in ("translate --lines", "translate --lines --strict"):
            yield accepted(args, given, given=given)
        yield accepted("translate --lines text -o out", makes={"out": given}, files={"text": given})


def of_texts():
    """Each line is a text: its spaces and quotes, its allowance, its room and its flags."""
    yield accepted("translate --lines", b'a\na b\r\n"\nc', given=b'  a\n"a b"  \r\n""""\nc')
    yield accepted("translate --lines --quote-plain --bar-plain", b'"|a\n"', given=b'"|a\n"')
    yield accepted("translate --lines --table t --allowance 3", b"xxx\nxxx\nxxx\n", given=b"<a><a><a>\n" * 3, files=TABLE)
    yield accepted("translate --lines --farm t --allowance 3", b"xx\n" * 50, given=b"<m>\n" * 50, files=TABLE)
    yield accepted("translate --lines --room 3", b"abc\nabc\nab", given=b"abc\nabc\nab")
    yield accepted("translate --lines", b"1\n" * 70000, given=b"1\n" * 70000)


def of_ends_across_reads():
    """13 and 10 are one end wherever a read stops: here the 13 is the last byte of each 4,096."""
    given = b"a" * 4095 + b"\r\n" + (b"a" * 4094 + b"\r\n") * 63
    assert given[4095::4096] == b"\r" * 64
    yield accepted("translate --lines text", given, files={"text": given})
    yield refused("translate --lines text", refusal(9, 0, "line 65", b"<"), files={"text": given + b"<"})
    yield refused("translate --lines", refusal(9, 0, "line 65", b"<"), given=given + b"<")
    comments = b"#" + given[1:].replace(b"\na", b"\n#")
    yield refused("table make t text", [Something("nos: line 65: ")], files={"text": comments + b"a"})


def random_lines(seed, count):
    """Lines of pieces with ends of all kinds, and their translation."""
    chance = random.Random(seed)
    given, out = [], []
    for _ in range(count):
        pieces = [chance.choice(PIECES) for _ in range(chance.randrange(6))]
        end = chance.choice(LINE_ENDS)
        given += [piece for piece, _ in pieces] + [end]
        out += [gives for _, gives in pieces] + [end]
    last = chance.randrange(2)  # a last line with its end, or without
    return b"".join(given[:len(given) - last]), b"".join(out[:len(out) - last])


def of_random_lines():
    for seed in range(20):
        given, out = random_lines(seed, 200)
        yield accepted("translate --lines --table t", out, given=given, files=TABLE)
    given, out = random_lines("large", 300000)
    assert len(given) > 2000000
    yield accepted("translate --lines --table t text -o out", makes={"out": out}, given=b"", files={**TABLE, "text": given})
    yield accepted("translate --lines --table t", out, given=given, files=TABLE)
    given += b"" if given.endswith(b"\n") else b"\n"
    last = 1 + len(re.findall(rb"\r\n|\r|\n", given))
    yield refused("translate --lines --table t -o out", refusal(9, 0, f"line {last}", b"<"), given=given + b"<", files=TABLE)


def reported(refused_lines):
    """What is said of several refused lines: (line number, its bytes, refusal number, place)."""
    says = []
    for line, data, number, place in refused_lines:
        says += [f"refused {number}, {WORDS[number]}, at byte {place} of line {line}", Shown(data, place), ADVICE]
    return [*says, NOTHING_WRITTEN]


def of_refused_lines():
    """Each is reported, with its number and the place in that line; nothing is written at all."""
    given = b"good\na<\r\nalso good\r|5\n\n  <nmae>\n<4294967296>\n\"open"
    says = reported([(2, b"a<", 9, 1), (4, b"|5", 7, 0), (6, b"  <nmae>", 10, 2), (7, b"<4294967296>", 4, 0), (8, b'"open', 8, 0)])
    yield refused("translate --lines", says, given=given)
    yield refused("translate --lines -o out text", says, files={"text": given})
    yield refused("translate --lines -o old text", says, files={"text": given, "old": b"old"})
    yield refused("translate --lines", reported([(1, b"<", 9, 0)]), given=b"<\n" + b"good\n" * 30000)
    yield refused("translate --lines", reported([(30001, b"<", 9, 0)]), given=b"good\n" * 30000 + b"<")
    yield refused("translate --lines", reported([(line, b"a<", 9, 1) for line in range(1, 1001)]), given=b"a<\n" * 1000)
    yield refused("translate --lines --table t --allowance 2", reported([(2, b"<m>", 12, 0)]), given=b"<a>\n<m>\n<a>", files=TABLE)


def of_no_room():
    """The room is for each line."""
    yield refused("translate --lines --room 3", no_room(4, 3, ", in line 2"), given=b"abc\nabcd\nab\n")
    two_lines = [*no_room(2, 0, ", in line 1")[:-1], *no_room(1, 0, ", in line 3")]
    yield refused("translate --lines --room 0", two_lines, given=b"ab\r\n\n.")


def of_bytes_after():
    """A zero byte before a line's end, or a space with --space-ends, is reported of each line."""
    def of_lines(say, *some):
        return [say(count, place, f"the end of line {line}") for line, place, count in some]
    given, lost = b"good\nab\0cd\r\nx\0\nend\n\0", [(2, 2, 3), (3, 1, 1), (5, 0, 1)]
    yield accepted("translate --lines", b"good\nab\r\nx\nend\n", of_lines(after, *lost), given=given)
    yield refused("translate --lines --strict", [*of_lines(by_strict, *lost), NOTHING_WRITTEN], given=given)
    given, lost = b"Lower Ash\n  wet\n\"a b\" c\nx \n", [(1, 5, 4), (3, 5, 2), (4, 1, 1)]
    yield accepted("translate --lines --space-ends", b"Lower\nwet\na b\nx\n", of_lines(after, *lost), given=given)
    yield refused("translate --lines --space-ends --strict -o out", [*of_lines(by_strict, *lost), NOTHING_WRITTEN], given=given)


def of_tables():
    """A table that is refused is refused once, and not for each line; and where there is no line, too."""
    for args, of in (("--table t", "the house table t"), ("--farm t", "the farm's table t")):
        for given in (b"a\nb\nc\n", b"", b"\n"):
            yield refused(f"translate --lines {args}", refusal(13, 0, of), given=given, files={"t": b"V"})
            yield refused(f"translate --lines {args}", refusal(18, 0, of), given=given, files={"t": b"V" * 65536})


def cases():
    for some in (of_ends, of_texts, of_ends_across_reads, of_random_lines, of_refused_lines, of_no_room, of_bytes_after,
                 of_tables):
        yield from some()
