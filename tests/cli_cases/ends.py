"""Bytes after an end: which are reported, with their count and place; the refusal by --strict; and what is shown of a text."""

from .messages import NOTHING_WRITTEN, SAY_LINES, Shown, Something, after, by_strict, refusal
from .trial import accepted, refused
from .variables import macro, table

# a text, the place of its end, and whether the bytes from there on are reported
ENDS = [
    (b"Ash", 3, False), (b"Ash\n", 3, False), (b"Ash\r", 3, False), (b"Ash\r\n", 3, False), (b"Ash\0", 3, False),
    (b"", 0, False), (b"\n", 0, False), (b"\r\n", 0, False), (b"\0", 0, False), (b"Ash  ", 5, False), (b"Ash \n", 4, False),
    (b"Ash\n\n", 3, True), (b"Ash\n\r", 3, True), (b"Ash\r\r", 3, True), (b"Ash\r\n\n", 3, True), (b"Ash\r\n\r\n", 3, True),
    (b"Ash\0\0", 3, True), (b"Ash\0\n", 3, True), (b"Ash\n\0", 3, True), (b"Ash\r\0", 3, True), (b"Ash\r\n\0", 3, True),
    (b"Ash\ndue", 3, True), (b"Ash\rdue", 3, True), (b"Ash\r\ndue", 3, True), (b"Ash\0due", 3, True), (b"Ash\n ", 3, True),
    (b"\nAsh", 0, True), (b"\0\0", 0, True), (b"Ash\n" + b"due\n" * 10000, 3, True), (b"Ash \ndue", 4, True),
]
SPACES = [
    (b"Ash", b"Ash", 3, False), (b"  Ash", b"Ash", 5, False), (b"Ash\n", b"Ash", 3, False), (b"Ash ", b"Ash", 3, True),
    (b"Ash due", b"Ash", 3, True), (b"Ash \n", b"Ash", 3, True), (b'"a b"', b"a b", 5, False), (b'"a b" c', b"a b", 5, True),
    (b'"a b"\r\n', b"a b", 5, False), (b" a b c", b"a", 2, True),
]


def of_texts():
    for given, place, reported in ENDS:
        count = len(given) - place
        says = [after(count, place), SAY_LINES] if reported else []
        yield accepted("translate", given[:place], says, given=given)
        yield accepted("translate text", given[:place], says, files={"text": given})
        if reported:
            yield refused("translate --strict", [by_strict(count, place), NOTHING_WRITTEN], given=given)
        else:
            yield accepted("translate --strict", given[:place], given=given)
    yield accepted("translate", b"a" * 21, ["15 bytes after the end of the text, at byte 21, were not translated", SAY_LINES],
                   given=b"a" * 21 + b"\n" + b"b" * 14)
    yield refused("translate --strict -o out",
                  ["refused by --strict: 15 bytes after the end of the text, at byte 21", NOTHING_WRITTEN],
                  given=b"a" * 21 + b"\n" + b"b" * 14)
    # bytes after the end of a macro's value are none of the text's
    yield accepted("translate --strict --table t", b"Ash", given=b"<m>\n", files={"t": table(macro(b"m", b"Ash\ndue"))})
    yield accepted("translate", b"Ash", [after(4, 7), SAY_LINES], given=b'"Ash"  \ndue')


def of_spaces():
    """With --space-ends."""
    for given, out, place, reported in SPACES:
        count = len(given) - place
        yield accepted("translate --space-ends", out, [after(count, place), SAY_LINES] if reported else [], given=given)
        if reported:
            yield refused("translate --strict --space-ends", [by_strict(count, place), NOTHING_WRITTEN], given=given)
        else:
            yield accepted("translate --space-ends --strict", out, given=given)


def of_expressions():
    of = "the end of the expression"
    for given, place, reported in ((b"1+1\n", 3, False), (b"1+1\r\n", 3, False), (b"1+1 ", 4, False), (b"1+1\n2", 3, True),
                               (b"1+1 \r\n\n", 4, True)):
        count = len(given) - place
        yield accepted(["eval", given], "2\n", [after(count, place, of, "evaluated")] if reported else [])
        if reported:
            yield refused(["eval", "--strict", given], [by_strict(count, place, of), NOTHING_WRITTEN])
        else:
            yield accepted(["eval", given, "--strict"], "2\n")


def of_numbers():
    for given, value, place in ((b"12kg", 12, 2), (b" 12 kg", 12, 3), (b"&FFx", 255, 3), (b"2_1102", 6, 5), (b"1.5", 1, 1),
                                (b"1,024", 1, 1), (b"12  ", 12, 2), (b"12\xff\xfe", 12, 2)):
        count = len(given) - place
        yield accepted(["read", given], f"{value}\n", [after(count, place, "the number", "read")])
        yield refused(["read", given, "--strict"], [by_strict(count, place, "the number"), NOTHING_WRITTEN])
    yield accepted("read --strict 12", "12\n")
    yield accepted("read --strict ' &Ff'", "255\n")


def of_refused_texts():
    """The line of the text that the refusal is in, and no other, is shown."""
    for given in (b"a<\n", b"a<\r\n", b"a<\nmore", b"a<\rmore<"):
        yield refused("translate", ["refused 9, Bad reference, at byte 1 of the text", Shown(b"a<", 1), Something()], given=given)
    yield refused(["eval", "1+\n2"], ["refused 15, Bad expression, at byte 2 of the expression", Shown(b"1+", 2), Something()])


def of_long_lines():
    """Of a long line the part around the place is shown."""
    for length, place in ((72, 0), (72, 40), (72, 71), (73, 0), (73, 36), (73, 72), (74, 1), (100, 0), (100, 10), (100, 50),
                          (100, 90), (100, 99), (1000, 35), (1000, 36), (1000, 37), (1000, 500), (1000, 930), (1000, 964),
                          (1000, 999), (60000, 30000), (65535, 65534)):
        digits = (b"0123456789abcdefghijklmnopqrstuvwxyzABCDEFGHIJKLMNOPQRSTUVWXYZ+-" * (length // 64 + 1))[:length]
        given = digits[:place] + b"<" + digits[place + 1:]
        yield refused("translate", refusal(9, place, "the text", given), given=given)
    for length in (71, 72, 73, 100, 1000):
        given = b"1+" * (length // 2) + b" " * (length % 2)
        yield refused(["eval", given], refusal(15, length, "the expression", given))
    for width in (10, 80, 300):
        given = bytes(range(128, 128 + width % 128)) * 3 + b"|\x01" + b"\t" * width
        yield refused("translate", refusal(7, given.index(b"|"), "the text", given), given=given)


def cases():
    for some in (of_texts, of_spaces, of_expressions, of_numbers, of_refused_texts, of_long_lines):
        yield from some()
