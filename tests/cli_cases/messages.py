"""What docs/NOS.md has the command say on standard error, and whether the bytes that stand there say it.

What is expected is a list with an entry for each line: a str, the line after "nos: " to the letter; a compiled pattern for that; a
`Shown`, which takes two lines; or `Something`, which takes all lines that are left.
"""

import re
from typing import NamedTuple

from .header import WORDS

WIDEST = 72  # bytes of a line that are shown
LEFT_OUT = "..."
ADVICE = re.compile(r".*\w.*")
IN_A_MACRO = re.compile(r"in the macro that is named there, or in one that it names: .*\w.*")
NOT_IN_A_MACRO = re.compile(r"(?!in the macro).*\w.*")
NOTHING_WRITTEN = "nothing was written"


def readable(data):
    """A line as the command shows it: each byte one column, a "?" for one that is no printable ASCII."""
    return "".join(chr(byte) if 32 <= byte <= 126 else "?" for byte in data)


class Shown(NamedTuple):
    """Part of a line of a text, and below it a caret under a place in that line."""

    line: bytes
    place: int

    def fault(self, upper, lower):
        """What is wrong with these two lines, or None."""
        caret = re.fullmatch(r" {4}( *)\^", lower)
        if not upper.startswith(" " * 4) or not caret:
            return f"four spaces, the text and a caret below it; seen {upper!r} and {lower!r}"
        whole, part, column = readable(self.line), upper[4:], len(caret[1])
        if len(whole) <= WIDEST:
            expected = (whole, self.place)
            return None if (part, column) == expected else f"{expected}; seen {(part, column)}"
        return self._fault_of_part(whole, part, column)

    def _fault_of_part(self, whole, part, column):
        """The same of a line that is too long to be shown whole."""
        before = LEFT_OUT if part.startswith(LEFT_OUT) else ""
        after = LEFT_OUT if part.endswith(LEFT_OUT) else ""
        middle = part[len(before):len(part) - len(after)]
        start = self.place - (column - len(before))
        end = start + len(middle)
        fits = (0 < len(middle) <= WIDEST and 0 <= start <= self.place <= end and whole[start:end] == middle
                and bool(before) == (start > 0) and bool(after) == (end < len(whole)))
        wanted = f"at most {WIDEST} bytes around byte {self.place} of {len(whole)}"
        return None if fits else f"{wanted}; seen {part!r}, caret at {column}"


class Something(NamedTuple):
    """Lines of any words, with this one in them."""

    word: str = ""

    def fault(self, lines):
        """What is wrong with these lines, or None."""
        if not lines or not all(re.fullmatch(r"nos: .*\w.*", line) for line in lines):
            return f"some words after `nos: `; seen {lines}"
        return None if self.word in "\n".join(lines) else f"{self.word} is not in {lines}"


def refusal(number, place, of, shown=None, advice=ADVICE, told=()):
    """The lines of a refusal. `shown` is the line that the place is in, where that is to be shown; `told` is what is told of the old
    rule, where the number is 21."""
    lines = [f"refused {number}, {WORDS[number]}, at byte {place} of {of}"]
    if shown is not None:
        lines.append(Shown(shown, place))
    return [*lines, advice, *told, NOTHING_WRITTEN]


def gave(content, value, place, of="the text"):
    """The line that tells which byte a number over 255 gave before 1.6.0."""
    byte = value % 256
    character = f', "{chr(byte)}"' if 33 <= byte <= 126 else ""
    return f"before 1.6.0 <{content}>, at byte {place} of {of}, gave byte {byte}{character}"


def counted(number, one, more):
    """A count with its word."""
    return f"{number} {one if number == 1 else more}"


def good(count, size):
    """The answer of `nos table check`; docs/NOS.md has no form for one variable, so either word will do for that."""
    return re.compile(f"good: {count} variable{'s?' if count == 1 else 's'}, {counted(size, 'byte', 'bytes')}\n".encode())


def no_room(need, room, of=""):
    """The lines of a refusal by 1."""
    needed = counted(need, "byte is", "bytes are")
    first = f"refused 1, {WORDS[1]}: {needed} needed, and there was room for {room}{of}"
    return [first, f"ask again with --room {need}", NOTHING_WRITTEN]


def after(count, place, of="the end of the text", verb="translated"):
    """The line that reports bytes after an end."""
    return f"{counted(count, 'byte', 'bytes')} after {of}, at byte {place}, {'was' if count == 1 else 'were'} not {verb}"


def by_strict(count, place, of="the end of the text"):
    """The line that refuses these by --strict."""
    return f"refused by --strict: {counted(count, 'byte', 'bytes')} after {of}, at byte {place}"


SAY_LINES = "to translate every line, say --lines"


def fault(says, err):
    """What is wrong with these bytes of standard error, or None."""
    lines = err.decode("latin-1").split("\n")
    if lines.pop():
        return "the last line has no end"
    at = 0
    for entry in says:
        # the lines behind an entry's own are left out, since a refusal can have thousands
        taken, wrong = _take(entry, lines[at:] if isinstance(entry, Something) else lines[at:at + 2])
        if wrong:
            return f"line {at + 1}: {wrong}"
        at += taken
    return f"line {at + 1}: no such line" if at < len(lines) else None


def _take(entry, lines):
    """How many of these lines an entry takes, and what is wrong with them, or None."""
    if isinstance(entry, Something):
        return len(lines), entry.fault(lines)
    if isinstance(entry, Shown):
        return 2, entry.fault(*lines[:2]) if len(lines) > 1 else f"{entry} is missing"
    if not lines:
        return 1, f"{entry!r} is missing"
    if isinstance(entry, str):
        return 1, None if lines[0] == f"nos: {entry}" else f"expected {entry!r}, seen {lines[0]!r}"
    fits = re.fullmatch("nos: " + entry.pattern, lines[0])
    return 1, None if fits else f"expected {entry.pattern!r}, seen {lines[0]!r}"
