"""The synopses of docs/NOS.md: each command with its options, and a way to ask it that is accepted."""

from typing import NamedTuple

from .header import TIME
from .variables import FARM, HOUSE, index, string, table, text

NOT_NUMBERS = ("", "x", "12x", "-", "4294967296", " 5", "5 ", "+5", "0x10", "&", "&G", "37_1", "2_", "2_2", "1,024",
               "99999999999999999999")
# these have a "-", and do not fit 32 bits with it
TOO_LOW = ("-2147483649", "-&80000001", "-4294967295", "-4294967296")


class Synopsis(NamedTuple):
    """How a command is asked. With the `arguments`, which are good, the `files` and the `given` input it answers `out` and makes
    the files `makes`."""

    arguments: tuple
    least: int  # how many arguments there have to be
    most: int
    out: bytes = b""
    numbers: tuple = ()  # options with a number
    names: tuple = ()    # options with the name of a file
    flags: tuple = ()    # options with nothing
    given: bytes = b""
    files: dict = {}
    makes: dict = {}

    @property
    def valued(self):
        return (*self.numbers, *self.names)


TABLE = table(*FARM)
TABLES = {"farm": table(*FARM), "house": table(*HOUSE)}
TWO = ("--table", "--farm")

COMMANDS = {
    "translate": Synopsis((), 0, 1, b"Ash", ("--allowance", "--room"), (*TWO, "--index", "-o"),
                          ("--space-ends", "--bar-plain", "--quote-plain", "--lines", "--strict"), b"Ash", files={"t": b""}),
    "eval": Synopsis(("6*7",), 1, 1, b"42\n", ("--allowance",), (*TWO, "-o"), ("--strict",), files={"t": b""}),
    "convert": Synopsis(("hex2", "255"), 2, 2, b"FF\n", ("--room",), ("-o",)),
    "read": Synopsis(("21",), 1, 1, b"21\n", ("--limit",), ("-o",), ("--whole", "--strict")),
    "date": Synopsis(("%CE%YR", TIME), 2, 2, b"1989\n", ("--room", "--at"), ("-o", "--from"), files={"t": bytes(5)}),
}

TABLE_COMMANDS = {
    "check": Synopsis(("t",), 1, 1, b"good: 2 variables, %d bytes\n" % len(TABLE), files={"t": TABLE}),
    "show": Synopsis(("t",), 1, 1, text(*FARM), names=("-o",), files={"t": TABLE}),
    "make": Synopsis(("new",), 1, 2, given=text(*FARM), makes={"new": TABLE}),
    "set": Synopsis(("t", "Remark", "string", "wet"), 4, 4, files={"t": TABLE},
                    makes={"t": TABLE + string(b"Remark", b"wet").record()}),
    "unset": Synopsis(("t", "quantity"), 2, 2, files={"t": TABLE}, makes={"t": table(FARM[0])}),
    "index": Synopsis(("t",), 1, 1, index(*FARM), ("--room",), ("-o",), files={"t": TABLE}),
}

ALL = {**{(name,): synopsis for name, synopsis in COMMANDS.items()},
       **{("table", name): synopsis for name, synopsis in TABLE_COMMANDS.items()}}

# those that write an answer to standard output
ANSWERING = {name: synopsis for name, synopsis in ALL.items() if synopsis.out}
# those that take -o
WITH_OUTPUT = {name: synopsis for name, synopsis in ALL.items() if "-o" in synopsis.names}
