"""What is read: files that are missing, folders or closed to the reader, standard input in all its ways, and what comes first."""

import os
import time

from .header import LONG, TIME
from .messages import refusal
from .trial import Case, accepted, cannot, title, wrong_usage
from .variables import FARM, ONE, index, string, table, text


# every way in which a file is read: a command that reads one of the name %s, its bytes, and the answer
READ = [
    ("translate %s", b"Ash", b"Ash"),
    ("translate --lines %s", b"Ash\n", b"Ash\n"),
    ("translate --table %s text", ONE, b"x"),
    ("translate text --farm=%s", ONE, b"x"),
    ("translate --table house --index %s text", b"\0\0", b"x"),
    ("translate --lines text --index=%s --table house", b"\0\0", b"x"),
    ("eval --table %s 1", ONE, b"1\n"),
    ("eval 1 --farm %s", ONE, b"1\n"),
    ("date %%CE%%YR --from %s", bytes.fromhex(TIME), b"1989\n"),
    ("date %%CE%%YR --from %s --at 0", bytes.fromhex(TIME), b"1989\n"),
    ("table check %s", table(*FARM), b"good: 2 variables, %d bytes\n" % len(table(*FARM))),
    ("table show %s", table(*FARM), text(*FARM)),
    ("table index %s", table(*FARM), index(*FARM)),
    ("table index %s --room 4", table(*FARM), index(*FARM)),
]
# those that change it, or make another one: what is in the folder then
CHANGED = [
    ("table set %s b string y", "{}", ONE, ONE + string(b"b", b"y").record()),
    ("table unset %s a", "{}", ONE, b""),
    ("table make new %s", "new", b"a string x\n", ONE),
]
EVERY_WAY = [args for args, *_ in READ + CHANGED]
BESIDE = {"text": b"<a>", "house": ONE}


def of_files_that_are_there():
    for name in ("there", "./there", "with a space"):
        for args, data, out in READ:
            yield accepted(_named(args, name), out, files={name: data, **BESIDE})
        for args, made, data, after in CHANGED:
            yield accepted(_named(args, name), makes={made.format(os.path.normpath(name)): after}, files={name: data})


def _named(args, name):
    return [name if word == "%s" else word.replace("%s", name) for word in args.replace("%%", "%").split()]


def of_files_that_are_not():
    for args in EVERY_WAY:
        yield cannot(_named(args, "missing"), "missing", files=BESIDE)
        yield cannot(_named(args, "no/missing"), "no/missing", files=BESIDE)
        yield cannot(_named(args, "text/missing"), "text/missing", files=BESIDE)
        yield cannot(_named(args, "."), files=BESIDE)
        yield cannot(_named(args, "shut"), "shut", files={"shut": b"", **BESIDE}, modes={"shut": 0}, nobody=True)


def of_what_comes_first():
    """Usage, then files, then the library."""
    for args in ("translate --room x missing", "translate missing missing", "translate --table missing --nonsense",
                 "eval --table missing", "date --from missing", "date %DY --from missing --at x", "table check missing x",
                 "translate --index missing --room x", "table index missing x", "table index missing --room x",
                 "table make new missing x",
                 "table set missing a strong x", "table set missing a integer x", r"table set missing a string '\q'",
                 r"table set missing '\q' string a", r"table unset missing '\q'"):
        yield wrong_usage(args)
    for args in ("translate --table missing --room 0", "translate --farm missing --strict",
                 "translate --table long --farm missing", "translate --table long --index missing",
                 "translate --table missing --index long", "translate --index missing --room 0", "table index --room 0 missing"):
        yield cannot(args, "missing", files={"long": LONG}, given=LONG)
    for args in ("eval --table missing '('", "eval --farm long --table missing 1/0", "date %mn --from missing",
                 "date --room 0 %DY --from missing", "table set missing '' string x", "table unset missing ''"):
        yield cannot(args, "missing", files={"long": LONG})


def of_closed_input():
    for args in ("translate", "translate -", "translate --lines", "table check -", "table show -", "table make new",
                 "table make new -", "date %DY --from -", "table index -", "table index - -o new"):
        yield cannot(args, shell='exec "$@" <&-')
    # a file that is read first gets the number of the closed standard input, and must not be taken for it
    for args in ("translate --table t", "translate --lines --farm t -", "date %DY --from - -o new",
                 "translate --table t --index - t"):
        yield cannot(args, files={"t": ONE}, shell='exec "$@" <&-')
    yield accepted("eval --table t 1", b"1\n", files={"t": ONE}, shell='exec "$@" <&-')
    yield cannot("translate", shell='exec "$@" <.')


def of_standard_input():
    """`-` for whatever is read, and a pipe by its name among the files: it cannot be sought in, and has no length."""
    for name in ("-", "/dev/stdin"):
        for args, data, out in READ:
            yield accepted(_named(args, name), out, files=BESIDE, given=data)
        yield accepted(f"table make new {name}", makes={"new": ONE}, given=b"a string x")
    yield accepted("table make new", makes={"new": ONE}, given=b"a string x")
    yield accepted("translate text", b"Ash", files={"text": b"Ash"}, given=b"not read")


def in_pieces(args, *pieces, status=0, out=b"", says=()):
    """A case: what comes in pieces is read whole."""
    def work(trial):
        process = trial.start(args)
        for piece in pieces:
            process.stdin.write(piece)
            process.stdin.flush()
            time.sleep(0.05)
        trial.judge(trial.finish(process), status, out, says)
    return Case(f"{title(args)}, in pieces", work)


def of_pieces():
    yield in_pieces("translate", b"Lower", b" Ash ", b"<6", b"5>", out=b"Lower Ash A")
    yield in_pieces("translate --lines", b"Lower", b" Ash\r", b"\n<6", b"5>", out=b"Lower Ash\r\nA")
    yield in_pieces("translate --lines", b"Ash\r", b"\n<", status=1, says=refusal(9, 0, "line 2", b"<"))
    yield in_pieces("table check -", ONE[:3], ONE[3:], b"V", status=1, says=refusal(13, len(ONE), "the table -"))


def cases():
    for some in (of_files_that_are_there, of_files_that_are_not, of_what_comes_first, of_closed_input, of_standard_input,
                 of_pieces):
        yield from some()
