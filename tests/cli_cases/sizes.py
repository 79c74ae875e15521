"""Both sides of every limit: 65,535 bytes of whatever is read; the largest answer; 1,024 look-ups; 256 records."""

from . import header
from .header import TIME
from .messages import no_room, refusal
from .refusals import MANY
from .trial import accepted, refused
from .variables import LONGEST_VALUE, MOST_RECORDS, filled, index, integer, string, table, text

MOST = header.LONGEST
LOOK_UPS = header.MOST_LOOK_UPS
VALUES = {"t": table(string(b"a", b"v" * LONGEST_VALUE), integer(b"n", 1))}


def of_texts():
    yield accepted("translate", b"a" * MOST, given=b"a" * MOST)
    yield accepted("translate text", b"a" * MOST, files={"text": b"a" * MOST})
    yield accepted("translate", b"a" * (MOST - 1), given=b"a" * (MOST - 1) + b"\n")
    for given in (b"a" * (MOST + 1), b"a" * MOST + b"\n", b"a" * MOST + b"\0", b"a\n" * (MOST // 2 + 1), bytes(MOST + 1),
                  b"a" * 3000000):
        yield refused("translate", refusal(18, 0, "the text"), given=given)
        yield refused("translate --strict text", refusal(18, 0, "the text"), files={"text": given})


def of_lines():
    long = b"a" * MOST
    for end in (b"\n", b"\r", b"\r\n", b""):
        given = b"first\n" + long + end
        yield accepted("translate --lines", given, given=given)
        yield refused("translate --lines", refusal(18, 0, "line 2"), given=b"first\n" + long + b"a" + end)
    given = b"".join(b"a" * length + b"\n" for length in (4095, 4096, 4097, 8191, 8192, 16384, 32768, 65534, 65535))
    yield accepted("translate --lines", given, given=given)
    yield refused("translate --lines -o out", refusal(18, 0, "line 10"), given=given + b"a" * (MOST + 1))


def of_largest_answer():
    """The largest translation that there is: 1,024 names of three bytes that give 255 each, and other bytes."""
    given = b"<a>" * LOOK_UPS + b"." * (MOST - 3 * LOOK_UPS)
    out = b"v" * LONGEST_VALUE * LOOK_UPS + b"." * (MOST - 3 * LOOK_UPS)
    need = 323583
    assert len(out) == need
    yield accepted("translate --table t", out, given=given, files=VALUES)
    yield accepted(f"translate --table t --room {need} -o out", makes={"out": out}, given=given, files=VALUES)
    yield refused(f"translate --table t --room {need - 1}", no_room(need, need - 1), given=given, files=VALUES)
    yield accepted("translate --table t --lines", out + b"\n" + out, given=given + b"\n" + given, files=VALUES)


def of_look_ups():
    """1,024 without --allowance, and with a larger one too."""
    for allowance in ("", "--allowance 1024", "--allowance 1025", "--allowance 4294967295"):
        names, sums = b"<n>" * LOOK_UPS, b"n+" * (LOOK_UPS - 1) + b"n"
        more_names, more_sums = names + b"<n>", sums + b"+n"
        translate, evaluate = f"translate --table t {allowance}", f"eval --table t {allowance}".split()
        yield accepted(translate, b"1" * LOOK_UPS, given=names, files=VALUES)
        yield refused(translate, refusal(12, len(names), "the text", more_names), given=more_names, files=VALUES)
        yield accepted([*evaluate, sums], f"{LOOK_UPS}\n", files=VALUES)
        yield refused([*evaluate, more_sums], refusal(12, len(more_sums) - 1, "the expression", more_sums), files=VALUES)
    for allowance in range(3):
        yield refused(f"translate --table t --allowance {allowance}", refusal(12, 3 * allowance, "the text", b"<n><n><n>"),
                      given=b"<n><n><n>", files=VALUES)
    yield accepted("translate --table t --allowance 3", b"111", given=b"<n><n><n>", files=VALUES)


def of_tables():
    full, over = filled(MOST), table(*filled(MOST + 1))
    yield accepted("table check t", f"good: {len(full)} variables, {MOST} bytes\n", files={"t": table(*full)})
    yield accepted("table check -", f"good: {MOST_RECORDS} variables, {len(table(*MANY))} bytes\n", given=table(*MANY))
    yield accepted("table show t", text(*full), files={"t": table(*full)})
    yield accepted("table make t", makes={"t": table(*full)}, given=text(*full))
    yield accepted("table make t", makes={"t": table(*MANY)}, given=text(*MANY))
    for command in ("translate --table t", "translate --farm t", "eval --table t 1", "eval --farm t 1"):
        out = b"1\n" if command.startswith("eval") else b"1"
        of = "the farm's table t" if "--farm" in command else "the house table t"
        yield accepted(command, out, given=b"1", files={"t": table(*full)})
        yield refused(command, refusal(18, 0, of), given=b"1", files={"t": over})
    for data in (over, over * 40, bytes(3000000)):
        yield refused("table check t", refusal(18, 0, "the table t"), files={"t": data})
        yield refused("table show -", refusal(18, 0, "the table -"), given=data)


def of_indexes():
    """The index of as many variables as there can be, of a table as long as it can be, and what is longer than any index."""
    for some in ([string(b"n%d" % number, b"%d" % number) for number in range(MOST_RECORDS)], filled(MOST)):
        data, own = table(*some), index(*some)
        yield accepted("table index t", own, files={"t": data})
        yield accepted(f"table index t --room {len(own)} -o out", makes={"out": own}, files={"t": data})
        yield refused(f"table index t --room {len(own) - 1}", no_room(len(own), len(own) - 1), files={"t": data})
        for one in (some[0], some[len(some) // 2], some[-1]):
            yield accepted("translate --table t --index i", one.value, given=b"<%s>" % one.name, files={"t": data, "i": own})
        for length in (len(own) + 1, MOST - 1, MOST, MOST + 1, MOST + 2, 3000000):
            yield refused("translate --table t --index i", refusal(20, 0, "the index i"),
                          files={"t": data, "i": own.ljust(length, b"\0")})
    yield refused("table index t", refusal(13, len(table(*MANY)), "the table t"), files={"t": table(*MANY, string(b"new"))})
    yield refused("table index t", refusal(18, 0, "the table t"), files={"t": table(*filled(MOST + 1))})


def of_arguments():
    yield accepted(["date", b"x" * MOST, TIME], b"x" * MOST + b"\n")
    yield refused(["date", b"x" * (MOST + 1), TIME], refusal(18, 0, "the format"))
    yield accepted(["eval", b" " * (MOST - 3) + b"1+1"], "2\n")
    yield refused(["eval", b" " * (MOST - 2) + b"1+1"], refusal(18, 0, "the expression"))
    yield accepted(["read", b"0" * (MOST - 1) + b"7"], "7\n")
    yield refused(["read", b"0" * MOST + b"7"], refusal(18, 0, "the text"))
    yield refused(["read", b"7 " + b" " * MOST], refusal(18, 0, "the text"))


def of_times():
    """A time out of a large file."""
    times = b"\xff" * 1000000 + bytes.fromhex(TIME)
    yield accepted("date %CE%YR --at 1000000 --from times", "1989\n", files={"times": times})
    yield accepted("date %CE%YR --at 999995 --from -", "2248\n", given=times)
    yield refused("date %CE%YR --at 1000001 --from times", refusal(18, 0, "the time"), files={"times": times})
    yield refused("date %CE%YR --from times", refusal(18, 0, "the time"), files={"times": times})


def cases():
    for some in (of_texts, of_lines, of_largest_answer, of_look_ups, of_tables, of_indexes, of_arguments, of_times):
        yield from some()
