"""Wrong usage, status 2: no command, no option, no number, an argument too many or too few; and all the forms that are right."""

from .commands import ALL, NOT_NUMBERS, TOO_LOW
from .messages import no_room, refusal
from .trial import accepted, refused, wrong_usage
from .variables import ONE

EVERY_OPTION = sorted({option for synopsis in ALL.values() for option in (*synopsis.valued, *synopsis.flags)})
A_VALUE = {"--table": "t", "--farm": "t", "--index": "t", "--from": "t", "-o": "out"}


def given_to(synopsis):
    return {"files": synopsis.files, "given": synopsis.given}


def wrong(name, synopsis, *arguments):
    """A case: the command with these arguments is wrong usage. The files are there that it would need."""
    return wrong_usage([*name, *arguments], **given_to(synopsis))


def arguments_beside(option, synopsis):
    """Good arguments of a command for one that has this option too."""
    return {"--from": ("%DY",), "--at": ("%DY", "--from", "t")}.get(option, synopsis.arguments)


def with_value(option):
    """A valued option and a value that it could have."""
    return [option, A_VALUE.get(option, "1000")]


def of_commands():
    for args in ("", "nonsense", "table", "table nonsense", "Translate", "translat", "help", "tables check t", "--nonsense", "-x",
                 "--room 5", "table --nonsense", "table -o out"):
        yield wrong_usage(args)
    yield wrong_usage(["", "x"])
    yield wrong_usage("check t", files={"t": b""})


def of_counts():
    """One argument too few, and one too many."""
    for name, synopsis in ALL.items():
        good = synopsis.arguments
        for few in {0, max(0, synopsis.least - 1)} - {synopsis.least}:
            yield wrong(name, synopsis, *good[:few])
        yield wrong(name, synopsis, *good, *["t"] * (synopsis.most + 1 - len(good)))
        yield wrong(name, synopsis, "--", *good, *["--"] * (synopsis.most + 1 - len(good)))


def of_options():
    """An option that is none of the command's, one twice, one with no value, a beginning of one, and a flag with a value."""
    for name, synopsis in ALL.items():
        good = synopsis.arguments
        own = (*synopsis.valued, *synopsis.flags)
        others = [option for option in EVERY_OPTION if option not in own]
        for option in ("--nonsense", "-z", "-O", "--nonsense=5", "---", "--=5", *others):
            yield wrong(name, synopsis, option, *good)
            yield wrong(name, synopsis, *good, option)
        for option in others:
            yield wrong(name, synopsis, *good, *with_value(option))
        for option in synopsis.valued:
            beside = arguments_beside(option, synopsis)
            yield wrong(name, synopsis, *beside, option)
            yield wrong(name, synopsis, *with_value(option), *beside, *with_value(option))
        for option in synopsis.flags:
            yield wrong(name, synopsis, option, *good, option)
            yield wrong(name, synopsis, f"{option}=1", *good)
        for option in (option for option in own if option.startswith("--")):
            yield wrong(name, synopsis, *([option[:-1], "1"] if option in synopsis.valued else [option[:-1]]), *good)


def of_numbers():
    """What is no number where one has to be."""
    for name, synopsis in ALL.items():
        for option in synopsis.numbers:
            beside = arguments_beside(option, synopsis)
            for word in (*NOT_NUMBERS, "-5", "-0"):
                yield wrong(name, synopsis, option, word, *beside)
                yield wrong(name, synopsis, *beside, f"{option}={word}")
    for word in (*NOT_NUMBERS, "nonsense", "hex3", "hex", "unsigned0", "unsigned5", "spaced-hex1", "hex22", "-5"):
        yield wrong_usage(["convert", word, "5"])
    for word in (*NOT_NUMBERS, *TOO_LOW, "--5", "- 5", "-x"):
        yield wrong_usage(["convert", "hex2", word])
        yield wrong_usage(["convert", "hex2", "--", word])
    for word in ("", "x", "487E2A91", "487E2A914", "487E2A91411", "487E2A914100", "487E2A914G", " 487E2A9141", "48 7E 2A 91 41",
                 "&487E2A9141", "0x487E2A9141"):
        yield wrong_usage(["date", "%DY", word])


def of_values_of_options():
    """What looks like an option is no value of another; and `-` is no file to write, nor one to read twice."""
    files = {"--lines": b"", "--": b"", "t": b""}
    for args in ("translate -o --lines", "translate --table --lines", "translate --table -- t", "eval 1 -o --",
                 "date %DY --from --lines", "translate -o -", "convert hex1 5 -o -", "table show t -o -", "table make -",
                 "table set - a string x", "table unset - a", "translate --table - -", "translate --table -",
                 "translate --farm - --table - t", "eval --farm=- --table=- 1", "table index t -o -", "table index t -o --room",
                 "translate --index --lines", "translate --index -- t", "translate --index -", "translate --index - -",
                 "translate --index=- --table=- t", "translate --index - --farm - t", "translate --table - --farm - --index - t",
                 "translate --table t --index t --index t t"):
        yield wrong_usage(args, files=files)


def of_dates():
    """A time comes from one place, and --at has its use with --from alone."""
    files = {"t": bytes(5)}
    for args in ("date %DY", "date %DY 487E2A9141 --from t", "date %DY 487E2A9141 --at 0", "date %DY --at 0", "date --from t",
                 "date %DY 487E2A9141 --from t --at 0"):
        yield wrong_usage(args, files=files)


def of_table_words():
    """A kind that is none, and a name or a value of `set` and `unset` that cannot be read."""
    files = {"t": ONE}
    for kind in ("", "String", "strings", "str", "number", "0"):
        yield wrong_usage(["table", "set", "t", "b", kind, "5"], files=files)
    for word in ("\\", "\\q", "\\x", "\\x0", "\\xg0", "\\x0g", "ab\\", "\\n", "\\X41", "\\ "):
        yield wrong_usage(["table", "set", "t", "b", "string", word], files=files)
        yield wrong_usage(["table", "set", "t", "b", "macro", word], files=files)
        yield wrong_usage(["table", "set", "t", word, "string", "x"], files=files)
        yield wrong_usage(["table", "unset", "t", word], files=files)
    for word in (*NOT_NUMBERS, *TOO_LOW, "--5", "five"):
        yield wrong_usage(["table", "set", "t", "b", "integer", "--", word], files=files)


def of_right_forms():
    """Each option before and after the arguments, in both forms, and after `--` no option any more."""
    for name, synopsis in ALL.items():
        good, out = synopsis.arguments, synopsis.out
        how = {**given_to(synopsis), "makes": synopsis.makes}
        yield accepted([*name, "--", *good], out, **how)
        yield accepted([*name, *good, "--"], out, **how)
        for option in synopsis.flags:
            yield accepted([*name, option, *good], out, **how)
            yield accepted([*name, *good, option], out, **how)
        for option in (option for option in synopsis.numbers if option != "--at"):
            yield accepted([*name, option, "1000", *good], out, **how)
            yield accepted([*name, *good, f"{option}=1000"], out, **how)
        if "-o" in synopsis.names:
            yield accepted([*name, "-o", "out", *good], makes={"out": out}, **given_to(synopsis))
            yield accepted([*name, *good, "-o", "out"], makes={"out": out}, **given_to(synopsis))
    yield accepted("translate -- --lines", b"Ash", files={"--lines": b"Ash"})
    yield accepted("translate -5", b"Ash", files={"-5": b"Ash"})
    yield accepted("translate --table=t=1", b"x", given=b"<a>", files={"t=1": ONE})
    yield accepted("translate --table=--room", b"x", given=b"<a>", files={"--room": ONE})
    yield accepted("translate -o -5", given=b"Ash", makes={"-5": b"Ash"})
    yield accepted("convert hex2 --room 3 -- 255", "FF\n")
    yield refused("read -5", refusal(2, 0, "the text", b"-5"))
    yield refused("read -", refusal(2, 0, "the text", b"-"))
    yield refused("read -- --whole", refusal(2, 0, "the text", b"--whole"))
    yield refused("eval -- --", refusal(15, 2, "the expression", b"--"))


def of_number_forms():
    """A number is decimal, hex or in a base, for an option, a call and a value."""
    for nine in ("9", "&9", "2_1001", "36_9", "0009", "&000000000000009", "016_09"):
        yield accepted(f"convert --room {nine} hex8 {nine}", "00000009\n")
        yield accepted(f"read --limit={nine} 9", "9\n")
        yield refused(f"read --limit={nine} 10", refusal(6, 0, "the text", b"10"))
    for eight in ("8", "&8", "2_1000", "9_8"):
        yield refused(f"convert --room {eight} hex8 0", no_room(9, 8))
        yield refused(f"convert hex8 0 --room={eight}", no_room(9, 8))
    for call in ("216", "&d8", "&D8", "16_D8", "2_11011000", "&200D8"):
        yield accepted(["convert", call, "4294967295"], "4294967295\n")
    for value in ("-1", "-0001", "-2_1", "-36_1"):
        yield accepted(f"convert signed1 {value}", "-1\n")
        yield accepted(f"convert signed1 -- {value}", "-1\n")
    yield accepted("convert --room 4294967295 hex1 0", "0\n")
    yield accepted("translate --room 4294967295", b"Ash", given=b"Ash")
    yield accepted("date --room 4294967295 %CE 487E2A9141", "19\n")


def cases():
    for some in (of_commands, of_counts, of_options, of_numbers, of_values_of_options, of_dates, of_table_words, of_right_forms,
                 of_number_forms):
        yield from some()


