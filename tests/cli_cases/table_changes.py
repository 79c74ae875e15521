"""`nos table set` and `unset`: what each makes of a table, and some hundreds of random steps against the tests' own model."""

import random

from . import header
from .messages import refusal
from .refusals import FULL, MANY, NOT_IN_TABLE, SEVERAL
from .table_texts import random_variables, spelled, spelled_integer
from .trial import Case, accepted
from .variables import FARM, LONGEST_VALUE, MOST_RECORDS, Variable, integer, macro, place_of, string, table


def changed(args, before, after):
    """A case: a command makes one table of another."""
    return accepted(args, files={"t": table(*before)}, makes={"t": table(*after)})


def of_set():
    one, two, three = SEVERAL
    yield changed("table set t Farm$Name string 'Lower Ash'", [], FARM[:1])
    yield changed("table set t Quantity integer 1048576", FARM[:1], FARM)
    yield changed("table set t four string 4", SEVERAL, [*SEVERAL, string(b"four", b"4")])
    yield changed("table set t two string new", SEVERAL, [one, string(b"two", b"new"), three])
    yield changed("table set t TWO macro '<one>'", SEVERAL, [one, macro(b"TWO", b"<one>"), three])
    yield changed("table set t one integer -5", SEVERAL, [integer(b"one", -5), two, three])
    yield changed("table set t three string ''", SEVERAL, [one, two, string(b"three")])
    yield changed("table set t two string 2", SEVERAL, SEVERAL)
    yield changed(["table", "set", "t", "two", "string", "v" * 255], SEVERAL, [one, string(b"two", b"v" * 255), three])
    yield changed(["table", "set", "t", "n" * 32, "string", "x"], [], [string(b"n" * 32, b"x")])
    yield changed(r"table set t Bell string '\x07 and a \\'", [], [string(b"Bell", b"\x07 and a \\")])
    yield changed(r"table set t '\x23a' macro ' b '", [], [macro(b"#a", b" b ")])
    yield changed(r"table set t '#a' string '\x00\xfF\x0a'", [], [string(b"#a", b"\0\xff\n")])
    yield changed("table set t a string -5", [], [string(b"a", b"-5")])
    yield changed("table set t -5 string x", [], [string(b"-5", b"x")])
    yield changed("table set -- t a string --lines", [], [string(b"a", b"--lines")])
    yield changed("table set t a string -- -x", [], [string(b"a", b"-x")])
    for word, number in (("5", 5), ("-5", -5), ("&ff", 255), ("2_101", 5), ("-2_101", -5), ("4294967295", -1),
                         ("-2147483648", -2**31)):
        yield changed(f"table set t a integer {word}", [], [integer(b"a", number)])
    yield changed("table set t a integer -- -&10", [], [integer(b"a", -16)])
    yield changed("table set t GROWS string 12345", FULL, [string(b"GROWS", b"12345"), *FULL[1:]])
    yield changed("table set t 255 string x", MANY, [*MANY[:-1], string(b"255", b"x")])
    yield changed("table set t last string x", MANY[1:], [*MANY[1:], string(b"last", b"x")])


def of_unset():
    one, two, three = SEVERAL
    yield changed("table unset t one", SEVERAL, [two, three])
    yield changed("table unset t TWO", SEVERAL, [one, three])
    yield changed("table unset t Three", SEVERAL, [one, two])
    yield changed("table unset t one", [one], [])
    yield changed("table unset t 0", MANY, MANY[1:])
    yield changed(r"table unset t '\x6fne'", SEVERAL, [two, three])
    yield changed(r"table unset t '\\'", [string(b"\\", b"x"), one], [one])
    yield changed("table unset t '#a'", [string(b"#a", b"x"), one], [one])
    yield changed("table unset t -- -x", [string(b"-x", b"x"), one], [one])
    yield changed("table unset t -5", [string(b"-5", b"x"), one], [one])


def in_other_letters(chance, name):
    """A name with some of its letters in the other case."""
    return bytes(byte ^ 32 if chr(byte).isascii() and chr(byte).isalpha() and chance.random() < 0.3 else byte for byte in name)


class Walk:
    """Random steps over a table, each held to what the model has then."""

    def __init__(self, trial, seed, start):
        self.trial, self.chance, self.variables = trial, random.Random(seed), list(start)
        trial.write({"t": table(*start)})

    def some_name(self):
        """A name that is there, as a rule, in letters of any case."""
        if self.variables and self.chance.random() < 0.6:
            return in_other_letters(self.chance, self.chance.choice(self.variables).name)
        return random_variables(self.chance, 1)[0].name

    def after_set(self, variable):
        """The variables then, or the number and the place of the refusal."""
        index = place_of(self.variables, variable.name)
        end = len(self.variables) if index is None else index
        after = [*self.variables[:end], variable, *self.variables[end + 1:]]
        if len(variable.value) > LONGEST_VALUE or len(after) > MOST_RECORDS:
            return None, (13, len(table(*self.variables[:end])))
        return (None, (18, 0)) if len(table(*after)) > header.LONGEST else (after, None)

    def set(self):
        variable = random_variables(self.chance, 1)[0]._replace(name=self.some_name())
        if self.chance.random() < 0.1:
            variable = Variable(variable.name, "string", b"v" * (LONGEST_VALUE + 1))
        value = (spelled_integer if variable.kind == "integer" else spelled)(self.chance, variable.value)
        args = ["table", "set", "t", "--", as_argument(spelled(self.chance, variable.name)), variable.kind, as_argument(value)]
        after, wrong = self.after_set(variable)
        self.step(args, after, wrong and refusal(*wrong, "the table t"))

    def unset(self):
        name = self.some_name()
        index = place_of(self.variables, name)
        after = None if index is None else [*self.variables[:index], *self.variables[index + 1:]]
        self.step(["table", "unset", "t", "--", spelled(self.chance, name)], after, NOT_IN_TABLE)

    def step(self, args, after, says):
        """Runs it. Where there is nothing afterwards it is refused, by these lines."""
        if after is None:
            self.trial.holds(args, 1, says=says)
            return
        self.trial.holds(args, 0, makes={"t": table(*after)})
        self.variables = after


def as_argument(written):
    """The same with no zero byte, which an argument of a command cannot have."""
    return written.replace(b"\0", b"\\x00")


def walk(seed, start, steps, grows):
    """A case: so many random steps from a table, with more of `set` than of `unset` as it grows."""
    def work(trial):
        going = Walk(trial, seed, start)
        for _ in range(steps):
            going.set() if going.chance.random() < grows else going.unset()
    return Case(f"nos table set and unset, {steps} random steps from {len(start)} variables, seed {seed}", work)


def cases():
    yield from of_set()
    yield from of_unset()
    for seed in range(6):
        yield walk(seed, [], 50, 0.7)
    yield walk("full", FULL, 40, 0.8)
    yield walk("many", MANY[3:], 40, 0.9)


