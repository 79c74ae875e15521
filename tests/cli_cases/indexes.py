"""An index beside the house table: what `nos table index` writes, and that `nos translate --index` answers as it does without one,
or refuses by 20 all that is not the table's own index."""

import random

from .header import LONG
from .messages import refusal
from .refusals import BUILD_ANEW, DAMAGED, GIVE_TABLE, MANY, MEND_NAME, SEVERAL
from .table_changes import in_other_letters
from .table_texts import random_variables
from .trial import Case, accepted, refused
from .variables import FARM, HOUSE, Variable, index, integer, macro, string, table

BAD = refusal(20, 0, "the index i", advice=BUILD_ANEW)
# what names of all kinds can stand in, and texts that are refused where they stand
TEXTS = (b"%s", b"a %s b", b'"%s"', b"%s|J", b"%s<65>", b"%s%s", b"<nmae>%s", b"%s|5", b'"%s', b"%s<")


def places(*numbers):
    return b"".join(number.to_bytes(2, "little") for number in numbers)


def of_order():
    """Orders that are written down here, and not the model's: A to Z as a to z, bytes as numbers, a beginning first."""
    for names, order in (((b"b", b"a"), (1, 0)), ((b"B", b"a"), (1, 0)), ((b"b", b"A"), (1, 0)), ((b"a", b"B"), (0, 1)),
                         ((b"a", b"_"), (1, 0)), ((b"A", b"_"), (1, 0)), ((b"Z", b"["), (1, 0)), ((b"z", b"{"), (0, 1)),
                         ((b"a", b"9"), (1, 0)), ((b"a", b"~"), (0, 1)), ((b"a", b"!"), (1, 0)), ((b"@", b"A"), (0, 1)),
                         ((b"`", b"Z"), (0, 1)), ((b"ab", b"a"), (1, 0)), ((b"aB", b"A_"), (1, 0)), ((b"a$b", b"a"), (1, 0)),
                         ((b"b", b"aa"), (1, 0)), ((b"x" * 32, b"x" * 31), (1, 0)),
                         ((b"ABC", b"abb", b"aBcd", b"Ab"), (3, 1, 0, 2))):
        some = [string(name, b"v") for name in names]
        starts = [len(table(*some[:number])) for number in range(len(some))]
        yield accepted("table index t", places(*(starts[number] for number in order)), files={"t": table(*some)})
    # a place of two bytes that are not 0, the lower one first
    far = [string(b"b", b"v" * 255), string(b"c", b"v" * 255), macro(b"a", b""), integer(b"_", 5)]
    yield accepted("table index t", b"\x10\x02\x0a\x02\x00\x00\x05\x01", files={"t": table(*far)})


def families(chance, count):
    """Variables whose names are beginnings of one another, or alike but for a letter's case or a byte near the letters."""
    some = {}
    while len(some) < count:
        name = bytes(chance.choices(b"aAbBzZ_@[`{$", k=chance.choice((1, 2, 3, 31, 32))))
        some.setdefault(name.lower(), Variable(name, "string", bytes(chance.choices(b"xyz", k=chance.randrange(4)))))
    return list(some.values())


def of_random_tables():
    for seed in range(40):
        chance = random.Random(seed)
        some = chance.choice((random_variables, families))(chance, chance.choice((1, 2, 3, 17, 60)))
        yield accepted("table index t", index(*some), files={"t": table(*some)})
        yield accepted("table index -", index(*some), given=table(*some))
    chance = random.Random("full")
    for some in (MANY, MANY[::-1], chance.sample(MANY, len(MANY)), families(chance, 256)):
        yield accepted("table index t", index(*some), files={"t": table(*some)})


def alike(title, args, files, given=b""):
    """A case: a run through the index `i` does all that the run without it does."""
    def work(trial):
        trial.write(files)
        before = trial.found()
        without = trial.run(args, given=given)
        trial.hold("its status", None if without.status in (0, 1) else f"0 or 1; seen {without.status}")
        trial.expect("the run through the index", without, trial.run([*args, "--index", "i"], given=given))
        trial.judge_files(before, {})
    return Case(f"nos {' '.join(args)}, {title}", work)


def named(name):
    return b"<" + name + b">"


def of_same_answers():
    """Names of both tables, unknown ones and macros of either, in texts that are accepted and in others."""
    for seed in range(25):
        chance = random.Random(seed)
        house = families(chance, chance.choice((1, 5, 40)))
        farm = chance.sample(house, len(house) // 2) + families(chance, 3) if chance.random() < 0.5 else []
        farm = [one._replace(value=b"farm") for one in {one.name.lower(): one for one in farm}.values()]
        every = [in_other_letters(chance, one.name) for one in house + farm]
        house.append(macro(b"macro", b"<%s>-<%s>" % (chance.choice(every), chance.choice(every))))
        names = [named(name) for name in (*every, b"macro", b"MACRO", b"n" * 40, b"a$a")]
        files = {"t": table(*house), "f": table(*farm), "i": index(*house)}
        lines = b"\n".join(chance.choice(names) for _ in range(30))
        yield alike(f"seed {seed}", ["translate", "--table", "t", "--farm", "f", "--lines"], files, lines)
        for text in TEXTS:
            given = text.replace(b"%s", b" ".join(chance.choices(names, k=chance.randrange(1, 5))))
            options = chance.choice(([], ["--allowance", "2"], ["--room", "9"], ["--strict"], ["--bar-plain", "--quote-plain"]))
            yield alike(f"seed {seed}, {given[:60]}", ["translate", "--table", "t", "--farm", "f", *options], files, given)


def of_every_name():
    """Each variable of a table is found, whatever the case of its letters, and no other name is."""
    chance = random.Random("every")
    some = families(chance, 120)
    files = {"t": table(*some), "i": index(*some)}
    given = b"\n".join(named(one.name) + named(in_other_letters(chance, one.name)) for one in some)
    yield accepted("translate --lines --table t --index i", b"\n".join(2 * one.value for one in some), given=given, files=files)
    known = {one.name.lower() for one in some}
    for name in {one.name[:-1] for one in some} | {one.name + b"a" for one in some[:40]}:
        if name and name.lower() not in known:
            yield refused("translate --table t --index=i", refusal(10, 0, "the text", named(name)), given=named(name), files=files)


def spoiled(own):
    """An index with each of its bytes changed, with every two places changed about or one of them twice, shorter, and longer."""
    for at in range(len(own)):
        yield from (own[:at] + bytes([own[at] ^ bits]) + own[at + 1:] for bits in (1, 2, 128, 255))
        yield own[:at]
    yield from (own + more for more in (b"\0", b"\0\0", own[-2:], own, b"\xff"))
    for first in range(0, len(own), 2):
        for second in range(0, first, 2):
            before, between, after = own[:second], own[second + 2:first], own[first + 2:]
            one, other = own[second:second + 2], own[first:first + 2]
            yield before + other + between + one + after
            yield before + one + between + one + after


def of_wrong_indexes():
    some = [*SEVERAL, *FARM]
    own = index(*some)
    others = {index(*some[1:]), index(*some, string(b"more")), table(*some), bytes(len(own)), b"\xff" * len(own)}
    for data in sorted({*spoiled(own), *others}):
        yield refused("translate --table t --index i", BAD, given=b"Ash", files={"t": table(*some), "i": data})
    yield accepted("translate --table t --index i", b"Ash", given=b"Ash", files={"t": table(*some), "i": own})


def of_empty_tables():
    """An empty table has an empty index, and so has none at all."""
    for args in ("--table t --index i", "--index i", "--index=i --farm farm", "--table t --farm farm --index i"):
        files = {"t": b"", "farm": table(*FARM)}
        yield accepted(f"translate {args}", b"Ash", given=b"Ash", files={**files, "i": b""})
        yield refused(f"translate {args}", refusal(10, 0, "the text", b"<Unit>", MEND_NAME), given=b"<Unit>", files={**files, "i": b""})
        says = refusal(20, 0, "the index i", advice=BUILD_ANEW if "--table" in args else GIVE_TABLE)
        for data in (b"\0", b"\0\0", index(*FARM), LONG):
            yield refused(f"translate {args}", says, given=b"Ash", files={**files, "i": data})
    yield accepted("table index t -o i", makes={"i": b""}, files={"t": b"", "i": b"old"})


def of_what_comes_first():
    """18 of the text and of either table, 13 of either, 20, and then what the text is refused for."""
    good = {"farm": table(*FARM), "house": table(*HOUSE), "i": b"wrong"}
    text, farm, house, its_index = "the text", "the farm's table farm", "the house table house", "the index i"
    args = "translate --farm farm --table house --index i --room 0"
    for files, given, number, place, of in (
            ({}, LONG, 18, 0, text), ({"farm": LONG}, LONG, 18, 0, text), ({"farm": LONG}, b"<", 18, 0, farm),
            ({"house": LONG}, b"<", 18, 0, house), ({"farm": DAMAGED}, b"<", 13, 7, farm), ({"house": DAMAGED}, b"<", 13, 7, house),
            ({}, b"<", 20, 0, its_index), ({}, b"", 20, 0, its_index)):
        yield refused(args, refusal(number, place, of), given=given, files={**good, **files})
    # names twice in the table: an index of any order is none
    twice = [string(b"a", b"x"), string(b"b", b"y"), string(b"A", b"z")]
    for data in (index(*twice), index(*twice[:2]), b""):
        yield refused("translate --table t --index i", refusal(13, 14, "the house table t"), given=b"a",
                      files={"t": table(*twice), "i": data})
    good["i"] = index(*HOUSE)
    yield refused(args, refusal(9, 0, "the text", b"<"), given=b"<", files=good)


def of_tables():
    """The index is the house's: that of the farm's table fits where the two are the same, and no other way about."""
    files = {"farm": table(*FARM), "house": table(*HOUSE), "i": index(*FARM), "row": b"<Quantity>"}
    yield refused("translate --farm farm --table house --index i row", BAD, files=files)
    yield accepted("translate --farm farm --table farm --index i row", b"1048576", files=files)
    yield accepted("translate --farm house --table farm --index i row", b"1048576", files=files)
    yield refused("translate --farm farm --index i row", refusal(20, 0, "the index i", advice=GIVE_TABLE), files=files)
    yield refused("translate --table i --index house row", refusal(13, 0, "the house table i"), files=files)
    yield accepted("translate --table house --farm farm --index - row", b"1048576", given=index(*HOUSE), files=files)
    yield refused("translate --table house --index - row", refusal(20, 0, "the index -"), given=b"\0", files=files)
    yield accepted("translate --table - --index i row", b"1048576", given=table(*FARM), files=files)


def of_lines():
    """An index that is refused is refused once, and not for each line; and where there is no line, too."""
    files = {"t": table(*FARM), "i": index(*HOUSE)}
    for given in (b"a\nb\nc\n", b"", b"\n", b"<\n<\n"):
        yield refused("translate --lines --table t --index i", BAD, given=given, files=files)
        yield refused("translate --lines --table t --index i -o old", BAD, given=given, files={**files, "old": b"old"})
    given = b"".join(b"%d <quantity>\n" % line for line in range(2000))
    yield accepted("translate --lines --table t --index i", given.replace(b"<quantity>", b"1048576"), given=given,
                   files={**files, "i": index(*FARM)})


def after_change(title, args, before, after):
    """A case: a changed table refuses the index of before, unless that is the new one too; built anew it is accepted."""
    def work(trial):
        trial.write({"t": table(*before)})
        trial.holds("table index t -o i", 0, makes={"i": index(*before)})
        trial.holds("translate --table t --index i", 0, b"Ash", given=b"Ash")
        trial.holds(args, 0, makes={"t": table(*after)})
        if index(*after) == index(*before):
            trial.holds("translate --table t --index i", 0, b"Ash", given=b"Ash")
        else:
            trial.holds("translate --table t --index i", 1, says=BAD, given=b"Ash")
        trial.holds("table index t -o i", 0, makes={"i": index(*after)})
        trial.holds("translate --table t --index i", 0, b"Ash", given=b"Ash")
    return Case(f"nos {args}, {title}", work)


def of_changes():
    one, two, three = SEVERAL
    for title, args, after in (
            ("a longer value", "table set t one string 10", [string(b"one", b"10"), two, three]),
            ("a value of the same length", "table set t one string 7", [string(b"one", b"7"), two, three]),
            ("a longer value of the last", "table set t three string 33333", [one, two, string(b"three", b"33333")]),
            ("letters of the other case", "table set t TWO string 2", [one, string(b"TWO", b"2"), three]),
            ("one more", "table set t four string 4", [*SEVERAL, string(b"four", b"4")]),
            ("one less", "table unset t one", [two, three]), ("the last one less", "table unset t three", [one, two])):
        yield after_change(title, args, SEVERAL, after)
    yield Case("nos table make, the same variables in another order", remade)


def remade(trial):
    """Another order of the same variables has another index."""
    trial.write({"t": table(*SEVERAL), "i": index(*SEVERAL)})
    shown = trial.run("table show t").out.splitlines(keepends=True)
    trial.holds("table make t", 0, makes={"t": table(*SEVERAL[::-1])}, given=b"".join(shown[::-1]))
    trial.holds("translate --table t --index i", 1, says=BAD, given=b"<two>")
    trial.holds("table index t -o i", 0, makes={"i": index(*SEVERAL[::-1])})
    trial.holds("translate --table t --index i", 0, b"2", given=b"<two>")


def cases():
    for some in (of_order, of_random_tables, of_same_answers, of_every_name, of_wrong_indexes, of_empty_tables, of_what_comes_first,
                 of_tables, of_lines, of_changes):
        yield from some()
