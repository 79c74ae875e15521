"""Numbers over 255 between "<" and ">", refused by 21 since 1.6.0: what `nos translate` tells of the byte that each of them gave
before, in the order in which the old reading would have met them, up to where it would have been refused."""

import random

from . import header
from .messages import ADVICE, IN_A_MACRO, NOT_IN_A_MACRO, NOTHING_WRITTEN, SAY_LINES, Shown, after, gave, refusal
from .trial import accepted, refused
from .variables import MOST_RECORDS, index, integer, macro, string, table

WRITE_THE_NUMBER = 'a number between "<" and ">" is one byte, 0 to 255: write the number of the byte that is meant'
BOTH = "translate --farm farm --table house"


def over(given, place, *told, args="translate", shown=None, advice=NOT_IN_A_MACRO, **how):
    """A case: refused by 21 at this place, and these lines told of the old rule."""
    says = refusal(21, place, "the text", given if shown is None else shown, advice, told)
    return refused(args, says, given=given, **how)


def of_the_manual():
    """The examples of docs/NOS.md, to the letter."""
    row = b"96 kg to <321> on <256>"
    lines = [
        "refused 21, Code over 255, at byte 9 of the text", Shown(row, 9),
        WRITE_THE_NUMBER,
        'before 1.6.0 <321>, at byte 9 of the text, gave byte 65, "A"',
        "before 1.6.0 <256>, at byte 18 of the text, gave byte 0",
        "nothing was written",
    ]
    yield refused("translate", lines, given=row)
    yield refused("translate -o old row", lines, files={"row": row, "old": b"old"})
    files = {"farm": table(macro(b"Page$Head", b"of <&141>"))}
    yield refused("translate --farm farm --lines", [
        "refused 21, Code over 255, at byte 4 of line 3", Shown(b"Page<page$head>", 4),
        f"in the macro that is named there, or in one that it names: {WRITE_THE_NUMBER}",
        'before 1.6.0 <&141>, at byte 3 of the macro Page$Head, gave byte 65, "A"',
        "nothing was written",
    ], given=b"\n\nPage<page$head>\n", files=files)


def of_numbers():
    """Every way to write a number, and every kind of byte that it gave."""
    for content, value in (("256", 256), ("257", 257), ("287", 287), ("288", 288), ("289", 289), ("290", 290), ("319", 319),
                           ("321", 321), ("382", 382), ("383", 383), ("384", 384), ("511", 511), ("512", 512), ("65857", 65857),
                           ("16777281", 16777281), ("4294967295", 4294967295), ("&100", 256), ("&141", 321), ("&fFfFfFfF", 2**32 - 1),
                           ("2_101000001", 321), ("36_ZZ", 1295), ("36_zz", 1295), ("16_141", 321), ("0321", 321), ("&0000141", 321),
                           ("2_000101000001", 321), ("0010_321", 321), ("00000000000000000256", 256)):
        yield over(b"a<%s>" % content.encode(), 1, gave(content, value, 1))
    for content in ("255", "&FF", "&0000ff", "2_11111111", "36_73", "000255"):
        yield accepted("translate", b"\xff", given=b"<%s>" % content.encode())
    for content in (b"256x", b"&100x", b"2_2", b"37_1", b"&", b"256_1", b"-256", b"+256"):
        yield refused("translate", refusal(10, 0, "the text", b"<%s>" % content), given=b"<%s>" % content)
        yield accepted("translate --table t", b"x", given=b"<%s>" % content, files={"t": table(string(content, b"x"))})
    for content in (b" 256", b"256 ", b"25 6"):
        yield refused("translate", refusal(9, 0, "the text", b"<%s>" % content), given=b"<%s>" % content)


def of_long_numbers():
    """Of a number over 72 bytes its start and its end are shown."""
    for zeros in (0, 68, 69):
        content = "0" * zeros + "321"
        yield over(b"<%s>" % content.encode(), 0, gave(content, 321, 0))
    for start, digits, value in (("", "0321", 321), ("&", "0141", 321), ("2_", "0101000001", 321), ("", "01234567890", 1234567890)):
        for length in (73, 74, 300, 9000, header.LONGEST - 2):
            content = start + "0" * (length - len(start) - len(digits)) + digits
            yield over(b"<%s>" % content.encode(), 0, gave(f"{content[:36]}...{content[-36:]}", value, 0))


def of_names_that_are_numbers():
    """A number is no name, whatever the tables have."""
    for kind in (string, macro):
        files = {"t": table(kind(b"256", b"<257>"), kind(b"4294967296", b"<4294967297>"), kind(b"256x", b"x"))}
        yield over(b"<256>", 0, gave("256", 256, 0), args="translate --table t", files=files)
        yield over(b"<256><256x>", 0, gave("256", 256, 0), args="translate --farm t", files=files)
        yield refused("translate --table t", refusal(4, 0, "the text", b"<4294967296>", NOT_IN_A_MACRO), given=b"<4294967296>",
                      files=files)
    yield in_macros(b"<256X>", [("321", 321, 1, "256x")], [macro(b"256x", b".<321>"), macro(b"256", b"<322>")])


def of_several():
    yield over(b"a<256>b<65><&141> <511>", 1, gave("256", 256, 1), gave("&141", 321, 11), gave("511", 511, 18))
    yield over(b"<321><321><321>", 0, *(gave("321", 321, place) for place in (0, 5, 10)))
    yield over(b"   <321>  <256>  ", 3, gave("321", 321, 3), gave("256", 256, 10))
    yield over(b">a><321>><256>>>", 3, gave("321", 321, 3), gave("256", 256, 9))
    for end in (b"\0", b"\n", b"\r", b"\r\n"):
        yield over(b"<321>a<256>%s<257>" % end, 0, gave("321", 321, 0), gave("256", 256, 6),
                   shown=b"<321>a<256>" + (b"\0<257>" if end == b"\0" else b""))
        yield over(b"<321>%s" % end, 0, gave("321", 321, 0), shown=b"<321>" + end.strip(b"\r\n"))


def of_quotes():
    """The rest of a quoted text is one, and the rest of another is none, whatever stands behind the reference."""
    for given, *told in (
            (b'"a<321>b"', ("321", 321, 2)), (b'  "<321>"  ', ("321", 321, 3)), (b'"<321><256>"', ("321", 321, 1), ("256", 256, 6)),
            (b'"a<321>""<256>"', ("321", 321, 2), ("256", 256, 9)), (b'"<321>""" ', ("321", 321, 1)),
            (b'"<321>""""<256>"""', ("321", 321, 1), ("256", 256, 10)), (b'"<321>  "" x<256>"', ("321", 321, 1), ("256", 256, 12)),
            # what stands behind the closing quote is refused by 8, an open quote at the end
            (b'"<321>"<256>', ("321", 321, 1)), (b'"<321>" <256>', ("321", 321, 1)), (b'"<321>""" <256>', ("321", 321, 1)),
            (b'  "<321>" <256>', ("321", 321, 3)), (b'"<321><256>', ("321", 321, 1), ("256", 256, 6)),
            (b'"<321>""<256>', ("321", 321, 1), ("256", 256, 8)),
            # no quote opens behind the start
            (b'<321>"a"b<256>', ("321", 321, 0), ("256", 256, 9)), (b'<321>"<256>', ("321", 321, 0), ("256", 256, 6)),
            (b'<321>  "a" b<256>', ("321", 321, 0), ("256", 256, 12)), (b'a "<321>" <256>', ("321", 321, 3), ("256", 256, 10)),
            (b'<321>""a"<256>', ("321", 321, 0), ("256", 256, 9))):
        yield over(given, told[0][2], *(gave(*one) for one in told))
    for given, *told in ((b'"<321>" <256>', ("321", 321, 1), ("256", 256, 8)), (b' "<321>"a"<256>', ("321", 321, 2), ("256", 256, 10)),
                         (b'"a<321>', ("321", 321, 2))):
        yield over(given, told[0][2], *(gave(*one) for one in told), args="translate --quote-plain")


def of_bars():
    """What stands behind a bar is no reference, but with --bar-plain."""
    yield accepted("translate", b"<321>", given=b"|<321>")
    yield over(b"|<321>", 1, gave("321", 321, 1), args="translate --bar-plain")
    yield over(b"|<321><256>", 6, gave("256", 256, 6))
    yield over(b"|<321><256>", 1, gave("321", 321, 1), gave("256", 256, 6), args="translate --bar-plain")
    yield over(b"<321>|<256>||<257>", 0, gave("321", 321, 0), gave("257", 257, 13))
    yield over(b"<321>|<256>|5<257>", 0, *(gave(*one) for one in (("321", 321, 0), ("256", 256, 6), ("257", 257, 13))),
               args="translate --bar-plain")
    yield over(b"<321>|!<256>", 0, gave("321", 321, 0))
    yield over(b"<321>|!", 0, gave("321", 321, 0))


def of_spaces():
    """With --space-ends what stands behind the end is not told."""
    for given, *told in (
            (b"<321> <256>", ("321", 321, 0)), (b"  <321>x<256> <257>", ("321", 321, 2), ("256", 256, 8)), (b"<321> ", ("321", 321, 0)),
            (b'"<321> <256>" <257>', ("321", 321, 1), ("256", 256, 7)), (b'"<321>"" <256>"', ("321", 321, 1), ("256", 256, 9)),
            (b'"<321>"<256>', ("321", 321, 1)), (b'<321>" <256>', ("321", 321, 0))):
        yield over(given, told[0][2], *(gave(*one) for one in told), args="translate --space-ends")
    yield accepted("translate --space-ends", b"a", [after(6, 1), SAY_LINES], given=b"a <256>")
    yield over(b'"<321> <256>"', 1, gave("321", 321, 1), args="translate --space-ends --quote-plain")


def of_ends():
    """Where the old reading would have been refused, it ends; where it was refused before, nothing is told."""
    files = {"farm": table(string(b"a", b"<321>"), integer(b"n", 321)), "house": b""}
    for wrong, number in ((b"<nmae>", 10), (b"<4294967296>", 4), (b"<<256>", 9), (b"<>", 9), (b"|5", 7), (b"<256 >", 9)):
        yield over(b"<321>" + wrong + b"<256>", 0, gave("321", 321, 0), args=BOTH, files=files)
        yield refused(BOTH, refusal(number, 1, "the text", b"a" + wrong + b"<256>"), given=b"a" + wrong + b"<256>", files=files)
    yield over(b"<a><n><321><A><N><256><a>", 6, gave("321", 321, 6), gave("256", 256, 17), args=BOTH, files=files)
    # all look-ups are allowed, and so is any room
    yield over(b"<321><a><256>", 0, gave("321", 321, 0), gave("256", 256, 8), args=f"{BOTH} --allowance 0 --room 0", files=files)
    yield refused(f"{BOTH} --allowance 0", refusal(12, 0, "the text", b"<a><321>"), given=b"<a><321>", files=files)
    for names, more in ((header.MOST_LOOK_UPS, 1), (header.MOST_LOOK_UPS + 1, 0)):
        given = b"<321>" + b"<a>" * names + b"<256>"
        yield over(given, 0, gave("321", 321, 0), *[gave("256", 256, len(given) - 5)][:more], args=BOTH, files=files)


def in_macros(given, told, variables, place=0, advice=IN_A_MACRO, args="translate --table t"):
    """The same for a text that names macros of one table; `told` has (content, value, place, the macro or None)."""
    lines = [gave(*one[:3], f"the macro {one[3]}" if one[3] else "the text") for one in told]
    return over(given, place, *lines, args=args, advice=advice, files={"t": table(*variables)})


def of_macros():
    one = macro(b"Page$Head", b"x<&141>")
    yield in_macros(b"b<PAGE$head>", [("&141", 321, 1, "Page$Head")], [one], 1)
    yield in_macros(b"b<PAGE$head>", [("&141", 321, 1, "Page$Head")], [one], 1, args="translate --farm t")
    # in the order of the reading, each macro once
    m, n = macro(b"m", b"<257>,<258>"), macro(b"N", b"<259><m><260>")
    of_m, of_n = [("257", 257, 0, "m"), ("258", 258, 6, "m")], [("259", 259, 0, "N"), ("260", 260, 8, "N")]
    yield in_macros(b"<256><m><261>", [("256", 256, 0, None), *of_m, ("261", 261, 8, None)], [m], advice=NOT_IN_A_MACRO)
    yield in_macros(b"<m><M><m>", of_m, [m])
    yield in_macros(b"<n>", [of_n[0], *of_m, of_n[1]], [m, n])
    yield in_macros(b"<n><m><n><261>", [of_n[0], *of_m, of_n[1], ("261", 261, 9, None)], [n, m])
    yield in_macros(b"<m><n><261>", [*of_m, *of_n, ("261", 261, 6, None)], [m, n])
    yield in_macros(b'"<m>""<n>""<261>"', [*of_m, *of_n, ("261", 261, 11, None)], [m, n], 1)
    # one that has nothing to tell, and what stands behind the end of a value
    yield in_macros(b"<e><m><e>", of_m, [m, macro(b"e", b"a<65>|<321>")], 3)
    yield in_macros(b"<e><e><256>", [("256", 256, 6, None)], [macro(b"e", b"a\n<321>"), m], 6, NOT_IN_A_MACRO)
    yield in_macros(b"<e><256>", [("257", 257, 0, "e"), ("256", 256, 3, None)], [macro(b"e", b"<257>\0<321>")])


def of_flags_in_macros():
    """A macro's value is a text without flags, with quotes of its own."""
    quoted = macro(b"m", b'  "a<321>""<256>" ')
    yield in_macros(b"<m><257>", [("321", 321, 4, "m"), ("256", 256, 11, "m"), ("257", 257, 3, None)], [quoted])
    for flag in ("--space-ends", "--bar-plain", "--quote-plain"):
        args = f"translate {flag} --table t"
        yield in_macros(b"<m><257>", [("321", 321, 4, "m"), ("256", 256, 11, "m"), ("257", 257, 3, None)], [quoted], args=args)
        yield in_macros(b"<m><257>", [("321", 321, 0, "m"), ("256", 256, 14, "m"), ("257", 257, 3, None)],
                        [macro(b"m", b'<321> |<322>"x<256>')], args=args)
        yield in_macros(b"<m><257>", [("321", 321, 1, "m")], [macro(b"m", b'"<321>" <256>')], args=args)
    yield in_macros(b'"<m>"" <257>"', [("321", 321, 0, "m"), ("256", 256, 8, "m"), ("257", 257, 7, None)],
                    [macro(b"m", b'<321>"a"<256>')], 1)


def of_ends_in_macros():
    """Where the old reading would have been refused in a macro, all ends."""
    for wrong in (b"<nmae>", b"<4294967296>", b"<", b"|5"):
        some = [macro(b"m", b"<321>" + wrong + b"<256>"), macro(b"n", b"<257><m><258>")]
        yield in_macros(b"<m><256>", [("321", 321, 0, "m")], some)
        yield in_macros(b"<n><m><256>", [("257", 257, 0, "n"), ("321", 321, 0, "m")], some)
        yield in_macros(b"<256><n><256>", [("256", 256, 0, None), ("257", 257, 0, "n"), ("321", 321, 0, "m")], some,
                        advice=NOT_IN_A_MACRO)
    yield in_macros(b"<m><256>", [("321", 321, 1, "m"), ("256", 256, 6, "m")], [macro(b"m", b'"<321><256>')])
    # macros that name themselves, or one another, would not have come to an end
    yield in_macros(b"<m><256>", [("321", 321, 0, "m")], [macro(b"m", b"<321><m><257>")])
    yield in_macros(b"<a><256>", [("321", 321, 0, "a"), ("322", 322, 1, "b")],
                    [macro(b"a", b"<321><b><257>"), macro(b"b", b".<322><A><258>")])
    some = [macro(b"m", b"<m><321>")]
    yield refused("translate --table t", refusal(11, 0, "the text", b"<m><256>"), given=b"<m><256>", files={"t": table(*some)})
    yield in_macros(b"<256><m><257>", [("256", 256, 0, None)], some, advice=NOT_IN_A_MACRO)


def of_two_tables():
    """A farm's macro hides the house's of the same name; whose it is, is told where both tables are given."""
    farm, house = [macro(b"m", b"<321>"), string(b"s", b"x")], [macro(b"M", b"<256>"), macro(b"n", b".<257><m>"), macro(b"S", b"<258>")]
    files = {"farm": table(*farm), "house": table(*house), "i": index(*house), "none": b""}
    of_farm, of_house = gave("321", 321, 0, "the farm's macro m"), gave("257", 257, 1, "the house's macro n")
    for args in (BOTH, f"{BOTH} --index i"):
        yield over(b"<M>", 0, of_farm, args=args, advice=IN_A_MACRO, files=files)
        yield over(b"<n><m><s>", 0, of_house, of_farm, args=args, advice=IN_A_MACRO, files=files)
        yield over(b"<s><m><n><258>", 3, of_farm, of_house, gave("258", 258, 9), args=args, advice=IN_A_MACRO, files=files)
    for args in ("translate --table house", "translate --table house --index i"):
        yield over(b"<n>", 0, gave("257", 257, 1, "the macro n"), gave("256", 256, 0, "the macro M"), args=args, advice=IN_A_MACRO,
                   files=files)
    yield over(b"<m>", 0, gave("256", 256, 0, "the house's macro M"), args="translate --farm none --table house", advice=IN_A_MACRO,
               files=files)
    yield over(b"<m>", 0, gave("321", 321, 0, "the farm's macro m"), args="translate --farm farm --table none", advice=IN_A_MACRO,
               files=files)
    # two records at the same place of their tables, and two alike
    files = {"farm": table(macro(b"a", b"<256>")), "house": table(macro(b"b", b"<256>"), macro(b"c", b"<256>"))}
    yield over(b"<a><b><a><c><b>", 0, gave("256", 256, 0, "the farm's macro a"), gave("256", 256, 0, "the house's macro b"),
               gave("256", 256, 0, "the house's macro c"), args=BOTH, advice=IN_A_MACRO, files=files)


def of_lines():
    """Each refused line has its own, and its macros anew."""
    def line(number, data, place, *told, advice=NOT_IN_A_MACRO):
        return [f"refused 21, Code over 255, at byte {place} of line {number}", Shown(data, place), advice, *told]
    files = {"t": table(macro(b"m", b"<257>"))}
    of_m = gave("257", 257, 0, "the macro m")
    yield refused("translate --lines --table t", [
        *line(1, b"<321><m>", 0, gave("321", 321, 0, "line 1"), of_m),
        *line(3, b"<m>a<256>", 0, of_m, gave("256", 256, 4, "line 3"), advice=IN_A_MACRO), NOTHING_WRITTEN,
    ], given=b"<321><m>\nLower Ash\r\n<m>a<256>", files=files)
    yield refused("translate --lines", [
        *line(1, b'"<321>" "', 1, gave("321", 321, 1, "line 1")), "refused 9, Bad reference, at byte 0 of line 2", Shown(b"<", 0), ADVICE,
        *line(4, b"<256><257>", 0, gave("256", 256, 0, "line 4"), gave("257", 257, 5, "line 4")), NOTHING_WRITTEN,
    ], given=b'"<321>" "\n<\n\n<256><257>\n')


def of_many_macros():
    """Both tables full of macros, each of which names the next one behind a number: a macro is a text of its own, at any depth."""
    count = 2 * MOST_RECORDS
    some = [macro(b"m%d" % number, b"<%d><m%d>" % (256 + number, number + 1)) for number in range(count - 1)]
    some.append(macro(b"m%d" % (count - 1), b"<&100>"))
    farm, house = some[::2], some[1::2]
    told = [gave(f"{256 + number}", 256 + number, 0, f"the {whose}'s macro m{number}")
            for number, whose in enumerate(["farm", "house"] * (count // 2))]
    told[-1] = gave("&100", 256, 0, f"the house's macro m{count - 1}")
    files = {"farm": table(*farm), "house": table(*house), "i": index(*house)}
    for args in (BOTH, f"{BOTH} --index i"):
        given = b"".join(b"<m%d>" % number for number in (0, count - 1, 300, 1)) + b"<256>"
        yield over(given, 0, *told, gave("256", 256, len(given) - 5), args=args, advice=IN_A_MACRO, files=files)


def of_many_references():
    """As many numbers as a text can have, and names of macros."""
    for opener in (b"", b'"'):
        count = (header.LONGEST - 2 * len(opener)) // len(b"<256>")
        told = [gave("256", 256, len(opener) + 5 * number) for number in range(count)]
        yield over(opener + b"<256>" * count + opener, len(opener), *told)
    yield in_macros(b"<m>" * (header.LONGEST // 3), [("256", 256, 0, "m")], [macro(b"m", b"<256>")])
    yield in_macros(b"<m>", [("256", 256, 5 * number, "m") for number in range(51)], [macro(b"m", b"<256>" * 51)])


# pieces of a text, and in those that are a number over 255 its value; the names are those of RANDOM
PIECES = [(b"Lower Ash", None), (b"  ", None), (b"<65>", None), (b"|<", None), (b"|<321>", None), (b"||", None), (b"|!a", None),
          (b"<s>", None), (b"<n>", None), (b">", None), (b"\xff", None), (b"<321>", 321), (b"<&1ff>", 511), (b"<36_zz>", 1295),
          (b"<0256>", 256), (b"<m>", "m"), (b"<Outer>", "Outer"), (b"<OUTER>", "Outer")]
WRONG = (b"<nmae>", b"|5", b"<4294967296>", b"<>", b"<bad>")
RANDOM = table(string(b"s", b"<321>"), integer(b"n", 321), macro(b"m", b"a <290>"), macro(b"Outer", b"<m>|<<289>"), macro(b"bad", b"<"))
IN_M = [gave("290", 290, 2, "the macro m")]
IN_OUTER = [gave("289", 289, 5, "the macro Outer")]


def random_text(seed):
    """A text, the place of its first number over 255 or macro, whether that is a macro, and what is told."""
    chance = random.Random(seed)
    quoted, first, told, passed = chance.randrange(2), None, [], set()
    given = b'"' if quoted else b"."
    pieces = [chance.choice([*PIECES, (b'""' if quoted else b'"', None)]) for _ in range(chance.randrange(1, 30))]
    pieces.insert(chance.randrange(len(pieces) + 1), (b"<321>", 321))
    for piece, value in pieces:
        if value is not None and first is None:
            first = (len(given), isinstance(value, str))
        if isinstance(value, int):
            told.append(gave(piece[1:-1].decode(), value, len(given)))
        if value is not None and not isinstance(value, int):
            told += IN_M if "m" not in passed else []
            told += IN_OUTER if value == "Outer" and "Outer" not in passed else []
            passed |= {"m", value}
        given += piece
    if chance.randrange(2):
        return given + chance.choice(WRONG) + b"<257>", *first, told
    return given + (b'"' if quoted else b""), *first, told


def of_random_texts():
    for seed in range(150):
        given, place, is_macro, told = random_text(seed)
        yield over(given, place, *told, args="translate --table t", advice=IN_A_MACRO if is_macro else NOT_IN_A_MACRO,
                   files={"t": RANDOM})


def cases():
    for some in (of_the_manual, of_numbers, of_long_numbers, of_names_that_are_numbers, of_several, of_quotes, of_bars, of_spaces,
                 of_ends, of_macros, of_flags_in_macros, of_ends_in_macros, of_two_tables, of_lines, of_many_macros,
                 of_many_references, of_random_texts):
        yield from some()
