"""One accepted and one refused run of every command: few enough to look for leaks in, which takes some machines seconds for each."""

from .commands import ALL, TABLES
from .messages import gave, refusal
from .refusals import every_refusal
from .trial import accepted, refused
from .variables import HOUSE, index, macro, table


def cases():
    for name, synopsis in ALL.items():
        yield accepted([*name, *synopsis.arguments], synopsis.out, files=synopsis.files, given=synopsis.given,
                       makes=synopsis.makes)
    yield accepted("translate --farm farm --table house --index i", b"Lower Ash kg", files={**TABLES, "i": index(*HOUSE)},
                   given=b"<Farm$Name> <Unit>")
    yield refused("translate --farm farm", refusal(21, 0, "the text", b"<m><m><257>", told=[
        gave("256", 256, 0, "the macro m"), gave("257", 257, 6)]), files={"farm": table(macro(b"m", b"<256>"))}, given=b"<m><m><257>")
    first = {}
    for one in every_refusal():
        if one.number != 18:  # what is over 65,535 bytes takes another way
            first.setdefault(one.command, one)
    for one in first.values():
        yield refused(one.args, one.says, files=one.files, given=one.given)
