"""Tables of variables as the header and docs/NOS.md have them: as bytes, with their index, and as text. This is the tests' own model
of them."""

from typing import NamedTuple

KINDS = ("string", "integer", "macro")
MOST_RECORDS = 256
LONGEST_NAME, LONGEST_VALUE = 32, 255
HEAD = 5  # the bytes of a record before its name
NAME_BYTES = bytes(byte for byte in range(33, 127) if byte not in b'"<>')


class Variable(NamedTuple):
    name: bytes
    kind: str
    value: bytes

    def record(self):
        """The bytes that it takes in a table."""
        return bytes([86, 82, KINDS.index(self.kind), len(self.name), len(self.value)]) + self.name + self.value

    def line(self):
        """The line that `nos table show` writes, without its end."""
        value = shown_integer(self.value) if self.kind == "integer" else shown_value(self.value)
        return b" ".join([shown_name(self.name), self.kind.encode(), *([value] if value else [])])


def string(name, value=b""):
    return Variable(name, "string", value)


def macro(name, value):
    return Variable(name, "macro", value)


def integer(name, number):
    return Variable(name, "integer", (number % 2**32).to_bytes(4, "little"))


def table(*variables):
    """The bytes of a table."""
    return b"".join(variable.record() for variable in variables)


def index(*variables):
    """The index of a table: the places of the records, two bytes each with the lower first, sorted by name."""
    places = [len(table(*variables[:number])) for number in range(len(variables))]
    by_name = sorted(zip(variables, places), key=lambda one: one[0].name.lower())
    return b"".join(place.to_bytes(2, "little") for _, place in by_name)


def text(*variables):
    """The text of a table, as `nos table show` writes it."""
    return b"".join(variable.line() + b"\n" for variable in variables)


def hexed(byte):
    return b"\\x%02X" % byte


def shown_byte(byte):
    return b"\\\\" if byte == ord("\\") else bytes([byte]) if 32 <= byte <= 126 else hexed(byte)


def shown_value(value):
    """A value as text: what is not printable ASCII in hex, and a space at the start and at the end."""
    shown = [shown_byte(byte) for byte in value]
    for end in (0, -1):
        if value and value[end] == ord(" "):
            shown[end] = hexed(ord(" "))
    return b"".join(shown)


def shown_integer(value):
    return b"%d" % int.from_bytes(value, "little", signed=True)


def shown_name(name):
    shown = shown_value(name)
    return hexed(ord("#")) + shown[1:] if shown.startswith(b"#") else shown


def place_of(variables, name):
    """Where the record of a name is in the list, whatever the case of its letters; None where it is in none."""
    for index, variable in enumerate(variables):
        if variable.name.lower() == name.lower():
            return index
    return None


def filled(length):
    """Variables, strings all, whose table has so many bytes; a length that one record alone cannot have but two can, will do."""
    variables = []
    most = HEAD + 4 + LONGEST_VALUE
    while length:
        size = length if length <= most else min(most, length - HEAD - 4)
        variables.append(string(b"V%03d" % len(variables), b"v" * (size - HEAD - 4)))
        length -= size
    return variables


ONE = table(string(b"a", b"x"))

# the farm and the house of the project's first page: examples/c/first.c
FARM = [string(b"Farm$Name", b"Lower Ash"), integer(b"Quantity", 1048576)]
HOUSE = [string(b"Farm$Name", b"Unnamed"), string(b"Unit", b"kg")]
