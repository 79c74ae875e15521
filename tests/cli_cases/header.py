"""What include/nosgoludd.h says: the version, the words for each refusal, and the numbers that each function refuses by."""

import re
from pathlib import Path

TEXT = (Path(__file__).resolve().parents[2] / "include" / "nosgoludd.h").read_text(encoding="ascii")


def _version():
    found = re.search(r'^#define NOS_VERSION "([^"]+)"', TEXT, re.M)
    return found[1] if found else None


def _words():
    table = re.search(r"words\[\] = \{(.*?)\};", TEXT, re.S)[1]
    return re.findall(r'"([^"]*)"', table)


def _refuses_by():
    """For each function the numbers that the comment above enum nos_refusal lists, in its order."""
    comment = re.search(r"/\*((?:(?!\*/).)*)\*/\s*enum nos_refusal", TEXT, re.S)[1]
    plain = re.sub(r"\s*\n \* ?", " ", comment)
    return {name: [int(number) for number in re.findall(r"\d+", numbers)]
            for name, numbers in re.findall(r"(nos_\w+) (?:refuses )?by ((?:\d+(?:, | and )?)+)", plain)}


VERSION = _version()
WORDS = _words()
REFUSES_BY = _refuses_by()
LONGEST = int(re.search(r"#define NOS_LONGEST (\d+)u", TEXT)[1])
MOST_LOOK_UPS = 1024
LONG = b"a" * (LONGEST + 1)  # whatever is so long is refused by 18
TIME = "487E2A9141"          # that of the header's examples: 13:25:54.00 on Tuesday 28 March 1989
