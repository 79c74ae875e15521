"""Holds dates to Python's own calendar: python3 tests/days.py CASES ANSWERS, two files with a line of answer for each line of case.

The cases must be every day that a time can have, at its first and its last hundredth of a second, each with every field. tests/calendar
runs it. It ends with status 1 at the first answer that is not as datetime has it, or where a day or a field is left out.
"""

import re
import sys
from datetime import datetime, timedelta

START = datetime(1900, 1, 1)
LAST = 2**40 - 1  # the largest number of five bytes
DAY = 24 * 60 * 60 * 100
DAYS = (datetime(2248, 6, 3) - START).days + 1

# what strftime writes, by our field for it; it has no field for hundredths, and none everywhere for the century
KNOWN = {"SE": "%S", "MI": "%M", "24": "%H", "DY": "%d", "MN": "%m", "YR": "%y", "DN": "%j", "M3": "%b", "W3": "%a"}
FIELDS = {*KNOWN, "CS", "CE"}


def fields_at(time):
    """What every field gives for a time."""
    moment = START + timedelta(milliseconds=10 * time)
    given = dict(zip(KNOWN, moment.strftime(" ".join(KNOWN.values())).split(" ")))
    given["CS"] = f"{moment.microsecond // 10000:02}"
    given["CE"] = f"{moment.year // 100:02}"
    return given


def answer_to(time, form, room):
    """The line of answer for a format that has fields and ordinary bytes, and room enough."""
    given = fields_at(time)
    string = re.sub("%(..)", lambda field: given[field[1]], form)
    return f"ok {string.encode().hex()} {len(string)} {room - len(string)}"


def check_all(cases, answers):
    """Every line is as it must be, and every day is there."""
    left = {min(day * DAY + part, LAST) for day in range(DAYS) for part in (0, DAY - 1)}
    if len(cases) != len(answers):
        sys.exit(f"{len(answers)} answers to {len(cases)} cases")
    for case, answer in zip(cases, answers):
        _, time_hex, form_hex, room = case.split(" ")
        time, form = int.from_bytes(bytes.fromhex(time_hex), "little"), bytes.fromhex(form_hex).decode()
        expected = answer_to(time, form, int(room))
        if answer != expected:
            sys.exit(f"{case}\n  the answer is {answer}\n  Python has     {expected}")
        if not FIELDS <= set(re.findall("%(..)", form)):
            sys.exit(f"{case}\n  has not every field")
        left.discard(time)
    if left:
        sys.exit(f"{len(left)} first or last hundredths of a day are left out, the first of them at {min(left)}")


def main():
    cases, answers = (open(name, encoding="ascii").read().splitlines() for name in sys.argv[1:])
    check_all(cases, answers)
    print(f"{len(cases)} dates of {DAYS} days agree with Python's datetime")


main()
