"""Standard input from a terminal: one Ctrl-D at the start of a line ends it; in the middle of one it takes two, as everywhere."""

import os
import pty

from .messages import Something
from .trial import Case, title
from .variables import ONE

CTRL_D = b"\x04"


def typed(args, keys, out=b"", makes=None):
    """A case: these keys are typed, then Ctrl-D once, and the command ends with its answer."""
    def work(trial):
        before = trial.found()
        ours, theirs = pty.openpty()
        try:
            process = trial.start(args, stdin=theirs)
            os.close(theirs)
            os.write(ours, keys + CTRL_D)
            trial.judge(trial.finish(process), 0, out, [Something()])  # that it is being read
        finally:
            os.close(ours)
        trial.judge_files(before, makes or {})
    return Case(f"{title(args)}, from a terminal", work)


def cases():
    yield typed("translate", b"<65>sh\n", b"Ash")
    yield typed("translate -", b"<65>sh\n", b"Ash")
    yield typed("translate -o out", b"<65>sh\n", makes={"out": b"Ash"})
    yield typed("translate --lines", b"<65>sh\ndue\n", b"Ash\ndue\n")
    yield typed("translate", b"<65>sh" + CTRL_D, b"Ash")
    yield typed("translate --lines", b"<65>sh\ndue" + CTRL_D, b"Ash\ndue")
    yield typed("translate", b"", b"")
    yield typed("translate --lines", b"", b"")
    yield typed("table make t", b"a string x\n", makes={"t": ONE})
    yield typed("table make t -", b"# nothing\na string x\n", makes={"t": ONE})
    yield typed("table make t -", b"a string x" + CTRL_D, makes={"t": ONE})
    yield typed("table check -", b"", b"good: 0 variables, 0 bytes\n")
    yield typed("table show -", b"", b"")
    yield typed("table index -", b"", b"")
