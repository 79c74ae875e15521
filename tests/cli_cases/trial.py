"""One case of the command: a fresh folder, files in it, a run, and all that has to be so afterwards."""

import os
import re
import shlex
import shutil
import signal
import stat
import subprocess
import tempfile
from typing import Callable, NamedTuple

from . import messages

PATIENCE = 120  # seconds for one run
NOBODY = 65534  # a user who is not root
SHOWN = 400     # characters of a value in the report of a failed check


class Command:
    """The command that is tested, by its words; the last one is the program itself."""

    def __init__(self, given):
        self.words = [self._found(word) for word in given]
        self.public = tempfile.mkdtemp(prefix="nos-program-")
        os.chmod(self.public, 0o755)
        # a user who is not root may have no way into the folder that the program is in
        self.for_nobody = [*self.words[:-1], shutil.copy(self.words[-1], self.public)]

    @staticmethod
    def _found(word):
        """A word that is a file or a program, with its whole path: the cases run in other folders."""
        return os.path.abspath(word) if os.path.isfile(word) else shutil.which(word) or word

    def words_for(self, nobody):
        return self.for_nobody if nobody else self.words

    def forget(self):
        """Removes the copy."""
        shutil.rmtree(self.public)


class Ran(NamedTuple):
    """What came of a run."""

    status: int
    out: bytes
    err: bytes


class Case(NamedTuple):
    """A case by its title, and the function that tries it."""

    title: str
    work: Callable


class File(NamedTuple):
    """What has to stay the same of a file that a run does not make. Of a folder or a device there are no bytes and no time."""

    data: bytes | None
    written: int | None
    inode: int
    mode: int


def brief(value):
    """A value for a report."""
    text = repr(value)
    return text if len(text) <= SHOWN else f"{text[:SHOWN // 2]} .. {text[-SHOWN // 2:]} ({len(text)} characters)"


def words(args):
    """The words of a command; one in a single string is split as a shell does."""
    split = shlex.split(args) if isinstance(args, str) else args
    return [word if isinstance(word, bytes) else os.fsencode(word) for word in split]


def title(args):
    """A command as a line for people."""
    line = " ".join(shlex.quote(word.decode("ascii", "backslashreplace")) for word in words(args))
    return f"nos {line}" if len(line) <= 120 else f"nos {line[:117]}..."


def as_bytes(value):
    return value.encode("ascii") if isinstance(value, str) else value


def names_below(folder):
    """Every name in a folder and in those that are in it, as a path from there."""
    for at, folders, names in os.walk(folder):
        for name in [*folders, *names]:
            yield os.path.relpath(os.path.join(at, name), folder)


class Trial:
    """A fresh folder in which a command is tried. `checks` counts what was looked at, `failures` says what was not so."""

    def __init__(self, command, heading):
        self.command, self.heading = command, heading
        self.checks, self.failures = 0, []

    def __enter__(self):
        self.folder = tempfile.mkdtemp(prefix="nos-")
        os.chmod(self.folder, 0o755)
        return self

    def __exit__(self, *_):
        os.chmod(self.folder, 0o755)  # a case may have closed it
        shutil.rmtree(self.folder)

    def path(self, name):
        return os.path.join(self.folder, name)

    def write(self, files):
        """Files of these names and bytes."""
        for name, data in files.items():
            with open(self.path(name), "wb") as file:
                file.write(as_bytes(data))

    def read(self, name):
        """The bytes of a file, or None where there is none, or none that may be read."""
        try:
            with open(self.path(name), "rb") as file:
                return file.read()
        except (FileNotFoundError, PermissionError):
            return None

    def give_to_nobody(self, name):
        """Makes a file, and the folder, those of the user that `nobody` runs a command as; without root they are already."""
        if os.getuid() == 0:
            for path in (self.folder, self.path(name)):
                os.chown(path, NOBODY, NOBODY)

    def permissions(self, name):
        """The permissions of a file in octal, or None where there is none."""
        return f"{os.stat(self.path(name)).st_mode & 0o7777:o}" if os.path.exists(self.path(name)) else None

    def found(self):
        """All that is in the folder, by name."""
        return {name: self._file(name) for name in names_below(self.folder)}

    def _file(self, name):
        status = os.lstat(self.path(name))
        if not stat.S_ISREG(status.st_mode):
            return File(None, None, status.st_ino, status.st_mode)
        return File(self.read(name), status.st_mtime_ns, status.st_ino, status.st_mode)

    def expect(self, what, expected, seen):
        """A check: these two are equal."""
        self.checks += 1
        if expected != seen:
            self.failures.append(f"{self.heading}\n    {what}: expected {brief(expected)}\n    {' ' * len(what)}  seen     "
                                 f"{brief(seen)}")

    def hold(self, what, fault):
        """A check: there is no fault."""
        self.checks += 1
        if fault:
            self.failures.append(f"{self.heading}\n    {what}: {fault}")

    def start(self, args, shell=None, nobody=False, umask=-1, stdin=subprocess.PIPE, stdout=subprocess.PIPE):
        """Starts the command. `shell` is a line of sh that runs it as "$@", to close or to limit something first."""
        argv = [*self.command.words_for(nobody), *words(args)]
        if shell is not None:
            argv = ["sh", "-c", shell, "sh", *argv]
        user = {"user": NOBODY, "group": NOBODY, "extra_groups": []} if nobody and os.getuid() == 0 else {}
        return subprocess.Popen(argv, stdin=stdin, stdout=stdout, stderr=subprocess.PIPE, cwd=self.folder, umask=umask, **user)

    @staticmethod
    def finish(process, given=None):
        """What came of a command that was started; this is given to its standard input."""
        try:
            out, err = process.communicate(given, timeout=PATIENCE)
        except subprocess.TimeoutExpired:
            process.kill()
            out, err = process.communicate()
            return Ran("no end", out or b"", err)
        return Ran(process.returncode, out or b"", err)

    def run(self, args, given=b"", **how):
        """Runs the command with this on its standard input."""
        return self.finish(self.start(args, **how), as_bytes(given))

    def judge(self, ran, status, out=b"", says=()):
        """What a run did: its status, its answer and what it said."""
        seen = ran.status
        if isinstance(seen, int) and seen < 0:
            seen = f"ended by {signal.Signals(-seen).name}"
        self.expect("status", status, seen)
        if isinstance(out, re.Pattern):
            self.hold("standard output", None if out.fullmatch(ran.out) else f"expected {out.pattern}, seen {brief(ran.out)}")
        else:
            self.expect("standard output", as_bytes(out), ran.out)
        wrong = messages.fault(says, ran.err)
        self.hold("standard error", wrong and f"{wrong}\n    {'all of it':>14}: {brief(ran.err)}")

    def judge_files(self, before, makes):
        """What is in the folder: the files that were made, with their bytes, and all else as it was."""
        after = self.found()
        self.expect("files in the folder", sorted({*before, *makes}), sorted(after))
        self.expect("what was made", {name: as_bytes(data) for name, data in makes.items()},
                    {name: after[name].data for name in makes if name in after})
        kept = {name: file for name, file in before.items() if name not in makes}
        self.expect("what was there", kept, {name: file for name, file in after.items() if name in kept})

    def holds(self, args, status, out=b"", says=(), makes=None, **how):
        """Runs the command, and looks at all that it did."""
        before = self.found()
        ran = self.run(args, **how)
        self.judge(ran, status, out, says)
        self.judge_files(before, makes or {})
        return ran


def case(args, status, out, says, files=None, modes=None, makes=None, **how):
    """A case: with these files there, of these permissions, all this comes of a run."""
    def work(trial):
        trial.write(files or {})
        for name, mode in (modes or {}).items():
            os.chmod(trial.path(name), mode)
        trial.holds(args, status, out, says, makes, **how)
    return Case(title(args), work)


def accepted(args, out=b"", says=(), **how):
    """A case: accepted, with this answer on standard output, these lines beside it, and the files that it `makes`."""
    return case(args, 0, out, says, **how)


def refused(args, says, **how):
    """A case: refused with these lines. Nothing is on standard output, and every file is as it was."""
    return case(args, 1, b"", says, **how)


def wrong_usage(args, **how):
    """A case: wrong usage."""
    return case(args, 2, b"", [messages.Something()], **how)


def cannot(args, name="", **how):
    """A case: what has this name could not be read or written."""
    return case(args, 3, b"", [messages.Something(name)], **how)
