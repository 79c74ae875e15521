"""Where an answer goes: standard output that is full, closed or left by its reader, and files, made whole or not at all."""

import os
import socket
import subprocess
import tempfile

from . import header
from .commands import ANSWERING, WITH_OUTPUT
from .header import TIME
from .messages import SAY_LINES, Something, after, refusal
from .trial import Case, accepted, cannot, refused, title
from .variables import ONE, filled, string, table, text

WIDE = b"w" * header.LONGEST
OLD = {"old": b"what was there"}
SHARED_MEMORY = "/dev/shm"
SMALL_FILES = 'trap "" XFSZ; ulimit -f 16; exec "$@"'  # of 8,192 bytes, or twice that


def ways_to_answer():
    """The words of commands that write to standard output, with the files and the input that they need."""
    for name, synopsis in ANSWERING.items():
        yield [*name, *synopsis.arguments], {"files": synopsis.files, "given": synopsis.given}
    yield ["translate"], {"given": WIDE}
    for args in ("--help", "--version", "translate --help", "table --help"):
        yield args, {}


def into(args, opened, files=None, given=b""):
    """A case: standard output is what `opened` gives, and cannot be written."""
    def work(trial):
        trial.write(files or {})
        before = trial.found()
        writer = opened()
        try:
            trial.judge(trial.run(args, given=given, stdout=writer), 3, b"", [Something()])
        finally:
            os.close(writer)
        trial.judge_files(before, {})
    return Case(f"{title(args)}, into {opened.__name__}", work)


def full():
    return os.open("/dev/full", os.O_WRONLY)


def pipe_without_reader():
    reader, writer = os.pipe()
    os.close(reader)
    return writer


def of_standard_output():
    for args, how in ways_to_answer():
        yield into(args, full, **how)
        yield into(args, pipe_without_reader, **how)
        yield cannot(args, shell='exec "$@" >&-', **how)
        if not how.get("given"):
            yield cannot(args, shell='exec "$@" <&- >&-', **how)


def to_new_file(args, data, umask, mode, **how):
    """A case: a new file gets the answer, and the permissions that new files have."""
    def work(trial):
        trial.write(how.get("files", {}))
        trial.holds(args, 0, makes={"new": data}, given=how.get("given", b""), umask=umask)
        trial.expect("permissions", f"{mode:o}", trial.permissions("new"))
    return Case(f"{title(args)}, umask {umask:o}", work)


def to_old_file(args, name, data, mode, files, given=b""):
    """A case: an old file is replaced as a whole. It keeps its permissions; who has it open, or by another name, has what it had."""
    def work(trial):
        trial.write(files)
        os.chmod(trial.path(name), mode)
        os.link(trial.path(name), trial.path("link"))
        with open(trial.path(name), "rb") as reader:
            trial.judge(trial.run(args, given=given, umask=0o077), 0)
            trial.expect("the open file", files[name], reader.read())
        trial.expect("the file", data, trial.read(name))
        trial.expect("the old bytes", files[name], trial.read("link"))
        trial.expect("permissions", f"{mode:o}", trial.permissions(name))
        trial.expect("files in the folder", sorted({*files, "link"}), sorted(trial.found()))
    return Case(f"{title(args)}, a file of {mode:o}", work)


def of_files():
    for name, synopsis in WITH_OUTPUT.items():
        args = [*name, *synopsis.arguments, "-o"]
        for umask, mode in ((0o022, 0o644), (0o027, 0o640), (0, 0o666)):
            yield to_new_file([*args, "new"], synopsis.out, umask, mode, files=synopsis.files, given=synopsis.given)
        for mode in (0o644, 0o600, 0o604, 0o755):
            yield to_old_file([*args, "old"], "old", synopsis.out, mode, {**synopsis.files, **OLD}, synopsis.given)
    one, two = string(b"a", b"x"), string(b"b", b"y")
    for mode in (0o644, 0o600, 0o604):
        yield to_old_file("table set t b string y", "t", table(one, two), mode, {"t": table(one)})
        yield to_old_file("table unset t b", "t", table(one), mode, {"t": table(one, two)})
        yield to_old_file("table make t", "t", table(one, two), mode, {"t": b"old"}, text(one, two))
    yield to_new_file("table make new", table(one), 0o027, 0o640, given=text(one))


def of_names():
    """Where a file can be, and what else can have its name."""
    yield accepted("translate -o text text", makes={"text": b"A"}, files={"text": b"<65>"})
    yield accepted("table show -o t t", makes={"t": b"a string x\n"}, files={"t": ONE})
    yield accepted("table index -o t t", makes={"t": b"\0\0"}, files={"t": ONE})
    yield accepted("table make t t", makes={"t": ONE}, files={"t": b"a string x\n"})
    yield accepted("translate -o ./new", makes={"new": b"Ash"}, given=b"Ash")
    yield accepted("translate -o 'a new one'", makes={"a new one": b"Ash"}, given=b"Ash")
    for length in (200, 255):
        yield accepted(f"translate -o {'n' * length}", makes={"n" * length: b"Ash"}, given=b"Ash")
    yield accepted("translate -o new", makes={"new": b""})
    yield accepted("translate -o old", makes={"old": b""}, files=OLD)
    for name in (".", "..", "missing/new", "old/new"):
        yield cannot(f"translate -o {name}", name, given=b"Ash", files=OLD)
        yield cannot(f"convert hex1 5 -o {name}", name, files=OLD)
        yield cannot(f"table index - -o {name}", name, given=ONE, files=OLD)
        yield cannot(f"table make {name}", name, given=b"a string x\n", files=OLD)
    yield cannot("table set . a string x", ".")
    yield cannot("table unset . a", ".")
    # never as root: a command with a fault could put a file in the place of the machine's device
    for device in ("/dev/null", "/dev/full"):
        yield cannot(f"translate -o {device}", device, given=b"Ash", nobody=True)
        yield cannot(f"table make {device}", device, given=b"a string x\n", nobody=True)
    yield cannot("table set /dev/null a string x", "/dev/null", nobody=True)
    yield Case("nos translate -o pipe", to_pipe_and_socket)
    yield Case("nos translate -o in/new", to_other_folder)
    yield Case("nos translate -o, on another file system", to_other_file_system)
    yield Case("nos translate -o, links", to_links)
    yield Case("nos translate -o, links in a circle", to_circle)


def to_pipe_and_socket(trial):
    """A named pipe and a socket are no plain files: they stay, and nobody waits for a reader."""
    os.mkfifo(trial.path("pipe"))
    with socket.socket(socket.AF_UNIX) as listening:
        listening.bind(trial.path("socket"))
    for name in ("pipe", "socket"):
        trial.holds(f"translate -o {name}", 3, says=[Something(name)], given=b"Ash")
        trial.holds(f"table make {name}", 3, says=[Something(name)], given=b"a string x\n")


def to_other_folder(trial):
    os.mkdir(trial.path("in"))
    trial.holds("translate -o in/new", 0, makes={"in/new": b"Ash"}, given=b"Ash")
    trial.holds(["translate", "-o", trial.path("in/other")], 0, makes={"in/other": b"Ash"}, given=b"Ash")
    trial.holds("translate -o in", 3, says=[Something("in")], given=b"Ash")


def to_other_file_system(trial):
    """The new file is made beside the old one: from another file system it could not take its name."""
    if not os.path.isdir(SHARED_MEMORY) or os.stat(SHARED_MEMORY).st_dev == os.stat(trial.folder).st_dev:
        return
    with tempfile.TemporaryDirectory(prefix="nos-", dir=SHARED_MEMORY) as folder:
        file = os.path.join(folder, "new")
        for text in (b"Ash", b"due"):
            trial.holds(["translate", "-o", file], 0, given=text)
            trial.expect("the file", text, trial.read(file))
        trial.expect("files in that folder", ["new"], os.listdir(folder))


def to_links(trial):
    """A link stays, and the file that it points to gets the answer: through other links too, and where there was none."""
    os.mkdir(trial.path("in"))
    trial.write({"in/old": b"old", "in/t": ONE})
    for name, target in (("link", "in/old"), ("in/link", "old"), ("second", "link"), ("in/up", "../second"), ("nothing", "in/new"),
                         ("table", "in/t"), ("folder", "in")):
        os.symlink(target, trial.path(name))
    for name in ("link", "in/link", "second", "in/up"):
        trial.holds(f"translate -o {name}", 0, makes={"in/old": name.encode()}, given=name)
    trial.holds("translate -o folder/old", 0, makes={"in/old": b"Ash"}, given=b"Ash")
    trial.holds("translate -o nothing", 0, makes={"in/new": b"Ash"}, given=b"Ash")
    trial.holds("table set table b string y", 0, makes={"in/t": table(string(b"a", b"x"), string(b"b", b"y"))})
    trial.holds("table unset table a", 0, makes={"in/t": table(string(b"b", b"y"))})
    trial.holds("table index table -o link", 0, makes={"in/old": b"\0\0"})
    trial.holds("table make table", 0, makes={"in/t": b""})
    trial.holds("translate -o folder", 3, says=[Something("folder")], given=b"Ash")


def to_circle(trial):
    os.symlink("two", trial.path("one"))
    os.symlink("one", trial.path("two"))
    trial.holds("translate -o one", 3, says=[Something("one")], given=b"Ash")


def of_too_little_space():
    """Where a file cannot be written whole it is not made, and an old one stays."""
    for name in ("new", "old"):
        yield cannot(f"translate -o {name}", name, given=WIDE, files=OLD, shell=SMALL_FILES)
        yield cannot(["date", "-o", name, WIDE, TIME], name, files=OLD, shell=SMALL_FILES)
        yield cannot(f"translate --lines -o {name}", name, given=b"a line\n" * 20000, files=OLD, shell=SMALL_FILES)
        yield cannot(f"table make {name}", name, given=text(*filled(60000)), files=OLD, shell=SMALL_FILES)
        yield cannot(f"table show t -o {name}", name, files={**OLD, "t": table(*filled(60000))}, shell=SMALL_FILES)
    yield cannot("table set t new string x", "t", files={"t": table(*filled(60000))}, shell=SMALL_FILES)
    yield cannot("table unset t v000", "t", files={"t": table(*filled(60000))}, shell=SMALL_FILES)
    yield accepted("translate -o new", makes={"new": WIDE[:5000]}, given=WIDE[:5000], shell=SMALL_FILES)


def in_closed_folder(args, name, given=b""):
    """A case: nothing can be made in the folder, though the file that is there could be written."""
    def work(trial):
        trial.write({"old": ONE})
        os.chmod(trial.path("old"), 0o666)
        os.chmod(trial.folder, 0o555)
        trial.holds(args, 3, says=[Something(name)], given=given, nobody=True)
    return Case(f"{title(args)}, in a folder that is closed", work)


def onto_closed_file(args, name, given=b""):
    """A case: the file may not be written, though it is the user's own and the folder would allow a new one."""
    def work(trial):
        trial.write({name: ONE})
        trial.give_to_nobody(name)
        os.chmod(trial.path(name), 0o444)
        trial.holds(args, 3, says=[Something(name)], given=given, nobody=True)
    return Case(f"{title(args)}, onto a file that is closed", work)


def of_closed_files():
    yield onto_closed_file("translate -o old", "old", b"Ash")
    yield onto_closed_file("convert hex1 5 -o old", "old")
    yield onto_closed_file("table make t", "t", b"a string x\n")
    yield onto_closed_file("table set t b string y", "t")
    yield onto_closed_file("table unset t a", "t")
    yield onto_closed_file("table index old -o old", "old")


def of_closed_folders():
    for name in ("new", "old"):
        yield in_closed_folder(f"translate -o {name}", name, b"Ash")
        yield in_closed_folder(f"convert hex1 5 -o {name}", name)
        yield in_closed_folder(f"table make {name}", name, b"a string x\n")
        yield in_closed_folder(f"table index old -o {name}", name)
    yield in_closed_folder("table set old b string y", "old")
    yield in_closed_folder("table unset old a", "old")


def of_closed_streams():
    """A file that is opened where standard output or error is closed gets their number: nothing else may be written to it."""
    given = b"Ash\nnot read"
    for shell in ('exec "$@" 2>&-', 'exec "$@" 2>/dev/full'):
        yield accepted("translate -o new text", makes={"new": b"Ash"}, files={"text": given}, shell=shell)
        yield accepted("translate text", b"Ash", files={"text": given}, shell=shell)
        yield accepted("table set t b string y", makes={"t": table(string(b"b", b"y"))}, files={"t": b""}, shell=shell)
        yield refused("translate -o old text", [], files={"text": b"<", **OLD}, shell=shell)
        yield refused("table unset t b", [], files={"t": b""}, shell=shell)
    yield Case("nos translate -o new, standard output closed", without_standard_output)


def without_standard_output(trial):
    """The answer goes to the file alone; whether the closed standard output is an error is not said."""
    trial.write({"text": b"Ash\nnot read"})
    ran = trial.run("translate -o new text", shell='exec "$@" >&- <&-')
    trial.hold("status", None if ran.status in (0, 3) else f"0 or 3; seen {ran.status}")
    trial.expect("the new file", b"Ash" if ran.status == 0 else None, trial.read("new"))
    trial.expect("files in the folder", ["new", "text"] if ran.status == 0 else ["text"], sorted(trial.found()))


def without_memory(trial):
    """Where memory runs out nothing is written. Under a sanitizer or an emulator so little memory is not enough to start with."""
    little = 'ulimit -v 24000; exec "$@"'
    if trial.run("--version", shell=little).status != 0:
        return
    trial.write({"text": b"a line of the diary\n" * 2000000, **OLD})
    for args in ("translate --lines text", "translate --lines text -o new", "translate --lines text -o old"):
        trial.holds(args, 3, says=[Something()], shell=little)


def at_once(trial):
    """Several that write one file at the same time: it has one of the answers, whole, and nothing else is left."""
    answers = [bytes([letter]) * 60000 for letter in b"abcdefgh"]
    for number, answer in enumerate(answers):
        trial.write({f"text{number}": answer})
    before = sorted(trial.found())
    running = [trial.start(f"translate -o new text{number}", stdin=subprocess.DEVNULL) for number in range(len(answers))]
    for process in running:
        trial.judge(trial.finish(process), 0)
    trial.expect("one of the answers", True, trial.read("new") in answers)
    trial.expect("files in the folder", sorted([*before, "new"]), sorted(trial.found()))


def of_what_is_said():
    """What is said beside the answer is on standard error alone, with -o too."""
    yield accepted("translate -o new", says=[after(4, 3), SAY_LINES], makes={"new": b"Ash"}, given=b"Ash\ndue")
    yield accepted("read -o new 12kg", says=["2 bytes after the number, at byte 2, were not read"], makes={"new": b"12\n"})
    yield refused("read -o old x", refusal(2, 0, "the text", b"x"), files=OLD)


def cases():
    for some in (of_standard_output, of_files, of_names, of_too_little_space, of_closed_folders, of_closed_files, of_closed_streams,
                 of_what_is_said):
        yield from some()
    yield Case("nos translate -o new, eight times at once", at_once)
    yield Case("nos translate --lines, without memory", without_memory)
