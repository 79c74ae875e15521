#!/usr/bin/env python3
# Holds the command to README.md: tests/readme.py COMMAND.. runs each line of the page's first section that begins with "$", `./nos` in it being
# COMMAND, in a copy of the folders that it names, and compares what is written, errors among it, with the lines below it.
import pathlib, re, shlex, subprocess, sys, tempfile

root = pathlib.Path(__file__).resolve().parent.parent
command = [str(pathlib.Path(word).resolve()) if pathlib.Path(word).is_file() else word for word in sys.argv[1:]]
page = (root / "README.md").read_text()
section = page[page.index("## Two commands"):page.index("## When a line says refused")]
shown = [line[4:] for line in section.splitlines() if line.startswith("    ")]
first = next(number for number, line in enumerate(shown) if line.startswith("$ "))
failed = ran = 0

with tempfile.TemporaryDirectory() as folder:
    (pathlib.Path(folder) / "target").mkdir()
    (pathlib.Path(folder) / "examples").symlink_to(root / "examples")
    for part in re.split(r"^\$ ", "\n".join(shown[first:]) + "\n", flags=re.MULTILINE)[1:]:
        asked, expected = part.split("\n", 1)
        asked_of = asked.replace("./nos", shlex.join(command), 1)
        answer = subprocess.run(["bash", "-c", asked_of], cwd=folder, stdout=subprocess.PIPE, stderr=subprocess.STDOUT, text=True)
        # the translation of a row has no line end of its own
        seen = answer.stdout if answer.stdout.endswith("\n") or not answer.stdout else answer.stdout + "\n"
        status = 1 if "refused" in expected else 0
        ran += 1
        if seen != expected or answer.returncode != status:
            failed += 1
            print(f"README.md: $ {asked}\nexpected, with status {status}:\n{expected}seen, with status {answer.returncode}:\n{seen}")

print(f"README.md: {ran} commands, {failed} failed")
sys.exit(1 if failed or ran < 8 else 0)
