#!/usr/bin/env python3
"""The tests of the command `nos`, written from its manual, docs/NOS.md, and from include/nosgoludd.h.

tests/cli.py [--only SUITE] COMMAND [WORD..] tests the command of these words, as target/cli/nos-gcc, or qemu-x86_64 -L FOLDER
target/cli/nos-plain; the suites are the modules of tests/cli_cases. Every case runs in a fresh folder outside the repository. What
is not as expected is said; the last line has how many checks there were and how many failed, and the status is 0 where none did.
"""

import os
import sys
import time
import traceback
from concurrent.futures import ThreadPoolExecutor
from importlib import import_module

sys.dont_write_bytecode = True  # the repository's folder stays as it is
from cli_cases import SUITES  # noqa: E402
from cli_cases.trial import Command, Trial  # noqa: E402

AT_ONCE = max(2, os.cpu_count() or 1) + 2  # a case waits for its command most of the time


def tried(command, suite, case):
    """How many checks a case had, and what is said of those that failed."""
    with Trial(command, f"{suite}: {case.title}") as trial:
        try:
            case.work(trial)
        except Exception:  # whatever a command does that a case did not think of is a failure of that case
            trial.hold("the case could not go on", traceback.format_exc())
        return trial.checks, trial.failures


def try_all(command, suites):
    """The same for all cases of these suites; failures are said as they are found."""
    checks = failed = 0
    with ThreadPoolExecutor(AT_ONCE) as pool:
        running = [pool.submit(tried, command, suite, case)
                   for suite in suites for case in import_module(f"cli_cases.{suite}").cases()]
        for one in running:
            its_checks, failures = one.result()
            checks += its_checks
            failed += len(failures)
            for failure in failures:
                print(f"FAILED {failure}", flush=True)
    return checks, failed


def main(words):
    suites = SUITES
    if words[:1] == ["--only"]:
        suites, words = tuple(words[1:2]), words[2:]
    if not words or not set(suites) <= set(SUITES):
        sys.exit(f"usage: tests/cli.py [--only SUITE] COMMAND [WORD..]; the suites are {' '.join(SUITES)}")
    start = time.monotonic()
    command = Command(words)
    try:
        checks, failed = try_all(command, suites)
    finally:
        command.forget()
    print(f"{time.monotonic() - start:.0f} seconds")
    print(f"{checks} checks, {failed} failed")
    sys.exit(1 if failed else 0)


if __name__ == "__main__":
    main(sys.argv[1:])
