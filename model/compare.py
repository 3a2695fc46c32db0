"""Runs random sheets through a program and through the model, and compares the texts.

    python3 model/compare.py PROGRAM --seed N --count K [--without-m]

The program gets each sheet on standard input. It agrees where it prints the bytes that the
model answers and ends with status 0.
"""

import argparse
import itertools
import os
import subprocess
import sys
from concurrent.futures import ThreadPoolExecutor

import cellrun
import generate

MOST_SECONDS = 5  # for one sheet
SHEETS_AT_A_TIME = 32
MOST_SHOWN = 5  # sheets on which the two differ
MOST_BYTES_SHOWN = 2000  # of each text


class Outcome:
    """What a program did with one sheet."""

    def __init__(self, name, sheet, status, text):
        self.name = name
        self.sheet = sheet
        self.status = status  # None where the program did not end in time
        self.text = text
        self.expected = cellrun.answer(sheet)

    def agrees(self):
        return self.status == 0 and self.text == self.expected


def try_sheet(program, name, sheet):
    try:
        done = subprocess.run(
            [program],
            input=sheet,
            stdout=subprocess.PIPE,
            stderr=subprocess.DEVNULL,
            timeout=MOST_SECONDS,
        )
    except subprocess.TimeoutExpired as late:
        return Outcome(name, sheet, None, late.stdout or b"")
    return Outcome(name, sheet, done.returncode, done.stdout)


def outcomes(program, some_sheets):
    """The outcomes, in order. A program that hangs is not given much more to do."""
    waiting = iter(some_sheets)
    with ThreadPoolExecutor(os.cpu_count()) as pool:
        while True:
            batch = list(itertools.islice(waiting, SHEETS_AT_A_TIME))
            done = list(pool.map(lambda named: try_sheet(program, *named), batch))
            yield from done
            if not batch or any(outcome.status is None for outcome in done):
                return


def first_difference(one, other):
    """The number of the first line in which two texts differ."""
    lines = itertools.zip_longest(one.split(b"\n"), other.split(b"\n"))
    return next((count for count, (a, b) in enumerate(lines, 1) if a != b), None)


def show_text(title, text):
    shown = text[:MOST_BYTES_SHOWN].decode("ascii", "backslashreplace")
    print("-- %s, %d bytes" % (title, len(text)))
    print(shown, end="" if shown.endswith("\n") else "\n")
    if len(text) > MOST_BYTES_SHOWN:
        print("-- and so on")


def show(outcome):
    status = "none in time" if outcome.status is None else outcome.status
    line = first_difference(outcome.text, outcome.expected)
    print("== %s: status %s, first line that differs: %s" % (outcome.name, status, line))
    show_text("sheet", outcome.sheet)
    show_text("program", outcome.text)
    show_text("model", outcome.expected)


def main():
    parser = argparse.ArgumentParser(description=__doc__.splitlines()[0])
    parser.add_argument("program")
    parser.add_argument("--seed", type=int, default=1)
    parser.add_argument("--count", type=int, default=2000)
    parser.add_argument(
        "--without-m", action="store_true", help="leave out readable sheets of letter m")
    options = parser.parse_args()
    # A bare name would be looked for elsewhere, and a path is what is meant.
    program = os.path.abspath(options.program)
    if not os.access(program, os.X_OK):
        parser.error("cannot run %s" % options.program)
    drawn = generate.sheets(options.seed, options.count, not options.without_m)
    tried = agreed = 0
    for outcome in outcomes(program, drawn):
        tried += 1
        agreed += outcome.agrees()
        if not outcome.agrees() and tried - agreed <= MOST_SHOWN:
            show(outcome)
    print("agreed: %d of %d" % (agreed, tried))
    if tried < options.count:
        print("stopped early: the program did not end within %d seconds" % MOST_SECONDS)
    return 0 if agreed == options.count else 1


if __name__ == "__main__":
    sys.exit(main())
