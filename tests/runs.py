"""What runs have in common: their words, their rounds, what they print, and the rows of program-rows.txt."""

import argparse
import collections
import concurrent.futures
import os
import pathlib
import random
import shlex
import sys

LONGEST = 3000
ROWS = pathlib.Path(__file__).parent / "program-rows.txt"
SIGNS = str.maketrans({"¶": "\n", "←": "\r", "→": "\t", "§": "\ufeff"})


class Failed(Exception):
    """What doesn't hold, with what shows it."""


def want(what, holds, *shown):
    if not holds:
        raise Failed("\n".join([what, *(f"    {value!r}"[:LONGEST] for value in shown)]))


def random_of(seed, number):
    return random.Random(f"{seed} {number}")


def parse_options(script, what, count):
    """The words of a script: the program, how many of what it makes, the seed, and the one that is tried alone."""
    options = argparse.ArgumentParser(description=script, formatter_class=argparse.RawDescriptionHelpFormatter)
    options.add_argument("program", type=lambda path: pathlib.Path(path).resolve())
    options.add_argument(f"--{what}", dest="count", type=int, default=count)
    options.add_argument("--seed", type=int, default=1)
    options.add_argument("--only", type=int)
    given = options.parse_args()
    given.numbers = range(given.count) if given.only is None else [given.only]
    return given


def program_rows():
    """The rows of program-rows.txt: of each its name, its words, its input, and how it ends: its status and its outputs."""
    rows = []
    for line in ROWS.read_text().split("\n"):
        if line and not line.startswith("#"):
            name, words, given, status, answer = ("" if it == "-" else it.translate(SIGNS) for it in line.split(" | "))
            output, errors = ("", answer[2:]) if answer.startswith("! ") else (answer, "")
            rows.append((name, shlex.split(words), given.encode(), (int(status), output.encode(), errors.encode())))
    return rows


def run_all(calls):
    """What each of some calls gives, in their order, where several run at once."""
    with concurrent.futures.ThreadPoolExecutor(os.cpu_count()) as workers:
        return [it.result() for it in [workers.submit(*call) for call in calls]]


def end(options, what, results, lacking=()):
    """Prints the first faults, how much was tried, and what was never written; and ends.

    A result is a list of faults, and how often each of some things was met.
    """
    faults = [fault for found, _ in results for fault in found] + [f"never written: {it}" for it in lacking]
    for fault in faults[:10]:
        print(f"FAILED: {fault}")
    counts = sum((collections.Counter(met) for _, met in results), collections.Counter())
    told = ", ".join(f"{count} {name}" for name, count in counts.most_common())
    print(f"seed {options.seed}: {len(options.numbers)} {what} ({told}), {len(faults)} failed")
    sys.exit(0 if options.numbers and not faults else 1)
