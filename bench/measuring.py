"""What the scripts have in common: their words, runs, the instructions of a run, and what is told of faults."""

import argparse
import pathlib
import re
import subprocess
import sys
import tempfile

BENCH = pathlib.Path(__file__).resolve().parent
REPOSITORY = BENCH.parent
MEBIBYTE = 1 << 20
CALLGRIND = ["valgrind", "--tool=callgrind", "--callgrind-out-file=/dev/null"]


def build(command, folder):
    """Runs a command that builds. Its output is of interest only where it fails."""
    streams = {"stdin": subprocess.DEVNULL, "stdout": subprocess.PIPE, "stderr": subprocess.STDOUT}
    done = subprocess.run(command, cwd=folder, text=True, **streams)
    if done.returncode != 0:
        sys.exit(done.stdout)


def build_program():
    build(["make", "build"], REPOSITORY)
    return REPOSITORY / "bin" / "nextest_config_check"


def build_alone():
    """The program that reads by one library alone, and changes boards."""
    crate = REPOSITORY / "crates" / "nextest_config_bench"
    build(["rt", "run", "--", "board", "3", "2"], crate)
    return crate / "out" / "nextest_config_bench"


BUILDS = {"--program": build_program, "--alone": build_alone}


def parse_options(script, *programs, **numbers):
    """The words of a script: its programs, of which those with dashes are built where they aren't named, and numbers."""
    options = argparse.ArgumentParser(description=script, formatter_class=argparse.RawDescriptionHelpFormatter)
    for program in programs:
        options.add_argument(program, type=lambda path: pathlib.Path(path).resolve())
    for name, otherwise in numbers.items():
        options.add_argument(f"--{name}", type=int, default=otherwise)
    options.add_argument("--small", action="store_true")
    given = options.parse_args()
    for program in BUILDS.keys() & programs:
        name = program.removeprefix("--")
        setattr(given, name, getattr(given, name) or BUILDS[program]())
    return given


def run(command, given=b"", folder=None):
    """What comes of a run in a folder that is given a file or bytes."""
    options = {"cwd": folder, "capture_output": True}
    if isinstance(given, bytes):
        return subprocess.run([*map(str, command)], input=given, **options)
    with given.open("rb") as file:
        return subprocess.run([*map(str, command)], stdin=file, **options)


def counted(command, given=b"", folder=None):
    """How many instructions the run takes, and what comes of it."""
    done = run([*CALLGRIND, *command], given, folder)
    found = re.search(rb"Collected : (\d+)", done.stderr)
    if not found:
        sys.exit(done.stderr.decode(errors="replace"))
    return int(found[1]), done


def instructions(program, *words, given=""):
    """How many instructions a run takes that is given this text, and ends well."""
    count, done = counted([program, *words], given.encode())
    if done.returncode != 0:
        sys.exit(done.stderr.decode(errors="replace"))
    return count


def written(text, file):
    file.write_text(text, encoding="utf-8", newline="")
    return file


def told(what, faults):
    """Prints what is wrong. Says whether nothing is."""
    faults = list(faults)
    for fault in faults:
        print(f"FAILED: {what}: {fault}", flush=True)
    return not faults


def end(measure, *given):
    """Measures in a folder, and ends with the status 0 where all results are well."""
    with tempfile.TemporaryDirectory() as folder:
        results = measure(*given, pathlib.Path(folder))
    sys.exit(0 if all(results) else 1)
