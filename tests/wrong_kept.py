"""The file tests/wrong.kept, of the edits that a goal refused, and the draw of those that are tried again."""

import hashlib
import pathlib
import re
import subprocess
import sys
import threading

from wrong_edits import checksum, without_comments
from wrong_imports import Imports

TESTS = pathlib.Path(__file__).parent
PATH = pathlib.Path("tests", "wrong.kept")
# An edit's name, its checksum, and the goal that refused it.
LINE = re.compile(r"(\S+/\S+) ([0-9a-f]{32}) (\S.*)")


class KeptFile:
    """The edits of which the repository keeps that a goal refused them, each with a checksum of what that rests on.

    The checksum is of the edit, of the files that it changes, of the definitions and of the sources without the bodies
    of functions that these rest on (wrong_imports.py), of those that hold the function that is to be refused, and of
    what tries edits. Comments, proofs, other bodies and the toolchain are left out: they change what is proved, or
    nothing, and not whether the edited body is wrong.
    """

    def __init__(self, crates, text, has_all=True):
        """Reads a text, or ends with the line that doesn't read. Without has_all, lines of edits that are gone are passed over."""
        self.crates, self.lines, self.writing, last = crates, {}, threading.Lock(), ""
        for number, line in enumerate(text.splitlines(), 1):
            read = LINE.fullmatch(line)
            name = read and read[1]
            if not read:
                why = "it is no name, checksum and goal"
            elif name in self.lines:
                why = f"{name} stands twice"
            elif name < last:
                why = f"{name} is out of order"
            elif has_all and not edit_of(name).is_file():
                why = f"{edit_of(name)} is gone"
            else:
                last, self.lines[name] = name, read.groups()[1:]
                continue
            sys.exit(f"{PATH}:{number}: {why}")
        judges = [path.read_text() for path in (TESTS / "wrong_edits.py", TESTS / "wrong_rounds.py")]
        self.common, self.imports = checksum(judges), Imports(crates)

    def checksum(self, edit):
        crate = self.crates[edit.crate]
        files = {file: without_comments(crate.texts.get(file, ""), "//") for file, *_ in edit.pairs}
        held = [(edit.crate, file) for file in {**files, **crate.holders(edit.told)} if file in crate.texts]
        return checksum(self.common, edit.text, files, self.imports.rest(held))

    def has(self, edit):
        """Whether it is kept that this edit was refused, as all stands."""
        return not edit.names_allowed and edit.label in self.lines and self.lines[edit.label][0] == self.checksum(edit)

    def take(self, tried):
        """Writes the file anew, with a line for each of these edits that is to be kept, and none for another of them."""
        with self.writing:
            for edit in tried:
                self.lines.pop(edit.label, None)
                if edit.goal and not edit.names_allowed and not edit.has_waited:
                    self.lines[edit.label] = self.checksum(edit), edit.goal
            there = {name: line for name, line in sorted(self.lines.items()) if edit_of(name).is_file()}
            PATH.write_text("".join(f"{name} {' '.join(line)}\n" for name, line in there.items()))


def edit_of(name):
    crate, _, stem = name.partition("/")
    return pathlib.Path("crates", crate, "wrong", f"{stem}.edit")


def commit():
    """The id of the commit that is checked out, or nothing."""
    run = subprocess.run(["git", "rev-parse", "HEAD"], capture_output=True, text=True)
    return run.stdout.strip() if not run.returncode else ""


def draw(edits, name, known, count):
    """So many of these edits, of one crate, drawn by a name: the first ones that aren't known, in the order of checksums of both names."""
    drawn = sorted(edits, key=lambda it: hashlib.sha256(f"{name} {it.label}".encode()).digest())
    crates = dict.fromkeys(it.crate for it in drawn)
    left = [[it for it in drawn if it.crate == crate and it.label not in known] for crate in crates]
    return next((them[:count] for them in left if them), [])
