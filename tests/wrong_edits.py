"""The edits in wrong/ of a crate: what they change, and the function that is to be refused with it."""

import functools
import hashlib
import pathlib
import re
import subprocess

# Source text, in the layout of `rt fmt`: a function in a cycle of calls, and the head of a block of functions.
FN = r" *(?:pub(?:\(\w+\))? )?fn"
CYCLE = re.compile(rf"#\[cycle\((\w+)\)\]\n(?: *(?:#\[|//).*\n)*{FN} (\w+)")
ANGLES = r"<(?:[^<>]|<(?:[^<>]|<[^<>]*>)*>)*>"
BLOCK = re.compile(
    rf"(?:pub(?:\(\w+\))? )?(?:unsafe )?(?:(?:trait|mod) (?P<name>\w+)"
    rf"|impl(?P<bound>{ANGLES})? (?:(?P<trait>[\w:]+)(?P<of>{ANGLES})? for )?&?(?P<type>[\w:]+))"
)


class Failed(Exception):
    pass


class Edit:
    def __init__(self, path, crate):
        self.name, self.crate, self.text = path.stem, crate, path.read_text()
        self.label = f"{crate}/{self.name}"
        self.pairs, self.told, self.names_allowed, self.lines = [], None, False, []
        # Of its function the name that a check gives it, the place, and what is proved as one with it: its cycle of calls, or itself.
        self.symbol = self.place = self.unit = None
        # Whether it waited for a round of its own, and the goal that refused it.
        self.has_waited, self.goal = False, None
        file = old = None
        for line in self.text.split("\n"):
            word, _, text = line.partition(": ")
            if word == "file":
                file = text.strip()
            elif word == "fn":
                self.told = text.strip()
            elif line.strip() == "names: allowed":
                self.names_allowed = True
            elif word == "old":
                old = text
            elif line.startswith("new:") and file and old:
                self.pairs.append((file, old, line[len("new:") :].removeprefix(" ")))
                old = None

    def apply(self, texts):
        """The texts with this change, or says why it can't be made."""
        if not self.pairs:
            raise Failed("it has no file: line with old: and new: lines behind it")
        changed, self.lines = {}, []
        for file, old, new in self.pairs:
            text = changed.get(file, texts.get(file))
            if text is None:
                raise Failed(f"there is no file {file}")
            if text.count(old) != 1:
                raise Failed(f"an old: text stands {text.count(old)} times in {file}, and not once")
            if old == new:
                raise Failed("an old: text is its new: text")
            self.lines.append((file, text.count("\n", 0, text.index(old)) + 1))
            changed[file] = text.replace(old, new)
        return changed

    def look_up(self, crate):
        """Finds the function that is to be refused, the one that the edit's name begins with, around its lines, or the one that it tells; or says why it can't be tried."""
        try:
            self.apply(crate.texts)
        except Failed as failure:
            return str(failure)
        name = self.name.partition("--")[0]
        places = {(file, *function_around(crate.texts[file].split("\n"), line, name)) for file, line in self.lines}
        if len(places) == 1 and len(min(places)) == 3:
            self.place = file, first, _ = min(places)
            self.symbol = crate.module(file) + block_around(crate.texts[file].split("\n"), first) + name
        elif not self.told:
            return f"line {self.lines[0][1]} of {self.lines[0][0]}, or another, is in no function {name}: a line fn: says what is to be refused"
        if self.told:
            self.symbol = f"{crate.name}::{self.told}"
        self.unit = crate.unit(self.symbol)
        return None


def body_of(lines, head):
    """The lines behind the one that opens the body of the function whose head is this one, from 0, up to the one that closes it, where its indentation comes back: none behind a function of one line, or without a body."""
    indent = lines[head][: len(lines[head]) - len(lines[head].lstrip())]
    for at in range(head, len(lines)):
        is_own = lines[at].startswith(indent) and lines[at][len(indent) :][:1].strip()
        if is_own and lines[at].endswith("{") and indent + "}" in lines[at:]:
            return at + 1, lines.index(indent + "}", at) + 1
        if lines[at].endswith(";") or is_own and lines[at].endswith(("{", "}")):
            return at + 1, at + 1
    return head + 1, head + 1


def without_comments(text, mark):
    """A text without the lines that are comments."""
    return "\n".join(line for line in text.split("\n") if not line.lstrip().startswith(mark))


def without_bodies(text):
    """Source text without the bodies of its functions: types, constants, and what each function promises."""
    lines, kept, at = text.split("\n"), [], 0
    while at < len(lines):
        begin, end = body_of(lines, at) if re.match(rf"{FN} \w", lines[at]) else (at + 1, at + 1)
        kept += lines[at:begin]
        at = end
    return "\n".join(kept)


def function_around(lines, line, name):
    """The first and the last line of the function of this name around a line, from 1, or nothing."""
    for first in range(line, 0, -1):
        if re.match(rf"{FN} {name}\b", lines[first - 1]):
            _, last = body_of(lines, first - 1)
            return (first, last) if line <= last else ()
    return ()


def block_around(lines, first):
    """How a check names the block that a function stands in, as `KeptMerge::` for `impl<T> Merge for Kept<T>`."""
    if not lines[first - 1].startswith(" "):
        return ""
    above = next((at for at in range(first - 1, -1, -1) if BLOCK.match(lines[at])), 0)
    head = BLOCK.match(" ".join(lines[above:first]))
    if not head or head["name"]:
        return f"{head['name']}::" if head else ""
    parameters = re.findall(r"[<,]\s*(\w+)", head["bound"] or "")
    paths = [head["type"], head["trait"] or "", head["of"] or ""]
    words = [word for path in paths for word in re.findall(r"\w+", path.split("::")[-1])]
    return "".join("Any" if word in parameters else word[:1].upper() + word[1:] for word in words) + "::"


class Crate:
    """A crate of the repository: its texts, what it uses, and what stands below it."""

    def __init__(self, name, uses):
        self.name, self.folder, self.uses, self.below = name, pathlib.Path("crates", name), uses[name], below(name, uses)
        self.line = f"{name}: {' '.join(uses[name])}"
        self.texts, self.specs = self.read("src"), self.read("specs")
        self.files = {**self.texts, **self.specs, **self.read("proofs")}
        self.cycles = [(self.module(file), *found) for file, text in self.texts.items() for found in CYCLE.findall(text)]

    def read(self, part):
        """The texts of a folder by their paths."""
        found = [path for path in sorted((self.folder / part).rglob("*")) if path.is_file()]
        return {str(path.relative_to(self.folder)): path.read_text() for path in found}

    def module(self, file):
        """The path of the module that a source file is, as a check writes it."""
        parts = pathlib.PurePath(file).with_suffix("").parts[1:]
        return "::".join([self.name, *(part for part in parts if part not in ("lib", "main", "mod")), ""])

    def unit(self, symbol):
        """What is proved as one with a function: its cycle of calls, as `module::+cycle`, or itself."""
        before, _, name = symbol.rpartition("::")
        own = [cycle for module, cycle, of in self.cycles if of == name and symbol.startswith(module)]
        return f"{before}::+{own[0]}" if own else symbol

    def edits(self, folder, words):
        """The edits of a folder whose names hold one of some words, or all."""
        strays = [path.name for path in folder.iterdir() if path.suffix not in (".edit", ".md")] if folder.is_dir() else []
        if strays:
            raise Failed(f"{folder}: {strays[0]} is no edit")
        return [Edit(path, self.name) for path in sorted(folder.glob("*.edit")) if not words or any(word in path.stem for word in words)]

    def holders(self, told):
        """The sources that may hold a function of which an edit tells the path: that of its module, or without a path all."""
        names = told.split("::")[:-1] if told else ()
        files = [f"src/{'/'.join(names[:length])}.rt" for length in range(len(names), 0, -1)]
        return dict.fromkeys(next(([file] for file in files if file in self.texts), self.texts if told else ()))

    def whole(self):
        """A checksum of all that a check of the crate reads of it."""
        return checksum(self.line, self.files)


def below(name, uses):
    """The libraries of the repository that a crate stands on, in order."""
    return sorted({it for used in uses[name] if used in uses for it in (used, *below(used, uses))})


def crates_listed():
    """The crates of crates.txt, by their names."""
    lines = [line.partition("#")[0].partition(":") for line in pathlib.Path("crates.txt").read_text().split("\n")]
    uses = {head.split()[0]: used.split() for head, colon, used in lines if colon}
    return {name: Crate(name, uses) for name in uses}


def checksum(*values):
    return hashlib.sha256(repr(values).encode()).hexdigest()[:32]


@functools.cache
def toolchain():
    """What the toolchain says of its version."""
    return subprocess.run(["rt", "version"], capture_output=True, text=True, check=True).stdout
