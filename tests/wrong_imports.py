"""What a file rests on: the definitions and sources that it imports, those that these import, and so on."""

import pathlib
import re

from wrong_edits import ANGLES, checksum, without_bodies, without_comments

USE = re.compile(r"\buse ((?:crate|super|\w+)::[^;]*);")
SPEC = re.compile(r"\bRattle\.(\w+)\.specs\.([\w.+]+)")
PUBLIC_USE = re.compile(r"^ *pub use ([^;]*);", re.MULTILINE)
IMPL = re.compile(rf"^impl(?:{ANGLES})? (?:(?P<trait>\w+)(?:{ANGLES})? for )?&?(?P<type>\w+)", re.MULTILINE)


class Imports:
    """The files of all crates, and which of them each imports.

    A file imports what its `use` lines name, by the file that has it. One with methods of a type of another file of its
    crate is imported by that, since who has a value of the type can call them; where the type is of no such file, by
    that of the trait.
    """

    def __init__(self, crates):
        self.texts = {(name, file): text for name, crate in crates.items() for file, text in {**crate.texts, **crate.specs}.items()}
        self.crates, self.said, self.found = crates, {}, {}
        self.shown = {at: dict(named(PUBLIC_USE.findall(text))) for at, text in self.texts.items()}
        self.edges = {at: set() for at in self.texts}
        for at, text in self.texts.items():
            self.read(at, text)

    def read(self, at, text):
        """Notes what a file imports, and whose methods it has."""
        imported = {name: self.file_of(at, path) for name, path in named(USE.findall(text))}
        self.edges[at] |= {it for it in imported.values() if it}
        for crate, path in SPEC.findall(text):
            if crate in self.crates:
                self.edges[at].add(self.definitions(crate, path.split(".")))
        for block in IMPL.finditer(text) if at[1].startswith("src/") else ():
            heads = [imported.get(block["type"]), imported.get(block["trait"])]
            self.edges[next((head for head in heads if head and head[0] == at[0]), at)].add(at)

    def definitions(self, crate, path):
        """The file of a module of definitions, or the source that declares what definitions speak of."""
        if path[0] == "declared":
            return self.longest(crate, "src", path[1:], ".rt")[0] or (crate, root_of(self.crates[crate]))
        return self.longest(crate, "specs", path, ".antt")[0] or (crate, "specs/Lib.antt")

    def longest(self, crate, folder, path, suffix):
        """The file that the longest front of a path leads to, and what is left of the path."""
        for length in range(len(path), 0, -1):
            at = crate, f"{folder}/{'/'.join(path[:length])}{suffix}"
            if at in self.texts:
                return at, path[length:]
        return None, path

    def file_of(self, at, path):
        """The source that has what a path in a file names, if it is of the repository: where a module shows it from elsewhere, that."""
        (crate, file), (first, *rest) = at, path
        here = [*pathlib.PurePath(file).with_suffix("").parts[1:]] if file != root_of(self.crates[crate]) else []
        if first == "super":
            here = here[:-1]
        elif first == "crate":
            here = []
        elif first in self.crates:
            crate, here = first, []
        else:
            here = [*here, first]
            if (crate, f"src/{'/'.join(here)}.rt") not in self.texts:
                return None
        found, left = self.longest(crate, "src", [*here, *rest], ".rt")
        found = found or (crate, root_of(self.crates[crate]))
        shown = left and self.shown[found].get(left[0])
        return self.file_of(found, [*shown, *left[1:]]) or found if shown else found

    def rest(self, files):
        """A checksum of what these files say and rest on: definitions, and sources without the bodies of functions."""
        files = frozenset(files)
        if files not in self.found:
            seen, left = set(files), [*files]
            while left:
                new = self.edges[left.pop()] - seen
                seen |= new
                left += new
            self.found[files] = checksum([(at, self.statement(at)) for at in sorted(seen)])
        return self.found[files]

    def statement(self, at):
        """A checksum of what a file says."""
        if at not in self.said:
            text = self.texts[at]
            is_source = at[1].startswith("src/")
            self.said[at] = checksum(without_bodies(without_comments(text, "//")) if is_source else without_comments(text, "--"))
        return self.said[at]


def root_of(crate):
    return "src/main.rt" if "src/main.rt" in crate.texts else "src/lib.rt"


def named(uses):
    """The names that `use` lines bring in, each with its path."""
    for path in (path for use in uses for path in spread(re.sub(r"\s+", " ", use))):
        path, _, other = path.strip().partition(" as ")
        steps = [step.strip() for step in path.split("::")]
        yield other or (steps[-2] if steps[-1] == "self" else steps[-1]), [step for step in steps if step != "self"]


def spread(path):
    """The paths of a `use` line, without its braces."""
    braces = re.search(r"\{([^{}]*)\}", path)
    if not braces:
        return [path]
    names = [name.strip() for name in braces[1].split(",") if name.strip()]
    return [it for name in names for it in spread(path[: braces.start()] + name + path[braces.end() :])]
