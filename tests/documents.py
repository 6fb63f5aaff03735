"""Reads documents of TOML 1.1, and notes where their keys and their values stand, for the random runs."""

import bisect
import functools
import re
import tomllib

TEXT = r"[^\x00-\x08\x0a-\x1f\x7f"
BLANK = re.compile(r"[ \t]*")
SPACE = re.compile(rf"(?:[ \t]|\r?\n|#{TEXT}]*(?=\r?\n|\Z))*")
DOT = re.compile(r"[ \t]*\.[ \t]*")
EQUALS = re.compile(r"[ \t]*=[ \t]*")
BARE = re.compile(r"[A-Za-z0-9_-]+")
ATOM = re.compile(r"(?:[0-9]{4}-[0-9]{2}-[0-9]{2} (?=[0-9]{2}:))?[A-Za-z0-9+_.:-]+")
LITERAL = re.compile(rf"'({TEXT}']*)'")
BASIC = re.compile(rf'"((?:{TEXT}"\\]|\\{TEXT}])*)"')
LINES = r"[^\x00-\x08\x0b-\x1f\x7f"
LONG_LITERAL = re.compile(rf"'''(?:\r?\n)?((?:{LINES}]|\r(?=\n))*?)'''('{{0,2}})")
LONG_BASIC = re.compile(rf'"""(?:\r?\n)?((?:{LINES}\\]|\r(?=\n)|\\\r?{LINES}])*?)"""("{{0,2}})')
ESCAPE = re.compile(
    r"\\(?:(?P<end>[ \t]*\r?\n[ \t\r\n]*)|x(?P<x>[0-9a-fA-F]{2})|u(?P<u>[0-9a-fA-F]{4})|U(?P<U>[0-9a-fA-F]{8})"
    r"|(?P<mark>[\s\S]))"
)
MARKS = {"b": "\b", "t": "\t", "n": "\n", "f": "\f", "r": "\r", "e": "\x1b", '"': '"', "\\": "\\"}
OPENING = re.compile(r"(?:'''|\"\"\")(?:\r?\n)?|['\"]")
# The most parts of a key.
MOST_PARTS = 80
# A time of day without its seconds.
SHORT_TIME = re.compile(r"((?:^|[Tt ])[0-9]{2}:[0-9]{2})(?![0-9:.])")
DATE_TIME = re.compile(r"[0-9]{4}-[0-9]{2}-[0-9]{2}|[0-9]{2}:[0-9]{2}")


class NoDocument(ValueError):
    """The text isn't one."""


class DateTime:
    """A date, a time of day, or both, as it prints."""

    def __init__(self, text):
        fraction = re.compile(r"(?:(\.[0-9]*[1-9])|\.)0+(?![0-9])")
        self.text = fraction.sub(r"\1", text.upper().replace(" ", "T"))

    def __eq__(self, other):
        return isinstance(other, DateTime) and self.text == other.text


class Lines:
    """The lines of a text."""

    def __init__(self, text):
        self.starts = [0, *(match.end() for match in re.finditer("\n", text))]

    def place(self, at):
        """The line and the column of what stands there."""
        line = bisect.bisect_right(self.starts, at)
        return line, at - self.starts[line - 1] + 1


class Node:
    """What stands at a path: the ranges of its key and its value, and what is below.

    It is a scalar or an `array` that is written as one, a table between braces (`inline`), by a header, by a dotted
    key or by the headers of others (`implicit`), or an array of `tables` with headers.
    """

    def __init__(self, kind, text, key=None):
        self.kind = kind
        self.text = text
        # Where its key and its value begin and end.
        self.key_at = key
        self.value_at = None
        self.scalar = None
        # By keys, or by indexes.
        self.below = {}

    def is_table(self):
        return self.kind in ("inline", "header", "dotted", "implicit")

    @functools.cached_property
    def value(self):
        if self.is_table():
            return {key: node.value for key, node in self.below.items()}
        if self.kind in ("array", "tables"):
            return [node.value for node in self.below.values()]
        return self.scalar

    def at(self, steps):
        """The node at a path from here, None where there is none."""
        node = self
        for step in steps:
            node = node and node.below.get(step)
        return node

    def key(self):
        """The range of the key, None where there is none."""
        return self.key_at and tuple(map(self.text.place, self.key_at))

    def span(self):
        """The same of the value."""
        return self.value_at and tuple(map(self.text.place, self.value_at))

    def place(self):
        """The range of the value, or without one that of the key."""
        return self.span() or self.key()

    def text_at(self):
        """Where the text of a string stands as it reads, None where it doesn't, or is empty."""
        begin, end = self.value_at
        written = self.text.text[begin:end]
        opening = OPENING.match(written)[0]
        is_plain = written == opening + self.scalar + opening.rstrip("\r\n")
        return begin + len(opening) if is_plain and self.scalar else None

    def part(self, begin, end):
        """The range of some characters of a text, or that of its value."""
        at = self.text_at()
        return self.span() if at is None else (self.text.place(at + begin), self.text.place(at + end))


@functools.cache
def atom_value(text):
    """What a value without quotes and brackets is."""
    whole = SHORT_TIME.sub(r"\1:00", text)
    try:
        value = tomllib.loads(f"x = {whole}")["x"]
    except ValueError as error:
        raise NoDocument(text) from error
    if type(value) is int and not -1 << 63 <= value < 1 << 63:
        raise NoDocument(text)
    return DateTime(whole) if DATE_TIME.match(text) else value


def character(match):
    """The character that an escape stands for."""
    if match["end"]:
        return ""
    digits = match["x"] or match["u"] or match["U"]
    code = int(digits, 16) if digits else ord(MARKS.get(match["mark"], "\ud800"))
    if 0xD800 <= code < 0xE000 or code > 0x10FFFF:
        raise NoDocument(match[0])
    return chr(code)


class Reader(Lines):
    """Reads a text, and has the tree of its document at `root`."""

    def __init__(self, text):
        super().__init__(text)
        self.text = text
        self.at = int(text.startswith("\ufeff"))
        self.root = table = Node("header", self)
        self.take(SPACE)
        while self.at < len(text):
            if self.next("["):
                table = self.header()
            else:
                self.pair(table)
            self.end_statement()

    # Texts.

    def next(self, front):
        return self.text.startswith(front, self.at)

    def take(self, pattern):
        match = pattern.match(self.text, self.at)
        if match:
            self.at = match.end()
        return match

    def need(self, pattern):
        match = self.take(pattern)
        if not match:
            raise NoDocument(f"at {self.at}: {pattern.pattern}")
        return match

    def mark(self, mark):
        """Passes over a mark, or says that it isn't there."""
        is_there = self.next(mark)
        self.at += len(mark) * is_there
        return is_there

    def end_statement(self):
        space = self.take(SPACE)[0]
        if self.at < len(self.text) and "\n" not in space:
            raise NoDocument(f"at {self.at}: no end of a line")

    # Keys.

    def string(self, is_key=False):
        """What a string reads as, None where none comes next."""
        if not is_key and self.next("'''"):
            return "".join(self.need(LONG_LITERAL).groups())
        if not is_key and self.next('"""'):
            return ESCAPE.sub(character, "".join(self.need(LONG_BASIC).groups()))
        if self.next("'"):
            return self.need(LITERAL)[1]
        return ESCAPE.sub(character, self.need(BASIC)[1]) if self.next('"') else None

    def keys(self):
        """The parts of a key, each with its range."""
        keys = []
        while not keys or self.take(DOT):
            begin = self.at
            name = self.string(is_key=True)
            name = self.need(BARE)[0] if name is None else name
            keys.append((name, (begin, self.at)))
        return keys

    # Statements.

    def through(self, table, keys, kinds, kind):
        """The table at keys, which makes those of this kind that aren't there; others have to be of these kinds."""
        for name, span in keys:
            node = table.below.setdefault(name, Node(kind, self, span))
            if node.kind not in kinds:
                raise NoDocument(f"{name} again")
            if kind == "dotted":
                node.kind = kind
            table = list(node.below.values())[-1] if node.kind == "tables" else node
        return table

    def pair(self, table):
        *front, (name, span) = self.keys()
        table = self.through(table, front, ("dotted", "implicit"), "dotted")
        if name in table.below:
            raise NoDocument(f"{name} again")
        self.need(EQUALS)
        table.below[name] = node = self.some_value()
        node.key_at = span

    def header(self):
        """The table that a header begins."""
        brackets = 2 if self.next("[[") else 1
        self.at += brackets
        self.take(BLANK)
        *front, (name, span) = self.keys()
        self.take(BLANK)
        if not self.mark("]" * brackets):
            raise NoDocument(f"at {self.at}: no end of a header")
        table = self.through(self.root, front, ("implicit", "dotted", "header", "tables"), "implicit")
        kind = "tables" if brackets == 2 else "implicit"
        node = table.below.setdefault(name, Node(kind, self, span))
        if node.kind != kind:
            raise NoDocument(f"{name} again")
        if brackets == 1:
            node.kind = "header"
            return node
        element = node.below[len(node.below)] = Node("header", self, span)
        return element

    # Values.

    def some_value(self):
        node = Node("scalar", self)
        begin = self.at
        if self.mark("["):
            node.kind = "array"
            self.members("]", lambda: node.below.__setitem__(len(node.below), self.some_value()))
        elif self.mark("{"):
            self.members("}", lambda: self.pair(node))
            node.kind = "inline"
        else:
            text = self.string()
            node.scalar = atom_value(self.need(ATOM)[0]) if text is None else text
        node.value_at = begin, self.at
        return node

    def members(self, end, member):
        """Passes over what stands between brackets, with commas between."""
        self.take(SPACE)
        while not self.mark(end):
            member()
            self.take(SPACE)
            if not self.mark(",") and not self.next(end):
                raise NoDocument(f"at {self.at}: no {end}")
            self.take(SPACE)


def key_of(statement):
    """The names of the key that a statement has, a header or a pair, None where it has none."""
    reader = Reader("")
    reader.text = statement
    reader.at = 2 if statement.startswith("[[") else int(statement.startswith("["))
    reader.take(BLANK)
    try:
        names = [name for name, _ in reader.keys()]
    except ValueError:
        return None
    return names if len(names) <= MOST_PARTS else None


@functools.lru_cache(64)
def read(contents):
    """The tree of a document, None where the bytes are none."""
    try:
        return Reader(contents.decode()).root
    except (ValueError, RecursionError):
        return None
