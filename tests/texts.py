"""What is told of texts with a syntax of their own, filters and platforms, for the random runs, and how TOML has them.

It is what rows of tables say, which come from outside of the program. Of a text without a row nothing is known, and to
ask for it is an error.
"""

import json
import pathlib
import re

import documents
from rules import TEXT, Fault, Reader

# Their kinds, by the keys at which they stand.
KINDS = {key: key for key in ("filter", "default-filter", "platform")} | {"host": "platform", "target": "platform"}
DATA = pathlib.Path(__file__).resolve().parent.parent / "crates/nextest_config_vectors/data"
ROW = re.compile(r"(?:[-+] )?[^|]+ \| filters::(filter|default-filter|platform) \| ([^|]+) \| ([^|]+)")
TOLD = re.compile("([0-9]+) ([0-9]+) ([a-z-]+): (.+)")
# Great filters, with what is told of them.
UNFINISHED = "filter-syntax: expected an expression, found the end"
GREAT = {
    "1 MiB of a filter": ("test(a) | " * 104_857 + "all(", "1048573 1048574 filter-syntax: this \"(\" isn't closed"),
    "100,000 open parentheses": ("(" * 100_000, f"100000 100000 {UNFINISHED}"),
    "100,000 times `not`": ("not " * 100_000, f"400000 400000 {UNFINISHED}"),
}


def rows():
    """The kind of each text that a row has, the text, and the answer; not of those that are made at sizes."""
    for line in [line for name in ("filters", "platforms") for line in (DATA / f"{name}.txt").read_text().split("\n")]:
        if line and line[0] not in "#@" and "«" not in line:
            kind, *fields = ROW.fullmatch(line).groups()
            yield kind, *(json.loads(field) if field.startswith('"') else field for field in fields)
    yield from (("filter", *row) for row in GREAT.values())


def told_of():
    """What is told of the texts of each kind: nothing, or the code, the words and the range."""
    told = {kind: {} for kind in KINDS.values()}
    for kind, text, answer in rows():
        begin, end, *said = TOLD.fullmatch(answer).groups() if answer != "nothing" else (0, 0)
        told[kind][text] = said and (*said, (int(begin), int(end)))
    # Filters are read alike, but for the predicate that a default filter may not ask for.
    filters = {**told["filter"], **told["default-filter"]}
    alike = {text: one for text, one in filters.items() if "default" not in text}
    return {kind: {**alike, **own} if kind != "platform" else own for kind, own in told.items()}


ALL = told_of()


def syntax(kind):
    """What reads texts of a kind."""

    def faults(value):
        yield from TEXT.faults(value)
        if isinstance(value, str):
            if value not in ALL[kind]:
                raise ValueError(f"no row says what is told of the {kind} {value!r}")
            if ALL[kind][value]:
                code, said, span = ALL[kind][value]
                yield Fault(code, said, span=span)

    return Reader(faults, ("text",), ("text",))


def ways_of(text):
    """How TOML may write a text: as it reads between quotes of each form, or with escapes."""
    openings = [quotes + end for quotes in ("'''", '"""') for end in ("", "\n", "\r\n")]
    plain = [opening + text + opening.rstrip("\r\n") for opening in ("'", '"', *openings)]
    escaped = json.dumps(text, ensure_ascii=False)[1:-1]
    coded = "".join(f"\\U{ord(c):08x}" for c in text[:1]) + json.dumps(text[1:], ensure_ascii=False)[1:-1]
    ways = [*plain, f'"{escaped}"', f'"{coded}"', f'"""\\\n  {escaped}"""', f'"""{coded}\\\n"""']
    for way in dict.fromkeys(ways):
        root = documents.read(f"x = {way}".encode())
        if root and root.value == {"x": text}:
            yield way


def written(kind, turn):
    """The texts of a kind that aren't great, each in one of its ways, another in each turn."""
    great = {text for text, _ in GREAT.values()}
    for at, text in enumerate(text for text in ALL[kind] if text not in great):
        ways = list(ways_of(text))
        yield ways[(at + turn) % len(ways)]
