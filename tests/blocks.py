r"""Tables of whole files, each with what a lint finds in it, which tests/run and tests/refusals run the command on.

A table is a file NAME.txt in a folder of lint. Its entries have the form of the folder:

    blocks        a line `=== NAME | SOURCE`, the lines of the file, and a line `> FINDING` for each finding
    files         a line `SOURCE | FILE | FINDINGS`
    statements    a line `HEADING | STATEMENT | FINDINGS`: a repository's file has the first two, each on a line
    ranges        a line `SOURCE | FILE | RANGES`

SOURCE is `repository`, whose file comes on standard input, `explicit` or `tool`. Words behind it say more: `tables`,
that an array of experimental features is refused; `latin-1`, that each character of the file is one byte; others,
with an underscore, in which of nextest's own tests the file stands. In a file \n is a line feed and \u{..} a
character, and a \ at its end takes the last line feed away. Blank lines in front of the next block aren't the file's.

A FINDING is as the command prints it, without the path, but for a `*`: there toml says something in words of its own.
A RANGE is `LINE:COLUMN-LINE:COLUMN CODE`. In a line they stand apart by ` && `, and ` |` ends one without any. A line
that begins with # is a comment, in a table of blocks in front of the first one alone.
"""

import collections
import json
import pathlib
import re

from runs import Failed, want

LINT = pathlib.Path(__file__).resolve().parent / "lint"
TABLE = re.compile(r"(blocks|files|statements|ranges)/[a-z-]+\.txt")
SOURCE = re.compile(r"(repository|explicit|tool)( tables)?( latin-1)?( \w+_\w+( \d+)?)?")
ESCAPE = re.compile(r"\\(n|u\{([0-9a-f]+)\})")
FINDING = re.compile(r"\d+:\d+: (error|warning|note): .+ \[[a-z0-9-]+\]")
RANGE = re.compile(r"\d+:\d+-\d+:\d+ [a-z0-9-]+")
# What stands in the place of words of toml's, and what may follow these, which isn't toml's.
STAR = ": error: *"
MISTAKE = re.compile(r", (did you mean (false|true)|quotes missing\?|\".*\" stands on line \d+ already)$")

# An entry: its place, its SOURCE, the bytes of its file, what is to be found, as lines of this format, and whether it
# stands right below a comment.
Entry = collections.namedtuple("Entry", "place source contents wanted format leads")


# Reading.


def unescaped(text):
    return ESCAPE.sub(lambda match: chr(int(match[2], 16)) if match[2] else "\n", text)


def contents_of(text, source):
    """The bytes of a file."""
    text = unescaped(text)
    text = text[:-2] if text.endswith("\\\n") else text
    return text.encode("latin-1" if " latin-1" in source else "utf-8")


def entry(place, source, text, wanted, form, leads=False):
    """An entry of a table. One that doesn't read as its form fails."""
    line = RANGE if form == "ranges" else FINDING
    want(f"{place}: an unknown source", SOURCE.fullmatch(source), source)
    want(f"{place}: not what is found", all(line.fullmatch(it) for it in wanted), wanted)
    try:
        contents = contents_of(text, source)
    except ValueError as failed:
        raise Failed(f"{place}: {failed}") from failed
    return Entry(place, source, contents, wanted, "json" if form == "ranges" else "human", leads)


def blocks_of(table, text):
    """The blocks of a table."""
    front, *blocks = f"\n{text}".split("\n=== ")
    want(f"{table}: not comments in front", all(line[:1] in ("", "#") for line in front.split("\n")), front)
    number = front.count("\n") + 1
    for block in blocks:
        given, *wanted = block.rstrip("\n").split("\n> ")
        heading, feed, file = given.partition("\n")
        name, _, source = heading.partition(" | ")
        yield entry(f"{table}:{number}: {name}", source, file + feed, wanted, "blocks")
        number += block.count("\n") + 1


def rows_of(table, text, form):
    """The entries of a table that stand on a line each."""
    lines = text.split("\n")
    for number, (before, line) in enumerate(zip(["", *lines], lines), 1):
        if line and not line.startswith("#"):
            place = f"{table}:{number}: {line}"
            source, _, rest = line.partition(" | ")
            file, is_row, wanted = rest.partition(" | ")
            want(f"{place}: not a row", is_row)
            wanted = wanted.split(" && ") if wanted != " |" else []
            if form == "statements":
                source, file = "repository", f"{source}\n{file}\n"
            yield entry(place, source, file, wanted, form, before.startswith("#"))


def read_table(name):
    """The entries of a table, a file of lint. One without any fails."""
    form, text = name.split("/")[0], (LINT / name).read_text()
    table = f"lint/{name}"
    entries = list(blocks_of(table, text) if form == "blocks" else rows_of(table, text, form))
    want(f"{table}: a table without an entry", entries)
    return entries


def read_tables():
    """The entries of all tables. What else stands beside them fails."""
    files = sorted(file.relative_to(LINT).as_posix() for file in LINT.rglob("*") if not file.is_dir())
    want("lint: not tables alone", files and all(map(TABLE.fullmatch, files)), files)
    return [entry for file in files for entry in read_table(file)]


# Running.


def lint_of(it, file):
    """A lint of an entry, for which there is this file: its words, its input, and how the lint calls what it reads."""
    words = ["lint", "--format", it.format, *["--table-only"] * (" tables" in it.source)]
    if it.source.startswith("repository"):
        return [*words, "-"], it.contents, "<stdin>"
    file.write_bytes(it.contents)
    if it.source.startswith("explicit"):
        return [*words, "--config-file", str(file)], b"", str(file)
    return [*words, "--tool-config-file", f"my-tool:{file}", "-"], b"", str(file)


def told_of(it, line, path):
    """How grave a finding is, by its line of an entry's format, and what the line says without the path."""
    if it.format == "json":
        told = json.loads(line)
        want("another path", told["path"] == path, line)
        return told["severity"], "{line}:{column}-{end_line}:{end_column} {code}".format(**told)
    told = FINDING.fullmatch(line.removeprefix(f"{path}:"))
    want("no finding", told and line.startswith(f"{path}:"), line)
    return told[1], told[0]


def is_wanted(line, wanted):
    """Whether a line of a finding is the wanted one, where that has a star with any words of toml's."""
    front, star, behind = wanted.partition(STAR)
    if not star:
        return line == wanted
    front += STAR[:-1]
    said = line.removeprefix(front).removesuffix(behind)
    return line == front + said + behind and said and not MISTAKE.search(said)


def check_answer(it, path, status, output, errors):
    """Wants how a lint of an entry ended to be what the entry says."""
    want("errors", not errors, errors)
    *lines, last = output.decode().split("\n")
    want("no line feed at the end", not last, output)
    told = [told_of(it, line, path) for line in lines]
    said = [line for _, line in told]
    same = len(said) == len(it.wanted) and all(map(is_wanted, said, it.wanted))
    want("another answer", same, *(f"wanted: {line}" for line in it.wanted), *(f"got:    {line}" for line in said))
    want("another status", status == any(severity == "error" for severity, _ in told), status)
