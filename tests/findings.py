"""How nextest-config has to tell findings in its formats, by docs/USING.md, for tests/random-files."""

import functools
import re

from reports import json_text, shown

SEVERITIES = ["error", "warning", "note"]
MOST_SHOWN = 200


def text_of(finding):
    return f"{finding.key}: {finding.message}" if finding.key else finding.message


def human_line(finding):
    place = f"{finding.path}:{finding.line}:{finding.column}"
    return shown(f"{place}: {finding.severity}: {text_of(finding)} [{finding.code}]")


def json_line(finding):
    return json_text(finding._asdict(), sort_keys=False)[:-1]


def github_line(finding):
    """The command of a workflow, without columns where the range has several lines."""

    def escaped(text, more=""):
        return re.sub(f"[%{more}]", lambda mark: f"%{ord(mark[0]):02X}", shown(text))

    places = {"file": escaped(finding.path, ":,"), "line": finding.line, "endLine": finding.end_line}
    if finding.line == finding.end_line:
        places |= {"col": finding.column, "endColumn": finding.end_column}
    told = ",".join(f"{name}={place}" for name, place in {**places, "title": finding.code}.items())
    command = "notice" if finding.severity == "note" else finding.severity
    place = f"{finding.path}:{finding.line}:{finding.column}"
    return f"::{command} {told}::{escaped(f'{place}: {text_of(finding)}')}"


# Excerpts.

# The columns of characters that aren't ASCII. Of others only that there is a mark is known.
WIDTHS = {
    **dict.fromkeys("éèüßµΔаﬁ¡ÿ\xa0\u2003\ufffd", 1),
    **dict.fromkeys("日本語ａ😀", 2),
    **dict.fromkeys("\u0301\u200d\ufeff", 0),
}


@functools.lru_cache(64)
def shown_source(text):
    """A part of a line of a file, as people see it."""
    return shown(text.replace("\t", "    "))


@functools.lru_cache(64)
def columns_of(text):
    """How many columns a text takes as it is shown, None where that isn't known."""
    text = shown_source(text)
    if text.isascii():
        return len(text)
    widths = [1 if character.isascii() else WIDTHS.get(character) for character in text]
    return None if None in widths else sum(widths)


def marks_under(finding, line):
    """How many blanks and how many marks stand under a line, each None where that isn't known."""
    if len(line) > MOST_SHOWN and finding.column > MOST_SHOWN:
        before = columns_of(line[:MOST_SHOWN])
        return None if before is None else before + 1, 2
    end = finding.end_column - 1 if finding.line == finding.end_line else len(line)
    held = columns_of(line[finding.column - 1 : min(end, MOST_SHOWN)])
    return columns_of(line[: finding.column - 1]), None if held is None else max(held, 1)


def is_excerpt(finding, lines, told):
    """Whether this is what `full` tells of a finding, where its file has these lines."""
    line = lines[finding.line - 1]
    line = line[:-1] if finding.line < len(lines) and line.endswith("\r") else line
    gutter, cut = " " * len(str(finding.line)), " .." if len(line) > MOST_SHOWN else ""
    front = [human_line(finding), f"{gutter} |", f"{finding.line} | {shown_source(line[:MOST_SHOWN])}{cut}"]
    marks = re.fullmatch(rf"{gutter} \| ( *)(\^+)", told[3]) if told[:3] == front else None
    pairs = zip(map(len, marks.groups()), marks_under(finding, line)) if marks else []
    return marks is not None and all(wanted in (None, count) for count, wanted in pairs)


def summary_of(findings):
    """The last line of `full`, where anything is found."""

    def counted(count, noun):
        return f"{count} {noun}" if count == 1 else f"{count} {noun}s"

    found = [counted(sum(it.severity == severity for it in findings), severity) for severity in SEVERITIES]
    files = counted(len({finding.path for finding in findings}), "file")
    return f"found {found[0]}, {found[1]} and {found[2]} in {files}"


def is_within(finding, lines):
    """Whether a range lies within a text, and doesn't begin behind its end."""
    begin, end = (finding.line, finding.column), (finding.end_line, finding.end_column)
    places = [1 <= line <= len(lines) and 1 <= column <= len(lines[line - 1]) + 1 for line, column in (begin, end)]
    return all(places) and begin <= end
