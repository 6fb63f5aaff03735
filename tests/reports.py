"""What nextest_config_check has to answer, by the definitions of crates/*/specs. No answer of it is used here."""

import collections
import json
import re
import unicodedata

GREATEST = (1 << 64) - 1
WORDS = ["setup-scripts", "wrapper-scripts", "benchmarks"]

Answer = collections.namedtuple("Answer", "status report complaint")
# A current version: its three numbers, its pre-release with the sign, its build metadata with the sign.
Current = collections.namedtuple("Current", "numbers release build")
# What a source asks: what reports call it, the versions, the features that it names, and whether it does so in an
# array.
Ask = collections.namedtuple("Ask", "source required recommended names is_array")


def dotted(numbers):
    return ".".join(map(str, numbers))


def word_of(current):
    return dotted(current.numbers) + current.release + current.build


# What people never see as it is: control characters, the blank without width, what ends a line or a paragraph, and what
# changes the direction of texts.
UNPRINTABLE = re.compile("[\x00-\x1f\x7f-\x9f\u200b\u200e\u200f\u2028-\u202e\u2066-\u2069]")
MARKS = {"\n": r"\n", "\r": r"\r", "\t": r"\t", "\0": r"\0"}


def escaped(character):
    return MARKS.get(character) or f"\\u{{{ord(character):x}}}"


def shown(text):
    """A text in a line, as people see it."""
    return UNPRINTABLE.sub(lambda found: escaped(found[0]), text)


def shown_lines(text):
    return "\n".join(map(shown, text.split("\n")))


def printed(name):
    """A name as a report prints it."""
    name = name.replace("\\", r"\\").replace('"', r"\"")
    return f'"{"".join(escaped(c) if unicodedata.category(c) == "Cc" else c for c in name)}"'


def json_text(value, sort_keys=True):
    return json.dumps(value, ensure_ascii=False, separators=(",", ":"), sort_keys=sort_keys) + "\n"


# Inputs.

SOURCE_LINE = re.compile(
    "=== (?:(?P<place>(?:explicit|repository) .+)|tool (?P<name>[^:]*):(?P<file>/.*))", re.DOTALL
)


def is_tool_name(name):
    """Whether a text in its normal form names a tool; None where this Python doesn't know its characters."""
    if any(unicodedata.category(character) == "Cn" for character in name):
        return None
    starts = name[:1] != "_" and name[:1].isidentifier()
    return starts and all(character == "-" or f"a{character}".isidentifier() for character in name)


def source_of_line(line):
    """What a report calls the source of a line: "" where it is no source line, None where that isn't known."""
    match = SOURCE_LINE.fullmatch(line)
    if match is None or match["place"]:
        return match["place"] if match else ""
    name = unicodedata.normalize("NFC", match["name"])
    return {True: f"tool {name} ({match['file']})", False: "", None: None}[is_tool_name(name)]


def sources_of(text):
    """The sources of an input, each with its line and its contents; before them the number of the line that is none."""
    lines = re.findall(r"[^\n]*\n|[^\n]+", text)
    starts = [at for at, line in enumerate(lines) if at == 0 or line.startswith("=== ")]
    heads = [re.sub(r"\r?\n\Z", "", lines[at]) for at in starts]
    faulty = next((at + 1 for at, head in zip(starts, heads) if source_of_line(head) == ""), None)
    bodies = ["".join(lines[at + 1 : end]) for at, end in zip(starts, [*starts[1:], None])]
    return faulty, list(zip(heads, bodies))


# What sources that read ask together.


def asked(asks, role):
    """The greatest version that is asked for in a role, and the position of its last source; None where none is."""
    versions = [(getattr(ask, role), at) for at, ask in enumerate(asks) if getattr(ask, role)]
    return max(versions, default=None)


def unmet(asks, current):
    """The kind, the role and the position of what the current version isn't enough for; None where it is enough."""
    for kind, role in [("error", "required"), ("warning", "recommended")]:
        version, position = asked(asks, role) or ((), None)
        if current.numbers < version or current.numbers == version and current.release:
            return kind, role, position
    return None


def features_of(asks):
    """The lines of the features."""
    known = [word for word in WORDS if any(word in ask.names for ask in asks)]
    yield f"known: {', '.join(known) or 'none'}"
    for ask in asks:
        names = sorted(ask.names - set(WORDS))
        if names:
            yield f"unknown in {ask.source}: {', '.join(map(printed, names))}"
    yield from (f"deprecated array form in {ask.source}" for ask in asks if ask.is_array)


def answer_of(asks, current, is_overridden=False):
    """The answer on sources that read."""
    first, is_error, refusal = f"satisfied: {word_of(current)}", False, unmet(asks, current)
    if refusal:
        kind, role, at = refusal
        mark = " (overridden)" if is_overridden else ""
        version = dotted(getattr(asks[at], role))
        first = f"{kind}{mark}: {version} {role} by {asks[at].source}, current {word_of(current)}"
        is_error = kind == "error" and not is_overridden
    return Answer(int(is_error), "".join(f"{line}\n" for line in [first, *features_of(asks)]), "")


# Words of the command line.

USAGE = "usage: nextest_config_check CURRENT [--override] [--table-only]\n"
FLAGS = ["--override", "--table-only"]
NUMBER = "(?:0|[1-9][0-9]*)"
IDENTIFIER = "(?:0|[1-9][0-9]*|[0-9]*[A-Za-z-][0-9A-Za-z-]*)"
BUILD = "[0-9A-Za-z-]+"
SEMVER = re.compile(
    rf"({NUMBER})\.({NUMBER})\.({NUMBER})(?:-{IDENTIFIER}(?:\.{IDENTIFIER})*)?(?:\+{BUILD}(?:\.{BUILD})*)?"
)


def is_version(word):
    """Whether a word is a version, by the grammar of Semantic Versioning, with numbers of 64 bits."""
    match = SEMVER.fullmatch(word)
    return match is not None and all(int(number) <= GREATEST for number in match.groups())


def answer_to_words(words):
    """The answer to words, where the input is empty."""
    if not words or words[1:] not in ([], FLAGS[:1], FLAGS[1:], FLAGS):
        return Answer(2, "", USAGE)
    if is_version(words[0]):
        return Answer(0, f"satisfied: {words[0]}\nknown: none\n", "")
    return Answer(2, "", f"not a version: {words[0]}\n")
