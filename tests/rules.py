"""How values are read, and what is said of those that are refused, for the random runs.

It is by the definitions of crates/*/specs, and no answer of a program is used. A reader of values says which forms it
takes, kinds of TOML and words, and all that is wrong with a value, each key of a table by itself.
"""

import collections
import re
import unicodedata

from documents import DateTime
from reports import GREATEST, is_tool_name, printed

KINDS = {bool: "boolean", int: "number", str: "text", list: "array", dict: "table", float: "float", DateTime: "date-time"}
# What reads values: all that is wrong with one, in order, which forms it takes, which of them it may refuse, what is
# meant by a value that it refuses, the readers of the keys of its table, what nextest may make of a scalar of another
# kind, and what a value means in which nothing is wrong.
PARTS = "faults takes refuses hint fields made means"
DEFAULTS = [(), lambda value, path: None, {}, None, lambda value: value]


class Reader(collections.namedtuple("Reader", PARTS, defaults=DEFAULTS)):
    def reads(self, value):
        return not list(self.faults(value))

    def read(self, value):
        """What a value means; it is refused for the first of its faults."""
        faults = list(self.faults(value))
        if faults:
            raise faults[0]
        return self.means(value)


class Fault(Exception):
    """What is wrong with a value: its code, what is said, and the steps to where it is wrong.

    What is wrong with a table as a whole may stand at one of its keys, and what is wrong with a text at a part of it.
    """

    def __init__(self, code, text, missing=None, key=None, hint=None, is_unjudged=False, span=None):
        super().__init__(code)
        self.code, self.text, self.missing, self.key, self.hint = code, text, missing, key, hint
        self.is_unjudged, self.span = is_unjudged, span
        self.steps = ()

    def said(self, path=()):
        """What is said of it, where the value stands at a path."""
        return self.text + (f'"{path_text((*path, *self.steps, self.missing))}"' if self.missing else "")


# Texts.


def path_text(steps):
    """A path as it is printed."""

    def text(step):
        if isinstance(step, int):
            return f"[{step}]"
        return f".{step}" if re.fullmatch("[A-Za-z0-9_-]+", step) else f".{printed(step)}"

    return "".join(map(text, steps)).removeprefix(".")


def found(value):
    """What a refusal says that it found."""
    names = {list: "sequence", dict: "map", float: "floating point", DateTime: "datetime"}
    if isinstance(value, int):
        return f"{'boolean' if isinstance(value, bool) else 'integer'} `{str(value).lower()}`"
    return f"string {printed(value)}" if isinstance(value, str) else names[type(value)]


def wrong_type(value, expected):
    return Fault("invalid-type", f"invalid type: {found(value)}, expected {expected}")


def wrong_value(value, expected):
    return Fault("invalid-value", f"invalid value: {found(value)}, expected {expected}")


def listed(words):
    words = [f"`{word}`" for word in words]
    return f"one of {', '.join(words)}" if len(words) > 2 else " or ".join(words)


# The nearest word.


def plain(name):
    """A name without the case of its ASCII letters, and with - for _."""
    return "".join(chr(ord(c) | 32) if "A" <= c <= "Z" else "-" if c == "_" else c for c in name)


def distance(name, word):
    row = list(range(len(word) + 1))
    for at, character in enumerate(name, 1):
        before, row[0] = row[0], at
        for place, other in enumerate(word, 1):
            before, row[place] = row[place], min(row[place] + 1, row[place - 1] + 1, before + (character != other))
    return row[-1]


def nearest(name, words):
    """The first of the nearest of the near words, None where none is near."""
    most = min(max(1, len(name) // 3), len(name) - 1)
    far = [0 if plain(name) == plain(word) else distance(name, word) + 1 for word in words]
    near = [(one, at) for at, one in enumerate(far) if one == 0 or one <= most + 1]
    return words[min(near)[1]] if near else None


def meant(word):
    return None if word is None else f", did you mean {printed(word)}"


# Plain readers.


def of_kind(kind, expected, hint=lambda value, path: None, made=None):
    def faults(value):
        if type(value) is not kind:
            yield wrong_type(value, expected)

    return Reader(faults, (KINDS[kind],), hint=hint, made=made)


def integer(is_taken, expected, *known, made=None):
    """An integer that is taken, or one of the words that are known."""

    def faults(value):
        if type(value) not in ((int, str) if known else (int,)):
            yield wrong_type(value, expected)
        elif not is_taken(value) if type(value) is int else value not in known:
            yield wrong_value(value, expected)

    return Reader(faults, ("number", *known), ("number", "text")[: 1 + len(known)], integer_hint(is_taken), made=made)


def integer_hint(is_taken):
    def hint(value, _):
        is_written = isinstance(value, str) and re.fullmatch("-?(?:0|[1-9][0-9]*)", value)
        return f", did you mean {int(value)}" if is_written and is_integer(value) and is_taken(int(value)) else None

    return hint


def is_integer(text):
    """Whether a text writes an integer of 64 bits."""
    return bool(re.fullmatch("[+-]?[0-9]+", text)) and -1 << 63 <= int(text) < 1 << 63


def truth_hint(value, _):
    return f", did you mean {value}" if value in ("true", "false") else None


def words(*known, also=()):
    def faults(value):
        yield from TEXT.faults(value)
        if isinstance(value, str) and value not in (*known, *also):
            yield Fault("unknown-variant", f"unknown variant `{value}`, expected {listed(known)}")

    def hint(value, _):
        return meant(nearest(value, known)) if isinstance(value, str) else None

    return Reader(faults, (*known, *also), ("text",), hint)


TEXT = of_kind(str, "a string")
BOOLEAN = of_kind(bool, "a boolean", truth_hint)
MADE_TEXT = TEXT._replace(made="text")
MADE_BOOLEAN = BOOLEAN._replace(made="boolean")
TABLE = of_kind(dict, "a table")
UNREAD = Reader(lambda value: (), ("any value",))


# Arrays and tables.


def array_hint(value, path):
    return f", did you mean [[{path_text(path)}]]" if isinstance(value, dict) else None


ARRAY = of_kind(list, "an array", array_hint)


def faults_below(reader, value, step):
    for fault in reader.faults(value[step]):
        fault.steps = (step, *fault.steps)
        yield fault


def faults_of_elements(reader, value):
    """What is wrong with the elements of an array; nothing, where the value is none."""
    for index in range(len(value)) if isinstance(value, list) else []:
        yield from faults_below(reader, value, index)


def faults_of_texts(value, expected="an array of strings"):
    yield from of_kind(list, expected).faults(value)
    yield from faults_of_elements(TEXT, value)


TEXTS = Reader(faults_of_texts, ("array",), ("array",))


def faults_of_keys(value, fields, required=()):
    """What is wrong with the keys of a table; nothing, where the value is none."""
    for key, reader in fields.items() if isinstance(value, dict) else []:
        if key in value:
            yield from faults_below(reader, value, key)
        elif key in required:
            yield Fault("missing-field", "missing configuration field ", missing=key)


def means_of_keys(value, fields, absent=None):
    """What the keys of a table mean: those that read, and those of the absent ones that mean something."""
    there = {key: reader.means(value[key]) for key, reader in fields.items() if key in value and reader.reads(value[key])}
    return {**{key: one for key, one in (absent or {}).items() if key not in value}, **there}


def table_of(fields, required=()):
    def faults(value):
        yield from TABLE.faults(value)
        yield from faults_of_keys(value, fields, required)

    return Reader(faults, ("table",), ("table",), fields=fields)


def having(*keys):
    """A table that has these keys, each of which is judged at a place of its own."""
    return table_of(dict.fromkeys(keys, UNREAD), keys)._replace(fields={})


# Durations.

WHITE = "[ \t-\r\x85\xa0\u1680\u2000-\u200a\u2028\u2029\u202f\u205f\u3000]"
LENGTHS = {
    **{1: "nanos nsec ns", 10**3: "usec us µs", 10**6: "millis msec ms", 10**9: "seconds second secs sec s"},
    **{60 * 10**9: "minutes minute mins min m", 3600 * 10**9: "hours hour hrs hr h", 86400 * 10**9: "days day d"},
    **{604800 * 10**9: "weeks week wks wk w", 2630016 * 10**9: "months month M", 31557600 * 10**9: "years year yrs yr y"},
}
UNITS = {word: length for length, words in LENGTHS.items() for word in words.split()}
ITEM = re.compile(rf"{WHITE}*([0-9]+){WHITE}*((?:(?!{WHITE})[^0-9])+)")


def nanoseconds(text):
    """How long a text says, None where it is no duration."""
    items = ITEM.findall(text)
    if not items or not re.fullmatch(rf"(?:{ITEM.pattern})*{WHITE}*", text):
        return None
    if any(word not in UNITS or int(number) > GREATEST for number, word in items):
        return None
    total = sum(int(number) * UNITS[word] for number, word in items)
    return total if total < 10**9 << 64 else None


def may_be_duration(text):
    """Whether nextest may take a text for a duration that is none here."""
    whole = re.sub(r"(?<=[0-9])(?:\.[0-9]+)+", "", text)
    return text == "0" or nanoseconds(re.sub(rf"(?<=[0-9]){WHITE}+(?=[0-9])", "", whole)) is not None


def faults_of_duration(value, expected="a duration"):
    yield from of_kind(str, expected).faults(value)
    if isinstance(value, str) and nanoseconds(value) is None:
        fault = wrong_value(value, "a duration")
        fault.is_unjudged = may_be_duration(value)
        yield fault


def seconds_hint(value, _):
    """A whole number, with the unit of seconds."""
    is_whole = type(value) is int and value >= 0 or isinstance(value, str) and re.fullmatch("[0-9]+", value)
    return meant(f"{value}s") if is_whole and nanoseconds(f"{value}s") is not None else None


def short_hint(value, path):
    """The same where durations are short: from 100 on in milliseconds, too."""
    hint = seconds_hint(value, path)
    return f', did you mean "{value}ms" or "{value}s"' if hint and int(value) >= 100 else hint


DURATION = Reader(faults_of_duration, ("text",), ("text",), seconds_hint, means=nanoseconds)
SHORT_DURATION = DURATION._replace(hint=short_hint)


def timeout(expected, fields, may_be_empty, hint=seconds_hint):
    def faults(value):
        if not isinstance(value, dict) and not (may_be_empty and value == ""):
            yield from faults_of_duration(value, expected)
        yield from faults_of_keys(value, fields, ["period"])

    return Reader(faults, ("text", "table"), ("text", "table"), hint, fields)


# Identifiers.


def name_fault(text):
    """What a refusal says of a text that is no identifier, None where it is one."""
    text = unicodedata.normalize("NFC", text)
    parts = text.removeprefix("@tool:").split(":", 1) if text.startswith("@tool:") else [text]
    if text == "":
        return "identifier is empty"
    if text.startswith("@tool:") and len(parts) == 1:
        return f"tool identifier isn't @tool:name:identifier: {printed(text)}"
    wrong = next((part for part in parts if not is_tool_name(part)), None)
    if wrong is None:
        return None
    if wrong == "":
        return f"tool identifier has an empty component: {printed(text)}"
    return f"invalid {'tool ' if len(parts) == 2 else ''}identifier {printed(text)}"
