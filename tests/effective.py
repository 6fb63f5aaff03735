"""What a profile gets of its settings, by the definitions of crates/*/specs, for the random runs.

No answer of a program is used here.
"""

import collections
import functools
import pathlib
import re

import documents
import rules
from findings import columns_of
from places import by_bytes, may_become
from reports import UNPRINTABLE, Answer, json_text, shown, shown_lines
from rules import Fault
from settings import OVERRIDE, PROFILE, REQUIRED, SETTINGS, SLOW_TIMEOUT, TIMES, UNSET

DEFAULTS = pathlib.Path(__file__).resolve().parent.parent / "crates/nextest_config_profiles/src/defaults.rt"
# What layers have at a path together: the last that has it, what that has there, and what is below a table.
Laid = collections.namedtuple("Laid", "layer node below")
# A line: the object that says it, its first column, and where it comes from; of an override also what that is.
Line = collections.namedtuple("Line", "object first source override", defaults=[None])
TAKEN_AWAY = "no value: the empty text takes the default away"
VERY_LONG = 946080000 * 10**9
LONGEST = ((1 << 64) - 1) * 10**9 + 999999999
UNITS = [("w", 604800 * 10**9), ("d", 86400 * 10**9), ("h", 3600 * 10**9), ("m", 60 * 10**9)]
UNITS += [("s", 10**9), ("ms", 10**6), ("us", 1000), ("ns", 1)]


# What layers come to.


def layer_of(node, layer):
    """What one layer has at a path."""
    below = {key: layer_of(one, layer) for key, one in node.below.items()} if node.is_table() else None
    return Laid(layer, node, below)


def laid_over(earlier, later):
    """What comes of two layers at one path: a table lies over another key by key, and else the later one counts."""
    if earlier is None or earlier.below is None or later.below is None:
        return later
    laid = {key: laid_over(earlier.below.get(key), one) for key, one in later.below.items()}
    return later._replace(below={**earlier.below, **laid})


def value_of(laid):
    return laid.node.value if laid.below is None else {key: value_of(one) for key, one in laid.below.items()}


@functools.cache
def defaults():
    """What nextest sets itself, as a document."""
    text = re.search(r'const DEFAULTS: &str = r#"(.*?)"#;', DEFAULTS.read_text(encoding="utf-8"), re.DOTALL)
    return documents.read(text[1].encode())


# Texts.


def basic_text(text):
    """A text as TOML writes it."""
    marks = {"\n": r"\n", "\r": r"\r", "\t": r"\t", '"': r"\"", "\\": r"\\"}
    text = "".join(marks.get(c, c) for c in text)
    return '"' + UNPRINTABLE.sub(lambda found: f"\\u{ord(found[0]):04X}", text) + '"'


def key_text(key):
    return key if re.fullmatch("[A-Za-z0-9_-]+", key) else basic_text(key)


def keys_text(names, between=", "):
    return between.join(map(key_text, names))


def name_text(name):
    """The name of a profile, as findings print it."""
    return rules.path_text((name,))


def time_text(length):
    """A time in the units that go in, from the greatest on."""
    parts = []
    for unit, of in UNITS:
        number, length = divmod(length, of)
        parts += [f"{number}{unit}"] if number else []
    return " ".join(parts) or "0s"


def literal(value):
    """A value as TOML writes it on one line."""
    if isinstance(value, dict):
        pairs = ", ".join(f"{key_text(key)} = {literal(value[key])}" for key in by_bytes(value))
        return f"{{ {pairs} }}" if pairs else "{}"
    if isinstance(value, list):
        return f"[{', '.join(map(literal, value))}]"
    if isinstance(value, str):
        return basic_text(value)
    if isinstance(value, documents.DateTime):
        return value.text
    return str(value).lower() if isinstance(value, bool) else str(value)


def data(value):
    """What stands for a value in JSON."""
    if isinstance(value, dict):
        return {key: data(one) for key, one in value.items()}
    if isinstance(value, list):
        return list(map(data, value))
    if isinstance(value, documents.DateTime):
        return value.text
    is_number = not isinstance(value, float) or abs(value) < float("inf")
    return value if is_number else str(value)


# What nextest may make another value of.


def is_made(reader, value):
    return bool(reader.made) and may_become(reader.made, value)


def field_of(reader, key):
    return reader if key is None else (reader.fields or {}).get(key, rules.UNREAD)


def unmade(reader, value):
    """A value without the keys whose values nextest may convert."""
    if not isinstance(value, dict):
        return value
    return {key: one for key, one in value.items() if not is_made(field_of(reader, key), one)}


# What is told.


class Wrong(Exception):
    """A profile has no chain; any of these lines says why."""


class Profile:
    """What a profile gets by the files of a list, in which there is no error."""

    def __init__(self, listed, name, hides):
        self.files = listed.files
        self.name = name
        self.hides = hides
        roots = [defaults(), *listed.roots]
        self.layers = [root.at(["profile"]) for root in roots]
        laid = [layer_of(node, at) for at, node in enumerate(self.layers) if node]
        self.laid = functools.reduce(laid_over, laid)
        self.names = listed.names()
        self.chain = self.chain_of(name)
        # The profile that gives a setting, by the setting's keys.
        self.givers = {}

    def at(self, *keys):
        """What the layers have at a path together, None where they have nothing."""
        laid = self.laid
        for key in keys:
            laid = laid and laid.below and laid.below.get(key)
        return laid

    def chain_of(self, name):
        """The profile and those that it falls back on."""
        chain = [name]
        if name not in self.names:
            raise Wrong([f"no profile {rules.printed(name)}, there are {', '.join(map(name_text, self.names))}"])
        while chain[-1] != "default":
            inherits = self.at(chain[-1], "inherits")
            parent = inherits.node.value if inherits else "default"
            if not isinstance(parent, str):
                raise Wrong([self.wrong(chain[-1], str(rules.wrong_type(parent, "a string").text))])
            if parent not in self.names:
                raise Wrong([self.wrong(chain[-1], f"no file defines the profile {rules.printed(parent)}")])
            if parent in chain:
                ring = chain[chain.index(parent) :]
                raise Wrong([self.wrong(it, f"the profile {rules.printed(it)} inherits from itself") for it in ring])
            chain.append(parent)
        return chain

    def wrong(self, name, said):
        laid = self.at(name, "inherits")
        return f"{self.place_text(self.spot(name, laid.layer, laid.node))}: {shown(said)}"

    # Places.

    def spot(self, profile, layer, node):
        """Where something stands: None where nextest sets it itself."""
        if layer == 0:
            return None
        line, column = node.place()[0]
        return {"profile": profile, "path": self.files[layer - 1].path, "line": line, "column": column}

    def inherits_spot(self, name):
        """Where it stands what a profile inherits from."""
        laid = self.at(name, "inherits") if name != "default" else None
        return self.spot(name, laid.layer, laid.node) if laid else None

    def chain_text(self):
        marks = {name: f" ({self.place_text(spot)})" for name in self.chain if (spot := self.inherits_spot(name))}
        return ", ".join(name_text(name) + marks.get(name, "") for name in self.chain)

    def chain_objects(self):
        nowhere = dict.fromkeys(["path", "line", "column"])
        return [{**nowhere, **(self.inherits_spot(name) or {}), "profile": name} for name in self.chain]

    def place_text(self, spot):
        return f"{shown(spot['path'])}:{spot['line']}" if spot else "nextest's default"

    def source(self, spot):
        of = f" [profile.{name_text(spot['profile'])}]" if spot and spot["profile"] != self.name else ""
        return self.place_text(spot) + of

    # Lines.

    def line(self, keys, value, spot, state, message=None, first=None, source=None):
        nowhere = dict.fromkeys(["profile", "path", "line", "column"])
        key = keys_text(keys, ".")
        told = {"key": key, "value": data(value), "state": state, "message": message, **(spot or nowhere)}
        return Line(told, first or f"{key} = {literal(value)}", source)

    def given(self, reader, profile, keys, laid, member, is_judged):
        """A value that stands in a layer, and what it hides."""
        value, spot = laid.node.value, self.spot(profile, laid.layer, laid.node)
        is_time = reader in TIMES and member in (None, "period") and isinstance(value, str)
        mark = " (no limit)" if is_time and (rules.nanoseconds(value) or 0) >= VERY_LONG else ""
        state, message = ("value", None) if spot else ("default", "nextest's default")
        time = self.ending(profile, keys, value) if reader is SLOW_TIMEOUT and member == "terminate-after" else None
        if time is not None:
            mark = f" (terminated after {time})"
        if not is_judged or is_made(field_of(reader, member), value):
            state, message, mark, time = "not-judged", None, " (not judged)", None
        line = self.line(keys, value, spot, state, message, source=self.source(spot) + mark)
        line.object.update({} if time is None else {"terminated_after": time})
        yield line
        yield from self.hidden(profile, keys, laid.layer)

    def ending(self, profile, keys, number):
        """After how long a slow test is terminated, as a text, by its period and their number."""
        period = self.at(profile, *keys[:-1], "period")
        length = rules.nanoseconds(period.node.value) if period and isinstance(period.node.value, str) else None
        if length is None or length >= VERY_LONG or type(number) is not int or length * number > LONGEST:
            return None
        return time_text(length * number)

    def absent(self, keys, value, front=""):
        """A key that no layer has."""
        if value in (UNSET, REQUIRED):
            mark = " (a slow test goes on)" if keys[-1] == "terminate-after" else ""
            return self.line(keys, None, None, "unset", first=f"# {keys_text(keys, '.')} isn't set{mark}")
        first = f"{front}{keys_text(keys, '.')} = {literal(value)}"
        return self.line(keys, value, None, "default", "default of the table", first, "default of the table")

    def hidden(self, profile, keys, layer):
        """What lies below a layer at keys of a profile, and what later profiles of the chain have there."""
        later = self.chain[self.chain.index(profile) + 1 :] if self.hides else []
        layers = [(profile, at) for at in reversed(range(layer))] if self.hides else []
        for name, at in [*layers, *((name, at) for name in later for at in reversed(range(len(self.layers))))]:
            node, depth = self.layers[at] and self.layers[at].at([name]), 0
            while node and node.is_table() and depth < len(keys):
                node, depth = node.at([keys[depth]]), depth + 1
            if node:
                spot = self.spot(name, at, node)
                first = f"# hidden: {keys_text(keys[:depth], '.')} = {literal(node.value)}"
                yield self.line(keys[:depth], node.value, spot, "hidden", first=first, source=self.source(spot))

    def setting(self, keys, reader, members):
        """The lines of a setting."""
        for profile in self.chain:
            laid = self.at(profile, *keys)
            if laid and not (reader is SLOW_TIMEOUT and value_of(laid) == ""):
                self.givers[keys] = profile
                yield from self.lines_of(keys, reader, members, profile, laid)
                return
        laid = self.at("default", *keys)
        if laid is None:
            yield self.absent(keys, UNSET)
            return
        spot = self.spot("default", laid.layer, laid.node)
        first = f"# {keys_text(keys, '.')} = {TAKEN_AWAY}"
        yield self.line(keys, None, spot, "fault", TAKEN_AWAY, first, self.source(spot))

    def fault_of(self, reader, laid):
        """What is wrong with a value, but for what nextest may convert in it."""
        value = value_of(laid)
        try:
            if not is_made(reader, value):
                reader.read(unmade(reader, value))
            return None
        except Fault as fault:
            return fault

    def parts(self, profile, keys, members):
        """Where the parts of a value stand, by their keys: of a table those that it has, or else the whole."""
        laid = self.at(profile, *keys)
        found = [((*keys, key), laid.below[key]) for key in members if key in (laid.below or {})]
        return [(part, self.spot(profile, it.layer, it.node)) for part, it in found or [(keys, laid)]]

    def fault_line(self, keys, members, profile, message):
        parts = self.parts(profile, keys, members)
        spots = [spot for _, spot in parts]
        first = f"# {keys_text(keys, '.')} = {shown(message)}"
        line = self.line(keys, None, spots[0], "fault", message, first, ", ".join(map(self.source, spots)))
        nowhere = dict.fromkeys(["path", "line", "column"])
        sources = [{**nowhere, **(spot or {}), "key": keys_text(part, ".")} for part, spot in parts]
        line.object["sources"] = [{key: one for key, one in it.items() if key != "profile"} for it in sources]
        return line

    def lines_of(self, keys, reader, members, profile, laid):
        fault = self.fault_of(reader, laid)
        if fault and not fault.is_unjudged:
            yield self.fault_line(keys, members, profile, message_of(fault))
        elif laid.below is None or not members:
            yield from self.given(reader, profile, keys, laid, None, not fault)
            stands_for_table = type(laid.node.value) in (str, int)
            for key, value in members.items() if stands_for_table else []:
                if value is not REQUIRED:
                    yield self.absent((*keys, key), value, "# ")
        else:
            for key, value in members.items():
                yield from self.member(reader, profile, (*keys, key), laid.below.get(key), value, not fault)

    def member(self, reader, profile, keys, laid, value, is_judged):
        if laid:
            yield from self.given(reader, profile, keys, laid, keys[-1], is_judged)
        else:
            yield self.absent(keys, value)
            yield from self.hidden(profile, keys, len(self.layers))

    # The whole.

    def others(self):
        """The other keys that are known in a profile."""
        told = {keys[0] for keys in SETTINGS} | {"overrides", "inherits"}
        for key in PROFILE:
            found = [(name, self.at(name, key)) for name in self.chain if key not in told and self.at(name, key)]
            for profile, laid in found[:1]:
                spot, value = self.spot(profile, laid.layer, laid.node), value_of(laid)
                object_ = {"key": key_text(key), "value": data(value), **spot}
                yield Line(object_, f"{key_text(key)} = {literal(value)}", self.source(spot))

    def overrides(self):
        for profile in self.chain:
            for at in reversed(range(len(self.layers))):
                array = self.layers[at] and self.layers[at].at([profile, "overrides"])
                for element in array.below.values() if array else []:
                    yield self.override(self.spot(profile, at, element), element.value)

    def override(self, spot, value):
        conditions = {key: value[key] for key in ("filter", "platform") if key in value}
        settings = {key: value[key] for key in OVERRIDE if key in value and key not in conditions}
        told = {"filter": None, "platform": None, **data(conditions), "settings": data(settings), **spot}
        texts = [", ".join(f"{key} = {literal(one)}" for key, one in it.items()) for it in (conditions, settings)]
        of = f" [profile.{name_text(spot['profile'])}]" if spot["profile"] != self.name else ""
        texts = [texts[0] or "every test", *filter(None, texts[1:])]
        return Line(told, f"{self.place_text(spot)}:{of} {'; '.join(texts)}", None, value)

    def outside(self):
        """What is wrong with settings of other profiles than those that give them."""
        for keys, (reader, members) in SETTINGS.items():
            for name in self.names:
                laid = self.at(name, *keys)
                fault = laid and name != self.givers.get(keys) and self.fault_of(reader, laid)
                if fault and not fault.is_unjudged:
                    places = ", ".join(self.place_text(spot) for _, spot in self.parts(name, keys, members))
                    path = f"profile.{name_text(name)}.{keys_text(keys, '.')}"
                    yield f"{places}: {path}: {shown(message_of(fault))}\n"


def message_of(fault):
    return f"{rules.path_text(fault.steps)}: {fault.said()}" if fault.steps else fault.said()


def is_at(key, other):
    """Whether a printed path is another one, or lies below it."""
    return f"{key}.".startswith(f"{other}.")


def only(lines, wanted):
    """Of lines, each with what it hides behind it, those of keys that are wanted, lie below one, or have one in them."""
    told = False
    for line in lines:
        if line.object.get("state") != "hidden":
            key = line.object["key"]
            told = any(is_at(key, one) or is_at(one, key) for one in wanted)
        if told:
            yield line


def sets_wanted(override, wanted):
    """Whether an override has a value of a setting in which a wanted key lies, or that lies in one; or a wanted key is
    one that it has."""
    named = [steps for steps in (one.split(".") for one in wanted) if steps[0] == "overrides"]
    if any(not steps[1:] or steps[1] in override and steps[1] not in ("filter", "platform") for steps in named):
        return True
    for keys in SETTINGS:
        key, value = keys_text(keys, "."), override
        for one in keys:
            value = value.get(one) if isinstance(value, dict) else None
        if value is not None and any(is_at(key, one) or is_at(one, key) for one in wanted):
            return True
    return False


def profile_answers(listed, name, hides, wanted=()):
    """The answers for people, and those for programs, of which any may be given, of all keys or of those that are
    wanted."""
    try:
        told = Profile(listed, name, hides)
    except Wrong as wrong:
        return [[Answer(2, "", f"{shown(line)}\n") for line in wrong.args[0]]] * 2
    settings = [line for keys, how in SETTINGS.items() for line in told.setting(keys, *how)]
    others, overrides, outside = list(told.others()), list(told.overrides()), "".join(told.outside())
    if wanted:
        settings, others = list(only(settings, wanted)), list(only(others, wanted))
        overrides = [line for line in overrides if sets_wanted(line.override, wanted)]
    status = int(bool(outside) or any(line.object["state"] == "fault" for line in settings))
    lists = {"settings": settings, "others": others, "overrides": overrides}
    objects = {key: [line.object for line in lines] for key, lines in lists.items()}
    answer = {"profile": name, "chain": told.chain_objects(), **objects}
    lines = [f"profile {name_text(name)}: {told.chain_text()}", *in_columns(settings, others)]
    if overrides:
        lines += ["", "overrides, the first that applies and sets a key wins:", *(line.first for line in overrides)]
    texts = ["".join(f"{line}\n" for line in lines), json_text(answer)]
    texts[0] = shown_lines(texts[0])
    return [[Answer(status, text, shown_lines(outside))] for text in texts]


def in_columns(settings, others):
    """Lines whose sources begin two blanks behind the widest first column of at most 60."""
    widths = [columns_of(line.first) or 0 for line in [*settings, *others] if line.source]
    column = max((width for width in widths if width <= 60), default=0) + 2
    for line in [*settings, *([None] if others else []), *others]:
        if line is None or line.source is None:
            yield line.first if line else ""
        else:
            yield line.first + " " * max(column - (columns_of(line.first) or 0), 2) + line.source
