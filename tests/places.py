"""What is found in the configuration files of a list, by the definitions of crates/*/specs, for the random runs.

No answer of a program is used here.
"""

import collections
import functools
import pathlib
import re
import unicodedata

import documents
import rules
import texts
from reports import WORDS, Ask
from rules import Fault, meant, nearest, path_text, printed
from settings import HOMES, OVERRIDE_JUNIT, SCRIPT_JUNIT, TOP, VERSIONS

# The code's table of keys, by which it is known that none is left out here.
KEYS = pathlib.Path(__file__).resolve().parent.parent / "crates/nextest_config_elements/src/keys.rt"
# The most names among which the nearest is sought.
MOST_NAMES = 100
# Booleans of which two letters have changed places.
SWAPPED = {
    word[:at] + word[at + 1] + word[at] + word[at + 2 :]: word for word in ("false", "true") for at in range(len(word) - 1)
}
# A finding as `json` tells it: its members, in their order.
MEMBERS = "path line column end_line end_column severity code key message".split()
Finding = collections.namedtuple("Finding", MEMBERS)


class File(collections.namedtuple("File", "path tool contents kind", defaults=["repository"])):
    """A file of a list: its printed path, the name of its tool, None where it is none's, and what it holds."""

    @property
    def source(self):
        """What reports call it."""
        return f"tool {self.tool} ({self.path})" if self.tool is not None else f"{self.kind} {self.path}"


def places_in(rows, front=()):
    """All places, with their paths: `*` stands for a name, and 0 for an index."""
    for key, place in rows.items():
        yield (*front, key), place
        yield from places_in(place.rows or {}, (*front, key))
        if place.each:
            path = (*front, key, 0 if place.reader is rules.ARRAY else "*")
            yield path, place.each
            yield from places_in(place.each.rows or {}, path)


# The tables of which each key is a name.
OF_NAMES = {path[:-1] for path, _ in places_in(TOP) if path[-1] == "*"}


def general(path):
    """A path with `*` for each name, and 0 for each index."""
    steps = ()
    for step in path:
        steps += (0 if isinstance(step, int) else "*" if steps in OF_NAMES else step,)
    return steps


def met_at(reader, path, value, faults):
    """Which forms of a value with these faults, and of the keys of its table, are met, each right or wrong."""
    form = rules.KINDS[type(value)]
    if not faults:
        form = value if isinstance(value, str) and value in reader.takes else form
        yield path, "any value" if reader is rules.UNREAD else form, "right"
    elif not all(fault.is_unjudged for fault in faults):
        yield path, form if form in reader.refuses else "another kind", "wrong"
        if len(faults) > 1:
            yield path, form, "wrong at several places"
    unknown = [fault.key for fault in faults if fault.code == "unknown-field"]
    for key, field in reader.fields.items() if isinstance(value, dict) else []:
        if key in value and key not in unknown:
            yield from met_at(field, (*path, key), value[key], list(field.faults(value[key])))


def met_in(settings, tables_only):
    """The same of the settings of a file, with `*` for each name, and 0 for each index."""
    for path, place, value in settings:
        yield from met_at(place.reader, general(path), value, faults_at(path, place, value, tables_only))


def all_forms(reader, path):
    """All that may be met of what reads at a path."""
    yield from ((path, form, "right") for form in reader.takes)
    yield from ((path, form, "wrong") for form in reader.refuses)
    several = [form for form in reader.refuses if form == "array" or form == "table" and reader.fields]
    yield from ((path, form, "wrong at several places") for form in several)
    if reader is not rules.UNREAD:
        yield path, "another kind", "wrong"
    for key, field in reader.fields.items():
        yield from all_forms(field, (*path, key))


def keys_of_code():
    """How often the code's tables have each key, in a row of its own or in one that several of them share."""
    text = KEYS.read_text()
    shared = dict(re.findall(r'const (\w+): Field = \w+!\("([\w-]+)"', text))
    tables = "".join(re.findall(r"const \w+: &\[Field\] = &\[(.*?)\];", text, re.DOTALL))
    rows = re.findall(r'\b(?:field|documented)!\("([\w-]+)"', tables)
    return collections.Counter(rows + [shared[name] for name in re.findall(r"\w+", tables) if name in shared])


def keys_here():
    """How often the tables of places have each key: a table that stands at several places counts once."""
    places = [place for _, place in places_in(TOP)]
    tables = {id(rows): rows for rows in [TOP, *(place.rows for place in places if place.rows)]}
    return collections.Counter([key for rows in tables.values() for key in rows] + [*VERSIONS, *WORDS])


def lacking(met, keys=None):
    """What isn't met of the settings below these keys of a file, or below all."""
    rows = {key: place for key, place in TOP.items() if keys is None or key in keys}
    wanted = {form for path, place in places_in(rows) for form in all_forms(place.reader, path)}
    said, here = keys_of_code(), keys_here()
    others = [f"the key {key}, as {KEYS.name} has it" for key in said.keys() | here.keys() if said[key] != here[key]]
    return others + sorted(f"{path_text(path)}, {form}, {how}" for path, form, how in wanted - met)


def by_bytes(names):
    return sorted(names, key=str.encode)


def settings_in(rows, value, path=()):
    """The values of a document that have a place, depth first: of each its path, its place and the value."""
    for key in rows:
        if key in value:
            yield from settings_at(rows[key], value[key], (*path, key))


def settings_at(place, value, path):
    yield path, place, value
    if place.rows and isinstance(value, dict):
        yield from settings_in(place.rows, value, path)
    if place.each and isinstance(value, (dict, list)):
        is_array = place.reader is rules.ARRAY
        if is_array == isinstance(value, list):
            for step in range(len(value)) if is_array else by_bytes(value):
                yield from settings_at(place.each, value[step], (*path, step))


def texts_in(root):
    """The texts of a document that have a syntax of their own, each with its kind and its node."""
    for path, _, value in settings_in(TOP, root.value):
        kind = texts.KINDS.get(general(path)[-1])
        if kind and isinstance(value, str):
            yield kind, value, root.at(path)


# What nextest may make of values.


def may_become(made, value):
    text = value if isinstance(value, str) else ""
    if made == "boolean":
        return type(value) is int or text.isascii() and text.lower() in ("true", "false", "yes", "no", "on", "off", "1", "0")
    return type(value) in (bool, float) or (type(value) is int if made == "text" else rules.is_integer(text))


def is_supplied(path, fault):
    """Whether a missing key is one that nextest's own default profile has, so that nothing is told of it."""
    timeouts = [("slow-timeout",), ("leak-timeout",), ("bench", "slow-timeout")]
    return fault.missing == "period" and fault.steps == () and path in [("profile", "default", *it) for it in timeouts]


# Findings.


# What names stand for: what one of them and several are called, the tables whose keys define them, and the codes of a
# name that is wrong and of one that nothing defines.
Named = collections.namedtuple("Named", "what several tables wrong undefined")
GROUP = Named("test group", "test groups", (("test-groups",),), "group-name", "undefined-group")
SETUP = Named("setup script", "scripts", (("scripts", "setup"), ("script",)), "script-name", "undefined-script")
WRAPPER = Named("wrapper script", "scripts", (("scripts", "wrapper"),), "script-name", "undefined-script")
# The scripts, with the feature that each needs, and of which other kind a name may be.
SCRIPTS = {SETUP: ("setup-scripts", WRAPPER), WRAPPER: ("wrapper-scripts", SETUP)}
# The kinds by the tables that define them.
NAMED = {table: named for named in (GROUP, SETUP, WRAPPER) for table in named.tables}


def defined_in(value, named):
    """The names that a document defines, by their kept texts."""
    for keys in named.tables if value is not None else ():
        table = value
        for key in keys:
            table = table.get(key) if isinstance(table, dict) else None
        names = table if isinstance(table, dict) else ()
        yield from (unicodedata.normalize("NFC", name) for name in names if not rules.name_fault(name))


class Listed:
    """The files of a list with their documents, and what they define together."""

    def __init__(self, files, tables_only=False):
        self.files = files
        self.tables_only = tables_only
        self.roots = [documents.read(file.contents) for file in files]
        self.values = [root and root.value for root in self.roots]
        self.all_read = None not in self.roots
        self.tools = {file.tool for file in files}
        self.defined = {it: by_bytes({name for one in self.values for name in defined_in(one, it)}) for it in NAMED.values()}
        # Of each profile the last file that says what it inherits from, and what.
        self.parents = {}
        self.profiles = {"default", "default-miri"}
        for position, value in enumerate(self.values):
            table = (value or {}).get("profile")
            self.add_profiles(position, table if isinstance(table, dict) else {})
        self.profiles = by_bytes(self.profiles)

    def add_profiles(self, position, table):
        self.profiles.update(table)
        for name, profile in table.items():
            if isinstance(profile, dict) and "inherits" in profile:
                self.parents[name] = position, profile["inherits"]

    def names(self):
        """The names of all profiles, nextest's own ones first."""
        return ["default", "default-miri", *(it for it in self.profiles if it not in ("default", "default-miri"))]

    def comes_back(self, name):
        """Whether a profile comes back to itself."""
        seen, at = set(), name
        while at != "default" and at in self.parents and at not in seen:
            seen.add(at)
            at = self.parents[at][1]
            if at == name or not isinstance(at, str):
                return at == name
        return False

    @functools.cached_property
    def features(self):
        """The features that the files of no tool have, None where that isn't known."""
        values = [value for value, file in zip(self.values, self.files) if file.tool is None]
        asked = [value["experimental"] for value in values if value and "experimental" in value]
        place = TOP["experimental"]
        if not self.all_read or any(faults_at(("experimental",), place, it, self.tables_only) for it in asked):
            return None
        return {word for it in asked for word in place.reader.means(it)[0]}

    def ask(self, position):
        """What a file asks, or a text that says why it is refused as a source."""
        value, file, asked = self.values[position], self.files[position], {}
        if value is None:
            return "not a TOML document"
        for key in [key for key in ("nextest-version", "experimental") if key in value]:
            faults = faults_at((key,), TOP[key], value[key], self.tables_only)
            if faults:
                return f"{path_text((key, *faults[0].steps))}: {faults[0].said((key,))}"
            asked[key] = TOP[key].reader.means(value[key])
        versions, names = asked.get("nextest-version", {}), sum(asked.get("experimental", []), [])
        if file.tool is not None and names:
            return tool_features(names)
        is_array = isinstance(value.get("experimental"), list)
        return Ask(file.source, versions.get("required"), versions.get("recommended"), set(names), is_array)

    @functools.cached_property
    def findings(self):
        """What is found in each file."""
        return [self.found_in(position) for position in range(len(self.files))]

    def found_in(self, position):
        """What is found in a file, in the order of places."""
        path, contents = self.files[position].path, self.files[position].contents
        if self.roots[position] is None:
            return [unread(path, contents)]
        judged = [one for kind in Judge(self, position).kinds() for one in kind]
        return sorted(judged, key=lambda it: (it.line, it.column))


def finding_at(path, span, *said):
    (line, column), end = span
    return Finding(path, line, column, *end, *said)


def unread(path, contents):
    """What is found of a file that is no document. What `toml` says of one, and where, isn't known."""
    try:
        contents.decode()
        return finding_at(path, ((None, None), (None, None)), "error", "not-toml", "", None)
    except UnicodeDecodeError as error:
        *before, last = contents[: error.start].decode().split("\n")
        place = len(before) + 1, len(last) + 1
        return finding_at(path, (place, place), "error", "not-utf8", "", "not UTF-8")


def mistake(contents, begin, end):
    """What is said behind the message of `toml`, which refuses a text from one place to another."""
    text = contents.decode()
    starts = documents.Lines(text).starts
    first, last = (starts[line - 1] + column - 1 for line, column in (begin, end))
    front, refused = text[:first], text[first:last]
    if re.match("[A-Za-z]", refused) and "=" not in refused:
        near = nearest(refused, ["false", "true"]) or SWAPPED.get(refused)
        return f", did you mean {near}" if near else ", quotes missing?"
    return repeated(front, refused)


def repeated(front, statement):
    """What is said of a statement whose key stands in the text before it."""
    names, part = documents.key_of(statement), front
    headers = [match.start() for match in re.finditer("^[ \t]*\\[", front, re.M)]
    if names and headers and not statement.startswith("["):
        part = front[headers[-1] :]
        header = part.lstrip(" \t")
        table = documents.key_of(header)
        names = table and [*table, *([0] if header.startswith("[[") else []), *names]
    root = names and documents.read(part.encode())
    node = root and root.at(names)
    if not node or not node.key():
        return ""
    (line, _), _ = node.key()
    line += front[: len(front) - len(part)].count("\n")
    return f", {printed(names[-1])} stands on line {line} already"


def faults_at(path, place, value, tables_only=False):
    """All that is wrong with a value, and what isn't judged in it."""
    if path == ("experimental",) and tables_only and isinstance(value, list):
        return [Fault("array-form", "the array form of `experimental` isn't supported, use a table")]
    return list(place.reader.faults(value))


def tool_features(names):
    return f"experimental features in a tool configuration: {', '.join(map(printed, by_bytes(names)))}"


class Judge:
    """Judges a file at a position of a list."""

    def __init__(self, listed, position):
        self.listed = listed
        self.position = position
        self.path, self.tool = listed.files[position][:2]
        self.root = listed.roots[position]
        self.settings = list(settings_in(TOP, listed.values[position]))
        self.features = None

    def found(self, steps, severity, code, message, of_key=False, key=None, part=None):
        """A finding at a path, or of what is there at a key of its table: where the value stands, or the key, or a part
        of its text."""
        node = self.root.at(steps if key is None else (*steps, key))
        span = (node.key() if of_key else None) or (node.part(*part) if part else node.place())
        return finding_at(self.path, span, severity, code, path_text(steps), message)

    def kinds(self):
        """The findings by their kinds, in the order in which those of one place are told."""
        faults, notes = [], []
        for path, place, value in self.settings:
            found = [it for it in faults_at(path, place, value, self.listed.tables_only) if not is_supplied(path, it)]
            for fault in found:
                (notes if fault.is_unjudged else faults).append(self.told(path, place, value, fault))
            if path == ("experimental",) and not found:
                self.features = place.reader.means(value)
        kinds = [self.of_features(), self.unknown_keys(), self.references()]
        return [faults, *map(list, kinds), notes + self.of_array()]

    def told(self, path, place, value, fault):
        steps = (*path, *fault.steps)
        if fault.is_unjudged:
            said = "not judged here: a duration other than whole numbers, each with a unit"
            return self.found(steps, "note", "unjudged-duration", said)
        reader, inner = place.reader, value
        for step in fault.steps:
            reader, inner = reader.fields.get(step, rules.UNREAD), inner[step]
        is_made = fault.code == "invalid-type" and reader.made and may_become(reader.made, inner)
        is_unknown = fault.code == "unknown-field"
        hint = fault.hint if is_unknown or fault.missing else reader.hint(inner, path)
        said = fault.said(path) + (hint or "")
        severity = "warning" if is_made else place.severity
        return self.found(steps, severity, fault.code, said, is_unknown, fault.key, fault.span)

    # Features.

    def of_features(self):
        known, unknown = self.features or ([], [])
        if self.tool is not None and known + unknown:
            yield self.found(("experimental",), "error", "tool-features", tool_features(known + unknown))
        for name in [] if self.tool is not None else by_bytes(unknown):
            value = self.listed.values[self.position]["experimental"]
            step = value.index(name) if isinstance(value, list) else name
            said = f"unknown feature {printed(name)}{meant(nearest(name, WORDS)) or ''}"
            yield self.found(("experimental", step), "warning", "unknown-feature", said, of_key=True)

    def of_array(self):
        is_array = isinstance(self.listed.values[self.position].get("experimental"), list)
        if self.tool is not None or not is_array or self.features is None:
            return []
        features = ", ".join(f"{word} = true" for word in self.features[0])
        said = f"the array form is deprecated, use a table: {f'{{ {features} }}' if features else '{ }'}"
        return [self.found(("experimental",), "note", "deprecated-array", said)]

    # Keys.

    def unknown_keys(self):
        tables = [((), TOP, self.listed.values[self.position])]
        tables += [(path, place.keys or place.rows, value) for path, place, value in self.settings]
        for path, words, value in tables:
            names = [name for name in value if name not in words] if words and isinstance(value, dict) else []
            for name in by_bytes(names):
                said = f"unknown key {printed(name)}{key_hint(name, words) or ''}"
                yield self.found(path, "warning", "unknown-key", said, of_key=True, key=name)

    # References.

    def references(self):
        for path, _, value in self.settings:
            match path:
                case ("profile", name) if name.startswith("default-") and name != "default-miri":
                    said = 'profile names that begin with "default-" are reserved'
                    yield self.found(path, "warning", "reserved-profile", said, of_key=True)
                case ("profile", name, "inherits") if isinstance(value, str):
                    yield from self.parent(path, name, value)
                case ("profile", _, "overrides", _) if isinstance(value, dict):
                    yield from self.conditions(path, set(value))
                case ("profile", _, "overrides", _, "test-group") if value != "@global":
                    yield from self.name_of(path, value, GROUP)
                case ("profile", _, "scripts", _) if isinstance(value, dict) and not {"filter", "platform"} & set(value):
                    yield self.found(path, "warning", "override-of-all", 'a script needs a "filter" or a "platform"')
                case ("profile", _, "scripts", _, "setup"):
                    texts = enumerate(value) if isinstance(value, list) else []
                    for steps, text in [(path, value), *(((*path, at), text) for at, text in texts)]:
                        yield from self.name_of(steps, text, SETUP)
                case ("profile", _, "scripts", _, "list-wrapper" | "run-wrapper"):
                    yield from self.name_of(path, value, WRAPPER)
                case _ if path in NAMED:
                    yield from self.feature(path, value, NAMED[path])
                case (*table, name) if tuple(table) in NAMED:
                    yield from self.name(path, name, NAMED[tuple(table)])

    def conditions(self, path, keys):
        """What says to which tests an override applies."""
        if "default-filter" in keys:
            said = 'an override has a "filter" or a "default-filter", and not both'
            said = said if "filter" in keys else 'a "default-filter" needs a "platform"'
            if keys & {"filter"} or not keys & {"platform"}:
                yield self.found((*path, "default-filter"), "warning", "override-default-filter", said)
        elif not keys & {"filter", "platform"}:
            yield self.found(path, "warning", "override-of-all", 'an override needs a "filter" or a "platform"')

    def parent(self, path, name, parent):
        if name == "default":
            yield self.found(path, "warning", "default-inherits", 'the profile "default" can\'t inherit')
        elif self.listed.comes_back(name) and self.listed.parents[name][0] == self.position:
            said = f"the profile {printed(name)} inherits from itself"
            yield self.found(path, "warning", "inherits-itself", said)
        elif self.listed.all_read and parent not in self.listed.profiles:
            others = [it for it in self.listed.profiles if it != name]
            said = f"no file defines the profile {printed(parent)}{name_hint(parent, others)}"
            yield self.found(path, "warning", "undefined-profile", said)

    def name_of(self, path, text, named):
        """What a text names, which some file has to define."""
        if not isinstance(text, str):
            return
        fault, defined = rules.name_fault(text), self.listed.defined
        name = unicodedata.normalize("NFC", text)
        tool = name.split(":")[1] if name.startswith("@tool:") and not fault else None
        if fault:
            yield self.found(path, "warning", named.wrong, fault)
        elif self.listed.all_read and name not in defined[named] and (tool is None or tool in self.listed.tools):
            other = SCRIPTS[named][1] if named in SCRIPTS else None
            said = f"no file defines the {named.what} {printed(name)}{name_hint(name, defined[named])}"
            said = f"{printed(name)} is a {other.what}" if other and name in defined[other] else said
            yield self.found(path, "warning", named.undefined, said)

    def name(self, path, text, named):
        """A name that a table defines."""
        fault = rules.name_fault(text)
        name = unicodedata.normalize("NFC", text)
        if self.tool is None and name.startswith("@"):
            fault = fault or f'only a tool\'s {named.several} begin with "@"'
        elif self.tool is not None and not name.startswith(f"@tool:{self.tool}:"):
            fault = fault or f"a tool's {named.several} begin with {printed(f'@tool:{self.tool}:')}"
        if not fault and named is WRAPPER and name in defined_in(self.listed.values[self.position], SETUP):
            fault = f"{printed(name)} is a setup script, too"
        if fault:
            yield self.found(path, "warning", named.wrong, fault, of_key=True)

    def feature(self, path, value, named):
        """A table of scripts, which need a feature."""
        word = SCRIPTS[named][0] if named in SCRIPTS else None
        features = self.listed.features if self.tool is None and isinstance(value, dict) and value else None
        if word and features is not None and word not in features:
            said = f"{named.what}s need the experimental feature {printed(word)}"
            yield self.found(path, "warning", "feature-not-enabled", said, of_key=True)


def name_hint(name, words):
    """What an undefined name may be meant for, where the words are few."""
    return meant(nearest(name, words)) or "" if len(words) <= MOST_NAMES else ""


def key_hint(name, words):
    """What a key may be meant for that a table doesn't know."""
    near = nearest(name, list(words))
    if near and (rules.plain(name) == rules.plain(near) or rules.distance(name, near) == 1):
        return meant(near)
    # The report of a script is called junit, too.
    others = {home: rows for home, rows in HOMES.items() if (words, rows) != (SCRIPT_JUNIT, OVERRIDE_JUNIT)}
    home = next((home for home, rows in others.items() if name in rows), None)
    part = next((word for word in words if name in word.split("-")), None)
    return f", which belongs {home}" if home else meant(near or part)
