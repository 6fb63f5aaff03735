"""Configuration files as users write them, right and wrong, for tests/random-files.

Each function takes the source of randomness.
"""

import collections
from random import Random

import documents
import places
import rules
import settings
import texts
from effective import key_text
from inputs import array, chance, some_features, some_value, some_version, some_versions, table

# How many tables with values of several keys are written at each place; and at one of the top, where a document has
# room for one alone.
SEVERAL, SEVERAL_AT_TOP = 40, 10
# How many documents hold the settings in turn, and how many of these those with a date: JSON has none, so that
# tests/random-schema passes over them.
DOCUMENTS, WITH_DATES = 80, 8
DATE = "1979-05-27"
# A value of each kind, which is written at each place and for each key of a table.
KINDS = ['"x"', "1", "true", "1.5", DATE, "[ ]", "{ }"]

# A list of files: those by their names, the tools as pairs of a name and a file, the repository's in turn, what
# standard input holds, the folder that the command runs in, and whether tables only are taken.
Case = collections.namedtuple("Case", "files tools repositories given folder flags")
# What the command line calls one of the repository's files, its printed path, what it holds, and whether it is
# explicit; it holds None where none is.
Repository = collections.namedtuple("Repository", "words path contents kind", defaults=["repository"])


def values_of(path, place):
    """What is written at a place: the values of its key, those made for its reader, and tables with each of both at one
    of their keys, and with values of several."""
    yield from [*settings.written_at(path), *made_for(place.reader)]
    fields = place.reader.fields
    for field, reader in fields.items():
        values = [*settings.VALUES[field], *made_for(reader)]
        yield from (table({**beside(path, field), field: value}.items()) for value in values)
    source = Random(str(path))
    count = SEVERAL if path[1:] else SEVERAL_AT_TOP
    yield from (table(several(source, fields)) for _ in range(count if fields else 0))


def made_for(reader):
    """A value of each kind, and the words that a reader takes with what comes near them."""
    words = [word for word in reader.takes if word not in [*rules.KINDS.values(), "any value"]]
    near = [text for word in words for text in (word, *near_to(word), f" {word}", f"{word} ")]
    return [*KINDS, *(f'"{text}"' for text in ["", *near] if words)]


def near_to(word):
    """What is like a word but for its end, letter case and dashes, a letter that is left out, two that change places,
    and as many others as may be, or one more."""
    far = len(word) // 3
    others = ("é" * count + word[count:] for count in (far, far + 1))
    slips = word[:2] + word[3:], word[:2] + word[2:4][::-1] + word[4:], *others
    return word[:-1], f"{word}s", word.upper(), word.capitalize(), word.replace("-", "_"), *slips


def beside(path, field=None):
    """What stands beside a key of the table at a path."""
    return {"count": "3"} if field == "backoff" else settings.BESIDE.get(path[-1], {})


# Tables of settings whose keys belong nowhere else, and keys of no table.
FIELDS = [settings.SLOW, settings.LEAK, settings.LIMIT, settings.VERSIONS, settings.POLICIES["exponential"].fields]
STRANGE = ["zone", "Zone", "é", "", "-", "_", "0", "a b", "FAIL.FAST", "extra-args", "Filter", "test_group", "time"]


def unknown_in(words):
    """Keys that a table with these doesn't know: near one of them, like one, a part of one, one of another table."""
    near = [name for word in words for name in (*near_to(word), *word.split("-"))]
    others = [key for table in [*settings.HOMES.values(), *FIELDS] for key in table]
    return [key_text(key) for key in dict.fromkeys([*near, *others, *STRANGE]) if key not in words]


def strangers():
    """Each table with all keys that it doesn't know."""
    yield from (((key,), "1") for key in unknown_in(settings.TOP))
    for path, place in places.places_in(settings.TOP):
        words = place.rows or place.reader.fields
        if words:
            yield path, table({**beside(path), **dict.fromkeys(unknown_in(words), "1")}.items())


def spread(turns, count):
    """So many lists of turns, of which each is in one. What has no name in its path has a table of the top alone."""
    lists = [[] for _ in range(count)]
    for number, (path, value) in enumerate(sorted(turns, key=lambda turn: "*" in turn[0])):
        rest = (lists[at % count] for at in range(number, number + count))
        it = next(it for it in rest if all(other[0] != path[0] or "*" in path and "*" in other for other, _ in it))
        it.append((path, value))
    return lists


def documents_of(turns):
    """Lists of turns, for a document each."""
    dates = [turn for turn in turns if DATE in turn[1]]
    others = [turn for turn in turns if DATE not in turn[1]]
    return spread(others, DOCUMENTS - WITH_DATES) + spread(dates, WITH_DATES)


def several(random, fields):
    """Keys of a table with their values, of which the first are mostly right; now and then one that isn't known."""
    for field in fields:
        values = settings.VALUES[field]
        if chance(random, 0.8):
            yield field, random.choice(values[: random.randint(1, len(values))])
    if chance(random, 0.3):
        yield "zone", "1"


def is_right(place, text):
    """Whether a value means something at a place, or may."""
    value = documents.read(f"x = {text}".encode()).value["x"]
    return all(fault.is_unjudged for fault in place.reader.faults(value))


def by_key(turns):
    """The values of the keys of each table, by its path."""
    tables = collections.defaultdict(lambda: collections.defaultdict(list))
    for path, value in turns:
        tables[path[:-1]][path[-1]].append(value)
    return tables


# Tables of names, beside which no others stand in a document that has such a table as a value.
WHOLE = {("profile",), ("scripts",), ("scripts", "setup"), ("scripts", "wrapper"), ("script",)}
SINGLE = [it for it in places.places_in(settings.TOP) if it[0] not in WHOLE]
ALL = [(*it, value) for it in SINGLE for value in dict.fromkeys(values_of(*it))]
# Each place with each value that is written there, and with each that means something there.
TURNS = [(path, value) for path, _, value in ALL]
RIGHT_TURNS = [(path, value) for path, place, value in ALL if is_right(place, value)]
KNOWN = [by_key(TURNS), by_key(RIGHT_TURNS)]
IN_TURN = documents_of([*TURNS, *strangers()])
# What scripts are written in place of their tables, in a file that has no others.
SCRIPTS = {key: settings.written_at((key,)) for key in ("scripts", "script")}
# Tables and arrays in each other's place, and others beside them.
SHAPES = [
    *["[profile.ci.overrides]\nfilter = 'a'\n", "[[profile.nightly]]\nretries = 1\n", "[[profile]]\n", "profile = 1\n"],
    *["[[test-groups.a]]\n", "[[test-groups]]\n", "[store]\ndir = 1\n", "[[store]]\n", "[[script]]\na = 1\n"],
    *["[profile.ci.slow-timeout]\nperiod = '5'\n", "[profile.ci.junit.path]\n", "[[profile.ci.retries]]\ncount = 1\n"],
    *["[profile.default.leak-timeout]\nresult = 'pass'\n", "[profile.default.slow-timeout]\nterminate-after = 2\n"],
    *["[profile.default.fail-fast]\nterminate = 'wait'\n", "[experimental]\nbenchmarks = 1\nx = true\n"],
    *["[[experimental]]\n", "[nextest-version]\nrequired = 'a'\n", "[scripts.x]\n", "[profil.ci]\n[profil.x]\n"],
    *["[[profile.ci.overrides.platform]]\nhost = 1\n", "[profile.ci.overrides.junit]\n", "[[profile.ci.overrides]]\n"],
    *["[profile.ci]\nfail-fast = True\n", "[store]\ndir = target\n", "[profile.x]\nretries = 1\nretries = 2\n"],
    *["[profile.ci.scripts]\nfilter = 'a'\n", "[profile.ci.archive.include]\n", "[[scripts.wrapper]]\n"],
    *["[script.a.junit]\npath = 1\nreport-names = 1\n", "[scripts.setup.a.command]\nenv.A = [ ]\nrelative = ''\n"],
]
UNKNOWN = [
    *["retry", "RETRIES", "max_threads", "timeout", "filters", "slow_timeout", "nextest-version", "priorty", "colour"],
    *['"x y"', "'日本 é'", '"tab\\t\\u0007"', "''", '"a.b"', "'tab\there'", '"e\u0301\u200d"', '"\\""', "1979-05-27"],
]
PROFILES = [
    *["default", "default", "ci", "ci", "nightly", "default-miri", "default-ci", '"x y"', "'é'", '"a.b"', '"日本"'],
    *["''", "'tab\there'", '"\\u001b"', "'\u202ea'", "10", '"😀\u0301"'],
]
DEFINED = ["serial", "db", '"1 a"', "'@tool:my-tool:g'", '"@tool:x"', "'é'", '"日本"', '"e\u0301"', "''"]
SCRIPT_NAMES = [
    *["db", "db", "wrap", "'wrap'", "'é'", '"e\u0301"', '"日本"', "'@tool:my-tool:s'", '"@tool:x:s"', "'a b'", "''"],
]
# Features that scripts need.
ENABLED = [
    *["experimental.setup-scripts = true\n", "experimental = { setup-scripts = true, wrapper-scripts = true }\n"],
    *['experimental = ["wrapper-scripts"]\n', 'experimental = ["setup-scripts", "wrapper-scripts"]\n'],
]
COMMENTS = [
    *["", " a comment", " wie früher", " 日本語 😀 e\u0301", "\t[a]", " = 1", " \x85", " \u2028", "#" * 210, " é" * 99],
]
BLANKS = [*[" "] * 16, "", "\t", "  ", " \t ", " " * 190, " " * 210]
# What a change puts into a file.
TOKENS = [
    *[b"\n", b"\r", b"\r\n", b"\t", b"\0", b"\x1b", b"\x7f", b"\xff", b"\xe9", b"\xc3", b"\xed\xa0\x80", b"\xc2\x85"],
    *[b"[", b"]]", b"{", b"}", b"=", b",", b'"', b"'''", b"#", b".", b"\\", b"1", b"true", b"\xef\xbb\xbf"],
]
FILES = [
    *["a.toml", "b.toml", "nextest.toml", "ci/a.toml", "a b.toml", "x,y.toml", "1:2.toml", "50%.toml", "%0A.toml"],
    *["日本.toml", "a\nb.toml", "a\rb.toml", "tab\t.toml", "e\u0301.toml", "=.toml", "\x1b[1m\u200b.toml"],
]
USUAL = ".config/nextest.toml"


# Settings, of which the values are those of TURNS, or of RIGHT_TURNS alone.


# Of two files they may be none together.
APART = ['{ backoff = "fixed", count = 1 }', '{ backoff = "exponential", count = 2, delay = "2s", max-delay = "5s" }']
PROFILE, OVERRIDE, GROUP = ("profile", "*"), ("profile", "*", "overrides", 0), ("test-groups", "*")
# Arrays of tables in a profile beside its overrides.
ARRAYS = {"scripts": (*PROFILE, "scripts", 0), "archive.include": (*PROFILE, "archive", "include", 0)}
# Keys of tables, with dots.
DOTTED = [f"{key}.{field}" for key, place in settings.PROFILE.items() for field in place.reader.fields]
DOTTED += ["bench.slow-timeout.period", "bench.slow-timeout.on-timeout", "bench.global-timeout", "bench.colour"]


def some_written(random, values):
    """A value for a key: one of those that are written for it, or any."""
    return random.choice(values) if chance(random, 0.98) else some_value(random)


def pair(random, key, value):
    """A key and its value on a line, with blanks and a comment as they come."""
    if chance(random, 0.05) and key.isascii() and not set(key) & set("'\"."):
        key = f'"{key}"'
    behind = f"{random.choice(BLANKS)}#{random.choice(COMMENTS)}" if chance(random, 0.1) else ""
    return f"{key}{random.choice(BLANKS)}={random.choice(BLANKS)}{value}{behind}\n"


def some_pairs(random, known, most):
    """Keys of those that are known, each once, and their values; now and then one that isn't known."""
    pairs = [(key, some_written(random, known[key])) for key in random.sample(sorted(known), random.randrange(most + 1))]
    if chance(random, 0.1) and "inherits" in known:
        key = random.choice(DOTTED)
        pairs.append((key, random.choice(settings.VALUES.get(key.split(".")[-1], ["1"]))))
    if chance(random, 0.2):
        pairs.append((random.choice(UNKNOWN), random.choice(["1", "{ a = 1 }", some_value(random)])))
    random.shuffle(pairs)
    return pairs


def lines_of_pairs(random, pairs):
    indent = random.choice(["", "", "", "  ", "\t"])
    return "".join(indent + pair(random, key, value) for key, value in pairs)


def inline(random, pairs):
    """A table with pairs; now and then on several lines."""
    if not pairs:
        return "{ }"
    return table(pairs).replace(", ", ",\n    ") if chance(random, 0.1) else table(pairs)


def some_overrides(random, values):
    """The overrides of a profile as an array, on one line or on several."""
    tables = [inline(random, some_pairs(random, values[OVERRIDE], 3)) for _ in range(random.randrange(4))]
    if chance(random, 0.5):
        return array(tables)
    return "[\n" + "".join(f"  {one},\n" for one in tables) + "]"


def some_profile(random, name, values):
    pairs = some_pairs(random, values[PROFILE], 5)
    is_inline = chance(random, 0.2)
    if is_inline:
        pairs = [pair for pair in pairs if pair[0] != "overrides"]
        pairs.append(("overrides", some_overrides(random, values)))
    if chance(random, 0.05):
        return pair(random, f"profile.{name}", inline(random, pairs))
    keys = {key for key, _ in pairs}
    text = f"[profile.{name}]\n" + lines_of_pairs(random, pairs)
    while chance(random, 0.4):
        word = "overrides" if not is_inline else random.choice(["override", "scripts", "overrides"])
        pairs = some_pairs(random, values[OVERRIDE], 4)
        text += f"\n[[profile.{name}.{word}]]\n" + lines_of_pairs(random, pairs)
    for word, path in ARRAYS.items():
        count = 0 if word.split(".")[0] in keys else random.choice([0, 0, 0, 1, 2])
        tables = [lines_of_pairs(random, some_pairs(random, values[path], 4)) for _ in range(count)]
        text += "".join(f"\n[[profile.{name}.{word}]]\n{lines}" for lines in tables)
    return text


def some_group(random, name, values):
    pairs = [("max-threads", some_written(random, values[GROUP]["max-threads"]))] if chance(random, 0.9) else []
    if chance(random, 0.2):
        pairs.append((random.choice(["max_threads", "threads", "'é'"]), "1"))
    if chance(random, 0.5):
        return f"[test-groups.{name}]\n{lines_of_pairs(random, pairs)}"
    return f"[test-groups]\n{pair(random, name, inline(random, pairs))}"


def some_scripts(random, values):
    """Scripts of each kind, which mostly have a command, and what names them."""
    names = ['"db"']
    for path in (("scripts", "setup"), ("scripts", "wrapper"), ("script",)):
        for name in dict.fromkeys(random.choice(SCRIPT_NAMES) for _ in range(random.choice([0, 1, 2]))):
            pairs = dict(some_pairs(random, values[(*path, "*")], 2))
            pairs |= {} if chance(random, 0.1) else {"command": some_written(random, values[(*path, "*")]["command"])}
            yield f"[{'.'.join(path)}.{name}]\n{lines_of_pairs(random, pairs.items())}"
            names.append(name if name[0] in "'\"" else f'"{name}"')
    for _ in range(random.choice([0, 1, 2])):
        used = [name[:-1] + random.choice(["", "", "s"]) + name[-1] for name in random.choices(names, k=3)]
        pairs = [("setup", random.choice([used[0], array(used)])), ("list-wrapper", used[1]), ("run-wrapper", used[2])]
        pairs = [*random.sample(pairs, random.randint(1, 3)), *random.choice([[], [("filter", "'all()'")]])]
        yield f"[[profile.scripted.scripts]]\n{lines_of_pairs(random, pairs)}"


def some_head(random, values):
    """What stands at the top of a file."""
    pairs = []
    if chance(random, 0.4):
        pairs.append(("nextest-version", some_versions(random)))
    elif chance(random, 0.1):
        pairs += [(f"nextest-version.{role}", some_version(random)) for role in ("required", "recommended")]
    if chance(random, 0.25):
        pairs.append(("experimental", some_features(random)))
    known = {**values[()], **SCRIPTS}
    for key in ("store", "test-groups", *SCRIPTS):
        if chance(random, 0.1):
            pairs.append((key, some_written(random, known[key])))
    if chance(random, 0.15):
        pairs.append((random.choice([*UNKNOWN, "profil", "test-group"]), some_value(random)))
    random.shuffle(pairs)
    return lines_of_pairs(random, pairs)


def some_document(random):
    """Mostly a document of TOML, whose settings may be wrong."""
    values = random.choice(KNOWN)
    if chance(random, 0.1):
        return some_head(random, values) + random.choice(SHAPES)
    names = dict.fromkeys(random.choice(PROFILES) for _ in range(random.randrange(4)))
    parts = [some_profile(random, name, values) for name in names]
    if chance(random, 0.3):
        parts.append(some_group(random, random.choice(DEFINED), values))
    if chance(random, 0.15):
        parts.append(random.choice(SHAPES))
    head = some_head(random, values)
    if "script" not in head and chance(random, 0.3):
        parts += some_scripts(random, values)
        head += random.choice(ENABLED) if "experimental" not in head and chance(random, 0.5) else ""
    random.shuffle(parts)
    comment = f"#{random.choice(COMMENTS)}\n" if chance(random, 0.3) else ""
    return comment + "\n".join([head, *parts])


def setting(random, path, value, least=2):
    """A setting at a path, with dotted keys, at least so many, and inline tables as they come."""
    while 0 in path or len(path) > least and chance(random, 0.5):
        *path, last = path
        value = f"[{value}]" if last == 0 else f"{{ {last} = {value} }}"
    return pair(random, ".".join(path), value)


def named(path, name):
    """A path with a name in the place of each, and how many steps lead through the first."""
    return [name if step == "*" else step for step in path], path.index("*") + 1 if "*" in path else 1


def statement(random, path, name, value):
    """The same, with the headers of the tables above it, or without."""
    path, front = named(path, name)
    at = random.choice([0, *(at for at in range(front, len(path)) if path[at] != 0)])
    headers = ""
    for end in range(1, at + 1):
        name = ".".join(step for step in path[:end] if step != 0)
        if path[end - 1] == 0:
            headers += f"[[{name}]]\n"
        elif end == at:
            headers += f"[{name}]\n"
    return headers + setting(random, path[at:], value, 2 if at else max(front, 2))


def document_in_turn(random, number):
    """A document of settings, and of keys that aren't known, in the turn of all that are written, each in a profile or
    a group of its own."""
    turns = IN_TURN[number % DOCUMENTS]
    names = random.sample(["default", *(f"t{at}" for at in range(len(turns)))], len(turns))
    texts = [statement(random, path, name, value) for name, (path, value) in zip(names, turns)]
    text = "\n".join(sorted(texts, key=lambda text: text.startswith("[")))
    if not documents.read(text.encode()):
        raise ValueError(f"settings in turn that are no document: {text}")
    return text


def right_document_in_turn(random, number, is_tools):
    """A document of right settings in the turn of all that are written, those of profiles in few; a tool's has no
    others."""
    heads, overrides = [], []
    sections = {"t": {}, "u": {}, "default": {}}
    for path, value in RIGHT_TURNS[number % 20 :: 20]:
        name = random.choice(["t", "t", "u", "default"])
        if path[:4] == OVERRIDE and path[4:]:
            overrides.append(f"[[profile.{name}.overrides]]\n" + setting(random, path[4:], value))
        elif path[:2] == PROFILE and path[2:] and path[2] not in ("overrides", "inherits"):
            line = setting(random, path[2:], value)
            sections[name][path[2]] = random.choice([line, sections[name].get(path[2], line)])
        elif path[0] != "profile" and not is_tools:
            path, front = named(path, f"t{len(heads)}")
            heads.append(setting(random, path, value, max(front, 2)))
    if chance(random, 0.5):
        sections["t"]["inherits"] = pair(random, "inherits", random.choice(['"u"', '"u"', '"default-miri"', '"x"', "1"]))
    for name, share in (("t", 0.3), ("u", 0.6)):
        if chance(random, share):
            sections[name]["retries"] = pair(random, "retries", random.choice(APART))
    if chance(random, 0.1):
        sections["u"]["inherits"] = 'inherits = "t"\n'
    lines = [line for name, pairs in sections.items() for line in [f"[profile.{name}]\n", *pairs.values()]]
    return "\n".join([*heads, *lines, *overrides])


# Files.


def with_other_ends(random, text):
    """The text with carriage returns at the ends of its lines, or of some."""
    part = random.choice([1, 1, 0.5])
    *lines, last = text.split("\n")
    return "".join(line + ("\r\n" if chance(random, part) else "\n") for line in lines) + last


def changed(random, contents):
    """The contents with a change: cut, a byte changed, something put in, or a part of them again."""
    first, last = sorted(random.randrange(len(contents) + 1) for _ in range(2))
    flipped = bytes([byte ^ 1 << random.randrange(8) for byte in contents[first : first + 1]])
    rests = [b"", flipped + contents[first + 1 :], random.choice(TOKENS) + contents[first:], contents[last:]]
    return contents[:first] + random.choice([*rests, contents[first:last] + contents[first:]])


def some_file(random):
    """A file. One with a filter or a platform that no row has, as a change may make it, is made again."""
    while True:
        contents = some_contents(random)
        root = documents.read(contents)
        if not root or all(text in texts.ALL[kind] for kind, text, _ in places.texts_in(root)):
            return contents


def some_contents(random):
    kind = random.random()
    if kind < 0.04:
        return random.choice([b"", b"\n", b"\r\n", b"\xef\xbb\xbf", b"# a comment", b"\xff\xfe[\0a\0]\0", b"\0" * 300])
    text = some_document(random)
    if chance(random, 0.25):
        text = with_other_ends(random, text)
    if chance(random, 0.1):
        text = "\ufeff" + text
    if chance(random, 0.1):
        text = text.rstrip("\r\n")
    contents = text.encode("latin-1", "replace") if kind < 0.08 else text.encode()
    while chance(random, 0.15):
        contents = changed(random, contents)
    return contents


# Lists.


def some_repository(random, files, names):
    """A file of the repository, by its own name or by that of its folder, which may have none."""
    contents = some_file(random)
    if chance(random, 0.8):
        name = next(names)
        files[name] = contents
        return Repository([name], name, contents)
    folder = f"{next(names)}.d"
    word = folder + random.choice(["", "/"])
    path = f"{folder}/{USUAL}"
    files[f"{folder}/file"] = b""
    if chance(random, 0.2):
        return Repository([word], path, None)
    files[path] = contents
    return Repository([word], path, contents)


def some_repositories(random, files, names):
    """The repository's files, each of which is judged with the same tools."""
    kind = random.randrange(20)
    if kind > 5:
        count = random.choice([1, 1, 1, 1, 2, 3])
        repositories = [some_repository(random, files, names) for _ in range(count)]
        return [*repositories, *repositories[:1]] if chance(random, 0.05) else repositories
    contents, name = some_file(random), next(names)
    if kind < 2:
        words = ["--stdin-path", name, "-"] if kind else ["-"]
        return [Repository(words, name if kind else "<stdin>", contents)]
    path = [name, f"{name}.d/{USUAL}", USUAL, USUAL][kind - 2]
    files[path] = contents
    if kind == 2:
        return [Repository(["--config-file", name], name, contents, "explicit")]
    words = ["--default-path", f"{name}.d"] if kind == 3 else []
    return [Repository(words, f"../{path}" if kind == 5 else path, contents)]


def some_case(random, number):
    """An input; every third one is a document of settings in turn."""
    files, tools = {}, []
    names = iter(random.sample(FILES, len(FILES)))
    is_right = number % 6 == 3
    while len(tools) < 4 and chance(random, 0.5 if is_right else 0.2):
        name = next(names)
        tools.append((random.choice(["my-tool", "x", "é"]), name))
        text = right_document_in_turn(random, random.randrange(20), True) if is_right else ""
        files[name] = text.encode() or some_file(random)
    if number % 3:
        repositories = some_repositories(random, files, names)
    else:
        name, turn = next(names), number // 6
        text = right_document_in_turn(random, turn, False) if is_right else document_in_turn(random, turn)
        files[name] = text.encode()
        repositories = [Repository([name], name, files[name])]
    given = next((it.contents for it in repositories if "-" in it.words), b"")
    is_below = any(it.path.startswith("../") for it in repositories)
    flags = ["--table-only"] if chance(random, 0.1) else []
    return Case(files, tools, repositories, given, "below" if is_below else ".", flags)
