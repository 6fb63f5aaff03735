"""What is put together at random, for tests/random. Each function takes the source of randomness."""

import unicodedata

from reports import FLAGS, GREATEST, WORDS, Current, dotted, word_of
from settings import PROFILE

CHARACTERS = "abxyz09.-+_ \"'\\\n\r\t\0\x01\x7f\x85éΔａ٣µ\u0301\u2003\ufeff\U0001f600"
TOKENS = [
    *[b"=== ", b"\n", b"\n", b"\r\n", b"\r", b"\xff", b"\xc3", b"\xef\xbb\xbf", b"\0", b"#", b" = ", b",", b"."],
    *[b'"', b'"""', b"'", b"[", b"]", b"{", b"}", b"true", b"-1", b"1.5", b"1979-05-27", b"x = 1\n", b"\\"],
    *[b"=== explicit a.toml\n", b"=== repository .config/nextest.toml\r\n", b"=== tool my-tool:/t.toml\n"],
    *[b"=== explicit ", b"=== tool e\xcc\x81:/t.toml\n", b"=== tool _a:/x\n", b"=== tool t:t\n", b"=== other\n"],
    *[b"nextest-version", b'nextest-version = "0.9.50"\n', b"{ required = ", b"recommended = ", b'"0.9.51"'],
    *[b"experimental", b'experimental = ["benchmarks", "x"]\n', b"setup-scripts = true", b"[profile.default]\n"],
    *[b"experimental = []\n", b"experimental = [1]\n"],
]
KEYS = ["a", "b", "x", "required", "recommended", "period", "count", "backoff", *WORDS, '"é\\u0085"', "''"]
VERSIONS = [
    *["1.0", "0.9", "1", "01.2", ".", "", "1.2.3.4", "0.9.50-rc.1", "0.9.50+b", " 0.9.50"],
    *[f"{GREATEST}.0", f"{GREATEST + 1}.0"],
]
PATHS = ["a.toml", ".config/nextest.toml", "a b/c:d", " ", "é\u0085", "=== explicit b", "x (y): not a TOML"]
TOOLS = ["my-tool", "t", "né", "e\u0301", "Δ9_"]
NUMBERS = ["0", "7", "-1", "+5", "101", "0xff", "1_000", "9223372036854775807", "-9223372036854775808"]
FLOATS = ["1.5", "-0.0", "6e10", "inf", "-nan"]
TIMES = ["1979-05-27", "07:32:00", "1979-05-27T07:32:00.5-07:00", "1979-05-27 07:32:00Z"]
TEXTS = ["'60s'", "''", "'all'", "'fail'", "'fixed'", "'exponential'"]


def chance(random, part):
    return random.random() < part


# Values of TOML.


def some_text(random):
    return "".join(random.choice(CHARACTERS) for _ in range(random.randrange(6)))


def quoted(text):
    """A text as TOML writes it."""
    escaped = (f"\\u{ord(c):04x}" if c in '"\\' or unicodedata.category(c) == "Cc" else c for c in text)
    return f'"{"".join(escaped)}"'


def array(values):
    return f"[{', '.join(values)}]"


def table(pairs):
    return f"{{ {', '.join(f'{key} = {value}' for key, value in pairs)} }}"


def some_value(random, depth=3):
    """Any value of TOML, with arrays and tables at most so deep."""
    kind = random.randrange(6) if depth else 5
    if kind > 1:
        texts = [*TEXTS, quoted(some_text(random))]
        return random.choice(random.choice([["true", "false"], NUMBERS, FLOATS, TIMES, texts]))
    values = [some_value(random, depth - 1) for _ in range(random.randrange(4))]
    return array(values) if kind else table(zip(random.sample(KEYS, len(values)), values))


def some_numbers(random):
    """The numbers of a version near those of others, or the greatest ones."""
    if chance(random, 0.05):
        return GREATEST, GREATEST, GREATEST
    return random.choice([0, 0, 0, 1]), random.choice([9, 9, 9, 10]), random.randrange(48, 53)


def some_version(random):
    if chance(random, 0.8):
        return quoted(dotted(some_numbers(random)))
    return quoted(random.choice([*VERSIONS, some_text(random)])) if chance(random, 0.8) else some_value(random)


def some_versions(random):
    """A value for the setting of versions."""
    if chance(random, 0.5):
        return some_version(random)
    keys = [key for key in ["required", "recommended", "x"] if chance(random, 0.6)]
    return table((key, some_version(random)) for key in keys)


def some_names(random):
    return [random.choice([*WORDS, "future", "x", some_text(random)]) for _ in range(random.randrange(4))]


def some_features(random):
    """A value for the setting of features."""
    names = some_names(random)
    if chance(random, 0.5):
        return array(quoted(name) if chance(random, 0.95) else some_value(random) for name in names)
    if chance(random, 0.2):
        return table((word, random.choice(["true", some_value(random)])) for word in WORDS)
    values = ["true", "false", "true", some_value(random)]
    return table((quoted(name), random.choice(values)) for name in dict.fromkeys(names))


def some_profile(random):
    """A profile, of whose settings the program wants to know nothing."""
    settings = random.sample(sorted(PROFILE), random.randrange(len(PROFILE)))
    return "[profile.default]\n" + "".join(f"{key} = {some_value(random)}\n" for key in settings)


def some_document(random):
    """A document by the rules of TOML, which may be refused for its values."""
    pairs = []
    if chance(random, 0.7):
        pairs.append(("nextest-version", random.choice([some_versions] * 9 + [some_value])(random)))
    if chance(random, 0.5):
        pairs.append(("experimental", random.choice([some_features] * 9 + [some_value])(random)))
    if chance(random, 0.3):
        pairs.append(("x", some_value(random)))
    random.shuffle(pairs)
    end = random.choice(["\n", "\n", "\n", "\r\n"])
    lines = "".join(f"{key} = {value}{end}" for key, value in pairs)
    return lines + some_profile(random) if chance(random, 0.3) else lines


# Sources.


def some_source_line(random):
    kind = random.choice(["explicit ", "repository ", f"tool {random.choice(TOOLS)}:/"])
    return f"=== {kind}{random.choice(PATHS)}\n"


def source_of_nothing(random):
    """A source that reads, and asks nothing."""
    asks = ["", "# nothing\n", "nextest-version = {}\n", "experimental = {}\n"]
    asks += ["experimental = { benchmarks = false }\n", f"x = {some_value(random)}\n", some_profile(random)]
    return (some_source_line(random) + random.choice(asks)).encode()


def source_that_reads(random):
    """A source that reads."""
    low, high = sorted([some_numbers(random), some_numbers(random)])
    both = [("required", quoted(dotted(low))), ("recommended", quoted(dotted(high)))]
    pairs = [("nextest-version", random.choice([quoted(dotted(low)), table(both[1:]), "{}", table(both)]))]
    line = some_source_line(random)
    names = [] if line.startswith("=== tool ") else some_names(random)
    if chance(random, 0.3):
        pairs.append(("experimental", array(map(quoted, names))))
    elif names:
        pairs.append(("experimental", table((quoted(name), "true") for name in dict.fromkeys(names))))
    random.shuffle(pairs)
    return (line + "".join(f"{key} = {value}\n" for key, value in pairs)).encode()


def source_of_array(random):
    """A source whose features stand in an array, which may be refused for its elements or as a tool's."""
    line = some_source_line(random)
    elements = [*map(quoted, some_names(random)), *(some_value(random) for _ in range(random.randrange(2)))]
    return f"{line}experimental = {array(elements)}\n".encode()


def some_source(random):
    if chance(random, 0.7):
        return source_that_reads(random)
    return (some_source_line(random) + some_document(random)).encode()


def some_sources(random):
    return b"".join(some_source(random) for _ in range(random.randrange(6)))


# Inputs and words.


def some_bytes(random):
    def piece():
        return bytes([random.randrange(256)]) if chance(random, 0.03) else random.choice(TOKENS)

    start = some_source_line(random).encode() if chance(random, 0.7) else b""
    return start + b"".join(piece() for _ in range(random.randrange(20)))


def mutated(random, examples):
    """An example with some mutations, or parts of two."""
    text = random.choice(examples)
    for _ in range(random.randrange(4)):
        first, last = sorted(random.randrange(len(text) + 1) for _ in range(2))
        near = first + random.randrange(4)
        other = random.choice(examples)
        token = random.choice(TOKENS)
        part = other[random.randrange(len(other) + 1) :]
        rests = [text[near:], text[last:], token + text[first:], token + text[near:], part]
        wholes = [text[:last], text[:last] + text[first:], text + other]
        text = random.choice([*wholes, *(text[:first] + rest for rest in rests)])
    return text


def some_input(random, examples):
    kind = random.randrange(4)
    if kind > 1:
        return some_sources(random)
    return mutated(random, examples) if kind else some_bytes(random)


def some_current(random):
    release = random.choice(["", "", "-rc.1", "-0"])
    return Current(some_numbers(random), release, random.choice(["", "", "+b.01"]))


def greater(random, current):
    """A current version that isn't below this one, by the rules of precedence."""
    build = random.choice(["", "+c"])
    place = random.randrange(4)
    if place == 3 or current.numbers[place] == GREATEST:
        return Current(current.numbers, random.choice(["", current.release]), build)
    behind = [random.randrange(100) for _ in current.numbers[place + 1 :]]
    numbers = (*current.numbers[:place], current.numbers[place] + 1, *behind)
    return Current(numbers, random.choice(["", "-0"]), build)


def some_word(random):
    pieces = ["1", "0", "0", ".", ".", "-", "+", "a", "01", "é", "\n", " ", str(GREATEST), str(GREATEST + 1)]
    word = "".join(random.choice(pieces) for _ in range(random.randrange(8)))
    return random.choice([word, f"0.9.50{word}", word_of(some_current(random)), *FLAGS])


def some_words(random):
    words = [some_word(random) for _ in range(random.choice([0, 1, 1, 1, 1, 2, 3]))]
    return words + [random.choice(FLAGS) for _ in range(random.choice([0, 1, 2, 2, 3]))]
