"""The settings, each once, for the random runs, by the definitions of crates/*/specs: what reads its values, where it
may stand, what a profile takes where it is absent, and what is written for it, right and wrong.

No answer of a program is used here.
"""

import collections
import re

import texts
from reports import GREATEST, NUMBER, WORDS, dotted, printed
from rules import (
    ARRAY, BOOLEAN, DURATION, MADE_BOOLEAN, MADE_TEXT, SHORT_DURATION, TABLE, TEXT, TEXTS, UNREAD, Fault, Reader,
    faults_of_elements, faults_of_keys, faults_of_texts, having, integer, integer_hint, is_integer, listed, meant,
    means_of_keys, nearest, of_kind, short_hint, table_of, timeout, truth_hint, words, wrong_type, wrong_value,
)

# What reads them.

U32 = integer(lambda it: 0 <= it < 1 << 32, "u32")
I8 = integer(lambda it: -128 <= it < 128, "i8")
COUNT = integer(lambda it: it > 0, "a nonzero usize", made="number")
FLAKY_RESULT = words("fail", "pass")
FLAKY_STATUS = words("failure", "success")
STATUS_LEVEL = words("none", "fail", "retry", "slow", "leak", "pass", "skip", "all")
FINAL_LEVEL = words("none", "fail", "flaky", "slow", "skip", "leak", "pass", "all", also=["retry"])
OUTPUT = words("immediate", "immediate-final", "final", "never")


def faults_of_priority(value):
    yield from I8.faults(value)
    if I8.reads(value) and not -100 <= value <= 100:
        yield Fault("priority", f"priority {value} must be between -100 and 100")


PRIORITY = Reader(faults_of_priority, ("number",), ("number",), integer_hint(lambda it: -100 <= it <= 100), made="number")
THREADS = integer(lambda it: it != 0, 'an integer other than 0 or the string "num-cpus"', "num-cpus")
ALL_THREADS = 'an integer, the string "num-cpus" or the string "num-test-threads"'
THREADS_REQUIRED = integer(lambda it: it > 0, ALL_THREADS, "num-cpus", "num-test-threads")
SLOW = {"period": DURATION, "terminate-after": COUNT, "grace-period": DURATION, "on-timeout": FLAKY_RESULT}
SLOW_TIMEOUT = timeout('a table ({ period = "60s", terminate-after = 2 }) or a string ("60s")', SLOW, True)
LEAK = {"period": SHORT_DURATION, "result": FLAKY_RESULT}
LEAK_TIMEOUT = timeout('a table ({ period = "500ms", result = "fail" }) or a string ("100ms")', LEAK, False, short_hint)

# A table of retries: its keys, those that are required, what absent ones mean, and its rules. A rule between keys has
# its code, what is said where it is broken, the keys that it asks, at the first of which it stands, and when what they
# mean breaks it.
Policy = collections.namedtuple("Policy", "fields required absent rules")
Rule = collections.namedtuple("Rule", "code said keys is_broken")

RETRIES_EXPECTED = 'a table ({ backoff = "fixed", count = 5 }) or a number (5)'
FIXED = {"backoff": words("fixed", "exponential"), "count": U32, "delay": DURATION, "jitter": BOOLEAN}
NO_DELAY = "`jitter` cannot be true if `delay` isn't specified or is zero"
BELOW = "`max-delay` cannot be less than delay with exponential backoff"
# By the backoff.
POLICIES = {
    "fixed": Policy(
        FIXED,
        ["backoff", "count"],
        {"jitter": False, "delay": 0},
        [Rule("jitter-without-delay", NO_DELAY, ("jitter", "delay"), lambda jitter, delay: jitter and delay == 0)],
    ),
    "exponential": Policy(
        {**FIXED, "max-delay": DURATION},
        ["backoff", "count", "delay"],
        {"max-delay": None},
        [
            *(
                Rule(f"{key}-zero", f"`{key}` cannot be zero with exponential backoff", (key,), lambda it: it == 0)
                for key in ("count", "delay", "max-delay")
            ),
            Rule("max-delay-below-delay", BELOW, ("max-delay", "delay"), lambda most, it: most is not None and most < it),
        ],
    ),
}
# Where the backoff doesn't read.
NO_POLICY = POLICIES["exponential"]._replace(required=["backoff", "count"], rules=[])


def first_broken(rules, means):
    """The first rule that is broken of those whose keys all read."""
    for rule in rules:
        if means.keys() >= set(rule.keys) and rule.is_broken(*(means[key] for key in rule.keys)):
            yield Fault(rule.code, rule.said, key=rule.keys[0])
            return


def faults_of_policy(value):
    backoff = means_of_keys(value, {"backoff": FIXED["backoff"]}).get("backoff")
    fields, required, absent, rules = POLICIES.get(backoff, NO_POLICY)
    yield from faults_of_keys(value, fields, required)
    for key in sorted((key for key in value if key not in fields), key=str.encode):
        said = f"unknown field `{key}`, expected {listed([*fields][1:])}"
        yield Fault("unknown-field", said, key=key, hint=meant(nearest(key, [*fields])))
    yield from first_broken(rules, means_of_keys(value, fields, absent))


def faults_of_retries(value):
    if isinstance(value, dict):
        yield from faults_of_policy(value)
    elif type(value) is not int:
        yield wrong_type(value, RETRIES_EXPECTED)
    elif not U32.reads(value):
        yield wrong_value(value, RETRIES_EXPECTED if value < 0 else "a u32")


BOTH = ("number", "table")
RETRIES = Reader(faults_of_retries, BOTH, BOTH, U32.hint, POLICIES["exponential"].fields)

LIMIT_EXPECTED = 'a positive integer or the string "all"'


def faults_of_limit(value):
    if type(value) not in (int, str):
        yield wrong_type(value, LIMIT_EXPECTED)
    if type(value) is int and value < 1:
        yield wrong_value(value, LIMIT_EXPECTED)
    if isinstance(value, str) and value != "all":
        how = "or a positive integer"
        if is_integer(value):
            how = f"(numbers must be {'specified without' if int(value) > 0 else 'positive and without'} quotes)"
        yield wrong_value(value, f'the string "all" {how}')


def limit_hint(value, path):
    if type(value) is int and value > 0:
        return f", did you mean {{ max-fail = {value} }}"
    return truth_hint(value, path)


LIMIT = {
    "max-fail": Reader(faults_of_limit, ("number", "all"), ("number", "text"), integer_hint(lambda it: it > 0)),
    "terminate": words("wait", "immediate"),
}


def faults_of_fail_fast(value):
    if not isinstance(value, bool):
        yield from of_kind(dict, "a boolean or { max-fail = ... }").faults(value)
    yield from faults_of_keys(value, LIMIT, ["max-fail"])


FAIL_FAST = Reader(faults_of_fail_fast, ("boolean", "table"), ("table",), limit_hint, LIMIT)

REPORT = {
    "path": MADE_TEXT,
    "report-name": MADE_TEXT,
    "store-success-output": MADE_BOOLEAN,
    "store-failure-output": MADE_BOOLEAN,
    "report-skipped": words("none", "ignored", "all"),
    "flaky-fail-status": FLAKY_STATUS,
}
JUNIT = table_of(REPORT)
GROUP = having("max-threads")


FILTER, DEFAULT_FILTER, PLATFORM_TEXT = map(texts.syntax, texts.ALL)


def faults_of_platform(value):
    if isinstance(value, str):
        yield from PLATFORM_TEXT.faults(value)
    elif not isinstance(value, dict):
        yield wrong_type(value, 'a string or a table ({ host = "..", target = ".." })')


PLATFORM = Reader(faults_of_platform, ("text", "table"), ("text",))


def faults_of_scalar(value):
    if type(value) not in (str, bool, int, float):
        yield wrong_type(value, "a string")


SCALAR = Reader(faults_of_scalar, ("text", "boolean", "number", "float"))
LINE_EXPECTED = "a string or an array of strings"
WRITTEN = ("text", "array")


def faults_of_line(value):
    if type(value) not in (str, list):
        yield wrong_type(value, LINE_EXPECTED)
    elif not value:
        yield wrong_value(value, "a command")
    yield from faults_of_elements(SCALAR, value)


LINE = Reader(faults_of_line, WRITTEN, WRITTEN)


def faults_of_command(value):
    if type(value) in (str, list):
        yield from LINE.faults(value)
    else:
        yield from of_kind(dict, 'a string, an array of strings or a table ({ command-line = ".." })').faults(value)
        yield from faults_of_keys(value, {"command-line": UNREAD}, ["command-line"])


COMMAND = Reader(faults_of_command, (*WRITTEN, "table"), (*WRITTEN, "table"))


def faults_of_names(value):
    if not isinstance(value, str):
        yield from faults_of_texts(value, LINE_EXPECTED)


NAMES = Reader(faults_of_names, WRITTEN, ("array",))
RUNNER = words("ignore", "overrides-wrapper", "within-wrapper", "around-wrapper")


def faults_of_path(value):
    yield from TEXT.faults(value)
    if isinstance(value, str) and (value.startswith("/") or ".." in value.split("/")):
        yield wrong_value(value, "a relative path with no parent components")


PATH = Reader(faults_of_path, ("text",), ("text",))
DEPTH = integer(lambda it: it >= 0, 'a non-negative integer or the string "infinite"', "infinite")


def faults_of_version(value):
    if not isinstance(value, str):
        yield wrong_type(value, "a string")
    elif mark := re.search("[-+]", value):
        code, what = {"-": ("pre-release", "pre-release identifiers are"), "+": ("build-metadata", "build metadata is")}[mark[0]]
        yield Fault(code, f"{what} not supported in nextest-version")
    elif not re.fullmatch(rf"{NUMBER}\.{NUMBER}(?:\.{NUMBER})?", value) or max(map(int, value.split("."))) > GREATEST:
        yield Fault("not-version", f"invalid version {printed(value)}")


def numbers_of(version):
    return (*map(int, version.split(".")), 0)[:3]


VERSION = Reader(faults_of_version, ("text",), ("text",), means=numbers_of)
VERSIONS = {"required": VERSION, "recommended": VERSION}


def asked_by(value):
    """The versions that are asked for, by their roles."""
    return means_of_keys({"required": value} if isinstance(value, str) else value, VERSIONS)


def faults_of_versions(value):
    if isinstance(value, str):
        yield from VERSION.faults(value)
    elif not isinstance(value, dict):
        yield wrong_type(value, 'a table ({ required = "0.9.20", recommended = "0.9.30" }) or a string ("0.9.50")')
    else:
        yield from faults_of_keys(value, VERSIONS)
        asked = asked_by(value)
        if len(asked) == 2 and asked["required"] > asked["recommended"]:
            required, recommended = map(dotted, asked.values())
            said = f"required version ({required}) must not be greater than recommended version ({recommended})"
            yield Fault("required-above-recommended", said, key="recommended")


SWITCHES = dict.fromkeys(WORDS, BOOLEAN)


def faults_of_features(value):
    if isinstance(value, list):
        yield from TEXTS.faults(value)
    else:
        example = 'a table ({ setup-scripts = true, benchmarks = true }) or an array (["setup-scripts", "benchmarks"])'
        yield from of_kind(dict, example).faults(value)
        yield from faults_of_keys(value, SWITCHES)


def named_by(value):
    """The names of the known features, and of the others, each in order."""
    known = [word for word in WORDS if (word in value if isinstance(value, list) else value.get(word))]
    return known, sorted(set(value) - set(WORDS))


VERSION_FORMS, FEATURE_FORMS = ("text", "table"), ("array", "table")
NEXTEST_VERSION = Reader(faults_of_versions, VERSION_FORMS, VERSION_FORMS, fields=VERSIONS, means=asked_by)
FEATURES = Reader(faults_of_features, FEATURE_FORMS, FEATURE_FORMS, fields=SWITCHES, means=named_by)


# Where they may stand.

# What has a place: its reader, how grave a fault is, and what is below it: the keys that a table knows, or the places
# of its keys; and what each name of a table, or each element of an array, has for a place.
Place = collections.namedtuple("Place", "reader severity keys rows each", defaults=[None, None, None])


def error(reader, **below):
    return Place(reader, "error", **below)


def warning(reader, **below):
    return Place(reader, "warning", **below)


def known(reader, severity="error"):
    """A value with keys that its own reader reads."""
    return Place(reader, severity, keys=list(reader.fields))


def each_of(place):
    """An array of what stands at a place."""
    return warning(ARRAY, each=place)


A_TEXT, A_SWITCH, NOT_READ = warning(TEXT), warning(BOOLEAN), warning(UNREAD)
SWITCH = error(MADE_BOOLEAN)
BENCH = {"slow-timeout": known(SLOW_TIMEOUT), "global-timeout": error(DURATION)}
OUTPUTS = {"success-output": warning(OUTPUT), "failure-output": warning(OUTPUT)}
A_FILTER, A_DEFAULT_FILTER = warning(FILTER), warning(DEFAULT_FILTER)
A_PLATFORM = warning(PLATFORM, rows=dict.fromkeys(("host", "target"), warning(PLATFORM_TEXT)))
COMMAND_TABLE = {"command-line": warning(LINE), "env": warning(TABLE, each=warning(SCALAR)), "relative-to": A_TEXT}
A_COMMAND = warning(COMMAND, rows=COMMAND_TABLE)
SCRIPT_JUNIT = {"store-success-output": A_SWITCH, "store-failure-output": A_SWITCH}
SETUP_SCRIPT = {
    "command": A_COMMAND,
    "slow-timeout": known(SLOW_TIMEOUT, "warning"),
    "leak-timeout": known(LEAK_TIMEOUT, "warning"),
    "capture-stdout": A_SWITCH,
    "capture-stderr": A_SWITCH,
    "junit": warning(TABLE, rows=SCRIPT_JUNIT),
}
WRAPPER_SCRIPT = {"command": A_COMMAND, "target-runner": warning(RUNNER)}
SETUP_SCRIPTS = warning(TABLE, each=warning(having("command"), rows=SETUP_SCRIPT))
WRAPPER_SCRIPTS = warning(TABLE, each=warning(having("command"), rows=WRAPPER_SCRIPT))
# Which scripts are for which tests.
SCRIPTS = {
    "filter": A_FILTER,
    "platform": A_PLATFORM,
    "setup": warning(NAMES),
    "list-wrapper": A_TEXT,
    "run-wrapper": A_TEXT,
}
INCLUDED = {
    "path": warning(PATH),
    "relative-to": warning(words("target")),
    "depth": warning(DEPTH),
    "on-missing": warning(words("ignore", "warn", "error")),
}
ARCHIVE = {"include": each_of(warning(having("path", "relative-to"), rows=INCLUDED))}
OVERRIDE_JUNIT = {
    **{"store-success-output": SWITCH, "store-failure-output": SWITCH, "flaky-fail-status": error(FLAKY_STATUS)},
    **dict.fromkeys(["path", "report-name", "report-skipped"], NOT_READ),
}
OVERRIDE = {
    "priority": error(PRIORITY),
    "threads-required": error(THREADS_REQUIRED),
    "retries": error(RETRIES),
    "flaky-result": error(FLAKY_RESULT),
    "slow-timeout": known(SLOW_TIMEOUT),
    "leak-timeout": known(LEAK_TIMEOUT),
    "junit": error(TABLE, rows=OVERRIDE_JUNIT),
    "filter": A_FILTER,
    "platform": A_PLATFORM,
    "default-filter": A_DEFAULT_FILTER,
    "test-group": A_TEXT,
    "run-extra-args": warning(TEXTS),
    **OUTPUTS,
    "bench": NOT_READ,
}
PROFILE = {
    "retries": error(RETRIES),
    "flaky-result": error(FLAKY_RESULT),
    "threads-required": error(THREADS_REQUIRED),
    "fail-fast": known(FAIL_FAST),
    "slow-timeout": known(SLOW_TIMEOUT),
    "leak-timeout": known(LEAK_TIMEOUT),
    "global-timeout": error(DURATION),
    "junit": known(JUNIT),
    "bench": error(TABLE, rows=BENCH),
    "overrides": error(ARRAY, each=error(TABLE, rows=OVERRIDE)),
    "inherits": A_TEXT,
    "default-filter": A_DEFAULT_FILTER,
    "test-threads": warning(THREADS),
    "run-extra-args": warning(TEXTS),
    "status-level": warning(STATUS_LEVEL),
    "final-status-level": warning(FINAL_LEVEL),
    **OUTPUTS,
    "scripts": each_of(warning(TABLE, rows=SCRIPTS)),
    "archive": warning(TABLE, rows=ARCHIVE),
}
TOP = {
    "nextest-version": known(NEXTEST_VERSION),
    "experimental": error(FEATURES),
    "profile": error(TABLE, each=error(TABLE, rows=PROFILE)),
    "store": warning(TABLE, rows={"dir": A_TEXT}),
    "test-groups": warning(TABLE, each=warning(GROUP, rows={"max-threads": warning(THREADS)})),
    "scripts": warning(TABLE, rows={"setup": SETUP_SCRIPTS, "wrapper": WRAPPER_SCRIPTS}),
    "script": SETUP_SCRIPTS,
}
HOMES = {
    "at the top of the file": TOP,
    "in a profile": PROFILE,
    "in an override": OVERRIDE,
    "in junit": OVERRIDE_JUNIT,
}


# What a profile takes.

REQUIRED, UNSET = object(), object()
# Those that are known from nextest's documentation alone: a value with a fault isn't judged.
KNOWN = ["default-filter", "test-threads", "run-extra-args", "status-level", "final-status-level", *OUTPUTS]
# What a filter says isn't asked here.
DOCUMENTED = {**{key: PROFILE[key].reader for key in KNOWN}, "default-filter": TEXT}


def unjudged(reader):
    def faults(value):
        for fault in reader.faults(value):
            fault.is_unjudged = True
            yield fault

    return reader._replace(faults=faults)


SLOW_ABSENT = {"period": REQUIRED, "terminate-after": UNSET, "grace-period": "10s", "on-timeout": "fail"}
# Those that a profile gets: what reads them, and what that takes where a key of their table is absent.
SETTINGS = {
    ("retries",): (
        RETRIES,
        {"backoff": "fixed", "count": REQUIRED, "delay": "0s", "jitter": False, "max-delay": UNSET},
    ),
    ("flaky-result",): (FLAKY_RESULT, {}),
    ("threads-required",): (THREADS_REQUIRED, {}),
    ("fail-fast",): (FAIL_FAST, {"max-fail": REQUIRED, "terminate": "wait"}),
    ("slow-timeout",): (SLOW_TIMEOUT, SLOW_ABSENT),
    ("leak-timeout",): (LEAK_TIMEOUT, {"period": REQUIRED, "result": "pass"}),
    ("global-timeout",): (DURATION, {}),
    **{(key,): (unjudged(reader), {}) for key, reader in DOCUMENTED.items()},
    **{("junit", key): (reader, {}) for key, reader in REPORT.items()},
    ("bench", "slow-timeout"): (SLOW_TIMEOUT, SLOW_ABSENT),
    ("bench", "global-timeout"): (DURATION, {}),
}
TIMES = [SLOW_TIMEOUT, LEAK_TIMEOUT, DURATION]


# What is written for a key, right and wrong.

# Texts of integers, of which nextest may make ones or not.
SOME_WRITTEN = [
    *[f'"{text}"' for text in ["10", "0", "-1", "-0", "+5", "007", "-100", "101", "4294967295", "4294967296", "", "two"]],
    *[f'"{text}"' for text in ["1.5", " 1", "1_0", "+", "+-1", "0x1", "٣"]],
    *[f'"{number}"' for number in [(1 << 63) - 1, 1 << 63, -1 << 63, (-1 << 63) - 1]],
]
SOME_COUNTS = ["2", "1", "0", "-1", *SOME_WRITTEN, "4294967295", "4294967296", "true", "false", "[ ]"]
SOME_TIMEOUTS = [
    *['"60s"', '"2m 30s"', '"5µs"', '"1day"', '"40y"', '"0s"', '"0"', '"1.5h"', '"1 000s"', '"5"', "60", "500", '"100"'],
    *['"60 sec."', '""', "true", '["1s"]', '"99999999999999999999s"', "-1", "0", "99"],
    *['"099"', '"18446744073709551615"', '"18446744073709551616"'],
]
# Texts near durations: those that nextest may take, and those that are none.
SOME_DURATIONS = [
    *(f'"{text}"' for text in ["1.5.2s", "1 0 0s", "1.5 h", " 1 5s ", "00", " 0", "0 ", "0.0", "0 0", "-0", "+0", " ", "1."]),
    *(f'"{text}"' for text in ["1.s", ".5s", "1.5", "1.5.h", "1.5x", "1 5", "1. 5s", "1 .5s", "1,5s", "1.5h 30"]),
    *(f'"{text}"' for text in ["-1.5s", "1.xs", "1..5s", "1_000s", "1.5 S", "1.5s.", "٣.٥s", "1 m s", "1h .5s", "1\u20035s"]),
    *(f'"{number}{rest}"' for number in ((1 << 64) - 1, 1 << 64) for rest in ("s", ".5s", "s 1.5s")),
    *['"18446744073709551615s 999999999ns"', '"18446744073709551615s 1000000000ns"', '"18446744073709551615.1 5s"'],
    *['"1 8446744073709551615s"', '"1 8446744073709551616s"', '"18446744073709551616"'],
    *['"+1"', '"-1"', '"5 "', '"٥"', '"5x"'],
]
SOME_SWITCHES = [
    *["true", "false", "1", "0", "-5", "1.5", "[ ]", *(f'"{text}"' for text in ["true", "false", "Yes", "no", "oN", "OFF"])],
    *(f'"{text}"' for text in ["1", "0", "TRUE", "x", "", "y", "f", "2", "01", "true ", " true", "enabled", "ſ"]),
]
SOME_RESULTS = ['"fail"', '"pass"', '"flaky"', '"Pass"', "true", '"f\\u001b[1m\\nl"', "'a\"b\\c'", '"immediate"']
SOME_THREADS = ["4", "-2", '"num-cpus"', '"num-test-threads"', '"num-test-treads"', '"all"', "1.0", *SOME_COUNTS]
SOME_OUTPUTS = ['"immediate"', '"final"', '"immediate-final"', '"never"', '"Final"', '"allways"', "true", "1"]
SOME_LEVELS = [
    *(f'"{word}"' for word in ["none", "fail", "retry", "flaky", "slow", "leak", "pass", "skip", "all"]),
    *['"skips"', '"Skip"', '"flakey"', '["all"]', "1"],
]
SOME_TEXTS = [
    *["'test(a)'", '"all()"', "'日本語'", "'''\ntest(a)\n  | test(b)'''", '"""\nnot \\\n  test(b)"""', "1", "['a']", "true"],
]
SOME_NAMES = [
    *['"db"', '"wrap"', "'e\u0301'", '"日本"', '"dbb"', '"DB"', '"@tool:my-tool:s"', '"@tool:x:s"', '"a b"', '"@global"'],
    *['""', '"@tool:gone:s"', '"wrapp"', "['db', 'wrap', 'dbb']", "1", "['db', 1, [ ]]", "true", "{ }"],
]
SOME_LINES = [
    *['"cargo run"', "['a', 'b']", "['a', 1, true, 1.5]", '""', "[ ]", "['a', [ ]]", "[{ }, 'a', 1979-05-27]"],
    *["1", "true", "1.5", "07:32:00"],
]
SOME_SCALARS = ['"x"', '""', "true", "1", "-1.5", "[ ]", "{ }", "1979-05-27"]
SOME_VERSIONS = ['"0.9.50"', '"0.9"', '"0.9.50-rc.1"', '"0.9.50+b"', '"0.9.5O"', "1", "[ ]"]
SAME = {
    "delay max-delay period grace-period": SOME_TIMEOUTS,
    "global-timeout": SOME_TIMEOUTS + SOME_DURATIONS,
    "count terminate-after": [*SOME_COUNTS, "1.0"],
    "jitter store-success-output store-failure-output capture-stdout capture-stderr": SOME_SWITCHES,
    "setup-scripts wrapper-scripts benchmarks": SOME_SWITCHES[:10],
    "flaky-result on-timeout result": SOME_RESULTS,
    "threads-required test-threads max-threads": SOME_THREADS,
    "status-level final-status-level": SOME_LEVELS,
    "success-output failure-output": SOME_OUTPUTS,
    "path report-name dir": SOME_TEXTS,
    "setup list-wrapper run-wrapper": SOME_NAMES,
    "required recommended": SOME_VERSIONS,
}
VALUES = {
    **{key: values for keys, values in SAME.items() for key in keys.split()},
    "retries": [
        *[*SOME_COUNTS, "1_0", '"--1"', "[1]"],
        *['{ backoff = "fixed", count = 1, colour = 2 }', '{ backoff = "fixed", count = 2, delay = "1s", jitter = true }'],
        *['{ backoff = "fixed", count = 3, jitter = true }', '{ backoff = "fixed", count = 1, max_delay = "1s" }'],
        *['{ backoff = "exponential", count = 3, delay = "2s", max-delay = "1s" }', '{ backoff = "fixed" }'],
        *['{ backof = "fixed", count = 0, jitter = true }', '{ backoff = "fixed", count = "1", jitter = true, x = 1 }'],
        *['{ backoff = "fixed", count = 1, jitter = true, max-delay = 1 }', '{ backoff = "exponential", jitter = true }'],
        *['{ backoff = "exponential", count = 0, delay = "0", jiter = 1 }', '{ backoff = "exponential", "é" = 1, Count = 0 }'],
        *['{ backoff = "exponential", delay = "0s", max-delay = "1.5s" }', '{ backoff = "fixd", count = -1, max-delay = 1 }'],
        *['{ backoff = "exponential", count = 2, delay = "x", max-delay = "0s" }'],
        *['{ backoff = "exponential", delay = "2s", max-delay = "1s", jitter = 1 }'],
        # Two broken rules, a rule beside unknown keys and beside faults of keys that it asks or doesn't.
        *(
            f'{{ backoff = "exponential", count = 1, delay = "{delay}", max-delay = "0s", zone = 1 }}'
            for delay in ("0s", "1s", "0")
        ),
        *['{ backoff = "exponential", count = 0, delay = "0s", zone = 1 }', '{ backoff = ["fixed"], count = 1 }'],
        *['{ backoff = "exponential", count = 1, delay = "2s", max-delay = "1s", "" = 1, "a b" = 1, Zone = 1 }'],
        *['{ backoff = "exponential", count = 0, delay = "1", jitter = "yes", max-delay = 1 }', "{ count = 0, delay = '0s' }"],
        *['{ backoff = "fixed", count = 1, delay = 0, jitter = true }', "{ backoff = 1, count = 1, jitter = true }"],
        *['{ backoff = "fixed", count = 0, delay = "0s", jitter = true }'],
        *['{ backoff = "exponential", count = 1, delay = 5, max-delay = "1s" }', "{ backoff = 'fixed', count = 1, 'x\"y' = 1 }"],
        *['{ backoff = "exponential", count = 1, max-delay = "1s" }'],
        *['{ backoff = "fixd", count = 0, delay = "0s", max-delay = "0s" }'],
    ],
    "slow-timeout": [*SOME_TIMEOUTS, "{ terminate-after = 2 }", '{ period = "60s", terminate-afer = 2 }'],
    "leak-timeout": [*SOME_TIMEOUTS, '{ result = "pass" }', '{ period = "1s", colour = 1 }'],
    "backoff": ['"fixed"', '"exponential"', '"fixd"', '"fix"', '"linear"', "1"],
    "fail-fast": [*SOME_COUNTS, "9223372036854775807", '{ terminate = "wait" }', '"true"', '"false"', '"True"', '"flase"'],
    "max-fail": ["1", '"all"', *SOME_COUNTS],
    "terminate": ['"wait"', '"immediate"', '"now"', "1"],
    "junit": ['{ path = "a.xml", report-name = "n" }', '"a.xml"', '{ path = "a", "report name" = 1 }', "1"],
    "report-skipped": ['"none"', '"ignored"', '"all"', '"some"', "true"],
    "flaky-fail-status": ['"failure"', '"success"', '"sucess"', "1"],
    "bench": ['{ slow-timeout = "5m" }', '{ global-timeout = "1h", colour = 1 }', '{ slow-timeout = "5" }', "1"],
    "overrides": ["[ ]", "{ filter = 'all()' }", "1", "[1]"],
    "inherits": [
        *['"ci"', '"default"', '"nightly"', '"cii"', '"default-miri"', '"x y"', '"é"', '"e\u0301"', "''", "1", "['ci']"],
    ],
    "run-extra-args": ["['a', 'b']", "[\n  'a', # one\n  'b',\n]", '["a", 1]', '"a"', "[[ ]]", "[ ]", "{ }", "[1, 'a', true]"],
    "priority": [*map(str, [100, -100, 0, 101, -101, 127, 128, -128, -129, 0x65]), '"true"', *SOME_COUNTS],
    "filter": [*texts.written("filter", 0), "1", "['all()']", "true"],
    "default-filter": [*texts.written("default-filter", 1), "1", "['all()']", "true"],
    "platform": [*texts.written("platform", 2), "{ host = 'cfg(unix)', target = 1 }", "{ host = 'windows', hots = '' }", "1"],
    "host": [*texts.written("platform", 3), "1", "[ ]", "true"],
    "target": [*texts.written("platform", 4), "1", "[ ]", "true"],
    "test-group": [
        *['"serial"', '"db"', '"@global"', '"@tool:my-tool:g"', '"serail"', '"@tool:x"', '"1 a"', '"日本"'],
        *["'e\u0301'", "2", '"@tool:gone:g"', '"@tool::g"', '"@tool:x:#"', '""', "true"],
    ],
    "store": ["{ dir = 'target/nextest' }", "{ dirs = 1 }", "{ dir = 1 }", "'a'"],
    "test-groups": ["{ serial = { max-threads = 1 } }", "{ db = 2 }", "[ ]", "{ }"],
    "nextest-version": [*SOME_VERSIONS, '{ required = "0.9.60", recommended = "0.9.50" }', "{ }"],
    "experimental": [
        *["[ ]", '["benchmarks", "x"]', '["setup-scripts", 1]', "{ }", "{ benchmark = true }", "1", '[1, "x", true]'],
    ],
    "archive": ["{ include = [ ] }", "{ includes = [ ] }", "{ }", "1", "[ ]"],
    "include": ["[ ]", "{ path = 'a' }", "[1]", "'a'"],
    "relative-to": ['"target"', '"traget"', '"none"', "1"],
    "depth": ["4", '"infinite"', '"Infinite"', '"all"', str(-1 << 63), *SOME_COUNTS],
    "on-missing": ['"ignore"', '"warn"', '"error"', '"skip"', '"Warn"', "1"],
    "script": ["{ }", "{ db = { command = 'x' } }", "[ ]", "{ wrap = 1 }"],
    "command": [*SOME_LINES, "{ command-line = 'x' }", "{ command-lines = 'x' }", "{ relative = 1 }"],
    "command-line": SOME_LINES,
    "env": ["{ A = 'x', B = 1 }", "{ }", '["A=x"]', "1"],
    "target-runner": [
        *['"ignore"', '"overrides-wrapper"', '"within-wrapper"', '"around-wrapper"', '"within"', '"Ignore"', "1"],
    ],
    # A name of a profile, of a test group or of a script, and an element of an array.
    "*": ["{ max-threads = 2 }", "{ retries = 2 }", "{ command = 'x' }", "1", "[ ]"],
    0: [
        *["{ filter = 'all()', retries = 2 }", "{ filter = 'all()', default-filter = '!all()' }"],
        "{ filter = 'all()', setup = 'db' }",
        *["{ path = 'a', relative-to = 'target' }", "1", "'a'"],
    ],
    # Where a key has other values than elsewhere.
    ("*", "scripts"): ["[ ]", "{ filter = 'all()' }", '[{ filter = "all()", setup = "db" }]', "[{ setup = 'db' }]", "1"],
    ("scripts",): [
        *["{ setup = { db = { command = 'x' } }, wrapper = { db = { command = 'y' } } }", "{ setup = 1, wrapper = [ ] }"],
        *["{ wrapper = { wrap = { command = 'x' } } }", "{ }", "{ setup = { }, wrapper = { }, wraper = { } }", "1", "[ ]"],
    ],
    (0, "path"): [
        *(f"'{text}'" for text in ["fixtures", "a/../b", "/a", "", "..a", "..", "../a", "a/..", "/", ".", "a..", "..\\a"]),
        "1",
    ],
    ("command", "relative-to"): SOME_TEXTS,
    ("env", "*"): SOME_SCALARS,
}


def written_at(path):
    """What is written for the key at the end of a path."""
    return VALUES.get(path[-2:], VALUES.get(path[-1]))


# What a key's table needs beside it.
BESIDE = {
    "retries": {"backoff": '"exponential"', "count": "3", "delay": '"1s"'},
    "slow-timeout": {"period": '"60s"'},
    "leak-timeout": {"period": '"60s"'},
    "fail-fast": {"max-fail": "1"},
}
