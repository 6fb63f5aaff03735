"""Rounds of wrong bodies: many edits of a crate in one check, and what that says of each."""

import collections
import itertools
import os
import pathlib
import queue
import re
import subprocess
import tempfile
import threading
import traceback

from wrong_edits import Failed
from wrong_machine import linked

# The most edits of a round.
AT_MOST = 40

# What a check says.
TOLD = re.compile(r"^fn (\S+): (.*)$", re.MULTILINE)
COMPILE_ERROR = re.compile(r"^(?:\./)?(src/\S+\.rt):(\d+):\d+: error", re.MULTILINE)
PROOF_ERROR = re.compile(r"^(?:\./)?proofs/(\S+)/\w+\.antt:\d+:\d+: error: (.*)$", re.MULTILINE)
NAMES = re.compile(r"has no field|is not in scope|has no `|was not admitted|(record|module) `[^`]*`( \(nearest|$)")
# A goal of the function's own that was searched for, and not found.
GOAL = re.compile(r"did not prove|gave up")
# What is said of a function that is proved, or that has no hole left; of what it lends to another function, too.
PROVED = ("proved", "proved where its callers give what it asks", "no holes")

# The folder of the toolchain.
TOOLCHAIN = pathlib.Path(subprocess.run(["rt", "doc"], capture_output=True, text=True, check=True).stdout.strip()).parent


class Report:
    """What a check said of each function."""

    def __init__(self, text):
        self.told, self.errors = dict(TOLD.findall(text)), collections.defaultdict(list)
        for folder, error in PROOF_ERROR.findall(text):
            self.errors[folder].append(error)

    def judge(self, edit):
        """How an edit came out, and why: it is `unspoken`, `survives`, is `refused` by a goal of its own, or by the `names` in its proof files, or neither is told: `unclear`."""
        told = {symbol: said for symbol, said in self.told.items() if re.sub(r"::fn::([^:]+).*", r"::\1", symbol) == edit.symbol}
        unproved = {symbol: said for symbol, said in told.items() if said not in PROVED}
        if not told:
            return "unspoken", "the check doesn't speak of its function"
        if not unproved:
            return "survives", "NOT REFUSED: its function is proved"
        before, _, name = edit.symbol.rpartition("::")
        folders = {path.partition("::")[2].replace("::", "/") for path in (*unproved, edit.unit, f"{before}::+{name}")}
        errors = [error for folder in sorted(folders) for error in self.errors[folder]]
        reasons = [reason for said in unproved.values() for reason in said.split("; ")]
        goals = [it for it in reasons if GOAL.search(it)] + [it for it in errors if not NAMES.search(it)]
        if goals:
            return "refused", goals[0]
        return ("names", errors[0]) if errors else ("unclear", f"no goal of its own refuses it: {min(unproved.values())}")


class Rounds:
    """The edits of a crate that are tried, over the libraries that stand proved in folders."""

    def __init__(self, crate, edits, built, machine, kept, given):
        self.crate, self.edits, self.built, self.machine, self.kept, self.given = crate, edits, built, machine, kept, given
        self.refused, self.failed, self.failure = [], [], None
        self.count, self.seconds, self.peak = 0, 0, 0
        # The proofs that each check begins with, and how many processes may share the first one.
        self.proofs, self.jobs = None, 1

    def begin(self, lanes):
        """Proves what is edited as it stands, and hands out the rounds."""
        try:
            tried = []
            for edit in self.edits:
                why = edit.look_up(self.crate)
                self.fail(edit, why) if why else tried.append(edit)
            self.keep(self.failed)
            self.prove({edit.symbol for edit in tried if edit.place})
            for chosen in put_together(tried):
                lanes.add(len(self.edits), lambda chosen=chosen: self.round(chosen, lanes))
        except Failed as failure:
            self.failure = failure

    def keep(self, edits):
        if self.given.keep:
            self.kept.take(edits)

    def fail(self, edit, why):
        self.failed.append(edit)
        print(f"{edit.label}.edit: {why}", flush=True)

    def prove(self, wanted):
        """Gets proofs of these functions, as they stand, and of what they call: those of `rt check`, or where `rt ci` keeps none those of this machine."""
        if not self.given.behind:
            self.proofs = self.crate.folder.resolve() / "out" / "incremental"
            return
        self.proofs, known = self.machine.begin(self.crate)
        if wanted <= known:
            return
        text, usage = self.check({}, sorted(wanted), self.proofs, "--jobs", str(self.jobs))
        self.take(usage)
        print(f"{self.crate.name}: as it stands, {usage.ru_utime + usage.ru_stime:.0f} s", flush=True)
        told = Report(text).told
        wrong = [f"{symbol}: {said}" for symbol, said in told.items() if said not in PROVED]
        if wrong:
            raise Failed(f"it isn't proved as it stands: {wrong[0]}")
        if told:
            self.machine.keep(self.crate, self.proofs, wanted | known)

    def words(self, proofs, symbols):
        """The words of a check, as `rt check` has them: the crate, the libraries that it uses, and the toolchain's logic."""
        words = [str(TOOLCHAIN / "bin" / "rattle"), "check", "--crate-name", self.crate.name]
        words.append("src/main.rt" if "src/main.rt" in self.crate.texts else "src/lib.rt")
        for name in ("std", *self.crate.uses):
            words += ["--extern", f"{name}={self.built.get(name, TOOLCHAIN / 'rlibs' / f'{name}.rlib')}"]
        for folder in (TOOLCHAIN / "rlibs", *(self.built[name].parent for name in self.crate.below)):
            words += ["-L", f"dependency={folder}"]
        words += ["--antt-project", f"{TOOLCHAIN}/rattle/logic/antt-project.json", "--logic-built", f"{TOOLCHAIN}/logic_built"]
        return [*words, "--incremental", str(proofs), *(f"--only={symbol}" for symbol in symbols)]

    def check(self, changed, symbols, proofs, *flags):
        """What a check of these functions says, with these texts in place of the crate's, and what it took."""
        with tempfile.TemporaryDirectory(dir=self.machine.room) as room, tempfile.TemporaryFile() as said:
            for file, text in {**self.crate.files, **changed}.items():
                path = pathlib.Path(room, file)
                path.parent.mkdir(parents=True, exist_ok=True)
                path.write_text(text)
            words = [*self.words(proofs, symbols), *flags]
            run = subprocess.Popen(words, cwd=room, stdin=subprocess.DEVNULL, stdout=said, stderr=subprocess.STDOUT)
            _, status, usage = os.wait4(run.pid, 0)
            run.returncode = os.waitstatus_to_exitcode(status)
            said.seek(0)
            return said.read().decode(errors="replace"), usage

    def take(self, usage):
        self.seconds, self.peak = self.seconds + usage.ru_utime + usage.ru_stime, max(self.peak, usage.ru_maxrss * 1024)

    def round(self, chosen, lanes):
        """Tries these edits in one check. What that doesn't judge gets a round of its own."""
        with tempfile.TemporaryDirectory(dir=self.machine.room) as room:
            proofs = pathlib.Path(room, "proofs")
            linked(self.proofs, proofs)
            text, usage = self.check(merged(chosen, self.crate.texts), [edit.symbol for edit in chosen], proofs, "--allow-holes", "--jobs", "1")
        self.take(usage)
        self.count += 1
        print(f"{self.crate.name}: round {self.count}, {len(chosen)} edits, {usage.ru_utime + usage.ru_stime:.0f} s", flush=True)
        report = Report(text)
        if not report.told:
            return self.without(unchecked(chosen, text), chosen, lanes)
        for edit in chosen:
            verdict, why = report.judge(edit)
            if verdict in ("names", "unclear") and len(chosen) > 1:
                edit.has_waited = True
                lanes.add(len(self.edits), lambda edit=edit: self.round([edit], lanes))
            elif verdict == "names" and not edit.names_allowed:
                self.fail(edit, f"only names in a proof file refuse it: {why[:200]}")
            elif verdict == "refused" and edit.names_allowed:
                self.fail(edit, f"it says that names alone refuse it, and a goal does: {why[:200]}")
            elif verdict in ("refused", "names"):
                edit.goal = " ".join(why.split())[:160]
                self.refused.append(edit)
                if self.given.show:
                    print(f"{edit.label}.edit: refused: {why[:300]}", flush=True)
            else:
                self.fail(edit, why)
        self.keep(chosen)

    def without(self, wrong, chosen, lanes):
        """Takes out the edits that can't be checked, and tries the others: in halves where it isn't known which these are."""
        for edit, why in wrong.items():
            self.fail(edit, why)
        self.keep(wrong)
        rest = [edit for edit in chosen if edit not in wrong]
        half = len(rest) if wrong else len(rest) // 2
        for part in (rest[:half], rest[half:]):
            if part:
                lanes.add(len(self.edits), lambda part=part: self.round(part, lanes))

    def told(self):
        if self.failure:
            return f"{self.crate.name}: {self.failure}"
        came_out = f"{self.crate.name}: {len(self.refused)} refused, {len(self.failed)} failed"
        return f"{came_out}, in {self.count} rounds: {self.seconds:.0f} s of a processor, at most {self.peak / 1e9:.1f} GB"


def put_together(edits):
    """The edits in rounds, each of as many as have functions of their own. Those of functions with most edits come first, since these decide how many rounds there are; an edit of no function comes alone."""
    within, rounds = [edit for edit in edits if edit.place], []
    while within:
        left, chosen = collections.Counter(edit.unit for edit in within), {}
        for edit in sorted(within, key=lambda it: -left[it.unit]):
            if len(chosen) < AT_MOST:
                chosen.setdefault(edit.unit, edit)
        rounds.append([*chosen.values()])
        within = [edit for edit in within if edit not in rounds[-1]]
    return rounds + [[edit] for edit in edits if not edit.place]


def merged(edits, of):
    """The texts that some edits change. An edit moves no line, so each line is taken from the edit that changes it."""
    changed = {}
    for edit in edits:
        texts = edit.apply(of)
        for file, line in edit.lines:
            lines = changed.setdefault(file, of[file].split("\n"))
            lines[line - 1] = texts[file].split("\n")[line - 1]
    return {file: "\n".join(lines) for file, lines in changed.items()}


def unchecked(chosen, text):
    """The edits for which a check ends before it speaks of any function, as they don't compile, and why."""
    places = {(file, int(line)) for file, line in COMPILE_ERROR.findall(text)}
    errors = [line for line in text.split("\n") if ": error" in line] or text.strip().split("\n")[-1:]
    found = {}
    for edit in chosen:
        of_file, first, last = edit.place or (None, 0, 0)
        if len(chosen) == 1 or any(place in edit.lines or place[0] == of_file and first <= place[1] <= last for place in places):
            own = [it for it in errors if any(f"{file}:{line}:" in it for file, line in edit.lines)]
            why = f"no check speaks of {edit.told}" if edit.told and "has no function" in text else "it doesn't compile"
            found[edit] = f"{why}: {(own or errors)[0][:300]}"
    return found


class Lanes:
    """Calls that run side by side, those of most weight first, which may add others."""

    def __init__(self, count):
        self.calls, self.numbers, self.free, self.is_broken = queue.PriorityQueue(), itertools.count(), threading.Semaphore(0), False
        for _ in range(count):
            threading.Thread(target=self.run, daemon=True).start()

    def open(self, count):
        """Lets so many more run at once."""
        for _ in range(count):
            self.free.release()

    def add(self, weight, call):
        self.calls.put((-weight, next(self.numbers), call))

    def run(self):
        while True:
            with self.free:
                *_, call = self.calls.get()
                try:
                    call()
                except Exception:
                    self.is_broken = True
                    traceback.print_exc()
                finally:
                    self.calls.task_done()
