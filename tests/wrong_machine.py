"""What this machine keeps of wrong bodies: proofs of crates, and which edits were drawn."""

import contextlib
import os
import pathlib
import shutil
import tempfile

from wrong_edits import checksum, toolchain

FOLDER = pathlib.Path(os.environ.get("XDG_CACHE_HOME") or pathlib.Path.home() / ".cache", "nextest-config", "wrong-bodies")
# The most that is kept of proofs, in bytes.
ROOM = 10_000_000_000


class Machine:
    """The folder in which this machine keeps proofs of crates, and which edits were drawn; and one for this run alone."""

    def __init__(self, crates):
        self.crates, self.at = crates, FOLDER
        try:
            for part in ("proofs", "drawn"):
                (FOLDER / part).mkdir(parents=True, exist_ok=True)
            self.room = pathlib.Path(tempfile.mkdtemp(prefix=f"room-{os.getpid()}-", dir=FOLDER))
        except OSError as error:
            print(f"tests/wrong: what is proved here isn't kept on this machine: {error}", flush=True)
            self.at, self.room = None, pathlib.Path(tempfile.mkdtemp(prefix="wrong-"))

    def drawn(self, name):
        """The names of the edits that were drawn by this name, and refused."""
        notes = self.at and self.at / "drawn" / name
        return set(notes.read_text().split()) if notes and notes.is_file() else set()

    def note(self, name, edits):
        """Notes that these edits were drawn by this name, and refused."""
        if self.at and edits:
            with open(self.at / "drawn" / name, "a", encoding="utf-8") as notes:
                notes.writelines(f"{edit.label}\n" for edit in edits)

    def place(self, crate):
        """Where proofs of a crate are kept, as it stands with those below it."""
        texts = [self.crates[name].files for name in (crate.name, *crate.below)]
        return self.at / "proofs" / f"{crate.name}-{checksum(toolchain(), crate.line, texts)}"

    def begin(self, crate):
        """A folder of proofs for the checks of a crate to begin with, and the functions of which it has all: what is kept of the crate as it stands, or else of an earlier text of it."""
        to, kept = self.room / crate.name, self.at and self.place(crate)
        earlier = sorted(self.at.glob(f"proofs/{crate.name}-*"), key=lambda it: -it.stat().st_mtime) if self.at else []
        for folder in sorted(earlier, key=lambda it: it != kept):
            with contextlib.suppress(OSError):
                linked(folder / "proofs", to)
                os.utime(folder)
                return to, set((folder / "functions").read_text().split()) if folder == kept else set()
        to.mkdir()
        return to, set()

    def keep(self, crate, proofs, functions):
        """Keeps a folder of proofs that has all of these functions."""
        if not self.at:
            return
        new, kept = self.room / f"new-{crate.name}", self.place(crate)
        with contextlib.suppress(OSError):
            linked(proofs, new / "proofs")
            (new / "functions").write_text("\n".join(sorted(functions)))
            shutil.rmtree(kept, ignore_errors=True)
            new.rename(kept)

    def end(self):
        """Removes what this run and killed ones left, and of the proofs those of longest ago that are over the limit."""
        shutil.rmtree(self.room, ignore_errors=True)
        if not self.at:
            return
        for room in self.at.glob("room-*"):
            if not pathlib.Path("/proc", room.name.split("-")[1]).exists():
                shutil.rmtree(room, ignore_errors=True)
        seen, held = set(), 0
        for kept in sorted((self.at / "proofs").iterdir(), key=lambda it: -it.stat().st_mtime):
            files = {(found.st_ino, found.st_size) for path in kept.rglob("*") for found in [path.lstat()]} - seen
            held += sum(size for _, size in files)
            seen |= files
            if held > ROOM:
                shutil.rmtree(kept, ignore_errors=True)


def linked(folder, to):
    """Copies a folder of proofs: these by links, since a check replaces such a file and changes none."""

    def copy(one, other):
        try:
            if not one.endswith(".oantt"):
                raise OSError
            os.link(one, other)
        except OSError:
            shutil.copy2(one, other)

    try:
        shutil.copytree(folder, to, copy_function=copy)
    except (OSError, shutil.Error) as error:
        shutil.rmtree(to, ignore_errors=True)
        raise OSError(str(error)) from error
