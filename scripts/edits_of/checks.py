"""Checks of a copy of a crate, in which each function that isn't looked at has a proof of one hole, and an empty body."""
import contextlib
import os
import shutil
import subprocess
import tempfile
import threading

from . import kit
from .output import Output

HOLE = """use Rattle.{crate}.proofs.{path}.Statement as stated

pub {name}_spec : {{M : Type 1}} → stated.statement M
{name}_spec = ?
"""
FILES = ("Answers.antt", "Invariants.antt")


def write(path, text):
    os.makedirs(os.path.dirname(path), exist_ok=True)
    with open(path, "w", encoding="utf-8") as file:
        file.write(text)


class Checks:
    """Checks of one crate, with their number. `holes` are the functions' names that a proof of one hole can be given."""

    def __init__(self, rt, crate, functions, log):
        self.rt, self.crate, self.functions, self.log = rt, crate, functions, log
        self.holes, self.number, self.lock = {name for it in functions.all for name in it.names}, 0, threading.Lock()

    def counted(self):
        with self.lock:
            self.number += 1
            return self.number

    def name_functions(self):
        """Finds out which of their possible names the functions have: rattle says which proofs of one hole it doesn't read. It ends before any proof."""
        self.holes -= self.check({}, [], None).unread()
        for function in self.functions.all:
            found = [it for it in function.names if it in self.holes]
            function.name = found[0] if len(found) == 1 else None

    def copy(self, room, texts, kept):
        """Makes the copy: these texts are in place of the crate's own, and all functions but those kept have a hole."""
        for part in self.rt.rtlib.PARTS:
            if os.path.isdir(f"{self.crate.folder}/{part}"):
                shutil.copytree(f"{self.crate.folder}/{part}", f"{room}/{part}")
        for path, text in texts.items():
            write(f"{room}/{path}", text)
        for name in self.holes - kept:
            self.write_hole(room, name)
        if kept:
            self.empty(room, texts, kept)

    def write_hole(self, room, name):
        """Gives a function a proof of one hole in place of its own."""
        folder = f"{room}/proofs/{name.replace('::', '/')}"
        for file in FILES:
            with contextlib.suppress(FileNotFoundError):
                os.remove(f"{folder}/{file}")
        write(f"{folder}/Proof.antt", HOLE.format(crate=self.crate.name, path=name.replace("::", "."), name=name.rpartition("::")[2]))

    def empty(self, room, texts, kept):
        """Empties the bodies of functions with a hole. No proof opens them, but the prover would still follow their borrows and state their goals,
        which takes up to a third of a check."""
        names = [it.name for it in self.functions.all if it.name]
        emptied = {it for it in names if it in self.holes - kept and names.count(it) == 1}
        for path, rows in self.functions.rows.items():
            write(f"{room}/{path}", self.functions.emptied(path, texts.get(path, "\n".join(rows)), emptied))
        for name in emptied:
            self.remove_closures(room, name.split("::"))

    def remove_closures(self, room, words):
        """Removes proofs of closures, which went with the body: they stand in a folder `fn` of the function's module."""
        for at in range(len(words)):
            shutil.rmtree("/".join([room, "proofs", *words[:at], "fn", *words[at:]]), ignore_errors=True)

    def check(self, texts, functions, begun):
        """Checks these functions. What the crate's checks have in common is kept in the folder `begun`, if one is given."""
        kept, number = {it.name for it in functions}, self.counted()
        flags = ["--jobs", "1", "--allow-holes", *(["--incremental", begun] if begun else [])]
        for name in sorted(kept) or [""]:
            flags += ["--only", name]
        with tempfile.TemporaryDirectory(prefix="edits-") as room:
            self.copy(room, texts, kept)
            words = [*self.rt.rtlib.guarded(), f"{kit.folder()}/rattle", "check", *self.crate.words(flags, keeps=False)]
            how = {"cwd": room, "stdin": subprocess.DEVNULL, "stdout": subprocess.PIPE, "stderr": subprocess.STDOUT, "errors": "replace"}
            ran = subprocess.run(words, check=False, **how)
        if self.log:
            write(f"{self.log}/{self.crate.name}.{number}", ran.stdout)
        return Output(ran.stdout, ran.returncode)
