"""Verdicts of earlier runs, each under a sum of all that it rests on: no entry goes stale, and one that can't be read counts for nothing.

They stand in a folder of this machine, and in the repository as far as they were recorded there (edits_of/refused). In the folder an entry is written under
another name and then renamed, so that no run meets half of one. One that no run used for 30 days is removed.
"""
import contextlib
import functools
import json
import os
import re
import tempfile
import threading
import time

from .kit import kit_sum, own_sum, sum_of, sum_of_file

DAYS = 30
# Into how many parts what is recorded falls, of which one is tried again.
PARTS = 20
FOLDER = os.path.dirname(os.path.abspath(__file__))


def sum_of_script(files):
    """A sum of these files of this script."""
    texts = []
    for path in files:
        with open(path, "rb") as file:
            texts.append((os.path.basename(path), file.read()))
    return sum_of(*texts)


# They are made as this file is loaded, so that they are of the code that runs, even if the files change meanwhile.
SCRIPT = sum_of_script([f"{FOLDER}/{it}" for it in sorted(os.listdir(FOLDER)) if it.endswith(".py")] + [f"{os.path.dirname(FOLDER)}/edits"])
# A sum of what makes and reads a check, on which the control rests.
CHECKS = sum_of_script([f"{FOLDER}/{it}.py" for it in ("checks", "functions", "output")])


def sum_of_crate(rt, crate):
    """A sum of the kit, HANDLES, the crate's text and its line of crates.txt, the libraries below as built, and this script."""
    below = [(it.name, sum_of_library(it.rlib)) for it in crate.below()]
    return sum_of(own_sum(rt, crate), below, SCRIPT)


@functools.lru_cache(maxsize=None)
def sum_of_library(folder):
    files = [f"{at}/{name}" for at, _, names in os.walk(folder) for name in names]
    return sum_of(*[(os.path.relpath(it, folder), sum_of_file(it)) for it in sorted(files)])


class Lines:
    """Lines of the repository with two sums, of the kit and of the script, a crate's name and words on it. A line with other sums counts for nothing."""

    def __init__(self, name, script):
        self.path, self.script, self.found, self.lock = f"{FOLDER}/{name}", script, {}, threading.Lock()
        with contextlib.suppress(FileNotFoundError), open(self.path, encoding="utf-8") as file:
            for kit, of_script, crate, *words in map(str.split, file):
                self.found[kit, of_script, crate] = words

    def of(self, crate):
        return self.found.get((kit_sum(), self.script, crate), [])

    def record(self, crate, words):
        """Replaces the crate's words, and leaves out lines with other sums of the script."""
        with self.lock:
            self.found[kit_sum(), self.script, crate] = sorted(words)
            lines = [" ".join([*key, *its]) for key, its in sorted(self.found.items()) if key[1] == self.script]
            with open(self.path, "w", encoding="utf-8") as file:
                file.write("".join(f"{it}\n" for it in lines))


def part_of(name):
    """The part of a sum, by which it is tried again with others."""
    return int(name[:8], 16) % PARTS


class Kept:
    """What earlier runs saw: refusals, and the functions that the control proved."""

    def __init__(self, folder, anew, records=False, due=None):
        self.folder, self.anew, self.records, self.due = folder, anew, records, due
        self.controlled, self.refused = Lines("controlled", CHECKS), Lines("refused", SCRIPT)
        os.makedirs(folder, exist_ok=True)

    def controlled_of(self, crate):
        """The names of the crate's functions that need no control."""
        return [] if self.anew else self.controlled.of(crate)

    def is_recorded(self, crate, name):
        """Whether the repository has a refusal of one of the crate's edits under this sum, and it isn't due to be tried again."""
        return not self.anew and name in self.refused.of(crate) and part_of(name) != self.due

    def record(self, crate, functions, refusals):
        """Records the functions that the control proved, and the sums of refusals, in the repository, if that was asked for."""
        if self.records:
            self.controlled.record(crate, functions)
            self.refused.record(crate, refusals)

    def read(self, name):
        """What was kept under this sum, or None."""
        path = f"{self.folder}/{name}"
        with contextlib.suppress(OSError, ValueError):
            with open(path, encoding="utf-8") as file:
                found = json.load(file)
            os.utime(path)
            return None if self.anew else found
        return None

    def write(self, name, what):
        with contextlib.suppress(OSError):
            with tempfile.NamedTemporaryFile("w", dir=self.folder, prefix="new-", delete=False, encoding="utf-8") as file:
                json.dump(what, file)
            os.replace(file.name, f"{self.folder}/{name}")

    def remove(self, name):
        with contextlib.suppress(FileNotFoundError):
            os.remove(f"{self.folder}/{name}")

    def remove_old(self):
        """Removes what no run used for long, and what a run left that was killed."""
        oldest = time.time() - DAYS * 24 * 3600
        for name in os.listdir(self.folder):
            path = f"{self.folder}/{name}"
            with contextlib.suppress(OSError):
                if re.fullmatch(r"[0-9a-f]{64}|new-\w+", name) and os.stat(path).st_mtime < oldest:
                    os.remove(path)
