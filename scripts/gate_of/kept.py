"""Proofs that passed on this machine, for a kit whose `rt ci` keeps none (13b): what they built, each under a sum of all that it rests on.

A sum is of the kit, HANDLES, the crate's text, its line of crates.txt, and every file of every library below it as built. So a change begins the crate
anew, and a crate above it only if the library came out with other bytes. An entry has the library, the program or the tests that rt built, with their
sums, which are compared as it is taken. It is written under another name and then renamed. The four entries that were used last are kept of each crate, and
four of its tests, for 10 days each: some 3 GB for one state of all crates.
"""
import contextlib
import json
import os
import shutil
import tempfile
import time
from collections import Counter

from edits_of.kept import sum_of_library
from edits_of.kit import own_sum, sum_of, sum_of_file

DAYS, MOST = 10, 4
# Beside what was built, an entry has this file of sums.
SUMS = "sums"


def built(crate, tests):
    """What a proof of the crate, or of its tests, leaves for the crates above and for what rt runs: its name in an entry, and where it stands."""
    at = f"{crate.folder}/out/{crate.name}"
    if tests:
        return {"tests": f"{at}_tests"}
    return {"program": at, "program.by-rattle": f"{at}.by-rattle"} if crate.is_program else {"library": crate.rlib}


def copy(path, to):
    os.makedirs(os.path.dirname(to), exist_ok=True)
    (shutil.copytree if os.path.isdir(path) else shutil.copy2)(path, to)


def remove(path):
    if os.path.isdir(path):
        shutil.rmtree(path, ignore_errors=True)
    else:
        with contextlib.suppress(FileNotFoundError):
            os.remove(path)


def sums_of(folder):
    """The sums of an entry's files, by their paths in it."""
    files = [f"{at}/{name}" for at, _, names in os.walk(folder) for name in names]
    return {os.path.relpath(it, folder): sum_of_file(it) for it in files if os.path.relpath(it, folder) != SUMS}


class Proofs:
    """The entries of a folder. With `anew` none is taken, and each proof that passes is kept all the same."""

    def __init__(self, rt, folder, anew):
        self.rt, self.folder, self.anew = rt, folder, anew
        os.makedirs(folder, exist_ok=True)

    def wrap(self, prove):
        """Returns `prove` for crates without an entry."""

        def kept_or_proved(crate, flags, tests):
            name = self.name_of(crate, tests)
            if self.take(name, crate, tests):
                self.rt.say(f"{crate.name}: nothing that it rests on has changed since it passed", crate.out)
                return 0
            status = prove(crate, flags, tests)
            if not status and self.name_of(crate, tests) == name:
                self.write(name, crate, tests)
            return status

        return kept_or_proved

    def name_of(self, crate, tests):
        """The entry's name: the crate's, and the sum of all that its proof rests on."""
        # The sum that serves for edits leaves comments out; what is built of the sources may hold them.
        texts = [(os.path.relpath(it, crate.folder), sum_of_file(it)) for it in sorted(self.rt.rtlib.files_of(crate.folder))]
        rests_on = sum_of(tests, own_sum(self.rt, crate), texts, [(it.name, sum_of_library(it.rlib)) for it in crate.below()])
        return f"{crate.name}{'-tests' if tests else ''}.{rests_on}"

    def take(self, name, crate, tests):
        """Puts what an entry has where rt would have built it, and returns whether there was an entry."""
        entry, places = f"{self.folder}/{name}", built(crate, tests)
        if self.anew or not os.path.isdir(entry):
            return False
        with contextlib.suppress(OSError, ValueError):
            with open(f"{entry}/{SUMS}", encoding="utf-8") as file:
                if json.load(file) != sums_of(entry):
                    raise ValueError
            for it in sorted(os.listdir(entry)):
                if it != SUMS:
                    remove(places[it])
                    copy(f"{entry}/{it}", places[it])
            os.utime(entry)
            return True
        remove(entry)
        return False

    def write(self, name, crate, tests):
        """Keeps what was built. Where it can't be kept, a later run proves it again."""
        with contextlib.suppress(OSError):
            made = tempfile.mkdtemp(dir=self.folder, prefix="new-")
            for it, place in built(crate, tests).items():
                if os.path.exists(place):
                    copy(place, f"{made}/{it}")
            with open(f"{made}/{SUMS}", "w", encoding="utf-8") as file:
                json.dump(sums_of(made), file)
            remove(f"{self.folder}/{name}")
            os.rename(made, f"{self.folder}/{name}")

    def remove_old(self):
        """Removes what no run used for long, what is too much of one crate, and what a run left that was killed."""
        oldest, seen = time.time() - DAYS * 24 * 3600, Counter()
        with contextlib.suppress(OSError):
            for it in sorted(os.scandir(self.folder), key=lambda it: -it.stat().st_mtime):
                of = it.name.partition(".")[0]
                seen[of] += 1
                if seen[of] > MOST or it.stat().st_mtime < oldest:
                    remove(it.path)
