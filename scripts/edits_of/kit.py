"""The toolchain's `rt` as a module, so that its own rules on edits and its own list of crates and sources are taken as they are.

Kits differ in what rt has, so only what all of them have is taken from it, and sums are made here.
"""
import functools
import hashlib
import importlib.machinery
import importlib.util
import os
import re
import shutil
import sys

sys.dont_write_bytecode = True
# A line of a source that is a comment and nothing else: no proof rests on it.
COMMENT = re.compile(rb"^[ \t]*//.*(?:\n|\Z)", re.M)


def sum_of(*parts):
    return hashlib.sha256(repr(parts).encode()).hexdigest()


def sum_of_file(path):
    with open(path, "rb") as file:
        return hashlib.sha256(file.read()).hexdigest()


def sum_of_source(path):
    """A sum of a file. Of a source it is one of the file without its comments' lines."""
    with open(path, "rb") as file:
        text = file.read()
    return hashlib.sha256(COMMENT.sub(b"", text) if path.endswith(".rt") else text).hexdigest()


def folder():
    """The folder of the toolchain's commands."""
    found = shutil.which("rt")
    if not found:
        sys.exit(f"{os.path.basename(sys.argv[0])}: the toolchain's command rt isn't on PATH")
    return os.path.dirname(os.path.realpath(found))


def load(top):
    """Returns rt, for the repository at this folder."""
    loader = importlib.machinery.SourceFileLoader("rt", f"{folder()}/rt")
    rt = importlib.util.module_from_spec(importlib.util.spec_from_loader("rt", loader))
    sys.modules["rt"] = rt
    loader.exec_module(rt)
    rt.rtlib.Crate = rt.Crate
    rt.Crate.allowed = rt.handles_of(top)
    # The guard that ends checks with this script: it can be made in the main thread alone.
    rt.rtlib.guarded()
    return rt


def crates(rt, top, libraries):
    """Returns the crates of the repository by their names. Their libraries stand in the checkout `libraries`."""
    found = {it.name: it for it in rt.rtlib.crates_below(top)}
    for it in found.values():
        it.rlib = f"{libraries}/crates/{it.name}/out/rlib/{it.name}.rlib"
    return found


@functools.lru_cache(maxsize=None)
def kit_sum():
    """A sum of the kit's own names for itself and its parts: its version and the sums of its compiler and its logic."""
    kit = os.path.dirname(folder())
    return sum_of(*[sum_of_file(f"{kit}/{it}") for it in sorted(os.listdir(kit)) if it == "KIT-ID" or it.startswith("WHAT")])


def files_of(rt, crate):
    """The crate's own text, crates.txt and HANDLES."""
    above = os.path.dirname(os.path.dirname(crate.folder))
    return [*sorted(rt.rtlib.files_of(crate.folder)), f"{above}/crates.txt", f"{above}/HANDLES"]


def own_sum(rt, crate):
    """A sum of the kit, HANDLES, the crate's text without comments, and its line of crates.txt."""
    *texts, listed, handles = files_of(rt, crate)
    with open(listed, encoding="utf-8") as file:
        lines = [it for it in file if it.split(":")[0].split()[:1] == [crate.name]]
    return sum_of(kit_sum(), sum_of_file(handles), lines, [(os.path.relpath(it, crate.folder), sum_of_source(it)) for it in texts])


def touched(rt, crate):
    """What tells whether one of these files was changed meanwhile."""
    found = [(it, os.stat(it)) for it in files_of(rt, crate)]
    return [(path, it.st_ino, it.st_mtime_ns, it.st_size) for path, it in found]
