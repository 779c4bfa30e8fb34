#!/usr/bin/env python3
"""Writes a session to measure with, and the tracefiles that it hands in: `sessions.py KIND SIZE SESSION FOLDER`.

    adding       so many tracefiles of about a megabyte that add up
    own-tests    so many such tracefiles, each of a test of its own
    ascending    one section of so many lines
    shuffled     one section of so many lines, shuffled
    small-files  one tracefile of so many files of three lines
    one-line     one section of 1,000,000 lines, then so many tracefiles of one line that it has
    drop-one     so many tests of one file of 100 lines; then 2,000 times one of them is dropped and handed in again
    drop-all     so many files of three lines, all of them of two tests; then five times one of these is dropped and handed in
                 again
    rename-one   so many files of three lines of one test, and one file of another test; then this other test is renamed 200 times
    rename-all   so many files of three lines of one test; then 10 times the test is renamed
    reports      20 tracefiles of about a megabyte that add up, then so many reports

A session hands in its tracefiles one after another and asks for a report at the end. Each tracefile is written to the folder
too, named by its number; those that are handed in again after a drop are written once. Renames go there and back. The last line on standard output is
the number of files in the folder and of bytes in all tracefiles of the session.
"""
import sys

import tracefiles


def adding(size):
    return ("".join(tracefiles.project(1, job=job)) for job in range(size))


def own_tests(size):
    return ("".join(tracefiles.project(1, job=job, test=f"unit_{job}")) for job in range(size))


def ascending(size):
    return tracefiles.one_section(size)


def shuffled(size):
    return tracefiles.one_section(size, shuffled=True)


def small_files(size):
    yield "".join(tracefiles.small_files(size))


def one_line(size):
    yield from tracefiles.one_section(1_000_000)
    for number in range(size):
        yield tracefiles.lines_of("/src/large.c", "unit", [(number * 97 % 1_000_000 + 1, 1)])


def drop_one(size):
    texts = [tracefiles.lines_of("/src/one.c", f"unit_{test}", [(line + 1, (line + test) % 3) for line in range(100)]) for test in range(size)]
    yield from texts
    for turn in range(2_000):
        test = turn * 7 % size
        yield f"drop unit_{test}"
        yield texts[test]


def drop_all(size):
    unit = "".join(tracefiles.small_files(size))
    yield unit
    yield unit.replace("TN:unit", "TN:system")
    for _ in range(5):
        yield "drop unit"
        yield unit


def rename(old, new):
    return f"rename\n{old}\n{new}"


def rename_one(size):
    yield "".join(tracefiles.small_files(size))
    yield tracefiles.lines_of("/src/one.c", "one", [(line + 1, line % 3) for line in range(100)])
    for _ in range(100):
        yield rename("one", "other")
        yield rename("other", "one")


def rename_all(size):
    yield "".join(tracefiles.small_files(size))
    for _ in range(5):
        yield rename("unit", "system")
        yield rename("system", "unit")


def reports(size):
    yield from adding(20)
    yield from ["report"] * (size - 1)


KINDS = {kind.__name__.replace("_", "-"): kind for kind in (adding, own_tests, ascending, shuffled, small_files, one_line, drop_one, drop_all, rename_one, rename_all, reports)}


def main():
    if len(sys.argv) != 5 or sys.argv[1] not in KINDS:
        sys.exit(__doc__)
    kind, size, session, folder = sys.argv[1], int(sys.argv[2]), sys.argv[3], sys.argv[4]
    files = length = 0
    is_again = False
    with open(session, "w", encoding="ascii") as to:
        for text in KINDS[kind](size):
            if text.startswith(("drop ", "rename\n", "report")):
                to.write(f"{text}\n")
                is_again = True
                continue
            to.write(f"trace\n{text}.\n")
            length += len(text)
            if not is_again:
                with open(f"{folder}/{files}.info", "w", encoding="ascii") as info:
                    info.write(text)
                files += 1
        to.write("report\n")
    print(files, length)


if __name__ == "__main__":
    main()
