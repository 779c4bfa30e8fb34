#!/usr/bin/env python3
"""Writes texts to measure with to standard output. The same words give the same bytes.

    tracefiles.py project MEGABYTES [--job N] [--test NAME] [--seed N] [--checksums]
    tracefiles.py gcov MEGABYTES
    tracefiles.py lines NUMBER [--shuffled]
    tracefiles.py small-files NUMBER

`project` is a tracefile of about so many megabytes: many sources with functions, branches and lines, in ascending order, as
geninfo(1) writes them. The seed decides the sources, the job their counts: files of several jobs with one seed and size add
up point by point. `gcov` is annotated source of many files, as `gcov -b -c` writes it. `lines` is one section of so many
lines. `small-files` are so many sections of three lines.
"""
import argparse
import random
import sys

AREAS = "parser lexer codegen linker runtime network storage crypto".split()
VERBS = "open close read write parse print find insert remove update check resolve".split()
NOUNS = "request header buffer table index symbol token section record session".split()
# how often an executed line, function or branch ran, small counts more often than large ones
COUNTS = [1] * 8 + [0] * 4 + [2, 2, 3, 4, 5, 7, 8, 12, 16, 24, 37, 64, 100, 250, 911, 1_024, 7_919, 30_000, 250_000, 4_000_000]
STEPS = (1, 1, 1, 1, 2, 2, 3, 6)


def path(number):
    return f"/home/build/project/src/{AREAS[number % 8]}/module_{number // 8:04}/implementation_{number}.cpp"


def source(number, seed):
    """What a source has: for each function its start line, its name, its lines, and its branches as line, block and number."""
    choose = random.Random(f"source {seed} {number}")
    functions, line = [], 8
    for place in range(choose.randint(20, 100)):
        line += choose.randint(3, 10)
        name = f"_ZN7project{number % 97}{choose.choice(VERBS)}_{choose.choice(NOUNS)}_{place}Ev"
        start, lines, branches = line, [line], []
        for block, step in enumerate(choose.choices(STEPS, k=choose.randint(6, 50))):
            line += step
            lines.append(line)
            if step == 2:
                branches += [(line, block, branch) for branch in range(2 if block % 3 else 4)]
        functions.append((start, name, lines, branches))
    return functions


def length_of(number, functions):
    """About how many bytes a source's section has, whatever the counts are."""
    names = sum(2 * len(name) + 17 for _, name, _, _ in functions)
    lines, branches = (sum(len(function[kind]) for function in functions) for kind in (2, 3))
    return len(path(number)) + names + 10.4 * lines + 17.1 * branches + 200


def checksum(choose):
    return "".join(choose.choices("ABCDEFGHIJKLMNOPQRSTUVWXYZabcdefghijklmnopqrstuvwxyz0123456789+/", k=22))


def section(number, functions, test, choose, sums):
    """A source's section; where `sums` is a source of random numbers, its lines have checksums by it."""
    calls, taken, executed = [], [], []
    for _, _, lines, branches in functions:
        if choose.random() < 0.3:
            calls.append(0)
            taken += ["-"] * len(branches)
            executed += [0] * len(lines)
        else:
            calls.append(choose.choice(COUNTS) + 1)
            taken += choose.choices(COUNTS, k=len(branches))
            executed += choose.choices(COUNTS, k=len(lines))
    text = [f"TN:{test}", f"SF:{path(number)}"]
    text += [f"FN:{start},{name}" for start, name, _, _ in functions]
    text += [f"FNDA:{count},{name}" for count, (_, name, _, _) in zip(calls, functions)]
    text += [f"FNF:{len(calls)}", f"FNH:{sum(count > 0 for count in calls)}"]
    keys = [key for function in functions for key in function[3]]
    if keys:
        text += [f"BRDA:{line},{block},{branch},{count}" for (line, block, branch), count in zip(keys, taken)]
        text += [f"BRF:{len(taken)}", f"BRH:{sum(count not in ('-', 0) for count in taken)}"]
    lines = [line for function in functions for line in function[2]]
    if sums:
        text += [f"DA:{line},{count},{checksum(sums)}" for line, count in zip(lines, executed)]
    else:
        text += [f"DA:{line},{count}" for line, count in zip(lines, executed)]
    text += [f"LF:{len(lines)}", f"LH:{sum(count > 0 for count in executed)}", "end_of_record", ""]
    return "\n".join(text)


def project(megabytes, job=0, test="unit", seed=1, checksums=False):
    """The sections of a tracefile of many sources. A line's checksum is the same in every job."""
    made = number = 0
    while made < megabytes * 1_000_000:
        functions = source(number, seed)
        sums = random.Random(f"checksums {seed} {number}") if checksums else None
        yield section(number, functions, test, random.Random(f"counts {seed} {number} {job}"), sums)
        made += length_of(number, functions) + (23 * sum(len(function[2]) for function in functions) if checksums else 0)
        number += 1


CODE = ["{", "}", "", "  return result;", "  if (request != nullptr && request->is_open())", "  for (auto& part : parts)",
        "    total += weight(part) * scale;  // the sum of all parts", "#include <project/request.h>"]
MARKS = ["-", "-", "1", "17", "#####", "7919*", "-", "250"]


def annotated_source(number, count):
    text = [f"        -:    0:{told}" for told in (f"Source:{path(number)}", "Graph:module.gcno", "Data:module.gcda", "Runs:1")]
    for line in range(1, count + 1):
        if line % 24 == 2:
            text.append(f"function _ZN7project{line % 97}handle_request_{line}Ev called {line % 5} returned 100% blocks executed 80%")
        text.append(f"{MARKS[line * 5 % 8]:>9}:{line:>5}:{CODE[line * 3 % 8]}")
        if line % 8 == 2:
            text += ["branch  0 taken 3 (fallthrough)", "branch  1 taken 0", "call    2 returned 3"]
        if line % 40 == 3:
            text += ["branch  0 never executed", "branch  1 never executed"]
    return "\n".join(text) + "\n"


def gcov(megabytes):
    made = number = 0
    while made < megabytes * 1_000_000:
        text = annotated_source(number, 150 + number * 37 % 300)
        made += len(text)
        number += 1
        yield text


def lines_of(path_of_section, test, lines):
    """A section of lines and their counts."""
    told = "".join(f"DA:{line},{count}\n" for line, count in lines)
    return f"TN:{test}\nSF:{path_of_section}\n{told}LF:{len(lines)}\nLH:{sum(count > 0 for _, count in lines)}\nend_of_record\n"


def one_section(number, shuffled=False):
    lines = [(line + 1, line % 5) for line in range(number)]
    if shuffled:
        random.Random(1).shuffle(lines)
    yield lines_of("/src/large.c", "unit", lines)


def small_files(number):
    for place in range(number):
        yield lines_of(f"/src/a/path/of/usual/length/file_{place}.c", "unit", [(1, 1), (2, 0), (5, 7)])


def main():
    words = argparse.ArgumentParser(description=__doc__, formatter_class=argparse.RawDescriptionHelpFormatter)
    kinds = words.add_subparsers(dest="kind", required=True)
    kind = kinds.add_parser("project")
    kind.add_argument("megabytes", type=float)
    kind.add_argument("--job", type=int, default=0)
    kind.add_argument("--test", default="unit")
    kind.add_argument("--seed", type=int, default=1)
    kind.add_argument("--checksums", action="store_true")
    kinds.add_parser("gcov").add_argument("megabytes", type=float)
    kind = kinds.add_parser("lines")
    kind.add_argument("number", type=int)
    kind.add_argument("--shuffled", action="store_true")
    kinds.add_parser("small-files").add_argument("number", type=int)
    told = vars(words.parse_args())
    write = {"project": project, "gcov": gcov, "lines": one_section, "small-files": small_files}[told.pop("kind")]
    for text in write(**told):
        sys.stdout.write(text)


if __name__ == "__main__":
    main()
