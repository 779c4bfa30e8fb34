"""Sessions of many counts: random ones, whose answers have to be those of a plain list of all counts, and made ones.

A row of the list has a test, a file, a point and its count. Points 0 to 2 are functions, 3 to 5 branches, 6 to 9 lines. A count of None
is the `-` of a branch.
"""
import functools, random

SESSIONS = 4
SECTIONS = [(test, file) for file in ("/f", "/g") for test in "abc"]
KINDS = {"FN": range(3), "BR": range(3, 6), "L": range(6, 10)}


def record(point, count):
    if point in KINDS["FN"]:
        return f"FNDA:{count},f{point}"
    return f"BRDA:1,0,{point},{'-' if count is None else count}" if point in KINDS["BR"] else f"DA:{point},{count}"


def sums_of(rows, kind, *section):
    """The sums of a section's points of a kind, by point. None adds nothing to a number."""
    sums = {}
    for *at, point, count in rows:
        if at == [*section] and point in KINDS[kind]:
            sums[point] = sums.get(point) if count is None else count + (sums.get(point) or 0)
    return dict(sorted(sums.items()))


def report_of(rows):
    """The lines of the report, and its end."""
    lines = []
    for test, file in (it for it in SECTIONS if any([*it] == at for *at, _, _ in rows)):
        lines += [f"TN:{test}", f"SF:{file}", *(f"FN:{point},f{point}" for point in sums_of(rows, "FN", test, file))]
        for kind in KINDS:
            sums = sums_of(rows, kind, test, file)
            lines += [record(*it) for it in sums.items()]
            if sums or kind == "L":
                lines += [f"{kind}F:{len(sums)}", f"{kind}H:{sum(map(bool, sums.values()))}"]
        lines.append("end_of_record")
    return [*lines, "."]


def rate(hit, found, name, names):
    return f"{100 * hit / found:.1f}% ({hit} of {found} {name if found == 1 else names})" if found else "no data found"


def summary(functions, branches, lines):
    """The lines of the summary, and its end, for how many points of each kind are hit and found."""
    rates = (rate(*lines, "line", "lines"), rate(*functions, "function", "functions"), rate(*branches, "branch", "branches"))
    return ["Summary coverage rate:", *map("".join, zip(("  lines......: ", "  functions..: ", "  branches...: "), rates)), "."]


def summary_of(rows):
    """A point counts once for each file, and is hit if one of the file's tests hits it."""
    hit = {(file, point) for _, file, point, count in rows if count}
    found = {kind: {(file, point) for _, file, point, _ in rows if point in points} for kind, points in KINDS.items()}
    return summary(*((len(it & hit), len(it)) for it in found.values()))


def trace_of(rows):
    """The command that submits the rows, each in a section of its own."""
    lines = []
    for test, file, point, count in rows:
        start = [f"FN:{point},f{point}"] if point in KINDS["FN"] else []
        lines += [f"TN:{test}", f"SF:{file}", *start, record(point, count), "end_of_record"]
    return ["trace", *lines, "."]


def random_rows(it):
    """The rows of a submission: runs of rows of one section, some of them empty."""
    points = [(*section, it.randrange(10)) for section in it.choices(SECTIONS, k=it.randrange(4)) for _ in range(it.randrange(7))]
    return [(*at, it.choice((None, 0, 1, 2) if at[-1] in KINDS["BR"] else (0, 1, 2))) for at in points]


def play(player, folder, commands, wanted):
    given, output = ("".join(f"{line}\n" for line in lines).encode() for lines in (commands, wanted))
    player.compare((0, output, b""), player.ended(folder, [player.program], given))


def random_session(seed, player, folder):
    """A row for a session of 200 submissions. After each of them, and after each test that is dropped, all is printed."""
    player.row(f"random session {seed}")
    it, rows, commands, wanted = random.Random(seed), [], [], []
    for number in range(1, 201):
        more = random_rows(it)
        rows = rows + more
        commands += [*trace_of(more), "report", "summary"]
        items = sum(2 if point in KINDS["FN"] else 1 for _, _, point, _ in more)
        wanted += [f"accepted {number} items {items} odd 0", *report_of(rows), *summary_of(rows)]
        dropped = it.choice("abc.........")
        if dropped != ".":
            sections = len({file for test, file, _, _ in rows if test == dropped})
            rows = [row for row in rows if row[0] != dropped]
            commands += [f"drop {dropped}", "report", "summary"]
            wanted += [f"dropped {sections}" if sections else "no such test", *report_of(rows), *summary_of(rows)]
    play(player, folder, commands, wanted)


def three_tests(player, folder):
    """105 tracefiles, one for each of three tests, five files and seven places, and then each test is dropped.

    Test t has the count `place % (t + 2)` at a place. These are the points of a file:

        test  lines    hit         functions  hit    branches  hit
        t0    0 to 6   1 3 5       0 to 3     1 3    0 1       1
        t1    2 to 8   3 4 6 7     1 to 4     1 2 3  1 2       1 2
        t2    4 to 10  5 6 7 9 10  2 to 5     3 4 5  2 3       2 3

    Without t2 function 4 stays but isn't hit any more; nor are, without t1, lines 4 and 6 and function 2.
    """
    player.row("three tests that are dropped")
    commands = []
    for number in range(105):
        test, place = number % 3, number % 7
        count, function, branch = place % (test + 2), place % 4 + test, place % 2 + test
        commands += ["trace", f"TN:t{test}", f"SF:/f{number % 5}", f"FN:{function},g{function}", f"FNDA:{count},g{function}"]
        commands += [f"BRDA:{branch},0,0,{count}", f"DA:{place + 2 * test},{count}", "end_of_record", "."]
    wanted = [f"accepted {number} items 4 odd 0" for number in range(1, 106)]
    wanted += summary(functions=(25, 30), branches=(15, 20), lines=(40, 55))
    wanted += ["dropped 5", *summary(functions=(15, 25), branches=(10, 15), lines=(30, 45))]
    wanted += ["dropped 5", *summary(functions=(10, 20), branches=(5, 10), lines=(15, 35))]
    wanted += ["dropped 5", *summary(functions=(0, 0), branches=(0, 0), lines=(0, 0))]
    play(player, folder, [*commands, "summary", "drop t2", "summary", "drop t1", "summary", "drop t0", "summary"], wanted)


def shuffled_sections(player, folder):
    """Long sections whose lines don't ascend: each item is counted once. A section with checksums isn't sorted by line, so the first
    clash of the text is the one that is told."""
    player.row("shuffled sections")
    # A prime, so the first 2,003 multiples of 1,000 have different remainders.
    number = 2003
    shuffled = [[f"BRDA:{line},0,1,{line}", f"DA:{line},{line}"] for line in (at * 1000 % number + 1 for at in range(number))]
    falling = [[f"BRDA:{line},0,1,{line}", f"DA:{line},{line}"] for line in range(number, 0, -1)]
    sections = [["TN:t", "SF:/m", *sum(it, []), "end_of_record"] for it in (shuffled, falling)]
    clashing = ["TN:t", "SF:/n", "DA:1000,1,x", "DA:1000,1,y", *sum(falling, []), "DA:500,1,p", "DA:500,1,q", "end_of_record"]
    merged = [f"BRDA:{line},0,1,{2 * line}" for line in range(1, number + 1)] + [f"BRF:{number}", f"BRH:{number}"]
    merged += [f"DA:{line},{2 * line}" for line in range(1, number + 1)] + [f"LF:{number}", f"LH:{number}"]
    wanted = [f"accepted 1 items {4 * number} odd 0", "clash /n 1000 x y", "TN:t", "SF:/m", *merged, "end_of_record", "."]
    play(player, folder, ["trace", *sum(sections, []), ".", "trace", *clashing, ".", "report"], wanted)


def many_points(player, folder):
    """A section of a million lines, and a test of 10,000 files, of which 5,000 have a test of the new name already. Work that grows
    with the square of these numbers wouldn't end in time."""
    player.row("a million lines")
    lines = [f"DA:{line},1" for line in range(1, 1_000_001)]
    totals = summary(functions=(0, 0), branches=(0, 0), lines=(1_000_000, 1_000_000))
    play(player, folder, ["trace", "SF:/m", *lines, "end_of_record", ".", "summary"], ["accepted 1 items 1000000 odd 0", *totals])
    player.row("ten thousand files")
    files = [line for file in range(10_000) for line in ("TN:t", f"SF:/{file}", "DA:1,1", "end_of_record")]
    files += [line for file in range(5_000) for line in ("TN:u", f"SF:/{file}", "DA:1,1", "DA:2,0", "end_of_record")]
    totals = summary(functions=(0, 0), branches=(0, 0), lines=(10_000, 15_000))
    wanted = ["accepted 1 items 20000 odd 0", "renamed 10000", *totals, "renamed 10000", "no such test", "dropped 10000"]
    play(player, folder, ["trace", *files, ".", "rename", "t", "u", "summary", "rename", "u", "t", "drop u", "drop t"], wanted)


JOBS = (three_tests, shuffled_sections, many_points, *(functools.partial(random_session, seed) for seed in range(SESSIONS)))
