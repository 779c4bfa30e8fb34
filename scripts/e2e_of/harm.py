"""Files that somebody made to do harm, and calls whose time or memory is measured. They have to run alone.

Each function is a job: it is handed a player and a folder of its own. A line is printed for each call, with its time and memory; too
much of either is a fault.
"""
import os, subprocess, tempfile, threading
from itertools import chain
from e2e_of.made import written
from e2e_of.player import PATIENCE

# No call on a file that somebody made to do harm may take longer than this, in seconds of a processor (what else the machine does
# counts for nothing), or more memory than this, in bytes.
SLOWEST, LARGEST = 10, 1_500_000_000
# Two million small sections take more memory than this limit, in units of 1,024 bytes.
LIMIT = 1_200_000
# Some 50 texts of a megabyte have room here, and not 100.
FEW_TEXTS = 60_000


def ended(words, source):
    """What a call on this input left, as `compare` wants it, its processor seconds, and the most bytes that it held."""
    with open(source, "rb") as given, tempfile.TemporaryFile() as output, tempfile.TemporaryFile() as told:
        ran = subprocess.Popen(words, stdin=given, stdout=output, stderr=told)
        watch = threading.Timer(PATIENCE, ran.kill)
        watch.start()
        _, status, used = os.wait4(ran.pid, 0)
        seconds = used.ru_utime + used.ru_stime
        watch.cancel()
        ran.returncode = os.waitstatus_to_exitcode(status)
        output.seek(0)
        told.seek(0)
        return (ran.returncode, output.read(), told.read()), seconds, used.ru_maxrss * 1024


def measured(player, name, words, wanted, source=os.devnull, limit=None):
    """Makes a call, below a limit of memory where there is one, and looks at what it left and what it took."""
    words = ["sh", "-c", f'ulimit -v {limit or "unlimited"}; exec "$0" "$@"', player.program, *words]
    left, seconds, most = ended(words, source)
    player.look(name, words[3:5], wanted, left)
    if seconds > SLOWEST or (most > LARGEST and not limit):
        player.differs(f"it took {seconds:.1f} s and {most / 1e6:.0f} MB")
    print(f"e2e: {seconds:5.2f} s {most / 1e6:5.0f} MB: {name}", flush=True)


def session_of(path, folder):
    """The input of a session that is handed this file."""
    with open(path, "rb") as file:
        pieces = iter(lambda: file.read(2**20), b"")
        return written(f"{folder}/session", chain([b"trace\n"], pieces, [b".\n"]))


def line_feeds(player, folder):
    """The longest text that is read, and one of a byte more, both of line feeds alone."""
    most = written(f"{folder}/most", (b"\n" * 2**20 for _ in range(64)))
    more = written(f"{folder}/more", chain((b"\n" * 2**20 for _ in range(64)), [b"\n"]))
    refused = (4, b"", f"{more}: refused TooLong\n".encode())
    for words in (["merge"], ["gcov", "--test", "t"]):
        measured(player, f"{words[0]}: 64 MiB of line feeds", [*words, most], (0, b"", b""))
        measured(player, f"{words[0]}: a byte more", [*words, more], refused)
    measured(player, "session: 64 MiB of line feeds", [], (0, b"accepted 1 items 0 odd 0\n", b""), session_of(most, folder))
    measured(player, "session: a byte more", [], (0, b"refused TooLong\n", b""), session_of(more, folder))


def strange_numbers(player, folder):
    """Numbers of a million digits."""
    zeros, nines = b"0" * 10**6, b"9" * 10**6
    path = written(f"{folder}/digits", [b"SF:/a.c\nDA:", zeros, b"1,", zeros, b"1\nDA:2,-", nines, b"\nend_of_record\n"])
    text = b"TN:\nSF:/a.c\nDA:1,1\nDA:2,0\nLF:2\nLH:1\nend_of_record\n"
    measured(player, "merge: numbers of a million digits", ["merge", path], (0, text, b""))
    path = written(path, [b"SF:/a.c\nDA:1,", nines, b"\nend_of_record\n"])
    told = f"{path}: refused NumberTooLarge at 2\n".encode()
    measured(player, "merge: a count of a million nines", ["merge", path], (4, b"", told))


def strange_names(player, folder):
    """Patterns of many stars on long paths, and names of bytes that few names have."""
    section = b"TN:\nSF:%s\nDA:1,1\nLF:1\nLH:1\nend_of_record\n"
    both = [section % (b"a" * 10_000), section % (b"a" * 10_000 + b"b")]
    path = written(f"{folder}/long", both)
    stars, pairs = "*" * 1_024, "*a" * 512
    measured(player, "extract: 1,024 stars", ["extract", path, stars], (0, b"".join(both), b""))
    measured(player, "remove: 1,024 stars", ["remove", path, stars], (0, b"", b""))
    measured(player, "extract: 512 times *a", ["extract", path, pairs], (0, both[0], b""))
    measured(player, "remove: 64 patterns of 512 times *a", ["remove", path, *[pairs] * 64], (0, both[1], b""))
    text = b"TN:a\rb\nSF:/\x00\xff\nDA:1,1\nLF:1\nLH:1\nend_of_record\n"
    path = written(f"{folder}/bytes", [text.replace(b"\n", b"\r\r\r\n")])
    measured(player, "merge: CR and the bytes 0 and 255 in names", ["merge", path], (0, text, b""))
    given = written(f"{folder}/session", [b"trace\n", text, b".\nextract /\x00?\nremove *[\xfe-\xff]\n"])
    measured(player, "session: the same in patterns", [], (0, b"accepted 1 items 1 odd 0\n" + text + b".\n.\n", b""), given)


def smallest_sections():
    """64.9 MB of small sections, each of a source file of its own."""
    for first in range(0, 2_000_000, 10_000):
        yield b"".join(b"SF:/%d\nDA:1,1\nend_of_record\n" % it for it in range(first, first + 10_000))


def too_little_memory(player, folder):
    """Where a limit is set, a call that reaches it says so, and prints nothing."""
    path = written(f"{folder}/sections", smallest_sections())
    gone = (3, b"", b"out of memory\n")
    measured(player, "merge: two million sections, a limit", ["merge", path], gone, limit=LIMIT)
    measured(player, "merge: the same by two jobs, twice", ["merge", "--jobs", "2", path, path], gone, limit=LIMIT)
    measured(player, "session: the same", [], gone, session_of(path, folder), limit=LIMIT)


def one_at_a_time(player, folder):
    """A check holds one file at a time, and so does a merge by one job: of ten they need the memory of one."""
    path = written(f"{folder}/records", chain([b"SF:/a.c\n"], (b"DA:1,1\n" * 10_000 for _ in range(300)), [b"end_of_record\n"]))
    line = f"{path}: sections 1 items 3000000 odd 0 skipped 0\n".encode()
    measured(player, "check: 21 MB of records, ten times", ["check", *[path] * 10], (0, line * 10, b""), limit=LIMIT)
    total = b"TN:\nSF:/a.c\nDA:1,30000000\nLF:1\nLH:1\nend_of_record\n"
    measured(player, "merge: the same", ["merge", *[path] * 10], (0, total, b""), limit=LIMIT)


def nothing_of_the_past(player, folder):
    """A session keeps its counts, and nothing of what it was given or has answered: 100 texts of a megabyte here, and as many reports."""
    lines = b"".join(b"DA:%d,1\n" % number for number in range(1, 100_001))
    text = b"SF:/a.c\n" + lines + b"end_of_record\n"
    total = b"TN:\nSF:/a.c\n" + lines.replace(b",1\n", b",100\n") + b"LF:100000\nLH:100000\nend_of_record\n.\n"
    given = written(f"{folder}/session", chain([b"trace\n", text, b".\n"] * 100, [b"report\n"] * 100))
    answers = b"".join(b"accepted %d items 100000 odd 0\n" % number for number in range(1, 101))
    measured(player, "session: 100 texts of a megabyte and 100 reports", [], (0, answers + total * 100, b""), given, limit=FEW_TEXTS)


JOBS = (line_feeds, strange_numbers, strange_names, too_little_memory, one_at_a_time, nothing_of_the_past)
