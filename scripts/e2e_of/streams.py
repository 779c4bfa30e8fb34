"""What no function over streams shows, and only a call of a program does: pipes, disks that are full, streams that are closed, words.

Each function is a job: it is handed a player and a folder of its own, where `a.info` is a tracefile.
"""
import os, re, select, subprocess, threading, time
from e2e_of.made import MERGED, TEXT, written
from e2e_of.player import PATIENCE

LOST = (1, b"", b"write fault\n")


def a_pipe(player, folder):
    """A pipe is a file like others."""
    for command in ("merge", "combine"):
        player.shell("pipe", folder, f'cat {folder}/a.info | "$0" {command} {folder}/a.info /dev/stdin', (0, MERGED, b""))
    merged = b"TN:\nSF:/a.c\nDA:1,3\nLF:1\nLH:1\nend_of_record\n"
    player.shell("pipe", folder, r"printf 'SF:/a.c\nDA:1,3\nend_of_record\n' | "'"$0" merge --jobs=4 /proc/self/fd/0', (0, merged, b""))


def lost_outputs(player, folder):
    """A disk that is full, and a standard output that is closed: told, and the status says so."""
    for command in ("merge", "check"):
        for end in (">/dev/full", ">&-"):
            player.shell("output", folder, f'"$0" {command} {folder}/a.info {end}', LOST)


def lost_overviews(player, folder):
    """A tracefile that `combine` wrote is there, though standard output is lost, and the last line says so."""
    lost = "standard output can't be written"
    for end in (">/dev/full", ">&-"):
        for words, told in (
            ("a.info", lost), ("--exclude x a.info", f"warning: --exclude x: matches no source file\n{lost}"),
            ("-o out.info a.info", f"{lost}, but out.info is"),
        ):
            player.shell("combine", folder, f'"$0" combine {words} {end}', (1, b"", f"{told}\n".encode()))
        player.look_into(f"{folder}/out.info", TEXT)


def one_file_by_two_names(player, folder):
    """Links lead to one file, which `combine` takes once. A copy is another file."""
    os.symlink("a.info", f"{folder}/symbolic.info")
    os.link(f"{folder}/a.info", f"{folder}/hard.info")
    for name in ("symbolic.info", "hard.info"):
        told = f"{name}: the same file as a.info\n".encode()
        player.shell("link", folder, f'"$0" combine -o out.info a.info {name}', (2, b"", told))
        player.shell("link", folder, f'printf "{name}\\n" | "$0" combine --files-from - a.info', (2, b"", told))
    player.shell("copy", folder, 'cp a.info copy.info; "$0" combine a.info copy.info', (0, MERGED, b""))


def shown_on(terminal, seconds, until=None):
    """What is written to a terminal for so long, or until this is."""
    shown, end = b"", time.monotonic() + seconds
    while (left := end - time.monotonic()) > 0 and not (until and until in shown):
        if select.select([terminal], [], [], left)[0]:
            try:
                shown += os.read(terminal, 65536)
            except OSError:
                break
    return shown


def on_a_terminal(player, folder):
    """A terminal shows how much is read while a file is slow. The line is erased in the end; with -q there is none."""
    os.mkfifo(f"{folder}/slow")
    for words, wanted in ((["combine"], rb"(\r[12] of 2 files, 0 of 0 MB(, 0 s left)?\x1b\[K)+\r\x1b\[K"), (["combine", "--quiet"], rb"")):
        words = [player.program, *words, "a.info", "slow"]
        terminal, end = os.openpty()
        ran = subprocess.Popen(words, cwd=folder, stdout=subprocess.PIPE, stderr=end)
        os.close(end)
        shown = shown_on(terminal, PATIENCE if wanted else 1, b"\x1b[K")
        written(f"{folder}/slow", [TEXT])
        output = ran.communicate(timeout=PATIENCE)[0]
        shown += shown_on(terminal, PATIENCE)
        os.close(terminal)
        player.look("terminal", words, (0, MERGED, True), (ran.returncode, output, bool(re.fullmatch(wanted, shown)) or shown))


def many_files(player, folder):
    """A thousand files in one call."""
    merged, names = [], []
    for number in sorted(range(1000), key=str):
        section = f"SF:/{number}.c\nDA:1,{number}\nLF:1\nLH:{min(number, 1)}\nend_of_record\n"
        merged.append("TN:\n" + section)
        names.append(f"{number}.info")
        written(f"{folder}/{number}.info", [section.encode()])
    for call in ("merge --jobs 4", "combine --expect 1000"):
        player.shell("thousand", folder, f'"$0" {call} "$@"', (0, "".join(merged).encode(), b""), words=reversed(names))


def told_before_the_next(player, folder):
    """A check tells of a file before it reads the next one, here a pipe that nobody writes to until then."""
    words = [player.program, "check", f"{folder}/a.info", f"{folder}/pipe"]
    os.mkfifo(f"{folder}/pipe")
    ran = subprocess.Popen(words, stdout=subprocess.PIPE, stderr=subprocess.PIPE)
    watch = threading.Timer(PATIENCE, ran.kill)
    watch.start()
    first = ran.stdout.readline()
    threading.Thread(target=written, args=(f"{folder}/pipe", [b"DA:1,1\n"]), daemon=True).start()
    output, told = ran.communicate()
    watch.cancel()
    wanted = f"{folder}/a.info: sections 1 items 2 odd 0 skipped 0\n{folder}/pipe: refused Outside at 1\n".encode()
    player.look("lines", words, (4, wanted, b""), (ran.returncode, first + output, told))


def lost_sessions(player, folder):
    """A session whose input is closed, and one whose output is."""
    player.shell("input", folder, '"$0" <&-', (1, b"", b"read fault\n"))
    player.shell("session", folder, 'echo summary | "$0" >/dev/full', LOST)


def strange_words(player, folder):
    """Words that aren't text, of which the first is told; a word that is, and is none of ASCII; words that are long."""
    for bad, told in (
        ([b"merge", b"a\xff.info"], b"error: word 3 isn't UTF-8: a?.info\n"),
        ([b"\xfe"], b"error: word 2 isn't UTF-8: ?\n"),
        ([b"merge", "\u00e9.info".encode(), b"\xc3(\x07 ~\x7f", b"\xff"], b"error: word 4 isn't UTF-8: ?(? ~?\n"),
        ([b"summary", b"x" * 70000 + b"\x80"], b"error: word 3 isn't UTF-8: " + b"x" * 70000 + b"?\n"),
    ):
        player.call("word", folder, [player.program, *bad], (2, b"", told))
    player.call("long", folder, [player.program, b"merge", b"x" * 70000], (1, b"", b"x" * 70000 + b": can't read\n"))


def whole_or_nothing(player, folder):
    """Texts come out whole or not at all, and a subcommand leaves its input to the next program."""
    written(f"{folder}/b.info", [b"DA:1,1\n"])
    script = '"$0" merge --jobs 2 a.info b.info; echo $?; cat'
    player.shell("whole", folder, script, (0, b"4\nleft\n", b"b.info: refused Outside at 1\n"), b"left\n")


def beside_a_tracefile(part):
    """The part as a job, with a tracefile in its folder."""

    def job(player, folder):
        written(f"{folder}/a.info", [TEXT])
        part(player, folder)

    job.__name__ = part.__name__
    return job


PARTS = (
    a_pipe, lost_outputs, lost_overviews, one_file_by_two_names, on_a_terminal, many_files, told_before_the_next, lost_sessions, strange_words,
    whole_or_nothing,
)
JOBS = tuple(map(beside_a_tracefile, PARTS))
