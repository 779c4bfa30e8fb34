"""Files that are written as `-o` says, and no others.

Each function is a job: it is handed a player and a folder of its own, where `a.info` and `b.info` are tracefiles. They are as they
were after it.
"""
import os, re, signal, stat, subprocess, threading
from e2e_of.made import MERGED, TEXT, lines_of, written
from e2e_of.player import PATIENCE

# Several blocks of output, and the merge of it.
BLOCKS = b"".join(lines_of(b"/a.c", 7, 40_000))
WHOLE = b"TN:\n" + b"".join(lines_of(b"/a.c", 7, 40_000)[:-1]) + b"LF:40000\nLH:7\nend_of_record\n"
NOTHING = (0, b"", b"")

# What is done before a file is written, its name, and its rights after that.
WRITTEN = (
    # A new file has the rights that the umask leaves, another one keeps its own, also where they forbid to write it.
    ("umask 027", "new.info", 0o640), ("umask 027", "new.info", 0o640), ("chmod 604 new.info", "new.info", 0o604),
    ("chmod 444 new.info", "new.info", 0o444), ("chmod 600 new.info; umask 0", "new.info", 0o600),
    ("chmod 777 new.info; umask 077", "new.info", 0o777),
    # But no set-id bits.
    ("chmod 4755 new.info", "new.info", 0o755), ("chmod 6751 new.info", "new.info", 0o751),
    # A link stays one, also one to a link, and the file that it leads to is replaced.
    ("ln -s new.info link; mkdir way; ln -s ../link way/link; chmod 640 new.info", "way/link", 0o640),
    (":", "way/../new.info", 0o640), (":", "./new.info", 0o640), ("cd way", "../link", 0o640),
    # A link that leads to nothing has no rights.
    ("ln -s nothing lost", "lost", None), ("ln -s round round", "round", None),
    # Standard output may be closed or full, and gets nothing; so may standard input.
    ("exec >&- <&-", "new.info", 0o640), ("exec >/dev/full", "new.info", 0o640),
)


def rights_and_links(player, folder):
    """Rights and links, and standard output, which isn't touched."""
    for before, name, rights in WRITTEN:
        told = b"" if rights else f"{name}: can't write\n".encode()
        player.shell("written", folder, f'{before}; exec "$0" merge {folder}/b.info -o {name}', (1 if told else 0, b"", told))
        path = f"{folder}/way/{name}" if before == "cd way" else f"{folder}/{name}"
        if rights:
            player.look_into(path, WHOLE)
            found = os.stat(path).st_mode & 0o7777
            if found != rights:
                player.differs(f"the rights are {found:o}, and have to be {rights:o}")
        elif not os.path.islink(path) or os.path.exists(path):
            player.differs("the link has changed")
    if [os.readlink(f"{folder}/{it}") for it in ("way/link", "link")] != ["../link", "new.info"]:
        player.differs("the links have changed")
    # Another name of the old file keeps the old bytes. The shell's input is left to the next program.
    os.link(f"{folder}/new.info", f"{folder}/other.info")
    player.shell("input", folder, '"$0" merge -o new.info a.info a.info; cat', (0, b"left\n", b""), b"left\n")
    player.look_into(f"{folder}/new.info", MERGED)
    player.look_into(f"{folder}/other.info", WHOLE)


def owners(player, folder):
    """Owner and group stay, if the caller may give them: root may, others some groups."""
    path = written(f"{folder}/new.info", [TEXT])
    user = os.geteuid()
    groups = [4321] if user == 0 else sorted({*os.getgroups()} - {os.stat(path).st_gid})[:1]
    wanted = [(owner, group, rights) for group in groups for owner, rights in {(user, 0o660), (user, 0o604), (1234 if user == 0 else user, 0o640)}]
    try:
        for it in wanted:
            keeps_owner(player, folder, path, it)
    except PermissionError:
        wanted = []
    if not wanted:
        print("e2e: not tried: an owner and a group that stay: this user may give none", flush=True)


def keeps_owner(player, folder, path, wanted):
    owner, group, rights = wanted
    os.chown(path, owner, group)
    os.chmod(path, rights)
    player.shell("owner", folder, 'exec "$0" merge -o new.info b.info', NOTHING)
    player.look_into(path, WHOLE)
    found = os.stat(path)
    if (found.st_uid, found.st_gid, found.st_mode & 0o7777) != wanted:
        player.differs(f"{found.st_uid}:{found.st_gid} {found.st_mode & 0o7777:o} in place of {owner}:{group} {rights:o}")


def devices_and_pipes(player, folder):
    """Devices and pipes aren't replaced."""
    os.mkfifo(f"{folder}/pipe")
    for name, status, output, told in (
        ("/dev/null", 0, b"", b""), ("/dev/full", 1, b"", b"/dev/full: can't write\n"), ("pipe", 0, WHOLE, b""),
    ):
        reads = "timeout 30 cat pipe &" if name == "pipe" else ""
        player.shell("device", folder, f'{reads} "$0" merge b.info -o {name}; status=$?; wait; exit $status', (status, output, told))
    if not stat.S_ISFIFO(os.stat(f"{folder}/pipe").st_mode):
        player.differs("the pipe has gone")


def streams(player, folder):
    """Names of standard output mean that there is no file. Other streams are appended to."""
    for name in ("/dev/stdout", "/dev/fd/1", "/proc/self/fd/1"):
        player.shell("stream", folder, f'exec "$0" merge b.info -o {name}', (0, WHOLE, b""))
        for before, to, text in ((b"", ">log", b"before\n" + WHOLE + b"after\n"), (b"old\n", ">>log", b"old\nbefore\n" + WHOLE + b"after\n")):
            written(f"{folder}/log", [before])
            script = f'{{ echo before; "$0" merge b.info -o {name}; status=$?; echo after; }} {to}; exit $status'
            player.shell("stream", folder, script, NOTHING)
            player.look_into(f"{folder}/log", text)
        for to in (">/dev/full", ">&-"):
            player.shell("stream", folder, f'exec "$0" merge a.info -o {name} {to}', (1, b"", b"write fault\n"))
    for name in ("/dev/stderr", "/dev/fd/2", "/proc/self/fd/2"):
        player.shell("stream", folder, f'exec "$0" merge b.info -o {name}', (0, b"", WHOLE))
    # Without append the text would stand in place of what is there.
    for name, to in (("/dev/stderr", "2>log >&2"), ("/proc/self/fd/2", "2>log >&2"), ("/dev/fd/3", "3>log >&3")):
        written(f"{folder}/log", [])
        player.shell("stream", folder, f'{{ echo before; "$0" merge b.info -o {name}; }} {to}', NOTHING)
        player.look_into(f"{folder}/log", b"before\n" + WHOLE)
    player.shell("stream", folder, 'exec "$0" merge a.info -o /dev/fd/9 9>&-', (1, b"", b"/dev/fd/9: can't write\n"))
    os.remove(f"{folder}/log")
    player.holds(folder, {"a.info": TEXT, "b.info": BLOCKS})


def failed_writes(player, folder):
    """A write fails after a beginning: an old file stays as it was, a new one isn't there. A limit on the length of files does it."""
    written(f"{folder}/old.info", [TEXT])
    for limit in (1, 200):
        for name in ("old.info", "new.info", "./old.info"):
            for words in ("merge b.info", "merge -j 2 b.info b.info"):
                told = f"{name}: can't write\n".encode()
                player.shell("failed", folder, f'trap "" XFSZ; ulimit -f {limit}; exec "$0" {words} -o {name}', (1, b"", told))
                player.holds(folder, {"a.info": TEXT, "b.info": BLOCKS, "old.info": TEXT})
    os.symlink("old.info", f"{folder}/link")
    player.shell("failed", folder, 'trap "" XFSZ; ulimit -f 1; exec "$0" merge b.info -o link', (1, b"", b"link: can't write\n"))
    player.holds(folder, {"a.info": TEXT, "b.info": BLOCKS, "old.info": TEXT, "link": TEXT})


def killed_writes(player, folder):
    """Where its signal isn't ignored, a limit on the length of files ends a call: nothing is told, the old file is as it was, and the part file stays."""
    written(f"{folder}/old.info", [TEXT])
    words = ["sh", "-c", 'ulimit -c 0; ulimit -f 1; exec "$0" merge b.info -o old.info', player.program]
    ran = subprocess.run(words, cwd=folder, capture_output=True, timeout=PATIENCE)
    player.look("killed", words[2:3], (-signal.SIGXFSZ, b"", b""), (ran.returncode, ran.stdout, ran.stderr))
    parts = [it for it in os.listdir(folder) if re.fullmatch(r"old\.info\.[0-9a-f]{16}\.part", it)]
    if len(parts) != 1:
        player.differs(f"there are the part files {parts}, and there has to be one")
    for it in parts:
        os.remove(f"{folder}/{it}")
    player.holds(folder, {"a.info": TEXT, "b.info": BLOCKS, "old.info": TEXT})


def untouched_folders(player, folder):
    """No part file is made for an empty name, and none before all inputs are read. The folder's time tells it."""
    written(f"{folder}/cut.info", [b"SF:/a.c\nDA:1,1\n"])
    for words, status, told in (
        ("merge a.info -o ''", 1, b": can't write\n"), ("summary --json --output= a.info", 1, b": can't write\n"),
        ("merge -o new.info a.info none.info", 1, b"none.info: can't read\n"), ("merge -o a.info a.info cut.info", 4, b"cut.info: refused OpenEnd\n"),
        ("summary --fail-under-lines 101 -o new.info a.info", 2, b"BadRate\n"), ("list -o /dev/stdout a.info cut.info", 4, b"cut.info: refused OpenEnd\n"),
        ("merge --strict -o a.info a.info /dev/null", 5, b"/dev/null: sections 0 items 0 odd 0 skipped 0\n"),
        ("remove --strict -o new.info a.info '/b.*'", 5, b"/b.*: matches no file\n"),
    ):
        os.utime(folder, (1, 1))
        player.shell("untouched", folder, f'exec "$0" {words}', (status, b"", told))
        if os.stat(folder).st_mtime != 1:
            player.differs("a file was made")
    os.mkfifo(f"{folder}/pipe")
    for name in ("new.info", "a.info"):
        while_it_reads(player, folder, name)
    written(f"{folder}/a.info", [TEXT])


def while_it_reads(player, folder, name):
    """The last input is a pipe that nobody writes to until the folder was looked at."""
    names = sorted(os.listdir(folder))
    words = [player.program, "merge", "a.info", "pipe", "-o", name]
    player.row(f"untouched: {' '.join(words)}")
    ran = subprocess.Popen(words, cwd=folder, stdin=subprocess.DEVNULL, stdout=subprocess.PIPE, stderr=subprocess.PIPE)
    watch = threading.Timer(PATIENCE, ran.kill)
    watch.start()
    # This waits for the call to open the pipe.
    with open(f"{folder}/pipe", "wb") as pipe:
        found = sorted(os.listdir(folder))
        if found != names:
            player.differs(f"while the call reads, there are {found}, and have to be {names}")
        player.look_into(f"{folder}/a.info", TEXT)
        pipe.write(TEXT)
    output, told = ran.communicate()
    watch.cancel()
    player.compare(NOTHING, (ran.returncode, output, told))
    player.look_into(f"{folder}/{name}", MERGED)
    player.no_part(folder)
    if name == "new.info":
        os.remove(f"{folder}/{name}")


def names_as_they_are(player, folder):
    """In a folder whose name isn't UTF-8 a file is made and then replaced. A link is followed by its absolute path."""
    inner = os.fsencode(folder) + b"/\xff\xfe"
    os.mkdir(inner)
    inputs = f"{folder}/a.info {folder}/a.info"
    for _ in range(2):
        player.shell("names", inner, f'exec "$0" merge {inputs} -o out.info', NOTHING)
        player.holds(inner, {"out.info": MERGED})
        written(inner + b"/out.info", [TEXT])
    os.symlink("out.info", inner + b"/link")
    player.shell("names", inner, f'exec "$0" merge {inputs} -o link', (1, b"", b"link: can't write\n"))
    player.holds(inner, {"out.info": TEXT, "link": TEXT})
    # A name with a minus, and one of a folder that the shell would read otherwise.
    player.shell("names", folder, f'mkdir "a b"; exec "$0" merge {inputs} -o "a b/-o"', NOTHING)
    player.holds(f"{folder}/a b", {"-o": MERGED})
    player.shell("names", f"{folder}/a b", f'exec "$0" merge {inputs} -o-o', NOTHING)
    player.holds(f"{folder}/a b", {"-o": MERGED})


def between_tracefiles(part):
    """The part as a job, with two tracefiles in its folder, which are as they were after it."""

    def job(player, folder):
        written(f"{folder}/a.info", [TEXT])
        written(f"{folder}/b.info", [BLOCKS])
        part(player, folder)
        player.look_into(f"{folder}/a.info", TEXT)
        player.look_into(f"{folder}/b.info", BLOCKS)

    job.__name__ = part.__name__
    return job


JOBS = tuple(
    map(between_tracefiles, (rights_and_links, owners, devices_and_pipes, streams, failed_writes, killed_writes, untouched_folders, names_as_they_are))
)
