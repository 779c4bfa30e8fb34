"""Makes calls of the program, and keeps what differs from what they have to leave.

A Player is handed to each job of scripts/e2e. Its rows are the calls, sessions and random sets that were played, each with what
differed.
"""
import os, subprocess

# How long a call may take, in seconds, beside all others.
PATIENCE = 120


def shown(words):
    texts = [it.decode(errors="backslashreplace") if isinstance(it, bytes) else it for it in words]
    return " ".join(it if len(it) < 100 else f"{it[:90]}.. ({len(it)} characters)" for it in texts)


def difference(given, wanted):
    """What two texts have, or what they have from the first byte on that differs."""
    if not isinstance(given, bytes) or not isinstance(wanted, bytes) or max(len(given), len(wanted)) < 1000:
        return f"is {given!r}, and has to be {wanted!r}"
    at = next((at for at, (one, other) in enumerate(zip(given, wanted)) if one != other), min(len(given), len(wanted)))
    return f"has from byte {at} on {given[at:at + 200]!r}, and has to have {wanted[at:at + 200]!r} (of {len(given)} bytes and of {len(wanted)})"


def fits(given, wanted):
    """A wanted text that ends in `...` and a line feed is only the beginning of what has to be given."""
    is_beginning = isinstance(wanted, bytes) and wanted.endswith(b"...\n")
    return given.startswith(wanted[:-4]) if is_beginning else given == wanted


class Player:
    def __init__(self, program):
        self.program = program
        self.rows = []

    def row(self, name):
        """Begins a row. What differs from now on is said of it."""
        self.rows.append((name, []))

    def differs(self, what):
        if not self.rows:
            self.row("before the first call")
        self.rows[-1][1].append(what)

    def compare(self, wanted, ended):
        """Compares what a call left with what it has to leave: status, output, faults."""
        for what, given, text in zip(("status", "output", "faults"), ended, wanted):
            if not fits(given, text):
                self.differs(f"the {what} {difference(given, text)}")

    def look(self, name, words, wanted, ended):
        """A row of a call that was made already."""
        self.row(f"{name}: {shown(words)}")
        self.compare(wanted, ended)

    def look_into(self, path, text, where=""):
        """Compares what a file holds with what it has to hold. What differs is said of the call before."""
        try:
            with open(path, "rb") as file:
                held = file.read()
        except OSError as fault:
            held = fault
        if held != text:
            self.differs(f"{where}{shown([path])} {difference(held, text)}")

    def holds(self, folder, wanted):
        """A folder has exactly these files, with these bytes."""
        there = set(os.listdir(os.fsencode(folder)))
        if there != {os.fsencode(it) for it in wanted}:
            self.differs(f"there are {sorted(there)}, and have to be {sorted(wanted)}")
        for it, text in wanted.items():
            self.look_into(os.path.join(os.fsencode(folder), os.fsencode(it)), text)

    def no_part(self, folder):
        """No file or folder that isn't finished is left in a folder, or below it."""
        left = [it for _, folders, names in os.walk(os.fsencode(folder)) for it in (*folders, *names) if it.endswith((b".part", b".old"))]
        if left:
            self.differs(f"{left} is left in {folder}")

    def ended(self, folder, words, text=b""):
        """What a call of these words in a folder leaves, of which the first is only what the program is told that its name is."""
        ran = subprocess.run(words, executable=self.program, cwd=folder, input=text, capture_output=True, timeout=PATIENCE)
        return ran.returncode, ran.stdout, ran.stderr

    def call(self, name, folder, words, wanted, text=b""):
        """A row of a call in a folder, where no part file may be left."""
        self.row(f"{name}: {shown(words)}")
        self.compare(wanted, self.ended(folder, words, text))
        self.no_part(folder)

    def shell(self, name, folder, script, wanted, text=b"", words=()):
        """A row of a script of the shell in a folder, where no part file may be left. `$0` is the program, `$@` are the words."""
        self.row(f"{name}: {script}")
        ran = subprocess.run(["sh", "-c", script, self.program, *words], cwd=folder, input=text, capture_output=True, timeout=PATIENCE)
        self.compare(wanted, (ran.returncode, ran.stdout, ran.stderr))
        self.no_part(folder)
