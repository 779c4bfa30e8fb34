"""What bench/all measures with: programs that run under a small parent, and tables of results."""
import datetime
import filecmp
import os
import platform
import shutil
import subprocess
import sys
import time
from typing import NamedTuple

HERE = os.path.dirname(os.path.abspath(__file__))
ROOT = os.path.dirname(HERE)
START = time.monotonic()


def say(words):
    spent = int(time.monotonic() - START)
    print(f"{spent // 60:3}:{spent % 60:02}  {words}", file=sys.stderr, flush=True)


def fail(words):
    sys.exit(f"bench: {words}")


class Run(NamedTuple):
    """What one run of a program took: seconds, and bytes of memory at its peak."""

    status: int
    user: float
    system: float
    clock: float
    peak: int

    @property
    def processor(self):
        return self.user + self.system


class Call(NamedTuple):
    """A program to measure: what it is called in the tables, its words, and its standard input and output."""

    name: str
    words: list
    output: str
    input: str = os.devnull
    status: int = 0
    turns: int = 3


class Machine:
    """Runs calls, and keeps what of them is known once: the tools, the programs, the folder for texts."""

    def __init__(self, program, build, work):
        self.program, self.work = program, work
        self.yardstick, self.timed = f"{build}/yardstick", f"{build}/timed"

    def run(self, call):
        words = [self.timed, call.input, call.output, *call.words]
        with open(f"{self.work}/words", "w+b") as told:
            ended = subprocess.run(words, stdout=subprocess.PIPE, stderr=told, check=False)
            told.seek(0)
            said = told.read(300).decode("utf-8", "replace").strip()
        if ended.returncode:
            fail(f"{call.words[0]} can't be run: {said}")
        status, user, system, clock, peak = ended.stdout.split()
        run = Run(int(status), float(user), float(system), float(clock), int(peak))
        if run.status != call.status:
            fail(f"{' '.join(call.words)[:200]}: status {run.status} and not {call.status}: {said}")
        return run

    def best(self, calls, turns):
        """The run of each call that took the least processor time; the calls run by turns."""
        least = {}
        for turn in range(turns):
            for call in calls:
                if turn < call.turns:
                    run = self.run(call)
                    held = least.get(call.name, run)
                    least[call.name] = min(held, run, key=lambda run: run.processor)
        return least

    def make(self, words, output):
        """Starts a script of this folder that writes a text."""
        with open(output, "wb") as to:
            return subprocess.Popen([sys.executable, f"{HERE}/{words[0]}", *map(str, words[1:])], stdout=to)

    def make_all(self, texts):
        """Writes texts, as many at once as there are cores: pairs of a script's words and a file."""
        running = []
        for words, output in texts:
            if len(running) == (os.cpu_count() or 1):
                self.ended(running.pop(0))
            running.append(self.make(words, output))
        for process in running:
            self.ended(process)
        return [output for _, output in texts]

    @staticmethod
    def ended(process):
        if process.wait():
            fail(f"{' '.join(process.args)} failed")


def same(first, second):
    if not filecmp.cmp(first, second, shallow=False):
        fail(f"{first} and {second} differ: the programs print different texts")


def told(words):
    """The first line that a program says, if any, or that it isn't there."""
    try:
        ended = subprocess.run(words, capture_output=True, text=True, check=False, cwd=ROOT)
    except OSError:
        return "not installed"
    return (ended.stdout.strip() or ended.stderr.strip()).partition("\n")[0]


def about_machine(program, command, sizes):
    """What every table of results begins with."""
    with open("/proc/cpuinfo", encoding="utf-8") as text:
        models = [line.split(":", 1)[1].strip() for line in text if line.startswith("model name")]
    with open("/proc/meminfo", encoding="utf-8") as text:
        memory = next(int(line.split()[1]) for line in text if line.startswith("MemTotal"))
    # the results and their document are written anew anyway
    changed = told(["git", "status", "--porcelain", "--untracked-files=no", "--", ".", ":!bench/results", ":!docs"])
    commit = told(["git", "rev-parse", "--short=12", "HEAD"])
    return {
        "date": datetime.datetime.now(datetime.timezone.utc).strftime("%Y-%m-%d %H:%M UTC"),
        "kernel": f"{platform.system()} {platform.release()}",
        "processor": models[0] if models else platform.machine(),
        "cores": str(os.cpu_count()),
        "memory": f"{memory / 1e6:.1f} GB",
        "load before": f"{os.getloadavg()[0]:.2f}",
        "toolchain": told(["rt", "version"]),
        "rustc": told(["rustc", "--version"]),
        "lcov": told(["lcov", "--version"]).replace("lcov: LCOV version ", ""),
        "grcov": told(["grcov", "--version"]).replace("grcov ", ""),
        "valgrind": told(["valgrind", "--version"]),
        "commit": f"{commit} with changes" if changed else commit,
        "program": os.path.relpath(program, ROOT),
        "command": command,
        "sizes": sizes,
    }


COLUMNS = ("kind", "size", "files", "bytes", "program", "user", "system", "clock", "peak", "instructions")


class Table:
    """A file of results, which has its name once it is whole. A cell where no number stands has `-`."""

    def __init__(self, folder, name, head):
        self.name = f"{folder}/{name}.tsv"
        with open(f"{self.name}.new", "w", encoding="utf-8") as to:
            to.writelines(f"# {key}: {value}\n" for key, value in head.items())
            to.write("# user, system, clock: seconds; bytes, peak: bytes; instructions: counted by callgrind\n")
            to.write("\t".join(COLUMNS) + "\n")

    def add(self, kind, size, files, length, program, run, instructions="-"):
        row = [kind, size, files, length, program, f"{run.user:.4f}", f"{run.system:.4f}", f"{run.clock:.4f}", run.peak, instructions]
        with open(f"{self.name}.new", "a", encoding="utf-8") as to:
            to.write("\t".join(map(str, row)) + "\n")

    def close(self):
        os.replace(f"{self.name}.new", self.name)


def read_table(folder, name):
    """The head of a file of results, and its rows with numbers where numbers stand."""
    head, rows = {}, []
    try:
        with open(f"{folder}/{name}.tsv", encoding="utf-8") as text:
            lines = text.read().splitlines()
    except OSError:
        return {}, []
    for line in lines:
        if line.startswith("# "):
            key, _, value = line[2:].partition(": ")
            head[key] = value
            continue
        cells = line.split("\t")
        if cells[0] == "kind":
            continue
        row = dict(zip(COLUMNS, cells))
        for column in ("size", "files", "bytes", "peak", "instructions"):
            row[column] = None if row[column] == "-" else int(row[column])
        row["clock"] = float(row["clock"])
        row["processor"] = float(row["user"]) + float(row["system"])
        rows.append(row)
    return head, rows


def wanted(tool):
    if not shutil.which(tool):
        fail(f"{tool} is missing")
