"""Runs checks side by side, those of the longest crates first, as far as there is memory: a check takes 1 to 4 GB."""
import contextlib
import re
import tempfile
import threading
import time
from concurrent.futures import ThreadPoolExecutor

# The memory that has to be there for a check that begins, in kB, and the seconds after which it has taken what it takes. Proofs beside it may grow too.
NEEDED, GROWS = 6_000_000, 60
# How many checks may wait for their turn.
MOST_WAITING = 200


def available():
    """The memory that the machine has left, in kB."""
    with open("/proc/meminfo", encoding="utf-8") as file:
        return int(re.search(r"MemAvailable: *(\d+)", file.read())[1])


class Lanes:
    """So many lanes, which the checks of all crates share. A check of the longest crate is next, since the run would wait for it at the end."""

    def __init__(self, number):
        # How many crates use the lanes now, when each check began that runs now, and the lengths of the crates whose checks wait.
        self.number, self.crates, self.running, self.waiting = number, 0, [], []
        self.turn = threading.Condition()
        self.pool = ThreadPoolExecutor(number + MOST_WAITING)

    def __enter__(self):
        return self

    def __exit__(self, fault, *_):
        self.pool.shutdown(wait=fault is None, cancel_futures=True)

    def has_room(self, length):
        if len(self.running) >= self.number or length < max(self.waiting):
            return False
        young = [it for it in self.running if it > time.monotonic() - GROWS]
        return not self.running or available() >= NEEDED * (1 + len(young))

    @contextlib.contextmanager
    def room(self, length):
        """Waits for a lane, and for the memory that one check more takes. The length is that of the check's crate."""
        with self.turn:
            self.waiting.append(length)
            while not self.has_room(length):
                self.turn.wait(5)
            self.waiting.remove(length)
            begun = time.monotonic()
            self.running.append(begun)
            self.turn.notify_all()
        try:
            yield
        finally:
            with self.turn:
                self.running.remove(begun)
                self.turn.notify_all()


class CrateLanes:
    """The lanes as one crate uses them: each of its checks gets a folder, in which what its checks have in common is kept."""

    def __init__(self, lanes, length):
        self.lanes, self.length, self.made, self.free = lanes, length, [], []

    def __enter__(self):
        with self.lanes.turn:
            self.lanes.crates += 1
        return self

    @property
    def number(self):
        """How many lanes there are for each crate that uses some now. More checks at once would only load the libraries more often."""
        return max(1, self.lanes.number // self.lanes.crates)

    def __exit__(self, *_):
        with self.lanes.turn:
            self.lanes.crates -= 1
        for it in self.made:
            it.cleanup()

    def run(self, tasks):
        """Runs the tasks, each given a folder, and returns what they return, in their order."""
        return list(self.lanes.pool.map(self.in_lane, tasks))

    def in_lane(self, task):
        with self.lanes.room(self.length):
            folder = self.folder()
            try:
                return task(folder)
            finally:
                self.free.append(folder)

    def folder(self):
        """A folder that no other check of the crate has now."""
        with self.lanes.turn:
            if not self.free:
                self.made.append(tempfile.TemporaryDirectory(prefix="edits-lane-"))
                self.free.append(self.made[-1].name)
            return self.free.pop()
