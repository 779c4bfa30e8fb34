"""What the tests of scripts share: a small repository in a temporary folder, with copies of scripts, and the count of what was tried."""
import os
import shutil

SCRIPTS = os.path.dirname(os.path.dirname(os.path.realpath(__file__)))


class Repository:
    """A small repository of these files, with a copy of these scripts and folders of scripts/."""

    def __init__(self, top, files, scripts):
        self.top = top
        for path, text in files.items():
            self.write(path, text)
        for it in scripts:
            whole = os.path.isdir(f"{SCRIPTS}/{it}")
            os.makedirs(f"{top}/scripts", exist_ok=True)
            (shutil.copytree if whole else shutil.copy)(f"{SCRIPTS}/{it}", f"{top}/scripts/{it}")

    def write(self, path, text):
        os.makedirs(os.path.dirname(f"{self.top}/{path}"), exist_ok=True)
        with open(f"{self.top}/{path}", "w", encoding="utf-8") as file:
            file.write(text)

    def change(self, path, old, new):
        with open(f"{self.top}/{path}", encoding="utf-8") as file:
            text = file.read()
        assert text.count(old) == 1, f"{old} isn't in {path} once"
        self.write(path, text.replace(old, new))


class Tests:
    """Tells of each thing that was tried, and counts."""

    def __init__(self):
        self.passed = self.failed = 0

    def see(self, what, is_so):
        self.passed, self.failed = self.passed + bool(is_so), self.failed + (not is_so)
        print(f"{'passed' if is_so else 'FAILED'}: {what}", flush=True)

    def see_said(self, what, said, name, *parts):
        self.see(what, all(it in said.get(name, "") for it in parts))

    def end(self):
        """Prints the closing line, and returns the exit status."""
        print(f"{self.passed} passed, {self.failed} failed")
        return 1 if self.failed else 0
