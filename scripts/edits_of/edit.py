"""An edit: a small wrong change of a crate's text, which the prover has to refuse.

It is a file with lines `file: PATH`, and below each of these pairs of lines `old: TEXT` and `new: TEXT`. A text is one line, and `old:` is in
that file exactly once. So lines keep their numbers, also where several edits are made at once.
"""
import os

REFUSED, NOT_REFUSED, BAD, NOT_TRIED = "refused", "NOT REFUSED", "BAD EDIT", "not tried"


def pairs_of(text):
    """The edit's changes: path, old and new text."""
    pairs, path, old = [], None, None
    for line in text.split("\n"):
        if line.startswith("file: "):
            path = line[len("file: ") :].strip()
        elif line.startswith("old: "):
            old = line[len("old: ") :]
        elif line.startswith("new:"):
            pairs.append((path, old, line[len("new:") :].removeprefix(" ")))
    return pairs


class Edit:
    """An edit, the functions whose check judges it, and what came out of it."""

    def __init__(self, file):
        with open(file, encoding="utf-8", errors="replace") as it:
            self.text = it.read()
        self.file, self.short, self.pairs = file, os.path.basename(file), pairs_of(self.text)
        self.functions, self.shares, self.is_alone, self.is_single = [], False, False, False
        self.verdict, self.why, self.whence = None, "", None

    def find_functions(self, functions, cannot_be_applied):
        """Looks for the functions that judge it. It is to be tried alone where one of its changes has none, or one without a name."""
        judged = [functions.judging(path, old) for path, old, _ in self.pairs]
        found = list(dict.fromkeys(it for those, _ in judged for it in those))
        is_judged = all(those for those, _ in judged) and all(it.name and not it.is_judged_alone() for it in found)
        self.is_alone = cannot_be_applied or not found or not is_judged
        self.functions = [] if self.is_alone else found
        self.shares = not self.is_alone and all(shares for _, shares in judged)

    def settle(self, verdict, why, whence=None):
        """Gives it its verdict, and where that was kept or recorded before."""
        self.verdict, self.why, self.whence = verdict, why, whence

    def applied(self, texts, folder):
        """These texts of files with this edit too, or None where one of its `old:` texts isn't there once."""
        texts = dict(texts)
        for path, old, new in self.pairs:
            if path not in texts:
                with open(f"{folder}/{path}", encoding="utf-8") as file:
                    texts[path] = file.read()
            if texts[path].count(old) != 1:
                return None
            texts[path] = texts[path].replace(old, new)
        return texts
