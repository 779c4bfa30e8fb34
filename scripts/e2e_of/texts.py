"""The text files of e2e/: scripts of calls, and sessions. scripts/e2e says how they are written.

    scripts_of(folder), sessions_of(folder)

What is written wrongly raises Malformed, which says where. Escapes stand for long texts too, so lines are kept as they are written,
and are decoded when they are played.
"""
import os, re
from dataclasses import dataclass, field

ESCAPE = re.compile(rb"\\(?:([\\trn])|x([0-9a-f]{2})|([0-9])|\{([0-9]+)\*([^{}\\]+)\})")
LETTERS = {b"\\": b"\\", b"t": b"\t", b"r": b"\r", b"n": b"\n"}
# The end of a line that has no line feed: `\c`, whose backslash isn't an escaped one.
NO_LINE_FEED = re.compile(rb"(?<!\\)(?:\\\\)*\\c$")


class Malformed(Exception):
    """A file of e2e/ that isn't written as it has to be."""


def decoded(text, row=()):
    """What a text with escapes stands for. `\\0` is the row, `\\1` and so on are its words."""

    def meant(found):
        letter, byte, number, times, repeated = found.groups()
        if letter:
            return LETTERS[letter]
        if byte:
            return bytes.fromhex(byte.decode())
        return row[int(number)] if number else repeated * int(times)

    return ESCAPE.sub(meant, text)


def line_of(text, row=()):
    """A line with its line feed, or without it where the line says so."""
    return decoded(text[:-2], row) if NO_LINE_FEED.search(text) else decoded(text, row) + b"\n"


def fits(text, row=()):
    """Each backslash of the text begins an escape, and the row has what the escapes name."""
    named = [int(number) for _, _, number, _, _ in ESCAPE.findall(text) if number]
    return b"\\" not in ESCAPE.sub(b"", text) and all(number < len(row) for number in named)


def marked(line, marks):
    """The mark that a line begins with, and what comes after its space. A mark alone has nothing after it."""
    mark, _, rest = line.partition(b" ")
    return (mark.decode(), rest) if mark in marks else ("", line)


@dataclass
class Part:
    """What comes after a line `### NAME`: each line with its number."""

    file: str
    number: int
    name: str
    lines: list = field(default_factory=list)

    def malformed(self, number, why):
        return Malformed(f"{self.file}:{number}: {self.name}: {why}")

    def check_line(self, number, text, row=()):
        self.check(number, text[:-2] if NO_LINE_FEED.search(text) else text, row)

    def check(self, number, text, row=()):
        if not fits(text, row):
            raise self.malformed(number, f"an escape that isn't one: {text.decode(errors='replace')}")


def parts_of(folder, ending):
    """The parts of each file with this ending, of which there is at least one."""
    parts = []
    for name in sorted(os.listdir(folder)):
        if not name.endswith(ending):
            raise Malformed(f"{folder}/{name}: no file of this folder has such a name")
        found = parts_of_file(f"{folder}/{name}")
        if not found:
            raise Malformed(f"{folder}/{name}: no line begins with ### and a space")
        parts += found
    if not parts:
        raise Malformed(f"{folder}: there is no file")
    return parts


def parts_of_file(path):
    with open(path, "rb") as file:
        lines = file.read().split(b"\n")
    if lines.pop() != b"":
        raise Malformed(f"{path}: the last line has no line feed")
    parts = []
    for number, line in enumerate(lines, 1):
        mark, rest = marked(line, (b"##", b"###"))
        if mark == "###":
            parts.append(Part(path, number, rest.decode()))
        elif not mark and parts:
            parts[-1].lines.append((number, line))
        elif not mark and line:
            raise Malformed(f"{path}:{number}: a line before the first ###")
    for part in parts:
        # Blank lines before the next part are no lines of this one.
        while part.lines and not part.lines[-1][1]:
            part.lines.pop()
        if not part.name or [it.name for it in parts].count(part.name) > 1:
            raise part.malformed(part.number, "a name that isn't there or isn't the only one")
    return parts


@dataclass
class Step:
    """A line that does something, with the lines before it: of a text, of the output and of the faults."""

    number: int = 0
    mark: str = ""
    said: bytes = b""
    text: list = field(default_factory=list)
    output: list = field(default_factory=list)
    faults: list = field(default_factory=list)

    def whole_text(self):
        return b"".join(bytes.fromhex(it.decode()) if is_hex else line_of(it) for is_hex, it in self.text)


@dataclass
class Script:
    """Calls that are made in one folder, in turn."""

    file: str
    name: str
    steps: list


def scripts_of(folder):
    return [script_of(part) for part in parts_of(folder, ".calls")]


def script_of(part):
    steps, step = [], Step()
    for number, line in part.lines:
        mark, rest = marked(line, (b"@", b"=", b"&", b"$", b">", b"!", b"%"))
        if mark in ("@", "=", "&", "$"):
            part.check(number, rest)
            step.number, step.mark, step.said = number, mark, rest
            check_step(part, step)
            steps.append(step)
            step = Step()
            continue
        part.check_line(number, rest)
        if mark == "%" and not re.fullmatch(rb"[0-9a-f]{2}( [0-9a-f]{2})*", rest):
            raise part.malformed(number, "bytes that aren't two digits each")
        if mark in (">", "!"):
            (step.output if mark == ">" else step.faults).append(rest)
        else:
            step.text.append((mark == "%", rest))
    if step.text or step.output or step.faults:
        raise part.malformed(part.lines[-1][0], "lines after the last call")
    if not any(it.mark == "$" for it in steps):
        raise part.malformed(part.number, "there is no call")
    return Script(part.file, part.name, steps)


def check_step(part, step):
    """A line that does something says what it has to say, and has only such lines before it as it takes."""
    if step.mark == "$":
        is_well = re.fullmatch(rb"[0-9]+( [^ ]+)+", step.said)
    elif step.mark == "&":
        is_well = re.fullmatch(rb"[0-9]+", step.said) and not step.text
    else:
        is_well = step.said
    if not is_well or (step.mark != "$" and (step.output or step.faults)):
        raise part.malformed(step.number, f"a line {step.mark} that isn't one, or lines before it that it doesn't take")


@dataclass
class Session:
    """Lines that a session is given, and lines that it has to write."""

    file: str
    number: int
    name: bytes
    input: list
    output: list
    row: tuple = ()

    def shown(self):
        return decoded(self.name, self.row).decode(errors="backslashreplace")

    def whole_input(self):
        return b"".join(line_of(it, self.row) for it in self.input)

    def whole_output(self):
        return b"".join(line_of(it, self.row) for it in self.output)


def sessions_of(folder):
    """The sessions of each part, in a list of lists."""
    return [sessions_of_part(part) for part in parts_of(folder, ".sessions")]


def sessions_of_part(part):
    before, after, rows, lines = [], [], [], list(part.lines)
    places = {"[": before, "]": after, "*": rows}
    while lines:
        mark, rest = marked(lines[0][1], (b"[", b"]", b"*"))
        if not mark:
            break
        places[mark].append(rest)
        (part.check if mark == "*" else part.check_line)(lines.pop(0)[0], rest)
    rows = [tuple(decoded(it) for it in (row, *row.split(b" "))) for row in rows] or [()]
    sessions = []
    given, wanted = [], []
    for number, line in lines:
        mark, rest = marked(line, (b">", b"="))
        for row in rows:
            (part.check if mark == "=" else part.check_line)(number, rest, row)
        if mark == "=":
            whole = before + given + after
            sessions += [Session(part.file, number, rest, whole, wanted, row) for row in rows]
            given, wanted = [], []
        else:
            (wanted if mark else given).append(rest)
    if given or wanted:
        raise part.malformed(part.lines[-1][0], "the last session has no name")
    if not sessions:
        raise part.malformed(part.number, "there is no session")
    return sessions
