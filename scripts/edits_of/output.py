"""What a check printed, and what it says of one function by itself: which of its goals stay open, whatever it calls."""
import re
import signal

FUNCTION = re.compile(r"^fn [^\s:]+::(\S+): (.*)")
NOTE = re.compile(r"^note: (?:\./)?(src/\S+?):(\d+):\d+: (it is not proved that .*)")
ERROR = re.compile(r"^(?:\./)?((?:src|specs|proofs)/\S+?):(\d+):\d+: error(?:\[[\w-]+\])?: (.*)")
UNREAD = re.compile(r"^\./proofs/(\S+)/Proof\.antt: error: (?:rattle does not read this file|`\w+` has no function `\S+` for this file)")
UNKNOWN = re.compile(r"has no function `([^`]*)`")
SEARCH = re.compile(r"`search` did not prove (`[^`]*`)")
# An error of a text that names what is no longer there, or what was refused itself.
GONE = re.compile(r"has no field|is not in scope|has no `|was not admitted")


class Output:
    def __init__(self, text, status):
        self.lines, self.status = text.split("\n"), status
        self.functions = [found for found in map(FUNCTION.match, self.lines) if found]
        self.errors = [found for found in map(ERROR.match, self.lines) if found]

    def was_killed(self):
        return self.status == -signal.SIGKILL

    def was_read(self):
        """Whether the front end took the crate, so that functions were judged."""
        return bool(self.functions)

    def unread(self):
        """The names of functions whose proof files rattle doesn't read: there are none of these."""
        return {found[1].replace("/", "::") for found in map(UNREAD.match, self.lines) if found}

    def places(self):
        return [(found[1], int(found[2])) for found in self.errors]

    def blames(self, function):
        """Whether the front end complains of this function."""
        named = {found[1] for found in map(UNKNOWN.search, self.lines) if found}
        return function.name in named or any(function.covers(*it) for it in self.places())

    def of(self, function):
        """The lines on the function itself and the closures in it."""
        found = []
        for line in self.functions:
            closure = line[1].replace("fn::", "", 1)
            if line[1] == function.name or closure != line[1] and closure.startswith(f"{function.name}::"):
                found.append(line)
        return found

    def is_told(self, function):
        own = self.of(function)
        return bool(own) and not any("could not tell" in it[2] for it in own)

    def open_goals(self, function):
        """The open goals of the function itself. What a text names that is gone is none: the function may have lost it by a hole or another edit."""
        own = self.of(function)
        if not any(it[2].startswith(("not proved", "no proof")) for it in own):
            return []
        goals = []
        for line in self.lines:
            note = NOTE.match(line)
            if note and function.covers(note[1], int(note[2])):
                goals.append(note[3])
        folders = tuple(f"proofs/{it[1].replace('::', '/')}/" for it in own)
        goals += [f"its answer: {it[3]}" for it in self.errors if it[1].startswith(folders) and not GONE.search(it[3])]
        return goals + [f"`search` did not prove {goal}" for it in own for goal in SEARCH.findall(it[2])]

    def is_proved(self, function):
        """Whether nothing of the function stays open, whatever it calls."""
        return self.is_told(function) and not any(it[2].startswith(("not proved", "no proof")) for it in self.of(function))

    def strays(self, functions):
        """Errors in proofs that no function of these has: they may come from a hole, and then no refusal counts."""
        folders = tuple(f"proofs/{it[1].replace('::', '/')}/" for function in functions for it in self.of(function))
        own = [it for it in self.errors if it[1].startswith("proofs/") and not it[1].startswith(folders or "-")]
        return [it[0] for it in own if not GONE.search(it[3])]
