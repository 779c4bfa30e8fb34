"""The functions of a crate: where each stands in the text, as `rt fmt` lays it out, and what the prover may call it.

A function's head is at depth 0, or at depth 4 in an impl. Its body begins at a brace at the end of its head or alone on a line, and
ends at a brace alone, at the depth of the head. The attributes above belong to it: the prover places some goals there.

A function's name is `module::name`, and a method's `module::Type::name`, with the module of the type, which may stand in another file. A
trait's method has the words of the type and the trait in place of the type, as in `memory::MemoryFromAllocError::from`. Which module that has
isn't told by the text alone, so a method has one or more possible names, and the prover's front end tells which is right (checks.py).
"""
import os
import re

HEAD = re.compile(r'^( {0,4})(?:pub(?:\([a-z ]+\))? )?(?:default )?(const )?(?:unsafe )?(?:extern "C" )?fn (\w+)')
TYPE = re.compile(r"^(?:pub(?:\([a-z ]+\))? )?(?:struct|enum|union) (\w+)")
CONST = re.compile(r"^ *(?:pub(?:\([a-z ]+\))? )?const (\w+):")
CLAUSE = re.compile(r"^ensures\*? ")
# What stands for a part of a type in the name of an impl.
MARKS = {"&": "Ref", "&mut": "RefMut", "[": "Slice", "Box": "Boxed"}


def module_of(path):
    """The module of a file, as a list of names."""
    return [it for it in re.sub(r"^src/|\.rt$", "", path).split("/") if it not in ("lib", "main", "mod")]


def brackets_end(text):
    """Where the bracket `<` that the text begins with is closed."""
    depth = 0
    for at, sign in enumerate(text):
        if sign == "<":
            depth += 1
        elif sign == ">" and text[at - 1] != "-":
            depth -= 1
            if not depth:
                return at + 1
    return len(text)


def parts_of(head):
    """Of the head of an impl: the names of its parameters, its trait (or ""), and its type."""
    text, parameters = re.sub(r"^(?:unsafe )?impl", "", head), set()
    if text.startswith("<"):
        end = brackets_end(text)
        parameters, text = set(re.findall(r"[<,] *(?:const )?(\w+)", text[:end])), text[end:]
    text = re.sub(r" where .*| *\{.*", "", text).strip()
    trait, found, subject = text.partition(" for ")
    return parameters, *((trait, subject) if found else ("", text))


def words_of(text, parameters):
    """The words of a type or a trait, as the name of an impl has them."""
    found = []
    for word in re.findall(r"'\w+|&(?:'\w+ )?(?:mut\b)?|\[|[\w:]+", text):
        if word.startswith("&"):
            found.append(MARKS["&mut" if word.endswith("mut") else "&"])
        elif word in MARKS:
            found.append(MARKS[word])
        elif not word.startswith("'") and word not in parameters:
            last = word.rpartition("::")[2]
            found.append(last[:1].upper() + last[1:])
    return "".join(found)


def shapes_of(text, parameters):
    """What a type or a trait may give to the name of an impl: its words with its arguments, or without."""
    bare = re.sub(r"<.*", "", text)
    return [words_of(it, parameters) for it in (text, bare)]


class Function:
    """A function of the crate. `name` is None until it is known what the prover calls it, and where no proof of it can stand alone."""

    def __init__(self, path, rows, at, names):
        head = HEAD.match(rows[at])
        depth = head[1]
        self.path, self.short, self.names, self.name = path, head[3], names, None
        self.is_const = bool(head[2])
        self.first = at
        while self.first and rows[self.first - 1].startswith(f"{depth}#["):
            self.first -= 1
        self.in_cycle = any(it.strip().startswith("#[cycle(") for it in rows[self.first : at])
        body, last = body_of(rows, at, depth)
        self.clauses = [it.strip() for it in rows[at : body + 1] if CLAUSE.match(it.strip())]
        self.text = "\n".join(rows[body : last + 1])
        # Lines are counted from 1 on.
        self.first, self.body, self.last = self.first + 1, body + 1, last + 1

    def covers(self, path, line):
        """Whether a goal at this place is one of this function."""
        return path == self.path and self.first <= line <= self.last

    def holds(self, path, line):
        """Whether this line is one of the body."""
        return path == self.path and self.body < line < self.last

    def is_judged_alone(self):
        """Whether others see its body, or share its proof: they would have to be judged with it."""
        return self.is_const or self.in_cycle

    def empty(self, rows):
        """Has the body loop for ever, if it isn't on one line. A loop has any type, and no borrows."""
        inside = range(self.body, self.last - 1)
        if inside:
            rows[inside.start : inside.stop] = ["loop {}", *[""] * (len(inside) - 1)]

    def clause_of(self, goal):
        """The clause of the contract that an open goal is of, where the goal's name or the contract tells."""
        found = re.search(r"`(returns[\w-]*)`", goal)
        if not found:
            return ""
        name = found[1].rpartition("-clause-")[2]
        fitting = [it for it in self.clauses if it.split()[1] == name]
        return (fitting or (self.clauses if len(self.clauses) == 1 else [""]))[0]


def body_of(rows, at, depth):
    """The first and the last row of a body: both are the head's own row where the body is on one line, or there is none."""
    for row in range(at, len(rows)):
        text = rows[row]
        is_beyond = not text or text.startswith(("}", f"{depth}}}")) or bool(HEAD.match(text))
        if row > at and is_beyond or row == at and text.endswith((";", "}")):
            break
        begins = text == f"{depth}{{" or text.endswith("{") and (row == at or text.startswith(f"{depth})"))
        if begins:
            end = next((it for it in range(row + 1, len(rows)) if rows[it] == f"{depth}}}"), row)
            return row, end
    return at, at


class Functions:
    """All functions of a crate."""

    def __init__(self, folder):
        self.rows, self.all, self.modules = {}, [], {}
        for at, folders, names in os.walk(f"{folder}/src"):
            folders.sort()
            for name in sorted(it for it in names if it.endswith(".rt")):
                path = os.path.relpath(f"{at}/{name}", folder)
                with open(f"{at}/{name}", encoding="utf-8") as file:
                    self.rows[path] = file.read().split("\n")
        for path, rows in self.rows.items():
            for found in filter(None, map(TYPE.match, rows)):
                self.modules.setdefault(found[1], []).append(module_of(path))
        for path in self.rows:
            self.read(path)

    def read(self, path):
        """Adds the functions of a file."""
        rows, above = self.rows[path], ""
        for at, row in enumerate(rows):
            if row and row[0] not in " {})#/" and row != "where":
                above = row
            head = HEAD.match(row)
            if head and (not head[1] or above.startswith(("impl", "unsafe impl"))):
                self.all.append(Function(path, rows, at, self.names_of(path, above if head[1] else "", head[3])))
            elif head and head[1]:
                # A trait's default, or a function of a module within the file.
                self.all.append(Function(path, rows, at, []))

    def names_of(self, path, impl, name):
        """The names that the prover may give to a function in this impl, or outside of one."""
        here = module_of(path)
        if not impl:
            return ["::".join([*here, name])]
        parameters, trait, subject = parts_of(impl)
        found = re.search(r"\w+", re.sub(r"'\w+", "", subject))
        modules = self.modules.get(found[0] if found else "", [here])
        modules = [here] if here in modules else modules
        owners = [found[0]] if found else []
        if trait:
            modules = [*modules, here] if here not in modules else modules
            owners = [one + other for one in shapes_of(subject, parameters) for other in shapes_of(trait, parameters)]
        return list(dict.fromkeys("::".join([*module, owner, name]) for module in modules for owner in owners))

    def emptied(self, path, text, names):
        """The text of a file, in which these functions have an empty loop for a body. Lines keep their numbers."""
        rows = text.split("\n")
        for it in self.all:
            if it.path == path and it.name in names and not it.is_judged_alone():
                it.empty(rows)
        return "\n".join(rows)

    def line_of(self, path, text):
        """The line at which this text begins, or 0 where the file doesn't have it just once."""
        whole = "\n".join(self.rows.get(path, []))
        return whole[: whole.index(text)].count("\n") + 1 if text and whole.count(text) == 1 else 0

    def judging(self, path, text):
        """The functions whose check judges a change of this text, and whether others may be changed beside it. No function: it has to be tried alone."""
        line = self.line_of(path, text)
        own = [it for it in self.all if it.holds(path, line)]
        if own:
            return own, not own[0].is_judged_alone()
        const = line and CONST.match(self.rows[path][line - 1])
        if not const or any(it.covers(path, line) for it in self.all):
            return [], False
        return [it for it in self.all if re.search(rf"\b{const[1]}\b", it.text)], False
