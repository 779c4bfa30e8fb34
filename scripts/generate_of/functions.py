"""The public functions of the crates, as the sources have them.

    for function in public_functions(crate): ...

A public function is one that another crate can name: its module is public, or the crate's root hands it (or its type or trait) on.
"""
import glob, os, re, sys

TOP = os.path.realpath(os.path.join(os.path.dirname(__file__), "../.."))
FUNCTION = re.compile(r"^(    )?(pub )?(?:const )?(?:unsafe )?fn (\w+)")
OWNER = re.compile(r"^(?:pub )?(impl|trait)\b(.*)")
CLAUSE = re.compile(r"\s+(requires|ensures) (\w+ )?\{")


def text_of(path):
    with open(os.path.join(TOP, path), encoding="utf-8") as file:
        return file.read()


def first_sentence(words):
    """The first sentence of a comment, in one line that can stand in a table."""
    words = re.sub(r"\s+", " ", words).strip()
    found = re.match(r"(.+?[.!?:])(?= [A-Z`\[-]|$)", words)
    return re.sub(r"\[(`[^`]*`)\]", r"\1", found[1] if found else words).replace("|", "\\|")


def root_of(crate):
    return next(it for it in (f"crates/{crate}/src/lib.rt", f"crates/{crate}/src/main.rt") if os.path.exists(os.path.join(TOP, it)))


def sources_of(crate):
    return sorted(os.path.relpath(it, TOP) for it in glob.glob(os.path.join(TOP, f"crates/{crate}/src/**/*.rt"), recursive=True))


class Function:
    """A function of a source: its type or trait if it has one, what its comment says, and its contract.

    `contract` is its head with the clauses, and `outside` the lines around it by which the clauses' names are known."""

    def __init__(self, source, owner, name, comment, contract, outside):
        self.source, self.owner, self.path, self.says = source, owner, f"{owner}::{name}" if owner else name, first_sentence(comment)
        self.contract, self.outside = contract, outside
        clauses = [it for it in map(CLAUSE.match, contract) if it]
        self.clauses = [(it[2] or "(no name)").strip() for it in clauses if it[1] == "ensures"]
        self.conditions = [(it[2] or "(no name)").strip() for it in clauses if it[1] == "requires"]


def contract_from(lines, start):
    """A function's lines, from its head to the end of its contract."""
    found = []
    for line in lines[start:]:
        if line.strip() in ("{", "{}", "}"):
            break
        found.append(line)
        if line.endswith("};") or line.endswith((" {", ";")) and not any(map(CLAUSE.match, found)):
            break
    return found


def owner_of(line):
    """The type or trait whose functions a block has, if others can call these by its name; else None."""
    kind, rest = OWNER.match(line).groups()
    rest = re.sub(r"^<(?:[^<>]|<(?:[^<>]|<[^<>]*>)*>)*>", "", rest)
    name = re.match(r" (\w+)", rest) or sys.exit(f"scripts/generate: whose block is this: {line}")
    return kind, None if " for " in rest else name[1]


def functions_of(path):
    """The functions of a source that are public in their module, in order."""
    lines, comment, kind, owner, block = text_of(path).splitlines(), [], None, None, []
    of_file = [it for it in lines if it.startswith("ghost use")]
    for at, line in enumerate(lines):
        if OWNER.match(line):
            kind, owner = owner_of(line)
            block = lines[at : lines.index("}", at)]
        elif line == "}":
            kind, owner, block = None, None, []
        found = FUNCTION.match(line)
        if found and (found[2] or kind == "trait") and bool(found[1]) == bool(owner):
            outside = of_file + [it for it in block if it == block[0] or it.startswith("    ghost use")]
            yield Function(path, owner, found[3], " ".join(comment), contract_from(lines, at), outside)
        if line.strip().startswith("///"):
            comment.append(line.strip()[3:].strip())
        elif not line.strip().startswith("#["):
            comment = []


def handed_on(crate):
    """The names that a crate's root and its public modules hand on, with the modules that have them, and the public modules' files."""
    names, public, waiting = {}, [], [root_of(crate)]
    while waiting:
        path = waiting.pop()
        text, folder = text_of(path), re.sub(r"(/lib|/main)?\.rt$", "", path)
        for whole, module, handed in re.findall(r"^pub use (crate::)?([\w:]+)::(\{[^}]*\}|\w+);", text, re.M):
            for it in re.findall(r"\w+", handed):
                names.setdefault(it, []).append(f"{f'crates/{crate}/src' if whole else folder}/{module.replace('::', '/')}")
        waiting += [f"{folder}/{it}.rt" for it in re.findall(r"^pub mod (\w+);", text, re.M)]
        public.append(path)
    return names, public


def public_functions(crate):
    """The public functions of a crate, by their files."""
    names, public = handed_on(crate)
    for path in sources_of(crate):
        for it in functions_of(path):
            modules = names.get(it.owner or it.path, [])
            if path in public or any(path.startswith((f"{module}.rt", f"{module}/")) for module in modules):
                yield it
