"""What the crates' files of definitions and sources declare: definitions, types and traits, and where the names in them are from.

    files = definitions_of(crates)        # the files of specs/, by the names of their modules
    sources = Sources(crates)             # the types and traits, with the ghosts by which contracts see them

The crates are given from the lowest up.
"""
import glob, os, re, sys

from .functions import TOP, sources_of, text_of

STARTS = re.compile(r"^(?:pub )?(?:abbrev|record|data|def|unfoldable)\b|^pub \S+ :")
WORD = re.compile(r"[^\s(){}\[\],;.]+(?:\.[^\s(){}\[\],;.]+)*")


class Names:
    """Where names are from: the lines `use MODULE.{NAME, ..}` and `use MODULE as NAME` of a text, or `ghost use` in a source."""

    def __init__(self, text):
        self.taken, self.modules = {}, {}
        for module, names, alias in re.findall(r"^ *(?:pub |ghost )?use ([\w.]+?)(?:\.\{([^}]*)\}| as (\w+))?;?$", text, re.M):
            for it in filter(None, map(str.strip, names.split(","))):
                name, _, other = it.partition(" as ")
                self.taken[other or name] = (module, name)
            if alias:
                self.modules[alias] = module

    def place(self, word):
        """The module and the name in it that a word stands for, or None."""
        front, _, rest = word.partition(".")
        if front in self.modules and rest:
            return self.modules[front], rest.split(".")[0]
        return self.taken.get(word) or self.taken.get(front)

    def places(self, text):
        return [it for it in map(self.place, WORD.findall(text)) if it]


class Definition:
    """One definition: its names (also of a record's fields and of a type's variants), and the words of its text."""

    def __init__(self, file, name, lines):
        self.file, self.name, self.lines = file, name, lines
        self.words = WORD.findall(" ".join(lines))


class File:
    """A file of definitions: what it defines, and what it takes from elsewhere."""

    def __init__(self, crate, path):
        self.crate, self.path = crate, path
        self.module = path.split("/specs/")[1][:-5].replace("/", ".")
        self.defined = {}
        self.names = Names(text_of(path))
        self.read(text_of(path))

    def read(self, text):
        block, indent = None, ""
        for line in [*text.splitlines(), "use"]:
            if line and not line.startswith(" "):
                indent = "  " if line.startswith("module") else ""
            line = line.removeprefix(indent)
            if STARTS.match(line) or line.startswith(("use", "pub use", "pub mod", "unfolding", "module")):
                self.add(block)
                block = [line] if STARTS.match(line) else None
            elif block and line.strip() and not line.strip().startswith("--"):
                block.append(line)

    def add(self, block):
        if not block:
            return
        head = re.match(r"(?:pub )?(?:(abbrev|record|data|def|unfoldable) )?(?:pub )?(\S+)", block[0])
        it = Definition(self, head[2], block)
        self.defined[head[2]] = it
        if head[1] == "data":
            for line in block[1:]:
                if variant := re.match(r"\s+(\S+) :", line):
                    self.defined.setdefault(variant[1], it)


class Type:
    """A type or trait of the sources: its lines, and the ghosts by which contracts see it."""

    def __init__(self, source, name, block):
        self.source, self.path, self.name, self.block = source, source.path, name, block
        self.ghosts, self.places, self.seen, self.asked = 0, [], set(), set()

    def parts(self):
        """The names of the types in it. Where there are ghosts, only those of its head, without the bounds of parameters that no ghost
        asks (as `T.shown` asks `T`), and of the fields that the ghosts name."""
        fields = {found[1]: it for it in self.block[1:] if (found := re.match(r"    (?:pub(?:\(crate\))? )?(\w+): ", it))}
        lines = [self.head(), *(it for field, it in fields.items() if field in self.seen)] if self.ghosts else self.block
        # A variant's own name is no type.
        return types_in(" ".join(re.sub(r"^    [A-Z]\w*", "", it) for it in lines))

    def head(self):
        return re.sub(r"\b([A-Z]\w*): ((?:[^,<>]|<[^<>]*>)+)", lambda it: it[0] if it[1] in self.asked else it[1], self.block[0])

    def add_ghosts(self, block, names):
        """Takes a block's ghosts: what they name, by where each name is from."""
        text = "\n".join(block)
        for it in re.findall(r"^    ghost (?!use\b|invariant\b|drop_)\w+(?: =|:) \{(.*?)\};", text, re.M | re.S):
            self.ghosts += it.count("\n") + 1
            self.seen.update(re.findall(r"\.(\w+)", it))
            self.asked.update(re.findall(r"\b([A-Z]\w*)\.", it))
            self.places += names.places(it)


def types_in(text):
    """The names that may be types' or traits', without those that are bound here (as `File` in `Folder<File: Send>`) or are a type's own."""
    return re.findall(r"(?<![\w:.])[A-Z]\w*\b(?!:(?!:)| =)", text)


class Source:
    """A source: the types and traits that it uses, by its own names for them, and its blocks (types, traits and impls)."""

    def __init__(self, crate, path):
        self.crate, self.path, self.used, self.blocks = crate, path, {}, []
        text = text_of(path)
        self.of_file = "\n".join(re.findall(r"^ghost use .*", text, re.M))
        for place, names in re.findall(r"^(?:pub )?use (cov\w+|crate)\b[\w:]*::(\{[^}]*\}|\w+(?: as \w+)?);", text, re.M):
            for it in names.strip("{}").split(","):
                name, _, other = it.strip().partition(" as ")
                self.used[other or name] = (crate if place == "crate" else place, name)
        block = None
        for line in text.splitlines():
            if block is None and re.match(r"(?:pub(?:\(\w+\))? )?(?:struct|enum|trait|impl)\b", line):
                block = []
            if block is not None and line.strip() and not line.strip().startswith(("//", "#[")):
                block.append(line)
            if block and line.startswith("}") or block and line.endswith(";") and not line.startswith(" "):
                self.blocks.append(block)
                block = None

    def names_in(self, block):
        return Names("\n".join([self.of_file, *block]))


class Sources:
    """The types and traits of the crates' sources."""

    def __init__(self, crates):
        self.crates, self.types = crates, {}
        self.of = {path: Source(crate, path) for crate in crates for path in sources_of(crate)}
        blocks = [(source, block) for source in self.of.values() for block in source.blocks]
        for source, block in blocks:
            kind, name = re.match(r"(?:pub(?:\(\w+\))? )?(struct|enum|trait|impl)\b *(\w*)", block[0]).groups()
            if kind != "impl":
                it = self.types[source.path, name] = Type(source, name, block)
                self.types.setdefault((source.crate, name), it)
                if kind == "trait":
                    it.add_ghosts(block, source.names_in(block))
        for source, block in blocks:
            if block[0].startswith("impl"):
                self.add_impl(source, block)

    def add_impl(self, source, block):
        """Gives a type the ghosts of its model and of its iteration, and a trait those of each impl."""
        of_trait = re.match(r"impl(?:<.*>)? (\w+)(?:<.*>)? for [^\w{]*(\w+)", block[0])
        if of_trait:
            it = self.find(source, of_trait[2] if of_trait[1] in ("Model", "Iterator") else of_trait[1])
            if it:
                it.add_ghosts(block, source.names_in(block))
            elif of_trait[1] == "Model":
                sys.exit(f"definitions: {source.path} has a model of {of_trait[2]}, and no such type was found")

    def find(self, source, name):
        """The type that a source means by a name: its own, the one that it uses, or that of its crate or of one below."""
        return self.types.get((source.path, name)) or self.find_in(*source.used.get(name, (source.crate, name)))

    def find_in(self, crate, name):
        """The type that a crate has or hands on."""
        below = self.crates[: self.crates.index(crate)]
        return next((self.types[it, name] for it in (crate, *reversed(below)) if (it, name) in self.types), None)

    def declared(self, crate, modules, name):
        """The type by its crate, its module and its name."""
        path = f"crates/{crate}/src/{modules.replace('.', '/')}.rt"
        return self.types.get((path, name)) or sys.exit(f"definitions: {path} has no type {name}")


def definitions_of(crates):
    """The files of definitions, by the names of their modules."""
    found = {}
    for crate in crates:
        for path in sorted(glob.glob(os.path.join(TOP, f"crates/{crate}/specs/**/*.antt"), recursive=True)):
            file = File(crate, os.path.relpath(path, TOP))
            found[f"Rattle.{crate}.specs.{file.module}"] = file
    for crate in crates:
        # A crate may hand on the files of another one as its own.
        path = f"crates/{crate}/specs/Lib.antt"
        text = text_of(path) if os.path.isfile(os.path.join(TOP, path)) else ""
        for module in re.findall(r"^pub use (Rattle\.cov\w+\.specs\.\w+)$", text, re.M):
            found.setdefault(f"Rattle.{crate}.specs.{module.split('.')[-1]}", found[module])
    return found
