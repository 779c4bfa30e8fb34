"""The command line as crates/covcommand/src describes it to clap: the subcommands, with the arguments and options of each.

    subcommands, of_program = command_line(text of described.rt, combining.rt and html.rt, text of help.rt)

A function of these three gives an argument (`-> Arg`) or a command. It calls others of the file, or clap's builder.
"""
import re

FUNCTION = re.compile(r"^(?:pub\(crate\) )?fn (\w+)<'a>\(([^)]*)\) -> ([^\n]*)\n.*?^\{\n(.*?)^\}", re.M | re.S)
CALL = re.compile(r"\b(\w+)\(alloc(?:, ([^()]*))?\)")
HELP = ("-h", "--help", None)
VERSION = ("-V", "--version", None)


class Argument:
    """An option, or if it has no long name a positional argument."""

    def __init__(self, short, long, value, required, several, text):
        self.short, self.long, self.value = short and f"-{short}", long and f"--{long}", value
        self.required, self.several, self.help = required, several, text

    @property
    def option(self):
        """The option's names and the name of its value."""
        return self.short, self.long, self.value


class Description:
    """The functions of described.rt by their names, and the texts of help.rt."""

    def __init__(self, described, texts):
        self.functions = {name: (self.names(given), gives, body) for name, given, gives, body in FUNCTION.findall(described)}
        found = re.findall(r'const (\w+): &str = "(.*?)(?<!\\)";', texts, re.S)
        self.texts = {name: re.sub(r"\s+", " ", text.removeprefix("\\\n")) for name, text in found}

    @staticmethod
    def names(given):
        return [it.split(":")[0].strip() for it in given.split(",")][1:]

    def value_of(self, word, bound):
        """What an expression of a call stands for: a text, the help of a name, or what the caller gave."""
        if word.startswith("help::"):
            return self.texts[word.removeprefix("help::")]
        return word.strip('"') if word.startswith('"') else bound[word]

    def calls_in(self, body, bound):
        """The calls of functions of described.rt in a body, in their order, with what they are given."""
        for name, given in CALL.findall(body):
            if name in self.functions:
                yield name, [self.value_of(it.strip(), bound) for it in given.split(",") if it.strip()]

    def argument(self, name, given):
        names, _, body = self.functions[name]
        bound = dict(zip(names, given))
        made = re.search(r"Arg::new\(alloc, ([^)]+)\)", body)
        if not made:
            return self.argument(*next(self.calls_in(body, bound)))
        said = {call: self.value_of(word, bound) for call, word in re.findall(r"\.(long|value_name|help)\(([^)]+)\)", body)}
        short = re.search(r"\.short\('(.)'\)", body)
        value = said.get("value_name") if "long" in said else self.value_of(made[1], bound)
        return Argument(short and short[1], said.get("long"), value, ".required(true)" in body, ".num_args(1..)" in body, said["help"])

    def arguments(self, name, given=()):
        """The arguments and options of a command, in the order in which clap gets them."""
        names, _, body = self.functions[name]
        for called, words in self.calls_in(body, dict(zip(names, given))):
            if self.functions[called][1].startswith("Arg<"):
                yield self.argument(called, words)
            elif called != name:
                yield from self.arguments(called, words)


def command_line(described, texts):
    """The arguments and options of each subcommand, by its name, and the options of the program itself."""
    description = Description(described, texts)
    names = re.findall(r"\bwith\(.*, (\w+)\(alloc\)\)", described)
    of_program = [HELP, VERSION] if ".version(" in description.functions["program"][2] else [HELP]
    return {it: list(description.arguments(it)) for it in names}, of_program
