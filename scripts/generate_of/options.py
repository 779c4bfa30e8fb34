"""What docs/covcollect.1 and completions/ say of the command line, held against the command line's own description.

The man page has two parts between `.\\" generated: NAME` and `.\\" end`: `synopsis`, and `options`, which says which subcommand has
which options. The rest of its section OPTIONS is written by hand, and has one heading for each option.
"""
import re, shlex, subprocess

HELP = ("-h", "--help", None)
BLOCK = re.compile(r'^(\.\\" generated: (\w+)\n)(.*?)^(\.\\" end\n)', re.M | re.S)
# Options whose value stands behind `=` or is missing: the word after such an option isn't its value.
BEHIND_SIGN = ("--one-test",)
ZSH_MORE = re.compile(r"\[\[ \$line\[1\] (!?=) (\w+) \]\] \|\|\s+more\+=\((.*?)\)\n", re.S)
# Prints what the file after it completes of `-` after the subcommand, or if there is none, after the program's name.
BASH = """
source "$1"
subcommand=$2
_init_completion() { words=(covcollect $subcommand -) cur=- prev=${subcommand:-covcollect} cword=$(( ${#words[@]} - 1 )); }
_covcollect
printf '%s\\n' "${COMPREPLY[@]}"
"""


def roff(text):
    return text.replace("-", "\\-")


def synopsis(subcommands):
    """How the program and its subcommands are called."""
    yield "\\fBcovcollect\\fR"
    for name, arguments in subcommands.items():
        needed = [f" \\fB{roff(it.long)}\\fR \\fI{it.value}\\fR" for it in arguments if it.long and it.required]
        others = [f" \\fI{it.value}\\fR" + "..." * it.several for it in arguments if not it.long]
        yield from (".br", f"\\fBcovcollect {name}\\fR{''.join(needed)} [\\fIOPTIONS\\fR]{''.join(others)}")
    yield from (".br", "\\fBcovcollect\\fR [\\fISUBCOMMAND\\fR] \\fB\\-\\-help\\fR", ".br", "\\fBcovcollect \\-\\-version\\fR")


def options(subcommands):
    """Which options each subcommand has, those with the same options together."""
    groups = {}
    for name, arguments in subcommands.items():
        groups.setdefault(" ".join(roff(it.short or it.long) for it in arguments if it.long), []).append(name)
    for names, sharing in groups.items():
        yield from (".TP", f".B {', '.join(sharing)}", names)


PARTS = {"synopsis": synopsis, "options": options}


def written_anew(page, subcommands):
    """The man page with its generated parts as the description has them."""
    return BLOCK.sub(lambda it: it[1] + "".join(f"{line}\n" for line in PARTS[it[2]](subcommands)) + it[4], page)


def words_of(heading):
    """The words of a macro's line, without fonts. A macro of two fonts joins its words."""
    macro, words = re.sub(r"\\f.|\\%|\\(?=-)", "", heading).split(" ", 1)
    return "".join(it.strip('"') for it in re.findall(r'"[^"]*"|\S+', words)) if len(macro) == 3 else words


def headings(page):
    """The options of the headings of OPTIONS, each with the name of its value."""
    section = re.search(r"^\.SH OPTIONS\n(.*?)^\.SH", BLOCK.sub("", page), re.M | re.S)[1]
    found = {}
    for heading in re.findall(r"^\.T[PQ]\n(.*)", section, re.M):
        for it in words_of(heading).split(", "):
            name, _, value = it.partition(" ")
            found[name] = value or None
    return found


def names_of(given):
    return {name: value for short, long, value in given for name in (short, long) if name}


def in_bash(path, subcommand):
    ran = subprocess.run(["bash", "-c", BASH, "-", path, subcommand], capture_output=True, text=True)
    return set(ran.stdout.split())


def in_zsh(text, subcommand):
    """The names that `_arguments` gets for the subcommand, or if there is none, for the program."""
    if not subcommand:
        return zsh_names([re.search(r"_arguments -C(.*?) && return", text, re.S)[1]], text)
    within = next(it for names, it in re.findall(r"^        ([a-z|]+)\)\n(.*?) ;;$", text, re.M | re.S) if subcommand in names.split("|"))
    more = [it for sign, name, it in ZSH_MORE.findall(within) if (name == subcommand) == (sign == "!=")]
    return zsh_names([within.split("_arguments -S")[1], *more], text)


def zsh_names(parts, text):
    """The names in these parts and in the variables that the first one uses, and whether they take a value."""
    variables = dict(re.findall(r"(?<=[ (])(\w+)=('(?:\[[^\]]*\]|[^'])*'|\((?:'[^']*'|[^()'])*\))", text))
    words = " ".join([*parts, *(variables.get(it, "") for it in re.findall(r"\$(\w+)", parts[0]))])
    words = re.sub(r"'\(.*?\)'|\[[^\]]*\]", " ", words)
    words = re.sub(r"(\S*)\{([^{}]*)\}'?(=?)", lambda it: " ".join(it[1] + name + it[3] for name in it[2].split(",")), words)
    return {name: bool(sign) for name, sign in re.findall(r"(?<![\w-])(--?[A-Za-z\d][\w-]*)([+=](?!-)|)", words)}


def in_fish(text, subcommand):
    """The options of the lines `complete` that the subcommand has, or without one the program, and whether they take a value."""
    found, subcommand = {}, subcommand or "__covcollect_begins"
    for line in re.findall(r"^complete .*", text, re.M):
        words = shlex.split(line)
        said = {it: words[at + 1] for at, it in enumerate(words[:-1]) if it in ("-n", "-s", "-l")}
        if subcommand in said.get("-n", subcommand).split():
            found.update({dash + said[it]: "-x" in words or "-r" in words for it, dash in (("-s", "-"), ("-l", "--")) if it in said})
    return found


def differing(where, found, wanted):
    """A line for each option that is missing or too much, or that has another value."""
    yield from (f"{where}: {it} is missing" for it in sorted(wanted.keys() - found.keys()))
    yield from (f"{where}: {it} isn't an option" for it in sorted(found.keys() - wanted.keys()))
    yield from (f"{where}: {it} has another value" for it in sorted(wanted.keys() & found.keys()) if wanted[it] != found[it])


def values_in(text, pattern):
    """The options that a completion knows to take a value, so that it looks for the subcommand behind it."""
    found = " ".join(re.findall(pattern, text))
    found = re.sub(r"(\S*)\{([^{}]*)\}", lambda it: " ".join(it[1] + name for name in it[2].split(",")), found)
    return {it: True for it in re.findall(r"--?[a-z][\w-]*", found)}


def faults(page, completions, subcommands, of_program):
    """What the man page and the completions say that the description doesn't, and the other way round.

    `completions` has the name, the path and the text of each file by its shell: bash, zsh, fish."""
    lost = PARTS.keys() - {it[1] for it in BLOCK.findall(page)}
    yield from (f"docs/covcollect.1: the generated part {it} is missing" for it in sorted(lost))
    every = names_of([*of_program, *(it.option for arguments in subcommands.values() for it in arguments if it.long)])
    yield from differing("docs/covcollect.1: OPTIONS", headings(page), every)
    with_value = {it: True for it, value in every.items() if value and it not in BEHIND_SIGN}
    for shell, pattern in (("bash", r"^ *(-.*)\) \(\(i\+\+\)\) ;;"), ("fish", r'contains -- "\$word" (.*)')):
        name, _, text = completions[shell]
        yield from differing(f"{name}: options with a value", values_in(text, re.compile(pattern, re.M)), with_value)
    for subcommand, arguments in subcommands.items():
        wanted = {it: value is not None and it not in BEHIND_SIGN for it, value in names_of([HELP, *(it.option for it in arguments if it.long)]).items()}
        yield from of_subcommand(completions, subcommand, wanted)
    program = {it: False for it in names_of(of_program)}
    yield from of_subcommand(completions, "", program)


def of_subcommand(completions, subcommand, wanted):
    """Where the completions of a subcommand differ from its options. What bash completes doesn't say whether there is a value."""
    where = subcommand or "no subcommand"
    name, path, _ = completions["bash"]
    yield from differing(f"{name}: {where}", {it: wanted.get(it, False) for it in in_bash(path, subcommand)}, wanted)
    for shell, found_in in (("zsh", in_zsh), ("fish", in_fish)):
        name, _, text = completions[shell]
        yield from differing(f"{name}: {where}", found_in(text, subcommand), wanted)
