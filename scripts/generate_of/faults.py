"""The error types of the crates, with the number, the printed words and the comment of each variant.

    for enum in enums_of(text of a source, words_said(texts of all sources)): ...

These are the public enums named `..Fault` whose variants have numbers or printed words: those of a function (`Fault::Variant => b"words"`), or
else those of `#[error(..)]`.
"""
import re

ENUM = re.compile(r"((?:^///[^\n]*\n)+)(?:#\[[^\n]*\n)*^pub enum (\w+Fault)(?:<[^>\n]*>)? \{\n(.*?)^\}", re.M | re.S)
SAID = re.compile(r'\b(\w+Fault)::(\w+) => b?"([^"\n]*?)(?:\\n)?",')
VARIANT = re.compile(r"((?:^    ///.*\n)+)((?:^    #\[.*\n)*)^    (\w+)(.*?),?$", re.M)


def words_of(comment):
    return re.sub(r"\s+", " ", re.sub(r"^ *///", "", comment, flags=re.M)).strip().replace("|", "\\|")


def words_said(texts):
    """The words that functions of these sources have for each variant of an enum. The first ones count: covcombine, a later crate, has its own."""
    said = {}
    for text in texts:
        for enum, variant, words in SAID.findall(text):
            said.setdefault((enum, variant), words)
    return said


class Variant:
    def __init__(self, comment, attributes, name, rest, words):
        self.name, numbered = name, re.match(r"Fault (\d+): ", comment)
        given = re.match(r" = (\d+)", rest)
        self.number = numbered[1] if numbered else given[1] if given else ""
        said = comment.removeprefix(numbered[0]) if numbered else comment
        self.says = said[0].upper() + said[1:]
        attribute = re.search(r'#\[error\("(.*)"\)\]', attributes)
        printed = words or attribute and attribute[1]
        self.printed = f"`{printed}`" if printed and printed != "{0}" else ""


def enums_of(text, said):
    """The name of each enum, what its comment says, and its variants."""
    for comment, name, body in ENUM.findall(text):
        found = VARIANT.findall(body)
        variants = [Variant(words_of(it), attributes, variant, rest, said.get((name, variant))) for it, attributes, variant, rest in found]
        if any(it.number or it.printed for it in variants):
            yield name, words_of(comment), variants
