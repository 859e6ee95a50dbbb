"""The public functions of the crates, read from their sources."""

import functools
import glob
import re
from typing import NamedTuple

FUNCTION = re.compile(r'((?:^[ \t]*#\[[^\n]*\]\n)*)^[ \t]*(pub )?(?:(?:const|unsafe) )*(extern "C" )?fn (\w+)', re.M)
BLOCK = re.compile(r'^(?:(impl)\b(?:<[^>]*>)?|pub trait)[ \n]+([^{]*?)\s*\{', re.M)
OWN_TRAIT = re.compile(r'^(?:pub\([^)]*\) )?trait (\w+)', re.M)      # of its crate alone
CLAUSE = re.compile(r'\b(requires|ensures)\*?(\s+\w+)?\s*$')     # some have names
EXPORT = "#[unsafe(no_mangle)]"


class Block(NamedTuple):
    """An `impl` or a public trait."""
    owner: str          # the type or the trait; of a trait's impl the type with the trait, as proofs call the two
    trait: str          # the trait that is declared or given
    declares: bool
    start: int
    end: int


class Function(NamedTuple):
    name: str
    block: Block        # None of one that stands alone
    exported: bool      # to C
    types: str          # from the parameters to the clauses
    clauses: tuple      # `requires` and `ensures`, in order
    start: int
    first_clause: int   # where the clauses begin, or the body
    body: int           # the semicolon of one that a trait declares

    def declared(self):
        """A trait says what it promises; the body stands in each `impl`."""
        return bool(self.block) and self.block.declares

    def given(self):
        """A trait's, in an `impl`: the promise is the trait's."""
        return bool(self.block) and bool(self.block.trait) and not self.block.declares

    def called(self):
        return "%s::%s" % (self.block.owner, self.name) if self.block else self.name


def sources():
    """The text of every file of code, by path."""
    texts = {}
    with open("crates.txt") as file:
        crates = [line.split()[0].rstrip(":") for line in file if ":" in line.split("#")[0]]
    for crate in crates:
        for path in glob.glob("crates/%s/src/**/*.rt" % crate, recursive=True):
            with open(path) as file:
                texts[path] = without_comments(file.read())
    return texts


def without_comments(text):
    return re.sub(r'//[^\n]*', '', text)


def public(texts):
    """What other crates can call, with its path: the `impl` of a crate's own trait has nothing of it."""
    own = {(crate_of(path), trait) for path, text in texts.items() for trait in OWN_TRAIT.findall(text)}
    return [(path, function) for path, text in sorted(texts.items()) for function in functions(text)
            if not function.block or (crate_of(path), function.block.trait) not in own]


def crate_of(path):
    return path.split("/")[1]


def functions(text):
    """What says `pub`, and what a public trait or the `impl` of a trait has."""
    found = []
    for function in FUNCTION.finditer(text):
        block = next((b for b in blocks(text) if b.start < function.start() < b.end), None)
        if function.group(2) or (block and block.trait):
            found.append(function_at(text, function, block))
    return found


@functools.lru_cache(maxsize=1024)
def blocks(text):
    return [block_at(text, found) for found in BLOCK.finditer(text)]


def block_at(text, found):
    is_impl, head = found.groups()
    trait, _, owner = head.rpartition(" for ") if is_impl else (head.split(":")[0], "", head.split(":")[0])
    owner = re.sub(r'<.*', '', owner, flags=re.S) if trait and is_impl else owner
    owner += "".join(re.findall(r'\w+', trait)) if is_impl else ""
    return Block(owner, trait, not is_impl, found.start(), end_of_braces(text, found.end() - 1))


def function_at(text, found, block):
    """Reads from the name to the brace that opens the body; a clause has braces of its own."""
    clauses, first, last = [], None, found.end()
    while True:
        at = next_opening(text, last)
        clause = CLAUSE.search(text, last, at)
        if text[at] == ";" or not clause:
            break
        clauses.append(clause.group(1))
        first = first or clause.start()
        last = end_of_braces(text, at)
    first = first or at
    attributes, _, is_for_c, name = found.groups()
    exported = bool(is_for_c) and EXPORT in attributes
    return Function(name, block, exported, text[found.end():first].strip(), tuple(clauses), found.start(), first, at)


def next_opening(text, at):
    """The next brace or semicolon that is in no brackets."""
    depth = 0
    while depth or text[at] not in "{;":
        depth += {"(": 1, "[": 1, ")": -1, "]": -1}.get(text[at], 0)
        at += 1
    return at


def end_of_braces(text, at):
    depth = 0
    while True:
        depth += {"{": 1, "}": -1}.get(text[at], 0)
        at += 1
        if depth == 0:
            return at


def gives(text, function):
    """Where an `impl` says what a function gives, if the trait is none of ours."""
    return re.compile(r'\bghost %s_gives =' % function.name).search(text, function.block.start, function.block.end)


# ---- The same text with an error

def with_requires(text, function):
    return text[:function.first_clause] + "requires { 0 ≡ 0 }\n    " + text[function.first_clause:]


def without_ensures(text, function):
    return text[:function.first_clause] + text[function.body:]


def without_gives(text, function):
    found = gives(text, function)
    return text[:found.start()] + text[found.end():]


def without_export(text, function):
    return text[:function.start] + text[function.start:].replace(EXPORT, "", 1)
