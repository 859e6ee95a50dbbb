"""include/vote.h beside the sources: entries with their types, numbers with their words."""

import re

from sources import functions

GIVEN = "crates/rules/specs/Given.antt"

# A slice is two parameters of C's.
TYPES = {"&mut [u8]": ["uint8_t *", "size_t"], "&[u8]": ["const uint8_t *", "size_t"], "&mut usize": ["size_t *"],
         "u32": ["uint32_t"]}


def header_faults(header, texts):
    return entry_faults(header, texts) + number_faults(header)


# ---- The entries

def entry_faults(header, texts):
    declared, exported = declared_entries(header), exported_entries(texts)
    faults = ["include/vote.h: %s is not exported" % name for name in declared if name not in exported]
    for name, types in exported.items():
        if name not in declared:
            faults.append("include/vote.h: %s is missing" % name)
        elif declared[name] != types:
            faults.append("include/vote.h: %s has %s, the source %s" % (name, declared[name], types))
    return faults


def exported_entries(texts):
    """What each takes and gives back, as C has it."""
    entries = {}
    for text in texts.values():
        for function in functions(text):
            if function.exported:
                taken, given = re.fullmatch(r'\((.*)\) -> (\w+)', function.types, re.S).groups()
                types = [kind.strip() for kind in re.findall(r':([^,]+)', taken)]
                entries[function.name] = [c for kind in types for c in TYPES[kind]] + TYPES[given]
    return entries


def declared_entries(header):
    code = re.sub(r'/\*.*?\*/', '', header, flags=re.S)
    entries = {}
    for given, name, taken in re.findall(r'(\w+) (\w+)\(([^)]*)\);', code):
        types = [re.sub(r'\w+$', '', parameter.strip()).strip() for parameter in taken.split(",")]
        entries[name] = types + [given]
    return entries


# ---- The numbers

def number_faults(header):
    told, given = told_numbers(header), given_numbers()
    faults = ["include/vote.h: no entry gives %d" % number for number in told if number and number not in given]
    for number, quotes in sorted(given.items()):
        if number not in told:
            faults.append("include/vote.h: the number %d is missing" % number)
            continue
        for words in quotes:
            if words not in told[number]:
                faults.append("include/vote.h: %d does not say '%s'" % (number, words))
    return faults


def told_numbers(header):
    """The words of each number of the enum."""
    enum = header[header.index("enum vote_number"):]
    enum = enum[:enum.index("};")]
    rows = re.findall(r'VOTE_\w+ = (\d+),?\s*/\*(.*?)\*/', enum, re.S)
    return {int(number): " ".join(words.split()) for number, words in rows}


def given_numbers():
    """Of each number the quoted words, in parts where the quote has '..'.  No entry reads one ballot alone."""
    with open(GIVEN) as file:
        text = file.read()
    given = {}
    for definition in re.split(r'\n\n', text):
        if "read_table :" in definition:
            continue
        rows = re.findall(r'((?:[ \t]*--[^\n]*\n)*)[^\n]*\((\d+) exactly_when', definition)
        for comment, number in rows:
            quote = re.search(r'"(.*)"', " ".join(comment.replace("--", "").split()))
            parts = quote.group(1).split("..") if quote else []
            given.setdefault(int(number), []).extend(part.strip() for part in parts)
    return given


# ---- The same header with an error

def header_with_errors(header):
    yield "an entry that is not there", header.replace("vote_start(", "vote_begin(")
    yield "a record that is const", header.replace("vote_tick(uint8_t *", "vote_tick(const uint8_t *")
    yield "a wider coin", header.replace("uint32_t coin", "uint64_t coin")
    yield "a narrower index", header.replace("size_t *index", "uint32_t *index")
    yield "no index", header.replace(", size_t *index", "")
    yield "a number that no entry gives", header.replace("VOTE_DECISION = 11", "VOTE_DECISION = 12")
    yield "two numbers exchanged", re.sub("VOTE_COIN = 4", "VOTE_COIN = 5",
                                          header.replace("VOTE_LENGTH = 5", "VOTE_LENGTH = 4"))
    yield "another word", header.replace("coin above 1,", "coin above 2,")
