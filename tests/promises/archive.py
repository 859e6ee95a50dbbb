"""What an archive exports, keeps and asks for; tests/promises/archive says how to call it.

    python3 tests/promises/archive.py ARCHIVE

The objects are ELF of 64 bits, low byte first.  A symbol is exported if it is defined, not local and of default
visibility; it is asked for if some object leaves it undefined and none defines it.  What is kept between calls would
stand in a section that a program can write to.
"""

import struct
import sys
from typing import NamedTuple

sys.dont_write_bytecode = True

from header import declared_entries

ASKED = {"memset"}
SYMBOL_TABLE, LOCAL, DEFAULT, UNDEFINED = 2, 0, 0, 0
WRITABLE = 3    # a section's flags: in memory, and to be written


class Section(NamedTuple):
    name: int
    kind: int
    flags: int
    address: int
    offset: int
    length: int
    link: int
    info: int


def members(archive):
    """The objects of an archive, without its tables of names."""
    assert archive.startswith(b"!<arch>\n"), "no archive"
    at = 8
    while at + 60 <= len(archive):
        name, size = archive[at:at + 16], int(archive[at + 48:at + 58])
        if not name.startswith((b"/ ", b"// ", b"/SYM64/")):
            yield archive[at + 60:at + 60 + size]
        at += 60 + size + size % 2


def sections(member):
    assert member[:6] == b"\x7fELF\x02\x01", "no object of 64 bits, low byte first"
    start, = struct.unpack_from("<Q", member, 40)
    size, count = struct.unpack_from("<HH", member, 58)
    return [Section(*struct.unpack_from("<IIQQQQII", member, start + size * index)) for index in range(count)]


def symbols(member):
    """Name, binding, visibility and section of each symbol of an object."""
    every = sections(member)
    for table in every:
        if table.kind != SYMBOL_TABLE:
            continue
        for at in range(table.offset, table.offset + table.length, 24):
            name, info, other, section = struct.unpack_from("<IBBH", member, at)
            place = every[table.link].offset + name
            yield member[place:member.index(b"\0", place)].decode(), info >> 4, other & 3, section


def faults(archive, entries):
    exported, inside, asked, kept = set(), set(), set(), 0
    for member in members(archive):
        kept += sum(section.length for section in sections(member) if section.flags & WRITABLE == WRITABLE)
        for name, binding, visibility, section in symbols(member):
            if binding == LOCAL:
                continue
            if section == UNDEFINED:
                asked.add(name)
                continue
            inside.add(name)
            if visibility == DEFAULT:
                exported.add(name)
    told = ["the archive exports %s, which is no entry" % name for name in sorted(exported - entries)]
    told += ["the archive does not export %s" % name for name in sorted(entries - exported)]
    told += ["the archive asks for %s" % name for name in sorted(asked - inside - ASKED)]
    return told + ["the archive keeps %d bytes between calls" % kept] * (kept > 0)


def with_errors(archive, entries):
    """Archives and entries that must not pass: an entry too few, one too many, a section that can be written."""
    for entry in entries:
        yield archive, entries - {entry}
    yield archive, entries | {"vote_more"}
    member = next(members(archive))
    start, = struct.unpack_from("<Q", member, 40)
    text = next(index for index, section in enumerate(sections(member)) if section.flags and section.length)
    edited = bytearray(member)
    struct.pack_into("<Q", edited, start + 64 * text + 8, WRITABLE)
    yield archive.replace(member, bytes(edited)), entries


def main(path):
    with open(path, "rb") as file:
        archive = file.read()
    with open("include/vote.h") as file:
        entries = set(declared_entries(file.read()))
    found = faults(archive, entries)
    missed = sum(not faults(*error) for error in with_errors(archive, entries))
    for fault in found:
        print(fault)
    print("archive: %d entries exported, %d faults; %d errors put in, %d not found"
          % (len(entries), len(found), len(list(with_errors(archive, entries))), missed))
    return 1 if found or missed or not entries else 0


if __name__ == "__main__":
    sys.exit(main(sys.argv[1]))
