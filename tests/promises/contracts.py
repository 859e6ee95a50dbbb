"""Every public function promises something and asks nothing, and the header for C says what the sources say.

    python3 tests/promises/contracts.py

Public is what other crates of crates.txt can call: what says `pub fn` or `pub extern "C" fn`, methods too, what a
public trait declares, and what an `impl` of a trait has, unless the trait is the crate's own.  So it is in `vote` and
in `vote_c` too.

- Each has an `ensures` and no `requires`: with one, the gate would still prove all, and a caller that breaks it would
  be promised nothing.  In an `impl` of a trait of ours it is the trait's; of another trait the `impl` says by
  `ghost NAME_gives` what its function gives.
- Of each that has a body, a theorem in proofs/Only.antt of its crate says that no second answer fits its promise, and
  no second contents of what is lent by `&mut`.
- include/vote.h declares the functions that are exported, with their types, and has each number of the tables in
  crates/rules/specs/Given.antt with the words that are quoted there.

Each time, every function is tried with a `requires` put in, without what it promises, and without its theorem or with
one that says less; every entry without the attribute that exports it; and the header with an entry, a type, a
number and a word changed: what is not found then is a failure too.
"""

import os
import sys

sys.dont_write_bytecode = True

from answers import answer_faults, only_theorems, with_one_answer, without_contents, without_theorem
from header import header_faults, header_with_errors
from sources import blocks, gives, public, sources, with_requires, without_ensures, without_export, without_gives


def contract_faults(texts):
    ours = {block.trait for text in texts.values() for block in blocks(text) if block.declares}
    return [said for path, function in public(texts) for said in clause_faults(path, texts[path], function, ours)]


def clause_faults(path, text, function, ours):
    if not function.given():
        if "ensures" not in function.clauses:
            yield "%s: %s has no `ensures`" % (path, function.called())
    elif function.block.trait not in ours and not gives(text, function):
        yield "%s: of %s no `ghost %s_gives` says what it gives" % (path, function.called(), function.name)
    if "requires" in function.clauses:
        yield "%s: %s has a `requires`" % (path, function.called())


def tried(texts, theorems, header):
    """How many errors were put in, and those that were not found."""
    count, missed = 0, []
    for path, function in public(texts):
        for what, is_found in errors_of(path, texts[path], function, texts, theorems, header):
            count += 1
            if not is_found:
                missed.append("%s: %s %s is not found" % (path, function.called(), what))
    for what, edited in header_with_errors(header):
        count += 1
        if edited == header or not header_faults(edited, texts):
            missed.append("include/vote.h: %s is not found" % what)
    return count, missed


def errors_of(path, text, function, texts, theorems, header):
    """What is wrong, and whether it is found."""
    def is_found(edited):
        return bool(contract_faults({**texts, path: edited}))

    yield "with a `requires`", is_found(with_requires(text, function))
    if not function.given():
        yield "with no `ensures`", is_found(without_ensures(text, function))
    elif gives(text, function):
        yield "with nothing that says what it gives", is_found(without_gives(text, function))
    if not function.declared():
        yield "with no theorem", bool(answer_faults(texts, without_theorem(function, path, theorems)))
        yield "with a theorem about one answer", bool(answer_faults(texts, with_one_answer(function, path, theorems)))
    if "&mut " in function.types:
        yield "with a theorem about the answer alone", bool(
            answer_faults(texts, without_contents(function, path, theorems)))
    if function.exported:
        yield "under another symbol", bool(header_faults(header, {**texts, path: without_export(text, function)}))


def main():
    os.chdir(os.path.join(os.path.dirname(os.path.abspath(__file__)), "..", ".."))
    texts = sources()
    theorems = only_theorems(texts)
    with open("include/vote.h") as file:
        header = file.read()
    faults = contract_faults(texts) + answer_faults(texts, theorems) + header_faults(header, texts)
    count, missed = (0, []) if faults else tried(texts, theorems, header)
    for fault in faults + missed:
        print(fault)
    print("promises: %d public functions, %d faults; %d errors put in, %d not found"
          % (len(public(texts)), len(faults), count, len(missed)))
    return 1 if faults or missed or not count else 0


if __name__ == "__main__":
    sys.exit(main())
