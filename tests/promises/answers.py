"""That no second answer fits a public function: a theorem in proofs/Only.antt of its crate, over its promise."""

import os
import re

from sources import crate_of, public

CONTENTS = re.compile(r" × \(s[\w.]+ ≡ s'[\w.]+\)")


def answer_faults(texts, theorems):
    return [said for path, function in public(texts) if not function.declared()
            for said in theorem_faults(path, function, theorem_of(function, path, theorems))]


def theorem_faults(path, function, theorem):
    """One equation of the answers, and one of the contents of each slice or number that is lent by `&mut`."""
    if not theorem:
        yield "%s: of %s no theorem says that no second answer fits" % (path, function.called())
    elif len(CONTENTS.findall(theorem.group())) < function.types.count("&mut "):
        yield "%s: of %s no theorem says that no second contents fit" % (path, function.called())


def only_theorems(texts):
    """The text of each crate's proofs/Only.antt, by crate; comments left out."""
    found = {}
    for crate in {crate_of(path) for path in texts}:
        path = "crates/%s/proofs/Only.antt" % crate
        if os.path.exists(path):
            with open(path) as file:
                found[crate] = re.sub(r'--[^\n]*', '', file.read())
    return found


def theorem_of(function, path, theorems):
    """The statement that two answers which both meet the function's promise are equal."""
    text = theorems.get(crate_of(path), "")
    use = re.search(r'^use %s\.Reads as (\w+)$' % re.escape(promise_of(function, path)), text, re.M)
    if not use:
        return None
    post = re.escape(use.group(1)) + r"\.Post κs a "
    return re.search(r"^pub \w+ : [^\n]*→ %sr s → %sr' s'\s*→ \(?r(\.now)? ≡ r'(\.now)?(?![\w.'])[^\n]*$" % (post, post),
                     text, re.M)


def promise_of(function, path):
    """Where a function's promise stands as a statement: by module, type and name."""
    modules = [part for part in path[:-len(".rt")].split("/")[3:] if part not in ("lib", "main")]
    owners = [function.block.owner] if function.block else []
    return ".".join(["Rattle", crate_of(path), "proofs"] + modules + owners + [function.name])


# ---- The same theorems with an error

def without_theorem(function, path, theorems):
    found = theorem_of(function, path, theorems)
    text = theorems[crate_of(path)]
    return {**theorems, crate_of(path): text[:found.start()] + text[found.end():]}


def with_one_answer(function, path, theorems):
    """As if the second promise were of the first answer."""
    found = theorem_of(function, path, theorems)
    text = theorems[crate_of(path)]
    return {**theorems, crate_of(path): text[:found.start()] + found.group().replace("κs a r' s'", "κs a r s")
            + text[found.end():]}


def without_contents(function, path, theorems):
    found = theorem_of(function, path, theorems)
    text = theorems[crate_of(path)]
    return {**theorems, crate_of(path): text[:found.start()] + CONTENTS.sub("", found.group(), count=1)
            + text[found.end():]}
