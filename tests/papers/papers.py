"""README.md and docs/ name only what is there.

    python3 tests/papers/papers.py

- A name in backticks is defined somewhere in the tree, `crate::function` in that crate, `Type::method` in a block of
  that type, and `crate::Type::method` in one of that crate; a path is there. Of a formula, a command or a line of
  output every word occurs in a source, and every path in it is there.
- A name with the ending `..` is the beginning of names that are there.
- In a table of docs/promises with a column 'File' every definition and theorem of a row stands in a file of that
  row, or on one of the pages; and what a cell of a column 'Code' names, in a file of that cell.
- Every must-fail edit is named once in all papers, in docs/promises; every theorem of the pages is named there.
- A link leads to a file, and to a heading of it.
- A cell of a table has at most 120 characters, and so has any other line.

Each time errors are put into the papers, one at a time: what is not found then is a failure too.
"""

import collections
import functools
import glob
import os
import posixpath
import re
import sys

sys.dont_write_bytecode = True

from markdown import anchors, links, parts, spans, tables
from outside import OUTSIDE
from seeded import PAPER, seeds
from tree import PAGES, Tree, text_of

WIDEST = 120
BOTH = {"docs/PORT.md", "docs/DESIGN-PASS.md"}
NAME = re.compile(r"[^\W\d][\w'-]*(::\w+){0,2}")
PATH = re.compile(r"[\w./*-]*(/[\w.*-]+|\.(antt|rt|md|py|c|h|rs|sh|run|edit|txt|svg|out))/?")
IN_PHRASE = re.compile(r"[\w./*'-]*[^\W\d_][\w./*'-]*")


def papers():
    """The text of each paper, by path.  The pages of BOTH have old names beside those of the tree."""
    paths = ["README.md"] + sorted(glob.glob("docs/**/*.md", recursive=True))
    return {path: text_of(path) for path in paths if path not in BOTH}


def all_faults(texts, tree):
    faults = edit_faults(texts, tree) + theorem_faults(texts, tree)
    return faults + [said for path in sorted(texts) for said in paper_faults(path, texts, tree)]


def paper_faults(path, texts, tree):
    return ["%s: %s" % (path, said) for check in (name_faults, place_faults, link_faults, width_faults)
            for said in check(path, texts, tree)]


# ---- names and paths

def name_faults(path, texts, tree):
    prose, code = parts(texts[path])
    faults = [said for span in spans(prose) for said in span_faults(span, tree)]
    return faults + [said for line in code for said in path_faults(line, tree)]


def span_faults(span, tree):
    if span in OUTSIDE or len(span) == 1 or not re.search(r"[^\W\d_]", span):
        return []
    if span.endswith(".."):
        beginning = span[:-2]
        found = tree.has_path(beginning) or any(n.startswith(beginning) for n in list(tree.names) + tree.edits)
        return [] if found else ["nothing begins with `%s`" % beginning]
    if PATH.fullmatch(span):
        return path_faults(span, tree)
    if NAME.fullmatch(span):
        return [] if is_there(span, tree) else ["there is no `%s`" % span]
    return path_faults(span, tree) + word_faults(span, tree)


def is_there(name, tree):
    if name in tree.names:
        return True
    if "::" in name:
        crate, within = name.split("::", 1)
        return any(p.startswith("crates/%s/src/" % crate) for p in tree.names.get(within, ()))
    return name in tree.edits or name in tree.paths


def path_faults(text, tree):
    """Paths among the words of a text; what commands leave in target/ is not in the tree."""
    faults = []
    for word in text.split():
        word = word.strip("`'\"(),;:").rstrip(".")
        if PATH.fullmatch(word) and not word.startswith(("target/", "//", "/*")) and not tree.has_path(word):
            faults.append("there is no file `%s`" % word)
    return faults


def word_faults(span, tree):
    faults = []
    for word in IN_PHRASE.findall(span):
        word = word.strip("./-'")
        if "/" in word or "." in word or word.isupper() or len(word) < 2:
            continue
        if word not in tree.words and word not in tree.names and word not in OUTSIDE:
            faults.append("no source has the word %s of `%s`" % (word, span))
    return faults


# ---- where a name stands

def place_faults(path, texts, tree):
    if not path.startswith("docs/promises/"):
        return []
    faults = []
    for head, *rows in tables(texts[path]):
        for row in rows:
            if len(row) != len(head):
                faults.append("a row of %d cells, not %d: %s .." % (len(row), len(head), row[0][:60]))
                continue
            cells = dict(zip(head, row))
            faults += code_faults(spans(cells.pop("Code", "")), tree)
            if "File" in cells:
                files = spans(cells.pop("File"))
                faults += [said for cell in cells.values() for said in file_faults(spans(cell), files, tree)]
    return faults


def file_faults(names, files, tree):
    """Definitions and theorems that stand in none of the files."""
    faults = []
    for name in names:
        homes = [p for p in tree.names.get(name, ()) if p.endswith(".antt")]
        if homes and name not in tree.edits and not any(h in PAGES or is_in(h, files) for h in homes):
            faults.append("`%s` is not in %s" % (name, ", ".join(files) or "a file that is named"))
    return faults


def code_faults(named, tree):
    """Functions of a cell that stand in none of its files of code."""
    files = [name for name in named if PATH.fullmatch(name)]
    return ["`%s` is not in %s" % (name, ", ".join(files) or "a file that is named")
            for name in named if name not in files and not any(is_in(h, files) for h in tree.names.get(name, ()))]


def is_in(home, files):
    return any(home == f or home.endswith("/" + f) or home.startswith(f.rstrip("/") + "/") for f in files)


# ---- edits, theorems

@functools.lru_cache(maxsize=1024)
def times_named(text):
    return collections.Counter(spans(parts(text)[0]))


def named_in(texts, folder):
    return sum((times_named(texts[path]) for path in texts if path.startswith(folder)), collections.Counter())


def edit_faults(texts, tree):
    """Each edit is named once in all papers, in docs/promises."""
    everywhere, promised = named_in(texts, ""), named_in(texts, "docs/promises/")
    return ["the edit `%s` is named %d times, %d of them in docs/promises" % (e, everywhere[e], promised[e])
            for e in tree.edits if not everywhere[e] == promised[e] == 1]


def theorem_faults(texts, tree):
    promised = named_in(texts, "docs/promises/")
    return ["the theorem `%s` is not named in docs/promises" % t for t in tree.theorems if t not in promised]


# ---- links, widths

def link_faults(path, texts, tree):
    faults = []
    for link in links(texts[path]):
        if re.match(r"[a-z]+:", link):
            continue
        file, _, anchor = link.partition("#")
        leads_to = posixpath.normpath(posixpath.join(posixpath.dirname(path), file)) if file else path
        if leads_to not in tree.paths and leads_to not in texts:
            faults.append("the link %s leads nowhere" % link)
        elif anchor and anchor not in anchors(texts.get(leads_to, "")):
            faults.append("the link %s: there is no such heading" % link)
    return faults


def width_faults(path, texts, tree):
    faults = []
    for line in texts[path].split("\n"):
        if not line.startswith("|") and len(line) > WIDEST:
            faults.append("a line of %d characters: %s .." % (len(line), line[:60]))
    for table in tables(texts[path]):
        for row in table:
            faults += ["a cell of %d characters: %s .." % (len(c), c[:60]) for c in row if len(c) > WIDEST]
    return faults


def missed_seeds(texts, tree, faults):
    """How many errors were put in, and those that no new fault shows."""
    checks = {"edits": edit_faults, "theorems": theorem_faults,
              "paper": lambda edited, tree: paper_faults(PAPER, edited, tree)}
    count, missed = 0, []
    for what, edited, check in seeds(texts, tree):
        count += 1
        if not [fault for fault in checks[check](edited, tree) if fault not in faults]:
            missed.append("%s is not found" % what)
    return count, missed


def main():
    os.chdir(os.path.join(os.path.dirname(os.path.abspath(__file__)), "..", ".."))
    texts, tree = papers(), Tree()
    faults = all_faults(texts, tree)
    count, missed = missed_seeds(texts, tree, faults)
    for fault in faults + missed:
        print(fault)
    print("papers: %d papers, %d edits, %d theorems, %d faults; %d errors put in, %d not found"
          % (len(texts), len(tree.edits), len(tree.theorems), len(faults), count, len(missed)))
    return 1 if faults or missed or not tree.edits or not tree.theorems or not count else 0


if __name__ == "__main__":
    sys.exit(main())
