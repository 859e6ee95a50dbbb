"""What the tree has that a paper may name: its paths, what its sources define, the words in them."""

import os
import re

LEFT_OUT = {".git", "target", "out", "__pycache__"}
HERE = "tests/papers/"       # whose errors on purpose have words of their own
TEXTS = (".antt", ".rt", ".h", ".c", ".py", ".rs", ".sh", ".txt", ".edit")
PAGES = ("crates/rules/proofs/Demands.antt", "crates/rules/proofs/Offender.antt",
         "crates/file/proofs/TheBench.antt")

ANTT = re.compile(r"^(?:abbrev |unfoldable )*(?:pub )?([^\s(){}:]+) :"         # a definition, a theorem
                  r"|^ +(?:pub )?([^\s(){}:]+) :(?= )"                          # a field, a variant
                  r"|^(?:pub )?(?:record|data) (\S+)", re.M)
RT = re.compile(r"\b(?:fn|struct|enum|const|mod) (\w+)"
                r"|^ +pub (\w+):|^ +([A-Z]\w+)(?=[,({ ])"                      # a field, a variant
                r"|[(,] ?(\w+): ", re.M)                                        # a parameter
RT_BLOCK = re.compile(r"^(?:impl|(?:pub )?trait)\b(?:<[^>]*>)? ([^{]*?)\s*\{\n(.*?)^\}", re.M | re.S)
METHOD = re.compile(r"^ +[^/\n]*\bfn (\w+)", re.M)
C = re.compile(r"#define (\w+)|\b(\w+)\(")
PYTHON = re.compile(r"^ *(?:def|class) (\w+)|^([A-Z_]+) =", re.M)
THEOREM = re.compile(r"^pub ([a-z0-9_]+) :", re.M)
WORD = re.compile(r"[^\W\d_][\w'-]*")


class Tree:
    def __init__(self):
        self.paths = set()      # files and folders
        self.names = {}         # what is defined, with the files that define it
        self.words = set()      # every word of a source
        for folder, folders, files in os.walk("."):
            folders[:] = [f for f in folders if f not in LEFT_OUT]
            folder = os.path.normpath(folder)
            for name in folders + files:
                self.paths.add(os.path.normpath(os.path.join(folder, name)))
        for path in sorted(self.paths):
            self.take(path)
        self.edits = sorted(stem(p) for p in self.paths if p.endswith(".edit"))
        self.theorems = [t for page in PAGES for t in THEOREM.findall(text_of(page))]

    def take(self, path):
        if path.startswith("crates/") and not path.endswith(".edit"):
            self.define(stem(path), path)       # a file, a module or a folder of proofs
        if os.path.isdir(path) or path.endswith(".md"):
            return
        if not (path.endswith(TEXTS) or "." not in os.path.basename(path)):
            return
        text = "" if path.startswith(HERE) else text_of(path)
        self.words.update(WORD.findall(text))
        for pattern, endings in ((ANTT, ".antt"), (RT, ".rt"), (C, (".h", ".c")), (PYTHON, ".py")):
            if path.endswith(endings):
                for found in pattern.finditer(text):
                    self.define(next(g for g in found.groups() if g), path)
        if path.endswith(".rt"):
            for head, body in RT_BLOCK.findall(text):
                owner = re.match(r"\w+", head.rpartition(" for ")[2]).group()
                for method in METHOD.findall(body):
                    self.define("%s::%s" % (owner, method), path)       # a type's or a trait's

    def define(self, name, path):
        self.names.setdefault(name, set()).add(path)

    def has_path(self, path):
        """A path from the root, or the end of one: `Ballot.antt`, `proofs/Only.antt`."""
        path = path.rstrip("/")
        path = path[2:] if path.startswith("./") else path
        if "*" in path:
            shape = re.compile("(.*/)?" + re.escape(path).replace(r"\*", "[^/]*") + "$")
            return any(shape.match(p) for p in self.paths)
        return path in self.paths or any(p.endswith("/" + path) for p in self.paths)


def stem(path):
    return os.path.basename(path).split(".")[0]


def text_of(path):
    with open(path, errors="replace") as file:
        return file.read()
