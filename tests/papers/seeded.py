"""The errors that papers.py puts into the papers, one at a time."""

PAPER = "docs/promises/rules.md"     # the paper that errors are put into


def seeds(texts, tree):
    """What is wrong, the papers with it, and which check is to find it."""
    for edit in tree.edits:
        yield "the edit %s named twice" % edit, with_line(texts, "`%s`" % edit), "edits"
        yield "the edit %s named elsewhere" % edit, with_line(texts, "`%s`" % edit, "README.md"), "edits"
        yield "the edit %s not named" % edit, without(texts, "`%s`" % edit), "edits"
    for theorem in tree.theorems:
        yield "the theorem %s not named" % theorem, without(texts, "`%s`" % theorem), "theorems"
    for what, line in (
        ("a definition that is not there", "`tick_off`"),
        ("a theorem that is not there", "`no_three_decisions_differ`"),
        ("an edit that is not there", "`demand3_a_third_is_enough`"),
        ("a beginning of no name", "`demand9_..`"),
        ("a function of another crate", "`engine::report`"),
        ("a method of another type", "`Decision::number`"),
        ("a method of no trait", "`Coded::number`"),
        ("a method of another crate", "`run::Refusal::number`"),
        ("a file that is not there", "`crates/rules/specs/Ticks.antt`"),
        ("a folder that is not there", "`crates/rules/proofs/Unbroken`"),
        ("a file of no such name", "`Tock.antt`"),
        ("files of no such shape", "`crates/*/must-fail/*.edits`"),
        ("a command whose file is not there", "`bash tests/papers/walk`"),
        ("a formula with a word of no source", "`r ≡ tick_off head`"),
        ("a name on two lines", "`two_lossless_rounds\ndecide`"),
        ("a block of code with a file that is not there", "\n    ./bench samples/00-none.run\n"),
        ("a fence with a file that is not there", "```\ntools/paint samples/01-printed-case.run\n```"),
        ("a dead link", "[x](../NOWHERE.md)"),
        ("a link to no heading", "[x](demands.md#demand-4)"),
        ("a link to no heading here", "[x](#demand-4)"),
        ("a wide line", "a " * 61),
        ("a wide cell", "| " + "a" * 121 + " | b |"),
        ("a name in another file", "| A | File |\n|---|---|\n| `tick_of` | `Ballot.antt` |"),
        ("a function in another file", "| A | Code |\n|---|---|\n| a | `tick`, `look.rt` |"),
        ("a row of too many cells", "| A | File |\n|---|---|\n| a | `Tick.antt` | b |"),
        ("a name in no file", "| A | File |\n|---|---|\n| `tick_of` | |"),
    ):
        yield what, with_line(texts, line), "paper"


def with_line(texts, line, paper=PAPER):
    return {**texts, paper: texts[paper] + "\n" + line + "\n"}


def without(texts, span):
    return {path: text.replace(span, "that") if path.startswith("docs/promises/") else text
            for path, text in texts.items()}
