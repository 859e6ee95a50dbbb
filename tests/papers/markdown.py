"""The parts of a paper: what stands in backticks, its blocks of code, links, headings, tables."""

import re

LINK = re.compile(r"\]\(([^)\s]+)\)")
HEADING = re.compile(r"^#+ +(.*)$", re.M)


def parts(text):
    """The lines of prose, joined, and the lines of code; a fence or four columns make a block."""
    prose, code, fenced = [], [], False
    for line in text.split("\n"):
        if line.startswith("```"):
            fenced = not fenced
            prose.append("")
        elif fenced or (line.startswith("    ") and blank_before(prose)):
            code.append(line)
        else:
            prose.append(line)
    return "\n".join(prose), code


def blank_before(prose):
    """Four columns after a blank line are code; after an item they go on with it."""
    return bool(prose) and prose[-1].strip() == "" and not in_item(prose)


def in_item(prose):
    for line in reversed(prose):
        if line.strip() and not line.startswith(" "):
            return bool(re.match(r"(\d+\.|-) ", line))
    return False


def spans(prose):
    """What stands in backticks, with line breaks as spaces."""
    return [" ".join(found.split()) for found in re.findall(r"`([^`]+)`", prose)]


def links(text):
    return LINK.findall(text)


def anchors(text):
    """The headings as links call them."""
    names = set()
    for heading in HEADING.findall(parts(text)[0]):
        kept = re.sub(r"[^\w\- ]", "", heading.strip().lower())
        names.add(kept.replace(" ", "-"))
    return names


def cells(line):
    return [cell.strip() for cell in line.strip().strip("|").split("|")]


def tables(text):
    """Each table as its rows of cells, the head first, the line under it left out."""
    found, rows = [], []
    for line in text.split("\n") + [""]:
        if line.startswith("|"):
            rows.append(cells(line))
        elif rows:
            found.append([row for row in rows if not all(re.fullmatch(r":?-+:?", c) for c in row)])
            rows = []
    return found
