"""Reads a picture back: what stands where in it.  Nothing here knows how tools/picture goes about it."""

import re
import xml.etree.ElementTree as xml
from collections import namedtuple

SVG = "{http://www.w3.org/2000/svg}"
NUMBER = r"(-?\d+(?:\.\d+)?)"
LINE = re.compile("M%s %sL%s %s$" % (NUMBER, NUMBER, NUMBER, NUMBER))
ROW = re.compile("M%s %s((?:m%s 0h%s)*)$" % (NUMBER, NUMBER, NUMBER, NUMBER))
STROKE = re.compile("m%s 0h%s" % (NUMBER, NUMBER))

# A group with a title, and what is drawn in it: the marks used, the texts, strokes as (x, y, length), and the places
# across the picture of all its texts and marks that have one. A text without a title is a label.
Group = namedtuple("Group", "title x y marks texts strokes grids across")
Line = namedtuple("Line", "title kind left top right bottom")
Label = namedtuple("Label", "text x y")


class Drawn:
    def __init__(self, text):
        self.groups, self.lines, self.labels, self.untitled, self.links, self.tags = [], [], [], [], [], set()
        self.root = xml.fromstring(text)
        self.titles = len(self.root.findall(".//%stitle" % SVG))
        for child in self.root:
            if child.tag not in (SVG + "defs", SVG + "style", SVG + "title", SVG + "rect"):
                self.read(child, 0, 0)
        for element in self.root.iter():
            self.tags.add(element.tag)
            self.links += [value for key, value in element.attrib.items() if key.endswith("href")]

    def read(self, element, x, y):
        """A group without a title only moves; all else that is drawn must be in one with a title."""
        title = element.findtext(SVG + "title")
        x, y = moved(element, x, y)
        if element.tag == SVG + "g" and title is None:
            for child in element:
                self.read(child, x, y)
        elif element.tag == SVG + "g":
            self.groups.append(group_of(element, title, x, y))
        elif element.tag == SVG + "path" and title is not None:
            places = map(float, LINE.match(element.get("d")).groups())
            self.lines.append(Line(title, element.get("class"), *places))
        elif element.tag == SVG + "text":
            self.labels.append(Label(element.text, x + float(element.get("x", 0)), y + float(element.get("y"))))
        elif element.get("class") != "guide":
            self.untitled.append(element.tag)

    def grid_side(self):
        return float(self.root.find(".//%sg[@id='grid']/%srect" % (SVG, SVG)).get("width"))


def moved(element, x, y):
    found = re.match(r"translate\(%s,%s\)$" % (NUMBER, NUMBER), element.get("transform", ""))
    return (x + float(found[1]), y + float(found[2])) if found else (x, y)


def group_of(element, title, x, y):
    used = element.findall(SVG + "use")
    marks = [use.get("href") for use in used]
    texts = [text.text for text in element.findall(SVG + "text")]
    rows = element.findall(SVG + "path[@class='lost']")
    strokes = [stroke for row in rows for stroke in strokes_of(row.get("d"), x, y)]
    grids = [(x + float(use.get("x")), y + float(use.get("y"))) for use in used if use.get("href") == "#grid"]
    across = [x + float(child.get("x")) for child in element if child.get("x") is not None]
    return Group(title, x, y, marks, texts, strokes, grids, across)


def strokes_of(way, x, y):
    """A move to the row's beginning; then moves and strokes to the right."""
    left, top, rest = ROW.match(way).groups()[:3]
    x, y, strokes = x + float(left), y + float(top), []
    for skipped, length in STROKE.findall(rest):
        strokes.append((x + float(skipped), y, float(length)))
        x += float(skipped) + float(length)
    return strokes
