"""Draws a vote from the states that the proved program bench prints, as SVG.

    tools/picture [--rounds A-B] FILE > vote.svg
    tools/picture [--rounds A-B] < FILE > vote.svg

Heads stand from top to bottom and rounds from left to right, the starts first; the picture has a
legend. Every browser shows it; pointing at a shape says its words. With --rounds only the rounds A to
B are drawn. tools/trace tells the same as text.

Status 1 where the file is refused, with the number, the place and what it means on standard error; 2
where something else keeps it from being drawn.
"""

import sys

sys.dont_write_bytecode = True

import vote_command
from picture_drawing import picture_of

if __name__ == "__main__":
    sys.exit(vote_command.main("picture", __doc__, picture_of))
