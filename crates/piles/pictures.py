"""A second reading of the rules in docs/CHARTS.md, made apart from the proved code.

  python3 pictures.py FILE..        prints for each file what the program `piles` must print of it
It shares nothing with the libraries; a message is read by crates/cases/reference.py, the second reading of docs/FORMAT.md.
"""
import bisect
import os
import sys

sys.path.insert(0, os.path.join(os.path.dirname(os.path.abspath(__file__)), "..", "cases"))
from reference import Refused, load, runs


class Picture:
    """A width, a height, and the level of each row and column inside."""

    def __init__(self, width, height, level):
        self.width, self.height, self.level = width, height, level

    def at(self, row, column):
        return self.level(row, column) if row < self.height and column < self.width else 0


def cells(levels, width, height):
    return Picture(width, height, lambda row, column: levels[row * width + column])


def packed(field):
    frame, _, packing, string = field
    starts, levels, done = [], [], 0
    for _, level, n in runs(string, packing["v"]):
        starts.append(done)
        levels.append(level)
        done += n
    return Picture(frame["ni"], frame["nj"], lambda row, column: levels[bisect.bisect(starts, row * frame["ni"] + column) - 1])


def window(below, width, height, column, row):
    return Picture(width, height, lambda i, j: below.at(row + i, column + j))


def recoded(below, levels):
    return Picture(below.width, below.height, lambda row, column: levels.get(below.at(row, column), 0))


def overlaid(rule, first, second):
    take = {"higher": max, "fill": lambda a, b: a if a else b}[rule]
    return Picture(first.width, first.height, lambda row, column: take(first.at(row, column), second.at(row, column)))


def lamps(packing):
    bounds = [b * 10 ** packing["scale"] for b in (1, 5, 10, 20, 30, 50, 80)]
    return {m: 1 + sum(r >= b for b in bounds) for m, r in enumerate(packing["table"], 1)}


SHOWN = (9, 3, 0, 0)
OCTETS = cells((0, 3, 3, 255, 1, 0, 0, 7), 4, 2)
MARKS = cells([rain if cause == 1 else 0 for rain, cause in ((0, 1), (9, 1), (9, 2), (9, 0), (255, 1), (254, 255), (1, 1), (1, 1))], 4, 2)


def pile(name, picture):
    rows = ("".join(f"{picture.at(row, column)} " for column in range(picture.width)) + "\n" for row in range(picture.height))
    return f"pile={name}\n" + "".join(rows)


def part(name, picture, place=SHOWN):
    return pile(name, window(picture, *place))


def piles(fields):
    out, charts = "", [packed(field) for field in fields]
    for k, field in enumerate(charts):
        second = charts[(k + 1) % len(charts)]
        for place in ((12, 3, 0, 0), (4, 4, 3, 1), (1, 3, 0, 0), (5, 2, 2, 0), (6, 3, 2556, 3358), (2, 2, 16383, 16383)):
            out += part("window", field, place)
        out += part("field", field) + part("lamps", recoded(field, lamps(fields[k][2]))) + part("turned", recoded(field, {0: 200, 1: 6}))
        out += part("hazard", overlaid("higher", field, second)) + part("no rule", overlaid("higher", field, second))
        out += part("fill", overlaid("fill", field, second)) + part("higher", overlaid("higher", second, field))
        cut = window(recoded(field, {1: 4, 2: 2}), 5, 3, 1, 0)
        out += pile("part over marks", overlaid("fill", cut, MARKS)) + pile("part and marks", overlaid("higher", cut, MARKS))
        out += pile("octets over", overlaid("fill", OCTETS, field)) + part("octets under", overlaid("fill", field, OCTETS))
    out += "open=13\n" + Refused(13, "charts", 0, 0).lines + pile("new", cells((0,), 1, 1)) + "cells=0 14\n" * 5
    out += "window=0\n" + "window=14\n" * 4 + pile("kept", window(cells((0, 3, 3, 255, 1, 0, 0, 7), 2, 4), 3, 2, 1, 1))
    return out + part("field kept", charts[0])


def text(s):
    try:
        _, fields = load(s)
    except Refused:
        return "no message is held\n"
    return piles(fields)


if __name__ == "__main__":
    for name in sys.argv[1:]:
        with open(name, "rb") as f:
            print(f"== {os.path.basename(name)}\n{text(f.read())}", end="")
