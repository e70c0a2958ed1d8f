"""Makes those messages of data/ that crates/cases has not: python3 grids.py FOLDER

Each is built from the rules in docs/FORMAT.md; pictures.py says what each must give.
"""
import os
import random
import sys

sys.path.insert(0, os.path.join(os.path.dirname(os.path.abspath(__file__)), "..", "cases"))
from messages import field, message, one


def scattered(first, cells, v):
    """A string of runs of random levels and lengths, some of them split, in one octet for each cell or with a digit."""
    dice, out, left = random.Random(first), [], cells
    while left:
        n = min(left, dice.choice((1, 1, 2, 3, 5, 9)))
        out += [dice.randint(0, v)] + ([v + n] if n > 1 else [])
        left -= n
    return bytes(out)


def near_bounds(e):
    """Values at the bounds of the lamps, just below and just above them."""
    values = {b * 10**e + d for b in (1, 5, 10, 20, 30, 50, 80) for d in (-1, 0, 1)} | {-32767, 0, 32767}
    return tuple(sorted(x for x in values if abs(x) <= 32767))


def made():
    """(name, octets) of each message."""
    for e in (0, 1, 2, 3, 6):
        table = near_bounds(e)
        yield f"lamps-{e}", message(one(), field(9, 3, bytes(k if k <= len(table) else 0 for k in range(27)), v=len(table), table=table, e=e))
    for row, sizes in enumerate((((7, 5), (5, 7)), ((4, 2), (9, 3), (3, 9)), ((1, 11), (11, 1), (10, 4)))):
        grids = [field(w, h, scattered(10 * row + k, w * h, 3), v=3, table=(-5, 12, 990), di=3 + k) for k, (w, h) in enumerate(sizes)]
        yield f"grids-{row}", message(one(), *grids)


if __name__ == "__main__":
    for name, octets in made():
        with open(os.path.join(sys.argv[1], name + ".bin"), "wb") as f:
            f.write(octets)
