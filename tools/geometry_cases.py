#!/usr/bin/env python3
"""Cases for turns, centres, positions and free spots, by another road than the library's.

Writes what the program `geometry_cases` reads and what it must print:

    python3 tools/geometry_cases.py crates/geometry_cases

puts `stdin` and `stdout` into that folder. Positions come from the standard's formula with exact fractions (a ratio of
sides times a distance), turns and centres are whole parts of such fractions, and a free spot is found by trying every
spot in reading order. Nothing here mirrors, turns or jumps the way the library does.
"""
import random
import sys
from fractions import Fraction
from math import floor

HALF = Fraction(1, 2)


def standard(code, w, h, x, y, q, s):
    """The centre point of sample (x, y) of a body of w by h, inside a projected rectangle of q by s."""
    from_left, from_right = x + HALF, w - x - HALF
    from_top, from_bottom = y + HALF, h - y - HALF
    across, down = {
        0: (from_left, from_top), 1: (from_right, from_top), 2: (from_right, from_bottom), 3: (from_left, from_bottom),
        4: (from_top, from_left), 5: (from_top, from_right), 6: (from_bottom, from_right), 7: (from_bottom, from_left),
    }[code]
    wide, high = (w, h) if code < 4 else (h, w)
    return Fraction(q, wide) * across, Fraction(s, high) * down, wide, high


def turns():
    """Where each place of small bodies comes to: a field as large as the body makes the ratio 1."""
    for code in range(8):
        for w in range(1, 4):
            for h in range(1, 4):
                a, d = (w, h) if code < 4 else (h, w)
                places = []
                for y in range(h):
                    for x in range(w):
                        across, down, _, _ = standard(code, w, h, x, y, a, d)
                        places.append(f"{floor(across)},{floor(down)}")
                yield f"turn {code} of {w} by {h} into {a} by {d}: " + " ".join(places)


def centres():
    for n in range(1, 13):
        for d in range(1, 13):
            cells = [str(floor((i + HALF) / d * n)) for i in range(d)]
            yield f"centre of {n} in {d}: " + " ".join(cells)


def positions():
    """A rectangle of 5 by 7 at top 1 left 4 on a body of 2 by 3, every place under every code."""
    q, s, top, left, w, h = 5, 7, 1, 4, 2, 3
    for code in range(8):
        items = []
        for y in range(h):
            for x in range(w):
                across, down, wide, high = standard(code, w, h, x, y, q, s)
                items.append(f"{(left + across) * 2 * wide}/{2 * wide},{(top + down) * 2 * high}/{2 * high}")
        yield f"position {code}: " + " ".join(items)


def film_columns():
    """Counted by hand in docs/RULES.md: a body 2 wide, a rectangle 3 wide, columns 0, 1, 2 of the rectangle."""
    return ["film columns under code 0: 0 1 1", "film columns under code 1: 1 0 0"]


def first_free(tops, lefts, boxes):
    for t in range(tops):
        for l in range(lefts):
            if not any(a <= t < b and c <= l < d for a, b, c, d in boxes):
                return f"spot {t} {l}"
    return "no spot"


def spot_cases(seed, count):
    rng = random.Random(seed)
    for _ in range(count):
        tops, lefts = rng.randrange(0, 9), rng.randrange(0, 9)
        boxes = []
        for _ in range(rng.randrange(0, 9)):
            a, c = rng.randrange(0, 9), rng.randrange(0, 9)
            boxes.append((a, a + rng.randrange(0, 7), c, c + rng.randrange(0, 7)))
        yield tops, lefts, boxes


def largest():
    """255 boxes on 65,535 by 65,535: the corners that a first spot can have are 0 and the boxes' ends."""
    side = 65535
    columns = [(0, side - (i == 127), 512 * i, min(512 * i + 512, side)) for i in range(128)]
    boxes = columns + [(0, 500 * (i + 1), 0, side) for i in range(127)]
    tops = sorted({0} | {b for _, b, _, _ in boxes if b < side})
    lefts = sorted({0} | {d for _, _, _, d in boxes if d < side})
    for t in tops:
        for l in lefts:
            if not any(a <= t < b and c <= l < d for a, b, c, d in boxes):
                return f"spot {t} {l}"
    return "no spot"


def main(folder, seed=20261117, count=400):
    cases = list(spot_cases(seed, count))
    with open(f"{folder}/stdin", "w") as f:
        for tops, lefts, boxes in cases:
            f.write(" ".join(map(str, [tops, lefts] + [n for b in boxes for n in b])) + "\n")
    with open(f"{folder}/stdout", "w") as f:
        for lines in turns(), centres(), positions(), film_columns():
            f.writelines(line + "\n" for line in lines)
        f.writelines(first_free(*case) + "\n" for case in cases)
        f.write("largest: " + largest() + "\n")


if __name__ == "__main__":
    main(*sys.argv[1:2], *map(int, sys.argv[2:]))
