#!/usr/bin/env python3
"""Lists of edits, positions and serving, by another road than the library's.

Writes what the program `sheet_cases` reads and what it must print:

    python3 tools/sheet_cases.py crates/sheet_cases

puts `stdin` and `stdout` into that folder. A sheet here is a plain picture of owners: a claim is painted cell by cell,
claims meet where a cell is taken, a free spot is found by trying every spot in reading order, and positions and serving
are exact fractions of the standard's formula. Nothing here tests rectangles, jumps or turns the way the library does.
"""
import random
import sys
from fractions import Fraction
from math import floor

HALF = Fraction(1, 2)


class Refused(Exception):
    pass


class Sheet:
    def __init__(self):
        self.sides, self.rows = (1, 1, 1, 1), []

    def open(self, sides):
        if 0 in sides:
            raise Refused(8)
        self.sides, self.rows = sides, []
        return "granted"

    @staticmethod
    def claim(row):
        """The cells that a row claims, with those left of or above the picture."""
        w, h, top, left = row["body"]
        l, r, t, b = row["bands"][0] if row["bands"] else (0, 0, 0, 0)
        return {(x, y) for y in range(top - t, top + h + b) for x in range(left - l, left + w + r)}

    def shape(self, row):
        pw, ph, _, _ = self.sides
        q, s, top, left = row["projected"]
        if len(self.rows) == 255:
            raise Refused(16)
        if row["turn"] > 7:
            raise Refused(11)
        if 0 in (q, s) + tuple(row["body"][:2]):
            raise Refused(8)
        if row["bands"] and (max(row["bands"][2]) > 4 or not any(row["bands"][0])):
            raise Refused(10)
        if left + q > pw or top + s > ph:
            raise Refused(12)

    def taken(self):
        return set().union(*[self.claim(r) for r in self.rows]) if self.rows else set()

    def lay(self, row):
        self.shape(row)
        _, _, kw, kh = self.sides
        cells = self.claim(row)
        if any(x < 0 or y < 0 or x >= kw or y >= kh for x, y in cells):
            raise Refused(13)
        if cells & self.taken():
            raise Refused(14)
        self.rows.append(row)
        return "granted"

    def place(self, row):
        self.shape(row)
        _, _, kw, kh = self.sides
        taken = self.taken()
        for top in range(kh):
            for left in range(kw):
                trial = dict(row, body=tuple(row["body"][:2]) + (top, left))
                cells = self.claim(trial)
                if all(0 <= x < kw and 0 <= y < kh for x, y in cells) and not cells & taken:
                    self.rows.append(trial)
                    return f"placed {top} {left}"
        raise Refused(17)

    def lift(self, n):
        if n >= len(self.rows):
            raise Refused(18)
        del self.rows[n]
        return "granted"

    def position(self, n, x, y):
        if n >= len(self.rows):
            raise Refused(18)
        row = self.rows[n]
        w, h = row["body"][:2]
        if x >= w or y >= h:
            raise Refused(19)
        across, down, a, d = point(row, x, y)
        return f"position {across * 2 * a}/{2 * a} {down * 2 * d}/{2 * d}"

    def serve(self, x, y):
        pw, ph, _, _ = self.sides
        if x >= pw or y >= ph:
            raise Refused(19)
        for n, row in enumerate(self.rows):
            q, s, top, left = row["projected"]
            if left <= x < left + q and top <= y < top + s:
                return "served %d %d %d" % ((n,) + body_place(row, x, y))
        raise Refused(20)


def point(row, x, y):
    """Where the middle of body sample (x, y) lies, by the standard's formula."""
    q, s, top, left = row["projected"]
    w, h = row["body"][:2]
    near_x, far_x, near_y, far_y = x + HALF, w - x - HALF, y + HALF, h - y - HALF
    across, down = [(near_x, near_y), (far_x, near_y), (far_x, far_y), (near_x, far_y),
                    (near_y, near_x), (near_y, far_x), (far_y, far_x), (far_y, near_x)][row["turn"]]
    a, d = (w, h) if row["turn"] < 4 else (h, w)
    return left + Fraction(q, a) * across, top + Fraction(s, d) * down, a, d


def body_place(row, x, y):
    """The body place whose field cell has the middle of a projected sample: the cell is looked for, not turned back."""
    q, s, top, left = row["projected"]
    w, h = row["body"][:2]
    a, d = (w, h) if row["turn"] < 4 else (h, w)
    cell = (floor((x - left + HALF) / q * a), floor((y - top + HALF) / s * d))
    for by in range(h):
        for bx in range(w):
            unit = dict(row, projected=(a, d, 0, 0))
            across, down, _, _ = point(unit, bx, by)
            if (floor(across), floor(down)) == cell:
                return bx, by


def bands(rng):
    kind = rng.randrange(8)
    if kind < 5:
        return None
    sizes = tuple(rng.choice([0, 0, 1, 1, 2]) for _ in range(4))
    kinds = tuple(rng.choice([0, 1, 2, 3, 4, 4, 5]) if kind == 7 else rng.randrange(5) for _ in range(4))
    return sizes, rng.randrange(2), kinds


def row(rng, sides):
    """A row that mostly fits, and sometimes has one fault of each kind."""
    pw, ph, kw, kh = sides
    fault = rng.randrange(14)
    q, s = rng.randrange(1, pw + 1), rng.randrange(1, ph + 1)
    top, left = rng.randrange(0, ph - s + 1), rng.randrange(0, pw - q + 1)
    w, h = rng.randrange(1, kw // 2 + 2), rng.randrange(1, kh // 2 + 2)
    body = (w, h, rng.randrange(0, max(1, kh - h + 1)), rng.randrange(0, max(1, kw - w + 1)))
    if fault == 0:
        q = 0
    elif fault == 1:
        body = (w, 0) + body[2:]
    elif fault == 2:
        left = pw - q + 1
    elif fault == 3:
        top = ph - s + 1
    return {"projected": (q, s, top, left), "turn": 8 if fault == 4 else rng.randrange(8), "body": body, "bands": bands(rng)}


def text(r, spot):
    items = list(r["projected"]) + [r["turn"]] + list(r["body"] if spot else r["body"][:2])
    if r["bands"]:
        items += list(r["bands"][0]) + [r["bands"][1]] + list(r["bands"][2])
    return " ".join(map(str, items))


def film():
    """The edits of the small worked film, with their known answers checked below."""
    e0 = {"projected": (4, 4, 0, 0), "turn": 0, "body": (4, 4, 0, 0), "bands": None}
    e1 = {"projected": (4, 4, 0, 4), "turn": 5, "body": (2, 4, 0, 4), "bands": None}
    small = {"projected": (2, 2, 0, 0), "turn": 0, "body": (2, 2, 0, 0), "bands": None}
    banded = dict(small, bands=((1, 0, 0, 0), 0, (0, 0, 0, 0)))
    wide = {"projected": (4, 4, 0, 5), "turn": 0, "body": (1, 1, 0, 5), "bands": None}
    return [("open", (8, 4, 6, 4)), ("lay", e0), ("lay", e1), ("position", (1, 0, 1)), ("serve", (5, 3)), ("lift", 2), ("lift", 1),
            ("place", small), ("place", small), ("place", small), ("open", (8, 4, 6, 4)), ("lay", banded),
            ("lay", dict(banded, body=(2, 2, 0, 1))), ("lay", wide), ("lay", dict(wide, projected=(4, 4, 0, 4)))]


FILM = ["granted", "granted", "granted", "position 44/8 12/4", "served 1 0 1", "refused 18", "granted", "placed 0 4", "placed 2 4",
        "refused 17", "granted", "refused 13", "granted", "refused 12", "granted"]


def full():
    """A sheet of 255 rows, then one more."""
    tiny = {"projected": (1, 1, 0, 0), "turn": 0, "body": (1, 1, 0, 0), "bands": None}
    return [("open", (16, 16, 16, 16))] + [("place", tiny)] * 256 + [("lift", 100), ("place", tiny), ("lay", tiny)]


def random_list(rng):
    sides = tuple(rng.randrange(1, 9) for _ in range(4))
    calls = [("open", sides)]
    for _ in range(rng.randrange(4, 14)):
        what = rng.randrange(14)
        if what < 3:
            calls.append(("lay", row(rng, sides)))
        elif what < 7:
            calls.append(("place", row(rng, sides)))
        elif what < 8:
            calls.append(("lift", rng.randrange(0, 3)))
        elif what < 11:
            calls.append(("position", (rng.randrange(0, 3), rng.randrange(0, 3), rng.randrange(0, 3))))
        else:
            calls.append(("serve", (rng.randrange(0, sides[0] + 1), rng.randrange(0, sides[1] + 1))))
        if rng.randrange(20) == 0:
            sides = tuple(rng.choice([0, 3, 5, 6]) for _ in range(4))
            calls.append(("open", sides))
            if 0 in sides:
                sides = (4, 4, 4, 4)
                calls.append(("open", sides))
    return calls


def questions(rng, sheet):
    """Positions in each row that was laid, and places that its rectangle has."""
    for n, r in enumerate(sheet.rows):
        q, s, top, left = r["projected"]
        w, h = r["body"][:2]
        yield "position", (n, rng.randrange(w), rng.randrange(h))
        yield "serve", (left + rng.randrange(q), top + rng.randrange(s))


def largest():
    """254 bodies 258 wide, each one sample shorter than the one before it, on 65,535 by 65,535; then a body of 4 by 1. A first
    spot has a top of 0 or where a claim ends, and a left of 0 or where a claim ends."""
    side = 65535
    boxes = [(0, side - i, 258 * i, 258 * i + 258) for i in range(254)]
    for top in sorted({0} | {b for _, b, _, _ in boxes}):
        for left in sorted({0} | {r for _, _, _, r in boxes}):
            if left + 4 <= side and top < side and not any(t <= top < b and l < left + 4 and left < r for t, b, l, r in boxes):
                return f"placed {top} {left}"
    return "refused 17"


def line(call, given):
    if call in ("lay", "place"):
        return f"{call} {text(given, call == 'lay')}"
    return f"{call} " + " ".join(map(str, given if isinstance(given, tuple) else (given,)))


def answer(sheet, call, given):
    try:
        return getattr(sheet, call)(*given) if call in ("position", "serve") else getattr(sheet, call)(given)
    except Refused as e:
        return f"refused {e.args[0]}"


def main(folder, seed=20261117, lists=120):
    rng = random.Random(seed)
    runs = [film(), full()] + [random_list(rng) for _ in range(lists)]
    with open(f"{folder}/stdin", "w") as given, open(f"{folder}/stdout", "w") as told:
        for number, calls in enumerate(runs):
            sheet = Sheet()
            answers = []
            given.write("new\n")
            for call, what in calls:
                given.write(line(call, what) + "\n")
                answers.append(answer(sheet, call, what))
            for call, what in questions(rng, sheet) if number > 1 else []:
                given.write(line(call, what) + "\n")
                answers.append(answer(sheet, call, what))
            if number == 0:
                assert answers == FILM, answers
            told.writelines(a + "\n" for a in answers)
        told.write("largest: " + largest() + "\n")


if __name__ == "__main__":
    main(*sys.argv[1:2], *map(int, sys.argv[2:]))
