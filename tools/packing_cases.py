#!/usr/bin/env python3
"""Small pictures to pack and unpack, and what must come out.

    python3 tools/packing_cases.py crates/packing_cases [SEED [COUNT]]

puts into that folder what the program `packing_cases` reads and what it must print. Each line has the makes of the
projected and of the packed store and the bytes of a box, written by the second writer of tools/box_cases.py. The pictures are
found by the road of tools/pictures.py, which knows nothing of the makes.
"""
import random
import sys

from box_cases import write
from pictures import NO_BANDS, Row, Sheet, in_order, numbered

MAKES = ["rows", "tiles", "pile"]


def random_sheet(rng):
    """A sheet whose rows lie at free spots; projected rectangles may share places."""
    sheet = Sheet(rng.randrange(1, 13), rng.randrange(1, 10), rng.randrange(1, 13), rng.randrange(1, 10))
    for _ in range(rng.randrange(1, 7)):
        q, s = rng.randrange(1, sheet.pw + 1), rng.randrange(1, sheet.ph + 1)
        bands = tuple(rng.randrange(2) for _ in range(4)) if rng.randrange(3) == 0 else NO_BANDS
        row = Row(q, s, rng.randrange(sheet.ph - s + 1), rng.randrange(sheet.pw - q + 1), rng.randrange(8),
                  rng.randrange(1, 7), rng.randrange(1, 7), bands=bands)
        if rng.randrange(4) == 0:
            row.w, row.h = (s, q) if row.code >= 4 else (q, s)
        sheet.place(row)
    return sheet


def box(sheet):
    rows = [{"projected": [r.q, r.s, r.top, r.left], "turn": r.code, "body": [r.w, r.h, r.body_top, r.body_left],
             "bands": (list(r.bands), 0, [0, 1, 2, 3]) if any(r.bands) else None} for r in sheet.rows]
    return write([sheet.pw, sheet.ph, sheet.kw, sheet.kh], rows)


def mark(sheet, x, y):
    for number, row in enumerate(sheet.rows):
        if (x, y) in row.claim():
            return f"{number}" if (x, y) in row.body() else f"({number})"
    return "."


def refused(sheet):
    """The same with a packed store that is one line too high: 21, and every store as it was."""
    packed = range(2000, 2000 + sheet.kw * (sheet.kh + 1))
    projected = range(4000, 4000 + sheet.pw * sheet.ph)
    return [" ".join(["refused 21: packed", *map(str, packed)]), " ".join(["refused 21: unpacked", *map(str, projected)]),
            " ".join(["refused 21: map", *["."] * (sheet.kw * (sheet.kh + 1))])]


def printed(sheet):
    """The packed picture after a pack, the projected one after an unpack, and the claim map, in reading order."""
    packed = numbered(sheet.kw, sheet.kh, lambda x, y: 2000 + sheet.kw * y + x)
    sheet.pack(numbered(sheet.pw, sheet.ph, lambda x, y: 1000 + sheet.pw * y + x), packed)
    projected = numbered(sheet.pw, sheet.ph, lambda x, y: 4000 + sheet.pw * y + x)
    sheet.unpack(numbered(sheet.kw, sheet.kh, lambda x, y: 3000 + sheet.kw * y + x), projected)
    marks = numbered(sheet.kw, sheet.kh, lambda x, y: mark(sheet, x, y))
    return [" ".join(["packed", *map(str, in_order(packed))]), " ".join(["unpacked", *map(str, in_order(projected))]),
            " ".join(["map", *in_order(marks)])]


def main(folder, seed=20261118, count=108):
    rng = random.Random(seed)
    with open(f"{folder}/stdin", "w") as given, open(f"{folder}/stdout", "w") as told:
        done = 0
        while done < count:
            sheet = random_sheet(rng)
            if sheet.rows:
                given.write(" ".join([MAKES[done % 3], MAKES[done // 3 % 3], *map(str, box(sheet))]) + "\n")
                told.writelines(line + "\n" for line in printed(sheet))
                done += 1
        given.write(" ".join(["rows", "unfit", *map(str, box(sheet))]) + "\n")
        told.writelines(line + "\n" for line in refused(sheet))


if __name__ == "__main__":
    main(*sys.argv[1:2], *map(int, sys.argv[2:]))
