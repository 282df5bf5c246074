"""Rows, sheets, packing and unpacking by another road than the library's: whole pictures are mirrored, flipped and
exchanged as lists of lines, middles are exact fractions, claims are sets of places, and every spot is tried in reading
order. Written from docs/RULES.md; tools/dock.py and tools/packing_cases.py use it.
"""

from fractions import Fraction
from math import floor

MOTIONS = ["---", "x--", "xy-", "-y-", "--e", "x-e", "xye", "-ye"]
NO_BANDS = (0, 0, 0, 0)


class Row:
    """A rectangle of the projected picture, a turn code, and a body with its bands (left, right, top, bottom)."""

    def __init__(self, q, s, top, left, code, w, h, body_top=None, body_left=None, bands=NO_BANDS):
        self.q, self.s, self.top, self.left, self.code = q, s, top, left, code
        self.w, self.h, self.body_top, self.body_left, self.bands = w, h, body_top, body_left, bands

    def body(self):
        return {(self.body_left + x, self.body_top + y) for x in range(self.w) for y in range(self.h)}

    def claim(self):
        left, right, top, bottom = self.bands
        return {(x, y) for x in range(self.body_left - left, self.body_left + self.w + right)
                for y in range(self.body_top - top, self.body_top + self.h + bottom)}

    def covers(self, x, y):
        return self.left <= x < self.left + self.q and self.top <= y < self.top + self.s

    def turned(self, lines):
        """The field that the turn makes of a body's lines."""
        across, down, exchange = MOTIONS[self.code]
        if across == "x":
            lines = [line[::-1] for line in lines]
        if down == "y":
            lines = lines[::-1]
        return [list(column) for column in zip(*lines)] if exchange == "e" else lines

    def field(self):
        """The field, each place holding the body's place that it came from."""
        return self.turned([[(x, y) for x in range(self.w)] for y in range(self.h)])

    def centres(self):
        """For each body place, its centre sample in the projected picture."""
        field = self.field()
        d, a = len(field), len(field[0])
        return {field[m][k]: (self.left + floor((k + Fraction(1, 2)) * self.q / a),
                              self.top + floor((m + Fraction(1, 2)) * self.s / d))
                for m in range(d) for k in range(a)}

    def server(self, x, y):
        """The body place that serves a covered projected place."""
        field = self.field()
        d, a = len(field), len(field[0])
        k = floor((x - self.left + Fraction(1, 2)) * a / self.q)
        m = floor((y - self.top + Fraction(1, 2)) * d / self.s)
        return field[m][k]

    def packed(self, place):
        return (self.body_left + place[0], self.body_top + place[1])

    def fine(self):
        field = self.field()
        return len(field[0]) >= self.q and len(field) >= self.s

    def coarse(self):
        field = self.field()
        return len(field[0]) <= self.q and len(field) <= self.s


class Sheet:
    def __init__(self, pw, ph, kw, kh, rows=()):
        self.pw, self.ph, self.kw, self.kh, self.rows = pw, ph, kw, kh, list(rows)

    def room(self, row):
        """Whether the claim lies inside, and whether it is clear of the others."""
        claim = row.claim()
        inside = all(0 <= x < self.kw and 0 <= y < self.kh for x, y in claim)
        return inside, all(claim.isdisjoint(other.claim()) for other in self.rows)

    def lay(self, row):
        inside, clear = self.room(row)
        if not inside:
            return "refused 13"
        if not clear:
            return "refused 14"
        self.rows.append(row)
        return "granted"

    def place(self, row):
        for top in range(self.kh):
            for left in range(self.kw):
                row.body_top, row.body_left = top, left
                if self.room(row) == (True, True):
                    self.rows.append(row)
                    return f"placed {top} {left}"
        return "refused 17"

    def serve(self, x, y):
        if not (x < self.pw and y < self.ph):
            return 19
        for number, row in enumerate(self.rows):
            if row.covers(x, y):
                return number, row.server(x, y)
        return 20

    def pack(self, projected, packed):
        for row in self.rows:
            for place, centre in row.centres().items():
                packed[row.packed(place)] = projected[centre]

    def unpack(self, packed, projected):
        for x, y in list(projected):
            served = self.serve(x, y)
            if isinstance(served, tuple):
                projected[x, y] = packed[self.rows[served[0]].packed(served[1])]


def numbered(width, height, value):
    """A picture of these sides with a sample for each place."""
    return {(x, y): value(x, y) for y in range(height) for x in range(width)}


def in_order(picture):
    """The samples in reading order."""
    return [picture[place] for place in sorted(picture, key=lambda p: (p[1], p[0]))]
