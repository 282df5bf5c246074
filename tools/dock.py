#!/usr/bin/env python3
"""What the program `dock` must print, found by the road of tools/pictures.py.

Run `python3 tools/dock.py > crates/dock/stdout`. It reads no other file of the repository; the hall and the two tables
are written down here once more, from the story in crates/dock/src/hall.rt.
"""

from pictures import Row, Sheet, in_order, numbered


def weighted(picture):
    return sum(n * sample for n, sample in enumerate(in_order(picture), 1))


def told(name, sheet):
    print(f"{name}: {len(sheet.rows)} rows, {sheet.pw} by {sheet.ph} projected, {sheet.kw} by {sheet.kh} packed")


def counted(name, samples):
    print(f"{name}: {len(samples)} samples, {sum(samples)} returned")


def tile_number(x, y, width):
    """Where tiles keep a place: block after block, each row by row."""
    blocks = [(by, bx) for by in range(0, 1000, 8) for bx in range(0, width, 8)]
    return blocks.index((y - y % 8, x - x % 8)) * 64 + y % 8 * 8 + x % 8


def main():
    last = Sheet(26, 12, 16, 12, [Row(12, 12, 0, 0, 0, 8, 12, 0, 0), Row(12, 12, 0, 12, 5, 6, 8, 1, 9, (1, 1, 1, 1))])
    told("last year", last)
    hall = numbered(26, 12, lambda x, y: 0)
    last.unpack(numbered(16, 12, lambda x, y: 100 + 16 * y + x), hall)
    print("unpack: granted")
    print(f"hall: {weighted(hall)}")

    this = Sheet(26, 12, 30, 16)
    print("refused 2 at 0")
    print("granted")
    print(this.lay(Row(12, 12, 0, 0, 0, 12, 12, 0, 0)))
    print(this.lay(Row(12, 6, 0, 12, 3, 12, 6, 1, 13, (1, 1, 1, 1))))
    print(this.lay(Row(6, 6, 6, 12, 1, 4, 4, 9, 13)))
    print(this.lay(Row(6, 6, 6, 18, 0, 6, 6, 7, 20)))
    print(this.lay(Row(12, 6, 6, 12, 6, 3, 6, 0, 27)))
    del this.rows[2]
    print("granted")
    print(this.place(Row(4, 2, 2, 2, 0, 4, 2)))
    print(this.place(Row(24, 12, 0, 0, 0, 20, 8)))
    told("this year", this)
    for x, y in [(3, 3), (13, 2), (20, 9), (25, 5), (26, 0)]:
        served = this.serve(x, y)
        if isinstance(served, tuple):
            print(f"mark {x} {y}: row {served[0]} at {served[1][0]} {served[1][1]}")
        else:
            print(f"mark {x} {y}: refused {served}")
    print("claim map: granted")
    for y in range(16):
        line = ""
        for x in range(30):
            owners = [n for n, row in enumerate(this.rows) if (x, y) in row.claim()]
            line += "." if not owners else "ABCD"[owners[0]] if (x, y) in this.rows[owners[0]].body() else "abcd"[owners[0]]
        print(line)

    film = numbered(30, 16, lambda x, y: 5000 + tile_number(x, y, 30))
    this.pack(hall, film)
    # the hall's store is a window at (1, 2) over a picture of 15 by 28, numbered from 9000 on, that is turned by code 5
    field = Row(1, 1, 0, 0, 5, 15, 28).turned([[9000 + 15 * y + x for x in range(15)] for y in range(28)])
    restored = numbered(26, 12, lambda x, y: field[y + 2][x + 1])
    this.unpack(film, restored)
    print("pack and unpack: granted")
    print(f"film: {weighted(film)}")
    print(f"restored: {weighted(restored)}")
    fine, others = [], []
    for place in hall:
        served = this.serve(*place)
        if isinstance(served, tuple):
            (fine if this.rows[served[0]].fine() else others).append(restored[place] == hall[place])
    counted("served by fine rows", fine)
    counted("served by others", others)

    film = numbered(30, 16, lambda x, y: 20000 + 30 * y + x)
    back = numbered(26, 12, lambda x, y: 0)
    this.unpack(film, back)
    print("unpack: granted")
    again = numbered(30, 16, lambda x, y: 0)
    this.pack(back, again)
    print("pack again: granted")
    coarse, others = [], []
    for number, row in enumerate(this.rows):
        for place, centre in row.centres().items():
            served = this.serve(*centre)
            promised = row.coarse() and isinstance(served, tuple) and served[0] == number
            (coarse if promised else others).append(film[row.packed(place)] == again[row.packed(place)])
    counted("in coarse rows that serve", coarse)
    counted("in other bodies", others)


main()
