#!/usr/bin/env python3
"""What the program `piles` must print, found by another road: pictures as lists of lines, turned and cut as whole lines.

Run `python3 tools/piles.py > crates/piles/stdout`. Each sample is a box of one, shared by the run, the picture and every
view of it, so that a write through a view is seen in the run with no arithmetic on places.
"""

GRANTED = "granted"
OUTSIDE = "19, the place is outside"
CODE = "11, the turn code is over 7"
UNFIT = "21, the sides are too large or differ, or the run is too short"

MOTIONS = ["---", "x--", "xy-", "-y-", "--e", "x-e", "xye", "-ye"]


def lines(boxes, long):
    """A list cut into lines."""
    return [boxes[i:i + long] for i in range(0, len(boxes), long)]


def rows(run, width, height):
    """A picture kept line after line."""
    return lines(run[:width * height], width)


def tiles(run, width, height):
    """A picture kept in blocks of 8 by 8: lines of blocks laid side by side, and what stands over cut off."""
    blocks = [lines(block, 8) for block in lines(run, 64)]
    beside = -(-width // 8)
    picture = []
    for line in lines(blocks, beside)[:-(-height // 8)]:
        for parts in zip(*line):
            picture.append([box for part in parts for box in part])
    return [line[:width] for line in picture[:height]]


def turned(picture, code):
    """A picture mirrored, flipped, and with lines and columns exchanged, as its code says."""
    across, down, exchange = MOTIONS[code]
    if across == "x":
        picture = [line[::-1] for line in picture]
    if down == "y":
        picture = picture[::-1]
    if exchange == "e":
        picture = [list(column) for column in zip(*picture)]
    return picture


def window(picture, left, top, width, height):
    """What of a frame lies inside."""
    return [line[left:][:width] for line in picture[top:][:height]]


def show(name, picture):
    print(f"{name}, {len(picture[0])} by {len(picture)}:")
    for line in picture:
        print("".join(f" {box[0]}" for box in line))


def show_run(name, run):
    print(f"{name}:")
    for line in lines(run, 8):
        print("".join(f" {box[0]}" for box in line))


def put(picture, x, y, sample):
    if y < len(picture) and x < len(picture[0]):
        picture[y][x][0] = sample
        return GRANTED
    return OUTSIDE


def copy(source, target):
    if (len(source), len(source[0])) != (len(target), len(target[0])):
        return UNFIT
    for old, new in zip(source, target):
        for box, other in zip(old, new):
            other[0] = box[0]
    return GRANTED


def samples():
    rows_run = [[i] for i in range(26)]
    tiles_run = [[i] for i in range(260)]
    rows_pile = window(turned(rows(rows_run, 6, 4), 5), 1, 2, 9, 3)
    tiled = tiles(tiles_run, 10, 9)
    tiles_pile = window(turned(tiled, 2), 7, 6, 2**32 - 1, 2**32 - 1)
    show("rows pile", rows_pile)
    print("put 500 at (0, 0):", put(rows_pile, 0, 0, 500))
    print("put 501 at (2, 1):", put(rows_pile, 2, 1, 501))
    print("put 502 at (3, 1):", put(rows_pile, 3, 1, 502))
    show("rows pile", rows_pile)
    show("tiles pile", tiles_pile)
    print("copy:", copy(rows_pile, tiles_pile))
    show("tiles pile", tiles_pile)
    print("set code 4:", GRANTED)
    print("set code 8:", CODE)
    print("copy:", copy(rows_pile, turned(tiled, 4)))
    show("turned tiles", turned(tiled, 4))
    show("tiles", tiled)
    show_run("rows run", rows_run)
    show_run("tiles run", tiles_run)


def marks():
    run = [["Nobody"] for _ in range(13)]
    pile = window(turned(rows(run, 4, 3), 7), 1, 1, 2, 7)
    print("put a body:", put(pile, 0, 1, "Body(3)"))
    print("put a band:", put(pile, 1, 0, "Band(254)"))
    print("put below:", put(pile, 0, 9, "Body(4)"))
    show("marks pile", pile)
    show_run("marks run", run)


samples()
marks()
