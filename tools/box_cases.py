#!/usr/bin/env python3
"""A second writer and a second reader of the box, and cases from them.

    python3 tools/box_cases.py crates/box_cases [SEED [COUNT]]

puts into that folder what the program `box_cases` reads and what it must print: the worked box, whole, cut at every byte
and with every bit flipped, and boxes with guard bands, all turns and up to 255 rows, with damaged forms of them; and
two boxes whose writing jobs meet each refusal.

    python3 tools/box_cases.py --run crates/rowlist/out/rowlist [SEED [COUNT]]

runs `rowlist` on these and on COUNT more random boxes, and stops at the first difference. Written from docs/FORMAT.md
alone, by another road than the library: fields are strings of bits, a fault is raised where it is met, and two claims
share a cell where they have columns and lines in common.
"""
import random
import subprocess
import sys


class Refused(Exception):
    pass


class Input:
    def __init__(self, data):
        self.data, self.at = data, 0

    def number(self, size):
        """The next field: its value and the place where it begins."""
        place = self.at
        if len(self.data) < place + size:
            raise Refused(1, place)
        self.at += size
        return int.from_bytes(self.data[place:place + size], "big"), place

    def side(self, size):
        value, place = self.number(size)
        if value == 0:
            raise Refused(8, place)
        return value


def read_bands(source):
    first = source.at
    sizes = [source.number(1)[0] for _ in range(4)]
    if not any(sizes):
        raise Refused(10, first)
    word, place = source.number(2)
    bits = f"{word:016b}"
    kinds = [int(bits[i:i + 3], 2) for i in (1, 4, 7, 10)]
    if "1" in bits[13:]:
        raise Refused(6, place)
    if max(kinds) > 4:
        raise Refused(10, place)
    return sizes, int(bits[0]), kinds


def read_row(source):
    byte, place = source.number(1)
    bits = f"{byte:08b}"
    if "1" in bits[:3]:
        raise Refused(6, place)
    if "1" in bits[4:]:
        raise Refused(9, place)
    projected = [source.side(4), source.side(4), source.number(4)[0], source.number(4)[0]]
    turn, place = source.number(1)
    bits_of_turn = f"{turn:08b}"
    if "1" in bits_of_turn[3:]:
        raise Refused(6, place)
    body = [source.side(2), source.side(2), source.number(2)[0], source.number(2)[0]]
    return {"projected": projected, "turn": int(bits_of_turn[:3], 2), "body": body, "bands": read_bands(source) if bits[3] == "1" else None}


def claim(row):
    """Left, top, right and bottom of the claim, the last two outside it."""
    w, h, top, left = row["body"]
    l, r, t, b = row["bands"][0] if row["bands"] else (0, 0, 0, 0)
    return left - l, top - t, left + w + r, top + h + b


def shared(one, other):
    """Two claims share a cell: the columns and the lines that both have."""
    columns = range(max(one[0], other[0]), min(one[2], other[2]))
    lines = range(max(one[1], other[1]), min(one[3], other[3]))
    return len(columns) > 0 and len(lines) > 0


def read(data):
    source = Input(data)
    size, place = source.number(4)
    if size != len(data):
        raise Refused(2, place)
    kind, place = source.number(4)
    if kind.to_bytes(4, "big") != b"rwpk":
        raise Refused(3, place)
    version, place = source.number(4)
    if version:
        raise Refused(3, place)
    if source.at == len(data):
        raise Refused(4, 12)
    flags, place = source.number(1)
    if flags >= 128:
        raise Refused(5, place)
    if flags:
        raise Refused(6, place)
    count, place = source.number(1)
    if count == 0:
        raise Refused(7, place)
    sides = [source.side(4), source.side(4), source.side(2), source.side(2)]
    rows = []
    for _ in range(count):
        first = source.at
        row = read_row(source)
        q, s, top, left = row["projected"]
        if left + q > sides[0] or top + s > sides[1]:
            raise Refused(12, first)
        mine = claim(row)
        if mine[0] < 0 or mine[1] < 0 or mine[2] > sides[2] or mine[3] > sides[3]:
            raise Refused(13, first)
        if any(shared(mine, claim(r)) for r in rows):
            raise Refused(14, first)
        rows.append(row)
    if source.at < len(data):
        raise Refused(15, source.at)
    return sides, rows


def listing(data):
    try:
        sides, rows = read(data)
    except Refused as refused:
        return "refused {} at {}\n".format(*refused.args)
    lines = ["sheet " + " ".join(map(str, sides + [len(rows)]))]
    for number, row in enumerate(rows):
        items = [number] + row["projected"] + [row["turn"]] + row["body"]
        if row["bands"]:
            sizes, flag, kinds = row["bands"]
            items += list(sizes) + [flag] + list(kinds)
        lines.append(" ".join(map(str, items)))
    return "\n".join(lines) + "\n"


def write_row(row):
    data = bytes([16 if row["bands"] else 0])
    data += b"".join(n.to_bytes(4, "big") for n in row["projected"])
    data += bytes([row["turn"] << 5])
    data += b"".join(n.to_bytes(2, "big") for n in row["body"])
    if row["bands"]:
        sizes, flag, kinds = row["bands"]
        bits = str(flag) + "".join(f"{k:03b}" for k in kinds) + "000"
        data += bytes(sizes) + int(bits, 2).to_bytes(2, "big")
    return data


def write(sides, rows):
    data = b"rwpk" + bytes(4) + bytes([0, len(rows)])
    data += b"".join(n.to_bytes(4, "big") for n in sides[:2]) + b"".join(n.to_bytes(2, "big") for n in sides[2:])
    data += b"".join(map(write_row, rows))
    return (len(data) + 4).to_bytes(4, "big") + data


def random_box(rng, count):
    """Rows side by side in cells of one size, so that their claims never meet."""
    across = max(1, int(count ** 0.5))
    down = (count + across - 1) // across
    cell = rng.choice([8, 20, 250])
    sides = [rng.choice([1, 7, 4096, 2 ** 32 - 1]), rng.choice([1, 5, 2160, 2 ** 32 - 1]), min(65535, across * cell), min(65535, down * cell)]
    rows = []
    for i in range(count):
        sizes = [rng.randrange(0, cell // 4) for _ in range(4)]
        bands = (sizes, rng.randrange(2), [rng.randrange(5) for _ in range(4)]) if any(sizes) and rng.randrange(2) else None
        l, r, t, b = sizes if bands else (0, 0, 0, 0)
        w, h = rng.randrange(1, cell - l - r + 1), rng.randrange(1, cell - t - b + 1)
        q, s = rng.randrange(1, sides[0] + 1), rng.randrange(1, sides[1] + 1)
        rows.append({"projected": [q, s, rng.randrange(sides[1] - s + 1), rng.randrange(sides[0] - q + 1)], "turn": rng.randrange(8),
                     "body": [w, h, i // across * cell + t, i % across * cell + l], "bands": bands})
    return write(sides, rows)


def mended(data):
    return len(data).to_bytes(4, "big") + data[4:] if len(data) >= 4 else data


def flipped(data, bit):
    changed = bytearray(data)
    changed[bit // 8] ^= 128 >> bit % 8
    return bytes(changed)


E = bytes.fromhex("0000004E7277706B00000000" "0002000000080000000400060004" "0000000004000000040000000000000000000004000400000000"
                  "0000000004000000040000000000000004A00002000400000004")

# The worked box and forms of it, listed by hand.
WORKED = [
    (E, "sheet 8 4 6 4 2\n0 4 4 0 0 0 4 4 0 0\n1 4 4 0 4 5 2 4 0 4\n"),
    (E[:-1] + b"\x03", "refused 14 at 52\n"),
    (mended(E[:60]), "refused 1 at 57\n"),
    (mended(E[:12]), "refused 4 at 12\n"),
    (mended(E + b"\x00"), "refused 15 at 78\n"),
    (E + b"\x00", "refused 2 at 0\n"),
]


def cuts(data):
    for length in range(len(data)):
        yield data[:length]
        yield mended(data[:length])


def flips(data):
    return (flipped(data, bit) for bit in range(8 * len(data)))


def random_cases(seed, count):
    rng = random.Random(seed)
    for i in range(count):
        box = random_box(rng, 255 if i == 0 else rng.choice([1, 1, 2, 3, 5, 17]))
        assert not listing(box).startswith("refused"), listing(box)
        yield box
        if i > 0:
            yield flipped(box, rng.randrange(8 * len(box)))
            yield mended(box[:rng.randrange(len(box))])
            place = rng.randrange(12, len(box))
            yield box[:place] + bytes([rng.randrange(256)]) + box[place + 1:]


def printed(data):
    """What the program prints of an input: its listing, and how much of it was written back."""
    text = listing(data)
    return text if text.startswith("refused") else text + f"written {len(data)}\n"


def jobs(data):
    """What the jobs of a granted box answer, from docs/RULES.md: each refusal of a job once, and the size of the box."""
    return ["seal with parts due: refused 24", "step into 25 bytes: refused 22", "step after the last part: refused 23",
            "seal into 51 bytes: refused 22", f"seal: {len(data)}", "step with no rows: refused 7", "listing into 7 bytes: refused 22"]


def write_files(folder, seed=20261118, count=30):
    # A line cannot hold the empty box; it is among the cuts.
    boxes = [box for box, _ in WORKED] + [box for box in random_cases(seed, count) if box]
    rows = [row for box in boxes if not listing(box).startswith("refused") for row in read(box)[1]]
    assert {row["turn"] for row in rows} == set(range(8)) and {row["bands"] is None for row in rows} == {True, False}
    with open(folder + "/stdin", "w") as given, open(folder + "/stdout", "w") as told:
        given.writelines(f"box {box.hex()}\n" for box in boxes)
        given.write(f"cuts {E.hex()}\nflips {E.hex()}\n")
        given.writelines(f"jobs {box.hex()}\n" for box in (E, boxes[6]))
        told.writelines(map(printed, [*boxes, *cuts(E), *flips(E)]))
        told.writelines(line + "\n" for box in (E, boxes[6]) for line in jobs(box))


def run(program, seed=20261118, count=300):
    done = 0
    for data in [*(box for box, _ in WORKED), *cuts(E), *flips(E), *random_cases(int(seed), int(count))]:
        want = listing(data)
        got = subprocess.run([program], input=data, capture_output=True).stdout.decode()
        if got != want:
            sys.exit(f"differs on {data.hex()}\nwanted {want}got    {got}")
        done += 1
    print(f"{done} boxes listed alike")


if __name__ == "__main__":
    for box, lines in WORKED:
        assert listing(box) == lines, (listing(box), lines)
    if sys.argv[1] == "--run":
        run(*sys.argv[2:])
    else:
        write_files(*sys.argv[1:2], *map(int, sys.argv[2:]))
