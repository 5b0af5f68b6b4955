#!/usr/bin/env python3
"""contact_sheet.py FILE OUT: a contact sheet of blocks, so that a crack can be seen: OUT.pgm and OUT.png.

FILE has drawings (docs/PRESS.md), or what the program `show` wrote, one run behind the other. Each block is a square of the same width; a level's
magnitude is a grey, by its logarithm, from black for 0 to white for the block's greatest. Nothing but Python is needed."""
import math, struct, sys, zlib

from drawings import drawings, shown

TILE, GAP, PAPER, ACROSS = 96, 6, 64, 6


def grey(level, greatest):
    return 0 if level == 0 else 80 + round(175 * math.log(1 + abs(level)) / math.log(1 + greatest))


def tile(rows):
    n = len(rows)
    greatest = max(abs(level) for row in rows for level in row) or 1
    return [[grey(rows[y * n // TILE][x * n // TILE], greatest) for x in range(TILE)] for y in range(TILE)]


def sheet(blocks):
    down = -(-len(blocks) // ACROSS)
    width, height = GAP + ACROSS * (TILE + GAP), GAP + down * (TILE + GAP)
    picture = [bytearray([PAPER] * width) for _ in range(height)]
    for i, rows in enumerate(blocks):
        left, top = GAP + i % ACROSS * (TILE + GAP), GAP + i // ACROSS * (TILE + GAP)
        for y, line in enumerate(tile(rows)):
            picture[top + y][left : left + TILE] = bytes(line)
    return picture


def pgm(picture):
    return b"P5\n%d %d\n255\n" % (len(picture[0]), len(picture)) + b"".join(bytes(line) for line in picture)


def png(picture):
    def chunk(kind, data):
        return struct.pack(">I", len(data)) + kind + data + struct.pack(">I", zlib.crc32(kind + data))

    head = struct.pack(">IIBBBBB", len(picture[0]), len(picture), 8, 0, 0, 0, 0)
    lines = b"".join(b"\0" + bytes(line) for line in picture)
    return b"\x89PNG\r\n\x1a\n" + chunk(b"IHDR", head) + chunk(b"IDAT", zlib.compress(lines, 9)) + chunk(b"IEND", b"")


def whole(rows):
    return len(rows) in (4, 8, 16, 32) and all(len(row) == len(rows) for row in rows)


def main():
    with open(sys.argv[1]) as f:
        text = f.read()
    blocks = shown(text) if "\naccepted: " in "\n" + text else [rows for _, rows in drawings(text)]
    picture = sheet([rows for rows in blocks if whole(rows)])
    for end, data in ((".pgm", pgm(picture)), (".png", png(picture))):
        with open(sys.argv[2] + end, "wb") as f:
            f.write(data)


main()
