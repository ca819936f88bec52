"""Paints quotes.bmp from bid and offer prices: 60 expiries of 150 strikes, wider quotes towards the wings and the far expiries. The
cells whose quote lies across an edge of the scale are hatched, here in grey."""
from array import array

import bmp_writer

WIDTH, HEIGHT = 150, 60
STOPS = (68, 1, 84), (59, 82, 139), (33, 145, 140), (94, 201, 98), (253, 231, 37)  # from dark violet to yellow

edges = array("d", (14 + k / 2 for k in range(40)))
lows, highs = array("d"), array("d")
for y in range(HEIGHT):
    for x in range(WIDTH):
        wing = (x - 70) * (x - 70) / 4900
        price = 15 + 5.5 * wing * (1 + 8 / (y + 8)) + 2.5 * y / HEIGHT
        half = 0.01 + 0.1 * wing * (0.3 + y / HEIGHT)
        lows.append(price - half)
        highs.append(price + half)

plane = bmp_writer.shade_quotes(edges, lows, highs)
palette = [tuple(a + (b - a) * (shade % 10) // 10 for a, b in zip(STOPS[shade // 10], STOPS[shade // 10 + 1])) for shade in range(40)]
palette += [STOPS[4]] * 215 + [(190, 190, 190)]
file, written = bmp_writer.encode(plane, WIDTH, HEIGHT, palette=palette)
with open("quotes.bmp", "wb") as out:
    out.write(file)
print(written, len(file), "bytes,", plane.count(bmp_writer.HATCH), "cells hatched")
