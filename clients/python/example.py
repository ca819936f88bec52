"""A smile-shaped surface of 200 x 200 shades, written to grid.bmp."""
import bmp_writer

SIDE = 200
# Red, green and blue of every 64th palette entry, from dark violet to yellow.
STOPS = (68, 1, 84), (59, 82, 139), (33, 145, 140), (94, 201, 98), (253, 231, 37)


def entry(k):
    n, f = divmod(k, 64)
    return [(low * (64 - f) + high * f) // 64 for low, high in zip(STOPS[n], STOPS[n + 1])]


plane = bytes((x - 110) ** 2 * 153 // (121 * (60 + y)) + y // 4 for y in range(SIDE) for x in range(SIDE))
palette = [entry(k) for k in range(256)]

file, written = bmp_writer.encode(plane, SIDE, SIDE, "Pal8", palette=palette)
with open("grid.bmp", "wb") as out:
    out.write(file)
print(written, len(file), "bytes")
