"""Opens files of every kind with programs that know nothing of this writer, and compares the pixels.

    bash clients/build.sh
    BMP_WRITER_LIBRARY=target/clients/libbmp_writer.so python3 bench/readers/readers.py

Needs netpbm, ImageMagick, ffmpeg (commands) and Pillow (module of the python3 that runs this). Takes some minutes.
Prints two tables, kinds and small palettes by reader: 'agrees', 'refuses', or how many of the files differ. Under each
stand the differences, with the file that has most wrong cells and the smallest one that has any.
"""
import os
import random
import shutil
import subprocess
import sys
import tempfile
from array import array
from collections import namedtuple

sys.path.insert(0, os.path.join(os.path.dirname(os.path.abspath(__file__)), '../../clients/python'))
from bmp_writer import FORMATS, Bitfields, CalibratedRgb, EncodeOptions, encode

RGBA, RGB24, BGRA, BGR24, RGB555, RGB565, PAL8, INDEXED4, INDEXED2, INDEXED1 = range(10)
LEVELS = {PAL8: 256, INDEXED4: 16, INDEXED2: 4, INDEXED1: 2}
SEED = 1
# Widths that fill their stored row and widths that do not, at every depth. 17 x 1 is the smallest picture that is written as
# RLE4 with a block of three single cells.
SIZES = [(1, 1), (17, 1), (21, 5), (64, 9), (200, 200), (201, 37), (400, 300)]
PALETTE_SIZES = [(1, 1), (21, 5), (201, 37)]

PALETTE = bytes(v for k in range(256) for v in (k * 7 % 256, 255 - k, k * 3 % 256, 255))
ICC = bytes(range(60))


# ---- What the files show: bytes are worked on as a whole, since a loop over the pixels would take hours

def each(function):
    """A table for bytes.translate."""
    return bytes(function(k) & 255 for k in range(256))


def joined(a, b):
    """The bits of both."""
    return (int.from_bytes(a, 'big') | int.from_bytes(b, 'big')).to_bytes(len(a), 'big')


def surface(width, height, levels, rng):
    """The sample surface, cut to its top bits."""
    shades = bytes((x - 110) ** 2 * 153 // (121 * (60 + y)) + y // 4 & 255 for y in range(height) for x in range(width))
    return shades.translate(each(lambda k: k * levels // 256))


def marked_surface(width, height, levels, rng):
    """The surface with single cells set apart."""
    cells = bytearray(surface(width, height, levels, rng))
    for k in range(44, len(cells), 89):
        cells[k] = (cells[k] + levels // 2) % levels
    return bytes(cells)


def marked_rows(width, height, levels, rng):
    """Rows that begin with 1, 2, 3 and on, of 1 to 8 cells, and are 7 from there."""
    rows = (bytes(range(1, (y + 2) % 8 + 2)) + bytes([7]) * width for y in range(height))
    return b''.join(row[:width] for row in rows).translate(each(lambda k: k % levels))


def runs(width, height, levels, rng):
    """Runs and single cells in turn, of random lengths, so that a stream has codes of every kind."""
    cells = bytearray()
    while len(cells) < width * height:
        cells += bytes([rng.randrange(levels)]) * rng.choice([2, 3, 5, 9, 40, 300])
        cells += bytes(rng.randrange(levels) for _ in range(rng.randrange(12)))
    return bytes(cells[:width * height])


def stripes(width, height, levels, rng):
    """Runs alone, so that no stream has a block of single cells."""
    rows = []
    for _ in range(height):
        row = b''
        while len(row) < width - 4:
            row += bytes([rng.randrange(levels)]) * min(rng.randrange(4, 60), width - 4 - len(row))
        rows.append(row + bytes([rng.randrange(levels)]) * (width - len(row)))
    return b''.join(rows)


def noise(width, height, levels, rng):
    return rng.randbytes(width * height).translate(each(lambda k: k % levels))


def last(width, height, levels, rng):
    """The last index everywhere."""
    return bytes([levels - 1]) * (width * height)


CONTENTS = [surface, marked_surface, marked_rows, runs, stripes, noise]


def indexed(cells, palette):
    """Red, green and blue of indices."""
    entries = palette[:1024].ljust(1024, b'\0')
    return tuple(cells.translate(entries[c::4]) for c in range(3))


def picture(format, width, height, content, palette, levels, rng):
    """The plane, and red, green and blue of all cells with how many of their top bits count."""
    cells = content(width, height, levels, rng)

    def channel(factor, offset):
        return rng.randbytes(len(cells)) if content is noise else cells.translate(each(lambda k: k * factor + offset))

    if format >= PAL8:
        return cells, indexed(cells, palette), (8, 8, 8)
    if format in (RGB555, RGB565):
        low, high = channel(149, 0), channel(7, 0)
        plane = bytearray(2 * len(cells))
        plane[0::2], plane[1::2] = low, high
        blue = low.translate(each(lambda k: k << 3))
        if format == RGB555:
            green = joined(high.translate(each(lambda k: k << 6)), low.translate(each(lambda k: k >> 5 << 3)))
            return bytes(plane), (high.translate(each(lambda k: k << 1 & 0xF8)), green, blue), (5, 5, 5)
        green = joined(high.translate(each(lambda k: k << 5)), low.translate(each(lambda k: k >> 5 << 2)))
        return bytes(plane), (high.translate(each(lambda k: k & 0xF8)), green, blue), (5, 6, 5)
    red, green, blue, alpha = channel(7, 0), channel(-1, 255), channel(3, 0), channel(0, 255)
    order = [red, green, blue, alpha] if format in (RGBA, RGB24) else [blue, green, red, alpha]
    size = 4 if format in (RGBA, BGRA) else 3
    plane = bytearray(size * len(cells))
    for c in range(size):
        plane[c::size] = order[c]
    return bytes(plane), (red, green, blue), (8, 8, 8)


def file_of(format, width, height, content, palette=PALETTE, levels=None, icc=None, linked=None, masks=None, calibrated=False,
            **chosen):
    """The file, what it was written as, the colours that it has and how many top bits of each channel count."""
    rng = random.Random(f'{SEED} {format} {width} {height} {content.__name__}')
    plane, colours, bits = picture(format, width, height, content, palette, levels or LEVELS.get(format, 256), rng)
    options = EncodeOptions(bitfields=masks and Bitfields(*masks),
                            calibrated_rgb=CalibratedRgb([1 << 28] * 9, [0x10000] * 3) if calibrated else None, **chosen)
    data, written = encode(plane, width, height, FORMATS[format], palette_rgba=palette if format >= PAL8 else None, icc=icc,
                           linked_icc=linked, options=options)
    return data, written, colours, tuple(min(8, bin(m).count('1')) for m in masks[1][:3]) if masks else bits


Row = namedtuple('Row', 'name written format chosen')

KINDS = [
    Row('24 bits, Rgb24', 'Rgb24', RGB24, {}), Row('24 bits, Bgr24', 'Rgb24', BGR24, {}),
    Row('24 bits, top-down', 'Rgb24', RGB24, {'top_down': True}),
    Row('32 bits, Rgba', 'Rgb32', RGBA, {}), Row('32 bits, Bgra', 'Rgb32', BGRA, {}),
    Row('5-5-5', 'Rgb16Rgb', RGB555, {}), Row('5-6-5, 108-byte header', 'Rgb16Bitfields', RGB565, {}),
    Row('8 bits', 'Indexed8', PAL8, {'rle': False}), Row('8 bits, top-down', 'Indexed8', PAL8, {'top_down': True}),
    Row('8 bits, minimal palette', 'Indexed8', PAL8,
        {'rle': False, 'minimal_palette': True, 'palette': PALETTE[:64], 'levels': 16}),
    Row('RLE8', 'Rle8', PAL8, {}), Row('4 bits', 'Indexed4', INDEXED4, {'rle': False}),
    Row('4 bits, minimal palette', 'Indexed4', INDEXED4,
        {'rle': False, 'minimal_palette': True, 'palette': PALETTE[:20], 'levels': 5}),
    Row('RLE4', 'Rle4', INDEXED4, {}),
    Row('2 bits', 'Indexed2', INDEXED2, {}), Row('1 bit', 'Indexed1', INDEXED1, {}),
    Row('masks 5-6-5, 16 bits', 'Bitfields', RGB24, {'masks': (16, (0xF800, 0x7E0, 0x1F, 0))}),
    Row('masks 5-5-5, 16 bits', 'Bitfields', RGB24, {'masks': (16, (0x7C00, 0x3E0, 0x1F, 0))}),
    Row('masks 4-4-4, 16 bits', 'Bitfields', RGB24, {'masks': (16, (0xF00, 0xF0, 0xF, 0))}),
    Row('masks 8-8-8, 32 bits', 'Bitfields', RGBA, {'masks': (32, (0xFF0000, 0xFF00, 0xFF, 0))}),
    Row('masks 8-8-8, red lowest, 32 bits', 'Bitfields', RGBA, {'masks': (32, (0xFF, 0xFF00, 0xFF0000, 0))}),
    Row('masks 10-10-10, 32 bits', 'Bitfields', RGB24, {'masks': (32, (0x3FF00000, 0xFFC00, 0x3FF, 0))}),
    Row('masks 8-8-8-8 with alpha', 'AlphaBitfields', RGBA, {'masks': (32, (0xFF0000, 0xFF00, 0xFF, 0xFF000000))}),
    Row('masks 4-4-4-4 with alpha', 'AlphaBitfields', RGBA, {'masks': (16, (0xF00, 0xF0, 0xF, 0xF000))}),
    Row('calibrated, 24 bits', 'Rgb24', RGB24, {'calibrated': True}),
    Row('calibrated, 32 bits', 'Rgb32', RGBA, {'calibrated': True}),
    Row('calibrated, 8 bits', 'Indexed8', PAL8, {'calibrated': True}),
    Row('calibrated, 5-6-5', 'Rgb16Bitfields', RGB565, {'calibrated': True}),
    Row('embedded profile, 24 bits', 'Rgb24', RGB24, {'icc': ICC}), Row('embedded profile, 32 bits', 'Rgb32', RGBA, {'icc': ICC}),
    Row('embedded profile, 8 bits', 'Indexed8', PAL8, {'icc': ICC}),
    Row('linked profile, 24 bits', 'Rgb24', RGB24, {'linked': b'C:\\p.icm\0'}),
]

BLACK, WHITE, RED = bytes([0, 0, 0, 255]), bytes([255, 255, 255, 255]), bytes([255, 0, 0, 255])
GREYS = bytes(v for k in range(256) for v in (k, k, k, 255))
PALETTES = [('black, white', BLACK + WHITE), ('white, black', WHITE + BLACK), ('black, black', BLACK * 2),
            ('white, white', WHITE * 2), ('black, red', BLACK + RED), ('black', BLACK), ('white', WHITE),
            ('black, white, red', BLACK + WHITE + RED), ('entry k is grey k', GREYS)]
DEPTHS = [('8 bits', 'Indexed8', PAL8, {'rle': False}), ('RLE8', 'Rle8', PAL8, {}),
          ('4 bits', 'Indexed4', INDEXED4, {'rle': False}), ('RLE4', 'Rle4', INDEXED4, {}),
          ('2 bits', 'Indexed2', INDEXED2, {}), ('1 bit', 'Indexed1', INDEXED1, {})]
PALETTE_KINDS = [
    Row(f'{colours}: {depth}{", minimal palette" if minimal else ""}', written, format,
        {'palette': palette, 'levels': min(len(palette) // 4, LEVELS[format]), 'minimal_palette': minimal, **chosen})
    for colours, palette in PALETTES for minimal in (False, True) for depth, written, format, chosen in DEPTHS
]


# ---- The readers: width, height, and red, green and blue of all cells; None where the file is refused

def pnm(data):
    """A binary PBM, PGM or PPM, scaled to 8 bits."""
    words, at = [], 0
    while len(words) < (3 if data[:2] == b'P4' else 4):
        end = at
        while data[end] not in b' \n\t':
            end += 1
        words.append(data[at:end])
        at = end + 1
    width, height, data = int(words[1]), int(words[2]), data[at:]
    if words[0] == b'P4':
        length = (width + 7) // 8
        cells = b''.join(b''.join(BITS[b] for b in data[y * length:(y + 1) * length])[:width] for y in range(height))
        return width, height, (cells,) * 3
    top = int(words[3])
    if top == 65535 and data[0::2] == data[1::2]:
        data = data[0::2]
    elif top > 255:
        samples = array('H', data)
        if sys.byteorder == 'little':
            samples.byteswap()
        data = bytes((v * 255 + top // 2) // top for v in samples)
    elif top < 255:
        data = data.translate(each(lambda k: (min(k, top) * 255 + top // 2) // top))
    return width, height, tuple(data[c::3] for c in range(3)) if words[0] == b'P6' else (data,) * 3


BITS = [bytes(0 if b >> (7 - k) & 1 else 255 for k in range(8)) for b in range(256)]


def output(command):
    """What the command prints, where it ends well."""
    run = subprocess.run(command, capture_output=True, stdin=subprocess.DEVNULL)
    return run.stdout if run.returncode == 0 and run.stdout else None


def netpbm(path, width, height):
    shown = output(['bmptopnm', path])
    return shown and pnm(shown)


def magick():
    return next(n for n in ('magick', 'convert-im6.q16', 'convert') if shutil.which(n))


def imagemagick(path, width, height):
    """All 16 bits that the program holds: with fewer it would round down, and without a depth take that of the file's indices."""
    shown = output([magick(), path, '-alpha', 'off', '-depth', '16', 'ppm:-'])
    return shown and pnm(shown)


def ffmpeg(path, width, height):
    shown = output(['ffmpeg', '-v', 'error', '-i', path, '-f', 'rawvideo', '-pix_fmt', 'rgb24', '-'])
    return (width, height, tuple(shown[c::3] for c in range(3))) if shown and len(shown) == width * height * 3 else None


def pillow(path, width, height):
    from PIL import Image
    try:
        image = Image.open(path).convert('RGB')
        return image.width, image.height, tuple(c.tobytes() for c in image.split())
    except Exception:
        return None


READERS = [('netpbm', netpbm), ('ImageMagick', imagemagick), ('ffmpeg', ffmpeg), ('Pillow', pillow)]


# ---- The comparison

def by_the_pages(data, width, height, rle4):
    """The indices of an RLE file, read by docs/PAGES.md alone, and how many of its blocks have an odd number of cells."""
    at, rows, row, odd = int.from_bytes(data[10:14], 'little'), [], bytearray(), 0
    while len(rows) < height:
        count, value = data[at:at + 2]
        at += 2
        if count:
            row += (bytes([value >> 4, value & 15]) * count)[:count] if rle4 else bytes([value]) * count
        elif value > 2:
            packed = data[at:at + ((value + 1) // 2 if rle4 else value)]
            row += bytes(half for byte in packed for half in (byte >> 4, byte & 15))[:value] if rle4 else packed
            at += len(packed) + len(packed) % 2
            odd += value % 2
        else:
            # A row ends, and the last one with the bitmap.
            assert len(row) == width and value == (len(rows) == height - 1)
            rows.insert(0, bytes(row))
            row = bytearray()
    assert at == len(data)
    return b''.join(rows), odd


def wrong_cells(shown, colours, bits):
    """A byte for each cell, 0 where it is shown as it is."""
    wrong = bytes(len(colours[0]))
    for got, want, n in zip(shown, colours, bits):
        keep = each(lambda k: k >> (8 - n))
        got, want = got.translate(keep), want.translate(keep)
        if got != want:
            differ = (int.from_bytes(got, 'big') ^ int.from_bytes(want, 'big')).to_bytes(len(got), 'big')
            wrong = joined(wrong, differ)
    return wrong


def tried(row, sizes, contents, directory):
    """How many files were tried, how many of them have odd blocks, and for each reader the refused ones and those that differ."""
    files, odd_files, found = 0, 0, {name: ([], []) for name, _ in READERS}
    for width, height in sizes:
        for content in contents if width * height > 1 else [last]:
            data, written, colours, bits = file_of(row.format, width, height, content, **row.chosen)
            # A stream that is no shorter is not taken: this file is that of the kind without RLE.
            if written != row.written:
                assert row.written in ('Rle8', 'Rle4')
                continue
            files += 1
            if written in ('Rle8', 'Rle4'):
                cells, odd = by_the_pages(data, width, height, written == 'Rle4')
                assert indexed(cells, row.chosen.get('palette', PALETTE)) == colours
                odd_files += written == 'Rle4' and odd > 0
            path = os.path.join(directory, 'file.bmp')
            with open(path, 'wb') as file:
                file.write(data)
            where = f'{width} x {height}, {content.__name__.replace("_", " ")}'
            for name, read in READERS:
                shown = read(path, width, height)
                if shown is None:
                    found[name][0].append(where)
                elif shown[:2] != (width, height):
                    found[name][1].append((width * height, width * height, where, f'the size is {shown[0]} x {shown[1]}'))
                else:
                    wrong = wrong_cells(shown[2], colours, bits)
                    if any(wrong):
                        k = next(k for k, w in enumerate(wrong) if w)
                        cell = f'({k % width}, {k // width}) is {tuple(c[k] for c in shown[2])} for {tuple(c[k] for c in colours)}'
                        found[name][1].append((len(wrong) - wrong.count(0), len(wrong), where, cell))
    return files, odd_files, found


def verdict(files, refused, differing):
    if not refused and not differing:
        return 'agrees'
    if len(refused) == files:
        return 'refuses'
    parts = [f'{len(differing)} of {files} differ'] if differing else []
    return ', '.join(parts + ([f'{len(refused)} of {files} refused'] if refused else []))


def table(title, rows, sizes, contents, directory, known=None):
    """Prints the rows and the differences; with `known`, the refusals of an earlier table, only rows that say more than it.
    Answers the refusals: reader and what the file was written as."""
    print(f'\n| {title} | written as | files | ' + ' | '.join(name for name, _ in READERS) + ' |')
    print('|---' * (3 + len(READERS)) + '|')
    notes, refusals, tally, silent = [], set(), [0, 0], [0, 0]
    for row in rows:
        files, odd_files, found = tried(row, sizes, contents, directory)
        if files == 0:
            continue
        tally = [tally[0] + 1, tally[1] + files]
        verdicts = {name: verdict(files, *found[name]) for name, _ in READERS}
        refusals |= {(name, row.written) for name, said in verdicts.items() if said == 'refuses'}
        if known and all(said == 'agrees' or (name, row.written) in known for name, said in verdicts.items()):
            silent = [silent[0] + 1, silent[1] + files]
            continue
        print(f'| {row.name} | {row.written} | {files} | ' + ' | '.join(verdicts.values()) + ' |', flush=True)
        if odd_files:
            notes.append(f'- {row.name}: {odd_files} of {files} streams have a block of an odd number of single cells')
        for name, (refused, differing) in found.items():
            if differing:
                worst, least = max(differing), min(differing, key=lambda d: d[1])
                notes.append(f'- {row.name}, {name}: {len(differing)} of {files} differ; worst {worst[0]} of {worst[1]} cells '
                             f'({worst[2]}); smallest {least[2]}: {least[0]} of {least[1]} cells, {least[3]}')
            if refused and len(refused) < files:
                notes.append(f'- {row.name}, {name}: refused {"; ".join(refused)}')
    print(f'\n{tally[0]} kinds, {tally[1]} files.')
    if known:
        print(f'{silent[0]} kinds with {silent[1]} files are not in the table: all agree, but for what a reader refuses above.')
    print('\n'.join([''] + notes))
    return refusals


def versions():
    """The first line of what each program says of itself."""
    for command in (['bmptopnm', '--version'], [magick(), '-version'], ['ffmpeg', '-version'],
                    [sys.executable, '-c', 'import PIL; print("Pillow", PIL.__version__)']):
        run = subprocess.run(command, capture_output=True, text=True)
        print((run.stdout + run.stderr).splitlines()[0])
    print('Seed', SEED)


def main():
    versions()
    with tempfile.TemporaryDirectory() as directory:
        known = table('kind', KINDS, SIZES, CONTENTS, directory)
        table('palette: kind', PALETTE_KINDS, PALETTE_SIZES, [stripes, noise], directory, known)


if __name__ == '__main__':
    main()
