"""Tests of the Python module, of its package and of the program beside it: run by clients/test.sh."""
import array
import copy
import ctypes
import mmap
import multiprocessing
import os
import pickle
import re
import subprocess
import sys
import tempfile
import typing
import unittest
from concurrent.futures import ThreadPoolExecutor

import bmp_writer
from bmp_writer import (BYTES_PER_PIXEL, FORMATS, HATCH, BmpError, Bitfields, CalibratedRgb, EncodeOptions, Picture, encode,
                        encode_with_starts, read_row, shade_quotes, size_bound)

try:
    import numpy
except ImportError:
    numpy = None

HERE = os.path.dirname(os.path.abspath(__file__))
ROOT = os.path.join(HERE, "../..")
GREYS = [(shade, shade, shade) for shade in range(256)]
BUILD = "bash clients/staticlib.sh capi && bash clients/build.sh"

M12 = bytes.fromhex("424D3E0000000000000" "03A000000280000000500000001000000010008000100000004000000130B0000130B00000100000000"
                    "000000000000000507" "0001")


def environment(**named):
    """The variables of a child that finds a library only where `named` says."""
    kept = {name: value for name, value in os.environ.items() if name not in ("BMP_WRITER_LIBRARY", "PYTHONPATH")}
    return {**kept, "PYTHONDONTWRITEBYTECODE": "1", **named}


def python(text, folder, **named):
    """What a new interpreter prints, errors among it."""
    return subprocess.run([sys.executable, "-c", text], cwd=folder, env=environment(**named), stdout=subprocess.PIPE,
                          stderr=subprocess.STDOUT, universal_newlines=True, timeout=60)


def read(path):
    with open(os.path.join(HERE, path), encoding="utf-8") as file:
        return file.read()


def files_below(folder):
    return {os.path.join(above, name) for above, folders, files in os.walk(folder) for name in folders + files}


def repeated(sample, n):
    """The 8 bits of a sample, from the top down, again and again until there are n."""
    return int("0" + (format(sample, "08b") * 4)[:n], 2)


def shown(file, width, height):
    """The indices that a plain 8-bit file holds, rows from the top."""
    start, step = int.from_bytes(file[10:14], "little"), (width + 3) // 4 * 4
    return b"".join(file[start + y * step:start + y * step + width] for y in reversed(range(height)))


class Case(unittest.TestCase):
    calls = encode, encode_with_starts, size_bound

    def refused(self, number, *arguments, **named):
        for call in self.calls:
            with self.assertRaises(BmpError) as caught:
                call(*arguments, **named)
            self.assertEqual(caught.exception.number, number)
            self.assertEqual(str(caught.exception), f"{number}: {bmp_writer.REFUSALS[number]}")

    def wrong(self, kind, pieces, *arguments, **named):
        """The calls raise exactly this kind, and the text starts with the first piece and has the others."""
        for call in self.calls:
            with self.assertRaises(kind) as caught:
                call(*arguments, **named)
            text = str(caught.exception)
            self.assertIs(type(caught.exception), kind, text)
            self.assertTrue(text.startswith(pieces[0]), text)
            for piece in pieces[1:]:
                self.assertIn(piece, text)


class Files(Case):
    def test_the_specifications_file(self):
        options = EncodeOptions(minimal_palette=True)
        self.assertEqual(encode(b"\7" * 5, 5, 1, "Pal8", palette=[], options=options), (M12, "Rle8"))
        self.assertEqual(encode(b"\7" * 5, 5, 1, "Pal8", palette_rgba=b"", options=options), (M12, "Rle8"))
        self.assertEqual(size_bound(b"\7" * 5, 5, 1, "Pal8", palette=(), options=options), 78)

    def test_the_image_size(self):
        """The bytes of the pixels in RLE files and mask files, and in the longer headers; else 0."""
        masks = [EncodeOptions(bitfields=Bitfields(16, (0xF800, 0x7E0, 0x1F, 0))),
                 EncodeOptions(bitfields=Bitfields(32, (0xFF, 0xFF00, 0xFF0000, 0xFF000000)), top_down=True)]
        calibrated = EncodeOptions(calibrated_rgb=CalibratedRgb([0] * 9, [0] * 3))
        for written, size, layout, plane, options, profile in (
                ("Rle8", 10, "Pal8", b"\7" * 13 + b"\1" * 5, None, None), ("Rle4", 8, "Indexed4", b"\7" * 18, None, None),
                ("Bitfields", 40, "Rgb24", bytes(54), masks[0], None), ("AlphaBitfields", 72, "Rgba", bytes(72), masks[1], None),
                ("Indexed8", 0, "Pal8", bytes(range(18)), None, None), ("Rgb24", 0, "Rgb24", bytes(54), None, None),
                ("Rgb16Bitfields", 40, "Rgb565", bytes(36), None, None), ("Rgb24", 56, "Rgb24", bytes(54), calibrated, None),
                ("Indexed8", 24, "Pal8", b"\7" * 18, None, b"profile")):
            with self.subTest(written):
                palette = [] if layout in ("Pal8", "Indexed4") else None
                file, answered = encode(plane, 9, 2, layout, palette=palette, options=options, icc=profile)
                self.assertEqual((answered, int.from_bytes(file[34:38], "little")), (written, size))
                if int.from_bytes(file[30:34], "little"):
                    self.assertEqual(len(file) - int.from_bytes(file[10:14], "little"), size)

    def test_every_refusal_that_a_call_can_give(self):
        self.refused(1, b"", 0, 1, "Pal8", palette=[])
        self.refused(2, b"", 2 ** 31, 1, "Pal8", palette=[])
        self.refused(3, b"\0", 1, 1, "Pal8")
        self.refused(4, b"\0", 1, 1, "Pal8", palette_rgba=b"abc")
        both = EncodeOptions(bitfields=Bitfields(16, (0xF800, 0x7E0, 0x1F, 0)), calibrated_rgb=CalibratedRgb([0] * 9, [0] * 3))
        self.refused(5, b"\0" * 3, 1, 1, "Rgb24", options=both)
        for number, bpp, masks in ((6, 24, (1, 2, 4, 0)), (7, 16, (0x10000, 0, 0, 0)), (8, 32, (5, 0, 0, 0)),
                                   (9, 32, (1, 1, 0, 0)), (10, 32, (0, 0, 0, 1))):
            self.refused(number, b"\0" * 3, 1, 1, "Rgb24", options=EncodeOptions(bitfields=Bitfields(bpp, masks)))
        self.refused(11, b"\0" * 2, 1, 1, "Rgb565", options=EncodeOptions(bitfields=Bitfields(16, (0xF800, 0x7E0, 0x1F, 0))))
        self.refused(12, b"", 1, 1, "Rgba")
        self.refused(13, b"\0" * 9, 4, 1, "Rgba", stride=9)
        self.refused(255, b"", 1, 1, "Cmyk")

    def test_masks(self):
        bmp_writer.check_masks(16, 0xF800, 0x7E0, 0x1F)
        for number, masks in ((7, (16, 0x50000, 0, 0)), (8, (16, 0xA00, 0, 0)), (8, (16, 0xA00, 0x50000, 0)),
                              (7, (16, 0x50000, 0xA00, 0)), (8, (16, 0, 0xA00, 0x50000)), (7, (16, 0, 0x50000, 0xA00)),
                              (10, (16, 0, 0, 0, 0xFF00))):
            with self.assertRaises(BmpError) as caught:
                bmp_writer.check_masks(*masks)
            self.assertEqual(caught.exception.number, number)
        options = EncodeOptions(bitfields=Bitfields(16, (0xF800, 0x7E0, 0x1F, 0)))
        file, written = encode(b"\xff\x00\x80", 1, 1, "Rgb24", options=options)
        self.assertEqual((written, file[66:68]), ("Bitfields", b"\x10\xf8"))
        for masks in ((True, 1, 2, 4), (16, 1.0, 2, 4), (16, 1, "2", 4)):
            with self.assertRaises(TypeError):
                bmp_writer.check_masks(*masks)
        with self.assertRaisesRegex(ValueError, r"^bpp: 65536 is not in 0 \.\. 65535$"):
            bmp_writer.check_masks(65536, 1, 2, 4)

    def test_samples_fill_masks(self):
        """A sample's bits are repeated from the top down until the mask is full, and so those of a channel beside it."""
        plane = bytes(v for k in range(256) for v in (k, 255 - k, 0))
        for ones in range(1, 33):
            red, green = 2 ** ones - 1, 2 ** 32 - 2 ** ones
            file, written = encode(plane, 256, 1, "Rgb24", options=EncodeOptions(bitfields=Bitfields(32, (red, green, 0, 0))))
            fields = [(repeated(k, ones), repeated(255 - k, 32 - ones)) for k in range(256)]
            self.assertEqual((written, fields[255][0], fields[0][0]), ("Bitfields", red, 0))
            self.assertEqual(file[66:], b"".join((low + (high << ones)).to_bytes(4, "little") for low, high in fields))
            cells = bmp_writer.read(file).cells.tolist()
            self.assertEqual(list(zip(cells[0::4], cells[1::4])), fields)

    def test_profiles(self):
        file, written = encode(b"\0" * 3, 1, 1, "Rgb24", icc=b"abc", linked_icc=b"path")
        self.assertEqual((written, file[-4:], file[70:74]), ("Rgb24", b"path", b"KNIL"))

    def test_names_in_any_case(self):
        for name, size in zip(FORMATS, BYTES_PER_PIXEL):
            plane = bytes(range(6 * size))
            files = {encode(plane, 3, 2, spelt, palette=GREYS) for spelt in (name, name.lower(), name.upper(), name.swapcase())}
            self.assertEqual(len(files), 1)
        for name in ("", "Pal", "Pal8 ", "pal-8", "Rgb"):
            self.refused(255, b"\0", 1, 1, name, palette=GREYS)
        for name in (6, None, b"Pal8"):
            self.wrong(TypeError, ["format: ", "Pal8"], b"\0", 1, 1, name, palette=GREYS)

    def test_the_program_writes_the_same_files(self):
        if not os.environ.get("BMP_WRITER_PROGRAM"):
            self.skipTest("BMP_WRITER_PROGRAM does not name the command")
        program = os.path.abspath(os.environ["BMP_WRITER_PROGRAM"])
        plane, palette, profile = bytes(range(240)), bytes(range(40)), b"profile"
        masks = Bitfields(32, (0x3FF00000, 0xFFC00, 0x3FF, 0xC0000000))
        gauges = CalibratedRgb([1, -2, 3, -4, 5, 6, 7, 8, -(2 ** 31)], [9, 10, 2 ** 32 - 1])
        twelve = "1,-2,3,-4,5,6,7,8,-2147483648,9,10,0xFFFFFFFF"
        cases = (
            ("Pal8", 9, 5, ["--palette", "palette"], EncodeOptions()),
            ("PAL8", 9, 5, ["--palette", "palette", "--top-down", "--minimal-palette"],
             EncodeOptions(top_down=True, minimal_palette=True)),
            ("indexed4", 20, 2, ["--palette", "palette", "--no-rle"], EncodeOptions(rle=False)),
            ("Rgb24", 5, 3, ["--icc", "profile", "--rendering-intent", "8"], EncodeOptions(rendering_intent=8)),
            ("Bgr24", 5, 3, ["--icc", "profile", "--no-embed-icc"], EncodeOptions(embed_icc=False)),
            ("rgba", 5, 3, ["--bitfields", "32,0x3FF00000,0xFFC00,0x3FF,0xC0000000"], EncodeOptions(bitfields=masks)),
            ("RGB565", 5, 3, ["--calibrated-rgb", twelve], EncodeOptions(calibrated_rgb=gauges)),
        )
        with tempfile.TemporaryDirectory() as folder:
            def write(name, content):
                with open(os.path.join(folder, name), "wb") as file:
                    file.write(content)

            def run(form, width, height, words):
                asked = ["--plane", "plane", "--format", form, "--width", str(width), "--height", str(height)]
                return subprocess.run([program] + asked + words + ["--out", "out.bmp"], cwd=folder, stdout=subprocess.PIPE,
                                      stderr=subprocess.PIPE, universal_newlines=True, timeout=60)

            write("palette", palette)
            write("profile", profile)
            for form, width, height, words, options in cases:
                given = {"palette_rgba": palette} if "--palette" in words else {"icc": profile} if "--icc" in words else {}
                size = [size for name, size in zip(FORMATS, BYTES_PER_PIXEL) if name.lower() == form.lower()][0]
                needed = plane[:width * height * size]
                expected, written = encode(needed, width, height, form, options=options, **given)
                for content, more in ((needed, []), (plane, ["--more-follows"])):
                    write("plane", content)
                    ran = run(form, width, height, words + more)
                    self.assertEqual((ran.returncode, ran.stderr), (0, ""))
                    self.assertTrue(ran.stdout.startswith(f"out.bmp: {written}, {len(expected)} bytes, cksum "), ran.stdout)
                    with open(os.path.join(folder, "out.bmp"), "rb") as file:
                        self.assertEqual(file.read(), expected)
                    os.remove(os.path.join(folder, "out.bmp"))
            write("plane", plane)
            longer = run("Pal8", 9, 5, ["--palette", "palette"])
            unknown = run("Cmyk", 9, 5, ["--palette", "palette"])
            for ran in (longer, unknown):
                self.assertIn(ran.returncode, (1, 2))
                self.assertEqual(ran.stdout, "")
                self.assertNotEqual(ran.stderr, "")
                self.assertFalse(os.path.exists(os.path.join(folder, "out.bmp")))


class Settings(Case):
    """What a screen asks for: a wall panel takes no file over 262,144 bytes, and the plain one of 512 x 512 has 1,078 more."""
    runs = bytes((x // 8 + y // 8) % 256 for y in range(512) for x in range(512))
    noise = bytes((7 * x + y) % 256 for y in range(512) for x in range(512))
    plain = EncodeOptions(rle=False)

    def panel(self, plane, limit, **named):
        file, written = encode(plane, 512, 512, palette=[], limit=limit, **named)
        self.assertLessEqual(len(file), limit)
        self.assertLessEqual(len(file), size_bound(plane, 512, 512, palette=[], limit=limit, **named))
        self.assertEqual(bytes(bmp_writer.read(file).cells.tolist()), plane)
        return len(file), written

    def over(self, plane, limit):
        """The stream is not looked at by the size query."""
        self.assertGreater(size_bound(plane, 512, 512, palette=[], limit=limit), 0)
        with self.assertRaises(BmpError) as caught:
            encode(plane, 512, 512, palette=[], limit=limit)
        self.assertEqual(str(caught.exception), "16: neither the stream nor the plain file is within the limit")

    def test_limits(self):
        size, written = self.panel(self.runs, 262144)
        self.assertEqual((written, size < 262144), ("Rle8", True))
        for limit in (size, size + 1, 263221, 263222, 2 ** 32 - 1):
            self.assertEqual(self.panel(self.runs, limit), (size, "Rle8"))
        for limit in (0, 1, 1077, 1078, 1079, size - 1):
            self.over(self.runs, limit)
        for limit in (0, 1077, 1078, 262144, 263221):
            self.over(self.noise, limit)
            self.refused(14, self.runs, 512, 512, palette=[], options=self.plain, limit=limit)
        self.assertEqual(self.panel(self.noise, 263222), (263222, "Indexed8"))
        self.assertEqual(self.panel(self.runs, 263222, options=self.plain), (263222, "Indexed8"))
        self.assertEqual(len(encode(b"abc", 1, 1, "Rgb24", icc=b"profile", limit=149)[0]), 149)
        self.refused(14, b"abc", 1, 1, "Rgb24", icc=b"profile", limit=148)

    def test_resolutions(self):
        """Across at byte 38 and down at byte 42; every other byte, and every cell, is that of the file with the defaults."""
        masks, gauges = Bitfields(16, (0xF800, 0x7E0, 0x1F, 0)), CalibratedRgb([0] * 9, [0] * 3)
        for layout, options, profile in (("Pal8", None, None), ("Pal8", self.plain, None), ("Pal8", None, b"profile"),
                                         ("Rgb24", None, None), ("Rgb565", None, None),
                                         ("Rgb24", EncodeOptions(bitfields=masks), None),
                                         ("Rgb24", EncodeOptions(calibrated_rgb=gauges), None)):
            given = {"palette": [] if layout == "Pal8" else None, "options": options, "icc": profile}
            plane = b"\7" * 9 * BYTES_PER_PIXEL[FORMATS.index(layout)]
            usual, form = encode(plane, 9, 1, layout, **given)
            self.assertEqual(usual[38:46].hex(), "130b0000130b0000")
            same = encode(plane, 9, 1, layout, limit=2 ** 32 - 1, x_pels_per_meter=2835, y_pels_per_meter=2835, **given)
            self.assertEqual(same, (usual, form))
            file, written = encode(plane, 9, 1, layout, x_pels_per_meter=0x01020304, y_pels_per_meter=0x7F060708, **given)
            self.assertEqual((written, file[38:46].hex()), (form, "040302010807067f"))
            self.assertEqual((file[:38], file[46:]), (usual[:38], usual[46:]))
            self.assertEqual(bmp_writer.read(file).cells, bmp_writer.read(usual).cells)

    def test_refused_settings(self):
        """20 before 21, both behind 255, 1 and 2 and before 3."""
        good = {"palette": []}
        for limit in (2 ** 32, 2 ** 32 + 1, 2 ** 64 - 1):
            self.refused(20, b"\0", 1, 1, limit=limit, **good)
            self.refused(20, b"\0", 1, 1, limit=limit, x_pels_per_meter=-1, y_pels_per_meter=-2 ** 31, **good)
        for x, y in ((-1, 0), (0, -1), (-2 ** 31, -2 ** 31)):
            for limit in (0, 2 ** 32 - 1):
                self.refused(21, b"\0", 1, 1, limit=limit, x_pels_per_meter=x, y_pels_per_meter=y, **good)
        bad = {"limit": 2 ** 32, "x_pels_per_meter": -1, "y_pels_per_meter": -1}
        self.refused(255, b"\0", 0, 1, "Cmyk", **bad)
        self.refused(1, b"\0", 0, 2 ** 31, **bad)
        self.refused(2, b"\0", 1, 2 ** 31, **bad)
        self.refused(20, b"\0", 1, 1, **bad)
        self.refused(21, b"\0", 1, 1, limit=0, x_pels_per_meter=-1)
        self.refused(3, b"\0", 1, 1, limit=0)
        self.assertEqual(encode(b"\0", 1, 1, x_pels_per_meter=0, y_pels_per_meter=2 ** 31 - 1, **good)[0][38:46].hex(),
                         "00000000ffffff7f")

    def test_arguments(self):
        for name, low, high in (("limit", 0, 2 ** 64 - 1), ("x_pels_per_meter", -2 ** 31, 2 ** 31 - 1),
                                ("y_pels_per_meter", -2 ** 31, 2 ** 31 - 1)):
            for value in (low - 1, high + 1):
                self.wrong(ValueError, [f"{name}: {value} is not in {low} .. {high}"], b"\0", 1, 1, palette=[], **{name: value})
            for value in (None, 2835.0, "2835", True):
                self.wrong(TypeError, [f"{name}: ", "an int is needed"], b"\0", 1, 1, palette=[], **{name: value})


class Planes(Case):
    def test_kinds_of_buffers(self):
        plane = bytes(range(12))
        kinds = (bytes, bytearray, memoryview, lambda b: array.array("B", b), (ctypes.c_ubyte * 12).from_buffer_copy,
                 (ctypes.c_char * 12).from_buffer_copy, lambda b: memoryview(b).cast("c"),
                 lambda b: memoryview(b + b)[:12], lambda b: memoryview(bytes(v for v in b for _ in "ab"))[::2])
        self.assertEqual(len({encode(kind(plane), 2, 2, "Rgb24", stride=6) for kind in kinds}), 1)
        flags = memoryview(b"\1\0\0\1").cast("?")
        self.assertEqual(encode(flags, 2, 2, "Indexed1", palette=GREYS), encode(b"\1\0\0\1", 2, 2, "Indexed1", palette=GREYS))

    def test_a_grid_of_wide_items(self):
        grid = array.array("q", range(40000))
        wide = ["plane: array.array with items of 8 bytes ('q'); one byte a cell is needed", "astype('uint8')"]
        self.wrong(TypeError, wide, grid, 200, 200, "Pal8", palette=GREYS)
        shaped = memoryview(bytes(grid)).cast("q", (200, 200))
        self.wrong(TypeError, ["plane: memoryview with items of 8 bytes ('q')"], shaped, palette=GREYS)
        for code in "hHiIlLQ":
            self.wrong(TypeError, ["plane: ", f"('{code}')"], array.array(code, range(4)), 2, 2, "Pal8", palette=GREYS)

    def test_signed_cells(self):
        self.wrong(TypeError, ["plane: ", "1 byte ('b', signed)"], array.array("b", [-1] * 4), 2, 2, "Pal8", palette=GREYS)

    def test_an_integer_as_plane(self):
        self.wrong(TypeError, ["plane: int given; bytes"], 4, 2, 2, "Pal8", palette=GREYS)

    def test_floats(self):
        self.wrong(TypeError, ["plane: float given"], 4.0, 2, 2, "Pal8", palette=GREYS)
        self.wrong(TypeError, ["plane: list given"], [0.0, 1.0, 2.0, 3.0], 2, 2, "Pal8", palette=GREYS)
        self.wrong(TypeError, ["plane: array.array with items of 8 bytes ('d')"], array.array("d", range(4)), 2, 2, "Pal8",
                   palette=GREYS)

    def test_other_things_as_buffers(self):
        for value, kind in ((None, "NoneType"), ("abcd", "str"), ([0, 1, 2, 3], "list"), ((0, 1, 2, 3), "tuple"), (True, "bool")):
            self.wrong(TypeError, [f"plane: {kind} given"], value, 2, 2, "Pal8", palette=GREYS)
        for name in ("icc", "linked_icc", "palette_rgba"):
            for value, kind in ((4, "int"), ("abc", "str"), ([1], "list")):
                self.wrong(TypeError, [f"{name}: {kind} given"], b"\0", 1, 1, "Pal8", **{name: value})
            self.wrong(TypeError, [f"{name}: array.array with items of 8 bytes ('d')"], b"\0", 1, 1, "Pal8",
                       **{name: array.array("d", [1])})
            square = memoryview(b"abcd").cast("B", (2, 2))
            self.wrong(ValueError, [f"{name}: shape (2, 2)"], b"\0", 1, 1, "Pal8", **{name: square})

    def test_a_plane_that_is_too_long(self):
        plane = bytes(range(240))
        short, written = encode(plane[:45], 9, 5, "Pal8", palette=GREYS)
        self.wrong(ValueError, ["plane: 46 bytes given, and stride times height is 45", "more_follows=True"], plane[:46], 9, 5,
                   "Pal8", palette=GREYS)
        self.wrong(ValueError, ["plane: 240 bytes given, and stride times height is 60"], plane, 9, 5, "Pal8", stride=12,
                   palette=GREYS)
        self.assertEqual(encode(plane, 9, 5, "Pal8", palette=GREYS, more_follows=True), (short, written))
        self.assertEqual(encode(plane[:45], 9, 5, "Pal8", palette=GREYS, more_follows=True), (short, written))
        self.assertEqual(size_bound(plane, 9, 5, "Pal8", palette=GREYS, more_follows=True),
                         size_bound(plane[:45], 9, 5, "Pal8", palette=GREYS))
        # The library's own refusals come first.
        self.refused(3, plane, 9, 5, "Pal8")
        self.refused(13, plane, 9, 5, "Pal8", stride=8, palette=GREYS)
        self.refused(1, plane, 9, 0, "Pal8", palette=GREYS)
        self.refused(12, plane[:44], 9, 5, "Pal8", palette=GREYS, more_follows=True)
        for value in (1, 0, None, "no"):
            self.wrong(TypeError, ["more_follows: "], plane, 9, 5, "Pal8", palette=GREYS, more_follows=value)

    def test_shapes(self):
        plane = bytes(range(24))
        shape = memoryview(plane).cast("B", (4, 6))
        self.assertEqual(encode(shape, palette=GREYS), encode(plane, 6, 4, "Pal8", palette=GREYS))
        self.assertEqual(encode(shape, 6, 4, "Pal8", 6, palette=GREYS), encode(shape, palette=GREYS))
        self.assertEqual(encode(shape, format="indexed4", palette=GREYS), encode(plane, 6, 4, "Indexed4", palette=GREYS))
        self.assertEqual(shown(encode(shape, palette=GREYS, options=EncodeOptions(rle=False))[0], 6, 4), plane)
        self.assertEqual(size_bound(shape, palette=GREYS), size_bound(plane, 6, 4, "Pal8", palette=GREYS))
        for name, size in zip(FORMATS[:6], BYTES_PER_PIXEL):
            colours = memoryview(plane).cast("B", (2, 12 // size, size))
            self.assertEqual(encode(colours, format=name), encode(plane, 12 // size, 2, name))
        self.assertEqual(encode(((ctypes.c_ubyte * 6) * 4).from_buffer_copy(plane), palette=GREYS), encode(shape, palette=GREYS))

    def test_shapes_that_do_not_fit(self):
        plane = bytes(range(24))
        flat, deep = memoryview(plane).cast("B", (4, 6)), memoryview(plane).cast("B", (2, 4, 3))
        self.wrong(ValueError, ["width: 4 given, and 6 by the plane's shape (4, 6)"], flat, 4, 6, palette=GREYS)
        self.wrong(ValueError, ["height: 3 given, and 4 by the plane's shape (4, 6)"], flat, 6, 3, palette=GREYS)
        self.wrong(ValueError, ["stride: 8 given, and 6 by the plane's shape (4, 6)"], flat, stride=8, palette=GREYS)
        self.wrong(ValueError, ["stride: 4 given, and 12 by the plane's shape (2, 4, 3)"], deep, format="Rgb24", stride=4)
        self.wrong(ValueError, ["plane: shape (4, 6) does not fit Rgb24, which needs (height, width, 3)"], flat, 2, 4, "Rgb24")
        self.wrong(ValueError, ["plane: shape (4, 6) does not fit Rgb565, which needs (height, width, 2)"], flat, format="Rgb565")
        self.wrong(ValueError, ["plane: shape (2, 4, 3) does not fit Rgba, which needs (height, width, 4)"], deep, format="Rgba")
        self.wrong(ValueError, ["plane: shape (2, 4, 3) does not fit Pal8, which needs (height, width)"], deep, palette=GREYS)
        self.wrong(ValueError, ["plane: shape () does not fit Pal8"], ctypes.c_ubyte(7), 1, 1, palette=GREYS)
        self.wrong(ValueError, ["plane: shape (1, 2, 4, 3) does not fit Rgb24"], memoryview(plane).cast("B", (1, 2, 4, 3)),
                   format="Rgb24")
        for given, missing in (({}, "width"), ({"width": 6}, "height"), ({"height": 4}, "width")):
            self.wrong(TypeError, [f"{missing} is missing"], plane, palette=GREYS, **given)
        self.refused(3, flat)

    def test_a_thousand_squared(self):
        plane = bytes(v * v % 256 for v in range(1000)) * 1000
        options = EncodeOptions(rle=False)
        file, written = encode(memoryview(plane).cast("B", (1000, 1000)), palette=GREYS, options=options)
        self.assertEqual((written, shown(file, 1000, 1000)), ("Indexed8", plane))


@unittest.skipUnless(numpy, "numpy is not installed")
class Arrays(Case):
    def test_a_grid(self):
        grid = numpy.arange(200 * 100, dtype="uint8").reshape(100, 200)
        file, written = encode(grid, palette=GREYS, options=EncodeOptions(rle=False))
        self.assertEqual((written, shown(file, 200, 100)), ("Indexed8", grid.tobytes()))
        self.assertEqual(encode(grid, numpy.int64(200), numpy.uint8(100), palette=GREYS), encode(grid, palette=GREYS))
        grid.flags.writeable = False
        self.assertEqual(encode(grid, palette=GREYS), encode(grid.tobytes(), 200, 100, "Pal8", palette=GREYS))

    def test_grids_that_are_not_contiguous(self):
        grid = numpy.arange(200 * 100, dtype="uint8").reshape(100, 200)
        for view in (grid.T, grid[::2, ::3], grid[::-1], grid[:, ::-1], grid[10:20, 30:50], numpy.asfortranarray(grid)):
            height, width = view.shape
            file, _ = encode(view, palette=GREYS, options=EncodeOptions(rle=False))
            self.assertEqual(shown(file, width, height), numpy.ascontiguousarray(view).tobytes())
        colours = numpy.arange(240, dtype="uint8").reshape(8, 10, 3)
        self.assertEqual(encode(colours[::-1, :, ::-1], format="Rgb24"),
                         encode(colours[::-1, :, ::-1].tobytes(), 10, 8, "rgb24"))
        self.assertEqual(encode(colours, format="Rgb24")[0], encode(colours[:, :, ::-1], format="Bgr24")[0])

    def test_grids_of_other_types(self):
        for kind in ("int64", "int32", "uint16", "float64", "float32", "complex64", "int8", "object", "S1"):
            grid = numpy.zeros((2, 2), dtype=kind)
            self.wrong(TypeError, ["plane: numpy.ndarray with items of "], grid, palette=GREYS)
            self.wrong(TypeError, ["plane: numpy.ndarray with items of "], grid.reshape(-1), 2, 2, palette=GREYS)
        self.wrong(TypeError, ["plane: numpy.ndarray lends no buffer"], numpy.zeros((2, 2), dtype="datetime64[s]"), palette=GREYS)
        self.wrong(TypeError, ["plane: numpy.int64 with items of 8 bytes"], numpy.int64(4), 2, 2, palette=GREYS)
        self.wrong(ValueError, ["plane: shape () does not fit Pal8"], numpy.uint8(4), 1, 1, palette=GREYS)
        flags = numpy.array([[True, False], [False, True]])
        self.assertEqual(encode(flags, format="Indexed1", palette=GREYS), encode(b"\1\0\0\1", 2, 2, "Indexed1", palette=GREYS))

    def test_a_grid_comes_back(self):
        grid = numpy.arange(200 * 100, dtype="uint8").reshape(100, 200)
        picture = bmp_writer.read(encode(grid, palette=GREYS)[0])
        cells = numpy.asarray(picture.cells)
        self.assertEqual((cells.dtype, cells.reshape(picture.height, picture.width).tolist()), ("uint32", grid.tolist()))
        colours = numpy.arange(240, dtype="uint8").reshape(8, 10, 3)
        picture = bmp_writer.read(numpy.frombuffer(encode(colours, format="Rgb24")[0], dtype="uint8"))
        cells = numpy.asarray(picture.cells).reshape(picture.height, picture.width, 4)
        self.assertEqual((cells[:, :, :3].tolist(), cells[:, :, 3].any()), (colours.tolist(), False))

    def test_words(self):
        words = numpy.arange(6, dtype="uint16").reshape(2, 3) * 5000
        self.wrong(TypeError, ["plane: numpy.ndarray with items of 2 bytes ('H')"], words, format="Rgb565")
        plane = words.astype("<u2").view("uint8").reshape(2, 3, 2)
        self.assertEqual(encode(plane, format="Rgb565"), encode(words.astype("<u2").tobytes(), 3, 2, "Rgb565"))

    def test_palettes(self):
        grid = numpy.arange(16, dtype="uint8").reshape(4, 4)
        greys = numpy.array(GREYS)
        for palette in (greys, greys.astype("uint8"), greys.astype("uint8")[:, ::-1], list(greys), tuple(greys.astype("uint8"))):
            self.assertEqual(encode(grid, palette=palette), encode(grid, palette=GREYS))
        rgba = numpy.hstack([greys, numpy.full((256, 1), 255)]).astype("uint8")
        self.assertEqual(encode(grid, palette=rgba), encode(grid, palette=GREYS))
        self.assertEqual(encode(grid, palette_rgba=rgba), encode(grid, palette=GREYS))
        self.wrong(ValueError, ["palette_rgba: shape (256, 3)"], grid, palette_rgba=greys.astype("uint8"))
        self.wrong(TypeError, ["palette: numpy.ndarray given, which does not say"], grid, palette=rgba.reshape(-1))
        self.wrong(TypeError, ["palette[0]: "], grid, palette=greys / 255)
        self.wrong(TypeError, ["palette[0]: "], grid, palette=greys > 3)
        self.wrong(TypeError, ["palette: numpy.ndarray with items 'O'"], grid, palette=greys.astype(object))
        self.wrong(ValueError, ["palette[255]: 256 is not in 0 .. 255"], grid, palette=greys + 1)
        self.wrong(ValueError, ["palette[0]: 5 numbers given"], grid, palette=numpy.zeros((4, 5), dtype="uint8"))

    def test_numbers_and_flags(self):
        self.wrong(TypeError, ["width: ", "numpy.float64"], b"\0", numpy.float64(1), 1, palette=GREYS)
        self.wrong(TypeError, ["width: ", "bool"], b"\0", numpy.bool_(True), 1, palette=GREYS)
        self.wrong(TypeError, ["options.top_down: ", "True or False"], b"\0", 1, 1, palette=GREYS,
                   options=EncodeOptions(top_down=numpy.bool_(True)))
        masks = numpy.array([0xF800, 0x7E0, 0x1F, 0])
        self.assertEqual(encode(b"abc", 1, 1, "Rgb24", options=EncodeOptions(bitfields=Bitfields(16, masks))),
                         encode(b"abc", 1, 1, "Rgb24", options=EncodeOptions(bitfields=Bitfields(16, (0xF800, 0x7E0, 0x1F, 0)))))


class Palettes(Case):
    def table(self, **given):
        """The colour table's bytes: blue, green, red, 0 of each entry."""
        file, _ = encode(b"\0", 1, 1, "Pal8", options=EncodeOptions(minimal_palette=True), **given)
        return file[54:int.from_bytes(file[10:14], "little")]

    def test_the_same_palette_in_all_ways(self):
        three, four, raw = [(1, 2, 3), (4, 5, 6)], [(1, 2, 3, 255), (4, 5, 6, 255)], bytes([1, 2, 3, 255, 4, 5, 6, 255])
        want = bytes([3, 2, 1, 0, 6, 5, 4, 0])
        for palette in (three, tuple(three), [list(e) for e in three], four, [three[0], four[1]],
                        memoryview(bytes([1, 2, 3, 4, 5, 6])).cast("B", (2, 3)), memoryview(raw).cast("B", (2, 4))):
            self.assertEqual(self.table(palette=palette), want)
        for palette in (raw, bytearray(raw), memoryview(raw), memoryview(raw).cast("B", (2, 4)), array.array("B", raw)):
            self.assertEqual(self.table(palette_rgba=palette), want)

    def test_alpha_is_what_was_said(self):
        self.assertEqual(bmp_writer._entries([(1, 2, 3), (4, 5, 6, 7)]), bytes([1, 2, 3, 255, 4, 5, 6, 7]))

    def test_bytes_as_palette(self):
        pillows = bytes(v for shade in range(256) for v in (shade, shade, shade))
        for kind in (bytes, bytearray, memoryview, lambda b: array.array("B", b)):
            for raw in (pillows, b"", b"\0" * 1024):
                self.wrong(TypeError, ["palette: ", "palette_rgba= for bytes that are red, green, blue, alpha"], b"\0", 1, 1,
                           "Pal8", palette=kind(raw))
        self.wrong(TypeError, ["palette[0]: 0 is of type int; (red, green, blue)"], b"\0", 1, 1, "Pal8", palette=list(pillows))

    def test_other_things_as_palette(self):
        for value in (4, "abc", {(1, 2, 3): 0}, {(1, 2, 3)}, iter([(1, 2, 3)]), object()):
            self.wrong(TypeError, ["palette: ", "a sequence of (red, green, blue)"], b"\0", 1, 1, "Pal8", palette=value)
        for entry in (4, 4.0, None, "abc", b"abc", {1, 2, 3}):
            self.wrong(TypeError, ["palette[1]: ", "(red, green, blue) or (red, green, blue, alpha)"], b"\0", 1, 1, "Pal8",
                       palette=[(0, 0, 0), entry])
        for entry in ((1.0, 2, 3), (1, 2, "3"), (True, 2, 3), (1, 2, 3, None)):
            self.wrong(TypeError, ["palette[1]: ", "an int is needed"], b"\0", 1, 1, "Pal8", palette=[(0, 0, 0), entry])
        for entry in ((), (1, 2), (1, 2, 3, 4, 5), (1, 2, 256), (-1, 2, 3)):
            self.wrong(ValueError, ["palette[1]: "], b"\0", 1, 1, "Pal8", palette=[(0, 0, 0), entry])
        self.wrong(ValueError, ["palette and palette_rgba: both given"], b"\0", 1, 1, "Pal8", palette=GREYS, palette_rgba=b"")


class Numbers(Case):
    def test_sizes(self):
        for name, low, high in (("width", 0, 2 ** 32 - 1), ("height", 0, 2 ** 32 - 1), ("stride", 0, 2 ** 64 - 1)):
            given = {"width": 1, "height": 1, "stride": 1}
            for value in (low - 1, high + 1, 2 ** 70):
                self.wrong(ValueError, [f"{name}: {value} is not in {low} .. {high}"], b"\0", palette=GREYS,
                           **{**given, name: value})
            for value in (1.0, "1", True, [1], b"1"):
                self.wrong(TypeError, [f"{name}: ", f"{type(value).__name__}; an int is needed"], b"\0", palette=GREYS,
                           **{**given, name: value})

    def test_flags(self):
        for name in ("top_down", "minimal_palette", "rle", "embed_icc"):
            for value in ("no", "", 1, 0, None, [], 1.0):
                self.wrong(TypeError, [f"options.{name}: {value!r} is of type {type(value).__name__}; True or False is needed"],
                           b"\0", 1, 1, palette=GREYS, options=EncodeOptions(**{name: value}))

    def test_options(self):
        def wrong(kind, text, **fields):
            self.wrong(kind, [text], b"\0\0\0", 1, 1, "Rgb24", options=EncodeOptions(**fields))

        for value in ({}, 0, False, "rle", EncodeOptions):
            self.wrong(TypeError, ["options: ", "EncodeOptions is needed"], b"\0", 1, 1, palette=GREYS, options=value)
        wrong(ValueError, "options.rendering_intent: -1 is not in", rendering_intent=-1)
        wrong(TypeError, "options.rendering_intent: '4'", rendering_intent="4")
        wrong(TypeError, "options.rendering_intent: None", rendering_intent=None)
        wrong(TypeError, "options.bitfields: tuple given; Bitfields is needed", bitfields=(16, (1, 2, 4, 0)))
        wrong(TypeError, "options.bitfields.bpp: 16.0", bitfields=Bitfields(16.0, (1, 2, 4, 0)))
        wrong(ValueError, "options.bitfields.bpp: 65552 is not in", bitfields=Bitfields(65552, (1, 2, 4, 0)))
        wrong(ValueError, "options.bitfields.masks: 3 given; 4 are needed", bitfields=Bitfields(16, (1, 2, 4)))
        wrong(ValueError, "options.bitfields.masks: 5 given; 4 are needed", bitfields=Bitfields(16, (1, 2, 4, 8, 16)))
        wrong(ValueError, "options.bitfields.masks[1]: 4294967296 is not in", bitfields=Bitfields(16, (1, 2 ** 32, 4, 0)))
        wrong(TypeError, "options.bitfields.masks[3]: False", bitfields=Bitfields(16, (1, 2, 4, False)))
        wrong(TypeError, "options.bitfields.masks: b'abcd'", bitfields=Bitfields(16, b"abcd"))
        wrong(TypeError, "options.bitfields.masks: {", bitfields=Bitfields(16, {1, 2, 4, 0}))
        wrong(TypeError, "options.bitfields.masks: 7", bitfields=Bitfields(16, 7))
        wrong(TypeError, "options.calibrated_rgb: list given; CalibratedRgb is needed", calibrated_rgb=[0] * 12)
        wrong(ValueError, "options.calibrated_rgb.endpoints: 8 given; 9 are needed",
              calibrated_rgb=CalibratedRgb([0] * 8, [0] * 3))
        wrong(ValueError, "options.calibrated_rgb.gamma: 4 given; 3 are needed", calibrated_rgb=CalibratedRgb([0] * 9, [0] * 4))
        wrong(ValueError, "options.calibrated_rgb.endpoints[8]: 2147483648 is not in -2147483648 .. 2147483647",
              calibrated_rgb=CalibratedRgb([0] * 8 + [2 ** 31], [0] * 3))
        wrong(ValueError, "options.calibrated_rgb.gamma[0]: -1 is not in", calibrated_rgb=CalibratedRgb([0] * 9, [-1, 0, 0]))
        wrong(TypeError, "options.calibrated_rgb.gamma[2]: 2.2", calibrated_rgb=CalibratedRgb([0] * 9, [0, 0, 2.2]))


class Reading(Case):
    # Each row has a long run, one other cell, a short run, and then cells that differ, which a stream stores as they are.
    grid = bytes((29 * y + x // 20 + x // 21 if x < 25 else 7 * x + y) % 256 for y in range(7) for x in range(33))
    masks = Bitfields(16, (0xF000, 0xF00, 0, 0xF))
    gauges = CalibratedRgb([1] * 9, [2] * 3)

    def files(self):
        """A file in every format and mode, with what it was written as."""
        for name, size in zip(FORMATS, BYTES_PER_PIXEL):
            fields = [{}, {"rle": False}, {"top_down": True}, {"minimal_palette": True}, {"calibrated_rgb": self.gauges}]
            if name in ("Rgba", "Rgb24", "Bgra", "Bgr24"):
                fields += [{"bitfields": self.masks}, {"bitfields": Bitfields(32, (0xFF, 0, 0xFF00, 0)), "top_down": True}]
            for given in [{"icc": b"profile"}, *({"options": EncodeOptions(**named)} for named in fields)]:
                yield encode(self.grid[:33 // size * size * 7], 33 // size, 7, name, palette=GREYS[:2], **given)

    def unread(self, number, data):
        with self.assertRaises(BmpError) as caught:
            bmp_writer.read(data)
        self.assertEqual(caught.exception.number, number)
        self.assertEqual(str(caught.exception), f"{number}: {bmp_writer.REFUSALS[number]}")

    def test_the_specifications_file(self):
        picture = Picture(5, 1, 8, M12[:54], M12[54:58], array.array("I", [7] * 5), b"")
        for length in range(60):
            self.unread(18 if length < 58 else 19, M12[:length])
        for length in (60, 61, 62):
            self.assertEqual(bmp_writer.read(M12[:length]), picture)

    def test_other_fields(self):
        # A head's last field, a table's fourth byte, and halves of RLE4 that differ come back as they are filed.
        file = M12[:28] + b"\4\0\2" + M12[31:50] + b"ABCDEFGH\5\x1e"
        self.assertEqual(bmp_writer.read(file), Picture(5, 1, 4, file[:54], b"EFGH", array.array("I", [1, 14, 1, 14, 1]), b""))

    def test_indices(self):
        table = bytes(v for shade in range(256) for v in (shade, shade // 2, shade // 3, 0))
        palette = [(shade // 3, shade // 2, shade) for shade in range(256)]
        for name, depth, written in (("Pal8", 8, ("Indexed8", "Rle8")), ("Indexed4", 4, ("Indexed4", "Rle4")),
                                     ("Indexed2", 2, ("Indexed2",)), ("Indexed1", 1, ("Indexed1",))):
            cells = array.array("I", [index % 2 ** depth for index in self.grid])
            for options, form in ((EncodeOptions(), written[-1]), (EncodeOptions(rle=False), written[0]),
                                  (EncodeOptions(top_down=True), written[0]),
                                  (EncodeOptions(calibrated_rgb=self.gauges), written[0])):
                file, answered = encode(self.grid, 33, 7, name, palette=palette, options=options)
                size = 122 if options.calibrated_rgb else 54
                self.assertEqual(answered, form)
                self.assertEqual(bmp_writer.read(file), Picture(33, 7, depth, file[:size], table[:4 * 2 ** depth], cells, b""))
            file, _ = encode(self.grid, 33, 7, name, palette=palette[:2], options=EncodeOptions(minimal_palette=True))
            self.assertEqual(bmp_writer.read(file), Picture(33, 7, depth, file[:54], table[:8], cells, b""))

    def test_colours(self):
        plane = bytes(range(0, 240, 5))
        words = [plane[k] + 256 * plane[k + 1] for k in range(0, 48, 2)]
        for name, size in zip(FORMATS[:6], BYTES_PER_PIXEL):
            if size == 2:
                red = 1024 if name == "Rgb555" else 2048
                cells = [v for word in words for v in (word // red % 32, word % red // 32, word % 32, 0)]
            else:
                red = 0 if name.startswith("Rgb") else 2
                cells = [v for k in range(0, 48, size) for v in (plane[k + red], plane[k + 1], plane[k + 2 - red], 0)]
            for top_down in (False, True):
                file, _ = encode(plane, 24 // size, 2, name, options=EncodeOptions(top_down=top_down))
                head = file[:122 if name == "Rgb565" else 54]
                self.assertEqual(bmp_writer.read(file), Picture(24 // size, 2, 8 * size, head, b"", array.array("I", cells), b""))

    def test_masks(self):
        plane = bytes.fromhex("123456789ABCDEFF")
        for bpp, masks, form, cells in (
                (16, (0xF000, 0xF00, 0xF0, 0xF), "AlphaBitfields", [1, 3, 5, 7, 9, 0xB, 0xD, 0xF]),
                (16, (0xF000, 0xF00, 0, 0xF), "AlphaBitfields", [1, 3, 0, 7, 9, 0xB, 0, 0xF]),
                (16, (0xF, 0xF0, 0xF00, 0), "Bitfields", [1, 3, 5, 0, 9, 0xB, 0xD, 0]),
                (32, (0xFF, 0xFF00, 0xFF0000, 0xFF000000), "AlphaBitfields", list(plane)),
                (32, (0xFF00, 0, 0xFFFF0000, 0), "Bitfields", [0x12, 0, 0x5656, 0, 0x9A, 0, 0xDEDE, 0])):
            file, written = encode(plane, 2, 1, "Rgba", options=EncodeOptions(bitfields=Bitfields(bpp, masks)))
            self.assertEqual(written, form)
            self.assertEqual(bmp_writer.read(file), Picture(2, 1, bpp, file[:54], b"", array.array("I", cells), b""))

    def test_profiles(self):
        for given, profile in (({"icc": b"abc"}, b"abc"), ({"icc": b"abc", "linked_icc": b"path"}, b"path"), ({"icc": b""}, b""),
                               ({"icc": b"abc", "options": EncodeOptions(embed_icc=False)}, b""), ({}, b"")):
            file, _ = encode(b"\1\2\3", 1, 1, "Rgb24", **given)
            picture = bmp_writer.read(file)
            self.assertEqual((type(picture.profile), picture.profile, picture.cells.tolist()), (bytes, profile, [1, 2, 3, 0]))

    def test_kinds_of_buffers(self):
        picture = bmp_writer.read(M12)
        for kind in (bytes, bytearray, memoryview, lambda b: memoryview(bytearray(b)).toreadonly(), lambda b: array.array("B", b),
                     (ctypes.c_ubyte * 62).from_buffer_copy, (ctypes.c_char * 62).from_buffer_copy,
                     lambda b: memoryview(b).cast("c"), lambda b: memoryview(b"x" + b + b"x")[1:63],
                     lambda b: memoryview(bytes(v for v in b for _ in "ab"))[::2]):
            self.assertEqual(bmp_writer.read(kind(M12)), picture)
        with tempfile.TemporaryFile() as file:
            file.write(M12)
            file.flush()
            with mmap.mmap(file.fileno(), 0, access=mmap.ACCESS_READ) as mapped:
                self.assertEqual(bmp_writer.read(mapped), picture)
        for data, kind in ((None, "NoneType"), (4, "int"), ("BM", "str"), ([66, 77], "list")):
            with self.assertRaisesRegex(TypeError, f"^data: {kind} given; bytes"):
                bmp_writer.read(data)
        with self.assertRaisesRegex(TypeError, r"^data: array.array with items of 4 bytes \('I'\)"):
            bmp_writer.read(array.array("I", [1]))
        with self.assertRaisesRegex(ValueError, r"^data: shape \(2, 31\); one dimension is needed"):
            bmp_writer.read(memoryview(M12).cast("B", (2, 31)))

    def test_what_comes_back_is_the_callers(self):
        data = bytearray(M12)
        picture = bmp_writer.read(data)
        data[:] = bytes(62)
        self.assertEqual(picture, bmp_writer.read(M12))
        picture.cells[0] = 2 ** 32 - 1
        for other in (pickle.loads(pickle.dumps(picture)), copy.deepcopy(picture)):
            self.assertEqual((type(other), other), (Picture, picture))
        self.assertEqual(set(typing.get_type_hints(Picture)), set(Picture._fields))

    def test_refusals(self):
        for at, changed in ((0, b"BN"), (14, b"\x29"), (18, b"\0"), (22, b"\0"), (22, b"\xff" * 4), (28, b"\3"), (30, b"\2"),
                            (47, b"\2")):
            self.unread(17, M12[:at] + changed + M12[at + len(changed):])
        masked, _ = encode(b"\1\2\3", 1, 1, "Rgb24", options=EncodeOptions(bitfields=self.masks))
        self.unread(17, masked[:54] + b"\5" + masked[55:])
        self.unread(17, b"BN")
        self.unread(18, b"")
        for codes in (b"\6\7\0\1", b"\4\7\0\1", b"\0\0\5\7", b"\0\2\0\0\5\7", b"\0\2\7\7\3\7", b"\0\5\7\7"):
            self.unread(19, M12[:58] + codes)

    def test_every_length(self):
        for file, written in self.files():
            picture = bmp_writer.read(file)
            for length in range(len(file)):
                try:
                    shorter = bmp_writer.read(file[:length])
                except BmpError as error:
                    self.assertIn(error.number, (18, 19) if written.startswith("Rle") else (18,))
                else:
                    # A stream's end and the padding before it come after the last cell.
                    self.assertTrue(written.startswith("Rle") and length >= len(file) - 3)
                    self.assertEqual(shorter, picture)
            self.assertEqual(bmp_writer.read(file + b"more"), picture)

    def test_huge_heads(self):
        def asked(width, height):
            return M12[:18] + width.to_bytes(4, "little") + height.to_bytes(4, "little") + M12[26:]

        with self.assertRaisesRegex(MemoryError, r"^data: there is no memory for the 4611686014132420609 numbers of its cells$"):
            bmp_writer.read(asked(2 ** 31 - 1, 2 ** 31 - 1))
        for bits in range(10, 31):
            # Whether there is memory depends on the machine; none of it is written to.
            with self.assertRaises((BmpError, MemoryError)) as caught:
                bmp_writer.read(asked(2 ** bits, 2 ** 10))
            self.assertEqual(getattr(caught.exception, "number", 19), 19)

    def test_threads(self):
        # A library of the other kind would keep the interpreter's lock.
        self.assertNotIsInstance(bmp_writer._lib(), ctypes.PyDLL)
        files = [file for file, _ in self.files()]
        with ThreadPoolExecutor(4) as pool:
            self.assertEqual(list(pool.map(bmp_writer.read, files)), [bmp_writer.read(file) for file in files])

    def test_a_thousand_squared(self):
        plane = bytes(v * v // 4000 % 256 for v in range(1000)) * 1000
        for rle in (False, True):
            file, written = encode(plane, 1000, 1000, palette=GREYS, options=EncodeOptions(rle=rle))
            picture = bmp_writer.read(file)
            self.assertEqual((written, bytes(picture.cells.tolist())), ("Rle8" if rle else "Indexed8", plane))


class Rows(Case):
    """Row starts, and rows read from there."""

    def test_every_row_of_every_file(self):
        """The file of the call without starts; each start is where a row's bytes begin, and each row is the whole reading's."""
        grid, masks = Reading.grid, Bitfields(16, (0xF000, 0xF00, 0, 0xF))
        met = set()
        for name, size in zip(FORMATS, BYTES_PER_PIXEL):
            fields = [{}, {"rle": False}, {"top_down": True}, {"minimal_palette": True}, {"calibrated_rgb": Reading.gauges}]
            if name in ("Rgba", "Bgr24"):
                fields += [{"bitfields": masks}, {"bitfields": masks, "top_down": True}]
            for given in [{"icc": b"profile"}, {"limit": 1200, "options": EncodeOptions(minimal_palette=True)},
                          *({"options": EncodeOptions(**named)} for named in fields)]:
                arguments = {"plane": grid[:33 // size * size * 7], "width": 33 // size, "height": 7, "format": name,
                             "palette": GREYS[:2], **given}
                file, written, starts = encode_with_starts(**arguments)
                self.assertEqual((file, written), encode(**arguments))
                self.assertEqual((starts.typecode, len(starts)), ("Q", 7))
                met.add(written)
                whole = bmp_writer.read(file)
                pixels, step = int.from_bytes(file[10:14], "little"), (whole.width * whole.depth + 31) // 32 * 4
                top_down = file[25] >= 128
                if written.startswith("Rle"):
                    self.assertEqual(starts[0], pixels)
                    for before, start in zip(starts, starts[1:]):
                        self.assertTrue(start > before and file[start - 2:start] == b"\0\0")
                else:
                    self.assertEqual(starts.tolist(), [pixels + k * step for k in range(7)])
                numbers = len(whole.cells) // 7
                ends = [*starts[1:], len(file)] if written.startswith("Rle") else [start + step for start in starts]
                for k, (start, end) in enumerate(zip(starts, ends)):
                    y = k if top_down else 6 - k
                    row = whole.cells[y * numbers:(y + 1) * numbers]
                    self.assertEqual(read_row(file, start), row)
                    others = bytes(255 - v if pixels <= at < start or end <= at else v for at, v in enumerate(file))
                    self.assertEqual(read_row(others, start), row)
                    self.assertEqual(read_row(others[:end], start), row)
        self.assertTrue({"Rle8", "Rle4", "Indexed8", "Indexed4", "Indexed1", "Rgb24", "AlphaBitfields"} <= met)

    def test_the_specifications_file(self):
        options = EncodeOptions(minimal_palette=True)
        file, written, starts = encode_with_starts(b"\7" * 5, 5, 1, palette=[], options=options)
        self.assertEqual((file, written, starts.tolist()), (M12, "Rle8", [58]))
        self.assertEqual(read_row(M12, 58), array.array("I", [7] * 5))
        file, written, starts = encode_with_starts(b"\7" * 4 + b"\1\2\3\4", 4, 2, palette=[], options=options)
        self.assertEqual((written, starts.tolist()), ("Indexed8", [58, 62]))
        self.assertEqual((read_row(file, 58).tolist(), read_row(file, 62).tolist()), ([1, 2, 3, 4], [7] * 4))

    def unread(self, number, data, start):
        with self.assertRaises(BmpError) as caught:
            read_row(data, start)
        self.assertEqual(str(caught.exception), f"{number}: {bmp_writer.REFUSALS[number]}")

    def test_refusals(self):
        for start in (0, 57, 59, 60, 62, 63, 2 ** 32 + 58, 2 ** 64 - 1):
            self.unread(19, M12, start)
        for codes in (b"\6\7\0\1", b"\4\7\0\1", b"\0\0\5\7", b"\0\2\0\0\5\7", b"\0\5\7\7", b"\5"):
            self.unread(19, M12[:58] + codes, 58)
        for length in range(58):
            self.unread(18, M12[:length], 58)
        self.unread(17, b"BN", 2 ** 64 - 1)
        self.unread(18, b"", 0)
        # Any start is read as it stands: the mark and the file's size are a cell of three bytes too.
        file, _, starts = encode_with_starts(b"\1\2\3\4\5\6", 1, 2, "Rgb24", icc=b"profile")
        self.assertEqual((starts.tolist(), len(file)), ([138, 142], 153))
        self.assertEqual((read_row(file[:146], 142).tolist(), read_row(file, 0).tolist()), ([1, 2, 3, 0], [file[2], 0x4D, 0x42, 0]))
        for length, start in ((145, 142), (141, 138), (153, 150), (153, 154), (153, 2 ** 32 + 142), (153, 2 ** 64 - 4), (153, 2 ** 64 - 1)):
            self.unread(18, file[:length], start)
        # No memory is needed for a wide row that is refused, if there is any.
        with self.assertRaises((BmpError, MemoryError)) as caught:
            read_row(M12[:18] + b"\xff\xff\xff\x7f" + M12[22:], 58)
        self.assertEqual(getattr(caught.exception, "number", 19), 19)

    def test_the_list(self):
        """The library's own numbers: 24 after 15 and before 16, and what a refusal leaves."""
        palette = b"\0" * 4
        source, plane = bmp_writer._Source(6, 33, 7, True, False, False, 33), Reading.grid
        raw = bmp_writer._raw_options(None)
        bound = size_bound(plane, 33, 7, palette=[(0, 0, 0, 0)])

        def number(entries, room=bound, limit=2 ** 32 - 1, kind=6):
            source.format = kind
            out, starts = ctypes.create_string_buffer(b"\xaa" * room, room), array.array("Q", [2 ** 64 - 1] * 9)
            answer = bmp_writer._lib().bmp_encode_with_starts(
                source, raw, bmp_writer._Settings(limit, 2835, 2835), plane, len(plane), palette, 4, None, 0, None, 0, out, room, 0,
                starts.buffer_info()[0], entries)
            filled = 0 if answer.refusal else 7
            self.assertEqual(starts[filled:].tolist(), [2 ** 64 - 1] * (9 - filled))
            self.assertTrue(filled or out.raw == b"\xaa" * room)
            return answer.refusal

        self.assertEqual([number(entries) for entries in range(10)], [24] * 7 + [0] * 3)
        self.assertEqual([number(entries, limit=100) for entries in (0, 6, 7, 9)], [24, 24, 16, 16])
        self.assertEqual([number(entries, room=bound - 1) for entries in (0, 6, 7, 9)], [15] * 4)
        self.assertEqual([number(entries, kind=10) for entries in (0, 6, 7, 9)], [255] * 4)
        self.assertEqual([number(entries, limit=2 ** 32) for entries in (0, 6, 7, 9)], [20] * 4)

    def test_arguments(self):
        for start in (-1, 2 ** 64):
            with self.assertRaisesRegex(ValueError, f"^start: {start} is not in 0 .. 18446744073709551615$"):
                read_row(M12, start)
        for start, kind in ((None, "NoneType"), ("58", "str"), (58.0, "float"), (True, "bool")):
            with self.assertRaisesRegex(TypeError, f"^start: .* is of type {kind}; an int is needed$"):
                read_row(M12, start)
        with self.assertRaisesRegex(TypeError, "^data: str given; bytes"):
            read_row("BM", 0)
        for kind in (bytearray, memoryview, lambda b: array.array("B", b), lambda b: memoryview(b"x" + b + b"x")[1:63]):
            self.assertEqual(read_row(kind(M12), 58), array.array("I", [7] * 5))

    def test_threads(self):
        plane = bytes(v * v // 4000 % 256 for v in range(1000)) * 100
        file, written, starts = encode_with_starts(plane, 1000, 100, palette=GREYS)
        with ThreadPoolExecutor(4) as pool:
            rows = list(pool.map(read_row, [file] * 100, starts))
        self.assertEqual((written, rows), ("Rle8", [array.array("I", list(plane[:1000]))] * 100))


def doubles(*prices):
    return array.array("d", prices)


class Quotes(Case):
    calls = shade_quotes,
    inf, nan, least = float("inf"), float("nan"), 5e-324
    edges = doubles(-1, 0, 2.5)
    most = doubles(*range(254))
    # Low, high and index.
    cells = ((-inf, -inf, 0), (-1.5, -1.25, 0), (-1, -least, 1), (-0.0, -0.0, 2), (-0.0, 0.0, 2), (0.0, -0.0, 2),
             (least, 2.25, 2), (2.5, inf, 3), (inf, inf, 3), (-1.5, -1, HATCH), (-least, -0.0, HATCH), (2.25, 2.5, HATCH),
             (-inf, inf, HATCH))
    lows, highs = doubles(*(cell[0] for cell in cells)), doubles(*(cell[1] for cell in cells))
    plane = bytearray(cell[2] for cell in cells)

    def test_shades(self):
        plane = shade_quotes(self.edges, self.lows, self.highs)
        self.assertEqual((type(plane), plane), (bytearray, self.plane))
        plane.append(0)
        self.assertEqual(shade_quotes(self.edges, self.lows, self.highs + doubles(self.nan, -self.inf)), self.plane)
        ends = doubles(-self.inf, 1e308, self.inf)
        self.assertEqual(shade_quotes(doubles(-self.inf, self.inf), ends, ends), b"\1\1\2")
        self.assertEqual(shade_quotes(doubles(-0.0), doubles(0, -self.least), doubles(0, -self.least)), b"\1\0")
        prices = doubles(*(k - 0.5 for k in range(255)))
        self.assertEqual(shade_quotes(self.most, prices, prices), bytes(range(255)))
        self.assertEqual(shade_quotes(self.most, doubles(), doubles()), b"")

    def test_refusals(self):
        """15 before 22 before 23."""
        good, full = doubles(1, 2, 3), self.most + doubles(254)
        for scale in ((), full, (self.nan,), (self.nan, 1), (0, -self.nan, 2), (0, self.nan), (0, 0), (-0.0, 0.0), (0.0, -0.0),
                      (2, 1), (self.inf, self.inf)):
            self.refused(22, doubles(*scale), good, good)
            self.refused(22, doubles(*scale), doubles(), doubles())
        for low, high in ((self.nan, 1), (1, self.nan), (-self.nan, self.nan), (1, 0), (self.least, -0.0), (self.inf, 1e308)):
            for at in range(3):
                lows, highs = good[:], good[:]
                lows[at], highs[at] = low, high
                self.refused(23, self.most, lows, highs)
                self.refused(22, full, lows, highs)
                self.refused(15, full, lows, highs[:2])
                self.assertEqual(shade_quotes(self.most, lows[:at], highs), bytes((2, 3, 4)[:at]))
        self.refused(15, self.most, good, doubles())

    def test_kinds_of_buffers(self):
        size = len(self.lows)

        def spaced(prices):
            return memoryview(doubles(*(price for price in prices for _ in "ab")))[::2]

        for kind in (memoryview, lambda a: memoryview(a).toreadonly(), lambda a: memoryview(bytes(a)).cast("d"),
                     lambda a: (ctypes.c_double * len(a))(*a), spaced):
            self.assertEqual(shade_quotes(kind(self.edges), kind(self.lows), kind(self.highs)), self.plane)
        rows = [memoryview(bytes(prices[:12])).cast("d", (3, 4)) for prices in (self.lows, self.highs)]
        self.assertEqual(shade_quotes(self.edges, *rows), self.plane[:12])
        for value, kind in ((None, "NoneType"), (4.0, "float"), ("abc", "str"), ([1.0], "list")):
            for name in ("edges", "lows", "highs"):
                given = {"edges": self.edges, "lows": self.lows, "highs": self.highs, name: value}
                self.wrong(TypeError, [f"{name}: {kind} given; an array of the type code 'd'"], **given)
        for code in "fqbB":
            self.wrong(TypeError, [f"lows: array.array with items '{code}'; doubles ('d') are needed"], self.edges,
                       array.array(code, [1] * size), self.highs)
        self.wrong(TypeError, ["edges: bytes with items 'B'; doubles"], bytes(24), self.lows, self.highs)
        swapped = ctypes.c_double.__ctype_be__ if sys.byteorder == "little" else ctypes.c_double.__ctype_le__
        self.wrong(TypeError, ["highs: ", "'; doubles ('d') are needed"], self.edges, self.lows, (swapped * size)())

    def test_shapes_that_do_not_fit(self):
        twelve = bytes(8 * 12)
        flat, rows, columns = (memoryview(twelve).cast("d", shape) for shape in ((12,), (3, 4), (4, 3)))
        self.wrong(ValueError, ["edges: shape (3, 4); one dimension is needed"], rows, flat, flat)
        self.wrong(ValueError, ["lows: shape (2, 2, 3); one dimension or two is needed"], self.edges,
                   memoryview(twelve).cast("d", (2, 2, 3)), flat)
        self.wrong(ValueError, ["highs: shape (); one dimension or two is needed"], self.edges, flat, ctypes.c_double(1))
        for lows, highs in ((rows, columns), (rows, flat), (flat, rows)):
            self.wrong(ValueError, [f"highs: shape {highs.shape}, and that of lows is {lows.shape}"], self.edges, lows, highs)
        self.refused(15, self.edges, rows, memoryview(twelve[:64]).cast("d", (2, 4)))
        self.assertEqual(shade_quotes(self.edges, memoryview(twelve[:64]).cast("d", (2, 4)), rows), b"\2" * 8)

    def test_a_file_shows_the_indices(self):
        lows = doubles(*(y + x / 16 for y in range(10) for x in range(20)))
        highs = doubles(*(low + 0.125 for low in lows))
        plane = shade_quotes(doubles(*(k / 2 for k in range(1, 21))), lows, highs)
        self.assertLessEqual({0, 20, HATCH}, set(plane))
        file, _ = encode(plane, 20, 10, palette=GREYS)
        self.assertEqual(bytes(bmp_writer.read(file).cells.tolist()), plane)

    def test_threads(self):
        scales = [doubles(*range(k, k + 100)) for k in range(40)]
        prices = doubles(*(k / 8 for k in range(1000)))
        with ThreadPoolExecutor(4) as pool:
            planes = list(pool.map(lambda edges: shade_quotes(edges, prices, prices), scales))
        self.assertEqual(planes, [bytes(min(max(k // 8 - first + 1, 0), 100) for k in range(1000)) for first in range(40)])

    @unittest.skipUnless(numpy, "numpy is not installed")
    def test_arrays(self):
        lows = numpy.linspace(0, 250, 20000).reshape(100, 200)
        edges = numpy.arange(254.0)
        for view in (lows, lows.T, lows[::2, ::3], lows[::-1], numpy.asfortranarray(lows)):
            plane = shade_quotes(edges, view, view + 0.25)
            shades = [numpy.searchsorted(edges, ends, "right") for ends in (view, view + 0.25)]
            indices = numpy.where(shades[0] == shades[1], shades[0], HATCH)
            self.assertEqual(numpy.frombuffer(plane, "uint8").reshape(view.shape).tolist(), indices.tolist())
        for kind in ("float32", ">f8", "int64", "complex128", "object"):
            self.wrong(TypeError, ["lows: numpy.ndarray with items '"], edges, lows.astype(kind), lows)
        self.wrong(ValueError, ["lows: shape (); one dimension or two"], edges, numpy.float64(1), lows)


class Errors(unittest.TestCase):
    def test_a_value_error_with_number_and_text(self):
        error = BmpError(12)
        self.assertIsInstance(error, ValueError)
        self.assertEqual((error.number, error.text), (12, "the plane is shorter than stride times height"))
        self.assertEqual(str(error), "12: the plane is shorter than stride times height")
        self.assertEqual(str(BmpError(99)), "99: unknown refusal number")

    def test_copies(self):
        for number in list(bmp_writer.REFUSALS) + [99]:
            error = BmpError(number)
            copies = [pickle.loads(pickle.dumps(error, protocol)) for protocol in range(pickle.HIGHEST_PROTOCOL + 1)]
            for other in copies + [copy.copy(error), copy.deepcopy(error)]:
                self.assertIs(type(other), BmpError)
                self.assertEqual((other.args, other.number, other.text, str(other)), ((number,), number, error.text, str(error)))

    def test_a_refusal_in_a_pool_comes_back(self):
        with multiprocessing.get_context("spawn").Pool(1) as pool:
            with self.assertRaises(BmpError) as caught:
                pool.apply_async(encode, (b"\0", 1, 1, "Pal8")).get(timeout=60)
            self.assertEqual(caught.exception.number, 3)
            options = EncodeOptions(minimal_palette=True)
            made = pool.apply_async(encode, (b"\7" * 5, 5, 1), {"palette": [], "options": options})
            self.assertEqual(made.get(timeout=60), (M12, "Rle8"))

    def test_the_texts_are_those_of_the_header(self):
        header = read("../c/bmp_writer.h")
        numbers = dict(re.findall(r"^    (BMP_\w+) = (\d+)", header, re.MULTILINE))
        texts = re.findall(r'case (BMP_\w+): return "(.*)";', header)
        self.assertEqual({int(numbers[name]): text for name, text in texts}, {0: "not refused", **bmp_writer.REFUSALS})


class Package(unittest.TestCase):
    def test_the_structs_are_the_headers(self):
        here = []
        for kind in (bmp_writer._Options, bmp_writer._Settings, bmp_writer._Source, bmp_writer._Answer, bmp_writer._Reading,
                     bmp_writer._ReadingSizes):
            name = "bmp" + re.sub("[A-Z]", lambda letter: "_" + letter.group().lower(), kind.__name__[1:])
            here += [f"BMP_PLACE({name}, {field}, {getattr(kind, field).offset});" for field, _ in kind._fields_]
            here += [f"BMP_BYTES({name}, {ctypes.sizeof(kind)});"]
        self.assertEqual(here, re.findall(r"^BMP_(?:PLACE|BYTES)\(.*\);$", read("../c/bmp_writer.h"), re.MULTILINE))

    def test_names(self):
        for name in bmp_writer.__all__:
            self.assertTrue(hasattr(bmp_writer, name))
        public = {name for name, value in vars(bmp_writer).items() if getattr(value, "__module__", None) == "bmp_writer"}
        self.assertEqual({name for name in public if not name.startswith("_")} - set(bmp_writer.__all__), set())

    def test_one_version(self):
        self.assertEqual(bmp_writer.__version__, read("../../VERSION").strip())
        self.assertIn(f'\nversion = "{bmp_writer.__version__}"\n', read("pyproject.toml"))

    def test_a_missing_library(self):
        call = "import bmp_writer; print('imported'); bmp_writer.encode(b'\\0', 1, 1, 'Pal8', palette=[])"
        with tempfile.TemporaryDirectory() as folder:
            with open(os.path.join(folder, "bmp_writer.py"), "w", encoding="utf-8") as file:
                file.write(read("bmp_writer.py"))
            wrong = {"bogus": os.path.join(folder, "nowhere.so"), "text": os.path.join(HERE, "example.py")}
            for case, named in (("missing", {}), ("missing", {"BMP_WRITER_LIBRARY": wrong["bogus"]}),
                                ("cannot be used", {"BMP_WRITER_LIBRARY": wrong["text"]})):
                said = python(call, folder, **named).stdout
                self.assertTrue(said.startswith("imported\n"), said)
                for piece in ("ImportError: the library ", case, BUILD, "BMP_WRITER_LIBRARY", *named.values()):
                    self.assertIn(piece, said)

    def test_a_wheel_without_a_library(self):
        with tempfile.TemporaryDirectory() as folder:
            ran = python("import wheel_backend; wheel_backend.build_wheel('.')", folder, PYTHONPATH=HERE,
                         BMP_WRITER_LIBRARY=os.path.join(folder, "nowhere.so"))
            self.assertEqual(ran.returncode, 1)
            self.assertIn(BUILD, ran.stdout)
            self.assertNotIn("Traceback", ran.stdout)
            self.assertEqual(os.listdir(folder), [])

    def test_the_installed_package_has_its_library(self):
        with tempfile.TemporaryDirectory() as folder:
            target, library = os.path.join(folder, "target"), os.path.abspath(bmp_writer._library_path())
            before = files_below(HERE)
            pip = [sys.executable, "-m", "pip", "--disable-pip-version-check", "install", "--no-index", "--target", target, HERE]
            if subprocess.run(pip[:3] + ["--version"], stdout=subprocess.DEVNULL, stderr=subprocess.DEVNULL).returncode != 0:
                self.skipTest("pip is not installed")
            # Empty is not set: bytecode is written, as from a caller's own shell, and none may stay in the checkout.
            ran = subprocess.run(pip, cwd=folder, env=environment(BMP_WRITER_LIBRARY=library, PYTHONDONTWRITEBYTECODE=""),
                                 stdout=subprocess.PIPE, stderr=subprocess.STDOUT, universal_newlines=True, timeout=300)
            self.assertEqual(ran.returncode, 0, ran.stdout)
            self.assertEqual(files_below(HERE), before)
            installed = {name for name in os.listdir(os.path.join(target, "bmp_writer")) if name != "__pycache__"}
            self.assertEqual(installed, {"__init__.py", "py.typed", "libbmp_writer.so"})
            info = os.path.join(target, f"bmp_writer-{bmp_writer.__version__}.dist-info")
            with open(os.path.join(info, "NOTICE"), encoding="utf-8") as file:
                self.assertEqual(file.read(), read("../../NOTICE"))
            with open(os.path.join(info, "METADATA"), encoding="utf-8") as file:
                self.assertTrue(re.search(rf"^Version: {re.escape(bmp_writer.__version__)}$", file.read(), re.MULTILINE))
            call = ("import bmp_writer as b; "
                    "f, w = b.encode(b'\\7' * 5, 5, 1, palette=[], options=b.EncodeOptions(minimal_palette=True)); "
                    "print(f.hex(), w, b._lib()._name)")
            ran = python(call, folder, PYTHONPATH=target)
            self.assertEqual(ran.stdout.split(), [M12.hex(), "Rle8", os.path.join(target, "bmp_writer", "libbmp_writer.so")])


if __name__ == "__main__":
    unittest.main()
