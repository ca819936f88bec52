"""Tests of the program bmp_writer (clients/c/command.c): BMP_WRITER_PROGRAM names it, or it is in target/clients.

Standard error is a datagram socket in most tests, so that every write of the program is one item of `err`."""
import os
import random
import re
import resource
import shutil
import signal
import socket
import stat
import subprocess
import tempfile
import threading
import time
import unittest
from array import array
from collections import namedtuple

HERE = os.path.dirname(os.path.abspath(__file__))
PROGRAM = os.path.abspath(os.environ.get("BMP_WRITER_PROGRAM") or os.path.join(HERE, "../target/clients/bmp_writer"))
ROOT = os.geteuid() == 0
NOBODY = 65534
TIMEOUT = 120

OPTIONS = """--plane --csv --width --height --stride --format --palette --sample-palette --icc --linked-icc --no-embed-icc
--rendering-intent --bitfields --calibrated-rgb --limit --pels --top-down --minimal-palette --no-rle --more-follows --out
--read --edges --lows --highs --help --version""".split()
FORMATS = "Rgba Rgb24 Bgra Bgr24 Rgb555 Rgb565 Pal8 Indexed4 Indexed2 Indexed1".split()
MOST = {"Pal8": 255, "Indexed4": 15, "Indexed2": 3, "Indexed1": 1}


def header_texts():
    """The texts of bmp_refusal_text by number, out of the header: every client has the same."""
    with open(os.path.join(HERE, "c/bmp_writer.h"), encoding="utf-8") as file:
        header = file.read()
    numbers = dict(re.findall(r"^    (BMP_\w+) = (\d+)", header, re.MULTILINE))
    return {int(numbers[name]): text for name, text in re.findall(r'case (BMP_\w+): return "(.*)";', header)}


REFUSALS = header_texts()
MISSING = "--plane FILE or --csv FILE is missing, or --edges, --lows and --highs (--help lists the options)"

# Five cells of index 7, with an empty palette and a minimal table.
FIVE = bytes.fromhex("424D3E00000000000000" "3A000000" "28000000" "0500000001000000" "01000800" "01000000" "04000000"
                     "130B0000130B0000" "0100000000000000" "00000000" "05070001")

Ran = namedtuple("Ran", "status out err")


def little(number, size=4):
    return number.to_bytes(size, "little")


def cksum(content):
    """What POSIX's cksum prints of these bytes."""
    count, rest = bytearray(), len(content)
    while rest:
        count.append(rest & 255)
        rest >>= 8
    total = 0
    for byte in content + count:
        total ^= byte << 24
        for _ in range(8):
            total = total << 1 ^ (0x104C11DB7 if total & 0x80000000 else 0)
    return total ^ 0xFFFFFFFF


def sample_palette():
    stops = [(68, 1, 84), (59, 82, 139), (33, 145, 140), (94, 201, 98), (253, 231, 37)]
    entries = []
    for entry in range(256):
        low, high, part = stops[entry // 64], stops[entry // 64 + 1], entry % 64
        entries.append(bytes((a * (64 - part) + b * part) // 64 for a, b in zip(low, high)) + b"\xff")
    return b"".join(entries)


def stored(plane, width, height, palette):
    """The plain file of 8 bits a cell: each byte of it, from the pages' layout and not from the library."""
    table = b"".join(palette[k + 2:k + 3] + palette[k + 1:k + 2] + palette[k:k + 1] + b"\0" for k in range(0, len(palette), 4))
    rows = b"".join(plane[y * width:(y + 1) * width] + bytes(-width % 4) for y in reversed(range(height)))
    head = (b"BM" + little(1078 + len(rows)) + bytes(4) + little(1078)
            + little(40) + little(width) + little(height) + little(1, 2) + little(8, 2) + bytes(8) + little(2835) * 2 + bytes(8))
    return head + table.ljust(1024, b"\0") + rows


def unpacked(stream):
    """The rows that an RLE8 stream without deltas holds, from the top."""
    rows, row, at = [], bytearray(), 0
    while at < len(stream):
        count, value = stream[at], stream[at + 1]
        at += 2
        if count:
            row += bytes([value]) * count
        elif value > 2:
            row += stream[at:at + value]
            at += value + value % 2
        else:
            rows.insert(0, bytes(row))
            row = bytearray()
    return rows


def header(content):
    """The fields of a BMP file's head, by their names on the pages."""
    fields = (("bfSize", 2, 4), ("bfOffBits", 10, 4), ("biSize", 14, 4), ("biWidth", 18, 4), ("biHeight", 22, 4),
              ("biPlanes", 26, 2), ("biBitCount", 28, 2), ("biCompression", 30, 4), ("biSizeImage", 34, 4))
    return {name: int.from_bytes(content[at:at + size], "little") for name, at, size in fields}


def noise_of(size):
    return random.Random(size).getrandbits(8 * size).to_bytes(size, "little")


def sheet(rows, separator=",", end="\n"):
    return "".join(separator.join(map(str, row)) + end for row in rows)


def as_nobody(groups=()):
    """Run by root's child before the program; a user who is not root stays who he is."""
    def drop():
        if ROOT:
            os.setgroups(groups)
            os.setgid(NOBODY)
            os.setuid(NOBODY)
    return drop


def limit(kind, most):
    return lambda: resource.setrlimit(kind, (most, most))


class Case(unittest.TestCase):
    @classmethod
    def setUpClass(cls):
        if not os.access(PROGRAM, os.X_OK):
            raise AssertionError(f"there is no program {PROGRAM}: BMP_WRITER_PROGRAM names it")

    def setUp(self):
        self.folder = tempfile.mkdtemp()
        self.addCleanup(shutil.rmtree, self.folder)
        os.chmod(self.folder, 0o755)
        self.plane, self.palette = bytes(range(24)), bytes(range(1, 41))
        self.file = stored(self.plane, 8, 3, self.palette)
        self.line = f"Indexed8, {len(self.file)} bytes, cksum {cksum(self.file)}\n"
        for name, content in (("plane", self.plane), ("palette", self.palette), ("profile", b"a profile"), ("five", bytes(5)),
                              ("empty", b"")):
            self.write(name, content)

    # The words of a command that writes self.file.
    words = ("--plane", "plane", "--width", "8", "--height", "3", "--palette", "palette", "--no-rle")

    def path(self, name):
        return os.path.join(self.folder, name)

    def write(self, name, content, mode=None):
        with open(self.path(name), "wb") as file:
            file.write(content.encode() if isinstance(content, str) else content)
        if mode is not None:
            os.chmod(self.path(name), mode)

    def read(self, name="out.bmp"):
        with open(self.path(name), "rb") as file:
            return file.read()

    def listing(self, folder=""):
        """All that a failed run must leave as it is."""
        found = {}
        for name in sorted(os.listdir(self.path(folder))):
            path = self.path(os.path.join(folder, name))
            status = os.lstat(path)
            content = os.readlink(path) if os.path.islink(path) else self.read(path) if os.path.isfile(path) else None
            found[name] = (oct(status.st_mode), status.st_uid, status.st_gid, status.st_ino, content)
        return found

    def names(self, folder=""):
        return sorted(os.listdir(self.path(folder)))

    def run_program(self, *words, stdin=b"", stdout=subprocess.PIPE, before=None, environment=None, program=PROGRAM):
        ours, theirs = socket.socketpair(socket.AF_UNIX, socket.SOCK_DGRAM)
        with ours, theirs:
            how = {"input": stdin} if isinstance(stdin, bytes) else {"stdin": stdin}
            ran = subprocess.run([program, *words], cwd=self.folder, stdout=stdout, stderr=theirs, preexec_fn=before,
                                 env=environment, timeout=TIMEOUT, **how)
            ours.setblocking(False)
            told = []
            try:
                while True:
                    told.append(ours.recv(1 << 20))
            except BlockingIOError:
                pass
        return Ran(ran.returncode, ran.stdout, told)

    def unprivileged(self):
        """The arguments that run a copy of the program as a user who is not root."""
        shutil.copy(PROGRAM, self.path("program"))
        return {"before": as_nobody(), "program": self.path("program")}

    def told(self, status, text, *words, **how):
        """The program ends with the status, and says this alone: one write, on standard error."""
        ran = self.run_program(*words, **how)
        self.assertEqual(ran, Ran(status, None if "stdout" in how else b"", [os.fsencode(f"bmp_writer: {text}\n")]), words)

    def refused(self, number, *words, **how):
        self.told(1, f"refused, {number}: {REFUSALS[number]}", *words, **how)

    def done(self, *words, out="out.bmp", **how):
        """The program ends with 0, one line on standard output and none on standard error; the file is the answer."""
        ran = self.run_program(*words, "--out", out, **how)
        self.assertEqual((ran.status, ran.err), (0, []), words)
        content = self.read(out)
        line = os.fsdecode(ran.out)
        name, _, rest = line.rpartition(": ")
        self.assertEqual(name, os.fsdecode(out), words)
        if len(content) < 100000:
            self.assertRegex(rest, rf"^[A-Z][A-Za-z0-9]+, {len(content)} bytes, cksum {cksum(content)}\n$", words)
        return content

    def unchanged(self, status, text, *words, **how):
        """The same as told, and every file, mode and owner is what it was."""
        before = self.listing()
        self.told(status, text, *words, **how)
        self.assertEqual(self.listing(), before, words)


class Words(Case):
    def test_nothing_is_asked(self):
        self.unchanged(2, MISSING)

    def test_help_has_every_option_and_format(self):
        for word in ("-h", "--help"):
            with self.subTest(word):
                ran = self.run_program(word)
                self.assertEqual((ran.status, ran.err), (0, []))
                text = ran.out.decode()
                self.assertTrue(text.endswith("\n"))
                for name in OPTIONS + FORMATS:
                    self.assertIn(name.lower(), text.lower())

    def test_version(self):
        self.assertEqual(self.run_program("--version"), Ran(0, b"bmp_writer 1.0.0\n", []))

    def test_words_that_are_not_understood(self):
        for words, text in (
            (["--bogus"], "--bogus is no option (--help lists the options)"),
            (["--width"], "--width has no value (--help lists the options)"),
            (["--plane", "plane", "--out"], "--out has no value (--help lists the options)"),
            ([*self.words, "--out", ""], "--out has no value (--help lists the options)"),
            (["--plane=", *self.words[2:], "--out", "out.bmp"], "--plane has no value (--help lists the options)"),
            (["--width", "abc"], "--width: 'abc' is no number from 0 to 4294967295"),
            (["--width", "4294967296"], "--width: '4294967296' is no number from 0 to 4294967295"),
            (["--width=-1"], "--width: '-1' is no number from 0 to 4294967295"),
            (["--height", "3x"], "--height: '3x' is no number from 0 to 4294967295"),
            (["--rendering-intent", "x"], "--rendering-intent: 'x' is no number from 0 to 4294967295"),
            (["--stride", "x"], "--stride: 'x' is no number from 0 to 1152921504606846975"),
            (["--stride", "1152921504606846976"],
             "--stride: '1152921504606846976' is no number from 0 to 1152921504606846975"),
            (["--format", "Cmyk"], f"--format: 'Cmyk' is none of {', '.join(FORMATS)}"),
            (["--bitfields", "x"], "--bitfields: 'x' is no list D,R,G,B,A of a depth from 0 to 65535 and four masks from 0 to "
             "4294967295"),
            (["--bitfields", "65536,1,2,4,0"], "--bitfields: '65536,1,2,4,0' is no list D,R,G,B,A of a depth from 0 to 65535 "
             "and four masks from 0 to 4294967295"),
            (["--calibrated-rgb", "x"], "--calibrated-rgb: 'x' is no list of nine endpoints from -2147483648 to 2147483647 "
             "and three gammas from 0 to 4294967295"),
            *((words, f"--limit: '{value}' is no number of bytes from 0 to 4294967295") for words, value in (
                (["--limit", "64k"], "64k"), (["--limit=-1"], "-1"), (["--limit", "1152921504606846976"], "1152921504606846976"))),
            *((["--pels", value], f"--pels: '{value}' is no pair X,Y of pixels a metre from 0 to 2147483647") for value in (
                "3780", "3780,", "1,2,3", "3780;3780", "2147483648,1", "1,-2147483649")),
            (["--limit"], "--limit has no value (--help lists the options)"),
            (["--pels"], "--pels has no value (--help lists the options)"),
            (["--top-down=no"], "--top-down takes no value, and is given 'no'"),
            (["--", "x"], "-- is followed by 'x': the command takes options only"),
            (["--csv", "back.csv", "--read"], "--read has no value (--help lists the options)"),
            (["--read=", "--csv", "back.csv"], "--read has no value (--help lists the options)"),
            (["--edges"], "--edges has no value (--help lists the options)"),
            (["--lows="], "--lows has no value (--help lists the options)"),
            (["--highs", ""], "--highs has no value (--help lists the options)"),
            (["--edge", "edges"], "--edge is no option (--help lists the options)"),
        ):
            with self.subTest(words):
                self.unchanged(2, text, *words)

    def test_words_that_are_missing_or_too_many(self):
        plane, size = ["--plane", "plane"], ["--width", "8", "--height", "3"]
        palettes = ["--palette", "palette", "--sample-palette"]
        prices = ["--edges", "e", "--lows", "l", "--highs", "h"]
        alone = "--csv is for Pal8, Indexed4, Indexed2 and Indexed1 alone"
        size_of_sheet = "--csv takes width, height and stride from the sheet"
        # Each command lacks all that follows in the order as well.
        for words, text in (
            (palettes, MISSING),
            (plane + ["--csv", "sheet", "--edges", "e"] + palettes, "--plane and --csv are both given"),
            *((words, "--edges, --lows and --highs stand in place of --plane and --csv") for words in (
                plane + ["--edges", "e"], ["--csv", "sheet", "--lows", "l"], plane + size + prices, ["--csv", "sheet"] + prices)),
            *((words + palettes, "--edges, --lows and --highs go together") for words in (
                prices[:2], prices[2:4], prices[4:], prices[:4], prices[2:], prices[:2] + prices[4:])),
            (prices + ["--format", "Rgba"] + palettes, "--width N is missing"),
            (prices + size[:2] + ["--format", "Rgba"] + palettes, "--height N is missing"),
            *((prices + size + ["--format", name] + palettes, "--edges, --lows and --highs are for Pal8 alone")
              for name in FORMATS if name != "Pal8"),
            (prices + size + palettes, "--palette and --sample-palette are both given"),
            (prices + size, "--out FILE is missing"),
            (plane + palettes, "--width N is missing"),
            (plane + size[2:] + palettes, "--width N is missing"),
            (plane + size[:2] + palettes, "--height N is missing"),
            (["--csv", "sheet", "--width", "8", "--format", "Rgba"] + palettes, size_of_sheet),
            (["--csv", "sheet", "--height", "3"], size_of_sheet),
            (["--csv", "sheet", "--stride", "8"], size_of_sheet),
            (["--csv", "sheet", "--format", "Rgba"] + palettes, alone),
            (["--csv", "sheet", "--format", "rgb565"], alone),
            (plane + size + palettes, "--palette and --sample-palette are both given"),
            (plane + size, "--out FILE is missing"),
            (["--csv", "sheet"], "--out FILE is missing"),
            (["--read", "five"], "--csv FILE is missing"),
        ):
            with self.subTest(words):
                self.unchanged(2, text, *words)

    def test_refusals(self):
        masks = ("--plane", "plane", "--width", "3", "--height", "2", "--format", "rgba", "--out", "out.bmp", "--bitfields")
        size, out = ("--width", "8", "--height", "3"), ("--out", "out.bmp")
        gauges = ("--calibrated-rgb", "1,-2,3,4,5,6,7,8,9,10,11,12")
        for number, words in (
            (1, ("--plane", "plane", "--palette", "palette", "--width", "0", "--height", "3") + out),
            (1, ("--plane", "empty", "--palette", "palette", "--width", "8", "--height", "0") + out),
            (2, ("--plane", "plane", "--palette", "palette", "--width", "2147483648", "--height", "3") + out),
            (3, ("--plane", "plane") + size + out),
            (4, ("--plane", "plane", "--palette", "five") + size + out),
            (5, masks + ("16,0xF800,0x07E0,0x001F,0", "--icc", "profile")),
            (5, masks + ("16,0xF800,0x07E0,0x001F,0",) + gauges),
            (6, masks + ("24,0xF800,0x07E0,0x001F,0",)),
            (7, masks + ("16,0x1F800,0x07E0,0x001F,0",)),
            (8, masks + ("16,0xB800,0x07E0,0x001F,0",)),
            (9, masks + ("16,0xF800,0x0FE0,0x001F,0",)),
            (10, masks + ("16,0,0,0,0x001F",)),
            (11, ("--plane", "plane", "--palette", "palette", "--bitfields", "16,0xF800,0x07E0,0x001F,0") + size + out),
            (12, ("--plane", "plane", "--palette", "palette", "--width", "8", "--height", "4") + out),
            (13, ("--plane", "plane", "--palette", "palette", "--stride", "7", "--more-follows") + size + out),
            (14, self.words + ("--limit", str(len(self.file) - 1)) + out),
            (14, self.words + ("--limit=0",) + out),
            (16, self.words[:-1] + ("--limit", str(len(self.file) - 1)) + out),
            (20, self.words + ("--limit", "4294967296") + out),
            (20, self.words + ("--limit", "0xFFFFFFFFFFFFFFF", "--pels", "-1,-1") + out),
            (21, self.words + ("--pels=-1,0",) + out),
            (21, self.words + ("--pels", "2147483647,-2147483648", "--limit", "0") + out),
            # Both come directly after 2.
            (2, ("--plane", "plane", "--width", "2147483648", "--height", "3", "--limit", "4294967296") + out),
            (20, ("--plane", "plane", "--limit", "4294967296") + size + out),
            (21, ("--plane", "plane", "--pels", "0,-1") + size + out),
        ):
            with self.subTest(number=number, words=words):
                self.unchanged(1, f"refused, {number}: {REFUSALS[number]}", *words)
                self.write("out.bmp", b"an older file")
                self.unchanged(1, f"refused, {number}: {REFUSALS[number]}", *words)
                os.remove(self.path("out.bmp"))

    def test_the_causes_are_the_headers(self):
        """Some refusals need planes of gigabytes; their texts are held to the header in the command's definition."""
        with open(os.path.join(HERE, "../crates/command/specs/Runs.antt"), encoding="utf-8") as file:
            listed = re.search(r"^causes =\n(.*?)\[\]\)", file.read(), re.MULTILINE | re.DOTALL).group(1)
        causes = dict(enumerate(re.findall(r'"(.*)"', listed)))
        self.assertEqual({number: causes[number] for number in range(1, 24)}, {number: REFUSALS[number] for number in range(1, 24)})
        # 24 and 255 are numbers of calls that the command does not make.
        self.assertEqual((sorted(REFUSALS), len(causes)), (list(range(25)) + [255], 24))

    def test_a_shell_sees_a_refusal(self):
        for words, status, printed in (("", 1, b""), ("--palette palette", 0, b"yes\n"), ("--palette none", 2, b"")):
            with self.subTest(words):
                text = f'"$0" --plane plane --width 8 --height 3 {words} --out out.bmp >>lines && echo yes'
                ran = subprocess.run(["sh", "-c", text, PROGRAM], cwd=self.folder, stdout=subprocess.PIPE,
                                     stderr=subprocess.DEVNULL, timeout=TIMEOUT)
                self.assertEqual((ran.returncode, ran.stdout), (status, printed))
        self.assertEqual(self.read("lines").count(b"\n"), 1)

    def test_a_plane_that_is_too_long(self):
        self.write("longer", self.plane + b"\0")
        words = ("--plane", "longer") + self.words[2:]
        text = "the plane has 25 bytes, more than stride 8 times height 3: --more-follows allows more"
        self.unchanged(2, text, *words, "--out", "out.bmp")
        self.assertEqual(self.done(*words, "--more-follows"), self.file)

    def test_values_after_an_equals_sign(self):
        joined = [f"{name}={value}" for name, value in zip(self.words[:8:2], self.words[1:8:2])]
        self.assertEqual(self.done(*joined, "--no-rle"), self.file)
        self.assertEqual(self.run_program(*joined, "--no-rle", "--out=a=b.bmp").status, 0)
        self.assertEqual(self.read("a=b.bmp"), self.file)

    def test_two_dashes_end_the_options(self):
        ran = self.run_program(*self.words, "--out", "out.bmp", "--")
        self.assertEqual((ran.status, ran.err, self.read()), (0, [], self.file))

    def test_format_names_in_any_case(self):
        for name in ("Pal8", "pal8", "PAL8", "pAL8"):
            with self.subTest(name):
                self.assertEqual(self.done(*self.words, "--format", name), self.file)

    def test_hexadecimal_numbers(self):
        words = ("--plane", "plane", "--width", "0x8", "--height", "0x3", "--stride", "0x8", "--palette", "palette", "--no-rle")
        self.assertEqual(self.done(*words), self.file)

    def test_a_long_word_is_told_whole(self):
        word = "--" + "x" * 100000
        self.unchanged(2, f"{word} is no option (--help lists the options)", word)

    def test_a_large_environment(self):
        environment = {f"VARIABLE_{k}": "x" * 100 for k in range(8000)}
        self.assertEqual(self.done(*self.words, environment=environment), self.file)
        self.refused(3, *self.words[:6], "--out", "out.bmp", environment=environment)

    def test_one_line_by_one_write_on_standard_output(self):
        for words, line in ((["--version"], "bmp_writer 1.0.0\n"), ([*self.words, "--out", "out.bmp"], "out.bmp: " + self.line)):
            with self.subTest(words):
                ours, theirs = socket.socketpair(socket.AF_UNIX, socket.SOCK_DGRAM)
                with ours, theirs:
                    self.assertEqual(self.run_program(*words, stdout=theirs), Ran(0, None, []))
                    ours.setblocking(False)
                    self.assertEqual(ours.recv(1 << 20), line.encode())
                    self.assertRaises(BlockingIOError, ours.recv, 1)


class Pictures(Case):
    def test_every_byte_of_a_plain_file(self):
        self.assertEqual(self.done(*self.words), self.file)
        ran = self.run_program(*self.words, "--out", "out.bmp")
        self.assertEqual(ran, Ran(0, f"out.bmp: {self.line}".encode(), []))

    def test_the_specifications_file(self):
        self.write("sevens", b"\7" * 5)
        words = ("--plane", "sevens", "--width", "5", "--height", "1", "--palette", "empty", "--minimal-palette")
        self.assertEqual(self.done(*words), FIVE)

    def test_every_format(self):
        for name, size, depth, written in (("Rgba", 4, 32, "Rgb32"), ("Rgb24", 3, 24, "Rgb24"), ("Bgra", 4, 32, "Rgb32"),
                                           ("Bgr24", 3, 24, "Rgb24"), ("Rgb555", 2, 16, "Rgb16Rgb"),
                                           ("Rgb565", 2, 16, "Rgb16Bitfields"), ("Pal8", 1, 8, "Indexed8"),
                                           ("Indexed4", 1, 4, "Indexed4"), ("Indexed2", 1, 2, "Indexed2"),
                                           ("Indexed1", 1, 1, "Indexed1")):
            with self.subTest(name):
                self.write("pixels", bytes(range(6 * size)))
                words = ["--plane", "pixels", "--width", "3", "--height", "2", "--format", name, "--no-rle"]
                if size == 1:
                    words += ["--palette", "palette"]
                ran = self.run_program(*words, "--out", "out.bmp")
                self.assertEqual((ran.status, ran.err), (0, []))
                self.assertTrue(ran.out.startswith(f"out.bmp: {written}, ".encode()), ran.out)
                fields = header(self.read())
                self.assertEqual((fields["bfSize"], fields["biWidth"], fields["biHeight"], fields["biBitCount"]),
                                 (len(self.read()), 3, 2, depth))

    def test_options_that_change_the_file(self):
        picture = ("--plane", "plane", "--width", "4", "--height", "2", "--format", "rgb24")
        plain = self.done(*picture)
        self.assertEqual(header(self.done(*picture, "--top-down"))["biHeight"], 2 ** 32 - 2)
        short = self.done(*self.words, "--minimal-palette")
        self.assertEqual(header(short)["bfOffBits"], 54 + len(self.palette))
        embedded = self.done(*picture, "--icc", "profile", "--rendering-intent", "2")
        self.assertEqual((embedded[14], embedded[70:74], embedded[-9:]), (124, b"DEBM", b"a profile"))
        self.assertEqual(embedded[122:126], little(2))
        linked = self.done(*picture, "--linked-icc", "profile")
        self.assertEqual((linked[14], linked[70:74], linked[-9:]), (124, b"KNIL", b"a profile"))
        masks = self.done(*picture, "--bitfields", "16,0xF800,0x7E0,0x1F,0")
        self.assertEqual((header(masks)["biBitCount"], header(masks)["biCompression"]), (16, 3))
        gauges = self.done(*picture, "--calibrated-rgb", "1,-2,3,4,5,-2147483648,2147483647,8,9,0x10,0xFFFFFFFF,12")
        self.assertEqual((gauges[14], gauges[74:82], gauges[114:118]), (108, little(1) + little(2 ** 32 - 2), b"\xff" * 4))
        self.assertEqual(self.done(*picture, "--icc", "profile", "--no-embed-icc"), plain)

    def test_the_limit(self):
        for most in (str(len(self.file)), "0xFFFFFFFF"):
            with self.subTest(most):
                self.assertEqual(self.done(*self.words, "--limit", most), self.file)
        # The plain file of this picture has 66 bytes.
        self.write("sevens", b"\7" * 5)
        words = ("--plane", "sevens", "--width", "5", "--height", "1", "--palette", "empty", "--minimal-palette")
        for most in ("62", "65", "66"):
            with self.subTest(most):
                self.assertEqual(self.done(*words, "--limit", most), FIVE)
        os.remove(self.path("out.bmp"))
        self.unchanged(1, f"refused, 16: {REFUSALS[16]}", *words, "--limit", "61", "--out", "out.bmp")

    def test_pixels_a_metre(self):
        self.write("cells.csv", "1,2\n3,4\n")
        picture = ("--plane", "plane", "--width", "4", "--height", "2", "--format", "rgb24")
        for words in (self.words, self.words + ("--top-down",), ("--csv", "cells.csv", "--sample-palette"), picture,
                      picture + ("--bitfields", "16,0xF800,0x7E0,0x1F,0"), picture + ("--icc", "profile"),
                      picture + ("--calibrated-rgb", "1,2,3,4,5,6,7,8,9,10,11,12")):
            usual = self.done(*words)
            self.assertEqual(usual[38:46], little(2835) * 2, words)
            for across, down in ((1, 2), (3780, 0), (0, 2147483647)):
                with self.subTest(words, across=across):
                    content = self.done(*words, "--pels", f"{across},{down}")
                    self.assertEqual(content, usual[:38] + little(across) + little(down) + usual[46:])

    def test_a_profile_that_is_not_written_is_not_read(self):
        picture = ("--plane", "plane", "--width", "4", "--height", "2", "--format", "rgb24")
        plain = self.done(*picture)
        self.assertEqual(self.done(*picture, "--icc", "none", "--no-embed-icc"), plain)
        linked = self.done(*picture, "--linked-icc", "profile")
        self.assertEqual(self.done(*picture, "--icc", "none", "--linked-icc", "profile"), linked)
        self.assertEqual(self.done(*picture, "--icc", "none", "--linked-icc", "profile", "--no-embed-icc"), linked)
        self.unchanged(2, "none: No such file or directory", *picture, "--icc", "none", "--out", "out.bmp")
        self.unchanged(2, "none: No such file or directory", *picture, "--linked-icc", "none", "--out", "out.bmp")

    def test_large_planes(self):
        side = 3000
        zeros, noise = bytes(side * side), noise_of(side * side)
        words = ("--plane", "large", "--width", str(side), "--height", str(side), "--palette", "palette")
        known = {"biSize": 40, "biWidth": side, "biHeight": side, "biPlanes": 1, "biBitCount": 8, "bfOffBits": 1078}
        plain = {**known, "bfSize": 1078 + side * side, "biCompression": 0, "biSizeImage": 0}
        self.write("large", zeros)
        with self.subTest("zeros, stored"):
            content = self.done(*words, "--no-rle")
            self.assertEqual((header(content), content[1078:] == zeros, len(content)), (plain, True, plain["bfSize"]))
        with self.subTest("zeros, packed"):
            content = self.done(*words)
            packed = {**known, "bfSize": len(content), "biCompression": 1, "biSizeImage": len(content) - 1078}
            self.assertEqual(header(content), packed)
            self.assertTrue(unpacked(content[1078:]) == [bytes(side)] * side)
        self.write("large", noise)
        with self.subTest("noise"):
            content = self.done(*words)
            self.assertEqual((header(content), len(content)), (plain, plain["bfSize"]))
            rows = (noise[y * side:(y + 1) * side] for y in reversed(range(side)))
            self.assertTrue(content[1078:] == b"".join(rows))

    def test_too_little_memory(self):
        words = ("--plane", "sparse", "--height", "1024", "--palette", "palette", "--no-rle", "--out", "out.bmp", "--width")
        for mebibytes, what in ((200, "sparse"), (40, "the file to write")):
            with self.subTest(what):
                with open(self.path("sparse"), "wb") as file:
                    file.truncate(mebibytes << 20)
                before = limit(resource.RLIMIT_AS, 64 << 20)
                self.told(2, f"{what}: not enough memory", *words, str(mebibytes << 10), before=before)
                self.assertNotIn("out.bmp", self.names())


class Sheets(Case):
    rows = [[0, 1, 2, 3, 255], [10, 20, 30, 40, 50], [9, 8, 7, 6, 5]]

    def expected(self, rows, name="Pal8"):
        self.write("cells", bytes(cell for row in rows for cell in row))
        return self.done("--plane", "cells", "--width", str(len(rows[0])), "--height", str(len(rows)), "--format", name,
                         "--sample-palette", out="plane.bmp")

    def test_every_kind_of_sheet(self):
        expected, rows, mark = self.expected(self.rows), self.rows, b"\xef\xbb\xbf"
        for kind, text in (
            ("commas", sheet(rows)),
            ("semicolons", sheet(rows, ";")),
            ("tabs", sheet(rows, "\t")),
            ("CR LF", sheet(rows, end="\r\n")),
            ("semicolons and CR LF", sheet(rows, ";", "\r\n")),
            ("no last line end", sheet(rows)[:-1]),
            ("no last CR LF", sheet(rows, end="\r\n")[:-2]),
            ("a byte order mark", mark + sheet(rows).encode()),
            ("a byte order mark, tabs and CR LF", mark + sheet(rows, "\t", "\r\n").encode()),
            ("blanks before numbers", sheet(rows, ",  ")),
            ("blanks at the start of lines", "".join("   " + line for line in sheet(rows, "; ").splitlines(True))),
        ):
            with self.subTest(kind):
                self.write("sheet.csv", text)
                self.assertEqual(self.done("--csv", "sheet.csv", "--sample-palette"), expected)
                content = text if isinstance(text, bytes) else text.encode()
                self.assertEqual(self.done("--csv", "-", "--sample-palette", stdin=content), expected)

    def test_one_column_and_one_row(self):
        for rows in ([[1], [2], [3]], [[1, 2, 3]], [[7]]):
            with self.subTest(rows):
                self.write("sheet.csv", sheet(rows))
                self.assertEqual(self.done("--csv", "sheet.csv", "--sample-palette"), self.expected(rows))

    def test_every_indexed_format(self):
        for name, most in MOST.items():
            with self.subTest(name):
                rows = [[0, most, 1], [most, 0, 0]]
                self.write("sheet.csv", sheet(rows))
                words = ("--csv", "sheet.csv", "--sample-palette", "--format", name)
                self.assertEqual(self.done(*words), self.expected(rows, name))
                self.write("sheet.csv", f"0,0,0\n0,0,{most + 1}\n")
                text = f"sheet.csv: row 2, column 3: '{most + 1}' is no index from 0 to {most}"
                self.unchanged(2, text, *words, "--out", "out.bmp")

    def test_the_pixels(self):
        self.write("sheet.csv", sheet(self.rows))
        content = self.done("--csv", "sheet.csv", "--sample-palette", "--no-rle")
        start, shown = header(content)["bfOffBits"], []
        for y in range(3):
            row = content[start + (2 - y) * 8:][:5]
            shown.append([tuple(content[54 + 4 * cell:][:3])[::-1] for cell in row])
        palette = sample_palette()
        self.assertEqual(shown, [[tuple(palette[4 * cell:4 * cell + 3]) for cell in row] for row in self.rows])

    def test_the_sample_surface(self):
        rows = [[min(255, (x - 110) ** 2 * 153 // (121 * (60 + y)) + y // 4) for x in range(200)] for y in range(200)]
        self.write("grid.csv", sheet(rows))
        ran = self.run_program("--csv", "grid.csv", "--sample-palette", "--out", "grid.bmp")
        self.assertEqual(ran, Ran(0, b"grid.bmp: Rle8, 38784 bytes, cksum 189915939\n", []))
        self.assertEqual(cksum(self.read("grid.bmp")), 189915939)
        self.assertEqual(b"".join(unpacked(self.read("grid.bmp")[1078:])), bytes(cell for row in rows for cell in row))

    def test_a_palette_from_a_file(self):
        self.write("sheet.csv", sheet(self.rows))
        self.write("shades", sample_palette())
        expected = self.done("--csv", "sheet.csv", "--sample-palette")
        self.assertEqual(self.done("--csv", "sheet.csv", "--palette", "shades"), expected)
        self.refused(3, "--csv", "sheet.csv", "--out", "out.bmp")

    def test_sheets_that_are_not_understood(self):
        for text, trouble in (
            ("1,2,3,4,5\n1,2,3,4,5\n1,2,3,4,abc\n", "row 3, column 5: 'abc' is no index from 0 to 255"),
            ("1,2,3,4,5\r\n1,2,3,4,5\r\n1,2,3,4,abc\r\n", "row 3, column 5: 'abc' is no index from 0 to 255"),
            ("1;2\n3;256", "row 2, column 2: '256' is no index from 0 to 255"),
            ("-1,2\n", "row 1, column 1: '-1' is no index from 0 to 255"),
            ("1,,2\n", "row 1, column 2: '' is no index from 0 to 255"),
            (",", "row 1, column 1: '' is no index from 0 to 255"),
            ("1.5,2\n", "row 1, column 1: '1.5' is no index from 0 to 255"),
            ("1,2,3,4\n1,2,3,4\n1,2,3,4,5\n", "row 3 has 5 cells, and row 1 has 4"),
            ("1,2,3,4\n1,2\n", "row 2 has 2 cells, and row 1 has 4"),
        ):
            with self.subTest(text):
                self.write("sheet.csv", text)
                self.unchanged(2, f"sheet.csv: {trouble}", "--csv", "sheet.csv", "--sample-palette", "--out", "out.bmp")

    def test_strange_cells_are_told_in_one_line(self):
        words = ("--csv", "sheet.csv", "--sample-palette", "--out", "out.bmp")
        self.write("sheet.csv", b"a\x1bb,1\n")
        self.unchanged(2, "sheet.csv: row 1, column 1: 'a?b' is no index from 0 to 255", *words)
        self.write("sheet.csv", "x" * 100000 + ",1\n")
        ran = self.run_program(*words)
        self.assertEqual((ran.status, ran.out, len(ran.err)), (2, b"", 1))
        self.assertRegex(ran.err[0], rb"^bmp_writer: sheet\.csv: row 1, column 1: 'x{100,}.*\n$")

    def test_a_sheet_that_is_empty_or_cut_leaves_the_file(self):
        self.write("out.bmp", b"an older file")
        for text in ("", "\n", ",", "\xef\xbb", "\xef\xbb\xbf", "1,2\n3,", "\0"):
            with self.subTest(text):
                self.write("sheet.csv", text.encode("latin-1"))
                before = self.listing()
                ran = self.run_program("--csv", "sheet.csv", "--sample-palette", "--out", "out.bmp")
                self.assertIn(ran.status, (1, 2))
                self.assertEqual((ran.out, len(ran.err), self.listing()), (b"", 1, before))

    def test_a_large_sheet(self):
        rows = [[(x * y) % 256 for x in range(1200)] for y in range(1000)]
        self.write("sheet.csv", sheet(rows))
        self.assertEqual(self.done("--csv", "sheet.csv", "--sample-palette"), self.expected(rows))


class Prices(Case):
    """bmp_writer --edges FILE --lows FILE --highs FILE --width N --height N."""
    INF, NAN = float("inf"), float("nan")
    files = ("--edges", "edges", "--lows", "lows", "--highs", "highs", "--palette", "palette")

    def setUp(self):
        super().setUp()
        self.prices([90.0, 100.0, 110.0], [80.0, 90.0, 95.0, 99.0, 100.0, 250.0], [89.5, 95.0, 95.0, 100.0, 109.0, 251.0])
        self.cells = bytes([0, 1, 1, 255, 2, 3])

    def prices(self, edges, lows, highs):
        for name, numbers in (("edges", edges), ("lows", lows), ("highs", highs)):
            with open(self.path(name), "wb") as file:
                array("d", numbers).tofile(file)

    def painted(self, width, height, *words, **how):
        return self.done(*self.files, "--width", str(width), "--height", str(height), *words, **how)

    def not_painted(self, status, text, *words, width=3, height=2, **how):
        size = ("--width", str(width), "--height", str(height))
        self.unchanged(status, text, *self.files, *size, *words, "--out", "out.bmp", **how)

    def test_a_small_grid(self):
        expected = stored(self.cells, 3, 2, self.palette)
        self.assertEqual(self.painted(3, 2, "--no-rle"), expected)
        self.assertEqual(self.painted(3, 2, "--no-rle", "--format=pal8", "--stride=3"), expected)
        ran = self.run_program(*self.files, "--width=3", "--height=2", "--no-rle", "--out=-")
        line = f"bmp_writer: -: Indexed8, {len(expected)} bytes, cksum {cksum(expected)}\n"
        self.assertEqual(ran, Ran(0, expected, [line.encode()]))

    def test_the_same_file_as_from_the_indices(self):
        self.write("cells", self.cells)
        size = ("--width", "3", "--height", "2")
        for words in ((), ("--top-down",), ("--minimal-palette",), ("--icc", "profile"), ("--pels", "3780,3780"), ("--limit", "1086")):
            with self.subTest(words):
                expected = self.done("--plane", "cells", *size, "--palette", "palette", *words, out="plane.bmp")
                self.assertEqual(self.painted(3, 2, *words), expected)
        self.write("sheet.csv", sheet([self.cells[:3], self.cells[3:]]))
        expected = self.done("--csv", "sheet.csv", "--sample-palette")
        self.assertEqual(self.done(*self.files[:6], *size, "--sample-palette"), expected)

    def test_every_kind_of_price(self):
        inf, tiny, most = self.INF, 5e-324, 1.7976931348623157e308
        steps = [float(k) for k in range(254)]
        for edges, quotes in (
            ([0.0], [(-0.0, -0.0, 1), (-0.0, 0.0, 1), (0.0, -0.0, 1), (-tiny, -tiny, 0), (-tiny, -0.0, 255), (-inf, inf, 255)]),
            ([-0.0], [(-0.0, -0.0, 1), (-0.0, 0.0, 1), (0.0, -0.0, 1), (-tiny, -tiny, 0), (-tiny, 0.0, 255), (inf, inf, 1)]),
            ([-tiny, tiny], [(-0.0, 0.0, 1), (tiny, tiny, 2), (0.0, tiny, 255), (-tiny, 0.0, 1), (-most, -1.0, 0), (1.0, most, 2)]),
            ([-inf, 0.0, inf], [(-inf, -inf, 1), (-inf, -most, 1), (0.0, most, 2), (inf, inf, 3), (most, inf, 255), (-inf, 0.0, 255)]),
            ([most, inf], [(-inf, 1.0, 0), (most, most, 1), (inf, inf, 2), (most, inf, 255), (-inf, -inf, 0), (-inf, inf, 255)]),
            ([inf], [(-inf, most, 0), (inf, inf, 1), (-inf, inf, 255), (0.0, 0.0, 0), (most, inf, 255), (-most, most, 0)]),
            ([0.1 + 0.2], [(0.3, 0.3, 0), (0.1 + 0.2, 0.1 + 0.2, 1), (0.3, 0.1 + 0.2, 255), (0.3, 0.3, 0), (1.0, 2.0, 1), (-1.0, 0.3, 0)]),
            (steps, [(253.0, inf, 254), (252.5, 252.5, 253), (252.9, 253.0, 255), (-1.0, -0.5, 0), (0.0, 0.5, 1), (-1.0, 0.0, 255)]),
        ):
            with self.subTest(edges=edges[:4]):
                lows, highs, cells = zip(*quotes)
                self.prices(edges, lows, highs)
                self.assertEqual(self.painted(3, 2, "--no-rle"), stored(bytes(cells), 3, 2, self.palette))

    def test_a_grid_at_random(self):
        dice, (width, height) = random.Random(6), (301, 97)
        for count in (1, 2, 15, 16, 17, 31, 32, 100, 240, 253, 254):
            with self.subTest(count):
                edges = sorted(dice.sample(range(400), count))
                lows = [dice.randrange(-10, 1650) / 4 for _ in range(width * height)]
                highs = [low + dice.choice((0, 0, 0.25, 1, 1.5, 30)) for low in lows]
                self.prices(edges, lows, highs)
                shades = ([sum(edge <= price for edge in edges) for price in prices] for prices in (lows, highs))
                cells = bytes(low if low == high else 255 for low, high in zip(*shades))
                self.assertTrue(self.painted(width, height, "--no-rle") == stored(cells, width, height, self.palette))
                content = self.painted(width, height)
                self.assertEqual(header(content)["biCompression"], int(len(content) < 1078 + 304 * height))

    def test_refusals(self):
        nan, inf = self.NAN, self.INF
        scale, lows, highs = [90.0, 100.0], [80.0] * 6, [85.0] * 6
        steps = [float(k) for k in range(255)]
        for number, *lists in (
            (22, [], lows, highs),
            (22, steps, lows, highs),
            (22, [nan], lows, highs),
            (22, [90.0, nan], lows, highs),
            (22, [nan, 90.0], lows, highs),
            (22, [90.0, 90.0], lows, highs),
            (22, [100.0, 90.0], lows, highs),
            (22, [-0.0, 0.0], lows, highs),
            (22, [0.0, -0.0], lows, highs),
            (22, [inf, inf], lows, highs),
            (22, [1.0, 2.0, 3.0, 2.5], lows, highs),
            (23, scale, [nan] + lows[1:], highs),
            (23, scale, lows, highs[1:] + [nan]),
            (23, scale, lows, highs[1:] + [79.0]),
            (23, scale, [inf] + lows[1:], highs),
            (23, scale, lows, [-inf] + highs[1:]),
            (23, scale, [nan] * 6, [nan] * 6),
            # 22 comes first, and both before what is wrong with the picture.
            (22, [nan], highs, lows),
        ):
            with self.subTest(number=number, lists=lists):
                self.prices(*lists)
                text = f"refused, {number}: {REFUSALS[number]}"
                self.not_painted(1, text)
                self.not_painted(1, text, "--limit", "4294967296", width=0)
                self.write("out.bmp", b"an older file")
                self.not_painted(1, text)
                os.remove(self.path("out.bmp"))
        self.prices(scale, lows, highs)
        for number, words in ((1, ("--width", "0")), (3, ()), (4, ("--palette", "five")), (12, ("--height", "3")),
                              (13, ("--stride", "2", "--more-follows")), (14, ("--limit", "9", "--no-rle")), (16, ("--limit", "9")),
                              (20, ("--limit", "4294967296")), (21, ("--pels", "0,-1")),
                              (11, ("--bitfields", "16,0xF800,0x07E0,0x001F,0"))):
            with self.subTest(number=number):
                files = self.files[:6] if number == 3 else self.files
                text = f"refused, {number}: {REFUSALS[number]}"
                self.unchanged(1, text, *files, "--width", "3", "--height", "2", *words, "--out", "out.bmp")

    def test_another_count_of_highs_than_of_lows(self):
        for highs in ([], [1.0] * 5, [1.0] * 7):
            with self.subTest(len(highs)):
                # No price is looked at.
                self.prices([self.NAN], [2.0] * 6, highs)
                self.not_painted(2, f"highs: {len(highs)} prices, and lows has 6")
        self.prices([0.0], [], [1.0])
        self.not_painted(2, "highs: 1 prices, and lows has 0")
        self.not_painted(2, "-: 2 prices, and lows has 0", "--highs", "-", stdin=bytes(16))
        self.prices([0.0], [], [])
        self.not_painted(1, f"refused, 12: {REFUSALS[12]}")

    def test_bytes_that_are_no_doubles(self):
        for name in ("edges", "lows", "highs"):
            for size in (1, 7, 9, 12, 47):
                with self.subTest(name=name, size=size):
                    self.write("part", bytes(size))
                    text = "part: is no list of doubles: its bytes are not a multiple of 8"
                    self.not_painted(2, text, f"--{name}", "part")

    def test_stride_and_more_follows(self):
        self.prices([90.0], [80.0, 95.0, 99.0, 85.0, 100.0, 99.0], [80.0, 95.0, 99.0, 95.0, 100.0, 99.0])
        self.assertEqual(self.painted(2, 2, "--stride=3", "--no-rle"), stored(bytes([0, 1, 255, 1]), 2, 2, self.palette))
        self.assertEqual(self.painted(2, 2, "--more-follows", "--no-rle"), stored(bytes([0, 1, 1, 255]), 2, 2, self.palette))
        text = "the plane has 6 bytes, more than stride 2 times height 2: --more-follows allows more"
        os.remove(self.path("out.bmp"))
        self.not_painted(2, text, width=2)

    def test_the_limit(self):
        # The plain file has 1078 + 64 bytes.
        self.prices([90.0], [80.0] * 64, [80.0] * 64)
        content = self.painted(16, 4)
        self.assertEqual((header(content)["biCompression"], unpacked(content[1078:])), (1, [bytes(16)] * 4))
        for most in (len(content), 1141, 1142):
            with self.subTest(most):
                self.assertEqual(self.painted(16, 4, f"--limit={most}"), content)
        os.remove(self.path("out.bmp"))
        self.not_painted(1, f"refused, 16: {REFUSALS[16]}", f"--limit={len(content) - 1}", width=16, height=4)
        self.not_painted(1, f"refused, 14: {REFUSALS[14]}", "--limit=1141", "--no-rle", width=16, height=4)

    def test_standard_input(self):
        expected = self.painted(3, 2)
        for name in ("edges", "lows", "highs", "palette"):
            with self.subTest(name):
                self.assertEqual(self.painted(3, 2, f"--{name}", "-", stdin=self.read(name)), expected)
        os.remove(self.path("out.bmp"))
        for names in (("edges", "lows"), ("lows", "highs"), ("edges", "highs"), ("highs", "palette"), ("edges", "icc")):
            with self.subTest(names):
                words = [word for name in names for word in (f"--{name}", "-")]
                self.not_painted(2, "-: standard input can be one file only", *words)

    def test_one_file_may_be_both_lists(self):
        self.assertEqual(self.painted(3, 2, "--highs", "lows", "--no-rle"), stored(bytes([0, 1, 1, 1, 2, 3]), 3, 2, self.palette))

    def test_files_that_cannot_be_read(self):
        os.mkdir(self.path("folder"))
        for option in ("--edges", "--lows", "--highs"):
            for name, text in (("none", "No such file or directory"), ("folder", "Is a directory")):
                with self.subTest(option=option, name=name):
                    self.not_painted(2, f"{name}: {text}", option, name)

    def test_a_large_grid(self):
        side = 1000
        row = array("d", [x / 4 for x in range(side)])
        self.prices([], [], [])
        self.write("lows", row.tobytes() * side)
        self.write("highs", row.tobytes() * side)
        self.write("edges", array("d", range(254)).tobytes())
        cells = bytes(min(254, x // 4 + 1) for x in range(side)) * side
        self.assertTrue(self.painted(side, side, "--no-rle") == stored(cells, side, side, self.palette))

    def test_help(self):
        text = self.run_program("--help").out.decode()
        usage = "bmp_writer --edges FILE --lows FILE --highs FILE --width N --height N [OPTION ..] --out FILE"
        self.assertIn(f"\n       {usage}\n", text)
        for option in ("--edges", "--lows", "--highs"):
            self.assertRegex(text, rf"\n  {option} FILE  +\S")


class Reading(Case):
    def test_files_that_cannot_be_read(self):
        os.mkdir(self.path("folder"))
        for option in ("--plane", "--palette", "--icc", "--linked-icc"):
            for name, text in (("none", "No such file or directory"), ("folder", "Is a directory"),
                               ("plane/x", "Not a directory"), ("x" * 300, "File name too long")):
                with self.subTest(option=option, name=name):
                    self.unchanged(2, f"{name}: {text}", *self.words, option, name, "--out", "out.bmp")
        self.unchanged(2, "none: No such file or directory", "--csv", "none", "--sample-palette", "--out", "out.bmp")
        self.unchanged(2, "folder: Is a directory", "--csv", "folder", "--sample-palette", "--out", "out.bmp")

    def test_a_file_that_may_not_be_read(self):
        os.chmod(self.path("plane"), 0)
        self.told(2, "plane: Permission denied", *self.words, "--out", "out.bmp", **self.unprivileged())

    def test_a_name_with_any_byte_is_told_in_one_line(self):
        for name, shown in ((b"a\nb", "a?b"), (b"\x1b[2Jx\x7f", "?[2Jx?"), (b"\xff\xfe", "\udcff\udcfe"), ("ä ö", "ä ö")):
            with self.subTest(name):
                self.unchanged(2, f"{shown}: No such file or directory", "--plane", name, *self.words[2:], "--out", "out.bmp")

    def test_standard_input(self):
        for option, content in (("--plane", self.plane), ("--palette", self.palette)):
            with self.subTest(option):
                self.assertEqual(self.done(*self.words, option, "-", stdin=content), self.file)
        picture = ("--plane", "plane", "--width", "4", "--height", "2", "--format", "rgb24")
        for option in ("--icc", "--linked-icc"):
            with self.subTest(option):
                self.assertEqual(self.done(*picture, option, "-", stdin=b"a profile"), self.done(*picture, option, "profile"))

    def test_standard_input_is_read_once(self):
        text = "-: standard input can be one file only"
        self.unchanged(2, text, *self.words, "--plane", "-", "--palette", "-", "--out", "out.bmp")
        self.unchanged(2, text, "--csv", "-", "--palette", "-", "--out", "out.bmp")
        self.unchanged(2, text, *self.words, "--plane", "-", "--icc", "-", "--out", "out.bmp")
        # A profile that is not written is not read.
        self.assertEqual(self.done(*self.words, "--plane", "-", "--icc", "-", "--no-embed-icc", stdin=self.plane), self.file)

    def test_standard_input_that_cannot_be_read(self):
        with open("/dev/null", "wb") as file:
            self.unchanged(2, "-: Bad file descriptor", *self.words, "--plane", "-", "--out", "out.bmp", stdin=file)
        for option in ("--plane", "--palette"):
            with self.subTest(option):
                words = (*self.words, option, "-", "--out", "out.bmp")
                self.unchanged(2, "-: Bad file descriptor", *words, before=lambda: os.close(0))

    def test_pieces_of_a_pipe(self):
        noise = noise_of(300000)
        expected = stored(noise, 500, 600, self.palette)
        words = ("--width", "500", "--height", "600", "--palette", "palette", "--no-rle")
        with self.subTest("a FIFO"):
            os.mkfifo(self.path("fifo"))

            def fill():
                with open(self.path("fifo"), "wb", buffering=0) as file:
                    for at in range(0, len(noise), 7001):
                        file.write(noise[at:at + 7001])
                        time.sleep(0.001)
            filler = threading.Thread(target=fill)
            filler.start()
            self.assertEqual(self.done("--plane", "fifo", *words), expected)
            filler.join()
        with self.subTest("standard input"):
            self.assertEqual(self.done("--plane", "-", *words, stdin=noise), expected)
        with self.subTest("standard input from within a file"):
            self.write("more", b"head" + noise)
            with open(self.path("more"), "rb") as file:
                os.lseek(file.fileno(), 4, os.SEEK_SET)
                self.assertEqual(self.done("--plane", "-", *words, stdin=file), expected)

    def test_a_device(self):
        self.refused(12, *self.words, "--plane", "/dev/null", "--out", "out.bmp")

    def test_the_file_may_be_the_plane(self):
        self.assertEqual(self.done(*self.words, out="plane"), self.file)


class Saving(Case):
    def save(self, *, name="out.bmp", place=None, **how):
        """The file is written, and nothing else is left in its directory or in the test's."""
        place = place or name
        folder = os.path.dirname(self.path(place))
        above, before = set(self.names()), set(os.listdir(folder))
        self.assertEqual(self.done(*self.words, out=name, **how), self.file)
        self.assertEqual(self.read(place), self.file)
        self.assertEqual(set(os.listdir(folder)), before | {os.path.basename(place)})
        self.assertLessEqual(set(self.names()) - above, {os.path.basename(name), os.path.basename(place)})

    def not_saved(self, name, text, **how):
        self.unchanged(2, f"{name}: {text}", *self.words, "--out", name, **how)

    def mode(self, name="out.bmp"):
        return oct(stat.S_IMODE(os.stat(self.path(name)).st_mode))

    def test_a_new_file_follows_the_umask(self):
        for mask, mode in ((0o022, 0o644), (0o027, 0o640), (0o077, 0o600), (0, 0o666), (0o777, 0)):
            with self.subTest(oct(mask)):
                name = f"{mask}.bmp"
                if not ROOT and mask == 0o777:
                    continue
                self.save(name=name, before=lambda mask=mask: os.umask(mask))
                self.assertEqual(self.mode(name), oct(mode))

    def test_mode_and_owner_are_kept(self):
        for mode in (0o640, 0o600, 0o664, 0o755, 0o606):
            with self.subTest(oct(mode)):
                self.write("out.bmp", b"an older and longer file" * 1000, mode)
                if ROOT:
                    os.chown(self.path("out.bmp"), 12345, 23456)
                self.save(before=lambda: os.umask(0o077))
                status = os.stat(self.path("out.bmp"))
                self.assertEqual(self.mode(), oct(mode))
                self.assertEqual((status.st_uid, status.st_gid), (12345, 23456) if ROOT else (os.getuid(), os.getgid()))

    def test_set_user_id_goes(self):
        self.write("out.bmp", b"an older file")
        os.chmod(self.path("out.bmp"), 0o6755)
        self.save()
        self.assertEqual(self.mode(), "0o755")

    @unittest.skipUnless(ROOT, "needs root, to be another user")
    def test_another_owners_file(self):
        how = self.unprivileged()
        os.mkdir(self.path("open"))
        os.chmod(self.path("open"), 0o777)
        for groups, group, mode, kept in (([4321], 4321, 0o664, 0o664), ([4321], 4321, 0o660, 0o660), ([], 4321, 0o666, 0o666),
                                          ([], 4321, 0o646, 0o644), ([], 4321, 0o676, 0o666)):
            with self.subTest(groups=groups, mode=oct(mode)):
                self.write("open/out.bmp", b"an older file", mode)
                os.chown(self.path("open/out.bmp"), 1234, group)
                self.save(name="open/out.bmp", **{**how, "before": as_nobody(groups)})
                status = os.stat(self.path("open/out.bmp"))
                self.assertEqual((status.st_uid, status.st_gid), (NOBODY, group if groups else NOBODY))
                self.assertEqual(self.mode("open/out.bmp"), oct(kept))
                os.remove(self.path("open/out.bmp"))

    def test_a_file_that_may_not_be_written(self):
        how = self.unprivileged()
        os.mkdir(self.path("open"))
        os.chmod(self.path("open"), 0o777)
        self.write("open/out.bmp", b"an older file", 0o444)
        before = self.listing("open")
        self.not_saved("open/out.bmp", "Permission denied", **how)
        self.assertEqual(self.listing("open"), before)

    def test_a_directory_that_may_not_be_written(self):
        how = self.unprivileged()
        os.mkdir(self.path("closed"))
        self.write("closed/out.bmp", b"an older file", 0o666)
        os.chmod(self.path("closed"), 0o555)
        self.addCleanup(os.chmod, self.path("closed"), 0o755)
        before = self.listing("closed")
        for name in ("closed/out.bmp", "closed/new.bmp"):
            with self.subTest(name):
                self.not_saved(name, "Permission denied", **how)
                self.assertEqual(self.listing("closed"), before)

    @unittest.skipUnless(ROOT, "needs root, to be another user")
    def test_a_file_that_may_not_be_moved_away(self):
        how = self.unprivileged()
        os.mkdir(self.path("sticky"))
        os.chmod(self.path("sticky"), 0o1777)
        self.write("sticky/out.bmp", b"an older file", 0o666)
        before = self.listing("sticky")
        self.not_saved("sticky/out.bmp", "Operation not permitted", **how)
        self.assertEqual(self.listing("sticky"), before)

    def test_places_that_do_not_exist(self):
        for name, text in (("none/out.bmp", "No such file or directory"), ("plane/out.bmp", "Not a directory"),
                           ("none/", "No such file or directory"), ("plane/", "Not a directory"),
                           ("x" * 256, "File name too long"), ("x/" * 3000 + "y", "File name too long")):
            with self.subTest(name[:20]):
                self.not_saved(name, text)

    def test_what_is_no_regular_file_stays(self):
        os.mkfifo(self.path("fifo"))
        os.mkdir(self.path("folder"))
        self.write("folder/inside", b"")
        names = ["fifo", "folder", "folder/", ".", "socket"]
        with socket.socket(socket.AF_UNIX) as listener:
            here = os.getcwd()
            os.chdir(self.folder)
            listener.bind("socket")
            os.chdir(here)
            try:
                os.mknod(self.path("null"), stat.S_IFCHR | 0o666, os.makedev(1, 3))
                names.append("null")
            except PermissionError:
                names.append("/dev/null")
            for name in names[:2]:
                os.symlink(name, self.path("to_" + name))
                names.append("to_" + name)
            for name in names:
                with self.subTest(name):
                    self.not_saved(name, "is no regular file")

    def test_a_symbolic_link_stays(self):
        os.makedirs(self.path("a/b"))
        os.symlink("a", self.path("folders"))
        links = {"link": "out.bmp", "a/absolute": self.path("out.bmp"), "a/b/link": "../../out.bmp", "folders/link": "b/out.bmp",
                 "to_a_link": "a/b/again", "a/b/again": "../out.bmp"}
        for link, target in links.items():
            os.symlink(target, self.path(link))
        for link, place in (("link", "out.bmp"), ("a/absolute", "out.bmp"), ("a/b/link", "out.bmp"), ("a/link", "a/b/out.bmp"),
                            ("folders/link", "a/b/out.bmp"), ("to_a_link", "a/out.bmp")):
            with self.subTest(link=link, kind="dangling"):
                self.save(name=link, place=place)
            with self.subTest(link=link, kind="to a file"):
                self.write(place, b"an older file", 0o640)
                self.save(name=link, place=place)
                self.assertEqual(self.mode(place), "0o640")
            self.assertFalse(os.path.islink(self.path(place)))
            os.remove(self.path(place))
        self.assertEqual({link: os.readlink(self.path(link)) for link in links}, links)

    def test_links_that_lead_nowhere(self):
        os.symlink("round", self.path("round"))
        os.symlink("none/out.bmp", self.path("link"))
        self.not_saved("round", "Too many levels of symbolic links")
        self.not_saved("link", "No such file or directory")

    def test_a_link_in_a_directory_that_may_not_be_written(self):
        how = self.unprivileged()
        os.mkdir(self.path("open"))
        os.chmod(self.path("open"), 0o777)
        os.mkdir(self.path("closed"))
        os.symlink("../open/out.bmp", self.path("closed/link"))
        os.chmod(self.path("closed"), 0o555)
        self.addCleanup(os.chmod, self.path("closed"), 0o755)
        self.save(name="closed/link", place="open/out.bmp", **how)

    def test_leftovers_of_other_runs(self):
        self.write("out.bmp.part", b"a leftover", 0o400)
        self.write(".out.bmp.abcdef", b"a leftover", 0o400)
        os.mkdir(self.path(".out.bmp"))
        before = self.listing()
        self.save()
        self.assertEqual({name: state for name, state in self.listing().items() if name != "out.bmp"}, before)

    def test_runs_at_once(self):
        before = set(self.names())
        runs = [subprocess.Popen([PROGRAM, *self.words, "--out", "out.bmp"], cwd=self.folder, stdout=subprocess.PIPE,
                                 stderr=subprocess.STDOUT) for _ in range(8)]
        line = f"out.bmp: {self.line}".encode()
        self.assertEqual([(run.communicate(timeout=TIMEOUT)[0], run.returncode) for run in runs], [(line, 0)] * 8)
        self.assertEqual((self.read(), set(self.names())), (self.file, before | {"out.bmp"}))

    def test_long_and_strange_names(self):
        for name in ("x" * 255, "ä" * 127, "€" * 85, "a" + "€" * 84, ".hidden", "..twice", "a b", "-x", "a\nb", b"\xff\xfe",
                     "%s%n", "XXXXXX"):
            with self.subTest(name):
                ran = self.run_program(*self.words, b"--out=" + os.fsencode(name))
                self.assertEqual((ran.status, ran.err), (0, []))
                self.assertEqual(self.read(os.fsdecode(name)), self.file)
                os.remove(self.path(os.fsdecode(name)))
                self.assertEqual(self.names(), ["empty", "five", "palette", "plane", "profile"])

    def test_a_name_with_a_directory(self):
        os.mkdir(self.path("folder"))
        for name in ("folder/out.bmp", "./folder/../out.bmp", os.path.join(self.folder, "folder/whole.bmp")):
            with self.subTest(name):
                self.save(name=name)

    def test_a_limit_on_size(self):
        self.write("large", bytes(100000))
        words = ("--plane", "large", "--width", "1000", "--height", "100", "--palette", "palette", "--no-rle", "--out", "out.bmp")
        for content in (None, b"an older file"):
            for number in (signal.SIG_IGN, signal.SIG_DFL):
                with self.subTest(content=content, signal=number):
                    if content is not None:
                        self.write("out.bmp", content, 0o640)

                    def before(number=number):
                        signal.signal(signal.SIGXFSZ, number)
                        resource.setrlimit(resource.RLIMIT_FSIZE, (4096, 4096))
                    self.unchanged(2, "out.bmp: File too large", *words, before=before)

    @unittest.skipUnless(os.path.isdir("/dev/shm") and os.access("/dev/shm", os.W_OK), "needs /dev/shm")
    def test_another_file_system_behind_a_link(self):
        with tempfile.TemporaryDirectory(dir="/dev/shm") as other:
            os.symlink(os.path.join(other, "out.bmp"), self.path("link"))
            self.assertEqual(self.done(*self.words, out="link"), self.file)
            self.assertEqual((os.listdir(other), os.path.islink(self.path("link"))), (["out.bmp"], True))

    def ended(self, number, before=None):
        """Sends the signal while the file is written; False where the program was faster."""
        words = ("--plane", "large", "--width", "8192", "--height", "4096", "--sample-palette", "--no-rle", "--out", "out.bmp")
        known = set(self.names())
        process = subprocess.Popen([PROGRAM, *words], cwd=self.folder, stdout=subprocess.PIPE, stderr=subprocess.PIPE,
                                   preexec_fn=before)
        try:
            while process.poll() is None and set(self.names()) <= known:
                pass
            process.send_signal(number)
            printed = process.communicate(timeout=TIMEOUT)
        finally:
            process.kill()
        self.assertEqual(set(self.names()), known)
        if process.returncode == 0:
            self.assertEqual(header(self.read())["bfSize"], 1078 + (32 << 20))
            return False
        self.assertEqual((process.returncode, printed), (-number, (b"", b"")))
        self.assertEqual(self.read(), b"an older file")
        return True

    def test_signals_leave_no_temporary_file(self):
        with open(self.path("large"), "wb") as file:
            file.truncate(32 << 20)
        for number in (signal.SIGINT, signal.SIGTERM, signal.SIGHUP):
            with self.subTest(number):
                for _ in range(5):
                    self.write("out.bmp", b"an older file")
                    if self.ended(number):
                        break
                else:
                    self.skipTest("the program was faster than the signal")
        with self.subTest("ignored, as under nohup"):
            self.write("out.bmp", b"an older file")
            self.assertFalse(self.ended(signal.SIGHUP, lambda: signal.signal(signal.SIGHUP, signal.SIG_IGN)))


class ReadingBack(Case):
    """bmp_writer --read FILE --csv OUT."""
    def sheet_of(self, name, width, height, depth, **how):
        """The text of the file's sheet; the line says the size, the depth and the text's bytes."""
        ran = self.run_program("--read", name, "--csv", "back.csv", **how)
        text = self.read("back.csv").decode()
        self.assertEqual(ran, Ran(0, f"{width} x {height}, {depth} bits, sheet of {len(text)} bytes\n".encode(), []))
        return text

    def test_an_index_a_cell_and_back(self):
        for (name, most), depth in zip(MOST.items(), (8, 4, 2, 1)):
            for words in ((), ("--no-rle",), ("--top-down",), ("--minimal-palette",), ("--icc", "profile")):
                for width in (1, 2, 7, 8, 9, 33):
                    with self.subTest(name=name, words=words, width=width):
                        rows = [[most & cell >> 1 for cell in noise_of(width)], [1] * width, [most] * width, [0] * width]
                        self.write("sheet.csv", sheet(rows))
                        self.done("--csv", "sheet.csv", "--sample-palette", "--format", name, *words)
                        self.assertEqual(self.sheet_of("out.bmp", width, 4, depth), sheet(rows))

    def test_streams_and_back(self):
        rows = [[x // 9 % 16 for x in range(301)], [5] * 301, [x % 16 for x in range(301)], list(range(16)) * 18 + [3] * 13]
        self.write("sheet.csv", sheet(rows))
        for name, depth, compression in (("Pal8", 8, 1), ("Indexed4", 4, 2)):
            with self.subTest(name):
                content = self.done("--csv", "sheet.csv", "--sample-palette", "--format", name)
                self.assertEqual(header(content)["biCompression"], compression)
                self.assertEqual(self.sheet_of("out.bmp", 301, 4, depth), sheet(rows))

    def test_a_sheet_that_was_read_is_written_again(self):
        self.write("sheet.csv", sheet([[255, 0, 7, 7, 7, 7], [1, 2, 3, 4, 5, 6]], ";", "\r\n"))
        first = self.done("--csv", "sheet.csv", "--sample-palette")
        self.sheet_of("out.bmp", 6, 2, 8)
        self.assertEqual(self.done("--csv", "back.csv", "--sample-palette", out="again.bmp"), first)

    def test_four_columns_a_cell(self):
        cells = [(0, 1, 2, 3), (255, 254, 253, 252), (128, 64, 32, 16), (9, 99, 199, 255), (16, 8, 4, 2), (1, 10, 100, 0)]
        self.write("rgba", bytes(sample for cell in cells for sample in cell))
        self.write("rgb", bytes(sample for cell in cells for sample in cell[:3]))
        self.write("words", b"".join(little(value, 2) for value in (0x7FFF, 0, 0x1234, 0x001F, 0x03E0, 0x7C00)))
        masks = "0x00FF0000,0x0000FF00,0x000000FF"
        for plane, name, depth, words, shown in (
            ("rgba", "Rgba", 32, (), [cell[:3] + (0,) for cell in cells]),
            ("rgb", "Rgb24", 24, (), [cell[:3] + (0,) for cell in cells]),
            ("rgb", "Bgr24", 24, ("--top-down",), [cell[2::-1] + (0,) for cell in cells]),
            ("words", "Rgb555", 16, (), [(31, 31, 31, 0), (0,) * 4, (4, 17, 20, 0), (0, 0, 31, 0), (0, 31, 0, 0), (31, 0, 0, 0)]),
            ("rgba", "Rgba", 32, ("--bitfields", f"32,{masks},0"), [cell[:3] + (0,) for cell in cells]),
            ("rgba", "Rgba", 32, ("--bitfields", f"32,{masks},0xFF000000"), cells),
            ("rgba", "Rgba", 16, ("--bitfields", "16,0x0F00,0x00F0,0x000F,0xF000"), [tuple(v >> 4 for v in cell) for cell in cells]),
            ("rgba", "Rgba", 32, ("--bitfields", "32,0xFFFFFFFF,0,0,0"), [(int.from_bytes(bytes(cell[:1] * 4), "big"), 0, 0, 0) for cell in cells]),
            ("rgba", "Rgba", 32, ("--bitfields", "32,0x00FFFFFF,0xFF000000,0,0"), [(int.from_bytes(bytes(cell[:1] * 3), "big"), cell[1], 0, 0) for cell in cells]),
        ):
            with self.subTest(name=name, words=words):
                self.done("--plane", plane, "--width", "3", "--height", "2", "--format", name, *words)
                rows = [[value for cell in row for value in cell] for row in (shown[:3], shown[3:])]
                self.assertEqual(self.sheet_of("out.bmp", 3, 2, depth), sheet(rows))

    def test_the_file_of_the_specification(self):
        self.write("five.bmp", FIVE)
        self.assertEqual(self.sheet_of("five.bmp", 5, 1, 8), "7,7,7,7,7\n")
        # Nothing behind the last cell of a stream is read.
        self.write("five.bmp", FIVE[:60])
        self.assertEqual(self.sheet_of("five.bmp", 5, 1, 8), "7,7,7,7,7\n")

    def test_a_large_file(self):
        side, noise = 1500, noise_of(1500 * 1500)
        self.write("large.bmp", stored(noise, side, side, self.palette))
        rows = (noise[y * side:(y + 1) * side] for y in range(side))
        self.assertTrue(self.sheet_of("large.bmp", side, side, 8) == sheet(rows))

    def test_refusals(self):
        def changed(at, new, file=FIVE):
            return file[:at] + new + file[at + len(new):]
        for number, content in (
            (17, changed(0, b"BA")),
            (17, changed(14, little(12))),
            (17, changed(18, little(0))),
            (17, changed(28, little(3, 2))),
            (17, changed(30, little(4))),
            (17, b"MZ"),
            (18, b""),
            (18, FIVE[:53]),
            (18, FIVE[:57]),
            (18, self.file[:-1]),
            (19, FIVE[:58]),
            (19, FIVE[:59]),
            (19, changed(58, b"\x06\x07")),
            (19, changed(58, b"\x04\x07")),
            (19, changed(58, b"\x00\x02")),
            (19, changed(58, b"\x00\x00")),
        ):
            for older in (False, True):
                with self.subTest(number=number, content=content[:70], older=older):
                    self.write("in.bmp", content)
                    if older:
                        self.write("back.csv", b"an older file")
                    self.unchanged(1, f"refused, {number}: {REFUSALS[number]}", "--read", "in.bmp", "--csv", "back.csv")
                    self.assertEqual("back.csv" in self.names(), older)
                    if older:
                        os.remove(self.path("back.csv"))

    def test_what_does_not_go_with_it(self):
        self.write("in.bmp", FIVE)
        values = {"--width": "8", "--height": "3", "--stride": "8", "--format": "Pal8", "--rendering-intent": "4",
                  "--bitfields": "16,0,0,0,0", "--calibrated-rgb": ",".join("0" * 12), "--limit": "9", "--pels": "1,2"}
        alone = {"--top-down", "--minimal-palette", "--no-rle", "--no-embed-icc", "--more-follows", "--sample-palette"}
        for option in set(OPTIONS) - {"--read", "--csv", "--help", "--version"}:
            with self.subTest(option):
                words = (option,) if option in alone else (option, values.get(option, "plane"))
                for rest in (("--csv", "back.csv"), ()):
                    self.unchanged(2, "--read goes with --csv FILE alone", "--read", "in.bmp", *words, *rest)
        self.unchanged(2, "--csv FILE is missing", "--read", "in.bmp")
        self.assertEqual(self.run_program("--read", "in.bmp", "--version").out, b"bmp_writer 1.0.0\n")

    def test_help(self):
        text = self.run_program("--help").out.decode()
        self.assertIn("\n       bmp_writer --read FILE --csv OUT\n", text)
        self.assertRegex(text, r"\n  --read FILE  +\S")

    def test_standard_files(self):
        self.write("in.bmp", FIVE)
        line = b"bmp_writer: 5 x 1, 8 bits, sheet of 10 bytes\n"
        self.assertEqual(self.run_program("--read", "in.bmp", "--csv", "-"), Ran(0, b"7,7,7,7,7\n", [line]))
        self.assertEqual(self.run_program("--read=-", "--csv=-", stdin=FIVE), Ran(0, b"7,7,7,7,7\n", [line]))
        self.assertEqual(self.sheet_of("-", 5, 1, 8, stdin=FIVE), "7,7,7,7,7\n")
        self.refused(18, "--read", "-", "--csv", "-")

    def test_files_that_cannot_be_read_or_written(self):
        self.write("in.bmp", FIVE)
        os.mkdir(self.path("folder"))
        self.unchanged(2, "none.bmp: No such file or directory", "--read", "none.bmp", "--csv", "back.csv")
        self.unchanged(2, "none/back.csv: No such file or directory", "--read", "in.bmp", "--csv", "none/back.csv")
        self.unchanged(2, "folder: is no regular file", "--read", "in.bmp", "--csv", "folder")

    def test_the_sheet_replaces_an_older_file(self):
        self.write("in.bmp", FIVE)
        self.write("older.csv", b"an older and longer file", 0o640)
        os.symlink("older.csv", self.path("back.csv"))
        self.assertEqual(self.sheet_of("in.bmp", 5, 1, 8), "7,7,7,7,7\n")
        self.assertTrue(os.path.islink(self.path("back.csv")))
        self.assertEqual(stat.S_IMODE(os.stat(self.path("older.csv")).st_mode), 0o640)
        self.assertEqual(self.names(), ["back.csv", "empty", "five", "in.bmp", "older.csv", "palette", "plane", "profile"])

    def test_more_cells_than_memory_holds(self):
        """A stream of four bytes in a head that tells of 2^62 cells."""
        self.write("in.bmp", FIVE[:18] + little(0x7FFFFFFF) * 2 + FIVE[26:])
        self.unchanged(2, "the file's cells: not enough memory", "--read", "in.bmp", "--csv", "back.csv")


class StandardOutput(Case):
    def test_the_file_and_the_line(self):
        ran = self.run_program(*self.words, "--out", "-")
        self.assertEqual(ran, Ran(0, self.file, [f"bmp_writer: -: {self.line}".encode()]))
        ran = self.run_program(*self.words, "--plane=-", "--out=-", stdin=self.plane)
        self.assertEqual(ran, Ran(0, self.file, [f"bmp_writer: -: {self.line}".encode()]))
        self.assertEqual(self.names(), ["empty", "five", "palette", "plane", "profile"])

    def test_a_file_of_that_name(self):
        ran = self.run_program(*self.words, "--out", "./-")
        self.assertEqual((ran, self.read("-")), (Ran(0, f"./-: {self.line}".encode(), []), self.file))
        ran = self.run_program(*self.words, "--plane", "./-", "--out", "out.bmp")
        self.assertEqual(ran.status, 2)

    def test_a_refusal_prints_nothing_there(self):
        self.refused(3, *self.words[:6], "--out", "-")

    def test_a_large_file_through_a_pipe(self):
        noise = noise_of(3 << 20)
        words = ("--plane", "-", "--width", "2048", "--height", "1536", "--palette", "palette", "--out", "-")
        ran = self.run_program(*words, stdin=noise)
        self.assertEqual((ran.status, len(ran.err)), (0, 1))
        self.assertTrue(ran.out == stored(noise, 2048, 1536, self.palette))

    @unittest.skipUnless(os.path.exists("/dev/full"), "needs /dev/full")
    def test_a_full_device(self):
        text = "standard output: No space left on device"
        for words in ((*self.words, "--out", "-"), ("--help",), ("--version",), (*self.words, "--out", "out.bmp")):
            with self.subTest(words), open("/dev/full", "wb") as full:
                self.told(2, text, *words, stdout=full)
        # The line alone was lost.
        self.assertEqual(self.read(), self.file)

    def test_a_closed_pipe(self):
        for words in ((*self.words, "--out", "-"), ("--help",), (*self.words, "--out", "out.bmp")):
            with self.subTest(words):
                reader, writer = os.pipe()
                os.close(reader)
                try:
                    self.told(2, "standard output: Broken pipe", *words, stdout=writer)
                finally:
                    os.close(writer)

    def test_a_closed_standard_output(self):
        closed = {"before": lambda: os.close(1)}
        for words in ((*self.words, "--out", "-"), ("--version",), (*self.words, "--out", "out.bmp")):
            with self.subTest(words):
                self.told(2, "standard output: Bad file descriptor", *words, **closed)
        self.assertEqual(self.read(), self.file)

    def test_all_standard_files_are_closed(self):
        def close():
            for number in range(3):
                os.close(number)
        ran = self.run_program(*self.words, "--out", "out.bmp", before=close)
        self.assertEqual((ran, self.read()), (Ran(2, b"", []), self.file))
        before = self.listing()
        self.assertEqual(self.run_program(*self.words, "--out", "plane/x", before=close), Ran(2, b"", []))
        self.assertEqual(self.run_program("--plane", "plane", "--width", "8", "--height", "3", "--out", "out.bmp", before=close),
                         Ran(1, b"", []))
        self.assertEqual(self.listing(), before)


if __name__ == "__main__":
    unittest.main()
