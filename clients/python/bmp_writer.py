"""A BMP writer whose every byte is proved, for Python, over its C interface.

A notebook needs three lines; `grid` is a uint8 array of (height, width) whose cells are places in the palette:

    import bmp_writer
    file, written = bmp_writer.encode(grid, palette=[(shade, shade, shade) for shade in range(256)])
    open("grid.bmp", "wb").write(file)

and `bmp_writer.read(file)` gives the cells back. A grid of prices, `lows` and `highs`, is painted first:

    plane = bmp_writer.shade_quotes(edges, lows, highs)

A single row is read from its start, which the writing call can give:

    file, written, starts = bmp_writer.encode_with_starts(plane, 200, 200, palette=palette)
    bottom = bmp_writer.read_row(file, starts[0])

Any buffer of one-byte items may be lent: bytes, bytearray, memoryview, an array of uint8; and for prices any buffer of doubles.
A buffer of one dimension says nothing of its shape and needs the width and the height. What could be read in two ways is
refused: an argument of the wrong type raises TypeError and one that does not fit ValueError, both with the argument's name, and
what the library refuses raises BmpError with the number and the text of its table.

The library is looked for in the variable BMP_WRITER_LIBRARY; if that is not set, beside this file, where an installed package
has it, and then where `bash clients/build.sh` writes it in a checkout.
"""
from __future__ import annotations

import array
import ctypes
import mmap
import operator
import os
import reprlib
import sys
from collections.abc import Mapping
from dataclasses import dataclass
from typing import TYPE_CHECKING, Any, List, NamedTuple, Optional, Sequence, Tuple, Union

if TYPE_CHECKING:
    from typing_extensions import Buffer
else:
    Buffer = Any

__all__ = ["BYTES_PER_PIXEL", "Bitfields", "BmpError", "CalibratedRgb", "EncodeOptions", "FORMATS", "HATCH", "Picture",
           "REFUSALS", "WRITTEN", "check_masks", "encode", "encode_with_starts", "read", "read_row", "shade_quotes", "size_bound"]
__version__ = "1.0.0"

FORMATS = ("Rgba", "Rgb24", "Bgra", "Bgr24", "Rgb555", "Rgb565", "Pal8", "Indexed4", "Indexed2", "Indexed1")
BYTES_PER_PIXEL = (4, 3, 4, 3, 2, 2, 1, 1, 1, 1)
WRITTEN = ("Rgb32", "Rgb24", "Rgb16Rgb", "Rgb16Bitfields", "Indexed8", "Indexed4", "Indexed2", "Rle8", "Rle4", "Indexed1",
           "Bitfields", "AlphaBitfields")
HATCH = 255  # The index of a cell whose ends have different shades.

REFUSALS = {
    1: "width or height is 0",
    2: "width or height is over 2147483647",
    3: "an indexed format needs a palette",
    4: "the palette's bytes are not a multiple of 4",
    5: "more than one of masks, calibrated colour and a profile",
    6: "the masks' depth is neither 16 nor 32",
    7: "a mask has a bit above the depth",
    8: "a mask's ones are not one run",
    9: "a mask shares a bit with an earlier one",
    10: "the masks of red, green and blue are all 0",
    11: "masks are for Rgba, Rgb24, Bgra and Bgr24 alone",
    12: "the plane is shorter than stride times height",
    13: "the stride is below width times the bytes of a pixel",
    14: "the file would have more bytes than the limit",
    15: "a lent buffer or list is too short",
    16: "neither the stream nor the plain file is within the limit",
    17: "the head is one that the writer never writes",
    18: "a byte of header, masks, table, rows or profile lies outside the file",
    19: "the stream steps over a row's end, ends too early or uses a delta code",
    20: "the limit is over 4294967295",
    21: "a resolution is negative",
    22: "the edges are not 1 to 254 numbers, each above the one before",
    23: "a cell's low or high is not a number, or the low is above the high",
    24: "the list of row starts is shorter than the height",
    255: "the format's number is none of those listed",
}


class BmpError(ValueError):
    """A refused call: `number` of the table, `text` in words."""

    number: int
    text: str

    def __init__(self, number: int) -> None:
        # The number alone is the exception's argument: unpickling, as multiprocessing does it, calls the class with it.
        super().__init__(number)
        self.number = number
        self.text = REFUSALS.get(number, "unknown refusal number")

    def __str__(self) -> str:
        return f"{self.number}: {self.text}"


@dataclass
class Bitfields:
    """Explicit masks: depth 16 or 32; red, green, blue, alpha, of which alpha may be 0.

    A sample's 8 bits, repeated from the top down, fill its mask: the top ones of a short mask, and 255 is any mask's top value.
    """
    bpp: int
    masks: Sequence[int]


@dataclass
class CalibratedRgb:
    """Nine endpoints (FXPT2DOT30) and three gammas (16.16)."""
    endpoints: Sequence[int]
    gamma: Sequence[int]


@dataclass
class EncodeOptions:
    """The original encoder's options and defaults. The call that is handed them checks every field."""
    top_down: bool = False
    minimal_palette: bool = False
    rle: bool = True
    bitfields: Optional[Bitfields] = None
    embed_icc: bool = True
    rendering_intent: int = 4
    calibrated_rgb: Optional[CalibratedRgb] = None


class Picture(NamedTuple):
    """A file that was read.

    depth    The bits of a stored cell: 1, 2, 4, 8, 16, 24 or 32.
    head     The first 14 bytes and the header.
    table    Four bytes an entry, as filed: blue, green, red, 0. It is empty above depth 8.
    cells    An array of the type code 'I', row by row from the top: up to depth 8 an index a cell, above it four numbers, red,
             green, blue and alpha, each as wide as the file stores it. Alpha is 0 but for compression 6, and a channel whose
             mask is 0 is 0. (numpy: numpy.asarray(cells).reshape(height, width), or (height, width, 4) above depth 8.)
    profile  The colour profile, or the name of a linked one; empty where there is none.
    """
    width: int
    height: int
    depth: int
    head: bytes
    table: bytes
    cells: array.array
    profile: bytes


class _Options(ctypes.Structure):
    _fields_ = [("top_down", ctypes.c_bool), ("minimal_palette", ctypes.c_bool), ("rle", ctypes.c_bool),
                ("embed_icc", ctypes.c_bool), ("has_bitfields", ctypes.c_bool), ("has_calibrated", ctypes.c_bool),
                ("bitfields_bpp", ctypes.c_uint16), ("bitfields_masks", ctypes.c_uint32 * 4),
                ("rendering_intent", ctypes.c_uint32), ("endpoints", ctypes.c_int32 * 9), ("gamma", ctypes.c_uint32 * 3)]


class _Settings(ctypes.Structure):
    _fields_ = [("limit", ctypes.c_uint64), ("x_pels_per_meter", ctypes.c_int32), ("y_pels_per_meter", ctypes.c_int32)]


class _Source(ctypes.Structure):
    _fields_ = [("format", ctypes.c_uint32), ("width", ctypes.c_uint32), ("height", ctypes.c_uint32),
                ("has_palette", ctypes.c_bool), ("has_icc", ctypes.c_bool), ("has_linked_icc", ctypes.c_bool),
                ("stride", ctypes.c_uint64)]


class _Answer(ctypes.Structure):
    _fields_ = [("bytes", ctypes.c_uint64), ("refusal", ctypes.c_uint32), ("format", ctypes.c_uint32)]


class _Reading(ctypes.Structure):
    _fields_ = [("profile_at", ctypes.c_uint64), ("profile_bytes", ctypes.c_uint64), ("refusal", ctypes.c_uint32),
                ("width", ctypes.c_uint32), ("height", ctypes.c_uint32), ("depth", ctypes.c_uint32)]


class _ReadingSizes(ctypes.Structure):
    _fields_ = [("head_bytes", ctypes.c_uint64), ("table_bytes", ctypes.c_uint64), ("cell_numbers", ctypes.c_uint64),
                ("refusal", ctypes.c_uint32), ("width", ctypes.c_uint32), ("height", ctypes.c_uint32), ("depth", ctypes.c_uint32)]


_KINDS = {name.lower(): kind for kind, name in enumerate(FORMATS)}
_MAX_U16, _MAX_U32, _MAX_U64 = 2 ** 16 - 1, 2 ** 32 - 1, 2 ** 64 - 1
_MIN_I32, _MAX_I32 = -2 ** 31, 2 ** 31 - 1
_BUILD = ("run `bash clients/staticlib.sh capi && bash clients/build.sh` in the checkout, "
          "or set BMP_WRITER_LIBRARY to libbmp_writer.so")
_ENTRY = "(red, green, blue) or (red, green, blue, alpha)"
_ENTRIES = f"a sequence of {_ENTRY}"
_DOUBLES = ("d", "@d", "=d", "<d" if sys.byteorder == "little" else ">d")
_library: Optional[ctypes.CDLL] = None


# ---- The library

def _library_path() -> str:
    named = os.environ.get("BMP_WRITER_LIBRARY")
    here = os.path.dirname(os.path.abspath(__file__))
    beside = os.path.join(here, "libbmp_writer.so")
    if named:
        return os.path.abspath(named)
    return beside if os.path.exists(beside) else os.path.normpath(os.path.join(here, "../../target/clients/libbmp_writer.so"))


def _lib() -> ctypes.CDLL:
    """The library, loaded at the first call, so that the module can be imported and read without it."""
    global _library
    if _library is None:
        path = _library_path()
        if not os.path.exists(path):
            raise ImportError(f"the library {path} is missing: {_BUILD}")
        slices = [ctypes.c_char_p, ctypes.c_size_t] * 4
        try:
            library = ctypes.CDLL(path)
            library.bmp_encoded_size_bound_with.argtypes = [_Source, _Options, _Settings, *slices]
            library.bmp_encoded_size_bound_with.restype = _Answer
            library.bmp_encode_into_with.argtypes = [_Source, _Options, _Settings, *slices, ctypes.c_void_p, ctypes.c_size_t,
                                                     ctypes.c_size_t]
            library.bmp_encode_into_with.restype = _Answer
            library.bmp_encode_with_starts.argtypes = [*library.bmp_encode_into_with.argtypes, ctypes.c_void_p, ctypes.c_size_t]
            library.bmp_encode_with_starts.restype = _Answer
            library.bmp_check_masks.argtypes = [ctypes.c_uint16] + [ctypes.c_uint32] * 4
            library.bmp_check_masks.restype = ctypes.c_uint32
            library.bmp_read.argtypes = [ctypes.c_char_p, ctypes.c_size_t] + [ctypes.c_void_p, ctypes.c_size_t] * 3
            library.bmp_read.restype = _Reading
            library.bmp_read_sizes.argtypes = [ctypes.c_char_p, ctypes.c_size_t]
            library.bmp_read_sizes.restype = _ReadingSizes
            library.bmp_read_row.argtypes = [ctypes.c_char_p, ctypes.c_size_t, ctypes.c_uint64, ctypes.c_void_p, ctypes.c_size_t]
            library.bmp_read_row.restype = ctypes.c_uint32
            library.bmp_shade_quotes.argtypes = [ctypes.c_void_p, ctypes.c_size_t] * 4
            library.bmp_shade_quotes.restype = ctypes.c_uint32
        except (OSError, AttributeError) as error:
            raise ImportError(f"the library {path} cannot be used ({error}): {_BUILD}") from error
        _library = library
    return _library


# ---- Arguments, each checked under its name

def _type(value: object) -> str:
    kind = type(value)
    return kind.__qualname__ if kind.__module__ == "builtins" else f"{kind.__module__}.{kind.__qualname__}"


def _whole(name: str, value: Any, low: int, high: int) -> int:
    """An int, or what stands for one exactly, such as numpy's integers. Python's bool and numpy's count as ints, but not here."""
    try:
        number = None if type(value).__name__ in ("bool", "bool_") else operator.index(value)
    except TypeError:
        number = None
    if number is None:
        raise TypeError(f"{name}: {reprlib.repr(value)} is of type {_type(value)}; an int is needed")
    if not low <= number <= high:
        raise ValueError(f"{name}: {number} is not in {low} .. {high}")
    return number


def _flag(name: str, value: Any) -> bool:
    """A bool and nothing else: the text "no" is true."""
    if not isinstance(value, bool):
        raise TypeError(f"{name}: {reprlib.repr(value)} is of type {_type(value)}; True or False is needed")
    return value


def _items(name: str, value: Any, needed: str) -> List[Any]:
    """The items of a list, a tuple or an array. Text and bytes have other ones, and a set or a mapping has them in no order."""
    listed = hasattr(value, "__len__") and hasattr(value, "__getitem__") and getattr(value, "shape", None) != ()
    if not listed or isinstance(value, (str, bytes, bytearray, Mapping)):
        raise TypeError(f"{name}: {reprlib.repr(value)} is of type {_type(value)}; {needed} is needed")
    return list(value)


def _wholes(name: str, values: Any, count: int, low: int, high: int) -> List[int]:
    items = _items(name, values, f"a sequence of {count} ints")
    if len(items) != count:
        raise ValueError(f"{name}: {len(items)} given; {count} are needed")
    return [_whole(f"{name}[{k}]", item, low, high) for k, item in enumerate(items)]


def _lent(name: str, value: Any, needed: str) -> memoryview:
    try:
        return memoryview(value)
    except TypeError:
        raise TypeError(f"{name}: {_type(value)} given; {needed} is needed") from None
    except (BufferError, ValueError) as error:
        raise TypeError(f"{name}: {_type(value)} lends no buffer ({error})") from error


def _view(name: str, value: Any) -> memoryview:
    """A view of one-byte items. Wider ones would be read as several cells, and a negative one as another shade."""
    view = _lent(name, value, "bytes, bytearray, memoryview or an array of uint8")
    item = view.format.lstrip("@=<>!")  # A byte has no order.
    if view.itemsize == 1 and item in ("B", "c", "?"):
        return view
    size = f"{view.itemsize} byte" if view.itemsize == 1 else f"{view.itemsize} bytes"
    signed = ", signed" if item == "b" else ""
    needed, array = ("a cell", "grid") if name == "plane" else ("an item", name)
    raise TypeError(f"{name}: {_type(value)} with items of {size} ('{view.format}'{signed}); one byte {needed} is needed "
                    f"(numpy: {array}.astype('uint8') after checking its range)")


def _bytes(value: Any, view: memoryview) -> bytes:
    """What the view shows, row by row. A copy, since the library reads it while other threads may run; bytes never change."""
    return value if type(value) is bytes else view.tobytes()


def _flat(name: str, value: Any) -> bytes:
    view = _view(name, value)
    if view.ndim != 1:
        raise ValueError(f"{name}: shape {view.shape}; one dimension is needed")
    return _bytes(value, view)


def _rgba(value: Any) -> bytes:
    """Bytes that are said to be red, green, blue, alpha of each entry; a shape must not say otherwise."""
    view = _view("palette_rgba", value)
    shape = view.shape or ()
    if len(shape) != 1 and (len(shape) != 2 or shape[1] != 4):
        raise ValueError(f"palette_rgba: shape {shape}; one dimension or (entries, 4) is needed")
    return _bytes(value, view)


def _entries(palette: Any) -> bytes:
    """The palette as the library reads it. An entry without alpha is opaque."""
    try:
        view = memoryview(palette)
    except (TypeError, BufferError, ValueError):
        rows = _items("palette", palette, _ENTRIES)
    else:
        if view.ndim != 2:
            raise TypeError(f"palette: {_type(palette)} given, which does not say how many bytes an entry has; {_ENTRIES} is "
                            "needed, or palette_rgba= for bytes that are red, green, blue, alpha of each entry")
        try:
            rows = view.tolist()
        except NotImplementedError:
            raise TypeError(f"palette: {_type(palette)} with items '{view.format}'; uint8 is needed") from None
    out = bytearray()
    for k, row in enumerate(rows):
        name = f"palette[{k}]"
        entry = _items(name, row, _ENTRY)
        if len(entry) not in (3, 4):
            raise ValueError(f"{name}: {len(entry)} numbers given; {_ENTRY} is needed")
        out += bytes([_whole(name, v, 0, 255) for v in entry])
        if len(entry) == 3:
            out.append(255)
    return bytes(out)


def _doubles(name: str, value: Any, most: int) -> memoryview:
    """A view of doubles as this machine has them, in one dimension or up to `most`."""
    view = _lent(name, value, "an array of the type code 'd' or another buffer of doubles")
    if view.format not in _DOUBLES:
        raise TypeError(f"{name}: {_type(value)} with items '{view.format}'; doubles ('d') are needed (numpy: "
                        f"{name}.astype('float64'))")
    if not 1 <= view.ndim <= most:
        raise ValueError(f"{name}: shape {view.shape}; {'one dimension' if most == 1 else 'one dimension or two'} is needed")
    return view


def _kind(format: Any) -> int:
    if not isinstance(format, str):
        raise TypeError(f"format: {reprlib.repr(format)} is of type {_type(format)}; one of {', '.join(FORMATS)} is needed")
    if format.lower() not in _KINDS:
        raise BmpError(255)
    return _KINDS[format.lower()]


def _agreed(name: str, given: Any, shown: int, shape: Any, high: int) -> int:
    """What the shape shows; a number beside it may only repeat it."""
    if given is not None and _whole(name, given, 0, high) != shown:
        raise ValueError(f"{name}: {given} given, and {shown} by the plane's shape {shape}")
    return _whole(name, shown, 0, high)


def _picture(plane: Any, width: Any, height: Any, kind: int, stride: Any) -> Tuple[bytes, int, int, int]:
    """The plane's bytes, its width, its height and its stride."""
    view, pixel = _view("plane", plane), BYTES_PER_PIXEL[kind]
    shape = view.shape or ()
    if len(shape) == 1:
        for name, value in (("width", width), ("height", height)):
            if value is None:
                raise TypeError(f"{name} is missing: the plane has one dimension, so width and height are needed")
        width, height = _whole("width", width, 0, _MAX_U32), _whole("height", height, 0, _MAX_U32)
        stride = width * pixel if stride is None else _whole("stride", stride, 0, _MAX_U64)
    else:
        if len(shape) != (2 if pixel == 1 else 3) or (pixel > 1 and shape[2] != pixel):
            needed = "(height, width)" if pixel == 1 else f"(height, width, {pixel})"
            raise ValueError(f"plane: shape {shape} does not fit {FORMATS[kind]}, which needs {needed}, or one dimension with "
                             "width and height")
        width = _agreed("width", width, shape[1], shape, _MAX_U32)
        height = _agreed("height", height, shape[0], shape, _MAX_U32)
        stride = _agreed("stride", stride, shape[1] * pixel, shape, _MAX_U64)
    return _bytes(plane, view), width, height, stride


def _instance(name: str, value: Any, kind: type) -> None:
    if not isinstance(value, kind):
        raise TypeError(f"{name}: {_type(value)} given; {kind.__name__} is needed")


def _raw_options(options: Any) -> _Options:
    options = EncodeOptions() if options is None else options
    _instance("options", options, EncodeOptions)
    raw = _Options(rendering_intent=_whole("options.rendering_intent", options.rendering_intent, 0, _MAX_U32))
    for name in ("top_down", "minimal_palette", "rle", "embed_icc"):
        setattr(raw, name, _flag(f"options.{name}", getattr(options, name)))
    if options.bitfields is not None:
        _instance("options.bitfields", options.bitfields, Bitfields)
        raw.has_bitfields = True
        raw.bitfields_bpp = _whole("options.bitfields.bpp", options.bitfields.bpp, 0, _MAX_U16)
        raw.bitfields_masks[:] = _wholes("options.bitfields.masks", options.bitfields.masks, 4, 0, _MAX_U32)
    if options.calibrated_rgb is not None:
        _instance("options.calibrated_rgb", options.calibrated_rgb, CalibratedRgb)
        raw.has_calibrated = True
        raw.endpoints[:] = _wholes("options.calibrated_rgb.endpoints", options.calibrated_rgb.endpoints, 9, _MIN_I32, _MAX_I32)
        raw.gamma[:] = _wholes("options.calibrated_rgb.gamma", options.calibrated_rgb.gamma, 3, 0, _MAX_U32)
    return raw


# ---- The calls

def _allowed(number: int) -> None:
    if number != 0:
        raise BmpError(number)


def _accepted(answer: Any) -> Any:
    _allowed(answer.refusal)
    return answer


def _planned(plane: Any, width: Any, height: Any, format: Any, stride: Any, palette: Any, icc: Any, linked_icc: Any, options: Any,
             palette_rgba: Any, more_follows: Any, limit: Any, x_pels_per_meter: Any,
             y_pels_per_meter: Any) -> Tuple[List[Any], int]:
    """The library's arguments, and the bytes that it asks for with them. Its own refusals come before that of a longer plane."""
    kind = _kind(format)
    _flag("more_follows", more_follows)
    if palette is not None and palette_rgba is not None:
        raise ValueError("palette and palette_rgba: both given; one of them says it all")
    data, width, height, stride = _picture(plane, width, height, kind, stride)
    table = _entries(palette) if palette is not None else None if palette_rgba is None else _rgba(palette_rgba)
    profile = None if icc is None else _flat("icc", icc)
    linked = None if linked_icc is None else _flat("linked_icc", linked_icc)
    source = _Source(kind, width, height, table is not None, profile is not None, linked is not None, stride)
    settings = _Settings(_whole("limit", limit, 0, _MAX_U64), _whole("x_pels_per_meter", x_pels_per_meter, _MIN_I32, _MAX_I32),
                         _whole("y_pels_per_meter", y_pels_per_meter, _MIN_I32, _MAX_I32))
    arguments: List[Any] = [source, _raw_options(options), settings]
    for lent in (data, table, profile, linked):
        arguments += [lent, 0 if lent is None else len(lent)]
    bound = _accepted(_lib().bmp_encoded_size_bound_with(*arguments)).bytes
    if len(data) > stride * height and not more_follows:
        raise ValueError(f"plane: {len(data)} bytes given, and stride times height is {stride * height}; pass more_follows=True "
                         "if what follows is no part of the picture")
    return arguments, bound


def size_bound(plane: Buffer, width: Optional[int] = None, height: Optional[int] = None, format: str = "Pal8",
               stride: Optional[int] = None, palette: Union[Sequence[Sequence[int]], Buffer, None] = None,
               icc: Optional[Buffer] = None, linked_icc: Optional[Buffer] = None, options: Optional[EncodeOptions] = None, *,
               palette_rgba: Optional[Buffer] = None, more_follows: bool = False, limit: int = _MAX_U32,
               x_pels_per_meter: int = 2835, y_pels_per_meter: int = 2835) -> int:
    """The bytes that a file of these arguments needs at most: those of `encode`, which says what they are."""
    return _planned(plane, width, height, format, stride, palette, icc, linked_icc, options, palette_rgba, more_follows, limit,
                    x_pels_per_meter, y_pels_per_meter)[1]


def encode(plane: Buffer, width: Optional[int] = None, height: Optional[int] = None, format: str = "Pal8",
           stride: Optional[int] = None, palette: Union[Sequence[Sequence[int]], Buffer, None] = None,
           icc: Optional[Buffer] = None, linked_icc: Optional[Buffer] = None, options: Optional[EncodeOptions] = None, *,
           palette_rgba: Optional[Buffer] = None, more_follows: bool = False, limit: int = _MAX_U32,
           x_pels_per_meter: int = 2835, y_pels_per_meter: int = 2835) -> Tuple[bytes, str]:
    """The file as bytes, and what it was written as (one of WRITTEN).

    plane         One-byte items, rows from the top. A shape of (height, width), or of (height, width, bytes of a pixel) for
                  direct colour, gives width, height and stride; one dimension needs width and height. Words of Rgb555 and
                  Rgb565 have the low byte first (numpy: words.astype('<u2').view('uint8').reshape(height, width, 2)).
    format        One of FORMATS, in upper or lower case.
    stride        The bytes from one row to the next; without it the rows follow each other.
    palette       A sequence of (red, green, blue) or (red, green, blue, alpha), or a uint8 array of (entries, 3) or
                  (entries, 4). An empty one is a palette too.
    palette_rgba  The palette as bytes that are red, green, blue, alpha of each entry, in place of `palette`.
    icc           A colour profile to embed; linked_icc the name of one, as the file is to hold it.
    more_follows  Whether the plane may be longer than stride times height. It is refused otherwise, since a plane that is too
                  long has mostly another width.
    limit         The bytes that the file may have, as the screen that shows it takes them: at most 4294967295. A plain file that
                  would be longer is written as a stream, if that fits, or refused.
    x_pels_per_meter, y_pels_per_meter
                  The cells in a metre of that screen, across and down, not negative. 2835 are 72 to the inch.
    """
    arguments, bound = _planned(plane, width, height, format, stride, palette, icc, linked_icc, options, palette_rgba,
                                more_follows, limit, x_pels_per_meter, y_pels_per_meter)
    out = ctypes.create_string_buffer(bound)
    answer = _accepted(_lib().bmp_encode_into_with(*arguments, out, bound, 0))
    return memoryview(out)[:answer.bytes].tobytes(), WRITTEN[answer.format]


def encode_with_starts(plane: Buffer, width: Optional[int] = None, height: Optional[int] = None, format: str = "Pal8",
                       stride: Optional[int] = None, palette: Union[Sequence[Sequence[int]], Buffer, None] = None,
                       icc: Optional[Buffer] = None, linked_icc: Optional[Buffer] = None,
                       options: Optional[EncodeOptions] = None, *, palette_rgba: Optional[Buffer] = None,
                       more_follows: bool = False, limit: int = _MAX_U32, x_pels_per_meter: int = 2835,
                       y_pels_per_meter: int = 2835) -> Tuple[bytes, str, array.array]:
    """What `encode` gives for the same arguments, which it describes, and the rows' starts.

    They are an array of the type code 'Q', an entry a stored row: the place in the file of the row's first byte, in a stream the
    first of its codes. Entry 0 is of the picture's bottom row, or of its top row if top_down is on.
    """
    arguments, bound = _planned(plane, width, height, format, stride, palette, icc, linked_icc, options, palette_rgba,
                                more_follows, limit, x_pels_per_meter, y_pels_per_meter)
    out, starts = ctypes.create_string_buffer(bound), array.array("Q", bytes(8 * arguments[0].height))
    answer = _accepted(_lib().bmp_encode_with_starts(*arguments, out, bound, 0, *starts.buffer_info()))
    return memoryview(out)[:answer.bytes].tobytes(), WRITTEN[answer.format], starts


def _unfilled(numbers: int) -> mmap.mmap:
    """Memory for so many numbers. The system gives each page when it is first written to, so that a short stream which asks for
    gigabytes is refused without having them."""
    try:
        return mmap.mmap(-1, 4 * numbers, mmap.MAP_PRIVATE | mmap.MAP_ANONYMOUS)
    except (OSError, OverflowError, ValueError) as error:
        raise MemoryError(f"data: there is no memory for the {numbers} numbers of its cells") from error


def read(data: Buffer) -> Picture:
    """The picture in a file, which is any buffer of one-byte items. The library reads with the interpreter's lock released.

    Raises BmpError with 17, 18 or 19 where the file is refused, and MemoryError where there is no memory for the cells: the few
    bytes of a stream can ask for nearly 2 ** 62 of them.
    """
    file = _flat("data", data)
    sizes = _accepted(_lib().bmp_read_sizes(file, len(file)))
    head, table = ctypes.create_string_buffer(sizes.head_bytes), ctypes.create_string_buffer(sizes.table_bytes)
    lent = _unfilled(sizes.cell_numbers)
    answer = _accepted(_lib().bmp_read(file, len(file), head, len(head), table, len(table),
                                       ctypes.byref(ctypes.c_char.from_buffer(lent)), sizes.cell_numbers))
    cells = array.array("I")
    cells.frombytes(lent)
    profile = file[answer.profile_at:answer.profile_at + answer.profile_bytes]
    return Picture(answer.width, answer.height, answer.depth, head.raw, table.raw, cells, profile)


def read_row(data: Buffer, start: int) -> array.array:
    """The cells of the one row whose first byte stands at `start`, as `read` gives the cells of a row: an array of the type code
    'I', up to depth 8 an index a cell, above it four numbers. (numpy: numpy.asarray(row).reshape(-1, 4) above depth 8.)

    Of the pixels no byte of another row is looked at, and any start inside the file is read as it stands. The library reads with
    the interpreter's lock released.

    Raises BmpError with 17, 18 or 19 where the row is refused, each as for the whole file but for this row alone, and MemoryError
    where there is no memory for the cells.
    """
    file, start = _flat("data", data), _whole("start", start, 0, _MAX_U64)
    # Without cells the answer is 17, 18 or 15; the last says that the head's fields can be relied on.
    asked = _lib().bmp_read_row(file, len(file), start, None, 0)
    if asked != 15:
        raise BmpError(asked)
    numbers = int.from_bytes(file[18:22], "little") * (1 if file[28] <= 8 else 4)
    lent = _unfilled(numbers)
    _allowed(_lib().bmp_read_row(file, len(file), start, ctypes.byref(ctypes.c_char.from_buffer(lent)), numbers))
    cells = array.array("I")
    cells.frombytes(lent)
    return cells


def shade_quotes(edges: Buffer, lows: Buffer, highs: Buffer) -> bytearray:
    """A plane for `encode`, painted from prices: an index a cell, row by row.

    edges  The scale: 1 to 254 prices, each above the one before. A price's shade is the count of edges at or below it.
    lows   The lowest price of each cell, in one dimension or as rows; highs the highest. A cell gets the shade of both, or HATCH
           where they have different ones. Highs past the lows are not looked at.

    All three are buffers of doubles: an array of the type code 'd', an array of float64. -0 and 0 are one price; the infinities
    are prices, also as edges. The library paints with the interpreter's lock released.

    Raises BmpError with 15 where the highs are fewer than the lows, 22 where the edges are no scale, or 23 where a price is not a
    number or a low is above its high. (numpy: numpy.frombuffer(plane, 'uint8').reshape(lows.shape).)
    """
    views = [_doubles("edges", edges, 1), _doubles("lows", lows, 2), _doubles("highs", highs, 2)]
    if views[1].shape[1:] != views[2].shape[1:]:
        raise ValueError(f"highs: shape {views[2].shape}, and that of lows is {views[1].shape}; rows of one length are needed")
    # Copies, since other threads may run.
    lists = [array.array("d", view.tobytes()) for view in views]
    plane = ctypes.create_string_buffer(len(lists[1]))
    _allowed(_lib().bmp_shade_quotes(*(part for prices in lists for part in prices.buffer_info()), plane, len(plane)))
    return bytearray(plane)


def check_masks(bpp: int, red: int, green: int, blue: int, alpha: int = 0) -> None:
    """Raises BmpError with 6 to 10 where the masks are refused."""
    named = (("red", red), ("green", green), ("blue", blue), ("alpha", alpha))
    _allowed(_lib().bmp_check_masks(_whole("bpp", bpp, 0, _MAX_U16), *(_whole(name, mask, 0, _MAX_U32) for name, mask in named)))
