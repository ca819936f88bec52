/* A BMP writer whose every byte is proved, a reader of its files, and a painter of grids of prices. Link with libcapi.a
 * (bash clients/staticlib.sh capi), or with libbmp_writer.so (clients/build.sh, which also writes a file for
 * pkg-config). The header is for C99 and C++98 and later.
 *
 * The calls work in memory that the caller lends and never allocate. Every pointer goes with its length in bytes, but
 * `cells`, `starts` and the lists of doubles with their count of numbers; NULL with length 0 is allowed. `out` and
 * `starts`, and `plane` where it is filled, overlap neither an input nor each other; `head`, `table` and `cells` overlap
 * neither the file nor each other. A bool is 0 or 1. */
#ifndef BMP_WRITER_H
#define BMP_WRITER_H

#include <stdbool.h>
#include <stddef.h>
#include <stdint.h>

#ifdef __cplusplus
extern "C" {
#endif

/* The version of the library, of this header and of the clients; the file VERSION has the same. */
#define BMP_WRITER_VERSION "1.0.0"

/* The layout of the lent plane. Rows go from the top, `stride` bytes from one to the next. */
enum bmp_source_format {
    BMP_RGBA = 0,     /* 4 bytes: red, green, blue, alpha */
    BMP_RGB24 = 1,    /* 3 bytes: red, green, blue */
    BMP_BGRA = 2,     /* 4 bytes: blue, green, red, alpha */
    BMP_BGR24 = 3,    /* 3 bytes: blue, green, red */
    BMP_RGB555 = 4,   /* a word, low byte first: red, green, blue from bits 10, 5, 0 */
    BMP_RGB565 = 5,   /* a word, low byte first: red, green, blue from bits 11, 5, 0 */
    BMP_PAL8 = 6,     /* an index byte, stored in 8 bits; the palette is needed, here and below */
    BMP_INDEXED4 = 7, /* an index byte, of which the low 4 bits are stored */
    BMP_INDEXED2 = 8, /* an index byte, of which the low 2 bits are stored */
    BMP_INDEXED1 = 9  /* an index byte, of which the low bit is stored */
};

/* What a file was written as. */
enum bmp_written_format {
    BMP_WRITTEN_RGB32 = 0,
    BMP_WRITTEN_RGB24 = 1,
    BMP_WRITTEN_RGB16_RGB = 2,
    BMP_WRITTEN_RGB16_BITFIELDS = 3,
    BMP_WRITTEN_INDEXED8 = 4,
    BMP_WRITTEN_INDEXED4 = 5,
    BMP_WRITTEN_INDEXED2 = 6,
    BMP_WRITTEN_RLE8 = 7,
    BMP_WRITTEN_RLE4 = 8,
    BMP_WRITTEN_INDEXED1 = 9,
    BMP_WRITTEN_BITFIELDS = 10,
    BMP_WRITTEN_ALPHA_BITFIELDS = 11
};

/* Why a call is refused; the first that applies is answered, 255 before all others, 20 and 21 between 2 and 3, 24
 * between 15 and 16. `bmp_refusal_text` has the words. */
enum bmp_refusal {
    BMP_OK = 0,
    BMP_ZERO_DIMENSION = 1,      /* width or height is 0 */
    BMP_DIMENSION_TOO_LARGE = 2, /* width or height over 2,147,483,647 */
    BMP_PALETTE_MISSING = 3,     /* indexed format, palette absent */
    BMP_PALETTE_NOT_QUADS = 4,   /* indexed format, palette bytes not a multiple of 4 */
    BMP_SEVERAL_MODES = 5,       /* more than one of masks, calibrated colour, profile */
    BMP_MASK_DEPTH = 6,          /* masks: depth is neither 16 nor 32 */
    BMP_MASK_ABOVE_DEPTH = 7,    /* masks: a mask has a bit above the depth */
    BMP_MASK_NOT_ONE_RUN = 8,    /* masks: a mask's ones are not one run */
    BMP_MASK_OVERLAP = 9,        /* masks: a mask shares a bit with an earlier one */
    BMP_NO_COLOUR_MASK = 10,     /* masks: red, green and blue masks all 0 */
    BMP_MASK_SOURCE = 11,        /* masks: source is not RGBA, RGB24, BGRA or BGR24 */
    BMP_PLANE_TOO_SHORT = 12,    /* plane length below stride x height */
    BMP_STRIDE_TOO_SHORT = 13,   /* stride below width x bytes of a pixel */
    BMP_FILE_TOO_LARGE = 14,     /* no RLE planned, and the file is over the limit */
    BMP_BUFFER_TOO_SHORT = 15,   /* writing: offset past the end, or fewer than bound bytes after it; reading: a
                                  * lent buffer is shorter than what goes there; quotes: highs or plane shorter than
                                  * the lows */
    BMP_STREAM_OVER_BUDGET = 16, /* writing: RLE planned, plain file over the limit, stream not under budget */
    BMP_NEVER_WRITTEN = 17,      /* reading: mark, header size, width, height, depth, compression, colour count or
                                  * masks that are never written */
    BMP_OUTSIDE_FILE = 18,       /* reading: a byte of header, masks, table, plain rows or profile outside the file */
    BMP_STREAM_FAULT = 19,       /* reading: a step over a row's end, a row ended early, a delta code, missing cells */
    BMP_LIMIT_TOO_LARGE = 20,    /* the limit is over 4,294,967,295 */
    BMP_NEGATIVE_RESOLUTION = 21, /* a resolution is negative */
    BMP_NOT_A_SCALE = 22,        /* quotes: no edge or over 254, an edge not a number, or edges not strictly rising */
    BMP_NOT_A_QUOTE = 23,        /* quotes: a low or high not a number, or a low above its high */
    BMP_STARTS_TOO_SHORT = 24,   /* writing with starts: the list of row starts is shorter than the height */
    BMP_UNKNOWN_FORMAT = 255     /* `format` is none of those listed; this interface's own number */
};

/* 76 bytes. BMP_OPTIONS_DEFAULT has the defaults in brackets. */
typedef struct {
    bool top_down;               /* rows from the top, height negative, no RLE [false] */
    bool minimal_palette;        /* a colour table as long as the palette, at least one entry [false] */
    bool rle;                    /* try RLE for plain PAL8 and INDEXED4; used where it is shorter [true] */
    bool embed_icc;              /* write the profile `icc` if it is given [true] */
    bool has_bitfields;          /* mask mode: the next two fields count [false] */
    bool has_calibrated;         /* calibrated colour: endpoints and gamma count [false] */
    uint16_t bitfields_bpp;      /* 16 or 32 bits a cell [0] */
    uint32_t bitfields_masks[4]; /* red, green, blue, alpha; alpha may be 0. A sample's 8 bits, repeated from the top
                                  * down, fill its mask: 255 is any mask's top value [0] */
    uint32_t rendering_intent;   /* bV5Intent of a file with a profile, any number [4, LCS_GM_IMAGES] */
    int32_t endpoints[9];        /* bV4Endpoints: red, green, blue, each x, y, z, as FXPT2DOT30 [0] */
    uint32_t gamma[3];           /* bV4GammaRed, Green, Blue, as 16.16 [0] */
} bmp_options;

/* The defaults of the original encoder, as an initialiser alone: strict C takes no other for a static object. */
#define BMP_OPTIONS_STATIC \
    { false, false, true, true, false, false, 0, { 0, 0, 0, 0 }, 4, { 0, 0, 0, 0, 0, 0, 0, 0, 0 }, { 0, 0, 0 } }

/* The same as a value, to initialise with, to assign and to pass. */
#if !defined(__cplusplus)
#define BMP_OPTIONS_DEFAULT ((bmp_options)BMP_OPTIONS_STATIC)
#elif __cplusplus >= 201103L
#define BMP_OPTIONS_DEFAULT (bmp_options BMP_OPTIONS_STATIC)
#else
static inline bmp_options bmp_options_default(void) {
    bmp_options options = BMP_OPTIONS_STATIC;
    return options;
}
#define BMP_OPTIONS_DEFAULT (bmp_options_default())
#endif

/* 16 bytes. What the screen that shows the file asks for. BMP_SETTINGS_DEFAULT has the defaults in brackets. */
typedef struct {
    uint64_t limit;           /* bytes that a file may have, at most what its size field can say [4,294,967,295] */
    int32_t x_pels_per_meter; /* biXPelsPerMeter, cells in a metre across, not negative [2835, 72 to the inch] */
    int32_t y_pels_per_meter; /* biYPelsPerMeter, cells in a metre down, not negative [2835] */
} bmp_settings;

#define BMP_SETTINGS_STATIC { 4294967295u, 2835, 2835 }

#if !defined(__cplusplus)
#define BMP_SETTINGS_DEFAULT ((bmp_settings)BMP_SETTINGS_STATIC)
#elif __cplusplus >= 201103L
#define BMP_SETTINGS_DEFAULT (bmp_settings BMP_SETTINGS_STATIC)
#else
static inline bmp_settings bmp_settings_default(void) {
    bmp_settings settings = BMP_SETTINGS_STATIC;
    return settings;
}
#define BMP_SETTINGS_DEFAULT (bmp_settings_default())
#endif

/* 24 bytes. */
typedef struct {
    uint32_t format;     /* enum bmp_source_format */
    uint32_t width;      /* cells in a row */
    uint32_t height;     /* rows */
    bool has_palette;    /* the palette counts; an absent one's bytes are ignored, here and below */
    bool has_icc;        /* the embedded profile counts, if embed_icc is on */
    bool has_linked_icc; /* the linked profile counts, and is taken before the embedded one */
    uint64_t stride;     /* bytes from one row of the plane to the next */
} bmp_source;

/* 16 bytes. */
typedef struct {
    uint64_t bytes;   /* bytes appended, or the bound; 0 with a refusal */
    uint32_t refusal; /* enum bmp_refusal */
    uint32_t format;  /* enum bmp_written_format; 0 with a refusal and from the size query */
} bmp_answer;

/* 32 bytes. With a refusal every other field is 0, here and below. */
typedef struct {
    uint64_t profile_at;    /* where the profile begins in the file; 0 where it is empty or there is none */
    uint64_t profile_bytes; /* its bytes, which are a part of the file and are not copied */
    uint32_t refusal;       /* enum bmp_refusal */
    uint32_t width;         /* cells in a row */
    uint32_t height;        /* rows, also of a file whose height is negative */
    uint32_t depth;         /* bits of a stored cell: 1, 2, 4, 8, 16, 24 or 32 */
} bmp_reading;

/* 40 bytes. */
typedef struct {
    uint64_t head_bytes;   /* the bytes that `head` must have: 54, 122 or 138 */
    uint64_t table_bytes;  /* the bytes that `table` must have, at most 1024; 0 above depth 8 */
    uint64_t cell_numbers; /* the numbers that `cells` must have; a stream's few bytes can ask for nearly 2^62 */
    uint32_t refusal;      /* enum bmp_refusal */
    uint32_t width;        /* the rest as above */
    uint32_t height;
    uint32_t depth;
} bmp_reading_sizes;

/* The places of all fields and the sizes. A compiler that lays the structs out otherwise refuses this header; in
 * languages before static assertions it does so because an array of a negative size is an error. */
#if defined(__cplusplus) && __cplusplus >= 201103L
#define BMP_FACT(name, fact) static_assert(fact, #fact)
#elif defined(__STDC_VERSION__) && __STDC_VERSION__ >= 201112L
#define BMP_FACT(name, fact) _Static_assert(fact, #fact)
#else
#define BMP_FACT(name, fact) typedef char name[(fact) ? 1 : -1]
#endif
#define BMP_PLACE(type, field, place) BMP_FACT(type##_##field##_place, offsetof(type, field) == place)
#define BMP_BYTES(type, bytes) BMP_FACT(type##_bytes, sizeof(type) == bytes)
BMP_PLACE(bmp_options, top_down, 0);
BMP_PLACE(bmp_options, minimal_palette, 1);
BMP_PLACE(bmp_options, rle, 2);
BMP_PLACE(bmp_options, embed_icc, 3);
BMP_PLACE(bmp_options, has_bitfields, 4);
BMP_PLACE(bmp_options, has_calibrated, 5);
BMP_PLACE(bmp_options, bitfields_bpp, 6);
BMP_PLACE(bmp_options, bitfields_masks, 8);
BMP_PLACE(bmp_options, rendering_intent, 24);
BMP_PLACE(bmp_options, endpoints, 28);
BMP_PLACE(bmp_options, gamma, 64);
BMP_BYTES(bmp_options, 76);
BMP_PLACE(bmp_settings, limit, 0);
BMP_PLACE(bmp_settings, x_pels_per_meter, 8);
BMP_PLACE(bmp_settings, y_pels_per_meter, 12);
BMP_BYTES(bmp_settings, 16);
BMP_PLACE(bmp_source, format, 0);
BMP_PLACE(bmp_source, width, 4);
BMP_PLACE(bmp_source, height, 8);
BMP_PLACE(bmp_source, has_palette, 12);
BMP_PLACE(bmp_source, has_icc, 13);
BMP_PLACE(bmp_source, has_linked_icc, 14);
BMP_PLACE(bmp_source, stride, 16);
BMP_BYTES(bmp_source, 24);
BMP_PLACE(bmp_answer, bytes, 0);
BMP_PLACE(bmp_answer, refusal, 8);
BMP_PLACE(bmp_answer, format, 12);
BMP_BYTES(bmp_answer, 16);
BMP_PLACE(bmp_reading, profile_at, 0);
BMP_PLACE(bmp_reading, profile_bytes, 8);
BMP_PLACE(bmp_reading, refusal, 16);
BMP_PLACE(bmp_reading, width, 20);
BMP_PLACE(bmp_reading, height, 24);
BMP_PLACE(bmp_reading, depth, 28);
BMP_BYTES(bmp_reading, 32);
BMP_PLACE(bmp_reading_sizes, head_bytes, 0);
BMP_PLACE(bmp_reading_sizes, table_bytes, 8);
BMP_PLACE(bmp_reading_sizes, cell_numbers, 16);
BMP_PLACE(bmp_reading_sizes, refusal, 24);
BMP_PLACE(bmp_reading_sizes, width, 28);
BMP_PLACE(bmp_reading_sizes, height, 32);
BMP_PLACE(bmp_reading_sizes, depth, 36);
BMP_BYTES(bmp_reading_sizes, 40);
#undef BMP_BYTES
#undef BMP_PLACE
#undef BMP_FACT

/* Appends the file at `offset` of `out`, which has `out_len` bytes. With a refusal no byte of `out` has changed;
 * with a file none outside the bytes answered. A palette entry is four bytes: red, green, blue, alpha. The header's
 * image size holds the bytes of the pixels; only a 40-byte header without compression has 0 there. */
bmp_answer bmp_encode_into(bmp_source source, bmp_options options, const uint8_t *plane, size_t plane_len,
                           const uint8_t *palette, size_t palette_len, const uint8_t *icc, size_t icc_len,
                           const uint8_t *linked_icc, size_t linked_icc_len, uint8_t *out, size_t out_len,
                           size_t offset);

/* How many bytes after the offset `bmp_encode_into` asks for with the same arguments; no file is longer. */
bmp_answer bmp_encoded_size_bound(bmp_source source, bmp_options options, const uint8_t *plane, size_t plane_len,
                                  const uint8_t *palette, size_t palette_len, const uint8_t *icc, size_t icc_len,
                                  const uint8_t *linked_icc, size_t linked_icc_len);

/* The same two with the settings of a screen; those above have BMP_SETTINGS_DEFAULT. No file is longer than the limit: a
 * plain file that would be is refused, or written as a stream where RLE is planned and the stream fits. */
bmp_answer bmp_encode_into_with(bmp_source source, bmp_options options, bmp_settings settings, const uint8_t *plane,
                                size_t plane_len, const uint8_t *palette, size_t palette_len, const uint8_t *icc,
                                size_t icc_len, const uint8_t *linked_icc, size_t linked_icc_len, uint8_t *out,
                                size_t out_len, size_t offset);

bmp_answer bmp_encoded_size_bound_with(bmp_source source, bmp_options options, bmp_settings settings,
                                       const uint8_t *plane, size_t plane_len, const uint8_t *palette,
                                       size_t palette_len, const uint8_t *icc, size_t icc_len,
                                       const uint8_t *linked_icc, size_t linked_icc_len);

/* `bmp_encode_into_with`, which also fills `starts`: number k is the place in the file, counted from its first byte and
 * not from the buffer's, of the first byte of stored row k, in a stream the first of its codes. Row 0 is the picture's
 * bottom row, or its top row if top_down is on. `starts_len` is a count of numbers: fewer than the height are 24, which
 * is tested directly after 15. Numbers past the height keep their values; with a refusal, 255 included, all do. */
bmp_answer bmp_encode_with_starts(bmp_source source, bmp_options options, bmp_settings settings, const uint8_t *plane,
                                  size_t plane_len, const uint8_t *palette, size_t palette_len, const uint8_t *icc,
                                  size_t icc_len, const uint8_t *linked_icc, size_t linked_icc_len, uint8_t *out,
                                  size_t out_len, size_t offset, uint64_t *starts, size_t starts_len);

/* Reads a file back. `head` gets the first 14 bytes and the header; `table` four bytes an entry, as filed: blue, green,
 * red, 0; `cells` the cells row by row from the top: up to depth 8 an index, above it four numbers, red, green, blue
 * and alpha, as stored. Alpha is 0 but for compression 6, and a channel whose mask is 0 is 0. Values past those filled
 * stay, and nothing after the last cell of a stream is read. A refusal is the first that applies of 17, 18, 15 and 19,
 * in this order, and then no buffer has changed. */
bmp_reading bmp_read(const uint8_t *file, size_t file_len, uint8_t *head, size_t head_len, uint8_t *table,
                     size_t table_len, uint32_t *cells, size_t cells_len);

/* How much `bmp_read` fills from the same file. A refusal is 17 or 18; the stream is not looked at. */
bmp_reading_sizes bmp_read_sizes(const uint8_t *file, size_t file_len);

/* Reads the one row whose first byte stands at `start`; of the pixels no byte of another row is looked at. `cells` gets
 * the row's cells from the left, as `bmp_read` gives them: up to depth 8 as many numbers as the width, above it four
 * times as many. Answers 0, or the first that applies of 17, 18, 15 and 19, as `bmp_read` does but for this row alone:
 * 18 where a byte of header, masks, table or of the whole stored row, padding included, lies outside the file; 19 where
 * the codes from `start` on do not fill the row. Any start inside the file is read as it stands. With a refusal no
 * number has changed, and numbers past those filled never do. */
uint32_t bmp_read_row(const uint8_t *file, size_t file_len, uint64_t start, uint32_t *cells, size_t cells_len);

/* The index of a cell whose ends have different shades. */
#define BMP_HATCH 255

/* Paints a plane of BMP_PAL8 from prices, an index a cell, for a writing call. A price's shade is the count of edges at
 * or below it. Cell k has the ends lows[k] and highs[k]: it gets their shade if both have the same, else BMP_HATCH. -0
 * and 0 are one price; the infinities are prices, also as edges. Answers 0, or the first that applies of 15, 22 and 23,
 * in this order, and then no byte has changed. Bytes of the plane past the count of lows never change, and highs past
 * it are not looked at. */
uint32_t bmp_shade_quotes(const double *edges, size_t edges_len, const double *lows, size_t lows_len,
                          const double *highs, size_t highs_len, uint8_t *plane, size_t plane_len);

/* 0, or 6 to 10. */
uint32_t bmp_check_masks(uint16_t bpp, uint32_t red, uint32_t green, uint32_t blue, uint32_t alpha);

/* A refusal's number in words. */
static inline const char *bmp_refusal_text(uint32_t number) {
    switch (number) {
    case BMP_OK: return "not refused";
    case BMP_ZERO_DIMENSION: return "width or height is 0";
    case BMP_DIMENSION_TOO_LARGE: return "width or height is over 2147483647";
    case BMP_PALETTE_MISSING: return "an indexed format needs a palette";
    case BMP_PALETTE_NOT_QUADS: return "the palette's bytes are not a multiple of 4";
    case BMP_SEVERAL_MODES: return "more than one of masks, calibrated colour and a profile";
    case BMP_MASK_DEPTH: return "the masks' depth is neither 16 nor 32";
    case BMP_MASK_ABOVE_DEPTH: return "a mask has a bit above the depth";
    case BMP_MASK_NOT_ONE_RUN: return "a mask's ones are not one run";
    case BMP_MASK_OVERLAP: return "a mask shares a bit with an earlier one";
    case BMP_NO_COLOUR_MASK: return "the masks of red, green and blue are all 0";
    case BMP_MASK_SOURCE: return "masks are for Rgba, Rgb24, Bgra and Bgr24 alone";
    case BMP_PLANE_TOO_SHORT: return "the plane is shorter than stride times height";
    case BMP_STRIDE_TOO_SHORT: return "the stride is below width times the bytes of a pixel";
    case BMP_FILE_TOO_LARGE: return "the file would have more bytes than the limit";
    case BMP_BUFFER_TOO_SHORT: return "a lent buffer or list is too short";
    case BMP_STREAM_OVER_BUDGET: return "neither the stream nor the plain file is within the limit";
    case BMP_NEVER_WRITTEN: return "the head is one that the writer never writes";
    case BMP_OUTSIDE_FILE: return "a byte of header, masks, table, rows or profile lies outside the file";
    case BMP_STREAM_FAULT: return "the stream steps over a row's end, ends too early or uses a delta code";
    case BMP_LIMIT_TOO_LARGE: return "the limit is over 4294967295";
    case BMP_NEGATIVE_RESOLUTION: return "a resolution is negative";
    case BMP_NOT_A_SCALE: return "the edges are not 1 to 254 numbers, each above the one before";
    case BMP_NOT_A_QUOTE: return "a cell's low or high is not a number, or the low is above the high";
    case BMP_STARTS_TOO_SHORT: return "the list of row starts is shorter than the height";
    case BMP_UNKNOWN_FORMAT: return "the format's number is none of those listed";
    default: return "unknown refusal number";
    }
}

#ifdef __cplusplus
}
#endif

#endif
