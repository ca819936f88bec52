/* Tests of the C interface: run by clients/test.sh. M12's file, which mask is which, the texts, the uses of the
 * defaults, files read back, the settings of a screen, grids painted from prices, row starts and rows read from there.
 * The header's layout is checked by compiling it. */
#include "bmp_writer.h"
#undef NDEBUG /* the assertions are the test */
#include <assert.h>
#include <math.h>
#include <string.h>

static const uint8_t m12[62] = {
    0x42, 0x4D, 0x3E, 0, 0, 0, 0, 0, 0, 0, 0x3A, 0, 0, 0, 0x28, 0, 0, 0, 5, 0, 0, 0, 1, 0, 0, 0, 1, 0, 8, 0, 1, 0, 0, 0, 4, 0, 0, 0, 0x13,
    0x0B, 0, 0, 0x13, 0x0B, 0, 0, 1, 0, 0, 0, 0, 0, 0, 0, 0, 0, 0, 0, 5, 7, 0, 1
};

/* The specification's file, its bound and what is answered with it; a buffer one byte short is left as it was. */
static void file(void) {
    bmp_source source = { BMP_PAL8, 5, 1, true, false, false, 5 };
    bmp_options options = BMP_OPTIONS_DEFAULT;
    options.minimal_palette = true;
    const uint8_t plane[5] = { 7, 7, 7, 7, 7 };
    bmp_answer bound = bmp_encoded_size_bound(source, options, plane, sizeof plane, NULL, 0, NULL, 0, NULL, 0);
    assert(bound.bytes == 78 && bound.refusal == BMP_OK && bound.format == 0);
    uint8_t out[100], was[100];
    memset(was, 0xAA, sizeof was);
    memcpy(out, was, sizeof out);
    bmp_answer answer = bmp_encode_into(source, options, plane, sizeof plane, NULL, 0, NULL, 0, NULL, 0, out, 99, 22);
    assert(answer.bytes == 0 && answer.refusal == BMP_BUFFER_TOO_SHORT && answer.format == 0);
    assert(memcmp(out, was, sizeof out) == 0);
    answer = bmp_encode_into(source, options, plane, sizeof plane, NULL, 0, NULL, 0, NULL, 0, out, 100, 22);
    assert(answer.bytes == 62 && answer.refusal == BMP_OK && answer.format == BMP_WRITTEN_RLE8);
    memcpy(was + 22, m12, sizeof m12);
    assert(memcmp(out, was, sizeof out) == 0);
}

/* A broken mask is 8 and one above the depth 7, whichever comes first. */
static void masks(void) {
    const uint32_t broken = 0xA00, above = 0x50000;
    assert(bmp_check_masks(16, 0xF800, 0x7E0, 0x1F, 0) == BMP_OK);
    assert(bmp_check_masks(16, broken, above, 0, 0) == BMP_MASK_NOT_ONE_RUN);
    assert(bmp_check_masks(16, above, broken, 0, 0) == BMP_MASK_ABOVE_DEPTH);
    assert(bmp_check_masks(16, 0, broken, above, 0) == BMP_MASK_NOT_ONE_RUN);
    assert(bmp_check_masks(16, 0, above, broken, 0) == BMP_MASK_ABOVE_DEPTH);
    assert(bmp_check_masks(16, 0, 0, broken, above) == BMP_MASK_NOT_ONE_RUN);
    assert(bmp_check_masks(16, 0, 0, above, broken) == BMP_MASK_ABOVE_DEPTH);
    assert(bmp_check_masks(16, 0, 0, 0, 0xFF00) == BMP_NO_COLOUR_MASK);
}

/* Every number that is answered has a text of its own, and all others have one. */
static void texts(void) {
    const char *unknown = "unknown refusal number";
    for (uint32_t number = 0; number < 300; number++) {
        bool listed = number <= 24 || number == 255;
        assert((strcmp(bmp_refusal_text(number), unknown) != 0) == listed);
        for (uint32_t other = 0; other < number && listed; other++)
            assert(strcmp(bmp_refusal_text(number), bmp_refusal_text(other)) != 0);
    }
    assert(strcmp(bmp_refusal_text(UINT32_MAX), unknown) == 0);
    assert(strcmp(bmp_refusal_text(BMP_OK), "not refused") == 0);
    assert(strcmp(bmp_refusal_text(BMP_BUFFER_TOO_SHORT), "a lent buffer or list is too short") == 0);
    assert(strcmp(bmp_refusal_text(BMP_LIMIT_TOO_LARGE), "the limit is over 4294967295") == 0);
    assert(strcmp(bmp_refusal_text(BMP_NEGATIVE_RESOLUTION), "a resolution is negative") == 0);
    assert(strcmp(bmp_refusal_text(BMP_STARTS_TOO_SHORT), "the list of row starts is shorter than the height") == 0);
    assert(strcmp(bmp_refusal_text(BMP_UNKNOWN_FORMAT), "the format's number is none of those listed") == 0);
}

/* A number that is no format is 255 before all others. */
static void format(void) {
    bmp_source source = { 10, 0, 0, false, false, false, 0 };
    bmp_answer answer = bmp_encoded_size_bound(source, BMP_OPTIONS_DEFAULT, NULL, 0, NULL, 0, NULL, 0, NULL, 0);
    assert(answer.bytes == 0 && answer.refusal == BMP_UNKNOWN_FORMAT && answer.format == 0);
}

static const bmp_options at_start = BMP_OPTIONS_STATIC;
static const bmp_settings of_a_screen = BMP_SETTINGS_STATIC;

/* The struct has no bytes between its fields, so that bytes can be compared. */
static bool is_default(const bmp_options *options) {
    return memcmp(options, &at_start, sizeof at_start) == 0;
}

/* The defaults initialise, are assigned and stand in an array, and have the values in the header's brackets. */
static void defaults(void) {
    bmp_options options = BMP_OPTIONS_DEFAULT;
    assert(is_default(&options));
    memset(&options, 1, sizeof options);
    options = BMP_OPTIONS_DEFAULT;
    assert(is_default(&options));
    bmp_options several[2] = { BMP_OPTIONS_DEFAULT, BMP_OPTIONS_DEFAULT };
    assert(is_default(&several[0]) && is_default(&several[1]));
    bmp_options cleared;
    memset(&cleared, 0, sizeof cleared);
    cleared.rle = true;
    cleared.embed_icc = true;
    cleared.rendering_intent = 4;
    assert(is_default(&cleared));
    bmp_settings settings = { 0, -1, -1 };
    settings = BMP_SETTINGS_DEFAULT;
    assert(memcmp(&settings, &of_a_screen, sizeof settings) == 0);
    assert(settings.limit == 4294967295 && settings.x_pels_per_meter == 2835 && settings.y_pels_per_meter == 2835);
}

/* Three lent buffers, each between two values that are not lent. */
typedef struct {
    uint8_t head[1 + 138 + 1], table[1 + 1024 + 1];
    uint32_t cells[1 + 16 + 1];
} lent;

static lent now, was;

static bmp_reading read_back(const uint8_t *bytes, size_t len, size_t head_len, size_t table_len, size_t cells_len) {
    memset(&now, 0xAA, sizeof now);
    memset(&was, 0xAA, sizeof was);
    return bmp_read(bytes, len, now.head + 1, head_len, now.table + 1, table_len, now.cells + 1, cells_len);
}

/* The number is answered alone, and no value in the buffers or beside them has changed. */
static void refused(uint32_t number, const uint8_t *bytes, size_t len, size_t head_len, size_t table_len,
                    size_t cells_len) {
    bmp_reading answer = read_back(bytes, len, head_len, table_len, cells_len);
    assert(answer.refusal == number && answer.profile_at == 0 && answer.profile_bytes == 0);
    assert(answer.width == 0 && answer.height == 0 && answer.depth == 0);
    assert(memcmp(&now, &was, sizeof now) == 0);
}

/* The file is read into buffers of the sizes answered, and into longer ones: what is filled is right, all else stays. A
 * buffer that lacks one value is refused. */
static bmp_reading accepted(const uint8_t *bytes, size_t len, const uint32_t *cells) {
    bmp_reading_sizes sizes = bmp_read_sizes(bytes, len);
    const size_t head_len = sizes.head_bytes, table_len = sizes.table_bytes, cells_len = sizes.cell_numbers;
    bmp_reading answer = { 0, 0, BMP_OK, 0, 0, 0 };
    for (int longer = 0; longer < 2; longer++) {
        answer = longer ? read_back(bytes, len, 138, 1024, 16) : read_back(bytes, len, head_len, table_len, cells_len);
        assert(sizes.refusal == BMP_OK && answer.refusal == BMP_OK);
        assert(sizes.width == answer.width && sizes.height == answer.height && sizes.depth == answer.depth);
        memcpy(was.head + 1, bytes, head_len);
        memcpy(was.table + 1, bytes + head_len, table_len);
        memcpy(was.cells + 1, cells, cells_len * sizeof *cells);
        assert(memcmp(&now, &was, sizeof now) == 0);
    }
    refused(BMP_BUFFER_TOO_SHORT, bytes, len, head_len - 1, table_len, cells_len);
    if (table_len > 0) refused(BMP_BUFFER_TOO_SHORT, bytes, len, head_len, table_len - 1, cells_len);
    refused(BMP_BUFFER_TOO_SHORT, bytes, len, head_len, table_len, cells_len - 1);
    return answer;
}

/* Streams; plain rows from the top with a profile behind them, or an empty one; masks, of which that of blue is 0. */
static void reading(void) {
    assert(sizeof(bmp_reading) == 32 && sizeof(bmp_reading_sizes) == 40);
    const uint32_t sevens[5] = { 7, 7, 7, 7, 7 };
    bmp_reading answer = accepted(m12, sizeof m12, sevens);
    assert(answer.width == 5 && answer.height == 1 && answer.depth == 8);
    assert(answer.profile_at == 0 && answer.profile_bytes == 0);
    bmp_reading_sizes sizes = bmp_read_sizes(m12, sizeof m12);
    assert(sizes.head_bytes == 54 && sizes.table_bytes == 4 && sizes.cell_numbers == 5);

    /* As RLE4; the head's last field and the table's entry come back as they are filed. */
    const uint32_t in_turn[5] = { 1, 14, 1, 14, 1 };
    uint8_t bytes[sizeof m12];
    memcpy(bytes, m12, sizeof m12);
    memset(bytes + 50, 0x5A, 8);
    bytes[28] = 4;
    bytes[30] = 2;
    bytes[59] = 0x1E;
    assert(accepted(bytes, sizeof bytes, in_turn).depth == 4);

    const uint8_t plane[12] = { 1, 2, 3, 4, 5, 6, 7, 8, 9, 250, 251, 252 }, icc[3] = { 'i', 'c', 'c' };
    const uint32_t colours[16] = { 1, 2, 3, 0, 4, 5, 6, 0, 7, 8, 9, 0, 250, 251, 252, 0 };
    bmp_source source = { BMP_RGB24, 2, 2, false, true, false, 6 };
    bmp_options options = BMP_OPTIONS_DEFAULT;
    options.top_down = true;
    uint8_t out[160];
    bmp_answer written =
        bmp_encode_into(source, options, plane, sizeof plane, NULL, 0, icc, sizeof icc, NULL, 0, out, sizeof out, 0);
    assert(written.refusal == BMP_OK && written.bytes == 157);
    answer = accepted(out, 157, colours);
    assert(answer.width == 2 && answer.height == 2 && answer.depth == 24);
    assert(answer.profile_at == 154 && answer.profile_bytes == 3 && memcmp(out + 154, icc, 3) == 0);
    answer = bmp_read(out, 157, now.head, 138, NULL, 0, now.cells, 16);
    assert(answer.refusal == BMP_OK && answer.profile_bytes == 3);
    for (size_t len = 0; len < 157; len++) refused(BMP_OUTSIDE_FILE, out, len, 138, 1024, 16);
    written = bmp_encode_into(source, options, plane, sizeof plane, NULL, 0, NULL, 0, NULL, 0, out, sizeof out, 0);
    assert(written.refusal == BMP_OK && written.bytes == 154);
    answer = accepted(out, 154, colours);
    assert(answer.profile_at == 0 && answer.profile_bytes == 0);
    refused(BMP_OUTSIDE_FILE, out, 153, 138, 1024, 16);

    const uint8_t pixel[4] = { 0x12, 0x34, 0x56, 0x78 };
    const uint32_t halves[4] = { 1, 3, 0, 7 };
    bmp_source one = { BMP_RGBA, 1, 1, false, false, false, 4 };
    bmp_options masked = BMP_OPTIONS_DEFAULT;
    masked.has_bitfields = true;
    masked.bitfields_bpp = 16;
    masked.bitfields_masks[0] = 0xF000;
    masked.bitfields_masks[1] = 0xF00;
    masked.bitfields_masks[3] = 0xF;
    written = bmp_encode_into(one, masked, pixel, sizeof pixel, NULL, 0, NULL, 0, NULL, 0, out, sizeof out, 0);
    assert(written.refusal == BMP_OK && written.format == BMP_WRITTEN_ALPHA_BITFIELDS);
    answer = accepted(out, written.bytes, halves);
    assert(answer.width == 1 && answer.height == 1 && answer.depth == 16 && answer.profile_bytes == 0);
}

/* The numbers of reading and their order. Nothing after the last cell is read, so that M12's file may end there. */
static void reading_refused(void) {
    const uint8_t faults[5][6] = {
        { 6, 7, 0, 1 }, { 4, 7, 0, 1 }, { 0, 0, 5, 7 }, { 0, 2, 0, 0, 5, 7 }, { 0, 2, 7, 7, 3, 7 }
    };
    uint8_t bytes[sizeof m12 + 2];
    memcpy(bytes, m12, sizeof m12);
    for (int k = 0; k < 5; k++) {
        memcpy(bytes + 58, faults[k], 6);
        assert(bmp_read_sizes(bytes, sizeof bytes).refusal == BMP_OK);
        refused(BMP_STREAM_FAULT, bytes, sizeof bytes, 54, 4, 5);
        refused(BMP_BUFFER_TOO_SHORT, bytes, sizeof bytes, 54, 4, 4);
    }
    for (size_t len = 0; len <= sizeof m12; len++) {
        uint32_t number = len < 58 ? BMP_OUTSIDE_FILE : len < 60 ? BMP_STREAM_FAULT : BMP_OK;
        if (number != BMP_OK) refused(number, m12, len, 138, 1024, 16);
        if (number == BMP_OUTSIDE_FILE) refused(number, m12, len, 0, 0, 0);
        assert(read_back(m12, len, 54, 4, 5).refusal == number);
        assert(bmp_read_sizes(m12, len).refusal == (len < 58 ? BMP_OUTSIDE_FILE : BMP_OK));
    }
    bytes[1] = 'N';
    refused(BMP_NEVER_WRITTEN, bytes, sizeof bytes, 138, 1024, 16);
    refused(BMP_NEVER_WRITTEN, bytes, 2, 0, 0, 0);
    bmp_reading_sizes sizes = bmp_read_sizes(bytes, sizeof bytes);
    assert(sizes.refusal == BMP_NEVER_WRITTEN && sizes.head_bytes == 0 && sizes.table_bytes == 0);
    assert(sizes.cell_numbers == 0 && sizes.width == 0 && sizes.height == 0 && sizes.depth == 0);

    assert(bmp_read(NULL, 0, NULL, 0, NULL, 0, NULL, 0).refusal == BMP_OUTSIDE_FILE);
    assert(bmp_read_sizes(NULL, 0).refusal == BMP_OUTSIDE_FILE);
    assert(bmp_read(m12, sizeof m12, NULL, 0, NULL, 0, NULL, 0).refusal == BMP_BUFFER_TOO_SHORT);
}

/* A stream's head of the largest width and height: the product does not wrap, and no buffer is long enough. */
static void huge(void) {
    const uint8_t most[8] = { 0xFF, 0xFF, 0xFF, 0x7F, 0xFF, 0xFF, 0xFF, 0x7F };
    uint8_t bytes[sizeof m12];
    memcpy(bytes, m12, sizeof m12);
    memcpy(bytes + 18, most, sizeof most);
    bmp_reading_sizes sizes = bmp_read_sizes(bytes, sizeof bytes);
    assert(sizes.refusal == BMP_OK && sizes.cell_numbers == (uint64_t)INT32_MAX * INT32_MAX);
    assert(sizes.width == INT32_MAX && sizes.height == INT32_MAX && sizes.depth == 8);
    refused(BMP_BUFFER_TOO_SHORT, bytes, sizeof bytes, 138, 1024, 16);
}

/* A wall panel's surface, and what a call may fill. */
enum { SIDE = 512, CELLS = SIDE * SIDE, HEAD = 1078, ROOM = HEAD + CELLS + 2 * SIDE + 2 };
static uint8_t panel[CELLS], out[ROOM], kept[ROOM], with_defaults[ROOM];
static uint32_t shown[CELLS];

/* Both calls on the panel's bytes. A refusal is answered alone and changes no byte; only 16 is not the size query's. No
 * file is over the limit or the bound, and no byte behind it changes. */
static bmp_answer encoded(bmp_source source, bmp_options options, bmp_settings settings, size_t palette_len) {
    const uint8_t palette[4] = { 1, 2, 3, 4 };
    memset(out, 0xAA, sizeof out);
    memset(kept, 0xAA, sizeof kept);
    bmp_answer bound = bmp_encoded_size_bound_with(source, options, settings, panel, sizeof panel, palette, palette_len,
                                                   NULL, 0, NULL, 0);
    bmp_answer answer = bmp_encode_into_with(source, options, settings, panel, sizeof panel, palette, palette_len, NULL,
                                             0, NULL, 0, out, sizeof out, 0);
    bool planned = answer.refusal == BMP_OK || answer.refusal == BMP_STREAM_OVER_BUDGET;
    assert(bound.refusal == (planned ? BMP_OK : answer.refusal) && (bound.bytes != 0) == planned && bound.format == 0);
    assert(answer.bytes <= bound.bytes && answer.bytes <= settings.limit);
    assert((answer.bytes != 0) == (answer.refusal == BMP_OK) && (answer.refusal == BMP_OK || answer.format == 0));
    assert(memcmp(out + answer.bytes, kept, sizeof out - answer.bytes) == 0);
    return answer;
}

static uint32_t number_of(bmp_source source, uint64_t limit, int32_t x, int32_t y) {
    const bmp_settings settings = { limit, x, y };
    return encoded(source, BMP_OPTIONS_DEFAULT, settings, 4).refusal;
}

/* Cells in runs of eight, or none equal to the next. */
static void paint(bool runs) {
    for (int y = 0; y < SIDE; y++)
        for (int x = 0; x < SIDE; x++) panel[y * SIDE + x] = (uint8_t)(runs ? x / 8 + y / 8 : 7 * x + y);
}

/* The file in `out` shows the panel's cells. */
static void shows_panel(bmp_answer answer) {
    uint8_t head[54], table[1024];
    memset(shown, 0xAA, sizeof shown);
    assert(bmp_read(out, answer.bytes, head, 54, table, 1024, shown, CELLS).refusal == BMP_OK);
    for (int k = 0; k < CELLS; k++) assert(shown[k] == panel[k]);
}

/* The panel takes no file over 262,144 bytes, and the plain one has 1,078 more. The stream is used as long as it fits, to
 * the byte; one that does not fit is 16, and without RLE the answer is 14. */
static void limits(void) {
    const bmp_source source = { BMP_PAL8, SIDE, SIDE, true, false, false, SIDE };
    bmp_options plain = BMP_OPTIONS_DEFAULT;
    plain.rle = false;
    bmp_settings settings = { CELLS, 2835, 2835 };
    paint(true);
    bmp_answer answer = encoded(source, BMP_OPTIONS_DEFAULT, settings, 4);
    assert(answer.refusal == BMP_OK && answer.format == BMP_WRITTEN_RLE8 && answer.bytes <= 262144);
    shows_panel(answer);
    const uint64_t bytes = answer.bytes;
    const uint64_t refused[] = { 0, 1, HEAD - 1, HEAD, HEAD + 1, bytes - 1 };
    for (int k = 0; k < 6; k++) assert(number_of(source, refused[k], 2835, 2835) == BMP_STREAM_OVER_BUDGET);
    const uint64_t accepted[] = { bytes, bytes + 1, HEAD + CELLS - 1, HEAD + CELLS, 4294967295 };
    for (int k = 0; k < 5; k++) {
        settings.limit = accepted[k];
        answer = encoded(source, BMP_OPTIONS_DEFAULT, settings, 4);
        assert(answer.bytes == bytes && answer.format == BMP_WRITTEN_RLE8);
    }
    const uint64_t short_of_plain[] = { 0, HEAD - 1, HEAD, CELLS, HEAD + CELLS - 1 };
    for (int k = 0; k < 5; k++) {
        settings.limit = short_of_plain[k];
        assert(encoded(source, plain, settings, 4).refusal == BMP_FILE_TOO_LARGE);
    }
    settings.limit = HEAD + CELLS;
    answer = encoded(source, plain, settings, 4);
    assert(answer.bytes == HEAD + CELLS && answer.format == BMP_WRITTEN_INDEXED8);
    shows_panel(answer);

    paint(false);
    assert(number_of(source, CELLS, 2835, 2835) == BMP_STREAM_OVER_BUDGET);
    assert(number_of(source, HEAD + CELLS - 1, 2835, 2835) == BMP_STREAM_OVER_BUDGET);
    answer = encoded(source, BMP_OPTIONS_DEFAULT, settings, 4);
    assert(answer.bytes == HEAD + CELLS && answer.format == BMP_WRITTEN_INDEXED8);
    shows_panel(answer);
}

/* 255, 1 and 2 stand before the settings' own numbers, and 3 and 4 behind them. */
static void settings_refused(void) {
    const bmp_source good = { BMP_PAL8, SIDE, SIDE, true, false, false, SIDE };
    const uint64_t most = 4294967295, over[3] = { 4294967296, 4294967297, UINT64_MAX };
    assert(number_of(good, most, INT32_MAX, 0) == BMP_OK && number_of(good, most, 0, INT32_MAX) == BMP_OK);
    for (int k = 0; k < 3; k++) {
        assert(number_of(good, over[k], 2835, 2835) == BMP_LIMIT_TOO_LARGE);
        assert(number_of(good, over[k], -1, INT32_MIN) == BMP_LIMIT_TOO_LARGE);
    }
    assert(number_of(good, most, -1, 2835) == BMP_NEGATIVE_RESOLUTION);
    assert(number_of(good, most, 2835, -1) == BMP_NEGATIVE_RESOLUTION);
    assert(number_of(good, 0, INT32_MIN, INT32_MIN) == BMP_NEGATIVE_RESOLUTION);
    bmp_source source = good;
    source.has_palette = false;
    source.stride = UINT64_MAX;
    assert(number_of(source, over[0], -1, 0) == BMP_LIMIT_TOO_LARGE);
    assert(number_of(source, 0, -1, 0) == BMP_NEGATIVE_RESOLUTION);
    assert(number_of(source, 0, 0, 0) == BMP_PALETTE_MISSING);
    const bmp_settings settings = { most, 0, -1 };
    assert(encoded(good, BMP_OPTIONS_DEFAULT, settings, 3).refusal == BMP_NEGATIVE_RESOLUTION);
    assert(encoded(good, BMP_OPTIONS_DEFAULT, of_a_screen, 3).refusal == BMP_PALETTE_NOT_QUADS);
    source.height = 0x80000000;
    assert(number_of(source, over[0], -1, -1) == BMP_DIMENSION_TOO_LARGE);
    source.width = 0;
    assert(number_of(source, over[0], -1, -1) == BMP_ZERO_DIMENSION);
    source.format = 10;
    assert(number_of(source, over[0], -1, -1) == BMP_UNKNOWN_FORMAT);
}

/* Across at byte 38 and down at byte 42, low byte first; every other byte is that of the call without settings. */
static void resolutions(void) {
    const bmp_source source = { BMP_PAL8, SIDE, SIDE, true, false, false, SIDE };
    const bmp_settings settings = { CELLS, 0x01020304, 0x7F060708 };
    const uint8_t palette[4] = { 1, 2, 3, 4 }, fields[8] = { 4, 3, 2, 1, 8, 7, 6, 0x7F };
    paint(true);
    memset(with_defaults, 0xAA, sizeof with_defaults);
    bmp_answer before = bmp_encode_into(source, BMP_OPTIONS_DEFAULT, panel, sizeof panel, palette, 4, NULL, 0, NULL, 0,
                                        with_defaults, sizeof with_defaults, 0);
    bmp_answer answer = encoded(source, BMP_OPTIONS_DEFAULT, BMP_SETTINGS_DEFAULT, 4);
    assert(memcmp(&answer, &before, sizeof answer) == 0 && memcmp(out, with_defaults, sizeof out) == 0);
    bmp_answer bound =
        bmp_encoded_size_bound(source, BMP_OPTIONS_DEFAULT, panel, sizeof panel, palette, 4, NULL, 0, NULL, 0);
    before = bmp_encoded_size_bound_with(source, BMP_OPTIONS_DEFAULT, BMP_SETTINGS_DEFAULT, panel, sizeof panel, palette,
                                         4, NULL, 0, NULL, 0);
    assert(memcmp(&bound, &before, sizeof bound) == 0 && bound.bytes == HEAD + CELLS + 2 * SIDE + 2);
    answer = encoded(source, BMP_OPTIONS_DEFAULT, settings, 4);
    assert(answer.refusal == BMP_OK && memcmp(out + 38, fields, 8) == 0);
    shows_panel(answer);
    memcpy(out + 38, with_defaults + 38, 8);
    assert(memcmp(out, with_defaults, sizeof out) == 0);
}

/* Prices of the tests: the least above 0, and the greatest that is not infinite. */
#define LEAST 4.9406564584124654e-324
#define GREATEST 1.7976931348623157e308
#define COUNT(list) (sizeof(list) / sizeof *(list))

/* A plane between two bytes that are not lent. */
static uint8_t painted[1 + 300 + 1];

/* The call. No byte but those of the cells has changed, and with a number not those either. */
static uint32_t shaded(const double *edges, size_t edges_len, const double *lows, size_t lows_len, const double *highs,
                       size_t highs_len, size_t plane_len) {
    memset(painted, 0xAA, sizeof painted);
    uint32_t number =
        bmp_shade_quotes(edges, edges_len, lows, lows_len, highs, highs_len, plane_len ? painted + 1 : NULL, plane_len);
    size_t filled = number == BMP_OK ? lows_len : 0;
    for (size_t k = 0; k < sizeof painted; k++) assert((1 <= k && k <= filled) || painted[k] == 0xAA);
    return number;
}

/* The index of one cell. */
static uint8_t index_of(const double *edges, size_t edges_len, double low, double high) {
    assert(shaded(edges, edges_len, &low, 1, &high, 1, 1) == BMP_OK);
    return painted[1];
}

/* Shades about every kind of edge, and the hatch wherever the ends have different ones. */
static void quotes(void) {
    const double edges[] = { -1, 0, 2.5 };
    const struct {
        double low, high;
        uint8_t index;
    } cells[] = {
        { -INFINITY, -INFINITY, 0 }, { -INFINITY, -GREATEST, 0 }, { -1.5, -1.25, 0 },
        { -1, -1, 1 },               { -1, -LEAST, 1 },           { 0, 0, 2 },
        { -0.0, -0.0, 2 },           { -0.0, 0.0, 2 },            { 0.0, -0.0, 2 },
        { LEAST, 2.25, 2 },          { 2.5, 2.5, 3 },             { 2.5, INFINITY, 3 },
        { GREATEST, INFINITY, 3 },   { INFINITY, INFINITY, 3 },   { -1.5, -1, BMP_HATCH },
        { -1, 0, BMP_HATCH },        { -LEAST, -0.0, BMP_HATCH }, { 2.25, 2.5, BMP_HATCH },
        { -1.5, 2.25, BMP_HATCH },   { 0, INFINITY, BMP_HATCH },  { -INFINITY, INFINITY, BMP_HATCH }
    };
    double lows[COUNT(cells) + 2], highs[COUNT(cells) + 2];
    for (size_t k = 0; k < COUNT(cells) + 2; k++) {
        lows[k] = k < COUNT(cells) ? cells[k].low : NAN;
        highs[k] = k < COUNT(cells) ? cells[k].high : NAN;
    }
    /* Lists and plane as long as the lows, then longer. */
    for (size_t more = 0; more < 3; more++) {
        assert(shaded(edges, 3, lows, COUNT(cells), highs, COUNT(cells) + more, COUNT(cells) + more) == BMP_OK);
        for (size_t k = 0; k < COUNT(cells); k++) assert(painted[1 + k] == cells[k].index);
    }

    const double least[] = { LEAST }, zero[] = { -0.0 }, infinite[] = { -INFINITY, INFINITY };
    assert(index_of(least, 1, -0.0, 0) == 0 && index_of(least, 1, LEAST, LEAST) == 1);
    assert(index_of(zero, 1, 0, 0) == 1 && index_of(zero, 1, -LEAST, -LEAST) == 0);
    assert(index_of(infinite, 2, -INFINITY, GREATEST) == 1 && index_of(infinite, 2, INFINITY, INFINITY) == 2);
    assert(index_of(infinite, 2, GREATEST, INFINITY) == BMP_HATCH);
}

/* The numbers and their order. */
static void quotes_refused(void) {
    double edges[255];
    for (int k = 0; k < 255; k++) edges[k] = k;
    assert(index_of(edges, 254, 252.5, 252.75) == 253 && index_of(edges, 254, 253, INFINITY) == 254);
    assert(index_of(edges, 254, 252.5, 253) == BMP_HATCH && index_of(edges, 1, -1, 0) == BMP_HATCH);

    const double scales[][3] = {
        { NAN, 1, 2 }, { 0, NAN, 2 },  { 0, 1, NAN },  { 0, -NAN, 2 }, { NAN, NAN, NAN }, { 0, 0, 1 },
        { 0, 1, 1 },   { -0.0, 0, 1 }, { 0, -0.0, 1 }, { 1, 0, 2 },    { 0, 2, 1 },       { 0, INFINITY, INFINITY }
    };
    const double lows[] = { 1, 2, 3 }, highs[] = { 1, 2, 3 };
    for (size_t k = 0; k < COUNT(scales); k++) {
        assert(shaded(scales[k], 3, lows, 3, highs, 3, 3) == BMP_NOT_A_SCALE);
        assert(shaded(scales[k], 3, NULL, 0, NULL, 0, 0) == BMP_NOT_A_SCALE);
    }
    assert(shaded(NULL, 0, lows, 3, highs, 3, 3) == BMP_NOT_A_SCALE);
    assert(shaded(NULL, 0, NULL, 0, NULL, 0, 0) == BMP_NOT_A_SCALE);
    assert(shaded(edges, 255, lows, 3, highs, 3, 3) == BMP_NOT_A_SCALE);

    const double ends[][2] = {
        { NAN, 1 }, { 1, NAN }, { NAN, NAN }, { -NAN, 1 }, { 1, 0 }, { LEAST, -0.0 }, { INFINITY, GREATEST }
    };
    for (size_t k = 0; k < COUNT(ends); k++)
        for (size_t at = 0; at < 3; at++) {
            double low[] = { 1, 2, 3 }, high[] = { 1, 2, 3 };
            low[at] = ends[k][0];
            high[at] = ends[k][1];
            assert(shaded(edges, 254, low, 3, high, 3, 3) == BMP_NOT_A_QUOTE);
            assert(shaded(edges, 255, low, 3, high, 3, 3) == BMP_NOT_A_SCALE);
            assert(shaded(edges, 255, low, 3, high, 2, 3) == BMP_BUFFER_TOO_SHORT);
            assert(shaded(edges, 254, low, 3, high, 3, 2) == BMP_BUFFER_TOO_SHORT);
            /* Not a cell: nothing of it is looked at. */
            assert(shaded(edges, 254, low, at, high, 3, 3) == BMP_OK);
        }
    assert(shaded(edges, 254, lows, 3, highs, 2, 3) == BMP_BUFFER_TOO_SHORT);
    assert(shaded(edges, 254, lows, 3, highs, 3, 2) == BMP_BUFFER_TOO_SHORT);
    assert(shaded(edges, 254, lows, 3, NULL, 0, 3) == BMP_BUFFER_TOO_SHORT);
    assert(shaded(edges, 254, lows, 3, highs, 3, 0) == BMP_BUFFER_TOO_SHORT);
    assert(shaded(edges, 254, NULL, 0, NULL, 0, 0) == BMP_OK && shaded(edges, 254, NULL, 0, highs, 3, 3) == BMP_OK);
}

/* A painted plane is written, and its file shows the indices. */
static void quotes_written(void) {
    const double edges[] = { 100, 101, 102 };
    const double lows[] = { 99, 100, 101, 99.5, 102, 102 }, highs[] = { 99.5, 100.5, 101, 100, 102, 250 };
    const uint32_t indices[] = { 0, 1, 2, BMP_HATCH, 3, 3 };
    const bmp_source source = { BMP_PAL8, 3, 2, true, false, false, 3 };
    uint8_t file[2000];
    assert(shaded(edges, 3, lows, 6, highs, 6, 6) == BMP_OK);
    bmp_answer answer = bmp_encode_into(source, BMP_OPTIONS_DEFAULT, painted + 1, 6, NULL, 0, NULL, 0, NULL, 0, file,
                                        sizeof file, 0);
    assert(answer.refusal == BMP_OK);
    assert(read_back(file, answer.bytes, 54, 1024, 6).refusal == BMP_OK);
    assert(memcmp(now.cells + 1, indices, sizeof indices) == 0);
}

/* A picture of the tests of starts: rows of a long run and of cells that differ, no row like another. */
enum { COLUMNS = 9, LINES = 4, ENTRIES = LINES + 3 };
static const uint8_t lines[LINES * COLUMNS] = { 1, 1, 1, 1, 1, 1, 1, 1, 1, 2, 2, 2, 2, 2, 2, 2, 2, 3,
                                                9, 8, 7, 6, 5, 4, 4, 4, 4, 1, 2, 3, 3, 3, 3, 3, 3, 3 };
static uint64_t starts[ENTRIES];

/* The call, at an offset and with a list of so many entries. It answers and writes what the call without starts does,
 * but for 24; entries past the height, and with a refusal all, are as before. */
static bmp_answer started(bmp_source source, bmp_options options, bmp_settings settings, size_t room, size_t entries) {
    const size_t offset = 22;
    memset(out, 0xAA, sizeof out);
    memset(kept, 0xAA, sizeof kept);
    memset(starts, 0xAA, sizeof starts);
    bmp_answer other = bmp_encode_into_with(source, options, settings, lines, sizeof lines, NULL, 0, NULL, 0, NULL, 0, kept,
                                            room, offset);
    bmp_answer answer = bmp_encode_with_starts(source, options, settings, lines, sizeof lines, NULL, 0, NULL, 0, NULL, 0,
                                               out, room, offset, entries ? starts : NULL, entries);
    if (answer.refusal == BMP_STARTS_TOO_SHORT) {
        assert(answer.bytes == 0 && answer.format == 0 && entries < source.height);
        assert(other.refusal == BMP_OK || other.refusal == BMP_STREAM_OVER_BUDGET);
        memset(kept, 0xAA, sizeof kept);
    } else {
        assert(memcmp(&answer, &other, sizeof answer) == 0);
    }
    assert(memcmp(out, kept, sizeof out) == 0);
    for (size_t k = answer.refusal == BMP_OK ? source.height : 0; k < ENTRIES; k++)
        assert(starts[k] == 0xAAAAAAAAAAAAAAAA);
    return answer;
}

/* The file of the last call, and the row of its whole reading that is stored as row k. */
static const uint32_t *whole_row(const uint8_t *bytes, size_t len, bool top_down, int k) {
    uint8_t head[54], table[1024];
    assert(bmp_read(bytes, len, head, 54, table, 1024, shown, CELLS).refusal == BMP_OK);
    return shown + (top_down ? k : LINES - 1 - k) * COLUMNS;
}

/* One row, between cells that are not lent. */
static uint32_t row[1 + COLUMNS + 2];

static uint32_t row_number(const uint8_t *bytes, size_t len, uint64_t start, size_t numbers) {
    uint32_t before[1 + COLUMNS + 2];
    memset(row, 0xAA, sizeof row);
    memset(before, 0xAA, sizeof before);
    uint32_t number = bmp_read_row(bytes, len, start, row + 1, numbers);
    if (number == BMP_OK) memcpy(before + 1, row + 1, COLUMNS * sizeof *row);
    assert(memcmp(row, before, sizeof row) == 0);
    return number;
}

/* Plain files from the bottom and from the top, and streams of both kinds: starts from the file's first byte, wherever it
 * stands in the buffer, and each row from there as in the whole reading, whatever the other rows' bytes are. */
static void row_starts(void) {
    /* Bottom first, RLE8 has 01 01 01 02 07 03 00 00, 00 05 09 08 07 06 05 00 04 04 00 00, 08 02 01 03 00 00, 09 01 00 01,
     * and in RLE4 the block takes two bytes less. */
    const uint64_t codes[2][LINES] = { { 58, 66, 78, 84 }, { 58, 66, 76, 82 } };
    for (int k = 0; k < 6; k++) {
        bmp_source source = { k < 3 ? BMP_PAL8 : BMP_INDEXED4, COLUMNS, LINES, true, false, false, COLUMNS };
        bmp_options options = BMP_OPTIONS_DEFAULT;
        options.minimal_palette = true;
        options.rle = k % 3 != 0;
        options.top_down = k % 3 == 1;
        bmp_answer answer = started(source, options, BMP_SETTINGS_DEFAULT, 2000, LINES + k % 3);
        const uint8_t *bytes = out + 22;
        bool coded = answer.format == BMP_WRITTEN_RLE8 || answer.format == BMP_WRITTEN_RLE4;
        assert(answer.refusal == BMP_OK && coded == (k % 3 == 2));
        for (int line = 0; line < LINES; line++) {
            assert(starts[line] == (coded ? codes[k / 3][line] : 58 + (k < 3 ? 12 : 8) * (uint64_t)line));
            const uint32_t *expected = whole_row(bytes, answer.bytes, options.top_down, line);
            assert(row_number(bytes, answer.bytes, starts[line], COLUMNS) == BMP_OK);
            assert(memcmp(row + 1, expected, COLUMNS * sizeof *row) == 0);
            assert(row_number(bytes, answer.bytes, starts[line], COLUMNS + 1) == BMP_OK);
            assert(row_number(bytes, answer.bytes, starts[line], COLUMNS - 1) == BMP_BUFFER_TOO_SHORT);
            uint8_t others[2000];
            uint64_t end = line + 1 < LINES ? starts[line + 1] : answer.bytes;
            for (uint64_t at = 0; at < answer.bytes; at++)
                others[at] = (uint8_t)((58 <= at && at < starts[line]) || end <= at ? ~bytes[at] : bytes[at]);
            assert(row_number(others, answer.bytes, starts[line], COLUMNS) == BMP_OK);
            assert(memcmp(row + 1, expected, COLUMNS * sizeof *row) == 0);
            assert(row_number(others, end, starts[line], COLUMNS) == BMP_OK);
        }
    }
}

/* 24 directly after 15 and before 16; all other numbers as without starts. */
static void starts_refused(void) {
    const bmp_source source = { BMP_PAL8, COLUMNS, LINES, true, false, false, COLUMNS };
    const bmp_settings small = { 100, 2835, 2835 }, negative = { 100, -1, 2835 };
    bmp_options plain = BMP_OPTIONS_DEFAULT;
    plain.rle = false;
    for (size_t entries = 0; entries <= ENTRIES; entries++) {
        bool enough = entries >= LINES;
        assert(started(source, plain, BMP_SETTINGS_DEFAULT, 2000, entries).refusal == (enough ? BMP_OK : BMP_STARTS_TOO_SHORT));
        assert(started(source, BMP_OPTIONS_DEFAULT, small, 2000, entries).refusal ==
               (enough ? BMP_STREAM_OVER_BUDGET : BMP_STARTS_TOO_SHORT));
        assert(started(source, BMP_OPTIONS_DEFAULT, small, 200, entries).refusal == BMP_BUFFER_TOO_SHORT);
        assert(started(source, plain, small, 2000, entries).refusal == BMP_FILE_TOO_LARGE);
        assert(started(source, plain, BMP_SETTINGS_DEFAULT, 10, entries).refusal == BMP_BUFFER_TOO_SHORT);
        assert(started(source, plain, negative, 2000, entries).refusal == BMP_NEGATIVE_RESOLUTION);
        bmp_source other = source;
        other.stride = COLUMNS + 1;
        assert(started(other, plain, BMP_SETTINGS_DEFAULT, 2000, entries).refusal == BMP_PLANE_TOO_SHORT);
        other.height = 0x80000000;
        assert(started(other, plain, BMP_SETTINGS_DEFAULT, 2000, entries).refusal == BMP_DIMENSION_TOO_LARGE);
        other.format = 10;
        assert(started(other, plain, BMP_SETTINGS_DEFAULT, 2000, entries).refusal == BMP_UNKNOWN_FORMAT);
    }
}

/* The numbers of one row. A stream's start past the end has no code; a plain row lies whole in the file, or is 18. */
static void rows_refused(void) {
    const uint8_t faults[6][4] = {
        { 6, 7, 0, 1 }, { 4, 7, 0, 1 }, { 0, 0, 5, 7 }, { 0, 2, 5, 7 }, { 0, 1, 5, 7 }, { 0, 5, 7, 7 }
    };
    const uint64_t beside[8] = { 0, 57, 59, 60, 62, 63, 4294967296 + 58, UINT64_MAX };
    uint8_t bytes[sizeof m12];
    uint32_t cells[5];
    assert(bmp_read_row(m12, sizeof m12, 58, cells, 5) == BMP_OK && bmp_read_row(m12, 60, 58, cells, 5) == BMP_OK);
    for (int k = 0; k < 5; k++) assert(cells[k] == 7);
    for (int k = 0; k < 6; k++) {
        memcpy(bytes, m12, sizeof m12);
        memcpy(bytes + 58, faults[k], 4);
        assert(row_number(bytes, sizeof bytes, 58, COLUMNS) == BMP_STREAM_FAULT);
        assert(row_number(bytes, sizeof bytes, 58, 4) == BMP_BUFFER_TOO_SHORT);
    }
    for (int k = 0; k < 8; k++) {
        assert(row_number(m12, sizeof m12, beside[k], COLUMNS) == BMP_STREAM_FAULT);
        assert(row_number(m12, sizeof m12, beside[k], 4) == BMP_BUFFER_TOO_SHORT);
        assert(row_number(m12, 57, beside[k], 4) == BMP_OUTSIDE_FILE);
    }
    memcpy(bytes, m12, sizeof m12);
    bytes[1] = 'N';
    assert(row_number(bytes, sizeof bytes, UINT64_MAX, 0) == BMP_NEVER_WRITTEN);
    assert(bmp_read_row(bytes, 2, 0, NULL, 0) == BMP_NEVER_WRITTEN);
    assert(bmp_read_row(NULL, 0, 0, NULL, 0) == BMP_OUTSIDE_FILE);

    /* Two rows of a cell each and a byte of padding, at 138 and 142, and a profile behind them. */
    const uint8_t plane[6] = { 1, 2, 3, 4, 5, 6 }, icc[3] = { 'i', 'c', 'c' };
    const bmp_source source = { BMP_RGB24, 1, 2, false, true, false, 3 };
    const uint32_t above[4] = { 1, 2, 3, 0 }, below[4] = { 4, 5, 6, 0 };
    uint8_t file[149];
    uint64_t two[2];
    bmp_answer answer = bmp_encode_with_starts(source, BMP_OPTIONS_DEFAULT, BMP_SETTINGS_DEFAULT, plane, 6, NULL, 0, icc, 3,
                                               NULL, 0, file, sizeof file, 0, two, 2);
    assert(answer.bytes == 149 && two[0] == 138 && two[1] == 142);
    assert(bmp_read_row(file, 149, 138, cells, 4) == BMP_OK && memcmp(cells, below, sizeof below) == 0);
    assert(bmp_read_row(file, 146, 142, cells, 5) == BMP_OK && memcmp(cells, above, sizeof above) == 0);
    assert(bmp_read_row(file, 142, 138, cells, 4) == BMP_OK && bmp_read_row(file, 149, 0, cells, 4) == BMP_OK);
    assert(row_number(file, 149, 142, 3) == BMP_BUFFER_TOO_SHORT);
    assert(row_number(file, 145, 142, 3) == BMP_OUTSIDE_FILE && row_number(file, 141, 138, COLUMNS) == BMP_OUTSIDE_FILE);
    const uint64_t outside[5] = { 146, 149, 4294967296 + 142, UINT64_MAX - 3, UINT64_MAX };
    for (int k = 0; k < 5; k++) assert(row_number(file, 149, outside[k], COLUMNS) == BMP_OUTSIDE_FILE);
}

int main(void) {
    file();
    masks();
    texts();
    format();
    defaults();
    reading();
    reading_refused();
    huge();
    limits();
    settings_refused();
    resolutions();
    quotes();
    quotes_refused();
    quotes_written();
    row_starts();
    starts_refused();
    rows_refused();
    return 0;
}
