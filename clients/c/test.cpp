// The header in C++: the uses of the defaults, the texts, and the calls. clients/test.sh compiles and runs it.
#include "bmp_writer.h"
#undef NDEBUG // the assertions are the test
#include <cassert>
#include <cstring>
#include <limits>

static const bmp_options at_start = BMP_OPTIONS_STATIC;
static const bmp_options several[2] = { BMP_OPTIONS_DEFAULT, BMP_OPTIONS_DEFAULT };

#if __cplusplus >= 201103L
constexpr bmp_options constant = BMP_OPTIONS_DEFAULT;
static_assert(constant.rle && constant.rendering_intent == 4, "the defaults are a constant");
constexpr bmp_settings screen = BMP_SETTINGS_DEFAULT;
static_assert(screen.limit == 4294967295u && screen.x_pels_per_meter == 2835, "and so are the settings");
#endif

// The struct has no bytes between its fields, so that bytes can be compared.
static bool is_default(const bmp_options &options) {
    return std::memcmp(&options, &at_start, sizeof at_start) == 0;
}

// A file is written and read back. Beside what is filled, and on every refusal, all values stay.
static void reading() {
    assert(sizeof(bmp_reading) == 32 && sizeof(bmp_reading_sizes) == 40);
    const bmp_source source = { BMP_PAL8, 5, 1, true, false, false, 5 };
    bmp_options options = BMP_OPTIONS_DEFAULT;
    options.minimal_palette = true;
    const uint8_t plane[5] = { 7, 7, 7, 7, 7 };
    uint8_t file[78];
    const bmp_answer written = bmp_encode_into(source, options, plane, 5, NULL, 0, NULL, 0, NULL, 0, file, 78, 0);
    assert(written.bytes == 62 && written.format == BMP_WRITTEN_RLE8);
    const bmp_reading_sizes sizes = bmp_read_sizes(file, 62);
    assert(sizes.refusal == BMP_OK && sizes.head_bytes == 54 && sizes.table_bytes == 4 && sizes.cell_numbers == 5);

    uint8_t head[56], table[6], was[56];
    uint32_t cells[7] = { 9, 9, 9, 9, 9, 9, 9 };
    std::memset(head, 0xAA, sizeof head);
    std::memset(table, 0xAA, sizeof table);
    std::memset(was, 0xAA, sizeof was);
    assert(bmp_read(file, 62, head + 1, 54, table + 1, 4, cells + 1, 4).refusal == BMP_BUFFER_TOO_SHORT);
    assert(bmp_read(file, 57, head + 1, 54, table + 1, 4, cells + 1, 5).refusal == BMP_OUTSIDE_FILE);
    file[58] = 4;
    assert(bmp_read(file, 62, head + 1, 54, table + 1, 4, cells + 1, 5).refusal == BMP_STREAM_FAULT);
    file[58] = 5;
    assert(bmp_read(file + 1, 61, head + 1, 54, table + 1, 4, cells + 1, 5).refusal == BMP_NEVER_WRITTEN);
    assert(bmp_read(NULL, 0, NULL, 0, NULL, 0, NULL, 0).refusal == BMP_OUTSIDE_FILE);
    assert(std::memcmp(head, was, sizeof head) == 0 && std::memcmp(table, was, sizeof table) == 0);
    for (int k = 0; k < 7; k++) assert(cells[k] == 9);

    const bmp_reading answer = bmp_read(file, 62, head + 1, 54, table + 1, 4, cells + 1, 5);
    assert(answer.refusal == BMP_OK && answer.width == 5 && answer.height == 1 && answer.depth == 8);
    assert(answer.profile_at == 0 && answer.profile_bytes == 0);
    assert(head[0] == 0xAA && std::memcmp(head + 1, file, 54) == 0 && head[55] == 0xAA);
    assert(table[0] == 0xAA && std::memcmp(table + 1, file + 54, 4) == 0 && table[5] == 0xAA);
    for (int k = 0; k < 7; k++) assert(cells[k] == (k == 0 || k == 6 ? 9u : 7u));
}

// A file under the limit with the resolutions asked for, the numbers of a limit and of settings, and the defaults.
static void settings() {
    assert(sizeof(bmp_settings) == 16);
    const bmp_source source = { BMP_PAL8, 5, 1, true, false, false, 5 };
    bmp_options options = BMP_OPTIONS_DEFAULT;
    options.minimal_palette = true;
    const uint8_t plane[5] = { 7, 7, 7, 7, 7 };
    uint8_t file[78], same[78];
    const bmp_answer plain = bmp_encode_into(source, options, plane, 5, NULL, 0, NULL, 0, NULL, 0, file, 78, 0);
    bmp_settings settings = BMP_SETTINGS_DEFAULT;
    bmp_answer answer = bmp_encode_into_with(source, options, settings, plane, 5, NULL, 0, NULL, 0, NULL, 0, same, 78, 0);
    assert(answer.bytes == 62 && plain.bytes == 62 && std::memcmp(file, same, 62) == 0);
    settings.limit = 62;
    settings.x_pels_per_meter = 3780;
    answer = bmp_encode_into_with(source, options, settings, plane, 5, NULL, 0, NULL, 0, NULL, 0, same, 78, 0);
    assert(answer.bytes == 62 && same[38] == 0xC4 && same[39] == 0x0E && std::memcmp(file + 42, same + 42, 20) == 0);
    settings.limit = 61;
    answer = bmp_encode_into_with(source, options, settings, plane, 5, NULL, 0, NULL, 0, NULL, 0, same, 78, 0);
    assert(answer.refusal == BMP_STREAM_OVER_BUDGET);
    settings.y_pels_per_meter = -1;
    answer = bmp_encoded_size_bound_with(source, options, settings, plane, 5, NULL, 0, NULL, 0, NULL, 0);
    assert(answer.refusal == BMP_NEGATIVE_RESOLUTION);
    settings.limit = 4294967295u;
    settings.limit++;
    answer = bmp_encoded_size_bound_with(source, options, settings, plane, 5, NULL, 0, NULL, 0, NULL, 0);
    assert(answer.refusal == BMP_LIMIT_TOO_LARGE);
}

// A grid painted from prices; every number, and what a refusal and the bytes past the cells leave.
static void quotes() {
    const double infinity = std::numeric_limits<double>::infinity(), nan = std::numeric_limits<double>::quiet_NaN();
    const double edges[3] = { 0, 1, infinity }, falling[3] = { 0, 2, 1 }, broken[3] = { 0, nan, 2 };
    const double lows[5] = { -infinity, -0.0, 0.5, 0.5, infinity }, highs[6] = { -1, 0.5, 0.75, 1, infinity, nan };
    uint8_t plane[7], was[7];
    std::memset(plane, 0xAA, sizeof plane);
    std::memset(was, 0xAA, sizeof was);
    assert(bmp_shade_quotes(falling, 3, lows, 5, highs, 4, plane, 7) == BMP_BUFFER_TOO_SHORT);
    assert(bmp_shade_quotes(falling, 3, lows, 5, highs, 6, plane, 4) == BMP_BUFFER_TOO_SHORT);
    assert(bmp_shade_quotes(falling, 3, highs, 6, highs, 6, plane, 7) == BMP_NOT_A_SCALE);
    assert(bmp_shade_quotes(broken, 3, lows, 5, highs, 6, plane, 7) == BMP_NOT_A_SCALE);
    assert(bmp_shade_quotes(NULL, 0, NULL, 0, NULL, 0, NULL, 0) == BMP_NOT_A_SCALE);
    assert(bmp_shade_quotes(edges, 3, highs, 6, highs, 6, plane, 7) == BMP_NOT_A_QUOTE);
    assert(bmp_shade_quotes(edges, 3, highs, 5, lows, 5, plane, 7) == BMP_NOT_A_QUOTE);
    assert(bmp_shade_quotes(edges, 3, NULL, 0, NULL, 0, NULL, 0) == BMP_OK);
    assert(std::memcmp(plane, was, sizeof plane) == 0);
    assert(bmp_shade_quotes(edges, 3, lows, 5, highs, 6, plane + 1, 6) == BMP_OK);
    const uint8_t painted[7] = { 0xAA, 0, 1, 1, BMP_HATCH, 3, 0xAA };
    assert(std::memcmp(plane, painted, sizeof plane) == 0);
}

// Two rows with their starts, each read from its own; every number of either call, and what a refusal and the entries past
// the height leave.
static void starts() {
    const bmp_source source = { BMP_PAL8, 5, 2, true, false, false, 5 };
    bmp_options options = BMP_OPTIONS_DEFAULT;
    bmp_settings settings = BMP_SETTINGS_DEFAULT;
    options.minimal_palette = true;
    const uint8_t plane[10] = { 7, 7, 7, 7, 7, 1, 1, 1, 2, 2 };
    uint8_t file[100], same[100], was[100];
    uint64_t list[4] = { 9, 9, 9, 9 };
    std::memset(file, 0xAA, sizeof file);
    std::memset(was, 0xAA, sizeof was);
    assert(bmp_encode_with_starts(source, options, settings, plane, 10, NULL, 0, NULL, 0, NULL, 0, file, 80, 0, NULL, 0)
               .refusal == BMP_BUFFER_TOO_SHORT);
    settings.limit = 62;
    assert(bmp_encode_with_starts(source, options, settings, plane, 10, NULL, 0, NULL, 0, NULL, 0, file, 100, 0, list, 1)
               .refusal == BMP_STARTS_TOO_SHORT);
    assert(bmp_encode_with_starts(source, options, settings, plane, 10, NULL, 0, NULL, 0, NULL, 0, file, 100, 0, list, 4)
               .refusal == BMP_STREAM_OVER_BUDGET);
    settings = BMP_SETTINGS_DEFAULT;
    assert(bmp_encode_with_starts(source, options, settings, plane, 10, NULL, 0, NULL, 0, NULL, 0, file, 100, 0, list, 1)
               .refusal == BMP_STARTS_TOO_SHORT);
    assert(std::memcmp(file, was, sizeof file) == 0);
    for (int k = 0; k < 4; k++) assert(list[k] == 9);

    const bmp_answer answer = bmp_encode_with_starts(source, options, settings, plane, 10, NULL, 0, NULL, 0, NULL, 0, file,
                                                     100, 3, list + 1, 3);
    std::memset(same, 0xAA, sizeof same);
    bmp_encode_into(source, options, plane, 10, NULL, 0, NULL, 0, NULL, 0, same, 100, 3);
    assert(answer.format == BMP_WRITTEN_RLE8 && answer.bytes == 68 && std::memcmp(file, same, sizeof file) == 0);
    assert(list[0] == 9 && list[1] == 58 && list[2] == 64 && list[3] == 9);

    uint32_t cells[7] = { 9, 9, 9, 9, 9, 9, 9 };
    assert(bmp_read_row(file + 3, 68, 65, cells + 1, 6) == BMP_STREAM_FAULT);
    assert(bmp_read_row(file + 3, 68, 58, cells + 1, 4) == BMP_BUFFER_TOO_SHORT);
    assert(bmp_read_row(file + 3, 57, 58, cells + 1, 4) == BMP_OUTSIDE_FILE);
    assert(bmp_read_row(file, 68, 58, NULL, 0) == BMP_NEVER_WRITTEN);
    for (int k = 0; k < 7; k++) assert(cells[k] == 9);
    for (int stored = 0; stored < 2; stored++) {
        assert(bmp_read_row(file + 3, 68, list[1 + stored], cells + 1, 6) == BMP_OK && cells[0] == 9 && cells[6] == 9);
        for (int x = 0; x < 5; x++) assert(cells[1 + x] == plane[5 * (1 - stored) + x]);
    }
}

int main() {
    bmp_options options = BMP_OPTIONS_DEFAULT;
    assert(is_default(options) && is_default(several[0]) && is_default(several[1]));
    options.rle = false;
    options.gamma[2] = 1;
    assert(!is_default(options));
    options = BMP_OPTIONS_DEFAULT;
    assert(is_default(options));

    assert(std::strcmp(bmp_refusal_text(BMP_ZERO_DIMENSION), "width or height is 0") == 0);
    assert(std::strcmp(bmp_refusal_text(BMP_STARTS_TOO_SHORT), "the list of row starts is shorter than the height") == 0);
    assert(std::strcmp(bmp_refusal_text(25), "unknown refusal number") == 0);

    const bmp_source nothing = { BMP_RGB24, 0, 1, false, false, false, 0 };
    assert(bmp_encoded_size_bound(nothing, BMP_OPTIONS_DEFAULT, NULL, 0, NULL, 0, NULL, 0, NULL, 0).refusal == BMP_ZERO_DIMENSION);
    reading();
    settings();
    quotes();
    starts();
    return 0;
}
