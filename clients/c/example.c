/* Writes a smile-shaped surface of 200 x 200 shades to grid.bmp:
 *   bash clients/staticlib.sh capi
 *   cc -o example clients/c/example.c -Iclients/c target/staticlib/libcapi.a && ./example
 * or, with the shared library:
 *   bash clients/build.sh
 *   export PKG_CONFIG_PATH=target/clients/pkgconfig LD_LIBRARY_PATH=target/clients
 *   cc -o example clients/c/example.c $(pkg-config --cflags --libs bmp_writer) && ./example */
#include "bmp_writer.h"

#include <stdio.h>
#include <stdlib.h>

enum { SIDE = 200 };

/* Red, green and blue of every 64th palette entry, from dark violet to yellow. */
static const int stops[5][3] = { { 68, 1, 84 }, { 59, 82, 139 }, { 33, 145, 140 }, { 94, 201, 98 }, { 253, 231, 37 } };

/* Says why there is no file. The status is 1 and not the number, so that it means the same for every program. */
static int refused(bmp_answer answer) {
    fprintf(stderr, "refused, number %lu: %s\n", (unsigned long)answer.refusal, bmp_refusal_text(answer.refusal));
    return 1;
}

int main(void) {
    static uint8_t plane[SIDE * SIDE];
    static uint8_t palette[256 * 4];
    for (int y = 0; y < SIDE; y++)
        for (int x = 0; x < SIDE; x++)
            plane[y * SIDE + x] = (uint8_t)((x - 110) * (x - 110) * 153 / (121 * (60 + y)) + y / 4);
    for (int k = 0; k < 256; k++) {
        for (int c = 0; c < 3; c++)
            palette[4 * k + c] = (uint8_t)((stops[k / 64][c] * (64 - k % 64) + stops[k / 64 + 1][c] * (k % 64)) / 64);
        palette[4 * k + 3] = 255;
    }

    bmp_source source = { BMP_PAL8, SIDE, SIDE, true, false, false, SIDE };
    bmp_options options = BMP_OPTIONS_DEFAULT;
    bmp_answer bound =
        bmp_encoded_size_bound(source, options, plane, sizeof plane, palette, sizeof palette, NULL, 0, NULL, 0);
    if (bound.refusal != BMP_OK) return refused(bound);

    uint8_t *out = malloc(bound.bytes);
    if (out == NULL) {
        perror("malloc");
        return 1;
    }
    bmp_answer answer = bmp_encode_into(source, options, plane, sizeof plane, palette, sizeof palette, NULL, 0,
                                        NULL, 0, out, bound.bytes, 0);
    if (answer.refusal != BMP_OK) return refused(answer);

    FILE *file = fopen("grid.bmp", "wb");
    if (file == NULL || fwrite(out, 1, answer.bytes, file) != answer.bytes || fclose(file) != 0) {
        perror("grid.bmp");
        return 1;
    }
    printf("format %lu, %llu bytes\n", (unsigned long)answer.format, (unsigned long long)answer.bytes);
    free(out);
    return 0;
}
