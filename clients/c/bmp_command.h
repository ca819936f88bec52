/* The command bmp_writer without its files: six proved functions that take the command's words and lent memory.
 * command.c is the program over them. Link with libcommand.a (bash clients/staticlib.sh command). The header is for
 * C99 and C++98 and later.
 *
 * `words` are the program's arguments after its name, one behind another, each with a 0 byte after it. Every pointer
 * goes with its length in bytes, but numbers with their count; NULL with length 0 is allowed. `cells`, `out`, `text`,
 * `name`, `head` and `table` overlap nothing.
 * `text` has at least words_len + 8192 bytes. A message is put there with its newline and no 0 byte, and is cut where
 * the cell of a sheet that it quotes is too long. */
#ifndef BMP_COMMAND_H
#define BMP_COMMAND_H

#include <stddef.h>
#include <stdint.h>

#ifdef __cplusplus
extern "C" {
#endif

enum bmp_command_status {
    BMP_COMMAND_DONE = 0,
    BMP_COMMAND_REFUSED = 1,
    BMP_COMMAND_NOT_UNDERSTOOD = 2,
    BMP_COMMAND_WANTS_FILES = 3 /* from bmp_command_check: bmp_command is to be called, or, where BMP_COMMAND_READ is
                                   named, bmp_command_read, or, where BMP_COMMAND_EDGES is, bmp_command_shade;
                                   from bmp_command_shade: bmp_command is to be called */
};

/* The files that the words name. */
enum bmp_command_file_number {
    BMP_COMMAND_PLANE = 0,
    BMP_COMMAND_SHEET = 1, /* CSV, in place of the plane */
    BMP_COMMAND_PALETTE = 2,
    BMP_COMMAND_ICC = 3,
    BMP_COMMAND_LINKED_ICC = 4,
    BMP_COMMAND_OUT = 5,
    BMP_COMMAND_READ = 6,  /* a BMP file; its sheet goes to the file of BMP_COMMAND_SHEET */
    BMP_COMMAND_EDGES = 7, /* doubles, here and below, in place of the plane */
    BMP_COMMAND_LOWS = 8,
    BMP_COMMAND_HIGHS = 9
};

/* 32 bytes. */
typedef struct {
    uint64_t bytes;   /* the file's bytes in `out`; 0 where there is none */
    uint64_t bound;   /* the bytes that `out` must have; 0 where that is not known */
    uint64_t text;    /* the bytes of the message in `text`, its newline among them */
    uint32_t status;  /* enum bmp_command_status */
    uint32_t refusal; /* with status 1: the number of enum bmp_refusal in bmp_writer.h */
} bmp_command_answer;

/* What must be lent to read a file. 32 bytes. */
typedef struct {
    uint64_t head_bytes;
    uint64_t table_bytes;
    uint64_t cell_numbers;
    uint64_t out_bytes; /* enough for the sheet; the largest number where 64 bits do not hold it */
} bmp_command_sizes;

/* The places of all fields and the size, as in bmp_writer.h. */
#if defined(__cplusplus) && __cplusplus >= 201103L
#define BMP_FACT(name, fact) static_assert(fact, #fact)
#elif defined(__STDC_VERSION__) && __STDC_VERSION__ >= 201112L
#define BMP_FACT(name, fact) _Static_assert(fact, #fact)
#else
#define BMP_FACT(name, fact) typedef char name[(fact) ? 1 : -1]
#endif
#define BMP_PLACE(type, field, place) BMP_FACT(type##_##field##_place, offsetof(type, field) == place)
#define BMP_BYTES(type, bytes) BMP_FACT(type##_bytes, sizeof(type) == bytes)
BMP_PLACE(bmp_command_answer, bytes, 0);
BMP_PLACE(bmp_command_answer, bound, 8);
BMP_PLACE(bmp_command_answer, text, 16);
BMP_PLACE(bmp_command_answer, status, 24);
BMP_PLACE(bmp_command_answer, refusal, 28);
BMP_BYTES(bmp_command_answer, 32);
BMP_PLACE(bmp_command_sizes, head_bytes, 0);
BMP_PLACE(bmp_command_sizes, table_bytes, 8);
BMP_PLACE(bmp_command_sizes, cell_numbers, 16);
BMP_PLACE(bmp_command_sizes, out_bytes, 24);
BMP_BYTES(bmp_command_sizes, 32);
#undef BMP_BYTES
#undef BMP_PLACE
#undef BMP_FACT

/* What the words alone say: help, version, or what is wrong with them; 3 where the command is to be run. */
bmp_command_answer bmp_command_check(const uint8_t *words, size_t words_len, uint8_t *text, size_t text_len);

/* Puts the name of a file that the command reads or writes into `name`, and answers its bytes; 0 where there is none
 * to read or write. `file` is enum bmp_command_file_number. A profile that will not be written is not named. */
uint64_t bmp_command_file(const uint8_t *words, size_t words_len, uint32_t file, uint8_t *name, size_t name_len);

/* Runs the command on files in memory. `plane` is the plane, the sheet, or what bmp_command_shade has painted; `cells`
 * is scratch memory for the sheet's cells, which are at most one more than its bytes. Where `out` is too short the
 * answer is refusal 15 with the bound, and nothing is written. */
bmp_command_answer bmp_command(const uint8_t *words, size_t words_len, const uint8_t *plane, size_t plane_len,
                               const uint8_t *palette, size_t palette_len, const uint8_t *icc, size_t icc_len,
                               const uint8_t *linked_icc, size_t linked_icc_len, uint8_t *cells, size_t cells_len,
                               uint8_t *out, size_t out_len, uint8_t *text, size_t text_len);

/* Paints the cells from prices, into the first lows_len bytes of `cells`: that is the plane that bmp_command takes then,
 * and the status is 3. A cell's index is the count of edges at or below its low and its high, or 255 where the counts
 * differ. Status 2 where there are not as many highs as lows, or fewer bytes in `cells`; refusal 22 where the edges are
 * not 1 to 254 rising numbers, and 23 where a price is not a number or a low is above its high. With any status but 3
 * no cell is changed. */
bmp_command_answer bmp_command_shade(const uint8_t *words, size_t words_len, const double *edges, size_t edges_len,
                                     const double *lows, size_t lows_len, const double *highs, size_t highs_len,
                                     uint8_t *cells, size_t cells_len, uint8_t *text, size_t text_len);

/* What must be lent to read a file; all 0 where 17 or 18 refuses it. */
bmp_command_sizes bmp_command_read_sizes(const uint8_t *file, size_t file_len);

/* Runs a command that reads: the cells of `file` go to `out` as a sheet, a line a row from the top, with an index a cell
 * up to depth 8 and red, green, blue and alpha above it. `head`, `table` and `cells` are filled as by bmp_read. The
 * message says width, height, depth and the sheet's bytes: "4 x 1, 8 bits, sheet of 8 bytes". A refusal is the first of
 * 17, 18, 15 and 19 that applies; 15 has the bound where `out` alone is too short. `out` is then as it was. */
bmp_command_answer bmp_command_read(const uint8_t *words, size_t words_len, const uint8_t *file, size_t file_len,
                                    uint8_t *head, size_t head_len, uint8_t *table, size_t table_len, uint32_t *cells,
                                    size_t cells_len, uint8_t *out, size_t out_len, uint8_t *text, size_t text_len);

#ifdef __cplusplus
}
#endif

#endif
