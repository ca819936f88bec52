/* The program bmp_writer: it reads files, lends memory to the proved functions of bmp_command.h, writes and prints.
 *   bash clients/staticlib.sh command
 *   cc -o bmp_writer clients/c/command.c -Iclients/c target/staticlib/libcommand.a
 * The status is 0, 1 (refused, with the number) or 2 (not understood, or the system's error with its text). */
#define _XOPEN_SOURCE 700
#define _FILE_OFFSET_BITS 64

#include "bmp_command.h"
#include "bmp_writer.h"

#include <errno.h>
#include <fcntl.h>
#include <signal.h>
#include <stdio.h>
#include <stdlib.h>
#include <string.h>
#include <sys/stat.h>
#include <unistd.h>

#define PREFIX "bmp_writer: "
#define NO_MEMORY "not enough memory"

enum {
    PREFIX_BYTES = sizeof PREFIX - 1,
    TEXT_BYTES = 8192,   /* what a message may have beyond the words */
    PIECE = 1 << 30,     /* the most that one call reads or writes; some systems take no more */
    FIRST_GUESS = 65536, /* the memory for a file that does not tell its size */
    NAME_KEPT = 100      /* the bytes of a name that the temporary name repeats, which may not be too long */
};

/* Memory that is lent. The end of the process frees it. */
typedef struct {
    uint8_t *bytes;
    size_t len;
} memory;

static memory words, name, plane, palette, icc, linked_icc, cells, out;
static memory edges, lows, highs; /* prices, as doubles */
static memory bmp, head, table; /* a file that is read, and its parts */
static memory line, text; /* of a message: PREFIX with the text behind it, and the text alone */

static bool lend(memory *lent, uint64_t n) {
    uint8_t *bytes = (size_t)n == n ? realloc(lent->bytes, n > 0 ? (size_t)n : 1) : NULL;
    if (bytes != NULL) *lent = (memory){ bytes, (size_t)n };
    else errno = ENOMEM;
    return bytes != NULL;
}

/* ---- printing */

static bool write_all(int fd, const void *bytes, size_t n) {
    const char *at = bytes;
    while (n > 0) {
        ssize_t done = write(fd, at, n < PIECE ? n : PIECE);
        if (done < 0 && errno != EINTR) return false;
        if (done > 0) at += done, n -= (size_t)done;
    }
    return true;
}

/* Prints n bytes of text on standard error: one line by one write, so that the lines of programs that run at once stay
 * whole. A name or a cell in it may have any byte, and must neither end the line nor steer a terminal. The last byte is
 * the newline, or part of a cell that is too long for the text. */
static int say(uint64_t n, int status) {
    for (size_t i = 0; i < n; i++)
        if (text.bytes[i] < 32 || text.bytes[i] == 127) text.bytes[i] = '?';
    if (n > 0) text.bytes[n - 1] = '\n';
    write_all(STDERR_FILENO, line.bytes, PREFIX_BYTES + (size_t)n);
    return status;
}

/* `what` is no longer than the words, so that the text fits. */
static int trouble(const char *what, const char *why) {
    int n = snprintf((char *)text.bytes, text.len, "%s: %s\n", what, why);
    return say((uint64_t)n, BMP_COMMAND_NOT_UNDERSTOOD);
}

static int failed(const char *what) { return trouble(what, errno == ENOMEM ? NO_MEMORY : strerror(errno)); }

/* Standard output is printed to once. Whether it has taken all may be known only when it is closed. */
static int print(const uint8_t *bytes, uint64_t n) {
    bool taken = write_all(STDOUT_FILENO, bytes, (size_t)n) && close(STDOUT_FILENO) == 0;
    return taken ? BMP_COMMAND_DONE : failed("standard output");
}

/* ---- reading */

/* Puts a file's name into `name`, with a 0 byte after it, and answers it; NULL where there is none. */
static const char *name_of(uint32_t file) {
    uint64_t n = bmp_command_file(words.bytes, words.len, file, name.bytes, name.len - 1);
    name.bytes[n] = 0;
    return n > 0 ? (char *)name.bytes : NULL;
}

static bool is_standard(const char *named) { return named != NULL && strcmp(named, "-") == 0; }

/* Reads to the end. The size is but a guess: a pipe has none, and a file may grow. */
static bool read_all(int fd, memory *file) {
    struct stat status;
    bool has_size = fstat(fd, &status) == 0 && status.st_size > 0;
    size_t filled = 0;
    if (!lend(file, has_size ? (uint64_t)status.st_size + 1 : FIRST_GUESS)) return false;
    for (ssize_t got = -1; got != 0;) {
        if (filled == file->len && !lend(file, 2 * (uint64_t)filled)) return false;
        size_t left = file->len - filled;
        got = read(fd, file->bytes + filled, left < PIECE ? left : PIECE);
        if (got < 0 && errno != EINTR) return false;
        if (got > 0) filled += (size_t)got;
    }
    file->len = filled;
    return true;
}

static bool read_file(uint32_t number, memory *file) {
    const char *named = name_of(number);
    if (named == NULL) return true;
    int fd = is_standard(named) ? STDIN_FILENO : open(named, O_RDONLY);
    bool whole = fd >= 0 && read_all(fd, file);
    if (!whole) failed(named);
    if (fd > STDERR_FILENO) close(fd);
    return whole;
}

/* The file's doubles have their low byte first, as those of the machine, x86-64, and memory that is lent is aligned. */
static bool read_prices(uint32_t number, memory *file) {
    bool whole = read_file(number, file);
    if (!whole || file->len % sizeof(double) == 0) return whole;
    trouble(name_of(number), "is no list of doubles: its bytes are not a multiple of 8");
    return false;
}

static const double *prices(const memory *file) { return (const double *)(const void *)file->bytes; }

/* The words name a plane or a sheet, which are lent in the same place, or prices, which are painted there. */
static bool read_files(void) {
    int standard = 0;
    for (uint32_t file = BMP_COMMAND_PLANE; file <= BMP_COMMAND_HIGHS; file++)
        if (file != BMP_COMMAND_OUT) standard += is_standard(name_of(file));
    if (standard > 1) trouble("-", "standard input can be one file only");
    return standard <= 1 && read_file(BMP_COMMAND_PLANE, &plane) && read_file(BMP_COMMAND_SHEET, &plane) &&
           read_prices(BMP_COMMAND_EDGES, &edges) && read_prices(BMP_COMMAND_LOWS, &lows) &&
           read_prices(BMP_COMMAND_HIGHS, &highs) && read_file(BMP_COMMAND_PALETTE, &palette) &&
           read_file(BMP_COMMAND_ICC, &icc) && read_file(BMP_COMMAND_LINKED_ICC, &linked_icc);
}

/* ---- writing */

/* The path of the file while it is written. It is kept when the file has been moved, and then leads to nothing. */
static char *volatile temporary;

static void remove_and_end(int number) {
    if (temporary != NULL) unlink(temporary);
    signal(number, SIG_DFL);
    raise(number);
}

static const char *last_part(const char *path) {
    const char *slash = strrchr(path, '/');
    return slash == NULL ? path : slash + 1;
}

/* The path of another file in the directory of `path`. */
static char *beside(const char *path, const char *file) {
    size_t folder = (size_t)(last_part(path) - path), n = strlen(file);
    char *joined = malloc(folder + n + 1);
    if (joined == NULL) return NULL;
    memcpy(joined, path, folder);
    memcpy(joined + folder, file, n + 1);
    return joined;
}

/* The path behind symbolic links, so that they stay. `stat` has found that they end; what is there need not exist. */
static char *followed(const char *link) {
    char target[4096], *path = strdup(link);
    for (ssize_t n; path != NULL && (n = readlink(path, target, sizeof target - 1)) >= 0;) {
        target[n] = 0;
        char *next = target[0] == '/' ? strdup(target) : beside(path, target);
        free(path);
        path = next;
    }
    return path;
}

/* Makes a file of a new name beside `path`, so that it can take that place at once. mkstemp puts the name in place
 * before it makes the file, so that a signal always finds it. */
static int open_temporary(const char *path) {
    char hidden[NAME_KEPT + sizeof "..XXXXXX"];
    const char *last = last_part(path);
    int kept = (int)strnlen(last, NAME_KEPT);
    while (kept > 0 && ((unsigned char)last[kept] & 0xC0) == 0x80) kept--; /* no part of a character */
    snprintf(hidden, sizeof hidden, ".%.*s.XXXXXX", kept, last);
    temporary = beside(path, hidden);
    return temporary == NULL ? -1 : mkstemp(temporary);
}

/* The mode of the file that is replaced, or of a new one. Set-user-ID and its like go, as with a write in place. Root
 * alone can keep the owner, and members the group; where the group changes, it and the others get what both had. A file
 * system without modes answers EPERM. */
static bool set_mode(int fd, const struct stat *replaced) {
    mode_t mask = umask(0); /* no other file is made */
    mode_t mode = replaced == NULL ? 0666 & ~mask : replaced->st_mode & 0777;
    if (replaced != NULL && fchown(fd, replaced->st_uid, replaced->st_gid) != 0 &&
        fchown(fd, (uid_t)-1, replaced->st_gid) != 0)
        mode &= 0700 | (mode & 070) >> 3 | (mode & 07) << 3;
    return fchmod(fd, mode) == 0 || errno == EPERM;
}

/* Writes the file beside its place and moves it there when it is whole. fsync answers EINVAL where a file system has
 * nothing to wait for. */
static bool replace(const char *path, const struct stat *replaced, size_t n) {
    int fd = open_temporary(path);
    if (fd < 0) return false;
    bool filled = write_all(fd, out.bytes, n) && set_mode(fd, replaced) && (fsync(fd) == 0 || errno == EINVAL);
    int why = errno;
    if (close(fd) == 0 && filled && rename(temporary, path) == 0) return true;
    if (filled) why = errno;
    unlink(temporary);
    errno = why;
    return false;
}

/* A file that the user may not write is not replaced either, though its directory may allow that. */
static int save(const char *named, size_t n) {
    static char *path;
    struct stat old;
    bool exists = stat(named, &old) == 0;
    if (exists && !S_ISREG(old.st_mode)) return trouble(named, "is no regular file");
    path = exists || errno == ENOENT ? followed(named) : NULL;
    if (path == NULL || (exists && access(path, W_OK) != 0)) return failed(named);
    return replace(path, exists ? &old : NULL, n) ? BMP_COMMAND_DONE : failed(named);
}

/* ---- the command */

/* A write to a closed pipe or beyond a limit fails instead of ending the program. A signal that is ignored stays so, as
 * under nohup. A standard file that is closed would leave its number to the next file, and messages would go there. */
static void prepare(void) {
    static const int ends[] = { SIGHUP, SIGINT, SIGTERM };
    for (int i = 0; i < 3; i++)
        if (signal(ends[i], remove_and_end) == SIG_IGN) signal(ends[i], SIG_IGN);
    signal(SIGPIPE, SIG_IGN);
    signal(SIGXFSZ, SIG_IGN);
    for (int fd = STDIN_FILENO; fd <= STDERR_FILENO; fd++)
        if (fcntl(fd, F_GETFD) < 0 && open("/dev/null", fd == STDIN_FILENO ? O_WRONLY : O_RDONLY) != fd) _exit(2);
}

static bool gather(char **arguments, int n) {
    size_t bytes = 0;
    for (int i = 0; i < n; i++) bytes += strlen(arguments[i]) + 1;
    if (!lend(&words, bytes) || !lend(&name, bytes + 1) || !lend(&line, PREFIX_BYTES + bytes + TEXT_BYTES))
        return false;
    memcpy(line.bytes, PREFIX, PREFIX_BYTES);
    text = (memory){ line.bytes + PREFIX_BYTES, line.len - PREFIX_BYTES };
    uint8_t *at = words.bytes;
    for (int i = 0; i < n; at += strlen(arguments[i++]) + 1) memcpy(at, arguments[i], strlen(arguments[i]) + 1);
    return true;
}

static bmp_command_answer run(void) {
    return bmp_command(words.bytes, words.len, plane.bytes, plane.len, palette.bytes, palette.len, icc.bytes, icc.len,
                       linked_icc.bytes, linked_icc.len, cells.bytes, cells.len, out.bytes, out.len, text.bytes,
                       text.len);
}

static bmp_command_answer shade(void) {
    return bmp_command_shade(words.bytes, words.len, prices(&edges), edges.len / sizeof(double), prices(&lows),
                             lows.len / sizeof(double), prices(&highs), highs.len / sizeof(double), plane.bytes,
                             plane.len, text.bytes, text.len);
}

/* Writes the file, and prints the line that says so; on standard error where standard output is the file. */
static int deliver(bmp_command_answer answer, uint32_t file) {
    const char *named = name_of(file);
    bool standard = is_standard(named);
    int status = standard ? print(out.bytes, answer.bytes) : save(named == NULL ? "" : named, (size_t)answer.bytes);
    if (status != BMP_COMMAND_DONE) return status;
    return standard ? say(answer.text, status) : print(text.bytes, answer.text);
}

static int finish(bmp_command_answer answer, uint32_t file) {
    return answer.status == BMP_COMMAND_DONE ? deliver(answer, file) : say(answer.text, (int)answer.status);
}

/* Reads a BMP file and writes its cells as a sheet. A stream of few bytes can tell of more cells than memory holds. */
static int read_bmp(void) {
    if (!read_file(BMP_COMMAND_READ, &bmp)) return BMP_COMMAND_NOT_UNDERSTOOD;
    bmp_command_sizes wants = bmp_command_read_sizes(bmp.bytes, bmp.len);
    uint64_t cell_bytes = wants.cell_numbers < UINT64_MAX / 4 ? 4 * wants.cell_numbers : UINT64_MAX;
    if (!lend(&head, wants.head_bytes) || !lend(&table, wants.table_bytes) || !lend(&cells, cell_bytes) ||
        !lend(&out, wants.out_bytes))
        return failed("the file's cells");
    return finish(bmp_command_read(words.bytes, words.len, bmp.bytes, bmp.len, head.bytes, head.len, table.bytes,
                                   table.len, (uint32_t *)(void *)cells.bytes, cells.len / 4, out.bytes, out.len,
                                   text.bytes, text.len),
                  BMP_COMMAND_SHEET);
}

int main(int argc, char **argv) {
    prepare();
    if (!gather(argv + 1, argc - 1)) {
        write_all(STDERR_FILENO, PREFIX NO_MEMORY "\n", sizeof PREFIX NO_MEMORY);
        return BMP_COMMAND_NOT_UNDERSTOOD;
    }
    bmp_command_answer answer = bmp_command_check(words.bytes, words.len, text.bytes, text.len);
    if (answer.status == BMP_COMMAND_DONE) return print(text.bytes, answer.text);
    if (answer.status != BMP_COMMAND_WANTS_FILES) return say(answer.text, (int)answer.status);
    if (name_of(BMP_COMMAND_READ) != NULL) return read_bmp();
    if (!read_files()) return BMP_COMMAND_NOT_UNDERSTOOD;
    if (name_of(BMP_COMMAND_EDGES) != NULL) {
        if (!lend(&plane, lows.len / sizeof(double))) return failed("the cells");
        answer = shade();
        if (answer.status != BMP_COMMAND_WANTS_FILES) return say(answer.text, (int)answer.status);
    }
    /* A last line without its end can have a cell more than bytes. */
    bool has_sheet = name_of(BMP_COMMAND_SHEET) != NULL;
    if (has_sheet && !lend(&cells, (uint64_t)plane.len + 1)) return failed("the sheet's cells");
    answer = run();
    if (answer.refusal == BMP_BUFFER_TOO_SHORT) {
        if (!lend(&out, answer.bound)) return failed("the file to write");
        answer = run();
    }
    return finish(answer, BMP_COMMAND_OUT);
}
