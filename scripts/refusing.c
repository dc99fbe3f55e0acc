/* Comes before the C library, and refuses some requests of a process: for memory, or to open, read or write.
 *
 * REFUSED is 'KIND NUMBER ERRNO [COUNT [SIZE]]': COUNT requests of this kind, or 1, are refused from this number on,
 * counted from 0, with this number of an error; a read or write whose error is 0 answers 0 bytes, as at the end of a
 * file. Kinds are memory, open, in (a read of standard input), game (a read of another file), out (a write to standard
 * output) and line (one to standard error). With a SIZE only requests for at least so much memory are counted, and
 * reads and writes stop after that many bytes. Under 'pieces SIZE 0' nothing is refused, but each read and write stops
 * after that many bytes. When a request is refused, a line is written to the descriptor 250: how many bytes were read
 * from or written to the same file before, and its name. */
#define _GNU_SOURCE
#include <errno.h>
#include <fcntl.h>
#include <stdarg.h>
#include <stddef.h>
#include <stdlib.h>
#include <string.h>
#include <sys/syscall.h>
#include <unistd.h>

extern void *__libc_malloc(size_t);
extern void *__libc_calloc(size_t, size_t);
extern void *__libc_realloc(void *, size_t);
extern void *__libc_memalign(size_t, size_t);

enum kind { NONE, MEMORY, OPEN, IN, GAME, OUT, LINE, PIECES };
static const char *const names[] = {"none", "memory", "open", "in", "game", "out", "line", "pieces"};
static enum kind refused_kind;
static long refused_number;
static int refused_errno;
static long refused_count;
static long refused_size;
static long count;
/* The bytes that were read from or written to each descriptor. */
static long passed[256];

__attribute__((constructor)) static void begin(void) {
    const char *wanted = getenv("REFUSED");
    if (wanted == NULL) return;
    const char *blank = strchr(wanted, ' ');
    if (blank == NULL) return;
    for (int kind = MEMORY; kind <= PIECES; kind++)
        if (strlen(names[kind]) == (size_t)(blank - wanted) && strncmp(wanted, names[kind], blank - wanted) == 0) {
            char *end;
            refused_number = strtol(blank, &end, 10);
            refused_errno = (int)strtol(end, &end, 10);
            refused_count = strtol(end, &end, 10);
            refused_size = strtol(end, NULL, 10);
            if (refused_count < 1) refused_count = 1;
            if (kind == PIECES) refused_size = refused_number;
            refused_kind = kind;
        }
}

/* Says what is refused. No memory is requested for that. */
static void tell(int file) {
    char line[5000], link[40] = "/proc/self/fd/", digits[20];
    int size = 0, i = 0, place = 14;
    long bytes = file < 0 || file > 255 ? 0 : passed[file];
    do digits[i++] = '0' + bytes % 10;
    while ((bytes /= 10) > 0);
    while (i > 0)
        line[size++] = digits[--i];
    line[size++] = ' ';
    if (file >= 10) link[place++] = '0' + file / 10 % 10;
    link[place] = '0' + (file < 0 ? 0 : file % 10);
    ssize_t length = file < 0 ? 0 : readlink(link, line + size, sizeof line - size - 1);
    size += length < 0 ? 0 : length;
    line[size++] = '\n';
    (void)!syscall(SYS_write, 250, line, size);
}

/* Whether this request of a kind, about a file or none, is one to be refused. */
static int is_refused(enum kind kind, int file) {
    if (kind != refused_kind || count++ < refused_number || count > refused_number + refused_count) return 0;
    tell(file);
    errno = refused_errno;
    return 1;
}

/* What a refused read or write answers. */
static ssize_t refusal(void) {
    return refused_errno == 0 ? 0 : -1;
}

/* The bytes that a read or write takes. */
static size_t piece(size_t size) {
    return refused_kind > OPEN && refused_size > 0 && size > (size_t)refused_size ? (size_t)refused_size : size;
}

static ssize_t pass(int file, ssize_t bytes) {
    if (bytes > 0 && file >= 0 && file < 256) passed[file] += bytes;
    return bytes;
}

static int is_refused_memory(size_t size) {
    return (long)size >= refused_size && is_refused(MEMORY, -1);
}

void *malloc(size_t size) {
    return is_refused_memory(size) ? NULL : __libc_malloc(size);
}

void *calloc(size_t number, size_t size) {
    return is_refused_memory(number * size) ? NULL : __libc_calloc(number, size);
}

void *realloc(void *old, size_t size) {
    return is_refused_memory(size) ? NULL : __libc_realloc(old, size);
}

void *memalign(size_t align, size_t size) {
    return is_refused_memory(size) ? NULL : __libc_memalign(align, size);
}

void *aligned_alloc(size_t align, size_t size) {
    return memalign(align, size);
}

int posix_memalign(void **place, size_t align, size_t size) {
    void *got = memalign(align, size);
    if (got == NULL) return ENOMEM;
    *place = got;
    return 0;
}

int openat(int folder, const char *name, int flags, ...) {
    va_list rest;
    va_start(rest, flags);
    int mode = flags & (O_CREAT | O_TMPFILE) ? va_arg(rest, int) : 0;
    va_end(rest);
    if (is_refused(OPEN, -1)) return -1;
    int file = (int)syscall(SYS_openat, folder, name, flags, mode);
    if (file >= 0 && file < 256) passed[file] = 0;
    return file;
}

int open(const char *name, int flags, ...) {
    va_list rest;
    va_start(rest, flags);
    int mode = flags & (O_CREAT | O_TMPFILE) ? va_arg(rest, int) : 0;
    va_end(rest);
    return openat(AT_FDCWD, name, flags, mode);
}

int open64(const char *name, int flags, ...) __attribute__((alias("open")));
int openat64(int folder, const char *name, int flags, ...) __attribute__((alias("openat")));

ssize_t read(int file, void *bytes, size_t size) {
    if (is_refused(file == 0 ? IN : GAME, file)) return refusal();
    return pass(file, syscall(SYS_read, file, bytes, piece(size)));
}

ssize_t write(int file, const void *bytes, size_t size) {
    if (is_refused(file == 2 ? LINE : OUT, file)) return refusal();
    return pass(file, syscall(SYS_write, file, bytes, piece(size)));
}

ssize_t __write(int file, const void *bytes, size_t size) __attribute__((alias("write")));
