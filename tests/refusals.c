// An allocator that refuses requests for memory, and streams of which a call is odd, to be preloaded by tests/refusals.
//
// REFUSE_FROM=N   counts requests from 1, and refuses each from the Nth on
// REFUSE_ONCE=1   refuses the Nth alone
// REFUSE_WHOLE=1  counts from the program's first instruction to its end; else between the first lines
//                 `call` and `answer` that it writes to standard output, each in one write
// REFUSE_TOLD=FD  at the end writes there how many requests were counted, how many refused, and how many
//                 blocks that were taken from the first instruction on haven't been freed
// ODD_STREAM=FD   has each call of this stream take or give one byte at most, and the call ODD_CALL=N, counted from 0,
//                 none, or fail with the number ODD_ERROR=N

#include <errno.h>
#include <limits.h>
#include <stdio.h>
#include <stdlib.h>
#include <string.h>
#include <sys/syscall.h>
#include <unistd.h>

void *__libc_malloc(size_t size);
void *__libc_calloc(size_t count, size_t size);
void *__libc_realloc(void *old, size_t size);
void *__libc_memalign(size_t alignment, size_t size);
void __libc_free(void *block);

enum window { BEFORE, WITHIN, BEHIND };

static enum window window = BEFORE;
static unsigned long from, counted, refused, odd_call, calls;
static long kept;
static int once, told = -1, odd_stream = -1, odd_error;

static unsigned long setting(const char *name, unsigned long otherwise) {
    const char *text = getenv(name);
    return text ? strtoul(text, NULL, 10) : otherwise;
}

__attribute__((constructor)) static void begin(void) {
    from = setting("REFUSE_FROM", ULONG_MAX);
    once = setting("REFUSE_ONCE", 0) != 0;
    told = (int)setting("REFUSE_TOLD", 2);
    odd_stream = (int)setting("ODD_STREAM", ULONG_MAX);
    odd_call = setting("ODD_CALL", 0);
    odd_error = (int)setting("ODD_ERROR", 0);
    if (setting("REFUSE_WHOLE", 0))
        window = WITHIN;
}

__attribute__((destructor)) static void tell(void) {
    char line[96];
    window = BEHIND;
    int length = snprintf(line, sizeof line, "%lu %lu %ld\n", counted, refused, kept);
    syscall(SYS_write, told, line, (size_t)length);
}

static int refuses(void) {
    if (window != WITHIN)
        return 0;
    counted++;
    if (counted < from || (once && counted > from))
        return 0;
    refused++;
    errno = ENOMEM;
    return 1;
}

static void *taken(void *block) {
    if (block)
        kept++;
    return block;
}

void free(void *block) {
    if (block)
        kept--;
    __libc_free(block);
}

void *malloc(size_t size) {
    return refuses() ? NULL : taken(__libc_malloc(size));
}

void *calloc(size_t count, size_t size) {
    return refuses() ? NULL : taken(__libc_calloc(count, size));
}

// Of size 0 it frees.
void *realloc(void *old, size_t size) {
    if (refuses())
        return NULL;
    void *block = __libc_realloc(old, size);
    if (!old)
        return taken(block);
    if (size == 0)
        kept--;
    return block;
}

void *memalign(size_t alignment, size_t size) {
    return refuses() ? NULL : taken(__libc_memalign(alignment, size));
}

void *aligned_alloc(size_t alignment, size_t size) {
    return memalign(alignment, size);
}

int posix_memalign(void **out, size_t alignment, size_t size) {
    *out = memalign(alignment, size);
    return *out ? 0 : ENOMEM;
}

static int is_line(const void *bytes, size_t length, const char *line) {
    return length == strlen(line) && memcmp(bytes, line, length) == 0;
}

// How much of this a call of a stream may take or give: -1 where it fails.
static ssize_t limit(int file, size_t length) {
    if (file != odd_stream)
        return (ssize_t)length;
    if (calls++ != odd_call)
        return length > 0;
    errno = odd_error;
    return odd_error ? -1 : 0;
}

ssize_t read(int file, void *bytes, size_t length) {
    ssize_t most = limit(file, length);
    return most < 0 ? most : syscall(SYS_read, file, bytes, (size_t)most);
}

ssize_t write(int file, const void *bytes, size_t length) {
    ssize_t most = limit(file, length);
    if (most < 0 || (most == 0 && length > 0))
        return most;
    if (file == STDOUT_FILENO && window == WITHIN && is_line(bytes, length, "answer\n"))
        window = BEHIND;
    ssize_t written = syscall(SYS_write, file, bytes, (size_t)most);
    if (file == STDOUT_FILENO && window == BEFORE && is_line(bytes, length, "call\n"))
        window = WITHIN;
    return written;
}

ssize_t __write(int file, const void *bytes, size_t length) {
    return write(file, bytes, length);
}
