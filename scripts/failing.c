/* Makes one call of the system fail, for scripts/failing: a library that the system's loader puts
 * before the C library.
 *
 * MM_CALL names the call: memory, open, read, write or random. MM_AT is the number of the call that
 * fails, from 1; 0 is none. MM_HOW says how: `error` (that call alone), `from` (that call and all
 * after it), `zero` (a write takes nothing). MM_BYTES=1 lets each write take one byte at most.
 * MM_STACK is how many bytes of stack the program may have, once its words are there. MM_LOG is a file
 * of eight numbers of 64 bits in which the calls are counted: memory, open, read, write, random, and the
 * writes to the device of a failed one after it. */
#define _GNU_SOURCE
#include <errno.h>
#include <fcntl.h>
#include <stdarg.h>
#include <stdint.h>
#include <stdlib.h>
#include <string.h>
#include <sys/mman.h>
#include <sys/random.h>
#include <sys/resource.h>
#include <sys/syscall.h>
#include <unistd.h>

enum { MEMORY, OPEN, READ, WRITE, RANDOM, AFTER, COUNTS = 8 };
static const char *const NAMES[] = {"memory", "open", "read", "write", "random"};
static uint64_t own[COUNTS];
static uint64_t *counts = own;
static int failing = -1;
static uint64_t fails_at;
static int from_then_on, takes_zero, one_byte;
static int failed_device = -1;

extern void *__libc_malloc(size_t);
extern void *__libc_calloc(size_t, size_t);
extern void *__libc_realloc(void *, size_t);
extern void *__libc_memalign(size_t, size_t);

__attribute__((constructor)) static void begin(void)
{
    const char *call = getenv("MM_CALL"), *at = getenv("MM_AT"), *how = getenv("MM_HOW");
    const char *log = getenv("MM_LOG"), *stack = getenv("MM_STACK");
    if (stack != NULL) {
        struct rlimit limit = {strtoull(stack, NULL, 10), strtoull(stack, NULL, 10)};
        setrlimit(RLIMIT_STACK, &limit);
    }
    one_byte = getenv("MM_BYTES") != NULL;
    if (log != NULL) {
        int file = (int)syscall(SYS_openat, AT_FDCWD, log, O_RDWR);
        if (file >= 0) {
            void *shared = mmap(NULL, sizeof own, PROT_READ | PROT_WRITE, MAP_SHARED, file, 0);
            if (shared != MAP_FAILED) {
                counts = shared;
            }
            syscall(SYS_close, file);
        }
    }
    for (int i = 0; call != NULL && i < AFTER; i++) {
        if (strcmp(call, NAMES[i]) == 0) {
            failing = i;
        }
    }
    fails_at = at != NULL ? strtoull(at, NULL, 10) : 0;
    from_then_on = how != NULL && strcmp(how, "from") == 0;
    takes_zero = how != NULL && strcmp(how, "zero") == 0;
    memset(counts, 0, sizeof own);
}

/* Counts a call, and tells whether it fails. */
static int fails(int call)
{
    uint64_t number = ++counts[call];
    if (call != failing || fails_at == 0) {
        return 0;
    }
    return number == fails_at || (from_then_on && number > fails_at);
}

static void *no_memory(void)
{
    errno = ENOMEM;
    return NULL;
}

void *malloc(size_t size)
{
    return fails(MEMORY) ? no_memory() : __libc_malloc(size);
}

void *calloc(size_t count, size_t size)
{
    return fails(MEMORY) ? no_memory() : __libc_calloc(count, size);
}

void *realloc(void *old, size_t size)
{
    return fails(MEMORY) ? no_memory() : __libc_realloc(old, size);
}

void *memalign(size_t alignment, size_t size)
{
    return fails(MEMORY) ? no_memory() : __libc_memalign(alignment, size);
}

void *aligned_alloc(size_t alignment, size_t size)
{
    return memalign(alignment, size);
}

int posix_memalign(void **result, size_t alignment, size_t size)
{
    void *room = memalign(alignment, size);
    if (room == NULL) {
        return ENOMEM;
    }
    *result = room;
    return 0;
}

static int open_at(int folder, const char *name, int flags, mode_t mode)
{
    if (fails(OPEN)) {
        errno = EMFILE;
        return -1;
    }
    return (int)syscall(SYS_openat, folder, name, flags, mode);
}

#define WITH_MODE(call)                      \
    do {                                     \
        va_list rest;                        \
        va_start(rest, flags);               \
        mode_t mode = 0;                     \
        if (flags & (O_CREAT | O_TMPFILE)) { \
            mode = va_arg(rest, mode_t);     \
        }                                    \
        va_end(rest);                        \
        return call;                         \
    } while (0)

int open(const char *name, int flags, ...)
{
    WITH_MODE(open_at(AT_FDCWD, name, flags, mode));
}

int open64(const char *name, int flags, ...)
{
    WITH_MODE(open_at(AT_FDCWD, name, flags, mode));
}

int openat(int folder, const char *name, int flags, ...)
{
    WITH_MODE(open_at(folder, name, flags, mode));
}

int openat64(int folder, const char *name, int flags, ...)
{
    WITH_MODE(open_at(folder, name, flags, mode));
}

ssize_t read(int file, void *buffer, size_t count)
{
    if (fails(READ)) {
        errno = EIO;
        return -1;
    }
    return syscall(SYS_read, file, buffer, count);
}

ssize_t write(int file, const void *buffer, size_t count)
{
    if (file == failed_device) {
        counts[AFTER]++;
    }
    if (fails(WRITE)) {
        failed_device = file;
        if (takes_zero) {
            return 0;
        }
        errno = EIO;
        return -1;
    }
    return syscall(SYS_write, file, buffer, one_byte && count > 1 ? 1 : count);
}

ssize_t getrandom(void *buffer, size_t count, unsigned flags)
{
    if (fails(RANDOM)) {
        errno = ENOSYS;
        return -1;
    }
    return syscall(SYS_getrandom, buffer, count, flags);
}

int getentropy(void *buffer, size_t count)
{
    return getrandom(buffer, count, 0) == (ssize_t)count ? 0 : -1;
}
