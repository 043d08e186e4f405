/* Laid before the C library by faults.sh, so that one call of a program fails:

     FAIL_ALLOC=N   the Nth request for memory is refused
     FAIL_IO=N      the Nth read of standard input or write to standard output fails, with EIO
     SHORT_IO=N     the Nth of them that asks for several bytes moves one

   Calls are counted from 1. With COUNTS=FILE the three counts are kept in FILE, as three words of eight bytes, which lasts
   however the program ends. */
#define _GNU_SOURCE
#include <errno.h>
#include <fcntl.h>
#include <stdatomic.h>
#include <stdlib.h>
#include <sys/mman.h>
#include <sys/syscall.h>
#include <unistd.h>

extern void *__libc_malloc(size_t);
extern void *__libc_calloc(size_t, size_t);
extern void *__libc_realloc(void *, size_t);
extern void *__libc_memalign(size_t, size_t);

struct counts {
    atomic_ulong requests, calls, longs;
};

static struct counts own;
static struct counts *counts = &own;
static unsigned long fail_request, fail_call, short_call;

static unsigned long number(const char *name) {
    const char *text = getenv(name);
    return text ? strtoul(text, NULL, 10) : 0;
}

/* Before this no call fails; what the loader asks for is not the program's. */
__attribute__((constructor)) static void begin(void) {
    const char *name = getenv("COUNTS");
    int file = name ? open(name, O_RDWR | O_CREAT | O_TRUNC, 0600) : -1;
    if (file >= 0 && ftruncate(file, sizeof own) == 0) {
        void *kept = mmap(NULL, sizeof own, PROT_READ | PROT_WRITE, MAP_SHARED, file, 0);
        if (kept != MAP_FAILED) counts = kept;
        close(file);
    }
    counts->requests = counts->calls = counts->longs = 0;
    fail_request = number("FAIL_ALLOC");
    fail_call = number("FAIL_IO");
    short_call = number("SHORT_IO");
}

static int is_refused(void) {
    if (atomic_fetch_add(&counts->requests, 1) + 1 != fail_request) return 0;
    errno = ENOMEM;
    return 1;
}

void *malloc(size_t size) { return is_refused() ? NULL : __libc_malloc(size); }

void *calloc(size_t count, size_t size) { return is_refused() ? NULL : __libc_calloc(count, size); }

void *realloc(void *block, size_t size) { return is_refused() ? NULL : __libc_realloc(block, size); }

void *memalign(size_t align, size_t size) { return is_refused() ? NULL : __libc_memalign(align, size); }

void *aligned_alloc(size_t align, size_t size) { return memalign(align, size); }

int posix_memalign(void **block, size_t align, size_t size) {
    void *got = memalign(align, size);
    if (!got) return ENOMEM;
    *block = got;
    return 0;
}

/* How many bytes the call may move, or -1 where it fails. */
static long allowed(int file, size_t size) {
    if (file != STDIN_FILENO && file != STDOUT_FILENO) return size;
    if (atomic_fetch_add(&counts->calls, 1) + 1 == fail_call) {
        errno = EIO;
        return -1;
    }
    return size > 1 && atomic_fetch_add(&counts->longs, 1) + 1 == short_call ? 1 : (long)size;
}

ssize_t read(int file, void *into, size_t size) {
    long most = allowed(file, size);
    return most < 0 ? -1 : syscall(SYS_read, file, into, most);
}

ssize_t write(int file, const void *piece, size_t size) {
    long most = allowed(file, size);
    return most < 0 ? -1 : syscall(SYS_write, file, piece, most);
}
