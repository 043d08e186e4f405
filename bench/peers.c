// Times libpmemobj on a trace, and the stores, flushes and fences of this allocator on memory like that which libpmemobj has.
// `peers.sh` builds and runs it. Each way to run it prints one line.
//
//   peers peer POOL <TRACE     makes a pool at POOL, and has pmemobj_alloc and pmemobj_free make the calls of the trace. Each
//                              root is a slot for an object's name in the pool's root object; an allocation fills it
//   peers events FILE <EVENTS  maps FILE, of 16 MiB, and does the events there that `call_times events` wrote
//   peers loads FILE <EVENTS   the same, but loads each word from there before it is stored
//
// The time is the processor's, since a busy machine takes it from a program for longer than it runs; reading the input is no
// part of it, and the pages of the memory are there before. A build with -DCOUNTED prints for `peer`, in place of the time, how
// many lines are written back and how many fences are issued; some lines of a copy go past the cache, without a flush.
#define _GNU_SOURCE
#include <cpuid.h>
#include <dlfcn.h>
#include <fcntl.h>
#include <libpmem.h>
#include <libpmemobj.h>
#include <stdint.h>
#include <stdio.h>
#include <stdlib.h>
#include <string.h>
#include <sys/mman.h>
#include <time.h>
#include <unistd.h>

enum { LINE = 64, ARENA = 16 << 20, POOL = 64 << 20, ROOTS = 4096 };

static void die(const char *what) {
    perror(what);
    exit(1);
}

static double now(void) {
    struct timespec t;
    clock_gettime(CLOCK_PROCESS_CPUTIME_ID, &t);
    return t.tv_sec * 1e9 + t.tv_nsec;
}

// Room for one more of so many things of a size.
static void *grown(void *things, size_t count, size_t size) {
    if (count & (count - 1)) return things;
    things = realloc(things, (count ? 2 * count : 1) * size);
    if (!things) die("memory");
    return things;
}

// A call of a trace: the size of a malloc, or 0 for a free.
struct call {
    uint32_t root, size;
};

// Reads the calls of a trace of mallocs and frees.
static struct call *read_calls(size_t *count) {
    struct call *calls = NULL;
    char line[128], what;
    *count = 0;
    while (fgets(line, sizeof line, stdin)) {
        struct call call = {0, 0};
        if (sscanf(line, "%*u %*u %c %u %u", &what, &call.root, &call.size) < 2) continue;
        if (call.root >= ROOTS || (what == 'm') != (call.size > 0)) die("trace");
        calls = grown(calls, *count, sizeof *calls);
        calls[(*count)++] = call;
    }
    return calls;
}

#ifdef COUNTED
static unsigned long long flushes, fences;

// How many lines a range touches.
static unsigned long long lines(const void *at, size_t size) {
    return size ? ((uintptr_t)at + size - 1) / LINE - (uintptr_t)at / LINE + 1 : 0;
}

// The library's own function of a name, behind the one of that name here, which counts.
#define REAL(name) ((__typeof__(&name))dlsym(RTLD_NEXT, #name))

void pmem_flush(const void *at, size_t size) {
    flushes += lines(at, size);
    REAL(pmem_flush)(at, size);
}

void pmem_drain(void) {
    fences++;
    REAL(pmem_drain)();
}

void pmem_persist(const void *at, size_t size) {
    flushes += lines(at, size);
    fences++;
    REAL(pmem_persist)(at, size);
}

// Counts what a copy or a filling does by its flags.
static void count_flags(const void *at, size_t size, unsigned flags) {
    if (flags & PMEM_F_MEM_NOFLUSH) return;
    flushes += lines(at, size);
    if (!(flags & PMEM_F_MEM_NODRAIN)) fences++;
}

void *pmem_memcpy(void *to, const void *from, size_t size, unsigned flags) {
    count_flags(to, size, flags);
    return REAL(pmem_memcpy)(to, from, size, flags);
}

void *pmem_memmove(void *to, const void *from, size_t size, unsigned flags) {
    count_flags(to, size, flags);
    return REAL(pmem_memmove)(to, from, size, flags);
}

void *pmem_memset(void *to, int byte, size_t size, unsigned flags) {
    count_flags(to, size, flags);
    return REAL(pmem_memset)(to, byte, size, flags);
}
#endif

// Makes the calls on the slots of the roots.
static void make_calls(PMEMobjpool *pool, PMEMoid *roots, const struct call *calls, size_t count) {
    for (size_t i = 0; i < count; i++) {
        PMEMoid *root = &roots[calls[i].root];
        if (!calls[i].size) pmemobj_free(root);
        else if (pmemobj_alloc(pool, root, calls[i].size, 0, NULL, NULL)) die("pmemobj_alloc");
    }
}

static void run_peer(const char *path) {
    size_t count;
    struct call *calls = read_calls(&count);
    int prefault = 1;
    if (pmemobj_ctl_set(NULL, "prefault.at_create", &prefault)) die("prefault");
    PMEMobjpool *pool = pmemobj_create(path, "peers", POOL, 0600);
    if (!pool) die("pmemobj_create");
    PMEMoid *roots = pmemobj_direct(pmemobj_root(pool, ROOTS * sizeof(PMEMoid)));
#ifdef COUNTED
    flushes = fences = 0;
    make_calls(pool, roots, calls, count);
    printf("%.2f lines flushed, %.2f fences\n", 1.0 * flushes / count, 1.0 * fences / count);
#else
    double begun = now();
    make_calls(pool, roots, calls, count);
    printf("%.0f\n", (now() - begun) / count);
#endif
    pmemobj_close(pool);
}

enum kind { STORE, FLUSH, FENCE };

// An event, at a byte of the arena.
struct event {
    uint32_t kind, at;
    uint64_t value;
};

// Reads the events, and how many calls they are of.
static struct event *read_events(size_t *count, size_t *calls) {
    struct event *events = NULL;
    char line[128];
    *count = *calls = 0;
    while (fgets(line, sizeof line, stdin)) {
        struct event event = {FENCE, 0, 0};
        char *rest = line + 1;
        if (*line == 'c') {
            ++*calls;
            continue;
        }
        if (*line != 'n') {
            event.kind = *line == 's' ? STORE : FLUSH;
            event.at = strtoul(rest, &rest, 10) * (*line == 's' ? 1 : LINE);
        }
        if (*line == 's') event.value = strtoull(rest, NULL, 10);
        if (!strchr("sfn", *line) || event.at >= ARENA) die("events");
        events = grown(events, *count, sizeof *events);
        events[(*count)++] = event;
    }
    return events;
}

// What flushes a line: the best that the processor has.
enum flusher { CLFLUSH, CLFLUSHOPT, CLWB };
static const char *const flusher_names[] = {"CLFLUSH", "CLFLUSHOPT", "CLWB"};

static enum flusher best_flusher(void) {
    unsigned a, b = 0, c, d;
    __get_cpuid_count(7, 0, &a, &b, &c, &d);
    return b & bit_CLWB ? CLWB : b & bit_CLFLUSHOPT ? CLFLUSHOPT : CLFLUSH;
}

static inline __attribute__((always_inline)) void flush_line(enum flusher flusher, char *at) {
    switch (flusher) {
    case CLWB: __asm__ volatile("clwb %0" : "+m"(*at) : : "memory"); break;
    case CLFLUSHOPT: __asm__ volatile("clflushopt %0" : "+m"(*at) : : "memory"); break;
    case CLFLUSH: __asm__ volatile("clflush %0" : "+m"(*at) : : "memory"); break;
    }
}

// Does the events. The compiler makes a copy for each of the constants that it is given, so that none is asked for inside.
static inline __attribute__((always_inline)) void do_events(
    char *memory, const struct event *event, const struct event *end, enum flusher flusher, int loads) {
    for (; event < end; event++) {
        char *at = memory + event->at;
        volatile uint64_t *word = (volatile uint64_t *)at;
        if (event->kind == STORE) {
            if (loads) (void)*word;
            *word = event->value;
        } else if (event->kind == FLUSH) flush_line(flusher, at);
        else __asm__ volatile("sfence" : : : "memory");
    }
}

static void run_events(const char *path, int loads) {
    size_t count, calls, kinds[3] = {0};
    struct event *events = read_events(&count, &calls), *end = events + count;
    for (size_t i = 0; i < count; i++) kinds[events[i].kind]++;
    int file = open(path, O_RDWR | O_CREAT | O_EXCL, 0600);
    if (file < 0 || ftruncate(file, ARENA)) die(path);
    char *memory = mmap(NULL, ARENA, PROT_READ | PROT_WRITE, MAP_SHARED | MAP_POPULATE, file, 0);
    if (memory == MAP_FAILED) die("mmap");
    memset(memory, 0, ARENA);
    enum flusher flusher = best_flusher();
    double begun = now();
    switch (2 * flusher + loads) {
    case 2 * CLWB: do_events(memory, events, end, CLWB, 0); break;
    case 2 * CLWB + 1: do_events(memory, events, end, CLWB, 1); break;
    case 2 * CLFLUSHOPT: do_events(memory, events, end, CLFLUSHOPT, 0); break;
    case 2 * CLFLUSHOPT + 1: do_events(memory, events, end, CLFLUSHOPT, 1); break;
    case 2 * CLFLUSH: do_events(memory, events, end, CLFLUSH, 0); break;
    case 2 * CLFLUSH + 1: do_events(memory, events, end, CLFLUSH, 1); break;
    }
    double took = now() - begun, each = calls ? calls : 1;
    printf("%.0f %.2f stores, %.2f lines flushed by %s, %.2f fences\n", took / each, kinds[STORE] / each, kinds[FLUSH] / each,
           flusher_names[flusher], kinds[FENCE] / each);
}

int main(int count, char **words) {
    if (count != 3) {
        fputs("usage: peers peer POOL, events FILE, loads FILE\n", stderr);
        return 1;
    }
    if (!strcmp(words[1], "peer")) run_peer(words[2]);
    else run_events(words[2], !strcmp(words[1], "loads"));
    return 0;
}
