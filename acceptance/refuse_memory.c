/* Refuses one allocation of a program, by its number: for acceptance/refused.py, which says how it is built and used.

   Preloaded, it stands before malloc, calloc, realloc, posix_memalign and aligned_alloc of the C library. Calls are counted over all threads, from
   1; the one whose number is in REFUSE_AT answers that there is no memory, and with REFUSE_ON=1 each one behind it too. Where REFUSE_SEEN names a
   file, a byte is written to it when the call is refused, so that it is known whether it came. Where REFUSE_SITES names a file, a line is written to
   it for each call: a sum over the addresses that it was called from, so that equal lines are calls from one place. A realloc to 0 bytes is never
   refused. */
#define _GNU_SOURCE
#include <dlfcn.h>
#include <errno.h>
#include <fcntl.h>
#include <stdatomic.h>
#include <stddef.h>
#include <stdint.h>
#include <stdio.h>
#include <stdlib.h>
#include <unistd.h>

static void *(*real_malloc)(size_t);
static void *(*real_calloc)(size_t, size_t);
static void *(*real_realloc)(void *, size_t);
static int (*real_posix_memalign)(void **, size_t, size_t);
static void *(*real_aligned_alloc)(size_t, size_t);

static atomic_ulong calls;
static unsigned long refuse_at;
static int refuse_on, sites = -1, refused = -1, is_ready;

/* What dlsym takes before the real functions are known. */
static char early[4096];
static size_t early_used;

static void *take_early(size_t size) {
    size_t begin = (early_used + 15) & ~(size_t)15;
    if (begin + size > sizeof early) abort();
    early_used = begin + size;
    return early + begin;
}

static void *named(const char *name) {
    void *found = dlsym(RTLD_NEXT, name);
    if (!found) abort();
    return found;
}

static unsigned long number_in(const char *name) {
    const char *text = getenv(name);
    return text ? strtoul(text, NULL, 10) : 0;
}

static int file_in(const char *name) {
    const char *file = getenv(name);
    return file ? open(file, O_WRONLY | O_CREAT | O_TRUNC | O_CLOEXEC, 0644) : -1;
}

__attribute__((constructor)) static void begin(void) {
    real_malloc = named("malloc");
    real_calloc = named("calloc");
    real_realloc = named("realloc");
    real_posix_memalign = named("posix_memalign");
    real_aligned_alloc = named("aligned_alloc");
    refuse_at = number_in("REFUSE_AT");
    refuse_on = number_in("REFUSE_ON") == 1;
    sites = file_in("REFUSE_SITES");
    refused = file_in("REFUSE_SEEN");
    is_ready = 1;
}

/* Frames that a function's frame pointer leads to, while they lie one above the other within the stack's next MiB. */
static uint64_t site(void) {
    uint64_t sum = 1469598103934665603u;
    uintptr_t *frame = __builtin_frame_address(0), first = (uintptr_t)frame;
    for (int depth = 0; depth < 64; depth++) {
        uintptr_t above = frame[0], from = frame[1];
        sum = (sum ^ from) * 1099511628211u;
        if (above <= (uintptr_t)frame || above - first > 1 << 20 || above % sizeof above) break;
        frame = (uintptr_t *)above;
    }
    return sum;
}

static int is_refused(void) {
    if (!is_ready) return 0;
    unsigned long number = atomic_fetch_add(&calls, 1) + 1;
    if (sites >= 0) {
        char line[24];
        int length = snprintf(line, sizeof line, "%016llx\n", (unsigned long long)site());
        if (write(sites, line, (size_t)length) != length) abort();
    }
    if (!refuse_at || number < refuse_at || (number > refuse_at && !refuse_on)) return 0;
    if (refused >= 0 && write(refused, "1", 1) != 1) abort();
    return 1;
}

void *malloc(size_t size) {
    if (!real_malloc) return take_early(size);
    if (is_refused()) return errno = ENOMEM, NULL;
    return real_malloc(size);
}

void *calloc(size_t count, size_t size) {
    if (!real_calloc) return take_early(count * size);
    if (is_refused()) return errno = ENOMEM, NULL;
    return real_calloc(count, size);
}

void *realloc(void *old, size_t size) {
    if (size && is_refused()) return errno = ENOMEM, NULL;
    return real_realloc(old, size);
}

int posix_memalign(void **into, size_t align, size_t size) {
    if (is_refused()) return ENOMEM;
    return real_posix_memalign(into, align, size);
}

void *aligned_alloc(size_t align, size_t size) {
    if (is_refused()) return errno = ENOMEM, NULL;
    return real_aligned_alloc(align, size);
}
