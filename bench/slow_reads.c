/* Keeps a copy of fts waiting: preloaded, it lets each read of a whole piece of a copy (64 KiB) last a minute. The journal reads nothing of that size
   once the service answers. So the worker of `submissions.sh` holds its file and takes no turn meanwhile.
       cc -O2 -shared -fPIC -o slow_reads.so slow_reads.c */
#define _GNU_SOURCE
#include <dlfcn.h>
#include <sys/types.h>
#include <unistd.h>

ssize_t pread(int file, void *into, size_t count, off_t offset) {
    static ssize_t (*next)(int, void *, size_t, off_t);
    if (!next) next = (ssize_t (*)(int, void *, size_t, off_t))dlsym(RTLD_NEXT, "pread");
    if (count >= 65536) sleep(60);
    return next(file, into, count, offset);
}
