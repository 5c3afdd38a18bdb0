// The steps of a verified copy, by hand, for bench/copy.sh: the same looks, reads, writes and syncs, with no name kept in memory but the paths.
// copy_peer ROOT SET COUNT FOLDERS copies SET/fN, or SET/dM/fN where FOLDERS is more than 1 (M is N modulo FOLDERS), as benches does.
// copy_peer ROOT SET COUNT FOLDERS JOURNAL appends a record of 12 bytes before each copy and one of 40 behind it, as a session's claim and report:
// each by a write of what stands behind the gate, a sync, a write of the gate and a sync, over zeros that were written ahead.
#include <errno.h>
#include <fcntl.h>
#include <stdint.h>
#include <stdio.h>
#include <stdlib.h>
#include <string.h>
#include <sys/stat.h>
#include <unistd.h>

enum { PIECE = 65536 };

static uint32_t constants[64];
static const int shifts[64] = {7, 12, 17, 22, 7, 12, 17, 22, 7, 12, 17, 22, 7, 12, 17, 22, 5, 9, 14, 20, 5, 9, 14, 20, 5, 9, 14, 20, 5, 9, 14, 20,
                               4, 11, 16, 23, 4, 11, 16, 23, 4, 11, 16, 23, 4, 11, 16, 23, 6, 10, 15, 21, 6, 10, 15, 21, 6, 10, 15, 21, 6, 10, 15, 21};

struct md5 { uint32_t h[4]; unsigned char block[64]; uint64_t total; };

// sin(n) for n from 1 to 64, by its series after taking off whole turns: no library but libc is needed
static double sine(double x) {
    const double turn = 6.283185307179586476925;
    while (x > turn / 2) x -= turn;
    double term = x, sum = x;
    for (int k = 1; k < 20; k++) { term *= -x * x / ((2 * k) * (2 * k + 1)); sum += term; }
    return sum;
}

static void md5_begin(struct md5 *m) {
    m->h[0] = 0x67452301; m->h[1] = 0xefcdab89; m->h[2] = 0x98badcfe; m->h[3] = 0x10325476; m->total = 0;
    if (!constants[0])
        for (int i = 0; i < 64; i++) { double s = sine(i + 1); constants[i] = (uint32_t)((s < 0 ? -s : s) * 4294967296.0); }
}

static void md5_block(uint32_t *h, const unsigned char *p) {
    uint32_t a = h[0], b = h[1], c = h[2], d = h[3], w[16];
    memcpy(w, p, 64);
    for (int i = 0; i < 64; i++) {
        uint32_t f; int g;
        if (i < 16) { f = (b & c) | (~b & d); g = i; }
        else if (i < 32) { f = (d & b) | (~d & c); g = (5 * i + 1) & 15; }
        else if (i < 48) { f = b ^ c ^ d; g = (3 * i + 5) & 15; }
        else { f = c ^ (b | ~d); g = (7 * i) & 15; }
        uint32_t x = a + f + constants[i] + w[g];
        a = d; d = c; c = b; b += (x << shifts[i]) | (x >> (32 - shifts[i]));
    }
    h[0] += a; h[1] += b; h[2] += c; h[3] += d;
}

static void md5_add(struct md5 *m, const unsigned char *p, size_t n) {
    size_t at = m->total & 63;
    m->total += n;
    if (at && n >= 64 - at) { memcpy(m->block + at, p, 64 - at); md5_block(m->h, m->block); p += 64 - at; n -= 64 - at; at = 0; }
    if (!at) for (; n >= 64; p += 64, n -= 64) md5_block(m->h, p);
    memcpy(m->block + at, p, n);
}

static void md5_end(struct md5 *m, unsigned char *out) {
    uint64_t bits = m->total * 8;
    static const unsigned char pad[64] = {0x80};
    md5_add(m, pad, 1 + ((119 - m->total % 64) % 64));
    md5_add(m, (unsigned char *)&bits, 8);
    memcpy(out, m->h, 16);
}

static ssize_t fill(int fd, unsigned char *into, size_t wanted, off_t at) {
    size_t got = 0;
    while (got < wanted) {
        ssize_t n = pread(fd, into + got, wanted - got, at + got);
        if (n < 0) return -1;
        if (n == 0) break;
        got += n;
    }
    return got;
}

static unsigned char first[PIECE], second[PIECE];

static int copy(const char *from, const char *part, const char *to, const char *folder) {
    struct stat look;
    struct md5 one, two;
    unsigned char wrote[16], held[16];
    if (stat(from, &look) || !S_ISREG(look.st_mode)) return 0;
    off_t size = look.st_size;
    int out = open(part, O_RDWR | O_CREAT | O_EXCL | O_CLOEXEC, 0666), in = open(from, O_RDONLY | O_CLOEXEC);
    if (out < 0 || in < 0) return 0;
    md5_begin(&one); md5_begin(&two);
    for (off_t at = 0; at < size; at += PIECE) {
        size_t wanted = size - at < PIECE ? size - at : PIECE;
        if (fill(in, first, wanted, at) != (ssize_t)wanted || write(out, first, wanted) != (ssize_t)wanted) return 0;
        md5_add(&one, first, wanted);
    }
    md5_end(&one, wrote);
    for (off_t at = 0; at < size; at += PIECE) {
        size_t wanted = size - at < PIECE ? size - at : PIECE;
        if (fill(in, first, wanted, at) != (ssize_t)wanted || fill(out, second, wanted, at) != (ssize_t)wanted || memcmp(first, second, wanted)) return 0;
        md5_add(&two, second, wanted);
    }
    md5_end(&two, held);
    if (fill(in, first, 1, size) != 0 || fill(out, second, 1, size) != 0 || memcmp(wrote, held, 16) || fdatasync(out)) return 0;
    int above = open(folder, O_RDONLY | O_CLOEXEC);
    int done = above >= 0 && !rename(part, to) && !fsync(above);
    close(above); close(in); close(out);
    return done;
}

// Makes the name of a folder stable: the folder above is synced.
static int sync_above(const char *folder) {
    char above[8192];
    snprintf(above, sizeof above, "%s", folder);
    char *end = strrchr(above, '/');
    if (!end) return 0;
    *end = 0;
    int open_above = open(above, O_RDONLY | O_CLOEXEC);
    int done = open_above >= 0 && !fsync(open_above);
    close(open_above);
    return done;
}

// Makes a folder and those above it, each of which is synced once.
static int make_folder(const char *path) {
    char folder[8192];
    snprintf(folder, sizeof folder, "%s", path);
    for (char *end = folder + 1;; end++) {
        if (*end && *end != '/') continue;
        char was = *end;
        *end = 0;
        if (!mkdir(folder, 0777)) { if (!sync_above(folder)) return 0; }
        else if (errno != EEXIST) return 0;
        *end = was;
        if (!was) return 1;
    }
}

static int journal = -1;
static off_t used = 8;

static int begin_journal(const char *path) {
    static unsigned char zeros[1 << 20];
    journal = open(path, O_RDWR | O_CREAT | O_TRUNC | O_CLOEXEC, 0666);
    return journal >= 0 && pwrite(journal, zeros, sizeof zeros, 0) == sizeof zeros && !fsync(journal);
}

// Appends a record of so many bytes, where there is a journal.
static int append(size_t size) {
    static const unsigned char record[64] = {1}, gate = 1;
    if (journal < 0) return 1;
    int done = pwrite(journal, record, size + 5, used + 1) == (ssize_t)size + 5 && !fdatasync(journal)
        && pwrite(journal, &gate, 1, used) == 1 && !fdatasync(journal);
    used += size + 5;
    return done;
}

int main(int count, char **words) {
    if (count < 5) return 2;
    static char from[8192], part[8192], to[8192], folder[8192], set[1024];
    int files = atoi(words[3]), folders = atoi(words[4]), verified = 0;
    snprintf(folder, sizeof folder, "%s/https:,,b.example/.fts", words[1]);
    if (!make_folder(folder) || (count > 5 && !begin_journal(words[5]))) return 1;
    for (int n = 0; n < files; n++) {
        if (folders > 1) snprintf(set, sizeof set, "%s/d%d", words[2], n % folders); else snprintf(set, sizeof set, "%s", words[2]);
        snprintf(from, sizeof from, "%s/https:,,a.example/%s/f%d", words[1], set, n);
        snprintf(folder, sizeof folder, "%s/https:,,b.example/%s", words[1], set);
        snprintf(to, sizeof to, "%s/https:,,b.example/%s/f%d", words[1], set, n);
        snprintf(part, sizeof part, "%s/https:,,b.example/.fts/part-%d", words[1], n);
        if (n < folders && !make_folder(folder)) return 1;
        if (!append(12)) return 1;
        verified += copy(from, part, to, folder);
        if (!append(40)) return 1;
    }
    printf("verified %d\n", verified);
    return 0;
}
