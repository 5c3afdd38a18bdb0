/* The peer of submissions over kept connections: four threads on one listener of 127.0.0.1, each of which serves one connection after another. To each
 * request it answers one fixed text, behind the calls that an entry of the journal costs and nothing else: two positioned writes of 200 bytes and of one, each
 * followed by fdatasync, under one lock, on a file with zeros ahead. So it says what four connections can reach beside appends alone on a machine.
 * Where INSIDE is named, it keeps a processor busy for so many microseconds within the lock, before and behind these calls by halves.
 * Build: cc -O2 -pthread -o submit_peer submit_peer.c. Run: submit_peer PORT PATH [INSIDE]. */
#define _GNU_SOURCE
#include <arpa/inet.h>
#include <fcntl.h>
#include <netinet/in.h>
#include <netinet/tcp.h>
#include <pthread.h>
#include <stdio.h>
#include <stdlib.h>
#include <string.h>
#include <sys/socket.h>
#include <time.h>
#include <unistd.h>

enum { LANES = 4, REQUEST_BYTES = 16384, ENTRY_BYTES = 200, JOURNAL_BYTES = 1 << 26 };

static const char answer[] =
    "HTTP/1.1 200 OK\r\nContent-Type: application/json\r\nContent-Length: 49\r\n\r\n"
    "{\"job_id\":\"00000000-0000-4000-8000-000000000001\"}";

static pthread_mutex_t turn = PTHREAD_MUTEX_INITIALIZER;
static int journal;
static off_t end;
static long inside;

static long nanoseconds(void) {
    struct timespec now;
    clock_gettime(CLOCK_MONOTONIC, &now);
    return now.tv_sec * 1000000000L + now.tv_nsec;
}

static void work(long nanos) {
    long until = nanoseconds() + nanos;
    while (nanos > 0 && nanoseconds() < until) {}
}

static int synced(const char *bytes, size_t count, off_t at) {
    return pwrite(journal, bytes, count, at) == (ssize_t)count && fdatasync(journal) == 0;
}

static int append(void) {
    static const char entry[ENTRY_BYTES] = {7};
    pthread_mutex_lock(&turn);
    work(inside / 2);
    if (end + ENTRY_BYTES + 1 > JOURNAL_BYTES) end = 0;
    int done = synced(entry, ENTRY_BYTES, end + 1) && synced("\1", 1, end);
    end += ENTRY_BYTES + 1;
    work(inside / 2);
    pthread_mutex_unlock(&turn);
    return done;
}

/* The bytes of the first request whose head and body are there, and 0 while they aren't. */
static size_t whole(const char *request, size_t held) {
    const char *head_end = memmem(request, held, "\r\n\r\n", 4);
    if (head_end == NULL) return 0;
    const char *length = memmem(request, (size_t)(head_end - request), "Content-Length: ", 16);
    size_t used = (size_t)(head_end - request) + 4 + (length == NULL ? 0 : strtoul(length + 16, NULL, 10));
    return used <= held ? used : 0;
}

static void serve(int line) {
    char request[REQUEST_BYTES + 1];
    size_t held = 0, used;
    for (;;) {
        ssize_t n = read(line, request + held, REQUEST_BYTES - held);
        if (n <= 0) return;
        held += (size_t)n;
        request[held] = 0;
        while ((used = whole(request, held)) != 0) {
            memmove(request, request + used, held - used);
            held -= used;
            if (!append() || write(line, answer, sizeof answer - 1) != (ssize_t)(sizeof answer - 1)) return;
        }
        if (held == REQUEST_BYTES) return;
    }
}

static void *lane(void *listener) {
    for (;;) {
        int line = accept(*(int *)listener, NULL, NULL);
        if (line < 0) continue;
        int one = 1;
        setsockopt(line, IPPROTO_TCP, TCP_NODELAY, &one, sizeof one);
        serve(line);
        close(line);
    }
    return NULL;
}

/* Fills the journal with zeros, so that an append grows no file. */
static int made(const char *path) {
    static const char zeros[1 << 16];
    journal = open(path, O_RDWR | O_CREAT | O_TRUNC, 0644);
    for (off_t at = 0; journal >= 0 && at < JOURNAL_BYTES; at += sizeof zeros)
        if (pwrite(journal, zeros, sizeof zeros, at) != sizeof zeros) return 0;
    return journal >= 0 && fsync(journal) == 0;
}

int main(int count, char **words) {
    if (count < 3) return fprintf(stderr, "submit_peer PORT PATH [INSIDE]\n"), 2;
    inside = count > 3 ? 1000 * atol(words[3]) : 0;
    if (!made(words[2])) return perror("submit_peer"), 1;
    int listener = socket(AF_INET, SOCK_STREAM, 0), one = 1;
    struct sockaddr_in at = {.sin_family = AF_INET, .sin_port = htons((unsigned short)atoi(words[1])), .sin_addr = {htonl(INADDR_LOOPBACK)}};
    setsockopt(listener, SOL_SOCKET, SO_REUSEADDR, &one, sizeof one);
    if (bind(listener, (struct sockaddr *)&at, sizeof at) != 0 || listen(listener, 128) != 0) return perror("submit_peer"), 1;
    pthread_t threads[LANES];
    for (int i = 0; i < LANES; i++) pthread_create(&threads[i], NULL, lane, &listener);
    for (int i = 0; i < LANES; i++) pthread_join(threads[i], NULL);
    return 0;
}
