/* The peer of `fts serve` in the benchmark of a GET: four threads on one listener of 127.0.0.1, each of which serves one connection after another,
 * reads heads up to their empty line, and writes one fixed answer to each. Build: cc -O2 -pthread -o serve_peer serve_peer.c. Run: serve_peer PORT. */
#define _GNU_SOURCE
#include <arpa/inet.h>
#include <netinet/in.h>
#include <netinet/tcp.h>
#include <pthread.h>
#include <stdio.h>
#include <stdlib.h>
#include <string.h>
#include <sys/socket.h>
#include <unistd.h>

enum { LANES = 4, HEAD_BYTES = 16384 };

/* The answer to a GET of the benchmark's job, byte for byte as long as the service's. */
static const char answer[] =
    "HTTP/1.1 200 OK\r\nContent-Type: application/json\r\nContent-Length: 168\r\n\r\n"
    "{\"job_id\":\"00000000-0000-4000-8000-000000000001\",\"job_state\":\"FINISHED\",\"kind\":\"plain\","
    "\"priority\":3,\"retry\":0,\"retry_delay\":0,\"submit_time\":1700000000,\"vo_name\":\"demo\"}";

static void serve(int line) {
    char head[HEAD_BYTES];
    size_t held = 0;
    for (;;) {
        ssize_t n = read(line, head + held, sizeof head - held);
        if (n <= 0) return;
        held += (size_t)n;
        char *end;
        while ((end = memmem(head, held, "\r\n\r\n", 4)) != NULL) {
            size_t used = (size_t)(end - head) + 4;
            memmove(head, head + used, held - used);
            held -= used;
            if (write(line, answer, sizeof answer - 1) != (ssize_t)(sizeof answer - 1)) return;
        }
        if (held == sizeof head) return;
    }
}

static void *lane(void *listener) {
    for (;;) {
        int line = accept(*(int *)listener, NULL, NULL);
        if (line < 0) continue;
        int one = 1;
        setsockopt(line, IPPROTO_TCP, TCP_NODELAY, &one, sizeof one);
        serve(line);
        close(line);
    }
    return NULL;
}

int main(int count, char **words) {
    if (count != 2) return fprintf(stderr, "serve_peer PORT\n"), 2;
    int listener = socket(AF_INET, SOCK_STREAM, 0), one = 1;
    struct sockaddr_in at = {.sin_family = AF_INET, .sin_port = htons((unsigned short)atoi(words[1])), .sin_addr = {htonl(INADDR_LOOPBACK)}};
    setsockopt(listener, SOL_SOCKET, SO_REUSEADDR, &one, sizeof one);
    if (bind(listener, (struct sockaddr *)&at, sizeof at) != 0 || listen(listener, 128) != 0) return perror("serve_peer"), 1;
    pthread_t threads[LANES];
    for (int i = 0; i < LANES; i++) pthread_create(&threads[i], NULL, lane, &listener);
    for (int i = 0; i < LANES; i++) pthread_join(threads[i], NULL);
    return 0;
}
