/* Sends the requests of a file over several connections at once, so many of each in flight, and prints what it took.
 *
 *   load PORT SECONDS DEPTH FILE..
 *
 * One connection for each file, which at first sends DEPTH requests by one call, and then as many as were answered. A connection ends with
 * its file or after SECONDS. The one line printed: answers, answers of another status
 * than 2xx, seconds from the first request to the last answer, and the latencies in microseconds: half, nine tenths, 99 hundredths, greatest.
 */
#include <arpa/inet.h>
#include <netinet/in.h>
#include <netinet/tcp.h>
#include <pthread.h>
#include <stdio.h>
#include <stdlib.h>
#include <string.h>
#include <sys/socket.h>
#include <time.h>
#include <unistd.h>

#include "message.h"

enum { ROOM = 1 << 20 };

struct client {
    char *requests;
    size_t length;
    int stream;
    double *latencies;
    size_t answers, refused;
    double first, last;
};

static int port;
static size_t depth;
static double limit;
static pthread_barrier_t together;

static double now(void) {
    struct timespec t;
    clock_gettime(CLOCK_MONOTONIC, &t);
    return t.tv_sec + t.tv_nsec / 1e9;
}

static void fail(const char *what) {
    perror(what);
    exit(1);
}

static void send_all(int stream, const char *data, size_t length) {
    while (length > 0) {
        ssize_t sent = write(stream, data, length);
        if (sent <= 0)
            fail("write");
        data += sent;
        length -= sent;
    }
}

/* The place behind the requests that are sent next, so that as many are in flight as may be. */
static size_t ahead(struct client *client, size_t at, size_t *flight) {
    size_t size;
    while (*flight < depth && at < client->length && (size = message(client->requests + at, client->length - at)) > 0) {
        at += size;
        ++*flight;
    }
    return at;
}

static void *serve(void *given) {
    struct client *client = given;
    char *room = malloc(ROOM);
    double *begun = malloc(depth * sizeof(double));
    size_t at = 0, held = 0, flight = 0, sent = 0, size;
    pthread_barrier_wait(&together);
    client->first = now();
    for (;;) {
        double begin = now();
        size_t end = begin - client->first > limit ? at : ahead(client, at, &flight);
        send_all(client->stream, client->requests + at, end - at);
        at = end;
        while (sent < client->answers + flight)
            begun[sent++ % depth] = begin;
        if (flight == 0)
            break;
        if (held == ROOM)
            fail("an answer without an end");
        ssize_t got = read(client->stream, room + held, ROOM - held);
        if (got <= 0)
            fail("read");
        held += got;
        size_t begins = 0;
        client->last = now();
        while ((size = message(room + begins, held - begins)) > 0) {
            client->latencies[client->answers] = client->last - begun[client->answers % depth];
            client->refused += room[begins + 9] != '2';
            client->answers++;
            begins += size;
            flight--;
        }
        memmove(room, room + begins, held - begins);
        held -= begins;
    }
    close(client->stream);
    free(begun);
    free(room);
    return NULL;
}

static void prepare(struct client *client, const char *name) {
    FILE *file = fopen(name, "rb");
    if (!file)
        fail(name);
    fseek(file, 0, SEEK_END);
    client->length = ftell(file);
    rewind(file);
    client->requests = malloc(client->length);
    if (fread(client->requests, 1, client->length, file) != client->length)
        fail(name);
    fclose(file);
    /* No request is shorter than 16 bytes. */
    client->latencies = malloc((client->length / 16 + 1) * sizeof(double));
    client->stream = socket(AF_INET, SOCK_STREAM, 0);
    int one = 1;
    setsockopt(client->stream, IPPROTO_TCP, TCP_NODELAY, &one, sizeof one);
    struct sockaddr_in to = {.sin_family = AF_INET, .sin_port = htons(port), .sin_addr.s_addr = htonl(INADDR_LOOPBACK)};
    if (connect(client->stream, (struct sockaddr *)&to, sizeof to) != 0)
        fail("connect");
}

static int rising(const void *a, const void *b) {
    double x = *(const double *)a, y = *(const double *)b;
    return (x > y) - (x < y);
}

int main(int count, char **words) {
    if (count < 5)
        return 2;
    int clients = count - 4;
    port = atoi(words[1]);
    limit = atof(words[2]);
    depth = atol(words[3]);
    struct client *all = calloc(clients, sizeof *all);
    pthread_t *threads = calloc(clients, sizeof *threads);
    pthread_barrier_init(&together, NULL, clients);
    for (int n = 0; n < clients; n++)
        prepare(&all[n], words[4 + n]);
    for (int n = 0; n < clients; n++)
        pthread_create(&threads[n], NULL, serve, &all[n]);
    size_t answers = 0, refused = 0;
    double first = 0, last = 0;
    for (int n = 0; n < clients; n++) {
        pthread_join(threads[n], NULL);
        answers += all[n].answers;
        refused += all[n].refused;
        first = n == 0 || all[n].first < first ? all[n].first : first;
        last = all[n].last > last ? all[n].last : last;
    }
    if (answers == 0)
        fail("no answers");
    double *latencies = malloc(answers * sizeof(double));
    size_t at = 0;
    for (int n = 0; n < clients; n++) {
        memcpy(latencies + at, all[n].latencies, all[n].answers * sizeof(double));
        at += all[n].answers;
    }
    qsort(latencies, answers, sizeof(double), rising);
    printf("%zu %zu %.6f %.1f %.1f %.1f %.1f\n", answers, refused, last - first, latencies[answers / 2] * 1e6, latencies[answers * 9 / 10] * 1e6,
           latencies[answers * 99 / 100] * 1e6, latencies[answers - 1] * 1e6);
    return 0;
}
