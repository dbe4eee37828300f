/* Answers each request with the bytes of a file, and does nothing else: what the sockets and the system cost.
 *
 *   fixed PORT WORKERS CONNECTIONS FILE
 *
 * As the host does it: workers take connections in turn, each reads one request and writes one answer after another.
 */
#include <arpa/inet.h>
#include <netinet/in.h>
#include <netinet/tcp.h>
#include <pthread.h>
#include <stdio.h>
#include <stdlib.h>
#include <string.h>
#include <sys/socket.h>
#include <unistd.h>

#include "message.h"

enum { ROOM = 1 << 19 };

static int listener;
static long left;
static char *answer;
static size_t answer_length;
static pthread_mutex_t lock = PTHREAD_MUTEX_INITIALIZER;

static void serve(int stream, char *room) {
    size_t held = 0, size;
    for (;;) {
        while ((size = message(room, held)) == 0) {
            ssize_t got = held < ROOM ? read(stream, room + held, ROOM - held) : 0;
            if (got <= 0)
                return;
            held += got;
        }
        memmove(room, room + size, held - size);
        held -= size;
        for (size_t sent = 0; sent < answer_length;) {
            ssize_t took = write(stream, answer + sent, answer_length - sent);
            if (took <= 0)
                return;
            sent += took;
        }
    }
}

static void *work(void *unused) {
    (void)unused;
    char *room = malloc(ROOM);
    for (;;) {
        pthread_mutex_lock(&lock);
        int stream = left > 0 ? accept(listener, NULL, NULL) : -1;
        left -= stream >= 0;
        pthread_mutex_unlock(&lock);
        if (stream < 0)
            break;
        int one = 1;
        setsockopt(stream, IPPROTO_TCP, TCP_NODELAY, &one, sizeof one);
        serve(stream, room);
        close(stream);
    }
    free(room);
    return NULL;
}

int main(int count, char **words) {
    if (count != 5)
        return 2;
    int workers = atoi(words[2]);
    left = atol(words[3]);
    FILE *file = fopen(words[4], "rb");
    if (!file)
        return 1;
    fseek(file, 0, SEEK_END);
    answer_length = ftell(file);
    rewind(file);
    answer = malloc(answer_length);
    if (fread(answer, 1, answer_length, file) != answer_length)
        return 1;
    listener = socket(AF_INET, SOCK_STREAM, 0);
    int one = 1;
    setsockopt(listener, SOL_SOCKET, SO_REUSEADDR, &one, sizeof one);
    struct sockaddr_in at = {.sin_family = AF_INET, .sin_port = htons(atoi(words[1])), .sin_addr.s_addr = htonl(INADDR_LOOPBACK)};
    if (bind(listener, (struct sockaddr *)&at, sizeof at) != 0 || listen(listener, 128) != 0)
        return 3;
    pthread_t *threads = calloc(workers, sizeof *threads);
    for (int n = 0; n < workers; n++)
        pthread_create(&threads[n], NULL, work, NULL);
    for (int n = 0; n < workers; n++)
        pthread_join(threads[n], NULL);
    return 0;
}
