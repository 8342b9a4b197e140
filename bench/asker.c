/* Asks an agent, or a gateway, on 127.0.0.1 and times its answers: asker PORT MESSAGE SOCKETS MILLISECONDS [MOST]
 *
 * MESSAGE, in hex, is one that is answered as often as it comes. Each of SOCKETS sockets sends it, waits for the
 * answer, and sends it again, so that none has two on their way; one that is lost is sent again after a fifth of a
 * second. It ends after MILLISECONDS, or after MOST answers. It prints how many answers came, in how many seconds, and
 * after how many microseconds the middle one and the 99th of a hundred came. */
#define _GNU_SOURCE
#include <arpa/inet.h>
#include <poll.h>
#include <stdint.h>
#include <stdio.h>
#include <stdlib.h>
#include <sys/socket.h>
#include <time.h>

enum { MOST_SOCKETS = 256, MOST_ANSWERS = 1 << 20, LOST = 200 /* milliseconds */ };

static uint8_t message[65536], answer[65536];
static size_t message_len, answers;
static double sent_at[MOST_SOCKETS], taken[MOST_ANSWERS];
static struct pollfd sockets[MOST_SOCKETS];

static double now(void) {
    struct timespec it;
    clock_gettime(CLOCK_MONOTONIC, &it);
    return (double)it.tv_sec + 1e-9 * (double)it.tv_nsec;
}

static void begin(int n, const char *port) {
    struct sockaddr_in to = {.sin_family = AF_INET, .sin_port = htons((uint16_t)atoi(port)),
                             .sin_addr = {htonl(INADDR_LOOPBACK)}};
    sockets[n] = (struct pollfd){.fd = socket(AF_INET, SOCK_DGRAM, 0), .events = POLLIN};
    if (sockets[n].fd < 0 || connect(sockets[n].fd, (struct sockaddr *)&to, sizeof to)) { perror("asker"); exit(1); }
}

static void ask(int n) {
    sent_at[n] = now();
    (void)!send(sockets[n].fd, message, message_len, 0);
}

static void hear(int n) {
    if (recv(sockets[n].fd, answer, sizeof answer, MSG_DONTWAIT) > 0) {
        if (answers < MOST_ANSWERS) taken[answers++] = now() - sent_at[n];
        ask(n);
    }
}

static int compare(const void *a, const void *b) {
    double one = *(const double *)a, other = *(const double *)b;
    return (one > other) - (one < other);
}

static double at(size_t part, size_t of) {
    return answers ? 1e6 * taken[answers * part / of < answers ? answers * part / of : answers - 1] : 0;
}

int main(int argc, char **argv) {
    if (argc < 5 || argc > 6) return 2;
    int count = atoi(argv[3]);
    size_t most = argc == 6 ? (size_t)atol(argv[5]) : MOST_ANSWERS;
    if (count < 1 || count > MOST_SOCKETS) return 2;
    while (message_len < sizeof message && sscanf(argv[2] + 2 * message_len, "%2hhx", &message[message_len]) == 1)
        message_len++;
    for (int n = 0; n < count; n++) begin(n, argv[1]);
    double begun = now(), end = begun + atof(argv[4]) / 1000;
    for (int n = 0; n < count; n++) ask(n);
    while (now() < end && answers < most) {
        poll(sockets, (nfds_t)count, LOST);
        for (int n = 0; n < count; n++) {
            if (sockets[n].revents) hear(n);
            else if (now() - sent_at[n] > 1e-3 * LOST) ask(n);
        }
    }
    double seconds = now() - begun;
    qsort(taken, answers, sizeof *taken, compare);
    printf("%zu %.6f %.1f %.1f\n", answers, seconds, at(50, 100), at(99, 100));
    return 0;
}
