/* What two agents on 127.0.0.1 answer, alternately, in turns so short that a machine whose speed changes is the same
 * for both: flood ON-THE-WAY MILLISECONDS TURNS PORT MESSAGE PORT MESSAGE
 *
 * Each MESSAGE, in hex, is one that the agent at the PORT before it answers as often as it comes. It is kept ON-THE-WAY
 * times on its way, more than an agent answers meanwhile, so that the agent never waits. A line a turn: the answers a
 * second of the one, and of the other. Not proved. */
#define _GNU_SOURCE
#include <arpa/inet.h>
#include <stdint.h>
#include <stdio.h>
#include <stdlib.h>
#include <string.h>
#include <sys/socket.h>
#include <time.h>
#include <unistd.h>

struct agent {
    int socket;
    uint8_t message[1500];
    size_t len;
};

static double now(void) {
    struct timespec it;
    clock_gettime(CLOCK_MONOTONIC, &it);
    return (double)it.tv_sec + 1e-9 * (double)it.tv_nsec;
}

static void must(int holds, const char *what) {
    if (holds) return;
    perror(what);
    exit(1);
}

static void begin(struct agent *it, const char *port, const char *hex) {
    struct sockaddr_in to = {.sin_family = AF_INET, .sin_port = htons((uint16_t)atoi(port)),
                             .sin_addr = {htonl(INADDR_LOOPBACK)}};
    struct timeval limit = {2, 0};
    it->socket = socket(AF_INET, SOCK_DGRAM, 0);
    must(it->socket >= 0 && !connect(it->socket, (struct sockaddr *)&to, sizeof to), "connect");
    must(!setsockopt(it->socket, SOL_SOCKET, SO_RCVTIMEO, &limit, sizeof limit), "a limit");
    for (it->len = 0; it->len < sizeof it->message && sscanf(hex + 2 * it->len, "%2hhx", &it->message[it->len]) == 1;
         it->len++) {}
}

static void ask(const struct agent *it) { must(send(it->socket, it->message, it->len, 0) == (ssize_t)it->len, "send"); }

static void hear(const struct agent *it) {
    uint8_t answer[1500];
    must(recv(it->socket, answer, sizeof answer, 0) > 0, "an answer");
}

/* The answers a second of one turn. What is on the way at its end is waited for. */
static double turn(const struct agent *it, int on_the_way, double seconds) {
    long heard = 0;
    double since = now(), until = since + seconds, ended;
    for (int i = 0; i < on_the_way; i++) ask(it);
    while ((ended = now()) < until)
        for (int i = 0; i < 16; i++, heard++) {
            hear(it);
            ask(it);
        }
    for (int i = 0; i < on_the_way; i++) hear(it);
    return (double)heard / (ended - since);
}

int main(int argc, char **argv) {
    struct agent agents[2];
    if (argc != 8) return 2;
    for (int i = 0; i < 2; i++) begin(&agents[i], argv[4 + 2 * i], argv[5 + 2 * i]);
    for (int i = 0; i < atoi(argv[3]); i++) {
        double first = turn(&agents[i % 2], atoi(argv[1]), atof(argv[2]) / 1000),
            second = turn(&agents[1 - i % 2], atoi(argv[1]), atof(argv[2]) / 1000);
        printf("%.0f %.0f\n", i % 2 ? second : first, i % 2 ? first : second);
    }
    return 0;
}
