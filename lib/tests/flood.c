/* What an agent on 127.0.0.1 answers to a user, alone and beside a flood: flood PORT MESSAGE HOSTILE RATE TURNS MILLISECONDS [PROCESS]
 *
 * MESSAGE, in hex, is one that the agent answers as often as it comes; it is kept 16 times on its way. HOSTILE is sent RATE times a second from
 * another port meanwhile, in each second turn. A line a turn: the answers a second alone, those beside the flood, and how many hostile messages a
 * second came to the agent: those that were sent but for what its socket had no room for.
 *
 * With the agent's PROCESS each second is one of the agent's processor, and RATE is how many hostile messages are sent for each answer that it
 * gives alone in such a second. So neither the machine's speed nor other work on it changes what is counted. Not proved. */
#define _GNU_SOURCE
#include <arpa/inet.h>
#include <poll.h>
#include <pthread.h>
#include <stdatomic.h>
#include <stdbool.h>
#include <stdint.h>
#include <stdio.h>
#include <stdlib.h>
#include <string.h>
#include <sys/socket.h>
#include <time.h>

enum { ON_THE_WAY = 16, LOST = 20 /* milliseconds */, MOST_TURN = 5 /* seconds */ };

struct message { int socket; uint8_t octets[65536]; size_t len; };
static struct message asked, hostile;
static atomic_bool is_flooding, is_ended;
static atomic_long sent;
static _Atomic double rate; /* a second of the clock */
static clockid_t seconds_of = CLOCK_MONOTONIC;

static double read_clock(clockid_t clock) {
    struct timespec it;
    clock_gettime(clock, &it);
    return (double)it.tv_sec + 1e-9 * (double)it.tv_nsec;
}

static double now(void) { return read_clock(seconds_of); }

/* How many messages the socket of this port had no room for so far. */
static long dropped(const char *port) {
    char line[512], local[8], end[8];
    long none = 0, found;
    FILE *file = fopen("/proc/net/udp", "r");
    snprintf(end, sizeof end, ":%04X", (unsigned)atoi(port));
    while (file && fgets(line, sizeof line, file))
        if (sscanf(line, " %*d: %*8[0-9A-F]%5s %*s %*s %*s %*s %*s %*s %*s %*s %*s %*s %ld", local, &found) == 2 && !strcmp(local, end)) none = found;
    if (file) fclose(file);
    return none;
}

static void begin(struct message *it, const char *port, const char *hex) {
    struct sockaddr_in to = {.sin_family = AF_INET, .sin_port = htons((uint16_t)atoi(port)), .sin_addr = {htonl(INADDR_LOOPBACK)}};
    it->socket = socket(AF_INET, SOCK_DGRAM, 0);
    if (it->socket < 0 || connect(it->socket, (struct sockaddr *)&to, sizeof to)) { perror("flood"); exit(1); }
    for (it->len = 0; it->len < sizeof it->octets && sscanf(hex + 2 * it->len, "%2hhx", &it->octets[it->len]) == 1; it->len++) {}
}

static void ask(const struct message *it) { (void)!send(it->socket, it->octets, it->len, 0); }

static void wait_a_little(void) { nanosleep(&(struct timespec){0, 100000}, NULL); }

/* Sends as many as the rate wants by now; what nobody takes is dropped by the system. */
static void flood_once(void) {
    double since = now();
    for (long n = 0; is_flooding;) {
        if ((double)n >= (now() - since) * rate) { wait_a_little(); continue; }
        ask(&hostile);
        n++;
        sent++;
    }
}

static void *flood(void *none) {
    while (!is_ended) {
        if (is_flooding) flood_once();
        wait_a_little();
    }
    return none;
}

/* Waits for an answer, and asks again, also where one was lost: whether one came. */
static int hear(const struct message *it) {
    static uint8_t answer[65536];
    struct pollfd one = {.fd = it->socket, .events = POLLIN};
    int came = poll(&one, 1, LOST) > 0 && recv(it->socket, answer, sizeof answer, MSG_DONTWAIT) > 0;
    ask(it);
    return came;
}

/* The answers a second. A turn ends where the agent's clock stands still, too. */
static double turn(double seconds) {
    long heard = 0;
    double since = now(), ended, latest = read_clock(CLOCK_MONOTONIC) + MOST_TURN;
    while ((ended = now()) < since + seconds && read_clock(CLOCK_MONOTONIC) < latest)
        for (int i = 0; i < ON_THE_WAY; i++) heard += hear(&asked);
    return (double)heard / (ended - since);
}

int main(int argc, char **argv) {
    if (argc < 7 || argc > 8) return 2;
    pthread_t thread;
    double seconds = atof(argv[6]) / 1000, asked_rate = atof(argv[4]);
    if (argc == 8 && clock_getcpuclockid(atoi(argv[7]), &seconds_of)) return 2;
    begin(&asked, argv[1], argv[2]);
    begin(&hostile, argv[1], argv[3]);
    if (pthread_create(&thread, NULL, flood, NULL)) return 1;
    for (int i = 0; i < ON_THE_WAY; i++) ask(&asked);
    for (int i = 0; i < atoi(argv[5]); i++) {
        double alone = turn(seconds);
        rate = argc == 8 ? asked_rate * alone : asked_rate;
        sent = 0;
        long before = dropped(argv[1]);
        double since = now();
        is_flooding = true;
        double beside = turn(seconds);
        is_flooding = false;
        printf("%.0f %.0f %.0f\n", alone, beside, (double)(sent - (dropped(argv[1]) - before)) / (now() - since));
        turn(seconds / 4); /* what of the flood is still on its way */
    }
    is_ended = true;
    return pthread_join(thread, NULL) != 0;
}
