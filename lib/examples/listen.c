/* A small receiver of notifications over UDP: listen CONFIG ENGINE-ID BOOTS-FILE PORT [ADDRESS..]
 *
 * It prints the user, the level and the variables' names of each Trap and Inform that reaches PORT on 127.0.0.1, and
 * acknowledges Informs. At noAuthNoPriv they are taken from these addresses. The library decides what is reported; here
 * are the socket, the clock, the boots and the salts. It ends at SIGINT. Not proved. */
#define _GNU_SOURCE
#include "snmpsec.h"
#include "config_told.h"
#include "files.h"
#include "words_of.h"
#include <arpa/inet.h>
#include <stdio.h>
#include <stdlib.h>
#include <string.h>
#include <sys/random.h>
#include <sys/socket.h>
#include <time.h>

enum { MOST_CONFIG = 16 << 20, MOST_REMEMBERED = 65536, MOST_SOURCES = 16 };

/* Prints the names of the variables of what was reported last. */
static void print_reported(snmpsec_listener *listener) {
    static uint8_t list[SNMPSEC_LARGEST], user[32];
    size_t len, user_len;
    snmpsec_info info;
    snmpsec_binding binding;
    if (snmpsec_listener_info(listener, &info)
        || snmpsec_listener_part(listener, SNMPSEC_BINDINGS, list, sizeof list, &len)
        || snmpsec_listener_part(listener, SNMPSEC_USER, user, sizeof user, &user_len)) return;
    printf("%s of %.*s at level %d:", info.pdu == SNMPSEC_TRAP ? "trap" : "inform", (int)user_len, (const char *)user,
           info.level);
    for (size_t at = 0; at < len && !snmpsec_binding_read(list, len, &at, &binding);) {
        for (size_t i = 0; i < binding.arcs_len; i++) printf("%c%u", i ? '.' : ' ', binding.arcs[i]);
    }
    printf("\n");
    fflush(stdout);
}

static uint64_t now(void) {
    struct timespec it;
    clock_gettime(CLOCK_MONOTONIC, &it);
    return (uint64_t)it.tv_sec;
}

static uint64_t salt(void) {
    uint64_t it;
    if (getrandom(&it, sizeof it, 0) != sizeof it) abort();
    return it;
}

/* Takes what comes, and answers it. */
static void listen_at(int from, snmpsec_listener *listener) {
    static uint8_t datagram[SNMPSEC_LARGEST], answer[SNMPSEC_LARGEST];
    for (;;) {
        struct sockaddr_in sender;
        socklen_t sender_len = sizeof sender;
        char source[INET_ADDRSTRLEN];
        snmpsec_listener_event event;
        size_t len;
        int why;
        ssize_t came = recvfrom(from, datagram, sizeof datagram, 0, (struct sockaddr *)&sender, &sender_len);
        if (came < 0 || !inet_ntop(AF_INET, &sender.sin_addr, source, sizeof source)) continue;
        if (snmpsec_listener_take(listener, now(), (const uint8_t *)source, strlen(source), datagram, (size_t)came,
                                  salt(), &event, &why)) continue;
        if (!snmpsec_listener_message(listener, answer, sizeof answer, &len))
            (void)!sendto(from, answer, len, 0, (struct sockaddr *)&sender, sender_len);
        if (event == SNMPSEC_LISTENER_TRAP || event == SNMPSEC_LISTENER_INFORM) print_reported(listener);
    }
}

int main(int argc, char **argv) {
    uint8_t *config, engine[32];
    size_t config_len, engine_len, sources_len = 0;
    uint32_t boots, port;
    snmpsec_octets sources[MOST_SOURCES];
    snmpsec_listener *listener;
    keep_secrets();
    if (argc < 5 || engine_of(argv[2], engine, &engine_len) || number_of(argv[4], 1, 65535, &port)) {
        fprintf(stderr, "usage: listen CONFIG ENGINE-ID BOOTS-FILE PORT [ADDRESS..]\n");
        return 2;
    }
    for (int i = 5; i < argc && sources_len < MOST_SOURCES; i++)
        sources[sources_len++] = (snmpsec_octets){(const uint8_t *)argv[i], strlen(argv[i])};
    if (boots_next(argv[3], false, &boots) || boots_keep(argv[3], boots)
        || file_read(argv[1], MOST_CONFIG, &config, &config_len)) return 2;
    snmpsec_listener_settings settings = {.boots = boots, .started = now(), .most = MOST_REMEMBERED,
                                          .engine = {engine, engine_len},
                                          .clocks = {(const uint8_t *)SNMPSEC_NO_CLOCKS, strlen(SNMPSEC_NO_CLOCKS)}};
    int answer = snmpsec_listener_new(config, config_len, &settings, sources, sources_len, &listener);
    if (answer == SNMPSEC_BAD_CONFIGURATION) config_told("listen", argv[1], config, config_len);
    else if (answer) fprintf(stderr, "listen: %s\n", snmpsec_strerror(answer));
    file_free(config, config_len);
    if (answer) return 2;
    struct sockaddr_in own = {.sin_family = AF_INET, .sin_port = htons((uint16_t)port),
                              .sin_addr.s_addr = htonl(INADDR_LOOPBACK)};
    int at = socket(AF_INET, SOCK_DGRAM | SOCK_CLOEXEC, 0);
    if (at < 0 || bind(at, (struct sockaddr *)&own, sizeof own)) { perror("listen"); return 2; }
    listen_at(at, listener);
}
