/* A poller: poll [OPTION..] CONFIG CLOCKS-FILE PORT USER LEVEL OID..
 *
 * It discovers the agent on 127.0.0.1, asks it for the variables (GetRequest) and prints them, and keeps what it knows
 * of engines' clocks in a file. Level is 1, 2 or 3. If the agent reports that the message isn't in the time window, it
 * asks again with what it learned. Whatever else arrives at its port, it waits for a reply until its time is over, and
 * sends the request again. Not proved. */
#define _GNU_SOURCE
#include "snmpsec.h"
#include "config_told.h"
#include "files.h"
#include "words_of.h"
#include <arpa/inet.h>
#include <errno.h>
#include <getopt.h>
#include <poll.h>
#include <stdio.h>
#include <stdlib.h>
#include <string.h>
#include <sys/random.h>
#include <sys/socket.h>
#include <time.h>
#include <unistd.h>

/* the most octets of a configuration, and of saved clocks */
#define MOST_CONFIG (16u << 20)
#define MOST_CLOCKS (16u << 20)

static snmpsec_manager *manager;
/* a datagram, or the saved text */
static uint8_t octets[MOST_CLOCKS];

static uint64_t now_in_seconds(void) { return (uint64_t)time(NULL); }

static uint64_t random_octets(void) {
    uint64_t value;
    if (getrandom(&value, sizeof value, 0) != sizeof value) abort();
    return value;
}

static int64_t now_in_milliseconds(void) {
    struct timespec now;
    clock_gettime(CLOCK_MONOTONIC, &now);
    return (int64_t)now.tv_sec * 1000 + now.tv_nsec / 1000000;
}

/* How the poller asks: at which socket, how long it waits for each reply, and how often it sends a request that gets
 * none. */
struct asking { int socket; uint32_t seconds, tries; };

/* Waits for a datagram until this moment: its length, or -1. Another system may have told that nobody listens there:
 * the agent may yet. */
static ssize_t receive(int socket, int64_t until) {
    struct pollfd one = {.fd = socket, .events = POLLIN};
    for (int64_t left; (left = until - now_in_milliseconds()) > 0;) {
        if (poll(&one, 1, (int)left) <= 0) continue;
        ssize_t got = recv(socket, octets, sizeof octets, MSG_DONTWAIT);
        if (got >= 0) return got;
    }
    return -1;
}

/* Takes what comes, up to a reply to the request, until this moment: 0, or -1. Anybody may send junk, old answers or
 * the request itself to the port, so none of that ends the waiting; *refused is why the last of it was refused. */
static int wait_for_reply(int socket, int64_t until, snmpsec_reply *reply, int *refused) {
    for (ssize_t got; (got = receive(socket, until)) >= 0;) {
        int answer = snmpsec_manager_take(manager, now_in_seconds(), octets, (size_t)got);
        if (answer) *refused = answer;
        else if (!snmpsec_manager_take_reply(manager, reply) && reply->kind != SNMPSEC_REPLY_OTHER) return 0;
    }
    return -1;
}

/* Sends the message until a reply comes: 0, or -1 and says why not. */
static int exchange(const struct asking *asking, snmpsec_reply *reply) {
    static uint8_t message[SNMPSEC_LARGEST];
    size_t len = 0;
    int refused = SNMPSEC_OK;
    if (snmpsec_manager_message(manager, message, sizeof message, &len)) {
        fprintf(stderr, "poll: no request\n");
        return -1;
    }
    for (uint32_t tries = 0; tries < asking->tries; tries++) {
        int64_t until = now_in_milliseconds() + (int64_t)asking->seconds * 1000;
        if (send(asking->socket, message, len, 0) < 0 && errno != ECONNREFUSED) { perror("poll: send"); return -1; }
        if (!wait_for_reply(asking->socket, until, reply, &refused)) return 0;
    }
    if (refused) fprintf(stderr, "poll: no answer; what came was refused: %s\n", snmpsec_strerror(refused));
    else fprintf(stderr, "poll: no answer\n");
    return -1;
}

static int print_bindings(void) {
    size_t len = 0;
    snmpsec_binding one;
    if (snmpsec_manager_part(manager, SNMPSEC_BINDINGS, octets, sizeof octets, &len)) return 1;
    for (size_t at = 0; at < len;) {
        if (snmpsec_binding_read(octets, len, &at, &one)) return 1;
        for (size_t i = 0; i < one.arcs_len; i++) printf(i ? ".%u" : "%u", one.arcs[i]);
        printf(" %02x ", one.tag);
        for (size_t i = 0; i < one.content_len; i++) printf("%02x", one.content[i]);
        printf("\n");
    }
    return 0;
}

/* error-status by its name (RFC 3416, section 3) */
static const char *status_name(int32_t status) {
    static const char *const names[] = {"noError", "tooBig", "noSuchName", "badValue", "readOnly", "genErr", "noAccess",
                                        "wrongType", "wrongLength",
                                        "wrongEncoding", "wrongValue", "noCreation", "inconsistentValue",
                                        "resourceUnavailable", "commitFailed",
                                        "undoFailed", "authorizationError", "notWritable", "inconsistentName"};
    return status >= 0 && (size_t)status < sizeof names / sizeof *names ? names[status] : "unknown error-status";
}

/* Prints a Response: its bindings, or the error that it tells. */
static int print_response(void) {
    snmpsec_info info;
    if (snmpsec_manager_info(manager, &info)) return 1;
    if (!info.error_status) return print_bindings();
    fprintf(stderr, "poll: %s (error-status %d), error-index %d\n", status_name(info.error_status), info.error_status,
            info.error_index);
    return 1;
}

/* Tells which counter a Report names: 0 where it is asked again, since the window is known now. */
static int tell_report(void) {
    static const char *const names[] = {"no counter that is known", "usmStatsUnsupportedSecLevels",
                                        "usmStatsNotInTimeWindows", "usmStatsUnknownUserNames",
                                        "usmStatsUnknownEngineIDs", "usmStatsWrongDigests", "usmStatsDecryptionErrors",
                                        "snmpUnknownPDUHandlers",
                                        "snmpUnavailableContexts", "snmpUnknownContexts"};
    snmpsec_report report;
    if (snmpsec_manager_report(manager, &report)) return 1;
    fprintf(stderr, "poll: report of %s%s\n", names[report.counter], report.is_authenticated ? ""
            : ", without authentication");
    return report.counter != SNMPSEC_NOT_IN_WINDOWS;
}

static int poll_once(const struct asking *asking, const char *user, snmpsec_level level, const uint8_t *list,
                     size_t list_len) {
    uint8_t engine[32];
    size_t engine_len = 0;
    snmpsec_reply reply;
    uint32_t id = (uint32_t)(random_octets() & 0x3fffffff);
    if (snmpsec_manager_discover(manager, id) || exchange(asking, &reply)) return 1;
    if (reply.counter != SNMPSEC_UNKNOWN_ENGINES || snmpsec_manager_part(manager, SNMPSEC_ENGINE, engine, sizeof engine,
        &engine_len)) {
        fprintf(stderr, "poll: no engine\n");
        return 1;
    }
    for (int tries = 0; tries < 3; tries++) {
        id++;
        snmpsec_request request = {.pdu = SNMPSEC_GET_REQUEST, .message_id = id, .request_id = id, .level = level,
                                   .engine = {engine, engine_len},
                                   .user = {(const uint8_t *)user, strlen(user)},
                                   .context_engine = {engine, engine_len},
                                   .list = {list, list_len}, .salt = random_octets()};
        int answer = snmpsec_manager_request(manager, now_in_seconds(), &request);
        if (answer) { fprintf(stderr, "poll: request: %s\n", snmpsec_strerror(answer)); return 1; }
        if (exchange(asking, &reply)) return 1;
        if (reply.kind == SNMPSEC_REPLY_RESPONSE) return print_response();
        if (tell_report()) return 1;
    }
    return 1;
}

/* The clocks of a file, or no clocks where there is none and none must be. */
static int read_clocks(const char *path, bool must_exist, uint8_t **text, size_t *text_len) {
    if (must_exist || !file_is_absent(path)) return file_read_own(path, MOST_CLOCKS, text, text_len);
    *text = (uint8_t *)strdup(SNMPSEC_NO_CLOCKS);
    *text_len = strlen(SNMPSEC_NO_CLOCKS);
    return *text ? 0 : -1;
}

/* Joins the clocks with those of the file, which other pollers may have replaced. The old clocks are there until the
 * new ones are there whole. */
static int save(const char *path) {
    uint8_t *text;
    size_t text_len, len = 0;
    if (file_lock(path, NULL) || read_clocks(path, false, &text, &text_len)) return -1;
    int answer = snmpsec_manager_absorb(manager, text, text_len, now_in_seconds());
    file_free(text, text_len);
    if (!answer) answer = snmpsec_manager_save(manager, octets, sizeof octets, &len);
    if (!answer) return file_replace(path, octets, len);
    fprintf(stderr, "poll: %s: %s\n", path, snmpsec_strerror(answer));
    return -1;
}

static int bad_word(const char *what, const char *word) {
    fprintf(stderr, "poll: %s: not %s\n", word, what);
    return 2;
}

/* What the command line says, and the bindings that are asked for. */
struct words {
    const char *config, *clocks, *user;
    uint32_t port, level, seconds, retries;
    uint8_t list[SNMPSEC_LARGEST];
    size_t list_len;
    bool must_exist;
};

static int begin_manager(const struct words *words) {
    uint8_t *config, *clocks;
    size_t config_len, clocks_len;
    int lock;
    if (file_lock(words->clocks, &lock)) return -1;
    int bad = read_clocks(words->clocks, words->must_exist, &clocks, &clocks_len);
    close(lock);
    if (bad) return -1;
    if (file_read(words->config, MOST_CONFIG, &config, &config_len)) { file_free(clocks, clocks_len); return -1; }
    int answer = snmpsec_manager_new(config, config_len, clocks, clocks_len, now_in_seconds(), &manager);
    if (answer == SNMPSEC_BAD_CONFIGURATION) config_told("poll", words->config, config, config_len);
    else if (answer)
        fprintf(stderr, "poll: %s: %s\n", answer == SNMPSEC_BAD_CLOCKS ? words->clocks : words->config,
                snmpsec_strerror(answer));
    file_free(config, config_len);
    file_free(clocks, clocks_len);
    return answer;
}

static int print_usage(FILE *to, int status) {
    fputs("poll [OPTION..] CONFIG CLOCKS-FILE PORT USER LEVEL OID..\n"
          "  --must-exist       refuse an absent clocks file, instead of no clocks\n"
          "  --timeout SECONDS  how long to wait for each reply, 1 to 3600 (2)\n"
          "  --retries NUMBER   how often to send a request again that gets no reply, 0 to 100 (2)\n"
          "  --version          print the version of the library\n"
          "  --help             print this\n", to);
    return status;
}

/* Reads the options: -1 where the words follow, or the status to end with. */
static int read_options(int argc, char **argv, struct words *words) {
    static const struct option options[] = {{"must-exist", no_argument, NULL, 'm'},
                                            {"timeout", required_argument, NULL, 't'},
                                            {"retries", required_argument, NULL, 'r'},
                                            {"version", no_argument, NULL, 'v'},
                                            {"help", no_argument, NULL, 'h'}, {0}};
    for (int option; (option = getopt_long(argc, argv, "+", options, NULL)) != -1;)
        switch (option) {
        case 'm': words->must_exist = true; break;
        case 't':
            if (number_of(optarg, 1, 3600, &words->seconds)) return bad_word("a time in seconds, 1 to 3600", optarg);
            break;
        case 'r':
            if (number_of(optarg, 0, 100, &words->retries)) return bad_word("a number of retries, 0 to 100", optarg);
            break;
        case 'v': puts(snmpsec_version()); return 0;
        case 'h': return print_usage(stdout, 0);
        default: return print_usage(stderr, 2);
        }
    return -1;
}

/* Reads a name, and appends its binding. */
static int read_name(const char *word, struct words *words) {
    uint32_t arcs[SNMPSEC_MOST_ARCS];
    size_t arcs_len, written = 0;
    if (arcs_of(word, SNMPSEC_MOST_ARCS, arcs, &arcs_len)) return bad_word("a name in dotted decimal", word);
    int answer = snmpsec_binding_write(arcs, arcs_len, 0x05, NULL, 0, words->list + words->list_len,
                                       sizeof words->list - words->list_len, &written);
    if (answer) { fprintf(stderr, "poll: %s: %s\n", word, snmpsec_strerror(answer)); return 2; }
    words->list_len += written;
    return -1;
}

/* Reads all of it, likewise. */
static int read_words(int argc, char **argv, struct words *words) {
    int status = read_options(argc, argv, words), len = argc - optind;
    char **word = argv + optind;
    if (status != -1) return status;
    if (len < 6) return print_usage(stderr, 2);
    words->config = word[0];
    words->clocks = word[1];
    words->user = word[3];
    if (number_of(word[2], 1, 65535, &words->port)) return bad_word("a port, 1 to 65535", word[2]);
    if (!word[3][0] || strlen(word[3]) > 32) return bad_word("a user's name, 1 to 32 octets", word[3]);
    if (number_of(word[4], SNMPSEC_NO_AUTH_NO_PRIV, SNMPSEC_AUTH_PRIV, &words->level))
        return bad_word("a level, 1 to 3", word[4]);
    for (int i = 5; i < len && status == -1; i++) status = read_name(word[i], words);
    return status;
}

static int begin_socket(uint32_t port) {
    int made = socket(AF_INET, SOCK_DGRAM | SOCK_CLOEXEC, 0);
    struct sockaddr_in to = {.sin_family = AF_INET, .sin_port = htons((uint16_t)port),
                             .sin_addr = {htonl(INADDR_LOOPBACK)}};
    if (made >= 0 && !connect(made, (struct sockaddr *)&to, sizeof to)) return made;
    perror("poll");
    return -1;
}

int main(int argc, char **argv) {
    static struct words words = {.seconds = 2, .retries = 2};
    keep_secrets();
    int status = read_words(argc, argv, &words);
    if (status != -1) return status;
    if (begin_manager(&words)) return 2;
    struct asking asking = {.socket = begin_socket(words.port), .seconds = words.seconds, .tries = 1 + words.retries};
    status = asking.socket < 0 ? 2 : poll_once(&asking, words.user, (snmpsec_level)words.level, words.list,
                                               words.list_len);
    if (save(words.clocks)) status = 2;
    snmpsec_manager_free(manager);
    if (asking.socket >= 0) close(asking.socket);
    return status;
}
