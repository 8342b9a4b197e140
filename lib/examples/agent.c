/* A small agent over UDP: agent [OPTION..] CONFIG TABLE ENGINE-ID BOOTS-FILE PORT [TRAP-PORT USER LEVEL]
 *
 * It answers GetRequest, GetNextRequest, GetBulkRequest and SetRequest on 127.0.0.1 from a table in a file, as the
 * configuration allows, and sends a coldStart trap to a port where one is given. The library decides who sent a
 * message, whether it is fresh, whether anything answers it, who may see what and how long the answer may be. Here
 * stand the socket, the clock, the boots, the salts and the values. It ends at SIGTERM or SIGINT, and prints what it
 * answered and the counters. Not proved. */
#define _GNU_SOURCE
#include "snmpsec.h"
#include "answer.h"
#include "budget.h"
#include "config_told.h"
#include "files.h"
#include "peek.h"
#include "table.h"
#include "words_of.h"
#include <arpa/inet.h>
#include <errno.h>
#include <getopt.h>
#include <signal.h>
#include <stdio.h>
#include <stdlib.h>
#include <string.h>
#include <sys/socket.h>
#include <time.h>
#include <unistd.h>

/* the most octets of a configuration */
#define MOST_CONFIG (16u << 20)
/* of the agent's time in percent, how much is spent on messages without authentication where no option says it, and on
 * discoveries, each of which costs the same */
enum { SHARE_OF_UNAUTHENTICATED = 20, SHARE_OF_DISCOVERIES = 5 };

static volatile sig_atomic_t ended;
static struct table table;
static snmpsec_agent *agent;

static void end(int signal) { (void)signal; ended = 1; }

static uint64_t now_in_seconds(void) {
    struct timespec now;
    clock_gettime(CLOCK_BOOTTIME, &now);
    return (uint64_t)now.tv_sec;
}

static void send_message(int socket, const struct sockaddr_in *to) {
    static uint8_t message[SNMPSEC_LARGEST];
    size_t len = 0;
    static int told;
    if (snmpsec_agent_message(agent, message, sizeof message, &len)) return;
    int fault = sendto(socket, message, len, 0, (const struct sockaddr *)to, sizeof *to) < 0 ? errno : 0;
    /* a sender can't have it told for each datagram */
    if (fault && fault != told) fprintf(stderr, "agent: send: %s\n", strerror(fault));
    told = fault;
}

/* A coldStart trap (RFC 3418): sysUpTime.0, and snmpTrapOID.0 with coldStart. */
static void send_trap(int socket, uint16_t port, const char *user, snmpsec_level level, const uint8_t *engine,
                      size_t engine_len) {
    static const uint32_t up_time[] = {1, 3, 6, 1, 2, 1, 1, 3, 0}, trap_oid[] = {1, 3, 6, 1, 6, 3, 1, 1, 4, 1, 0};
    static const uint8_t ticks[] = {100}, cold_start[] = {0x2b, 6, 1, 6, 3, 1, 1, 5, 1};
    struct sockaddr_in to = {.sin_family = AF_INET, .sin_port = htons(port), .sin_addr = {htonl(INADDR_LOOPBACK)}};
    uint8_t list[64];
    size_t written = 0, list_len;
    snmpsec_octets whom = {(const uint8_t *)user, strlen(user)}, no_context = {NULL, 0};
    if (!snmpsec_agent_user_allows(agent, whom, level, no_context, SNMPSEC_NOTIFY, trap_oid, 11)) {
        fprintf(stderr, "agent: %s may not be notified\n", user);
        return;
    }
    if (snmpsec_binding_write(up_time, 9, 0x43, ticks, sizeof ticks, list, sizeof list, &written)) return;
    list_len = written;
    if (snmpsec_binding_write(trap_oid, 11, 0x06, cold_start, sizeof cold_start, list + list_len,
                              sizeof list - list_len, &written)) return;
    list_len += written;
    snmpsec_notice notice = {.message_id = 1, .request_id = 1, .level = level, .user = whom,
                             .context_engine = {engine, engine_len},
                             .context_name = no_context, .list = {list, list_len}, .salt = new_salt()};
    int answer = snmpsec_agent_notify(agent, now_in_seconds(), &notice);
    if (answer) fprintf(stderr, "agent: trap: %s\n", snmpsec_strerror(answer)); else send_message(socket, &to);
}

/* How the agent answers, and what it told. */
struct service {
    int socket;
    enum answer_size size;
    struct budget budget, discoveries;
    long told[19], over_budget;
};

/* Whether what was taken came from a user whom the library has authenticated. */
static bool is_authenticated(int answer) {
    snmpsec_info info;
    return answer == SNMPSEC_OK && !snmpsec_agent_info(agent, &info) && info.level != SNMPSEC_NO_AUTH_NO_PRIV;
}

/* Takes a datagram and answers it. What isn't authenticated, reports too, is answered as long as its budget lasts, so
 * that whoever sends much of it takes that share of the agent's time and not all. Over the budget a message that
 * doesn't even say that it is authenticated isn't read. Discoveries have a budget of their own, so that requests
 * without authentication keep no manager from its first message. */
static void answer_datagram(struct service *service, const struct sockaddr_in *from, const uint8_t *datagram,
                            size_t len) {
    struct budget *budget = says_discovery(datagram, len) ? &service->discoveries : &service->budget;
    uint64_t now = now_in_seconds(), begun = work_in_nanoseconds();
    bool has_budget = budget_has(budget, now_in_nanoseconds());
    if (!has_budget && !says_authenticated(datagram, len)) { service->over_budget++; return; }
    int answer = snmpsec_agent_take(agent, now, datagram, len);
    if (answer >= 0 && answer <= 18) service->told[answer]++;
    bool is_free = is_authenticated(answer);
    if (!is_free && !has_budget) { service->over_budget++; return; }
    if (answer != SNMPSEC_OK || !answer_kept(agent, &table, now, len, service->size))
        send_message(service->socket, from);
    if (!is_free) budget_spend(budget, work_in_nanoseconds() - begun);
}

static int serve(struct service *service) {
    static uint8_t datagram[65536];
    while (!ended) {
        struct sockaddr_in from;
        socklen_t from_len = sizeof from;
        ssize_t len = recvfrom(service->socket, datagram, sizeof datagram, 0, (struct sockaddr *)&from, &from_len);
        if (len < 0) { if (errno == EINTR) continue; perror("agent: receive"); return 2; }
        /* nothing can be sent to port 0 (RFC 768) */
        if (from.sin_port) answer_datagram(service, &from, datagram, (size_t)len);
    }
    return 0;
}

static void print_other_counts(void) {
    snmpsec_counts n;
    if (snmpsec_agent_counts(agent, &n)) return;
    const struct { const char *name; uint32_t value; } counts[] = {
        {"snmpUnknownPDUHandlers", n.unknown_pdu_handlers}, {"snmpUnavailableContexts", n.unavailable_contexts},
        {"snmpUnknownContexts", n.unknown_contexts}, {"snmpInBadVersions", n.bad_versions},
        {"snmpInASNParseErrs", n.asn_parse_errors},
        {"snmpUnknownSecurityModels", n.unknown_security_models}, {"snmpInvalidMsgs", n.invalid_messages},
        {"snmpSilentDrops", n.silent_drops}};
    for (size_t i = 0; i < sizeof counts / sizeof *counts; i++) printf("%s: %u\n", counts[i].name, counts[i].value);
}

static void print_counts(const struct service *service) {
    snmpsec_counters n;
    for (int i = 0; i <= 18; i++) if (service->told[i]) printf("answer %d: %ld\n", i, service->told[i]);
    printf("over the budget: %ld\n", service->over_budget);
    if (snmpsec_agent_counters(agent, &n)) return;
    printf("counter 1: %u\ncounter 2: %u\ncounter 3: %u\n", n.unsupported_levels, n.not_in_windows, n.unknown_users);
    printf("counter 4: %u\ncounter 5: %u\ncounter 6: %u\n", n.unknown_engines, n.wrong_digests, n.decryption_errors);
    print_other_counts();
    fflush(stdout);
}

static int bad_word(const char *what, const char *word) {
    fprintf(stderr, "agent: %s: not %s\n", word, what);
    return 2;
}

/* What the command line says. */
struct words {
    const char *config, *table, *engine_word, *boots, *user;
    uint8_t engine[32];
    size_t engine_len;
    uint32_t port, trap_port, level, percent;
    enum answer_size size;
    bool must_exist, has_trap;
};

static int print_usage(FILE *to, int status) {
    fputs("agent [OPTION..] CONFIG TABLE ENGINE-ID BOOTS-FILE PORT [TRAP-PORT USER LEVEL]\n"
          "  --must-exist          refuse an absent boots file, instead of boots 1\n"
          "  --long-answers        an answer without authentication may be longer than 1472 octets and twice its "
          "request;\n"
          "                        so a forged address is sent up to 65507 octets for a request of 92\n"
          "  --no-amplification    an answer without authentication is never longer than its request\n"
          "  --unauthenticated PERCENT\n"
          "                        the share of the time that messages without authentication may take, 1 to 100 (20)\n"
          "  --version             print the version of the library\n"
          "  --help                print this\n", to);
    return status;
}

/* Reads the options: -1 where the words follow, or the status to end with. */
static int read_options(int argc, char **argv, struct words *words) {
    static const struct option options[] = {{"must-exist", no_argument, NULL, 'm'},
                                            {"long-answers", no_argument, NULL, 'l'},
                                            {"no-amplification", no_argument, NULL, 'n'},
                                            {"unauthenticated", required_argument, NULL, 'u'},
                                            {"version", no_argument, NULL, 'v'}, {"help", no_argument, NULL, 'h'}, {0}};
    for (int option; (option = getopt_long(argc, argv, "+", options, NULL)) != -1;)
        switch (option) {
        case 'm': words->must_exist = true; break;
        case 'l': words->size = OF_MAX_SIZE; break;
        case 'n': words->size = OF_THE_REQUEST; break;
        case 'u':
            if (number_of(optarg, 1, 100, &words->percent))
                return bad_word("a share of the time in percent, 1 to 100", optarg);
            break;
        case 'v': puts(snmpsec_version()); return 0;
        case 'h': return print_usage(stdout, 0);
        default: return print_usage(stderr, 2);
        }
    return -1;
}

static int read_trap_words(char **word, struct words *words) {
    if (number_of(word[0], 1, 65535, &words->trap_port)) return bad_word("a port, 1 to 65535", word[0]);
    if (!word[1][0] || strlen(word[1]) > 32) return bad_word("a user's name, 1 to 32 octets", word[1]);
    if (number_of(word[2], SNMPSEC_NO_AUTH_NO_PRIV, SNMPSEC_AUTH_PRIV, &words->level))
        return bad_word("a level, 1 to 3", word[2]);
    words->user = word[1];
    words->has_trap = true;
    return -1;
}

/* Reads all of it, likewise. */
static int read_words(int argc, char **argv, struct words *words) {
    int status = read_options(argc, argv, words), len = argc - optind;
    char **word = argv + optind;
    if (status != -1) return status;
    if (len != 5 && len != 8) return print_usage(stderr, 2);
    words->config = word[0];
    words->table = word[1];
    words->engine_word = word[2];
    words->boots = word[3];
    if (engine_of(word[2], words->engine, &words->engine_len))
        return bad_word("an engine ID, 5 to 32 octets in pairs of hex digits, neither all 00 nor all ff", word[2]);
    if (number_of(word[4], 1, 65535, &words->port)) return bad_word("a port, 1 to 65535", word[4]);
    return len == 8 ? read_trap_words(word + 5, words) : -1;
}

/* Makes the agent with the boots of this start, and keeps them: 0, or the status to end with. A start that fails before
 * costs no boots. */
static int make_agent(const struct words *words, const uint8_t *config, size_t config_len) {
    uint32_t boots;
    if (boots_next(words->boots, words->must_exist, &boots)) return 2;
    int answer = snmpsec_agent_new(config, config_len, words->engine, words->engine_len, boots, now_in_seconds(),
                                   &agent);
    if (answer == SNMPSEC_BAD_CONFIGURATION) config_told("agent", words->config, config, config_len);
    else if (answer) fprintf(stderr, "agent: %s: %s\n", words->engine_word, snmpsec_strerror(answer));
    if (answer) return 1;
    if (boots == BOOTS_LATCHED)
        fprintf(stderr, "agent: %s: boots are used up, so each authenticated message is refused: give the engine "
                        "another ID, or all its users "
                        "other passwords, and remove the file\n", words->boots);
    return boots_keep(words->boots, boots) ? 2 : 0;
}

static int begin_agent(const struct words *words) {
    uint8_t *config;
    size_t config_len;
    if (file_read(words->config, MOST_CONFIG, &config, &config_len)) return 2;
    int status = config_len ? make_agent(words, config, config_len) : bad_word("a configuration: the file is empty",
        words->config);
    file_free(config, config_len);
    return status;
}

/* The port is taken before the boots, so that a start that fails costs none. */
static int begin_socket(uint32_t port) {
    int made = socket(AF_INET, SOCK_DGRAM | SOCK_CLOEXEC, 0);
    struct sockaddr_in here = {.sin_family = AF_INET, .sin_port = htons((uint16_t)port),
                               .sin_addr = {htonl(INADDR_LOOPBACK)}};
    if (made >= 0 && !bind(made, (struct sockaddr *)&here, sizeof here)) return made;
    fprintf(stderr, "agent: port %u: %s\n", port, strerror(errno));
    return -1;
}

int main(int argc, char **argv) {
    struct words words = {.percent = SHARE_OF_UNAUTHENTICATED};
    keep_secrets();
    int status = read_words(argc, argv, &words);
    if (status != -1) return status;
    if (table_load(&table, words.table)) return 2;
    struct service service = {.socket = begin_socket(words.port), .size = words.size};
    if (service.socket < 0) return 2;
    if ((status = begin_agent(&words))) return status;
    struct sigaction action = {.sa_handler = end};
    sigaction(SIGTERM, &action, NULL);
    sigaction(SIGINT, &action, NULL);
    if (words.has_trap)
        send_trap(service.socket, (uint16_t)words.trap_port, words.user, (snmpsec_level)words.level, words.engine,
                  words.engine_len);
    budget_begin(&service.budget, words.percent, now_in_nanoseconds());
    budget_begin(&service.discoveries, SHARE_OF_DISCOVERIES, now_in_nanoseconds());
    status = serve(&service);
    print_counts(&service);
    snmpsec_agent_free(agent);
    free(table.rows);
    close(service.socket);
    return status;
}
