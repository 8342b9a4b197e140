#define _GNU_SOURCE
#include "gateway.h"
#include "config_told.h"
#include "files.h"
#include "lines.h"
#include "sockets.h"
#include <errno.h>
#include <fcntl.h>
#include <grp.h>
#include <inttypes.h>
#include <pwd.h>
#include <stdio.h>
#include <stdlib.h>
#include <string.h>
#include <sys/epoll.h>
#include <sys/stat.h>
#include <time.h>
#include <unistd.h>

/* the most octets of a configuration */
#define MOST_CONFIG (16u << 20)

uint64_t now_in_milliseconds(void) {
    struct timespec now;
    clock_gettime(CLOCK_BOOTTIME, &now);
    return (uint64_t)now.tv_sec * 1000 + (uint64_t)now.tv_nsec / 1000000;
}

char *setting_of(snmpsec_gate *gate, snmpsec_gate_text text, size_t position, size_t *len) {
    *len = 0;
    if (snmpsec_gate_setting(gate, text, position, NULL, 0, len) != SNMPSEC_SHORT_BUFFER && *len) return NULL;
    char *copy = malloc(*len + 1);
    if (copy && snmpsec_gate_setting(gate, text, position, (uint8_t *)copy, *len, len)) { free(copy); return NULL; }
    if (copy) copy[*len] = 0;
    return copy;
}

/* Makes the machine of a text, and where it says where Traps are taken and who is sent them, the one for these; of the
 * same text, so that their devices are the same. Without boots it only reads what the text says. */
static int make_of(const uint8_t *config, size_t len, const uint32_t *boots, snmpsec_gate **gate,
                   snmpsec_forward **forward) {
    uint64_t started = now_in_milliseconds() / 1000;
    if (!boots) return snmpsec_gate_read(config, len, gate);
    int answer = snmpsec_gate_new(config, len, *boots, started, gate);
    if (answer || !count_of(*gate, SNMPSEC_GATE_TRAPS) || !count_of(*gate, SNMPSEC_GATE_RECEIVER)) return answer;
    return snmpsec_forward_new(config, len, *boots, started, forward);
}

/* Makes the machines of the file, or without boots what reads it: 0, or the status to end with. */
static int make_gate(const char *path, const uint32_t *boots, snmpsec_gate **gate, snmpsec_forward **forward) {
    uint8_t *config;
    size_t len;
    if (file_read(path, MOST_CONFIG, &config, &len)) return 1;
    int answer = make_of(config, len, boots, gate, forward);
    if (answer == SNMPSEC_BAD_CONFIGURATION) gate_config_told("snmpsec-gate", path, config, len);
    else if (answer) fprintf(stderr, "snmpsec-gate: %s: %s\n", path, snmpsec_strerror(answer));
    file_free(config, len);
    return answer == SNMPSEC_BAD_CONFIGURATION ? 2 : answer ? 1 : 0;
}

size_t count_of(snmpsec_gate *gate, snmpsec_gate_text text) {
    size_t n = 0, len = 0;
    for (int answer; (answer = snmpsec_gate_setting(gate, text, n, NULL, 0, &len)) == SNMPSEC_SHORT_BUFFER || !answer;)
        n++;
    return n;
}

void context_words(snmpsec_gate *gate, size_t device, char *words) {
    size_t len;
    char *context = setting_of(gate, SNMPSEC_GATE_CONTEXT, device, &len);
    if (context && len) shown((const uint8_t *)context, len, words, CONTEXT_WORDS);
    else snprintf(words, CONTEXT_WORDS, "%s", "\"\"");
    free(context);
}

static void say_note(snmpsec_gate *gate, size_t device) {
    size_t len;
    char words[CONTEXT_WORDS], *note = setting_of(gate, SNMPSEC_GATE_NOTE, device, &len);
    if (!note) return;
    context_words(gate, device, words);
    fprintf(stderr, "snmpsec-gate: device %s: %s\n", words, note);
    free(note);
}

/* Says which devices have the address of an earlier one: then communities alone tell whose Trap it is. */
static void say_one_host(snmpsec_gate *gate) {
    static struct sockaddr_storage addresses[MOST_DEVICES];
    char words[CONTEXT_WORDS], earlier[CONTEXT_WORDS];
    size_t len;
    socklen_t address_len;
    for (size_t i = 0, n = count_of(gate, SNMPSEC_GATE_ADDRESS); i < n && i < MOST_DEVICES; i++) {
        char *address = setting_of(gate, SNMPSEC_GATE_ADDRESS, i, &len);
        bool is_read = address && !address_of(address, &addresses[i], &address_len);
        size_t j = 0;
        free(address);
        if (!is_read) return;
        while (j < i && !are_of_one_host(&addresses[j], &addresses[i])) j++;
        if (j == i) continue;
        context_words(gate, i, words);
        context_words(gate, j, earlier);
        fprintf(stderr, "snmpsec-gate: device %s: device %s has its address, so their Traps are distinguished by their "
                        "communities\n", words, earlier);
    }
}

/* Says which read views no family row has: nobody sees anything by them. */
static void say_views(snmpsec_gate *gate) {
    char words[CONTEXT_WORDS], *view;
    size_t len;
    for (size_t i = 0; (view = setting_of(gate, SNMPSEC_GATE_VIEW_WITHOUT_FAMILY, i, &len)); i++) {
        shown((const uint8_t *)view, len, words, sizeof words);
        fprintf(stderr, "snmpsec-gate: read view %s: no family row has it, so nobody sees anything by it\n", words);
        free(view);
    }
}

static void say_notes(snmpsec_gate *gate) {
    bool takes = count_of(gate, SNMPSEC_GATE_TRAPS), sends = count_of(gate, SNMPSEC_GATE_RECEIVER);
    for (size_t i = 0, n = count_of(gate, SNMPSEC_GATE_ADDRESS); i < n; i++) say_note(gate, i);
    say_views(gate);
    if (sends && takes) say_one_host(gate);
    if (sends && !takes) fprintf(stderr, "snmpsec-gate: receivers: no Traps are taken, since [gate] has no traps\n");
    if (takes && !sends) fprintf(stderr, "snmpsec-gate: traps: no Traps are taken, since there is no receiver\n");
}

/* Says what about the file is probably a mistake: who may read it, and an engine ID that the documents show. */
static void say_file(const char *path) {
    static const char *const examples[] = {"80001f8804676174652d31", "80001f8804616263", "80001f88046b6f77616e7169"};
    struct stat stat_of;
    uint8_t *config;
    size_t len;
    if (!stat(path, &stat_of) && stat_of.st_mode & S_IROTH)
        fprintf(stderr, "snmpsec-gate: %s: all users may read its communities and passwords: chmod o-r it\n", path);
    if (file_read(path, MOST_CONFIG, &config, &len)) return;
    for (size_t i = 0; len && i < sizeof examples / sizeof *examples; i++)
        if (strcasestr((const char *)config, examples[i]))
            fprintf(stderr, "snmpsec-gate: %s: engine: %s is an example's engine ID, and each gateway needs its own\n",
                    path, examples[i]);
    file_free(config, len);
}

int gateway_check(const struct words *words) {
    snmpsec_gate *gate = NULL;
    int status = make_gate(words->config, NULL, &gate, NULL);
    if (status) return status;
    say_file(words->config);
    say_notes(gate);
    printf("%zu devices, %zu addresses\n", count_of(gate, SNMPSEC_GATE_ADDRESS), count_of(gate, SNMPSEC_GATE_LISTEN));
    say_receivers(gate);
    snmpsec_gate_free(gate);
    return 0;
}

static int watch(struct gateway *gateway, int file, enum source source, size_t number) {
    struct epoll_event event = {.events = EPOLLIN, .data.u64 = source_of(source, number)};
    if (!epoll_ctl(gateway->poll, EPOLL_CTL_ADD, file, &event)) return 0;
    perror("snmpsec-gate: epoll");
    return 1;
}

static void say_room(const struct listener *listener) {
    fprintf(stderr, "snmpsec-gate: %s: %d octets of datagrams may wait", listener->words, listener->room);
    if (listener->room < ROOM_WANTED) fprintf(stderr, ", and %d were asked for (net.core.rmem_max)", ROOM_WANTED);
    fputc('\n', stderr);
}

/* Opens a socket at each address where Traps are taken, if anybody is sent them. */
static int open_trap_listeners(struct gateway *gateway) {
    size_t n = count_of(gateway->gate, SNMPSEC_GATE_RECEIVER) ? count_of(gateway->gate, SNMPSEC_GATE_TRAPS) : 0, len;
    if (n > MOST_LISTENERS) {
        fprintf(stderr, "snmpsec-gate: more than %d addresses to take Traps at\n", MOST_LISTENERS);
        return 1;
    }
    for (size_t i = 0; i < n; i++) {
        char *address = setting_of(gateway->gate, SNMPSEC_GATE_TRAPS, i, &len);
        int fault = !address || listen_at(address, &gateway->trap_listeners[i]);
        free(address);
        if (fault) return 1;
        gateway->trap_listeners_len++;
        say_room(&gateway->trap_listeners[i]);
        if (watch(gateway, gateway->trap_listeners[i].socket, FROM_TRAPS, i)) return 1;
    }
    return 0;
}

/* Opens a listening socket at each address of the command line, or else of the configuration. */
static int open_listeners(struct gateway *gateway, const struct words *words) {
    size_t n = words->listens ? words->listens : count_of(gateway->gate, SNMPSEC_GATE_LISTEN), len;
    if (n > MOST_LISTENERS) {
        fprintf(stderr, "snmpsec-gate: more than %d addresses to listen at\n", MOST_LISTENERS);
        return 1;
    }
    for (size_t i = 0; i < n; i++) {
        char *address = words->listens ? strdup(words->listen[i]) : setting_of(gateway->gate, SNMPSEC_GATE_LISTEN, i,
            &len);
        int fault = !address || listen_at(address, &gateway->listeners[i]);
        free(address);
        if (fault) return 1;
        gateway->listeners_len++;
        say_room(&gateway->listeners[i]);
        if (watch(gateway, gateway->listeners[i].socket, FROM_CLIENT, i)) return 1;
    }
    return 0;
}

static void close_listeners(struct listener *listeners, size_t *len) {
    while (*len) close(listeners[--*len].socket);
}

static void close_devices(struct device *devices, size_t *len) {
    while (*len) close(devices[--*len].socket);
}

/* Opens a socket connected to each device: 0, or 1 and none is open. */
static int open_devices(snmpsec_gate *gate, struct device *devices, size_t *devices_len) {
    size_t n = count_of(gate, SNMPSEC_GATE_ADDRESS), len;
    socklen_t address_len;
    *devices_len = 0;
    if (n > MOST_DEVICES) { fprintf(stderr, "snmpsec-gate: more than %d devices\n", MOST_DEVICES); return 1; }
    for (size_t i = 0; i < n; i++) {
        char *address = setting_of(gate, SNMPSEC_GATE_ADDRESS, i, &len);
        int fault = !address || address_of(address, &devices[i].address, &address_len)
            || connect_to(address, &devices[i].socket);
        free(address);
        if (fault) { close_devices(devices, devices_len); return 1; }
        context_words(gate, i, devices[i].words);
        devices[i].counts = (struct device_counts){0};
        ++*devices_len;
    }
    return 0;
}

static int watch_devices(struct gateway *gateway) {
    for (size_t i = 0; i < gateway->devices_len; i++)
        if (watch(gateway, gateway->devices[i].socket, FROM_DEVICE, i)) return 1;
    return 0;
}

static int watch_receivers(struct gateway *gateway) {
    for (size_t i = 0; i < gateway->receivers_len; i++)
        if (watch(gateway, gateway->receivers[i].socket, FROM_RECEIVER, i)) return 1;
    return 0;
}

/* The counts of the device with this context go on: most stand where they stood. */
static void take_counts(const struct gateway *gateway, struct device *device, size_t at) {
    for (size_t i = 0; i < gateway->devices_len; i++) {
        const struct device *old = &gateway->devices[(at + i) % gateway->devices_len];
        if (strcmp(old->words, device->words)) continue;
        device->counts = old->counts;
        return;
    }
}

static int become(const char *name) {
    struct passwd *user = getpwnam(name);
    if (!user) { fprintf(stderr, "snmpsec-gate: %s: no such user\n", name); return 1; }
    if (!initgroups(name, user->pw_gid) && !setgid(user->pw_gid) && !setuid(user->pw_uid)) { keep_secrets(); return 0; }
    fprintf(stderr, "snmpsec-gate: %s: %s\n", name, strerror(errno));
    return 1;
}

/* Locks the boots' file, and makes the machine with the boots of this start, instead of what read the file; they are
 * kept before anything is sent. */
static int begin_boots(struct gateway *gateway, const struct words *words) {
    uint32_t boots;
    size_t len;
    gateway->boots_path = setting_of(gateway->gate, SNMPSEC_GATE_BOOTS, 0, &len);
    if (!gateway->boots_path || boots_next(gateway->boots_path, false, &boots)) return 1;
    snmpsec_gate_free(gateway->gate);
    gateway->gate = NULL;
    int status = make_gate(words->config, &boots, &gateway->gate, &gateway->forward);
    if (status) return status;
    gateway->boots = boots;
    return boots_keep(gateway->boots_path, boots) ? 1 : 0;
}

int gateway_open(struct gateway *gateway, const struct words *words) {
    gateway->log = -1;
    int status = make_gate(words->config, NULL, &gateway->gate, NULL);
    if (status) return status;
    say_notes(gateway->gate);
    gateway->poll = epoll_create1(EPOLL_CLOEXEC);
    if (gateway->poll < 0) { perror("snmpsec-gate: epoll"); return 1; }
    if (open_listeners(gateway, words) || open_devices(gateway->gate, gateway->devices, &gateway->devices_len)
        || watch_devices(gateway)) return 1;
    if (open_trap_listeners(gateway) || open_receivers(gateway->gate, gateway->receivers, &gateway->receivers_len)
        || watch_receivers(gateway)) return 1;
    if (words->user && become(words->user)) return 1;
    if (words->log && (gateway->log = open(words->log, O_WRONLY | O_APPEND | O_CREAT | O_CLOEXEC | O_NOCTTY,
                                           0600)) < 0) {
        fprintf(stderr, "snmpsec-gate: %s: %s\n", words->log, strerror(errno));
        return 1;
    }
    return begin_boots(gateway, words);
}

/* Whether the file is the one that is locked. */
static bool has_boots_path(const struct gateway *gateway, snmpsec_gate *gate) {
    size_t len;
    char *path = setting_of(gate, SNMPSEC_GATE_BOOTS, 0, &len);
    bool same = path && !strcmp(path, gateway->boots_path);
    if (!same) fprintf(stderr, "snmpsec-gate: boots: another file is only taken at a start\n");
    free(path);
    return same;
}

/* Whether two configurations say the same here. */
static bool is_same_setting(snmpsec_gate *one, snmpsec_gate *other, snmpsec_gate_text text, size_t position) {
    size_t len;
    char *a = setting_of(one, text, position, &len), *b = setting_of(other, text, position, &len);
    bool same = a && b && !strcmp(a, b);
    free(a);
    free(b);
    return same;
}

/* Says that other addresses to listen at, or to take Traps at, aren't taken now. */
static void say_listeners(snmpsec_gate *old, snmpsec_gate *new, snmpsec_gate_text text, const char *name) {
    size_t n = count_of(new, text);
    bool same = n == count_of(old, text);
    for (size_t i = 0; same && i < n; i++) same = is_same_setting(old, new, text, i);
    if (!same) fprintf(stderr, "snmpsec-gate: %s: other addresses are only taken at a start\n", name);
}

/* Puts the new machine and its sockets instead of the old ones. */
static void replace_gate(struct gateway *gateway, snmpsec_gate *gate, uint32_t boots, struct device *devices,
                         size_t len) {
    for (size_t i = 0; i < len; i++) take_counts(gateway, &devices[i], i);
    close_devices(gateway->devices, &gateway->devices_len);
    memcpy(gateway->devices, devices, len * sizeof *devices);
    gateway->devices_len = len;
    gateway->boots = boots;
    snmpsec_gate_free(gateway->gate);
    gateway->gate = gate;
    (void)watch_devices(gateway);
}

/* And the new one for Traps, with its receivers; what waited to be sent is gone. */
static void replace_forward(struct gateway *gateway, snmpsec_forward *forward, const struct receiver *receivers,
                            size_t len) {
    close_receivers(gateway->receivers, &gateway->receivers_len);
    memcpy(gateway->receivers, receivers, len * sizeof *receivers);
    gateway->receivers_len = len;
    snmpsec_forward_free(gateway->forward);
    gateway->forward = forward;
    (void)watch_receivers(gateway);
}

void gateway_reload(struct gateway *gateway, const struct words *words) {
    static struct device devices[MOST_DEVICES];
    static struct receiver receivers[MOST_RECEIVERS];
    snmpsec_gate *gate = NULL;
    snmpsec_forward *forward = NULL;
    size_t len = 0, receivers_len = 0;
    uint32_t boots = gateway->boots < BOOTS_LATCHED ? gateway->boots + 1 : BOOTS_LATCHED;
    if (!make_gate(words->config, &boots, &gate, &forward) && has_boots_path(gateway, gate)
        && !open_devices(gate, devices, &len)
        && !open_receivers(gate, receivers, &receivers_len) && !boots_keep(gateway->boots_path, boots)) {
        if (!words->listens) say_listeners(gateway->gate, gate, SNMPSEC_GATE_LISTEN, "listen");
        say_listeners(gateway->gate, gate, SNMPSEC_GATE_TRAPS, "traps");
        replace_gate(gateway, gate, boots, devices, len);
        replace_forward(gateway, forward, receivers, receivers_len);
        say_notes(gate);
        fprintf(stderr, "snmpsec-gate: %s is read anew\n", words->config);
        return;
    }
    close_devices(devices, &len);
    close_receivers(receivers, &receivers_len);
    snmpsec_gate_free(gate);
    snmpsec_forward_free(forward);
    fprintf(stderr, "snmpsec-gate: %s isn't taken, all stays as it was\n", words->config);
}

void gateway_counts(const struct gateway *gateway, const struct words *words) {
    struct told told = {&gateway->counts, gateway->devices, gateway->devices_len, gateway->listeners,
                        gateway->listeners_len, gateway->trap_listeners, gateway->trap_listeners_len, gateway->gate,
                        gateway->forward};
    (void)counts_write(&told, words->counts);
}

void gateway_close(struct gateway *gateway) {
    snmpsec_gate_free(gateway->gate);
    snmpsec_forward_free(gateway->forward);
    close_listeners(gateway->listeners, &gateway->listeners_len);
    close_listeners(gateway->trap_listeners, &gateway->trap_listeners_len);
    close_receivers(gateway->receivers, &gateway->receivers_len);
    close_devices(gateway->devices, &gateway->devices_len);
    if (gateway->log >= 0) close(gateway->log);
    free(gateway->boots_path);
}
