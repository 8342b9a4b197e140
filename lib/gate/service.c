#define _GNU_SOURCE
#include "service.h"
#include "lines.h"
#include "sockets.h"
#include <errno.h>
#include <inttypes.h>
#include <signal.h>
#include <stdio.h>
#include <stdlib.h>
#include <string.h>
#include <sys/epoll.h>
#include <sys/random.h>
#include <sys/signalfd.h>
#include <sys/socket.h>
#include <unistd.h>

/* at a wake: all of the poll's sockets, so that what lies in one is read before anything is given up; of a device's
 * socket more datagrams than it holds, and of each socket where clients ask */
enum {
    MOST_READY = MOST_DEVICES + MOST_RECEIVERS + 2 * MOST_LISTENERS + 1,
    MOST_OF_DEVICE = 1024,
    MOST_AT_ONCE = 64,
    MOST_ROUNDS = 16,
    MOST_PATIENCE = 60000
};

/* What came, and what goes out: both have communities. */
static uint8_t datagram[65536], message[SNMPSEC_LARGEST];

/* Of as many as the system gives whole at a time. */
uint64_t new_random(void) {
    static uint64_t pool[32];
    static size_t left;
    if (!left) {
        if (getrandom(pool, sizeof pool, 0) != sizeof pool) abort();
        left = sizeof pool / sizeof *pool;
    }
    return pool[--left];
}

/* Random above, and a count in the low 12 bits. */
uint32_t new_ask_id(void) {
    static uint32_t count;
    return ((uint32_t)new_random() & ~0xfffu) | (count++ & 0xfffu);
}

/* Appends a line: false where it isn't written whole, and then no part of it is left. */
static bool append(int file, const char *text, size_t len) {
    ssize_t put = write(file, text, len);
    if (put == (ssize_t)len) return true;
    int why = put < 0 ? errno : ENOSPC;
    off_t end = put > 0 ? lseek(file, 0, SEEK_END) : -1;
    if (end >= put) (void)!ftruncate(file, end - put);
    errno = why;
    return false;
}

/* A line MOMENT HEX, as `snmpsec replay` reads them. */
static void log_datagram(struct gateway *gateway, const struct words *words, uint64_t now, size_t len) {
    static char text[2 * sizeof datagram + 32];
    static const char digits[] = "0123456789abcdef";
    if (gateway->log < 0) return;
    size_t at = (size_t)snprintf(text, sizeof text, "%" PRIu64 " ", now / 1000);
    for (size_t i = 0; i < len; i++) {
        text[at++] = digits[datagram[i] >> 4];
        text[at++] = digits[datagram[i] & 15];
    }
    text[at++] = '\n';
    if (append(gateway->log, text, at)) return;
    gateway->counts.unlogged++;
    if (line_has_room(LINE_FILE, now))
        line("snmpsec-gate: %s: %s: a datagram isn't logged", words->log, strerror(errno));
}

/* The client whose message is answered, or isn't, or that asks the request that the last call was about; if there is
 * none it stays as it was. */
static void find_client(struct gateway *gateway, struct client *client) {
    snmpsec_gate_info info;
    struct client found;
    size_t len = 0;
    if (snmpsec_gate_client(gateway->gate, (uint8_t *)&found, sizeof found, &len)
        && (snmpsec_gate_numbers(gateway->gate, &info)
            || snmpsec_gate_asker(gateway->gate, info.request, (uint8_t *)&found, sizeof found, &len))) return;
    if (len == sizeof found) *client = found;
}

/* Writes the last call's line of this kind; NULL: the library knows the client. */
static void say_one(struct gateway *gateway, snmpsec_line kind, const struct client *from, size_t len) {
    static uint8_t text[4096];
    char words[ADDRESS_WORDS];
    struct client client = {0};
    size_t text_len = 0;
    if (from) client = *from;
    else find_client(gateway, &client);
    address_words(&client.from, words);
    if (!snmpsec_gate_line(gateway->gate, kind, (const uint8_t *)words, strlen(words), datagram, len, text, sizeof text,
                           &text_len))
        line("%.*s", (int)text_len, (const char *)text);
}

/* Writes the lines of the last call, which took so many octets. */
static void say(struct gateway *gateway, uint64_t now, const struct client *from, size_t len) {
    uint32_t kinds = 0;
    if (snmpsec_gate_lines(gateway->gate, &kinds)) return;
    for (int kind = 0; kind < LINE_FILE; kind++)
        if (kinds >> kind & 1 && line_has_room((enum line_kind)kind, now))
            say_one(gateway, (snmpsec_line)(1u << kind), from, len);
}

static void send_report(struct gateway *gateway, const struct client *client) {
    size_t len = 0;
    if (snmpsec_gate_message(gateway->gate, message, sizeof message, &len)) return;
    gateway->counts.reports++;
    if (!send_to(&gateway->listeners[client->listener], client, message, len)) gateway->counts.unsent++;
}

static void take_refused(struct gateway *gateway, uint64_t now, const struct client *client, size_t len, int answer) {
    if (answer == SNMPSEC_OUT_OF_MEMORY || answer < 1 || answer > 18) { gateway->out_of_memory = true; return; }
    gateway->counts.refused[answer]++;
    say(gateway, now, client, len);
    send_report(gateway, client);
}

/* Counts a message that begins a request, or joins one. */
static void note_client(struct gateway *gateway) {
    snmpsec_gate_info info;
    if (snmpsec_gate_numbers(gateway->gate, &info)) return;
    if (info.pdu >= SNMPSEC_GET_REQUEST && info.pdu <= SNMPSEC_REPORT_PDU)
        gateway->counts.messages[info.pdu - SNMPSEC_GET_REQUEST]++;
}

static void take_client(struct gateway *gateway, const struct words *words, const struct client *client, size_t len) {
    snmpsec_gate_event event = SNMPSEC_GATE_NOTHING;
    uint64_t now = now_in_milliseconds();
    log_datagram(gateway, words, now, len);
    int answer = snmpsec_gate_take_client(gateway->gate, now, (const uint8_t *)client, sizeof *client, datagram, len,
                                          &event);
    if (answer) { take_refused(gateway, now, client, len, answer); return; }
    gateway->counts.events[event]++;
    if (event == SNMPSEC_GATE_BEGINS || event == SNMPSEC_GATE_JOINS) note_client(gateway);
    say(gateway, now, client, len);
}

/* Counts a device's answer. */
static void note_answer(struct gateway *gateway, struct device *device) {
    snmpsec_gate_info info;
    device->counts.answered++;
    if (snmpsec_gate_numbers(gateway->gate, &info)) return;
    gateway->counts.statuses[info.status < STATUSES ? info.status : STATUSES]++;
    gateway->counts.hidden_bindings += info.hidden;
    if (!info.misfit || info.misfit >= MISFITS) return;
    gateway->counts.misfits[info.misfit]++;
    device->counts.unfit++;
}

static void take_device(struct gateway *gateway, size_t number, size_t len) {
    snmpsec_gate_event event = SNMPSEC_GATE_NOTHING;
    struct device *device = &gateway->devices[number];
    uint64_t now = now_in_milliseconds();
    if (snmpsec_gate_take_device(gateway->gate, now, number, datagram, len, &event)) {
        gateway->out_of_memory = true;
        return;
    }
    gateway->counts.events[event]++;
    if (event == SNMPSEC_GATE_ANSWERS) note_answer(gateway, device);
    if (event == SNMPSEC_GATE_UNREADABLE) device->counts.unreadable++;
    if (event == SNMPSEC_GATE_NOT_WAITED_FOR) device->counts.not_waited_for++;
    say(gateway, now, NULL, len);
}

/* A device that is off answers by ICMP: that is an error of its socket, and the device is asked again as if nothing had
 * come. */
static void hear_device(struct gateway *gateway, size_t number) {
    struct device *device = &gateway->devices[number];
    for (int i = 0; i < MOST_OF_DEVICE; i++) {
        ssize_t len = recv(device->socket, datagram, sizeof datagram, 0);
        if (len >= 0) take_device(gateway, number, (size_t)len);
        else if (errno != EAGAIN && errno != EINTR) device->counts.errors++;
        else return;
    }
}

void say_lost(const struct listener *listener, uint64_t before) {
    if (listener->lost == before || !line_has_room(LINE_LOST, now_in_milliseconds())) return;
    line("%s: no room for %" PRIu64 " datagrams, %" PRIu64 " in all", listener->words, listener->lost - before,
         listener->lost);
}

static void hear_clients(struct gateway *gateway, const struct words *words, size_t number) {
    struct client client;
    struct listener *listener = &gateway->listeners[number];
    uint64_t lost = listener->lost;
    for (int i = 0; i < MOST_AT_ONCE; i++) {
        ssize_t len = receive_from(listener, &client, datagram, sizeof datagram);
        if (len < 0) break;
        client.listener = (uint32_t)number;
        take_client(gateway, words, &client, (size_t)len);
    }
    say_lost(listener, lost);
}

static void send_client(struct gateway *gateway, size_t len) {
    struct client client;
    size_t client_len = 0;
    if (snmpsec_gate_client(gateway->gate, (uint8_t *)&client, sizeof client, &client_len)
        || client_len != sizeof client
        || client.listener >= gateway->listeners_len
        || !send_to(&gateway->listeners[client.listener], &client, message, len))
        gateway->counts.unsent++;
}

bool send_connected(int socket, const uint8_t *octets, size_t len) {
    for (int i = 0; i < 2; i++)
        if (send(socket, octets, len, 0) == (ssize_t)len) return true;
    return false;
}

static void send_device(struct gateway *gateway, const snmpsec_gate_info *info, size_t len) {
    if (info->device >= gateway->devices_len) { gateway->counts.unsent++; return; }
    struct device *device = &gateway->devices[info->device];
    *(info->again ? &device->counts.asked_again : &device->counts.asked) += 1;
    if (!send_connected(device->socket, message, len)) gateway->counts.unsent++;
}

/* Counts a Response to a client, or a Report on its request. */
static void note_response(struct gateway *gateway, const snmpsec_gate_info *info) {
    if (info->is_report) { gateway->counts.request_reports++; return; }
    gateway->counts.responses[info->status < STATUSES ? info->status : STATUSES]++;
    if (info->ended == SNMPSEC_ENDED_ROUNDS_USED_UP) gateway->counts.rounds_used_up++;
}

static void take_event(struct gateway *gateway, uint64_t now, snmpsec_gate_event event) {
    snmpsec_gate_info info;
    size_t len = 0;
    if (snmpsec_gate_numbers(gateway->gate, &info)) return;
    gateway->counts.events[event]++;
    if (event == SNMPSEC_GATE_GIVEN_UP && info.device < gateway->devices_len)
        gateway->devices[info.device].counts.given_up++;
    bool is_message = !snmpsec_gate_message(gateway->gate, message, sizeof message, &len);
    if (is_message && event == SNMPSEC_GATE_TO_CLIENT) send_client(gateway, len);
    if (is_message && event == SNMPSEC_GATE_TO_DEVICE) send_device(gateway, &info, len);
    if (event == SNMPSEC_GATE_TO_CLIENT) note_response(gateway, &info);
    say(gateway, now, NULL, 0);
}

/* Sends all that is due by now. */
static void send_due(struct gateway *gateway, uint64_t now) {
    snmpsec_gate_event event = SNMPSEC_GATE_NOTHING;
    int why = 0;
    for (;;) {
        if (snmpsec_gate_next(gateway->gate, now, new_random(), new_ask_id(), &event, &why)) {
            gateway->out_of_memory = true;
            return;
        }
        if (event == SNMPSEC_GATE_NOTHING) return;
        take_event(gateway, now, event);
    }
}

/* For how many milliseconds nothing is due. */
static int patience(struct gateway *gateway) {
    uint64_t at, inform, now = now_in_milliseconds();
    if (snmpsec_gate_due(gateway->gate, &at)) at = UINT64_MAX;
    if (gateway->forward && !snmpsec_forward_due(gateway->forward, &inform) && inform < at) at = inform;
    if (at <= now) return 1;
    return at - now > MOST_PATIENCE ? MOST_PATIENCE : (int)(at - now);
}

/* Whether it is to end. */
static bool hear_signal(struct gateway *gateway, const struct words *words, int signals) {
    struct signalfd_siginfo signal;
    if (read(signals, &signal, sizeof signal) != sizeof signal) return false;
    if (signal.ssi_signo == SIGUSR1) gateway_counts(gateway, words);
    else if (signal.ssi_signo == SIGHUP) gateway_reload(gateway, words);
    else return true;
    return false;
}

/* Takes what has come, devices first, since a request whose answer lies in a socket isn't given up. */
static bool take_ready(struct gateway *gateway, const struct words *words, const struct epoll_event *ready, int len,
                       int signals) {
    for (int source = FROM_DEVICE; source <= FROM_SIGNAL; source++)
        for (int i = 0; i < len; i++) {
            size_t number = ready[i].data.u64 & 0xffffffffu;
            if (ready[i].data.u64 >> 32 != (uint64_t)source) continue;
            if (source == FROM_DEVICE) hear_device(gateway, number);
            else if (source == FROM_CLIENT) hear_clients(gateway, words, number);
            else if (source == FROM_TRAPS) hear_traps(gateway, number);
            else if (source == FROM_RECEIVER) hear_receiver(gateway, number);
            else if (hear_signal(gateway, words, signals)) return true;
        }
    return false;
}

static sigset_t heard_signals(void) {
    static const int all[] = {SIGTERM, SIGINT, SIGHUP, SIGUSR1};
    sigset_t set;
    sigemptyset(&set);
    for (size_t i = 0; i < sizeof all / sizeof *all; i++) sigaddset(&set, all[i]);
    return set;
}

void hold_signals(void) {
    sigset_t set = heard_signals();
    sigprocmask(SIG_BLOCK, &set, NULL);
    /* (nobody reads the lines, or a file may not be longer: that is an error of the write) */
    signal(SIGPIPE, SIG_IGN);
    signal(SIGXFSZ, SIG_IGN);
}

static int begin_signals(struct gateway *gateway) {
    struct epoll_event event = {.events = EPOLLIN, .data.u64 = source_of(FROM_SIGNAL, 0)};
    sigset_t set = heard_signals();
    int signals = signalfd(-1, &set, SFD_CLOEXEC | SFD_NONBLOCK);
    if (signals >= 0 && !epoll_ctl(gateway->poll, EPOLL_CTL_ADD, signals, &event)) return signals;
    perror("snmpsec-gate: signals");
    return -1;
}

static bool have_answers(const struct epoll_event *ready, int len) {
    for (int i = 0; i < len; i++) {
        uint64_t source = ready[i].data.u64 >> 32;
        if (source == FROM_DEVICE || source == FROM_RECEIVER) return true;
    }
    return false;
}

/* Waits for what comes and takes it, until devices and receivers have nothing more. *now is a time after which all that
 * was there was taken: what is given up by then has no answer in a socket, however long the process was stopped, or 16
 * rounds weren't enough. Whether it is to end; -1: it can't wait. */
static int take_all(struct gateway *gateway, const struct words *words, int signals, uint64_t *now) {
    static struct epoll_event ready[MOST_READY];
    int len = epoll_wait(gateway->poll, ready, MOST_READY, patience(gateway));
    for (int round = 0;; round++) {
        if (len < 0 && errno != EINTR) return -1;
        if (take_ready(gateway, words, ready, len, signals)) return 1;
        *now = now_in_milliseconds();
        len = epoll_wait(gateway->poll, ready, MOST_READY, 0);
        if (len >= 0 && (round == MOST_ROUNDS || !have_answers(ready, len))) return 0;
    }
}

/* What it does until it ends, and with which status. */
static int serve_on(struct gateway *gateway, const struct words *words, int signals) {
    for (int ends = 0; !ends;) {
        uint64_t now = 0;
        ends = take_all(gateway, words, signals, &now);
        if (ends < 0) { perror("snmpsec-gate: epoll"); return 1; }
        if (!now) now = now_in_milliseconds();
        send_due(gateway, now);
        send_notifications(gateway, now);
        /* (what holds of a gateway that found no memory isn't promised) */
        if (gateway->out_of_memory) { fprintf(stderr, "snmpsec-gate: out of memory, it ends\n"); return 1; }
        lines_left_out(now_in_milliseconds());
    }
    return 0;
}

int serve(struct gateway *gateway, const struct words *words) {
    int signals = begin_signals(gateway), status = signals < 0 ? 1 : serve_on(gateway, words, signals);
    snmpsec_wipe(datagram, sizeof datagram);
    snmpsec_wipe(message, sizeof message);
    wipe_traps();
    wipe_notifications();
    return status;
}
