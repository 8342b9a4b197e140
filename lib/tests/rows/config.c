/* Rows on configurations, of the program and of a gateway: what is read of a text, and what is reported of one that
 * isn't read. Not proved. */
#include "asking.h"
#include "stations.h"
#include "tables.h"
#include <stdio.h>
#include <stdlib.h>
#include <string.h>

static struct growing read_last;

static void need(int answer) {
    if (answer) fail_of(answer);
}

/* `read TEXT`: whether it is read, or the line that is printed of it, and why. */
static void read_text(bool is_gate) {
    static uint8_t out[1 << 16];
    size_t written;
    snmpsec_config_place place;
    snmpsec_octets text = octets();
    int answer = is_gate ? snmpsec_gate_fault(text.at, text.len, out, sizeof out, &written)
                         : snmpsec_config_fault(text.at, text.len, &place, out, sizeof out, &written);
    if (answer && answer != SNMPSEC_BAD_CONFIGURATION) fail_of(answer);
    if (!answer) {
        empty(&read_last);
        add_octets(&read_last, text.at, text.len);
        say("read");
        return;
    }
    const char *end = memchr(out, '\n', written);
    if (!end) fail("a line");
    say("%.*s; %.*s", (int)(end - (char *)out), (char *)out, (int)((char *)out + written - 1 - (end + 1)), end + 1);
}

/* ---- of the program */

/* `supports NAME LEVEL`: whether the user has the keys that the level needs. */
static void supports(void) {
    static const uint8_t engine[] = {0x80, 0, 0, 0, 1};
    snmpsec_agent *agent;
    snmpsec_octets user = name();
    snmpsec_octets message = uncoded_message((snmpsec_octets){engine, sizeof engine}, user, level());
    need(snmpsec_agent_new(octets_of(&read_last).at, read_last.len, engine, sizeof engine, 1, 0, &agent));
    int answer = snmpsec_agent_take(agent, 0, message.at, message.len);
    if (answer == SNMPSEC_OUT_OF_MEMORY) lack();
    say(answer == SNMPSEC_UNKNOWN_USER || answer == SNMPSEC_UNSUPPORTED_LEVEL ? "false" : "true");
    snmpsec_agent_free(agent);
}

/* `level WORD`: the level that the word is, that of an access row, and its word, or none. */
static void level_of(void) {
    static const char *const levels[] = {"", "NoAuthNoPriv", "AuthNoPriv", "AuthPriv"};
    static const uint8_t engine[] = {0x80, 0, 0, 0, 1}, ann[] = "ann";
    static const uint32_t arcs[] = {1, 3};
    const char *given = said();
    struct growing text = {0};
    snmpsec_agent *agent;
    add(&text,
        "context = [{ name = '' }]\ngroup = [{ model = 3, name = 'ann', group = 'g' }]\n"
        "access = [{ group = 'g', prefix = '', model = 3, level = '%s', match = 'exact', read = 'v' }]\n"
        "family = [{ view = 'v', subtree = '1', include = true }]\n",
        given);
    int answer = snmpsec_agent_new((const uint8_t *)text.at, text.len, engine, sizeof engine, 1, 0, &agent);
    free(text.at);
    if (answer == SNMPSEC_BAD_CONFIGURATION) {
        say("none");
        return;
    }
    need(answer);
    int least = SNMPSEC_NO_AUTH_NO_PRIV;
    while (least <= SNMPSEC_AUTH_PRIV
           && !snmpsec_agent_user_allows(agent, (snmpsec_octets){ann, 3}, (snmpsec_level)least,
                                         (snmpsec_octets){NULL, 0}, SNMPSEC_READ, arcs, 2))
        least++;
    say("%s %s", least > SNMPSEC_AUTH_PRIV ? "none" : levels[least], given);
    snmpsec_agent_free(agent);
}

void config_row(const char *kind) {
    if (!strcmp(kind, "read")) read_text(false);
    else if (!strcmp(kind, "supports")) supports();
    else if (!strcmp(kind, "level")) level_of();
    else if (!strcmp(kind, "allowed")) say_access(access_printed("check-access", octets_of(&read_last)));
    else fail("no row is of this kind");
}

/* ---- of a gateway */

static snmpsec_gate *gate_of(snmpsec_octets text) {
    snmpsec_gate *gate;
    need(snmpsec_gate_read(text.at, text.len, &gate));
    return gate;
}

/* A setting behind a blank, if there is one. */
static bool has_setting(snmpsec_gate *gate, snmpsec_gate_text which, size_t position, const char *before) {
    uint8_t out[512];
    size_t written;
    int answer = snmpsec_gate_setting(gate, which, position, out, sizeof out, &written);
    if (answer == SNMPSEC_NOTHING_TAKEN) return false;
    need(answer);
    say("%s", before);
    if (written) say("%.*s", (int)written, (char *)out);
    else say("-");
    return true;
}

static void all_settings(snmpsec_gate *gate, snmpsec_gate_text which, const char *before) {
    size_t count = 0;
    while (has_setting(gate, which, count, count ? " " : before)) count++;
    if (!count) say("none");
}

/* Its engine ID, as the gateway reports it to who discovers it. */
static void say_engine(void) {
    static uint8_t report[2048];
    snmpsec_gate *gate;
    snmpsec_gate_event event;
    snmpsec_manager *manager;
    uint8_t engine[32];
    size_t len;
    need(snmpsec_gate_new(octets_of(&read_last).at, read_last.len, 1, 0, &gate));
    need(snmpsec_manager_new(NULL, 0, no_clocks.at, no_clocks.len, 0, &manager));
    need(snmpsec_manager_discover(manager, 1));
    need(snmpsec_manager_message(manager, report, sizeof report, &len));
    if (snmpsec_gate_take_client(gate, 0, NULL, 0, report, len, &event) != SNMPSEC_UNKNOWN_ENGINE) fail("a gateway");
    need(snmpsec_gate_message(gate, report, sizeof report, &len));
    need(snmpsec_manager_take(manager, 0, report, len));
    need(snmpsec_manager_part(manager, SNMPSEC_ENGINE, engine, sizeof engine, &len));
    show((snmpsec_octets){engine, len});
    snmpsec_manager_free(manager);
    snmpsec_gate_free(gate);
}

static void of_receiver(snmpsec_gate *gate) {
    size_t at = number32();
    if (!has_setting(gate, SNMPSEC_GATE_RECEIVER, at, "")) {
        say("none");
        return;
    }
    has_setting(gate, SNMPSEC_GATE_RECEIVER_USER, at, " ");
    has_setting(gate, SNMPSEC_GATE_RECEIVER_LEVEL, at, " ");
    has_setting(gate, SNMPSEC_GATE_RECEIVER_KIND, at, " ");
}

static void of_device(snmpsec_gate *gate) {
    size_t at = number32();
    if (!has_setting(gate, SNMPSEC_GATE_CONTEXT, at, "")) {
        say("none");
        return;
    }
    has_setting(gate, SNMPSEC_GATE_ADDRESS, at, " ");
}

/* `may_notify RECEIVER DEVICE ARCS`: whether the receiver may be notified of a variable of the device. */
static void may_notify(snmpsec_gate *gate) {
    snmpsec_access access;
    size_t receiver = number32(), device = number32();
    struct arcs of = arcs();
    need(snmpsec_gate_may_notify(gate, receiver, device, of.at, of.len, &access));
    say_access(access);
}

/* `odd TEXT N`: what about the device is probably a mistake. */
static void odd(void) {
    snmpsec_gate *gate = gate_of(octets());
    if (!has_setting(gate, SNMPSEC_GATE_NOTE, number32(), "")) say("none");
    snmpsec_gate_free(gate);
}

/* `without_family TEXT`: the read views that no family row has. */
static void without_family(void) {
    snmpsec_gate *gate = gate_of(octets());
    all_settings(gate, SNMPSEC_GATE_VIEW_WITHOUT_FAMILY, "");
    snmpsec_gate_free(gate);
}

void gate_config_row(const char *kind) {
    if (!strcmp(kind, "read")) {
        read_text(true);
        return;
    }
    if (!strcmp(kind, "odd")) {
        odd();
        return;
    }
    if (!strcmp(kind, "without_family")) {
        without_family();
        return;
    }
    snmpsec_gate *gate = gate_of(octets_of(&read_last));
    if (!strcmp(kind, "gate")) {
        say_engine();
        has_setting(gate, SNMPSEC_GATE_BOOTS, 0, " ");
        all_settings(gate, SNMPSEC_GATE_LISTEN, " ");
    } else if (!strcmp(kind, "traps")) all_settings(gate, SNMPSEC_GATE_TRAPS, "");
    else if (!strcmp(kind, "receiver")) of_receiver(gate);
    else if (!strcmp(kind, "device")) of_device(gate);
    else if (!strcmp(kind, "may_notify")) may_notify(gate);
    else fail("no row is of this kind");
    snmpsec_gate_free(gate);
}
