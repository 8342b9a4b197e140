/* A manager under hostile octets and out of memory: hostile CONFIG CAPTURED-LOG
 *
 * Each captured datagram, cut at every length and with each bit turned, is taken: none is authentic, so that the saved clocks stay.
 * Saved texts are cut and turned, and the configuration is cut. And each growth of memory is refused in turn: the call answers so, the
 * saved clocks stay, and the same call is done when there is memory again. Not proved. */
#include "checks.h"
#include <stdio.h>
#include <string.h>

/* A manager that holds another engine's clocks. */
static int begin(snmpsec_manager **manager) {
    static const char *const clocks = SNMPSEC_NO_CLOCKS "0102030405 1 2 3\n";
    return snmpsec_manager_new(config, config_len, (const uint8_t *)clocks, strlen(clocks), NOW, manager);
}

static snmpsec_manager *begun(void) {
    snmpsec_manager *manager = NULL;
    check("new", 0, begin(&manager));
    check("discover", 0, snmpsec_manager_discover(manager, 1));
    return manager;
}

/* Each part of what is kept goes into a buffer of its length, and what it is to the request that was written is reported. */
static void look_at_kept(snmpsec_manager *manager) {
    static const uint8_t empty[MOST_OCTETS];
    snmpsec_reply reply = {0};
    check("a reply to the request or none", 0, snmpsec_manager_reply(manager, &reply));
    check("of a kind", 1, reply.kind <= SNMPSEC_REPLY_REPORT);
    check("a counter of reports alone", 1, reply.counter >= 0 && reply.counter <= (reply.kind == SNMPSEC_REPLY_REPORT ? 6 : 0));
    for (unsigned place = SNMPSEC_BINDINGS; place <= SNMPSEC_ENGINE; place++) {
        snmpsec_part part = (snmpsec_part)place;
        size_t wanted = 0, written = 0;
        uint8_t *nothing = fenced(empty, 0);
        int short_of = snmpsec_manager_part(manager, part, nothing, 0, &wanted);
        check("no room for a part", wanted ? SNMPSEC_SHORT_BUFFER : SNMPSEC_OK, short_of);
        check("room for it", 0, snmpsec_manager_part(manager, part, fenced(empty, wanted), wanted, &written));
        check("all of it", (long long)wanted, (long long)written);
    }
}

static void take(snmpsec_manager *manager, const uint8_t *octets, size_t len) {
    snmpsec_reply reply;
    int answer = snmpsec_manager_take(manager, NOW, fenced(octets, len), len);
    check("an answer of the table", 1, answer >= SNMPSEC_OK && answer <= SNMPSEC_INVALID_FLAGS);
    if (answer == SNMPSEC_OK) look_at_kept(manager);
    else check("nothing is kept", SNMPSEC_NOTHING_TAKEN, snmpsec_manager_reply(manager, &reply));
}

static void cut_and_turned(snmpsec_manager *manager, size_t i, const struct text *before) {
    uint8_t changed[MOST_OCTETS];
    for (size_t cut = 0; cut < lengths[i]; cut++) {
        take(manager, datagrams[i], cut);
        struct text after = saved_of(manager);
        check("cut: the clocks are as before", 1, is_same(before, &after));
    }
    memcpy(changed, datagrams[i], lengths[i]);
    for (size_t bit = 0; bit < 8 * lengths[i]; bit++) {
        changed[bit / 8] ^= (uint8_t)(1 << (bit % 8));
        take(manager, changed, lengths[i]);
        struct text after = saved_of(manager);
        check("turned: the clocks are as before", 1, is_same(before, &after));
        changed[bit / 8] ^= (uint8_t)(1 << (bit % 8));
    }
}

static void hostile(void) {
    snmpsec_manager *manager = begun();
    struct text before = saved_of(manager);
    for (size_t i = 0; i < datagrams_len; i++) cut_and_turned(manager, i, &before);
    for (size_t i = 0; i < datagrams_len; i++) take(manager, datagrams[i], lengths[i]);
    struct text after = saved_of(manager);
    check("whole: the clocks are learned", 0, is_same(&before, &after));
    snmpsec_manager_free(manager);
}

/* Saved texts, cut and turned: one that is refused changes nothing, and what is then saved is a text of what is held. */
static void absorb_changed(snmpsec_manager *manager, const uint8_t *octets, size_t len) {
    struct text before = saved_of(manager);
    int answer = snmpsec_manager_absorb(manager, fenced(octets, len), len, NOW);
    struct text after = saved_of(manager);
    if (answer) {
        check("no clocks", SNMPSEC_BAD_CLOCKS, answer);
        check("refused: the clocks are as before", 1, is_same(&before, &after));
    }
    check("what is saved is read", 0, snmpsec_manager_absorb(manager, after.octets, after.len, NOW));
    struct text again = saved_of(manager);
    check("and changes nothing", 1, is_same(&after, &again));
}

static void hostile_clocks(void) {
    static const char text[] = SNMPSEC_NO_CLOCKS "0102030405 1 2 3\n0102030406 1 2 3\n";
    enum { TEXT = sizeof text - 1 };
    snmpsec_manager *manager = begun();
    uint8_t changed[TEXT];
    for (size_t cut = 0; cut < TEXT; cut++) absorb_changed(manager, (const uint8_t *)text, cut);
    memcpy(changed, text, TEXT);
    for (size_t bit = 0; bit < 8 * TEXT; bit++) {
        changed[bit / 8] ^= (uint8_t)(1 << (bit % 8));
        absorb_changed(manager, changed, TEXT);
        changed[bit / 8] ^= (uint8_t)(1 << (bit % 8));
    }
    snmpsec_manager_free(manager);
}

/* A configuration cut at each length: a manager and an agent are made of it, or it is refused. */
static void hostile_configuration(void) {
    static const char *const clocks = SNMPSEC_NO_CLOCKS;
    for (size_t cut = 0; cut < config_len; cut++) {
        snmpsec_manager *manager = NULL;
        snmpsec_agent *agent = NULL;
        const uint8_t *text = fenced(config, cut);
        int answer = snmpsec_manager_new(text, cut, (const uint8_t *)clocks, strlen(clocks), NOW, &manager);
        check("a manager or none", 1, answer == SNMPSEC_OK ? manager != NULL : answer == SNMPSEC_BAD_CONFIGURATION && !manager);
        check("an agent as well", answer, snmpsec_agent_new(text, cut, engine, sizeof engine, BOOTS, NOW, &agent));
        snmpsec_manager_free(manager);
        snmpsec_agent_free(agent);
    }
}

static int take_response(snmpsec_manager *manager) {
    enum { AUTH_PRIV_RESPONSE = 15 };
    return snmpsec_manager_take(manager, NOW, datagrams[AUTH_PRIV_RESPONSE], lengths[AUTH_PRIV_RESPONSE]);
}

static int take_and_reply(snmpsec_manager *manager) {
    snmpsec_reply reply = {0};
    int answer = take_response(manager);
    if (!answer) answer = snmpsec_manager_reply(manager, &reply);
    if (!answer) check("a reply to another", SNMPSEC_REPLY_OTHER, reply.kind);
    return answer;
}

static int request(snmpsec_manager *manager) {
    snmpsec_request request = {.pdu = SNMPSEC_GET_REQUEST, .message_id = 1, .request_id = 1, .level = SNMPSEC_AUTH_PRIV,
                               .engine = {engine, sizeof engine}, .user = {(const uint8_t *)"sam", 3}, .context_engine = {engine, sizeof engine},
                               .salt = 1};
    return snmpsec_manager_request(manager, NOW, &request);
}

static int discover(snmpsec_manager *manager) { return snmpsec_manager_discover(manager, 2); }

static int absorb(snmpsec_manager *manager) {
    static const char *const clocks = SNMPSEC_NO_CLOCKS "0102030405 1 9 3\n0102030406 1 2 3\n";
    return snmpsec_manager_absorb(manager, (const uint8_t *)clocks, strlen(clocks), NOW);
}

static int nothing(snmpsec_manager *manager) { (void)manager; return SNMPSEC_OK; }

static int save(snmpsec_manager *manager) {
    uint8_t text[MOST_OCTETS];
    size_t text_len;
    return snmpsec_manager_save(manager, text, sizeof text, &text_len);
}

/* A call, and whether it takes: then it leaves no message. */
struct call { const char *name; int (*call)(snmpsec_manager *manager); int takes; };

static const struct call calls[] = {
    {"take", take_response, 1},
    {"take and reply", take_and_reply, 1},
    {"request", request, 0},
    {"discover", discover, 0},
    {"absorb", absorb, 0},
    {"save", save, 0},
};

/* The saved text after the call, where there is memory. */
static struct text saved_after(const struct call *call) {
    snmpsec_manager *manager = begun();
    check(call->name, 0, call->call(manager));
    struct text text = saved_of(manager);
    snmpsec_manager_free(manager);
    return text;
}

/* The call where the Nth growth is refused; whether it was. */
static int is_refused(const struct call *call, long n, const struct text *before, const struct text *learned) {
    snmpsec_manager *manager = begun();
    struct text asked = message_of(manager);
    left = n;
    int answer = call->call(manager);
    left = -1;
    if (answer) {
        check(call->name, SNMPSEC_OUT_OF_MEMORY, answer);
        if (!call->takes) {
            struct text message = message_of(manager);
            check("the message is as before", 1, is_same(&asked, &message));
        }
        struct text after = saved_of(manager);
        check("the clocks are as before", 1, is_same(before, &after));
        check("done with memory", 0, call->call(manager));
    }
    struct text end = saved_of(manager);
    check("the clocks are those without want", 1, is_same(learned, &end));
    left = 0;       /* freeing wants no memory, or the leak sanitizer tells */
    snmpsec_manager_free(manager);
    left = -1;
    return answer != 0;
}

static void refused_memory(const struct call *call) {
    struct text before = saved_after(&(struct call){"nothing", nothing, 0}), learned = saved_after(call);
    long n = 0;
    while (n < 100000 && is_refused(call, n, &before, &learned)) n++;
    printf("%s: %ld growths of memory refused in turn\n", call->name, n);
    check("some growths", 1, n > 0);
}

static void refused_new(void) {
    snmpsec_manager *manager = NULL;
    long n = 0;
    for (; n < 100000; n++) {
        left = n;
        int answer = begin(&manager);
        left = -1;
        if (!answer) break;
        check("new", SNMPSEC_OUT_OF_MEMORY, answer);
        check("no pointer was written", 1, manager == NULL);
    }
    printf("new: %ld growths of memory refused in turn\n", n);
    check("some growths", 1, n > 10);
    snmpsec_manager_free(manager);
}

int main(int argc, char **argv) {
    read_capture(argc, argv);
    hostile();
    hostile_clocks();
    hostile_configuration();
    refused_new();
    for (size_t i = 0; i < sizeof calls / sizeof *calls; i++) refused_memory(&calls[i]);
    return checks_told();
}
