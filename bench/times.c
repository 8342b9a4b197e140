/* Does the same again and again over the library, for the programs of bench/ to time: times SUBJECT WORD.. It prints a
 * line. Not proved.
 *
 * times access SHAPE ROWS WILD MASKS ARCS KIND LOADS ASKS
 *     makes a configuration of ROWS rows of each table, and agents of it LOADS times, and asks ASKS questions, 1,000
 * different ones in turn. It prints how many were allowed and how many were not in view. Under the SHAPE `many` a view
 * has 20 family rows, and under `one` a single view has them all. A group has 5 access rows, of which the last in order
 * matches. Each WILDth family row has a wildcard (0: none), with MASKS different masks in turn, at most 127. A question
 * is for a variable of ARCS arcs, which a row of 10 arcs has for the KIND `hit`; for `miss` no row has it. times walks
 * ROWS WILD seen|hidden|hole ASKS makes a view of ROWS family rows of 10 arcs, of which every second includes its
 * subtree, and asks for the next name that may be seen. For `seen` the name asked about is in the view, and for
 * `hidden` a row excludes it. For `hole` one row includes a subtree, and the others exclude its first ROWS children:
 * each question is about the first of them. It prints how many were answered with a name. times bindings
 * walk|write|scoped COUNT TIMES goes through COUNT bindings, writes them one by one, or writes a scopedPDU of them. It
 * prints how many octets that were in all. times gate agent|gate|wait TIMES MESSAGE ANSWER an agent takes the message
 * and responds; or a gateway takes it, asks its device, takes the answer, and responds. It prints the last datagram. Or
 * so many clients send the message, and their requests wait: it prints how many, and the memory of the process as Linux
 * has it (statm). times operations OPERATION OCTETS|MESSAGE[,MESSAGE..] TIMES does an operation on a text of so many
 * octets `a`, each time with the last result over its first octets; or on the messages or PDUs, in turn. It prints the
 * last result, or its last 16 octets, in hex. */
#include "snmpsec.h"
#include <stdio.h>
#include <stdlib.h>
#include <string.h>

enum {
    QUESTIONS = 1000,
    SUBTREE = 10,
    IN_GROUP = 5,
    IN_VIEW = 20,
    MOST_TEXTS = 128,
    MOMENT = 1000,
    STARTED = 997,
    END = 16
};

static void need(int answer, const char *what) {
    if (!answer) return;
    fprintf(stderr, "times: %s: %s\n", what, snmpsec_strerror(answer));
    exit(2);
}

static unsigned long number(const char *word) {
    char *end;
    unsigned long found = strtoul(word, &end, 10);
    if (end == word || *end) need(SNMPSEC_BAD_ARGUMENT, word);
    return found;
}

static void *room(size_t size) {
    void *at = malloc(size);
    if (!at) need(SNMPSEC_OUT_OF_MEMORY, "memory");
    return at;
}

static void print_hex(const uint8_t *at, size_t len) {
    for (size_t i = 0; i < len; i++) printf("%02x", at[i]);
    puts("");
}

static snmpsec_octets of_hex(char *word) {
    snmpsec_octets made = {.len = strlen(word) / 2};
    uint8_t *at = room(made.len + 1);
    for (size_t i = 0; i < made.len; i++) sscanf(word + 2 * i, "%2hhx", &at[i]);
    made.at = at;
    return made;
}

/* ---- access */

struct arcs {
    uint32_t at[SNMPSEC_MOST_ARCS];
    size_t len;
};

static struct arcs subtree_of(uint32_t number) {
    return (struct arcs){{1, 3, 6, 1, 2, 1, 2, 2, number / 64, number % 64}, SUBTREE};
}

static void write_family(FILE *out, unsigned view, const struct arcs *subtree, int mask, bool include) {
    fprintf(out, "[[family]]\nview = 'v%06u'\ninclude = %s\n", view, include ? "true" : "false");
    if (mask >= 0) fprintf(out, "mask = '%02x'\n", (unsigned)mask);
    for (size_t i = 0; i < subtree->len; i++) fprintf(out, i ? ".%u" : "subtree = '%u", subtree->at[i]);
    fprintf(out, "'\n");
}

/* A configuration of so many rows of each table. */
static char *rows_of(bool is_one, uint32_t count, uint32_t wild, uint32_t masks, size_t *len) {
    char *text;
    FILE *out = open_memstream(&text, len);
    for (uint32_t i = 0; i < count; i++) {
        struct arcs subtree = subtree_of(i);
        unsigned view = is_one ? 0 : i / IN_VIEW;
        char prefix[16] = "";
        if (i % IN_GROUP) snprintf(prefix, sizeof prefix, "p%06u", i % IN_GROUP);
        fprintf(out, "[[context]]\nname = 'c%06u'\n[[group]]\nmodel = 3\nname = 'u%06u'\ngroup = 'g%06u'\n", i, i,
                i / IN_GROUP);
        fprintf(
            out,
            "[[access]]\ngroup = 'g%06u'\nprefix = '%s'\nmodel = 3\n"
             "level = 'noAuthNoPriv'\nmatch = 'prefix'\nread = 'v%06u'\n",
            i / IN_GROUP, prefix, view);
        write_family(out, view, &subtree,
                     wild && !(i % wild) ? 255 - 2 * (int)(i / wild % (masks < 127 ? masks : 127) + 1) : -1,
                     i % 2 == 0);
    }
    fclose(out);
    return text;
}

static const uint8_t engine[] = {0x80, 0, 0x1f, 0x88, 3, 2, 0xfc, 0, 0, 0, 1};
static const snmpsec_octets engine_id = {engine, sizeof engine};

static snmpsec_agent *agent_of(const char *text, size_t len) {
    snmpsec_agent *agent;
    need(snmpsec_agent_new((const uint8_t *)text, len, engine, sizeof engine, 1, STARTED, &agent), "an agent");
    return agent;
}

static snmpsec_octets named(char *into, char letter, uint32_t number) {
    return (snmpsec_octets){(uint8_t *)into, (size_t)sprintf(into, "%c%06u", letter, number)};
}

static void access_of(char **word) {
    uint32_t count = (uint32_t)number(word[1]), asked = 0;
    size_t len, arcs = number(word[4]), allowed = 0, not_in_view = 0;
    char *text = rows_of(!strcmp(word[0], "one"), count, (uint32_t)number(word[2]), (uint32_t)number(word[3]), &len);
    snmpsec_agent *agent = agent_of(text, len);
    for (unsigned long loads = number(word[6]); loads > 1; loads--) {
        snmpsec_agent_free(agent);
        agent = agent_of(text, len);
    }
    struct {
        char user[16], context[16];
        struct arcs name;
        snmpsec_octets of_user, of_context;
    } *questions = room(QUESTIONS * sizeof *questions);
    for (int i = 0; i < QUESTIONS; i++) {
        asked = (asked + 7919) % (count ? count : 1);
        questions[i].of_user = named(questions[i].user, 'u', asked);
        questions[i].of_context = named(questions[i].context, 'c', asked);
        questions[i].name = subtree_of(asked);
        if (strcmp(word[5], "hit")) questions[i].name.at[SUBTREE - 1] = 100;
        for (questions[i].name.len = arcs, len = SUBTREE; len < arcs; len++) questions[i].name.at[len] = 5;
    }
    for (unsigned long i = 0, asks = number(word[7]); i < asks; i++) {
        snmpsec_access found;
        int of = (int)(i % QUESTIONS);
        need(snmpsec_agent_user_access(agent, questions[of].of_user, SNMPSEC_AUTH_PRIV, questions[of].of_context,
                                       SNMPSEC_READ, questions[of].name.at, questions[of].name.len, &found),
             "a question");
        allowed += found == SNMPSEC_ACCESS_ALLOWED;
        not_in_view += found == SNMPSEC_NOT_IN_VIEW;
    }
    printf("%zu %zu\n", allowed, not_in_view);
}

/* ---- messages without authentication, and the next name that they may see */

static uint8_t made[SNMPSEC_LARGEST], scoped[SNMPSEC_LARGEST];

static snmpsec_octets unsealed(snmpsec_octets list) {
    static snmpsec_manager *manager;
    size_t len;
    need(snmpsec_manager_new(NULL, 0, (const uint8_t *)SNMPSEC_NO_CLOCKS, sizeof SNMPSEC_NO_CLOCKS - 1, 0, &manager),
         "a manager");
    need(snmpsec_scoped_write(&(snmpsec_scoped){.pdu = SNMPSEC_GET_REQUEST, .context_engine = engine_id, .list = list},
                              scoped, sizeof scoped, &len),
         "scoped");
    need(snmpsec_manager_seal(manager, &(snmpsec_sealing){.max_size = SNMPSEC_LARGEST,
                                                          .level = SNMPSEC_NO_AUTH_NO_PRIV,
                                                          .engine = engine_id,
                                                          .user = {(const uint8_t *)"ann", 3},
                                                          .scoped = {scoped, len}}),
         "a message");
    need(snmpsec_manager_message(manager, made, sizeof made, &len), "a message");
    snmpsec_manager_free(manager);
    return (snmpsec_octets){made, len};
}

static void walks_of(char **word) {
    uint32_t count = (uint32_t)number(word[0]), wild = (uint32_t)number(word[1]), asked = 0;
    bool is_hole = !strcmp(word[2], "hole"), is_seen = !strcmp(word[2], "seen");
    char *text;
    size_t len, found = 0;
    FILE *out = open_memstream(&text, &len);
    fputs(
        "[[user]]\nname = 'ann'\n[[context]]\nname = ''\n[[group]]\nmodel = 3\nname = 'ann'\ngroup = 'g'\n"
         "[[access]]\ngroup = 'g'\nprefix = ''\nmodel = 3\n"
        "level = 'noAuthNoPriv'\nmatch = 'exact'\nread = 'v000000'\n",
        out);
    struct arcs above = {{1, 3, 6, 1, 2, 1, 2, 2}, SUBTREE - 2};
    if (is_hole) write_family(out, 0, &above, -1, true);
    for (uint32_t i = 0; i < count; i++) {
        struct arcs subtree = subtree_of(i);
        if (is_hole) {
            subtree = above;
            subtree.at[subtree.len++] = i;
        }
        write_family(out, 0, &subtree, !is_hole && wild && !(i % wild) ? 0xfe : -1, !is_hole && i % 2 == 0);
    }
    fclose(out);
    snmpsec_agent *agent = agent_of(text, len);
    snmpsec_octets message = unsealed((snmpsec_octets){NULL, 0});
    need(snmpsec_agent_take(agent, MOMENT, message.at, message.len), "a message");
    struct arcs *names = room(QUESTIONS * sizeof *names), next;
    for (int i = 0; i < QUESTIONS; i++) {
        asked = (asked + 7919) % (count ? count : 1);
        names[i] = subtree_of(is_hole ? 0 : asked / 2 * 2 + !is_seen);
        if (!is_hole) {
            names[i].at[SUBTREE] = 5;
            names[i].at[SUBTREE + 1] = 0;
            names[i].len = SUBTREE + 2;
        }
    }
    for (unsigned long i = 0, asks = number(word[3]); i < asks; i++) {
        const struct arcs *of = &names[i % QUESTIONS];
        need(snmpsec_agent_next(agent, SNMPSEC_READ, of->at, of->len, next.at, SNMPSEC_MOST_ARCS, &next.len),
             "a question");
        found += next.len > 0;
    }
    printf("%zu\n", found);
}

/* ---- bindings */

static uint8_t list[SNMPSEC_LARGEST];

/* Counters of interfaces. */
static size_t counters(uint32_t count) {
    size_t len = 0, written;
    for (uint32_t i = 0; i < count; i++, len += written)
        need(snmpsec_binding_write((uint32_t[]){1, 3, 6, 1, 2, 1, 2, 2, 1, 10, i + 1}, 11, 0x41,
                                   (const uint8_t *)"\1\2\3", 3, list + len, sizeof list - len, &written),
             "a binding");
    return len;
}

static void bindings_of(char **word) {
    uint32_t count = (uint32_t)number(word[1]);
    unsigned long long octets = 0;
    size_t len = counters(count), at, written;
    snmpsec_binding binding;
    for (unsigned long times = number(word[2]); times; times--) {
        if (!strcmp(word[0], "walk"))
            for (at = 0; at < len; octets += binding.content_len)
                need(snmpsec_binding_read(list, len, &at, &binding), "a binding");
        else if (!strcmp(word[0], "write")) octets += counters(count);
        else {
            need(snmpsec_scoped_write(&(snmpsec_scoped){.pdu = SNMPSEC_RESPONSE_PDU, .list = {list, len}}, scoped,
                                      sizeof scoped, &written),
                 "a PDU");
            octets += written;
        }
    }
    printf("%llu\n", octets);
}

/* ---- a gateway */

#define ANN_USER \
    "[[user]]\nname = 'ann'\nauth = 'sha1'\nauth-password = 'maplesyrup'\npriv-password = 'maplesyrup'\n"
#define ANN_ACCESS \
    "[[group]]\nmodel = 3\nname = 'ann'\ngroup = 'g'\n[[access]]\ngroup = 'g'\nprefix = ''\nmatch = 'exact'\n" \
    "model = 3\nlevel = 'authPriv'\nread = 'v'\n[[family]]\nview = 'v'\nsubtree = '1.3.6.1.2.1.1'\ninclude = true\n"
#define ANN ANN_USER ANN_ACCESS
enum { SECONDS = 7, NOW = 1000 * SECONDS, ASK_ID = 5 };

static size_t by_agent(unsigned long times, snmpsec_octets message) {
    static const uint8_t own[] = {0x80, 0, 0x1f, 0x88, 4, 'g', 'a', 't', 'e'}, text[] = "[[context]]\nname = ''\n" ANN;
    snmpsec_agent *agent;
    size_t len = 0;
    need(snmpsec_agent_new(text, sizeof text - 1, own, sizeof own, 1, 0, &agent), "an agent");
    for (unsigned long i = 0; i < times; i++) {
        need(snmpsec_agent_take(agent, SECONDS, message.at, message.len), "a message");
        need(snmpsec_agent_part(agent, SNMPSEC_BINDINGS, list, sizeof list, &len), "bindings");
        need(snmpsec_agent_respond(agent, SECONDS, 0, 0, list, len, i), "a Response");
        need(snmpsec_agent_message(agent, made, sizeof made, &len), "a Response");
    }
    return len;
}

static size_t by_gate(snmpsec_gate *gate, unsigned long times, snmpsec_octets message, snmpsec_octets answer) {
    snmpsec_gate_event event;
    size_t len = 0;
    int why;
    for (unsigned long i = 0; i < times; i++) {
        need(snmpsec_gate_take_client(gate, NOW, (const uint8_t *)"client", 6, message.at, message.len, &event),
             "a message");
        need(snmpsec_gate_next(gate, NOW, i, ASK_ID, &event, &why), "an ask");
        need(snmpsec_gate_message(gate, made, sizeof made, &len), "an ask");
        need(snmpsec_gate_take_device(gate, NOW, 0, answer.at, answer.len, &event), "an answer");
        need(snmpsec_gate_next(gate, NOW, i, ASK_ID, &event, &why), "a Response");
        need(snmpsec_gate_message(gate, made, sizeof made, &len), "a Response");
    }
    return len;
}

static void wait_in(snmpsec_gate *gate, unsigned long times, snmpsec_octets message) {
    snmpsec_gate_event event;
    snmpsec_gate_info info;
    char memory[128] = "";
    for (unsigned long i = 0; i < times; i++)
        need(snmpsec_gate_take_client(gate, NOW, (const uint8_t *)&i, sizeof i, message.at, message.len, &event),
             "a message");
    need(snmpsec_gate_numbers(gate, &info), "numbers");
    FILE *file = fopen("/proc/self/statm", "r");
    if (!file || !fgets(memory, sizeof memory, file)) need(SNMPSEC_BAD_ARGUMENT, "statm");
    printf("%llu %s", (unsigned long long)info.waiting, memory);
}

static void gate_of(char **word) {
    unsigned long times = number(word[1]);
    snmpsec_octets message = of_hex(word[2]), answer = of_hex(word[3]);
    char text[1024];
    snmpsec_gate *gate;
    if (!strcmp(word[0], "agent")) {
        print_hex(made, by_agent(times, message));
        return;
    }
    bool waits = !strcmp(word[0], "wait");
    snprintf(
        text, sizeof text,
        "[gate]\nengine = '80001f880467617465'\nboots = 'b'\nlisten = ['127.0.0.1:161']\nwaiting = %lu\n"
         "[[device]]\ncontext = ''\n"
        "address = '127.0.0.1:162'\ncommunity = 'public'\n%s",
        waits ? times : 1, ANN);
    need(snmpsec_gate_new((const uint8_t *)text, strlen(text), 1, 0, &gate), "a gateway");
    if (waits) wait_in(gate, times, message);
    else print_hex(made, by_gate(gate, times, message, answer));
}

/* ---- operations */

static const uint8_t code_key[] =
    "\x0b\x0b\x0b\x0b\x0b\x0b\x0b\x0b\x0b\x0b\x0b\x0b\x0b\x0b\x0b\x0b"
    "\x0b\x0b\x0b\x0b\x0b\x0b\x0b\x0b\x0b\x0b\x0b\x0b\x0b\x0b\x0b\x0b";
static const uint8_t aes_key[] = {0, 1, 2, 3, 4, 5, 6, 7, 8, 9, 10, 11, 12, 13, 14, 15};
static snmpsec_manager *manager;
static snmpsec_agent *answering;
static uint8_t result[1 << 17];
static size_t result_len;
static const snmpsec_octets oak = {(const uint8_t *)"oak", 3};
enum { BOOTS = 7, TIME = 1000 };

#define OAK "[[user]]\nname = 'oak'\nauth = 'sha1'\nauth-password = 'oaktreepass'\npriv-password = 'oakprivpass'\n"

static void begin(unsigned others) {
    char *text;
    size_t len;
    FILE *out = open_memstream(&text, &len);
    for (unsigned i = 0; i < others; i++) fprintf(out, "[[user]]\nname = 'u%06u'\n", i);
    fputs(OAK, out);
    fclose(out);
    need(snmpsec_manager_new((const uint8_t *)text, len, (const uint8_t *)SNMPSEC_NO_CLOCKS,
                             sizeof SNMPSEC_NO_CLOCKS - 1, 0, &manager),
         "a manager");
    answering = agent_of(OAK, sizeof OAK - 1);
}

static snmpsec_protocol protocol_of(const char *operation) {
    const char *hash = strrchr(operation, '-');
    return !strcmp(hash, "-md5") ? SNMPSEC_MD5 : !strcmp(hash, "-sha1") ? SNMPSEC_SHA1 : SNMPSEC_SHA256;
}

static void on_text(const char *operation, uint8_t *text, size_t len) {
    static const uint8_t salt[] = {0, 1, 2, 3, 4, 5, 6, 7};
    if (*operation == 'p')
        need(snmpsec_password_key(protocol_of(operation), text, len, result, sizeof result, &result_len), operation);
    else if (*operation == 'm')
        need(snmpsec_mac(protocol_of(operation), code_key, 32, text, len, 0, NULL, 0, result, sizeof result,
                         &result_len),
             operation);
    else {
        need((operation[4] == 's' ? snmpsec_seal : snmpsec_open)(aes_key, 16, BOOTS, TIME, salt, 8, text, len),
             operation);
        result_len = len < END ? len : END;
        memcpy(result, text + len - result_len, result_len);
    }
    memcpy(text, result, len < result_len ? len : result_len);
}

/* The list of a PDU's bindings, which is its last element. */
static snmpsec_octets list_in(snmpsec_octets pdu) {
    size_t at = 2 + (pdu.at[1] > 0x80 ? pdu.at[1] - 0x80u : 0);
    for (int i = 0; i < 3; i++) at += 2u + pdu.at[at + 1];
    at += 2 + (pdu.at[at + 1] > 0x80 ? pdu.at[at + 1] - 0x80u : 0);
    return (snmpsec_octets){pdu.at + at, pdu.len - at};
}

static void requested(snmpsec_octets pdu) {
    need(snmpsec_manager_request(manager, MOMENT,
                                 &(snmpsec_request){.pdu = SNMPSEC_GET_REQUEST,
                                                    .message_id = 1,
                                                    .request_id = 1,
                                                    .level = SNMPSEC_AUTH_PRIV,
                                                    .engine = engine_id,
                                                    .user = oak,
                                                    .context_engine = engine_id,
                                                    .list = list_in(pdu)}),
         "a request");
    need(snmpsec_manager_message(manager, result, sizeof result, &result_len), "a request");
}

static void sealed(snmpsec_octets pdu) {
    size_t len;
    need(snmpsec_scoped_write(
             &(snmpsec_scoped){.pdu = SNMPSEC_RESPONSE_PDU, .context_engine = engine_id, .list = list_in(pdu)}, scoped,
             sizeof scoped, &len),
         "a PDU");
    need(snmpsec_manager_seal(manager, &(snmpsec_sealing){.message_id = 1,
                                                          .max_size = SNMPSEC_LARGEST,
                                                          .level = SNMPSEC_AUTH_PRIV,
                                                          .engine = engine_id,
                                                          .user = oak,
                                                          .boots = BOOTS,
                                                          .time = TIME,
                                                          .scoped = {scoped, len}}),
         "a message");
    need(snmpsec_manager_message(manager, result, sizeof result, &result_len), "a message");
}

/* A short list of bindings, as an element: what its PDU ends with. */
static void with_head(void) {
    if (result_len >= END) return;
    memmove(result + 2, result, result_len);
    result[0] = 0x30;
    result[1] = (uint8_t)result_len;
    result_len += 2;
}

static void on_message(const char *operation, snmpsec_octets message) {
    if (!strncmp(operation, "take", 4)) {
        need(snmpsec_manager_take(manager, MOMENT, message.at, message.len), operation);
        need(snmpsec_manager_part(manager, SNMPSEC_BINDINGS, result, sizeof result, &result_len), operation);
    } else if (!strncmp(operation, "agent", 5)) {
        need(snmpsec_agent_take(answering, MOMENT, message.at, message.len), operation);
        need(snmpsec_agent_part(answering, SNMPSEC_BINDINGS, result, sizeof result, &result_len), operation);
        if (!strcmp(operation, "agent-take")) return;
        need(snmpsec_agent_respond(answering, MOMENT, 0, 0, result, result_len, 1), operation);
        need(snmpsec_agent_message(answering, result, sizeof result, &result_len), operation);
    } else if (!strcmp(operation, "request")) requested(message);
    else sealed(message);
}

static void operations_of(char **word) {
    const char *operation = word[0];
    bool is_text = *operation == 'p' || *operation == 'm' || *operation == 'c';
    const char *among = strstr(operation, "among-");
    snmpsec_octets texts[MOST_TEXTS];
    size_t count = 0, len = is_text ? number(word[1]) : 0;
    uint8_t *text = memset(room(len + 1), 'a', len + 1);
    if (!is_text)
        for (char *next; (next = strsep(&word[1], ",")) && count < MOST_TEXTS;) texts[count++] = of_hex(next);
    if (!is_text) begin(among ? (unsigned)number(among + 6) : 0);
    for (unsigned long i = 0, times = number(word[2]); i < times; i++) {
        if (is_text) on_text(operation, text, len);
        else on_message(operation, texts[i % count]);
    }
    if (!strncmp(operation, "take", 4) || !strcmp(operation, "agent-take")) with_head();
    size_t end = is_text || result_len < END ? result_len : END;
    print_hex(result + result_len - end, end);
}

int main(int argc, char **argv) {
    static const struct {
        const char *name;
        int words;
        void (*of)(char **word);
    } subjects[] = {
        {"access", 8, access_of}, {"walks", 4, walks_of},           {"bindings", 3, bindings_of},
        {"gate", 4, gate_of},     {"operations", 3, operations_of},
    };
    for (size_t i = 0; argc > 1 && i < sizeof subjects / sizeof *subjects; i++)
        if (!strcmp(argv[1], subjects[i].name) && argc == 2 + subjects[i].words) {
            subjects[i].of(argv + 2);
            return 0;
        }
    fprintf(stderr, "usage: times access|walks|bindings|gate|operations WORD..\n");
    return 2;
}
