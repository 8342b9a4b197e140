/* The calls on a gateway: gate_calls CONFIG CAPTURED-LOG
 *
 * Null pointers, refused configurations, buffers that are too short, what the configuration says, refused datagrams, and refused memory. The captured
 * datagrams are refused by the gateway, since they are for another engine. Not proved. */
#include "checks.h"
#include "proved.h"
#include <stdio.h>
#include <string.h>

#define HEAD "[gate]\nengine = '80001f8804676174652d31'\nboots = '/var/lib/boots'\nlisten = ['192.0.2.1:161', '[2001:db8::1]:161']\n"
#define DEVICE "[[device]]\ncontext = 'pdu'\naddress = '10.1.0.7:161'\ncommunity = 'reads'\n"
static const char text[] = HEAD DEVICE "[[device]]\ncontext = 'ups'\naddress = '10.1.0.8:161'\ncommunity = 'reads'\n"
    "[[user]]\nname = 'ann'\nauth = 'sha256'\nauth-password = 'maplesyrup'\npriv-password = 'another passphrase'\n";

static int made(const char *words, snmpsec_gate **gate) {
    return snmpsec_gate_new((const uint8_t *)words, strlen(words), 1, 0, gate);
}

/* A setting has these words. */
static void has(snmpsec_gate *gate, const char *name, snmpsec_gate_text which, size_t position, const char *words) {
    uint8_t *out = fenced((const uint8_t *)words, strlen(words));
    size_t len = 0;
    memset(out, 0, strlen(words));
    if (*words) check(name, SNMPSEC_SHORT_BUFFER, snmpsec_gate_setting(gate, which, position, out, strlen(words) - 1, &len));
    check(name, 0, snmpsec_gate_setting(gate, which, position, out, strlen(words), &len));
    check(name, (long long)strlen(words), (long long)len);
    check(name, 0, memcmp(out, words, len));
}

static int read_of(const char *words, snmpsec_gate **gate) {
    return snmpsec_gate_read((const uint8_t *)words, strlen(words), gate);
}

/* What the configuration says, of a gateway or of what is read without one. */
static void settings(snmpsec_gate *gate) {
    size_t len = 7;
    has(gate, "boots", SNMPSEC_GATE_BOOTS, 0, "/var/lib/boots");
    has(gate, "listen", SNMPSEC_GATE_LISTEN, 0, "192.0.2.1:161");
    has(gate, "the second address", SNMPSEC_GATE_LISTEN, 1, "[2001:db8::1]:161");
    has(gate, "context", SNMPSEC_GATE_CONTEXT, 1, "ups");
    has(gate, "address", SNMPSEC_GATE_ADDRESS, 1, "10.1.0.8:161");
    has(gate, "note", SNMPSEC_GATE_NOTE, 0, "no access row fits its context");
    check("no third address", SNMPSEC_NOTHING_TAKEN, snmpsec_gate_setting(gate, SNMPSEC_GATE_LISTEN, 2, NULL, 0, &len));
    check("no view without a family", SNMPSEC_NOTHING_TAKEN,
          snmpsec_gate_setting(gate, SNMPSEC_GATE_VIEW_WITHOUT_FAMILY, 0, NULL, 0, &len));
    check("no such setting", SNMPSEC_BAD_ARGUMENT, snmpsec_gate_setting(gate, (snmpsec_gate_text)11, 0, NULL, 0, &len));
    check("and nothing is written", 7, (long long)len);
    snmpsec_gate_free(gate);
}

static void said(void) {
    snmpsec_gate *gate;
    check("new", 0, made(text, &gate));
    settings(gate);
    check("read", 0, read_of(text, &gate));
    settings(gate);
}

/* The read views that no family row has, each once, of a gateway or of what is read without one. */
static void views_of(int (*make)(const char *, snmpsec_gate **)) {
#define ACCESS(prefix, read) \
    "[[access]]\ngroup = 'g'\nprefix = '" prefix "'\nmodel = 3\nlevel = 'authPriv'\nmatch = 'exact'\nread = '" read "'\n"
    static const char views[] = HEAD ACCESS("a", "none") ACCESS("b", "v") ACCESS("c", "other") ACCESS("d", "none") ACCESS("e", "")
        "write = 'w'\nnotify = 'n'\n[[family]]\nview = 'v'\nsubtree = '1'\ninclude = false\n";
    snmpsec_gate *gate;
    size_t len = 7;
    check("views", 0, make(views, &gate));
    has(gate, "a view that no family row has", SNMPSEC_GATE_VIEW_WITHOUT_FAMILY, 0, "none");
    has(gate, "another one", SNMPSEC_GATE_VIEW_WITHOUT_FAMILY, 1, "other");
    check("each once", SNMPSEC_NOTHING_TAKEN, snmpsec_gate_setting(gate, SNMPSEC_GATE_VIEW_WITHOUT_FAMILY, 2, NULL, 0, &len));
    snmpsec_gate_free(gate);
}

/* What is read without a gateway has no devices that send, no users and nothing to do. */
static void nobody_answered(void) {
    snmpsec_gate *gate;
    snmpsec_gate_event event = SNMPSEC_GATE_BEGINS;
    snmpsec_gate_info info;
    memset(&info, 1, sizeof info);
    static const snmpsec_gate_info none;
    int why = 0;
    check("read", 0, read_of(text, &gate));
    for (size_t i = 0; i < datagrams_len; i++)
        check("each datagram is refused", 1, snmpsec_gate_take_client(gate, 1000, (const uint8_t *)"client", 6, datagrams[i], lengths[i], &event) > 0);
    check("nothing is to be done", 0, snmpsec_gate_next(gate, 1000, 1, 1, &event, &why));
    check("nothing", SNMPSEC_GATE_NOTHING, event);
    check("numbers", 0, snmpsec_gate_numbers(gate, &info));
    check("are 0", 0, memcmp(&info, &none, sizeof info));
    snmpsec_gate_free(gate);
}

/* A string of several lines may end by four or five quotes (TOML 1.0, "String"); parts of keys behind it count. */
static void nested_behind_strings(void) {
    static const char *const texts[] = {
        "a = [\"\"\"b\"\"\"\", { a.a.a.a.a.a.a.a.a.a.a.a.a.a.a.a.a.a.a.a = 1 }]",
        "a = [\"\"\"b\"\"\"\"\", { a.a.a.a.a.a.a.a.a.a.a.a.a.a.a.a.a.a.a.a = 1 }]",
        "a = ['''b'''', { a.a.a.a.a.a.a.a.a.a.a.a.a.a.a.a.a.a.a.a = 1 }]",
    };
    uint8_t out[400];
    size_t len = 0;
    for (size_t i = 0; i < sizeof texts / sizeof *texts; i++) {
        const uint8_t *config = (const uint8_t *)texts[i];
        int answer = snmpsec_gate_fault(config, strlen(texts[i]), out, sizeof out, &len);
        check("nested behind a string", SNMPSEC_BAD_CONFIGURATION, answer);
        check("and refused for that", 0, memcmp(out, "refused config nesting\n", 23));
    }
}

static void refused_texts(void) {
    static const char bad[] = HEAD "[[device]]\nadress = '10.1.0.7:161'\n", deep[] = "a = [[[[[[[[[[[[[[[[[[[[[[]]]]]]]]]]]]]]]]]]]]]]";
    uint8_t out[400];
    size_t len = 0;
    snmpsec_gate *gate = (snmpsec_gate *)&len;
    check("a refused text", SNMPSEC_BAD_CONFIGURATION, made(bad, &gate));
    check("makes none", 1, gate == NULL);
    check("a refused text is not read", SNMPSEC_BAD_CONFIGURATION, read_of(bad, &gate));
    check("nested too deep", SNMPSEC_BAD_CONFIGURATION, made(deep, &gate));
    check("and not read", SNMPSEC_BAD_CONFIGURATION, read_of(deep, &gate));
    check("and there is nothing", 1, gate == NULL);
    check("too many boots", SNMPSEC_BAD_ARGUMENT, snmpsec_gate_new((const uint8_t *)text, sizeof text - 1, 2147483648u, 0, &gate));
    check("why", SNMPSEC_BAD_CONFIGURATION, snmpsec_gate_fault((const uint8_t *)bad, sizeof bad - 1, out, sizeof out, &len));
    check("the line", 0, memcmp(out, "refused config device 0 BadKey\n", 31));
    check("why: no room", SNMPSEC_SHORT_BUFFER, snmpsec_gate_fault((const uint8_t *)bad, sizeof bad - 1, out, len - 1, &len));
    check("why: nested", SNMPSEC_BAD_CONFIGURATION, snmpsec_gate_fault((const uint8_t *)deep, sizeof deep - 1, out, sizeof out, &len));
    check("the line of that", 0, memcmp(out, "refused config nesting\n", 23));
    check("none", 0, snmpsec_gate_fault((const uint8_t *)text, sizeof text - 1, out, sizeof out, &len));
    check("of no octets", 0, (long long)len);
}

static void nothing_given(void) {
    snmpsec_gate_event event;
    snmpsec_gate_info info;
    snmpsec_counters counters;
    snmpsec_counts counts;
    uint64_t at;
    uint32_t kinds;
    size_t len;
    int why;
    snmpsec_gate_free(NULL);
    check("no place", SNMPSEC_BAD_ARGUMENT, made(text, NULL));
    check("no place: read", SNMPSEC_BAD_ARGUMENT, read_of(text, NULL));
    check("no gateway: take_client", SNMPSEC_BAD_ARGUMENT, snmpsec_gate_take_client(NULL, 0, NULL, 0, NULL, 0, &event));
    check("no gateway: take_device", SNMPSEC_BAD_ARGUMENT, snmpsec_gate_take_device(NULL, 0, 0, NULL, 0, &event));
    check("no gateway: next", SNMPSEC_BAD_ARGUMENT, snmpsec_gate_next(NULL, 0, 0, 0, &event, &why));
    check("no gateway: due", SNMPSEC_BAD_ARGUMENT, snmpsec_gate_due(NULL, &at));
    check("no gateway: message", SNMPSEC_BAD_ARGUMENT, snmpsec_gate_message(NULL, NULL, 0, &len));
    check("no gateway: client", SNMPSEC_BAD_ARGUMENT, snmpsec_gate_client(NULL, NULL, 0, &len));
    check("no gateway: asker", SNMPSEC_BAD_ARGUMENT, snmpsec_gate_asker(NULL, 0, NULL, 0, &len));
    check("no gateway: lines", SNMPSEC_BAD_ARGUMENT, snmpsec_gate_lines(NULL, &kinds));
    check("no gateway: line", SNMPSEC_BAD_ARGUMENT, snmpsec_gate_line(NULL, SNMPSEC_LINE_SET, NULL, 0, NULL, 0, NULL, 0, &len));
    check("no gateway: setting", SNMPSEC_BAD_ARGUMENT, snmpsec_gate_setting(NULL, SNMPSEC_GATE_BOOTS, 0, NULL, 0, &len));
    check("no gateway: numbers", SNMPSEC_BAD_ARGUMENT, snmpsec_gate_numbers(NULL, &info));
    check("no gateway: counters", SNMPSEC_BAD_ARGUMENT, snmpsec_gate_counters(NULL, &counters));
    check("no gateway: counts", SNMPSEC_BAD_ARGUMENT, snmpsec_gate_counts(NULL, &counts));
}

/* Captured datagrams are of another engine: each is refused, and where it asks for reports one is to be sent. */
static void datagrams_refused(void) {
    snmpsec_gate *gate;
    snmpsec_gate_event event = SNMPSEC_GATE_BEGINS;
    snmpsec_gate_info info;
    uint8_t out[SNMPSEC_LARGEST], user[32];
    size_t len = 0, reports = 0, users = 0;
    uint64_t at = 3;
    int why = 0;
    check("new", 0, made(text, &gate));
    for (size_t i = 0; i < datagrams_len; i++) {
        uint8_t *datagram = fenced(datagrams[i], lengths[i]);
        check("a captured datagram is refused", 1, snmpsec_gate_take_client(gate, 1000, (const uint8_t *)"client", 6, datagram, lengths[i], &event) > 0);
        reports += !snmpsec_gate_message(gate, out, sizeof out, &len);
        users += !snmpsec_datagram_user(datagram, lengths[i], user, sizeof user, &len);
        check("a device's", 0, snmpsec_gate_take_device(gate, 1000, 0, datagram, lengths[i], &event));
        check("is unreadable", SNMPSEC_GATE_UNREADABLE, event);
    }
    check("some have a report", 1, reports > 0);
    check("each names a user", (long long)datagrams_len, (long long)users);
    check("nothing is due", SNMPSEC_NOTHING_TAKEN, snmpsec_gate_due(gate, &at));
    check("nothing is to be done", 0, snmpsec_gate_next(gate, 1000, 1, 1, &event, &why));
    check("nothing", SNMPSEC_GATE_NOTHING, event);
    check("nothing is to be sent", SNMPSEC_NOTHING_TAKEN, snmpsec_gate_message(gate, out, sizeof out, &len));
    check("numbers", 0, snmpsec_gate_numbers(gate, &info));
    check("nothing waits", 0, (long long)info.waiting);
    check("no octets name a user", 1, snmpsec_datagram_user(NULL, 0, user, sizeof user, &len) > 0);
    snmpsec_gate_free(gate);
}

/* A GetRequest of ann for sysDescr.0 of the device pdu, without authentication, as message 1; and an answer to it with request-id 1, which has the value
 * "a", and "b" for sysName.0. */
static const uint8_t asked[] = {
    0x30, 0x61, 2, 1, 3, 0x30, 0x0d, 2, 1, 1, 2, 2, 5, 0xc0, 4, 1, 4, 2, 1, 3, 4, 0x1e, 0x30, 0x1c, 4, 0x0b, 0x80, 0, 0x1f, 0x88,
    4, 0x67, 0x61, 0x74, 0x65, 0x2d, 0x31, 2, 1, 0, 2, 1, 0, 4, 3, 0x61, 0x6e, 0x6e, 4, 0, 4, 0, 0x30, 0x2d, 4, 0x0b, 0x80, 0, 0x1f, 0x88,
    4, 0x67, 0x61, 0x74, 0x65, 0x2d, 0x31, 4, 3, 0x70, 0x64, 0x75, 0xa0, 0x19, 2, 1, 7, 2, 1, 0, 2, 1, 0, 0x30, 0x0e, 0x30, 0x0c, 6, 8, 0x2b,
    6, 1, 2, 1, 1, 1, 0, 5, 0};
static const uint8_t answer[] = {
    0x30, 0x35, 2, 1, 1, 4, 5, 0x72, 0x65, 0x61, 0x64, 0x73, 0xa2, 0x29, 2, 1, 1, 2, 1, 0, 2, 1, 0, 0x30, 0x1e, 0x30, 0x0d, 6, 8, 0x2b,
    6, 1, 2, 1, 1, 1, 0, 4, 1, 0x61, 0x30, 0x0d, 6, 8, 0x2b, 6, 1, 2, 1, 1, 5, 0, 4, 1, 0x62};

/* The client asks the request of this number. */
static void asker_is(snmpsec_gate *gate, uint64_t request) {
    uint8_t *out = fenced((const uint8_t *)"xxxxxx", 6);
    size_t len = 0;
    check("no room for its client", SNMPSEC_SHORT_BUFFER, snmpsec_gate_asker(gate, request, out, 5, &len));
    check("of six octets", 6, (long long)len);
    check("nothing is written", 0, memcmp(out, "xxxxxx", 6));
    check("its client", 0, snmpsec_gate_asker(gate, request, out, 6, &len));
    check("is that of the message", 0, memcmp(out, "client", 6));
    check("another request's", SNMPSEC_NOTHING_TAKEN, snmpsec_gate_asker(gate, request + 1, out, 6, &len));
}

/* The last call has a line on its device's answer, and no other. */
static void line_is(snmpsec_gate *gate) {
    static const char wanted[] = "device pdu answers wrongly to get 1.3.6.1.2.1.1.1.0 of user ann from 192.0.2.9:7: it has 2 bindings, too many";
    enum { LONG = sizeof wanted - 1 };
    uint8_t *out = fenced((const uint8_t *)wanted, LONG);
    uint32_t kinds = 0;
    size_t len = 0;
    memset(out, 'x', LONG);
    check("its lines", 0, snmpsec_gate_lines(gate, &kinds));
    check("are of one kind", SNMPSEC_LINE_MISFIT, (long long)kinds);
#define LINE(kind, room) snmpsec_gate_line(gate, kind, (const uint8_t *)"192.0.2.9:7", 11, answer, sizeof answer, out, room, &len)
    check("there is no other", SNMPSEC_NOTHING_TAKEN, LINE(SNMPSEC_LINE_SET, LONG));
    check("no room for it", SNMPSEC_SHORT_BUFFER, LINE(SNMPSEC_LINE_MISFIT, LONG - 1));
    check("which has so many octets", LONG, (long long)len);
    check("nothing is written", 'x', out[0]);
    left = 0;
    check("without memory", SNMPSEC_OUT_OF_MEMORY, LINE(SNMPSEC_LINE_MISFIT, LONG));
    left = -1;
    check("the line", 0, LINE(SNMPSEC_LINE_MISFIT, LONG));
    check("says why the answer doesn't fit", 0, memcmp(out, wanted, LONG));
}

/* How many bindings of a device's answer the view hides. */
static void hidden_counted(void) {
    static const char views[] = HEAD DEVICE "[[user]]\nname = 'ann'\nauth = 'sha256'\nauth-password = 'maplesyrup'\n"
        "[[group]]\nmodel = 3\nname = 'ann'\ngroup = 'g'\n"
        "[[access]]\ngroup = 'g'\nprefix = 'pdu'\nmodel = 3\nlevel = 'noAuthNoPriv'\nmatch = 'exact'\nread = 'v'\n"
        "[[family]]\nview = 'v'\nsubtree = '1.3.6.1.2.1.1.1'\ninclude = true\n";
    snmpsec_gate *gate;
    snmpsec_gate_event event = SNMPSEC_GATE_NOTHING;
    snmpsec_gate_info info;
    int why = 0;
    check("new", 0, made(views, &gate));
    check("a request", 0, snmpsec_gate_take_client(gate, 1000, (const uint8_t *)"client", 6, asked, sizeof asked, &event));
    check("begins", SNMPSEC_GATE_BEGINS, event);
    check("numbers of it", 0, snmpsec_gate_numbers(gate, &info));
    check("by a GetRequest", SNMPSEC_GET_REQUEST, (long long)info.pdu);
    check("once more", 0, snmpsec_gate_take_client(gate, 1000, (const uint8_t *)"client", 6, asked, sizeof asked, &event));
    check("joins", SNMPSEC_GATE_JOINS, event);
    check("its numbers", 0, snmpsec_gate_numbers(gate, &info));
    check("by a GetRequest too", SNMPSEC_GET_REQUEST, (long long)info.pdu);
    asker_is(gate, info.request);
    check("its device", 0, snmpsec_gate_next(gate, 1000, 1, 1, &event, &why));
    check("is asked", SNMPSEC_GATE_TO_DEVICE, event);
    check("what comes from it", 0, snmpsec_gate_take_device(gate, 1000, 0, answer, sizeof answer, &event));
    check("answers", SNMPSEC_GATE_ANSWERS, event);
    check("numbers", 0, snmpsec_gate_numbers(gate, &info));
    check("by a binding too many", SNMPSEC_MISFIT_TOO_MANY, (long long)info.misfit);
    check("which is hidden", 1, (long long)info.hidden);
    line_is(gate);
    check("and is no client's message", 0, (long long)info.pdu);
    check("what goes out", 0, snmpsec_gate_next(gate, 1000, 2, 2, &event, &why));
    check("goes to the client", SNMPSEC_GATE_TO_CLIENT, event);
    check("numbers once more", 0, snmpsec_gate_numbers(gate, &info));
    check("and hides nothing", 0, (long long)info.hidden);
    snmpsec_gate_free(gate);
}

/* Each growth of memory is refused in turn, until there is enough for this. */
static void made_of_enough(int (*make)(const char *, snmpsec_gate **), snmpsec_gate **gate) {
    int answer = SNMPSEC_OUT_OF_MEMORY;
    for (long n = 0; answer == SNMPSEC_OUT_OF_MEMORY && n < 100000; n++) {
        left = n;
        answer = make(text, gate);
        left = -1;
        if (answer) check("no gateway without memory", 1, *gate == NULL);
    }
    check("made, once there is enough", 0, answer);
}

/* A number that is no call's, nor what is copied: it is answered so, and nothing is written. */
static void no_calls(void) {
    static const uint8_t none[16];
    static const uint32_t no_arcs[4];
    const proved_octets octets = {none, 0};
    const proved_gate_asked asked = {.call = PROVED_GATE_LINES + 1, .client = octets, .datagram = octets, .arcs = {no_arcs, 0}};
    proved_gate_said said = {.event = 7, .why = 7};
    snmpsec_gate *gate;
    uint8_t out[1] = {7};
    size_t written = 7;
    check("made", 0, made(text, &gate));
    check("no call", SNMPSEC_BAD_ARGUMENT, proved_gate_call(gate, &asked, &said));
    check("nothing is copied", SNMPSEC_BAD_ARGUMENT, proved_gate_copy(gate, PROVED_GATE_SETTING + 1, 0, 0, out, 1, &written));
    check("no setting", SNMPSEC_BAD_ARGUMENT, proved_gate_copy(gate, PROVED_GATE_SETTING, 11, 0, out, 1, &written));
    check("nothing is written", 1, said.event == 7 && said.why == 7 && out[0] == 7 && written == 7);
    snmpsec_gate_free(gate);
}

/* Nothing is lost. */
static void refused_memory(void) {
    snmpsec_gate *gate;
    uint8_t out[100];
    size_t len;
    made_of_enough(read_of, &gate);
    snmpsec_gate_free(gate);
    made_of_enough(made, &gate);
    left = 0;
    check("a setting", SNMPSEC_OUT_OF_MEMORY, snmpsec_gate_setting(gate, SNMPSEC_GATE_ADDRESS, 0, out, sizeof out, &len));
    left = 0;
    snmpsec_gate_free(gate);
    left = -1;
}

int main(int argc, char **argv) {
    read_capture(argc, argv);
    said();
    views_of(made);
    views_of(read_of);
    nobody_answered();
    nested_behind_strings();
    refused_texts();
    nothing_given();
    datagrams_refused();
    hidden_counted();
    no_calls();
    refused_memory();
    return checks_told();
}
