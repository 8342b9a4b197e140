/* The request by which a forwarder of notifications learns the time of a receiver's engine. Not proved. */
#include "asking.h"
#include "stations.h"
#include "tables.h"
#include <stdlib.h>
#include <string.h>

static void need(int answer) {
    if (answer) fail_of(answer);
}

/* The users that were loaded, and this one to be informed of what a device says. */
static struct growing informing(snmpsec_octets user) {
    struct growing text = {0};
    add(&text,
        "[gate]\nengine = \"80001f8804726f7773\"\nboots = \"b\"\nlisten = [\"127.0.0.1:161\"]\n"
         "[[device]]\ncontext = \"\"\n"
        "address = \"127.0.0.1:162\"\ncommunity = \"public\"\n"
         "[[receiver]]\naddress = \"127.0.0.1:163\"\nlevel = \"authNoPriv\"\nkind = \"inform\"\nuser = ");
    add_name(&text, user);
    add(&text, "\n[[group]]\nmodel = 3\ngroup = \"g\"\nname = ");
    add_name(&text, user);
    add(&text,
        "\n[[access]]\ngroup = \"g\"\nprefix = \"\"\nmodel = 3\n"
         "level = \"authNoPriv\"\nmatch = \"exact\"\nnotify = \"v\"\n"
        "[[family]]\nview = \"v\"\nsubtree = \"1\"\ninclude = true\n");
    add_octets(&text, loaded_users.at, loaded_users.len);
    return text;
}

/* What goes out next. */
static snmpsec_octets sent_by(snmpsec_forward *forward, uint32_t id, snmpsec_forward_event wanted) {
    static uint8_t sent[2048];
    snmpsec_forward_event event;
    size_t len = 0;
    int why;
    need(snmpsec_forward_next(forward, 0, id, id, &event, &why));
    if (event != wanted) fail("an Inform");
    if (event == SNMPSEC_FORWARD_INFORM_TO_RECEIVER) need(snmpsec_forward_message(forward, sent, sizeof sent, &len));
    return (snmpsec_octets){sent, len};
}

/* The Report by which an engine is discovered. */
static snmpsec_octets discovered(snmpsec_octets engine, snmpsec_octets discovery) {
    static uint8_t report[2048];
    snmpsec_agent *agent;
    size_t len;
    need(snmpsec_agent_new(NULL, 0, engine.at, engine.len, 1, 0, &agent));
    if (snmpsec_agent_take(agent, 0, discovery.at, discovery.len) != SNMPSEC_UNKNOWN_ENGINE) fail("a discovery");
    need(snmpsec_agent_message(agent, report, sizeof report, &len));
    snmpsec_agent_free(agent);
    return (snmpsec_octets){report, len};
}

/* `request_time ID ENGINE USER`: what a forwarder sends for an Inform once the receiver's engine is discovered. */
void request_time(void) {
    static const uint8_t trap[] =
        "\x30\x40\x02\x01\x01\x04\x06public\xa7\x33\x02\x01\x07\x02\x01\x00\x02\x01\x00\x30\x28"
        "\x30\x0d\x06\x08\x2b\x06\x01\x02\x01\x01\x03\x00\x43\x01\x05"
        "\x30\x17\x06\x0a\x2b\x06\x01\x06\x03\x01\x01\x04\x01\x00\x06\x09\x2b\x06\x01\x06\x03\x01\x01\x05\x01";
    snmpsec_forward *forward;
    snmpsec_forward_event event;
    uint32_t id = number32();
    snmpsec_octets engine = octets();
    struct growing text = informing(name());
    need(snmpsec_forward_new(octets_of(&text).at, text.len, 1, 0, &forward));
    free(text.at);
    need(snmpsec_forward_take_trap(forward, 0, trap, sizeof trap - 1, &event));
    sent_by(forward, id - 2, SNMPSEC_FORWARD_INFORM_BEGINS);
    snmpsec_octets report = discovered(engine, sent_by(forward, id - 1, SNMPSEC_FORWARD_INFORM_TO_RECEIVER));
    need(snmpsec_forward_take_receiver(forward, 0, 0, report.at, report.len, &event));
    show(sent_by(forward, id, SNMPSEC_FORWARD_INFORM_TO_RECEIVER));
    snmpsec_forward_free(forward);
}
