/* How long net-snmp takes to read, authenticate and decrypt a message, to answer it, and to write one, for
 * bench/beside-net-snmp.

   net_snmp_take ROLE USER AUTH-PASSWORD PRIV-PASSWORD ENGINE MESSAGE TIMES

   ROLE is `manager`, `agent`, whose own engine is ENGINE, `answer`: an agent that also writes a response with the
   bindings of the message, `build`: an agent that took the message once and writes the response each time, or `ask`: a
   manager that took it once and writes a GetRequest with its bindings each time. The message, of SHA-1 and AES, and the
   engine are in hex. It is parsed TIMES times by snmpv3_parse, with its look at the time, and answered by snmp_build,
   as snmp_send does; the copy of the message that the parser writes over is made each time.
   It prints the nanoseconds of the processor that a message took. */
#include <net-snmp/net-snmp-config.h>
#include <net-snmp/net-snmp-includes.h>
#include <stdio.h>
#include <stdlib.h>
#include <string.h>
#include <time.h>

/* Of the library, and in none of its headers: it writes the message from the end of the room, which it makes larger
 * where it has to. */
int snmp_build(u_char **packet, size_t *room, size_t *written, netsnmp_session *session, netsnmp_pdu *pdu);

static size_t from_hex(const char *text, u_char *octets)
{
    size_t count = strlen(text) / 2;
    for (size_t k = 0; k < count; k++) {
        unsigned octet;
        sscanf(text + 2 * k, "%2x", &octet);
        octets[k] = (u_char) octet;
    }
    return count;
}

static double seconds(void)
{
    struct timespec t;
    clock_gettime(CLOCK_PROCESS_CPUTIME_ID, &t);
    return (double) t.tv_sec + (double) t.tv_nsec * 1e-9;
}

static void set_up(netsnmp_session *session, char **words)
{
    static u_char engine[32];
    snmp_sess_init(session);
    session->version = SNMP_VERSION_3;
    session->sndMsgMaxSize = 65507;
    session->securityName = words[2];
    session->securityNameLen = strlen(words[2]);
    session->securityLevel = SNMP_SEC_LEVEL_AUTHPRIV;
    session->securityModel = SNMP_SEC_MODEL_USM;
    session->securityAuthProto = usmHMACSHA1AuthProtocol;
    session->securityAuthProtoLen = USM_AUTH_PROTO_SHA_LEN;
    session->securityPrivProto = usmAESPrivProtocol;
    session->securityPrivProtoLen = USM_PRIV_PROTO_AES_LEN;
    session->securityAuthKeyLen = USM_AUTH_KU_LEN;
    session->securityPrivKeyLen = USM_PRIV_KU_LEN;
    generate_Ku(session->securityAuthProto, USM_AUTH_PROTO_SHA_LEN, (u_char *) words[3], strlen(words[3]),
                session->securityAuthKey, &session->securityAuthKeyLen);
    generate_Ku(session->securityAuthProto, USM_AUTH_PROTO_SHA_LEN, (u_char *) words[4], strlen(words[4]),
                session->securityPrivKey, &session->securityPrivKeyLen);
    session->securityEngineIDLen = from_hex(words[5], engine);
    session->securityEngineID = engine;
}

typedef enum { TAKES, ANSWERS, WRITES, ASKS } Work;

/* The message as it was parsed, or NULL for a refusal. */
static netsnmp_pdu *parsed(netsnmp_session *session, const u_char *message, size_t count, u_char *room)
{
    size_t left = count;
    u_char *after;
    netsnmp_pdu *pdu = calloc(1, sizeof *pdu);
    memcpy(room, message, count);
    pdu->version = SNMP_VERSION_3;
    if (snmpv3_parse(pdu, room, &left, &after, session) == SNMPERR_SUCCESS)
        return pdu;
    snmp_free_pdu(pdu);
    return NULL;
}

/* How many octets the message has that is written of this PDU, and 0 where there is none. */
static size_t built(netsnmp_session *session, netsnmp_pdu *pdu)
{
    static u_char *packet;
    static size_t room;
    size_t written = 0;
    return snmp_build(&packet, &room, &written, session, pdu) == 0 ? written : 0;
}

/* The same of the response with these bindings. */
static size_t answered(netsnmp_session *session, netsnmp_pdu *pdu)
{
    pdu->command = SNMP_MSG_RESPONSE;
    pdu->flags |= UCD_MSG_FLAG_RESPONSE_PDU;
    return built(session, pdu);
}

/* The same of a GetRequest with these bindings. */
static size_t asked(netsnmp_session *session, netsnmp_pdu *pdu)
{
    pdu->command = SNMP_MSG_GET;
    pdu->flags &= ~UCD_MSG_FLAG_RESPONSE_PDU;
    pdu->securityStateRef = NULL;
    return built(session, pdu);
}

/* Takes the message, and answers it where that is asked for: how many octets the answer has, 1 where there is none, and
 * 0 for a refusal. */
static size_t taken(netsnmp_session *session, const u_char *message, size_t count, u_char *room, Work work)
{
    netsnmp_pdu *pdu = parsed(session, message, count, room);
    if (pdu == NULL)
        return 0;
    size_t written = work == ANSWERS ? answered(session, pdu) : 1;
    snmp_free_pdu(pdu);
    return written;
}

/* Does the work once, on the message or on the PDU that was parsed of it: 0 where it fails. */
static size_t done(netsnmp_session *session, netsnmp_pdu *pdu, const u_char *message, size_t count, u_char *room,
                   Work work)
{
    if (work == WRITES)
        return answered(session, pdu);
    return work == ASKS ? asked(session, pdu) : taken(session, message, count, room, work);
}

/* Does the work so many times: the nanoseconds of the processor for each, or less than 0 for a refusal. */
static double measured(netsnmp_session *session, const u_char *message, size_t count, Work work, long times)
{
    static u_char room[65536];
    netsnmp_pdu *pdu = parsed(session, message, count, room);
    if (pdu == NULL)
        return -1;
    double start = seconds();
    for (long k = 0; k < times; k++)
        if (done(session, pdu, message, count, room, work) == 0)
            return -1;
    double spent = seconds() - start;
    snmp_free_pdu(pdu);
    return spent * 1e9 / (double) times;
}

static Work work_of(const char *role)
{
    if (strcmp(role, "answer") == 0)
        return ANSWERS;
    if (strcmp(role, "build") == 0)
        return WRITES;
    return strcmp(role, "ask") == 0 ? ASKS : TAKES;
}

int main(int count, char **words)
{
    static u_char message[65536], own[32];
    netsnmp_session session;
    if (count != 8) {
        fprintf(stderr, "usage: net_snmp_take ROLE USER AUTH-PASSWORD PRIV-PASSWORD ENGINE MESSAGE TIMES\n");
        return 2;
    }
    Work work = work_of(words[1]);
    int manages = strcmp(words[1], "manager") == 0 || work == ASKS;
    init_snmp("net_snmp_take");
    if (!manages)
        set_exact_engineID(own, from_hex(words[5], own));
    set_up(&session, words);
    if (create_user_from_session(&session) != SNMPERR_SUCCESS)
        return 1;
    double nanoseconds = measured(&session, message, from_hex(words[6], message), work, atol(words[7]));
    if (nanoseconds < 0) {
        fprintf(stderr, "net_snmp_take: the message is refused\n");
        return 1;
    }
    printf("%.1f\n", nanoseconds);
    return 0;
}
