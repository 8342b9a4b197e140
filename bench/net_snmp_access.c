/* How long net-snmp takes to decide on access, for bench/access.

   net_snmp_access ROWS WILD MASKS ARCS KIND ASKS

   The rows are those of times.c (access) of the shape `one`, and so are the questions: ROWS rows of each table,
   all family rows of one view; each WILDth of them has a wildcard (0: none), with MASKS different masks in turn;
   a question is for a variable of ARCS arcs, which a row has (`hit`) or none (`miss`). Each question is asked as
   snmpd asks it: the group of the name, the access row, and the view's row. It prints how many questions were
   allowed and how many were not in view, and the nanoseconds of the processor that one took. */
#include <net-snmp/net-snmp-config.h>
#include <net-snmp/net-snmp-includes.h>
#include <net-snmp/library/vacm.h>
#include <stdio.h>
#include <stdlib.h>
#include <string.h>
#include <time.h>

enum { IN_GROUP = 5, QUESTIONS = 1000, STEP = 7919, MODEL = 3, ARCS = 10, LONGEST = 128 };

static double seconds(void)
{
    struct timespec t;
    clock_gettime(CLOCK_PROCESS_CPUTIME_ID, &t);
    return (double) t.tv_sec + (double) t.tv_nsec * 1e-9;
}

static void name_of(char *name, char letter, unsigned number)
{
    sprintf(name, "%c%08x", letter, number);
}

/* The list keeps names behind their length. */
static void put_name(char *to, char letter, unsigned number)
{
    to[0] = 9;
    name_of(to + 1, letter, number);
}

static void subtree_of(oid *arcs, unsigned number)
{
    static const oid begin[] = {1, 3, 6, 1, 2, 1, 2, 2};
    memcpy(arcs, begin, sizeof begin);
    arcs[8] = number / 64;
    arcs[9] = number % 64;
}

static void put_group(unsigned number)
{
    char user[16];
    name_of(user, 'u', number);
    struct vacm_groupEntry *group = vacm_createGroupEntry(MODEL, user);
    put_name(group->groupName, 'g', number / IN_GROUP);
    group->status = SNMP_ROW_ACTIVE;
}

static void put_access(unsigned number)
{
    char group[16], prefix[16] = "";
    name_of(group, 'g', number / IN_GROUP);
    if (number % IN_GROUP)
        name_of(prefix, 'p', number % IN_GROUP);
    struct vacm_accessEntry *access = vacm_createAccessEntry(group, prefix, MODEL, SNMP_SEC_LEVEL_NOAUTH);
    access->contextMatch = CONTEXT_MATCH_PREFIX;
    strcpy(access->views[VACM_VIEW_READ], "v00000000");
    access->status = SNMP_ROW_ACTIVE;
}

static void put_family(unsigned number, unsigned wild, unsigned masks)
{
    oid arcs[ARCS];
    subtree_of(arcs, number);
    struct vacm_viewEntry *family = vacm_createViewEntry("v00000000", arcs, ARCS);
    memset(family->viewMask, 0xFF, sizeof family->viewMask);
    family->viewMaskLen = 0;
    if (wild && number % wild == 0) {
        family->viewMask[0] = (u_char) (255 - 2 * (number / wild % masks + 1));
        family->viewMaskLen = 1;
    }
    family->viewType = number % 2 ? SNMP_VIEW_EXCLUDED : SNMP_VIEW_INCLUDED;
    family->viewStatus = SNMP_ROW_ACTIVE;
}

/* 1 allowed, 0 not in view, -1 else */
static int ask(const char *user, const char *context, oid *variable, size_t arcs)
{
    struct vacm_groupEntry *group = vacm_getGroupEntry(MODEL, user);
    if (!group)
        return -1;
    struct vacm_accessEntry *access =
        vacm_getAccessEntry(group->groupName + 1, context, MODEL, SNMP_SEC_LEVEL_AUTHPRIV);
    if (!access)
        return -1;
    struct vacm_viewEntry *family = vacm_getViewEntry(access->views[VACM_VIEW_READ], variable, arcs, VACM_MODE_FIND);
    return family && family->viewType == SNMP_VIEW_INCLUDED;
}

int main(int count, char **words)
{
    if (count != 7)
        return 2;
    unsigned rows = (unsigned) atoi(words[1]), wild = (unsigned) atoi(words[2]), masks = (unsigned) atoi(words[3]);
    size_t arcs = (size_t) atoi(words[4]);
    int is_hit = !strcmp(words[5], "hit");
    long asks = atol(words[6]), allowed = 0, not_in_view = 0;
    static oid variable[QUESTIONS][LONGEST];
    static char user[QUESTIONS][16], context[QUESTIONS][16];

    /* Each goes to the head of its list, which would else be gone through. */
    for (unsigned number = rows; number-- > 0;) {
        put_group(number);
        put_access(number);
        put_family(number, wild, masks);
    }
    unsigned number = 0;
    for (int k = 0; k < QUESTIONS; k++) {
        number = (number + STEP) % rows;
        name_of(user[k], 'u', number);
        name_of(context[k], 'c', number);
        for (int arc = 0; arc < LONGEST; arc++)
            variable[k][arc] = 5;
        subtree_of(variable[k], number);
        if (!is_hit)
            variable[k][9] = 100;
    }
    double begin = seconds();
    for (long k = 0; k < asks; k++) {
        int answer = ask(user[k % QUESTIONS], context[k % QUESTIONS], variable[k % QUESTIONS], arcs);
        allowed += answer == 1;
        not_in_view += answer == 0;
    }
    printf("%ld %ld %.1f\n", allowed, not_in_view, (seconds() - begin) / (double) asks * 1e9);
    return 0;
}
