#define _GNU_SOURCE
#include "sockets.h"
#include <errno.h>
#include <netdb.h>
#include <stdio.h>
#include <string.h>
#include <unistd.h>

static int told(const char *words, const char *why) {
    fprintf(stderr, "snmpsec-gate: %s: %s\n", words, why);
    return -1;
}

/* Cuts "HOST:PORT" or "[HOST]:PORT" at the last colon, into a copy. */
static bool cut(const char *words, char *copy, size_t most, char **host, char **port) {
    size_t len = strlen(words);
    if (len >= most) return false;
    memcpy(copy, words, len + 1);
    char *colon = strrchr(copy, ':');
    if (!colon || !colon[1]) return false;
    *colon = 0;
    *port = colon + 1;
    *host = copy;
    if (*copy != '[') return !strchr(copy, ':');
    if (colon[-1] != ']') return false;
    colon[-1] = 0;
    *host = copy + 1;
    return true;
}

int address_of(const char *words, struct sockaddr_storage *address, socklen_t *len) {
    struct addrinfo hints = {.ai_flags = AI_NUMERICHOST | AI_NUMERICSERV, .ai_socktype = SOCK_DGRAM}, *found;
    char copy[ADDRESS_WORDS], *host, *port;
    if (!cut(words, copy, sizeof copy, &host, &port)) return told(words, "not an address and a port");
    int fault = getaddrinfo(host, port, &hints, &found);
    if (fault) return told(words, gai_strerror(fault));
    memcpy(address, found->ai_addr, found->ai_addrlen);
    *len = found->ai_addrlen;
    freeaddrinfo(found);
    return 0;
}

void address_words(const struct sockaddr_storage *address, char *words) {
    char host[ADDRESS_WORDS - 10], port[8];
    socklen_t len = address->ss_family == AF_INET ? sizeof(struct sockaddr_in) : sizeof(struct sockaddr_in6);
    if (getnameinfo((const struct sockaddr *)address, len, host, sizeof host, port, sizeof port, NI_NUMERICHOST
                    | NI_NUMERICSERV))
        snprintf(words, ADDRESS_WORDS, "?");
    else
        snprintf(words, ADDRESS_WORDS, address->ss_family == AF_INET ? "%s:%s" : "[%s]:%s", host, port);
}

bool are_of_one_host(const struct sockaddr_storage *a, const struct sockaddr_storage *b) {
    if (a->ss_family != b->ss_family) return false;
    if (a->ss_family == AF_INET)
        return ((const struct sockaddr_in *)a)->sin_addr.s_addr == ((const struct sockaddr_in *)b)->sin_addr.s_addr;
    const struct sockaddr_in6 *one = (const struct sockaddr_in6 *)a, *other = (const struct sockaddr_in6 *)b;
    return one->sin6_scope_id == other->sin6_scope_id && !memcmp(&one->sin6_addr, &other->sin6_addr,
        sizeof one->sin6_addr);
}

static int made_socket(const char *words, int *made, bool listens) {
    struct sockaddr_storage address;
    socklen_t len;
    int on = 1;
    if (address_of(words, &address, &len)) return -1;
    int file = socket(address.ss_family, SOCK_DGRAM | SOCK_CLOEXEC | SOCK_NONBLOCK, 0);
    if (file < 0) return told(words, strerror(errno));
    bool is_six = address.ss_family == AF_INET6;
    bool is_set = !listens || (!(is_six && setsockopt(file, IPPROTO_IPV6, IPV6_V6ONLY, &on, sizeof on))
        && !setsockopt(file, is_six ? IPPROTO_IPV6 : IPPROTO_IP, is_six ? IPV6_RECVPKTINFO : IP_PKTINFO, &on,
                       sizeof on));
    if (is_set && !(listens ? bind : connect)(file, (struct sockaddr *)&address, len)) {
        *made = file;
        return 0;
    }
    int fault = errno;
    close(file);
    return told(words, strerror(fault));
}

/* Only who administrates the network may have more than net.core.rmem_max. Linux counts twice what is asked for. */
static int room_of(int file) {
    int wanted = ROOM_WANTED, got = 0;
    socklen_t len = sizeof got;
    if (setsockopt(file, SOL_SOCKET, SO_RCVBUFFORCE, &wanted, sizeof wanted))
        (void)setsockopt(file, SOL_SOCKET, SO_RCVBUF, &wanted, sizeof wanted);
    return getsockopt(file, SOL_SOCKET, SO_RCVBUF, &got, &len) ? 0 : got / 2;
}

int listen_at(const char *words, struct listener *listener) {
    int on = 1;
    *listener = (struct listener){0};
    if (made_socket(words, &listener->socket, true)) return -1;
    snprintf(listener->words, sizeof listener->words, "%s", words);
    listener->room = room_of(listener->socket);
    (void)setsockopt(listener->socket, SOL_SOCKET, SO_RXQ_OVFL, &on, sizeof on);
    return 0;
}

int connect_to(const char *words, int *made) { return made_socket(words, made, false); }

/* Where the datagram was sent to, and how many the system had no room for before it. */
static void note_parts(struct msghdr *head, struct listener *listener, struct client *client) {
    for (struct cmsghdr *part = CMSG_FIRSTHDR(head); part; part = CMSG_NXTHDR(head, part)) {
        struct in_pktinfo four;
        struct in6_pktinfo six;
        if (part->cmsg_level == IPPROTO_IP && part->cmsg_type == IP_PKTINFO) {
            memcpy(&four, CMSG_DATA(part), sizeof four);
            client->to4 = four.ipi_spec_dst;
            client->has_to = 1;
        } else if (part->cmsg_level == IPPROTO_IPV6 && part->cmsg_type == IPV6_PKTINFO) {
            memcpy(&six, CMSG_DATA(part), sizeof six);
            client->to6 = six.ipi6_addr;
            client->interface = six.ipi6_ifindex;
            client->has_to = 1;
        } else if (part->cmsg_level == SOL_SOCKET && part->cmsg_type == SO_RXQ_OVFL) {
            uint32_t before = listener->counted;
            memcpy(&listener->counted, CMSG_DATA(part), sizeof listener->counted);
            listener->lost += listener->counted - before;
        }
    }
}

static bool has_port(const struct client *client) {
    return client->from.ss_family == AF_INET ? ((const struct sockaddr_in *)&client->from)->sin_port != 0
                                             : ((const struct sockaddr_in6 *)&client->from)->sin6_port != 0;
}

union parts {
    struct cmsghdr head;
    char room[CMSG_SPACE(sizeof(struct in6_pktinfo)) + CMSG_SPACE(sizeof(struct in_pktinfo))
              + CMSG_SPACE(sizeof(uint32_t))];
};

ssize_t receive_from(struct listener *listener, struct client *client, uint8_t *datagram, size_t most) {
    union parts parts;
    for (;;) {
        memset(client, 0, sizeof *client);
        struct iovec piece = {datagram, most};
        struct msghdr head = {.msg_name = &client->from, .msg_namelen = sizeof client->from, .msg_iov = &piece,
                              .msg_iovlen = 1,
                              .msg_control = &parts, .msg_controllen = sizeof parts};
        ssize_t len = recvmsg(listener->socket, &head, 0);
        if (len < 0 && errno == EINTR) continue;
        if (len < 0) return -1;
        client->from_len = head.msg_namelen;
        note_parts(&head, listener, client);
        if (has_port(client)) return len;
    }
}

/* Says from where it is to be sent. */
static void put_to(struct msghdr *head, const struct client *client) {
    struct cmsghdr *part = CMSG_FIRSTHDR(head);
    if (client->from.ss_family == AF_INET) {
        struct in_pktinfo four = {.ipi_spec_dst = client->to4};
        part->cmsg_level = IPPROTO_IP;
        part->cmsg_type = IP_PKTINFO;
        part->cmsg_len = CMSG_LEN(sizeof four);
        memcpy(CMSG_DATA(part), &four, sizeof four);
        head->msg_controllen = CMSG_SPACE(sizeof four);
    } else {
        struct in6_pktinfo six = {.ipi6_addr = client->to6, .ipi6_ifindex = client->interface};
        part->cmsg_level = IPPROTO_IPV6;
        part->cmsg_type = IPV6_PKTINFO;
        part->cmsg_len = CMSG_LEN(sizeof six);
        memcpy(CMSG_DATA(part), &six, sizeof six);
        head->msg_controllen = CMSG_SPACE(sizeof six);
    }
}

bool send_to(const struct listener *listener, const struct client *client, const uint8_t *datagram, size_t len) {
    union parts parts;
    struct sockaddr_storage to = client->from;
    struct iovec piece = {(void *)(uintptr_t)datagram, len};
    struct msghdr head = {.msg_name = &to, .msg_namelen = client->from_len, .msg_iov = &piece, .msg_iovlen = 1};
    memset(&parts, 0, sizeof parts);
    if (client->has_to) {
        head.msg_control = &parts;
        head.msg_controllen = sizeof parts;
        put_to(&head, client);
    }
    return sendmsg(listener->socket, &head, 0) == (ssize_t)len;
}
