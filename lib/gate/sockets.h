/* The gateway's sockets: those at which it listens, one connected to each device, and who sent a datagram to whom. Not
 * proved.
 *
 * A call that answers an int answers 0, or -1 and says on standard error which address and why. */
#ifndef SOCKETS_H
#define SOCKETS_H

#include <netinet/in.h>
#include <stdbool.h>
#include <stddef.h>
#include <stdint.h>
#include <sys/socket.h>

/* the most octets of an address and its port in words */
#define ADDRESS_WORDS 80

/* Who sent a datagram, at which listening socket it came, and to which address of ours. All of it, each octet, tells
 * one client from another. */
struct client {
    struct sockaddr_storage from;
    struct in6_addr to6;
    struct in_addr to4;
    uint32_t interface, from_len, listener, has_to;
};

/* Reads a numeric address and its port, as "192.0.2.1:161" or "[2001:db8::1]:161". */
int address_of(const char *words, struct sockaddr_storage *address, socklen_t *len);
/* The other way round; words has ADDRESS_WORDS octets. */
void address_words(const struct sockaddr_storage *address, char *words);

/* Whether two addresses are of one host, whatever the ports. */
bool are_of_one_host(const struct sockaddr_storage *a, const struct sockaddr_storage *b);

/* A socket that listens: its address, how many octets of datagrams may wait there, and how many datagrams the system
 * had no room for, in all and as it counted them last. */
struct listener {
    int socket, room;
    char words[ADDRESS_WORDS];
    uint64_t lost;
    uint32_t counted;
};
/* as many octets are asked for */
enum { ROOM_WANTED = 8 << 20 };

/* A socket that listens at the address, with as much room as may be had, and one connected to it, written to *made.
 * Neither blocks. */
int listen_at(const char *words, struct listener *listener);
int connect_to(const char *words, int *made);

/* Reads a datagram that came to a listening socket: how many octets, or -1 where there is none. Clients at port 0 are
 * passed over: nothing can be sent there (RFC 768). */
ssize_t receive_from(struct listener *listener, struct client *client, uint8_t *datagram, size_t most);
/* Sends one to a client, from the address to which the client's datagram came: whether the system took it. */
bool send_to(const struct listener *listener, const struct client *client, const uint8_t *datagram, size_t len);

#endif
