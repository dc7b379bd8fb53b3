/* SCION datagrams with a path of one segment and three hops, as a router of this repository takes them and
   sends them on. The layouts are those of docs/FORMATS.md; nothing here is taken from the router. */
#ifndef DATAGRAMS_H
#define DATAGRAMS_H

#include <stdbool.h>
#include <stddef.h>
#include <stdint.h>

enum { HEADER = 84, REQUEST = 24, UDP = 17, SCMP = 202, LONGEST = 65507 };

/* ISD and AS in one number: 1-ff00:0:110 and two of its neighbours. */
#define LOCAL_AS 0x0001ff0000000110u
#define FIRST_AS 0x0001ff0000000111u
#define LAST_AS 0x0001ff0000000112u

/* The router's hop field of a path, and what its packet carries. */
struct datagram {
    uint64_t destination, source;           /* ISD and AS */
    uint32_t destination_host, source_host; /* IPv4 addresses */
    uint32_t flow;                          /* 20 bits */
    uint8_t class;
    uint8_t next_header;
    bool along;               /* in the direction of construction */
    unsigned hop;             /* which of the three is the router's: 0, 1 or 2 */
    uint16_t ingress, egress; /* of the construction */
    uint8_t alerts;           /* 1: the egress's router, 2: the ingress's */
    uint16_t identifier;      /* of the segment, before the hop in the direction of construction */
    uint32_t timestamp;
    uint8_t expiry;
};

/* Expands the key of the trials' configurations; it is needed before any datagram is made. */
void set_key(void);

/* Writes the datagram as it arrives, with a payload of `length` bytes, and answers its own length. */
size_t arriving(const struct datagram *of, const uint8_t *payload, size_t length, uint8_t *bytes);

/* Turns a datagram as it arrives by one link into what leaves by another one: the cursor is one hop further,
   and the segment's identifier is that of the next hop. */
void leaving(const struct datagram *of, uint8_t *bytes);

/* Writes a traceroute request. */
size_t trace_request(uint16_t identifier, uint16_t sequence, uint8_t *payload);

enum { TRACE_REPLY = 131, LONGEST_ANSWER = 1232, LONGEST_QUOTE = LONGEST_ANSWER - HEADER - 8 };

/* What a router answers: a parameter problem with its pointer, or a traceroute reply with its interface. */
struct answer {
    uint8_t type, code;
    uint16_t pointer;
    uint64_t interface;
    bool outside; /* the datagram came from another AS */
};

/* Writes the SCMP message by which the router at the loopback address answers a datagram that arrives so, and
   answers the message's own length as a datagram. */
size_t answering(const uint8_t *datagram, size_t length, const struct answer *answer, uint8_t *bytes);

#endif
