#include "datagrams.h"

#include <netinet/in.h>
#include <string.h>

static uint8_t round_keys[11][16];
static uint8_t box[256];

/* Twice a byte, in the field of AES. */
static uint8_t twice(uint8_t byte) { return (uint8_t)(byte << 1) ^ (byte & 0x80 ? 0x1b : 0); }

static void fill_box(void) {
    uint8_t power[255], log[256];
    uint8_t at = 1;
    for (int k = 0; k < 255; k++) {
        power[k] = at;
        log[at] = (uint8_t)k;
        at ^= twice(at);
    }
    for (int byte = 0; byte < 256; byte++) {
        uint8_t inverse = byte ? power[(255 - log[byte]) % 255] : 0;
        uint8_t sum = 0x63;
        for (int turn = 0; turn < 5; turn++) sum ^= (uint8_t)(inverse << turn | inverse >> (8 - turn));
        box[byte] = sum;
    }
}

/* FIPS 197. */
static void encrypt(uint8_t state[16]) {
    for (int k = 0; k < 16; k++) state[k] ^= round_keys[0][k];
    for (int round = 1; round <= 10; round++) {
        uint8_t moved[16];
        for (int k = 0; k < 16; k++) moved[k] = box[state[(k + 4 * (k % 4)) % 16]];
        for (int column = 0; column < 16; column += 4) {
            uint8_t *out = state + column, *in = moved + column;
            for (int row = 0; row < 4; row++) {
                uint8_t next = in[(row + 1) % 4];
                uint8_t mixed = twice(in[row]) ^ twice(next) ^ next ^ in[(row + 2) % 4] ^ in[(row + 3) % 4];
                out[row] = (round < 10 ? mixed : in[row]) ^ round_keys[round][column + row];
            }
        }
    }
}

void set_key(void) {
    static const uint8_t key[16] = {0x2b, 0x7e, 0x15, 0x16, 0x28, 0xae, 0xd2, 0xa6,
                                    0xab, 0xf7, 0x15, 0x88, 0x09, 0xcf, 0x4f, 0x3c};
    fill_box();
    uint8_t constant = 1;
    memcpy(round_keys[0], key, 16);
    for (int round = 1; round <= 10; round++) {
        uint8_t *before = round_keys[round - 1], *now = round_keys[round];
        for (int k = 0; k < 4; k++) now[k] = before[k] ^ box[before[12 + (k + 1) % 4]] ^ (k ? 0 : constant);
        for (int k = 4; k < 16; k++) now[k] = before[k] ^ now[k - 4];
        constant = twice(constant);
    }
}

/* The first six bytes of AES-CMAC, RFC 4493, of one whole block. */
static void tag(const uint8_t block[16], uint8_t mac[6]) {
    uint8_t sub[16] = {0}, state[16];
    encrypt(sub);
    uint8_t carry = sub[0] >> 7;
    for (int k = 0; k < 16; k++) {
        state[k] = (uint8_t)(sub[k] << 1 | (k < 15 ? sub[k + 1] >> 7 : 0)) ^ (k == 15 && carry ? 0x87 : 0);
        state[k] ^= block[k];
    }
    encrypt(state);
    memcpy(mac, state, 6);
}

static uint8_t *put(uint8_t *at, uint64_t value, int bytes) {
    for (int k = 0; k < bytes; k++) at[k] = (uint8_t)(value >> 8 * (bytes - 1 - k));
    return at + bytes;
}

static void mac_of(const struct datagram *of, uint8_t mac[6]) {
    uint8_t block[16] = {0};
    put(block + 2, of->identifier, 2);
    put(block + 4, of->timestamp, 4);
    block[9] = of->expiry;
    put(block + 10, of->ingress, 2);
    put(block + 12, of->egress, 2);
    tag(block, mac);
}

/* The identifier after the hop in the direction of construction. */
static uint16_t chained(const struct datagram *of) {
    uint8_t mac[6];
    mac_of(of, mac);
    return of->identifier ^ (uint16_t)(mac[0] << 8 | mac[1]);
}

enum { META = 36, INFO = 40, IDENTIFIER = 42, HOPS = 48 };

static uint8_t *put_path(const struct datagram *of, uint8_t *at) {
    /* The router checks the MAC of its own hop alone. */
    static const uint8_t others[6] = {0xa0, 0xa1, 0xa2, 0xa3, 0xa4, 0xa5};
    at = put(at, (uint32_t)of->hop << 24 | 3 << 12, 4);
    at = put(at, of->along, 1);
    at = put(at, 0, 1);
    at = put(at, of->along ? of->identifier : chained(of), 2);
    at = put(at, of->timestamp, 4);
    for (unsigned hop = 0; hop < 3; hop++) {
        bool own = hop == of->hop;
        uint8_t mac[6];
        mac_of(of, mac);
        at = put(at, own ? of->alerts : 0, 1);
        at = put(at, of->expiry, 1);
        at = put(at, own ? of->ingress : 17, 2);
        at = put(at, own ? of->egress : 18, 2);
        memcpy(at, own ? mac : others, 6);
        at += 6;
    }
    return at;
}

size_t arriving(const struct datagram *of, const uint8_t *payload, size_t length, uint8_t *bytes) {
    uint8_t *at = put(bytes, (uint32_t)of->class << 20 | of->flow, 4);
    at = put(at, of->next_header, 1);
    at = put(at, HEADER / 4, 1);
    at = put(at, length, 2);
    at = put(at, 1, 1);
    at = put(at, 0, 3);
    at = put(at, of->destination, 8);
    at = put(at, of->source, 8);
    at = put(at, of->destination_host, 4);
    at = put(at, of->source_host, 4);
    at = put_path(of, at);
    memcpy(at, payload, length);
    return HEADER + length;
}

void leaving(const struct datagram *of, uint8_t *bytes) {
    bytes[META]++;
    put(bytes + IDENTIFIER, of->along ? chained(of) : of->identifier, 2);
}

size_t trace_request(uint16_t identifier, uint16_t sequence, uint8_t *payload) {
    memset(payload, 0, REQUEST);
    payload[0] = 130;
    put(payload + 4, identifier, 2);
    put(payload + 6, sequence, 2);
    return REQUEST;
}

/* The sum of 16-bit words, an odd end filled by a zero byte. */
static uint32_t sum_of(const uint8_t *bytes, size_t length) {
    uint32_t sum = 0;
    for (size_t k = 0; k < length; k++) sum += k % 2 ? bytes[k] : (uint32_t)bytes[k] << 8;
    return sum;
}

/* Of both addresses, the message's length, the protocol and the message with checksum 0. */
static uint16_t checksum(const uint8_t *bytes, size_t message) {
    uint32_t sum = sum_of(bytes + 12, 24) + (uint32_t)message + SCMP + sum_of(bytes + HEADER, message);
    while (sum >> 16) sum = (sum & 0xffff) + (sum >> 16);
    return (uint16_t)~sum;
}

/* The path travelled back, whose cursor is one hop further where the answer leaves the AS. */
static void put_path_back(const uint8_t *datagram, bool outside, uint8_t *bytes) {
    uint32_t hop = 2 - (datagram[META] & 63u) + outside;
    put(bytes + META, hop << 24 | 3 << 12, 4);
    memcpy(bytes + INFO, datagram + INFO, 8);
    bytes[INFO] ^= 1;
    for (int k = 0; k < 3; k++) {
        memcpy(bytes + HOPS + 12 * k, datagram + HOPS + 12 * (2 - k), 12);
        bytes[HOPS + 12 * k] = 0;
    }
}

/* The message after its type, code and checksum; the answer is its end. */
static uint8_t *put_message(const uint8_t *datagram, size_t length, const struct answer *answer,
                            uint8_t *at) {
    if (answer->type == TRACE_REPLY) {
        memcpy(at, datagram + HEADER + 4, 4);
        return put(put(at + 4, LOCAL_AS, 8), answer->interface, 8);
    }
    size_t quoted = length < LONGEST_QUOTE ? length : LONGEST_QUOTE;
    at = put(put(at, 0, 2), answer->pointer, 2);
    memcpy(at, datagram, quoted);
    return at + quoted;
}

size_t answering(const uint8_t *datagram, size_t length, const struct answer *answer, uint8_t *bytes) {
    uint8_t *message = bytes + HEADER;
    memcpy(bytes, datagram, 12);
    bytes[4] = SCMP;
    memcpy(bytes + 12, datagram + 20, 8);
    put(bytes + 20, LOCAL_AS, 8);
    memcpy(bytes + 28, datagram + 32, 4);
    put(bytes + 32, INADDR_LOOPBACK, 4);
    put_path_back(datagram, answer->outside, bytes);
    put(put(message, answer->type, 1), answer->code, 1);
    put(message + 2, 0, 2);
    size_t count = (size_t)(put_message(datagram, length, answer, message + 4) - message);
    put(bytes + 6, count, 2);
    put(message + 2, checksum(bytes, count), 2);
    return HEADER + count;
}
