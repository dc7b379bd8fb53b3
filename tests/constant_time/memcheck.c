/* Runs one of the ciphers under a key that memcheck counts as undefined: it then tells of each branch and of each
   address that depends on the key.

       valgrind --error-exitcode=9 ./memcheck vector|tag|verify|tables */

#include <inttypes.h>
#include <stdio.h>
#include <string.h>
#include <valgrind/memcheck.h>

uint64_t decision_bench_vector(const uint8_t *key, const uint8_t *block);
uint64_t decision_bench_tables(const uint8_t *key, const uint8_t *block);
uint64_t decision_bench_tag(const uint8_t *key, const uint8_t *message, size_t len);
uint64_t decision_bench_verify(const uint8_t *key, uint16_t segment_id, uint32_t timestamp, const uint8_t *mac);

/* FIPS 197, appendix B. */
static uint8_t key[16] = {0x2b, 0x7e, 0x15, 0x16, 0x28, 0xae, 0xd2, 0xa6,
                          0xab, 0xf7, 0x15, 0x88, 0x09, 0xcf, 0x4f, 0x3c};
static const uint8_t block[16] = {0x32, 0x43, 0xf6, 0xa8, 0x88, 0x5a, 0x30, 0x8d,
                                  0x31, 0x31, 0x98, 0xa2, 0xe0, 0x37, 0x07, 0x34};
static const uint64_t encrypted = 0x3925841d02dc09fb;

/* RFC 4493, section 4: the messages of 0, 16 and 40 bytes. */
static const uint8_t message[40] = {
    0x6b, 0xc1, 0xbe, 0xe2, 0x2e, 0x40, 0x9f, 0x96, 0xe9, 0x3d, 0x7e, 0x11, 0x73, 0x93, 0x17, 0x2a,
    0xae, 0x2d, 0x8a, 0x57, 0x1e, 0x03, 0xac, 0x9c, 0x9e, 0xb7, 0x6f, 0xac, 0x45, 0xaf, 0x8e, 0x51,
    0x30, 0xc8, 0x1c, 0x46, 0xa3, 0x5c, 0xe4, 0x11};
static const struct {
    size_t len;
    uint64_t tag;
} tags[] = {{0, 0xbb1d6929e9593728}, {16, 0x070a16b46b4d4144}, {40, 0xdfa66747de9ae630}};

/* The MAC that OpenSSL makes of a hop field under this key. */
static const uint8_t mac[6] = {0x0e, 0x66, 0xd2, 0x97, 0x45, 0x36};

static int wrong;

/* What was computed from the key may be looked at now. */
static void is(const char *name, uint64_t got, uint64_t wanted)
{
    VALGRIND_MAKE_MEM_DEFINED(&got, sizeof got);
    if (got != wanted) {
        printf("%s: %016" PRIx64 " in place of %016" PRIx64 "\n", name, got, wanted);
        wrong = 1;
    }
}

int main(int count, char **words)
{
    const char *word = count == 2 ? words[1] : "";
    VALGRIND_MAKE_MEM_UNDEFINED(key, sizeof key);
    if (strcmp(word, "vector") == 0) {
        is(word, decision_bench_vector(key, block), encrypted);
    } else if (strcmp(word, "tables") == 0) {
        is(word, decision_bench_tables(key, block), encrypted);
    } else if (strcmp(word, "tag") == 0) {
        for (size_t k = 0; k < sizeof tags / sizeof *tags; k++)
            is(word, decision_bench_tag(key, message, tags[k].len), tags[k].tag);
    } else if (strcmp(word, "verify") == 0) {
        for (int place = -1; place < 6; place++) {
            uint8_t other[6];
            memcpy(other, mac, sizeof other);
            if (place >= 0)
                other[place] ^= 1;
            is(word, decision_bench_verify(key, 0x1234, 0x65000000, other), place < 0);
        }
    } else {
        fprintf(stderr, "memcheck: vector, tag, verify or tables\n");
        return 2;
    }
    return wrong;
}
