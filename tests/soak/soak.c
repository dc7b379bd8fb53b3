/* Runs the router over loopback and floods it for a while, after a gentle beginning. Its neighbours are
   sockets of this program: some are read, one is not, one is closed during the flood; links are closed by
   commands; and now and then the system refuses the router's sends and receives. In the end the
   router's report has to account for every datagram that the system gave it. */
#define _GNU_SOURCE
#include "../datagrams.h"
#include "../harness.h"

#include <errno.h>
#include <fcntl.h>
#include <poll.h>
#include <pthread.h>
#include <signal.h>
#include <stdarg.h>
#include <stdio.h>
#include <stdlib.h>
#include <string.h>
#include <sys/socket.h>
#include <sys/wait.h>
#include <time.h>
#include <unistd.h>

/* Neighbours 1 to 6 are those of the links. */
enum { HOST = 0, SLOW = 5, DYING = 6, SIBLING, STRANGER, NEIGHBOURS };
enum { ROUTER = 43100, LINKS = 7, SENDERS = 3, FLOWS = 256, GENTLE = 4000, WINDOW = 32, PATIENCE = 10000 };

static const int ports[NEIGHBOURS] = {43141, 43111, 43112, 43113, 43114, 43115, 43116, 43120, 43130};
static int sockets[NEIGHBOURS];
static atomic_bool dead, paused, over;
static struct page *page;
static atomic_int failures;

static void fail(const char *format, ...) {
    va_list rest;
    if (atomic_fetch_add(&failures, 1) > 20) return;
    va_start(rest, format);
    printf("FAILED: ");
    vprintf(format, rest);
    putchar('\n');
    va_end(rest);
}

static void open_sockets(void) {
    for (int k = 0; k < NEIGHBOURS; k++) {
        struct sockaddr_in at = loopback(ports[k]);
        int wide = 1 << 22;
        sockets[k] = socket(AF_INET, SOCK_DGRAM | SOCK_CLOEXEC | SOCK_NONBLOCK, 0);
        if (sockets[k] < 0 || bind(sockets[k], (struct sockaddr *)&at, sizeof at))
            stop("a neighbour's socket");
        setsockopt(sockets[k], SOL_SOCKET, SO_RCVBUF, &wide, sizeof wide);
    }
}

/* ---- packets that the router forwards ---- */

/* A way through the router: from a neighbour to another one. What stays within the AS leaves as it came. */
struct way {
    int from, to;
    bool along;
    unsigned hop;
    uint16_t ingress, egress;
    uint64_t source, destination;
    bool unchanged;
};

static const struct way ways[] = {
    {1, 2, true, 1, 1, 2, FIRST_AS, LAST_AS, false},
    {2, 1, false, 1, 1, 2, LAST_AS, FIRST_AS, false},
    {3, 4, true, 1, 3, 4, FIRST_AS, LAST_AS, false},
    {4, 3, true, 1, 4, 3, LAST_AS, FIRST_AS, false},
    {1, DYING, true, 1, 1, 6, FIRST_AS, LAST_AS, false},
    {DYING, 1, true, 1, 6, 1, LAST_AS, FIRST_AS, false},
    {HOST, 1, true, 0, 0, 1, LOCAL_AS, FIRST_AS, false},
    {HOST, 2, true, 0, 0, 2, LOCAL_AS, LAST_AS, false},
    {1, HOST, true, 2, 1, 0, FIRST_AS, LOCAL_AS, true},
    {4, HOST, true, 2, 4, 0, LAST_AS, LOCAL_AS, true},
    {1, SIBLING, true, 1, 1, 9, FIRST_AS, LAST_AS, true},
    {SIBLING, 1, true, 1, 9, 1, LAST_AS, FIRST_AS, false},
    {1, SLOW, true, 1, 1, 5, FIRST_AS, LAST_AS, false},
    {SLOW, 1, true, 1, 5, 1, LAST_AS, FIRST_AS, false},
};
enum { WAYS = sizeof ways / sizeof *ways, READ_WAYS = WAYS - 2 };

/* The headers of each way's packets, as they arrive and as they leave, but for class, flow and length. */
static uint8_t heads[WAYS][2][HEADER];
static uint32_t began;

static struct datagram on(const struct way *way) {
    return (struct datagram){.destination = way->destination,
                             .source = way->source,
                             .destination_host = INADDR_LOOPBACK,
                             .source_host = 0x0a010005,
                             .next_header = UDP,
                             .along = way->along,
                             .hop = way->hop,
                             .ingress = way->ingress,
                             .egress = way->egress,
                             .identifier = 0x1234,
                             .timestamp = began,
                             .expiry = 255}; /* a day, so that a long soak has good packets to its end */
}

static void make_heads(void) {
    for (int k = 0; k < WAYS; k++) {
        struct datagram of = on(&ways[k]);
        arriving(&of, (const uint8_t *)"", 0, heads[k][0]);
        memcpy(heads[k][1], heads[k][0], HEADER);
        if (!ways[k].unchanged) leaving(&of, heads[k][1]);
    }
}

/* What a packet carries, from which the whole of it can be made again. */
struct mark {
    uint32_t way, sender, flow, length;
    uint64_t number;
};

/* A quarter of the flows asks for expedited forwarding. Flows of all senders and ways are different ones. */
static size_t packet(const struct mark *mark, bool leaves, uint8_t *bytes) {
    uint32_t class = mark->flow % 4 ? 0 : 46 << 2;
    uint32_t first = class << 20 | mark->way << 16 | mark->sender << 12 | mark->flow;
    memcpy(bytes, heads[mark->way][leaves], HEADER);
    for (int k = 0; k < 4; k++) bytes[k] = (uint8_t)(first >> (24 - 8 * k));
    bytes[6] = (uint8_t)(mark->length >> 8), bytes[7] = (uint8_t)mark->length;
    memcpy(bytes + HEADER, mark, sizeof *mark);
    memset(bytes + HEADER + sizeof *mark, (int)(mark->number % 251), mark->length - sizeof *mark);
    return HEADER + mark->length;
}

/* ---- datagrams that the router answers ---- */

/* What is wrong with a packet, or asked by it, so that its sender gets an answer. */
enum fault { WRONG_MAC, WRONG_LENGTH, EXPIRED, NOWHERE, TRACED, FAULTS };

static const char *const names[FAULTS] = {"wrong MAC", "wrong length", "expired", "to nowhere", "traceroute"};

/* The router's link by which a neighbour's datagrams come. */
static int link_of(int from) { return from == SIBLING ? HOST : from; }

static struct answer answer_to(const struct way *way, enum fault fault) {
    bool outside = link_of(way->from) != HOST;
    struct answer answer = {.type = 4, .pointer = (uint16_t)(48 + 12 * way->hop), .outside = outside};
    switch (fault) {
    case WRONG_MAC: answer.code = 51; break;
    case WRONG_LENGTH: answer.code = 19, answer.pointer = 0; break;
    case EXPIRED: answer.code = 52; break;
    case NOWHERE: answer.code = way->along ? 50 : 49; break;
    default: answer.type = TRACE_REPLY, answer.interface = (uint64_t)(outside ? way->from : way->to);
    }
    return answer;
}

/* What is delivered leaves by no link, so it can't be sent nowhere. */
static bool is_delivered(const struct way *way) { return way->destination == LOCAL_AS; }

/* A datagram that is expired, by a good MAC, that goes to a link that nobody has, or that is a traceroute
   request: each is the same one for all packets of its way. */
static size_t bad_datagram(const struct way *way, enum fault fault, uint8_t *bytes) {
    struct datagram of = on(way);
    uint8_t request[REQUEST];
    switch (fault) {
    case EXPIRED: of.timestamp -= 3 * 86400; return arriving(&of, (const uint8_t *)"expired", 7, bytes);
    case NOWHERE:
        *(of.along ? &of.egress : &of.ingress) = 77;
        return arriving(&of, (const uint8_t *)"nowhere", 7, bytes);
    default:
        of.next_header = SCMP, of.alerts = 3;
        return arriving(&of, request, trace_request(1, 2, request), bytes);
    }
}

/* The requests of the gentle beginning; each has a sequence number of its own. */
static size_t gentle_request(uint16_t sequence, uint8_t *bytes) {
    struct datagram of = on(&ways[0]);
    uint8_t request[REQUEST];
    of.next_header = SCMP, of.alerts = 2;
    return arriving(&of, request, trace_request(3, sequence, request), bytes);
}

/* The last byte of the MAC that the router checks. */
static size_t mac_end(const struct way *way) { return HEADER - 1 - 12 * (2 - way->hop); }

/* The packet of the way, with a wrong MAC or length, of which an answer quotes the beginning; no bytes if
   nobody sent it. */
static size_t quoted_packet(const struct way *way, enum fault fault, const uint8_t *quote, size_t count,
                            uint8_t *bytes) {
    struct mark mark = {0};
    if (count < HEADER) return 0;
    memcpy(&mark, quote + HEADER, count < HEADER + sizeof mark ? count - HEADER : sizeof mark);
    if (count < HEADER + sizeof mark) { /* it is cut, and known by its header */
        mark.way = quote[1] & 15, mark.sender = quote[2] >> 4;
        mark.flow = (uint32_t)(quote[2] & 15) << 8 | quote[3];
        mark.length = (uint32_t)quote[6] << 8 | quote[7];
    }
    if (mark.way != (uint32_t)(way - ways) || mark.length < sizeof mark || mark.length > 9216 - HEADER)
        return 0;
    size_t length = packet(&mark, false, bytes);
    if (fault == WRONG_LENGTH && quote[7] == bytes[7]) return count < length ? count : 0; /* it is cut */
    bytes[fault == WRONG_MAC ? mac_end(way) : 7] ^= 1;
    return length;
}

static bool is_answer_to(const uint8_t *datagram, size_t length, const struct answer *answer,
                         const uint8_t *bytes, size_t count) {
    static uint8_t wanted[LONGEST_ANSWER];
    return answering(datagram, length, answer, wanted) == count && !memcmp(wanted, bytes, count);
}

/* The fault for which a neighbour gets this answer, if each of its bytes is right; otherwise FAULTS. */
static enum fault answered(int at, const uint8_t *bytes, size_t count) {
    static uint8_t sent[1 << 16];
    const uint8_t *quote = bytes + HEADER + 8;
    for (const struct way *way = ways; way < ways + WAYS; way++) {
        if (way->from != at) continue;
        for (enum fault fault = 0; fault < FAULTS; fault++) {
            struct answer answer = answer_to(way, fault);
            if (count < HEADER + 8 || bytes[HEADER] != answer.type || bytes[HEADER + 1] != answer.code)
                continue;
            size_t length = fault >= EXPIRED ? bad_datagram(way, fault, sent)
                                             : quoted_packet(way, fault, quote, count - HEADER - 8, sent);
            if (length && is_answer_to(sent, length, &answer, bytes, count)) return fault;
        }
    }
    struct answer gentle = answer_to(ways, TRACED);
    uint16_t sequence = (uint16_t)(bytes[HEADER + 6] << 8 | bytes[HEADER + 7]);
    size_t length = gentle_request(sequence, sent);
    return at == ways->from && is_answer_to(sent, length, &gentle, bytes, count) ? TRACED : FAULTS;
}

/* ---- neighbours that read ---- */

static atomic_ulong arrived[NEIGHBOURS], packets, answers, of_fault[FAULTS];
static uint64_t last[WAYS][SENDERS + 1][FLOWS];

static bool is_answer(const uint8_t *bytes, size_t length) {
    static const uint8_t local[8] = {0, 1, 0xff, 0, 0, 0, 1, 0x10}; /* LOCAL_AS */
    return length > HEADER && bytes[4] == SCMP && !memcmp(bytes + 20, local, 8);
}

static void look_at_answer(int at, const uint8_t *bytes, size_t length) {
    enum fault fault = answered(at, bytes, length);
    if (fault == FAULTS)
        return fail("a wrong answer of type %d and code %d arrives at %d", bytes[HEADER], bytes[HEADER + 1],
                    at);
    atomic_fetch_add(&of_fault[fault], 1);
    atomic_fetch_add(&answers, 1);
}

/* A packet has to be what its way makes of it, and come after those of its flow that were sent before it. */
static void look(int at, const uint8_t *bytes, size_t length) {
    static uint8_t wanted[1 << 16];
    struct mark mark;
    if (is_answer(bytes, length)) return look_at_answer(at, bytes, length);
    if (length < HEADER + sizeof mark) return fail("%zu bytes arrive at %d", length, at);
    memcpy(&mark, bytes + HEADER, sizeof mark);
    bool known =
        mark.way < WAYS && mark.sender <= SENDERS && mark.flow < FLOWS && mark.length == length - HEADER;
    if (!known || ways[mark.way].to != at) return fail("a packet that nobody sent there arrives at %d", at);
    if (packet(&mark, true, wanted) != length || memcmp(wanted, bytes, length))
        return fail("packet %lu of way %u arrives with other bytes", (unsigned long)mark.number, mark.way);
    uint64_t *before = &last[mark.way][mark.sender][mark.flow];
    if (mark.number <= *before)
        fail("packet %lu of a flow of way %u arrives after %lu", (unsigned long)mark.number, mark.way,
             (unsigned long)*before);
    *before = mark.number;
    atomic_fetch_add(&packets, 1);
}

static void *read_all(void *none) {
    static uint8_t bytes[1 << 16];
    struct pollfd asked[NEIGHBOURS];
    while (!atomic_load(&over)) {
        for (int k = 0; k < NEIGHBOURS; k++) {
            bool reads = k != SLOW && !(k == DYING && atomic_load(&dead));
            asked[k] = (struct pollfd){.fd = reads ? sockets[k] : -1, .events = POLLIN};
        }
        if (poll(asked, NEIGHBOURS, 50) < 0) stop("poll");
        for (int k = 0; k < NEIGHBOURS; k++) {
            ssize_t count;
            if (asked[k].fd < 0 || !asked[k].revents) continue;
            for (int turns = 0; turns < 64 && (count = recv(sockets[k], bytes, sizeof bytes, 0)) >= 0;
                 turns++) {
                atomic_fetch_add(&arrived[k], 1);
                look(k, bytes, (size_t)count);
            }
        }
    }
    return none;
}

/* ---- senders ---- */

static atomic_ulong offered;

static bool offer(int from, int link, const uint8_t *bytes, size_t length) {
    struct sockaddr_in at = loopback(ROUTER + link);
    if (from == DYING && atomic_load(&dead)) return false;
    if (sendto(sockets[from], bytes, length, 0, (struct sockaddr *)&at, sizeof at) < 0) {
        if (errno != EAGAIN && errno != ENOBUFS && errno != ECONNREFUSED) stop("sendto");
        return false;
    }
    atomic_fetch_add(&offered, 1);
    return true;
}

static uint64_t draw(uint64_t *state) {
    *state ^= *state << 13, *state ^= *state >> 7, *state ^= *state << 17;
    return *state >> 11;
}

/* A datagram that the router can't forward, made of a packet with room for the longest. */
static size_t spoil(uint64_t *state, const struct way *way, uint8_t *bytes, size_t length, int *from) {
    static const size_t lengths[] = {0, 1, 9217, LONGEST};
    switch (draw(state) % 9) {
    case 0: return lengths[draw(state) % 4];
    case 1: return draw(state) % length;
    case 2: bytes[mac_end(way)] ^= 1; return length;
    case 3: return bad_datagram(way, EXPIRED, bytes);
    case 4: bytes[7] ^= 1; return length; /* the payload's length */
    case 5: *from = STRANGER; return length;
    case 6:
        for (size_t k = 0; k < length; k++) bytes[k] = (uint8_t)draw(state);
        bytes[8] |= 2; /* no path type that is carried: no answer to random bytes can be compared */
        return length;
    case 7: return is_delivered(way) ? 1 : bad_datagram(way, NOWHERE, bytes);
    default: return bad_datagram(way, TRACED, bytes);
    }
}

/* The payload's length: mostly short, now and then the longest that the router takes. */
static uint32_t some_length(uint64_t *state) {
    uint64_t drawn = draw(state);
    return drawn % 64 ? (uint32_t)(sizeof(struct mark) + drawn / 64 % 1300) : 9216 - HEADER;
}

static void *flood(void *word) {
    uint32_t sender = (uint32_t)(uintptr_t)word;
    uint64_t state = 88172645463325252u + sender, number = 0;
    uint8_t *bytes = calloc(1, 1 << 16);
    if (!bytes) stop("a sender's buffer");
    while (!atomic_load(&over)) {
        if (atomic_load(&paused) || draw(&state) % 2000 == 0) usleep(1000);
        if (atomic_load(&paused)) continue;
        struct mark mark = {.way = (uint32_t)(draw(&state) % WAYS), .sender = sender, .number = ++number};
        mark.flow = (uint32_t)(draw(&state) % FLOWS);
        mark.length = some_length(&state);
        const struct way *way = &ways[mark.way];
        int from = way->from;
        size_t length = packet(&mark, false, bytes);
        if (draw(&state) % 3 == 0) length = spoil(&state, way, bytes, length, &from);
        offer(from, link_of(way->from), bytes, length);
    }
    free(bytes);
    return NULL;
}

/* Waits until as many packets and answers came as are wanted, while some still do. */
static bool came(unsigned long wanted) {
    unsigned long before = 0, count;
    for (long since = now(); (count = atomic_load(&packets) + atomic_load(&answers)) < wanted; usleep(100)) {
        if (count != before) since = now();
        before = count;
        if (now() - since > PATIENCE / 2) return false;
    }
    return true;
}

/* One at a time first, now and then after a rest, so that each finds the router's workers asleep, and then a
   few at once, for which no buffer and no queue is short of room: each packet has to arrive, and each request
   to be answered. */
static void begin_gently(void) {
    static uint8_t bytes[1 << 16];
    uint64_t state = 42;
    unsigned long sent = 0, asked = 0;
    while (sent + asked < GENTLE) {
        unsigned long window = sent + asked < GENTLE / 2 ? 1 : WINDOW;
        if (sent + asked >= window && !came(sent + asked + 1 - window)) break;
        struct mark mark = {.way = (uint32_t)(sent % READ_WAYS),
                            .sender = SENDERS,
                            .flow = (uint32_t)(draw(&state) % FLOWS),
                            .length = some_length(&state),
                            .number = sent + 1};
        const struct way *way = &ways[mark.way];
        if (!offer(way->from, link_of(way->from), bytes, packet(&mark, false, bytes)))
            stop("the gentle beginning");
        sent++;
        if (sent % 16 == 0) {
            offer(ways->from, link_of(ways->from), bytes, gentle_request((uint16_t)asked, bytes));
            asked++;
        }
        usleep(draw(&state) % 64 ? 100 : 5000);
    }
    came(sent + asked);
    printf("gentle: %lu of %lu packets arrived, %lu of %lu traceroutes were answered\n",
           atomic_load(&packets), sent, atomic_load(&of_fault[TRACED]), asked);
    if (atomic_load(&packets) != sent || atomic_load(&of_fault[TRACED]) != asked ||
        atomic_load(&answers) != asked)
        fail("the gentle beginning");
}

/* ---- the router ---- */

static pid_t child;
static int in, out;
static char text[1 << 14];
static size_t held;

static void start(char **words) {
    int input[2], output[2];
    if (pipe2(input, O_CLOEXEC) || pipe2(output, O_CLOEXEC)) stop("pipe");
    child = start_router(words[1], (char *[]){"router", "run", "--config", words[3], NULL}, words[2],
                         (const int[]){input[0], output[1], output[1]}, -1);
    close(input[0]), close(output[1]);
    in = input[1], out = output[0];
}

/* Waits for more of what the router writes; false at its end, or where nothing comes. */
static bool more(void) {
    struct pollfd asked = {.fd = out, .events = POLLIN};
    if (poll(&asked, 1, PATIENCE) != 1) return false;
    ssize_t count = read(out, text + held, sizeof text - 1 - held);
    if (count <= 0) return false;
    held += (size_t)count;
    text[held] = 0;
    return true;
}

/* The next line that the router writes, or an empty one. */
static const char *line(void) {
    static char taken[256];
    char *end;
    while (!(end = strchr(text, '\n')))
        if (!more()) return "";
    snprintf(taken, sizeof taken, "%.*s", (int)(end - text), text);
    held -= (size_t)(end + 1 - text);
    memmove(text, end + 1, held + 1);
    return taken;
}

static void expect(const char *wanted) {
    const char *got = line();
    if (strcmp(got, wanted)) fail("the router says '%s' in place of '%s'", got, wanted);
}

static unsigned long commands;

static void command(const char *words) {
    commands++;
    if (dprintf(in, "%s\n", words) < 0) stop("a command");
}

static void close_link(int link) {
    char word[32], closed[32], full[32], already[32];
    snprintf(word, sizeof word, "close %d", link), snprintf(closed, sizeof closed, "closed %d", link);
    snprintf(full, sizeof full, "full %d", link), snprintf(already, sizeof already, "already %d", link);
    for (long until = now() + PATIENCE;;) {
        command(word);
        const char *said = line();
        if (!strcmp(said, closed)) break;
        if (strcmp(said, full) || now() > until) return fail("the router says '%s' to '%s'", said, word);
        usleep(1000);
    }
    command(word);
    expect(already);
}

static long resident(void) {
    char name[64], row[256];
    long kilobytes = 0;
    snprintf(name, sizeof name, "/proc/%d/status", child);
    FILE *file = fopen(name, "r");
    while (file && fgets(row, sizeof row, file)) sscanf(row, "VmRSS: %ld", &kilobytes);
    if (file) fclose(file);
    return kilobytes;
}

/* The system refuses the router's sends or its receives, by turns, for 20 milliseconds. */
static void refuse_a_while(int turn) {
    static const enum kind kinds[] = {SEND, RECEIVE, RECEIVE};
    static const int errors[] = {ENOBUFS, ECONNREFUSED, ENOMEM};
    page->error = errors[turn % 3];
    page->kind = kinds[turn % 3];
    usleep(20000);
    page->kind = NONE;
}

/* A count, once it has been the same for half a second. */
static unsigned long settled(const atomic_ulong *counted) {
    unsigned long before, count = atomic_load(counted);
    long until = now() + PATIENCE;
    do {
        before = count;
        usleep(500000);
        count = atomic_load(counted);
    } while (count != before && now() < until);
    return count;
}

/* Closes the neighbour's port. Another socket comes into its place at once, so that a thread which still uses
   the descriptor meets no other file. */
static void leave(void) {
    int other = socket(AF_INET, SOCK_DGRAM | SOCK_CLOEXEC | SOCK_NONBLOCK, 0);
    atomic_store(&dead, true);
    if (other < 0 || dup3(other, sockets[DYING], O_CLOEXEC) < 0) stop("a socket");
    close(other);
}

/* Floods the router for a number of milliseconds. */
static void flood_for(long millis) {
    unsigned long at_closing[2] = {0, 0};
    static const int closing[2] = {2, 4};
    long start = now(), at;
    int done = 0;
    for (int turn = 0; (at = now() - start) < millis || done < 3; turn++) {
        if (done == 0 && at > millis / 4) {
            leave();
            done++;
        }
        for (int k = 0; k < 2; k++) {
            if (done != k + 1 || at < (k + 2) * millis / 4) continue;
            close_link(closing[k]);
            at_closing[k] = settled(&arrived[closing[k]]);
            done++;
        }
        command("no word");
        expect("no command");
        refuse_a_while(turn);
        usleep(200000);
        if (turn % 8 == 7) {
            atomic_store(&paused, true);
            usleep(300000);
            atomic_store(&paused, false);
        }
    }
    for (int k = 0; k < 2; k++)
        if (atomic_load(&arrived[closing[k]]) != at_closing[k])
            fail("link %d sends after it was closed", closing[k]);
}

/* ---- the report ---- */

/* How many causes of drops the router has. */
enum { CAUSES = 21 };

struct report {
    unsigned long link[LINKS], links, received, sent, answered, dropped[CAUSES + 1], lost;
};

static void read_report(struct report *report) {
    const char *row;
    while (*(row = line())) {
        unsigned long number, count;
        if (sscanf(row, "link %lu sent %lu", &number, &count) == 2) {
            report->links += count;
            if (number < LINKS) report->link[number] = count;
        } else if (sscanf(row, "dropped %lu %lu", &number, &count) == 2 && number <= CAUSES) {
            report->dropped[number] = count;
            report->lost += count;
        } else if (sscanf(row, "received %lu", &report->received) + sscanf(row, "sent %lu", &report->sent) +
                       sscanf(row, "answered %lu", &report->answered) !=
                   1) {
            fail("the report has the line '%s'", row);
        }
        printf("    %s\n", row);
    }
}

/* The host, the sibling and the stranger are all behind the internal network's link. */
static unsigned long arrived_by(int link) {
    unsigned long count = atomic_load(&arrived[link]);
    return link == HOST ? count + atomic_load(&arrived[SIBLING]) + atomic_load(&arrived[STRANGER]) : count;
}

/* Each part of the flood was tried: packets crossed, and calls of each kind were refused. */
static void judge_flood(unsigned long crossed, unsigned long growths, unsigned long given) {
    if (!crossed) fail("no packet of the flood arrived, so this wasn't tried");
    for (int fault = 0; fault < FAULTS; fault++)
        if (!atomic_load(&of_fault[fault]))
            fail("no answer for '%s' arrived, so this wasn't tried", names[fault]);
    if (!atomic_load(&page->failed[RECEIVE])) fail("no receive was refused, so this wasn't tried");
    if (growths > given) fail("%lu growths for %lu commands", growths, given);
}

static void judge(const struct report *report) {
    unsigned long received = atomic_load(&page->received), sent = atomic_load(&page->sent);
    if (report->received != report->sent + report->answered + report->lost)
        fail("received isn't sent, answered and dropped");
    if (report->received != received) fail("the system gave %lu datagrams", received);
    if (report->links != report->sent + report->answered) fail("the links sent %lu", report->links);
    if (report->links != sent) fail("the system took %lu datagrams", sent);
    if (report->received > atomic_load(&offered)) fail("more was received than was sent to it");
    if (report->dropped[17] < atomic_load(&page->failed[SEND]))
        fail("%lu sends failed", atomic_load(&page->failed[SEND]));
    if (report->dropped[17] < 1) fail("no send failed, so this wasn't tried");
    if (report->dropped[16] < 1) fail("nothing came to a closed link, so this wasn't tried");
    if (atomic_load(&answers) > report->answered) fail("more answers arrived than were sent");
    for (int link = 0; link < LINKS; link++)
        if (arrived_by(link) > report->link[link]) fail("more arrived from link %d than it sent", link);
}

/* Ends the router while it is flooded, and a moment later the flood. */
static void end(struct report *report) {
    int status = 0;
    command("end");
    usleep(500000);
    atomic_store(&paused, true);
    read_report(report);
    long until = now() + PATIENCE;
    while (!waitpid(child, &status, WNOHANG)) {
        if (now() > until) {
            kill(child, SIGKILL);
            return fail("the router doesn't end");
        }
        usleep(1000);
    }
    if (!WIFEXITED(status) || WEXITSTATUS(status)) fail("the router ends with status %d", status);
}

static void start_thread(pthread_t *thread, void *(*run)(void *), void *word) {
    errno = pthread_create(thread, NULL, run, word);
    if (errno) stop("a thread");
}

int main(int count, char **words) {
    if (count != 5) {
        fprintf(stderr, "usage: soak ROUTER LIBRARY CONFIG SECONDS\n");
        return 2;
    }
    pthread_t threads[SENDERS + 1];
    struct report report = {0};
    signal(SIGPIPE, SIG_IGN);
    setvbuf(stdout, NULL, _IOLBF, 0);
    set_key();
    began = (uint32_t)time(NULL) - 60;
    make_heads();
    page = make_page();
    page->at = 1;
    page->lasts = 1;
    open_sockets();
    start(words);
    expect("ready");
    start_thread(&threads[SENDERS], read_all, NULL);
    begin_gently();
    unsigned long growths = atomic_load(&page->counts[GROWTH]), gentle = atomic_load(&packets);
    unsigned long given = commands;
    long before = resident();
    for (uintptr_t k = 0; k < SENDERS; k++) start_thread(&threads[k], flood, (void *)k);
    flood_for(atol(words[4]) * 1000);
    long after = resident();
    growths = atomic_load(&page->counts[GROWTH]) - growths;
    given = commands - given;
    end(&report);
    settled(&packets);
    atomic_store(&over, true);
    for (int k = 0; k <= SENDERS; k++) pthread_join(threads[k], NULL);
    judge(&report);
    judge_flood(atomic_load(&packets) - gentle, growths, given);
    printf("sent to it %lu, of which the system gave it %lu\n", atomic_load(&offered),
           atomic_load(&page->received));
    printf("arrived: %lu packets, each as it should and in order, and %lu answers, each as it should:\n",
           atomic_load(&packets), atomic_load(&answers));
    for (int fault = 0; fault < FAULTS; fault++)
        printf("    %s %lu\n", names[fault], atomic_load(&of_fault[fault]));
    printf("the system refused %lu sends, %lu receives\n", atomic_load(&page->failed[SEND]),
           atomic_load(&page->failed[RECEIVE]));
    printf("the flood made %lu growths for %lu commands; resident before it %ld KiB, and %ld at its end\n",
           growths, given, before, after);
    printf("failed %d\n", atomic_load(&failures));
    return atomic_load(&failures) > 0;
}
