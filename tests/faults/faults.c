/* Runs each command of the router over and over. In each run one call that a system may refuse fails, or one
   and all of its kind after it; the next run refuses the next call, up to the last. Each run has to end as
   docs/FORMATS.md says, after a beginning of the text that the run without a fault writes, and within some
   seconds. */
#define _GNU_SOURCE
#include "../datagrams.h"
#include "../harness.h"

#include <errno.h>
#include <fcntl.h>
#include <poll.h>
#include <signal.h>
#include <stdio.h>
#include <stdlib.h>
#include <string.h>
#include <sys/socket.h>
#include <sys/wait.h>
#include <time.h>
#include <unistd.h>

enum { MOST = 1 << 16, PATIENCE = 10000, ROUTER = 43000, NEIGHBOUR = 43010, SENT = 4 };

static const char *router, *library;
static struct page *page;
static int neighbours[2];
static pid_t child;
static int closed_stream = -1; /* which the program begins without */

/* A command, what it reads, and what it writes where nothing fails. */
struct command {
    const char *name;
    const char *const *words;
    const char *input; /* a file; none: the router runs over its sockets, by the commands of this trial */
    bool runs, shows; /* whether the router runs, and shows its counts */
    int status; /* what it ends with, and writes, where nothing fails */
    char right[MOST], errors[MOST];
};

/* How a run of the program ended. */
struct ending {
    int status; /* the exit status, or minus the signal */
    bool hangs;
    unsigned arrived; /* how many datagrams came back from a running router */
    size_t length;
    char output[MOST], errors[MOST];
};

/* ---- the running router's neighbours ---- */

static void open_neighbours(void) {
    for (int k = 0; k < 2; k++) {
        struct sockaddr_in at = loopback(NEIGHBOUR + 1 + k);
        neighbours[k] = socket(AF_INET, SOCK_DGRAM | SOCK_CLOEXEC | SOCK_NONBLOCK, 0);
        if (neighbours[k] < 0 || bind(neighbours[k], (struct sockaddr *)&at, sizeof at))
            stop("a neighbour's socket");
    }
}

/* Whether there is a datagram within some time, while the router runs. Only some refusals may lose
   one. */
static bool comes(int to) {
    bool loses = page->kind == SEND || page->kind == CLOCK || (page->kind == RECEIVE && page->lasts);
    struct pollfd asked = {.fd = to, .events = POLLIN};
    for (long until = now() + (loses ? 300 : PATIENCE / 2); now() < until;) {
        siginfo_t ended = {0};
        if (poll(&asked, 1, 20) == 1) return true;
        if (waitid(P_PID, (id_t)child, &ended, WEXITED | WNOHANG | WNOWAIT) || ended.si_pid) return false;
    }
    return false;
}

/* Sends a datagram from one neighbour, and answers the length of what comes to another one; 0 for nothing. */
static size_t cross(int from, const uint8_t *sent, size_t length, int to, uint8_t came[2000]) {
    struct sockaddr_in at = loopback(ROUTER + 1 + from);
    if (sendto(neighbours[from], sent, length, 0, (struct sockaddr *)&at, sizeof at) < 0) stop("sendto");
    if (!comes(neighbours[to])) return 0;
    ssize_t count = recv(neighbours[to], came, 2000, 0);
    return count > 0 ? (size_t)count : 0;
}

/* A packet each way, a traceroute and a datagram that is too short: what the running router is tried with.
   Each is through before the next one is sent, so that the report is the same each time. */
static unsigned exchange(void) {
    uint8_t came[2000], sent[2000], wanted[2000], request[REQUEST];
    for (int k = 0; k < 2; k++)
        while (recv(neighbours[k], came, sizeof came, 0) >= 0) {
        }
    struct datagram of = {.destination = LAST_AS,
                          .source = FIRST_AS,
                          .destination_host = 0x0a020007,
                          .source_host = 0x0a010005,
                          .flow = 1,
                          .next_header = UDP,
                          .along = true,
                          .hop = 1,
                          .ingress = 1,
                          .egress = 2,
                          .identifier = 0x1234,
                          .timestamp = (uint32_t)time(NULL) - 60,
                          .expiry = 63};
    unsigned arrived = 0;
    for (int against = 0; against < 2; against++) {
        of.along = !against;
        size_t length = arriving(&of, (const uint8_t *)"a packet", 8, sent);
        memcpy(wanted, sent, length);
        leaving(&of, wanted);
        arrived += cross(against, sent, length, !against, came) == length && !memcmp(came, wanted, length);
    }
    of.along = true;
    of.alerts = 2;
    of.next_header = SCMP;
    size_t length = arriving(&of, request, trace_request(7, 8, request), sent);
    struct answer reply = {.type = TRACE_REPLY, .interface = 1, .outside = true};
    size_t replied = answering(sent, length, &reply, wanted);
    arrived += cross(0, sent, length, 0, came) == replied && !memcmp(came, wanted, replied);
    struct sockaddr_in at = loopback(ROUTER + 2);
    if (sendto(neighbours[1], sent, 11, 0, (struct sockaddr *)&at, sizeof at) < 0) stop("sendto");
    return arrived;
}

/* ---- one run ---- */

static const char commands[] = "close 1\nclose 1\nclose 9\nno word\nend\n";

static void begin(const struct command *command, int *in, int *out, int *err) {
    int input[2] = {-1, -1}, output[2], errors[2];
    if (command->runs ? pipe2(input, O_CLOEXEC) : (input[0] = open(command->input, O_RDONLY | O_CLOEXEC)) < 0)
        stop("the input");
    if (pipe2(output, O_CLOEXEC) || pipe2(errors, O_CLOEXEC)) stop("pipe");
    child = start_router(router, (char *const *)command->words, library,
                         (const int[]){input[0], output[1], errors[1]}, closed_stream);
    close(input[0]), close(output[1]), close(errors[1]);
    *in = input[1], *out = output[0], *err = errors[0];
}

static size_t collect(int from, char *to, size_t length) {
    ssize_t count = read(from, to + length, MOST - 1 - length);
    return count > 0 ? (size_t)count : 0;
}

/* Reads what the program writes, and gives a router its datagrams and commands once it is ready. */
static void follow(struct ending *ending, int in, int out, int err) {
    long until = now() + PATIENCE;
    size_t errors = 0;
    struct pollfd both[2] = {{.fd = out, .events = POLLIN}, {.fd = err, .events = POLLIN}};
    while (both[0].fd >= 0 || both[1].fd >= 0) {
        if (poll(both, 2, 100) < 0) stop("poll");
        if (now() > until) {
            ending->hangs = true;
            return;
        }
        for (int k = 0; k < 2; k++) {
            if (both[k].fd < 0 || !both[k].revents) continue;
            size_t *length = k ? &errors : &ending->length;
            size_t more = collect(both[k].fd, k ? ending->errors : ending->output, *length);
            *length += more;
            if (!more) both[k].fd = -1;
        }
        if (in >= 0 && !strcmp(ending->output, "ready\n")) {
            ending->arrived = exchange();
            if (write(in, commands, strlen(commands)) < 0 && errno != EPIPE) stop("write");
            in = -1;
        }
    }
}

static void run(const struct command *command, struct ending *ending) {
    int in, out, err, status;
    memset(ending, 0, sizeof *ending);
    begin(command, &in, &out, &err);
    follow(ending, in, out, err);
    long until = now() + PATIENCE;
    pid_t ended = 0;
    while (!ending->hangs && !(ended = waitpid(child, &status, WNOHANG))) {
        if (now() > until) ending->hangs = true;
        usleep(200);
    }
    if (ended < 0) stop("waitpid");
    if (!ended) {
        kill(child, SIGKILL);
        waitpid(child, &status, 0);
    }
    ending->status = WIFEXITED(status) ? WEXITSTATUS(status) : -WTERMSIG(status);
    if (in >= 0) close(in);
    close(out), close(err);
}

static void set_page(enum kind kind, unsigned long at, bool lasts, int error, unsigned long chop) {
    memset(page, 0, sizeof *page);
    page->kind = kind;
    page->at = at;
    page->lasts = lasts;
    page->error = error;
    page->chop = chop;
}

/* ---- what a run may come to ---- */

static bool is_right(const struct command *command, const struct ending *ending) {
    return ending->status == command->status && !strcmp(ending->errors, command->errors) &&
           !strcmp(ending->output, command->right) && (!command->runs || ending->arrived == SENT - 1);
}

/* One line of one of these faults, after a beginning of the right text. */
static bool tells(const struct command *command, const struct ending *ending, const char *const *faults) {
    if (ending->status != 1 || strncmp(ending->output, command->right, ending->length)) return false;
    for (; *faults; faults++) {
        char line[64];
        size_t length = (size_t)snprintf(line, sizeof line, "fault: %s\n", *faults),
               all = strlen(ending->errors);
        if (all >= length && !strcmp(ending->errors + all - length, line) &&
            !strncmp(ending->errors, command->errors, all - length))
            return true;
    }
    return false;
}

static bool tells_one(const struct command *command, const struct ending *ending, const char *fault) {
    return tells(command, ending, (const char *const[]){fault, NULL});
}

static bool is_named(const struct command *command, const char *name) { return !strcmp(command->name, name); }

/* The fault of this file, with the system's reason. */
static bool tells_why(const struct command *command, const struct ending *ending, const char *file) {
    char why[256];
    snprintf(why, sizeof why, "%s: %s (os error %d)", file, strerror(page->error), page->error);
    return tells_one(command, ending, why);
}

/* The fault of a file that can't be read. `check` and `import` say why. */
static bool tells_file(const struct command *command, const struct ending *ending) {
    if (is_named(command, "check")) return tells_why(command, ending, "file");
    if (is_named(command, "import"))
        return tells_why(command, ending, "topology") || tells_why(command, ending, "master key");
    return tells_one(command, ending, "file");
}

/* Whether a command asks how many cores there are, which a file of the system tells; it doesn't need to know. */
static bool asks_for_cores(const struct command *command) {
    return is_named(command, "check") || is_named(command, "import");
}

/* Of a running router: nothing was refused to the one who gives it commands, and the report accounts for each
   datagram but those lost before the router had them. */
static bool adds_up(const struct command *command, const struct ending *ending, unsigned long lost,
                    unsigned long unsent) {
    const char *at = strstr(command->right, "link 0");
    if (!command->runs || ending->status || *ending->errors || !at) return false;
    size_t before = (size_t)(at - command->right);
    if (strncmp(ending->output, command->right, before)) return false;
    char text[MOST], *rest = text;
    strcpy(text, ending->output + before);
    unsigned long links = 0, received = 0, sent = 0, answered = 0, dropped = 0, failed = 0;
    for (char *line; (line = strsep(&rest, "\n")) && *line;) {
        unsigned long number, count;
        if (sscanf(line, "link %lu sent %lu", &number, &count) == 2)
            links += count;
        else if (sscanf(line, "dropped %lu %lu", &number, &count) == 2)
            dropped += count, failed += number == 17 ? count : 0;
        else if (sscanf(line, "received %lu", &received) + sscanf(line, "sent %lu", &sent) +
                     sscanf(line, "answered %lu", &answered) !=
                 1)
            return false;
    }
    return received <= SENT && received + lost >= SENT && received == sent + answered + dropped &&
           links == sent + answered && failed == unsent;
}

/* The fault of a socket: each link has one, and the counts have the last. They are made and bound in order. */
static bool names_its_socket(const struct command *command, const struct ending *ending) {
    static const char *const faults[] = {"socket 0", "socket 1", "socket 2", "metrics", NULL};
    if (!command->runs || page->kind == CONTROL || page->kind == OPTION)
        return command->runs && tells(command, ending, faults);
    return page->at <= (command->shows ? 4 : 3) && tells_one(command, ending, faults[page->at - 1]);
}

/* The faults of want of memory. A router alone is started; where a thread has no memory, none can be had. */
static const char *const lacks[] = {"start 1", "start 3", "memory", "config 9", NULL};

static bool is_good(const struct command *command, const struct ending *ending) {
    unsigned long failed = atomic_load(&page->failed[page->kind]);
    int descriptor = atomic_load(&page->descriptor);
    bool silent = ending->status == 1 && !strncmp(ending->errors, command->errors, strlen(ending->errors)) &&
                  !strncmp(ending->output, command->right, ending->length);
    if (!failed) return is_right(command, ending);
    switch (page->kind) {
    case GROWTH:
        return is_right(command, ending) || tells(command, ending, command->runs ? lacks : lacks + 2);
    case OPEN: return is_right(command, ending) || tells_file(command, ending);
    case READ:
        if (page->error == EINTR) return is_right(command, ending);
        if (descriptor) return tells_file(command, ending) || (asks_for_cores(command) && is_right(command, ending));
        return tells_one(command, ending, "input");
    case WRITE:
        if (page->error == EINTR && is_right(command, ending)) return true;
        /* Where no write succeeds the fault can't be printed. */
        return page->lasts ? silent : tells_one(command, ending, "output");
    case SOCKET:
    case BIND: return names_its_socket(command, ending);
    case CONTROL: /* while a socket carries packets a refusal changes nothing */
        return is_right(command, ending) || names_its_socket(command, ending);
    case OPTION: /* of each link's socket two timeouts, which it needs, and the size of its buffer, which it doesn't */
        if (command->runs && page->at <= 9 && page->at % 3) return names_its_socket(command, ending);
        return is_right(command, ending) || (command->shows && tells_one(command, ending, "metrics"));
    case THREAD: return command->runs && tells_one(command, ending, "start 3");
    case SEND:
        /* Where there is no room a send is tried twice. */
        if (page->error == EAGAIN)
            return page->lasts ? adds_up(command, ending, 0, failed / 2) : is_right(command, ending);
        return adds_up(command, ending, 0, failed);
    case RECEIVE: /* one that is refused after `end` ends its link */
    case CLOCK: return is_right(command, ending) || adds_up(command, ending, failed, 0);
    default: return is_right(command, ending);
    }
}

/* ---- all runs ---- */

/* What fails, and how. */
struct refusal {
    const char *name;
    enum kind kind;
    int error;
    bool lasts;
    unsigned long chop;
};

static const struct refusal refusals[] = {
    {"reads and writes of one byte", NONE, 0, false, 1},
    {"growths", GROWTH, ENOMEM, false, 0},
    {"growths, from one on", GROWTH, ENOMEM, true, 0},
    {"opening", OPEN, EMFILE, false, 0},
    {"seeks", SEEK, ESPIPE, false, 0},
    {"closing", CLOSE, EIO, false, 0},
    {"reads", READ, EIO, false, 0},
    {"reads, of 16 bytes", READ, EIO, false, 16},
    {"reads, interrupted", READ, EINTR, false, 16},
    {"writes", WRITE, EIO, false, 0},
    {"writes, of 16 bytes", WRITE, EIO, false, 16},
    {"writes, from one on", WRITE, ENOSPC, true, 0},
    {"writes, would block", WRITE, EAGAIN, false, 0},
    {"writes, of nothing", WRITE, NOTHING_WRITTEN, false, 0},
    {"writes, interrupted", WRITE, EINTR, false, 16},
    {"sockets", SOCKET, EMFILE, false, 0},
    {"binding", BIND, EADDRINUSE, false, 0},
    {"options", OPTION, ENOBUFS, false, 0},
    {"control of descriptors", CONTROL, EMFILE, false, 0},
    {"threads", THREAD, EAGAIN, false, 0},
    {"receives", RECEIVE, EIO, false, 0},
    {"receives, refused by a port", RECEIVE, ECONNREFUSED, false, 0},
    {"receives, from one on", RECEIVE, ENOMEM, true, 0},
    {"sends", SEND, ENOBUFS, false, 0},
    {"sends, refused by a port", SEND, ECONNREFUSED, false, 0},
    {"sends, would block", SEND, EAGAIN, false, 0},
    {"sends, from one on", SEND, ENOBUFS, true, 0},
    {"sends, would block for ever", SEND, EAGAIN, true, 0},
    {"polls", POLL, EINTR, false, 0},
    {"polls, from one on", POLL, ENOMEM, true, 0},
    {"clock", CLOCK, EINVAL, false, 0},
    {"clock, from one on", CLOCK, EINVAL, true, 0},
};

static void show(const struct command *command, const struct refusal *refusal, unsigned long at,
                 const struct ending *ending) {
    printf("  %s, %s, number %lu: %s %d, after %zu bytes, ", command->name, refusal->name, at,
           ending->hangs        ? "it hangs, and"
           : ending->status < 0 ? "signal"
                                : "status",
           abs(ending->status), ending->length);
    if (command->runs) printf("%u came back, ", ending->arrived);
    printf("standard error: %s%s", ending->errors, *ending->errors ? "" : "-\n");
    if (!ending->status) printf("%s", ending->output);
}

/* Threads reach their calls in any order, and some as often as they look: a run in which none failed ends it,
   and so does this many. */
enum { ENOUGH_BY_THREADS = 40 };

static void refuse(const struct command *command, const struct refusal *refusal, unsigned long *tried,
                   unsigned long *bad) {
    static struct ending refused;
    struct ending *ending = &refused;
    unsigned long before = *tried, before_bad = *bad;
    for (unsigned long at = 1;; at++) {
        set_page(refusal->kind, at, refusal->lasts, refusal->error, refusal->chop);
        run(command, ending);
        bool met = atomic_load(&page->failed[page->kind]) || refusal->kind == NONE;
        bool good = !ending->hangs && ending->status >= 0 && is_good(command, ending);
        *tried += met;
        *bad += !good;
        if (!good && *bad - before_bad <= 3) show(command, refusal, at, ending);
        if (!met || refusal->kind == NONE || (refusal->kind >= RECEIVE && at == ENOUGH_BY_THREADS)) break;
    }
    if (*tried > before)
        printf("%-8s %-30s %6lu %6lu\n", command->name, refusal->name, *tried - before, *bad - before_bad);
    fflush(stdout);
}

/* Whether the library counts the program's calls. Where it couldn't be loaded, or stands before other
   functions than those that are called, nothing would ever be refused, and each run would be good. */
static bool is_watched(const struct command *command) {
    static const enum kind of_router[] = {GROWTH, SOCKET, BIND, THREAD, RECEIVE, SEND, CLOCK};
    bool watched = atomic_load(&page->counts[WRITE]) > 0;
    for (size_t k = 0; command->runs && k < sizeof of_router / sizeof *of_router; k++)
        watched = watched && atomic_load(&page->counts[of_router[k]]) > 0;
    return watched;
}

static void learn(struct command *command) {
    static struct ending learnt;
    struct ending *ending = &learnt;
    set_page(NONE, 0, false, 0, 0);
    run(command, ending);
    if (ending->hangs || ending->status != command->status ||
        (command->runs && ending->arrived != SENT - 1)) {
        printf("%s fails without a fault: status %d, %u came back\n%s%s", command->name, ending->status,
               ending->arrived, ending->output, ending->errors);
        exit(1);
    }
    if (!is_watched(command)) {
        printf("%s isn't watched by %s\n%s", command->name, library, ending->errors);
        exit(2);
    }
    strcpy(command->right, ending->output);
    strcpy(command->errors, ending->errors);
}

/* Without an input the router ends as by `end`, without an output it can't say that it is ready, and without
   standard error all is as always. */
static bool bears_closing(const struct command *command, const struct ending *ending) {
    static const char report[] = "ready\nlink 0 sent ";
    switch (closed_stream) {
    case STDIN_FILENO:
        return !ending->status && !*ending->errors && !strncmp(ending->output, report, sizeof report - 1);
    case STDOUT_FILENO: return tells_one(command, ending, "output");
    default: return is_right(command, ending);
    }
}

/* Where a standard stream is closed from the beginning no socket may come into its place: datagrams would be
   read as commands. */
static void close_streams(const struct command *command, unsigned long *tried, unsigned long *bad) {
    static struct ending ending;
    static const struct refusal none = {"standard streams, closed", NONE, 0, false, 0};
    unsigned long before = *bad;
    for (closed_stream = 0; closed_stream < 3; closed_stream++) {
        set_page(none.kind, 0, none.lasts, none.error, none.chop);
        run(command, &ending);
        bool good = !ending.hangs && bears_closing(command, &ending) && !atomic_load(&page->standard);
        *tried += 1;
        *bad += !good;
        if (!good) show(command, &none, (unsigned long)closed_stream, &ending);
    }
    closed_stream = -1;
    printf("%-8s %-30s %6d %6lu\n", command->name, none.name, 3, *bad - before);
}

static bool is_among(const char *name, char **words) {
    for (; *words; words++)
        if (!strcmp(*words, name)) return true;
    return false;
}

int main(int count, char **words) {
    if (count < 8) {
        fprintf(stderr, "usage: faults ROUTER LIBRARY CONFIG DATAGRAMS REPLAY RUN-CONFIG IMPORTED [COMMAND]..\n");
        return 2;
    }
    router = words[1], library = words[2];
    static struct command all[] = {{.name = "check"},  {.name = "route"},
                                   {.name = "replay"}, {.name = "run", .runs = true},
                                   {.name = "help"},   {.name = "refused", .status = 2},
                                   {.name = "shown", .runs = true, .shows = true},
                                   {.name = "import"}};
    all[0].words = (const char *[]){"router", "check", "--config", words[3], NULL};
    all[0].input = "/dev/null";
    all[1].words =
        (const char *[]){"router", "route", "--config", words[3], "--link", "1", "--now", "1694499816", NULL};
    all[1].input = words[4];
    all[2].words = (const char *[]){"router", "replay", "--config", words[3], NULL};
    all[2].input = words[5];
    all[3].words = (const char *[]){"router", "run", "--config", words[6], NULL};
    all[4].words = (const char *[]){"router", "--help", NULL};
    all[4].input = "/dev/null";
    all[5].words =
        (const char *[]){"router", "route", "--config", words[3], "--link", "65536", "--now", "1", NULL};
    all[5].input = "/dev/null";
    all[6].words =
        (const char *[]){"router", "run", "--config", words[6], "--metrics", "127.0.0.1:43020", NULL};
    char topology[MOST], keys[MOST];
    snprintf(topology, sizeof topology, "%s/topology.json", words[7]);
    snprintf(keys, sizeof keys, "%s/keys", words[7]);
    all[7].words = (const char *[]){"router", "import",           "--topology", topology,       "--router",
                                    "br1-ff00_0_110-1", "--keys", keys,         "--port-range", NULL};
    all[7].input = "/dev/null";
    enum { COMMANDS = sizeof all / sizeof *all };
    for (int k = 8; k < count; k++) {
        int at = 0;
        while (at < COMMANDS && strcmp(all[at].name, words[k])) at++;
        if (at == COMMANDS) {
            fprintf(stderr, "faults: no command is named %s\n", words[k]);
            return 2;
        }
    }
    signal(SIGPIPE, SIG_IGN);
    set_key();
    page = make_page();
    open_neighbours();
    unsigned long tried = 0, bad = 0;
    printf("%-39s %6s %6s\n", "", "tried", "failed");
    for (int k = 0; k < COMMANDS; k++) {
        if (count > 8 && !is_among(all[k].name, words + 8)) continue;
        learn(&all[k]);
        for (size_t j = 0; j < sizeof refusals / sizeof *refusals; j++)
            refuse(&all[k], &refusals[j], &tried, &bad);
        if (all[k].runs) close_streams(&all[k], &tried, &bad);
    }
    printf("tried %lu, failed %lu\n", tried, bad);
    return bad > 0;
}
