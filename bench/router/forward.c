/* Carries datagrams from one UDP socket of a loopback address to another, without looking at them: what the sockets
   alone cost one thread, and what a pipeline of three threads costs that does nothing else.

   forward one|many|three HOST IN OUT TO: by recvfrom and sendto, by recvmmsg and sendmmsg with up to 64 at a time, or by
   recvfrom, a thread between, and sendto. It reads at port IN of the address HOST, sends from port OUT to port TO, and
   prints "ready" once it can. */
#define _GNU_SOURCE
#include <arpa/inet.h>
#include <linux/futex.h>
#include <pthread.h>
#include <stdatomic.h>
#include <stdio.h>
#include <stdlib.h>
#include <string.h>
#include <sys/socket.h>
#include <sys/syscall.h>
#include <unistd.h>

enum { ROOM = 9217, MANY = 64, SLOTS = 1024 };

static struct sockaddr_in at(const char *host, const char *port)
{
    struct sockaddr_in address = {.sin_family = AF_INET, .sin_port = htons(atoi(port))};
    if (inet_pton(AF_INET, host, &address.sin_addr) != 1)
        exit(2);
    return address;
}

static int bound(const char *host, const char *port)
{
    struct sockaddr_in address = at(host, port);
    int fd = socket(AF_INET, SOCK_DGRAM, 0), room = 1 << 30;
    setsockopt(fd, SOL_SOCKET, SO_RCVBUF, &room, sizeof room);
    if (fd < 0 || bind(fd, (struct sockaddr *)&address, sizeof address) != 0) {
        perror(port);
        exit(1);
    }
    return fd;
}

static void one_by_one(int in, int out, struct sockaddr_in to)
{
    static char bytes[ROOM];
    for (;;) {
        struct sockaddr_in from;
        socklen_t size = sizeof from;
        ssize_t count = recvfrom(in, bytes, ROOM, 0, (struct sockaddr *)&from, &size);
        if (count >= 0)
            sendto(out, bytes, count, 0, (struct sockaddr *)&to, sizeof to);
    }
}

static void many_by_many(int in, int out, struct sockaddr_in to)
{
    static char bytes[MANY][ROOM];
    static struct iovec rooms[MANY], places[MANY];
    static struct sockaddr_in from[MANY];
    static struct mmsghdr read[MANY], sent[MANY];
    for (int i = 0; i < MANY; i++) {
        rooms[i] = (struct iovec){bytes[i], ROOM};
        places[i].iov_base = bytes[i];
        read[i].msg_hdr = (struct msghdr){
            .msg_name = &from[i], .msg_namelen = sizeof from[i], .msg_iov = &rooms[i], .msg_iovlen = 1};
        sent[i].msg_hdr = (struct msghdr){
            .msg_name = &to, .msg_namelen = sizeof to, .msg_iov = &places[i], .msg_iovlen = 1};
    }
    for (;;) {
        int count = recvmmsg(in, read, MANY, MSG_WAITFORONE, NULL);
        for (int i = 0; i < count; i++) {
            places[i].iov_len = read[i].msg_len;
            read[i].msg_hdr.msg_namelen = sizeof from[i]; /* the system wrote how long the name is */
        }
        for (int done = 0; done < count;) {
            int more = sendmmsg(out, sent + done, count - done, 0);
            done += more > 0 ? more : 1;
        }
    }
}

struct datagram {
    ssize_t len;
    char bytes[ROOM];
};

/* A queue from one thread to one other, which sleeps on `asleep` where there is nothing to take. */
struct queue {
    _Alignas(64) atomic_uint pushed;
    _Alignas(64) atomic_uint taken;
    _Alignas(64) atomic_uint asleep;
    struct datagram *slots[SLOTS];
};

/* Of all pushes after a sleep was announced, one wakes. */
static void push(struct queue *queue, struct datagram *item)
{
    unsigned at = atomic_load_explicit(&queue->pushed, memory_order_relaxed);
    queue->slots[at % SLOTS] = item;
    atomic_store(&queue->pushed, at + 1);
    if (atomic_load(&queue->asleep) && atomic_exchange(&queue->asleep, 0))
        syscall(SYS_futex, &queue->asleep, FUTEX_WAKE_PRIVATE, 1, NULL, NULL, 0);
}

static struct datagram *take(struct queue *queue)
{
    unsigned at = atomic_load_explicit(&queue->taken, memory_order_relaxed);
    if (at == atomic_load(&queue->pushed))
        return NULL;
    struct datagram *item = queue->slots[at % SLOTS];
    atomic_store(&queue->taken, at + 1);
    return item;
}

static struct datagram *await(struct queue *queue)
{
    for (;;) {
        struct datagram *item = take(queue);
        if (item)
            return item;
        atomic_store(&queue->asleep, 1);
        item = take(queue);
        if (item) {
            atomic_store(&queue->asleep, 0);
            return item;
        }
        syscall(SYS_futex, &queue->asleep, FUTEX_WAIT_PRIVATE, 1, NULL, NULL, 0);
    }
}

/* Each has room for all buffers, so no push is refused. */
static struct queue received, decided, unused;
static struct sockaddr_in target;
static int source, sink;

static void *read_all(void *none)
{
    struct datagram *room = take(&unused);
    for (;;) {
        struct sockaddr_in from;
        socklen_t size = sizeof from;
        room->len = recvfrom(source, room->bytes, ROOM, 0, (struct sockaddr *)&from, &size);
        struct datagram *next = room->len < 0 ? NULL : take(&unused);
        if (next) { /* else it is dropped */
            push(&received, room);
            room = next;
        }
    }
    return none;
}

static void *pass_all_on(void *none)
{
    for (;;)
        push(&decided, await(&received));
    return none;
}

static void *send_all(void *none)
{
    for (;;) {
        struct datagram *item = await(&decided);
        sendto(sink, item->bytes, item->len, 0, (struct sockaddr *)&target, sizeof target);
        push(&unused, item);
    }
    return none;
}

static void by_three_threads(int in, int out, struct sockaddr_in to)
{
    static struct datagram buffers[SLOTS];
    for (int i = 0; i < SLOTS; i++)
        push(&unused, &buffers[i]);
    source = in;
    sink = out;
    target = to;
    pthread_t middle, last;
    if (pthread_create(&middle, NULL, pass_all_on, NULL) || pthread_create(&last, NULL, send_all, NULL))
        exit(1);
    read_all(NULL);
}

int main(int count, char **words)
{
    if (count != 6)
        return 2;
    int in = bound(words[2], words[3]), out = bound(words[2], words[4]);
    struct sockaddr_in to = at(words[2], words[5]);
    puts("ready");
    fflush(stdout);
    if (strcmp(words[1], "many") == 0)
        many_by_many(in, out, to);
    else if (strcmp(words[1], "three") == 0)
        by_three_threads(in, out, to);
    else
        one_by_one(in, out, to);
}
