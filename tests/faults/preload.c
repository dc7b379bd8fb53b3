/* Is loaded before the C library, counts calls that a system may refuse, and refuses one of them, or one and
   all of its kind after it, as the page says. A growth is a call that asks for memory: the kit's programs ask
   `malloc` and `realloc`, and the C library itself `calloc` for a thread. What it maps without them, as the
   stack of a thread, isn't seen. */
#define _GNU_SOURCE
#include "page.h"

#include <dlfcn.h>
#include <errno.h>
#include <fcntl.h>
#include <poll.h>
#include <pthread.h>
#include <stdarg.h>
#include <stddef.h>
#include <stdlib.h>
#include <sys/ioctl.h>
#include <sys/mman.h>
#include <sys/socket.h>
#include <sys/uio.h>
#include <time.h>
#include <unistd.h>

/* None until the program begins: what the C library's start asks for isn't the program's. */
static struct page *page;

static int fails(enum kind kind, int descriptor) {
    if (!page) return 0;
    unsigned long count = atomic_fetch_add(&page->counts[kind], 1) + 1;
    if (page->kind != kind || count < page->at || (count > page->at && !page->lasts)) return 0;
    atomic_store(&page->descriptor, descriptor);
    atomic_fetch_add(&page->failed[kind], 1);
    errno = page->error;
    return 1;
}

static size_t chopped(size_t count) { return page && page->chop && count > page->chop ? page->chop : count; }

extern void *__libc_malloc(size_t), *__libc_calloc(size_t, size_t), *__libc_realloc(void *, size_t);
extern void *__libc_memalign(size_t, size_t);

void *malloc(size_t size) { return fails(GROWTH, -1) ? NULL : __libc_malloc(size); }

void *calloc(size_t count, size_t size) { return fails(GROWTH, -1) ? NULL : __libc_calloc(count, size); }

void *realloc(void *at, size_t size) { return fails(GROWTH, -1) ? NULL : __libc_realloc(at, size); }

void *memalign(size_t to, size_t size) { return fails(GROWTH, -1) ? NULL : __libc_memalign(to, size); }

void *aligned_alloc(size_t to, size_t size) { return memalign(to, size); }

int posix_memalign(void **at, size_t to, size_t size) {
    void *given = memalign(to, size);
    if (!given) return ENOMEM;
    *at = given;
    return 0;
}

/* The C library's own function. */
#define REAL(name) ((__typeof__(&name))reals.name)

static struct {
    void *open, *openat, *read, *readv, *write, *writev, *lseek, *close, *socket, *bind, *setsockopt, *fcntl,
        *ioctl;
    void *pthread_create, *recv, *recvfrom, *recvmsg, *send, *sendto, *sendmsg, *poll, *ppoll, *clock_gettime;
} reals;

__attribute__((constructor)) static void begin(void) {
#define FIND(name) reals.name = dlsym(RTLD_NEXT, #name)
    FIND(open), FIND(openat), FIND(read), FIND(readv), FIND(write), FIND(writev), FIND(lseek), FIND(close);
    FIND(socket), FIND(bind), FIND(setsockopt), FIND(fcntl), FIND(ioctl), FIND(pthread_create);
    FIND(recv), FIND(recvfrom), FIND(recvmsg), FIND(send), FIND(sendto), FIND(sendmsg);
    FIND(poll), FIND(ppoll), FIND(clock_gettime);
    const char *name = getenv(PAGE_VARIABLE);
    int descriptor = name ? open(name, O_RDWR | O_CLOEXEC) : -1;
    if (descriptor < 0) return;
    void *shared = mmap(NULL, sizeof *page, PROT_READ | PROT_WRITE, MAP_SHARED, descriptor, 0);
    close(descriptor);
    if (shared != MAP_FAILED) page = shared;
}

int open(const char *path, int flags, ...) {
    mode_t mode = 0;
    va_list rest;
    va_start(rest, flags);
    if (__OPEN_NEEDS_MODE(flags)) mode = va_arg(rest, mode_t);
    va_end(rest);
    return fails(OPEN, -1) ? -1 : REAL(open)(path, flags, mode);
}

int openat(int folder, const char *path, int flags, ...) {
    mode_t mode = 0;
    va_list rest;
    va_start(rest, flags);
    if (__OPEN_NEEDS_MODE(flags)) mode = va_arg(rest, mode_t);
    va_end(rest);
    return fails(OPEN, -1) ? -1 : REAL(openat)(folder, path, flags, mode);
}

ssize_t read(int from, void *bytes, size_t count) {
    return fails(READ, from) ? -1 : REAL(read)(from, bytes, chopped(count));
}

ssize_t readv(int from, const struct iovec *parts, int count) {
    return fails(READ, from) ? -1 : REAL(readv)(from, parts, count);
}

static ssize_t refused_write(void) { return page->error == NOTHING_WRITTEN ? 0 : -1; }

ssize_t write(int to, const void *bytes, size_t count) {
    return fails(WRITE, to) ? refused_write() : REAL(write)(to, bytes, chopped(count));
}

ssize_t writev(int to, const struct iovec *parts, int count) {
    return fails(WRITE, to) ? refused_write() : REAL(writev)(to, parts, count);
}

off_t lseek(int of, off_t to, int from) { return fails(SEEK, of) ? -1 : REAL(lseek)(of, to, from); }

/* The descriptor is closed all the same, as by Linux. */
int close(int which) {
    int failing = fails(CLOSE, which), error = errno, closed = REAL(close)(which);
    if (failing) errno = error;
    return failing ? -1 : closed;
}

int socket(int domain, int type, int protocol) {
    int made = fails(SOCKET, -1) ? -1 : REAL(socket)(domain, type, protocol);
    if (page && made >= 0 && made <= STDERR_FILENO) atomic_fetch_add(&page->standard, 1);
    return made;
}

int bind(int which, const struct sockaddr *address, socklen_t length) {
    return fails(BIND, which) ? -1 : REAL(bind)(which, address, length);
}

int setsockopt(int which, int level, int name, const void *value, socklen_t length) {
    return fails(OPTION, which) ? -1 : REAL(setsockopt)(which, level, name, value, length);
}

int fcntl(int which, int command, ...) {
    va_list rest;
    va_start(rest, command);
    void *word = va_arg(rest, void *);
    va_end(rest);
    return fails(CONTROL, which) ? -1 : REAL(fcntl)(which, command, word);
}

int ioctl(int which, unsigned long command, ...) {
    va_list rest;
    va_start(rest, command);
    void *word = va_arg(rest, void *);
    va_end(rest);
    return fails(CONTROL, which) ? -1 : REAL(ioctl)(which, command, word);
}

int pthread_create(pthread_t *thread, const pthread_attr_t *how, void *(*run)(void *), void *word) {
    return fails(THREAD, -1) ? page->error : REAL(pthread_create)(thread, how, run, word);
}

/* Counts a receive or a send that succeeded. */
static ssize_t counted(ssize_t result, enum kind kind) {
    if (page && result >= 0) atomic_fetch_add(kind == SEND ? &page->sent : &page->received, 1);
    return result;
}

ssize_t recv(int from, void *bytes, size_t count, int how) {
    return fails(RECEIVE, from) ? -1 : counted(REAL(recv)(from, bytes, count, how), RECEIVE);
}

ssize_t recvfrom(int from, void *bytes, size_t count, int how, struct sockaddr *sender, socklen_t *length) {
    return fails(RECEIVE, from) ? -1
                                : counted(REAL(recvfrom)(from, bytes, count, how, sender, length), RECEIVE);
}

ssize_t recvmsg(int from, struct msghdr *message, int how) {
    return fails(RECEIVE, from) ? -1 : counted(REAL(recvmsg)(from, message, how), RECEIVE);
}

ssize_t send(int by, const void *bytes, size_t count, int how) {
    return fails(SEND, by) ? -1 : counted(REAL(send)(by, bytes, count, how), SEND);
}

ssize_t sendto(int by, const void *bytes, size_t count, int how, const struct sockaddr *to,
               socklen_t length) {
    return fails(SEND, by) ? -1 : counted(REAL(sendto)(by, bytes, count, how, to, length), SEND);
}

ssize_t sendmsg(int by, const struct msghdr *message, int how) {
    return fails(SEND, by) ? -1 : counted(REAL(sendmsg)(by, message, how), SEND);
}

int poll(struct pollfd *asked, nfds_t count, int millis) {
    return fails(POLL, -1) ? -1 : REAL(poll)(asked, count, millis);
}

int ppoll(struct pollfd *asked, nfds_t count, const struct timespec *wait, const sigset_t *mask) {
    return fails(POLL, -1) ? -1 : REAL(ppoll)(asked, count, wait, mask);
}

int clock_gettime(clockid_t which, struct timespec *now) {
    return fails(CLOCK, -1) ? -1 : REAL(clock_gettime)(which, now);
}
