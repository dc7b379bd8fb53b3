#define _GNU_SOURCE
#include "harness.h"

#include <arpa/inet.h>
#include <signal.h>
#include <stdint.h>
#include <stdio.h>
#include <stdlib.h>
#include <sys/mman.h>
#include <sys/prctl.h>
#include <sys/socket.h>
#include <time.h>
#include <unistd.h>

void stop(const char *why) {
    perror(why);
    exit(2);
}

long now(void) {
    struct timespec at;
    clock_gettime(CLOCK_MONOTONIC, &at);
    return at.tv_sec * 1000 + at.tv_nsec / 1000000;
}

struct sockaddr_in loopback(int port) {
    return (struct sockaddr_in){
        .sin_family = AF_INET, .sin_port = htons((uint16_t)port), .sin_addr.s_addr = htonl(INADDR_LOOPBACK)};
}

static char page_name[64];

/* A file without a name, so that none is left however this process ends. */
struct page *make_page(void) {
    int file = memfd_create("page", MFD_CLOEXEC);
    if (file < 0 || ftruncate(file, sizeof(struct page))) stop("the page");
    void *page = mmap(NULL, sizeof(struct page), PROT_READ | PROT_WRITE, MAP_SHARED, file, 0);
    if (page == MAP_FAILED) stop("the page");
    snprintf(page_name, sizeof page_name, "/proc/%d/fd/%d", (int)getpid(), file);
    return page;
}

pid_t start_router(const char *program, char *const *words, const char *library, const int streams[3],
                   int closed_stream) {
    pid_t child = fork();
    if (child < 0) stop("fork");
    if (child) return child;
    prctl(PR_SET_PDEATHSIG, SIGKILL);
    /* This process may ignore it; a program that a shell starts doesn't. */
    signal(SIGPIPE, SIG_DFL);
    for (int k = 0; k < 3; k++)
        if (dup2(streams[k], k) < 0) _exit(127);
    if (closed_stream >= 0) close(closed_stream);
    if (setenv("LD_PRELOAD", library, 1) || setenv(PAGE_VARIABLE, page_name, 1)) _exit(127);
    execv(program, words);
    _exit(127);
}
