/* What the trials of the program share: its process with the preloaded library, and loopback addresses. */
#ifndef HARNESS_H
#define HARNESS_H

#include "faults/page.h"

#include <netinet/in.h>
#include <sys/types.h>

/* Ends the trial for a fault that isn't the router's. */
_Noreturn void stop(const char *why);

/* Milliseconds of a clock that isn't set. */
long now(void);

struct sockaddr_in loopback(int port);

/* The page that all processes of start_router share with this one. */
struct page *make_page(void);

/* Runs a program with the library before the C library, its standard streams at these descriptors. One of
   them may be closed instead; -1 for none. The program is killed where this process ends before it. */
pid_t start_router(const char *program, char *const *words, const char *library, const int streams[3],
                   int closed_stream);

#endif
