/* A page of memory that a trial shares with the library before the router's C library: what is to be refused,
   and what was counted. */
#ifndef PAGE_H
#define PAGE_H

#include <stdatomic.h>

enum kind {
    NONE,
    GROWTH,
    OPEN,
    READ,
    WRITE,
    SEEK,
    CLOSE,
    SOCKET,
    BIND,
    OPTION,
    CONTROL,
    THREAD,
    RECEIVE,
    SEND,
    POLL,
    CLOCK,
    KINDS
};

/* No error, but no byte is written either. */
enum { NOTHING_WRITTEN = -1 };

struct page {
    /* The soak changes these two while the router runs. */
    _Atomic(enum kind) kind; /* which calls fail */
    atomic_int error;        /* their errno */

    unsigned long at;   /* the first that fails, counted from 1 */
    int lasts;          /* whether those after it fail too */
    unsigned long chop; /* how many bytes a read or a write takes at most; 0 for no limit */
    atomic_ulong counts[KINDS];
    atomic_ulong failed[KINDS];
    atomic_ulong received, sent; /* how many receives and sends succeeded */
    atomic_ulong standard;       /* how many sockets got the descriptor of a standard stream */
    atomic_int descriptor;       /* of the last read, write, receive or send that failed */
};

#define PAGE_VARIABLE "FAULTS_PAGE"

#endif
