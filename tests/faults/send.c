/* Sends datagrams over loopback from one port to another one: for each length one of zero bytes, and for
   `packet` one that comes from link 1 and leaves by link 2. */
#include "../datagrams.h"
#include "../harness.h"

#include <stdio.h>
#include <stdlib.h>
#include <string.h>
#include <sys/socket.h>
#include <time.h>

int main(int count, char **words) {
    if (count < 3) {
        fprintf(stderr, "usage: send FROM TO [LENGTH|packet]..\n");
        return 2;
    }
    struct datagram of = {.destination = LAST_AS,
                          .source = FIRST_AS,
                          .next_header = UDP,
                          .along = true,
                          .hop = 1,
                          .ingress = 1,
                          .egress = 2,
                          .timestamp = (uint32_t)time(NULL) - 60,
                          .expiry = 63};
    struct sockaddr_in from = loopback(atoi(words[1])), to = loopback(atoi(words[2]));
    int by = socket(AF_INET, SOCK_DGRAM, 0);
    set_key();
    if (by < 0 || bind(by, (struct sockaddr *)&from, sizeof from)) stop("socket");
    for (int k = 3; k < count; k++) {
        static uint8_t bytes[LONGEST];
        memset(bytes, 0, sizeof bytes);
        size_t length = strcmp(words[k], "packet") ? (size_t)atoi(words[k])
                                                   : arriving(&of, (const uint8_t *)"a packet", 8, bytes);
        struct timespec pause = {.tv_nsec = 20000000};
        if (sendto(by, bytes, length, 0, (struct sockaddr *)&to, sizeof to) < 0) stop("sendto");
        nanosleep(&pause, NULL);
    }
    return 0;
}
