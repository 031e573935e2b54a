/* Sends frames by an interface as fast as it takes them: send INTERFACE SECONDS VID DESTINATIONS. The frames have 60 bytes, a tag if
 * VID is not 0, and go to so many stations in turn, from the station 02:00:00:00:00:01. */
#define _GNU_SOURCE
#include <arpa/inet.h>
#include <linux/if_packet.h>
#include <net/if.h>
#include <stdio.h>
#include <stdlib.h>
#include <string.h>
#include <sys/socket.h>
#include <time.h>

enum { BATCH = 64 };

static double now(void) {
    struct timespec it;
    clock_gettime(CLOCK_MONOTONIC, &it);
    return (double)it.tv_sec + (double)it.tv_nsec / 1e9;
}

int main(int argc, char **argv) {
    static unsigned char frames[BATCH][64];
    static struct iovec iov[BATCH];
    static struct mmsghdr queue[BATCH];
    if (argc != 5) return 2;
    const struct sockaddr_ll to = {.sll_family = AF_PACKET, .sll_ifindex = (int)if_nametoindex(argv[1])};
    const int socket_ = socket(AF_PACKET, SOCK_RAW, 0), vid = atoi(argv[3]), stations = atoi(argv[4]);
    if (bind(socket_, (const struct sockaddr *)&to, sizeof to)) return 1;
    for (int i = 0; i < BATCH; i++) {
        const unsigned char addresses[12] = {2, 0, 0, 0, 0, (unsigned char)(2 + i % stations), 2, 0, 0, 0, 0, 1};
        const unsigned char tag[4] = {0x81, 0, (unsigned char)(vid >> 8), (unsigned char)vid}, type[2] = {0x88, 0xB5};
        memcpy(frames[i], addresses, 12);
        if (vid) memcpy(frames[i] + 12, tag, 4);
        memcpy(frames[i] + (vid ? 16 : 12), type, 2);
        iov[i] = (struct iovec){frames[i], vid ? 64 : 60};
        queue[i].msg_hdr = (struct msghdr){.msg_iov = &iov[i], .msg_iovlen = 1};
    }
    const double end = now() + atof(argv[2]);
    unsigned long long sent = 0;
    while (now() < end) {
        const int done = sendmmsg(socket_, queue, BATCH, 0);
        if (done > 0) sent += (unsigned)done;
    }
    printf("%llu\n", sent);
    return 0;
}
