/* Frames that come in and leave by an interface of Linux, for switch.c. Each has with it what the
 * kernel has left to do for it, as checksums and segments: so an interface may leave these to its
 * hardware, as veth does. */
#define _GNU_SOURCE
#include <arpa/inet.h>
#include <errno.h>
#include <linux/ethtool.h>
#include <linux/if_ether.h>
#include <linux/if_packet.h>
#include <linux/rtnetlink.h>
#include <linux/sockios.h>
#include <linux/virtio_net.h>
#include <net/if.h>
#include <stdint.h>
#include <string.h>
#include <sys/ioctl.h>
#include <sys/socket.h>
#include <unistd.h>

enum { BATCH = 64, TAG = 4, ROOM = 65600 };

/* What is counted: frames that came in, that left, and that were lost here, by why. */
enum { RECEIVED, SENT, DROPPED, UNREAD, CUT, FULL, LONG, DOWN, FAILED, LOSSES };
static const char *const losses[LOSSES] = {
    "received", "sent", "lost before they were read", "not read", "too long",
    "not sent (queue full)", "not sent (longer than the MTU)", "not sent (port down)",
    "not sent (other errors)"};

typedef struct interface {
    const char *name;
    int index, socket; /* -1 while it is not there */
    struct iovec iov[BATCH][2]; /* what leaves, each frame after what is left to do for it */
    struct mmsghdr queue[BATCH];
    unsigned queued;
    uintmax_t counts[LOSSES];
} interface;

/* A frame that came in, with place for two tags before it. */
typedef struct arrival {
    struct virtio_net_hdr header;
    uint8_t room[2 * TAG + ROOM];
    uint8_t *frame;
    size_t len;
    int restored; /* by how many bytes it is longer than the kernel gave it: its tag */
} arrival;

/* Opens a socket for the frames of all stations, each with its outer tag in PACKET_AUXDATA. Returns
 * 0, or -1. */
static int interface_open(interface *it) {
    const int one = 1, bytes = 8 << 20;
    const struct packet_mreq all = {.mr_ifindex = it->index, .mr_type = PACKET_MR_PROMISC};
    const struct sockaddr_ll address = {
        .sll_family = AF_PACKET, .sll_protocol = htons(ETH_P_ALL), .sll_ifindex = it->index};
    if ((it->socket = socket(AF_PACKET, SOCK_RAW, 0)) < 0)
        return -1;
    setsockopt(it->socket, SOL_SOCKET, SO_RCVBUFFORCE, &bytes, sizeof bytes);
    setsockopt(it->socket, SOL_SOCKET, SO_SNDBUFFORCE, &bytes, sizeof bytes);
    if (!setsockopt(it->socket, SOL_PACKET, PACKET_VNET_HDR, &one, sizeof one) &&
        !setsockopt(it->socket, SOL_PACKET, PACKET_AUXDATA, &one, sizeof one) &&
        !setsockopt(it->socket, SOL_PACKET, PACKET_IGNORE_OUTGOING, &one, sizeof one) &&
        !setsockopt(it->socket, SOL_PACKET, PACKET_ADD_MEMBERSHIP, &all, sizeof all) &&
        !bind(it->socket, (const struct sockaddr *)&address, sizeof address))
        return 0;
    close(it->socket);
    it->socket = -1;
    return -1;
}

/* A socket that can be read when an interface changes; -1 if there is none. */
static int interfaces_watched(void) {
    const struct sockaddr_nl address = {.nl_family = AF_NETLINK, .nl_groups = RTMGRP_LINK};
    const int it = socket(AF_NETLINK, SOCK_RAW | SOCK_NONBLOCK, NETLINK_ROUTE);
    if (it >= 0)
        bind(it, (const struct sockaddr *)&address, sizeof address);
    return it;
}

/* Whether the interface is there and up, with a carrier if it can tell. One that was deleted and
 * made again is opened again. */
static int interface_is_up(interface *it) {
    struct ethtool_value carrier = {.cmd = ETHTOOL_GLINK};
    struct ifreq asked = {0};
    const int index = (int)if_nametoindex(it->name);
    if (index != it->index) {
        if (it->socket >= 0)
            close(it->socket);
        it->socket = -1;
        it->index = index;
        if (index && interface_open(it))
            it->index = 0;
    }
    strncpy(asked.ifr_name, it->name, IFNAMSIZ - 1);
    if (!it->index || ioctl(it->socket, SIOCGIFFLAGS, &asked) || !(asked.ifr_flags & IFF_UP))
        return 0;
    asked.ifr_data = (char *)&carrier;
    return ioctl(it->socket, SIOCETHTOOL, &asked) || carrier.data;
}

/* Puts the tag back that the kernel took off, four bytes before the frame. */
static void interface_restore_tag(struct msghdr *message, arrival *a) {
    for (struct cmsghdr *it = CMSG_FIRSTHDR(message); it; it = CMSG_NXTHDR(message, it)) {
        struct tpacket_auxdata aux;
        if (it->cmsg_level != SOL_PACKET || it->cmsg_type != PACKET_AUXDATA || a->len < 12)
            continue;
        memcpy(&aux, CMSG_DATA(it), sizeof aux);
        if (!(aux.tp_status & TP_STATUS_VLAN_VALID))
            continue;
        if (!(aux.tp_status & TP_STATUS_VLAN_TPID_VALID))
            aux.tp_vlan_tpid = ETH_P_8021Q;
        const uint8_t tag[TAG] = {(uint8_t)(aux.tp_vlan_tpid >> 8), (uint8_t)aux.tp_vlan_tpid,
                                  (uint8_t)(aux.tp_vlan_tci >> 8), (uint8_t)aux.tp_vlan_tci};
        memmove(a->frame - TAG, a->frame, 12);
        memcpy(a->frame - TAG + 12, tag, TAG);
        a->frame -= TAG;
        a->len += TAG;
        a->restored = TAG;
    }
}

/* Takes up to BATCH frames that wait. Returns how many; those that were cut have length 0. */
static int interface_receive(interface *it, arrival *came) {
    static struct iovec iov[BATCH][2];
    static struct mmsghdr messages[BATCH];
    static _Alignas(16) uint8_t control[BATCH][CMSG_SPACE(sizeof(struct tpacket_auxdata))];
    for (unsigned i = 0; i < BATCH; i++) {
        iov[i][0] = (struct iovec){&came[i].header, sizeof came[i].header};
        iov[i][1] = (struct iovec){came[i].room + 2 * TAG, ROOM};
        messages[i].msg_hdr = (struct msghdr){.msg_iov = iov[i], .msg_iovlen = 2,
                                              .msg_control = control[i],
                                              .msg_controllen = sizeof control[i]};
    }
    const int found = recvmmsg(it->socket, messages, BATCH, MSG_DONTWAIT, NULL);
    it->counts[UNREAD] += found < 0 && errno != EAGAIN && errno != ENETDOWN;
    for (int i = 0; i < found; i++) {
        const int cut = (messages[i].msg_hdr.msg_flags & MSG_TRUNC) != 0;
        came[i].frame = came[i].room + 2 * TAG;
        came[i].len = cut ? 0 : messages[i].msg_len - sizeof came[i].header;
        came[i].restored = 0;
        interface_restore_tag(&messages[i].msg_hdr, &came[i]);
        it->counts[RECEIVED]++;
        it->counts[CUT] += (unsigned)cut;
    }
    return found;
}

/* What is left to do for a frame that is longer by so many bytes than the kernel gave it. */
static struct virtio_net_hdr moved(const struct virtio_net_hdr *header, int bytes) {
    struct virtio_net_hdr it = *header;
    it.flags &= VIRTIO_NET_HDR_F_NEEDS_CSUM;
    if (it.flags)
        it.csum_start = (__virtio16)(it.csum_start + bytes);
    if (it.gso_type != VIRTIO_NET_HDR_GSO_NONE)
        it.hdr_len = (__virtio16)(it.hdr_len + bytes);
    return it;
}

/* Lets a frame leave with the next call of interface_flush. */
static void interface_queue(interface *it, struct virtio_net_hdr *header, uint8_t *frame,
                            size_t len) {
    struct iovec *iov = it->iov[it->queued];
    iov[0] = (struct iovec){header, sizeof *header};
    iov[1] = (struct iovec){frame, len};
    it->queue[it->queued++].msg_hdr = (struct msghdr){.msg_iov = iov, .msg_iovlen = 2};
}

static unsigned interface_loss(int error) {
    if (error == EAGAIN || error == ENOBUFS)
        return FULL;
    if (error == EMSGSIZE)
        return LONG;
    return error == ENETDOWN || error == ENXIO || error == ENODEV || error == EBADF ? DOWN : FAILED;
}

static void interface_flush(interface *it) {
    for (unsigned at = 0; at < it->queued;) {
        const int sent = sendmmsg(it->socket, it->queue + at, it->queued - at, MSG_DONTWAIT);
        it->counts[sent > 0 ? SENT : interface_loss(errno)] += sent > 0 ? (unsigned)sent : 1;
        at += sent > 0 ? (unsigned)sent : 1; /* if none was sent, the first of these is lost */
    }
    it->queued = 0;
}

/* Counts the frames that the kernel dropped since the last call, as the socket was full. */
static void interface_count_dropped(interface *it) {
    struct tpacket_stats stats;
    socklen_t len = sizeof stats;
    if (it->socket >= 0 && !getsockopt(it->socket, SOL_PACKET, PACKET_STATISTICS, &stats, &len))
        it->counts[DROPPED] += stats.tp_drops;
}
