/* A switch with VLANs between network interfaces of Linux. Needs root, or CAP_NET_RAW.
 *
 *     switch [--ageing SECONDS] [--storm N] veth0:pvid=5 veth1:pvid=6 trunk:tagged=5,6
 *
 * Each word is an interface and its VLANs. Frames of the VLAN `pvid` come and leave without a tag,
 * those of the VLANs `tagged` with one; an interface may have both, as eth0:pvid=1:tagged=5,6.
 * Ports that are `:isolated` exchange no frames. A frame with a second tag of 0x8100 is discarded.
 * With --storm a port takes at most N frames to groups a second. A station is forgotten if it sends
 * nothing for 300 seconds, or those of --ageing, and when its port goes down. A port that was
 * deleted is used again once it is back.
 * Nothing stops a frame in a loop: there must be one way alone from each port to each other one.
 * The status is 2 if a word is wrong, and 1 if an interface can't be used.
 * Numbers of frames are printed on SIGUSR1, and at the end on SIGINT or SIGTERM. */
#include "interface.h"
#include <ctype.h>
#include <err.h>
#include <etherpeel.h>
#include <ifaddrs.h>
#include <poll.h>
#include <signal.h>
#include <stdio.h>
#include <stdlib.h>
#include <sys/random.h>
#include <sys/signalfd.h>
#include <time.h>

enum { PORTS = 64, BUCKETS = 65536, VLANS = 4095 };

/* Why a frame is discarded: the reasons of etherpeel_received, and two more. */
enum { RESERVED = ETHERPEEL_DISCARDED_PORT_STATE + 1, STORM, REASONS };
static const char *const reasons[REASONS] = {
    "", "no header", "cut tag", "identifier 4095", "source", "frame type", "second tag",
    "not a member", "port state", "reserved address", "storm"};

typedef struct port {
    interface link;
    etherpeel_port config;
    int up;
    unsigned groups; /* frames to groups that came in this second */
    uintmax_t discarded[REASONS];
} port;

static port ports[PORTS];
static unsigned count, storm;
static etherpeel_bucket table[BUCKETS];
static etherpeel_switch_vlan vlans[VLANS];
static etherpeel_port_states states;
static etherpeel_static_entry no_entry;
static etherpeel_bridge bridge = {.ports = &states, .vlans = vlans, .vlan_count = VLANS,
                                  .static_entries = &no_entry, .ageing_time = 300,
                                  .kind = ETHERPEEL_BRIDGE_CUSTOMER};
static arrival came[BATCH];
static uint8_t copies[BATCH][sizeof came[0].room];
static struct virtio_net_hdr left_to_do[BATCH][2]; /* of a frame's two forms */

static uint8_t number_of(const port *p) { return (uint8_t)(p - ports); }

/* The number in a word, up to `most`; 0 if it is none. */
static unsigned number_in(const char *word, unsigned long most) {
    char *end;
    const unsigned long number = strtoul(word, &end, 10);
    return isdigit((unsigned char)*word) && !*end && number <= most ? (unsigned)number : 0;
}

/* Adds the port to the members of the VLAN of a number, "5", and to those without a tag as well. */
static void add_vlan(port *p, const char *number, int untagged) {
    const unsigned vid = number_in(number, 4094);
    if (!vid)
        errx(2, "%s: '%s' is not the identifier of a VLAN, 1 to 4094", p->link.name, number);
    if (etherpeel_ports_has(&vlans[vid].members, number_of(p)))
        errx(2, "%s: VLAN %u is given twice", p->link.name, vid);
    etherpeel_ports_add(&vlans[vid].members, number_of(p));
    if (untagged) {
        etherpeel_ports_add(&vlans[vid].untagged, number_of(p));
        p->config.pvid = (uint16_t)vid;
    }
}

/* Reads a word of the command line: the name of an interface, and its VLANs. */
static void set_up(port *p, char *word) {
    int has_pvid = 0, has_tagged = 0, isolated = 0;
    p->link.name = strsep(&word, ":");
    p->link.socket = -1;
    p->config = (etherpeel_port){.pvid = 1, .refuses_second_tag = 1, .ingress_filtering = 1};
    if (!*p->link.name)
        errx(2, "the name of an interface is empty");
    for (const port *other = ports; other < p; other++)
        if (!strcmp(other->link.name, p->link.name))
            errx(2, "%s: the interface is given twice", p->link.name);
    for (char *part; (part = strsep(&word, ":"));) {
        if (!strncmp(part, "pvid=", 5) && !has_pvid++)
            add_vlan(p, part + 5, 1);
        else if (!strncmp(part, "tagged=", 7) && !has_tagged++)
            for (char *list = part + 7; list;) add_vlan(p, strsep(&list, ","), 0);
        else if (!strcmp(part, "isolated") && !isolated++)
            etherpeel_ports_add(&states.isolated, number_of(p));
        else
            errx(2, "%s: '%s' is none of pvid=N, tagged=N,N and isolated", p->link.name, part);
    }
    if (!has_pvid && !has_tagged)
        errx(2, "%s: needs VLANs: NAME:pvid=N, NAME:tagged=N,N or both", p->link.name);
    if (!has_pvid)
        p->config.frame_types = ETHERPEEL_FRAMES_VLAN_TAGGED;
    else if (!has_tagged)
        p->config.frame_types = ETHERPEEL_FRAMES_UNTAGGED_AND_PRIORITY_TAGGED;
}

/* Reads the options, and returns the index of the first word that is none. */
static int read_options(int argc, char **argv) {
    int i = 1;
    for (; i < argc && !strncmp(argv[i], "--", 2); i += 2) {
        const unsigned value = i + 1 < argc ? number_in(argv[i + 1], UINT32_MAX) : 0;
        if (!strcmp(argv[i], "--ageing") && value)
            bridge.ageing_time = value;
        else if (!strcmp(argv[i], "--storm") && value)
            storm = value;
        else
            errx(2, "'%s' is not --ageing SECONDS or --storm N, with a number from 1", argv[i]);
    }
    return i;
}

/* Gives each VLAN that has ports a part of the table. */
static void share_table(void) {
    uint32_t used = 0, next = 0;
    for (int i = 1; i < VLANS; i++) used += vlans[i].members.words[0] != 0;
    for (int i = 1; i < VLANS; i++)
        if (vlans[i].members.words[0]) {
            vlans[i].first_bucket = next;
            next += vlans[i].buckets = BUCKETS / used;
        }
}

/* No call fails: the words have been checked, and a frame that is passed on has its header. */
static void done(uint32_t status) {
    if (status != ETHERPEEL_DONE)
        errx(1, "a call returned the status %u", (unsigned)status);
}

/* A port that is up learns and forwards; when it goes down, its stations are forgotten. */
static void look_at(port *p) {
    static const uint8_t nobody[6];
    const int up = interface_is_up(&p->link);
    if (up == p->up)
        return;
    p->up = up;
    states.forwarding.words[0] ^= (uint64_t)1 << number_of(p);
    states.learning = states.forwarding;
    if (!up)
        done(etherpeel_switch_forget(table, BUCKETS, ETHERPEEL_FORGET_PORT, number_of(p), nobody));
}

/* An interface with an address hands its frames to the host as well. */
static void warn_of_addresses(void) {
    struct ifaddrs *all, *it;
    if (getifaddrs(&all))
        return;
    for (it = all; it; it = it->ifa_next)
        for (const port *p = ports; p < ports + count; p++)
            if (it->ifa_addr && it->ifa_addr->sa_family != AF_PACKET &&
                !strcmp(it->ifa_name, p->link.name))
                warnx("%s: has an address, so the host answers there", p->link.name);
    freeifaddrs(all);
}

static void queue(const etherpeel_ports *set, struct virtio_net_hdr *to_do, uint8_t *frame,
                  size_t len) {
    for (uint64_t left = set->words[0]; left; left &= left - 1)
        interface_queue(&ports[__builtin_ctzll(left)].link, to_do, frame, len);
}

/* Lets a frame leave by its ports: made ready once for each form, of two forms from a copy. */
static void pass_on(const etherpeel_received *received, const arrival *a, uint8_t *copy,
                    struct virtio_net_hdr to_do[2]) {
    const int tagged = received->tagged.words[0] != 0, untagged = received->untagged.words[0] != 0;
    const size_t len = TAG + a->len;
    uint8_t *buffer = a->frame - TAG;
    size_t at;
    if (tagged && untagged)
        memcpy(copy, buffer, len);
    if (tagged) {
        done(etherpeel_switch_tagged(received, buffer, len, &at));
        to_do[0] = moved(&a->header, a->restored + TAG - (int)at);
        queue(&received->tagged, &to_do[0], buffer + at, len - at);
        buffer = copy;
    }
    if (untagged) {
        done(etherpeel_switch_untagged(received, buffer, len, &at));
        to_do[1] = moved(&a->header, a->restored + TAG - (int)at);
        queue(&received->untagged, &to_do[1], buffer + at, len - at);
    }
}

/* Takes the frames that wait at a port, and sends on what leaves. */
static void serve(port *p, uint32_t now) {
    const int found = interface_receive(&p->link, came);
    for (int i = 0; i < found; i++) {
        const arrival *a = &came[i];
        etherpeel_received received;
        if (!a->len)
            continue;
        if (storm && (a->frame[0] & 1) && ++p->groups > storm) {
            p->discarded[STORM]++;
            continue;
        }
        done(etherpeel_switch_receive(&bridge, table, BUCKETS, now, number_of(p), &p->config,
                                      a->frame, a->len, &received));
        if (received.discarded || received.reserved)
            p->discarded[received.reserved ? RESERVED : received.discarded]++;
        else
            pass_on(&received, a, copies[i], left_to_do[i]);
    }
    for (unsigned to = 0; to < count; to++) interface_flush(&ports[to].link);
}

static void print_numbers(void) {
    for (port *p = ports; p < ports + count; p++) {
        interface_count_dropped(&p->link);
        const uintmax_t *counts = p->link.counts;
        printf("%s: received %ju, sent %ju", p->link.name, counts[RECEIVED], counts[SENT]);
        for (int i = DROPPED; i < LOSSES; i++)
            if (counts[i])
                printf(", %s %ju", losses[i], counts[i]);
        for (int i = 1; i < REASONS; i++)
            if (p->discarded[i])
                printf(", discarded (%s) %ju", reasons[i], p->discarded[i]);
        printf("\n");
    }
    fflush(stdout);
}

/* Opens all ports, and what is waited for at a signal. */
static int open_all(void) {
    static const int numbers[] = {SIGUSR1, SIGINT, SIGTERM};
    sigset_t signals;
    for (port *p = ports; p < ports + count; p++) {
        look_at(p);
        if (p->link.socket < 0)
            err(1, "%s", p->link.name);
    }
    warn_of_addresses();
    signal(SIGPIPE, SIG_IGN); /* frames go on if nobody reads the numbers */
    sigemptyset(&signals);
    for (int i = 0; i < 3; i++) sigaddset(&signals, numbers[i]);
    const int fd = sigprocmask(SIG_BLOCK, &signals, NULL) ? -1 : signalfd(-1, &signals, 0);
    if (fd < 0)
        err(1, "signalfd");
    return fd;
}

/* Serves the ports until SIGINT or SIGTERM comes, and looks at them each second, and when an
 * interface changes. */
static void run(int signals) {
    struct pollfd waits[PORTS + 2];
    struct signalfd_siginfo came_in = {0};
    time_t looked = 0;
    printf("switch: %u ports\n", count);
    fflush(stdout);
    waits[count] = (struct pollfd){.fd = signals, .events = POLLIN};
    waits[count + 1] = (struct pollfd){.fd = interfaces_watched(), .events = POLLIN};
    while (came_in.ssi_signo == 0 || came_in.ssi_signo == SIGUSR1) {
        struct timespec now;
        for (unsigned i = 0; i < count; i++)
            waits[i] = (struct pollfd){.fd = ports[i].link.socket, .events = POLLIN};
        const int found = poll(waits, count + 2, 1000);
        clock_gettime(CLOCK_MONOTONIC, &now);
        for (unsigned i = 0; i < count; i++) {
            if (now.tv_sec != looked || waits[count + 1].revents)
                look_at(&ports[i]);
            if (now.tv_sec != looked)
                ports[i].groups = 0;
        }
        while (recv(waits[count + 1].fd, copies, sizeof copies, 0) > 0) continue;
        looked = now.tv_sec;
        for (unsigned i = 0; found > 0 && i < count; i++)
            if (waits[i].revents)
                serve(&ports[i], (uint32_t)now.tv_sec);
        if (found > 0 && waits[count].revents &&
            read(signals, &came_in, sizeof came_in) == sizeof came_in)
            print_numbers();
    }
}

int main(int argc, char **argv) {
    if (!etherpeel_fits())
        errx(1, "the library is not of the version of etherpeel.h");
    const int first = read_options(argc, argv);
    if (first >= argc || argc - first > PORTS)
        errx(2, "usage: switch [--ageing SECONDS] [--storm N] NAME:pvid=N .. NAME:tagged=N,N .., "
                "at most %d", PORTS);
    for (int i = first; i < argc; i++) set_up(&ports[i - first], argv[i]);
    count = (unsigned)(argc - first);
    share_table();
    if (getrandom(bridge.key, sizeof bridge.key, 0) != sizeof bridge.key)
        err(1, "getrandom");
    run(open_all());
    return 0;
}
