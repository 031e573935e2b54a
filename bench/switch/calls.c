/* A switch of untagged ports in one VLAN by the calls from C, as c/examples/switch.c uses them, and by hand.
 *
 *   calls PORTS STATIONS unicast|flood
 *
 * 4,096 frames of 64 bytes come in by turns from so many stations, which are spread over the ports. They go to the next station,
 * which is known, or to one that is not, and leave without a tag. Both must choose the same ports. For callgrind: `switched` and
 * `by_hand` are each called once for each frame. With many stations the time of both is printed: `calls 8 1000000 time`. */
#include <stdio.h>
#include <stdlib.h>
#include <string.h>
#include <time.h>

#include "../../c/etherpeel.h"

enum { FRAMES = 4096, LEN = 64, MOST = 64, VLAN = 5, AGEING_TIME = 300 };

static etherpeel_port config = {.pvid = VLAN, .ingress_filtering = 1, .refuses_second_tag = 1};
static etherpeel_switch_vlan vlans[VLAN + 1];
static etherpeel_port_states states;
static etherpeel_static_entry no_entries[1];
static etherpeel_bridge bridge = {.key = {0x0706050403020100, 0x0F0E0D0C0B0A0908}, .ports = &states, .vlans = vlans,
                                  .vlan_count = VLAN + 1, .static_entries = no_entries, .ageing_time = AGEING_TIME,
                                  .kind = ETHERPEEL_BRIDGE_CUSTOMER};
static etherpeel_bucket *table;
static size_t buckets;

/* the ports that a frame leaves by, as bits; it is made ready to leave */
__attribute__((noipa)) static uint64_t switched(unsigned from, uint8_t *buffer, size_t len, size_t *begin) {
    etherpeel_received received;
    if (etherpeel_switch_receive(&bridge, table, buckets, 1, (uint8_t)from, &config, buffer + 4, len, &received) != ETHERPEEL_DONE ||
        received.discarded || received.reserved)
        return 0;
    if (received.untagged.words[0])
        etherpeel_switch_untagged(&received, buffer, 4 + len, begin);
    if (received.tagged.words[0])
        etherpeel_switch_tagged(&received, buffer, 4 + len, begin);
    return received.tagged.words[0] | received.untagged.words[0];
}

/* By hand: a table by a keyed hash with linear probing, and the ports of each VLAN as bits. */
struct station { uint64_t address; uint32_t port, time; };
static struct station *stations;
static size_t places; /* a power of two */
static struct { uint64_t members, untagged; } own_vlans[4096];
static uint64_t forwarding;
static const uint64_t own_key[2] = {0x243F6A8885A308D3, 0x13198A2E03707344};

static uint64_t address_at(const uint8_t *p) {
    uint64_t high;
    memcpy(&high, p, 8);
    return __builtin_bswap64(high) >> 16;
}

/* the finalizer of MurmurHash3, with a key before and after */
static size_t place_of(uint64_t address, unsigned vid) {
    uint64_t x = (address | (uint64_t)vid << 48) ^ own_key[0];
    x = (x ^ x >> 33) * 0xFF51AFD7ED558CCD;
    x = (x ^ x >> 33) * 0xC4CEB9FE1A85EC53;
    return ((x ^ x >> 33) + own_key[1]) & (places - 1);
}

/* the place of a station, or the free one for it */
static struct station *seen(uint64_t address, unsigned vid) {
    const uint64_t key = address | (uint64_t)vid << 48;
    for (size_t at = place_of(address, vid), tried = 0; tried < 16; at = (at + 1) & (places - 1), tried++)
        if (stations[at].address == key || !stations[at].address)
            return &stations[at];
    return &stations[place_of(address, vid)];
}

/* Learns, looks up and retags: an untagged frame, or one with a tag, leaves without a tag by ports of one kind, with one by others. */
__attribute__((noipa)) static uint64_t by_hand(unsigned from, uint8_t *buffer, size_t len, size_t *begin) {
    uint8_t *frame = buffer + 4;
    unsigned vid = VLAN;
    if (len < 14 || (frame[6] & 1)) return 0;
    const int has_tag = frame[12] == 0x81 && frame[13] == 0;
    if (has_tag) {
        if (len < 18) return 0;
        const unsigned tci = (unsigned)frame[14] << 8 | frame[15];
        if (tci % 4096) vid = tci % 4096;
    }
    if (!(own_vlans[vid].members >> from & 1) || !(forwarding >> from & 1)) return 0;
    const uint64_t source = address_at(frame + 6), destination = address_at(frame);
    struct station *own = seen(source, vid);
    *own = (struct station){source | (uint64_t)vid << 48, from, 1};
    uint64_t leaves = own_vlans[vid].members & forwarding & ~((uint64_t)1 << from);
    if (!(frame[0] & 1)) {
        const struct station *other = seen(destination, vid);
        if (other->address == (destination | (uint64_t)vid << 48) && 1 - other->time <= AGEING_TIME)
            leaves &= (uint64_t)1 << other->port;
    }
    *begin = 4;
    if ((leaves & own_vlans[vid].untagged) && has_tag) {
        memmove(frame + 4, frame, 12);
        *begin = 8;
    } else if ((leaves & ~own_vlans[vid].untagged) && !has_tag) {
        const uint8_t tag[4] = {0x81, 0, (uint8_t)(vid >> 8), (uint8_t)vid};
        memmove(buffer, frame, 12);
        memcpy(buffer + 12, tag, 4);
        *begin = 0;
    }
    return leaves;
}

static void put(uint8_t *at, uint32_t station) {
    const uint8_t address[6] = {2, 0, (uint8_t)(station >> 24), (uint8_t)(station >> 16), (uint8_t)(station >> 8), (uint8_t)station};
    memcpy(at, address, 6);
}

static void make(uint8_t *frame, uint32_t from, uint32_t to) {
    memset(frame, 0, LEN);
    put(frame, to);
    put(frame + 6, from);
    frame[12] = 8;
}

static double now(void) {
    struct timespec it;
    clock_gettime(CLOCK_MONOTONIC, &it);
    return (double)it.tv_sec + (double)it.tv_nsec / 1e9;
}

static uint32_t drawn(uint32_t *state) { return *state = *state * 1664525 + 1013904223; }

/* Nanoseconds of a frame from and to drawn stations, all of which are known. */
static double timed(uint64_t (*passes)(unsigned, uint8_t *, size_t, size_t *), unsigned count, uint32_t known) {
    static uint8_t buffer[4 + LEN];
    uint32_t state = 1;
    size_t begin;
    double least = 1e9;
    for (int turn = 0; turn < 4; turn++) {
        const double first = now();
        for (int i = 0; i < 2000000; i++) {
            const uint32_t from = turn ? drawn(&state) % known : (uint32_t)i % known;
            make(buffer + 4, from, drawn(&state) % known);
            passes(from % count, buffer, LEN, &begin);
        }
        const double spent = (now() - first) / 2000000 * 1e9;
        if (turn && spent < least) least = spent;
    }
    return least;
}

int main(int argc, char **argv) {
    static uint8_t buffer[4 + LEN], other[4 + LEN];
    unsigned count;
    uint32_t known;
    if (argc != 4 || (count = (unsigned)atoi(argv[1])) < 1 || count > MOST || !(known = (uint32_t)atoi(argv[2]))) return 2;
    buckets = known / 3 + 1;
    for (places = 1; places < 2 * (size_t)known; places *= 2) continue;
    table = calloc(buckets, sizeof *table);
    stations = calloc(places, sizeof *stations);
    vlans[VLAN].buckets = (uint32_t)buckets;
    for (unsigned i = 0; i < count; i++) {
        etherpeel_ports_add(&vlans[VLAN].members, (uint8_t)i);
        own_vlans[VLAN].members |= (uint64_t)1 << i;
    }
    vlans[VLAN].untagged = states.learning = states.forwarding = vlans[VLAN].members;
    own_vlans[VLAN].untagged = forwarding = own_vlans[VLAN].members;
    if (!strcmp(argv[3], "time")) {
        printf("%.0f %.0f\n", timed(switched, count, known), timed(by_hand, count, known));
        return 0;
    }
    for (uint32_t i = 0; i < FRAMES + known; i++) {
        const uint32_t from = i % known;
        const uint32_t to = strcmp(argv[3], "unicast") ? 0x7FFFFFFF : i < known ? from : (from + 1) % known;
        size_t begin = 0, also = 0;
        make(buffer + 4, from, to);
        make(other + 4, from, to);
        const uint64_t hand = by_hand(from % count, other, LEN, &also);
        if (switched(from % count, buffer, LEN, &begin) != hand || (hand && begin != also)) {
            printf("frame %u: other ports\n", i);
            return 1;
        }
    }
    return 0;
}
