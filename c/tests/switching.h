/* Tests of the calls for a switch, which tests.c runs. What is wanted follows from IEEE 802.1Q. */
#ifndef SWITCHING_H
#define SWITCHING_H

#include "check.h"

/* the addresses of a frame between stations, by their last bytes */
#define STATIONS(to, from) 2, 0, 0, 0, 0, to, 2, 0, 0, 0, 0, from

static const uint8_t ONE[6] = {2, 0, 0, 0, 0, 1}, TWO[6] = {2, 0, 0, 0, 0, 2};
static const uint8_t TO_TWO[] = {STATIONS(2, 1), 0x08, 0x00};
static const uint8_t TO_ONE[] = {STATIONS(1, 2), 0x08, 0x00};
static const uint8_t RESERVED[] = {1, 0x80, 0xC2, 0, 0, 0, 2, 0, 0, 0, 0, 1, 0x88, 0xCC};

static void layout_of_a_switch(void) {
    CHECK(sizeof(etherpeel_ports) == 32 && sizeof(etherpeel_switch_vlan) == 72 &&
          offsetof(etherpeel_switch_vlan, untagged) == 32 &&
          offsetof(etherpeel_switch_vlan, first_bucket) == 64 &&
          offsetof(etherpeel_switch_vlan, buckets) == 68);
    CHECK(sizeof(etherpeel_port_states) == 128 &&
          offsetof(etherpeel_port_states, forwarding) == 32 &&
          offsetof(etherpeel_port_states, isolated) == 64 &&
          offsetof(etherpeel_port_states, mirrors) == 96);
    CHECK(sizeof(etherpeel_static_entry) == 40 && offsetof(etherpeel_static_entry, address) == 32 &&
          offsetof(etherpeel_static_entry, vid) == 38);
    CHECK(sizeof(etherpeel_port) == 6 && offsetof(etherpeel_port, frame_types) == 2 &&
          offsetof(etherpeel_port, refuses_second_tag) == 3 &&
          offsetof(etherpeel_port, ingress_filtering) == 4 &&
          offsetof(etherpeel_port, default_priority) == 5);
    CHECK(sizeof(etherpeel_bridge) == 64 && offsetof(etherpeel_bridge, ports) == 16 &&
          offsetof(etherpeel_bridge, vlans) == 24 && offsetof(etherpeel_bridge, vlan_count) == 32 &&
          offsetof(etherpeel_bridge, static_entries) == 40 &&
          offsetof(etherpeel_bridge, static_entry_count) == 48);
    CHECK(offsetof(etherpeel_bridge, ageing_time) == 56 &&
          offsetof(etherpeel_bridge, forwarded) == 60 && offsetof(etherpeel_bridge, kind) == 62);
    CHECK(sizeof(etherpeel_received) == 72 && offsetof(etherpeel_received, untagged) == 32 &&
          offsetof(etherpeel_received, vid) == 64 && offsetof(etherpeel_received, kind) == 66 &&
          offsetof(etherpeel_received, priority) == 67);
    CHECK(offsetof(etherpeel_received, drop_eligible) == 68 &&
          offsetof(etherpeel_received, reserved) == 69 &&
          offsetof(etherpeel_received, discarded) == 70);
    CHECK(sizeof(etherpeel_sighting) == 16 && offsetof(etherpeel_sighting, time) == 8 &&
          offsetof(etherpeel_sighting, port) == 12 && sizeof(etherpeel_bucket) == 64);
    CHECK(etherpeel_sizeof(ETHERPEEL_STRUCT_PORT) == 6 &&
          etherpeel_sizeof(ETHERPEEL_STRUCT_RECEIVED) == 72 &&
          etherpeel_sizeof(ETHERPEEL_STRUCT_BUCKET) == 64 &&
          etherpeel_sizeof(ETHERPEEL_STRUCT_BRIDGE) == 64 && etherpeel_sizeof(33) == 0);
}

static etherpeel_ports no_ports(void) {
    etherpeel_ports ports;
    memset(&ports, 0, sizeof ports);
    return ports;
}

static etherpeel_ports two_ports(uint8_t one, uint8_t other) {
    etherpeel_ports ports = no_ports();
    etherpeel_ports_add(&ports, one);
    etherpeel_ports_add(&ports, other);
    return ports;
}

static int are(const etherpeel_ports *ports, etherpeel_ports wanted) {
    return !memcmp(ports, &wanted, sizeof wanted);
}

/* A bridge with its VLANs and a table. VLAN 10 has the ports 1 and 2 without a tag, and 4 and 200
 * with one; VLAN 20 has port 3. Each has two buckets. Port 5 is in neither. */
typedef struct set_up {
    etherpeel_port_states states;
    etherpeel_switch_vlan vlans[21];
    etherpeel_static_entry entry;
    etherpeel_bridge bridge;
    etherpeel_bucket table[5];
} set_up;

static void set(set_up *it) {
    memset(it, 0, sizeof *it);
    for (uint8_t i = 1; i <= 5; i++) etherpeel_ports_add(&it->states.learning, i);
    etherpeel_ports_add(&it->states.learning, 200);
    it->states.forwarding = it->states.learning;
    it->vlans[10].members = it->vlans[10].untagged = two_ports(1, 2);
    etherpeel_ports_add(&it->vlans[10].members, 4);
    etherpeel_ports_add(&it->vlans[10].members, 200);
    it->vlans[10].first_bucket = 1;
    it->vlans[20].members = it->vlans[20].untagged = two_ports(3, 3);
    it->vlans[20].first_bucket = 3;
    it->vlans[10].buckets = it->vlans[20].buckets = 2;
    it->bridge.key[0] = 0x0706050403020100, it->bridge.key[1] = 0x0F0E0D0C0B0A0908;
    it->bridge.ports = &it->states;
    it->bridge.vlans = it->vlans, it->bridge.vlan_count = COUNT(it->vlans);
    it->bridge.static_entries = &it->entry, it->bridge.static_entry_count = 0;
    it->bridge.ageing_time = 300;
    it->bridge.kind = ETHERPEEL_BRIDGE_CUSTOMER;
}

/* a port of stations of a VLAN, or one to another bridge */
static etherpeel_port port_of(uint16_t vid, int tagged) {
    etherpeel_port port;
    memset(&port, 0, sizeof port);
    port.pvid = tagged ? 1 : vid;
    port.frame_types = tagged ? ETHERPEEL_FRAMES_VLAN_TAGGED : ETHERPEEL_FRAMES_UNTAGGED;
    port.refuses_second_tag = port.ingress_filtering = 1;
    return port;
}

/* a frame that comes in without a tag */
static etherpeel_received from(set_up *it, uint32_t now, uint8_t number, uint16_t vid,
                               const uint8_t *frame) {
    const etherpeel_port port = port_of(vid, 0);
    etherpeel_received r;
    memset(&r, 0xA5, sizeof r);
    CHECK(etherpeel_switch_receive(&it->bridge, it->table, COUNT(it->table), now, number, &port,
                                   frame, 14, &r) == ETHERPEEL_DONE);
    return r;
}

static uint32_t found(const set_up *it, uint16_t vid, const uint8_t *address,
                      etherpeel_sighting *sighting) {
    return etherpeel_switch_find(&it->bridge, it->table, COUNT(it->table), vid, address, sighting);
}

static void sets_of_ports(void) {
    etherpeel_ports ports = no_ports();
    for (unsigned i = 0; i < 256; i += 51) etherpeel_ports_add(&ports, (uint8_t)i);
    CHECK(ports.words[0] == ((uint64_t)1 << 51 | 1) &&
          ports.words[3] == ((uint64_t)1 << 63 | 1 << 12));
    for (unsigned i = 0; i < 256; i++)
        if (etherpeel_ports_has(&ports, (uint8_t)i) != (i % 51 == 0)) CHECK(0);
}

static void learning(void) {
    static set_up it;
    etherpeel_sighting s;
    set(&it);
    memset(&s, 0xA5, sizeof s);
    etherpeel_received r = from(&it, 7, 1, 10, TO_TWO);
    CHECK(r.discarded == 0 && r.reserved == 0 && r.kind == ETHERPEEL_BRIDGE_CUSTOMER);
    CHECK(r.vid == 10 && r.priority == 0 && r.drop_eligible == 0);
    CHECK(are(&r.untagged, two_ports(2, 2)) && are(&r.tagged, two_ports(4, 200)));
    CHECK(all_are(it.table, sizeof it.table[0], 0) &&
          all_are(it.table + 3, 2 * sizeof it.table[0], 0));
    CHECK(found(&it, 10, TWO, &s) == ETHERPEEL_STAYS && found(&it, 20, ONE, &s) == ETHERPEEL_STAYS);
    CHECK(all_are(&s, sizeof s, 0xA5));
    CHECK(found(&it, 10, ONE, &s) == ETHERPEEL_DONE);
    CHECK(s.address == 0x020000000001 && s.time == 7 && s.port == 1);
    r = from(&it, 307, 2, 10, TO_ONE);
    CHECK(are(&r.untagged, two_ports(1, 1)) && are(&r.tagged, no_ports()));
    r = from(&it, 308, 2, 10, TO_ONE);
    CHECK(are(&r.untagged, two_ports(1, 1)) && are(&r.tagged, two_ports(4, 200)));
    CHECK(found(&it, 10, ONE, &s) == ETHERPEEL_DONE && s.time == 7);
    r = from(&it, 309, 2, 10, TO_TWO);
    CHECK(are(&r.untagged, no_ports()) && are(&r.tagged, no_ports()) && r.discarded == 0);
    CHECK(found(&it, 10, ONE, &s) == ETHERPEEL_DONE && s.time == 309 && s.port == 2);
}

static void forgetting(void) {
    static set_up it;
    etherpeel_sighting s;
    set(&it);
    for (uint32_t what = 0; what <= 3; what++) {
        const int ones = what == ETHERPEEL_FORGET_ALL || what == ETHERPEEL_FORGET_PORT;
        const int twos = what == ETHERPEEL_FORGET_ALL || what == ETHERPEEL_FORGET_STATION;
        from(&it, 0, 1, 10, TO_TWO);
        from(&it, 0, 2, 10, TO_ONE);
        from(&it, 0, 3, 20, TO_ONE);
        const etherpeel_switch_vlan *vlan = &it.vlans[10];
        CHECK(etherpeel_switch_forget(it.table + vlan->first_bucket, vlan->buckets, what, 1, TWO) ==
              (what < 3 ? ETHERPEEL_DONE : ETHERPEEL_BAD_FIELD));
        CHECK(found(&it, 10, ONE, &s) == (ones ? ETHERPEEL_STAYS : ETHERPEEL_DONE));
        CHECK(found(&it, 10, TWO, &s) == (twos ? ETHERPEEL_STAYS : ETHERPEEL_DONE));
        CHECK(found(&it, 20, TWO, &s) == ETHERPEEL_DONE && s.port == 3);
    }
    CHECK(etherpeel_switch_forget(it.table, COUNT(it.table), ETHERPEEL_FORGET_ALL, 0, ONE) ==
          ETHERPEEL_DONE);
    CHECK(all_are(it.table, sizeof it.table, 0));
    CHECK(etherpeel_switch_forget(NULL, 0, ETHERPEEL_FORGET_ALL, 0, ONE) == ETHERPEEL_DONE);
}

static void ports_of_a_switch(void) {
    static set_up it;
    set(&it);
    it.states.isolated = two_ports(1, 2);
    it.states.mirrors = two_ports(5, 1);
    etherpeel_received r = from(&it, 0, 1, 10, TO_TWO);
    CHECK(are(&r.untagged, no_ports()));
    CHECK(etherpeel_ports_has(&r.tagged, 4) && etherpeel_ports_has(&r.tagged, 200) &&
          etherpeel_ports_has(&r.tagged, 5) && !etherpeel_ports_has(&r.tagged, 1));
    it.states.isolated = it.states.mirrors = no_ports();
    it.entry.ports = two_ports(2, 3);
    memcpy(it.entry.address, TWO, sizeof TWO);
    it.entry.vid = 10;
    it.bridge.static_entry_count = 1;
    r = from(&it, 0, 1, 10, TO_TWO);
    CHECK(are(&r.untagged, two_ports(2, 2)) && are(&r.tagged, no_ports()));
    it.states.forwarding.words[0] = 0;
    r = from(&it, 9, 1, 10, TO_TWO);
    CHECK(r.discarded == ETHERPEEL_DISCARDED_PORT_STATE && are(&r.untagged, no_ports()));
    etherpeel_sighting s;
    CHECK(found(&it, 10, ONE, &s) == ETHERPEEL_DONE && s.time == 9);
    r = from(&it, 9, 1, 10, RESERVED);
    CHECK(r.discarded == 0 && r.reserved == 1 && r.vid == 10 && are(&r.untagged, no_ports()) &&
          are(&r.tagged, no_ports()));
    etherpeel_ports_add(&it.states.forwarding, 1);
    it.bridge.forwarded = 1;
    r = from(&it, 9, 1, 10, RESERVED);
    CHECK(r.reserved == 0 && are(&r.tagged, two_ports(200, 200)));
}

static void leaving(void) {
    static set_up it;
    const etherpeel_port trunk = port_of(10, 1);
    uint8_t buffer[] = {0, 0, 0, 0, STATIONS(2, 1), 0x81, 0x00, 0xB0, 0x0A, 0x08, 0x00, 0x45};
    const uint8_t untagged[] = {STATIONS(2, 1), 0x08, 0x00, 0x45};
    const uint8_t tagged[] = {STATIONS(2, 1), 0x81, 0x00, 0xB0, 0x0A, 0x08, 0x00, 0x45};
    etherpeel_received r;
    size_t at = 99;
    set(&it);
    CHECK(etherpeel_switch_receive(&it.bridge, NULL, 0, 0, 4, &trunk, buffer + 4, sizeof buffer - 4,
                                   &r) == ETHERPEEL_DONE);
    CHECK(r.discarded == 0 && r.vid == 10 && r.priority == 5 && r.drop_eligible == 1);
    CHECK(are(&r.untagged, two_ports(1, 2)) && are(&r.tagged, two_ports(200, 200)));
    CHECK(etherpeel_switch_tagged(&r, buffer, sizeof buffer, &at) == ETHERPEEL_DONE);
    CHECK(at == 4 && !memcmp(buffer + 4, tagged, sizeof tagged));
    CHECK(etherpeel_switch_untagged(&r, buffer, sizeof buffer, &at) == ETHERPEEL_DONE);
    CHECK(at == 8 && !memcmp(buffer + 8, untagged, sizeof untagged));
    CHECK(etherpeel_switch_untagged(&r, buffer + 4, sizeof buffer - 4, &at) == ETHERPEEL_DONE);
    CHECK(at == 4 && !memcmp(buffer + 8, untagged, sizeof untagged));
    CHECK(etherpeel_switch_tagged(&r, buffer + 4, sizeof buffer - 4, &at) == ETHERPEEL_DONE);
    CHECK(at == 0 && !memcmp(buffer + 4, tagged, sizeof tagged));
    at = 99;
    CHECK(etherpeel_switch_tagged(&r, buffer, 21, &at) == ETHERPEEL_STAYS &&
          etherpeel_switch_untagged(&r, buffer, 21, &at) == ETHERPEEL_STAYS);
    CHECK(etherpeel_switch_tagged(&r, NULL, 0, &at) == ETHERPEEL_STAYS && at == 99);
    r.kind = ETHERPEEL_BRIDGE_PROVIDER, r.priority = 7, r.drop_eligible = 0;
    CHECK(etherpeel_switch_tagged(&r, buffer, 21, &at) == ETHERPEEL_DONE && at == 0);
    CHECK(buffer[12] == 0x88 && buffer[13] == 0xA8 && buffer[14] == 0xE0 && buffer[15] == 0x0A &&
          buffer[16] == 0x81);
}

static void discarding(void) {
    static const uint8_t NAMED_VLAN[] = {STATIONS(2, 1), 0x81, 0x00, 0x00, 0x14, 0x08, 0x00};
    static const uint8_t NO_VLAN[] = {STATIONS(2, 1), 0x81, 0x00, 0x0F, 0xFF, 0x08, 0x00};
    static const uint8_t NO_STATION[] = {2, 0, 0, 0, 0, 1, 3, 0, 0, 0, 0, 1, 0x08, 0x00};
    static const uint8_t TWICE[] = {STATIONS(2, 1), 0x81, 0, 0, 0x0A, 0x81, 0, 0, 0x14, 8, 0};
    static const struct {
        const uint8_t *frame;
        size_t len;
        uint8_t frame_types, from, wanted;
    } rows[] = {{NULL, 0, ETHERPEEL_FRAMES_ALL, 1, ETHERPEEL_DISCARDED_NO_HEADER},
                {NAMED_VLAN, 17, ETHERPEEL_FRAMES_ALL, 1, ETHERPEEL_DISCARDED_CUT_TAG},
                {NO_VLAN, 18, ETHERPEEL_FRAMES_ALL, 1, ETHERPEEL_DISCARDED_RESERVED_IDENTIFIER},
                {NO_STATION, 14, ETHERPEEL_FRAMES_ALL, 1, ETHERPEEL_DISCARDED_SOURCE},
                {NAMED_VLAN, 18, ETHERPEEL_FRAMES_UNTAGGED, 1, ETHERPEEL_DISCARDED_FRAME_TYPE},
                {NAMED_VLAN, 18, ETHERPEEL_FRAMES_UNTAGGED_AND_PRIORITY_TAGGED, 1,
                 ETHERPEEL_DISCARDED_FRAME_TYPE},
                {TO_TWO, 14, ETHERPEEL_FRAMES_VLAN_TAGGED, 1, ETHERPEEL_DISCARDED_FRAME_TYPE},
                {TWICE, 22, ETHERPEEL_FRAMES_ALL, 1, ETHERPEEL_DISCARDED_SECOND_TAG},
                {NAMED_VLAN, 18, ETHERPEEL_FRAMES_ALL, 1, ETHERPEEL_DISCARDED_NOT_A_MEMBER},
                {TO_TWO, 14, ETHERPEEL_FRAMES_ALL, 6, ETHERPEEL_DISCARDED_PORT_STATE}};
    static set_up it;
    etherpeel_port port = port_of(10, 0);
    etherpeel_received r;
    uint8_t buffer[18] = {0, 0, 0, 0, STATIONS(2, 1), 8, 0};
    size_t at = 99;
    set(&it);
    etherpeel_ports_add(&it.vlans[10].members, 6);
    for (size_t i = 0; i < COUNT(rows); i++) {
        port.frame_types = rows[i].frame_types;
        CHECK(etherpeel_switch_receive(&it.bridge, it.table, COUNT(it.table), 0, rows[i].from,
                                       &port, rows[i].frame, rows[i].len, &r) == ETHERPEEL_DONE);
        CHECK(r.discarded == rows[i].wanted &&
              all_are(&r, offsetof(etherpeel_received, discarded), 0));
        CHECK(etherpeel_switch_tagged(&r, buffer, 18, &at) == ETHERPEEL_BAD_FIELD &&
              etherpeel_switch_untagged(&r, buffer, 18, &at) == ETHERPEEL_BAD_FIELD && at == 99);
    }
    CHECK(all_are(it.table, sizeof it.table, 0));
}

static void unfit_ports(void) {
    static set_up it;
    etherpeel_port ports[5];
    etherpeel_received r;
    etherpeel_sighting s;
    memset(&r, 0xA5, sizeof r);
    memset(&s, 0xA5, sizeof s);
    set(&it);
    for (size_t i = 0; i < COUNT(ports); i++) ports[i] = port_of(10, 0);
    ports[0].pvid = 0;
    ports[1].pvid = 4095;
    ports[2].frame_types = 4;
    ports[3].default_priority = 8;
    for (size_t i = 0; i < COUNT(ports); i++) {
        it.bridge.kind = i < 4 ? ETHERPEEL_BRIDGE_PROVIDER : 3;
        CHECK(etherpeel_switch_receive(&it.bridge, it.table, COUNT(it.table), 0, 1, &ports[i],
                                       TO_TWO, sizeof TO_TWO, &r) == ETHERPEEL_BAD_FIELD);
    }
    CHECK(all_are(&r, sizeof r, 0xA5) && all_are(it.table, sizeof it.table, 0));
    CHECK(found(&it, 10, ONE, &s) == ETHERPEEL_BAD_FIELD);
    it.bridge.kind = ETHERPEEL_BRIDGE_CUSTOMER;
    CHECK(found(&it, 0, ONE, &s) == ETHERPEEL_BAD_FIELD &&
          found(&it, 4095, ONE, &s) == ETHERPEEL_BAD_FIELD && all_are(&s, sizeof s, 0xA5));
    CHECK(found(&it, 4094, ONE, &s) == ETHERPEEL_STAYS && all_are(&s, sizeof s, 0xA5));
}

static void unfit_numbers_of_a_received_frame(void) {
    static set_up it;
    set(&it);
    const etherpeel_received fit = from(&it, 0, 1, 10, TO_TWO);
    etherpeel_received rows[5] = {fit, fit, fit, fit, fit};
    uint8_t buffer[18] = {0, 0, 0, 0, STATIONS(2, 1), 8, 0}, before[18];
    size_t at = 99;
    memcpy(before, buffer, sizeof before);
    rows[0].vid = 0;
    rows[1].vid = 4095;
    rows[2].kind = 0;
    rows[3].priority = 8;
    rows[4].discarded = 9;
    for (size_t i = 0; i < COUNT(rows); i++)
        CHECK(etherpeel_switch_tagged(&rows[i], buffer, 18, &at) == ETHERPEEL_BAD_FIELD &&
              etherpeel_switch_untagged(&rows[i], buffer, 18, &at) == ETHERPEEL_BAD_FIELD);
    CHECK(at == 99 && !memcmp(buffer, before, sizeof before));
}

#endif
