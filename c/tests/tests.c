/* Tests of etherpeel.h from C and from C++: prints a line for each check that fails, and at the end
 * "N passed, M failed". */
#define _DEFAULT_SOURCE
#include "check.h"
#include "copying.h"
#include "fields.h"
#include "naming.h"
#include "reading.h"
#include "switching.h"
#include "writing.h"

/* ---- frames: the two addresses are to all stations, from 02:00:00:00:00:01 ---- */

#define ADDRESSES 0xFF, 0xFF, 0xFF, 0xFF, 0xFF, 0xFF, 2, 0, 0, 0, 0, 1

/* Ethernet II, a VLAN tag with PCP 5, DEI 1 and VID 0x123, and the first byte of an IPv4 packet */
static const uint8_t TAGGED[] = {ADDRESSES, 0x81, 0x00, 0xB1, 0x23, 0x08, 0x00, 0x45};
/* Ethernet II with IPv4 and a frame check sequence */
static const uint8_t CHECKED[] = {ADDRESSES, 0x08, 0x00, 0x45, 0x11, 0x22, 0x33, 0x44};
/* after the ether type of MACsec: a SecTag that names 4 bytes of payload, with a reserved bit; a
 * VLAN tag in these; 2 bytes after them */
static const uint8_t NAMED[] = {0x00, 0x46, 0,    0,    0,    1,    0x81,
                                0x00, 0xAA, 0xBB, 0xCC, 0xDD, 0xEE, 0xEE};
/* a SecTag with SCI, ES, E and C, AN 2, short length 0, packet number 0x01020304, and an encrypted
 * byte */
static const uint8_t SEALED[] = {0x6E, 0x00, 1,    2,    3,    4,    0x00, 0x11,
                                 0x22, 0x33, 0x44, 0x55, 0x66, 0x77, 0x99};
/* a cooked capture: sent by us, on Ethernet, address length 6, of an ARP packet */
static const uint8_t COOKED[] = {0, 4, 0, 1, 0, 6, 2, 0, 0, 0, 0, 1, 0xAB, 0xCD, 0x08, 0x06};
/* a cooked capture of a GRE tunnel */
static const uint8_t COOKED_GRE[] = {0, 0, 0x03, 0x0A, 0, 0, 0, 0, 0, 0, 0, 0, 0, 0, 0x08, 0x00};
/* who has 10.0.0.2, tell 10.0.0.1 at 02:00:00:00:00:01 */
#define ARP_REQUEST \
    0, 1, 0x08, 0x00, 6, 4, 0, 1, 2, 0, 0, 0, 0, 1, 10, 0, 0, 1, 0, 0, 0, 0, 0, 0, 10, 0, 0, 2
static const uint8_t ARP[] = {ADDRESSES, 0x08, 0x06, ARP_REQUEST, 0, 0};

/* ---- layout: as crates/ether_c asserts the sizes ---- */

static void layout(void) {
    CHECK(sizeof(etherpeel_fault) == 56 && sizeof(etherpeel_found) == 88 &&
          sizeof(etherpeel_fed) == 72);
    CHECK(sizeof(etherpeel_ethernet2) == 16 && sizeof(etherpeel_linux_sll) == 16 &&
          sizeof(etherpeel_vlan) == 6);
    CHECK(sizeof(etherpeel_macsec) == 24 && sizeof(etherpeel_arp) == 40 &&
          sizeof(etherpeel_unit) == 144);
    CHECK(offsetof(etherpeel_fault, missing) == 24 && offsetof(etherpeel_fault, kind) == 32 &&
          offsetof(etherpeel_fault, len_source) == 40);
    CHECK(offsetof(etherpeel_fault, packet_type) == 44 &&
          offsetof(etherpeel_fault, hardware_type) == 46 &&
          offsetof(etherpeel_fault, closed) == 48);
    CHECK(offsetof(etherpeel_found, fault) == 24 && offsetof(etherpeel_found, rest_kind) == 80 &&
          offsetof(etherpeel_found, rest_protocol) == 84);
    CHECK(offsetof(etherpeel_fed, taken) == 8 && offsetof(etherpeel_fed, fault) == 16);
    CHECK(offsetof(etherpeel_ethernet2, source) == 6 &&
          offsetof(etherpeel_ethernet2, ether_type) == 12 &&
          offsetof(etherpeel_ethernet2, has_fcs) == 14);
    CHECK(offsetof(etherpeel_linux_sll, address) == 6 &&
          offsetof(etherpeel_linux_sll, protocol) == 14);
    CHECK(offsetof(etherpeel_vlan, ether_type) == 2 && offsetof(etherpeel_vlan, pcp) == 4 &&
          offsetof(etherpeel_vlan, dei) == 5);
    CHECK(offsetof(etherpeel_macsec, packet_number) == 8 &&
          offsetof(etherpeel_macsec, ether_type) == 12);
    CHECK(offsetof(etherpeel_macsec, end_station) == 14 &&
          offsetof(etherpeel_macsec, short_len) == 20);
    CHECK(offsetof(etherpeel_arp, target_protocol) == 24 &&
          offsetof(etherpeel_arp, hardware_type) == 32 &&
          offsetof(etherpeel_arp, protocol_size) == 39);
    CHECK(offsetof(etherpeel_unit, payload_end) == 24 && offsetof(etherpeel_unit, kind) == 32 &&
          offsetof(etherpeel_unit, closed) == 36);
    CHECK(offsetof(etherpeel_unit, ethernet2) == 38 && offsetof(etherpeel_unit, linux_sll) == 54 &&
          offsetof(etherpeel_unit, vlan) == 70);
    CHECK(offsetof(etherpeel_unit, macsec) == 80 && offsetof(etherpeel_unit, arp) == 104);
    CHECK(sizeof(etherpeel_headers) == 824 && offsetof(etherpeel_headers, found) == 720 &&
          offsetof(etherpeel_headers, min_snap_len) == 808);
    CHECK(offsetof(etherpeel_headers, vlan_ids) == 816 &&
          offsetof(etherpeel_headers, vlan_count) == 822);
    CHECK(sizeof(etherpeel_filter) == 4616);
    CHECK(sizeof(etherpeel_filter_error) == 16 && offsetof(etherpeel_filter_error, kind) == 8 &&
          offsetof(etherpeel_filter_error, greatest) == 12);
    CHECK(sizeof(etherpeel_replace_error) == 16 &&
          offsetof(etherpeel_replace_error, difference) == 8);
    CHECK(sizeof(etherpeel_frame) == 32 && offsetof(etherpeel_frame, len) == 8 &&
          offsetof(etherpeel_frame, offset) == 16 && offsetof(etherpeel_frame, start) == 24 &&
          offsetof(etherpeel_frame, ether_type) == 28);
    CHECK(sizeof(etherpeel_field) == 32 && offsetof(etherpeel_field, bit_len) == 8 &&
          offsetof(etherpeel_field, value) == 16 && offsetof(etherpeel_field, unit) == 24 &&
          offsetof(etherpeel_field, name) == 28);
    CHECK(sizeof(etherpeel_linux_sll2_header) == 32 &&
          offsetof(etherpeel_linux_sll2_header, interface_index) == 8 &&
          offsetof(etherpeel_linux_sll2_header, start) == 12 &&
          offsetof(etherpeel_linux_sll2_header, protocol) == 16);
    CHECK(offsetof(etherpeel_linux_sll2_header, ether_type) == 18 &&
          offsetof(etherpeel_linux_sll2_header, hardware_type) == 20 &&
          offsetof(etherpeel_linux_sll2_header, packet_type) == 22 &&
          offsetof(etherpeel_linux_sll2_header, address_len) == 23 &&
          offsetof(etherpeel_linux_sll2_header, address) == 24);
}

/* ---- the library: its version, the sizes of its structs, link types ---- */

static void library(void) {
    CHECK(ETHERPEEL_VERSION == 0x030000 && etherpeel_version() == 0x030000 && etherpeel_fits());
    CHECK(etherpeel_sizeof(ETHERPEEL_STRUCT_FAULT) == 56 &&
          etherpeel_sizeof(ETHERPEEL_STRUCT_UNIT) == 144);
    CHECK(etherpeel_sizeof(0) == 0 && etherpeel_sizeof(99) == 0 && etherpeel_sizeof(~0u) == 0);
    CHECK(etherpeel_start_of_link_type(1) == ETHERPEEL_START_ETHERNET2 &&
          etherpeel_start_of_link_type(113) == ETHERPEEL_START_LINUX_SLL);
    CHECK(etherpeel_start_of_link_type(0) == 0 && etherpeel_start_of_link_type(276) == 0 &&
          etherpeel_start_of_link_type(0x10001) == 0);
}

/* ---- helpers ---- */

/* a refusal has a text, which begins with the offset of the unit; no refusal has none */
static int has_text(uint32_t start, uint16_t ether_type, const uint8_t *bytes, size_t len,
                    const etherpeel_fault *fault) {
    char text[512], front[64];
    size_t text_len = 99;
    const int front_len = snprintf(front, sizeof front, "at offset %zu: ", fault->offset);
    if (etherpeel_fault_text(start, ether_type, bytes, len, text, sizeof text, &text_len) !=
        ETHERPEEL_DONE)
        return 0;
    if (fault->kind == ETHERPEEL_FAULT_NONE) return text_len == 0;
    return text_len > (size_t)front_len && memcmp(text, front, (size_t)front_len) == 0;
}

static etherpeel_found summary_of(uint32_t start, uint16_t ether_type, const uint8_t *bytes,
                                  size_t len) {
    etherpeel_found found;
    const guarded page = guarded_page();
    memset(&found, 0xA5, sizeof found);
    CHECK(etherpeel_summary(start, ether_type, copied(page, bytes, len), len, &found) ==
          ETHERPEEL_DONE);
    release(page);
    CHECK(has_text(start, ether_type, bytes, len, &found.fault));
    return found;
}

static int is_length(const etherpeel_fault *f, size_t offset, size_t required, size_t len,
                     size_t missing, uint32_t layer, uint32_t source, int closed) {
    return f->kind == ETHERPEEL_FAULT_LENGTH && f->offset == offset &&
           f->required_len == required && f->len == len && f->missing == missing &&
           f->layer == layer && f->len_source == source && f->packet_type == 0 &&
           f->hardware_type == 0 && f->closed == closed;
}

static int is_content(const etherpeel_fault *f, uint32_t kind, size_t offset, unsigned packet_type,
                      unsigned hardware_type, int closed) {
    return f->kind == kind && f->offset == offset && f->packet_type == packet_type &&
           f->hardware_type == hardware_type && f->closed == closed && f->required_len == 0 &&
           f->len == 0 && f->missing == 0 && f->layer == 0 && f->len_source == 0;
}

static int is_none(const etherpeel_fault *f) {
    return is_content(f, ETHERPEEL_FAULT_NONE, 0, 0, 0, 0);
}

/* ---- summaries ---- */

static void accepted(void) {
    etherpeel_found f = summary_of(ETHERPEEL_START_ETHERNET2, 0, TAGGED, sizeof TAGGED);
    CHECK(f.units == 2 && f.rest_start == 18 && f.rest_end == 19);
    CHECK(f.rest_kind == ETHERPEEL_REST_ETHER_TYPE && f.rest_protocol == 0x0800 &&
          is_none(&f.fault));
    f = summary_of(ETHERPEEL_START_ETHERNET2_FCS, 0, CHECKED, sizeof CHECKED);
    CHECK(f.units == 1 && f.rest_start == 14 && f.rest_end == 15 &&
          f.rest_kind == ETHERPEEL_REST_ETHER_TYPE && is_none(&f.fault));
    f = summary_of(ETHERPEEL_START_ETHER_TYPE, 0x88E5, NAMED, sizeof NAMED);
    CHECK(f.units == 2 && f.rest_start == 12 && f.rest_end == 12 && f.rest_protocol == 0xCCDD &&
          is_none(&f.fault));
    f = summary_of(ETHERPEEL_START_ETHER_TYPE, 0x88E5, SEALED, sizeof SEALED);
    CHECK(f.units == 1 && f.rest_start == 14 && f.rest_end == 15 &&
          f.rest_kind == ETHERPEEL_REST_SEALED && f.rest_protocol == 0);
    f = summary_of(ETHERPEEL_START_ETHERNET2, 0, ARP, sizeof ARP);
    CHECK(f.units == 2 && f.rest_start == 42 && f.rest_end == 44 &&
          f.rest_kind == ETHERPEEL_REST_AFTER_ARP && f.rest_protocol == 0);
    f = summary_of(ETHERPEEL_START_LINUX_SLL, 0, COOKED_GRE, sizeof COOKED_GRE);
    CHECK(f.units == 1 && f.rest_start == 16 && f.rest_end == 16 &&
          f.rest_kind == ETHERPEEL_REST_GRE && f.rest_protocol == 0x0800);
    f = summary_of(ETHERPEEL_START_ETHER_TYPE, 0x0800, TAGGED, sizeof TAGGED);
    CHECK(f.units == 0 && f.rest_start == 0 && f.rest_end == 19 &&
          f.rest_kind == ETHERPEEL_REST_ETHER_TYPE && f.rest_protocol == 0x0800);
}

static void protocols_of_cooked_captures(void) {
    uint8_t packet[16];
    etherpeel_found f;
    memcpy(packet, COOKED_GRE, sizeof packet);
    packet[2] = 0x03, packet[3] = 0x38; /* 824 netlink */
    f = summary_of(ETHERPEEL_START_LINUX_SLL, 0, packet, sizeof packet);
    CHECK(f.rest_kind == ETHERPEEL_REST_NETLINK && f.rest_protocol == 0x0800);
    packet[2] = 0x03, packet[3] = 0x23; /* 803 radiotap */
    f = summary_of(ETHERPEEL_START_LINUX_SLL, 0, packet, sizeof packet);
    CHECK(f.rest_kind == ETHERPEEL_REST_IGNORED && f.rest_protocol == 0x0800);
    packet[2] = 0x03, packet[3] = 0x02; /* 770 frame relay */
    f = summary_of(ETHERPEEL_START_LINUX_SLL, 0, packet, sizeof packet);
    CHECK(f.rest_kind == ETHERPEEL_REST_IGNORED);
    packet[2] = 0, packet[3] = 1, packet[14] = 0,
    packet[15] = 1; /* on Ethernet, a number of Linux below the ether types */
    f = summary_of(ETHERPEEL_START_LINUX_SLL, 0, packet, sizeof packet);
    CHECK(f.rest_kind == ETHERPEEL_REST_ETHER_TYPE && f.rest_protocol == 1);
}

static void refused_for_a_length(void) {
    etherpeel_found f = summary_of(ETHERPEEL_START_ETHERNET2, 0, TAGGED, 13);
    CHECK(f.units == 0 && f.rest_start == 0 && f.rest_end == 13 &&
          f.rest_kind == ETHERPEEL_REST_START && f.rest_protocol == 0);
    CHECK(is_length(&f.fault, 0, 14, 13, 1, ETHERPEEL_LAYER_ETHERNET2_HEADER, ETHERPEEL_LEN_SLICE,
                    0));
    f = summary_of(ETHERPEEL_START_ETHERNET2_FCS, 0, CHECKED, 17);
    CHECK(is_length(&f.fault, 0, 18, 17, 0, ETHERPEEL_LAYER_ETHERNET2_HEADER, ETHERPEEL_LEN_SLICE,
                    1));
    f = summary_of(ETHERPEEL_START_LINUX_SLL, 0, COOKED, 15);
    CHECK(is_length(&f.fault, 0, 16, 15, 1, ETHERPEEL_LAYER_LINUX_SLL_HEADER, ETHERPEEL_LEN_SLICE,
                    0));
    f = summary_of(ETHERPEEL_START_ETHERNET2, 0, TAGGED, 16);
    CHECK(f.units == 1 && f.rest_start == 14 && f.rest_end == 16 &&
          f.rest_kind == ETHERPEEL_REST_ETHER_TYPE && f.rest_protocol == 0x8100);
    CHECK(is_length(&f.fault, 14, 4, 2, 2, ETHERPEEL_LAYER_VLAN_HEADER, ETHERPEEL_LEN_SLICE, 0));
    f = summary_of(ETHERPEEL_START_ETHER_TYPE, 0x88E5, NAMED, 5);
    CHECK(is_length(&f.fault, 0, 6, 5, 1, ETHERPEEL_LAYER_MACSEC_HEADER, ETHERPEEL_LEN_SLICE, 0));
    f = summary_of(ETHERPEEL_START_ETHER_TYPE, 0x88E5, SEALED, 13);
    CHECK(is_length(&f.fault, 0, 14, 13, 1, ETHERPEEL_LAYER_MACSEC_HEADER, ETHERPEEL_LEN_SLICE, 0));
    f = summary_of(ETHERPEEL_START_ETHER_TYPE, 0x88E5, NAMED, 9);
    CHECK(is_length(&f.fault, 0, 12, 9, 3, ETHERPEEL_LAYER_MACSEC_PACKET,
                    ETHERPEEL_LEN_MACSEC_SHORT_LENGTH, 0));
    f = summary_of(ETHERPEEL_START_ETHERNET2, 0, ARP, 21);
    CHECK(is_length(&f.fault, 14, 8, 7, 1, ETHERPEEL_LAYER_ARP, ETHERPEEL_LEN_SLICE, 0));
    f = summary_of(ETHERPEEL_START_ETHERNET2, 0, ARP, 41);
    CHECK(is_length(&f.fault, 14, 28, 27, 1, ETHERPEEL_LAYER_ARP, ETHERPEEL_LEN_ARP_ADDRESSES, 0));
}

static void refused_in_a_closed_window(void) {
    /* a SecTag that names two bytes of payload, with a VLAN tag cut short in these */
    static const uint8_t inner[] = {0x00, 0x04, 0, 0, 0, 1, 0x81, 0x00, 0xAA, 0xBB, 0xCC, 0xDD};
    etherpeel_found f = summary_of(ETHERPEEL_START_ETHER_TYPE, 0x88E5, inner, sizeof inner);
    CHECK(f.units == 1 && f.rest_start == 8 && f.rest_end == 10 && f.rest_protocol == 0x8100);
    CHECK(is_length(&f.fault, 8, 4, 2, 0, ETHERPEEL_LAYER_VLAN_HEADER,
                    ETHERPEEL_LEN_MACSEC_SHORT_LENGTH, 1));
}

static void refused_for_contents(void) {
    uint8_t packet[16];
    static const uint8_t version[] = {0x80, 0, 0, 0, 0, 0};
    static const uint8_t short_len[] = {ADDRESSES, 0x88, 0xE5, 0x00, 0x01, 0, 0, 0, 0};
    etherpeel_found f;
    memcpy(packet, COOKED, sizeof packet);
    packet[1] = 8;
    f = summary_of(ETHERPEEL_START_LINUX_SLL, 0, packet, sizeof packet);
    CHECK(f.units == 0 && f.rest_kind == ETHERPEEL_REST_START &&
          is_content(&f.fault, ETHERPEEL_FAULT_PACKET_TYPE, 0, 8, 0, 0));
    packet[1] = 0, packet[2] = 1, packet[3] = 1;
    f = summary_of(ETHERPEEL_START_LINUX_SLL, 0, packet, sizeof packet);
    CHECK(f.units == 0 && is_content(&f.fault, ETHERPEEL_FAULT_HARDWARE_TYPE, 0, 0, 257, 0));
    f = summary_of(ETHERPEEL_START_ETHER_TYPE, 0x88E5, version, sizeof version);
    CHECK(f.units == 0 && is_content(&f.fault, ETHERPEEL_FAULT_MACSEC_VERSION, 0, 0, 0, 0));
    f = summary_of(ETHERPEEL_START_ETHERNET2, 0, short_len, sizeof short_len);
    CHECK(f.units == 1 && f.rest_protocol == 0x88E5 &&
          is_content(&f.fault, ETHERPEEL_FAULT_MACSEC_SHORT_LEN, 14, 0, 0, 0));
}

static void summaries_with_a_limit(void) {
    etherpeel_found f;
    CHECK(etherpeel_summary_limited(ETHERPEEL_START_ETHERNET2, 0, TAGGED, sizeof TAGGED, 0, &f) ==
          ETHERPEEL_DONE);
    CHECK(f.units == 1 && f.rest_start == 14 && f.rest_protocol == 0x8100 && is_none(&f.fault));
    CHECK(etherpeel_summary_limited(ETHERPEEL_START_ETHERNET2, 0, TAGGED, sizeof TAGGED, 1, &f) ==
          ETHERPEEL_DONE);
    CHECK(f.units == 2 && f.rest_protocol == 0x0800);
    CHECK(etherpeel_summary_limited(ETHERPEEL_START_ETHERNET2, 0, TAGGED, sizeof TAGGED, SIZE_MAX,
                                    &f) == ETHERPEEL_DONE &&
          f.units == 2);
}

/* ---- units ---- */

static int has_place(const etherpeel_unit *u, uint32_t kind, size_t offset, size_t header_len,
                     size_t end, int closed) {
    return u->kind == kind && u->offset == offset && u->header_len == header_len &&
           u->payload_start == offset + header_len && u->payload_end == end && u->closed == closed;
}

static void walk_of_tags(void) {
    static const uint8_t mac[] = {2, 0, 0, 0, 0, 1};
    etherpeel_unit u[3];
    size_t count = 99;
    memset(u, 0xA5, sizeof u);
    CHECK(etherpeel_walk(ETHERPEEL_START_ETHERNET2, 0, TAGGED, sizeof TAGGED, u, COUNT(u),
                         &count) == ETHERPEEL_DONE &&
          count == 2);
    CHECK(has_place(&u[0], ETHERPEEL_UNIT_ETHERNET2, 0, 14, 19, 0) && others_are_zero(&u[0]));
    CHECK(all_are(u[0].ethernet2.destination, 6, 0xFF) &&
          memcmp(u[0].ethernet2.source, mac, 6) == 0);
    CHECK(u[0].ethernet2.ether_type == 0x8100 && u[0].ethernet2.has_fcs == 0);
    CHECK(has_place(&u[1], ETHERPEEL_UNIT_VLAN, 14, 4, 19, 0) && others_are_zero(&u[1]));
    CHECK(u[1].vlan.pcp == 5 && u[1].vlan.dei == 1 && u[1].vlan.vid == 0x123 &&
          u[1].vlan.ether_type == 0x0800);
    CHECK(all_are(&u[2], sizeof u[2], 0xA5));
}

static void walk_with_a_check_sequence(void) {
    etherpeel_unit u;
    size_t count;
    CHECK(etherpeel_walk(ETHERPEEL_START_ETHERNET2_FCS, 0, CHECKED, sizeof CHECKED, &u, 1,
                         &count) == ETHERPEEL_DONE &&
          count == 1);
    CHECK(has_place(&u, ETHERPEEL_UNIT_ETHERNET2, 0, 14, 15, 1) && u.ethernet2.has_fcs == 1 &&
          u.ethernet2.ether_type == 0x0800);
}

static void walk_of_sec_tags(void) {
    etherpeel_unit u[2];
    size_t count;
    CHECK(etherpeel_walk(ETHERPEEL_START_ETHER_TYPE, 0x88E5, NAMED, sizeof NAMED, u, COUNT(u),
                         &count) == ETHERPEEL_DONE &&
          count == 2);
    CHECK(has_place(&u[0], ETHERPEEL_UNIT_MACSEC, 0, 8, 12, 1) && others_are_zero(&u[0]));
    CHECK(u[0].macsec.ether_type == 0x8100 && u[0].macsec.short_len == 6 &&
          u[0].macsec.packet_number == 1);
    CHECK(u[0].macsec.sci_present == 0 && u[0].macsec.sci == 0 && u[0].macsec.encrypted == 0 &&
          u[0].macsec.changed == 0);
    CHECK(has_place(&u[1], ETHERPEEL_UNIT_VLAN, 8, 4, 12, 1) && u[1].vlan.vid == 0xABB &&
          u[1].vlan.pcp == 5 && u[1].vlan.dei == 0);
    CHECK(etherpeel_walk(ETHERPEEL_START_ETHER_TYPE, 0x88E5, SEALED, sizeof SEALED, u, COUNT(u),
                         &count) == ETHERPEEL_DONE &&
          count == 1);
    CHECK(has_place(&u[0], ETHERPEEL_UNIT_MACSEC, 0, 14, 15, 0) && u[0].macsec.ether_type == 0 &&
          u[0].macsec.packet_number == 0x01020304);
    CHECK(u[0].macsec.sci_present == 1 && u[0].macsec.sci == 0x0011223344556677u &&
          u[0].macsec.association_number == 2);
    CHECK(u[0].macsec.end_station == 1 && u[0].macsec.single_copy_broadcast == 0 &&
          u[0].macsec.encrypted == 1 && u[0].macsec.changed == 1);
}

/* the 54-octet frame of IEEE 802.1AE, Annex C, with integrity protection */
static void walk_of_the_example_of_the_standard(void) {
    static const uint8_t front[] = {0xD6, 0x09, 0xB1, 0xF0, 0x56, 0x63, 0x7A, 0x0D, 0x46, 0xDF,
                                    0x99, 0x8D, 0x88, 0xE5, 0x22, 0x2A, 0xB2, 0xC2, 0x84, 0x65,
                                    0x12, 0x15, 0x35, 0x24, 0xC0, 0x89, 0x5E, 0x81, 0x08, 0x00};
    uint8_t frame[86] = {0};
    etherpeel_unit u[2];
    size_t count;
    memcpy(frame, front, sizeof front);
    CHECK(etherpeel_walk(ETHERPEEL_START_ETHERNET2, 0, frame, sizeof frame, u, COUNT(u), &count) ==
              ETHERPEEL_DONE &&
          count == 2);
    CHECK(memcmp(u[0].ethernet2.destination, front, 6) == 0 &&
          memcmp(u[0].ethernet2.source, front + 6, 6) == 0);
    CHECK(has_place(&u[1], ETHERPEEL_UNIT_MACSEC, 14, 16, 70, 1) &&
          u[1].macsec.ether_type == 0x0800);
    CHECK(u[1].macsec.packet_number == 0xB2C28465u && u[1].macsec.sci == 0x12153524C0895E81u);
    CHECK(u[1].macsec.association_number == 2 && u[1].macsec.short_len == 42 &&
          u[1].macsec.end_station == 0);
}

static void walk_of_arp(void) {
    etherpeel_unit u[2];
    size_t count;
    CHECK(etherpeel_walk(ETHERPEEL_START_ETHERNET2, 0, ARP, sizeof ARP, u, COUNT(u), &count) ==
              ETHERPEEL_DONE &&
          count == 2);
    CHECK(has_place(&u[1], ETHERPEEL_UNIT_ARP, 14, 28, 44, 0) && others_are_zero(&u[1]));
    CHECK(u[1].arp.hardware_type == 1 && u[1].arp.protocol_type == 0x0800 &&
          u[1].arp.operation == 1);
    CHECK(u[1].arp.hardware_size == 6 && u[1].arp.protocol_size == 4);
    CHECK(u[1].arp.sender_hardware == 22 && u[1].arp.sender_protocol == 28 &&
          u[1].arp.target_hardware == 32 && u[1].arp.target_protocol == 38);
    CHECK(ARP[u[1].arp.sender_protocol + 3] == 1 && ARP[u[1].arp.target_protocol + 3] == 2);
}

static void walk_of_a_cooked_capture(void) {
    etherpeel_unit u[2];
    size_t count;
    uint8_t packet[sizeof COOKED + 28] = {0};
    static const uint8_t arp[] = {ARP_REQUEST};
    memcpy(packet, COOKED, sizeof COOKED);
    memcpy(packet + sizeof COOKED, arp, sizeof arp);
    CHECK(etherpeel_walk(ETHERPEEL_START_LINUX_SLL, 0, packet, sizeof packet, u, COUNT(u),
                         &count) == ETHERPEEL_DONE &&
          count == 2);
    CHECK(has_place(&u[0], ETHERPEEL_UNIT_LINUX_SLL, 0, 16, 44, 0) && others_are_zero(&u[0]));
    CHECK(u[0].linux_sll.packet_type == 4 && u[0].linux_sll.hardware_type == 1 &&
          u[0].linux_sll.address_len == 6);
    CHECK(memcmp(u[0].linux_sll.address, COOKED + 6, 8) == 0 && u[0].linux_sll.protocol == 0x0806);
    CHECK(has_place(&u[1], ETHERPEEL_UNIT_ARP, 16, 28, 44, 0) && u[1].arp.sender_hardware == 24);
}

static void walk_with_less_room(void) {
    etherpeel_unit u[2];
    size_t count = 99;
    memset(u, 0xA5, sizeof u);
    CHECK(etherpeel_walk(ETHERPEEL_START_ETHERNET2, 0, TAGGED, sizeof TAGGED, u, 1, &count) ==
              ETHERPEEL_DONE &&
          count == 2);
    CHECK(u[0].kind == ETHERPEEL_UNIT_ETHERNET2 && all_are(&u[1], sizeof u[1], 0xA5));
    CHECK(etherpeel_walk(ETHERPEEL_START_ETHERNET2, 0, TAGGED, sizeof TAGGED, NULL, 0, &count) ==
              ETHERPEEL_DONE &&
          count == 2);
    CHECK(etherpeel_walk(ETHERPEEL_START_ETHERNET2, 0, TAGGED, 16, u, COUNT(u), &count) ==
              ETHERPEEL_DONE &&
          count == 1);
    CHECK(etherpeel_walk_limited(ETHERPEEL_START_ETHERNET2, 0, TAGGED, sizeof TAGGED, 0, u,
                                 COUNT(u), &count) == ETHERPEEL_DONE &&
          count == 1);
    CHECK(etherpeel_walk_limited(ETHERPEEL_START_ETHERNET2, 0, TAGGED, sizeof TAGGED, 1, u,
                                 COUNT(u), &count) == ETHERPEEL_DONE &&
          count == 2);
}

/* ---- writing back, feeding, completing ---- */

static void writing_back(void) {
    static const uint8_t expected[] = {0x00, 0x06, 0,    0,    0,    1,   0x81,
                                       0x00, 0xAA, 0xBB, 0xCC, 0xDD, 0xA5};
    uint8_t target[13];
    size_t len = 99;
    memset(target, 0xA5, sizeof target);
    CHECK(etherpeel_write_back(ETHERPEEL_START_ETHER_TYPE, 0x88E5, NAMED, sizeof NAMED, target,
                               sizeof target, &len) == ETHERPEEL_DONE);
    CHECK(len == 12 && memcmp(target, expected, sizeof target) == 0);
    memset(target, 0xA5, sizeof target);
    CHECK(etherpeel_write_back(ETHERPEEL_START_ETHER_TYPE, 0x88E5, NAMED, sizeof NAMED, target, 11,
                               &len) == ETHERPEEL_NO_ROOM);
    CHECK(len == 12 && all_are(target, sizeof target, 0xA5));
    CHECK(etherpeel_write_back(ETHERPEEL_START_ETHERNET2, 0, TAGGED, sizeof TAGGED, NULL, 0,
                               &len) == ETHERPEEL_NO_ROOM &&
          len == 19);
    CHECK(etherpeel_write_back(ETHERPEEL_START_ETHERNET2, 0, NULL, 0, NULL, 0, &len) ==
              ETHERPEEL_DONE &&
          len == 0);
    CHECK(etherpeel_write_back_limited(ETHERPEEL_START_ETHER_TYPE, 0x88E5, NAMED, 12, 0, target,
                                       sizeof target, &len) == ETHERPEEL_DONE);
    CHECK(len == 12 && memcmp(target, NAMED, 12) == 0 && target[12] == 0xA5);
}

static void feeding(void) {
    etherpeel_fed f;
    memset(&f, 0xA5, sizeof f);
    CHECK(etherpeel_feed(ETHERPEEL_START_ETHERNET2, 0, TAGGED, sizeof TAGGED, &f) ==
          ETHERPEEL_DONE);
    CHECK(f.refusals == 2 && f.taken == 18 && is_none(&f.fault));
    CHECK(etherpeel_feed(ETHERPEEL_START_ETHERNET2, 0, TAGGED, 16, &f) == ETHERPEEL_DONE);
    CHECK(f.refusals == 1 && f.taken == 14 &&
          is_length(&f.fault, 14, 4, 0, 4, ETHERPEEL_LAYER_VLAN_HEADER, ETHERPEEL_LEN_SLICE, 0));
    CHECK(etherpeel_feed(ETHERPEEL_START_ETHERNET2_FCS, 0, CHECKED, sizeof CHECKED, &f) ==
          ETHERPEEL_DONE);
    CHECK(
        f.refusals == 0 && f.taken == 0 &&
        is_length(&f.fault, 0, 18, 0, 0, ETHERPEEL_LAYER_ETHERNET2_HEADER, ETHERPEEL_LEN_SLICE, 1));
    CHECK(etherpeel_feed_limited(ETHERPEEL_START_ETHERNET2, 0, TAGGED, sizeof TAGGED, 0, &f) ==
              ETHERPEEL_DONE &&
          f.refusals == 1 && f.taken == 14);
}

static void completing(void) {
    static const uint8_t vlan_type[] = {ADDRESSES, 0x81};
    uint8_t fill[8];
    size_t len = 99;
    memset(fill, 0xA5, sizeof fill);
    CHECK(etherpeel_completion(ETHERPEEL_START_ETHERNET2, 0, TAGGED, 16, fill, sizeof fill, &len) ==
          ETHERPEEL_DONE);
    CHECK(len == 2 && fill[0] == 0 && fill[1] == 0 && all_are(fill + 2, 6, 0xA5));
    CHECK(etherpeel_completion(ETHERPEEL_START_ETHERNET2, 0, vlan_type, sizeof vlan_type, fill,
                               sizeof fill, &len) == ETHERPEEL_DONE);
    CHECK(len == 1 && fill[0] == 1);
    memset(fill, 0xA5, sizeof fill);
    CHECK(etherpeel_completion(ETHERPEEL_START_ETHERNET2, 0, TAGGED, 16, fill, 1, &len) ==
              ETHERPEEL_NO_ROOM &&
          len == 2 && all_are(fill, 8, 0xA5));
    CHECK(etherpeel_completion(ETHERPEEL_START_ETHERNET2, 0, TAGGED, sizeof TAGGED, fill,
                               sizeof fill, &len) == ETHERPEEL_DONE &&
          len == 0);
    CHECK(etherpeel_completion(ETHERPEEL_START_ETHERNET2_FCS, 0, CHECKED, 17, fill, sizeof fill,
                               &len) == ETHERPEEL_DONE &&
          len == 0);
    CHECK(all_are(fill, 8, 0xA5));
    CHECK(etherpeel_completion(ETHERPEEL_START_ETHERNET2, 0, NULL, 0, NULL, 0, &len) ==
              ETHERPEEL_NO_ROOM &&
          len == 14);
    CHECK(etherpeel_completion_limited(ETHERPEEL_START_ETHERNET2, 0, TAGGED, 16, 0, fill,
                                       sizeof fill, &len) == ETHERPEEL_DONE &&
          len == 0);
}

static void missing_bytes(void) {
    size_t missing = 99;
    CHECK(etherpeel_missing(ETHERPEEL_START_ETHERNET2, 0, TAGGED, 16, &missing) == ETHERPEEL_DONE &&
          missing == 2);
    CHECK(etherpeel_missing(ETHERPEEL_START_ETHERNET2, 0, TAGGED, sizeof TAGGED, &missing) ==
              ETHERPEEL_DONE &&
          missing == 0);
    missing = 99;
    CHECK(etherpeel_missing(ETHERPEEL_START_ETHERNET2_FCS, 0, CHECKED, 17, &missing) ==
              ETHERPEEL_DONE &&
          missing == 0);
    CHECK(etherpeel_missing(ETHERPEEL_START_ETHERNET2, 0, NULL, 0, &missing) == ETHERPEEL_DONE &&
          missing == 14);
    CHECK(etherpeel_missing_limited(ETHERPEEL_START_ETHERNET2, 0, TAGGED, 16, 0, &missing) ==
              ETHERPEEL_DONE &&
          missing == 0);
}

static void texts(void) {
    static const char expected[] =
        "at offset 14: VLAN Header Error: Not enough data to decode 'VLAN header'. 4 byte(s) would "
        "be required, but only "
        "2 byte(s) are available based on the slice length ('VLAN header' starts at overall parsed "
        "byte 14).";
    char text[512];
    size_t len = 99;
    memset(text, 0x25, sizeof text);
    CHECK(etherpeel_fault_text(ETHERPEEL_START_ETHERNET2, 0, TAGGED, 16, text, sizeof text, &len) ==
          ETHERPEEL_DONE);
    CHECK(len == sizeof expected - 1 && memcmp(text, expected, len) == 0 && text[len] == 0x25);
    memset(text, 0x25, sizeof text);
    CHECK(etherpeel_fault_text(ETHERPEEL_START_ETHERNET2, 0, TAGGED, 16, text, sizeof expected - 2,
                               &len) == ETHERPEEL_NO_ROOM);
    CHECK(len == sizeof expected - 1 && all_are(text, sizeof text, 0x25));
    CHECK(etherpeel_fault_text(ETHERPEEL_START_ETHERNET2, 0, TAGGED, 16, NULL, 0, &len) ==
              ETHERPEEL_NO_ROOM &&
          len == sizeof expected - 1);
    CHECK(etherpeel_fault_text(ETHERPEEL_START_ETHERNET2, 0, TAGGED, sizeof TAGGED, text,
                               sizeof text, &len) == ETHERPEEL_DONE &&
          len == 0);
    len = 99;
    CHECK(etherpeel_fault_text_limited(ETHERPEEL_START_ETHERNET2, 0, TAGGED, 16, 0, text,
                                       sizeof text, &len) == ETHERPEEL_DONE &&
          len == 0);
    CHECK(all_are(text, sizeof text, 0x25));
}

/* ---- packets ---- */

static void packets(void) {
    /* four VLAN tags: the last is not read */
    static const uint8_t many[] = {ADDRESSES, 0x88, 0xA8, 0x00, 0x0A, 0x81, 0x00, 0x20, 0x14, 0x81,
                                   0x00,      0x00, 0x1E, 0x81, 0x00, 0x00, 0x28, 0x08, 0x00};
    etherpeel_headers h;
    memset(&h, 0xA5, sizeof h);
    CHECK(etherpeel_packet(ETHERPEEL_START_ETHERNET2, 0, many, sizeof many, &h) == ETHERPEEL_DONE);
    CHECK(h.found.units == 4 && h.found.rest_start == 26 && h.found.rest_end == 30 &&
          h.found.rest_protocol == 0x8100 && is_none(&h.found.fault));
    CHECK(h.vlan_count == 3 && h.vlan_ids[0] == 10 && h.vlan_ids[1] == 20 && h.vlan_ids[2] == 30);
    CHECK(has_place(&h.units[2], ETHERPEEL_UNIT_VLAN, 18, 4, 30, 0) && h.units[2].vlan.pcp == 1);
    CHECK(h.min_snap_len == 26 && all_are(&h.units[4], sizeof h.units[4], 0xA5));
    CHECK(etherpeel_packet(ETHERPEEL_START_ETHERNET2, 0, ARP, sizeof ARP, &h) == ETHERPEEL_DONE);
    CHECK(h.found.units == 2 && h.units[1].kind == ETHERPEEL_UNIT_ARP && h.vlan_count == 0 &&
          h.vlan_ids[0] == 0 && h.vlan_ids[2] == 0 && h.min_snap_len == 42);
    /* the payload that a SecTag names counts */
    CHECK(etherpeel_packet(ETHERPEEL_START_ETHER_TYPE, 0x88E5, NAMED, sizeof NAMED, &h) ==
          ETHERPEEL_DONE);
    CHECK(h.found.units == 2 && h.vlan_count == 1 && h.vlan_ids[0] == 0xABB && h.vlan_ids[1] == 0 &&
          h.min_snap_len == 12);
    CHECK(etherpeel_packet(ETHERPEEL_START_ETHERNET2, 0, TAGGED, 16, &h) == ETHERPEEL_DONE);
    CHECK(h.found.units == 1 && h.found.fault.missing == 2 && h.min_snap_len == 14);
    memset(&h, 0xA5, sizeof h);
    CHECK(etherpeel_packet(5, 0, TAGGED, sizeof TAGGED, &h) == ETHERPEEL_UNKNOWN_START);
    CHECK(all_are(&h, sizeof h, 0xA5));
}

/* ---- capture files ---- */

/* a classic file, most significant byte first, with two packets of one and no byte; the second was
 * cut */
static const uint8_t CLASSIC[] = {0xA1, 0xB2, 0xC3, 0xD4, 0, 2, 0, 4, 0,    0, 0, 0, 0, 0, 0, 0,
                                  0,    0,    0xFF, 0xFF, 0, 0, 0, 1, 0,    0, 0, 1, 0, 0, 0, 2,
                                  0,    0,    0,    1,    0, 0, 0, 1, 0xFF, /* 1.000002 s */
                                  0,    0,    0,    3,    0, 0, 0, 4, 0,    0, 0, 0, 0, 0, 0, 9};
/* a pcapng file, least significant byte first: a section header, an interface of link type 113, an
 * enhanced packet at 2^32 + 5 microseconds, a simple packet */
static const uint8_t BLOCKS[] = {
    0x0A, 0x0D, 0x0D, 0x0A, 28,   0,    0,    0,    0x4D, 0x3C, 0x2B, 0x1A, 1, 0, 0,  0, 0xFF, 0xFF,
    0xFF, 0xFF, 0xFF, 0xFF, 0xFF, 0xFF, 28,   0,    0,    0,    1,    0,    0, 0, 20, 0, 0,    0,
    113,  0,    0,    0,    0,    0,    0,    0,    20,   0,    0,    0,    6, 0, 0,  0, 36,   0,
    0,    0,    0,    0,    0,    0,    1,    0,    0,    0,    5,    0,    0, 0, 1,  0, 0,    0,
    7,    0,    0,    0,    0xAB, 0,    0,    0,    36,   0,    0,    0,    3, 0, 0,  0, 20,   0,
    0,    0,    2,    0,    0,    0,    0xCD, 0xEF, 0,    0,    20,   0,    0, 0};

static int is_captured(const etherpeel_captured *p, const uint8_t *packet, size_t len,
                       uint64_t seconds, uint32_t nanoseconds, uint32_t original, unsigned link,
                       int has_time) {
    return p->packet_len == len && (len == 0 || p->packet == packet) && p->seconds == seconds &&
           p->nanoseconds == nanoseconds && p->original_len == original && p->link_type == link &&
           p->has_time == has_time && p->has_fcs_len == 0 && p->fcs_len == 0;
}

static void captures(void) {
    etherpeel_captured p[3];
    etherpeel_capture_end end;
    size_t count = 99;
    CHECK(sizeof(etherpeel_captured) == 40 && offsetof(etherpeel_captured, seconds) == 16 &&
          offsetof(etherpeel_captured, link_type) == 32 &&
          offsetof(etherpeel_captured, fcs_len) == 36 && sizeof(etherpeel_capture_end) == 16);
    memset(p, 0, sizeof p);
    CHECK(etherpeel_capture(CLASSIC, sizeof CLASSIC, p, 3, &count, &end) == ETHERPEEL_DONE);
    CHECK(count == 2 && end.offset == sizeof CLASSIC && end.needed == 0);
    CHECK(is_captured(&p[0], CLASSIC + 40, 1, 1, 2000, 1, 1, 1) &&
          is_captured(&p[1], NULL, 0, 3, 4000, 9, 1, 1) && all_are(&p[2], sizeof p[2], 0));
    CHECK(etherpeel_capture(BLOCKS, sizeof BLOCKS, p, 3, &count, &end) == ETHERPEEL_DONE);
    CHECK(count == 2 && end.offset == sizeof BLOCKS && end.needed == 0);
    CHECK(is_captured(&p[0], BLOCKS + 76, 1, 4294, 967301000, 7, 113, 1) &&
          is_captured(&p[1], BLOCKS + 96, 2, 0, 0, 2, 113, 0));
    /* as many as there is room for */
    memset(p, 0, sizeof p);
    CHECK(etherpeel_capture(CLASSIC, sizeof CLASSIC, p, 1, &count, &end) == ETHERPEEL_DONE);
    CHECK(count == 2 && p[0].packet == CLASSIC + 40 && all_are(&p[1], sizeof p[1], 0));
    CHECK(etherpeel_capture(BLOCKS, sizeof BLOCKS, NULL, 0, &count, &end) == ETHERPEEL_DONE &&
          count == 2);
}

static void captures_that_end_early(void) {
    static const char expected[] = "At byte 41: ";
    static const uint8_t other[24] = {0x12, 0x34, 0x56, 0x78};
    char text[512];
    etherpeel_capture_end end;
    size_t count, len = 99;
    const guarded page = guarded_page();
    for (size_t n = 0; n < sizeof CLASSIC; n++) {
        /* a cut is refused but after a header or a record; what it needs is beyond its end */
        const int whole = n == 24 || n == 41;
        const uint8_t *cut = copied(page, CLASSIC, n);
        const uint32_t status = etherpeel_capture(cut, n, NULL, 0, &count, &end);
        CHECK(status == (whole ? ETHERPEEL_DONE : ETHERPEEL_SHORT) && count == (n >= 41));
        CHECK(whole ? end.needed == 0 && end.offset == n : end.offset + end.needed > n);
        CHECK(etherpeel_capture_fault_text(cut, n, text, sizeof text, &len) == ETHERPEEL_DONE);
        CHECK((len == 0) == whole && len < sizeof text);
    }
    release(page);
    CHECK(end.offset == 41 && end.needed == 16 && memcmp(text, expected, 12) == 0);
    CHECK(etherpeel_capture_fault_text(CLASSIC, 50, text, 5, &len) == ETHERPEEL_NO_ROOM && len > 5);
    CHECK(etherpeel_capture(NULL, 0, NULL, 0, &count, &end) == ETHERPEEL_SHORT && count == 0);
    CHECK(etherpeel_capture(other, sizeof other, NULL, 0, &count, &end) == ETHERPEEL_BAD_CAPTURE);
    CHECK(count == 0 && end.offset == 0 && end.needed == 0);
}

/* ---- packets on one line ---- */

/* a packet of Ethernet, captured on 2023-11-14 at 22:13:20 UTC */
static etherpeel_captured packet_of(const uint8_t *bytes, size_t len, uint32_t original) {
    etherpeel_captured p;
    memset(&p, 0, sizeof p);
    p.packet = bytes;
    p.packet_len = len;
    p.original_len = original;
    p.link_type = 1;
    p.has_time = 1;
    p.seconds = 1700000000;
    p.nanoseconds = 1000;
    return p;
}

/* whether the seventh packet has this line, into exactly as much room as that needs and no less */
static int has_line(const char *format, const etherpeel_captured *p, const char *line) {
    const size_t len = strlen(line);
    const guarded page = guarded_page();
    char *text = (char *)last(page, len);
    size_t needed = 0, written = 0;
    memset(text, '?', len);
    int is_right = etherpeel_format(format, strlen(format), 7, p, text, len - 1, &needed) ==
                       ETHERPEEL_NO_ROOM &&
                   needed == len && all_are(text, len, '?');
    is_right &= etherpeel_format(format, strlen(format), 7, p, text, len, &written) ==
                    ETHERPEEL_DONE &&
                written == len && memcmp(text, line, len) == 0;
    release(page);
    return is_right;
}

static void packets_on_one_line(void) {
    const etherpeel_captured p = packet_of(TAGGED, sizeof TAGGED, 64);
    CHECK(has_line("json", &p,
                   "{\"number\":7,\"time\":\"2023-11-14T22:13:20.000001000Z\",\"link\":1,"
                   "\"captured\":19,\"original\":64,\"interface\":null,\"direction\":null,"
                   "\"comment\":null,\"file\":null,\"headers\":[{"
                   "\"header\":\"eth\",\"start\":0,"
                   "\"end\":14,\"payload_end\":19,\"closed\":false,\"dst\":\"ff:ff:ff:ff:ff:ff\","
                   "\"src\":\"02:00:00:00:00:01\",\"type\":33024,\"fcs\":null},{\"header\":\"vlan\","
                   "\"start\":14,\"end\":18,\"payload_end\":19,\"closed\":false,\"pcp\":5,\"dei\":1,"
                   "\"vid\":291,\"type\":2048}],\"rest\":{\"start\":18,\"end\":19,"
                   "\"kind\":\"ether_type\",\"type\":2048}}\n"));
    CHECK(has_line("brief", &p,
                   "7 2023-11-14T22:13:20.000001Z 02:00:00:00:00:01 > ff:ff:ff:ff:ff:ff vlan 291 "
                   "pcp 5 dei IPv4 1 bytes (19 of 64 bytes)\n"));
    CHECK(has_line("frame.number,vlan.vid,arp.op,rest.type", &p, "7\t291\t\t0x0800\n"));
}

static void lines_that_are_not_written(void) {
    static const char *const wrong[] = {"", "jso", "JSON", "vlan", "vlan.", "vlan.vid,", "vlan.tag"};
    static const char expected[] = "eth\t0x8100\n";
    static const char columns[] = "headers.header,rest.type";
    static uint8_t many[12 + 4 * 1000] = {ADDRESSES};
    const etherpeel_captured p = packet_of(TAGGED, sizeof TAGGED, 64);
    const etherpeel_captured longest = packet_of(many, sizeof many, sizeof many);
    char text[64];
    size_t len;
    memset(text, '?', sizeof text);
    for (size_t i = 0; i < COUNT(wrong); i++) {
        len = 99;
        CHECK(etherpeel_format(wrong[i], strlen(wrong[i]), 1, &p, text, sizeof text, &len) ==
              ETHERPEEL_BAD_FORMAT);
        CHECK(len == 0 && all_are(text, sizeof text, '?'));
    }
    /* a line with a thousand headers is longer than 65,536 bytes */
    for (size_t i = 12; i < sizeof many; i += 4) memcpy(many + i, "\x81\x00\x00\x05", 4);
    CHECK(etherpeel_format("json", 4, 1, &longest, text, sizeof text, &len) == ETHERPEEL_NO_TEXT);
    CHECK(len == 0 && all_are(text, sizeof text, '?'));
    CHECK(etherpeel_format_limited(columns, strlen(columns), 1, &p, 0, text, sizeof text, &len) ==
          ETHERPEEL_DONE);
    CHECK(len == strlen(expected) && memcmp(text, expected, len) == 0);
}

/* ---- packets that a filter selects ---- */

/* a cooked capture v1 of the loopback device, hardware type 772, with a VLAN tag */
static const uint8_t COOKED_LOOPBACK[] = {0, 0, 0x03, 0x04, 0,    6,    0,    0,    0,    0,   0,
                                          0, 0, 0,    0x81, 0x00, 0xB1, 0x23, 0x08, 0x00, 0x45};
/* a cooked capture v2 with the VLAN tag of TAGGED, and one of a GRE tunnel */
static const uint8_t COOKED_V2[] = {0x81, 0x00, 0, 0, 0, 0, 0, 3,    0,    1,    4,    6,   2,
                                    0,    0,    0, 0, 1, 0, 0, 0xB1, 0x23, 0x08, 0x00, 0x45};
static const uint8_t COOKED_V2_GRE[20] = {0x08, 0x00, 0, 0, 0, 0, 0, 1, 0x03, 0x0A};

static etherpeel_captured captured_of(const uint8_t *packet, size_t len, uint16_t link_type) {
    etherpeel_captured p;
    memset(&p, 0, sizeof p);
    p.packet = packet, p.packet_len = len, p.link_type = link_type;
    p.original_len = (uint32_t)len;
    return p;
}

/* whether this is walked of a packet */
static int is_frame(etherpeel_captured p, size_t offset, size_t len, uint32_t start,
                    uint16_t ether_type) {
    etherpeel_frame f;
    memset(&f, 0, sizeof f);
    return etherpeel_captured_frame(&p, &f) == ETHERPEEL_DONE && f.bytes == p.packet + offset &&
           f.len == len && f.offset == offset && f.start == start && f.ether_type == ether_type;
}

static void captured_frames(void) {
    etherpeel_captured p = captured_of(CHECKED, sizeof CHECKED, 1);
    etherpeel_frame f;
    memset(&f, 0, sizeof f);
    f.start = 99;
    CHECK(is_frame(p, 0, sizeof CHECKED, ETHERPEEL_START_ETHERNET2, 0));
    p.fcs_len = 4;
    CHECK(is_frame(p, 0, sizeof CHECKED, ETHERPEEL_START_ETHERNET2, 0));
    p.has_fcs_len = 1;
    CHECK(is_frame(p, 0, sizeof CHECKED, ETHERPEEL_START_ETHERNET2_FCS, 0));
    /* two of its four bytes were cut off */
    p.original_len += 2;
    CHECK(is_frame(p, 0, sizeof CHECKED - 2, ETHERPEEL_START_ETHERNET2, 0));
    p.original_len -= 2, p.fcs_len = 2;
    CHECK(is_frame(p, 0, sizeof CHECKED - 2, ETHERPEEL_START_ETHERNET2, 0));
    p.link_type = 113;
    CHECK(is_frame(p, 0, sizeof CHECKED - 2, ETHERPEEL_START_LINUX_SLL, 0));
    p = captured_of(COOKED_LOOPBACK, sizeof COOKED_LOOPBACK, 113);
    CHECK(is_frame(p, 16, 5, ETHERPEEL_START_ETHER_TYPE, 0x8100));
    p.packet_len = 15;
    CHECK(is_frame(p, 0, 15, ETHERPEEL_START_LINUX_SLL, 0));
    p = captured_of(COOKED_V2, sizeof COOKED_V2, 276);
    CHECK(is_frame(p, 20, 5, ETHERPEEL_START_ETHER_TYPE, 0x8100));
    p.packet_len = 19;
    CHECK(etherpeel_captured_frame(&p, &f) == ETHERPEEL_UNKNOWN_START);
    p = captured_of(COOKED_V2_GRE, sizeof COOKED_V2_GRE, 276);
    CHECK(etherpeel_captured_frame(&p, &f) == ETHERPEEL_UNKNOWN_START);
    p = captured_of(TAGGED, sizeof TAGGED, 105);
    CHECK(etherpeel_captured_frame(&p, &f) == ETHERPEEL_UNKNOWN_START);
    CHECK(f.start == 99 && f.bytes == NULL && f.len == 0 && f.offset == 0 && f.ether_type == 0);
}

/* whether an expression selects just these of five packets */
static int selects(const char *expression, const char *marks) {
    const etherpeel_captured p[5] = {
        captured_of(TAGGED, sizeof TAGGED, 1), captured_of(ARP, sizeof ARP, 1),
        captured_of(COOKED_V2, sizeof COOKED_V2, 276),
        captured_of(COOKED_V2_GRE, sizeof COOKED_V2_GRE, 276), captured_of(TAGGED, 4, 105)};
    etherpeel_filter_error error;
    uint8_t matches[6];
    memset(matches, 0xA5, sizeof matches), memset(&error, 0xA5, sizeof error);
    if (etherpeel_select(expression, strlen(expression), p, 5, matches, 6, &error)) return 0;
    for (size_t i = 0; i < 5; i++)
        if (matches[i] != marks[i] - '0') return 0;
    return matches[5] == 0xA5 && all_are(&error, sizeof error, 0xA5);
}

/* whether a filter that is read once selects just these of the same packets, one by one and in one
 * call, and is decided on them, since none was cut */
static int selects_again(const char *expression, const char *marks) {
    const etherpeel_captured p[5] = {
        captured_of(TAGGED, sizeof TAGGED, 1), captured_of(ARP, sizeof ARP, 1),
        captured_of(COOKED_V2, sizeof COOKED_V2, 276),
        captured_of(COOKED_V2_GRE, sizeof COOKED_V2_GRE, 276), captured_of(TAGGED, 4, 105)};
    etherpeel_filter read, filter;
    etherpeel_filter_error error;
    uint8_t matches[6];
    memset(matches, 0xA5, sizeof matches), memset(&error, 0xA5, sizeof error);
    memset(&read, 0xA5, sizeof read);
    if (etherpeel_filter_parse(expression, strlen(expression), &read, &error)) return 0;
    memcpy(&filter, &read, sizeof filter), memset(&read, 0xA5, sizeof read);
    if (etherpeel_filter_select(&filter, p, 5, matches, 6) != ETHERPEEL_DONE) return 0;
    for (size_t i = 0; i < 5; i++)
        if (matches[i] != marks[i] - '0' ||
            etherpeel_filter_matches(&filter, &p[i]) != (uint32_t)(marks[i] - '0') ||
            etherpeel_filter_decide(&filter, &p[i]) != (uint32_t)(marks[i] - '0'))
            return 0;
    return matches[5] == 0xA5 && all_are(&error, sizeof error, 0xA5);
}

/* what is decided of the tagged frame of 60 bytes if only its first ones were captured */
static uint32_t decided(const char *expression, size_t captured_len) {
    etherpeel_captured p = captured_of(TAGGED, captured_len, 1);
    etherpeel_filter filter;
    etherpeel_filter_error error;
    p.original_len = 60;
    if (etherpeel_filter_parse(expression, strlen(expression), &filter, &error)) return 99;
    return etherpeel_filter_decide(&filter, &p);
}

/* filters that are read once */
static void filtering(void) {
    etherpeel_captured p = captured_of(TAGGED, sizeof TAGGED, 1);
    etherpeel_filter filter;
    etherpeel_filter_error error = {99, 99, 99};
    uint8_t matches[1] = {9};
    CHECK(selects_again("vlan 291", "10100") && selects_again("not vlan", "01000"));
    CHECK(selects_again("vlan 291 and (ip or cut)", "10100") && selects_again("arp", "01000"));
    CHECK(selects_again("not refused", "11100") && selects_again("greater 20", "01100"));
    CHECK(selects_again("vlan.vid == 0x123", "10100") && selects_again("vlan.pcp < 5", "00000"));
    CHECK(selects_again("vlan.vid & 0xf00 == 256 or arp.op in {1, 2}", "11100"));
    CHECK(selects_again("headers.header == vlan", "10100") && selects_again("fault", "00000"));
    CHECK(selects_again("frame.original >= 20", "01100") && selects_again("frame.time", "00000"));
    memset(&filter, 0xA5, sizeof filter);
    CHECK(etherpeel_filter_parse("vlan 4096", 9, &filter, &error) == ETHERPEEL_BAD_FILTER);
    CHECK(error.offset == 5 && error.kind == ETHERPEEL_FILTER_NUMBER && error.greatest == 4095);
    CHECK(etherpeel_filter_parse("eth.src == 1:2", 14, &filter, &error) == ETHERPEEL_BAD_FILTER);
    CHECK(error.offset == 11 && error.kind == ETHERPEEL_FILTER_BYTES && error.greatest == 6);
    CHECK(etherpeel_filter_parse("frame.time == 5", 15, &filter, &error) == ETHERPEEL_BAD_FILTER);
    CHECK(error.offset == 14 && error.kind == ETHERPEEL_FILTER_TIME && error.greatest == 0);
    CHECK(all_are(&filter, sizeof filter, 0xA5));
    CHECK(etherpeel_filter_parse("vlan", 4, &filter, &error) == ETHERPEEL_DONE);
    CHECK(etherpeel_filter_select(&filter, &p, 1, matches, 0) == ETHERPEEL_NO_ROOM);
    CHECK(etherpeel_filter_select(&filter, NULL, 0, NULL, 0) == ETHERPEEL_DONE && matches[0] == 9);
    /* the tag control information is the bytes 14 and 15 */
    CHECK(decided("vlan 291", 15) == ETHERPEEL_UNDECIDED);
    CHECK(decided("vlan 291", 18) == ETHERPEEL_MATCHES);
    CHECK(decided("vlan 290", 18) == ETHERPEEL_FAILS);
    CHECK(decided("not vlan", 15) == ETHERPEEL_FAILS);
    CHECK(decided("not vlan", 13) == ETHERPEEL_UNDECIDED);
    CHECK(decided("vlan 291 and greater 61", 15) == ETHERPEEL_FAILS);
    CHECK(decided("vlan 291 or less 60", 15) == ETHERPEEL_MATCHES);
    /* memory that holds no filter: any result, but one */
    for (unsigned byte = 0; byte < 256; byte++) {
        memset(&filter, (int)byte, sizeof filter);
        CHECK(etherpeel_filter_matches(&filter, &p) <= 1);
        CHECK(etherpeel_filter_decide(&filter, &p) <= 2);
    }
}

/* whether this is decided of the first bytes of a frame of 60 bytes, and so many bytes decide it */
static int decides(const char *expression, const uint8_t *frame, size_t len, uint32_t wanted,
                   size_t wanted_len) {
    const guarded page = guarded_page();
    etherpeel_captured p = captured_of(frame, len, 1);
    etherpeel_filter filter;
    etherpeel_filter_error error;
    uint32_t decision = 99;
    size_t needed = 99;
    p.original_len = 60;
    if (etherpeel_filter_parse(expression, strlen(expression), &filter, &error)) return 0;
    const uint32_t status =
        etherpeel_filter_frame(&filter, ETHERPEEL_START_ETHERNET2, 0, copied(page, frame, len), len,
                               60, &decision, &needed);
    release(page);
    return status == ETHERPEEL_DONE && decision == wanted && needed == wanted_len &&
           decision == etherpeel_filter_decide(&filter, &p);
}

/* filters of frames that were cut, and of frames from each start */
static void deciding_frames(void) {
    const uint8_t *t = TAGGED;
    /* IEEE 802.1Q, 9.3: the ether type of the tag is the bytes 12 and 13, its control information
     * is the bytes 14 and 15, and the next ether type ends at 18 */
    CHECK(decides("vlan", t, 14, ETHERPEEL_MATCHES, 0));
    CHECK(decides("vlan", t, 15, ETHERPEEL_MATCHES, 0));
    CHECK(decides("vlan", t, 13, ETHERPEEL_UNDECIDED, 14));
    CHECK(decides("vlan 5", t, 14, ETHERPEEL_UNDECIDED, 16));
    /* this tag has another identifier, but a second tag may follow */
    CHECK(decides("vlan 5", t, 15, ETHERPEEL_UNDECIDED, 17));
    CHECK(decides("vlan 5", t, 18, ETHERPEEL_FAILS, 0));
    CHECK(decides("outer vlan 5", t, 15, ETHERPEEL_FAILS, 0));
    CHECK(decides("vlan 291", t, 15, ETHERPEEL_UNDECIDED, 16));
    CHECK(decides("vlan 291", t, 16, ETHERPEEL_MATCHES, 0));
    CHECK(decides("vlan 291 and less 59", t, 14, ETHERPEEL_FAILS, 0));
    CHECK(decides("not vlan", t, 14, ETHERPEEL_FAILS, 0));
    /* a test of a field needs the whole header */
    CHECK(decides("vlan.pcp == 5", t, 16, ETHERPEEL_UNDECIDED, 18));
    CHECK(decides("vlan.pcp == 5", t, 18, ETHERPEEL_MATCHES, 0));
    CHECK(decides("ether dst ff:ff:ff:ff:ff:ff", t, 5, ETHERPEEL_UNDECIDED, 6));
    CHECK(decides("ether dst ff:ff:ff:ff:ff:ff", t, 6, ETHERPEEL_MATCHES, 0));
    CHECK(decides("ether dst ff:ff:ff:ff:ff:fe", t, 6, ETHERPEEL_FAILS, 0));
    /* RFC 826: 8 bytes precede the addresses, of 6 and 4 bytes, each of two stations */
    CHECK(decides("arp.op == 1", ARP, 14, ETHERPEEL_UNDECIDED, 22));
    CHECK(decides("arp.op == 1", ARP, 22, ETHERPEEL_UNDECIDED, 42));
    CHECK(decides("arp.op == 1", ARP, 42, ETHERPEEL_MATCHES, 0));
    CHECK(decides("frame.time", t, 0, ETHERPEEL_FAILS, 0));
}

/* frames that were not cut are decided, as etherpeel_filter_matches does; and calls without a frame
 */
static void deciding_whole_frames(void) {
    static const char *const expressions[] = {"vlan",    "vlan 291", "not vlan.vid == 5",
                                              "refused", "cut",      "ether src 02:00:00:00:00:01"};
    static const uint32_t starts[] = {0, 5, 257, 0xFFFFFFFFu};
    etherpeel_filter filter;
    etherpeel_filter_error error;
    uint32_t decision = 99;
    size_t needed = 99;
    for (size_t i = 0; i < COUNT(expressions); i++) {
        const char *x = expressions[i];
        CHECK(etherpeel_filter_parse(x, strlen(x), &filter, &error) == ETHERPEEL_DONE);
        for (size_t len = 0; len <= sizeof TAGGED; len++) {
            const etherpeel_captured p = captured_of(TAGGED, len, 1);
            decision = 99, needed = 99;
            CHECK(etherpeel_filter_frame(&filter, ETHERPEEL_START_ETHERNET2, 0, TAGGED, len,
                                         (uint32_t)len, &decision, &needed) == ETHERPEEL_DONE &&
                  decision == etherpeel_filter_matches(&filter, &p) && needed == 0);
        }
    }
    /* a frame that begins with the tag of the ether type 0x8100 */
    CHECK(etherpeel_filter_parse("vlan 291", 8, &filter, &error) == ETHERPEEL_DONE);
    CHECK(etherpeel_filter_frame(&filter, ETHERPEEL_START_ETHER_TYPE, 0x8100, NULL, 0, 60,
                                 &decision, &needed) == ETHERPEEL_DONE &&
          decision == ETHERPEEL_UNDECIDED && needed == 2);
    CHECK(etherpeel_filter_frame(&filter, ETHERPEEL_START_ETHER_TYPE, 0x8100, TAGGED + 14, 2, 60,
                                 &decision, &needed) == ETHERPEEL_DONE &&
          decision == ETHERPEEL_MATCHES && needed == 0);
    decision = 99, needed = 99;
    for (size_t i = 0; i < COUNT(starts); i++)
        CHECK(etherpeel_filter_frame(&filter, starts[i], 0x8100, TAGGED, sizeof TAGGED, 60,
                                     &decision, &needed) == ETHERPEEL_UNKNOWN_START);
    CHECK(decision == 99 && needed == 99);
    /* memory that holds no filter */
    for (unsigned byte = 0; byte < 256; byte++) {
        memset(&filter, (int)byte, sizeof filter);
        CHECK(etherpeel_filter_frame(&filter, ETHERPEEL_START_ETHERNET2, 0, TAGGED, 15, 60,
                                     &decision, &needed) == ETHERPEEL_DONE &&
              decision <= 2);
    }
}

static void selecting(void) {
    static const char expected[] = "At byte 5: expected a number up to 4095.";
    etherpeel_captured p = captured_of(CHECKED, sizeof CHECKED, 1);
    etherpeel_filter_error error = {99, 99, 99};
    uint8_t matches[2] = {9, 9};
    char text[512];
    size_t len = 99;
    CHECK(selects("vlan 291", "10100") && selects("not vlan", "01000") && selects("arp", "01000"));
    CHECK(selects("vlan 291 and (ip or cut)", "10100") && selects("refused", "00000"));
    CHECK(selects("not refused", "11100") && selects("greater 20", "01100"));
    CHECK(etherpeel_select("vlan 4096", 9, &p, 1, matches, 2, &error) == ETHERPEEL_BAD_FILTER);
    CHECK(error.offset == 5 && error.kind == ETHERPEEL_FILTER_NUMBER && error.greatest == 4095);
    CHECK(etherpeel_select("vlan and", 8, &p, 1, matches, 2, &error) == ETHERPEEL_BAD_FILTER);
    CHECK(error.offset == 8 && error.kind == ETHERPEEL_FILTER_OPERAND && error.greatest == 0);
    CHECK(etherpeel_select("vlan abc", 8, &p, 1, matches, 2, &error) == ETHERPEEL_BAD_FILTER);
    CHECK(error.offset == 5 && error.kind == ETHERPEEL_FILTER_VLAN_ID_OR_OPERATOR && error.greatest == 4095);
    CHECK(etherpeel_select("vlan", 4, &p, 1, matches, 0, &error) == ETHERPEEL_NO_ROOM);
    CHECK(etherpeel_select(NULL, 0, NULL, 0, NULL, 0, &error) == ETHERPEEL_BAD_FILTER);
    CHECK(matches[0] == 9 && matches[1] == 9 && error.offset == 0);
    /* a frame check sequence is no part of a frame that begins with an Ethernet II header alone */
    CHECK(etherpeel_select("refused", 7, &p, 1, matches, 1, &error) == ETHERPEEL_DONE);
    CHECK(matches[0] == 0 && matches[1] == 9);
    p.packet_len = p.original_len = 17, p.has_fcs_len = 1, p.fcs_len = 4;
    CHECK(etherpeel_select("refused", 7, &p, 1, matches, 1, &error) == ETHERPEEL_DONE);
    CHECK(matches[0] == 1);
    CHECK(etherpeel_filter_error_text("vlan 4096", 9, text, sizeof text, &len) == ETHERPEEL_DONE);
    CHECK(len == strlen(expected) && memcmp(text, expected, len) == 0);
    CHECK(etherpeel_filter_error_text("vlan 4096", 9, text, 5, &len) == ETHERPEEL_NO_ROOM);
    CHECK(len == strlen(expected) && memcmp(text, expected, len) == 0);
    CHECK(etherpeel_filter_error_text("vlan", 4, NULL, 0, &len) == ETHERPEEL_DONE && len == 0);
}

/* ---- fields ---- */

/* whether these are the fields of a frame, in order */
static int has_fields(uint32_t start, uint16_t ether_type, const uint8_t *bytes, size_t len,
                      const etherpeel_field *expected, size_t count) {
    etherpeel_field f[32];
    size_t found = 99;
    memset(f, 0xA5, sizeof f);
    if (etherpeel_fields(start, ether_type, bytes, len, f, 32, &found)) return 0;
    return are_fields(f, found, expected, count, 32);
}

static void fields(void) {
    static const etherpeel_field tagged[] = {
        {0, 48, 0xFFFFFFFFFFFF, 0, ETHERPEEL_FIELD_ETHERNET2_DESTINATION},
        {48, 48, 0x020000000001, 0, ETHERPEEL_FIELD_ETHERNET2_SOURCE},
        {96, 16, 0x8100, 0, ETHERPEEL_FIELD_ETHERNET2_ETHER_TYPE},
        {112, 3, 5, 1, ETHERPEEL_FIELD_VLAN_PCP},
        {115, 1, 1, 1, ETHERPEEL_FIELD_VLAN_DEI},
        {116, 12, 0x123, 1, ETHERPEEL_FIELD_VLAN_VID},
        {128, 16, 0x0800, 1, ETHERPEEL_FIELD_VLAN_ETHER_TYPE}};
    static const etherpeel_field checked[] = {
        {0, 48, 0xFFFFFFFFFFFF, 0, ETHERPEEL_FIELD_ETHERNET2_DESTINATION},
        {48, 48, 0x020000000001, 0, ETHERPEEL_FIELD_ETHERNET2_SOURCE},
        {96, 16, 0x0800, 0, ETHERPEEL_FIELD_ETHERNET2_ETHER_TYPE},
        {120, 32, 0x11223344, 0, ETHERPEEL_FIELD_FCS}};
    static const etherpeel_field named[] = {{0, 1, 0, 0, ETHERPEEL_FIELD_MACSEC_V},
                                            {1, 1, 0, 0, ETHERPEEL_FIELD_MACSEC_ES},
                                            {2, 1, 0, 0, ETHERPEEL_FIELD_MACSEC_SC},
                                            {3, 1, 0, 0, ETHERPEEL_FIELD_MACSEC_SCB},
                                            {4, 1, 0, 0, ETHERPEEL_FIELD_MACSEC_E},
                                            {5, 1, 0, 0, ETHERPEEL_FIELD_MACSEC_C},
                                            {6, 2, 0, 0, ETHERPEEL_FIELD_MACSEC_AN},
                                            {8, 2, 1, 0, ETHERPEEL_FIELD_MACSEC_RESERVED},
                                            {10, 6, 6, 0, ETHERPEEL_FIELD_MACSEC_SL},
                                            {16, 32, 1, 0, ETHERPEEL_FIELD_MACSEC_PN},
                                            {48, 16, 0x8100, 0, ETHERPEEL_FIELD_MACSEC_ETHER_TYPE},
                                            {64, 3, 5, 1, ETHERPEEL_FIELD_VLAN_PCP},
                                            {67, 1, 0, 1, ETHERPEEL_FIELD_VLAN_DEI},
                                            {68, 12, 0xABB, 1, ETHERPEEL_FIELD_VLAN_VID},
                                            {80, 16, 0xCCDD, 1, ETHERPEEL_FIELD_VLAN_ETHER_TYPE}};
    static const etherpeel_field sealed[] = {
        {0, 1, 0, 0, ETHERPEEL_FIELD_MACSEC_V},
        {1, 1, 1, 0, ETHERPEEL_FIELD_MACSEC_ES},
        {2, 1, 1, 0, ETHERPEEL_FIELD_MACSEC_SC},
        {3, 1, 0, 0, ETHERPEEL_FIELD_MACSEC_SCB},
        {4, 1, 1, 0, ETHERPEEL_FIELD_MACSEC_E},
        {5, 1, 1, 0, ETHERPEEL_FIELD_MACSEC_C},
        {6, 2, 2, 0, ETHERPEEL_FIELD_MACSEC_AN},
        {8, 2, 0, 0, ETHERPEEL_FIELD_MACSEC_RESERVED},
        {10, 6, 0, 0, ETHERPEEL_FIELD_MACSEC_SL},
        {16, 32, 0x01020304, 0, ETHERPEEL_FIELD_MACSEC_PN},
        {48, 64, 0x0011223344556677, 0, ETHERPEEL_FIELD_MACSEC_SCI}};
    CHECK(has_fields(ETHERPEEL_START_ETHERNET2, 0, TAGGED, sizeof TAGGED, tagged, 7));
    CHECK(has_fields(ETHERPEEL_START_ETHERNET2_FCS, 0, CHECKED, sizeof CHECKED, checked, 4));
    CHECK(has_fields(ETHERPEEL_START_ETHER_TYPE, 0x88E5, NAMED, sizeof NAMED, named, 15));
    CHECK(has_fields(ETHERPEEL_START_ETHER_TYPE, 0x88E5, SEALED, sizeof SEALED, sealed, 11));
    /* none of a unit that is refused */
    CHECK(has_fields(ETHERPEEL_START_ETHERNET2, 0, TAGGED, 17, tagged, 3));
    CHECK(has_fields(ETHERPEEL_START_ETHERNET2, 0, TAGGED, 13, tagged, 0));
}

static void fields_of_addresses(void) {
    static const etherpeel_field cooked[] = {
        {0, 16, 4, 0, ETHERPEEL_FIELD_LINUX_SLL_PACKET_TYPE},
        {16, 16, 1, 0, ETHERPEEL_FIELD_LINUX_SLL_HARDWARE_TYPE},
        {32, 16, 6, 0, ETHERPEEL_FIELD_LINUX_SLL_ADDRESS_LEN},
        {48, 64, 0x020000000001ABCD, 0, ETHERPEEL_FIELD_LINUX_SLL_ADDRESS},
        {112, 16, 0x0806, 0, ETHERPEEL_FIELD_LINUX_SLL_PROTOCOL},
        {128, 16, 1, 1, ETHERPEEL_FIELD_ARP_HARDWARE_TYPE},
        {144, 16, 0x0800, 1, ETHERPEEL_FIELD_ARP_PROTOCOL_TYPE},
        {160, 8, 6, 1, ETHERPEEL_FIELD_ARP_HARDWARE_SIZE},
        {168, 8, 4, 1, ETHERPEEL_FIELD_ARP_PROTOCOL_SIZE},
        {176, 16, 1, 1, ETHERPEEL_FIELD_ARP_OPERATION},
        {192, 48, 0x020000000001, 1, ETHERPEEL_FIELD_ARP_SENDER_HARDWARE},
        {240, 32, 0x0A000001, 1, ETHERPEEL_FIELD_ARP_SENDER_PROTOCOL},
        {272, 48, 0, 1, ETHERPEEL_FIELD_ARP_TARGET_HARDWARE},
        {320, 32, 0x0A000002, 1, ETHERPEEL_FIELD_ARP_TARGET_PROTOCOL}};
    /* hardware addresses of nine bytes, protocol addresses of none */
    static const uint8_t odd[] = {0x12, 0x34, 0x56, 0x78, 9, 0, 0, 2, 1, 2, 3, 4, 5,
                                  6,    7,    8,    9,    9, 8, 7, 6, 5, 4, 3, 2, 1};
    static const etherpeel_field long_and_empty[] = {
        {0, 16, 0x1234, 0, ETHERPEEL_FIELD_ARP_HARDWARE_TYPE},
        {16, 16, 0x5678, 0, ETHERPEEL_FIELD_ARP_PROTOCOL_TYPE},
        {32, 8, 9, 0, ETHERPEEL_FIELD_ARP_HARDWARE_SIZE},
        {40, 8, 0, 0, ETHERPEEL_FIELD_ARP_PROTOCOL_SIZE},
        {48, 16, 2, 0, ETHERPEEL_FIELD_ARP_OPERATION},
        {64, 72, 0, 0, ETHERPEEL_FIELD_ARP_SENDER_HARDWARE},
        {136, 0, 0, 0, ETHERPEEL_FIELD_ARP_SENDER_PROTOCOL},
        {136, 72, 0, 0, ETHERPEEL_FIELD_ARP_TARGET_HARDWARE},
        {208, 0, 0, 0, ETHERPEEL_FIELD_ARP_TARGET_PROTOCOL}};
    uint8_t frame[sizeof COOKED + 28];
    memcpy(frame, COOKED, sizeof COOKED), memcpy(frame + sizeof COOKED, ARP + 14, 28);
    CHECK(has_fields(ETHERPEEL_START_LINUX_SLL, 0, frame, sizeof frame, cooked, 14));
    CHECK(has_fields(ETHERPEEL_START_ETHER_TYPE, 0x0806, odd, sizeof odd, long_and_empty, 9));
}

static void fields_without_room(void) {
    etherpeel_field f[3];
    size_t count = 99;
    const guarded page = guarded_page();
    memset(f, 0xA5, sizeof f);
    CHECK(etherpeel_fields(0, 0, TAGGED, sizeof TAGGED, f, 3, &count) == ETHERPEEL_UNKNOWN_START);
    CHECK(count == 99 && all_are(f, sizeof f, 0xA5));
    CHECK(etherpeel_fields(1, 0, TAGGED, sizeof TAGGED, f, 2, &count) == ETHERPEEL_DONE);
    CHECK(count == 7 && f[1].name == ETHERPEEL_FIELD_ETHERNET2_SOURCE);
    CHECK(all_are(&f[2], sizeof f[2], 0xA5));
    CHECK(etherpeel_fields(1, 0, TAGGED, sizeof TAGGED, NULL, 0, &count) == ETHERPEEL_DONE);
    CHECK(count == 7);
    CHECK(etherpeel_fields(1, 0, NULL, 0, NULL, 0, &count) == ETHERPEEL_DONE && count == 0);
    /* memory ends with the frame */
    for (size_t n = 0; n <= sizeof ARP; n++) {
        const uint8_t *cut = copied(page, ARP, n);
        CHECK(etherpeel_fields(1, 0, cut, n, f, 3, &count) == ETHERPEEL_DONE);
        CHECK(count == (n < 14 ? 0u : n < 42 ? 3u : 12u));
    }
    release(page);
}

/* ---- cooked capture v2 ---- */

static void linux_sll2(void) {
    etherpeel_linux_sll2_header h;
    etherpeel_unit unit;
    size_t count;
    uint8_t other[20];
    memset(&h, 0xA5, sizeof h);
    CHECK(etherpeel_linux_sll2(COOKED_V2, sizeof COOKED_V2, &h) == ETHERPEEL_DONE);
    CHECK(h.payload_start == 20 && h.interface_index == 3 && h.protocol == 0x8100);
    CHECK(h.start == ETHERPEEL_START_ETHER_TYPE && h.ether_type == 0x8100);
    CHECK(h.hardware_type == 1 && h.packet_type == 4 && h.address_len == 6);
    CHECK(memcmp(h.address, COOKED_V2 + 12, 8) == 0);
    CHECK(etherpeel_walk(h.start, h.ether_type, COOKED_V2 + 20, 5, &unit, 1, &count) ==
          ETHERPEEL_DONE);
    CHECK(count == 1 && unit.vlan.vid == 0x123 && unit.vlan.ether_type == 0x0800);
    CHECK(etherpeel_linux_sll2(COOKED_V2_GRE, 20, &h) == ETHERPEEL_DONE);
    CHECK(h.payload_start == 20 && h.interface_index == 1 && h.protocol == 0x0800);
    CHECK(h.start == 0 && h.ether_type == 0 && h.hardware_type == 0x030A && h.packet_type == 0);
    /* refused */
    memset(&h, 0xA5, sizeof h);
    CHECK(etherpeel_linux_sll2(COOKED_V2, 19, &h) == ETHERPEEL_SHORT && all_are(&h, sizeof h, 0));
    CHECK(etherpeel_linux_sll2(NULL, 0, &h) == ETHERPEEL_SHORT);
    memcpy(other, COOKED_V2, 20), other[10] = 8;
    CHECK(etherpeel_linux_sll2(other, 20, &h) == ETHERPEEL_BAD_PACKET_TYPE && h.packet_type == 8);
    h.packet_type = 0;
    CHECK(all_are(&h, sizeof h, 0));
    other[10] = 7;
    CHECK(etherpeel_linux_sll2(other, 20, &h) == ETHERPEEL_DONE && h.packet_type == 7);
}

static void linux_sll2_fields(void) {
    static const etherpeel_field expected[7] = {
        {0, 16, 0x8100, 0, ETHERPEEL_FIELD_LINUX_SLL2_PROTOCOL},
        {16, 16, 0xBEEF, 0, ETHERPEEL_FIELD_LINUX_SLL2_RESERVED},
        {32, 32, 3, 0, ETHERPEEL_FIELD_LINUX_SLL2_INTERFACE_INDEX},
        {64, 16, 1, 0, ETHERPEEL_FIELD_LINUX_SLL2_HARDWARE_TYPE},
        {80, 8, 4, 0, ETHERPEEL_FIELD_LINUX_SLL2_PACKET_TYPE},
        {88, 8, 6, 0, ETHERPEEL_FIELD_LINUX_SLL2_ADDRESS_LEN},
        {96, 64, 0x0200000000010000, 0, ETHERPEEL_FIELD_LINUX_SLL2_ADDRESS}};
    etherpeel_field f[8];
    uint8_t bytes[20];
    size_t count = 99;
    memset(f, 0xA5, sizeof f);
    memcpy(bytes, COOKED_V2, 20), bytes[2] = 0xBE, bytes[3] = 0xEF, bytes[10] = 8;
    CHECK(etherpeel_linux_sll2_fields(bytes, 20, f, 8, &count) == ETHERPEEL_BAD_PACKET_TYPE);
    CHECK(etherpeel_linux_sll2_fields(bytes, 19, f, 8, &count) == ETHERPEEL_SHORT);
    CHECK(count == 99 && all_are(f, sizeof f, 0xA5));
    bytes[10] = 4;
    CHECK(etherpeel_linux_sll2_fields(bytes, 20, f, 3, &count) == ETHERPEEL_DONE && count == 7);
    CHECK(memcmp(f, expected, 3 * sizeof f[0]) == 0 && all_are(&f[3], 5 * sizeof f[0], 0xA5));
    CHECK(etherpeel_linux_sll2_fields(bytes, 20, f, 8, &count) == ETHERPEEL_DONE && count == 7);
    CHECK(are_fields(f, count, expected, 7, 8));
}

/* ---- VLAN tags changed in place ---- */

/* Ethernet II and the first byte of an IPv4 packet, after four bytes that are free */
static const uint8_t UNTAGGED[] = {0xEE, 0xEE, 0xEE, 0xEE, ADDRESSES, 0x08, 0x00, 0x45};

static void popping(void) {
    uint8_t frame[sizeof TAGGED];
    etherpeel_vlan tag;
    memcpy(frame, TAGGED, sizeof frame);
    memset(&tag, 0xA5, sizeof tag);
    CHECK(etherpeel_pop_vlan(ETHERPEEL_START_ETHERNET2, 0, frame, sizeof frame, &tag) ==
          ETHERPEEL_DONE);
    CHECK(memcmp(frame + 4, UNTAGGED + 4, sizeof frame - 4) == 0);
    CHECK(tag.vid == 0x123 && tag.pcp == 5 && tag.dei == 1 && tag.ether_type == 0x0800);
    CHECK(etherpeel_push_vlan(ETHERPEEL_START_ETHERNET2, 0, frame, sizeof frame, &tag, 0x8100) ==
          ETHERPEEL_DONE);
    CHECK(memcmp(frame, TAGGED, sizeof frame) == 0);
    CHECK(etherpeel_pop_vlan(ETHERPEEL_START_ETHERNET2, 0, frame, 17, &tag) == ETHERPEEL_CUT_VLAN);
    CHECK(etherpeel_pop_vlan(ETHERPEEL_START_ETHERNET2, 0, frame, 13, &tag) == ETHERPEEL_NO_LINK);
    CHECK(etherpeel_pop_vlan(ETHERPEEL_START_ETHERNET2, 0, NULL, 0, &tag) == ETHERPEEL_NO_LINK);
    CHECK(etherpeel_pop_vlan(ETHERPEEL_START_ETHER_TYPE, 0x8100, frame, sizeof frame, &tag) ==
          ETHERPEEL_NO_LINK);
    CHECK(etherpeel_pop_vlan(9, 0, frame, sizeof frame, &tag) == ETHERPEEL_UNKNOWN_START);
    CHECK(memcmp(frame, TAGGED, sizeof frame) == 0 && tag.vid == 0x123 && tag.pcp == 5);
    memcpy(frame, ARP, sizeof frame);
    CHECK(etherpeel_pop_vlan(ETHERPEEL_START_ETHERNET2, 0, frame, sizeof frame, &tag) ==
          ETHERPEEL_NO_VLAN);
    CHECK(memcmp(frame, ARP, sizeof frame) == 0);
}

static void pushing(void) {
    static const uint8_t expected[] = {ADDRESSES, 0x88, 0xA8, 0xEF, 0xFF, 0x08, 0x00, 0x45};
    uint8_t buffer[sizeof UNTAGGED], cooked[20] = {0xEE, 0xEE, 0xEE, 0xEE};
    etherpeel_vlan tag = {4095, 0x9999, 7, 0};
    memcpy(buffer, UNTAGGED, sizeof buffer);
    CHECK(etherpeel_push_vlan(9, 0, buffer, sizeof buffer, &tag, 0x8100) ==
          ETHERPEEL_UNKNOWN_START);
    CHECK(etherpeel_push_vlan(ETHERPEEL_START_ETHERNET2, 0, buffer, sizeof buffer, &tag, 0x0800) ==
          ETHERPEEL_BAD_TPID);
    CHECK(etherpeel_push_vlan(ETHERPEEL_START_ETHERNET2, 0, buffer, 3, &tag, 0x8100) ==
          ETHERPEEL_NO_ROOM);
    CHECK(etherpeel_push_vlan(ETHERPEEL_START_ETHERNET2, 0, buffer, 17, &tag, 0x8100) ==
          ETHERPEEL_NO_LINK);
    memcpy(cooked + 4, COOKED_GRE, sizeof COOKED_GRE);
    CHECK(etherpeel_push_vlan(ETHERPEEL_START_LINUX_SLL, 0, cooked, sizeof cooked, &tag, 0x8100) ==
          ETHERPEEL_OTHER_LINK);
    tag.vid = 4096;
    CHECK(etherpeel_push_vlan(ETHERPEEL_START_ETHERNET2, 0, buffer, sizeof buffer, &tag, 0x8100) ==
          ETHERPEEL_BAD_FIELD);
    tag.vid = 4095, tag.pcp = 8;
    CHECK(etherpeel_push_vlan(ETHERPEEL_START_ETHERNET2, 0, buffer, sizeof buffer, &tag, 0x8100) ==
          ETHERPEEL_BAD_FIELD);
    tag.pcp = 7, tag.dei = 2;
    CHECK(etherpeel_push_vlan(ETHERPEEL_START_ETHERNET2, 0, buffer, sizeof buffer, &tag, 0x8100) ==
          ETHERPEEL_BAD_FIELD);
    CHECK(memcmp(buffer, UNTAGGED, sizeof buffer) == 0 && all_are(cooked, 4, 0xEE));
    tag.dei = 0;
    CHECK(etherpeel_push_vlan(ETHERPEEL_START_ETHERNET2, 0, buffer, sizeof buffer, &tag, 0x88A8) ==
          ETHERPEEL_DONE);
    CHECK(memcmp(buffer, expected, sizeof buffer) == 0 && tag.ether_type == 0x9999);
}

static void setting(void) {
    static const uint8_t expected[] = {ADDRESSES, 0x81, 0x00, 0xB4, 0x56, 0x08, 0x00, 0x45};
    uint8_t frame[sizeof TAGGED], tag[sizeof NAMED];
    memcpy(frame, TAGGED, sizeof frame), memcpy(tag, NAMED, sizeof tag);
    CHECK(etherpeel_set_vlan_id(9, 0, frame, sizeof frame, 0, 1) == ETHERPEEL_UNKNOWN_START);
    CHECK(etherpeel_set_vlan_id(ETHERPEEL_START_ETHERNET2, 0, frame, sizeof frame, 0, 4096) ==
          ETHERPEEL_BAD_FIELD);
    CHECK(etherpeel_set_vlan_id(ETHERPEEL_START_ETHERNET2, 0, frame, sizeof frame, 1, 1) ==
          ETHERPEEL_NO_TAG);
    CHECK(etherpeel_set_vlan_id(ETHERPEEL_START_ETHERNET2, 0, frame, sizeof frame, SIZE_MAX, 1) ==
          ETHERPEEL_NO_TAG);
    CHECK(etherpeel_set_vlan_id(ETHERPEEL_START_ETHER_TYPE, 0x88E5, tag, sizeof tag, 0, 1) ==
          ETHERPEEL_NO_VLAN);
    CHECK(memcmp(frame, TAGGED, sizeof frame) == 0 && memcmp(tag, NAMED, sizeof tag) == 0);
    CHECK(etherpeel_set_vlan_id(ETHERPEEL_START_ETHERNET2, 0, frame, sizeof frame, 0, 0x456) ==
          ETHERPEEL_DONE);
    CHECK(memcmp(frame, expected, sizeof frame) == 0);
    CHECK(etherpeel_set_vlan_id(ETHERPEEL_START_ETHER_TYPE, 0x88E5, tag, sizeof tag, 1, 0xFFF) ==
          ETHERPEEL_DONE);
    CHECK(tag[8] == 0xAF && tag[9] == 0xFF && memcmp(tag, NAMED, 8) == 0 && tag[10] == NAMED[10]);
    uint8_t four[] = {0, 1, 0x81, 0x00, 0, 2, 0x81, 0x00, 0, 3, 0x81, 0x00, 0, 4, 0x08, 0x00};
    CHECK(etherpeel_set_vlan_id(ETHERPEEL_START_ETHER_TYPE, 0x8100, four, sizeof four, 3, 9) ==
          ETHERPEEL_DONE);
    CHECK(four[12] == 0 && four[13] == 9 && four[9] == 3);
    CHECK(etherpeel_set_vlan_id(ETHERPEEL_START_ETHER_TYPE, 0x8100, four, sizeof four, 4, 9) ==
          ETHERPEEL_NO_TAG);
}

static void setting_more(void) {
    static const uint8_t expected[] = {ADDRESSES, 0x81, 0x00, 0x64, 0x56, 0x08, 0x00, 0x45};
    etherpeel_vlan tag = {0x456, 0x9999, 8, 0};
    uint8_t frame[sizeof TAGGED], sec_tag[sizeof NAMED];
    memcpy(frame, TAGGED, sizeof frame), memcpy(sec_tag, NAMED, sizeof sec_tag);
    CHECK(etherpeel_set_vlan_tag(9, 0, frame, sizeof frame, 0, &tag) == ETHERPEEL_UNKNOWN_START);
    CHECK(etherpeel_set_vlan_tag(ETHERPEEL_START_ETHERNET2, 0, frame, sizeof frame, 0, &tag) ==
          ETHERPEEL_BAD_FIELD);
    CHECK(memcmp(frame, TAGGED, sizeof frame) == 0);
    tag.pcp = 3;
    CHECK(etherpeel_set_vlan_tag(ETHERPEEL_START_ETHERNET2, 0, frame, sizeof frame, 1, &tag) ==
          ETHERPEEL_NO_TAG);
    CHECK(etherpeel_set_vlan_tag(ETHERPEEL_START_ETHERNET2, 0, frame, sizeof frame, 0, &tag) ==
          ETHERPEEL_DONE);
    CHECK(memcmp(frame, expected, sizeof frame) == 0);
    CHECK(etherpeel_set_tpid(9, 0, frame, sizeof frame, 0, 0x88A8) == ETHERPEEL_UNKNOWN_START);
    CHECK(etherpeel_set_tpid(ETHERPEEL_START_ETHERNET2, 0, frame, sizeof frame, 0, 0x0800) ==
          ETHERPEEL_BAD_TPID);
    CHECK(etherpeel_set_tpid(ETHERPEEL_START_ETHERNET2, 0, frame, sizeof frame, 1, 0x88A8) ==
          ETHERPEEL_NO_TAG);
    CHECK(etherpeel_set_tpid(ETHERPEEL_START_ETHER_TYPE, 0x88E5, sec_tag, sizeof sec_tag, 0,
                             0x88A8) == ETHERPEEL_NO_VLAN);
    CHECK(etherpeel_set_tpid(ETHERPEEL_START_ETHER_TYPE, 0x8100, frame + 14, 5, 0, 0x88A8) ==
          ETHERPEEL_UNANNOUNCED);
    CHECK(memcmp(frame, expected, sizeof frame) == 0);
    CHECK(etherpeel_set_tpid(ETHERPEEL_START_ETHERNET2, 0, frame, sizeof frame, 0, 0x88A8) ==
          ETHERPEEL_DONE);
    CHECK(frame[12] == 0x88 && frame[13] == 0xA8 && memcmp(frame + 14, expected + 14, 5) == 0);
    /* the type of the SecTag announces the VLAN tag in it */
    CHECK(etherpeel_set_tpid(ETHERPEEL_START_ETHER_TYPE, 0x88E5, sec_tag, sizeof sec_tag, 1,
                             0x9100) == ETHERPEEL_DONE);
    CHECK(sec_tag[6] == 0x91 && sec_tag[7] == 0x00 && memcmp(sec_tag, NAMED, 6) == 0);
}

/* ---- headers replaced in place ---- */

static etherpeel_unit unit_of(uint32_t start, uint16_t ether_type, const uint8_t *bytes, size_t len,
                              size_t index) {
    etherpeel_unit units[4];
    size_t count = 0;
    memset(units, 0, sizeof units);
    CHECK(etherpeel_walk(start, ether_type, bytes, len, units, 4, &count) == ETHERPEEL_DONE &&
          index < count);
    return units[index];
}

/* whether a header does not replace the one in a frame, for this reason: a tag, or the header of
 * the link, or the ARP packet whose addresses are in the frame */
static int is_not_replaced(uint32_t start, uint16_t ether_type, const uint8_t *bytes, size_t len,
                           const etherpeel_unit *header, uint32_t status, size_t tags,
                           uint32_t difference) {
    etherpeel_replace_error error = {99, 99};
    uint8_t frame[64];
    uint32_t found;
    memcpy(frame, bytes, len);
    if (header->kind == ETHERPEEL_UNIT_ARP)
        found = etherpeel_replace_arp(start, ether_type, frame, len, header, bytes, len, &error);
    else if (header->kind == ETHERPEEL_UNIT_ETHERNET2 || header->kind == ETHERPEEL_UNIT_LINUX_SLL)
        found = etherpeel_replace_link(start, ether_type, frame, len, header, &error);
    else
        found = etherpeel_replace_link_ext(start, ether_type, frame, len, tags, header, &error);
    return found == status && error.tags == tags && error.difference == difference &&
           memcmp(frame, bytes, len) == 0;
}

static void replacing_links(void) {
    static const uint8_t expected[] = {2, 0, 0, 0, 0, 2, 2, 0, 0, 0, 0, 3, 0x81, 0x00};
    static const uint8_t cooked[] = {0, 3, 0, 1, 0, 4, 1, 2, 3, 4, 0, 0, 0, 0, 0x08, 0x06};
    etherpeel_unit header = unit_of(ETHERPEEL_START_ETHERNET2, 0, TAGGED, sizeof TAGGED, 0);
    etherpeel_replace_error error = {99, 99};
    uint8_t frame[sizeof TAGGED], sll[sizeof COOKED];
    memcpy(frame, TAGGED, sizeof frame), memcpy(sll, COOKED, sizeof sll);
    memcpy(header.ethernet2.destination, expected, 6);
    memcpy(header.ethernet2.source, expected + 6, 6);
    header.ethernet2.has_fcs = 9;
    CHECK(etherpeel_replace_link(ETHERPEEL_START_ETHERNET2, 0, frame, sizeof frame, &header,
                                 &error) == ETHERPEEL_DONE);
    CHECK(memcmp(frame, expected, 14) == 0 && memcmp(frame + 14, TAGGED + 14, 5) == 0);
    CHECK(error.tags == 99 && error.difference == 99);
    memcpy(frame, TAGGED, sizeof frame);
    CHECK(etherpeel_replace_link(ETHERPEEL_START_ETHERNET2_FCS, 0, frame, sizeof frame, &header,
                                 &error) == ETHERPEEL_DONE);
    CHECK(memcmp(frame, expected, 14) == 0);
    /* refused */
    CHECK(etherpeel_replace_link(9, 0, frame, sizeof frame, &header, &error) ==
          ETHERPEEL_UNKNOWN_START);
    CHECK(error.tags == 99 && error.difference == 99);
    CHECK(is_not_replaced(ETHERPEEL_START_ETHERNET2, 0, TAGGED, 13, &header, ETHERPEEL_NO_LINK, 0,
                          0));
    CHECK(is_not_replaced(ETHERPEEL_START_ETHER_TYPE, 0x8100, TAGGED, 19, &header,
                          ETHERPEEL_NO_LINK, 0, 0));
    CHECK(is_not_replaced(ETHERPEEL_START_LINUX_SLL, 0, COOKED, 16, &header, ETHERPEEL_DIFFERS, 0,
                          ETHERPEEL_DIFFERENCE_KIND));
    header.ethernet2.ether_type = 0x88A8;
    CHECK(is_not_replaced(ETHERPEEL_START_ETHERNET2, 0, TAGGED, sizeof TAGGED, &header,
                          ETHERPEEL_DIFFERS, 0, ETHERPEEL_DIFFERENCE_ETHER_TYPE));
    /* cooked capture */
    header = unit_of(ETHERPEEL_START_LINUX_SLL, 0, COOKED, sizeof COOKED, 0);
    header.linux_sll.packet_type = 3, header.linux_sll.address_len = 4;
    memcpy(header.linux_sll.address, cooked + 6, 8);
    CHECK(etherpeel_replace_link(ETHERPEEL_START_LINUX_SLL, 0, sll, sizeof sll, &header, &error) ==
          ETHERPEEL_DONE);
    CHECK(memcmp(sll, cooked, sizeof sll) == 0);
    header.linux_sll.protocol = 0x0800;
    CHECK(is_not_replaced(ETHERPEEL_START_LINUX_SLL, 0, COOKED, 16, &header, ETHERPEEL_DIFFERS, 0,
                          ETHERPEEL_DIFFERENCE_PROTOCOL_TYPE));
    header.linux_sll.hardware_type = 2;
    CHECK(is_not_replaced(ETHERPEEL_START_LINUX_SLL, 0, COOKED, 16, &header, ETHERPEEL_DIFFERS, 0,
                          ETHERPEEL_DIFFERENCE_HARDWARE_TYPE));
    header.linux_sll.packet_type = 8;
    CHECK(etherpeel_replace_link(ETHERPEEL_START_LINUX_SLL, 0, sll, sizeof sll, &header, &error) ==
          ETHERPEEL_BAD_FIELD);
    header.kind = ETHERPEEL_UNIT_VLAN;
    CHECK(etherpeel_replace_link(ETHERPEEL_START_LINUX_SLL, 0, sll, sizeof sll, &header, &error) ==
          ETHERPEEL_BAD_KIND);
    CHECK(memcmp(sll, cooked, sizeof sll) == 0 && error.tags == 99 && error.difference == 99);
}

static void replacing_tags(void) {
    /* PCP 3, VID 0x456; SC, E and C, AN 3, packet number 0x01020305, SCI 0x0011223344556688 */
    static const uint8_t vlan[] = {ADDRESSES, 0x81, 0x00, 0x64, 0x56, 0x08, 0x00, 0x45};
    static const uint8_t sealed[] = {0x2F, 0x00, 1,    2,    3,    5,    0x00, 0x11,
                                     0x22, 0x33, 0x44, 0x55, 0x66, 0x88, 0x99};
    etherpeel_unit header = unit_of(ETHERPEEL_START_ETHERNET2, 0, TAGGED, sizeof TAGGED, 1);
    etherpeel_replace_error error = {99, 99};
    uint8_t frame[sizeof TAGGED], tag[sizeof SEALED], named[sizeof NAMED];
    memcpy(frame, TAGGED, sizeof frame), memcpy(tag, SEALED, sizeof tag);
    memcpy(named, NAMED, sizeof named);
    header.vlan.vid = 0x456, header.vlan.pcp = 3, header.vlan.dei = 0;
    CHECK(etherpeel_replace_link_ext(9, 0, frame, sizeof frame, 0, &header, &error) ==
          ETHERPEEL_UNKNOWN_START);
    CHECK(etherpeel_replace_link_ext(ETHERPEEL_START_ETHERNET2, 0, frame, sizeof frame, 0, &header,
                                     &error) == ETHERPEEL_DONE);
    CHECK(memcmp(frame, vlan, sizeof frame) == 0 && error.tags == 99 && error.difference == 99);
    CHECK(is_not_replaced(ETHERPEEL_START_ETHERNET2, 0, TAGGED, sizeof TAGGED, &header,
                          ETHERPEEL_NO_TAG, 1, 0));
    CHECK(is_not_replaced(ETHERPEEL_START_ETHERNET2, 0, ARP, sizeof ARP, &header, ETHERPEEL_NO_TAG,
                          0, 0));
    CHECK(is_not_replaced(ETHERPEEL_START_ETHER_TYPE, 0x88E5, SEALED, sizeof SEALED, &header,
                          ETHERPEEL_DIFFERS, 0, ETHERPEEL_DIFFERENCE_KIND));
    header.vlan.ether_type = 0x86DD;
    CHECK(is_not_replaced(ETHERPEEL_START_ETHER_TYPE, 0x8100, TAGGED + 14, 5, &header,
                          ETHERPEEL_DIFFERS, 0, ETHERPEEL_DIFFERENCE_ETHER_TYPE));
    /* SecTags; the ether type of one that is encrypted counts for nothing, nor an SCI that is not
     * there, and the reserved bit of the other is cleared */
    header = unit_of(ETHERPEEL_START_ETHER_TYPE, 0x88E5, SEALED, sizeof SEALED, 0);
    header.macsec.end_station = 0, header.macsec.association_number = 3;
    header.macsec.packet_number++, header.macsec.sci += 0x11, header.macsec.ether_type = 0x0800;
    CHECK(etherpeel_replace_link_ext(ETHERPEEL_START_ETHER_TYPE, 0x88E5, tag, sizeof tag, 0,
                                     &header, &error) == ETHERPEEL_DONE);
    CHECK(memcmp(tag, sealed, sizeof tag) == 0);
    header.macsec.sci_present = 0;
    CHECK(is_not_replaced(ETHERPEEL_START_ETHER_TYPE, 0x88E5, SEALED, sizeof SEALED, &header,
                          ETHERPEEL_DIFFERS, 0, ETHERPEEL_DIFFERENCE_SCI));
    header.macsec.short_len = 1;
    CHECK(is_not_replaced(ETHERPEEL_START_ETHER_TYPE, 0x88E5, SEALED, sizeof SEALED, &header,
                          ETHERPEEL_DIFFERS, 0, ETHERPEEL_DIFFERENCE_SHORT_LEN));
    header.macsec.changed = 0;
    CHECK(is_not_replaced(ETHERPEEL_START_ETHER_TYPE, 0x88E5, SEALED, sizeof SEALED, &header,
                          ETHERPEEL_DIFFERS, 0, ETHERPEEL_DIFFERENCE_PAYLOAD_TYPE));
    header = unit_of(ETHERPEEL_START_ETHER_TYPE, 0x88E5, NAMED, sizeof NAMED, 0);
    header.macsec.packet_number = 7, header.macsec.sci = 7;
    CHECK(etherpeel_replace_link_ext(ETHERPEEL_START_ETHER_TYPE, 0x88E5, named, sizeof named, 0,
                                     &header, &error) == ETHERPEEL_DONE);
    CHECK(named[0] == 0 && named[1] == 0x06 && named[5] == 7);
    CHECK(memcmp(named + 6, NAMED + 6, sizeof named - 6) == 0);
}

/* numbers that do not fit their fields, and other kinds */
static void replacing_by_what_is_no_tag(void) {
    static const size_t flags[] = {
        offsetof(etherpeel_macsec, end_station), offsetof(etherpeel_macsec, sci_present),
        offsetof(etherpeel_macsec, single_copy_broadcast), offsetof(etherpeel_macsec, encrypted),
        offsetof(etherpeel_macsec, changed)};
    const etherpeel_unit vlan = unit_of(ETHERPEEL_START_ETHERNET2, 0, TAGGED, sizeof TAGGED, 1);
    const etherpeel_unit tag =
        unit_of(ETHERPEEL_START_ETHER_TYPE, 0x88E5, SEALED, sizeof SEALED, 0);
    etherpeel_unit wrong[10];
    etherpeel_replace_error error = {99, 99};
    uint8_t frame[sizeof SEALED];
    memcpy(frame, SEALED, sizeof frame);
    for (size_t i = 0; i < 10; i++) wrong[i] = i < 3 ? vlan : tag;
    wrong[0].vlan.vid = 4096, wrong[1].vlan.pcp = 8, wrong[2].vlan.dei = 2;
    wrong[3].macsec.association_number = 4, wrong[4].macsec.short_len = 64;
    for (size_t i = 0; i < 5; i++) ((uint8_t *)&wrong[5 + i].macsec)[flags[i]] = 2;
    for (size_t i = 0; i < 10; i++)
        CHECK(etherpeel_replace_link_ext(ETHERPEEL_START_ETHER_TYPE, 0x88E5, frame, sizeof frame, 0,
                                         &wrong[i], &error) == ETHERPEEL_BAD_FIELD);
    for (uint32_t kind = 0; kind < 7; kind++) {
        wrong[0].kind = kind;
        if (kind != ETHERPEEL_UNIT_VLAN && kind != ETHERPEEL_UNIT_MACSEC)
            CHECK(etherpeel_replace_link_ext(ETHERPEEL_START_ETHER_TYPE, 0x88E5, frame,
                                             sizeof frame, 0, &wrong[0],
                                             &error) == ETHERPEEL_BAD_KIND);
    }
    CHECK(memcmp(frame, SEALED, sizeof frame) == 0 && error.tags == 99 && error.difference == 99);
}

static void replacing_arp(void) {
    /* the reply: 10.0.0.2 is at 02:00:00:00:00:02 */
    static const uint8_t reply[] = {ADDRESSES, 0x08, 0x06, 0, 1, 0x08, 0x00, 6, 4, 0, 2,
                                    2,         0,    0,    0, 0, 2,    10,   0, 0, 2, 2,
                                    0,         0,    0,    0, 1, 10,   0,    0, 1, 0, 0};
    static const uint8_t addresses[] = {2, 0, 0, 0, 0, 1, 10, 0, 0, 1,
                                        2, 0, 0, 0, 0, 2, 10, 0, 0, 2};
    etherpeel_unit header = unit_of(ETHERPEEL_START_ETHERNET2, 0, ARP, sizeof ARP, 1);
    etherpeel_replace_error error = {99, 99};
    uint8_t frame[sizeof ARP];
    memcpy(frame, ARP, sizeof frame);
    header.arp.operation = 2;
    header.arp.target_hardware = 0, header.arp.target_protocol = 6;
    header.arp.sender_hardware = 10, header.arp.sender_protocol = 16;
    CHECK(etherpeel_replace_arp(9, 0, frame, sizeof frame, &header, addresses, 20, &error) ==
          ETHERPEEL_UNKNOWN_START);
    CHECK(etherpeel_replace_arp(ETHERPEEL_START_ETHERNET2, 0, frame, sizeof frame, &header,
                                addresses, 19, &error) == ETHERPEEL_BAD_FIELD);
    header.arp.target_protocol = SIZE_MAX;
    CHECK(etherpeel_replace_arp(ETHERPEEL_START_ETHERNET2, 0, frame, sizeof frame, &header,
                                addresses, 20, &error) == ETHERPEEL_BAD_FIELD);
    header.arp.target_protocol = 6, header.kind = ETHERPEEL_UNIT_VLAN;
    CHECK(etherpeel_replace_arp(ETHERPEEL_START_ETHERNET2, 0, frame, sizeof frame, &header,
                                addresses, 20, &error) == ETHERPEEL_BAD_KIND);
    CHECK(memcmp(frame, ARP, sizeof frame) == 0);
    header.kind = ETHERPEEL_UNIT_ARP;
    CHECK(etherpeel_replace_arp(ETHERPEEL_START_ETHERNET2, 0, frame, sizeof frame, &header,
                                addresses, 20, &error) == ETHERPEEL_DONE);
    CHECK(memcmp(frame, reply, sizeof frame) == 0 && error.tags == 99 && error.difference == 99);
    CHECK(is_not_replaced(ETHERPEEL_START_ETHERNET2, 0, TAGGED, sizeof TAGGED, &header,
                          ETHERPEEL_BAD_FIELD, 99, 99) == 1);
    header = unit_of(ETHERPEEL_START_ETHERNET2, 0, ARP, sizeof ARP, 1);
    CHECK(is_not_replaced(ETHERPEEL_START_ETHERNET2, 0, ARP, 41, &header, ETHERPEEL_BAD_FIELD, 99,
                          99));
    header.arp.protocol_size = 3;
    CHECK(is_not_replaced(ETHERPEEL_START_ETHERNET2, 0, ARP, sizeof ARP, &header, ETHERPEEL_DIFFERS,
                          0, ETHERPEEL_DIFFERENCE_PROTOCOL_SIZE));
    header.arp.hardware_size = 5;
    CHECK(is_not_replaced(ETHERPEEL_START_ETHERNET2, 0, ARP, sizeof ARP, &header, ETHERPEEL_DIFFERS,
                          0, ETHERPEEL_DIFFERENCE_HARDWARE_SIZE));
    memset(&header.arp, 0, sizeof header.arp);
    CHECK(is_not_replaced(ETHERPEEL_START_ETHERNET2, 0, TAGGED, sizeof TAGGED, &header,
                          ETHERPEEL_NO_ARP, 0, 0));
    CHECK(etherpeel_replace_arp(ETHERPEEL_START_ETHERNET2, 0, NULL, 0, &header, NULL, 0, &error) ==
          ETHERPEEL_NO_ARP);
}

/* ---- packets built ---- */

/* whether units and a payload make these bytes, and nothing less room than they take */
static int is_built(const etherpeel_unit *units, size_t count, uint16_t ether_type,
                    const uint8_t *payload, size_t payload_len, const uint8_t *expected,
                    size_t len) {
    uint8_t target[80];
    size_t written = 99;
    memset(target, 0xA5, sizeof target);
    if (etherpeel_build(units, count, ether_type, payload, payload_len, target, len - 1,
                        &written) != ETHERPEEL_NO_ROOM ||
        written != len || !all_are(target, sizeof target, 0xA5))
        return 0;
    written = 99;
    return etherpeel_build(units, count, ether_type, payload, payload_len, target, sizeof target,
                           &written) == ETHERPEEL_DONE &&
           written == len && memcmp(target, expected, len) == 0 &&
           all_are(target + len, sizeof target - len, 0xA5);
}

/* whether nothing is built, for this reason */
static int is_not_built(const etherpeel_unit *units, size_t count, uint32_t status, size_t index) {
    uint8_t target[80];
    size_t written = 99;
    memset(target, 0xA5, sizeof target);
    return etherpeel_build(units, count, 0x0800, TAGGED, 1, target, sizeof target, &written) ==
               status &&
           written == index && all_are(target, sizeof target, 0xA5);
}

static void building(void) {
    /* two VLAN tags: the outer one is a service tag (IEEE 802.1Q, table 9-1) */
    static const uint8_t two[] = {ADDRESSES, 0x88, 0xA8, 0x00, 0x0A, 0x81,
                                  0x00,      0x00, 0x64, 0x08, 0x00, 0x45};
    static const uint8_t kept[] = {ADDRESSES, 0x91, 0x00, 0x00, 0x0A, 0x88,
                                   0xA8,      0x00, 0x64, 0x08, 0x00, 0x45};
    /* a SecTag that names three bytes: an ether type and one of payload (IEEE 802.1AE, 9.7) */
    static const uint8_t plain[] = {ADDRESSES, 0x88, 0xE5, 0x00, 3, 0, 0, 0, 1, 0x08, 0x00, 0x45};
    /* one with SCI, ES, E and C, and an encrypted byte */
    static const uint8_t secret[] = {ADDRESSES, 0x88, 0xE5, 0x6E, 0x01, 1,    2,    3,    4,
                                     0x00,      0x11, 0x22, 0x33, 0x44, 0x55, 0x66, 0x77, 0x99};
    uint8_t cooked[sizeof COOKED + 28];
    etherpeel_unit units[3];
    memset(units, 0, sizeof units);
    units[0] = unit_of(ETHERPEEL_START_ETHERNET2, 0, TAGGED, sizeof TAGGED, 0);
    units[1] = unit_of(ETHERPEEL_START_ETHERNET2, 0, TAGGED, sizeof TAGGED, 1);
    units[0].ethernet2.ether_type = units[1].vlan.ether_type = 0x9999;
    CHECK(is_built(units, 2, 0x0800, TAGGED + 18, 1, TAGGED, sizeof TAGGED));
    CHECK(is_built(units, 1, 0x0806, ARP + 14, 28, ARP, 42));
    units[2] = units[1];
    units[1].vlan.pcp = units[1].vlan.dei = units[2].vlan.pcp = units[2].vlan.dei = 0;
    units[1].vlan.vid = 10, units[2].vlan.vid = 100;
    CHECK(is_built(units, 3, 0x0800, TAGGED + 18, 1, two, sizeof two));
    /* ether types that announce a tag stay before one */
    units[0].ethernet2.ether_type = 0x9100, units[1].vlan.ether_type = 0x88A8;
    units[2].vlan.ether_type = 0x8100;
    CHECK(is_built(units, 3, 0x0800, TAGGED + 18, 1, kept, sizeof kept));
    units[1] = unit_of(ETHERPEEL_START_ETHER_TYPE, 0x88E5, NAMED, sizeof NAMED, 0);
    CHECK(is_built(units, 2, 0x0800, TAGGED + 18, 1, plain, sizeof plain));
    units[1] = unit_of(ETHERPEEL_START_ETHER_TYPE, 0x88E5, SEALED, sizeof SEALED, 0);
    CHECK(is_built(units, 2, 0x0800, SEALED + 14, 1, secret, sizeof secret));
    /* the addresses of an ARP packet are read from its frame */
    units[1] = unit_of(ETHERPEEL_START_ETHERNET2, 0, ARP, sizeof ARP, 1);
    CHECK(is_built(units, 2, 0x9999, ARP, sizeof ARP, ARP, 42));
    units[0] = unit_of(ETHERPEEL_START_LINUX_SLL, 0, COOKED, sizeof COOKED, 0);
    memcpy(cooked, COOKED, sizeof COOKED), memcpy(cooked + sizeof COOKED, ARP + 14, 28);
    CHECK(is_built(units, 2, 0, ARP, sizeof ARP, cooked, sizeof cooked));
}

static void not_building(void) {
    etherpeel_unit units[10];
    size_t written = 99;
    for (size_t i = 0; i < 10; i++)
        units[i] = unit_of(ETHERPEEL_START_ETHERNET2, 0, TAGGED, sizeof TAGGED, i != 0);
    CHECK(is_not_built(units, 10, ETHERPEEL_TOO_MANY_TAGS, 9));
    CHECK(etherpeel_build(units, 9, 0x0800, NULL, 0, NULL, 0, &written) == ETHERPEEL_NO_ROOM);
    CHECK(written == 14 + 8 * 4);
    CHECK(is_not_built(NULL, 0, ETHERPEEL_BAD_KIND, 0));
    CHECK(is_not_built(units + 1, 2, ETHERPEEL_BAD_KIND, 0));
    units[2] = units[0];
    CHECK(is_not_built(units, 3, ETHERPEEL_BAD_KIND, 2));
    units[2] = unit_of(ETHERPEEL_START_ETHERNET2, 0, ARP, sizeof ARP, 1);
    CHECK(is_not_built(units, 4, ETHERPEEL_BAD_KIND, 2));
    CHECK(is_not_built(units, 3, ETHERPEEL_BAD_FIELD, 2));
    units[1].vlan.vid = 4096;
    CHECK(is_not_built(units, 3, ETHERPEEL_BAD_FIELD, 1));
    units[1] = unit_of(ETHERPEEL_START_ETHER_TYPE, 0x88E5, SEALED, sizeof SEALED, 0);
    memset(&units[2].arp, 0, sizeof units[2].arp);
    CHECK(is_not_built(units, 3, ETHERPEEL_SEALED, 1));
    units[2] = units[1];
    CHECK(is_not_built(units, 3, ETHERPEEL_SEALED, 1));
    units[0] = unit_of(ETHERPEEL_START_LINUX_SLL, 0, COOKED_GRE, sizeof COOKED_GRE, 0);
    CHECK(is_not_built(units, 1, ETHERPEEL_OTHER_LINK, 0));
    units[0].linux_sll.packet_type = 8;
    CHECK(is_not_built(units, 1, ETHERPEEL_BAD_FIELD, 0));
}

/* ---- what is common to all calls ---- */

static void unknown_starts(void) {
    static const uint32_t starts[] = {0, 5, 257, 0x80000001u, 0xFFFFFFFFu};
    const uint8_t *b = TAGGED;
    const size_t n = sizeof TAGGED;
    for (size_t i = 0; i < COUNT(starts); i++) {
        const uint32_t s = starts[i];
        etherpeel_found found;
        etherpeel_fed fed;
        etherpeel_unit units[2];
        uint8_t target[32];
        char text[32];
        size_t len = 99;
        memset(&found, 0xA5, sizeof found), memset(&fed, 0xA5, sizeof fed),
            memset(units, 0xA5, sizeof units);
        memset(target, 0xA5, sizeof target), memset(text, 0x25, sizeof text);
        CHECK(etherpeel_summary(s, 0x8100, b, n, &found) == ETHERPEEL_UNKNOWN_START);
        CHECK(etherpeel_summary_limited(s, 0x8100, b, n, 1, &found) == ETHERPEEL_UNKNOWN_START);
        CHECK(etherpeel_walk(s, 0x8100, b, n, units, COUNT(units), &len) ==
              ETHERPEEL_UNKNOWN_START);
        CHECK(etherpeel_walk_limited(s, 0x8100, b, n, 1, units, COUNT(units), &len) ==
              ETHERPEEL_UNKNOWN_START);
        CHECK(etherpeel_write_back(s, 0x8100, b, n, target, sizeof target, &len) ==
              ETHERPEEL_UNKNOWN_START);
        CHECK(etherpeel_write_back_limited(s, 0x8100, b, n, 1, target, sizeof target, &len) ==
              ETHERPEEL_UNKNOWN_START);
        CHECK(etherpeel_feed(s, 0x8100, b, n, &fed) == ETHERPEEL_UNKNOWN_START);
        CHECK(etherpeel_feed_limited(s, 0x8100, b, n, 1, &fed) == ETHERPEEL_UNKNOWN_START);
        CHECK(etherpeel_completion(s, 0x8100, b, 16, target, sizeof target, &len) ==
              ETHERPEEL_UNKNOWN_START);
        CHECK(etherpeel_completion_limited(s, 0x8100, b, 16, 1, target, sizeof target, &len) ==
              ETHERPEEL_UNKNOWN_START);
        CHECK(etherpeel_missing(s, 0x8100, b, 16, &len) == ETHERPEEL_UNKNOWN_START);
        CHECK(etherpeel_missing_limited(s, 0x8100, b, 16, 1, &len) == ETHERPEEL_UNKNOWN_START);
        CHECK(etherpeel_fault_text(s, 0x8100, b, 16, text, sizeof text, &len) ==
              ETHERPEEL_UNKNOWN_START);
        CHECK(etherpeel_fault_text_limited(s, 0x8100, b, 16, 1, text, sizeof text, &len) ==
              ETHERPEEL_UNKNOWN_START);
        CHECK(len == 99 && all_are(&found, sizeof found, 0xA5) && all_are(&fed, sizeof fed, 0xA5) &&
              all_are(units, sizeof units, 0xA5));
        CHECK(all_are(target, sizeof target, 0xA5) && all_are(text, sizeof text, 0x25));
    }
}

static void no_frame(void) {
    static const uint32_t starts[] = {ETHERPEEL_START_ETHERNET2, ETHERPEEL_START_ETHERNET2_FCS,
                                      ETHERPEEL_START_LINUX_SLL};
    static const size_t required[] = {14, 18, 16};
    etherpeel_found f;
    etherpeel_fed fed;
    size_t count;
    for (size_t i = 0; i < COUNT(starts); i++) {
        CHECK(etherpeel_summary(starts[i], 0, NULL, 0, &f) == ETHERPEEL_DONE && f.units == 0 &&
              f.fault.required_len == required[i] && f.fault.len == 0);
        CHECK(etherpeel_feed(starts[i], 0, NULL, 0, &fed) == ETHERPEEL_DONE && fed.taken == 0 &&
              fed.fault.required_len == required[i]);
        CHECK(etherpeel_walk(starts[i], 0, NULL, 0, NULL, 0, &count) == ETHERPEEL_DONE &&
              count == 0);
    }
    CHECK(etherpeel_summary(ETHERPEEL_START_ETHER_TYPE, 0x0800, NULL, 0, &f) == ETHERPEEL_DONE &&
          f.rest_end == 0 && is_none(&f.fault));
}

static uint32_t seed = 1;

/* a number below n, drawn by a linear congruence */
static size_t drawn(size_t n) {
    seed = seed * 1664525u + 1013904223u;
    return (seed >> 8) % n;
}

/* a frame of drawn bytes, many of them ether types that announce something */
static size_t draw_frame(uint8_t bytes[64]) {
    static const uint8_t types[][2] = {{0x81, 0x00}, {0x88, 0xA8}, {0x91, 0x00},
                                       {0x88, 0xE5}, {0x08, 0x06}, {0x08, 0x00}};
    for (size_t i = 0; i < 64; i++) bytes[i] = (uint8_t)drawn(drawn(2) ? 256 : 4);
    for (size_t i = 12; i < 64; i += 2)
        if (drawn(3)) memcpy(bytes + i, types[drawn(COUNT(types))], 2);
    return drawn(65);
}

/* whether the units of a frame follow one another up to the rest, each header at its payload's
 * start */
static int units_are_chained(const etherpeel_unit *u, size_t count, size_t len,
                             const etherpeel_found *f) {
    for (size_t i = 0; i < count; i++) {
        const size_t end = i + 1 < count ? u[i + 1].offset : f->rest_start;
        if (u[i].payload_start != end || u[i].offset + u[i].header_len != end) return 0;
        if (u[i].payload_end > len || !others_are_zero(&u[i])) return 0;
    }
    return 1;
}

/* The calls agree with one another on drawn frames, and touch no memory after a frame or a target.
 */
static void drawn_frames(void) {
    const guarded pages[] = {guarded_page(), guarded_page(), guarded_page(), guarded_page()};
    unsigned wrong = 0;
    size_t most = 0;
    for (int round = 0; round < 20000; round++) {
        uint8_t bytes[64];
        const size_t len = draw_frame(bytes);
        const uint32_t start = (uint32_t)(1 + drawn(4));
        const uint8_t *frame = copied(pages[0], bytes, len);
        etherpeel_found f;
        size_t count, written, missing, fill_len, text_len;
        etherpeel_summary(start, 0x88E5, frame, len, &f);
        etherpeel_unit *units =
            (etherpeel_unit *)(void *)last(pages[1], f.units * sizeof(etherpeel_unit));
        uint8_t *target = last(pages[2], f.rest_end);
        wrong +=
            etherpeel_walk(start, 0x88E5, frame, len, units, f.units, &count) != ETHERPEEL_DONE;
        wrong += count != f.units || !units_are_chained(units, count, len, &f);
        wrong += etherpeel_write_back(start, 0x88E5, frame, len, target, f.rest_end, &written) !=
                 ETHERPEEL_DONE;
        wrong += written != f.rest_end;
        etherpeel_missing(start, 0x88E5, frame, len, &missing);
        wrong += missing != f.fault.missing;
        etherpeel_completion(start, 0x88E5, frame, len, NULL, 0, &fill_len);
        etherpeel_completion(start, 0x88E5, frame, len, last(pages[3], fill_len), fill_len,
                             &fill_len);
        wrong += fill_len != 0 && fill_len < missing;
        etherpeel_fault_text(start, 0x88E5, frame, len, NULL, 0, &text_len);
        wrong += (text_len == 0) != (f.fault.kind == ETHERPEEL_FAULT_NONE) || text_len >= 512;
        wrong += etherpeel_fault_text(start, 0x88E5, frame, len, (char *)last(pages[3], text_len),
                                      text_len, &text_len) != ETHERPEEL_DONE;
        if (count > most) most = count;
    }
    CHECK(wrong == 0 && most >= 6);
    for (size_t i = 0; i < COUNT(pages); i++) release(pages[i]);
}

int main(void) {
    layout();
    library();
    accepted();
    protocols_of_cooked_captures();
    refused_for_a_length();
    refused_in_a_closed_window();
    refused_for_contents();
    summaries_with_a_limit();
    walk_of_tags();
    walk_with_a_check_sequence();
    walk_of_sec_tags();
    walk_of_the_example_of_the_standard();
    walk_of_arp();
    walk_of_a_cooked_capture();
    walk_with_less_room();
    writing_back();
    feeding();
    completing();
    missing_bytes();
    texts();
    packets();
    captures();
    captures_that_end_early();
    layout_of_a_reader();
    reading_a_classic_file();
    reading_sections();
    reading_in_pieces();
    reading_cut_and_changed_files();
    units_that_are_refused();
    readers_that_are_none();
    layout_of_an_option();
    options_of_an_interface();
    options_of_packets_and_sections();
    units_without_options();
    edited_packets();
    packets_that_are_not_edited();
    longest_blocks();
    copied_snap_lengths();
    copied_blocks();
    copied_packets();
    the_longest_simple_packet();
    units_of_readers_that_are_none();
    units_that_are_changed();
    packets_on_one_line();
    lines_that_are_not_written();
    captured_frames();
    selecting();
    filtering();
    deciding_frames();
    deciding_whole_frames();
    fields();
    fields_of_addresses();
    fields_without_room();
    linux_sll2();
    linux_sll2_fields();
    texts_of_fields();
    kinds_of_fields();
    names_of_numbers();
    popping();
    pushing();
    setting();
    setting_more();
    replacing_links();
    replacing_tags();
    replacing_by_what_is_no_tag();
    replacing_arp();
    building();
    not_building();
    writing_frames();
    not_writing_frames();
    layout_of_rows();
    rows();
    writing_captures();
    unknown_starts();
    no_frame();
    drawn_frames();
    layout_of_a_switch();
    sets_of_ports();
    learning();
    forgetting();
    ports_of_a_switch();
    leaving();
    discarding();
    unfit_ports();
    unfit_numbers_of_a_received_frame();
    printf("%u passed, %u failed\n", passed, failed);
    return failed ? 1 : 0;
}
