/* Tests of whole frames that are written, and of rows of packets, which tests.c
 * runs. */
#ifndef WRITING_H
#define WRITING_H

#include "check.h"

/* to all stations, from 02:00:00:00:00:01 */
#define TO_ALL 0xFF, 0xFF, 0xFF, 0xFF, 0xFF, 0xFF, 2, 0, 0, 0, 0, 1

/* who has 192.0.2.2, tell 192.0.2.1, with a VLAN tag and 14 bytes of padding */
static const uint8_t PADDED[] = {
    TO_ALL, 0x81, 0x00, 0x00, 0x64, 0x08, 0x06, 0, 1, 0x08, 0x00, 6, 4, 0, 1,   2, 0,
    0,      0,    0,    1,    192,  0,    2,    1, 0, 0,    0,    0, 0, 0, 192, 0, 2,
    2,      0,    0,    0,    0,    0,    0,    0, 0, 0,    0,    0, 0, 0, 0};
/* a SecTag that names 4 bytes of payload, a VLAN tag in these, an integrity
 * check value, and a frame check sequence */
static const uint8_t SECURED[] = {TO_ALL, 0x88, 0xE5, 0x00, 6,    0,    0,    0,
                                  1,      0x81, 0x00, 0x00, 0x64, 0x08, 0x00, 0xA1,
                                  0xA2,   0xA3, 0xF1, 0xF2, 0xF3, 0xF4};
/* a cooked capture of a GRE tunnel, and a byte */
static const uint8_t TUNNELLED[] = {0, 0, 0x03, 0x0A, 0, 0, 0, 0, 0, 0, 0, 0, 0, 0, 0x08, 0x00, 9};

/* whether units before the rest of a frame make these bytes, and nothing less
 * room than they take */
static int gives_frame(const etherpeel_unit *units, size_t count, const uint8_t *frame, size_t len,
                       size_t rest_start, const uint8_t *expected, size_t expected_len) {
    uint8_t target[80];
    size_t written = 99;
    memset(target, 0xA5, sizeof target);
    if (etherpeel_write_frame(units, count, frame, len, rest_start, target, expected_len - 1,
                              &written) != ETHERPEEL_NO_ROOM ||
        written != expected_len || !all_are(target, sizeof target, 0xA5))
        return 0;
    written = 99;
    return etherpeel_write_frame(units, count, frame, len, rest_start, target, sizeof target,
                                 &written) == ETHERPEEL_DONE &&
           written == expected_len && memcmp(target, expected, written) == 0 &&
           all_are(target + written, sizeof target - written, 0xA5);
}

/* whether nothing is written, for this reason */
static int gives_no_frame(const etherpeel_unit *units, size_t count, size_t rest_start,
                          uint32_t status, size_t index) {
    uint8_t target[80];
    size_t written = 99;
    memset(target, 0xA5, sizeof target);
    return etherpeel_write_frame(units, count, PADDED, sizeof PADDED, rest_start, target,
                                 sizeof target, &written) == status &&
           written == index && all_are(target, sizeof target, 0xA5);
}

/* the units of a frame, and where they end */
static size_t units_of(uint32_t start, const uint8_t *frame, size_t len, etherpeel_unit *units,
                       size_t *count) {
    const etherpeel_unit *last;
    memset(units, 0, 4 * sizeof *units);
    CHECK(etherpeel_walk(start, 0, frame, len, units, 4, count) == ETHERPEEL_DONE);
    last = &units[*count - 1];
    return last->offset + last->header_len;
}

static void writing_frames(void) {
    uint8_t expected[80];
    etherpeel_unit units[4];
    size_t count, rest_start;
    rest_start = units_of(ETHERPEEL_START_ETHERNET2, PADDED, sizeof PADDED, units, &count);
    CHECK(count == 3 && rest_start == 46);
    CHECK(gives_frame(units, 3, PADDED, sizeof PADDED, 46, PADDED, sizeof PADDED));
    /* another VLAN identifier, and an operation; the padding stays */
    memcpy(expected, PADDED, sizeof PADDED);
    expected[14] = 0x01, expected[15] = 0x23, expected[25] = 2;
    units[1].vlan.vid = 0x123, units[2].arp.operation = 2;
    CHECK(gives_frame(units, 3, PADDED, sizeof PADDED, 46, expected, sizeof PADDED));
    /* no tag: the type that announced it is not set */
    memcpy(expected + 14, PADDED + 18, sizeof PADDED - 18);
    units[1] = units[2], units[1].arp.operation = 1;
    CHECK(gives_frame(units, 2, PADDED, sizeof PADDED, 46, expected, sizeof PADDED - 4));
    CHECK(gives_frame(units, 1, PADDED, sizeof PADDED, sizeof PADDED, PADDED, 14));
    rest_start = units_of(ETHERPEEL_START_ETHERNET2_FCS, SECURED, sizeof SECURED, units, &count);
    CHECK(count == 3 && rest_start == 26);
    CHECK(gives_frame(units, 3, SECURED, sizeof SECURED, 26, SECURED, sizeof SECURED));
    memcpy(expected, SECURED, sizeof SECURED);
    expected[19] = 9, expected[22] = 0xE0, expected[23] = 7;
    units[1].macsec.packet_number = 9, units[2].vlan.pcp = 7, units[2].vlan.vid = 7;
    CHECK(gives_frame(units, 3, SECURED, sizeof SECURED, 26, expected, sizeof SECURED));
    rest_start = units_of(ETHERPEEL_START_LINUX_SLL, TUNNELLED, sizeof TUNNELLED, units, &count);
    CHECK(count == 1 && rest_start == 16);
    CHECK(gives_frame(units, 1, TUNNELLED, sizeof TUNNELLED, 16, TUNNELLED, sizeof TUNNELLED));
}

static void not_writing_frames(void) {
    etherpeel_unit units[10];
    size_t count;
    units_of(ETHERPEEL_START_ETHERNET2, PADDED, sizeof PADDED, units, &count);
    CHECK(gives_no_frame(NULL, 0, 46, ETHERPEEL_BAD_KIND, 0));
    CHECK(gives_no_frame(units + 1, 2, 46, ETHERPEEL_BAD_KIND, 0));
    CHECK(gives_no_frame(units, 3, sizeof PADDED + 1, ETHERPEEL_BAD_FIELD, 3));
    units[2].arp.sender_hardware = sizeof PADDED - 5;
    CHECK(gives_no_frame(units, 3, sizeof PADDED + 1, ETHERPEEL_BAD_FIELD, 2));
    for (size_t i = 2; i < 10; i++)
        units[i] = units[1];
    CHECK(gives_no_frame(units, 10, 46, ETHERPEEL_TOO_MANY_TAGS, 9));
    units[1].vlan.vid = 4096;
    CHECK(gives_no_frame(units, 10, 46, ETHERPEEL_BAD_FIELD, 1));
}

static void layout_of_rows(void) {
    CHECK(sizeof(etherpeel_row) == 64 && offsetof(etherpeel_row, destination) == 8 &&
          offsetof(etherpeel_row, source) == 16 && offsetof(etherpeel_row, captured_len) == 24 &&
          offsetof(etherpeel_row, fault_offset) == 32 &&
          offsetof(etherpeel_row, original_len) == 40 && offsetof(etherpeel_row, fault) == 44);
    CHECK(offsetof(etherpeel_row, link_type) == 48 && offsetof(etherpeel_row, ether_type) == 50 &&
          offsetof(etherpeel_row, vlan_ids) == 52 && offsetof(etherpeel_row, vlan_count) == 58 &&
          offsetof(etherpeel_row, has_addresses) == 60 &&
          offsetof(etherpeel_row, has_macsec) == 61 && offsetof(etherpeel_row, has_arp) == 62);
    CHECK(etherpeel_sizeof(ETHERPEEL_STRUCT_ROW) == sizeof(etherpeel_row));
}

/* whether a row has these headers, in a packet with Ethernet addresses of
 * TO_ALL or none */
static int has_headers(const etherpeel_row *row, int addresses, uint16_t ether_type,
                       uint16_t vlan_count, uint16_t vid, int macsec, int arp) {
    return row->has_addresses == addresses &&
           row->destination == (addresses ? UINT64_C(0xFFFFFFFFFFFF) : 0) &&
           row->source == (addresses ? UINT64_C(0x020000000001) : 0) &&
           row->ether_type == ether_type && row->vlan_count == vlan_count &&
           row->vlan_ids[0] == vid && row->vlan_ids[1] == 0 && row->vlan_ids[2] == 0 &&
           row->has_macsec == macsec && row->has_arp == arp;
}

static void rows(void) {
    etherpeel_captured packets[5];
    etherpeel_row found[6];
    memset(packets, 0, sizeof packets);
    memset(found, 0xA5, sizeof found);
    for (size_t i = 0; i < 5; i++) {
        packets[i].packet = PADDED, packets[i].packet_len = sizeof PADDED;
        packets[i].original_len = 64, packets[i].link_type = 1;
    }
    packets[0].has_time = 1, packets[0].seconds = 1700000000, packets[0].nanoseconds = 999999999;
    packets[1].packet = SECURED, packets[1].packet_len = sizeof SECURED;
    packets[1].original_len = sizeof SECURED, packets[1].has_fcs_len = 1, packets[1].fcs_len = 4;
    packets[1].has_time = 1, packets[1].seconds = UINT64_C(9223372036854775808) / 1000000000;
    packets[1].nanoseconds = 854775807;
    packets[2].packet_len = 16, packets[2].has_time = 1;
    packets[2].seconds = packets[1].seconds, packets[2].nanoseconds = 854775808;
    packets[3].packet = TUNNELLED, packets[3].packet_len = sizeof TUNNELLED;
    packets[3].link_type = 113;
    packets[4].link_type = 147;
    CHECK(etherpeel_rows(packets, 5, found, 4) == ETHERPEEL_NO_ROOM);
    CHECK(all_are((const uint8_t *)found, sizeof found, 0xA5));
    CHECK(etherpeel_rows(packets, 5, found, 6) == ETHERPEEL_DONE);
    CHECK(found[0].time == INT64_C(1700000000999999999) && found[1].time == INT64_MAX);
    CHECK(found[2].time == ETHERPEEL_NO_TIME && found[3].time == ETHERPEEL_NO_TIME);
    CHECK(found[0].captured_len == sizeof PADDED && found[0].original_len == 64 &&
          found[0].link_type == 1 && found[0].fault == 0 && found[0].fault_offset == 0);
    CHECK(has_headers(&found[0], 1, 0, 1, 0x64, 0, 1));
    CHECK(found[1].captured_len == sizeof SECURED &&
          has_headers(&found[1], 1, 0x0800, 1, 0x64, 1, 0));
    /* the tag is cut */
    CHECK(found[2].fault == ETHERPEEL_FAULT_LENGTH && found[2].fault_offset == 14);
    CHECK(found[2].captured_len == 16 && has_headers(&found[2], 1, 0x8100, 0, 0, 0, 0));
    CHECK(found[3].link_type == 113 && found[3].fault == 0 &&
          has_headers(&found[3], 0, 0, 0, 0, 0, 0));
    CHECK(found[4].link_type == 147 && found[4].original_len == 64 && found[4].fault == 0);
    CHECK(has_headers(&found[4], 0, 0, 0, 0, 0, 0));
    CHECK(all_are((const uint8_t *)&found[5], sizeof found[5], 0xA5));
    CHECK(etherpeel_rows(NULL, 0, NULL, 0) == ETHERPEEL_DONE);
}

static void writing_captures(void) {
    /* draft-ietf-opsawg-pcap, 4: 0xA1B23C4D, 2.4, snap length 262144, link type 1 */
    static const uint8_t plain[] = {0x4D, 0x3C, 0xB2, 0xA1, 2, 0, 4, 0, 0, 0, 0, 0,
                                    0,    0,    0,    0,    0, 0, 4, 0, 1, 0, 0, 0};
    /* 5: 1700000000.999999999, two bytes of 60 */
    static const uint8_t record[] = {0x00, 0xF1, 0x53, 0x65, 0xFF, 0xC9, 0x9A, 0x3B,
                                     2,    0,    0,    0,    60,   0,    0,    0};
    uint8_t file[42];
    etherpeel_captured packet, read;
    etherpeel_capture_end end;
    size_t count = 0;
    memset(file, 0xA5, sizeof file), memset(&read, 0, sizeof read);
    CHECK(etherpeel_capture_header(1, 262144, 1, file) == ETHERPEEL_BAD_FIELD);
    CHECK(etherpeel_capture_header(1, 262144, 32, file) == ETHERPEEL_BAD_FIELD);
    CHECK(all_are(file, sizeof file, 0xA5));
    CHECK(etherpeel_capture_header(1, 262144, 0, file) == ETHERPEEL_DONE);
    CHECK(memcmp(file, plain, 24) == 0 && all_are(file + 24, 18, 0xA5));
    /* P, and two pairs of bytes */
    CHECK(etherpeel_capture_header(0xFFFF, 0, 4, file) == ETHERPEEL_DONE);
    CHECK(file[20] == 0xFF && file[21] == 0xFF && file[22] == 0 && file[23] == 0x24);
    CHECK(etherpeel_capture_header(1, 262144, 4, file) == ETHERPEEL_DONE);
    memset(&packet, 0, sizeof packet);
    packet.packet = TO_TWO, packet.packet_len = 2, packet.original_len = 60;
    packet.seconds = 1700000000, packet.nanoseconds = 999999999, packet.has_time = 1;
    CHECK(etherpeel_capture_record(&packet, file + 24) == ETHERPEEL_DONE);
    CHECK(memcmp(file + 24, record, 16) == 0 && all_are(file + 40, 2, 0xA5));
    memcpy(file + 40, packet.packet, 2);
    CHECK(etherpeel_capture(file, sizeof file, &read, 1, &count, &end) == ETHERPEEL_DONE &&
          count == 1);
    CHECK(read.packet == file + 40 && read.packet_len == 2 && read.original_len == 60 &&
          read.seconds == 1700000000 && read.nanoseconds == 999999999 && read.has_time == 1 &&
          read.link_type == 1 && read.has_fcs_len == 1 && read.fcs_len == 4);
    packet.nanoseconds = 1000000000;
    CHECK(etherpeel_capture_record(&packet, file + 24) == ETHERPEEL_BAD_FIELD);
    packet.nanoseconds = 0, packet.seconds = UINT64_C(0x100000000);
    CHECK(etherpeel_capture_record(&packet, file + 24) == ETHERPEEL_BAD_FIELD);
    packet.packet_len = 262145, packet.has_time = 0;
    CHECK(etherpeel_capture_record(&packet, file + 24) == ETHERPEEL_BAD_FIELD);
    CHECK(memcmp(file + 24, record, 16) == 0);
    packet.packet_len = 2;
    CHECK(etherpeel_capture_record(&packet, file + 24) == ETHERPEEL_DONE &&
          all_are(file + 24, 8, 0));
}

#endif
