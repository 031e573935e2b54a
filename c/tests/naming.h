/* Tests of what fields and numbers are called, in the words of their standards and registries.
 */
#ifndef NAMING_H
#define NAMING_H

#include "check.h"

/* whether a call gave this text in front of what was there: 0xA5 */
static int is_text(uint32_t status, const char *text, size_t room, size_t len, const char *wanted) {
    if (status == ETHERPEEL_DONE && len == strlen(wanted) && memcmp(text, wanted, len) == 0 &&
        all_are(text + len, room - len, 0xA5))
        return 1;
    printf("status %u, '%.*s', and not '%s'\n", (unsigned)status, (int)(len < room ? len : room),
           text, wanted);
    return 0;
}

static int is_called(uint32_t name, uint32_t part, const char *wanted) {
    char text[64];
    size_t len = 99;
    memset(text, 0xA5, sizeof text);
    const uint32_t status = etherpeel_field_text(name, part, text, sizeof text, &len);
    return is_text(status, text, sizeof text, len, wanted);
}

static int is_named(uint32_t kind, uint64_t number, const char *wanted) {
    char text[64];
    size_t len = 99;
    memset(text, 0xA5, sizeof text);
    const uint32_t status = etherpeel_number_name(kind, number, text, sizeof text, &len);
    return is_text(status, text, sizeof text, len, wanted);
}

/* whether the field has no such text, and nothing is written */
static int is_no_text(uint32_t name, uint32_t part) {
    char text[64];
    size_t len = 99;
    memset(text, 0xA5, sizeof text);
    return etherpeel_field_text(name, part, text, sizeof text, &len) == ETHERPEEL_NO_TEXT &&
           len == 0 && all_are(text, sizeof text, 0xA5);
}

/* whether the number has no name, and nothing is written */
static int is_unnamed(uint32_t kind, uint64_t number) {
    char text[64];
    size_t len = 99;
    memset(text, 0xA5, sizeof text);
    return etherpeel_number_name(kind, number, text, sizeof text, &len) == ETHERPEEL_NO_TEXT &&
           len == 0 && all_are(text, sizeof text, 0xA5);
}

static void texts_of_fields(void) {
    char text[8];
    size_t len = 99;
    CHECK(is_called(ETHERPEEL_FIELD_VLAN_VID, ETHERPEEL_PART_COLUMN, "vlan.vid"));
    CHECK(is_called(ETHERPEEL_FIELD_VLAN_VID, ETHERPEEL_PART_TITLE, "VLAN identifier"));
    CHECK(is_called(ETHERPEEL_FIELD_VLAN_VID, ETHERPEEL_PART_ABBREVIATION, "VID"));
    CHECK(is_called(11, 1, "vlan.vid") && is_called(11, 2, "VLAN identifier"));
    /* a check sequence is one of Ethernet (IEEE 802.3, 3.2.9) */
    CHECK(is_called(ETHERPEEL_FIELD_FCS, ETHERPEEL_PART_COLUMN, "eth.fcs"));
    CHECK(is_called(ETHERPEEL_FIELD_FCS, ETHERPEEL_PART_TITLE, "Frame check sequence"));
    CHECK(is_called(ETHERPEEL_FIELD_FCS, ETHERPEEL_PART_ABBREVIATION, "FCS"));
    /* no column of a row has the version */
    CHECK(is_called(ETHERPEEL_FIELD_MACSEC_V, ETHERPEEL_PART_COLUMN, "macsec.v"));
    CHECK(is_called(ETHERPEEL_FIELD_MACSEC_AN, ETHERPEEL_PART_TITLE, "Association number"));
    CHECK(is_called(ETHERPEEL_FIELD_ARP_OPERATION, ETHERPEEL_PART_ABBREVIATION, "ar$op"));
    CHECK(is_called(ETHERPEEL_FIELD_LINUX_SLL_HARDWARE_TYPE, ETHERPEEL_PART_TITLE, "ARPHRD type"));
    CHECK(is_called(ETHERPEEL_FIELD_LINUX_SLL2_ADDRESS, ETHERPEEL_PART_COLUMN, "sll2.addr"));
    /* the standard has no abbreviation */
    CHECK(is_called(ETHERPEEL_FIELD_ETHERNET2_DESTINATION, ETHERPEEL_PART_ABBREVIATION, ""));
    CHECK(etherpeel_field_text(1, ETHERPEEL_PART_ABBREVIATION, NULL, 0, &len) == ETHERPEEL_DONE);
    CHECK(len == 0);
    /* no field, no part */
    CHECK(is_no_text(0, 1) && is_no_text(42, 1) && is_no_text(UINT32_MAX, 2));
    CHECK(is_no_text(11, 0) && is_no_text(11, 4) && is_no_text(11, UINT32_MAX));
    /* too little room */
    memset(text, 0xA5, sizeof text);
    CHECK(etherpeel_field_text(11, 1, text, 7, &len) == ETHERPEEL_NO_ROOM && len == 8);
    CHECK(all_are(text, sizeof text, 0xA5));
    CHECK(etherpeel_field_text(11, 1, NULL, 0, &len) == ETHERPEEL_NO_ROOM && len == 8);
    CHECK(etherpeel_field_text(11, 1, text, 8, &len) == ETHERPEEL_DONE && len == 8);
    CHECK(memcmp(text, "vlan.vid", 8) == 0);
}

static void kinds_of_fields(void) {
    CHECK(etherpeel_field_kind(ETHERPEEL_FIELD_VLAN_VID) == ETHERPEEL_KIND_NUMBER);
    CHECK(etherpeel_field_kind(ETHERPEEL_FIELD_VLAN_DEI) == ETHERPEEL_KIND_FLAG);
    CHECK(etherpeel_field_kind(ETHERPEEL_FIELD_VLAN_ETHER_TYPE) == ETHERPEEL_KIND_ETHER_TYPE);
    CHECK(etherpeel_field_kind(ETHERPEEL_FIELD_ARP_HARDWARE_TYPE) == ETHERPEEL_KIND_HARDWARE_TYPE);
    CHECK(etherpeel_field_kind(ETHERPEEL_FIELD_LINUX_SLL_PACKET_TYPE) ==
          ETHERPEEL_KIND_PACKET_TYPE);
    CHECK(etherpeel_field_kind(ETHERPEEL_FIELD_ARP_OPERATION) == ETHERPEEL_KIND_OPERATION);
    CHECK(etherpeel_field_kind(ETHERPEEL_FIELD_ETHERNET2_SOURCE) == ETHERPEEL_KIND_BYTES);
    CHECK(etherpeel_field_kind(ETHERPEEL_FIELD_ARP_SENDER_PROTOCOL) ==
          ETHERPEEL_KIND_PROTOCOL_ADDRESS);
    CHECK(etherpeel_field_kind(0) == 0 && etherpeel_field_kind(42) == 0);
    CHECK(etherpeel_field_kind(UINT32_MAX) == 0);
}

static void names_of_numbers(void) {
    char text[4];
    size_t len = 99;
    CHECK(is_named(ETHERPEEL_KIND_ETHER_TYPE, 0x0800, "IPv4"));
    CHECK(is_named(ETHERPEEL_KIND_ETHER_TYPE, 0x86DD, "IPv6"));
    CHECK(is_named(ETHERPEEL_KIND_ETHER_TYPE, 0x88F7, "PTP"));
    CHECK(is_named(ETHERPEEL_KIND_HARDWARE_TYPE, 1, "Ethernet"));
    CHECK(is_named(ETHERPEEL_KIND_HARDWARE_TYPE, 772, "loopback"));
    CHECK(is_named(ETHERPEEL_KIND_PACKET_TYPE, 0, "to us"));
    CHECK(is_named(ETHERPEEL_KIND_PACKET_TYPE, 4, "sent by us"));
    CHECK(is_named(ETHERPEEL_KIND_OPERATION, 1, "request"));
    CHECK(is_named(ETHERPEEL_KIND_OPERATION, 2, "reply"));
    CHECK(is_named(ETHERPEEL_KIND_LINK_TYPE, 276, "Linux cooked capture v2"));
    /* numbers without a name, kinds whose numbers have none, no kinds */
    CHECK(is_unnamed(ETHERPEEL_KIND_ETHER_TYPE, 65535) && is_unnamed(ETHERPEEL_KIND_OPERATION, 0));
    CHECK(is_unnamed(ETHERPEEL_KIND_ETHER_TYPE, 0x100000800) &&
          is_unnamed(ETHERPEEL_KIND_PACKET_TYPE, UINT64_MAX));
    CHECK(is_unnamed(ETHERPEEL_KIND_NUMBER, 1) && is_unnamed(ETHERPEEL_KIND_TIME, 0));
    CHECK(is_unnamed(0, 1) && is_unnamed(13, 1) && is_unnamed(UINT32_MAX, 1));
    /* too little room */
    memset(text, 0xA5, sizeof text);
    CHECK(etherpeel_number_name(ETHERPEEL_KIND_ETHER_TYPE, 0x0800, text, 3, &len) ==
          ETHERPEEL_NO_ROOM);
    CHECK(len == 4 && all_are(text, sizeof text, 0xA5));
    CHECK(etherpeel_number_name(ETHERPEEL_KIND_ETHER_TYPE, 0x0800, text, 4, &len) ==
          ETHERPEEL_DONE);
    CHECK(len == 4 && memcmp(text, "IPv4", 4) == 0);
}

#endif
