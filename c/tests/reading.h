/* Tests of the calls that read capture files unit by unit, which tests.c runs. What is wanted
 * follows from draft-ietf-opsawg-pcap and draft-ietf-opsawg-pcapng, and etherpeel_capture gives the
 * same packets. */
#ifndef READING_H
#define READING_H

#include "check.h"

/* a classic file, least significant byte first, in nanoseconds, with a check sequence of 4 bytes:
 * packets of 2 bytes at 1.000000002 s, and of none, cut from 9, at 3.000000004 s */
static const uint8_t NANO_FILE[] = {
    0x4D, 0x3C, 0xB2, 0xA1, 2, 0, 4, 0, 0, 0, 0, 0, 0, 0, 0, 0, 0x60, 0, 0,    0,    1, 0,
    0,    0x24, 1,    0,    0, 0, 2, 0, 0, 0, 2, 0, 0, 0, 2, 0, 0,    0, 0xAA, 0xBB, /* a record */
    3,    0,    0,    0,    4, 0, 0, 0, 0, 0, 0, 0, 9, 0, 0, 0};
/* a section, most significant byte first, without a length */
#define SECTION_HIGH                                                                           \
    0x0A, 0x0D, 0x0D, 0x0A, 0, 0, 0, 28, 0x1A, 0x2B, 0x3C, 0x4D, 0, 1, 0, 0, 0xFF, 0xFF, 0xFF, \
        0xFF, 0xFF, 0xFF, 0xFF, 0xFF, 0, 0, 0, 28
/* .. and least significant byte first */
#define SECTION_LOW                                                                            \
    0x0A, 0x0D, 0x0D, 0x0A, 28, 0, 0, 0, 0x4D, 0x3C, 0x2B, 0x1A, 1, 0, 0, 0, 0xFF, 0xFF, 0xFF, \
        0xFF, 0xFF, 0xFF, 0xFF, 0xFF, 28, 0, 0, 0
/* an interface of Ethernet with the snap length 64, times in milliseconds from 1000 s on, and a
 * check sequence of 4 bytes */
#define OF_ETHERNET                                                                              \
    0, 0, 0, 1, 0, 0, 0, 52, 0, 1, 0, 0, 0, 0, 0, 64, 0, 9, 0, 1, 3, 0, 0, 0, 0, 14, 0, 8, 0, 0, \
        0, 0, 0, 0, 0x03, 0xE8, 0, 13, 0, 1, 4, 0, 0, 0, 0, 0, 0, 0, 0, 0, 0, 52
/* an interface of Linux cooked capture without options, in either byte order */
#define OF_COOKED_HIGH 0, 0, 0, 1, 0, 0, 0, 20, 0, 113, 0, 0, 0, 0, 0, 0, 0, 0, 0, 20
#define OF_COOKED_LOW 1, 0, 0, 0, 20, 0, 0, 0, 113, 0, 0, 0, 0, 0, 0, 0, 20, 0, 0, 0
/* a byte on an interface after five ticks, of seven bytes */
#define ENHANCED_HIGH(interface, byte)                                                           \
    0, 0, 0, 6, 0, 0, 0, 36, 0, 0, 0, interface, 0, 0, 0, 0, 0, 0, 0, 5, 0, 0, 0, 1, 0, 0, 0, 7, \
        byte, 0, 0, 0, 0, 0, 0, 36
/* a packet of two bytes on the first interface, and a block of a type that is not read */
#define SIMPLE_LOW 3, 0, 0, 0, 20, 0, 0, 0, 2, 0, 0, 0, 0xCD, 0xEF, 0, 0, 20, 0, 0, 0
#define OTHER_LOW 0xAD, 0x0B, 0, 0, 16, 0, 0, 0, 1, 2, 3, 4, 16, 0, 0, 0

/* two sections: one with two interfaces and a packet on each, one with an interface and a simple
 * packet */
static const uint8_t TWO_SECTIONS[] = {SECTION_HIGH,
                                       OF_ETHERNET,
                                       OF_COOKED_HIGH,
                                       ENHANCED_HIGH(1, 0xA1),
                                       ENHANCED_HIGH(0, 0xA0),
                                       SECTION_LOW,
                                       OTHER_LOW,
                                       OF_COOKED_LOW,
                                       SIMPLE_LOW};

static void layout_of_a_reader(void) {
    CHECK(sizeof(etherpeel_reader) == 24 && offsetof(etherpeel_reader, snap_len) == 8 &&
          offsetof(etherpeel_reader, link_type) == 12 && offsetof(etherpeel_reader, state) == 14 &&
          offsetof(etherpeel_reader, is_little_endian) == 15 &&
          offsetof(etherpeel_reader, has_nanoseconds) == 16 &&
          offsetof(etherpeel_reader, has_fcs_len) == 17 &&
          offsetof(etherpeel_reader, fcs_len) == 18);
    CHECK(sizeof(etherpeel_interface) == 24 && offsetof(etherpeel_interface, snap_len) == 8 &&
          offsetof(etherpeel_interface, link_type) == 12 &&
          offsetof(etherpeel_interface, has_fcs_len) == 14 &&
          offsetof(etherpeel_interface, fcs_len) == 15 &&
          offsetof(etherpeel_interface, has_time_resolution) == 16 &&
          offsetof(etherpeel_interface, time_resolution) == 17);
    CHECK(sizeof(etherpeel_read_unit) == 24 && offsetof(etherpeel_read_unit, needed) == 8 &&
          offsetof(etherpeel_read_unit, interface) == 16 &&
          offsetof(etherpeel_read_unit, has_packet) == 20 &&
          offsetof(etherpeel_read_unit, has_interface) == 21);
    CHECK(etherpeel_sizeof(ETHERPEEL_STRUCT_READER) == 24 &&
          etherpeel_sizeof(ETHERPEEL_STRUCT_INTERFACE) == 24 &&
          etherpeel_sizeof(ETHERPEEL_STRUCT_READ_UNIT) == 24);
}

/* A reader with its table and what it has returned last. */
typedef struct reading {
    etherpeel_reader reader;
    etherpeel_interface interfaces[4];
    etherpeel_captured packet;
    etherpeel_read_unit unit;
} reading;

static reading at_the_beginning(void) {
    reading r;
    memset(&r, 0, sizeof r);
    memset(r.interfaces, 0xA5, sizeof r.interfaces);
    return r;
}

static uint32_t read_next(reading *r, size_t room, const uint8_t *bytes, size_t len) {
    return etherpeel_reader_read(&r->reader, r->interfaces, room, bytes, len, &r->packet, &r->unit);
}

static int read_packet(const reading *r, const uint8_t *bytes, size_t len, uint64_t seconds,
                       uint32_t nanoseconds, unsigned link) {
    const etherpeel_captured *p = &r->packet;
    return r->unit.has_packet == 1 && p->packet_len == len && (len == 0 || p->packet == bytes) &&
           p->seconds == seconds && p->nanoseconds == nanoseconds && p->link_type == link;
}

static void reading_a_classic_file(void) {
    reading r = at_the_beginning();
    const uint8_t *at = NANO_FILE;
    CHECK(read_next(&r, 0, at, sizeof NANO_FILE) == ETHERPEEL_DONE);
    CHECK(r.unit.len == 24 && r.unit.needed == 0 && r.unit.has_packet == 0 &&
          r.unit.has_interface == 0 && all_are(&r.packet, sizeof r.packet, 0));
    CHECK(r.reader.state == ETHERPEEL_READER_CLASSIC && r.reader.snap_len == 96 &&
          r.reader.link_type == 1 && r.reader.is_little_endian == 1);
    CHECK(r.reader.has_nanoseconds == 1 && r.reader.has_fcs_len == 1 && r.reader.fcs_len == 4 &&
          r.reader.interface_count == 0);
    CHECK(read_next(&r, 0, at + 24, sizeof NANO_FILE - 24) == ETHERPEEL_DONE);
    CHECK(r.unit.len == 18 && read_packet(&r, at + 40, 2, 1, 2, 1) && r.packet.original_len == 2 &&
          r.packet.has_time == 1 && r.packet.has_fcs_len == 1 && r.packet.fcs_len == 4);
    CHECK(read_next(&r, 0, at + 42, 16) == ETHERPEEL_DONE);
    CHECK(r.unit.len == 16 && read_packet(&r, NULL, 0, 3, 4, 1) && r.packet.original_len == 9 &&
          r.unit.has_interface == 0);
    /* the file is complete: nothing is left, and it has begun */
    CHECK(read_next(&r, 0, NULL, 0) == ETHERPEEL_SHORT && r.unit.needed == 16 && r.unit.len == 0 &&
          r.reader.state != ETHERPEEL_READER_BEGINNING);
}

static void reading_sections(void) {
    static const size_t lens[] = {28, 52, 20, 36, 36, 28, 16, 20, 20};
    static const size_t counts[] = {0, 1, 2, 2, 2, 0, 0, 1, 1};
    reading r = at_the_beginning();
    const uint8_t *at = TWO_SECTIONS, *end = TWO_SECTIONS + sizeof TWO_SECTIONS;
    for (size_t i = 0; i < COUNT(lens); at += lens[i++]) {
        CHECK(read_next(&r, 4, at, (size_t)(end - at)) == ETHERPEEL_DONE && r.unit.len == lens[i]);
        CHECK(r.reader.state == ETHERPEEL_READER_SECTION && r.reader.interface_count == counts[i] &&
              r.reader.is_little_endian == (i >= 5));
        CHECK(r.unit.has_packet == (i == 3 || i == 4 || i == 8));
        if (i == 2)
            CHECK(r.interfaces[0].link_type == 1 && r.interfaces[0].snap_len == 64 &&
                  r.interfaces[0].has_fcs_len == 1 && r.interfaces[0].fcs_len == 4 &&
                  r.interfaces[0].has_time_resolution == 1 &&
                  r.interfaces[0].time_resolution == 3 && r.interfaces[0].time_offset == 1000 &&
                  r.interfaces[1].link_type == 113 && r.interfaces[1].snap_len == 0 &&
                  r.interfaces[1].has_fcs_len == 0 && r.interfaces[1].has_time_resolution == 0 &&
                  r.interfaces[1].time_offset == 0);
        if (i == 3)
            CHECK(read_packet(&r, at + 28, 1, 0, 5000, 113) && r.unit.has_interface == 1 &&
                  r.unit.interface == 1 && r.packet.original_len == 7 && r.packet.has_fcs_len == 0);
        if (i == 4)
            CHECK(read_packet(&r, at + 28, 1, 1000, 5000000, 1) && r.unit.has_interface == 1 &&
                  r.unit.interface == 0 && r.packet.has_fcs_len == 1 && r.packet.fcs_len == 4);
        if (i == 8)
            CHECK(read_packet(&r, at + 12, 2, 0, 0, 113) && r.packet.has_time == 0 &&
                  r.unit.has_interface == 1 && r.unit.interface == 0);
    }
    CHECK(at == end && all_are(&r.interfaces[2], 2 * sizeof r.interfaces[2], 0xA5));
}

/* Reads a file that comes in pieces of so many bytes into memory that ends where a unit does, and
 * compares its packets with those of etherpeel_capture. */
static void in_pieces(guarded page, const uint8_t *file, size_t len, size_t piece) {
    etherpeel_captured wanted[4];
    etherpeel_capture_end end;
    size_t count, found = 0, taken = 0, there = 0;
    reading r = at_the_beginning();
    memset(wanted, 0, sizeof wanted);
    CHECK(etherpeel_capture(file, len, wanted, 4, &count, &end) == ETHERPEEL_DONE && count <= 4);
    while (taken < len) {
        const uint8_t *bytes = copied(page, file + taken, there - taken);
        const uint32_t status = read_next(&r, 4, bytes, there - taken);
        if (status == ETHERPEEL_SHORT && there < len) {
            CHECK(r.unit.needed > there - taken && r.unit.needed <= len - taken);
            there = len - there < piece ? len : there + piece;
            continue;
        }
        CHECK(status == ETHERPEEL_DONE && r.unit.len > 0 && r.unit.len <= there - taken);
        if (status != ETHERPEEL_DONE) return;
        if (r.unit.has_packet && found < count) {
            const etherpeel_captured *w = &wanted[found++], *p = &r.packet;
            CHECK(p->packet_len == w->packet_len &&
                  (size_t)(p->packet - bytes) == (size_t)(w->packet - file) - taken &&
                  p->seconds == w->seconds && p->nanoseconds == w->nanoseconds &&
                  p->original_len == w->original_len && p->link_type == w->link_type &&
                  p->has_time == w->has_time && p->has_fcs_len == w->has_fcs_len &&
                  p->fcs_len == w->fcs_len);
        }
        taken += r.unit.len;
    }
    CHECK(found == count);
}

static void reading_in_pieces(void) {
    static const size_t pieces[] = {1, 7, 4096};
    const guarded page = guarded_page();
    for (size_t i = 0; i < COUNT(pieces); i++) {
        in_pieces(page, NANO_FILE, sizeof NANO_FILE, pieces[i]);
        in_pieces(page, TWO_SECTIONS, sizeof TWO_SECTIONS, pieces[i]);
    }
    release(page);
}

/* Reads the first so many bytes of a file, and compares their end with that of etherpeel_capture.
 */
static void to_the_end(const uint8_t *file, size_t len) {
    etherpeel_capture_end end;
    size_t count, found = 0, at = 0;
    reading r = at_the_beginning();
    const uint32_t wanted = etherpeel_capture(file, len, NULL, 0, &count, &end);
    uint32_t status;
    while ((status = read_next(&r, 4, file + at, len - at)) == ETHERPEEL_DONE) {
        found += r.unit.has_packet;
        at += r.unit.len;
    }
    CHECK(found == count && at == end.offset);
    if (wanted == ETHERPEEL_DONE)
        CHECK(status == ETHERPEEL_SHORT && at == len &&
              r.reader.state != ETHERPEEL_READER_BEGINNING);
    else
        CHECK(status == wanted && r.unit.needed == end.needed &&
              (at < len || r.reader.state == ETHERPEEL_READER_BEGINNING));
}

static void reading_cut_and_changed_files(void) {
    uint8_t changed[sizeof TWO_SECTIONS];
    const guarded page = guarded_page();
    for (size_t n = 0; n <= sizeof NANO_FILE; n++) to_the_end(copied(page, NANO_FILE, n), n);
    for (size_t n = 0; n <= sizeof TWO_SECTIONS; n++) to_the_end(copied(page, TWO_SECTIONS, n), n);
    /* each byte with each bit turned */
    for (size_t i = 0; i < 8 * sizeof changed; i++) {
        memcpy(changed, TWO_SECTIONS, sizeof changed);
        changed[i / 8] ^= (uint8_t)(1 << i % 8);
        to_the_end(copied(page, changed, sizeof changed), sizeof changed);
    }
    release(page);
}

/* After a refusal only the unit is set, and all of it is 0 but for what is needed. */
static int is_unread(const reading *r, const reading *before, size_t needed) {
    return memcmp(&r->reader, &before->reader, sizeof r->reader) == 0 &&
           memcmp(r->interfaces, before->interfaces, sizeof r->interfaces) == 0 &&
           memcmp(&r->packet, &before->packet, sizeof r->packet) == 0 && r->unit.len == 0 &&
           r->unit.needed == needed && r->unit.interface == 0 && r->unit.has_packet == 0 &&
           r->unit.has_interface == 0;
}

static int says(const reading *r, size_t room, const uint8_t *bytes, size_t len,
                const char *wanted) {
    char text[512];
    size_t text_len = 99;
    return etherpeel_reader_fault_text(&r->reader, r->interfaces, room, bytes, len, text,
                                       sizeof text, &text_len) == ETHERPEEL_DONE &&
           text_len == strlen(wanted) && memcmp(text, wanted, text_len) == 0;
}

static void units_that_are_refused(void) {
    static const uint8_t other[24] = {0x12, 0x34, 0x56, 0x78};
    static const uint8_t unknown[] = {ENHANCED_HIGH(0, 0xA0)};
    char text[8];
    size_t text_len = 99;
    reading r = at_the_beginning(), before = r;
    CHECK(read_next(&r, 4, NULL, 0) == ETHERPEEL_SHORT && is_unread(&r, &before, 24));
    CHECK(says(&r, 4, NANO_FILE, sizeof NANO_FILE, ""));
    CHECK(read_next(&r, 4, other, sizeof other) == ETHERPEEL_BAD_CAPTURE &&
          is_unread(&r, &before, 0));
    /* a packet of an interface that the section does not describe */
    CHECK(read_next(&r, 4, TWO_SECTIONS, 28) == ETHERPEEL_DONE);
    before = r;
    CHECK(read_next(&r, 4, unknown, sizeof unknown) == ETHERPEEL_BAD_CAPTURE &&
          is_unread(&r, &before, 0));
    CHECK(says(&r, 4, unknown, sizeof unknown,
               "A packet of a pcapng file names interface 0, which its section does not "
               "describe."));
    CHECK(etherpeel_reader_fault_text(&r.reader, r.interfaces, 4, unknown, sizeof unknown, text,
                                      sizeof text, &text_len) == ETHERPEEL_NO_ROOM &&
          text_len > sizeof text);
    /* an interface more than there is room for */
    CHECK(read_next(&r, 1, TWO_SECTIONS + 28, 52) == ETHERPEEL_DONE &&
          r.reader.interface_count == 1);
    before = r;
    CHECK(read_next(&r, 1, TWO_SECTIONS + 80, 20) == ETHERPEEL_NO_ROOM &&
          is_unread(&r, &before, 0));
    CHECK(says(&r, 1, TWO_SECTIONS + 80, 20,
               "A section of a pcapng file describes more interfaces than this reader keeps."));
    CHECK(read_next(&r, 2, TWO_SECTIONS + 80, 20) == ETHERPEEL_DONE &&
          r.reader.interface_count == 2);
}

static void readers_that_are_none(void) {
    char text[8];
    size_t text_len = 99;
    reading r = at_the_beginning(), before;
    r.reader.interface_count = 3;
    memset(&r.unit, 0xA5, sizeof r.unit);
    for (unsigned state = 0; state < 256; state++) {
        r.reader.state = (uint8_t)state;
        before = r;
        CHECK(read_next(&r, 2, NANO_FILE, sizeof NANO_FILE) == ETHERPEEL_BAD_FIELD &&
              memcmp(&r, &before, sizeof r) == 0);
        if (state <= 2) continue;
        CHECK(read_next(&r, 4, NANO_FILE, sizeof NANO_FILE) == ETHERPEEL_BAD_FIELD &&
              memcmp(&r, &before, sizeof r) == 0);
        CHECK(etherpeel_reader_fault_text(&r.reader, r.interfaces, 4, NANO_FILE, sizeof NANO_FILE,
                                          text, sizeof text, &text_len) == ETHERPEEL_BAD_FIELD &&
              text_len == 99);
    }
    /* every other reader is one: all bytes of a struct and its table are numbers */
    memset(&r.reader, 0xFF, sizeof r.reader);
    memset(r.interfaces, 0xFF, sizeof r.interfaces);
    r.reader.interface_count = 4;
    r.reader.state = ETHERPEEL_READER_SECTION;
    r.reader.is_little_endian = 0;
    CHECK(read_next(&r, 4, TWO_SECTIONS + 100, 36) == ETHERPEEL_DONE && r.unit.has_packet == 1 &&
          r.packet.link_type == 0xFFFF && r.packet.fcs_len == 0xFF);
    r.reader.state = ETHERPEEL_READER_CLASSIC;
    r.reader.is_little_endian = 0xFF;
    CHECK(read_next(&r, 4, NANO_FILE + 24, 18) == ETHERPEEL_DONE && r.packet.seconds == 1 &&
          r.packet.nanoseconds == 2 && r.packet.fcs_len == 0xFF);
}

#endif
