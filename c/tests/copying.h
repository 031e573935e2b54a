/* Tests of the calls that give the options of a block and write the units of a copy, which tests.c
 * runs. The units are laid out by hand in either byte order. Numbers in comments are sections of
 * draft-ietf-opsawg-pcapng; those after "pcap" are of draft-ietf-opsawg-pcap. */
#ifndef COPYING_H
#define COPYING_H

#include "check.h"

/* A unit of a capture file. */
typedef struct made {
    uint8_t bytes[200];
    size_t len;
    int is_little;
} made;

static void add_bytes(made *m, const void *bytes, size_t len) {
    if (len)
        memcpy(m->bytes + m->len, bytes, len);
    m->len += len;
}

static void add(made *m, size_t size, uint32_t number) {
    for (size_t i = 0; i < size; i++)
        m->bytes[m->len++] = (uint8_t)(number >> 8 * (m->is_little ? i : size - 1 - i));
}

static void add_padding(made *m, uint8_t byte) {
    while (m->len % 4)
        m->bytes[m->len++] = byte;
}

static made nothing(int is_little) {
    made m;
    memset(&m, 0, sizeof m);
    m.is_little = is_little;
    return m;
}

/* the type of a block, and room for its total length (3.1) */
static made begun(uint32_t type, int is_little) {
    made m = nothing(is_little);
    add(&m, 4, type);
    add(&m, 4, 0);
    return m;
}

/* the total length at both ends of a block (3.1) */
static made ended(made m) {
    const size_t len = m.len + 4;
    m.len = 4;
    add(&m, 4, (uint32_t)len);
    m.len = len - 4;
    add(&m, 4, (uint32_t)len);
    return m;
}

/* an option: code, length, value, padding (3.5) */
static void add_option(made *m, uint32_t code, const char *value, size_t len) {
    add(m, 2, code);
    add(m, 2, (uint32_t)len);
    add_bytes(m, value, len);
    add_padding(m, 0);
}

/* a section header without its options and its end, whose section length has this number in both
 * halves (4.1) */
static made section_begun(int is_little, uint32_t section_len) {
    made m = begun(0x0A0D0D0A, is_little);
    add(&m, 4, 0x1A2B3C4D);
    add(&m, 2, 1), add(&m, 2, 0);
    add(&m, 4, section_len), add(&m, 4, section_len);
    return m;
}

/* an interface of Ethernet without its options and its end (4.2) */
static made interface_begun(int is_little, uint32_t snap_len) {
    made m = begun(1, is_little);
    add(&m, 2, 1), add(&m, 2, 0);
    add(&m, 4, snap_len);
    return m;
}

/* the lengths of a packet, its bytes, and padding of these bytes */
static void add_packet(made *m, const void *packet, size_t len, uint32_t original_len,
                       uint8_t padding) {
    add(m, 4, (uint32_t)len), add(m, 4, original_len);
    add_bytes(m, packet, len);
    add_padding(m, padding);
}

/* a packet at 2^32 + 2 microseconds of the second interface, without its options and its end: an
 * enhanced packet (4.3), or an obsolete packet block, which also has a number of dropped packets
 * (A) */
static made packet_begun(int is_little, int is_obsolete, const void *packet, size_t len,
                         uint32_t original_len, uint8_t padding) {
    made m = begun(is_obsolete ? 2 : 6, is_little);
    if (is_obsolete)
        add(&m, 2, 1), add(&m, 2, 0x7777);
    else
        add(&m, 4, 1);
    add(&m, 4, 1), add(&m, 4, 2);
    add_packet(&m, packet, len, original_len, padding);
    return m;
}

/* a comment, an option of four bytes, and the end of options */
static made with_options(made m) {
    add_option(&m, 1, "kept", 4);
    add_option(&m, 2, "\1\2\3\4", 4);
    add_option(&m, 0, "", 0);
    return ended(m);
}

/* a simple packet, which gives only its original length (4.4) */
static made simple_packet(int is_little, const char *packet, size_t len, uint32_t original_len) {
    made m = begun(3, is_little);
    add(&m, 4, original_len);
    add_bytes(&m, packet, len);
    add_padding(&m, 0);
    return ended(m);
}

/* a block of another type, with four bytes */
static made other_block(int is_little, uint32_t type) {
    made m = begun(type, is_little);
    add_bytes(&m, "\1\2\3\4", 4);
    return ended(m);
}

/* the header of a classic file of Ethernet (pcap, 4), in microseconds */
static made file_header(int is_little, uint32_t snap_len) {
    made m = nothing(is_little);
    add(&m, 4, 0xA1B2C3D4), add(&m, 2, 2), add(&m, 2, 4);
    add(&m, 4, 0), add(&m, 4, 0), add(&m, 4, snap_len), add(&m, 4, 1);
    return m;
}

/* a record at the same time (pcap, 5), which has no padding */
static made classic_record(int is_little, const void *packet, size_t len, uint32_t original_len) {
    made m = nothing(is_little);
    add(&m, 4, 4294), add(&m, 4, 967298);
    add(&m, 4, (uint32_t)len), add(&m, 4, original_len);
    add_bytes(&m, packet, len);
    return m;
}

/* A reader with the interfaces of its section. */
typedef struct place {
    etherpeel_reader reader;
    etherpeel_interface interfaces[2];
} place;

/* in a section with two interfaces of Ethernet whose snap lengths are these */
static place in_section(int is_little, uint32_t snap_len) {
    place p;
    memset(&p, 0, sizeof p);
    p.reader.state = ETHERPEEL_READER_SECTION;
    p.reader.is_little_endian = (uint8_t)is_little;
    p.reader.interface_count = 2;
    for (size_t i = 0; i < 2; i++)
        p.interfaces[i].link_type = 1, p.interfaces[i].snap_len = snap_len;
    return p;
}

/* after the header of a classic file */
static place in_file(int is_little, uint32_t snap_len) {
    place p = in_section(is_little, 0);
    p.reader.state = ETHERPEEL_READER_CLASSIC;
    p.reader.interface_count = 0;
    p.reader.snap_len = snap_len, p.reader.link_type = 1;
    return p;
}

static place at_the_front(void) {
    place p;
    memset(&p, 0, sizeof p);
    return p;
}

/* Memory that ends in a guard, for what is read and for what is written. */
typedef struct two_pages {
    guarded from, to;
} two_pages;

static two_pages guarded_pages(void) {
    two_pages pages;
    pages.from = guarded_page(), pages.to = guarded_page();
    return pages;
}

static void release_both(two_pages pages) { release(pages.from), release(pages.to); }

static void layout_of_an_option(void) {
    CHECK(sizeof(etherpeel_option) == 24 && offsetof(etherpeel_option, value_len) == 8 &&
          offsetof(etherpeel_option, code) == 16);
    CHECK(etherpeel_sizeof(ETHERPEEL_STRUCT_OPTION) == sizeof(etherpeel_option));
}

/* ---- options ---- */

/* An option that is wanted. */
typedef struct wanted_option {
    unsigned code;
    const char *value;
    size_t len;
} wanted_option;

/* whether these are options of a unit, with values inside it */
static int are_options(const etherpeel_option *found, const wanted_option *wanted, size_t count,
                       const uint8_t *unit, size_t len) {
    for (size_t i = 0; i < count; i++)
        if (found[i].code != wanted[i].code || found[i].value_len != wanted[i].len ||
            found[i].value < unit || found[i].value + wanted[i].len > unit + len ||
            memcmp(found[i].value, wanted[i].value, wanted[i].len) != 0)
            return 0;
    return 1;
}

/* Whether the unit at the front of these bytes has just these options, whether there is room for
 * none of them, for some, for all or for more. */
static int has_options(two_pages pages, const place *at, const made *m, const wanted_option *wanted,
                       size_t wanted_count) {
    const uint8_t *unit = copied(pages.from, m->bytes, m->len);
    for (size_t room = 0; room <= wanted_count + 1; room++) {
        etherpeel_option *found = (etherpeel_option *)last(pages.to, room * sizeof *found);
        const size_t given = room < wanted_count ? room : wanted_count;
        size_t count = 99;
        memset(found, 0xA5, room * sizeof *found);
        if (etherpeel_reader_options(&at->reader, unit, m->len, found, room, &count) !=
                ETHERPEEL_DONE ||
            count != wanted_count || !are_options(found, wanted, given, unit, m->len) ||
            !all_are(found + given, (room - given) * sizeof *found, 0xA5))
            return 0;
    }
    return 1;
}

static int has_no_options(two_pages pages, const place *at, made m) {
    return has_options(pages, at, &m, NULL, 0);
}

static void options_of_an_interface(void) {
    static const wanted_option wanted[] = {{ETHERPEEL_OPTION_INTERFACE_NAME, "eth0", 4},
                                           {ETHERPEEL_OPTION_INTERFACE_DESCRIPTION, "a port", 6},
                                           {ETHERPEEL_OPTION_COMMENT, "x", 1},
                                           {0x8005, "\0\1\2\3\4", 5},
                                           {ETHERPEEL_OPTION_COMMENT, "", 0}};
    const two_pages pages = guarded_pages();
    for (int little = 0; little < 2; little++) {
        const place at = in_section(little, 0);
        made m = interface_begun(little, 64), complete, cut;
        for (size_t i = 0; i < COUNT(wanted); i++)
            add_option(&m, wanted[i].code, wanted[i].value, wanted[i].len);
        complete = ended(m);
        CHECK(has_options(pages, &at, &complete, wanted, COUNT(wanted)));
        /* the block ends within the last option, which is none then */
        cut = m;
        add(&cut, 2, 1), add(&cut, 2, 5), add_bytes(&cut, "1234", 4);
        cut = ended(cut);
        CHECK(has_options(pages, &at, &cut, wanted, COUNT(wanted)));
        /* what follows the end of options (3.5) is not read */
        add_option(&m, 0, "", 0), add_option(&m, 1, "after", 5);
        m = ended(m);
        CHECK(has_options(pages, &at, &m, wanted, COUNT(wanted)));
    }
    release_both(pages);
}

static void options_of_packets_and_sections(void) {
    static const wanted_option of_packet[] = {{ETHERPEEL_OPTION_COMMENT, "kept", 4},
                                              {2, "\1\2\3\4", 4}};
    static const wanted_option of_section[] = {{2, "hardware", 8}};
    const two_pages pages = guarded_pages();
    const place beginning = at_the_front();
    for (int little = 0; little < 2; little++) {
        const place at = in_section(little, 0), other = in_section(!little, 0);
        made m;
        for (int obsolete = 0; obsolete < 2; obsolete++) {
            m = with_options(packet_begun(little, obsolete, "12345", 5, 60, 0));
            CHECK(has_options(pages, &at, &m, of_packet, COUNT(of_packet)));
            /* bytes after the unit are ignored */
            add_bytes(&m, "\0\1\0\4", 4);
            CHECK(has_options(pages, &at, &m, of_packet, COUNT(of_packet)));
        }
        m = section_begun(little, 0xFFFFFFFF);
        add_option(&m, of_section[0].code, of_section[0].value, of_section[0].len);
        m = ended(m);
        /* the reader is from the beginning, from another section, or from this one */
        CHECK(has_options(pages, &beginning, &m, of_section, 1));
        CHECK(has_options(pages, &other, &m, of_section, 1));
        CHECK(has_options(pages, &at, &m, of_section, 1));
    }
    release_both(pages);
}

static void units_without_options(void) {
    const two_pages pages = guarded_pages();
    const place beginning = at_the_front();
    for (int little = 0; little < 2; little++) {
        const place at = in_section(little, 0), file = in_file(little, 0);
        made m = with_options(interface_begun(little, 64));
        CHECK(has_no_options(pages, &at, simple_packet(little, "\0\1\0\0", 4, 4)));
        CHECK(has_no_options(pages, &at, other_block(little, 5)));
        CHECK(has_no_options(pages, &at, other_block(little, 0xBAD)));
        CHECK(has_no_options(pages, &beginning, m) && has_no_options(pages, &file, m));
        CHECK(has_no_options(pages, &beginning, file_header(little, 96)));
        CHECK(has_no_options(pages, &file, classic_record(little, "\0\1\0\0", 4, 4)));
        CHECK(has_no_options(pages, &file, ended(section_begun(little, 0xFFFFFFFF))));
        /* a block that is cut, and one with another total length at its end */
        const size_t len = m.len;
        for (m.len = 0; m.len < len; m.len++)
            CHECK(has_no_options(pages, &at, m));
        m.bytes[len - 4] ^= 1;
        CHECK(has_no_options(pages, &at, m));
    }
    release_both(pages);
}

/* ---- edits and copies ---- */

/* What a call is asked for, of a unit and a reader from after it: an edit, or a copy. */
typedef struct asked {
    int is_edit;
    const uint8_t *packet;
    size_t packet_len;
    uint64_t original_len;
    uint32_t raise, has_packet;
} asked;

static asked an_edit(const void *packet, size_t packet_len, uint64_t original_len) {
    asked a;
    memset(&a, 0, sizeof a);
    a.is_edit = 1;
    a.packet = (const uint8_t *)packet, a.packet_len = packet_len, a.original_len = original_len;
    return a;
}

static asked a_copy(uint32_t raise, uint32_t has_packet) {
    asked a;
    memset(&a, 0, sizeof a);
    a.raise = raise, a.has_packet = has_packet;
    return a;
}

static uint32_t called(const asked *a, const place *at, const uint8_t *unit, size_t len,
                       uint8_t *target, size_t room, size_t *written) {
    return a->is_edit
               ? etherpeel_reader_edit(&at->reader, unit, len, a->packet, a->packet_len,
                                       a->original_len, target, room, written)
               : etherpeel_reader_copy(&at->reader, at->interfaces, COUNT(at->interfaces), a->raise,
                                       a->has_packet, unit, len, target, room, written);
}

/* Whether a call writes these bytes for a unit, and nothing where there is room for fewer. */
static int writes(two_pages pages, asked a, const place *at, made unit, made wanted) {
    const uint8_t *bytes = copied(pages.from, unit.bytes, unit.len);
    for (size_t room = 0; room <= wanted.len + 1; room++) {
        uint8_t *target = last(pages.to, room);
        const size_t len = room < wanted.len ? 0 : wanted.len;
        const uint32_t status = room < wanted.len ? ETHERPEEL_NO_ROOM : ETHERPEEL_DONE;
        size_t written = 99;
        memset(target, 0xA5, room);
        if (called(&a, at, bytes, unit.len, target, room, &written) != status ||
            written != wanted.len || memcmp(target, wanted.bytes, len) != 0 ||
            !all_are(target + len, room - len, 0xA5))
            return 0;
    }
    return 1;
}

/* Whether a call writes nothing for a unit, for this reason, and sets the length to this number.
 */
static int refuses(two_pages pages, asked a, const place *at, made unit, uint32_t status,
                   size_t len) {
    uint8_t *target = last(pages.to, sizeof unit.bytes);
    size_t written = 99;
    memset(target, 0xA5, sizeof unit.bytes);
    return called(&a, at, copied(pages.from, unit.bytes, unit.len), unit.len, target,
                  sizeof unit.bytes, &written) == status &&
           written == len && all_are(target, sizeof unit.bytes, 0xA5);
}

/* Whether a reader finds this packet in a unit, at 4294.967298 s and, in a section, on the second
 * interface. */
static int is_read_as(place at, made unit, const char *packet, size_t len, uint32_t original_len) {
    etherpeel_captured found;
    etherpeel_read_unit read;
    memset(&found, 0, sizeof found);
    return etherpeel_reader_read(&at.reader, at.interfaces, 2, unit.bytes, unit.len, &found,
                                 &read) == ETHERPEEL_DONE &&
           read.len == unit.len && read.has_packet == 1 && found.packet_len == len &&
           memcmp(found.packet, packet, len) == 0 && found.original_len == original_len &&
           found.has_time == 1 && found.seconds == 4294 && found.nanoseconds == 967298000 &&
           read.has_interface == (at.reader.state == ETHERPEEL_READER_SECTION) &&
           read.interface == read.has_interface;
}

/* packets of 0 to 8 bytes in place of one of 5, whose padding is not zeros */
static void edited_packets(void) {
    static const char packet[] = "abcdefgh";
    const two_pages pages = guarded_pages();
    for (int little = 0; little < 2; little++) {
        const place at = in_section(little, 0), file = in_file(little, 0);
        for (size_t len = 0; len <= 8; len++) {
            const uint32_t original_len = len == 8 ? 0xFFFFFFFF : 59;
            const asked edit = an_edit(packet, len, original_len);
            made unit = classic_record(little, "12345", 5, 60);
            made wanted = classic_record(little, packet, len, original_len);
            CHECK(writes(pages, edit, &file, unit, wanted));
            CHECK(is_read_as(file, wanted, packet, len, original_len));
            for (int obsolete = 0; obsolete < 2; obsolete++) {
                unit = with_options(packet_begun(little, obsolete, "12345", 5, 60, 0xEE));
                wanted = with_options(packet_begun(little, obsolete, packet, len, original_len, 0));
                CHECK(writes(pages, edit, &at, unit, wanted));
                CHECK(is_read_as(at, wanted, packet, len, original_len));
            }
        }
        /* a block without options has none after the edit */
        CHECK(writes(pages, an_edit(packet, 6, 60), &at,
                     ended(packet_begun(little, 0, "12345", 5, 60, 0)),
                     ended(packet_begun(little, 0, packet, 6, 60, 0))));
    }
    release_both(pages);
}

static void packets_that_are_not_edited(void) {
    static uint8_t packet[262145];
    const two_pages pages = guarded_pages();
    for (int little = 0; little < 2; little++) {
        const place at = in_section(little, 0), file = in_file(little, 0);
        const made record = classic_record(little, "12345", 5, 60);
        const made block = with_options(packet_begun(little, 0, "12345", 5, 60, 0));
        const asked longest = an_edit(packet, 262144, 262144);
        const asked too_long = an_edit(packet, 262145, 262145);
        const asked unknown_len = an_edit(packet, 5, UINT64_C(0x100000000));
        /* 16 bytes before the packet in a record; 32 with the end in a block, and 20 of options */
        CHECK(refuses(pages, longest, &file, record, ETHERPEEL_NO_ROOM, 262160));
        CHECK(refuses(pages, longest, &at, block, ETHERPEEL_NO_ROOM, 262196));
        CHECK(refuses(pages, too_long, &file, record, ETHERPEEL_UNCOPIED, 0));
        CHECK(refuses(pages, too_long, &at, block, ETHERPEEL_UNCOPIED, 0));
        CHECK(refuses(pages, unknown_len, &file, record, ETHERPEEL_UNCOPIED, 0));
        CHECK(refuses(pages, unknown_len, &at, block, ETHERPEEL_UNCOPIED, 0));
        CHECK(refuses(pages, an_edit(packet, 4, 4), &at, simple_packet(little, "1234", 4, 4),
                      ETHERPEEL_UNCOPIED, 0));
    }
    release_both(pages);
}

/* a block of 16 MiB, all but its packet options, can't become longer */
static void longest_blocks(void) {
    const size_t len = 16777216;
    uint8_t *unit = (uint8_t *)calloc(len, 1);
    const place at = in_section(1, 0);
    size_t written = 99;
    made m = packet_begun(1, 0, "1234", 4, 4, 0);
    if (!unit)
        abort();
    m.bytes[7] = 1;
    memcpy(unit, m.bytes, m.len);
    unit[len - 1] = 1;
    CHECK(etherpeel_reader_edit(&at.reader, unit, len, m.bytes, 4, 4, NULL, 0, &written) ==
              ETHERPEEL_NO_ROOM &&
          written == len);
    CHECK(etherpeel_reader_edit(&at.reader, unit, len, m.bytes, 0, 4, NULL, 0, &written) ==
              ETHERPEEL_NO_ROOM &&
          written == len - 4);
    CHECK(etherpeel_reader_edit(&at.reader, unit, len, m.bytes, 5, 5, NULL, 0, &written) ==
              ETHERPEEL_UNCOPIED &&
          written == 0);
    free(unit);
}

/* snap lengths: the room that an edit needs is added, up to the most that a packet has; 0 is no
 * limit (4.2) */
static void copied_snap_lengths(void) {
    static const uint32_t rows[][3] = {{96, 4, 100},
                                       {96, 0, 96},
                                       {0, 4, 0},
                                       {262140, 4, 262144},
                                       {262142, 4, 262144},
                                       {262144, 4, 262144},
                                       {262145, 4, 262145},
                                       {300000, 0xFFFFFFFF, 300000},
                                       {1, 0xFFFFFFFF, 262144},
                                       {0xFFFFFFFF, 4, 0xFFFFFFFF}};
    const two_pages pages = guarded_pages();
    for (int little = 0; little < 2; little++)
        for (size_t i = 0; i < COUNT(rows); i++) {
            const asked copy = a_copy(rows[i][1], 0);
            const place at = in_section(little, rows[i][0]), file = in_file(little, rows[i][0]);
            CHECK(writes(pages, copy, &file, file_header(little, rows[i][0]),
                         file_header(little, rows[i][2])));
            CHECK(writes(pages, copy, &at, with_options(interface_begun(little, rows[i][0])),
                         with_options(interface_begun(little, rows[i][2]))));
        }
    release_both(pages);
}

static void copied_blocks(void) {
    const two_pages pages = guarded_pages();
    for (int little = 0; little < 2; little++) {
        const place at = in_section(little, 96);
        made unit;
        for (uint32_t raise = 0; raise <= 4; raise += 4) {
            /* the length of the section is not given: 64 bits, all 1 (4.1) */
            unit = with_options(section_begun(little, 0));
            CHECK(writes(pages, a_copy(raise, 0), &at, unit,
                         with_options(section_begun(little, 0xFFFFFFFF))));
            /* custom blocks: not to be copied, and to be copied */
            CHECK(writes(pages, a_copy(raise, 0), &at, other_block(little, 0x40000BAD),
                         nothing(little)));
            unit = other_block(little, 0xBAD);
            CHECK(writes(pages, a_copy(raise, 0), &at, unit, unit));
            unit = other_block(little, 5);
            CHECK(writes(pages, a_copy(raise, 0), &at, unit, unit));
        }
    }
    release_both(pages);
}

static void copied_packets(void) {
    const two_pages pages = guarded_pages();
    for (int little = 0; little < 2; little++) {
        const place at = in_section(little, 4), file = in_file(little, 4);
        made unit;
        for (uint32_t raise = 0; raise <= 4; raise += 4) {
            unit = classic_record(little, "1234", 4, 60);
            CHECK(writes(pages, a_copy(raise, 1), &file, unit, unit));
            for (int obsolete = 0; obsolete < 2; obsolete++) {
                unit = with_options(packet_begun(little, obsolete, "123", 3, 60, 0xEE));
                CHECK(writes(pages, a_copy(raise, 1), &at, unit, unit));
            }
            unit = simple_packet(little, "1234", 4, 4);
            CHECK(writes(pages, a_copy(raise, 1), &at, unit, unit));
        }
        /* the snap length gives how many bytes of a simple packet were captured (4.4) */
        unit = simple_packet(little, "1234", 4, 5);
        CHECK(writes(pages, a_copy(0, 1), &at, unit, unit));
        CHECK(refuses(pages, a_copy(1, 1), &at, unit, ETHERPEEL_UNCOPIED, 0));
        CHECK(refuses(pages, a_copy(0xFFFFFFFF, 1), &at, unit, ETHERPEEL_UNCOPIED, 0));
        const place no_limit = in_section(little, 0);
        CHECK(writes(pages, a_copy(4, 1), &no_limit, simple_packet(little, "1234", 4, 4),
                     simple_packet(little, "1234", 4, 4)));
    }
    release_both(pages);
}

/* a simple packet that was cut at the most bytes that a packet has: this snap length is not raised
 */
static void the_longest_simple_packet(void) {
    const size_t len = 262160;
    uint8_t *unit = (uint8_t *)calloc(len, 1);
    const place at = in_section(1, 262144), shorter = in_section(1, 262140);
    size_t written = 99;
    made m = begun(3, 1);
    if (!unit)
        abort();
    m.len = 4;
    add(&m, 4, (uint32_t)len), add(&m, 4, 262148);
    memcpy(unit, m.bytes, m.len);
    memcpy(unit + len - 4, m.bytes + 4, 4);
    CHECK(etherpeel_reader_copy(&at.reader, at.interfaces, 2, 4, 1, unit, len, NULL, 0, &written) ==
              ETHERPEEL_NO_ROOM &&
          written == len);
    /* with 4 bytes fewer, and a snap length that is raised */
    m.len = 4;
    add(&m, 4, (uint32_t)len - 4);
    memcpy(unit, m.bytes, 8);
    memcpy(unit + len - 8, m.bytes + 4, 4);
    CHECK(etherpeel_reader_copy(&shorter.reader, shorter.interfaces, 2, 4, 1, unit, len - 4, NULL,
                                0, &written) == ETHERPEEL_UNCOPIED &&
          written == 0);
    free(unit);
}

/* ---- what is refused, and what nothing is claimed of ---- */

static void units_of_readers_that_are_none(void) {
    const two_pages pages = guarded_pages();
    const made m = with_options(packet_begun(0, 0, "1234", 4, 4, 0));
    place at = in_section(0, 0);
    etherpeel_option option;
    size_t count = 99;
    memset(&option, 0xA5, sizeof option);
    for (unsigned state = 3; state < 256; state++) {
        at.reader.state = (uint8_t)state;
        CHECK(etherpeel_reader_options(&at.reader, m.bytes, m.len, &option, 1, &count) ==
              ETHERPEEL_BAD_FIELD);
        CHECK(refuses(pages, an_edit("12", 2, 2), &at, m, ETHERPEEL_BAD_FIELD, 99));
        CHECK(refuses(pages, a_copy(4, 1), &at, m, ETHERPEEL_BAD_FIELD, 99) &&
              refuses(pages, a_copy(4, 0), &at, m, ETHERPEEL_BAD_FIELD, 99));
    }
    CHECK(count == 99 && all_are(&option, sizeof option, 0xA5));
    /* more interfaces than the array has */
    at = in_section(0, 0);
    at.reader.interface_count = 3;
    for (uint8_t state = 0; state < 3; state++) {
        at.reader.state = state;
        CHECK(refuses(pages, a_copy(4, 1), &at, m, ETHERPEEL_BAD_FIELD, 99) &&
              refuses(pages, a_copy(4, 0), &at, m, ETHERPEEL_BAD_FIELD, 99));
    }
    release_both(pages);
}

/* whether a call for any bytes returns one of the statuses that it may, and writes nothing after
 * what it says */
static int stays_inside(two_pages pages, asked a, const place *at, const made *m) {
    const size_t room = sizeof m->bytes;
    uint8_t *target = last(pages.to, room);
    size_t written = 99;
    memset(target, 0xA5, room);
    const uint32_t status =
        called(&a, at, copied(pages.from, m->bytes, m->len), m->len, target, room, &written);
    if (status == ETHERPEEL_DONE)
        return written <= room && all_are(target + written, room - written, 0xA5);
    return (status == ETHERPEEL_UNCOPIED ? written == 0
                                         : status == ETHERPEEL_NO_ROOM && written > room) &&
           all_are(target, room, 0xA5);
}

/* each unit with each bit turned, and each of its fronts, in each state */
static void units_that_are_changed(void) {
    const two_pages pages = guarded_pages();
    const made units[] = {with_options(packet_begun(0, 0, "12345", 5, 60, 0)),
                          with_options(interface_begun(0, 96)), with_options(section_begun(0, 64)),
                          simple_packet(0, "1234", 4, 5)};
    for (uint8_t state = 0; state < 3; state++) {
        place at = in_section(0, 4);
        at.reader.state = state;
        for (size_t i = 0; i < COUNT(units); i++) {
            const size_t len = units[i].len;
            for (size_t bit = 0; bit < 9 * len; bit++) {
                made m = units[i];
                if (bit < 8 * len)
                    m.bytes[bit / 8] ^= (uint8_t)(1 << bit % 8);
                else
                    m.len = bit - 8 * len;
                CHECK(stays_inside(pages, an_edit("1234567", 7, 60), &at, &m) &&
                      stays_inside(pages, a_copy(4, 0), &at, &m) &&
                      stays_inside(pages, a_copy(4, 1), &at, &m));
            }
        }
    }
    release_both(pages);
}

#endif
