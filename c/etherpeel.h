/* etherpeel.h - the link-layer headers of frames, packets and captures
 *
 * Ethernet II, VLAN tags (IEEE 802.1Q), MACsec SecTags (IEEE 802.1AE), Linux cooked capture v1 and
 * v2, and ARP (RFC 826), each announced by the ether type of the header before it. For C99 and
 * C++11, on processors with pointers of 64 bits, of either byte order; tested on x86-64, aarch64
 * and s390x. Link with libetherpeel, static or shared: pkg-config etherpeel.
 *
 * What holds for every call:
 *
 *   Frame    `bytes` and `file` point to `len` bytes, which are read and never written; `frame` and
 *            `buffer` to `len` bytes, which the calls that change headers write to. NULL is allowed
 *            if `len` is 0.
 *   Targets  `units`, `fields`, `packets`, `options`, `rows`, `matches`, `target`, `fill` and `text`
 *            point to as many elements as `room` says; what etherpeel_build, etherpeel_write_frame,
 *            etherpeel_rows and etherpeel_select read to `count`. NULL is allowed if that is 0. A
 *            pointer to one struct or number must not be NULL. The memory must be aligned for its
 *            type. Memory that is only written to need not be initialized, except for `packets`,
 *            `packet`, `options` and an etherpeel_frame.
 *   Structs  Pointers in a struct, and the lengths of what they point to, must be right. All other
 *            numbers may be any: those that don't fit are refused, as ETHERPEEL_BAD_FIELD or
 *            ETHERPEEL_BAD_KIND, or the call says what they mean. A filter or a table of stations
 *            that no call has written gives some result, and no access outside what was passed.
 *   Overlap  What a call may write to must not overlap the frame, nor anything else that the call
 *            may write to.
 *   Keeping  No call keeps a pointer after it returns.
 *   Units    Lengths count elements: bytes of frames, targets and texts, structs of `units`.
 *            Offsets count bytes from the start of the frame; those of fields count bits.
 *   Order    Numbers that are passed, and those of structs, are in the byte order of the machine
 *            (host byte order); addresses are bytes in the order of the frame.
 *   Result   ETHERPEEL_DONE, or why the call did nothing; etherpeel_capture,
 *            etherpeel_reader_read, etherpeel_reader_edit, etherpeel_reader_copy,
 *            etherpeel_select, etherpeel_linux_sll2, etherpeel_build, etherpeel_write_frame and
 *            those that replace headers say what they write even then. After
 *            ETHERPEEL_UNKNOWN_START nothing was written at all; after ETHERPEEL_NO_ROOM only the
 *            length that the target needs, if the call gives one; after ETHERPEEL_NO_TEXT only the
 *            length 0.
 *   Memory   No call allocates, blocks, or stores anything between calls, so each is thread-safe.
 *            etherpeel_reader_fault_text takes some 1.5 KB of stack, etherpeel_completion and
 *            etherpeel_fault_text 2.5 KB, etherpeel_fields 5 KB, etherpeel_replace_arp 14 KB,
 *            etherpeel_build and etherpeel_write_frame 18 KB, the calls for filters 40 KB,
 *            etherpeel_format 70 KB, etherpeel_capture and etherpeel_capture_fault_text 300 KB, and
 *            all others less than 1 KB.
 *   Time     Linear in the number of headers, at most len / 4 in a frame, or of units in a capture
 *            file. etherpeel_write_back and etherpeel_write_frame also copy the frame,
 *            etherpeel_build the payload.
 *   Limits   Most calls have a form `.._limited`, which reads at most `limit` VLAN tags and
 *            SecTags. The ether type after the last of these announces nothing: the walk ends there
 *            without a fault.
 */
#ifndef ETHERPEEL_H
#define ETHERPEEL_H

#include <limits.h>
#include <stddef.h>
#include <stdint.h>

#if CHAR_BIT != 8 || SIZE_MAX != UINT64_MAX || UINTPTR_MAX != UINT64_MAX
#error "etherpeel.h needs bytes of 8 bits, and size_t and pointers of 64 bits"
#endif

/* The version of this interface. The first number changes if a struct, a number or a call changes
 * its meaning, the second if some are added. */
#define ETHERPEEL_VERSION_MAJOR 3
#define ETHERPEEL_VERSION_MINOR 0
#define ETHERPEEL_VERSION (ETHERPEEL_VERSION_MAJOR * 0x10000 + ETHERPEEL_VERSION_MINOR * 0x100)

#ifdef __cplusplus
extern "C" {
#endif

/* ---- Numbers ---- */

/* What a call returns. */
enum etherpeel_status {
    ETHERPEEL_DONE = 0,
    /* `start` is not a number of enum etherpeel_start. */
    ETHERPEEL_UNKNOWN_START = 1,
    /* The target is too short. */
    ETHERPEEL_NO_ROOM = 2,
    /* A text can't be made, or there is none; only the calls for texts, etherpeel_fault_text and
     * others, could return it. */
    ETHERPEEL_NO_TEXT = 3,

    /* Why a VLAN tag is not taken off, put in or changed: */

    /* `tpid` is not 0x8100, 0x88A8 or 0x9100. */
    ETHERPEEL_BAD_TPID = 4,
    /* The frame does not begin with a link's header that can be read. */
    ETHERPEEL_NO_LINK = 5,
    /* The header of cooked capture has another hardware type than Ethernet. */
    ETHERPEEL_OTHER_LINK = 6,
    /* There is no VLAN tag or SecTag at the index. */
    ETHERPEEL_NO_TAG = 7,
    /* The ether type of the link's header does not announce a VLAN tag, or there is a SecTag at the
     * index. */
    ETHERPEEL_NO_VLAN = 8,
    /* The link's header announces a VLAN tag, but it is cut short. */
    ETHERPEEL_CUT_VLAN = 9,
    /* The frame begins with the VLAN tag, so no header announces it. */
    ETHERPEEL_UNANNOUNCED = 10,
    /* A number that is passed does not fit its field, or an address is not inside the bytes from
     * which it is read. */
    ETHERPEEL_BAD_FIELD = 11,

    /* Why the packets of a capture file end before the file does: */

    /* It ends within a header, record or block. */
    ETHERPEEL_SHORT = 12,
    /* A header, record or block can't be read. */
    ETHERPEEL_BAD_CAPTURE = 13,

    /* The text of a filter is not an expression. */
    ETHERPEEL_BAD_FILTER = 14,

    /* The packet type of a header of Linux cooked capture v2 is above 7. A header that is cut short
     * is ETHERPEEL_SHORT. */
    ETHERPEEL_BAD_PACKET_TYPE = 15,

    /* Why a header is not replaced, besides ETHERPEEL_NO_LINK, ETHERPEEL_NO_TAG and
     * ETHERPEEL_BAD_FIELD: */

    /* The frame has no ARP packet, or its ARP packet is cut short. */
    ETHERPEEL_NO_ARP = 16,
    /* The header differs from the one in the frame; enum etherpeel_difference says how. */
    ETHERPEEL_DIFFERS = 17,
    /* The call does not take a unit of this kind. */
    ETHERPEEL_BAD_KIND = 18,

    /* Why a packet is not built, besides ETHERPEEL_OTHER_LINK and ETHERPEEL_NO_ROOM: */

    /* There are more than eight VLAN tags and SecTags. */
    ETHERPEEL_TOO_MANY_TAGS = 19,
    /* A unit follows a SecTag whose payload is encrypted or changed. */
    ETHERPEEL_SEALED = 20,

    /* The frame is too short to leave, or the table has no sighting of the station; only calls for
     * a switch return it. */
    ETHERPEEL_STAYS = 21,

    /* The text names no format of a packet. */
    ETHERPEEL_BAD_FORMAT = 22,

    /* The unit of a packet can't be edited, or a copy can't have it. */
    ETHERPEEL_UNCOPIED = 23
};

/* What a frame begins with: the parameter `start` of each call. The parameter `ether_type` is read
 * only for ETHERPEEL_START_ETHER_TYPE. */
enum etherpeel_start {
    /* An Ethernet II header, of a frame without a frame check sequence. */
    ETHERPEEL_START_ETHERNET2 = 1,
    /* An Ethernet II header, of a frame with a frame check sequence in its last 4 bytes. */
    ETHERPEEL_START_ETHERNET2_FCS = 2,
    /* A header of Linux cooked capture v1 (LINKTYPE_LINUX_SLL). */
    ETHERPEEL_START_LINUX_SLL = 3,
    /* What `ether_type` announces: a VLAN tag, a SecTag, an ARP packet, or a payload that is not
     * read further. */
    ETHERPEEL_START_ETHER_TYPE = 4
};

/* How far a capture file was read: `state` of etherpeel_reader. */
enum etherpeel_reader_state {
    /* Nothing of the file was read. */
    ETHERPEEL_READER_BEGINNING = 0,
    /* The header of a classic file was read. Records follow. */
    ETHERPEEL_READER_CLASSIC = 1,
    /* The header of a section of a pcapng file was read. Blocks follow. */
    ETHERPEEL_READER_SECTION = 2
};

/* The kind of a unit. */
enum etherpeel_unit_kind {
    ETHERPEEL_UNIT_ETHERNET2 = 1,
    ETHERPEEL_UNIT_LINUX_SLL = 2,
    /* The tag control information and the ether type after it. */
    ETHERPEEL_UNIT_VLAN = 3,
    /* A SecTag without the ether type that announces it, but with the one after it if the payload
     * is neither encrypted nor changed. */
    ETHERPEEL_UNIT_MACSEC = 4,
    ETHERPEEL_UNIT_ARP = 5
};

/* What the bytes that are left are announced as; after a fault, what was expected there. */
enum etherpeel_rest_kind {
    /* The header that the frame begins with, which was not read. */
    ETHERPEEL_REST_START = 0,
    /* A protocol, by the ether type in `rest_protocol`. */
    ETHERPEEL_REST_ETHER_TYPE = 1,
    /* A protocol of netlink (ARPHRD_NETLINK), by the number in `rest_protocol`. */
    ETHERPEEL_REST_NETLINK = 2,
    /* A protocol of generic routing encapsulation (ARPHRD_IPGRE), by the number in `rest_protocol`.
     */
    ETHERPEEL_REST_GRE = 3,
    /* A link whose protocol numbers have no meaning (IEEE 802.11 with radiotap, frame relay). */
    ETHERPEEL_REST_IGNORED = 4,
    /* A payload that MACsec has encrypted or changed, so its protocol is unknown. */
    ETHERPEEL_REST_SEALED = 5,
    /* What follows an ARP packet: the padding of a short frame. */
    ETHERPEEL_REST_AFTER_ARP = 6
};

/* Why a unit is refused. */
enum etherpeel_fault_kind {
    /* No unit is refused. Every other field of the fault is 0. */
    ETHERPEEL_FAULT_NONE = 0,
    /* The unit needs `required_len` bytes; only `len` are available. `layer` and `len_source` are
     * set. */
    ETHERPEEL_FAULT_LENGTH = 1,
    /* The packet type of a cooked capture, in `packet_type`, is above 7. */
    ETHERPEEL_FAULT_PACKET_TYPE = 2,
    /* It is not known how to read protocol numbers for the hardware type of a cooked capture, in
     * `hardware_type`. */
    ETHERPEEL_FAULT_HARDWARE_TYPE = 3,
    /* The version bit of a SecTag is 1. */
    ETHERPEEL_FAULT_MACSEC_VERSION = 4,
    /* The short length of a SecTag with an unmodified payload is 1, too small to include the ether
     * type. */
    ETHERPEEL_FAULT_MACSEC_SHORT_LEN = 5
};

/* The layer of a length fault; 0 in any other fault. */
enum etherpeel_layer {
    ETHERPEEL_LAYER_ETHERNET2_HEADER = 1,
    ETHERPEEL_LAYER_LINUX_SLL_HEADER = 2,
    ETHERPEEL_LAYER_VLAN_HEADER = 3,
    ETHERPEEL_LAYER_MACSEC_HEADER = 4,
    /* A SecTag, and the payload whose length its short length gives. */
    ETHERPEEL_LAYER_MACSEC_PACKET = 5,
    ETHERPEEL_LAYER_ARP = 6
};

/* What gave the length that was available or required in a length fault; 0 in any other fault. */
enum etherpeel_len_source {
    /* The length of the frame. */
    ETHERPEEL_LEN_SLICE = 1,
    /* The short length of a SecTag. */
    ETHERPEEL_LEN_MACSEC_SHORT_LENGTH = 2,
    /* The two address lengths of an ARP packet. */
    ETHERPEEL_LEN_ARP_ADDRESSES = 3
};

/* How a header differs, in what it says about what follows it, from the one that it is to replace.
 * Of several differences it is the first in this order. */
enum etherpeel_difference {
    /* One header is a VLAN tag and the other a SecTag, or one is of Ethernet II and the other of
     * cooked capture. */
    ETHERPEEL_DIFFERENCE_KIND = 1,
    /* The ether type of an Ethernet II header or VLAN tag. */
    ETHERPEEL_DIFFERENCE_ETHER_TYPE = 2,
    /* The hardware type of a cooked capture. */
    ETHERPEEL_DIFFERENCE_HARDWARE_TYPE = 3,
    /* The protocol number of a cooked capture. */
    ETHERPEEL_DIFFERENCE_PROTOCOL_TYPE = 4,
    /* Whether the payload of a SecTag is encrypted or changed, and its ether type if it is neither.
     */
    ETHERPEEL_DIFFERENCE_PAYLOAD_TYPE = 5,
    /* The short length of a SecTag. */
    ETHERPEEL_DIFFERENCE_SHORT_LEN = 6,
    /* Whether a SecTag has an SCI. */
    ETHERPEEL_DIFFERENCE_SCI = 7,
    /* The length of the hardware addresses of an ARP packet. */
    ETHERPEEL_DIFFERENCE_HARDWARE_SIZE = 8,
    /* The length of the protocol addresses of an ARP packet. */
    ETHERPEEL_DIFFERENCE_PROTOCOL_SIZE = 9
};

/* Why a text is not a filter's expression: mostly by what is expected in place of a word. */
enum etherpeel_filter_error_kind {
    /* A primitive, `not` or `(` is expected. */
    ETHERPEEL_FILTER_OPERAND = 1,
    /* `and`, `or`, `)` or the end of the text is expected. */
    ETHERPEEL_FILTER_OPERATOR = 2,
    /* `vlan` is expected. */
    ETHERPEEL_FILTER_VLAN = 3,
    /* `proto`, `src`, `dst`, `host`, `broadcast` or `multicast` is expected. */
    ETHERPEEL_FILTER_ETHER_WORD = 4,
    /* An address is expected: `xx:xx:xx:xx:xx:xx` or `xxxxxxxxxxxx`. */
    ETHERPEEL_FILTER_ADDRESS = 5,
    /* A number up to `greatest` is expected. */
    ETHERPEEL_FILTER_NUMBER = 6,
    /* `and` and `or` are mixed without parentheses. */
    ETHERPEEL_FILTER_MIXED = 7,
    /* A `)` has no `(`. */
    ETHERPEEL_FILTER_UNOPENED = 8,
    /* The text ends before a `(` is closed. */
    ETHERPEEL_FILTER_UNCLOSED = 9,
    /* There are more than 192 words. */
    ETHERPEEL_FILTER_TOO_LONG = 10,
    /* After `vlan`: a number up to `greatest`, `and`, `or`, `)` or the end of the text is
     * expected. */
    ETHERPEEL_FILTER_VLAN_ID_OR_OPERATOR = 11,
    /* `==`, `!=`, `<`, `<=`, `>`, `>=` or `in` is expected. */
    ETHERPEEL_FILTER_RELATION = 12,
    /* After a field: one of these, `&`, `and`, `or`, `)` or the end of the text is expected. */
    ETHERPEEL_FILTER_RELATION_OR_OPERATOR = 13,
    /* A value of `greatest` bytes is expected. */
    ETHERPEEL_FILTER_BYTES = 14,
    /* Bytes are expected, as those of an address. */
    ETHERPEEL_FILTER_ANY_BYTES = 15,
    /* `{` is expected. */
    ETHERPEEL_FILTER_SET = 16,
    /* `,` or `}` is expected. */
    ETHERPEEL_FILTER_SET_END = 17,
    /* A time is expected: `2026-11-01T00:00:00Z`. */
    ETHERPEEL_FILTER_TIME = 18,
    /* The name of a header is expected: `eth`, `sll`, `vlan`, `macsec` or `arp`. */
    ETHERPEEL_FILTER_HEADER = 19
};

/* What etherpeel_filter_decide returns. */
enum etherpeel_decision {
    /* The filter does not select the packet. */
    ETHERPEEL_FAILS = 0,
    /* The filter selects the packet. */
    ETHERPEEL_MATCHES = 1,
    /* The packet or frame was cut, and its bytes do not decide whether the filter selects it. */
    ETHERPEEL_UNDECIDED = 2
};

/* The name of a field, in the words of the standard of its header. */
enum etherpeel_field_name {
    /* Ethernet II (IEEE 802.3, 3.2), and the frame check sequence after the payload (3.2.9). */
    ETHERPEEL_FIELD_ETHERNET2_DESTINATION = 1,
    ETHERPEEL_FIELD_ETHERNET2_SOURCE = 2,
    ETHERPEEL_FIELD_ETHERNET2_ETHER_TYPE = 3,
    ETHERPEEL_FIELD_FCS = 34,

    /* Linux cooked capture v1 (LINKTYPE_LINUX_SLL of the tcpdump group). */
    ETHERPEEL_FIELD_LINUX_SLL_PACKET_TYPE = 4,
    ETHERPEEL_FIELD_LINUX_SLL_HARDWARE_TYPE = 5,
    ETHERPEEL_FIELD_LINUX_SLL_ADDRESS_LEN = 6,
    ETHERPEEL_FIELD_LINUX_SLL_ADDRESS = 7,
    ETHERPEEL_FIELD_LINUX_SLL_PROTOCOL = 8,

    /* Linux cooked capture v2 (LINKTYPE_LINUX_SLL2). */
    ETHERPEEL_FIELD_LINUX_SLL2_PROTOCOL = 35,
    ETHERPEEL_FIELD_LINUX_SLL2_RESERVED = 36,
    ETHERPEEL_FIELD_LINUX_SLL2_INTERFACE_INDEX = 37,
    ETHERPEEL_FIELD_LINUX_SLL2_HARDWARE_TYPE = 38,
    ETHERPEEL_FIELD_LINUX_SLL2_PACKET_TYPE = 39,
    ETHERPEEL_FIELD_LINUX_SLL2_ADDRESS_LEN = 40,
    ETHERPEEL_FIELD_LINUX_SLL2_ADDRESS = 41,

    /* A VLAN tag: its control information (IEEE 802.1Q, 9.6), and the ether type after it. */
    ETHERPEEL_FIELD_VLAN_PCP = 9,
    ETHERPEEL_FIELD_VLAN_DEI = 10,
    ETHERPEEL_FIELD_VLAN_VID = 11,
    ETHERPEEL_FIELD_VLAN_ETHER_TYPE = 12,

    /* The SecTag of MACsec (IEEE 802.1AE, 9.3 to 9.9), and the ether type after it. */
    ETHERPEEL_FIELD_MACSEC_V = 13,
    ETHERPEEL_FIELD_MACSEC_ES = 14,
    ETHERPEEL_FIELD_MACSEC_SC = 15,
    ETHERPEEL_FIELD_MACSEC_SCB = 16,
    ETHERPEEL_FIELD_MACSEC_E = 17,
    ETHERPEEL_FIELD_MACSEC_C = 18,
    ETHERPEEL_FIELD_MACSEC_AN = 19,
    ETHERPEEL_FIELD_MACSEC_RESERVED = 20,
    ETHERPEEL_FIELD_MACSEC_SL = 21,
    ETHERPEEL_FIELD_MACSEC_PN = 22,
    ETHERPEEL_FIELD_MACSEC_SCI = 23,
    ETHERPEEL_FIELD_MACSEC_ETHER_TYPE = 24,

    /* An ARP packet (RFC 826, "Packet format"). */
    ETHERPEEL_FIELD_ARP_HARDWARE_TYPE = 25,
    ETHERPEEL_FIELD_ARP_PROTOCOL_TYPE = 26,
    ETHERPEEL_FIELD_ARP_HARDWARE_SIZE = 27,
    ETHERPEEL_FIELD_ARP_PROTOCOL_SIZE = 28,
    ETHERPEEL_FIELD_ARP_OPERATION = 29,
    ETHERPEEL_FIELD_ARP_SENDER_HARDWARE = 30,
    ETHERPEEL_FIELD_ARP_SENDER_PROTOCOL = 31,
    ETHERPEEL_FIELD_ARP_TARGET_HARDWARE = 32,
    ETHERPEEL_FIELD_ARP_TARGET_PROTOCOL = 33
};

/* A text about a field. */
enum etherpeel_field_part {
    /* Its name as a column: vlan.vid. */
    ETHERPEEL_PART_COLUMN = 1,
    /* What its standard calls it: VLAN identifier. */
    ETHERPEEL_PART_TITLE = 2,
    /* The abbreviation of its standard: VID. */
    ETHERPEEL_PART_ABBREVIATION = 3
};

/* What the value of a field is. */
enum etherpeel_field_kind {
    /* A number. */
    ETHERPEEL_KIND_NUMBER = 1,
    /* A bit, 1 if it is set. */
    ETHERPEEL_KIND_FLAG = 2,
    /* Whether something holds; no field has it, but columns do. */
    ETHERPEEL_KIND_TRUTH = 3,
    /* An ether type, or another protocol number in its place. */
    ETHERPEEL_KIND_ETHER_TYPE = 4,
    /* A hardware type of ARP, or the ARPHRD_ number of a cooked capture. */
    ETHERPEEL_KIND_HARDWARE_TYPE = 5,
    /* How a packet of a cooked capture was sent. */
    ETHERPEEL_KIND_PACKET_TYPE = 6,
    /* An operation of ARP. */
    ETHERPEEL_KIND_OPERATION = 7,
    /* A link type of captures; no field has it, but a column does. */
    ETHERPEEL_KIND_LINK_TYPE = 8,
    /* Bytes, as those of an address. */
    ETHERPEEL_KIND_BYTES = 9,
    /* An address of the protocol of an ARP packet: of IPv4, or another one. */
    ETHERPEEL_KIND_PROTOCOL_ADDRESS = 10,
    /* One of some words; no field has it, but columns do. */
    ETHERPEEL_KIND_WORD = 11,
    /* A time; no field has it, but a column does. */
    ETHERPEEL_KIND_TIME = 12
};

/* The kind of a bridge: the tags that it reads and writes. A tag of the other kind is payload. */
enum etherpeel_bridge_kind {
    /* Customer tags, which 0x8100 announces. */
    ETHERPEEL_BRIDGE_CUSTOMER = 1,
    /* Service tags, which 0x88A8 announces. */
    ETHERPEEL_BRIDGE_PROVIDER = 2
};

/* Which frames a port accepts (IEEE 802.1Q, 6.9). */
enum etherpeel_frame_types {
    ETHERPEEL_FRAMES_ALL = 0,
    /* Frames with a tag that names a VLAN. */
    ETHERPEEL_FRAMES_VLAN_TAGGED = 1,
    /* Frames without a tag, and frames with a tag whose identifier is 0. */
    ETHERPEEL_FRAMES_UNTAGGED_AND_PRIORITY_TAGGED = 2,
    /* Frames without a tag. (The standard has no such setting.) */
    ETHERPEEL_FRAMES_UNTAGGED = 3
};

/* Why a bridge discards a frame. Of several reasons it is the first in this order. */
enum etherpeel_discarded {
    ETHERPEEL_DISCARDED_NOT = 0,
    /* It has fewer than 14 bytes. */
    ETHERPEEL_DISCARDED_NO_HEADER = 1,
    /* It announces a tag of the bridge's kind, which is cut short. */
    ETHERPEEL_DISCARDED_CUT_TAG = 2,
    /* Its tag has the identifier 4095, which is reserved. */
    ETHERPEEL_DISCARDED_RESERVED_IDENTIFIER = 3,
    /* Its source is a group address, or all zeros. */
    ETHERPEEL_DISCARDED_SOURCE = 4,
    /* The port does not accept frames with such a tag, or frames without a tag. */
    ETHERPEEL_DISCARDED_FRAME_TYPE = 5,
    /* The port refuses a second tag, and the frame has one. */
    ETHERPEEL_DISCARDED_SECOND_TAG = 6,
    /* The port filters ingress, and is not a member of the frame's VLAN. */
    ETHERPEEL_DISCARDED_NOT_A_MEMBER = 7,
    /* The port is not forwarding. */
    ETHERPEEL_DISCARDED_PORT_STATE = 8
};

/* Which stations a table forgets. */
enum etherpeel_forgotten {
    /* All of them. */
    ETHERPEEL_FORGET_ALL = 0,
    /* Those that were seen last at a port. */
    ETHERPEEL_FORGET_PORT = 1,
    /* The station with an address. */
    ETHERPEEL_FORGET_STATION = 2
};

/* ---- Structs ----
 *
 * Numbers are in the byte order of the machine, whatever their order in the frame; addresses are
 * bytes in the order of the frame. Flags are 0 or 1.
 */

/* A refused unit, or none. */
typedef struct etherpeel_fault {
    size_t offset;          /* where the unit starts */
    size_t required_len;    /* the length that the unit requires, from its start */
    size_t len;             /* the length that is available to it */
    size_t missing;         /* the minimum number of further bytes; 0 if more would not help */
    uint32_t kind;          /* enum etherpeel_fault_kind */
    uint32_t layer;         /* enum etherpeel_layer */
    uint32_t len_source;    /* enum etherpeel_len_source */
    uint16_t packet_type;   /* of ETHERPEEL_FAULT_PACKET_TYPE, else 0 */
    uint16_t hardware_type; /* of ETHERPEEL_FAULT_HARDWARE_TYPE, else 0 */
    uint8_t closed;         /* 1 if bytes appended to the frame would lie outside the unit */
} etherpeel_fault;

/* The result of a whole walk. */
typedef struct etherpeel_found {
    size_t units;           /* the number of units */
    size_t rest_start;      /* where the remaining bytes start, or those of the refused unit */
    size_t rest_end;        /* where they end */
    etherpeel_fault fault;  /* the refused unit, if there is one */
    uint32_t rest_kind;     /* enum etherpeel_rest_kind */
    uint16_t rest_protocol; /* the ether type or protocol number, 0 if there is none */
} etherpeel_found;

/* The result of feeding a walk. */
typedef struct etherpeel_fed {
    size_t refusals;       /* how often the walk asked for bytes and was given them */
    size_t taken;          /* the number of bytes that it was given in all */
    etherpeel_fault fault; /* the fault of the walk of these bytes, if there is one */
} etherpeel_fed;

/* An Ethernet II header (IEEE 802.3, 3.2.3 to 3.2.6). */
typedef struct etherpeel_ethernet2 {
    uint8_t destination[6];
    uint8_t source[6];
    uint16_t ether_type;
    uint8_t has_fcs; /* 1 if a frame check sequence follows, in the 4 bytes from payload_end on */
} etherpeel_ethernet2;

/* A header of Linux cooked capture v1. */
typedef struct etherpeel_linux_sll {
    uint16_t packet_type;   /* 0 to 7: to us, to all, to a group, to someone else, by us .. */
    uint16_t hardware_type; /* the ARPHRD_ number of the link */
    uint16_t address_len;   /* may exceed 8, though the field holds only 8 bytes */
    uint8_t address[8];     /* the sender's address, truncated or padded */
    uint16_t protocol;
} etherpeel_linux_sll;

/* A VLAN tag (IEEE 802.1Q, 9.6). */
typedef struct etherpeel_vlan {
    uint16_t vid;        /* VLAN identifier, 0 to 4095 */
    uint16_t ether_type; /* the ether type after the tag */
    uint8_t pcp;         /* priority code point, 0 to 7 */
    uint8_t dei;         /* drop eligible indicator */
} etherpeel_vlan;

/* A MACsec SecTag (IEEE 802.1AE, 9.3). */
typedef struct etherpeel_macsec {
    uint64_t sci; /* secure channel identifier, 0 if sci_present is 0 */
    uint32_t packet_number;
    uint16_t ether_type;           /* after the tag, 0 if encrypted or changed is 1 */
    uint8_t end_station;           /* bit ES */
    uint8_t sci_present;           /* bit SC */
    uint8_t single_copy_broadcast; /* bit SCB */
    uint8_t encrypted;             /* bit E */
    uint8_t changed;               /* bit C */
    uint8_t association_number;    /* 0 to 3 */
    uint8_t short_len;             /* 0 to 63 */
} etherpeel_macsec;

/* An ARP packet (RFC 826). The addresses are read from the frame: sender_hardware ..
 * sender_hardware + hardware_size, and so on. */
typedef struct etherpeel_arp {
    size_t sender_hardware; /* where the address starts, in bytes from the start of the frame */
    size_t sender_protocol;
    size_t target_hardware;
    size_t target_protocol;
    uint16_t hardware_type;
    uint16_t protocol_type;
    uint16_t operation;    /* 1 request, 2 reply */
    uint8_t hardware_size; /* the length of each hardware address */
    uint8_t protocol_size; /* the length of each protocol address */
} etherpeel_arp;

/* A unit: a header, and the place of its payload. Of the five header structs only that of the
 * unit's kind is filled; the others are all 0. */
typedef struct etherpeel_unit {
    size_t offset;     /* where the header starts */
    size_t header_len; /* its length; for an ARP packet, that of the whole packet */
    size_t payload_start;
    size_t payload_end; /* before a frame check sequence, or where a SecTag says */
    uint32_t kind;      /* enum etherpeel_unit_kind */
    uint8_t closed;     /* 1 if bytes appended to the frame would lie outside the payload */
    etherpeel_ethernet2 ethernet2;
    etherpeel_linux_sll linux_sll;
    etherpeel_vlan vlan;
    etherpeel_macsec macsec;
    etherpeel_arp arp;
} etherpeel_unit;

/* A field of a header. The first bit of a byte is its most significant one. */
typedef struct etherpeel_field {
    size_t bit_offset; /* its offset in bits from the start of the frame */
    size_t bit_len;    /* the number of its bits; 0 for an ARP address of length 0 */
    uint64_t value;    /* the number in them; 0 if there are more than 64 */
    uint32_t unit;     /* the index of its unit */
    uint32_t name;     /* enum etherpeel_field_name */
} etherpeel_field;

/* All headers of a packet, its VLAN identifiers and its least snap length. */
typedef struct etherpeel_headers {
    etherpeel_unit units[5]; /* the headers, outermost first: at most a link, three tags, ARP */
    etherpeel_found found;   /* their number, the bytes after them, and the fault */
    size_t min_snap_len;     /* the least length to which the frame can be cut without losing one of these */
    uint16_t vlan_ids[3];    /* the identifiers of the VLAN tags, outermost first, then 0 */
    uint16_t vlan_count;     /* the number of VLAN tags */
} etherpeel_headers;

/* A packet of a capture file. */
typedef struct etherpeel_captured {
    const uint8_t *packet; /* the captured bytes, inside the file */
    size_t packet_len;
    uint64_t seconds;      /* the time of the capture since 1970, UTC; 0 if it has none */
    uint32_t nanoseconds;  /* after the seconds, rounded down */
    uint32_t original_len; /* the length of the packet before it was cut */
    uint16_t link_type;    /* what it begins with: etherpeel_start_of_link_type */
    uint8_t has_time;      /* 1 if it has a time; a packet of a simple packet block does not */
    uint8_t has_fcs_len;   /* 1 if the file gives the length of the frame check sequence */
    uint8_t fcs_len;       /* that length in bytes, before the packet was cut; else 0 */
} etherpeel_captured;

/* The time in the row of a packet that has none, or none before the year 2262: NaT of NumPy. */
#define ETHERPEEL_NO_TIME INT64_MIN

/* A packet as a row of a table. */
typedef struct etherpeel_row {
    int64_t time;         /* in nanoseconds since 1970, UTC; or ETHERPEEL_NO_TIME */
    uint64_t destination; /* of an Ethernet II header, the first byte the most significant one */
    uint64_t source;
    size_t captured_len;
    size_t fault_offset;   /* where the refused header is in the frame; 0 if none is refused */
    uint32_t original_len; /* the length of the packet before it was cut */
    uint32_t fault;        /* enum etherpeel_fault_kind; 0 if no header is refused */
    uint16_t link_type;    /* as in etherpeel_captured */
    uint16_t ether_type;   /* what announces the bytes after the headers; 0 if no ether type does */
    uint16_t vlan_ids[3];  /* the identifiers of the VLAN tags, outermost first, then 0 */
    uint16_t vlan_count;   /* the number of VLAN tags */
    uint8_t has_addresses; /* 1 if the packet begins with an Ethernet II header */
    uint8_t has_macsec;    /* 1 if it has a SecTag */
    uint8_t has_arp;       /* 1 if it has an ARP packet */
} etherpeel_row;

/* The part of a captured packet that is walked: its bytes, and what to pass with them to the calls
 * for frames. */
typedef struct etherpeel_frame {
    const uint8_t *bytes; /* in the packet */
    size_t len;
    size_t offset;       /* its offset in bytes from the start of the packet */
    uint32_t start;      /* enum etherpeel_start */
    uint16_t ether_type; /* announces it, if start is ETHERPEEL_START_ETHER_TYPE; else 0 */
} etherpeel_frame;

/* Where the packets of a capture file end. */
typedef struct etherpeel_capture_end {
    size_t offset; /* the length of the file, or the offset of the unit that can't be read */
    size_t needed; /* the minimum length of this unit if ETHERPEEL_SHORT is returned, else 0 */
} etherpeel_capture_end;

/* How far a capture file was read. All 0 is the beginning of a file. */
typedef struct etherpeel_reader {
    size_t interface_count;   /* how many interfaces the section has described so far */
    uint32_t snap_len;        /* of a classic file */
    uint16_t link_type;       /* of a classic file */
    uint8_t state;            /* enum etherpeel_reader_state */
    uint8_t is_little_endian; /* 0 if the file or the section has the highest byte first */
    uint8_t has_nanoseconds;  /* 0 if times of a classic file are in microseconds */
    uint8_t has_fcs_len;      /* 1 if a classic file gives the length of the frame check sequence */
    uint8_t fcs_len;          /* that length in bytes; else 0 */
} etherpeel_reader;

/* An interface that a section of a pcapng file describes. */
typedef struct etherpeel_interface {
    uint64_t time_offset; /* seconds that are added to each time, in two's complement */
    uint32_t snap_len;    /* the most bytes captured of a packet; 0 if there is no limit */
    uint16_t link_type;   /* what its packets begin with: etherpeel_start_of_link_type */
    uint8_t has_fcs_len;  /* 1 if the section gives the length of the frame check sequence */
    uint8_t fcs_len;      /* that length in bytes; else 0 */
    uint8_t has_time_resolution; /* 1 if the section gives the unit of times; else microseconds */
    uint8_t time_resolution; /* 10^-n seconds for n below 128, else 2^-(n - 128) seconds */
} etherpeel_interface;

/* A header, record or block of a capture file that was read. */
typedef struct etherpeel_read_unit {
    size_t len;            /* its length in bytes; 0 if it was not read */
    size_t needed;         /* its minimum length if ETHERPEEL_SHORT is returned, else 0 */
    uint32_t interface;    /* the number of the packet's interface in its section; else 0 */
    uint8_t has_packet;    /* 1 if it has a packet */
    uint8_t has_interface; /* 1 if the packet has an interface; one of a classic file does not */
} etherpeel_read_unit;

/* The codes of options whose values are texts, in UTF-8 without a 0 byte at the end. The first is
 * for each block, the others are for interface descriptions. */
enum etherpeel_option_code {
    ETHERPEEL_OPTION_COMMENT = 1,
    ETHERPEEL_OPTION_INTERFACE_NAME = 2,
    ETHERPEEL_OPTION_INTERFACE_DESCRIPTION = 3
};

/* An option of a block of a pcapng file. */
typedef struct etherpeel_option {
    const uint8_t *value; /* in the block, without padding */
    size_t value_len;
    uint16_t code; /* what the value is, by the type of the block: enum etherpeel_option_code */
} etherpeel_option;

/* A header of Linux cooked capture v2, and what to pass with its payload to calls for frames. */
typedef struct etherpeel_linux_sll2_header {
    size_t payload_start;     /* 20 */
    uint32_t interface_index; /* of the interface on which the packet was seen */
    uint32_t start;           /* ETHERPEEL_START_ETHER_TYPE; 0 if the payload has no ether type */
    uint16_t protocol;
    uint16_t ether_type;    /* of the payload, 0 if it has none */
    uint16_t hardware_type; /* the ARPHRD_ number of the interface */
    uint8_t packet_type;    /* 0 to 7, as of Linux cooked capture v1 */
    uint8_t address_len;    /* may exceed 8, though the field holds only 8 bytes */
    uint8_t address[8];     /* the sender's address, truncated or padded */
} etherpeel_linux_sll2_header;

/* Why a text is not a filter's expression. */
typedef struct etherpeel_filter_error {
    size_t offset; /* where the first word that does not fit begins, or the length of the text */
    uint32_t kind; /* enum etherpeel_filter_error_kind */
    uint32_t greatest; /* the greatest number, or the number of bytes, that is expected; else 0 */
} etherpeel_filter_error;

/* A filter that was read. etherpeel_filter_parse writes it and the other calls read it; it holds no
 * pointer, so a copy of it is a filter, too. What its numbers mean may change with the version. */
typedef struct etherpeel_filter {
    uint64_t numbers[577];
} etherpeel_filter;

/* Why a header is not replaced. */
typedef struct etherpeel_replace_error {
    size_t tags;         /* the number of VLAN tags and SecTags, after ETHERPEEL_NO_TAG; else 0 */
    uint32_t difference; /* enum etherpeel_difference, after ETHERPEEL_DIFFERS; else 0 */
} etherpeel_replace_error;

/* A set of ports, by their numbers, 0 to 255. Port `i` is in it if words[i / 64] >> i % 64 & 1. */
typedef struct etherpeel_ports {
    uint64_t words[4];
} etherpeel_ports;

/* How a VLAN of a bridge is set up. If it has no buckets, or if not all of them are in the table,
 * no station is learned. */
typedef struct etherpeel_switch_vlan {
    etherpeel_ports members;  /* the ports through which its frames leave (IEEE 802.1Q, 8.8.10) */
    etherpeel_ports untagged; /* the ports through which they leave without a tag */
    uint32_t first_bucket;    /* the index, in the table of stations, of its first bucket */
    uint32_t buckets;         /* how many buckets it has */
} etherpeel_switch_vlan;

/* What the ports of a bridge may do now (IEEE 802.1Q, 8.4). A port that is discarding is in none of
 * the first two sets, one that is learning in the first, one that is forwarding in both. */
typedef struct etherpeel_port_states {
    etherpeel_ports learning;   /* those that learn the sources of the frames that they accept */
    etherpeel_ports forwarding; /* those through which frames come in and leave */
    etherpeel_ports isolated;   /* those that exchange no frames with each other */
    etherpeel_ports mirrors;    /* those that get a copy of each frame, with a tag */
} etherpeel_port_states;

/* Where frames to an address in a VLAN go, whatever the bridge has learned (IEEE 802.1Q, 8.8.1). */
typedef struct etherpeel_static_entry {
    etherpeel_ports ports; /* those through which they leave, if these are members of the VLAN */
    uint8_t address[6];    /* of a station or a group */
    uint16_t vid;          /* the identifier of the VLAN */
} etherpeel_static_entry;

/* How a port of a bridge is set up. The VLANs that it is a member of are in etherpeel_switch_vlan,
 * and its state is in etherpeel_port_states. */
typedef struct etherpeel_port {
    uint16_t pvid;              /* the VLAN of a frame without a VLAN identifier, 1 to 4094 */
    uint8_t frame_types;        /* enum etherpeel_frame_types */
    uint8_t refuses_second_tag; /* 0 if it accepts a second tag of the bridge's kind */
    uint8_t ingress_filtering;  /* 0 if it accepts frames of VLANs that it is not a member of */
    uint8_t default_priority;   /* the priority of a frame that comes in without a tag, 0 to 7 */
} etherpeel_port;

/* How a bridge is set up. VLANs that are not in the array have no ports. No pointer may be NULL,
 * even if its array has no elements. */
typedef struct etherpeel_bridge {
    uint64_t key[2]; /* of the hash that chooses a station's buckets: two random numbers */
    const etherpeel_port_states *ports;
    const etherpeel_switch_vlan *vlans; /* each at the index of its identifier */
    size_t vlan_count;
    const etherpeel_static_entry *static_entries; /* the first one for an address and VLAN counts */
    size_t static_entry_count;
    uint32_t ageing_time; /* how many seconds a sighting counts; the standard recommends 300 */
    uint16_t forwarded;   /* bit i: it forwards frames to 01-80-C2-00-00-0i, against the standard */
    uint8_t kind;         /* enum etherpeel_bridge_kind */
} etherpeel_bridge;

/* A frame that a bridge received, and where it goes. If it is discarded, all other fields are 0. */
typedef struct etherpeel_received {
    etherpeel_ports tagged;   /* the ports through which it leaves with the tag of its VLAN */
    etherpeel_ports untagged; /* the ports through which it leaves without a tag */
    uint16_t vid;             /* the identifier of its VLAN, 1 to 4094 */
    uint8_t kind;             /* of the bridge: enum etherpeel_bridge_kind */
    uint8_t priority;         /* of its tag, else the port's default */
    uint8_t drop_eligible;    /* 1 if it may be dropped first under congestion, else 0 */
    uint8_t reserved;         /* 1 if it is for the bridge itself, else 0 */
    uint8_t discarded;        /* enum etherpeel_discarded */
} etherpeel_received;

/* A frame of a station: when it came in, and at which port. */
typedef struct etherpeel_sighting {
    uint64_t address; /* its first byte is the highest of 48 bits; 0 if the place is free */
    uint32_t time;    /* in seconds, as the caller gave it */
    uint8_t port;
} etherpeel_sighting;

/* The last sightings of up to four stations. If it is all 0, it knows none. */
typedef struct etherpeel_bucket {
    etherpeel_sighting places[4];
} etherpeel_bucket;

/* ---- The library ----
 *
 * With these a program that uses the shared library, or that declares the structs in another
 * language, can check that it fits the library with which it runs.
 */

/* The structs, for etherpeel_sizeof. */
enum etherpeel_struct {
    ETHERPEEL_STRUCT_FAULT = 1,
    ETHERPEEL_STRUCT_FOUND = 2,
    ETHERPEEL_STRUCT_FED = 3,
    ETHERPEEL_STRUCT_ETHERNET2 = 4,
    ETHERPEEL_STRUCT_LINUX_SLL = 5,
    ETHERPEEL_STRUCT_VLAN = 6,
    ETHERPEEL_STRUCT_MACSEC = 7,
    ETHERPEEL_STRUCT_ARP = 8,
    ETHERPEEL_STRUCT_UNIT = 9,
    ETHERPEEL_STRUCT_HEADERS = 10,
    ETHERPEEL_STRUCT_CAPTURED = 11,
    ETHERPEEL_STRUCT_CAPTURE_END = 12,
    ETHERPEEL_STRUCT_FILTER_ERROR = 13,
    ETHERPEEL_STRUCT_FRAME = 14,
    ETHERPEEL_STRUCT_FIELD = 15,
    ETHERPEEL_STRUCT_LINUX_SLL2_HEADER = 16,
    ETHERPEEL_STRUCT_REPLACE_ERROR = 17,
    ETHERPEEL_STRUCT_FILTER = 18,
    ETHERPEEL_STRUCT_PORT = 19,
    ETHERPEEL_STRUCT_RECEIVED = 20,
    ETHERPEEL_STRUCT_SIGHTING = 21,
    ETHERPEEL_STRUCT_BUCKET = 22,
    ETHERPEEL_STRUCT_PORTS = 23,
    ETHERPEEL_STRUCT_SWITCH_VLAN = 24,
    ETHERPEEL_STRUCT_PORT_STATES = 25,
    ETHERPEEL_STRUCT_STATIC_ENTRY = 26,
    ETHERPEEL_STRUCT_BRIDGE = 27,
    ETHERPEEL_STRUCT_READER = 28,
    ETHERPEEL_STRUCT_INTERFACE = 29,
    ETHERPEEL_STRUCT_READ_UNIT = 30,
    ETHERPEEL_STRUCT_ROW = 31,
    ETHERPEEL_STRUCT_OPTION = 32
};

/* etherpeel_version - the version of the library, as ETHERPEEL_VERSION is that of this header
 *
 * A number in host byte order. Thread-safe; takes no memory.
 */
uint32_t etherpeel_version(void);

/* etherpeel_sizeof - the size in bytes of a struct, by its number of enum etherpeel_struct; 0 if no
 * struct has the number
 *
 * Both are in host byte order. Thread-safe; takes no memory.
 */
size_t etherpeel_sizeof(uint32_t number);

/* etherpeel_fits - 1 if the library is one for this header: its version has the same first number,
 * and is not below that of the header, and the structs have the same sizes; else 0
 *
 * Thread-safe; takes no memory.
 */
static inline int etherpeel_fits(void) {
    return etherpeel_version() / 0x10000 == ETHERPEEL_VERSION_MAJOR &&
           etherpeel_version() >= ETHERPEEL_VERSION &&
           etherpeel_sizeof(ETHERPEEL_STRUCT_FAULT) == sizeof(etherpeel_fault) &&
           etherpeel_sizeof(ETHERPEEL_STRUCT_FOUND) == sizeof(etherpeel_found) &&
           etherpeel_sizeof(ETHERPEEL_STRUCT_FED) == sizeof(etherpeel_fed) &&
           etherpeel_sizeof(ETHERPEEL_STRUCT_ETHERNET2) == sizeof(etherpeel_ethernet2) &&
           etherpeel_sizeof(ETHERPEEL_STRUCT_LINUX_SLL) == sizeof(etherpeel_linux_sll) &&
           etherpeel_sizeof(ETHERPEEL_STRUCT_VLAN) == sizeof(etherpeel_vlan) &&
           etherpeel_sizeof(ETHERPEEL_STRUCT_MACSEC) == sizeof(etherpeel_macsec) &&
           etherpeel_sizeof(ETHERPEEL_STRUCT_ARP) == sizeof(etherpeel_arp) &&
           etherpeel_sizeof(ETHERPEEL_STRUCT_UNIT) == sizeof(etherpeel_unit) &&
           etherpeel_sizeof(ETHERPEEL_STRUCT_HEADERS) == sizeof(etherpeel_headers) &&
           etherpeel_sizeof(ETHERPEEL_STRUCT_CAPTURED) == sizeof(etherpeel_captured) &&
           etherpeel_sizeof(ETHERPEEL_STRUCT_CAPTURE_END) == sizeof(etherpeel_capture_end) &&
           etherpeel_sizeof(ETHERPEEL_STRUCT_FILTER_ERROR) == sizeof(etherpeel_filter_error) &&
           etherpeel_sizeof(ETHERPEEL_STRUCT_FRAME) == sizeof(etherpeel_frame) &&
           etherpeel_sizeof(ETHERPEEL_STRUCT_FIELD) == sizeof(etherpeel_field) &&
           etherpeel_sizeof(ETHERPEEL_STRUCT_LINUX_SLL2_HEADER) ==
               sizeof(etherpeel_linux_sll2_header) &&
           etherpeel_sizeof(ETHERPEEL_STRUCT_REPLACE_ERROR) == sizeof(etherpeel_replace_error) &&
           etherpeel_sizeof(ETHERPEEL_STRUCT_FILTER) == sizeof(etherpeel_filter) &&
           etherpeel_sizeof(ETHERPEEL_STRUCT_PORT) == sizeof(etherpeel_port) &&
           etherpeel_sizeof(ETHERPEEL_STRUCT_RECEIVED) == sizeof(etherpeel_received) &&
           etherpeel_sizeof(ETHERPEEL_STRUCT_SIGHTING) == sizeof(etherpeel_sighting) &&
           etherpeel_sizeof(ETHERPEEL_STRUCT_BUCKET) == sizeof(etherpeel_bucket) &&
           etherpeel_sizeof(ETHERPEEL_STRUCT_PORTS) == sizeof(etherpeel_ports) &&
           etherpeel_sizeof(ETHERPEEL_STRUCT_SWITCH_VLAN) == sizeof(etherpeel_switch_vlan) &&
           etherpeel_sizeof(ETHERPEEL_STRUCT_PORT_STATES) == sizeof(etherpeel_port_states) &&
           etherpeel_sizeof(ETHERPEEL_STRUCT_STATIC_ENTRY) == sizeof(etherpeel_static_entry) &&
           etherpeel_sizeof(ETHERPEEL_STRUCT_BRIDGE) == sizeof(etherpeel_bridge) &&
           etherpeel_sizeof(ETHERPEEL_STRUCT_READER) == sizeof(etherpeel_reader) &&
           etherpeel_sizeof(ETHERPEEL_STRUCT_INTERFACE) == sizeof(etherpeel_interface) &&
           etherpeel_sizeof(ETHERPEEL_STRUCT_READ_UNIT) == sizeof(etherpeel_read_unit) &&
           etherpeel_sizeof(ETHERPEEL_STRUCT_ROW) == sizeof(etherpeel_row) &&
           etherpeel_sizeof(ETHERPEEL_STRUCT_OPTION) == sizeof(etherpeel_option);
}

/* etherpeel_start_of_link_type - the number of enum etherpeel_start for packets of a link type, 0
 * if no walk starts with such packets
 *
 * The link type is what pcap_datalink of libpcap returns, or what a capture file says: 1
 * (DLT_EN10MB) for ETHERPEEL_START_ETHERNET2, 113 (DLT_LINUX_SLL) for ETHERPEEL_START_LINUX_SLL.
 * Both numbers are in host byte order. Thread-safe; takes no memory.
 */
uint32_t etherpeel_start_of_link_type(uint32_t link_type);

/* ---- Calls ---- */

/* etherpeel_summary - the result of the walk through a frame
 *
 * Fills *found with the number of units, the window after them and what it is announced as, and the
 * fault if a unit is refused.
 * Returns ETHERPEEL_DONE or ETHERPEEL_UNKNOWN_START. A refused frame is ETHERPEEL_DONE, and
 * found->fault.kind is then not ETHERPEEL_FAULT_NONE. The form with a limit above len / 4
 * fills *found as the form without one does.
 * Overlap: *found must not overlap the frame. Every number is in host byte order. Thread-safe;
 * takes no memory.
 */
uint32_t etherpeel_summary(uint32_t start, uint16_t ether_type, const uint8_t *bytes, size_t len,
                           etherpeel_found *found);
uint32_t etherpeel_summary_limited(uint32_t start, uint16_t ether_type, const uint8_t *bytes,
                                   size_t len, size_t limit, etherpeel_found *found);

/* etherpeel_walk - the units of a frame
 *
 * Fills units[0], units[1] .. with the units of the frame from the outermost on, as many as there
 * is room for, and *count with the number of all of them, which may exceed `room`. Elements from
 * *count on are unchanged. If a unit is refused, the array has the units before it, and
 * etherpeel_summary says why the walk ended. A frame has at most len / 4 units.
 * Returns ETHERPEEL_DONE or ETHERPEEL_UNKNOWN_START.
 * Overlap: frame, units and *count must not overlap. Every number is in host byte order, the
 * addresses of a unit in that of the frame. Thread-safe; takes no memory.
 */
uint32_t etherpeel_walk(uint32_t start, uint16_t ether_type, const uint8_t *bytes, size_t len,
                        etherpeel_unit *units, size_t room, size_t *count);
uint32_t etherpeel_walk_limited(uint32_t start, uint16_t ether_type, const uint8_t *bytes,
                                size_t len, size_t limit, etherpeel_unit *units, size_t room,
                                size_t *count);

/* etherpeel_fields - the fields of the headers of a frame
 *
 * Fills fields[0], fields[1] .. with the fields of the units of the frame from the outermost on, as
 * many as there is room for, and *count with the number of all of them, which may exceed `room`.
 * The fields of a unit are in the order of the frame; a frame check sequence follows the fields of
 * the Ethernet II header, and belongs to its unit. Elements from *count on are unchanged. If a unit
 * is refused, the array has the fields of the units before it. A frame has at most 2 * len fields.
 * Returns ETHERPEEL_DONE or ETHERPEEL_UNKNOWN_START.
 * Overlap: frame, fields and *count must not overlap. Every number is in host byte order.
 * Thread-safe; takes no memory.
 */
uint32_t etherpeel_fields(uint32_t start, uint16_t ether_type, const uint8_t *bytes, size_t len,
                          etherpeel_field *fields, size_t room, size_t *count);

/* etherpeel_packet - all headers of a frame, its VLAN identifiers and its least snap length
 *
 * Fills headers->units and headers->found with the units and the result of the walk that reads at
 * most three VLAN tags and SecTags; elements from headers->found.units on are unchanged. For these
 * headers it also sets the identifiers of the VLAN tags, and the least snap length that keeps them
 * all; a cut frame is read as one without a frame check sequence.
 * Returns ETHERPEEL_DONE or ETHERPEEL_UNKNOWN_START. A refused frame is ETHERPEEL_DONE, as in
 * etherpeel_summary, with the headers before the fault.
 * Overlap: *headers must not overlap the frame. Every number is in host byte order, the addresses
 * of a unit in that of the frame. Thread-safe; takes no memory.
 */
uint32_t etherpeel_packet(uint32_t start, uint16_t ether_type, const uint8_t *bytes, size_t len,
                          etherpeel_headers *headers);

/* etherpeel_write_back - writes the headers of a frame, and the bytes after them
 *
 * Writes the bytes of each header, and then the bytes of the remaining window, to the front of
 * `target`: the bytes of the frame up to the end of that window, except that the two reserved bits
 * of each SecTag are 0. The bytes of `target` after these are unchanged. A frame check sequence is
 * not written. *written_len is the offset at which that window ends in the frame, which is the
 * number of bytes written.
 * Returns ETHERPEEL_DONE, ETHERPEEL_UNKNOWN_START, or ETHERPEEL_NO_ROOM if `room` is smaller than
 * *written_len; then `target` is unchanged.
 * Overlap: frame, target and *written_len must not overlap: it does not write in place. Every
 * number is in host byte order. Thread-safe; takes no memory.
 */
uint32_t etherpeel_write_back(uint32_t start, uint16_t ether_type, const uint8_t *bytes, size_t len,
                              uint8_t *target, size_t room, size_t *written_len);
uint32_t etherpeel_write_back_limited(uint32_t start, uint16_t ether_type, const uint8_t *bytes,
                                      size_t len, size_t limit, uint8_t *target, size_t room,
                                      size_t *written_len);

/* etherpeel_feed - what a reader takes if it asks each time for exactly the bytes that the walk
 * needs
 *
 * The walk begins with no bytes. While it stops, in an open window, at a unit that needs more
 * bytes, and the frame has them, it is given the minimum number that the unit needs. If the frame
 * is accepted and has no check sequence, the walk takes exactly all headers and each payload whose
 * length a SecTag gives. Of a frame with a check sequence it takes nothing.
 * Returns ETHERPEEL_DONE or ETHERPEEL_UNKNOWN_START.
 * Overlap: *fed must not overlap the frame. Every number is in host byte order. Thread-safe; takes
 * no memory.
 */
uint32_t etherpeel_feed(uint32_t start, uint16_t ether_type, const uint8_t *bytes, size_t len,
                        etherpeel_fed *fed);
uint32_t etherpeel_feed_limited(uint32_t start, uint16_t ether_type, const uint8_t *bytes,
                                size_t len, size_t limit, etherpeel_fed *fed);

/* etherpeel_completion - the fewest bytes that, after a frame cut short, make it accepted
 *
 * They complete the unit in which the frame ends: an Ethernet II header, a VLAN tag, an ARP packet,
 * or a SecTag with the payload whose length it gives. Each byte is 0, or 1 where a 0 would complete
 * an ether type that announces a VLAN tag. *fill_len is their number, at most 1028; it is 0 if no
 * bytes complete the frame: it is accepted, or is refused for its contents or in a closed window,
 * or ends in a header of cooked capture, in fewer than six bytes of a SecTag, or in the payload of
 * a whole SecTag.
 * Returns ETHERPEEL_DONE, ETHERPEEL_UNKNOWN_START, or ETHERPEEL_NO_ROOM if `room` is smaller than
 * *fill_len; then `fill` is unchanged.
 * Overlap: frame, fill and *fill_len must not overlap; `fill` may be the memory right after the
 * frame. Every number is in host byte order. Thread-safe; takes no memory.
 */
uint32_t etherpeel_completion(uint32_t start, uint16_t ether_type, const uint8_t *bytes, size_t len,
                              uint8_t *fill, size_t room, size_t *fill_len);
uint32_t etherpeel_completion_limited(uint32_t start, uint16_t ether_type, const uint8_t *bytes,
                                      size_t len, size_t limit, uint8_t *fill, size_t room,
                                      size_t *fill_len);

/* etherpeel_missing - the minimum number of further bytes that the refused unit needs
 *
 * *missing is 0 if more bytes after the frame would not help: it is accepted, or is refused for its
 * contents or in a closed window. Supplying the missing bytes does not guarantee acceptance. The
 * number is also the field `missing` of the fault of etherpeel_summary.
 * Returns ETHERPEEL_DONE or ETHERPEEL_UNKNOWN_START.
 * Overlap: *missing must not overlap the frame. Every number is in host byte order. Thread-safe;
 * takes no memory.
 */
uint32_t etherpeel_missing(uint32_t start, uint16_t ether_type, const uint8_t *bytes, size_t len,
                           size_t *missing);
uint32_t etherpeel_missing_limited(uint32_t start, uint16_t ether_type, const uint8_t *bytes,
                                   size_t len, size_t limit, size_t *missing);

/* etherpeel_fault_text - the text of the fault of a frame, in English
 *
 * Writes the text, such as "at offset 14: VLAN Header Error: ..", to the front of `text`, in ASCII
 * with no 0 byte at its end. *text_len is its length, fewer than 512 bytes; it is 0 if the frame is
 * accepted.
 * Returns ETHERPEEL_DONE, ETHERPEEL_UNKNOWN_START, or ETHERPEEL_NO_ROOM if `room` is smaller than
 * *text_len; then `text` is unchanged. ETHERPEEL_NO_TEXT is not ruled out by proof, though every
 * refusal in the tests gives a text; after it *text_len is 0, and `text` is unchanged.
 * Overlap: frame, text and *text_len must not overlap. Every number is in host byte order.
 * Thread-safe; takes no memory.
 */
uint32_t etherpeel_fault_text(uint32_t start, uint16_t ether_type, const uint8_t *bytes, size_t len,
                              char *text, size_t room, size_t *text_len);
uint32_t etherpeel_fault_text_limited(uint32_t start, uint16_t ether_type, const uint8_t *bytes,
                                      size_t len, size_t limit, char *text, size_t room,
                                      size_t *text_len);

/* ---- VLAN tags changed in place ----
 *
 * A frame check sequence and an integrity check value are unchanged, and don't fit the new bytes.
 * Whatever is not named is unchanged, even if a later header is refused. If a call does not return
 * ETHERPEEL_DONE, it has written nothing.
 */

/* etherpeel_pop_vlan - takes off the VLAN tag after the link's header, in place
 *
 * The frame is then `frame + 4` with `len - 4` bytes: the 12 bytes of the addresses, or the 14
 * bytes of a cooked capture before its protocol type, are moved by four bytes, and the ether type
 * of the tag becomes that of the link's header. *tag is the tag that was taken off.
 * Returns ETHERPEEL_DONE, ETHERPEEL_UNKNOWN_START, ETHERPEEL_NO_LINK, ETHERPEEL_OTHER_LINK,
 * ETHERPEEL_NO_VLAN or ETHERPEEL_CUT_VLAN.
 * In place in `frame`, which *tag must not overlap. Every number is in host byte order.
 * Thread-safe; takes no memory.
 */
uint32_t etherpeel_pop_vlan(uint32_t start, uint16_t ether_type, uint8_t *frame, size_t len,
                            etherpeel_vlan *tag);

/* etherpeel_push_vlan - puts a VLAN tag after the link's header, in place
 *
 * The frame is `buffer + 4` with `len - 4` bytes before, and the whole buffer afterwards: the bytes
 * of the link's header before its type are moved by four bytes. `tpid` is the ether type that
 * announces the tag: 0x8100, 0x88A8 or 0x9100. The tag gets the ether type of the link's header:
 * tag->ether_type is ignored. So etherpeel_pop_vlan takes off the tag that was put in, and the tag
 * that it returns can be put in again.
 * Returns ETHERPEEL_DONE, or the first of these that applies: ETHERPEEL_UNKNOWN_START;
 * ETHERPEEL_BAD_FIELD if tag->vid is above 4095, tag->pcp above 7 or tag->dei above 1;
 * ETHERPEEL_BAD_TPID; ETHERPEEL_NO_ROOM if `len` is below 4; ETHERPEEL_NO_LINK;
 * ETHERPEEL_OTHER_LINK.
 * In place in `buffer`, which *tag must not overlap. Every number is in host byte order.
 * Thread-safe; takes no memory.
 */
uint32_t etherpeel_push_vlan(uint32_t start, uint16_t ether_type, uint8_t *buffer, size_t len,
                             const etherpeel_vlan *tag, uint16_t tpid);

/* etherpeel_set_vlan_id - sets the identifier of a VLAN tag, in place
 *
 * `index` counts the VLAN tags and SecTags of the frame, the outermost from 0. Only the 12 bits of
 * the identifier change.
 * Returns ETHERPEEL_DONE, or the first of these that applies: ETHERPEEL_UNKNOWN_START;
 * ETHERPEEL_BAD_FIELD if `vid` is above 4095; ETHERPEEL_NO_TAG; ETHERPEEL_NO_VLAN.
 * In place in `frame`. Every number is in host byte order. Thread-safe; takes no memory.
 */
uint32_t etherpeel_set_vlan_id(uint32_t start, uint16_t ether_type, uint8_t *frame, size_t len,
                               size_t index, uint16_t vid);

/* etherpeel_set_vlan_tag - sets the tag control information of a VLAN tag, in place
 *
 * Does as etherpeel_set_vlan_id, but sets tag->pcp, tag->dei and tag->vid. The ether type after the
 * tag is unchanged: tag->ether_type is ignored.
 * Returns ETHERPEEL_DONE, or the first of these that applies: ETHERPEEL_UNKNOWN_START;
 * ETHERPEEL_BAD_FIELD if tag->vid is above 4095, tag->pcp above 7 or tag->dei above 1;
 * ETHERPEEL_NO_TAG; ETHERPEEL_NO_VLAN.
 * In place in `frame`, which *tag must not overlap. Every number is in host byte order.
 * Thread-safe; takes no memory.
 */
uint32_t etherpeel_set_vlan_tag(uint32_t start, uint16_t ether_type, uint8_t *frame, size_t len,
                                size_t index, const etherpeel_vlan *tag);

/* etherpeel_set_tpid - sets the ether type that announces a VLAN tag, in place
 *
 * It is the ether type of the header before the tag: of the link, or of another VLAN tag or SecTag.
 * `index` counts as in etherpeel_set_vlan_id; `tpid` is 0x8100, 0x88A8 or 0x9100.
 * Returns ETHERPEEL_DONE, or the first of these that applies: ETHERPEEL_UNKNOWN_START;
 * ETHERPEEL_BAD_TPID; ETHERPEEL_NO_TAG; ETHERPEEL_NO_VLAN; ETHERPEEL_UNANNOUNCED if the frame
 * begins with the tag.
 * In place in `frame`. Every number is in host byte order. Thread-safe; takes no memory.
 */
uint32_t etherpeel_set_tpid(uint32_t start, uint16_t ether_type, uint8_t *frame, size_t len,
                            size_t index, uint16_t tpid);

/* ---- Headers replaced in place ----
 *
 * `header` is a unit that etherpeel_walk wrote, or one that the caller fills in. Only its kind and
 * the struct of that kind are read, without has_fcs, without `sci` if sci_present is 0, and without
 * `ether_type` of a SecTag if `encrypted` or `changed` is 1. The header must have the kind and the
 * length of the one in the frame, and say the same about what follows it.
 * No other byte of the frame changes: a frame check sequence and an integrity check value don't fit
 * the new bytes. All other headers are as before, even if a later one is refused. If a call does
 * not return ETHERPEEL_DONE, the frame is unchanged. *error is set if it returns ETHERPEEL_NO_LINK,
 * ETHERPEEL_NO_TAG, ETHERPEEL_NO_ARP or ETHERPEEL_DIFFERS, and is else unchanged.
 */

/* etherpeel_replace_link - replaces the link's header at the front of a frame, in place
 *
 * `header` is of ETHERPEEL_UNIT_ETHERNET2 or ETHERPEEL_UNIT_LINUX_SLL. It must have the ether type
 * of the one in the frame, or its hardware type and protocol number.
 * Returns ETHERPEEL_DONE, or the first of these that applies: ETHERPEEL_UNKNOWN_START;
 * ETHERPEEL_BAD_KIND; ETHERPEEL_BAD_FIELD if the packet type of a cooked capture is above 7;
 * ETHERPEEL_NO_LINK, also if the header in the frame is refused; ETHERPEEL_DIFFERS.
 * In place in `frame`, which neither *header nor *error may overlap, nor they one another. Every
 * number is in host byte order, the addresses in that of the frame. Thread-safe; takes no memory.
 */
uint32_t etherpeel_replace_link(uint32_t start, uint16_t ether_type, uint8_t *frame, size_t len,
                                const etherpeel_unit *header, etherpeel_replace_error *error);

/* etherpeel_replace_link_ext - replaces a VLAN tag or SecTag, in place
 *
 * `index` counts the VLAN tags and SecTags of the frame, the outermost from 0. `header` is of
 * ETHERPEEL_UNIT_VLAN or ETHERPEEL_UNIT_MACSEC. It must have the ether type of the VLAN tag in the
 * frame; or the bits E, C and SC, the short length and, if there is one, the ether type of the
 * SecTag there. The two reserved bits of a SecTag become 0.
 * Returns ETHERPEEL_DONE, or the first of these that applies: ETHERPEEL_UNKNOWN_START;
 * ETHERPEEL_BAD_KIND; ETHERPEEL_BAD_FIELD if a number does not fit its field, or a flag is above 1;
 * ETHERPEEL_NO_TAG; ETHERPEEL_DIFFERS.
 * In place in `frame`, which neither *header nor *error may overlap, nor they one another. Every
 * number is in host byte order. Thread-safe; takes no memory.
 */
uint32_t etherpeel_replace_link_ext(uint32_t start, uint16_t ether_type, uint8_t *frame, size_t len,
                                    size_t index, const etherpeel_unit *header,
                                    etherpeel_replace_error *error);

/* etherpeel_replace_arp - replaces the ARP packet of a frame, in place
 *
 * The ARP packet is the one after at most three VLAN tags and SecTags. `header` is of
 * ETHERPEEL_UNIT_ARP. Its addresses are read from the `bytes_len` bytes at `bytes`, from
 * header->arp.sender_hardware on, and so on: those of another frame that the unit is of, or an
 * array that the caller fills in. NULL is allowed if `bytes_len` is 0. The addresses must have the
 * lengths of those in the frame.
 * Returns ETHERPEEL_DONE, or the first of these that applies: ETHERPEEL_UNKNOWN_START;
 * ETHERPEEL_BAD_KIND; ETHERPEEL_BAD_FIELD if an address is not inside the bytes; ETHERPEEL_NO_ARP;
 * ETHERPEEL_DIFFERS.
 * In place in `frame`, which neither *header, the bytes nor *error may overlap, nor *error these.
 * Every number is in host byte order, the addresses in that of the frame. Thread-safe; takes no
 * memory, and some 14 KB of stack.
 */
uint32_t etherpeel_replace_arp(uint32_t start, uint16_t ether_type, uint8_t *frame, size_t len,
                               const etherpeel_unit *header, const uint8_t *bytes, size_t bytes_len,
                               etherpeel_replace_error *error);

/* ---- Packets built ---- */

/* etherpeel_build - a packet of headers and a payload
 *
 * Writes the headers of units[0] .. units[count - 1] and after them the payload to the front of
 * `target`. The first unit is of ETHERPEEL_UNIT_ETHERNET2, or of ETHERPEEL_UNIT_LINUX_SLL with the
 * hardware type 1. Up to eight of ETHERPEEL_UNIT_VLAN and ETHERPEEL_UNIT_MACSEC follow, outermost
 * first. Units are read as by the calls that replace headers. Only the last tag, before a payload,
 * may be a SecTag whose payload is encrypted or changed.
 * The payload is the `payload_len` bytes at `payload`, which `ether_type` announces. If the last
 * unit is of ETHERPEEL_UNIT_ARP, the packet ends with it: its addresses are read from these bytes
 * as by etherpeel_replace_arp, and `ether_type` is ignored. NULL is allowed if `payload_len` is 0.
 * The ether type of each header is set by what follows it. Before a VLAN tag, an ether type that
 * announces one is kept: 0x8100, 0x88A8 or 0x9100. Any other becomes 0x88A8 if another VLAN tag
 * directly follows that tag, else 0x8100. The short length of each SecTag is set to the number of
 * bytes after it, with the two of its ether type if it has one, and to 0 if there are more than 63.
 * IEEE 802.1AE, 9.7, wants 0 for lengths of 48 to 63, too.
 * There is no frame check sequence.
 * *written_len is the length of the packet. The bytes of `target` after it are unchanged.
 * Returns ETHERPEEL_DONE, or the first of these that applies; then `target` is unchanged. For the
 * first unit that is wrong, whose index is then *written_len: ETHERPEEL_BAD_KIND, also if there is
 * no unit; ETHERPEEL_BAD_FIELD; ETHERPEEL_TOO_MANY_TAGS for the ninth tag. For the packet:
 * ETHERPEEL_OTHER_LINK, and *written_len is 0; ETHERPEEL_SEALED, and *written_len is the index of
 * the SecTag; ETHERPEEL_NO_ROOM if `room` is smaller than the length of the packet, which is
 * *written_len.
 * Overlap: neither `target` nor *written_len may overlap the units, the payload or one another.
 * Every number is in host byte order, addresses in that of the packet. Thread-safe; takes no
 * memory, and some 18 KB of stack.
 */
uint32_t etherpeel_build(const etherpeel_unit *units, size_t count, uint16_t ether_type,
                         const uint8_t *payload, size_t payload_len, uint8_t *target, size_t room,
                         size_t *written_len);

/* etherpeel_write_frame - a frame with other headers, and its padding and trailers
 *
 * Writes the headers of units[0] .. units[count - 1] to the front of `target`, and after them the
 * bytes of a frame from `rest_start` on: what follows its headers, with padding, the integrity
 * check value of MACsec, and a frame check sequence. The units are those of etherpeel_build, but a
 * cooked capture may have any hardware type, and any tag may follow another. No field is set by
 * what follows it. If the last unit is of ETHERPEEL_UNIT_ARP, its addresses are read from the
 * frame, as by etherpeel_replace_arp.
 * The units that etherpeel_walk wrote give the frame again, but for the reserved bits of SecTags,
 * if `rest_start` is where the last header ends: its offset plus its header_len. If a program
 * changes units first, they give the frame with these changes. No integrity check value and no
 * frame check sequence is computed anew.
 * *written_len is the length of the new frame. The bytes of `target` after it are unchanged.
 * Returns ETHERPEEL_DONE, or the first of these that applies; then `target` is unchanged. For the
 * first unit that is wrong, whose index is then *written_len: ETHERPEEL_BAD_KIND, also if there is
 * no unit; ETHERPEEL_BAD_FIELD; ETHERPEEL_TOO_MANY_TAGS for the ninth tag. ETHERPEEL_BAD_FIELD, and
 * *written_len is `count`, if `rest_start` exceeds `len`. ETHERPEEL_NO_ROOM if `room` is smaller
 * than the length of the new frame, which is *written_len.
 * Overlap: neither `target` nor *written_len may overlap the units, the frame or one another.
 * Every number is in host byte order, addresses in that of the packet. Thread-safe; takes no
 * memory, and some 18 KB of stack.
 */
uint32_t etherpeel_write_frame(const etherpeel_unit *units, size_t count, const uint8_t *bytes,
                               size_t len, size_t rest_start, uint8_t *target, size_t room,
                               size_t *written_len);

/* ---- Capture files ----
 *
 * Classic pcap and pcapng files, of either byte order. `file` points to the `len` bytes of a whole
 * file, as mmap gives it; NULL is allowed if `len` is 0.
 */

/* etherpeel_capture - the packets of a capture file
 *
 * Fills packets[0], packets[1] .. with the packets of the file in order, as many as there is room
 * for, and *count with the number of all of them, which may exceed `room`. Elements from *count on
 * are unchanged. *end says where they end. So a first call with `room` 0 returns their number. The
 * packets point into the file.
 * Returns ETHERPEEL_DONE if they end with the file. If not, it returns ETHERPEEL_SHORT, also for an
 * empty file, or ETHERPEEL_BAD_CAPTURE, and the array has the packets before the fault.
 * The array `packets` must be initialized, as by calloc: an element may be all 0.
 * Overlap: file, packets, *count and *end must not overlap. Every number is in host byte order,
 * whatever its order in the file. Thread-safe; takes no memory, and some 300 KB of stack.
 */
uint32_t etherpeel_capture(const uint8_t *file, size_t len, etherpeel_captured *packets,
                           size_t room, size_t *count, etherpeel_capture_end *end);

/* etherpeel_capture_fault_text - why the packets of a capture file end before it does, in English
 *
 * Writes the text, such as "At byte 24: A packet ..", to the front of `text`, in ASCII with no 0
 * byte at its end. *text_len is its length, fewer than 512 bytes; it is 0 if they end with the
 * file.
 * Returns ETHERPEEL_DONE, or ETHERPEEL_NO_ROOM if `room` is smaller than *text_len; then `text` is
 * unchanged. ETHERPEEL_NO_TEXT is not ruled out by proof; after it *text_len is 0, and `text` is
 * unchanged.
 * Overlap: file, text and *text_len must not overlap. Every number is in host byte order.
 * Thread-safe; takes no memory, and some 300 KB of stack.
 */
uint32_t etherpeel_capture_fault_text(const uint8_t *file, size_t len, char *text, size_t room,
                                      size_t *text_len);

/* etherpeel_capture_header - how a classic capture file begins
 *
 * Writes to `header` the 24 bytes with which a file begins that etherpeel_capture and libpcap read:
 * little-endian, with times in nanoseconds. `link_type` is a LINKTYPE_ number, `snap_len` is the
 * length to which longer packets were cut, as 262144, and `fcs_len` is the length in bytes of the
 * frame check sequence at the end of each packet, 0 to say nothing of it.
 * Returns ETHERPEEL_DONE; or ETHERPEEL_BAD_FIELD if `fcs_len` is odd or above 30, and then nothing
 * is written.
 * Every number is in host byte order. Thread-safe; takes no memory.
 */
uint32_t etherpeel_capture_header(uint16_t link_type, uint32_t snap_len, uint8_t fcs_len,
                                  uint8_t *header);

/* etherpeel_capture_record - what a classic capture file has before the bytes of a packet
 *
 * Writes to `header` 16 bytes: the time of the packet and its two lengths. In a file that begins as
 * etherpeel_capture_header says, these and the packet_len bytes of the packet follow what was
 * written before. The file's link type is that of all its packets; link_type, has_fcs_len and
 * fcs_len are not read here. A packet without a time gets the time 0.
 * Returns ETHERPEEL_DONE; or ETHERPEEL_BAD_FIELD if its seconds don't fit in 32 bits, as from the
 * year 2106 on, its nanoseconds are a second or more, or it has more than 262,144 captured bytes,
 * and then nothing is written.
 * Overlap: `header` must overlap neither *packet nor its bytes. Every number is in host byte order.
 * Thread-safe; takes no memory.
 */
uint32_t etherpeel_capture_record(const etherpeel_captured *packet, uint8_t *header);

/* etherpeel_captured_frame - the part of a captured packet that is walked
 *
 * Sets *frame by the link type of a packet that etherpeel_capture wrote. For Ethernet it is the
 * packet, without its frame check sequence; that remains only if the file gives it four bytes and
 * the packet was not cut. For Linux cooked capture v1 it is the packet without a frame check
 * sequence; but it is the payload, after a header of 16 bytes, if the walk would refuse the header
 * only for its hardware type, such as 772 of the loopback device. The protocol is then the ether
 * type. For v2 it is the payload, after a header of 20 bytes, if the header can be read and an
 * ether type announces the payload.
 * Returns ETHERPEEL_DONE; or ETHERPEEL_UNKNOWN_START if nothing of the packet is walked, and then
 * *frame is unchanged. It must be initialized, and may be all 0.
 * Overlap: *frame must not overlap *packet or its bytes, which it points into. Every number is in
 * host byte order. Thread-safe; takes no memory.
 */
uint32_t etherpeel_captured_frame(const etherpeel_captured *packet, etherpeel_frame *frame);

/* etherpeel_rows - a table of packets: a row for each of them
 *
 * Sets rows[i] to what is known of packets[i], for each of the `count` packets; NULL is allowed if
 * `count` is 0. The headers are those that etherpeel_packet finds in the frame that
 * etherpeel_captured_frame sets. Elements of `rows` from `count` on are unchanged.
 * Returns ETHERPEEL_DONE, or ETHERPEEL_NO_ROOM if `room` is smaller than `count`; then nothing is
 * written.
 * Overlap: `rows` must not overlap the packets and their bytes. Every number is in host byte order.
 * Thread-safe; takes no memory.
 */
uint32_t etherpeel_rows(const etherpeel_captured *packets, size_t count, etherpeel_row *rows,
                        size_t room);

/* ---- Capture files as streams ----
 *
 * Classic pcap and pcapng files, read unit by unit: from a pipe, or a file that is longer than the
 * memory. A unit is the header or a record of a classic file, or a block of a pcapng file. The
 * caller keeps an etherpeel_reader, which is all 0 at the beginning of a file, and an array with the
 * interfaces of the section. Both hold numbers alone, so a copy of both goes on from the same place.
 */

/* etherpeel_reader_read - the unit at the front of bytes of a capture file
 *
 * Returns ETHERPEEL_DONE if the unit is read. unit->len is its length: pass the bytes after it to
 * the next call. If unit->has_packet is 1, *packet is its packet, which points into `bytes`; else
 * *packet is unchanged. *reader says where the file goes on, and interfaces[0] .. are those that
 * the section has described so far, reader->interface_count of them. The header of a section ends
 * the section before it, and sets this number to 0. Bytes after the unit are ignored.
 * Returns ETHERPEEL_SHORT if the bytes end within the unit. unit->needed is more than `len`: call
 * again with that many bytes at least. If there are no more, the file is cut short; but if `len` is
 * 0, and reader->state is not ETHERPEEL_READER_BEGINNING, it is complete. A unit needs at most
 * 16 MiB.
 * Returns ETHERPEEL_NO_ROOM if the unit describes an interface for which the array has no room:
 * call again with a longer array that begins with the same elements. Returns
 * ETHERPEEL_BAD_CAPTURE if the unit can't be read, however many bytes follow. After these three
 * statuses only *unit is set, and all of it is 0 except for `needed`.
 * Returns ETHERPEEL_BAD_FIELD if reader->state is not a number of enum etherpeel_reader_state, or
 * reader->interface_count is above `room`, and then writes nothing. All other values are taken as
 * they are, also if no call has written them.
 * `room` is the length of the array `interfaces`; 0 will do for classic files. The elements that
 * reader->interface_count counts must be initialized, and so must *packet, which may be all 0.
 * Overlap: bytes, *reader, interfaces, *packet and *unit must not overlap. Every number is in host
 * byte order, whatever its order in the file. Thread-safe; takes no memory.
 */
uint32_t etherpeel_reader_read(etherpeel_reader *reader, etherpeel_interface *interfaces,
                               size_t room, const uint8_t *bytes, size_t len,
                               etherpeel_captured *packet, etherpeel_read_unit *unit);

/* etherpeel_reader_fault_text - why the unit at the front of bytes can't be read, in English
 *
 * Takes what was passed to a call of etherpeel_reader_read that returned ETHERPEEL_SHORT,
 * ETHERPEEL_NO_ROOM or ETHERPEEL_BAD_CAPTURE. Writes the text to the front of `text`, in ASCII with
 * no 0 byte at its end. *text_len is its length, fewer than 512 bytes; it is 0 if the unit can be
 * read.
 * Returns ETHERPEEL_DONE; ETHERPEEL_NO_ROOM if `text_room` is smaller than *text_len, and then
 * `text` is unchanged; or ETHERPEEL_BAD_FIELD if etherpeel_reader_read would, and then nothing is
 * written. ETHERPEEL_NO_TEXT is not ruled out by proof; after it *text_len is 0, and `text` is
 * unchanged.
 * Overlap: text and *text_len must overlap neither each other nor what is read. Every number is in
 * host byte order. Thread-safe; takes no memory.
 */
uint32_t etherpeel_reader_fault_text(const etherpeel_reader *reader,
                                     const etherpeel_interface *interfaces, size_t room,
                                     const uint8_t *bytes, size_t len, char *text, size_t text_room,
                                     size_t *text_len);

/* etherpeel_reader_options - the options of the unit at the front of bytes of a pcapng file
 *
 * Those of a section header, an interface description, an enhanced packet or an obsolete packet
 * block: the name of an interface, comments and others. *count is their number, and the array gets
 * as many as it has room for; elements after them are unchanged. Their values point into `bytes`.
 * Options are read up to the end of options, or up to one that is cut. What a code means depends on
 * the block: it is an interface description if etherpeel_reader_read has raised
 * reader->interface_count by 1, and a packet if unit->has_packet is 1. Simple packets have no
 * options, and those of other blocks are not read: *count is 0, as it is if etherpeel_reader_read
 * can't read the unit, or in a classic file.
 * Returns ETHERPEEL_DONE; or ETHERPEEL_BAD_FIELD if reader->state is not a number of enum
 * etherpeel_reader_state, and then writes nothing. *reader may be from before or after the unit was
 * read.
 * `room` is the length of the array `options`, which must be initialized, and may be all 0.
 * Overlap: bytes, *reader, options and *count must not overlap. Every number is in host byte order.
 * Thread-safe; takes no memory.
 */
uint32_t etherpeel_reader_options(const etherpeel_reader *reader, const uint8_t *bytes, size_t len,
                                  etherpeel_option *options, size_t room, size_t *count);

/* etherpeel_reader_edit - the unit of a packet with other captured bytes
 *
 * `bytes` must be exactly those of the unit that was read, and *reader must be from after it.
 * Writes the unit to the front of `target`, with these captured bytes and this original length.
 * Time, interface and options are unchanged. *written is the length of the unit.
 * Returns ETHERPEEL_DONE; ETHERPEEL_NO_ROOM if `room` is smaller than *written; or
 * ETHERPEEL_UNCOPIED for a simple packet, whose block gives no captured length, if `packet_len` is
 * above 262,144 or `original_len` above 4,294,967,295, or if the block would have more than 16 MiB;
 * *written is then 0. After both, `target` is unchanged. Returns ETHERPEEL_BAD_FIELD if
 * reader->state is not a number of enum etherpeel_reader_state, and then writes nothing. If the
 * bytes are not the unit of a packet, some bytes are written, or one of these is returned.
 * Overlap: target and *written must overlap neither each other nor what is read. Every number is in
 * host byte order, whatever its order in the file. Thread-safe; takes no memory.
 */
uint32_t etherpeel_reader_edit(const etherpeel_reader *reader, const uint8_t *bytes, size_t len,
                               const uint8_t *packet, size_t packet_len, uint64_t original_len,
                               uint8_t *target, size_t room, size_t *written);

/* etherpeel_reader_copy - what a copy has for a unit, if some packets are edited or left out
 *
 * `bytes` must be exactly those of the unit that was read, `has_packet` what etherpeel_read_unit
 * says of it, and *reader and the `interface_room` elements of `interfaces` from after it. Writes
 * what the copy has to the front of `target`: snap lengths are raised by `raise`, which must be at
 * least the number of bytes by which an edit makes a packet longer; a section header gives no
 * section length; a custom block that is not meant to be copied is left out, and *written is then
 * 0; all other units are unchanged. *written is the number of bytes.
 * Returns ETHERPEEL_DONE; ETHERPEEL_NO_ROOM if `room` is smaller than *written; or
 * ETHERPEEL_UNCOPIED for a simple packet that was cut at a snap length that is raised, since its
 * block gives no captured length; *written is then 0. After both, `target` is unchanged. Returns
 * ETHERPEEL_BAD_FIELD if etherpeel_reader_read would for this reader, and then writes nothing.
 * Overlap: target and *written must overlap neither each other nor what is read. Every number is in
 * host byte order, whatever its order in the file. Thread-safe; takes no memory.
 */
uint32_t etherpeel_reader_copy(const etherpeel_reader *reader,
                               const etherpeel_interface *interfaces, size_t interface_room,
                               uint32_t raise, uint32_t has_packet, const uint8_t *bytes,
                               size_t len, uint8_t *target, size_t room, size_t *written);

/* ---- Packets on one line ---- */

/* etherpeel_format - a packet on one line, as ether_capture prints it
 *
 * Writes the line of a packet to the front of `text`, in ASCII, with a line feed and no 0 byte at
 * its end. *text_len is its length. `format` points to `format_len` bytes of text:
 *
 *   json               an object of JSON, as --format json
 *   brief              a line for the eye, as --format brief
 *   vlan.vid,eth.src   columns, 1 to 32, as --fields
 *
 * `number` is that of the packet in the line. The packet is one that etherpeel_capture wrote, or one
 * that the caller has filled in: a frame has link_type 1, original_len its length, and has_time 0.
 * Returns ETHERPEEL_DONE; or ETHERPEEL_NO_ROOM if `room` is smaller than *text_len; or
 * ETHERPEEL_BAD_FORMAT if the text names no format, or ETHERPEEL_NO_TEXT if the line has more than
 * 65,536 bytes, as one with hundreds of headers may have, and then *text_len is 0. In all but the
 * first case `text` is unchanged.
 * Overlap: neither `text` nor *text_len may overlap `format`, *packet, its bytes, or one another.
 * Every number is in host byte order. Thread-safe; takes no memory, and some 70 KB of stack.
 */
uint32_t etherpeel_format(const char *format, size_t format_len, size_t number,
                          const etherpeel_captured *packet, char *text, size_t room,
                          size_t *text_len);
uint32_t etherpeel_format_limited(const char *format, size_t format_len, size_t number,
                                  const etherpeel_captured *packet, size_t limit, char *text,
                                  size_t room, size_t *text_len);

/* ---- Names ---- */

/* etherpeel_field_text - what a field is called, in English
 *
 * Writes a text about the field with this number of enum etherpeel_field_name to the front of
 * `text`, in ASCII with no 0 byte at its end. `part` is a number of enum etherpeel_field_part.
 * *text_len is the length of the text, fewer than 64 bytes; it is 0 if the standard has no
 * abbreviation for the field.
 * Returns ETHERPEEL_DONE; or ETHERPEEL_NO_ROOM if `room` is smaller than *text_len; or
 * ETHERPEEL_NO_TEXT if there is no such field or no such part, and then *text_len is 0. In all but
 * the first case `text` is unchanged.
 * Overlap: text and *text_len must not overlap. Every number is in host byte order. Thread-safe;
 * takes no memory.
 */
uint32_t etherpeel_field_text(uint32_t name, uint32_t part, char *text, size_t room,
                              size_t *text_len);

/* etherpeel_field_kind - what the value of a field is, as a number of enum etherpeel_field_kind; 0
 * if no field has the number
 *
 * `name` is a number of enum etherpeel_field_name. Both are in host byte order. Thread-safe; takes
 * no memory.
 */
uint32_t etherpeel_field_kind(uint32_t name);

/* etherpeel_number_name - what a number is called, in English
 *
 * Writes the name of a number, such as "IPv4" for the ether type 0x0800, to the front of `text`, in
 * ASCII with no 0 byte at its end. `kind` is a number of enum etherpeel_field_kind; those of ether
 * types, hardware types, packet types, operations and link types have names, but not for every
 * number. *text_len is the length of the name, fewer than 64 bytes.
 * Returns ETHERPEEL_DONE; or ETHERPEEL_NO_ROOM if `room` is smaller than *text_len; or
 * ETHERPEEL_NO_TEXT if the number has no name, and then *text_len is 0. In all but the first case
 * `text` is unchanged.
 * Overlap: text and *text_len must not overlap. Every number is in host byte order. Thread-safe;
 * takes no memory.
 */
uint32_t etherpeel_number_name(uint32_t kind, uint64_t number, char *text, size_t room,
                               size_t *text_len);

/* ---- Linux cooked capture v2 ----
 *
 * `bytes` points to the `len` bytes of a packet of DLT_LINUX_SLL2, which begins with a header of 20
 * bytes. If an ether type announces what follows it, that is walked like any frame:
 *
 *   etherpeel_walk(header.start, header.ether_type, bytes + 20, len - 20, ..)
 */

/* etherpeel_linux_sll2 - the header of a packet of Linux cooked capture v2
 *
 * Fills *header. The payload has an ether type unless the protocol numbers of the link are others
 * (netlink, GRE) or have no meaning (IEEE 802.11 with radiotap, frame relay).
 * Returns ETHERPEEL_DONE; or ETHERPEEL_SHORT if there are fewer than 20 bytes, and then *header is
 * all 0; or ETHERPEEL_BAD_PACKET_TYPE if the packet type is above 7, and then *header has this
 * number and is else all 0. No hardware type is refused.
 * Overlap: *header must not overlap the packet. Every number is in host byte order, the address in
 * that of the packet. Thread-safe; takes no memory.
 */
uint32_t etherpeel_linux_sll2(const uint8_t *bytes, size_t len,
                              etherpeel_linux_sll2_header *header);

/* etherpeel_linux_sll2_fields - the fields of the header of a packet of Linux cooked capture v2
 *
 * Fills fields[0], fields[1] .. with the fields in order, as many as there is room for, and *count
 * with the number of all of them, 7. Each has the unit 0. Elements from *count on are unchanged.
 * Returns ETHERPEEL_DONE; or ETHERPEEL_SHORT or ETHERPEEL_BAD_PACKET_TYPE as etherpeel_linux_sll2
 * does, and then nothing is written.
 * Overlap: packet, fields and *count must not overlap. Every number is in host byte order.
 * Thread-safe; takes no memory.
 */
uint32_t etherpeel_linux_sll2_fields(const uint8_t *bytes, size_t len, etherpeel_field *fields,
                                     size_t room, size_t *count);

/* ---- Filters ----
 *
 * `expression` points to `len` bytes of text, with or without a 0 byte after them; NULL is allowed
 * if `len` is 0. It is an expression in words of pcap-filter(7): a primitive, or several with
 * `not`, `and`, `or` and parentheses. The primitives:
 *
 *   vlan, vlan N            a VLAN tag; one with the identifier N
 *   outer vlan N            the first VLAN tag has the identifier N
 *   inner vlan N            the last of two or more VLAN tags has the identifier N
 *   macsec                  a MACsec SecTag
 *   ether proto N           the ether type N is announced; arp, ip, ip6 for 0x0806, 0x0800, 0x86DD
 *   ether src A, dst A      the address of the source or the destination; ether host A for either
 *   ether broadcast         the destination is all stations; ether multicast for any group
 *   refused                 a header is cut short or malformed
 *   cut                     fewer bytes were captured than were on the wire
 *   less N, greater N       at most, or at least, N bytes were on the wire
 *   vlan.pcp                a header has the field, which is a column (etherpeel_field_text)
 *   vlan.pcp >= V           the same with ==, !=, <, <=, >; after & MASK only its bits count
 *   arp.op in {V, V}        a value of the field is in the set
 *   eth.src[0:3] == V       a slice of the field's bytes
 */

/* etherpeel_select - the packets that a filter selects
 *
 * Sets matches[i] to 1 if the expression holds for packets[i], else to 0, for each of the `count`
 * packets that etherpeel_capture wrote; NULL is allowed if `count` is 0. The expression is about
 * the frame that etherpeel_captured_frame sets. A packet of which nothing is walked is never
 * selected, not even by `not`. Elements of `matches` from `count` on are unchanged.
 * Returns ETHERPEEL_DONE; or ETHERPEEL_BAD_FILTER if the text is not an expression, and then sets
 * *error; or ETHERPEEL_NO_ROOM if `room` is smaller than `count`. Nothing else is written then.
 * Overlap: neither `matches` nor *error may overlap the packets, their bytes, the text, or one
 * another. Every number is in host byte order. Thread-safe; takes no memory, and some 40 KB of
 * stack.
 */
uint32_t etherpeel_select(const char *expression, size_t len, const etherpeel_captured *packets,
                          size_t count, uint8_t *matches, size_t room,
                          etherpeel_filter_error *error);

/* etherpeel_filter_parse - a filter that is read once and applied to many packets
 *
 * Reads the expression into *filter. The memory is the caller's, and no call releases it.
 * Returns ETHERPEEL_DONE; or ETHERPEEL_BAD_FILTER if the text is not an expression, and then sets
 * *error and leaves *filter unchanged.
 * Overlap: expression, *filter and *error must not overlap. Every number is in host byte order.
 * Thread-safe; takes no memory, and some 40 KB of stack.
 */
uint32_t etherpeel_filter_parse(const char *expression, size_t len, etherpeel_filter *filter,
                                etherpeel_filter_error *error);

/* etherpeel_filter_matches - 1 if a filter selects a packet, else 0
 *
 * The packet is one that etherpeel_capture wrote, or one that the caller has filled in; only tests
 * of `frame.time` read its time. The expression is about the frame that etherpeel_captured_frame
 * sets. A packet of which nothing is walked is never selected, not even by `not`. For a filter that
 * etherpeel_filter_parse did not write, nothing is claimed of the result.
 * Every number is in host byte order. Thread-safe, also with one filter in several threads; takes
 * no memory.
 */
uint32_t etherpeel_filter_matches(const etherpeel_filter *filter, const etherpeel_captured *packet);

/* etherpeel_filter_decide - whether a filter selects a packet, as far as its captured bytes tell
 *
 * Returns a number of enum etherpeel_decision. ETHERPEEL_FAILS and ETHERPEEL_MATCHES hold whatever
 * bytes of the frame were cut off, up to `original_len`; so etherpeel_filter_matches, which goes by
 * the captured bytes alone, may return something else. A packet that was not cut is never
 * ETHERPEEL_UNDECIDED, nor one of a link type that the walk does not know. For a filter that
 * etherpeel_filter_parse did not write, nothing is claimed of the result.
 * Every number is in host byte order. Thread-safe, also with one filter in several threads; takes
 * no memory.
 */
uint32_t etherpeel_filter_decide(const etherpeel_filter *filter, const etherpeel_captured *packet);

/* etherpeel_filter_frame - whether a filter selects a frame, and how many of its bytes decide it
 *
 * Does as etherpeel_filter_decide for a frame that had `original_len` bytes before it was cut, and
 * that has no time. Sets *decision to a number of enum etherpeel_decision, and *needed to 0; but
 * after ETHERPEEL_UNDECIDED to a length below which the filter remains undecided, whatever bytes
 * follow these, so that a reader can ask for as many. frame.captured and cut are about the bytes
 * that are passed, as if no more were captured.
 * Returns ETHERPEEL_DONE; or ETHERPEEL_UNKNOWN_START, and then writes nothing. For a filter that
 * etherpeel_filter_parse did not write, nothing is claimed of what is written.
 * Overlap: *decision and *needed must overlap neither each other nor what is read.
 * Every number is in host byte order. Thread-safe, also with one filter in several threads; takes
 * no memory.
 */
uint32_t etherpeel_filter_frame(const etherpeel_filter *filter, uint32_t start, uint16_t ether_type,
                                const uint8_t *bytes, size_t len, uint32_t original_len,
                                uint32_t *decision, size_t *needed);

/* etherpeel_filter_select - the packets that a filter selects
 *
 * Sets matches[i] to what etherpeel_filter_matches returns for packets[i], for each of the `count`
 * packets; NULL is allowed if `count` is 0. Elements of `matches` from `count` on are unchanged.
 * Returns ETHERPEEL_DONE, or ETHERPEEL_NO_ROOM if `room` is smaller than `count`; then nothing is
 * written.
 * Overlap: `matches` must overlap neither the filter nor the packets and their bytes. Every number
 * is in host byte order. Thread-safe, also with one filter in several threads; takes no memory.
 */
uint32_t etherpeel_filter_select(const etherpeel_filter *filter, const etherpeel_captured *packets,
                                 size_t count, uint8_t *matches, size_t room);

/* etherpeel_filter_error_text - why a text is not a filter's expression, in English
 *
 * Writes the text, such as "At byte 5: expected a number up to 4095.", to the front of `text`, in
 * ASCII with no 0 byte at its end. *text_len is its length, fewer than 512 bytes; it is 0 if the
 * text is an expression.
 * Returns ETHERPEEL_DONE, or ETHERPEEL_NO_ROOM if `room` is smaller than *text_len; then `text` is
 * unchanged. ETHERPEEL_NO_TEXT is not ruled out by proof; after it *text_len is 0, and `text` is
 * unchanged.
 * Overlap: expression, text and *text_len must not overlap. Every number is in host byte order.
 * Thread-safe; takes no memory, and some 40 KB of stack.
 */
uint32_t etherpeel_filter_error_text(const char *expression, size_t len, char *text, size_t room,
                                     size_t *text_len);

/* ---- A switch ----
 *
 * The forwarding of a bridge with VLANs (IEEE 802.1Q). The caller has the bridge's settings, the
 * ports, by numbers from 0 to 255, and the table of stations: an array of etherpeel_bucket,
 * initially all 0. Each VLAN learns for itself, in a part of the table of its own. Other than by
 * these calls, with the same key and parts, nothing should write to the table. No frame crosses
 * VLANs, and only its tag changes. The protocols of spanning trees are left to the caller: frames
 * for them are returned as reserved, and the states of the ports are settings.
 */

/* etherpeel_ports_has - 1 if a set has a port, else 0
 *
 * Thread-safe; takes no memory.
 */
static inline int etherpeel_ports_has(const etherpeel_ports *ports, uint8_t port) {
    return (int)(ports->words[port / 64] >> port % 64 & 1);
}

/* etherpeel_ports_add - adds a port to a set
 *
 * Thread-safe, except for the set; takes no memory.
 */
static inline void etherpeel_ports_add(etherpeel_ports *ports, uint8_t port) {
    ports->words[port / 64] |= (uint64_t)1 << port % 64;
}

/* etherpeel_switch_receive - learns the port of a frame's source, and decides where the frame goes
 *
 * The frame is the `len` bytes at `bytes`: from its Ethernet II header on, without a frame check
 * sequence. It came in by the port with the number `from` and the configuration *port, at the time
 * `now`, in seconds by a clock that does not go back. `table` points to the `bucket_count` buckets
 * of the table; NULL is allowed if that is 0, and nothing is learned then.
 * Sets *received. A frame to a reserved address that the bridge does not forward is for the bridge
 * itself, whatever the port accepts and in whatever state it is: `reserved` is 1 then, and it
 * leaves by no port. Any other frame that is not discarded leaves by ports that are members of its
 * VLAN and forwarding, and not by its own; nor by an isolated port, if its own is isolated too. Of
 * these ports, a frame with a static entry leaves by those of the entry, and one to a station by
 * the port at which the station was seen last in this VLAN, if that was at most the ageing time
 * ago; any other frame leaves by all of them. A copy leaves by each mirror but the port through
 * which the frame came in.
 * The source is learned in the part of the table that its VLAN has, if the port accepts the frame
 * and is learning. If both buckets of a station are full, the new station takes the place of one
 * whose port has most stations there.
 * Returns ETHERPEEL_DONE, also for a frame that is discarded; or ETHERPEEL_BAD_FIELD if the kind of
 * the bridge or a number of *port does not fit, and then nothing is written.
 * Overlap: neither the table nor *received may overlap *bridge, what it points to, *port, the frame
 * or one another. Every number is in host byte order. Thread-safe, except for the table; takes no
 * memory.
 */
uint32_t etherpeel_switch_receive(const etherpeel_bridge *bridge, etherpeel_bucket *table,
                                  size_t bucket_count, uint32_t now, uint8_t from,
                                  const etherpeel_port *port, const uint8_t *bytes, size_t len,
                                  etherpeel_received *received);

/* etherpeel_switch_tagged - makes a frame ready to leave with the tag of its VLAN, in place
 *
 * The frame is buffer[4] .. buffer[len - 1], as it came in. The first four bytes are free.
 * *received is what etherpeel_switch_receive has set. The frame leaves as buffer[*at] ..
 * buffer[len - 1]: *at is 0 if a tag was put in, else 4. A tag of the bridge's kind keeps its
 * priority, and gets the identifier of the VLAN. Only bytes before the payload change, so the time
 * does not depend on `len`.
 * If the frame leaves in both forms, make one of them ready on a copy.
 * Returns ETHERPEEL_DONE, or the first of these that applies, and then nothing is written:
 * ETHERPEEL_BAD_FIELD if the frame was discarded, or a number of *received does not fit;
 * ETHERPEEL_STAYS if the frame is too short for its header or its tag.
 * Overlap: neither the buffer nor *at may overlap *received or one another. Every number is in host
 * byte order. Thread-safe; takes no memory.
 */
uint32_t etherpeel_switch_tagged(const etherpeel_received *received, uint8_t *buffer, size_t len,
                                 size_t *at);

/* etherpeel_switch_untagged - makes a frame ready to leave without a tag, in place
 *
 * As etherpeel_switch_tagged, but *at is 8 if a tag was taken off, else 4. Only the first tag is
 * taken off: a frame that came in with two tags of the bridge's kind leaves with the second one.
 */
uint32_t etherpeel_switch_untagged(const etherpeel_received *received, uint8_t *buffer, size_t len,
                                   size_t *at);

/* etherpeel_switch_find - the last sighting of a station in a VLAN
 *
 * `address` points to the six bytes of the station's address; `table` as for
 * etherpeel_switch_receive. Sets *sighting, which may have aged.
 * Returns ETHERPEEL_DONE; or ETHERPEEL_STAYS if the table has no sighting of the station, or
 * ETHERPEEL_BAD_FIELD if `vid` is not from 1 to 4094, or the kind of the bridge does not fit, and
 * then *sighting is unchanged.
 * Overlap: *sighting must not overlap anything else that is passed. Every number is in host byte
 * order. Thread-safe, except for the table; takes no memory.
 */
uint32_t etherpeel_switch_find(const etherpeel_bridge *bridge, const etherpeel_bucket *table,
                               size_t bucket_count, uint16_t vid, const uint8_t address[6],
                               etherpeel_sighting *sighting);

/* etherpeel_switch_forget - forgets stations
 *
 * Frames to these stations then go to all members of their VLAN, until the stations are seen again.
 * A spanning tree asks for this when the topology changes, and so does a port that goes down or
 * leaves a VLAN. `table` points to `bucket_count` buckets: those of a table, or of the part of it
 * that a VLAN has. `what` is one of enum etherpeel_forgotten; `port` counts only for
 * ETHERPEEL_FORGET_PORT, and the six bytes at `address` only for ETHERPEEL_FORGET_STATION, but
 * `address` must not be NULL.
 * Returns ETHERPEEL_DONE, or ETHERPEEL_BAD_FIELD if `what` is another number, and then nothing is
 * written.
 * Overlap: the table must not overlap the address. Every number is in host byte order. Thread-safe,
 * except for the table; takes no memory.
 */
uint32_t etherpeel_switch_forget(etherpeel_bucket *table, size_t bucket_count, uint32_t what,
                                 uint8_t port, const uint8_t address[6]);

#ifdef __cplusplus
}
#endif

#endif
