/* Prints the lines of the tool (docs/FORMAT.md) by calls from C, for frames from standard input:
 * lines eth | fcs | sll | type XXXX | feed [limit N] */
#include <stdio.h>
#include <stdlib.h>
#include <string.h>

#include "../etherpeel.h"

enum { LONGEST = 2048 };

/* What a frame begins with, and how many VLAN tags and SecTags are read at most. */
typedef struct mode {
    uint32_t start;
    uint16_t ether_type;
    int feeds, has_limit;
    size_t limit;
} mode;

static int mode_of(int argc, char **argv, mode *m) {
    const char *word = argc > 1 ? argv[1] : "";
    int next = 2;
    memset(m, 0, sizeof *m);
    m->feeds = strcmp(word, "feed") == 0;
    if (strcmp(word, "eth") == 0 || m->feeds)
        m->start = ETHERPEEL_START_ETHERNET2;
    else if (strcmp(word, "fcs") == 0)
        m->start = ETHERPEEL_START_ETHERNET2_FCS;
    else if (strcmp(word, "sll") == 0)
        m->start = ETHERPEEL_START_LINUX_SLL;
    else if (strcmp(word, "type") == 0 && argc > 2) {
        m->start = ETHERPEEL_START_ETHER_TYPE;
        m->ether_type = (uint16_t)strtoul(argv[2], NULL, 16);
        next = 3;
    }
    m->has_limit = argc > next + 1 && strcmp(argv[next], "limit") == 0;
    if (m->has_limit) m->limit = strtoul(argv[next + 1], NULL, 10);
    return m->start != 0;
}

static void print_digits(const uint8_t *bytes, size_t len) {
    for (size_t i = 0; i < len; i++) printf("%02x", bytes[i]);
}

static const char *mark(uint8_t closed) { return closed ? "closed" : "open"; }

static void print_ethernet2(const etherpeel_unit *u, const uint8_t *frame) {
    printf("ethernet2 %zu ", u->offset);
    print_digits(u->ethernet2.destination, 6);
    printf(" ");
    print_digits(u->ethernet2.source, 6);
    printf(" 0x%04X", u->ethernet2.ether_type);
    if (u->ethernet2.has_fcs) {
        printf(" fcs ");
        print_digits(frame + u->payload_end, 4);
    }
}

static void print_linux_sll(const etherpeel_unit *u) {
    const etherpeel_linux_sll *s = &u->linux_sll;
    printf("linux_sll %zu packet %u hw %u alen %u addr ", u->offset, s->packet_type,
           s->hardware_type, s->address_len);
    print_digits(s->address, 8);
    printf(" 0x%04X", s->protocol);
}

static void print_macsec(const etherpeel_unit *u) {
    static const char *const payloads[2][2] = {{"unmodified", "modified"},
                                               {"encrypted_unmodified", "encrypted"}};
    const etherpeel_macsec *t = &u->macsec;
    printf("macsec %zu %s", u->offset, payloads[t->encrypted][t->changed]);
    if (!t->encrypted && !t->changed) printf(" 0x%04X", t->ether_type);
    printf(" es %u scb %u an %u sl %u pn %lu sci ", t->end_station, t->single_copy_broadcast,
           t->association_number, t->short_len, (unsigned long)t->packet_number);
    if (t->sci_present)
        printf("%016llx", (unsigned long long)t->sci);
    else
        printf("-");
    printf(" window %zu %s", u->payload_end - u->payload_start, mark(u->closed));
}

static void print_unit(const etherpeel_unit *u, const uint8_t *frame) {
    if (u->kind == ETHERPEEL_UNIT_ETHERNET2) print_ethernet2(u, frame);
    if (u->kind == ETHERPEEL_UNIT_LINUX_SLL) print_linux_sll(u);
    if (u->kind == ETHERPEEL_UNIT_VLAN)
        printf("vlan %zu pcp %u dei %u vid %u 0x%04X", u->offset, u->vlan.pcp, u->vlan.dei,
               u->vlan.vid, u->vlan.ether_type);
    if (u->kind == ETHERPEEL_UNIT_MACSEC) print_macsec(u);
    if (u->kind == ETHERPEEL_UNIT_ARP)
        printf("arp %zu hw %u proto 0x%04X hlen %u plen %u op %u", u->offset, u->arp.hardware_type,
               u->arp.protocol_type, u->arp.hardware_size, u->arp.protocol_size, u->arp.operation);
    printf("\n");
}

static void print_fault(const etherpeel_fault *f) {
    static const char *const sources[] = {"", "slice", "macsec_short_length", "arp_addr_lengths"};
    if (f->kind == ETHERPEEL_FAULT_NONE) return;
    printf("fault %zu %s ", f->offset, mark(f->closed));
    if (f->kind == ETHERPEEL_FAULT_LENGTH)
        printf("length %zu %zu %s\n", f->required_len, f->len, sources[f->len_source]);
    if (f->kind == ETHERPEEL_FAULT_PACKET_TYPE)
        printf("content sll_packet_type %u\n", f->packet_type);
    if (f->kind == ETHERPEEL_FAULT_HARDWARE_TYPE)
        printf("content sll_hardware_type %u\n", f->hardware_type);
    if (f->kind == ETHERPEEL_FAULT_MACSEC_VERSION) printf("content macsec_version\n");
    if (f->kind == ETHERPEEL_FAULT_MACSEC_SHORT_LEN) printf("content macsec_short_len\n");
}

static void print_rest(const etherpeel_found *f) {
    static const char *const kinds[] = {"start", "type", "sll netlink", "sll gre", "sll ignored"};
    printf("rest %zu %zu ", f->rest_start, f->rest_end);
    if (f->rest_kind == ETHERPEEL_REST_SEALED)
        printf("sealed");
    else if (f->rest_kind == ETHERPEEL_REST_AFTER_ARP)
        printf("after_arp");
    else
        printf("%s 0x%04X", kinds[f->rest_kind], f->rest_protocol);
    printf("\n");
}

/* the lines of a frame's walk; 0 if a call fails */
static int print_walk(const mode *m, const uint8_t *frame, size_t len) {
    static etherpeel_unit units[LONGEST / 4];
    etherpeel_found found;
    size_t count;
    uint32_t failed;
    if (m->has_limit) {
        failed = etherpeel_walk_limited(m->start, m->ether_type, frame, len, m->limit, units,
                                        LONGEST / 4, &count);
        failed |= etherpeel_summary_limited(m->start, m->ether_type, frame, len, m->limit, &found);
    } else {
        failed = etherpeel_walk(m->start, m->ether_type, frame, len, units, LONGEST / 4, &count);
        failed |= etherpeel_summary(m->start, m->ether_type, frame, len, &found);
    }
    if (failed || count != found.units) return 0;
    for (size_t i = 0; i < count; i++) print_unit(&units[i], frame);
    if (found.fault.kind == ETHERPEEL_FAULT_NONE) print_rest(&found);
    print_fault(&found.fault);
    return 1;
}

/* the lines of feeding a frame; 0 if the call fails */
static int print_feed(const mode *m, const uint8_t *frame, size_t len) {
    etherpeel_fed fed;
    const uint32_t failed = m->has_limit
                                ? etherpeel_feed_limited(m->start, 0, frame, len, m->limit, &fed)
                                : etherpeel_feed(m->start, 0, frame, len, &fed);
    if (failed) return 0;
    printf("feed refusals %zu taken %zu\n", fed.refusals, fed.taken);
    print_fault(&fed.fault);
    return 1;
}

/* the bytes of a line of hexadecimal digits */
static size_t bytes_of(const char *line, uint8_t bytes[LONGEST]) {
    const size_t len = strcspn(line, "\n") / 2;
    for (size_t i = 0; i < len; i++) {
        const char digits[3] = {line[2 * i], line[2 * i + 1], 0};
        bytes[i] = (uint8_t)strtoul(digits, NULL, 16);
    }
    return len;
}

int main(int argc, char **argv) {
    static char line[2 * LONGEST + 2];
    static uint8_t frame[LONGEST];
    mode m;
    if (!mode_of(argc, argv, &m)) return 2;
    while (fgets(line, sizeof line, stdin)) {
        const size_t len = bytes_of(line, frame);
        if (!(m.feeds ? print_feed(&m, frame, len) : print_walk(&m, frame, len))) return 1;
    }
    return 0;
}
