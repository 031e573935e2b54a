/* Calls etherpeel_filter_matches and the compiled filter of libpcap (pcap_offline_filter), one packet a call, for callgrind.
 *
 *     calls TERMS tagged|untagged|three|stacked|lengths
 *
 * The packets are 4,096 of 64 bytes, with a VLAN tag, none or three, or with 500 tags, which make them longer. The filter selects those that
 * have one of some VLAN identifiers, which none of the 500 tags has; with `lengths` those that have one of some lengths at least, which none
 * has. The two must agree on each packet. */
#include <pcap/pcap.h>
#include <stdio.h>
#include <stdlib.h>
#include <string.h>

#include "../../c/etherpeel.h"

enum { PACKETS = 4096, LEN = 64, TAGS = 500, STACKED_LEN = 14 + 4 * TAGS };

/* What the packets are, and what is asked. */
static const struct {
    const char *name;
    int tags;
    int is_of_lengths;
} cases[] = {{"untagged", 0, 0}, {"tagged", 1, 0}, {"three", 3, 0}, {"stacked", TAGS, 0}, {"lengths", 1, 1}};

static uint8_t bytes[PACKETS][STACKED_LEN];
static size_t len = LEN;
static etherpeel_captured packets[PACKETS];
static uint8_t own_marks[PACKETS], other_marks[PACKETS];
static etherpeel_filter filter;
static struct bpf_program program;

static void fail(const char *what) {
    fprintf(stderr, "%s\n", what);
    exit(1);
}

static uint32_t drawn(void) {
    static uint32_t state = 1;
    state = state * 1664525u + 1013904223u;
    return state >> 16;
}

static void put_tag(uint8_t *p, uint32_t id) {
    uint8_t tag[4] = {0x81, 0, (uint8_t)(id >> 8), (uint8_t)id};
    memcpy(p, tag, 4);
}

/* The identifiers of many tags are below 2048. */
static void make_packets(int tags) {
    static const uint8_t ethernet[12] = {255, 255, 255, 255, 255, 255, 2, 0, 0, 0, 0, 1};
    if (tags == TAGS) len = STACKED_LEN;
    for (int i = 0; i < PACKETS; i++) {
        uint8_t *p = bytes[i];
        memcpy(p, ethernet, 12);
        for (int tag = 0; tag < tags; tag++) put_tag(p + 12 + 4 * tag, tags == TAGS ? drawn() % 2048 : drawn() % 4094 + 1);
        p[12 + 4 * tags] = 8;
        packets[i].packet = p, packets[i].packet_len = len;
        packets[i].original_len = (uint32_t)len, packets[i].link_type = 1;
    }
}

/* One term for the library, and the same for libpcap, which must be given the place of each tag. */
static void make_term(char *own, char *other, int tags, int is_of_lengths) {
    if (is_of_lengths) {
        uint32_t most = LEN + 1 + drawn() % 1000;
        sprintf(own, "greater %u", most);
        sprintf(other, "greater %u", most);
        return;
    }
    uint32_t id = tags == TAGS ? 2048 + drawn() % 2047 : drawn() % 4094 + 1;
    sprintf(own, "vlan %u", id);
    for (int tag = 0; tag < (tags == 3 ? 3 : 1); tag++)
        other += sprintf(other, "%sether[%d:2] & 0xfff = %u", tag ? " or " : "", 14 + 4 * tag, id);
}

static void make_filters(int terms, int tags, int is_of_lengths) {
    static char own[4096], other[16384], own_term[64], other_term[256];
    strcpy(other, is_of_lengths ? "(" : "vlan and (");
    for (int i = 0; i < terms; i++) {
        make_term(own_term, other_term, tags, is_of_lengths);
        sprintf(own + strlen(own), "%s%s", i ? " or " : "", own_term);
        sprintf(other + strlen(other), "%s%s", i ? " or " : "", other_term);
    }
    strcat(other, ")");
    etherpeel_filter_error error;
    if (etherpeel_filter_parse(own, strlen(own), &filter, &error) != ETHERPEEL_DONE) fail("no filter");
    pcap_t *dead = pcap_open_dead(DLT_EN10MB, 262144);
    if (pcap_compile(dead, &program, other, 1, PCAP_NETMASK_UNKNOWN)) fail(pcap_geterr(dead));
    pcap_close(dead);
}

__attribute__((noinline)) static void ask_own(void) {
    for (int i = 0; i < PACKETS; i++)
        own_marks[i] = (uint8_t)etherpeel_filter_matches(&filter, &packets[i]);
}

__attribute__((noinline)) static void ask_libpcap(void) {
    struct pcap_pkthdr header;
    memset(&header, 0, sizeof header);
    header.caplen = header.len = (bpf_u_int32)len;
    for (int i = 0; i < PACKETS; i++)
        other_marks[i] = pcap_offline_filter(&program, &header, bytes[i]) != 0;
}

int main(int argc, char **argv) {
    size_t at = 0, count = sizeof cases / sizeof *cases;
    while (argc == 3 && at < count && strcmp(argv[2], cases[at].name) != 0) at++;
    if (argc != 3 || at == count) fail("calls TERMS untagged|tagged|three|stacked|lengths");
    make_packets(cases[at].tags);
    make_filters(atoi(argv[1]), cases[at].tags, cases[at].is_of_lengths);
    ask_own();
    ask_libpcap();
    if (memcmp(own_marks, other_marks, PACKETS) != 0) fail("the two do not agree");
    return 0;
}
