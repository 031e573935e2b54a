/* Prints the headers of a frame, which is given as hexadecimal digits: headers
 * FFFFFFFFFFFF0200000000018100B123080045 */
#include <etherpeel.h>
#include <inttypes.h>
#include <stdio.h>
#include <string.h>

static size_t parsed(const char *digits, uint8_t *bytes, size_t room) {
    size_t len = 0;
    unsigned byte;
    while (len < room && sscanf(digits + 2 * len, "%2x", &byte) == 1) bytes[len++] = (uint8_t)byte;
    return len;
}

static void print_address(const char *name, const uint8_t a[6]) {
    printf(" %s %02x:%02x:%02x:%02x:%02x:%02x", name, a[0], a[1], a[2], a[3], a[4], a[5]);
}

static void print_unit(const etherpeel_unit *u) {
    printf("%zu:", u->offset);
    switch (u->kind) {
        case ETHERPEEL_UNIT_ETHERNET2:
            printf(" Ethernet II");
            print_address("to", u->ethernet2.destination);
            print_address("from", u->ethernet2.source);
            printf(" type 0x%04X\n", u->ethernet2.ether_type);
            break;
        case ETHERPEEL_UNIT_LINUX_SLL:
            printf(" cooked capture, hardware type %u, protocol 0x%04X\n",
                   u->linux_sll.hardware_type, u->linux_sll.protocol);
            break;
        case ETHERPEEL_UNIT_VLAN:
            printf(" VLAN %u, priority %u, type 0x%04X\n", u->vlan.vid, u->vlan.pcp,
                   u->vlan.ether_type);
            break;
        case ETHERPEEL_UNIT_MACSEC:
            printf(" MACsec, packet number %" PRIu32 "%s\n", u->macsec.packet_number,
                   u->macsec.encrypted ? ", encrypted" : "");
            break;
        case ETHERPEEL_UNIT_ARP:
            printf(" ARP, operation %u\n", u->arp.operation);
            break;
    }
}

int main(int argc, char **argv) {
    uint8_t frame[2048];
    etherpeel_unit units[16];
    etherpeel_found found;
    if (argc < 2) {
        fprintf(stderr, "usage: headers HEX\n");
        return 2;
    }
    const size_t len = parsed(argv[1], frame, sizeof frame);
    size_t count;
    if (etherpeel_walk(ETHERPEEL_START_ETHERNET2, 0, frame, len, units, 16, &count) !=
        ETHERPEEL_DONE)
        return 1;
    for (size_t i = 0; i < count && i < 16; i++) print_unit(&units[i]);
    etherpeel_summary(ETHERPEEL_START_ETHERNET2, 0, frame, len, &found);
    if (found.fault.kind == ETHERPEEL_FAULT_NONE) {
        printf("%zu: %zu bytes left\n", found.rest_start, found.rest_end - found.rest_start);
    } else {
        char text[512];
        size_t text_len = 0;
        etherpeel_fault_text(ETHERPEEL_START_ETHERNET2, 0, frame, len, text, sizeof text,
                             &text_len);
        printf("refused %.*s\n", (int)text_len, text);
    }
    return 0;
}
