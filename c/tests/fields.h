/* Fields that are compared with those that a call gives: what differs is printed by its name.
 */
#ifndef FIELDS_H
#define FIELDS_H

#include "check.h"

static const char *field_name(uint32_t name) {
#define NAMED(it) \
    case ETHERPEEL_FIELD_##it: return #it;
    switch (name) {
        NAMED(ETHERNET2_DESTINATION) NAMED(ETHERNET2_SOURCE) NAMED(ETHERNET2_ETHER_TYPE)
        NAMED(LINUX_SLL_PACKET_TYPE) NAMED(LINUX_SLL_HARDWARE_TYPE) NAMED(LINUX_SLL_ADDRESS_LEN)
        NAMED(LINUX_SLL_ADDRESS) NAMED(LINUX_SLL_PROTOCOL) NAMED(VLAN_PCP) NAMED(VLAN_DEI)
        NAMED(VLAN_VID) NAMED(VLAN_ETHER_TYPE) NAMED(MACSEC_V) NAMED(MACSEC_ES) NAMED(MACSEC_SC)
        NAMED(MACSEC_SCB) NAMED(MACSEC_E) NAMED(MACSEC_C) NAMED(MACSEC_AN) NAMED(MACSEC_RESERVED)
        NAMED(MACSEC_SL) NAMED(MACSEC_PN) NAMED(MACSEC_SCI) NAMED(MACSEC_ETHER_TYPE)
        NAMED(ARP_HARDWARE_TYPE) NAMED(ARP_PROTOCOL_TYPE) NAMED(ARP_HARDWARE_SIZE)
        NAMED(ARP_PROTOCOL_SIZE) NAMED(ARP_OPERATION) NAMED(ARP_SENDER_HARDWARE)
        NAMED(ARP_SENDER_PROTOCOL) NAMED(ARP_TARGET_HARDWARE) NAMED(ARP_TARGET_PROTOCOL) NAMED(FCS)
        NAMED(LINUX_SLL2_PROTOCOL) NAMED(LINUX_SLL2_RESERVED) NAMED(LINUX_SLL2_INTERFACE_INDEX)
        NAMED(LINUX_SLL2_HARDWARE_TYPE) NAMED(LINUX_SLL2_PACKET_TYPE) NAMED(LINUX_SLL2_ADDRESS_LEN)
        NAMED(LINUX_SLL2_ADDRESS)
    }
#undef NAMED
    return "no field";
}

static void print_field(const etherpeel_field *f) {
    printf("%s of the unit %u, %zu bits at %zu: 0x%llX", field_name(f->name), (unsigned)f->unit,
           f->bit_len, f->bit_offset, (unsigned long long)f->value);
}

static int is_field(const etherpeel_field *found, const etherpeel_field *wanted) {
    if (found->bit_offset == wanted->bit_offset && found->bit_len == wanted->bit_len &&
        found->value == wanted->value && found->unit == wanted->unit && found->name == wanted->name)
        return 1;
    print_field(found);
    printf(", and not ");
    print_field(wanted);
    printf("\n");
    return 0;
}

/* whether the first fields are these, and what is after them is as it was: 0xA5 */
static int are_fields(const etherpeel_field *found, size_t found_count,
                      const etherpeel_field *wanted, size_t count, size_t room) {
    int same = 1;
    for (size_t i = 0; i < count && i < found_count; i++) same &= is_field(&found[i], &wanted[i]);
    if (found_count != count) printf("%zu fields, and not %zu\n", found_count, count);
    return same && found_count == count &&
           all_are(&found[count], sizeof *found * (room - count), 0xA5);
}

#endif
