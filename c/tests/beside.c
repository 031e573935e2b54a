/* etherpeel.h in a program that also includes the headers of the C library and, with -DPCAP, of
 * libpcap, whose names are similar: before them, or with -DLAST after them. Returns 0. */
#ifndef LAST
#include "../etherpeel.h"
#endif
#include <net/ethernet.h>
#include <netinet/ether.h>
#include <netinet/if_ether.h>
#ifdef PCAP
#include <pcap/pcap.h>
#endif
#ifdef LAST
#include "../etherpeel.h"
#endif
#include <stdio.h>

int main(void) {
    const uint8_t frame[] = {0xFF, 0xFF, 0xFF, 0xFF, 0xFF, 0xFF, 2, 0, 0, 0, 0, 1, 0x08, 0x00};
    const struct ether_header *theirs = (const struct ether_header *)(const void *)frame;
    const struct ether_arp *arp = NULL;
    struct ether_addr address;
    etherpeel_found ours;
    etherpeel_arp packet = {0, 0, 0, 0, 0, 0, 0, 0, 0};
#ifdef PCAP
    const struct pcap_pkthdr *captured = NULL;
    if (captured != NULL) return 3;
#endif
    if (ether_aton_r("2:0:0:0:0:1", &address) == NULL) return 2;
    if (etherpeel_summary(ETHERPEEL_START_ETHERNET2, 0, frame, sizeof frame, &ours) !=
        ETHERPEEL_DONE)
        return 1;
    return !(arp == NULL && packet.operation == 0 && ours.rest_protocol == ETHERTYPE_IP &&
             ours.rest_start == ETHER_HDR_LEN && theirs->ether_shost[5] == 1);
}
