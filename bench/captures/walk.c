/* A program over libpcap that walks each packet's Ethernet II header and VLAN tags by hand, and prints how many packets there are, how many
 * tags, and the sum of the last ether types: walk < CAPTURE */
#include <pcap/pcap.h>
#include <stdint.h>
#include <stdio.h>

int main(void) {
  char error[PCAP_ERRBUF_SIZE];
  pcap_t *capture = pcap_fopen_offline(stdin, error);
  struct pcap_pkthdr *header;
  const u_char *bytes;
  unsigned long packets = 0, tags = 0, types = 0;
  if (!capture) { fprintf(stderr, "%s\n", error); return 1; }
  while (pcap_next_ex(capture, &header, &bytes) == 1) {
    size_t at = 14;
    packets++;
    if (header->caplen < at) continue;
    unsigned type = bytes[12] << 8 | bytes[13];
    while ((type == 0x8100 || type == 0x88A8 || type == 0x9100) && header->caplen >= at + 4) {
      type = bytes[at + 2] << 8 | bytes[at + 3];
      at += 4;
      tags++;
    }
    types += type;
  }
  printf("%lu packets, %lu tags, %lu\n", packets, tags, types);
  pcap_close(capture);
  return 0;
}
