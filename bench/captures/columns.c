/* A program over libpcap that prints what `ether_capture` prints of the packets of make.py, the same bytes, written by hand for speed:
 * columns four|eight|json < CAPTURE. It knows Ethernet II, VLAN tags, SecTags without an SCI whose payload is unmodified, and ARP for IPv4. */
#include <pcap/pcap.h>
#include <stdint.h>
#include <stdio.h>
#include <string.h>
#include <time.h>

enum { ROOM = 1 << 16, MOST = 4096, TAGS = 16 };

/* What is waiting to be written, and where it ends. */
static char waiting[ROOM + MOST];
static char *end = waiting;

/* A packet's headers: where the tags begin, in order, where ARP begins or 0, and where the rest begins, with its type. */
struct walk {
  unsigned tags, at[TAGS], rest, arp;
  uint16_t type;
};

static uint16_t word(const u_char *at) { return (uint16_t)(at[0] << 8 | at[1]); }

static char *text(char *to, const char *from, size_t len) {
  memcpy(to, from, len);
  return to + len;
}
#define TEXT(it) (end = text(end, it, sizeof(it) - 1))

/* Two digits of each number below 100, and of each byte. */
static char pairs[200], lower[512], upper[512];

static void make_tables(void) {
  for (int i = 0; i < 100; i++) {
    pairs[2 * i] = (char)('0' + i / 10);
    pairs[2 * i + 1] = (char)('0' + i % 10);
  }
  for (int i = 0; i < 256; i++) {
    lower[2 * i] = "0123456789abcdef"[i >> 4];
    lower[2 * i + 1] = "0123456789abcdef"[i & 15];
    upper[2 * i] = "0123456789ABCDEF"[i >> 4];
    upper[2 * i + 1] = "0123456789ABCDEF"[i & 15];
  }
}

static void number(uint32_t it) {
  char digits[10], *at = digits + 10;
  if (it < 10) {
    *end++ = (char)('0' + it);
    return;
  }
  while (it >= 100) {
    at = memcpy(at - 2, pairs + it % 100 * 2, 2);
    it /= 100;
  }
  if (it >= 10) at = memcpy(at - 2, pairs + it * 2, 2);
  else *--at = (char)('0' + it);
  end = text(end, at, (size_t)(digits + 10 - at));
}

static void mac(const u_char *at) {
  for (int i = 0; i < 6; i++) {
    memcpy(end, lower + at[i] * 2, 2);
    end[2] = ':';
    end += 3;
  }
  end--;
}

static void ipv4(const u_char *at) {
  for (int i = 0; i < 4; i++) {
    number(at[i]);
    *end++ = '.';
  }
  end--;
}

static void hex_type(uint16_t type) {
  TEXT("0x");
  memcpy(end, upper + (type >> 8) * 2, 2);
  memcpy(end + 2, upper + (type & 255) * 2, 2);
  end += 4;
}

static void six_digits(uint32_t it) {
  memcpy(end, pairs + it / 10000 * 2, 2);
  memcpy(end + 2, pairs + it / 100 % 100 * 2, 2);
  memcpy(end + 4, pairs + it % 100 * 2, 2);
  end += 6;
}

/* The date and the seconds stay from packet to packet within a second. */
static void moment(struct timeval ts) {
  static time_t second = -1;
  static char told[20];
  if (ts.tv_sec != second) {
    struct tm tm;
    gmtime_r(&ts.tv_sec, &tm);
    strftime(told, sizeof told, "%Y-%m-%dT%H:%M:%S", &tm);
    second = ts.tv_sec;
  }
  end = text(end, told, 19);
  *end++ = '.';
  six_digits((uint32_t)ts.tv_usec);
  TEXT("000Z");
}

static void walk(const u_char *bytes, unsigned len, struct walk *it) {
  uint16_t type = word(bytes + 12);
  unsigned at = 14;
  it->tags = it->arp = 0;
  while (it->tags < TAGS) {
    if ((type == 0x8100 || type == 0x88A8 || type == 0x9100) && len >= at + 4) {
      it->at[it->tags++] = at;
      type = word(bytes + at + 2);
      at += 4;
    } else if (type == 0x88E5 && len >= at + 8) {
      it->at[it->tags++] = at;
      type = word(bytes + at + 6);
      at += 8;
    } else break;
  }
  if (type == 0x0806 && len >= at + 28) {
    it->arp = at;
    at += 28;
  }
  it->rest = at;
  it->type = type;
}

static int is_sec_tag(const u_char *bytes, unsigned at) { return word(bytes + at - 2) == 0x88E5; }

static void identifiers(const u_char *bytes, const struct walk *it) {
  const char *begin = end;
  for (unsigned i = 0; i < it->tags; i++) {
    if (is_sec_tag(bytes, it->at[i])) continue;
    if (end != begin) *end++ = ',';
    number(word(bytes + it->at[i]) & 0xFFF);
  }
}

static void four(const u_char *bytes, const struct walk *it) {
  mac(bytes);
  *end++ = '\t';
  mac(bytes + 6);
  *end++ = '\t';
  hex_type(word(bytes + 12));
  *end++ = '\t';
  identifiers(bytes, it);
  *end++ = '\n';
}

static void eight(uint32_t count, const struct pcap_pkthdr *header, const u_char *bytes, const struct walk *it) {
  number(count);
  *end++ = '\t';
  moment(header->ts);
  *end++ = '\t';
  mac(bytes + 6);
  *end++ = '\t';
  mac(bytes);
  *end++ = '\t';
  hex_type(word(bytes + 12));
  *end++ = '\t';
  identifiers(bytes, it);
  *end++ = '\t';
  if (it->arp) ipv4(bytes + it->arp + 14);
  *end++ = '\t';
  if (!it->arp) hex_type(it->type);
  *end++ = '\n';
}

/* The members that all headers have, but for the first. */
static void place(unsigned start, unsigned stop, unsigned payload_end) {
  number(start);
  TEXT(",\"end\":");
  number(stop);
  TEXT(",\"payload_end\":");
  number(payload_end);
}

static void vlan_json(const u_char *bytes, unsigned at, unsigned len) {
  uint16_t tci = word(bytes + at);
  TEXT(",{\"header\":\"vlan\",\"start\":");
  place(at, at + 4, len);
  TEXT(",\"closed\":false,\"pcp\":");
  *end++ = (char)('0' + (tci >> 13));
  TEXT(",\"dei\":");
  *end++ = (char)('0' + (tci >> 12 & 1));
  TEXT(",\"vid\":");
  number(tci & 0xFFF);
  TEXT(",\"type\":");
  number(word(bytes + at + 2));
  *end++ = '}';
}

static void macsec_json(const u_char *bytes, unsigned at, unsigned len) {
  TEXT(",{\"header\":\"macsec\",\"start\":");
  place(at, at + 8, len);
  TEXT(",\"closed\":false,\"payload\":\"unmodified\",\"es\":");
  *end++ = (char)('0' + (bytes[at] >> 6 & 1));
  TEXT(",\"scb\":");
  *end++ = (char)('0' + (bytes[at] >> 4 & 1));
  TEXT(",\"e\":0,\"c\":0,\"an\":");
  *end++ = (char)('0' + (bytes[at] & 3));
  TEXT(",\"sl\":");
  number(bytes[at + 1] & 63);
  TEXT(",\"pn\":");
  number((uint32_t)word(bytes + at + 2) << 16 | word(bytes + at + 4));
  TEXT(",\"sci\":null,\"type\":");
  number(word(bytes + at + 6));
  *end++ = '}';
}

static void arp_json(const u_char *bytes, unsigned at, unsigned len) {
  TEXT(",{\"header\":\"arp\",\"start\":");
  place(at, at + 28, len);
  TEXT(",\"closed\":false,\"hrd\":");
  number(word(bytes + at));
  TEXT(",\"pro\":");
  number(word(bytes + at + 2));
  TEXT(",\"hln\":6,\"pln\":4,\"op\":");
  number(word(bytes + at + 6));
  TEXT(",\"sha\":\"");
  mac(bytes + at + 8);
  TEXT("\",\"spa\":\"");
  ipv4(bytes + at + 14);
  TEXT("\",\"tha\":\"");
  mac(bytes + at + 18);
  TEXT("\",\"tpa\":\"");
  ipv4(bytes + at + 24);
  TEXT("\"}");
}

static void json(uint32_t count, const struct pcap_pkthdr *header, const u_char *bytes, const struct walk *it) {
  unsigned len = header->caplen;
  TEXT("{\"number\":");
  number(count);
  TEXT(",\"time\":\"");
  moment(header->ts);
  TEXT("\",\"link\":1,\"captured\":");
  number(len);
  TEXT(",\"original\":");
  number(header->len);
  TEXT(",\"interface\":null,\"direction\":null,\"comment\":null,\"file\":null,\"headers\":[{\"header\":\"eth\",\"start\":");
  place(0, 14, len);
  TEXT(",\"closed\":false,\"dst\":\"");
  mac(bytes);
  TEXT("\",\"src\":\"");
  mac(bytes + 6);
  TEXT("\",\"type\":");
  number(word(bytes + 12));
  TEXT(",\"fcs\":null}");
  for (unsigned i = 0; i < it->tags; i++) {
    if (is_sec_tag(bytes, it->at[i])) macsec_json(bytes, it->at[i], len);
    else vlan_json(bytes, it->at[i], len);
  }
  if (it->arp) arp_json(bytes, it->arp, len);
  TEXT("],\"rest\":{\"start\":");
  number(it->rest);
  TEXT(",\"end\":");
  number(len);
  if (it->arp) {
    TEXT(",\"kind\":\"after_arp\",\"type\":null}}\n");
  } else {
    TEXT(",\"kind\":\"ether_type\",\"type\":");
    number(it->type);
    TEXT("}}\n");
  }
}

int main(int count, char **words) {
  char error[PCAP_ERRBUF_SIZE];
  pcap_t *capture = pcap_fopen_offline(stdin, error);
  struct pcap_pkthdr *header;
  const u_char *bytes;
  uint32_t packets = 0;
  if (!capture) { fprintf(stderr, "%s\n", error); return 1; }
  if (count != 2) return 2;
  int mode = words[1][0];
  make_tables();
  while (pcap_next_ex(capture, &header, &bytes) == 1) {
    struct walk it;
    packets++;
    if (header->caplen < 14) return 1;
    walk(bytes, header->caplen, &it);
    if (mode == 'f') four(bytes, &it);
    else if (mode == 'e') eight(packets, header, bytes, &it);
    else json(packets, header, bytes, &it);
    if (end >= waiting + ROOM) {
      fwrite(waiting, 1, (size_t)(end - waiting), stdout);
      end = waiting;
    }
  }
  fwrite(waiting, 1, (size_t)(end - waiting), stdout);
  pcap_close(capture);
  return 0;
}
