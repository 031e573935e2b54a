/* The calls from C over made frames, beside a C function that fills the same struct.
 *
 *   calls compare     compares the structs of etherpeel_summary, etherpeel_walk and etherpeel_packet with those of the
 *                     functions by hand
 *   calls SET         each call for each frame of a set, for callgrind */
#include "by_hand.h"

enum { COUNT = 4096, SETS = 6, CALLS = 8 };

static u8 bytes[COUNT * 512], target[512];
static u32 ends[COUNT];

static void call(int which, const u8 *frame, size_t len) {
  static etherpeel_found found;
  static etherpeel_fed fed;
  static etherpeel_unit units[8];
  static etherpeel_headers headers;
  size_t count;
  switch (which) {
  case 0: by_hand(ETHERPEEL_START_ETHERNET2, 0, frame, len, &found); break;
  case 1: etherpeel_summary(ETHERPEEL_START_ETHERNET2, 0, frame, len, &found); break;
  case 2: etherpeel_walk(ETHERPEEL_START_ETHERNET2, 0, frame, len, units, 8, &count); break;
  case 3: etherpeel_write_back(ETHERPEEL_START_ETHERNET2, 0, frame, len, target, sizeof target, &count); break;
  case 4: etherpeel_feed(ETHERPEEL_START_ETHERNET2, 0, frame, len, &fed); break;
  case 5: etherpeel_packet(ETHERPEEL_START_ETHERNET2, 0, frame, len, &headers); break;
  case 6: walk_by_hand(ETHERPEEL_START_ETHERNET2, 0, frame, len, units, 8, &count); break;
  case 7: packet_by_hand(ETHERPEEL_START_ETHERNET2, 0, frame, len, &headers); break;
  }
}

static int same(const etherpeel_found *a, const etherpeel_found *b) {
  const etherpeel_fault *f = &a->fault, *g = &b->fault;
  return a->units == b->units && a->rest_start == b->rest_start && a->rest_end == b->rest_end &&
         a->rest_kind == b->rest_kind && a->rest_protocol == b->rest_protocol && f->offset == g->offset &&
         f->required_len == g->required_len && f->len == g->len && f->missing == g->missing && f->kind == g->kind &&
         f->layer == g->layer && f->len_source == g->len_source && f->closed == g->closed &&
         f->packet_type == g->packet_type && f->hardware_type == g->hardware_type;
}

static int same_unit(const etherpeel_unit *a, const etherpeel_unit *b) {
  const etherpeel_macsec *m = &a->macsec, *k = &b->macsec;
  const etherpeel_ethernet2 *e = &a->ethernet2, *d = &b->ethernet2;
  return a->offset == b->offset && a->header_len == b->header_len && a->payload_start == b->payload_start &&
         a->payload_end == b->payload_end && a->kind == b->kind && a->closed == b->closed &&
         !memcmp(e->destination, d->destination, 12) && e->ether_type == d->ether_type && e->has_fcs == d->has_fcs &&
         !memcmp(&a->linux_sll, &b->linux_sll, sizeof a->linux_sll) && !memcmp(&a->vlan, &b->vlan, sizeof a->vlan) &&
         m->sci == k->sci && m->packet_number == k->packet_number && m->ether_type == k->ether_type &&
         m->end_station == k->end_station && m->sci_present == k->sci_present &&
         m->single_copy_broadcast == k->single_copy_broadcast && m->encrypted == k->encrypted &&
         m->changed == k->changed && m->association_number == k->association_number && m->short_len == k->short_len &&
         !memcmp(&a->arp, &b->arp, sizeof a->arp);
}

/* Whether the walk and the packet are as by hand: all of their structs but what pads them. */
static int same_units(u32 start, const u8 *one, size_t len) {
  static etherpeel_headers a, b;
  static etherpeel_unit units[2][8];
  size_t count[2];
  memset(units, 0, sizeof units);
  memset(&a, 0, sizeof a);
  memset(&b, 0, sizeof b);
  walk_by_hand(start, 0x88E5, one, len, units[0], 8, &count[0]);
  etherpeel_walk(start, 0x88E5, one, len, units[1], 8, &count[1]);
  packet_by_hand(start, 0x88E5, one, len, &a);
  etherpeel_packet(start, 0x88E5, one, len, &b);
  for (int i = 0; i < 8; i++)
    if (!same_unit(&units[0][i], &units[1][i])) return 0;
  for (int i = 0; i < 5; i++)
    if (!same_unit(&a.units[i], &b.units[i])) return 0;
  return count[0] == count[1] && same(&a.found, &b.found) && a.min_snap_len == b.min_snap_len &&
         !memcmp(a.vlan_ids, b.vlan_ids, sizeof a.vlan_ids) && a.vlan_count == b.vlan_count;
}

static int compare(void) {
  int failed = 0;
  for (int set = 0; set < SETS; set++)
    for (int i = 0; i < COUNT; i++) {
      static u8 one[512];
      etherpeel_found a, b;
      size_t len = frame(one, set);
      for (u32 start = 0; start <= ETHERPEEL_START_ETHER_TYPE; start++) {
        memset(&a, 0, sizeof a);
        memset(&b, 0, sizeof b);
        failed += by_hand(start, 0x88E5, one, len, &a) != etherpeel_summary(start, 0x88E5, one, len, &b) ||
                  !same(&a, &b) || !same_units(start, one, len);
      }
    }
  printf("%d of %d differ\n", failed, SETS * COUNT * 5);
  return failed != 0;
}

int main(int argc, char **argv) {
  size_t start = 0;
  if (argc == 2 && !strcmp(argv[1], "compare")) return compare();
  if (argc != 2) return 2;
  for (int set = 0; set <= atoi(argv[1]); set++) {
    size_t len = 0;
    for (int i = 0; i < COUNT; i++) {
      len += frame(bytes + len, set);
      ends[i] = (u32)len;
    }
  }
  for (int i = 0; i < COUNT; i++) {
    for (int which = 0; which < CALLS; which++) call(which, bytes + start, ends[i] - start);
    start = ends[i];
  }
  return 0;
}
