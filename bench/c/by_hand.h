/* C by hand that fills the structs of etherpeel_summary, etherpeel_walk and etherpeel_packet. */
#include <stddef.h>
#include "../walk/frames.h"
#include "../../c/etherpeel.h"

/* A length that is required at a place of the frame. */
static void needs(etherpeel_found *f, size_t at, size_t end, int closed, size_t required, size_t have, u32 layer,
                  u32 source) {
  f->rest_start = at;
  f->rest_end = end;
  f->fault.offset = at;
  f->fault.required_len = required;
  f->fault.len = have;
  f->fault.missing = closed ? 0 : required - have;
  f->fault.kind = ETHERPEEL_FAULT_LENGTH;
  f->fault.layer = layer;
  f->fault.len_source = source;
  f->fault.closed = (uint8_t)closed;
}

/* A value of a SecTag that is refused. */
static void refuses(etherpeel_found *f, size_t at, size_t end, int closed, u32 kind) {
  f->rest_start = at;
  f->rest_end = end;
  f->fault.offset = at;
  f->fault.kind = kind;
  f->fault.closed = (uint8_t)closed;
}

/* What a frame begins with, by hand: where what follows it is, and its ether type. Says whether the walk goes on. */
static inline int begins(u32 start, const u8 *p, size_t n, etherpeel_found *f, size_t *at, size_t *end, int *closed,
                         u32 *type) {
  u32 hardware;
  switch (start) {
  case ETHERPEEL_START_ETHERNET2:
    if (n < 14) {
      needs(f, 0, n, 0, 14, n, ETHERPEEL_LAYER_ETHERNET2_HEADER, ETHERPEEL_LEN_SLICE);
      return 0;
    }
    *at = 14;
    *type = be16(p + 12);
    break;
  case ETHERPEEL_START_ETHERNET2_FCS:
    *closed = 1;
    if (n < 18) {
      needs(f, 0, n, 1, 18, n, ETHERPEEL_LAYER_ETHERNET2_HEADER, ETHERPEEL_LEN_SLICE);
      return 0;
    }
    *at = 14;
    *end = n - 4;
    *type = be16(p + 12);
    break;
  case ETHERPEEL_START_LINUX_SLL:
    if (n < 16) {
      needs(f, 0, n, 0, 16, n, ETHERPEEL_LAYER_LINUX_SLL_HEADER, ETHERPEEL_LEN_SLICE);
      return 0;
    }
    hardware = be16(p + 2);
    if (be16(p) > 7) {
      refuses(f, 0, n, 0, ETHERPEEL_FAULT_PACKET_TYPE);
      f->fault.packet_type = (uint16_t)be16(p);
      return 0;
    }
    *at = 16;
    *type = be16(p + 14);
    f->units = 1;
    f->rest_start = 16;
    f->rest_end = n;
    f->rest_protocol = (uint16_t)*type;
    switch (hardware) {
    case 1: return 1;
    case 824: f->rest_kind = ETHERPEEL_REST_NETLINK; return 0;
    case 778: f->rest_kind = ETHERPEEL_REST_GRE; return 0;
    case 770:
    case 803: f->rest_kind = ETHERPEEL_REST_IGNORED; return 0;
    }
    memset(f, 0, sizeof *f);
    refuses(f, 0, n, 0, ETHERPEEL_FAULT_HARDWARE_TYPE);
    f->fault.hardware_type = (uint16_t)hardware;
    return 0;
  default: return 1;
  }
  f->units = 1;
  return 1;
}

/* What etherpeel_summary fills, by hand. */
__attribute__((noinline, noclone)) static u32 by_hand(u32 start, uint16_t ether_type, const u8 *p, size_t n,
                                                      etherpeel_found *f) {
  size_t at = 0, end = n;
  int closed = 0;
  u32 type = ether_type, bound = ETHERPEEL_LEN_SLICE;
  if (start < ETHERPEEL_START_ETHERNET2 || start > ETHERPEEL_START_ETHER_TYPE) return ETHERPEEL_UNKNOWN_START;
  memset(f, 0, sizeof *f);
  if (!begins(start, p, n, f, &at, &end, &closed, &type)) return ETHERPEEL_DONE;
  for (;;) {
    size_t have = end - at;
    f->rest_kind = ETHERPEEL_REST_ETHER_TYPE;
    f->rest_protocol = (uint16_t)type;
    if (type == 0x8100 || type == 0x88A8 || type == 0x9100) {
      if (have < 4) {
        needs(f, at, end, closed, 4, have, ETHERPEEL_LAYER_VLAN_HEADER, bound);
        return ETHERPEEL_DONE;
      }
      type = be16(p + at + 2);
      at += 4;
    } else if (type == 0x88E5) {
      u32 plain, header, named;
      if (have < 6) {
        needs(f, at, end, closed, 6, have, ETHERPEEL_LAYER_MACSEC_HEADER, bound);
        return ETHERPEEL_DONE;
      }
      if (p[at] & 0x80) {
        refuses(f, at, end, closed, ETHERPEEL_FAULT_MACSEC_VERSION);
        return ETHERPEEL_DONE;
      }
      plain = !(p[at] & 0x0C);
      named = p[at + 1] & 0x3F;
      if (plain && named == 1) {
        refuses(f, at, end, closed, ETHERPEEL_FAULT_MACSEC_SHORT_LEN);
        return ETHERPEEL_DONE;
      }
      header = 6 + (p[at] & 0x20 ? 8 : 0) + (plain ? 2 : 0);
      if (have < header) {
        needs(f, at, end, closed, header, have, ETHERPEEL_LAYER_MACSEC_HEADER, bound);
        return ETHERPEEL_DONE;
      }
      if (named) {
        size_t whole = header + named - (plain ? 2 : 0);
        if (have < whole) {
          needs(f, at, end, closed, whole, have, ETHERPEEL_LAYER_MACSEC_PACKET, ETHERPEEL_LEN_MACSEC_SHORT_LENGTH);
          return ETHERPEEL_DONE;
        }
        end = at + whole;
        closed = 1;
        bound = ETHERPEEL_LEN_MACSEC_SHORT_LENGTH;
      }
      at += header;
      f->units++;
      if (!plain) {
        f->rest_kind = ETHERPEEL_REST_SEALED;
        f->rest_protocol = 0;
        break;
      }
      type = be16(p + at - 2);
      continue;
    } else if (type == 0x0806) {
      size_t whole;
      if (have < 8) {
        needs(f, at, end, closed, 8, have, ETHERPEEL_LAYER_ARP, bound);
        return ETHERPEEL_DONE;
      }
      whole = 8 + 2 * (size_t)p[at + 4] + 2 * (size_t)p[at + 5];
      if (have < whole) {
        needs(f, at, end, closed, whole, have, ETHERPEEL_LAYER_ARP, ETHERPEEL_LEN_ARP_ADDRESSES);
        return ETHERPEEL_DONE;
      }
      at += whole;
      f->units++;
      f->rest_kind = ETHERPEEL_REST_AFTER_ARP;
      f->rest_protocol = 0;
      break;
    } else {
      break;
    }
    f->units++;
  }
  f->rest_start = at;
  f->rest_end = end;
  return ETHERPEEL_DONE;
}

/* ---- the units, by hand */

/* The place of the next unit, all of it 0 but where it is, or none if there is no room. */
static inline etherpeel_unit *put(etherpeel_unit *units, size_t room, size_t count, u32 kind, size_t at, size_t header,
                                  size_t end, int closed) {
  etherpeel_unit *u = units + count;
  if (count >= room) return 0;
  memset(u, 0, sizeof *u);
  u->offset = at;
  u->header_len = header;
  u->payload_start = at + header;
  u->payload_end = end;
  u->kind = kind;
  u->closed = (uint8_t)closed;
  return u;
}

static inline void put_first(etherpeel_unit *u, const u8 *p) {
  if (!u) return;
  if (u->kind == ETHERPEEL_UNIT_LINUX_SLL) {
    u->linux_sll.packet_type = (uint16_t)be16(p);
    u->linux_sll.hardware_type = (uint16_t)be16(p + 2);
    u->linux_sll.address_len = (uint16_t)be16(p + 4);
    memcpy(u->linux_sll.address, p + 6, 8);
    u->linux_sll.protocol = (uint16_t)be16(p + 14);
  } else {
    memcpy(u->ethernet2.destination, p, 6);
    memcpy(u->ethernet2.source, p + 6, 6);
    u->ethernet2.ether_type = (uint16_t)be16(p + 12);
    u->ethernet2.has_fcs = u->closed;
  }
}

static inline void put_tag(etherpeel_unit *u, const u8 *p) {
  if (!u) return;
  u->vlan.vid = be16(p) & 0xFFF;
  u->vlan.ether_type = (uint16_t)be16(p + 2);
  u->vlan.pcp = p[0] >> 5;
  u->vlan.dei = p[0] >> 4 & 1;
}

static inline void put_sec_tag(etherpeel_unit *u, const u8 *p, size_t header) {
  if (!u) return;
  u->macsec.encrypted = p[0] >> 3 & 1;
  u->macsec.changed = p[0] >> 2 & 1;
  u->macsec.ether_type = p[0] & 0x0C ? 0 : (uint16_t)be16(p + header - 2);
  u->macsec.end_station = p[0] >> 6 & 1;
  u->macsec.sci_present = p[0] >> 5 & 1;
  u->macsec.single_copy_broadcast = p[0] >> 4 & 1;
  u->macsec.association_number = p[0] & 3;
  u->macsec.short_len = p[1] & 0x3F;
  u->macsec.packet_number = be32(p + 2);
  if (p[0] & 0x20) u->macsec.sci = (u64)be32(p + 6) << 32 | be32(p + 10);
}

static inline void put_arp(etherpeel_unit *u, const u8 *p, size_t at) {
  size_t hardware = p[4], protocol = p[5];
  if (!u) return;
  u->arp.sender_hardware = at + 8;
  u->arp.sender_protocol = at + 8 + hardware;
  u->arp.target_hardware = at + 8 + hardware + protocol;
  u->arp.target_protocol = at + 8 + 2 * hardware + protocol;
  u->arp.hardware_type = (uint16_t)be16(p);
  u->arp.protocol_type = (uint16_t)be16(p + 2);
  u->arp.operation = (uint16_t)be16(p + 6);
  u->arp.hardware_size = p[4];
  u->arp.protocol_size = p[5];
}

/* The units, what etherpeel_summary fills, and what a packet has besides, if it is asked for, in one walk that reads no
 * more than so many tags. */
static inline __attribute__((always_inline)) void fill(u32 start, uint16_t ether_type, const u8 *p, size_t n,
                                                       etherpeel_unit *units, size_t room, size_t limit,
                                                       etherpeel_found *f, etherpeel_headers *h) {
  size_t at = 0, end = n, reach = 0;
  int closed = 0;
  u32 type = ether_type, bound = ETHERPEEL_LEN_SLICE;
  if (start != ETHERPEEL_START_ETHER_TYPE) {
    int goes_on = begins(start, p, n, f, &at, &end, &closed, &type);
    if (f->units)
      put_first(put(units, room, 0,
                    start == ETHERPEEL_START_LINUX_SLL ? ETHERPEEL_UNIT_LINUX_SLL : ETHERPEEL_UNIT_ETHERNET2, 0, at,
                    end, closed),
                p);
    reach = at;
    if (h) h->min_snap_len = reach;
    if (!goes_on) return;
  }
  for (;;) {
    size_t have = end - at;
    f->rest_kind = ETHERPEEL_REST_ETHER_TYPE;
    f->rest_protocol = (uint16_t)type;
    if (h) h->min_snap_len = reach;
    if (type == 0x8100 || type == 0x88A8 || type == 0x9100) {
      if (!limit) break;
      if (have < 4) {
        needs(f, at, end, closed, 4, have, ETHERPEEL_LAYER_VLAN_HEADER, bound);
        return;
      }
      put_tag(put(units, room, f->units, ETHERPEEL_UNIT_VLAN, at, 4, end, closed), p + at);
      if (h) h->vlan_ids[h->vlan_count++] = be16(p + at) & 0xFFF;
      type = be16(p + at + 2);
      at += 4;
      if (at > reach) reach = at;
      limit--;
    } else if (type == 0x88E5) {
      u32 plain, header, named;
      if (!limit) break;
      if (have < 6) {
        needs(f, at, end, closed, 6, have, ETHERPEEL_LAYER_MACSEC_HEADER, bound);
        return;
      }
      if (p[at] & 0x80) {
        refuses(f, at, end, closed, ETHERPEEL_FAULT_MACSEC_VERSION);
        return;
      }
      plain = !(p[at] & 0x0C);
      named = p[at + 1] & 0x3F;
      if (plain && named == 1) {
        refuses(f, at, end, closed, ETHERPEEL_FAULT_MACSEC_SHORT_LEN);
        return;
      }
      header = 6 + (p[at] & 0x20 ? 8 : 0) + (plain ? 2 : 0);
      if (have < header) {
        needs(f, at, end, closed, header, have, ETHERPEEL_LAYER_MACSEC_HEADER, bound);
        return;
      }
      if (named) {
        size_t whole = header + named - (plain ? 2 : 0);
        if (have < whole) {
          needs(f, at, end, closed, whole, have, ETHERPEEL_LAYER_MACSEC_PACKET, ETHERPEEL_LEN_MACSEC_SHORT_LENGTH);
          return;
        }
        end = at + whole;
        closed = 1;
        bound = ETHERPEEL_LEN_MACSEC_SHORT_LENGTH;
        if (end > reach) reach = end;
      }
      put_sec_tag(put(units, room, f->units, ETHERPEEL_UNIT_MACSEC, at, header, end, closed), p + at, header);
      at += header;
      if (at > reach) reach = at;
      limit--;
      if (!plain) {
        f->units++;
        f->rest_kind = ETHERPEEL_REST_SEALED;
        f->rest_protocol = 0;
        break;
      }
      type = be16(p + at - 2);
    } else if (type == 0x0806) {
      size_t whole;
      if (have < 8) {
        needs(f, at, end, closed, 8, have, ETHERPEEL_LAYER_ARP, bound);
        return;
      }
      whole = 8 + 2 * (size_t)p[at + 4] + 2 * (size_t)p[at + 5];
      if (have < whole) {
        needs(f, at, end, closed, whole, have, ETHERPEEL_LAYER_ARP, ETHERPEEL_LEN_ARP_ADDRESSES);
        return;
      }
      put_arp(put(units, room, f->units, ETHERPEEL_UNIT_ARP, at, whole, end, closed), p + at, at);
      at += whole;
      if (at > reach) reach = at;
      f->units++;
      f->rest_kind = ETHERPEEL_REST_AFTER_ARP;
      f->rest_protocol = 0;
      break;
    } else {
      break;
    }
    f->units++;
  }
  f->rest_start = at;
  f->rest_end = end;
  if (h) h->min_snap_len = reach;
}

/* What etherpeel_walk fills, by hand. */
__attribute__((noinline, noclone)) static u32 walk_by_hand(u32 start, uint16_t ether_type, const u8 *p, size_t n,
                                                           etherpeel_unit *units, size_t room, size_t *count) {
  etherpeel_found found;
  if (start < ETHERPEEL_START_ETHERNET2 || start > ETHERPEEL_START_ETHER_TYPE) return ETHERPEEL_UNKNOWN_START;
  memset(&found, 0, sizeof found);
  fill(start, ether_type, p, n, units, room, (size_t)-1, &found, 0);
  *count = found.units;
  return ETHERPEEL_DONE;
}

/* What etherpeel_packet fills, by hand. */
__attribute__((noinline, noclone)) static u32 packet_by_hand(u32 start, uint16_t ether_type, const u8 *p, size_t n,
                                                             etherpeel_headers *headers) {
  if (start < ETHERPEEL_START_ETHERNET2 || start > ETHERPEEL_START_ETHER_TYPE) return ETHERPEEL_UNKNOWN_START;
  memset(&headers->found, 0, sizeof *headers - offsetof(etherpeel_headers, found));
  fill(start, ether_type, p, n, headers->units, 5, 3, &headers->found, headers);
  return ETHERPEEL_DONE;
}
