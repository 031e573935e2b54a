/* A walk of Ethernet II, VLAN, MACsec and ARP by hand in C, with each test that the table of refusals asks for and nothing else,
 * beside the library's.
 *
 *   walk SET           each of the calls over a set once, for callgrind
 *
 * All sum up every unit's fields and payload length and the fault, and the sums are compared. */
#include "frames.h"

/* the library, from libwalk_bench.a; a slice is a pointer and a length */
u64 port_walks(const u8 *bytes, size_t len, const u32 *ends, size_t count);
u64 port_limited_walks(const u8 *bytes, size_t len, const u32 *ends, size_t count);
u64 port_summaries(const u8 *bytes, size_t len, const u32 *ends, size_t count);
u64 port_feeds(const u8 *bytes, size_t len, const u32 *ends, size_t count);

struct walked { u64 sum, units, rest, fault; };

static inline __attribute__((always_inline)) struct walked walk(const u8 *list, size_t n) {
  struct walked w = {0, 0, 0, 0};
  size_t at = 0, end = n;
  u32 type;
#define FAULT(required, have) do { w.fault = 1; w.sum += at + (required) + (have); w.rest = at + end; return w; } while (0)
  if (n < 14) FAULT(14, n);
  type = be16(list + 12);
  w.sum = type + (n - 14);
  w.units = 1;
  at = 14;
  for (;;) {
    const u8 *p = list + at;
    size_t k = end - at;
    if (type == 0x8100 || type == 0x88A8 || type == 0x9100) {
      if (k < 4) FAULT(4, k);
      type = be16(p + 2);
      w.sum = w.sum * 31 + (be16(p) & 0xFFF) + type + (k - 4);
      at += 4;
    } else if (type == 0x88E5) {
      u32 plain, h, s;
      size_t payload;
      if (k < 6) FAULT(6, k);
      if (p[0] & 0x80) FAULT(1, 0);
      plain = !(p[0] & 0x0C);
      s = p[1] & 0x3F;
      if (plain && s == 1) FAULT(2, 0);
      h = 6 + (p[0] & 0x20 ? 8 : 0) + (plain ? 2 : 0);
      if (k < h) FAULT(h, k);
      payload = k - h;
      if (s && !(plain && s < 2)) {
        size_t known = plain ? s - 2 : s;
        if (payload < known) FAULT(h + known, k);
        payload = known;
        end = at + h + known;
      }
      w.sum = w.sum * 31 + be32(p + 2) + s + payload;
      at += h;
      w.units++;
      if (!plain) break;
      type = be16(p + h - 2);
      continue;
    } else if (type == 0x0806) {
      size_t len;
      if (k < 8) FAULT(8, k);
      len = 8 + 2 * (size_t)p[4] + 2 * (size_t)p[5];
      if (k < len) FAULT(len, k);
      w.sum = w.sum * 31 + be16(p) + be16(p + 6) + len;
      at += len;
      w.units++;
      break;
    } else {
      break;
    }
    w.units++;
  }
  w.rest = at + end;
  return w;
}

#define OVER(name, value)                                                              \
  __attribute__((noipa)) static u64 name(const u8 *bytes, size_t len, const u32 *ends, size_t count) { \
    u64 sum = 0;                                                                       \
    size_t start = 0;                                                                  \
    for (size_t i = 0; i < count; i++) {                                               \
      size_t end = ends[i];                                                            \
      if (end < start || end > len) return sum;                                        \
      struct walked w = walk(bytes + start, end - start);                              \
      sum += (value);                                                                  \
      start = end;                                                                     \
    }                                                                                  \
    return sum;                                                                        \
  }
OVER(hand_walks, w.sum)
OVER(hand_summaries, w.units * 3 + w.rest * 5 + w.fault * 7)

int main(int argc, char **argv) {
  enum { COUNT = 4096, STACK_COUNT = 64 }; /* a walk through 500 tags takes as long as a hundred others */
  u8 *bytes = malloc(COUNT * (size_t)STACK_LEN);
  u32 *ends = malloc(COUNT * sizeof *ends);
  size_t len = 0, count = 0;
  if (argc != 2) return 2;
  for (int set = MIXED; set <= atoi(argv[1]); set++) {
    len = 0;
    count = set == STACKS ? STACK_COUNT : COUNT;
    for (size_t i = 0; i < count; i++) { len += frame(bytes + len, set); ends[i] = (u32)len; }
  }
  const u64 walked = hand_walks(bytes, len, ends, count), summed = hand_summaries(bytes, len, ends, count);
  if (port_walks(bytes, len, ends, count) != walked || port_limited_walks(bytes, len, ends, count) != walked ||
      port_summaries(bytes, len, ends, count) != summed) {
    printf("the sums differ\n");
    return 1;
  }
  return port_feeds(bytes, len, ends, count) == 0;
}
