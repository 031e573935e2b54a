/* Made frames in seven sets, and reading numbers: what the benchmarks of the walk and of the calls from C share. */
#include <stdint.h>
#include <stdio.h>
#include <stdlib.h>
#include <string.h>
#include <time.h>

typedef uint64_t u64;
typedef uint32_t u32;
typedef uint8_t u8;

static inline u32 be16(const u8 *p) { uint16_t v; memcpy(&v, p, 2); return __builtin_bswap16(v); }
static inline u32 be32(const u8 *p) { u32 v; memcpy(&v, p, 4); return __builtin_bswap32(v); }

/* ---- frames, made from a fixed seed */

static u64 state = 0x9E3779B97F4A7C15u;
static u32 below(u32 n) {
  state ^= state << 13; state ^= state >> 7; state ^= state << 17;
  return (u32)(state >> 33) % n;
}
static size_t put16(u8 *p, u32 v) { p[0] = v >> 8; p[1] = v; return 2; }

enum { MIXED, PLAIN, TAGGED, SECURED, ADDRESSES, CUT, STACKS };

/* the greatest length of a frame */
enum { STACK_LEN = 2304 };

static size_t frame(u8 *p, int set) {
  size_t n = 0;
  u32 dice = set == MIXED ? below(100) : 0;
  int tags = set == STACKS ? 500 : set == TAGGED ? 1 + below(3) : set == MIXED && dice < 20 ? 1 + (dice < 5) : 0;
  int secure = set == SECURED ? 1 + below(2) : set == MIXED && dice >= 20 && dice < 26;
  int arp = set == ADDRESSES || (set == MIXED && dice >= 26 && dice < 38);
  for (; n < 12; n++) p[n] = below(256);
  for (; tags; tags--) { n += put16(p + n, below(2) ? 0x8100 : 0x88A8); n += put16(p + n, below(65536)); }
  for (; secure; secure--) {
    n += put16(p + n, 0x88E5);
    int sci = below(2);
    p[n++] = sci ? 0x20 : 0; p[n++] = 0;
    for (int i = 0; i < (sci ? 12 : 4); i++) p[n++] = below(256);
  }
  if (arp) {
    n += put16(p + n, 0x0806); n += put16(p + n, 1); n += put16(p + n, 0x0800);
    p[n++] = 6; p[n++] = 4; n += put16(p + n, 1 + below(2));
    for (int i = 0; i < 20; i++) p[n++] = below(256);
    while (n < 60) p[n++] = 0;
  } else {
    n += put16(p + n, below(4) ? 0x0800 : 0x86DD);
    size_t more = 40 + below(200);
    for (size_t i = 0; i < more; i++) p[n++] = (u8)i;
  }
  return set == CUT || (set == MIXED && dice >= 96) ? below((u32)n) : n;
}

