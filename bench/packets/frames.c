/* Made frames, and the functions of packets.rt.txt over them: the loop alone, the walk, and the form that FORM names, over
 * the cooked captures if IS_COOKED is 1, else over the other sets. `frames` compares the sums of the walk and the form, and
 * `frames SET` calls each of the functions once over one set, for callgrind. */
#include <stdint.h>
#include <stdio.h>
#include <stdlib.h>
#include <string.h>

typedef uint64_t u64;
typedef uint32_t u32;
typedef uint8_t u8;

/* a slice is a pointer and a length */
typedef u64 Form(const u8 *bytes, size_t len, const u32 *ends, size_t count);
Form nothing, by_walk, FORM;

enum { FORMS = 3, SETS = 7, COUNT = 4096 };
static Form *const forms[FORMS] = {nothing, by_walk, FORM};
enum { MIXED, PLAIN, TAGGED, SECURED, ADDRESSES, CUT, COOKED };

static u64 state = 0x9E3779B97F4A7C15u;
static u32 below(u32 n) {
  state ^= state << 13;
  state ^= state >> 7;
  state ^= state << 17;
  return (u32)(state >> 33) % n;
}

static size_t put16(u8 *p, u32 v) {
  p[0] = (u8)(v >> 8);
  p[1] = (u8)v;
  return 2;
}

/* Tags, SecTags, ARP packets and payloads, each after the ether type that announces it. */
static size_t put_units(u8 *p, int tags, int secured, int arp) {
  size_t n = 0;
  for (; tags; tags--) {
    n += put16(p + n, below(2) ? 0x8100 : 0x88A8);
    n += put16(p + n, below(65536));
  }
  for (; secured; secured--) {
    u32 sci = below(2);
    n += put16(p + n, 0x88E5);
    p[n++] = sci ? 0x20 : 0;
    p[n++] = 0;
    for (u32 i = 0; i < (sci ? 12 : 4); i++) p[n++] = (u8)below(256);
  }
  if (arp) {
    n += put16(p + n, 0x0806);
    n += put16(p + n, 1);
    n += put16(p + n, 0x0800);
    p[n++] = 6;
    p[n++] = 4;
    n += put16(p + n, 1 + below(2));
    for (int i = 0; i < 20; i++) p[n++] = (u8)below(256);
    while (n < 48) p[n++] = 0;
  } else {
    size_t more = 40 + below(200);
    n += put16(p + n, below(4) ? 0x0800 : 0x86DD);
    for (size_t i = 0; i < more; i++) p[n++] = (u8)i;
  }
  return n;
}

static size_t put_frame(u8 *p, int set) {
  u32 dice = set == MIXED ? below(100) : set == COOKED ? below(4) : 0;
  int tags = set == TAGGED || (set == COOKED && dice == 1) ? 1 + (int)below(3) : set == MIXED && dice < 20 ? 1 + (dice < 5) : 0;
  int secured = set == SECURED || (set == COOKED && dice == 2) ? 1 + (int)below(2) : set == MIXED && dice >= 20 && dice < 26;
  int arp = set == ADDRESSES || (set == COOKED && dice == 3) || (set == MIXED && dice >= 26 && dice < 38);
  size_t n = 0;
  if (set == COOKED) {
    static const u8 front[14] = {0, 0, 0, 1, 0, 6, 2, 0, 0, 0, 0, 1, 0, 0};
    memcpy(p, front, sizeof front);
    p[1] = (u8)below(5);
    n = sizeof front;
  } else {
    for (; n < 12; n++) p[n] = (u8)below(256);
  }
  n += put_units(p + n, tags, secured, arp);
  return set == CUT || (set == MIXED && dice >= 96) ? below((u32)n) : n;
}

static u8 bytes[COUNT * 512];
static u32 ends[COUNT];
static size_t len;

static void make(int set) {
  len = 0;
  for (int i = 0; i < COUNT; i++) {
    len += put_frame(bytes + len, set);
    ends[i] = (u32)len;
  }
}

static u64 call(int form) { return forms[form](bytes, len, ends, COUNT); }

static int compare(void) {
  int failed = 0;
  for (int set = 0; set < SETS; set++) {
    make(set);
    if ((set == COOKED) != IS_COOKED) continue;
    if (call(2) != call(1)) {
      printf("set %d: the sums differ\n", set);
      failed = 1;
    }
  }
  return failed;
}

int main(int argc, char **argv) {
  if (argc == 2) {
    int set = atoi(argv[1]);
    volatile u64 sum;
    for (int i = 0; i <= set; i++) make(i);
    for (int form = 0; form < FORMS; form++) sum = call(form);
    (void)sum;
    return 0;
  }
  return compare();
}
