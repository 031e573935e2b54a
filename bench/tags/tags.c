/* `tags LINK` takes a VLAN tag off a frame and puts it in again 1,000 times by the library and 1,000 times by C, and compares the frames. */
#include <arpa/inet.h>
#include <stdbool.h>
#include <stdint.h>
#include <stdio.h>
#include <stdlib.h>
#include <string.h>

/* a slice is a pointer and a length */
uint32_t pop_and_push(uint32_t link, uint32_t times, uint8_t *frame, size_t len);

struct tag {
  uint16_t id, type;
  uint8_t pcp;
  bool dei;
};

/* moves bytes through registers, without a call of memmove */
#define MOVE(to, from, len) \
  do { \
    uint8_t bytes[len]; \
    memcpy(bytes, from, len); \
    memcpy(to, bytes, len); \
  } while (0)

static uint16_t number(const uint8_t *at) {
  uint16_t n;
  memcpy(&n, at, 2);
  return ntohs(n);
}

static bool announces_vlan(uint16_t type) { return type == 0x8100 || type == 0x88A8 || type == 0x9100; }

/* the length of the link's header, or 0 */
static inline size_t link_len(uint32_t link, const uint8_t *frame, size_t len) {
  switch (link) {
    case 0: return len < 14 ? 0 : 14;
    case 1: return len < 18 ? 0 : 14;
    default: return len < 16 || number(frame) > 4 || number(frame + 2) != 1 ? 0 : 16;
  }
}

__attribute__((noinline)) int c_pop(uint32_t link, uint8_t *frame, size_t len, struct tag *tag) {
  size_t n = link_len(link, frame, len);
  if (n == 0) return -1;
  if (!announces_vlan(number(frame + n - 2))) return -2;
  if (len - (link == 1 ? 4 : 0) < n + 4) return -3;
  uint16_t control = number(frame + n);
  tag->pcp = (uint8_t)(control >> 13);
  tag->dei = (control >> 12 & 1) != 0;
  tag->id = control & 0xFFF;
  tag->type = number(frame + n + 2);
  if (n == 14) MOVE(frame + 4, frame, 12);
  else MOVE(frame + 4, frame, 14);
  return 0;
}

__attribute__((noinline)) int c_push(uint32_t link, uint8_t *buffer, size_t len, const struct tag *tag, uint16_t tpid) {
  if (!announces_vlan(tpid)) return -4;
  if (len < 4) return -5;
  size_t n = link_len(link, buffer + 4, len - 4);
  if (n == 0) return -1;
  if (n == 14) MOVE(buffer, buffer + 4, 12);
  else MOVE(buffer, buffer + 4, 14);
  uint16_t control = htons((uint16_t)(tag->pcp << 13 | tag->dei << 12 | tag->id)), type = htons(tpid);
  memcpy(buffer + n - 2, &type, 2);
  memcpy(buffer + n, &control, 2);
  return 0;
}

int main(int argc, char **argv) {
  static uint8_t frame[64], other[64];
  if (argc != 2) return 2;
  uint32_t link = (uint32_t)atoi(argv[1]);
  size_t n = link == 2 ? 16 : 14;
  for (size_t i = 0; i < sizeof frame; i++) frame[i] = (uint8_t)i;
  if (link == 2) memcpy(frame, "\0\4\0\1", 4);
  memcpy(frame + n - 2, "\x81\0\xB1\x23\x08", 6);
  memcpy(other, frame, sizeof frame);
  uint32_t done = 0;
  for (int i = 0; i < 1000; i++) {
    struct tag tag;
    if (c_pop(link, other, sizeof other, &tag) == 0 && c_push(link, other, sizeof other, &tag, 0x8100) == 0) done++;
  }
  if (pop_and_push(link, 1000, frame, sizeof frame) != 1000 || done != 1000 || memcmp(frame, other, sizeof frame) != 0) {
    printf("the frames differ\n");
    return 1;
  }
  return 0;
}
