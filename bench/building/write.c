/* `write TAGS SECURED` writes a packet 1,000 times by the builder and 1,000 times header by header, and compares what was written. */
#include <stdint.h>
#include <stdio.h>
#include <stdlib.h>
#include <string.h>

/* a slice is a pointer and a length */
uint64_t write_both(uint32_t tags, uint32_t secured, uint32_t times, const uint8_t *payload, size_t payload_len, uint8_t *target,
                    size_t target_len, uint8_t *other, size_t other_len);

int main(int argc, char **argv) {
  static uint8_t payload[46], target[1024], other[1024];
  uint64_t len;
  if (argc != 3) return 2;
  for (size_t i = 0; i < sizeof payload; i++) payload[i] = (uint8_t)i;
  len = write_both((uint32_t)atoi(argv[1]), (uint32_t)atoi(argv[2]), 1000, payload, sizeof payload, target, sizeof target, other, sizeof other);
  if (len < 60 || memcmp(target, other, (size_t)len) != 0) {
    printf("the packets differ\n");
    return 1;
  }
  return 0;
}
