/* Prints how many packets of a capture file are in each VLAN, by their outermost VLAN tag: vlans
 * f.pcap */
#define _DEFAULT_SOURCE
#include <errno.h>
#include <etherpeel.h>
#include <fcntl.h>
#include <stdio.h>
#include <stdlib.h>
#include <string.h>
#include <sys/mman.h>
#include <sys/stat.h>
#include <unistd.h>

/* The bytes of a file, NULL if it can't be mapped, with the reason. */
static const uint8_t *mapped(const char *path, size_t *len, const char **reason) {
    struct stat about;
    const int file = open(path, O_RDONLY);
    void *bytes = MAP_FAILED;
    if (file >= 0 && fstat(file, &about) == 0) {
        *len = (size_t)about.st_size;
        *reason = "not a file on disk";
        if (!S_ISREG(about.st_mode)) return NULL;
        if (*len == 0) return (const uint8_t *)""; /* mmap refuses an empty file */
        bytes = mmap(NULL, *len, PROT_READ, MAP_PRIVATE, file, 0);
    }
    *reason = strerror(errno);
    return bytes == MAP_FAILED ? NULL : bytes;
}

/* Counts a packet of Ethernet, or of Linux cooked capture v1 or v2. */
static void count(const etherpeel_captured *packet, size_t counts[4096]) {
    etherpeel_frame frame = {0};
    etherpeel_headers headers;
    if (etherpeel_captured_frame(packet, &frame) != ETHERPEEL_DONE) return;
    const uint32_t status =
        etherpeel_packet(frame.start, frame.ether_type, frame.bytes, frame.len, &headers);
    if (status == ETHERPEEL_DONE && headers.vlan_count > 0) counts[headers.vlan_ids[0]]++;
}

int main(int argc, char **argv) {
    static size_t counts[4096];
    etherpeel_capture_end end;
    size_t len, found;
    const char *reason;
    if (argc != 2) {
        fprintf(stderr, "usage: vlans f.pcap\n");
        return 2;
    }
    const uint8_t *file = mapped(argv[1], &len, &reason);
    if (file == NULL) {
        fprintf(stderr, "%s: %s\n", argv[1], reason);
        return 1;
    }
    etherpeel_capture(file, len, NULL, 0, &found, &end);
    etherpeel_captured *packets = calloc(found + 1, sizeof *packets);
    if (packets == NULL) return 1;
    const uint32_t status = etherpeel_capture(file, len, packets, found, &found, &end);
    for (size_t i = 0; i < found; i++) count(&packets[i], counts);
    for (unsigned vid = 0; vid < 4096; vid++)
        if (counts[vid] > 0) printf("VLAN %u: %zu packets\n", vid, counts[vid]);
    if (status != ETHERPEEL_DONE) {
        char text[512];
        etherpeel_capture_fault_text(file, len, text, sizeof text, &len);
        fprintf(stderr, "%s: %.*s\n", argv[1], (int)len, text);
    }
    free(packets);
    return status != ETHERPEEL_DONE;
}
