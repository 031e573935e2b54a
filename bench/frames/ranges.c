/* The frames of ether_make's ranges, by hand: ranges COUNT writes a capture of COUNT ARP requests in VLANs, whose identifiers and senders count up. */
#include <stdint.h>
#include <stdio.h>
#include <stdlib.h>
#include <string.h>

static const uint8_t FRAME[46] = {
    0x00, 0x00, 0x5e, 0x00, 0x01, 0x01, 0x02, 0x00, 0x00, 0x00, 0x00, 0x01, 0x81, 0x00, 0x00, 0x01, 0x08, 0x06,
    0x00, 0x01, 0x08, 0x00, 0x06, 0x04, 0x00, 0x01,
};

int main(int count, char **words) {
    const uint32_t head[6] = {0xA1B23C4D, 2 | 4 << 16, 0, 0, 262144, 1}, record[4] = {0, 0, sizeof FRAME, sizeof FRAME};
    uint32_t left = count > 1 ? (uint32_t)atoi(words[1]) : 0;
    uint8_t frame[sizeof FRAME];
    memcpy(frame, FRAME, sizeof FRAME);
    fwrite(head, sizeof head, 1, stdout);
    for (uint32_t host = 1; host < 255; host++) {
        frame[35] = (uint8_t)host, frame[32] = 10;
        for (uint32_t vid = 1; vid < 4095; vid++) {
            if (left-- == 0)
                return fflush(stdout) != 0;
            frame[14] = (uint8_t)(vid >> 8), frame[15] = (uint8_t)vid;
            fwrite(record, sizeof record, 1, stdout);
            fwrite(frame, sizeof frame, 1, stdout);
        }
    }
    return fflush(stdout) != 0;
}
