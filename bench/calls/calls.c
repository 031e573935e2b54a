/* Calls each loop of calls.rt.txt and walks.rt.txt once over its frames; callgrind counts. bench/counting/calls.py makes `rows.h` of rows.txt. */
#include "../walk/frames.h"
#include <stdio.h>
#include <stdlib.h>
#include <string.h>

typedef struct { u8 *bytes; size_t len; u32 ends[8192]; size_t count; } Pile;

static void add(Pile *p, const u8 *bytes, size_t n) {
    p->bytes = realloc(p->bytes, p->len + n + 1);
    memcpy(p->bytes + p->len, bytes, n);
    p->len += n;
    p->ends[p->count++] = (u32)p->len;
}

/* The frames of a file of hexadecimal lines, without their first `skip` bytes, of one ether type if it is not 0. */
static Pile read_frames(const char *folder, const char *name, size_t skip, unsigned type, size_t least) {
    Pile p = {0};
    char path[512], line[8192];
    snprintf(path, sizeof path, "%s/%s.hex", folder, name);
    FILE *f = fopen(path, "r");
    if (!f) { perror(path); exit(1); }
    while (fgets(line, sizeof line, f)) {
        u8 b[4096];
        size_t n = 0;
        for (unsigned v; sscanf(line + 2 * n, "%2x", &v) == 1; n++) b[n] = (u8)v;
        if (n < least || (type && (n < 14 || (unsigned)(b[12] << 8 | b[13]) != type))) continue;
        add(&p, b + skip, n - skip);
    }
    fclose(f);
    return p;
}

static int is_tag(const u8 *f) { unsigned t = (unsigned)(f[12] << 8 | f[13]); return t == 0x8100 || t == 0x88A8 || t == 0x9100; }

typedef u64 Loop(const u8 *, size_t, const u32 *, size_t);
typedef u64 Writes(const u8 *, size_t, const u32 *, size_t, u8 *, size_t);
#include "rows.h"

int main(int argc, char **argv) {
    const char *folder = argc > 1 ? argv[1] : "sets";
    static u8 room[4096], b[1024];
    Pile tags = {0}, mixed_fcs = {0}, mixed = {0}, shorts = {0};
    for (int i = 0; i < 4096; i++) { size_t n = frame(b, 2); if (n >= 14 && is_tag(b)) add(&tags, b + 14, n - 14); }
    for (int i = 0; i < 4096; i++) { size_t n = frame(b, 0); memcpy(b + n, "\1\2\3\4", 4); add(&mixed_fcs, b, n + 4); }
    for (int i = 0; i < 4096; i++) add(&mixed, b, frame(b, 0));
    for (int i = 0; i < 1400; i++) { memset(b, i, 14); add(&shorts, b, (size_t)(i % 14)); }
    Pile eth = read_frames(folder, "eth", 0, 0, 0), cut = read_frames(folder, "cut", 0, 0, 0), sll = read_frames(folder, "sll", 0, 0, 0);
    Pile sec = read_frames(folder, "macsec", 14, 0, 15), arp = read_frames(folder, "eth", 14, 0x0806, 42);
    struct { const char *name; Pile *pile; } piles[] = { {"eth", &eth}, {"cut", &cut}, {"tags", &tags}, {"sec", &sec}, {"sll", &sll}, {"arp", &arp}, {"short", &shorts},
        {"walk_eth", &mixed}, {"walk_fcs", &mixed_fcs}, {"walk_sll", &sll}, {"walk_tag", &tags}, {"walk_sec", &sec} };
    for (size_t i = 0; i < sizeof rows / sizeof *rows; i++)
        for (size_t k = 0; k < sizeof piles / sizeof *piles; k++)
            if (!strcmp(rows[i].over, piles[k].name)) {
                Pile *p = piles[k].pile;
                u64 sum = rows[i].loop ? rows[i].loop(p->bytes, p->len, p->ends, p->count) : rows[i].writes(p->bytes, p->len, p->ends, p->count, room, sizeof room);
                printf("%s %zu %llx\n", rows[i].name, p->count, (unsigned long long)sum);
            }
    return 0;
}
