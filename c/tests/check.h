/* What the tests in C are written with: checks that are counted, and memory that ends in a guard.
 */
#ifndef CHECK_H
#define CHECK_H

#include <stdio.h>
#include <stdlib.h>
#include <string.h>
#include <sys/mman.h>
#include <unistd.h>

#include "../etherpeel.h"

static unsigned passed, failed;

static void check(int holds, const char *what, int line) {
    if (holds) {
        passed++;
    } else {
        failed++;
        printf("tests.c:%d: %s\n", line, what);
    }
}

#define CHECK(condition) check((condition) ? 1 : 0, #condition, __LINE__)
#define COUNT(array) (sizeof(array) / sizeof((array)[0]))

static int all_are(const void *memory, size_t len, uint8_t byte) {
    const uint8_t *bytes = (const uint8_t *)memory;
    for (size_t i = 0; i < len; i++)
        if (bytes[i] != byte) return 0;
    return 1;
}

/* Memory of one page before a page that can't be read or written. */
typedef struct guarded {
    uint8_t *page;
    size_t len;
} guarded;

static guarded guarded_page(void) {
    guarded g;
    void *pages;
    g.len = (size_t)sysconf(_SC_PAGESIZE);
    pages = mmap(NULL, 2 * g.len, PROT_READ | PROT_WRITE, MAP_PRIVATE | MAP_ANONYMOUS, -1, 0);
    if (pages == MAP_FAILED) abort();
    g.page = (uint8_t *)pages;
    if (mprotect(g.page + g.len, g.len, PROT_NONE) != 0) abort();
    return g;
}

static void release(guarded g) { munmap(g.page, 2 * g.len); }

/* the last so many bytes before the guard */
static uint8_t *last(guarded g, size_t len) { return g.page + g.len - len; }

/* a copy of a frame that ends where memory does */
static uint8_t *copied(guarded g, const uint8_t *bytes, size_t len) {
    if (len) memcpy(last(g, len), bytes, len);
    return last(g, len);
}

/* the headers of the other kinds are 0, byte for byte but for the padding at the ends */
static int others_are_zero(const etherpeel_unit *u) {
    return (u->kind == ETHERPEEL_UNIT_ETHERNET2 ||
            all_are(&u->ethernet2, offsetof(etherpeel_ethernet2, has_fcs) + 1, 0)) &&
           (u->kind == ETHERPEEL_UNIT_LINUX_SLL ||
            all_are(&u->linux_sll, sizeof u->linux_sll, 0)) &&
           (u->kind == ETHERPEEL_UNIT_VLAN || all_are(&u->vlan, sizeof u->vlan, 0)) &&
           (u->kind == ETHERPEEL_UNIT_MACSEC ||
            all_are(&u->macsec, offsetof(etherpeel_macsec, short_len) + 1, 0)) &&
           (u->kind == ETHERPEEL_UNIT_ARP || all_are(&u->arp, sizeof u->arp, 0));
}

#endif
