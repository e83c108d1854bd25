/* Memory between two pages that nobody may touch. A buffer is placed against one of them, so that a read or write of a single byte outside it,
 * on that side, ends the program. The archive is compiled code that no sanitizer watches; the processor watches it here. */
#ifndef ZONE_H
#define ZONE_H

#include <stdint.h>
#include <stdio.h>
#include <stdlib.h>
#include <string.h>
#include <sys/mman.h>
#include <unistd.h>

typedef struct {
    uint8_t *low, *high; /* what may be touched */
} zone;

/* At least this many bytes between the two pages. */
static inline void zone_open(zone *z, size_t bytes) {
    size_t page = (size_t)sysconf(_SC_PAGESIZE), inner = (bytes + page) / page * page;
    uint8_t *all = mmap(NULL, inner + 2 * page, PROT_NONE, MAP_PRIVATE | MAP_ANONYMOUS, -1, 0);
    if (all == MAP_FAILED || mprotect(all + page, inner, PROT_READ | PROT_WRITE) != 0) {
        perror("zone");
        exit(2);
    }
    z->low = all + page;
    z->high = z->low + inner;
}

static inline void zone_close(zone *z) {
    size_t page = (size_t)sysconf(_SC_PAGESIZE);
    if (z->low) munmap(z->low - page, (size_t)(z->high - z->low) + 2 * page);
    z->low = z->high = NULL;
}

/* A buffer of exactly these bytes against the upper page, or against the lower one. The zone grows where it is too small. */
static inline uint8_t *zone_place(zone *z, size_t bytes, int against_upper) {
    if (!z->low || (size_t)(z->high - z->low) < bytes) {
        zone_close(z);
        zone_open(z, bytes);
    }
    return against_upper ? z->high - bytes : z->low;
}

enum { ZONE_MARGIN = 64, ZONE_BYTE = 0xc7 };

/* The bytes beside a placed buffer, on the side that has no page to watch them. */
static inline uint8_t *zone_beside(const zone *z, uint8_t *buffer, size_t bytes, size_t *count) {
    int upper = buffer + bytes == z->high;
    size_t free_bytes = (size_t)(z->high - z->low) - bytes;
    *count = free_bytes < ZONE_MARGIN ? free_bytes : ZONE_MARGIN;
    return upper ? buffer - *count : buffer + bytes;
}

static inline void zone_mark(const zone *z, uint8_t *buffer, size_t bytes) {
    size_t count;
    uint8_t *beside = zone_beside(z, buffer, bytes, &count);
    memset(beside, ZONE_BYTE, count);
}

static inline int zone_whole(const zone *z, uint8_t *buffer, size_t bytes) {
    size_t count;
    uint8_t *beside = zone_beside(z, buffer, bytes, &count);
    for (size_t i = 0; i < count; i++)
        if (beside[i] != ZONE_BYTE) return 0;
    return 1;
}

#endif
