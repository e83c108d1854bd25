/* The lookup by descent in C, for comparison beside the archive's. */
#ifndef DESCENT_H
#define DESCENT_H

#include "common.h"

/* What the archive's reply has, under the same names. */
typedef struct {
    u32 number, key, total, displayed, count;
} descended;

/* Asks 4 (of header and length alone), 5, 11 and 9, and writes the path, as balluchaw_descent does. On bytes that are no image behind their header it ends, and
 * reads and writes nothing outside table and path. */
descended descent_fast(const u8 *table, size_t length, u32 key, u8 *path, size_t path_length);

#endif
