/* Two sides with the same calls: each call of the one beside that of the other, in one process, the two taking turns, by thread CPU time. */
#ifndef SIDES_H
#define SIDES_H

#include "scene.h"
#include "timing.h"

enum { SIDE_CALLS = 11 };

/* The calls of a side by its name and by the prefix of its functions; `aims` is that of what comes before a seek or descent, untimed, or nothing.
 *
 * "seek" begins anywhere and soon finds an order; in the tables of one reserve it goes from the first order to the last. "seek far" begins in the last tenth and
 * finds its first order, "seek short" finds none of eight in the first tenth: a seek that looks beyond its range, below or above, is slow there. */
#define SIDE_VARIANTS(who, side, aims)                                                                                                                 \
    {"check", who, side##_check, 0, 0, 1, 1, {0}},                                                                                                     \
    {"lookup", who, side##_lookup, side##_pick, 0, 1, 1, {0}},                                                                                         \
    {"seek", who, side##_seek, aims##aim_any, 0, 1, 1, {0}},                                                                                           \
    {"seek far", who, side##_seek, aims##aim_far, 0, 1, 1, {0}},                                                                                       \
    {"seek short", who, side##_seek_short, aims##aim_short, 0, 1, 1, {0}},                                                                             \
    {"span of all", who, side##_span, 0, 0, 1, 1, {0}},                                                                                                \
    {"cancel", who, side##_cancel, side##_pick, side##_back, 1, 1, {0}},                                                                               \
    {"enter", who, side##_enter, side##_away, side##_kept, 1, 1, {0}},                                                                                 \
    {"amend", who, side##_amend, side##_pick, side##_back, 1, 1, {0}},                                                                                 \
    {"descent", who, side##_descent, aims##ask_held, 0, ASKED, 1, {0}},                                                                                \
    {"not held", who, side##_descent, aims##ask_free, 0, ASKED, 1, {0}},

typedef struct {
    const variant *one, *other; /* SIDE_CALLS each; a call that a side does not have is NULL there, and is left out */
    void *scene;                /* what the calls are given */
    void (*open)(configuration of);
    void (*close)(void); /* asks too whether the bytes are as they were */
    void (*choose)(void *scene);
} sides;

/* Prints, for each table, the median over the rounds of the one's time for each ns of the other's, then the least and the most of all tables for each call. */
void compare_sides(const sides *both, int rounds, double most[SIDE_CALLS]);

/* How many rounds the program's only argument asks for, 301 where it has none. Ends the program where that is no number of rounds. */
int rounds_wanted(int argc, char **argv);

#endif
