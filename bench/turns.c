/* Times each call of this archive beside the same call of the archive before a change, in one process, the two taking turns, by thread CPU time.
 *
 *     turns [ROUNDS]      prints, for each table, the median over the rounds of now's time for each ns of before's
 *
 * Each side is bench/archive.c of its own folder with the header and the archive of that folder, so a call may have another shape before than now: no price, or a
 * put of a free key where now there is enter, and of a held one where there is amend. What the archive before does not have is left out. All tables are of
 * version 1. */
#include "sides.h"

/* Whatever surrounds a call, untimed, is of its own side too: what ran last is warm. */
#define SIDE(side)                                                                                                                                     \
    int side##_check(void *p), side##_lookup(void *p), side##_seek(void *p), side##_span(void *p), side##_cancel(void *p), side##_enter(void *p);      \
    int side##_amend(void *p), side##_descent(void *p) __attribute__((weak)), side##_seek_short(void *p) __attribute__((weak));                        \
    void side##_pick(void *p), side##_away(void *p), side##_back(void *p), side##_kept(void *p);                                                       \
    static const variant side##_calls[SIDE_CALLS] = {SIDE_VARIANTS(#side, side, )}

SIDE(now);
SIDE(before);

static scene table;

static void open_table(configuration of) { scene_open(&table, of, 1, 0); }

static void close_table(void) {
    same_bytes(&table);
    scene_close(&table);
}

int main(int argc, char **argv) {
    const sides both = {now_calls, before_calls, &table, open_table, close_table, choose_keys};
    double most[SIDE_CALLS];
    compare_sides(&both, rounds_wanted(argc, argv), most);
    return 0;
}
