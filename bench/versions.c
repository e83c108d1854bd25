/* Times each call on tables of version 2 beside the same call on tables of version 1, by one archive, in one process, the two taking turns, by thread CPU time.
 *
 *     versions [ROUNDS]      prints, for each table, the median over the rounds of version 2's time for each ns of version 1's
 *
 * The two tables have the same sizes, seed and orders, and each call is made with the same keys on both; in version 2 every order has a price, and chunks stand by
 * that version's order of the labels. */
#include "sides.h"
#include "variants.h"

#include <stdio.h>
#include <string.h>

typedef struct {
    scene version_1, version_2;
} tables;

/* A function of scenes, for each of the two. */
#define CALL(name)                                                                                                                                     \
    static int version_1_##name(void *p) { return archive_##name(&((tables *)p)->version_1); }                                                         \
    static int version_2_##name(void *p) { return archive_##name(&((tables *)p)->version_2); }

#define AROUND(name, function)                                                                                                                         \
    static void version_1_##name(void *p) { function(&((tables *)p)->version_1); }                                                                     \
    static void version_2_##name(void *p) { function(&((tables *)p)->version_2); }

CALL(check)
CALL(lookup)
CALL(seek)
CALL(seek_short)
CALL(span)
CALL(cancel)
CALL(enter)
CALL(amend)
CALL(descent)
AROUND(pick, archive_pick)
AROUND(away, archive_away)
AROUND(back, archive_back)
AROUND(kept, archive_kept)
AROUND(aim_any, aim_any)
AROUND(aim_far, aim_far)
AROUND(aim_short, aim_short)
AROUND(ask_held, ask_held)
AROUND(ask_free, ask_free)

static const variant version_1_calls[SIDE_CALLS] = {SIDE_VARIANTS("version 1", version_1, version_1_)};
static const variant version_2_calls[SIDE_CALLS] = {SIDE_VARIANTS("version 2", version_2, version_2_)};

static tables both;

static void open_tables(configuration of) {
    scene_open(&both.version_1, of, 1, 0);
    scene_open(&both.version_2, of, 2, 0);
}

static void close_tables(void) {
    same_bytes(&both.version_1);
    same_bytes(&both.version_2);
    scene_close(&both.version_1);
    scene_close(&both.version_2);
}

/* The same for both: their random numbers are. */
static void choose_for_both(void *p) {
    choose_keys(&((tables *)p)->version_1);
    choose_keys(&((tables *)p)->version_2);
}

int main(int argc, char **argv) {
    static const char *const asked[] = {"check", "cancel", "enter", "amend", "descent", "not held"};
    const sides versions = {version_2_calls, version_1_calls, &both, open_tables, close_tables, choose_for_both};
    double most[SIDE_CALLS];
    compare_sides(&versions, rounds_wanted(argc, argv), most);
    printf("\nAsked for: at most 1.15 of check, cancel, enter and amend; at most 1.05 of check, and less than 1 of descents, from A.7 on. The most is");
    for (size_t k = 0; k < sizeof asked / sizeof *asked; k++)
        for (int i = 0; i < SIDE_CALLS; i++)
            if (strcmp(version_1_calls[i].operation, asked[k]) == 0) printf("%s %.3f", k ? "," : "", most[i]);
    printf("\n");
    return 0;
}
