/* Makes the calls whose instructions are counted. Run it under callgrind with --instr-atstart=no: each call is one dump, named
 * VERSION|CONFIGURATION|ORDERS|CALL. A count does not depend on what else the machine does, so it tells small differences that times do not. count.py adds up. */
#include "balluchaw.h"
#include "peers/common.h"
#include "scene.h"
#include "variants.h"

#include "rust/peers.h"
#include <valgrind/callgrind.h>

enum { KEYS = 5 };

/* One call: what is before and after it is not counted. */
static void count(scene *s, const char *call, int (*run)(void *), void (*before)(void *), void (*after)(void *)) {
    char name[100];
    snprintf(name, sizeof name, "%u|%s|%u|%s", s->version, s->of.title, s->of.held, call);
    if (before) before(s);
    CALLGRIND_START_INSTRUMENTATION;
    CALLGRIND_ZERO_STATS;
    int wrong = run(s);
    CALLGRIND_DUMP_STATS_AT(name);
    CALLGRIND_STOP_INSTRUMENTATION;
    if (after) after(s);
    if (wrong) {
        fprintf(stderr, "%s: the answer is wrong\n", name);
        exit(1);
    }
}

/* The descents in C know version 1 alone. */
static void count_in_c(scene *s) {
    count(s, "descent in C", descent_in_fast_c, ask_held, NULL);
    count(s, "the same in C", descent_in_fast_c, ask_free, NULL);
}

static void count_all(configuration of, u32 version) {
    scene s;
    scene_open(&s, of, version, 0);
    count(&s, "check", archive_check, NULL, NULL);
    count(&s, "span of all", archive_span, NULL, NULL);
    for (int i = 0; i < KEYS; i++) {
        choose_keys(&s);
        count(&s, "descent", archive_descent, ask_held, NULL);
        count(&s, "descent, not held", archive_descent, ask_free, NULL);
        if (version == 1) count_in_c(&s);
        count(&s, "lookup", archive_lookup, archive_pick, NULL);
        count(&s, "seek", archive_seek, aim_any, NULL);
        count(&s, "cancel", archive_cancel, archive_pick, archive_back);
        count(&s, "enter", archive_enter, archive_away, NULL);
        count(&s, "amend", archive_amend, archive_pick, archive_back);
    }
    for (int i = 0; i < KEYS; i++) {
        count(&s, "seek far", archive_seek, aim_far, NULL);
        count(&s, "seek short", archive_seek_short, aim_short, NULL);
    }
    same_bytes(&s);
    scene_close(&s);
}

int main(void) {
    static const configuration configurations[] = {
        {"load 0.80", 16, 16, 1000, 80, RANDOM, 0, 0},  {"load 0.80", 16, 16, 10000, 80, RANDOM, 0, 0},  {"load 0.80", 16, 16, 60000, 80, RANDOM, 0, 0},
        {"small blocks", 2, 2, 10000, 80, RANDOM, 0, 0}, {"large blocks", 64, 32, 10000, 80, RANDOM, 0, 0}, {"full", 16, 16, 10000, 100, RANDOM, 0, 0},
        {"one home", 16, 16, 10000, 80, ONE_HOME, 0, 0}, {"one partition", 16, 16, 60000, 80, FLAT, 0, 0},
    };
    for (u32 version = 1; version <= 2; version++)
        for (size_t i = 0; i < sizeof configurations / sizeof *configurations; i++) count_all(configurations[i], version);
    return 0;
}
