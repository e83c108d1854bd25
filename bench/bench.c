/* Times the archive's calls beside other programs that do the same, in one process, the variants taking turns, by thread CPU time.
 *
 *     bench SCRATCH RESULTS      writes RESULTS/results.txt and RESULTS/results.csv; SCRATCH has the files of the databases, best in memory
 *     bench SCRATCH              one small configuration, few rounds, more questions about the answers; writes nothing
 *
 * Checks are in ns for each order held, descents in ns, other calls in µs; medians of the rounds and the best. A change by the archive leaves canonical bytes
 * and checks the table first. The others' changes are followed by what makes their bytes canonical, unless they are said to be alone; where they check first,
 * it is said. */
#include "balluchaw.h"
#include "report.h"
#include "rust/peers.h"
#include "variants.h"

#include <stdlib.h>
#include <string.h>

enum { SMOKE_ROUNDS = 3 };

/* CPU time for the checks of a configuration, for its calls, for its calls together with the others', and for its descents. */
enum { CHECK_SECONDS = 1, CALL_SECONDS = 2, ALL_SECONDS = 5, DESCENT_SECONDS = 2 };

static const configuration configurations[] = {
    {"load 0.80", 16, 16, 100, 80, RANDOM, 1, 1},    {"load 0.80", 16, 16, 300, 80, RANDOM, 1, 1},   {"load 0.80", 16, 16, 1000, 80, RANDOM, 0, 1},
    {"load 0.80", 16, 16, 3000, 80, RANDOM, 1, 1},   {"load 0.80", 16, 16, 10000, 80, RANDOM, 0, 1}, {"load 0.80", 16, 16, 30000, 80, RANDOM, 1, 1},
    {"load 0.80", 16, 16, 60000, 80, RANDOM, 0, 1},  {"load 0.65", 16, 16, 1000, 65, RANDOM, 0, 0},  {"load 0.65", 16, 16, 10000, 65, RANDOM, 0, 0},
    {"load 0.65", 16, 16, 60000, 65, RANDOM, 0, 0},  {"small blocks", 2, 2, 1000, 80, RANDOM, 0, 0}, {"small blocks", 2, 2, 10000, 80, RANDOM, 0, 0},
    {"small blocks", 2, 2, 30000, 80, RANDOM, 0, 0}, {"large blocks", 64, 32, 1000, 80, RANDOM, 0, 0}, {"large blocks", 64, 32, 10000, 80, RANDOM, 0, 0},
    {"large blocks", 64, 32, 60000, 80, RANDOM, 0, 0}, {"full", 16, 16, 1000, 100, RANDOM, 0, 0},    {"full", 16, 16, 10000, 100, RANDOM, 0, 0},
    {"full", 16, 16, 60000, 100, RANDOM, 0, 0},      {"one home", 16, 16, 10000, 80, ONE_HOME, 0, 0}, {"one partition", 16, 16, 60000, 80, FLAT, 0, 0},
};

/* Where nothing is timed, and the two descents are only compared: paths of one block a level, of hundreds, round the table's end, of places past p. */
static const configuration compared[] = {
    {"one order", 16, 16, 1, 80, RANDOM, 0, 0},          {"small blocks", 2, 2, 3000, 80, RANDOM, 0, 0}, {"large blocks", 64, 32, 3000, 80, RANDOM, 0, 0},
    {"load 0.80", 16, 16, 10000, 80, RANDOM, 0, 0},      {"full", 16, 16, 3000, 100, RANDOM, 0, 0},      {"one home", 16, 16, 1000, 80, ONE_HOME, 0, 0},
    {"one partition", 16, 16, 3000, 80, FLAT, 0, 0},     {"all in all lists", 2, 5, 300, 80, TALL, 0, 0}, {"past p", 2, 2, 60, 80, NEAR_P, 0, 0},
};

/* Calls between two looks at the clock and batches in a round are set by `prepare`: 0 is one call, FEW and MANY follow the number of orders. */
enum { FEW = -1, MANY = -2 };

static const variant checks[] = {
    {"check", "balluchaw", archive_check, 0, 0, MANY, 1, {0}},
    {"check", "check_plain", check_in_plain_c, 0, 0, MANY, 1, {0}},
    {"check", "check_tuned", check_in_tuned_c, 0, 0, MANY, 1, {0}},
    {"check", "check_fast", check_in_fast_c, 0, 0, MANY, 1, {0}},
    {"check", "reference", plain_check, 0, 0, 1, 1, {0}},
};

static const variant other_checks[] = {
    {"check", "SQLite integrity_check", sqlite_check, 0, 0, 1, 1, {0}},
    {"check", "SQLite WITHOUT ROWID integrity_check", clustered_check, 0, 0, 1, 1, {0}},
};

/* The check stands here again: it takes turns with the calls that begin with it. */
static const variant calls[] = {
    {"check", "balluchaw", archive_check, archive_pick, 0, 1, FEW, {0}},
    {"lookup", "balluchaw", archive_lookup, archive_pick, 0, 1, FEW, {0}},
    {"seek", "balluchaw", archive_seek, aim_any, 0, 1, FEW, {0}},
    {"span of all", "balluchaw", archive_span, 0, 0, 1, FEW, {0}},
    {"cancel", "balluchaw", archive_cancel, archive_pick, archive_back, 1, FEW, {0}},
    {"enter", "balluchaw", archive_enter, archive_away, archive_kept, 1, FEW, {0}},
    {"amend", "balluchaw", archive_amend, archive_pick, archive_back, 1, FEW, {0}},
    {"lookup", "reference", plain_lookup, archive_pick, 0, 1, 1, {0}},
    {"span of all", "reference", plain_span, 0, 0, 1, 1, {0}},
    {"cancel", "reference", plain_cancel, archive_pick, archive_back, 1, 1, {0}},
    {"enter", "reference", plain_enter, archive_away, archive_kept, 1, 1, {0}},
};

static const variant other_calls[] = {
    {"lookup", "BTreeMap", map_lookup, 0, 0, 1000, 1, {0}},
    {"lookup", "SQLite", sqlite_lookup, 0, 0, 1000, 1, {0}},
    {"lookup", "LMDB", lmdb_lookup, 0, 0, 1000, 1, {0}},
    {"span of all", "BTreeMap", map_span, 0, 0, 1, FEW, {0}},
    {"span of all", "SQLite", sqlite_span, 0, 0, 1, 1, {0}},
    {"span of all", "LMDB", lmdb_span, 0, 0, 1, FEW, {0}},
    {"cancel", "BTreeMap + all its bytes", map_cancel, archive_pick, map_back, 1, FEW, {0}},
    {"cancel", "SQLite + VACUUM INTO", sqlite_cancel, sqlite_pick, sqlite_back, 1, 1, {0}},
    {"cancel", "SQLite WITHOUT ROWID + VACUUM INTO", clustered_cancel, sqlite_pick, sqlite_back, 1, 1, {0}},
    {"cancel", "SQLite integrity_check + VACUUM INTO", sqlite_cancel_checked, sqlite_pick, sqlite_back, 1, 1, {0}},
    {"cancel", "SQLite WITHOUT ROWID integrity_check + VACUUM INTO", clustered_cancel_checked, sqlite_pick, sqlite_back, 1, 1, {0}},
    {"cancel", "LMDB + sorted copy", lmdb_cancel, lmdb_pick, lmdb_back, 1, 1, {0}},
    {"enter", "BTreeMap + all its bytes", map_enter, map_away, 0, 1, FEW, {0}},
    {"enter", "SQLite + VACUUM INTO", sqlite_enter, sqlite_away, sqlite_back, 1, 1, {0}},
    {"enter", "SQLite WITHOUT ROWID + VACUUM INTO", clustered_enter, sqlite_away, sqlite_back, 1, 1, {0}},
    {"enter", "SQLite integrity_check + VACUUM INTO", sqlite_enter_checked, sqlite_away, sqlite_back, 1, 1, {0}},
    {"enter", "SQLite WITHOUT ROWID integrity_check + VACUUM INTO", clustered_enter_checked, sqlite_away, sqlite_back, 1, 1, {0}},
    {"enter", "LMDB + sorted copy", lmdb_enter, lmdb_away, 0, 1, 1, {0}},
    {"enter", "SQLite alone", sqlite_enter_alone, sqlite_away, sqlite_back, 1, FEW, {0}},
    {"enter", "LMDB alone", lmdb_enter_alone, lmdb_away, 0, 1, FEW, {0}},
};

/* The same orders in a table of version 2, with prices; for its descents alone. */
static scene second;

static int second_descent(void *p) { return (void)p, archive_descent(&second); }
static void second_held(void *p) { (void)p, ask_held(&second); }
static void second_free(void *p) { (void)p, ask_free(&second); }

static void choose_for_both(void *p) {
    second.key_random = ((scene *)p)->key_random;
    choose_keys(p);
    choose_keys(&second);
}

/* Each round has its own keys, the same for all. */
static const variant descents[] = {
    {"descent, key held", "balluchaw", archive_descent, ask_held, 0, ASKED, 1, {0}},
    {"descent, key held", "balluchaw version 2", second_descent, second_held, 0, ASKED, 1, {0}},
    {"descent, key held", "descent_fast", descent_in_fast_c, ask_held, 0, ASKED, 1, {0}},
    {"descent, key not held", "balluchaw", archive_descent, ask_free, 0, ASKED, 1, {0}},
    {"descent, key not held", "balluchaw version 2", second_descent, second_free, 0, ASKED, 1, {0}},
    {"descent, key not held", "descent_fast", descent_in_fast_c, ask_free, 0, ASKED, 1, {0}},
};

static const variant other_descents[] = {
    {"descent, key held", "BTreeMap", map_descent, ask_held, 0, ASKED, 1, {0}},
    {"descent, key held", "SQLite", sqlite_descent, ask_held, 0, ASKED, 1, {0}},
    {"descent, key held", "LMDB get", lmdb_get, lmdb_asks_held, lmdb_asked, ASKED, 1, {0}},
    {"descent, key held", "LMDB renew + get", lmdb_renewed_get, lmdb_asks_held, lmdb_asked, ASKED, 1, {0}},
    {"descent, key not held", "BTreeMap", map_descent, ask_free, 0, ASKED, 1, {0}},
    {"descent, key not held", "SQLite", sqlite_descent, ask_free, 0, ASKED, 1, {0}},
    {"descent, key not held", "LMDB get", lmdb_get, lmdb_asks_free, lmdb_asked, ASKED, 1, {0}},
    {"descent, key not held", "LMDB renew + get", lmdb_renewed_get, lmdb_asks_free, lmdb_asked, ASKED, 1, {0}},
};

static int often(int wanted, uint32_t held) {
    if (wanted == FEW) return 1 + 10000 / (int)held;
    if (wanted == MANY) return 1 + 60000 / (int)held;
    return wanted;
}

static int add(variant *to, int count, const variant *from, size_t bytes, uint32_t held) {
    for (size_t i = 0; i < bytes / sizeof *from; i++, count++) {
        if (count == MOST_VARIANTS) exit(2);
        to[count] = from[i];
        to[count].batch = often(from[i].batch, held);
        to[count].turns = often(from[i].turns, held);
    }
    return count;
}

static void measure_checks(scene *s, int rounds) {
    variant variants[MOST_VARIANTS];
    int count = add(variants, 0, checks, sizeof checks, s->of.held);
    if (s->of.others) count = add(variants, count, other_checks, sizeof other_checks, s->of.held);
    report_keep(variants, count, take_turns(variants, count, s, NULL, CHECK_SECONDS, rounds), EACH_ORDER);
}

/* What each call takes beyond the check: the two of them alone, in turns, in many more rounds; so nothing else comes between and fills the cache. */
static void measure_beyond(const variant *check, scene *s, int rounds) {
    for (const variant *v = check + 1; strcmp(v->who, check->who) == 0; v++) {
        variant pair[2] = {*check, *v};
        if (strcmp(v->operation, "span of all") == 0) continue;
        report_beyond(pair, take_turns(pair, 2, s, NULL, 0, rounds));
    }
}

static void measure_calls(scene *s, int rounds) {
    variant variants[MOST_VARIANTS];
    int count = add(variants, 0, calls, sizeof calls, s->of.held);
    if (s->of.others) count = add(variants, count, other_calls, sizeof other_calls, s->of.held);
    report_keep(variants, count, take_turns(variants, count, s, NULL, s->of.others ? ALL_SECONDS : CALL_SECONDS, rounds), BEYOND_CHECK);
    measure_beyond(variants, s, rounds ? rounds : MOST_ROUNDS);
    same_bytes(s);
}

static void measure_descents(scene *s, int rounds) {
    variant variants[MOST_VARIANTS];
    int count = add(variants, 0, descents, sizeof descents, s->of.held);
    if (s->of.others) count = add(variants, count, other_descents, sizeof other_descents, s->of.held);
    compare_descents(s);
    scene_open(&second, s->of, 2, s->strict);
    report_keep(variants, count, take_turns(variants, count, s, choose_for_both, DESCENT_SECONDS, rounds), EACH_CALL);
    same_bytes(&second);
    scene_close(&second);
    report_path("descent, key held", mean_path(s, ask_held));
    report_path("descent, key not held", mean_path(s, ask_free));
    same_bytes(s);
}

static void measure(configuration of, int strict) {
    scene s;
    scene_open(&s, of, 1, strict);
    if (of.others) {
        map_open(&s);
        sqlite_open(&s);
        lmdb_open(&s);
    }
    report_begin(&s);
    measure_checks(&s, strict ? SMOKE_ROUNDS : 0);
    if (!of.checks_only) {
        measure_calls(&s, strict ? SMOKE_ROUNDS : 0);
        measure_descents(&s, strict ? SMOKE_ROUNDS : 0);
    }
    report_last(stdout);
    fflush(stdout);
    if (of.others) {
        map_close();
        sqlite_close_all();
        lmdb_close();
    }
    scene_close(&s);
}

static void compare(configuration of) {
    scene s;
    scene_open(&s, of, 1, 1);
    compare_descents(&s);
    same_bytes(&s);
    scene_close(&s);
}

static int smoke(void) {
    const size_t tables = sizeof compared / sizeof *compared;
    measure((configuration){"load 0.80", 16, 16, 1000, 80, RANDOM, 0, 1}, 1);
    measure((configuration){"full", 2, 2, 300, 100, RANDOM, 0, 0}, 1);
    for (size_t i = 0; i < tables; i++) compare(compared[i]);
    printf("\nall answers were right, descents and their paths as in C on %zu tables, and the bytes as before after each change\n", 2 + tables);
    return 0;
}

static FILE *result(const char *directory, const char *name) {
    char path[600];
    snprintf(path, sizeof path, "%s/%s", directory, name);
    FILE *to = fopen(path, "w");
    if (!to) {
        perror(path);
        exit(2);
    }
    return to;
}

static void write_results(const char *directory) {
    FILE *text = result(directory, "results.txt"), *csv = result(directory, "results.csv");
    fprintf(text, "One process, variants taking turns, CPU time of the thread; medians of the rounds.\n");
    fprintf(text, "The checks and the descent in C: %s. SQLite %s in memory, secure_delete on. %s.\n\n", PEERS_BY, sqlite_name(), lmdb_name());
    report_summary(text);
    report_all(text);
    report_csv(csv);
    if (fclose(text) != 0 || fclose(csv) != 0) exit(2);
}

int main(int argc, char **argv) {
    if (argc < 2 || argc > 3) return fprintf(stderr, "bench SCRATCH [RESULTS]\n"), 2;
    scratch = argv[1];
    if (argc == 2) return smoke();
    for (size_t i = 0; i < sizeof configurations / sizeof *configurations; i++) measure(configurations[i], 0);
    printf("\n");
    report_summary(stdout);
    write_results(argv[2]);
    return 0;
}
