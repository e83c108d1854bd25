/* The calls of two sides in turns, and the table of their ratios. */
#include "sides.h"
#include "rust/peers.h"

#include <stdio.h>
#include <stdlib.h>

static const configuration configurations[] = {
    {"load 0.80", 16, 16, 1000, 80, RANDOM, 0, 0},    {"load 0.80", 16, 16, 10000, 80, RANDOM, 0, 0},    {"load 0.80", 16, 16, 60000, 80, RANDOM, 0, 0},
    {"load 0.65", 16, 16, 1000, 65, RANDOM, 0, 0},    {"load 0.65", 16, 16, 10000, 65, RANDOM, 0, 0},    {"load 0.65", 16, 16, 60000, 65, RANDOM, 0, 0},
    {"full", 16, 16, 1000, 100, RANDOM, 0, 0},        {"full", 16, 16, 10000, 100, RANDOM, 0, 0},        {"full", 16, 16, 60000, 100, RANDOM, 0, 0},
    {"large blocks", 64, 32, 1000, 80, RANDOM, 0, 0}, {"large blocks", 64, 32, 10000, 80, RANDOM, 0, 0}, {"large blocks", 64, 32, 60000, 80, RANDOM, 0, 0},
    {"small blocks", 2, 2, 1000, 80, RANDOM, 0, 0},   {"small blocks", 2, 2, 10000, 80, RANDOM, 0, 0},   {"small blocks", 2, 2, 30000, 80, RANDOM, 0, 0},
    {"one partition", 16, 16, 60000, 80, FLAT, 0, 0}, {"one reserve", 16, 16, 10000, 80, ONE_RESERVE, 0, 0}, {"one reserve", 2, 2, 10000, 80, ONE_RESERVE, 0, 0},
};

enum { TABLES = sizeof configurations / sizeof *configurations };

static int on_both_sides(const sides *both, int call) { return both->one[call].call && both->other[call].call; }

/* The two sides of a call, in turns of their own: so many calls in a batch where nothing surrounds them, else so many batches. Descents have their batches. */
static double against(const sides *both, int call, uint32_t held, int rounds) {
    variant pair[2] = {both->one[call], both->other[call]};
    int asks = pair->batch == ASKED;
    for (int i = 0; i < 2 && !asks; i++) *(pair[i].before ? &pair[i].turns : &pair[i].batch) = 1 + 20000 / (int)held;
    return ratio(pair, pair + 1, take_turns(pair, 2, both->scene, asks ? both->choose : NULL, 0, rounds));
}

/* Every table is laid anew so many times, in other memory: where a table is larger than the caches, its pages' places make some hundredths. */
enum { LAID = 5 };

/* The calls on one table: the median over the times that it was laid, each of them with its part of the rounds. */
static void on_table(const sides *both, const configuration *of, int rounds, double figures[SIDE_CALLS]) {
    int times = rounds < LAID ? rounds : LAID;
    double laid[SIDE_CALLS][LAID];
    for (int k = 0; k < times; k++) {
        both->open(*of);
        for (int i = 0; i < SIDE_CALLS; i++)
            if (on_both_sides(both, i)) laid[i][k] = against(both, i, of->held, 1 + (i ? rounds / 6 : rounds) / times);
        both->close();
    }
    for (int i = 0; i < SIDE_CALLS; i++) figures[i] = on_both_sides(both, i) ? median(laid[i], times) : 0;
}

static void print_head(const sides *both, int rounds) {
    const char *one = both->one->who, *other = both->other->who;
    for (int i = 0; i < SIDE_CALLS; i++)
        if (!on_both_sides(both, i)) printf("%s has no call for \"%s\", which is left out\n", both->one[i].call ? other : one, both->one[i].operation);
    printf("%s / %s, median of %d rounds, on tables laid anew %d times\n%-30s", one, other, rounds, rounds < LAID ? rounds : LAID, "");
    for (int i = 0; i < SIDE_CALLS; i++)
        if (on_both_sides(both, i)) printf("%12s", both->one[i].operation);
    printf("\n");
}

static void print_figures(const sides *both, const char *name, const double *figures) {
    printf("%-30s", name);
    for (int i = 0; i < SIDE_CALLS; i++)
        if (on_both_sides(both, i)) printf("%12.3f", figures[i]);
    printf("\n");
}

void compare_sides(const sides *both, int rounds, double most[SIDE_CALLS]) {
    double figures[SIDE_CALLS], fewest[SIDE_CALLS];
    print_head(both, rounds);
    for (int t = 0; t < TABLES; t++) {
        const configuration *of = &configurations[t];
        char name[60];
        snprintf(name, sizeof name, "%-14s γ %2u B %2u %6u", of->title, of->gamma, of->nodes, of->held);
        on_table(both, of, rounds, figures);
        for (int i = 0; i < SIDE_CALLS; i++) {
            fewest[i] = t && fewest[i] < figures[i] ? fewest[i] : figures[i];
            most[i] = t && most[i] > figures[i] ? most[i] : figures[i];
        }
        print_figures(both, name, figures);
        fflush(stdout);
    }
    print_figures(both, "least", fewest);
    print_figures(both, "most", most);
}

int rounds_wanted(int argc, char **argv) {
    int rounds = argc > 1 ? atoi(argv[1]) : 301;
    if (argc <= 2 && rounds >= 1 && rounds <= MOST_ROUNDS) return rounds;
    fprintf(stderr, "%s [ROUNDS], at most %d\n", argv[0], MOST_ROUNDS);
    exit(2);
}
