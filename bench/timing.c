/* Timing in turns, medians and ratios; nothing here knows what is timed. */
#include "timing.h"

#include <math.h>
#include <stdint.h>
#include <stdio.h>
#include <stdlib.h>
#include <string.h>
#include <time.h>

static double now(void) {
    struct timespec t;
    clock_gettime(CLOCK_THREAD_CPUTIME_ID, &t);
    return (double)t.tv_sec * 1e9 + (double)t.tv_nsec;
}

/* One batch of calls, in ns. */
static double batch(const variant *v, void *scene) {
    int wrong = 0;
    if (v->before) v->before(scene);
    double start = now();
    for (int i = 0; i < v->batch; i++) wrong |= v->call(scene);
    double taken = now() - start;
    if (v->after) v->after(scene);
    if (wrong) {
        fprintf(stderr, "%s, %s: the answer is wrong\n", v->operation, v->who);
        exit(1);
    }
    return taken;
}

/* Puts the numbers 0 .. count - 1 in another order, by chance, the same in every run of the program. */
static void shuffle(int *order, int count) {
    static uint64_t state = 1;
    for (int i = 0; i < count; i++) order[i] = i;
    for (int i = count - 1; i > 0; i--) {
        state = state * 6364136223846793005u + 1442695040888963407u;
        int j = (int)((state >> 33) % (uint64_t)(i + 1)), kept = order[i];
        order[i] = order[j];
        order[j] = kept;
    }
}

/* All variants once, each round in another order, so that none always finds the caches as the same other left them. Gives the CPU time of all of it, what is
 * untimed included. */
static double one_round(variant *variants, int count, void *scene, int round) {
    int order[MOST_VARIANTS];
    shuffle(order, count);
    double start = now();
    for (int i = 0; i < count; i++) {
        variant *v = variants + order[i];
        double sum = 0;
        for (int t = 0; t < v->turns; t++) sum += batch(v, scene);
        v->ns[round] = sum / ((double)v->turns * v->batch);
    }
    return now() - start;
}

int take_turns(variant *variants, int count, void *scene, void (*fresh)(void *scene), double seconds, int rounds) {
    if (fresh) fresh(scene);
    double warm = one_round(variants, count, scene, 0);
    if (rounds == 0) {
        double wanted = seconds * 1e9 / warm;
        rounds = wanted > USUAL_ROUNDS ? USUAL_ROUNDS : wanted < LEAST_ROUNDS ? LEAST_ROUNDS : (int)wanted | 1;
    }
    for (int r = 0; r < rounds; r++) {
        if (fresh) fresh(scene);
        one_round(variants, count, scene, r);
    }
    return rounds;
}

static int compare(const void *a, const void *b) {
    double x = *(const double *)a, y = *(const double *)b;
    return x < y ? -1 : x > y;
}

double median(const double *values, int count) {
    double sorted[MOST_ROUNDS];
    memcpy(sorted, values, (size_t)count * sizeof *values);
    qsort(sorted, (size_t)count, sizeof *sorted, compare);
    return sorted[count / 2];
}

double least(const double *values, int count) {
    double found = values[0];
    for (int i = 1; i < count; i++) found = values[i] < found ? values[i] : found;
    return found;
}

double ratio(const variant *one, const variant *other, int rounds) {
    double each[MOST_ROUNDS];
    for (int r = 0; r < rounds; r++) each[r] = one->ns[r] / other->ns[r];
    return median(each, rounds);
}

double difference(const variant *one, const variant *other, int rounds) {
    double each[MOST_ROUNDS];
    for (int r = 0; r < rounds; r++) each[r] = one->ns[r] - other->ns[r];
    return median(each, rounds);
}

double noise(const variant *one, const variant *other, int rounds) {
    double each[MOST_ROUNDS], middle = difference(one, other, rounds);
    for (int r = 0; r < rounds; r++) each[r] = fabs(one->ns[r] - other->ns[r] - middle);
    /* 1.48 makes a deviation of the median distance, 1.25 a median's error of a mean's. */
    return 1.48 * 1.25 * median(each, rounds) / sqrt(rounds);
}
