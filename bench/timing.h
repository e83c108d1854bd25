/* Variants take turns, round by round, each round in another order, and are timed by the thread's CPU time. */
#ifndef TIMING_H
#define TIMING_H

enum { USUAL_ROUNDS = 41, LEAST_ROUNDS = 5, MOST_ROUNDS = 1001, MOST_VARIANTS = 32 };

/* One variant of an operation. Calls get the scene that take_turns was given. */
typedef struct {
    const char *operation;
    const char *who;
    int (*call)(void *scene);    /* what is timed; it gives 0 when its answer is right */
    void (*before)(void *scene); /* untimed, before each batch; NULL: nothing */
    void (*after)(void *scene);  /* untimed, after each batch; NULL: nothing */
    int batch;                   /* calls between two looks at the clock; 1 where each call needs its before or after */
    int turns;                   /* batches in a round */
    double ns[MOST_ROUNDS];      /* one call's time, the mean of a round */
} variant;

/* Lets the variants take turns for about so many seconds of CPU time, at most the usual rounds; or for exactly so many rounds if that is not 0. Gives their number.
 * `fresh` is called untimed before each round; NULL: nothing. The program ends when an answer is wrong. */
int take_turns(variant *variants, int count, void *scene, void (*fresh)(void *scene), double seconds, int rounds);

double median(const double *values, int count);
double least(const double *values, int count);

/* The median over the rounds of the one's time for each ns of the other's. */
double ratio(const variant *one, const variant *other, int rounds);

/* The median over the rounds of the one's time less the other's, and the error to expect of it, by how much the rounds scatter. */
double difference(const variant *one, const variant *other, int rounds);
double noise(const variant *one, const variant *other, int rounds);

#endif
