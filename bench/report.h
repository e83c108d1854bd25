/* Keeps what was measured, and prints it: as text and as CSV. */
#ifndef REPORT_H
#define REPORT_H

#include "scene.h"
#include "timing.h"

#include <stdio.h>

/* The rows that follow are of this scene. */
void report_begin(const scene *s);

/* What a figure is of: ns for each order held, µs of a call, ns of a call. In the second case the first variant of all is the check, and of the archive's other
 * calls it is kept what they take beyond it. */
enum { EACH_ORDER, BEYOND_CHECK, EACH_CALL };

/* Keeps the medians of variants that took turns on the scene. The first variant of an operation is the archive's. */
void report_keep(const variant *variants, int count, int rounds, int figure);

/* What a call takes beyond the check by a finer measure: the check and the call, which took turns alone. */
void report_beyond(const variant *pair, int rounds);

/* The mean number of blocks on the paths of an operation. */
void report_path(const char *operation, double blocks);

/* The rows of the last scene; of all scenes. */
void report_last(FILE *to);
void report_all(FILE *to);

/* A line for each scene, how many times as fast as the others the archive is, and its descents beside the others'. */
void report_summary(FILE *to);

void report_csv(FILE *to);

#endif
