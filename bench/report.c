/* The tables of the benchmark. Nothing is measured here. */
#include "report.h"
#include "rust/peers.h"

#include <math.h>
#include <stdlib.h>
#include <string.h>

enum { MOST_ROWS = 1000, MOST_SCENES = 40 };

typedef struct {
    int scene, rounds, is_beyond, beyond_rounds;
    const char *operation, *who, *unit;
    double median, best;  /* in the unit */
    double ours;          /* the archive's time for each of its own, the median of the rounds */
    double beyond, noise; /* µs beyond the check, and the error to expect */
    double path;          /* the mean number of blocks on the archive's path; 0 where there is none */
} row;

static row rows[MOST_ROWS];
static int row_count;
static scene scenes[MOST_SCENES];
static int scene_count;

static const variant *ours(const variant *variants, const variant *v) {
    while (strcmp(variants->operation, v->operation) != 0) variants++;
    return variants;
}

void report_begin(const scene *s) {
    if (scene_count == MOST_SCENES) exit(2);
    scenes[scene_count++] = *s;
}

void report_keep(const variant *variants, int count, int rounds, int figure) {
    static const char *const units[] = {"ns/order", "us", "ns"};
    const double unit = figure == EACH_ORDER ? scenes[scene_count - 1].of.held : figure == BEYOND_CHECK ? 1000 : 1;
    for (int i = figure == BEYOND_CHECK; i < count; i++) {
        const variant *v = variants + i, *first = ours(variants, v);
        double middle = median(v->ns, rounds);
        if (row_count == MOST_ROWS) exit(2);
        rows[row_count++] = (row){.scene = scene_count - 1,
                                  .rounds = rounds,
                                  .is_beyond = figure == BEYOND_CHECK && v == first,
                                  .beyond_rounds = rounds,
                                  .operation = v->operation,
                                  .who = v->who,
                                  .unit = units[figure],
                                  .median = middle / unit,
                                  .best = least(v->ns, rounds) / unit,
                                  .ours = ratio(first, v, rounds),
                                  .beyond = difference(v, variants, rounds) / 1000,
                                  .noise = noise(v, variants, rounds) / 1000};
    }
}

void report_beyond(const variant *pair, int rounds) {
    for (int i = 0; i < row_count; i++) {
        row *r = rows + i;
        if (r->scene != scene_count - 1 || !r->is_beyond || strcmp(r->operation, pair[1].operation) != 0) continue;
        r->beyond = difference(pair + 1, pair, rounds) / 1000;
        r->noise = noise(pair + 1, pair, rounds) / 1000;
        r->beyond_rounds = rounds;
    }
}

void report_path(const char *operation, double blocks) {
    for (row *r = rows; r < rows + row_count; r++)
        if (r->scene == scene_count - 1 && strcmp(r->operation, operation) == 0 && strcmp(r->who, "balluchaw") == 0) r->path = blocks;
}

static double log_nodes(const scene *s) { return log(s->of.held) / log(s->of.nodes); }

static void print_scene(FILE *to, const scene *s) {
    fprintf(to, "\n%s: γ %u, B %u, %u orders, %u chunks in %u blocks, %zu bytes\n", s->of.title, s->of.gamma, s->of.nodes, s->of.held, s->full,
            s->blocks, s->length);
}

static void print_row(FILE *to, const row *r) {
    fprintf(to, "    %-50s %12.2f %12.2f %10.3f", r->who, r->median, r->best, r->ours);
    if (r->is_beyond) fprintf(to, "   %.2f us beyond the check, +- %.2f, %d rounds", r->beyond, r->noise, r->beyond_rounds);
    if (r->path > 0) fprintf(to, "   %.2f blocks on the path, mean; log_B n is %.2f", r->path, log_nodes(&scenes[r->scene]));
    fprintf(to, "\n");
}

/* The first row of an operation has the head and brings all others of it. */
static void print_rows(FILE *to, int scene_number) {
    for (const row *r = rows; r < rows + row_count; r++) {
        if (r->scene != scene_number || strcmp(r->who, "balluchaw") != 0) continue;
        fprintf(to, "  %-52s %12s %12s %10s   %d rounds\n", r->operation, r->unit, "best", "ours/it", r->rounds);
        for (const row *other = r; other < rows + row_count; other++)
            if (other->scene == scene_number && strcmp(other->operation, r->operation) == 0) print_row(to, other);
    }
}

void report_last(FILE *to) {
    print_scene(to, &scenes[scene_count - 1]);
    print_rows(to, scene_count - 1);
}

void report_all(FILE *to) {
    for (int i = 0; i < scene_count; i++) {
        print_scene(to, &scenes[i]);
        print_rows(to, i);
    }
}

static const row *find(int scene_number, const char *operation, const char *who) {
    for (const row *r = rows; r < rows + row_count; r++)
        if (r->scene == scene_number && strcmp(r->operation, operation) == 0 && strcmp(r->who, who) == 0) return r;
    return NULL;
}

/* What is not twice the error to expect is only known to be less than some bound; unless it is more than a whole check: then keys differ, not rounds. */
static void print_beyond(FILE *to, const row *r) {
    char text[32];
    const row *check = find(r->scene, "check", "balluchaw");
    int seen = r->beyond >= 2 * r->noise || r->beyond >= check->median * scenes[r->scene].of.held / 1000;
    snprintf(text, sizeof text, "%s%.1f", seen ? "" : "<", seen ? r->beyond : 2 * r->noise + (r->beyond > 0 ? r->beyond : 0));
    fprintf(to, " %9s", text);
}

static void print_line(FILE *to, int i) {
    static const char *peers[] = {"check_plain", "check_tuned", "check_fast", "reference"};
    static const char *calls[] = {"lookup", "seek", "span of all", "cancel", "enter", "amend"};
    const row *check = find(i, "check", "balluchaw"), *r;
    if (!check) return;
    fprintf(to, "%-16s %3u %3u %6u  %8.2f %7.2f", scenes[i].of.title, scenes[i].of.gamma, scenes[i].of.nodes, scenes[i].of.held, check->median, check->best);
    for (int k = 0; k < 4; k++)
        if ((r = find(i, "check", peers[k]))) fprintf(to, " %6.2f", r->ours);
    for (int k = 0; k < 6; k++)
        if ((r = find(i, calls[k], "balluchaw"))) print_beyond(to, r);
    fprintf(to, "\n");
}

/* How many times as fast the archive is, for each scene in which the others were measured. */
static void print_times(FILE *to, const char *operation, const char *who, const char *asked) {
    fprintf(to, "%-7s %-52s", operation, who);
    for (int i = 0; i < scene_count; i++) {
        const row *r = find(i, operation, who);
        if (r && scenes[i].of.others) fprintf(to, " %7.2f", 1 / r->ours);
        else if (scenes[i].of.others) fprintf(to, " %7s", "");
    }
    fprintf(to, "%s\n", asked);
}

static void print_orders(FILE *to, const char *title) {
    fprintf(to, "\n%-60s", title);
    for (int i = 0; i < scene_count; i++)
        if (scenes[i].of.others) fprintf(to, " %7u", scenes[i].of.held);
    fprintf(to, "   orders\n");
}

static void print_all_times(FILE *to) {
    static const char *asked = "   asked for: 10";
    print_orders(to, "Times as fast as the others");
    print_times(to, "check", "SQLite WITHOUT ROWID integrity_check", asked);
    print_times(to, "check", "SQLite integrity_check", "");
    print_times(to, "check", "reference", "");
    for (int k = 0; k < 2; k++) {
        const char *operation = k ? "cancel" : "enter";
        print_times(to, operation, "SQLite WITHOUT ROWID integrity_check + VACUUM INTO", asked);
        print_times(to, operation, "SQLite integrity_check + VACUUM INTO", "");
        print_times(to, operation, "SQLite WITHOUT ROWID + VACUUM INTO", "");
        print_times(to, operation, "SQLite + VACUUM INTO", "");
        print_times(to, operation, "LMDB + sorted copy", "");
        if (k == 0) print_times(to, operation, "SQLite alone", "");
        if (k == 0) print_times(to, operation, "LMDB alone", "");
        print_times(to, operation, "BTreeMap + all its bytes", "");
        print_times(to, operation, "reference", "");
    }
}

/* A line of the descents' table: a figure of one row for each scene in which the others were measured. */
static void print_descent(FILE *to, const char *operation, const char *who, const char *what, double (*figure)(const row *), const char *asked) {
    fprintf(to, "%-22s %-37s", operation, what);
    for (int i = 0; i < scene_count; i++) {
        const row *r = find(i, operation, who);
        if (r && scenes[i].of.others) fprintf(to, " %7.2f", figure(r));
        else if (scenes[i].of.others) fprintf(to, " %7s", "");
    }
    fprintf(to, "%s\n", asked);
}

static double in_ns(const row *r) { return r->median; }
static double over_it(const row *r) { return r->ours; }
static double over_ours(const row *r) { return 1 / r->ours; }
static double on_the_path(const row *r) { return r->path; }

/* Of version 2, by the medians. */
static double over_get(const row *r) { return r->median / find(r->scene, r->operation, "LMDB get")->median; }
static double paper(const row *r) { return log_nodes(&scenes[r->scene]); }

static void print_descents(FILE *to) {
    static const char *operations[] = {"descent, key held", "descent, key not held"};
    print_orders(to, "Descents: the archive's time, also for each ns of another's");
    for (int k = 0; k < 2; k++) {
        print_descent(to, operations[k], "balluchaw", "ns", in_ns, "");
        print_descent(to, operations[k], "descent_fast", "for each of the descent in C", over_it, "   asked for: at most 1.3");
        print_descent(to, operations[k], "SQLite", "for each of SQLite's SELECT", over_it, "   asked for: less than 1");
        print_descent(to, operations[k], "LMDB get", "for each of LMDB's get", over_it, "");
        print_descent(to, operations[k], "LMDB renew + get", "for each of LMDB's renew and get", over_it, "");
        print_descent(to, operations[k], "BTreeMap", "for each of a BTreeMap", over_it, "");
        print_descent(to, operations[k], "balluchaw version 2", "ns in version 2", in_ns, "");
        print_descent(to, operations[k], "balluchaw version 2", "version 2 for each of version 1", over_ours, "   asked for: less than 1, and 0.8 at 60,000");
        print_descent(to, operations[k], "balluchaw version 2", "version 2 for each of LMDB's get", over_get, "   asked for: at most 1.2 at 60,000");
        print_descent(to, operations[k], "balluchaw", "blocks on the path, mean", on_the_path, "");
        print_descent(to, operations[k], "balluchaw", "log_B n, the paper's", paper, "");
    }
}

void report_summary(FILE *to) {
    fprintf(to, "%33s%-13s%-34s%s\n", "", "check,", "as a multiple of", "beyond the check, us");
    fprintf(to, "%-16s %3s %3s  %6s %9s %7s %6s %6s %6s %6s", "", "γ", "B", "orders", "ns/order", "best", "plain", "tuned", "fast", "refer.");
    fprintf(to, " %9s %9s %9s %9s %9s %9s\n", "lookup", "seek", "span", "cancel", "enter", "amend");
    for (int i = 0; i < scene_count; i++) print_line(to, i);
    print_all_times(to);
    print_descents(to);
}

static void print_csv_row(FILE *to, const row *r) {
    const scene *s = &scenes[r->scene];
    const char *quote = strchr(r->operation, ',') ? "\"" : "";
    fprintf(to, "%s,%u,%u,%u,%u,%u,%zu,%s%s%s,%s,%s,%d,%.4f,%.4f,%.4f,", s->of.title, s->of.gamma, s->of.nodes, s->of.held, s->blocks, s->full, s->length,
            quote, r->operation, quote, r->who, r->unit, r->rounds, r->median, r->best, r->ours);
    if (r->is_beyond) fprintf(to, "%.4f,%.4f,%d,", r->beyond, r->noise, r->beyond_rounds);
    else fprintf(to, ",,,");
    if (r->path > 0) fprintf(to, "%.4f,%.4f\n", r->path, log_nodes(s));
    else fprintf(to, ",\n");
}

void report_csv(FILE *to) {
    fprintf(to, "configuration,gamma,nodes,orders,blocks,chunks,bytes,operation,who,unit,rounds,median,best,ours_over_it,");
    fprintf(to, "us_beyond_check,noise_us,beyond_rounds,path_blocks,log_b_n\n");
    for (int i = 0; i < row_count; i++) print_csv_row(to, rows + i);
}
