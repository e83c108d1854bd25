/* The archive's nine calls but make, and the checks and the descent in C: what is timed of them, and what their answers must be. */
#include "balluchaw.h"
#include "peers/check.h"
#include "peers/descent.h"
#include "variants.h"

/* An archive from before there were prices has calls without one. With this file copied into its folder, make bench-turns times them by the same code. */
#ifdef BALLUCHAW_ROW
#define PRICED(price) , price
static u32 price_in(balluchaw_reply r) { return r.price; }
#else
#define PRICED(price)
static u32 price_in(balluchaw_reply r) { return (void)r, 0; }
#endif

int archive_check(void *p) {
    const scene *s = p;
    return balluchaw_check(s->table, s->length) != 0;
}

int check_in_plain_c(void *p) {
    const scene *s = p;
    return check_plain(s->table, s->length) != 0;
}

int check_in_tuned_c(void *p) {
    const scene *s = p;
    return check_tuned(s->table, s->length) != 0;
}

int check_in_fast_c(void *p) {
    const scene *s = p;
    return check_fast(s->table, s->length) != 0;
}

int archive_lookup(void *p) {
    const scene *s = p;
    balluchaw_reply r = balluchaw_lookup(s->table, s->length, s->picked.key);
    return r.number != 0 || r.total != s->picked.total || r.displayed != s->picked.displayed || price_in(r) != s->price;
}

/* The next key that is asked for. One that is not held has no quantities, and an order's total is at least 1. */
int archive_descent(void *p) {
    scene *s = p;
    const order *o = s->asked++;
    balluchaw_reply r = balluchaw_descent(s->table, s->length, o->key, s->path, s->path_room);
    return r.number != (o->total ? 0 : 9) || r.total != o->total || r.displayed != o->displayed || price_in(r) != *s->asked_price++;
}

int descent_in_fast_c(void *p) {
    scene *s = p;
    const order *o = s->asked++;
    descended r = descent_fast(s->table, s->length, o->key, s->path, s->path_room);
    return r.number != (o->total ? 0 : 9) || r.total != o->total || r.displayed != o->displayed;
}

int archive_span(void *p) {
    const scene *s = p;
    balluchaw_reply r = balluchaw_span(s->table, s->length, 1, P31 - 1, s->output, s->room);
    return r.number != 0 || r.count != s->of.held || price_in(r) != 0;
}

static int is_another(balluchaw_reply r, const scene *s) {
    const order *o = &s->sought;
    int other_order = r.key != o->key || r.total != o->total || r.displayed != o->displayed || price_in(r) != s->sought_price;
    return r.number != (o->key ? 0 : 12) || other_order || r.count != 0;
}

/* From the picked order on, the first with a large reserve; near the end there may be none. */
int archive_seek(void *p) {
    const scene *s = p;
    return is_another(balluchaw_seek(s->table, s->length, s->picked.key, P31 - 1, RESERVE), s);
}

/* From the picked order to one near it, more than any order has. */
int archive_seek_short(void *p) {
    const scene *s = p;
    return is_another(balluchaw_seek(s->table, s->length, s->picked.key, s->hi, UINT32_MAX), s);
}

/* An order that archive_away took out. */
int archive_enter(void *p) {
    const scene *s = p;
    return balluchaw_enter(s->table, s->length, s->picked.key, s->picked.total, s->picked.displayed PRICED(s->price)) != 0;
}

/* A held order gets other quantities, and where there are prices another one too. */
int archive_amend(void *p) {
    const scene *s = p;
    u32 total = s->picked.total == 1 ? 2 : 1;
    return balluchaw_amend(s->table, s->length, s->picked.key, total, 1 PRICED(s->price == 0 ? 0 : s->price == 1 ? 2 : 1)) != 0;
}

int archive_cancel(void *p) {
    const scene *s = p;
    return balluchaw_cancel(s->table, s->length, s->picked.key) != 0;
}

/* A strict scene is asked whether the table is still one. The check in C knows version 1 alone. */
static void still_a_table(const scene *s) {
    if (s->strict && (balluchaw_check(s->table, s->length) != 0 || (s->version == 1 && check_fast(s->table, s->length) != 0))) {
        fprintf(stderr, "after a change the bytes are no image\n");
        exit(1);
    }
}

void archive_pick(void *p) { pick(p); }

void archive_away(void *p) {
    scene *s = p;
    pick(s);
    balluchaw_cancel(s->table, s->length, s->picked.key);
    still_a_table(s);
}

/* After a cancel the order is entered, after an amend amended back. Which it was, a descent tells without another check. */
void archive_back(void *p) {
    scene *s = p;
    still_a_table(s);
    int held = balluchaw_descent(s->table, s->length, s->picked.key, s->path, s->path_room).number == 0;
    if (held) balluchaw_amend(s->table, s->length, s->picked.key, s->picked.total, s->picked.displayed PRICED(s->price));
    else balluchaw_enter(s->table, s->length, s->picked.key, s->picked.total, s->picked.displayed PRICED(s->price));
    archive_kept(p);
}

void archive_kept(void *p) {
    const scene *s = p;
    still_a_table(s);
    if (s->strict) same_bytes(s);
}
