/* The archive's descent beside the one in C, untimed, on tables of version 1, which are all that the one in C knows: are they the same in every part of the
 * answer and every byte of the output? How long are the paths? */
#include "balluchaw.h"
#include "peers/common.h"
#include "peers/descent.h"
#include "variants.h"

enum { FILL = 0xA5, BATCHES_FOR_MEAN = 10, HEADER = 53 };

static void differ(const char *what, u32 key) {
    fprintf(stderr, "descent to %u: %s\n", key, what);
    exit(1);
}

static int same_reply(balluchaw_reply r, descended c) {
    return r.number == c.number && r.key == c.key && r.total == c.total && r.displayed == c.displayed && r.price == 0 && r.count == c.count;
}

/* Both with so much room of two outputs of one size. What is not written has to keep its values. Gives the number of blocks. */
static u32 ask_both(const scene *s, const order *o, u8 *other, size_t room, u32 number) {
    memset(s->path, FILL, s->path_room);
    memset(other, FILL, s->path_room);
    balluchaw_reply r = balluchaw_descent(s->table, s->length, o->key, s->path, room);
    if (!same_reply(r, descent_fast(s->table, s->length, o->key, other, room))) differ("the answers differ", o->key);
    if (r.number != number) differ("the number is another", o->key);
    if (number == 0 && (r.key != o->key || r.total != o->total || r.displayed != o->displayed)) differ("the order is another", o->key);
    if (memcmp(s->path, other, s->path_room) != 0) differ("the paths differ", o->key);
    for (size_t i = 2 * (size_t)r.count; i < s->path_room; i++)
        if (s->path[i] != FILL) differ("a byte behind the path is written", o->key);
    return r.count;
}

static void compare_all(const scene *s, const order *asked, u8 *other) {
    for (const order *o = asked; o < asked + ASKED; o++) {
        u32 number = o->total ? 0 : 9, count = ask_both(s, o, other, s->path_room, number);
        if (count == 0) differ("no path", o->key);
        if (ask_both(s, o, other, 2 * (size_t)count, number) != count) differ("the path is another one", o->key);
        if (ask_both(s, o, other, 2 * (size_t)count - 1, 11) != 0) differ("a count with 11", o->key);
    }
}

/* Do both give 4, or both not? What else they answer means nothing where the bytes are no image. */
static void same_four(const scene *s, size_t length, u8 *other) {
    u32 key = s->orders->key;
    u32 number = balluchaw_descent(s->table, length, key, s->path, s->path_room).number;
    if ((number == 4) != (descent_fast(s->table, length, key, other, s->path_room).number == 4)) differ("one gives 4", key);
}

/* Each byte of the header with every value, each seed number at p and just below it, no room for orders, shorter tables, and keys that are none. */
static void compare_refusals(scene *s, u8 *other) {
    static const u32 no_keys[] = {0, P31, UINT32_MAX};
    u8 header[HEADER];
    memcpy(header, s->table, HEADER);
    for (int i = 0; i < HEADER; i++) {
        for (int value = 0; value < 256; value++) {
            s->table[i] = (u8)value;
            same_four(s, s->length, other);
        }
        s->table[i] = header[i];
        same_four(s, (size_t)i, other);
    }
    for (int i = 0; i < 20; i++) {
        wbe32(s->table + 13 + i / 2 * 4, P31 - (u32)i % 2);
        same_four(s, s->length, other);
        memcpy(s->table, header, HEADER);
    }
    memset(s->table + 7, 0, 2);
    memset(s->table + 11, 0, 2);
    same_four(s, s->length, other);
    memcpy(s->table, header, HEADER);
    same_four(s, s->length - 1, other);
    for (int i = 0; i < 3; i++) ask_both(s, &(order){no_keys[i], 0, 0}, other, s->path_room, 5);
}

void compare_descents(scene *s) {
    u8 *other = malloc(s->path_room);
    if (!other) exit(2);
    choose_keys(s);
    compare_all(s, s->held_keys, other);
    compare_all(s, s->free_keys, other);
    compare_refusals(s, other);
    free(other);
}

double mean_path(scene *s, void (*ask)(void *p)) {
    u64 blocks = 0;
    for (int i = 0; i < BATCHES_FOR_MEAN; i++) {
        choose_keys(s);
        ask(s);
        for (int k = 0; k < ASKED; k++) blocks += balluchaw_descent(s->table, s->length, s->asked++->key, s->path, s->path_room).count;
    }
    return (double)blocks / BATCHES_FOR_MEAN / ASKED;
}
