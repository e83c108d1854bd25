/* The reference in Rust, which rebuilds the image at each change, and a BTreeMap whose bytes are written out whole at each change: what is timed of them. */
#include "peers/common.h"
#include "rust/peers.h"
#include "variants.h"

static book *map;

int plain_check(void *p) {
    const scene *s = p;
    return reference_check(s->table, s->length) != 0;
}

int plain_lookup(void *p) {
    const scene *s = p;
    return reference_lookup(s->table, s->length, s->picked.key) != s->picked.total;
}

int plain_span(void *p) {
    const scene *s = p;
    return reference_span(s->table, s->length, 1, P31 - 1, s->output, s->room) != s->of.held;
}

int plain_enter(void *p) {
    const scene *s = p;
    return reference_enter(s->table, s->length, s->picked.key, s->picked.total, s->picked.displayed) != 0;
}

int plain_cancel(void *p) {
    const scene *s = p;
    return reference_cancel(s->table, s->length, s->picked.key) != 0;
}

void map_open(const scene *s) {
    map = book_new();
    for (u32 i = 0; i < s->of.held; i++) book_insert(map, s->orders[i].key, s->orders[i].total, s->orders[i].displayed);
}

void map_close(void) { book_free(map); }

int map_lookup(void *p) {
    scene *s = p;
    pick(s);
    u32 displayed;
    return book_lookup(map, s->picked.key, &displayed) != s->picked.total;
}

/* The next key that is asked for, held or not. */
int map_descent(void *p) {
    scene *s = p;
    const order *o = s->asked++;
    u32 displayed, total = book_lookup(map, o->key, &displayed);
    return total != o->total || displayed != o->displayed;
}

int map_span(void *p) {
    const scene *s = p;
    return book_write(map, s->output, s->room) != s->of.held;
}

int map_enter(void *p) {
    const scene *s = p;
    book_insert(map, s->picked.key, s->picked.total, s->picked.displayed);
    return book_write(map, s->output, s->room) != s->of.held;
}

int map_cancel(void *p) {
    const scene *s = p;
    book_cancel(map, s->picked.key);
    return book_write(map, s->output, s->room) != s->of.held - 1;
}

void map_away(void *p) {
    scene *s = p;
    pick(s);
    book_cancel(map, s->picked.key);
}

void map_back(void *p) {
    const scene *s = p;
    book_insert(map, s->picked.key, s->picked.total, s->picked.displayed);
}
