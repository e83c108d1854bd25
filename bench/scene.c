/* Makes the tables that are measured, and picks orders from them. */
#include "scene.h"
#include "balluchaw.h"
#include "peers/common.h"
#include "rust/peers.h"

const char *scratch = ".";

static void fail(const char *what) {
    fprintf(stderr, "%s\n", what);
    exit(1);
}

static void *room_for(size_t bytes) {
    void *p = malloc(bytes);
    if (!p) fail("no memory");
    return p;
}

/* The orders, as a span of all writes them. */
static void read_orders(scene *s) {
    balluchaw_reply all = balluchaw_span(s->table, s->length, 1, P31 - 1, s->output, s->room);
    if (all.number != 0 || all.count != s->of.held) fail("span: not all orders");
    for (u32 i = 0; i < s->of.held; i++) {
        const u8 *row = s->output + s->row * i;
        s->orders[i] = (order){be32(row), be32(row + 4), be32(row + 8)};
        s->prices[i] = s->version == 1 ? 0 : be32(row + 12);
    }
}

/* Another table of the same sizes. h is constant, so all levels are 1, and g is so little below p that the third chunk's place is 0. */
static void make_near_p(scene *s) {
    u8 *t = s->table, seed[40] = {[3] = 1};
    wbe32(seed + 20, P31 - 65536 - 2);
    if (balluchaw_make(t, s->length, 1, t[5], t[6], be16(t + 7), be16(t + 9), seed, sizeof seed) != 0) fail("make: refused");
    for (u32 i = 1; i <= s->of.held; i++)
        if (balluchaw_enter(t, s->length, 1000 * i, i + 1, i, 0) != 0) fail("enter: refused");
}

/* The same orders with other quantities, written where they stand: the nodes of level 1, of which the front has none. */
static void leave_one_reserve(scene *s) {
    u8 *last = NULL;
    for (u8 *b = s->table + 53; b < s->table + s->length; b += 8 + 12 * (size_t)s->of.nodes)
        for (u8 *node = b + 8; b[0] == 1 && node < b + 8 + 12 * b[1]; node += 12) {
            memcpy(node + 8, node + 4, 4);
            if (!last || be32(node) > be32(last)) last = node;
        }
    if (balluchaw_amend(s->table, s->length, be32(last), RESERVE + 1, 1, 0) != 0) fail("amend: refused");
}

static void give_prices(scene *s) {
    size_t length;
    u8 *priced = priced_new(s->table, s->length, &length);
    sample_free(s->table, s->length);
    s->table = priced;
    s->length = length;
}

static void make_table(scene *s) {
    const configuration *of = &s->of;
    const u32 shape = of->shape < NEAR_P ? of->shape : of->shape == NEAR_P ? FLAT : RANDOM;
    s->table = sample_new(of->gamma, of->nodes, of->held, of->held, of->percent, shape, &s->length);
    if (of->shape == NEAR_P) make_near_p(s);
    if (of->shape == ONE_RESERVE) leave_one_reserve(s);
    if (s->version == 2) give_prices(s);
}

void scene_open(scene *s, configuration of, u32 version, int strict) {
    *s = (scene){.of = of, .random = 7, .strict = strict, .key_random = 11, .version = version, .row = BALLUCHAW_ROW(version)};
    make_table(s);
    s->first_bytes = room_for(s->length);
    memcpy(s->first_bytes, s->table, s->length);
    s->blocks = be16(s->table + 9);
    for (u32 i = 0; i < s->blocks; i++) s->full += s->table[53 + i * (8 + s->row * of.nodes)] != 0;
    s->room = s->row * of.held;
    s->output = room_for(s->room);
    s->orders = room_for(of.held * sizeof *s->orders);
    s->prices = room_for(of.held * sizeof *s->prices);
    read_orders(s);
    s->held_keys = room_for(ASKED * sizeof *s->held_keys);
    s->free_keys = room_for(ASKED * sizeof *s->free_keys);
    s->held_prices = room_for(ASKED * sizeof *s->held_prices);
    s->free_prices = room_for(ASKED * sizeof *s->free_prices);
    s->path_room = 2 * (size_t)s->blocks;
    s->path = room_for(s->path_room);
    choose_keys(s);
    ask_held(s);
}

void scene_close(scene *s) {
    sample_free(s->table, s->length);
    free(s->first_bytes);
    free(s->output);
    free(s->orders);
    free(s->prices);
    free(s->held_keys);
    free(s->free_keys);
    free(s->held_prices);
    free(s->free_prices);
    free(s->path);
}

void pick(scene *s) {
    u32 i = rng(&s->random) % s->of.held;
    s->picked = s->orders[i];
    s->price = s->prices[i];
}

static int has_reserve(const order *o) { return o->displayed > 0 && o->total - o->displayed >= RESERVE; }

/* From this place among the orders on. */
static void aim(scene *s, u32 i) {
    s->picked = s->orders[i];
    while (i < s->of.held && !has_reserve(&s->orders[i])) i++;
    s->sought = i < s->of.held ? s->orders[i] : (order){0, 0, 0};
    s->sought_price = i < s->of.held ? s->prices[i] : 0;
}

void aim_any(void *p) {
    scene *s = p;
    aim(s, s->of.shape == ONE_RESERVE ? 0 : rng(&s->random) % s->of.held);
}

void aim_far(void *p) {
    scene *s = p;
    aim(s, s->of.held - 1 - rng(&s->random) % (s->of.held / 10));
    if (s->sought.key) s->picked = s->sought;
}

void aim_short(void *p) {
    scene *s = p;
    const order *first = s->orders + rng(&s->random) % (s->of.held / 10);
    s->picked = *first;
    s->hi = first[7].key;
    s->sought = (order){0, 0, 0};
    s->sought_price = 0;
}

static int is_held(const scene *s, u32 key) { return bsearch(&key, s->orders, s->of.held, sizeof *s->orders, cmp_u32) != NULL; }

void choose_keys(void *p) {
    scene *s = p;
    for (u32 i = 0; i < ASKED; i++) {
        u32 key;
        do key = 1 + (u32)(rng(&s->key_random) % (P31 - 1));
        while (is_held(s, key));
        s->free_keys[i] = (order){key, 0, 0};
        s->free_prices[i] = 0;
        u32 k = rng(&s->key_random) % s->of.held;
        s->held_keys[i] = s->orders[k];
        s->held_prices[i] = s->prices[k];
    }
}

void ask_held(void *p) {
    scene *s = p;
    s->asked = s->held_keys;
    s->asked_price = s->held_prices;
}

void ask_free(void *p) {
    scene *s = p;
    s->asked = s->free_keys;
    s->asked_price = s->free_prices;
}

void same_bytes(const scene *s) {
    if (memcmp(s->table, s->first_bytes, s->length) != 0) fail("the orders are as before, and the bytes are not");
}
