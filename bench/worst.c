/* Times the calls on tables whose sender chose seed and keys so that searches are as long as they can be. Each table is of version 1 and written here by
 * docs/format.md, so the archive's own answers show that it is one: check gives 0, and an enter into the table without one order gives the same bytes.
 *
 *     worst          all tables, some two minutes
 *     worst BLOCKS   all shapes with so many blocks
 *
 * Looks are the blocks that the searches of one check pass or end at, counted while the chunks are placed. "Behind" is how many there were if a search went on
 * behind the last one of its level wherever that one passed its home: only smaller labels are there. Times are CPU time of the thread, each of one call. */
#include "balluchaw.h"
#include "peers/common.h"

enum { GAMMA = 2, NODES = 2, BLOCK = 8 + 12 * NODES, MOST = 65535 };

/* A table that is being written. Chunks come by rising labels: each goes into the first block from its home on that is free. */
typedef struct {
    u32 blocks, levels, held;
    u32 seed[10], keys[MOST];
    u8 *bytes;
    size_t length;
    u32 next[MOST]; /* of a free block itself, of another one further on */
    u32 full;
    u32 from, known; /* so many blocks from one on were passed by the last searches of this level */
    u32 last;        /* the block of the last chunk placed */
    u64 looks, looks_behind;
} table;

static void fail(const char *what) {
    fprintf(stderr, "worst: %s\n", what);
    exit(1);
}

static u32 hashed(const u32 c[5], u32 x) {
    u64 sum = 0;
    for (int i = 4; i >= 0; i--) sum = (sum * x + c[i]) % P31;
    return (u32)sum;
}

static u32 level_of(const table *t, u32 x) {
    u32 rest = hashed(t->seed, x), level = 1;
    for (; level < t->levels && rest % GAMMA == 0; level++) rest /= GAMMA;
    return x == 0 ? t->levels : level;
}

static u32 home(const table *t, u32 level, u32 first, u32 number) {
    return (u32)(((u64)hashed(t->seed + 5, first) + 65536u * level + number) % P31 % t->blocks);
}

static u32 way(const table *t, u32 from, u32 to) { return (to + t->blocks - from) % t->blocks; }

/* Where the search for a label ends, whose smaller labels are placed and larger ones are not: at the first free block. Counts the looks: at level 1 the search for
 * a partition's next chunk starts behind the one before. */
static u32 search(table *t, u32 level, u32 first, u32 number, u32 found) {
    u32 start = home(t, level, first, number), end = start;
    u32 begin = level == 1 && number ? (t->last + 1) % t->blocks : start;
    if (t->full == t->blocks) end = (begin + t->blocks - 1) % t->blocks;
    else
        for (; t->next[end] != end; end = t->next[end]) t->next[end] = t->next[t->next[end]];
    t->looks += way(t, begin, end) + 1;
    if (way(t, t->from, start) > t->known) t->from = start, t->known = 0;
    t->looks_behind += way(t, (t->from + t->known) % t->blocks, end) + 1;
    t->known = way(t, t->from, end) + found;
    return end;
}

static u8 *place(table *t, u32 level, u32 first, u32 number) {
    if (t->full == t->blocks) fail("more chunks than blocks");
    u32 i = search(t, level, first, number, 1);
    t->next[i] = (i + 1) % t->blocks;
    t->last = i;
    t->full++;
    u8 *block = t->bytes + 53 + (size_t)i * BLOCK;
    block[0] = (u8)level;
    wbe16(block + 2, number);
    wbe32(block + 4, first);
    return block;
}

/* The chunks of one level, by rising labels. Behind a full chunk the next number is looked for, whether it is there or not. */
static void write_level(table *t, u32 level) {
    u32 first = 0, in = 0;
    u8 *block = NULL;
    t->from = home(t, level, 0, 0), t->known = 0;
    for (u32 k = 0; k <= t->held; k++) {
        u32 key = k ? t->keys[k - 1] : 0, own = level_of(t, key);
        if (own < level) continue;
        if (key == 0 || own > level) {
            if (in && in % NODES == 0) search(t, level, first, in / NODES, 0);
            first = key, in = 0;
        }
        if (in % NODES == 0) block = place(t, level, first, in / NODES);
        u8 *node = block + 8 + 12 * (in++ % NODES);
        wbe32(node, key);
        if (level == 1 && key) wbe32(node + 4, 2), wbe32(node + 8, 1);
        block[1]++;
    }
    if (in % NODES == 0) search(t, level, first, in / NODES, 0);
}

/* The table of the keys but one; `without` may be 0. */
static void write_table(table *t, u32 without) {
    static u32 all[MOST];
    u32 count = t->held;
    memcpy(all, t->keys, sizeof all);
    for (u32 i = t->held = 0; i < count; i++)
        if (all[i] != without) t->keys[t->held++] = all[i];
    memset(t->bytes, 0, t->length);
    t->bytes[0] = 1, t->bytes[5] = GAMMA, t->bytes[6] = NODES;
    wbe32(t->bytes + 1, (u32)t->length);
    wbe16(t->bytes + 7, MOST);
    wbe16(t->bytes + 9, t->blocks);
    wbe16(t->bytes + 11, t->held);
    for (int i = 0; i < 10; i++) wbe32(t->bytes + 13 + 4 * i, t->seed[i]);
    for (u32 i = 0; i < t->blocks; i++) t->next[i] = i;
    t->full = 0, t->looks = 0, t->looks_behind = 0;
    for (u32 level = 1; level <= t->levels; level++) write_level(t, level);
    memcpy(t->keys, all, sizeof all);
    t->held = count;
}

static table *table_new(u32 blocks) {
    table *t = calloc(1, sizeof *t);
    if (!t) fail("no memory");
    t->blocks = blocks, t->levels = 18;
    t->length = BALLUCHAW_LENGTH(1, NODES, blocks);
    t->bytes = malloc(t->length);
    if (!t->bytes) fail("no memory");
    return t;
}

static void table_free(table *t) {
    free(t->bytes);
    free(t);
}

/* How many chunks there are when the i-th key has the level that i has under h(x) = x: every partition is one chunk of two nodes, or one at the end. */
static u32 chunks_of(u32 held) {
    u32 sum = 0;
    for (u32 level = 1; level <= 18; level++) sum += (held >> level) + 1;
    return sum;
}

/* As many orders as fill the blocks. */
static u32 most_orders(u32 blocks) {
    u32 held = 0;
    while (held < MOST && chunks_of(held + 1) <= blocks) held++;
    return held;
}

/* g is constant, h(x) = x, keys 1, 2, 3, .. */
static void constant(table *t) {
    t->seed[1] = 1, t->seed[5] = 12345;
    t->held = most_orders(t->blocks);
    for (u32 i = 0; i < t->held; i++) t->keys[i] = i + 1;
}

/* g(x) = h(x) = x, the seed of document 01's run, and M is 2 mod 4. Keys that head a partition are multiples of M, so that 2 divides each of them once more
 * than the number it is a multiple by. */
static void congruent(table *t) {
    t->blocks = (t->blocks - 2) / 4 * 4 + 2;
    t->length = BALLUCHAW_LENGTH(1, NODES, t->blocks);
    t->seed[1] = 1, t->seed[6] = 1;
    t->held = most_orders(t->blocks);
    for (u32 i = 1; i <= t->held; i++) t->keys[i - 1] = i / 2 * t->blocks + i % 2;
}

/* A random seed, and keys chosen for it: the i-th has the level of i, and if it heads a partition its home is near one of two blocks that are half of the table
 * apart: of neighbours on a level two thirds are not near the same. */
static void chosen(table *t) {
    u64 random = 1;
    u32 key = 0;
    for (int i = 0; i < 10; i++) t->seed[i] = (u32)(rng(&random) % P31);
    t->held = most_orders(t->blocks);
    for (u32 i = 1; i <= t->held; i++) {
        u32 level = 1 + (u32)__builtin_ctz(i), near = (u32)__builtin_parity(i) * (t->blocks / 2);
        for (key++; key < P31; key++)
            if ((i % 2 || way(t, near, hashed(t->seed + 5, key) % t->blocks) < t->blocks / 64) && level_of(t, key) == level) break;
        if (key == P31) fail("not enough keys");
        t->keys[i - 1] = key;
    }
}

/* g is constant, h(x) = x, and one partition has all keys of level 1; key 2, of level 2, comes before them. */
static void cut(table *t) {
    t->seed[1] = 1, t->seed[5] = 12345;
    t->held = t->blocks - 1;
    t->keys[0] = 2;
    for (u32 i = 1; i < t->held; i++) t->keys[i] = 2 * i + 1;
}

/* A random seed and random keys, four fifths of the blocks full: what a gateway has. */
static void usual(table *t) {
    u64 random = 2;
    for (int i = 0; i < 10; i++) t->seed[i] = (u32)(rng(&random) % P31);
    t->held = t->blocks / 10 * 6;
    make_keys(t->keys, t->held, 3);
    qsort(t->keys, t->held, sizeof *t->keys, cmp_u32);
}

static double start;
static double seconds(void) { return (now_ns() - start) / 1e9; }

/* Check, lookup of the last order, enter of one, span of all, descent to the last order. Asks whether each answer is right. */
static void measure(const char *name, u32 blocks, void (*choose)(table *)) {
    table *t = table_new(blocks);
    choose(t);
    u32 entered = t->keys[0], last = t->keys[t->held - 1];
    for (u32 i = 0; i < t->held; i++)
        if (level_of(t, t->keys[i]) > level_of(t, entered)) entered = t->keys[i];
    double taken[5];
    size_t room = 12 * (size_t)t->held + 2 * (size_t)t->blocks; /* for every order, and for every block */
    u8 *without = malloc(t->length), *output = malloc(room);
    if (!without || !output) fail("no memory");
    write_table(t, entered);
    memcpy(without, t->bytes, t->length);
    write_table(t, 0);
    start = now_ns();
    if (balluchaw_check(t->bytes, t->length) != 0) fail("check: no table");
    taken[0] = seconds(), start = now_ns();
    if (balluchaw_lookup(t->bytes, t->length, last).total != 2) fail("lookup: the answer is wrong");
    taken[1] = seconds(), start = now_ns();
    if (balluchaw_enter(without, t->length, entered, 2, 1, 0) != 0) fail("enter: the answer is wrong");
    taken[2] = seconds(), start = now_ns();
    if (balluchaw_span(t->bytes, t->length, 1, P31 - 1, output, room).count != t->held) fail("span: not all orders");
    taken[3] = seconds(), start = now_ns();
    if (balluchaw_descent(t->bytes, t->length, last, output, room).total != 2) fail("descent: the answer is wrong");
    taken[4] = seconds();
    if (memcmp(without, t->bytes, t->length) != 0) fail("enter: the bytes are others");
    double squared = (double)t->blocks * t->blocks;
    printf("%-46s %6u %6u %6u %8zu %11llu %5.2f %7.2f %9.3f %9.3f %9.3f %9.3f %9.6f\n", name, t->blocks, t->full, t->held, t->length, (unsigned long long)t->looks,
           (double)t->looks / squared, (double)t->looks_behind / squared, taken[0], taken[1], taken[2], taken[3],
           taken[4]);
    fflush(stdout);
    free(without);
    free(output);
    table_free(t);
}

int main(int argc, char **argv) {
    u32 blocks = argc > 1 ? (u32)strtoul(argv[1], NULL, 10) : MOST;
    if (argc > 2 || blocks < 4096 || blocks > MOST) return fprintf(stderr, "worst [BLOCKS, 4096 to %d]\n", MOST), 2;
    u32 half = argc > 1 ? blocks : MOST / 2 + 1; /* the others are as slow as a constant g, so smaller tables do */
    printf("%-46s  %6s %6s %6s %8s %11s %5s %7s %39s\n", "γ = B = 2", "blocks", "full", "orders", "bytes", "looks of", "over", "behind,",
           "seconds for one call, CPU time");
    printf("%-46s %6s %6s %6s %8s %11s  %5s  %7s %9s %9s %9s %9s %9s\n", "", "M", "", "", "", "a check", "M²", "M²", "check", "lookup", "enter", "span",
           "descent");
    measure("random seed, random keys", blocks, usual);
    for (u32 m = 8192; argc == 1 && m < MOST; m *= 2) measure("g constant, keys 1, 2, 3, ..", m, constant);
    measure("g constant, keys 1, 2, 3, ..", blocks, constant);
    measure("g(x) = x, keys of one residue mod M", half, congruent);
    measure("random seed, keys chosen for it", half, chosen);
    measure("g constant, an enter cuts a long partition", blocks, cut);
    return 0;
}
