/* A fuzz target over the calls, for libFuzzer.
 *
 * An input below FIRST_RAW in its first byte is sizes, a seed and a list of calls, on a table of version 1 or, where that byte is odd, 2; otherwise
 * the bytes behind the first are a table that somebody made. Input that ends early reads as zeros. What must hold stands in the functions named
 * after the calls:
 *   - a call answers the number that a plain model of documents 01 and 02 gives, and all parts of its answer, the price too;
 *   - a refused call and a reading change no byte of the table, a refused span none of its output;
 *   - a seek gives the lowest order of its range that has the reserve, asked again too;
 *   - after an edit the check answers 0, lookup and span give what the model holds, and each node has its numbers: those of its order at level 1,
 *     else the key alone;
 *   - in a table each chunk stands behind smaller labels alone, by its version's order: from its home to its block there is nothing else. Chunks where
 *     the other version's order puts them, or two neighbours exchanged, are no table;
 *   - a version 2 table with another price in one node is that of the order with this price, and no table where an order would have price 0 or
 *     anything else a price; the blocks of a table, with nodes of the other version and placed by its order, are a table of that version;
 *   - the same orders entered into a new table in another order, some of them amended later, give the same bytes;
 *   - bytes that the check accepts are those that make and enters of their own orders give; on others every call but descent answers 4; under
 *     another version no table is one;
 *   - a descent's path is the way through the model's levels, block by block. It answers 4 only to a header or length that is none; on other
 *     bytes that are no table it writes no more than it counts, and counts no more than its output holds.
 *
 * Each buffer has exactly its length and stands, as the input says, against a page behind it, a page before it, or on the heap.
 *
 * The archive is compiled from proved code and carries no coverage counters, so libFuzzer would see only this file. The counters that it also
 * reads (section __libfuzzer_extra_counters) are fed from outside: which call answered which number, which questions of an enter or amend had
 * a no at once, and what each edit left: levels, full and part-filled blocks, how far a chunk stands from its home, chains that go round, chunk
 * numbers, how many chunks the other version's order would have elsewhere; all of it for each version. So an input that brings a table into a new shape
 * is kept, though no new line of this file ran. */
#define _GNU_SOURCE
#include "balluchaw.h"
#include "../c/zone.h"

#define P 2147483647u

enum { FIRST_RAW = 192, MOST_ORDERS = 48, MOST_STEPS = 152, LONGEST_RAW = 1 << 16 };
enum { MAKE, CHECK, ENTER, AMEND, CANCEL, LOOKUP, SPAN, SEEK, DESCENT };
enum { TABLE, SEED, OUTPUT };

#ifdef __clang__
__attribute__((used, section("__libfuzzer_extra_counters"), no_sanitize("address")))
#endif
static uint8_t features[8192];

/* Freed blocks are used again soon: most of the time would go into fresh pages otherwise. */
const char *__asan_default_options(void);
const char *__asan_default_options(void) { return "quarantine_size_mb=1"; }

/* The lower half of the counters is for version 1 and what is no table, the upper one for version 2. */
static void feature(size_t f) {
    if (features[f % sizeof features] < 255) features[f % sizeof features]++;
}

static void feature_of(uint32_t version, size_t f) { feature(f + (version == 2 ? sizeof features / 2 : 0)); }

static unsigned long archive_calls;

/* By version: tables that the other version's order has otherwise; such tables as that order has them; and with two neighbours exchanged. */
static unsigned long told_apart[3], by_other_order[3], exchanged[3];

static void tell(void) {
    fprintf(stderr, "fuzz: %lu calls\n", archive_calls);
    for (int v = 1; v <= 2; v++) fprintf(stderr, "fuzz: version %d: orders %lu %lu %lu\n", v, told_apart[v], by_other_order[v], exchanged[v]);
}

int LLVMFuzzerInitialize(int *count, char ***words);
int LLVMFuzzerInitialize(int *count, char ***words) {
    (void)count, (void)words;
    return atexit(tell);
}

static void must(int right, const char *what) {
    if (right) return;
    fprintf(stderr, "fuzz: broken: %s\n", what);
    abort();
}

/* ---- the input ---- */

static const uint8_t *input;
static size_t left;

static uint32_t byte(void) {
    if (left == 0) return 0;
    left--;
    return *input++;
}

static uint32_t word(void) {
    uint32_t a = byte(), b = byte(), c = byte();
    return a << 24 | b << 16 | c << 8 | byte();
}

/* ---- buffers ---- */

static zone zones[3];

static uint8_t *borrow(int which, const uint8_t *content, size_t n, unsigned how) {
    uint8_t *p;
    if (n == 0 && how & 4) return NULL;
    if (how % 4 == 3) {
        p = malloc(n);
        must(p != NULL, "no memory");
    } else {
        p = zone_place(&zones[which], n, how % 2);
        zone_mark(&zones[which], p, n);
    }
    if (n) memcpy(p, content, n);
    return p;
}

static void give_back(int which, uint8_t *p, size_t n, unsigned how) {
    if (p && how % 4 == 3) free(p);
    else if (p) must(zone_whole(&zones[which], p, n), "bytes beside a buffer changed");
}

/* ---- the model ---- */

typedef struct {
    uint32_t key, total, displayed, price; /* the price is 0 in version 1 */
    uint32_t level;                        /* in the model */
} order;

typedef struct {
    uint32_t version, gamma, nodes, orders, blocks, beta, a[5], b[5];
    uint8_t seed[40];
    uint32_t n;
    order held[MOST_ORDERS + 1]; /* by rising key */
} model;

static uint32_t number_at(const uint8_t *p) { return (uint32_t)p[0] << 24 | (uint32_t)p[1] << 16 | (uint32_t)p[2] << 8 | p[3]; }

static uint32_t short_at(const uint8_t *p) { return (uint32_t)p[0] << 8 | p[1]; }

static void write_number(uint8_t *p, uint32_t n) {
    for (int i = 0; i < 4; i++) p[i] = (uint8_t)(n >> (24 - 8 * i));
}

/* Bytes of a node and of a span's row, and of a block. */
static size_t row_of(uint32_t version) { return version == 1 ? 12 : 16; }

static size_t width_of(uint32_t version, uint32_t nodes) { return 8 + row_of(version) * nodes; }

static size_t length_of(uint32_t version, uint32_t nodes, uint32_t blocks) { return 53 + blocks * width_of(version, nodes); }

static void write_row(uint8_t *p, uint32_t version, order o) {
    write_number(p, o.key);
    write_number(p + 4, o.total);
    write_number(p + 8, o.displayed);
    if (version == 2) write_number(p + 12, o.price);
}

static order row_at(const uint8_t *p, uint32_t version) {
    return (order){number_at(p), number_at(p + 4), number_at(p + 8), version == 2 ? number_at(p + 12) : 0, 0};
}

static uint32_t beta_of(uint32_t gamma, uint32_t orders) {
    uint32_t beta = 2;
    for (uint64_t power = 1; power < orders; power *= gamma) beta++;
    return beta;
}

static uint32_t hash(const uint32_t c[5], uint32_t x) {
    uint64_t sum = 0;
    for (int i = 4; i >= 0; i--) sum = (sum * x + c[i]) % P;
    return (uint32_t)sum;
}

static uint32_t level(const model *m, uint32_t key) {
    uint32_t l = 1, h = hash(m->a, key);
    for (; l < m->beta && h % m->gamma == 0; h /= m->gamma) l++;
    return l;
}

/* How many chunks the held orders make. */
static uint32_t chunks(const model *m) {
    uint32_t count = 0;
    for (uint32_t k = 1; k <= m->beta; k++) {
        uint32_t nodes = 1; /* the front opens the first partition */
        for (uint32_t i = 0; i < m->n; i++) {
            uint32_t l = m->held[i].level;
            if (l > k) {
                count += (nodes + m->nodes - 1) / m->nodes;
                nodes = 1;
            } else if (l == k) {
                nodes++;
            }
        }
        count += (nodes + m->nodes - 1) / m->nodes;
    }
    return count;
}

static uint32_t place_of(const model *m, uint32_t key) {
    uint32_t i = 0;
    while (i < m->n && m->held[i].key < key) i++;
    return i;
}

static const order *find(const model *m, uint32_t key) {
    uint32_t i = place_of(m, key);
    return i < m->n && m->held[i].key == key ? &m->held[i] : NULL;
}

typedef struct {
    uint32_t level, chunk, first;
} label;

/* At most a chunk for each level, and those that a level has behind its first ones: no order is counted in two levels. */
enum { LONGEST_WAY = 8 + MOST_ORDERS / 2 };

/* The labels on the way to a key, and how many: in each level, from the highest down, chunks 0 up to the one with the greatest key not above
 * the one sought, of the partition headed by the greatest such key one level higher. */
static uint32_t way(const model *m, uint32_t key, label labels[LONGEST_WAY]) {
    uint32_t count = 0, head = 0;
    for (uint32_t k = m->beta; k >= 1; k--) {
        uint32_t behind = 0, last = head; /* the partition's nodes behind its head, as far as the key */
        for (uint32_t i = 0; i < m->n; i++) {
            const order *o = &m->held[i];
            if (o->level < k || o->key <= head || o->key > key) continue;
            behind++;
            last = o->key;
        }
        for (uint32_t chunk = 0; chunk <= behind / m->nodes; chunk++) {
            must(count < LONGEST_WAY, "the longest way has room");
            labels[count++] = (label){k, chunk, head};
        }
        head = last;
    }
    return count;
}

static int is_key(uint32_t key) { return key >= 1 && key < P; }

/* Only what stands behind a displayed part is reserve, so a wholly hidden order has none. */
static uint32_t reserve_of(const order *o) { return o->displayed == 0 ? 0 : o->total - o->displayed; }

static int are_quantities(order o) { return o.total >= 1 && o.displayed <= o.total; }

/* What the version asks of a price: 14 in version 1, a part of 6 in version 2. */
static int may_have(const model *m, uint32_t price) { return m->version != 1 || price == 0; }

static int has_enough(const model *m, uint32_t price) { return m->version != 2 || price >= 1; }

/* The questions of both enter and amend, after 4. */
static uint32_t model_change(const model *m, order o) {
    if (!may_have(m, o.price)) return 14;
    if (!is_key(o.key)) return 5;
    if (!are_quantities(o) || !has_enough(m, o.price)) return 6;
    return 0;
}

static uint32_t model_enter(model *m, order o) {
    uint32_t number = model_change(m, o);
    if (number) return number;
    if (find(m, o.key)) return 13;
    if (m->n >= m->orders) return 7;
    uint32_t i = place_of(m, o.key);
    o.level = level(m, o.key);
    memmove(m->held + i + 1, m->held + i, (m->n - i) * sizeof(order));
    m->held[i] = o;
    m->n++;
    if (chunks(m) <= m->blocks) return 0;
    m->n--;
    memmove(m->held + i, m->held + i + 1, (m->n - i) * sizeof(order));
    return 8;
}

static uint32_t model_amend(model *m, order o) {
    uint32_t number = model_change(m, o);
    if (number) return number;
    if (!find(m, o.key)) return 9;
    order *held = &m->held[place_of(m, o.key)];
    held->total = o.total;
    held->displayed = o.displayed;
    held->price = o.price;
    return 0;
}

static uint32_t model_cancel(model *m, uint32_t key) {
    if (!is_key(key)) return 5;
    if (!find(m, key)) return 9;
    uint32_t i = place_of(m, key);
    m->n--;
    memmove(m->held + i, m->held + i + 1, (m->n - i) * sizeof(order));
    return 0;
}

/* ---- a table, and the calls on it ---- */

typedef struct {
    uint8_t *bytes;
    size_t length;
} table;

/* What the first byte says, which tells nothing where the bytes are no table; 0 where there is none. */
static uint32_t version_of(const table *t) { return t->length ? t->bytes[0] : 0; }

static uint8_t *block_in(const table *t, uint32_t number) { return t->bytes + 53 + number * width_of(version_of(t), t->bytes[6]); }

static uint32_t blocks_of(const table *t) { return short_at(t->bytes + 9); }

static label label_of(const uint8_t *block) { return (label){block[0], short_at(block + 2), number_at(block + 4)}; }

/* By level, in version 2 the higher one first; then by first key, then by chunk number. */
static int is_smaller(uint32_t version, label a, label b) {
    if (a.level != b.level) return version == 1 ? a.level < b.level : a.level > b.level;
    return a.first != b.first ? a.first < b.first : a.chunk < b.chunk;
}

static uint32_t home_of(const table *t, label l) {
    uint32_t b[5];
    for (int i = 0; i < 5; i++) b[i] = number_at(t->bytes + 33 + 4 * i);
    return (uint32_t)((hash(b, l.first) + 65536 * (uint64_t)l.level + l.chunk) % P % blocks_of(t));
}

/* Whether each block from a chunk's home to just before its own holds a label that is smaller by the order of this version. */
static int is_placed(const table *t, uint32_t version, uint32_t number) {
    label own = label_of(block_in(t, number));
    for (uint32_t i = home_of(t, own); i != number; i = (i + 1) % blocks_of(t)) {
        label passed = label_of(block_in(t, i));
        if (passed.level == 0 || !is_smaller(version, passed, own)) return 0;
    }
    return 1;
}

/* How many chunks do not. */
static uint32_t misplaced(const table *t, uint32_t version) {
    uint32_t count = 0;
    for (uint32_t i = 0; i < blocks_of(t); i++) count += block_in(t, i)[0] != 0 && !is_placed(t, version, i);
    return count;
}

/* The nodes that a block counts, number by number. */
static void contents(const model *m, const uint8_t *block) {
    size_t row = row_of(m->version);
    for (uint32_t i = 0; i < block[1]; i++) {
        const uint8_t *node = block + 8 + row * i;
        uint8_t right[16];
        order o = {number_at(node), 0, 0, 0, 0};
        const order *held = find(m, o.key);
        must(o.key == 0 || held != NULL, "a node has a key that is held");
        write_row(right, m->version, held && block[0] == 1 ? *held : o);
        must(memcmp(node, right, row) == 0, "a node has the numbers of its order at level 1, elsewhere its key alone");
    }
}

/* In a table each chunk stands; by the other version's order maybe not. */
static void placed(const table *t) {
    uint32_t version = version_of(t), others = misplaced(t, 3 - version);
    must(misplaced(t, version) == 0, "each chunk stands behind smaller labels alone");
    told_apart[version] += others != 0;
    feature_of(version, 3800 + (others < 63 ? others : 63));
}

static void shape(const model *m, const table *t) {
    uint32_t filled = 0, farthest = 0, round = 0;
    placed(t);
    for (uint32_t i = 0; i < m->blocks; i++) {
        const uint8_t *b = block_in(t, i);
        if (b[0] == 0) continue;
        filled++;
        uint32_t chunk = short_at(b + 2), home = home_of(t, label_of(b));
        uint32_t far = i >= home ? i - home : m->blocks - home + i;
        round |= i < home;
        if (far > farthest) farthest = far;
        feature_of(m->version, 256 + b[0] * 64 + (b[1] == m->nodes) * 32 + (chunk < 3 ? chunk : 3) * 8 + (far < 7 ? far : 7));
        contents(m, b);
    }
    feature_of(m->version, 2048 + (farthest < 63 ? farthest : 63) * 4 + round * 2 + (filled == m->blocks));
    feature_of(m->version, 2560 + m->n);
}

static uint8_t *lend(const table *t, unsigned how) { return borrow(TABLE, t->bytes, t->length, how); }

/* Takes the table back after a call, and sees that it changed only where it may. */
static void take_back(table *t, uint8_t *lent, unsigned how, int may_change) {
    archive_calls++;
    if (t->length) {
        must(may_change || memcmp(lent, t->bytes, t->length) == 0, "a reading or a refused call changed the table");
        memcpy(t->bytes, lent, t->length);
    }
    give_back(TABLE, lent, t->length, how);
}

static void answered(const table *t, int call, uint32_t number) { feature_of(version_of(t), (size_t)call * 16 + number % 16); }

static uint32_t check(table *t, unsigned how) {
    uint8_t *lent = lend(t, how);
    uint32_t number = balluchaw_check(lent, t->length);
    take_back(t, lent, how, 0);
    must(number == 0 || number == 4, "check answers 0 or 4");
    answered(t, CHECK, number);
    return number;
}

static uint32_t make(const model *m, table *t, unsigned how) {
    uint8_t *seed = borrow(SEED, m->seed, 40, how / 8);
    uint8_t *lent = lend(t, how);
    uint32_t number = balluchaw_make(lent, t->length, m->version, m->gamma, m->nodes, m->orders, m->blocks, seed, 40);
    take_back(t, lent, how, number == 0);
    must(memcmp(seed, m->seed, 40) == 0, "make changed its seed");
    give_back(SEED, seed, 40, how / 8);
    answered(t, MAKE, number);
    return number;
}

/* An enter or an amend, by its number in the list of calls. */
static uint32_t change(table *t, int call, order o, unsigned how) {
    uint8_t *lent = lend(t, how);
    uint32_t number = (call == ENTER ? balluchaw_enter : balluchaw_amend)(lent, t->length, o.key, o.total, o.displayed, o.price);
    take_back(t, lent, how, number == 0);
    answered(t, call, number);
    return number;
}

static uint32_t enter(table *t, order o, unsigned how) { return change(t, ENTER, o, how); }
static uint32_t amend(table *t, order o, unsigned how) { return change(t, AMEND, o, how); }

static uint32_t cancel(table *t, uint32_t key, unsigned how) {
    uint8_t *lent = lend(t, how);
    uint32_t number = balluchaw_cancel(lent, t->length, key);
    take_back(t, lent, how, number == 0);
    answered(t, CANCEL, number);
    return number;
}

static int is_reply(balluchaw_reply r, uint32_t number, order o, uint32_t count) {
    return r.number == number && r.key == o.key && r.total == o.total && r.displayed == o.displayed && r.price == o.price && r.count == count;
}

static const order none = {0, 0, 0, 0, 0};

/* The model is NULL for bytes that are no table. */
static void lookup(const model *m, table *t, uint32_t key, unsigned how) {
    uint8_t *lent = lend(t, how);
    balluchaw_reply r = balluchaw_lookup(lent, t->length, key);
    take_back(t, lent, how, 0);
    answered(t, LOOKUP, r.number);
    const order *o = m ? find(m, key) : NULL;
    uint32_t number = !m ? 4 : !is_key(key) ? 5 : !o ? 9 : 0;
    must(is_reply(r, number, number == 0 ? *o : none, 0), "lookup answers as the model");
}

static uint8_t path[1 << 13]; /* the output of the last descent; no table here has more blocks than half of it */

/* A descent on any bytes: no more of the output changes than the counted numbers, which it has room for. */
static balluchaw_reply descend(table *t, uint32_t key, size_t room, unsigned how) {
    static uint8_t before[sizeof path];
    must(room <= sizeof path, "room for a path");
    for (size_t i = 0; i < room; i++) before[i] = (uint8_t)(i * 7 + 1);
    uint8_t *output = borrow(OUTPUT, before, room, how / 8);
    uint8_t *lent = lend(t, how);
    balluchaw_reply r = balluchaw_descent(lent, t->length, key, output, room);
    take_back(t, lent, how, 0);
    answered(t, DESCENT, r.number);
    size_t written = 2 * (size_t)r.count;
    must(written <= room, "a descent counts no more than its output holds");
    must(written == room || memcmp(output + written, before + written, room - written) == 0, "a descent writes no more than it counts");
    if (room) memcpy(path, output, room);
    give_back(OUTPUT, output, room, how / 8);
    return r;
}

static const uint8_t *block_at(const table *t, uint32_t number) {
    must(number < blocks_of(t), "a path's numbers are those of blocks");
    return block_in(t, number);
}

static void descent(const model *m, table *t, uint32_t key, size_t room, unsigned how) {
    label labels[LONGEST_WAY];
    const order *o = find(m, key);
    uint32_t count = way(m, key, labels);
    uint32_t number = !is_key(key) ? 5 : 2 * count > room ? 11 : !o ? 9 : 0;
    if (number == 5 || number == 11) count = 0;
    balluchaw_reply r = descend(t, key, room, how);
    must(is_reply(r, number, number == 0 ? *o : none, count), "descent answers as the model");
    for (uint32_t i = 0; i < count; i++) {
        const uint8_t *b = block_at(t, short_at(path + 2 * i));
        int right = b[0] == labels[i].level && short_at(b + 2) == labels[i].chunk && number_at(b + 4) == labels[i].first;
        must(right, "a path's blocks are those of the way through the model");
    }
}

/* A descent to an order of a table whose other orders are not known: down the levels to a block that has the order. */
static void descent_to(table *t, order o, unsigned how) {
    size_t blocks = short_at(t->bytes + 9);
    balluchaw_reply r = descend(t, o.key, 2 * blocks, how);
    must(is_reply(r, 0, o, r.count) && r.count > 0, "a descent on a table gives its order");
    const uint8_t *b = NULL;
    for (uint32_t i = 0, level = 0; i < r.count; i++) {
        b = block_at(t, short_at(path + 2 * i));
        must(b[0] > 0 && (i == 0 || b[0] == level || b[0] + 1u == level), "a path goes down level by level");
        level = b[0];
    }
    int holds = 0;
    for (uint32_t i = 0; i < b[1]; i++) holds |= number_at(b + 8 + row_of(version_of(t)) * i) == o.key;
    must(b[0] == 1 && holds, "a path ends at its order");
}

/* Rule 1 of an image: what a descent asks of the bytes. */
static int has_header(const table *t) {
    const uint8_t *b = t->bytes;
    if (t->length < 53 || b[0] < 1 || b[0] > 2) return 0;
    uint32_t gamma = b[5], nodes = b[6], orders = short_at(b + 7), blocks = short_at(b + 9);
    if (gamma < 2 || gamma > 64 || nodes < 2 || nodes > 32 || orders < 1 || blocks < beta_of(gamma, orders)) return 0;
    for (int i = 13; i < 53; i += 4)
        if (number_at(b + i) >= P) return 0;
    return number_at(b + 1) == t->length && t->length == length_of(b[0], nodes, blocks) && short_at(b + 11) <= orders;
}

/* Descents on bytes that are no table, also to keys that stand in them. */
static void astray(table *t, unsigned how) {
    static const size_t rooms[] = {0, 1, 3, 7, 8, 15, 64, sizeof path};
    size_t place = t->length < 80 ? 0 : 61 + how * 31u % (t->length - 79);
    uint32_t keys[] = {7, 0, P - 1, t->length < 80 ? 1 : number_at(t->bytes + place), P, 1 + how % 6};
    for (unsigned i = 0; i < 6; i++) {
        balluchaw_reply r = descend(t, keys[i], rooms[(how + 3 * i) % 8], how + i);
        feature_of(version_of(t), 2700 + (r.count < 63 ? r.count : 63) + 64 * (r.number == 0));
        if (!has_header(t)) must(is_reply(r, 4, none, 0), "descent on a header or length that is none");
        else if (!is_key(keys[i])) must(is_reply(r, 5, none, 0), "descent to what is no key, on what is no table");
    }
}

static void span(const model *m, table *t, uint32_t lo, uint32_t hi, size_t room, unsigned how) {
    static uint8_t before[16 * MOST_ORDERS + 64], after[sizeof before];
    if (room > sizeof before) room = sizeof before;
    for (size_t i = 0; i < room; i++) before[i] = after[i] = (uint8_t)(i * 7 + 1);
    uint32_t number = !m ? 4 : !is_key(lo) || !is_key(hi) ? 5 : lo > hi ? 10 : 0, count = 0;
    size_t row = m ? row_of(m->version) : 12;
    for (uint32_t i = 0; number == 0 && i < m->n; i++) {
        const order *o = &m->held[i];
        if (o->key < lo || o->key > hi) continue;
        if (row * count + row <= room) write_row(after + row * count, m->version, *o);
        count++;
    }
    if (number == 0 && row * count > room) number = 11;
    if (number) count = 0;
    uint8_t *output = borrow(OUTPUT, before, room, how / 8);
    uint8_t *lent = lend(t, how);
    balluchaw_reply r = balluchaw_span(lent, t->length, lo, hi, output, room);
    take_back(t, lent, how, 0);
    answered(t, SPAN, r.number);
    must(is_reply(r, number, none, count), "span answers as the model");
    must(room == 0 || memcmp(output, number ? before : after, room) == 0, "span writes the model's orders and nothing else");
    give_back(OUTPUT, output, room, how / 8);
}

/* The order with the smallest key in lo..hi that has the reserve; NULL where there is none. */
static const order *lowest(const model *m, uint32_t lo, uint32_t hi, uint32_t reserve) {
    uint32_t i = place_of(m, lo);
    while (i < m->n && reserve_of(&m->held[i]) < reserve) i++;
    return i < m->n && m->held[i].key <= hi ? &m->held[i] : NULL;
}

/* Tells how what is sought stands to what an order of the range has in reserve and in all, for hidden orders and others apart. */
static void sought(uint32_t version, const order *o, uint32_t reserve, uint32_t number) {
    uint32_t own = reserve_of(o), edges = (reserve == 0) | (reserve == 1) << 1 | (reserve == own) << 2 | (reserve == own + 1) << 3;
    edges |= (reserve == o->total) << 4 | (reserve > o->total) << 5;
    feature_of(version, 3000 + edges * 4 + (o->displayed == 0) * 2 + (number == 0));
}

/* Tells where the lowest stands: how many of the range come before it, how many of the range have the reserve, and whether some outside have. */
static void stands(const model *m, uint32_t lo, uint32_t hi, uint32_t reserve) {
    uint32_t passed = 0, fit = 0, below = 0, above = 0;
    for (uint32_t i = 0; i < m->n; i++) {
        const order *o = &m->held[i];
        uint32_t fits = reserve_of(o) >= reserve;
        if (o->key < lo) below |= fits;
        else if (o->key > hi) above |= fits;
        else if (fits) fit++;
        else passed += fit == 0;
    }
    feature_of(m->version, 3400 + (passed < 7 ? passed : 7) * 16 + (fit < 3 ? fit : 3) * 4 + below * 2 + above);
}

static void seek(const model *m, table *t, uint32_t lo, uint32_t hi, uint32_t reserve, unsigned how) {
    const order *o = m ? lowest(m, lo, hi, reserve) : NULL;
    uint32_t number = !m ? 4 : !is_key(lo) || !is_key(hi) ? 5 : lo > hi ? 10 : !o ? 12 : 0;
    for (unsigned again = 0; again < 2; again++) {
        uint8_t *lent = lend(t, how + again);
        balluchaw_reply r = balluchaw_seek(lent, t->length, lo, hi, reserve);
        take_back(t, lent, how + again, 0);
        answered(t, SEEK, r.number);
        int right = is_reply(r, number, number == 0 ? *o : none, 0);
        must(right, again ? "a seek asked again answers the same" : "seek answers as the model, with the lowest that fits");
    }
    if (number != 0 && number != 12) return;
    stands(m, lo, hi, reserve);
    for (uint32_t i = place_of(m, lo); i < m->n && m->held[i].key <= hi; i++) sought(m->version, &m->held[i], reserve, number);
}

/* An order of a table whose other orders are not known: it cannot be entered, nor be given a price that its version has not, and amended to what it
 * is it leaves the bytes. */
static void held_in(table *t, order o, unsigned how) {
    uint32_t version = version_of(t);
    order other = {o.key, 9, 5, version == 1 ? 0 : 3, 0}, unpriced = {o.key, 9, 5, version == 1 ? 3 : 0, 0};
    must(enter(t, other, how) == 13, "enter of a table's own order");
    must(enter(t, unpriced, how) == (version == 1 ? 14 : 6), "enter with a price that the version has not");
    must(amend(t, unpriced, how) == (version == 1 ? 14 : 6), "amend to a price that the version has not");
    uint8_t *before = malloc(t->length);
    must(before != NULL, "no memory");
    memcpy(before, t->bytes, t->length);
    must(amend(t, o, how + 1) == 0, "amend of a table's own order");
    must(memcmp(before, t->bytes, t->length) == 0, "an order amended to what it is leaves the bytes");
    free(before);
}

/* Rows of a table, none between them left out: a seek from the first to the last gives the first for its reserve, and for one more the next that
 * has it. */
static void seek_among(table *t, const uint8_t *rows, uint32_t count, unsigned how) {
    uint32_t version = version_of(t);
    size_t row = row_of(version);
    order first = row_at(rows, version), last = row_at(rows + row * (count - 1), version);
    for (uint32_t more = 0; more < 2; more++) {
        order o = first;
        uint32_t i = 0, reserve = reserve_of(&first) + more;
        while (reserve_of(&o) < reserve && ++i < count) o = row_at(rows + row * i, version);
        uint8_t *lent = lend(t, how + more);
        balluchaw_reply r = balluchaw_seek(lent, t->length, first.key, last.key, reserve);
        take_back(t, lent, how + more, 0);
        must(is_reply(r, i < count ? 0 : 12, i < count ? o : none, 0), "a seek on a table gives the lowest of its orders that fits");
    }
}

/* Every call on bytes that are no table; whatever the price, 4 comes before 14. */
static void refused(table *t, unsigned how) {
    order o = {7, 9, 5, how & 1, 0};
    must(enter(t, o, how) == 4, "enter on what is no table");
    must(amend(t, o, how + 6) == 4, "amend on what is no table");
    must(cancel(t, 7, how + 1) == 4, "cancel on what is no table");
    lookup(NULL, t, 7, how + 2);
    span(NULL, t, 1, P - 1, 24, how + 3);
    seek(NULL, t, 1, P - 1, 0, how + 4);
    astray(t, how + 5);
}

/* The held orders, from some place on, rising or falling. */
static order turned(const model *m, uint32_t turn, uint32_t i) {
    uint32_t place = (turn + i) % m->n;
    return m->held[turn & 1 ? place : m->n - 1 - place];
}

/* An order under a key, with numbers of its own. */
static order another(const model *m, uint32_t key) { return (order){key, 3, 2, m->version == 1 ? 0 : 5, 0}; }

/* The model's orders in a new table: they come in another order, with one more among them that goes again, every second one with numbers that are
 * amended later. What the one more has kept out comes in at the end. */
static void another_way(const model *m, const table *t, uint32_t turn, uint32_t other, unsigned how) {
    table second = {malloc(t->length), t->length};
    must(second.bytes != NULL, "no memory");
    memset(second.bytes, (int)turn, second.length);
    must(make(m, &second, how) == 0, "make accepts what it accepted before");
    uint8_t in[MOST_ORDERS];
    int more = is_key(other) && !find(m, other) && enter(&second, another(m, other), how) == 0;
    for (uint32_t i = 0; i < m->n; i++) {
        if (more && i == m->n / 2) {
            must(cancel(&second, other, how) == 0, "an order that was entered can be cancelled");
            more = 0;
        }
        order o = turned(m, turn, i);
        in[i] = enter(&second, i % 2 ? o : another(m, o.key), how) == 0;
        must(in[i] || more, "an order of a set that fits is accepted");
    }
    if (more) must(cancel(&second, other, how) == 0, "an order that was entered can be cancelled");
    for (uint32_t i = 0; i < m->n; i++) {
        order o = turned(m, turn, i);
        if (in[i]) must(i % 2 || amend(&second, o, how) == 0, "an order that was entered can be amended");
        else must(amend(&second, o, how) == 9 && enter(&second, o, how) == 0, "an order that was kept out can be entered, not amended");
    }
    must(memcmp(second.bytes, t->bytes, t->length) == 0, "two histories to the same orders give the same bytes");
    free(second.bytes);
}

/* Bytes from anywhere: a table exactly when their own orders give them again. */
static void foreign(table *t, unsigned how) {
    if (check(t, how) == 4) {
        refused(t, how);
        return;
    }
    must(has_header(t), "a table has a header, of version 1 or 2");
    placed(t);
    static model m;
    m = (model){.version = t->bytes[0], .gamma = t->bytes[5], .nodes = t->bytes[6]};
    m.orders = (uint32_t)t->bytes[7] << 8 | t->bytes[8];
    m.blocks = (uint32_t)t->bytes[9] << 8 | t->bytes[10];
    memcpy(m.seed, t->bytes + 13, 40);
    uint32_t n = (uint32_t)t->bytes[11] << 8 | t->bytes[12];
    size_t row = row_of(m.version);
    uint8_t *rows = malloc(row * n);
    table second = {malloc(t->length), t->length};
    must((rows || n == 0) && second.bytes, "no memory");
    balluchaw_reply r = balluchaw_span(t->bytes, t->length, 1, P - 1, rows, row * n);
    must(is_reply(r, 0, none, n), "a table's span gives as many orders as its header says");
    memset(second.bytes, 0x5a, second.length);
    must(make(&m, &second, how) == 0, "the sizes and seed of a table are ones that make allows");
    for (uint32_t i = 0; i < n; i++) {
        const uint8_t *place = rows + row * (n - 1 - i);
        order o = row_at(place, m.version);
        must(enter(&second, o, how) == 0, "the orders of a table fit into its sizes");
        if (i < 16) descent_to(t, o, how + i);
        if (i < 4) seek_among(t, place, 1, how + i);
        if (i < 4) held_in(t, o, how + i);
    }
    for (uint32_t i = 0; i < 4 && i < n; i++) seek_among(t, rows + row * (n * i / 4), 1 + (n - n * i / 4) / 2, how + i);
    must(memcmp(second.bytes, t->bytes, t->length) == 0, "a table that the check accepts is what its orders give");
    free(rows);
    free(second.bytes);
}

/* ---- one input ---- */

static uint32_t some_key(const model *m) {
    static const uint32_t edges[] = {0, 1, P - 1, P, UINT32_MAX, P - 2, 2};
    uint32_t b = byte();
    if (b < 216) return 1 + b % (2 * m->orders + 8);
    if (b < 244) return edges[b % 7];
    return word();
}

/* An order under a held key, if that is wanted and there is one; else under any, which may be held too. */
static order some_order(const model *m, int held) {
    order o = {held && m->n ? m->held[byte() % m->n].key : some_key(m), 0, 0, 0, 0};
    uint32_t b = byte();
    o.total = b < 200 ? 1 + b : b < 236 ? UINT32_MAX : b < 240 ? 0 : word();
    b = byte();
    o.displayed = b < 128 ? (uint32_t)((uint64_t)o.total * b / 127) : b < 160 ? 0 : b < 236 ? o.total : b < 250 ? o.total + 1 : word();
    b = byte();
    uint32_t own = m->version == 1 ? 0 : 1 + b, wrong = m->version == 1; /* 1 is no price of version 1, 0 none of version 2 */
    o.price = b < 220 ? own : b < 240 ? wrong : b < 250 ? UINT32_MAX : word();
    return o;
}

/* What a seek asks for: a small number, any, or one at and just beyond what a held order has in reserve and in all. */
static uint32_t some_reserve(const model *m) {
    uint32_t b = byte();
    if (b < 100) return b;
    if (b < 112) return UINT32_MAX;
    if (b < 124 || m->n == 0) return word();
    const order *o = &m->held[byte() % m->n];
    return (b & 1 ? reserve_of(o) : o->total) + (b >> 1 & 1); /* one above the greatest total is 0, which is sought too */
}

static void some_seed(model *m) {
    uint32_t kind = byte() % 8, state = 0;
    uint32_t *numbers[10];
    for (int i = 0; i < 5; i++) numbers[i] = &m->a[i], numbers[5 + i] = &m->b[i];
    if (kind >= 5) state = word() | 1;
    for (int i = 0; i < 10; i++) {
        uint32_t n = 0;
        if (kind == 1) n = i % 5 == 1;                   /* h(x) = g(x) = x */
        if (kind == 2) n = i % 5 == 0 ? word() : 0;      /* both constant */
        if (kind == 3) n = i == 1 ? m->gamma : word();   /* levels from 2 on */
        if (kind == 4) n = word();
        if (kind >= 5) n = (state ^= state << 13, state ^= state >> 17, state ^= state << 5);
        if (kind == 6 && i > 5) n = 0;                   /* one home for all */
        if (kind == 7 && i > 0 && i < 5) n = 0;          /* one level for all */
        *numbers[i] = (n & P) == P ? 0 : n & P;
        write_number(m->seed + 4 * i, *numbers[i]);
    }
}

static uint32_t any_size(void) {
    uint32_t b = byte();
    return b < 250 ? b % 70 : word();
}

static uint32_t any_version(void) {
    uint32_t b = byte();
    return b < 200 ? 1 + b % 2 : b < 250 ? b % 8 : word();
}

/* A make with any version, sizes, seed and lengths. */
static void any_make(unsigned how) {
    uint32_t version = any_version(), gamma = any_size(), nodes = any_size(), orders = any_size(), blocks = any_size(), b = byte();
    uint8_t seed[48];
    size_t seed_length = b < 200 ? 40 : b % 48;
    for (size_t i = 0; i < seed_length; i++) seed[i] = (uint8_t)byte();
    int right_seed = seed_length == 40;
    for (size_t i = 0; right_seed && i < 40; i += 4) right_seed = number_at(seed + i) < P;
    int sizes = gamma >= 2 && gamma <= 64 && nodes >= 2 && nodes <= 32 && orders >= 1 && orders <= 65535 && blocks <= 65535;
    sizes = sizes && blocks >= beta_of(gamma, orders);
    int allowed = sizes && (version == 1 || version == 2);
    size_t right_length = sizes ? length_of(version, nodes, blocks) : 149; /* of no version too: it is refused though the length fits some rows */
    b = byte();
    size_t wrong_length = sizes ? length_of(version == 1 ? 2 : 1, nodes, blocks) : b;
    size_t length = b > 200 ? b : b > 180 ? wrong_length : right_length;
    if (length > LONGEST_RAW) length = b;
    table t = {calloc(length + 1, 1), length};
    must(t.bytes != NULL, "no memory");
    uint8_t *lent_seed = borrow(SEED, seed, seed_length, how / 8), *lent = lend(&t, how);
    uint32_t number = balluchaw_make(lent, length, version, gamma, nodes, orders, blocks, lent_seed, seed_length);
    take_back(&t, lent, how, number == 0);
    must(number == (!right_seed ? 1u : !allowed ? 2u : length != right_length ? 3u : 0u), "make answers as its questions say");
    must(seed_length == 0 || memcmp(lent_seed, seed, seed_length) == 0, "make changed its seed");
    give_back(SEED, lent_seed, seed_length, how / 8);
    feature_of(version, MAKE * 16 + number % 16);
    if (number == 0) must(check(&t, how) == 0, "a new table is one");
    free(t.bytes);
}

/* Which questions of an enter or amend have a no, each asked for itself: their order shows only where two have. */
static void noes(const model *m, int call, order o) {
    uint32_t held = find(m, o.key) != NULL, no_order = m->n == m->orders, no_block = chunks(m) == m->blocks;
    uint32_t no_price = !may_have(m, o.price) || !has_enough(m, o.price);
    uint32_t which = no_price * 32 + !is_key(o.key) * 16 + !are_quantities(o) * 8 + held * 4 + no_order * 2 + no_block;
    feature_of(m->version, 3600 + (call == AMEND) * 64 + which);
}

/* After an edit of a key: the table is one, and has what the model has. */
static void edited(const model *m, table *t, uint32_t key, unsigned how) {
    must(check(t, how + 1) == 0, "a table after an edit is one");
    lookup(m, t, key, how + 2);
    descent(m, t, key, how % 80, how + 3);
    shape(m, t);
}

static void step_change(model *m, table *t, int call, int held, unsigned how) {
    order o = some_order(m, held);
    noes(m, call, o);
    uint32_t number = change(t, call, o, how);
    must(number == (call == ENTER ? model_enter : model_amend)(m, o), "enter and amend answer as the model");
    if (number == 0) edited(m, t, o.key, how);
}

static void step_cancel(model *m, table *t, unsigned how) {
    uint32_t key = some_key(m), number = cancel(t, key, how);
    must(number == model_cancel(m, key), "cancel answers as the model");
    if (number == 0) edited(m, t, key, how);
}

static table copy_of(const table *t) {
    table other = {malloc(t->length), t->length};
    must(other.bytes != NULL, "no memory");
    memcpy(other.bytes, t->bytes, t->length);
    return other;
}

/* The table under another version, its other bytes as they are. */
static void other_version(const table *t, unsigned how) {
    table other = copy_of(t);
    uint32_t b = byte(), version = b < 200 ? b % 4 : b;
    other.bytes[0] = (uint8_t)(version == t->bytes[0] ? 3 - version : version);
    must(check(&other, how) == 4, "a table under another version is none");
    refused(&other, how);
    free(other.bytes);
}

/* The blocks of a table in those of the other version, each order with this price. */
static table rewritten(const model *m, const table *t, uint32_t version, uint32_t price) {
    size_t own = row_of(m->version), row = row_of(version), width = width_of(version, m->nodes);
    table other = {NULL, length_of(version, m->nodes, m->blocks)};
    other.bytes = calloc(other.length, 1);
    must(other.bytes != NULL, "no memory");
    memcpy(other.bytes, t->bytes, 53);
    other.bytes[0] = (uint8_t)version;
    write_number(other.bytes + 1, (uint32_t)other.length);
    for (uint32_t i = 0; i < m->blocks; i++) {
        const uint8_t *from = t->bytes + 53 + i * width_of(m->version, m->nodes);
        uint8_t *to = other.bytes + 53 + i * width;
        memcpy(to, from, 8);
        for (uint32_t k = 0; k < m->nodes; k++) {
            order o = row_at(from + 8 + own * k, m->version);
            o.price = o.total ? price : 0;
            write_row(to + 8 + row * k, version, o);
        }
    }
    return other;
}

/* Labels by the order that is sorted by just now. */
static uint32_t sorting;

static int by_label(const void *a, const void *b) {
    label one = label_of(*(uint8_t *const *)a), two = label_of(*(uint8_t *const *)b);
    return is_smaller(sorting, two, one) - is_smaller(sorting, one, two);
}

/* Places the chunks of a table, or whatever stands in its blocks, by rising label of a version's order, each at the first free block from its home. */
static void arrange(table *t, uint32_t version) {
    size_t width = width_of(version_of(t), t->bytes[6]), size = blocks_of(t) * width;
    uint8_t *all = malloc(size), **used = malloc(blocks_of(t) * sizeof *used);
    must(all != NULL && used != NULL, "no memory");
    memcpy(all, t->bytes + 53, size);
    memset(t->bytes + 53, 0, size);
    uint32_t count = 0;
    for (uint8_t *block = all; block < all + size; block += width)
        if (block[0]) used[count++] = block;
    sorting = version;
    qsort(used, count, sizeof *used, by_label);
    for (uint32_t i = 0; i < count; i++) {
        uint32_t at = home_of(t, label_of(used[i]));
        while (block_in(t, at)[0]) at = (at + 1) % blocks_of(t);
        memcpy(block_in(t, at), used[i], width);
    }
    free(used);
    free(all);
}

/* All orders of a table that nobody has edited, and one of them by itself. */
static void read_again(const model *m, table *t, unsigned how) {
    span(m, t, 1, P - 1, row_of(m->version) * m->n, how + 2);
    if (m->n == 0) return;
    uint32_t key = m->held[how % m->n].key;
    lookup(m, t, key, how + 1);
    descent(m, t, key, 2 * LONGEST_WAY, how + 3);
}

/* A table with rows of the other version is a table of that version if its chunks stand by the order of that one, and if its orders have prices there.
 * Placed by that order they stand. */
static void other_rows(const model *m, const table *t, unsigned how) {
    uint32_t b = byte(), price = b < 64 ? 0 : b < 240 ? b : word(), version = 3 - m->version;
    static model as;
    as = *m;
    as.version = version;
    for (uint32_t i = 0; i < as.n; i++) as.held[i].price = version == 1 ? 0 : price;
    table other = rewritten(m, t, version, price);
    int right = version == 1 || price || m->n == 0, stand = misplaced(&other, version) == 0;
    must(check(&other, how) == (right && stand ? 0 : 4), "a table with the rows of the other version is one if its chunks stand by that one's order");
    if (!right || !stand) refused(&other, how);
    arrange(&other, version);
    must(check(&other, how) == (right ? 0 : 4), "a table with the rows of the other version, placed by its order, is one, if its orders have prices");
    if (right) read_again(&as, &other, how);
    else refused(&other, how);
    free(other.bytes);
}

/* The table as the other version's order has it; or with two neighbours exchanged of which the second, of another level, passes the first: that order has
 * them so. */
static void other_order(const table *t, unsigned how) {
    table other = copy_of(t);
    uint32_t version = version_of(t), i = byte() % (blocks_of(t) - 1);
    size_t width = width_of(version, t->bytes[6]);
    const uint8_t *one = block_in(t, i), *two = one + width;
    int exchange = how & 32 && one[0] && two[0] && one[0] != two[0] && home_of(t, label_of(two)) != i + 1;
    if (exchange) {
        memcpy(block_in(&other, i), two, width);
        memcpy(block_in(&other, i + 1), one, width);
    } else {
        arrange(&other, 3 - version);
    }
    int same = memcmp(other.bytes, t->bytes, t->length) == 0;
    (exchange ? exchanged : by_other_order)[version] += !same;
    must(check(&other, how) == (same ? 0 : 4), "chunks as the other version's order has them are no table");
    if (!same) refused(&other, how);
    free(other.bytes);
}

/* The table, of version 2, with another price in one node, used or not. Only an order has one, and each has. */
static void other_price(const model *m, const table *t, unsigned how) {
    table other = copy_of(t);
    uint8_t *block = other.bytes + 53 + byte() % m->blocks * width_of(2, m->nodes);
    uint32_t used = block[1], i = byte() % (used && used < m->nodes ? used + 1 : m->nodes); /* up to the first that is not used */
    uint32_t b = byte(), price = b < 100 ? 0 : b < 240 ? b : word();
    uint8_t *node = block + 8 + 16 * i;
    uint32_t key = number_at(node), is_order = block[0] == 1 && i < used && key;
    write_number(node + 12, price);
    must(check(&other, how) == ((price != 0) == is_order ? 0 : 4), "each order of version 2 has a price, and nothing else has");
    if ((price != 0) != is_order) refused(&other, how);
    else if (is_order) {
        static model as;
        as = *m;
        as.held[place_of(m, key)].price = price;
        lookup(&as, &other, key, how + 1);
        descent(&as, &other, key, 2 * LONGEST_WAY, how + 2);
        seek(&as, &other, key, key, 0, how + 3);
    }
    free(other.bytes);
}

/* The table lent shorter or longer than it is. */
static void other_length(const table *t, unsigned how) {
    size_t length = how % 2 ? t->length - 1 - byte() % t->length : t->length + 1 + byte() % 40;
    table other = {calloc(length ? length : 1, 1), length};
    must(other.bytes != NULL, "no memory");
    memcpy(other.bytes, t->bytes, length < t->length ? length : t->length);
    must(check(&other, how) == 4, "a table of another length is none");
    refused(&other, how);
    free(other.bytes);
}

/* A copy of the table with some bytes changed, or with a block moved or in the place of another too. */
static void other_bytes(const model *m, const table *t, int blocks, unsigned how) {
    table other = copy_of(t);
    size_t width = width_of(m->version, m->nodes);
    uint8_t *one = other.bytes + 53 + byte() % m->blocks * width, *two = other.bytes + 53 + byte() % m->blocks * width;
    for (uint32_t i = 0, changes = 1 + how / 64; !blocks && i < changes; i++) {
        uint8_t *place = one + byte() * width / 256;
        *(how & 32 ? other.bytes + byte() % 53 : place) = (uint8_t)byte();
    }
    for (size_t i = 0; blocks && i < width; i++) {
        uint8_t old = one[i];
        if (how & 32) one[i] = two[i];
        two[i] = old;
    }
    foreign(&other, how);
    free(other.bytes);
}

/* Enters mostly ask for free keys and amends for held ones, so that tables fill; a quarter of each asks for the others. */
static void step(model *m, table *t) {
    uint32_t kind = byte(), how = byte(), quarter = kind / 16 % 4 == 0;
    switch (kind % 16) {
    case 0: case 1: case 2: case 3: step_change(m, t, ENTER, quarter, how); return;
    case 4: case 5: case 6: step_change(m, t, AMEND, !quarter, how); return;
    case 7: case 8: step_cancel(m, t, how); return;
    case 9: {
        uint32_t key = some_key(m);
        lookup(m, t, key, how);
        descent(m, t, key, byte() % 80, how + 1);
        return;
    }
    case 10: {
        uint32_t lo = some_key(m), hi = some_key(m);
        size_t row = row_of(m->version);
        span(m, t, lo, hi, row * (byte() % (MOST_ORDERS + 2)) + byte() % (row + 1), how);
        return;
    }
    case 11: {
        uint32_t lo = some_key(m), hi = how & 16 ? lo : some_key(m);
        seek(m, t, lo, hi, some_reserve(m), how);
        return;
    }
    case 12: {
        uint32_t turn = byte();
        another_way(m, t, turn, some_key(m), how);
        return;
    }
    case 13:
        if (kind & 128) other_version(t, how);
        else if (how & 64) any_make(how);
        else other_length(t, how);
        return;
    case 14:
        if (kind & 128) other_rows(m, t, how);
        else if (m->version == 2 && kind & 64) other_price(m, t, how);
        else other_bytes(m, t, 0, how);
        return;
    default:
        if (kind & 128) other_order(t, how);
        else other_bytes(m, t, 1, how);
    }
}

static void calls(uint32_t version) {
    static model m;
    m = (model){.version = version, .gamma = 2 + byte() % 63, .nodes = 2 + byte() % 31};
    m.orders = 1 + byte() % MOST_ORDERS;
    m.beta = beta_of(m.gamma, m.orders);
    uint32_t more = byte();
    m.blocks = m.beta + (more < 250 ? more % 50 : (m.orders + 1) * m.beta);
    some_seed(&m);
    table t = {NULL, length_of(version, m.nodes, m.blocks)};
    must(BALLUCHAW_LENGTH(version, m.nodes, m.blocks) == t.length && BALLUCHAW_ROW(version) == row_of(version), "the header's lengths are right");
    t.bytes = malloc(t.length);
    must(t.bytes != NULL, "no memory");
    memset(t.bytes, 0xa5, t.length);
    must(make(&m, &t, byte()) == 0, "make accepts allowed sizes");
    must(check(&t, 0) == 0, "a new table is one");
    for (int i = 0; i < MOST_STEPS && left > 0; i++) step(&m, &t);
    span(&m, &t, 1, P - 1, row_of(version) * m.n, 1);
    if (m.n) span(&m, &t, 1, P - 1, row_of(version) * m.n - 1, 2);
    for (uint32_t i = 0; i < m.n; i++) descent(&m, &t, m.held[i].key, 2 * LONGEST_WAY, i);
    another_way(&m, &t, m.n / 2 + 1, 9, 2);
    free(t.bytes);
}

/* A block with few levels, first keys, chunk numbers and keys, so that some lead to others. A great count stays. */
static void narrow(uint8_t *b, size_t row, uint32_t nodes, uint32_t beta) {
    b[0] = (uint8_t)(1 + b[0] % beta);
    if (b[1] < 240) b[1] = (uint8_t)(b[1] % (nodes + 2));
    b[2] = 0;
    b[3] %= 4;
    write_number(b + 4, b[7] % 4 * (b[6] % 2));
    for (uint32_t i = 0; i < nodes; i++) write_number(b + 8 + row * i, b[11 + row * i] % 8);
}

/* Chunks of no lists, each where a search for its label finds it; two blocks stay empty. */
static void made_up(table *t) {
    uint8_t *b = t->bytes;
    b[5] = (uint8_t)(2 + b[5] % 7);
    b[7] = b[11] = 0;
    b[8] = (uint8_t)(1 + b[8] % 32);
    b[12] = (uint8_t)(b[12] % (b[8] + 1));
    uint32_t nodes = b[6], blocks = blocks_of(t), beta = beta_of(b[5], b[8]);
    if (blocks < beta || blocks > 64) return;
    for (uint32_t i = 0; i < blocks; i++) narrow(block_in(t, i), row_of(b[0]), nodes, beta);
    memset(block_in(t, blocks - 2), 0, 2 * width_of(b[0], nodes));
    arrange(t, b[0]);
}

/* The first byte's lowest bit asks for a header that agrees with the length, so that more inputs come past rule 1; the next asks for blocks
 * through which a descent finds some way. */
static void raw(uint32_t first) {
    size_t length = left < LONGEST_RAW ? left : LONGEST_RAW;
    table t = {malloc(length ? length : 1), length};
    must(t.bytes != NULL, "no memory");
    if (length) memcpy(t.bytes, input, length);
    uint32_t nodes = length >= 53 ? t.bytes[6] : 0;
    if (first & 1 && nodes >= 2 && nodes <= 32) {
        uint32_t version = t.bytes[0] == 2 ? 2 : 1;
        size_t width = width_of(version, nodes), blocks = (length - 53) / width;
        t.length = 53 + blocks * width;
        t.bytes[0] = (uint8_t)version;
        write_number(t.bytes + 1, (uint32_t)t.length);
        t.bytes[9] = (uint8_t)(blocks >> 8);
        t.bytes[10] = (uint8_t)blocks;
        for (int i = 13; i < 53; i += 4) t.bytes[i] &= 0x7f;
        if (first & 2) made_up(&t);
    }
    foreign(&t, first / 2);
    free(t.bytes);
}

int LLVMFuzzerTestOneInput(const uint8_t *data, size_t size);
int LLVMFuzzerTestOneInput(const uint8_t *data, size_t size) {
    input = data;
    left = size;
    uint32_t first = byte();
    if (first < FIRST_RAW) calls(1 + first % 2);
    else raw(first);
    return 0;
}
