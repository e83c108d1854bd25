/* Faults planted between the fuzz target and the archive, one for each value of FAULT in the environment; the target must stop at each.
 * The linker's --wrap leads the calls here. */
#include "balluchaw.h"

#include <stdlib.h>
#include <string.h>

uint32_t __real_balluchaw_make(uint8_t *table, size_t length, uint32_t version, uint32_t gamma, uint32_t nodes, uint32_t orders, uint32_t blocks,
                               const uint8_t *seed, size_t seed_length);
uint32_t __real_balluchaw_check(const uint8_t *table, size_t length);
uint32_t __real_balluchaw_enter(uint8_t *table, size_t length, uint32_t key, uint32_t total, uint32_t displayed, uint32_t price);
uint32_t __real_balluchaw_amend(uint8_t *table, size_t length, uint32_t key, uint32_t total, uint32_t displayed, uint32_t price);
uint32_t __real_balluchaw_cancel(uint8_t *table, size_t length, uint32_t key);
balluchaw_reply __real_balluchaw_lookup(const uint8_t *table, size_t length, uint32_t key);
balluchaw_reply __real_balluchaw_descent(const uint8_t *table, size_t length, uint32_t key, uint8_t *path, size_t path_length);
balluchaw_reply __real_balluchaw_span(const uint8_t *table, size_t length, uint32_t lo, uint32_t hi, uint8_t *output, size_t output_length);
balluchaw_reply __real_balluchaw_seek(const uint8_t *table, size_t length, uint32_t lo, uint32_t hi, uint32_t reserve);

static int fault(int which) {
    static int planted = -1;
    if (planted < 0) planted = getenv("FAULT") ? atoi(getenv("FAULT")) : 0;
    return planted == which;
}

static volatile uint8_t seen;

static uint32_t number_at(const uint8_t *p) { return (uint32_t)p[0] << 24 | (uint32_t)p[1] << 16 | (uint32_t)p[2] << 8 | p[3]; }

static void write_number(uint8_t *p, uint32_t n) {
    for (int i = 0; i < 4; i++) p[i] = (uint8_t)(n >> (24 - 8 * i));
}

static uint8_t *copy_of(const uint8_t *table, size_t length) {
    uint8_t *copy = malloc(length + 1);
    if (!copy) abort();
    if (length) memcpy(copy, table, length);
    return copy;
}

/* What the first bytes say; they may belong to no table. */
static int is_version(const uint8_t *table, size_t length, uint32_t version) { return length >= 53 && table[0] == version; }

static size_t row_of(const uint8_t *table) { return table[0] == 1 ? 12 : 16; }

static size_t width_of(const uint8_t *table) { return 8 + row_of(table) * table[6]; }

/* Whether the last block is used; its last byte is free in any case while the block is not full. What is no table may have no such block. */
static int last_byte_free(const uint8_t *table, size_t length) {
    size_t width = width_of(table);
    return 53 + width <= length && table[length - width + 1] < table[6];
}

/* ---- archives that keep other bytes, in every call alike: what the real one is shown, and what is kept of what it leaves ---- */

/* Calls with every node of a version 2 table that its block counts. */
static void each_node(uint8_t *table, size_t length, void (*visit)(uint8_t *node, int is_order)) {
    if (!is_version(table, length, 2)) return;
    size_t width = width_of(table);
    for (uint8_t *block = table + 53; block + width <= table + length; block += width)
        for (uint32_t i = 0; i < block[1] && i < table[6]; i++) {
            uint8_t *node = block + 8 + 16 * i;
            visit(node, block[0] == 1 && number_at(node) != 0);
        }
}

static void clear_price(uint8_t *node, int is_order) {
    if (!is_order) write_number(node + 12, 0);
}

static void set_price(uint8_t *node, int is_order) {
    if (is_order && number_at(node + 12) == 0) write_number(node + 12, 1);
}

/* The check of a copy in which the nodes were seen to. */
static uint32_t checked_after(const uint8_t *table, size_t length, void (*visit)(uint8_t *node, int is_order)) {
    uint8_t *copy = copy_of(table, length);
    each_node(copy, length, visit);
    uint32_t number = __real_balluchaw_check(copy, length);
    free(copy);
    return number;
}

/* Fault 4 counts its enters in the last byte where that is free, and no call of it reads that byte. */
static int counts_enters(const uint8_t *table, size_t length) { return fault(4) && length >= 200 && last_byte_free(table, length); }

/* In fault 61 nodes above level 1 have the price of their order too. */
static const uint8_t *plain_table;
static size_t plain_length;

static void copy_price(uint8_t *node, int is_order) {
    if (!is_order) write_number(node + 12, __real_balluchaw_lookup(plain_table, plain_length, number_at(node)).price);
}

static void put_prices(uint8_t *table, size_t length) {
    uint8_t *plain = copy_of(table, length);
    plain_table = plain;
    plain_length = length;
    each_node(table, length, copy_price);
    free(plain);
}

/* ---- other orders of the labels ---- */

typedef struct {
    uint32_t level, chunk, first;
} label;

static uint32_t short_at(const uint8_t *p) { return (uint32_t)p[0] << 8 | p[1]; }

static label label_of(const uint8_t *block) { return (label){block[0], short_at(block + 2), number_at(block + 4)}; }

static uint32_t levels_of(const uint8_t *table) {
    uint32_t levels = 2;
    for (uint64_t power = 1; power < short_at(table + 7); power *= table[5]) levels++;
    return levels;
}

/* Whether one label is smaller than another in a table of this version with so many levels. */
typedef int order_of_labels(uint32_t version, uint32_t levels, label one, label two);

static int smaller_key(label one, label two) { return one.first != two.first ? one.first < two.first : one.chunk < two.chunk; }

static int as_first(uint32_t version, uint32_t levels, label one, label two) {
    (void)version, (void)levels;
    return one.level != two.level ? one.level < two.level : smaller_key(one, two);
}

static int as_second(uint32_t version, uint32_t levels, label one, label two) {
    (void)version, (void)levels;
    return one.level != two.level ? one.level > two.level : smaller_key(one, two);
}

static int right_order(uint32_t version, uint32_t levels, label one, label two) { return (version == 1 ? as_first : as_second)(version, levels, one, two); }

static int other_order(uint32_t version, uint32_t levels, label one, label two) { return (version == 1 ? as_second : as_first)(version, levels, one, two); }

/* The top first in version 2, the other levels rising. */
static int top_alone(uint32_t version, uint32_t levels, label one, label two) {
    if (version == 2 && (one.level == levels) != (two.level == levels)) return one.level == levels;
    return as_first(version, levels, one, two);
}

static int keys_falling(uint32_t version, uint32_t levels, label one, label two) {
    if (one.level != two.level || one.first == two.first) return right_order(version, levels, one, two);
    return one.first > two.first;
}

static int chunks_falling(uint32_t version, uint32_t levels, label one, label two) {
    if (one.level != two.level || one.first != two.first) return right_order(version, levels, one, two);
    return one.chunk > two.chunk;
}

static int chunk_before_key(uint32_t version, uint32_t levels, label one, label two) {
    if (one.level != two.level || one.chunk == two.chunk) return right_order(version, levels, one, two);
    return one.chunk < two.chunk;
}

/* Faults 70 to 75: archives that place and look for chunks by these, in every call alike. */
static order_of_labels *const other_orders[] = {as_first, as_second, top_alone, keys_falling, chunks_falling, chunk_before_key};

static order_of_labels *planted_order(void) {
    for (int i = 0; i < 6; i++)
        if (fault(70 + i)) return other_orders[i];
    return NULL;
}

/* Whether the bytes have a header of sizes that may be, so that there are blocks to go through. */
static int has_blocks(const uint8_t *table, size_t length) {
    if (length < 53 || table[0] < 1 || table[0] > 2 || table[5] < 2 || table[6] < 2 || table[6] > 32 || short_at(table + 9) == 0) return 0;
    return length == 53 + short_at(table + 9) * width_of(table);
}

static uint32_t home_of(const uint8_t *table, label l) {
    uint64_t sum = 0;
    for (int i = 4; i >= 0; i--) sum = (sum * l.first + number_at(table + 33 + 4 * i)) % 2147483647;
    return (uint32_t)((sum + 65536 * (uint64_t)l.level + l.chunk) % 2147483647 % short_at(table + 9));
}

/* Places whatever stands in the blocks anew by an order: the smallest that is left, at the first free block from its home. */
static void arrange(uint8_t *table, size_t length, order_of_labels *is_smaller) {
    if (!has_blocks(table, length)) return;
    uint32_t blocks = short_at(table + 9), levels = levels_of(table);
    size_t width = width_of(table);
    uint8_t *all = copy_of(table + 53, length - 53);
    memset(table + 53, 0, length - 53);
    for (;;) {
        uint8_t *least = NULL;
        for (uint8_t *block = all; block < all + length - 53; block += width)
            if (block[0] && (!least || is_smaller(table[0], levels, label_of(block), label_of(least)))) least = block;
        if (!least) break;
        uint32_t at = home_of(table, label_of(least));
        while (table[53 + at * width]) at = (at + 1) % blocks;
        memcpy(table + 53 + at * width, least, width);
        least[0] = 0;
    }
    free(all);
}

/* Whether the blocks stand by an order. A block of level 0 that is not empty stands by none. */
static int stands_by(const uint8_t *table, size_t length, order_of_labels *is_smaller) {
    uint8_t *copy = copy_of(table, length);
    arrange(copy, length, is_smaller);
    int same = memcmp(copy, table, length) == 0;
    free(copy);
    return same;
}

/* The table that the real archive is shown by one that goes by another order. */
static void put_right(uint8_t *copy, size_t length, order_of_labels *planted, int descends) {
    if (!stands_by(copy, length, planted) && !descends && length) copy[0] = 0;
    else arrange(copy, length, right_order);
}

/* A path through the table that was shown becomes one through the table itself: to the blocks with the same heads. */
static void lead_back(const uint8_t *table, const uint8_t *copy, uint8_t *path, uint32_t count) {
    size_t width = width_of(table);
    uint32_t blocks = short_at(table + 9);
    for (uint32_t i = 0; i < count && short_at(path + 2 * i) < blocks; i++) {
        uint32_t at = 0;
        const uint8_t *head = copy + 53 + short_at(path + 2 * i) * width;
        while (at + 1 < blocks && memcmp(table + 53 + at * width, head, 8) != 0) at++;
        path[2 * i] = (uint8_t)(at >> 8);
        path[2 * i + 1] = (uint8_t)at;
    }
}

/* A copy of the table as the real archive sees it, to be freed. What such an archive would not have written is shown to be none, but not to a
 * descent, which asks the header alone. */
static uint8_t *shown(const uint8_t *table, size_t length, int descends) {
    uint8_t *copy = copy_of(table, length);
    if (counts_enters(table, length)) copy[length - 1] = 0;
    if (planted_order()) put_right(copy, length, planted_order(), descends);
    if (!fault(61) || !is_version(table, length, 2)) return copy;
    each_node(copy, length, clear_price);
    uint8_t *again = copy_of(copy, length);
    put_prices(again, length);
    if (!descends && memcmp(again, table, length) != 0) copy[0] = 0;
    free(again);
    return copy;
}

/* Takes over what a successful edit of the shown table left. */
static uint32_t edited(uint8_t *table, size_t length, uint8_t *copy, uint32_t number, int entered) {
    if (number == 0) {
        uint8_t count = counts_enters(table, length) ? table[length - 1] : 0;
        memcpy(table, copy, length);
        if (counts_enters(table, length)) table[length - 1] = (uint8_t)(count + entered);
        if (fault(61)) put_prices(table, length);
        if (planted_order()) arrange(table, length, planted_order());
        if (fault(77) && entered) arrange(table, length, other_order);
    }
    free(copy);
    return number;
}

/* ---- the calls ---- */

uint32_t __wrap_balluchaw_make(uint8_t *table, size_t length, uint32_t version, uint32_t gamma, uint32_t nodes, uint32_t orders, uint32_t blocks,
                               const uint8_t *seed, size_t seed_length) {
    uint32_t number = __real_balluchaw_make(table, length, version, gamma, nodes, orders, blocks, seed, seed_length);
    if (fault(62) && version == 3) return __real_balluchaw_make(table, length, 2, gamma, nodes, orders, blocks, seed, seed_length);
    if (fault(63) && version == 0) return __real_balluchaw_make(table, length, 2, gamma, nodes, orders, blocks, seed, seed_length);
    if (fault(68) && number == 1 && version != 1 && version != 2) return 2;
    if (fault(69) && number == 3 && version == 2 && length == BALLUCHAW_LENGTH(1, nodes, blocks)) return 0;
    if (number == 0 && planted_order()) arrange(table, length, planted_order());
    if (fault(76) && number == 0) arrange(table, length, other_order);
    return number;
}

/* Version 3 taken for 2. */
static uint32_t check_of_three(const uint8_t *table, size_t length) {
    uint8_t *copy = copy_of(table, length);
    copy[0] = 2;
    uint32_t number = __real_balluchaw_check(copy, length);
    free(copy);
    return number;
}

/* A check that does not see by which version's order the chunks stand. */
static uint32_t check_of_either(const uint8_t *table, size_t length) {
    uint8_t *copy = copy_of(table, length);
    if (stands_by(table, length, other_order)) arrange(copy, length, right_order);
    uint32_t number = __real_balluchaw_check(copy, length);
    free(copy);
    return number;
}

uint32_t __wrap_balluchaw_check(const uint8_t *table, size_t length) {
    if (fault(1) && (is_version(table, length, 1) || is_version(table, length, 2))) return 0; /* a check that looks at the version alone */
    if (fault(2) && length) seen = table[-1];
    if (fault(3) && length) seen = table[length];
    if (fault(64) && is_version(table, length, 3)) return check_of_three(table, length);
    if (fault(66)) return checked_after(table, length, set_price);
    if (fault(67)) return checked_after(table, length, clear_price);
    if (fault(79)) return check_of_either(table, length);
    if (fault(80) && !stands_by(table, length, other_order)) return 4; /* searches by the other version's order */
    uint8_t *copy = shown(table, length, 0);
    uint32_t number = __real_balluchaw_check(copy, length);
    free(copy);
    return number;
}

static int is_held(const uint8_t *table, size_t length, uint32_t key) { return __real_balluchaw_lookup(table, length, key).number == 0; }

/* Whether the header has as many orders as it allows; whether every block has a chunk. */
static int no_order_free(const uint8_t *table) { return table[7] == table[11] && table[8] == table[12]; }

static int no_block_free(const uint8_t *table, size_t length) {
    for (size_t at = 53; at < length; at += width_of(table))
        if (table[at] == 0) return 0;
    return 1;
}

enum { LAST_KEY = 2147483646 };

static int is_key(uint32_t key) { return key >= 1 && key <= LAST_KEY; }

static int are_quantities(uint32_t total, uint32_t displayed) { return total >= 1 && displayed <= total; }

/* Whether only the price stands against an enter or amend that answered 6. */
static int only_price(uint32_t number, uint32_t total, uint32_t displayed) { return number == 6 && are_quantities(total, displayed); }

/* Faults in which question comes first, or in what becomes of a held key. */
static uint32_t faulty_enter(uint8_t *table, size_t length, uint32_t key, uint32_t total, uint32_t displayed, uint32_t price, uint32_t number) {
    if (fault(22) && number == 13) return __real_balluchaw_amend(table, length, key, total, displayed, price); /* overwrites a held key */
    if (fault(23) && number == 13 && no_order_free(table)) return 7;
    if (fault(24) && number == 13 && no_block_free(table, length)) return 8;
    if (fault(25) && number == 6 && is_held(table, length, key)) return 13;
    if (fault(42) && only_price(number, total, displayed)) return __real_balluchaw_enter(table, length, key, total, displayed, 1); /* takes price 0 */
    if (fault(44) && number == 14 && !is_key(key)) return 5;
    if (fault(46) && number == 14 && is_key(key) && !are_quantities(total, displayed)) return 6;
    if (fault(48) && number == 14 && is_held(table, length, key)) return 13;
    if (fault(50) && number == 4 && is_version(table, length, 1) && price) return 14;
    if (fault(51) && number == 14) return __real_balluchaw_enter(table, length, key, total, displayed, 0); /* leaves the price out */
    if (fault(52) && number == 5 && is_version(table, length, 2) && price == 0) return 6;
    if (fault(53) && only_price(number, total, displayed) && is_held(table, length, key)) return 13;
    return number;
}

uint32_t __wrap_balluchaw_enter(uint8_t *table, size_t length, uint32_t key, uint32_t total, uint32_t displayed, uint32_t price) {
    uint8_t *copy = shown(table, length, 0);
    uint32_t number = edited(table, length, copy, __real_balluchaw_enter(copy, length, key, total, displayed, price), 1);
    if (fault(5) && number == 8) table[20] ^= 1; /* a refused enter that leaves a trace */
    return faulty_enter(table, length, key, total, displayed, price, number);
}

/* Faults in the price of an amend, and in when it is asked for. */
static uint32_t faulty_price(uint8_t *table, size_t length, uint32_t key, uint32_t total, uint32_t displayed, balluchaw_reply old, uint32_t number) {
    int held = old.number == 0;
    if (fault(41) && number == 0) return __real_balluchaw_amend(table, length, key, total, displayed, old.price); /* the price stays */
    if (fault(43) && only_price(number, total, displayed) && held) return __real_balluchaw_amend(table, length, key, total, displayed, old.price);
    if (fault(45) && number == 14 && !is_key(key)) return 5;
    if (fault(47) && number == 14 && is_key(key) && !are_quantities(total, displayed)) return 6;
    if (fault(49) && number == 14 && old.number == 9) return 9;
    if (fault(53) && only_price(number, total, displayed) && !held) return 9;
    return number;
}

uint32_t __wrap_balluchaw_amend(uint8_t *table, size_t length, uint32_t key, uint32_t total, uint32_t displayed, uint32_t price) {
    balluchaw_reply old = __real_balluchaw_lookup(table, length, key);
    uint8_t *copy = shown(table, length, 0);
    uint32_t number = edited(table, length, copy, __real_balluchaw_amend(copy, length, key, total, displayed, price), 0);
    if (fault(26) && number == 9) return __real_balluchaw_enter(table, length, key, total, displayed, price); /* adds a key */
    if (fault(27) && number == 6 && old.number == 9) return 9;
    /* One of the two quantities stays, where it fits the other. */
    if (fault(28) && number == 0 && old.displayed <= total) return __real_balluchaw_amend(table, length, key, total, old.displayed, price);
    if (fault(29) && number == 0 && displayed <= old.total) return __real_balluchaw_amend(table, length, key, old.total, displayed, price);
    /* Room is asked for, though none is needed. The order goes back to what it was, so that only the number is wrong. */
    int full = number == 0 && ((fault(30) && no_order_free(table)) || (fault(31) && no_block_free(table, length)));
    if (full) __real_balluchaw_amend(table, length, key, old.total, old.displayed, old.price);
    if (full) return fault(30) ? 7 : 8;
    return faulty_price(table, length, key, total, displayed, old, number);
}

uint32_t __wrap_balluchaw_cancel(uint8_t *table, size_t length, uint32_t key) {
    uint8_t *copy = shown(table, length, 0);
    uint32_t number = edited(table, length, copy, __real_balluchaw_cancel(copy, length, key), 0);
    if (fault(6) && number == 0 && last_byte_free(table, length)) table[length - 1] = (uint8_t)(key | 1); /* a stale tail */
    if (fault(7) && number == 9) return 0;
    if (fault(78) && number == 0) arrange(table, length, other_order);
    return number;
}

balluchaw_reply __wrap_balluchaw_lookup(const uint8_t *table, size_t length, uint32_t key) {
    uint8_t *copy = shown(table, length, 0);
    balluchaw_reply reply = __real_balluchaw_lookup(copy, length, key);
    free(copy);
    if (fault(8) && reply.number == 9) reply.key = key;
    if (fault(57)) reply.price = 0;
    return reply;
}

/* Whether a search by the other version's order ends before it comes to the last block of a path. */
static int is_lost(const uint8_t *table, size_t length, const uint8_t *path, uint32_t count) {
    if (!has_blocks(table, length) || count == 0) return 0;
    size_t width = width_of(table);
    uint32_t last = short_at(path + 2 * (count - 1)), blocks = short_at(table + 9);
    label own = label_of(table + 53 + last * width);
    for (uint32_t i = home_of(table, own); i != last; i = (i + 1) % blocks)
        if (other_order(table[0], levels_of(table), own, label_of(table + 53 + i * width))) return 1;
    return 0;
}

balluchaw_reply __wrap_balluchaw_descent(const uint8_t *table, size_t length, uint32_t key, uint8_t *path, size_t path_length) {
    uint8_t *copy = shown(table, length, 1);
    if (fault(65) && is_version(table, length, 3)) copy[0] = 2;
    balluchaw_reply reply = __real_balluchaw_descent(copy, length, key, path, path_length);
    if (planted_order() && has_blocks(table, length)) lead_back(table, copy, path, reply.count);
    free(copy);
    if (fault(81) && reply.number == 0 && is_lost(table, length, path, reply.count)) return (balluchaw_reply){.number = 9, .count = reply.count};
    if (fault(58)) reply.price = 0;
    if (fault(11) && reply.number == 0) path[2 * reply.count] = 0; /* one byte too far */
    if (fault(12) && reply.number == 9) reply.count = 0;
    if (fault(13) && reply.count > 0) { /* the first number little-endian */
        uint8_t high = path[0];
        path[0] = path[1];
        path[1] = high;
    }
    /* Only on what is no table: more written than is counted, more counted than there is room for, more read than a block has. */
    int astray = (fault(14) || fault(15) || fault(16)) && reply.number != 4 && reply.number != 5 && __real_balluchaw_check(table, length) == 4;
    if (astray && fault(14) && 2 * (size_t)reply.count < path_length) path[2 * reply.count] ^= 1;
    if (astray && fault(15)) reply.count = (uint32_t)(path_length / 2 + 1);
    if (astray && fault(16)) { /* reads as many nodes of the last block as its count says */
        const uint8_t *block = table + length - width_of(table);
        for (uint32_t i = 0; block[0] == 1 && i < block[1]; i++) seen = block[8 + row_of(table) * i];
    }
    return reply;
}

/* How many orders lie in a range that a span was asked for. */
static size_t orders_in(const uint8_t *table, size_t length, uint32_t lo, uint32_t hi) {
    size_t room = row_of(table) * ((size_t)table[11] << 8 | table[12]);
    uint8_t *rows = malloc(room + 1);
    if (!rows) abort();
    uint32_t count = __real_balluchaw_span(table, length, lo, hi, rows, room).count;
    free(rows);
    return count;
}

/* Spans that count the bytes of the other version's rows. */
static balluchaw_reply other_eleven(const uint8_t *table, size_t length, uint32_t lo, uint32_t hi, size_t output_length, balluchaw_reply reply) {
    size_t count = reply.number == 0 ? reply.count : reply.number == 11 ? orders_in(table, length, lo, hi) : 0;
    if (fault(54) && reply.number == 11 && table[0] == 2 && 12 * count <= output_length) return (balluchaw_reply){.count = (uint32_t)count};
    if (fault(55) && reply.number == 0 && table[0] == 1 && 16 * count > output_length) return (balluchaw_reply){.number = 11};
    return reply;
}

balluchaw_reply __wrap_balluchaw_span(const uint8_t *table, size_t length, uint32_t lo, uint32_t hi, uint8_t *output, size_t output_length) {
    uint8_t *copy = shown(table, length, 0);
    balluchaw_reply reply = __real_balluchaw_span(copy, length, lo, hi, output, output_length);
    free(copy);
    if (fault(9) && reply.number == 0 && reply.count > 2) output[row_of(table) * reply.count] = 0; /* one byte too far */
    for (uint32_t i = 0; fault(56) && is_version(table, length, 2) && i < reply.count; i++) write_number(output + 16 * (size_t)i + 12, 0);
    if (fault(60) && is_version(table, length, 2) && reply.count) reply.price = number_at(output + 12);
    return other_eleven(table, length, lo, hi, output_length, reply);
}

/* Whether a seek takes an order, by other notions of what counts as reserve. */
typedef int takes(uint32_t total, uint32_t displayed, uint32_t reserve);

static int old_reserve(uint32_t total, uint32_t displayed, uint32_t reserve) { return total - displayed >= reserve; }

static int hidden_left_out(uint32_t total, uint32_t displayed, uint32_t reserve) { return displayed > 0 && old_reserve(total, displayed, reserve); }

static int hidden_at_one(uint32_t total, uint32_t displayed, uint32_t reserve) {
    return displayed == 0 ? reserve <= 1 : old_reserve(total, displayed, reserve);
}

static int hidden_at_total(uint32_t total, uint32_t displayed, uint32_t reserve) {
    return displayed == 0 ? reserve == 0 || reserve == total : old_reserve(total, displayed, reserve);
}

static int exact_refused(uint32_t total, uint32_t displayed, uint32_t reserve) {
    return reserve == 0 || (displayed > 0 && total - displayed > reserve);
}

/* Faults 17 to 21. They and 32 to 39 show only where lo is not held: a seek from one of a foreign table's orders does not meet them. */
static takes *const other_reserves[] = {old_reserve, hidden_left_out, hidden_at_one, hidden_at_total, exact_refused};

static const balluchaw_reply twelve = {12, 0, 0, 0, 0, 0};

/* The orders of the range that are taken, rising, each as a seek's answer; a 12 behind them. How many they are goes to `fit`. */
static balluchaw_reply *all_taken(takes *taken, const uint8_t *table, size_t length, uint32_t lo, uint32_t hi, uint32_t reserve, uint32_t *fit) {
    size_t held = (size_t)table[11] << 8 | table[12], width = row_of(table);
    uint8_t *rows = malloc(width * held + 1);
    balluchaw_reply *found = malloc((held + 1) * sizeof *found);
    if (!rows || !found) abort();
    uint32_t count = __real_balluchaw_span(table, length, lo, hi, rows, width * held).count;
    *fit = 0;
    for (uint32_t i = 0; i < count; i++) {
        const uint8_t *row = rows + width * i;
        uint32_t total = number_at(row + 4), displayed = number_at(row + 8), price = width == 16 ? number_at(row + 12) : 0;
        if (taken(total, displayed, reserve)) found[(*fit)++] = (balluchaw_reply){0, number_at(row), total, displayed, price, 0};
    }
    found[*fit] = twelve;
    free(rows);
    return found;
}

static balluchaw_reply first_taken(takes *taken, const uint8_t *table, size_t length, uint32_t lo, uint32_t hi, uint32_t reserve) {
    uint32_t fit;
    balluchaw_reply *found = all_taken(taken, table, length, lo, hi, reserve, &fit), first = found[0];
    free(found);
    return first;
}

static uint32_t reserve_of(uint32_t total, uint32_t displayed) { return displayed == 0 ? 0 : total - displayed; }

static int fits(uint32_t total, uint32_t displayed, uint32_t reserve) { return reserve_of(total, displayed) >= reserve; }

static int is_order(uint32_t total, uint32_t displayed, uint32_t reserve) { return (void)displayed, (void)reserve, total > 0; }

static uint32_t largest(const balluchaw_reply *found, uint32_t fit) {
    uint32_t most = 0;
    for (uint32_t i = 1; i < fit; i++)
        if (reserve_of(found[i].total, found[i].displayed) > reserve_of(found[most].total, found[most].displayed)) most = i;
    return most;
}

/* Faults 32 to 40: not the lowest that fits, or not its quantities. Only where hi is ignored is the number wrong too. */
static balluchaw_reply faulty_seek(const uint8_t *table, size_t length, uint32_t lo, uint32_t hi, uint32_t reserve, int again) {
    uint32_t fit;
    balluchaw_reply *found = all_taken(fits, table, length, lo, hi, reserve, &fit), reply = found[0];
    if ((fault(32) || fault(40)) && fit) reply = found[fit - 1]; /* the highest */
    if (fault(33) && fit) reply = first_taken(is_order, table, length, lo, hi, reserve); /* the lowest, has it the reserve or not */
    if (fault(34) && fit) reply = first_taken(fits, table, length, 1, LAST_KEY, reserve); /* the lowest of the whole table */
    if (fault(35)) reply = first_taken(fits, table, length, lo, LAST_KEY, reserve); /* hi is ignored */
    if (fault(36) && fit > 1) reply = found[1]; /* the second */
    if (fault(37)) reply = found[largest(found, fit)]; /* the one with the largest reserve */
    if (fault(38) && fit) reply.total = found[fit - 1].total, reply.displayed = found[fit - 1].displayed; /* another order's quantities */
    if (fault(39) && fit > 1 && again) reply = found[1]; /* goes on to the next when asked the same again */
    free(found);
    return reply;
}

/* Whether the same was asked just before. */
static int asked_again(uint32_t lo, uint32_t hi, uint32_t reserve) {
    static uint32_t last[3];
    uint32_t now[3] = {lo, hi, reserve};
    int same = memcmp(last, now, sizeof now) == 0;
    memcpy(last, now, sizeof now);
    return same;
}

balluchaw_reply __wrap_balluchaw_seek(const uint8_t *table, size_t length, uint32_t lo, uint32_t hi, uint32_t reserve) {
    uint8_t *copy = shown(table, length, 0);
    balluchaw_reply reply = __real_balluchaw_seek(copy, length, lo, hi, reserve);
    free(copy);
    if (fault(59)) reply.price = 0;
    if (fault(10) && reply.number == 0 && reserve > 100) return twelve;
    int again = asked_again(lo, hi, reserve);
    if (reply.number != 0 && reply.number != 12) return reply;
    if (fault(40) && table[12] > 48) return faulty_seek(table, length, lo, hi, reserve, again); /* in tables of more orders than the model's */
    if (is_held(table, length, lo)) return reply;
    for (size_t i = 0; i < sizeof other_reserves / sizeof *other_reserves; i++)
        if (fault(17 + (int)i)) return first_taken(other_reserves[i], table, length, lo, hi, reserve);
    for (int i = 32; i <= 39; i++)
        if (fault(i)) return faulty_seek(table, length, lo, hi, reserve, again);
    return reply;
}
