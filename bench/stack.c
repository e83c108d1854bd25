/* Measures the stack of each call: it runs on a stack painted with a pattern, and the bytes from the lowest that it has overwritten on are counted. A call of
 * nothing is taken off. γ 2 and room for 65,535 orders give 18 levels, the most there are. On the stairs every list has one more chunk full, and its last
 * node opens the next list down: the longest way that a walk can have open. Prints the most that each call took on each table, of both versions, and the most of
 * all calls of a version. */
#include "balluchaw.h"
#include "peers/common.h"
#include "rust/peers.h"

#include <ucontext.h>

enum { PAINT = 0xA5, STACK = 4 << 20, KEYS = 4, CALLS = 9, LEVELS = 18, MOST_ORDERS = 65535 };

static const char *const names[CALLS] = {"make", "check", "lookup", "span", "seek", "enter", "amend", "cancel", "descent"};

static u8 stack[STACK] __attribute__((aligned(64)));
static ucontext_t caller, callee;

/* What the call that runs on the painted stack is given. */
static u8 *table, *output;
static size_t length, room;
static u32 key, price, answer;

static void nothing(void) {}
static void make(void) { answer = balluchaw_make(output, length, table[0], table[5], table[6], be16(table + 7), be16(table + 9), table + 13, 40); }
static void check(void) { answer = balluchaw_check(table, length); }
static void lookup(void) { answer = balluchaw_lookup(table, length, key).number; }
static void span(void) { answer = balluchaw_span(table, length, 1, P31 - 1, output, room).number; }
static void seek(void) { answer = balluchaw_seek(table, length, 1, key, UINT32_MAX).number % 12; }
static void enter(void) { answer = balluchaw_enter(table, length, key, 2, 1, price); }
static void amend(void) { answer = balluchaw_amend(table, length, key, 2, 1, price); }
static void cancel(void) { answer = balluchaw_cancel(table, length, key); }

static void descent(void) { answer = balluchaw_descent(table, length, key, output, length).number; }

static void run_on_stack(void (*function)(void)) {
    memset(stack, PAINT, STACK);
    getcontext(&callee);
    callee.uc_stack.ss_sp = stack;
    callee.uc_stack.ss_size = STACK;
    callee.uc_link = &caller;
    makecontext(&callee, function, 0);
    swapcontext(&caller, &callee);
}

/* Bytes of the stack that a function overwrites, itself and all that it calls. */
static size_t used(void (*function)(void)) {
    size_t untouched = 0;
    answer = 0;
    run_on_stack(function);
    while (untouched < STACK && stack[untouched] == PAINT) untouched++;
    if (answer != 0) {
        fprintf(stderr, "a call answers %u\n", answer);
        exit(1);
    }
    return STACK - untouched;
}

static void keep_most(size_t *most, void (*function)(void)) {
    static size_t empty;
    if (!empty) empty = used(nothing);
    size_t now = used(function) - empty;
    if (now > *most) *most = now;
}

/* All calls with keys from all over the table. What is entered was cancelled just before. */
static void measure(size_t most[CALLS]) {
    u32 held = be16(table + 11);
    keep_most(&most[0], make);
    keep_most(&most[1], check);
    keep_most(&most[3], span);
    u8 *rows = malloc(room);
    if (!rows) exit(2);
    memcpy(rows, output, room);
    for (u32 i = 0; i < KEYS; i++) {
        key = be32(rows + BALLUCHAW_ROW(table[0]) * ((u64)i * (held - 1) / (KEYS - 1)));
        keep_most(&most[2], lookup);
        keep_most(&most[4], seek);
        keep_most(&most[8], descent);
        keep_most(&most[6], amend);
        keep_most(&most[7], cancel);
        keep_most(&most[5], enter);
    }
    free(rows);
}

static size_t deepest[3]; /* of any call, by version */

static void print_table(const char *name) {
    size_t most[CALLS] = {0};
    room = BALLUCHAW_ROW(table[0]) * be16(table + 11);
    price = table[0] == 1 ? 0 : 3;
    output = malloc(length > room ? length : room);
    if (!output) exit(2);
    measure(most);
    printf("%-40s %7u", name, table[0]);
    for (int i = 0; i < CALLS; i++) {
        printf(" %7zu", most[i]);
        if (most[i] > deepest[table[0]]) deepest[table[0]] = most[i];
    }
    printf("\n");
    free(output);
}

static void made_up(u32 version, const char *name, u32 nodes, u32 held, u32 shape) {
    table = sample_new(2, nodes, MOST_ORDERS, held, 80, shape, &length);
    if (version == 2) {
        u8 *plain = table;
        size_t plain_length = length;
        table = priced_new(plain, plain_length, &length);
        sample_free(plain, plain_length);
    }
    print_table(name);
    sample_free(table, length);
}

/* Under h(x) = x a key's level tells how often 2 divides it. From the top down, nodes - 1 keys of each level, all above the last key of the level before:
 * with the node that opens it, each list's last partition is one full chunk. */
static void stairs(u32 version, const char *name, u32 nodes) {
    u32 blocks = LEVELS * LEVELS * nodes, last = 0;
    u8 seed[40] = {[7] = 1, [27] = 1};
    length = BALLUCHAW_LENGTH(version, nodes, blocks);
    table = malloc(length);
    if (!table || balluchaw_make(table, length, version, 2, nodes, MOST_ORDERS, blocks, seed, sizeof seed) != 0) exit(1);
    for (u32 level = LEVELS; level >= 1; level--)
        for (u32 i = 1; i < nodes; i++) {
            last += (level == LEVELS || i == 1 ? 1u : 2u) << (level - 1);
            if (balluchaw_enter(table, length, last, 2, 1, version == 1 ? 0 : last) != 0) exit(1);
        }
    print_table(name);
    free(table);
}

int main(void) {
    printf("%-40s %7s", "bytes of stack, 18 levels", "version");
    for (int i = 0; i < CALLS; i++) printf(" %7s", names[i]);
    printf("\n");
    for (u32 version = 1; version <= 2; version++) {
        stairs(version, "stairs, B 32, 558 orders", 32);
        stairs(version, "stairs, B 2, 18 orders", 2);
        made_up(version, "random, B 32, 10,000 orders", 32, 10000, RANDOM);
        made_up(version, "all orders in all lists, B 32, 2,000", 32, 2000, TALL);
        made_up(version, "one partition, B 32, 10,000 orders", 32, 10000, FLAT);
    }
    printf("the deepest call takes %zu bytes on tables of version 1, %zu on those of version 2\n", deepest[1], deepest[2]);
    return 0;
}
