/* A small order gateway: a day's orders go into a table, the table into a file, and the open orders are read back from it: all, one by one, and by reserve.
 *
 *     cc gateway.c $(pkg-config --cflags --libs balluchaw) -o gateway
 *     ./gateway orders.table
 */
#include <balluchaw.h>

#include <stdio.h>
#include <stdlib.h>
#include <sys/random.h>

/* Version 2: each order has a limit price. The most chunks that 100 orders can make with these sizes are 310. With so many blocks an enter is never turned
 * down by question 8. */
enum { VERSION = 2, GAMMA = 16, NODES = 16, ORDERS = 100, BLOCKS = 310 };

static uint8_t table[BALLUCHAW_LENGTH(VERSION, NODES, BLOCKS)];

static const char *const answers[] = {
    "done", "the seed is none", "version or sizes are not allowed", "the buffer has another length", "the bytes are no table",
    "no such order number can be", "quantities or price are not allowed", "the table has its most orders", "the table has no block left",
    "no such order is open", "the span ends before it starts", "the output is too short", "no order has such a reserve",
    "that number is taken", "the table has no prices",
};

/* A new order and a change of an open one are two calls. If one call did either, an old number typed again would overwrite an open order, and a change
 * that comes too late would bring back an order that was pulled. */
enum kind { ENTER, AMEND, PULL };
static const char *const kinds[] = {"enter", "amend", "pull"};

enum { LAST = 2147483646 }; /* the largest number that an order can have */

static const struct { enum kind kind; uint32_t order, total, displayed, price; } day[] = {
    {ENTER, 4711, 500, 100, 995},
    {ENTER, 4715, 90, 90, 1002},
    {ENTER, 4712, 300, 300, 1010},
    {ENTER, 4720, 80, 100, 998},    /* more displayed than there is */
    {ENTER, 4721, 80, 80, 0},       /* no price */
    {PULL, 4712, 0, 0, 0},
    {ENTER, 4713, 2000, 0, 990},    /* wholly hidden */
    {ENTER, 4711, 60, 60, 1005},    /* a new order, but an old number */
    {ENTER, 4714, 60, 60, 1005},    /* the same, under a number that is free */
    {AMEND, 4711, 400, 100, 995},   /* 100 of them were filled; the price is given again, for an amend replaces it too */
    {AMEND, 4712, 300, 50, 1010},   /* too late: it was pulled */
    {PULL, 4712, 0, 0, 0},          /* and so is this */
    {PULL, 4715, 0, 0, 0},
    {ENTER, LAST, 900, 100, 1020},  /* before 4716, whose number is lower */
    {ENTER, 4716, 1200, 200, 1000},
    {AMEND, 4716, 1200, 200, 1001}, /* another price, the same quantities */
};

/* What cannot be mended here ends the program. */
static void must(int right, const char *what) {
    if (right) return;
    fprintf(stderr, "gateway: %s\n", what);
    exit(1);
}

/* Whoever knows the seed can choose order numbers that crowd the table, so it is random: ten numbers below 2^31, again while one of them is 2^31 - 1.
 * No answer of this day depends on it. */
static void make_table(void) {
    uint8_t seed[40];
    uint32_t number;
    do {
        must(getrandom(seed, sizeof seed, 0) == 40, "no random numbers");
        for (int i = 0; i < 40; i += 4) seed[i] &= 0x7f;
        number = balluchaw_make(table, sizeof table, VERSION, GAMMA, NODES, ORDERS, BLOCKS, seed, sizeof seed);
    } while (number == 1);
    must(number == 0, answers[number]);
}

static uint32_t ask(enum kind kind, uint32_t order, uint32_t total, uint32_t displayed, uint32_t price) {
    switch (kind) {
    case ENTER: return balluchaw_enter(table, sizeof table, order, total, displayed, price);
    case AMEND: return balluchaw_amend(table, sizeof table, order, total, displayed, price);
    default: return balluchaw_cancel(table, sizeof table, order);
    }
}

/* What stands under a number that somebody took for a free one. That is rare, so a lookup will do. */
static void print_taken(uint32_t order) {
    balluchaw_reply open = balluchaw_lookup(table, sizeof table, order);
    must(open.number == 0, answers[open.number]);
    printf("%8u stands as it was: %u of %u displayed, at %u\n", (unsigned)order, (unsigned)open.displayed, (unsigned)open.total, (unsigned)open.price);
}

/* Refusals go back to the dealer, and the gateway never tries the other call by itself. After 13 the dealer sees the open order, and either takes a free
 * number or amends. After an amend's 9 the order is gone: to enter it would bring it back. */
static void run_day(void) {
    for (size_t i = 0; i < sizeof day / sizeof day[0]; i++) {
        uint32_t number = ask(day[i].kind, day[i].order, day[i].total, day[i].displayed, day[i].price);
        must(number != 4, answers[4]); /* somebody else wrote the table: no order is safe in it */
        printf("%s %u: %s\n", kinds[day[i].kind], (unsigned)day[i].order, answers[number]);
        if (number == 13) print_taken(day[i].order);
    }
}

/* The bytes are the file: they tell which orders are open, and nothing of those that were pulled. */
static void save(const char *name) {
    FILE *file = fopen(name, "wb");
    must(file != NULL && fwrite(table, 1, sizeof table, file) == sizeof table, "the table cannot be written");
    must(fclose(file) == 0, "the table cannot be written");
}

/* A file comes from outside, so its bytes are checked before anybody relies on them. */
static void load(const char *name) {
    FILE *file = fopen(name, "rb");
    must(file != NULL && fread(table, 1, sizeof table, file) == sizeof table && fgetc(file) == EOF, "the file is no table of ours");
    fclose(file);
    must(balluchaw_check(table, sizeof table) == 0, answers[4]);
}

static unsigned number_at(const uint8_t *bytes) {
    return (unsigned)bytes[0] << 24 | (unsigned)bytes[1] << 16 | (unsigned)bytes[2] << 8 | bytes[3];
}

static void print_span(uint32_t lo, uint32_t hi) {
    static uint8_t rows[BALLUCHAW_ROW(VERSION) * ORDERS]; /* room for every order, so question 11 is always answered yes */
    balluchaw_reply span = balluchaw_span(table, sizeof table, lo, hi, rows, sizeof rows);
    must(span.number == 0, answers[span.number]);
    printf("%u open orders from %u to %u\n", (unsigned)span.count, (unsigned)lo, (unsigned)hi);
    for (const uint8_t *row = rows; row < rows + BALLUCHAW_ROW(VERSION) * span.count; row += BALLUCHAW_ROW(VERSION))
        printf("%8u: %u of %u displayed, at %u\n", number_at(row), number_at(row + 8), number_at(row + 4), number_at(row + 12));
}

/* What the desk asks all day. The table was checked when it was loaded and nobody else writes it, so a descent will do: it goes straight down to the
 * order, where a lookup would check the whole table again. Bytes that others may have written need the lookup. */
static void print_order(uint32_t order) {
    uint8_t path[2 * BLOCKS]; /* no path has more blocks than the table, so question 11 is always answered yes */
    balluchaw_reply found = balluchaw_descent(table, sizeof table, order, path, sizeof path);
    must(found.number == 0 || found.number == 9, answers[found.number]);
    printf("order %u, by %u blocks: ", (unsigned)order, (unsigned)found.count); /* there is a way to an order that is not open too */
    if (found.number == 0) printf("%u of %u displayed, at %u\n", (unsigned)found.displayed, (unsigned)found.total, (unsigned)found.price);
    else printf("%s\n", answers[found.number]);
}

/* What can still be offered behind what the market sees: the orders with so much in reserve, the lowest number first, whichever came first. A seek gives
 * the lowest from a number on, so the next one is sought from that + 1. Behind the last number there is none: a seek from there would be turned down, and
 * the loop ends before it. A wholly hidden order shows nothing, so it has no reserve, however large it is: of this day's orders 4713 has the most, and is
 * not found. */
static void print_reserve(uint32_t least) {
    uint32_t from = 1;
    printf("%u or more in reserve:", (unsigned)least);
    while (from <= LAST) {
        balluchaw_reply found = balluchaw_seek(table, sizeof table, from, LAST, least);
        if (found.number == 12) break; /* no more */
        must(found.number == 0, answers[found.number]);
        printf(" %u", (unsigned)found.key);
        from = found.key + 1;
    }
    if (from == 1) printf(" %s", answers[12]);
    printf("\n");
}

int main(int count, char **words) {
    const char *name = count > 1 ? words[1] : "orders.table";
    make_table();
    run_day();
    save(name);
    load(name);
    print_span(4700, 4799);
    print_order(4716);
    print_order(4712);
    print_reserve(500);
    print_reserve(1000);
    print_reserve(1500);
    return 0;
}
