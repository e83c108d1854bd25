/* Runs the archive on recorded vectors: lines on standard input, in the form that the reference's `vectors` describes.
 * Every lent buffer has exactly its length. By turns it stands against a page behind it and a page before it that nobody may touch; with the
 * word `heap` it is a heap block of its own, for a tool that watches those. A buffer of length 0 is by turns NULL and such a place. */
#define _GNU_SOURCE
#include "balluchaw.h"
#include "zone.h"

#include <inttypes.h>

enum { TABLE, SEED, OUTPUT };

static uint8_t *store;
static size_t size;
static unsigned long line_number, calls, wrong, lendings;
static zone zones[3];
static int heap;

static uint64_t fnv(const uint8_t *bytes, size_t n) {
    uint64_t h = 0xcbf29ce484222325u;
    for (size_t i = 0; i < n; i++) h = (h ^ bytes[i]) * 0x100000001b3u;
    return h;
}

static void same(int right, const char *what) {
    calls++;
    if (!right) {
        wrong++;
        if (wrong <= 10) fprintf(stderr, "line %lu: %s\n", line_number, what);
    }
}

static uint8_t *room(size_t n) {
    uint8_t *p = malloc(n);
    if (!p && n) abort();
    return p;
}

/* A buffer of n bytes to be lent. */
static uint8_t *borrow(int which, size_t n) {
    lendings++;
    if (n == 0 && lendings % 2) return NULL;
    if (heap) return room(n);
    uint8_t *p = zone_place(&zones[which], n, lendings / 2 % 2);
    zone_mark(&zones[which], p, n);
    return p;
}

static void give_back(int which, uint8_t *p, size_t n) {
    if (heap) free(p);
    else if (p) same(zone_whole(&zones[which], p, n), "bytes beside a buffer");
}

/* The first `length` bytes of the store, lent as a buffer of their own, and taken back afterwards. */
static uint8_t *lend(size_t length) {
    if (length > size) {
        fprintf(stderr, "line %lu: a table longer than the store\n", line_number);
        exit(2);
    }
    uint8_t *p = borrow(TABLE, length);
    if (length) memcpy(p, store, length);
    return p;
}

static void take_back(uint8_t *p, size_t length) {
    if (length) memcpy(store, p, length);
    give_back(TABLE, p, length);
}

static uint8_t hex_byte(const char *text, size_t i) {
    const char digits[3] = {text[2 * i], text[2 * i + 1], 0};
    char *end;
    unsigned long byte = strtoul(digits, &end, 16);
    if (end != digits + 2) exit(2);
    return (uint8_t)byte;
}

/* The bytes of a text, written where there is an output; how many they are. */
static size_t unhex(const char *text, uint8_t *out) {
    size_t n = strcmp(text, "-") == 0 ? 0 : strlen(text) / 2;
    for (size_t i = 0; out && i < n; i++) out[i] = hex_byte(text, i);
    return n;
}

static char *field(void) {
    char *t = strtok(NULL, " \n");
    if (!t) exit(2);
    return t;
}

static uint32_t number(void) { return (uint32_t)strtoul(field(), NULL, 10); }

static uint64_t hash_field(void) { return strtoull(field(), NULL, 16); }

static void equals_sign(void) {
    if (strcmp(field(), "=") != 0) exit(2);
}

/* The rest of an answer, behind its number: every part of the reply, of a seek too, since a definition says which order it gives. */
static void expect_rest(const char *call, balluchaw_reply got, uint32_t want_number) {
    uint32_t key = number(), total = number(), displayed = number(), price = number(), count = number();
    same(got.number == want_number && got.key == key && got.total == total && got.displayed == displayed && got.price == price && got.count == count, call);
    same(fnv(store, size) == hash_field(), "the bytes of the table");
}

static void expect(const char *call, balluchaw_reply got) { expect_rest(call, got, number()); }

static balluchaw_reply only(uint32_t n) {
    balluchaw_reply r = {n, 0, 0, 0, 0, 0};
    return r;
}

/* An output of n bytes, as the recorder fills one. */
static uint8_t *lend_output(size_t n) {
    uint8_t *output = borrow(OUTPUT, n);
    for (size_t i = 0; i < n; i++) output[i] = (uint8_t)(i % 251);
    return output;
}

/* Where no definition decides a descent's answer: the counted numbers have room in the output, and behind them it is as it was lent. */
static void expect_within(balluchaw_reply r, const uint8_t *output, size_t n) {
    size_t written = 2 * (size_t)r.count;
    same(written <= n, "room for the path of a descent on what is no table");
    size_t i = written;
    while (i < n && output[i] == (uint8_t)(i % 251)) i++;
    same(i >= n, "the bytes behind the path of a descent on what is no table");
    same(fnv(store, size) == hash_field(), "the bytes of what is no table");
}

/* A table that was made is as long as the header's macro says, and its rows, too, are those of the macros. */
static void expect_length(uint32_t n, size_t length, uint32_t version, uint32_t nodes, uint32_t blocks) {
    size_t rows = (size_t)blocks * nodes * BALLUCHAW_ROW(version);
    if (n == 0) same(length == BALLUCHAW_LENGTH(version, nodes, blocks) && length == 53 + 8 * (size_t)blocks + rows, "the length of the header's macros");
}

static void enter_or_amend(const char *name, uint32_t (*call)(uint8_t *, size_t, uint32_t, uint32_t, uint32_t, uint32_t)) {
    size_t length = number();
    uint32_t key = number(), total = number(), displayed = number(), price = number();
    uint8_t *t = lend(length);
    equals_sign();
    uint32_t n = call(t, length, key, total, displayed, price);
    take_back(t, length);
    expect(name, only(n));
}

static void descent(void) {
    size_t length = number();
    uint32_t key = number();
    size_t n = number();
    uint8_t *t = lend(length), *output = lend_output(n);
    equals_sign();
    balluchaw_reply r = balluchaw_descent(t, length, key, output, n);
    take_back(t, length);
    const char *first = field();
    if (strcmp(first, "?") == 0) {
        expect_within(r, output, n);
    } else {
        expect_rest("descent", r, (uint32_t)strtoul(first, NULL, 10));
        same(fnv(output, n) == hash_field(), "the path of a descent");
    }
    give_back(OUTPUT, output, n);
}

static void step(char *line) {
    char *word = strtok(line, " \n");
    if (!word) return;
    if (strcmp(word, "room") == 0) {
        size = number();
        uint32_t byte = number();
        free(store);
        store = room(size);
        memset(store, (int)byte, size);
    } else if (strcmp(word, "xor") == 0) {
        uint32_t place = number(), byte = number();
        if (place < size) store[place] ^= (uint8_t)byte;
    } else if (strcmp(word, "set") == 0) {
        uint32_t place = number();
        char *text = field();
        if (place + unhex(text, NULL) > size) exit(2);
        unhex(text, store + place);
    } else if (strcmp(word, "make") == 0) {
        uint32_t version = number(), gamma = number(), nodes = number(), orders = number(), blocks = number();
        char *text = field();
        size_t seed_length = unhex(text, NULL), length = number();
        uint8_t *t = lend(length), *seed = borrow(SEED, seed_length);
        unhex(text, seed);
        equals_sign();
        uint32_t n = balluchaw_make(t, length, version, gamma, nodes, orders, blocks, seed, seed_length);
        take_back(t, length);
        expect_length(n, length, version, nodes, blocks);
        size_t kept = 0;
        while (kept < seed_length && seed[kept] == hex_byte(text, kept)) kept++;
        same(kept == seed_length, "the seed after make");
        give_back(SEED, seed, seed_length);
        expect("make", only(n));
    } else if (strcmp(word, "check") == 0) {
        size_t length = number();
        uint8_t *t = lend(length);
        equals_sign();
        uint32_t n = balluchaw_check(t, length);
        take_back(t, length);
        expect("check", only(n));
    } else if (strcmp(word, "enter") == 0) {
        enter_or_amend(word, balluchaw_enter);
    } else if (strcmp(word, "amend") == 0) {
        enter_or_amend(word, balluchaw_amend);
    } else if (strcmp(word, "cancel") == 0) {
        size_t length = number();
        uint32_t key = number();
        uint8_t *t = lend(length);
        equals_sign();
        uint32_t n = balluchaw_cancel(t, length, key);
        take_back(t, length);
        expect("cancel", only(n));
    } else if (strcmp(word, "lookup") == 0) {
        size_t length = number();
        uint32_t key = number();
        uint8_t *t = lend(length);
        equals_sign();
        balluchaw_reply r = balluchaw_lookup(t, length, key);
        take_back(t, length);
        expect("lookup", r);
    } else if (strcmp(word, "seek") == 0) {
        size_t length = number();
        uint32_t lo = number(), hi = number(), reserve = number();
        uint8_t *t = lend(length);
        equals_sign();
        balluchaw_reply r = balluchaw_seek(t, length, lo, hi, reserve);
        take_back(t, length);
        expect("seek", r);
    } else if (strcmp(word, "descent") == 0) {
        descent();
    } else if (strcmp(word, "span") == 0) {
        size_t length = number();
        uint32_t lo = number(), hi = number();
        size_t n = number();
        uint8_t *t = lend(length), *output = lend_output(n);
        equals_sign();
        balluchaw_reply r = balluchaw_span(t, length, lo, hi, output, n);
        take_back(t, length);
        expect("span", r);
        same(fnv(output, n) == hash_field(), "the output of a span");
        give_back(OUTPUT, output, n);
    } else {
        fprintf(stderr, "line %lu: unknown step %s\n", line_number, word);
        exit(2);
    }
}

int main(int count, char **words) {
    heap = count > 1 && strcmp(words[1], "heap") == 0;
    char *line = NULL;
    size_t line_room = 0;
    while (getline(&line, &line_room, stdin) > 0) {
        line_number++;
        step(line);
    }
    free(line);
    free(store);
    printf("vectors: %lu comparisons, %lu wrong; each buffer exactly as long as lent, %s\n", calls, wrong, heap ? "on the heap" : "against a page");
    return wrong == 0 && calls > 0 ? 0 : 1;
}
