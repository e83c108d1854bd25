/* Writes a first corpus for the fuzz target into a folder: lists of calls on tables of both versions and several sizes, and tables themselves.
 *
 *     corpus FOLDER
 *
 * The forms are those that fuzz.c reads. */
#include "balluchaw.h"

#include <stdio.h>
#include <stdlib.h>

static const char *folder;
static unsigned files;
static uint32_t state = 1;

static uint32_t draw(void) {
    state ^= state << 13;
    state ^= state >> 17;
    return state ^= state << 5;
}

static void save(const uint8_t *bytes, size_t n) {
    char name[4096];
    snprintf(name, sizeof name, "%s/first-%03u", folder, files++);
    FILE *file = fopen(name, "wb");
    if (!file || fwrite(bytes, 1, n, file) != n || fclose(file) != 0) {
        perror(name);
        exit(1);
    }
}

/* An enter or amend, by the first byte of its step. The other bytes are such that none behind them belongs to it too. */
static size_t order_step(uint8_t *to, uint8_t kind) {
    to[0] = kind;
    to[1] = (uint8_t)draw();
    to[2] = (uint8_t)(draw() % 216);
    to[3] = (uint8_t)(draw() % 240);
    to[4] = (uint8_t)(draw() % 250);
    to[5] = (uint8_t)(draw() % 250);
    return 6;
}

/* The same with a no to some of key, quantities and price, or to none: key 0, p or the greatest number, total 0 or displayed above it, a price that the
 * version has not. */
static size_t refused_step(uint8_t *to, uint8_t kind) {
    static const uint8_t no_keys[] = {217, 220, 221};
    size_t n = order_step(to, kind);
    to[5] = (uint8_t)(draw() % 2 ? 220 : draw() % 220);
    if (draw() % 2) to[2] = no_keys[draw() % 3];
    if (draw() % 2) to[3] = 236;
    if (draw() % 4 == 0) to[4] = 240;
    return n;
}

/* A seek for less than 100, often for 0 or 1, or for about what some order has; in a short range of the keys that other steps have, or in one to
 * the last of them. */
static size_t seek_step(uint8_t *to, uint8_t orders) {
    uint32_t about = draw() % 2, lo = draw() % (2u * orders);
    to[0] = 11;
    to[1] = (uint8_t)(draw() & ~16u);
    to[2] = (uint8_t)lo;
    to[3] = (uint8_t)(draw() % 2 ? lo + draw() % 8 : 2u * orders + 7);
    to[4] = (uint8_t)(about ? 124 + draw() % 132 : draw() % (draw() % 2 ? 100 : 2));
    to[5] = (uint8_t)draw();
    return about ? 6 : 5;
}

/* A make with sizes that are allowed; of versions 1 and 2, or of 0, 3 and 7; with a seed that is one or not, the length of this version or of another. */
static size_t make_step(uint8_t *to) {
    static const uint8_t versions[] = {0, 1, 200, 203, 207}, lengths[] = {100, 190};
    size_t n = 0;
    to[n++] = 13;
    to[n++] = (uint8_t)(draw() | 64);
    to[n++] = versions[draw() % 5];
    to[n++] = (uint8_t)(2 + draw() % 63);
    to[n++] = (uint8_t)(2 + draw() % 31);
    to[n++] = (uint8_t)(1 + draw() % 69);
    to[n++] = (uint8_t)(10 + draw() % 60);
    to[n++] = 0;
    for (int i = 0; i < 40; i++) to[n++] = (uint8_t)(draw() & 0x7f);
    if (draw() % 4 == 0) to[n - 4] = 255;
    to[n++] = lengths[draw() % 2];
    return n;
}

/* The table by the other version's order, all chunks or two neighbours; or the same orders in the other version, at some price. */
static size_t order_of_labels_step(uint8_t *to, int rows) {
    to[0] = rows ? 128 + 14 : 128 + 15;
    to[1] = (uint8_t)draw();
    to[2] = (uint8_t)(rows ? draw() % 240 : draw());
    return 3;
}

/* Version, sizes, a kind of seed, then calls: many enters of any keys, chunks in other places, amends of held keys, a few enters of held keys and amends of
 * any, some that are mostly refused, seeks, other makes, then any. */
static void calls(uint32_t version, uint8_t gamma, uint8_t nodes, uint8_t orders, uint8_t more, uint8_t seed) {
    enum { ENTER_HELD = 0, ENTER_ANY = 16, AMEND_ANY = 4, AMEND_HELD = 20 };
    static const uint8_t seed_bytes[] = {0, 0, 8, 36, 40, 4, 4, 4}; /* what each kind of seed reads */
    uint8_t bytes[1200];
    size_t n = 0;
    bytes[n++] = (uint8_t)(version - 1);
    bytes[n++] = (uint8_t)(gamma - 2);
    bytes[n++] = (uint8_t)(nodes - 2);
    bytes[n++] = (uint8_t)(orders - 1);
    bytes[n++] = more;
    bytes[n++] = seed;
    for (int i = 0; i < seed_bytes[seed % 8]; i++) bytes[n++] = (uint8_t)draw();
    bytes[n++] = (uint8_t)draw(); /* how make's buffers are lent */
    for (int i = 0; i < orders + 4; i++) n += order_step(bytes + n, ENTER_ANY);
    for (int i = 0; i < 12; i++) n += order_of_labels_step(bytes + n, i % 4 == 0);
    for (int i = 0; i < orders / 2 + 2; i++) n += order_step(bytes + n, AMEND_HELD);
    for (int i = 0; i < 4; i++) n += order_step(bytes + n, i % 2 ? ENTER_HELD : AMEND_ANY);
    for (int i = 0; i < 16; i++) n += refused_step(bytes + n, i % 4 == 0 ? ENTER_HELD : i % 4 == 1 ? ENTER_ANY : i % 4 == 2 ? AMEND_ANY : AMEND_HELD);
    for (int i = 0; i < 24; i++) n += seek_step(bytes + n, orders);
    for (int i = 0; i < 4; i++) n += make_step(bytes + n);
    while (n < sizeof bytes) bytes[n++] = (uint8_t)draw();
    save(bytes, n);
}

/* A table with some orders, as it is, asking for a header that fits, and asking for other blocks; and with a last block of too many nodes. */
static void image(uint32_t version, uint32_t gamma, uint32_t nodes, uint32_t orders, uint32_t blocks, uint32_t held) {
    size_t length = BALLUCHAW_LENGTH(version, nodes, blocks);
    uint8_t *bytes = malloc(1 + length), seed[40];
    if (!bytes) exit(1);
    for (int i = 0; i < 40; i++) seed[i] = (uint8_t)(draw() & 0x7f);
    if (balluchaw_make(bytes + 1, length, version, gamma, nodes, orders, blocks, seed, 40) != 0) {
        fprintf(stderr, "corpus: make refused %u %u %u %u %u\n", version, gamma, nodes, orders, blocks);
        exit(1);
    }
    for (uint32_t i = 0; i < held; i++) {
        uint32_t key = 1 + draw() % 1000, total = 1 + draw() % 500, displayed = draw() % 3 ? draw() % (total + 1) : 0;
        uint32_t price = version == 1 ? 0 : 1 + draw() % (draw() % 2 ? 200 : 4000000000);
        balluchaw_enter(bytes + 1, length, key, total, displayed, price);
    }
    for (uint8_t first = 192; first < 196; first++) {
        bytes[0] = first;
        save(bytes, 1 + length);
    }
    uint8_t *last = bytes + 1 + length - (8 + BALLUCHAW_ROW(version) * nodes);
    bytes[0] = 192;
    last[0] = 1;
    last[1] = 255;
    save(bytes, 1 + length);
    free(bytes);
}

int main(int count, char **words) {
    if (count != 2) {
        fprintf(stderr, "corpus FOLDER\n");
        return 2;
    }
    folder = words[1];
    static const uint8_t gammas[] = {2, 3, 16, 64}, nodes[] = {2, 3, 8, 32}, orders[] = {2, 9, 24, 48};
    for (uint32_t version = 1; version <= 2; version++) {
        for (uint8_t i = 0; i < 4; i++)
            for (uint8_t j = 0; j < 4; j++) calls(version, gammas[i], nodes[j], orders[(i + j) % 4], (uint8_t)(i * 40 + j * 3), (uint8_t)(4 * i + j));
        image(version, 2, 2, 2, 4, 2);
        image(version, 2, 2, 8, 20, 8);
        image(version, 3, 4, 12, 9, 9);
        image(version, 16, 8, 40, 14, 40);
        image(version, 64, 32, 100, 6, 60);
        image(version, 2, 3, 1, 2, 0);
        image(version, 64, 24, 64, 5, 64); /* more orders than lists of calls lead to */
    }
    printf("corpus: %u first inputs\n", files);
    return 0;
}
