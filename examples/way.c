/* The way down to orders of a table in a file: the numbers of its blocks, from the highest level down to level 1, and what it leads to.
 *
 *     cc way.c $(pkg-config --cflags --libs balluchaw) -o way
 *     ./way orders.table 4711 4712
 */
#include <balluchaw.h>

#include <stdio.h>
#include <stdlib.h>

/* The longest table there is, which is of version 2, and room for the longest path in it. */
static uint8_t table[BALLUCHAW_LENGTH(2, 32, 65535)], path[2 * 65535];

static void must(int right, const char *what) {
    if (right) return;
    fprintf(stderr, "way: %s\n", what);
    exit(1);
}

/* The bytes come from outside, and a descent relies on them: so they are checked, once. */
static size_t load(const char *name) {
    FILE *file = fopen(name, "rb");
    must(file != NULL, "the file cannot be read");
    size_t length = fread(table, 1, sizeof table, file);
    must(fgetc(file) == EOF && !ferror(file), "the file is too long, or cannot be read");
    fclose(file);
    must(balluchaw_check(table, length) == 0, "the file is no table");
    return length;
}

/* A key that is not held has a way too: the path is written, and counted, with 9. Price 0 says that the table is version 1, which has none. */
static void print_way(size_t length, uint32_t key) {
    balluchaw_reply found = balluchaw_descent(table, length, key, path, sizeof path);
    must(found.number == 0 || found.number == 9, "no such order number can be");
    printf("%u:", (unsigned)key);
    for (const uint8_t *block = path; block < path + 2 * found.count; block += 2) printf(" %u", (unsigned)block[0] << 8 | block[1]);
    if (found.number == 9) printf("; not held");
    else printf("; %u of %u displayed", (unsigned)found.displayed, (unsigned)found.total);
    if (found.price != 0) printf(", at %u", (unsigned)found.price);
    printf("\n");
}

int main(int count, char **words) {
    must(count > 1, "way TABLE KEY ..");
    size_t length = load(words[1]);
    for (int i = 2; i < count; i++) {
        unsigned long key = strtoul(words[i], NULL, 10);
        must(key <= UINT32_MAX, "no such order number can be");
        print_way(length, (uint32_t)key);
    }
    return 0;
}
