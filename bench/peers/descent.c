/* The lookup by descent in plain C, written for this benchmark from documents 01 and 02: the bar for the archive's. It has the archive's duties and is meant to
 * be fast. What it makes use of:
 *
 * - Unused nodes are zero and keys rise, so "is this node used, and its key at most the one sought" is one comparison of key - 1: 0 wraps round. The number of
 *   nodes is not read.
 * - The home of the next chunk is the next block, and what stands between that and the chunk just found has smaller labels: its search goes on behind it.
 * - Where the way down stays with its partition's first key, the hash is that of the level above.
 * - On the way to a chunk of a higher level, blocks of lower levels are passed by one byte each, four in a turn.
 * - No path is longer than the table has blocks, so one with room for all blocks is written at once. Otherwise a path is kept here until its length is known. */
#include "descent.h"

enum { HEADER = 53, HEAD = 8, NODE = 12, KEPT = 64 };

typedef struct {
    const u8 *blocks;
    size_t block;    /* bytes of one */
    u32 many, nodes; /* M and B */
    u32 levels, seed[5];
    u64 reciprocal; /* of M, for remainders without a division */
} shape;

/* Rule 1 of an image. */
static inline int is_header(const u8 *t, size_t length, shape *s) {
    if (length < HEADER || t[0] != 1) return 0;
    u32 gamma = t[5], orders = be16(t + 7), held = be16(t + 11), wrong = 0;
    s->nodes = t[6], s->many = be16(t + 9), s->blocks = t + HEADER, s->block = HEAD + NODE * (size_t)s->nodes, s->levels = 2;
    if (gamma < 2 || gamma > 64 || s->nodes < 2 || s->nodes > 32 || orders < 1 || held > orders) return 0;
    for (u32 power = 1; power < orders; power *= gamma) s->levels++;
    for (int i = 0; i < 10; i++) wrong |= be32(t + 13 + 4 * i) >= P31;
    for (int i = 0; i < 5; i++) s->seed[i] = be32(t + 33 + 4 * i);
    if (wrong || s->many < s->levels || length != HEADER + s->many * s->block || be32(t + 1) != length) return 0;
    s->reciprocal = UINT64_MAX / s->many + 1;
    return 1;
}

static inline u64 fold(u64 x) { return (x & P31) + (x >> 31); }

/* g(x) for x and seed numbers below p. Horner's rule, folded once a step: the sums stay below 2p, 3p and 4p, so no product reaches 2^64. */
static inline u32 place_hash(const u32 c[5], u64 x) {
    u64 sum = fold(c[4] * x + c[3]);
    sum = fold(sum * x + c[2]);
    sum = fold(sum * x + c[1]);
    sum = fold(fold(sum * x + c[0]));
    return (u32)(sum >= P31 ? sum - P31 : sum);
}

static inline u32 modulo(const shape *s, u32 x) { return (u32)(((unsigned __int128)(s->reciprocal * x) * s->many) >> 64); }

static inline const u8 *block_at(const shape *s, u32 i) { return s->blocks + i * s->block; }
static inline u32 next(const shape *s, u32 i) { return i + 1 == s->many ? 0 : i + 1; }
static inline const u8 *node_at(const u8 *block, u32 j) { return block + HEAD + NODE * (size_t)j; }

/* A block's first eight bytes as a number: level, count, chunk number, first key. Without the count it is the label, but chunk number and first key have to
 * change places before labels are compared. */
static inline u64 label_of(const u8 *block) {
    u64 bytes;
    memcpy(&bytes, block, 8);
    return __builtin_bswap64(bytes) & ~(0xFFull << 48);
}
static inline u64 rank(u64 label) { return label >> 56 << 48 | label << 32 >> 16 | label << 16 >> 48; }

/* The first block from one on that is empty or whose chunk is not of a lower level, four at a time; near the table's end it may stop early. */
static inline u32 pass_lower(const shape *s, u32 i, u32 level) {
    const size_t size = s->block;
    const u8 *block = block_at(s, i);
    for (; i + 4 <= s->many; i += 4, block += 4 * size) {
        if ((u32)block[0] - 1 >= level - 1) return i;
        if ((u32)block[size] - 1 >= level - 1) return i + 1;
        if ((u32)block[2 * size] - 1 >= level - 1) return i + 2;
        if ((u32)block[3 * size] - 1 >= level - 1) return i + 3;
    }
    return i;
}

/* The block that has a label, searched for from block i on; the number of blocks if there is none. */
static inline u32 search(const shape *s, u32 i, u32 level, u32 first, u32 number) {
    const u64 wanted = (u64)level << 56 | (u64)number << 32 | first;
    if (level > 1 && (i = pass_lower(s, i, level)) == s->many) i = 0;
    const u8 *block = block_at(s, i);
    for (u32 left = s->many; left > 0; left--) {
        if ((u32)block[0] - 1 >= level - 1) {
            u64 label = label_of(block);
            if (label == wanted) return i;
            if (block[0] != level || rank(label) > rank(wanted)) break;
        }
        i++, block += s->block;
        if (i == s->many) i = 0, block = s->blocks;
    }
    return s->many;
}

/* The last node of a chunk whose key is at most the one sought; its first node is. */
static inline u32 last_not_above(const shape *s, const u8 *block, u32 key) {
    u32 j = 1;
    while (j < s->nodes && be32(node_at(block, j)) - 1 < key) j++;
    return j - 1;
}

/* Goes down to the node with the greatest key not above the one sought, which is NULL where the bytes turn out to be no image. Gives the number of blocks on the
 * path, and writes those for which there is room. */
static inline u32 go_down(const shape *s, u32 key, u8 *path, u32 room, const u8 **node) {
    u32 first = 0, hash = s->seed[0], count = 0;
    for (u32 level = s->levels; level > 0; level--) {
        u32 place = hash + 65536 * level, j;
        place = place >= P31 ? place - P31 : place;
        u32 i = search(s, modulo(s, place), level, first, 0);
        *node = NULL;
        if (i == s->many) return count;
        const u8 *block = block_at(s, i);
        for (u32 number = 1;; number++) {
            if (count < room) wbe16(path + 2 * (size_t)count, i);
            count++;
            j = last_not_above(s, block, key);
            if (j + 1 < s->nodes) break;
            i = search(s, place + number == P31 ? 0 : next(s, i), level, first, number);
            if (i == s->many || be32(node_at(block_at(s, i), 0)) > key) break;
            block = block_at(s, i);
        }
        *node = node_at(block, j);
        u32 under = be32(*node);
        if (under != first) first = under, hash = place_hash(s->seed, first);
    }
    return count;
}

descended descent_fast(const u8 *table, size_t length, u32 key, u8 *path, size_t path_length) {
    shape s;
    u8 kept[2 * KEPT];
    const u8 *node;
    if (!is_header(table, length, &s)) return (descended){.number = 4};
    if (key - 1 >= P31 - 1) return (descended){.number = 5};
    int at_once = path_length / 2 >= s.many;
    u32 count = go_down(&s, key, at_once ? path : kept, at_once ? s.many : KEPT, &node);
    if (path_length / 2 < count) return (descended){.number = 11};
    if (!at_once && count <= KEPT) memcpy(path, kept, 2 * (size_t)count);
    if (!at_once && count > KEPT) go_down(&s, key, path, count, &node);
    if (!node || be32(node) != key) return (descended){.number = 9, .count = count};
    return (descended){0, key, be32(node + 4), be32(node + 8), count};
}
