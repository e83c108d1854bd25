/* Balluchaw: an open-order table in a caller's byte buffer. Its bytes depend on the open orders alone, never on how they came about.
 *
 * Every call is proved to do exactly what is said here, for every input. None allocates, keeps a pointer, or reads or writes outside the
 * buffers that it is lent. A pointer may be NULL where its length is 0. A buffer that a call writes must not overlap another buffer of the
 * same call, and nobody else may write a buffer while a call runs. Keys are order numbers.
 *
 * A table has a version, 1 or 2. Make is given it, and no other call changes it; it is the table's first byte. Version 1 has key, total and
 * displayed of each order, version 2 also a limit price of 1 to 4,294,967,295 ticks. Every call takes either. An order in a version 1 table
 * has price 0: enter and amend are given 0 there, and readings give 0. Tables from before there were prices are version 1, and good as they
 * are. A library from before answers 4 to version 2 tables. In version 2 chunks of higher levels stand nearest to their homes, in version 1 those
 * of lower levels; so a descent passes fewer blocks in version 2, in the mean. Answers do not depend on it, but for the numbers of the
 * blocks on a path; a path has as many blocks in either version.
 *
 * Every call but make and descent first reads the whole table, for question 4. Under a random seed that those who choose keys do not know,
 * and with blocks to spare, that takes time in proportion to the table's length. Whoever sends a table can choose seed and keys to make it
 * slow: M blocks are then looked at up to about M * M times, which is seconds for 65,535. balluchaw(3), NOTES, says what a receiver can do.
 * A descent reads the header and the way down to one key. It is fast, and does not find out that a table was damaged.
 *
 * Equal tables and arguments give equal answers and outputs. Only what a descent finds in bytes that are no image is left open.
 *
 * Each call answers the number of the first question that turns it down, or 0. On a refusal no lent byte changes and all other parts of the
 * answer are 0. There is one exception: a descent that answers 9 has written its path, and says how many blocks that has.
 *
 *    1  is the seed 40 bytes, each of its ten big-endian numbers below 2,147,483,647?
 *    2  is the version 1 or 2, and are the sizes allowed?
 *    3  is the table exactly of the length that version and sizes ask for?
 *    4  are the bytes an image: a table that some make, enters, amends and cancels give?
 *       A descent asks less: are the numbers of the header allowed, and is the length the one that they ask for?
 *    5  is each key 1 to 2,147,483,646?
 *    6  is total at least 1 and displayed at most total, and in a version 2 table the price at least 1?
 *    7  are there fewer orders than the table may hold?
 *    8  do the resulting orders have at most as many chunks as the table has blocks?
 *    9  is the key held?
 *   10  is lo at most hi?
 *   11  has the output 12 bytes, in a version 2 table 16, for each held key in lo..hi?
 *       Of a descent: has the path two bytes for each of its blocks?
 *   12  is there an order in lo..hi that has at least the reserve?
 *   13  is the key free: is no order held under it?
 *   14  is the price 0 when the table is version 1? In version 2 it may be any; 6 asks there whether it is 1 or more.
 *
 * The reserve of an order is what stands behind its displayed part: total - displayed; but 0 where displayed is 0. Nothing of a wholly hidden
 * order is displayed, so it has no reserve, however large it is.
 */
#ifndef BALLUCHAW_H
#define BALLUCHAW_H

#include <stddef.h>
#include <stdint.h>

#ifdef __cplusplus
extern "C" {
#endif

/* The answer of a reading. The caller owns it. Parts that a call does not give are 0. */
typedef struct {
    uint32_t number;    /* 0, or the number of the question that turned the call down */
    uint32_t key;       /* lookup, descent, seek: the order's number */
    uint32_t total;     /* lookup, descent, seek: its total quantity */
    uint32_t displayed; /* lookup, descent, seek: its displayed quantity */
    uint32_t price;     /* lookup, descent, seek: its limit price; 0 in a version 1 table */
    uint32_t count;     /* span: how many orders it wrote; descent: how many blocks of its path it wrote, with 9 too */
} balluchaw_reply;

/* The bytes of an order, in a table of version 1 or 2 and in what a span writes of it: 12 or 16. */
#define BALLUCHAW_ROW(version) ((size_t)((version) == 1 ? 12 : 16))

/* The bytes of a table of this version and these sizes: the length that make asks for. */
#define BALLUCHAW_LENGTH(version, nodes, blocks) ((size_t)53 + (size_t)(blocks) * (8 + BALLUCHAW_ROW(version) * (size_t)(nodes)))

/* Makes a table without orders in a buffer. version 1 or 2; gamma 2..64; nodes in a block 2..32; most orders 1..65,535; blocks at least beta,
 * at most 65,535, where beta is 2 plus the smallest e >= 0 with gamma^e at least orders. The seed is 40 bytes; it is read only.
 * Asks 1, 2, 3. On success every byte of the table is overwritten. */
uint32_t balluchaw_make(uint8_t *table, size_t length, uint32_t version, uint32_t gamma, uint32_t nodes, uint32_t orders, uint32_t blocks,
                        const uint8_t *seed, size_t seed_length);

/* Are these bytes a table, whoever made them? Asks 4. */
uint32_t balluchaw_check(const uint8_t *table, size_t length);

/* Adds an order under a key that is not held. A held key answers 13, however full the table is, and its order stays as it was.
 * The price is 0 in a version 1 table, where any other answers 14, and 1 or more in a version 2 table, where 0 answers 6.
 * Asks 4, 14, 5, 6, 13, 7, 8. */
uint32_t balluchaw_enter(uint8_t *table, size_t length, uint32_t key, uint32_t total, uint32_t displayed, uint32_t price);

/* Replaces both quantities and the price of a held order, all three: what is to stay is given again. The price is as in enter. A key that is
 * not held answers 9, and no order is added. A full table does not matter: orders and chunks stay as many as they were, so there is no 7 and
 * no 8. Asks 4, 14, 5, 6, 9. */
uint32_t balluchaw_amend(uint8_t *table, size_t length, uint32_t key, uint32_t total, uint32_t displayed, uint32_t price);

/* Takes an order out. Nothing in the bytes tells that it was there. Asks 4, 5, 9. */
uint32_t balluchaw_cancel(uint8_t *table, size_t length, uint32_t key);

/* The quantities and the price of an order. Asks 4, 5, 9. */
balluchaw_reply balluchaw_lookup(const uint8_t *table, size_t length, uint32_t key);

/* The quantities and the price of an order, and its path: the blocks on the way down to it. Asks 4 as far as header and length go, 5, 11, 9.
 * On an image, unless 11 turns it down, quantities and price are those that lookup gives. But no more is read than the header and the way
 * down, so this call does not find out that a table was damaged or is no image. Use it on a table that this process made or checked and that
 * nobody else wrote since; on any other use lookup.
 *
 * The path is the number of each block, two bytes, big-endian, from the front of path on; count says how many. The bytes behind them keep
 * their values. At the highest level it has chunks 0, 1, .. of the one partition there, up to the chunk with the greatest key not above the
 * one sought; then the same one level down, in the partition that this key heads; and so on to level 1. A chunk that is looked at only to see
 * that its first key is larger is not on the path.
 *
 * A key that is not held has a path too: 9 comes after it is written and counted. 11 is asked of the whole path, of such a key too; a call
 * that it turns down writes nothing, and count is 0. A path has at most as many blocks as the table, so on an image 2 * blocks bytes are
 * always enough.
 *
 * On bytes that pass 4 and 5 here but are no image, only this holds: the call ends, the table keeps its bytes, 2 * count is at most
 * path_length, and the bytes of path behind 2 * count keep their values. What else it answers there means nothing. */
balluchaw_reply balluchaw_descent(const uint8_t *table, size_t length, uint32_t key, uint8_t *path, size_t path_length);

/* The orders with keys in lo..hi, by rising key: key, total, displayed, in a version 2 table also price, four bytes each, big-endian, from the
 * output's front on, and their number in count. So a row has BALLUCHAW_ROW(version) bytes. Bytes of the output beyond the rows keep their
 * values. Asks 4, 5, 10, 11. */
balluchaw_reply balluchaw_span(const uint8_t *table, size_t length, uint32_t lo, uint32_t hi, uint8_t *output, size_t output_length);

/* The order with the smallest key in lo..hi that has at least the reserve, whatever its price. Orders that lack it are passed over. Asked twice,
 * the same table gives the same order. With a reserve of 0 every order will do, wholly hidden ones too; with 1 or more no wholly hidden order
 * does. Asks 4, 5, 10, 12.
 *
 * To go on to the next one, seek again from key + 1, as long as that is not above hi; 12 says that there are no more. So this loop goes through
 * all orders in lo..hi that have the reserve, by rising key:
 *
 *     while (lo <= hi) {
 *         balluchaw_reply found = balluchaw_seek(table, length, lo, hi, reserve);
 *         if (found.number != 0) break;
 *         ..
 *         lo = found.key + 1;
 *     }
 *
 * After an order under hi itself the loop ends without another call, which 10 would turn down, or 5 where hi is the largest key. The order found
 * may be amended or cancelled before the next seek. Each seek reads the whole table. Where many orders have the reserve, one span is faster:
 * what each has in reserve follows from its row. */
balluchaw_reply balluchaw_seek(const uint8_t *table, size_t length, uint32_t lo, uint32_t hi, uint32_t reserve);

#ifdef __cplusplus
}
#endif

#endif
