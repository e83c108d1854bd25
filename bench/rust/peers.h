/* The functions of bench/rust, for the benchmark only. */
#ifndef PEERS_H
#define PEERS_H

#include <stddef.h>
#include <stdint.h>

/* The reference, on tables of version 1: each change rebuilds the whole image. check, enter and cancel give the number of the question, lookup the total (0:
 * none), span the number of orders that it has written. */
uint32_t reference_check(const uint8_t *table, size_t length);
uint32_t reference_enter(uint8_t *table, size_t length, uint32_t key, uint32_t total, uint32_t displayed);
uint32_t reference_cancel(uint8_t *table, size_t length, uint32_t key);
uint32_t reference_lookup(const uint8_t *table, size_t length, uint32_t key);
uint32_t reference_span(const uint8_t *table, size_t length, uint32_t lo, uint32_t hi, uint8_t *output, size_t room);

/* A BTreeMap. lookup gives the total and writes the displayed quantity, both 0 where there is no order. write puts all orders into the output, 12 bytes each, and gives their number. */
typedef struct book book;
book *book_new(void);
void book_free(book *b);
void book_insert(book *b, uint32_t key, uint32_t total, uint32_t displayed);
void book_cancel(book *b, uint32_t key);
uint32_t book_lookup(const book *b, uint32_t key, uint32_t *displayed);
uint32_t book_write(const book *b, uint8_t *output, size_t room);

/* A made-up table of version 1 with `held` orders, the chunks `percent` of its blocks. FLAT: one partition has every order. TALL: every order is in all
 * lists. ONE_HOME: the hash of the homes is constant. */
enum { RANDOM, FLAT, TALL, ONE_HOME };
uint8_t *sample_new(uint32_t gamma, uint32_t nodes, uint32_t orders, uint32_t held, uint32_t percent, uint32_t shape, size_t *length);

/* The table of version 2 that is made with the sizes and seed of one of version 1 and has its orders, each with a made-up price. */
uint8_t *priced_new(const uint8_t *table, size_t length, size_t *new_length);

/* Of either kind. */
void sample_free(uint8_t *table, size_t length);

#endif
