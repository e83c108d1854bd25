/* A table with its orders, and what the calls of the variants lend. */
#ifndef SCENE_H
#define SCENE_H

#include <stddef.h>
#include <stdint.h>

/* What a table is made of; `shape` as in rust/peers.h, or NEAR_P: one partition has every order, and the places of its chunks go past p; or ONE_RESERVE: as
 * RANDOM, but all orders but the last are wholly displayed. */
enum { NEAR_P = 100, ONE_RESERVE };

typedef struct {
    const char *title;
    uint32_t gamma, nodes, held, percent, shape;
    int checks_only; /* a point of the plot: only checks are timed */
    int others;      /* are the map and the databases timed too? */
} configuration;

/* Prices stand apart, since an archive.c of before reads orders too (make bench-turns). */
typedef struct {
    uint32_t key, total, displayed;
} order;

enum { ASKED = 2000 };

/* What seeks ask for. An archive.c of before asks for the same. */
enum { RESERVE = 2000000000 };

/* An archive.c of before reads this too (make bench-turns), so what is new stands at the end. */
typedef struct {
    configuration of;
    uint8_t *table, *first_bytes; /* the table, and its bytes as they were made */
    size_t length;
    uint32_t blocks, full; /* how many blocks there are and how many hold a chunk */
    order *orders;         /* all that are held, rising */
    uint8_t *output;       /* room for a span of all */
    size_t room;
    uint64_t random;
    order picked; /* the order of the present turn */
    int strict;   /* ask for more than the answers: the check after each change, the bytes after each turn */
    order *held_keys, *free_keys; /* ASKED orders each, which the descents of a round ask for: held ones; keys not held, with quantities 0 */
    uint64_t key_random;          /* of its own, so that the orders picked for other calls stay the same */
    const order *asked;           /* what is asked for next */
    uint8_t *path;                /* room for any path */
    size_t path_room;
    order sought; /* what the seek of the present turn has to give; key 0: there is none */
    uint32_t hi;  /* where a seek in a short range ends */
    uint32_t version;
    size_t row;                          /* bytes of a node, and of what a span writes of an order */
    uint32_t *prices;                    /* of all orders, in their order; 0 in version 1, as are all that follow */
    uint32_t *held_prices, *free_prices; /* of the keys that descents ask for; 0 where none is held */
    const uint32_t *asked_price;         /* of what is asked for next */
    uint32_t price, sought_price;        /* of the picked order and of the sought one */
} scene;

/* Of version 1, or of version 2: then each order has a price. Sizes, seed and orders are the same, and so is whatever is picked at random. */
void scene_open(scene *s, configuration of, uint32_t version, int strict);
void scene_close(scene *s);

/* Picks the next order, at random. */
void pick(scene *s);

/* Pick where the next seek begins, at random, and what it has to give. Any: anywhere; in a table of one reserve at the first order, so that every seek goes all
 * the way. Far: in the last tenth, at an order that has the reserve, if one comes there. Short: eight orders in the first tenth, none of which has enough. */
void aim_any(void *p), aim_far(void *p), aim_short(void *p);

/* Chooses other keys for the descents, at random; all variants of a round ask for the same. */
void choose_keys(void *p);

/* From the first of the chosen keys on: those that are held, those that are not. */
void ask_held(void *p), ask_free(void *p);

/* Ends the program unless the table's bytes are as they were made. */
void same_bytes(const scene *s);

/* Where scratch files go: the directory that the program was given. */
extern const char *scratch;

#endif
