/* What is timed. A call gets a scene and gives 0 when its answer is right; *_back undoes a change, *_away makes the picked order absent. Both pick. */
#ifndef VARIANTS_H
#define VARIANTS_H

#include "scene.h"

/* archive.c: the archive's calls, and the checks and the descent in C beside them */
int archive_check(void *p), check_in_plain_c(void *p), check_in_tuned_c(void *p), check_in_fast_c(void *p);
int archive_descent(void *p), descent_in_fast_c(void *p);
int archive_lookup(void *p), archive_span(void *p), archive_seek(void *p), archive_seek_short(void *p);
int archive_enter(void *p), archive_amend(void *p), archive_cancel(void *p);
void archive_away(void *p), archive_back(void *p), archive_kept(void *p), archive_pick(void *p);

/* plain.c: the reference, and a BTreeMap that is written out whole */
int plain_check(void *p), plain_lookup(void *p), plain_span(void *p), plain_enter(void *p), plain_cancel(void *p);
int map_lookup(void *p), map_descent(void *p), map_span(void *p), map_enter(void *p), map_cancel(void *p);
void map_open(const scene *s), map_close(void), map_away(void *p), map_back(void *p);

/* sqlite.c: a change is followed by VACUUM INTO, but for *_alone; *_checked has an integrity_check before it; clustered_*: a table WITHOUT ROWID */
int sqlite_check(void *p), sqlite_lookup(void *p), sqlite_descent(void *p), sqlite_span(void *p), sqlite_enter(void *p), sqlite_cancel(void *p);
int sqlite_enter_checked(void *p), sqlite_cancel_checked(void *p), clustered_check(void *p), clustered_enter(void *p), clustered_cancel(void *p);
int clustered_enter_checked(void *p), clustered_cancel_checked(void *p), sqlite_enter_alone(void *p);
void sqlite_open(const scene *s), sqlite_close_all(void), sqlite_away(void *p), sqlite_back(void *p), sqlite_pick(void *p);
const char *sqlite_name(void);

/* lmdb.c: a change is followed by a copy of all orders, rising, into a new file, but for *_alone. A get is made in a transaction that is open, or in one renewed
 * for it; lmdb_asks_* and lmdb_asked surround many of them */
int lmdb_lookup(void *p), lmdb_span(void *p), lmdb_enter(void *p), lmdb_cancel(void *p), lmdb_enter_alone(void *p);
int lmdb_get(void *p), lmdb_renewed_get(void *p);
void lmdb_asks_held(void *p), lmdb_asks_free(void *p), lmdb_asked(void *p);
void lmdb_open(const scene *s), lmdb_close(void), lmdb_away(void *p), lmdb_back(void *p), lmdb_pick(void *p);
const char *lmdb_name(void);

/* paths.c: both descents asked the same, all parts of their answers and every byte of the output compared; the mean number of blocks on a path */
void compare_descents(scene *s);
double mean_path(scene *s, void (*ask)(void *p));

#endif
