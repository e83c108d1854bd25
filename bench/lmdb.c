/* LMDB on a scratch file without syncing: what is timed of it. Its canonical bytes are a new file into which all orders are copied, rising. */
#include "peers/common.h"
#include "variants.h"

#include <lmdb.h>
#include <unistd.h>

enum { MAP_BYTES = 64 << 20 };

typedef struct {
    MDB_env *env;
    MDB_dbi dbi;
    char file[512], lock[520];
} store;

static store main_store, copy;

static void need_ok(int code, const char *what) {
    if (code == 0) return;
    fprintf(stderr, "LMDB, %s: %s\n", what, mdb_strerror(code));
    exit(1);
}

static void store_forget(store *t, const char *name) {
    snprintf(t->file, sizeof t->file, "%s/%s", scratch, name);
    snprintf(t->lock, sizeof t->lock, "%s-lock", t->file);
    unlink(t->file);
    unlink(t->lock);
}

static MDB_txn *begin(store *t, unsigned flags) {
    MDB_txn *txn;
    need_ok(mdb_txn_begin(t->env, NULL, flags, &txn), "begin");
    return txn;
}

/* A new file, in a change that is not yet committed. */
static MDB_txn *store_open(store *t) {
    need_ok(mdb_env_create(&t->env), "create");
    need_ok(mdb_env_set_mapsize(t->env, MAP_BYTES), "size");
    need_ok(mdb_env_open(t->env, t->file, MDB_NOSUBDIR | MDB_NOSYNC, 0600), "open");
    MDB_txn *txn = begin(t, 0);
    need_ok(mdb_dbi_open(txn, NULL, 0, &t->dbi), "database");
    return txn;
}

/* Only a new order: one under its key ends the program. */
static void insert(store *t, MDB_txn *txn, const order *o) {
    u8 bytes[12];
    wbe32(bytes, o->key);
    wbe32(bytes + 4, o->total);
    wbe32(bytes + 8, o->displayed);
    MDB_val key = {4, bytes}, value = {8, bytes + 4};
    need_ok(mdb_put(txn, t->dbi, &key, &value, MDB_NOOVERWRITE), "insert");
}

static void insert_picked(const scene *s) {
    MDB_txn *txn = begin(&main_store, 0);
    insert(&main_store, txn, &s->picked);
    need_ok(mdb_txn_commit(txn), "commit");
}

static void cancel_picked(const scene *s) {
    u8 bytes[4];
    wbe32(bytes, s->picked.key);
    MDB_val key = {4, bytes};
    MDB_txn *txn = begin(&main_store, 0);
    need_ok(mdb_del(txn, main_store.dbi, &key, NULL), "delete");
    need_ok(mdb_txn_commit(txn), "commit");
}

/* Calls `each` with all orders, rising; gives their number. */
static u32 all_orders(void (*each)(void *place, u32 i, const MDB_val *key, const MDB_val *value), void *place) {
    MDB_txn *txn = begin(&main_store, MDB_RDONLY);
    MDB_cursor *cursor;
    MDB_val key, value;
    u32 found = 0;
    need_ok(mdb_cursor_open(txn, main_store.dbi, &cursor), "cursor");
    for (; mdb_cursor_get(cursor, &key, &value, MDB_NEXT) == 0; found++) each(place, found, &key, &value);
    mdb_cursor_close(cursor);
    mdb_txn_abort(txn);
    return found;
}

static void append(void *txn, u32 i, const MDB_val *key, const MDB_val *value) {
    MDB_val k = *key, v = *value;
    (void)i;
    need_ok(mdb_put(txn, copy.dbi, &k, &v, MDB_APPEND), "append");
}

static u32 rebuild(void) {
    MDB_txn *txn = store_open(&copy);
    u32 found = all_orders(append, txn);
    need_ok(mdb_txn_commit(txn), "commit");
    mdb_env_close(copy.env);
    return found;
}

void lmdb_open(const scene *s) {
    store_forget(&main_store, "main.mdb");
    store_forget(&copy, "copy.mdb");
    MDB_txn *txn = store_open(&main_store);
    for (u32 i = 0; i < s->of.held; i++) insert(&main_store, txn, &s->orders[i]);
    need_ok(mdb_txn_commit(txn), "commit");
}

void lmdb_close(void) {
    mdb_env_close(main_store.env);
    store_forget(&main_store, "main.mdb");
    store_forget(&copy, "copy.mdb");
}

const char *lmdb_name(void) { return mdb_version(NULL, NULL, NULL); }

int lmdb_lookup(void *p) {
    scene *s = p;
    u8 bytes[4];
    pick(s);
    wbe32(bytes, s->picked.key);
    MDB_val key = {4, bytes}, value;
    MDB_txn *txn = begin(&main_store, MDB_RDONLY);
    int wrong = mdb_get(txn, main_store.dbi, &key, &value) != 0 || be32(value.mv_data) != s->picked.total;
    mdb_txn_abort(txn);
    return wrong;
}

/* LMDB wants a transaction even for reading: it may stay open while many keys are asked for, or be renewed for each, which alone sees later changes. */
static MDB_txn *reading;

void lmdb_asks_held(void *p) {
    ask_held(p);
    reading = begin(&main_store, MDB_RDONLY);
}

void lmdb_asks_free(void *p) {
    ask_free(p);
    reading = begin(&main_store, MDB_RDONLY);
}

void lmdb_asked(void *p) {
    (void)p;
    mdb_txn_abort(reading);
}

int lmdb_get(void *p) {
    scene *s = p;
    const order *o = s->asked++;
    u8 bytes[4];
    wbe32(bytes, o->key);
    MDB_val key = {4, bytes}, value;
    int code = mdb_get(reading, main_store.dbi, &key, &value);
    if (o->total == 0) return code != MDB_NOTFOUND;
    return code != 0 || be32(value.mv_data) != o->total || be32((u8 *)value.mv_data + 4) != o->displayed;
}

int lmdb_renewed_get(void *p) {
    mdb_txn_reset(reading);
    need_ok(mdb_txn_renew(reading), "renew");
    return lmdb_get(p);
}

static void write_row(void *output, u32 i, const MDB_val *key, const MDB_val *value) {
    u8 *row = (u8 *)output + 12 * (size_t)i;
    memcpy(row, key->mv_data, 4);
    memcpy(row + 4, value->mv_data, 8);
}

int lmdb_span(void *p) {
    const scene *s = p;
    return all_orders(write_row, s->output) != s->of.held;
}

int lmdb_enter(void *p) {
    const scene *s = p;
    insert_picked(s);
    return rebuild() != s->of.held;
}

/* An insert that fails ends the program. */
int lmdb_enter_alone(void *p) { return insert_picked(p), 0; }

int lmdb_cancel(void *p) {
    const scene *s = p;
    cancel_picked(s);
    return rebuild() != s->of.held - 1;
}

void lmdb_pick(void *p) {
    pick(p);
    store_forget(&copy, "copy.mdb");
}

void lmdb_away(void *p) {
    lmdb_pick(p);
    cancel_picked(p);
}

void lmdb_back(void *p) { insert_picked(p); }
