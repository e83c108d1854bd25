/* SQLite in memory with secure_delete: what is timed of it. Its canonical bytes are the file that VACUUM INTO writes, among the scratch files.
 * The orders stand in an ordinary table, whose key is the row's number, and in one WITHOUT ROWID: the first has the faster integrity_check, the second the
 * faster VACUUM INTO. */
#include "peers/common.h"
#include "variants.h"

#include <sqlite3.h>
#include <unistd.h>

enum { INSERT, REPLACE, DELETE, SELECT, SCAN, INTEGRITY, VACUUM, STATEMENTS };

enum { ORDINARY, CLUSTERED, FORMS };

typedef struct {
    sqlite3 *database;
    sqlite3_stmt *statement[STATEMENTS];
} base;

static base bases[FORMS];
static char file[512];

static void need_ok(const base *b, int code, const char *what) {
    if (code == SQLITE_OK) return;
    fprintf(stderr, "SQLite, %s: %s\n", what, sqlite3_errmsg(b->database));
    exit(1);
}

static void run(const base *b, const char *text) { need_ok(b, sqlite3_exec(b->database, text, NULL, NULL, NULL), text); }

/* One step of a statement with these numbers; 0 when it ends there. */
static int step(const base *b, int which, const order *o, int numbers) {
    const u32 number[3] = {o->key, o->total, o->displayed};
    for (int i = 0; i < numbers; i++) sqlite3_bind_int64(b->statement[which], i + 1, number[i]);
    int code = sqlite3_step(b->statement[which]);
    sqlite3_reset(b->statement[which]);
    return code != SQLITE_DONE;
}

static int insert(const base *b, const scene *s) { return step(b, INSERT, &s->picked, 3); }
static int take_out(const base *b, const scene *s) { return step(b, DELETE, &s->picked, 1); }
static int vacuum(const base *b, const scene *s) { return step(b, VACUUM, &s->picked, 0); }

static void prepare(base *b) {
    char into[600];
    snprintf(into, sizeof into, "VACUUM INTO '%s'", file);
    const char *text[STATEMENTS] = {"INSERT INTO orders VALUES (?, ?, ?)", "REPLACE INTO orders VALUES (?, ?, ?)", "DELETE FROM orders WHERE key = ?",
                                    "SELECT total, displayed FROM orders WHERE key = ?", "SELECT key, total, displayed FROM orders ORDER BY key",
                                    "PRAGMA integrity_check", into};
    for (int i = 0; i < STATEMENTS; i++) need_ok(b, sqlite3_prepare_v2(b->database, text[i], -1, &b->statement[i], NULL), text[i]);
}

static void open_base(base *b, const scene *s, const char *create) {
    need_ok(b, sqlite3_open(":memory:", &b->database), "open");
    run(b, "PRAGMA secure_delete = ON; PRAGMA synchronous = OFF");
    run(b, create);
    prepare(b);
    run(b, "BEGIN");
    for (u32 i = 0; i < s->of.held; i++) step(b, INSERT, &s->orders[i], 3);
    run(b, "COMMIT");
}

void sqlite_open(const scene *s) {
    snprintf(file, sizeof file, "%s/vacuum.db", scratch);
    open_base(&bases[ORDINARY], s, "CREATE TABLE orders (key INTEGER PRIMARY KEY, total INTEGER, displayed INTEGER)");
    open_base(&bases[CLUSTERED], s, "CREATE TABLE orders (key INTEGER PRIMARY KEY, total INTEGER, displayed INTEGER) WITHOUT ROWID");
}

void sqlite_close_all(void) {
    for (base *b = bases; b < bases + FORMS; b++) {
        for (int i = 0; i < STATEMENTS; i++) sqlite3_finalize(b->statement[i]);
        sqlite3_close(b->database);
    }
    unlink(file);
}

const char *sqlite_name(void) { return sqlite3_libversion(); }

static int check(const base *b) {
    sqlite3_stmt *q = b->statement[INTEGRITY];
    int wrong = sqlite3_step(q) != SQLITE_ROW || strcmp((const char *)sqlite3_column_text(q, 0), "ok") != 0;
    sqlite3_reset(q);
    return wrong;
}

int sqlite_lookup(void *p) {
    scene *s = p;
    sqlite3_stmt *q = bases[ORDINARY].statement[SELECT];
    pick(s);
    sqlite3_bind_int64(q, 1, s->picked.key);
    int wrong = sqlite3_step(q) != SQLITE_ROW || sqlite3_column_int64(q, 0) != s->picked.total;
    sqlite3_reset(q);
    return wrong;
}

/* The next key that is asked for, held or not. */
int sqlite_descent(void *p) {
    scene *s = p;
    const order *o = s->asked++;
    sqlite3_stmt *q = bases[ORDINARY].statement[SELECT];
    sqlite3_bind_int64(q, 1, o->key);
    int wrong = sqlite3_step(q) != (o->total ? SQLITE_ROW : SQLITE_DONE);
    if (o->total) wrong |= sqlite3_column_int64(q, 0) != o->total || sqlite3_column_int64(q, 1) != o->displayed;
    sqlite3_reset(q);
    return wrong;
}

int sqlite_span(void *p) {
    const scene *s = p;
    sqlite3_stmt *q = bases[ORDINARY].statement[SCAN];
    u32 found = 0;
    for (; found < s->of.held && sqlite3_step(q) == SQLITE_ROW; found++)
        for (int i = 0; i < 3; i++) wbe32(s->output + 12 * (size_t)found + 4 * i, (u32)sqlite3_column_int64(q, i));
    sqlite3_reset(q);
    return found != s->of.held;
}

static int insert_and_vacuum(const base *b, const scene *s) { return insert(b, s) | vacuum(b, s); }
static int delete_and_vacuum(const base *b, const scene *s) { return take_out(b, s) | vacuum(b, s); }

int sqlite_check(void *p) { return (void)p, check(&bases[ORDINARY]); }
int sqlite_enter(void *p) { return insert_and_vacuum(&bases[ORDINARY], p); }
int sqlite_enter_alone(void *p) { return insert(&bases[ORDINARY], p); }
int sqlite_cancel(void *p) { return delete_and_vacuum(&bases[ORDINARY], p); }
int sqlite_enter_checked(void *p) { return sqlite_check(p) | sqlite_enter(p); }
int sqlite_cancel_checked(void *p) { return sqlite_check(p) | sqlite_cancel(p); }
int clustered_check(void *p) { return (void)p, check(&bases[CLUSTERED]); }
int clustered_enter(void *p) { return insert_and_vacuum(&bases[CLUSTERED], p); }
int clustered_cancel(void *p) { return delete_and_vacuum(&bases[CLUSTERED], p); }
int clustered_enter_checked(void *p) { return clustered_check(p) | clustered_enter(p); }
int clustered_cancel_checked(void *p) { return clustered_check(p) | clustered_cancel(p); }

void sqlite_pick(void *p) {
    pick(p);
    unlink(file);
}

void sqlite_away(void *p) {
    sqlite_pick(p);
    for (int i = 0; i < FORMS; i++) take_out(&bases[i], p);
}

/* Into both tables, of which one may have the order. */
void sqlite_back(void *p) {
    const scene *s = p;
    for (int i = 0; i < FORMS; i++) step(&bases[i], REPLACE, &s->picked, 3);
}
