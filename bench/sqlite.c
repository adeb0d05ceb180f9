// The calls of a script, made on SQLite in memory: prepared statements, no index, no journal. The language of the lines is in README.md; S and K are not taken.
#include <sqlite3.h>
#include <stdint.h>
#include <stdio.h>
#include <stdlib.h>
#include <string.h>
#include <time.h>

enum { CALLS = 16384, STATEMENTS = 16, VALUES = 8, RECORD = 16392 };

struct call {
    char letter;
    int number, count, values[VALUES];
    const char *text;
};

static sqlite3 *db;
static sqlite3_stmt *queries[STATEMENTS], *updates[STATEMENTS];
static int query_count, update_count;

// A table that runs round: its name, its size, how many rows it has, and the statement that removes the oldest; of each INSERT its ring, or none.
struct ring {
    char name[64];
    int size, rows;
    sqlite3_stmt *remove;
};
static struct ring rings[STATEMENTS], *ring_of[STATEMENTS];
static int ring_count;
static struct call calls[CALLS];
static unsigned char record[RECORD];
static unsigned long long refused, steps, bytes, changed, sum;

static void fail(const char *what) {
    fprintf(stderr, "sqlite: %s: %s\n", what, db ? sqlite3_errmsg(db) : "");
    exit(1);
}

static void run_text(const char *text) {
    if (sqlite3_exec(db, text, 0, 0, 0) != SQLITE_OK)
        fail(text);
}

static void open_store(void) {
    for (int i = 0; i < query_count; i++)
        sqlite3_finalize(queries[i]);
    for (int i = 0; i < update_count; i++)
        sqlite3_finalize(updates[i]);
    for (int i = 0; i < ring_count; i++)
        sqlite3_finalize(rings[i].remove);
    query_count = update_count = ring_count = 0;
    sqlite3_close(db);
    if (sqlite3_open(":memory:", &db) != SQLITE_OK)
        fail("open");
    run_text("PRAGMA journal_mode = OFF");
    run_text("PRAGMA synchronous = OFF");
    run_text("PRAGMA automatic_index = OFF");
}

// `TABLE name (a, b) RING n`: notes the ring, and how its oldest row goes.
static void note_ring(const char *text) {
    const char *size = strstr(text, ") RING ");
    struct ring *r = &rings[ring_count];
    char remove[256];
    if (!size)
        return;
    sscanf(text, "TABLE %63s", r->name);
    r->size = atoi(size + 7), r->rows = 0;
    snprintf(remove, sizeof remove, "DELETE FROM %s WHERE rowid = (SELECT min(rowid) FROM %s)", r->name, r->name);
    if (sqlite3_prepare_v3(db, remove, -1, SQLITE_PREPARE_PERSISTENT, &r->remove, 0) != SQLITE_OK)
        fail(remove);
    ring_count++;
}

// The ring that an INSERT is into, or none.
static struct ring *inserts_round(const char *text) {
    char name[64] = "";
    sscanf(text, "INSERT INTO %63s", name);
    for (int i = 0; i < ring_count; i++)
        if (strcmp(rings[i].name, name) == 0)
            return &rings[i];
    return 0;
}

// `TABLE name (a, b) ROWS n` becomes `CREATE TABLE name (a INTEGER, b INTEGER)`; the other texts are SQLite's too.
static void add(const char *text) {
    char made[1024] = "CREATE ";
    if (strncmp(text, "TABLE", 5) == 0) {
        for (const char *p = text; *p; p++) {
            if (*p == ',' || *p == ')')
                strcat(made, " INTEGER");
            strncat(made, p, 1);
            if (*p == ')')
                break;
        }
        run_text(made);
        note_ring(text);
        return;
    }
    int asks = strncmp(text, "SELECT", 6) == 0;
    if (!asks)
        ring_of[update_count] = inserts_round(text);
    sqlite3_stmt **place = asks ? &queries[query_count++] : &updates[update_count++];
    if (sqlite3_prepare_v3(db, text, -1, SQLITE_PREPARE_PERSISTENT, place, 0) != SQLITE_OK)
        fail(text);
}

static void bind(sqlite3_stmt *s, const struct call *c) {
    for (int i = 0; i < c->count; i++)
        sqlite3_bind_int(s, i + 1, c->values[i]);
}

static void put32(unsigned char *at, uint32_t v) {
    at[0] = v >> 24, at[1] = v >> 16, at[2] = v >> 8, at[3] = v;
}

// The answer goes into a record of document 01's form, as the store's does.
static void ask(const struct call *c, int summing) {
    sqlite3_stmt *s = queries[c->number];
    bind(s, c);
    int columns = sqlite3_column_count(s), rows = 0, got;
    unsigned char *at = record + 8;
    while ((got = sqlite3_step(s)) == SQLITE_ROW) {
        for (int i = 0; i < columns; i++, at += 4)
            put32(at, (uint32_t)sqlite3_column_int(s, i));
        rows++;
    }
    if (got != SQLITE_DONE)
        fail("ask");
    sqlite3_reset(s);
    size_t length = (size_t)(at - record);
    put32(record, (uint32_t)(length - 4));
    record[4] = 1, record[5] = (unsigned char)columns, record[6] = rows >> 8, record[7] = (unsigned char)rows;
    bytes += length;
    if (summing)
        for (size_t i = 0; i < length; i++)
            sum = 3 * sum + record[i];
}

static void update(const struct call *c) {
    sqlite3_stmt *s = updates[c->number];
    struct ring *r = ring_of[c->number];
    if (r && r->rows == r->size) {
        if (sqlite3_step(r->remove) != SQLITE_DONE)
            fail("remove");
        sqlite3_reset(r->remove);
        r->rows--;
    }
    if (r)
        r->rows++;
    bind(s, c);
    if (sqlite3_step(s) != SQLITE_DONE)
        fail("update");
    sqlite3_reset(s);
    changed += (unsigned long long)sqlite3_changes(db);
}

static void make(const struct call *c, int summing) {
    switch (c->letter) {
    case 'O': open_store(); break;
    case 'A': add(c->text); break;
    case 'Q': ask(c, summing); break;
    case 'U': update(c); break;
    default: break;
    }
}

// Rows that the queries stepped over.
static unsigned long long stepped(void) {
    unsigned long long n = 0;
    for (int i = 0; i < query_count; i++)
        n += (unsigned long long)sqlite3_stmt_status(queries[i], SQLITE_STMTSTATUS_FULLSCAN_STEP, 1);
    return n;
}

static void run(int count, long turns, int summing) {
    if (count == 0)
        return;
    refused = bytes = changed = sum = 0;
    stepped();
    for (long i = 0, at = 0; i < turns; i++, at = at + 1 < count ? at + 1 : 0)
        make(&calls[at], summing);
    steps = stepped();
    printf("calls %ld refused %llu cached 0 read %llu bytes %llu changed %llu dropped 0", turns, refused, steps, bytes, changed);
    if (summing)
        printf(" sum %llu", sum);
    printf("\n");
}

int main(int argc, char **argv) {
    static char line[1024];
    int count = 0;
    if (argc == 2 && strcmp(argv[1], "--version") == 0) {
        printf("%s\n", sqlite3_libversion());
        return 0;
    }
    FILE *in = argc == 2 ? fopen(argv[1], "r") : stdin;
    if (!in)
        fail("no script");
    while (fgets(line, sizeof line, in)) {
        line[strcspn(line, "\n")] = 0;
        struct call *c = &calls[count];
        char *rest = line + (line[0] && line[1] ? 2 : 1);
        switch (line[0]) {
        case 'A':
        case 'O':
        case 'Q':
        case 'U':
        case 'F':
        case 'N':
            memset(c, 0, sizeof *c);
            c->letter = line[0];
            if (line[0] == 'A')
                c->text = strdup(rest);
            else {
                c->number = (int)strtol(rest, &rest, 10);
                while (c->count < VALUES && *rest)
                    c->values[c->count++] = (int)strtol(rest, &rest, 10);
            }
            count = count + 1 < CALLS ? count + 1 : count;
            break;
        case 'L': count = 0; break;
        case 'R': run(count, strtol(rest, 0, 10), 0); break;
        case 'C': run(count, strtol(rest, 0, 10), 1); break;
        case 'T': printf("time %ld\n", (long)clock()); break;
        default: break;
        }
    }
    return 0;
}
