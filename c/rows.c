/*
 * A load in SQLite, in memory, as a store of rows would do it: what `second trace` tells of a load of on-hand.
 * Each site has one row for each action, with a unique key on coordinator and time; a message's rows are
 * inserted or ignored, in one transaction; figures are sums by article.
 *
 *   rows TRACE plain    does so, and prints what it did, and how many seconds of processor time that took
 *   rows TRACE indexed  the same, with an index by article beside the key
 *   rows TRACE nothing  reads the trace only
 *   rows version        prints which SQLite it is
 *
 * The status is 0 if every sum is the figure that the trace has.
 */
#include <sqlite3.h>
#include <stdio.h>
#include <stdlib.h>
#include <string.h>
#include <time.h>

enum { SITES = 8, ARTICLES = 64 };

static sqlite3 *base;

/* The rows of an offer. */
long long offered[1024][3];

/* What each site's statements are. */
struct site {
    sqlite3_stmt *insert, *offer, *sum, *gone, *all;
    /* The sums of what was archived. */
    long long archived[ARTICLES];
};

static struct site sites[SITES];
static sqlite3_stmt *begin, *commit;

struct counts {
    long commits, offers, takes, archives, sums, rows_inserted, rows_ignored, rows_offered, wrong;
};

static void stop(const char *what)
{
    fprintf(stderr, "rows: %s: %s\n", what, base ? sqlite3_errmsg(base) : "");
    exit(1);
}

static void run(const char *sql)
{
    if (sqlite3_exec(base, sql, NULL, NULL, NULL) != SQLITE_OK) stop(sql);
}

static sqlite3_stmt *prepared(const char *form, int site)
{
    char sql[256];
    sqlite3_stmt *statement;
    snprintf(sql, sizeof sql, form, site);
    if (sqlite3_prepare_v3(base, sql, -1, SQLITE_PREPARE_PERSISTENT, &statement, NULL) != SQLITE_OK) stop(sql);
    return statement;
}

static void make(int is_indexed)
{
    if (sqlite3_open(":memory:", &base) != SQLITE_OK) stop("open");
    run("PRAGMA journal_mode = OFF");
    run("PRAGMA synchronous = OFF");
    for (int i = 0; i < SITES; i++) {
        char sql[256];
        snprintf(sql, sizeof sql,
                 "CREATE TABLE s%d (coordinator INT, time INT, article INT, amount INT, PRIMARY KEY (coordinator, time)) "
                 "WITHOUT ROWID", i);
        run(sql);
        snprintf(sql, sizeof sql, "CREATE INDEX a%d ON s%d (article, time, amount)", i, i);
        if (is_indexed) run(sql);
        sites[i].insert = prepared("INSERT OR IGNORE INTO s%d VALUES (?1, ?2, ?3, ?4)", i);
        sites[i].offer = prepared("SELECT coordinator, time, amount FROM s%d WHERE article = ?1 AND time > ?2", i);
        sites[i].sum = prepared("SELECT sum(amount) FROM s%d WHERE article = ?1 AND time <= ?2", i);
        sites[i].gone = prepared("DELETE FROM s%d WHERE article = ?1 AND time <= ?2", i);
        sites[i].all = prepared("SELECT article, sum(amount) FROM s%d GROUP BY article", i);
    }
    begin = prepared("BEGIN", 0);
    commit = prepared("COMMIT", 0);
}

static void bind(sqlite3_stmt *statement, int place, long long value)
{
    if (sqlite3_bind_int64(statement, place, value) != SQLITE_OK) stop("bind");
}

/* Runs a statement that answers nothing. */
static void finish(sqlite3_stmt *statement)
{
    if (sqlite3_step(statement) != SQLITE_DONE) stop("step");
    sqlite3_reset(statement);
}

/* Inserts rows of four numbers, in one transaction; those that are there are ignored. */
static void insert(struct site *site, const long long *numbers, long count, struct counts *counts)
{
    if (count == 0) return;
    finish(begin);
    for (long i = 0; i < count; i++) {
        for (int j = 0; j < 4; j++) bind(site->insert, j + 1, numbers[4 * i + j]);
        finish(site->insert);
        if (sqlite3_changes(base) > 0) counts->rows_inserted++;
        else counts->rows_ignored++;
    }
    finish(commit);
}

static void offer(struct site *site, const long long *numbers, struct counts *counts)
{
    long rows = 0;
    bind(site->offer, 1, numbers[0]);
    bind(site->offer, 2, numbers[1]);
    int state;
    while ((state = sqlite3_step(site->offer)) == SQLITE_ROW) {
        for (int j = 0; j < 3; j++) offered[rows % 1024][j] = sqlite3_column_int64(site->offer, j);
        rows++;
    }
    if (state != SQLITE_DONE) stop("offer");
    sqlite3_reset(site->offer);
    counts->rows_offered += rows;
}

static void archive(struct site *site, const long long *numbers)
{
    bind(site->sum, 1, numbers[0]);
    bind(site->sum, 2, numbers[1]);
    if (sqlite3_step(site->sum) != SQLITE_ROW) stop("sum");
    site->archived[numbers[0]] += sqlite3_column_int64(site->sum, 0);
    sqlite3_reset(site->sum);
    bind(site->gone, 1, numbers[0]);
    bind(site->gone, 2, numbers[1]);
    finish(site->gone);
}

static void look(struct site *site, const long long *figures, struct counts *counts)
{
    long long sums[ARTICLES];
    memcpy(sums, site->archived, sizeof sums);
    int state;
    while ((state = sqlite3_step(site->all)) == SQLITE_ROW)
        sums[sqlite3_column_int64(site->all, 0)] += sqlite3_column_int64(site->all, 1);
    if (state != SQLITE_DONE) stop("sums");
    sqlite3_reset(site->all);
    for (int article = 0; article < ARTICLES; article++) {
        counts->sums++;
        counts->wrong += sums[article] != figures[article];
    }
}

/* A step: its letter, its site, how many numbers it has, and the first of them. */
struct step {
    char letter;
    int site;
    long count;
    size_t first;
};

static struct step *steps;
static size_t step_count, step_room;
static long long *numbers;
static size_t number_count, number_room;

static void add_number(long long value)
{
    if (number_count == number_room) {
        number_room = number_room ? 2 * number_room : 1 << 16;
        numbers = realloc(numbers, number_room * sizeof *numbers);
        if (!numbers) stop("memory");
    }
    numbers[number_count++] = value;
}

static void add_step(char *line)
{
    char *at = line + 1;
    if (step_count == step_room) {
        step_room = step_room ? 2 * step_room : 1 << 12;
        steps = realloc(steps, step_room * sizeof *steps);
        if (!steps) stop("memory");
    }
    struct step *step = &steps[step_count++];
    step->letter = line[0];
    step->site = (int)strtol(at, &at, 10);
    step->count = 0;
    if (line[0] == 'P' || line[0] == 'T') step->count = strtol(at, &at, 10);
    step->first = number_count;
    for (;;) {
        char *end;
        long long value = strtoll(at, &end, 10);
        if (end == at) break;
        add_number(value);
        at = end;
    }
    size_t found = number_count - step->first, wanted = 2;
    if (line[0] == 'P' || line[0] == 'T') wanted = 4 * (size_t)step->count;
    if (line[0] == 'F') wanted = ARTICLES;
    if (!strchr("PTOAF", line[0]) || step->site < 0 || step->site >= SITES || found != wanted) stop(line);
    /* Where the articles stand among the numbers. */
    size_t first = line[0] == 'P' || line[0] == 'T' ? 2 : 0, stride = first == 2 ? 4 : 2;
    for (size_t i = first; line[0] != 'F' && i < found; i += stride) {
        long long article = numbers[step->first + i];
        if (article < 0 || article >= ARTICLES) stop(line);
    }
}

static void read_trace(const char *name)
{
    FILE *file = fopen(name, "r");
    char *line = NULL;
    size_t room = 0;
    if (!file) stop(name);
    while (getline(&line, &room, file) > 0) add_step(line);
    if (ferror(file)) stop(name);
    free(line);
    fclose(file);
}

static void do_step(const struct step *step, struct counts *counts)
{
    struct site *site = &sites[step->site];
    const long long *values = numbers + step->first;
    switch (step->letter) {
    case 'P': counts->commits++; insert(site, values, step->count, counts); break;
    case 'T': counts->takes++; insert(site, values, step->count, counts); break;
    case 'O': counts->offers++; offer(site, values, counts); break;
    case 'A': counts->archives++; archive(site, values); break;
    default: look(site, values, counts);
    }
}

int main(int argc, char **argv)
{
    struct counts counts = {0};
    if (argc == 2 && strcmp(argv[1], "version") == 0) return puts(sqlite3_libversion()) < 0;
    const char *how = argc == 3 ? argv[2] : "";
    int is_indexed = strcmp(how, "indexed") == 0;
    int is_idle = strcmp(how, "nothing") == 0;
    if (!is_indexed && !is_idle && strcmp(how, "plain") != 0) stop("usage: rows TRACE plain|indexed|nothing, or rows version");
    read_trace(argv[1]);
    if (is_idle) return 0;
    clock_t start = clock();
    make(is_indexed);
    for (size_t i = 0; i < step_count; i++) do_step(&steps[i], &counts);
    double seconds = (double)(clock() - start) / CLOCKS_PER_SEC;
    printf("commits %ld offers %ld takes %ld archives %ld sums %ld wrong %ld\n", counts.commits, counts.offers,
           counts.takes, counts.archives, counts.sums, counts.wrong);
    printf("rows inserted %ld ignored %ld offered %ld\n", counts.rows_inserted, counts.rows_ignored, counts.rows_offered);
    printf("seconds %.3f\n", seconds);
    return counts.wrong != 0;
}
