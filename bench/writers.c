/* Transactions of many threads on one file of SQLite, each thread with a connection of its own.

       writers [OPTIONS] FILE SETUP CHANGE CHANGE

   SETUP are the statements that are run first. Each transaction makes both changes, statements in which `:drawn` is a number
   below --drawn that is drawn for the transaction, and rests for --think microseconds after each, while it holds what it has.
   It begins by BEGIN IMMEDIATE, so that it never has to be tried again: SQLite lets one transaction write at a time, and sleeps
   in between where another one writes. With --aborts N one of N transactions is taken back in place of its commit, by chance.
   It ends after --seconds, or after --transactions in all, whichever is first, once each thread has ended what it began.

   The last line is `transactions N seconds S median M ninety_ninth P aborted A`: how many ended, what the median and the 99th
   percentile of them took, in microseconds from BEGIN on, and how many were taken back. */
#include <getopt.h>
#include <pthread.h>
#include <sqlite3.h>
#include <stdatomic.h>
#include <stdbool.h>
#include <string.h>
#include <unistd.h>

#include "common.h"

enum { MOST_CLIENTS = 64, MOST_LATENCIES = 1 << 20, MOST_WAIT = 60000 };

struct options {
    long clients, transactions, aborts, think, drawn, seed;
    double seconds;
};

struct client {
    sqlite3 *database;
    sqlite3_stmt *begin, *changes[2], *commit, *rollback;
    unsigned long random_state;
    float *latencies;
    size_t ended, aborted;
};

static struct options options = {.clients = 1, .transactions = MOST_LATENCIES, .drawn = 1, .seed = 1, .seconds = 1};
static char **words;
static struct client clients[MOST_CLIENTS];
static atomic_long begun;
static double started;

static void expect(sqlite3 *database, bool is_so)
{
    if (!is_so) {
        fprintf(stderr, "writers: %s\n", sqlite3_errmsg(database));
        exit(1);
    }
}

static sqlite3 *opened(const char *setup)
{
    sqlite3 *database = NULL;
    expect(database, sqlite3_open(words[0], &database) == SQLITE_OK);
    sqlite3_busy_timeout(database, MOST_WAIT);
    expect(database, sqlite3_exec(database, setup, NULL, NULL, NULL) == SQLITE_OK);
    return database;
}

static sqlite3_stmt *prepare(sqlite3 *database, const char *text)
{
    sqlite3_stmt *statement = NULL;
    expect(database, sqlite3_prepare_v3(database, text, -1, SQLITE_PREPARE_PERSISTENT, &statement, NULL) == SQLITE_OK);
    return statement;
}

static void open_client(struct client *it, long number)
{
    it->database = opened("PRAGMA synchronous = OFF");
    it->begin = prepare(it->database, "BEGIN IMMEDIATE");
    it->commit = prepare(it->database, "COMMIT");
    it->rollback = prepare(it->database, "ROLLBACK");
    for (int place = 0; place < 2; place++)
        it->changes[place] = prepare(it->database, words[2 + place]);
    it->random_state = first_state((unsigned long)options.seed, (unsigned long)number);
    it->latencies = calloc(MOST_LATENCIES, sizeof *it->latencies);
    if (it->latencies == NULL)
        give_up("writers: calloc");
}

static void do_statement(struct client *it, sqlite3_stmt *statement)
{
    expect(it->database, sqlite3_step(statement) == SQLITE_DONE);
    sqlite3_reset(statement);
}

static void change(struct client *it, sqlite3_stmt *statement, long drawn)
{
    int place = sqlite3_bind_parameter_index(statement, ":drawn");
    if (place > 0)
        sqlite3_bind_int64(statement, place, drawn);
    do_statement(it, statement);
    if (options.think > 0)
        usleep((useconds_t)options.think);
}

static void run_transaction(struct client *it)
{
    long drawn = (long)draw_below(&it->random_state, (unsigned long)options.drawn);
    bool aborts = options.aborts > 0 && draw_below(&it->random_state, (unsigned long)options.aborts) == 0;
    do_statement(it, it->begin);
    for (int place = 0; place < 2; place++)
        change(it, it->changes[place], drawn);
    do_statement(it, aborts ? it->rollback : it->commit);
    it->aborted += aborts;
}

static void *run_client(void *given)
{
    struct client *it = given;
    while (now() - started < options.seconds && it->ended < MOST_LATENCIES
           && atomic_fetch_add(&begun, 1) < options.transactions) {
        double before = now();
        run_transaction(it);
        it->latencies[it->ended++] = (float)((now() - before) * 1e6);
    }
    return NULL;
}

static void run_all(void)
{
    pthread_t threads[MOST_CLIENTS];
    for (long number = 0; number < options.clients; number++)
        open_client(&clients[number], number);
    started = now();
    for (long number = 0; number < options.clients; number++) {
        if (pthread_create(&threads[number], NULL, run_client, &clients[number]) != 0)
            give_up("writers: pthread_create");
    }
    for (long number = 0; number < options.clients; number++)
        pthread_join(threads[number], NULL);
}

static void report(double seconds)
{
    size_t ended = 0, aborted = 0;
    for (long number = 0; number < options.clients; number++) {
        ended += clients[number].ended;
        aborted += clients[number].aborted;
    }
    float *all = calloc(ended + 1, sizeof *all), *to = all;
    if (all == NULL)
        give_up("writers: calloc");
    for (long number = 0; number < options.clients; number++) {
        memcpy(to, clients[number].latencies, clients[number].ended * sizeof *all);
        to += clients[number].ended;
    }
    qsort(all, ended, sizeof *all, compare_floats);
    size_t last = ended == 0 ? 0 : ended - 1;
    printf("transactions %zu seconds %.6f median %.2f ninety_ninth %.2f aborted %zu\n", ended, seconds, all[last / 2],
           all[last * 99 / 100], aborted);
}

static void read_options(int count, char **given)
{
    static const struct option known[] = {
        {"clients", required_argument, NULL, 'c'}, {"seconds", required_argument, NULL, 's'},
        {"transactions", required_argument, NULL, 't'}, {"aborts", required_argument, NULL, 'a'},
        {"think", required_argument, NULL, 'k'}, {"drawn", required_argument, NULL, 'n'},
        {"seed", required_argument, NULL, 'd'}, {NULL, 0, NULL, 0},
    };
    for (int sign; (sign = getopt_long(count, given, "", known, NULL)) != -1;) {
        switch (sign) {
        case 'c': options.clients = atol(optarg); break;
        case 's': options.seconds = atof(optarg); break;
        case 't': options.transactions = atol(optarg); break;
        case 'a': options.aborts = atol(optarg); break;
        case 'k': options.think = atol(optarg); break;
        case 'n': options.drawn = atol(optarg); break;
        case 'd': options.seed = atol(optarg); break;
        default: exit(2);
        }
    }
}

int main(int count, char **given)
{
    read_options(count, given);
    words = given + optind;
    if (count - optind != 4 || options.clients < 1 || options.clients > MOST_CLIENTS || options.drawn < 1) {
        fputs("writers: FILE, SETUP and two changes are wanted, 1 to 64 clients, and something to draw\n", stderr);
        return 2;
    }
    sqlite3_close(opened(words[1]));
    run_all();
    report(now() - started);
    return 0;
}
