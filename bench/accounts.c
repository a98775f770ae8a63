/* Runs scripts over accounts as `mltx solo` does, by SQLite in memory: it reads the same text and prints the same replies.

       accounts FILE
       accounts --version

   It knows `open`, `deposit`, `withdraw` and `balance`, which is what the benchmarks use. Each operation is a prepared
   statement or two, and a script is a transaction. A balance has no upper limit here. The version is that of SQLite. */
#include <sqlite3.h>
#include <stdbool.h>
#include <string.h>

#include "common.h"

static sqlite3 *database;
static sqlite3_stmt *begin, *commit, *open_account, *deposit, *withdraw, *balance;
static long commits;

static void expect(bool is_so)
{
    if (!is_so) {
        fprintf(stderr, "accounts: %s\n", sqlite3_errmsg(database));
        exit(1);
    }
}

static sqlite3_stmt *prepare(const char *text)
{
    sqlite3_stmt *statement = NULL;
    expect(sqlite3_prepare_v3(database, text, -1, SQLITE_PREPARE_PERSISTENT, &statement, NULL) == SQLITE_OK);
    return statement;
}

static void open_database(void)
{
    expect(sqlite3_open(":memory:", &database) == SQLITE_OK);
    expect(sqlite3_exec(database, "CREATE TABLE account (id INTEGER PRIMARY KEY, balance INTEGER NOT NULL)", NULL, NULL, NULL)
           == SQLITE_OK);
    begin = prepare("BEGIN");
    commit = prepare("COMMIT");
    open_account = prepare("INSERT OR IGNORE INTO account VALUES (?1, 0)");
    deposit = prepare("UPDATE account SET balance = balance + ?2 WHERE id = ?1");
    withdraw = prepare("UPDATE account SET balance = balance - ?2 WHERE id = ?1 AND balance >= ?2");
    balance = prepare("SELECT balance FROM account WHERE id = ?1");
}

/* Runs a statement that gives no row: whether it changed one. */
static bool changes(sqlite3_stmt *statement, long account, long amount)
{
    if (sqlite3_bind_parameter_count(statement) >= 1)
        sqlite3_bind_int64(statement, 1, account);
    if (sqlite3_bind_parameter_count(statement) >= 2)
        sqlite3_bind_int64(statement, 2, amount);
    expect(sqlite3_step(statement) == SQLITE_DONE);
    sqlite3_reset(statement);
    return sqlite3_changes(database) > 0;
}

/* The balance of an account, or -1 where it is missing. */
static long balance_of(long account)
{
    long found = -1;
    sqlite3_bind_int64(balance, 1, account);
    if (sqlite3_step(balance) == SQLITE_ROW)
        found = sqlite3_column_int64(balance, 0);
    sqlite3_reset(balance);
    return found;
}

static void tell_balance(long account)
{
    long found = balance_of(account);
    if (found < 0)
        puts("missing");
    else
        printf("is %ld\n", found);
}

static void ask(const char *word, long account, long amount)
{
    if (strcmp(word, "open") == 0)
        puts(changes(open_account, account, 0) ? "opened" : "exists");
    else if (strcmp(word, "deposit") == 0)
        puts(changes(deposit, account, amount) ? "done" : "missing");
    else if (strcmp(word, "withdraw") == 0)
        puts(changes(withdraw, account, amount) ? "done" : balance_of(account) < 0 ? "missing" : "short");
    else
        tell_balance(account);
}

static void run_line(char *line)
{
    char *rest = strchr(line, ' ');
    if (strcmp(line, "begin") == 0) {
        changes(begin, 0, 0);
    } else if (strcmp(line, "commit") == 0) {
        changes(commit, 0, 0);
        printf("committed %ld\n", ++commits);
    } else if (rest != NULL) {
        *rest = 0;
        long account = strtol(rest + 1, &rest, 10);
        ask(line, account, strtol(rest, NULL, 10));
    }
}

static void run_file(const char *path)
{
    static char line[256];
    FILE *file = fopen(path, "r");
    if (file == NULL)
        give_up("accounts: FILE");
    while (fgets(line, sizeof line, file) != NULL) {
        line[strcspn(line, "\n")] = 0;
        run_line(line);
    }
}

int main(int count, char **words)
{
    if (count != 2) {
        fputs("accounts: one FILE, or --version, is wanted\n", stderr);
        return 2;
    }
    if (strcmp(words[1], "--version") == 0) {
        puts(sqlite3_libversion());
    } else {
        open_database();
        run_file(words[1]);
    }
    return 0;
}
