/* Clients of a server that run SmallBank (Alomari and others 2008), each in a thread with a connection of its own.

       smallbank [OPTIONS]

   A customer C has a savings account, 2 C, and a checking account, 2 C + 1. A transaction is one of six, drawn with these shares:

       Balance 15           reads both accounts of a customer
       DepositChecking 15   adds to checking
       TransactSavings 15   adds to savings, or takes from them
       Amalgamate 15        reads both accounts of one customer, empties them, and adds the sum to checking of another
       WriteCheck 15        reads both accounts, and takes from checking, with a penalty of 1 where the two hold too little
       SendPayment 25       takes from checking of one customer, and adds to that of another

   Each operation is a line, sent once the one before is answered, and the client rests for --think microseconds behind each. Nine
   of ten customers are drawn from the first --hot, the others from all --customers. Where an account holds too little or too much
   the transaction is aborted. One that is refused an operation is aborted, and run again at once. It ends after --seconds, or
   after --transactions in all, whichever is first.

   The last line is `transactions N seconds S median M ninety_ninth P refused R aborted A`: how many ended, what the median and the
   99th percentile of them took, in microseconds from the first try on, how many tries were refused, and how many were aborted for
   what an account held. */
#include <arpa/inet.h>
#include <getopt.h>
#include <netinet/tcp.h>
#include <pthread.h>
#include <stdatomic.h>
#include <stdbool.h>
#include <string.h>
#include <sys/socket.h>
#include <unistd.h>

#include "common.h"

enum { MOST_CLIENTS = 64, MOST_LATENCIES = 1 << 20, MOST_LINE = 128, MOST_AMOUNT = 50 };

struct options {
    int port;
    long clients, transactions, customers, hot, think, seed;
    double seconds;
};

/* What a server answers: what was asked for is done, an account holds too little or too much, or the operation is refused. */
enum answer { DONE, WITHOUT_FUNDS, REFUSED };

struct client {
    int socket;
    unsigned long random_state;
    char heard[MOST_LINE];
    float *latencies;
    size_t ended, aborted, refused;
};

/* What a transaction is about: one of the six, by its place in `kinds`, its two customers, and an amount. */
struct drawn {
    size_t kind;
    long customer, other, amount;
    bool takes;
};

static struct options options = {
    .clients = 1, .transactions = MOST_LATENCIES, .customers = 1000, .hot = 10, .seed = 1, .seconds = 1};
static struct client clients[MOST_CLIENTS];
static atomic_long begun;
static double started;

static long savings(long customer)
{
    return 2 * customer;
}

static long checking(long customer)
{
    return 2 * customer + 1;
}

static void open_client(struct client *it, long number)
{
    struct sockaddr_in address = {.sin_family = AF_INET, .sin_port = htons((unsigned short)options.port)};
    int yes = 1;
    address.sin_addr.s_addr = htonl(INADDR_LOOPBACK);
    it->socket = must(socket(AF_INET, SOCK_STREAM, 0), "smallbank: socket");
    must(connect(it->socket, (struct sockaddr *)&address, sizeof address), "smallbank: connect");
    must(setsockopt(it->socket, IPPROTO_TCP, TCP_NODELAY, &yes, sizeof yes), "smallbank: setsockopt");
    it->random_state = first_state((unsigned long)options.seed, (unsigned long)number);
    it->latencies = calloc(MOST_LATENCIES, sizeof *it->latencies);
    if (it->latencies == NULL)
        give_up("smallbank: calloc");
}

static void hear_line(struct client *it)
{
    size_t count = 0;
    do {
        ssize_t more = must((int)recv(it->socket, it->heard + count, sizeof it->heard - 1 - count, 0), "smallbank: recv");
        if (more == 0) {
            fputs("smallbank: the server ended a connection\n", stderr);
            exit(1);
        }
        count += (size_t)more;
    } while (it->heard[count - 1] != '\n' && count < sizeof it->heard - 1);
    it->heard[count - 1] = 0;
}

static enum answer ask(struct client *it, const char *line, int length)
{
    must((int)send(it->socket, line, (size_t)length, MSG_NOSIGNAL), "smallbank: send");
    hear_line(it);
    if (strncmp(it->heard, "error ", 6) == 0)
        return REFUSED;
    return strcmp(it->heard, "short") == 0 || strcmp(it->heard, "over") == 0 ? WITHOUT_FUNDS : DONE;
}

static enum answer say(struct client *it, const char *line)
{
    return ask(it, line, (int)strlen(line));
}

static void think(void)
{
    if (options.think > 0)
        usleep((useconds_t)options.think);
}

static enum answer change(struct client *it, const char *word, long account, long amount)
{
    char line[MOST_LINE];
    enum answer answer = ask(it, line, snprintf(line, sizeof line, "%s %ld %ld\n", word, account, amount));
    think();
    return answer;
}

/* Reads both accounts of a customer. */
static enum answer read_both(struct client *it, long customer, long held[2])
{
    enum answer answer = DONE;
    for (int place = 0; place < 2 && answer == DONE; place++) {
        char line[MOST_LINE];
        answer = ask(it, line, snprintf(line, sizeof line, "balance %ld\n", place ? checking(customer) : savings(customer)));
        held[place] = answer == DONE ? atol(it->heard + strlen("is ")) : 0;
        think();
    }
    return answer;
}

static enum answer balance(struct client *it, const struct drawn *drawn)
{
    long held[2];
    return read_both(it, drawn->customer, held);
}

static enum answer deposit_checking(struct client *it, const struct drawn *drawn)
{
    return change(it, "deposit", checking(drawn->customer), drawn->amount);
}

static enum answer transact_savings(struct client *it, const struct drawn *drawn)
{
    return change(it, drawn->takes ? "withdraw" : "deposit", savings(drawn->customer), drawn->amount);
}

static enum answer amalgamate(struct client *it, const struct drawn *drawn)
{
    long held[2];
    enum answer answer = read_both(it, drawn->customer, held);
    if (answer == DONE)
        answer = change(it, "withdraw", savings(drawn->customer), held[0]);
    if (answer == DONE)
        answer = change(it, "withdraw", checking(drawn->customer), held[1]);
    return answer == DONE ? change(it, "deposit", checking(drawn->other), held[0] + held[1]) : answer;
}

static enum answer write_check(struct client *it, const struct drawn *drawn)
{
    long held[2];
    enum answer answer = read_both(it, drawn->customer, held);
    long penalty = held[0] + held[1] < drawn->amount;
    return answer == DONE ? change(it, "withdraw", checking(drawn->customer), drawn->amount + penalty) : answer;
}

static enum answer send_payment(struct client *it, const struct drawn *drawn)
{
    enum answer answer = change(it, "withdraw", checking(drawn->customer), drawn->amount);
    return answer == DONE ? change(it, "deposit", checking(drawn->other), drawn->amount) : answer;
}

static const struct {
    enum answer (*run)(struct client *, const struct drawn *);
    unsigned long share;
} kinds[] = {
    {balance, 15}, {deposit_checking, 15}, {transact_savings, 15}, {amalgamate, 15}, {write_check, 15}, {send_payment, 25},
};

static unsigned long some_number(struct client *it, long limit)
{
    return draw_below(&it->random_state, (unsigned long)limit);
}

static long some_customer(struct client *it)
{
    return (long)some_number(it, some_number(it, 10) > 0 ? options.hot : options.customers);
}

static struct drawn draw(struct client *it)
{
    struct drawn drawn = {.customer = some_customer(it), .amount = 1 + (long)some_number(it, MOST_AMOUNT)};
    do
        drawn.other = some_customer(it);
    while (drawn.other == drawn.customer);
    drawn.takes = some_number(it, 2) > 0;
    for (unsigned long left = some_number(it, 100); left >= kinds[drawn.kind].share; drawn.kind++)
        left -= kinds[drawn.kind].share;
    return drawn;
}

/* One try of a transaction: whether it ended. */
static bool try_once(struct client *it, const struct drawn *drawn)
{
    enum answer answer = say(it, "begin\n");
    if (answer == DONE)
        answer = kinds[drawn->kind].run(it, drawn);
    if (answer == DONE)
        answer = say(it, "commit\n");
    else
        say(it, "abort\n");
    it->aborted += answer == WITHOUT_FUNDS;
    it->refused += answer == REFUSED;
    return answer != REFUSED;
}

static void *run_client(void *given)
{
    struct client *it = given;
    while (now() - started < options.seconds && it->ended < MOST_LATENCIES
           && atomic_fetch_add(&begun, 1) < options.transactions) {
        struct drawn drawn = draw(it);
        double before = now();
        while (!try_once(it, &drawn))
            continue;
        it->latencies[it->ended++] = (float)((now() - before) * 1e6);
    }
    return NULL;
}

static void run_all(void)
{
    pthread_t threads[MOST_CLIENTS];
    for (long number = 0; number < options.clients; number++)
        open_client(&clients[number], number);
    started = now();
    for (long number = 0; number < options.clients; number++) {
        if (pthread_create(&threads[number], NULL, run_client, &clients[number]) != 0)
            give_up("smallbank: pthread_create");
    }
    for (long number = 0; number < options.clients; number++)
        pthread_join(threads[number], NULL);
}

static void report(double seconds)
{
    size_t ended = 0, aborted = 0, refused = 0;
    for (long number = 0; number < options.clients; number++) {
        ended += clients[number].ended;
        aborted += clients[number].aborted;
        refused += clients[number].refused;
    }
    float *all = calloc(ended + 1, sizeof *all), *to = all;
    if (all == NULL)
        give_up("smallbank: calloc");
    for (long number = 0; number < options.clients; number++) {
        memcpy(to, clients[number].latencies, clients[number].ended * sizeof *all);
        to += clients[number].ended;
    }
    qsort(all, ended, sizeof *all, compare_floats);
    size_t last = ended == 0 ? 0 : ended - 1;
    printf("transactions %zu seconds %.6f median %.2f ninety_ninth %.2f refused %zu aborted %zu\n", ended, seconds, all[last / 2],
           all[last * 99 / 100], refused, aborted);
}

static void read_options(int count, char **given)
{
    static const struct option known[] = {
        {"port", required_argument, NULL, 'p'}, {"clients", required_argument, NULL, 'c'},
        {"seconds", required_argument, NULL, 's'}, {"transactions", required_argument, NULL, 't'},
        {"customers", required_argument, NULL, 'n'}, {"hot", required_argument, NULL, 'h'},
        {"think", required_argument, NULL, 'k'}, {"seed", required_argument, NULL, 'd'}, {NULL, 0, NULL, 0},
    };
    for (int sign; (sign = getopt_long(count, given, "", known, NULL)) != -1;) {
        switch (sign) {
        case 'p': options.port = atoi(optarg); break;
        case 'c': options.clients = atol(optarg); break;
        case 's': options.seconds = atof(optarg); break;
        case 't': options.transactions = atol(optarg); break;
        case 'n': options.customers = atol(optarg); break;
        case 'h': options.hot = atol(optarg); break;
        case 'k': options.think = atol(optarg); break;
        case 'd': options.seed = atol(optarg); break;
        default: exit(2);
        }
    }
}

int main(int count, char **given)
{
    read_options(count, given);
    if (options.port < 1 || options.clients < 1 || options.clients > MOST_CLIENTS || options.hot < 2
        || options.customers < options.hot) {
        fputs("smallbank: a port is wanted, 1 to 64 clients, and two hot customers or more\n", stderr);
        return 2;
    }
    run_all();
    report(now() - started);
    return 0;
}
