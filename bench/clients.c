/* Many clients of a server that runs transactions, each over a connection of its own, shared out among threads.

       clients [OPTIONS]

   Once all are connected each begins, adds to three of --counters counters that are drawn anew, and commits, over and over: with a
   line a round trip or, with --whole, all in one write. Between two transactions it pauses for 0 to twice --pause microseconds,
   drawn anew. The load ends after --seconds or, with --each N, once each client has committed N times; with --stay all are silent
   from then on, until the program is killed.

   At the end of the load one line tells in how many seconds all were connected, how many transactions were committed after that, in how many
   seconds, the median and the 99th percentile of how long they took, and the latter of a round trip, all in microseconds, and how
   often single clients committed: the fewest, the median and the most. What is refused, or can't go on, ends with status 1. */
#include <arpa/inet.h>
#include <getopt.h>
#include <netinet/tcp.h>
#include <pthread.h>
#include <stdbool.h>
#include <string.h>
#include <sys/epoll.h>
#include <sys/socket.h>
#include <unistd.h>

#include "common.h"

enum { MOST_CLIENTS = 1 << 15, MOST_THREADS = 64, MOST_TIMES = 1 << 24, EVENTS = 256 };
/* A transaction has a line that begins it, three that add, and one that commits it. */
enum { ADDS = 3, LAST = ADDS + 1, LINES = ADDS + 2, MOST_TEXT = 512 };
/* For how many milliseconds a thread sleeps at most before it looks whether the load is over. */
enum { LONGEST_SLEEP = 50 };

struct options {
    int port, clients, threads;
    bool redis, whole, stay;
    double seconds;
    unsigned long each, counters, pause, seed;
};

struct client {
    int socket;
    int next;             /* which line of its transaction is to be sent next */
    int awaited;          /* how many lines of answers are to come */
    bool is_within;       /* whether a part of a line has come */
    double began, sent;   /* when its transaction began, and when it sent last */
    double resumes;       /* when it goes on by itself; 0 where it does not wait */
    unsigned long commits;
};

/* How long things took, in microseconds. */
struct times {
    float *all;
    size_t count;
};

struct thread {
    pthread_t id;
    struct client *first;
    int count, poll, ready; /* how many clients it has, what it polls, and how many have committed as often as they are to */
    unsigned long random_state;
    struct times transactions, round_trips;
};

static struct options options = {.clients = 1, .threads = 1, .seconds = 1, .counters = 1, .seed = 1};
static struct client clients[MOST_CLIENTS];
static struct thread threads[MOST_THREADS];
static pthread_barrier_t connected;
static double started;

static void add_time(struct times *to, double seconds)
{
    if (to->count < MOST_TIMES)
        to->all[to->count++] = (float)(seconds * 1e6);
}

/* A line of a transaction, for mltx or as a command of Redis: how many bytes it has. */
static size_t put(struct thread *thread, char *to, int line)
{
    char counter[24];
    int digits = sprintf(counter, "%lu", draw_below(&thread->random_state, options.counters));
    bool adds = 0 < line && line < LAST;
    if (options.redis && adds)
        return (size_t)sprintf(to, "*3\r\n$6\r\nINCRBY\r\n$%d\r\n%s\r\n$1\r\n1\r\n", digits, counter);
    if (options.redis)
        return (size_t)sprintf(to, "*1\r\n%s\r\n", line == 0 ? "$5\r\nMULTI" : "$4\r\nEXEC");
    if (adds)
        return (size_t)sprintf(to, "up %s 1\n", counter);
    return (size_t)sprintf(to, line == 0 ? "begin\n" : "commit\n");
}

/* Of how many lines an answer consists: that of EXEC has one more for each command. */
static int lines_of_answer(int line)
{
    return options.redis && line == LAST ? 1 + ADDS : 1;
}

/* Sends the next line, or all. */
static void send_lines(struct thread *thread, struct client *it)
{
    char text[MOST_TEXT];
    size_t length = 0;
    it->sent = now();
    if (it->next == 0)
        it->began = it->sent;
    do {
        it->awaited += lines_of_answer(it->next);
        length += put(thread, text + length, it->next++);
    } while (options.whole && it->next < LINES);
    if (must((int)send(it->socket, text, length, MSG_NOSIGNAL), "clients: send") != (int)length)
        give_up("clients: send");
}

/* Goes on once all that was sent is answered: with the next line, or after a pause with the next transaction. */
static void go_on(struct thread *thread, struct client *it)
{
    if (it->next < LINES) {
        send_lines(thread, it);
        return;
    }
    double time = now();
    add_time(&thread->transactions, time - it->began);
    it->next = 0;
    it->commits++;
    if (it->commits == options.each)
        thread->ready++;
    else if (options.pause > 0)
        it->resumes = time + (double)draw_below(&thread->random_state, 2 * options.pause) / 1e6;
    else
        send_lines(thread, it);
}

static void receive(struct thread *thread, struct client *it)
{
    char bytes[MOST_TEXT];
    int count = must((int)recv(it->socket, bytes, sizeof bytes, 0), "clients: recv");
    if (count == 0) {
        fputs("clients: the server ended a connection\n", stderr);
        exit(1);
    }
    for (int place = 0; place < count; place++) {
        if (!it->is_within && (bytes[place] == 'e' || bytes[place] == '-')) {
            fprintf(stderr, "clients: refused: %.*s\n", count - place, bytes + place);
            exit(1);
        }
        it->is_within = bytes[place] != '\n';
        it->awaited -= !it->is_within;
    }
    if (it->awaited == 0) {
        add_time(&thread->round_trips, now() - it->sent);
        go_on(thread, it);
    }
}

static void open_connection(struct thread *thread, struct client *it)
{
    struct sockaddr_in address = {.sin_family = AF_INET, .sin_port = htons((uint16_t)options.port)};
    struct epoll_event event = {.events = EPOLLIN, .data.ptr = it};
    int yes = 1;
    address.sin_addr.s_addr = htonl(INADDR_LOOPBACK);
    it->socket = must(socket(AF_INET, SOCK_STREAM, 0), "clients: socket");
    must(connect(it->socket, (struct sockaddr *)&address, sizeof address), "clients: connect");
    must(setsockopt(it->socket, IPPROTO_TCP, TCP_NODELAY, &yes, sizeof yes), "clients: setsockopt");
    must(epoll_ctl(thread->poll, EPOLL_CTL_ADD, it->socket, &event), "clients: epoll_ctl");
}

/* Those whose pause is over begin. It returns for how many milliseconds the thread may sleep, not less than until the next one. */
static int resume_all(struct thread *thread)
{
    double time = now(), next = time + LONGEST_SLEEP / 1e3;
    if (options.pause == 0)
        return LONGEST_SLEEP;
    for (struct client *it = thread->first; it < thread->first + thread->count; it++) {
        if (it->resumes > 0 && it->resumes <= time) {
            it->resumes = 0;
            send_lines(thread, it);
        } else if (it->resumes > 0 && it->resumes < next) {
            next = it->resumes;
        }
    }
    return (int)((next - time) * 1e3) + 1;
}

static bool is_over(const struct thread *thread)
{
    return options.each > 0 ? thread->ready == thread->count : now() - started >= options.seconds;
}

/* Clients that pause don't begin at once. */
static void begin_all(struct thread *thread)
{
    for (struct client *it = thread->first; it < thread->first + thread->count; it++) {
        if (options.pause > 0)
            it->resumes = started + (double)draw_below(&thread->random_state, 2 * options.pause) / 1e6;
        else
            send_lines(thread, it);
    }
}

static void *run(void *given)
{
    struct thread *thread = given;
    struct epoll_event events[EVENTS];
    for (struct client *it = thread->first; it < thread->first + thread->count; it++)
        open_connection(thread, it);
    pthread_barrier_wait(&connected);
    pthread_barrier_wait(&connected);
    begin_all(thread);
    while (!is_over(thread)) {
        int count = must(epoll_wait(thread->poll, events, EVENTS, resume_all(thread)), "clients: epoll_wait");
        for (int place = 0; place < count; place++)
            receive(thread, events[place].data.ptr);
    }
    return NULL;
}

static struct times no_times(void)
{
    struct times times = {.all = calloc(MOST_TIMES, sizeof *times.all)};
    if (times.all == NULL)
        give_up("clients: calloc");
    return times;
}

static void start_thread(struct thread *thread, int number)
{
    int first = options.clients * number / options.threads;
    thread->first = &clients[first];
    thread->count = options.clients * (number + 1) / options.threads - first;
    thread->poll = must(epoll_create1(0), "clients: epoll_create1");
    thread->random_state = first_state(options.seed, (unsigned long)number);
    thread->transactions = no_times();
    thread->round_trips = no_times();
    if (pthread_create(&thread->id, NULL, run, thread) != 0)
        give_up("clients: pthread_create");
}

/* Runs all threads: in how many seconds all clients were connected, and in how many more they ended. */
static void run_all(double *to_connect, double *to_end)
{
    double before = now();
    pthread_barrier_init(&connected, NULL, (unsigned)options.threads + 1);
    for (int number = 0; number < options.threads; number++)
        start_thread(&threads[number], number);
    pthread_barrier_wait(&connected);
    started = now();
    pthread_barrier_wait(&connected);
    for (int number = 0; number < options.threads; number++)
        pthread_join(threads[number].id, NULL);
    *to_connect = started - before;
    *to_end = now() - started;
}

/* Puts the times of another thread behind these. */
static void gather(struct times *to, const struct times *from)
{
    for (size_t place = 0; place < from->count && to->count < MOST_TIMES; place++)
        to->all[to->count++] = from->all[place];
}

/* So that so many in a hundred are not above it, of times in order. */
static double percentile(const struct times *of, size_t hundredth)
{
    return of->count == 0 ? 0 : of->all[(of->count - 1) * hundredth / 100];
}

static int compare_commits(const void *left, const void *right)
{
    unsigned long first = ((const struct client *)left)->commits, second = ((const struct client *)right)->commits;
    return (first > second) - (first < second);
}

static void report(double to_connect, double to_end)
{
    struct times *transactions = &threads[0].transactions, *round_trips = &threads[0].round_trips;
    unsigned long commits = 0;
    for (int number = 1; number < options.threads; number++) {
        gather(transactions, &threads[number].transactions);
        gather(round_trips, &threads[number].round_trips);
    }
    qsort(transactions->all, transactions->count, sizeof *transactions->all, compare_floats);
    qsort(round_trips->all, round_trips->count, sizeof *round_trips->all, compare_floats);
    qsort(clients, (size_t)options.clients, sizeof *clients, compare_commits);
    for (int number = 0; number < options.clients; number++)
        commits += clients[number].commits;
    printf("connected %.6f transactions %lu seconds %.6f ", to_connect, commits, to_end);
    printf("median %.2f ninety_ninth %.2f ", percentile(transactions, 50), percentile(transactions, 99));
    printf("round_trip %.2f fewest %lu ", percentile(round_trips, 99), clients[0].commits);
    printf("middle %lu most %lu\n", clients[options.clients / 2].commits, clients[options.clients - 1].commits);
}

static void read_options(int count, char **words)
{
    static const struct option known[] = {
        {"port", required_argument, NULL, 'p'},    {"clients", required_argument, NULL, 'c'},
        {"redis", no_argument, NULL, 'r'},         {"whole", no_argument, NULL, 'w'},
        {"seconds", required_argument, NULL, 's'}, {"counters", required_argument, NULL, 'k'},
        {"each", required_argument, NULL, 'e'},    {"seed", required_argument, NULL, 'd'},
        {"threads", required_argument, NULL, 'h'}, {"pause", required_argument, NULL, 'a'},
        {"stay", no_argument, NULL, 'y'},          {NULL, 0, NULL, 0},
    };
    for (int option; (option = getopt_long(count, words, "", known, NULL)) != -1;) {
        switch (option) {
        case 'p': options.port = atoi(optarg); break;
        case 'c': options.clients = atoi(optarg); break;
        case 'r': options.redis = true; break;
        case 'w': options.whole = true; break;
        case 's': options.seconds = atof(optarg); break;
        case 'k': options.counters = strtoul(optarg, NULL, 10); break;
        case 'e': options.each = strtoul(optarg, NULL, 10); break;
        case 'd': options.seed = strtoul(optarg, NULL, 10); break;
        case 'h': options.threads = atoi(optarg); break;
        case 'a': options.pause = strtoul(optarg, NULL, 10); break;
        case 'y': options.stay = true; break;
        default: exit(2);
        }
    }
}

int main(int count, char **words)
{
    double to_connect, to_end;
    read_options(count, words);
    bool are_lawful = optind == count && options.clients > 0 && options.clients <= MOST_CLIENTS && options.counters > 0;
    if (!are_lawful || options.threads < 1 || options.threads > MOST_THREADS || options.threads > options.clients) {
        fputs("clients: an option is out of its range\n", stderr);
        return 2;
    }
    run_all(&to_connect, &to_end);
    report(to_connect, to_end);
    fflush(stdout);
    if (options.stay)
        pause();
    return 0;
}
