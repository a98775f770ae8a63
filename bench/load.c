/* The load generator: clients of a server that runs transactions, each over a connection of its own, in one thread or several.

       load [OPTIONS] LINE ..

   Each client sends the lines of a transaction over and over; a `?` in a line is a counter drawn anew, and `@1` to `@4` are
   counters drawn for the transaction, each another one. By default it sends a line once the one before is answered, with --whole
   all of them in one write; a line that begins with `+` goes out with the one before it. `think N` is not sent: the client waits
   for so many microseconds. A transaction that is refused an operation is aborted and run again, at once or, with --rest N, once
   N to 2 N microseconds have passed. With --aborts N one of N transactions is aborted in place of its last line, by chance, by
   `abort`, in Redis `DISCARD`, or the LINE of --undo.

   At the end one line tells how many transactions ended, in how many seconds, the median and the 99th percentile of how long they
   took, in microseconds, from the first line of the first try, how many tries were refused, how many transactions were aborted in
   place of their last line, and the most tries of one transaction. What can't go on ends with status 1.

   With --threads N the connections are shared out among so many threads, and so is the number of transactions. */
#define _GNU_SOURCE
#include <arpa/inet.h>
#include <getopt.h>
#include <netinet/tcp.h>
#include <poll.h>
#include <pthread.h>
#include <stdbool.h>
#include <string.h>
#include <sys/socket.h>
#include <unistd.h>

#include "common.h"

enum { MOST_CONNECTIONS = 1 << 10, MOST_LATENCIES = 1 << 24, MOST_DRAWN = 4 };
/* For how long a thread sleeps at most before it looks whether the load is over. */
static const double LONGEST_SLEEP = 0.05;
/* How many bytes a line may have as it is given, what it may come to, and what all lines of a transaction may come to. */
enum { MOST_GIVEN = 64, MOST_LINE = 1 << 10, MOST_TEXT = 1 << 18 };
/* A session of mltx ends after so many bytes, so a client connects again where a transaction more might not fit. */
enum { MOST_SENT = 16777216 };

struct options {
    int port, connections, threads;
    bool redis, whole;
    double seconds;
    unsigned long transactions, counters, seed, rest, aborts;
    const char *undo;
};

struct connection {
    int socket;
    int next;           /* which line of its transaction is to be sent next */
    int awaited;        /* how many answers are to come */
    size_t sent;        /* how many bytes went out since it connected */
    double began;       /* when its transaction began */
    double resumes;     /* when it goes on by itself; 0 where it does not wait */
    unsigned long drawn[MOST_DRAWN]; /* the counters of its transaction */
    size_t tries;       /* how often this one was begun */
    bool aborts;        /* whether it is aborted in place of its last line */
    bool rests;         /* whether it waits before it begins again */
    bool refused;       /* whether an answer since the transaction began was a refusal */
    long parts;         /* how many parts of an answer of Redis are to come */
    size_t heard_count; /* how many bytes of a line of an answer have come */
    char heard[32];     /* the first of them */
};

/* What the clients of one thread have seen. */
struct seen {
    float *latencies;
    size_t ended, refusals, aborted, most_tries;
    double seconds;
};

static struct options options = {
    .connections = 1, .threads = 1, .seconds = 1, .transactions = MOST_LATENCIES, .counters = 1, .seed = 1};
static char **lines;
static int line_count, drawn_count;
static struct connection connections[MOST_CONNECTIONS];
static struct seen seen_by[MOST_CONNECTIONS];
/* Those of this thread. */
static _Thread_local struct seen *seen;
static _Thread_local unsigned long random_state;
static _Thread_local double started;
/* How many of them go on by themselves. */
static _Thread_local int waiting;

/* A number that is drawn, below a limit. */
static unsigned long some_number(unsigned long limit)
{
    return draw_below(&random_state, limit);
}

static bool is_among(unsigned long number, const unsigned long *numbers, int count)
{
    int place = 0;
    while (place < count && numbers[place] != number)
        place++;
    return place < count;
}

/* Draws what a new transaction is about. */
static void draw(struct connection *it)
{
    for (int place = 0; place < drawn_count; place++) {
        do
            it->drawn[place] = some_number(options.counters);
        while (is_among(it->drawn[place], it->drawn, place));
    }
    it->aborts = options.aborts > 0 && some_number(options.aborts) == 0;
    it->tries = 1;
}

/* The place of the counter that stands in a line as `@` and a digit; MOST_DRAWN or more where that is none. */
static int place_of_drawn(const char *sign)
{
    return (unsigned char)(sign[1] - '1');
}

/* A line with a counter for each `?` and each `@` with its digit: how many bytes it has. */
static size_t fill_in(const struct connection *it, char *to, const char *line)
{
    size_t count = 0;
    for (; *line; line++) {
        if (*line == '?')
            count += (size_t)sprintf(to + count, "%lu", some_number(options.counters));
        else if (*line == '@')
            count += (size_t)sprintf(to + count, "%lu", it->drawn[place_of_drawn(line++)]);
        else
            to[count++] = *line;
    }
    to[count] = 0;
    return count;
}

static size_t put_for_mltx(const struct connection *it, char *to, const char *line)
{
    size_t count = fill_in(it, to, line);
    to[count++] = '\n';
    return count;
}

/* A command of Redis: an array of words. */
static size_t put_for_redis(const struct connection *it, char *to, const char *line)
{
    char filled[MOST_LINE], words[2 * MOST_LINE], *rest = filled, *word;
    size_t count = 0;
    int words_put = 0;
    fill_in(it, filled, line);
    while ((word = strsep(&rest, " ")) != NULL) {
        count += (size_t)sprintf(words + count, "$%zu\r\n%s\r\n", strlen(word), word);
        words_put++;
    }
    return (size_t)sprintf(to, "*%d\r\n%s", words_put, words);
}

static size_t put(const struct connection *it, char *to, const char *line)
{
    line += *line == '+';
    return options.redis ? put_for_redis(it, to, line) : put_for_mltx(it, to, line);
}

/* The line that takes a transaction back. */
static const char *abort_line(void)
{
    return options.undo != NULL ? options.undo : options.redis ? "DISCARD" : "abort";
}

/* The line of this number in the transaction of a client. */
static const char *line_of(const struct connection *it, int number)
{
    return it->aborts && number == line_count - 1 ? abort_line() : lines[number];
}

/* For how many microseconds a line has the client wait; 0 where it is one that is sent. */
static unsigned long think_time(const char *line)
{
    return strncmp(line, "think ", 6) == 0 ? strtoul(line + 6, NULL, 10) : 0;
}

/* Whether the line of this number goes out with the one before it. */
static bool is_joined(int number)
{
    return number < line_count && (options.whole || *lines[number] == '+') && think_time(lines[number]) == 0;
}

static void send_all(struct connection *it, const char *bytes, size_t count)
{
    it->sent += count;
    while (count > 0) {
        ssize_t taken = must((int)send(it->socket, bytes, count, MSG_NOSIGNAL), "load: send");
        bytes += taken;
        count -= (size_t)taken;
    }
}

static void open_connection(struct connection *it)
{
    struct sockaddr_in address = {.sin_family = AF_INET, .sin_port = htons((uint16_t)options.port)};
    int yes = 1;
    address.sin_addr.s_addr = htonl(INADDR_LOOPBACK);
    it->socket = must(socket(AF_INET, SOCK_STREAM, 0), "load: socket");
    must(connect(it->socket, (struct sockaddr *)&address, sizeof address), "load: connect");
    must(setsockopt(it->socket, IPPROTO_TCP, TCP_NODELAY, &yes, sizeof yes), "load: setsockopt");
    it->sent = 0;
}

/* Sends the next line, and all that go out with it. */
static void send_lines(struct connection *it)
{
    static _Thread_local char text[MOST_TEXT];
    size_t length = 0;
    do {
        length += put(it, text + length, line_of(it, it->next++));
        it->awaited++;
    } while (is_joined(it->next));
    send_all(it, text, length);
}

static void end_transaction(struct connection *it)
{
    double time = now();
    if (seen->ended < MOST_LATENCIES)
        seen->latencies[seen->ended++] = (float)((time - it->began) * 1e6);
    seen->aborted += it->aborts;
    it->began = time;
    draw(it);
}

/* Counts a try that was refused something. The transaction is to be run again. */
static void count_refusal(struct connection *it)
{
    seen->refusals++;
    it->tries++;
    if (it->tries > seen->most_tries)
        seen->most_tries = it->tries;
    it->rests = options.rest > 0;
}

/* What follows a refusal before the last line. */
static void take_back(struct connection *it)
{
    char text[MOST_LINE];
    size_t length = put(it, text, abort_line());
    count_refusal(it);
    it->refused = false;
    it->next = 0;
    it->awaited = 1;
    send_all(it, text, length);
}

/* What follows once the last line is answered. */
static void end_try(struct connection *it)
{
    if (it->refused)
        count_refusal(it);
    else
        end_transaction(it);
    it->refused = false;
    it->next = 0;
}

static void pause_for(struct connection *it, unsigned long microseconds)
{
    it->resumes = now() + (double)microseconds / 1e6;
    waiting++;
}

/* Whether no answer is to come, and the client need not wait any longer. */
static bool is_ready(const struct connection *it)
{
    return it->awaited == 0 && (it->resumes == 0 || now() >= it->resumes);
}

/* Goes on: sends what follows, or waits. */
static void go_on(struct connection *it)
{
    waiting -= it->resumes > 0;
    it->resumes = 0;
    if (it->refused && it->next < line_count) {
        take_back(it);
        return;
    }
    if (it->next == line_count)
        end_try(it);
    if (it->rests) {
        it->rests = false;
        pause_for(it, options.rest + some_number(options.rest));
        return;
    }
    if (it->next == 0 && it->sent > MOST_SENT - MOST_TEXT) {
        close(it->socket);
        open_connection(it);
    }
    if (think_time(lines[it->next]) > 0)
        pause_for(it, think_time(lines[it->next++]));
    else
        send_lines(it);
}

/* Redis answers with an empty list where what it watched was changed. */
static bool is_refusal(const char *answer)
{
    return strncmp(answer, "error ", 6) == 0 || *answer == '-' || strncmp(answer, "*-1", 3) == 0;
}

/* How many lines follow the first one of an answer: in Redis those of a list, or a text. */
static long lines_behind(const char *answer)
{
    long count = *answer == '*' || *answer == '$' ? atol(answer + 1) : -1;
    return count < 0 ? 0 : *answer == '$' ? 1 : count;
}

/* A line of an answer is complete. */
static void hear_line(struct connection *it)
{
    it->heard[it->heard_count] = 0;
    it->heard_count = 0;
    it->refused = it->refused || is_refusal(it->heard);
    it->parts = it->parts > 0 ? it->parts - 1 : lines_behind(it->heard);
    if (it->parts == 0)
        it->awaited--;
}

static void receive(struct connection *it)
{
    char bytes[1 << 16];
    ssize_t count = must((int)recv(it->socket, bytes, sizeof bytes, 0), "load: recv");
    if (count == 0) {
        fputs("load: the server ended a connection\n", stderr);
        exit(1);
    }
    for (ssize_t place = 0; place < count; place++) {
        if (bytes[place] == '\n')
            hear_line(it);
        else if (it->heard_count < sizeof it->heard - 1)
            it->heard[it->heard_count++] = bytes[place];
    }
}

static bool is_over(void)
{
    return seen->ended >= options.transactions / (unsigned long)options.threads || now() - started >= options.seconds;
}

static void start_all(struct connection *first, int count, struct pollfd *polled)
{
    started = now();
    for (int number = 0; number < count; number++) {
        open_connection(&first[number]);
        polled[number] = (struct pollfd){.fd = first[number].socket, .events = POLLIN};
        first[number].began = now();
        draw(&first[number]);
        go_on(&first[number]);
    }
}

/* How many seconds it is until one of these clients goes on by itself, or the thread has slept for long enough. */
static double until_next(const struct connection *first, int count)
{
    if (waiting == 0)
        return LONGEST_SLEEP;
    double time = now(), next = time + LONGEST_SLEEP;
    for (int number = 0; number < count; number++) {
        if (first[number].resumes > 0 && first[number].resumes < next)
            next = first[number].resumes;
    }
    return next > time ? next - time : 0;
}

static void run(struct connection *first, int count)
{
    struct pollfd polled[MOST_CONNECTIONS];
    start_all(first, count, polled);
    while (!is_over()) {
        struct timespec longest = {.tv_nsec = (long)(until_next(first, count) * 1e9)};
        must(ppoll(polled, (nfds_t)count, &longest, NULL), "load: ppoll");
        for (int number = 0; number < count; number++) {
            struct connection *it = &first[number];
            if (polled[number].revents != 0)
                receive(it);
            if (is_ready(it))
                go_on(it);
            polled[number].fd = it->socket;
        }
    }
    seen->seconds = now() - started;
}

/* The connections of the thread of this number follow those of the threads before. */
static int first_of(int thread)
{
    return options.connections * thread / options.threads;
}

static void *run_thread(void *given)
{
    int thread = (int)(long)given, first = first_of(thread);
    seen = &seen_by[thread];
    seen->most_tries = 1;
    seen->latencies = calloc(MOST_LATENCIES, sizeof *seen->latencies);
    if (seen->latencies == NULL)
        give_up("load: calloc");
    random_state = first_state(options.seed, (unsigned long)thread);
    run(&connections[first], first_of(thread + 1) - first);
    return NULL;
}

/* Runs all threads, the first of them in this one. */
static void run_all(void)
{
    pthread_t threads[MOST_CONNECTIONS];
    for (int thread = 1; thread < options.threads; thread++) {
        if (pthread_create(&threads[thread], NULL, run_thread, (void *)(long)thread) != 0)
            give_up("load: pthread_create");
    }
    run_thread(NULL);
    for (int thread = 1; thread < options.threads; thread++)
        pthread_join(threads[thread], NULL);
}

/* What all threads have seen, put together. */
static struct seen gathered(void)
{
    struct seen all = seen_by[0];
    for (int thread = 1; thread < options.threads; thread++) {
        struct seen *one = &seen_by[thread];
        size_t room = MOST_LATENCIES - all.ended, taken = one->ended < room ? one->ended : room;
        memcpy(all.latencies + all.ended, one->latencies, taken * sizeof *all.latencies);
        all.ended += taken;
        all.refusals += one->refusals;
        all.aborted += one->aborted;
        all.most_tries = one->most_tries > all.most_tries ? one->most_tries : all.most_tries;
        all.seconds = one->seconds > all.seconds ? one->seconds : all.seconds;
    }
    return all;
}

/* So that so many in a hundred are not above it. */
static double percentile(const struct seen *all, size_t hundredth)
{
    return all->ended == 0 ? 0 : all->latencies[(all->ended - 1) * hundredth / 100];
}

static void report(void)
{
    struct seen all = gathered();
    qsort(all.latencies, all.ended, sizeof *all.latencies, compare_floats);
    printf("transactions %zu seconds %.6f median %.2f ninety_ninth %.2f ", all.ended, all.seconds, percentile(&all, 50),
           percentile(&all, 99));
    printf("refused %zu aborted %zu most_tries %zu\n", all.refusals, all.aborted, all.most_tries);
}

static void read_options(int count, char **words)
{
    static const struct option known[] = {
        {"port", required_argument, NULL, 'p'},         {"connections", required_argument, NULL, 'c'},
        {"redis", no_argument, NULL, 'r'},              {"whole", no_argument, NULL, 'w'},
        {"seconds", required_argument, NULL, 's'},      {"counters", required_argument, NULL, 'k'},
        {"transactions", required_argument, NULL, 't'}, {"seed", required_argument, NULL, 'd'},
        {"threads", required_argument, NULL, 'h'},      {"rest", required_argument, NULL, 'e'},
        {"aborts", required_argument, NULL, 'a'},       {"undo", required_argument, NULL, 'u'},
        {NULL, 0, NULL, 0},
    };
    for (int option; (option = getopt_long(count, words, "", known, NULL)) != -1;) {
        switch (option) {
        case 'p': options.port = atoi(optarg); break;
        case 'c': options.connections = atoi(optarg); break;
        case 'r': options.redis = true; break;
        case 'w': options.whole = true; break;
        case 's': options.seconds = atof(optarg); break;
        case 'k': options.counters = strtoul(optarg, NULL, 10); break;
        case 't': options.transactions = strtoul(optarg, NULL, 10); break;
        case 'd': options.seed = strtoul(optarg, NULL, 10); break;
        case 'h': options.threads = atoi(optarg); break;
        case 'e': options.rest = strtoul(optarg, NULL, 10); break;
        case 'a': options.aborts = strtoul(optarg, NULL, 10); break;
        case 'u': options.undo = optarg; break;
        default: exit(2);
        }
    }
    lines = words + optind;
    line_count = count - optind;
}

/* The greatest digit that stands behind an `@`, of which a line has one at most. */
static int most_drawn(void)
{
    int most = 0;
    for (int line = 0; line < line_count; line++) {
        const char *sign = strchr(lines[line], '@');
        if (sign != NULL && place_of_drawn(sign) >= most)
            most = place_of_drawn(sign) + 1;
    }
    return most;
}

static bool options_are_lawful(void)
{
    bool fits = line_count > 0 && line_count * MOST_LINE <= MOST_TEXT;
    for (int line = 0; line < line_count; line++)
        fits = fits && strlen(lines[line]) < MOST_GIVEN;
    fits = fits && options.connections > 0 && options.connections <= MOST_CONNECTIONS && options.counters > 0;
    fits = fits && drawn_count <= MOST_DRAWN && (unsigned long)drawn_count <= options.counters;
    return fits && options.threads > 0 && options.threads <= options.connections;
}

int main(int count, char **words)
{
    read_options(count, words);
    drawn_count = most_drawn();
    if (!options_are_lawful()) {
        fputs("load: an option is out of its range, or the lines are too many or too long\n", stderr);
        return 2;
    }
    run_all();
    report();
    return 0;
}
