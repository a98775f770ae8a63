/* Loaded before the C library, it refuses memory and threads, and fails calls of the program.

   REFUSE is `FIRST LAST LEAST`: of the requests for at least LEAST bytes, which are counted from 1, those with the
   numbers FIRST to LAST are refused. With REFUSE_THREADS=N threads are refused from the N-th one on, and with MOST=N each
   request that would have the program hold more than N bytes.

   FAIL is `CALL NUMBER FAULT MOST TIMES`: of the calls `read`, `write`, `recv`, `send` or `accept`, so many from the one
   with this number on, counted from 1, fail with the number FAULT of a fault, do nothing and answer 0 where FAULT
   is 0, and never return where it is -1. The others take or give at most MOST bytes. Without TIMES it is one. The calls `write` of one kind of file alone
   are `write-out`, `write-error`, and `write-file` for all but those two.

   ACCEPTS is a list of numbers of faults: accept n fails with the n-th of them, and is made where that is 0. Where it is negative it is
   made, and if it fails, that is by this fault.

   With NO_NAPS no sleep takes longer than a yield.

   At the end of the program, how many requests and how many calls were counted is written into the file COUNTED. */
#define _GNU_SOURCE
#include <dlfcn.h>
#include <errno.h>
#include <fcntl.h>
#include <malloc.h>
#include <pthread.h>
#include <sched.h>
#include <stdatomic.h>
#include <stdio.h>
#include <stdlib.h>
#include <string.h>
#include <sys/socket.h>
#include <time.h>
#include <unistd.h>

typedef void *ask(size_t);
typedef void *ask_again(void *, size_t);
typedef void give_back(void *);
typedef int start_thread(pthread_t *, const pthread_attr_t *, void *(*)(void *), void *);
typedef ssize_t read_some(int, void *, size_t);
typedef ssize_t write_some(int, const void *, size_t);
typedef ssize_t receive(int, void *, size_t, int);
typedef ssize_t send_some(int, const void *, size_t, int);
typedef int accept_one(int, struct sockaddr *, socklen_t *, int);
typedef int nap(const struct timespec *, struct timespec *);
typedef void leave(int);

/* The function of this name that the C library has. */
#define NEXT(type, name) ((type *)dlsym(RTLD_NEXT, name))

static atomic_long asked, called, held;
static long first, last, least, most_held, failing, times = 1;
static size_t most;
static int fault;
static char call[16];
static const char *accepts;
static atomic_long started;

__attribute__((constructor)) static void read_what_to_do(void) {
    const char *refuse = getenv("REFUSE"), *fail = getenv("FAIL"), *hold = getenv("MOST");
    if (refuse) sscanf(refuse, "%ld %ld %ld", &first, &last, &least);
    if (fail) sscanf(fail, "%15s %ld %d %zu %ld", call, &failing, &fault, &most, &times);
    if (hold) most_held = atol(hold);
    accepts = getenv("ACCEPTS");
    atomic_store(&asked, 0);
}

/* Whether a request for a size is refused, in place of what holds so many bytes. */
static int is_refused(size_t size, long before) {
    if (most_held && atomic_load(&held) - before + (long)size > most_held) return errno = ENOMEM;
    if (size < (size_t)least) return 0;
    long number = atomic_fetch_add(&asked, 1) + 1;
    if (number < first || number > last) return 0;
    errno = ENOMEM;
    return 1;
}

void *malloc(size_t size) {
    static ask *next;
    if (!next) next = NEXT(ask, "malloc");
    void *got = is_refused(size, 0) ? 0 : next(size);
    atomic_fetch_add(&held, malloc_usable_size(got));
    return got;
}

void *realloc(void *old, size_t size) {
    static ask_again *next;
    if (!next) next = NEXT(ask_again, "realloc");
    long before = malloc_usable_size(old);
    void *got = is_refused(size, before) ? 0 : next(old, size);
    if (got) atomic_fetch_add(&held, (long)malloc_usable_size(got) - before);
    return got;
}

void free(void *old) {
    static give_back *next;
    if (!next) next = NEXT(give_back, "free");
    atomic_fetch_sub(&held, malloc_usable_size(old));
    next(old);
}

int pthread_create(pthread_t *thread, const pthread_attr_t *how, void *(*start)(void *), void *given) {
    const char *from = getenv("REFUSE_THREADS");
    long number = atomic_fetch_add(&started, 1) + 1;
    return from && number >= atol(from) ? EAGAIN : NEXT(start_thread, "pthread_create")(thread, how, start, given);
}

/* Whether this call is to fail. Its size is made smaller where that is asked for. */
static int fails(const char *name, size_t *size) {
    if (strcmp(name, call)) return 0;
    if (size && *size > most) *size = most;
    long number = atomic_fetch_add(&called, 1) + 1;
    if (number < failing || number >= failing + times) return 0;
    while (fault < 0) pause();
    errno = fault;
    return 1;
}

ssize_t read(int file, void *bytes, size_t size) {
    return fails("read", &size) ? -!!fault : NEXT(read_some, "read")(file, bytes, size);
}

/* Whether a write fails, by the name of all writes or by that of its kind of file. */
static int write_fails(int file, size_t *size) {
    const char *kind = file == 1 ? "write-out" : file == 2 ? "write-error" : "write-file";
    return fails("write", size) || fails(kind, size);
}

ssize_t write(int file, const void *bytes, size_t size) {
    return write_fails(file, &size) ? -!!fault : NEXT(write_some, "write")(file, bytes, size);
}

/* Whether nothing is there, in a mode in which nobody waits for it: such a look is no receipt, and is not counted. */
static int looks_in_vain(int peer) {
    char byte;
    return fcntl(peer, F_GETFL) & O_NONBLOCK
        && NEXT(receive, "recv")(peer, &byte, 1, MSG_PEEK | MSG_DONTWAIT) < 0 && errno == EAGAIN;
}

ssize_t recv(int peer, void *bytes, size_t size, int how) {
    if (looks_in_vain(peer)) return -1;
    return fails("recv", &size) ? -!!fault : NEXT(receive, "recv")(peer, bytes, size, how);
}

ssize_t send(int peer, const void *bytes, size_t size, int how) {
    return fails("send", &size) ? -!!fault : NEXT(send_some, "send")(peer, bytes, size, how);
}

/* The fault of this accept by the list. It is called by one thread. */
static int listed_fault(void) {
    if (!accepts || !*accepts) return 0;
    char *rest;
    int listed = (int)strtol(accepts, &rest, 10);
    accepts = rest;
    return listed;
}

int accept4(int listener, struct sockaddr *address, socklen_t *size, int how) {
    int listed = listed_fault();
    if (listed > 0) errno = listed;
    if (listed > 0 || fails("accept", 0)) return -1;
    int accepted = NEXT(accept_one, "accept4")(listener, address, size, how);
    if (accepted < 0 && listed < 0) errno = -listed;
    return accepted;
}

int nanosleep(const struct timespec *time, struct timespec *rest) {
    return getenv("NO_NAPS") ? sched_yield() : NEXT(nap, "nanosleep")(time, rest);
}

void _exit(int status) {
    char line[64];
    const char *path = getenv("COUNTED");
    int size = snprintf(line, sizeof line, "%ld %ld\n", (long)asked, (long)called);
    int file = path ? open(path, O_WRONLY | O_CREAT | O_TRUNC, 0600) : -1;
    if (file >= 0 && NEXT(write_some, "write")(file, line, size) != size) status = 99;
    NEXT(leave, "_exit")(status);
    __builtin_unreachable();
}
