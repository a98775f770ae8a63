/* A server that answers each line with `done` and does nothing else: what connections and threads cost by themselves. It
   has a thread for each connection, says on standard error where it listens, and runs until it is killed. */
#define _GNU_SOURCE
#include <arpa/inet.h>
#include <netinet/tcp.h>
#include <pthread.h>
#include <string.h>
#include <sys/socket.h>
#include <unistd.h>

#include "common.h"

enum { MOST_BYTES = 1 << 16 };
static const char ANSWER[] = "done\n";
enum { ANSWER_LENGTH = sizeof ANSWER - 1 };

/* Writes an answer for each line that these bytes end: how many bytes they have. */
static size_t answer(const char *bytes, size_t count, char *to)
{
    size_t length = 0;
    for (const char *end = bytes; (end = memchr(end, '\n', count - (size_t)(end - bytes))) != NULL; end++) {
        memcpy(to + length, ANSWER, ANSWER_LENGTH);
        length += ANSWER_LENGTH;
    }
    return length;
}

static void *hold_session(void *given)
{
    int connection = (int)(long)given;
    char *bytes = malloc(MOST_BYTES), *answers = malloc(MOST_BYTES * ANSWER_LENGTH);
    ssize_t count;
    while (bytes && answers && (count = recv(connection, bytes, MOST_BYTES, 0)) > 0) {
        size_t length = answer(bytes, (size_t)count, answers);
        if (send(connection, answers, length, MSG_NOSIGNAL) != (ssize_t)length)
            break;
    }
    free(bytes);
    free(answers);
    close(connection);
    return NULL;
}

static int listen_somewhere(void)
{
    struct sockaddr_in address = {.sin_family = AF_INET};
    socklen_t size = sizeof address;
    int listener = must(socket(AF_INET, SOCK_STREAM, 0), "echo: socket");
    address.sin_addr.s_addr = htonl(INADDR_LOOPBACK);
    must(bind(listener, (struct sockaddr *)&address, size), "echo: bind");
    must(listen(listener, 64), "echo: listen");
    must(getsockname(listener, (struct sockaddr *)&address, &size), "echo: getsockname");
    fprintf(stderr, "echo: listening on 127.0.0.1:%d\n", ntohs(address.sin_port));
    return listener;
}

int main(void)
{
    int listener = listen_somewhere(), yes = 1;
    for (;;) {
        pthread_t thread;
        int connection = must(accept(listener, NULL, NULL), "echo: accept");
        setsockopt(connection, IPPROTO_TCP, TCP_NODELAY, &yes, sizeof yes);
        if (pthread_create(&thread, NULL, hold_session, (void *)(long)connection) != 0)
            give_up("echo: pthread_create");
        pthread_detach(thread);
    }
}
