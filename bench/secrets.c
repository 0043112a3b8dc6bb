/* secrets PORT RATE

   Strangers at a port for publishers: 64 connections send wrong secrets of channel `safe`, RATE a second in all, a hundredth of them every 10 ms, until
   a signal ends it. A connection that takes no more of them is passed over. Prints once a second how many were answered in it. An answer that isn't `no
   19 NotAllowed` or a closed connection ends it with a message and status 1. */
#define _GNU_SOURCE
#include <arpa/inet.h>
#include <errno.h>
#include <netinet/tcp.h>
#include <stdio.h>
#include <stdlib.h>
#include <string.h>
#include <sys/socket.h>
#include <time.h>

#define CONNECTIONS 64
#define STEPS 100       /* a second */
#define MOST 64         /* lines of a connection in a step */

static const char line[] = "safe secret wrong-horse-battery\n", answer[] = "no 19 NotAllowed\n";
static char lines[MOST * (sizeof line - 1)];

struct stranger {
    int socket;
    size_t read;    /* bytes of answers */
};

static void fail(const char *message)
{
    fprintf(stderr, "secrets: %s\n", message);
    exit(1);
}

static int connection(int port)
{
    struct sockaddr_in to = { .sin_family = AF_INET, .sin_port = htons((unsigned short)port), .sin_addr.s_addr = htonl(INADDR_LOOPBACK) };
    int one = 1, s = socket(AF_INET, SOCK_STREAM, 0);

    if (s < 0 || connect(s, (struct sockaddr *)&to, sizeof to) != 0)
        fail("no connection");
    setsockopt(s, IPPROTO_TCP, TCP_NODELAY, &one, sizeof one);
    return s;
}

static void try_secrets(struct stranger *s, long count)
{
    size_t length = (size_t)(count < MOST ? count : MOST) * (sizeof line - 1);
    ssize_t n;

    if (length == 0)
        return;
    n = send(s->socket, lines, length, MSG_NOSIGNAL | MSG_DONTWAIT);
    if (n < 0 ? errno != EAGAIN : n != (ssize_t)length)
        fail("a write failed");
}

/* Reads what came on a connection. Returns how many answers are whole with it. */
static size_t take(struct stranger *s)
{
    char bytes[MOST * (sizeof answer - 1)];
    size_t before = s->read / (sizeof answer - 1);
    ssize_t i, n = recv(s->socket, bytes, sizeof bytes, MSG_DONTWAIT);

    if (n < 0 && (errno == EAGAIN || errno == EINTR))
        return 0;
    if (n <= 0)
        fail("a connection was closed");
    for (i = 0; i < n; i++)
        if (bytes[i] != answer[s->read++ % (sizeof answer - 1)])
            fail("a wrong secret got another answer");
    return s->read / (sizeof answer - 1) - before;
}

/* Waits until the next step is due. */
static void await_step(struct timespec *due)
{
    due->tv_nsec += 1000000000 / STEPS;
    if (due->tv_nsec >= 1000000000) {
        due->tv_nsec -= 1000000000;
        due->tv_sec++;
    }
    while (clock_nanosleep(CLOCK_MONOTONIC, TIMER_ABSTIME, due, NULL) != 0)
        ;
}

int main(int count, char **words)
{
    static struct stranger strangers[CONNECTIONS];
    struct timespec due;
    size_t answered = 0;
    long step, each;
    int i;

    if (count != 3)
        return fputs("secrets PORT RATE\n", stderr), 2;
    each = atol(words[2]) / STEPS;
    for (i = 0; i < MOST; i++)
        memcpy(lines + (size_t)i * (sizeof line - 1), line, sizeof line - 1);
    for (i = 0; i < CONNECTIONS; i++)
        strangers[i].socket = connection(atoi(words[1]));
    clock_gettime(CLOCK_MONOTONIC, &due);
    for (step = 1;; step++) {
        for (i = 0; i < CONNECTIONS; i++)
            try_secrets(&strangers[i], each * (i + 1) / CONNECTIONS - each * i / CONNECTIONS);
        await_step(&due);
        for (i = 0; i < CONNECTIONS; i++)
            answered += take(&strangers[i]);
        if (step % STEPS == 0) {
            printf("%zu\n", answered);
            fflush(stdout);
            answered = 0;
        }
    }
}
