/* held serve SETTINGS

   A plain server of a single thread, as a measure of what requests that wait have to cost: bench/serve.sh has as many of them wait here as at `llhls
   serve`. It is no origin: bench/plain.h says what it takes, and parts have no bytes here.

   The thread awaits by epoll what happens on all connections, each of which has 8 kB only while bytes of it wait. A part answers its publisher first,
   and then all requests that wait for it, with the one answer that was made for them. Whether a player has hung up shows once it is answered. */
#define _GNU_SOURCE
#include <sys/epoll.h>

#include "plain.h"

enum role { PLAYERS, PUBLISHERS, PLAYER, PUBLISHER };

struct link {
    int socket;
    enum role role;             /* the first two accept the others */
    int has_bytes;              /* there may be bytes to read, or the end, */
    int has_ended;              /* which has come, behind all bytes */
    int waits, is_closed;
    char *bytes;                /* that were read and not taken, and a 0 */
    size_t count;
    struct want want;
    struct answer *answer;      /* the one that is being written, */
    size_t written;             /* and how much of it is */
    struct link *next;          /* of those that wait, or that are closed */
};

static int events_of_all;
static struct link *waiting, **last_waiting = &waiting, *closed;

/* Watches a socket: a connection for each change, a port as long as someone wants to connect. */
static void watch(int s, enum role role)
{
    struct link *link = calloc(1, sizeof *link);
    struct epoll_event event = { .events = role < PLAYER ? EPOLLIN : EPOLLIN | EPOLLOUT | EPOLLRDHUP | EPOLLET, .data.ptr = link };

    if (!link)
        fail("Memory", 4);
    link->socket = s;
    link->role = role;
    if (epoll_ctl(events_of_all, EPOLL_CTL_ADD, s, &event) != 0)
        fail("Epoll", 4);
}

static void accept_one(const struct link *port)
{
    int one = 1, s = accept4(port->socket, NULL, NULL, SOCK_NONBLOCK);

    if (s < 0)
        return;
    setsockopt(s, IPPROTO_TCP, TCP_NODELAY, &one, sizeof one);
    watch(s, port->role == PLAYERS ? PLAYER : PUBLISHER);
}

/* Closes a connection, which is freed after the events that were awaited with its last one. */
static void shut(struct link *link)
{
    close(link->socket);
    link->is_closed = 1;
    link->next = closed;
    closed = link;
}

static void free_closed(void)
{
    while (closed) {
        struct link *next = closed->next;
        let_go(closed->answer);
        free(closed->bytes);
        free(closed);
        closed = next;
    }
}

/* Writes what it can of an answer. */
static void write_on(struct link *link)
{
    const struct answer *a = link->answer;
    ssize_t n = send(link->socket, a->text + link->written, a->length - link->written, MSG_NOSIGNAL);

    if (n < 0 && errno != EAGAIN) {
        shut(link);
        return;
    }
    link->written += n > 0 ? (size_t)n : 0;
    if (link->written < a->length)
        return;
    let_go(link->answer);
    link->answer = NULL;
}

/* Answers what a connection wants if that is there; else it waits. */
static void answer_or_wait(struct link *link)
{
    link->waits = !is_there(link->want);
    if (link->waits) {
        link->next = NULL;
        *last_waiting = link;
        last_waiting = &link->next;
        return;
    }
    link->answer = present;
    link->answer->holders++;
    link->written = 0;
    write_on(link);
}

static void go_on(struct link *link);

/* Answers those that waited for what is there now. */
static void release(void)
{
    struct link *link = waiting, *next;

    waiting = NULL;
    last_waiting = &waiting;
    for (; link; link = next) {
        next = link->next;
        answer_or_wait(link);
        go_on(link);
    }
}

static void take_line(struct link *link, const char *line)
{
    char flags[3], reply[40];
    long long duration;
    size_t media_length;
    int is_part = read_line(line, &duration, flags, &media_length) == 0, length;

    if (is_part)
        length = snprintf(reply, sizeof reply, "ok %zu\n", add_part(duration, flags, NULL, 0));
    else
        length = snprintf(reply, sizeof reply, "no 13 BadLine\n");
    if (send(link->socket, reply, (size_t)length, MSG_NOSIGNAL) != length)
        shut(link);
    if (is_part)
        release();
}

static void take_head(struct link *link, const char *head)
{
    const char *query = query_of(head);

    if (query) {
        link->want = want_of(query);
        answer_or_wait(link);
    } else if (send(link->socket, NOT_FOUND, sizeof NOT_FOUND - 1, MSG_NOSIGNAL) != sizeof NOT_FOUND - 1)
        shut(link);
}

/* Takes the first head or line of what was read. Returns whether there is a whole one. */
static int take(struct link *link)
{
    const char *end_mark = link->role == PUBLISHER ? "\n" : "\r\n\r\n";
    char *end = strstr(link->bytes, end_mark);

    if (!end)
        return 0;
    *end = 0;
    if (link->role == PUBLISHER)
        take_line(link, link->bytes);
    else
        take_head(link, link->bytes);
    end += strlen(end_mark);
    link->count -= (size_t)(end - link->bytes);
    memmove(link->bytes, end, link->count + 1);
    return 1;
}

/* Reads what has come; a read that gets less than it can take has got all but the end. Returns whether there was something to read. */
static int read_more(struct link *link)
{
    size_t room = MOST_OF_A_HEAD - link->count;
    ssize_t n;

    if (!link->has_bytes)
        return 0;
    n = recv(link->socket, link->bytes + link->count, room, 0);
    link->has_bytes = n == (ssize_t)room || link->has_ended;
    if (n == 0 || (n < 0 && errno != EAGAIN))
        shut(link);
    link->count += n > 0 ? (size_t)n : 0;
    link->bytes[link->count] = 0;
    return 1;
}

/* Takes what was read and what can be read, until the connection waits or has nothing more. */
static void go_on(struct link *link)
{
    if (!link->bytes) {
        if (!link->has_bytes)
            return;
        link->bytes = malloc(MOST_OF_A_HEAD + 1);
        if (!link->bytes)
            fail("Memory", 4);
        link->bytes[0] = 0;
    }
    while (!link->is_closed && !link->waits && !link->answer && (take(link) || read_more(link)))
        ;
    if (link->count == 0) {
        free(link->bytes);
        link->bytes = NULL;
    }
}

static void happened(struct link *link, unsigned events)
{
    if (link->role < PLAYER) {
        accept_one(link);
        return;
    }
    link->has_bytes |= (events & ~(unsigned)EPOLLOUT) != 0;
    link->has_ended |= (events & EPOLLRDHUP) != 0;
    if (link->is_closed || link->waits)
        return;
    if (link->answer)
        write_on(link);
    go_on(link);
}

int main(int count, char **words)
{
    struct epoll_event events[512];
    int players, publishers, found, i;

    begin(count, words, &players, &publishers);
    events_of_all = epoll_create1(0);
    watch(players, PLAYERS);
    watch(publishers, PUBLISHERS);
    for (;;) {
        found = epoll_wait(events_of_all, events, 512, -1);
        for (i = 0; i < found; i++)
            happened(events[i].data.ptr, events[i].events);
        free_closed();
    }
}
