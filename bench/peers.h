/* The connections of bench/load.c: they ask for a playlist or for media, and check each answer. */
#include <arpa/inet.h>
#include <errno.h>
#include <netinet/tcp.h>
#include <stdarg.h>
#include <stdio.h>
#include <stdlib.h>
#include <string.h>
#include <sys/epoll.h>
#include <sys/socket.h>
#include <time.h>
#include <unistd.h>

#define FOLDER "/cam/hi/"
#define PATH FOLDER "live.m3u8"
#define PERIOD 251      /* of the bytes of media */
#define PIECE (1 << 18) /* the largest read of these */
#define PATIENCE_MS 20000
#define AT_AN_ADDRESS 20000     /* connections */

struct peer {
    int socket;
    int waits;      /* its answer isn't whole yet */
    double asked;   /* when it asked, in microseconds */
    char *text;     /* what came of its answer so far, and a 0 */
    size_t length, room;
    size_t head;    /* bytes of its head with the empty line, 0 while that isn't whole */
    size_t body;    /* bytes that the head announces */
};

static __thread int events_of_all;   /* the epoll of a thread */
static char request[200];
static size_t request_length;
static size_t media_length;
static char media[PIECE + PERIOD];

static void fail(const char *form, ...)
{
    va_list words;

    va_start(words, form);
    fputs("load: ", stderr);
    vfprintf(stderr, form, words);
    fputc('\n', stderr);
    va_end(words);
    exit(1);
}

static double now(void)
{
    struct timespec t;

    clock_gettime(CLOCK_MONOTONIC, &t);
    return t.tv_sec * 1e6 + t.tv_nsec / 1e3;
}

static int in_order(const void *a, const void *b)
{
    double x = *(const double *)a, y = *(const double *)b;

    return (x > y) - (x < y);
}

/* Returns the value that this share of the sorted values doesn't exceed. */
static double percentile(const double *sorted, size_t count, double share)
{
    size_t place = (size_t)(share * (double)count);

    return sorted[place < count ? place : count - 1];
}

static double median(double *values, size_t count)
{
    qsort(values, count, sizeof *values, in_order);
    return count % 2 ? values[count / 2] : (values[count / 2 - 1] + values[count / 2]) / 2;
}

/* Returns a connection to this port, on which a call that can't go on waits at most PATIENCE_MS. Its own address depends on its number: an address has
   28,000 ports or so. */
static int connection(int port, int number)
{
    struct sockaddr_in to = { .sin_family = AF_INET, .sin_port = htons((unsigned short)port), .sin_addr.s_addr = htonl(INADDR_LOOPBACK) };
    struct sockaddr_in from = { .sin_family = AF_INET, .sin_addr.s_addr = htonl(INADDR_LOOPBACK + 1 + (unsigned)number / AT_AN_ADDRESS) };
    struct timeval patience = { .tv_sec = PATIENCE_MS / 1000 };
    int one = 1, s = socket(AF_INET, SOCK_STREAM, 0);

    if (s < 0)
        fail("no socket: %s", strerror(errno));
    setsockopt(s, SOL_SOCKET, SO_SNDTIMEO, &patience, sizeof patience);
    setsockopt(s, SOL_SOCKET, SO_RCVTIMEO, &patience, sizeof patience);
    setsockopt(s, IPPROTO_TCP, TCP_NODELAY, &one, sizeof one);
    setsockopt(s, IPPROTO_IP, IP_BIND_ADDRESS_NO_PORT, &one, sizeof one);
    if (bind(s, (struct sockaddr *)&from, sizeof from) != 0)
        fail("no address: %s", strerror(errno));
    if (connect(s, (struct sockaddr *)&to, sizeof to) != 0)
        fail("no connection to port %d: %s", port, strerror(errno));
    return s;
}

/* Returns `count` connections, from this number on. */
static struct peer *connect_all(int port, int from, int count)
{
    struct peer *peers = calloc((size_t)count, sizeof *peers);
    int i;

    events_of_all = epoll_create1(0);
    if (!peers || events_of_all < 0)
        fail("no memory");
    for (i = 0; i < count; i++) {
        struct epoll_event event = { .events = EPOLLIN, .data.ptr = &peers[i] };
        peers[i].socket = connection(port, from + i);
        if (epoll_ctl(events_of_all, EPOLL_CTL_ADD, peers[i].socket, &event) != 0)
            fail("epoll: %s", strerror(errno));
    }
    return peers;
}

static void write_all(int s, const char *text, size_t length)
{
    while (length > 0) {
        ssize_t n = send(s, text, length, MSG_NOSIGNAL);
        if (n <= 0)
            fail("a write failed: %s", strerror(errno));
        text += n;
        length -= (size_t)n;
    }
}

static void ask(struct peer *p)
{
    p->length = p->head = p->body = 0;
    p->waits = 1;
    p->asked = now();
    write_all(p->socket, request, request_length);
}

/* Reads the head once it is whole. */
static void read_head(struct peer *p)
{
    static const char status[] = "HTTP/1.1 200 OK\r\n", field[] = "\r\nContent-Length: ";
    char *end = strstr(p->text, "\r\n\r\n"), *length;

    if (!end)
        return;
    if (strncmp(p->text, status, sizeof status - 1) != 0)
        fail("another status: %.60s", p->text);
    length = strstr(p->text, field);
    if (!length || length > end)
        fail("no length in %.200s", p->text);
    p->head = (size_t)(end + 4 - p->text);
    p->body = strtoul(length + sizeof field - 1, NULL, 10);
}

/* Reads what came of an answer, at most `most` bytes. Returns how many bytes these are. */
static size_t receive(struct peer *p, char *to, size_t most)
{
    ssize_t n = recv(p->socket, to, most, MSG_DONTWAIT);

    if (n < 0 && (errno == EAGAIN || errno == EINTR))
        return 0;
    if (n < 0)
        fail("a read failed: %s", strerror(errno));
    if (n == 0)
        fail("a connection was closed after %zu bytes of an answer", p->length);
    if (!p->waits)
        fail("an answer without a request");
    return (size_t)n;
}

/* Makes room for more of its text. */
static void make_room(struct peer *p)
{
    if (p->room - p->length < 4096) {
        p->room = 2 * p->room + 8192;
        p->text = realloc(p->text, p->room);
        if (!p->text)
            fail("no memory");
    }
}

/* Takes what came. Returns whether the answer is whole now. */
static int take(struct peer *p)
{
    size_t n;

    make_room(p);
    n = receive(p, p->text + p->length, p->room - p->length - 1);
    if (n == 0)
        return 0;
    p->length += n;
    p->text[p->length] = 0;
    if (p->head == 0)
        read_head(p);
    if (p->head == 0 || p->length < p->head + p->body)
        return 0;
    if (p->length > p->head + p->body)
        fail("%zu bytes too many", p->length - p->head - p->body);
    if (strncmp(p->text + p->head, "#EXTM3U\n", 8) != 0 || p->text[p->length - 1] != '\n')
        fail("a body that is no playlist");
    p->waits = 0;
    return 1;
}

/* Checks that these bytes are those of the media from a place on. */
static void compare_media(const char *bytes, size_t length, size_t from)
{
    if (from + length > media_length || memcmp(bytes, media + from % PERIOD, length) != 0)
        fail("other media in the %zu bytes from %zu on", length, from);
}

/* Does the same for an answer with media, of which only the head is kept, with what came with it. */
static int take_media(struct peer *p)
{
    static __thread char bytes[PIECE];
    size_t n;

    if (p->head == 0) {
        make_room(p);
        n = receive(p, p->text + p->length, 4095);
        if (n == 0)
            return 0;
        p->length += n;
        p->text[p->length] = 0;
        read_head(p);
        if (p->head == 0)
            return 0;
        if (p->body != media_length)
            fail("%zu bytes, and %zu are wanted", p->body, media_length);
        compare_media(p->text + p->head, p->length - p->head, 0);
    } else {
        n = receive(p, bytes, sizeof bytes);
        if (n == 0)
            return 0;
        compare_media(bytes, n, p->length - p->head);
        p->length += n;
    }
    if (p->length < p->head + p->body)
        return 0;
    p->waits = 0;
    return 1;
}

/* Waits for events. Returns how many there are, at least one. */
static int some_events(struct epoll_event *events, int most)
{
    int count;

    do
        count = epoll_wait(events_of_all, events, most, PATIENCE_MS);
    while (count < 0 && errno == EINTR);
    if (count <= 0)
        fail("nothing came for %d seconds", PATIENCE_MS / 1000);
    return count;
}
