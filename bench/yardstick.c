/* yardstick serve SETTINGS

   A plain server with a thread for each connection, as a measure of what is possible: bench/serve.sh puts the same load on it as on `llhls serve`, and
   prints the ratios. It is no origin: bench/plain.h says what it takes.

   A part's bytes may follow its line. It keeps them for good, and no request for them waits: an answer with the bytes of a part or of a finished
   segment is its head and these bytes where they lie, in one writev.

   The answer with the present playlist is made once a part. A thread takes the mutex, waits on the condition until the part that it wants is there,
   takes a holder of that answer, leaves the mutex and writes. */
#define _GNU_SOURCE
#include <pthread.h>
#include <sys/uio.h>

#include "plain.h"

/* The most parts of a segment that an answer has. */
#define PIECES 64

/* What bench/plain.h keeps is read and written with the mutex taken. */
static pthread_mutex_t mutex = PTHREAD_MUTEX_INITIALIZER;
static pthread_cond_t came = PTHREAD_COND_INITIALIZER;

static size_t publish(long long duration, const char *flags, char *media, size_t length)
{
    size_t count;

    pthread_mutex_lock(&mutex);
    count = add_part(duration, flags, media, length);
    pthread_cond_broadcast(&came);
    pthread_mutex_unlock(&mutex);
    return count;
}

/* Waits until what is wanted is there. Returns a holder of the answer. */
static struct answer *answer_of(struct want want)
{
    struct answer *found;

    pthread_mutex_lock(&mutex);
    while (!is_there(want))
        pthread_cond_wait(&came, &mutex);
    found = present;
    found->holders++;
    pthread_mutex_unlock(&mutex);
    return found;
}

static int write_all(int s, const char *text, size_t length)
{
    while (length > 0) {
        ssize_t n = send(s, text, length, MSG_NOSIGNAL);
        if (n <= 0)
            return 0;
        text += n;
        length -= (size_t)n;
    }
    return 1;
}

/* Adds the bytes of a segment's part, or of all its parts if the index is below 0, after a first piece. Returns how many pieces there are then: 1 if
   these bytes aren't there. */
static int media_of(long long segment, long index, struct iovec *pieces)
{
    long long n = segment - first;
    size_t i;
    int count = 1;

    pthread_mutex_lock(&mutex);
    if (n >= 0 && n < (long long)segment_count - (index < 0 && is_open))
        for (i = 0; i < segments[n].parts && count <= PIECES; i++)
            if (index < 0 || (size_t)index == i) {
                const struct part *p = &parts[segments[n].part + i];
                pieces[count++] = (struct iovec){ p->media, p->length };
            }
    pthread_mutex_unlock(&mutex);
    return count;
}

static int write_pieces(int s, struct iovec *pieces, int count)
{
    while (count > 0) {
        ssize_t n = writev(s, pieces, count);
        if (n <= 0)
            return 0;
        for (; count > 0 && (size_t)n >= pieces->iov_len; pieces++, count--)
            n -= (ssize_t)pieces->iov_len;
        if (count > 0) {
            pieces->iov_base = (char *)pieces->iov_base + n;
            pieces->iov_len -= (size_t)n;
        }
    }
    return 1;
}

/* Answers a request for media by the name of its file. Returns -1 if that isn't there. */
static int answer_media(int s, const char *file)
{
    struct iovec pieces[1 + PIECES];
    long long segment;
    long index;
    char head[200];
    size_t length = 0;
    int count, i;

    if (sscanf(file, "s%lld.%ld.m4s", &segment, &index) != 2) {
        index = -1;
        if (sscanf(file, "s%lld.m4s", &segment) != 1)
            return -1;
    }
    count = media_of(segment, index, pieces);
    if (count == 1)
        return -1;
    for (i = 1; i < count; i++)
        length += pieces[i].iov_len;
    pieces[0].iov_base = head;
    pieces[0].iov_len = (size_t)snprintf(head, sizeof head, "HTTP/1.1 200 OK\r\nContent-Type: video/mp4\r\nContent-Length: %zu\r\n"
        "Cache-Control: max-age=60\r\nConnection: keep-alive\r\n\r\n", length);
    return write_pieces(s, pieces, count);
}

/* Answers the request whose head is this text. Returns whether the connection goes on. */
static int answer_request(int s, const char *head)
{
    const char *query = query_of(head);
    size_t folder = strlen(path) - strlen("live.m3u8");
    struct answer *a;
    int written;

    if (!query) {
        written = strncmp(head, "GET ", 4) == 0 && strncmp(head + 4, path, folder) == 0 ? answer_media(s, head + 4 + folder) : -1;
        return written < 0 ? write_all(s, NOT_FOUND, sizeof NOT_FOUND - 1) : written;
    }
    a = answer_of(want_of(query));
    written = write_all(s, a->text, a->length);
    pthread_mutex_lock(&mutex);
    let_go(a);
    pthread_mutex_unlock(&mutex);
    return written;
}

/* Returns `length` bytes and an LF, the first of which may be among the `count` bytes at `bytes`, and sets how many of these they are. NULL if the
   connection ended. */
static char *read_media(int s, const char *bytes, size_t count, size_t length, size_t *taken)
{
    char *media = malloc(length + 1);
    ssize_t n = 1;
    size_t at;

    if (!media)
        fail("Memory", 4);
    at = *taken = count < length + 1 ? count : length + 1;
    memcpy(media, bytes, at);
    for (; at < length + 1 && n > 0; at += n > 0 ? (size_t)n : 0)
        n = recv(s, media + at, length + 1 - at, 0);
    if (n > 0)
        return media;
    free(media);
    return NULL;
}

/* Answers a line, after which `count` bytes came; sets `taken` to how many of these are its part's. */
static int answer_line(int s, const char *line, const char *bytes, size_t count, size_t *taken)
{
    char flags[3], reply[40], *media = NULL;
    long long duration;
    size_t media_length = 0;
    int length, has_media = read_line(line, &duration, flags, &media_length);

    if (has_media == 1 && !(media = read_media(s, bytes, count, media_length, taken)))
        return 0;
    if (has_media >= 0)
        length = snprintf(reply, sizeof reply, "ok %zu\n", publish(duration, flags, media, media_length));
    else
        length = snprintf(reply, sizeof reply, "no 13 BadLine\n");
    return write_all(s, reply, (size_t)length);
}

struct link {
    int socket, is_publisher;
};

/* Serves one connection: cuts what comes into heads or lines, and answers each. */
static void *serve_link(void *given)
{
    struct link link = *(struct link *)given;
    const char *end_mark = link.is_publisher ? "\n" : "\r\n\r\n";
    char bytes[MOST_OF_A_HEAD + 1], *end;
    size_t count = 0, taken, media;
    ssize_t n;
    int goes_on = 1;

    free(given);
    while (goes_on && count < sizeof bytes - 1 && (n = recv(link.socket, bytes + count, sizeof bytes - 1 - count, 0)) > 0) {
        count += (size_t)n;
        bytes[count] = 0;
        while (goes_on && (end = strstr(bytes, end_mark))) {
            *end = 0;
            taken = (size_t)(end - bytes) + strlen(end_mark);
            media = 0;
            goes_on = link.is_publisher ? answer_line(link.socket, bytes, bytes + taken, count - taken, &media) : answer_request(link.socket, bytes);
            taken += media;
            memmove(bytes, bytes + taken, count - taken + 1);
            count -= taken;
        }
    }
    close(link.socket);
    return NULL;
}

struct door {
    int socket, is_publisher;
};

static void *accept_all(void *given)
{
    const struct door *door = given;
    pthread_attr_t small;
    pthread_t thread;
    int one = 1;

    pthread_attr_init(&small);
    pthread_attr_setstacksize(&small, 64 * 1024);
    pthread_attr_setdetachstate(&small, PTHREAD_CREATE_DETACHED);
    for (;;) {
        struct link *link;
        int s = accept(door->socket, NULL, NULL);
        if (s < 0) {
            usleep(50000);
            continue;
        }
        setsockopt(s, IPPROTO_TCP, TCP_NODELAY, &one, sizeof one);
        link = malloc(sizeof *link);
        if (!link)
            fail("Memory", 4);
        *link = (struct link){ s, door->is_publisher };
        if (pthread_create(&thread, &small, serve_link, link) != 0) {
            close(s);
            free(link);
        }
    }
    return NULL;
}

int main(int count, char **words)
{
    struct door players = { .is_publisher = 0 }, publishers = { .is_publisher = 1 };
    pthread_t thread;

    begin(count, words, &players.socket, &publishers.socket);
    if (pthread_create(&thread, NULL, accept_all, &players) != 0)
        fail("Memory", 4);
    accept_all(&publishers);
    return 0;
}
