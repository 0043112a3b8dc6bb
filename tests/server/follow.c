/* follow PORT PUBLISH_PORT SCRIPT OUTPUT

   Does over sockets on loopback what a script of `llhls replay` says: its `pub` lines go to the publishers' port, its `bytes` lines to the players'
   port, each connection of the script on a connection of its own, and `drop` closes it; lines that it doesn't know are skipped. The digits that end a
   `pub` line of a part or a Media Initialization Section go as bytes after the line, which says how many there are. OUTPUT is what
   `llhls replay` wrote for the script: each connection has to get exactly the bytes of its `sent` lines, and be closed if it has a `shut` line, and
   each `pub` line has to get its answer. All that is due by then is awaited before the next `pub` line, before the `drop` of a connection, and at the
   end; nothing more may have come by then. Before a `pub` line it waits some milliseconds if requests were sent that this line releases, or a later
   one, so that they are held by then. A `bytes` line of one byte waits a millisecond. The first difference is printed, and ends it with status 1. */
#include <arpa/inet.h>
#include <errno.h>
#include <netinet/tcp.h>
#include <poll.h>
#include <signal.h>
#include <stdarg.h>
#include <stdio.h>
#include <stdlib.h>
#include <string.h>
#include <sys/resource.h>
#include <sys/socket.h>
#include <unistd.h>

#define PATIENCE_MS 10000
#define HOLD_US 30000         /* and this much more for each request: */
#define HOLD_EACH_US 100

static const char media[] = "HTTP/1.1 200 OK\r\nContent-Type: video/mp4\r\n";

/* What is due on a connection: how many bytes in all, or its end, and after how many answers to `pub` lines. */
struct due {
    long answers;
    size_t length;
    int shut;
};

struct connection {
    long number;
    int socket;             /* -1 if it isn't open */
    int was_dropped;
    char *wanted;           /* all that it has to get */
    size_t length, came;
    struct due *dues;
    size_t count;
};

static struct connection *all;
static size_t count_of_all;
static char **answers;      /* to the `pub` lines */
static long answer_count, answered;
static long line_number;

static void fail(const char *form, ...)
{
    va_list words;

    va_start(words, form);
    printf("line %ld: ", line_number);
    vprintf(form, words);
    putchar('\n');
    va_end(words);
    exit(1);
}

static void *grown(void *list, size_t bytes)
{
    list = realloc(list, bytes + 1);
    if (!list)
        fail("no memory");
    return list;
}

static struct connection *of_number(long number)
{
    size_t i;

    for (i = 0; i < count_of_all; i++)
        if (all[i].number == number)
            return &all[i];
    all = grown(all, (count_of_all + 1) * sizeof *all);
    all[count_of_all] = (struct connection){ .number = number, .socket = -1 };
    return &all[count_of_all++];
}

static void add_due(struct connection *c, int shut)
{
    c->dues = grown(c->dues, (c->count + 1) * sizeof *c->dues);
    c->dues[c->count++] = (struct due){ answer_count, c->length, shut };
}

/* Reads what replay wrote. */
static void read_output(FILE *output)
{
    char *line = NULL;
    size_t room = 0, length;
    long number;
    ssize_t n;

    while ((n = getline(&line, &room, output)) > 0) {
        if (sscanf(line, "sent %ld %zu", &number, &length) == 2) {
            struct connection *c = of_number(number);
            c->wanted = grown(c->wanted, c->length + length);
            if (fread(c->wanted + c->length, 1, length, output) != length)
                fail("the output is cut off");
            /* an LF that isn't counted follows media */
            if (length >= sizeof media - 1 && memcmp(c->wanted + c->length, media, sizeof media - 1) == 0)
                getc(output);
            c->length += length;
            add_due(c, 0);
        } else if (sscanf(line, "shut %ld", &number) == 1) {
            add_due(of_number(number), 1);
        } else {
            answers = grown(answers, (size_t)(answer_count + 1) * sizeof *answers);
            answers[answer_count++] = strndup(line, (size_t)n);
        }
    }
    free(line);
}

static int connect_to(int port)
{
    struct sockaddr_in to = { .sin_family = AF_INET, .sin_port = htons((unsigned short)port), .sin_addr.s_addr = htonl(INADDR_LOOPBACK) };
    struct timeval patience = { .tv_sec = PATIENCE_MS / 1000 };
    int one = 1, s = socket(AF_INET, SOCK_STREAM, 0);

    setsockopt(s, SOL_SOCKET, SO_SNDTIMEO, &patience, sizeof patience);
    setsockopt(s, SOL_SOCKET, SO_RCVTIMEO, &patience, sizeof patience);
    setsockopt(s, IPPROTO_TCP, TCP_NODELAY, &one, sizeof one);
    if (s < 0 || connect(s, (struct sockaddr *)&to, sizeof to) != 0)
        fail("no connection to port %d: %s", port, strerror(errno));
    return s;
}

/* Takes what is there, and compares it. Returns whether the connection is still open. With `wait` it waits for something. */
static int take(struct connection *c, int wait)
{
    char bytes[65536];
    struct pollfd ready = { .fd = c->socket, .events = POLLIN };
    ssize_t n;
    size_t i;

    if (poll(&ready, 1, wait ? PATIENCE_MS : 0) == 0) {
        if (wait)
            fail("connection %ld waits after %zu of %zu bytes", c->number, c->came, c->length);
        return 1;
    }
    n = recv(c->socket, bytes, sizeof bytes, 0);
    if (n <= 0)
        return 0;
    for (i = 0; i < (size_t)n; i++)
        if (c->came + i >= c->length || bytes[i] != c->wanted[c->came + i])
            fail("connection %ld: byte %zu of %zu isn't what replay wrote; from there came: %.*s",
                c->number, c->came + i, c->length, (int)((size_t)n - i > 200 ? 200 : (size_t)n - i), bytes + i);
    c->came += (size_t)n;
    return 1;
}

/* Awaits all that is due on a connection, and checks that nothing more is there. */
static void settle(struct connection *c)
{
    size_t due = 0, i;
    int shut = 0;

    for (i = 0; i < c->count && c->dues[i].answers <= answered; i++) {
        due = c->dues[i].length;
        shut = c->dues[i].shut;
    }
    if (c->socket < 0) {
        if (c->came < due)
            fail("connection %ld isn't open", c->number);
        return;
    }
    while (c->came < due)
        if (!take(c, 1))
            fail("connection %ld was closed after %zu of %zu bytes", c->number, c->came, due);
    if (shut) {
        while (take(c, 1))
            ;
        close(c->socket);
        c->socket = -1;
        c->was_dropped = 1;
    } else if (!take(c, 0)) {
        fail("connection %ld was closed, and isn't to be", c->number);
    } else if (c->came > due) {
        fail("connection %ld got %zu bytes too soon", c->number, c->came - due);
    }
}

static void settle_all(void)
{
    size_t i;

    for (i = 0; i < count_of_all; i++)
        settle(&all[i]);
}

/* Returns how many open connections get something with a later answer to a `pub` line. */
static unsigned held(void)
{
    unsigned count = 0;
    size_t i;

    for (i = 0; i < count_of_all; i++)
        count += all[i].socket >= 0 && all[i].count > 0 && all[i].dues[all[i].count - 1].answers > answered;
    return count;
}

/* A failed write to a connection that the server may have closed by now is no fault: what came from it shows whether there is one. */
static void send_all(int s, const char *bytes, size_t length, int may_fail)
{
    while (length > 0) {
        ssize_t n = send(s, bytes, length, MSG_NOSIGNAL);
        if (n <= 0 && may_fail)
            return;
        if (n <= 0)
            fail("a write failed: %s", strerror(errno));
        bytes += n;
        length -= (size_t)n;
    }
}

/* Returns the bytes of these digits. */
static char *unhexed(const char *hex, size_t length)
{
    char *bytes = grown(NULL, length);
    size_t i;

    for (i = 0; i < length; i++) {
        unsigned byte;
        sscanf(hex + 2 * i, "%2x", &byte);
        bytes[i] = (char)byte;
    }
    return bytes;
}

/* Returns how many digits end a line of a part or a Media Initialization Section, its LF not counted; 0 if none do. */
static size_t digits(const char *line, size_t length)
{
    char kind[5];
    size_t i, words = 1, last = 0;

    for (i = 0; i < length; i++)
        if (line[i] == ' ') {
            words++;
            last = i + 1;
        }
    if (sscanf(line, "%*s %4s", kind) != 1 || words != (strcmp(kind, "part") == 0 ? 6 : strcmp(kind, "init") == 0 ? 4 : 0))
        return 0;
    return length - last;
}

/* Sends a line, and the digits that end it as bytes after it. */
static void send_line(int publisher, const char *line, size_t length)
{
    size_t hex = digits(line, length - 1);
    char *bytes, count[32];

    if (hex == 0) {
        send_all(publisher, line, length, 0);
        return;
    }
    send_all(publisher, line, length - 1 - hex, 0);
    send_all(publisher, count, (size_t)sprintf(count, "%zu\n", hex / 2), 0);
    bytes = unhexed(line + length - 1 - hex, hex / 2);
    send_all(publisher, bytes, hex / 2, 0);
    send_all(publisher, "\n", 1, 0);
    free(bytes);
}

static void publish(int publisher, const char *line, size_t length)
{
    char reply[200];
    size_t n = 0;

    settle_all();
    if (held() > 0)
        usleep(HOLD_US + held() * HOLD_EACH_US);
    settle_all();
    if (answered == answer_count)
        fail("the output has no answer to this line");
    send_line(publisher, line, length);
    do {
        if (n == sizeof reply - 1 || recv(publisher, reply + n, 1, 0) != 1)
            fail("the publisher got no whole answer");
    } while (reply[n++] != '\n');
    reply[n] = 0;
    if (strcmp(reply, answers[answered]) != 0)
        fail("the publisher got %s, and replay wrote %s", reply, answers[answered]);
    answered++;
}

static void feed(int port, long number, const char *hex)
{
    struct connection *c = of_number(number);
    size_t length = strspn(hex, "0123456789abcdef") / 2;
    char *bytes;
    int may_shut = c->count > 0 && c->dues[c->count - 1].shut;

    if (c->was_dropped)
        return;
    if (c->socket < 0)
        c->socket = connect_to(port);
    bytes = unhexed(hex, length);
    if (length == 1)
        usleep(1000);
    send_all(c->socket, bytes, length, may_shut);
    free(bytes);
}

static void drop(long number)
{
    struct connection *c = of_number(number);

    if (c->socket < 0)
        return;
    settle(c);
    if (c->socket >= 0)
        close(c->socket);
    c->socket = -1;
    c->was_dropped = 1;
}

static void follow(int port, int publish_port, FILE *script)
{
    int publisher = connect_to(publish_port), at;
    char *line = NULL;
    size_t room = 0;
    long number;
    ssize_t n;

    while ((n = getline(&line, &room, script)) > 0) {
        line_number++;
        if (strncmp(line, "pub ", 4) == 0)
            publish(publisher, line + 4, (size_t)n - 4);
        else if (sscanf(line, "bytes %ld %n", &number, &at) == 1)
            feed(port, number, line + at);
        else if (sscanf(line, "drop %ld", &number) == 1)
            drop(number);
    }
    free(line);
    settle_all();
    if (answered != answer_count)
        fail("the output has %ld answers more", answer_count - answered);
}

int main(int count, char **words)
{
    FILE *script = count == 5 ? fopen(words[3], "r") : NULL, *output = count == 5 ? fopen(words[4], "r") : NULL;
    struct rlimit files;

    if (!script || !output) {
        fputs("follow PORT PUBLISH_PORT SCRIPT OUTPUT\n", stderr);
        return 2;
    }
    if (getrlimit(RLIMIT_NOFILE, &files) == 0) {
        files.rlim_cur = files.rlim_max;
        setrlimit(RLIMIT_NOFILE, &files);
    }
    signal(SIGPIPE, SIG_IGN);
    read_output(output);
    follow(atoi(words[1]), atoi(words[2]), script);
    return 0;
}
