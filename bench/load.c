/* load present PORT CONNECTIONS SECONDS
   load media PORT CONNECTIONS SECONDS FILE LENGTH
   load held PORT PUBLISH_PORT WAITING ROUNDS PROCESS

   A load for `llhls serve`, bench/yardstick.c and bench/held.c, on loopback: channel `cam`, rendition `hi`, parts of a second, four to a segment.

   present: CONNECTIONS kept connections, each of which asks for the playlist again as soon as its answer is whole. Half of the processors ask, each
   for its share of the connections, so that it is the server that is measured. It prints the answers per second, and the 50th and the 99th percentile
   of the time from request to whole answer in microseconds. What comes before each connection of a share has had an answer doesn't count.

   media: the same with FILE in the playlist's folder, whose answer has LENGTH bytes: 0, 1, 2 .. 250, and from 0 on again.

   held: in each round WAITING kept connections ask for the next part, each thread for its share of them as above. Some milliseconds after all requests
   are written, the part is published. It prints the milliseconds from there to the first, the median and the last whole answer, and to the publisher's
   `ok`; and at the end, after the word `median`, the medians of the rounds and, of the server's PROCESS: the microseconds of processor time for an
   answer, from the first connection on; the kB of memory for each request that waits, in the last round; the number of threads then; and the most
   memory in kB.

   Each answer is checked: status 200, as many bytes as it announces, a playlist, or each byte of the media; of a held one also that it comes after its
   part and lists it, and that all are equal. The first wrong answer ends the program with a message and status 1; so do 20 seconds in which nothing
   comes, and more connections than `ulimit -H -n` allows. */
#define _GNU_SOURCE
#include <pthread.h>
#include <signal.h>
#include <sys/resource.h>

#include "peers.h"

#define PARTS_OF_A_SEGMENT 4
#define MOST_THREADS 64

/* The connections of one thread, and its results: the times from request to whole answer, and the answers per second. */
struct share {
    pthread_t thread;
    int port, connections;
    double seconds;
    int (*taken)(struct peer *);
    double *times, rate;
    size_t count, room;
};

static void add_time(struct share *s, double time)
{
    if (s->count == s->room) {
        s->room = 2 * s->room + 65536;
        s->times = realloc(s->times, s->room * sizeof *s->times);
        if (!s->times)
            fail("no memory");
    }
    s->times[s->count++] = time;
}

/* Has all connections of a share ask again and again, as long as the share says; `taken` takes what came of an answer. */
static void *ask_on(void *given)
{
    struct share *s = given;
    struct epoll_event events[512];
    struct peer *peers = connect_all(s->port, 0, s->connections);
    double begin = 0, at = 0;
    int i, found, had = 0;

    for (i = 0; i < s->connections; i++)
        ask(&peers[i]);
    while (begin == 0 || at < begin + s->seconds * 1e6) {
        found = some_events(events, 512);
        for (i = 0; i < found; i++) {
            struct peer *p = events[i].data.ptr;
            if (!s->taken(p))
                continue;
            at = now();
            if (begin == 0 && ++had >= s->connections)
                begin = at;
            if (begin != 0 && at > begin)
                add_time(s, at - p->asked);
            ask(p);
        }
    }
    s->rate = (double)s->count * 1e6 / (at - begin);
    return NULL;
}

/* Returns how many threads these connections are shared out to: half of the processors. */
static int threads_for(int connections)
{
    int count = (int)sysconf(_SC_NPROCESSORS_ONLN) / 2;

    count = count < 1 ? 1 : count > MOST_THREADS ? MOST_THREADS : count;
    return count < connections ? count : connections;
}

/* Shares out the connections, and prints the results of all of them. */
static void ask_all(int port, int connections, double seconds, int (*taken)(struct peer *))
{
    static struct share shares[MOST_THREADS];
    struct share all = { .rate = 0 };
    int count = threads_for(connections), i;
    size_t n;

    for (i = 0; i < count; i++) {
        shares[i] = (struct share){ .port = port, .connections = (connections + i) / count, .seconds = seconds, .taken = taken };
        if (pthread_create(&shares[i].thread, NULL, ask_on, &shares[i]) != 0)
            fail("no thread");
    }
    for (i = 0; i < count; i++) {
        pthread_join(shares[i].thread, NULL);
        all.rate += shares[i].rate;
        for (n = 0; n < shares[i].count; n++)
            add_time(&all, shares[i].times[n]);
    }
    if (all.count == 0)
        fail("no answer in %g seconds", seconds);
    qsort(all.times, all.count, sizeof *all.times, in_order);
    printf("%.0f %.0f %.0f\n", all.rate, percentile(all.times, all.count, 0.5), percentile(all.times, all.count, 0.99));
}

static void set_media(const char *file, size_t length)
{
    size_t i;

    for (i = 0; i < sizeof media; i++)
        media[i] = (char)(i % PERIOD);
    media_length = length;
    request_length = (size_t)snprintf(request, sizeof request, "GET " FOLDER "%.60s HTTP/1.1\r\nHost: a\r\n\r\n", file);
}

/* Sets the next part, from the hint of the present playlist. */
static void next_part(int port, long *segment, long *part)
{
    static const char hint[] = "#EXT-X-PRELOAD-HINT:TYPE=PART,URI=\"s";
    struct peer *p = connect_all(port, 0, 1);
    struct epoll_event event;
    char *line;

    request_length = (size_t)snprintf(request, sizeof request, "GET " PATH " HTTP/1.1\r\nHost: a\r\n\r\n");
    ask(p);
    do
        some_events(&event, 1);
    while (!take(p));
    line = strstr(p->text + p->head, hint);
    if (!line || sscanf(line + sizeof hint - 1, "%ld.%ld.m4s", segment, part) != 2)
        fail("the playlist has no hint");
    close(p->socket);
    close(events_of_all);
    free(p->text);
    free(p);
}

/* Writes a publisher's line; its answer is read later. */
static void publish(int publisher, long part)
{
    char line[60];
    int length = snprintf(line, sizeof line, "cam part hi 1000000 %s\n",
        part == 0 ? "i" : part == PARTS_OF_A_SEGMENT - 1 ? "f" : "-");

    write_all(publisher, line, (size_t)length);
}

static void read_ok(int publisher)
{
    char line[60];
    size_t length = 0;

    do {
        if (length == sizeof line || recv(publisher, line + length, 1, 0) != 1)
            fail("the publisher has no answer");
    } while (line[length++] != '\n');
    if (strncmp(line, "ok ", 3) != 0)
        fail("the publisher's answer is %.*s", (int)length - 1, line);
}

/* What is measured of a server: its processor time in microseconds, and three numbers of its status. */
struct cost {
    double time;
    long resident, peak, threads;
};

/* Returns the number in a line of the status of a process. */
static long status_of(long process, const char *name)
{
    char path[40], line[200];
    long number = -1;
    FILE *status;

    snprintf(path, sizeof path, "/proc/%ld/status", process);
    status = fopen(path, "r");
    while (status && number < 0 && fgets(line, sizeof line, status))
        if (strncmp(line, name, strlen(name)) == 0)
            number = atol(line + strlen(name));
    if (number < 0)
        fail("process %ld has no %s", process, name);
    fclose(status);
    return number;
}

static struct cost cost_of(long process)
{
    struct timespec t;
    clockid_t clock;

    if (clock_getcpuclockid((pid_t)process, &clock) != 0 || clock_gettime(clock, &t) != 0)
        fail("process %ld has no time", process);
    return (struct cost){ t.tv_sec * 1e6 + t.tv_nsec / 1e3, status_of(process, "VmRSS:"), status_of(process, "VmHWM:"), status_of(process, "Threads:") };
}

/* The connections of one thread that wait for parts, from the number `from` on. */
struct waiting {
    pthread_t thread;
    int port, from, count, rounds;
    struct peer *peers;
    double *times;      /* when their answers were whole, those of a round in the order in which they came */
};

/* All threads are here once they have asked, once they have all answers, and once a further round can begin. */
static pthread_barrier_t stage;

static void *ask_and_wait(void *given)
{
    struct waiting *w = given;
    struct epoll_event events[512];
    int i, found, whole;

    w->peers = connect_all(w->port, w->from, w->count);
    for (; w->rounds > 0; w->rounds--) {
        pthread_barrier_wait(&stage);
        for (i = 0; i < w->count; i++)
            ask(&w->peers[i]);
        pthread_barrier_wait(&stage);
        for (whole = 0; whole < w->count;) {
            found = some_events(events, 512);
            for (i = 0; i < found; i++)
                if (take(events[i].data.ptr))
                    w->times[whole++] = now();
        }
        pthread_barrier_wait(&stage);
    }
    return NULL;
}

/* All connections that wait, and what they wait for. */
struct crowd {
    struct waiting each[MOST_THREADS];
    int threads, count, publisher;
    double *times;
    long segment, part;
};

/* Checks that all answers have the part that was waited for, and are equal. */
static void compare(const struct crowd *c)
{
    const struct peer *first = c->each[0].peers;
    char line[60];
    int i, n;

    snprintf(line, sizeof line, ",URI=\"s%ld.%ld.m4s\"", c->segment, c->part);
    if (!strstr(first->text + first->head, line))
        fail("an answer without part %ld.%ld", c->segment, c->part);
    for (n = 0; n < c->threads; n++)
        for (i = 0; i < c->each[n].count; i++) {
            const struct peer *p = &c->each[n].peers[i];
            if (p->body != first->body || memcmp(p->text + p->head, first->text + first->head, first->body) != 0)
                fail("two answers of one part differ");
        }
}

/* Makes one round, and notes the milliseconds from the part to the first, the median and the last answer, and to the publisher's. Returns what the
   server of this process costs while all wait. */
static struct cost hold(struct crowd *c, long process, double *taken)
{
    int pause_ms = 50 + c->count / 20;
    struct timespec pause = { .tv_sec = pause_ms / 1000, .tv_nsec = pause_ms % 1000 * 1000000L };
    struct cost cost;
    double published;

    request_length = (size_t)snprintf(request, sizeof request,
        "GET " PATH "?_HLS_msn=%ld&_HLS_part=%ld HTTP/1.1\r\nHost: a\r\n\r\n", c->segment, c->part);
    pthread_barrier_wait(&stage);
    pthread_barrier_wait(&stage);
    nanosleep(&pause, NULL);
    cost = cost_of(process);
    published = now();
    publish(c->publisher, c->part);
    read_ok(c->publisher);
    taken[3] = (now() - published) / 1000;
    pthread_barrier_wait(&stage);
    compare(c);
    taken[1] = (median(c->times, (size_t)c->count) - published) / 1000;
    taken[0] = (c->times[0] - published) / 1000;
    taken[2] = (c->times[c->count - 1] - published) / 1000;
    if (taken[0] < 0)
        fail("an answer before its part");
    c->part = (c->part + 1) % PARTS_OF_A_SEGMENT;
    c->segment += c->part == 0;
    return cost;
}

/* Prints the medians of the rounds, each of which has four numbers of `taken`. */
static void print_medians(const double *taken, int rounds)
{
    double column[rounds];
    int i, k;

    printf("median");
    for (k = 0; k < 4; k++) {
        for (i = 0; i < rounds; i++)
            column[i] = taken[4 * i + k];
        printf(" %.3f", median(column, (size_t)rounds));
    }
}

/* Has threads connect, each for its share. */
static void begin_waiting(struct crowd *c, int port, int rounds)
{
    int i, from = 0;

    c->threads = threads_for(c->count);
    c->times = calloc((size_t)c->count, sizeof *c->times);
    if (!c->times)
        fail("no memory");
    pthread_barrier_init(&stage, NULL, (unsigned)c->threads + 1);
    for (i = 0; i < c->threads; i++) {
        struct waiting *w = &c->each[i];
        *w = (struct waiting){ .port = port, .from = from, .count = (c->count + i) / c->threads, .rounds = rounds, .times = c->times + from };
        from += w->count;
        if (pthread_create(&w->thread, NULL, ask_and_wait, w) != 0)
            fail("no thread");
    }
}

static void held(int port, int publish_port, int waiting, int rounds, long process)
{
    static struct crowd crowd;
    struct cost before, cost, after;
    double taken[4 * rounds];
    int round;

    crowd.count = waiting;
    crowd.publisher = connection(publish_port, 0);
    next_part(port, &crowd.segment, &crowd.part);
    before = cost_of(process);
    begin_waiting(&crowd, port, rounds);
    for (round = 0; round < rounds; round++) {
        double *of = &taken[4 * round];
        cost = hold(&crowd, process, of);
        printf("%.3f %.3f %.3f %.3f\n", of[0], of[1], of[2], of[3]);
    }
    after = cost_of(process);
    print_medians(taken, rounds);
    printf(" %.2f %.3f %ld %ld\n", (after.time - before.time) / waiting / rounds, (double)(cost.resident - before.resident) / waiting, cost.threads,
        after.peak);
}

int main(int count, char **words)
{
    struct rlimit files;

    if (getrlimit(RLIMIT_NOFILE, &files) == 0) {
        files.rlim_cur = files.rlim_max;
        setrlimit(RLIMIT_NOFILE, &files);
    }
    signal(SIGPIPE, SIG_IGN);
    request_length = (size_t)snprintf(request, sizeof request, "GET " PATH " HTTP/1.1\r\nHost: a\r\n\r\n");
    if (count == 5 && strcmp(words[1], "present") == 0 && atoi(words[3]) > 0)
        ask_all(atoi(words[2]), atoi(words[3]), atof(words[4]), take);
    else if (count == 7 && strcmp(words[1], "media") == 0 && atoi(words[3]) > 0) {
        set_media(words[5], strtoul(words[6], NULL, 10));
        ask_all(atoi(words[2]), atoi(words[3]), atof(words[4]), take_media);
    } else if (count == 7 && strcmp(words[1], "held") == 0 && atoi(words[4]) > 0 && atoi(words[5]) > 0)
        held(atoi(words[2]), atoi(words[3]), atoi(words[4]), atoi(words[5]), atol(words[6]));
    else {
        fputs("load present PORT CONNECTIONS SECONDS | load media PORT CONNECTIONS SECONDS FILE LENGTH | "
            "load held PORT PUBLISH_PORT WAITING ROUNDS PROCESS\n", stderr);
        return 2;
    }
    return 0;
}
