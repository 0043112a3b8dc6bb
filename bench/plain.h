/* What the plain servers bench/yardstick.c and bench/held.c share: the settings, the parts, the answer with the present playlist, and how a request and a
   publisher's line are read.

   Of the settings file of `llhls serve` they read the ports and the first channel, which has one rendition; they take `part` lines and nothing else, and of
   a request they read the path, `_HLS_msn` and `_HLS_part`. They have no limits, no time-outs and no delta updates, and check nothing of what they are sent.
   The playlists of such items are those of `llhls`, byte for byte. */
#include <arpa/inet.h>
#include <errno.h>
#include <netinet/tcp.h>
#include <signal.h>
#include <stdarg.h>
#include <stdio.h>
#include <stdlib.h>
#include <string.h>
#include <sys/resource.h>
#include <sys/socket.h>
#include <time.h>
#include <unistd.h>

#define MOST_OF_A_HEAD 8192     /* bytes */
#define NOT_FOUND "HTTP/1.1 404 Not Found\r\nContent-Type: text/plain\r\nContent-Length: 9\r\n" \
    "Cache-Control: no-cache\r\nConnection: keep-alive\r\n\r\nNotFound\n"

struct segment {
    long long start, duration;  /* in microseconds, the start from the first part on */
    size_t part, parts;         /* its first part, and how many */
};

struct part {
    long long duration;
    int independent;
    char *media;
    size_t length;
};

/* A whole answer; the last holder frees it. */
struct answer {
    int holders;
    size_t length;
    char text[];
};

/* What a request waits for: a part, or the whole segment if `part` is -1. A segment of -1 is there from the start. */
struct want {
    long long segment, part;
};

static char channel[33], rendition[33], path[100];
static long long target, part_target, skip, window, first, start;
static struct segment *segments;
static struct part *parts;
static size_t segment_count, part_count, segment_room, part_room;
static int is_open;     /* the last segment isn't finished */
static struct answer *present;

static void fail(const char *name, int status)
{
    fprintf(stderr, "%s: %s\n", program_invocation_short_name, name);
    exit(status);
}

static void *grown(void *list, size_t count, size_t *room, size_t each)
{
    if (count < *room)
        return list;
    *room = 2 * *room + 1024;
    list = realloc(list, *room * each);
    if (!list)
        fail("Memory", 4);
    return list;
}

/* Text that grows by `put`. */
struct writing {
    char *text;
    size_t length, room;
};

__attribute__((format(printf, 2, 3))) static void put(struct writing *w, const char *form, ...)
{
    va_list words;

    w->text = grown(w->text, w->length + 512, &w->room, 1);
    va_start(words, form);
    w->length += (size_t)vsnprintf(w->text + w->length, 512, form, words);
    va_end(words);
}

static void put_duration(struct writing *w, long long micros)
{
    put(w, "%lld.%06lld", micros / 1000000, micros % 1000000);
}

static void put_part(struct writing *w, size_t segment, size_t index)
{
    const struct part *p = &parts[segments[segment].part + index];

    put(w, "#EXT-X-PART:DURATION=");
    put_duration(w, p->duration);
    put(w, ",URI=\"s%lld.%zu.m4s\"%s\n", first + (long long)segment, index, p->independent ? ",INDEPENDENT=YES" : "");
}

/* Puts the lines of a segment; `after` is what comes after it. */
static void put_segment(struct writing *w, size_t n, int is_first, int is_finished, long long after)
{
    const struct segment *s = &segments[n];
    long long at = start + s->start / 1000;
    time_t seconds = (time_t)(at / 1000);
    struct tm day;
    char time[40];
    size_t i;

    if (is_first)
        put(w, "#EXT-X-MAP:URI=\"init0.mp4\"\n");
    gmtime_r(&seconds, &day);
    strftime(time, sizeof time, "%Y-%m-%dT%H:%M:%S", &day);
    put(w, "#EXT-X-PROGRAM-DATE-TIME:%s.%03lldZ\n", time, at % 1000);
    for (i = 0; i < s->parts && after < 3 * target * 1000000; i++)
        put_part(w, n, i);
    if (!is_finished)
        return;
    put(w, "#EXTINF:");
    put_duration(w, s->duration);
    put(w, ",\ns%lld.m4s\n", first + (long long)n);
}

static void put_head(struct writing *w, size_t from)
{
    put(w, "#EXTM3U\n#EXT-X-VERSION:10\n#EXT-X-TARGETDURATION:%lld\n#EXT-X-SERVER-CONTROL:CAN-BLOCK-RELOAD=YES,PART-HOLD-BACK=", target);
    put_duration(w, 3 * part_target);
    put(w, ",CAN-SKIP-UNTIL=");
    put_duration(w, skip * 1000000);
    put(w, ",CAN-SKIP-DATERANGES=YES\n#EXT-X-PART-INF:PART-TARGET=");
    put_duration(w, part_target);
    put(w, "\n#EXT-X-MEDIA-SEQUENCE:%lld\n#EXT-X-DISCONTINUITY-SEQUENCE:0\n", first + (long long)from);
}

static void put_playlist(struct writing *w)
{
    size_t finished = segment_count - (size_t)is_open, from = finished, n;
    long long shown = 0, end = segment_count ? segments[segment_count - 1].start + segments[segment_count - 1].duration : 0;

    while (from > 0 && shown < window * 1000000)
        shown += segments[--from].duration;
    put_head(w, from);
    for (n = from; n < segment_count; n++)
        put_segment(w, n, n == from, n < finished, n < finished ? end - segments[n].start - segments[n].duration : 0);
    put(w, "#EXT-X-PRELOAD-HINT:TYPE=PART,URI=\"s%lld.%zu.m4s\"\n", first + (long long)finished,
        is_open ? segments[segment_count - 1].parts : 0);
}

static void let_go(struct answer *a)
{
    if (a && --a->holders == 0)
        free(a);
}

/* Makes the answer with what was published. */
static void make_present(void)
{
    static struct writing body;
    struct answer *made;
    char head[300];
    size_t length;

    body.length = 0;
    put_playlist(&body);
    length = (size_t)snprintf(head, sizeof head, "HTTP/1.1 200 OK\r\nContent-Type: application/vnd.apple.mpegurl\r\n"
        "Content-Length: %zu\r\nCache-Control: no-cache\r\nConnection: keep-alive\r\n\r\n", body.length);
    made = malloc(sizeof *made + length + body.length);
    if (!made)
        fail("Memory", 4);
    made->holders = 1;
    made->length = length + body.length;
    memcpy(made->text, head, length);
    memcpy(made->text + length, body.text, body.length);
    let_go(present);
    present = made;
}

/* Adds a part with these bytes. Returns how many parts there are then. */
static size_t add_part(long long duration, const char *flags, char *media, size_t media_length)
{
    struct segment *s;

    parts = grown(parts, part_count, &part_room, sizeof *parts);
    segments = grown(segments, segment_count, &segment_room, sizeof *segments);
    if (!is_open) {
        s = &segments[segment_count];
        *s = (struct segment){ .part = part_count };
        if (segment_count > 0)
            s->start = s[-1].start + s[-1].duration;
        segment_count++;
    }
    s = &segments[segment_count - 1];
    s->duration += duration;
    s->parts++;
    parts[part_count++] = (struct part){ duration, flags[0] == 'i', media, media_length };
    is_open = !strchr(flags, 'f');
    make_present();
    return part_count;
}

/* Returns whether what is wanted is there, or a later part. */
static int is_there(struct want want)
{
    long long finished = first + (long long)segment_count - is_open;

    return want.segment < finished
        || (want.part >= 0 && is_open && want.segment == finished && want.part < (long long)segments[segment_count - 1].parts);
}

/* Returns what follows the path in a head that asks for the playlist, and NULL for any other. */
static const char *query_of(const char *head)
{
    size_t length = strlen(path);

    return strncmp(head, "GET ", 4) == 0 && strncmp(head + 4, path, length) == 0 ? head + 4 + length : NULL;
}

static struct want want_of(const char *query)
{
    const char *msn = strstr(query, "_HLS_msn="), *part = strstr(query, "_HLS_part=");

    return (struct want){ msn ? atoll(msn + 9) : -1, part ? atoll(part + 10) : -1 };
}

/* Reads a publisher's line of a part, its flags of at most 2 bytes. Returns whether bytes follow it, and -1 if it is another line. */
static int read_line(const char *line, long long *duration, char *flags, size_t *media_length)
{
    char of[33], in[33];
    int words = sscanf(line, "%32s part %32s %lld %2s %zu", of, in, duration, flags, media_length);

    return words < 4 || strcmp(of, channel) != 0 || strcmp(in, rendition) != 0 ? -1 : words == 5;
}

static int listens(const char *line, const char *form, const char *of)
{
    struct sockaddr_in at = { .sin_family = AF_INET };
    socklen_t length = sizeof at;
    char address[16];
    int one = 1, port, s = socket(AF_INET, SOCK_STREAM, 0);

    if (sscanf(line, form, address, &port) != 2 || inet_pton(AF_INET, address, &at.sin_addr) != 1)
        fail("BadLine", 3);
    at.sin_port = htons((unsigned short)port);
    setsockopt(s, SOL_SOCKET, SO_REUSEADDR, &one, sizeof one);
    if (bind(s, (struct sockaddr *)&at, sizeof at) != 0 || listen(s, 4096) != 0 || getsockname(s, (struct sockaddr *)&at, &length) != 0)
        fail("Listen", 4);
    fprintf(stderr, "%s: %s on %s:%d\n", program_invocation_short_name, of, address, ntohs(at.sin_port));
    return s;
}

static void read_channel(const char *line)
{
    if (sscanf(line, "channel %32s target=%lld part=%lld skip=%lld window=%lld renditions=%32s first=%lld start=%lld",
            channel, &target, &part_target, &skip, &window, rendition, &first, &start) != 8)
        fail("BadLine", 3);
    rendition[strcspn(rendition, ",")] = 0;
    snprintf(path, sizeof path, "/%s/%s/live.m3u8", channel, rendition);
}

/* Begins as these words of the program say, and listens at both ports. */
static void begin(int count, char **words, int *players, int *publishers)
{
    char lines[4][300];
    struct rlimit files;
    FILE *settings;
    int i;

    if (count != 3 || strcmp(words[1], "serve") != 0)
        fail("serve SETTINGS", 2);
    settings = fopen(words[2], "r");
    for (i = 0; i < 4; i++)
        if (!settings || !fgets(lines[i], sizeof lines[i], settings))
            fail("Read", 4);
    fclose(settings);
    read_channel(lines[3]);
    make_present();
    if (getrlimit(RLIMIT_NOFILE, &files) == 0) {
        files.rlim_cur = files.rlim_max;
        setrlimit(RLIMIT_NOFILE, &files);
    }
    signal(SIGPIPE, SIG_IGN);
    *players = listens(lines[0], "listen %15[0-9.]:%d", "players");
    *publishers = listens(lines[1], "publish %15[0-9.]:%d", "publishers");
}
