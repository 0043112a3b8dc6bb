#!/usr/bin/env python3
"""status.py PROGRAM [TEST..]: tests `llhls serve` with a line `status` in its settings, with real sockets on loopback, all or those of these names: `/metrics` counts exactly what
came, `/health` follows the parts, and bad peers of the port disturb nobody. The last line is `N passed, M failed`."""
import http.client
import pathlib
import re
import socket
import sys
import time

sys.path.insert(0, str(pathlib.Path(__file__).resolve().parents[1] / 'lib'))
from rooms import check, try_named
from serve_room import CAM, LONG, NEXT, PART, PRESENT, SECONDS, Crowd, ServeRoom, connected, has_nothing_more, in_time, part_of, request, target_of

try:
    from prometheus_client.parser import text_string_to_metric_families
except ImportError:
    text_string_to_metric_families = None

QUICK = 'channel quick target=1 part=1000000 skip=6 window=9 renditions=hi,lo first=0 start=0'
METRICS = 'text/plain; version=0.0.4; charset=utf-8'
NAMES = {
    'llhls_last_part_age_seconds': 'gauge',
    'llhls_rendition_ended': 'gauge',
    'llhls_items_total': 'counter',
    'llhls_received_bytes_total': 'counter',
    'llhls_sent_bytes_total': 'counter',
    'llhls_requests_held': 'gauge',
    'llhls_answers_total': 'counter',
    'llhls_refused_items_total': 'counter',
    'llhls_full_records_total': 'counter',
    'llhls_target_duration_seconds': 'gauge',
    'llhls_publishers_connected': 'gauge',
}
AGE = 'llhls_last_part_age_seconds'
KINDS = ('playlist', 'update', 'media', 'NotFound', 'TooFar', 'Busy', 'Timeout', 'RecordFull', 'Memory')
SAMPLE = re.compile(r'([a-z_]+)(?:\{(.*)\})? ([0-9]+(?:\.[0-9]{3})?)')
LABEL = re.compile(r'(channel|rendition|kind|reason)="([A-Za-z0-9_-]+)"')
LIMIT = 5       # seconds that a connection lasts at most
MOST = 64       # connections at once


class StatusRoom(ServeRoom):
    """A server with a status port."""

    port = None

    def serve(self, *lines, **words):
        """Starts the server with these last lines of settings, and that of a status port before the first channel."""
        first = next(number for number, line in enumerate(lines) if line.startswith('channel '))
        super().serve(*lines[:first], 'status 127.0.0.1:0', *lines[first:], **words)
        self.port = self.comes(self.status_port)

    def status_port(self):
        """Returns the port that the server says."""
        found = re.search(r'^llhls: players on .*\nllhls: publishers on .*\nllhls: status on 127\.0\.0\.1:([0-9]+)$', self.log(), re.M)
        check(found, f'the server says {self.log()!r}')
        return int(found[1])

    def get(self, path, method='GET'):
        """Returns the status, the Content-Type and the body of an answer, whose other fields it tests."""
        connection = http.client.HTTPConnection('127.0.0.1', self.port, timeout=SECONDS)
        try:
            connection.request(method, path)
            answer = connection.getresponse()
            body = answer.read()
        finally:
            connection.close()
        check(answer.getheader('Connection') == 'close' and answer.getheader('Cache-Control') == 'no-store', f'{path} is answered {answer.headers}')
        check(int(answer.getheader('Content-Length')) == len(body), f'{path} has {len(body)} bytes, and {answer.headers}')
        return answer.status, answer.getheader('Content-Type'), body.decode()

    def raw(self, *pieces):
        """Returns all bytes that are answered to a request of these pieces, a connection that stays open on this side."""
        with connected(self.port) as peer:
            for piece in pieces:
                peer.sendall(piece)
            return b''.join(iter(lambda: peer.recv(1 << 16), b''))

    def numbers(self):
        """Returns the numbers of the server, by their names and labels as they are spelled."""
        status, kind, text = self.get('/metrics')
        check((status, kind) == (200, METRICS), f'/metrics is answered {status} {kind}')
        return parsed(text)

    def healthy(self, channel):
        """Tests that the channel is well."""
        self.answers_with(f'/health/{channel}', 200, 'ok')

    def silent(self, channel, *renditions):
        """Tests that the channel isn't well because of these renditions."""
        self.answers_with(f'/health/{channel}', 503, ''.join(f'{name}\n' for name in renditions))

    def answers_with(self, path, status, body):
        """Tests the answer to a request for `path`."""
        came = self.get(path)
        check(came == (status, 'text/plain; charset=utf-8', body), f'{path} is answered {came}')


def parsed(text):
    """Reads Prometheus' text format, as strictly as this server writes it. Returns the value of each sample."""
    values, kinds, family = {}, {}, None
    check(text.endswith('\n'), 'the last line has no end')
    for line in text.splitlines():
        words = line.split(' ', 3)
        if line.startswith('# HELP '):
            family = words[2]
            check(family in NAMES and family not in kinds and words[3], f'{line!r} begins no family')
        elif line.startswith('# TYPE '):
            check(words[2] == family and words[3] == NAMES[family], f'{line!r} is the type of {family}')
            kinds[family] = words[3]
        else:
            found = SAMPLE.fullmatch(line)
            check(found and found[1] == family in kinds, f'{line!r} is no sample of {family}')
            labels = (found[2] or '').split(',') if found[2] else []
            check(all(map(LABEL.fullmatch, labels)), f'{line!r} has other labels')
            name = line[:line.rindex(' ')]
            check(name not in values, f'{name} is there twice')
            values[name] = float(found[3])
    check(list(kinds) == list(NAMES), f'the families are {list(kinds)}')
    check(all(name.endswith('_total') == (kind == 'counter') for name, kind in kinds.items()), 'a name ends wrongly')
    compare(text, values)
    return values


def compare(text, values):
    """Compares the samples with what Prometheus' own client reads, if it is there."""
    if text_string_to_metric_families is None:
        return
    theirs = {}
    for family in text_string_to_metric_families(text):
        check(family.type in ('gauge', 'counter') and family.documentation, f'{family.name} is read as {family.type}')
        for sample in family.samples:
            labels = ','.join(f'{name}="{value}"' for name, value in sample.labels.items())
            theirs[sample.name + (f'{{{labels}}}' if labels else '')] = sample.value
    check(theirs == values, f'the client reads {theirs}')


def of(name, channel, rendition=None):
    """Returns a sample's name with these labels."""
    return f'{name}{{channel="{channel}"' + (f',rendition="{rendition}"' if rendition else '') + '}'


def answers_in(numbers, channel):
    """Returns the answers of a channel that aren't 0, by their kinds."""
    all_kinds = {kind: numbers[f'llhls_answers_total{{channel="{channel}",kind="{kind}"}}'] for kind in KINDS}
    return {kind: count for kind, count in all_kinds.items() if count}


def refusals_in(numbers, channel):
    """Returns the refusals of a channel that aren't 0, by their reasons."""
    front = f'llhls_refused_items_total{{channel="{channel}",reason="'
    return {name[len(front):-2]: count for name, count in numbers.items() if name.startswith(front) and count}


def is_answered(answer, status):
    """Tests the status of an answer's bytes."""
    check(answer.startswith(f'HTTP/1.1 {status} '.encode()), f'{answer[:200]!r} comes, and {status} is wanted')


def body_of(answer):
    """Returns the number of bytes of the body of an answer."""
    return len(answer) - answer.index(b'\r\n\r\n') - 4


def counts_what_came(room):
    """A known script of items and requests is counted exactly."""
    room.serve(CAM, QUICK)
    before = room.numbers()
    check(not any(value for name, value in before.items() if 'target' not in name), f'a server begins with {before}')
    check(of(AGE, 'cam', 'hi') not in before, 'a rendition without a part has an age')
    room.publish('cam init hi', 'ok 1', b'i' * 700)
    room.publish('cam part hi 1000000 i', 'ok 2', b'p' * 5000)
    room.publish('cam part lo 1000000 i', 'ok 3')
    room.publish('cam part hi 1000001 -', 'no 4 TooLong')
    room.publish('cam part mid 1 -', 'no 1 NoRendition')
    room.publish('cam nonsense', 'no 13 BadLine')
    room.publish('cam at hi', 'at 3 0 1 1000000 1000')
    room.publish('nobody part hi 1 f', 'no 14 UnknownChannel')
    asked = [room.ask(target) for target in (PRESENT, '/cam/hi/s0.0.m4s', '/cam/hi/s9.m4s', f'{PRESENT}?_HLS_msn=9', '/nobody/hi/live.m3u8')]
    numbers = room.numbers()
    wanted = {
        of('llhls_items_total', 'cam', 'hi'): 2, of('llhls_items_total', 'cam', 'lo'): 1,
        of('llhls_received_bytes_total', 'cam', 'hi'): 5700, of('llhls_received_bytes_total', 'cam', 'lo'): 0,
        of('llhls_sent_bytes_total', 'cam'): body_of(asked[0]) + body_of(asked[1]),
        of('llhls_requests_held', 'cam'): 0, of('llhls_full_records_total', 'cam'): 0,
        of('llhls_target_duration_seconds', 'cam'): 4, of('llhls_target_duration_seconds', 'quick'): 1,
        of('llhls_rendition_ended', 'cam', 'hi'): 0,
    }
    for name, value in wanted.items():
        check(numbers[name] == value, f'{name} is {numbers[name]}, and {value} is wanted')
    check(body_of(asked[1]) == 5000, f'the part has {body_of(asked[1])} bytes')
    check(answers_in(numbers, 'cam') == {'playlist': 1, 'media': 1, 'NotFound': 1, 'TooFar': 1}, f'the answers are {answers_in(numbers, "cam")}')
    check(refusals_in(numbers, 'cam') == {'TooLong': 1, 'NoRendition': 1, 'BadLine': 1}, f'the refusals are {refusals_in(numbers, "cam")}')
    check(not any(value for name, value in numbers.items() if 'quick' in name and 'target' not in name), 'something is counted for another channel')


def counts_who_waits(room):
    """Publishers who are connected and requests that wait are counted while they are."""
    room.serve(LONG)
    held, publishers = of('llhls_requests_held', 'cam'), 'llhls_publishers_connected'

    def has(name, value):
        numbers = room.numbers()
        check(numbers[name] == value, f'{name} is {numbers[name]}, and {value} is wanted')

    with room.publisher() as first:
        with room.publisher(), room.connect() as player:
            player.sendall(request(NEXT))
            room.comes(has, held, 1)
            room.comes(has, publishers, 2)
        room.comes(has, held, 0)
        room.comes(has, publishers, 1)
        with room.connect() as player:
            player.sendall(request(NEXT))
            room.comes(has, held, 1)
            first.publish(PART, 'ok 1')
            player.recv(1)
            room.comes(has, held, 0)
    room.comes(has, publishers, 0)


def grows_alone(room):
    """No counter falls while items and requests come, and the age of a part is that of the clock."""
    room.serve(LONG)
    last = room.numbers()
    for number in range(20):
        sent = time.monotonic()
        room.publish(part_of(number), f'ok {number + 1}', b'x' * number)
        came = time.monotonic()
        room.ask(PRESENT)
        numbers = room.numbers()
        fallen = [name for name, value in last.items() if name.partition('{')[0].endswith('_total') and numbers[name] < value]
        check(not fallen, f'{fallen} fell')
        room.pause(0.05)
        asked = time.monotonic()
        age = room.numbers()[of(AGE, 'cam', 'hi')]
        least, most = asked - came - 0.002, time.monotonic() - sent + 0.002
        check(least <= age <= most, f'the age is {age}, and {least} to {most} is wanted')
        last = numbers
    check(last[of('llhls_items_total', 'cam', 'hi')] == 20, 'not all items are counted')


def follows_the_parts(room):
    """A channel is well from its renditions' first parts on, until one hasn't had one for three target durations, or all have ended."""
    room.serve(QUICK)
    room.answers_with('/health', 200, 'ok')
    room.silent('quick', 'hi', 'lo')
    room.publish('quick part hi 1000000 f', 'ok 1')
    room.silent('quick', 'lo')
    room.publish('quick part lo 1000000 f', 'ok 2')
    stopped = time.monotonic()
    room.healthy('quick')
    room.pause(2.5)
    room.healthy('quick')
    room.publish('quick part hi 1000000 f', 'ok 3')
    room.comes(room.silent, 'quick', 'lo', seconds=3)
    took = time.monotonic() - stopped
    check(2.9 <= took <= 4, f'the server says so after {took} s')
    room.publish('quick end lo', 'ok 4')
    room.healthy('quick')
    room.comes(room.silent, 'quick', 'hi', seconds=5)
    room.publish('quick end hi', 'ok 5')
    room.healthy('quick')
    check(room.numbers()[of('llhls_rendition_ended', 'quick', 'hi')] == 1, 'no number says that a rendition has ended')
    room.answers_with('/health', 200, 'ok')


def goes_on_after_a_start(room):
    """After a start from a spool the last part counts as of the start, and nothing is counted yet."""
    directory = room.folder / 'spool'
    directory.mkdir()
    spool = f'spool {directory}'
    room.serve(spool, QUICK)
    room.publish('quick part hi 1000000 i', 'ok 1', b'x' * 100)
    room.publish('quick end lo', 'ok 2')
    room.stop_server(9)
    room.pause(3.5)
    room.serve(spool, QUICK)
    room.healthy('quick')
    numbers = room.numbers()
    check(numbers[of('llhls_items_total', 'quick', 'hi')] == 0, 'an item is counted that came before the start')
    check(numbers[of(AGE, 'quick', 'hi')] < 2, 'a part is older than the start')
    check(numbers[of('llhls_rendition_ended', 'quick', 'lo')] == 1, 'no number says that a rendition has ended')
    room.comes(room.silent, 'quick', 'hi', seconds=5)


def refuses_the_rest(room):
    """Other paths, methods and heads are answered by their faults, and each connection is closed after its answer."""
    room.serve(CAM)
    for path in '/', '/metric', '/metrics/', '/health/', '/health/nobody', '/health/cam/hi', '/cam/hi/live.m3u8', '/HEALTH', '*':
        status, _, body = room.get(path)
        check((status, body) == (404, 'NotFound\n'), f'{path} is answered {status} {body!r}')
    for method in 'POST', 'PUT', 'DELETE', 'OPTIONS', 'get':
        check(room.get('/metrics', method)[0] == 405, f'{method} is answered {room.get("/metrics", method)}')
    for head, status in (
        (b'HEAD /health HTTP/1.1\r\nHost: a\r\n\r\n', 405),
        (b'GET /health HTTP/1.1\r\n\r\n', 400),
        (b'GET /health HTTP/1.1\r\nHost: a\r\nHost: b\r\n\r\n', 400),
        (b'GET /health\r\n\r\n', 400),
        (b'GET /health HTTP/1.1\r\nHost: a\r\nContent-Length: 3\r\n\r\nabc', 400),
        (b'\x16\x03\x01\x02\x00\x01\x00\x01\xfc\x03\x03\r\n\r\n', 400),
        (b'GET /health HTTP/1.1\r\nHost: a\r\n' + b'X: y\r\n' * 65 + b'\r\n', 431),
        (b'GET /health?verbose HTTP/1.0\r\n\r\n', 200),
        (b'GET /health HTTP/1.1\r\nHost: a\r\n\r\nGET /metrics HTTP/1.1\r\nHost: a\r\n\r\n', 200),
    ):
        answer = room.raw(head)
        is_answered(answer, status)
        check(answer.count(b'HTTP/1.1') == 1 and b'\r\nConnection: close\r\n' in answer, f'{head[:100]!r} is answered {answer!r}')
        check((b'\r\nAllow: GET\r\n' in answer) == (status == 405), f'{head[:100]!r} is answered {answer!r}')


def long_heads(room):
    """A head of 1 MB is refused, also if it is all sent before the answer is read; one that comes byte by byte is answered if it is there in time."""
    room.serve(CAM)
    is_answered(room.raw(b'GET /metrics HTTP/1.1\r\nHost: a\r\nX: ', b'x' * (1 << 20), b'\r\n\r\n'), 431)
    is_answered(room.raw(b'GET /' + b'x' * (1 << 20)), 431)
    head = request('/health')
    is_answered(room.raw(*(head[at:at + 1] for at in range(len(head)))), 200)
    is_answered(room.raw(request('/health/cam', 'X: ' + 'y' * 8000)), 503)


def slow_peers(room):
    """Peers that send a byte a second, or nothing, or don't read, are closed after 5 seconds, and no earlier while there is place."""
    room.serve(CAM)
    began = time.monotonic()
    with connected(room.port) as slow, connected(room.port) as mute:
        for byte in request('/metrics')[:4]:
            slow.sendall(bytes([byte]))
            room.pause(1)
        has_nothing_more(mute)
        for each in slow, mute:
            try:
                check(each.recv(1) == b'', 'something comes')
            except ConnectionResetError:
                pass
        took = time.monotonic() - began
    check(LIMIT - 0.1 <= took <= LIMIT + 1, f'they are closed after {took} s')


def a_crowd_takes_few_places(room):
    """Silent connections take no more than 64 places, disturb no player, and keep nobody out."""
    room.serve(LONG)
    files = room.open_files()
    with Crowd(room.port, 200), room.connect() as player, room.publisher() as publisher:
        room.pause(0.3)
        check(room.open_files() <= files + MOST + 2, f'{room.open_files()} files are open')

        def seconds_of(number):
            player.sendall(request(target_of(number)))
            room.comes(waits, room)
            began = time.monotonic()
            publisher.publish(part_of(number), f'ok {number + 1}')
            is_answered(player.recv(1 << 16), 200)
            return time.monotonic() - began

        in_time(0.05, seconds_of)
        room.answers_with('/health', 200, 'ok')
    room.comes(lambda: check(room.open_files() <= files + 1, 'files stay open'), seconds=LIMIT + 2)


def waits(room):
    """Tests that a request waits."""
    check(room.numbers()[of('llhls_requests_held', 'cam')] == 1, 'no request waits')


def many_come(room):
    """While 10,000 connections come one after another, a scraper is answered, and the server stays small."""
    room.serve(CAM)
    for number in range(10_000):
        socket.create_connection(('127.0.0.1', room.port), timeout=SECONDS).close()
        if number % 1000 == 999:
            check(room.open_files() < 100, f'{room.open_files()} files are open')
            room.answers_with('/health', 200, 'ok')
    room.is_served()


def without_files(room):
    """If files run out, the thread waits, and the port serves again once there are some."""
    room.serve(CAM, files=40)
    with Crowd(room.port, 60):
        room.pause(0.5)
        before = cpu(room)
        room.pause(1)
        used = cpu(room) - before
        check(used < 0.3, f'the server uses {used} s of a second')
    room.comes(room.answers_with, '/health', 200, 'ok')


def cpu(room):
    """Returns the processor time that the server has used, in seconds."""
    fields = open(f'/proc/{room.server.process.pid}/stat').read().rpartition(') ')[2].split()
    return (int(fields[11]) + int(fields[12])) / 100


def hostile_names(room):
    """What strangers send is never a label."""
    room.serve(CAM)
    with room.publisher() as publisher:
        for line in 'evil"} part hi 1 -', 'cam part evil"}{ 1 -', 'cam evil\\n', 'cam range hi ID="evil"', 'x' * 4097:
            publisher.send(line.encode() + b'\n')
            check(publisher.stream.readline()[:3] in (b'no ', b'ok '), f'{line[:40]!r} has no answer')
    for target in '/evil%22%7D/hi/live.m3u8', '/cam/evil/live.m3u8', '/cam/hi/evil.m4s':
        room.ask(target)
    for path in '/evil', '/health/evil', '/metrics?evil=1':
        room.get(path)
    status, _, text = room.get('/metrics')
    check(status == 200 and 'evil' not in text, 'a name of a stranger is there')
    parsed(text)


def no_port(room):
    """A status port that is taken: the server ends with status 4 before it serves any port."""
    with socket.create_server(('127.0.0.1', 0)) as taken:
        settings = room.folder / 'bad'
        settings.write_text(f'listen 127.0.0.1:0\npublish 127.0.0.1:0\nworkers 4\nstatus 127.0.0.1:{taken.getsockname()[1]}\n{CAM}\n')
        run = room.run([room.program, 'serve', settings])
    check((run.status, run.said) == (4, 'llhls: Listen\n'), f'the server ends with {run.status} and says {run.stderr!r}')


def main(path, *names):
    tests = (counts_what_came, counts_who_waits, grows_alone, follows_the_parts, goes_on_after_a_start, refuses_the_rest, long_heads, slow_peers, a_crowd_takes_few_places, many_come,
             without_files, hostile_names, no_port)
    return try_named(StatusRoom, path, names, [(test,) for test in tests])


if __name__ == '__main__':
    sys.exit(main(*sys.argv[1:]))
