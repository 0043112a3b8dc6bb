#!/usr/bin/env python3
"""log.py PROGRAM [TEST..]: tests `llhls serve` with a line `log` in its settings, with real sockets on loopback, all tests or those of these names: after a minute the file has a line for
each channel, which counts exactly what came; and it has lines of what becomes of publishers' connections, by IPv4, by IPv6 if the machine has it, and by a socket file, no more than ten a
second, nothing that was sent, and nobody waits for its disk. This takes a little more than that minute. Then comes a file that can't be opened. The last line is `N passed, M failed`."""
import collections
import contextlib
import hashlib
import os
import pathlib
import re
import socket
import struct
import subprocess
import sys
import time

sys.path.insert(0, str(pathlib.Path(__file__).resolve().parents[1] / 'lib'))
from door_server import ANY, ANY6, Doors, has_ipv6
from rooms import check, try_named
from serve_room import CAM, NEXT, PART, PRESENT, SECONDS, Publisher, ServeRoom, request

TWO = 'channel two target=60 part=60000000 skip=360 window=540 renditions=hi first=0 start=0'
SHORT = 'channel cam target=1 part=1000000 skip=6 window=9 renditions=hi first=0 start=0'
MINUTE = 80     # seconds, with some to spare
NUMBERS = {
    'cam': 'held=0 playlists=3 updates=0 media=1 NotFound=1 TooFar=1 Busy=0 Timeout=0 RecordFull=0 Memory=0 items=1 full-records=0 no-TooLong=1 no-OpenSegment=1',
    'two': 'held=2 playlists=0 updates=0 media=0 NotFound=0 TooFar=0 Busy=0 Timeout=0 RecordFull=0 Memory=0 items=0 full-records=0',
}
TIME = r'([0-9]{4}-[0-9]{2}-[0-9]{2}T[0-9:]{8})\.[0-9]{3}Z'
NOTE = re.compile(f'{TIME} publisher: (.*)')
# All that a line of a publisher can say.
SAYS = re.compile(r'- - left-out lines=[1-9][0-9]*|[1-9][0-9]* (unix|-|[0-9.]+:[0-9]+|\[[0-9a-f:]+\]:[0-9]+) '
                  r'(connected|let-in channel=[a-z0-9_-]+|refused channel=[a-z0-9_-]+ reason=[A-Za-z]+|ended channel=[a-z0-9_-]+ items=[0-9]+ bytes=[0-9]+ reason=[A-Z][a-z]+)')
SECRET = 'a!~"0123456789'
EACH = 10       # lines a second
MANY = 100      # connections at once


def has_numbers(path):
    """Tests that a file has a line of numbers."""
    check(path.exists() and ' held=' in path.read_text(), f'{path.name} has no numbers')


def counts_what_came(room):
    """Two requests wait for longer than a minute, one is answered by a part, and others are answered or refused at once."""
    numbers = room.folder / 'numbers'
    room.serve(f'log {numbers}', CAM, TWO, workers=16)
    with room.connect() as first, room.connect() as second, room.connect() as held:
        for player in first, second:
            player.sendall(request('/two/hi/live.m3u8?_HLS_msn=0'))
        held.sendall(request(NEXT))
        room.pause(0.2)
        room.publish(PART, 'ok 1')
        room.publish('cam part hi 1000001 -', 'no 4 TooLong')
        room.publish('cam break hi', 'no 5 OpenSegment')
        room.publish('nobody part hi 1 f', 'no 14 UnknownChannel')
        for target in PRESENT, PRESENT.replace('hi', 'lo'), '/cam/hi/s0.0.m4s', '/cam/hi/s9.m4s', f'{PRESENT}?_HLS_msn=9', '/nobody/hi/live.m3u8':
            room.ask(target)
        room.comes(has_numbers, numbers, seconds=MINUTE)
    lines = numbers.read_text().splitlines()
    for name, counts in NUMBERS.items():
        found = [line for line in lines if re.fullmatch(f'{TIME} ' + re.escape(f'{name} {counts}'), line)]
        check(found, '\n'.join([f"no line has {name} {counts}:", *lines]))


# ---- publishers


def digest_line(word):
    """Returns the line of settings that gives the channel before it the secret `word`."""
    return f'secret {hashlib.sha256(word.encode()).hexdigest()}'


def notes(text):
    """Returns what the lines of publishers in a log say, each with its time to the second. No line is of another form."""
    found = [line for each in text.splitlines() if (line := NOTE.fullmatch(each))]
    for line in found:
        check(SAYS.fullmatch(line[2]), f'a line says {line[2]!r}')
    return [(line[1], line[2]) for line in found]


def has_notes(path, *wanted):
    """Tests that the lines of publishers say this, in this order."""
    said = [line for _, line in notes(path.read_text())]
    check(said == list(wanted), '\n'.join(['the log says', *said, 'and what is wanted is', *wanted]))


def left_out_in(said):
    """Returns how many lines these say were left out."""
    return sum(int(line.rpartition('=')[2]) for _, line in said if ' left-out ' in line)


def is_whole(text, count):
    """Tests that a log has `count` lines of publishers, with those that it says were left out, and no more than ten of a second."""
    said = notes(text)
    came = sum(' left-out ' not in line for _, line in said) + left_out_in(said)
    check(came == count, f'it has or left out {came} lines, and {count} are wanted')
    seconds = collections.Counter(second for second, _ in said)
    check(max(seconds.values()) <= EACH, f'a second has {max(seconds.values())} lines')


def is_whole_file(path, count):
    """Tests the same of a file."""
    is_whole(path.read_text(), count)


def name_of(publisher):
    """Returns the address of a publisher's connection by IPv4."""
    return '%s:%d' % publisher.connection.getsockname()


def one_by_ipv4(room):
    """A publisher is refused twice, let in, and refused again, and ends its connection. What it sent isn't in the log."""
    log = room.folder / 'log'
    room.serve(f'log {log}', CAM, TWO)
    with room.publisher() as publisher:
        first = f'1 {name_of(publisher)}'
        room.comes(has_notes, log, f'{first} connected')
        publisher.publish('stranger part hi 1 f', 'no 14 UnknownChannel')
        publisher.publish('cam part hi 1000001 -', 'no 4 TooLong')
        publisher.publish('two part hi 1000000 f', 'ok 1', b'bytes')
        publisher.publish('cam part hi 1000000 -', 'ok 1', bytes(1000))
        publisher.publish('cam break hi', 'no 5 OpenSegment')
    wanted = [f'{first} connected', f'{first} refused channel=- reason=UnknownChannel', f'{first} let-in channel=two', f'{first} ended channel=two items=2 bytes=1005 reason=Closed']
    room.comes(has_notes, log, *wanted)
    with room.publisher() as publisher:
        second = f'2 {name_of(publisher)}'
        publisher.publish('cam break hi', 'no 5 OpenSegment')
        publisher.publish('nonsense', 'no 13 BadLine')
    room.comes(has_notes, log, *wanted, f'{second} connected', f'{second} refused channel=cam reason=OpenSegment', f'{second} ended channel=- items=0 bytes=0 reason=Closed')
    check('stranger' not in log.read_text(), 'the log has what was sent')


def one_with_a_secret(room):
    """A publisher gives a wrong secret, and then the right one, which lets it in. The log has neither."""
    log = room.folder / 'log'
    room.serve(f'log {log}', CAM, digest_line(SECRET), TWO)
    with room.publisher() as publisher:
        first = f'1 {name_of(publisher)}'
        publisher.publish('cam secret wrong', 'no 19 NotAllowed')
        publisher.publish(f'cam secret {SECRET}', 'ok 0')
        publisher.publish(f'cam secret {SECRET}', 'ok 0')
        publisher.publish(PART, 'ok 1')
        publisher.publish('cam part nobody 1 -', 'no 1 NoRendition')
    room.comes(has_notes, log, f'{first} connected', f'{first} refused channel=cam reason=NotAllowed', f'{first} let-in channel=cam', f'{first} ended channel=cam items=1 bytes=0 reason=Closed')
    text = log.read_text()
    check(SECRET not in text and 'wrong' not in text, 'the log has a secret')


class FilePublisher(Publisher):
    """A publisher's connection by the socket file `path`."""

    def __init__(self, path):
        self.connection = socket.socket(socket.AF_UNIX)
        self.connection.settimeout(SECONDS)
        self.connection.connect(path)
        self.stream = self.connection.makefile('rb')


def two_by_a_file(room):
    """Of publishers by a socket file the log says `unix`; their numbers tell them apart."""
    log, path = room.folder / 'log', room.folder / 'door'
    Doors(room, ANY, f'unix:{path}', f'log {log}')
    with FilePublisher(str(path)) as first:
        first.publish(PART, 'ok 1')
        with FilePublisher(str(path)) as second:
            second.publish(PART, 'ok 2')
        wanted = ['1 unix connected', '1 unix let-in channel=cam', '2 unix connected', '2 unix let-in channel=cam', '2 unix ended channel=cam items=1 bytes=0 reason=Closed']
        room.comes(has_notes, log, *wanted)
    room.comes(has_notes, log, *wanted, '1 unix ended channel=cam items=1 bytes=0 reason=Closed')


def one_by_ipv6(room):
    """An IPv6 address stands in brackets."""
    log = room.folder / 'log'
    doors = Doors(room, ANY6, ANY6, f'log {log}')
    with socket.create_connection(('::1', int(doors.publishers.rpartition(':')[2])), timeout=SECONDS) as publisher:
        first = f'1 [::1]:{publisher.getsockname()[1]}'
        room.comes(has_notes, log, f'{first} connected')
    room.comes(has_notes, log, f'{first} connected', f'{first} ended channel=- items=0 bytes=0 reason=Closed')


def ends_amid_a_line(room):
    """A publisher is killed amid a line, one resets its connection, and one is silent for too long."""
    log = room.folder / 'log'
    room.serve(f'log {log}', 'idle 1', CAM)
    port = room.server.publish_port
    half = f"import socket; link = socket.create_connection(('127.0.0.1', {port})); link.sendall(b'cam part hi 1000'); print(link.getsockname()[1], flush=True); input()"
    killed = subprocess.Popen([sys.executable, '-c', half], stdin=subprocess.PIPE, stdout=subprocess.PIPE)
    try:
        first = f'1 127.0.0.1:{int(killed.stdout.readline())}'
    finally:
        killed.kill()
        killed.communicate()
    wanted = [f'{first} connected', f'{first} ended channel=- items=0 bytes=0 reason=Closed']
    room.comes(has_notes, log, *wanted)
    reset = room.publisher()
    second = f'2 {name_of(reset)}'
    reset.publish(PART, 'ok 1', b'bytes')
    reset.connection.setsockopt(socket.SOL_SOCKET, socket.SO_LINGER, struct.pack('ii', 1, 0))
    reset.close()
    wanted += [f'{second} connected', f'{second} let-in channel=cam', f'{second} ended channel=cam items=1 bytes=5 reason=Read']
    room.comes(has_notes, log, *wanted)
    with room.publisher() as silent:
        third = f'3 {name_of(silent)}'
        room.comes(has_notes, log, *wanted, f'{third} connected', f'{third} ended channel=- items=0 bytes=0 reason=Read')


def many_in_a_second(room):
    """Of a hundred publishers that come and go at once the log has ten lines a second, and says how many were left out; so it does if they go on to come."""
    log = room.folder / 'log'
    room.serve(f'log {log}', CAM, workers=16)
    start = time.monotonic()
    for _ in range(MANY):
        room.publisher().close()
    room.comes(is_whole_file, log, 2 * MANY)
    seconds = int(time.monotonic() - start) + 2
    check(left_out_in(notes(log.read_text())) >= 2 * MANY - seconds * EACH, 'it has left out too few')
    count = MANY
    while time.monotonic() < start + 5:
        room.publisher().close()
        count += 1
        room.pause(0.01)
        if time.monotonic() > start + 4 and count % 20 == 0:
            seconds = {second for second, line in notes(log.read_text()) if ' left-out ' in line}
            check(len(seconds) >= 2, 'it has not said in each second how many were left out')
    room.comes(is_whole_file, log, 2 * count)


@contextlib.contextmanager
def full_pipe(path):
    """Makes a pipe with a name, which takes nothing more. Yields a descriptor by which it can be read."""
    os.mkfifo(path)
    pipe = os.open(path, os.O_RDWR | os.O_NONBLOCK)
    try:
        with contextlib.suppress(BlockingIOError):
            while True:
                os.write(pipe, b'\n' * 4096)
        with contextlib.suppress(BlockingIOError):
            while True:
                os.write(pipe, b'\n')
        yield pipe
    finally:
        os.close(pipe)


def read_all(pipe, text):
    """Adds what is in the pipe to the list `text` of pieces, and returns all of them."""
    with contextlib.suppress(BlockingIOError):
        while piece := os.read(pipe, 1 << 16):
            text.append(piece)
    return b''.join(text).decode()


def disk_that_stands_still(room):
    """A log that takes nothing keeps no publisher waiting, and no channel's time: a request is answered once it has waited for three target durations. Once the log is read, it goes on."""
    path, text = room.folder / 'pipe', []
    with full_pipe(path) as pipe:
        room.serve(f'log {path}', SHORT, workers=16)
        for number in range(1, 31):
            room.publish('cam part hi 1000000 f', f'ok {number}')
            room.pause(0.02)
        for _ in range(2):
            start = time.monotonic()
            answer = room.ask('/cam/hi/live.m3u8?_HLS_msn=30')
            took = time.monotonic() - start
            check(b'Timeout' in answer and 2.5 < took < 6, f'a player is answered {answer[:100]!r} after {took:.1f} s')
        with room.publisher() as publisher:
            publisher.publish('cam part hi 1000000 f', 'ok 31')
        room.comes(lambda: is_whole(read_all(pipe, text), 93))


def no_file(room):
    """A file of numbers that is a folder: the server says so, and publishers are served."""
    room.serve(f'log {room.folder}', CAM, workers=16)
    check(re.search('^llhls: log: .', room.log(), re.M), f'the server says {room.log()!r}')
    room.publish(PART, 'ok 1')


TESTS = [(counts_what_came,), (one_by_ipv4,), (one_with_a_secret,), (two_by_a_file,), (ends_amid_a_line,), (many_in_a_second,), (disk_that_stands_still,), (no_file,)]


def main(path, *names):
    tests = TESTS + [(one_by_ipv6,)] * has_ipv6()
    skips = [] if has_ipv6() else [(one_by_ipv6, 'no IPv6')]
    return try_named(ServeRoom, path, names, tests, longest=(counts_what_came,), alone=(many_in_a_second,), skips=skips)


if __name__ == '__main__':
    sys.exit(main(*sys.argv[1:]))
