"""Tests of players of `llhls serve` that ask for large media, or for much at once: slow ones, ones that hang up, and others beside them."""
import concurrent.futures
import contextlib
import random
import selectors
import time

from rooms import check
from serve_room import CAM, PRESENT, SECONDS, in_time, request, say, slow_connected, take, with_workers

MOST = 1 << 20  # bytes of a part


def published(room, *items):
    """Publishes items, each with as many random bytes as its number says. Returns these bytes."""
    media = [random.Random(number).randbytes(length) for number, (_, length) in enumerate(items)]
    with room.publisher() as publisher:
        for number, (line, _) in enumerate(items):
            publisher.publish(f'cam {line}', f'ok {number + 1}', media[number])
    return media


def segment(room):
    """Publishes a segment of 1 MB, of four parts. Returns its bytes."""
    return b''.join(published(room, *((f'part hi 1000000 {flag}', MOST // 4) for flag in 'i--f')))


class Player:
    """A player that asks for one file with the expected bytes, and keeps its connection."""

    def __init__(self, room, file, body):
        head = f'HTTP/1.1 200 OK\r\nContent-Type: video/mp4\r\nContent-Length: {len(body)}\r\nCache-Control: max-age=60\r\nConnection: keep-alive\r\n\r\n'
        self.file, self.came, self.head, self.body = file, 0, head.encode(), body
        self.connection = slow_connected(room.server.port)
        self.connection.sendall(request(f'/cam/hi/{file}'))

    def __enter__(self):
        return self

    def __exit__(self, *_):
        self.connection.close()

    def take(self, most=1 << 18):
        """Reads some bytes. Returns whether these were the last."""
        left = len(self.head) - self.came
        wanted = self.head[self.came:] if left > 0 else self.body[-left:-left + most]
        came = self.connection.recv(min(most, len(wanted)))
        check(came and wanted.startswith(came), f'{self.file}: after {self.came} bytes comes {came[:100]!r}, and {wanted[:100]!r} is wanted')
        self.came += len(came)
        return self.came == len(self.head) + len(self.body)

    def whole(self, most=1 << 18, pause=0):
        """Reads the answer to its end, at most `most` bytes at a time, and pauses `pause` seconds after each read."""
        while not self.take(most):
            time.sleep(pause)


def get(room, file, body):
    """A player gets a file with these bytes."""
    with Player(room, file, body) as player:
        player.whole()


@contextlib.contextmanager
def thousand(room, body):
    """Has a thousand players ask for a segment."""
    with contextlib.ExitStack() as stack:
        yield [stack.enter_context(Player(room, 's0.m4s', body)) for _ in range(1000)]


# ---- large media. Players that get the same bytes share them: a copy for each of a thousand would be 1 GB.


def largest(room, workers):
    """Players get the largest section and the largest parts, and a segment of three of these."""
    room.serve(CAM, workers=workers)
    section, *parts = published(room, ('init hi', MOST), *((f'part hi 1000000 {flag}', MOST) for flag in 'i-f'))
    for file, body in ('init0.mp4', section), *((f's0.{index}.m4s', part) for index, part in enumerate(parts)), ('s0.m4s', b''.join(parts)):
        get(room, file, body)
    room.held_less_than(40000)
    room.is_served()


def slow_readers(room, workers):
    """A thousand players ask for a segment, and read nothing for a second; then all read."""
    room.serve(CAM, workers=workers)
    body = segment(room)
    with thousand(room, body) as players, selectors.DefaultSelector() as waits:
        room.pause(1)
        for player in players:
            waits.register(player.connection, selectors.EVENT_READ, player)
        while waits.get_map():
            ready = waits.select(SECONDS)
            check(ready, f'nothing came for {SECONDS} s; {len(waits.get_map())} players wait')
            for key, _ in ready:
                if key.data.take():
                    waits.unregister(key.fileobj)
    room.held_less_than(40000)
    room.is_served()


def plain_beside_slow_readers(room, workers):
    """A thousand players ask for a segment and read nothing. Each of ten others has its playlist within 50 ms. Then one of the thousand reads slowly, and gets every byte."""
    room.serve(CAM, workers=workers)
    body = segment(room)
    present = room.ask(PRESENT).replace(b'Connection: close', b'Connection: keep-alive')

    def seconds_of(_):
        began = time.monotonic()
        with room.connect() as player:
            player.sendall(request(PRESENT))
            take(player, present)
        return time.monotonic() - began

    with thousand(room, body) as players:
        room.pause(1)
        for _ in range(10):
            in_time(0.05, seconds_of)
        players[500].whole(1 << 14, 0.02)
    room.held_less_than(40000)
    room.is_served()


def hang_ups(room, workers):
    """Twenty players hang up when they have read 10 kB of a segment, and others are served before the 30 seconds of a write that takes nothing."""
    room.serve(CAM, workers=workers)
    body = segment(room)
    began = time.monotonic()
    for _ in range(20):
        with Player(room, 's0.m4s', body) as player:
            while player.came < 10000:
                player.take(10000 - player.came)
    for _ in range(4):
        get(room, 's0.m4s', body)
    took = time.monotonic() - began
    check(took <= 10, f'it took {took:.0f} s')
    room.held_less_than(40000)
    room.is_served()


def little_by_little(room, workers, seconds=0.3):
    """A player takes 64 kB each `seconds` seconds, to the end."""
    room.serve(CAM, workers=workers)
    with Player(room, 's0.m4s', segment(room)) as player:
        player.whole(1 << 16, seconds)
    room.held_less_than(40000)
    room.is_served()


def takes_nothing_for_long(room, workers):
    """Ten players ask for a segment and take nothing of it: after 30 seconds the server has closed their connections. Others are served meanwhile."""
    room.serve(CAM, workers=workers)
    body = segment(room)
    before = room.open_files()
    with contextlib.ExitStack() as stack:
        for _ in range(10):
            stack.enter_context(Player(room, 's0.m4s', body))
        began = time.monotonic()
        room.is_served()
        while room.open_files() > before and time.monotonic() - began < 60:
            room.pause(0.1)
        took = time.monotonic() - began
    check(29 <= took <= 45, f'the connections are closed after {took:.1f} s')
    room.is_served()


def asks_amid_an_answer(room, workers):
    """Twenty players ask for a segment, read nothing, and then ask for the playlist: they get both, one after the other."""
    room.serve(CAM, workers=workers)
    body = segment(room)
    present = room.ask(PRESENT).replace(b'Connection: close', b'Connection: keep-alive')
    with contextlib.ExitStack() as stack:
        players = [stack.enter_context(Player(room, 's0.m4s', body)) for _ in range(20)]
        room.pause(0.5)
        for player in players:
            player.connection.sendall(request(PRESENT))
        room.pause(0.5)
        for player in players:
            player.whole()
            take(player.connection, present)


# ---- many requests on one connection


def reads_slowly(room, workers):
    """A player asks 20,000 times and reads nothing for a while: the others are served, and in the end it gets every byte."""
    room.serve(CAM, CAM.replace(' cam ', ' two '), workers=workers)
    once = room.answers(CAM, say(1, PRESENT))[1][0]
    with concurrent.futures.ThreadPoolExecutor() as pool, room.connect() as player:
        asking = pool.submit(player.sendall, request(PRESENT) * 20000)
        room.pause(0.5)
        room.is_served()
        room.publish('two part hi 1000000 -', 'ok 1')
        for _ in range(20):
            take(player, once * 1000)
            room.pause(0.02)
        asking.result()


def asks_often(room, workers):
    """A player asks 20,000 times, and reads what comes. Others are served meanwhile, one after another."""
    room.serve(CAM, workers=workers)
    once, served = room.answers(CAM, say(1, PRESENT))[1][0], 0
    with concurrent.futures.ThreadPoolExecutor() as pool, room.connect() as player:
        asking = pool.submit(player.sendall, request(PRESENT) * 20000)
        taking = pool.submit(take, player, once * 20000)
        while not taking.done():
            room.is_served()
            served += 1
        taking.result()
        asking.result()
    check(served >= 3, f'only {served} others are served meanwhile')


# ---- all of these

WITH_WORKERS = (
    (largest, 4),
    (slow_readers, 1100, 2),
    (plain_beside_slow_readers, 2),
    (hang_ups, 4, 1),
    (little_by_little, 4, 1),
    (asks_amid_an_answer, 4, 1),
    (reads_slowly, 4, 1),
    (asks_often, 2, 1),
)
# Those that take more than 30 seconds.
SLOW = (
    (takes_nothing_for_long, 2),
    (little_by_little, 2, 2.5),
)
# Those that are about time, or have a thousand players.
ALONE = (slow_readers, plain_beside_slow_readers)


def tests():
    """Yields each test with its words, but for slow ones."""
    yield from with_workers(WITH_WORKERS)
