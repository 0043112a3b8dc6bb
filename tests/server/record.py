#!/usr/bin/env python3
"""record.py PROGRAM [TEST..]: tests `llhls serve` with a line `record` in its settings, with real sockets on loopback, all or those of these names. Two channels are published, asked and
waited for at once; then `llhls check` has to find their records right, and each has the items that were published. The server is started again with the same files, each of which has a
chain more then, and `check` has to find a byte that is changed at any of a thousand places, if the byte means anything. Then come files that can't be opened or written, and a disk that
stands still. The last line is `N passed, M failed`."""
import concurrent.futures
import http.client
import os
import pathlib
import random
import re
import select
import signal
import sys
import time

sys.path.insert(0, str(pathlib.Path(__file__).resolve().parents[1] / 'lib'))
from rooms import check, ended, try_named
from serve_room import CAM, PART, ServeRoom

PARTS = 300     # at least, on each channel
SEGMENT = 4     # parts
PACE = 0.05     # seconds between two parts while players ask: long enough that what they ask for is mostly still to come
PLAYERS = 200
REQUESTS = 10   # of each player
PLACES = 1000   # at which a byte is changed
SECONDS = 30    # for any answer
HANDED_OUT = 20     # seconds: records are handed out every 10
CHECKED = 240   # seconds, for a record of more than 100 MB on a busy machine
STALLED = 13    # seconds: the same, with less to spare
AT_ONCE = 0.1   # seconds, for 99 of 100 answers
AT_MOST = 1     # seconds, for the others: a busy machine may stop any thread for a while


class Channel:
    """What is published on a channel: how many parts, their lines, and how long its publisher and players waited for each answer."""

    def __init__(self, name):
        self.name, self.parts, self.lines, self.waits = name, 0, [], []


# ---- records


def serve(room, path, *names, **words):
    """Starts a server with records at `path` and channels of these names."""
    return room.serve(f'record {path}', *(CAM.replace(' cam ', f' {name} ') for name in names), workers=256, **words)


def items(record):
    """Returns the item lines of a record, without the number of bytes that a part's line ends with."""
    return [re.sub('^(part .*) [0-9]*$', r'\1', line) for line in re.findall('^P (.*)$', record.read_text(), re.M)]


def has_items(record, count):
    """Tests that a record has at least `count` items."""
    there = record.read_bytes().count(b'\nP ')
    check(there >= count, f'{record.name} has {there} items, and {count} are wanted')


def comes_to(room, record, count):
    """Waits until a record has `count` items."""
    room.comes(has_items, record, count, seconds=HANDED_OUT)


def checked(room, record):
    """Returns the status, standard output and standard error of `check` for a record."""
    run = ended(room.start([room.program, 'check', record]), seconds=CHECKED)
    return run.status, run.stdout.decode(), run.said


def is_right(room, record):
    """Tests that `check` finds as many entries in a record as it has."""
    count = len(re.findall(rb'^[PAMCGX] ', record.read_bytes(), re.M))
    found = checked(room, record)
    check(found == (0, f'ok {count}\n', ''), f'{record.name}, which has {count} entries: {found}')


def says(room, **counts):
    """Tests how many lines the server has written that name the record of each channel."""
    for name, wanted in counts.items():
        count = len(re.findall(f'^llhls: record: {name}: .', room.log(), re.M))
        check(count == wanted, f'{count} lines name the record of {name}, and {wanted} are wanted')


# ---- a crowd


def part(number):
    """Returns the item line of a channel's part of this number, from 0."""
    kind = {0: 'i', SEGMENT - 1: 'f'}.get(number % SEGMENT, '-')
    return f'part hi 1000000 {kind}'


def publish(room, channel, asking):
    """Publishes until there are enough parts and nobody asks any more."""
    with room.publisher() as publisher:
        while (is_asked := not all(each.done() for each in asking)) or channel.parts < PARTS:
            line = part(channel.parts)
            began = time.monotonic()
            publisher.publish(f'{channel.name} {line}', f'ok {channel.parts + 1}')
            channel.waits.append(time.monotonic() - began)
            channel.parts += 1
            channel.lines.append(line)
            if is_asked:
                room.pause(PACE)


def wanted(channel, draw):
    """Returns a target, and the status of its answer."""
    at = f'/{channel.name}/hi/live.m3u8'
    segment = channel.parts // SEGMENT
    return draw.choice([
        (at, 200),
        (f'{at}?_HLS_skip=YES', 200),
        (f'{at}?_HLS_msn={segment}&_HLS_part=1', 200),
        (f'{at}?_HLS_msn={segment + 1}', 200),
        (f'{at}?_HLS_msn={segment + 1}&_HLS_part=0&_HLS_skip=YES', 200),
        (f'{at}?_HLS_msn={segment + 1000}', 400),
        (f'/{channel.name}/lo/live.m3u8', 200),
    ])


def ask(port, channels, seed):
    """Asks again and again on one connection; some hang up while they wait."""
    draw = random.Random(seed)
    link = http.client.HTTPConnection('127.0.0.1', port, timeout=SECONDS)
    for _ in range(REQUESTS):
        target, status = wanted(draw.choice(channels), draw)
        link.request('GET', target)
        answer = link.getresponse()
        body = answer.read()
        check(answer.status == status, f'{target} is answered {answer.status}: {body[:80]!r}')
    channel = channels[seed % len(channels)]
    link.request('GET', f'/{channel.name}/hi/live.m3u8?_HLS_msn={channel.parts // SEGMENT + 1}')
    if seed % 4:
        link.getresponse().read()
    link.close()


def side_by_side(room, channels, asks):
    """Publishes on each channel, while each call of `asks`, a function with its words, asks."""
    with concurrent.futures.ThreadPoolExecutor(len(channels) + len(asks)) as pool:
        asking = [pool.submit(*each) for each in asks]
        publishing = [pool.submit(publish, room, channel, asking) for channel in channels]
    for each in asking + publishing:
        each.result()


def has_all(room, record, channel):
    """Tests that the record of a channel is right, and has the items that were published, in order, and requests of each kind."""
    is_right(room, record)
    check(items(record) == channel.lines, f'{record.name} has other items than were published')
    text = record.read_text()
    for kind, least in ('^A ', 800), ('^A .* held$', 100), ('^G .* text ', 100):
        count = len(re.findall(kind, text, re.M))
        check(count >= least, f'{record.name} has {count} entries {kind}, and {least} are wanted')


def changed(room, record, text, at, byte):
    """Returns what `check` says of a record with another byte at a place."""
    path = record.with_name(f'changed.{at}')
    path.write_bytes(text[:at] + bytes([byte]) + text[at + 1:])
    said = checked(room, path)
    path.unlink()
    return said


def is_found(said):
    """Returns whether `check` has found that a record isn't right."""
    status, line, errors = said
    return status == 3 and errors == '' and re.fullmatch(r'bad [1-9][0-9]* (BadChunk|Gap|OtherChannel|Refused|WrongReply)\n', line)


def has_no_other_byte(room, record):
    """Changes one byte of a record at many places. Each change is found, or changes nothing that the record means, as at most half of them do."""
    text, right, draw = record.read_bytes(), checked(room, record), random.Random(1)
    places = [(at, draw.choice([byte for byte in b'0179 -",\r\n\xffxyPAGC#' if byte != text[at]])) for at in draw.sample(range(len(text)), PLACES)]
    with concurrent.futures.ThreadPoolExecutor(2) as pool:
        said = list(pool.map(lambda place: changed(room, record, text, *place), places))
    wrong = [f'byte {at} changed to {byte}: {each}' for (at, byte), each in zip(places, said) if each != right and not is_found(each)]
    check(not wrong, '\n'.join([f'{len(wrong)} changes of {PLACES} in {len(text)} bytes are not found', *wrong[:10]]))
    count = sum(each != right for each in said)
    check(2 * count >= PLACES, f'only {count} changes of {PLACES} are found')


def publishes_and_asks(room):
    """A crowd asks and waits on two channels. The server is started again with the same files: each has a chain more then, which begins with nothing."""
    channels = [Channel('cam'), Channel('two')]
    records = {channel: room.folder / f'kept.{channel.name}' for channel in channels}
    serve(room, room.folder / 'kept', 'cam', 'two')
    side_by_side(room, channels, [(ask, room.server.port, channels, seed) for seed in range(PLAYERS)])
    for channel, record in records.items():
        comes_to(room, record, channel.parts)
    says(room, cam=0, two=0)
    room.stop_server(signal.SIGTERM)
    for channel, record in records.items():
        has_all(room, record, channel)
    serve(room, room.folder / 'kept', 'cam', 'two')
    for channel in channels:
        room.publish(f'{channel.name} part hi 1000000 -', 'ok 1')
    for channel, record in records.items():
        comes_to(room, record, channel.parts + 1)
        is_right(room, record)
        check(record.read_text().count('\nat 0\n') == 2, f'{record.name} has no second chain')
    room.stop_server(signal.SIGTERM)
    has_no_other_byte(room, records[channels[0]])


# ---- files


def files_that_fail(room):
    """The record of `open` isn't there and can't be made, that of `full` can't be written, and that of `kept` is right. All three channels are served. Each fault is reported once, also if
    a later chunk would meet it again."""
    (room.folder / 'bad.open').symlink_to('none/there')
    (room.folder / 'bad.full').symlink_to('/dev/full')
    record = room.folder / 'bad.kept'
    serve(room, room.folder / 'bad', 'open', 'full', 'kept')
    says(room, open=1, full=0, kept=0)
    for number in 1, 2:
        for name in 'open', 'full', 'kept':
            room.publish(f'{name} part hi 1000000 -', f'ok {number}')
            room.is_served(name)
        comes_to(room, record, number)
        room.pause(1)
        says(room, open=1, full=1)
    says(room, kept=0)
    is_right(room, record)


def no_folder(room):
    """The folder of the records isn't there: the server says so of each channel, and serves them."""
    serve(room, room.folder / 'none' / 'kept', 'cam', 'two')
    says(room, cam=1, two=1)
    room.publish(PART, 'ok 1')
    room.is_served()


def has_lengths(room):
    """The record has the number of bytes of each item."""
    record = room.folder / 'lengths.cam'
    serve(room, room.folder / 'lengths', 'cam')
    room.publish('cam init hi', 'ok 1', b'hello')
    room.publish(PART, 'ok 2', b'abc')
    room.publish(PART, 'ok 3')
    comes_to(room, record, 3)
    is_right(room, record)
    lines = re.findall('^P .*$', record.read_text(), re.M)
    check(lines == ['P init hi 5', 'P part hi 1000000 - 3', 'P part hi 1000000 - 0'], f'the record has {lines}')


# ---- a disk that stands still


def full_pipe(path):
    """Makes a pipe at `path` that is full, and returns it and how many bytes are in it. Nobody reads it yet: to a server it is as a disk that stands still."""
    os.mkfifo(path)
    pipe, count = os.open(path, os.O_RDWR | os.O_NONBLOCK), 0
    try:
        while True:
            count += os.write(pipe, bytes(4096))
    except BlockingIOError:
        return pipe, count


def drained(pipe, count, record, is_all):
    """Writes what comes from a pipe after its first `count` bytes to the file `record`, until that `is_all`, or nothing came although records were handed out. Closes the pipe."""
    while count > 0:
        count -= len(os.read(pipe, count))
    came = bytearray()
    while not is_all(came) and select.select([pipe], [], [], STALLED)[0]:
        came += os.read(pipe, 1 << 20)
    os.close(pipe)
    record.write_bytes(came)


def ask_on(port, channel):
    """Asks for a channel's playlist again and again, until a record was to be handed out."""
    link = http.client.HTTPConnection('127.0.0.1', port, timeout=SECONDS)
    end = time.monotonic() + STALLED
    while time.monotonic() < end:
        began = time.monotonic()
        link.request('GET', f'/{channel.name}/hi/live.m3u8')
        link.getresponse().read()
        channel.waits.append(time.monotonic() - began)
        time.sleep(0.01)
    link.close()


def disk_that_stalls(room):
    """The record of `cam` goes to a pipe that is full. Publishers and players of `cam` are answered at once meanwhile, and its record is whole in the end."""
    channel, record = Channel('cam'), room.folder / 'drained.cam'
    pipe, count = full_pipe(room.folder / 'stalled.cam')
    serve(room, room.folder / 'stalled', 'cam')
    side_by_side(room, [channel], [(ask_on, room.server.port, channel)] * 4)
    slow, longest = sum(wait > AT_ONCE for wait in channel.waits), max(channel.waits)
    check(slow * 100 <= len(channel.waits) and longest <= AT_MOST, f'{slow} of {len(channel.waits)} answers took longer than {AT_ONCE} s, the slowest {longest} s')
    drained(pipe, count, record, lambda came: came.endswith(b'\n#END\n') and came.count(b'\nP ') == channel.parts)
    says(room, cam=0)
    is_right(room, record)
    check(items(record) == channel.lines, 'the record has other items than were published')


def disk_that_stalls_too_long(room):
    """The same, but large date ranges are published, and taken away again, until the record of `cam` ends, which is said once. What came before that is written in the end, and nothing
    after it; `cam` is served all the while."""
    record = room.folder / 'drained.cam'
    pipe, count = full_pipe(room.folder / 'flooded.cam')
    serve(room, room.folder / 'flooded', 'cam')
    attributes = f'START-DATE="2026-09-21T14:14:20.000Z",X-A="{"x" * 3900}"'
    with room.publisher() as publisher:
        number = 0
        while 'llhls: record: cam: ' not in room.log():
            lines = [f'cam range hi ID="{each}",{attributes}\ncam unrange hi {each}\n' for each in range(number, number + 500)]
            publisher.send(''.join(lines).encode())
            publisher.answers(*(f'ok {2 * number + each}' for each in range(1, 2 * len(lines) + 1)))
            number += len(lines)
    drained(pipe, count, record, lambda came: False)
    says(room, cam=1)
    room.is_served()
    is_right(room, record)
    size = record.stat().st_size
    check(size >= 130_000_000, f'the record ended after {size} bytes')


# The last test looks at how long answers take, and so has the machine for itself.
TESTS = (publishes_and_asks, disk_that_stalls_too_long, files_that_fail, has_lengths, no_folder, disk_that_stalls)


def main(path, *names):
    return try_named(ServeRoom, path, names, [(test,) for test in TESTS], longest=TESTS[:2], alone=[disk_that_stalls])


if __name__ == '__main__':
    sys.exit(main(*sys.argv[1:]))
