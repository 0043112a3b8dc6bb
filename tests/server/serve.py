#!/usr/bin/env python3
"""serve.py PROGRAM [TEST..]: tests `llhls serve` with real sockets on loopback, all or those of these names. The same events go to it and, as a script, to `llhls replay`:
tests/follow.c demands the same bytes on each connection. Then come crowds, peers that are slow, silent, cut off or gone, large media, ports and files that aren't available, and each
fault of a settings file. SLOW=1 adds what takes more than the 30 seconds of a silent peer. The last line is `N passed, M failed`."""
import os
import pathlib
import random
import signal
import subprocess
import sys
import tempfile

sys.path.insert(0, str(pathlib.Path(__file__).resolve().parents[1] / 'lib'))
import serve_held
import serve_media
import serve_silent
from rooms import ROOT, check, open_many_files, try_named
from serve_room import CAM, NEXT, PART, PRESENT, Crowd, ServeRoom, has_nothing_more, request, say
from serve_rows import BAD_SETTINGS, WRONG_WORDS

# ---- against replay


def row(room, name, way):
    """Follows a row of tests/program/connections, in one piece or byte by byte."""
    lines = (ROOT / 'tests/program/connections' / name).read_text().splitlines()
    room.serve(*(line for line in lines if line.startswith('channel ')), workers=16)
    room.follow(lines, way)


def random_target(below, segments):
    """Returns the target of a plain request, one for what is next or a segment ahead, one for a delta update, or one that is refused."""
    channel = 'cam' if below(3) else 'two'
    path, kind = f'/{channel}/{"hi" if below(4) else "lo"}/live.m3u8', below(10)
    if kind < 3:
        return path
    if kind < 5:
        return f'{path}?_HLS_skip=YES'
    if kind < 8:
        number = (5 if channel == 'cam' else 0) + segments[channel] // 2 + below(3)
        return f'{path}?_HLS_msn={number}' + ('' if below(2) else f'&_HLS_part={below(2)}')
    return f'{path}?_HLS_msn={below(1000)}' if kind == 8 else f'{path}?_HLS_part=1'


def random_events(seed):
    """Yields the lines of a script for two channels, in an order that the seed decides: parts, finishes of open segments and without an open one, breaks, ends, requests of a dozen
    connections, and connections that hang up."""
    below = random.Random(seed).randrange
    segments, numbers, opened = {'cam': 0, 'two': 0}, list(range(1, 13)), 12
    for _ in range(400):
        who, what, channel = below(12), below(20), 'cam' if below(3) else 'two'
        rendition = 'hi' if below(3) else 'lo'
        if what < 5:
            flags = ('-', 'i', 'f', 'f', 'if', 'if')[below(6)]
            segments[channel] += 'f' in flags
            yield f'pub {channel} part {rendition} {(below(20) + 1) * 1000000} {flags}'
        elif what == 5:
            yield f'pub cam break {"hi" if below(2) else "lo"}'
        elif what == 6:
            segments[channel] += 1
            yield f'pub {channel} finish {rendition}'
        elif what == 7:
            yield f'drop {numbers[who]}'
            numbers[who] = opened = opened + 1
        else:
            yield say(numbers[who], random_target(below, segments))
    yield from ('pub cam end hi', 'pub cam end lo', 'pub two end hi')


def same_as_replay(room, seed):
    """Two channels, several renditions and a dozen connections get the same events as replay."""
    channels = ['channel cam target=60 part=60000000 skip=360 window=540 renditions=hi,lo first=5 start=1790000000000',
                'channel two target=60 part=20000000 skip=360 window=540 renditions=hi first=0 start=0']
    room.serve(*channels, workers=64)
    room.follow([*channels, *random_events(seed)])


def calls_are_interrupted(room):
    """Every third read, write, wait and accept of the server and of replay fails as if a signal had interrupted it."""
    library, mark, program = (room.folder / name for name in ('interrupted.so', 'interrupted', 'llhls'))
    subprocess.run([os.environ.get('CC') or 'cc', *'-O2 -Wall -Wextra -Werror -shared -fPIC -o'.split(), library, ROOT / 'tests/server/interrupted.c'], check=True)
    program.write_text(f"#!/bin/sh\nLD_PRELOAD='{library}' INTERRUPTED='{mark}' exec '{room.program}' \"$@\"\n")
    program.chmod(0o755)
    room.program = program
    same_as_replay(room, 4)
    check(mark.exists(), 'no call was interrupted')


def five_hundred_at_once(room, workers, *fields):
    """Five hundred connections ask at once. Those that are kept take no worker while they are at rest."""
    room.serve(CAM, workers=workers)
    answers = room.follow([CAM, *(say(number, PRESENT, *fields) for number in range(1, 501))])
    check(answers == 500, f'replay wrote {answers} answers')


# ---- players


def most_channels(room):
    """As many channels as a server can have."""
    room.serve(*(CAM.replace(' cam ', f' c{number} ') for number in range(1, 1025)))
    room.publish('c1024 part hi 1000000 i', 'ok 1')
    check(b's0.0.m4s' in room.ask('/c1024/hi/live.m3u8'), "the last channel isn't served")


def files_run_out(room):
    """Many connections come while the server can't open any more files: it reports that once, and serves others afterwards."""
    room.serve(CAM, workers=64, files=40)
    with Crowd(room.server.port, 100) as players:
        first = players.all[0]
        first.sendall(request(PRESENT))
        with first.makefile('rb') as stream:
            line = stream.readline()
        check(line == b'HTTP/1.1 200 OK\r\n', f'the first is answered {line!r}')
        room.pause(0.5)
    room.is_served()
    room.publish(PART, 'ok 1')
    log = room.log()
    check(log.count('\n') <= 3, log)


def stops_while_requests_are_held(room):
    """A stop takes no longer because requests are held."""
    room.serve(CAM, workers=64)
    with Crowd(room.server.port, 50) as players:
        players.send(request(NEXT))
        room.pause(0.2)
        room.stop_server(signal.SIGTERM)


# ---- publishers


def publisher_cut_off(room):
    """What a publisher didn't end is no line, and doesn't affect another publisher."""
    room.serve(CAM)
    with room.publisher() as publisher:
        publisher.send(b'cam part hi 1000000 f')
        room.publish(PART, 'ok 1')
    room.publish(PART, 'ok 2')


def lines_of_publishers(room):
    """Lines of 4,096 and 4,097 bytes are answered once each, and the next ones are read. Lines can come in pieces, several in one, and end in CR LF."""
    room.serve(CAM)
    with room.publisher() as publisher:
        publisher.send(b'cam %04092d\ncam %04093d\n%099999d\n' % (0, 0, 0))
        publisher.send(b'cam part hi 1000000 -\r\n\ncam\nzz part hi 1 f\ncam part zz 1 f\ncam part hi')
        room.pause(0.1)
        publisher.send(b' 1000000 f\ncam break hi\n')
        publisher.answers('no 13 BadLine', 'no 15 LineTooLong', 'no 15 LineTooLong', 'ok 1', 'no 13 BadLine', 'no 13 BadLine', 'no 14 UnknownChannel', 'no 1 NoRendition', 'ok 2')


def bytes_of_publishers(room):
    """The bytes of parts and of an initialization section: as many as a part can have, one more, none, some of which are LF, and with another byte in place of the LF after them. Of a
    publisher that goes away within them, nothing is published."""
    room.serve(CAM)
    short = b'cam part hi 100000 -'
    with room.publisher() as publisher:
        publisher.send(b'%s 1048576\n%1048576d\n%s 1048577\n%1048577d\n' % (short, 0, short, 0))
        publisher.send(b'%s 3\n\n\n\n\n%s 0\n\n%s 2\nabcam end hi\ncam init hi 2\nab\ncam init hi\n%s 2\n' % (short, short, short, short))
        room.pause(0.1)
        publisher.send(b'ab\n%s 100\nab' % short)
        publisher.answers('ok 1', 'no 16 MediaTooLong', 'ok 2', 'ok 3', 'no 13 BadLine', 'ok 4', 'no 13 BadLine', 'ok 5')
    room.publish(short.decode(), 'ok 6')


def publishers_wait_for_a_worker(room):
    """A publisher more than there are workers is accepted, and served once another one has ended."""
    room.serve(CAM, workers=1)
    with room.publisher() as first, room.publisher() as second:
        first.publish(PART, 'ok 1')
        second.send(PART.encode() + b'\n')
        room.pause(0.5)
        has_nothing_more(second.connection)
        first.publish(PART, 'ok 2')
        first.close()
        second.answers('ok 3')


# ---- ports, files and settings


def ends(room, status, fault, *words):
    """Tests that the program with these words reports the fault last, ends with the status, and prints nothing."""
    run = room.run([room.program, *words])
    last = run.said[run.said[:-1].rfind('\n') + 1:]
    check((run.status, last, run.stdout) == (status, f'llhls: {fault}\n', b''), f'status {run.status}, and {status} is wanted with {fault}; standard output {run.stdout[:100]!r}')


def settings_of(room, text):
    """Returns the path of a settings file of this text."""
    return room.file_of(text.encode('latin-1'))


def bad_settings(room, line, text):
    """A settings file of this text is refused for a line."""
    ends(room, 3, f'BadLine {line}', 'serve', settings_of(room, text))


def wrong_words(room, status, fault, *names):
    """With these files of the room, of which `settings` is right, the program ends so."""
    (room.folder / 'settings').write_text(f'listen 127.0.0.1:0\npublish 127.0.0.1:0\nworkers 4\n{CAM}\n')
    ends(room, status, fault, 'serve', *(room.folder / name for name in names))


def taken_ports(room):
    """Either port can be taken already."""
    server = room.serve(CAM)
    for players, publishers in (server.port, 0), (0, server.publish_port):
        ends(room, 4, 'Listen', 'serve', settings_of(room, f'listen 127.0.0.1:{players}\npublish 127.0.0.1:{publishers}\nworkers 4\n{CAM}\n'))
    room.is_served()


def other_machine(room):
    """An address isn't this machine's."""
    ends(room, 4, 'Listen', 'serve', settings_of(room, f'listen 192.0.2.1:0\npublish 127.0.0.1:0\nworkers 4\n{CAM}\n'))


# ---- all tests

ONCE = (calls_are_interrupted, most_channels, publisher_cut_off, lines_of_publishers, bytes_of_publishers, publishers_wait_for_a_worker, files_run_out, stops_while_requests_are_held, taken_ports,
        other_machine)
KINDS = (serve_held, serve_silent, serve_media)


def against_replay():
    """Yields the tests against replay. The server reads nothing while a request waits, so the rows with too many bytes after one are left out, and so are those with other lines than
    sockets know."""
    for path in sorted((ROOT / 'tests/program/connections').glob('*.stdout')):
        kinds = {line.split()[0] for line in path.with_suffix('').read_text().splitlines()}
        if not kinds & {'get', 'clock', 'close'} and not path.name.startswith('too_many_bytes_'):
            yield row, path.stem, 'whole'
            if 'many' not in kinds:
                yield row, path.stem, 'bytes'
    for seed in (1, 2, 3):
        yield same_as_replay, seed


def slow_tests():
    """Yields those that take more than 30 seconds."""
    yield from serve_silent.SLOW
    yield from serve_media.SLOW


def all_tests():
    """Yields each test with its words, in the order in which those that fail are shown."""
    yield from against_replay()
    for workers in (600, 16, 2, 1):
        yield five_hundred_at_once, workers
        yield five_hundred_at_once, workers, 'Connection: close'
    for each in KINDS:
        yield from each.tests()
    for test in ONCE:
        yield test,
    for words in BAD_SETTINGS:
        yield bad_settings, *words
    for words in WRONG_WORDS:
        yield wrong_words, *words
    if os.environ.get('SLOW'):
        yield from slow_tests()


def main(path, *names):
    open_many_files()
    with tempfile.TemporaryDirectory() as folder:
        ServeRoom.follower = f'{folder}/follow'
        subprocess.run([os.environ.get('CC') or 'cc', *'-O2 -Wall -Wextra -Werror -o'.split(), ServeRoom.follower, ROOT / 'tests/server/follow.c'], check=True)
        longest = [test for test, *_ in slow_tests()]
        alone = [test for each in KINDS for test in each.ALONE]
        return try_named(ServeRoom, path, names, all_tests(), longest, alone)


if __name__ == '__main__':
    sys.exit(main(*sys.argv[1:]))
