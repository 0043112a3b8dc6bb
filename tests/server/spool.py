#!/usr/bin/env python3
"""spool.py PROGRAM [TEST..]: tests `llhls serve` with a line `spool` in its settings, with real sockets and files, all tests or those of these names. A server is killed at random moments
while two publishers publish and players follow, and started again: what was answered `ok` is there with its bytes, a name never has other bytes, and playlists go back by no more than the part that was under way. Then come
spools that are cut at each byte of their end, that are damaged, or that another server has, a disk that is full, and files that take no more at each write. LONG=1 kills it 200 times. The last line is `N passed, M failed`."""
import os
import pathlib
import random
import re
import shutil
import signal
import sys
import threading

sys.path.insert(0, str(pathlib.Path(__file__).resolve().parents[1] / 'lib'))
from rooms import check, ended, try_named
from serve_room import Broken, ServeRoom, body, connected

LONG = os.environ.get('LONG') == '1'
KILLS = 200 if LONG else 8
PLAYERS = 50 if LONG else 8
MOST = 1_000_000 if LONG else 200_000     # bytes of a part
STARTS = 100 if LONG else 12    # after random items
SEGMENT = 4     # parts
CAM = 'channel cam target=1 part=250000 skip=6 window=9 renditions=hi,lo first=0 start=0'
SETTINGS = 'channel cam target=4 part=1000000 skip=24 window=36 renditions=hi first=0 start=0'
SECONDS = 20    # for any answer
PACE = 0.05     # seconds between two parts


# ---- a crowd


def line_of(connection):
    """Reads a line. Raises Broken if the connection is lost before its end."""
    line = b''
    while not line.endswith(b'\n'):
        byte = connection.recv(1)
        if not byte:
            raise Broken
        line += byte
    return line.decode().split()


def answer(connection, text):
    """Sends `text` and returns the words of the line that answers it."""
    try:
        connection.sendall(text)
        return line_of(connection)
    except OSError as error:
        raise Broken from error


class Crowd:
    """Two publishers and some players of one channel, which go on over the server's starts. `kept` has the bytes of each part that was answered `ok`, `seen` those that a player got."""

    def __init__(self, room):
        self.room, self.over, self.faults, self.lock = room, threading.Event(), [], threading.Lock()
        self.kept, self.sent, self.seen, self.answers = {}, {}, {}, 0
        self.threads = [threading.Thread(target=self.until_over, args=words) for words in
                        [(self.publish, 'hi', 1), (self.publish, 'lo', 2), *((self.follow, 'hi' if seed % 2 else 'lo', seed) for seed in range(PLAYERS))]]
        for each in self.threads:
            each.start()

    def close(self):
        """Ends the crowd, and fails if one of it has found something wrong."""
        self.over.set()
        for each in self.threads:
            each.join()
        check(not self.faults, '\n'.join(self.faults[:5]))

    def until_over(self, does, name, seed):
        """Does this on one connection after another."""
        draw = random.Random(seed)
        state = {}
        while not self.over.is_set():
            try:
                does(name, draw, state)
            except Broken:
                self.over.wait(0.02)
            except (ConnectionError, TimeoutError):
                self.over.wait(0.02)
            except Exception as error:
                self.faults.append(f'{does.__name__} {name}: {error!r}')
                self.over.set()

    def publish(self, name, draw, _):
        """Publishes parts of a rendition, from the place on at which it stands."""
        with connected(self.room.ports[1]) as connection:
            words = answer(connection, f'cam at {name}\n'.encode())
            check(words[0] == 'at', f'{name} stands at {words}')
            number, index = int(words[2]), int(words[3])
            with self.lock:
                # What was under way when the server was killed was accepted, or wasn't.
                for place in [each for each in self.sent if each[0] == name and each not in self.kept]:
                    if place[1:] < (number, index):
                        self.kept[place] = self.sent[place]
                missing = [each for each in self.kept if each[0] == name and each[1:] >= (number, index)]
            check(not missing, f'{missing} were answered ok, and {name} stands at {number}.{index}')
            while not self.over.is_set():
                place = (name, number, index)
                # A part without an answer is sent again as it was: a player may have it.
                media = self.sent.get(place) or draw.randbytes(draw.randrange(1, MOST))
                last = index == SEGMENT - 1
                self.sent[place] = media
                words = answer(connection, f'cam part {name} 250000 {"f" if last else "-"} {len(media)}\n'.encode() + media + b'\n')
                check(words[0] == 'ok', f'{place} is answered {words}')
                with self.lock:
                    self.kept[place] = media
                    self.answers += 1
                number, index = (number + 1, 0) if last else (number, index + 1)
                self.over.wait(PACE)

    def follow(self, name, _, state):
        """Asks for one part after another of a rendition. Its bytes are those that were published, and playlists don't go back."""
        folder = f'/cam/{name}'
        with connected(self.room.ports[0]) as connection:
            while not self.over.is_set():
                status, text = body(connection, f'{folder}/live.m3u8')
                check(status == 200, f'{folder} is answered {status}')
                first = int(re.search(rb'#EXT-X-MEDIA-SEQUENCE:([0-9]+)', text)[1])
                hint = re.search(rb'TYPE=PART,URI="s([0-9]+)\.([0-9]+)\.m4s"', text)
                place = int(hint[1]), int(hint[2])
                # Players have a part before its publisher is answered, so the last one may be gone after a start.
                count, last = place[0] * SEGMENT + place[1], state.get('place', (0, 0))
                check(count >= last[0] * SEGMENT + last[1] - 1, f'{folder} goes back from {last} to {place}')
                check(first >= state.get('first', 0) - 1, f'{folder} goes back from {state.get("first")} to {first}')
                state.update(place=place, first=first)
                for found in re.findall(rb'URI="(s[0-9]+\.[0-9]+\.m4s)",?', text)[-3:-1]:
                    self.see(connection, name, found.decode())
                body(connection, f'{folder}/live.m3u8?_HLS_msn={place[0]}&_HLS_part={place[1]}')

    def see(self, connection, name, file):
        """Asks for a part, of which all players get the same bytes, those that its publisher sent."""
        status, media = body(connection, f'/cam/{name}/{file}')
        if status != 200:
            return
        place = (name, *map(int, re.findall('[0-9]+', file)[:2]))
        with self.lock:
            wanted = self.seen.setdefault(place, media)
            sent = self.sent.get(place)
        check(media == wanted, f'{place} has other bytes than before')
        check(sent in (None, media), f'{place} has other bytes than were published')


def has_all(room, crowd):
    """Tests that each part in a playlist that was answered `ok` is there with its bytes, and so are segments."""
    with crowd.lock:
        kept = dict(crowd.kept)
    with connected(room.ports[0]) as connection:
        for name in 'hi', 'lo':
            _, text = body(connection, f'/cam/{name}/live.m3u8')
            numbers = [int(each) for each in re.findall(rb'^s([0-9]+)\.m4s$', text, re.M)]
            for number in numbers:
                parts = [kept.get((name, number, index)) for index in range(SEGMENT)]
                status, media = body(connection, f'/cam/{name}/s{number}.m4s')
                check(None in parts or (status == 200 and media == b''.join(parts)) or number == numbers[0], f's{number}.m4s of {name} has other bytes')


def starts_again(room, number, *names):
    """Kills a server with signal `number` again and again, amid a crowd. Its record is right in the end."""
    spool = room.folder / 'kept'
    spool.mkdir()
    lines = (f'record {room.folder / "record"}', f'spool {spool}', CAM)
    room.serve(*lines)
    room.ports = room.server.port, room.server.publish_port
    crowd, draw = Crowd(room), random.Random(3)
    try:
        for _ in range(KILLS):
            room.pause(draw.uniform(0.05, 0.6))
            check(not crowd.faults, '\n'.join(crowd.faults[:5]))
            room.server.process.send_signal(number)
            room.server.process.wait()
            room.server = None
            room.serve(*lines, ports=room.ports)
            has_all(room, crowd)
        room.pause(1)
    finally:
        crowd.close()
    check(crowd.answers > 5 * KILLS, f'only {crowd.answers} parts were answered')
    room.stop_server(signal.SIGTERM)


# ---- files


def publish_some(room, *media):
    """Publishes a section and these parts, each of its own segment, and stops the server."""
    room.publish('cam init hi', 'ok 1', b'section')
    for number, each in enumerate(media):
        room.publish('cam part hi 1000000 if', f'ok {number + 2}', each)
    room.stop_server(signal.SIGKILL)


def begun(room, *media):
    """Returns the folder of a spool that has these items."""
    spool = room.folder / 'kept'
    spool.mkdir()
    room.serve(f'spool {spool}', SETTINGS)
    publish_some(room, *media)
    return spool


def copied(spool, number):
    """Returns a copy of a spool."""
    path = spool.with_name(f'kept.{number}')
    shutil.copytree(spool, path)
    return path


def ends(room, status, said, *lines):
    """Tests that a server with these settings ends with `status`, and says only this."""
    settings = room.folder / 'bad'
    settings.write_text('\n'.join(['listen 127.0.0.1:0', 'publish 127.0.0.1:0', 'workers 4', *lines, '']))
    run = ended(room.start([room.program, 'serve', settings]))
    check((run.status, run.said) == (status, said), f'it ends with {run.status} and says {run.stderr!r}, and {status} and {said!r} are wanted')


def stands_again(room):
    """Items of each kind are there again with a section's and parts' bytes, over two starts; dates, breaks and ranges too."""
    spool = room.folder / 'kept'
    spool.mkdir()
    lines = f'spool {spool}', SETTINGS
    room.serve(*lines)
    check('llhls: spool: cam: 0 items\n' in room.log(), room.log())
    items = [('init hi', b'one'), ('part hi 1000000 i', b'abc'), ('part hi 500000 -', b''), ('finish hi', None), ('break hi 5000000', None), ('init hi', b'two'),
             ('range hi ID="r",START-DATE="2026-09-21T14:14:20.000Z",X-A="b c"', None), ('part hi 1000000 if', b'defg'), ('range hi ID="s",START-DATE="2026-09-21T14:14:20.000Z"', None),
             ('unrange hi r', None), ('part hi 250000 -', b'h')]
    targets = ['/cam/hi/' + file for file in ('live.m3u8', 'live.m3u8?_HLS_skip=YES', 's0.m4s', 's0.0.m4s', 's0.1.m4s', 's1.m4s', 's1.0.m4s', 's2.0.m4s', 'init0.mp4', 'init1.mp4', 'init2.mp4')]
    for number, (line, media) in enumerate(items):
        room.publish(f'cam {line}', f'ok {number + 1}', media)
    stood = [room.ask(target) for target in targets]
    for count in 0, 1:
        room.stop_server(signal.SIGTERM if count else signal.SIGKILL)
        room.serve(*lines)
        check(f'llhls: spool: cam: {len(items) + count} items\n' in room.log(), room.log())
        stands = [room.ask(target) for target in targets]
        if not count:
            check(stands == stood, f'{[target for target, one, other in zip(targets, stands, stood) if one != other]} are answered otherwise')
            room.publish('cam end hi', f'ok {len(items) + 1}')
    check(b'\n#EXT-X-ENDLIST' in room.ask(targets[0]), 'the end is lost')


def all_answers(port):
    """Returns the answers to requests for each playlist and for all media that may be there."""
    files = ['live.m3u8', *(f's{number}.m4s' for number in range(20)), *(f's{number}.{index}.m4s' for number in range(20) for index in range(4)), *(f'init{number}.mp4' for number in range(20))]
    with connected(port) as connection:
        # The next part is waited for.
        hints = {name: re.findall(rb'PRELOAD-HINT:TYPE=PART,URI="(.*)"', body(connection, f'/cam/{name}/live.m3u8')[1]) for name in ('hi', 'lo')}
        return {f'{name}/{file}': body(connection, f'/cam/{name}/{file}') for name in hints for file in files if file.encode() not in hints[name]}


def stands_after_any(room, seed):
    """Random items are published, and the server is killed and started again after some of them: all playlists and media are those that stood."""
    spool, draw = room.folder / 'kept', random.Random(seed)
    spool.mkdir()
    kinds = ['part {} 200000 i', 'part {} 250000 -', 'part {} 250000 f', 'part {} 100000 if', 'init {}', 'finish {}', 'break {}', 'part {} 250000 f', 'part {} 240000 -']
    room.serve(f'spool {spool}', CAM)
    for _ in range(STARTS):
        with room.publisher() as publisher:
            for _ in range(draw.randrange(1, 25)):
                line = draw.choice(kinds).format(draw.choice(['hi', 'hi', 'lo']))
                media = draw.randbytes(draw.choice([0, 1, 700, 5000])) if line[0] in 'pi' else None
                publisher.send(f'cam {line}\n'.encode() if media is None else b'cam %s %d\n%s\n' % (line.encode(), len(media), media))
                # Some are refused.
                publisher.stream.readline()
        stood = all_answers(room.server.port)
        room.stop_server(signal.SIGKILL)
        room.serve(f'spool {spool}', CAM)
        stands = all_answers(room.server.port)
        check(stands == stood, f'{[each for each in stood if stands.get(each) != stood[each]][:5]} are answered otherwise')


def is_cut(room):
    """A spool is cut at each byte of its last three lines: those that are whole are there, and what is published then follows them."""
    spool = begun(room, b'a', b'bb', b'ccc', b'dddd')
    text = (spool / 'cam' / 'items').read_bytes()
    ends = [at + 1 for at, byte in enumerate(text) if byte == 10]
    for size in range(ends[-4], len(text) + 1):
        path = copied(spool, size)
        os.truncate(path / 'cam' / 'items', size)
        count = sum(end <= size for end in ends) - 1
        room.serve(f'spool {path}', SETTINGS)
        check(f'llhls: spool: cam: {count} items\n' in room.log(), f'of {size} bytes it says {room.log()}')
        room.publish('cam part hi 500000 -', f'ok {count + 1}', b'next')
        check(room.ask(f'/cam/hi/s{count - 1}.0.m4s').endswith(b'\r\n\r\nnext'), f'of {size} bytes the next part is lost')
        room.stop_server(signal.SIGKILL)
        check((path / 'cam' / 'items').read_bytes() == text[:ends[count]] + b'%d part hi 500000 - 4\n' % (count + 1), f'of {size} bytes the spool goes on otherwise')


def is_damaged(room):
    """A spool that can't stand ends the server, with the line that is wrong; so do settings of other renditions, and bytes that aren't there. Nothing is changed."""
    spool = begun(room, b'a', b'bb', b'ccc')
    lines = (spool / 'cam' / 'items').read_bytes().splitlines(keepends=True)
    wrong = [(1, [b'x', *lines[1:]]), (2, [lines[0], b'2' + lines[1][1:], *lines[2:]]), (3, [*lines[:2], lines[2].replace(b'1000000', b'9000000'), *lines[3:]]),
             (4, [*lines[:3], b'\xff' + lines[3], *lines[4:]]), (5, [*lines[:4], b'4 part hi 1000000 if\n']), (4, [*lines[:3], *lines[4:]])]
    for number, (line, texts) in enumerate(wrong):
        path = copied(spool, number)
        (path / 'cam' / 'items').write_bytes(b''.join(texts).rstrip(b'\n') + b'\n')
        was = (path / 'cam' / 'items').read_bytes()
        ends(room, 3, f'llhls: spool: cam {line}\n', f'spool {path}', SETTINGS)
        check((path / 'cam' / 'items').read_bytes() == was, f'wrong {number} was changed')
    for number in 0, 1:
        path = copied(spool, f'bytes.{number}')
        sizes = {each: os.path.getsize(path / 'cam' / each) for each in ('hi.a', 'hi.b')}
        os.truncate(path / 'cam' / max(sizes, key=sizes.get), number)
        settings = room.folder / 'bad'
        settings.write_text('\n'.join(['listen 127.0.0.1:0', 'publish 127.0.0.1:0', 'workers 4', f'spool {path}', SETTINGS, '']))
        run = ended(room.start([room.program, 'serve', settings]))
        check(run.status == 3 and re.fullmatch(r'llhls: spool: cam [2-9]\n', run.said), f'without bytes it ends with {run.status} and says {run.stderr!r}')
    ends(room, 3, 'llhls: spool: cam 1\n', f'spool {spool}', SETTINGS.replace('renditions=hi', 'renditions=hi,lo'))


def no_folder(room):
    """A directory that isn't there, or another server that has the spool, ends the server before its ports are open."""
    ends(room, 4, 'llhls: spool: cam: No such file or directory (os error 2)\n', f'spool {room.folder / "none"}', SETTINGS)
    spool = room.folder / 'kept'
    spool.mkdir()
    room.serve(f'spool {spool}', SETTINGS)
    ends(room, 4, 'llhls: spool: cam: in use\n', f'spool {spool}', SETTINGS)
    room.is_served()


def disk_is_full(room):
    """The disk is full in the middle of a part: its item and each later one is answered NotKept, standard error says so once, and the channel goes on for its players. The next start has
    what was answered ok."""
    spool = room.folder / 'kept'
    spool.mkdir()
    room.serve(f'spool {spool}', SETTINGS, blocks=20)
    for number in 1, 2, 3:
        room.publish('cam part hi 1000000 if', f'ok {number}', bytes(9000))
    for number in 4, 5:
        room.publish('cam part hi 1000000 if', 'no 20 NotKept', bytes(9000))
        check(room.ask(f'/cam/hi/s{number - 1}.m4s').endswith(bytes(9000)), f'part {number} is lost')
    room.publish('cam at hi', 'at 5 5 0 5000000 5000')
    check(room.log().count('llhls: spool: cam: ') == 2, room.log())
    room.stop_server(signal.SIGKILL)
    room.serve(f'spool {spool}', SETTINGS)
    room.publish('cam at hi', 'at 3 3 0 3000000 3000')
    check(room.ask('/cam/hi/s2.m4s').endswith(bytes(9000)), 'the last part is lost')
    room.publish('cam part hi 1000000 if', 'ok 4', b'again')


def each_write_fails(room):
    """A file takes no more bytes than one block, two, and so on, so that each write fails in turn: what was answered ok is there after the next start, and nothing else."""
    media = [b's' * 700, b'a' * 900, b'b' * 1100, b'c' * 300, b'd' * 2500, b'e' * 10, b'f' * 1500]
    lines = ['init hi', *['part hi 1000000 if'] * (len(media) - 1)]
    for blocks in range(1, 8):
        spool = room.folder / f'kept.{blocks}'
        spool.mkdir()
        room.serve(f'spool {spool}', SETTINGS, blocks=blocks)
        with room.publisher() as publisher:
            answers = []
            for line, each in zip(lines, media):
                publisher.send(b'cam %s %d\n%s\n' % (line.encode(), len(each), each))
                answers.append(publisher.stream.readline())
        room.stop_server(signal.SIGKILL)
        kept = sum(answer.startswith(b'ok ') for answer in answers)
        check(answers == [b'ok %d\n' % (number + 1) if number < kept else b'no 20 NotKept\n' for number in range(len(media))], f'with {blocks} blocks it answers {answers}')
        room.serve(f'spool {spool}', SETTINGS)
        room.publish('cam at hi', f'at {kept} {max(kept - 1, 0)} 0 {max(kept - 1, 0) * 1000000} {max(kept - 1, 0) * 1000}')
        for number in range(kept):
            target = f'/cam/hi/s{number - 1}.m4s' if number else '/cam/hi/init0.mp4'
            check(room.ask(target).endswith(b'\r\n\r\n' + media[number]), f'with {blocks} blocks {target} is lost')
        room.stop_server(signal.SIGKILL)


def takes_two_windows(room):
    """The bytes of a rendition take the room of some two windows, also if another one has ended, whose last parts stay there."""
    spool = room.folder / 'kept'
    spool.mkdir()
    room.serve(f'spool {spool}', CAM)
    with room.publisher() as publisher:
        for number in range(400):
            lines = b'' if number != 5 else b'cam part lo 250000 if 4\nlast\ncam end lo\n'
            publisher.send(lines + b'cam part hi 250000 %s 3000\n%s\n' % (b'f' if number % 4 == 3 else b'-', bytes(3000)))
            for _ in range(1 + lines.count(b'cam')):
                check(publisher.stream.readline().startswith(b'ok '), 'an item is refused')
    window = 3000 * 4 * 9
    size = sum(os.path.getsize(spool / 'cam' / each) for each in ('hi.a', 'hi.b'))
    check(size < 3 * window, f'{size} bytes are kept of {400 * 3000}, of which {window} are in the window')
    room.stop_server(signal.SIGKILL)
    room.serve(f'spool {spool}', CAM)
    check(room.ask('/cam/lo/s0.m4s').endswith(b'last'), 'the last part of the one that has ended is lost')


TESTS = ((starts_again, signal.SIGKILL), (starts_again, signal.SIGTERM), (stands_again,), (stands_after_any, 1), (stands_after_any, 2), (is_cut,), (is_damaged,), (no_folder,), (disk_is_full,), (each_write_fails,), (takes_two_windows,))


def main(path, *names):
    return try_named(ServeRoom, path, names, TESTS, longest=[starts_again])


if __name__ == '__main__':
    sys.exit(main(*sys.argv[1:]))
