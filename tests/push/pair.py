#!/usr/bin/env python3
"""pair.py PROGRAM [TEST..]: tests `llhls push` to several origins, with real sockets on loopback, all tests or those of these names. Two servers that keep their items are published to
by one push for each rendition, and players ask either; one of them is killed at random moments and started again, or stopped for some seconds. Then come connections that are cut at
each byte of a message, and origins that refuse, never answer, answer nonsense or stand elsewhere. LONG=1 takes more kills and players. The last line is `N passed, M failed`."""
import pathlib
import random
import re
import signal
import socket
import subprocess
import sys
import threading

sys.path[:0] = [str(pathlib.Path(__file__).resolve().parents[1] / each) for each in ('lib', 'push/model')]
from pair_crowd import Encoder, LONG, PLAYERS, Players, SEGMENT
from push_inputs import input_of, messages
from push_peer import ALL_OK, address_of, held_port
from push_room import PushRoom
from rooms import check, ended, free_port, try_named
from serve_room import body

KILLS = 50 if LONG else 3
CAM = 'channel cam target=2 part=500000 skip=12 window=18 renditions=hi,lo first=0 start=4000000000000'
CUT = CAM.replace(' cam ', ' {} ')
LOST = 'the connection is lost, and tried again'


def is_asked(plan):
    """Returns the plan of an origin that is asked once on a connection of its own, before what this plan says."""
    return '/' + plan


# ---- two servers


class Origin:
    """A server of the room that keeps its items, and can be started again at the same ports."""

    def __init__(self, room, number, lines):
        self.room, self.lines = room, lines
        self.spool, self.record = room.folder / f'spool.{number}', room.folder / f'record.{number}'
        self.spool.mkdir()
        # Not of those that the system gives to connections: one that tries a server which is gone may get its port.
        self.ports, self.server = (free_port(), free_port()), None
        self.begin()

    def begin(self):
        """Starts the server."""
        self.server = self.room.serve(f'record {self.record}', f'spool {self.spool}', *self.lines, workers=8, ports=self.ports)

    @property
    def address(self):
        return self.server.address

    def kill(self):
        """Kills the server at once."""
        self.server.process.kill()
        self.server.process.wait()

    def stands(self, name, channel='cam'):
        """Returns where a rendition stands, without the number of items of the channel."""
        with socket.create_connection(('127.0.0.1', self.ports[1]), timeout=20) as link, link.makefile('rb') as stream:
            link.sendall(f'{channel} at {name}\n'.encode())
            return stream.readline().split()[2:]

    def ask(self, target):
        """Returns the status and the body of the answer to a request."""
        with socket.create_connection(('127.0.0.1', self.ports[0]), timeout=20) as link:
            return body(link, target)


def pair(room, *lines):
    """Starts two servers with these settings."""
    return [Origin(room, number, lines) for number in (0, 1)]


def start_push(room, origins, name='hi', channel='cam', words=(), stdin=subprocess.PIPE):
    """Starts a push of a rendition to these origins."""
    addresses = ','.join(each.address for each in origins)
    return room.start([room.program, 'push', addresses, channel, name, 'part=500000', 'segment=2000000', *words], stdin)


def tell_the_same(origins, names=('hi', 'lo')):
    """Tests that both origins give the same playlists and media."""
    for name in names:
        check(origins[0].stands(name) == origins[1].stands(name), f'{name} stands at {origins[0].stands(name)} and {origins[1].stands(name)}')
        (_, one), (_, two) = (each.ask(f'/cam/{name}/live.m3u8') for each in origins)
        # The other rendition's last place is in the report line alone.
        check(one == two, f'{name} has the playlists {one.decode()} and {two.decode()}')
        files = [found.decode() for found in re.findall(rb'^[a-z0-9.]+\.m4s$', one, re.M)]
        for file in files:
            check(origins[0].ask(f'/cam/{name}/{file}') == origins[1].ask(f'/cam/{name}/{file}'), f'{file} of {name} differs')
        check(files, f'{name} has no segment')


# ---- a crowd


def place_of(origin, name):
    """Returns the number of parts of a rendition before its next one."""
    number, index = origin.stands(name)[:2]
    return int(number) * SEGMENT + int(index)


def stand_alike(origins, least=0, names=('hi', 'lo')):
    """Tests that both origins are as far, as far as can be said while they go on, and have `least` parts."""
    for name in names:
        first, other, last = (place_of(origins[number], name) for number in (0, 1, 0))
        check(least <= first <= other + SEGMENT and other <= last + SEGMENT, f'{name} stands at part {first}, then at {last}, and the other one at {other} between')


def goes_on(room, what):
    """One of two servers is killed again and again and started again, or is stopped for some seconds, amid a crowd. Nobody sees an error, and both have the same in the end."""
    origins = pair(room, CAM)
    pushes = [start_push(room, origins, name) for name in ('hi', 'lo')]
    encoders = [Encoder(each) for each in pushes]
    room.pause(2)
    players, draw = Players(room, origins), random.Random(7)
    try:
        for turn in range(KILLS if what == 'kill' else 1):
            room.pause(draw.uniform(0.5, 2))
            check(not players.faults, '\n'.join(players.faults[:5]))
            one = origins[draw.randrange(2)]
            if what == 'kill':
                one.kill()
                room.pause(draw.choice([0, 0.3, 1.5]))
                one.begin()
            else:
                one.server.process.send_signal(signal.SIGSTOP)
                room.pause(5)
                one.server.process.send_signal(signal.SIGCONT)
            room.comes(stand_alike, origins, seconds=20)
        room.pause(1)
    finally:
        players.close()
        for each in encoders:
            each.close()
    for each in pushes:
        run = ended(each)
        check(run.status == 0, f'a push ends with {run.status} and says {run.stderr}')
    check(players.answers > 5 * PLAYERS, f'only {players.answers} parts were answered')
    check(all(not each.fault for each in encoders), encoders[0].fault or encoders[1].fault)
    tell_the_same(origins)
    # Records are written every 10 seconds.
    room.pause(11)
    for each in origins:
        each.server.process.terminate()
        each.server.process.wait()
        run = room.run([room.program, 'check', f'{each.record}.cam'])
        check(run.status == 0, f'the record is {run.stdout!r}')
    for name in 'hi', 'lo':
        one, two = (items_in(each.record, name) for each in origins)
        check(one == two and len(one) > 10, f'the records have {len(one)} and {len(two)} items of {name}')


def items_in(record, name):
    """Returns the items of a rendition in the last chain of a record."""
    chain = pathlib.Path(f'{record}.cam').read_text().split('\nat 0\n')[-1]
    return [line for line in chain.splitlines() if line.startswith('P ') and line.split()[2] == name]


def both_die(room):
    """Both servers are killed and started again while an encoder waits: nothing is missing."""
    origins = pair(room, CAM)
    push = start_push(room, origins)
    encoder = Encoder(push)
    room.pause(1)
    for each in origins:
        each.kill()
    room.pause(1)
    for each in origins:
        each.begin()
    room.comes(stand_alike, origins, 16, ['hi'], seconds=20)
    encoder.close()
    run = ended(push)
    check(run.status == 0, f'it ends with {run.status} and says {run.stderr}')
    check(run.stderr.count(LOST) >= 2, run.stderr)
    tell_the_same(origins, ('hi',))


# ---- a connection that is cut


class Cutter(threading.Thread):
    """Passes connections on to a server; the first on which items are sent is cut once `count` bytes have gone to the server, or once as many have come back."""

    def __init__(self, port, count, back):
        super().__init__(daemon=True)
        self.port, self.count, self.back, self.cuts = port, count, back, 0
        self.listener = socket.create_server(('127.0.0.1', 0))
        self.address = address_of(self.listener)
        self.start()

    def run(self):
        connections = 0
        try:
            while True:
                link, _ = self.listener.accept()
                connections += 1
                # The first one asks where the rendition stands.
                limit = self.count if connections == 2 else None
                server = socket.create_connection(('127.0.0.1', self.port))
                threading.Thread(target=self.passes, args=(link, server, None if self.back else limit), daemon=True).start()
                threading.Thread(target=self.passes, args=(server, link, limit if self.back else None), daemon=True).start()
        except OSError:
            pass

    def passes(self, one, two, limit):
        """Passes what comes from one side on to the other, up to `limit` bytes, and then ends both."""
        try:
            while limit is None or limit > 0:
                piece = one.recv(1 << 16 if limit is None else limit)
                if not piece:
                    break
                two.sendall(piece)
                if limit is not None:
                    limit -= len(piece)
            if limit == 0:
                self.cuts += 1
        except OSError:
            pass
        for each in one, two:
            try:
                each.shutdown(socket.SHUT_RDWR)
            except OSError:
                pass

    def close(self):
        """Ends it."""
        self.listener.close()


def is_cut(room, back):
    """The connection to one of two origins is cut at each byte of what is sent first, or of what is answered first: both have the same in the end."""
    question, data = b'cam at hi\n', input_of('two')
    size = 30 if back else len(question) + sum(map(len, messages(data)[0][:2])) + 1
    names = [f'c{number}' for number in range(size)]
    # A question has the name of its channel.
    origins = [Origin(room, number, [CUT.format(name) for name in names]) for number in (0, 1)]
    for begin in range(0, size, 20):
        some = list(range(begin, min(begin + 20, size)))
        cutters = [Cutter(origins[0].ports[1], number + 1, back) for number in some]
        pushes = []
        for number, cutter in zip(some, cutters):
            with open(room.file_of(data), 'rb') as file:
                pushes.append(start_push(room, [cutter, origins[1]], channel=names[number], words=('retry=5', 'end'), stdin=file))
        for number, cutter, push in zip(some, cutters, pushes):
            run = ended(push)
            cutter.close()
            check(run.status == 0, f'cut at byte {number} it ends with {run.status} and says {run.stderr}')
            check(cutter.cuts == 1 or back, f'it was not cut at byte {number}')
            stood = [each.stands('hi', names[number]) for each in origins]
            check(stood[0] == stood[1] and stood[0][-1] == b'ended', f'cut at byte {number} they stand at {stood}')
            one, two = (each.ask(f'/{names[number]}/hi/live.m3u8') for each in origins)
            check(one == two, f'cut at byte {number} they have {one} and {two}')


# ---- origins that misbehave


def push_to(room, peers, name, words=('retry=2', 'end')):
    """Publishes an input at these origins."""
    with open(room.file_of(input_of(name)), 'rb') as file:
        return ended(start_push(room, peers, words=words, stdin=file), seconds=100)


def took_all(peer, name):
    """Tests that an origin has accepted exactly the messages of an input."""
    check(messages(input_of(name))[0] == peer.rendition.accepted, f'the origin has taken {len(peer.rendition.accepted)} messages of {len(messages(input_of(name))[0])}')


def says(run, status, *lines):
    """Tests that a run ends with this status, and says exactly these lines, in any order."""
    check((run.status, sorted(run.said.splitlines()), run.stdout) == (status, sorted(lines), b''), f'status {run.status}, and it says {run.stderr}')


def all_take_all(room, count):
    """Some origins get each message of an input."""
    peers = [room.peer(is_asked(ALL_OK)) for _ in range(count)]
    says(push_to(room, peers, 'gap'), 0)
    for each in peers:
        took_all(each, 'gap')


def loses(room, plan, count):
    """One of two origins loses connections as the plan says: both have each message once in the end."""
    peers = [room.peer(is_asked(plan)), room.peer(is_asked(ALL_OK))]
    says(push_to(room, peers, 'two'), 0, *[f'llhls: {peers[0].address}: {LOST}'] * count)
    for each in peers:
        took_all(each, 'two')


def is_left(room, plan, why, taken):
    """One of two origins answers as the plan says, and is left; the other one gets everything."""
    peers = [room.peer(is_asked(plan)), room.peer(is_asked(ALL_OK))]
    run = push_to(room, peers, 'two')
    lost = [line for line in run.stderr.splitlines() if LOST in line]
    says(run, 0, f'llhls: {peers[0].address} is left: {why}', *lost)
    took_all(peers[1], 'two')
    check(len(peers[0].rendition.accepted) == taken, f'the origin has taken {len(peers[0].rendition.accepted)} messages')


def all_refuse(room):
    """Both origins refuse a message: it ends with the last refusal, and status 3."""
    peers = [room.peer(is_asked(r'ok,no 4 TooLong\n')) for _ in range(2)]
    run = push_to(room, peers, 'two')
    says(run, 3, 'llhls: no 4 TooLong', *[f'llhls: {each.address} is left: no 4 TooLong' for each in peers])


def nobody_is_there(room):
    """Nobody listens at either address."""
    with held_port() as one, held_port() as two:
        addresses = ','.join(map(address_of, (one, two)))
        run = room.run([room.program, 'push', addresses, 'cam', 'hi', 'part=500000', 'segment=2000000'], input_of('one'))
    says(run, 4, 'llhls: Connect')


def joins_later(room):
    """One of two servers is started after the push: it gets everything from the start."""
    origins = pair(room, CAM)
    origins[0].kill()
    push = start_push(room, origins, words=('retry=20',))
    encoder = Encoder(push)
    room.pause(3)
    origins[0].begin()
    room.comes(stand_alike, origins, 4, ['hi'], seconds=20)
    encoder.close()
    run = ended(push)
    says(run, 0)
    tell_the_same(origins, ('hi',))


def never_answers(room):
    """One of two origins takes connections and never answers: the other one isn't held up, and the silent one is left once its reads have failed."""
    with socket.create_server(('127.0.0.1', 0)) as silent:
        origin = Origin(room, 1, [CAM])
        address = address_of(silent)
        with open(room.file_of(input_of('two')), 'rb') as file:
            push = room.start([room.program, 'push', f'{address},{origin.address}', 'cam', 'hi', 'part=500000', 'segment=2000000', 'retry=0', 'end'], file)
        room.comes(has_ended, origin, seconds=20)
        run = ended(push, seconds=100)
        says(run, 0, f'llhls: {address} is left: Connect')


def has_ended(origin):
    """Tests that the rendition has ended."""
    check(origin.stands('hi')[-1] == b'ended', 'it has not ended')


def falls_behind(room):
    """One of two origins takes nothing more while the other takes more than `keep` bytes: it is left."""
    peer, stopped = room.peer(is_asked(','.join(['ok'] * 1000))), Origin(room, 1, [CAM])
    stopped.server.process.send_signal(signal.SIGSTOP)
    push = start_push(room, [stopped, peer], words=('retry=1', 'keep=100000'))
    encoder = Encoder(push)
    try:
        room.comes(said, push, f'llhls: {stopped.address} is left: Behind', seconds=30)
    finally:
        encoder.close()
        stopped.server.process.send_signal(signal.SIGCONT)
    run = ended(push)
    says(run, 0, f'llhls: {stopped.address} is left: Behind')


def said(process, line):
    """Tests that a process has said this line."""
    with open(f'{process.name}.stderr') as log:
        check(line in log.read().splitlines(), 'it has not said so')


def stand_apart(room):
    """The renditions of two servers stand apart: the one that isn't as far is left."""
    origins = [Origin(room, 0, [CAM]), Origin(room, 1, [CAM.replace('first=0', 'first=5')])]
    says(push_to(room, origins, 'two'), 0, f'llhls: {origins[0].address} is left: Elsewhere')
    check(origins[0].stands('hi')[:2] == [b'0', b'0'], 'it has got something')
    check(origins[1].stands('hi')[-1] == b'ended', 'the other one has not got everything')


def wrong(room, *words):
    """The program refuses these words."""
    run = room.run([room.program, 'push', *words])
    says(run, 2, 'llhls: usage')


REST = 'cam hi part=1 segment=1'
WRONG = ('127.0.0.1:1,127.0.0.1:1', '127.0.0.1:1,', ',127.0.0.1:1', '127.0.0.1:1,a', ','.join(f'127.0.0.1:{port}' for port in range(1, 6)))
WRONG_KEEP = ('keep=', 'keep=-1', 'keep=01', 'keep=1 retry=1', 'end keep=1')


def all_tests():
    """Yields each test with its words."""
    yield goes_on, 'kill'
    yield goes_on, 'stop'
    yield both_die,
    yield joins_later,
    yield is_cut, False
    yield is_cut, True
    for count in 2, 3, 4:
        yield all_take_all, count
    for how in 'lose', 'drop', 'half':
        for number in range(4):
            yield loses, 'ok,' * number + f'{how}/{ALL_OK}', 1
    yield loses, '?close/?half/?drop/ok,ok,ok,ok', 3
    yield is_left, r'no 4 TooLong\n', 'no 4 TooLong', 0
    yield is_left, r'ok,no 4 TooLong\n', 'no 4 TooLong', 1
    yield is_left, r'ok,ok\n', 'BadAnswer', 1
    yield is_left, r'ok,drop/?at 5 7 0 9000000 4000000000500\n', 'Elsewhere', 1
    yield is_left, r'ok,drop/?at 18446744073709551616 0 1 500000 4000000000500\n', 'BadAnswer', 1
    yield is_left, 'ok,drop/drop/drop/drop/drop/drop', 'Connect', 1
    for test in all_refuse, nobody_is_there, never_answers, falls_behind, stand_apart:
        yield test,
    for address in WRONG:
        yield wrong, address, *REST.split()
    for keep in WRONG_KEEP:
        yield wrong, '127.0.0.1:1,127.0.0.1:2', *REST.split(), *keep.split()


def main(path, *names):
    return try_named(PushRoom, path, names, list(all_tests()), longest=[goes_on, never_answers])


if __name__ == '__main__':
    sys.exit(main(*sys.argv[1:]))
