"""A room for a test of `llhls serve`: scripts that go to the server and to `llhls replay`, and connections of players and publishers."""
import collections
import os
import pathlib
import re
import selectors
import signal
import socket
import subprocess
import time

from rooms import ROOT, Room, Wrong, check

SECONDS = 20    # for any answer
TRIES = 5       # of what has to be done in time
CAM = 'channel cam target=4 part=1000000 skip=24 window=36 renditions=hi,lo first=0 start=0'
# Requests that are held here have longer than a test takes.
LONG = 'channel cam target=60 part=1000000 skip=360 window=540 renditions=hi,lo first=0 start=0'
PRESENT = '/cam/hi/live.m3u8'
NEXT = '/cam/hi/live.m3u8?_HLS_msn=0&_HLS_part=0'
PART = 'cam part hi 1000000 -'
VIDEO = b'\r\nContent-Type: video/mp4\r\n'


def request(target, *fields):
    """Returns the head of a request for `target`, with these further fields."""
    return '\r\n'.join([f'GET {target} HTTP/1.1', 'Host: a', *fields, '', '']).encode()


def say(number, target, *fields):
    """Returns the line of a script that sends such a head on connection `number`."""
    return f'say {number} ' + request(target, *fields).decode().replace('\r\n', '\\r\\n')


def with_workers(table):
    """Yields each test of `table` with each of the numbers of workers behind it."""
    for test, *numbers in table:
        for workers in numbers:
            yield test, workers


def in_time(most, seconds_of):
    """Tests that the best of some tries takes less than `most` seconds. `seconds_of` makes a try and returns what it took; it is passed the number of tries before."""
    took = []
    while len(took) < TRIES and (not took or took[-1] >= most):
        took.append(seconds_of(len(took)))
    check(took[-1] < most, f'the tries took {", ".join(f"{each:.3f}" for each in took)} s, and less than {most} is wanted')


def target_of(number):
    """Returns the target of a request that waits for part `number`, from 0, with four parts to a segment."""
    return f'{PRESENT}?_HLS_msn={number // 4}&_HLS_part={number % 4}'


def part_of(number):
    """Returns the line that publishes part `number`."""
    return f'cam part hi 1000000 {"i--f"[number % 4]}'


def answers_in(output):
    """Returns the answers in what replay wrote, in a list for each number of a connection."""
    answers, at = collections.defaultdict(list), 0
    while at < len(output):
        words, at = output[at:output.index(b'\n', at)].split(), output.index(b'\n', at) + 1
        if words[0] == b'sent':
            answer = output[at:at + int(words[2])]
            answers[int(words[1])].append(answer)
            # An LF that isn't counted follows media.
            at += len(answer) + (VIDEO in answer[:100])
    return answers


class ServeRoom(Room):
    """The folder of a test, the processes that it has started, and the server among them."""

    follower = None     # the path of tests/follow.c as a program

    def __init__(self, *words):
        super().__init__(*words)
        self.server = None

    def serve(self, *lines, **words):
        """Starts the server with these last lines of settings."""
        self.server = super().serve(*lines, **words)
        return self.server

    def log(self):
        """Returns what the server has written to standard error."""
        return pathlib.Path(f'{self.server.process.name}.stderr').read_text()

    def replayed(self, lines, way='whole'):
        """Has replay run a script of these lines, of which those that begin with `say` are cut as tests/lib/hex_lines.sh says. Returns the paths of the script and of what replay wrote."""
        script = self.run([ROOT / 'tests/lib/hex_lines.sh', way], ''.join(f'{line}\n' for line in lines).encode())
        check(script.status == 0, 'hex_lines.sh fails')
        run = self.run([self.program, 'replay'], script.stdout)
        check(run.status == 0, f'replay ends with status {run.status}')
        return self.file_of(script.stdout), pathlib.Path(f'{self.processes[-1].name}.stdout')

    def answers(self, *lines):
        """Returns what replay wrote for each connection of a script of these lines."""
        return answers_in(self.replayed(lines)[1].read_bytes())

    def follow(self, lines, way='whole'):
        """Plays a script to the server, each of whose connections gets what replay wrote. Returns the number of answers of all."""
        script, wanted = self.replayed(lines, way)
        run = self.run([self.follower, str(self.server.port), str(self.server.publish_port), script, wanted])
        check(run.status == 0, f'tests/follow.c ends with status {run.status}: {run.stdout[:2000].decode(errors="backslashreplace")}')
        return sum(map(len, answers_in(wanted.read_bytes()).values()))

    def connect(self):
        """Returns a player's connection."""
        return connected(self.server.port)

    def publisher(self):
        """Returns a publisher."""
        return Publisher(self.server.publish_port)

    def publish(self, line, answer, media=None):
        """Publishes `line` on a connection of its own, with the bytes `media` after it if there are some, and tests its answer."""
        with self.publisher() as publisher:
            publisher.publish(line, answer, media)

    def ask(self, target):
        """Returns the whole answer to a request for `target`, on a connection of its own that isn't kept."""
        with self.connect() as player:
            player.sendall(request(target, 'Connection: close'))
            return b''.join(iter(lambda: player.recv(1 << 16), b''))

    def is_served(self, channel='cam'):
        """Tests that a player gets a playlist of `channel`."""
        answer = self.ask(f'/{channel}/hi/live.m3u8')
        check(answer.startswith(b'HTTP/1.1 200 OK\r\n') and b'\n#EXT-X-PRELOAD-HINT' in answer, f'a player of {channel} is answered {answer[:200]!r}')

    def status(self, name):
        """Returns the number `name` of the server's status, memory in KB."""
        for line in pathlib.Path(f'/proc/{self.server.process.pid}/status').read_text().splitlines():
            if line.startswith(f'{name}:'):
                return int(line.split()[1])
        raise Wrong(f'the server has no {name}')

    def open_files(self):
        """Returns how many files the server has open."""
        return len(os.listdir(f'/proc/{self.server.process.pid}/fd'))

    def held_less_than(self, most):
        """Tests that the server's memory was always below `most` KB."""
        peak = self.status('VmHWM')
        check(peak < most, f'the server held {peak} KB, and less than {most} is wanted')

    def stop_server(self, number):
        """Sends the server signal `number`. Tests that it ends by that within 5 seconds."""
        self.server.process.send_signal(number)
        try:
            status = self.server.process.wait(timeout=5)
        except subprocess.TimeoutExpired:
            raise Wrong('the server runs on')
        check(status == -number, f'the server ends with status {status}')
        self.server = None

    def fault(self):
        """Returns that the server has ended by itself, or '' if it hasn't."""
        status = self.server and self.server.process.returncode
        return '' if status in (None, -signal.SIGKILL) else f'the server has ended with status {status}'


def part_answers(room, count):
    """Returns the answers to those that wait for the first, the second, and so on, of `count` parts."""
    lines = [line for number in range(count) for line in (say(1, target_of(number)), f'pub {part_of(number)}')]
    return room.answers(LONG, *lines)[1]


def connected(port):
    """Returns a connection on which what is sent goes at once, and a call that can't go on fails after a while."""
    connection = socket.create_connection(('127.0.0.1', port), timeout=SECONDS)
    connection.setsockopt(socket.IPPROTO_TCP, socket.TCP_NODELAY, 1)
    return connection


def slow_connected(port):
    """Returns a connection whose packets are as small as those of a network. With those of loopback, a server's system takes some 1 MB of an answer at once even if nobody reads."""
    connection = socket.socket()
    connection.settimeout(SECONDS)
    connection.setsockopt(socket.IPPROTO_TCP, socket.TCP_MAXSEG, 1448)
    connection.connect(('127.0.0.1', port))
    return connection


def take(connection, wanted):
    """Reads the bytes `wanted` from a connection, and no others."""
    came = 0
    while came < len(wanted):
        piece = connection.recv(min(len(wanted) - came, 1 << 18))
        check(piece and wanted.startswith(piece, came), f'after {came} bytes of {len(wanted)} comes {piece[:200]!r}, and {wanted[came:came + 200]!r} is wanted')
        came += len(piece)


def has_nothing_more(connection):
    """Tests that nothing has come on a connection, and that it is open."""
    connection.setblocking(False)
    try:
        came = connection.recv(1 << 16)
        raise Wrong(f'{came[:200]!r} comes' if came else 'a connection is closed')
    except BlockingIOError:
        pass
    finally:
        connection.settimeout(SECONDS)


def is_closed(connection):
    """Tests that a connection is closed with nothing more."""
    try:
        came = connection.recv(1 << 16)
    except ConnectionResetError:
        came = b''
    check(not came, f'{came[:200]!r} comes, and the end is wanted')


class Publisher:
    """A publisher's connection."""

    def __init__(self, port):
        self.connection = connected(port)
        self.stream = self.connection.makefile('rb')

    def __enter__(self):
        return self

    def __exit__(self, *_):
        self.close()

    def close(self):
        """Hangs up."""
        self.stream.close()
        self.connection.close()

    def send(self, text):
        """Sends some bytes."""
        self.connection.sendall(text)

    def answers(self, *wanted):
        """Tests that these answers come next."""
        for answer in wanted:
            came = self.stream.readline()
            check(came == answer.encode() + b'\n', f'the publisher is answered {came!r}, and {answer!r} is wanted')

    def publish(self, line, answer, media=None):
        """Publishes `line`, with the bytes `media` after it if there are some, and tests its answer."""
        self.send(line.encode() + b'\n' if media is None else b'%s %d\n%s\n' % (line.encode(), len(media), media))
        self.answers(answer)


class Crowd:
    """Connections of players that do the same."""

    def __init__(self, port, count):
        self.all = []
        try:
            for _ in range(count):
                self.all.append(connected(port))
        except BaseException:
            self.close()
            raise

    def __enter__(self):
        return self

    def __exit__(self, *_):
        self.close()

    def close(self):
        """Hangs up."""
        for each in self.all:
            each.close()

    def send(self, text):
        """Sends `text` on each connection."""
        for each in self.all:
            each.sendall(text)

    def take(self, wanted, seconds=SECONDS):
        """Reads the bytes `wanted` from each connection, whichever come first, and tests that nothing more comes. The last have to come within `seconds` seconds."""
        end, came = time.monotonic() + seconds, dict.fromkeys(self.all, 0)
        with selectors.DefaultSelector() as waits:
            for each in self.all:
                waits.register(each, selectors.EVENT_READ)
            while wanted and waits.get_map():
                ready = waits.select(max(0, end - time.monotonic()))
                check(ready, f'{len(waits.get_map())} of {len(self.all)} players have no whole answer after {seconds} s')
                for key, _ in ready:
                    piece = key.fileobj.recv(1 << 18)
                    at = came[key.fileobj]
                    check(piece and wanted.startswith(piece, at), f'after {at} bytes of {len(wanted)} comes {piece[:200]!r}, and {wanted[at:at + 200]!r} is wanted')
                    came[key.fileobj] += len(piece)
                    if came[key.fileobj] == len(wanted):
                        waits.unregister(key.fileobj)
        self.have_nothing_more()

    def have_nothing_more(self):
        """Tests that nothing has come on any connection, and that all are open."""
        for each in self.all:
            has_nothing_more(each)


class Broken(Exception):
    """A connection was lost: the server was killed."""


def body(connection, target):
    """Returns the status and the body of the response to a request for `target`, on a connection that is kept."""
    try:
        connection.sendall(f'GET {target} HTTP/1.1\r\nHost: a\r\n\r\n'.encode())
        head = b''
        while b'\r\n\r\n' not in head:
            piece = connection.recv(1 << 16)
            if not piece:
                raise Broken
            head += piece
        head, came = head.split(b'\r\n\r\n', 1)
        length = int(re.search(rb'Content-Length: ([0-9]+)', head)[1])
        while len(came) < length:
            piece = connection.recv(1 << 18)
            if not piece:
                raise Broken
            came += piece
    except OSError as error:
        raise Broken from error
    return int(head.split()[1]), came
