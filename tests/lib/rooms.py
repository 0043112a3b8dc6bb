"""A room for each test: its folder, and what runs in it, on ports of the system's choice. All of that is stopped when the test ends, also if it fails or is interrupted. Tests run
side by side, since they mostly wait."""
import concurrent.futures
import functools
import itertools
import pathlib
import random
import re
import resource
import shutil
import signal
import socket
import subprocess
import sys
import tempfile
import threading
import traceback
from typing import NamedTuple

from faults import unexplained
from push_player import Player

ROOT = pathlib.Path(__file__).resolve().parents[2]
SIDE_BY_SIDE = 16
SECONDS = 60    # for any run of the program
PORTS = itertools.count(random.randrange(20000, 30000))
INTERRUPTS = (signal.SIGINT, signal.SIGTERM, signal.SIGHUP)


class Wrong(Exception):
    """Why a test fails."""


def check(holds, why):
    """Fails the test unless this holds."""
    if not holds:
        raise Wrong(why)


def free_port():
    """Returns a port at which nobody listens, another one each time, and none that the system gives to connections."""
    for port in PORTS:
        with socket.socket() as it:
            try:
                it.bind(('127.0.0.1', port))
                return port
            except OSError:
                pass


class Run(NamedTuple):
    """How a run of the program ended. `source` is what it was given."""

    status: int
    stdout: bytes
    stderr: str
    source: bytes

    @property
    def said(self):
        """What it wrote to standard error, but for the lines that explain a fault."""
        return unexplained(self.stderr)


class Server(NamedTuple):
    """The server's process, its port for players, and its port and address for publishers."""

    process: subprocess.Popen
    port: int
    publish_port: int

    @property
    def address(self):
        return f'127.0.0.1:{self.publish_port}'

    def player(self, channel='cam'):
        """Returns a player of this channel."""
        return Player(self.port, channel)


class Room:
    """The folder of a test, made anew, and the processes that the test has started. `over` is set once all tests have to end."""

    def __init__(self, program, folder, over):
        self.program, self.folder, self.over = program, folder, over
        self.processes, self.files, self.is_closed, self.lock = [], itertools.count(), False, threading.Lock()
        folder.mkdir()

    def pause(self, seconds):
        """Waits, unless all tests are over."""
        check(not self.over.wait(seconds), 'it was interrupted')

    def comes(self, test, *words, seconds=10):
        """Waits until `test` finds nothing wrong, for about `seconds` seconds at most."""
        for _ in range(seconds * 20):
            try:
                return test(*words)
            except (Wrong, OSError):
                self.pause(0.05)
        return test(*words)

    def start(self, words, stdin=subprocess.DEVNULL, stdout=None, stderr=None):
        """Starts a process. Its standard output and standard error go to files of the room, unless others are given."""
        with self.lock:
            check(not self.is_closed, 'it was interrupted')
            name = self.folder / str(len(self.processes))
            with open(f'{name}.stdout', 'wb') as out, open(f'{name}.stderr', 'wb') as err:
                process = subprocess.Popen(words, stdin=stdin, stdout=stdout or out, stderr=stderr or err)
            process.name = name
            self.processes.append(process)
        return process

    def serve(self, *lines, workers=4, files=None, ports=(0, 0), blocks=None):
        """Starts a server with these last lines of settings, at free ports or at these of players and publishers. It can open as many files as others, or `files`; and write files of any
        size, or of `blocks` KB. Waits until it has printed its ports."""
        settings = self.folder / 'settings'
        settings.write_text('\n'.join([f'listen 127.0.0.1:{ports[0]}', f'publish 127.0.0.1:{ports[1]}', f'workers {workers}', *lines, '']))
        limited = [] if files is None else ['bash', '-c', 'ulimit -n "$0" && exec "$@"', str(files)]
        if blocks is not None:
            # A file that has grown to the limit is to a server as a disk that is full.
            limited = ['bash', '-c', 'trap "" XFSZ && ulimit -f "$0" && exec "$@"', str(blocks)]
        process = self.start([*limited, self.program, 'serve', settings])
        for _ in range(400):
            log = pathlib.Path(f'{process.name}.stderr').read_text()
            ports = [re.search(rf'^.*: {who} on 127\.0\.0\.1:([0-9]+)$', log, re.M) for who in ('players', 'publishers')]
            if all(ports):
                return Server(process, int(ports[0][1]), int(ports[1][1]))
            if process.poll() is not None:
                break
            self.pause(0.025)
        raise Wrong("the server isn't up")

    def run(self, words, source=b''):
        """Runs a process to its end. Its input is a file's path, or bytes."""
        with open(self.file_of(source), 'rb') as file:
            process = self.start(words, file)
        return ended(process)._replace(source=source)

    def file_of(self, source):
        """Returns the path of a file that holds the bytes of `source`, if that isn't a path itself."""
        if isinstance(source, pathlib.Path):
            return source
        path = self.folder / f'{next(self.files)}.input'
        path.write_bytes(source)
        return path

    def fault(self):
        """Returns what is wrong besides what a test finds, or ''."""
        return ''

    def said(self):
        """Returns what the programs of the room said, of those that are alike the last."""
        texts = {' '.join(map(str, each.args[:2])): pathlib.Path(f'{each.name}.stderr').read_bytes()[:2000].decode(errors='backslashreplace') for each in self.processes}
        return ''.join(f'\n{word} said: {text.rstrip()}' for word, text in texts.items() if text)

    def close(self):
        """Stops all that runs in the room, and lets nothing more start there."""
        with self.lock:
            self.is_closed = True
        for each in self.processes:
            each.kill()
            each.wait()


def feed(process, pieces):
    """Gives a process these pieces of input until it ends, and returns them."""
    source = b''
    try:
        with process.stdin:
            for piece in pieces:
                source += piece
                process.stdin.write(piece)
                process.stdin.flush()
    except BrokenPipeError:
        # The program has ended before its input.
        pass
    return source


def ended(process, pieces=None, seconds=SECONDS):
    """Waits for the end of a process, which gets these pieces of input, if there are some. One that takes longer than `seconds` seconds is killed."""
    limit = threading.Timer(seconds, process.kill)
    limit.start()
    try:
        source = b'' if pieces is None else feed(process, pieces)
        status = process.wait()
    finally:
        limit.cancel()
    out, err = (pathlib.Path(f'{process.name}.{each}').read_bytes() for each in ('stdout', 'stderr'))
    return Run(status, out, err.decode(errors='backslashreplace'), source)


def tried(room, test, words):
    """Runs a test in its room, and closes that. Returns '' if it passed, and otherwise why it failed, with what the programs said."""
    why = ''
    try:
        try:
            test(room, *words)
        finally:
            room.close()
    except Wrong as wrong:
        why = str(wrong)
    except Exception:
        why = traceback.format_exc()
    why = '\n'.join(filter(None, [why, room.fault()]))
    return why and why + room.said()


def told(tests, runs):
    """Prints why tests failed, in their order. Returns the number of them that failed."""
    failed = 0
    for (test, *words), run in zip(tests, runs):
        why = run.result()
        if why:
            failed += 1
            print(f"FAILED {' '.join(map(str, [test.__name__, *words]))}: {why}", flush=True)
    return failed


def open_many_files():
    """Lets this process, and those that it starts, open as many files as they are allowed to."""
    files = resource.getrlimit(resource.RLIMIT_NOFILE)[1]
    resource.setrlimit(resource.RLIMIT_NOFILE, (files, files))


def interrupt(number, _):
    """Ends the run. What runs in the rooms is stopped on the way."""
    for each in INTERRUPTS:
        signal.signal(each, signal.SIG_IGN)
    sys.exit(128 + number)


def await_all(runs, over):
    """Waits until these runs have ended, or all tests have to end."""
    while concurrent.futures.wait(runs, 0.1).not_done and not over.is_set():
        pass


def try_all(room_in, tests, longest, alone):
    """Runs tests side by side, those of `longest` before others, and then those of `alone` one at a time. `room_in` returns a test's room, if it is passed a folder and an event that
    says that all tests have to end. Returns the number of tests that failed."""
    # What a script starts in the background ignores SIGINT, and so would the programs here, if nothing handled it.
    for each in INTERRUPTS:
        signal.signal(each, interrupt)
    over = threading.Event()
    with tempfile.TemporaryDirectory() as folder, concurrent.futures.ThreadPoolExecutor(SIDE_BY_SIDE) as pool, concurrent.futures.ThreadPoolExecutor(1) as single:
        rooms = [room_in(pathlib.Path(folder) / str(number), over) for number in range(len(tests))]
        runs = {}

        def submit(to, number):
            test, *words = tests[number]
            runs[number] = to.submit(tried, rooms[number], test, words)

        try:
            for number in sorted(range(len(tests)), key=lambda number: tests[number][0] not in longest):
                if tests[number][0] not in alone:
                    submit(pool, number)
            single.submit(await_all, list(runs.values()), over)
            for number in range(len(tests)):
                if number not in runs:
                    submit(single, number)
            return told(tests, [runs[number] for number in range(len(tests))])
        finally:
            # There is nothing left to stop, unless this was interrupted.
            over.set()
            for each in (pool, single):
                each.shutdown(wait=False, cancel_futures=True)
            for room in rooms:
                room.close()


def missing(*tools):
    """Returns which of these commands aren't installed, as `no chromium, no ffmpeg`; '' if all are."""
    return ', '.join(f'no {tool}' for tool in tools if not shutil.which(tool))


def summed(passed, failed, skips=()):
    """Returns the last lines of a script: why tests were skipped, a line for each reason of the list `skips`, which has one for each test; and the counts."""
    reasons = ''.join(f'skipped: {pathlib.Path(sys.argv[0]).name}: {why}\n' for why in dict.fromkeys(skips))
    return f'{reasons}{passed} passed, {failed} failed' + (f', {len(skips)} skipped' if skips else '')


def try_named(room_of, path, names, tests, longest=(), alone=(), skips=()):
    """Tries the tests of these names, or all of them, on the program at this path, each in a room that `room_of` makes for it. `skips` has the tests that can't be tried on this machine,
    each with the reason. Prints the last lines of the script, and returns its status."""
    program = shutil.which(pathlib.Path(path).resolve())
    tests = [each for each in tests if not names or each[0].__name__ in names]
    skips = [why for test, why in skips if not names or test.__name__ in names]
    if program is None or not tests and not skips:
        print('there is no such test' if program else f'{path} is no program', summed(0, 1), sep='\n')
        return 1
    failed = try_all(functools.partial(room_of, program), tests, longest, alone) if tests else 0
    print(summed(len(tests) - failed, failed, skips))
    return failed > 0
