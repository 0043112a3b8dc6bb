"""What stands round a server for a page: the page's only host, which notes what is asked for, and a relay that keeps what is published."""
import socket
import sys
import threading
import time
from typing import NamedTuple

from rooms import ROOT

sys.path.insert(0, str(ROOT / 'examples'))
import near  # noqa: E402


class Note(NamedTuple):
    """A request of the page: when it came and began to be answered, its path with the query, and the answer's status and body."""

    asked: float
    answered: float
    path: str
    status: int
    body: bytes


class Host:
    """The page's host, examples/near.py. `notes` has the requests that were answered. `fixed` has answers of its own by path, and `slow` the bytes a second of what is below a path."""

    def __init__(self):
        self.notes, self.fixed, self.slow = [], {}, {}
        self.handler = type('Noting', (Noting,), {'host': self})
        self.server = near.Server(0, self.handler)
        self.port = self.server.server_port
        threading.Thread(target=self.server.serve_forever, daemon=True).start()

    def close(self):
        self.server.shutdown()
        self.server.server_close()


class Noting(near.Near):
    """One request after another of a connection."""

    host = None

    def do_GET(self):
        self.asked = time.time()
        if self.path in self.host.fixed:
            self.answer(*self.host.fixed[self.path])
        else:
            super().do_GET()

    def answer(self, status, kind, body):
        # The page may ask again before this goes on.
        note = Note(self.asked, time.time(), self.path, status, body)
        super().answer(status, kind, body)
        self.host.notes.append(note)

    def give(self, body):
        speed = next((each for path, each in self.host.slow.items() if self.path.startswith(path) and 'm3u8' not in self.path), None)
        start, step = time.monotonic(), len(body) or 1 if speed is None else 4096
        for place in range(0, len(body), step):
            super().give(body[place:place + step])
            if speed is not None:
                time.sleep(max(0, start + (place + step) / speed - time.monotonic()))


class Item(NamedTuple):
    """A Media Initialization Section or a part, as it was published: its name, its bytes, the microseconds of parts before it, the microsecond of the program at which it begins, and when
    it was accepted; None if that isn't known."""

    name: str
    data: bytes
    before: int
    date: int
    accepted: float


class Tee:
    """Passes on what is published to the port `to`, and keeps each line with its bytes and the moment of its `ok`, for each of the server's lives."""

    def __init__(self):
        self.to, self.lives = 0, [[]]
        self.listener = socket.create_server(('127.0.0.1', 0))
        self.address = f'127.0.0.1:{self.listener.getsockname()[1]}'
        threading.Thread(target=self.accept, daemon=True).start()

    def accept(self):
        try:
            while True:
                threading.Thread(target=self.relay, args=(self.listener.accept()[0],), daemon=True).start()
        except OSError:
            return

    def relay(self, connection):
        """Each line is answered before the next one comes."""
        kept = self.lives[-1]
        try:
            with connection, socket.create_connection(('127.0.0.1', self.to)) as origin:
                source, answers, answer = connection.makefile('rb'), origin.makefile('rb'), b' '
                while answer and (line := source.readline()):
                    words = line.decode().split()
                    size = {('part', 6): -1, ('init', 4): -1}.get((words[1], len(words)))
                    body = b'' if size is None else source.read(int(words[size]) + 1)
                    message = [words, body[:-1], None]
                    kept.append(message)
                    origin.sendall(line + body)
                    answer = answers.readline()
                    message[2] = time.time() if answer.startswith(b'ok ') else None
                    connection.sendall(answer)
        except OSError:
            return

    def close(self):
        self.listener.close()

    def items(self, life, start, rendition='video'):
        """Returns the sections and parts of a rendition in a life of the server, in which it begins at this millisecond. Those without an answer count too."""
        items, number, index, before, date = [], 0, 0, 0, start * 1000
        for words, data, accepted in [message for message in list(self.lives[life]) if message[0][2] == rendition]:
            if words[1] == 'init':
                items.append(Item('init', data, before, date, accepted))
            elif words[1] == 'break' and len(words) > 3:
                date = int(words[3]) * 1000
            elif words[1] == 'finish':
                number, index = number + 1, 0
            elif words[1] == 'part':
                items.append(Item(f's{number}.{index}.m4s', data, before, date, accepted))
                before, date = before + int(words[3]), date + int(words[3])
                number, index = (number + 1, 0) if 'f' in words[4] else (number, index + 1)
        return items

    def parts(self, life=-1):
        """Returns how many parts were accepted in a life of the server."""
        return sum(words[1] == 'part' and accepted is not None for words, _, accepted in list(self.lives[life]))
