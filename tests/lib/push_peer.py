"""An origin that misbehaves as a plan says: it hangs up, refuses, or answers nonsense.

A plan says for each connection, separated by `/`, what becomes of each message, separated by `,`: `ok`; `unkept` accepts it, but can't keep it on disk; `lose` accepts it and hangs
up; `drop` takes it and hangs up; `half` takes some of it and hangs up; `close` hangs up before it; anything else is the answer, with escapes as in Python. What begins with `?`
applies to the question where the rendition stands, and comes first; without it the origin answers where its rendition stands.
"""
import socket
import struct
import threading

from push_model import Standing

ALL_OK = ','.join(['ok'] * 100)
LONGEST = 4096    # bytes of an answer to a greeting


def held_port(place=('127.0.0.1', 0)):
    """Returns a socket that has a port, or this one, and doesn't listen there: nobody else gets that port, and whoever connects to it is refused."""
    held = socket.socket()
    held.setsockopt(socket.SOL_SOCKET, socket.SO_REUSEADDR, 1)
    held.bind(place)
    return held


def address_of(listener):
    """Returns the address of a socket as the program takes it."""
    return '%s:%d' % listener.getsockname()


def take(stream):
    """Returns the next message, which is empty if no more comes."""
    line = stream.readline()
    words = line.split()
    if len(words) in (4, 6) and words[1] in (b'init', b'part'):
        return line + stream.read(int(words[-1]) + 1)
    return line


def answer_of(what):
    """Returns the bytes of an answer of a plan."""
    return what.encode().decode('unicode_escape').encode('latin-1')


class Rendition:
    """Where a rendition stands, and the messages that it has accepted, in order."""

    def __init__(self, place):
        self.accepted, self.count, self.ended, self.lost = [], 0, False, b''
        self.number, self.index, self.end, self.time = place

    def accept(self, message):
        """Records a message, and moves on as it says."""
        words = message.partition(b'\n')[0].split()
        # A section or a break that comes once more means the same, and is allowed only if its answer was lost.
        if message != self.lost or words[1] not in (b'init', b'break'):
            self.accepted.append(message)
        self.count, self.lost = self.count + 1, b''
        if words[1] == b'part':
            self.index, self.end = self.index + 1, self.end + int(words[3])
        if words[1] in (b'finish', b'end') or words[1] == b'part' and b'f' in words[4]:
            self.number, self.index = self.number + (self.index > 0), 0
        self.ended = self.ended or words[1] == b'end'

    def told(self):
        """Returns the answer to the question where it stands."""
        words = ['at', self.count, self.number, self.index, self.end, self.time] + ['ended'] * self.ended
        return ' '.join(map(str, words)).encode() + b'\n'


class Meeting:
    """One connection to the origin."""

    def __init__(self, link, stream, rendition):
        self.link, self.stream, self.rendition = link, stream, rendition

    def is_greeted(self, line, answer):
        """Answers a greeting, which has to be this line. Returns whether the connection goes on after it."""
        greeting = self.stream.readline()
        if greeting != line:
            raise ValueError(f'the greeting is {greeting!r}')
        self.link.sendall(answer)
        if len(answer) > LONGEST:
            self.ends()
        return answer.endswith(b'\n') and len(answer) <= LONGEST

    def ends(self):
        """Tests that nothing more comes."""
        try:
            rest = self.stream.read()
        except ConnectionResetError:
            # The program left some of an answer unread.
            rest = b''
        if rest:
            raise ValueError(f'after the last answer comes {rest[:100]!r}')

    def take_some(self, count):
        """Takes `count` bytes of a message. The connection is then closed by a reset, as one with bytes unread."""
        self.stream.read(count)
        self.link.setsockopt(socket.SOL_SOCKET, socket.SO_LINGER, struct.pack('ii', 1, 0))

    def answer_with_end(self, follows):
        """Sends the next answer together with the end of the connection if `close` follows: whoever has read the one sees the other."""
        if follows == ['close']:
            self.link.setsockopt(socket.IPPROTO_TCP, socket.TCP_CORK, 1)

    def is_asked(self, what):
        """Answers the question where the rendition stands. Returns whether the connection goes on after it."""
        if what == b'close':
            return False
        if what == b'half':
            self.take_some(5)
            return False
        question = self.stream.readline()
        if question != b'cam at hi\n':
            raise ValueError(f'the first line is {question!r}')
        if what == b'drop':
            return False
        self.link.sendall(what)
        return True

    def is_sent(self, what):
        """Takes a message and answers it. Returns whether the connection goes on after it."""
        if what == 'close':
            return False
        if what == 'half':
            self.take_some(10)
            return False
        message = take(self.stream)
        if what == 'drop' or not message:
            return False
        if what in ('ok', 'unkept', 'lose'):
            self.rendition.accept(message)
        if what == 'lose':
            self.rendition.lost = message
            return False
        answers = {'ok': b'ok %d\n' % self.rendition.count, 'unkept': b'no 20 NotKept\n'}
        self.link.sendall(answers[what] if what in answers else answer_of(what))
        return True

    def serve(self, plan):
        """Does what the plan of this connection says. After its last answer nothing may come."""
        asked = answer_of(plan.pop(0)[1:]) if plan[0].startswith('?') else self.rendition.told()
        self.answer_with_end(plan[:1])
        if not self.is_asked(asked):
            return
        for count, what in enumerate(plan, 1):
            self.answer_with_end(plan[count:count + 1])
            if not self.is_sent(what):
                return
        self.ends()


class Peer(threading.Thread):
    """An origin at `address` that serves the connections of its plan one after another, and then listens no more; `wrong` says what it got that it doesn't expect. It listens at a port
    of the system's choice or at `at`. If it has a `greeting`, a line and its answer, each connection begins with that line; `greeted` counts them."""

    def __init__(self, plan, place=None, greeting=None, at=('127.0.0.1', 0)):
        super().__init__(daemon=True)
        self.rendition = Rendition(Standing() if place is None else place)
        self.greeting, self.greeted = greeting, 0
        self.plans = [each.split(',') for each in plan.split('/')]
        self.link, self.is_stopped, self.wrong = None, False, ''
        # Once nobody listens any more, the port still isn't another test's.
        self.held = held_port(at)
        self.address = address_of(self.held)
        self.listener = socket.create_server(self.held.getsockname())
        self.start()

    def run(self):
        """Serves the plan's connections."""
        try:
            for plan in self.plans:
                self.link, _ = self.listener.accept()
                if plan is self.plans[-1]:
                    self.listener.close()
                with self.link, self.link.makefile('rb') as stream:
                    self.meet(Meeting(self.link, stream, self.rendition), plan)
        except (OSError, ValueError) as error:
            if not self.is_stopped:
                self.wrong = f'the origin: {error}'
        finally:
            self.listener.close()

    def meet(self, meeting, plan):
        """Does what the plan of a connection says, after its greeting."""
        if self.greeting:
            self.greeted += 1
            if not meeting.is_greeted(*self.greeting):
                return
        meeting.serve(plan)

    def has_ended(self):
        """Waits until all connections of its plan were there. Returns whether they were."""
        self.join(timeout=30)
        return not self.is_alive()

    def stop(self):
        """Ends all connections."""
        self.is_stopped = True
        for each in (self.listener, self.link):
            try:
                if each is not None:
                    each.shutdown(socket.SHUT_RDWR)
            except OSError:
                pass
        self.join(timeout=10)
        self.held.close()
