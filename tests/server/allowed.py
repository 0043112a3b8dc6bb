#!/usr/bin/env python3
"""allowed.py PROGRAM [TEST..]: tests of channels with a secret in a server's settings, all tests or those of these names: what a publisher's line is answered before and after the secret was
given, and what `llhls push` publishes with it. The last line is `N passed, M failed`."""
import hashlib
import pathlib
import sys
import time

sys.path[:0] = [str(pathlib.Path(__file__).resolve().parents[1] / each) for each in ('lib', 'push/model')]
from push_inputs import input_of
from push_looks import ends, ends_with
from push_room import PushRoom
from rooms import check, try_named
from serve_room import Publisher

REFUSED = 'no 19 NotAllowed'
PAUSE = 0.1     # seconds before that answer
LONG_WORD = '~!"#%&()*+,-./:;<=>?@[]^_`{|}'
CHANNEL = 'channel {} target=4 part=1000000 skip=24 window=36 renditions=hi first=0 start={}'

# Lines of one connection, and the answer to each. LONG stands for the secret of the channel `two`; that of `cam` is `word`, and `free` has none.
ROWS = {
    'closed': '''
        cam part hi 1000000 - => no 19 NotAllowed
        cam part hi x - => no 19 NotAllowed
        cam at hi => no 19 NotAllowed
        cam at nobody => no 19 NotAllowed
        cam nonsense => no 19 NotAllowed
        cam end hi => no 19 NotAllowed
        other part hi 1000000 - => no 14 UnknownChannel
        other secret word => no 14 UnknownChannel
        nonsense => no 13 BadLine
        free part hi 1000000 - => ok 1''',
    'wrong words': '''
        cam secret wore => no 19 NotAllowed
        cam secret  => no 19 NotAllowed
        cam secret word  => no 19 NotAllowed
        cam secret word word => no 19 NotAllowed
        cam secretword => no 19 NotAllowed
        cam Secret word => no 19 NotAllowed
        cam at hi => no 19 NotAllowed''',
    'opened': '''
        cam secret word => ok 0
        cam at hi => at 0 0 0 0 0
        cam part hi 1000000 - => ok 1
        cam part hi x - => no 13 BadLine
        cam part nobody 1 - => no 1 NoRendition
        cam secret word => ok 0
        cam secret wore => no 19 NotAllowed
        cam part hi 1000000 - => ok 2
        cam secret a b => no 13 BadLine
        two at hi => no 19 NotAllowed
        two part hi 1 - => no 19 NotAllowed
        two secret word => no 19 NotAllowed
        two secret LONG => ok 0
        two part hi 1 - => ok 1
        cam part hi 1000000 - => ok 3''',
    'no secret': '''
        free secret word => no 13 BadLine
        free part hi 1000000 - => ok 1''',
}


def digest_line(word):
    """Returns the line of settings that gives the channel before it the secret `word`."""
    return f'secret {hashlib.sha256(word.encode()).hexdigest()}'


def serve(room, start=0):
    """Starts a server with three channels, of which two have a secret, and returns the port of its publishers."""
    lines = CHANNEL.format('cam', start), digest_line('word'), CHANNEL.format('two', start), digest_line(LONG_WORD).upper().replace('SECRET', 'secret')
    return room.serve(*lines, CHANNEL.format('free', start)).publish_port


def answers(link, row):
    """Tests the answers to the lines of a row, one after another."""
    for each in row.strip().split('\n'):
        line, answer = each.lstrip().replace('LONG', LONG_WORD).split(' => ')
        link.publish(line, answer)


def lines_are_answered(room, name):
    """The lines of a row are answered as it says."""
    with Publisher(serve(room)) as link:
        answers(link, ROWS[name])


def opens_its_own_connection(room):
    """A secret opens a channel for the connection that gave it alone, and the server doesn't say it."""
    port = serve(room)
    with Publisher(port) as one, Publisher(port) as other:
        one.publish('cam secret word', 'ok 0')
        other.publish('cam at hi', REFUSED)
        one.publish('cam part hi 1000000 -', 'ok 1')
    check('word' not in room.said(), 'the server says the secret')


def bytes_of_strangers(room):
    """The bytes of a part that isn't allowed are passed over; too many are refused for that, before the channel is known."""
    with Publisher(serve(room)) as link:
        link.publish('cam part hi 1000000 -', REFUSED, b'\ncam secret word\n')
        link.publish('cam part hi 1000000 -', 'no 16 MediaTooLong', bytes(1048577))
        link.publish('cam secret word', 'ok 0')
        link.publish('cam part hi 1000000 -', 'ok 1', b'bytes')


def strangers_wait(room):
    """Each wrong word of a connection is answered some time after the one before, and nobody else waits for that."""
    port = serve(room)
    with Publisher(port) as stranger, Publisher(port) as link:
        began = time.monotonic()
        stranger.send(b'cam secret wore\n' * 10)
        link.publish('cam secret word', 'ok 0')
        link.publish('cam part hi 1000000 -', 'ok 1')
        took = time.monotonic() - began
        check(took < 8 * PAUSE, f'a publisher waits for {took} s')
        stranger.answers(*[REFUSED] * 10)
        took = time.monotonic() - began
        check(took >= 10 * PAUSE, f'ten wrong words are answered after {took} s')


def pushes(room, content):
    """A push with the secret publishes; one with another word, or without, is refused."""
    address = f'127.0.0.1:{serve(room, 4000000000000)}'
    words = ['retry=2', 'end'] if content is None else ['retry=2', f'secret={room.file_of(content)}', 'end']
    run = room.push(address, input_of('two'), words=words)
    check('wor' not in run.stderr, f'it says {run.stderr!r}')
    if content == b'word\n':
        ends(run, 0)
    else:
        ends_with(run, 3, REFUSED)


def all_tests():
    """Yields each test with its words."""
    for name in ROWS:
        yield lines_are_answered, name
    yield opens_its_own_connection,
    yield bytes_of_strangers,
    yield strangers_wait,
    for content in b'word\n', b'wore\n', None:
        yield pushes, content


def main(path, *names):
    return try_named(PushRoom, path, names, list(all_tests()))


if __name__ == '__main__':
    sys.exit(main(*sys.argv[1:]))
