"""What the tests of `llhls push` look at: how a run ended and what it said, what an origin has taken, and what players get."""
import itertools
import time

from push_inputs import messages
from rooms import Wrong, check


def ends(run, status, fault=''):
    """Tests that a run ends with this status, prints nothing, and says this fault last; without a fault it says nothing."""
    last = run.said[run.said[:-1].rfind('\n') + 1:]
    wanted = f'llhls: {fault}\n' if fault else ''
    check((run.status, last, run.stdout) == (status, wanted, b''), f'status {run.status}, and {status} is wanted with {wanted!r}; standard output {run.stdout[:100]!r}')


def ends_with(run, status, fault):
    """Tests that it says nothing else before."""
    ends(run, status, fault)
    check(run.said.count('\n') <= 1, 'it says more than its fault')


def passes(run, lost):
    """Tests that a run ends with status 0, prints nothing, and has reported `lost` times that the connection is lost."""
    check((run.status, run.stdout) == (0, b''), f'status {run.status}, standard output {run.stdout[:100]!r}')
    said_lost(run, lost)


def said_lost(run, count):
    """Tests that a run has reported `count` times that the connection is lost."""
    said = sum('the connection is lost' in line for line in run.stderr.split('\n'))
    check(said == count, f'{said} connections are lost, and not {count}')


def took(peer, data, **stands):
    """Tests that the origin has accepted exactly the messages of an input."""
    taken, wanted = peer.rendition.accepted, messages(data, **stands)[0]
    if taken != wanted:
        same = sum(1 for _ in itertools.takewhile(lambda pair: pair[0] == pair[1], zip(taken, wanted)))
        raise Wrong(f'the origin has taken {len(taken)} messages of {len(wanted)}: after {same} comes {taken[same:same + 1]!r:.200}, and not {wanted[same:same + 1]!r:.200}')


def has_taken(peer, count):
    """Tests that the origin has accepted `count` messages."""
    check(len(peer.rendition.accepted) == count, f'the origin has taken {len(peer.rendition.accepted)} messages, and not {count}')


def took_first(peer, count, data):
    """Tests that the origin, until it ended, has accepted exactly the first `count` messages of an input."""
    check(peer.has_ended(), 'the origin still waits')
    check(messages(data)[0][:count] == peer.rendition.accepted, f'the origin has taken other messages than the first {count}')
    has_taken(peer, count)


def plays(server, data, channel='cam'):
    """Tests that players get these bytes, of which the last whole boxes may be left out."""
    fault = server.player(channel).fault_in(data)
    check(not fault, fault)


def lists(server, words):
    """Tests that the playlist has these words: sections and parts, segments with their seconds, the next part after `then`, breaks and the end."""
    listed = server.player().listed()
    check(listed == words, f'the playlist has {listed}, and not {words}')


def now():
    """Returns the time of the clock, in milliseconds."""
    return time.time_ns() // 1000000
