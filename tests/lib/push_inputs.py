"""Inputs of `llhls push` by name, which are made by hand, and what has to become of an input: its messages, the fault that ends it, what is published of it."""
import functools
import random

import push_model
from push_joined import Lengths
from push_made import FTYP, MDAT, MOOV, PLAIN, box, fragment, moof, movie, numbers, track

# The lengths that every push here asks for, in microseconds.
LENGTHS = Lengths(part=500000, segment=2000000, most=3000000)

# A movie of 1,000 ticks a second, and then fragments: the ticks of their samples, and whether each begins with a sync sample.
STREAMS = {
    'one': [([500], True)],
    'two': [([200, 300], True), ([500], False)],
    'many': [([250, 250], n % 4 == 0) for n in range(10)],
    'short': [([1], n == 0) for n in range(30)],
}

# Sound of 48,000 ticks a second and a picture of 12,800, which governs.
BOTH = movie(track(1, 48000, b'soun'), track(2, 12800, b'vide'), defaults=(1, 2))


def picture(tick, sync):
    return moof([512], 0 if sync else PLAIN, 2, tick) + box(b'mdat', b'picture at %d' % tick)


def sound(tick):
    return moof([1024, 1024], 0, 1, tick) + box(b'mdat', b'sound at %d' % tick)


def both(ticks, jump=0):
    """Returns fragments of a picture of 25 frames a second at these ticks, with a sync sample each second, and of sound beside it."""
    return [[picture(tick, n % 25 == 0), sound(tick * 48000 // 12800 + jump)] for n, tick in enumerate(ticks)]


def whole(fragments, first=BOTH):
    return FTYP + first + b''.join(b''.join(each) for each in fragments)


BEFORE = FTYP + MOOV + fragment([500])
INPUTS = {
    # Inputs that are refused after the movie and a fragment, or at once.
    'bad_box': BEFORE + numbers(7) + b'free',
    'endless_box': BEFORE + numbers(0) + b'mdat',
    'large_box': BEFORE + numbers(1 << 21) + b'free',
    'empty': b'',
    'no_more_than_its_type': FTYP,
    'no_movie': FTYP + fragment([500]),
    'no_track': FTYP + movie(),
    'no_scale': FTYP + movie(track(1, 0)),
    'other_track': BEFORE + moof([500], 0, 2) + MDAT,
    'long': FTYP + MOOV + fragment([200, 301]),
    'two_moofs': BEFORE + moof([100]) + moof([100]) + MDAT,
    'cut': BEFORE + fragment([500])[:-1],
    'no_mdat': BEFORE + moof([500]),
    # Inputs that aren't refused.
    'second_movie': BEFORE + FTYP + MOOV + fragment([400]),
    'two_tracks': FTYP + movie(track(1, 1000), track(2, 1000)) + fragment([500]),
    'samples_alone': BEFORE + MDAT + fragment([400]),
    'empty_fragment': BEFORE + fragment([0]) + fragment([400]),
    'sound_and_picture': whole(both(range(0, 512 * 60, 512))),
    'gap': whole(both(range(0, 512 * 30, 512)) + both(range(512 * 130, 512 * 160, 512))),
    'times_go_back': whole(both(range(512 * 50, 512 * 80, 512)) + both(range(0, 512 * 30, 512))),
    'late_times': whole(both(range((1 << 32) - 512 * 40, (1 << 32) - 512, 512), -((1 << 32) * 48000 // 12800) + (1 << 31))),
    'indexes': FTYP + MOOV + box(b'styp', b'cmfs') + box(b'sidx', b'x' * 32) + fragment([500]) + box(b'mfra', b'x' * 3000) + fragment([500]),
}


def pieces(name):
    """Returns the initialization section and the fragments of a stream."""
    return [FTYP + MOOV] + [fragment(ticks, 0 if sync else PLAIN) for ticks, sync in STREAMS[name]]


def input_of(name):
    """Returns the input of this name."""
    return INPUTS[name] if name in INPUTS else b''.join(pieces(name)) + box(b'mfra', b'x')


def beginning(name, count):
    """Returns the beginning of a stream, up to the end of `count` fragments."""
    return b''.join(pieces(name)[:1 + count])


def damaged(seed):
    """Returns the input `many` with some bytes changed, or cut off."""
    chance = random.Random(seed)
    data = bytearray(input_of('many'))
    if seed % 4 == 0:
        return bytes(data[:chance.randrange(len(data))])
    for _ in range(chance.randrange(1, 4)):
        at = chance.randrange(len(data))
        data[at] = chance.choice([0, 255, data[at] ^ 1 << chance.randrange(8), chance.randrange(256)])
    return bytes(data)


@functools.cache
def messages(data, stands=push_model.Standing(), now=0, ahead=True):
    """Returns the messages of an input with the rendition's end, if the rendition stands at `stands` and the clock shows `now`, and the fault that ends the input, or None. Unless the
    push looks ahead, each fragment is a part."""
    return push_model.messages(data, LENGTHS._replace(ahead=ahead), ends=True, stands=stands, now=now)


def fault_of(data):
    """Returns the fault that ends an input, or '' if none does."""
    return messages(data)[1] or ''


def published(data):
    """Returns the sections and parts of its messages, as players get them. A section that is sent once more after a break comes to players once more."""
    return b''.join(message.partition(b'\n')[2][:-1] for message in messages(data)[0])
