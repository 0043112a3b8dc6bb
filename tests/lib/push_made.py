"""Boxes of fragmented MP4, made by hand: a movie of one track of 1,000 ticks a second, and its fragments."""
import struct


def box(kind, *contents):
    body = b''.join(contents)
    return struct.pack('>I4s', 8 + len(body), kind) + body


def numbers(*values):
    return struct.pack('>%dI' % len(values), *values)


def track(number, scale, kind=None):
    handler = [] if kind is None else [box(b'hdlr', numbers(0, 0), kind)]
    return box(b'trak', box(b'tkhd', numbers(7, 0, 0, number)), box(b'mdia', box(b'mdhd', numbers(0, 0, 0, scale)), *handler))


def movie(*tracks, defaults=(1,)):
    return box(b'moov', box(b'mvhd', numbers(0)), *tracks, box(b'mvex', *[box(b'trex', numbers(0, number, 1, 0, 0, 0)) for number in defaults]))


def moof(durations, flags=0, number=1, time=None):
    run = box(b'trun', numbers(0x104, len(durations), flags, *durations))
    times = [] if time is None else [box(b'tfdt', numbers(0, time))]
    return box(b'moof', box(b'mfhd', numbers(0, 1)), box(b'traf', box(b'tfhd', numbers(0, number)), *times, run))


PLAIN = 0x10000
FTYP = box(b'ftyp', b'cmfc', numbers(0))
MOOV = movie(track(1, 1000))
MDAT = box(b'mdat', b'\n\0m\xff')


def fragment(durations, flags=0):
    return moof(durations, flags) + MDAT
