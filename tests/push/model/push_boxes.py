"""What an encoder's output is, by the second implementation of tests/push_model.py: boxes, units, movies, fragments and their times, read one unit at a time."""
from typing import NamedTuple, Optional

LIMIT = 1048576          # the most bytes of an initialization section or a part


class Refused(Exception):
    """What is raised in place of the result `Err fault`."""

    def __init__(self, fault):
        self.fault = fault


def minus(a, b):
    return a - b if a > b else 0


def number(count, data, place):
    """Returns the number in `count` bytes at a place; BadBox if bytes of it are missing."""
    if len(data) < place + count:
        raise Refused('BadBox')
    return int.from_bytes(data[place:place + count], 'big')


# Boxes (ISO/IEC 14496-12, 4.2)

class Box(NamedTuple):
    kind: bytes
    head: int            # how many bytes its header has: 8 or 16
    data: bytes          # all of it, with its header

    @property
    def content(self):
        return self.data[self.head:]


class Head(NamedTuple):
    kind: bytes
    head: int
    size: int


def header_at(data, at):
    """Returns the header at a place, None if bytes of it are missing; BadBox if the size is less than the header's (0 too)."""
    if len(data) < at + 8:
        return None
    size, kind, head = number(4, data, at), data[at + 4:at + 8], 8
    if size == 1:
        if len(data) < at + 16:
            return None
        size, head = number(8, data, at + 8), 16
    if size < head:
        raise Refused('BadBox')
    return Head(kind, head, size)


def inside(content):
    """Returns the boxes of a box's content, which has to be boxes alone, and whether something else is left."""
    at, found = 0, []
    while at < len(content):
        try:
            h = header_at(content, at)
        except Refused:
            return found, True
        if h is None or len(content) < at + h.size:
            return found, True
        found.append(Box(h.kind, h.head, content[at:at + h.size]))
        at += h.size
    return found, False


def every(kind, content):
    """Returns the contents of the boxes of a type; BadBox if there is anything else than boxes."""
    found, broken = inside(content)
    if broken:
        raise Refused('BadBox')
    return [box.content for box in found if box.kind == kind]


def only(kind, content):
    """Returns the content of the only box of a type; Several comes before BadBox, and that before Missing."""
    found, broken = inside(content)
    these = [box.content for box in found if box.kind == kind]
    if len(these) > 1:
        raise Refused('Several ' + kind.decode('latin1'))
    if broken:
        raise Refused('BadBox')
    if not these:
        raise Refused('Missing ' + kind.decode('latin1'))
    return these[0]



# ---- units: the boxes up to the end of the first `moov` or `mdat`

class Open(NamedTuple):               # the unit has no end yet
    left: tuple                       # its whole boxes
    torn: bool                        # whether bytes come after them


class Closed(NamedTuple):
    boxes: tuple
    end: int                          # where the next unit begins


def unit_at(data, at):
    """Returns the unit that begins at a place. An `mfra` before its first box belongs to no unit and doesn't count, whole or torn."""
    boxes, size = [], 0
    while at < len(data):
        h = header_at(data, at)
        if h is None:
            return Open(tuple(boxes), True)
        kept = boxes or h.kind != b'mfra'
        size += h.size if kept else 0
        if size > LIMIT:
            raise Refused('TooLarge')
        if len(data) < at + h.size:
            return Open(tuple(boxes), True)
        if kept:
            boxes.append(Box(h.kind, h.head, data[at:at + h.size]))
        at += h.size
        if h.kind in (b'moov', b'mdat'):
            return Closed(tuple(boxes), at)
    return Open(tuple(boxes), False)


def bytes_of(boxes):
    return b''.join(box.data for box in boxes)


# ---- movies

class Track(NamedTuple):
    id: int
    scale: int           # ticks per second
    video: bool          # its handler is `vide`
    duration: Optional[int]    # a sample's, and a sample's flags, if fragments don't give them: the governing track's alone
    flags: Optional[int]


def timed_field(content):
    """Returns the field after a version, flags and two times, which have 32 bits in version 0 and 64 in version 1."""
    version = number(4, content, 0) >> 24
    if version > 1:
        raise Refused('BadBox')
    return number(4, content, 20 if version else 12)


def track_in(trak):
    track = timed_field(only(b'tkhd', trak))
    mdia = only(b'mdia', trak)
    scale = timed_field(only(b'mdhd', mdia))
    if scale == 0:
        raise Refused('NoTimeScale')
    handlers = every(b'hdlr', mdia)
    video = bool(handlers) and number(4, handlers[0], 8) == int.from_bytes(b'vide', 'big')
    return Track(track, scale, video, None, None)


def with_defaults(moov, track):
    """Returns a track with the defaults that its movie has for it."""
    for trex in every(b'trex', only(b'mvex', moov)):
        of_track, duration, flags = number(4, trex, 4), number(4, trex, 12), number(4, trex, 20)
        if of_track == track.id:
            return track._replace(duration=duration, flags=flags)
    raise Refused('Missing trex')


def tracks_in(moov):
    traks = every(b'trak', moov)
    if not traks:
        raise Refused('Missing trak')
    tracks = tuple(track_in(trak) for trak in traks)
    governing = governing_of(tracks)
    return tuple(with_defaults(moov, track) if track is governing else track for track in tracks)


def track_of(tracks, number_of):
    """Returns the first track of this ID, or None."""
    for track in tracks:
        if track.id == number_of:
            return track
    return None


def governing_of(tracks):
    """Returns the first `vide` track, or else the first."""
    for track in tracks:
        if track.video:
            return track
    return tracks[0]


# ---- fragments (8.8)

def has(flags, flag):
    return flags & flag != 0


def room(flags, flag, size):
    return size if has(flags, flag) else 0


def time_in(traf):
    """Returns the decode time of a `tfdt`, or None without one."""
    tfdts = every(b'tfdt', traf)
    if len(tfdts) > 1:
        raise Refused('Several tfdt')
    if not tfdts:
        return None
    version = number(1, tfdts[0], 0)
    if version > 1:
        raise Refused('BadBox')
    return number(8 if version else 4, tfdts[0], 4)


def samples_in(track, traf):
    """Returns the ticks of all samples, and the flags of the first."""
    tfhd = only(b'tfhd', traf)
    fl = number(4, tfhd, 0)
    at = 8 + room(fl, 0x01, 8) + room(fl, 0x02, 4)
    duration = number(4, tfhd, at) if has(fl, 0x08) else track.duration
    at += room(fl, 0x08, 4) + room(fl, 0x10, 4)
    default = number(4, tfhd, at) if has(fl, 0x20) else track.flags
    ticks, first = 0, None
    for trun in every(b'trun', traf):
        rf, count = number(4, trun, 0), number(4, trun, 4)
        place = 8 + room(rf, 0x01, 4)
        told = number(4, trun, place) if has(rf, 0x04) else 0
        place += room(rf, 0x04, 4)
        width = room(rf, 0x100, 4) + room(rf, 0x200, 4) + room(rf, 0x400, 4) + room(rf, 0x800, 4)
        if len(trun) < place + count * width:
            raise Refused('BadBox')
        if has(rf, 0x100):
            ticks += sum(number(4, trun, place + n * width) for n in range(count))
        else:
            ticks += count * duration
        if first is None and count:
            flags_at = place + room(rf, 0x100, 4) + room(rf, 0x200, 4)
            first = told if has(rf, 0x04) else number(4, trun, flags_at) if has(rf, 0x400) else default
    return ticks, default if first is None else first


def is_sync(flags):
    return not has(flags, 0x00010000)


# ---- what a unit is

class Movie(NamedTuple):
    data: bytes
    tracks: tuple

    @property
    def governing(self):
        return governing_of(self.tracks)


class Heard(NamedTuple):              # of the governing track
    time: Optional[int]               # its `tfdt`
    ticks: int                        # by its samples
    sync: bool                        # of its first sample


class When(NamedTuple):
    time: int
    scale: int


class Fragment(NamedTuple):
    data: bytes
    size: int
    heard: Optional[Heard]            # None: without the governing track
    when: Optional[When]              # the first decode time in it of any track


class Lone(NamedTuple):               # samples without a fragment before them: more of the fragment before
    data: bytes
    size: int


class Fault(NamedTuple):              # ends the stream
    fault: str


def fragment_of(movie, data, size, moof):
    heard, when = None, None
    trafs = every(b'traf', moof)
    if not trafs:
        raise Refused('Missing traf')
    for traf in trafs:
        track = track_of(movie.tracks, number(4, only(b'tfhd', traf), 4))
        if track is None:
            raise Refused('OtherTrack')
        time = time_in(traf)
        if when is None and time is not None:
            when = When(time, track.scale)
        if track.id == movie.governing.id:
            if heard is not None:
                raise Refused('Several traf')
            ticks, flags = samples_in(track, traf)
            heard = Heard(time, ticks, is_sync(flags))
    return Fragment(data, size, heard, when)


def element_of(movie, boxes):
    """Returns what a unit is, after `movie`, which is None before the first movie."""
    data, last = bytes_of(boxes), boxes[-1]
    moofs = [box for box in boxes if box.kind == b'moof']
    try:
        if last.kind == b'moov':
            if moofs:
                return Fault('Missing mdat' if movie else 'NoMoov')
            return Movie(data, tracks_in(last.content))
        if movie is None:
            return Fault('NoMoov')
        size = len(data)
        if not moofs:
            return Lone(data, size)
        if len(moofs) > 1:
            return Fault('Several moof')
        return fragment_of(movie, data, size, moofs[0].content)
    except Refused as refused:
        return Fault(refused.fault)


def ending(left):
    """Returns what is wrong if the input ends and these boxes are left: a `moof` without its `mdat`, or a box that is cut."""
    if any(box.kind == b'moof' for box in left.left):
        return [Fault('Cut' if left.torn else 'Missing mdat')]
    return [Fault('Cut')] if left.torn else []


def elements(data):
    """Returns all elements of a stream, of which the last may be a fault. It loops over `unit_at` and `element_of`, and keeps the movie alone."""
    movie, at, found = None, 0, []
    while True:
        try:
            unit = unit_at(data, at)
        except Refused as refused:
            return found + [Fault(refused.fault)]
        if isinstance(unit, Open):
            return found + ending(unit)
        element = element_of(movie, unit.boxes)
        found.append(element)
        if isinstance(element, Fault):
            return found
        if isinstance(element, Movie):
            movie = element
        at = unit.end
