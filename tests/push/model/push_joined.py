"""How fragments are joined to parts and segments, by the second implementation of tests/push_model.py: initialization sections, parts, breaks and finishes, and the fault that ends them."""
from typing import NamedTuple, Optional

from push_boxes import Fault, Fragment, Heard, LIMIT, Movie, Refused, minus

SECOND = 1000000         # in microseconds
TOP = (1 << 64) - 1
LAST = 253402300799999999    # the last microsecond of the year 9999, from 1970 on


class Lengths(NamedTuple):
    part: int
    segment: int
    most: int
    ahead: bool = True                # whether a part waits for the fragment after it; otherwise each fragment is a part


class Shift(NamedTuple):              # how the times of a run are moved
    tracks: tuple                     # (ID, scale) of each track
    scale: int                        # of the governing one
    base: int                         # its tick at which the run begins
    end: int                          # where the rendition ends at that tick, in microseconds


class Init(NamedTuple):
    data: bytes


class Part(NamedTuple):
    units: tuple                      # as they came, without what is left out
    duration: int
    independent: bool
    finishes: bool
    shift: Shift


class Break(NamedTuple):
    since: Optional[int]              # how far the program's time is from its origin, in microseconds rounded up; None: times go back


class Finish(NamedTuple):             # the open segment ends with the part before
    pass


class Start(NamedTuple):              # a movie begins
    pass


class Group(NamedTuple):              # a governing fragment with those that go with it
    heard: Heard
    time: int                         # its decode time; without `tfdt`, where the one before it ended
    units: tuple
    size: int


class Over(NamedTuple):
    pass


class Back(NamedTuple):
    tick: int


class At(NamedTuple):
    tick: int


class Run(NamedTuple):
    base: int
    position: int
    start: int                        # of the part under way, in microseconds of the run
    units: tuple                      # its units; empty if no part is under way
    size: int
    sync: bool                        # of its first governing fragment
    segment: int                      # where its segment begins
    before: int
    end: int                          # where the rendition ends as the run begins
    origin: int                       # the tick from which the program's time is counted


def run_from(tick, end, origin):
    return Run(tick, tick, 0, (), 0, False, 0, 0, end, origin)


def at_tick(scale, run, tick):
    return minus(tick, run.base) * SECOND // scale


def goes_back(lengths, scale, position, time):
    return lengths.part * scale < minus(position, time) * SECOND


def next_at(lengths, scale, position, time):
    return Back(time) if goes_back(lengths, scale, position, time) else At(max(position, time))


def said_to(scale, run, ticks, next):
    tick = next.tick if isinstance(next, At) else run.position + ticks
    return minus(at_tick(scale, run, tick), at_tick(scale, run, run.position))


def or_part(lengths, before):
    return lengths.part if before == 0 else min(before, lengths.part)


def lasts_of(lengths, scale, run, ticks, said):
    if said <= lengths.part:
        return said
    return min(or_part(lengths, run.before), minus(at_tick(scale, run, run.position + ticks), at_tick(scale, run, run.position)))


def ends_segment(lengths, so_far, lasts, sync):
    return lengths.segment <= so_far and sync or lengths.most < so_far + lasts


def cut_before(lengths, run, begin, lasts, group):
    """Returns whether the group joins the part under way, or begins a new part or segment: 'joins', 'parts' or 'segments'."""
    if not (run.size > 0 and (run.start < begin or LIMIT < run.size + group.size)):
        return 'joins'
    if ends_segment(lengths, minus(begin, run.segment), lasts, group.heard.sync):
        return 'segments'
    if lengths.part < minus(begin + lasts, run.start) or LIMIT < run.size + group.size:
        return 'parts'
    return 'joins'


def shift_of(movie, run):
    return Shift(tuple((track.id, track.scale) for track in movie.tracks), movie.governing.scale, run.base, run.end)


def part_of(movie, run, duration, last):
    return Part(run.units, duration, run.sync, last, shift_of(movie, run))


def last_part(movie, run, end):
    return part_of(movie, run, max(1, minus(end, run.start)), True)


def rounded_up(a, b):
    return (a + b - 1) // b


class Step(NamedTuple):
    pieces: tuple
    run: Run


def joined_to(cut, run, begin, lasts, group):
    if cut == 'joins':
        return run._replace(units=run.units + group.units, size=run.size + group.size, sync=run.sync if run.units else group.heard.sync, before=lasts)
    segment = begin if cut == 'segments' else run.segment
    return run._replace(start=begin, units=group.units, size=group.size, sync=group.heard.sync, segment=segment, before=lasts)


def judged(lengths, movie, run, group, next):
    """Returns the pieces that a group at the run's position completes, once `next`, which comes after it, is known, and the run after it."""
    scale = movie.governing.scale
    said = said_to(scale, run, group.heard.ticks, next)
    begin = at_tick(scale, run, run.position)
    lasts = lasts_of(lengths, scale, run, group.heard.ticks, said)
    cut = cut_before(lengths, run, begin, lasts, group)
    before = () if cut == 'joins' else (part_of(movie, run, max(1, minus(begin, run.start)), cut == 'segments'),)
    run = joined_to(cut, run, begin, lasts, group)
    end = begin + lasts
    if isinstance(next, At) and said <= lengths.part:
        return Step(before, run._replace(position=next.tick))
    last = last_part(movie, run, end)
    if isinstance(next, Over):
        return Step(before + (last,), run)
    stands = run.end + run.start + last.duration
    if isinstance(next, Back):
        return Step(before + (last, Break(None), Init(movie.data)), run_from(next.tick, stands, next.tick))
    since = rounded_up(minus(next.tick, run.origin) * SECOND, scale)
    return Step(before + (last, Break(since), Init(movie.data)), run_from(next.tick, stands, run.origin))


def jumps(lengths, scale, run, ticks, next):
    """Returns whether a run ends between a fragment and the next one of its movie."""
    return isinstance(next, Back) or isinstance(next, At) and said_to(scale, run, ticks, next) > lengths.part


# ---- which fragments of other tracks go with which

def nearer(scale, position, tick, element):
    """Returns whether an element between two fragments belongs to the second, which begins at `tick`; an element without a time doesn't."""
    when = element.when if isinstance(element, Fragment) else None
    if when is None:
        return False
    at = when.time * scale
    return abs(at - tick * when.scale) < abs(at - position * when.scale)


def shared(scale, position, tick, between):
    """Returns the elements that stay with the first fragment, and, from the first that is nearer to the second, those that lead that one."""
    for n, element in enumerate(between):
        if nearer(scale, position, tick, element):
            return between[:n], between[n:]
    return between, ()


def time_of(run, before, heard):
    """Returns a fragment's decode time: its own, or where the one before it ends by its samples, or 0."""
    if heard.time is not None:
        return heard.time
    return run.position + before.ticks if before is not None else 0


def group_of(time, lead, fragment, followers):
    units = tuple(lead) + (fragment,) + tuple(followers)
    return Group(fragment.heard, time, tuple(u.data for u in units), sum(u.size for u in units))


def sizes(units):
    return sum(u.size for u in units)


# ---- the whole list

def movies_of(found):
    """Returns (movie, its elements) for each movie, and the fault."""
    movies, fault = [], None
    for element in found:
        if isinstance(element, Movie):
            movies.append((element, []))
        elif isinstance(element, Fault):
            fault = element.fault
        else:
            movies[-1][1].append(element)
    return movies, fault


def is_governing(element):
    return isinstance(element, Fragment) and element.heard is not None


def until_governing(found):
    for n, element in enumerate(found):
        if is_governing(element):
            return found[:n], found[n:]
    return found, []


def fitting(size, units):
    """Returns the longest prefix of `units` that fits with `size` bytes, and whether some are left."""
    for n, unit in enumerate(units):
        size += unit.size
        if size > LIMIT:
            return units[:n], True
    return units, False


def joined_movie(lengths, movie, end, found):
    """Returns (pieces, the rendition's end, fault) of a movie's elements."""
    if not lengths.ahead:
        return paced_movie(lengths, movie, end, found)
    lead, rest = until_governing(found)
    lead, full = fitting(0, lead)
    if full:
        return (), end, 'TooLarge'
    if not rest:
        return (), end, None
    fault = refused(lengths, movie, True, lead, rest[0])
    if fault:
        return (), end, fault
    time = time_of(None, None, rest[0].heard)
    return said_of(lengths, movie, run_from(time, end, time), tuple(lead), time, rest)


def refused(lengths, movie, begins, lead, fragment):
    """Returns why a fragment, led by `lead`, can't be published, or None; `begins` says whether it begins a run."""
    if begins and lengths.part < fragment.heard.ticks * SECOND // movie.governing.scale:
        return 'TooLong'
    return 'TooLarge' if LIMIT < sizes(lead) + fragment.size else None


def said_of(lengths, movie, run, lead, time, found):
    """Returns the same as `joined_movie` for elements that begin with a governing fragment at the run's position, led by `lead`. A recursion, written as a loop for Python's sake."""
    scale, pieces = movie.governing.scale, ()
    while True:
        fragment, (between, rest) = found[0], until_governing(found[1:])
        between, full = fitting(sizes(lead) + fragment.size, between)
        fault, next, mine, theirs = 'TooLarge' if full else None, Over(), between, ()
        if rest and not full:
            later = time_of(run, fragment.heard, rest[0].heard)
            next = next_at(lengths, scale, run.position, later)
            begins = jumps(lengths, scale, run, fragment.heard.ticks, next)
            if begins:
                mine, theirs = shared(scale, run.position, next.tick, between)
            fault = refused(lengths, movie, begins, theirs, rest[0])
            if fault:
                next, mine = Over(), between
        step = judged(lengths, movie, run, group_of(time, lead, fragment, mine), next)
        pieces += step.pieces
        if isinstance(next, Over):
            return pieces, ended_at(step), fault
        run, lead, time, found = step.run, tuple(theirs), later, rest


def ended_at(step):
    """Returns where the rendition ends after the last part of a run."""
    last = step.pieces[-1] if step.pieces else None
    return step.run.end + step.run.start + last.duration if last is not None else step.run.end


# ---- if each fragment is a part

class Pace(NamedTuple):               # a run of parts
    base: int                         # its first tick
    place: int                        # the tick at which its samples so far end
    lasted: int                       # how long its parts are, in microseconds
    segment: int                      # how long those of the open segment are, or 0 if none is open
    end: int                          # where the rendition ended as the run began
    origin: int


def pace_from(tick, end, origin):
    return Pace(tick, tick, 0, 0, end, origin)


def finished(pace):
    return (Finish(),) if pace.segment else ()


def paced_end(pace):
    return min(TOP, pace.end + pace.lasted)


def to_fragment(lengths, movie, pace, heard):
    """Returns the pieces before a fragment, and the run that it continues or begins: its own time counts only if that is off by more than a part."""
    away = 0 if heard.time is None else heard.time - pace.place
    if abs(away) * SECOND <= lengths.part * movie.governing.scale:
        return (), pace
    if away < 0:
        return finished(pace) + (Break(None), Init(movie.data)), pace_from(heard.time, paced_end(pace), heard.time)
    since = rounded_up(minus(heard.time, pace.origin) * SECOND, movie.governing.scale)
    return finished(pace) + (Break(since), Init(movie.data)), pace_from(heard.time, paced_end(pace), pace.origin)


def paced(lengths, movie, pace, units):
    """Returns the part of a fragment at the run's place, the last of `units`, and the run after it."""
    heard, scale = units[-1].heard, movie.governing.scale
    place = pace.place + heard.ticks
    lasts = max(1, minus(minus(place, pace.base) * SECOND // scale, pace.lasted))
    if place > TOP or place * SECOND // scale > LAST or lasts > lengths.part or pace.lasted + lasts > LAST:
        raise Refused('TooLong')
    if sizes(units) > LIMIT:
        raise Refused('TooLarge')
    segment = pace.segment + lasts
    last = segment >= lengths.segment or segment + lengths.part > lengths.most
    part = Part(tuple(u.data for u in units), lasts, heard.sync, last, shift_of(movie, pace))
    return part, pace._replace(place=place, lasted=pace.lasted + lasts, segment=0 if last else segment)


def paced_movie(lengths, movie, end, found):
    """Returns (pieces, the rendition's end, fault) of a movie's elements. Elements that no governing fragment follows are left out."""
    pieces, lead, pace, fault = (), (), None, None
    try:
        for element in found:
            lead += (element,)
            if is_governing(element):
                time = time_of(None, None, element.heard)
                before, to = to_fragment(lengths, movie, pace, element.heard) if pace else ((), pace_from(time, end, time))
                part, pace = paced(lengths, movie, to, lead)
                pieces, lead = pieces + before + (part,), ()
            elif sizes(lead) > LIMIT:
                raise Refused('TooLarge')
    except Refused as refused:
        fault = refused.fault
    return (pieces + finished(pace), paced_end(pace), fault) if pace else (pieces, end, fault)


def joined(found, lengths, end=0):
    """Returns the pieces of a stream's elements for a rendition that ends at `end`, and the fault that ends them."""
    movies, fault = movies_of(found)
    pieces = ()
    for movie, these in movies:
        more, end, full = joined_movie(lengths, movie, end, these)
        pieces += (Start(), Init(movie.data)) + more
        if full:
            return pieces, full
    return pieces, fault
