#!/usr/bin/env python3
"""A second implementation of what `llhls push` sends of an encoder's output: tests/push.py compares the program with it. It is in three files:

    elements(data)                     the units of the stream, read one by one; the fault that ends it, if one does: push_boxes.py
    joined(elements, lengths, end)     the pieces: initialization sections, parts, breaks; and the fault: push_joined.py
    messages(data, lengths)            what is sent of them: this file

Numbers are natural numbers: `//` rounds down, `minus` is 0 if it would be negative. It reads the whole stream at once, and recurses over its fragments; the program takes a unit at a time.
"""
from typing import NamedTuple

from push_boxes import elements, has, inside, minus, number
from push_joined import Break, Init, Part, SECOND, Start, TOP, joined


def moved_time(shift, scale, time):
    """Returns a time of a track of this scale, moved; the greatest of 64 bits stands for any above it."""
    return min(TOP, minus(time + shift.end * scale // SECOND, shift.base * scale // shift.scale))


def scale_of(shift, track):
    for number_of, scale in shift.tracks:
        if number_of == track:
            return scale
    return None


def boxed(box, content):
    """Returns the box with this content, its size in as many bytes as before."""
    size = box.head + len(content)
    if box.head == 16:
        return box.data[:8] + size.to_bytes(8, 'big') + content
    return size.to_bytes(4, 'big') + box.data[4:8] + content


def with_time(content, place, time):
    """Returns a content with another time at `place`, which has 32 bits in version 0 and otherwise 64; it gets 64 bits if it needs them."""
    if content[0] == 0 and time < 1 << 32:
        return content[:place] + time.to_bytes(4, 'big') + content[place + 4:]
    if content[0] == 0:
        return b'\1' + content[1:place] + time.to_bytes(8, 'big') + content[place + 4:]
    return content[:place] + time.to_bytes(8, 'big') + content[place + 8:]


def has_time(content, place):
    return len(content) >= place + 4 and content[0] == 0 or len(content) >= place + 8 and content[0] == 1


def moved_within(content, scale, place, shift):
    """Returns a content with the time at `place` moved, or as it is if it has none."""
    if scale is None or not has_time(content, place):
        return content
    time = int.from_bytes(content[place:place + (8 if content[0] else 4)], 'big')
    return with_time(content, place, moved_time(shift, scale, time))


def moved_tfdts(traf, shift):
    """Returns a `traf`'s content with its time moved."""
    boxes = inside(traf)[0]
    ids = [number(4, box.content, 4) for box in boxes if box.kind == b'tfhd' and len(box.content) >= 8]
    scale = scale_of(shift, ids[0]) if ids else None
    return b''.join(boxed(box, moved_within(box.content, scale, 4, shift)) if box.kind == b'tfdt' else box.data for box in boxes)


def offset_by(content, more):
    """Returns the content of a `trun` whose samples begin `more` bytes later than it says."""
    if more == 0 or len(content) < 12 or not has(int.from_bytes(content[:4], 'big'), 0x01):
        return content
    offset = (int.from_bytes(content[8:12], 'big') + more) % (1 << 32)
    return content[:8] + offset.to_bytes(4, 'big') + content[12:]


def counts_from_moof(traf, first):
    """Returns whether the offsets of a `traf` are relative to the `moof`: not to a given place, nor to where the samples of the `traf` before end."""
    for box in inside(traf)[0]:
        if box.kind == b'tfhd' and len(box.content) >= 4:
            flags = int.from_bytes(box.content[:4], 'big')
            return not has(flags, 0x000001) and (first or has(flags, 0x020000))
    return False


def offsets_in(traf, more):
    return b''.join(boxed(box, offset_by(box.content, more)) if box.kind == b'trun' else box.data for box in inside(traf)[0])


def moved_moof(content, shift):
    boxes = inside(content)[0]
    trafs = [box for box in boxes if box.kind == b'traf']
    times = [moved_tfdts(traf.content, shift) for traf in trafs]
    grown = sum(len(new) - len(old.content) for new, old in zip(times, trafs))
    news = [offsets_in(new, grown) if counts_from_moof(new, n == 0) else new for n, new in enumerate(times)]
    written, n = b'', 0
    for box in boxes:
        if box.kind == b'traf':
            written += boxed(box, news[n])
            n += 1
        else:
            written += box.data
    return written


def moved_box(box, shift):
    if box.kind == b'moof':
        return boxed(box, moved_moof(box.content, shift))
    if box.kind == b'prft' and len(box.content) >= 8:
        scale = scale_of(shift, int.from_bytes(box.content[4:8], 'big'))
        return boxed(box, moved_within(box.content, scale, 16, shift))
    if box.kind == b'emsg' and box.content[:1] == b'\1' and len(box.content) >= 16:
        return boxed(box, moved_within(box.content, int.from_bytes(box.content[4:8], 'big'), 8, shift))
    return box.data


def moved(data, shift):
    """Returns the bytes of whole boxes as they are sent. Two kinds, whose numbers would be wrong, are left out."""
    return b''.join(moved_box(box, shift) for box in inside(data)[0] if box.kind not in (b'sidx', b'mfra'))


def sent(part):
    return b''.join(moved(unit, part.shift) for unit in part.units)


# 4. Messages

def message(place, word, *words, data=None):
    """Returns a line, and the bytes and LF after it if it has bytes."""
    channel, rendition = place
    line = ' '.join([channel, word, rendition, *words] + ([str(len(data))] if data is not None else []))
    return line.encode() + b'\n' + (data + b'\n' if data is not None else b'')


class Standing(NamedTuple):            # where a rendition stands: its next part, how long its parts last in microseconds, and its time in milliseconds
    number: int = 0
    index: int = 0
    end: int = 0
    time: int = 4000000000000          # far ahead of any clock, so that no break sets a time but after gaps


def rounded_to_millis(micros):
    return -(-micros // 1000)


def messages(data, lengths, place=('cam', 'hi'), ends=False, stands=Standing(), now=0):
    """Returns what is sent of an encoder's output if the rendition stands at `stands` and the clock shows `now`, one message each, and the fault that ends it."""
    pieces, fault = joined(elements(data), lengths, stands.end)
    sends, begun, index, end = [], False, stands.index, stands.end
    clock = origin = stands.time * 1000

    def breaks(time=None):
        nonlocal clock
        sends.append(message(place, 'break', *([] if time is None else [str(time)])))
        if time is not None:
            clock = time * 1000

    def finishes():
        nonlocal index
        sends.append(message(place, 'finish'))
        index = 0

    for piece in pieces:
        if isinstance(piece, Start):
            begun = True
            if index:
                finishes()
            if end:
                breaks(now if now * 1000 >= clock else None)
            elif now * 1000 > clock + lengths.part:
                breaks(now)
            origin = clock
        elif isinstance(piece, Init):
            sends.append(message(place, 'init', data=piece.data))
        elif isinstance(piece, Break) and piece.since is None:
            breaks()
            origin = clock
        elif isinstance(piece, Break):
            breaks(max(rounded_to_millis(origin + piece.since), rounded_to_millis(clock)))
        elif isinstance(piece, Part):
            flags = ('i' if piece.independent else '') + ('f' if piece.finishes else '')
            sends.append(message(place, 'part', str(piece.duration), flags or '-', data=sent(piece)))
            index = 0 if piece.finishes else index + 1
            end += piece.duration
            clock += piece.duration
        else:
            finishes()
    if fault is None and not begun:
        fault = 'NoMoov'
    if ends and fault is None:
        sends.append(message(place, 'end'))
    return sends, fault
