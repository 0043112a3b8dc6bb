#!/usr/bin/env python3
"""publish.py [--loop] HOST:PORT CHANNEL RENDITION FILE: publishes a fragmented MP4 file of one track to a running `llhls serve`, as an encoder would while it makes it.

What stands before the first `moof` box is the Media Initialization Section. Each `moof` with what comes after it, up to the next, is a part; it is sent when its time is over. A
segment ends where the next part begins with a key frame, so there has to be one at least every target duration. It asks first where the rendition stands: an open segment is
finished, and parts that are there already end with a break at the present time. The times in its parts go on from there, also with --loop, which begins the file anew where it ends;
without it, the rendition ends. A refusal is shown, and ends it."""
import socket
import struct
import sys
import time


def boxes(data, at, end):
    """Each box as its type, where it begins, where its content begins, and where it ends."""
    while at < end:
        size, kind = struct.unpack_from(">I4s", data, at)
        yield kind, at, at + 8, at + size
        at += size


def within(data, box, kinds):
    """The first box that is found in this one by going down through these types."""
    for kind in kinds:
        box = next(each for each in boxes(data, box[2], box[3]) if each[0] == kind)
    return box


def numbers(data, box, count, skip=0):
    """The flags of a box, and numbers of 32 bits from so many bytes after them."""
    return struct.unpack_from(f">{1 + count}I", data, box[2])[0] & 0xFFFFFF, list(struct.unpack_from(f">{count}I", data, box[2] + 4 + skip))


def later(data, ticks):
    """A part whose decode time (`tfdt`, of 32 bits in version 0 and else of 64) is so many ticks later."""
    moof = next(box for box in boxes(data, 0, len(data)) if box[0] == b"moof")
    place = within(data, moof, [b"traf", b"tfdt"])[2]
    form = ">Q" if data[place] else ">I"
    moved = bytearray(data)
    struct.pack_into(form, moved, place + 4, struct.unpack_from(form, data, place + 4)[0] + ticks)
    return bytes(moved)


def parts(data):
    """The bytes before the first part; the ticks of a second and of all parts; and for each part its microseconds, whether it begins with a key frame, and its bytes."""
    top = list(boxes(data, 0, len(data)))
    starts = [box[1] for box in top if box[0] == b"moof"] + [len(data)]
    moov = next(box for box in top if box[0] == b"moov")
    header = within(data, moov, [b"trak", b"mdia", b"mdhd"])
    (scale,) = numbers(data, header, 1, 16 if data[header[2]] else 8)[1]
    usual = numbers(data, within(data, moov, [b"mvex", b"trex"]), 5)[1][2:5]
    found, done = [], 0
    for number, box in enumerate(box for box in top if box[0] == b"moof"):
        # (sizes, flags and durations of samples stand in trex, or else in tfhd, or else in trun)
        set_in, words = numbers(data, within(data, box, [b"traf", b"tfhd"]), 6)
        words = words[1 + 2 * (set_in & 1) + (set_in >> 1 & 1):]
        duration, _, flags = [words.pop(0) if set_in & bit else usual[place] for place, bit in enumerate((8, 16, 32))]
        run = within(data, box, [b"traf", b"trun"])
        set_in, (samples,) = numbers(data, run, 1)
        at = run[2] + 8 + (set_in & 1) * 4
        fields = [bit for bit in (256, 512, 1024, 2048) if set_in & bit]
        if set_in & 4 or set_in & 1024:
            (flags,) = struct.unpack_from(">I", data, at + (0 if set_in & 4 else 4 * fields.index(1024)))
        at += set_in & 4
        length = sum(struct.unpack_from(">I", data, at + 4 * len(fields) * n)[0] for n in range(samples)) if set_in & 256 else duration * samples
        # (so that they don't drift, durations are differences of times)
        found.append(((done + length) * 1000000 // scale - done * 1000000 // scale, not flags & 0x10000, data[starts[number]:starts[number + 1]]))
        done += length
    return data[:starts[0]], scale, done, found


def main(loop, host, port, channel, rendition, name):
    with open(name, "rb") as file:
        section, scale, ticks, found = parts(file.read())
    with socket.create_connection((host, port)) as publisher:
        answers = publisher.makefile("r")

        def send(words, media=None, wanted="ok "):
            line = f"{channel} {words}" if media is None else f"{channel} {words} {len(media)}"
            publisher.sendall(f"{line}\n".encode() + (b"" if media is None else media + b"\n"))
            answer = answers.readline().rstrip("\n")
            print(f"{line}: {answer}", flush=True)
            if not answer.startswith(wanted):
                sys.exit(1)
            return answer.split()

        # (how many items, the place of the next part, the microseconds of all parts, and the least time that a break may set)
        _, _, _, index, end, clock = send(f"at {rendition}", wanted="at ")[:6]
        if int(index) > 0:
            send(f"finish {rendition}")
        if int(end) > 0:
            now = int(time.time() * 1000)
            send(f"break {rendition} {now}" if now >= int(clock) else f"break {rendition}")
        send(f"init {rendition}", section)
        due, before = time.monotonic(), int(end) * scale // 1000000
        while True:
            for number, (length, key, media) in enumerate(found):
                last = number + 1 == len(found) or found[number + 1][1]
                due += length / 1e6
                time.sleep(max(0, due - time.monotonic()))
                send(f"part {rendition} {length} {'i' * key}{'f' * last}{'-' * (not key and not last)}", later(media, before))
            if not loop:
                return send(f"end {rendition}")
            before += ticks


if __name__ == "__main__":
    words = [word for word in sys.argv[1:] if word != "--loop"]
    if len(words) != 4 or ":" not in words[0]:
        sys.exit(__doc__.splitlines()[0])
    main("--loop" in sys.argv, words[0].rsplit(":", 1)[0], int(words[0].rsplit(":", 1)[1]), *words[1:])
