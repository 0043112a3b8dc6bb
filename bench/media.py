"""media.py grow PORT PROCESS COUNT SIZE: publishes COUNT parts of SIZE bytes to the channel `cam` on one connection, each when the one before it is answered, four to a
segment, and prints after each tenth of them the resident memory of the server, and how many bytes per second it took. The last three lines say the same of all parts; how much
more memory the server has than at the start, and how much media its window of 36 seconds has; and whether the memory still grows: whether it is larger after the last tenth than
at half time by more than a hundredth and 256 KB.

media.py fill PORT FLAGS:SIZE..: publishes parts with these flags and sizes. The bytes of each segment are 0, 1, 2 .. 250, and from 0 on again, as bench/load.c expects."""
import socket
import sys
import time

SEGMENT = 4  # parts
WINDOW = 36  # parts of finished segments
PERIOD = 251


def resident(process):
    """Returns the resident memory of a process in KB."""
    with open(f"/proc/{process}/status") as status:
        return next(int(line.split()[1]) for line in status if line.startswith("VmRSS:"))


class Publisher:
    """A connection on which parts are published."""

    def __init__(self, port):
        self.connection = socket.create_connection(("127.0.0.1", port))
        self.answers = self.connection.makefile("rb")
        self.count = 0

    def publish(self, flags, media):
        self.connection.sendall(b"cam part hi 1000000 %s %d\n%s\n" % (flags.encode(), len(media), media))
        self.count += 1
        answer = self.answers.readline()
        if answer != b"ok %d\n" % self.count:
            sys.exit(f"part {self.count} is answered {answer!r}")


def speed(count, size, took):
    return f"{count * size / took / 1e6:.0f} MB/s, {count / took:.0f} parts/s"


def grow(port, process, count, size):
    kept = [resident(process)]
    print(f"at the start: {kept[0]} KB")
    media = bytes(size)
    publisher = Publisher(port)
    started = time.monotonic()
    for tenth in range(10):
        began = time.monotonic()
        for number in range(tenth * count // 10, (tenth + 1) * count // 10):
            publisher.publish({0: "i", SEGMENT - 1: "f"}.get(number % SEGMENT, "-"), media)
        took = time.monotonic() - began
        kept.append(resident(process))
        print(f"after {tenth + 1} tenths of {count} parts of {size} bytes: {kept[-1]} KB, {speed(count // 10, size, took)}")
    print(f"{count} parts of {size} bytes: {speed(count, size, time.monotonic() - started)}")
    window = (min(WINDOW, count // SEGMENT * SEGMENT) + count % SEGMENT) * size // 1024
    print(f"{kept[10] - kept[0]} KB more than at the start, for {window} KB of media: {(kept[10] - kept[0]) / window:.2f}")
    more = kept[10] - kept[5]
    if more > max(kept[5] // 100, 256):
        print(f"it still grows: by {more} KB since half time")
    else:
        print(f"it grows no more: {more} KB since half time")


def fill(port, *parts):
    publisher = Publisher(port)
    done = 0
    for part in parts:
        flags, size = part.split(":")
        publisher.publish(flags, bytes((done + at) % PERIOD for at in range(int(size))))
        done = 0 if "f" in flags else done + int(size)


if sys.argv[1] == "grow":
    grow(*map(int, sys.argv[2:]))
else:
    fill(int(sys.argv[2]), *sys.argv[3:])
