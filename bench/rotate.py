"""rotate.py PUBLISHERS RECORDS: publishes parts of channel cam by one connection until RECORDS records are full, and prints a line for each part:
the seconds since the first, and the microseconds to its answer.
"""
import gc
import socket
import sys
import time

RECORD = 65_536  # items, requests and readings that a record holds


def main(port, records):
    link = socket.create_connection(("127.0.0.1", port), timeout=60)
    link.setsockopt(socket.IPPROTO_TCP, socket.TCP_NODELAY, 1)
    lines = [f"cam part hi 1000000 {kind}\n".encode() for kind in ("i", "-", "-", "f")]
    times = []
    gc.disable()
    start = time.perf_counter()
    for number in range(records * RECORD):
        asked = time.perf_counter()
        link.sendall(lines[number % 4])
        answer = link.recv(64)
        answered = time.perf_counter()
        times.append((asked - start, answered - asked))
        if answer != b"ok %d\n" % (number + 1):
            sys.exit(f"part {number + 1} is answered {answer!r}")
    for since, took in times:
        print(f"{since:.6f} {took * 1e6:.1f}")


main(int(sys.argv[1]), int(sys.argv[2]))
