#!/usr/bin/env python3
"""What bench/push.sh needs beside the shell.

push.py input COUNT BYTES MILLIS    writes a movie and COUNT fragments of about BYTES bytes and MILLIS milliseconds each, one in twenty of which begins with a sync sample
push.py origin FILE                 is an origin for one connection: writes its port to FILE, and accepts each message, whose bytes it skips; its rendition has no parts
"""
import os
import pathlib
import socket
import sys

sys.path.insert(0, str(pathlib.Path(__file__).resolve().parents[1] / 'tests/lib'))
from push_made import FTYP, MOOV, PLAIN, box, moof


def write(data):
    while data:
        data = data[os.write(1, data):]


def make(count, size, millis):
    samples = box(b'mdat', bytes(size))
    fragments = [moof([millis], 0 if n % 20 == 0 else PLAIN) + samples for n in range(20)]
    write(FTYP + MOOV)
    for n in range(count):
        write(fragments[n % 20])


def origin(file):
    listener = socket.create_server(('127.0.0.1', 0))
    with open(file, 'w') as told:
        print(listener.getsockname()[1], file=told)
    link, _ = listener.accept()
    link.setsockopt(socket.IPPROTO_TCP, socket.TCP_NODELAY, 1)
    room = memoryview(bytearray(1 << 21))
    held, count = b'', 0
    while True:
        end = held.find(b'\n')
        if end < 0:
            more = link.recv(65536)
            if not more:
                return
            held += more
            continue
        words, held = held[:end].split(), held[end + 1:]
        if words[1] == b'at':
            link.sendall(b'at 0 0 0 0 4000000000000\n')
            continue
        left = int(words[-1]) + 1 if words[1] in (b'init', b'part') else 0
        left, held = max(0, left - len(held)), held[left:]
        while left:
            left -= link.recv_into(room, min(left, len(room)))
        count += 1
        link.sendall(b'ok %d\n' % count)


command, *words = sys.argv[1:]
if command == 'input':
    make(*map(int, words))
elif command == 'origin':
    origin(*words)
