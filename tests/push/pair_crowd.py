"""The crowd of tests/pair.py: an encoder that writes a fragment after another, and players of two origins that give the same bytes."""
import os
import random
import re
import socket
import threading
import time

from push_made import FTYP, MOOV, PLAIN, box, moof
from rooms import check
from serve_room import Broken, body

LONG = os.environ.get('LONG') == '1'
PLAYERS = int(os.environ.get('PLAYERS', 200 if LONG else 20))
PACE = 0.1    # seconds between two fragments, of which a part has two
PATIENCE = 6    # seconds that a player goes on asking
SEGMENT = 4    # parts


class Encoder(threading.Thread):
    """Writes a fragment after another to a push, until it is over."""

    def __init__(self, push):
        super().__init__(daemon=True)
        self.push, self.over, self.count, self.fault = push, threading.Event(), 0, ''
        self.start()

    def run(self):
        draw = random.Random(5)
        try:
            self.push.stdin.write(FTYP + MOOV)
            while not self.over.wait(PACE):
                flags = 0 if self.count % 4 == 0 else PLAIN
                self.push.stdin.write(moof([250], flags) + box(b'mdat', draw.randbytes(draw.randrange(1, 50000))))
                self.push.stdin.flush()
                self.count += 1
            self.push.stdin.close()
        except OSError as error:
            self.fault = f'the push takes no more: {error}'

    def close(self):
        """Ends the input."""
        self.over.set()
        self.join(timeout=60)


class Players:
    """Players of both renditions. Each asks one of two origins at a time, and the other if that one doesn't answer well: the two give the same bytes."""

    def __init__(self, room, origins):
        self.room, self.origins, self.over, self.faults, self.lock = room, origins, threading.Event(), [], threading.Lock()
        self.seen, self.answers, self.again = {}, 0, 0
        self.threads = [threading.Thread(target=self.until_over, args=('hi' if seed % 2 else 'lo', seed)) for seed in range(PLAYERS)]
        for each in self.threads:
            each.start()

    def close(self):
        """Ends them, and fails if one of them has found something wrong."""
        self.over.set()
        for each in self.threads:
            each.join()
        check(not self.faults, '\n'.join(self.faults[:5]))

    def until_over(self, name, seed):
        """Follows a rendition."""
        try:
            self.follow(name, random.Random(seed))
        except Exception as error:
            self.faults.append(f'player {seed} of {name}: {error!r}')
            self.over.set()

    def ask(self, links, draw, target):
        """Returns a good answer to a request, and the number of the origin that gave it: of either one, or of the other if that has none. If neither has one, it asks again for a while."""
        end = time.monotonic() + PATIENCE
        while not self.over.is_set():
            said, first = [], draw.randrange(2)
            for number in (first, 1 - first):
                try:
                    if links[number] is None:
                        links[number] = socket.create_connection(('127.0.0.1', self.origins[number].ports[0]), timeout=20)
                    status, media = body(links[number], target)
                    if status == 200:
                        return number, media
                    said.append(f'{number}: {status}')
                except (Broken, OSError) as error:
                    links[number] = None
                    said.append(f'{number}: {error!r}')
            check(time.monotonic() < end, f'{target} is answered {said}')
            self.again += 1
            self.over.wait(0.05)
        raise Broken

    def follow(self, name, draw):
        """Asks for one part after another. Playlists of one origin don't go back, and each name has the same bytes everywhere."""
        folder, links, stood, place = f'/cam/{name}', [None, None], [(0, 0, 0)] * 2, None
        try:
            while not self.over.is_set():
                query = '' if place is None else f'?_HLS_msn={place[0]}&_HLS_part={place[1]}'
                number, text = self.ask(links, draw, f'{folder}/live.m3u8{query}')
                first = int(re.search(rb'#EXT-X-MEDIA-SEQUENCE:([0-9]+)', text)[1])
                hint = re.search(rb'TYPE=PART,URI="s([0-9]+)\.([0-9]+)\.m4s"', text)
                place = int(hint[1]), int(hint[2])
                # Players have a part before its publisher is answered, so the last one may be gone after a start.
                last = stood[number]
                check(place[0] * SEGMENT + place[1] >= last[1] * SEGMENT + last[2] - 1, f'{folder} of origin {number} goes back from {last} to {place}')
                check(first >= last[0] - 1, f'{folder} of origin {number} goes back from {last} to {first}')
                stood[number] = (first, *place)
                for file in re.findall(rb'URI="(s[0-9]+\.[0-9]+\.m4s)",?', text)[-2:-1]:
                    _, media = self.ask(links, draw, f'{folder}/{file.decode()}')
                    with self.lock:
                        wanted = self.seen.setdefault((name, file), media)
                        self.answers += 1
                    check(media == wanted, f'{file} of {name} has other bytes than before')
        except Broken:
            pass
        finally:
            for each in links:
                if each is not None:
                    each.close()
