#!/usr/bin/env python3
"""edge.py PROGRAM [TEST..]: puts nginx and Varnish, with the settings of examples/edge but on loopback alone, in front of `llhls serve` with 64 workers, for each test anew. Up to a thousand
players wait there, and the record of the channel shows what reached the server: for each part one request for the playlist and one for the part, each file of media once, each refusal as
often as it was asked for, and one request if a hundred players waited for what didn't come. Without nginx or Varnish it says so and tests nothing. The last line is `N passed, M failed`."""
import contextlib
import getpass
import grp
import gzip
import http.client
import os
import pathlib
import random
import re
import select
import shutil
import socket
import subprocess
import sys
import time

sys.path.insert(0, str(pathlib.Path(__file__).resolve().parents[1] / 'lib'))
from rooms import ROOT, check, ended, free_port, missing, open_many_files, try_named
from serve_room import ServeRoom

EDGE = ROOT / 'examples' / 'edge'
NEEDED = ('varnishd', 'nginx', 'openssl')
CHANNEL = 'channel cam target=2 part=500000 skip=12 window=18 renditions=hi first=0 start=0'
PLAYERS = 1000
ROUNDS = 6
SEGMENT = 4     # parts
SECONDS = 20    # for any answer
HANDED_OUT = 11     # seconds: records are handed out every 10
FOLDER = '/cam/hi/'
PRESENT = FOLDER + 'live.m3u8'
OTHER_SITES = 'Access-Control-Allow-Origin'
# What the record counts of requests, unless a test says otherwise.
NONE = {'most held': 0, 'held and answered': 0, 'answered at once': 0, 'timed out': 0, 'given up': 0, 'too far': 0}

# ---- what runs


class EdgeRoom(ServeRoom):
    """The folder of a test, its server, and what stands in front of that: `port` is nginx's for HTTP, and `tls` its port for HTTP/2."""

    def edge(self):
        """Starts the server, Varnish and nginx, and waits until all listen. Returns a publisher."""
        self.serve(f'record {self.folder}/record', CHANNEL, workers=64)
        varnish, self.port, self.tls = free_port(), free_port(), free_port()
        settings = self.folder / 'llhls.vcl'
        settings.write_text((EDGE / 'llhls.vcl').read_text().replace('"8080"', f'"{self.server.port}"'))
        self.start(['varnishd', *'-j none -F -T none -s malloc,64m -p backend_idle_timeout=20 -p timeout_idle=30 -n'.split(), self.folder / 'varnish', '-a', f'127.0.0.1:{varnish}', '-f', settings])
        self.start_nginx(varnish)
        for port in varnish, self.port, self.tls:
            self.comes(lambda: socket.create_connection(('127.0.0.1', port)).close(), seconds=20)
        return PartPublisher(self)

    def start_nginx(self, varnish, *changes):
        """Starts nginx in front of Varnish's port, with these further changes of its settings, each an old text and a new one."""
        (self.folder / 'live/cam').mkdir(parents=True)
        shutil.copy(EDGE / 'main.m3u8', self.folder / 'live/cam')
        subprocess.run(['openssl', *'req -x509 -newkey rsa:2048 -nodes -days 2 -subj /CN=localhost -keyout live.key -out live.pem'.split()], cwd=self.folder, check=True, capture_output=True)
        # Beside the port with TLS, one without it for the players.
        listens = f'listen 127.0.0.1:{self.port}; listen 127.0.0.1:{self.tls} ssl http2;'
        paths = ' '.join(f'{kind}_temp_path {self.folder}/{kind};' for kind in ('client_body', 'proxy', 'fastcgi', 'uwsgi', 'scgi'))
        text = (EDGE / 'nginx.conf').read_text()
        for old, new in (('listen 443 ssl http2;', listens), ('127.0.0.1:6081', f'127.0.0.1:{varnish}'), ('/etc/ssl/', f'{self.folder}/'), ('/srv/live', f'{self.folder}/live'),
                         ('/run/', f'{self.folder}/'), ('/var/log/nginx/', f'{self.folder}/'), ('http {', f'http {{ {paths}'), *changes):
            check(old in text, f'nginx.conf has no {old!r}')
            text = text.replace(old, new)
        # Nobody else must be able to reach it.
        lines = [line.strip() for line in text.splitlines() if re.search(r'\blisten\b', line)]
        check(lines == [listens], f'nginx would listen elsewhere: {lines}')
        settings = self.folder / 'nginx.conf'
        settings.write_text(text)
        user = f'daemon off; user {getpass.getuser()} {grp.getgrgid(os.getgid()).gr_name};'
        self.start(['nginx', '-p', self.folder, '-c', settings, '-e', self.folder / 'error.log', '-g', user])

    def close(self):
        """Stops all that runs in the room, and lets nothing more start there."""
        # nginx and Varnish end what they have started if they are asked to end, and not if they are killed.
        fronts = [each for each in self.processes if each.args[0] in NEEDED]
        for each in fronts:
            each.terminate()
        for each in fronts:
            with contextlib.suppress(subprocess.TimeoutExpired):
                each.wait(timeout=5)
        super().close()

    def players(self, count):
        """Returns `count` players, which connect to nginx once they ask."""
        return [http.client.HTTPConnection('127.0.0.1', self.port, timeout=SECONDS) for _ in range(count)]

    def get(self, target, method='GET', **fields):
        """Makes a request on a connection of its own. Returns the status of the answer, its body and its fields."""
        player, = self.players(1)
        player.request(method, target, headers=fields)
        found = answer(player)
        player.close()
        return found

    def recorded(self, files={}, **counts):
        """Tests that the record, once it is written, counts these requests and no others, and how often each of `files` was asked for. A name has `_` for a space."""
        self.pause(HANDED_OUT)
        self.comes(self.has_counts, files, counts)

    def has_counts(self, files, counts):
        """Tests what the record counts now."""
        record = self.folder / 'record.cam'
        run = ended(self.start([self.program, 'explain', record]))
        check(run.status == 0, f"the record isn't right: {run.stderr}")
        lines = run.stdout.decode().splitlines()
        wanted = NONE | {name.replace('_', ' '): count for name, count in counts.items()}
        wrong = [f'{name} {count}' for name, count in wanted.items() if f'{name} {count}' not in lines]
        check(not wrong, '\n'.join([f"what is wanted and isn't there is {wrong}, and there is:", *lines]))
        for name, wanted in files.items():
            asked = len(re.findall(rf'^M [0-9]* hi {re.escape(name)} ', record.read_text(), re.M))
            check(asked == wanted, f'{name} was asked for {asked} times, and {wanted} is wanted')


class PartPublisher:
    """A publisher, and the bytes of the parts that it has published."""

    def __init__(self, room):
        self.publisher, self.parts = room.publisher(), []

    def publish(self):
        """Publishes the next part, of random bytes."""
        number = len(self.parts)
        self.parts.append(random.Random(number).randbytes(20000 + number))
        flags = {0: 'i', SEGMENT - 1: 'f'}.get(number % SEGMENT, '-')
        self.publisher.publish(f'cam part hi 500000 {flags}', f'ok {number + 1}', self.parts[-1])

    def end(self):
        """Ends the rendition."""
        self.publisher.send(b'cam end hi\n')


def answer(player):
    """Returns the status of the answer that comes to a player, its body and its fields."""
    response = player.getresponse()
    return response.status, response.read(), response.headers


def ask_all(players, *targets):
    """Each player asks for one of the targets, in turn. No answer comes yet. A connection that was closed is opened anew."""
    for number, player in enumerate(players):
        player.request('GET', targets[number % len(targets)])
    time.sleep(0.5)
    watch = select.poll()
    for player in players:
        watch.register(player.sock, select.POLLIN)
    check(not watch.poll(0), 'an answer comes before what it waits for')


def all_get(players, status, body):
    """Each player gets this answer, and hangs up."""
    for player in players:
        found = answer(player)
        check(found[:2] == (status, body), f'a request that waits is answered {found[:2]}')
        player.close()


# ---- tests


def thousand_players(room):
    """Players wait for part after part, half of them for the playlist with it and half for the part. Each gets the bytes that are published, or the playlist with them. A third of them hang
    up in between, and come again for the next part. The first part is cached after all."""
    publisher, players = room.edge(), room.players(PLAYERS)
    for number in range(ROUNDS):
        segment, index = divmod(number, SEGMENT)
        ask_all(players, f'{PRESENT}?_HLS_msn={segment}&_HLS_part={index}', f'{FOLDER}s{segment}.{index}.m4s')
        gone = players[::3] if number == 2 else []
        for player in gone:
            player.close()
        publisher.publish()
        texts = set()
        for at, player in enumerate(players):
            if player not in gone:
                status, body, _ = answer(player)
                check(status == 200, f'round {number}: player {at} is answered {status} {body[:100]}')
                if at % 2:
                    check(body == publisher.parts[-1], f'round {number}: player {at} has other media')
                else:
                    texts.add(body)
        check(len(texts) == 1, f'round {number} has {len(texts)} playlists')
        check(f'URI="s{segment}.{index}.m4s"' in texts.pop().decode(), f'round {number} has a playlist without its part')
    for player in players:
        player.close()
    status, body, fields = room.get(f'{FOLDER}s0.0.m4s')
    check((status, body) == (200, publisher.parts[0]) and fields[OTHER_SITES] == '*', f'a part that was waited for is answered {status} {len(body)}')
    room.recorded({'s0.0.m4s': 1}, most_held=2, held_and_answered=2 * ROUNDS)


def cached(room):
    """Media stays cached, whatever its query. A range of it can be asked for."""
    publisher = room.edge()
    for _ in range(SEGMENT):
        publisher.publish()
    segment = b''.join(publisher.parts)
    for query in '', '', '?a', '?_HLS_msn=7', '':
        status, body, _ = room.get(f'{FOLDER}s0.m4s{query}')
        check((status, body) == (200, segment), f'a segment is answered {status} {len(body)}')
    status, body, _ = room.get(f'{FOLDER}s0.m4s', Range='bytes=0-99')
    check((status, body) in ((206, segment[:100]), (200, segment)), f'a range is answered {status} {len(body)}')
    room.recorded({'s0.m4s': 1}, answered_at_once=1)


def refused(room):
    """A refusal isn't cached, and pages of other sites can read it."""
    room.edge().publish()
    for target, wanted in (f'{FOLDER}s99.m4s', (404, b'NotFound\n')), (f'{PRESENT}?_HLS_msn=99', (400, b'TooFar\n')):
        for _ in range(2):
            status, body, fields = room.get(target)
            check((status, body) == wanted, f'{target} is answered {status} {body}')
            check(fields[OTHER_SITES] == '*', f'{target} has no field for other sites')
    room.recorded({'s99.m4s': 2}, too_far=2)


def times_out(room):
    """A hundred players wait for what doesn't come. Each gets the time-out, by one request that waits at the server."""
    room.edge().publish()
    players, began = room.players(100), time.monotonic()
    ask_all(players, f'{PRESENT}?_HLS_msn=0&_HLS_part=1')
    all_get(players, 503, b'Timeout\n')
    took = time.monotonic() - began
    check(5 < took < 15, f'the time-out came after {took} s')
    # (Varnish keeps the answer for a tenth of a second. Who gets to it later than that, on a machine that is slow, waits once more.)
    room.recorded(most_held=1, timed_out=1 if took < 8 else 2)


def fields(room):
    """The playlist comes compressed to who can read that, by HTTP/2 if curl is there, and for HEAD without its body; pages of other sites can read each answer. nginx has the Multivariant
    Playlist itself."""
    room.edge().publish()
    status, text, plain = room.get(PRESENT)
    check(status == 200 and text.startswith(b'#EXTM3U\n') and plain['Content-Encoding'] is None, f'the playlist is answered {status} {text[:100]}')
    status, packed, found = room.get(PRESENT, **{'Accept-Encoding': 'gzip'})
    check(found['Content-Encoding'] == 'gzip' and gzip.decompress(packed) == text, 'no compressed playlist')
    for status, _, found in (status, packed, found), room.get(f'{FOLDER}s0.0.m4s'), room.get(PRESENT, 'OPTIONS'):
        check(status in (200, 204) and found[OTHER_SITES] == '*', f'no field for other sites, status {status}')
    status, body, found = room.get(PRESENT, 'HEAD')
    check(status == 200 and body == b'' and found['Content-Type'] == 'application/vnd.apple.mpegurl', f'HEAD is answered {status}')
    status, body, _ = room.get('/cam/main.m3u8')
    check(status == 200 and b'EXT-X-STREAM-INF' in body, f'the Multivariant Playlist is answered {status}')
    # Three playlists and the part.
    room.recorded({'s0.0.m4s': 1}, answered_at_once=4 + by_http2(room, text))


def has_http2():
    """Returns whether curl is installed, and knows HTTP/2."""
    return bool(shutil.which('curl')) and b'HTTP2' in subprocess.run(['curl', '--version'], capture_output=True).stdout


def by_http2(room, text):
    """Tests that curl, if it knows HTTP/2, gets the playlist by that. Returns how many requests it made."""
    if not has_http2():
        return 0
    run = ended(room.start(['curl', '-skm', '10', '-w', '%{http_version} %{http_code}', f'https://127.0.0.1:{room.tls}{PRESENT}']))
    check(run.stdout == text + b'2 200', f'no playlist by HTTP/2, but {run.stdout[-200:]}')
    return 1


def ends(room):
    """A hundred players wait for a part that never comes, because its rendition ends. Each gets NotFound; the playlist has its end."""
    publisher, players = room.edge(), room.players(100)
    publisher.publish()
    ask_all(players, f'{FOLDER}s0.1.m4s')
    publisher.end()
    began = time.monotonic()
    all_get(players, 404, b'NotFound\n')
    took = time.monotonic() - began
    check(took < 5, f'the end took {took} s')
    status, body, _ = room.get(PRESENT)
    check(status == 200 and body.endswith(b'\n#EXT-X-ENDLIST\n'), f'the playlist is answered {status}, and ends with {body[-100:]}')
    room.recorded(most_held=1, held_and_answered=1, answered_at_once=1)


def processes(room):
    """Two channels have servers of their own: by channels.conf nginx asks each for its channel, and the first for those that nobody has."""
    ports = [room.serve(CHANNEL.replace('cam', name), workers=4).port for name in ('cam', 'two')]
    text = (EDGE / 'channels.conf').read_text()
    for old, port in zip(('127.0.0.1:8080', '127.0.0.1:8090'), ports):
        check(old in text, f'channels.conf has no {old}')
        text = text.replace(old, f'127.0.0.1:{port}')
    settings = room.folder / 'channels.conf'
    settings.write_text(text)
    room.port, room.tls = free_port(), free_port()
    room.start_nginx(free_port(), ('http {', f'http {{ include {settings};'), ('proxy_pass http://llhls;', 'proxy_pass http://$server;'))
    room.comes(lambda: socket.create_connection(('127.0.0.1', room.port)).close(), seconds=20)
    room.publish('two part hi 500000 i', 'ok 1')
    for name, parts in ('cam', 0), ('two', 1):
        status, body, _ = room.get(f'/{name}/hi/live.m3u8')
        check(status == 200 and body.count(b'#EXT-X-PART:') == parts, f'{name} is answered {status}, {body}')
    check(room.get('/other/hi/live.m3u8')[0] == 404, 'a channel that nobody has is found')


TESTS = (thousand_players, cached, refused, times_out, fields, ends, processes)


def main(path, *names):
    if why := missing(*NEEDED):
        return try_named(EdgeRoom, path, names, [], skips=[(test, why) for test in TESTS])
    skips = [] if has_http2() else [(by_http2, 'no curl with HTTP/2')]
    open_many_files()
    return try_named(EdgeRoom, path, names, [(test,) for test in TESTS], skips=skips)


if __name__ == '__main__':
    sys.exit(main(*sys.argv[1:]))
