"""A server that listens at any addresses: IPv6, socket files, hosts' names."""
import contextlib
import http.client
import pathlib
import re
import socket

from rooms import check

CAM = 'channel cam target=4 part=1000000 skip=24 window=36 renditions=hi,lo first=0 start=4000000000000'
ANY, ANY6 = '127.0.0.1:0', '[::1]:0'


class Doors:
    """A server of the room that listens at these addresses, `players` and `publishers` as it says them."""

    def __init__(self, room, listen, publish, *lines, mask=0o022):
        settings = room.folder / 'settings'
        settings.write_text('\n'.join([f'listen {listen}', f'publish {publish}', 'workers 4', *lines, CAM, '']))
        words = ['bash', '-c', f'umask {mask:o}; exec "$@"', 'bash', room.program, 'serve', settings]
        self.process = room.start(words)
        self.players, self.publishers = room.comes(self.said)

    def said(self):
        """Returns where the server says that players and publishers connect, once it does."""
        log = pathlib.Path(f'{self.process.name}.stderr').read_text()
        found = re.fullmatch('llhls: players on (.*)\nllhls: publishers on (.*)\n', log)
        check(found, f"the server isn't up: {log!r}")
        return found.groups()

    def kill(self):
        """Kills the server at once."""
        self.process.kill()
        self.process.wait()

    def lists(self, words):
        """Tests that a player finds these words in the playlist."""
        host, _, port = self.players.rpartition(':')
        player = http.client.HTTPConnection(host.strip('[]'), int(port), timeout=10)
        with contextlib.closing(player):
            player.request('GET', '/cam/hi/live.m3u8')
            playlist = player.getresponse().read().decode()
        check(words in playlist, f'the playlist is {playlist}')


def has_ipv6():
    """Returns whether this machine has the address ::1."""
    with contextlib.suppress(OSError), socket.socket(socket.AF_INET6) as link:
        link.bind(('::1', 0))
        return True
    return False
