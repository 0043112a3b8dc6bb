"""A player of the rendition hi of a channel: what its playlist lists, and the bytes that it gets of it."""
import datetime
import http.client
import re

# Lines of a playlist, and the words for them.
LISTED = (
    (re.compile(r'#EXT-X-MAP:URI="(.*)\.mp4"'), r'\1'),
    (re.compile(r'#EXT-X-PART:.*URI="([^"]*)\.m4s".*'), r'\1'),
    (re.compile(r'#EXT-X-PRELOAD-HINT:TYPE=PART,URI="(.*)\.m4s"'), r'then \1'),
    (re.compile(r'#EXT-X-(DISCONTINUITY|ENDLIST)'), r'\1'),
    (re.compile(r'#EXTINF:(.*),\n(.*)\.m4s'), r'\2=\1'),
)
TIME = '#EXT-X-PROGRAM-DATE-TIME:'


class Player:
    """A player of a channel at the server whose port for players this is."""

    def __init__(self, port, channel):
        self.port, self.folder = port, f'/{channel}/hi/'

    def get(self, name):
        """Returns the body of the response to a request of this file, on a connection of its own."""
        connection = http.client.HTTPConnection('127.0.0.1', self.port, timeout=10)
        try:
            connection.request('GET', self.folder + name)
            response = connection.getresponse()
            body = response.read()
        finally:
            connection.close()
        if response.status != 200:
            raise OSError(f'{name} is answered {response.status} {body[:100]!r}')
        return body

    def lines(self):
        """Returns the lines of the playlist."""
        return self.get('live.m3u8').decode().splitlines()

    def listed(self):
        """Returns what the playlist has, in order: sections and parts, segments with their seconds, the next part after `then`, breaks and the end."""
        lines, words = self.lines(), []
        for line, after in zip(lines, [*lines[1:], '']):
            told = f'{line}\n{after}' if line.startswith('#EXTINF:') else line
            words += [found.expand(wanted) for each, wanted in LISTED if (found := each.fullmatch(told))]
        return ' '.join(words)

    def dates(self):
        """Returns the times of the segments in the playlist, in milliseconds since 1970."""
        start = datetime.datetime.fromtimestamp(0, datetime.timezone.utc)
        times = [line[len(TIME):].replace('Z', '+00:00') for line in self.lines() if line.startswith(TIME)]
        return [(datetime.datetime.fromisoformat(time) - start) // datetime.timedelta(milliseconds=1) for time in times]

    def joined(self):
        """Returns all bytes that the playlist names, one after another, and which segments aren't the bytes of their parts."""
        joined, parts, wrong = b'', b'', []
        for line in self.lines():
            quoted = re.search(r'^#EXT-X-(MAP|PART):.*URI="([^"]*)"', line)
            if quoted and quoted[1] == 'MAP':
                joined += self.get(quoted[2])
            elif quoted:
                parts += self.get(quoted[2])
            elif line and line[0] != '#':
                segment = self.get(line)
                if parts not in (b'', segment):
                    wrong.append(line)
                joined, parts = joined + segment, b''
        return joined + parts, wrong

    def fault_in(self, wanted):
        """Returns what is wrong if the bytes that the playlist names aren't those that are wanted, of which the last whole boxes may be left out; '' if they are right."""
        joined, wrong = self.joined()
        if wrong:
            return f"the parts of {wrong[0]} aren't its bytes"
        rest = wanted[len(joined):]
        while len(rest) >= 8 and 8 <= int.from_bytes(rest[:4], 'big') <= len(rest):
            rest = rest[int.from_bytes(rest[:4], 'big'):]
        if not wanted.startswith(joined) or rest:
            return f'{len(joined)} bytes are served of {len(wanted)}, and {len(rest)} are left'
        return ''
