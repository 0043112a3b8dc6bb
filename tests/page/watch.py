#!/usr/bin/env python3
"""watch.py PROGRAM [TEST..]: tests `llhls serve` with the channel of examples/media.settings, to which examples/publish.py publishes examples/pattern.mp4 in real time, all or those of these
names. ffmpeg plays it from its first segment on, and has to see each frame of the file at its time, without a warning; the files of the playlist, one after another, are the file. If the
file is published over and over, the same parts follow the first eight seconds, with times eight seconds later; and a publisher that is killed in the middle of a segment and started again
goes on after a break at the present time. Without ffmpeg it says so and tests nothing. The last line is `N passed, M failed`."""
import pathlib
import re
import sys
import time

sys.path[:0] = [str(pathlib.Path(__file__).resolve().parents[1] / each) for each in ('lib', 'push/model')]
import push_model
from push_boxes import Movie, elements
from push_joined import Shift
from rooms import ROOT, check, ended, missing, try_named
from serve_room import ServeRoom

EXAMPLES = ROOT / 'examples'
FILE = EXAMPLES / 'pattern.mp4'
CHANNEL = re.search('^channel .*$', (EXAMPLES / 'media.settings').read_text(), re.M)[0]
FRAMES = 192
# ffmpeg reads the section anew after each playlist, and says so.
EXPECTED = re.compile('Found duplicated MOOV Atom|^ *Last message repeated')
BREAK = '#EXT-X-DISCONTINUITY'


def published(room, *words):
    """Starts a publisher of the file, and a server if there is none. Returns the path of what the publisher says, and its process."""
    if room.server is None:
        room.serve(CHANNEL, workers=64)
    process = room.start([sys.executable, EXAMPLES / 'publish.py', *words, room.server.address, 'pattern', 'video', FILE])
    return pathlib.Path(f'{process.name}.stdout'), process


def accepted(said):
    """Returns the publisher's lines whose answer is `ok`."""
    return [line for line in said.read_text().splitlines() if ': ok ' in line]


def has(said, count):
    """Tests that a publisher has had `count` answers."""
    check(len(accepted(said)) >= count, said.read_text())


def file_of(room, name):
    """Returns a file of the rendition."""
    return room.ask(f'/pattern/video/{name}').partition(b'\r\n\r\n')[2]


def frames(room, source):
    """Returns the frames that ffmpeg sees, each with its time."""
    run = ended(room.start(['ffmpeg', '-nostdin', '-v', 'warning', '-i', source, '-f', 'framemd5', '-']))
    said = [line for line in run.stderr.splitlines() if not EXPECTED.search(line)]
    check(run.status == 0 and not said, f'ffmpeg ends with status {run.status} and {said}')
    return [line for line in run.stdout.splitlines() if not line.startswith(b'#')]


def later(part, micros):
    """Returns a part of the file with its times `micros` microseconds later."""
    movie = next(each for each in elements(FILE.read_bytes()) if isinstance(each, Movie))
    tracks = tuple((track.id, track.scale) for track in movie.tracks)
    return push_model.moved(part, Shift(tracks, movie.governing.scale, 0, micros))


def plays(room):
    """A player sees each frame of the file at its time."""
    said, _ = published(room)
    # A section and four parts: the first segment.
    room.comes(has, said, 5)
    wanted, seen = frames(room, FILE), frames(room, f'http://127.0.0.1:{room.server.port}/pattern/video/live.m3u8')
    check(seen == wanted and len(seen) == FRAMES, f'{len(seen)} frames are seen, of {len(wanted)}')


def is_the_file(room):
    """The files of the playlist, one after another, are the file, and the playlist has its end."""
    said, _ = published(room)
    room.comes(has, said, 18, seconds=30)
    served = b''.join(file_of(room, name) for name in ('init0.mp4', 's0.m4s', 's1.m4s', 's2.m4s', 's3.m4s'))
    check(served == FILE.read_bytes(), f'{len(served)} bytes are served')
    check(b'#EXT-X-ENDLIST' in file_of(room, 'live.m3u8').splitlines(), 'the playlist has no end')


def goes_on_with_later_times(room):
    """The same parts follow the first eight seconds, with times eight seconds later, and no break."""
    said, _ = published(room, '--loop')
    room.comes(has, said, 19, seconds=30)
    check(file_of(room, 's4.0.m4s') == later(file_of(room, 's0.0.m4s'), 8_000_000), 'the part has other bytes than the first with later times')
    check(BREAK not in file_of(room, 'live.m3u8').decode().splitlines(), 'the playlist has a break')


def is_amid(said):
    """Tests that a publisher has had answers for two of a segment's four parts."""
    check((len(accepted(said)) - 1) % 4 == 2, said.read_text())


def comes_back(room):
    """A publisher is killed in the middle of a segment: the next one finishes that, and goes on after a break at the present time, with a section of its own."""
    said, process = published(room, '--loop')
    room.comes(has, said, 6)
    room.comes(is_amid, said)
    process.terminate()
    process.wait()
    now = time.time_ns() // 1_000_000
    said, _ = published(room, '--loop')
    room.comes(has, said, 5, seconds=30)
    lines = said.read_text().splitlines()
    verbs = [re.sub('[0-9]+', '', line).partition(': ')[0] for line in lines[:3]]
    check(verbs == ['pattern at video', 'pattern finish video', 'pattern break video '], said.read_text())
    began = re.fullmatch('.* ([0-9]+): ok .*', lines[2])
    check(began and int(began[1]) >= now, f'{lines[2]} comes after {now}')
    check(f'{BREAK}\n#EXT-X-MAP:URI="init1.mp4"\n' in file_of(room, 'live.m3u8').decode(), 'no section follows the break')


def main(path, *names):
    tests = plays, is_the_file, goes_on_with_later_times, comes_back
    if why := missing('ffmpeg'):
        return try_named(ServeRoom, path, names, [], skips=[(test, why) for test in tests])
    return try_named(ServeRoom, path, names, [(test,) for test in tests])


if __name__ == '__main__':
    sys.exit(main(*sys.argv[1:]))
