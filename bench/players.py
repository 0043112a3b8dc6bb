#!/usr/bin/env python3
"""players.py [PROGRAM]: puts examples/watch.html beside Chromium's own player, on one page and the same channel. The pictures are frame numbers, spelled in black and white bars, so
what each player shows at one moment says how far it is behind the other. It prints, for parts of half and of a fifth of a second: how long each takes to its first picture; the page's
latency to the live edge, and how far Chromium's own player is behind the page, in milliseconds, each with the smallest and the largest of 40 looks; and how often each ran out of data.
Without chromium or ffmpeg it says so and measures nothing. It judges nothing."""
import contextlib
import pathlib
import re
import shutil
import statistics
import subprocess
import sys
import tempfile
import threading
import time

ROOT = pathlib.Path(__file__).resolve().parent.parent
sys.path.insert(0, str(ROOT / 'tests/lib'))
from chromium import Chromium  # noqa: E402
from page_origin import Host  # noqa: E402
from rooms import Room  # noqa: E402

CHANNEL = 'channel demo target=2 part={} skip=12 window=18 renditions=video first=0 start={}'
BARS = "geq=lum='16+219*mod(floor(N/pow(2,floor(X*16/W))),2)':cb=128:cr=128"
ENCODER = f'''ffmpeg -nostdin -v error -re -f lavfi -i color=size=320x180:rate=25 -f lavfi -i sine=frequency=440 -vf {BARS} -c:v libx264 -preset veryfast -tune zerolatency
    -pix_fmt yuv420p -g 50 -c:a aac -f mp4 -movflags +delay_moov+default_base_moof -frag_duration 1000 -'''
FRAME = 40  # milliseconds

# Both players, one above the other, and what a player shows: the number of its frame, or -1.
PLAYERS = '''
(() => {
document.body.innerHTML = '<iframe width=900 height=700 allow=autoplay></iframe><video autoplay muted></video>';
const frame = document.querySelector('iframe'), own = document.querySelector('video'), canvas = document.createElement('canvas'), waits = [0, 0];
const players = [() => frame.contentDocument && frame.contentDocument.querySelector('video'), () => own];
const start = [() => { frame.src = '/watch.html?/demo/video/live.m3u8'; }, () => { own.src = '/demo/video/live.m3u8'; own.play(); }];
function shown(player) {
    const video = players[player](), pencil = canvas.getContext('2d', {willReadFrequently: true});
    if (!video || !video.videoWidth) return -1;
    if (!video.watched) { video.watched = true; video.addEventListener('waiting', () => waits[player]++); }
    pencil.drawImage(video, 0, 0, 320, 180);
    return [...Array(16).keys()].reduce((number, bar) => number + (pencil.getImageData(20 * bar + 10, 90, 1, 1).data[0] > 128 ? 2 ** bar : 0), 0);
}
window.both = {frame, start, shown, waits};
})()'''


def first_picture(page, player):
    """Starts a player, and returns the seconds to its first picture, or to a minute."""
    page.value(f'both.start[{player}]()')
    begun = time.monotonic()
    while page.value(f'both.shown({player})') < 0 and time.monotonic() < begun + 60:
        time.sleep(0.02)
    return time.monotonic() - begun


def look(page):
    """Returns the page's latency, and how far the other player is behind it."""
    ahead, latency = page.value('[both.shown(0) - both.shown(1), both.frame.contentDocument.body.innerText]')
    return int(re.search(r'latency\s+(-?[0-9]+) ms', latency)[1]), ahead * FRAME


def spread(numbers):
    return f'{statistics.median(numbers):.0f} ({min(numbers)} to {max(numbers)})'


def measure(room, host, browser, part):
    server = room.serve(CHANNEL.format(part, int(time.time() * 1000)), workers=8)
    host.handler.origin = server.port
    push = room.start([room.program, 'push', server.address, 'demo', 'video', f'part={part}', 'segment=1600000'], subprocess.PIPE)
    room.start(ENCODER.split(), stdout=push.stdin)
    time.sleep(10)
    page = browser.page(f'http://127.0.0.1:{host.port}/watch.html')
    time.sleep(1)
    page.value(PLAYERS)
    firsts = [first_picture(page, player) for player in (0, 1)]
    time.sleep(15)
    looks = []
    for _ in range(40):
        looks.append(look(page))
        time.sleep(0.5)
    latencies, behind = zip(*looks)
    print(f'parts of {part / 1e6:.1f} s: first picture after {firsts[0]:.2f} and {firsts[1]:.2f} s; the page is {spread(latencies)} ms behind the live edge, Chromium\'s own player '
          f'{spread(behind)} ms behind the page; without data {page.value("both.waits.join(` and `)")}', flush=True)


def main(program):
    lacking = [each for each in ('chromium', 'ffmpeg') if not shutil.which(each)]
    if lacking:
        return print(f'no {" and no ".join(lacking)}: nothing is measured')
    with contextlib.ExitStack() as ends:
        folder = pathlib.Path(ends.enter_context(tempfile.TemporaryDirectory()))
        host = ends.enter_context(contextlib.closing(Host()))
        browser = ends.enter_context(contextlib.closing(Chromium(folder)))
        print(browser.version())
        for part in 500000, 200000:
            with contextlib.closing(Room(program, folder / str(part), threading.Event())) as room:
                measure(room, host, browser, part)


main(sys.argv[1] if len(sys.argv) > 1 else subprocess.run([ROOT / 'tests/program.sh'], check=True, stdout=subprocess.PIPE, text=True).stdout.strip())
