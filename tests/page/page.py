#!/usr/bin/env python3
"""page.py PROGRAM [TEST..]: tests examples/watch.html in headless Chromium, all tests or those of these names. Half a minute of picture and sound goes from ffmpeg by `llhls push` to
`llhls serve`, and by examples/near.py to the page. Each part has to come to the browser's decoder once, in order, with the publisher's bytes and at its time, and to be asked for ahead,
over breaks with another codec and size, an encoder that is killed and a server that is killed. Then come delta updates, renditions, codecs, and texts that would do harm as HTML.
Latency, frames dropped and most stalls are printed, since they depend on the machine too. A picture of a page that fails is kept. Without chromium or ffmpeg it says so and tests
nothing. The last line is `N passed, M failed`."""
import hashlib
import json
import pathlib
import re
import statistics
import subprocess
import sys
import tempfile
import time

sys.path.insert(0, str(pathlib.Path(__file__).resolve().parents[1] / 'lib'))
from chromium import Chromium, Fault
from page_origin import Host, Tee
from rooms import ROOT, Room, Wrong, check, missing, summed, try_named
import publish

WATCH = (ROOT / 'tests/page/page_watch.js').read_text()
CHANNEL = 'channel demo target=2 part=400000 skip=12 window=18 renditions=video,small first=0 start={}'
ENDED = 'The rendition has ended.'
# What would do harm if it weren't shown as text.
HARM = '<img src=x onerror=window.harmed=1>'
# If a page's timers are late by more seconds than this, the machine is too slow to say when something has to come, and to ask for a picture without holes.
LAG = 0.25

# ---- what is published

CODED = '-nostdin -v error -f lavfi -i testsrc2=size={}:rate=25 -f lavfi -i sine=frequency={} -t {} {} -pix_fmt yuv420p -g 50 -c:a aac -f mp4 -y'
H264 = '-c:v libx264 -preset ultrafast -tune zerolatency -b:v {}k -maxrate {}k -bufsize 100k'
AV1 = '-c:v libaom-av1 -cpu-used 8 -usage realtime -crf 45 -b:v 300k'
MOVIES = {'first': ('640x360', 440, 12, H264.format(500, 500)), 'other': ('480x270', 660, 5, AV1), 'small': ('320x180', 880, 4, H264.format(150, 150))}
# In real time, with a fragment for each frame, as in docs/OPERATING.md.
IN_TIME = '-c copy -f mp4 -movflags +delay_moov+default_base_moof -frag_duration 1000 -'


def code(folder):
    """Makes the movies, which encoders then give out in real time; so the machine's load delays nothing. Returns whether ffmpeg can."""
    return all(subprocess.run(['ffmpeg', *CODED.format(*words).split(), folder / f'{name}.mp4']).returncode == 0 for name, words in MOVIES.items())


# ---- a test's room


class Late(Wrong):
    """What didn't come in time."""


class PageRoom(Room):
    """A server, the page's host, and what publishes. `movies` is the folder of the movies, `browser` the one of all tests."""

    movies = browser = None

    def __init__(self, *words):
        super().__init__(*words)
        self.host, self.tee, self.page, self.start_time = None, None, None, int(time.time() * 1000)

    def until(self, seconds, holds, why):
        """Waits until this holds."""
        limit = time.monotonic() + seconds
        while not holds():
            self.pause(0.05)
            if time.monotonic() > limit:
                raise Late(f'{why} within {seconds} s')

    def open_server(self):
        """Starts a server, or starts it anew, behind the page's host and the relay of publishers."""
        self.host, self.tee = self.host or Host(), self.tee or Tee()
        server = self.serve(CHANNEL.format(self.start_time), workers=32)
        self.tee.to = server.publish_port
        self.host.handler.origin = server.port
        return server

    def push(self, *words, rendition='video'):
        return self.start([self.program, 'push', self.tee.address, 'demo', rendition, 'part=400000', 'segment=1600000', *words], subprocess.PIPE)

    def encode(self, push, name, *words):
        """Starts an encoder of a movie."""
        return self.start(['ffmpeg', '-nostdin', '-v', 'error', '-re', *words, '-i', self.movies / f'{name}.mp4', *IN_TIME.split()], stdout=push.stdin)

    def has_parts(self, count, seconds=60):
        """Waits until this many parts more are accepted."""
        wanted = self.tee.parts() + count
        self.until(seconds, lambda: self.tee.parts() >= wanted, f'there are no {count} parts more')

    def open_page(self, path, before=''):
        """Opens the page for a playlist; it runs the script `before` first."""
        self.page = self.browser.page(f'http://127.0.0.1:{self.host.port}/watch.html?{path}', WATCH + before)
        self.until(60, lambda: self.page.value('document.readyState === "complete"'), "the page isn't there")
        return self.page

    def says(self, text, seconds=30):
        self.until(seconds, lambda: self.page.value('at("says").textContent') == text, f'the page does not say {text!r}')

    def width(self, pixels, seconds=30):
        self.until(seconds, lambda: self.page.value('video.videoWidth') == pixels, f'the picture is not {pixels} wide')

    def close(self):
        super().close()
        for each in self.host, self.tee:
            if each:
                each.close()


def pictured(test):
    """A test that keeps a picture of its page if it fails, and doesn't fail for what comes late on a machine that is too slow."""
    def tried(room, *words):
        try:
            test(room, *words)
        except Exception as why:
            try:
                lag = room.page.value('watched.lag')
                if isinstance(why, Late) and lag > LAG:
                    print(f'{test.__name__} is not judged: {why}, and timers are late by {lag:.2f} s', flush=True)
                    return
                path = pathlib.Path(tempfile.gettempdir()) / f'llhls-{test.__name__}.png'
                path.write_bytes(room.page.picture())
                raise Wrong(f'{why}\n{path} is its picture; it says {room.page.value("at(`says`).textContent")!r}') from why
            except (AttributeError, Fault, OSError):
                raise why from None
    tried.__name__ = test.__name__
    return tried


# ---- half a minute

def broadcast(room):
    """Publishes half a minute: a movie, one with another codec and size on the same pipe, an encoder that is killed, a server that is killed, and another movie to its end."""
    server, push = room.open_server(), room.push()
    first = room.encode(push, 'first')
    room.has_parts(6)
    page = room.open_page('/demo/video/live.m3u8')
    first.wait()
    room.encode(push, 'other').wait()
    third = room.encode(push, 'first')
    room.has_parts(10)
    third.kill()
    third.wait()
    push.stdin.close()
    push.wait(timeout=60)
    push = room.push()
    fourth = room.encode(push, 'first')
    room.has_parts(10)
    room.until(10, lambda: page.value('watched.appended.at(-1).hash') in last_of(room), 'the page does not follow')
    # (The relay's next life begins before the server's, so that nothing of the new one counts for the old one.)
    server.process.kill()
    server.process.wait()
    room.restarted = time.time()
    room.tee.lives.append([])
    room.open_server()
    fourth.kill()
    push.stdin.close()
    push.wait(timeout=60)
    push = room.push('end')
    room.encode(push, 'other').wait()
    push.stdin.close()
    push.wait(timeout=60)
    room.says(ENDED)
    room.until(20, lambda: page.value('video.ended'), 'the video does not end')


def last_of(room):
    """Returns the checksums of the last two parts that the server has accepted."""
    return [hashlib.sha256(item.data).hexdigest() for item in room.tee.items(-1, 0) if item.accepted][-2:]


def order(run, items, is_killed):
    """Returns what of these items a run of the page has: their sections and parts, in order, none left out and none twice, from the first one that it has on."""
    given, sums = [entry['hash'] for entry in run], [hashlib.sha256(item.data).hexdigest() for item in items]
    # A section right after another one takes its place.
    kept = [number for number, item in enumerate(items) if not (item.name == 'init' and items[number + 1:] and items[number + 1].name == 'init')]
    check(len(given) > 1 and given[1] in sums, 'what came first to the browser after its section is no part of the publisher')
    start = sums.index(given[1])
    section = max(number for number in kept if number < start and items[number].name == 'init')
    wanted = [section, *(number for number in kept if number >= start)]
    for place, (sum_, number) in enumerate(zip(given, wanted)):
        was = items[sums.index(sum_)].name if sum_ in sums else 'something else'
        check(sum_ == sums[number], f'{was} came to the browser at place {place}, and {items[number].name} is wanted')
    lost = len(wanted) - len(given)
    check(lost <= 0 or is_killed and lost < 3, f'{lost} parts are missing at the end')
    check(lost >= 0, f'{-lost} came too many')
    return [items[number] for number in wanted[:len(given)]]


def at_their_times(run, items):
    """Each part is at its time by the program, to 5 ms. Decode times are those of the parts before."""
    places = [round(entry['offset'] * 1000 + (item.before - item.date) / 1000) for entry, item in zip(run, items) if item.name != 'init']
    check(max(places) - min(places) <= 5, f'parts are off their times by up to {max(places) - min(places)} ms: {places}')


def hints(notes):
    """Returns how many parts playlists hinted at, from the first one that was held on, and those of them that weren't asked for before the next playlist began to be answered."""
    # (A note comes after its answer, so one of a later answer may stand before it.)
    lists = sorted((note for note in notes if 'live.m3u8' in note.path and note.status == 200), key=lambda note: note.answered)
    held = next(number for number, note in enumerate(lists) if '_HLS_msn' in note.path)
    asked = {}
    for note in notes:
        asked[note.path.rpartition('/')[2]] = min(note.asked, asked.get(note.path.rpartition('/')[2], note.asked))
    # (After a restart the page may still ask for what playlists from before it list; that isn't there any more.)
    first = min(note.asked for note in notes if note.status == 200 and note.path.rpartition('/')[2].startswith('s'))
    check(first >= lists[held].answered, 'media is asked for before a playlist was held')
    named, late = set(), []
    for note, after in zip(lists[held:], lists[held + 1:]):
        found = re.search(r'EXT-X-PRELOAD-HINT:TYPE=PART,URI="(.*?)"', note.body.decode())
        if found and found[1] not in named:
            named.add(found[1])
            if asked.get(found[1], 1e99) > after.answered:
                late.append(found[1])
    return len(named), late


def deltas_are_applied(room, notes, shown):
    """Each playlist that the page shows is a full one that came, or what `llhls apply` makes of an update and the playlist before. Returns how many are of the latter kind."""
    fulls, deltas, count = set(), {}, 0
    for note in notes:
        if 'live.m3u8' in note.path and note.status == 200:
            text = note.body.decode()
            if '#EXT-X-SKIP:' in text:
                deltas.setdefault(text.splitlines()[-1], []).append(text)
            else:
                fulls.add(text)
    before = ''
    for text in shown:
        text = text[:-1]
        if text not in fulls:
            made = []
            for delta in deltas.get(text.splitlines()[-1], []):
                for name, content in ('base', before), ('delta', delta):
                    (room.folder / name).write_text(content)
                made.append(subprocess.run([room.program, 'apply', room.folder / 'base', room.folder / 'delta'], capture_output=True, timeout=30).stdout.decode())
            check(text in made, f'the page shows a playlist that nobody sent:\n{text}\nand not\n{made}')
            count += 1
        before = text
    return count


def runs_dry(waits, appended, published, seconds):
    """Returns the moments at which the page waited for data that the server had had for this long."""
    given = {entry.get('hash'): entry['at'] for entry in appended}
    dry = []
    for wait in waits:
        missed = [item.name for item in published if item.accepted and item.accepted < wait['at'] - seconds and given.get(hashlib.sha256(item.data).hexdigest(), 1e99) > wait['at']]
        if missed:
            dry.append((wait, missed))
    return dry


@pictured
def half_a_minute(room):
    """The page plays half a minute of breaks and restarts."""
    broadcast(room)
    page, notes = room.page, sorted(room.host.notes, key=lambda note: note.answered)
    seen = page.value('watched')
    runs = [[entry for entry in seen['appended'] if entry['run'] == number] for number in range(1 + max(entry['run'] for entry in seen['appended']))]
    check(len(runs) == 2, f'the page began {len(runs)} times, and 2 are wanted')
    late, hinted, count, dry = [], 0, 0, []
    for number, run in enumerate(runs):
        items = room.tee.items(number, room.start_time)
        had = order(run, items, number == 0)
        at_their_times(run, had)
        # What was asked for before the restart has no answer after it.
        own = [note for note in notes if (note.asked >= room.restarted) == (number == 1)]
        named, unasked = hints(own)
        hinted, late = hinted + named, late + unasked
        first = next(item.accepted for item in items if item.name == had[1].name)
        published = [item for item in items if item.name != 'init' and item.accepted and item.accepted >= first]
        waits = [wait for wait in seen['waits'] if run[0]['at'] <= wait['at'] <= run[-1]['at']]
        # A machine that gives the page no time is no fault of the page.
        dry += runs_dry(waits, run, published, 2 + 10 * seen['lag'])
        count += sum(item.name != 'init' for item in had)
    applied = deltas_are_applied(room, notes, seen['shown'])
    # (A machine that is slow may take up two requests in another order.)
    check(len(late) <= 3 and hinted > count / 2, f'of {hinted} hints these were not followed: {late}')
    check(applied >= 5, f'{applied} delta updates were applied')
    check(not dry, f'it waits for what the server had: {dry}')
    is_slow = seen['lag'] > LAG
    check(is_slow or seen['sizes'][:3] == ['640x360', '480x270', '640x360'] and seen['sizes'][-1] == '480x270', f"the sizes of the picture: {seen['sizes']}")
    check(0.95 <= seen['rates'][0] <= seen['rates'][1] <= 1.05, f"the speeds: {seen['rates']}")
    check(seen['removed'] > 0, 'nothing is removed from the buffer')
    check(not seen['wrong'] and not seen['back'], f"{seen['wrong']} {seen['back']}")
    check(is_slow or seen['frames'] > 100, f"{seen['frames']} pictures are shown")
    check(page.value('video.webkitAudioDecodedByteCount') > 0, 'there is no sound')
    report(page, seen, count, applied, hinted - len(late))


def report(page, seen, count, applied, ahead):
    """Prints what depends on the machine too."""
    latency = sorted(each[1] for each in page.value('past'))
    kinds = [each['why'] for each in page.value('stalls')]
    print(f"{count} parts, {ahead} asked for ahead, {applied} delta updates; latency {statistics.median(latency):.2f} s (95 %: {latency[len(latency) * 95 // 100]:.2f}), "
          f"{seen['frames']} pictures, {page.value('video.getVideoPlaybackQuality().droppedVideoFrames')} dropped since the last restart, "
          f"{kinds.count('data')} stalls without data, {kinds.count('hole')} gaps, {kinds.count('decoder')} halts of the decoder; timers are late by up to {seen['lag']:.2f} s", flush=True)


# ---- renditions

M3U8 = 'application/vnd.apple.mpegurl'
VARIANTS = '''#EXTM3U
#EXT-X-STREAM-INF:BANDWIDTH=800000,RESOLUTION=640x360,CODECS="avc1.64001e,mp4a.40.2"
/demo/video/live.m3u8
#EXT-X-STREAM-INF:BANDWIDTH=9000000,CODECS="nothing"
/none/none/live.m3u8
#EXT-X-STREAM-INF:BANDWIDTH=300000
/demo/small/live.m3u8
'''
NAMES = ['by the speed of the link', '300 kbit/s, /demo/small/live.m3u8', '640x360, 800 kbit/s, /demo/video/live.m3u8']
CHOOSE = 'at("choice").value = [...at("choice").options].find(each => each.value.includes("/{}/")).value, at("choice").dispatchEvent(new Event("change"))'


@pictured
def renditions(room):
    """A rendition is chosen by the speed of the link, and by hand; the picture goes on."""
    room.open_server()
    for name, movie in ('video', 'first'), ('small', 'small'):
        room.encode(room.push(rendition=name), movie, '-stream_loop', '-1')
    room.host.fixed['/main.m3u8'] = 200, M3U8, VARIANTS.encode()
    room.host.slow['/demo/video/'] = 100000
    room.until(30, lambda: all(len(room.tee.items(-1, 0, name)) > 6 for name in ('video', 'small')), 'there are no parts of both')
    page = room.open_page('/main.m3u8')
    room.width(320)
    check(page.value('watched.sizes.slice(0, 2)') == ['640x360', '320x180'], f"the sizes of the picture: {page.value('watched.sizes')}")
    room.host.slow.clear()
    room.width(640)
    page.value(CHOOSE.format('small'))
    room.width(320)
    room.until(10, lambda: not room.host.notes[-1].path.startswith('/demo/video/'), 'the other rendition is still asked for')
    check(page.value('[...at("choice").options].map(each => each.text)') == NAMES, 'the renditions have other names')
    # (What the slow link didn't bring in time is left out.)
    goes_on(page, 3)
    room.open_page('/demo/small/live.m3u8')
    room.width(320)
    room.page.value(CHOOSE.format('video'))
    room.width(640)
    goes_on(room.page, 1)
    has_no_hole(room.page)


def goes_on(page, changes):
    """Nothing was refused, the page didn't begin anew, and no picture was shown after a later one."""
    seen = page.value('watched')
    check(len({entry['run'] for entry in seen['appended']}) == 1, 'the page has begun anew')
    check(len(seen['sizes']) > changes and not seen['wrong'] and not seen['back'], f"{seen['sizes']} {seen['wrong']} {seen['back']}")


def has_no_hole(page):
    """The buffer has no hole that can be seen. (Frames of sound of two renditions don't meet to the millisecond.)"""
    ranges = page.value('[...Array(video.buffered.length).keys()].map(each => [video.buffered.start(each), video.buffered.end(each)])')
    check(all(after[0] - before[1] < 0.06 for before, after in zip(ranges, ranges[1:])) or page.value('watched.lag') > LAG, f'the buffer has {ranges}')


# ---- texts

def listed(parts):
    """Returns an ended playlist of these parts, whose names and date range would do harm as HTML, and answers by path."""
    lines, answers, begin = [], {}, 0
    for number, (length, key, data) in enumerate(parts):
        answers[f'{HARM}{number}.m4s'] = data
        if key:
            lines.append(f'#EXT-X-PROGRAM-DATE-TIME:2026-01-01T00:00:{number // 2:02}.000Z')
        lines.append(f'#EXT-X-PART:DURATION={length / 1e6:.6f},URI="{HARM}{number}.m4s"{",INDEPENDENT=YES" * bool(key)}')
        begin += length
        if number + 1 == len(parts) or parts[number + 1][1]:
            lines += [f'#EXTINF:{begin / 1e6:.6f},', f'{HARM}.m4s']
            begin = 0
    head = ['#EXTM3U', '#EXT-X-VERSION:10', '#EXT-X-TARGETDURATION:2', '#EXT-X-PART-INF:PART-TARGET=0.5', '#EXT-X-MEDIA-SEQUENCE:0',
            f'#EXT-X-DATERANGE:ID="{HARM}",START-DATE="2026-01-01T00:00:00Z"', f'#EXT-X-RENDITION-REPORT:URI="{HARM}/live.m3u8"', '#EXT-X-MAP:URI="map.mp4"']
    return '\n'.join([*head, *lines, '#EXT-X-ENDLIST', '']), answers


@pictured
def texts_are_texts(room):
    """Whatever comes from the network, and the page's own address, is shown as text."""
    room.host = Host()
    section, _, _, parts = publish.parts((ROOT / 'examples/pattern.mp4').read_bytes())
    text, answers = listed(parts)
    folder = '/odd/video/'
    variants = f'#EXTM3U\n#EXT-X-STREAM-INF:BANDWIDTH=1,RESOLUTION="{HARM}"\nlive.m3u8?{HARM}\n#EXT-X-STREAM-INF:BANDWIDTH=2\nlive.m3u8\n'
    list_ = 200, M3U8, text.encode()
    texts = {'main.m3u8': (200, M3U8, variants.encode()), 'live.m3u8': list_, f'live.m3u8?{HARM}': list_, 'bad.m3u8': (404, 'text/html', HARM.encode())}
    media = {name: (200, 'video/mp4', data) for name, data in (*answers.items(), ('map.mp4', section))}
    room.host.fixed = {folder + name.replace(' ', '%20').replace('<', '%3C').replace('>', '%3E'): answer for name, answer in (texts | media).items()}
    page = room.open_page(f'{folder}main.m3u8')
    room.says(ENDED)
    room.until(20, lambda: page.value('video.ended'), 'the video does not end')
    check(page.value('at("playlist").textContent')[:-1] == text, 'another playlist is shown')
    check(page.value('[...at("parts").rows].map(row => row.cells[0].textContent)') == [f'{HARM}{number}.m4s' for number in (15, 14, 13, 12)], 'other parts are shown')
    unharmed(page)
    room.open_page(f'{folder}bad.m3u8')
    room.says(f'404 {HARM}; it is tried again.')
    unharmed(room.page)
    room.open_page(f'/{HARM}/video/live.m3u8'.replace(' ', '%20'))
    room.until(20, lambda: room.page.value('at("says").textContent').startswith('502 NoServer'), 'it is not refused')
    unharmed(room.page)


def unharmed(page):
    check(page.value('document.images.length + document.querySelectorAll("body script ~ script").length') == 0 and page.value('window.harmed === undefined'), 'a text was taken for HTML')


# ---- functions of the page

# Sample entries: their type, where their boxes begin, the box of settings, its content, and the codec.
ENTRIES = (
    ('avc1', 78, 'avcC', '0142c015', 'avc1.42c015'), ('avc3', 78, 'avcC', '01640028', 'avc3.640028'),
    # Those of ISO/IEC 14496-15, annex E.
    ('hvc1', 78, 'hvcC', '010140000000b000000000005d', 'hvc1.1.2.L93.B0'), ('hev1', 78, 'hvcC', '016482000000b0230000000078', 'hev1.A4.41.H120.B0.23'),
    ('av01', 78, 'av1C', '81044c00', 'av01.0.04M.10'), ('av01', 78, 'av1C', '81008c00', 'av01.0.00H.08'),
    *(('mp4a', 28, 'esds', f'00000000{stream}000200{decoder}{kind}15{"0" * 22}{settings}', wanted) for stream, decoder, kind, settings, wanted in (
        ('0380808022', '0480808014', '40', '05808080021190', 'mp4a.40.2'), ('0319', '0411', '40', '05022b90', 'mp4a.40.5'), ('0315', '040d', '6b', '', 'mp4a.6b'))),
    ('Opus', 28, 'dOps', '00', 'opus'),
)


def boxed(kind, content):
    return (8 + len(content)).to_bytes(4, 'big') + kind.encode() + content


@pictured
def functions(room):
    """Codecs are named as their documents say; a delta update is applied as `llhls apply` does it; one that doesn't fit isn't."""
    room.host = Host()
    page = room.open_page('/nothing/video/live.m3u8')
    for kind, place, name, content, wanted in ENTRIES:
        entry = boxed(kind, bytes(place) + boxed(name, bytes.fromhex(content)))
        found = page.value(f'(() => {{ const view = new DataView(new Uint8Array({list(entry)}).buffer); return codec(view, [...boxes(view)][0]); }})()')
        check(found == wanted, f'{wanted} is {found}')
    base, delta, full = ((ROOT / f'examples/{name}.m3u8').read_text() for name in ('base', 'delta', 'full'))
    check(page.value(f'applied({json.dumps(base)}, {json.dumps(delta)})') == full, 'the delta update is applied otherwise')
    check(page.value(f'applied({json.dumps(base)}, {json.dumps(full)})') == full, 'a full playlist is changed')
    early, late = (re.sub('(?<=MEDIA-SEQUENCE:)[0-9]+', number, delta) for number in ('0', '99'))
    check(page.value(f'[applied({json.dumps(base)}, {json.dumps(early)}), applied({json.dumps(base)}, {json.dumps(late)})]') == [None, None], 'an update that does not fit is applied')
    endings, rows = (ROOT / 'tests/program/endings').read_text(), 0
    for row in sorted((ROOT / 'tests/program/apply').iterdir()):
        base, delta, wanted = ((row / name).read_bytes().replace(b'\r\n', b'\n').decode(errors='replace') for name in ('base', 'delta', 'stdout'))
        # The page asks for no updates that leave out date ranges. Texts that can't be read are none that a server sends.
        if '-REMOVED-' not in delta and (wanted or f'apply/{row.name} 3 llhls: NotRecent' in endings):
            rows += 1
            check(page.value(f'applied({json.dumps(base)}, {json.dumps(delta)})') == (wanted or None), f'{row.name} is applied otherwise')
    check(rows > 20, f'{rows} rows were tried')


@pictured
def own_player(room):
    """A browser without Media Source Extensions gets the playlist to play by itself."""
    room.host = Host()
    page = room.open_page('/odd/video/live.m3u8', 'delete window.MediaSource; delete window.ManagedMediaSource;')
    check(page.value('video.src === source && at("says").textContent.includes("own player")'), 'the browser gets no playlist')
    check(not page.value('watched.appended.length'), 'parts are played')


TESTS = (half_a_minute, renditions, texts_are_texts, functions, own_player)


def skip_all(why):
    """Says that nothing can be tried here, and why. Returns the script's status."""
    print(summed(0, 0, [why] * len(TESTS)))
    return 0


def main(path, *names):
    if why := missing('chromium', 'ffmpeg'):
        return skip_all(why)
    with tempfile.TemporaryDirectory(ignore_cleanup_errors=True) as folder:
        PageRoom.movies = pathlib.Path(folder)
        browser = PageRoom.browser = Chromium(PageRoom.movies)
        try:
            if not code(PageRoom.movies):
                return skip_all('ffmpeg has no H.264, AV1 or AAC')
            print(browser.version(), flush=True)
            return try_named(PageRoom, path, names, [(test,) for test in TESTS])
        finally:
            browser.close()


if __name__ == '__main__':
    sys.exit(main(*sys.argv[1:]))
