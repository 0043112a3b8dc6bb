#!/usr/bin/env python3
"""push.py PROGRAM [TEST..]: tests `llhls push` with real sockets on loopback, all or those of these names. Inputs that are made by hand go to `llhls serve`, and to origins that hang
up, refuse or answer nonsense. What was sent is compared with messages that are made beside it, and what is served with the input. If ffmpeg is installed, its output goes the same way.
The last line is `N passed, M failed`."""
import functools
import itertools
import pathlib
import pty
import re
import signal
import subprocess
import sys

sys.path[:0] = [str(pathlib.Path(__file__).resolve().parents[1] / each) for each in ('lib', 'push/model')]
from faults import unexplained
from push_inputs import beginning, damaged, fault_of, input_of, pieces, published
from push_looks import ends, ends_with, has_taken, lists, now, passes, plays, said_lost, took, took_first
from push_model import Standing
from push_peer import ALL_OK, address_of, held_port
from push_room import PushRoom
from push_rows import BAD_ANSWERS, BAD_PLACES, ELSEWHERE, GOES_ON_AFTER, HANGS_UP, KEEPS_NOT_ALL, ORIGIN_REFUSES, SERVER_REFUSES, STARTS, WRONG_WORDS
from rooms import ROOT, Wrong, check, ended, missing, try_named

# The rendition's time is ahead of any clock, so that what is published needs no time of its own.
CAM = 'channel cam target=4 part=1000000 skip=24 window=36 renditions=hi,lo first=0 start=4000000000000'
SHORT = 'channel cam target=2 part=1000000 skip=12 window=18 renditions=hi,lo first=0 start=4000000000000'
# What a push says if the origin has accepted something that it keeps nowhere but in memory.
NOT_KEPT = "llhls: the origin has accepted an item that it can't keep on disk: NotKept"

# ---- whole inputs


def to_server(room, status, fault, name, channel=CAM):
    """A push of an input to the server ends with this status and fault."""
    server = room.serve(channel)
    ends(room.push(server.address, input_of(name)), status, fault)
    return server


def is_served_whole(room, name):
    """The server then has the bytes of the input's messages."""
    plays(to_server(room, 0, '', name), published(input_of(name)))


def sends_its_messages(room, name):
    """An origin that accepts all gets exactly the messages that are made beside it."""
    peer = room.peer(ALL_OK)
    ends(room.push(peer.address, input_of(name)), 0)
    took(peer, input_of(name))


def sends_fragments_at_once(room, name):
    """With `ahead=no` each fragment is a part."""
    peer = room.peer(ALL_OK)
    ends(room.push(peer.address, input_of(name), words=('ahead=no', 'retry=2', 'end')), 0)
    took(peer, input_of(name), ahead=False)


def encoder_comes_so(room, name):
    """What an encoder wrote comes to an origin as its messages, and ends as the input does."""
    data = (ROOT / 'tests/push/inputs' / f'{name}.mp4').read_bytes()
    peer = room.peer(ALL_OK)
    ends_with(room.push(peer.address, data), 3 if fault_of(data) else 0, fault_of(data))
    took(peer, data)


def all_damaged(room):
    """A damaged input is published as far as it goes, and ends in its fault."""
    server = room.serve(*[CAM.replace(' cam ', f' c{seed} ') for seed in range(1, 101)])
    for seed in range(1, 101):
        data = damaged(seed)
        try:
            ends_with(room.push(server.address, data, f'c{seed}'), 3 if fault_of(data) else 0, fault_of(data))
            plays(server, published(data), f'c{seed}')
        except Wrong as fault:
            raise Wrong(f'seed {seed}: {fault}')


# ---- origins that misbehave


def slowly(room, name):
    """Yields the pieces of an input, each after a pause."""
    for piece in pieces(name):
        room.pause(0.4)
        yield piece


def hangs_up(room, plan, count):
    """The origin hangs up `count` times before messages. The program reports each, and goes on."""
    peer = room.peer(plan)
    passes(room.push(peer.address, slowly(room, 'two')), count)
    took(peer, input_of('two'))


def goes_on_after(room, plan, count):
    """`count` connections are lost as the plan says, and the origin has each message once in the end."""
    peer = room.peer(plan)
    passes(room.push(peer.address, input_of('two')), count)
    took(peer, input_of('two'))


def goes_on_unkept(room, plan, count):
    """The origin can't keep some of what it accepts on disk. The program says so once, and goes on."""
    peer = room.peer(plan)
    run = room.push(peer.address, input_of('two'))
    passes(run, count)
    others = [line for line in run.said.splitlines() if 'the connection is lost' not in line]
    check(others == [NOT_KEPT], f'it says {others}')
    took(peer, input_of('two'))
    check(peer.has_ended(), 'the origin still waits')


def goes_on_everywhere(room, name, how, number):
    """The message of this number of an input, from 0, is lost in this way."""
    peer = room.peer('ok,' * number + f'{how}/{ALL_OK}')
    passes(room.push(peer.address, input_of(name)), 1)
    took(peer, input_of(name))
    check(peer.has_ended(), 'the origin still waits')


def stops_after(room, plan, status, fault, count):
    """No byte is sent after a refusal."""
    peer = room.peer(plan)
    ends(room.push(peer.address, input_of('two')), status, fault)
    took_first(peer, count, input_of('two'))


def starts_at(room, at, words):
    """A push to a rendition that stands at `at` sends these lines before its section, with NOW for the clock's time, and then the messages that are made beside it."""
    stands = Standing(*map(int, at.split(',')))
    peer = room.peer(ALL_OK, stands)
    before = now()
    passes(room.push(peer.address, input_of('two')), 0)
    after = now()
    heads = [message.partition(b'\n')[0].decode() for message in peer.rendition.accepted]
    lines = ' '.join(line for line in heads if line.split()[1] in ('finish', 'break'))
    times = [int(number) for number in re.findall('[0-9]+', lines)]
    check(re.sub('[0-9]+', 'NOW', lines) == words, f'it begins with {lines}')
    check(all(before <= each <= after for each in times), f"{times} aren't between {before} and {after}")
    took(peer, input_of('two'), stands=stands, now=times[0] if times else 0)


def no_server(room):
    """Nobody listens at the address."""
    with held_port() as held:
        ends(room.push(address_of(held), input_of('one')), 4, 'Connect')


def server_goes_away(room):
    """The origin ends after its first connection: after a while the program stops trying."""
    ends(room.push(room.peer('ok,close').address, slowly(room, 'two')), 4, 'Connect')


def gives_up_at_once(room):
    """With `retry=0` it stops at once."""
    ends(room.push(room.peer('ok,drop').address, input_of('two'), words=('retry=0',)), 4, 'Connect')


def gives_up_where_nothing_goes(room):
    """The program stops trying also if nothing is accepted again and again: `retry=2` means four times after the first."""
    run = room.push(room.peer('ok,drop/drop/half/?drop/drop').address, input_of('two'))
    ends(run, 4, 'Connect')
    said_lost(run, 5)


# ---- the program's edge


def wrong(room, *words):
    """The program refuses these words."""
    process = room.start([room.program, 'push', *words])
    ends_with(ended(process), 2, 'usage')


def reads_fail(room):
    """Standard input can't be read."""
    ends(room.push(room.peer('ok').address, room.folder), 4, 'Read')


def shown_by(terminal):
    """Returns what a terminal has shown until nobody has it open."""
    shown = b''
    try:
        while True:
            shown += terminal.read(1000)
    except OSError:
        return shown.decode().replace('\r', '')


# What is shown of a push that goes on.
PROGRESS = r'(llhls: [1-9] parts, [0-9] segments, [0-9]\.[05]00 s, [0-9]+ kB/s, [0-9]+\.[0-9]{3} s behind  )+\n'


def shows(room, plan, pattern):
    """A push to an origin that in the end refuses a message shows lines of this pattern, and then the refusal, if standard error is a terminal."""
    peer = room.peer(plan)
    ours, its = pty.openpty()
    with open(ours, 'rb', buffering=0) as terminal:
        with open(its, 'wb', buffering=0) as stderr:
            run = room.push(peer.address, slowly(room, 'many'), words=(), stderr=stderr)
        shown = shown_by(terminal)
    is_shown = re.fullmatch(pattern + 'llhls: no 4 TooLong\n', unexplained(shown))
    check(is_shown and (run.status, run.stdout) == (3, b''), f'status {run.status}, and it shows {shown}')


def tells_how_it_goes(room):
    """A terminal has a line of what was published so far, at most once a second, and a line for each fault."""
    shows(room, r'ok,ok,ok,ok,no 4 TooLong\n', PROGRESS)


def tells_what_is_not_kept(room):
    """A terminal has a line of its own for the first item that isn't kept."""
    shows(room, r'ok,ok,ok,ok,unkept,unkept,no 4 TooLong\n', f'{PROGRESS}{re.escape(NOT_KEPT)}\n({PROGRESS})?')


# ---- a push that is stopped, and one that comes after another one


def parts(number, count):
    """Returns how a playlist lists `count` parts of a segment of this number."""
    return ' '.join(f's{number}.{index}' for index in range(count))


def segment(number, count):
    """Returns how it lists a segment that has ended after `count` parts."""
    return f'{parts(number, count)} s{number}={count / 2:.6f}'


# The playlists of a push that is stopped after a segment, and after two parts of the next one.
FOUR = f'init0 {segment(0, 4)} then s1.0'
SIX = f'init0 {segment(0, 4)} {parts(1, 2)} then s1.2'


def begin(room, address, count):
    """Starts a push, which publishes `count` parts of `many`; a part is known to be whole once two more fragments have come. Its input has all of the next part but the last byte, and
    then neither goes on nor ends."""
    process = room.start_push(address, subprocess.PIPE)
    process.stdin.write(beginning('many', count + 3)[:-1])
    process.stdin.flush()
    return process


def ends_by(process, name):
    """Tests that a push that is sent this signal ends by it and prints nothing."""
    number = signal.Signals['SIG' + name]
    process.send_signal(number)
    try:
        process.wait(timeout=10)
    except subprocess.TimeoutExpired:
        raise Wrong(f'{name} ends nothing')
    run = ended(process)
    check((run.status, run.stdout, run.stderr) == (-number, b'', ''), f'status {run.status}, standard output {run.stdout[:100]!r}')


def stopped(room, name, channel, count, words):
    """A push is sent this signal after `count` parts, in the middle of its input. The playlist is the same before and after it, without an end."""
    server = room.serve(channel)
    process = begin(room, server.address, count)
    room.comes(lists, server, words)
    ends_by(process, name)
    lists(server, words)
    return server


def sends_no_end(room, name):
    """Nothing is sent after the signal."""
    peer = room.peer(','.join(['ok'] * 7))
    process = begin(room, peer.address, 6)
    room.comes(has_taken, peer, 7)
    ends_by(process, name)
    took_first(peer, 7, input_of('many'))


def again(room, server, words, status=0, fault=''):
    """Pushes the whole input `many`, and tests how that ends and what the playlist has then."""
    ends(room.push(server.address, input_of('many')), status, fault)
    lists(server, words)


def begins_anew_amid(room):
    """A further push finishes the segment that is open and begins one of its own, after a break. Players get all of both pushes."""
    server = stopped(room, 'TERM', SHORT, 6, SIX)
    again(room, server, f'init0 s0=2.000000 {segment(1, 2)} DISCONTINUITY init1 {segment(2, 4)} {segment(3, 4)} {segment(4, 2)} ENDLIST')
    plays(server, beginning('many', 6) + input_of('many'))


def begins_anew_between(room):
    """It does the same if no segment is open."""
    server = stopped(room, 'INT', SHORT, 4, FOUR)
    again(room, server, f'init0 {segment(0, 4)} DISCONTINUITY init1 {segment(1, 4)} {segment(2, 4)} {segment(3, 2)} ENDLIST')
    plays(server, beginning('many', 4) + input_of('many'))


def tells_the_time(room):
    """If the channel's time is behind the clock, the first segment has the clock's time, and so has the first one of a further push."""
    before = now()
    server = room.serve(CAM.replace('start=4000000000000', 'start=0'))
    passes(room.push(server.address, input_of('two'), words=('retry=0',)), 0)
    between = now()
    room.pause(1.2)
    passes(room.push(server.address, input_of('two'), words=('retry=0',)), 0)
    after = now()
    dates = server.player().dates()
    check(len(dates) == 2 and before <= dates[0] <= between and between + 1200 <= dates[1] <= after, f'{dates} of {before} {between} {after}')


def comes_after_end(room):
    """A further push after one whose input has ended is refused, and changes nothing."""
    words = f'init0 {segment(0, 2)} ENDLIST'
    server = to_server(room, 0, '', 'two')
    lists(server, words)
    again(room, server, words, 3, 'no 2 Ended')
    plays(server, published(input_of('two')))


def ends_nothing(room):
    """Without the word `end` nothing is ended, and the next push begins a segment, after a break."""
    server = room.serve(CAM)
    passes(room.push(server.address, input_of('two'), words=('most=3000000',)), 0)
    lists(server, f'init0 {segment(0, 2)} then s1.0')
    again(room, server, f'init0 {segment(0, 2)} DISCONTINUITY init1 {segment(1, 4)} {segment(2, 4)} {segment(3, 2)} ENDLIST')


# ---- a real encoder

# 9 seconds of a test pattern, as in docs/OPERATING.md; and 7 seconds of one and a tone, with a fragment for each frame, as in README.md.
PATTERN = ('-f lavfi -i testsrc2=size=320x180:rate=24 -t 9 -c:v libx264 -preset ultrafast -pix_fmt yuv420p -g 48 '
           '-f mp4 -movflags +frag_keyframe+empty_moov+default_base_moof -frag_duration 500000 -')
TONE = ('-f lavfi -i testsrc2=size=320x180:rate=25 -f lavfi -i sine=frequency=440 -t 7 -c:v libx264 -preset ultrafast -tune zerolatency -pix_fmt yuv420p -g 50 -c:a aac '
        '-f mp4 -movflags +delay_moov+default_base_moof -frag_duration 1000 -')


def encoded(room, words):
    """Yields what ffmpeg writes, piece by piece."""
    encoder = room.start(['ffmpeg', '-v', 'error', *words.split()], stdout=subprocess.PIPE)
    with encoder.stdout as output:
        yield from iter(functools.partial(output.read1, 65536), b'')
    check(encoder.wait() == 0, 'ffmpeg fails')


def encoder_is_served(room):
    """What an encoder writes comes to players byte for byte, and its parts and segments have the wanted durations."""
    server = room.serve(CAM)
    run = room.push(server.address, encoded(room, PATTERN))
    ends(run, 0)
    plays(server, published(run.source))
    lines = server.player().lines()
    half = sum(line.startswith('#EXT-X-PART:DURATION=0.500000,') for line in lines)
    check((lines.count('#EXTINF:2.000000,'), half) == (4, 18), '\n'.join(lines))


def frames_of(room, address):
    """Returns the number of frames that ffmpeg plays."""
    player = room.start(['ffmpeg', '-nostdin', '-v', 'error', '-i', address, *'-map 0:v -f framemd5 -'.split()])
    return sum(not line.startswith(b'#') for line in ended(player).stdout.splitlines())


def both_are_served(room):
    """Sound and picture come to players; after an encoder is started anew it goes on after a break; each segment begins with a key frame; and ffmpeg plays each frame of both runs."""
    server = room.serve(CAM)
    run = room.push(server.address, itertools.chain(encoded(room, TONE), encoded(room, TONE)))
    ends(run, 0)
    plays(server, published(run.source))
    lines = server.player().lines()
    first = [line for line in lines if re.fullmatch(r'#EXT-X-PART:.*URI="s[0-9]*\.0\.m4s"', line)]
    check((lines.count('#EXT-X-DISCONTINUITY'), lines.count('#EXTINF:2.000000,'), first) == (1, 6, []), '\n'.join(lines))
    frames = frames_of(room, f'http://127.0.0.1:{server.port}/cam/hi/live.m3u8')
    check(frames == 350, f'{frames} frames are played')


# ---- all tests

ONCE = (no_server, server_goes_away, gives_up_at_once, gives_up_where_nothing_goes, reads_fail, tells_how_it_goes, tells_what_is_not_kept, all_damaged,
        tells_the_time, begins_anew_amid, begins_anew_between, comes_after_end, ends_nothing)
WITH_FFMPEG = (encoder_is_served, both_are_served)
LONGEST = (all_damaged, both_are_served, server_goes_away, gives_up_where_nothing_goes)


def inputs():
    """Yields the tests of whole inputs, each with its words."""
    for name in ('one', 'two', 'many', 'short'):
        yield is_served_whole, name
    for name in 'one two many short second_movie two_tracks samples_alone empty_fragment sound_and_picture gap times_go_back late_times indexes'.split():
        yield sends_its_messages, name
        yield sends_fragments_at_once, name
    for name in ('cut', 'vfr', 'lost', 'restart'):
        yield encoder_comes_so, name
    for name, _, fault in (line.partition(' ') for line in SERVER_REFUSES.splitlines()):
        yield to_server, 3, fault, name
    yield to_server, 3, 'no 4 TooLong', 'two', CAM.replace(' part=1000000 ', ' part=400000 ')
    yield to_server, 3, 'no 14 UnknownChannel', 'one', CAM.replace(' cam ', ' other ')
    yield to_server, 3, 'no 1 NoRendition', 'one', CAM.replace('hi,lo', 'lo')


def origins():
    """Yields those of origins that misbehave."""
    for plan, count in HANGS_UP:
        yield hangs_up, plan, count
    for plan, count in GOES_ON_AFTER:
        yield goes_on_after, plan, count
    for plan, count in KEEPS_NOT_ALL:
        yield goes_on_unkept, plan, count
    for name, count in (('two', 4), ('gap', 9)):
        for how, number in itertools.product(('lose', 'drop', 'half'), range(count)):
            yield goes_on_everywhere, name, how, number
    for plan, fault, count in ORIGIN_REFUSES:
        yield stops_after, plan, 3, fault, count
    for answer in ELSEWHERE.splitlines():
        yield stops_after, f'ok,drop/?{answer}', 3, 'Elsewhere', 1
    for answer in BAD_PLACES.splitlines():
        yield stops_after, f'?{answer}', 4, 'BadAnswer', 0
    for at, words in STARTS:
        yield starts_at, at, words
    for answer in BAD_ANSWERS.splitlines():
        yield stops_after, f'ok,{answer}', 4, 'BadAnswer', 1


def all_tests():
    """Yields each test with its words, in the order in which those that fail are shown."""
    yield from inputs()
    yield from origins()
    for name in ('TERM', 'INT'):
        yield stopped, name, CAM, 6, SIX
        yield sends_no_end, name
    for test in ONCE:
        yield test,
    for line in WRONG_WORDS.splitlines():
        yield wrong, *line.split()
    if not missing('ffmpeg'):
        yield from ((test,) for test in WITH_FFMPEG)


def main(path, *names):
    why = missing('ffmpeg')
    skips = [(test, f'{why}: what a real encoder writes') for test in WITH_FFMPEG if why]
    return try_named(PushRoom, path, names, all_tests(), LONGEST, skips=skips)


if __name__ == '__main__':
    sys.exit(main(*sys.argv[1:]))
