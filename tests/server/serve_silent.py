"""Tests of players of `llhls serve` that are silent, before a request, within one, behind one that is held or after its answer, and of how long they are kept."""
import contextlib
import time

from rooms import check
from serve_room import CAM, LONG, NEXT, PART, PRESENT, TRIES, Crowd, has_nothing_more, in_time, is_closed, part_answers, part_of, request, say, take, target_of, with_workers


def sends_nothing(room, workers):
    """Players that send nothing, more than there are workers, occupy none."""
    room.serve(CAM, workers=workers)
    with Crowd(room.server.port, 5):
        for _ in range(8):
            room.is_served()
        room.publish(PART, 'ok 1')


def drips_its_head(room, workers):
    """A head comes a byte at a time; in the middle of it another player is served, and a part is published."""
    room.serve(CAM, workers=workers)
    head = say(1, NEXT)
    at = head.index('LS_part=0')
    room.follow([CAM, head[:at], say(2, PRESENT), 'drop 2', f'pub {PART}', f'say 1 {head[at:]}'], 'bytes')


def two_silent_players(room, workers):
    """Two players have waited, have their answers, and fall silent: a third player has its answer within 50 ms."""
    room.serve(LONG, workers=workers)
    wanted = part_answers(room, TRIES)
    with contextlib.ExitStack() as silent:

        def seconds_of(number):
            players = silent.enter_context(Crowd(room.server.port, 2))
            players.send(request(target_of(number)))
            room.pause(0.2)
            room.publish(part_of(number), f'ok {number + 1}')
            players.take(wanted[number])
            began = time.monotonic()
            with room.connect() as third:
                third.sendall(request(PRESENT))
                take(third, wanted[number])
            return time.monotonic() - began

        in_time(0.05, seconds_of)


def times_out(room, workers):
    """Nothing is published for three target durations: those that wait are refused then, not before, and can ask again."""
    channel = LONG.replace('target=60', 'target=2')
    room.serve(channel, workers=workers)
    refusal, present = room.answers(channel, say(1, NEXT), 'clock 6000', say(1, PRESENT))[1]
    with Crowd(room.server.port, 100) as players:
        began = time.monotonic()
        players.send(request(NEXT))
        room.pause(5.5 - (time.monotonic() - began))
        players.have_nothing_more()
        players.take(refusal)
        players.send(request(PRESENT))
        players.take(present)
    took = time.monotonic() - began
    check(took > 5.9, f'they are refused after {took:.1f} s')


def held_with_one_behind(room, seconds):
    """A request that is held and one behind it wait for `seconds` seconds: both are answered, and so is a third one."""
    room.serve(LONG, workers=2)
    wanted, = part_answers(room, 1)
    with Crowd(room.server.port, 10) as players:
        players.send(request(NEXT) + request(PRESENT))
        room.pause(seconds)
        players.have_nothing_more()
        room.publish(part_of(0), 'ok 1')
        players.take(wanted * 2)
        players.send(request(PRESENT))
        players.take(wanted)


def held_for_long(room):
    """A request is held for longer than a silent player is kept. It is answered, and so are further ones, at once and five seconds later."""
    room.serve(LONG, workers=2)
    wanted, = part_answers(room, 1)
    with Crowd(room.server.port, 10) as players:
        players.send(request(NEXT))
        room.pause(33)
        room.publish(part_of(0), 'ok 1')
        players.take(wanted)
        for seconds in (0, 5):
            room.pause(seconds)
            players.send(request(PRESENT))
            players.take(wanted)


def in_use_for_long(room, *pauses):
    """A player asks after each of `pauses` seconds, for longer in all than a silent player is kept. It is answered each time."""
    room.serve(LONG, workers=2)
    present = room.answers(LONG, say(1, PRESENT))[1][0]
    with room.connect() as player:
        for seconds in pauses:
            room.pause(seconds)
            player.sendall(request(PRESENT))
            take(player, present)
        has_nothing_more(player)


def silent_for_long(room):
    """After 30 seconds a silent player's connection is closed, a silent publisher's isn't."""
    room.serve(CAM)
    with room.publisher() as publisher, room.connect() as player:
        began = time.monotonic()
        player.settimeout(60)
        is_closed(player)
        took = time.monotonic() - began
        check(29 <= took <= 40, f'the connection is closed after {took:.1f} s')
        publisher.publish(PART, 'ok 1')


# ---- all of these

WITH_WORKERS = (
    (sends_nothing, 2, 1),
    (drips_its_head, 2, 1),
    (two_silent_players, 2),
    (times_out, 200, 2),
)
# Those that take more than 30 seconds.
SLOW = (
    (silent_for_long,),
    (held_for_long,),
    (held_with_one_behind, 33),
    (in_use_for_long, *[1] * 35),
    (in_use_for_long, 25, 25),
)
# Those that are about time.
ALONE = (two_silent_players,)


def tests():
    """Yields each test with its words, but for slow ones."""
    yield from with_workers(WITH_WORKERS)
    yield held_with_one_behind, 2.5
