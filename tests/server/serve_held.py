"""Tests of players of `llhls serve` whose requests are held: many of them, those that hang up, and those that have sent more meanwhile."""
import concurrent.futures
import os
import random
import resource
import signal
import socket
import threading
import time

from rooms import check
from serve_room import (CAM, LONG, NEXT, PART, PRESENT, TRIES, Crowd, has_nothing_more, in_time, is_closed, part_answers, part_of, request, say, take, target_of,
                        with_workers)
from serve_rows import CUTS, HALF_CLOSED_AT_ONCE

# ---- many


def many_held(room, workers, count, most):
    """`count` players, or as many as `ulimit -n` allows, wait for a part; another one is served meanwhile, and there is a thread for each processor, and few more. All get their answer.
    The server's memory is always below `most` KB."""
    count = min(count, resource.getrlimit(resource.RLIMIT_NOFILE)[0] - 200)
    room.serve(LONG, workers=workers)
    wanted, = part_answers(room, 1)
    with Crowd(room.server.port, count) as players:
        players.send(request(NEXT))
        room.pause(0.1 + count / 5000)
        room.is_served()
        players.have_nothing_more()
        threads = room.status('Threads')
        check(threads <= os.cpu_count() + 8, f'the server has {threads} threads')
        room.publish(part_of(0), 'ok 1')
        players.take(wanted, 60)
    room.is_served()
    room.held_less_than(most)


def thousand_held(room, workers):
    """A thousand players wait, and get what replay wrote; another one is served meanwhile."""
    room.serve(CAM, workers=workers)
    answers = room.follow([CAM, *(say(number, NEXT) for number in range(1, 1001)), say(1001, PRESENT), f'pub {PART}'])
    check(answers == 1001, f'replay wrote {answers} answers')
    room.held_less_than(32000)


def playlists_and_hinted_parts(room, workers):
    """Two hundred players have two requests each, for the playlist with the next part and for that part; one line of a publisher answers them all. Another one is served meanwhile."""
    room.serve(CAM, workers=workers)
    media = ''.join(f'{number}\n' for number in range(1, 10001))[:30000].encode().hex()
    asked = (line for number in range(1, 401, 2) for line in (say(number, NEXT), say(number + 1, '/cam/hi/s0.0.m4s')))
    answers = room.follow([CAM, *asked, say(401, PRESENT), f'pub {PART} {media}'])
    check(answers == 401, f'replay wrote {answers} answers')


def are_woken(room, workers):
    """Three hundred players wait for a part, and after them four hundred for a part of another rendition. That part comes, and these have their answers within half a second; the others
    have none."""
    room.serve(LONG, workers=workers)
    wanted = part_answers(room, TRIES)
    with Crowd(room.server.port, 300) as others, Crowd(room.server.port, 400) as players, room.publisher() as publisher:
        others.send(request(NEXT.replace('/hi/', '/lo/')))

        def seconds_of(number):
            players.send(request(target_of(number)))
            room.pause(0.1)
            began = time.monotonic()
            publisher.publish(part_of(number), f'ok {number + 1}')
            players.take(wanted[number])
            return time.monotonic() - began

        in_time(0.5, seconds_of)
        others.have_nothing_more()
    room.held_less_than(40000)
    room.is_served()


def stopped_and_continued(room, workers):
    """The server is stopped and continued twenty times, while players that stay and new ones wait for one part after another, which a publisher publishes. Every answer is there and is
    right."""
    room.serve(LONG, workers=workers)
    wanted = part_answers(room, 400)

    def stop_and_continue():
        pauses = random.Random(0)
        for _ in range(20):
            for number in (signal.SIGSTOP, signal.SIGCONT):
                room.server.process.send_signal(number)
                time.sleep(pauses.uniform(0.01, 0.1))

    stops = threading.Thread(target=stop_and_continue)
    with Crowd(room.server.port, 50) as players, room.publisher() as publisher:
        stops.start()
        for number, answer in enumerate(wanted):
            with Crowd(room.server.port, 5) as others:
                for each in (players, others):
                    each.send(request(target_of(number)))
                room.pause(0.005)
                publisher.publish(part_of(number), f'ok {number + 1}')
                for each in (players, others):
                    each.take(answer)
            if not stops.is_alive():
                break
        stops.join()
    room.is_served()


# ---- players that hang up, or end their side


def hangs_up_while_held(room, workers):
    """Two of three players that wait hang up, and one gets its answer; others are served before and after it."""
    room.serve(CAM, workers=workers)
    room.follow([CAM, say(1, NEXT), say(2, NEXT), say(3, NEXT), say(4, PRESENT), 'drop 1', 'drop 3', f'pub {PART}', say(5, PRESENT)])
    room.is_served()


def gives_workers_back(room, workers):
    """Players whose requests are held, as many as there are workers, hang up: another player is answered long before the 12 seconds of a time-out. Of every second one there are bytes
    that no one has read."""
    room.serve(CAM, workers=workers)
    with Crowd(room.server.port, workers) as players:
        players.send(request(NEXT))
        room.pause(0.5)
        for each in players.all[::2]:
            each.sendall(request(PRESENT))
        began = time.monotonic()
    room.is_served()
    took = time.monotonic() - began
    check(took < 3, f'it took {took:.3f} s')
    room.publish(PART, 'ok 1')
    room.is_served()


def hang_ups_are_seen_at_once(room, workers):
    """A thousand players, who have asked over a second and wait, hang up together: the server has closed their connections within half a second, and serves others meanwhile. Of every
    second one there are bytes that no one has read."""
    room.serve(LONG, workers=workers)
    room.is_served()

    def all_came(before):
        check(room.open_files() >= before + 1000, f'{room.open_files()} files are open, and {before} were before a thousand came')

    def seconds_of(_):
        before = room.open_files()
        with Crowd(room.server.port, 1000) as players:
            for number, each in enumerate(players.all):
                each.sendall(request(NEXT))
                if number % 100 == 0:
                    room.pause(0.1)
            room.comes(all_came, before)
            for each in players.all[::2]:
                each.sendall(request(PRESENT))
            room.pause(0.2)
            room.is_served()
            began = time.monotonic()
        room.is_served()
        while room.open_files() > before and time.monotonic() - began < 10:
            time.sleep(0.005)
        return time.monotonic() - began

    in_time(0.5, seconds_of)
    room.publish(PART, 'ok 1')
    room.is_served()


def half_closed(room, workers, before, behind):
    """Players end their side while a request is held, with `before` requests before it and `behind` requests after it: they get the answers to those before, and no more."""
    room.serve(LONG, workers=workers)
    present = room.answers(LONG, say(1, PRESENT))[1][0]
    with Crowd(room.server.port, 50) as players:
        players.send(request(PRESENT) * before + request(NEXT) + request(PRESENT) * behind)
        players.take(present * before)
        room.pause(0.2)
        for each in players.all:
            each.shutdown(socket.SHUT_WR)
        for each in players.all:
            is_closed(each)
    room.publish(PART, 'ok 1')
    room.is_served()


def half_closed_at_once(room, workers, count, *targets):
    """Players send some requests and end their side at once: they get `count` answers, and the end."""
    room.serve(LONG, workers=workers)
    present = room.answers(LONG, say(1, PRESENT))[1][0]
    with Crowd(room.server.port, 50) as players:
        for each in players.all:
            each.sendall(b''.join(map(request, targets)))
            each.shutdown(socket.SHUT_WR)
        for each in players.all:
            take(each, present * count)
            is_closed(each)
    room.is_served()


def hang_ups_around_an_answer(room, workers):
    """Half of the players that wait hang up one after another while their part comes: the others get their answers, and the server closes all that are gone."""
    room.serve(LONG, workers=workers)
    room.is_served()
    before = room.open_files()
    with concurrent.futures.ThreadPoolExecutor(1) as pool, room.publisher() as publisher:
        for number, answer in enumerate(part_answers(room, 20)):
            with Crowd(room.server.port, 50) as players, Crowd(room.server.port, 50) as others:
                for each in (players, others):
                    each.send(request(target_of(number)))
                room.pause(0.05)
                publishing = pool.submit(publisher.publish, part_of(number), f'ok {number + 1}')
                others.close()
                publishing.result()
                players.take(answer)

        def has_closed():
            check(room.open_files() <= before + 1, f'{room.open_files()} files are open, and {before} were before the publisher came')

        room.comes(has_closed)
    room.is_served()


def comes_and_goes(room, workers):
    """While players wait, others come and go: some hang up while they wait or within a head, and some get a playlist. Those that wait get their answers in the end, and the server has
    closed the others."""
    room.serve(LONG, workers=workers)
    wanted, present = room.answers(LONG, say(1, NEXT), say(2, PRESENT), f'pub {PART}')[1][0], room.answers(LONG, say(1, PRESENT))[1][0]
    with Crowd(room.server.port, 50) as players:
        players.send(request(NEXT))
        room.pause(0.2)
        before = room.open_files()
        for _ in range(30):
            with Crowd(room.server.port, 20) as held, Crowd(room.server.port, 20) as half, Crowd(room.server.port, 20) as served:
                for crowd, text in (held, request(NEXT)), (half, request(PRESENT)[:10]), (served, request(PRESENT)):
                    crowd.send(text)
                half.close()
                served.take(present)

        def has_closed():
            check(room.open_files() <= before, f'{room.open_files()} files are open, and {before} were before the others came')

        room.comes(has_closed)
        players.have_nothing_more()
        room.publish(PART, 'ok 1')
        players.take(wanted)


# ---- bytes that come before an answer, or while it comes


def bytes_before_an_answer(room, workers, *cuts):
    """Players send a request that is held and one behind it, cut at `cuts` bytes after the end of the first, and all before its part comes: both are answered then."""
    room.serve(LONG, workers=workers)
    wanted, = part_answers(room, 1)
    first, second = request(NEXT), request(PRESENT)
    cuts = [0, *(len(first) + cut for cut in cuts), len(first + second)]
    with Crowd(room.server.port, 50) as players:
        for begin, end in zip(cuts, cuts[1:]):
            players.send((first + second)[begin:end])
            room.pause(0.2)
        players.have_nothing_more()
        room.publish(part_of(0), 'ok 1')
        players.take(wanted * 2)


def head_ends_after_an_answer(room, workers):
    """The beginning of a head comes before the answer to the one before it, and the rest after that."""
    room.serve(LONG, workers=workers)
    wanted, = part_answers(room, 1)
    with Crowd(room.server.port, 50) as players:
        players.send(request(NEXT) + request(PRESENT)[:10])
        room.pause(0.2)
        room.publish(part_of(0), 'ok 1')
        players.take(wanted)
        players.send(request(PRESENT)[10:])
        players.take(wanted)


def requests_right_behind(room, workers):
    """Players send a further request within some microseconds after one that is held: it comes before that is read, while it is, or after it, and each is answered."""
    room.serve(LONG, workers=workers)
    pauses = random.Random(0)
    with room.publisher() as publisher, Crowd(room.server.port, 50) as players:
        for number, answer in enumerate(part_answers(room, 40)):
            for each in players.all:
                each.sendall(request(target_of(number)))
                end = time.monotonic() + pauses.uniform(0, 0.0002)
                while time.monotonic() < end:
                    pass
                each.sendall(request(PRESENT))
            room.pause(0.02)
            publisher.publish(part_of(number), f'ok {number + 1}')
            players.take(answer * 2)


def requests_around_an_answer(room, workers):
    """Players send a further request one after another while the part comes that they wait for, some before their answer and some after it: each is answered."""
    room.serve(LONG, workers=workers)
    with concurrent.futures.ThreadPoolExecutor(1) as pool, room.publisher() as publisher, Crowd(room.server.port, 50) as players:
        for number, answer in enumerate(part_answers(room, 40)):
            players.send(request(target_of(number)))
            room.pause(0.02)
            publishing = pool.submit(publisher.publish, part_of(number), f'ok {number + 1}')
            players.send(request(PRESENT))
            publishing.result()
            players.take(answer * 2)


def held_and_not_kept(room, workers):
    """Players don't keep the connection of a request that is held, and send another one behind it: they get one answer, and the end."""
    room.serve(LONG, workers=workers)
    text = request(NEXT, 'Connection: close')
    wanted = room.answers(LONG, say(1, NEXT, 'Connection: close'), f'pub {PART}')[1][0]
    with Crowd(room.server.port, 50) as players:
        players.send(text + request(PRESENT))
        room.pause(0.2)
        players.have_nothing_more()
        room.publish(PART, 'ok 1')
        for each in players.all:
            take(each, wanted)
            is_closed(each)


def held_behind_held(room, workers):
    """Players send three requests that are held for three parts, and one more, all at once: each is answered when its part comes, and the last with the third."""
    room.serve(LONG, workers=workers)
    wanted = part_answers(room, 3)
    with Crowd(room.server.port, 50) as players:
        players.send(b''.join(request(target_of(number)) for number in range(3)) + request(PRESENT))
        for number, answer in enumerate(wanted):
            room.pause(0.2)
            players.have_nothing_more()
            room.publish(part_of(number), f'ok {number + 1}')
            players.take(answer * 2 if number == 2 else answer)


def many_behind_a_held_one(room, workers):
    """A thousand requests come behind one that is held, more bytes than the server reads before it answers: all are answered once its part comes."""
    room.serve(LONG, workers=workers)
    wanted, = part_answers(room, 1)
    with Crowd(room.server.port, 5) as players:
        players.send(request(NEXT) + request(PRESENT) * 1000)
        room.pause(0.5)
        players.have_nothing_more()
        room.is_served()
        room.publish(part_of(0), 'ok 1')
        players.take(wanted * 1001)


def no_head_behind_a_held_one(room, workers):
    """20,000 bytes that are no head come behind a request that is held: that is answered once its part comes, and then they are refused."""
    room.serve(LONG, workers=workers)
    wanted, refusal = room.answers(LONG, say(1, NEXT), f'pub {PART}', f'say 1 {"x" * 8192}')[1]
    with room.connect() as player:
        player.sendall(request(NEXT) + b'x' * 20000)
        room.pause(0.5)
        has_nothing_more(player)
        room.publish(PART, 'ok 1')
        take(player, wanted)
        try:
            take(player, refusal)
        except ConnectionResetError:
            # The server has closed the connection with bytes unread, so the refusal may not arrive.
            return
        is_closed(player)


# ---- all of these

WITH_WORKERS = (
    (thousand_held, 1100, 2),
    (playlists_and_hinted_parts, 420, 2, 1),
    (are_woken, 1100, 2),
    (stopped_and_continued, 64, 2),
    (hangs_up_while_held, 8, 2, 1),
    (gives_workers_back, 100),
    (hang_ups_are_seen_at_once, 2),
    (hang_ups_around_an_answer, 2, 1),
    (comes_and_goes, 2, 1),
    (requests_right_behind, 2, 1),
    (requests_around_an_answer, 2, 1),
    (head_ends_after_an_answer, 2, 1),
    (held_and_not_kept, 2, 1),
    (held_behind_held, 2, 1),
    (many_behind_a_held_one, 2, 1),
    (no_head_behind_a_held_one, 2, 1),
)
# Those that are about time, or have a thousand players and more.
ALONE = (many_held, thousand_held, are_woken, gives_workers_back, hang_ups_are_seen_at_once)


def tests():
    """Yields each test with its words."""
    yield from with_workers(WITH_WORKERS)
    yield many_held, 2, 1000, 32000
    yield many_held, 4096, 1000, 32000
    yield many_held, 2, 10000, 120000
    for workers in (2, 1):
        for before, behind in (0, 0), (3, 0), (0, 3):
            yield half_closed, workers, before, behind
        for count, *targets in HALF_CLOSED_AT_ONCE:
            yield half_closed_at_once, workers, count, *targets
        for cuts in CUTS:
            yield bytes_before_an_answer, workers, *cuts
