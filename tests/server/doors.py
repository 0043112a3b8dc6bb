#!/usr/bin/env python3
"""doors.py PROGRAM [TEST..]: tests where `llhls serve` listens and `llhls push` connects, all tests or those of these names: IPv6, socket files, hosts' names; publishers that are
silent for too long; and the line with a secret that begins each connection of a push. What needs IPv6 or a hosts file of its own is left out if the machine doesn't allow that. The last
line is `N passed, M failed`."""
import contextlib
import os
import pathlib
import re
import socket
import stat
import subprocess
import sys
import threading
import time

sys.path[:0] = [str(pathlib.Path(__file__).resolve().parents[1] / each) for each in ('lib', 'push/model')]
from door_server import ANY, ANY6, CAM, Doors, has_ipv6
from push_inputs import input_of
from push_looks import ends, ends_with, passes, took
from push_peer import ALL_OK, address_of, held_port
from push_room import PushRoom
from rooms import check, ended, try_named
from serve_room import is_closed

NAME = 'origin.test'
OTHER_HOSTS = 'no process may have a hosts file of its own'
MASKS = 0o000, 0o022, 0o077
SECRET = 'a!~"0123456789'
GREETING = f'cam secret {SECRET}\n'.encode()
REFUSED = 'no 19 NotAllowed'


def fails(room, *settings):
    """Tests that a server with these settings can't listen."""
    path = room.folder / 'settings'
    path.write_text('\n'.join([*settings, 'workers 4', CAM, '']))
    run = room.run([room.program, 'serve', path])
    ends_with(run, 4, 'Listen')


def publishes(room, doors, address):
    """Tests that a push to `address` reaches the players of a server."""
    ends(room.push(address, input_of('two')), 0)
    doors.lists('#EXT-X-ENDLIST')


# ---- where a server listens


def listens_at_ipv6(room):
    """Players and publishers connect by IPv6."""
    doors = Doors(room, ANY6, ANY6)
    for each in doors.players, doors.publishers:
        check(re.fullmatch(r'\[::1\]:[0-9]+', each), f'it listens at {each}')
    publishes(room, doors, doors.publishers)


def listens_at_a_file(room, mask):
    """Publishers connect by a socket file that its owner and group may use, whatever the mask; it stays once the server is gone, and the next one replaces it."""
    path = room.folder / 'door'
    nodes = set()
    for _ in range(2):
        doors = Doors(room, ANY, f'unix:{path}', mask=mask)
        check(doors.publishers == f'unix:{path}', f'it listens at {doors.publishers}')
        found = path.lstat()
        check(stat.S_ISSOCK(found.st_mode) and stat.S_IMODE(found.st_mode) == 0o660, f'its mode is {found.st_mode:o}')
        nodes.add(found.st_ino)
        publishes(room, doors, doors.publishers)
        doors.kill()
        check(path.is_socket(), 'it is gone with the server')
        # The number of a file that is gone is not to be given to the next.
        os.link(path, room.folder / str(len(nodes)))
    check(len(nodes) == 2, 'it is not replaced')
    check(not pathlib.Path(f'{path}~').exists(), 'a file is left beside it')


def has_one_mode(room, mask):
    """At no moment has the socket file another mode, also if it replaces one."""
    path, modes, over = room.folder / 'door', set(), threading.Event()

    def watch():
        while not over.is_set():
            with contextlib.suppress(FileNotFoundError):
                modes.add(path.lstat().st_mode)

    watcher = threading.Thread(target=watch, daemon=True)
    watcher.start()
    try:
        for _ in range(5):
            Doors(room, ANY, f'unix:{path}', mask=mask).kill()
    finally:
        over.set()
        watcher.join()
    check(modes == {stat.S_IFSOCK | 0o660}, f'its modes are {[f"{each:o}" for each in modes]}')


def long_path(room):
    """A path may have 106 bytes, and its folder has to be there."""
    longest = 107 - len('~') - len(f'{room.folder}/')
    path = room.folder / ('d' * longest)
    doors = Doors(room, ANY, f'unix:{path}')
    publishes(room, doors, f'unix:{path}')
    fails(room, f'listen {ANY}', f'publish unix:{path}d')
    fails(room, f'listen {ANY}', f'publish unix:{room.folder}/none/door')


def leaves_other_files(room):
    """A file that is no socket, and a socket file at which somebody listens or which isn't a stream's, are not touched."""
    files = {name: room.folder / name for name in ('text', 'folder', 'pipe', 'link', 'nowhere', 'datagrams', 'live', 'full')}
    files['text'].write_text('text')
    files['folder'].mkdir()
    os.mkfifo(files['pipe'])
    left = socket.socket(socket.AF_UNIX)
    left.bind(str(room.folder / 'left'))
    left.close()
    files['link'].symlink_to(room.folder / 'left')
    files['nowhere'].symlink_to(room.folder / 'none')
    with socket.socket(socket.AF_UNIX, socket.SOCK_DGRAM) as datagrams, socket.socket(socket.AF_UNIX) as live, socket.socket(socket.AF_UNIX) as full, socket.socket(socket.AF_UNIX) as waits:
        datagrams.bind(str(files['datagrams']))
        live.bind(str(files['live']))
        live.listen(4)
        full.bind(str(files['full']))
        full.listen(0)
        waits.connect(str(files['full']))
        for path in files.values():
            before = path.lstat()
            fails(room, f'listen {ANY}', f'publish unix:{path}')
            after = path.lstat()
            check((before.st_ino, before.st_mode, before.st_mtime_ns) == (after.st_ino, after.st_mode, after.st_mtime_ns), f'{path.name} was touched')
        with socket.socket(socket.AF_UNIX) as link:
            link.connect(str(files['live']))
    check(files['text'].read_text() == 'text', 'the text was changed')
    check(not list(room.folder.glob('*~')), 'a file is left')


def replaces_what_was_left(room):
    """A server that was stopped while it made its socket file leaves another beside it, which is replaced too."""
    path = room.folder / 'door'
    for name in path, f'{path}~':
        with socket.socket(socket.AF_UNIX) as left:
            left.bind(str(name))
    doors = Doors(room, ANY, f'unix:{path}')
    publishes(room, doors, doors.publishers)
    check(not pathlib.Path(f'{path}~').exists(), 'a file is left beside it')


def second_server_is_refused(room):
    """A second server leaves the first one's socket file alone, and that one goes on."""
    path = room.folder / 'door'
    doors = Doors(room, ANY, f'unix:{path}')
    fails(room, f'listen {ANY}', f'publish unix:{path}')
    publishes(room, doors, f'unix:{path}')


def cut_file_is_tried_again(room):
    """A push by a socket file goes on once the server is there again."""
    path = room.folder / 'door'
    doors = Doors(room, ANY, f'unix:{path}')
    push = room.start_push(f'unix:{path}', subprocess.PIPE, words=('retry=20', 'end'))
    data = input_of('many')
    push.stdin.write(data[:-1])
    push.stdin.flush()
    room.comes(doors.lists, 's0.')
    doors.kill()
    doors = Doors(room, ANY, f'unix:{path}')
    run = ended(push, [data[-1:]])
    check(run.status in (0, 3) and 'the connection is lost' in run.stderr, f'status {run.status}')


# ---- where a push connects


def connects_by_name(room):
    """A host's name is looked up."""
    doors = Doors(room, ANY, ANY)
    publishes(room, doors, f'localhost:{doors.publishers.rpartition(":")[2]}')


def connects_to_many(room):
    """A push to several origins takes each kind of address, and says it as it was given."""
    path = room.folder / 'door'
    doors = Doors(room, ANY, f'unix:{path}')
    peer = room.peer(f'/{ALL_OK}')
    by_name = f'localhost:{peer.address.rpartition(":")[2]}'
    with held_port() as held:
        nobody = f'localhost:{address_of(held).rpartition(":")[2]}'
        run = room.push(f'unix:{path},{by_name},{nobody},unix:{path}.none', input_of('two'), words=('retry=0', 'end'))
    check(run.status == 0, f'status {run.status}')
    for each in nobody, f'unix:{path}.none':
        check(f'llhls: {each} is left: Connect\n' in run.stderr, f'it says {run.stderr!r}')
    took(peer, input_of('two'))
    doors.lists('#EXT-X-ENDLIST')


def has_no_address(room, address):
    """Nobody listens at an address, or it is none of any host."""
    ends_with(room.push(address, input_of('one')), 4, 'Connect')


def no_file(room):
    """There is no socket file, or one at which nobody listens, or another file."""
    path = room.folder / 'door'
    has_no_address(room, f'unix:{path}')
    with socket.socket(socket.AF_UNIX) as left:
        left.bind(str(path))
    has_no_address(room, f'unix:{path}')
    has_no_address(room, f'unix:{room.folder / "settings"}')
    has_no_address(room, f'unix:/{"d" * 200}')


class Hosts:
    """A hosts file that only a push of this room sees."""

    def __init__(self, room, *addresses):
        self.path = room.folder / 'hosts'
        self.names(*addresses)
        self.words = ['unshare', '-rm', 'bash', '-c', 'mount --bind "$0" /etc/hosts && exec "$@"', self.path]

    def names(self, *addresses):
        """Gives the name these addresses."""
        self.path.write_text(''.join(f'{address} {NAME}\n' for address in addresses))

    def start(self, room, port, *words):
        """Starts a push to the name."""
        return room.start([*self.words, room.program, 'push', f'{NAME}:{port}', 'cam', 'hi', 'part=500000', 'segment=2000000', *words], subprocess.PIPE)


def tries_all_addresses(room):
    """The addresses of a name are tried in turn: nobody listens at the first ones."""
    peer = room.peer(ALL_OK)
    run = ended(Hosts(room, '::1', '127.0.0.2', '127.0.0.1').start(room, peer.address.rpartition(':')[2], 'end'), [input_of('two')])
    ends(run, 0)
    took(peer, input_of('two'))


def looks_up_again(room):
    """A name is looked up for each connection."""
    first = room.peer('drop')
    port = int(first.address.rpartition(':')[2])
    second = room.peer(ALL_OK, at=('127.0.0.2', port))
    hosts = Hosts(room, '127.0.0.1')
    push = hosts.start(room, port, 'retry=20', 'end')
    push.stdin.write(input_of('two'))
    push.stdin.close()
    check(first.has_ended(), 'the first one still waits')
    hosts.names('127.0.0.2')
    status = push.wait(timeout=30)
    check(status == 0, f'status {status}')
    took(second, input_of('two'))


# ---- publishers that are silent


def connect(doors):
    """Returns a publisher's connection."""
    host, _, port = doors.publishers.rpartition(':')
    return socket.create_connection((host, int(port)), timeout=10)


def publish(link, line, answer):
    """Tests that a line is answered so."""
    link.sendall(line)
    came = link.recv(100)
    check(came == answer, f'{line!r} is answered {came!r}')


def silent_are_closed(room):
    """A publisher that sends nothing for that long is closed, and none that sends something."""
    doors = Doors(room, ANY, ANY, 'idle 2')
    with connect(doors) as mute, connect(doors) as silent, connect(doors) as busy:
        begin = time.monotonic()
        publish(silent, b'cam part hi 1000000 -\n', b'ok 1\n')
        for byte in b'cam part hi 1000000 -\n'[:10]:
            busy.sendall(bytes([byte]))
            room.pause(0.5)
        for link in mute, silent:
            is_closed(link)
        check(time.monotonic() - begin < 9, 'they were closed late')
        publish(busy, b'cam part hi 1000000 -\n'[10:], b'ok 2\n')
        begin = time.monotonic()
        is_closed(busy)
        took_time = time.monotonic() - begin
        check(1.5 < took_time < 6, f'it was closed after {took_time:.1f} s')


def silent_in_a_file_are_closed(room):
    """The same holds of those who come by a socket file."""
    path = room.folder / 'door'
    Doors(room, ANY, f'unix:{path}', 'idle 1')
    with socket.socket(socket.AF_UNIX) as link:
        link.settimeout(10)
        link.connect(str(path))
        publish(link, b'cam part hi 1000000 -\n', b'ok 1\n')
        is_closed(link)


def silent_stay(room):
    """Without the line, a publisher may be silent."""
    doors = Doors(room, ANY, ANY)
    with connect(doors) as link:
        room.pause(4)
        publish(link, b'cam part hi 1000000 -\n', b'ok 1\n')


# ---- secrets


def with_secret(room, content, *words):
    """Returns the words of a push with a file of these bytes."""
    path = room.folder / 'secret'
    path.write_bytes(content)
    return 'retry=2', f'secret={path}', *words


def says_no_secret(run):
    """Tests that a run doesn't say the secret."""
    check(SECRET not in run.stderr, f'it says {run.stderr!r}')


def begins_with_its_secret(room, end):
    """Each connection begins with the line, whatever is answered, and however the file ends."""
    peer = room.peer(f'ok,drop/close/{ALL_OK}', greeting=(GREETING, b'ok 0\n' if end else b'no 99 Nonsense \xff\n'))
    run = room.push(peer.address, input_of('two'), words=with_secret(room, SECRET.encode() + end, 'end'))
    passes(run, 2)
    says_no_secret(run)
    took(peer, input_of('two'))
    check(peer.greeted == 3, f'{peer.greeted} connections were greeted')


def secret_after_the_end(room):
    """The word may stand after `end`."""
    peer = room.peer(ALL_OK, greeting=(GREETING, b'ok 0\n'))
    ends(room.push(peer.address, input_of('two'), words=('end', *with_secret(room, SECRET.encode())[1:])), 0)
    took(peer, input_of('two'))


def begins_with_its_secret_everywhere(room):
    """With several origins too."""
    peers = [room.peer(f'/{ALL_OK}', greeting=(GREETING, b'ok 0\n')) for _ in range(2)]
    run = room.push(','.join(each.address for each in peers), input_of('two'), words=with_secret(room, SECRET.encode(), 'end'))
    check(run.status == 0, f'status {run.status}')
    says_no_secret(run)
    for each in peers:
        took(each, input_of('two'))
        check(each.greeted == 2, f'{each.greeted} connections were greeted')


def wrong_secret(room):
    """A wrong secret is refused by the answer to the question after it."""
    peer = room.peer(f'?{REFUSED}\\n', greeting=(GREETING, f'{REFUSED}\n'.encode()))
    run = room.push(peer.address, input_of('two'), words=with_secret(room, SECRET.encode(), 'end'))
    ends_with(run, 3, REFUSED)


def no_answer(room, answer):
    """A connection whose greeting isn't answered by a line, of at most 4,096 bytes, wasn't made."""
    peer = room.peer('ok', greeting=(GREETING, answer))
    ends_with(room.push(peer.address, input_of('two'), words=with_secret(room, SECRET.encode(), 'end')), 4, 'Connect')


def long_answer(room):
    """A line of 4,096 bytes is an answer."""
    peer = room.peer(ALL_OK, greeting=(GREETING, b'x' * 4095 + b'\n'))
    ends(room.push(peer.address, input_of('two'), words=with_secret(room, SECRET.encode(), 'end')), 0)


def is_no_secret(room, content):
    """Other bytes in the file are wrong usage."""
    with held_port() as held:
        ends_with(room.push(address_of(held), input_of('one'), words=with_secret(room, content, 'end')), 2, 'usage')


def longest_secret(room):
    """256 bytes are a secret."""
    secret = b'~' * 256
    peer = room.peer(ALL_OK, greeting=(b'cam secret %s\n' % secret, b'ok 0\n'))
    ends(room.push(peer.address, input_of('two'), words=with_secret(room, secret + b'\r\n', 'end')), 0)


def unreadable_secret(room):
    """A file that can't be read is told."""
    with held_port() as held:
        for path in room.folder / 'none', room.folder:
            ends_with(room.push(address_of(held), input_of('one'), words=('retry=2', f'secret={path}', 'end')), 4, 'Read')


def has_hosts_file():
    """Returns whether this machine allows a process a hosts file of its own."""
    words = 'unshare', '-rm', 'mount', '--bind', '/dev/null', '/etc/hosts'
    return subprocess.run(words, stdout=subprocess.DEVNULL, stderr=subprocess.DEVNULL).returncode == 0


def skips():
    """Yields each test that can't be tried on this machine, with the reason."""
    if not has_ipv6():
        yield listens_at_ipv6, 'no IPv6'
    if not has_hosts_file():
        yield tries_all_addresses, OTHER_HOSTS
        yield looks_up_again, OTHER_HOSTS


def all_tests():
    """Yields each test with its words."""
    if has_ipv6():
        yield listens_at_ipv6,
    for mask in MASKS:
        yield listens_at_a_file, mask
        yield has_one_mode, mask
    for test in (
        long_path, leaves_other_files, replaces_what_was_left, second_server_is_refused, cut_file_is_tried_again, connects_by_name, connects_to_many, no_file,
        silent_are_closed, silent_in_a_file_are_closed, silent_stay, secret_after_the_end, begins_with_its_secret_everywhere, wrong_secret, long_answer, longest_secret,
        unreadable_secret,
    ):
        yield test,
    yield has_no_address, 'no-such-host.invalid:1'
    if has_hosts_file():
        yield tries_all_addresses,
        yield looks_up_again,
    for end in b'', b'\n', b'\r\n':
        yield begins_with_its_secret, end
    for answer in b'', b'ok 0', b'x' * 4096 + b'\n':
        yield no_answer, answer
    for content in b'', b'\n', b'\r\n', b'a\n\n', b'a\r\r\n', b'a\r', b'\na', b'a b', b'a\x7f', b'\xc3\xa9', b'~' * 257:
        yield is_no_secret, content


def main(path, *names):
    return try_named(PushRoom, path, names, list(all_tests()), skips=list(skips()))


if __name__ == '__main__':
    sys.exit(main(*sys.argv[1:]))
