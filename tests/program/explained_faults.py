#!/usr/bin/env python3
"""explained_faults.py PROGRAM [TEST..]: tests what the program says of a fault after the fault's line: which file, line and word it is of, which value that has, and what would be right.
Tests help too, which is no fault, and that a start that fails leaves no file. The last line is `N passed, M failed`."""
import pathlib
import re
import socket
import sys

sys.path.insert(0, str(pathlib.Path(__file__).resolve().parents[1] / 'lib'))
from rooms import check, try_named
from serve_room import CAM, ServeRoom

AT = '127.0.0.1:9'      # nobody listens there
PUSH = ['push', AT, 'cam', 'hi', 'part=500000', 'segment=2000000']
COMMANDS = ('serve', 'push', 'replay', 'check', 'upgrade', 'explain', 'multivariant', 'apply', 'version')
SETTINGS = ['listen 127.0.0.1:0', 'publish 127.0.0.1:0', 'workers 4', CAM]

# Words of a command, and what has to be said of them.
USES = [
    ([], 'usage: llhls COMMAND'), (['bogus'], '`bogus` is no command'), (['serve'], 'SETTINGS is missing'), (['check', 'a', 'b'], '`b` is a word too many'),
    (['explain', 'record', '0'], '`0` is no entry\'s number'), (['explain', 'record', '01'], '`01` is no entry\'s number'), (['apply', 'one'], 'DELTA is missing'),
    (['replay', 'script'], '`script` is a word too many'), (['version', 'x'], '`x` is a word too many'), (['multivariant', 'record'], 'NAME=INIT is missing'),
    (['multivariant', '/dev/null', 'hi'], '`hi` has no `=`'), (['bogus', '--help'], '`bogus` is no command'), (['help', 'bogus'], 'usage: llhls COMMAND'),
    (['push'], 'ADDRESS is missing'), (PUSH[:2], 'CHANNEL is missing'), (PUSH[:3], 'RENDITION is missing'), (PUSH[:4], 'part= is missing'),
    (PUSH[:5], 'segment= is missing'), ([*PUSH[:2], 'CAM', *PUSH[3:]], '`CAM` is no name'), ([*PUSH[:3], '1080P', *PUSH[4:]], '`1080P` is no name'),
    ([*PUSH[:4], 'part=0.5', PUSH[5]], '`part=0.5`'), ([*PUSH[:5], 'segmen=2'], '`segmen=2`'), ([*PUSH[:4], 'part=0', PUSH[5]], '`part=0`'),
    ([*PUSH, 'most=1'], '`most=` is less than `part=`'), ([*PUSH, 'retry=x'], '`retry=x`'), ([*PUSH, 'keep=1', 'retry=1'], '`retry=1` stands after `keep=1`'),
    ([*PUSH, 'tls'], '`tls` is no option'), ([*PUSH, 'secret='], '`secret=` has no file\'s name'), ([PUSH[0], '127.0.0.1', *PUSH[2:]], '`127.0.0.1` is no address with a port'),
    ([PUSH[0], f'{AT},{AT}', *PUSH[2:]], f'`{AT}` stands twice'), ([PUSH[0], 'a:1,b:1,c:1,d:1,e:1', *PUSH[2:]], 'more than four addresses'),
]

# Lines of settings in place of one, by its number; the number of the line that is refused; and what has to be said of it.
REFUSED = [
    (1, ['listen localhost:8080'], 1, 'listen: `localhost:8080` isn\'t an IP address'), (1, ['listen 127.0.0.1'], 1, '`127.0.0.1` has no port'), (1, ['listen 127.0.0.1:0 '], 1, 'a space stands at the end'),
    (1, ['# players', SETTINGS[0]], 1, 'a comment'), (1, ['\ufeff' + SETTINGS[0]], 1, 'byte order mark'), (2, [], 2, 'begins with `workers`, and has to be `publish`'),
    (2, ['publish unix:'], 2, 'no path stands after `unix:`'), (3, ['workers 0'], 3, 'workers: `0` isn\'t a number from 1 to 4096'), (3, ['workers 4097'], 3, '`4097`'),
    (3, [SETTINGS[2], ''], 4, 'the line is empty'), (3, [SETTINGS[2], 'tls on'], 4, '`tls` is no word of a settings file'), (3, [SETTINGS[2], 'record '], 4, 'nothing stands after `record`'),
    (3, [SETTINGS[2], 'log l', 'log l'], 5, '`log` stands in an earlier line too'), (3, [SETTINGS[2], 'idle 9', 'log l'], 5, '`log` stands after `idle`'),
    (3, [SETTINGS[2], 'status here:1'], 4, 'status: `here:1` isn\'t an IP address'), (3, [SETTINGS[2], 'idle 0'], 4, 'idle: `0` isn\'t a number of seconds from 1 to 86400'),
    (3, [SETTINGS[2], 'secret 00'], 4, '`secret` stands before any channel'), (4, [CAM, 'secret hunter2'], 5, 'secret: what follows isn\'t the SHA-256'), (4, [CAM, 'secret\thunter2'], 5, 'one space has to follow `secret`'), (4, [], 4, 'the file ends here'),
    (4, [CAM, CAM], 5, 'an earlier channel is called `cam` too'), (4, [CAM.replace('cam', 'c\udcff')], 4, 'byte 10 of the line isn\'t UTF-8'),
    *((4, [re.sub(*change, CAM)], 4, said) for change, said in (
        (('target=4', 'target=0'), 'BadTarget: target=0 is outside 1 to 60'), (('target=4', 'target=61'), 'BadTarget: target=61'),
        (('part=1000000', 'part=500'), 'BadPartTarget: part=500 is outside 10000 to 4000000'), (('part=1000000', 'part=4000001'), 'BadPartTarget: part=4000001'),
        (('skip=24', 'skip=23'), 'SkipTooSmall: skip=23 is below 24'), (('window=36', 'window=35'), 'WindowTooSmall: window=35 is below 36'),
        (('window=36', 'window=86401'), 'window=86401 is above 86400'), (('hi,lo', 'hi,1080P'), 'BadName: `1080P`'), (('hi,lo', 'hi,lo,hi'), 'BadName: `hi` stands twice'),
        (('hi,lo', 'a,b,c,d,e,f,g,h,i'), 'renditions= has 9 names'), (('first=0', f'first={2 ** 60 + 1}'), f'first={2 ** 60 + 1} is above'),
        (('start=0', 'start=253402300800000'), 'BadStart: start=253402300800000'), ((' start=0', ''), 'ends before `start=`'),
        (('window=', 'windw='), '`windw=36` stands where `window=` and a whole number of seconds'), (('skip=24', 'skip=24s'), '`skip=24s`'), ((' skip', '  skip'), 'a second space'),
        (('start=0', 'start=0 maps=no'), '`maps=no` is a word too many'), (('start=0', 'start=0 '), 'a space stands at the end'), ((' cam ', ' CAM '), '`CAM` is no channel'))),
]

# What begins an input that is no MP4.
INPUTS = [
    (bytes.fromhex('4740111000') * 100, 'the input begins with 47 40 11 10: this is MPEG-TS'), (b'FLV\x01\x05\0\0\0\x09' + bytes(100), 'this is FLV'),
    (bytes.fromhex('1a45dfa301000000000000') + bytes(100), 'this is Matroska'), (b'#EXTM3U\n#EXT-X-VERSION:9\n', 'this is text'), (b'OggS\0\x02' + bytes(100), 'this is Ogg'),
    (bytes.fromhex('00000001674d401f') + bytes(100), 'this is MPEG video'), (bytes.fromhex('7f454c4602010100') + bytes(100), 'this is a program'),
]
# Boxes are as they were: a first one of a type that an MP4 begins with, and one after the first.
BOXES = [(b'\0\x20\0\0moov', 'TooLarge'), (b'\0\0\0\x07ftyp', 'BadBox'), (b'\0\0\0\x10ftypiso6\0\0\0\0' + b'G@\x11\x10\0\0\0\0', 'TooLarge')]


def explains(run, fault, status, said):
    """Tests that a run of the program ended with this fault and status, said this of it, and nothing that isn't indented."""
    first, _, rest = run.stderr.partition('\n')
    check((first, run.status, run.stdout) == (f'llhls: {fault}', status, b''), f'status {run.status}, {run.stdout[:200]}, {run.stderr[:300]}')
    check(said in rest and re.fullmatch('(  .*\n)*', rest), f'{said!r} is wanted in {rest!r}')


def uses(room):
    """Each wrong use is refused with what is wrong in it, and how the command is used."""
    for words, said in USES:
        explains(room.run([room.program, *words]), 'usage', 2, said)


def helps(room):
    """Help is no fault, whichever way it is asked for."""
    whole = [room.run([room.program, *words]) for words in (['help'], ['-h'], ['--help'])]
    for command in COMMANDS:
        check(command in whole[0].stdout.decode(), f'{command} is not in the help')
        whole += [room.run([room.program, *words]) for words in ([command, '--help'], ['help', command])]
        check(whole[-1].stdout.decode().startswith(f'usage: llhls {command}'), f'{whole[-1]}')
        check(whole[-1].stdout == whole[-2].stdout, f'{whole[-2]}')
    check(len({each.stdout for each in whole}) == 1 + len(COMMANDS), 'two helps are one')
    whole.append(room.run([room.program, '--version']))
    check(whole[-1].stdout == room.run([room.program, 'version']).stdout, f'{whole[-1]}')
    for run in whole:
        check(run.status == 0 and run.stdout and not run.stderr, f'{run}')


def started(room, lines):
    """Returns the run of a server with these settings, and the path of these."""
    settings = room.folder / 'cam.conf'
    settings.write_text('\n'.join([*lines, '']), errors='surrogateescape')
    return room.run([room.program, 'serve', settings]), settings


def settings_lines(room):
    """Each wrong settings file is refused with its line, and with the word and the value that are wrong, but for a secret's."""
    for number, lines, refused, said in REFUSED:
        run, path = started(room, [*SETTINGS[:number - 1], *lines, *SETTINGS[number:]])
        explains(run, f'BadLine {refused}', 3, said)
        check(f'  in {path}, line {refused}\n' in run.stderr and 'hunter2' not in run.stderr, run.stderr)


def addresses(room):
    """An address that can't be listened at is named, with whom it is for and why, and no file is left; nothing that was there is touched."""
    old = room.folder / 'r.cam'
    old.write_text('old\n')
    (room.folder / 'spool').mkdir()
    (room.folder / 'plain').write_text('')
    extra = [f'record {room.folder}/r', f'log {room.folder}/l', f'spool {room.folder}/spool']
    with socket.create_server(('127.0.0.1', 0)) as taken:
        at = f'127.0.0.1:{taken.getsockname()[1]}'
        faults = [
            ([f'listen {at}', SETTINGS[1], 'workers 4', *extra, CAM], f'{at}, for players: Address already in use'),
            ([SETTINGS[0], f'publish {at}', 'workers 4', *extra, CAM], f'{at}, for publishers: Address already in use'),
            ([*SETTINGS[:2], 'workers 4', *extra, f'status {at}', CAM], f'{at}, for the status port: Address already in use'),
            (['listen 192.0.2.1:8080', SETTINGS[1], 'workers 4', *extra, CAM], '192.0.2.1:8080, for players: Cannot assign'),
            ([SETTINGS[0], f'publish unix:{room.folder}/plain', 'workers 4', *extra, CAM], 'plain, for publishers: a file that is no socket is there'),
            ([SETTINGS[0], f'publish unix:{room.folder}/{"x" * 108}', 'workers 4', *extra, CAM], 'for publishers: '),
            ([SETTINGS[0], f'publish unix:{room.folder}/p', 'workers 4', *extra, f'status {at}', CAM], f'{at}, for the status port: '),
        ]
        for lines, said in faults:
            before = sorted(room.folder.rglob('*'))
            run, path = started(room, lines)
            ours = re.sub('(?m)^llhls: spool: cam: 0 items\n', '', run.stderr)
            explains(run._replace(stderr=ours), 'Listen', 4, said)
            after = {each for each in room.folder.rglob('*') if not re.fullmatch(r'[0-9]+\.(stdout|stderr|input)|cam\.conf', each.name)}
            check(after <= set(before) and old.read_text() == 'old\n', f'{said}: left are {sorted(after - set(before))}')


def files(room):
    """A file that can't be read is named, with why; of an empty record it is said that nothing was written yet, beside the line that says how it isn't right."""
    for words in (['check', 'no'], ['explain', 'no'], ['upgrade', 'no'], ['serve', 'no'], ['apply', 'no', 'no'], ['multivariant', 'no', 'hi=no'], [*PUSH, 'secret=no']):
        explains(room.run([room.program, *words]), 'Read', 4, '  no: No such file or directory')
    explains(room.run([room.program, 'check', room.folder]), 'Read', 4, f'  {room.folder}: a read failed')
    explains(room.run([room.program, 'serve', room.folder]), 'Read', 4, f'  {room.folder}: Is a directory')
    secret = room.folder / 'secret'
    secret.write_text('two words\n')
    explains(room.run([room.program, *PUSH, f'secret={secret}']), 'usage', 2, f'{secret} holds no secret')
    empty = room.folder / 'empty'
    empty.write_text('')
    for command in ('check', 'explain', 'upgrade'):
        run = room.run([room.program, command, empty])
        check((run.status, run.stdout) == (3, b'bad 1 BadChunk\n') and 'nothing was written to it yet' in run.stderr, f'{run}')
        check(re.fullmatch('(  .*\n)+', run.stderr), f'{run}')


def connections(room):
    """A server that can't be reached is named, with why; so is one that answers nonsense."""
    explains(room.run([room.program, *PUSH]), 'Connect', 4, f'  {AT}: Connection refused')
    explains(room.run([room.program, 'push', f'unix:{room.folder}/no', *PUSH[2:]]), 'Connect', 4, f'  unix:{room.folder}/no: No such file or directory')
    server = room.serve(CAM)
    explains(room.run([room.program, 'push', f'127.0.0.1:{server.port}', *PUSH[2:]]), 'BadAnswer', 4, f'  127.0.0.1:{server.port}: the answer is not that of')
    explains(room.run([room.program, 'push', server.address, 'zz', *PUSH[3:]]), 'no 14 UnknownChannel', 3, 'The server has no channel of that name')
    explains(room.run([room.program, 'push', f'{AT},unix:{room.folder}/no', *PUSH[2:]]), 'Connect', 4, 'none of the servers takes what comes')


def inputs(room):
    """An input that begins with no box is NotMp4, with its first bytes and what it is; boxes have the faults that they had."""
    server = room.serve(CAM)
    words = [room.program, 'push', server.address, *PUSH[2:]]
    for text, said in INPUTS:
        explains(room.run(words, text), 'NotMp4', 3, said)
    for text, fault in BOXES:
        explains(room.run(words, text), fault, 3, 'PUSH.md, "Input"')


TESTS = (uses, helps, settings_lines, addresses, files, connections, inputs)


def main(path, *names):
    return try_named(ServeRoom, path, names, [(test,) for test in TESTS])


if __name__ == '__main__':
    sys.exit(main(*sys.argv[1:]))
