#!/usr/bin/env python3
"""package.py [PROGRAM [TEST..]]: tests the Debian package that packaging/deb.sh builds of the program, or else of a stand-in, all or those of these names: its files, modes, owners and
fields, that two builds are the same bytes, and that lintian and systemd-analyze find nothing. SLOW=1 also installs it in a clean Debian (mmdebstrap, as root; the program has to be a real
one), where a server starts from the package's example, takes a part and serves its playlist, and sees what is left after the package is removed and purged. What a missing tool would test
is named and not counted. The last line is `N passed, M failed`."""
import os
import pathlib
import re
import shutil
import subprocess
import sys
import tempfile
import time

sys.path.insert(0, str(pathlib.Path(__file__).resolve().parents[1] / 'lib'))
from rooms import ROOT, Server, check, ended, missing, summed, try_named
from serve_room import PART, ServeRoom

VERSION = (ROOT / 'VERSION').read_text().strip()
UNIT = 'lib/systemd/system/llhls@.service'
DOC = 'usr/share/doc/llhls'
STAND_IN = '#include <stdio.h>\nint main(void) { return puts("%s") < 0; }\n'
UNPROVED = '~unproved'
# The files outside of the pages and examples.
FILES = {'usr/bin/llhls': '-rwxr-xr-x', UNIT: '-rw-r--r--', 'usr/share/man/man1/llhls.1.gz': '-rw-r--r--', f'{DOC}/changelog.gz': '-rw-r--r--', f'{DOC}/copyright': '-rw-r--r--',
         'usr/share/lintian/overrides/llhls': '-rw-r--r--', f'{DOC}/README.md': '-rw-r--r--', 'etc/llhls/': 'drwxr-xr-x'}
RUN_EXAMPLES = ('near.py', 'publish.py')
EXAMPLES = (*RUN_EXAMPLES, 'cam.conf', 'media.settings', 'watch.html', 'pattern.mp4', 'edge/nginx.conf', 'edge/channels.conf', 'edge/llhls.vcl', 'edge/main.m3u8')
# What a purge leaves of the settings that the operator made, and what the package's tools write themselves.
SETTINGS = {'etc/llhls', 'etc/llhls/cam.conf'}
OWN = re.compile('(var/(lib/(dpkg|apt|systemd)|log|cache)|etc/ld.so.cache|dev|proc|sys|run|tmp|root)(/|$)')


class PackageRoom(ServeRoom):
    """The folder of a test, and the package."""

    package = None  # its path
    version = VERSION   # what it has to say

    def out(self, *words, env=None):
        """Returns what a command writes to its standard output. Tests that it ends with status 0."""
        run = self.run(list(words) if env is None else ['env', *env, *words])
        check(run.status == 0, f'{words[0]} ends with status {run.status}: {run.stdout[-2000:].decode()}')
        return run.stdout.decode()

    def unpacked(self):
        """Returns a folder with the package's files."""
        self.out('dpkg-deb', '-x', self.package, self.folder / 'tree')
        return self.folder / 'tree'


def build(program, folder):
    """Builds the package in `folder`, and returns its path."""
    return pathlib.Path(subprocess.run([ROOT / 'packaging/deb.sh', folder], env={**os.environ, 'PROGRAM': str(program)}, check=True, stdout=subprocess.PIPE, text=True).stdout.strip())


def stand_in(path, said):
    """Makes a program that prints a line, and returns its path."""
    subprocess.run([os.environ.get('CC') or 'cc', '-x', 'c', '-', '-pie', '-o', path], input=(STAND_IN % said).encode(), check=True)
    return path


def is_unproved_by_itself(program):
    """Returns whether a program says that it isn't proved."""
    return ', not proved' in subprocess.run([program, 'version'], stdin=subprocess.DEVNULL, stdout=subprocess.PIPE, text=True).stdout


# ---- the file


def listed(room):
    """Returns the mode and owner of each path of the package."""
    lines = [line.split(None, 5) for line in room.out('dpkg-deb', '-c', room.package).splitlines()]
    return {path.removeprefix('./') or '/': (mode, owner) for mode, owner, _, _, _, path in lines}


def has_its_files(room):
    """The package has the program, the unit, the manual page, the pages and examples, with the modes that they should have, all of root; and nothing elsewhere."""
    found = listed(room)
    for path, mode in FILES.items():
        check(found.get(path, ('none',))[0] == mode, f'{path} has the mode {found.get(path)}')
    pages = [f'{DOC}/docs/{page.name}' for page in (ROOT / 'docs').glob('*.md')]
    for path in [*pages, *(f'{DOC}/examples/{name}' for name in EXAMPLES)]:
        check(path in found, f'{path} is not there')
    for name in RUN_EXAMPLES:
        check(found[f'{DOC}/examples/{name}'][0].endswith('rwxr-xr-x'), f'{name} can not be run')
    for path, (mode, owner) in found.items():
        check(owner == 'root/root' and mode[1:] in ('rwxr-xr-x', 'rw-r--r--'), f'{path} is {mode} of {owner}')
        check(path in FILES or path.endswith('/') or path.startswith(f'{DOC}/'), f'{path} is there')


def has_the_bytes(room):
    """The program, the manual page and the example are those of the repository, and the sums are right."""
    tree = room.unpacked()
    check((tree / 'usr/bin/llhls').read_bytes() == pathlib.Path(room.program).read_bytes(), 'the program has other bytes')
    check(room.out('zcat', tree / 'usr/share/man/man1/llhls.1.gz') == (ROOT / 'docs/llhls.1').read_text(), 'the manual page is another')
    check(f'llhls ({room.version}) ' in room.out('zcat', tree / DOC / 'changelog.gz'), 'the change log has another version')
    room.out('dpkg-deb', '-e', room.package, room.folder / 'control')
    room.out('env', '-C', tree, 'md5sum', '--quiet', '-c', room.folder / 'control/md5sums')
    for script in ('postinst', 'prerm', 'postrm'):
        room.out('sh', '-n', room.folder / 'control' / script)


def has_its_fields(room):
    """The package says its version, and which C library the program needs."""
    fields = dict(line.split(': ', 1) for line in room.out('dpkg-deb', '-f', room.package).splitlines() if re.match(r'\S+: ', line))
    wanted = {'Package': 'llhls', 'Version': room.version, 'Architecture': 'amd64'}
    check(wanted.items() <= fields.items() and room.package.name == f'llhls_{room.version}_amd64.deb', f'the fields are {fields}')
    further = '(, libgcc-s1)?' if room.version != VERSION else ''
    check(re.fullmatch(rf'libc6 \(>= 2\.[0-9]+(\.[0-9]+)?\){further}', fields['Depends']), f'it depends on {fields["Depends"]}')
    check('@' not in fields['Installed-Size'] + fields['Depends'] and '<' in fields['Maintainer'], f'the fields are {fields}')


def is_built_again(room):
    """A build at another time, from another folder and with another umask is the same bytes; one for another time isn't."""
    script = f"cd / && umask 077 && exec '{ROOT}/packaging/deb.sh' '{room.folder}/again'"
    again = room.out('bash', '-c', script, env=[f'PROGRAM={room.program}', 'TZ=Asia/Tokyo'])
    check(pathlib.Path(again.strip()).read_bytes() == room.package.read_bytes(), 'two builds differ')
    other = room.out(ROOT / 'packaging/deb.sh', room.folder / 'other', env=[f'PROGRAM={room.program}', 'SOURCE_DATE_EPOCH=1000000000'])
    check(pathlib.Path(other.strip()).read_bytes() != room.package.read_bytes(), 'the time is in no byte')


def needs_no_other_library(room):
    """A program that needs another library than the C library is refused."""
    run = room.run(['env', f'PROGRAM={shutil.which("dpkg-deb")}', ROOT / 'packaging/deb.sh', room.folder / 'refused'])
    check(run.status == 1 and 'needs other libraries' in run.stderr, f'status {run.status}, {run.stderr}')
    check(not list(room.folder.glob('refused/*.deb')), 'a package is built')


def says_if_it_is_unproved(room):
    """The description says that the program is proved, or that it isn't, as the program itself does, and so does the version."""
    said = room.out('dpkg-deb', '-f', room.package, 'Description')
    is_unproved = is_unproved_by_itself(room.program)
    check(('NOT PROVED' in said, 'is proved' in said, room.version != VERSION) == (is_unproved, not is_unproved, is_unproved), said)


def packs_no_unproved_one(room):
    """A program that says that it isn't proved has a package of another version than one that doesn't say so, with another description."""
    other = build(stand_in(room.folder / 'llhls', 'built with a kit, not proved'), room.folder / 'other')
    check(other.name == f'llhls_{VERSION}{UNPROVED}_amd64.deb', f'the package is {other.name}')
    check('NOT PROVED' in room.out('dpkg-deb', '-f', other, 'Description'), 'the description does not say it')


def is_quiet_to_lintian(room):
    """lintian has no error and no warning."""
    said = room.out('lintian', '--allow-root', '--fail-on', 'error,warning', '--tag-display-limit', '0', room.package)
    check(not said.strip(), said)


def has_a_sound_unit(room):
    """systemd-analyze reads every line of the unit, and finds little exposed."""
    tree = room.unpacked()
    run = room.run(['systemd-analyze', 'verify', f'--root={tree}', '--man=no', '--recursive-errors=no', tree / UNIT])
    check(run.status == 0 and 'llhls@' not in run.stderr, run.stderr)
    run = room.run(['systemd-analyze', 'security', '--offline=yes', '--threshold=20', tree / UNIT])
    check(run.status == 0, run.stdout.decode()[-2000:] + run.stderr)


# ---- a clean Debian


def paths(tree):
    """Returns the paths below `tree` that no tool of the package writes for itself."""
    found = {str(path.relative_to(tree)) for path in tree.rglob('*')}
    return {path for path in found if not OWN.match(path)}


def served_in(room, tree):
    """Starts the server in `tree`, as nobody, with the package's example at ports of the system's choice. Publishes a part, and fetches the playlist."""
    settings = (tree / DOC / 'examples/cam.conf').read_text()
    state = tree / 'var/lib/llhls/cam'
    state.mkdir(parents=True)
    state.chmod(0o777)
    (tree / 'etc/llhls/cam.conf').write_text(re.sub('127.0.0.1:[0-9]+', '127.0.0.1:0', settings))
    process = room.start(['chroot', '--userspec=nobody:nogroup', tree, 'llhls', 'serve', '/etc/llhls/cam.conf'])
    room.server = Server(process, 0, 0)

    def is_up():
        ports = re.findall(r': \w+ on 127\.0\.0\.1:([0-9]+)', room.log())
        check(len(ports) == 2, room.log())
        room.server = Server(process, *map(int, ports))

    room.comes(is_up)
    room.publish(PART, 'ok 1')
    room.is_served()


def is_installed_and_purged(room):
    """apt installs the package in a clean Debian; a server starts and serves, also after the package is installed again over it; after it is removed and purged, the operator's settings
    alone are left."""
    tree, suite = room.folder / 'root', re.search('VERSION_CODENAME=(.*)', pathlib.Path('/etc/os-release').read_text())[1]
    run = ended(room.start(['mmdebstrap', '--variant=minbase', suite, tree, 'deb http://deb.debian.org/debian ' + suite + ' main']), seconds=600)
    check(run.status == 0, f'mmdebstrap ends with status {run.status}')
    before = paths(tree)
    shutil.copy(room.package, tree / 'run')
    start = time.monotonic()
    room.out('chroot', tree, 'apt-get', 'install', '-y', f'/run/{room.package.name}')
    served_in(room, tree)
    print(f'from apt-get install to a playlist: {time.monotonic() - start:.1f} s')
    room.out('chroot', tree, 'apt-get', 'install', '-y', '--reinstall', f'/run/{room.package.name}')
    room.is_served()
    room.stop_server(15)
    check((tree / 'usr/share/man/man1/llhls.1.gz').exists(), 'the manual page is not installed')
    shutil.rmtree(tree / 'var/lib/llhls/cam')
    room.out('chroot', tree, 'apt-get', 'remove', '-y', 'llhls')
    check(not (tree / 'usr/bin/llhls').exists() and (tree / 'etc/llhls/cam.conf').exists(), 'it is removed wrongly')
    room.out('chroot', tree, 'dpkg', '--purge', 'llhls')
    left = paths(tree) ^ before
    check(left == SETTINGS, f'there is another {sorted(left)[:20]}')


def all_tests(is_real):
    """Yields each test with why it can't be tried here, or ''. `is_real` says that the program is none that stands in."""
    for test in has_its_files, has_the_bytes, has_its_fields, says_if_it_is_unproved, packs_no_unproved_one, is_built_again:
        yield test, ''
    yield needs_no_other_library, ''
    yield is_quiet_to_lintian, missing('lintian')
    yield has_a_sound_unit, missing('systemd-analyze')
    if os.environ.get('SLOW'):
        yield is_installed_and_purged, missing('mmdebstrap') or '' if os.geteuid() == 0 and is_real else 'a clean Debian needs root and a program'


def main(path=None, *names):
    tests = list(all_tests(path is not None))
    if why := missing('dpkg-deb', 'objdump'):
        print(summed(0, 0, [why] * len(tests)))
        return 0
    with tempfile.TemporaryDirectory() as folder:
        program = path and pathlib.Path(path).resolve() or pathlib.Path(folder, 'llhls')
        if path is None:
            stand_in(program, 'a stand-in')
        PackageRoom.version += UNPROVED if is_unproved_by_itself(program) else ''
        PackageRoom.package = build(program, folder)
        return try_named(PackageRoom, program, names, [(test,) for test, why in tests if not why], skips=[(test, why) for test, why in tests if why])


if __name__ == '__main__':
    sys.exit(main(*sys.argv[1:]))
