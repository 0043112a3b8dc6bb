#!/usr/bin/env python3
"""contents.py: tests that the README.md of each folder of tests/ and of bench/ names each file and folder beside it, in a line of its list that begins with the name, and none that isn't
there. The last line is `N passed, M failed`."""
import pathlib
import re
import subprocess
import sys

ROOT = pathlib.Path(__file__).resolve().parents[2]
LINE = re.compile(r'^- \[?`([^`]+)`', re.M)


def files():
    """Returns the files of tests/ and bench/ that git has, or would take."""
    words = ['git', '-C', ROOT, 'ls-files', '--cached', '--others', '--exclude-standard', 'tests', 'bench']
    return [pathlib.Path(path) for path in subprocess.run(words, check=True, stdout=subprocess.PIPE, text=True).stdout.splitlines() if (ROOT / path).exists()]


def beside(page, paths):
    """Returns the names of all that is beside a page, if these are the paths of all files."""
    return {path.relative_to(page.parent).parts[0] for path in paths if path.is_relative_to(page.parent)} - {page.name}


def faults(page, paths):
    """Yields what a page lacks, and what it names and isn't there."""
    told, there = LINE.findall((ROOT / page).read_text()), beside(page, paths)
    yield from (f'{page}: {name} is not named' for name in sorted(there - set(told)))
    yield from (f'{page}: {name} is not there' for name in sorted(set(told) - there))
    yield from (f'{page}: {name} is named twice' for name in sorted({name for name in told if told.count(name) > 1}))


def main():
    paths = files()
    pages = [path for path in paths if path.name == 'README.md']
    wanted = {pathlib.Path('tests/README.md'), pathlib.Path('bench/README.md')}
    wrong = [f'{page} is not there' for page in sorted(wanted - set(pages))]
    wrong += [fault for page in pages for fault in faults(page, paths)]
    for fault in wrong:
        print(f'FAILED {fault}')
    print(f'{len(paths) - len(pages)} passed, {len(wrong)} failed')
    return bool(wrong)


if __name__ == '__main__':
    sys.exit(main())
