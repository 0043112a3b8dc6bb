#!/usr/bin/env python3
"""explained.py PROGRAM: compares `llhls explain` for each entry of each right record of check/ with a replay of that record's events. A script is made of the events of each of its
chains, and replayed: the playlist that `explain` writes for an entry has to be the one of the script's answer, byte for byte, and the words have to be the entry's own; the number after the
last entry has to be NoEntry. The last line, `N passed, M failed`, counts records."""
import os
import pathlib
import re
import subprocess
import sys

sys.path.insert(0, str(pathlib.Path(__file__).resolve().parents[1] / "lib"))
from faults import unexplained

CHECK = os.path.join(os.path.dirname(os.path.realpath(__file__)), "check")
WORDS = {
    "notfound": "NotFound: there is no such rendition or media",
    "bad TooFar": "TooFar: what it awaits is too far ahead",
    "busy": "Busy: as many requests wait as may wait",
    "timeout": "Timeout: what it awaits did not come in time",
}


def run(program, words, text=b""):
    return subprocess.run([program, *words], input=text, capture_output=True, timeout=60)


def chains(lines):
    """Returns the chains of a record: of each the settings line, and its entries as (number over all chains, format, line)."""
    found, number = [], 0
    version, settings = "", ""
    for at, line in enumerate(lines):
        if line.startswith("#LLHLS-CHUNK "):
            version, settings = line[-1], lines[at + 1]
        elif line == "at 0":
            found.append((settings, []))
        elif re.match("[PAMCGX] ", line):
            number += 1
            found[-1][1].append((number, version, line))
    return found


def target(words, version):
    """Returns the path of a request, from the words of its entry."""
    rendition, msn, part, skip = words
    if version == "1" and skip == "v2":
        skip = "YES"
    asked = [f"_HLS_{name}={value}" for name, value in (("msn", msn), ("part", part), ("skip", skip)) if value != "-"]
    return f"/cam/{rendition}/live.m3u8" + ("?" + "&".join(asked) if asked else "")


def replayed(program, settings, entries):
    """Replays a script of these entries. Returns its playlists, by the numbers of their requests."""
    script = [settings]
    for _, version, line in entries:
        words = line.split(" ")
        if words[0] == "P":
            item = line[2:]
            if version == "2" and words[1] in ("part", "init"):
                item = item.rpartition(" ")[0]
            if words[1] == "init":
                # Playlists don't say how many bytes it has, and a script spells at least one.
                item += " 00"
            script.append(f"pub cam {item}")
        elif words[0] == "A":
            script.append(f"get {words[1]} {target(words[2:6], version)}")
        elif words[0] == "C":
            script.append(f"clock {words[1]}")
    out = run(program, ["replay"], "".join(line + "\n" for line in script).encode()).stdout
    texts, at = {}, 0
    while at < len(out):
        end = out.index(b"\n", at) + 1
        words = out[at:end].split()
        size = int(words[3]) if words[0] == b"reply" and words[2] == b"200" else 0
        if size:
            texts[words[1].decode()] = out[end : end + size]
        at = end + size
    return texts


def reply_words(told, text):
    """Returns a reply in words. Its text says whether it is a delta update, which format 1 doesn't; a request of format 1 never got one for `v2`."""
    media = re.fullmatch("media ([0-9]+) ([0-9]+)", told)
    if media:
        return f"media of {media[2]} bytes after {media[1]} items"
    count = re.fullmatch(r"text ([0-9]+)(?: .*)?", told)
    if not count:
        return WORDS[told]
    if b"#EXT-X-SKIP:" not in text:
        return f"the full playlist after {count[1]} items"
    return f"a delta update ({'v2' if told.endswith(' v2') else 'YES'}) after {count[1]} items"


def wanted(number, time, line, texts):
    """Returns what `explain` has to write of an entry."""
    words = line.split(" ")
    told, text = "", b""
    if words[0] == "P":
        event = "an item is accepted"
    elif words[0] == "C":
        event = "the clock is read"
    elif words[0] == "X":
        event = "a request that was held is given up"
    else:
        told = " ".join(words[{"A": 6, "M": 4, "G": 2}[words[0]]:])
        event = "a request that was held gets " if words[0] == "G" else "a request gets at once "
    if told == "held":
        event = "a request is held"
    elif told:
        text = texts.get(words[1], b"") if told.startswith("text ") else b""
        event += reply_words(told, text)
    head = f"entry {number}, at {time} ms: {line}\n{event}\n".encode()
    return head + (b"\n" + text if text else b"")


def first_wrong(program, path):
    """Returns the first entry of a record that isn't explained as it should be; none if all are, and the number after the last is NoEntry."""
    with open(path, encoding="utf-8", newline="") as record:
        lines = record.read().split("\n")
    last = 0
    for settings, entries in chains(lines):
        texts, time = replayed(program, settings, entries), 0
        for number, _, line in entries:
            last = number
            done = run(program, ["explain", path, str(number)])
            if done.returncode or done.stderr or done.stdout != wanted(number, time, line, texts):
                return number, done.stdout
            if line.startswith("C "):
                time = max(time, int(line[2:]))
    done = run(program, ["explain", path, str(last + 1)])
    if (done.returncode, done.stdout, unexplained(done.stderr.decode())) != (3, b"", "llhls: NoEntry\n"):
        return last + 1, done.stdout
    return None


def main(program):
    names = [it for it in sorted(os.listdir(CHECK)) if not it.endswith(".stdout") and open(f"{CHECK}/{it}.stdout").read().startswith("ok ") and it != "two_long_chains"]
    failed = 0
    for name in names:
        fault = first_wrong(program, f"{CHECK}/{name}")
        failed += fault is not None
        if fault:
            print(f"FAILED {name}: entry {fault[0]} is explained so:\n{fault[1].decode()[:1000]}")
    print(f"{len(names) - failed} passed, {failed} failed")
    return failed > 0


if __name__ == "__main__":
    sys.exit(main(os.path.realpath(sys.argv[1])))
