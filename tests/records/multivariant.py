#!/usr/bin/env python3
"""multivariant.py PROGRAM: tests `llhls multivariant`. ffmpeg makes initialization sections of several codecs, and a record is made with parts of known lengths; BANDWIDTH and AVERAGE-BANDWIDTH
have to be what this script computes of them, RESOLUTION and the profile and the level in CODECS what ffprobe says. Then come the faults. Without ffmpeg what needs it is skipped. The last line is
`N passed, M failed`."""
import json
import pathlib
import random
import re
import shutil
import struct
import subprocess
import sys
import tempfile

sys.path.insert(0, str(pathlib.Path(__file__).resolve().parents[1] / "lib"))
from faults import unexplained
from rooms import summed

PROGRAM = sys.argv[1].split()
TARGET = 4
passed = failed = 0
skips = []


def check(is_so, said):
    global passed, failed
    passed += bool(is_so)
    failed += not is_so
    if not is_so:
        print(f"FAILED {said}")


def run(*words):
    done = subprocess.run([*PROGRAM, "multivariant", *map(str, words)], capture_output=True, timeout=600)
    return done.returncode, done.stdout.decode(), unexplained(done.stderr.decode()).strip()


# Of each rendition the options of its encoder, and what begins its codec.
ENCODINGS = {
    "avc_main": (["-c:v", "libx264", "-profile:v", "main", "-level", "3.1"], "640x360", "avc1.4d"),
    "avc_high": (["-c:v", "libx264", "-profile:v", "high", "-level", "4.0"], "1280x720", "avc1.64"),
    "avc_base": (["-c:v", "libx264", "-profile:v", "baseline", "-level", "2.1"], "320x180", "avc1.42"),
    "hevc": (["-c:v", "libx265", "-tag:v", "hvc1", "-x265-params", "log-level=none"], "640x360", "hvc1.1.6.L"),
    "av1": (["-c:v", "libaom-av1", "-cpu-used", "8"], "320x180", "av01.0."),
}
SOUNDS = {
    "aac": (["-c:a", "aac"], "mp4a.40.2"),
    "opus": (["-c:a", "libopus"], "Opus"),
    "flac": (["-c:a", "flac"], "fLaC"),
    "ac3": (["-c:a", "ac3"], "ac-3"),
    "mp3": (["-c:a", "libmp3lame"], "mp4a.6b"),
}


def made(folder, name, source, options):
    """Returns the initialization section that ffmpeg writes, and the stream as ffprobe has it; None if it has no such encoder."""
    path = folder / f"{name}.mp4"
    pixels = [] if source.startswith("sine") else ["-pix_fmt", "yuv420p"]
    words = ["ffmpeg", "-v", "error", "-y", "-f", "lavfi", "-i", source, "-t", "1", *options, *pixels, "-strict", "-2", "-movflags", "delay_moov+default_base_moof+frag_keyframe", str(path)]
    if subprocess.run(words, capture_output=True).returncode != 0:
        skips.append(f"ffmpeg makes no {name}")
        return None
    stream = json.loads(subprocess.run(["ffprobe", "-v", "error", "-show_streams", "-of", "json", str(path)], capture_output=True).stdout)["streams"][0]
    data, at = path.read_bytes(), 0
    while data[at + 4:at + 8] != b"moof":
        at += struct.unpack(">I", data[at:at + 4])[0]
    init = folder / f"{name}.init"
    init.write_bytes(data[:at])
    return init, stream


def record(folder, names, rng):
    """Writes a record of two chains, and returns its path, and the finished segments of each rendition in the last one, as (bytes, microseconds)."""
    lines, segments = [], {}
    for chain in range(2):
        lines += ["#LLHLS-CHUNK 2", f"channel cam target={TARGET} part=1000000 skip=24 window=36 renditions={','.join(names)} first=0 start=0", "at 0"]
        segments = {name: [] for name in names}
        for name in names:
            for number in range(rng.randint(1, 12)):
                size = duration = 0
                for part in range(rng.randint(1, 4)):
                    part_size, part_duration = rng.randint(0, 400_000), rng.randint(200_000, 1_000_000)
                    size, duration = size + part_size, duration + part_duration
                    lines.append(f"P part {name} {part_duration} i {part_size}")
                lines.append(f"P finish {name}")
                segments[name].append((size, duration))
            # A segment that isn't finished.
            lines.append(f"P part {name} 500000 i 1048576")
        lines.append("#END")
    path = folder / "record"
    path.write_text("\n".join(lines) + "\n")
    return path, segments


def rate(size, duration):
    return -(-size * 8_000_000 // duration)


def rates(segments):
    average = rate(sum(size for size, _ in segments), sum(duration for _, duration in segments))
    peak = average
    for first in range(len(segments)):
        for last in range(first, len(segments)):
            size, duration = map(sum, zip(*segments[first:last + 1]))
            if TARGET * 500_000 <= duration <= TARGET * 1_500_000:
                peak = max(peak, rate(size, duration))
    return peak, average


def attributes(line):
    return dict(re.findall(r'([A-Z-]+)=("[^"]*"|[^,]*)', line.partition(":")[2]))


def test_encodings(folder, rng):
    pictures = {name: made(folder, name, f"testsrc=size={size}:rate=25", options) for name, (options, size, _) in ENCODINGS.items()}
    sounds = {name: made(folder, name, "sine=frequency=440:sample_rate=48000", options) for name, (options, _) in SOUNDS.items()}
    there = [name for name in pictures if pictures[name]]
    for name in there:
        init, stream = pictures[name]
        path, segments = record(folder, [name], rng)
        status, text, said = run(path, f"{name}={init}")
        check(status == 0 and said == "", f"{name}: status {status}, {said}")
        lines = text.splitlines()
        check(lines[:2] == ["#EXTM3U", "#EXT-X-VERSION:10"] and lines[3:] == [f"{name}/live.m3u8"], f"{name}: {lines}")
        told = attributes(lines[2])
        check((int(told["BANDWIDTH"]), int(told["AVERAGE-BANDWIDTH"])) == rates(segments[name]), f"{name}: {told} and not {rates(segments[name])}")
        check(told["RESOLUTION"] == f"{stream['width']}x{stream['height']}", f"{name}: {told['RESOLUTION']}")
        check(told["CODECS"].startswith('"' + ENCODINGS[name][2]), f"{name}: {told['CODECS']}")
        if stream["codec_name"] == "h264":
            check(int(told["CODECS"][-3:-1], 16) == stream["level"], f"{name}: {told['CODECS']} and level {stream['level']}")
        if stream["codec_name"] == "hevc":
            check(f".L{stream['level']}." in told["CODECS"], f"{name}: {told['CODECS']} and level {stream['level']}")
        if stream["codec_name"] == "av1":
            check(told["CODECS"].startswith(f'"av01.0.{stream["level"]:02}M.08'), f"{name}: {told['CODECS']} and level {stream['level']}")
    heard = [name for name in sounds if sounds[name]]
    for name in heard:
        path, segments = record(folder, [name], rng)
        status, text, said = run(path, f"{name}={sounds[name][0]}")
        told = attributes(text.splitlines()[2]) if status == 0 else {}
        check(told.get("CODECS") == f'"{SOUNDS[name][1]}"' and "RESOLUTION" not in told, f"{name}: {status} {said} {text}")
        check(status == 0 and (int(told["BANDWIDTH"]), int(told["AVERAGE-BANDWIDTH"])) == rates(segments[name]), f"{name}: {told}")
    test_group(folder, rng, {name: pictures[name][0] for name in there[:2]}, {name: sounds[name][0] for name in heard[:2]})


def test_group(folder, rng, pictures, sounds):
    names = [*sounds, *pictures]
    path, segments = record(folder, names, rng)
    status, text, said = run(path, *(f"{name}={init}" for name, init in {**sounds, **pictures}.items()))
    lines = text.splitlines()
    first, second = sounds
    check(status == 0 and said == "", f"a group: status {status}, {said}")
    for line, name, default in zip(lines[2:4], (first, second), ("YES", "NO")):
        check(line == f'#EXT-X-MEDIA:TYPE=AUDIO,GROUP-ID="audio",NAME="{name}",DEFAULT={default},AUTOSELECT=YES,URI="{name}/live.m3u8"', f"a group: {line}")
    largest = [max(rates(segments[name])[n] for name in sounds) for n in range(2)]
    for at, name in enumerate(pictures):
        told = attributes(lines[4 + 2 * at])
        wanted = [rate + more for rate, more in zip(rates(segments[name]), largest)]
        check([int(told["BANDWIDTH"]), int(told["AVERAGE-BANDWIDTH"])] == wanted, f"a group: {told} and not {wanted}")
        check(told["AUDIO"] == '"audio"' and told["CODECS"].endswith(f',{SOUNDS[first][1]},{SOUNDS[second][1]}"'), f"a group: {told}")
        check(lines[5 + 2 * at] == f"{name}/live.m3u8", f"a group: {lines[5 + 2 * at]}")
    check(len(lines) == 4 + 2 * len(pictures), f"a group: {len(lines)} lines")
    # What the second one lacks is said with its number.
    init = next(iter(pictures.values()))
    status, text, said = run(path, f"{names[0]}={init}", f"none={init}")
    check((status, text, said) == (3, "", "llhls: NoRendition 2"), f"no rendition: {status} {said}")
    cut = folder / "cut.init"
    cut.write_bytes(init.read_bytes()[:-9])
    status, text, said = run(path, f"{names[0]}={init}", f"{names[1]}={cut}")
    check((status, text, said) == (3, "", "llhls: BadInit 2"), f"a cut section: {status} {said}")
    short = folder / "short"
    short.write_text(path.read_text() + "\n".join(["#LLHLS-CHUNK 2", path.read_text().splitlines()[1], "at 0", f"P part {names[0]} 500000 i 9", "#END"]) + "\n")
    status, text, said = run(short, f"{names[0]}={init}")
    check((status, text, said) == (3, "", "llhls: NoSegment 1"), f"no segment: {status} {said}")
    wrong = folder / "wrong"
    wrong.write_text(path.read_text().replace("#END", "#end", 1))
    status, text, said = run(wrong, f"{names[0]}={init}")
    check(status == 3 and text.startswith("bad ") and said == "", f"a wrong record: {status} {text} {said}")


with tempfile.TemporaryDirectory() as room:
    if shutil.which("ffmpeg") and shutil.which("ffprobe"):
        test_encodings(pathlib.Path(room), random.Random(7))
    else:
        skips.append("no ffmpeg")
print(summed(passed, failed, skips))
raise SystemExit(failed > 0)
