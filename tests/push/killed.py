#!/usr/bin/env python3
"""killed.py PROGRAM [KILLS]: an encoder, `llhls push` and the server are killed (SIGKILL) at random moments, and started again. A player fetches all parts meanwhile. Of each start of the server it
must have got, for each start of the encoder, that encoder's fragments from the first one on, each once and in order; the server's record must be right. It prints how many seconds after its start the first
fragment of an encoder was in a playlist. The last line is `N passed, M failed`. With the word `encoder` and a number in place of the program it is the encoder of that number."""
import http.client
import pathlib
import random
import re
import socket
import statistics
import struct
import subprocess
import sys
import tempfile
import threading
import time

sys.path.insert(0, str(pathlib.Path(__file__).resolve().parents[1] / 'lib'))
import push_made as made

FRAGMENT = 0.1
MARK = struct.Struct(">4sII")


def encode(run):
    """Writes a movie, and a fragment of a tenth of a second each tenth of a second, marked with the encoder's number and its own."""
    out = sys.stdout.buffer
    out.write(made.FTYP + made.MOOV)
    start = time.monotonic()
    for number in range(10**6):
        flags = 0 if number % 10 == 0 else made.PLAIN
        out.write(made.moof([100], flags, time=100 * number) + made.box(b"mdat", MARK.pack(b"MARK", run, number)))
        out.flush()
        time.sleep(max(0, start + FRAGMENT * (number + 1) - time.monotonic()))


def free_ports(count):
    """Returns `count` ports that the system gives nobody by itself, so that they stay free while the server is down."""
    ports = set()
    while len(ports) < count:
        port = random.randrange(20000, 32000)
        with socket.socket() as it:
            try:
                it.bind(("127.0.0.1", port))
                ports.add(port)
            except OSError:
                pass
    return sorted(ports)


class Player(threading.Thread):
    """Fetches all parts of one start of the server, until that is gone: `parts` has each part's name with its bytes, in the order of the playlists."""

    def __init__(self, port, seen):
        super().__init__(daemon=True)
        self.port, self.seen, self.parts, self.ends, self.wrong = port, seen, {}, False, []

    def get(self, connection, path):
        connection.request("GET", "/cam/hi/" + path)
        answer = connection.getresponse()
        return answer.status, answer.read()

    def run(self):
        asked = ""
        try:
            connection = http.client.HTTPConnection("127.0.0.1", self.port, timeout=20)
            while not self.ends:
                status, text = self.get(connection, "live.m3u8" + asked)
                if status == 200:
                    asked = self.take(connection, text.decode())
        except (OSError, http.client.HTTPException):
            pass

    def take(self, connection, text):
        """Fetches the parts of a playlist that are new, and returns what asks for the next one."""
        for name in re.findall(r'EXT-X-PART:[^\n]*URI="([^"]*)"', text):
            if name not in self.parts:
                status, self.parts[name] = self.get(connection, name)
                if status != 200:
                    self.wrong.append(f"{name}: {status}")
                for run, _ in marks(self.parts[name]):
                    self.seen.setdefault(run, time.monotonic())
        hint = re.search(r'PRELOAD-HINT:TYPE=PART,URI="s(\d+)\.(\d+)\.m4s"', text)
        return f"?_HLS_msn={hint[1]}&_HLS_part={hint[2]}" if hint else ""


def marks(part):
    """Returns the marks of a part's fragments."""
    found, at = [], 0
    while at < len(part):
        size, kind = struct.unpack_from(">I4s", part, at)
        if kind == b"mdat":
            found.append(MARK.unpack_from(part, at + 8)[1:])
        at += size
    return found


class Chain:
    """A server, a push and an encoder, of which each can be killed."""

    def __init__(self, program, folder):
        self.program, self.folder, self.runs, self.seen, self.started, self.players = program, folder, 0, {}, {}, []
        self.ports = free_ports(2)
        (folder / "settings").write_text(
            f"listen 127.0.0.1:{self.ports[0]}\npublish 127.0.0.1:{self.ports[1]}\nworkers 16\nrecord {folder}/record\n"
            "channel cam target=2 part=300000 skip=12 window=60 renditions=hi first=0 start=0\n"
        )

    def serve(self):
        self.server = subprocess.Popen([self.program, "serve", str(self.folder / "settings")], stdout=subprocess.DEVNULL, stderr=subprocess.PIPE)
        for _ in range(2):
            self.server.stderr.readline()
        self.players.append(Player(self.ports[0], self.seen))
        self.players[-1].start()

    def push(self):
        self.runs += 1
        self.started[self.runs] = time.monotonic()
        self.encoder = subprocess.Popen([sys.executable, __file__, "encoder", str(self.runs)], stdout=subprocess.PIPE, stderr=subprocess.DEVNULL)
        words = ["push", f"127.0.0.1:{self.ports[1]}", "cam", "hi", "part=300000", "segment=1000000", "retry=5"]
        self.pusher = subprocess.Popen([self.program, *words], stdin=self.encoder.stdout, stdout=subprocess.DEVNULL, stderr=subprocess.DEVNULL)
        self.encoder.stdout.close()

    def kill(self, what):
        """Kills one of the three and starts it again, and the encoder and the push with it, unless the push goes on: the server is killed before it had accepted anything."""
        victim = {"encoder": self.encoder, "push": self.pusher, "server": self.server}[what]
        victim.kill()
        victim.wait()
        if what == "server":
            self.serve()
            if self.goes_on():
                return
        self.pusher.wait(timeout=30)
        self.encoder.kill()
        self.encoder.wait()
        self.push()

    def goes_on(self):
        """Whether the push still publishes after it had time to find out that the server has forgotten the channel."""
        try:
            self.pusher.wait(timeout=4)
            return False
        except subprocess.TimeoutExpired:
            return True

    def stop(self):
        for each in (self.encoder, self.pusher, self.server):
            each.kill()
            each.wait()


def is_whole(player):
    """Whether a player got, of each encoder, its first fragments, each once and in order, the encoders in order."""
    last = (0, -1)
    for name, part in player.parts.items():
        for run, number in marks(part):
            if not (run > last[0] and number == 0 or (run, number) == (last[0], last[1] + 1)):
                player.wrong.append(f"{name}: fragment {number} of encoder {run} after {last}")
            last = run, number
    return not player.wrong


def main(program, kills):
    chosen = random.Random(7)
    passed = failed = 0
    with tempfile.TemporaryDirectory() as folder:
        chain = Chain(program, pathlib.Path(folder))
        chain.serve()
        chain.push()
        try:
            for _ in range(kills):
                time.sleep(chosen.uniform(0.05, 2.5))
                chain.kill(chosen.choice(["encoder", "push", "encoder", "push", "server"]))
            time.sleep(12)
            checked = subprocess.run([program, "check", f"{folder}/record.cam"], capture_output=True, text=True)
        finally:
            chain.stop()
        for player in chain.players:
            player.join(timeout=30)
            whole = is_whole(player)
            passed += whole
            failed += not whole
            if not whole:
                print("FAILED", *player.wrong[:5], sep="\n  ")
        right = checked.stdout.startswith("ok ")
        passed, failed = passed + right, failed + (not right)
        print("record:", checked.stdout.strip(), checked.stderr.strip())
        late = [at - chain.started[run] for run, at in chain.seen.items()]
        print(f"{kills} kills, {len(chain.players)} starts of the server, {chain.runs} of the encoder; of {len(late)} a player saw a fragment, {statistics.median(late):.2f} s after the start (at most {max(late):.2f})")
    print(f"{passed} passed, {failed} failed")
    return failed > 0


if sys.argv[1] == "encoder":
    try:
        encode(int(sys.argv[2]))
    except BrokenPipeError:
        sys.exit(1)
sys.exit(main(sys.argv[1], int(sys.argv[2]) if len(sys.argv) > 2 else 100))
