"""What refused_memory.sh runs: refused_memory.py PROGRAM LIBRARY TESTS ROWS [ROW..].

A run whose Nth allocation is refused ends in one of these ways:

- as the row does, if what was refused isn't needed for the answer, as for a list that is refused anyway;
- with status 4, `llhls: Memory` and a prefix of the row's output, which is empty for `upgrade` and `explain`;
- with one thing refused: an item is answered `no 12 Memory`, a `get` line `reply <id> 503 Memory`, a request of a connection by the response Memory (503), and
  all else is as if it had not been sent. The program itself says what that results in: the output of the same script in which that line or request names a channel
  that isn't there, with the answer's text replaced;
- with one connection shut after some of its answers, because it was out of memory; all else is as the row has it.

If an item or a `get` line needs memory beside the lines that are read and written, at least one run has to refuse it so.
"""
import concurrent.futures
import os
import pathlib
import re
import subprocess
import sys
import tempfile

sys.path.insert(0, str(pathlib.Path(__file__).resolve().parents[1] / 'lib'))
from faults import unexplained

MOST = 100_000
SHOWN = 3  # how many faults of a row are shown
UNKNOWN = b"zz"  # no row declares a channel of this name


class Run:
    """The result of a run of the program: also whether it met the refusal, and how many allocations it made."""

    def __init__(self, status, stdout, stderr, met, count):
        self.status, self.stdout, self.stderr, self.met, self.count = status, stdout, stderr, met, count


class Runner:
    """Runs the program under the library that refuses."""

    def __init__(self, program, library):
        self.program, self.library = program, library

    def run(self, words, text, refuse=0):
        with tempfile.TemporaryDirectory() as folder:
            mark, counted = f"{folder}/mark", f"{folder}/count"
            env = dict(os.environ, LD_PRELOAD=self.library, REFUSE=str(refuse), REFUSED=mark, COUNTED=counted)
            done = subprocess.run([self.program, *words], input=text, capture_output=True, env=env, timeout=60)
            count = int(open(counted).read()) if os.path.exists(counted) else 0
            return Run(done.returncode, done.stdout, unexplained(done.stderr.decode()), os.path.exists(mark), count)


def things(text):
    """Returns what a script writes, one thing after another: (kind, of whom, bytes)."""
    found, at = [], 0
    while at < len(text):
        end = text.find(b"\n", at) + 1 or len(text)
        line = text[at:end]
        words = line.split()
        if len(words) == 3 and words[0] == b"sent":
            end += int(words[2])
            # An LF that isn't counted follows media.
            if b"\r\nContent-Type: video/mp4\r\n" in text[at:end]:
                end += 1
        elif len(words) == 4 and words[0] == b"reply" and words[2] == b"200":
            end += int(words[3])
        found.append((words[0] if words else b"", words[1] if len(words) > 1 else b"", text[at:end]))
        at = end
    return found


def memory_response(text):
    """Returns the response Memory in place of a response 404 NotFound on a connection, or None for any other response."""
    head = text.find(b"\n") + 1
    number, response = text.split()[1], text[head:]
    if not response.startswith(b"HTTP/1.1 404 ") or not response.endswith(b"\r\n\r\nNotFound\n"):
        return None
    response = response.replace(b"404 Not Found", b"503 Service Unavailable").replace(b"Length: 9", b"Length: 7")
    response = response[: -len(b"NotFound\n")] + b"Memory\n"
    return b"sent %s %d\n" % (number, len(response)) + response


def is_muted(row, run):
    """Returns whether a run differs from its row by one connection that shuts after some of its answers."""
    for number in {who for kind, who, _ in run if kind == b"shut"}:
        mine = lambda it: it[0] in (b"sent", b"shut") and it[1] == number
        sent = [text for kind, _, text in filter(mine, run) if kind == b"sent"]
        whole = [text for kind, _, text in filter(mine, row) if kind == b"sent"]
        others = [it for it in run if not mine(it)] == [it for it in row if not mine(it)]
        if others and sent == whole[: len(sent)] and [it for it in run if mine(it)][-1][0] == b"shut":
            return True
    return False


class Script:
    """The lines of a script, and its output if one thing is refused."""

    def __init__(self, runner, words, text, output):
        self.runner, self.words, self.lines = runner, words, text.split(b"\n")
        self.output, self.things = output, things(output)
        self.requests = {}  # of connections, by number and place

    def text(self, count, last=None):
        """Returns the first `count` lines, and another line after them."""
        return b"".join(line + b"\n" for line in self.lines[:count] + ([last] if last is not None else []))

    def aimed(self, at, line):
        """Returns the script with another line at a place."""
        return b"\n".join(self.lines[:at] + [line] + self.lines[at + 1 :])

    def refused_lines(self):
        """Returns for each item and `get` line its number, the output with it refused, and whether one run has to have that output."""
        for at, line in enumerate(self.lines):
            item = re.fullmatch(rb"pub [^ ]+( .*)", line)
            get = re.fullmatch(rb"get ([0-9]+) (https?://[^/ ]+)?/[^/ ]+(/.*)", line)
            if item:
                other, told = b"pub " + UNKNOWN + item[1], b"no 14 UnknownChannel\n"
                instead = b"no 12 Memory\n"
            elif get:
                other, told = b"get %s %s/%s%s" % (get[1], get[2] or b"", UNKNOWN, get[3]), b"reply %d 404 NotFound\n" % int(get[1])
                instead = b"reply %d 503 Memory\n" % int(get[1])
            else:
                continue
            front = self.runner.run(self.words, self.text(at))
            run = self.runner.run(self.words, self.aimed(at, other))
            size = len(front.stdout)
            if run.stdout[:size] != front.stdout or run.stdout[size : size + len(told)] != told:
                continue
            output = run.stdout[:size] + instead + run.stdout[size + len(told) :]
            yield at + 1, output, self.needs_memory(at, other, front, bool(item))

    def needs_memory(self, at, other, front, is_item):
        """Returns whether a line needs memory beside what the line itself and its answer need: more than the same line for a channel that isn't there."""
        mine = self.runner.run(self.words, self.text(at + 1))
        theirs = self.runner.run(self.words, self.text(at, other))
        answer = mine.stdout[len(front.stdout) :]
        if is_item:
            return bool(re.fullmatch(rb"ok [0-9]+\n", answer)) and mine.count > theirs.count
        # A request that waits has no answer yet.
        return answer == b"" and mine.count >= theirs.count

    def bytes_of(self, number):
        """Returns for each byte of a connection the line that it comes with."""
        found = []
        for at, line in enumerate(self.lines):
            said = re.fullmatch(rb"bytes ([0-9]+) ([0-9a-f]+)\r?", line)
            if said and int(said[1]) == number:
                found += [(at, byte) for byte in bytes.fromhex(said[2].decode())]
        return found

    def request_refused(self, number, place):
        """Returns the output if request `place` of a connection, counted from 0, is refused, or None if it names no channel."""
        key = (number, place)
        if key not in self.requests:
            self.requests[key] = self.make_refused(number, place)
        return self.requests[key]

    def make_refused(self, number, place):
        brought = self.bytes_of(number)
        names = [it.span(1) for it in re.finditer(rb"GET (?:(?:https?://[^/ ]+)?/([^/ ]+)/)?", bytes(byte for _, byte in brought))]
        if place >= len(names) or names[place][0] < 0:
            return None
        start, end = names[place]
        line = brought[start][0]
        brought[start:end] = [(line, byte) for byte in UNKNOWN]
        pieces = {}
        for at, byte in brought:
            pieces.setdefault(at, bytearray()).append(byte)
        lines = list(self.lines)
        for at, old in enumerate(self.lines):
            said = re.fullmatch(rb"bytes ([0-9]+) ([0-9a-f]+)\r?", old)
            if said and int(said[1]) == number:
                lines[at] = b"bytes %s %s" % (said[1], pieces[at].hex().encode()) if at in pieces else b"#"
        run = things(self.runner.run(self.words, b"\n".join(lines)).stdout)
        mine = [at for at, it in enumerate(run) if it[0] == b"sent" and int(it[1]) == number]
        response = memory_response(run[mine[place]][2]) if place < len(mine) else None
        if response is None:
            return None
        return b"".join(text if at != mine[place] else response for at, (_, _, text) in enumerate(run))

    def is_request_refused(self, output):
        """Returns whether an output is that of the script with the request refused at which it first differs."""
        mine = things(output)
        for at, (kind, who, text) in enumerate(mine):
            if at >= len(self.things) or self.things[at][2] != text:
                if kind != b"sent":
                    return False
                place = sum(1 for it in mine[:at] if it[:2] == (kind, who))
                return self.request_refused(int(who), place) == output
        return False


class Row:
    """A row, and how its runs ended."""

    def __init__(self, runner, tests, rows, endings, name):
        self.runner, self.name, self.faults = runner, name, []
        self.cut = self.whole = self.refused = self.muted = self.tried = 0
        records = f"{tests}/records"
        self.is_strict, self.text, self.is_script, self.is_whole = False, b"", False, False
        if name.startswith("apply/"):
            at = f"{tests}/program/{name}"
            self.words, output = ["apply", f"{at}/base", f"{at}/delta"], f"{at}/stdout"
            self.is_strict = name in endings
        elif name.startswith("check/"):
            self.words, output = ["check", f"{records}/{name}"], f"{records}/{name}.stdout"
        elif name.startswith("upgrade/"):
            self.words, output = ["upgrade", f"{records}/check/{name[len('upgrade/'):]}"], f"{records}/{name}.stdout"
            self.is_whole = True
        elif name.startswith("explain/"):
            record, *entry = name[len("explain/") :].split(".")
            self.words, output = ["explain", f"{records}/check/{record}", *entry], f"{records}/{name}.stdout"
            self.is_whole = True
        else:
            at = f"{rows}/{name}"
            self.words, output = ["replay"], f"{at}.stdout"
            if os.path.exists(f"{at}.args"):
                self.words += open(f"{at}.args").read().split("\n")[:-1]
            self.is_script = self.words == ["replay"]
            self.text = open(at, "rb").read()
        status, _, fault = endings.get(name, "0").strip().partition(" ")
        self.status, self.stderr = int(status), fault
        self.output = open(output, "rb").read()

    def ends_as(self, run, output):
        return run.status == self.status and run.stderr.strip() == self.stderr and run.stdout == output

    def is_cut(self, run):
        return run.status == 4 and run.stderr == "llhls: Memory\n" and (not run.stdout if self.is_whole else self.output.startswith(run.stdout))

    def sweep(self):
        """Tries each N, until a run meets no refusal."""
        script = Script(self.runner, self.words, self.text, self.output)
        variants = list(script.refused_lines()) if self.is_script else []
        met = set()
        for n in range(1, MOST):
            run = self.runner.run(self.words, self.text, n)
            self.tried = n
            if not run.met:
                if not self.ends_as(run, self.output):
                    self.faults.append(f"with no refusal it ended with status {run.status}")
                break
            if self.ends_as(run, self.output):
                self.whole += 1
            elif self.is_cut(run) and not (self.is_strict and self.whole):
                self.cut += 1
            else:
                lines = [line for line, output, _ in variants if self.ends_as(run, output)]
                met.update(lines)
                if lines or self.is_script and self.ends_as(run, run.stdout) and script.is_request_refused(run.stdout):
                    self.refused += 1
                elif self.is_script and self.ends_as(run, run.stdout) and is_muted(script.things, things(run.stdout)):
                    self.muted += 1
                else:
                    self.faults.append(f"with allocation {n} refused it ended with status {run.status}: {run.stderr[:200]!r} {run.stdout[-200:]!r}")
        else:
            self.faults.append(f"refusals had not ended after {MOST} allocations")
        for line, _, must in variants:
            if must and line not in met:
                self.faults.append(f"line {line} needs memory, and no run answers it Memory")
        return self


def names_of(tests, rows):
    """Returns the names of all rows."""
    found = sorted(it[: -len(".stdout")] for it in os.listdir(rows) if it.endswith(".stdout"))
    found += [f"apply/{it}" for it in sorted(os.listdir(f"{tests}/program/apply"))]
    return found + [f"{kind}/{it[:-len('.stdout')]}" for kind in ("check", "upgrade", "explain") for it in sorted(os.listdir(f"{tests}/records/{kind}")) if it.endswith(".stdout")]


def main(program, library, tests, rows, names):
    runner = Runner(program, library)
    endings = dict(line.split(" ", 1) for line in open(f"{tests}/program/endings") if not line.startswith("#"))
    made = [Row(runner, tests, rows, endings, name) for name in names or names_of(tests, rows)]
    failed = 0
    with concurrent.futures.ThreadPoolExecutor(os.cpu_count()) as pool:
        for row in pool.map(Row.sweep, made):
            # A program that is wrong at each would fill the screen.
            for fault in row.faults[:SHOWN]:
                print(f"FAILED {row.name}: {fault}")
            failed += bool(row.faults)
            print(f"{row.name}: tried 1 to {row.tried}; {row.cut} ended in Memory, {row.whole} as the row does, {row.refused} with one thing refused, {row.muted} with a connection shut")
    cut, whole = sum(it.cut for it in made), sum(it.whole for it in made)
    refused, muted = sum(it.refused for it in made), sum(it.muted for it in made)
    print(f"{cut + whole + refused + muted} refusals were met: {cut} ended in Memory, {whole} as the row does, {refused} with one thing refused, {muted} with a connection shut")
    if not names and 0 in (cut, whole, refused, muted):
        print("FAILED: no run ended in one of these ways")
        failed += 1
    print(f"{len(made) - failed} passed, {failed} failed")
    return failed != 0


if __name__ == "__main__":
    sys.exit(main(*sys.argv[1:5], sys.argv[5:]))
