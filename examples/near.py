#!/usr/bin/env python3
"""near.py PORT ORIGIN [FOLDER]: one address, 127.0.0.1:PORT, for a page and for the channels that it plays, since a page may read answers of its own host alone. Passes each request
for a playlist or media on to the players' port ORIGIN of a server on this machine, and answers others with a file of FOLDER, by default that of this script. Each request has a thread
and a connection of its own, so it is for a few viewers; docs/EDGE.md has what is for many."""
import http.client
import http.server
import pathlib
import re
import sys

MEDIA = re.compile(r"/[^/?]+/[^/?]+/(live\.m3u8|s[0-9.]+m4s|init[0-9]+\.mp4)(\?.*)?")
TYPES = {".html": "text/html; charset=utf-8", ".m3u8": "application/vnd.apple.mpegurl"}


class Near(http.server.BaseHTTPRequestHandler):
    """One request after another of a connection."""

    protocol_version, disable_nagle_algorithm, wbufsize = "HTTP/1.1", True, -1
    origin, folder = 8080, pathlib.Path(__file__).parent

    def do_GET(self):
        name = self.path.partition("?")[0].lstrip("/")
        if MEDIA.fullmatch(self.path):
            self.pass_on()
        elif (self.folder / name).suffix in TYPES and (self.folder / name).is_file() and ".." not in name:
            self.answer(200, TYPES[(self.folder / name).suffix], (self.folder / name).read_bytes())
        else:
            self.answer(404, "text/plain", b"NotFound\n")

    def pass_on(self):
        """Answers as the server does, by 502 if there is none."""
        connection = http.client.HTTPConnection("127.0.0.1", self.origin, timeout=190)
        try:
            connection.request("GET", self.path)
            response = connection.getresponse()
            reply = response.status, response.headers["Content-Type"], response.read()
        except (OSError, http.client.HTTPException):
            reply = 502, "text/plain", b"NoServer\n"
        finally:
            connection.close()
        self.answer(*reply)

    def answer(self, status, kind, body):
        self.send_response(status)
        for name, value in ("Content-Type", kind), ("Content-Length", str(len(body))), ("Cache-Control", "no-cache"):
            self.send_header(name, value)
        self.end_headers()
        self.give(body)

    def give(self, body):
        self.wfile.write(body)
        self.wfile.flush()

    def log_message(self, *_):
        """Writes nothing for a request."""


class Server(http.server.ThreadingHTTPServer):
    """A server at a port of this machine alone, of the system's choice if it is 0."""

    def __init__(self, port, handler=Near):
        super().__init__(("127.0.0.1", port), handler)

    def handle_error(self, *words):
        """Says nothing of a viewer that has gone."""
        if not isinstance(sys.exc_info()[1], ConnectionError):
            super().handle_error(*words)


def main(port, origin, folder=Near.folder):
    """Answers at `port` until Ctrl-C. Returns why it can't, if somebody else has that port."""
    Near.origin, Near.folder = int(origin), pathlib.Path(folder)
    try:
        Server(int(port)).serve_forever()
    except OSError as error:
        return f"near.py: no page at 127.0.0.1:{port}: {error.strerror}"
    except KeyboardInterrupt:
        return None


if __name__ == "__main__":
    if len(sys.argv) not in (3, 4) or not all(re.fullmatch("[0-9]{1,5}", port) for port in sys.argv[1:3]):
        sys.exit(__doc__.splitlines()[0])
    sys.exit(main(*sys.argv[1:]))
