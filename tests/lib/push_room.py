"""A room for a test of `llhls push`: the pushes and origins that run in it."""
import os
import pathlib
import subprocess

from push_peer import Peer
from rooms import Room, ended


class PushRoom(Room):
    """The folder of a test, and the processes and origins that it has started."""

    def __init__(self, *words):
        super().__init__(*words)
        self.peers = []

    def peer(self, plan, place=None, **words):
        """Starts an origin that behaves as the plan says."""
        self.peers.append(Peer(plan, place, **words))
        return self.peers[-1]

    def start_push(self, address, stdin, channel='cam', words=(), stderr=None):
        """Starts a push to the rendition hi of a channel."""
        return self.start([self.program, 'push', address, channel, 'hi', 'part=500000', 'segment=2000000', *words], stdin, stderr=stderr)

    def push(self, address, source, channel='cam', words=('retry=2', 'end'), stderr=None):
        """Has the program publish `source`: a file's path or bytes, or pieces, which come one after another by a pipe. Ends the rendition, unless other words are given."""
        if isinstance(source, (bytes, pathlib.Path)):
            file = os.open(self.file_of(source), os.O_RDONLY)
            try:
                process = self.start_push(address, file, channel, words, stderr)
            finally:
                os.close(file)
            return ended(process)._replace(source=source)
        return ended(self.start_push(address, subprocess.PIPE, channel, words, stderr), source)

    def fault(self):
        """Returns what an origin of the room got that it doesn't expect."""
        return '\n'.join(each.wrong for each in self.peers if each.wrong)

    def close(self):
        """Stops all that runs in the room, and lets nothing more start there."""
        super().close()
        for each in self.peers:
            each.stop()
