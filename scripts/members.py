"""A member's node as a process: what it is given, and what comes from it. What carries a committee's frames begins with this."""

import collections
import contextlib
import queue
import subprocess
import threading

import frames

# The tag that no message has, and what a node says of it.
WRONG_TAG, MARK = 0xFF, "unread 4 BadTag"
# What a node says of a header that came before what it names, which is given again.
AGAIN = {"refused 4 MissingParents", "refused 5 MissingBatch"}
# What a node says of a header after its round, and of a coin before its turn: in a healthy committee there are these, too.
EARLY = {"refused 11 CoinOutOfTurn", "refused 12 CoinEarly"}
USUAL = AGAIN | EARLY | {"refused 3 TooOld"}


class Node:
    """A node's process. Who carries its frames writes `put_out` and `answered`, which are called in a thread each.

    Each frame that it is given is followed by one with a wrong tag. The line of that one tells that all lines of the frame have come.
    """

    def __init__(self, number, command):
        self.number = number
        self.process = subprocess.Popen(command, stdin=subprocess.PIPE, stdout=subprocess.PIPE, stderr=subprocess.PIPE)
        # What is to be written, and the frames that were written and of which not all lines are read yet.
        self.outbox, self.pending = queue.SimpleQueue(), collections.deque()
        self.threads = [threading.Thread(target=work) for work in (self.write_frames, self.read_outputs, self.read_lines)]

    def start(self):
        for thread in self.threads:
            thread.start()

    def put_out(self, receiver, content):
        """Hears of each output."""

    def answered(self, frame, lines):
        """Hears of each frame, with its lines and those of certificates that waited for it; the last lines are of no frame."""

    def give(self, frame):
        """Has a frame written to the node. It never waits; where the node is gone the frame is lost."""
        self.outbox.put(frame)

    def unanswered(self):
        """How many frames were given of which not all lines are known."""
        return self.outbox.qsize() + len(self.pending)

    def end(self, kill=False):
        """Closes its input once all that was given is written, or kills it. Answers its status, once all that came from it is read."""
        if kill:
            self.process.kill()
        self.outbox.put(None)
        for thread in self.threads:
            thread.join()
        return self.process.wait()

    def write_frames(self):
        mark, sink = frames.said(self.number, bytes([WRONG_TAG])), self.process.stdin
        while (frame := self.outbox.get()) is not None:
            self.pending.append(frame)
            with contextlib.suppress(BrokenPipeError):
                sink.write(frame + mark)
                if self.outbox.empty():
                    sink.flush()
        with contextlib.suppress(BrokenPipeError):
            sink.close()

    def read_outputs(self):
        cut = frames.Frames()
        while piece := self.process.stdout.read1(1 << 16):
            for body in cut.feed(piece):
                self.put_out(*frames.output(body))

    def read_lines(self):
        lines = []
        for line in self.process.stderr:
            text = line.decode().rstrip("\n")
            if text == MARK:
                self.answered(self.pending.popleft(), lines)
                lines = []
            else:
                lines.append(text)
        if lines:
            self.answered(self.pending[0] if self.pending else b"", lines)


def tag_of(frame):
    """The tag of the message in a frame; 0 where there is none."""
    return frame[6] if len(frame) > 6 else 0


def kept_by(order, content):
    """Adds the digests of a piece of the order to it, each at its place. The first place that had another one; None where none had."""
    start, digests = frames.order_of(content)
    wrong = None
    for place, digest in enumerate(digests, start):
        if order.setdefault(place, digest) != digest and wrong is None:
            wrong = place
    return wrong
