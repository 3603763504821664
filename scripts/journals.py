"""What the scripts know of a node's journal, which is two files: JOURNAL and JOURNAL.2."""

import os
import struct

SECOND = ".2"
# The environment's name for how many bytes longer a journal gets before a node makes a checkpoint, and what that is unless told.
EVERY = "NARWHAL_CHECKPOINT_BYTES"
USUAL_EVERY = 1 << 30

CLOSED = 0
GATE_BYTES, LENGTH_BYTES = 1, 4
# The kinds of records; batches, votes and own headers stand in a checkpoint.
EVENT, HEAD, BATCH, VOTE, HEADER = 1, 2, 4, 5, 6


def files(journal):
    """Both files, whether they are there or not."""
    return journal, journal + SECOND


def is_there(journal):
    return any(os.path.exists(path) for path in files(journal))


def size(journal):
    """The bytes of both files; 0 where there are none."""
    return sum(os.path.getsize(path) for path in files(journal) if os.path.exists(path))


def remove(journal):
    """Removes both files, where they are there."""
    for path in files(journal):
        if os.path.exists(path):
            os.remove(path)


def environment(every):
    """The environment of a node that makes a checkpoint each so many bytes."""
    return {**os.environ, EVERY: str(every)}


def parts(content):
    """What stands after each length in some bytes, as far as it is whole."""
    at = 0
    while at + LENGTH_BYTES <= len(content):
        end = at + LENGTH_BYTES + int.from_bytes(content[at:at + LENGTH_BYTES], "big")
        if end > len(content):
            return
        yield content[at + LENGTH_BYTES:end]
        at = end


class Area:
    """A file of a journal, as it is read now and then while a node has it."""

    def __init__(self, path):
        self.path = path

    def front(self, count):
        """So many of its first bytes; none where it isn't there."""
        try:
            with open(self.path, "rb") as file:
                return file.read(count)
        except FileNotFoundError:
            return b""

    def length(self):
        try:
            return os.path.getsize(self.path)
        except FileNotFoundError:
            return 0

    def generation(self):
        """The generation of its first group; None where its first gate is closed, or there is none."""
        front = self.front(4096)
        if len(front) < 2 or front[0] == CLOSED:
            return None
        records = list(parts(next(parts(front[GATE_BYTES:]), b"")))
        head = records[1] if len(records) > 1 else b""
        return struct.unpack(">Q", head[1:9])[0] if head[:1] == bytes([HEAD]) else 0

    def groups(self):
        """The place of each group's gate, and its records, up to the closed gate."""
        with open(self.path, "rb") as file:
            at = 0
            while (gate := file.read(GATE_BYTES)) and gate[0] != CLOSED:
                body = file.read(int.from_bytes(file.read(LENGTH_BYTES), "big"))
                yield at, list(parts(body))
                at += GATE_BYTES + LENGTH_BYTES + len(body)

    def checkpoint_length(self):
        """The bytes before its first event: those of its checkpoint."""
        end = 0
        for at, records in self.groups():
            if any(record[:1] == bytes([EVENT]) for record in records):
                return at
            end = at + GATE_BYTES + LENGTH_BYTES + sum(LENGTH_BYTES + len(record) for record in records)
        return end


def newer(journal):
    """The file that an opening reads."""
    first, second = (Area(path) for path in files(journal))
    of_first, of_second = first.generation(), second.generation()
    if of_second is not None and (of_first is None or of_second > of_first):
        return second
    return first


def generation(journal):
    """How often the journal was rewritten; 0 where it isn't there."""
    return newer(journal).generation() or 0


def records(journal):
    """The records of the file that an opening reads; none where it isn't there."""
    area = newer(journal)
    if not os.path.exists(area.path):
        return []
    return [record for _, group in area.groups() for record in group]


def seen(journal):
    """Of each file its generation, None where its first gate is closed, and its length."""
    return [(area.generation(), area.length()) for area in map(Area, files(journal))]


def is_rewriting(before, now):
    """Whether what is seen of a journal shows a rewriting that has begun and isn't done, by what was seen before the node started.

    One file is closed then beside one that can be read. An opening closes none, but it cuts one that is closed to its first byte.
    """
    closed = [at for at, (generation, _) in enumerate(now) if generation is None]
    if len(closed) != 1:
        return False
    (was, old), (_, length) = before[closed[0]], now[closed[0]]
    return was is not None or length not in (GATE_BYTES, old)
