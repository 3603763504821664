#!/usr/bin/env python3
"""Runs of `narwhal-node` on two disks, with checkpoints, and what they write and leave, computed without the node's code.

    oracles/runs.py > crates/test_disk/data/runs.cases

The bytes are those of docs/FORMATS.md. What events are answered, and what a node keeps, is taken from oracles/histories.py, the records of
a checkpoint from oracles/checkpoints.py, and the device calls from oracles/scripts.py. The frames of rounds are made by the tests too.
"""
import sys

sys.dont_write_bytecode = True
import checkpoints
import histories
import recoveries
import scripts
from histories import Batch, Header, u16, u32, u64
from recoveries import DEPTH, GENESIS, OWN, key

ALL, HOST = 0xffff, 0xfffe
OTHERS, VOTERS, ELECTED = (1, 2, 3), (0, 1, 2), 1
ROUNDS, EVERY = 667, 4096
# So many rounds are given at once. They have more than EVERY bytes.
TOGETHER = 6
CHECKPOINTS = 20
# With this many bytes the records of an own header and a certificate make a checkpoint due, and no other ones do.
SOON = 350
CALLS = [('write', 1), ('sync', 1), ('cut', 1), ('sync', 2), ('write', 2), ('sync', 3), ('write', 3), ('sync', 4)]
# A coin that no round is there for.
EARLY = recoveries.coin_message(1, 7)


def frame(member, message):
    """A frame from a sender, or to a receiver."""
    return u32(2 + len(message)) + u16(member) + message


class Node(histories.Node):
    """A node each of whose leaders reaches the one before it, so that its order only has to be added to."""

    def __init__(self):
        super().__init__(DEPTH, checkpoints.Committee().weigher)
        self.committed, self.led = [], 0

    def order(self):
        for wave in range(self.led + 1, len(self.coins) + 1):
            seen, open_ = set(self.committed), [self.leader(wave)]
            added = {}
            while open_:
                one = open_.pop()
                if one not in seen and one.round:
                    seen.add(one)
                    added[one.round, one.author] = one
                    open_ += [parent for parent in self.of_round(one.round - 1) if self.is_parent(parent, one)]
            self.committed += [added[slot] for slot in sorted(added)]
        self.led = len(self.coins)
        return list(self.committed)


class Run:
    """A node that runs: the frames that it is given, and those that it writes."""

    def __init__(self):
        self.node, self.round, self.certified, self.given, self.written = Node(), 0, GENESIS[:3], b'', b''
        self.propose(GENESIS)

    def take(self, answer, output=b''):
        assert answer[0].startswith('new'), answer
        self.written += output

    def propose(self, parents):
        header = Header('-', OWN, self.round + 1, parents, [])
        self.take(self.node.header(header), frame(ALL, recoveries.header_message(header)))

    def give(self, sender, message):
        self.given += frame(sender, message)

    def batch(self, number):
        batch = Batch('-', OTHERS[0], u64(number))
        self.give(batch.author, recoveries.batch_message(batch))
        self.take(self.node.batch(batch, recoveries.BATCHES), frame(batch.author, recoveries.ack_message(batch, OWN)))
        return batch

    def next_round(self):
        self.round += 1
        self.batch(self.round)
        headers = [Header('-', author, self.round, self.certified, []) for author in OTHERS]
        for header in headers:
            self.give(header.author, recoveries.header_message(header))
            self.take(self.node.header(header), frame(header.author, recoveries.vote_message(header, OWN)))
        for header in headers:
            self.give(header.author, recoveries.certificate_message(header, VOTERS))
            self.take(self.node.certificate(header, list(VOTERS)))
        self.certified = headers
        self.propose(headers)
        if self.round >= 3 and self.round % 2:
            self.coin(self.round // 2)

    def coin(self, wave):
        start = len(self.node.order())
        self.give(OWN, recoveries.coin_message(wave, ELECTED))
        self.take(self.node.coin(OWN, wave, ELECTED))
        added = [one.certificate for one in self.node.order()[start:]]
        self.written += frame(HOST, b'\7' + u64(start) + u32(len(added)) + b''.join(added))


def checkpoint_length(node):
    records = [checkpoints.Committee().configuration(), checkpoints.head(1)] + checkpoints.state_records(node)
    return len(recoveries.journal(*scripts.packed(records)))


def sum_of(text):
    total = histories.Sum()
    total.add(text)
    return 'sum %016x' % total.value


def frames_in(text):
    bodies = []
    while text:
        length = int.from_bytes(text[:4], 'big')
        bodies, text = bodies + [text[4:4 + length]], text[4 + length:]
    return bodies


def out(text):
    """The lines of these frames."""
    return ['> out %d %s' % (len(body), body[:13].hex()) for body in frames_in(text)]


def title(words):
    print('\n== %s\ntext members = [%s]' % (words, ', '.join('"%s"' % key(member).hex() for member in range(recoveries.MEMBERS))))


def tell(*lines):
    print('\n'.join(lines))


def opened(node):
    order = b''.join(one.certificate for one in node.order())
    tell('opened', '> order %d, %s, round %d' % (len(node.order()), sum_of(order), node.round()))


def summed(run):
    tell('sum', '> %d outputs, %s' % (len(frames_in(run.written)), sum_of(run.written)), '> status 0')


def alone():
    """The run on one disk, where no checkpoint is made."""
    run = Run()
    for _ in range(ROUNDS):
        run.next_round()
    title('%d rounds of the others, on one disk: what a node writes, and what it is opened as' % ROUNDS)
    tell('rounds %d' % ROUNDS)
    summed(run)
    opened(run.node)


def rewritten():
    """The same run on two disks with checkpoints, and then two short ones that end with one."""
    run = Run()
    title('on two disks, with a checkpoint after each %d bytes: the same, however often it was rewritten' % EVERY)
    tell('pair', 'every %d' % EVERY)
    while run.round < ROUNDS:
        count = 1 if run.round == 0 else TOGETHER
        for _ in range(count):
            run.next_round()
        tell('rounds %d' % count, 'await %d' % len(run.written))
    summed(run)
    tell('rewritten %d %d' % (CHECKPOINTS, EVERY), '> rewritten at least %d times, less than %d bytes of events since' % (CHECKPOINTS, EVERY))
    opened(run.node)
    tell('every 1')
    for number in (ROUNDS + 1, ROUNDS + 2):
        before, run.given, run.written = checkpoint_length(run.node), b'', b''
        batch = run.batch(number)
        tell('give ' + run.given.hex(), 'run', *out(run.written), '> status 0, 0 events')
    group = recoveries.group([b'\1' + u16(batch.author) + recoveries.batch_message(batch)])
    tell('areas', '> %d bytes are read, %d are not' % (checkpoint_length(run.node), before + len(group) + len(scripts.CLOSED)))
    opened(run.node)


def record(sender, message):
    return b'\1' + u16(sender) + message


def lengths(machine):
    tell('length', *('> %d bytes' % len(disk.content) for disk in machine.disks))


def events(node):
    return sum(one[0] == 1 for one in node.journal.records)


def fails(kind, place):
    """A run in which a call of the first checkpoint fails, and the run after it."""
    settings, machine, kept = scripts.Settings(), scripts.Machine(), {}
    node = scripts.Node(settings, machine, kept)
    own, other = [Header('-', author, 1, GENESIS, []) for author in (OWN, OTHERS[0])]
    certificate = recoveries.certificate_message(other, VOTERS)
    for one in (record(OWN, recoveries.header_message(own)), record(OTHERS[0], certificate)):
        assert node.submit(one).startswith('new')
        node.append()
    counted = {'write': 8, 'sync': 10, 'cut': 0}[kind]
    machine.fail(kind, place)
    assert node.over_device(node.rewrite, 'generation') == 'fault 2 Device'
    title('%s %d of a checkpoint fails: the node is down, and gives out nothing more' % (kind, place))
    tell('pair', 'every %d' % SOON, 'fail %s %d' % (kind, counted + place))
    shown = frame(ALL, recoveries.header_message(own))
    header = frame(OTHERS[0], recoveries.header_message(other))
    tell('await %d' % len(shown), 'give ' + frame(OTHERS[0], certificate).hex(), 'repeat ' + frame(OWN, EARLY).hex(), 'give ' + header.hex())
    machine.stop(lambda disk: disk.content)
    left = [disk.content for disk in machine.disks]
    node = scripts.Node(settings, machine, kept)
    tell('run', *out(shown), '> line refused 2 Down', '> line refused 2 Down', '> line narwhal-node: journal 2', '> status 4, %d events' % events(node))
    tell('length', *('> %d bytes' % len(content) for content in left))
    assert node.submit(record(OTHERS[0], recoveries.header_message(other))).startswith('new')
    node.append()
    tell('give ' + header.hex(), 'run', *out(frame(OTHERS[0], recoveries.vote_message(other, OWN))), '> status 0, %d events' % (events(node) + 1))
    lengths(machine)


def main():
    print('# crates: node_run')
    print('# Runs with checkpoints, as in node_run.cases. pair: the journal is on two disks, and fail counts the calls of both; every: a')
    print('# checkpoint is made after so many bytes; rounds: the reader gives the frames of so many more rounds of the other members. sum: a')
    print('# run, of whose outputs the number and a sum are shown; rewritten: whether the journal was rewritten so often at least, and has fewer')
    print('# bytes of events after its checkpoint; areas: how long the area is that is read, and the other one; opened: what a node is opened')
    print('# as. oracles/runs.py has made this file.')
    alone()
    rewritten()
    for kind, place in CALLS:
        fails(kind, place)


if __name__ == '__main__':
    main()
