#!/usr/bin/env python3
"""What the lists of steps of crates/test_disk come to, computed without the node's code.

    oracles/worlds.py 2000 40 1 > crates/test_disk/data/worlds.cases

The arguments are how many lists, how many steps each has, and where the draws begin. It prints the command, and the counts that are
expected of it. The draws, the kinds of
event and the order of steps are those of crates/test_disk; bytes are counted and not made, but for the gate of a group on its way.
"""
import collections
import random
import sys
import types

sys.dont_write_bytecode = True
import areas
import checkpoints
import histories
import recoveries

SENDERS = 6
FIRST, SECOND, ORPHAN, BATCHED, LOW, VOTE = range(6)
REFUSALS = {VOTE: 'not ours', LOW: 'too old', ORPHAN: 'missing parents'}
IDLE, TAKEN, WRITTEN, SYNCED, OPENED, FIRM = MOMENTS = range(6)
MOMENT_NAMES = ['idle', 'taken', 'written', 'synced', 'opened', 'firm']
CALLS = ['first sync', 'read', 'write', 'cut', 'second sync']

# A record of a header over five parents: its kind and sender, the tag, the body, the signature.
RECORD = 3 + 1 + 14 + 34 * 5 + 64
CONFIGURATION = 14 + 7 * 36


def group(lengths):
    """How long a group of such records is after its gate, the closed gate after it among it."""
    return 4 + sum(4 + length for length in lengths) + 1


class Draws:
    def __init__(self, start):
        self.state = start

    def below(self, limit):
        self.state = (self.state * 25214903917 + 11) % (1 << 48)
        return (self.state >> 17) % limit


class Disk:
    """Lengths, the places that were written since the last sync, and the byte at the place of one gate."""

    def __init__(self):
        self.firm = self.read = 0
        self.written = set()
        self.firm_gate = self.read_gate = 0

    def write(self, place, count):
        self.written |= set(range(place, place + count))
        self.read = max(self.read, place + count)

    def sync(self):
        self.firm, self.firm_gate = self.read, self.read_gate
        self.written = set()


class World:
    def __init__(self, draws, counts):
        self.draws, self.counts = draws, counts
        self.disk = Disk()
        # How long the file is up to its closed gate.
        self.length = 0
        self.history, self.waiting, self.given = [], [], []
        self.taken = self.settled = 0
        self.down = False

    # ---- steps

    def answer(self, number):
        kind, sender = divmod(number, SENDERS)
        if self.down:
            return 'down'
        if kind in REFUSALS:
            return REFUSALS[kind]
        voted = [event for event in self.history if event % SENDERS == sender]
        if voted:
            return 'known' if voted == [number] else 'equivocation'
        return 'missing batch' if kind == BATCHED else 'new'

    def accept(self):
        number = self.draws.below(36)
        answer = self.answer(number)
        self.counts[answer] += 1
        if answer == 'new':
            self.history.append(number)
        if answer in ('new', 'known'):
            self.waiting.append((len(self.history), number))

    def release(self):
        if self.waiting and not self.down and self.waiting[0][0] <= self.settled:
            self.given.append(self.waiting.pop(0)[1])
            self.counts['released'] += 1
        else:
            self.counts['held back'] += 1

    def release_some(self):
        for _ in range(self.draws.below(4)):
            self.release()

    def beside(self):
        self.accept()
        self.release()

    def flush(self):
        if len(self.history) == self.taken:
            return
        failing = {0: TAKEN, 1: WRITTEN, 2: SYNCED, 3: OPENED}.get(self.draws.below(12))
        self.disk.sync()
        moment = self.append(failing)
        if moment is None and len(self.history) > self.taken:
            moment = self.append(None)
        if moment is not None:
            self.stop(moment)

    def append(self, failing):
        """Takes a group and appends it up to the moment at which it fails; the moment of a stop, if there is to be one."""
        self.added = group([RECORD] * (len(self.history) - self.taken))
        self.taken = len(self.history)
        self.counts['groups'] += 1
        self.beside()
        self.disk.firm_gate = self.disk.read_gate = 0
        if failing != TAKEN:
            self.disk.write(self.length, self.added)
            if failing != WRITTEN:
                self.disk.sync()
                if failing != SYNCED:
                    self.disk.write(self.length - 1, 1)
                    self.disk.read_gate = 1
                    if failing != OPENED:
                        self.disk.sync()
        if failing is not None:
            self.down = True
            self.counts['failed'] += 1
            self.beside()
            return failing
        self.beside()
        if self.draws.below(8) == 0:
            return FIRM
        self.length += self.added
        self.settled = self.taken
        self.counts['settled'] += 1
        return None

    # ---- stops

    def stop(self, moment):
        self.counts[MOMENT_NAMES[moment]] += 1
        self.leave(moment)
        if self.draws.below(4) == 0 and self.fails_to_open(moment, self.draws.below(5)):
            self.leave(moment)
        end = self.taken if self.has_group(moment) else self.settled
        del self.history[end:]
        self.taken = self.settled = end
        self.waiting, self.down = [], False
        self.fails_to_open(moment, None)
        if self.length == 0:
            self.length = 1 + group([CONFIGURATION])
            self.disk.read = self.length
            self.disk.sync()
        elif self.has_group(moment):
            self.length += self.added
        assert self.disk.firm == self.disk.read == self.length, (moment, self.disk.firm, self.disk.read, self.length)
        assert all(self.answer(number) == 'known' for number in self.given)
        self.counts['opened times'] += 1

    def has_group(self, moment):
        return moment == FIRM or (moment == OPENED and self.disk.read_gate != 0)

    def leave(self, moment):
        leaves = self.draws.below(3)
        disk = self.disk
        if leaves == 1:
            disk.read, disk.read_gate = disk.firm, disk.firm_gate
        elif leaves == 2:
            smallest, greatest = min(disk.firm, disk.read), max(disk.firm, disk.read)
            length = smallest + self.draws.below(greatest - smallest + 1)
            for place in sorted(place for place in disk.written if place < smallest) + list(range(smallest, length)):
                byte = 0 if self.draws.below(2) == 0 else self.draws.below(256)
                if place == self.length - 1:
                    disk.read_gate = byte
            disk.read = length
        if moment in (WRITTEN, OPENED):
            self.counts[['as read', 'as synced', 'torn'][leaves]] += 1
        if moment == OPENED:
            self.counts['gate open' if disk.read_gate else 'gate closed'] += 1

    def fails_to_open(self, moment, failing):
        """An opening, of which this call fails, if it is made."""
        disk = self.disk

        def fails(call):
            if failing == call:
                self.counts['fault ' + CALLS[call]] += 1
            return failing == call
        if fails(0):
            return True
        disk.sync()
        if fails(1):
            return True
        if disk.read < 2:
            if fails(2):
                return True
            disk.write(0, 1)
        else:
            end = self.length + self.added if self.has_group(moment) else self.length
            if disk.read == end:
                return False
            if fails(3):
                return True
            disk.read = end
        if fails(4):
            return True
        disk.sync()
        return False


# ---- two areas

class Torn:
    """A stop that leaves a length, and this byte at each place below it that may hold any and that so many divide; else what a read or the
    last sync gives there."""

    def __init__(self, byte, every, length):
        self.byte, self.every, self.length = byte, every, length

    def word(self):
        return '%d.%d.%d' % (self.byte, self.every, self.length)

    def left(self, disk):
        return bytes(self.byte_at(disk, place) for place in range(self.length))

    def byte_at(self, disk, place):
        if place < disk.smallest and place not in disk.written:
            return disk.firm[place]
        if place % self.every == 0:
            return self.byte
        given = disk.content if place < len(disk.content) else disk.firm
        return given[place] if place < len(given) else self.byte


class Kept:
    def __init__(self, word):
        self.name = word

    def word(self):
        return self.name

    def left(self, disk):
        return disk.content if self.name == 'k' else disk.firm


def catalogue():
    """Events that come in, each its sender and its message, those that others need before them."""
    genesis, batches = recoveries.GENESIS, [histories.Batch('b%d' % a, a, bytes([a]) * (a + 3)) for a in range(4)]

    def header(author, round_, parents, named=()):
        return histories.Header('-', author, round_, parents, named)
    first = [header(a, 1, genesis[:3]) for a in range(4)]
    second = [header(a, 1, genesis[1:], batches[:1] if a == 0 else ()) for a in range(4)]
    naming = [header(a, 1, genesis, batches[a:a + 1]) for a in range(4)]
    rounds = [first]
    for round_ in (2, 3):
        rounds.append([header(a, round_, rounds[-1][:3]) for a in range(4)])
    events = [(a, recoveries.batch_message(batches[a])) for a in range(4)]
    events += [(a, recoveries.ack_message(batches[0], a)) for a in (1, 2, 3)]
    for headers in (first, second, naming):
        events += [(one.author, recoveries.header_message(one)) for one in headers]
    events += [(a, recoveries.vote_message(first[0], a)) for a in (1, 2, 3)]
    events += [(2, recoveries.vote_message(second[0], 2)), (3, recoveries.vote_message(first[1], 3))]
    events += [(1, recoveries.header_message(header(1, 0, genesis[:3])))]
    ordering = len(events)
    events += [(one.author, recoveries.header_message(one)) for one in rounds[1]]
    events += [(3, recoveries.certificate_message(second[1], (0, 1, 2)))]
    for headers in rounds:
        events += [(one.author, recoveries.certificate_message(one, (0, 1, 2) if one.author < 2 else (1, 2, 3))) for one in headers]
    events += [(0, recoveries.coin_message(1, 5)), (0, recoveries.coin_message(1, 6)), (1, recoveries.coin_message(1, 5))]
    return events, ordering


EVENTS, ORDERING = catalogue()
RECORDS = [recoveries.record(*event) for event in EVENTS]
COMMITTEE = checkpoints.Committee()
CALLED = {'write': 'w', 'sync': 's', 'cut': 'c'}


def sum_of(records):
    """FNV-1a of 32 bits."""
    total = 2166136261
    for byte in b''.join(records):
        total = (total ^ byte) * 16777619 % 2 ** 32
    return total


class Stopped(Exception):
    """A device call failed, and the machine stops."""


class TwoAreas:
    """A node on two disks, all that it accepted in one list, and the steps that are drawn for it with what each comes to."""

    def __init__(self, drawn):
        self.random = drawn
        self.steps, self.lines, self.tokens = [], [], []
        self.disks = [areas.Disk(b''), areas.Disk(b'')]
        self.history, self.bases, self.is_ordering = [], [0], drawn.randrange(4) == 0
        self.settled, self.groups, self.written, self.rewriting = 0, [], 0, None
        self.open()

    def step(self, word, token=None):
        self.steps.append(word)
        self.tokens += [] if token is None else [token]

    def node_of(self, history):
        node = histories.Node(recoveries.DEPTH, histories.Committee(recoveries.EQUAL))
        for number in history:
            recoveries.take(node, RECORDS[number])
        return node

    def taken(self):
        return self.settled + sum(self.groups)

    def firm(self):
        """How much is written to its end."""
        return self.settled + sum(self.groups[:self.written])

    def make(self, side, calls, failing):
        """Makes these calls of a disk, of which this one fails, counted from 1."""
        for place, call in enumerate(calls, 1):
            if place == failing:
                raise Stopped
            self.disks[side].make(*call)

    # ---- steps

    def draw(self):
        """One step, or two where a call fails: the machine then stops."""
        can = [(self.accept, 30 if self.is_ordering else 14)]
        if self.taken() < len(self.history) and len(self.groups) < 4:
            can.append((self.take, 6))
        if self.rewriting is None:
            can += [(self.append, 7)] if self.written < len(self.groups) else []
            can += [(self.settle, 3)] if self.written else []
            can += [(self.take_all, 4)] if not self.groups else []
        else:
            can.append((self.settle_all, 9) if self.rewriting.done else (self.rewrite, 7))
        can.append((self.stop, 1))
        move, = self.random.choices([one for one, _ in can], [weight for _, weight in can])
        try:
            move()
        except Stopped:
            self.stop()

    def accept(self):
        number = self.random.randrange(len(EVENTS) if self.random.randrange(3) else ORDERING)
        if self.is_ordering and self.random.randrange(5):
            number = next((one for one in range(ORDERING + 5, len(EVENTS)) if one not in self.history), number)
        word, *refusal = recoveries.answer(self.node, RECORDS[number])[0].split()
        if word == 'new':
            self.history.append(number)
        self.step(str(number), {'new': 'n', 'known': 'k'}.get(word) or '-' + refusal[0])

    def take(self):
        count = self.random.randint(1, len(self.history) - self.taken())
        self.groups.append(count)
        self.step('t%d' % count)

    def append(self):
        records = [RECORDS[number] for number in self.history[self.firm():self.firm() + self.groups[self.written]]]
        failing = self.random.choice((1, 2, 3, 4)) if self.random.randrange(5) == 0 else 0
        self.step('w%d' % failing if failing else 'w', '!' if failing else '+%d' % len(records))
        self.make(self.side, self.append_calls(records), failing)
        self.written += 1

    def append_calls(self, records):
        length = len(self.disks[self.side].content)
        return [('write', length, areas.sized(records) + areas.CLOSED), ('sync',), ('write', length - 1, areas.OPEN), ('sync',)]

    def settle(self):
        self.settled += self.groups.pop(0)
        self.written -= 1
        self.step('s')

    def take_all(self):
        records = checkpoints.state_records(self.node)
        file = areas.checkpoint([COMMITTEE.configuration()] + records, self.generation + 1)
        self.groups.append(len(self.history) - self.settled)
        self.bases.append(len(self.history))
        self.rewriting = types.SimpleNamespace(file=file, done=False)
        self.step('all', 'c%d' % (1 + len(records)))

    def rewrite(self):
        failing = self.random.randint(1, 8) if self.random.randrange(2) == 0 else 0
        self.step('r%d' % failing if failing else 'r', '!' if failing else 'g%d' % (self.generation + 1))
        file = self.rewriting.file
        self.make(1 - self.side, [('write', 0, areas.CLOSED), ('sync',), ('cut', 1), ('sync',), ('write', 1, file[1:]), ('sync',),
                                  ('write', 0, areas.OPEN), ('sync',)], failing)
        self.rewriting.done = True
        self.side, self.generation = 1 - self.side, self.generation + 1

    def settle_all(self):
        self.settled += self.groups.pop(0)
        self.rewriting = None
        self.step('done')

    # ---- stops

    def stop(self):
        """A stop that leaves any state of both areas, and an opening, which may be stopped itself, and then leaves any again."""
        self.leave()
        while self.random.randrange(4) == 0:
            try:
                self.open(self.random.randint(1, 6))
            except Stopped:
                self.leave()
            else:
                return
        self.open()

    def leave(self):
        fills = [self.fill(disk) for disk in self.disks]
        for disk, fill in zip(self.disks, fills):
            disk.content = fill.left(disk)
        self.step('x%s:%s' % tuple(fill.word() for fill in fills))

    def fill(self, disk):
        if self.random.randrange(3) or (not disk.written and disk.smallest == disk.greatest):
            return Kept(self.random.choice('kl'))
        byte = self.random.choice((0, 1, self.random.randrange(256)))
        return Torn(byte, self.random.choice((1, 1, 2, 3)), self.random.randint(disk.smallest, disk.greatest))

    def open(self, failing=0):
        """Opens both, and begins a journal that has no record; or this call of that fails, counted from 1."""
        opening = areas.Opening(*(disk.content for disk in self.disks))
        assert not opening.is_damaged(), opening.answer
        calls = [(side, call) for side, *call in opening.calls()]
        if not opening.records:
            text = areas.sized([COMMITTEE.configuration()]) + areas.CLOSED
            calls += [(0, call) for call in (('write', 1, text), ('sync',), ('write', 0, areas.OPEN), ('sync',))]
        if failing > len(calls):
            failing = 0
        kinds = [call[0] for _, call in calls[:failing]]
        self.steps.append('o' + ('%s%d' % (CALLED[kinds[-1]], kinds.count(kinds[-1])) if failing else ''))
        for place, (side, call) in enumerate(calls, 1):
            if place == failing:
                self.tokens.append('!')
                raise Stopped
            self.disks[side].make(*call)
        self.begin()

    def begin(self):
        """A new run, after what is read, which is what the plain world says is found again."""
        opening = areas.Opening(*(disk.content for disk in self.disks))
        records = [record for _, record in opening.records]
        front = [record for record in records if record[0] != 1]
        events = [RECORDS.index(record) for record in records[len(front):]]
        self.side, self.generation = opening.live, opening.generation
        base = self.bases[self.generation]
        self.check(base, front, events)
        self.history, self.bases = self.history[:base] + events, self.bases[:self.generation + 1]
        self.settled, self.groups, self.written, self.rewriting = len(self.history), [], 0, None
        self.node = self.node_of(self.history)
        if self.tokens:
            self.lines.append(' '.join(self.tokens))
        self.tokens = []
        self.lines.append(' '.join(map(str, ['opened', self.generation, len(front), sum_of(front)] + events)))

    def check(self, base, front, events):
        """What is found is a prefix of all that was accepted: what is written to its end, and of the next group all or nothing."""
        found, firm = self.history[:base] + events, self.firm()
        assert found == self.history[:len(found)]
        is_written = self.rewriting is not None and self.rewriting.done
        follows = [firm + count for count in self.groups[self.written:self.written + 1]]
        assert len(found) in (follows if is_written else [firm] + follows), (len(found), firm, follows)
        head = [checkpoints.head(self.generation)] + checkpoints.state_records(self.node_of(self.history[:base])) if self.generation else []
        assert front == [COMMITTEE.configuration()] + head


def two_areas(count, steps, start):
    print("""
== lists of steps over two areas
store""")
    for sender, message in EVENTS:
        print('event %d x%s' % (sender, message.hex()))
    drawn = random.Random(start)
    for _ in range(count):
        world = TwoAreas(drawn)
        for _ in range(steps):
            world.draw()
        world.stop()
        print('areas ' + ' '.join(world.steps))
        for line in world.lines:
            print('> ' + line)


def main(count, steps, start):
    counts = collections.Counter()
    draws = Draws(start)
    for _ in range(count):
        world = World(draws, counts)
        world.stop(IDLE)
        for _ in range(steps):
            move = draws.below(16)
            if move < 8:
                world.accept()
            elif move < 11:
                world.release()
            elif move < 12:
                world.release_some()
            elif move < 15:
                world.flush()
            else:
                world.stop(IDLE)

    def told(names):
        return ', '.join(f'{name} {counts[name]}' for name in names)
    print("""# crates: spec_world diskmodel journal book recovery opening
# Lists of random steps and stops. `oracles/worlds.py` computes what they come to.

== lists of steps and stops
store""")
    print(f'lists {count} {steps} {start}')
    print('> ' + told(['new', 'known']))
    print('> ' + told(['down', 'too old', 'missing parents', 'missing batch', 'equivocation', 'not ours']))
    print('> ' + told(['released', 'held back']))
    print(f"> groups {counts['groups']}, " + told(['settled', 'failed']))
    print('> stopped ' + told(MOMENT_NAMES))
    print('> left ' + told(['as read', 'as synced', 'torn']) + f", the gate open {counts['gate open']}, closed {counts['gate closed']}")
    print(f"> opened {counts['opened times']}, failed at the " + ', '.join(f"{call} {counts['fault ' + call]}" for call in CALLS))
    print('> wrong 0')
    two_areas(count, steps, start)


if __name__ == '__main__':
    main(*map(int, sys.argv[1:]))
