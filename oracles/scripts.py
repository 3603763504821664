#!/usr/bin/env python3
"""Scripts of `narwhal-sim`, and what each prints, computed without the node's code.

    oracles/scripts.py > CASES
    oracles/scripts.py --check FILE ..
    oracles/scripts.py --allocations PROGRAM LIBRARY

The language of scripts is that of docs/SIMULATOR.md, the bytes and the device calls those of docs/FORMATS.md. What events are answered
is taken from oracles/histories.py, and the records of a checkpoint from oracles/checkpoints.py. A checkpoint stands for the history that
it was taken of: a node that opens on one answers as after that history. The cases are for `test_disk`. With --check no case is written:
each script of these case files is played, and what the file expects of it is compared. With --allocations the program is run on scripts in
which each command that may be refused memory stands twice, with one allocation after the other failing, by the library that
`scripts/every-allocation` makes: a command that memory is refused to has to leave everything as it was, and the next one to be answered as
the first one would have been. Where memory is refused to a disk in memory, one of its calls has failed.
"""
import copy
import functools
import hashlib
import os
import random
import re
import subprocess
import sys

sys.dont_write_bytecode = True
import checkpoints
import histories
import recoveries
from histories import Batch, Header, u16, u32, u64
from recoveries import key

OWN, MEMBERS = histories.OWN, 4
CLOSED, OPEN = b'\0', b'\1'
SECOND_AREA = 2 ** 40
MAX_GROUP_BYTES, MAX_ROUND, MAX_TOLD = 4194304, 2 ** 48, 16
KINDS = ('read', 'write', 'cut', 'sync')
# The syncs before which a stop comes, counted from the first call of the round or of the checkpoint.
BODY_SYNC, GATE_SYNC, CHECKPOINT_SYNC = 1, 2, 4
TORN_BYTE = 0xee
NAMES = {'unread': {5: 'NotCanonical', 6: 'TooMany', 7: 'BadRound'},
         'unchecked': {2: 'UnknownAuthor', 5: 'TooFewParents', 6: 'TooManyParents', 7: 'TooFewVotes', 8: 'UnknownWorker'},
         'fault': {2: 'Device', 3: 'Full', 4: 'Down'}}


# ---- what ends a script, or answers a line

class Ending(Exception):
    """The script ends with this status, after this line."""

    def __init__(self, status, line=None):
        super().__init__(status)
        self.status, self.line = status, line


class Answered(Exception):
    """A line is answered before an event is made of it."""


def answered(kind, number):
    return Answered('%s %d %s' % (kind, number, NAMES[kind][number]))


def bad():
    return Ending(2)


def require(holds):
    if not holds:
        raise bad()


# ---- the machine

class Device(Exception):
    """A device call failed."""


class Stopped(Exception):
    """The machine stopped before a device call."""


class Disk:
    """What a read gives, what the last sync left, and which places were written since."""

    def __init__(self):
        self.content, self.firm, self.written = b'', b'', set()

    def torn(self, byte):
        return bytes(byte if place in self.written else was for place, was in enumerate(self.content))


class Machine:
    """Two disks, the calls of both that are told to fail, and the syncs up to the one before which the machine stops."""

    def __init__(self):
        self.disks, self.told, self.syncs_left = [Disk(), Disk()], {kind: [] for kind in KINDS}, 0

    def fail(self, kind, count):
        if count:
            if len(self.told[kind]) == MAX_TOLD:
                raise Ending(3)
            self.told[kind].append(count)

    def count(self, kind):
        is_due = 1 in self.told[kind]
        self.told[kind] = [count - 1 for count in self.told[kind] if count > 1]
        if is_due:
            raise Device

    def read(self, area):
        self.count('read')
        return self.disks[area].content

    def write(self, area, place, text):
        self.count('write')
        disk = self.disks[area]
        disk.content = disk.content[:place] + text + disk.content[place + len(text):]
        disk.written |= set(range(place, place + len(text)))

    def cut(self, area, length):
        self.count('cut')
        disk = self.disks[area]
        disk.content = disk.content[:length]

    def sync(self, area):
        if self.syncs_left:
            self.syncs_left -= 1
            if not self.syncs_left:
                raise Stopped
        self.count('sync')
        disk = self.disks[area]
        disk.firm, disk.written = disk.content, set()

    def stop(self, outcome):
        for disk in self.disks:
            disk.content = outcome(disk)
        self.syncs_left = 0


# ---- a journal on two areas

def head_generation(record):
    generation = int.from_bytes(record[1:], 'big')
    return generation if len(record) == 9 and record[0] == 2 and generation else None


def tells(file):
    """Nothing, where the first gate is closed or missing; else the generation, or None for damage."""
    if len(file) < 2 or not file[0]:
        return []
    length = int.from_bytes(file[1:5], 'big')
    if len(file) < 6 + length or not 1 <= length <= MAX_GROUP_BYTES:
        return [None]
    try:
        records = [one for _, one in recoveries.walk(file[:5 + length] + CLOSED)[0]]
    except recoveries.Damaged:
        return [None]
    if recoveries.version_of(records[0]) is None or len(records) > 2:
        return [None]
    return [head_generation(records[1]) if len(records) == 2 else 0]


class Fault(Exception):
    """Why an opening gives no node."""


def choose(first, second):
    """The area that is read, and its generation."""
    if [None] in (first, second) or (first and first == second):
        raise Fault('fault 3 Damaged')
    if not first and not second:
        return 0, 0
    return (0, first[0]) if first > second else (1, second[0])


class Journal:
    """An open journal: which area is read, its generation, and its records."""

    def __init__(self, machine):
        self.machine = machine
        told = []
        for area in (0, 1):
            machine.sync(area)
            told.append(tells(machine.read(area)))
        self.side, self.generation = choose(*told)
        file = machine.read(self.side)
        assert len(file) <= MAX_GROUP_BYTES
        try:
            records, gate = recoveries.walk(file)
        except recoveries.Damaged:
            raise Fault('fault 3 Damaged')
        self.records = [one for _, one in records]
        self.close_end(self.side, gate)
        if not told[1 - self.side]:
            self.close_end(1 - self.side, 0)

    def close_end(self, area, gate):
        length = len(self.machine.disks[area].content)
        if length < 2:
            self.machine.write(area, 0, CLOSED)
            self.machine.sync(area)
        elif gate + 1 < length:
            self.machine.cut(area, gate + 1)
            self.machine.sync(area)

    def append(self, records):
        area, end = self.side, len(self.machine.disks[self.side].content)
        self.machine.write(area, end, recoveries.group(records) + CLOSED)
        self.machine.sync(area)
        self.machine.write(area, end - 1, OPEN)
        self.machine.sync(area)

    def rewrite(self, configuration, state):
        area = 1 - self.side
        groups = packed([configuration, checkpoints.head(self.generation + 1)] + state)
        self.machine.write(area, 0, CLOSED)
        self.machine.sync(area)
        self.machine.cut(area, 1)
        self.machine.sync(area)
        self.machine.write(area, 1, recoveries.journal(*groups)[1:])
        self.machine.sync(area)
        self.machine.write(area, 0, OPEN)
        self.machine.sync(area)
        self.side, self.generation = area, self.generation + 1


def packed(records):
    """The groups of a checkpoint: the configuration and the head, and then the state's records, each where it has room."""
    groups = [records[:2]]
    for one in records[2:]:
        if len(groups) > 1 and recoveries.fits(groups[-1] + [one]):
            groups[-1].append(one)
        else:
            groups.append([one])
    return groups


# ---- the node

class Settings:
    def __init__(self):
        self.depth, self.batches, self.stakes, self.version = 50, 1048576, [1] * MEMBERS, 2

    def set(self, name, value):
        if name == 'stakes':
            self.stakes = [number(word) for word in value.split(',')]
            require(len(self.stakes) == MEMBERS)
        elif name == 'version':
            require(number(value) == 1)
            self.version = 1
        else:
            require(name in ('depth', 'batches'))
            setattr(self, name, number(value))
        self.test()

    def test(self):
        quorum = 2 * sum(self.stakes) // 3 + 1
        require(2 <= self.depth <= 1000 and 1 <= self.batches <= 1048576)
        require(all(1 <= stake <= 1000000 and stake < quorum for stake in self.stakes))
        require(self.version == 2 or set(self.stakes) == {1})

    def committee(self):
        return checkpoints.Committee(self.stakes, OWN, self.depth, self.batches)


class Node:
    """A node on a journal: the events that its state came of, those accepted since, and what waits to go out."""

    def __init__(self, settings, machine, kept, begins=False):
        self.settings, self.committee, self.machine, self.kept = settings, settings.committee(), machine, kept
        self.journal = Journal(machine)
        self.base = self.read(self.journal.records)
        self.holds = self.replayed(self.base)
        self.accepted, self.settled, self.waiting, self.is_down = [], 0, [], False
        version = self.journal.records and recoveries.version_of(self.journal.records[0])
        if not self.journal.records:
            self.journal.append([self.committee.configuration(settings.version if begins else 2)])
        elif version == 1:
            self.rewrite()

    def read(self, records):
        """The events of the journal, after those of which its checkpoint was taken."""
        events = [one for one in records if one[0] == 1]
        if not self.journal.generation:
            return events
        state = records[2:len(records) - len(events)]
        return self.kept[b''.join(state)] + events

    def replayed(self, events):
        holds = histories.Node(self.settings.depth, self.committee.weigher)
        for one in events:
            assert self.answer(holds, one)[0].startswith('new')
        return holds

    def answer(self, holds, record):
        """What the event of a record is answered, and its outputs by digests."""
        sender, m = int.from_bytes(record[1:3], 'big'), recoveries.Reader(record[3:]).message()
        if m.tag == 1:
            return holds.batch(m.batch, self.settings.batches)
        if m.tag == 2:
            return holds.ack(m.batch, m.member)
        if m.tag == 3:
            for batch in m.header.batches:
                batch.author = getattr(holds.batches.get(batch.digest), 'author', None)
            return holds.header(m.header)
        if m.tag == 4:
            return holds.vote(m.header, m.member)
        if m.tag == 5:
            return holds.certificate(m.header, m.voters)
        return holds.coin(sender, m.wave, m.value)

    def submit(self, record):
        if self.is_down:
            return 'refused 2 Down'
        word, outputs = self.answer(self.holds, record)
        if word.startswith('refused'):
            return word
        if word.startswith('new'):
            self.accepted.append(record)
        ticket = len(self.accepted)
        self.waiting += [(ticket, output) for output in outputs]
        return '%s %d' % (word.split()[0], ticket)

    def collect(self):
        if self.is_down or not self.waiting or self.waiting[0][0] > self.settled:
            return None
        return self.waiting.pop(0)[1]

    def settled_order(self):
        return [one.certificate for one in self.replayed(self.base + self.accepted[:self.settled]).order()]

    def next_group(self):
        group = []
        for one in self.accepted[self.settled:]:
            if not recoveries.fits(group + [one]):
                break
            group.append(one)
        return group

    def append(self):
        group = self.next_group()
        if group:
            self.journal.append(group)
        self.settled += len(group)
        return len(group)

    def rewrite(self):
        events, state = self.base + self.accepted, checkpoints.state_records(self.holds)
        self.kept[b''.join(state)] = events
        self.journal.rewrite(self.committee.configuration(), state)
        self.settled = len(self.accepted)
        return self.journal.generation

    def over_device(self, act, line):
        if self.is_down:
            return 'fault 4 Down'
        try:
            return '%s %d' % (line, act())
        except Device:
            self.is_down = True
            return 'fault 2 Device'

    def stop(self, kind, byte):
        """Stops the machine, after what the kind of stop does before."""
        acts = {'body': (self.append, BODY_SYNC), 'gate': (self.append, GATE_SYNC), 'checkpoint': (self.rewrite, CHECKPOINT_SYNC)}
        if kind == 'lose':
            return self.machine.stop(lambda disk: disk.firm)
        if kind == 'keep' or self.is_down or (kind != 'checkpoint' and not self.next_group()):
            return self.machine.stop(lambda disk: disk.content)
        act, self.machine.syncs_left = acts[kind]
        try:
            act()
        except (Device, Stopped):
            return self.machine.stop(lambda disk: disk.torn(byte))
        raise AssertionError('nothing stopped it')


# ---- words

def number(word):
    require(re.fullmatch('[0-9]+', word) and int(word) < 2 ** 64)
    return int(word)


def member(word):
    require(number(word) <= 254)
    return number(word)


def label(word):
    require(re.fullmatch('[a-z][a-z0-9]{0,15}', word))
    return word


def pairs(word):
    require(re.fullmatch('([0-9a-f]{2})+', word))
    return bytes.fromhex(word)


def listed(word):
    return [] if word == '-' else word.split(',')


# ---- scripts

PLAIN = {'flush', 'checkpoint', 'collect', 'order', 'round', 'accepted', 'synced'}


class Script:
    """A script that is played: its labels, the node, and the lines that it prints."""

    def __init__(self, text):
        self.settings, self.machine, self.node, self.kept = Settings(), Machine(), None, {}
        self.headers = {'g%d' % a: Header('g%d' % a, a, 0, [], []) for a in range(MEMBERS)}
        self.batches, self.names, self.lines, self.status, self.errors = {}, {}, [], 0, []
        self.play(text)

    def play(self, text):
        rows = text.split(b'\n')
        for place, row in enumerate(rows[:-1] if rows[-1] == b'' else rows, 1):
            try:
                self.carry_out(row)
            except Ending as ending:
                self.status = ending.status
                self.lines += [ending.line] if ending.line else []
                self.errors += ['line %d: bad command' % place] if ending.status == 2 else []
                return

    def go_on(self, row):
        """Carries out a row, unless the script has ended."""
        if self.status:
            return
        try:
            self.carry_out(row.encode())
        except Ending as ending:
            self.status = ending.status
            self.lines += [ending.line] if ending.line else []

    def carry_out(self, row):
        try:
            words = row.decode().split(' ')
        except UnicodeDecodeError:
            words = ['']
        if words[0] == 'set' and len(words) == 3 and not self.node:
            return self.settings.set(*words[1:])
        if not self.node:
            self.node = Node(self.settings, self.machine, self.kept, begins=True)
        try:
            answer = self.answer_to(words)
        except Answered as found:
            answer = str(found)
        if answer is not None:
            self.lines.append(answer)

    def answer_to(self, words):
        name, rest = words[0], words[1:]
        if name in PLAIN:
            require(not rest)
            return getattr(self, name)()
        counts = {'batch': 1, 'header': 1, 'ack': 2, 'vote': 2, 'cert': 2, 'coin': 2, 'peek': 2, 'fail': 2, 'form': 5}
        if name == 'pack':
            require(len(rest) >= 4)
            return self.pack(*rest[:3], rest[3:])
        if name == 'stop':
            return self.stop(*rest)
        require(counts.get(name) == len(rest))
        return getattr(self, name)(*rest)

    # ---- definitions

    def define(self, name):
        require(label(name) not in self.headers and name not in self.batches)

    def pack(self, name, author, worker, words):
        self.define(name)
        author, worker, transactions = member(author), member(worker), [pairs(word) for word in words]
        text = u16(author) + u16(worker) + u32(len(transactions)) + b''.join(u32(len(one)) + one for one in transactions)
        if any(len(one) > 65536 for one in transactions) or len(text) > 500000 or len(transactions) > 124998:
            text = None
        batch = Batch(name, author, b'')
        batch.worker, batch.text = worker, text
        batch.digest = histories.sha(b'B', text) if text else None
        self.batches[name] = batch
        if text:
            self.names.setdefault(batch.digest, name)

    def form(self, name, author, round_, parents, batches):
        self.define(name)
        author, round_ = member(author), number(round_)
        parents = [self.parent(word) for word in listed(parents)]
        batches = [self.batch_of(word) for word in listed(batches)]
        require(all(batch.text for batch in batches))
        for number_, holds in [(7, round_ > MAX_ROUND), (6, len(batches) > 128), (5, len({b.digest for b in batches}) < len(batches)),
                               (6, len(parents) > 31), (5, not rising([p.author for p in parents]))]:
            if holds:
                raise answered('unread', number_)
        header = Header(name, author, round_, parents, batches)
        self.headers[name] = header
        self.names.setdefault(header.digest, name)
        self.names.setdefault(header.certificate, name)

    def parent(self, word):
        require(label(word) in self.headers)
        return self.headers[word]

    def batch_of(self, word):
        require(label(word) in self.batches)
        return self.batches[word]

    def header_of(self, word):
        require(label(word) in self.headers and not re.fullmatch('g[0-3]', word))
        return self.headers[word]

    # ---- events

    def submit(self, sender, message):
        self.check_sender(sender)
        return self.node.submit(recoveries.record(sender, message))

    def check_sender(self, sender):
        if sender >= MEMBERS:
            raise answered('unchecked', 2)

    def check_body(self, header):
        committee, authors = self.node.committee, [parent.author for parent in header.parents]
        if header.author >= MEMBERS:
            raise answered('unchecked', 2)
        if not committee.is_quorum_weight(committee.named_weight(authors)):
            raise answered('unchecked', 5)
        if len(authors) > MEMBERS:
            raise answered('unchecked', 6)
        if any(author >= MEMBERS for author in authors):
            raise answered('unchecked', 2)
        if any(batch.worker for batch in header.batches):
            raise answered('unchecked', 8)

    def batch(self, name):
        batch = self.batch_of(label(name))
        if not batch.text:
            raise answered('unread', 6)
        self.check_sender(batch.author)
        if batch.worker:
            raise answered('unchecked', 8)
        return self.submit(batch.author, b'\1' + batch.text)

    def ack(self, name, sender):
        batch, sender = self.batch_of(label(name)), member(sender)
        require(batch.text)
        return self.submit(sender, recoveries.ack_message(batch, sender))

    def header(self, name):
        header = self.header_of(name)
        self.check_sender(header.author)
        self.check_body(header)
        return self.submit(header.author, recoveries.header_message(header))

    def vote(self, name, voter):
        header, voter = self.header_of(name), member(voter)
        self.check_sender(voter)
        self.check_sender(header.author)
        return self.submit(voter, recoveries.vote_message(header, voter))

    def cert(self, name, voters):
        header, voters = self.header_of(name), [member(word) for word in listed(voters)]
        if len(voters) > 31:
            raise answered('unread', 6)
        if not rising(voters):
            raise answered('unread', 5)
        self.check_body(header)
        if not self.node.committee.is_quorum_weight(self.node.committee.named_weight(voters)):
            raise answered('unchecked', 7)
        for voter in voters:
            self.check_sender(voter)
        return self.submit(1, recoveries.certificate_message(header, voters))

    def coin(self, wave, value):
        wave, value = number(wave), number(value)
        if not 1 <= wave < 2 ** 47:
            raise answered('unread', 7)
        return self.submit(OWN, recoveries.coin_message(wave, value))

    # ---- the rest

    def flush(self):
        return self.node.over_device(self.node.append, 'settled')

    def checkpoint(self):
        return self.node.over_device(self.node.rewrite, 'generation')

    def collect(self):
        output = self.node.collect()
        if output is None:
            return 'out none'
        kind, *words = output.split()
        if kind == 'order':
            by_label = {one.label: one.certificate for one in self.node.holds.certificates.values()}
            return ' '.join(['out order', words[0]] + [self.names[by_label[word]] for word in words[1:]])
        return ' '.join(['out', kind, self.names[bytes.fromhex(words[0])]] + words[1:])

    def order(self):
        if self.node.is_down:
            return 'refused 2 Down'
        return ' '.join(['order'] + ([self.names[digest] for digest in self.node.settled_order()] or ['none']))

    def round(self):
        return 'round %d' % self.node.holds.round()

    def peek(self, author, round_):
        author, round_ = member(author), number(round_)
        held = self.node.holds.headers.get((round_, author))
        if not held or self.node.holds.is_low(round_):
            return 'voted none'
        return 'voted ' + self.names[held.digest]

    def accepted(self):
        return str(len(self.node.accepted))

    def synced(self):
        return str(self.node.settled)

    def fail(self, kind, count):
        require(kind in KINDS)
        self.machine.fail(kind, number(count))

    def stop(self, *words):
        byte = TORN_BYTE
        if len(words) == 2 and words[0] in ('gate', 'checkpoint'):
            byte = pairs(words[1])
            require(len(byte) == 1)
            byte = byte[0]
        else:
            require(len(words) == 1 and words[0] in ('lose', 'keep', 'body'))
        self.node.stop(words[0], byte)
        try:
            events = sum(one[0] == 1 for one in Journal(self.machine).records)
            self.node = Node(self.settings, self.machine, self.kept)
        except Device:
            raise Ending(4, 'fault 2 Device')
        except Fault as fault:
            raise Ending(4, str(fault))
        return 'reopened %d' % events

    # ---- what is compared

    def played(self):
        return self.lines + ['error: ' + line for line in self.errors] + ['status %d' % self.status]

    def journal(self):
        if self.status:
            return ['not played to its end']
        return ['%d bytes' % len(disk.content) for disk in self.machine.disks]


def rising(numbers):
    return all(one < other for one, other in zip(numbers, numbers[1:]))


# ---- case files

def cases_of(path):
    """Each case of a file: its title, and its commands with the answers that are expected."""
    found = []
    for row in open(path, encoding='utf-8').read().split('\n'):
        if row.startswith('== '):
            found.append((row[3:], []))
        elif row.startswith('> ') and found:
            found[-1][1][-1][1].append(row[2:])
        elif row and not row.startswith('#') and found:
            found[-1][1].append((row, []))
    return found


def check(path):
    """How many answers were compared, and how many aren't as this program computes them."""
    compared = wrong = 0
    for title, commands in cases_of(path):
        text, is_whole = b'', True
        for command, expected in commands:
            name, _, rest = command.partition(' ')
            if name == '|':
                text += rest.encode() + b'\n'
            elif name == 'repeat':
                text += (rest.partition(' ')[2].encode() + b'\n') * int(rest.partition(' ')[0])
            elif name == 'bytes':
                digits, _, times = rest.partition('*')
                text += bytes.fromhex(digits) * int(times or 1)
            elif name in ('broken', 'room', 'typed'):
                is_whole = False
            elif name in ('play', 'journal') and is_whole:
                script, compared = Script(text), compared + 1
                computed = script.played() if name == 'play' else script.journal()
                if computed != expected:
                    wrong += 1
                    print('%s: %s: %s:\n  %s\nis not\n  %s' % (path, title, name, '\n  '.join(expected), '\n  '.join(computed)))
    return compared, wrong


def check_all(paths):
    compared = wrong = 0
    for path in paths:
        ours, theirs = check(path)
        compared, wrong = compared + ours, wrong + theirs
    print('%d answers were compared, %d are others' % (compared, wrong))
    return 1 if wrong or not compared else 0


# ---- scripts of checkpoints, of migrations and of their failures

FORM = 'form h1 1 1 g0,g1,g2 -'
VOTED = [FORM, 'header h1']
CERTIFIED = ['form h0 0 1 g0,g1,g2 -', 'header h0', 'vote h0 1', 'vote h0 2', 'flush', 'collect', 'collect']


def late_rounds():
    """Seven rounds with certificates that come late, over a depth of two: its forms, and its events."""
    parents = {1: 'g0,g1,g2', 6: 'c51,c52,c53'}
    forms, events = [], []
    for round_ in range(1, 8):
        over = parents.get(round_, ','.join('c%d%d' % (round_ - 1, a) for a in range(3)))
        forms += ['form c%d%d %d %d %s -' % (round_, a, a, round_, over) for a in range(3)]
    forms += ['form c23 3 2 c10,c11,c12 -', 'form c33 3 3 c21,c22,c23 -', 'form c43 3 4 c31,c32,c33 -', 'form c53 3 5 c41,c42,c43 -']
    forms.sort(key=lambda form: form.split()[1])
    for rounds, wave in [((1, 2, 3), '1 0'), ((4, 5), '2 0'), ((), ''), ((6, 7), '3 3')]:
        events += ['cert c%d%d 0,1,2' % (round_, a) for round_ in rounds for a in range(3)]
        events += ['coin ' + wave] if wave else ['cert c%d3 0,1,2' % round_ for round_ in (2, 3, 4, 5)]
    return forms, events


def after_each(events, *rows):
    return [row for event in events for row in (event,) + rows]


def worked():
    """Scripts with what they have to print where that is known: titles, rows, and lines."""
    forms, events = late_rounds()
    late = events + ['flush', 'order', 'cert c23 0,1,2', 'header c33']
    order = 'order c10 c11 c12 c20 c21 c22 c30 c31 c32 c33 c41 c42 c43 c53'
    answers = ['new 1'] * len(events) + ['settled 0', order, 'refused 3 TooOld']
    between = [line for place, answer in enumerate(answers, 1) for line in (answer, 'generation %d' % place, 'reopened 0')]
    yield 'a checkpoint settles a vote', VOTED + ['checkpoint', 'collect', 'stop lose', 'header h1'], [
        'new 1', 'generation 1', 'out vote h1', 'reopened 0', 'known 0']
    yield 'a checkpoint whose gate is torn open', VOTED + ['stop checkpoint 37', 'header h1'], ['new 1', 'reopened 0', 'known 0']
    yield 'a checkpoint whose gate is torn closed', VOTED + ['stop checkpoint 00', 'header h1'], ['new 1', 'reopened 0', 'new 1']
    yield 'a journal of the first version is migrated at its second opening', ['set version 1'] + VOTED + [
        'flush', 'stop keep', 'header h1', 'checkpoint'], ['new 1', 'settled 1', 'reopened 1', 'known 0', 'generation 2']
    rows = ['set depth 2'] + forms + after_each(late[:-1], 'checkpoint', 'stop lose') + late[-1:]
    yield 'a checkpoint and a stop after each command', rows, between + ['refused 3 TooOld']
    for stop in ('stop keep', 'stop checkpoint 00', 'stop checkpoint 01'):
        yield 'the same, with ' + stop, ['set depth 2'] + forms + after_each(late, 'checkpoint', stop) + ['order'], None
    yield 'each other command settled by a checkpoint', ['set depth 2'] + forms + after_each(late, 'flush', 'checkpoint', 'flush'), None
    yield 'a checkpoint of nothing', ['checkpoint', 'checkpoint', 'stop keep', 'checkpoint'], [
        'generation 1', 'generation 2', 'reopened 0', 'generation 3']
    yield 'a first checkpoint in the first version', ['set version 1', 'checkpoint', 'stop keep', 'checkpoint'], [
        'generation 1', 'reopened 0', 'generation 2']
    yield 'a stopped checkpoint of nothing', ['stop checkpoint 01', 'checkpoint', 'stop checkpoint 00', 'checkpoint'], [
        'reopened 0', 'generation 2', 'reopened 0', 'generation 3']
    yield 'the order is the same after all of it', ['set depth 2'] + forms + late[:-2] + ['checkpoint', 'order', 'stop lose', 'order'], [
        'new %d' % place for place in range(1, 29)] + ['settled 28', order, 'generation 1', order, 'reopened 0', order]


def shapes():
    """Lines that are no commands, or are refused."""
    for rows in (['checkpoint 1'], ['stop checkpoint'], ['stop checkpoint 3'], ['stop checkpoint 3G'], ['stop checkpoint 3F'],
                 ['stop checkpoint 37 1'], ['stop checkpoints 37'], ['checkpoint '], ['Checkpoint'], ['checkpoint', 'set version 1'],
                 ['set version 1', 'set version 2'], ['set version 1', 'set stakes 1,1,1,2'], ['set stakes 2,1,1,1', 'set version 1'],
                 ['stop body 00'], ['stop keep 00']):
        yield 'bad: ' + ', '.join(rows), rows


def counted():
    """Scripts in which each device call fails in turn, from the first command on."""
    scripts = {
        'a vote': VOTED + ['flush', 'header h1', 'collect', 'stop keep', 'header h1', 'collect'],
        'an own certificate': CERTIFIED + ['vote h0 3', 'stop lose', 'vote h0 3', 'collect'],
        'a checkpoint': VOTED + ['checkpoint', 'header h1', 'collect', 'stop lose', 'header h1', 'checkpoint', 'collect'],
        'a checkpoint torn open': VOTED + ['stop checkpoint 37', 'header h1', 'flush', 'collect'],
        'a checkpoint torn closed': VOTED + ['stop checkpoint 00', 'header h1', 'flush', 'collect'],
        'a migration': ['set version 1'] + VOTED + ['flush', 'stop keep', 'header h1', 'checkpoint', 'collect', 'stop lose', 'header h1'],
        'a second checkpoint': VOTED + ['checkpoint', 'checkpoint', 'stop body', 'header h1', 'collect', 'stop keep', 'header h1'],
    }
    for title, rows in scripts.items():
        for kind in KINDS:
            yield from fails_in_turn(title, rows, kind)


def fails_in_turn(title, rows, kind):
    settings = [row for row in rows if row.startswith('set ')]
    for count in range(1, 100):
        script = settings + ['fail %s %d' % (kind, count)] + rows[len(settings):]
        if Script(text_of(script)).machine.told[kind]:
            return
        yield '%s: %s %d fails' % (title, kind, count), script


# ---- scripts of which each device call fails in turn, and that stop before each and after each

EVENTS = ('batch', 'ack', 'header', 'vote', 'cert', 'coin')
# What is asked of a node for which a call failed, and what it answers.
WHILE_DOWN = {'collect': 'out none', 'flush': 'fault 4 Down', 'checkpoint': 'fault 4 Down', 'order': 'refused 2 Down'}
AFTER_STOP = ['order', 'flush', 'collect', 'round']
# So many of the last events are given again after a stop.
GIVEN_AGAIN = 3
TORN_IN = {'flush': ['stop body'] + ['stop gate ' + byte for byte in ('00', '01', '37', 'ff')],
           'checkpoint': ['stop checkpoint ' + byte for byte in ('00', '01', '37', 'ff')]}


class Interrupted:
    """A script up to some row, and one more row that comes to nothing or to its end, before the machine stops."""

    def __init__(self, before, rows, *more):
        self.script, self.rows = copy.deepcopy(before), list(rows)
        node = self.script.node
        self.known, self.settled = node.base + node.accepted, len(node.base) + node.settled
        self.in_flight = {'flush': len(node.next_group()), 'checkpoint': len(node.accepted) - node.settled}
        self.sent = 0
        for row in more:
            self.put(row)

    def put(self, row):
        """The answer to a row. None follows after the script's end."""
        if self.script.status:
            return None
        self.rows.append(row)
        words, count = row.split(), len(self.script.lines)
        act = {'stop body': 'flush', 'stop gate': 'flush', 'stop checkpoint': 'checkpoint'}.get(' '.join(words[:2]), words[0])
        if act in self.in_flight and not self.script.node.is_down:
            self.sent = self.in_flight[act]
        self.script.go_on(row)
        if words[0] == 'stop' and not self.script.status:
            self.stands()
        return self.script.lines[-1] if len(self.script.lines) > count else None

    def stands(self):
        """After a stop the node is at all that was settled, and then at no more than was in flight."""
        base = self.script.node.base
        assert base == self.known[:len(base)] and self.settled <= len(base) <= self.settled + self.sent, self.rows

    def is_down(self):
        """A call failed that no stop came after: nothing goes out, and nothing is taken."""
        event = self.events()[-1]
        for row, answer in {**WHILE_DOWN, event: 'refused 2 Down'}.items():
            assert self.put(row) == answer, (row, self.rows)

    def events(self):
        return list(dict.fromkeys(row for row in self.rows if row.split()[0] in EVENTS))

    def ask(self):
        for row in self.events()[-GIVEN_AGAIN:] + AFTER_STOP:
            self.put(row)


class Turns:
    """The scripts that come of one: its title, its rows, and whether these are so many that the others only name them."""

    def __init__(self, title, rows, is_long=False):
        self.title, self.rows, self.is_long, self.counts = title, rows, is_long, dict.fromkeys(KINDS, 0)

    def scripts(self):
        script, before = Script(b''), []
        for row in self.rows:
            if row.split()[0] in ('flush', 'checkpoint', 'stop'):
                for kind in KINDS:
                    yield from self.failing(script, before, row, kind)
                yield from self.stopping(script, before, row)
            script.carry_out(row.encode())
            before.append(row)

    def failing(self, script, before, row, kind):
        """Each call of a kind that a row makes fails in turn. At last none does, so that a call fails that comes later, if one does."""
        for count in range(1, 100):
            one = Interrupted(script, before, 'fail %s %d' % (kind, count), row)
            title = '%s: %s %d of row %d fails' % (self.title, kind, count, len(before) + 1)
            if one.script.machine.told[kind]:
                one.put('stop lose')
                one.ask()
                yield title.replace('fails', 'is none'), one
                return
            self.counts[kind] += 1
            if one.script.status:
                assert one.script.lines[-1] == 'fault 2 Device'
                yield title, one
            elif row.startswith('stop'):
                one.ask()
                yield title, one
            else:
                assert one.script.lines[-1] == 'fault 2 Device'
                for outcome in ('lose', 'keep'):
                    left = Interrupted(one.script, one.rows)
                    left.known, left.settled, left.sent = one.known, one.settled, one.sent
                    left.is_down()
                    left.put('stop ' + outcome)
                    left.ask()
                    yield '%s, and a stop may %s what it did' % (title, outcome), left

    def stopping(self, script, before, row):
        """The machine stops after a row, or inside it."""
        for rows in [[row, 'stop lose'], [row, 'stop keep']] + [[torn] for torn in TORN_IN.get(row, [])]:
            one = Interrupted(script, before, *rows)
            one.ask()
            yield '%s: %s after row %d' % (self.title, ', '.join(rows), len(before)), one


def turned():
    """The worked scripts of which each call fails in turn."""
    forms, events = late_rounds()
    late = ['set depth 2'] + forms + after_each(events + ['flush', 'order'], 'checkpoint', 'stop lose')
    return [
        Turns('a vote', VOTED + ['collect', 'flush', 'collect', 'collect']),
        Turns('a certificate', ['form h0 0 1 g0,g1,g2 -', 'header h0', 'vote h0 1', 'vote h0 1', 'vote h0 2', 'flush', 'collect', 'collect',
                                'vote h0 3', 'collect', 'collect']),
        Turns('a vote settled by a checkpoint', VOTED + ['checkpoint', 'collect', 'stop lose', 'header h1']),
        Turns('a checkpoint with an open gate', VOTED + ['stop checkpoint 37', 'header h1']),
        Turns('a checkpoint with a closed gate', VOTED + ['stop checkpoint 00', 'header h1']),
        Turns('a migrated journal', ['set version 1'] + VOTED + ['flush', 'stop keep', 'header h1', 'checkpoint']),
        Turns('late certificates', late, is_long=True),
    ]


# ---- allocations that fail

WORKED = os.path.join(os.path.dirname(os.path.abspath(__file__)), '..', 'crates', 'test_disk', 'data', 'sim_run.cases')
OF_EACH_EVENT = ['an own header, and the votes that make its certificate', 'coins that come early, that differ, and out of turn',
                 'a leader that a late certificate supports', 'a leader that a later one reaches', 'a leader that no later one reaches',
                 'a depth of two rounds, and what is below the floor', 'own headers, and the batches that they name']
MEMORY = re.compile('(unread|unchecked|refused|fault) 1 Memory')
# What comes after each script: a checkpoint, an opening of it, and a group and a checkpoint after that.
MORE = ['checkpoint', 'stop lose', 'batch b9', 'header h9', 'flush', 'collect', 'checkpoint', 'collect', 'order', 'stop keep', 'order']


class Refused:
    """A script of which one allocation after the other fails, and how often that came to what."""

    def __init__(self, rows):
        opening = next(place for place, row in enumerate(rows) if not row.startswith('set '))
        rows = rows[:opening] + ['pack b9 3 0 6162', 'form h9 3 1 g0,g1,g3 b9'] + rows[opening:] + MORE
        self.rows = [row for row in rows for _ in range(2 if row.split()[0] in EVENTS + ('flush', 'checkpoint', 'collect') else 1)]
        self.answers, self.ends = self.answers_without(None), {}
        # The row that each line answers.
        self.answering = [place for place, answer in enumerate(self.answers) if answer is not None]

    @functools.cache
    def answers_without(self, left_out):
        """What each row is answered, where one has no effect and no line."""
        script, answers = Script(b''), []
        for place, row in enumerate(self.rows):
            count = len(script.lines)
            if place != left_out:
                script.carry_out(row.encode())
            answers.append(script.lines[-1] if len(script.lines) > count else None)
        return answers

    def lines_where(self, place, answer):
        """The lines where memory is refused to a row, which answers that."""
        answers = list(self.answers_without(place))
        answers[place] = answer
        return [one for one in answers if one is not None]

    @functools.cache
    def ends_where_a_disk_fails(self, place):
        """How the script may end where one of the device calls of a row fails, since memory is refused to a disk in memory."""
        return {(script.status, tuple(script.lines)) for kind in KINDS for script in self.failing(place, kind)}

    def failing(self, place, kind):
        for count in range(1, 100):
            script = Script(b'')
            for row in self.rows[:place] + ['fail %s %d' % (kind, count), self.rows[place]]:
                script.go_on(row)
            if script.machine.told[kind]:
                return
            for row in self.rows[place + 1:]:
                script.go_on(row)
            yield script

    def may_fail(self, status, lines, alike):
        """Whether a device call failed, of the row of this line, or of the first opening."""
        if lines[alike:alike + 1] != ['fault 2 Device']:
            return False
        return (status, lines) == (4, ['fault 2 Device']) or (status, tuple(lines)) in self.ends_where_a_disk_fails(self.answering[alike])

    def take(self, status, lines):
        """Whether a run may end so, and what it came to."""
        whole = [self.answers[place] for place in self.answering]
        alike = next((count for count, pair in enumerate(zip(lines, whole)) if pair[0] != pair[1]), min(len(lines), len(whole)))
        end = 'another end'
        if status == 0 and lines == whole:
            end = 'nothing was refused'
        elif status == 3 and alike == len(lines):
            end = 'status 3'
        elif status == 4 and lines[alike:] == ['fault 1 Memory']:
            end = 'status 4'
        elif self.may_fail(status, lines, alike):
            end = 'status 4, by a disk' if status else 'a disk failed'
        elif status == 0 and alike < len(lines) and MEMORY.fullmatch(lines[alike]):
            place = self.answering[alike]
            if lines == self.lines_where(place, lines[alike]):
                end = '%s %s' % (self.rows[place].split()[0], lines[alike])
        self.ends[end] = self.ends.get(end, 0) + 1
        return end != 'another end'


def run_once(program, library, rows, place):
    """How a run ends of which the allocation of this place fails, its lines, and how many allocations it made."""
    settings = {**os.environ, 'LD_PRELOAD': library, 'FAILS_AT': str(place)}
    ran = subprocess.run([program], input=text_of(rows), env=settings, stdout=subprocess.PIPE, stderr=subprocess.PIPE)
    return ran.returncode, ran.stdout.decode().split('\n')[:-1], int(ran.stderr.split()[-1])


def refuse_each(program, library):
    scripts = {title: [row[2:] for row, _ in commands if row.startswith('| ')] for title, commands in cases_of(WORKED)}
    ends, total = {}, 0
    for title in OF_EACH_EVENT:
        refused = Refused(scripts[title])
        status, lines, count = run_once(program, library, refused.rows, 0)
        assert refused.take(status, lines), (title, status, lines)
        refused.ends, total = {}, total + count
        for place in range(1, count + 1):
            status, lines, _ = run_once(program, library, refused.rows, place)
            if not refused.take(status, lines):
                print('%s: allocation %d: status %d, and the last of %d lines: %s' % (title, place, status, len(lines), '; '.join(lines[-3:])))
        print('%s: %d allocations' % (title, count), flush=True)
        ends = {end: ends.get(end, 0) + refused.ends.get(end, 0) for end in {**ends, **refused.ends}}
    print('\n'.join('%d %s' % (count, end) for end, count in sorted(ends.items())))
    print('%d allocations, %d ended otherwise' % (total, ends.get('another end', 0)))
    return 1 if ends.get('another end') or not any(MEMORY.search(end) for end in ends) else 0


# ---- scripts that are drawn

SETTINGS = [[], [], ['set version 1'], ['set version 1', 'set depth 2'], ['set depth 2'], ['set stakes 3,1,1,1'],
            ['set stakes 1,2,3,4', 'set depth 3'], ['set batches 2', 'set version 1'], ['set stakes 2,2,2,2', 'set depth 2'],
            ['set stakes 5,4,3,2']]
BYTES = ('00', '01', '37', 'ff', 'ee')
COUNTS = {'read': 9, 'write': 12, 'cut': 4, 'sync': 20}


class Drawn:
    """A script as it is drawn, beside the node that it runs on."""

    def __init__(self, start):
        self.random = random.Random('script %d' % start)
        self.rows, self.script, self.is_over = [], Script(b''), False
        self.fails, self.labels, self.named = self.random.random() < 0.4, [], 0
        for row in self.random.choice(SETTINGS):
            self.put(row)
        self.put(self.random.choice(('round', 'accepted', 'pack b 0 0 6162', 'order')))
        self.draw_forms()
        for _ in range(self.random.randrange(20, 80)):
            self.draw_row()
        for row in ('flush', 'collect', 'collect', 'order', 'stop keep', 'order', 'round', 'collect'):
            self.put(row)

    def put(self, row):
        if self.is_over:
            return
        self.rows.append(row)
        try:
            self.script.carry_out(row.encode())
        except Ending:
            self.is_over = True

    def draw_forms(self):
        for name, author in (('b0', 0), ('b1', 1), ('d0', 0)):
            self.put('pack %s %d 0 %02x%02x' % (name, author, author, self.random.randrange(256)))
        below = ['g%d' % a for a in range(MEMBERS)]
        for round_ in range(1, self.random.choice((2, 4, 6, 8))):
            here = []
            for author in range(MEMBERS):
                name = 'c%d%d' % (round_, author)
                parents = sorted(self.random.sample(below, self.members()), key=lambda one: one[-1])
                batch = self.random.choice(['-'] * 4 + (['b0'] if author == OWN else ['b1']))
                self.put('form %s %d %d %s %s' % (name, author, round_, ','.join(parents), batch))
                here.append(name)
            self.labels.append(here)
            below = here

    def members(self):
        return 3 if self.script.node.committee.weigher.is_equal and self.random.random() < 0.6 else MEMBERS

    def draw_row(self):
        draw = self.random.random()
        if draw < 0.6:
            return self.put(self.event())
        if draw < 0.66:
            return self.put('flush')
        if draw < 0.75:
            return self.put('collect')
        if draw < 0.82:
            return self.put('checkpoint')
        if draw < 0.90:
            return self.put('stop ' + self.random.choice(('lose', 'keep', 'body', 'gate ' + self.byte(), 'checkpoint ' + self.byte())))
        if draw < 0.94 and self.fails:
            kind = self.random.choice(KINDS)
            return self.put('fail %s %d' % (kind, self.random.randrange(COUNTS[kind])))
        looks = ('order', 'round', 'accepted', 'synced', 'peek %d %d' % (self.random.randrange(5), self.random.randrange(8)))
        self.put(self.random.choice(looks))

    def byte(self):
        return self.random.choice(BYTES)

    def event(self):
        """Mostly a certificate that is due, or a coin; else anything."""
        draw = self.random.random()
        if draw < 0.7:
            return self.next_certificate()
        name = self.random.choice(self.labels[self.random.randrange(min(self.script.node.holds.round(), len(self.labels)))])
        if draw < 0.78:
            return 'header ' + (name if self.random.random() < 0.6 else name[:2] + '0')
        if draw < 0.85:
            return 'vote %s0 %d' % (name[:2], self.random.randrange(1, MEMBERS))
        if draw < 0.92:
            return 'batch ' + self.random.choice(('b0', 'b1', 'd0'))
        if draw < 0.97:
            return 'ack %s %d' % (self.random.choice(('b0', 'd0')), self.random.randrange(MEMBERS))
        return 'coin %d %d' % (self.random.randrange(1, 4), self.random.randrange(MEMBERS))

    def next_certificate(self):
        holds = self.script.node.holds
        wave = len(holds.coins) + 1
        if holds.is_full(2 * wave + 1) and self.random.random() < 0.6:
            return 'coin %d %d' % (wave, self.random.randrange(MEMBERS))
        held = {self.script.names.get(one.certificate) for one in holds.certificates.values()}
        for here in self.labels:
            missing = [name for name in here if name not in held and not holds.is_low(int(name[1]))]
            if len(missing) > 1 or (missing and self.random.random() < 0.7):
                return 'cert %s %s' % (self.random.choice(missing), self.voters())
        return 'cert c10 0,1,2'

    def voters(self):
        return ','.join(map(str, sorted(self.random.sample(range(MEMBERS), self.members()))))


# ---- the case file

HEAD = """# crates: sim_run sim_script node_sim node
# Scripts for the simulator with checkpoints, with a migration from the first version, and with device calls that fail: some that are
# worked, then some in which each call fails in turn, and then drawn ones. `oracles/scripts.py` writes these cases. The commands are those
# of the cases of `sim_run`. Besides, `keep` keeps a script, `first COUNT` begins one with so many of its lines, and `sum` answers the
# SHA-256 of what `play` answers."""
DRAWN = 300


def text_of(rows):
    return ''.join(row + '\n' for row in rows).encode()


class Cases:
    def __init__(self):
        self.count, self.statuses, self.words = 0, {}, {}

    def put(self, title, rows, expected=None, script=None):
        script = script or Script(text_of(rows))
        assert expected is None or (script.lines == expected and not script.status), (title, script.lines)
        self.count_of(script)
        self.write(title, ['| ' + row for row in rows], ('play', script.played()), ('journal', script.journal()))

    def count_of(self, script):
        self.count += 1
        self.statuses[script.status] = self.statuses.get(script.status, 0) + 1
        for line in script.lines:
            word = ' '.join(line.split()[:1 if line.split()[0] in ('new', 'known', 'order', 'out', 'settled', 'generation') else 3])
            self.words[word] = self.words.get(word, 0) + 1

    def put_kept(self, title, rows):
        """A script that begins later ones."""
        script = Script(text_of(rows))
        self.count_of(script)
        self.write(title, ['| ' + row for row in rows] + ['keep'], ('play', script.played()), ('journal', script.journal()))

    def put_short(self, title, kept, rows, script):
        """A script that begins as the one that is kept, by the rows that it has besides and the sum of what it prints."""
        self.count_of(script)
        first = next((place for place, (ours, theirs) in enumerate(zip(rows, kept)) if ours != theirs), min(len(rows), len(kept)))
        printed = ''.join(line + '\n' for line in script.played())
        given = ['first %d' % first] + ['| ' + row for row in rows[first:]]
        self.write(title, given, ('sum', [hashlib.sha256(printed.encode()).hexdigest()]), ('journal', script.journal()))

    def write(self, title, given, *asked):
        print('\n== ' + title)
        print('\n'.join(given))
        for command, answers in asked:
            print(command)
            print('\n'.join('> ' + answer for answer in answers))


def write_cases():
    cases = Cases()
    print(HEAD)
    for title, rows, expected in worked():
        cases.put(title, rows, expected)
    for title, rows in list(shapes()) + list(counted()):
        cases.put(title, rows)
    write_turns(cases)
    for start in range(1, DRAWN + 1):
        cases.put('drawn from %d' % start, Drawn(start).rows)
    return cases


def write_turns(cases):
    for turns in turned():
        count = cases.count
        if turns.is_long:
            cases.put_kept(turns.title, turns.rows)
        for title, one in turns.scripts():
            if turns.is_long:
                cases.put_short(title, turns.rows, one.rows, one.script)
            else:
                cases.put(title, one.rows, script=one.script)
        failed = ', '.join('%s %d' % one for one in turns.counts.items())
        print('\n# %s: %d scripts, calls that failed: %s' % (turns.title, cases.count - count, failed))
        print('%s: %d scripts, calls that failed: %s' % (turns.title, cases.count - count, failed), file=sys.stderr)


def main():
    if sys.argv[1:2] == ['--check']:
        sys.exit(check_all(sys.argv[2:]))
    if sys.argv[1:2] == ['--allocations']:
        sys.exit(refuse_each(*sys.argv[2:]))
    cases = write_cases()
    print('%d scripts, by status %s; %s' % (cases.count, cases.statuses, cases.words), file=sys.stderr)


if __name__ == '__main__':
    main()
