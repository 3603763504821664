#!/usr/bin/env python3
"""Files of journals, and what opening a node on each of them comes to; scripts of commands, and what a node writes for them. All is
computed without the node's code.

    oracles/recoveries.py > crates/test_disk/data/recoveries.cases

The formats are those of docs/FORMATS.md, and what events are answered is taken from oracles/histories.py, which reads an order
afresh for each answer.
"""
import hashlib
import sys
from types import SimpleNamespace

sys.dont_write_bytecode = True
import histories
from histories import Header, Batch, u16, u32, u64

OWN, MEMBERS, DEPTH, WORKERS, BATCHES = 0, 4, 50, 1, 1048576
EQUAL = [1, 1, 1, 1]
GENESIS = [Header('g%d' % a, a, 0, [], []) for a in range(MEMBERS)]


def key(member):
    return bytes([member + 1]) * 32


def signed(member, digest):
    return b''.join(hashlib.sha256(letter + key(member) + digest).digest() for letter in (b'S', b'T'))


# ---- messages

def body(header):
    batches = b''.join(b.digest + u16(b.worker) for b in header.batches)
    parents = b''.join(u16(p.author) + p.certificate for p in header.parents)
    front = u16(header.author) + u64(header.round)
    return front + u16(len(header.batches)) + batches + u16(len(header.parents)) + parents


def header_message(header):
    return b'\3' + body(header) + signed(header.author, header.digest)


def certificate_message(header, voters):
    votes = b''.join(u16(voter) + signed(voter, header.certificate) for voter in voters)
    return b'\5' + body(header) + u16(len(voters)) + votes


def vote_message(header, voter):
    return b'\4' + header.digest + u64(header.round) + u16(header.author) + u16(voter) + signed(voter, header.certificate)


def batch_message(batch):
    return b'\1' + u16(batch.author) + u16(0) + u32(1) + u32(len(batch.transaction)) + batch.transaction


def ack_message(batch, member):
    return b'\2' + u16(member) + batch.digest


def coin_message(wave, value):
    return b'\6' + u64(wave) + u64(value)


class Fault(Exception):
    """Bytes that are no message, or an event that isn't taken."""


def require(holds):
    if not holds:
        raise Fault


class Reader:
    def __init__(self, text):
        self.text, self.place = text, 0

    def bytes(self, count):
        require(self.place + count <= len(self.text))
        self.place += count
        return self.text[self.place - count:self.place]

    def number(self, count):
        return int.from_bytes(self.bytes(count), 'big')

    def count(self, width, limit):
        number = self.number(width)
        require(number <= limit)
        return number

    def round(self):
        return self.count(8, 2 ** 48)

    def rising(self, limit, width, read):
        entries = []
        for _ in range(self.count(2, limit)):
            entry_key = self.bytes(width)
            require(not entries or entries[-1][0] < entry_key)
            entries.append((entry_key, read()))
        return entries

    def header(self):
        author, round_ = self.number(2), self.round()
        batches = [SimpleNamespace(digest=d, worker=w) for d, w in self.rising(128, 32, lambda: self.number(2))]
        parents = [SimpleNamespace(author=int.from_bytes(a, 'big'), certificate=c) for a, c in self.rising(31, 2, lambda: self.bytes(32))]
        header = Header('-', author, round_, parents, batches)
        header.label = header.digest.hex()
        return header

    def batch(self):
        author, worker, total, texts = self.number(2), self.number(2), 8, b''
        count = self.count(4, 124998)
        for _ in range(count):
            length = self.count(4, 65536)
            total += 4 + length
            require(total <= 500000)
            texts += u32(length) + self.bytes(length)
        text = u16(author) + u16(worker) + u32(count) + texts
        digest = histories.sha(b'B', text)
        return SimpleNamespace(label=digest.hex(), author=author, worker=worker, digest=digest, text=text)

    def message(self):
        tag = self.number(1)
        require(1 <= tag <= 6)
        parts = SimpleNamespace(tag=tag)
        if tag == 1:
            parts.batch = self.batch()
        elif tag == 2:
            parts.member, parts.batch = self.number(2), SimpleNamespace(digest=self.bytes(32))
        elif tag == 3:
            parts.header = self.header()
            self.bytes(64)
        elif tag == 4:
            digest, round_ = self.bytes(32), self.round()
            parts.header = SimpleNamespace(digest=digest, round=round_, author=self.number(2))
            parts.member = self.number(2)
            self.bytes(64)
        elif tag == 5:
            parts.header = self.header()
            parts.voters = [int.from_bytes(v, 'big') for v, _ in self.rising(31, 2, lambda: self.bytes(64))]
        else:
            parts.wave, parts.value = self.number(8), self.number(8)
            require(1 <= parts.wave < 2 ** 47)
        require(self.place == len(self.text))
        return parts


def check_body(header, committee):
    authors = [p.author for p in header.parents]
    require(len(authors) <= MEMBERS and all(a < MEMBERS for a in authors) and committee.is_quorum(authors))
    require(all(b.worker < WORKERS for b in header.batches))


def check(sender, m, committee):
    """The tests of a message from its sender, but for the signatures."""
    require(sender < MEMBERS)
    if m.tag == 1:
        require(m.batch.author == sender and m.batch.worker < WORKERS)
    elif m.tag in (2, 4):
        require(m.member == sender and (m.tag == 2 or m.header.author < MEMBERS))
    elif m.tag in (3, 5):
        require(m.header.author < MEMBERS and (m.tag == 5 or m.header.author == sender))
        check_body(m.header, committee)
        require(m.tag == 3 or (all(v < MEMBERS for v in m.voters) and committee.is_quorum(m.voters)))


def message_of(record, committee):
    """The sender and the message of an event's record."""
    require(len(record) >= 3 and record[0] == 1)
    sender, m = int.from_bytes(record[1:3], 'big'), Reader(record[3:]).message()
    check(sender, m, committee)
    return sender, m


def answer(node, record):
    """What the event of a record is answered, in a word, and its outputs."""
    sender, m = message_of(record, node.committee)
    if m.tag == 1:
        return node.batch(m.batch, BATCHES)
    if m.tag == 2:
        return node.ack(m.batch, m.member)
    if m.tag == 3:
        # a header names a batch without its author
        for batch in m.header.batches:
            batch.author = getattr(node.batches.get(batch.digest), 'author', None)
        return node.header(m.header)
    if m.tag == 4:
        return node.vote(m.header, m.member)
    if m.tag == 5:
        return node.certificate(m.header, m.voters)
    return node.coin(sender, m.wave, m.value)


def take(node, record):
    """Takes the event of a record, which has to be new."""
    require(answer(node, record)[0].startswith('new'))


# ---- journals

def record(sender, message):
    return b'\1' + u16(sender) + message


def configuration(own=OWN, depth=DEPTH, keys=range(MEMBERS), stakes=None, version=2):
    front = bytes([0, version]) + u16(own) + u16(depth) + u16(WORKERS) + u32(BATCHES) + u16(len(keys)) + b''.join(map(key, keys))
    return front + b''.join(map(u32, stakes or [1] * len(keys))) if version > 1 else front


# Bytes of a member in a configuration of each version: its key, and its stake.
MEMBER_BYTES = {1: 32, 2: 36}


def version_of(first):
    """The version of a record that has a configuration's shape."""
    version = first[1] if len(first) >= 14 and first[0] == 0 else 0
    has_shape = version in MEMBER_BYTES and len(first) == 14 + MEMBER_BYTES[version] * int.from_bytes(first[12:14], 'big')
    return version if has_shape else None


def group(records):
    """A group after its gate, without the next one."""
    text = b''.join(u32(len(one)) + one for one in records)
    return u32(len(text)) + text


def journal(*groups):
    return b''.join(b'\1' + group(records) for records in groups) + b'\0'


class Damaged(Exception):
    pass


def walk(file):
    """The records, each with the place of its group's gate, and the place of the closed gate after them."""
    place, records = 0, []
    if len(file) < 2:
        return records, 0
    while file[place]:
        start = place + 5
        length = int.from_bytes(file[place + 1:start], 'big')
        if len(file) < start or not 1 <= length <= 4194304 or len(file) <= start + length:
            raise Damaged(place)
        text, found = file[start:start + length], []
        while text:
            end = 4 + int.from_bytes(text[:4], 'big')
            if len(text) < 4 or len(text) < end:
                raise Damaged(place)
            found.append((place, text[4:end]))
            text = text[end:]
        if len(found) > 1024:
            raise Damaged(place)
        records += found
        place = start + length
    return records, place


class Setting:
    def __init__(self, own=OWN, depth=DEPTH, stakes=EQUAL):
        self.own, self.depth, self.stakes = own, depth, stakes

    def command(self):
        return 'node %d %d %s' % (self.own, self.depth, ' '.join(map(str, self.stakes)))

    def configuration(self, version=2):
        return configuration(self.own, self.depth, stakes=self.stakes, version=version)

    def is_told_by(self, first):
        """The first record is the node's own configuration, in a version that can tell its stakes."""
        version = version_of(first)
        return (version > 1 or self.stakes == EQUAL) and first == self.configuration(version)

    def read(self, records):
        """The node after the records, or why there is none."""
        if records:
            first, others = records[0][1], records[1:]
            if version_of(first) is None or any(place == 0 for place, _ in others):
                raise Damaged(0)
            if not self.is_told_by(first):
                return None
        node = histories.Node(self.depth, histories.Committee(self.stakes))
        for place, one in records[1:]:
            try:
                take(node, one)
            except Fault:
                raise Damaged(place)
        return node

    def open(self, file):
        """What the opening answers, what it leaves, and the device calls that it makes where none fails."""
        calls = ['sync', 'read']
        try:
            records, gate = walk(file)
        except Damaged as damaged:
            return '3 Damaged at %d' % damaged.args, file, calls
        left = file[:gate + 1] if len(file) >= 2 else b'\0'
        calls += ['write', 'sync'] if len(file) < 2 else ['cut', 'sync'] if left != file else []
        try:
            node = self.read(records)
        except Damaged as damaged:
            return '3 Damaged at %d' % damaged.args, left, calls
        if node is None:
            return '4 ConfigMismatch', left, calls
        if not records:
            left, calls = journal([self.configuration()]), calls + ['write', 'sync', 'write', 'sync']
        return tell(node), left, calls


def tell(node):
    votes = [', vote %d.%d x%s' % (a, r, node.headers[r, a].digest[:4].hex())
             for a in range(MEMBERS) for r in range(1, 5) if (r, a) in node.headers]
    return 'opened, round %d, order %d' % (node.round(), len(node.order())) + ''.join(votes)


# ---- scripts

ALL, HOST = b'\xff\xff', b'\xff\xfe'


def certified(node, label):
    return next(c for c in node.certificates.values() if c.label == label)


def output_bytes(node, output):
    """An output, which is told by the labels of what it has: its receiver, and then its bytes."""
    kind, label, *rest = output.split()
    if kind == 'order':
        return HOST + b'\7' + u64(int(label)) + u32(len(rest)) + b''.join(certified(node, one).certificate for one in rest)
    if kind == 'certificate':
        return ALL + certificate_message(certified(node, label), list(map(int, rest[0].split(','))))
    if kind in ('batch', 'ack'):
        batch = next(b for b in node.batches.values() if b.label == label)
        return ALL + b'\1' + batch.text if kind == 'batch' else u16(batch.author) + ack_message(batch, OWN)
    header = next(h for h in node.headers.values() if h.label == label)
    return ALL + header_message(header) if kind == 'header' else u16(header.author) + vote_message(header, OWN)


def fits(records):
    return len(records) <= 1024 and sum(4 + len(one) for one in records) <= 4194304


class Run:
    """A node that carries out commands on a file. Of each device call it notes how much was written before it."""

    def __init__(self, setting, file, commands):
        self.setting, self.file, self.written, self.calls = setting, file, b'', []
        self.open()
        for command in commands:
            if self.error is None:
                self.carry_out(command)

    def call(self, *calls):
        self.calls += [(one, len(self.written)) for one in calls]

    def open(self):
        told, self.file, calls = self.setting.open(self.file)
        self.call(*calls)
        self.error = None if told.startswith('opened') else told
        self.node = None if self.error else self.setting.read(walk(self.file)[0])
        self.accepted, self.settled, self.waiting = [], 0, []

    def take_in(self, event):
        word, outputs = answer(self.node, event)
        if word.startswith('new'):
            self.accepted.append(event)
        for output in outputs:
            text = output_bytes(self.node, output)
            self.waiting.append((len(self.accepted), u32(len(text)) + text))

    def flush(self):
        records = []
        for one in self.accepted[self.settled:]:
            if not fits(records + [one]):
                break
            records.append(one)
        if records:
            self.call('write', 'sync', 'write', 'sync')
            self.file = self.file[:-1] + b'\1' + group(records) + b'\0'
            self.settled += len(records)

    def carry_out(self, command):
        if command == 'flush':
            self.flush()
        elif command == 'checkpoint':
            # It settles all that is pending, as do as many groups as it takes: what is read then is the same state.
            while self.settled < len(self.accepted):
                self.flush()
        elif command == 'stop':
            self.open()
        else:
            self.take_in(command)
        self.written += b''.join(frame for ticket, frame in self.waiting if ticket <= self.settled)
        self.waiting = [(ticket, frame) for ticket, frame in self.waiting if ticket > self.settled]

    def told(self):
        if self.error:
            return self.error + shown(self.written)
        return 'carried out%s, file of %d bytes' % (shown(self.written), len(self.file))


class Disk:
    """What a read gives, what the last sync left, and which places were written since, on a disk that began empty."""

    def __init__(self):
        self.read, self.firm, self.written = b'', b'', set()

    def call(self, name, place=0, text=b''):
        if name == 'write':
            self.read = self.read[:place] + text + self.read[place + len(text):]
            self.written |= set(range(place, place + len(text)))
        elif name == 'sync':
            self.firm, self.written = self.read, set()

    def outcomes(self):
        """Bytes that a stop may leave: as they are read, as the last sync left them, other ones, and one of these in turn."""
        for fill in range(4):
            for length in range(len(self.firm), len(self.read) + 1):
                if length % 4 == fill or length == len(self.read):
                    yield bytes(self.byte(place, fill) for place in range(length))

    def byte(self, place, fill):
        if place not in self.written:
            return self.firm[place]
        was = self.firm[place] if place < len(self.firm) else None
        return [self.read[place], was or 0, 0x99, self.read[place] if place % 2 else 0x99][fill]


def steps_of(setting, script):
    """The device calls of a node that opens an empty disk, and then settles each event of the script in a group of its own."""
    steps, file = [('sync',), ('read',), ('write', 0, b'\0'), ('sync',)], b'\0'
    for records in [[setting.configuration()]] + [[event] for event in script if event != 'flush']:
        text = group(records) + b'\0'
        steps += [('write', len(file), text), ('sync',), ('write', len(file) - 1, b'\1'), ('sync',)]
        file = file[:-1] + b'\1' + text
    return steps


def shown(text):
    whole = ' sha256 ' + hashlib.sha256(text).hexdigest() if len(text) > 128 else ' x' + text.hex() if text else ''
    return ', %d bytes' % len(text) + whole


# ---- commands and their answers

class Cases:
    def __init__(self):
        self.setting, self.file, self.script, self.commands = Setting(), b'', [], 0

    def put(self, command, *answers):
        self.commands += 1
        print(command)
        for answer in answers:
            print('> ' + answer)

    def case(self, title, file, setting=Setting()):
        print('\n== ' + title)
        print('store')
        self.setting, self.file, self.script = setting, file, []
        if setting.command() != Setting().command():
            self.put(setting.command())
        self.put('file x' + file.hex())

    def opens(self, title, file, setting=Setting()):
        self.case(title, file, setting)
        told, left, _ = setting.open(file)
        self.put('open', told + (', as it was' if left == file else ', left x' + left.hex()))

    def fails(self, call, count):
        told, _, calls = self.setting.open(self.file)
        first = '2 Device' if calls.count(call) >= count else told
        self.put('fails %s %d' % (call, count), first, 'then ' + told)

    def lengths(self, first, last):
        lines, before = [], None
        for length in range(first, last + 1):
            told = self.setting.open(self.file[:length])[0]
            if told != before:
                lines.append('%d: %s' % (length, told))
            before = told
        self.put('lengths %d %d' % (first, last), *lines)

    def changes(self, first, last, values):
        counts, step = {}, 256 // (values + 1)
        for place in range(first, last + 1):
            for turn in range(1, values + 1):
                file = bytearray(self.file)
                file[place] = (file[place] + turn * step) % 256
                told = self.setting.open(bytes(file))[0]
                counts[told] = counts.get(told, 0) + 1
        self.put('changes %d %d %d' % (first, last, values), *['%d %s' % (n, told) for told, n in counts.items()])

    def tell(self, *commands):
        for command in commands:
            self.put(command if isinstance(command, str) else 'event %d x%s' % (command[2], command[3:].hex()))
        self.script += commands

    def tell_batches(self, count, length):
        """Batches of member 2, each with one transaction of this length, which is its number and then zeros."""
        self.put('batches %d %d' % (count, length))
        batches = [Batch('b%d' % number, 2, u32(number) + bytes(length - 4)) for number in range(count)]
        self.script += [record(2, batch_message(batch)) for batch in batches]

    def run(self, *behind):
        return Run(self.setting, self.file, [one for command in self.script for one in (command, *behind)])

    def drive(self, *behind):
        run = self.run(*behind)
        self.put(' '.join(('drive', *behind)), run.told())
        if run.error is None:
            self.put(' '.join(('plain', *behind)), 'the same text' + shown(run.written))
        return run

    def pair(self, *after):
        run = self.run(*after)
        assert run.error is None
        self.put(' '.join(('pair', *after)), 'the same text' + shown(run.written), self.setting.open(run.file)[0])

    def pair_failing(self, call, *after):
        self.put(' '.join(('pair', call, *after)), 'each call failed in turn')

    def pair_filling(self, *after):
        text = self.run(*after).written
        self.put(' '.join(('pair', 'x' + text.hex(), *after)), '0: 6 Output, filled', '%d: carried out, filled' % len(text))

    def checkpoints_failing(self):
        for call in ('sync', 'read', 'write', 'cut'):
            self.pair_failing(call, 'checkpoint')
        self.pair_filling('checkpoint')

    def drive_failing(self, call):
        run = self.run()
        answers = ['2 Device' + shown(run.written[:before]) for name, before in run.calls if name == call] + [run.told()]
        self.put('drive ' + call, *['%d: %s' % one for one in enumerate(answers, 1)])

    def stops(self, setting):
        """The script is stopped at each of its calls: what each outcome is opened as."""
        disk, steps = Disk(), steps_of(setting, self.script)
        counts = {}
        for name, *write in steps:
            counts[name] = counts.get(name, 0) + 1
            told = dict.fromkeys('then ' + setting.open(outcome)[0] for outcome in disk.outcomes())
            self.put('stops %s %d' % (name, counts[name]), '2 Device', *told)
            disk.call(name, *write)

    def drive_filling(self):
        text = self.run().written
        for word in ('drive', 'pair'):
            self.put(word + ' x' + text.hex(), '0: 6 Output, filled', '%d: carried out, filled' % len(text))


CONFIG = configuration()
STAKES = [3, 1, 1, 1]
EMPTY = journal([CONFIG])
HEADER = Header('h1', 1, 1, GENESIS[:3], [])
OTHER = Header('k1', 1, 1, GENESIS[1:], [])
EVENT = record(1, header_message(HEADER))
FIRST_VOTE = journal([CONFIG], [EVENT])
OLD_CONFIG = configuration(version=1)
OLD_EMPTY = journal([OLD_CONFIG])
OLD_VOTE = journal([OLD_CONFIG], [EVENT])
# What a checkpoint of that vote is, which is no journal on one disk.
CHECKPOINT = journal([CONFIG, b'\2' + u64(1)], [b'\5' + u16(1) + u64(1) + HEADER.digest])
BATCH, OWN_BATCH = Batch('b', 2, b'ab'), Batch('o', 0, b'cd')
NAMING = Header('n', 2, 1, GENESIS[:3], [BATCH])
OWN_HEADER = Header('m', 0, 1, GENESIS, [])
PLAIN_HEADER = Header('p', 0, 1, GENESIS[:3], [])


def every_kind():
    """39 events of all kinds: an own batch that two acknowledge, a peer's header, the own header with that batch and the votes that
    make its certificate, two batches of a peer, and certificates of nine rounds with the coins of their four waves."""
    own = Header('h0', 0, 1, GENESIS[:3], [OWN_BATCH])
    events = [record(0, batch_message(OWN_BATCH))] + [record(member, ack_message(OWN_BATCH, member)) for member in (1, 2)]
    events += [EVENT, record(0, header_message(own))] + [record(voter, vote_message(own, voter)) for voter in (1, 2)]
    events += [record(2, batch_message(Batch('p%d' % number, 2, u32(number)))) for number in range(2)]
    before = GENESIS[:3]
    for round_ in range(1, 10):
        here = [own, HEADER] if round_ == 1 else []
        here += [Header('c%d%d' % (round_, author), author, round_, before, []) for author in range(len(here), 3)]
        events += [record(1, certificate_message(header, (0, 1, 2))) for header in here if header is not own]
        if round_ in (3, 5, 7, 9):
            events.append(record(0, coin_message(round_ // 2, round_)))
        before = here
    return events


def in_groups(events):
    """Groups of one event, of two, of three, and so on."""
    groups, place = [], 0
    while place < len(events):
        groups.append(events[place:place + len(groups) + 1])
        place += len(groups[-1])
    return groups


FORTY, OLD_FORTY = (journal([one], *in_groups(every_kind())) for one in (CONFIG, OLD_CONFIG))


def gates(file):
    """The places of the gates of a journal, the closed one at the end among them."""
    records, end = walk(file)
    return sorted({gate for gate, _ in records} | {end})


def closed(file, number):
    """A journal with 00 at the gate of its group of this number."""
    return with_byte(file, gates(file)[number], 0)


def with_byte(text, place, value):
    return text[:place] + bytes([value]) + text[place + 1:]


def behind(*events):
    """A journal with these events, each in a group of its own."""
    return journal([CONFIG], *[[event] for event in events])


def three_rounds():
    events, before = [], GENESIS
    for round_ in (1, 2, 3):
        headers = [Header('c%d%d' % (round_, a), a, round_, before, []) for a in range(3)]
        events += [record(1, certificate_message(header, [0, 1, 2])) for header in headers]
        before = headers
    return events


def empty_files(cases):
    cases.opens('an empty file gets the configuration', b'')
    cases.opens('one byte is empty, whatever it is', b'\xff')
    cases.opens('a closed gate is empty', b'\0')
    cases.opens('what lies after a closed gate is cut', b'\0\x99')
    cases.opens('a whole group after a closed gate is none', with_byte(FIRST_VOTE, 0, 0))
    cases.opens('the configuration alone', EMPTY)
    cases.opens('another member', b'', Setting(own=3))
    cases.opens('another depth', b'', Setting(depth=7))


def configurations(cases):
    cases.opens('the configuration of another member', journal([configuration(own=1)]))
    cases.opens('another depth in the file', journal([configuration(depth=51)]))
    cases.opens('another key', journal([configuration(keys=[0, 1, 2, 4])]))
    cases.opens('seven members', journal([configuration(keys=range(7))]))
    cases.opens('an own journal is another member\'s to it', FIRST_VOTE, Setting(own=1))
    cases.opens('a version to come', journal([with_byte(CONFIG, 1, 3)]))
    cases.opens('a version to come, without stakes', journal([with_byte(OLD_CONFIG, 1, 3)]))
    cases.opens('no version', journal([with_byte(OLD_CONFIG, 1, 0)]))
    cases.opens('stakes in the first version', journal([with_byte(CONFIG, 1, 1)]))
    cases.opens('no stakes in the second version', journal([with_byte(OLD_CONFIG, 1, 2)]))
    cases.opens('a length that the members don\'t give', journal([CONFIG + b'\0']))
    cases.opens('a first record that is too short', journal([CONFIG[:13]]))
    cases.opens('an event comes first', journal([EVENT]))
    cases.opens('an event with the configuration in its group', journal([CONFIG, EVENT]))
    cases.opens('the configuration twice', journal([CONFIG], [CONFIG]))
    weighing = Setting(stakes=STAKES)
    cases.opens('stakes that aren\'t all 1', b'', weighing)
    cases.opens('their journal', journal([weighing.configuration()]), weighing)
    cases.opens('the journal of other stakes', EMPTY, weighing)
    cases.opens('their journal is that of other stakes to others', journal([weighing.configuration()]))
    cases.opens('the same stakes of other members', journal([configuration(stakes=[1, 3, 1, 1])]), weighing)
    cases.opens('stakes that are all 2', journal([configuration(stakes=[2, 2, 2, 2])]))
    cases.opens('damage of the first record comes before that', journal([EVENT]), weighing)
    cases.opens('damage of an event comes after it', behind(EVENT, EVENT), Setting(own=1))


def first_version(cases):
    cases.opens('the configuration alone, in the first version', OLD_EMPTY)
    cases.opens('the vote on a header, in the first version', OLD_VOTE)
    cases.opens('bytes after a closed gate are cut in the first version too', OLD_VOTE + b'\1\2\3')
    cases.opens('the first version has no stakes', OLD_EMPTY, Setting(stakes=STAKES))
    cases.opens('nor with events', OLD_VOTE, Setting(stakes=STAKES))
    cases.opens('stakes that are all 2 aren\'t all 1', OLD_EMPTY, Setting(stakes=[2, 2, 2, 2]))
    cases.opens('the configuration of another member in the first version', journal([configuration(own=1, version=1)]))
    cases.opens('another depth in the first version', journal([configuration(depth=51, version=1)]))
    cases.opens('the configuration twice, in both versions', journal([OLD_CONFIG], [CONFIG]))
    cases.opens('an event with the configuration in its group, in the first version', journal([OLD_CONFIG, EVENT]))
    cases.case('a journal of the first version goes on in it', OLD_VOTE)
    cases.tell(EVENT, record(2, header_message(Header('z', 2, 1, GENESIS[:3], []))), 'flush', 'stop', EVENT)
    run = cases.drive()
    assert run.file.startswith(OLD_VOTE[:-1]) and len(run.file) == 345 + 193
    for call in ('sync', 'read', 'write', 'cut'):
        cases.drive_failing(call)


def stakes(cases):
    setting = Setting(stakes=STAKES)
    cases.case('stakes 3, 1, 1, 1: a stop at each call of the first two groups', b'', setting)
    cases.tell(EVENT, 'flush')
    cases.drive()
    cases.stops(setting)
    votes = [record(voter, vote_message(PLAIN_HEADER, voter)) for voter in (1, 2)]
    in_three_ways(cases, 'stakes 3, 1, 1, 1: the votes of two are a certificate', record(0, header_message(PLAIN_HEADER)), votes[0], 'flush', votes[1], 'flush',
                  setting=setting)
    for title, stakes_are in [('one supporter of the stake 3 commits a leader', STAKES), ('the same with equal stakes', [2, 2, 2, 2])]:
        in_three_ways(cases, title, *by_one_supporter(), 'flush', setting=Setting(stakes=stakes_are))


def by_one_supporter():
    """A leader with one supporter, member 0."""
    return certificates('c10 c11 c12 c13 c20 c21 c22 c30 c31 c32 1=1', [
        ('c10 c11 c12 c13', 'g0 g1 g2'), ('c20', 'c10 c11 c12'), ('c21 c22', 'c10 c12 c13'), ('c30 c31 c32', 'c20 c21 c22')])[0]


def events(cases):
    cases.opens('the vote on a header', FIRST_VOTE)
    cases.opens('bytes after the closed gate are cut', FIRST_VOTE + b'\1\2\3')
    cases.opens('a whole group after the closed gate is cut', FIRST_VOTE + group([record(2, header_message(NAMING))]) + b'\0')
    cases.opens('its batch comes first', behind(record(2, batch_message(BATCH)), record(2, header_message(NAMING))))
    cases.opens('two events in one group', journal([CONFIG], [record(2, batch_message(BATCH)), record(2, header_message(NAMING))]))
    cases.opens('the order of three rounds', behind(*three_rounds(), record(0, coin_message(1, 0))))
    own = [record(0, batch_message(OWN_BATCH)), record(1, ack_message(OWN_BATCH, 1)), record(0, header_message(OWN_HEADER))]
    cases.opens('an own header and votes on it', behind(*own, record(1, vote_message(OWN_HEADER, 1)), record(2, vote_message(OWN_HEADER, 2))))
    cases.opens('a signature that isn\'t good is not looked at', behind(EVENT[:-1] + b'\0'))
    for title, one in [
        ('a header again is known', EVENT),
        ('another header of the author and round', record(1, header_message(OTHER))),
        ('a header of round 0', record(2, header_message(Header('z', 2, 0, GENESIS, [])))),
        ('a header over what isn\'t held', record(2, header_message(Header('z', 2, 2, GENESIS, [])))),
        ('a header naming a batch that comes later', record(2, header_message(NAMING))),
        ('a certificate over what isn\'t held', three_rounds()[3]),
        ('a vote on no header of the node', record(2, vote_message(OWN_HEADER, 2))),
        ('an acknowledgement of no batch of the node', record(1, ack_message(OWN_BATCH, 1))),
        ('a coin of another member', record(1, coin_message(1, 0))),
        ('a coin before its round', record(0, coin_message(1, 0))),
        ('a coin out of turn', record(0, coin_message(2, 0))),
        ('a header from another sender', record(2, header_message(Header('z', 3, 1, GENESIS, [])))),
        ('a header of no member', record(4, header_message(Header('z', 4, 1, GENESIS, [])))),
        ('a header over too few', record(2, header_message(Header('z', 2, 1, GENESIS[:2], [])))),
        ('bytes after the message', record(2, header_message(NAMING) + b'\0')),
        ('a message that is cut short', EVENT[:-1]),
        ('a tag of no kind', with_byte(EVENT, 3, 7)),
        ('a record of no kind', with_byte(EVENT, 0, 2)),
        ('a record without a message', EVENT[:2]),
        ('an empty record', b''),
    ]:
        cases.opens(title, behind(EVENT, one))
    parents = EVENT[:18] + EVENT[52:86] + EVENT[18:52] + EVENT[86:]
    cases.opens('parents that don\'t rise', behind(parents))
    cases.opens('the second of a group is at fault', journal([CONFIG], [EVENT, EVENT]))


def groups(cases):
    for title, torn in [
        ('an open gate at the end', b'\1'),
        ('a length that is cut short', b'\1\0\0\0'),
        ('a body that is cut short', b'\1' + group([EVENT])[:-1]),
        ('no gate after a group', b'\1' + group([EVENT])),
        ('a body without a byte', b'\1' + u32(0) + b'\0'),
        ('a body longer than any', b'\1' + u32(4194305) + b'\0' * 9),
        ('a body that isn\'t whole records', b'\1' + u32(5) + u32(2) + b'\1\0'),
    ]:
        cases.opens(title, EMPTY[:-1] + torn)
    cases.opens('a gate of another value is open', with_byte(FIRST_VOTE, len(EMPTY) - 1, 0x99))
    cases.opens('a first gate with nothing after it', b'\1\0')
    cases.opens('a first group that is cut short', b'\1\0\0\0\5\xaa')


def failures(cases):
    cases.case('each call on an empty file fails', b'')
    for call, count in [('sync', 1), ('read', 1), ('write', 1), ('sync', 2), ('write', 2), ('sync', 3), ('write', 3), ('sync', 4), ('cut', 1)]:
        cases.fails(call, count)
    cases.case('each call on a file with bytes after it fails', FIRST_VOTE + b'\1\2\3')
    for call, count in [('sync', 1), ('read', 1), ('cut', 1), ('sync', 2), ('write', 1)]:
        cases.fails(call, count)
    cases.case('each call on another configuration fails', journal([configuration(own=1)]))
    for call, count in [('sync', 1), ('read', 1)]:
        cases.fails(call, count)


def certificates(names, parents):
    """Events from names: a certificate is named c, its round and its author, and a coin by its wave and its value."""
    made = {header.label: header for header in GENESIS}
    for name, names_of in parents:
        for one in name.split():
            made[one] = Header(one, int(one[2]), int(one[1]), [made[parent] for parent in names_of.split()], [])
    def event(name):
        if name[0] == 'c':
            return record(1, certificate_message(made[name], [0, 1, 2]))
        wave, value = map(int, name.split('='))
        return record(0, coin_message(wave, value))
    return [event(name) for name in names.split()], made


def leader_by_one():
    """An order in which the second leader brings what the first one doesn't."""
    return certificates('c10 c11 c12 c13 c20 c21 c22 c30 c31 c32 1=1 c40 c41 c42 c50 c51 c52 2=0', [
        ('c10 c11 c12 c13', 'g0 g1 g2'), ('c20', 'c11 c12 c13'), ('c21 c22', 'c10 c12 c13'), ('c30 c31 c32', 'c20 c21 c22'),
        ('c40 c41 c42', 'c30 c31 c32'), ('c50 c51 c52', 'c40 c41 c42')])


def late_certificates():
    """An order whose floor leaves out some of what comes late."""
    return certificates(
        'c10 c11 c12 c20 c21 c22 c30 c31 c32 1=0 c40 c41 c42 c50 c51 c52 2=0 c23 c33 c43 c53 c60 c61 c62 c70 c71 c72 3=3', [
            ('c10 c11 c12', 'g0 g1 g2'), ('c20 c21 c22 c23', 'c10 c11 c12'), ('c30 c31 c32', 'c20 c21 c22'), ('c33', 'c21 c22 c23'),
            ('c40 c41 c42', 'c30 c31 c32'), ('c43', 'c31 c32 c33'), ('c50 c51 c52', 'c40 c41 c42'), ('c53', 'c41 c42 c43'),
            ('c60 c61 c62', 'c51 c52 c53'), ('c70 c71 c72', 'c60 c61 c62')])


def in_three_ways(cases, title, *commands, setting=Setting()):
    cases.case(title, b'', setting)
    cases.tell(*commands)
    cases.drive()
    cases.drive('stop')
    for after in (('stop',), ('flush', 'stop'), ('checkpoint',), ('checkpoint', 'stop')):
        cases.pair(*after)
    return cases.drive('flush', 'stop')


def scripts(cases):
    cases.case('a vote leaves after its flush, and again after a stop', b'')
    cases.tell(EVENT, 'flush', 'stop', EVENT)
    run = cases.drive()
    assert len(run.written) == 230 and run.written[:115] == run.written[115:] and len(run.file) == 361
    assert run.written.startswith(bytes.fromhex('0000006f000104'))
    for call in ('sync', 'read', 'write', 'cut'):
        cases.drive_failing(call)
    cases.drive_filling()
    cases.case('a stop loses what isn\'t settled', b'')
    cases.tell(EVENT, 'stop', EVENT, 'flush')
    assert len(cases.drive().written) == 115
    cases.case('a refused event writes nothing, and a known one waits', b'')
    cases.tell(EVENT, record(1, header_message(OTHER)), EVENT)
    assert not cases.drive().written
    cases.tell('flush')
    assert len(cases.drive().written) == 230
    cases.case('what the journal has is known and settled', FIRST_VOTE + b'\1\2\3')
    cases.tell(EVENT)
    cases.drive()
    for call in ('sync', 'read', 'cut'):
        cases.drive_failing(call)
    cases.case('no commands', b'')
    cases.drive()


def longer_scripts(cases):
    votes = [record(voter, vote_message(PLAIN_HEADER, voter)) for voter in (1, 2, 3)]
    in_three_ways(cases, 'a certificate of the node\'s own', record(0, header_message(PLAIN_HEADER)), votes[0], *votes[:2], 'flush', votes[2])
    cases.checkpoints_failing()
    events, _ = leader_by_one()
    in_three_ways(cases, 'an order of two leaders', *events, 'flush')
    cases.drive_failing('write')
    for call in ('sync', 'read', 'write', 'cut'):
        cases.pair_failing(call)
    cases.checkpoints_failing()
    events, made = late_certificates()
    late = events[17], record(3, header_message(made['c33']))
    in_three_ways(cases, 'an order over late certificates', *events, 'flush', *late, setting=Setting(depth=2))
    cases.checkpoints_failing()
    own = [record(0, batch_message(OWN_BATCH))] + [record(member, ack_message(OWN_BATCH, member)) for member in (1, 2)]
    named = Header('m', 0, 1, GENESIS, [OWN_BATCH])
    in_three_ways(cases, 'batches, and headers that name them', *own, own[0], record(2, batch_message(BATCH)), record(0, header_message(named)),
                  record(2, header_message(NAMING)), 'flush')


def full_groups(cases):
    for title, count, length, first in [('a group has 1,024 records at most', 1025, 4, 1024), ('a group has 4 MiB at most', 70, 60000, 69)]:
        cases.case(title, b'')
        cases.tell_batches(count, length)
        for frames in (first, count):
            cases.tell('flush')
            assert len(cases.drive().written) == 41 * frames


def faults(cases):
    for title, file in [('a damaged file', EMPTY[:-1] + b'\1'), ('damage of an event', behind(EVENT, EVENT)),
                        ('another configuration', journal([configuration(own=1)]))]:
        cases.case('no command is carried out: ' + title, file)
        cases.tell(EVENT, 'flush')
        cases.drive()


def main():
    assert len(EMPTY) == 168 and len(FIRST_VOTE) == 361 and len(EVENT) == 184 and EMPTY[1:5] == bytes.fromhex('000000a2')
    assert len(OLD_EMPTY) == 152 and len(OLD_VOTE) == 345 and OLD_EMPTY[1:5] == bytes.fromhex('00000092')
    cases = Cases()
    print("""# crates: recovery ref_script spec_records opening wire_write
# Openings of a node on hand-made journals, and scripts of commands. `oracles/recoveries.py` writes these cases.
# A case that begins with `node` or `file` is one of a node, whose `open`, `flush`, `stop` and `changes` are others than those
# of the disk, the journal and the book.""")
    empty_files(cases)
    configurations(cases)
    first_version(cases)
    events(cases)
    groups(cases)
    failures(cases)
    scripts(cases)
    longer_scripts(cases)
    full_groups(cases)
    stakes(cases)
    faults(cases)
    damages(cases, FIRST_VOTE, FORTY, '')
    damages(cases, OLD_VOTE, OLD_FORTY, ', in the first version')
    cases.case('each byte of a checkpoint to each other value', CHECKPOINT)
    cases.changes(0, len(CHECKPOINT) - 1, 255)


def damages(cases, vote, forty, version):
    """Journals of one event and of 39 that are cut, with each gate open and with one closed; the first one changed in each byte."""
    cases.case('cut to each length' + version, vote)
    cases.lengths(0, len(vote))
    cases.case('the same with a closed gate before the header' + version, closed(vote, 1))
    cases.lengths(gates(vote)[1], len(vote))
    cases.case('each byte to each other value' + version, vote)
    cases.changes(0, len(vote) - 1, 255)
    cases.case('a journal of forty records cut to each length' + version, forty)
    cases.lengths(0, len(forty))
    cases.case('the same with a closed gate before its fifth group' + version, closed(forty, 5))
    cases.lengths(gates(forty)[5], len(forty))


if __name__ == '__main__':
    main()
