#!/usr/bin/env python3
"""Records of checkpoints, and what loading each list of them is answered, computed without the node's code.

    oracles/checkpoints.py > CASES
    oracles/checkpoints.py --changes > CASES
    oracles/checkpoints.py --histories > CASES
    oracles/checkpoints.py --plays > CASES

The records are those of docs/FORMATS.md. `test_checkpoints` plays these cases. A list is judged in two ways that share nothing: its format by
reading each record, its soundness by what the node of oracles/histories.py holds of what was read. With --changes one byte of a list is
changed, with --plays validators are loaded from lists and given events, and with --histories they are loaded along histories. The cases for
allocations that fail are made by oracles/migrations.py --memory.
"""
import collections
import sys
from types import SimpleNamespace

sys.dont_write_bytecode = True
import areas
import histories
import recoveries
from histories import Header, u16, u32, u64
from recoveries import Fault, body, key, require, signed

WORKERS = 1
ORDER_PIECE, COINS_PIECE = 65536, 131072


class Committee:
    """The node's committee, and the node: its own number, the depth, how many batches it holds at most."""

    def __init__(self, stakes=(1, 1, 1, 1), own=0, depth=50, batches=1048576):
        self.stakes, self.own, self.depth, self.batches = list(stakes), own, depth, batches
        self.size, self.weigher = len(stakes), histories.Committee(list(stakes))

    def command(self):
        return 'node %d %d %d %s' % (self.own, self.depth, self.batches, ','.join(map(str, self.stakes)))

    def configuration(self, version=2):
        front = bytes([0, version]) + u16(self.own) + u16(self.depth) + u16(WORKERS) + u32(self.batches) + u16(self.size)
        front += b''.join(key(member) for member in range(self.size))
        return front + b''.join(map(u32, self.stakes)) if version > 1 else front

    def configurations(self):
        """Those that tell this committee: version 1 has no stakes."""
        return [self.configuration()] + ([self.configuration(1)] if set(self.stakes) == {1} else [])

    def records_of(self, node):
        """The records of a checkpoint of what a node holds, without a head."""
        return [self.configuration()] + state_records(node)

    def named_weight(self, numbers):
        """As the checks of a message weigh: whoever is no member counts 1."""
        return sum(self.stakes[number] if number < self.size else 1 for number in numbers)

    def is_quorum_weight(self, weight):
        return 3 * weight > 2 * sum(self.stakes)

    def passes_body(self, header):
        authors = [parent.author for parent in header.parents]
        return (self.is_quorum_weight(self.named_weight(authors)) and len(authors) <= self.size
                and all(author < self.size for author in authors) and all(b.worker < WORKERS for b in header.batches))

    def passes_batch(self, batch):
        return batch.author < self.size and batch.worker < WORKERS

    def passes_header(self, header):
        return self.own < self.size and header.author == self.own and self.passes_body(header)

    def passes_certificate(self, header, voters):
        return (header.author < self.size and self.passes_body(header) and self.is_quorum_weight(self.named_weight(voters))
                and all(voter < self.size for voter in voters))


# ---- records, as they are written

def order_piece(digests):
    return b'\3' + u32(len(digests)) + b''.join(digests)


def batch_record(batch, members=(), named=False):
    return b'\4' + bytes([named]) + u16(len(members)) + b''.join(map(u16, members)) + batch


def batch_body(author, transaction, worker=0):
    return u16(author) + u16(worker) + u32(1) + u32(len(transaction)) + transaction


def vote_record(author, round_, digest):
    return b'\5' + u16(author) + u64(round_) + digest


def entries(header, voters):
    return u16(len(voters)) + b''.join(u16(voter) + signed(voter, header.certificate) for voter in voters)


def header_record(header, voters=()):
    return b'\6' + body(header) + signed(header.author, header.digest) + entries(header, voters)


def certificate_record(header, voters=(0, 1, 2)):
    return b'\7' + body(header) + entries(header, voters)


def coins_piece(values):
    return b'\x08' + u32(len(values)) + b''.join(map(u64, values))


def head(generation):
    return b'\2' + u64(generation)


def state_records(node, own=histories.OWN):
    """The records of a checkpoint of what a node holds, after the configuration and the head. No piece is full."""
    ordered, floor, named = [one.certificate for one in node.order()], node.floor(), node.named()
    records = [order_piece(ordered)] if ordered else []
    for one in node.batches.values():
        records.append(batch_record(one.text, sorted(node.acked.get(one.digest, ())), one.digest in named))
    headers = [(slot, one) for slot, one in sorted(node.headers.items()) if slot[0] > floor]
    records += [vote_record(author, round_, one.digest) for (round_, author), one in headers if author != own]
    records += [header_record(one, sorted(node.counted[one.digest] - {own})) for (_, author), one in headers if author == own]
    certificates = [(slot, one) for slot, one in sorted(node.certificates.items()) if slot[0] >= max(floor, 1)]
    records += [certificate_record(one, node.voters[slot]) for slot, one in certificates]
    return records + ([coins_piece(node.coins)] if node.coins else [])


# ---- records, as they are read

class Reader(recoveries.Reader):
    def entries(self):
        return [int.from_bytes(voter, 'big') for voter, _ in self.rising(31, 2, lambda: self.bytes(64))]

    def piece(self, limit, width):
        count = self.count(4, limit)
        require(count)
        return [self.bytes(width) for _ in range(count)]

    def kept(self, kind, own):
        """What a record has after its kind, and its key among those of its kind."""
        if kind == 3:
            one = SimpleNamespace(values=self.piece(ORDER_PIECE, 32), full=ORDER_PIECE)
        elif kind == 8:
            one = SimpleNamespace(values=[int.from_bytes(v, 'big') for v in self.piece(COINS_PIECE, 8)], full=COINS_PIECE)
        elif kind == 4:
            named = self.count(1, 1)
            members = [self.number(2) for _ in range(self.number(2))]
            require(sorted(set(members) - {own}) == members)
            one = SimpleNamespace(named=named, members=members, batch=self.batch())
        elif kind == 5:
            author, round_ = self.number(2), self.round()
            one = SimpleNamespace(author=author, round=round_, digest=self.bytes(32), key=(round_, author))
        elif kind == 6:
            header = self.header()
            self.bytes(64)
            one = SimpleNamespace(header=header, voters=self.entries(), key=(header.round,))
            require(own not in one.voters)
        else:
            header = self.header()
            one = SimpleNamespace(header=header, voters=self.entries(), key=(header.round, header.author))
            require(header.round)
        require(self.place == len(self.text))
        return one


def read(records, own):
    """What the records have, each with its kind and place; of those that don't follow the format the first one's place is raised."""
    found = []
    for place, record in enumerate(records, 1):
        try:
            require(record and 3 <= record[0] <= 8 and (not found or found[-1].kind <= record[0]))
            before = found[-1] if found and found[-1].kind == record[0] else None
            if before and record[0] in (3, 8) and len(before.values) < before.full:
                raise Unsound(place - 1)
            one = Reader(record[1:]).kept(record[0], own)
            require(not before or record[0] not in (5, 6, 7) or before.key < one.key)
        except Fault:
            raise Unsound(place)
        one.kind, one.place = record[0], place
        found.append(one)
    return found


# ---- soundness

class Unsound(Exception):
    """The first record at fault, or none where the whole is."""

    def __init__(self, place=None):
        super().__init__(place)
        self.place = place

    def __str__(self):
        return '3 UnsoundWhole' if self.place is None else '2 Unsound %d' % self.place


class State:
    """What the records of a state have, and of what of it a test asks."""

    def __init__(self, committee, found):
        self.committee, self.found = committee, found
        self.node = histories.Node(committee.depth, committee.weigher)
        for one in self.of_kind(7):
            self.node.certificates[one.header.round, one.header.author] = one.header
        self.node.coins = [coin for one in self.of_kind(8) for coin in one.values]
        self.order = [digest for one in self.of_kind(3) for digest in one.values]

    def of_kind(self, kind):
        return [one for one in self.found if one.kind == kind]

    def is_batch_sound(self, one):
        others = [other.batch.digest for other in self.of_kind(4) if other.place < one.place]
        is_own = one.batch.author == self.committee.own
        return (self.committee.passes_batch(one.batch) and one.batch.digest not in others and len(others) < self.committee.batches
                and all(member < self.committee.size for member in one.members) and (is_own or not (one.members or one.named)))

    def is_vote_sound(self, one):
        return not self.node.is_low(one.round) and one.author < self.committee.size and one.author != self.committee.own

    def is_quorum(self, voters):
        members = set(voters) | {self.committee.own}
        return self.committee.is_quorum_weight(sum(self.committee.stakes[member] for member in members if member < self.committee.size))

    def is_completed_well(self, one):
        if not self.is_quorum(one.voters):
            return True
        held = self.node.certificates.get((one.header.round, self.committee.own))
        is_needed = [not self.is_quorum(set(one.voters) - {voter}) for voter in one.voters]
        return held is not None and body(held) == body(one.header) and any(is_needed)

    def is_header_sound(self, one):
        return (not self.node.is_low(one.header.round) and self.committee.passes_header(one.header) and self.node.holds_parents(one.header)
                and all(voter < self.committee.size for voter in one.voters) and self.is_completed_well(one))

    def is_certificate_sound(self, one):
        return (one.header.round >= self.node.floor() and self.committee.passes_certificate(one.header, one.voters)
                and self.node.holds_parents(one.header))

    def judge(self):
        tests = {4: self.is_batch_sound, 5: self.is_vote_sound, 6: self.is_header_sound, 7: self.is_certificate_sound}
        for one in self.found:
            if one.kind in tests and not tests[one.kind](one):
                raise Unsound(one.place)
        if bool(self.order) != (self.node.top() is not None):
            raise Unsound()


def load(committee, records):
    try:
        if not records or records[0] not in committee.configurations():
            raise Unsound(0)
        State(committee, read(records[1:], committee.own)).judge()
    except Unsound as unsound:
        return str(unsound)
    return 'Ok'


# ---- the case file

def spelled(record):
    """Hexadecimal digits, and of what stands there many times in a row its digits, a star and how often."""
    words, place, plain = [], 0, b''
    while place < len(record):
        for width in (1, 8, 32):
            piece, count = record[place:place + width], 1
            while len(piece) == width and record.startswith(piece, place + count * width):
                count += 1
            if count * width >= 512:
                words += [plain.hex()] if plain else []
                words.append('%s*%d' % (piece.hex(), count))
                place, plain = place + count * width, b''
                break
        else:
            plain += record[place:place + 1]
            place += 1
    return ' '.join(words + ([plain.hex()] if plain else []))


def packed(records):
    """How many bytes an area has that the records of a checkpoint are written to: the first two are a group, the others are packed."""
    groups = [records[:2]]
    for one in records[2:]:
        if len(groups) > 1 and recoveries.fits(groups[-1] + [one]):
            groups[-1].append(one)
        else:
            groups.append([one])
    return len(recoveries.journal(*groups))


def case(title, committee=Committee()):
    print('\n== ' + title)
    print('checkpoint')
    print(committee.command())


def loads(committee, *records, comment=None, front=None, expected):
    """A list of records, with what loading it is answered, which has to be what is expected of it by hand."""
    whole = [committee.configuration() if front is None else front] + list(records)
    answer = load(committee, whole)
    assert answer == expected, (comment, answer, expected)
    if comment:
        print('# ' + comment)
    for record in whole[1:] if front is None else whole:
        print('record : ' + spelled(record))
    print('load' if front is None else 'load-all')
    print('> ' + answer)


def at(place):
    return '2 Unsound %d' % place


WHOLE = '3 UnsoundWhole'


class Ledger:
    """Headers with their parents, by label."""

    def __init__(self, size=4):
        self.size, self.headers = size, {'g%d' % a: Header('g%d' % a, a, 0, [], []) for a in range(size)}

    def header(self, author, round_, parents=None, batches=()):
        names = parents if parents is not None else [('g%d' % a if round_ == 1 else 'c%d.%d' % (a, round_ - 1)) for a in range(self.size - (self.size - 1) // 3)]
        header = Header('c%d.%d' % (author, round_), author, round_, [self.headers[name] for name in names], list(batches))
        self.headers[header.label] = header
        return header

    def rounds(self, first, last, authors=None):
        """Certificates of these rounds, each over those of the round before."""
        return [self.header(author, round_) for round_ in range(first, last + 1) for author in (authors or range(self.size))]


def batch_of(record_body):
    """A batch as a header names it."""
    return SimpleNamespace(digest=histories.sha(b'B', record_body), worker=int.from_bytes(record_body[2:4], 'big'))


def digest(number):
    return bytes([number]) * 32


# ---- examples

def examples():
    committee, ledger = Committee(), Ledger()
    one = ledger.header(1, 1)
    vote = vote_record(1, 1, one.digest)
    case('a vote for a peer, in an area of 233 bytes')
    records = [committee.configuration(), head(1), vote]
    assert [len(record) for record in records] == [158, 9, 43] and packed(records) == 233
    print('record-of-configuration\n> %s' % committee.configuration().hex())
    print('record-of-head 1\n> %s' % head(1).hex())
    loads(committee, vote, expected='Ok')

    case('an own header with a vote')
    own = Ledger().header(0, 1)
    loads(committee, vote, header_record(own, [1]), expected='Ok')

    case('an own batch with an acknowledgement and the mark, and a batch of a peer')
    mine, other = batch_body(0, b'ab'), batch_body(1, b'cd')
    naming = Ledger().header(0, 1, batches=[batch_of(mine)])
    loads(committee, batch_record(mine, [1, 2], True), batch_record(other), header_record(naming), expected='Ok')

    case('a leader with its order and the coins')
    loads(committee, *leader_records(), expected='Ok')

    case('nothing')
    loads(committee, expected='Ok')
    loads(committee, front=committee.configuration(1), expected='Ok', comment='version 1 tells it too')


def leader_records():
    """Rounds 1 to 3 with the coin of wave 1, whose leader is member 1's: the order is its certificate."""
    headers = Ledger().rounds(1, 3)
    ordered = [headers[1].certificate]
    return [order_piece(ordered)] + [certificate_record(header) for header in headers] + [coins_piece([1])]


# ---- bad format

def formats():
    committee = Committee()
    vote = vote_record(1, 1, digest(1))
    peer = batch_record(batch_body(1, b'cd'))
    case('no record, or not the configuration')
    print('load-none\n> %s' % load(committee, []))
    assert load(committee, []) == at(0)
    for other in (Committee(own=1), Committee(depth=49), Committee(batches=1), Committee(stakes=(1, 1, 1, 2)), Committee(stakes=(1,) * 7)):
        loads(committee, vote, front=other.configuration(), expected=at(0))
    text = committee.configuration()
    loads(committee, vote, front=changed(text, 14 + 3 * 32, 9), expected=at(0), comment='another key')
    loads(committee, vote, front=changed(text, 7, WORKERS + 1), expected=at(0), comment='another number of workers')
    loads(committee, vote, front=head(1), expected=at(0), comment='a head')
    loads(committee, vote, front=vote, expected=at(0), comment='a record of the state')
    loads(committee, vote, front=b'', expected=at(0), comment='an empty record')
    loads(committee, vote, front=committee.configuration() + b'\0', expected=at(0))
    loads(committee, vote, front=committee.configuration(3), expected=at(0))
    unlike = Committee(stakes=(1, 1, 1, 2))
    case('version 1 does not tell stakes that are not all 1', unlike)
    loads(unlike, front=unlike.configuration(1), expected=at(0))

    case('kinds')
    loads(committee, head(1), vote, expected=at(1), comment='a head')
    loads(committee, vote, head(1), expected=at(2))
    loads(committee, vote, peer, expected=at(2), comment='out of order')
    loads(committee, coins_piece([1]), vote, expected=at(2))
    for kind in (0, 1, 9, 255):
        loads(committee, vote, bytes([kind]) + vote[1:], expected=at(2), comment='another kind')
    loads(committee, vote, b'', expected=at(2), comment='an empty record')
    loads(committee, vote, committee.configuration(), expected=at(2))

    pieces_of_order(committee)
    pieces_of_coins(committee)
    counts(committee)
    keys(committee)
    members(committee)
    limits(committee)


def pieces_of_order(committee):
    full, vote = order_piece([digest(7)] * ORDER_PIECE), vote_record(1, 1, digest(1))
    case('pieces of the order')
    loads(committee, order_piece([]), expected=at(1), comment='empty')
    loads(committee, order_piece([digest(7)] * (ORDER_PIECE - 1)), order_piece([digest(7)]), expected=at(1), comment='not full and not the last')
    loads(committee, order_piece([digest(7)] * (ORDER_PIECE + 1)), expected=at(1), comment='one digest too many')
    loads(committee, full, order_piece([digest(7)]), expected=WHOLE, comment='full, and the last: the format is right')
    loads(committee, full, order_piece([]), expected=at(2), comment='an empty one after a full one')
    loads(committee, order_piece([digest(7)]), vote, order_piece([digest(7)]), expected=at(3), comment='out of order: the first piece is the last of those in turn')
    loads(committee, order_piece([digest(7)]), order_piece([]), expected=at(1), comment='one more comes after it, whatever it has')


def pieces_of_coins(committee):
    full, vote = coins_piece([5] * COINS_PIECE), vote_record(1, 1, digest(1))
    case('pieces of the coins')
    loads(committee, coins_piece([]), expected=at(1), comment='empty')
    loads(committee, vote, coins_piece([5] * (COINS_PIECE - 1)), coins_piece([5]), expected=at(2), comment='not full and not the last')
    loads(committee, coins_piece([5] * (COINS_PIECE + 1)), expected=at(1), comment='one value too many')
    loads(committee, full, coins_piece([5]), expected='Ok', comment='full, and the last')


def counts(committee):
    mine, own, held = batch_record(batch_body(0, b'ab'), [1, 2]), header_record(Ledger().header(0, 1), [1]), certificate_record(Ledger().header(1, 1))
    texts = [order_piece([digest(7)]), mine, vote_record(1, 1, digest(1)), own, held, coins_piece([5])]
    case('a byte less, and a byte more')
    for text in texts:
        loads(committee, text[:-1], expected=at(1))
        loads(committee, text + b'\0', expected=at(1))
        loads(committee, text[:1], expected=at(1))
    case('a count that the bytes do not have')
    loads(committee, b'\3' + u32(2) + digest(7), expected=at(1))
    loads(committee, b'\x08' + u32(2) + u64(5), expected=at(1))
    loads(committee, b'\4\0' + u16(3) + mine[4:], expected=at(1))
    loads(committee, mine[:-10] + u32(2) + mine[-6:], expected=at(1), comment='transactions')
    loads(committee, own[:-68] + u16(2) + own[-66:], expected=at(1), comment='votes on an own header')
    loads(committee, own[:13] + u16(4) + own[15:], expected=at(1), comment='its parents')
    loads(committee, held[:-200] + u16(4) + held[-198:], expected=at(1), comment='votes of a certificate')
    loads(committee, held[:-200] + u16(2) + held[-198:], expected=at(1), comment='fewer than there are')
    loads(committee, held[:13] + u16(4) + held[15:], expected=at(1), comment='its parents')
    case('the mark')
    loads(committee, b'\4\2' + mine[2:], expected=at(1), comment='02')
    loads(committee, b'\4\1' + mine[2:], expected='Ok')


def keys(committee):
    votes = {(a, r): vote_record(a, r, digest(a)) for a in (1, 2) for r in (1, 2)}
    case('votes rise by round and author')
    loads(committee, votes[1, 1], votes[2, 1], votes[1, 2], expected='Ok')
    loads(committee, votes[2, 1], votes[1, 1], expected=at(2), comment='falling authors')
    loads(committee, votes[1, 2], votes[2, 1], expected=at(2), comment='falling rounds')
    loads(committee, votes[1, 1], vote_record(1, 1, digest(9)), expected=at(2), comment='equal')
    ledger = Ledger()
    held = ledger.rounds(1, 2)
    certificates = [certificate_record(header) for header in held]
    case('certificates rise by round and author')
    loads(committee, *certificates, expected='Ok')
    loads(committee, certificates[1], certificates[0], expected=at(2), comment='falling authors')
    loads(committee, certificates[4], certificates[1], expected=at(2), comment='falling rounds')
    loads(committee, certificates[0], certificates[0], expected=at(2), comment='equal')
    loads(committee, certificate_record(Ledger().headers['g0']), expected=at(1), comment='a certificate of round 0')
    own = [header_record(ledger.header(0, round_)) for round_ in (1, 2)]
    case('own headers rise by round')
    loads(committee, own[0], own[1], *certificates[:3], expected='Ok')
    loads(committee, own[1], own[0], *certificates[:3], expected=at(2), comment='falling')
    loads(committee, own[0], own[0], expected=at(2), comment='equal')


def members(committee):
    mine, header = batch_body(0, b'ab'), Ledger().header(0, 1)
    case('who acknowledged, and who voted')
    for numbers in ([2, 1], [1, 1], [0], [0, 1], [1, 0]):
        loads(committee, batch_record(mine, numbers), expected=at(1), comment='members %s' % numbers)
        loads(committee, header_record(header, numbers), expected=at(1), comment='votes %s' % numbers)
    loads(committee, certificate_record(Ledger().header(1, 1), [0, 1, 1]), expected=at(1), comment='a voter of a certificate twice')
    loads(committee, certificate_record(Ledger().header(1, 1), [2, 1, 0]), expected=at(1), comment='and falling ones')


def limits(committee):
    case('limits of the wire')
    long = [bytes(65536)] * 7 + [bytes(41208)]
    text = u16(1) + u16(0) + u32(len(long)) + b''.join(u32(len(one)) + one for one in long)
    assert len(text) == 500000
    loads(committee, batch_record(text), expected='Ok', comment='a batch of 500,000 bytes')
    more = long[:-1] + [bytes(41209)]
    text = u16(1) + u16(0) + u32(len(more)) + b''.join(u32(len(one)) + one for one in more)
    loads(committee, batch_record(text), expected=at(1), comment='one byte more')
    loads(committee, batch_record(batch_body(1, bytes(65537))), expected=at(1), comment='a transaction of 65,537 bytes')
    many = sorted((batch_of(batch_body(1, u16(number))) for number in range(129)), key=lambda batch: batch.digest)
    loads(committee, header_record(Ledger().header(0, 1, batches=many)), expected=at(1), comment='129 batches')
    loads(committee, certificate_record(Ledger().header(1, 1, batches=many)), expected=at(1))
    loads(committee, header_record(Ledger(32).header(0, 1, ['g%d' % a for a in range(32)])), expected=at(1), comment='32 parents')
    loads(committee, certificate_record(Ledger().header(1, 1), range(32)), expected=at(1), comment='32 votes')
    loads(committee, vote_record(1, 2 ** 48, digest(1)), expected='Ok', comment='the greatest round')
    loads(committee, vote_record(1, 2 ** 48 + 1, digest(1)), expected=at(1), comment='and one more')


# ---- bad batches and votes

def batches():
    committee, small = Committee(), Committee(batches=2)
    mine, other = batch_body(0, b'ab'), batch_body(1, b'cd')
    case('batches')
    loads(committee, batch_record(mine), batch_record(batch_body(4, b'ab')), expected=at(2), comment='of a sender that is no member')
    loads(committee, batch_record(batch_body(1, b'ab', 1)), expected=at(1), comment='of a worker too many')
    loads(committee, batch_record(mine), batch_record(other), batch_record(mine), expected=at(3), comment='one digest twice')
    loads(committee, batch_record(other, [2]), expected=at(1), comment='a member at a peer\'s batch')
    loads(committee, batch_record(other, [], True), expected=at(1), comment='the mark at one')
    loads(committee, batch_record(mine, [1, 4]), expected=at(1), comment='the number of no member')
    loads(committee, batch_record(mine, [1, 2, 3], True), expected='Ok')
    case('one batch more than there is room for', small)
    loads(small, batch_record(mine), batch_record(other), expected='Ok')
    loads(small, batch_record(mine), batch_record(other), batch_record(batch_body(2, b'ef')), expected=at(3))


def votes():
    committee = Committee()
    case('votes for peers')
    loads(committee, vote_record(1, 0, digest(1)), vote_record(1, 1, digest(1)), expected=at(1), comment='of round 0')
    loads(committee, vote_record(4, 1, digest(1)), expected=at(1), comment='for no member')
    loads(committee, vote_record(0, 1, digest(1)), expected=at(1), comment='for the node itself')
    low, floor = Committee(depth=2), above_a_floor()
    case('votes of low rounds, over a floor of 3', low)
    loads(low, floor.order, vote_record(1, 3, digest(1)), *floor.certificates, floor.coins, expected=at(2))
    loads(low, floor.order, vote_record(1, 4, digest(1)), *floor.certificates, floor.coins, expected='Ok')


# ---- bad own headers

def headers():
    committee = Committee()
    fine = Ledger().header(0, 1)
    case('own headers')
    loads(committee, header_record(Ledger().header(0, 0, ['g0', 'g1', 'g2'])), expected=at(1), comment='of round 0')
    loads(committee, header_record(Ledger().header(1, 1)), expected=at(1), comment='of another author')
    loads(committee, header_record(Ledger().header(0, 1, ['g0', 'g1'])), expected=at(1), comment='too few parents')
    absent = Ledger()
    absent.rounds(1, 1)
    loads(committee, header_record(absent.header(0, 2)), expected=at(1), comment='parents that are not held')
    loads(committee, header_record(fine, [1, 4]), expected=at(1), comment='the number of no member')
    low, floor = Committee(depth=2), above_a_floor()
    case('own headers of low rounds, over a floor of 3', low)
    for round_, expected in ((3, at(2)), (4, 'Ok'), (5, 'Ok')):
        own = floor.ledger.headers['c0.%d' % round_]
        loads(low, floor.order, header_record(own), *floor.certificates, floor.coins, expected=expected, comment='round %d' % round_)
    quorums('votes on an own header', committee, [1], [1, 2], [1, 2, 3])
    quorums('votes on an own header, by stakes', Committee((3, 1, 1, 1)), [1], [1, 2], [1, 2, 3])
    quorums('votes on an own header, of seven members', Committee((1,) * 7), [1, 2, 3], [1, 2, 3, 4], [1, 2, 3, 4, 5])


def quorums(title, committee, fewer, enough, more):
    """The votes before a quorum, those that are one, and one more, with which none is needed."""
    parents = range(len(committee.stakes) - (len(committee.stakes) - 1) // 3)
    ledger = Ledger(committee.size)
    own = ledger.header(0, 1)
    text = batch_body(1, b'cd')
    other = Ledger(committee.size).header(0, 1, batches=[batch_of(text)])
    held, another = certificate_record(own, parents), certificate_record(other, parents)
    case(title, committee)
    loads(committee, header_record(own), expected='Ok', comment='none')
    loads(committee, header_record(own, fewer), expected='Ok', comment='fewer than a quorum, without the certificate')
    loads(committee, header_record(own, fewer), held, expected='Ok', comment='and with it')
    loads(committee, header_record(own, fewer), another, expected='Ok', comment='and with another one')
    loads(committee, header_record(own, enough), expected=at(1), comment='a quorum, without the certificate')
    loads(committee, header_record(own, enough), another, expected=at(1), comment='with another header\'s')
    loads(committee, header_record(own, enough), held, expected='Ok', comment='with the header\'s own')
    loads(committee, header_record(own, more), held, expected=at(1), comment='one more, so none of them is needed')


# ---- bad certificates

def above_a_floor():
    """Rounds 3 to 6 over a depth of 2: the leader of wave 3, whose round is 5, is committed, so the floor is 3."""
    ledger = Ledger()
    ledger.rounds(1, 2)
    headers = ledger.rounds(3, 6)
    return SimpleNamespace(ledger=ledger, order=order_piece([digest(7)]), headers=headers,
                           certificates=[certificate_record(header) for header in headers], coins=coins_piece([9, 9, 1]))


def certificates():
    low, floor = Committee(depth=2), above_a_floor()
    below = certificate_record(floor.ledger.headers['c1.2'])
    case('certificates over a floor of 3', low)
    loads(low, floor.order, *floor.certificates, floor.coins, expected='Ok', comment='those of round 3 name parents that are not held')
    loads(low, floor.order, below, *floor.certificates, floor.coins, expected=at(2), comment='one of round 2')
    loads(low, floor.order, *floor.certificates[1:], floor.coins, expected='Ok', comment='round 4 has a parent at the floor that is not held')
    loads(low, floor.order, *floor.certificates[:4], *floor.certificates[5:], floor.coins, expected=at(9), comment='round 5 has one above it that is not held')
    committee = Committee()
    fine = Ledger().header(1, 1)
    case('certificates')
    loads(committee, certificate_record(fine, [0, 1]), expected=at(1), comment='too few votes')
    loads(committee, certificate_record(fine, [0, 1, 4]), expected=at(1), comment='the number of no member')
    loads(committee, certificate_record(Ledger(5).header(4, 1, ['g0', 'g1', 'g2'])), expected=at(1), comment='of no member')
    loads(committee, certificate_record(Ledger().header(1, 1, ['g0', 'g1'])), expected=at(1), comment='too few parents')
    absent = Ledger()
    absent.rounds(1, 1)
    loads(committee, certificate_record(absent.header(1, 2)), expected=at(1), comment='parents that are not held')
    stakes = Committee((3, 1, 1, 1))
    case('certificates, by stakes', stakes)
    loads(stakes, certificate_record(fine, [0, 1, 2]), expected='Ok')
    loads(stakes, certificate_record(fine, [0, 1]), expected=at(1), comment='4 of 6')
    loads(stakes, certificate_record(fine, [1, 2, 3]), expected=at(1), comment='3 of 6')


# ---- the whole, and two faults

def wholes():
    committee, records = Committee(), leader_records()
    vote = vote_record(1, 1, digest(1))
    case('the whole')
    loads(committee, *records[1:], expected=WHOLE, comment='a leader and no order')
    loads(committee, *records[:-1], expected=WHOLE, comment='an order and no leader')
    loads(committee, order_piece([digest(7)]), expected=WHOLE)
    loads(committee, *records[1:-1], expected='Ok', comment='neither')
    loads(committee, records[0], *records[1:], expected='Ok', comment='both')
    stakes = Committee((3, 1, 1, 1))
    case('a leader that stakes commit', stakes)
    loads(stakes, *supported_once(), expected='Ok', comment='member 0 alone names it')
    case('and equal stakes do not')
    loads(committee, *supported_once(), expected=WHOLE)
    case('two faults')
    loads(committee, vote_record(4, 1, digest(1)), vote_record(0, 2, digest(1)), expected=at(1), comment='the first by place')
    loads(committee, vote_record(4, 1, digest(1)), vote, expected=at(2), comment='format before soundness, and before the place')
    loads(committee, vote_record(0, 1, digest(1)), vote, vote, expected=at(3))
    loads(committee, order_piece([digest(7)]), vote_record(4, 1, digest(1)), expected=at(2), comment='a record before the whole')


def supported_once():
    """Rounds 1 to 3, in which member 0's certificate of round 2 alone names the leader, member 1's of round 1."""
    ledger = Ledger()
    first = [ledger.header(author, 1) for author in range(4)]
    second = [ledger.header(0, 2, ['c0.1', 'c1.1', 'c2.1'])] + [ledger.header(author, 2, ['c0.1', 'c2.1', 'c3.1']) for author in (1, 2)]
    third = [ledger.header(author, 3) for author in range(3)]
    return [order_piece([first[1].certificate])] + [certificate_record(one) for one in first + second + third] + [coins_piece([1])]


# ---- one byte changed

def changed(record, index, value):
    return record[:index] + bytes([value]) + record[index + 1:]


def changes(committee, *records, has):
    """How often which answer comes where a byte of a list is changed to a value that this has."""
    whole, counts = [committee.configuration()] + list(records), collections.Counter()
    assert load(committee, whole) == 'Ok'
    for place, record in enumerate(whole):
        for index, byte in enumerate(record):
            for value in (value for value in range(256) if has(byte, value)):
                counts[load(committee, whole[:place] + [changed(record, index, value)] + whole[place + 1:])] += 1
    for record in records:
        print('record : ' + spelled(record))
    print('change-values' if has is is_other else 'change-bits')
    print('> lists: %d' % sum(counts.values()))
    for answer in ['Ok', *(at(place) for place in range(len(whole))), WHOLE]:
        if counts[answer]:
            print('> %s: %d' % (answer, counts[answer]))


def is_other(byte, value):
    return byte != value


def is_one_bit(byte, value):
    return (byte ^ value).bit_count() == 1


def every_change():
    """Each byte of three checkpoints changed to each other value; and one bit of a longer one."""
    committee, two, stakes = Committee(), Committee((4, 4, 1, 1)), Committee((3, 1, 1, 1))
    own, batches = short_records()
    case('a configuration, a vote, and an own header with a vote', committee)
    changes(committee, *own, has=is_other)
    case('an own batch with acknowledgements and the mark, a batch of a peer, and a certificate', committee)
    changes(committee, *batches, has=is_other)
    case('a leader with its order, its supporter, and the coins, where members 0 and 1 are a quorum', two)
    changes(two, *two_certify(), has=is_other)
    case('a leader with its order, its supporter, and the coins', stakes)
    changes(stakes, *one_supporter(), has=is_one_bit)


def short_records():
    """A vote and an own header with a vote; two batches and a certificate."""
    own, mine, other = Ledger().header(0, 1), batch_body(0, b'ab'), batch_body(1, b'cd')
    return ([vote_record(1, 1, digest(7)), header_record(own, [1])],
            [batch_record(mine, [1, 2], True), batch_record(other), certificate_record(Ledger().header(1, 1))])


def two_certify():
    """A leader of wave 1 and its order, where the stakes 4, 4, 1, 1 let members 0 and 1 certify: two certificates of round 1, one of 2."""
    ledger = Ledger()
    first = [ledger.header(author, 1, ['g0', 'g1']) for author in (0, 1)]
    second = ledger.header(0, 2, ['c0.1', 'c1.1'])
    return [order_piece([first[0].certificate])] + [certificate_record(one, [0, 1]) for one in first + [second]] + [coins_piece([0])]


def one_supporter():
    """A leader of wave 1 and its order, where the stakes 3, 1, 1, 1 let member 0's certificate of round 2 commit it."""
    ledger = Ledger()
    first = ledger.rounds(1, 1, [0, 1, 2])
    second = ledger.header(0, 2)
    return [order_piece([first[1].certificate])] + [certificate_record(one) for one in first + [second]] + [coins_piece([1])]


# ---- events after a list

class Loaded(histories.Node):
    """A node that goes on from the records of a checkpoint. What its order has does not have to come from its certificates: to it the
    rules add what new leaders order after the last one."""

    def __init__(self, committee, records):
        super().__init__(committee.depth, committee.weigher)
        state = State(committee, read(records, committee.own))
        self.whole, self.coins = list(state.order), state.node.coins
        for one in state.of_kind(4):
            self.batches[one.batch.digest], self.acked[one.batch.digest] = one.batch, set(one.members)
        for one in state.of_kind(5):
            self.headers[one.round, one.author] = SimpleNamespace(digest=one.digest, label=one.digest.hex(), batches=[])
        for one in state.of_kind(6):
            self.headers[one.header.round, committee.own] = one.header
            self.counted[one.header.digest] = {committee.own, *one.voters}
        for one in state.of_kind(7):
            self.certificates[one.header.round, one.header.author], self.voters[one.header.round, one.header.author] = one.header, one.voters

    def grown(self, before):
        after, start = self.order(), len(self.whole)
        assert after[:len(before)] == before
        added = [one.certificate for one in after[len(before):]]
        self.whole += added
        return ['order %d %s' % (start, ' '.join(one.hex() for one in added))] if added else []


def told(node, answer):
    """The lines of an answer, where digests stand for labels."""
    word, outputs = answer
    lines = [word if word.startswith('refused') else word.split()[0]]
    for kind, label, *rest in map(str.split, outputs):
        if kind == 'order':
            what = ' '.join([label, *rest])
        elif kind == 'certificate':
            slot = next(slot for slot, one in node.certificates.items() if one.label == label)
            what = ' '.join([node.certificates[slot].certificate.hex(), *map(str, node.voters[slot])])
        else:
            held = [*node.batches.values(), *node.headers.values()]
            what = next(one.digest.hex() for one in held if one.label == label)
        lines.append('out %s %s' % (kind, what))
    return lines


class Events:
    """The events of a play, as lines, and what they are answered by the rules."""

    def __init__(self, committee, *records):
        self.committee, self.records, self.node = committee, list(records), Loaded(committee, records)
        self.lines, self.answers, self.formed = [], [], {'g%d' % member for member in range(committee.size)}

    def form(self, header):
        for parent in header.parents:
            if parent.label not in self.formed:
                self.form(parent)
        self.formed.add(header.label)
        parents = ','.join(named(parent) for parent in header.parents)
        self.lines.append('form %s %d %d %s -' % (named(header), header.author, header.round, parents))

    def event(self, word, header, answer, more=''):
        if header.label not in self.formed:
            self.form(header)
        self.lines.append('%s %s%s' % (word, named(header), more))
        self.answers += told(self.node, answer)

    def header(self, header):
        self.event('header', header, self.node.header(header))

    def vote(self, header, member):
        self.event('vote', header, self.node.vote(header, member), ' %d' % member)

    def cert(self, header, voters=(0, 1, 2)):
        self.event('cert', header, self.node.certificate(header, list(voters)), ' ' + ','.join(map(str, voters)))

    def coin(self, wave, value):
        self.lines.append('coin %d %d' % (wave, value))
        self.answers += told(self.node, self.node.coin(self.committee.own, wave, value))

    def tell(self, command='play', kept=None):
        """Plays them, on the list or from the genesis on. Then the node keeps these records, where they are given."""
        for record in self.records:
            print('record : ' + spelled(record))
        for line in self.lines:
            print('event ' + line)
        print(command if kept is None else command + ' records area')
        for answer in self.answers:
            print('> ' + answer)
        if kept is not None:
            tell_kept([self.committee.configuration()] + kept)


def tell_kept(records):
    """The records of a checkpoint, and an area that was rewritten to it."""
    for record in records:
        print('> record ' + record.hex())
    area = areas.checkpoint(records, 1)
    print('> area %d : %s' % (len(area), area.hex()))


def named(header):
    """A label as scripts have it."""
    return header.label.replace('.', 'r')


def all_plays():
    committee, one = Committee(), Ledger().header(1, 1)
    case('a header of a peer, and then an area of 233 bytes', committee)
    events, kept = Events(committee), [vote_record(1, 1, one.digest)]
    assert len(areas.checkpoint([committee.configuration()] + kept, 1)) == 233
    events.header(one)
    events.tell('play-new', kept)
    case('the same in two steps', committee)
    events = Events(committee, *kept)
    events.header(one)
    events.tell(kept=kept)
    for title, records in samples():
        case(title, committee)
        Events(committee, *records).tell(kept=records)
    votes_on_loaded(committee)
    orders_of_loaded()


def samples():
    mine, other = batch_body(0, b'ab'), batch_body(1, b'cd')
    own = Ledger().header(0, 1, batches=[batch_of(mine)])
    batches = [batch_record(mine, [1, 2], True), batch_record(other)]
    return [('no record', []), ('batches, and an own header that names one', batches + [header_record(own, [3])]),
            ('a leader with its order and the coins', leader_records())]


def every_kind():
    """Records of every kind, for a play in which allocations fail."""
    mine, vote = batch_body(0, b'ab'), vote_record(1, 4, digest(9))
    order, *certificates, coins = leader_records()
    ledger = Ledger()
    ledger.rounds(1, 3)
    own = header_record(ledger.header(0, 4), [1])
    return [order, batch_record(mine, [1, 2]), batch_record(batch_body(1, b'cd')), vote, own, *certificates, coins]


def votes_on_loaded(committee):
    own = Ledger().header(0, 1)
    case('votes on an own header after it was loaded', committee)
    events = Events(committee, header_record(own, [1]))
    events.vote(own, 1)
    events.vote(own, 2)
    events.vote(own, 3)
    events.header(own)
    events.tell()
    case('a header of a peer after a vote for another one was loaded', committee)
    one, another = Ledger().header(1, 1), Ledger().header(1, 1, ['g1', 'g2', 'g3'])
    another.label = 'another'
    events = Events(committee, vote_record(1, 1, one.digest))
    events.header(one)
    events.header(another)
    events.tell()


def orders_of_loaded():
    """States of no history: a leader is committed, and the order is one digest, which isn't the leader's."""
    committee, ledger = Committee(), Ledger()
    first = ledger.rounds(1, 3)
    case('an order that has not the committed leader', committee)
    events = Events(committee, order_piece([digest(7)]), *map(certificate_record, first), coins_piece([1]))
    for header in ledger.rounds(4, 5, [0, 1, 2]):
        events.cert(header)
    events.coin(2, 1)
    events.tell()
    low, floor = Committee(depth=2), above_a_floor()
    case('the same above a floor', low)
    events = Events(low, floor.order, *floor.certificates, floor.coins)
    for header in floor.ledger.rounds(7, 9, [0, 1, 2]):
        events.cert(header)
    events.coin(4, 2)
    events.tell()
    stakes = Committee((3, 1, 1, 1))
    case('one certificate that commits a leader', stakes)
    support, others = one_supporter(), Ledger()
    others.rounds(1, 1, [0, 1, 2])
    last = others.header(0, 2)
    events = Events(stakes, *support[1:4], coins_piece([1]))
    events.cert(last)
    events.tell()


HEAD = """# crates: spec_checkpoint ref_checkpoint checkpoint validator
# Records of checkpoints, and what loading each list is answered: `oracles/checkpoints.py` writes these cases from the formats alone.
# Bytes are hexadecimal digits, and these with a star and how often.
# checkpoint begins a case of these. node: the own number, the depth, how many batches it holds at most, the stake of each member,
# whose key is 32 bytes of its number and one. record: one more record of a list, after its colon. load: what the list is answered,
# after the node's configuration in version 2; load-all: the first record is the list's own; load-none: of no record. Each ends the
# list. record-of-configuration and record-of-head: these records.
# A validator is loaded from each list, too, at once and record by record: it answers the same, and keeps the records of the list."""

HEAD_OF_CHANGES = """# crates: ref_checkpoint checkpoint validator
# Lists of a checkpoint's records in which one byte is changed, and how often loading them is answered what:
# `oracles/checkpoints.py --changes` writes these cases. change-values: each byte of the list, of which the configuration is the
# first record, is changed to each other value, change-bits: to each that differs in one bit. See checkpoints.cases for the other
# commands."""

HEAD_OF_PLAYS = """# crates: checkpoint validator
# Validators that are loaded from lists of a checkpoint's records, and given events: `oracles/checkpoints.py --plays` writes
# these cases. event: one more event, or what it is formed of. play: what they are answered after the list, and where it is asked
# for, the records that the validator keeps then, and an area that is rewritten to its checkpoint; play-new: the same from the
# genesis on. See checkpoints.cases for the other commands."""

HEAD_OF_HISTORIES = """# crates: checkpoint validator
# Histories of events, with what each is answered and what is then kept and ordered: `oracles/checkpoints.py --histories` writes
# these cases. They are the histories of test_parts. Before every fifth event one more validator is loaded from the records of the
# one that takes all events, and takes the next fifty, or as many as there are: it has to answer as that one does, and to have the
# same records after them. loads: how many validators were loaded in all histories, how many took fifty events, and how many answers
# the loaded ones gave."""


def memory():
    committee, records = Committee(), every_kind()
    case('records of every kind', committee)
    Events(committee, *records).tell(kept=records)


# The histories, and between how many events a validator is loaded that takes so many.
HISTORIES = ['3 2 300', '3 50 300', '9 2 300', '46 2 200 3,1,1,1', '87 3 200 5,4,3,2,1,1,1']
BETWEEN_LOADS, TAKEN_BY_LOADED = 5, 50


def all_histories():
    """The histories, and how many validators are loaded along them."""
    left = []
    for line in HISTORIES:
        start, depth, events, *stakes = line.split()
        weights = list(map(int, (stakes or ['1,1,1,1'])[0].split(',')))
        drawn = histories.history(int(start), int(depth), int(events), histories.Committee(weights))
        print()
        histories.tell_title(drawn, int(depth), stakes, line)
        histories.tell_all(drawn, int(depth), stakes)
        left += [drawn.given - place for place in range(0, drawn.given, BETWEEN_LOADS)]
    print('\n== how many validators were loaded')
    print('loads\n> loaded %d, with %d events %d, answers %d' % (
        len(left), TAKEN_BY_LOADED, sum(events >= TAKEN_BY_LOADED for events in left), sum(min(events, TAKEN_BY_LOADED) for events in left)))


FILES = {
    '': (HEAD, examples, formats, batches, votes, headers, certificates, wholes),
    '--changes': (HEAD_OF_CHANGES, every_change),
    '--histories': (HEAD_OF_HISTORIES, all_histories),
    '--plays': (HEAD_OF_PLAYS, all_plays),
}


def main():
    head, *parts = FILES[''.join(sys.argv[1:])]
    print(head)
    for write in parts:
        write()


if __name__ == '__main__':
    main()
