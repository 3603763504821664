#!/usr/bin/env python3
"""Prints what `narwhal-bench` without words has to print, as this program computes it by the rules of docs/FORMATS.md and docs/RULES.md.

    oracles/works.py | diff - crates/node_bench/stdout

It shares nothing with the code of the repository. The committee has four members, of which the node is number 0.
"""
import hashlib

MEMBERS, VOTERS, RING = 4, 3, 16
BLOCK = b'0123456789abcdefghijklmnopqrstuvwxyzABCDEFGHIJKLMNOPQRSTUVWXYZ-_'
UNSIGNED = bytes(64)
# What stands for the digest of an event that has none.
STAND_IN = b'\7' * 32
RECORDS = 1024
# Rounds that a validator is given without coins.
FEW = 8
# Rounds that are ordered below a leader.
DEPTH = 50


def sha(text):
    return hashlib.sha256(text).digest()


def u16(number):
    return number.to_bytes(2, 'big')


def u32(number):
    return number.to_bytes(4, 'big')


def u64(number):
    return number.to_bytes(8, 'big')


def sign(member, digest):
    key = bytes([member + 1]) * 32
    return sha(b'S' + key + digest) + sha(b'T' + key + digest)


def certificate_digest(header, round_, author):
    return sha(b'C' + header + u64(round_) + u16(author))


class Fold:
    """The sum over results."""

    def __init__(self):
        self.value = 14695981039346656037

    def add(self, *numbers):
        for number in numbers:
            self.value = (self.value ^ number) * 1099511628211 % 2 ** 64

    def add_bytes(self, *several):
        for text in several:
            self.add(len(text))
            if len(text) >= 8:
                self.add(int.from_bytes(text[:8], 'big'))


class Header:
    """What an author proposes over some parents, as header and as certificate."""

    def __init__(self, author, round_, parents, is_signed=False):
        self.author, self.round, self.parents = author, round_, parents
        self.body = u16(author) + u64(round_) + u16(0) + u16(len(parents)) + b''.join(u16(a) + d for a, d in parents)
        self.digest = sha(b'H' + self.body)
        self.certificate = certificate_digest(self.digest, round_, author)
        self.signature = sign(author, self.digest) if is_signed else UNSIGNED
        votes = [u16(v) + (sign(v, self.certificate) if is_signed else UNSIGNED) for v in range(VOTERS)]
        self.header_bytes = b'\3' + self.body + self.signature
        self.certificate_bytes = b'\5' + self.body + u16(VOTERS) + b''.join(votes)

    def add_body(self, fold):
        fold.add(self.author, self.round, len(self.parents))

    def add_header(self, fold):
        self.add_body(fold)
        fold.add_bytes(self.signature)

    def add_certificate(self, fold):
        self.add_body(fold)
        fold.add(VOTERS)


def genesis():
    return [(a, Header(a, 0, []).certificate) for a in range(MEMBERS)]


def rounds(first=0):
    """The certificates of each round, one round upon the other, by the members from this one on."""
    parents, round_ = genesis(), 0
    while True:
        round_ += 1
        made = [Header(a, round_, parents) for a in range(MEMBERS)]
        yield parents, made
        parents = [(one.author, one.certificate) for one in made[first:]]


def ring():
    return [Header(place % MEMBERS, place + 1, genesis(), True) for place in range(RING)]


def batch(number, size=100000, author=1):
    """The body of a batch."""
    filling = u64(number) + b'\xab' * 500
    transactions, left = [], size - 8
    while left > 4:
        transactions.append(filling[:min(left - 4, 508)])
        left -= 4 + len(transactions[-1])
    return u16(author) + u16(0) + u32(len(transactions)) + b''.join(u32(len(t)) + t for t in transactions)


def vote_bytes(voter, own):
    """A member's vote on the header of the node."""
    signature = sign(voter, own.certificate)
    return b'\4' + own.digest + u64(own.round) + u16(own.author) + u16(voter) + signature, signature


def votes(count):
    """Votes, each with its signature."""
    return [vote_bytes(one.author, Header(0, one.round, genesis())) for one in pieces(count)]


def acks(count):
    """Acknowledgements, each with its digest, which is that of a header here."""
    return [(b'\2' + u16(one.author) + one.digest, one.digest) for one in pieces(count)]


def coins(count):
    """Coins, each of which has the number of its wave."""
    return [(b'\6' + u64(one.round) * 2, one.round) for one in pieces(count)]


def pieces(count):
    return [ring()[piece % RING] for piece in range(count)]


def batches(count):
    return [batch(piece) for piece in range(count)]


def over(items, add):
    fold = Fold()
    for item in items:
        add(fold, item)
    return fold


def encoded(fold, text):
    fold.add_bytes(text, text[len(text) // 2:])


def frames(count):
    fold, stream = Fold(), [u16(0) + one.header_bytes for one in pieces(count)]
    fold.add_bytes(*stream)
    return fold


def commit(ordered, held, wave):
    """What the coin of a wave, which is its number, adds to the order of full rounds."""
    leader = 2 * wave - 1, wave % MEMBERS
    past = [slot for slot in sorted(held) if slot[0] < leader[0]] + [leader]
    added = [slot for slot in past if slot not in ordered]
    start = len(ordered)
    ordered.update(added)
    return start, [held[slot].certificate for slot in added]


class Coins:
    """The coins of full rounds, and the order that they make."""

    def __init__(self):
        self.ordered, self.held = set(), {}

    def take(self, made):
        """What the coin after this round adds to the order, if there is one."""
        self.held.update({(one.round, one.author): one for one in made})
        round_ = made[0].round
        if round_ < 3 or round_ % 2 == 0:
            return None
        return commit(self.ordered, self.held, (round_ - 1) // 2)


def add_order(fold, start, digests):
    fold.add(start)
    fold.add_bytes(*digests)


def take_round(fold, coins, made, first=0):
    """The certificates of a round, those of the members from this one on as messages, and the coin after it."""
    fold.add_bytes(*[one.certificate for one in made[first:]])
    found = coins.take(made)
    if found:
        fold.add_bytes(STAND_IN)
        add_order(fold, *found)


def step_headers(count):
    fold, coins, piece = Fold(), Coins(), 0
    for parents, made in rounds():
        for header in made[1:]:
            fold.add_bytes(header.digest, sign(0, header.certificate))
            piece += 1
            if piece == count:
                return fold
        take_round(fold, coins, made)


def few_rounds(first=0):
    """A few rounds, again and again."""
    while True:
        for (_, made), _ in zip(rounds(first), range(FEW)):
            yield made


def step_votes(count):
    fold, piece = Fold(), 0
    for made in few_rounds(1):
        propose(fold, made[0])
        for voter in range(1, VOTERS):
            fold.add_bytes(STAND_IN)
            if voter == VOTERS - 1:
                made[0].add_body(fold)
            piece += 1
            if piece == count:
                return fold
        fold.add_bytes(*[one.certificate for one in made[1:]])


def propose(fold, own):
    """The own header, which the node puts out."""
    fold.add_bytes(own.digest)
    own.add_body(fold)


def certify(fold, own):
    """The votes that make the own certificate, which the node puts out after the last one."""
    fold.add_bytes(*[STAND_IN] * (VOTERS - 1))
    own.add_body(fold)


def step_late_votes(count):
    """A vote on an own header that has its certificate, which the node puts out each time."""
    fold, own = Fold(), Header(0, 1, genesis())
    propose(fold, own)
    certify(fold, own)
    for _ in range(count):
        fold.add_bytes(STAND_IN)
        own.add_body(fold)
    return fold


def step_certificates(count):
    fold = Fold()
    for made, _ in zip(few_rounds(), range(count // MEMBERS)):
        fold.add_bytes(*[one.certificate for one in made])
    return fold


def step_batch(fold, body):
    fold.add_bytes(sha(b'B' + body), sha(b'B' + body))


def order(count):
    fold, coins = Fold(), Coins()
    for (_, made), _ in zip(rounds(), range(count)):
        take_round(fold, coins, made)
    return fold


def deep(count):
    """Rounds of all that a node meets. Nothing of it depends on the depth."""
    fold, coins = Fold(), Coins()
    for (_, made), _ in zip(rounds(), range(count)):
        propose(fold, made[0])
        for header in made[1:]:
            fold.add_bytes(header.digest, sign(0, header.certificate))
        certify(fold, made[0])
        take_round(fold, coins, made, 1)
    return fold


def group(records):
    body = b''.join(u32(len(record)) + record for record in records)
    return b'\1' + u32(len(body)) + body


def append(fold, _):
    fold.add(RECORDS)
    fold.add_bytes(group([bytes(354)] * RECORDS) + b'\0')


def book(count):
    fold, coins, piece, waiting = Fold(), Coins(), 0, []

    def flush():
        fold.add(piece % RECORDS or min(piece, RECORDS))
        for output in waiting:
            output()
        waiting.clear()

    for _, made in rounds():
        votes = [sign(0, header.certificate) for header in made[1:]]
        outputs = [lambda vote=vote: fold.add_bytes(vote) for vote in votes] + [None] * MEMBERS
        found = coins.take(made)
        if found:
            outputs.append(lambda found=found: add_order(fold, *found))
        for output in outputs:
            if piece % RECORDS == 0:
                flush()
            piece += 1
            fold.add(piece)
            if output:
                waiting.append(output)
            if piece == count:
                flush()
                return fold


def configuration():
    keys = b''.join(bytes([member + 1]) * 32 for member in range(MEMBERS))
    return b'\0\2' + u16(0) + u16(50) + u16(1) + u32(1048576) + u16(MEMBERS) + keys + u32(1) * MEMBERS


def reopen(count):
    text = group([configuration()])
    records, coins, full, last = [], Coins(), 0, None
    for _, made in rounds():
        round_ = made[0].round
        records += [b'\1' + u16(one.author) + one.certificate_bytes for one in made]
        # A round is full where a quorum of it is there.
        if len(records) - (MEMBERS - VOTERS) <= count:
            full = round_
        found = coins.take(made) if len(records) < count else None
        if found:
            last = found[1][-1]
            records.append(b'\1' + u16(0) + b'\6' + u64((round_ - 1) // 2) * 2)
        if len(records) >= count:
            break
    text += b''.join(group(records[place:min(place + RECORDS, count)]) for place in range(0, count, RECORDS)) + b'\0'
    fold = Fold()
    fold.add_bytes(text)
    fold.add(full + 1, len(coins.ordered))
    fold.add_bytes(*[last] if last else [])
    return fold


def held(count):
    """The records of a checkpoint of batches that nobody has acknowledged or named."""
    return [b'\4\0' + u16(0) + body for body in batches(count)]


def checkpoint(count):
    """The first checkpoint of a journal: the configuration and the head, and then the batches, as many in a group as have room there. The
    head isn't counted."""
    groups = [[configuration(), b'\2' + u64(1)]]
    for record in held(count):
        body = sum(4 + len(other) for other in groups[-1] + [record])
        if len(groups) > 1 and len(groups[-1]) < RECORDS and body <= 4194304:
            groups[-1].append(record)
        else:
            groups.append([record])
    fold = Fold()
    fold.add(1 + count)
    fold.add_bytes(b''.join(map(group, groups)) + b'\0')
    return fold


def load(count):
    """The records of a checkpoint, and that the first batch isn't new after them."""
    fold = Fold()
    fold.add_bytes(configuration(), *held(count))
    fold.add(0)
    return fold


def tested(fold, digest):
    fold.add_bytes(digest)


def node(count):
    """Small batches of three members, each of which the node acknowledges, in an order that isn't told."""
    fold, acknowledged = Fold(), 0
    for sender in range(1, 4):
        digests = [sha(b'B' + batch(number, 20, sender)) for number in range(count)]
        fold.add(over(digests, tested).value)
        acknowledged += sum(over([digest], tested).value for digest in digests)
    fold.add(3 * count, acknowledged % 2 ** 64)
    return fold


def submit(count):
    """Small batches of one member, each of which the node acknowledges."""
    digests = [sha(b'B' + batch(number, 20)) for number in range(count)]
    fold = over(digests, tested)
    fold.add(count, sum(over([digest], tested).value for digest in digests) % 2 ** 64)
    return fold


def put(count, held=100):
    """Small batches, a tenth of what a store holds to each store."""
    return over([batch(held + place % (held // 10), 20) for place in range(count)], lambda fold, body: fold.add_bytes(body))


def run(count):
    """What a node writes, by its bytes: its first header, and the acknowledgements of small batches. It has no line of errors."""
    told, fold = Fold(), Fold()
    outputs = [u16(0xffff) + Header(0, 1, genesis(), True).header_bytes]
    outputs += [u16(1) + b'\2' + u16(0) + sha(b'B' + batch(number, 20)) for number in range(count)]
    for output in outputs:
        told.add(*(u32(len(output)) + output))
    fold.add(told.value, Fold().value)
    return fold


def proposed(count, members, is_reversed=False):
    """The bytes of the headers that a node puts out while so many certificates of full rounds enter, each round after the other."""
    quorum = 2 * members // 3 + 1
    parents = [(a, Header(a, 0, []).certificate) for a in range(members)]
    yield Header(0, 1, parents, True).header_bytes
    for first in range(0, count, members):
        round_ = first // members + 1
        made = [Header(a, round_, parents) for a in range(min(members, count - first))]
        parents = [(one.author, one.certificate) for one in made]
        if len(made) >= quorum:
            # It names those that entered first.
            named = parents[-quorum:] if is_reversed else parents[:quorum]
            yield Header(0, round_ + 1, named, True).header_bytes


def enter(count, members=MEMBERS, is_reversed=False):
    """What a node writes while certificates enter, by its bytes. It has no line of errors."""
    told, fold = Fold(), Fold()
    for header in proposed(count, members, is_reversed):
        output = u16(0xffff) + header
        told.add(*(u32(len(output)) + output))
    fold.add(told.value, Fold().value)
    return fold


def behind(count, size=70):
    """Certificates after rounds without a coin."""
    fold, left = Fold(), MEMBERS * size + count
    for _, made in rounds():
        for one in made[:left]:
            fold.add_bytes(one.certificate)
        left -= len(made[:left])
        if not left:
            return fold


def late(count, size=70):
    """Coins, each the first that commits: before it the leaders were absent."""
    fold = Fold()
    for _ in range(count):
        held, coin = {}, None
        for (_, made), round_ in zip(rounds(1), range(1, size + 1)):
            for one in made[1:]:
                fold.add_bytes(one.certificate)
                held[one.round, one.author] = one.certificate
            if round_ >= 3 and round_ % 2 == 1:
                if coin:
                    fold.add_bytes(STAND_IN)
                coin = (round_ - 1) // 2
        leader = 2 * coin - 1, 1
        slots = [slot for slot in sorted(held) if leader[0] - DEPTH <= slot[0] < leader[0]] + [leader]
        fold.add_bytes(STAND_IN)
        add_order(fold, 0, [held[slot] for slot in slots])
    return fold


LITTLE = [
    ('hash', 1000, lambda n: over([sha(BLOCK * n)], tested)),
    ('decode-header', 20, lambda n: over(pieces(n), lambda fold, one: one.add_header(fold))),
    ('decode-certificate', 20, lambda n: over(pieces(n), lambda fold, one: one.add_certificate(fold))),
    ('decode-batch', 3, lambda n: over(batches(n), lambda fold, body: fold.add_bytes(body))),
    ('decode-vote', 20, lambda n: over(votes(n), lambda fold, one: fold.add_bytes(one[1]))),
    ('decode-ack', 20, lambda n: over(acks(n), lambda fold, one: fold.add_bytes(one[1]))),
    ('decode-coin', 20, lambda n: over(coins(n), lambda fold, one: fold.add(one[1]))),
    ('encode-header', 20, lambda n: over(pieces(n), lambda fold, one: encoded(fold, one.header_bytes))),
    ('encode-certificate', 20, lambda n: over(pieces(n), lambda fold, one: encoded(fold, one.certificate_bytes))),
    ('encode-batch', 3, lambda n: over(batches(n), lambda fold, body: encoded(fold, b'\1' + body))),
    ('encode-vote', 20, lambda n: over(votes(n), lambda fold, one: encoded(fold, one[0]))),
    ('encode-ack', 20, lambda n: over(acks(n), lambda fold, one: encoded(fold, one[0]))),
    ('encode-coin', 20, lambda n: over(coins(n), lambda fold, one: encoded(fold, one[0]))),
    ('check-header', 20, lambda n: over(pieces(n), lambda fold, one: tested(fold, one.digest))),
    ('check-certificate', 20, lambda n: over(pieces(n), lambda fold, one: tested(fold, one.certificate))),
    ('check-batch', 3, lambda n: over(batches(n), lambda fold, body: tested(fold, sha(b'B' + body)))),
    ('check-vote', 20, lambda n: over(pieces(n), lambda fold, one: tested(fold, STAND_IN))),
    ('check-ack', 20, lambda n: over(pieces(n), lambda fold, one: tested(fold, STAND_IN))),
    ('check-coin', 20, lambda n: over(pieces(n), lambda fold, one: tested(fold, STAND_IN))),
    ('recheck-header', 20, lambda n: over(pieces(n), lambda fold, one: tested(fold, one.digest))),
    ('recheck-certificate', 20, lambda n: over(pieces(n), lambda fold, one: tested(fold, one.certificate))),
    ('recheck-batch', 3, lambda n: over(batches(n), lambda fold, body: tested(fold, sha(b'B' + body)))),
    ('frames', 100, frames),
    ('step-header', 60, step_headers),
    ('step-vote', 40, step_votes),
    ('step-certificate', 80, step_certificates),
    ('step-batch', 3, lambda n: over(batches(n), step_batch)),
    ('step-late-vote', 20, step_late_votes),
    ('order', 70, order),
    ('append', 2, lambda n: over(range(n), append)),
    ('book', 1500, book),
    ('reopen', 1500, reopen),
    ('checkpoint', 50, checkpoint),
    ('load', 50, load),
    ('node', 500, node),
    ('submit', 1500, submit),
    ('put', 30, put),
    ('run', 20, run),
    ('waiting', 20, enter),
    ('waiting-many', 70, lambda n: enter(n, 31)),
    ('in-order', 40, enter),
    ('reversed', 40, lambda n: enter(n, MEMBERS, True)),
    ('deep', 70, deep),
    ('behind', 80, behind),
    ('late', 2, late),
]

for word, count, fold in LITTLE:
    print(word, count, '%016x' % fold(count).value)
