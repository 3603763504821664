#!/usr/bin/env python3
"""Draws histories of one node's events and writes them as cases for the tests of the definitions.

    oracles/histories.py START DEPTH EVENTS [STAKES] > CASES
    oracles/histories.py --play=BESIDE[,EACH] START DEPTH EVENTS [STAKES] > CASES
    oracles/histories.py --lines=TITLE DEPTH STAKES < LINES > CASES

START is the value that all is drawn from, DEPTH the committee's depth, EVENTS how many new events a history has.
STAKES, as 3,1,1,1, has a stake for each member; without it there are four members with the stake 1. Member 0 is the
node. Each event stands with the answer and the outputs that the rules of docs/RULES.md give, as this program computes
them: it shares nothing with the code of the repository. See docs/SIMULATOR.md for the language. With --play the events stand
alone, after a line `validator`, and after them how often each answer comes and what there is at the end: that is for
the tests of the validator.
With --lines nothing is drawn: the events are those of these lines, with their forms.
There each 50 events, or EACH, end with a line `sum N`, a running sum over all that was answered and put out, and over what
is held and proposed after each event, and with a line `records COUNT SUM`: how many records a checkpoint of the node has, and
a sum over them. The events are then played once more, where the node is loaded from its records at each of these lines, and
come to the same. BESIDE is how many of the events are compared with the plain program too.
"""
import hashlib
import random
import sys

OWN, EQUAL_STAKES = 0, [1, 1, 1, 1]
MAX_PIECE, MAX_NAMED = 16000, 128

# Between two lines with the running sum there are so many events.
BETWEEN_SUMS = 50


def sha(letter, text):
    return hashlib.sha256(letter + text).digest()


def u16(number):
    return number.to_bytes(2, 'big')


def u32(number):
    return number.to_bytes(4, 'big')


def u64(number):
    return number.to_bytes(8, 'big')


class Batch:
    def __init__(self, label, author, transaction):
        self.label, self.author, self.worker = label, author, 0
        body = u16(author) + u16(0) + u32(1) + u32(len(transaction)) + transaction
        self.transaction, self.text, self.digest = transaction, body, sha(b'B', body)


class Header:
    """A header, with the certificates that it names and the batches, in the order in which it has them."""

    def __init__(self, label, author, round_, parents, batches):
        self.label, self.author, self.round = label, author, round_
        self.parents = sorted(parents, key=lambda parent: parent.author)
        self.batches = sorted(batches, key=lambda batch: batch.digest)
        body = u16(author) + u64(round_) + u16(len(self.batches))
        body += b''.join(batch.digest + u16(batch.worker) for batch in self.batches)
        body += u16(len(self.parents))
        body += b''.join(u16(parent.author) + parent.certificate for parent in self.parents)
        self.digest = sha(b'H', body)
        self.certificate = sha(b'C', self.digest + u64(round_) + u16(author))


class Committee:
    """The members' stakes. Members are numbered from 0, and weigh together what their stakes sum to."""

    def __init__(self, stakes):
        self.stakes, self.total = stakes, sum(stakes)
        self.members = range(len(stakes))
        self.is_equal = len(set(stakes)) == 1

    def weight(self, members):
        return sum(self.stakes[member] for member in set(members))

    def is_quorum(self, members):
        """More than two thirds of the total."""
        return 3 * self.weight(members) > 2 * self.total

    def is_support(self, members):
        """At least a third of the total."""
        return 3 * self.weight(members) >= self.total

    def first_quorum(self):
        """The members from 0 on, as few as are a quorum."""
        return next(list(self.members[:last + 1]) for last in self.members if self.is_quorum(self.members[:last + 1]))


class Node:
    """What a history of a node holds, and what the node answers. Of the order nothing is kept: it is read afresh."""

    def __init__(self, depth, committee):
        self.depth, self.committee = depth, committee
        self.batches, self.acked = {}, {}
        self.headers, self.counted = {}, {}
        self.certificates = {(0, a): Header('g%d' % a, a, 0, [], []) for a in committee.members}
        self.voters = {}
        self.coins = []
        self.events, self.ordered = 0, 0

    # ---- the order

    def of_round(self, round_):
        return [self.certificates[round_, a] for a in self.committee.members if (round_, a) in self.certificates]

    def leader(self, wave):
        if wave < 1 or wave > len(self.coins):
            return None
        return self.certificates.get((2 * wave - 1, self.coins[wave - 1] % len(self.committee.members)))

    def is_parent(self, parent, child):
        named = [(p.author, p.certificate) for p in child.parents]
        return child.round == parent.round + 1 and (parent.author, parent.certificate) in named

    def supporters(self, leader):
        return [c.author for c in self.of_round(leader.round + 1) if self.is_parent(leader, c)]

    def top(self):
        for wave in range(len(self.coins), 0, -1):
            leader = self.leader(wave)
            if leader and self.committee.is_support(self.supporters(leader)):
                return wave
        return None

    def past(self, certificate):
        found, open_ = {}, [certificate]
        while open_:
            one = open_.pop()
            if (one.round, one.author) not in found:
                found[one.round, one.author] = one
                open_ += [c for c in self.of_round(one.round - 1) if self.is_parent(c, one)]
        return found

    def chain(self):
        wave = self.top()
        if wave is None:
            return []
        chain = [self.leader(wave)]
        for earlier in range(wave - 1, 0, -1):
            leader = self.leader(earlier)
            if leader and (leader.round, leader.author) in self.past(chain[0]):
                chain.insert(0, leader)
        return chain

    def order(self):
        order, previous = [], {}
        for leader in self.chain():
            past = self.past(leader)
            order += [past[slot] for slot in sorted(past)
                      if slot[0] >= 1 and slot not in previous and slot[0] + self.depth >= leader.round]
            previous = past
        return order

    def floor(self):
        wave = self.top()
        return 0 if wave is None else max(0, 2 * wave - 1 - self.depth)

    def is_low(self, round_):
        floor = self.floor()
        return round_ == 0 or (floor > 0 and round_ <= floor)

    def is_full(self, round_):
        return self.committee.is_quorum(c.author for c in self.of_round(round_))

    def round(self):
        return 1 + max(round_ for round_, _ in self.certificates if self.is_full(round_))

    # ---- holdings

    def holds_parents(self, header):
        floor = self.floor()
        for parent in header.parents:
            held = self.certificates.get((header.round - 1, parent.author))
            if not (held and held.certificate == parent.certificate) and not (floor > 0 and header.round - 1 <= floor):
                return False
        return True

    def is_available(self, batch):
        if batch.digest not in self.batches or batch.author != OWN:
            return False
        return self.committee.is_quorum(self.acked.get(batch.digest, set()) | {OWN})

    def may_name(self, header, batch):
        held = self.batches.get(batch.digest)
        return held is not None and held.worker == batch.worker and (header.author != OWN or self.is_available(batch))

    def named(self):
        return {b.digest for (_, author), h in self.headers.items() if author == OWN for b in h.batches}

    def propose(self):
        round_ = self.round()
        if (round_, OWN) in self.headers:
            return None
        named = self.named()
        free = [b for b in self.batches.values() if self.is_available(b) and b.digest not in named]
        return round_, self.of_round(round_ - 1), sorted(free, key=lambda b: b.digest)[:MAX_NAMED]

    # ---- answers: a word, and the outputs

    def grown(self, before):
        after = self.order()
        assert after[:len(before)] == before, 'an order was taken back'
        added, lines = after[len(before):], []
        self.ordered = len(after)
        for place in range(0, len(added), MAX_PIECE):
            piece = added[place:place + MAX_PIECE]
            lines.append('order %d %s' % (len(before) + place, ' '.join(c.label for c in piece)))
        return lines

    def new(self, outputs):
        self.events += 1
        return 'new %d' % self.events, outputs

    def known(self, outputs):
        return 'known %d' % self.events, outputs

    def batch(self, batch, limit):
        held = self.batches.get(batch.digest)
        output = ['batch ' + batch.label if batch.author == OWN else 'ack ' + batch.label]
        if held:
            return self.known([output[0].replace(batch.label, held.label)])
        if len(self.batches) >= limit:
            return 'refused 14 StoreFull', []
        self.batches[batch.digest] = batch
        return self.new(output)

    def ack(self, batch, member):
        if batch.digest not in self.batches or self.batches[batch.digest].author != OWN:
            return 'refused 10 NotOurs', []
        if member == OWN or member in self.acked.get(batch.digest, set()):
            return self.known([])
        self.acked.setdefault(batch.digest, set()).add(member)
        return self.new([])

    def header(self, header):
        if self.is_low(header.round):
            return 'refused 3 TooOld', []
        held = self.headers.get((header.round, header.author))
        if held:
            if held.digest == header.digest:
                return self.known(['header ' + held.label if header.author == OWN else 'vote ' + held.label])
            return ('refused 9 AlreadyProposed' if header.author == OWN else 'refused 6 Equivocation'), []
        if not self.holds_parents(header):
            return 'refused 4 MissingParents', []
        if not all(self.may_name(header, batch) for batch in header.batches):
            return 'refused 5 MissingBatch', []
        self.headers[header.round, header.author] = header
        if header.author == OWN:
            self.counted[header.digest] = {OWN}
        return self.new(['header ' + header.label if header.author == OWN else 'vote ' + header.label])

    def certificate_line(self, slot):
        return 'certificate %s %s' % (self.certificates[slot].label, ','.join(map(str, self.voters[slot])))

    def vote(self, header, member):
        slot = header.round, OWN
        if header.author != OWN:
            return 'refused 10 NotOurs', []
        if self.is_low(header.round):
            return 'refused 3 TooOld', []
        if slot not in self.headers or self.headers[slot].digest != header.digest:
            return 'refused 10 NotOurs', []
        if slot in self.certificates:
            if self.certificates[slot].digest != header.digest:
                return 'refused 7 CertConflict', []
            return self.known([self.certificate_line(slot)])
        counted = self.counted[header.digest]
        if member in counted:
            return self.known([])
        before = self.order()
        counted.add(member)
        if not self.committee.is_quorum(counted):
            return self.new([])
        self.certificates[slot], self.voters[slot] = self.headers[slot], sorted(counted)
        return self.new([self.certificate_line(slot)] + self.grown(before))

    def certificate(self, header, voters):
        slot = header.round, header.author
        if self.is_low(header.round):
            return 'refused 3 TooOld', []
        if slot in self.certificates:
            if self.certificates[slot].certificate == header.certificate:
                return self.known([])
            return 'refused 7 CertConflict', []
        if not self.holds_parents(header):
            return 'refused 4 MissingParents', []
        before = self.order()
        self.certificates[slot], self.voters[slot] = header, voters
        return self.new(self.grown(before))

    def coin(self, sender, wave, value):
        if sender != OWN:
            return 'refused 10 NotOurs', []
        if wave <= len(self.coins):
            return self.known([]) if self.coins[wave - 1] == value else ('refused 13 CoinConflict', [])
        if wave != len(self.coins) + 1:
            return 'refused 11 CoinOutOfTurn', []
        if not self.is_full(2 * wave + 1):
            return 'refused 12 CoinEarly', []
        before = self.order()
        self.coins.append(value)
        return self.new(self.grown(before))


class Sum:
    """A running sum over bytes, FNV-1a of 64 bits."""

    def __init__(self):
        self.value = 14695981039346656037

    def add(self, text):
        for byte in text:
            self.value = (self.value ^ byte) * 1099511628211 % 2 ** 64

    def add_digest(self, digest):
        """A digest, or that there is none."""
        self.add(b'\0' if digest is None else b'\1' + digest)


class Drawn:
    """A history as it is drawn, and the lines of its case. A play also has what the records of a node come to."""

    def __init__(self, start, depth, committee, between=BETWEEN_SUMS, records_of=None):
        self.random = random.Random(start)
        self.start, self.committee = start, committee
        self.node, self.lines, self.seen = Node(depth, committee), [], {}
        self.all_headers, self.all_batches = [], []
        self.limit = 1048576
        self.sum, self.given, self.pieces, self.proposals = Sum(), 0, 0, 0
        self.between, self.records_of = between, records_of
        self.states, self.above_floors, self.leaderless = 0, 0, 0

    def one_in(self, count):
        return self.random.randrange(count) == 0

    def peer(self):
        return self.random.choice(self.committee.members[1:])

    def of_round(self, round_, purpose, count):
        """A number that stays the same for a round, and differs with the purpose."""
        return random.Random('%d %d %d' % (self.start, round_, purpose)).randrange(count)

    def is_late(self, round_, author):
        """One member is late in a round, where the others are a quorum."""
        drawn = self.of_round(round_, 1, 9)
        late = OWN if 3 < drawn < 7 else drawn
        return late == author and self.committee.is_quorum(m for m in self.committee.members if m != late)

    def members(self, round_):
        left_out = self.random.randrange(6) if self.one_in(3) else self.of_round(round_, 2, 8)
        members = [member for member in self.committee.members if member != left_out]
        return members if self.committee.is_equal else self.fewer(members)

    def fewer(self, members):
        """Leaves out more of these members, as long as the others are a quorum."""
        for member in self.random.sample(members, len(members)):
            others = [other for other in members if other != member]
            if self.committee.is_quorum(others) and self.one_in(2):
                members = others
        return members

    def take(self, command, answer):
        word, outputs = answer
        self.lines.append(command)
        self.lines.append('> ' + word)
        self.lines += ['> out ' + output for output in outputs]
        key = word if word.startswith('refused') else word.split()[0]
        self.seen[key] = self.seen.get(key, 0) + 1
        self.sum_up(word, outputs)

    # ---- the running sum

    def sum_up(self, word, outputs):
        """Adds what an event is answered, and what there is after it."""
        self.given += 1
        self.sum.add(bytes([word != 'refused 4 MissingParents']))
        kinds = {'new': b'\0', 'known': b'\1', 'refused': b'\2'}
        self.sum.add(kinds[word.split()[0]])
        if word.startswith('refused'):
            self.sum.add(bytes([int(word.split()[1])]))
        for output in outputs:
            self.sum_output(*output.split())
        self.sum_state()
        if self.given % self.between == 0:
            self.lines.append('sum %d' % self.sum.value)
            if self.records_of:
                self.sum_records()

    def sum_records(self):
        """Adds what the records of a checkpoint come to, each with its length before it."""
        records, total = self.records_of(self.node), Sum()
        for record in records:
            total.add(u64(len(record)) + record)
        self.lines.append('records %d %d' % (len(records), total.value))
        self.states += 1
        self.above_floors += self.node.floor() > 0
        self.leaderless += self.node.top() is None

    def sum_output(self, kind, first, *rest):
        self.sum.add(kind.encode())
        if kind in ('batch', 'ack'):
            self.sum.add(self.labelled(first).digest)
        elif kind in ('header', 'vote'):
            self.sum.add(self.labelled(first).digest)
        elif kind == 'certificate':
            self.sum.add(self.labelled(first).certificate + b''.join(u16(int(voter)) for voter in rest[0].split(',')))
        else:
            self.pieces += 1
            self.sum.add(u64(int(first)) + b''.join(self.labelled(label).certificate for label in rest))

    def labelled(self, label):
        """The header or batch of a label: they are numbered in the order in which they came."""
        return (self.all_batches if label[0] == 'b' else self.all_headers)[int(label[1:])]

    def sum_state(self):
        """Adds the round, the floor, how much is ordered, the votes near the floor and the round, and the proposal."""
        node = self.node
        round_, floor = node.round(), node.floor()
        self.sum.add(u64(round_) + u64(floor) + u64(node.ordered))
        for near in [*range(floor, floor + 3), round_ - 1, round_, round_ + 1]:
            for author in self.committee.members:
                held = None if node.is_low(near) else node.headers.get((near, author))
                self.sum.add_digest(held and held.digest)
        proposal = node.propose()
        if proposal:
            self.proposals += 1
            proposal = Header('-', OWN, *proposal)
        self.sum.add_digest(proposal and proposal.digest)

    # ---- forms

    def have_quorum(self, parents):
        return self.committee.is_quorum(parent.author for parent in parents)

    def define(self, header):
        for other in self.all_headers:
            if other.digest == header.digest:
                return other
        self.all_headers.append(header)
        self.lines.append('form %s %d %d %s %s' % (
            header.label, header.author, header.round, ','.join(p.label for p in header.parents) or '-',
            ','.join(b.label for b in header.batches) or '-'))
        return header

    def label(self):
        return 'h%d' % len(self.all_headers)

    def drawn_batches(self, author):
        recent = self.all_batches[-12:]
        picked = {}
        for _ in range(max(0, self.random.randrange(5) - 2)):
            if recent:
                batch = self.random.choice(recent)
                if author != OWN or self.node.is_available(batch) or self.one_in(12):
                    picked[batch.digest] = batch
        return list(picked.values())

    def body(self, round_, author, batches):
        held = {c.author: c for c in self.node.of_round(round_ - 1)}
        parents = [held[m] for m in self.members(round_) if m in held]
        if not self.have_quorum(parents):
            parents = list(held.values())
        if not self.have_quorum(parents):
            return None
        return self.define(Header(self.label(), author, round_, parents, batches))

    def misplaced(self, round_, author):
        """A header over the certificates of another round than the one below."""
        parents = self.node.of_round(round_ - 2) if round_ >= 2 else []
        if not self.have_quorum(parents):
            return None
        return self.define(Header(self.label(), author, round_, parents, []))

    def round(self):
        current, draw = self.node.round(), self.random.randrange(10)
        lag = self.random.randrange(current) if draw == 0 else self.random.randrange(4) if draw < 4 else 0
        return max(1, current - lag)

    def is_too_soon(self, round_, author):
        return self.is_late(round_, author) and self.node.round() - round_ < 2

    # ---- events

    def draw_batch(self):
        author = OWN if self.random.randrange(5) < 3 else self.peer()
        if self.all_batches and self.one_in(10):
            batch = self.random.choice(self.all_batches)
        else:
            transaction = self.random.randrange(2 ** 64).to_bytes(8, 'big')
            batch = Batch('b%d' % len(self.all_batches), author, transaction)
            self.all_batches.append(batch)
            self.lines.append('pack %s %d 0 %s' % (batch.label, author, transaction.hex()))
        self.take('batch ' + batch.label, self.node.batch(batch, self.limit))

    def draw_acks(self):
        """The more members there are, the more acknowledge."""
        for _ in self.committee.members[3:]:
            self.draw_ack()

    def draw_ack(self):
        if self.all_batches:
            batch, member = self.random.choice(self.all_batches[-12:]), self.random.choice(self.committee.members)
            self.take('ack %s %d' % (batch.label, member), self.node.ack(batch, member))

    def draw_header(self, author):
        round_ = self.round()
        if author == OWN and self.is_too_soon(round_, author):
            return
        if (round_, author) in self.node.headers and not self.one_in(6):
            return
        header = self.body(round_, author, self.drawn_batches(author))
        if header and self.one_in(15):
            header = self.misplaced(round_, author) or header
        if header:
            self.take('header ' + header.label, self.node.header(header))

    def draw_votes(self):
        """The more members there are, the more vote."""
        for _ in self.committee.members[3:]:
            self.draw_vote()

    def draw_vote(self):
        header = self.node.headers.get((self.round(), OWN))
        if header and self.one_in(12):
            others = [h for h in self.all_headers if h.round == header.round and h.digest != header.digest]
            header = self.random.choice(others) if others else header
        if header:
            member = self.random.choice(self.committee.members)
            self.take('vote %s %d' % (header.label, member), self.node.vote(header, member))

    def draw_certificate(self):
        round_ = self.round()
        author = OWN if self.one_in(12) else self.peer()
        if self.is_too_soon(round_, author):
            return
        if (round_, author) in self.node.certificates and not self.one_in(6):
            return
        header = self.node.headers.get((round_, author))
        if self.one_in(10):
            header = self.misplaced(round_, author)
        elif not header or self.one_in(4):
            header = self.body(round_, author, self.drawn_batches(author))
        if header:
            voters = self.members(round_)
            voters = voters if self.committee.is_quorum(voters) else list(self.committee.members)
            command = 'cert %s %s' % (header.label, ','.join(map(str, voters)))
            self.take(command, self.node.certificate(header, voters))

    def draw_coin(self):
        taken, draw = len(self.node.coins), self.random.randrange(12)
        wave = max(1, taken) if draw == 0 else taken + 2 if draw < 4 else taken + 1
        if wave > taken and not self.node.is_full(2 * wave + 1) and not self.one_in(4):
            return
        value = self.random.randrange(2 ** 64)
        if wave <= taken and self.one_in(2):
            value = self.node.coins[wave - 1]
        if self.one_in(12):
            sender = self.peer()
            self.take('coin-from %d %d %d' % (sender, wave, value), self.node.coin(sender, wave, value))
        else:
            self.take('coin %d %d' % (wave, value), self.node.coin(OWN, wave, value))

    def draw_again(self):
        if self.all_headers:
            header = self.random.choice(self.all_headers)
            if self.one_in(2):
                self.take('header ' + header.label, self.node.header(header))
            else:
                voters = self.committee.first_quorum()
                self.take('cert %s %s' % (header.label, ','.join(map(str, voters))),
                          self.node.certificate(header, voters))

    def draw(self, share):
        if self.random.randrange(100) < share:
            return self.draw_batch() if self.random.randrange(8) < 5 else self.draw_acks()
        draw = self.random.randrange(14)
        if draw < 2:
            self.draw_header(self.peer())
        elif draw < 3:
            self.draw_header(OWN)
        elif draw < 5:
            self.draw_votes()
        elif draw < 11:
            self.draw_certificate()
        elif draw < 13:
            self.draw_coin()
        else:
            self.draw_again()

    # ---- what is looked at now and then

    def look(self):
        node = self.node
        self.lines += ['floor', '> floor %d' % node.floor(), 'round', '> round %d' % node.round()]
        proposal = node.propose()
        if proposal is None:
            line = 'none'
        else:
            round_, parents, batches = proposal
            line = '%d %s %s' % (round_, ','.join(p.label for p in parents), ','.join(b.label for b in batches) or '-')
        self.lines += ['propose', '> proposes ' + line]

    def look_at_all(self):
        self.lines += ['flush', '> settled %d' % self.node.events]
        self.lines += ['order', '> order ' + (' '.join(c.label for c in self.node.order()) or 'none')]
        self.look()


def history(start, depth, events, committee, between=BETWEEN_SUMS, records_of=None):
    drawn = Drawn(start, depth, committee, between, records_of)
    looks = 0
    for _ in range(40 * events):
        if drawn.node.events >= events:
            break
        drawn.draw(45)
        if drawn.node.events // 20 > looks:
            looks = drawn.node.events // 20
            drawn.look()
    drawn.look_at_all()
    return drawn


def of_lines(lines, depth, committee):
    """The history of these lines: headers that are formed, and events."""
    drawn = Drawn(0, depth, committee)
    headers = {'g%d' % member: drawn.node.certificates[0, member] for member in committee.members}
    drawn.labelled = headers.__getitem__
    for line in lines:
        name, *words = line.split()
        if name == 'form':
            label, author, round_, parents, _ = words
            header = Header(label, int(author), int(round_), [headers[parent] for parent in parents.split(',')], [])
            headers[label] = header
            drawn.lines.append(line)
        elif name == 'header':
            drawn.take(line, drawn.node.header(headers[words[0]]))
        elif name == 'vote':
            drawn.take(line, drawn.node.vote(headers[words[0]], int(words[1])))
        elif name == 'cert':
            drawn.take(line, drawn.node.certificate(headers[words[0]], [int(voter) for voter in words[1].split(',')]))
        else:
            drawn.take(line, drawn.node.coin(OWN, *map(int, words)))
    drawn.lines.append('sum %d' % drawn.sum.value)
    return drawn


def tell_title(drawn, depth, words, arguments):
    """The title of a case, and what it comes to: it is drawn with these arguments."""
    node = drawn.node
    title = ['a random history of %d events' % node.events, 'depth %d' % depth] + ['stakes ' + word for word in words]
    print('== %s, start value %d' % (', '.join(title), drawn.start))
    print('# drawn by oracles/histories.py ' + arguments)
    print('# round %d, floor %d, greatest wave with support %d, leaders %d, ordered %d'
          % (node.round(), node.floor(), node.top() or 0, len(node.chain()), len(node.order())))
    for word in sorted(drawn.seen):
        print('# %s: %d' % (word, drawn.seen[word]))


def tell_all(drawn, depth, words):
    """The case of the definitions: each event with what it is answered."""
    print('set depth %d' % depth)
    for word in words:
        print('stakes ' + word)
    print('tell outputs')
    print('\n'.join(line for line in drawn.lines if not line.startswith('sum ')))


def tell_play(drawn, depth, words, beside):
    """The case of the validator: the events, and then what they come to."""
    looks = {'floor', 'round', 'propose', 'flush', 'order'}
    print('validator')
    print('depth %d' % depth)
    for word in words:
        print('stakes ' + word)
    print('\n'.join(line for line in drawn.lines if not line.startswith('>') and line not in looks))
    print('play %d' % beside)
    tell_answers(drawn)
    print('> beside the plain program %d' % min(beside, drawn.given))
    if drawn.states:
        print('loads')
        tell_answers(drawn)
        print('> loaded %d, above a floor %d, without a leader %d' % (drawn.states, drawn.above_floors, drawn.leaderless))


def tell_answers(drawn):
    """How often each answer comes, and what there is at the end."""
    node = drawn.node
    print('> new %d, known %d' % (drawn.seen.get('new', 0), drawn.seen.get('known', 0)))
    refused = sorted((int(word.split()[1]), count) for word, count in drawn.seen.items() if word.startswith('refused'))
    for number, count in refused:
        print('> refused %d: %d' % (number, count))
    print('> pieces of the order %d, proposals %d' % (drawn.pieces, drawn.proposals))
    print('> round %d, floor %d, ordered %d' % (node.round(), node.floor(), len(node.order())))


def main():
    if sys.argv[1].startswith('--lines='):
        depth, stakes = int(sys.argv[2]), sys.argv[3]
        drawn = of_lines(sys.stdin.read().splitlines(), depth, Committee(list(map(int, stakes.split(',')))))
        print('== ' + sys.argv[1].removeprefix('--lines='))
        return tell_play(drawn, depth, [stakes], drawn.given)
    plays = sys.argv[1].startswith('--play=')
    arguments = sys.argv[2:] if plays else sys.argv[1:]
    start, depth, events = map(int, arguments[:3])
    words = arguments[3:4]
    stakes = [int(stake) for word in words for stake in word.split(',')] or EQUAL_STAKES
    numbers = [int(number) for number in sys.argv[1].removeprefix('--play=').split(',')] if plays else [0]
    between, records_of = numbers[1] if len(numbers) > 1 else BETWEEN_SUMS, None
    if plays:
        # It imports this file.
        import checkpoints
        records_of = checkpoints.Committee(stakes, OWN, depth).records_of
    drawn = history(start, depth, events, Committee(stakes), between, records_of)
    tell_title(drawn, depth, words, ' '.join(sys.argv[1:]))
    if plays:
        tell_play(drawn, depth, words, numbers[0])
    else:
        tell_all(drawn, depth, words)


if __name__ == '__main__':
    main()
