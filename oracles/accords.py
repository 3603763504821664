#!/usr/bin/env python3
"""Writes the file accords.cases of crates/test_parts: pairs of histories of two nodes of one committee, and what their orders have in common.

    oracles/accords.py > CASES

Worlds are drawn in which the members of a committee make headers and take each other's certificates late, never, in other orders, or only
where a header names them, and in which some have fewer coins. Of each world a few pairs of members are written. What is expected is
computed by the plain rules of histories.py. See the first lines of what it writes for the words.
"""
import hashlib
import random
import sys

from histories import OWN, Committee, Header, Node

EQUAL, SEVEN = [1] * 4, [1] * 7
# Depth, stakes, how many rounds the first members get to at least, and how many pairs of them are written.
GROUPS = [
    (2, EQUAL, 7, 300), (3, EQUAL, 7, 40), (4, EQUAL, 7, 15), (5, EQUAL, 8, 10), (6, EQUAL, 9, 10),
    (2, [3, 1, 2, 2], 7, 90), (3, [2, 1, 1, 1], 7, 30),
    (2, SEVEN, 5, 15), (2, [4, 1, 2, 3, 1, 2, 5], 5, 15),
]
COINS_DIFFER, HEADERS_DIFFER, LEFT_OUT = 20, 20, 6
# How often a member looks again for better parents.
PATIENCE = 12
MOST = 80

TITLE = """\
# crates: spec_accord ref_order
#
# Pairs of histories of two nodes of one committee, as oracles/accords.py writes them. Nothing here is written by hand.
#
# accords begins a case of these. committee DEPTH STAKE,.. is the committee. made WORD .. has the headers of the histories that
# follow, each by its round, its author and the authors of its parents: 3.1.0.1.2 is the header of author 1 in round 3 over those of
# the authors 0, 1 and 2 in round 2. A letter b after an author is another header in the same slot. first MEMBER WORD .. is a history
# of a member: 3.1 takes the certificate of author 1 in round 3, m3.1 makes the own header of round 3 and takes votes on it until
# they are a quorum, and c17 takes the coin of the next wave with the value 17. Whose votes stand under a certificate differs with
# the member who takes it. next MEMBER WORD .. is another history, and is answered what it and the one before it have in common.
# Of each order the line has the length, and after `of` the first four bytes of the SHA-256 of its digests, one after the other.
# counts is answered how many such pairs there were after the counts before it."""


class Member(Node):
    """A member as a node: what it holds, and its history in words."""

    def __init__(self, number, depth, committee):
        super().__init__(depth, committee)
        self.number, self.history, self.made = number, [], {}
        self.pasts, self.floors, self.full = {}, {}, 0

    def round(self):
        return 1 + self.full

    def floor(self):
        """Computed once for what is held."""
        held = len(self.certificates), len(self.coins)
        if held not in self.floors:
            self.floors = {held: super().floor()}
        return self.floors[held]

    def past(self, certificate):
        """Looked for once: the parents of what is held are there, or never come."""
        slot = certificate.round, certificate.author
        if slot not in self.pasts:
            self.pasts[slot] = super().past(certificate)
        return self.pasts[slot]

    def may_take(self, header):
        slot = header.round, header.author
        return slot not in self.certificates and not self.is_low(header.round) and self.holds_parents(header)

    def take(self, header, is_made=False):
        assert self.may_take(header)
        self.certificates[header.round, header.author] = header
        self.history.append(('made' if is_made else 'taken', header))
        if header.round > self.full and self.is_full(header.round):
            self.full = header.round

    def may_have_coin(self):
        return self.is_full(2 * (len(self.coins) + 1) + 1)

    def take_coin(self, value):
        assert self.may_have_coin()
        self.coins.append(value)
        self.history.append(('coin', value))


class World:
    """Members who make headers and take certificates, until the first of them have so many rounds."""

    def __init__(self, start, depth, stakes, rounds):
        self.random = random.Random(start)
        self.start, self.committee, self.rounds = start, Committee(stakes), rounds
        self.members = [Member(number, depth, self.committee) for number in self.committee.members]
        self.headers = {}
        self.lazy = self.random.randrange(2 * len(stakes))
        self.slow = self.random.randrange(2 * len(stakes))
        self.doubtful = {}

    def one_in(self, count):
        return self.random.randrange(count) == 0

    def of(self, count, *names):
        """A number that stays the same for these names."""
        return random.Random('%d %s' % (self.start, names)).randrange(count)

    def coin_of(self, wave):
        return self.of(1000, 'coin', wave)

    def doubt(self, wave):
        """In most waves only few support the leader, and the last of them is little known: its author, and the others."""
        if wave not in self.doubtful:
            drawn = random.Random('%d doubt %d' % (self.start, wave))
            few = drawn.sample(list(self.committee.members), len(self.members))
            count = next(count for count in range(len(few) + 1) if self.committee.is_support(few[:count]))
            self.doubtful[wave] = (few[count - 1], few[:count]) if drawn.randrange(8) > 0 else None
        return self.doubtful[wave]

    def is_little_known(self, header):
        if header.round % 2 == 1:
            leads = self.coin_of(header.round // 2 + 1) % len(self.members)
            return header.round % 4 == 1 and header.author != leads and header.author == self.of(len(self.members), 'lonely', header.round)
        doubt = self.doubt(header.round // 2)
        return doubt is not None and doubt[0] == header.author

    def avoids(self, member, header):
        """A member takes no certificate of one other author in a round, and some none that is little known, unless a header
        names it that it takes."""
        if header.author == member.number:
            return False
        left_out = self.of(2 * len(self.members), 'avoids', member.number, header.round)
        return left_out == header.author or (self.is_little_known(header) and self.of(2, 'knows', member.number, header.round) > 0)

    def leader_below(self, round_):
        """Who led the wave whose leader certificates of this round may support, if it is a doubtful one."""
        wave = round_ // 2
        return self.coin_of(wave) % len(self.members) if round_ % 2 == 0 and self.doubt(wave) else None

    def is_one_of_few(self, maker, round_):
        """A member is to support the leader of a doubtful wave."""
        return self.leader_below(round_) is not None and maker in self.doubt(round_ // 2)[1]

    def is_unwanted(self, maker, round_, parent):
        """A header is to leave out this parent, if it can: the leader of a doubtful wave, but for the few; or what is little known."""
        if self.is_little_known(parent):
            return not self.one_in(8)
        return parent.author == self.leader_below(round_) and not self.is_one_of_few(maker, round_)

    def parents_for(self, maker, round_, held):
        """Of the certificates that are held in the round below those that a header names."""
        chosen = list(held)
        kept = self.leader_below(round_) if self.is_one_of_few(maker, round_) else None
        unwanted = [c for c in held if self.is_unwanted(maker, round_, c)]
        for parent in unwanted + self.random.sample(held, len(held)):
            others = [c for c in chosen if c is not parent]
            is_left_out = parent in unwanted or (parent.author != kept and not self.one_in(3))
            if is_left_out and self.committee.is_quorum(c.author for c in others):
                chosen = others
        return chosen

    def make(self, member):
        round_ = member.round()
        if round_ in member.made:
            return
        if self.is_one_of_few(member.number, round_):
            leader = self.headers.get('%d.%d' % (round_ - 1, self.leader_below(round_)))
            if leader:
                self.ask(member, leader)
            elif not self.one_in(PATIENCE):
                return
        parents = self.parents_for(member.number, round_, member.of_round(round_ - 1))
        if any(self.is_unwanted(member.number, round_, parent) for parent in parents) and not self.one_in(PATIENCE):
            return
        header = Header('%d.%d' % (round_, member.number), member.number, round_, parents, [])
        member.made[round_] = header
        if member.may_take(header):
            self.headers[header.label] = header
            member.take(header, self.one_in(12))

    def deliver(self, member):
        missing = [h for h in self.headers.values() if (h.round, h.author) not in member.certificates and not member.is_low(h.round)]
        missing = [h for h in missing if not self.avoids(member, h)]
        if missing:
            missing.sort(key=lambda h: h.round)
            self.ask(member, missing[min(self.random.randrange(len(missing)), self.random.randrange(len(missing)))])

    def ask(self, member, header):
        """Takes a certificate, and before it those that its header names and that aren't held."""
        for parent in header.parents:
            if (parent.round, parent.author) not in member.certificates and not member.is_low(parent.round):
                self.ask(member, parent)
        if member.may_take(header):
            member.take(header)

    def step(self):
        member = self.random.choice(self.members)
        if member.number == self.slow and not self.one_in(4):
            return
        drawn = self.random.randrange(10)
        if drawn < 2 and member.may_have_coin() and (member.number != self.lazy or self.one_in(12)):
            member.take_coin(self.coin_of(len(member.coins) + 1))
        elif drawn < 5:
            self.make(member)
        else:
            self.deliver(member)

    def draw(self):
        for _ in range(4000):
            if sum(member.round() > self.rounds for member in self.members) >= 2:
                break
            self.step()
        for member in self.members:
            if member.number != self.lazy and member.may_have_coin():
                member.take_coin(self.coin_of(len(member.coins) + 1))
        return self

    def nodes(self):
        """Three or four of the members, of whom some stop earlier."""
        members = self.random.sample(self.members, 3 + self.of(2, 'nodes'))
        members = [member for member in members if sum(kind != 'coin' for kind, _ in member.history) <= MOST]
        return [self.earlier(member) if self.one_in(3) else member for member in members]

    def earlier(self, member):
        """The member before up to half of its events."""
        events = len(member.history)
        history = member.history[:events - self.random.randrange(events // 2 + 1)]
        return replayed(member.number, member.depth, self.committee, history)[0]


# ---- a pair that is written

def replayed(number, depth, committee, history):
    """The member after a history, and whether each event was new."""
    member, legal = Member(number, depth, committee), True
    member.history = history
    for kind, what in history:
        is_new = member.may_have_coin() if kind == 'coin' else member.may_take(what)
        legal = legal and is_new
        if kind == 'coin':
            member.coins.append(what)
        else:
            member.certificates.setdefault((what.round, what.author), what)
    return member, legal


def begins(one, other):
    return other[:len(one)] == one


def agree(one, other):
    return begins(one, other) or begins(other, one)


def premises(one, other):
    same = all(other.certificates[slot].digest == one.certificates[slot].digest for slot in one.certificates if slot in other.certificates)
    return same and agree(one.coins, other.coins)


def is_direct(member, wave):
    leader = member.leader(wave)
    return leader is not None and member.committee.is_support(member.supporters(leader))


class Pair:
    """Two members, with what is counted of them."""

    def __init__(self, one, other, legal):
        self.orders = [[c.certificate for c in member.order()] for member in (one, other)]
        self.floors = [one.floor(), other.floor()]
        self.legal, self.premises = legal, premises(one, other)
        self.agrees = agree(*self.orders)
        self.chains = [[c.round for c in member.chain()] for member in (one, other)]
        self.skips = any(len(chain) < (member.top() or 0) for chain, member in zip(self.chains, (one, other)))
        self.late = self.is_late(one, other, self.chains[1]) or self.is_late(other, one, self.chains[0])
        self.differs = all(self.orders) and len(self.orders[0]) != len(self.orders[1])
        low = {slot for slot in set(one.certificates) ^ set(other.certificates) if slot[0] <= min(self.floors)}
        self.unlike = bool(low)

    def is_late(self, direct, later, chain):
        """A wave is directly committed at one, and at the other only through a later leader."""
        return any(is_direct(direct, wave) and not is_direct(later, wave) and 2 * wave - 1 in chain
                   for wave in range(1, len(direct.coins) + 1))

    def line(self):
        words = {False: 'no', True: 'yes'}
        sums = [hashlib.sha256(b''.join(order)).hexdigest()[:8] for order in self.orders]
        return 'legal %s %s, premises %s, orders %d %d of %s %s, agree %s, floors %d %d' % (
            words[self.legal[0]], words[self.legal[1]], words[self.premises],
            len(self.orders[0]), len(self.orders[1]), *sums, words[self.agrees], *self.floors)


class Counts:
    """How many pairs there were, and how many of each kind."""

    NAMES = ['pairs', 'legal', 'premises', 'agree', 'both floors above 0', 'a wave skipped',
             'a wave committed directly and through a later leader', 'unlike certificates at or below both floors',
             'orders of unlike length']

    def __init__(self):
        self.counts = [0] * len(self.NAMES)

    def add(self, pair):
        found = [True, all(pair.legal), pair.premises, pair.agrees, min(pair.floors) > 0, pair.skips, pair.late, pair.unlike,
                 pair.differs]
        self.counts = [count + is_so for count, is_so in zip(self.counts, found)]

    def tell(self):
        print('counts')
        for name, count in zip(self.NAMES, self.counts):
            print('> %s: %d' % (name, count))


def word_of(header):
    names = [parent.label.split('.')[-1].removeprefix('g') for parent in header.parents]
    return '.'.join([header.label] + names)


def with_parents(histories):
    """The headers of histories and all that they are over, those of lower rounds first."""
    found, open_ = {}, [what for history in histories for kind, what in history if kind != 'coin']
    while open_:
        header = open_.pop()
        if header.round > 0 and header.label not in found:
            found[header.label] = header
            open_ += header.parents
    return sorted(found.values(), key=lambda header: (header.round, header.author, header.label))


def history_words(history):
    return ' '.join({'coin': 'c%s', 'made': 'm%s', 'taken': '%s'}[kind] % (what if kind == 'coin' else what.label) for kind, what in history)


def pair_of(depth, committee, one, other):
    """What two members have in common, each of whom is a number with a history."""
    played = [replayed(number, depth, committee, history) for number, history in (one, other)]
    return Pair(played[0][0], played[1][0], [legal for _, legal in played])


def write_histories(nodes, pairs):
    """Writes numbers with their histories, and what each and the one before it have in common."""
    print('made ' + ' '.join(word_of(header) for header in with_parents([history for _, history in nodes])))
    for place, (number, history) in enumerate(nodes):
        print('%s %d %s' % ('next' if place else 'first', number, history_words(history)))
        if place:
            print('> ' + pairs[place - 1].line())


# ---- pairs whose premises don't hold

def with_other_coin(pair, drawn):
    """The other history with another value in one wave; nothing where it has no coin."""
    places = [place for place, (kind, _) in enumerate(pair.history) if kind == 'coin']
    if not places:
        return None
    history = list(pair.history)
    place = drawn.choice(places)
    history[place] = 'coin', history[place][1] + 1 + drawn.randrange(3)
    return history


def with_other_header(member, drawn):
    """The history with another header in one slot, and all headers over it made anew; nothing where each has all the parents that there are."""
    held, remade = member.certificates, {}
    places = [what for what in member.order() if ('taken', what) in member.history]
    drawn.shuffle(places)
    for header in places:
        below = [c for c in member.of_round(header.round - 1)]
        others = [c for c in below if c.author not in [parent.author for parent in header.parents]]
        if others and all((parent.round, parent.author) in held for parent in header.parents):
            parents = list(header.parents) + [drawn.choice(others)]
            remade[header.label] = Header(header.label + 'b', header.author, header.round, parents, [])
            break
    if not remade:
        return None
    history = []
    for kind, what in member.history:
        if kind != 'coin':
            if what.label not in remade and any(parent.label in remade for parent in what.parents):
                parents = [remade.get(parent.label, parent) for parent in what.parents]
                remade[what.label] = Header(what.label + 'b', what.author, what.round, parents, [])
            what = remade.get(what.label, what)
        history.append((kind, what))
    return history


def with_one_left_out(member, drawn):
    """The history without one of its first certificates."""
    places = [place for place, (kind, what) in enumerate(member.history) if kind != 'coin' and what.round < 3]
    place = drawn.choice(places)
    return member.history[:place] + member.history[place + 1:]


# ---- the file

def title(words, depth, stakes):
    print('\n== %s, depth %d, stakes %s' % (words, depth, ' '.join(map(str, stakes))))
    print('accords')
    print('committee %d %s' % (depth, ','.join(map(str, stakes))))


def drawn_nodes(start, depth, stakes, rounds):
    """Members of one world after the other."""
    while True:
        start += 1
        nodes = World(start, depth, stakes, rounds).draw().nodes()
        if len(nodes) >= 2:
            yield nodes


def is_left_out(pairs, number):
    """Most of those pairs are left out of which one order has nothing, and a half of those that show nothing else."""
    if not any(all(pair.orders) for pair in pairs):
        return number % 8 > 0
    return number % 2 > 0 and not any(pair.late or pair.unlike or pair.skips for pair in pairs)


def write_groups():
    counts, drawn_so_far = Counts(), 0
    for number, (depth, stakes, rounds, count) in enumerate(GROUPS):
        title('histories of %d members' % len(stakes), depth, stakes)
        drawn = drawn_nodes(10000 * number, depth, stakes, rounds)
        while count > 0:
            nodes = [(member.number, member.history) for member in next(drawn)]
            pairs = [pair_of(depth, Committee(stakes), one, other) for one, other in zip(nodes, nodes[1:])]
            assert all(pair.premises and all(pair.legal) and pair.agrees for pair in pairs), 'a history is not as drawn, or orders disagree'
            drawn_so_far += 1
            if is_left_out(pairs, drawn_so_far):
                continue
            write_histories(nodes, pairs)
            count -= len(pairs)
            for pair in pairs:
                counts.add(pair)
    title('all of these pairs', 2, EQUAL)
    counts.tell()


def write_changed(words, start, count, change, is_wanted):
    """Pairs of which one history is changed, so that they are as wanted."""
    depth, stakes, counts = 2, EQUAL, Counts()
    drawn = random.Random(start)
    title(words, depth, stakes)
    for one, changed, *_ in drawn_nodes(start, depth, stakes, 6):
        history = change(changed, drawn)
        if history is not None:
            nodes = [(one.number, one.history), (changed.number, history)]
            pair = pair_of(depth, Committee(stakes), *nodes)
            if is_wanted(pair):
                write_histories(nodes, [pair])
                counts.add(pair)
                if counts.counts[0] == count:
                    break
    counts.tell()


def is_of_two(pair):
    return all(pair.legal) and not pair.premises


def is_not_legal(pair):
    return not all(pair.legal)


def main():
    print(TITLE)
    write_groups()
    write_changed('pairs of which one has another coin in a wave', 500000, COINS_DIFFER, with_other_coin, is_of_two)
    write_changed('pairs of which one has another header in a slot', 600000, HEADERS_DIFFER, with_other_header, is_of_two)
    write_changed('pairs of which one leaves out a certificate', 700000, LEFT_OUT, with_one_left_out, is_not_legal)


if __name__ == '__main__':
    main()
