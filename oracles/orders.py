#!/usr/bin/env python3
"""Writes cases of certificates and coins in the order in which they come to a node, and of what they commit.

    oracles/orders.py --segments > crates/test_parts/data/orders.cases

The worked ones are played, the random ones are drawn from the start values below. What is expected is computed by the plain rules of
oracles/histories.py over all certificates that ever came, by paths; no floor makes it forget one.
"""
import random
import sys

from histories import Committee, Header, Node

EQUAL = [1, 1, 1, 1]
SILENCE = 5


class Remembering(Node):
    """A node that looks once for what a certificate reaches: the parents of what is held are there, or never come."""

    def __init__(self, depth, committee):
        super().__init__(depth, committee)
        self.pasts = {}

    def past(self, certificate):
        slot = certificate.round, certificate.author
        if slot not in self.pasts:
            self.pasts[slot] = super().past(certificate)
        return self.pasts[slot]


class Played:
    """A node that is given certificates and coins, the words that say so, and the lines that are expected."""

    segments = '--segments' in sys.argv

    def __init__(self, depth, stakes):
        self.stakes, self.depth = stakes, depth
        self.node = Remembering(depth, Committee(stakes))
        self.ordered = []
        self.words, self.lines = [], []
        self.commits = self.longest = self.late = 0
        self.counts = False

    def count(self):
        """From now on it is told with each commit what is read for its leaders."""
        self.words.append('counts')
        self.counts = True

    def slot(self, certificate):
        return '%d.%d' % (certificate.round, certificate.author)

    def certificate(self, round_, author, parents):
        """The header of a certificate over what is held of these authors; one that isn't held has a digest of its own."""
        held = [self.node.certificates.get((round_ - 1, parent)) or Header('none', parent, 2 ** 40, [], []) for parent in parents]
        return Header('%d.%d' % (round_, author), author, round_, held, [])

    def tell_commit(self, chain_before):
        """What is committed now and wasn't before."""
        node = self.node
        chain = node.chain()
        assert chain[:len(chain_before)] == chain_before
        new = chain[len(chain_before):]
        if not new:
            return
        before, order = self.ordered, node.order()
        assert [c.label for c in order[:len(before)]] == [c.label for c in before]
        self.ordered = order
        self.commits += 1
        self.longest = max(self.longest, len(new))
        self.lines.append(' '.join(['chain'] + [self.slot(leader) for leader in new]))
        marked = previous = node.past(chain_before[-1]) if chain_before else {}
        reads = []
        for leader in new:
            past = node.past(leader)
            segment = [past[slot] for slot in sorted(past)
                       if slot[0] >= 1 and slot not in previous and slot[0] + node.depth >= leader.round]
            last = max([round_ for round_, _ in previous], default=0)
            self.late += sum(1 for c in segment if c.round < last)
            low = max(0, leader.round - node.depth)
            read = sum(len(c.parents) for c in segment if c.round > low)
            again = sum(len(c.parents) for slot, c in previous.items() if slot not in marked and slot[0] > low)
            reads.append('%d.%d' % (read, read + again))
            if self.segments:
                self.lines.append(' '.join(['orders'] + [self.slot(c) for c in segment]))
            previous = past
        if self.counts:
            self.lines.append(' '.join(['reads'] + reads))
        self.lines.append('top %d floor %d' % (node.top(), node.floor()))

    def add(self, round_, author, parents):
        self.words.append('add-' + '.'.join(map(str, [round_, author] + parents)))
        header = self.certificate(round_, author, parents)
        chain = self.node.chain()
        answer, _ = self.node.certificate(header, [])
        told = {'new': 'New', 'known': 'Known', 'refused 3': '2 TooOld', 'refused 7': '3 CertConflict', 'refused 4': '5 MissingParents'}
        self.lines.append(next(told[start] for start in told if answer.startswith(start)))
        self.tell_commit(chain)

    def coin(self, value):
        self.words.append('coin-%d' % value)
        chain = self.node.chain()
        self.node.coins.append(value)
        self.lines.append('coin %d' % len(self.node.coins))
        self.tell_commit(chain)

    def look(self):
        """The leaders of the waves from the floor on."""
        waves = [wave for wave in range(1, len(self.node.coins) + 1) if 2 * wave - 1 >= self.node.floor()]
        self.words.append('leaders')
        found = [(wave, self.node.leader(wave)) for wave in waves]
        self.lines.append(' '.join(['leaders'] + ['%d:%s' % (wave, self.slot(one) if one else 'none') for wave, one in found]))

    def case(self, title):
        self.look()
        print('\n== %s' % title)
        print('parts')
        print('# %d commits, at most %d leaders at once, %d certificates ordered that came late' % (self.commits, self.longest, self.late))
        print('committee %s | depth = %d' % (' '.join(map(str, self.stakes)), self.depth))
        print('play ' + ' '.join(self.words))
        for line in self.lines:
            print('> ' + line)


def rows(played, rounds, authors, parents):
    for round_ in rounds:
        for author in authors:
            played.add(round_, author, parents)


def one_supporter(played, first_parents):
    """Four certificates of round 1, and rounds 2 and 3 over three below."""
    rows(played, [1], [0, 1, 2, 3], [0, 1, 2])
    played.add(2, 0, first_parents)
    rows(played, [2], [1, 2], [0, 2, 3])
    rows(played, [3], [0, 1, 2], [0, 1, 2])
    played.coin(1)


def late_supporter():
    played = Played(50, EQUAL)
    one_supporter(played, [1, 2, 3])
    played.add(2, 3, [1, 2, 3])
    played.case('a late supporter commits a leader')


def at_once():
    """Three of four members over the same three; the coin commits the leader that all support."""
    played = Played(50, EQUAL)
    rows(played, [1, 2, 3], [0, 1, 2], [0, 1, 2])
    played.coin(1)
    played.case('a coin commits a leader that all support')


def reached_leader(depth=50, counts=False):
    played = Played(depth, EQUAL)
    if counts:
        played.count()
    one_supporter(played, [1, 2, 3])
    rows(played, [4, 5], [0, 1, 2], [0, 1, 2])
    played.coin(0)
    played.case('a leader with one supporter is reached by the next, and committed with it' + (', depth %d, and what is read' % depth if counts else ''))


def skipped_leader():
    played = Played(50, EQUAL)
    one_supporter(played, [0, 2, 3])
    rows(played, [4, 5], [0, 1, 2], [0, 1, 2])
    played.coin(0)
    played.add(2, 3, [1, 2, 3])
    played.case('a leader that is skipped is never ordered by itself')


def left_out():
    played = Played(2, EQUAL)
    rows(played, [1, 2, 3], [0, 1, 2], [0, 1, 2])
    played.coin(0)
    rows(played, [4, 5], [0, 1, 2], [0, 1, 2])
    played.coin(0)
    played.add(2, 3, [0, 1, 2])
    played.add(3, 3, [1, 2, 3])
    played.add(4, 3, [1, 2, 3])
    played.add(5, 3, [1, 2, 3])
    rows(played, [6], [0, 1, 2], [1, 2, 3])
    rows(played, [7], [0, 1, 2], [0, 1, 2])
    played.coin(3)
    played.add(2, 3, [0, 1, 2])
    played.case('what the depth leaves out is never ordered')


def full_rounds(rounds):
    """All members over all of the round below, and for each wave the coin of the next member in turn."""
    played = Played(50, EQUAL)
    for round_ in range(1, rounds + 1):
        rows(played, [round_], [0, 1, 2, 3], [0, 1, 2, 3])
        if round_ % 2 == 1 and round_ > 1:
            played.coin((round_ // 2 - 1) % 4)
    played.case('%d full rounds, and coins for each member in turn' % rounds)


class Drawn(Played):
    """Certificates as they may come: by round, some late, some again, some that are refused."""

    def __init__(self, start, depth, stakes):
        super().__init__(depth, stakes)
        self.random = random.Random(start)
        self.made_up = 0

    def one_in(self, count):
        return self.random.randrange(count) == 0

    def held(self, round_):
        return [c.author for c in self.node.of_round(round_)]

    def quorum_of(self, members):
        """Some of these members that are a quorum, or all of them."""
        chosen = list(members)
        for member in self.random.sample(members, len(members)):
            others = [other for other in chosen if other != member]
            if self.node.committee.is_quorum(others) and not self.one_in(3):
                chosen = others
        return sorted(chosen)

    def make_up(self, member, full):
        """What a member makes of the rounds in which it was silent, each over its own of the round below."""
        for round_ in range(max(1, full - SILENCE), full + 1):
            parents = set(self.quorum_of(self.held(round_ - 1)))
            if (round_ - 1, member) in self.node.certificates:
                parents.add(member)
            self.add(round_, member, sorted(parents))

    def draw(self):
        node, committee = self.node, self.node.committee
        wave = len(node.coins) + 1
        if node.is_full(2 * wave + 1) and not self.one_in(4):
            return self.coin(self.random.randrange(1000))
        highest = max(round_ for round_, _ in node.certificates)
        full = max(round_ for round_ in range(highest + 1) if node.is_full(round_))
        round_ = full + 1 if not self.one_in(4) else max(1, full + 1 - self.random.randrange(6))
        free = [m for m in committee.members if m not in self.held(round_)]
        # One member is silent for a while, and makes up for it then: what it makes comes after later rounds.
        block, place = divmod(full, SILENCE)
        silent = block % len(committee.members)
        if place == 0 and block > self.made_up:
            self.made_up = block
            return self.make_up((block - 1) % len(committee.members), full)
        if silent in free and len(free) > 1 and committee.is_quorum(m for m in committee.members if m != silent):
            free.remove(silent)
        if self.one_in(12) or not free:
            author = self.random.choice(list(committee.members))
        else:
            author = self.random.choice(free)
        parents = self.quorum_of(self.held(round_ - 1))
        if self.one_in(20):
            parents = sorted(set(parents) | {self.random.choice(list(committee.members))})
        if parents:
            self.add(round_, author, parents)


def drawn(start, depth, stakes, events, counts=False):
    played = Drawn(start, depth, stakes)
    if counts:
        played.count()
    while len(played.words) < events:
        played.draw()
    words = 'depth %d, %d members' % (depth, len(stakes))
    played.case('%d random certificates and coins, %s, stakes %s, start value %d%s' % (events, words, ' '.join(map(str, stakes)), start, ', and what is read' if counts else ''))


print("""# crates: dag tusk flatten
# committee: the stakes of its members, and after a line what its file has beside them; quorum: its quorum. Each other command
# begins with a table of its own.
# play: certificates (the round, the author and the authors of the parents) and coins in the order in which they come to a node;
# leaders: those of the waves from the floor on. counts: from here on the answer has, for each leader that is committed, how many references
# are read for it, and how many where it is asked alone after the one before. These cases are written by oracles/orders.py --segments.""")
at_once()
late_supporter()
reached_leader()
skipped_leader()
left_out()
full_rounds(200)
drawn(1, 2, EQUAL, 300)
drawn(2, 3, EQUAL, 300)
drawn(3, 50, EQUAL, 300)
drawn(4, 3, [4, 1, 2, 3, 1, 2, 5], 300)
drawn(5, 2, [3, 1, 1, 1], 300)
drawn(6, 4, [1] * 31, 600)
reached_leader(50, True)
reached_leader(2, True)
drawn(2, 3, EQUAL, 300, True)
drawn(4, 3, [4, 1, 2, 3, 1, 2, 5], 300, True)
