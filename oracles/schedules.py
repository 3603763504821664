#!/usr/bin/env python3
"""Plays drawn schedules of a cluster by plain rules, and writes what they come to.

    oracles/schedules.py > crates/test_cluster/data/schedules.cases

It takes some minutes, most of them for the schedules in which the nodes follow a broken rule.

A schedule is a list of moves of the honest members' nodes. With one dishonest member, number 3, there are three nodes; with two, 2 and 3,
there are two, and then more members are dishonest than the committee tolerates. Answers, outputs and orders are those of the rules in
oracles/histories.py, over all that a node took and over what is settled of that. Everything is drawn as follows, and in this order.

A number below a limit is drawn by a linear congruential generator: the state becomes the state times 25214903917 plus 11, modulo 2^48; the
number is the state without its last 17 bits, modulo the limit. A schedule's start value is that of the command plus the number of schedules
before it. Its generator begins at the start value times 11400714819323198485, modulo 2^48.

The dishonest members have a PLAN. With three nodes it is 0 if the start value's remainder by 8 is 0, else 1 if it is below 5, else 2; with
two nodes it is 3. First the node that they set APART is drawn. Then the values of eight coins are drawn, each below 8. With plan 1 it
becomes 3, the number of a dishonest member, unless it is below 3 and the start value is even; with plan 2 it becomes its remainder by 3, so
that honest members lead.

Before each 32 moves a number below 8 is drawn: the node of this number, if there is one, is DEAF from then on, and no other one. Each move
draws its kind, below 128, and a node. Where a kind has nothing to do the node goes on (below), with the numbers drawn so far gone.

    86  wanted    from the drawn node on, in turn, the first node that is up, isn't deaf and is READY for anything that it wants is found,
                  and one of the first six of these is drawn. Then a number below 64 is drawn. If that is 0 the delivery is lost: the node
                  wants it after all else, from the round after its own on, and flushes. Else it is given to the node
     2  any       a node is drawn, and one of its outputs: it is delivered to the first one drawn
    10  go on     from the drawn node on, the first that is up and proposes a header is given it; where there is none the first that has
                  anything pending, or is down, flushes; where there is none the first that is up, isn't deaf and is ready for anything is
                  given the first of that, or loses it, as above; where there is none, no node is deaf any more, and the same is tried
                  again, then with what a node would be ready for in the next round, and then in 1000 rounds; where there is none the drawn
                  node flushes
     1  show      a number below 6 is drawn. Of the dishonest members' headers the one with so many after it, or else the first, is given
     1  batch     the batch x or y of member 3, drawn below 2, is given
     1  vote      a dishonest member is drawn, and a number below 6: of the honest members' headers the one with so many after it, or else
                  the first, gets the member's vote, which its author is given
     1  gathered  a number below 6 is drawn. Of the headers on which honest members gave out votes that make a quorum with those of the
                  dishonest ones, the one with so many after it, or else the first, is certified by all these votes, and given
     1  forged    a number below 3 and one below 6 are drawn. Of all headers the one with so many after it, or else the first, is given
                  itself, a vote on it of an honest member that is drawn, or a certificate of all members: without good signatures
    23  coin      a number below 16 is drawn. If it is 0 a wave below 9 is drawn, from 1 on, and the node is given its coin. Else from the
                  drawn node on the first is given the coin of its next wave whose round is the fourth of that wave or greater; where there
                  is none the move is `wanted`
     1  fault     a call of a round is drawn. Where the node is up and has anything pending it flushes, and the call fails
     1  stop      the node stops

A flush of a node that is down is one number below 2 before: if that is 0 the node stops. A stop draws what it leaves of the disk. A node's
next wave is the one after the greatest whose coin it took; a stop takes it back to where it was when the node settled last. A node's ROUND
is that of the last header that it was given as its own.

When a node is given a header that it proposes, each dishonest member first draws a number below 4, and makes the FACE 0 or 1 of that round,
unless it has made it before. With plan 0 the face is that number, and there is none above 1. With plan 1 it is 0 in the first round and
each fourth after it, 1 in the third and each fourth after it, and else the number modulo 2. With plan 2 it is 0, and there is none if the
number is 3. With plan 3 it is 0 if the node is the one apart, else 1. The parents are, with plan 3, those of the node's header; else the
certificates of the round below that nodes put out or that can be gathered, of a member of whom there are several the last one of this face,
or else the first. Where there are four, face 1 leaves one out: in the second round of a wave the one by the author of its leader, in the
third round the first that names a certificate of that author. With plan 1 it isn't made yet if it would leave one out of three. If there
are fewer than three no face is made. Then, but with plan 3, a number below 64 is drawn, and the header names the batch x if it is 0, and y
if it is 1; with plan 3 face 0 names x, and face 1 y.

A certificate of a dishonest member comes to each node with a delay. For the node apart and for the others it is, with the plan

    0  of face 0 a number below 2, and 6 if a second number below 2 is 0, else 1; of face 1 the other way round. They are drawn now
    1  of face 0: 0 and 1 in odd rounds, 1 and 6 in even ones; of face 1: 6 and 0, and 6 and 1
    2  so many rounds as are left to round 7, and 1 below round 6, else 0
    3  of face 0: 0 and 1000; of face 1: 1000 and 0

A node wants both batches from the beginning, each header and certificate that another one puts out, all votes on its own headers, those of
the dishonest members from where it puts the header out, and of the dishonest members each header, from where it is made, and each
certificate, from where it can be gathered. It wants each of them once. What it takes it wants no more, until a stop loses it: then it
wants what it had taken since the last round that settled before all else, its own headers too. What it refuses it wants no more until it is
put out again; but what it refuses for want of parents, or since it is down, it wants after all else. It is ready for a batch; for a vote on
the last header that it was given as its own, until it took two of these since, or since it stopped; and for a header or certificate, if it
took all batches that it names and has all parents, and for the certificate of a dishonest member not before its round is the certificate's
and the delay more. It has the certificates that it put out, took, or refused as too old, but those that a stop lost. A header that is made
again is the one that was made before.

Counted are, beside the answers, the schedules in which a node gave out an order, and of these the ones in which all holds that agreement is
said under: no more members are dishonest than is tolerated; where a node is given a good signature of an honest member, on a vote or on
another member's header, that member signed the same in an output before; each coin has the value of its wave; and no two different headers
or certificates share a digest. Counted are also the schedules in which: two nodes have orders of unlike length at some moment, and none is empty; a node
commits a wave, skips one, and commits a later one; a dishonest member's certificate is committed as a leader; a node's floor rises by more
than one at once. All four are read off the orders that nodes gave out. A leader of a wave that stands in an order before all leaders of
later waves is committed, and no other one: a committed leader orders nothing of a later round than its own. `wrong` is the number of moves
after which of two orders none begins the other, or a node's order doesn't begin with what it was before, with the start value of the first
schedule that has such a move.

The sum is FNV-1a of 64 bits over all lines `KIND: ANSWER`, and after each schedule over the digests of each node's order.

The same schedules are played once more for each of six broken rules, which all nodes follow (`Broken`): a comment says in how many of them
a move is wrong. What nodes answer then is not compared with anything.
"""
import collections
import multiprocessing

import clusters
import histories

# Each with how many schedules, how many moves, the start value, and the committee's depth. At depth 2 floors rise.
COMMANDS = [('schedules', 500, 400, 1, 50), ('schedules', 500, 400, 501, 2)]
TOO_MANY = [('broken', 40, 400, 1, 50)]
MEMBERS, WAVES, NEAR, FIRST, LOST_ONE_OF, STRETCH, LAST_APART = 4, 8, 6, 6, 64, 32, 6
NO_FACE, SPLIT, LATER = 2, 3, 1000
BATCHES = 'xy'
STILL_WANTED = ('refused 2 Down', 'refused 4 MissingParents')
BAD_SIGNATURE = 'unchecked 4 BadSignature'

# What the counts have to reach, of the schedules with three nodes.
AT_LEAST = {'orders of unlike length': 600, 'waves skipped': 150, 'dishonest leaders': 150, 'floors risen': 200}
AT_LEAST_BROKEN = 10


# ---- rules that are broken

class Broken(clusters.Remembering):
    """A node that takes an order back where its rule does."""

    def grown(self, before):
        after = self.order()
        added = after[len(before):]
        return ['order %d %s' % (len(before), ' '.join(one.label for one in added))] if added else []


class OneSupporter(Broken):
    """A leader is committed that one member supports."""

    def top(self):
        waves = [wave for wave in range(1, len(self.coins) + 1) if self.leader(wave) and self.supporters(self.leader(wave))]
        return max(waves, default=None)


class EachHeader(Broken):
    """It votes for every header of another member."""

    def __init__(self):
        super().__init__()
        self.voted = set()

    def header(self, header):
        held = self.headers.get((header.round, header.author))
        if header.author != histories.OWN and held and header.digest not in self.voted:
            del self.headers[header.round, header.author]
            answer = super().header(header)
            self.headers.setdefault((header.round, header.author), held)
        else:
            answer = self.known(['vote ' + header.label]) if header.digest in self.voted else super().header(header)
        if header.author != histories.OWN and answer[0].startswith('new'):
            self.voted.add(header.digest)
        return answer


class DirectAlone(Broken):
    """With a leader no earlier one is committed."""

    def __init__(self):
        super().__init__()
        self.waves = []

    def chain(self):
        wave = self.top()
        if wave and wave > max(self.waves, default=0):
            self.waves.append(wave)
        return [self.leader(wave) for wave in self.waves]


class NoDepth(Broken):
    """A leader orders all that it reaches, however far below it."""

    def order(self):
        order, previous = [], {}
        for leader in self.chain():
            past = self.past(leader)
            order += [past[slot] for slot in sorted(past) if slot[0] >= 1 and slot not in previous]
            previous = past
        return order


class Unreached(Broken):
    """With a leader each earlier one is committed that is there, reached or not."""

    def chain(self):
        return [self.leader(wave) for wave in range(1, (self.top() or 0) + 1) if self.leader(wave)]


class Member(clusters.Member):
    """A node that says whether it took its order back. One that loses forgets with a stop the last group that it settled."""

    def __init__(self, own, headers, kind, loses):
        self.kind, self.loses, self.group, self.took_back = kind, loses, 0, False
        super().__init__(own, headers)

    def see(self, order):
        self.took_back = order[:len(self.order)] != self.order
        self.order = order

    def flush(self):
        self.group = len(self.pending) or self.group
        return super().flush()

    def stop(self, how):
        if self.loses and self.group:
            del self.settled[-self.group:]
            self.pending, self.group = [], 0
        return super().stop(how)


# What is broken, the rules of the nodes, and whether a stop loses what was settled.
RULES = [
    ('a leader with one supporter is committed', OneSupporter, False),
    ('there is a vote for every header', EachHeader, False),
    ('the direct leader alone is committed', DirectAlone, False),
    ('a stop loses the last group that was settled', Broken, True),
    ('no depth bounds what is ordered', NoDepth, False),
    ('earlier leaders are committed without being reached', Unreached, False),
]


# ---- what moves come to

class Draws:
    def __init__(self, start):
        self.state = start * 11400714819323198485 % 2 ** 48

    def below(self, limit):
        self.state = (self.state * 25214903917 + 11) % 2 ** 48
        return (self.state >> 17) % limit


class Report:
    """What the moves come to."""

    def __init__(self):
        self.counts, self.sum, self.marks = collections.Counter(), histories.Sum(), collections.Counter()
        self.lost, self.growths, self.longest, self.grown, self.fair, self.wrong, self.first_wrong = 0, 0, 0, 0, 0, 0, None

    def count(self, kind, answer):
        self.sum.add(('%s: %s\n' % (kind, answer)).encode())
        self.counts['%s: %s' % (kind, short(answer))] += 1

    def lines(self, start):
        lines = ['start %d' % start]
        lines += ['%s %d' % one for one in sorted(self.counts.items())]
        stops = sum(count for line, count in self.counts.items() if line.endswith(': reopened'))
        equivocations = sum(count for line, count in self.counts.items() if line.endswith(': refused 6 Equivocation'))
        lines += ['stops %d' % stops, 'equivocations %d' % equivocations, 'deliveries lost %d' % self.lost]
        lines += ['growths of orders %d' % self.growths]
        lines += ['longest order %d' % self.longest, 'schedules with orders %d' % self.grown]
        lines += ['of these with all premises of agreement %d' % self.fair]
        lines += ['schedules with %s %d' % (mark, self.marks[mark]) for mark in AT_LEAST]
        first = ', first in the schedule from %d' % self.first_wrong if self.wrong else ''
        return lines + ['sum %d' % self.sum.value, 'wrong %d%s' % (self.wrong, first)]


def short(answer):
    """An answer without how many there were."""
    words = answer.split()
    if words[0] == 'took':
        return 'took ' + words[2]
    return words[0] if words[0] in ('settled', 'reopened') else answer


# What is given to a node: a part of a header or a batch, by its kind and label, for a vote with the voter; from where it comes; and the
# round of the node from which on. It comes from an output, which is a node and a number, or where this is None from whom it is of.
Wish = collections.namedtuple('Wish', 'content output at', defaults=(None, 0))


class Wishes:
    """What a node wants, what it took since it settled last, and what it has, by labels."""

    def __init__(self):
        self.wanted, self.unsettled, self.offered, self.has = [], [], set(), set()
        self.pending, self.wave, self.settled_wave, self.outputs, self.order, self.committed = 0, 1, 1, 0, 0, 0
        self.own, self.voted = None, 0

    def round(self):
        return self.own.round if self.own else 0

    def offer(self, wish):
        if wish.content not in self.offered:
            self.offered.add(wish.content)
            self.wanted.append(wish)


class Schedule:
    def __init__(self, nodes, start, depth, report, kind=clusters.Remembering, loses=False):
        self.draws, self.nodes, self.depth, self.report = Draws(start), nodes, depth, report
        self.plan = SPLIT if nodes == 2 else (0, 1, 1, 1, 1, 2, 2, 2)[start % 8]
        self.apart = self.node()
        self.coins = [self.value(start, self.draws.below(8)) for _ in range(WAVES)]
        self.labelled = clusters.genesis()
        self.labelled.update((label, histories.Batch(label, MEMBERS - 1, label.encode())) for label in BATCHES)
        # The headers, the honest members that gave out votes on each, which are certified, and of those of dishonest members the face and
        # the delays.
        self.made, self.votes, self.certified, self.faces, self.delays = [], {}, set(), {}, {}
        self.members = [Member(own, self.labelled, kind, loses) for own in range(nodes)]
        self.wishes = [Wishes() for _ in range(nodes)]
        for wishes in self.wishes:
            wishes.wanted = [Wish(('batch', label)) for label in BATCHES]
        self.moves, self.deaf, self.marks, self.wrong = 0, nodes, set(), 0
        # What honest members signed in what they put out, and whether the premises of agreement hold of all that was given so far.
        self.signed, self.fair = set(), MEMBERS - nodes <= (MEMBERS - 1) // 3

    def value(self, start, drawn):
        if self.plan == 1:
            return drawn if drawn < MEMBERS - 1 and start % 2 == 0 else MEMBERS - 1
        return drawn % (MEMBERS - 1) if self.plan == 2 else drawn

    # ---- what there is to draw from

    def node(self):
        return self.draws.below(self.nodes)

    def dishonest(self):
        return self.nodes + self.draws.below(MEMBERS - self.nodes)

    def from_(self, node):
        return [(node + more) % self.nodes for more in range(self.nodes)]

    def near_last(self, number, holds):
        """Of the headers of which this holds the one with so many after it, or else the first."""
        found = [header for header in self.made if holds(header)][-number - 1:]
        return found[0] if found else None

    def is_dishonest(self, header):
        return header.author >= self.nodes

    def voters(self, header):
        return sorted(self.votes[header.label]) + list(range(self.nodes, MEMBERS))

    def form(self, author, round_, parents, batches):
        header = histories.Header('h%d' % len(self.made), author, round_, parents, batches)
        for other in self.made:
            if other.digest == header.digest:
                return other
        self.labelled[header.label], self.votes[header.label] = header, set()
        self.made.append(header)
        return header

    def is_ready(self, node, wish, more=0):
        """Whether a node may take what it wants, as far as is known, in a round so many later than its own."""
        (kind, label, *_), wishes = wish.content, self.wishes[node]
        if kind == 'batch':
            return True
        if kind == 'vote':
            return wishes.own is not None and wishes.own.label == label and wishes.voted < 2
        header = self.labelled[label]
        needed = [parent.label for parent in header.parents if parent.round > 0] + [batch.label for batch in header.batches]
        return wish.at <= wishes.round() + more and all(label in wishes.has for label in needed)

    def ready(self, node, more=0):
        """The places of what a node is ready for."""
        if self.members[node].failed or node == self.deaf:
            return []
        return [place for place, wish in enumerate(self.wishes[node].wanted) if self.is_ready(node, wish, more)]

    # ---- a move

    def step(self):
        if self.moves % STRETCH == 0:
            self.deaf = self.draws.below(8)
        self.moves += 1
        kind, node = self.draws.below(128), self.node()
        for weight, move in [(86, self.want), (2, self.any), (10, self.go_on), (1, self.show), (1, self.batch), (1, self.vote),
                             (1, self.gathered), (1, self.forged), (23, self.coin), (1, self.fault), (1, self.stop)]:
            if kind < weight:
                return move(node)
            kind -= weight

    def give(self, kind, to, sender, message, wish=None):
        wishes, (part, label, *_) = self.wishes[to], message.split()
        self.fair = self.fair and self.is_fair(to, message)
        answer = self.members[to].take_in(sender, message)
        if answer.endswith(' new'):
            wishes.pending += 1
            wishes.voted += part == 'vote'
            if wish:
                wishes.unsettled.append(wish)
        if part in ('certificate', 'batch') and (answer.startswith('took') or answer == 'refused 3 TooOld'):
            wishes.has.add(label)
        self.follow(kind, to, answer)
        return answer

    def is_fair(self, to, message):
        """Whether no signature of an honest member in a message is forged, and a coin has the value of its wave."""
        part, label, *more = message.split()
        if part == 'coin':
            return self.coins[int(label) - 1] == int(more[0])
        if part == 'header':
            author = self.labelled[label].author
            return author == to or author >= self.nodes or ('header', label, author) in self.signed
        voters = [int(voter) for voter in more[0].split(',')] if part in ('vote', 'certificate') else []
        return all(voter >= self.nodes or ('vote', label, voter) in self.signed for voter in voters)

    def follow(self, kind, node, answer):
        """Counts an answer, and looks at what the node put out, and at the orders."""
        self.report.count(kind, answer)
        member, wishes = self.members[node], self.wishes[node]
        for number in range(wishes.outputs, len(member.outputs)):
            self.look(node, number, member.outputs[number])
        self.report.growths += len(member.order) > wishes.order
        self.look_at_leaders(wishes, member.order[wishes.order:])
        wishes.outputs, wishes.order = len(member.outputs), len(member.order)
        if len({len(one.order) for one in self.members if one.order}) > 1:
            self.marks.add('orders of unlike length')
        self.wrong += member.took_back or not all(clusters.agree(one, other) for one in self.members for other in self.members)
        member.took_back = False

    def look_at_leaders(self, wishes, added):
        before = wishes.committed
        for header in map(self.labelled.get, added):
            wave = (header.round + 1) // 2
            if header.round % 2 == 1 and wishes.committed < wave <= WAVES and header.author == self.coins[wave - 1] % MEMBERS:
                if 0 < wishes.committed < wave - 1:
                    self.marks.add('waves skipped')
                if self.is_dishonest(header):
                    self.marks.add('dishonest leaders')
                wishes.committed = wave
        if self.floor(wishes.committed) > self.floor(before) + 1:
            self.marks.add('floors risen')

    def floor(self, wave):
        return max(0, 2 * wave - 1 - self.depth)

    def look(self, node, number, output):
        content = content_of(node, output)
        if not content:
            return
        kind, label, *_ = content
        header = self.labelled[label]
        # A member signs its own vote in its certificate too.
        self.signed.add(('header' if kind == 'header' else 'vote', label, node))
        if kind == 'vote':
            self.votes[label].add(node)
            if not self.is_dishonest(header):
                self.wishes[header.author].offer(Wish(content, (node, number)))
            elif len(self.voters(header)) >= 3:
                self.gather(header)
            return
        if kind == 'certificate':
            self.certified.add(label)
            self.wishes[node].has.add(label)
        for other in range(self.nodes):
            if other != node:
                self.wishes[other].offer(Wish(content, (node, number)))
        if kind == 'header':
            for voter in range(self.nodes, MEMBERS):
                self.wishes[node].offer(Wish(('vote', label, voter)))

    def gather(self, header):
        """The certificate of a dishonest member's header can be gathered."""
        self.certified.add(header.label)
        for node in range(self.nodes):
            apart, others = self.delays[header.label]
            at = header.round + (apart if node == self.apart else others)
            self.wishes[node].offer(Wish(('certificate', header.label), None, at))

    def deliver(self, kind, to, wish):
        """Gives a node what it wants."""
        if wish.output:
            own, number = wish.output
            message = self.members[own].message(number)
            if message:
                return self.give(kind, to, own, message, wish)
            self.follow(kind, to, 'error 3 NoSuchOutput')
            return 'error'
        part, label, *voter = wish.content
        if part == 'batch':
            return self.give(kind, to, MEMBERS - 1, 'batch ' + label, wish)
        header = self.labelled[label]
        if part == 'header':
            return self.give(kind, to, header.author, 'header ' + label, wish)
        if part == 'vote':
            return self.give(kind, to, voter[0], 'vote %s %d' % (label, voter[0]), wish)
        return self.give(kind, to, self.nodes, 'certificate %s %s' % (label, ','.join(map(str, self.voters(header)))), wish)

    # ---- the nodes' moves

    def want(self, node):
        for to in self.from_(node):
            ready = self.ready(to)[:FIRST]
            if ready:
                return self.give_wanted(to, ready[self.draws.below(len(ready))])
        self.go_on(node)

    def give_wanted(self, to, place):
        wishes = self.wishes[to]
        wish = wishes.wanted.pop(place)
        if self.draws.below(LOST_ONE_OF) == 0:
            self.report.lost += 1
            wishes.wanted.append(wish._replace(at=wishes.round() + 1))
            return self.flush(to)
        answer = self.deliver('wanted', to, wish)
        if answer in STILL_WANTED:
            wishes.wanted.append(wish)
        elif not answer.startswith('took'):
            wishes.offered.discard(wish.content)

    def any(self, node):
        own = self.node()
        outputs = self.members[own].outputs
        if not outputs:
            return self.go_on(node)
        number = self.draws.below(len(outputs))
        self.deliver('any', node, Wish(content_of(own, outputs[number]), (own, number)))

    def go_on(self, node):
        for own in self.from_(node):
            proposal = None if self.members[own].failed else self.members[own].accepted.proposal()
            if proposal:
                return self.hand_in(own, *proposal)
        for own in self.from_(node):
            if self.wishes[own].pending or self.members[own].failed:
                return self.flush(own)
        return self.give_first(node)

    def give_first(self, node):
        for more in (0, 0, 1, LATER):
            for own in self.from_(node):
                ready = self.ready(own, more)
                if ready:
                    return self.give_wanted(own, ready[0])
            self.deaf = self.nodes
        self.flush(node)

    def hand_in(self, own, round_, parents, batches):
        header = self.form(own, round_, parents, batches)
        self.wishes[own].own, self.wishes[own].voted = header, 0
        for author in range(self.nodes, MEMBERS):
            self.face(author, header)
        self.give('own', own, own, 'header ' + header.label, Wish(('header', header.label)))

    def flush(self, node):
        if self.members[node].failed and self.draws.below(2) == 0:
            return self.stop(node)
        answer, wishes = self.members[node].flush(), self.wishes[node]
        if answer.startswith('settled'):
            wishes.pending, wishes.unsettled, wishes.settled_wave = 0, [], wishes.wave
        self.follow('flush', node, answer)

    def fault(self, node):
        call = clusters.CALLS[self.draws.below(len(clusters.CALLS))]
        if self.members[node].failed or not self.wishes[node].pending:
            return self.go_on(node)
        self.follow('fault ' + call, node, self.members[node].fail(call))

    def stop(self, node):
        leaving = clusters.LEAVINGS[self.draws.below(len(clusters.LEAVINGS))]
        answer, wishes = self.members[node].stop(leaving), self.wishes[node]
        wishes.has -= {wish.content[1] for wish in wishes.unsettled if wish.content[0] in ('certificate', 'batch')}
        wishes.wanted = wishes.unsettled + wishes.wanted
        wishes.pending, wishes.unsettled, wishes.wave, wishes.voted = 0, [], wishes.settled_wave, 0
        self.follow('stop ' + leaving, node, answer)

    def coin(self, node):
        if self.draws.below(16) == 0:
            return self.toss(node, 1 + self.draws.below(WAVES))
        for own in self.from_(node):
            wave = self.wishes[own].wave
            if wave <= WAVES and self.wishes[own].round() >= 2 * wave + 2:
                return self.toss(own, wave)
        self.want(node)

    def toss(self, node, wave):
        answer = self.give('coin', node, node, 'coin %d %d' % (wave, self.coins[wave - 1]))
        if answer.startswith('took'):
            self.wishes[node].wave = max(self.wishes[node].wave, wave + 1)

    # ---- the dishonest members' moves

    def face(self, author, own):
        """A dishonest member makes a face of the round of a node's own header, if it does."""
        round_, drawn = own.round, self.draws.below(4)
        face = min(drawn, NO_FACE)
        if self.plan == 1:
            face = (drawn % 2, 0, drawn % 2, 1)[round_ % 4]
        if self.plan == 2:
            face = NO_FACE if drawn == 3 else 0
        if self.plan == SPLIT:
            face = int(own.author != self.apart)
        if face != NO_FACE and not any(one.author == author and one.round == round_ and self.faces[one.label] == face for one in self.made):
            self.make_face(author, round_, face, own.parents if self.plan == SPLIT else self.parents(round_, face))

    def make_face(self, author, round_, face, parents):
        avoided = [parent for parent in parents if face == 1 and self.leads(parent, round_)][:1]
        if len(parents) > 3:
            parents = [parent for parent in parents if parent not in avoided]
        elif avoided and self.plan == 1:
            return
        if len(parents) < 3:
            return
        named, delays = face if self.plan == SPLIT else self.draws.below(64), self.drawn_delays(round_, face)
        header = self.form(author, round_, parents, [self.labelled[label] for label in BATCHES[named:named + 1]])
        self.faces.setdefault(header.label, face)
        self.delays.setdefault(header.label, delays)
        for node in range(self.nodes):
            self.wishes[node].offer(Wish(('header', header.label)))

    def parents(self, round_, face):
        """The certificates of the round below by author, where there are several the last one of this face, or else the first."""
        if round_ == 1:
            return [self.labelled['g%d' % member] for member in range(MEMBERS)]
        found = {}
        for one in self.made:
            if one.round == round_ - 1 and one.label in self.certified:
                if one.author not in found or self.faces.get(one.label) == face:
                    found[one.author] = one
        return [found[author] for author in sorted(found)]

    def leads(self, parent, round_):
        """Whether a parent in a wave's second round is of its leader, or in its third names one of the leader's author."""
        wave = round_ // 2
        if not 1 <= wave <= WAVES:
            return False
        leader = self.coins[wave - 1] % MEMBERS
        return parent.author == leader if round_ % 2 == 0 else any(one.author == leader for one in parent.parents)

    def drawn_delays(self, round_, face):
        """The delays for the node apart, and for the others."""
        if self.plan == 0:
            near, rest = self.draws.below(2), (6, 1)[self.draws.below(2)]
            return (rest, near) if face else (near, rest)
        if self.plan == 1:
            return (((1, 6), (0, 1)), ((6, 1), (6, 0)))[face][round_ % 2]
        if self.plan == SPLIT:
            return (LATER, 0) if face else (0, LATER)
        return max(0, LAST_APART + 1 - round_), int(round_ < LAST_APART)

    def show(self, node):
        header = self.near_last(self.draws.below(NEAR), self.is_dishonest)
        if not header:
            return self.go_on(node)
        self.deliver('show', node, Wish(('header', header.label)))

    def batch(self, node):
        self.deliver('batch', node, Wish(('batch', BATCHES[self.draws.below(len(BATCHES))])))

    def vote(self, node):
        voter, number = self.dishonest(), self.draws.below(NEAR)
        header = self.near_last(number, lambda header: not self.is_dishonest(header))
        if not header:
            return self.go_on(node)
        self.deliver('vote', header.author, Wish(('vote', header.label, voter)))

    def gathered(self, node):
        header = self.near_last(self.draws.below(NEAR), lambda header: len(self.voters(header)) >= 3)
        if not header:
            return self.go_on(node)
        self.deliver('gathered', node, Wish(('certificate', header.label)))

    def forged(self, node):
        kind, number = self.draws.below(3), self.draws.below(NEAR)
        if not self.made:
            return self.go_on(node)
        if kind == 1:
            self.node()
        self.follow('forged', node, BAD_SIGNATURE)


def content_of(node, output):
    """What an output has, if it is a header, a vote or a certificate."""
    kind, label, *_ = output.split()
    if kind == 'vote':
        return kind, label, node
    return (kind, label) if kind in ('header', 'certificate') else None


# ---- all schedules

def play(command):
    """The report of the schedules of a command."""
    name, count, moves, start, depth = command
    clusters.DEPTH = depth
    report = Report()
    for number in range(count):
        schedule = Schedule(3 if name == 'schedules' else 2, start + number, depth, report)
        for _ in range(moves):
            schedule.step()
        orders = [member.order for member in schedule.members]
        report.longest = max([report.longest] + [len(order) for order in orders])
        report.grown += any(orders)
        report.fair += any(orders) and schedule.fair
        report.marks.update(schedule.marks)
        if schedule.wrong and not report.wrong:
            report.first_wrong = start + number
        report.wrong += schedule.wrong
        for label in sum(orders, []):
            report.sum.add(schedule.labelled[label].certificate)
    return report


def play_broken(task):
    """In how many schedules of a command a move is wrong where all nodes follow a broken rule."""
    (_, kind, loses), (_, count, moves, start, depth) = task
    clusters.DEPTH = depth
    found = 0
    for number in range(count):
        schedule, left = Schedule(3, start + number, depth, Report(), kind, loses), moves
        while left and not schedule.wrong:
            schedule.step()
            left -= 1
        found += schedule.wrong > 0
    return found


def main():
    print('# crates: test_cluster')
    print('# Schedules that are drawn from start values. `oracles/schedules.py` says how, and computes what they come to.')
    with multiprocessing.Pool() as pool:
        reports = pool.map_async(play, COMMANDS + TOO_MANY, chunksize=1)
        broken = pool.map(play_broken, [(rule, command) for rule in RULES for command in COMMANDS], chunksize=1)
        reports = reports.get()
    marks = sum((report.marks for report in reports[:len(COMMANDS)]), collections.Counter())
    assert all(marks[mark] >= least for mark, least in AT_LEAST.items())
    print('# In so many of the schedules with three nodes a move is wrong if all nodes follow a broken rule, at each depth:')
    for place, (what, _, _) in enumerate(RULES):
        found = broken[place * len(COMMANDS):][:len(COMMANDS)]
        assert sum(found) >= AT_LEAST_BROKEN
        print('#   %s: %s' % (what, ' and '.join(map(str, found))))
    for title, commands in [('three nodes and a dishonest member', COMMANDS), ('two nodes and two dishonest members', TOO_MANY)]:
        print('\n== ' + title)
        for command in commands:
            report = reports.pop(0)
            print('%s %d %d %d %d' % command)
            print('\n'.join('> ' + line for line in report.lines(command[3])))
            assert (report.wrong > 0) == (commands is TOO_MANY)


if __name__ == '__main__':
    main()
