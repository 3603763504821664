#!/usr/bin/env python3
"""Writes lists of moves of a cluster, and what each move is answered.

    oracles/clusters.py > crates/test_cluster/data/clusters.cases
    oracles/clusters.py --allocations PROGRAM LIBRARY

In the first lists four nodes come to one order: that of the certificates c10 to c13 of round 1, and of rounds 2 to 5 those of members
0, 1 and 2. The leader of wave 1, c11, is supported by c20 alone, which is too few; c30, the leader of wave 2, reaches it. The first list
goes round by round. In the second a machine stops after each part of a round. The third is the first, applied at once. The others are drawn from the start values below: any
output may be delivered to any node, early, late or again; calls of a disk fail, and machines stop, with what they haven't settled.
In the last lists there are three nodes, and a member that shows two faces. Behind each move one of any two orders begins the other.
What is expected is computed by the plain rules of oracles/histories.py, over all that a node accepted and over what is settled of that.

With --allocations the program of test_cluster is run on moves of one node, each of which stands twice, with one allocation after the other
failing, by the library that `scripts/every-allocation` makes. A move that memory is refused to has either not come, or it was made and what
it puts out waits: the move after it is answered so.
"""
import functools
import os
import random
import re
import subprocess
import sys
import tempfile

import histories

MEMBERS, DEPTH = range(4), 50

# Batches that a node holds at most.
BATCHES = 2

ORDER = 'c11 c10 c12 c13 c20 c21 c22 c30'.split()
COINS = {1: 1, 2: 0}
STARTS, STEPS = [1, 2], 400

# The member that is no node where it is dishonest.
OTHER = 3

# What a stop leaves of a disk: what a read gives, what was synced, or one of two bytes wherever one was written since.
LEAVINGS = ['keep', 'lose', 'tear 00', 'tear 37']

# The calls of an append. Where the last one fails the group's gate is written, and not synced.
CALLS = ['write 1', 'sync 1', 'write 2', 'sync 2']
LEAVINGS_OF_AN_OPEN_GATE = ['keep', 'tear 37']

# The authors of each round with the parents of their headers. A node's proposal would name all certificates that it holds.
ROUNDS = [
    {author: ['g0', 'g1', 'g2', 'g3'] for author in MEMBERS},
    {0: ['c11', 'c12', 'c13'], 1: ['c10', 'c12', 'c13'], 2: ['c10', 'c12', 'c13']},
    {author: ['c20', 'c21', 'c22'] for author in range(3)},
    {author: ['c30', 'c31', 'c32'] for author in range(3)},
    {author: ['c40', 'c41', 'c42'] for author in range(3)},
]


def genesis():
    """The headers of round 0 by their labels."""
    return {'g%d' % author: histories.Header('g%d' % author, author, 0, [], []) for author in MEMBERS}


def headers():
    """The headers of all rounds by their labels."""
    found = genesis()
    for round_, authors in enumerate(ROUNDS, 1):
        for author, parents in authors.items():
            label = 'c%d%d' % (round_, author)
            found[label] = histories.Header(label, author, round_, [found[parent] for parent in parents], [])
    return found


class Remembering(histories.Node):
    """A node that looks once for what a certificate reaches, as the parents of what is held are there, and for its round from above."""

    def __init__(self):
        super().__init__(DEPTH, histories.Committee([1] * len(MEMBERS)))
        self.pasts = {}

    def round(self):
        full = (round_ for round_ in range(max(self.certificates)[0], -1, -1) if self.is_full(round_))
        return 1 + next(full)

    def past(self, certificate):
        if certificate.label not in self.pasts:
            self.pasts[certificate.label] = super().past(certificate)
        return self.pasts[certificate.label]


class Rules:
    """What a member's node answers after what it took. The rules of oracles/histories.py are those of the member OWN there."""

    def __init__(self, own, headers, events, kind):
        self.own, self.headers, self.node = own, headers, kind()
        for event in events:
            word, _ = self.take(*event)
            assert word.startswith('new')
        self.node.events = 0

    def take(self, sender, message):
        """The answer to a message from a sender, and what it puts out."""
        histories.OWN = self.own
        kind, *words = message.split()
        if kind == 'coin':
            return self.node.coin(sender, int(words[0]), int(words[1]))
        if kind == 'batch':
            return self.node.batch(self.headers[words[0]], BATCHES)
        if kind == 'ack':
            return self.node.ack(self.headers[words[0]], sender)
        header = self.headers[words[0]]
        if kind == 'header':
            return self.node.header(header)
        if kind == 'vote':
            return self.node.vote(header, int(words[1]))
        return self.node.certificate(header, [int(voter) for voter in words[1].split(',')])

    def proposal(self):
        histories.OWN = self.own
        return self.node.propose()

    def order(self):
        return [one.label for one in self.node.order()]


class Member:
    """A node over its runs: what is settled of all that it took, and all that it put out."""

    # What it answers by.
    kind = Remembering

    def __init__(self, own, headers):
        self.own, self.headers, self.settled, self.outputs, self.order = own, headers, [], [], []
        # The messages that it took, but those that a stop lost, or whose outputs it lost.
        self.taken = set()
        self.begin()

    def begin(self):
        """A run on what is settled."""
        self.accepted, self.firm = self.rules(), self.rules()
        self.pending, self.waiting, self.synced = [], [], 0
        self.failed = None
        self.collect()

    def rules(self):
        """The rules after what is settled."""
        return Rules(self.own, self.headers, self.settled, self.kind)

    def take_in(self, sender, message):
        if self.failed:
            return 'refused 2 Down'
        word, outputs = self.accepted.take(sender, message)
        if word.startswith('new'):
            self.pending.append((sender, message))
        self.waiting += [(self.accepted.node.events, output) for output in outputs]
        self.release()
        if word.startswith('refused'):
            return word
        self.taken.add(message)
        newness, ticket = word.split()
        return 'took %s %s' % (ticket, newness)

    def flush(self):
        if self.failed:
            return 'fault 4 Down'
        count = len(self.pending)
        for event in self.pending:
            word, _ = self.firm.take(*event)
            assert word.startswith('new')
        self.settled += self.pending
        self.synced += count
        self.pending = []
        self.collect()
        return 'settled %d' % count

    def fail(self, call):
        """A flush of what is pending, in which this call fails."""
        self.failed = call
        return 'fault 2 Device'

    def stop(self, how):
        self.taken = {message for _, message in self.settled}
        if self.failed == CALLS[-1] and how in LEAVINGS_OF_AN_OPEN_GATE:
            self.settled += self.pending
        self.begin()
        return 'reopened %d' % len(self.settled)

    def collect(self):
        """Reads the order, and puts out what waits for nothing any more."""
        self.see(self.firm.order())
        self.release()

    def see(self, order):
        """The order is never taken back."""
        assert order[:len(self.order)] == self.order
        self.order = order

    def release(self):
        self.outputs += [output for ticket, output in self.waiting if ticket <= self.synced]
        self.waiting = [(ticket, output) for ticket, output in self.waiting if ticket > self.synced]

    def message(self, number):
        """The message in an output: with the voter after a vote's header. A piece of the order is none."""
        kind, *words = self.outputs[number].split()
        if kind == 'order':
            return None
        return ' '.join([kind] + words + ([str(self.own)] if kind == 'vote' else []))


class List:
    """A list of moves, with what each of them is answered."""

    def __init__(self, title, nodes, headers):
        self.nodes, self.headers = nodes, headers
        self.members = [Member(own, headers) for own in nodes]
        self.lines = ['', '== ' + title, 'cluster %d' % len(nodes)]
        for header in headers.values():
            if header.round > 0:
                self.form(header)
        for own in nodes:
            self.propose(own)

    def form(self, header):
        parents = ','.join(parent.label for parent in header.parents)
        self.lines.append('form %s %d %d %s -' % (header.label, header.author, header.round, parents))

    def tell(self, command, answer):
        self.lines += [command, '> ' + answer]

    def propose(self, own):
        found = self.members[own].accepted.proposal()
        told = 'no header'
        if found:
            round_, parents, _ = found
            told = ' '.join(['header %d' % round_] + [parent.label for parent in parents])
        self.tell('propose %d' % own, told)

    def own(self, label):
        own = self.headers[label].author
        self.give(own, own, 'header ' + label)

    def give(self, to, sender, message):
        self.tell('give %d from %d %s' % (to, sender, message), self.members[to].take_in(sender, message))

    def deliver(self, own, number, to):
        message = self.members[own].message(number)
        answer = self.members[to].take_in(own, message) if message else 'error 3 NoSuchOutput'
        self.tell('deliver %d %d to %d' % (own, number, to), answer)

    def coin(self, own, wave, value):
        self.tell('coin %d %d %d' % (own, wave, value), self.members[own].take_in(own, 'coin %d %d' % (wave, value)))

    def flush(self, own):
        self.tell('flush %d' % own, self.members[own].flush())

    def stop(self, own, how):
        self.tell('stop %d %s' % (own, how), self.members[own].stop(how))

    def fail(self, own, call):
        self.lines.append('fail %d %s' % (own, call))
        self.tell('flush %d' % own, self.members[own].fail(call))

    def look(self, own):
        self.tell('order %d' % own, ' '.join(['order'] + (self.members[own].order or ['none'])))
        self.tell('outputs %d' % own, 'outputs %d' % len(self.members[own].outputs))

    def flush_all(self):
        for own in self.nodes:
            self.flush(own)

    def ends(self):
        """What the nodes have given out. Each that put a piece of its order out has a number for that, which is none of a message."""
        for own in self.nodes:
            self.look(own)
            for number, output in enumerate(self.members[own].outputs):
                if output.startswith('order'):
                    self.deliver(own, number, (own + 1) % len(self.nodes))
        print('\n'.join(self.lines))


class Plan(List):
    """The same moves, which are planned, and applied all at once to a cluster that is opened for them."""

    def __init__(self, title, nodes, headers):
        self.plan, self.forms, self.answers = [], [], []
        super().__init__(title, nodes, headers)
        self.lines = ['', '== ' + title] + self.forms

    def form(self, header):
        super().form(header)
        self.forms.append(self.lines[-1])

    def propose(self, own):
        """Nothing is asked before all moves are applied."""

    def look(self, own):
        """Nor is this."""

    def tell(self, command, answer):
        self.plan.append('plan ' + command)
        self.answers += ['> ' + line for line in answer.split('\n')]

    def ends(self):
        """What the moves were answered, and what the nodes have given out in the end."""
        self.lines += self.plan + ['play %d' % len(self.nodes)] + self.answers
        for own in self.nodes:
            self.lines += ['order %d' % own, '> ' + ' '.join(['order'] + self.members[own].order)]
            self.lines += ['outputs %d' % own, '> outputs %d' % len(self.members[own].outputs)]
        print('\n'.join(self.lines))


# ---- lists that go round by round

def new_outputs(moves, seen, kind):
    """The outputs of a kind that nobody looked at before, with the node that put each of them out."""
    found = []
    for own in MEMBERS:
        outputs = moves.members[own].outputs
        found += [(own, number) for number in range(seen[own], len(outputs)) if outputs[number].startswith(kind)]
        seen[own] = len(outputs)
    return found


def others(own):
    return [other for other in MEMBERS if other != own]


def play_round(moves, round_, seen, behind):
    """Each author's header to all, the votes back to the authors, and the certificates to all."""
    labels = [label for label, header in moves.headers.items() if header.round == round_]
    for label in labels:
        moves.own(label)
        moves.flush(moves.headers[label].author)
    for own, number in new_outputs(moves, seen, 'header'):
        for other in others(own):
            moves.deliver(own, number, other)
    moves.flush_all()
    behind(moves)
    for own, number in new_outputs(moves, seen, 'vote'):
        header = moves.headers[moves.members[own].outputs[number].split()[1]]
        moves.deliver(own, number, header.author)
    moves.flush_all()
    behind(moves)
    for own, number in new_outputs(moves, seen, 'certificate'):
        for other in others(own):
            moves.deliver(own, number, other)
    moves.flush_all()
    behind(moves)


def by_rounds(title, behind, kind=List):
    moves, seen = kind(title, MEMBERS, headers()), [0] * len(MEMBERS)
    for round_ in range(1, len(ROUNDS) + 1):
        play_round(moves, round_, seen, behind)
        if round_ % 2 == 1 and round_ > 1:
            for own in MEMBERS:
                moves.coin(own, round_ // 2, COINS[round_ // 2])
                moves.flush(own)
                moves.look(own)
    for own in MEMBERS:
        moves.propose(own)
    moves.ends()
    assert all(member.order == ORDER for member in moves.members)


class Stops:
    """The nodes stop in turn, each in each of the ways in turn. All is settled then."""

    def __init__(self):
        self.count = 0

    def __call__(self, moves):
        moves.stop(self.count % len(MEMBERS), LEAVINGS[self.count % 3])
        self.count += 1


# ---- drawn lists

class Drawn:
    """A list of moves that are drawn: mostly what a node doesn't have yet, else anything."""

    def __init__(self, start, title, nodes, headers):
        self.draws, self.moves = random.Random(start), List('%s, drawn from %d' % (title, start), nodes, headers)
        self.nodes, self.members, self.headers = nodes, self.moves.members, headers

    def wanted(self):
        """The first output with each message that its receiver hasn't taken, or has lost."""
        found = {}
        for own in self.nodes:
            for number, output in enumerate(self.members[own].outputs):
                message = self.members[own].message(number)
                for to in self.nodes:
                    if message and self.is_for(output, own, to) and message not in self.members[to].taken:
                        found.setdefault((message, to), (own, number, to))
        return list(found.values())

    def is_for(self, output, own, to):
        """A vote is for its header's author, who has to have the header, and all else for all others. Who is down takes nothing."""
        kind, label, *_ = output.split()
        if self.members[to].failed:
            return False
        if kind == 'vote':
            return self.headers[label].author == to and 'header ' + label in self.members[to].taken
        return own != to

    def deliver_any(self):
        own = self.draws.choice(self.nodes)
        if self.members[own].outputs:
            self.moves.deliver(own, self.draws.randrange(len(self.members[own].outputs)), self.draws.choice(self.nodes))

    def own_moves(self):
        """The kinds of move that a list has beside those of all lists, with what each weighs."""
        return []

    def step(self):
        """One move: each kind of move that there is weighs so much."""
        own, wanted = self.draws.choice(self.nodes), self.wanted()
        unsettled = [member.own for member in self.members if member.pending and not member.failed]
        down = [member.own for member in self.members if member.failed]
        moves = self.own_moves() + [
            (18 * bool(wanted), lambda: self.moves.deliver(*self.draws.choice(wanted))),
            (10 * bool(unsettled), lambda: self.moves.flush(self.draws.choice(unsettled))),
            (1 * bool(unsettled), lambda: self.moves.fail(self.draws.choice(unsettled), self.draws.choice(CALLS))),
            (4 * bool(down), lambda: self.moves.stop(self.draws.choice(down), self.draws.choice(LEAVINGS))),
            (2, lambda: self.deliver_any()),
            (1, lambda: self.moves.flush(own)),
            (1, lambda: self.moves.stop(own, self.draws.choice(LEAVINGS))),
        ]
        self.draws.choices([move for _, move in moves], [weight for weight, _ in moves])[0]()
        assert all(agree(one, other) for one in self.members for other in self.members)


def agree(one, other):
    """One of the orders begins the other."""
    return all(a == b for a, b in zip(one.order, other.order))


class Honest(Drawn):
    """Four nodes, which are given the headers that are written above, until they have the order."""

    def __init__(self, start):
        super().__init__(start, 'four nodes', MEMBERS, headers())

    def unmade(self):
        """The headers that their authors don't have."""
        made = [self.members[own].taken for own in self.nodes]
        return [label for label, header in self.headers.items()
                if header.round > 0 and not self.members[header.author].failed and 'header ' + label not in made[header.author]]

    def own_moves(self):
        unmade, own, wave = self.unmade(), self.draws.choice(self.nodes), self.draws.choice(list(COINS))
        return [(8 * bool(unmade), lambda: self.moves.own(unmade[0])), (3, lambda: self.moves.coin(own, wave, COINS[wave]))]

    def play(self):
        while any(member.failed or member.order != ORDER for member in self.members):
            self.step()
        self.moves.ends()


class TwoFaced(Drawn):
    """Three nodes, which are given the headers that they propose. Member 3 is none of them. It makes two headers for a round where it can,
    gives each node any of them, votes for all, and gathers what votes the nodes gave out."""

    def __init__(self, start):
        super().__init__(start, 'three nodes and a member with two faces', range(3), genesis())
        self.values = [self.draws.randrange(8) for _ in range(STEPS)]
        self.faces = []

    def form(self, author, round_, parents):
        """The label of a header, which is formed where it wasn't."""
        header = histories.Header('h%d' % len(self.headers), author, round_, parents, [])
        for other in self.headers.values():
            if other.digest == header.digest:
                return other.label
        self.headers[header.label] = header
        self.moves.form(header)
        return header.label

    def hand_in(self, own):
        """A node is given its proposal."""
        round_, parents, _ = self.members[own].accepted.proposal()
        self.moves.own(self.form(own, round_, parents))

    def make_faces(self):
        """Two headers of the round of a node, of which one names a certificate less, if a quorum is left."""
        node = self.members[self.draws.choice(self.nodes)].accepted.node
        parents = node.of_round(node.round() - 1)
        self.faces.append(self.form(OTHER, node.round(), parents))
        if len(parents) > 3:
            self.faces.append(self.form(OTHER, node.round(), parents[1:]))

    def show(self):
        """A node is given one of the last faces."""
        self.moves.give(self.draws.choice(self.nodes), OTHER, 'header ' + self.draws.choice(self.faces[-4:]))

    def vote(self):
        """A node is given a vote for one of its headers."""
        label = self.draws.choice([label for label, header in self.headers.items() if header.author != OTHER and header.round > 0])
        self.moves.give(self.headers[label].author, OTHER, 'vote %s %d' % (label, OTHER))

    def certified(self):
        """The certificates of its headers that the nodes' votes make, with its own vote."""
        found = []
        for label in self.faces:
            voters = [own for own in self.nodes if 'vote ' + label in self.members[own].outputs]
            if len(voters) > 1:
                found.append('certificate %s %s' % (label, ','.join(map(str, voters + [OTHER]))))
        return found

    def give_certificate(self, message):
        to = self.draws.choice(self.nodes)
        self.moves.tell('give %d from %d %s' % (to, OTHER, message.replace('certificate', 'cert', 1)), self.members[to].take_in(OTHER, message))

    def hand_in_coin(self, own):
        wave = len(self.members[own].accepted.node.coins) + 1
        self.moves.coin(own, wave, self.values[wave])

    def own_moves(self):
        own = self.draws.choice(self.nodes)
        proposing = [member.own for member in self.members if not member.failed and member.accepted.proposal()]
        certified = self.certified()
        return [
            (8 * bool(proposing), lambda: self.hand_in(self.draws.choice(proposing))),
            (2, lambda: self.make_faces()),
            (4 * bool(self.faces), lambda: self.show()),
            (2 * (len(self.headers) > len(MEMBERS) + len(set(self.faces))), lambda: self.vote()),
            (3 * bool(certified), lambda: self.give_certificate(self.draws.choice(certified[-3:]))),
            (3, lambda: self.hand_in_coin(own)),
        ]

    def play(self):
        for step in range(STEPS):
            self.step()
            if step % 50 == 0:
                for own in self.nodes:
                    self.moves.look(own)
        self.moves.ends()


# ---- allocations that fail

MEMORY = re.compile('(unchecked|refused|fault|error) 1 Memory')
# What a program of tests prints of an answer that is another one, and at the end.
OTHERWISE, ENDING = re.compile('^memory.cases, line ([0-9]+): expected\n', re.M), re.compile('^memory.cases: [0-9]+ commands', re.M)


def moves_of_one():
    """The moves of node 0, each twice: its text, and what it does. The node makes a certificate, gets others, and a coin."""
    def give(sender, message):
        return 'give 0 from %d %s' % (sender, message.replace('certificate', 'cert')), lambda node: node.take_in(sender, message)

    flush, look = ('flush 0', Member.flush), ('order 0', lambda node: ' '.join(['order'] + (node.order or ['none'])))
    outputs = 'outputs 0', lambda node: 'outputs %d' % len(node.outputs)
    stop = 'stop 0 keep', lambda node: node.stop('keep')
    moves = [give(0, 'header c10'), give(1, 'header c11'), flush, give(1, 'vote c10 1'), give(2, 'vote c10 2'), flush, outputs]
    labels = ['c11', 'c12', 'c13', 'c20', 'c21', 'c22', 'c30', 'c31', 'c32']
    moves += [give(1, 'certificate %s 0,1,2' % label) for label in labels]
    moves += [give(0, 'coin 1 2'), flush, look, outputs, give(2, 'header c32'), stop, give(2, 'header c32'), flush, look, outputs]
    return [move for one in moves for move in ([one] if one[0].split()[0] == 'stop' else [one, one])]


class Refused:
    """Runs of the program on these moves, with how often a run came to what."""

    def __init__(self):
        self.moves, self.ends = moves_of_one(), {}
        forms = List('the moves of one node', MEMBERS, headers()).lines
        self.lines = ['# crates: cluster'] + forms[1:2] + [line for line in forms if line.startswith('form')] + ['cluster 4']
        self.opening = len(self.lines)
        # The line of each move in the file, counted from 1.
        self.places = {}
        for place, ((text, _), answer) in enumerate(zip(self.moves, self.answers(None))):
            self.places[len(self.lines) + 1] = place
            self.lines += [text, '> ' + answer]

    @functools.cache
    def answers(self, other, call=None):
        """What each move is answered, where one of them isn't made, or this device call of it fails."""
        node = Member(0, headers())
        return tuple((node.fail(call) if call else None) if place == other else act(node) for place, (_, act) in enumerate(self.moves))

    def take(self, status, text):
        """Whether a run may end so, and what it came to."""
        end = 'another end'
        if (status, text) == (1, ''):
            end = "the test's own"
        elif re.search(' commands, 0 answers were not', text):
            end = 'nothing was refused'
        else:
            parts = OTHERWISE.split(ENDING.split(text)[0])
            found = {int(line): part.partition('and it was\n')[2].rstrip('\n') for line, part in zip(parts[1::2], parts[2::2])}
            first = min(found, default=0)
            if first == self.opening and found[first].startswith('error'):
                end = 'not opened'
            elif first in self.places:
                end = self.judge(self.places[first], found)
        self.ends[end] = self.ends.get(end, 0) + 1
        return end != 'another end'

    def judge(self, place, found):
        whole = self.answers(None)
        got = [found.get(line, whole[at]) for line, at in self.places.items()]
        told, rest = got[place], got[place + 1:]
        if MEMORY.fullmatch(told) and rest in [list(one[place + 1:]) for one in (self.answers(place), whole)]:
            return '%s %s' % (self.moves[place][0].split()[0], told)
        if told == 'fault 2 Device' and rest in [list(self.answers(place, call)[place + 1:]) for call in CALLS]:
            return 'a disk failed'
        if told.startswith('error 4 Journal') and all(one.startswith(('error 2 NoSuchNode', 'order', 'outputs')) for one in rest):
            return 'not opened again'
        return "the test's own" if rest == list(whole[place + 1:]) and is_cut(told, whole[place]) else 'another end'


def is_cut(told, answer):
    """Whether a part of an answer is missing, since memory was refused where it was told."""
    return len(told) < len(answer) and any(
        answer.startswith(told[:place]) and answer.endswith(told[place:]) for place in range(len(told) + 1))


def refuse_each(program, library):
    refused = Refused()
    with tempfile.TemporaryDirectory() as folder:
        with open(os.path.join(folder, 'memory.cases'), 'w', encoding='utf-8') as file:
            file.write('\n'.join(refused.lines) + '\n')

        def run(place):
            settings = {**os.environ, 'LD_PRELOAD': library, 'FAILS_AT': str(place)}
            ran = subprocess.run([program, 'memory.cases'], cwd=folder, env=settings, stdout=subprocess.PIPE, stderr=subprocess.PIPE)
            return ran.returncode, ran.stdout.decode(), int(ran.stderr.split()[-1])

        status, text, total = run(0)
        assert status == 0, text
        for place in range(1, total + 1):
            status, text, _ = run(place)
            if not refused.take(status, text):
                print('allocation %d: status %d: %s' % (place, status, text[:400]))
    for end, count in sorted(refused.ends.items()):
        print('%d %s' % (count, end))
    print('%d allocations, %d ended otherwise' % (total, refused.ends.get('another end', 0)))
    return 1 if refused.ends.get('another end') or not any(MEMORY.search(end) for end in refused.ends) else 0


def main():
    if sys.argv[1:2] == ['--allocations']:
        sys.exit(refuse_each(*sys.argv[2:]))
    print('# crates: cluster desk spec_cluster')
    print('# Nodes, moved by a list of moves. `oracles/clusters.py` wrote the moves, and computes what each is answered.')
    by_rounds('four nodes come to one order', lambda moves: None)
    by_rounds('four nodes that stop by turns come to the same order', Stops())
    by_rounds('a cluster to which the first list is applied at once comes to it too', lambda moves: None, Plan)
    for start in STARTS:
        Honest(start).play()
    for start in STARTS:
        TwoFaced(start).play()


if __name__ == '__main__':
    main()
