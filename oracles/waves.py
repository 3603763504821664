#!/usr/bin/env python3
"""Computes what the program of crates/node_cluster prints.

    oracles/waves.py > crates/node_cluster/stdout

Four nodes play three waves, in rounds from 1 on. In each round every node is given the header that it proposes, and writes it. What a node
puts out is delivered to all others, and then all write, until nothing new is put out. In the fourth round node 3 is first given what the
others have put out, and stops before it writes that. Behind each odd round but the first the coin of the wave before is handed in: its
value is the wave's number. Answers, outputs and orders are those of the rules in oracles/histories.py, over all that a node took and over
what it wrote of that. The digests are computed from the bytes that docs/FORMATS.md gives.
"""
import clusters
import histories

WAVES, MEMBERS = 3, clusters.MEMBERS
STOPPING, LAST = WAVES + 1, 3


class Play:
    def __init__(self):
        self.headers = clusters.genesis()
        self.members = [clusters.Member(own, self.headers) for own in MEMBERS]
        self.delivered, self.shown = [0 for _ in MEMBERS], [0 for _ in MEMBERS]

    def propose(self):
        for member in self.members:
            proposal = member.accepted.proposal()
            if proposal:
                round_, parents, batches = proposal
                label = 'c%d%d' % (round_, member.own)
                self.headers[label] = histories.Header(label, member.own, round_, parents, batches)
                member.take_in(member.own, 'header ' + label)
                member.flush()

    def give(self, to, own):
        """Gives a node what another one has put out since that was last delivered. Returns how much was new."""
        member, new = self.members[own], 0
        for number in range(self.delivered[own], len(member.outputs)):
            message = member.message(number)
            if message and self.members[to].take_in(own, message).endswith(' new'):
                new += 1
        return new

    def deliver(self):
        some = True
        while some:
            some = False
            for own in MEMBERS:
                end = len(self.members[own].outputs)
                some = some or self.delivered[own] < end
                for to in MEMBERS:
                    if to != own:
                        self.give(to, own)
                self.delivered[own] = end
            for member in self.members:
                member.flush()

    def stop(self):
        lost = sum(self.give(LAST, own) for own in MEMBERS if own != LAST)
        answer, found = self.members[LAST].stop('keep').split()
        assert answer == 'reopened'
        print("member %d stops, and loses %d events that it hadn't written; it is opened again on %s" % (LAST, lost, found))

    def toss(self, wave):
        taken = [member.take_in(member.own, 'coin %d %d' % (wave, wave)) for member in self.members]
        print('the coin of wave %d is %d, and %d members take it' % (wave, wave, sum(answer.endswith(' new') for answer in taken)))

    def short(self, label):
        return self.headers[label].certificate[:4].hex()

    def tell_round(self, round_):
        held = self.members[0].accepted.node.of_round(round_)
        print(' '.join(['round %d, certified:' % round_] + ['%d:%s' % (header.author, header.certificate[:4].hex()) for header in held]))

    def tell_growth(self):
        for member in self.members:
            grown = member.order[self.shown[member.own]:]
            if grown:
                print(' '.join(['member %d orders' % member.own] + [self.short(label) for label in grown]))
            self.shown[member.own] = len(member.order)

    def tell_end(self):
        for member in self.members:
            print('the order of member %d, of %d certificates:' % (member.own, len(member.order)))
            for label in member.order:
                print('  %s round %d, member %d' % (self.short(label), self.headers[label].round, self.headers[label].author))
        assert all(member.order == self.members[0].order for member in self.members)
        print('the four orders are equal')

    def play(self):
        print('four members of one committee, each over a disk in memory, for %d waves' % WAVES)
        for round_ in range(1, 2 * WAVES + 2):
            self.propose()
            if round_ == STOPPING:
                self.stop()
            self.deliver()
            self.tell_round(round_)
            self.tell_growth()
            if round_ % 2 == 1 and round_ > 1:
                self.toss(round_ // 2)
                self.deliver()
                self.tell_growth()
        self.tell_end()


if __name__ == '__main__':
    Play().play()
