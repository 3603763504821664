#!/usr/bin/env python3
"""Openings of a node on two areas, of which many are in version 1 and are migrated. All is computed without the node's code.

    oracles/migrations.py > crates/test_checkpoints/data/migrations.cases
    oracles/migrations.py --memory > crates/test_checkpoints/data/memory.cases

The formats are those of docs/FORMATS.md, and what a stop leaves of a disk is what its part on the disk says. The first file has pairs of areas,
one of them with 2,000 events, and for each pair what an opening finds: the generation, the vote for the header of member 1 and round 1, the
round, and the length of the order. It also has the bytes of both areas after the opening (of a long area a sum of them), how often an opening
calls a disk to write, to cut and to sync, and how many stops are tried. Of everything that a failing call or a stop leaves it is tried here
too that it is opened to the same node and the same areas. Some areas are cut to each length, or changed in each byte. The second file has
what is played with each allocation failing in turn: the case of oracles/checkpoints.py, and openings of two areas.
"""
import functools
import sys

sys.dont_write_bytecode = True
import areas
import checkpoints
import recoveries
from areas import CLOSED, FILLS, OPEN, SECOND, Disk, area, head
from checkpoints import Committee, Ledger
from histories import Batch, Sum
from recoveries import Damaged, Fault, record

MOST_GENERATION = 2**64 - 1
KINDS = ["write", "cut", "sync"]
NAMES = ["first", "second"]
# Of an area of more bytes a sum is told.
MANY = 1000
# How many events the long journal has.
EVENTS = 2000


class Reopening:
    """An opening of a node on two areas: why it failed, or the node that it finds, its generation, and what each area is left as."""

    def __init__(self, committee, first, second):
        opening = areas.Opening(first, second)
        self.committee, self.before, self.made, self.error = committee, [first, second], opening.calls(), None
        self.after, self.generation = list(opening.after), None
        if opening.is_damaged():
            self.error = opening.answer.replace(" at ", " ")
            return
        self.live, self.generation = opening.live, opening.generation
        try:
            self.read(opening.records)
            self.renew(opening.records)
        except Damaged as damaged:
            self.error = "3 Damaged %d" % damaged.args

    def read(self, records):
        """The node after a checkpoint's records and the events after them."""
        if records and records[0][1] not in self.committee.configurations():
            self.error = "4 ConfigMismatch"
            return
        # A generation is told by a head, the second record.
        behind = records[2 if self.generation else 1:]
        count = next((place for place, (_, one) in enumerate(behind) if one[:1] == b"\1"), len(behind))
        state, events = behind[:count] if self.generation else [], behind[count:] if self.generation else behind
        fault = checkpoints.load(self.committee, [self.committee.configuration()] + [one for _, one in state])
        if fault != "Ok":
            raise Damaged(self.live * SECOND if fault == checkpoints.WHOLE else state[int(fault.split()[-1]) - 1][0])
        self.node = checkpoints.Loaded(self.committee, [one for _, one in state])
        for gate, event in events:
            try:
                recoveries.take(self.node, event)
            except Fault:
                raise Damaged(gate) from None

    def renew(self, records):
        """Gives an empty journal its configuration, and rewrites one of version 1 as a checkpoint."""
        if self.error or records and records[0][1][1] == 2:
            return
        if not records:
            self.call(0, *beginning(self.committee.configuration()))
        elif self.generation == MOST_GENERATION:
            self.error = "5 Full"
        else:
            self.generation += 1
            self.call(1 - self.live, *areas.rewriting(areas.checkpoint(self.committee.records_of(self.node), self.generation)))

    def call(self, side, *calls):
        """Makes calls of one area's disk."""
        disk = Disk(self.after[side])
        for name, *rest in calls:
            disk.make(name, *rest)
            self.made.append((side, name, *rest))
        self.after[side] = disk.content

    def found(self):
        if self.error:
            return self.error
        held = self.node.headers.get((1, 1))
        vote = "none" if held is None else held.digest.hex()
        return "generation %d, vote %s, round %d, order %d" % (self.generation, vote, self.node.round(), len(self.node.whole))

    def told(self):
        """What is found, and how long both areas are then."""
        return self.found() + ("" if self.error else ", areas %d %d" % tuple(map(len, self.after)))

    def is_like(self, other):
        """Both find the same, and leave the same areas but for the value of an open first gate."""
        return self.found() == other.found() and list(map(plain, self.after)) == list(map(plain, other.after))


@functools.cache
def reopening(committee, first, second):
    return Reopening(committee, first, second)


def plain(file):
    """A file with 01 as an open first gate."""
    return OPEN + file[1:] if file and file[0] else file


def beginning(configuration):
    """The calls that give a journal on two areas its first group."""
    return [("write", 1, areas.sized([configuration]) + CLOSED), ("sync",), ("write", 0, OPEN), ("sync",)]


# ---- what a stop leaves

def lengths(disk):
    """The lengths that are tried: that of the last sync, the one that a read gives, and half of the greater one."""
    synced, read = len(disk.firm), len(disk.content)
    return [length for length in {synced, read, max(synced, read) // 2} if disk.smallest <= length <= disk.greatest]


def outcomes(disk, fill):
    """What a stop may leave of a disk with this fill. Where all is synced, nothing is lost or torn."""
    name, byte = fill
    if name == "keep":
        return [disk.content]
    if not disk.written and disk.smallest == disk.greatest:
        return []
    if name == "lose":
        return [disk.firm]
    stays = lambda place: place < disk.smallest and place not in disk.written
    return [bytes(disk.firm[place] if stays(place) else byte for place in range(length)) for length in lengths(disk)]


# ---- the cases

class Cases:
    """The lines of a case file. The areas are those that were set last."""

    def __init__(self):
        self.committee = Committee()

    def begin(self, title, first, second):
        checkpoints.case(title, self.committee)
        self.set(first, second)

    def set(self, *files):
        self.files = list(files)
        for name, file in zip(NAMES, self.files):
            print("%s : %s" % (name, file.hex()))

    def add_batches(self, side, start, count):
        """Adds a group of batches of member 2, each with its number."""
        records = [record(2, recoveries.batch_message(Batch("b", 2, areas.u32(start + place)))) for place in range(count)]
        self.files[side] = self.files[side][:-1] + OPEN + areas.sized(records) + CLOSED
        print("batches %s %d %d" % (NAMES[side], start, count))

    def opening(self):
        return reopening(self.committee, *self.files)

    def open(self):
        print("open\n> " + self.opening().found())
        for name, file in zip(NAMES, self.opening().after):
            print("> %s %d" % (name, len(file)) + (" : " + file.hex() if len(file) <= MANY else ", sum %d" % sum_of(file)))

    def open_alone(self):
        """Opens a journal on the first disk alone."""
        file = self.files[0]
        told, left, _ = recoveries.Setting().open(file)
        if told.startswith("opened"):
            node = recoveries.Setting().read(recoveries.walk(file)[0])
            held = node.headers.get((1, 1))
            vote = "none" if held is None else held.digest.hex()
            told = "generation 0, vote %s, round %d, order %d" % (vote, node.round(), len(node.order()))
        print("open-alone\n> " + told)
        print("> alone %d" % len(left) + (" : " + left.hex() if len(left) <= MANY else ", sum %d" % sum_of(left)))

    def moments(self):
        """Each call of the opening, and then its end, with the disks before it."""
        disks = [Disk(file) for file in self.files]
        for call in self.opening().made:
            yield call[1], disks
            disks[call[0]].make(*call[1:])
        yield "end", disks

    def check(self, *files):
        assert reopening(self.committee, *files).is_like(self.opening())

    def fail(self):
        """Each call fails in turn, and what the disks then have is opened again."""
        counts = dict.fromkeys([*KINDS, "end"], 0)
        for name, disks in self.moments():
            self.check(*(disk.content for disk in disks))
            counts[name] += 1
        print("open-failing\n> read fails, then the same")
        for name in KINDS:
            print("> %s fails %d, then the same %d, others 0" % (name, counts[name], counts[name]))

    def stop(self):
        """The machine stops before each call and at the end, with each outcome of each area."""
        counts = dict.fromkeys((name for name, _ in FILLS), 0)
        for _, disks in self.moments():
            for side in (0, 1):
                for fill in FILLS:
                    for left in outcomes(disks[side], fill):
                        self.check(*(left if side == other else disks[other].content for other in (0, 1)))
                        counts[fill[0]] += 1
        print("open-stopping")
        for name, _ in FILLS:
            print("> %s: stops %d, then the same %d, others 0" % (name, counts[name], counts[name]))

    def whole(self, title, first, second):
        self.begin(title, first, second)
        self.tell()

    def tell(self):
        self.open()
        self.fail()
        self.stop()

    def cut(self, title, side, file):
        """One area has each length of a file, the other one has nothing."""
        self.begin(title, *((file, b"") if side == 0 else (b"", file)))
        print("open-cut " + NAMES[side])
        last = None
        for length in range(len(file) + 1):
            files = (file[:length], b"") if side == 0 else (b"", file[:length])
            told = reopening(self.committee, *files).told()
            if told != last:
                print("> %d: %s" % (length, told))
            last = told

    def change(self, side):
        """Each byte of an area is changed to each other value, and the areas are opened: how often each answer comes."""
        unchanged, same, others, refused, whole = self.opening().found(), 0, 0, {}, Sum()
        for place, byte in enumerate(self.files[side]):
            for more in range(1, 256):
                files = list(self.files)
                files[side] = recoveries.with_byte(files[side], place, (byte + more) % 256)
                opened = Reopening(self.committee, *files)
                if opened.error:
                    refused[opened.error] = refused.get(opened.error, 0) + 1
                elif opened.found() == unchanged:
                    same += 1
                else:
                    others += 1
                    whole.add(opened.found().encode())
        print("open-changed " + NAMES[side])
        print("> %d the same\n> %d another node, sum %d" % (same, others, whole.value))
        for told, count in refused.items():
            print("> %d %s" % (count, told))


def sum_of(file):
    whole = Sum()
    whole.add(file)
    return whole.value


def old_area(*groups, generation=0):
    """An area of version 1 with these groups after the first one."""
    return area([Committee().configuration(1)] + ([head(generation)] if generation else []), *groups)


# A journal of the one event in each version, and the record of its vote in a checkpoint.
EVENT = [recoveries.EVENT]
OLD, NEW = old_area(EVENT), area([Committee().configuration()], EVENT)
VOTE = [checkpoints.vote_record(1, 1, recoveries.HEADER.digest)]
SAVED = areas.checkpoint([Committee().configuration()] + VOTE, 1)
FOUR = old_area(generation=4)
OLD_CHECKPOINT, OLD_CHECKPOINT_WITH_EVENT = old_area(VOTE, generation=5), old_area(EVENT, generation=5)


def ordered():
    """Events after which there is a vote, and an order of two leaders: a peer's header, certificates of five rounds, and two coins."""
    messages = [recoveries.certificate_message(header, (0, 1, 2)) for header in Ledger().rounds(1, 5, [0, 1, 2])]
    coins = [recoveries.coin_message(wave, wave) for wave in (1, 2)]
    return EVENT + [record(1, message) for message in messages] + [record(0, coin) for coin in coins]


def all_cases():
    cases = Cases()
    cases.whole("a header of a peer in the first version, in the first area", OLD, b"")
    cases.whole("the same in the second area", b"", OLD)
    cases.whole("the same beside a closed gate", OLD, CLOSED)
    cases.whole("a checkpoint in the first version in the second area, with generation 4 beside it", FOUR, OLD_CHECKPOINT)
    cases.whole("the same with an event after its configuration and head", FOUR, OLD_CHECKPOINT_WITH_EVENT)
    long(cases)
    cases.whole("a journal in the second version stays as it is", areas.checkpoint([Committee().configuration()] + VOTE, 1), OLD)
    cases.whole("two empty areas get the configuration in the second version", b"", b"")
    cases.whole("there is no generation after the greatest one", b"", old_area(VOTE, generation=MOST_GENERATION))
    third = Committee().configuration()
    third = area([third[:1] + b"\3" + third[2:]])
    cases.whole("the third version in the second area", b"", third)
    cases.whole("the third version in the first area", third, b"")
    cuts(cases)
    changes(cases)
    forty_records(cases)


def long(cases):
    events = ordered()
    batches = EVENTS - len(events)
    cases.begin("a journal of %d events in the first version" % EVENTS, old_area(events), b"")
    cases.add_batches(0, 0, 1000)
    cases.add_batches(0, 1000, batches - 1000)
    assert len(areas.read(cases.files[0])[0]) == 1 + EVENTS
    cases.tell()
    opened = cases.opening()
    assert opened.generation == 1 and opened.node.round() == 6 and len(opened.node.batches) == batches and len(opened.node.whole) > 3


def cuts(cases):
    """A journal of one event at each length, in both versions and in each area; and the same with a closed gate before the event."""
    for number, file, gate in (("first", OLD, 151), ("second", NEW, 167)):
        for side in (0, 1):
            where = " in the %s version, in the %s area" % (number, NAMES[side])
            cases.cut("the journal of a peer's header" + where + ", cut to each length", side, file)
            closed = file[:gate] + CLOSED + file[gate + 1:]
            cases.cut("the same with a closed gate before the header", side, closed)


def changes(cases):
    """The journal of one event in each version, and its checkpoint beside what it was taken of, in each byte."""
    alone = area([Committee().configuration()])
    for title, side, first, second in [
        ("the journal of a peer's header", 0, NEW, b""),
        ("the same in the first version", 0, OLD, b""),
        ("a checkpoint beside the configuration that it was taken of", 1, alone, SAVED),
        ("a checkpoint beside the journal in the first version that was migrated", 1, OLD, SAVED),
    ]:
        cases.begin(title + ", changed in each byte", first, second)
        cases.change(side)


def forty_records(cases):
    """A journal of forty records at each length, in both versions; and the same with a closed gate before its fifth group."""
    for number, file in (("first", recoveries.OLD_FORTY), ("second", recoveries.FORTY)):
        cases.cut("forty records in the %s version, cut to each length" % number, 0, file)
        cases.cut("the same with a closed gate before the fifth group", 0, recoveries.closed(file, 5))


HEAD = """# crates: opening
# Journals on two disks that are opened: one in the first version is rewritten as a checkpoint, in the area that wasn't read, and its
# generation is one more. `oracles/migrations.py` writes these cases from the formats alone.
# first, second: the bytes of the areas. batches: a group that is added to an area, of batches of member 2 with the numbers from
# one on, and how many they are. open: the generation, the vote for the header of member 1 and round 1, the round, and the length
# of the order, and what both areas have then, of a long one a sum. open-failing: how many calls of the opening fail in turn, and
# how many openings of the same disks after that find the same and leave the same areas. open-stopping: the machine stops before
# each call of the opening and after the last one, and keeps what isn't synced, loses it, or has one byte in its place; how many
# openings find the same after that. open-cut: from which length of an area on an opening finds what. open-changed: each byte of an
# area is changed to each other value; how many openings find the same, how many another node, with a sum over what is reported of these,
# and how many answer what else. open-alone: as open, of the first area as a journal on one disk."""


HEAD_OF_MEMORY = """# crates: checkpoint validator opening
# Calls that are played with each allocation failing in turn: a validator that is loaded from records of every kind, and openings of
# two areas, and of one. An opening that memory is refused to, or a disk in memory, is made again, on what the disks then have. See loaded.cases
# and migrations.cases for the commands. `oracles/migrations.py --memory` writes these cases, `every-allocation` plays them."""


def memory():
    print(HEAD_OF_MEMORY)
    checkpoints.memory()
    cases = Cases()
    cases.begin("a journal in the first version", old_area(ordered()), b"")
    cases.add_batches(0, 0, 3)
    cases.open()
    cases.set(FOUR, OLD_CHECKPOINT_WITH_EVENT)
    cases.open()
    cases.set(b"", b"")
    cases.open()
    for file in (recoveries.FORTY, recoveries.OLD_FORTY, b"", NEW + b"\1\2\3"):
        cases.set(file, b"")
        cases.open_alone()


def main(words):
    if words not in ([], ["--memory"]):
        print(__doc__, file=sys.stdout if words == ["--help"] else sys.stderr)
        return 0 if words == ["--help"] else 2
    if words:
        memory()
        return 0
    print(HEAD)
    all_cases()
    return 0


if __name__ == "__main__":
    sys.exit(main(sys.argv[1:]))
