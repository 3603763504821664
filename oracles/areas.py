#!/usr/bin/env python3
"""Cases of a journal on two areas: what each pair of files is opened to, what an opening and a rewriting leave of them, and what an
opening finds after each stop and each failing call. All is computed without the node's code.

    oracles/areas.py > crates/test_areas/data/areas.cases

The formats are those of docs/FORMATS.md, and what a stop leaves of a disk is what its part on the disk says. How the records of a
checkpoint are put into groups is the rule of the journal's definitions: each joins the group before it where that has room.
"""

import copy

OPEN, CLOSED = b"\1", b"\0"
SECOND = 1 << 40
MAX_RECORDS, MAX_BODY = 1024, 4_194_304
FILLS = [("keep", None), ("lose", None), ("00", 0), ("01", 1), ("37", 0x37), ("ff", 0xFF)]
# An area of so many bytes is told by its length alone.
MANY = 2_000


def u16(number):
    return number.to_bytes(2, "big")


def u32(number):
    return number.to_bytes(4, "big")


def u64(number):
    return number.to_bytes(8, "big")


# ---- how files are written

def configuration(members=4, version=2, told=None):
    front = bytes([0, version]) + u16(0) + u16(50) + u16(1) + u32(16) + u16(members if told is None else told)
    keys = b"".join(bytes([member + 1]) * 32 for member in range(members))
    return front + keys + (u32(1) * members if version > 1 else b"")


def head(generation):
    return b"\2" + u64(generation)


def sized(records):
    """A group after its gate, without the gate after it."""
    body = b"".join(u32(len(record)) + record for record in records)
    return u32(len(body)) + body


def area(*groups, gate=OPEN):
    """The file of these groups, of which the first one has this gate."""
    return gate + OPEN.join(sized(group) for group in groups) + CLOSED


def body_len(records):
    return sum(4 + len(record) for record in records)


def packed(records):
    """The records of a state in groups."""
    groups = []
    for record in records:
        if groups and len(groups[-1]) < MAX_RECORDS and body_len(groups[-1]) + 4 + len(record) <= MAX_BODY:
            groups[-1].append(record)
        else:
            groups.append([record])
    return groups


def checkpoint(records, generation):
    """The file of a checkpoint, or none where a record doesn't fit a group."""
    if not records or any(4 + len(record) > MAX_BODY for record in records):
        return None
    return area([records[0], head(generation)], *packed(records[1:]))


def rewriting(file):
    """The calls that make an area this file, whatever it has."""
    return [("write", 0, CLOSED), ("sync",), ("cut", 1), ("sync",), ("write", 1, file[1:]), ("sync",), ("write", 0, OPEN), ("sync",)]


# ---- how files are read

class Damaged(Exception):
    """No whole group stands after the open gate at this place of a file."""


def split(body):
    """The records of a body."""
    records, place = [], 0
    while place < len(body):
        size = int.from_bytes(body[place:place + 4], "big")
        if place + 4 + size > len(body):
            raise ValueError
        records.append(body[place + 4:place + 4 + size])
        place += 4 + size
    return records


def group_at(file, place):
    """The records after the gate at a place, and the place of the next gate."""
    size = int.from_bytes(file[place + 1:place + 5], "big")
    end = place + 5 + size
    if len(file) < place + 5 or not 0 < size <= MAX_BODY or end >= len(file):
        raise Damaged(place)
    try:
        records = split(file[place + 5:end])
    except ValueError:
        raise Damaged(place) from None
    if len(records) > MAX_RECORDS:
        raise Damaged(place)
    return records, end


def read(file):
    """The records of a file, each after its gate's place, and the place of the closed gate that ends them."""
    records, place = [], 0
    while len(file) >= 2 and file[place]:
        group, after = group_at(file, place)
        records += [(place, record) for record in group]
        place = after
    return records, place


def is_configuration(record):
    if len(record) < 14 or record[0] != 0 or record[1] not in (1, 2):
        return False
    return len(record) == 14 + int.from_bytes(record[12:14], "big") * (36 if record[1] == 2 else 32)


def generation_of(file):
    """The generation of an area whose first gate is open; none of another one."""
    if len(file) < 2 or not file[0]:
        return None
    group, _ = group_at(file, 0)
    if not is_configuration(group[0]) or len(group) > 2:
        raise Damaged(0)
    if len(group) == 1:
        return 0
    number = int.from_bytes(group[1][1:], "big")
    if len(group[1]) != 9 or group[1][0] != 2 or not number:
        raise Damaged(0)
    return number


class Opening:
    """An opening of two areas: its answer, which of them is read, and what each is left as."""

    def __init__(self, first, second):
        self.before, self.after = [first, second], [first, second]
        try:
            self.records, self.generation = self.choose()
            self.answer = opened(self.generation, self.records)
        except Damaged as damaged:
            self.answer = "3 Damaged at %d" % damaged.args
            return
        for side, file in enumerate(self.before):
            if len(file) < 2 or not file[0]:
                self.after[side] = CLOSED
            elif side == self.live:
                self.after[side] = file[:read(file)[1] + 1]

    def choose(self):
        told = []
        for side, file in enumerate(self.before):
            try:
                told.append(generation_of(file))
            except Damaged:
                raise Damaged(side * SECOND) from None
        self.live = 0
        if told == [None, None]:
            return [], 0
        if told[0] == told[1]:
            raise Damaged(SECOND)
        self.live = max((side for side in (0, 1) if told[side] is not None), key=lambda side: told[side])
        try:
            records, _ = read(self.before[self.live])
        except Damaged as damaged:
            raise Damaged(self.live * SECOND + damaged.args[0]) from None
        return [(self.live * SECOND + place, record) for place, record in records], told[self.live]

    def is_damaged(self):
        return self.answer.startswith("3")

    def calls(self):
        """The calls of both disks that change something, and the syncs, each with its side."""
        made = [(0, "sync"), (1, "sync")]
        for side in (0, 1) if not self.is_damaged() else ():
            file, left = self.before[side], self.after[side]
            if len(file) < 2:
                made += [(side, "write", 0, CLOSED), (side, "sync")]
            elif file != left:
                made += [(side, "cut", len(left)), (side, "sync")]
        return made


def opened(generation, records):
    told = "".join(", %d x%s" % (place, record.hex()) for place, record in records)
    return "opened %d, records %d%s" % (generation, len(records), told)


# ---- what a stop leaves of a disk

class Disk:
    def __init__(self, content):
        self.content = content
        self.sync()

    def sync(self):
        self.firm, self.written = self.content, frozenset()
        self.smallest = self.greatest = len(self.content)

    def make(self, name, place=0, text=b""):
        if name == "sync":
            return self.sync()
        if name == "write":
            self.content = self.content[:place] + text + self.content[place + len(text):]
            self.written |= frozenset(range(place, place + len(text)))
        else:
            self.content = self.content[:place]
        self.smallest, self.greatest = min(self.smallest, len(self.content)), max(self.greatest, len(self.content))

    def left(self, fill):
        """What a stop may leave with this fill, of each length: where a byte may have any value it has that of the fill."""
        name, byte = fill
        if byte is None:
            return [self.content if name == "keep" else self.firm]
        return [bytes(self.firm[place] if place < self.smallest and place not in self.written else byte for place in range(length))
                for length in range(self.smallest, self.greatest + 1)]

    def outcomes(self):
        return sum(len(self.left(fill)) for fill in FILLS)

    def longest(self, fill):
        """The longest of these that is no longer than what a read gives or the last sync left."""
        return [left for left in self.left(fill) if len(left) <= max(len(self.content), len(self.firm))][-1]


# ---- the cases

def spelled(*files):
    return " ".join("x" + file.hex() for file in files)


def told_areas(files):
    return ["bytes %d%s" % (len(file), " x" + file.hex() if len(file) < MANY else "") for file in files]


class Cases:
    """Lines of a case file. The areas are those that the commands so far leave."""

    def __init__(self):
        self.lines = []

    def title(self, text):
        self.lines += ["", "== " + text]

    def put(self, command, *answer):
        self.lines.append(command)
        self.lines += ["> " + line for line in answer]

    def set(self, *files):
        self.files = list(files)
        self.put("areas " + spelled(*files))

    def open(self, name="open", end=""):
        opening = Opening(*self.files)
        self.put(name, opening.answer + ("" if opening.is_damaged() else end))
        self.files = opening.after

    def tell(self):
        self.put("tell", *told_areas(self.files))

    def take(self, records, *added):
        """Takes the records of a checkpoint, and then for each count and length so many records of zeros."""
        self.records = list(records)
        self.put("records " + spelled(*records))
        for count, length in added:
            self.records += [bytes(length)] * count
            self.put("add %d %d" % (count, length))

    def append(self, *records):
        opening = Opening(*self.files)
        self.files = opening.after
        live = self.files[opening.live]
        self.files[opening.live] = live[:-1] + OPEN + sized(records) + CLOSED
        self.put("append " + spelled(*records), "a group of %d" % len(records))

    # ---- openings

    def fails(self):
        """Each device call of an opening fails in turn, and the machine stops there with each outcome of each area."""
        opening = Opening(*self.files)
        counts = {"write": [0, 1], "cut": [0, 1], "sync": [0, 1]}
        disks = [Disk(file) for file in self.files]
        for side, name, *rest in opening.calls():
            counts[name][0] += 1
            counts[name][1] += 1 + sum(disk.outcomes() for disk in disks)
            self.check(disks, opening.answer)
            disks[side].make(name, *rest)
        self.check(disks, opening.answer)
        told = ["%s fails %d, then the same %d" % (name, *counts[name]) for name in ("write", "cut", "sync")]
        self.put("openings", "read fails, then the same", *told)

    def check(self, disks, answer):
        """Whatever a stop leaves of a disk, both are opened to the same. What the cases expect rests on it."""
        for side, disk in enumerate(disks):
            for fill in FILLS:
                for left in disk.left(fill):
                    files = [left if side == other else disks[other].content for other in (0, 1)]
                    assert Opening(*files).answer == answer

    def inputs(self, title, first, second):
        """All that is asked of an opening of these areas."""
        self.title(title)
        self.set(first, second)
        self.fails()
        self.open("loose")
        self.tell()
        self.set(first, second)
        self.open("store", ", two")
        self.tell()
        self.set(first, second)
        self.open()
        self.tell()
        self.open()
        self.tell()

    # ---- rewritings

    def rewrite(self, name="rewrite"):
        opening = Opening(*self.files)
        self.files = opening.after
        file = checkpoint(self.records, opening.generation + 1) if opening.generation < 2**64 - 1 else "5 Full"
        if file is None or file == "5 Full":
            self.put(name, file or "no checkpoint", "area 0: none", "area 1: none")
            return
        made = ["wrote 0 x00", "synced", "cut 1", "synced", "wrote 1 bytes %d" % (len(file) - 1), "synced", "wrote 0 x01", "synced"]
        told = ["area %d: %s" % (side, "none" if side == opening.live else ", ".join(made)) for side in (0, 1)]
        self.files[1 - opening.live] = file
        self.put(name, "a checkpoint of %d, generation %d, bytes %d" % (len(self.records), opening.generation + 1, len(file)), *told)

    def stops(self):
        """A stop after each number of calls of a rewriting, from none to all eight, and each call failing in turn."""
        opening = Opening(*self.files)
        live, spare = opening.after[opening.live], Disk(opening.after[1 - opening.live])
        file = checkpoint(self.records, opening.generation + 1)
        ended = Opening(*((live, file) if opening.live == 0 else (file, live)))
        told, failed = [], []
        for done in range(9):
            line = "after call %d" % done
            for fill in FILLS:
                found = [self.found(opening, ended, live, left) for left in spare.left(fill)]
                self.follows(done, spare.left(fill), found)
                line += ", " + fill[0] + "".join(" %s %d" % (one, found.count(one)) for one in ("old", "new") if one in found)
            told.append(line)
            if done < 8:
                failed.append("call %d: 2 Device, then %s 1" % (done + 1, self.found(opening, ended, live, spare.content)))
                spare.make(*rewriting(file)[done])
        self.put("stops %d" % (1 - opening.live), *told)
        self.put("failures", *failed)

    def seconds(self):
        """A stop after each number of calls of a rewriting, and then a stop of the opening after it, at each of its calls. How many of
        both kinds are found hangs on which file an opening syncs first, so that only their sum is told."""
        opening = Opening(*self.files)
        live, spare = opening.after[opening.live], Disk(opening.after[1 - opening.live])
        file = checkpoint(self.records, opening.generation + 1)
        ended = Opening(*((live, file) if opening.live == 0 else (file, live)))
        told = []
        for done in range(9):
            found = [one for fill in FILLS for one in self.twice(opening, ended, live, spare, fill)]
            assert set(found) == ({"old"} if done < 7 else {"new"} if done == 8 else {"old", "new"})
            told.append("after call %d: openings %d" % (done, len(found)) + "".join(", " + one for one in ("old", "new") if one in found))
            if done < 8:
                spare.make(*rewriting(file)[done])
        self.put("seconds %d" % (1 - opening.live), *told)

    def twice(self, opening, ended, live, spare, fill):
        """What is found after a stop with this fill, and a stop of the opening after it with each fill."""
        left = spare.longest(fill)
        between = Opening(*((live, left) if opening.live == 0 else (left, live)))
        disk = copy.copy(spare)
        disk.content = left
        # An opening that no call stops, once for each kind of call.
        found = [self.found(opening, ended, live, left)] * 3
        for side, name, *rest in between.calls():
            found += [self.found(opening, ended, live, disk.longest(fill)) for fill in FILLS]
            if side != opening.live:
                disk.make(name, *rest)
        return found

    def found(self, opening, ended, live, left):
        answer = Opening(*((live, left) if opening.live == 0 else (left, live))).answer
        assert answer in (opening.answer, ended.answer)
        return "old" if answer == opening.answer else "new"

    def follows(self, done, left, found):
        """The table of a rewriting: before its call 7 the records of before, after its last sync those of the checkpoint, in between
        by the first byte."""
        for file, one in zip(left, found):
            assert one == ("old" if done < 7 else "new" if done == 8 or file[0] else "old")


CONFIGURATION = configuration()
BEHIND = bytes(range(256)) + bytes(44)


def events(count):
    """Groups of one short record each."""
    return [[bytes([1, number % 4, number, number * 7 % 256][:1 + number % 4])] for number in range(count)]


def of_generation(generation, *groups):
    return area([CONFIGURATION, head(generation)] if generation else [CONFIGURATION], *groups)


def openings(cases):
    one, two, three = (of_generation(generation, [b"\1" + bytes([generation])]) for generation in (1, 2, 3))
    alone = of_generation(0)
    torn = OPEN + sized([b"\1torn"])
    damaged = OPEN + b"\0"
    cases.inputs("nothing and nothing", b"", b"")
    cases.inputs("one byte and nothing", b"\xff", b"")
    cases.inputs("nothing and one byte", b"", b"\x37")
    cases.inputs("a closed gate with a byte after it, and a closed gate", b"\0\x99", b"\0")
    cases.inputs("a damaged first group, and nothing", damaged, b"")
    cases.inputs("nothing, and a damaged first group", b"", damaged)
    cases.inputs("two damaged first groups", damaged, damaged)
    cases.inputs("a damaged first group beside a whole area", damaged, two)
    cases.inputs("a whole area beside a damaged first group", two, damaged)
    cases.inputs("a configuration alone", alone, b"")
    cases.inputs("nothing, and a configuration alone", b"", alone)
    cases.inputs("a configuration alone twice", alone, alone)
    cases.inputs("generation 2 twice", two, of_generation(2))
    cases.inputs("generations 1 and 2", one, two)
    cases.inputs("generations 2 and 1", two, one)
    cases.inputs("generations 0 and 1", of_generation(0, *events(3)), one)
    cases.inputs("the first area isn't read, and keeps what stands after its last gate", one + torn, two)
    cases.inputs("the second area isn't read, and keeps what stands after its last gate", two, one + torn)
    cases.inputs("the first area isn't read, and a later group of it is damaged", one[:-1] + damaged, two)
    cases.inputs("a torn group after the closed gate of the area that is read, the second one", b"\0", one + torn)
    cases.inputs("a torn group after the closed gate of the area that is read, the first one", one + torn, alone)
    cases.inputs("a later group of the area that is read is damaged, the second one", one, two[:-1] + damaged)
    cases.inputs("a later group of the area that is read is damaged, the first one", two[:-1] + damaged, one)
    cases.inputs("a later group of one area is damaged, and the first group of the other one", two[:-1] + damaged, damaged)
    cases.inputs("equal generations, and a later group is damaged", two[:-1] + damaged, two)
    cases.inputs("a closed area with 300 bytes, and generation 3", CLOSED + BEHIND, three)
    cases.inputs("generation 3, and a closed area with 300 bytes", three, CLOSED + BEHIND)
    cases.inputs("a closed area over bytes that an open gate would let in, and generation 3", CLOSED + of_generation(4)[1:], three)
    cases.inputs("open gates of other values", b"\xff" + one[1:], b"\x37" + two[1:])
    cases.inputs("a configuration of version 1", area([configuration(version=1)]), b"")
    cases.inputs("a configuration of version 1 with a head", b"\0", area([configuration(version=1), head(5)]))


def first_groups(cases):
    good = CONFIGURATION
    groups = {
        "a head of generation 0": [good, head(0)],
        "a head of 8 bytes": [good, head(1)[:8]],
        "a head of 10 bytes": [good, head(1) + b"\0"],
        "a head of another kind": [good, b"\3" + u64(1)],
        "an empty head": [good, b""],
        "a head and a configuration": [head(1), good],
        "a head alone": [head(1)],
        "an event alone": [b"\1\0\0"],
        "an empty record": [b""],
        "two configurations": [good, good],
        "three records": [good, head(1), b"\1"],
        "a configuration of version 3": [configuration(version=3)],
        "a configuration of version 0": [b"\0\0" + good[2:]],
        "a configuration of another length than its members give": [configuration(told=5)],
        "a configuration of version 1 with stakes": [b"\0\1" + good[2:]],
        "a configuration with a byte too many": [good + b"\0"],
    }
    cases.title("first groups that are none")
    for group in groups.values():
        for files in ((area(group), b""), (b"\0", area(group)), (area(group), of_generation(7)), (of_generation(7), area(group))):
            cases.set(*files)
            cases.fails()
            cases.open()
            cases.tell()
    for name in ("a head of generation 0", "a configuration of version 3"):
        cases.inputs("in area 0: " + name, area(groups[name]), of_generation(7))
        cases.inputs("in area 1: " + name, of_generation(7), area(groups[name]))
    cases.title("first groups that don't end within the file")
    whole = of_generation(1, [b"\1\2"])
    for length in (2, 4, 5, 6, 100, 184, 185, 186, 190):
        cases.set(whole[:length], b"")
        cases.open()
        cases.tell()
        cases.set(of_generation(0), whole[:length])
        cases.open()
        cases.tell()


def state(count):
    return [bytes([3 + place]) * (1 + 17 * place) for place in range(count)]


def rewritings(cases):
    for count, size in ((0, 0), (1, 1), (40, 3)):
        for live in (0, 1):
            read_area = of_generation(live, *events(count))
            files = (read_area, CLOSED) if live == 0 else (of_generation(0, *events(2)), read_area)
            cases.title("a rewriting of generation %d with %d groups after the first one" % (live, count))
            cases.set(*files)
            cases.open()
            cases.take([CONFIGURATION] + state(size))
            cases.stops()
            cases.seconds()
            cases.rewrite()
            cases.tell()
            cases.open()
            cases.tell()
            cases.set(*files)
            cases.rewrite("draft")
            cases.tell()
    cases.title("a shorter checkpoint in the place of a long area")
    cases.set(of_generation(4, *events(40)), of_generation(5, *events(1)))
    cases.take([CONFIGURATION])
    cases.stops()
    cases.rewrite()
    cases.tell()
    cases.title("the rewriting of an area that had a torn group, and of one that was closed over bytes")
    cases.set(CLOSED + of_generation(9)[1:], of_generation(8) + OPEN + sized([b"\1"]))
    cases.take([CONFIGURATION] + state(2))
    cases.stops()
    cases.seconds()
    cases.rewrite()
    cases.tell()


def life(cases):
    cases.title("a journal from its first group through three rewritings")
    cases.set(b"", b"")
    cases.take([CONFIGURATION] + state(2))
    cases.put("rewrite", "no first group", "area 0: none", "area 1: none")
    cases.put("append x01", "no first group")
    cases.files = [CLOSED, CLOSED]
    cases.put("begin x01", "no configuration")
    cases.put("begin " + spelled(CONFIGURATION), "a group of 1")
    cases.files = [of_generation(0), CLOSED]
    cases.tell()
    cases.append(b"\1one", b"")
    cases.append(b"\1two")
    cases.tell()
    for turn in range(3):
        cases.rewrite("draft" if turn == 1 else "rewrite")
        cases.tell()
        cases.append(b"\1" + bytes([turn]))
        cases.open()
        cases.tell()
    # One area alone is a journal too, which says nothing of its generation.
    records, _ = read(cases.files[0])
    cases.put("one", opened(0, records) + ", one")
    cases.title("the greatest generation isn't followed by another one")
    cases.set(of_generation(2**64 - 1), of_generation(0))
    cases.open()
    cases.take([CONFIGURATION])
    cases.rewrite()
    cases.rewrite("draft")
    cases.tell()
    cases.title("the greatest generation but one is")
    cases.set(of_generation(2**64 - 2), b"\0")
    cases.take([CONFIGURATION])
    cases.rewrite()
    cases.tell()
    cases.rewrite()
    cases.tell()


def groups(cases):
    cases.title("how records are put into groups")
    begun = [of_generation(0), CLOSED]
    for added in ([(1, 0)], [(MAX_RECORDS, 0)], [(MAX_RECORDS + 1, 0)], [(2, 2_097_148)], [(1, 2_097_148), (1, 2_097_149)],
                  [(1, 2_097_149), (1, 2_097_148), (3, 5)], [(1, 4_194_300), (2, 0)], [(1, 4_194_301)], [(2, 1), (1, 4_194_301)]):
        cases.take([CONFIGURATION], *added)
        cases.set(*begun)
        cases.put("alike", "alike")
        for name in ("rewrite", "draft"):
            cases.set(*begun)
            cases.rewrite(name)
            opening = Opening(*cases.files)
            gates = []
            for gate, _ in opening.records:
                gates += [gate] if gate not in gates else []
            cases.put("gates", "opened %d" % opening.generation + "".join(
                ", %d: %d" % (gate, sum(place == gate for place, _ in opening.records)) for gate in gates))
    cases.title("records that are no checkpoint")
    for records in ([head(1)], [b"\1"], [configuration(version=3)]):
        cases.set(*begun)
        cases.take(records)
        cases.put("rewrite", "no checkpoint", "area 0: none", "area 1: none")
        cases.put("draft", "no checkpoint", "area 0: none", "area 1: none")


def main():
    cases = Cases()
    cases.lines = ["# crates: journal", "# Made by oracles/areas.py."]
    openings(cases)
    first_groups(cases)
    rewritings(cases)
    life(cases)
    groups(cases)
    print("\n".join(cases.lines))


if __name__ == "__main__":
    main()
