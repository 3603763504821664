#!/usr/bin/env python3
"""Tells what the bytes of a journal stand for, as `narwhal-journal` has to tell it, and shares nothing with its code.

    oracles/journals.py verify|votes|last-header JOURNAL
    oracles/journals.py list|order JOURNAL [--from PLACE]
    oracles/journals.py compare JOURNAL OTHER
    oracles/journals.py graph JOURNAL [--rounds FIRST-LAST]
    oracles/journals.py --compare PROGRAM JOURNAL ..
    oracles/journals.py --compare-pairs PROGRAM
    oracles/journals.py --make-skipped > JOURNAL
    oracles/journals.py --make-pairs FOLDER

A journal is two files: JOURNAL, and the one whose name has `.2` after it, where that is there. The formats are those of docs/FORMATS.md, the
rules those of docs/RULES.md. What events are answered is taken from oracles/histories.py, how groups and messages are read from
oracles/recoveries.py, which file is read from oracles/areas.py, and what a checkpoint says from oracles/checkpoints.py. Of damage the place
is told, and not what is wrong there.

With --make-skipped it makes the journal of member 0 of a committee of four: three waves, of which the second one's leader is skipped, so
that two leaders are ordered. Its signatures are zeros.

With --make-pairs it writes journals of two files: some with checkpoints of histories in the one file or the other, with events after it and
without, beside older files, new ones and ones that are half written; and pairs that are damaged.

With --compare the commands of PROGRAM are run on each of the journals, with --json too, and where it has at most 2000 bytes on each cut
of either file, and `verify` and `list` with each byte changed. Their lines and their status are compared, and no file may have changed.
With --compare-pairs so it is with the pairs that --make-pairs writes, of which one is cut and changed.

The status is 0, 1 where the journal is damaged or PROGRAM told something else, and 2 for other arguments.
"""

import json
import os
import subprocess
import sys
import tempfile

sys.dont_write_bytecode = True
sys.path.insert(0, os.path.dirname(os.path.abspath(__file__)))
import areas  # noqa: E402
import checkpoints  # noqa: E402
import histories  # noqa: E402
import recoveries  # noqa: E402
from recoveries import Damaged, Fault  # noqa: E402

KINDS = {1: "batch", 2: "ack", 3: "header", 4: "vote", 5: "certificate", 6: "coin"}
LIST = ["place", "gate", "kind", "sender", "author", "round", "wave", "digest"]
VOTES = ["author", "round", "digest"]
ORDER = ["place", "digest", "author", "round", "wave"]
SMALL = 2000


class Setting:
    """What the first record says: the own number, the limits, the keys and the stakes."""

    def __init__(self, first):
        version = recoveries.version_of(first)
        members = int.from_bytes(first[12:14], "big")
        self.own, self.depth = int.from_bytes(first[2:4], "big"), int.from_bytes(first[4:6], "big")
        self.workers, self.batches = int.from_bytes(first[6:8], "big"), int.from_bytes(first[8:12], "big")
        self.keys = [first[14 + 32 * m:46 + 32 * m] for m in range(members)]
        stakes = first[14 + 32 * members:]
        self.stakes = [int.from_bytes(stakes[4 * m:4 * m + 4], "big") for m in range(members)] if version == 2 else [1] * members

    def is_committee(self):
        total = sum(self.stakes)
        return (
            4 <= len(self.keys) <= 31 and len(set(self.keys)) == len(self.keys) and 2 <= self.depth <= 1000
            and 1 <= self.workers <= 16 and 1 <= self.batches <= 1048576 and self.own < len(self.keys)
            and all(1 <= stake <= 1000000 and 3 * stake <= 2 * total for stake in self.stakes)
        )


class Journal:
    """A journal that was read: what its checkpoint says, its events, and the node after them."""

    def __init__(self, files):
        opening = areas.Opening(*files)
        if opening.is_damaged():
            raise Damaged(int(opening.answer.split()[-1]))
        records, self.live, self.generation = opening.records, opening.live, opening.generation
        self.state, self.events, self.node, self.first = [], [], None, 0
        if not records:
            return
        first = records[0]
        self.setting = Setting(first[1])
        if not self.setting.is_committee():
            raise Damaged(first[0])
        self.use()
        committee = checkpoints.Committee(self.setting.stakes, self.setting.own, self.setting.depth, self.setting.batches)
        # A generation is told by a head, the second record.
        others = records[2 if self.generation else 1:]
        count = next((place for place, (_, one) in enumerate(others) if one[:1] == b"\1"), len(others)) if self.generation else 0
        state = others[:count]
        fault = checkpoints.load(committee, [committee.configuration()] + [one for _, one in state])
        if fault != "Ok":
            raise Damaged(first[0] if fault == checkpoints.WHOLE else ([first] + state)[int(fault.split()[-1])][0])
        self.state = [one for _, one in state]
        self.node = checkpoints.Loaded(committee, self.state)
        self.first = self.node.floor()
        for place, record in others[count:]:
            try:
                recoveries.take(self.node, record)
                self.events.append((record, *recoveries.message_of(record, self.node.committee)))
            except Fault:
                raise Damaged(place) from None

    def use(self):
        """Makes the rules those of this member and committee."""
        histories.OWN = recoveries.OWN = self.setting.own
        recoveries.MEMBERS, recoveries.WORKERS = len(self.setting.keys), self.setting.workers
        recoveries.BATCHES = self.setting.batches

    def kept(self, kind):
        """What the checkpoint says with records of this kind."""
        return [one for one in checkpoints.read(self.state, self.setting.own) if one.kind == kind] if self.state else []

    def order(self):
        """The digests of the order, each with its certificate and the wave with whose leader it is ordered, where the certificate is known."""
        if not self.node:
            return []
        known = {one.certificate: one for one in self.node.certificates.values()}
        leaders = {c.certificate: (c.round + 1) // 2 for c in self.node.chain()}
        told, wave = [], None
        for digest in reversed(self.node.whole):
            wave = leaders.get(digest, wave)
            told.insert(0, (digest, known.get(digest), wave if digest in known else None))
        return told


def verify(files):
    journal = Journal(files)
    node = journal.node
    numbers = (node.round(), node.floor()) if node else (1, 0)
    told = dict(zip(("events", "order", "round", "floor"), (len(journal.events), len(journal.order()), *numbers)))
    return [{**told, "checkpoint": journal.generation, "area": journal.live} if journal.generation else told]


def verified(told):
    line = "%(events)d events, order of %(order)d, round %(round)d, floor %(floor)d" % told
    return line + (", after checkpoint %(checkpoint)d in area %(area)d" % told if "checkpoint" in told else "")


def votes(files):
    journal = Journal(files)
    found = [(one.author, one.round, one.digest.hex()) for one in journal.kept(5)]
    given = [one.header for one in journal.kept(6)] + [m.header for _, _, m in journal.events if m.tag == 3]
    return [dict(zip(VOTES, told)) for told in found + [(h.author, h.round, h.digest.hex()) for h in given]]


def header_bytes(record):
    """The header and its signature in the record of an own header."""
    reader = recoveries.Reader(record[1:])
    reader.header()
    reader.bytes(64)
    return record[1:1 + reader.place]


def last_header(files):
    journal = Journal(files)
    own = [record[1:] for record, _, m in journal.events if m.tag == 3 and m.header.author == journal.setting.own]
    if not own:
        own = [histories.u16(journal.setting.own) + b"\3" + header_bytes(record) for record in journal.state if record[0] == 6]
    return [histories.u32(len(own[-1])) + own[-1]] if own else []


def order(files, start):
    told = [(place, digest.hex(), c.author if c else None, c.round if c else None, wave) for place, (digest, c, wave) in enumerate(Journal(files).order())]
    return [dict(zip(ORDER, one)) for one in told[start:]]


def compare(left, right):
    left, right = ([digest for digest, _, _ in Journal(files).order()] for files in (left, right))
    same = next((i for i, (a, b) in enumerate(zip(left, right)) if a != b), None)
    head = "the orders of %d and %d " % (len(left), len(right))
    if same is not None:
        return head + "part at %d" % same, 1
    if len(left) == len(right):
        return head + "are equal", 0
    first, second = ("first", "second") if len(left) < len(right) else ("second", "first")
    return head + "agree: the %s is a prefix of the %s" % (first, second), 0


def kept_row(told, record):
    """The same of a record of a checkpoint."""
    reader = recoveries.Reader(record[1:])
    try:
        if record[0] == 2:
            told.update(kind="head" if len(record) == 9 else "unreadable")
        elif record[0] in (3, 8):
            told.update(kind="state-order" if record[0] == 3 else "state-coins")
        elif record[0] == 4:
            reader.bytes(1)
            reader.bytes(2 * reader.number(2))
            batch = reader.batch()
            told.update(kind="state-batch", author=batch.author, digest=batch.digest[:4].hex())
        elif record[0] == 5 and len(record) == 43:
            told.update(kind="state-vote", author=reader.number(2), round=reader.number(8), digest=reader.bytes(4).hex())
        elif record[0] in (6, 7):
            header = reader.header()
            reader.bytes(64) if record[0] == 6 else checkpoints.Reader(record[1 + reader.place:]).entries()
            digest = header.digest if record[0] == 6 else header.certificate
            told.update(kind="state-header" if record[0] == 6 else "state-certificate", author=header.author, round=header.round, digest=digest[:4].hex())
    except Fault:
        pass
    return told


def row(place, gate, record):
    told = dict.fromkeys(LIST)
    told.update(place=place, gate=gate, kind="unreadable")
    if record[:1] == b"\0":
        own = int.from_bytes(record[2:4], "big") if len(record) >= 4 else None
        told.update(kind="configuration", sender=own)
    elif 2 <= record[0] <= 8 if record else False:
        return kept_row(told, record)
    elif len(record) >= 3 and record[0] == 1:
        told.update(sender=int.from_bytes(record[1:3], "big"))
        try:
            m = recoveries.Reader(record[3:]).message()
        except Fault:
            return told
        told.update(kind=KINDS[m.tag])
        if m.tag == 1:
            told.update(author=m.batch.author, digest=m.batch.digest[:4].hex())
        elif m.tag == 2:
            told.update(author=m.member, digest=m.batch.digest[:4].hex())
        elif m.tag == 6:
            told.update(wave=m.wave)
        else:
            digest = m.header.certificate if m.tag == 5 else m.header.digest
            told.update(author=m.header.author, round=m.header.round, digest=digest[:4].hex())
    return told


def side_listed(files):
    """The file that is listed: the one that is read, or where that can't be told the only one with an open gate in front, or else the first."""
    is_open = [len(file) >= 2 and file[0] != 0 for file in files]
    if not all(is_open):
        return 1 if is_open[1] else 0
    told = []
    for side, file in enumerate(files):
        try:
            told.append(areas.generation_of(file))
        except areas.Damaged:
            raise Damaged(side * areas.SECOND) from None
    if told[0] == told[1]:
        raise Damaged(areas.SECOND)
    return 0 if told[0] > told[1] else 1


def list_all(files, start):
    """The rows of the groups, and the place of an open gate with no whole group after it, if there is one."""
    try:
        side = side_listed(files)
    except Damaged as damaged:
        return [], damaged.args[0]
    file, base = files[side], side * areas.SECOND
    rows, damaged = list_file(file, start - base)
    return [{**one, "place": one["place"] + base} for one in rows], None if damaged is None else damaged + base


def list_file(file, start):
    place, rows = 0, []
    while len(file) >= 2 and place < len(file):
        gate = "open" if file[place] else "closed"
        # One group alone, after an open gate and before a closed one.
        size = 5 + int.from_bytes(file[place + 1:place + 5], "big")
        try:
            if len(file) <= place + size:
                raise Damaged(place)
            records, _ = recoveries.walk(b"\1" + file[place + 1:place + size] + b"\0")
        except Damaged:
            return rows, place if gate == "open" else None
        rows += [row(place, gate, record) for _, record in records] if place >= start else []
        if gate == "closed":
            break
        place += size
    return rows, None


def fate(committed, wave):
    if not committed or wave > max(committed):
        return "open"
    return "committed" if wave in committed else "skipped"


def place(node, waves, low, round_, author):
    """What stands at the place of a round and an author of a graph."""
    leads = round_ % 2 == 1 and round_ // 2 < len(node.coins) and node.coins[round_ // 2] % len(node.committee.members) == author
    if round_ == 0:
        return 'label="%d genesis"' % author
    one = node.certificates.get((round_, author))
    if not one:
        return 'style=dotted, label="%d\\nno leader"' % author if leads else 'style=invis, label=""'
    wave = waves.get((round_, author))
    told = 'label="%d %s%s"' % (author, one.certificate[:4].hex(), "\\nwith wave %d" % wave if wave else "")
    told += ", fillcolor=%d" % ((wave - 1) % 12 + 1) if wave else ""
    told += ", peripheries=2" if leads else ""
    return told + (', style="filled,dashed"' if round_ < low else "")


def graph(files, first, last):
    """The lines of a graph of these rounds."""
    lines = ["digraph journal {", "  rankdir=BT", "  node [shape=box, style=filled, colorscheme=set312, fillcolor=white]"]
    journal = Journal(files)
    node = journal.node
    if not node:
        return lines + ["}"]
    first = max(first, journal.first)
    waves = {(c.round, c.author): wave for _, c, wave in journal.order() if c}
    committed = {(c.round + 1) // 2 for c in node.chain()}
    members = list(node.committee.members)
    for round_ in range(first, min(last, max(r for r, _ in node.certificates)) + 1):
        name = "round %d" % round_
        if round_ % 2:
            name += "\\nwave %d: %s" % (round_ // 2 + 1, fate(committed, round_ // 2 + 1))
        lines += ["  {", "    rank=same", '    round%d [shape=plaintext, style=solid, label="%s"]' % (round_, name)]
        lines += ["    r%dm%d [group=m%d, %s]" % (round_, a, a, place(node, waves, node.floor(), round_, a)) for a in members]
        lines += ["    round%d%s [style=invis]" % (round_, "".join(" -> r%dm%d" % (round_, a) for a in members)), "  }"]
        if round_ > first:
            for author in members:
                one = node.certificates.get((round_, author))
                parents = [p.author for p in one.parents if (round_ - 1, p.author) in node.certificates] if one else []
                lines += ["  r%dm%d -> r%dm%d" % (round_, author, round_ - 1, parent) for parent in parents]
    return lines + ["}"]


# ---- a journal with a wave that is skipped

def encoded(header):
    text = histories.u16(header.author) + histories.u64(header.round) + histories.u16(0) + histories.u16(len(header.parents))
    return text + b"".join(histories.u16(parent.author) + parent.certificate for parent in header.parents)


def certificate_record(header):
    votes = b"".join(histories.u16(voter) + bytes(64) for voter in range(3))
    return b"\1" + histories.u16(0) + b"\5" + encoded(header) + histories.u16(3) + votes


def coin_record(wave, value):
    return b"\1" + histories.u16(0) + b"\6" + histories.u64(wave) + histories.u64(value)


def group(*records):
    body = b"".join(histories.u32(len(record)) + record for record in records)
    return histories.u32(len(body)) + body


def skipped():
    """The bytes of the journal."""
    keys, stakes = b"".join(bytes([65 + member]) * 32 for member in range(4)), histories.u32(1) * 4
    first = b"\0\2" + histories.u16(0) + histories.u16(3) + histories.u16(1) + histories.u32(100) + histories.u16(4) + keys + stakes
    below = [histories.Header("-", author, 0, [], []) for author in range(4)]
    # The leaders: member 1, member 3, whom nobody names in the next round, and member 0. A wave's coin comes after its third round.
    records, coins = [], {3: [(1, 1)], 5: [(2, 3)], 7: [(3, 0)]}
    for round_, authors in enumerate([(0, 1, 2, 3), (0, 1, 2), (0, 1, 2, 3)] + [(0, 1, 2)] * 4, 1):
        named = [parent for parent in below if parent.author < 3]
        # One of the second round names member 3 too.
        here = [histories.Header("-", author, round_, below if (round_, author) == (2, 2) else named, []) for author in authors]
        records += [certificate_record(header) for header in here] + [coin_record(*coin) for coin in coins.get(round_, [])]
        below = here
    return b"\1" + group(first) + b"\1" + group(*records) + b"\0"


# ---- what a command prints: its lines, and its status

def lines_of(rows, names, as_json):
    if as_json:
        return [json.dumps(one, separators=(",", ":")) for one in rows]
    told = [[str(one[name]) if one[name] is not None else "-" for name in names] for one in rows]
    return ["\t".join(line) for line in [names] + told]


def told(words, files, start=0, as_json=False, rounds=(0, 2 ** 64 - 1)):
    """The lines and the status of a command. A line of damage ends with its place."""
    try:
        if words == "list":
            rows, damaged = list_all(files[0], start)
            return lines_of(rows, LIST, as_json), 0 if damaged is None else 1
        if words == "verify":
            rows = verify(files[0])
            return lines_of(rows, [], True) if as_json else [verified(rows[0])], 0
        if words == "votes":
            return lines_of(votes(files[0]), VOTES, as_json), 0
        if words == "order":
            return lines_of(order(files[0], start), ORDER, as_json), 0
        if words == "graph":
            return graph(files[0], *rounds), 0
        if words == "last-header":
            return [frame.hex() for frame in last_header(files[0])], 0
        line, status = compare(*files)
        return [line], status
    except Damaged as damaged:
        line = "damaged at %d" % damaged.args
        return [('{"wrong":"%s' % line) if as_json else line] if words == "verify" else [], 1


# ---- journals of two files

def in_turn(records):
    """The groups of one record each, after open gates."""
    return b"".join(b"\1" + group(record) for record in records)


def histories_told():
    """Names, configurations and events: waves of which one is skipped, and events of every kind."""
    records, _ = recoveries.walk(skipped())
    yield "waves", records[0][1], [one for _, one in records[1:]]
    yield "kinds", recoveries.CONFIG, recoveries.every_kind()


def state_after(setting, events):
    """The records of a checkpoint of the node after some events."""
    histories.OWN = recoveries.OWN = setting.own
    recoveries.MEMBERS, recoveries.WORKERS, recoveries.BATCHES = len(setting.keys), setting.workers, setting.batches
    node = histories.Node(setting.depth, histories.Committee(setting.stakes))
    for one in events:
        recoveries.take(node, one)
    return checkpoints.state_records(node, setting.own)


def pairs():
    """Names, and the bytes of both files. Where there is no second file these are None."""
    for name, first, events in histories_told():
        for count in sorted({0, 1, len(events) // 4, len(events) // 2, 3 * len(events) // 4, len(events)}):
            state = in_turn(state_after(Setting(first), events[:count]))
            old = b"\1" + group(first) + in_turn(events[:count]) + b"\0"
            new = b"\1" + group(first, checkpoints.head(2)) + state + in_turn(events[count:]) + b"\0"
            newer = b"\1" + group(first, checkpoints.head(2 ** 64 - 1)) + state + b"\0"
            for what, one, other in (
                ("in the second file", old, new), ("in the first file", newer, new), ("half written", new, b"\0" + newer[1:-20]),
                ("alone", new, None), ("in the second file alone", b"", newer), ("twice", new, new),
            ):
                yield "%s after %d events, a checkpoint %s" % (name, count, what), one, other
    records, _ = recoveries.walk(skipped())
    first, vote, own = recoveries.CONFIG, recoveries.EVENT, recoveries.record(0, recoveries.header_message(recoveries.OWN_HEADER))
    small = state_after(Setting(first), [vote, own])
    head, whole = checkpoints.head(1), in_turn(small)
    fresh = b"\1" + group(first) + b"\0"
    for what, other in (
        ("small", b"\1" + group(first, head) + whole + b"\0"),
        ("small, with an event", b"\1" + group(first, head) + whole + in_turn([recoveries.record(1, recoveries.vote_message(recoveries.OWN_HEADER, 1))]) + b"\0"),
        ("an event that the state has", b"\1" + group(first, head) + whole + in_turn([vote]) + b"\0"),
        ("the state's records in the wrong order", b"\1" + group(first, head) + in_turn(small[::-1]) + b"\0"),
        ("an event before the state", b"\1" + group(first, head) + in_turn([vote] + small) + b"\0"),
        ("no state after the head", b"\1" + group(first, head) + b"\0"),
        ("a state that isn't sound as a whole", b"\1" + group(first, head) + in_turn([checkpoints.order_piece([bytes(32)])]) + b"\0"),
        ("the version before", b"\1" + group(recoveries.configuration(version=1), head) + whole + b"\0"),
    ):
        yield what, fresh, other


def write_pairs(folder):
    """Writes the journals, with their names in the file `names`, and says how many they are."""
    names = []
    for number, (name, first, second) in enumerate(pairs()):
        path = os.path.join(folder, "%d.journal" % number)
        names.append("%d %s" % (number, name))
        write_both(path, (first, second))
    with open(os.path.join(folder, "names"), "w") as out:
        out.write("\n".join(names) + "\n")
    print("%d journals" % len(names))


# ---- a program compared

SECOND = ".2"
# The pair of --make-pairs of which each cut and each changed byte is tried.
VARIED = "small, with an event"


def read(path):
    with open(path, "rb") as file:
        return file.read()


def read_both(path):
    """The bytes of both files; of the second one none where it isn't there."""
    return read(path), read(path + SECOND) if os.path.exists(path + SECOND) else None


def write_both(path, files):
    for name, file in zip((path, path + SECOND), files):
        if file is not None:
            with open(name, "wb") as out:
                out.write(file)
        elif os.path.exists(name):
            os.remove(name)


def known(files):
    """The same where a second file that isn't there is empty."""
    return files[0], files[1] or b""


def differs(program, words, path, files, options=()):
    """Runs a command on files that are at the path, and says what differs, if anything does."""
    ran = subprocess.run([program, *words, path, *options], stdout=subprocess.PIPE, stderr=subprocess.PIPE)
    start = int(options[options.index("--from") + 1]) if "--from" in options else 0
    rounds = tuple(map(int, options[1].split("-"))) if "--rounds" in options else (0, 2 ** 64 - 1)
    lines, status = told(words[0], [known(files)], start, "--json" in options, rounds)
    printed = ran.stdout.decode().splitlines()
    if status == 1 and words[0] == "verify":
        printed = [line.split(":", 2 if "--json" in options else 1) for line in printed]
        printed = [":".join(parts[:-1]) for parts in printed]
    if (printed, ran.returncode) != (lines, status):
        return "%s %s: printed %s, status %d, and not %s, status %d" % (words[0], " ".join(options), printed[:3], ran.returncode, lines[:3], status)
    return None


def variants(files, varied):
    """The files, and where they are small and to be varied each of them cut at each length and with each byte changed to some others."""
    yield "whole", files
    if not varied or sum(map(len, known(files))) > SMALL:
        return
    for side, file in enumerate(files):
        for length in range(len(file or b"")):
            yield "file %d cut to %d" % (side, length), files[:side] + (file[:length],) + files[side + 1:]
    for side, file in enumerate(files):
        for place in range(len(file or b"")):
            for other in {0, 255, file[place] ^ 1} - {file[place]}:
                yield "byte %d of file %d is %d" % (place, side, other), files[:side] + (file[:place] + bytes([other]) + file[place + 1:],) + files[side + 1:]


def read_nothing(program, folder, journal):
    """Tries paths at which no regular file is, as a journal's and as a committee's; each is answered at once. Gives what was otherwise."""
    pipe = os.path.join(folder, "pipe")
    os.mkfifo(pipe)
    for path in (pipe, os.devnull, folder, os.path.join(folder, "nothing")):
        for words, status in ((("verify", path), 5), (("compare", journal, path), 5), (("verify", journal, path), 2)):
            try:
                ran = subprocess.run([program, *words], stdin=subprocess.DEVNULL, stdout=subprocess.PIPE, stderr=subprocess.PIPE, timeout=60)
                printed, ended = ran.stdout, ran.returncode
            except subprocess.TimeoutExpired:
                printed, ended = b"", "no end"
            yield None if (printed, ended) == (b"", status) else "%s: printed %r, status %s, and not %d" % (" ".join(words), printed, ended, status)


def compare_program(program, named, varied=lambda name: True):
    """Compares PROGRAM on journals, each given by a name and both files, and on some of them varied."""
    tried, wrong = 0, 0
    with tempfile.TemporaryDirectory(prefix="narwhal-journals-") as folder:
        path = os.path.join(folder, "journal")
        for number, (name, first) in enumerate(named):
            if number == 0:
                write_both(path, first)
                for difference in read_nothing(program, folder, path):
                    tried, wrong = tried + 1, wrong + (difference is not None)
                    if difference:
                        print(difference)
            for what, files in variants(first, varied(name)):
                write_both(path, files)
                commands = [("verify",), ("list",)] + [("votes",), ("order",), ("last-header",), ("graph",)] * (not what.startswith("byte"))
                for words in commands:
                    more = {"last-header": [], "graph": [("--rounds", "2-4")], "list": [("--json",), ("--from", str(areas.SECOND + 200))]}
                    for options in [()] + more.get(words[0], [("--json",)]) * (what == "whole"):
                        difference = differs(program, words, path, files, options)
                        tried, wrong = tried + 1, wrong + (difference is not None)
                        if difference and wrong <= 10:
                            print("%s, %s: %s" % (name, what, difference))
                if read_both(path) != files:
                    print("%s, %s: a file was changed" % (name, what))
                    wrong += 1
    print("%d commands, %d were not as expected" % (tried, wrong))
    return 1 if wrong or not tried else 0


def main(words):
    if words[:1] == ["--compare"] and len(words) > 2:
        return compare_program(words[1], [(path, read_both(path)) for path in words[2:]])
    if words[:1] == ["--compare-pairs"] and len(words) == 2:
        return compare_program(words[1], [(name, (first, second)) for name, first, second in pairs()], lambda name: name == VARIED)
    if words[:1] == ["--make-pairs"] and len(words) == 2:
        write_pairs(words[1])
        return 0
    if words == ["--make-skipped"]:
        sys.stdout.buffer.write(skipped())
        return 0
    start, rounds = 0, (0, 2 ** 64 - 1)
    if "--rounds" in words[:-1]:
        at = words.index("--rounds")
        rounds, words = tuple(map(int, words[at + 1].split("-"))), words[:at] + words[at + 2:]
    if "--from" in words[:-1]:
        at = words.index("--from")
        start, words = int(words[at + 1]), words[:at] + words[at + 2:]
    counts = {"verify": 1, "list": 1, "votes": 1, "order": 1, "last-header": 1, "compare": 2, "graph": 1}
    as_json, words = "--json" in words, [word for word in words if word != "--json"]
    if not words or counts.get(words[0]) != len(words) - 1:
        print(__doc__, file=sys.stdout if words == ["--help"] else sys.stderr)
        return 0 if words == ["--help"] else 2
    lines, status = told(words[0], [known(read_both(path)) for path in words[1:]], start, as_json, rounds)
    for line in lines:
        print(line)
    return status


if __name__ == "__main__":
    sys.exit(main(sys.argv[1:]))
