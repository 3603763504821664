"""Frames as text, a line each, both ways. The words are those of the simulator's scripts; docs/FORMATS.md has the bytes and these lines.

What a text defines has a label: `pack` a batch, `form` a header. A digest of which no label is known stands as its 64 digits.
"""

import re
import struct

import frames

# How the numbers FFFF and FFFE are written: of a frame that goes in, and of one that came out.
SENDERS = {"host": frames.TRANSACTIONS}
RECEIVERS = {"all": frames.ALL, "host": frames.HOST}
# The form of a line by its first word.
LINES = {
    "pack": "pack LABEL AUTHOR WORKER TRANSACTION ..", "form": "form LABEL AUTHOR ROUND PARENTS BATCHES",
    "from": "from SENDER WHAT", "to": "to RECEIVER WHAT",
}
# The form of what goes in or came out.
WHATS = {
    "transaction": "from host transaction WORKER TRANSACTION", "seal": "from host seal WORKER",
    "batch": "batch LABEL", "header": "header LABEL [SIGNATURE]", "ack": "ack LABEL MEMBER", "vote": "vote LABEL MEMBER [SIGNATURE]",
    "cert": "cert LABEL MEMBER,MEMBER,..", "coin": "coin WAVE VALUE", "order": "order START LABEL ..", "bytes": "bytes DIGITS",
}
# How many members have a key of the test pair.
KEYS = 255


class Unread(Exception):
    """A line that isn't one of the language, or bytes that spell no message."""


def number(word, most=(1 << 64) - 1):
    if not re.fullmatch(r"\d+", word) or int(word) > most:
        raise Unread(f"{word} is no number up to {most}")
    return int(word)


def hexadecimal(word, length=None):
    if not re.fullmatch(r"(?:[0-9a-f]{2})*", word) or length is not None and len(word) != 2 * length:
        raise Unread(f"{word} isn't {'pairs of' if length is None else 2 * length} digits 0-9, a-f")
    return bytes.fromhex(word)


def content_of(word):
    """Bytes: a text within quotes, or hexadecimal."""
    if re.fullmatch(r'"[^"]*"', word):
        return word[1:-1].encode()
    if not re.fullmatch(r"(?:[0-9a-f]{2})*", word):
        raise Unread(f'{word} is neither a text within two " nor pairs of digits 0-9, a-f')
    return bytes.fromhex(word)


def signed(member, digest):
    """The test pair's signature of a member."""
    if member >= KEYS:
        raise Unread(f"member {member} has no key of the test pair: write its signature's 128 digits, as docs/FORMATS.md says")
    return frames.sign(member, digest)


def content_text(content):
    """The word for bytes."""
    text = content.decode("latin-1")
    return f'"{text}"' if re.fullmatch(r'[ !#-~]*', text) else content.hex()


class Batch:
    def __init__(self, author, worker, transactions):
        self.author, self.worker, self.transactions = author, worker, transactions
        self.message, self.digest = frames.batch(author, worker, transactions)


class Header:
    def __init__(self, author, round_number, parents, batches):
        """Parents are pairs of an author and a digest, batches of a digest and a worker, in the order in which they stand."""
        self.author, self.round, self.parents, self.batches = author, round_number, parents, batches
        body = struct.pack(">HQH", author, round_number, len(batches))
        body += b"".join(digest + struct.pack(">H", worker) for digest, worker in batches)
        body += struct.pack(">H", len(parents)) + b"".join(struct.pack(">H", parent) + digest for parent, digest in parents)
        self.body, self.digest, self.certificate = body, frames.header_digest(body), frames.certificate_digest(body)


class Names:
    """What has a label."""

    def __init__(self):
        self.batches, self.headers = {}, {f"g{author}": Header(author, 0, [], []) for author in range(31)}

    def define(self, table, label, made):
        if not re.fullmatch(r"[a-z][a-z0-9]{0,15}", label):
            raise Unread(f"{label} is no label: a small letter and then at most 15 small letters or digits")
        if label in self.batches or label in self.headers:
            raise Unread(f"the label {label} is defined already: take another one")
        table[label] = made

    def new_label(self, table, letter, made):
        label = next(f"{letter}{count}" for count in range(1, 1 << 62) if f"{letter}{count}" not in table)
        table[label] = made
        return label

    def batch(self, label):
        if label not in self.batches:
            raise Unread(f"there is no batch {label}: a line before this one has to define it, as {LINES['pack'].replace('LABEL', label)}")
        return self.batches[label]

    def header(self, label):
        if label not in self.headers:
            raise Unread(f"there is no header {label}: a line before this one has to define it, as {LINES['form'].replace('LABEL', label)}")
        return self.headers[label]


def items(word):
    return [] if word == "-" else word.split(",")


# ---- from text


class Writer:
    """Makes the frames of a text."""

    def __init__(self, names=None):
        self.names = names or Names()

    def frames_of(self, text, name=None):
        """The frames of all lines. What isn't right is told with its line's number, after the name of the text, if it has one."""
        made = []
        for count, line in enumerate(text.splitlines(), 1):
            try:
                made.append(self.frame_of(line))
            except Unread as unread:
                raise Unread(f"{name + ', ' if name else ''}line {count}: {unread}") from None
        return b"".join(made)

    def frame_of(self, line):
        """The frame of a line; no bytes of one that defines something or says nothing."""
        words = re.findall(r'"[^"]*"|\S+', line)
        words = words[:next((at for at, word in enumerate(words) if word.startswith("#")), len(words))]
        if not words:
            return b""
        if words[0] not in LINES:
            raise Unread(f"a line begins with one of the words {', '.join(LINES)}, and this one with {words[0]}")
        form = LINES[words[0]]
        try:
            if words[0] == "pack":
                label, author, worker, *rest = words[1:]
                made = Batch(number(author, 65535), number(worker, 65535), [content_of(word) for word in rest])
                self.names.define(self.names.batches, label, made)
                return b""
            if words[0] == "form":
                label, author, round_number, parents, batches = words[1:]
                self.names.define(self.names.headers, label, self.header_of(author, round_number, parents, batches))
                return b""
            numbers = SENDERS if words[0] == "from" else RECEIVERS
            number_of = numbers[words[1]] if words[1] in numbers else number(words[1], 65535)
            form = f"{words[0]} {words[1]} {WHATS.get(words[2], 'WHAT')}" if words[2] not in ("transaction", "seal") else WHATS[words[2]]
            return self.frame_with(number_of, words[2], words[3:])
        except (ValueError, IndexError):
            raise Unread(f"the form of such a line is: {form}; docs/FORMATS.md has all under \"Frames as text\"") from None

    def header_of(self, author, round_number, parents, batches):
        return Header(
            number(author, 65535), number(round_number),
            [self.pair(item, self.parent_of) for item in items(parents)],
            [self.pair(item, self.reference_of)[::-1] for item in items(batches)],
        )

    def pair(self, word, known):
        """A number and a digest: of a label, or as DIGEST:NUMBER."""
        digest, colon, of = word.partition(":")
        return (number(of, 65535), hexadecimal(digest, 32)) if colon else known(word)

    def parent_of(self, label):
        header = self.names.header(label)
        return header.author, header.certificate

    def reference_of(self, label):
        batch = self.names.batch(label)
        return batch.worker, batch.digest

    def frame_with(self, number_of, word, rest):
        if word not in WHATS:
            raise Unread(f"what goes in or comes out is one of {', '.join(WHATS)}, and not {word}")
        if word in ("transaction", "seal") and number_of != frames.TRANSACTIONS:
            raise Unread(f"it comes from the host: {WHATS[word]}")
        if word == "transaction":
            worker, content = rest
            return frames.transaction(number(worker, 65535), content_of(content))
        if word == "seal":
            (worker,) = rest
            return frames.seal(number(worker, 65535))
        return frames.said(number_of, self.message_of(word, rest))

    def message_of(self, word, rest):
        if word == "batch":
            (label,) = rest
            return self.names.batch(label).message
        if word == "ack":
            label, member = rest
            digest = hexadecimal(label, 32) if len(label) == 64 else self.names.batch(label).digest
            return struct.pack(">BH", frames.ACK, number(member, 65535)) + digest
        if word == "header":
            header = self.names.header(rest[0])
            (signature,) = rest[1:] or [signed(header.author, header.digest).hex()]
            return bytes([frames.HEADER]) + header.body + hexadecimal(signature, 64)
        if word == "vote":
            return self.vote_of(rest)
        if word == "cert":
            label, voters = rest
            header = self.names.header(label)
            entries = b"".join(self.entry_of(header, item) for item in items(voters))
            return bytes([frames.CERTIFICATE]) + header.body + struct.pack(">H", len(items(voters))) + entries
        if word == "coin":
            wave, value = rest
            return frames.coin(number(wave), number(value))
        if word == "order":
            start, *labels = rest
            digests = [hexadecimal(label, 32) if len(label) == 64 else self.names.header(label).certificate for label in labels]
            return struct.pack(">BQI", frames.ORDER, number(start), len(digests)) + b"".join(digests)
        (content,) = rest or [""]
        return hexadecimal(content)

    def vote_of(self, rest):
        """A vote on a header of a label, or on DIGEST:ROUND:AUTHOR."""
        named, voter, *written = rest
        (signature,) = written or [None]
        if ":" in named:
            digest, round_number, author = named.split(":")
            digest, round_number, author = hexadecimal(digest, 32), number(round_number), number(author, 65535)
        else:
            header = self.names.header(named)
            digest, round_number, author = header.digest, header.round, header.author
        member = number(voter, 65535)
        certificate = frames.sha256(b"C", digest, struct.pack(">QH", round_number, author))
        signature = hexadecimal(signature, 64) if signature else signed(member, certificate)
        return bytes([frames.VOTE]) + digest + struct.pack(">QHH", round_number, author, member) + signature

    def entry_of(self, header, item):
        """A vote of a certificate: a member, or MEMBER:SIGNATURE."""
        member, colon, signature = item.partition(":")
        voter = number(member, 65535)
        return struct.pack(">H", voter) + (hexadecimal(signature, 64) if colon else signed(voter, header.certificate))


# ---- to text


class Bytes:
    """A message's bytes, read from the left."""

    def __init__(self, content):
        self.content, self.at = content, 0

    def take(self, length):
        if self.at + length > len(self.content):
            raise Unread("the bytes end within a field")
        self.at += length
        return self.content[self.at - length:self.at]

    def number(self, length):
        return int.from_bytes(self.take(length), "big")


def header_in(read):
    """The header whose body comes next."""
    author, round_number = read.number(2), read.number(8)
    batches = [(read.take(32), read.number(2)) for _ in range(read.number(2))]
    parents = [(read.number(2), read.take(32)) for _ in range(read.number(2))]
    return Header(author, round_number, parents, batches)


def read_header(message):
    """The header of a header's or a certificate's message."""
    return header_in(Bytes(message[1:]))


class Reader:
    """Tells frames as lines. Each line gives the same bytes again; what no other one does is `bytes`."""

    def __init__(self, names=None, is_output=True):
        self.names, self.numbers, self.word = names or Names(), RECEIVERS if is_output else SENDERS, "to" if is_output else "from"

    def lines_of(self, body):
        """The lines of a frame: first those that define what it names."""
        if len(body) < 2:
            return [f"# a frame without a number: {body.hex() or 'no bytes'}"]
        (found,), content = struct.unpack(">H", body[:2]), body[2:]
        written = {value: name for name, value in self.numbers.items()}.get(found, str(found))
        is_seal = self.word == "from" and found == frames.SEALS
        defined = []
        try:
            line = f"{self.word} {'host' if is_seal else written} {self.told(found, content, defined)}"
            again = Writer(self.names).frame_of(line)
        except (Unread, struct.error):
            again = None
        if again != frames.frame(body):
            line = f"{self.word} {written} bytes {content.hex()}".rstrip()
        return defined + [line]

    def told(self, found, content, defined):
        read = Bytes(content)
        if self.word == "from" and found == frames.TRANSACTIONS:
            return f"transaction {read.number(2)} {content_text(content[2:])}"
        if self.word == "from" and found == frames.SEALS:
            return f"seal {read.number(2)}"
        tag = read.number(1)
        if tag == frames.BATCH:
            author, worker = read.number(2), read.number(2)
            batch = Batch(author, worker, [read.take(read.number(4)) for _ in range(read.number(4))])
            return f"batch {self.label_of_batch(batch, defined)}"
        if tag == frames.ACK:
            member = read.number(2)
            return f"ack {self.batch_named(read.take(32))} {member}"
        if tag in (frames.HEADER, frames.CERTIFICATE):
            return self.told_header(tag, read, defined)
        if tag == frames.VOTE:
            digest, round_number, author, voter = read.take(32), read.number(8), read.number(2), read.number(2)
            label = next((name for name, header in self.names.headers.items() if header.digest == digest), None)
            signature = read.take(64)
            certificate = frames.sha256(b"C", digest, struct.pack(">QH", round_number, author))
            named = label or f"{digest.hex()}:{round_number}:{author}"
            return f"vote {named} {voter}" + self.signature_text(voter, certificate, signature, " ")
        if tag == frames.COIN:
            return f"coin {read.number(8)} {read.number(8)}"
        if tag == frames.ORDER:
            start = read.number(8)
            return " ".join([f"order {start}", *(self.certificate_named(read.take(32)) for _ in range(read.number(4)))])
        raise Unread("no tag of a message")

    def told_header(self, tag, read, defined):
        header = header_in(read)
        author = header.author
        label = self.label_of_header(header, defined)
        if tag == frames.HEADER:
            return f"header {label}" + self.signature_text(author, header.digest, read.take(64), " ")
        voters = []
        for _ in range(read.number(2)):
            voter = read.number(2)
            voters.append(f"{voter}" + self.signature_text(voter, header.certificate, read.take(64), ":"))
        return f"cert {label} {','.join(voters) or '-'}"

    def signature_text(self, member, digest, signature, before):
        """Nothing where it is the test pair's signature of the member, else its digits."""
        return "" if member < KEYS and frames.sign(member, digest) == signature else before + signature.hex()

    def label_of_batch(self, batch, defined):
        for label, known in self.names.batches.items():
            if known.message == batch.message:
                return label
        label = self.names.new_label({**self.names.headers, **self.names.batches}, "b", batch)
        self.names.batches[label] = batch
        defined.append(" ".join([f"pack {label} {batch.author} {batch.worker}", *map(content_text, batch.transactions)]))
        return label

    def label_of_header(self, header, defined):
        for label, known in self.names.headers.items():
            if known.body == header.body:
                return label
        label = self.names.new_label({**self.names.headers, **self.names.batches}, "h", header)
        self.names.headers[label] = header
        parents = [self.parent_text(parent, digest) for parent, digest in header.parents]
        batches = [self.reference_text(digest, worker) for digest, worker in header.batches]
        defined.append(f"form {label} {header.author} {header.round} {','.join(parents) or '-'} {','.join(batches) or '-'}")
        return label

    def parent_text(self, author, digest):
        label = self.certificate_named(digest)
        known = self.names.headers.get(label)
        return label if known and known.author == author else f"{digest.hex()}:{author}"

    def reference_text(self, digest, worker):
        label = self.batch_named(digest)
        known = self.names.batches.get(label)
        return label if known and known.worker == worker else f"{digest.hex()}:{worker}"

    def certificate_named(self, digest):
        return next((label for label, header in self.names.headers.items() if header.certificate == digest), digest.hex())

    def batch_named(self, digest):
        return next((label for label, batch in self.names.batches.items() if batch.digest == digest), digest.hex())
