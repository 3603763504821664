"""What the programs in scripts/ and examples/ know of a node's bytes: frames, messages, the insecure test signatures.

Numbers are big-endian. docs/FORMATS.md has the formats.
"""

import hashlib
import struct

ALL, HOST = 0xFFFF, 0xFFFE
TRANSACTIONS, SEALS = 0xFFFF, 0xFFFE
BATCH, ACK, HEADER, VOTE, CERTIFICATE, COIN, ORDER = 1, 2, 3, 4, 5, 6, 7


def key_of(member):
    """The key of a member in tests: 32 times its number and 1."""
    return bytes([member + 1]) * 32


def committee_text(members=4, depth=50, workers=1, batches=1_048_576):
    """A committee file."""
    keys = ", ".join('"' + key_of(member).hex() + '"' for member in range(members))
    return f"members = [{keys}]\ndepth = {depth}\nworkers = {workers}\nbatches = {batches}\n"


def sha256(*parts):
    return hashlib.sha256(b"".join(parts)).digest()


def frame(body):
    return struct.pack(">I", len(body)) + body


def said(sender, message):
    """The frame of a message from its sender."""
    return frame(struct.pack(">H", sender) + message)


def transaction(worker, content):
    return frame(struct.pack(">HH", TRANSACTIONS, worker) + content)


def seal(worker):
    return frame(struct.pack(">HH", SEALS, worker))


def coin(wave, value):
    return struct.pack(">BQQ", COIN, wave, value)


def sign(member, digest):
    """The signature of the insecure pair for tests."""
    key = key_of(member)
    return sha256(b"S", key, digest) + sha256(b"T", key, digest)


# ---- messages


def batch(author, worker, transactions):
    """A batch, and its digest."""
    body = struct.pack(">HHI", author, worker, len(transactions))
    for content in transactions:
        body += struct.pack(">I", len(content)) + content
    return bytes([BATCH]) + body, sha256(b"B", body)


def header_body(author, round_number, parents, batches=()):
    """A header's body. Parents are pairs of an author and a certificate digest, batches of a digest and a worker."""
    body = struct.pack(">HQH", author, round_number, len(batches))
    for digest, worker in sorted(batches):
        body += digest + struct.pack(">H", worker)
    body += struct.pack(">H", len(parents))
    for parent, digest in sorted(parents):
        body += struct.pack(">H", parent) + digest
    return body


def header_digest(body):
    return sha256(b"H", body)


def certificate_digest(body):
    """The digest of the certificate of a header's body: of the header's digest, its round and its author."""
    author, round_number = struct.unpack(">HQ", body[:10])
    return sha256(b"C", header_digest(body), struct.pack(">QH", round_number, author))


def genesis_digest(author):
    return certificate_digest(header_body(author, 0, []))


def header(body):
    """A signed header, by its author."""
    (author,) = struct.unpack(">H", body[:2])
    return bytes([HEADER]) + body + sign(author, header_digest(body))


def vote(body, voter):
    author, round_number = struct.unpack(">HQ", body[:10])
    start = bytes([VOTE]) + header_digest(body) + struct.pack(">QHH", round_number, author, voter)
    return start + sign(voter, certificate_digest(body))


def certificate(body, voters):
    votes = b"".join(struct.pack(">H", voter) + sign(voter, certificate_digest(body)) for voter in sorted(voters))
    return bytes([CERTIFICATE]) + body + struct.pack(">H", len(voters)) + votes


# ---- reading


def body_len(message):
    """The length of the header's body that a header or a certificate begins with, after its tag."""
    (batches,) = struct.unpack(">H", message[11:13])
    (parents,) = struct.unpack(">H", message[13 + 34 * batches:15 + 34 * batches])
    return 14 + 34 * (batches + parents)


def slot_of(message):
    """The author and the round of a header or certificate."""
    return struct.unpack(">HQ", message[1:11])


class Frames:
    """Cuts what is read into the bodies of frames."""

    def __init__(self):
        self.held = b""

    def feed(self, piece):
        self.held += piece
        bodies, at = [], 0
        while len(self.held) - at >= 4:
            (length,) = struct.unpack_from(">I", self.held, at)
            if len(self.held) - at - 4 < length:
                break
            bodies.append(self.held[at + 4:at + 4 + length])
            at += 4 + length
        self.held = self.held[at:]
        return bodies


def output(body):
    """The receiver of an output, and what it gets."""
    (receiver,) = struct.unpack(">H", body[:2])
    return receiver, body[2:]


def order_of(content):
    """The place of the first digest of a piece of the order, and its digests."""
    start, count = struct.unpack(">QI", content[1:13])
    return start, [content[13 + 32 * i:45 + 32 * i] for i in range(count)]
