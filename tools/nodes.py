"""The nodes of an image's last checkpoint, read by the rules of docs/FORMAT.md alone, and what answers for their keys.

A node answers for all keys. Which other node it asks for some of them is told by its edges and by the Gotos and Cuts
that wait in it; what else waits there changes what that one answers. All of this is one list of parts of a node
(`Node.parts`), each of which is about the keys from one on up to another one, and whoever looks into an image takes
what it needs from these lists.
"""
import os
from bisect import bisect_left, bisect_right
from functools import cached_property, lru_cache
from typing import NamedTuple, Optional

from mirrors import BLOCK, FIRST_SLOT, SLOT_BLOCKS, has_mark, read_from
from session import Failed

SLOT = SLOT_BLOCKS * BLOCK
LOG_HALVES, LOG_BLOCKS = (4, 68), 64
LEAST_SLOTS, MOST_SLOTS, MOST_TABLE_SLOTS, MOST_LEVELS = 24, 65_536, 25, 1_000
LEAF_BYTES, BUFFER_BYTES = 40_960, 32_768
# What a table has before its nodes, and of each.
TABLE_BYTES, ENTRY_BYTES = 32, 24
# As many nodes stay in memory as were last asked for.
MOST_IN_MEMORY = 2_048
# What a message or an entry counts beside its own bytes.
BASE = 16
PUT, DELETE, PATCH, CUT, GOTO = range(1, 6)


# The program's status where an image is damaged.
DAMAGED = 4


class Damaged(Failed):
    """Bytes that are none of an image's, by the block in which they stand."""

    def __init__(self, path, block, why):
        path = os.fsdecode(path)
        super().__init__(f"{path}: no image, or a damaged one: block {block} {why}", DAMAGED, f"damaged {block}")
        self.block = block


class Ended(Failed):
    """A structure has more bytes than are there, or other ones."""

    def __init__(self):
        super().__init__("a damaged image: its nodes hold what no tree has", DAMAGED)


class Bytes:
    """Bytes that are read from the front."""

    def __init__(self, data):
        self.data, self.at = data, 0

    def take(self, count):
        begun, self.at = self.at, self.at + count
        if self.at > len(self.data):
            raise Ended
        return self.data[begun : self.at]

    def number(self, width):
        return int.from_bytes(self.take(width), "big")

    def prefixed(self):
        return self.take(self.number(2))


class Message(NamedTuple):
    """A message that waits. `key` is a prefix of a Cut and a Goto; `data` is a value, the bytes of a Patch, where a Cut
    begins, or a Goto's source."""

    tag: int
    key: bytes
    data: bytes = b""
    offset: int = 0
    child: int = 0

    @property
    def size(self):
        """What it counts in its node."""
        return BASE + len(self.key) + len(self.data) + self.offset

    def keys(self):
        """The first key that a Cut or a Goto decides, and where those end."""
        return self.key + (self.data if self.tag == CUT else b""), after(self.key)

    def changed(self, old):
        """What a Put, a Del or a Patch makes of a value."""
        if self.tag != PATCH:
            return self.data if self.tag == PUT else None
        old = (old or b"").ljust(self.offset, b"\0")
        return old[: self.offset] + self.data + old[self.offset + len(self.data) :]


class Edge(NamedTuple):
    """An edge of a node, for the keys from its pivot on. Child 0 is none."""

    pivot: bytes
    lift: int
    source: bytes
    child: int
    seen: int


class Part(NamedTuple):
    """What answers for the keys from `lo` on, up to `hi` or without an end.

    A key of it is asked of the child, 0 where there is none, with `source` in place of its first `drop` bytes, which
    all of them have in common. What is answered is then changed by what waits: keys, each with a message on it, by
    rising key, and those on one key in their order.
    """

    lo: bytes
    hi: Optional[bytes]
    child: int
    drop: int
    source: bytes
    waits: list

    def asked(self):
        """The first key that the child is asked for, and where those end."""
        return self.source + self.lo[self.drop :], self.asked_end()

    def asked_end(self):
        if self.hi is not None and self.hi.startswith(self.lo[: self.drop]):
            return self.source + self.hi[self.drop :]
        return after(self.source)

    def within(self, lo, hi):
        """The part of it that is from a key on, up to another one."""
        lo, hi = max(lo, self.lo), least_end(hi, self.hi)
        return self._replace(lo=lo, hi=hi, waits=between(self.waits, lo, hi))

    def joined(self, inner, hi):
        """A part of the child's, as one of the keys for which this one answers. It ends at hi."""
        common, shift = self.lo[: self.drop], len(self.source)
        lo = common + inner.lo[shift:]
        kept = inner.drop - shift
        drop, source = self.drop + max(kept, 0), inner.source
        if kept < 0:
            source += self.source[inner.drop :]
        waits = [(common + key[shift:], message) for key, message in inner.waits]
        own = between(self.waits, lo, hi)
        if waits and own:
            waits = sorted(waits + own, key=lambda it: it[0])
        return Part(lo, hi, inner.child, drop, source, waits or own)


def after(prefix):
    """The least key above all that begin with a prefix, or None."""
    front = prefix.rstrip(b"\xff")
    return front[:-1] + bytes([front[-1] + 1]) if front else None


def least_end(a, b):
    """The lower one of two ends, where None is no end."""
    return b if a is None else a if b is None else min(a, b)


def is_before(key, end):
    return end is None or key < end


def between(waits, lo, hi):
    """What waits on the keys from one on, up to another one."""
    if not waits:
        return waits
    first = bisect_left(waits, lo, key=lambda it: it[0])
    last = len(waits) if hi is None else bisect_left(waits, hi, key=lambda it: it[0])
    return waits if last - first == len(waits) else waits[first:last]


class Node:
    """A node: its level, and its entries, or its edges and messages. `entries` are keys and values by rising key."""

    def __init__(self, data):
        if data[:4] != b"BDN1":
            raise Ended
        head = Bytes(data)
        head.take(4)
        self.level, count, waiting = head.number(4), head.number(4), head.number(4)
        self.entries, self.edges, self.messages = [], [], []
        if self.level == 0:
            self.entries = entries(data, head.at, count)
            return
        self.edges = [edge(head) for _ in range(count)]
        self.messages = [message(head) for _ in range(waiting)]
        rising = all(one.pivot < other.pivot for one, other in zip(self.edges, self.edges[1:]))
        within = all(it.lift <= len(it.pivot) and it.seen <= waiting for it in self.edges)
        if not self.edges or self.edges[0].pivot or not rising or not within:
            raise Ended

    @cached_property
    def size(self):
        """What its entries or messages count."""
        if self.level == 0:
            return sum(BASE + len(key) + len(value) for key, value in self.entries)
        return sum(it.size for it in self.messages)

    @property
    def full(self):
        return self.size / (BUFFER_BYTES if self.level else LEAF_BYTES)

    @cached_property
    def names(self):
        """The nodes that it names, by edges and by Gotos, each as often as it names it."""
        return [it.child for it in self.edges if it.child] + [it.child for it in self.messages if it.tag == GOTO]

    @cached_property
    def parts(self):
        """What answers for its keys, from the first key on, without a gap. A leaf has none."""
        found = []
        for place, it in enumerate(self.edges):
            hi = self.edges[place + 1].pivot if place + 1 < len(self.edges) else None
            found += parts(it, hi, self.messages)
        return found

    def asks(self, lo, hi):
        """Its parts from a key on, up to another one, the first and the last one cut there."""
        starts = self._starts
        first = bisect_right(starts, lo) - 1
        last = len(starts) if hi is None else bisect_left(starts, hi)
        if last <= first:
            return []
        if last - first == 1:
            return [self.parts[first].within(lo, hi)]
        middle = self.parts[first + 1 : last - 1]
        return [self.parts[first].within(lo, hi), *middle, self.parts[last - 1].within(lo, hi)]

    def ask(self, key):
        """The part that answers for a key."""
        return self.parts[bisect_right(self._starts, key) - 1]

    @cached_property
    def _starts(self):
        return [it.lo for it in self.parts]

    def run(self, lo, hi):
        """A leaf's entries from a key on, up to another one."""
        first = bisect_left(self.entries, lo, key=lambda it: it[0])
        last = len(self.entries) if hi is None else bisect_left(self.entries, hi, key=lambda it: it[0])
        return self.entries[first:last]

    def get(self, key):
        """A leaf's value at a key, or None."""
        at = bisect_left(self.entries, key, key=lambda it: it[0])
        return self.entries[at][1] if at < len(self.entries) and self.entries[at][0] == key else None


def entries(data, at, count):
    """So many entries of a leaf, read from a place on."""
    found = []
    for _ in range(count):
        end = at + 2 + int.from_bytes(data[at : at + 2], "big")
        last = end + 2 + int.from_bytes(data[end : end + 2], "big")
        if last > len(data):
            raise Ended
        found.append((data[at + 2 : end], data[end + 2 : last]))
        at = last
    return found


def has_entry(data, lo, hi):
    """Whether the first bytes of a leaf have an entry from a key on, up to another one."""
    at, left = 16, int.from_bytes(data[8:12], "big") if data[:8] == b"BDN1\0\0\0\0" else 0
    while left:
        size = int.from_bytes(data[at : at + 2], "big")
        key, last = data[at + 2 : at + 2 + size], at + 4 + size
        if last > len(data) or not is_before(key, hi):
            return False
        if key >= lo:
            return True
        at, left = last + int.from_bytes(data[last - 2 : last], "big"), left - 1
    return False


def table_slots(count):
    """How many slots a table of so many nodes takes."""
    return -(-(TABLE_BYTES + ENTRY_BYTES * count) // SLOT)


def edge(data):
    return Edge(data.prefixed(), data.number(2), data.prefixed(), data.number(8), data.number(4))


def message(data):
    tag, key = data.number(1), data.prefixed()
    if tag in (PUT, CUT):
        return Message(tag, key, data.prefixed())
    if tag == DELETE:
        return Message(tag, key)
    if tag == PATCH:
        offset = data.number(2)
        return Message(tag, key, data.prefixed(), offset)
    if tag != GOTO:
        raise Ended
    source = data.prefixed()
    return Message(tag, key, source, 0, data.number(8))


def parts(it, hi, messages):
    """What answers for the keys of an edge, which end at hi, over the messages of its node."""
    found = [(it.pivot, hi, it.child, it.lift, it.source, it.seen)]
    starts = [it.pivot]
    for place in range(it.seen, len(messages)):
        if messages[place].tag in (CUT, GOTO):
            cover(found, starts, messages[place], place + 1)
    waits = [[] for _ in found]
    for place in range(it.seen, len(messages)):
        one = messages[place]
        if one.tag not in (CUT, GOTO) and it.pivot <= one.key and is_before(one.key, hi):
            at = bisect_right(starts, one.key) - 1
            if place >= found[at][5]:
                waits[at].append((one.key, one))
    return [Part(*of[:5], sorted(waiting, key=lambda it: it[0])) for of, waiting in zip(found, waits)]


def cover(found, starts, one, place):
    """Puts a Cut or a Goto over the parts of its keys. The messages from a place on come after it."""
    lo, hi = one.keys()
    lo, hi = max(lo, found[0][0]), least_end(hi, found[-1][1])
    if not is_before(lo, hi):
        return
    first = bisect_right(starts, lo) - 1
    last = len(starts) if hi is None else bisect_left(starts, hi)
    new = [(lo, hi, one.child, len(one.key), one.data, place) if one.tag == GOTO else (lo, hi, 0, 0, b"", place)]
    if found[first][0] < lo:
        new.insert(0, (found[first][0], lo, *found[first][2:]))
    end = found[last - 1][1]
    if hi is not None and is_before(hi, end):
        new.append((hi, end, *found[last - 1][2:]))
    found[first:last] = new
    starts[first:last] = [of[0] for of in new]


class Superblock(NamedTuple):
    epoch: int
    half: int
    version: int
    slots: int
    count: int
    table: list


class Kept(NamedTuple):
    """What the table tells of a node: how often it is named, its slot and its level."""

    references: int
    slot: int
    level: int


class Image:
    """The last checkpoint of an image. Nodes are read when they are first asked for, and then kept.

    It is read while others may write to it: a checkpoint leaves the slots of the one before it as they are, so what was
    read is one state where `is_last` says at the end that no other checkpoint was made since.
    """

    def __init__(self, path):
        self.path, self.file = path, open(read_from(path), "rb")
        self.live = self._superblock()
        self.table = self._table()
        self.waiting = self._waiting()
        self.node = lru_cache(MOST_IN_MEMORY)(self._node)

    def __enter__(self):
        return self

    def __exit__(self, *_):
        self.file.close()

    def _damaged(self, block, why):
        return Damaged(self.path, block, why)

    def bytes_at(self, block, count=1):
        """The bytes of blocks."""
        data = os.pread(self.file.fileno(), count * BLOCK, block * BLOCK)
        if len(data) < count * BLOCK:
            raise self._damaged(block, "is missing")
        return data

    def is_open(self, block):
        """Whether a commit block is committed."""
        return self.bytes_at(block)[0] == 1

    def _superblock(self):
        """The live superblock. The last block of a half of a mirror is its mark, and none of the image's."""
        size = os.fstat(self.file.fileno()).st_size
        if has_mark(size):
            size -= BLOCK
        if size < (FIRST_SLOT + LEAST_SLOTS * SLOT_BLOCKS) * BLOCK:
            raise self._damaged(0, "is too near to the end")
        found = [self._body(half, size) for half in (0, 1) if self.is_open(2 * half)]
        if not found:
            raise self._damaged(0, "and block 2 commit no superblock")
        if len(found) == 2 and found[0].epoch == found[1].epoch:
            raise self._damaged(3, "has the epoch of block 1")
        return max(found)

    def _body(self, half, size):
        block = 2 * half + 1
        body = Bytes(self.bytes_at(block))
        magic, version, slots = body.take(8), body.number(4), body.number(4)
        epoch, count, used = body.number(8), body.number(8), body.number(4)
        if magic != b"BDSUPER1" or version not in (1, 2) or not 1 <= used <= MOST_TABLE_SLOTS:
            raise self._damaged(block, "is no superblock")
        if not LEAST_SLOTS <= slots <= MOST_SLOTS or size // BLOCK != FIRST_SLOT + slots * SLOT_BLOCKS:
            raise self._damaged(block, f"is of {slots} slots, and the file isn't")
        return Superblock(epoch, half, version, slots, count, [body.number(4) for _ in range(used)])

    def _table(self):
        """What is told of each kept node, by its id."""
        block = self.block_of(self.live.table[0])
        data = Bytes(b"".join(self.bytes_at(self.block_of(slot), SLOT_BLOCKS) for slot in self.live.table))
        magic, count, self.next, self.root = data.take(8), data.number(8), data.number(8), data.number(8)
        if magic != b"BDTABLE1" or count * ENTRY_BYTES + TABLE_BYTES > len(data.data):
            raise self._damaged(block, "has no table")
        found = {data.number(8): Kept(data.number(8), data.number(4), data.number(4)) for _ in range(count)}
        if self.root not in found or any(it.slot >= self.live.slots for it in found.values()):
            raise self._damaged(block, "has no table")
        return found

    def _waiting(self):
        """How many commands wait in the log."""
        first, place, found = LOG_HALVES[self.live.half], 0, 0
        while place < LOG_BLOCKS and self.is_open(first + place):
            body = Bytes(self.bytes_at(first + place + 1)) if place + 1 < LOG_BLOCKS else Bytes(b"\0" * 24)
            magic, blocks, epoch, records = body.take(4), body.number(4), body.number(8), body.number(4)
            if magic != b"BDLB" or epoch != self.live.epoch or not blocks:
                raise self._damaged(first + place + 1, "has no commands")
            found, place = found + records, place + 1 + blocks
        return found

    def is_last(self):
        """Whether no other checkpoint was made since it was read."""
        return self._superblock().epoch == self.live.epoch

    @staticmethod
    def block_of(slot):
        return FIRST_SLOT + slot * SLOT_BLOCKS

    def slot_of(self, id_):
        """The bytes of a node's slot."""
        return self.bytes_at(self.block_of(self.table[id_].slot), SLOT_BLOCKS)

    def _node(self, id_):
        """The node of an id. Those that it names are kept and of lower levels, so each way down ends."""
        kept = self.table[id_]
        try:
            node = Node(self.slot_of(id_))
        except Ended:
            raise self.no_node(id_) from None
        lower = all(name in self.table and self.table[name].level < node.level for name in node.names)
        if node.level != kept.level or node.level > MOST_LEVELS or not lower:
            raise self._damaged(self.block_of(kept.slot), "is another node's")
        return node

    def has_entry(self, id_, lo, hi):
        """Whether a leaf has an entry from a key on, up to another one: read no further than it takes to know."""
        block = self.block_of(self.table[id_].slot)
        return has_entry(self.bytes_at(block), lo, hi) or bool(self.node(id_).run(lo, hi))

    def no_node(self, id_):
        """The damage of a slot that has no node."""
        return self._damaged(self.block_of(self.table[id_].slot), "is no node's")

    def whole(self, prefix=b""):
        """The part that answers for all keys that begin with a prefix, as keys without it."""
        return Part(b"", None, self.root, 0, prefix, [])

    def is_inner(self, part):
        return part.child != 0 and self.table[part.child].level > 0

    def opened(self, part):
        """The parts that make up one whose child is an inner node."""
        inner = self.node(part.child).asks(*part.asked())
        common, shift = part.lo[: part.drop], len(part.source)
        ends = [common + it.lo[shift:] for it in inner[1:]] + [part.hi]
        return [part.joined(it, end) for it, end in zip(inner, ends)]

    def values(self, part):
        """The keys and values of a part that has no child or asks a leaf, by rising key."""
        found = self.node(part.child).run(*part.asked()) if part.child else []
        if part.drop or part.source:
            common, shift = part.lo[: part.drop], len(part.source)
            found = [(common + key[shift:], value) for key, value in found]
        if not part.waits:
            return found
        values = dict(found)
        for key, one in part.waits:
            values[key] = one.changed(values.get(key))
        return [(key, values[key]) for key in sorted(values) if values[key] is not None]

    def value(self, part, key):
        """The value at a key of a part, or None."""
        changes, value = [it for _, it in between(part.waits, key, key + b"\0")], None
        id_, key = part.child, part.source + key[part.drop :]
        while id_:
            node = self.node(id_)
            if node.level == 0:
                value = node.get(key)
                break
            part = node.ask(key)
            changes = [it for _, it in between(part.waits, key, key + b"\0")] + changes
            id_, key = part.child, part.source + key[part.drop :]
        for one in changes:
            value = one.changed(value)
        return value


class Scan:
    """The keys and values of a part one after the other, and from any later key on."""

    def __init__(self, image, part):
        self.image, self.left, self.found, self.at = image, [part], [], 0

    def next(self):
        """The next key and value, or None."""
        while self.at >= len(self.found):
            if not self.left:
                return None
            part = self.left.pop()
            if self.image.is_inner(part):
                self.left += reversed(self.image.opened(part))
            else:
                self.found, self.at = self.image.values(part), 0
        self.at += 1
        return self.found[self.at - 1]

    def seek(self, key):
        """Goes on at a key, where it isn't there yet."""
        self.at = bisect_left(self.found, key, self.at, key=lambda it: it[0])
        while self.at >= len(self.found) and self.left and self.left[-1].hi is not None and self.left[-1].hi <= key:
            self.left.pop()
        if self.at >= len(self.found) and self.left and self.left[-1].lo < key:
            self.left.append(self.left.pop().within(key, None))


# ---- what keys and values mean

class Record(NamedTuple):
    """The record of a path: the length of a file, None of a directory, and the mode."""

    size: Optional[int]
    mode: int

    @property
    def is_dir(self):
        return self.size is None


def record(value):
    """What the value at a record's key tells."""
    numbers = Bytes(value)
    if numbers.take(1) == b"D":
        return Record(None, numbers.number(len(value) - 1))
    return Record(numbers.number(4), numbers.number(len(value) - 5))


def key_of(path):
    """The key of a path: each name of it, and a zero after it."""
    return b"".join(name + b"\0" for name in path.split(b"/") if name)


def path_of(key):
    """The path of a key."""
    return b"/" + key.rstrip(b"\0").replace(b"\0", b"/")


class Place(NamedTuple):
    """What a key of the tree is about: the key of a path, and the number of a block, None of the path's record."""

    key: bytes
    block: Optional[int]


def place(key):
    end = 0 if key.startswith(b"\0") else key.find(b"\0\0") + 1
    return Place(key[:end], None if key[end + 1 : end + 2] == b"\0" else int.from_bytes(key[end + 2 :], "big"))


def record_at(image, path):
    """The record of a path, or None."""
    value = image.value(image.whole(), key_of(path) + b"\0\0")
    return None if value is None else record(value)


def children(image, path):
    """The names in a directory and their records, in the order of the names."""
    key = key_of(path)
    scan = Scan(image, image.whole(key))
    scan.seek(b"\x01")
    while found := scan.next():
        of, block = place(found[0])
        name = of[:-1]
        if block is None and b"\0" not in name:
            yield name, record(found[1])
        scan.seek(of[: of.find(b"\0")] + b"\x01")
