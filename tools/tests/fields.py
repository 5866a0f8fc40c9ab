"""Where each number of an image stands, and what an image starts from, read by the rules of docs/FORMAT.md alone."""
from typing import NamedTuple

BLOCK, SLOT_BLOCKS, FIRST_SLOT = 4_096, 16, 132
KEY, VALUE, PATH, PIECE = 518, 1_024, 512, 2_048
GREATEST_FILE, LEVELS, IDS = 1 << 30, 1_000, 65_536
LEAST_SLOTS, MOST_SLOTS, MOST_TABLE_SLOTS = 24, 65_536, 25


class Field(NamedTuple):
    """A number: its part, the first block of that, the place there and the width, its value and its limit.

    The limit is the greatest value that the format allows there, or the value that it has where that is higher.
    """

    part: str
    block: int
    place: int
    width: int
    value: int
    limit: int


class Reader:
    """Reads a part of an image from its front, and collects its numbers."""

    def __init__(self, image, part, block, fields):
        self.data = image[block * BLOCK : (block + SLOT_BLOCKS) * BLOCK]
        self.part, self.block, self.place, self.fields = part, block, 0, fields

    def skip(self, count):
        self.place += count

    def number(self, width, limit=0):
        place = self.place
        value = int.from_bytes(self.data[place : place + width], "big")
        self.fields.append(Field(self.part, self.block, place, width, value, max(limit, value)))
        self.place += width
        return value

    def text(self, limit):
        self.skip(self.number(2, limit))

    def message(self):
        tag = self.number(1, 5)
        self.text(KEY)
        if tag == 1:
            self.text(VALUE)
        elif tag == 3:
            self.number(2, VALUE)
            self.text(VALUE)
        elif tag == 4:
            self.text(KEY)
        elif tag == 5:
            self.text(KEY)
            self.number(8)

    def edge(self, messages):
        self.text(KEY)
        self.number(2, KEY)
        self.text(KEY)
        self.number(8)
        self.number(4, messages)

    def entry(self):
        self.text(KEY)
        self.text(VALUE)

    def node(self):
        self.skip(4)
        level, count, messages = self.number(4, LEVELS), self.number(4, 16), self.number(4)
        for _ in range(count):
            if level > 0:
                self.edge(messages)
            else:
                self.entry()
        for _ in range(messages):
            self.message()

    def placed(self, slots):
        """What a table has of a node: the slot in which that is."""
        self.number(8)
        self.number(8)
        slot = self.number(4, slots - 1)
        self.number(4, LEVELS)
        return slot

    def table(self, slots):
        """The slots of the nodes."""
        self.skip(8)
        count = self.number(8, IDS)
        self.number(8)
        self.number(8)
        return [self.placed(slots) for _ in range(count)]

    def superblock(self):
        """The epoch, the slots of the image, and the slot of a table that takes one."""
        self.skip(8)
        self.number(4, 2)
        slots = self.number(4)
        epoch = self.number(8)
        self.number(8)
        self.number(4, 25)
        return epoch, slots, self.number(4, slots - 1)

    def record(self):
        self.number(2, 2_571)
        tag = self.number(1, 8)
        self.text(PATH)
        if tag == 3:
            self.number(4, GREATEST_FILE)
            self.text(PIECE)
        elif tag == 4:
            self.number(4, GREATEST_FILE)
        elif tag in (6, 7):
            self.text(PATH)
        elif tag == 8:
            self.number(2, 4_095)

    def batch(self):
        self.skip(4)
        self.number(4, 62)
        self.number(8)
        records = self.number(4)
        self.number(4, 253_928)
        for _ in range(records):
            self.record()


def slot_block(slot):
    return FIRST_SLOT + SLOT_BLOCKS * slot


def fields_of(image):
    """The numbers of an image with two superblocks and a batch in the live one's half, and the table's block."""
    fields, nodes = [], []
    found = [Reader(image, "superblock", block, fields).superblock() + (block,) for block in (1, 3)]
    _, slots, table, live = max(found)
    for slot in Reader(image, "table", slot_block(table), fields).table(slots):
        nodes.append(slot_block(slot))
    for block in nodes:
        Reader(image, "node", block, fields).node()
    batch = 5 if live == 1 else 69
    Reader(image, "batch", batch, fields).batch()
    return fields, slot_block(table), batch


class Damaged(Exception):
    """An image starts from nothing, since a block is damaged."""

    def __init__(self, block):
        super().__init__(block)
        self.block = block


class Start(NamedTuple):
    """What an image starts from: the live superblock's epoch, the block of its body, the slots of the image and those
    of its table."""

    epoch: int
    body: int
    slots: int
    table: list

    def batch(self):
        """The first block of the log's first batch."""
        return 5 if self.body == 1 else 69


def number_in(data, place, width):
    return int.from_bytes(data[place : place + width], "big")


def superblock_in(image, body):
    """The superblock whose body this block has, or None."""
    data = image[body * BLOCK : (body + 1) * BLOCK]
    slots, epoch, count = number_in(data, 12, 4), number_in(data, 16, 8), number_in(data, 32, 4)
    if not 1 <= count <= MOST_TABLE_SLOTS:
        return None
    end = 36 + 4 * count
    table = [number_in(data, place, 4) for place in range(36, end, 4)]
    is_one = data[:8] == b"BDSUPER1" and number_in(data, 8, 4) in (1, 2) and not any(data[end:])
    is_of_size = LEAST_SLOTS <= slots <= MOST_SLOTS and len(image) == slot_block(slots) * BLOCK
    is_right = epoch >= 1 and len(set(table)) == count and max(table) < slots
    return Start(epoch, body, slots, table) if is_one and is_of_size and is_right else None


def start_of(image):
    """What an image starts from, where its superblocks are whole."""
    committed = [body for body in (1, 3) if image[(body - 1) * BLOCK : (body - 1) * BLOCK + 1] == b"\1"]
    if len(image) < slot_block(LEAST_SLOTS) * BLOCK or not committed:
        raise Damaged(0)
    found = [superblock_in(image, body) for body in committed]
    for body, superblock in zip(committed, found):
        if superblock is None:
            raise Damaged(body)
    if len({superblock.epoch for superblock in found}) < len(found):
        raise Damaged(3)
    return max(found)


def entries_of(image, start):
    """The ids, the slots and the levels of the nodes, by the table from which an image starts, where that is one."""
    data = b"".join(image[slot_block(slot) * BLOCK : slot_block(slot + 1) * BLOCK] for slot in start.table)
    count, next_id, root = (number_in(data, place, 8) for place in (8, 16, 24))
    end = 32 + 24 * count
    if data[:8] != b"BDTABLE1" or not 1 <= count <= IDS or -(-end // (SLOT_BLOCKS * BLOCK)) != len(start.table):
        raise Damaged(slot_block(start.table[0]))
    ids, references, slots, levels = (
        [number_in(data, place, width) for place in range(32 + at, end, 24)]
        for at, width in ((0, 8), (8, 8), (16, 4), (20, 4)))
    are_ids = all(low < high for low, high in zip([0] + ids, ids + [next_id]))
    are_placed = max(slots) < start.slots and len({*slots, *start.table}) == count + len(start.table)
    are_right = min(references) >= 1 and max(levels) <= LEVELS and not any(data[end:])
    has_root = root in ids and levels[ids.index(root)] >= 1
    if not (are_ids and are_placed and are_right and has_root):
        raise Damaged(slot_block(start.table[0]))
    return ids, slots, levels


def nodes_of(image, start):
    """The first blocks of the nodes' slots, by the table from which an image starts, where that is one."""
    return [slot_block(slot) for slot in entries_of(image, start)[1]]


def names_wrongly(image, field, value):
    """Whether a number of a node is an id, and another one in its place that of a node which the table lacks, or of one
    of no lower level. Ids alone have eight bytes there. An edge without a child has 0."""
    if field.width != 8 or value == 0:
        return False
    ids, slots, levels = entries_of(image, start_of(image))
    level_of = dict(zip(ids, levels))
    level = levels[[slot_block(slot) for slot in slots].index(field.block)]
    return value not in level_of or level_of[value] >= level


def changed(image, field, value):
    """The image with another number there."""
    other = bytearray(image)
    for block, place, byte in changes(field, value):
        other[block * BLOCK + place : block * BLOCK + place + 1] = byte
    return bytes(other)


def changes(field, value):
    """What makes a number another one: blocks, places and bytes."""
    number = (value % (1 << (8 * field.width))).to_bytes(field.width, "big")
    for at, byte in enumerate(number, field.place):
        yield field.block + at // BLOCK, at % BLOCK, bytes([byte])
