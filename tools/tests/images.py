"""Image files that are made by hand by the rules of docs/FORMAT.md: superblocks, tables and logs that are read, each damage and the
block that it names, and what the program writes, byte for byte."""
import subprocess
import tempfile
from pathlib import Path

BLOCK, SLOT_BLOCKS, FIRST_SLOT = 4096, 16, 132
LOGS = {"A": 4, "B": 68}
ROOM = 253_928

# The root of a new image: `BDN1`, level 1, one edge, one message; the edge without a child; and a Put of the record of `/`.
ROOT = bytes.fromhex("42444e31 00000001 00000001 00000001 0000 0000 0000000000000000 0000 00000000 01 0002 0000 0001 44")

# The log records of `mkdir /a` and of `remove /a`.
MKDIR, REMOVE = bytes.fromhex("0005 01 0002 2f61"), bytes.fromhex("0005 05 0002 2f61")


def superblock(epoch=1, slots=24, table=(1,), version=2):
    """A superblock's body without commands, before its zeros."""
    numbers = [(version, 4), (slots, 4), (epoch, 8), (0, 8), (len(table), 4)] + [(slot, 4) for slot in table]
    return b"BDSUPER1" + b"".join(number.to_bytes(width, "big") for number, width in numbers)


def table(nodes, first):
    """A table of so many nodes in the slots from one on, whose root is the last one, of level 1; the others are leaves."""
    head = b"BDTABLE1" + b"".join(number.to_bytes(8, "big") for number in (nodes, nodes + 1, nodes))
    entries = [(node + 1).to_bytes(8, "big") + bytes(7) + b"\1" + (first + node).to_bytes(4, "big") + bytes(4) for node in range(nodes)]
    return head + b"".join(entries)[:-4] + (1).to_bytes(4, "big")


def batch(records, epoch=1):
    """A batch's body, before its zeros."""
    size = sum(map(len, records))
    numbers = [(-(-(24 + size) // BLOCK), 4), (epoch, 8), (len(records), 4), (size, 4)]
    return b"BDLB" + b"".join(number.to_bytes(width, "big") for number, width in numbers) + b"".join(records)


def slot_block(slot):
    return FIRST_SLOT + SLOT_BLOCKS * slot


# The bytes of a new image of 24 slots, by the blocks that have bytes before their zeros: its root is in slot 0, its table in slot 1.
NEW = {0: b"\1", 1: superblock(), slot_block(0): ROOT, slot_block(1): table(1, 0)}

# And of one whose second superblock is whole too, and not committed.
HALVES = {**NEW, 3: superblock(epoch=2)}

# Bytes of that image that are others, and the live epoch, or the block that is damaged.
SUPERBLOCKS = [
    ("one half", {}, 1, None), ("both halves", {(2, 0): 1}, 2, None), ("another count", {(1, 31): 9}, 1, None),
    ("slots 1 and 0, and a table too short for them", {(1, 35): 2}, None, 148), ("no half", {(0, 0): 0}, None, 0),
    ("a commit block of 2", {(0, 0): 2}, None, 0), ("a commit block of 255", {(0, 0): 255}, None, 0), ("the magic", {(1, 7): 0}, None, 1),
    ("version 0", {(1, 11): 0}, None, 1), ("version 1", {(1, 11): 1}, 1, None), ("version 3", {(1, 11): 3}, None, 1),
    ("version 255", {(1, 11): 255}, None, 1), ("version 257", {(1, 10): 1}, None, 1),
    ("version 2 in the first byte", {(1, 8): 2, (1, 11): 0}, None, 1), ("a second half of version 1", {(2, 0): 1, (3, 11): 1}, 2, None),
    ("a second half of version 3", {(2, 0): 1, (3, 11): 3}, None, 3), ("too few slots", {(1, 15): 23}, None, 1),
    ("another size", {(1, 15): 25}, None, 1), ("an epoch of 0", {(1, 23): 0}, None, 1), ("no table", {(1, 35): 0}, None, 1),
    ("a table too large", {(1, 35): 26}, None, 1), ("a slot past the end", {(1, 39): 24}, None, 1),
    ("a slot twice", {(1, 35): 2, (1, 43): 1}, None, 1), ("a byte after the slots", {(1, 40): 1}, None, 1),
    ("the last byte", {(1, 4095): 1}, None, 1), ("a second half that isn't committed", {(3, 7): 0}, 1, None),
    ("the second half", {(2, 0): 1, (3, 7): 0}, None, 3), ("both", {(1, 7): 0, (2, 0): 1, (3, 7): 0}, None, 1),
    ("equal epochs", {(2, 0): 1, (3, 23): 1}, None, 3)]

# Bytes of the table of a new image that are others, and the block that is damaged. Slot 23 has the root's bytes too.
TABLES = [
    ("nothing", {}, None), ("more references", {47: 9}, None), ("another slot", {51: 23}, None),
    ("the greatest level, which isn't the root's own", {54: 3, 55: 232}, 132), ("a higher next id", {23: 3}, None), ("the magic", {7: 0x32}, 148),
    ("no entries", {15: 0}, 148), ("two entries", {15: 2}, 148), ("a next id that is taken", {23: 1}, 148), ("no such root", {31: 2}, 148),
    ("an id of 0", {39: 0, 31: 0}, 148), ("no references", {47: 0}, 148), ("the table's slot", {51: 1}, 148),
    ("a slot past the end", {51: 24}, 148), ("a root that is a leaf", {55: 0}, 148), ("a level too high", {54: 3, 55: 233}, 148),
    ("a byte after the entries", {56: 1}, 148), ("a byte behind", {79: 1}, 148), ("the last byte of the block", {4095: 1}, 148)]

# Bytes that make the batch of `mkdir /a` at epoch 1 none: another first byte, other blocks, another epoch, no records, two of them,
# a byte more, a byte among the zeros.
BATCHES = {0: 0x43, 7: 2, 15: 2, 19: 0, 23: 8, 31: 1}
BATCH_ROWS = [*BATCHES.items(), (19, 2)]

# Large tables: the nodes, the slots of the image, the table's slots, and the block that is damaged. One slot takes up to 2,729 nodes.
# The largest image has room for 65,512 nodes, whose table takes the 24 other slots.
LARGE = [
    (1, 2_732, 1, None), (2_729, 2_732, 1, None), (2_730, 2_732, 2, None), (2_729, 2_732, 2, 132), (2_730, 2_732, 1, 132),
    (65_512, 65_536, 24, None), (65_512, 65_536, 25, 132), (65_513, 65_536, 24, 132), (65_513, 65_536, 25, 132), (65_536, 65_536, 25, 132)]

# Nodes of tables that are written, and the slots of the image, which has some that are free.
WRITTEN = [(1, 2_800), (2_729, 2_800), (2_730, 2_800), (65_400, 65_536)]


class Image:
    """An image file of its own, in a temporary folder."""

    def __init__(self, betr, blocks, parts):
        self.room = tempfile.TemporaryDirectory(prefix="betr-images-")
        self.path, self.betr = Path(self.room.name) / "img", betr
        with open(self.path, "wb") as file:
            file.truncate(blocks * BLOCK)
        for number, data in parts.items():
            self.set(number, 0, data)

    def __enter__(self):
        return self

    def __exit__(self, *_):
        self.room.cleanup()

    def set(self, number, place, data):
        """Gives a block these bytes from a place on; they may go on into the blocks after it."""
        with open(self.path, "r+b") as file:
            file.seek(number * BLOCK + place)
            file.write(data)

    def bytes(self, number, blocks=1):
        """The bytes of blocks."""
        with open(self.path, "rb") as file:
            file.seek(number * BLOCK)
            return file.read(blocks * BLOCK)

    def begins(self, number, data, blocks=1):
        """Whether blocks have these bytes and then zeros."""
        return self.bytes(number, blocks) == data.ljust(blocks * BLOCK, b"\0")

    def run(self, *lines):
        """The status of a run over these lines, and its replies."""
        script = b"".join(line + b"\n" for line in lines)
        ran = subprocess.run([self.betr, "run", self.path], input=script, stdout=subprocess.PIPE, check=False)
        return ran.returncode, ran.stdout.split(b"\n")[:-1]


def damaged(block):
    """What a run over a damaged image comes to."""
    return 4, [b"fault damaged %d" % block]


def new_images(rows, report):
    """A format makes the bytes of a new image, whatever the slots and log blocks had before that it doesn't use."""
    with Image(rows.betr, 0, {}) as image:
        subprocess.run([rows.betr, "format", image.path, "24"], stdout=subprocess.PIPE, check=True)
        for number in range(FIRST_SLOT + SLOT_BLOCKS * 24):
            report(image.begins(number, NEW.get(number, b"")), f"images: block {number} of a new image")


def superblocks(rows, report):
    """Each superblock is live or damaged: a batch that is synced has the epoch of the live one."""
    for label, changes, epoch, block in rows.some(SUPERBLOCKS, 3):
        with Image(rows.betr, 516, HALVES) as image:
            for (number, place), byte in changes.items():
                image.set(number, place, bytes([byte]))
            found = image.run(b"mkdir /a")
            report(found == (damaged(block) if epoch is None else (0, [b"ok"])), f"images: a superblock with {label}")
            for of, log in (1, LOGS["A"]), (2, LOGS["B"]):
                is_such = image.begins(log + 1, batch([MKDIR], of)) if of == epoch else image.begins(log, b"")
                report(is_such, f"images: the log of epoch {of} after a superblock with {label}")
    for blocks in (0, 3, 515, 516):
        with Image(rows.betr, blocks, {}) as image:
            report(image.run() == damaged(0), f"images: {blocks} blocks of zeros")


def tables(rows, report):
    """The table of a new image, with other bytes."""
    for label, changes, block in rows.some(TABLES, 3):
        with Image(rows.betr, 516, {**NEW, slot_block(23): ROOT}) as image:
            for place, byte in changes.items():
                image.set(slot_block(1), place, bytes([byte]))
            found = image.run(b"stat /")
            report(found == ((0, [b"ok dir 0000"]) if block is None else damaged(block)), f"images: a table with {label}")


def large(betr, nodes, slots, count):
    """An image with a table of so many nodes in slots from 0 on, the nodes after it, as far as the image goes."""
    parts = {0: b"\1", 1: superblock(slots=slots, table=range(count)), slot_block(0): table(nodes, count)}
    if nodes + count <= slots:
        parts[slot_block(nodes + count - 1)] = ROOT
    return Image(betr, slot_block(slots), parts)


def large_tables(rows, report):
    """Tables of one slot and of more are read, if they fit, and are written again with the root in another slot. Slow
    programs are given the first ones, which are the smaller ones."""
    for nodes, slots, count, block in LARGE[:3] if rows.is_slow else LARGE:
        with large(rows.betr, nodes, slots, count) as image:
            want = (0, [b"ok dir 0000"]) if block is None else damaged(block)
            report(image.run(b"stat /") == want, f"images: a table of {nodes} nodes in {count} slots")
    for nodes, slots in WRITTEN[:1] if rows.is_slow else WRITTEN:
        count = -(-(24 * nodes + 32) // (SLOT_BLOCKS * BLOCK))
        with large(rows.betr, nodes, slots, count) as image:
            found = image.run(b"mkdir /a", b"checkpoint")
            report(found == (0, [b"ok", b"ok"]), f"images: a table of {nodes} nodes is written")
            report(table_of(image, 3) == table_but_root(table(nodes, count)), f"images: a table of {nodes} nodes has its bytes")
            report(image.run(b"list /") == (0, [b"ok a/"]), f"images: a table of {nodes} nodes is read again")


def table_of(image, body):
    """The bytes of the table that a superblock's body names, without its zeros and the last entry's slot."""
    numbers = image.bytes(body)[32:]
    count = int.from_bytes(numbers[:4], "big")
    slots = [int.from_bytes(numbers[4 * at : 4 * at + 4], "big") for at in range(1, count + 1)]
    return table_but_root(b"".join(image.bytes(slot_block(slot), SLOT_BLOCKS) for slot in slots))


def table_but_root(data):
    """A table's bytes but for the last entry's slot."""
    size = 32 + 24 * int.from_bytes(data[8:16], "big")
    return data[: size - 8] + data[size - 4 : size]


def batches(rows, report):
    """A batch stands after its commit block, is read again in both halves, and each damage names its body's first block."""
    with Image(rows.betr, 516, NEW) as image:
        report(image.run(b"mkdir /a", b"sync", b"sync") == (0, [b"ok"] * 3), "images: a batch is synced")
        is_such = [image.begins(4, b"\1"), image.begins(5, batch([MKDIR])), image.begins(6, b"")]
        report(is_such == [True] * 3, "images: a batch stands after its commit block, and one that isn't committed after it")
    for epoch, log in (1, LOGS["A"]), (2, LOGS["B"]):
        parts = {**HALVES, 2: bytes([epoch - 1]), log: b"\1", log + 1: batch([MKDIR], epoch)}
        with Image(rows.betr, 516, parts) as image:
            report(image.run(b"list /") == (0, [b"ok a/"]), f"images: a batch of epoch {epoch} is read")
            report(image.run(b"remove /a") == (0, [b"ok"]), f"images: a log of epoch {epoch} goes on after its batch")
            is_such = image.begins(log + 2, b"\1") and image.begins(log + 3, batch([REMOVE], epoch)) and image.begins(log + 4, b"")
            report(is_such, f"images: the second batch of epoch {epoch}")
    for place, byte in BATCH_ROWS:
        with Image(rows.betr, 516, {**NEW, 4: b"\1", 5: batch([MKDIR])}) as image:
            image.set(5, place, bytes([byte]))
            report(image.run(b"list /") == damaged(5), f"images: a batch whose byte {place} is {byte}")
    with Image(rows.betr, 516, {**NEW, 4: b"\2", 5: batch([MKDIR])}) as image:
        report(image.run(b"list /") == (0, [b"ok"]), "images: a batch that isn't committed")


def writes(size):
    """Lines whose log records have so many bytes together, and these records: a file is made, and written at 0."""
    lines, records = [b"create /a"], [bytes.fromhex("0005 02 0002 2f61")]
    size -= len(records[0])
    while size:
        count = min(size - 13, 2048)
        lines.append(b"write /a 0 " + b"5a" * count)
        records.append((11 + count).to_bytes(2, "big") + bytes.fromhex("03 0002 2f61 00000000") + count.to_bytes(2, "big") + b"Z" * count)
        size -= 13 + count
    return lines, records


def rooms(rows, report):
    """A block has room for 4,072 bytes of records and a batch for 253,928; where one more byte has no room, a checkpoint comes first."""
    for size, blocks in (4_072, 1), (4_073, 2), (ROOM, 62):
        lines, records = writes(size)
        with Image(rows.betr, 516, NEW) as image:
            report(image.run(*lines, b"sync") == (0, [b"ok"] * (len(lines) + 1)), f"images: {size} bytes of records are synced")
            is_such = image.begins(4, b"\1") and image.begins(5, batch(records), blocks) and image.begins(5 + blocks, b"")
            report(is_such and image.begins(2, b""), f"images: {size} bytes of records take {blocks} blocks")
            report(image.run(b"stat /a")[1] == [b"ok file 2048 0000"], f"images: {size} bytes of records are read")
    lines, records = writes(ROOM + 1)
    with Image(rows.betr, 516, NEW) as image:
        report(image.run(*lines) == (0, [b"ok"] * len(lines)), "images: a byte more than a log has room for")
        is_such = image.begins(2, b"\1") and image.begins(68, b"\1") and image.begins(69, batch(records[-1:], 2))
        report(is_such and image.begins(4, b""), "images: a byte more than a log has room for makes a checkpoint")


def turns(rows, report):
    """After a checkpoint the log begins anew in the other half, and what waited isn't in it."""
    with Image(rows.betr, 516, NEW) as image:
        report(image.run(b"mkdir /a", b"checkpoint", b"remove /a") == (0, [b"ok"] * 3), "images: a turn of the log")
        report(image.begins(4, b"") and image.begins(69, batch([REMOVE], 2)), "images: a turn of the log begins anew")


def locks(rows, report):
    """An image is another run's until that ends, and then what it synced is there."""
    with Image(rows.betr, 516, NEW) as image:
        with subprocess.Popen([rows.betr, "run", image.path], stdin=subprocess.PIPE, stdout=subprocess.PIPE) as first:
            first.stdin.write(b"mkdir /a\nsync\n")
            first.stdin.flush()
            report(first.stdout.readline() + first.stdout.readline() == b"ok\nok\n", "images: a run that goes on")
            report(image.run(b"list /") == (3, [b"fault device"]), "images: an image that is another run's")
            first.stdin.close()
            report(first.wait() == 0, "images: the first run ends")
        report(image.run(b"list /") == (0, [b"ok a/"]), "images: an image that was another run's")


def test(rows, report):
    """The section of `bin/test`."""
    for section in (new_images, superblocks, tables, large_tables, batches, rooms, turns, locks):
        section(rows, report)
