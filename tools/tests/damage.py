"""Images with other bytes than a run leaves: each call ends, with replies or by naming what is damaged.

One number of a rich image is another one, in 2,000 images; and one byte of a new image is 255.
Slow programs are given some of these images.
"""
import re

from fields import (FIRST_SLOT, SLOT_BLOCKS, Damaged, changed, changes, fields_of, names_wrongly, nodes_of, slot_block,
                    start_of)
from rich import RICH, SLOTS, image_of, set_blocks
from script import compare, shown

NUMBERS = 400

# After so many runs in turn without a reply no more lines are given to an image: it doesn't start.
SILENT = 4

LINES = [
    "stat /",
    "list /",
    "read /d/f 0 4096",
    "read /h/f 60000 4096",
    "write /e/f 0 aabb",
    "clone /d /k",
    "rename /e /l",
    "remove /g",
    "sync",
    "checkpoint",
    "reclaim",
    "read /l/f 0 4",
]

REPLY = re.compile(r"ok( .*)?|no ([1-9]|10) [a-z-]+|full \d+ \d+")
DAMAGED = re.compile(r"fault damaged (\d+)")
WORN = re.compile(r"fault worn (level|id|refs|flushes|count|epoch)")


class Image:
    """An image of which one number is another one, the lines that wait, and what was found: the replies, the first
    damage, and which line found it."""

    def __init__(self, field, value):
        self.field, self.value = field, value
        self.runs, self.left, self.silent = [], list(LINES), 0
        self.replies, self.damage, self.wrong = [], None, None
        self.line = 0

    def label(self):
        return f"{self.field} is {self.value}"

    def text(self):
        """The calls that were made, and one with the lines that wait."""
        rows = ["-- back"]
        rows += [f"-- set {block} {place} {byte.hex()}" for block, place, byte in changes(self.field, self.value)]
        for lines in self.runs + [self.left]:
            rows += ["-- run"] + [f"> {line}" for line in lines]
        return rows

    def take(self, call):
        """Takes what the last of the calls found. A fault ends a run: the lines after it wait for another one."""
        written, fault = list(call.written), None
        if call.status != 0:
            fault = written.pop() if written else ""
        odd = [reply for reply in written if not REPLY.fullmatch(reply)]
        if odd or len(written) > len(self.left):
            self.wrong = f"{odd or written}"
        done = len(written) + (fault is not None)
        if fault is None and done < len(self.left):
            self.wrong = f"{done} of {len(self.left)} lines have replies"
        self.fault(fault, call.status, len(LINES) - len(self.left) + len(written))
        self.replies += written
        self.runs.append(self.left[:done])
        self.silent = 0 if written else self.silent + 1
        self.left = self.left[done:] if self.silent < SILENT else []

    def fault(self, fault, status, line):
        if fault is None:
            return
        damaged, worn = DAMAGED.fullmatch(fault), WORN.fullmatch(fault)
        if damaged and status == 4:
            if self.damage is None:
                self.damage, self.line = int(damaged[1]), line
        elif not worn or status != 8:
            self.wrong = f"{fault!r}, status {status}"

    def is_named(self, data, table, batch):
        """Whether the damage is of the number's part. A node's may be the table's, whose counts may be wrong then, or
        the batch's, since the tree that is left may refuse a record. A node that names one which the table lacks, or
        one of no lower level, is never the table's damage."""
        part, block = self.field.part, self.field.block
        if part in ("superblock", "table"):
            return self.is_found(changed(data, self.field, self.value))
        if part == "node" and names_wrongly(data, self.field, self.value):
            return self.damage in (None, block, batch)
        return self.damage in (None, block) or (part == "node" and self.damage in (table, batch))

    def is_found(self, image):
        """Whether the damage is what the rules find: at each start that of the superblocks and of the table, and where
        these are whole that of a node's slot, of the table, whose counts are wrong, or of the batch. After a
        checkpoint nodes and table stand in other slots."""
        try:
            start = start_of(image)
            nodes = nodes_of(image, start)
        except Damaged as damaged:
            return (self.damage, self.replies) == (damaged.block, [])
        if self.line > LINES.index("checkpoint"):
            return self.damage >= FIRST_SLOT and (self.damage - FIRST_SLOT) % SLOT_BLOCKS == 0
        return self.damage in (None, start.batch(), slot_block(start.table[0]), *nodes)


def values_of(field):
    return [0, 1, field.limit, field.limit + 1, (1 << 64) - 1]


def damaged_numbers(rows, report):
    """2,000 images, each asked, written to and reclaimed."""
    data = image_of(rows)
    fields, table, batch = fields_of(data)
    report(len(fields) >= 200, f"{len(fields)} numbers")
    chosen = [fields[number * len(fields) // NUMBERS] for number in range(NUMBERS)]
    images = rows.some([Image(field, value) for field in chosen for value in values_of(field)], 47)
    waiting, begun = images, ["# numbers", f"-- blank {SLOTS}"] + set_blocks(data) + ["-- keep"]
    while waiting:
        for image, calls in zip(waiting, shown(rows, begun, [image.text() for image in waiting])):
            image.take(calls[-1])
        waiting = [image for image in waiting if image.left and not image.wrong]
    plain = RICH.after()
    whole = [plain.reply(line) for line in LINES]
    for image in images:
        is_same = image.value != image.field.value or image.replies == whole
        is_right = image.wrong is None and image.is_named(data, table, batch) and is_same
        report(is_right, f"{image.label()}: {image.wrong or image.damage or image.replies}")
    if rows.is_slow:
        return
    for index in range(5):
        damaged = sum(image.damage is not None for image in images[index::5])
        report(damaged >= 10, f"{damaged} images are damaged")


# What `stat /` is answered on a new image of 24 slots of which one byte is 255: the part, its block, and for each
# byte up to a place the answer. The root is in slot 0, the table in slot 1.
DIR, NO_ROOT = "ok dir 0000", "no 1 not-found"
FULL_BYTES = [
    ("superblock", 1, [(16, 1), (32, DIR), (64, 1)]),
    ("table", 148, [(16, 148), (24, DIR), (40, 148), (48, DIR), (55, 148), (56, 132), (64, 148)]),
    ("root", 132, [(37, 132), (39, NO_ROOT), (40, 132), (42, NO_ROOT), (64, 132)]),
]


def full_bytes(rows, report):
    """Each of the first 64 bytes of superblock, table and root set to 255."""
    text = []
    for part, block, answers in FULL_BYTES:
        place = 0
        for end, answer in answers:
            for at in rows.some(range(place, end), 4):
                text += [f"# byte {at} of the {part} is 255", f"-- set {block} {at} ff", "-- run"]
                if isinstance(answer, int):
                    text += ["-- status 4", "> stat /", f"fault damaged {answer}"]
                else:
                    text += ["> stat /", answer]
            place = end
    compare(rows, "\n".join(text) + "\n", report)


def test(rows, report):
    full_bytes(rows, report)
    damaged_numbers(rows, report)
