"""Checks of images, beside what the rules of docs/FORMAT.md say of the same bytes: after each line of a generated
script, of an image with a million keys, of an image of which one number is another one, in 2,000 images, and checks
that are stopped at each call of the device."""
from functools import lru_cache

import generated
from fields import Damaged, changed, changes, entries_of, fields_of, number_in, slot_block, start_of
from nodes import CUT, GOTO, PATCH, PUT, Bytes, Ended, Image, Node, Scan, after, is_before, place
from plain import GREATEST_FILE, TOO_BIG, PlainMap, Refused, is_name, read_path
from rich import SLOTS, image_of, set_blocks
from script import TEARS, Plain, shown
from volume import short

BLOCK, SLOT_BYTES = 4_096, 65_536
KEY, VALUE, LEAF, BUFFER, EDGES, LEVELS = 518, 1_024, 40_960, 32_768, 16, 1_000
BASE, PIECE, MODES = 16, 2_048, 4_096
LAST = (1 << 64) - 1
# An id from which a log may come to the last one.
HIGH_ID = 1 << 63
CHECK = "-- call betr check img"
NUMBERS = 400


def want(is_right):
    if not is_right:
        raise Ended


def pass_entry(reader):
    reader.prefixed()
    reader.prefixed()


def pass_edge(reader):
    reader.prefixed()
    reader.take(2)
    reader.prefixed()
    reader.take(12)


class Exact(Node):
    """A node whose bytes are the image of a well-formed one, zeros to the end of its slot."""

    def __init__(self, data):
        reader = Bytes(data)
        want(reader.take(4) == b"BDN1")
        level, count, waiting = (reader.number(4) for _ in range(3))
        want(level <= LEVELS and (level == 0 or 1 <= count <= EDGES))
        for _ in range(count):
            pass_entry(reader) if level == 0 else pass_edge(reader)
        for _ in range(waiting):
            want(self.is_message(reader))
        want(level > 0 or waiting == 0)
        want(not any(data[reader.at :]))
        super().__init__(data)
        want(self.size <= (BUFFER if level else LEAF))
        if level:
            self.want_edges()
        else:
            self.want_entries()

    @staticmethod
    def is_message(reader):
        """Whether the next message is within its limits."""
        tag, key = reader.number(1), reader.prefixed()
        if tag == PUT:
            return len(key) <= KEY and 1 <= len(reader.prefixed()) <= VALUE
        if tag == PATCH:
            offset, data = reader.number(2), reader.prefixed()
            return len(key) <= KEY and data and offset + len(data) <= VALUE
        if tag == CUT:
            return len(key) + len(reader.prefixed()) <= KEY
        if tag == GOTO:
            source, child = reader.prefixed(), reader.number(8)
            return len(key) <= KEY and len(source) <= KEY and child != 0
        return tag == 2 and len(key) <= KEY

    def want_entries(self):
        keys = [key for key, _ in self.entries]
        want(all(low < high for low, high in zip(keys, keys[1:])))
        want(all(len(key) <= KEY and 1 <= len(value) <= VALUE for key, value in self.entries))

    def want_edges(self):
        ends = [it.pivot for it in self.edges[1:]] + [None]
        for it, hi in zip(self.edges, ends):
            common = after(it.pivot[: it.lift])
            want(len(it.pivot) <= KEY and len(it.source) <= KEY and (it.child or not it.source))
            want(it.lift == 0 or common is None or (hi is not None and hi <= common))
        for at, one in enumerate(self.messages):
            want(any(it.seen <= at and self.touches(one, it.pivot, hi) for it, hi in zip(self.edges, ends)))

    @staticmethod
    def touches(one, lo, hi):
        """Whether a message is about some of the keys from one on, up to another one."""
        if one.tag not in (CUT, GOTO):
            return lo <= one.key and is_before(one.key, hi)
        first, last = one.keys()
        first = max(first, lo)
        return is_before(first, hi) and is_before(first, last)


class Memory(Image):
    """The nodes of an image in memory, by its table, each of which is known to be right."""

    def __init__(self, nodes, root):
        self.root, self.table = root, nodes
        self.node = lru_cache(None)(nodes.__getitem__)


class Kinds(PlainMap):
    """A plain map whose files have no bytes."""

    def write(self, p, off, data):
        self.want_file(read_path(p))
        if off + len(data) > GREATEST_FILE:
            raise Refused(TOO_BIG)

    def truncate(self, p, size):
        self.want_file(read_path(p))
        if size > GREATEST_FILE:
            raise Refused(TOO_BIG)

    def chmod(self, p, mode):
        self.want(read_path(p))


def is_path(text):
    try:
        read_path(text)
    except Refused:
        return False
    return True


def command_of(record, version):
    """A record's command: what is done, and its words."""
    reader = Bytes(record)
    tag, path = reader.number(1), reader.prefixed()
    want(is_path(path))
    words = [path]
    if tag == 3:
        words += [reader.number(4), reader.prefixed()]
        want(1 <= len(words[2]) <= PIECE)
    elif tag == 4:
        words.append(reader.number(4))
    elif tag in (6, 7):
        words.append(reader.prefixed())
        want(is_path(words[1]))
    elif tag == 8:
        words.append(reader.number(2))
        want(version > 1 and words[1] < MODES)
    want(reader.at == len(record) and 1 <= tag <= 8)
    verbs = ["mkdir", "create", "write", "truncate", "remove", "rename", "clone", "chmod"]
    return verbs[tag - 1], words


def batches_of(image, start, version):
    """The commands of the open batches, each with its batch's first body block."""
    first, at, found = 4 if start.body == 1 else 68, 0, []
    while image[(first + at) * BLOCK] == 1:
        body = first + at + 1
        try:
            records, blocks = records_of(image[body * BLOCK : (first + 64) * BLOCK], start.epoch)
            want(at + 1 + blocks <= 63)
            found += [(body, *command_of(record, version)) for record in records]
        except Ended:
            raise Damaged(body) from None
        at += 1 + blocks
    return found


def records_of(data, epoch):
    """The records of a batch, and how many blocks its body takes."""
    reader = Bytes(data)
    want(reader.take(4) == b"BDLB")
    blocks, of_epoch, count, size = (reader.number(width) for width in (4, 8, 4, 4))
    want(of_epoch == epoch and count >= 1 and blocks == -(-(24 + size) // BLOCK))
    records = []
    while reader.at < 24 + size:
        records.append(reader.prefixed())
    want(reader.at == 24 + size and len(records) == count and not any(data[reader.at : blocks * BLOCK]))
    return records, blocks


def tree_of(keys, version):
    """The tree whose keys these are, where one has them."""
    tree, sizes = Kinds(), {}
    tree.entries = {}
    for key, value in keys:
        at, block = place(key)
        names = tuple(at.split(b"\0")[:-1])
        want(at == b"".join(name + b"\0" for name in names) and all(map(is_name, names)))
        if block is None:
            want(key == at + b"\0\0" and names not in tree.entries)
            want(not names or tree.entries.get(names[:-1], b"") is None)
            tree.entries[names], sizes[names] = kind_of(value, version)
        else:
            want(key[: len(at) + 2] == at + b"\0\1" and len(key) == len(at) + 6 and tree.entries.get(names) is not None)
            want(1 <= len(value) <= VALUE and VALUE * block + len(value) <= sizes[names])
    want(tree.entries.get((), b"") is None)
    tree.modes = dict.fromkeys(tree.entries, 0)
    return tree


def kind_of(value, version):
    """What a record is of, a directory or a file, and the length of that."""
    reader = Bytes(value)
    tag = reader.take(1)
    want(tag in (b"D", b"F"))
    size = reader.number(4) if tag == b"F" else 0
    mode = value[reader.at :]
    want(size <= GREATEST_FILE and (not mode or version > 1 and len(mode) == 2 and 0 < number_in(mode, 0, 2) < MODES))
    return (b"" if tag == b"F" else None), size


def table_of(image, start):
    """The next id, the root, and the references of each node."""
    data = b"".join(image[slot_block(slot) * BLOCK :][:SLOT_BYTES] for slot in start.table)
    count = number_in(data, 8, 8)
    return number_in(data, 16, 8), number_in(data, 24, 8), [number_in(data, 40 + 24 * at, 8) for at in range(count)]


def checked_nodes(image, ids, slots, levels):
    """The nodes of a table, by their ids, where each slot has one that names lower ones alone."""
    level_of, nodes = dict(zip(ids, levels)), {}
    for id_, slot, level in zip(ids, slots, levels):
        try:
            nodes[id_] = Exact(image[slot_block(slot) * BLOCK :][:SLOT_BYTES])
            want(nodes[id_].level == level)
            want(all(level_of.get(name, level) < level for name in nodes[id_].names))
        except Ended:
            raise Damaged(slot_block(slot)) from None
    return nodes


def verdicts(image):
    """The line that a check of these bytes writes, as all that it may be."""
    try:
        return found_in(image)
    except Damaged as damaged:
        return [f"no check block {damaged.block}"]


def found_in(image):
    start = start_of(image)
    version, count = number_in(image, start.body * BLOCK + 8, 4), number_in(image, start.body * BLOCK + 24, 8)
    ids, slots, levels = entries_of(image, start)
    next_id, root, references = table_of(image, start)
    want_root(image, root, ids, slots, levels)
    commands = batches_of(image, start, version)
    nodes = checked_nodes(image, ids, slots, levels)
    names = [name for node in nodes.values() for name in node.names] + [root]
    for id_, counted in zip(ids, references):
        if names.count(id_) != counted:
            return [f"no check node {id_}"]
    keys = keys_of(nodes, root)
    try:
        tree = tree_of(keys, version)
    except Ended:
        return [f"no check node {root}"]
    worn = ["fault worn id"] if next_id >= HIGH_ID else []
    for block, verb, words in commands:
        if count == LAST:
            return worn + ["fault worn count"]
        try:
            getattr(tree, verb)(*words)
        except Refused:
            return worn + [f"no check block {block}"]
        count += 1
    return worn + [f"ok check nodes {len(ids)} keys {len(keys)} count {count}"]


def want_root(image, root, ids, slots, levels):
    """The root is read before the log, and so is none of the others."""
    at = ids.index(root)
    try:
        want(Exact(image[slot_block(slots[at]) * BLOCK :][:SLOT_BYTES]).level == levels[at])
    except Ended:
        raise Damaged(slot_block(slots[at])) from None


def keys_of(nodes, root):
    """The keys and values of the root, by rising key."""
    scan, found = Scan(memory := Memory(nodes, root), memory.whole()), []
    while one := scan.next():
        found.append(one)
    return found


def status_of(line):
    return 0 if line.startswith("ok") else 10 if line.startswith("no") else 8


def is_said(call, lines):
    """Whether a check wrote one of these lines, with its status, and acknowledged nothing."""
    return len(call.written) == 1 and call.written[0] in lines and (
        call.status == status_of(call.written[0])) and call.acks == []


def bytes_of(image, slots):
    """The bytes of an image that was shown."""
    return b"".join(image.block(number) for number in range(slot_block(slots)))


def each_line(rows, report):
    """600 lines with checkpoints, each of a run of its own, and a check after it: it finds a tree, and counts what was
    accepted. After each tenth one the nodes and the keys are those of the image, which stays as it was."""
    plain, slots, every = Plain(), 40, 10
    text, wanted = [f"# lines\n-- slots {slots}"], []
    for made, line in enumerate(generated.lines(9, 60 if rows.is_slow else 600), 1):
        plain.reply(line)
        lines = [short(line)] + (["checkpoint"] if made % 25 == 0 else ["reclaim"] if made % 60 == 0 else [])
        text += ["-- run"] + [f"> {it}" for it in lines]
        text += ["-- image", CHECK, "-- image"] if made % every == 0 else [CHECK]
        wanted.append(plain.accepted)
    calls = iter(rows.show("\n".join(text) + "\n"))
    for made, count in enumerate(wanted, 1):
        label = f"check: after {made} lines"
        ran = next(calls)
        before = bytes_of(next(calls), slots) if made % every == 0 else None
        found = next(calls)
        is_counted = found.status == 0 and len(found.written) == 1 and found.written[0].endswith(f" count {count}")
        report(ran.status == 0 and is_counted, f"{label}: {found.written}")
        if before is not None:
            report(is_said(found, verdicts(before)), f"{label}: {found.written}, not {verdicts(before)}")
            report(bytes_of(next(calls), slots) == before, f"{label}: the image stays")


def damaged_numbers(rows, report):
    """2,000 images, each of which is checked, and then once more with the same answer."""
    data = image_of(rows)
    fields = fields_of(data)[0]
    chosen = [fields[number * len(fields) // NUMBERS] for number in range(NUMBERS)]
    images = [(field, value) for field in chosen for value in (0, 1, field.limit, field.limit + 1, LAST)]
    images = rows.some(images, 23)
    begun = ["# numbers", f"-- blank {SLOTS}"] + set_blocks(data) + ["-- keep"]
    parts = [["-- back"] + [f"-- set {block} {at} {byte.hex()}" for block, at, byte in changes(*image)] + [CHECK]
             for image in images]
    kinds = set()
    for (field, value), [call] in zip(images, shown(rows, begun, parts, CHECK)):
        lines = verdicts(changed(data, field, value))
        kinds.add(" ".join(lines[0].split(" ")[:3]))
        report(is_said(call, lines), f"check: {field} is {value}: {call.written}, not {lines}")
    report(len(kinds) >= (2 if rows.is_slow else 3), f"check: kinds of answers: {kinds}")


def stopped(rows, report):
    """A check in which each call of the device fails in turn, or after which the power is lost in it: no call follows,
    and the image stays as it was, whatever is torn."""
    data = image_of(rows)
    begun = [f"-- blank {SLOTS}"] + set_blocks(data)
    whole = rows.show("\n".join(["# whole"] + begun + [CHECK]) + "\n")[-1]
    report(is_said(whole, verdicts(data)), f"check: a rich image: {whole.written}")
    numbers = rows.some(range(1, whole.calls + 1), 9)
    text = ["# failing calls"] + begun + ["-- keep"]
    for number in numbers:
        text += ["-- back", CHECK, f"-- fail {number}"]
    for number, call in zip(numbers, rows.show("\n".join(text) + "\n")[-len(numbers) :]):
        is_such = (call.status, call.written, call.calls, call.faults) == (3, ["fault device"], number, 1)
        report(is_such, f"check: call {number} of {whole.calls} fails: {call.written}")
    stops = rows.some([(number, torn) for number in range(1, whole.calls + 1) for torn in TEARS], 29)
    text = ["# stopped"] + begun + ["-- keep"]
    for number, torn in stops:
        text += ["-- back", CHECK, f"-- fuse {number} {torn}", "-- image"]
    images = rows.show("\n".join(text) + "\n")[-2 * len(stops) + 1 :: 2]
    for (number, torn), image in zip(stops, images):
        report(bytes_of(image, SLOTS) == data, f"check: stopped in call {number}, {torn}: the image stays")


def many_keys(rows, report):
    """A directory of 999 files and 1,000 clones of it, more than a million keys in few nodes; fewer where the programs
    are slow."""
    files, clones = (30, 30) if rows.is_slow else (999, 1_000)
    lines = ["mkdir /d", "mkdir /c"] + [f"create /d/{made}" for made in range(files)]
    lines += [f"clone /d /c/{made}" for made in range(clones)] + ["checkpoint", "df"]
    text = ["# many keys", "-- slots 256", "-- run"] + [f"> {line}" for line in lines] + [CHECK]
    ran, found = rows.show("\n".join(text) + "\n")
    _, _, free, _, slots = ran.written[-1].split()
    keys = 2 + (clones + 1) * (files + 1)
    wanted = f"ok check nodes {int(slots) - int(free) - 1} keys {keys} count {files + clones + 2}"
    report(is_said(found, [wanted]), f"check: many keys: {found.written}, not {wanted}")


def test(rows, report):
    each_line(rows, report)
    many_keys(rows, report)
    damaged_numbers(rows, report)
    stopped(rows, report)
