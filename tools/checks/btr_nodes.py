"""Images of random nodes, read by tools/nodes.py, beside what each node has at each key by the definition: an edge's
child at the changed key, and then the messages that the edge hasn't seen, one after the other. And what a `reclaim` of
the program makes of such images, beside what it is to be as tools/rehearsal.py has it."""
import itertools
import random
from collections import Counter

from calling import is_slow, script
from changes import Differences
from nodes import (BLOCK, BUFFER_BYTES, CUT, DELETE, FIRST_SLOT, GOTO, LEAF_BYTES, PATCH, PUT, SLOT, SLOT_BLOCKS,
                   Damaged, Edge, Image, Message, Scan, after)
from rehearsal import Rehearsal
from session import Failed
from shapes import MOST_EDGES, MOST_KEY, Shape, common_size, entry_size, swept
from sharing import Sharing, Usage

BYTES = (0, 1, 255)
SLOTS, MANY_SLOTS = 40, 400
# What keys of large nodes are made of.
PIECES = (b"a", b"b", b"c" * 170, b"d" * 60, b"e" * 250, b"f", b"\0", b"\xff", b"\xff" * 40)
KEYS = [bytes(key) for size in range(5) for key in itertools.product(BYTES, repeat=size)]


def random_key(rng, most=4):
    return bytes(rng.choices(BYTES, k=rng.randrange(most + 1)))


def random_value(rng):
    return bytes(rng.choices((1, 2, 3), k=rng.randrange(1, 4)))


def in_common(lo, hi):
    """How many bytes all keys from one on, up to another one, have in common, at least."""
    size = len(lo)
    while size and (hi is None or after(lo[:size]) is None or hi > after(lo[:size])):
        size -= 1
    return size


def random_message(rng, lower):
    key = random_key(rng)
    chance = rng.random()
    if chance < 0.2 and lower:
        return GOTO, key, random_key(rng, 3), rng.choice(lower)
    if chance < 0.35:
        return CUT, key, random_key(rng, 2)
    if chance < 0.5:
        return DELETE, key
    if chance < 0.7:
        return PATCH, key, rng.randrange(4), random_value(rng)
    return PUT, key, random_value(rng)


def random_node(rng, level, lower):
    """Edges and messages, or entries, of a node over these ones of lower levels."""
    if level == 0:
        return {random_key(rng, 5): random_value(rng) for _ in range(rng.randrange(30))}
    pivots = [b"", *sorted({random_key(rng) for _ in range(rng.randrange(6))} - {b""})]
    messages = [random_message(rng, lower) for _ in range(rng.randrange(12))]
    edges = []
    for pivot, hi in zip(pivots, pivots[1:] + [None]):
        child = rng.choice(lower + [0]) if lower else 0
        source = random_key(rng, 3) if child else b""
        edges.append((pivot, rng.randint(0, in_common(pivot, hi)), source, child, rng.randint(0, len(messages))))
    return edges, messages


class Plain:
    """Random nodes by their ids, with their levels, the greatest id being the root's."""

    def __init__(self, rng):
        self.nodes, self.levels = {}, {}
        for id_ in range(1, rng.randrange(3, 16)):
            self.add(rng, id_, rng.randrange(4))
        self.root = max(self.nodes) + 1
        self.add(rng, self.root, 4)

    def add(self, rng, id_, level):
        lower = [it for it, of in self.levels.items() if of < level]
        self.nodes[id_], self.levels[id_] = random_node(rng, level, lower), level

    def named(self):
        """How often each node is named, and once more for the root."""
        found = Counter([self.root])
        for id_, node in self.nodes.items():
            if self.levels[id_]:
                found.update(child for _, _, _, child, _ in node[0] if child)
                found.update(it[3] for it in node[1] if it[0] == GOTO)
        return found

    def at(self, id_, key):
        """What the node of an id has at a key."""
        node = self.nodes[id_]
        if self.levels[id_] == 0:
            return node.get(key)
        edges, messages = node
        _, lift, source, child, seen = [it for it in edges if it[0] <= key][-1]
        value = self.at(child, source + key[lift:]) if child else None
        for tag, of, *rest in messages[seen:]:
            if tag == GOTO:
                value = self.at(rest[1], rest[0] + key[len(of):]) if key.startswith(of) else value
            elif tag == CUT:
                value = None if key.startswith(of) and key[len(of):] >= rest[0] else value
            elif key == of:
                value = changed(value, tag, rest)
        return value


def changed(value, tag, rest):
    if tag == PATCH:
        offset, data = rest
        value = (value or b"") + b"\0" * (offset - len(value or b""))
        return value[:offset] + data + value[offset + len(data):]
    return rest[0] if tag == PUT else None


def prefixed(data):
    return len(data).to_bytes(2, "big") + data


def message_bytes(tag, key, *rest):
    parts = [bytes([tag]), prefixed(key)]
    for it in rest:
        parts.append(prefixed(it) if isinstance(it, bytes) else it.to_bytes(8 if tag == GOTO else 2, "big"))
    return b"".join(parts)


def numbers(width, *all_):
    return b"".join(it.to_bytes(width, "big") for it in all_)


def node_bytes(level, node):
    if level == 0:
        entries = b"".join(prefixed(key) + prefixed(value) for key, value in sorted(node.items()))
        return b"BDN1" + numbers(4, 0, len(node), 0) + entries
    edges, messages = node
    return b"BDN1" + numbers(4, level, len(edges), len(messages)) + b"".join(
        prefixed(pivot) + numbers(2, lift) + prefixed(source) + numbers(8, child) + numbers(4, seen)
        for pivot, lift, source, child, seen in edges) + b"".join(message_bytes(*it) for it in messages)


def write_image(path, plain, slots=SLOTS):
    """An image of these nodes: node i stands in slot 2 i, and the table in slot 1."""
    ids, named = sorted(plain.nodes), plain.named()
    table = b"BDTABLE1" + numbers(8, len(ids), plain.root + 1, plain.root)
    parts = {0: b"\1", 1: b"BDSUPER1" + numbers(4, 2, slots) + numbers(8, 7, 0) + numbers(4, 1, 1)}
    for id_ in ids:
        table += numbers(8, id_, named[id_]) + numbers(4, 2 * id_, plain.levels[id_])
        parts[FIRST_SLOT + 2 * id_ * SLOT_BLOCKS] = node_bytes(plain.levels[id_], plain.nodes[id_])
    parts[FIRST_SLOT + SLOT_BLOCKS] = table
    with open(path, "wb") as file:
        for block, data in parts.items():
            file.seek(block * BLOCK)
            file.write(data)
        file.truncate(FIRST_SLOT * BLOCK + slots * SLOT)


def drained(of):
    """All that is given one after the other."""
    found = []
    while it := of.next():
        found.append(it)
    return found


def check_values(image, plain, report, label):
    """Each key's value is the definition's, looked up and scanned, from the first key on and from each later one."""
    whole, root = image.whole(), plain.root
    wrong = [key for key in KEYS if image.value(whole, key) != plain.at(root, key)]
    report(f"{label}: values", not wrong, f"{wrong[:3]}")
    scanned = drained(Scan(image, whole))
    keys = [key for key, _ in scanned]
    wrong = [key for key, value in scanned if plain.at(root, key) != value]
    missing = [key for key in KEYS if plain.at(root, key) is not None and key not in set(keys)]
    report(f"{label}: a scan", not wrong and not missing and keys == sorted(set(keys)), f"{wrong[:3]} {missing[:3]}")
    for key in KEYS[:: len(KEYS) // 20]:
        scan = Scan(image, whole)
        scan.next()
        scan.seek(key)
        wanted = [it for it in scanned[1:] if it[0] >= key]
        report(f"{label}: a scan from {key!r} on", drained(scan) == wanted)


def check_differences(image, plain, report, label, rng):
    """What differs below two prefixes is what differs by the definition."""
    a, b = random_key(rng, 3), random_key(rng, 3)
    found = drained(Differences(image, image.whole(a), image.whole(b)))
    keys = [key for key, _, _ in found]
    at = {key: (plain.at(plain.root, a + key), plain.at(plain.root, b + key)) for key in {*KEYS, *keys}}
    wrong = [it for it in found if it[1:] != at[it[0]]]
    missing = [key for key in KEYS if at[key][0] != at[key][1] and key not in set(keys)]
    right = not wrong and not missing and keys == sorted(set(keys)) and all(old != new for _, old, new in found)
    report(f"{label}: what differs below {a!r} and {b!r}", right, f"{wrong[:3]} {missing[:3]}")


# ---- what a reclaim makes of nodes

class Large(Plain):
    """Random nodes with long keys, much that waits, and leaves that are nearly full, many of which are named once."""

    def __init__(self, rng):
        self.unnamed = []
        super().__init__(rng)

    def add(self, rng, id_, level):
        self.levels[id_] = level
        self.nodes[id_] = self.large(rng, level) if level else dict(large_entries(rng))
        self.unnamed.append(id_)

    def large(self, rng, level):
        """Edges and messages of a node."""
        lower = [it for it, of in self.levels.items() if of < level]
        rng.shuffle(lower)
        pivots = [b"", *sorted({large_key(rng) for _ in range(rng.choice([2, 6, 15, 15]))} - {b""})][:MOST_EDGES]
        messages = fitting((large_message(rng, lower) for _ in range(rng.randrange(80))), size_of,
                           rng.choice([500, 17_000, BUFFER_BYTES]))
        edges = []
        for pivot, hi in zip(pivots, pivots[1:] + [None]):
            child = self.child(rng, level, lower)
            source = large_key(rng) if child and rng.random() < 0.2 else b""
            seen = rng.choice([0, 0, rng.randint(0, len(messages))])
            edges.append((pivot, rng.choice([0, common_size(pivot, hi)]), source, child, seen))
        return edges, messages

    def child(self, rng, level, lower):
        alone = [it for it in self.unnamed if self.levels[it] < level]
        child = rng.choice(alone) if alone and rng.random() < 0.7 else rng.choice(lower + [0])
        if child in self.unnamed:
            self.unnamed.remove(child)
        return child


def large_key(rng, most=MOST_KEY):
    key = b"".join(rng.choices(PIECES, k=rng.randrange(5))) + rng.randbytes(rng.choice([0, 0, 1]))
    return key if len(key) <= most else large_key(rng, most)


def large_value(rng):
    return rng.randbytes(1) * rng.choice([1, 5, 300, 1_000])


def large_entries(rng):
    many = ((large_key(rng), large_value(rng)) for _ in range(rng.choice([0, 5, 200, 200])))
    return fitting(dict(many).items(), entry_size, LEAF_BYTES)


def large_message(rng, lower):
    key, value = large_key(rng), large_value(rng)
    made = [(PUT, key, value), (PUT, key, value), (PATCH, key, rng.randrange(25), value), (DELETE, key),
            (CUT, key, large_key(rng, MOST_KEY - len(key)))]
    made += [(GOTO, key, large_key(rng), child) for child in lower[:1]]
    return rng.choice(made)


def size_of(message):
    return message_of(*message).size


def fitting(parts, size, most):
    """The first of these, up to so many bytes."""
    found, left = [], most
    for it in parts:
        left -= size(it)
        if left < 0:
            break
        found.append(it)
    return found


def message_of(tag, key, *rest):
    if tag == PATCH:
        return Message(tag, key, rest[1], rest[0])
    return Message(tag, key, rest[0], 0, rest[1]) if tag == GOTO else Message(tag, key, *rest)


def parts_of(message):
    """What it was before `message_of`."""
    more = {PATCH: (message.offset, message.data), GOTO: (message.data, message.child), DELETE: ()}
    return message.tag, message.key, *more.get(message.tag, (message.data,))


def without_spare_messages(plain):
    """Leaves out messages that wait for no edge, which no node of the program has."""
    for id_, node in plain.nodes.items():
        if plain.levels[id_]:
            shape = swept(Shape(plain.levels[id_], [Edge(*it) for it in node[0]], [message_of(*it) for it in node[1]]))
            plain.nodes[id_] = [tuple(it) for it in shape.edges], [parts_of(it) for it in shape.messages]


def without_spare_nodes(plain):
    """Leaves out nodes that nothing names, which no image of the program has."""
    while spare := plain.nodes.keys() - (+plain.named()).keys():
        for id_ in spare:
            del plain.nodes[id_], plain.levels[id_]


def state(nodes, ids, node):
    """All that is known of nodes: the root, the next id, and of each how often it is named and what it has."""
    found = {id_: node(id_) for id_ in ids if nodes.count(id_) > 0}
    return nodes.root, nodes.next, {id_: (nodes.count(id_), it.level, list(it.edges), list(it.messages),
                                          list(it.entries)) for id_, it in found.items()}


def check_reclaim(program, path, plain, report, label):
    """A rehearsal has the nodes that the program has after a `reclaim`."""
    without_spare_messages(plain)
    without_spare_nodes(plain)
    write_image(path, plain, MANY_SLOTS)
    with Image(path) as image:
        rehearsal = Rehearsal(image).run()
        told = state(rehearsal, rehearsal.ids(), rehearsal.shape)
    replies = script(program, path, ["reclaim"])
    report(f"{label}: a reclaim", replies == ["ok"], f"{replies}")
    with Image(path) as image:
        nodes = Rehearsal(image)
        made = state(nodes, image.table, image.node)
        wrong = sorted(id_ for id_ in {*told[2], *made[2]} if told[2].get(id_) != made[2].get(id_))
        report(f"{label}: what a reclaim leaves", told == made, f"{told[:2]} {made[:2]} nodes {wrong}")
        slots = rehearsal.slots, nodes.slots, taken(program, path)
        report(f"{label}: what a reclaim takes", len(set(slots)) == 1, f"{slots}")


def taken(program, path):
    """How many slots the last checkpoint has taken."""
    _, _, free, _, slots = script(program, path, ["df"])[0].split(" ")
    return int(slots) - int(free)


def reclaims(program, room, report):
    for kind in (Plain, Large):
        for seed in range(10 if is_slow(program) else 150):
            plain = kind(random.Random(seed))
            check_reclaim(program, room / "reclaimed", plain, report, f"{kind.__name__}, seed {seed}")


def check(program, room, report):
    reclaims(program, room, report)
    path = room / "image"
    for seed in range(150):
        rng = random.Random(seed)
        plain = Plain(rng)
        without_spare_messages(plain)
        write_image(path, plain)
        with Image(path) as image:
            check_values(image, plain, report, f"seed {seed}")
            for _ in range(4):
                check_differences(image, plain, report, f"seed {seed}", rng)
        if seed % 10 == 0:
            look_at_all(path)
            check_bytes(path, report, rng, f"seed {seed}")
    check_damage(path, report)


def look_at_all(path):
    """Everything that looks into nodes."""
    with Image(path) as image:
        drained(Scan(image, image.whole()))
        drained(Differences(image, image.whole(b"\1"), image.whole(b"")))
        Usage(image, [(b"/", True)])
        Sharing(image).pairs()
        Rehearsal(image).run()


def check_bytes(path, report, rng, label):
    """Images with other bytes are looked at to an end, or are told to be damaged."""
    whole = path.read_bytes()
    with Image(path) as image:
        blocks = [1, image.block_of(1)] + [image.block_of(it.slot) for it in image.table.values()]
    for _ in range(40):
        place = rng.choice(blocks) * BLOCK + rng.choice([rng.randrange(64), rng.randrange(400)])
        data = bytes(rng.choices([0, 1, 2, 255], k=rng.choice([1, 1, 2, 8])))
        path.write_bytes(whole[:place] + data + whole[place + len(data):])
        try:
            look_at_all(path)
            why = ""
        except Failed:
            why = ""
        except Exception as error:
            why = f"{data!r} at {place}: {type(error).__name__} {error}"
        report(f"{label}: other bytes", not why, why)
    path.write_bytes(whole)


def check_damage(path, report):
    """Bytes that are none of an image's are told by their block."""
    whole = path.read_bytes()
    cases = [(0, 0, b"\0", 0), (1, 0, b"X", 1), (1, 8, b"\xff", 1), (FIRST_SLOT + 16, 0, b"X", FIRST_SLOT + 16),
             (FIRST_SLOT + 16, 51, b"\xff", FIRST_SLOT + 16), (FIRST_SLOT + 32, 0, b"X", FIRST_SLOT + 32)]
    for block, at, data, named in cases:
        place = block * BLOCK + at
        path.write_bytes(whole[:place] + data + whole[place + len(data):])
        try:
            with Image(path) as image:
                image.node(1)
            told = None
        except Damaged as damage:
            told = damage.block
        report(f"byte {at} of block {block}", told == named, f"block {told}")
