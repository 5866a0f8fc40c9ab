"""Which nodes of an image are asked for the keys of which paths: what each path takes of its own, what removing it
would give back, and which paths share nodes."""
from array import array
from bisect import bisect_left, bisect_right
from functools import lru_cache
from typing import NamedTuple

from nodes import BASE, SLOT, after, key_of, path_of, table_slots
from rehearsal import Rehearsal
from session import Failed

# A key above all that are stored.
END = b"\xff" * 1_024
# As many nodes' items stay in memory as were last looked at.
MOST_ITEMS = 256
# The removals of as many paths at most are rehearsed, those of the largest.
MOST_REHEARSED = 1_000
# As many ways to nodes are looked at before it is given up.
MOST_WAYS = 1_000_000


class Spans:
    """Ranges of keys that don't meet, in their order."""

    def __init__(self):
        self.starts, self.ends = [], []

    def add(self, lo, hi):
        """Puts a range to them, and gives the parts of it that weren't there."""
        first, last = bisect_left(self.ends, lo), bisect_right(self.starts, hi)
        starts, ends = self.starts[first:last], self.ends[first:last]
        new, at = [], lo
        for start, end in zip(starts, ends):
            if at < start:
                new.append((at, start))
            at = max(at, end)
        if at < hi:
            new.append((at, hi))
        if new:
            self.starts[first:last] = [min([lo, *starts])]
            self.ends[first:last] = [max([hi, *ends])]
        return new


def asked_nodes(image, id_, lo, hi):
    """The nodes that are asked where one is asked for the keys from one on up to another one, each with the keys, none
    of which comes twice. A node that is named once is asked for a key once, where the one that names it is."""
    left, known = [(id_, lo, hi)], {}
    while left:
        id_, lo, hi = left.pop()
        kept = image.table[id_]
        for lo, hi in known.setdefault(id_, Spans()).add(lo, hi) if kept.references > 1 else [(lo, hi)]:
            yield id_, lo, hi
            if kept.level:
                left += children_asked(image.node(id_), lo, hi)


def children_asked(node, lo, hi):
    """The children that a node asks for its keys from one on up to another one, each with the keys."""
    found = []
    for it in node.asks(lo, hi):
        if it.child:
            found.append((it.child, *ended(it.asked())))
    return found


def ended(range_):
    lo, hi = range_
    return lo, END if hi is None else hi


def items(node):
    """The keys of a node's entries, or of what waits in it, and what each counts, by rising key."""
    if node.level == 0:
        return [(key, BASE + len(key) + len(value)) for key, value in node.entries]
    return [(key, one.size) for it in node.parts for key, one in it.waits]


# ---- what each path takes

class Label:
    """A path that is told, or what is beside all of these: the bytes of its own and those that it shares, the nodes that
    it alone asks and those that others ask too, and the slots that removing it gives back."""

    def __init__(self, path, above, is_dir=True):
        self.path, self.above, self.is_dir = path, above, is_dir
        self.depth = 0 if above is None else above.depth + 1
        self.own = self.shared = self.slots = self.joint = self.back = 0

    def line(self):
        """It and those above it, itself first."""
        label = self
        while label is not None:
            yield label
            label = label.above


def common(labels):
    """The lowest label that is above all of these, or one of them."""
    first, *others = labels
    for other in others:
        while first.depth > other.depth:
            first = first.above
        while other.depth > first.depth:
            other = other.above
        while first is not other:
            first, other = first.above, other.above
    return first


class Items:
    """The keys of a node's entries, or of what waits in it, and what those up to each count."""

    def __init__(self, node):
        found = items(node)
        self.keys, self.totals = [key for key, _ in found], array("I", [0])
        for _, size in found:
            self.totals.append(self.totals[-1] + size)

    def run(self, lo, hi):
        """Which of them are from a key on, up to another one."""
        return bisect_left(self.keys, lo), bisect_left(self.keys, hi)


class Usage:
    """What paths take of an image. `paths` are told, each with whether it is a directory's and after those above it."""

    def __init__(self, image, paths, progress=None):
        self.image, self.beside, self.labels = image, Label(None, None), {}
        for path, is_dir in paths:
            above = next((self.labels[it] for it in ancestors(path) if it in self.labels), self.beside)
            self.labels[path] = Label(path, above, is_dir)
        self.items = lru_cache(MOST_ITEMS)(lambda id_: Items(image.node(id_)))
        self.tops, self.asking, self.totals, self.runs = {}, {}, {}, {}
        found = regions(self.labels, self.beside)
        self._go([it for it in found if it[2] is not self.beside], progress)
        self.known = set(self.tops)
        self._go([it for it in found if it[2] is self.beside], progress)
        self._count()
        self._rehearse(progress)

    def _go(self, found, progress):
        for lo, hi, label in found:
            for id_, lo, hi in asked_nodes(self.image, self.image.root, lo, hi):
                self._ask(id_, lo, hi, label)
                if progress:
                    progress.tell(len(self.tops), len(self.image.table))

    def _ask(self, id_, lo, hi, label):
        """Notes that a node is asked for keys of a label. What is beside all paths comes last, and what stands in nodes
        that it alone asks isn't looked at."""
        top = self.tops.get(id_, label)
        self.tops[id_] = label if top is label else common([top, label])
        self.asking.setdefault(id_, set()).add(label)
        if label is self.beside and id_ not in self.known:
            return
        found = self.items(id_)
        first, last = found.run(lo, hi)
        if first < last:
            self.totals[id_] = found.totals
            self.runs.setdefault(id_, []).append((first, last, label))

    def _count(self):
        """Counts each node, and what stands in it, to those for whose keys it is asked."""
        for id_, top in self.tops.items():
            top.slots += 1
            for label in {it for label in self.asking[id_] for it in label.line() if it.depth > top.depth}:
                label.joint += 1
        for id_, runs in self.runs.items():
            for first, last, labels in told(runs):
                size = self.totals[id_][last] - self.totals[id_][first]
                top = common(labels)
                top.own += size
                for label in {it for label in labels for it in label.line() if it.depth > top.depth}:
                    label.shared += size
        for label in reversed(self.labels.values()):
            label.above.own += label.own
            label.above.slots += label.slots

    def _rehearse(self, progress):
        """Finds what a reclaim gives back now, which nodes that nothing asks it keeps, and how much more another one
        gives back after a removal of each path."""
        nodes = len(self.image.table)
        now = Rehearsal(self.image).run()
        before = Rehearsal(self.image, now).make_room()
        self.back = nodes + table_slots(nodes) - now.slots
        self.held = max(0, min(nodes, now.size) - len(self.tops))
        asked = sorted(self.labels.values(), key=lambda it: (it.slots, it.own, it.shared), reverse=True)
        for done, label in enumerate(asked):
            if done < MOST_REHEARSED:
                label.back = now.slots - Rehearsal(self.image, before).remove(key_of(label.path)).run().slots
            else:
                label.back = None
            if progress:
                progress.tell(done, min(MOST_REHEARSED, len(asked)))


def told(runs):
    """Places in a row for which the same labels ask, with these."""
    if len({label for _, _, label in runs}) == 1:
        yield from ((first, last, [label]) for first, last, label in runs)
        return
    cuts, asking = {}, {}
    for first, last, label in runs:
        cuts.setdefault(first, []).append((label, 1))
        cuts.setdefault(last, []).append((label, -1))
    places = sorted(cuts)
    for first, last in zip(places, places[1:]):
        for label, step in cuts[first]:
            asking[label] = asking.get(label, 0) + step
            if not asking[label]:
                del asking[label]
        if asking:
            yield first, last, list(asking)


def ancestors(path):
    """The paths above a path, the nearest one first."""
    while path != b"/":
        path = path[: path.rindex(b"/")] or b"/"
        yield path


def regions(labels, beside):
    """All keys, cut where another label begins to hold, by rising key: where each region begins and ends, and its
    label."""
    found, open_, at = [], [(END, beside)], b""
    for path, label in sorted(labels.items(), key=lambda it: key_of(it[0])):
        key = key_of(path)
        while open_[-1][0] <= key:
            end, closed = open_.pop()
            found.append((at, end, closed))
            at = end
        found.append((at, key, open_[-1][1]))
        open_.append((after(key) or END, label))
        at = key
    for end, closed in reversed(open_):
        found.append((at, end, closed))
        at = end
    return [(lo, hi, label) for lo, hi, label in found if lo < hi]


# ---- which paths share nodes

class Pair(NamedTuple):
    """Two paths that share nodes, and how many."""

    first: bytes
    second: bytes
    nodes: int

    @property
    def bytes(self):
        return self.nodes * SLOT


class Owned(NamedTuple):
    """Keys of a node that were asked for first under some of the tree's keys: those that begin with `outer` are asked
    as ones that begin with `inner`."""

    lo: bytes
    hi: bytes
    outer: bytes
    inner: bytes
    wanted: bool


class Sharing:
    """The pairs of paths that ask the same nodes for the same keys. With a path, it is the first one of each pair, or
    one below it; else each pair's first one is where the nodes are asked for first, in the order of the keys."""

    def __init__(self, image, path=None, progress=None):
        self.image, self.path, self.progress = image, path, progress
        self.owned, self.found, self.ways, self.leading = {}, {}, 0, set()
        whole = image.whole()
        if path is None or path == b"/":
            self.path = None
            self._walk(whole, True)
            return
        lo, hi = key_of(path), after(key_of(path))
        self._walk(whole.within(lo, hi), True)
        self.leading = leading(image, set(self.owned))
        if lo:
            self._walk(whole.within(b"", lo), False)
        if hi is not None:
            self._walk(whole.within(hi, None), False)

    def pairs(self):
        """The pairs, those that share most first."""
        found = [Pair(*paths_of(pair, below), len(nodes)) for pair, (below, nodes) in self.found.items()]
        return sorted(found, key=lambda it: (-it.nodes, it.first, it.second))

    def _walk(self, part, wanted):
        left = [part]
        while left:
            part = left.pop()
            self.ways += 1
            if self.ways > MOST_WAYS:
                raise Failed(f"more than {MOST_WAYS} ways lead to nodes")
            if self.progress:
                self.progress.tell(self.ways)
            for lo, hi, owned in self._met(part, wanted):
                it = part.within(*self._outer(part, lo, hi))
                if owned is not None and (owned.wanted or self.path is None):
                    if not wanted or self.path is None:
                        self._share(owned, it, lo, hi)
                elif self.image.is_inner(it) and (owned is None or it.child in self.leading):
                    left += reversed([inner for inner in self.image.opened(it) if inner.child])

    @staticmethod
    def _outer(part, lo, hi):
        """The keys of a part that are asked of its child as these."""
        front, shift = part.lo[: part.drop], len(part.source)
        begun, end = part.asked()
        return (part.lo if lo == begun else front + lo[shift:],
                part.hi if hi == (END if end is None else end) else front + hi[shift:])

    def _met(self, part, wanted):
        """The keys for which a part asks its child, cut where they were asked for before: with what is known of that,
        or None where they weren't."""
        lo, hi = ended(part.asked())
        known = self.owned.setdefault(part.child, [])
        first = bisect_right(known, lo, key=lambda it: it.hi)
        last = bisect_left(known, hi, key=lambda it: it.lo)
        found, at, kept = [], lo, []
        for it in known[first:last]:
            if at < it.lo:
                found.append((at, it.lo, None))
            found.append((max(at, it.lo), min(hi, it.hi), it))
            at = it.hi
        if at < hi:
            found.append((at, hi, None))
        for lo, hi, it in found:
            if it is None:
                kept.append(Owned(lo, hi, part.lo[: part.drop], part.source, wanted))
        known[first:last] = sorted(known[first:last] + kept)
        return found

    def _share(self, owned, part, lo, hi):
        """Notes that a part asks for keys that were asked for before."""
        front = in_common(lo, hi)
        first = owned.outer + front[len(owned.inner) :]
        second = part.lo[: part.drop] + front[len(part.source) :]
        front, (first, second) = second, stems(first, second)
        if first == second:
            return
        below = whole_names(front)[len(second) :]
        known, nodes = self.found.setdefault((first, second), (below, set()))
        below = below if known == below else front_of(known, below)
        nodes.update(id_ for id_, _, _ in asked_nodes(self.image, part.child, lo, hi))
        self.found[first, second] = (below, nodes)


def leading(image, nodes):
    """These nodes, and all that lead to them."""
    found = set(nodes)
    for id_ in sorted(image.table, key=lambda id_: image.table[id_].level):
        if id_ not in found and image.table[id_].level and not found.isdisjoint(image.node(id_).names):
            found.add(id_)
    return found


def stems(first, second):
    """Two keys without the names in which both end."""
    same = 0
    while same < min(len(first), len(second)) and first[-1 - same] == second[-1 - same]:
        same += 1
    while same and not (is_stem(first[: len(first) - same]) and is_stem(second[: len(second) - same])):
        same -= 1
    return whole_names(first[: len(first) - same]), whole_names(second[: len(second) - same])


def is_stem(key):
    return not key or key.endswith(b"\0")


def whole_names(key):
    """What a key begins with, up to the end of its last whole name."""
    return key[: key.rfind(b"\0") + 1]


def in_common(lo, hi):
    """What all keys from one on, up to another one, begin with."""
    size = len(lo)
    while size and hi > (after(lo[:size]) or END):
        size -= 1
    return lo[:size]


def front_of(one, other):
    """What two keys begin with, in whole names."""
    same = 0
    while same < min(len(one), len(other)) and one[same] == other[same]:
        same += 1
    return whole_names(one[:same])


def paths_of(pair, below):
    """The two paths of a pair, with what all that they share lies below. A record's key ends in zeros."""
    below = below[: below.find(b"\0\0") + 1] if b"\0\0" in below else below
    return tuple(path_of(stem + below.lstrip(b"\0")) for stem in pair)
