"""What differs between two paths of an image, found in its nodes.

Both sides are walked together, over the same keys. Where both ask the same node for the same keys, all below it is the
same, and only what waits above it on one of the sides is looked at: so two clones of a large tree are compared in the
time of what differs.
"""
from typing import NamedTuple

from nodes import after, between, key_of, path_of, place, record

ADDED, REMOVED, CHANGED = "added", "removed", "changed"


class Change(NamedTuple):
    """A path below both sides that differs, by its key, with its record on either side, and what changed of it."""

    kind: str
    key: bytes
    old: object
    new: object
    what: tuple = ()

    @property
    def path(self):
        return path_of(self.key)


def is_same(a, b):
    """Whether two parts of the same keys ask the same node for the same ones."""
    if a.child != b.child:
        return False
    drop = max(a.drop, b.drop)
    return a.child == 0 or a.source + a.lo[a.drop : drop] == b.source + b.lo[b.drop : drop]


class Differences:
    """The keys at which two parts differ, by rising key, each with both values, and from any later key on."""

    def __init__(self, image, a, b, progress=None):
        self.image, self.left, self.found = image, [(a, b)], []
        self.progress, self.done = progress, 0

    def next(self):
        """The next key and both values, or None."""
        while not self.found:
            if not self.left:
                return None
            a, b = self.left.pop()
            self._tell()
            if is_same(a, b):
                self.found = self._waiting(a, b)
            elif self.image.is_inner(a) or self.image.is_inner(b):
                self.left += reversed(self._opened(a, b))
            else:
                self.found = self._valued(a, b)
        return self.found.pop()

    def seek(self, key):
        """Goes on at a key, where it isn't there yet, or at the end, where there is none."""
        if key is None:
            self.left, self.found = [], []
        while self.found and self.found[-1][0] < key:
            self.found.pop()
        while self.left and self.left[-1][0].hi is not None and self.left[-1][0].hi <= key:
            self.left.pop()
        if self.left and self.left[-1][0].lo < key:
            a, b = self.left.pop()
            self.left.append((a.within(key, None), b.within(key, None)))

    def _tell(self):
        self.done += 1
        if self.progress:
            self.progress.tell(self.done)

    def _level(self, part):
        return self.image.table[part.child].level if part.child else 0

    def _opened(self, a, b):
        """Both sides of the parts that make up the one whose node is higher."""
        if self._level(a) >= self._level(b):
            return [(it, b.within(it.lo, it.hi)) for it in self.image.opened(a)]
        return [(a.within(it.lo, it.hi), it) for it in self.image.opened(b)]

    def _waiting(self, a, b):
        """What differs between parts that differ in what waits alone, the last key first."""
        if a.waits == b.waits:
            return []
        keys = sorted({key for key, _ in a.waits} | {key for key, _ in b.waits}, reverse=True)
        changed = [key for key in keys if between(a.waits, key, key + b"\0") != between(b.waits, key, key + b"\0")]
        return [it for key in changed for it in differing(key, self.image.value(a, key), self.image.value(b, key))]

    def _valued(self, a, b):
        """What differs between parts that ask leaves, the last key first."""
        a, b = dict(self.image.values(a)), dict(self.image.values(b))
        keys = sorted(a.keys() | b.keys(), reverse=True)
        return [it for key in keys for it in differing(key, a.get(key), b.get(key))]


def differing(key, old, new):
    """A key and both values, where these differ. Zeros at the end of a block are as good as none."""
    if old == new or place(key).block is not None and (old or b"").rstrip(b"\0") == (new or b"").rstrip(b"\0"):
        return []
    return [(key, old, new)]


def changes(image, a, b, brief=False, progress=None):
    """What differs below two paths that are there, in the order of the paths. Where it is to be brief, all that is
    below a directory that is on one side alone is passed over."""
    differences = Differences(image, image.whole(key_of(a)), image.whole(key_of(b)), progress)
    of, parts = None, []
    while found := differences.next():
        key, block = place(found[0])
        if key != of:
            yield from of_path(of, parts)
            of, parts = key, []
        parts.append((block, *found[1:]))
        if brief and block is None and has_lonely(*found[1:]):
            differences.seek(after(key))
    yield from of_path(of, parts)


def has_lonely(old, new):
    """Whether one of two records, or the only one, is a directory's and the other one isn't."""
    return (old is not None and record(old).is_dir) != (new is not None and record(new).is_dir)


def of_path(key, parts):
    """The changes of one path, by the records and the blocks of it that differ."""
    if key is None:
        return
    block, old, new = parts[0]
    if block is not None:
        yield Change(CHANGED, key, None, None, ("bytes",))
        return
    old, new = (None if value is None else record(value) for value in (old, new))
    if old is None or new is None or old.is_dir != new.is_dir:
        if old is not None:
            yield Change(REMOVED, key, old, None)
        if new is not None:
            yield Change(ADDED, key, None, new)
        return
    what = ("bytes",) * (old.size != new.size or len(parts) > 1) + ("mode",) * (old.mode != new.mode)
    yield Change(CHANGED, key, old, new, what)
