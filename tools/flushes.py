"""The nodes of an image, on which the steps are made by which the program takes down what waits in them: nothing is
written, and each node gets the id that the program gives it."""
from functools import lru_cache

from nodes import BUFFER_BYTES, GOTO, Ended, table_slots
from shapes import (FULL_EDGES, MOST_KEY, Shape, batch, carved, clipped, common_size, exchanged, fits, followed,
                    followed_by, halves, leaf_halves, narrowed_to, over_two, raised, received, shape_of, shortened,
                    swept)

# More bytes that wait in a child than these go further down first.
SOFT_BYTES = 16_384
# As many steps at most, as the program makes for a command.
MOST_FLUSHES = 65_536
# As many nodes of the image stay in memory as were last asked for, as what they are to steps.
MOST_SHAPES = 1_024


def read(image, id_):
    """A node of an image."""
    shape = shape_of(image.node(id_))
    if shape.size > BUFFER_BYTES or swept(shape) is not shape:
        raise image.no_node(id_)
    return shape


class Nodes:
    """The nodes of an image, or of other such nodes, and what steps make of them."""

    def __init__(self, image, before=None):
        self.image, self.before = image, before
        self.counts, self.shapes = {}, {}
        self.root, self.next = (before.root, before.next) if before else (image.root, image.next)
        self.size = before.size if before else len(image.table)
        self.read = before.read if before else lru_cache(MOST_SHAPES)(lambda id_: read(image, id_))

    @property
    def slots(self):
        """How many slots its nodes and their table take."""
        return self.size + table_slots(self.size)

    # What is known of nodes.

    def count(self, id_):
        """How often a node is named."""
        if id_ in self.counts:
            return self.counts[id_]
        return self.before.count(id_) if self.before else self.image.table[id_].references

    def level(self, id_):
        known = self.known(id_)
        return known.level if known else self.image.table[id_].level

    def shape(self, id_):
        """A node, which has to be named as long as it is asked for."""
        if self.count(id_) < 1:
            raise Ended
        return self.known(id_) or self.read(id_)

    def known(self, id_):
        """A node that was changed or made, or None."""
        found = self.shapes.get(id_)
        return found or self.before and self.before.known(id_)

    # Changes.

    def touch(self, id_):
        """Is told of each node that is changed or made, or that one node alone names from now on."""

    def name(self, id_, times=1):
        self.counts[id_] = self.count(id_) + times

    def drop(self, id_, times=1):
        """Names a node so often less, and lets it go where nothing names it."""
        left = [(id_, times)]
        while left:
            id_, times = left.pop()
            found = self.shape(id_) if self.level(id_) else None
            count = self.counts[id_] = self.count(id_) - times
            if count == 0:
                self.size -= 1
                left += found.names().items() if found else []
            elif count == 1:
                self.touch(id_)

    def put(self, id_, new):
        """Changes a node."""
        old, now = self.shape(id_).names(), new.names()
        differing = {name for name, _ in old.items() ^ now.items()}
        for name in differing:
            self.name(name, max(0, now[name] - old[name]))
        self.touch(id_)
        self.shapes[id_] = new
        for name in differing:
            if old[name] > now[name]:
                self.drop(name, old[name] - now[name])

    def make(self, shape):
        """A new node, which nothing names yet."""
        id_, self.next = self.next, self.next + 1
        self.counts[id_], self.shapes[id_], self.size = 0, shape, self.size + 1
        for name, times in shape.names().items():
            self.name(name, times)
        self.touch(id_)
        return id_

    # The way of a step.

    def flush(self, most):
        """Makes steps until no more bytes than these wait in the root."""
        for _ in range(MOST_FLUSHES):
            root = self.shape(self.root)
            if root.size <= most:
                return
            if len(root.edges) >= FULL_EDGES:
                self.split_root()
            else:
                self.work_from([], self.root, root.fullest())

    def begin(self, above, id_, place):
        """Makes a step that begins at an edge of a node, or what has to be done before."""
        if len(self.shape(id_).edges) < FULL_EDGES:
            self.work_from(above, id_, place)
            return
        above = list(above)
        while above:
            parent, child = above.pop(), id_
            place = next((at for at, it in enumerate(self.shape(parent).edges) if it.child == child), 0)
            if self.shape(parent).edges[place].source:
                self.copy(parent, place)
                return
            if len(self.shape(parent).edges) < FULL_EDGES:
                self.split(above, parent, place)
                return
            id_ = parent
        self.split_root()

    def work_from(self, above, id_, place):
        """Goes down from an edge of a node as long as more than some bytes wait in its child; makes a step there."""
        while True:
            edge = self.shape(id_).edges[place]
            child = self.shape(edge.child) if edge.child else None
            if edge.child and (edge.source or self.count(edge.child) != 1):
                self.copy(id_, place)
                return
            if child is None or child.size <= SOFT_BYTES:
                self.push_or_carve(above, id_, place)
                return
            if len(child.edges) >= FULL_EDGES:
                self.split(above, id_, place)
                return
            above, id_, place = [*above, id_], edge.child, child.fullest()

    def push_or_carve(self, above, id_, place):
        shape = self.shape(id_)
        at = next((at for at in range(len(shape.messages)) if self.is_held(shape, at, place)), None)
        if at is not None:
            self.put(id_, carved(shape, at))
        elif not shape.edges[place].child:
            self.plant(id_, place)
        else:
            self.push(above, id_, place)

    def is_held(self, shape, at, place):
        """Whether a message is a Goto that waits for an edge, and may not go down."""
        one = shape.messages[at]
        if one.tag != GOTO or not shape.waits(at, place):
            return False
        edge, hi, (begin, end) = shape.edges[place], shape.end(place), one.keys()
        lies_within = begin >= edge.pivot and (hi is None or end is not None and end <= hi)
        return not edge.child or self.level(one.child) >= self.level(edge.child) or not lies_within

    # Steps.

    def plant(self, id_, place):
        """Messages go down to a new leaf."""
        shape = self.shape(id_)
        edge = shape.edges[place]
        edge = edge._replace(lift=common_size(edge.pivot, shape.end(place)), source=b"")
        messages, seen = batch(shape, place, edge)
        child = self.make(Shape(0, entries=received([], messages)))
        self.put(id_, exchanged(shape, place, [edge._replace(child=child, seen=seen)]))

    def push(self, above, id_, place):
        """Messages go down to a child."""
        shape = self.shape(id_)
        edge = shape.edges[place]
        below, (messages, seen) = self.shape(edge.child), batch(shape, place, edge)
        edge = edge._replace(seen=seen)
        if below.level:
            self.put(edge.child, followed_by(below, messages))
            self.put(id_, exchanged(shape, place, [edge]))
            return
        entries = received(below.entries, messages)
        if fits(entries):
            self.put(edge.child, Shape(0, entries=entries))
            self.put(id_, exchanged(shape, place, [edge]))
        else:
            self.halve(above, id_, place, edge, leaf_halves(entries))

    def split(self, above, id_, place):
        """A child with many edges is split."""
        edge = self.shape(id_).edges[place]
        self.halve(above, id_, place, edge, halves(self.shape(edge.child)))

    def halve(self, above, id_, place, edge, parts):
        """A child becomes its halves, or the one of them that is asked for keys of the edge, which stands in the place
        of the node's."""
        shape, (first, pivot, second) = self.shape(id_), parts
        key, hi = edge.pivot[: edge.lift] + pivot, shape.end(place)
        if edge.pivot >= key or hi is not None and key >= hi:
            self.put(edge.child, second if edge.pivot >= key else first)
            self.put(id_, exchanged(shape, place, [edge]))
        elif len(key) > MOST_KEY:
            self.put_between(above, id_, exchanged(shape, place, [edge]), edge.child, parts)
        else:
            upper = edge._replace(pivot=key, child=self.make(second))
            self.put(edge.child, first)
            self.put(id_, exchanged(shape, place, [edge, upper]))

    def put_between(self, above, id_, shape, child, parts):
        """A child stands over its halves, and those above it rise where they have to."""
        first, pivot, second = parts
        level = first.level + 1
        self.put(child, over_two(level, self.make(first), pivot, self.make(second)))
        if level < shape.level:
            self.put(id_, shape)
            return
        self.put(id_, raised(shape))
        for upper in reversed(above):
            if self.level(id_) < self.level(upper):
                return
            self.put(upper, raised(self.shape(upper)))
            id_ = upper

    def split_root(self):
        root = self.shape(self.root)
        first, pivot, second = halves(root)
        self.put(self.root, over_two(root.level + 1, self.make(first), pivot, self.make(second)))

    def copy(self, id_, place):
        """A child that is shared, or asked through a source, is copied."""
        shape = self.shape(id_)
        edge = shape.edges[place]
        whole = clipped(self.shape(edge.child), edge.source)
        copy = narrowed_to(shortened(whole, self.resolved), edge, shape.end(place))
        new = edge._replace(source=b"", child=self.make(copy))
        self.put(id_, exchanged(shape, place, [new]))

    def resolved(self, child, source):
        """What answers for a child's keys that begin with a source that is too long to be stored."""
        while child and len(source) > MOST_KEY:
            child, source = followed(self.shape(child), source) if self.level(child) else (0, b"")
        return child, source
