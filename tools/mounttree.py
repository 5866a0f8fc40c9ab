"""What a mount knows of an image: its directories, files and links, as far as they were asked for, and their times.

Nothing but the mount changes the image, so what is known stays true: a directory is listed once, and each name in it is
asked for once.
"""
import binascii
import errno
import hashlib
import os
import stat as modes
import time

import fuse
from convention import (
    LINK_MODE, host_name, image_name, is_own, shown_mode, time_line, times_in, times_path, times_text, why_no_name)
from session import GREATEST_PATH, PAGE, READ_PIECE, Full, answer, below, names, told, write_lines

DIRECTORY, FILE, LINK = modes.S_IFDIR, modes.S_IFREG, modes.S_IFLNK
# So many names beside one that is asked for are asked for with it.
BESIDE = 32
# The least bytes that a file of times may have more than it needs.
SPARE = 4_096
# So many nodes may be known. Beyond that, directories of which the kernel knows nothing are forgotten.
GREATEST_COUNT = 250_000
# So many names that aren't there may the kernel keep for a directory.
GREATEST_ABSENT = 10_000


class Node:
    """A directory, a file or a link: the directory in which it is, its name there on the host and in the image, and its
    attributes. Its mode is None until it was asked for, and a bare one isn't the image's, since that has neither a mode
    nor a time; its number is 0 as long as the kernel has none."""

    __slots__ = ("number", "inode", "parent", "name", "image", "mode", "mtime", "ctime", "atime", "lookups", "place",
                 "is_bare", "is_gone")

    def __init__(self, parent, name, image):
        self.parent, self.name, self.image = parent, name, image
        self.number = self.inode = self.lookups = self.place = 0
        self.mode = self.mtime = self.ctime = self.atime = None
        self.is_bare = self.is_gone = False


class File(Node):
    """A file or a link: its size, and that which the image has; how often it is open; where its bytes are after its
    name went; its bytes that aren't given yet, and their place; and what its next write is told."""

    __slots__ = ("kind", "size", "kept_size", "opens", "hidden", "run", "run_at", "error")

    def __init__(self, parent, name, image, kind=FILE):
        super().__init__(parent, name, image)
        self.kind, self.size, self.kept_size, self.opens = kind, 0, 0, 0
        self.hidden, self.run, self.run_at, self.error = None, None, 0, 0


class Directory(Node):
    """A directory: its names, None until they were listed; the places of these for who reads it bit by bit; names that
    the kernel knows not to be there; nodes whose times aren't in its file yet; and the times and the size of that
    file."""

    __slots__ = ("names", "next_place", "absent", "noted", "times", "times_size", "is_stale", "is_kept", "readers",
                 "unknown")
    kind, size = DIRECTORY, 0

    def __init__(self, parent, name, image):
        super().__init__(parent, name, image)
        self.names, self.next_place, self.absent, self.noted = None, 3, set(), set()
        self.times, self.times_size, self.is_stale, self.is_kept = None, None, False, False
        self.readers, self.unknown = 0, []


def error(number):
    return OSError(number, os.strerror(number))


class Tree:
    """The nodes of an image that are known, and those whose times have to be written."""

    def __init__(self, lines, owner):
        self.lines, self.owner = lines, owner
        self.root = Directory(None, b"", b"")
        self.nodes, self.inodes, self.noting, self.keeps_absent = {}, set(), set(), False
        self.count, self.greatest, self.last_number = 0, GREATEST_COUNT, fuse.ROOT
        self.nodes[fuse.ROOT], self.root.number, self.root.lookups = self.root, fuse.ROOT, 1
        self.root.inode = fuse.ROOT
        self.inodes.add(fuse.ROOT)

    # ---- where a node is

    def path(self, node):
        """The path of a node in the image."""
        if node.is_gone:
            return self.hidden(node)
        parts = []
        while node.parent is not None:
            parts.append(node.image)
            node = node.parent
        path = b"/" + b"/".join(reversed(parts))
        if len(path) > GREATEST_PATH:
            raise error(errno.ENAMETOOLONG)
        return path

    @staticmethod
    def hidden(node):
        """The path of a node whose name is gone, where it still has one."""
        if not isinstance(node, File) or node.hidden is None:
            raise error(errno.ENOENT)
        return node.hidden

    def has_path(self, node):
        """Whether the image's lines can name a node."""
        try:
            return bool(self.path(node))
        except OSError:
            return False

    def new_path(self, directory, name):
        """The name in the image of one of the host, and its path, where the image can have it."""
        image = image_name(name)
        path = below(self.path(directory), image)
        if why_no_name(image, path):
            raise error(errno.EPERM if is_own(image) else errno.ENAMETOOLONG)
        return image, path

    def at(self, number):
        """The node that the kernel has a number for."""
        node = self.nodes.get(number)
        if node is None:
            raise error(errno.ESTALE)
        return node

    def directory(self, number):
        """The directory that the kernel has a number for, with its names."""
        node = self.at(number)
        if not isinstance(node, Directory):
            raise error(errno.ENOTDIR)
        self.names_of(node)
        return node

    def names_of(self, directory):
        """The names in a directory, with their nodes."""
        if directory.names is None:
            self.load(directory)
        return directory.names

    def found(self, directory, name):
        """What has a name in a directory, where it is there."""
        node = directory.names.get(name)
        if node is None:
            raise error(errno.ENOENT)
        self.know(node)
        return node

    # ---- what is asked of the image

    def load(self, directory):
        """Lists a directory, and reads its file of times."""
        if directory.is_gone:
            directory.names = {}
            return
        path = self.path(directory)
        line = b"list " + path
        ask_times = self.times_lines(directory, path)
        replies = self.lines.ask([line] + ask_times)
        listing = answer(replies[0], line)
        if ask_times:
            self.take_times(directory, path, replies[1])
        directory.names = {}
        directory.is_kept = False
        for name in listing[:PAGE]:
            self.add_listed(directory, name)
        if len(listing) > PAGE:
            for name in names(self.lines, path, listing[PAGE - 1].rstrip(b"/")):
                self.add_listed(directory, name)
        directory.unknown = [node for node in directory.names.values() if node.mode is None][::-1]
        times, directory.times = directory.times, {}
        if times:
            for node in directory.names.values():
                if isinstance(node, File):
                    node.mtime = times.get(node.image)

    def add_listed(self, directory, word):
        """Adds a name that a listing has. Of two that are one on the host, that which the host's name gives stays."""
        image = word.rstrip(b"/")
        if is_own(image):
            return
        name = host_name(image)
        if name in directory.names and image != image_name(name):
            return
        if b"/" in name or name in (b"", b".", b".."):
            return
        kind = Directory if word.endswith(b"/") else File
        self.attach(kind(directory, name, image))

    def times_lines(self, directory, path):
        """The line that reads what a directory's file of times begins with, where that isn't known yet."""
        where = times_path(path)
        if where is None:
            directory.times, directory.times_size = {}, None
        if directory.times is not None:
            return []
        return [b"read %s 0 %d" % (where, READ_PIECE)]

    def take_times(self, directory, path, reply):
        """Takes the times of a directory, whose file begins as a reply says; its own time is among them."""
        directory.times, directory.times_size = {}, -1
        if not reply.startswith(b"ok"):
            return
        data, piece = b"", unhexed(reply)
        while piece:
            data += piece
            if len(piece) < READ_PIECE:
                break
            piece = unhexed(self.lines.ask([b"read %s %d %d" % (times_path(path), len(data), READ_PIECE)])[0])
        directory.times, directory.times_size = times_in(data), len(data)
        if directory.mtime is None:
            directory.mtime = directory.times.get(b".")

    def know(self, node):
        """Asks for the attributes of a node, and of some beside it, where they aren't known."""
        if node.mode is None:
            beside, unknown = [node], node.parent.unknown if node.parent else []
            while unknown and len(beside) < BESIDE:
                other = unknown.pop()
                if other.mode is None and other is not node and other.parent is node.parent and self.has_path(other):
                    beside.append(other)
            self.ask_for(beside)

    def ask_for(self, nodes):
        """Asks for the attributes of nodes that are in the image and of which they aren't known."""
        lines, asked = [], []
        for node in nodes:
            path = self.path(node)
            more = self.times_lines(node, path) if isinstance(node, Directory) else []
            asked.append((node, path, len(lines), bool(more)))
            lines += [b"stat " + path] + more
        replies = self.lines.ask(lines)
        for node, path, at, has_times in asked:
            if has_times:
                self.take_times(node, path, replies[at + 1])
            found = told(answer(replies[at], lines[at]))
            if isinstance(node, File):
                node.size = node.kept_size = found.size
                if found.mode == LINK_MODE:
                    node.kind, node.mode = LINK, 0o777
                    continue
            node.mode = shown_mode(found, node.mtime is not None)
            node.is_bare = node.mode != found.mode

    # ---- what is added and what goes

    def attach(self, node):
        """Puts a node to the others of its directory."""
        directory = node.parent
        node.place, directory.next_place = directory.next_place, directory.next_place + 1
        directory.names.pop(node.name, None)
        directory.names[node.name] = node
        directory.absent.discard(node.name)
        self.count += 1

    def detach(self, node):
        """Takes a node from those of its directory."""
        directory = node.parent
        if directory.names.get(node.name) is node:
            del directory.names[node.name]
        directory.noted.discard(node)
        directory.is_stale = True
        self.count -= 1

    def gone(self, node):
        """A node whose name is gone. Who has it open may still use it."""
        self.detach(node)
        node.is_gone, node.parent = True, None
        if isinstance(node, Directory):
            self.noting.discard(node)
            node.noted.clear()
        if not node.lookups:
            self.drop(node)

    def drop(self, node):
        """Forgets a node that nobody has."""
        self.inodes.discard(node.inode)
        self.nodes.pop(node.number, None)

    def move(self, node, directory, name, image):
        """Gives a node another name, in a directory of which it takes the place of what had it."""
        self.detach(node)
        node.parent, node.name, node.image = directory, name, image
        self.attach(node)

    # ---- what the kernel is told

    def attributes(self, node):
        """The attributes of a node whose mode is known."""
        mtime = node.mtime or 0
        ctime = mtime if node.ctime is None else node.ctime
        atime = mtime if node.atime is None else node.atime
        return fuse.attributes(node.inode or self.inode(node), node.kind, node.mode, node.size,
                               0 if node.is_gone else 1, (atime, mtime, ctime), self.owner)

    def inode(self, node):
        """A number for a node that stays over mounts where its path does, and that no other node has."""
        parent = node.parent
        above = 0 if parent is None else parent.inode or self.inode(parent)
        inode = salt = 0
        while inode <= fuse.ROOT or inode in self.inodes:
            digest = hashlib.blake2b(b"%d %d " % (above, salt) + node.image, digest_size=8).digest()
            inode = int.from_bytes(digest, "little") >> 1
            salt += 1
        self.inodes.add(inode)
        node.inode = inode
        return inode

    def entry(self, node):
        """What the kernel is told of a name, with which it knows the node once more."""
        if not node.number:
            self.last_number += 1
            node.number = self.last_number
            self.nodes[node.number] = node
        node.lookups += 1
        return fuse.entry(node.number, self.attributes(node))

    def absent(self, directory, name):
        """That a name isn't there, which the kernel keeps where it can be told that this has changed."""
        if not self.keeps_absent or len(directory.absent) >= GREATEST_ABSENT:
            return fuse.no_entry(False)
        directory.absent.add(name)
        return fuse.no_entry()

    def forget(self, number, times):
        """The kernel knows a node so many times less."""
        node = self.nodes.get(number)
        if node is None or node is self.root:
            return
        node.lookups -= times
        if node.lookups > 0:
            return
        node.lookups = 0
        if node.is_gone:
            if not isinstance(node, File) or not node.opens:
                self.drop(node)
        else:
            del self.nodes[number]
            node.number = 0

    def forget_much(self):
        """Forgets directories of which the kernel knows nothing, where too many nodes are known."""
        if self.count <= self.greatest:
            return
        self.write_times()
        for directory in self.below(self.root)[::-1]:
            if directory.names and not directory.readers and not any(map(is_needed, directory.names.values())):
                self.count -= len(directory.names)
                self.inodes.difference_update(node.inode for node in directory.names.values())
                directory.names, directory.times, directory.unknown = None, None, []
        self.greatest = max(GREATEST_COUNT, self.count * 3 // 2)

    def below(self, directory):
        """A directory and all directories below it that are known, each before those below it."""
        found = [directory]
        for one in found:
            found += [node for node in (one.names or {}).values() if isinstance(node, Directory)]
        return found

    # ---- times

    def note(self, node):
        """A node whose time is to be written. With a time it needs a mode, since 0000 is one then."""
        directory = node if isinstance(node, Directory) else node.parent
        if directory is None or directory.is_gone:
            return
        if node.is_bare:
            self.clothe(node)
        directory.noted.add(node)
        self.noting.add(directory)

    def clothe(self, node):
        """Gives a bare node the mode that is shown of it."""
        try:
            path = self.path(node)
            self.lines.post(path, b"chmod %s %04o" % (path, node.mode))
            node.is_bare = False
        except (Full, OSError):
            pass  # It gets it the next time.

    def touch(self, node, now=None):
        """A node that was changed now."""
        node.mtime = node.ctime = now or time.time_ns()
        self.note(node)

    def write_times(self, directories=None):
        """Writes times that aren't in the files of their directories yet: of those directories, or of all."""
        for directory in list(self.noting) if directories is None else directories:
            self.noting.discard(directory)
            nodes = [node for node in directory.noted if node.mtime is not None]
            directory.noted.clear()
            if nodes and not directory.is_gone:
                try:
                    self.write_some(directory, nodes)
                except (Full, OSError):
                    pass  # There is no room for them, or the path is too long.

    def write_some(self, directory, nodes):
        """Writes the times of nodes to the file of their directory: after the others, or all of them anew, where the
        file has grown far beyond what it needs."""
        path = self.path(directory)
        where = times_path(path)
        if where is None:
            return
        if directory.times is None:
            self.take_times(directory, path, self.lines.ask([b"read %s 0 %d" % (where, READ_PIECE)])[0])
        text = b"".join(sorted(time_line(timed_name(node, directory), node.mtime) for node in nodes))
        if directory.times_size < 0:
            self.lines.post(where, b"create " + where)
            directory.times_size = 0
        elif directory.names is not None and directory.times_size + len(text) > SPARE:
            whole = self.times_of(directory)
            if directory.times_size + len(text) > 2 * len(whole) + SPARE:
                self.write_anew(directory, path, whole)
                return
        self.lines.post(where, *write_lines(where, text, directory.times_size))
        directory.times_size += len(text)

    def times_of(self, directory):
        """All times of a directory whose names are known, as a file has them."""
        found = {node.image: node.mtime for node in directory.names.values()
                 if isinstance(node, File) and node.mtime is not None}
        if directory.mtime is not None:
            found[b"."] = directory.mtime
        return times_text(found)

    def write_anew(self, directory, path, text):
        """Writes a directory's file of times over the old one, since a rename would take more of an image."""
        where = times_path(path)
        self.lines.post(where, *write_lines(where, text), b"truncate %s %d" % (where, len(text)))
        directory.times_size, directory.is_stale = len(text), False

    def tidy_times(self):
        """Writes files of times anew that have names which are gone."""
        for directory in self.below(self.root):
            if directory.is_stale and directory.names is not None and (directory.times_size or 0) > 0:
                try:
                    self.write_anew(directory, self.path(directory), self.times_of(directory))
                except (Full, OSError):
                    pass


def timed_name(node, directory):
    """The name by which a node's time stands in the file of a directory."""
    return b"." if node is directory else node.image


def is_needed(node):
    """Whether a node has to stay known: the kernel has it, it is open, or it has names."""
    if isinstance(node, Directory):
        return node.lookups > 0 or node.names is not None
    return node.lookups > 0 or node.opens > 0 or node.run is not None


def unhexed(reply):
    """The bytes that an accepted `read` tells."""
    if not reply.startswith(b"ok"):
        answer(reply)
    return binascii.unhexlify(reply[3:])
