"""The file system that a mount shows: what the kernel asks for is answered from what is known of the image, and done by
lines that the program is given.

What a file gets is gathered while it is written in order, and given in lines of whole blocks. A file whose name goes
while it is open moves to a directory that the mount hides, and empties when it begins and ends.
"""
import bisect
import errno
import os
import stat as modes
import sys
import time

import fuse
from convention import LINK_MODE, OWN, is_own
from mounttree import DIRECTORY, FILE, LINK, Directory, File, Tree, error, unhexed
from session import (
    BAD_LINE, BAD_PATH, EXISTS, GREATEST_FILE, INSIDE, IS_DIR, NO_PARENT, NOT_DIR, NOT_FOUND, READ_PIECE, ROOT, SLOT,
    TOO_BIG, WRITE_PIECE, Failed, Full, Refused, read_lines)

HIDDEN = b"/" + OWN + b"open"
CLONE = b"user.betr.clone"
# So many bytes of a file are gathered before they are given.
GATHERED = 1 << 17
GREATEST_LINK = 4_095
# From so many bytes on a file is copied by a clone, which takes some slots in any case.
CLONED = 1 << 20
# What was done is made durable after so many seconds, and what was gathered is given after so many without a request.
SYNC_AFTER, GIVE_AFTER = 5.0, 0.05
RUNS_BY_GROUP, BY_GROUP, BY_OWNER = 0o010, 0o2000, 0o4000
NO_REPLACE = 1
KEEP_SIZE = 1

NUMBERS = {
    NOT_FOUND: errno.ENOENT, EXISTS: errno.EEXIST, NO_PARENT: errno.ENOENT, NOT_DIR: errno.ENOTDIR,
    IS_DIR: errno.EISDIR, INSIDE: errno.EINVAL, ROOT: errno.EBUSY, TOO_BIG: errno.EFBIG, BAD_PATH: errno.ENAMETOOLONG,
    BAD_LINE: errno.EINVAL}


def told_by(failure):
    """What the caller is told of a line that wasn't done."""
    if isinstance(failure, Full):
        return errno.ENOSPC
    return NUMBERS.get(failure.number, errno.EIO) if isinstance(failure, Refused) else errno.EIO


def is_zero(piece):
    return not any(piece)


def lines_of(path, data, offset, size):
    """The lines that write bytes into a file that had such a size, block by block. Where zeros come after all that a
    file had, it is extended over them."""
    lines, end, written = [], offset + len(data), size
    at = offset
    while at < end:
        to = min(end, at - at % WRITE_PIECE + WRITE_PIECE)
        piece = data[at - offset : to - offset]
        if at < size or not is_zero(piece):
            lines.append(b"write %s %d %s" % (path, at, piece.hex().encode()))
            written = max(written, to)
        at = to
    if written < end:
        lines.append(b"truncate %s %d" % (path, end))
    return lines


class Mounted(fuse.Operations):
    """The operations of a mounted image, over the lines of a session."""

    # As long as many slots are free, what was gathered has room; where they aren't, each write waits until it is done.
    is_told_of_closes = False

    def __init__(self, lines, keeps_owner=True):
        self.lines, self.keeps_owner = lines, keeps_owner
        self.tree = Tree(lines, (os.geteuid(), os.getegid()))
        self.failure = None
        self.written, self.listings, self.last_listing = set(), {}, 0
        self.has_hidden, self.last_hidden, self.changed_at = False, time.time_ns(), None

    def begin(self, has_epochs):
        self.tree.keeps_absent = has_epochs

    def check(self):
        """Begins the run, and empties what an earlier mount has left."""
        self.lines.look()
        reply = self.lines.ask([b"remove " + HIDDEN])[0]
        if reply == b"ok":
            self.lines.gives_back()
        self.has_hidden = reply.startswith(b"full ")
        self.tree.know(self.tree.root)

    # ---- the run

    def patience(self):
        if self.failure is not None:
            return None
        if self.written or self.lines.unsent or self.lines.owed:
            return int(GIVE_AFTER * 1_000)
        if self.lines.is_changed or self.tree.noting:
            return int(SYNC_AFTER * 1_000)
        return None

    def idle(self):
        """Gives what was gathered, and makes it durable some seconds after the first change."""
        if self.failure is None:
            self.give_all()
            self.lines.push()
            self.sync_in_time()
            self.tree.forget_much()

    def sync_in_time(self):
        """Makes what was done durable, where that is due."""
        if not self.lines.is_changed and not self.tree.noting:
            self.changed_at = None
        elif self.changed_at is None:
            self.changed_at = time.monotonic()
        elif time.monotonic() - self.changed_at >= SYNC_AFTER:
            self.sync()

    def sync(self):
        """Makes all that was done durable."""
        self.give_all()
        self.tree.write_times()
        self.lines.sync()
        self.changed_at = None

    def failed(self, failure):
        """The number that a caller is told of a failure. After one that isn't a refusal nothing is done any more."""
        if not isinstance(failure, Failed):
            return super().failed(failure)
        if not isinstance(failure, (Refused, Full)) and self.failure is None:
            self.failure = failure
            print(f"mount: {failure}; the mount refuses all from here on", file=sys.stderr, flush=True)
        return told_by(failure)

    def finish(self):
        """Ends the run, once nothing is asked any more."""
        if self.failure is not None:
            raise self.failure
        self.give_all()
        self.tree.write_times()
        self.tree.tidy_times()
        if self.has_hidden:
            self.lines.ask([b"remove " + HIDDEN])
        self.lines.end()

    # ---- names

    def lookup(self, number, name):
        directory = self.tree.directory(number)
        node = directory.names.get(name)
        if node is None:
            if not directory.is_gone and not is_own(name):
                self.tree.new_path(directory, name)  # A name that can't be is told as one that is too long.
            return self.tree.absent(directory, name)
        self.tree.know(node)
        return self.tree.entry(node)

    def forget(self, number, times):
        self.tree.forget(number, times)

    def place_for(self, number, name):
        """The directory of a new name, the name in the image, and its path."""
        return self.place_in(self.tree.directory(number), name)

    def place_in(self, directory, name):
        if directory.is_gone:
            raise error(errno.ENOENT)
        if name in directory.names:
            raise error(errno.EEXIST)
        image, path = self.tree.new_path(directory, name)
        return directory, image, path

    def made(self, node, mode):
        """A node that was just made."""
        now = time.time_ns()
        node.mode, node.mtime, node.ctime = mode, now, now
        self.tree.attach(node)
        self.tree.note(node)
        self.tree.touch(node.parent, now)
        return self.tree.entry(node)

    def mkdir(self, number, name, mode):
        directory, image, path = self.place_for(number, name)
        mode = modes.S_IMODE(mode) | directory.mode & BY_GROUP
        self.lines.post(path, b"mkdir " + path, *self.mode_lines(path, mode))
        node = Directory(directory, name, image)
        node.names, node.times, node.times_size = {}, {}, -1
        return self.made(node, mode)

    @staticmethod
    def mode_lines(path, mode):
        return [b"chmod %s %04o" % (path, mode)] if mode else []

    def make_file(self, number, name, mode):
        """Makes an empty file."""
        directory, image, path = self.place_for(number, name)
        mode = modes.S_IMODE(mode)
        if mode == LINK_MODE:
            raise error(errno.EPERM)
        self.lines.post(path, b"create " + path, *self.mode_lines(path, mode))
        node = File(directory, name, image)
        return node, self.made(node, mode)

    def mknod(self, number, name, mode):
        if modes.S_IFMT(mode) != FILE:
            raise error(errno.EPERM)
        return self.make_file(number, name, mode)[1]

    def create(self, number, name, mode):
        node, told = self.make_file(number, name, mode)
        node.opens = 1
        return told

    def symlink(self, number, name, target):
        directory, image, path = self.place_for(number, name)
        if len(target) > GREATEST_LINK:
            raise error(errno.ENAMETOOLONG)
        self.lines.post(path, b"create " + path, *lines_of(path, target, 0, 0), *self.mode_lines(path, LINK_MODE))
        node = File(directory, name, image, LINK)
        node.size = node.kept_size = len(target)
        return self.made(node, 0o777)

    def readlink(self, number):
        node = self.tree.at(number)
        return b"".join(map(unhexed, self.lines.ask(read_lines(self.tree.path(node), node.size))))

    def link(self, *_):
        raise error(errno.EPERM)

    def unlink(self, number, name):
        directory = self.tree.directory(number)
        node = self.tree.found(directory, name)
        if isinstance(node, Directory):
            raise error(errno.EISDIR)
        path = self.tree.path(node)
        if node.opens:
            self.hide(node, b"rename %s %s" % (path, self.hidden_path()))
        else:
            self.forget_run(node)
            self.lines.post(path, b"remove " + path)
        self.lines.gives_back()
        self.tree.gone(node)
        self.tree.touch(directory)

    def rmdir(self, number, name):
        directory = self.tree.directory(number)
        node = self.tree.found(directory, name)
        if not isinstance(node, Directory):
            raise error(errno.ENOTDIR)
        if self.tree.names_of(node):
            raise error(errno.ENOTEMPTY)
        path = self.tree.path(node)
        self.lines.post(path, b"remove " + path)
        self.lines.gives_back()
        self.tree.gone(node)
        self.tree.touch(directory)

    def hidden_path(self):
        """The path of the next file whose name goes while it is open."""
        if not self.has_hidden:
            self.lines.change(b"mkdir " + HIDDEN)
            self.has_hidden = True
        self.last_hidden += 1
        return b"%s/%d" % (HIDDEN, self.last_hidden)

    def hide(self, node, line):
        """Keeps what an open file has by a line that ends in its hidden path."""
        self.give(node)
        self.lines.change(line)
        node.hidden = line.split(b" ")[2]

    def rename(self, number, name, to_number, to_name, flags):
        if flags & ~NO_REPLACE:
            raise error(errno.EINVAL)
        directory, to = self.tree.directory(number), self.tree.directory(to_number)
        node, other = self.tree.found(directory, name), to.names.get(to_name)
        if node is other:
            return
        if other is not None and flags & NO_REPLACE:
            raise error(errno.EEXIST)
        image, path = self.tree.new_path(to, to_name)
        self.give_all()
        if other is not None:
            self.make_way(node, other, path)
        self.lines.change(b"rename %s %s" % (self.tree.path(node), path))
        if other is not None:
            self.lines.gives_back()
            self.tree.gone(other)
        self.tree.move(node, to, to_name, image)
        now = time.time_ns()
        node.ctime = now
        if isinstance(node, File):
            self.tree.note(node)
        for one in {directory, to}:
            self.tree.touch(one, now)

    def make_way(self, node, other, path):
        """Sees to it that a rename can take the place of another node."""
        self.tree.know(other)
        if isinstance(other, Directory):
            if not isinstance(node, Directory):
                raise error(errno.EISDIR)
            if self.tree.names_of(other):
                raise error(errno.ENOTEMPTY)
            self.lines.change(b"remove " + path)
        elif isinstance(node, Directory):
            raise error(errno.ENOTDIR)
        elif other.opens:
            self.hide(other, b"clone %s %s" % (path, self.hidden_path()))

    # ---- attributes

    def getattr(self, number):
        node = self.tree.at(number)
        if node.mode is None:
            self.tree.know(node)
        return self.tree.attributes(node)

    def setattr(self, number, sets, size, mode, owner, atime, mtime):
        node = self.tree.at(number)
        self.tree.know(node)
        if sets & (fuse.SETS_OWNER | fuse.SETS_GROUP) and self.keeps_owner:
            for bit, wanted, kept in zip((fuse.SETS_OWNER, fuse.SETS_GROUP), owner, self.tree.owner):
                if sets & bit and wanted != kept:
                    raise error(errno.EPERM)
        if sets & fuse.SETS_SIZE:
            self.truncate(node, size)
        if sets & fuse.SETS_MODE:
            self.chmod(node, modes.S_IMODE(mode))
        elif sets & fuse.CLEARS_BITS:
            self.clear_bits(node)
        now = time.time_ns()
        if sets & fuse.SETS_ATIME:
            node.atime = now if sets & fuse.SETS_ATIME_NOW else atime
        if sets & fuse.SETS_MTIME:
            node.mtime = now if sets & fuse.SETS_MTIME_NOW else mtime
            self.tree.note(node)
        node.ctime = now
        return self.tree.attributes(node)

    def chmod(self, node, mode):
        """Sets a mode. A time goes with it, since one of 0000 without a time is shown as another."""
        if isinstance(node, File) and mode == LINK_MODE:
            raise error(errno.EPERM)
        if node.is_gone and not self.tree.has_path(node):
            node.mode = mode
        if mode == node.mode and node.mtime is not None:
            return
        path = self.tree.path(node)
        self.lines.post(path, b"chmod %s %04o" % (path, mode))
        node.mode, node.is_bare = mode, False
        if node.mtime is None:
            node.mtime = 0
            self.tree.note(node)

    def clear_bits(self, node):
        """Takes the bits from a file by which it runs as its owner or its group."""
        mode = node.mode & ~BY_OWNER
        if mode & RUNS_BY_GROUP:
            mode &= ~BY_GROUP
        if node.kind == FILE and mode != node.mode:
            self.chmod(node, mode)

    def statfs(self):
        free, slots = self.lines.look()
        blocks = SLOT // fuse.PAGE
        return slots * blocks, free * blocks, free * blocks, slots * blocks, free * blocks, fuse.PAGE, 255, fuse.PAGE

    # ---- bytes

    def file(self, number):
        node = self.tree.at(number)
        if not isinstance(node, File):
            raise error(errno.EISDIR)
        return node

    def open(self, number, flags, clears):
        node = self.file(number)
        if node.is_gone and node.hidden is None:
            raise error(errno.ENOENT)
        self.tree.know(node)
        if flags & os.O_TRUNC:
            self.truncate(node, 0)
            if clears:
                self.clear_bits(node)
        node.opens += 1

    def release(self, number):
        node = self.file(number)
        node.opens -= 1
        if node.opens or not node.is_gone:
            self.give(node)
            return
        self.forget_run(node)
        if node.hidden is not None:
            self.lines.post(node.hidden, b"remove " + node.hidden)
            self.lines.gives_back()
            node.hidden = None
        if not node.lookups:
            self.tree.drop(node)

    def read(self, number, offset, size):
        node = self.file(number)
        self.give(node)
        size = min(size, node.size - offset)
        if size <= 0:
            return b""
        path = self.tree.path(node)
        if offset % READ_PIECE == 0:
            return b"".join(map(unhexed, self.lines.ask(read_lines(path, size, offset))))
        first = min(size, READ_PIECE - offset % READ_PIECE)
        lines = [b"read %s %d %d" % (path, offset, first), *read_lines(path, size - first, offset + first)]
        return b"".join(map(unhexed, self.lines.ask(lines)))

    def write(self, number, offset, data, clears):
        node = self.file(number)
        self.tell_error(node)
        if offset >= GREATEST_FILE:
            raise error(errno.EFBIG)
        data = data[: GREATEST_FILE - offset]
        if clears:
            self.clear_bits(node)
        if node.run is not None and offset != node.run_at + len(node.run):
            self.give(node)
        if node.run is None:
            node.run, node.run_at = bytearray(), offset
            self.written.add(node)
        node.run += data
        if not self.lines.has_room():
            self.written.discard(node)
            self.give_all()
            self.give(node)
        elif len(node.run) >= GATHERED:
            self.give(node)
        node.size = max(node.size, offset + len(data))
        self.tree.touch(node)
        return len(data)

    def give(self, node):
        """Gives the lines that write what was gathered of a file."""
        if node.run is None:
            return
        data, node.run = bytes(node.run), None
        self.written.discard(node)
        path, end = self.tree.path(node), node.run_at + len(data)
        try:
            self.lines.post(path, *lines_of(path, data, node.run_at, node.kept_size))
        except (Full, Refused):
            self.measure(node)
            raise
        node.kept_size = max(node.kept_size, end)

    def measure(self, node):
        """Asks for the size of a file of which not all was written."""
        self.tree.ask_for([node])

    def give_all(self):
        """Gives what was gathered of all files. Where the image is full, who writes on or syncs the file is told."""
        for node in list(self.written):
            try:
                self.give(node)
            except (Full, Refused) as failure:
                node.error = told_by(failure)
            except OSError as failure:
                node.error = failure.errno

    def forget_run(self, node):
        node.run = None
        self.written.discard(node)

    def truncate(self, node, size):
        if size > GREATEST_FILE:
            raise error(errno.EFBIG)
        self.give(node)
        if size != node.size:
            path = self.tree.path(node)
            self.lines.post(path, b"truncate %s %d" % (path, size))
            if size < node.size:
                self.lines.gives_back()
            node.size = node.kept_size = size
        self.tree.touch(node)

    @staticmethod
    def tell_error(node):
        """Tells once what was gathered of a file and couldn't be given."""
        if node.error:
            number, node.error = node.error, 0
            raise error(number)

    def fsync(self, number):
        node = self.file(number)
        self.give(node)
        self.tell_error(node)
        directory = node.parent
        if directory is not None:
            self.tree.write_times([directory])
        self.lines.sync()

    def fsyncdir(self, number):
        self.sync()

    def syncfs(self):
        self.sync()

    def fallocate(self, number, offset, length, mode):
        node = self.file(number)
        if mode & ~KEEP_SIZE:
            raise error(errno.EOPNOTSUPP)
        if not mode & KEEP_SIZE and offset + length > node.size:
            self.truncate(node, offset + length)

    def copy(self, number, offset, to_number, to_offset, length):
        """Copies a whole large file to an empty one by a clone. Others are read and written by who copies."""
        node, to = self.file(number), self.file(to_number)
        if offset or to_offset or to.size or to.is_gone or node is to or not CLONED <= node.size <= length:
            raise error(errno.EOPNOTSUPP)
        self.give(node)
        path = self.tree.path(to)
        self.lines.change(b"remove " + path)
        try:
            self.lines.change(b"clone %s %s" % (self.tree.path(node), path))
        except Full:
            self.lines.change(b"create " + path)
            raise
        finally:
            self.lines.change(b"chmod %s %04o" % (path, to.mode))
        to.size = to.kept_size = node.size
        self.tree.touch(to)
        return node.size

    # ---- listings

    def opendir(self, number):
        directory = self.tree.directory(number)
        self.last_listing += 1
        self.listings[self.last_listing] = None
        directory.readers += 1
        is_kept, directory.is_kept = directory.is_kept, True
        return self.last_listing, is_kept

    def releasedir(self, number, listing):
        del self.listings[listing]
        self.tree.at(number).readers -= 1

    def readdir(self, number, listing, place, size, with_entries):
        directory = self.tree.directory(number)
        whole = self.listings[listing]
        if whole is None or place == 0:
            whole = self.listings[listing] = [(node.place, node) for node in directory.names.values()]
        data = bytearray()
        if place < 2:
            for at, name in ((1, b"."), (2, b"..")):
                if at > place:
                    data += bytes(fuse.ENTRY.size + fuse.ATTRIBUTES.size) if with_entries else b""
                    data += fuse.listed(directory.inode, at, DIRECTORY, name)
        self.list_some(directory, whole, place, size, with_entries, data)
        return bytes(data)

    def list_some(self, directory, whole, place, size, with_entries, data):
        """Puts what comes after a place in a listing to the data of an answer, as much as there is room for."""
        head = fuse.DIRENT.size + (fuse.ENTRY.size + fuse.ATTRIBUTES.size if with_entries else 0)
        begin = bisect.bisect_right(whole, place, key=lambda pair: pair[0])
        some = [node for at, node in whole[begin : begin + size // head + 1]
                if node.parent is directory and node.place == at]
        unknown = [node for node in some if node.mode is None and self.tree.has_path(node)]
        if unknown:
            self.tree.ask_for(unknown)
        for node in some:
            if len(data) + head + len(node.name) + 7 > size:
                break
            told = fuse.listed(node.inode or self.tree.inode(node), node.place, node.kind, node.name)
            if with_entries:
                data += self.tree.entry(node) if node.mode is not None else bytes(head - fuse.DIRENT.size)
            data += told

    # ---- clones

    def setxattr(self, request, number, name, value, flags):
        """Clones a directory or a file to a path of the image, by the attribute that stands for that."""
        if name != CLONE:
            raise error(errno.EOPNOTSUPP)
        node = self.tree.at(number)
        self.tree.know(node)
        directory, new = self.clone_place(bytes(value).rstrip(b"\0"))
        image, path = self.place_in(directory, new)[1:]
        is_absent = new in directory.absent
        self.give_all()
        self.tree.write_times()
        self.lines.change(b"clone %s %s" % (self.tree.path(node), path))
        if node is self.tree.root and self.has_hidden:
            self.lines.change(b"remove " + path + HIDDEN)
        self.cloned(node, directory, new, image)
        if directory.number:
            request.server.tell_inode(directory.number)
        if is_absent:
            request.server.tell_names()
        return b""

    def clone_place(self, path):
        """The directory and the name that a path of the mount says."""
        if not path.startswith(b"/") or not path.strip(b"/"):
            raise error(errno.EINVAL)
        *before, name = path.strip(b"/").split(b"/")
        directory = self.tree.root
        for part in before:
            directory = self.tree.names_of(directory).get(part)
            if directory is None:
                raise error(errno.ENOENT)
            if not isinstance(directory, Directory):
                raise error(errno.ENOTDIR)
        self.tree.names_of(directory)
        if name in (b".", b"..") or {b"", b".", b".."} & set(before):
            raise error(errno.EINVAL)
        return directory, name

    def cloned(self, node, directory, name, image):
        """A node of which a clone was made."""
        new = type(node)(directory, name, image)
        new.mode, new.is_bare, new.mtime, new.ctime = node.mode, node.is_bare, node.mtime, time.time_ns()
        self.tree.attach(new)
        if isinstance(node, File):
            new.kind, new.size, new.kept_size = node.kind, node.size, node.size
            self.tree.note(new)
        self.tree.touch(directory)
