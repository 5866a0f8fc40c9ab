"""The kernel's protocol of FUSE, version 7, over /dev/fuse: what a directory of the system is mounted by, and a server
that answers the kernel's requests from an object with a method for each. Nothing but Python is needed by root, and
`fusermount3` (Debian's `fuse3`) by others.

A method of `Operations` returns what is answered, or raises OSError with the number of what is told to the caller.
"""
import ctypes
import errno
import os
import select
import shutil
import signal
import socket
import stat as modes
import struct
import subprocess
import sys
import threading
import time

DEVICE = "/dev/fuse"
MAJOR, MINOR, LEAST_MINOR = 7, 44, 23
ROOT = 1

# The most bytes that one request writes, and that one reads.
GREATEST_WRITE = 1 << 20
PAGE = 4_096
# How many requests that nobody waits for may be open, and from how many on the kernel holds them back.
BACKGROUND, CONGESTED = 64, 48
# How long the kernel may keep names and what it knows of files, in seconds: nobody but the mount changes the image.
VALID = 86_400
# How many seconds may pass until `idle` is called, where there are requests.
AT_LEAST = 1.0

HEAD, REPLY = struct.Struct("=IIQQIIIHH"), struct.Struct("=IiQ")
ATTRIBUTES, ENTRY, TOLD = struct.Struct("=6Q10I"), struct.Struct("=4Q2I"), struct.Struct("=QII")
OPENED, DIRENT, STATFS = struct.Struct("=QII"), struct.Struct("=QQII"), struct.Struct("=5Q3I28x")
ONE, TWO, FOUR, LONG = struct.Struct("=I"), struct.Struct("=II"), struct.Struct("=IIII"), struct.Struct("=Q")
MOVE, RELEASE = struct.Struct("=QII"), struct.Struct("=QIIQ")
PART, SPACE, RANGE = struct.Struct("=QQIIQII"), struct.Struct("=QQQII"), struct.Struct("=7Q")
SET = struct.Struct("=IIQQQQQQ8I")
BEGUN = struct.Struct("=IIIIHHIIHHI28x")
NO_ENTRY = bytes(ATTRIBUTES.size)
SECOND, ALL = 1_000_000_000, 0xFFFFFFFFFFFFFFFF

(LOOKUP, FORGET, GETATTR, SETATTR, READLINK, SYMLINK, MKNOD, MKDIR, UNLINK, RMDIR, RENAME, LINK, OPEN, READ, WRITE,
 STATS, RELEASED, FSYNC, SETXATTR, GETXATTR, LISTXATTR, FLUSH, INIT, OPENDIR, READDIR, RELEASEDIR, FSYNCDIR, ACCESS,
 CREATE, INTERRUPT, DESTROY, BATCH_FORGET, FALLOCATE, READDIRPLUS, RENAME2, COPY, SYNCFS) = (
    1, 2, 3, 4, 5, 6, 8, 9, 10, 11, 12, 13, 14, 15, 16, 17, 18, 20, 21, 22, 23, 25, 26, 27, 28, 29, 30, 34, 35, 36, 38,
    42, 43, 44, 45, 47, 50)

# What is agreed on at the beginning: reads beside each other, O_TRUNC with an open, large writes, readdir with what is
# found, lookups beside each other, set bits cleared here (without it each write asks for an attribute first), 256 pages
# a request, links kept by the kernel.
WANTED = (1 << 0) | (1 << 3) | (1 << 5) | (1 << 13) | (1 << 14) | (1 << 18) | (1 << 22) | (1 << 23) | (1 << 28)

# What an open answers: pages are kept over opens; a directory's names are kept; a close isn't told.
KEEP, KEEP_NAMES, NO_FLUSH = 1 << 1, 1 << 3, 1 << 5

# What a SETATTR sets.
(SETS_MODE, SETS_OWNER, SETS_GROUP, SETS_SIZE, SETS_ATIME, SETS_MTIME, SETS_ATIME_NOW, SETS_MTIME_NOW, CLEARS_BITS) = (
    1, 2, 4, 8, 16, 32, 128, 256, 2_048)
WRITE_CLEARS_BITS, OPEN_CLEARS_BITS = 4, 1

# What is done also where all is refused.
STILL_DONE = (INIT, FORGET, BATCH_FORGET, INTERRUPT, DESTROY)

# What the kernel is told without being asked.
INODE_CHANGED, NAMES_CHANGED, NAMES_CHANGED_MINOR = 2, 8, 44
INODE_TOLD = struct.Struct("=Qqq")

NOT_SUID, NOT_DEVICES, READ_ONLY = 2, 4, 1
DETACH = 2


class NoFuse(Exception):
    """Why nothing can be mounted here."""


def attributes(inode, kind, mode, size, links, times, owner):
    """What is known of a file, as the kernel takes it. Times are those of access, change of bytes and any change, in
    nanoseconds; the owner is a user and a group."""
    atime, mtime, ctime = times
    atime, atime_part = divmod(atime, SECOND)
    mtime, mtime_part = divmod(mtime, SECOND)
    ctime, ctime_part = divmod(ctime, SECOND)
    return ATTRIBUTES.pack(inode, size, -(-size // 512), atime & ALL, mtime & ALL, ctime & ALL, atime_part, mtime_part,
                           ctime_part, kind | mode, links, owner[0], owner[1], 0, PAGE, 0)


def entry(number, told):
    """What is answered of a name: its number, and its attributes."""
    return ENTRY.pack(number, 0, VALID, VALID, 0, 0) + told


def no_entry(is_kept=True):
    """That there is no such name, which the kernel may keep."""
    return ENTRY.pack(0, 0, VALID if is_kept else 0, 0, 0, 0) + NO_ENTRY


def listed(inode, place, kind, name):
    """A name of a directory, and the place after it."""
    size = DIRENT.size + len(name)
    return DIRENT.pack(inode, place, len(name), kind >> 12) + name + bytes(-size % 8)


class Operations:
    """What a file system answers. Files are told by the numbers that it gave out; the root's is 1. Names are bytes.
    What isn't there as a method is refused, and the kernel asks no more for most of it."""

    def __getattr__(self, name):
        def refuse(*_, **__):
            raise OSError(errno.ENOSYS, "")
        return refuse

    # Why all is refused from here on, where it is; and whether `flush` is called when one closes what he may write to.
    failure, is_told_of_closes = None, True

    def failed(self, failure):
        """The number that a caller is told of a failure that isn't one of the system."""
        print(f"mount: {type(failure).__name__}: {failure}", file=sys.stderr, flush=True)
        return errno.EIO

    def begin(self, has_epochs):
        """Is called once, when the kernel has begun: whether it can be told that names have changed."""

    def patience(self):
        """After how many milliseconds without a request `idle` is to be called, or None."""

    def idle(self):
        """Is called when nothing was asked for so long, and each second where much is asked."""

    def destroy(self):
        """Is called where the kernel tells that it ends."""


class Request:
    """A request of the kernel: who asks for what, and how it is answered."""

    __slots__ = ("server", "unique", "opcode", "node", "user", "group")

    def __init__(self, server, unique, opcode, node, user, group):
        self.server, self.unique, self.opcode = server, unique, opcode
        self.node, self.user, self.group = node, user, group

    def reply(self, *parts):
        self.server.write(REPLY.pack(REPLY.size + sum(map(len, parts)), 0, self.unique), *parts)

    def fail(self, number):
        self.server.write(REPLY.pack(REPLY.size, -number, self.unique))


class Server:
    """Answers the kernel's requests, one after the other, until the directory is unmounted."""

    def __init__(self, handle, operations):
        self.handle, self.operations = handle, operations
        self.buffer = bytearray(GREATEST_WRITE + PAGE * 2)
        self.has_ended, self.wake = False, os.eventfd(0)
        self.methods = {
            LOOKUP: self._lookup, FORGET: self._forget, GETATTR: self._getattr, SETATTR: self._setattr,
            READLINK: self._readlink, SYMLINK: self._symlink, MKNOD: self._mknod, MKDIR: self._mkdir,
            UNLINK: self._unlink, RMDIR: self._rmdir, RENAME: self._rename, RENAME2: self._rename, LINK: self._link,
            OPEN: self._open, READ: self._read, WRITE: self._write, STATS: self._statfs, RELEASED: self._release,
            FSYNC: self._fsync, SETXATTR: self._setxattr, GETXATTR: self._getxattr, LISTXATTR: self._listxattr,
            FLUSH: self._flush, INIT: self._init, OPENDIR: self._opendir, READDIR: self._readdir,
            READDIRPLUS: self._readdir, RELEASEDIR: self._releasedir, FSYNCDIR: self._fsyncdir, ACCESS: self._access,
            CREATE: self._create, INTERRUPT: self._nothing, DESTROY: self._destroy, BATCH_FORGET: self._forgets,
            FALLOCATE: self._fallocate, COPY: self._copy, SYNCFS: self._syncfs,
        }

    def run(self):
        """Answers until the end."""
        poll, whole = select.poll(), memoryview(self.buffer)
        poll.register(self.handle, select.POLLIN)
        poll.register(self.wake, select.POLLIN)
        due = time.monotonic() + AT_LEAST
        while not self.has_ended:
            events = poll.poll(self.operations.patience())
            if not events or time.monotonic() > due:
                self.idle()
                due = time.monotonic() + AT_LEAST
            if not events or self.has_ended:
                continue
            try:
                size = os.readv(self.handle, [self.buffer])
            except OSError as error:
                if error.errno in (errno.ENODEV, errno.ECONNABORTED):  # It was unmounted.
                    return
                if error.errno in (errno.EINTR, errno.EAGAIN, errno.ENOENT):
                    continue
                raise
            self.take(whole[:size])

    def idle(self):
        try:
            self.operations.idle()
        except Exception as failure:  # What is asked afterwards is answered.
            self.operations.failed(failure)

    def end(self):
        """Ends the answers. Any thread may call it."""
        self.has_ended = True
        os.eventfd_write(self.wake, 1)

    def take(self, data):
        """Answers a request."""
        _, opcode, unique, node, user, group, _, extra, _ = HEAD.unpack_from(data)
        request = Request(self, unique, opcode, node, user, group)
        try:
            method = self.methods.get(opcode, self._unknown)
            if self.operations.failure is not None and opcode not in STILL_DONE:
                raise OSError(errno.EIO, "")
            answer = method(request, data[HEAD.size : len(data) - extra * 8])
        except OSError as error:
            request.fail(error.errno or errno.EIO)
        except Exception as failure:  # One request that breaks off doesn't end the others.
            request.fail(self.operations.failed(failure))
        else:
            if answer is not None:
                request.reply(answer)

    def write(self, *parts):
        """Gives the kernel an answer. One that came too late, as the caller was killed, is dropped."""
        try:
            os.writev(self.handle, parts)
        except OSError as error:
            if error.errno not in (errno.ENOENT, errno.ENODEV, errno.ECONNABORTED):
                raise

    def tell(self, code, *parts):
        """Tells the kernel what it didn't ask for."""
        try:
            os.writev(self.handle, (REPLY.pack(REPLY.size + sum(map(len, parts)), code, 0), *parts))
        except OSError:
            pass  # It knows nothing of it, or it is unmounted.

    def tell_inode(self, node):
        """The kernel is to forget what it keeps of a file's attributes and pages, or of a directory's names."""
        self.tell(INODE_CHANGED, INODE_TOLD.pack(node, 0, 0))

    def tell_names(self):
        """The kernel is to ask for each name once more, where `begin` was told that it can do that."""
        self.tell(NAMES_CHANGED)

    # ---- what each request has, and what its answer is

    def _init(self, request, data):
        major, minor, ahead, flags = FOUR.unpack_from(data)
        if major != MAJOR or minor < LEAST_MINOR:
            self.has_ended = True
            raise OSError(errno.EPROTO, "")
        self.operations.begin(minor >= NAMES_CHANGED_MINOR)
        return BEGUN.pack(MAJOR, min(MINOR, minor), min(ahead, GREATEST_WRITE), flags & WANTED, BACKGROUND, CONGESTED,
                          GREATEST_WRITE, 1, GREATEST_WRITE // PAGE, 0, 0)

    def _nothing(self, request, data):
        return None

    def _unknown(self, request, data):
        raise OSError(errno.ENOSYS, "")

    def _destroy(self, request, data):
        self.operations.destroy()
        return b""

    def _lookup(self, request, data):
        return self.operations.lookup(request.node, bytes(data[:-1]))

    def _forget(self, request, data):
        self.operations.forget(request.node, LONG.unpack_from(data)[0])

    def _forgets(self, request, data):
        for at in range(ONE.unpack_from(data)[0]):
            self.operations.forget(*struct.unpack_from("=QQ", data, 8 + 16 * at))

    def _getattr(self, request, data):
        return TOLD.pack(VALID, 0, 0) + self.operations.getattr(request.node)

    def _setattr(self, request, data):
        sets, _, _, size, _, atime, mtime, _, atime_part, mtime_part, _, mode, _, user, group, _ = SET.unpack_from(data)
        return TOLD.pack(VALID, 0, 0) + self.operations.setattr(
            request.node, sets, size=size, mode=mode, owner=(user, group), atime=nanoseconds(atime, atime_part),
            mtime=nanoseconds(mtime, mtime_part))

    def _readlink(self, request, data):
        return self.operations.readlink(request.node)

    def _symlink(self, request, data):
        name, target = bytes(data[:-1]).split(b"\0", 1)
        return self.operations.symlink(request.node, name, target)

    def _mknod(self, request, data):
        return self.operations.mknod(request.node, bytes(data[FOUR.size : -1]), FOUR.unpack_from(data)[0])

    def _mkdir(self, request, data):
        return self.operations.mkdir(request.node, bytes(data[TWO.size : -1]), TWO.unpack_from(data)[0])

    def _unlink(self, request, data):
        self.operations.unlink(request.node, bytes(data[:-1]))
        return b""

    def _rmdir(self, request, data):
        self.operations.rmdir(request.node, bytes(data[:-1]))
        return b""

    def _rename(self, request, data):
        to, flags, size = LONG.unpack_from(data)[0], 0, LONG.size
        if request.opcode == RENAME2:
            to, flags, _ = MOVE.unpack_from(data)
            size = MOVE.size
        old, new = bytes(data[size:-1]).split(b"\0")
        self.operations.rename(request.node, old, to, new, flags)
        return b""

    def _link(self, request, data):
        return self.operations.link(LONG.unpack_from(data)[0], request.node, bytes(data[LONG.size : -1]))

    def _open(self, request, data):
        flags, more = TWO.unpack_from(data)
        self.operations.open(request.node, flags, bool(more & OPEN_CLEARS_BITS))
        return self._opened(flags)

    def _create(self, request, data):
        flags, mode, _, _ = FOUR.unpack_from(data)
        return self.operations.create(request.node, bytes(data[FOUR.size : -1]), mode) + self._opened(flags)

    def _opened(self, flags):
        is_told = self.operations.is_told_of_closes and flags & os.O_ACCMODE != os.O_RDONLY
        return OPENED.pack(0, KEEP | (0 if is_told else NO_FLUSH), 0)

    def _read(self, request, data):
        _, offset, size, _, _, _, _ = PART.unpack_from(data)
        return self.operations.read(request.node, offset, size)

    def _write(self, request, data):
        _, offset, size, flags, _, _, _ = PART.unpack_from(data)
        piece = data[PART.size : PART.size + size]
        return TWO.pack(self.operations.write(request.node, offset, piece, bool(flags & WRITE_CLEARS_BITS)), 0)

    def _statfs(self, request, data):
        return STATFS.pack(*self.operations.statfs())

    def _release(self, request, data):
        self.operations.release(request.node)
        return b""

    def _flush(self, request, data):
        self.operations.flush(request.node)
        return b""

    def _fsync(self, request, data):
        self.operations.fsync(request.node)
        return b""

    def _fsyncdir(self, request, data):
        self.operations.fsyncdir(request.node)
        return b""

    def _syncfs(self, request, data):
        self.operations.syncfs()
        return b""

    def _setxattr(self, request, data):
        size, flags = TWO.unpack_from(data)
        name, value = bytes(data[TWO.size :]).split(b"\0", 1)
        return self.operations.setxattr(request, request.node, name, value[:size], flags)

    def _getxattr(self, request, data):
        size = TWO.unpack_from(data)[0]
        return self._sized(size, self.operations.getxattr(request.node, bytes(data[TWO.size : -1])))

    def _listxattr(self, request, data):
        names = self.operations.listxattr(request.node)
        return self._sized(TWO.unpack_from(data)[0], b"".join(name + b"\0" for name in names))

    @staticmethod
    def _sized(size, value):
        """A value, where there is room for it, or how much it needs, where that is what was asked."""
        if size == 0:
            return TWO.pack(len(value), 0)
        if size < len(value):
            raise OSError(errno.ERANGE, "")
        return value

    def _opendir(self, request, data):
        number, keeps = self.operations.opendir(request.node)
        return OPENED.pack(number, KEEP_NAMES | (KEEP if keeps else 0), 0)

    def _readdir(self, request, data):
        number, place, size, _, _, _, _ = PART.unpack_from(data)
        return self.operations.readdir(request.node, number, place, size, request.opcode == READDIRPLUS)

    def _releasedir(self, request, data):
        self.operations.releasedir(request.node, RELEASE.unpack_from(data)[0])
        return b""

    def _access(self, request, data):
        self.operations.access(request.node, TWO.unpack_from(data)[0])
        return b""

    def _fallocate(self, request, data):
        _, offset, length, mode, _ = SPACE.unpack_from(data)
        self.operations.fallocate(request.node, offset, length, mode)
        return b""

    def _copy(self, request, data):
        _, offset, to, _, to_offset, length, _ = RANGE.unpack_from(data)
        return TWO.pack(self.operations.copy(request.node, offset, to, to_offset, length), 0)


def nanoseconds(seconds, part):
    """A time as the kernel tells it, in nanoseconds."""
    if seconds >= 1 << 63:
        seconds -= 1 << 64
    return seconds * SECOND + part


# ---- mounting


LIBRARY = ctypes.CDLL(None, use_errno=True)


def helper():
    """The program that mounts for those who aren't root, or None."""
    return shutil.which("fusermount3", path=os.environ.get("PATH", "") + ":/bin:/usr/bin:/sbin:/usr/sbin")


def mount(source, directory, is_read_only=False, has_permissions=True, is_for_all=False):
    """Mounts a directory, and gives the handle by which it is served."""
    if not os.path.exists(DEVICE):
        raise NoFuse(f"there is no {DEVICE} here: the kernel has no FUSE, or it isn't given to this container")
    options = ["default_permissions"] * has_permissions + ["allow_other"] * is_for_all
    if os.geteuid() == 0:
        try:
            return mount_by_kernel(source, directory, options, is_read_only)
        except PermissionError:  # A container may not mount by itself, and yet have the helper.
            if helper() is None:
                raise
    if helper() is None:
        raise NoFuse("mounting needs fusermount3, of the package fuse3, where one isn't root")
    return mount_by_helper(source, directory, options, is_read_only)


def mount_by_kernel(source, directory, options, is_read_only):
    """Mounts by the system's own call, as root may."""
    handle = os.open(DEVICE, os.O_RDWR | os.O_CLOEXEC)
    words = [f"fd={handle}", f"rootmode={modes.S_IFDIR:o}", f"user_id={os.geteuid()}", f"group_id={os.getegid()}"]
    flags = NOT_SUID | NOT_DEVICES | (READ_ONLY if is_read_only else 0)
    if LIBRARY.mount(os.fsencode(source), os.fsencode(directory), b"fuse.betr", ctypes.c_ulong(flags),
                     ",".join(words + options).encode()) != 0:
        number = ctypes.get_errno()
        os.close(handle)
        raise OSError(number, os.strerror(number), directory)
    return handle


def mount_by_helper(source, directory, options, is_read_only):
    """Mounts by fusermount3, which sends the handle over a socket."""
    name = source.replace("\\", "\\\\").replace(",", "\\,")
    words = options + ["nosuid", "nodev", "subtype=betr", f"fsname={name}"] + ["ro"] * is_read_only
    here, there = socket.socketpair()
    with here, there:
        os.set_inheritable(there.fileno(), True)
        environment = os.environ | {"_FUSE_COMMFD": str(there.fileno())}
        done = subprocess.run([helper(), "-o", ",".join(words), "--", directory], pass_fds=[there.fileno()],
                              env=environment, stderr=subprocess.PIPE, check=False)
        told_by_helper(done)
        there.close()
        _, handles, _, _ = socket.recv_fds(here, 1, 1)
    if not handles:
        raise NoFuse("fusermount3 gave no handle")
    os.set_inheritable(handles[0], False)
    return handles[0]


def told_by_helper(done):
    """Tells why fusermount3 hasn't done what was wanted, where that is so."""
    if done.returncode != 0:
        told = done.stderr.decode(errors="backslashreplace").strip().split("\n")[-1]
        raise NoFuse(told.removeprefix(f"{done.args[0]}: ") or f"fusermount3 ended with status {done.returncode}")


def unmount(directory, is_lazy=False):
    """Unmounts a directory. The kernel may ask its server before this returns, so that the server may not call it."""
    if os.geteuid() == 0:
        if LIBRARY.umount2(os.fsencode(directory), DETACH if is_lazy else 0) == 0:
            return
        number = ctypes.get_errno()
        if number != errno.EPERM or helper() is None:
            raise OSError(number, os.strerror(number), directory)
    if helper() is None:
        raise NoFuse("unmounting needs fusermount3, of the package fuse3, where one isn't root")
    done = subprocess.run([helper(), "-u", *["-z"] * is_lazy, "--", directory], stderr=subprocess.PIPE, check=False)
    told_by_helper(done)


def unmount_on_signals(directory, ended, patience=10.0):
    """Unmounts a directory where the process is told to end: at once, also where files in it are open, and then
    `ended` is called where the kernel still has some after so many seconds."""
    def leave(*_):
        threading.Thread(target=unmount_now, args=(directory,), daemon=True).start()
        timer = threading.Timer(patience, ended)
        timer.daemon = True
        timer.start()

    for number in (signal.SIGTERM, signal.SIGINT, signal.SIGHUP):
        signal.signal(number, leave)


def unmount_now(directory):
    try:
        unmount(directory, is_lazy=True)
    except (OSError, NoFuse) as failure:
        print(f"mount: {directory}: {failure}", file=sys.stderr, flush=True)


def mounts():
    """The directories that are mounted from images here, each with its image, the last one of a directory last."""
    found = {}
    with open("/proc/self/mountinfo", "rb") as file:
        for line in file:
            before, _, after = line.rstrip(b"\n").partition(b" - ")
            kind, source, _ = after.split(b" ", 2)
            if kind == b"fuse.betr":
                found[plain(before.split(b" ")[4])] = plain(source)
    return found


def plain(word):
    """A word of the kernel's table of mounts, in which some bytes are written as three octal digits."""
    parts = word.split(b"\\")
    return parts[0] + b"".join(bytes([int(part[:3], 8)]) + part[3:] for part in parts[1:])
