"""How long work takes on a mounted image, beside a folder of the host that the same server shows, and that folder
itself: so it is told what the image costs, and what FUSE and Python do."""
import errno
import os
import shutil
import stat as modes
import subprocess
import sys
import time
from pathlib import Path

import fuse
from session import TOP, Failed

SOURCES = 60
MAKEFILE = """objects := $(patsubst %.c,%.o,$(wildcard *.c))
main: $(objects)
\tgcc -o $@ $^
%.o: %.c
\tgcc -c -o $@ $<
"""


# ---- a folder of the host by the same server


class Node:
    """A name of the folder that the kernel knows: where it is, and the handle by which it is open."""

    def __init__(self, number, parent, name):
        self.number, self.parent, self.name = number, parent, name
        self.names, self.lookups, self.opens, self.handle = {}, 0, 0, None


class Through(fuse.Operations):
    """The operations of a folder of the host, each by the system's own call."""

    def __init__(self, folder):
        self.folder = os.fsencode(folder)
        self.root = Node(fuse.ROOT, None, b"")
        self.nodes, self.last_number, self.listings, self.last_listing = {fuse.ROOT: self.root}, fuse.ROOT, {}, 0

    def path(self, node, *more):
        parts = list(more)
        while node.parent is not None:
            parts.insert(0, node.name)
            node = node.parent
        return b"/".join([self.folder, *parts])

    def at(self, number, *more):
        """The path of a node, or of a name in it."""
        return self.path(self.nodes[number], *more)

    @staticmethod
    def attributes(found):
        times = found.st_atime_ns, found.st_mtime_ns, found.st_ctime_ns
        return fuse.attributes(found.st_ino, modes.S_IFMT(found.st_mode), modes.S_IMODE(found.st_mode), found.st_size,
                               found.st_nlink, times, (found.st_uid, found.st_gid))

    def entry(self, parent, name, found):
        """What the kernel is told of a name, whose node it knows once more."""
        node = parent.names.get(name)
        if node is None:
            self.last_number += 1
            node = parent.names[name] = self.nodes[self.last_number] = Node(self.last_number, parent, name)
        node.lookups += 1
        return fuse.entry(node.number, self.attributes(found))

    def named(self, number, name):
        return self.entry(self.nodes[number], name, os.lstat(self.at(number, name)))

    def lookup(self, number, name):
        try:
            return self.named(number, name)
        except FileNotFoundError:
            return fuse.no_entry()

    def forget(self, number, times):
        node = self.nodes.get(number)
        if node is None or node is self.root:
            return
        node.lookups -= times
        if node.lookups <= 0 and not node.opens:
            del self.nodes[number]
            if node.parent.names.get(node.name) is node:
                del node.parent.names[node.name]

    def getattr(self, number):
        node = self.nodes[number]
        return self.attributes(os.lstat(self.path(node)) if node.handle is None else os.fstat(node.handle))

    def setattr(self, number, sets, size, mode, owner, atime, mtime):
        path = self.at(number) if self.nodes[number].handle is None else self.nodes[number].handle
        if sets & fuse.SETS_SIZE:
            os.truncate(path, size)
        if sets & fuse.SETS_MODE:
            os.chmod(path, modes.S_IMODE(mode))
        if sets & (fuse.SETS_ATIME | fuse.SETS_MTIME):
            now, found = time.time_ns(), os.stat(path)
            atime = now if sets & fuse.SETS_ATIME_NOW else atime if sets & fuse.SETS_ATIME else found.st_atime_ns
            mtime = now if sets & fuse.SETS_MTIME_NOW else mtime if sets & fuse.SETS_MTIME else found.st_mtime_ns
            os.utime(path, ns=(atime, mtime))
        return self.getattr(number)

    # ---- names

    def mkdir(self, number, name, mode):
        os.mkdir(self.at(number, name), mode)
        return self.named(number, name)

    def mknod(self, number, name, mode):
        os.mknod(self.at(number, name), mode)
        return self.named(number, name)

    def symlink(self, number, name, target):
        os.symlink(target, self.at(number, name))
        return self.named(number, name)

    def readlink(self, number):
        return os.readlink(self.at(number))

    def link(self, *_):
        raise OSError(errno.EPERM, "")

    def unlink(self, number, name):
        os.unlink(self.at(number, name))
        self.nodes[number].names.pop(name, None)

    def rmdir(self, number, name):
        os.rmdir(self.at(number, name))
        self.nodes[number].names.pop(name, None)

    def rename(self, number, name, to_number, to_name, flags):
        os.rename(self.at(number, name), self.at(to_number, to_name))
        node, to = self.nodes[number].names.pop(name, None), self.nodes[to_number]
        to.names.pop(to_name, None)
        if node is not None:
            node.parent, node.name, to.names[to_name] = to, to_name, node

    # ---- bytes

    def opened(self, node, handle):
        node.handle = handle if node.handle is None else node.handle
        node.opens += 1

    def create(self, number, name, mode):
        handle = os.open(self.at(number, name), os.O_RDWR | os.O_CREAT | os.O_EXCL, modes.S_IMODE(mode))
        told = self.entry(self.nodes[number], name, os.fstat(handle))
        self.opened(self.nodes[number].names[name], handle)
        return told

    def open(self, number, flags, clears):
        node = self.nodes[number]
        self.opened(node, os.open(self.path(node), os.O_RDWR) if node.handle is None else node.handle)
        if flags & os.O_TRUNC:
            os.ftruncate(node.handle, 0)

    def release(self, number):
        node = self.nodes[number]
        node.opens -= 1
        if not node.opens:
            os.close(node.handle)
            node.handle = None

    def read(self, number, offset, size):
        return os.pread(self.nodes[number].handle, size, offset)

    def write(self, number, offset, data, clears):
        return os.pwrite(self.nodes[number].handle, data, offset)

    def flush(self, number):
        pass

    def fsync(self, number):
        os.fsync(self.nodes[number].handle)

    def fsyncdir(self, number):
        os.sync()

    def statfs(self):
        found = os.statvfs(self.folder)
        return (found.f_blocks, found.f_bfree, found.f_bavail, found.f_files, found.f_ffree, found.f_bsize, 255,
                found.f_frsize)

    # ---- listings

    def opendir(self, number):
        self.last_listing += 1
        self.listings[self.last_listing] = sorted(os.listdir(self.at(number)))
        return self.last_listing, False

    def releasedir(self, number, listing):
        del self.listings[listing]

    def readdir(self, number, listing, place, size, with_entries):
        data, parent = bytearray(), self.nodes[number]
        head = fuse.DIRENT.size + (fuse.ENTRY.size + fuse.ATTRIBUTES.size if with_entries else 0)
        for at, name in enumerate(self.listings[listing][place:], place + 1):
            if len(data) + head + len(name) + 7 > size:
                break
            try:
                found = os.lstat(self.path(parent, name))
            except FileNotFoundError:  # It went since the directory was opened.
                continue
            if with_entries:
                data += self.entry(parent, name, found)
            data += fuse.listed(found.st_ino, at, modes.S_IFMT(found.st_mode), name)
        return bytes(data)


# ---- the three places


def mounted_image(program, folder):
    """Mounts a new image: where, and what ends it."""
    image, place = folder / "image", folder / "mounted"
    place.mkdir()
    tool = [sys.executable, str(TOP / "tools" / "mount")]
    subprocess.run([program, "format", image, "16384"], check=True, stdout=subprocess.DEVNULL)
    subprocess.run([*tool, "--program", program, image, place], check=True)
    return place, lambda: subprocess.run([*tool, "-u", place], check=True)


def mounted_folder(_, folder):
    """Mounts a folder of the host by the same server: where, and what ends it."""
    source, place = folder / "passed", folder / "through"
    source.mkdir()
    place.mkdir()
    try:
        handle = fuse.mount(str(source), str(place))
    except fuse.NoFuse as failure:
        raise Failed(str(failure)) from None
    child = os.fork()
    if not child:
        try:
            fuse.Server(handle, Through(source)).run()
        finally:
            os._exit(0)
    os.close(handle)

    def end():
        fuse.unmount(str(place))
        os.waitpid(child, 0)

    return place, end


def plain_folder(_, folder):
    place = folder / "plain"
    place.mkdir()
    return place, lambda: None


PLACES = {"a mounted image": mounted_image, "a folder by the same server": mounted_folder,
          "the folder itself": plain_folder}


# ---- the work


def call(*words):
    """Runs words, and how long that takes by the clock."""
    before = time.monotonic()
    done = subprocess.run([str(word) for word in words], stdout=subprocess.DEVNULL, stderr=subprocess.PIPE, text=True)
    if done.returncode != 0:
        raise Failed(f"{words[0]}: {(done.stderr.strip().splitlines() or ['it failed'])[-1]}")
    return time.monotonic() - before


def prepare(folder):
    """A repository, an archive of its files, and one of sources to build."""
    call("git", "clone", "-q", "--bare", TOP, folder / "source.git")
    call("git", "-C", folder / "source.git", "archive", "-o", folder / "tree.tar", "HEAD")
    sources = folder / "sources"
    sources.mkdir()
    for number in range(SOURCES):
        body = "".join(f"int f{number}_{i}(int x) {{ return x * {i} + {number}; }}\n" for i in range(100))
        (sources / f"part{number}.c").write_text(f"#include <stdio.h>\n#include <stdlib.h>\n{body}")
    (sources / "main.c").write_text("int f0_1(int); int main(void) { return f0_1(0); }\n")
    (sources / "Makefile").write_text(MAKEFILE)
    call("tar", "cf", folder / "sources.tar", "-C", folder, "sources")


def work(folder, place):
    """What each piece of work takes in a place, by its name."""
    (place / "tree").mkdir()
    found = {"git clone": call("git", "clone", "-q", folder / "source.git", place / "clone")}
    found["git status"] = call("git", "-C", place / "clone", "status")
    found["tar x"] = call("tar", "xf", folder / "tree.tar", "-C", place / "tree")
    found["grep -r"] = call("grep", "-rc", "", place / "tree")
    call("tar", "xf", folder / "sources.tar", "-C", place)
    found["make"] = call("make", "-s", "-j4", "-C", place / "sources")
    found["rm -r"] = call("rm", "-r", place / "tree")
    return found


def measure(program, folder, progress):
    """Prints a table of the work in the three places."""
    missing = [name for name in ("git", "make", "gcc", "tar") if not shutil.which(name)]
    if missing:
        raise Failed(f"{', '.join(missing)}: not here")
    progress.tell("what is worked on")
    prepare(folder)
    columns = []
    for name, make in PLACES.items():
        progress.tell(f"work on {name}")
        place, end = make(program, folder)
        try:
            columns.append(work(folder, place))
        finally:
            end()
    progress.end()
    print(f"| Work, in seconds | {' | '.join(PLACES)} |\n|---|---|---|---|")
    for name in columns[0]:
        print(f"| `{name}` | {' | '.join(f'{column[name]:.2f}' for column in columns)} |", flush=True)
