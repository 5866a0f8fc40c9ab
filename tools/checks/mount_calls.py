"""Calls of the system on a mounted image beside the same calls in a folder of the host: random ones, and each error by
its name."""
import ctypes
import mmap
import os
import random
import stat as modes
import sys

from mounting import Mount, difference, number_of, tree, why_not

CALLS, CALLS_WHERE_FULL = 100_000, 20_000
OFTEN = 5_000
NAMES = [b"a", b"b", b"c", b"d", b"e", b"f g", b"h%20", b"\xc3\xa4", b"n" * 60, b"t\tn\nl"]
ODD_NAMES = [b".", b"x" * 256, b"", b"missing", b"\xff\x7f"]
LINK_TARGETS = [b"a", b"b", b"c/a", b"d/", b"missing", b"e", b"./a", b"x" * 300]
GREATEST_HANDLES = 12
# Renames take slots that aren't given back soon.
SLOTS = 65_536
LIBRARY = ctypes.CDLL(None, use_errno=True)
AT_WORKING = -100
RENAME_NOREPLACE, RENAME_EXCHANGE, RENAME_WHITEOUT = 1, 2, 4


class Pair:
    """Two folders in which the same is done, and the handles that are open in both."""

    def __init__(self, one, other, seed):
        self.roots = [os.fsencode(one), os.fsencode(other)]
        self.rng, self.handles = random.Random(seed), []

    def both(self, action):
        """What an action gives in each of the folders: the error's name, or what it came to."""
        return [number_of(action, side) for side in (0, 1)]

    def path(self):
        """A random path, for a side."""
        rng = self.rng
        parts = rng.choices(NAMES[:6] if rng.random() < 0.9 else NAMES, k=rng.choice([1, 1, 1, 2, 2, 3]))
        if rng.random() < 0.02:
            parts[-1] = rng.choice(ODD_NAMES)
        if rng.random() < 0.02:
            parts.append(b"")
        if parts[0] == b"":
            parts = [b"a"]  # What is mounted is no name of its own.
        return lambda side: self.roots[side] + b"/" + b"/".join(parts)

    def handle(self):
        return self.rng.choice(self.handles) if self.handles else None

    def close(self):
        for pair in self.handles:
            for handle in pair:
                os.close(handle)
        self.handles.clear()


def told(state):
    """What is compared of a file's attributes."""
    kind = modes.S_IFMT(state.st_mode)
    if kind == modes.S_IFDIR:
        return kind, state.st_mode
    return kind, state.st_mode, state.st_size, state.st_nlink


# ---- random calls: each gives an action over a side


def opened(pair):
    rng, path = pair.rng, pair.path()
    flags = rng.choice([os.O_RDONLY, os.O_WRONLY, os.O_RDWR, os.O_RDWR])
    for flag, chance in ((os.O_CREAT, 0.6), (os.O_EXCL, 0.15), (os.O_TRUNC, 0.2), (os.O_APPEND, 0.15),
                         (os.O_NOFOLLOW, 0.1), (os.O_DIRECTORY, 0.05)):
        flags |= flag if rng.random() < chance else 0
    mode = rng.choice([0o644, 0o600, 0o755, 0o444, 0o000, 0o4755, 0o2644])
    if len(pair.handles) >= GREATEST_HANDLES:
        for handle in pair.handles.pop(rng.randrange(len(pair.handles))):
            os.close(handle)
    found = pair.both(lambda side: os.open(path(side), flags, mode))
    if found[0][0] is None and found[1][0] is None:
        pair.handles.append((found[0][1], found[1][1]))
        return [(None, None), (None, None)]
    for failed, handle in found:
        if failed is None:
            os.close(handle)
    return [(failed, None) for failed, _ in found]


def closed(pair):
    if not pair.handles:
        return None
    handles = pair.handles.pop(pair.rng.randrange(len(pair.handles)))
    return pair.both(lambda side: os.close(handles[side]))


def on_handle(pair):
    """A call on an open file."""
    handles, rng = pair.handle(), pair.rng
    if handles is None:
        return None
    at, size = rng.choice([0, 1, 100, 2_048, 4_096, rng.randrange(20_000)]), rng.choice([0, 1, 7, 2_048, 4_096, 9_000])
    data = bytes(size) if rng.random() < 0.1 else rng.randbytes(size)
    return pair.both(rng.choice([
        lambda side: os.write(handles[side], data), lambda side: os.pwrite(handles[side], data, at),
        lambda side: os.read(handles[side], size), lambda side: os.pread(handles[side], size, at),
        lambda side: sought(handles[side], at), lambda side: told(os.fstat(handles[side])),
        lambda side: os.ftruncate(handles[side], at), lambda side: os.fchmod(handles[side], 0o600 + size % 64),
        lambda side: os.write(handles[side], data[:10])]))


def sought(handle, at):
    """A seek in a file. In a folder each system has its own places."""
    return os.lseek(handle, at, at % 3) if modes.S_ISREG(os.fstat(handle).st_mode) else None


def synced(pair):
    handles = pair.handle()
    return handles and pair.both(lambda side: os.fsync(handles[side]))


def copied(pair):
    handles, others, size = pair.handle(), pair.handle(), pair.rng.choice([10, 5_000, 100_000])
    if handles is None or handles is others:
        return None
    return pair.both(lambda side: os.copy_file_range(handles[side], others[side], size, 0, 0))


def mapped(pair):
    path, data = pair.path(), pair.rng.randbytes(20)

    def action(side):
        handle = os.open(path(side), os.O_RDWR | os.O_NOFOLLOW)
        try:
            if os.fstat(handle).st_size < 40:
                return None
            with mmap.mmap(handle, 40) as memory:
                memory[10:30] = data
                return memory[:]
        finally:
            os.close(handle)

    return pair.both(action)


def on_path(pair):
    """A call with a path or two."""
    rng, one, other = pair.rng, pair.path(), pair.path()
    mode, size = rng.choice([0o755, 0o700, 0o1777, 0o644, 0o000, 0o2755, 0o4711]), rng.randrange(30_000)
    target, when = rng.choice(LINK_TARGETS), rng.randrange(-(10**18), 2 * 10**18)

    def timed(side):
        os.utime(one(side), ns=(when, when + 1))
        return os.stat(one(side)).st_mtime_ns

    return pair.both(rng.choices([
        lambda side: told(os.stat(one(side))), lambda side: told(os.lstat(one(side))),
        lambda side: os.mkdir(one(side), mode), lambda side: os.rmdir(one(side)), lambda side: os.unlink(one(side)),
        lambda side: os.rename(one(side), other(side)), lambda side: os.symlink(target, one(side)),
        lambda side: os.readlink(one(side)), lambda side: os.chmod(one(side), mode),
        lambda side: os.truncate(one(side), size), timed, lambda side: sorted(os.listdir(one(side))),
        lambda side: os.access(one(side), os.R_OK | os.X_OK), lambda side: os.mknod(one(side), 0o644 | modes.S_IFREG),
    ], [8, 8, 8, 5, 8, 12, 3, 4, 4, 4, 3, 6, 2, 2])[0])


KINDS, WEIGHTS = [on_path, opened, on_handle, closed, synced, copied, mapped], [55, 14, 24, 3, 0.5, 1, 1.5]


def random_calls(program, room, report, what, count):
    """Random calls in both folders, and what the two have in the end, also after another mount."""
    host = room / f"{what}-host"
    host.mkdir()
    with Mount(program, room, what, SLOTS) as mount:
        pair = Pair(mount.path, host, count)
        wrong = compared(pair, count, report)
        pair.close()
        left = difference(tree(mount.path), tree(host))
        report(f"{what}: the same files are left", not left, left)
        report(f"{what}: the mount ends well", mount.end() == (0, 0), mount.said)
    report(f"{what}: {count} as on the host", wrong == 0, f"{wrong} came out otherwise")
    with Mount(program, room, what) as mount:
        left = difference(tree(mount.path), tree(host))
        report(f"{what}: another mount shows the same", not left, left)


# A program before the other one, which tells lines that change files to be full, until there was a `reclaim`.
OFTEN_FULL = """#!{python}
import os, random, subprocess, sys
if sys.argv[1] != "run":
    os.execv({program!r}, [{program!r}] + sys.argv[1:])
inner = subprocess.Popen([{program!r}] + sys.argv[1:], stdin=subprocess.PIPE, stdout=subprocess.PIPE)
rng, since = random.Random(1), 0
for line in sys.stdin.buffer:
    changes = line.startswith((b"mk", b"cr", b"w", b"t", b"rem", b"ren", b"cl", b"chm")) and line != b"walk\\n"
    since = 0 if line == b"reclaim\\n" else since + len(line) * changes
    if changes and since > 100_000 and rng.random() < 0.02:
        reply = b"full 3 9\\n"
    else:
        inner.stdin.write(line)
        inner.stdin.flush()
        reply = inner.stdout.readline()
    os.write(1, reply)
inner.stdin.close()
os.write(1, inner.stdout.read())
sys.exit(inner.wait())
"""


def often_full(program, room, report):
    """Random calls over a program that is full now and then, so that lines that nobody waited for are given again."""
    before = room / "often-full"
    before.write_text(OFTEN_FULL.format(python=sys.executable, program=str(program)))
    before.chmod(0o755)
    random_calls(str(before), room, report, "often full", CALLS_WHERE_FULL)


def compared(pair, count, report):
    """How many of so many calls came out otherwise. The first few are told."""
    wrong = 0
    for at in range(count):
        found = pair.rng.choices(KINDS, WEIGHTS)[0](pair)
        if found and found[0] != found[1]:
            wrong += 1
            if wrong <= 5:
                report(f"random call {at}", False, f"{str(found[0])[:200]} and not {str(found[1])[:200]}")
        if at % OFTEN == OFTEN - 1:
            told_now = difference(tree(os.fsdecode(pair.roots[0])), tree(os.fsdecode(pair.roots[1])))
            if told_now:
                report(f"files after {at + 1} random calls", False, told_now)
                return wrong + 1
    return wrong


# ---- errors by name


def made(root):
    """What the errors are tried on."""
    os.mkdir(root + "/folder")
    os.mkdir(root + "/full")
    for name in ("/file", "/full/file"):
        with open(root + name, "wb") as file:
            file.write(b"bytes")
    os.symlink("loop", root + "/loop")
    os.symlink("file", root + "/link")
    os.symlink("missing", root + "/dangling")


# What is tried, and the error's name: None where it is done.
ERRORS = [
    ("stat of a name that isn't there", "ENOENT", lambda r: os.stat(r + "/missing")),
    ("stat below a name that isn't there", "ENOENT", lambda r: os.stat(r + "/missing/a")),
    ("stat below a file", "ENOTDIR", lambda r: os.stat(r + "/file/a")),
    ("stat of a long name", "ENAMETOOLONG", lambda r: os.stat(r + "/" + "x" * 256)),
    ("stat of a link to itself", "ELOOP", lambda r: os.stat(r + "/loop")),
    ("stat of a link to nothing", "ENOENT", lambda r: os.stat(r + "/dangling")),
    ("open of a name that isn't there", "ENOENT", lambda r: os.open(r + "/missing", os.O_RDONLY)),
    ("open to make what is there", "EEXIST", lambda r: os.open(r + "/file", os.O_CREAT | os.O_EXCL | os.O_WRONLY)),
    ("open of a folder to write", "EISDIR", lambda r: os.open(r + "/folder", os.O_WRONLY)),
    ("open of a file as a folder", "ENOTDIR", lambda r: os.open(r + "/file", os.O_RDONLY | os.O_DIRECTORY)),
    ("open of a link that isn't followed", "ELOOP", lambda r: os.open(r + "/link", os.O_RDONLY | os.O_NOFOLLOW)),
    ("open with a slash at the end", "EISDIR", lambda r: os.open(r + "/new/", os.O_CREAT | os.O_WRONLY)),
    ("open of a long new name", "ENAMETOOLONG", lambda r: os.open(r + "/" + "x" * 256, os.O_CREAT | os.O_WRONLY)),
    ("mkdir of what is there", "EEXIST", lambda r: os.mkdir(r + "/file")),
    ("mkdir of a folder that is there", "EEXIST", lambda r: os.mkdir(r + "/folder")),
    ("mkdir without a parent", "ENOENT", lambda r: os.mkdir(r + "/missing/a")),
    ("mkdir below a file", "ENOTDIR", lambda r: os.mkdir(r + "/file/a")),
    ("rmdir of a file", "ENOTDIR", lambda r: os.rmdir(r + "/file")),
    ("rmdir of what isn't empty", "ENOTEMPTY", lambda r: os.rmdir(r + "/full")),
    ("rmdir of what isn't there", "ENOENT", lambda r: os.rmdir(r + "/missing")),
    ("rmdir of a dot", "EINVAL", lambda r: os.rmdir(r + "/folder/.")),
    ("unlink of a folder", "EISDIR", lambda r: os.unlink(r + "/folder")),
    ("unlink of what isn't there", "ENOENT", lambda r: os.unlink(r + "/missing")),
    ("rename of what isn't there", "ENOENT", lambda r: os.rename(r + "/missing", r + "/a")),
    ("rename to where there is no parent", "ENOENT", lambda r: os.rename(r + "/file", r + "/missing/a")),
    ("rename of a file to a folder", "EISDIR", lambda r: os.rename(r + "/file", r + "/folder")),
    ("rename of a folder to a file", "ENOTDIR", lambda r: os.rename(r + "/folder", r + "/file")),
    ("rename to a folder that isn't empty", "ENOTEMPTY", lambda r: os.rename(r + "/folder", r + "/full")),
    ("rename into itself", "EINVAL", lambda r: os.rename(r + "/full", r + "/full/a")),
    ("rename to itself", None, lambda r: os.rename(r + "/file", r + "/file")),
    ("rename to a long name", "ENAMETOOLONG", lambda r: os.rename(r + "/file", r + "/" + "x" * 256)),
    ("rename that replaces nothing, to what is there", "EEXIST",
     lambda r: renamed(r + "/file", r + "/full/file", RENAME_NOREPLACE)),
    ("rename to another system", "EXDEV", lambda r: os.rename(r + "/file", "/proc/self/file")),
    ("symlink over what is there", "EEXIST", lambda r: os.symlink("a", r + "/file")),
    ("symlink to nothing", "ENOENT", lambda r: os.symlink("", r + "/empty")),
    ("readlink of a file", "EINVAL", lambda r: os.readlink(r + "/file")),
    ("truncate of a folder", "EISDIR", lambda r: os.truncate(r + "/folder", 0)),
    ("truncate to less than nothing", "EINVAL", lambda r: os.truncate(r + "/file", -1)),
    ("listing of a file", "ENOTDIR", lambda r: os.listdir(r + "/file")),
    ("chmod of what isn't there", "ENOENT", lambda r: os.chmod(r + "/missing", 0o644)),
    ("statvfs of what isn't there", "ENOENT", lambda r: os.statvfs(r + "/missing")),
    ("write to what is open to read", "EBADF",
     lambda r: on_open(r + "/file", os.O_RDONLY, lambda h: os.write(h, b"a"))),
    ("read of what is open to write", "EBADF",
     lambda r: on_open(r + "/file", os.O_WRONLY, lambda h: os.read(h, 1))),
    ("read of a folder", "EISDIR", lambda r: on_open(r + "/folder", os.O_RDONLY, lambda h: os.read(h, 1))),
    ("seek before the beginning", "EINVAL",
     lambda r: on_open(r + "/file", os.O_RDONLY, lambda h: os.lseek(h, -1, 0))),
]

# What is otherwise than on the host, as docs/TOOLS.md tells.
OWN_ERRORS = [
    ("an exchange of two names", "EINVAL", lambda r: renamed(r + "/file", r + "/full/file", RENAME_EXCHANGE)),
    ("an exchange with a folder", "EINVAL", lambda r: renamed(r + "/file", r + "/folder", RENAME_EXCHANGE)),
    ("a rename that leaves a hole for lower layers", "EINVAL", lambda r: renamed(r + "/file", r + "/a", RENAME_WHITEOUT)),
    ("a second name of a file", "EPERM", lambda r: os.link(r + "/file", r + "/second")),
    ("a pipe", "EPERM", lambda r: os.mkfifo(r + "/pipe")),
    ("a name of the tools", "EPERM", lambda r: os.mkdir(r + "/.betr-mine")),
    ("a mode that stands for links", "EPERM", lambda r: os.chmod(r + "/file", 0o7000)),
    ("an owner", "EPERM", lambda r: os.chown(r + "/file", os.geteuid() + 1, -1)),
    ("a file beyond 2^30 bytes", "EFBIG", lambda r: os.truncate(r + "/file", (1 << 30) + 1)),
    ("a write beyond 2^30 bytes", "EFBIG",
     lambda r: on_open(r + "/file", os.O_WRONLY, lambda h: os.pwrite(h, b"a", 1 << 30))),
    ("another attribute", "ENOTSUP", lambda r: os.setxattr(r + "/file", "user.other", b"a")),
    ("a clone to what is there", "EEXIST", lambda r: os.setxattr(r + "/file", "user.betr.clone", b"/folder")),
    ("a clone without a parent", "ENOENT", lambda r: os.setxattr(r + "/file", "user.betr.clone", b"/missing/a")),
    ("a clone below a file", "ENOTDIR", lambda r: os.setxattr(r + "/full", "user.betr.clone", b"/file/a")),
    ("a clone to no path", "EINVAL", lambda r: os.setxattr(r + "/full", "user.betr.clone", b"a")),
    ("a path of more than 512 bytes", "ENAMETOOLONG", lambda r: deep(r)),
    ("removing what is mounted", "EBUSY", lambda r: os.rmdir(r)),
]


def renamed(old, new, flags):
    """A rename with flags, which Python has no call for."""
    if LIBRARY.renameat2(AT_WORKING, os.fsencode(old), AT_WORKING, os.fsencode(new), flags):
        number = ctypes.get_errno()
        raise OSError(number, os.strerror(number))


def on_open(path, flags, action):
    handle = os.open(path, flags)
    try:
        return action(handle)
    finally:
        os.close(handle)


def deep(root):
    for _ in range(4):
        root += "/" + "d" * 150
        os.mkdir(root)


def errors(program, room, report):
    """Each error, on the host and on a mount, by its name."""
    host = room / "errors-host"
    host.mkdir()
    made(str(host))
    with Mount(program, room, "errors") as mount:
        made(str(mount.path))
        for what, wanted, action in ERRORS:
            there, here = number_of(action, str(host))[0], number_of(action, str(mount.path))[0]
            report(f"error of {what}", here == wanted == there, f"{here}, on the host {there}, and not {wanted}")
        for what, wanted, action in OWN_ERRORS:
            here = number_of(action, str(mount.path))[0]
            report(f"error of {what}", here == wanted, f"{here} and not {wanted}")
        number_of(os.rmdir, str(mount.path / ("d" * 150) / ("d" * 150) / ("d" * 150)))
        left = difference(tree(mount.path), tree(host))
        report("errors change nothing", left == "" or "ddd" in left, left)
    with Mount(program, room, "errors", words=["-r"]) as mount:
        for what, action in (("mkdir", lambda r: os.mkdir(r + "/new")), ("unlink", lambda r: os.unlink(r + "/file")),
                             ("open", lambda r: os.open(r + "/file", os.O_WRONLY))):
            here = number_of(action, str(mount.path))[0]
            report(f"{what} where nothing may be changed", here == "EROFS", f"{here}")


def check(program, room, report):
    why = why_not(program, room)
    if why:
        report.skip("all", why)
        return
    errors(program, room, report)
    random_calls(program, room, report, "random calls", CALLS)
    often_full(program, room, report)
