"""`load` and `unload`: a path of an image becomes equal to what the host has, and comes back as it was, whatever stood
there before; what an image can't hold is told."""
import contextlib
import functools
import importlib.machinery
import importlib.util
import io
import os
import random
import shutil
import signal
import socket
import stat
import subprocess
import sys
import time

from calling import TOOLS, Ended, call, cause, is_slow, new_image, script, tool
from session import finished

NAMES = [b"a", b"b", b"c d", b"%20", b"e%", b"\x01\x7f\n", b"\xff\xfe", b"+", b"-r", b"n" * 200]
MODES = [0, 0o644, 0o755, 0o4711, 0o1777, 0o7777]


def state(path):
    """What a path of the host is: its kind, mode, time and bytes, or a link's target."""
    found = os.lstat(path)
    if stat.S_ISLNK(found.st_mode):
        return "link", found.st_mtime_ns, os.readlink(path)
    if stat.S_ISDIR(found.st_mode):
        return "directory", found.st_mtime_ns, oct(found.st_mode)
    with open(path, "rb") as file:
        return "file", found.st_mtime_ns, oct(found.st_mode), file.read()


def tree(top):
    """All paths below a directory, and what each is."""
    top, found = os.fsencode(top), {b".": state(top)}
    for base, directories, files in os.walk(top):
        for name in directories + files:
            path = os.path.join(base, name)
            found[os.path.relpath(path, top)] = state(path)
    return found


def differences(one, other):
    """The paths that differ between two trees, and how the first of them does."""
    paths = sorted(path for path in one.keys() | other.keys() if one.get(path) != other.get(path))
    return f"{paths[:5]}: {one.get(paths[0])!r:.200} and {other.get(paths[0])!r:.200}" if paths else ""


def remove(path):
    if os.path.isdir(path) and not os.path.islink(path):
        shutil.rmtree(path)
    elif os.path.lexists(path):
        os.unlink(path)


@functools.cache
def module(name):
    """A tool as a module."""
    loader = importlib.machinery.SourceFileLoader(f"tool_{name}", str(TOOLS / name))
    made = importlib.util.module_from_spec(importlib.util.spec_from_loader(loader.name, loader))
    loader.exec_module(made)
    return made


def called(name, *words):
    """A tool that is called in this process, since a new one for each call takes longer than all else here."""
    out, err, before = io.StringIO(), io.StringIO(), sys.argv
    sys.argv = [name, *map(os.fsdecode, words)]
    try:
        with contextlib.redirect_stdout(out), contextlib.redirect_stderr(err):
            status = finished(name, module(name).main)
    except SystemExit as end:
        status = end.code
    finally:
        sys.argv = before
    return Ended(status, out.getvalue(), err.getvalue())


class Bench:
    """An image, and what is loaded into it and unloaded again."""

    def __init__(self, program, room, report, slots=4_096):
        self.program, self.room, self.report = program, room, report
        room.mkdir(exist_ok=True)
        self.image, self.count = new_image(program, room / "image", slots), 0

    def load(self, *words):
        return called("load", "--program", self.program, *words[:-2], self.image, *words[-2:])

    def unload(self, path, new=None):
        """What comes back of a path, in a folder of its own."""
        self.count += 1
        new = new or self.room / f"out{self.count}"
        return called("unload", "--program", self.program, self.image, path, new), new

    def lines(self, *lines):
        return script(self.program, self.image, lines)

    def ended(self, name, ended, status, out=None):
        """Whether a call ended with a status, and printed this, and nothing else where nothing is wrong."""
        right = ended.status == status and (out is None or ended.out == out) and (status != 0 or not ended.err)
        self.report(name, right, str(ended))

    def refused(self, name, ended, status, wanted, tool_name="load"):
        """Whether a call told why it did nothing, in one line."""
        why = cause(ended, tool_name)
        if not why and (ended.status != status or wanted not in ended.err):
            why = f"not status {status} and {wanted!r}: {ended}"
        self.report(name, not why, why or "")

    def comes_back(self, name, source, path):
        ended, new = self.unload(path)
        why = str(ended) if ended.status else differences(tree(source), tree(new))
        self.report(name, not why, why)
        return new


def again(bench):
    """A file that is loaded over another one has no byte of it."""
    file = bench.room / "file"
    for number, data in enumerate([b"A" * 10, b"BB", b"C" * 9_000, bytes(9_000), b"D" + bytes(8_999), bytes(20_000),
                                   b"E" * 4_097, bytes(2_048) + b"F", b"", b"G" * 2_049, b"G" * 2_048 + b"H"]):
        file.write_bytes(data)
        first, second = bench.load(file, "/file"), bench.load(file, "/file")
        bench.ended(f"again {number}", first, 0, "1 file or directory, 1 written, 0 removed\n")
        bench.ended(f"again {number}, once more", second, 0, "1 file or directory, 0 written, 0 removed\n")
        _, new = bench.unload("/file")
        bench.report(f"again {number}: its bytes", new.read_bytes() == data, f"{new.read_bytes()[:50]!r}")


def make(path, kind):
    """Makes what is of a kind at a path, in place of what is there."""
    remove(path)
    if kind == "directory":
        (path / "inner").mkdir(parents=True)
        (path / "inner" / "file").write_text("inner")
    elif kind == "link":
        path.symlink_to("inner/file")
    else:
        path.write_bytes(b"inner/file" if kind == "file" else b"")


def kinds(bench):
    """Each kind in place of each other, at a path and below one."""
    top = bench.room / "kinds"
    top.mkdir()
    every = ("file", "directory", "link", "empty")
    for old, new in ((old, new) for old in every for new in every if old != new):
        make(top / "it", old)
        bench.ended(f"kinds: {old}", bench.load(top, "/kinds"), 0)
        make(top / "it", new)
        bench.ended(f"kinds: {new} for {old}", bench.load(top, "/kinds"), 0)
        bench.comes_back(f"kinds: {new} for {old}, back", top, "/kinds")
    bench.lines("create /place", "write /place 0 00ff")
    bench.ended("kinds: a directory for a file at PATH", bench.load(top, "/place"), 0)
    bench.comes_back("kinds: a directory for a file at PATH, back", top, "/place")


def removals(bench):
    """What isn't there any more is removed, but for --keep and without PATH."""
    top = bench.room / "removals"
    make(top / "gone", "directory")
    make(top / "stays", "file")
    bench.load(top, "/removals")
    remove(top / "gone")
    make(top / "new", "file")
    bench.ended("kept", bench.load("--keep", top, "/removals"), 0, "3 files and directories, 1 written, 0 removed\n")
    found = bench.lines("list /removals", "stat /removals/gone/inner/file")
    bench.report("kept: names", found == ["ok .betr-times gone/ new stays", "ok file 5 0644"], str(found))
    bench.ended("removed", bench.load(top, "/removals"), 0, "3 files and directories, 0 written, 1 removed\n")
    bench.comes_back("removed, back", top, "/removals")
    make(top / "new", "directory")
    bench.lines("create /apart", "mkdir /new", "create /new/apart")
    ended = tool("load", "--program", bench.program, bench.image, top, folder=bench.room)
    bench.ended("without PATH", ended, 0, "4 files and directories, 4 written, 0 removed\n")
    found = bench.lines("stat /apart", "stat /new/apart", "stat /new/inner/file", "stat /")
    bench.report("without PATH: names", found == ["ok file 0 0000"] * 2 + ["ok file 5 0644", "ok dir 0000"], str(found))


def quick(bench):
    """--quick goes by length and time."""
    top = bench.room / "quick"
    make(top / "file", "directory")
    file = top / "file" / "inner" / "file"
    bench.load(top, "/quick")
    before = os.stat(file).st_mtime_ns
    file.write_text("INNER")
    os.utime(file, ns=(before, before))
    told = "4 files and directories, {} written, 0 removed\n".format
    bench.ended("quick, alike", bench.load("--quick", top, "/quick"), 0, told(0))
    bench.ended("not quick", bench.load(top, "/quick"), 0, told(1))
    file.write_text("inner")
    os.utime(file, ns=(before, before + 1))
    bench.ended("quick, later", bench.load("--quick", top, "/quick"), 0, told(1))
    bench.comes_back("quick, back", top, "/quick")


def holes(bench):
    """Runs of zeros aren't written, neither in the image nor on the host."""
    file = bench.room / "holes"
    with open(file, "wb") as into:
        into.seek(2_000_000)
        into.write(b"in the middle")
        into.truncate(3_000_001)
    bench.ended("holes", bench.load(file, "/holes"), 0)
    ended, new = bench.unload("/holes")
    found = os.stat(new)
    right = ended.status == 0 and found.st_blocks <= 64 and new.read_bytes() == file.read_bytes()
    bench.report("holes, back", right, f"{found.st_size} bytes in {found.st_blocks} blocks, {ended}")
    before, free = os.stat(bench.image).st_blocks, bench.lines("checkpoint", "df")[-1]
    bench.report("holes in the image", before < 20_000, f"{before} blocks of the image, {free}")


def links(bench):
    """A tree with 31 links, modes and times comes back as it was, also from a clone, by the words of the host."""
    top = bench.room / "links"
    for number in range(6):
        (top / f"part {number}" / "deep").mkdir(parents=True)
        for target in (".", "../x", "no/where", "/tmp", "%20 and more"):
            (top / f"part {number}" / f"to {target.replace('/', '_')}").symlink_to(target)
        (top / f"part {number}" / "file").write_text("a file\n" * number * 500)
    (top / "long").symlink_to("a long target/" * 250)
    for number, path in enumerate(sorted(top.rglob("*"))):
        moment = (number * 1_234_567_891 - 10**9) * 1_000_000_007 % (4 * 10**18) - 10**18
        if not path.is_symlink():
            path.chmod(MODES[number % 6] | (0o700 if path.is_dir() else 0))
        os.utime(path, ns=(moment, moment), follow_symlinks=False)
    bench.ended("links", bench.load(top, "/links"), 0, "50 files and directories, 50 written, 0 removed\n")
    bench.lines("clone /links /clone", "clone /links/part%200 /part")
    new = bench.comes_back("links, back", top, "/links")
    bench.comes_back("links, from a clone", top, "/clone")
    bench.comes_back("links, from a clone of a part", top / "part 0", "/part")
    for words in ("find . -printf '%m %T@ %l %p\\n' | LC_ALL=C sort", "ls -lR --time-style=full-iso | grep -v ^total"):
        one, other = (call(["bash", "-c", words], folder=it) for it in (top, new))
        bench.report(f"links: {words}", one.out == other.out and one.status == 0, f"{one} and {other}")
    found = call(["diff", "-r", "--no-dereference", top, new])
    bench.report("links: diff -r", found.status == 0, str(found))


def building(bench):
    """`make` in what comes back of a clone knows what is new."""
    if not shutil.which("make"):
        bench.report.skip("make in a clone", "make isn't here")
        return
    top = bench.room / "building"
    top.mkdir()
    (top / "Makefile").write_text("out: in\n\tcp in out\n")
    (top / "in").write_text("in\n")
    moment = time.time_ns() - 10**12
    os.utime(top / "in", ns=(moment, moment))
    call(["make"], folder=top)
    bench.load(top, "/building")
    bench.lines("clone /building /copy")
    _, new = bench.unload("/copy")
    bench.report("make in a clone", call(["make", "-q"], folder=new).status == 0)
    os.utime(new / "in")
    bench.report("make in a clone, with a newer file", call(["make", "-q"], folder=new).status == 1)


def odd_names(bench):
    """Names that an image can't have are escaped, and those of the tools left out."""
    top = os.fsencode(bench.room / "odd")
    os.mkdir(top)
    for number, name in enumerate(NAMES + [bytes([byte]) * 3 for byte in range(1, 256) if byte != 0x2F]):
        path = os.path.join(top, name)
        if os.path.lexists(path) or name == b"...":
            continue
        if number % 3:
            os.mkdir(path)
        else:
            with open(path, "wb") as file:
                file.write(name)
    bench.ended("odd names", bench.load(top, "/odd names"), 0)
    bench.comes_back("odd names, back", top, "/odd%20names")
    found = bench.lines("stat /odd%20names/%20%20%20", "stat /odd%20names/%25%25%25", "stat /odd%20names/e%25")
    bench.report("odd names in the image", all(it.startswith("ok ") for it in found), str(found))
    names = ("100%", "a%41", "x%25y", "x%y")
    bench.lines("mkdir /by", "mkdir /by/a%2f", *[f"create /by/{name}" for name in names])
    ended, new = bench.unload("/by")
    names = sorted(os.listdir(new))
    bench.report("names by lines", names == ["100%", "a%2f", "a%41", "x%y"], str(names))
    bench.report("names by lines: two that are one", ended.status == 1 and len(ended.err.splitlines()) == 1, str(ended))


def left_out(bench):
    """What an image can't hold is told, a line each, and the others are taken."""
    top = bench.room / "left"
    top.mkdir()
    (top / "file").write_text("a file")
    (top / ".betr-times").write_text("the tools' own")
    (top / ("m" * 254 + " ")).write_text("a name that is too long once it is escaped")
    deep = top / ("d" * 250) / ("e" * 250)
    deep.mkdir(parents=True)
    (deep / "a long path").write_text("x")
    os.mkfifo(top / "pipe")
    here = os.getcwd()
    os.chdir(top)
    with socket.socket(socket.AF_UNIX) as made:
        made.bind("socket")
    os.chdir(here)
    with open(top / "large", "wb") as file:
        file.truncate((1 << 30) + 1)
    (top / "7000").write_text("x")
    (top / "7000").chmod(0o7000)
    if os.geteuid() == 0:
        os.mknod(top / "device", stat.S_IFCHR | 0o600, os.makedev(1, 3))
    ended = bench.load(top, "/left")
    told = sorted(line.rpartition(": ")[2] for line in ended.err.splitlines())
    wanted = ["a name of more than 255 bytes", "a name that the tools keep for themselves", "a pipe", "a socket",
              "a path of more than 512 bytes", "more than 2^30 bytes", "no path for a file of its times",
              "the mode 7000, which is that of links, is made 0000"] + ["a device"] * (os.geteuid() == 0)
    bench.report("left out", told == sorted(wanted), f"{told}")
    count = f"written, 0 removed, {len(wanted)} left out\n"
    bench.ended("left out: status", ended, 1, f"5 files and directories, 5 {count}")
    bench.ended("left out, once more", bench.load(top, "/left"), 1, f"5 files and directories, 0 {count}")
    _, new = bench.unload("/left")
    bench.report("left out: the others", (new / "file").read_text() == "a file" and len(os.listdir(new)) == 3)


def long_paths(bench):
    """What a rename has made of paths of more than 512 bytes is told, and the others come back."""
    inner = "/" + "i" * 200
    bench.lines("mkdir /far", "mkdir /far/off", f"mkdir /far/off{inner}", f"create /far/off{inner}{inner}",
                "mkdir /" + "o" * 200, f"rename /far /{'o' * 200}/far")
    ended, new = bench.unload("/" + "o" * 200)
    bench.refused("a long path", ended, 1, "a path of more than 512 bytes", "unload")
    bench.report("a long path: the others", (new / "far" / "off" / ("i" * 200)).is_dir())


def single(bench):
    """A single file, by its path or into a directory; its time, its mode and what a link leads to."""
    file, link = bench.room / "single", bench.room / "link"
    file.write_text("a single file")
    file.chmod(0o640)
    os.utime(file, ns=(5, 5))
    link.symlink_to("single")
    bench.lines("mkdir /in", "mkdir /in/single", "mkdir /at")
    bench.ended("a file into a directory", bench.load(file, "/at"), 0)
    bench.ended("a file at a path", bench.load(file, "/at/other"), 0)
    bench.ended("what a link leads to", bench.load(link, "/at/"), 0)
    ended = tool("load", "--program", bench.program, bench.image, file, folder=bench.room)
    bench.ended("a file without PATH", ended, 0)
    for path in ("/at/single", "/at/other", "/at/link", "/single"):
        ended, new = bench.unload(path)
        bench.report(f"a file, back from {path}", state(new) == state(file), f"{ended} {state(new)}")
    bench.refused("a file over a directory", bench.load(file, "/in"), 1, "a directory of the image")
    bench.load(bench.room / "kinds", "/linked")
    ended, new = bench.unload("/linked/it")
    bench.ended("one of a directory, back", ended, 0)


def causes(bench):
    """What can't be done is told in one line, and nothing is changed."""
    file = bench.room / "single"
    missing = ": no such directory in the image (--parents makes it)"
    bench.refused("no parent", bench.load(file, "/no/where/file"), 1, "/no/where" + missing)
    bench.refused("no parent of a directory", bench.load(bench.room / "kinds", "/no/where"), 1, "/no" + missing)
    bench.refused("a parent that is a file", bench.load(file, "/single/file"), 1, "/single: no directory")
    bench.refused("no source", bench.load(bench.room / "missing", "/x"), 1, "missing: no such file or directory")
    bench.refused("a source that is a device", bench.load("/dev/null", "/x"), 1, "a device")
    for path in ("x", "/../x", "/a/./b", "/a//b", "", "/.betr-x/y", "/" + "x" * 256):
        bench.refused(f"a path {path:.20}", bench.load(file, path), 2, "is no path of an image")
    bench.refused("unload: not there", bench.unload("/missing")[0], 1, "/missing: not found in the image", "unload")
    ended, _ = bench.unload("/single", bench.room)
    bench.refused("unload: there already", ended, 1, "is there already", "unload")
    ended, _ = bench.unload("/single", bench.room / "missing" / "x")
    bench.refused("unload: no folder", ended, 1, "no such file or directory", "unload")
    bench.ended("parents", bench.load("--parents", file, "/made/where/file"), 0)
    bench.ended("parents that are there", bench.load("--parents", bench.room / "kinds", "/made/where/kinds"), 0)
    found = bench.lines("list /made", "list /made/where")
    bench.report("parents: names", found == ["ok where/", "ok .betr-times file kinds/"], str(found))


def faults(bench):
    """The program's status and its last line, or the system's reason."""
    cases = (("a text", b"no image\n" * 99_999, 4, "fault damaged "), ("nothing", None, 3, "no such file"))
    for kind, data, status, wanted in cases:
        image = bench.room / kind
        if data is not None:
            image.write_bytes(data)
        for name, words in (("load", (bench.room / "kinds", "/x")), ("unload", ("/", bench.room / "x"))):
            ended = tool(name, "--program", bench.program, image, *words, folder=bench.room)
            bench.refused(f"{name}: {kind} for an image", ended, status, wanted, name)
            bench.report(f"{name}: {kind} stays", image.exists() == (data is not None))


def full(program, room, report):
    """A full image is told, has what was loaded before, and takes more where a `reclaim` makes room."""
    bench = Bench(program, room, report, 200)
    (room / "large").write_bytes(random.Random(3).randbytes(5_000_000))
    (room / "half").write_bytes(random.Random(4).randbytes(900_000))
    bench.ended("half of an image", bench.load(room / "half", "/half"), 0)
    bench.refused("a full image", bench.load(room / "large", "/large"), 1, "slots are free and")
    bench.report("a full image: what was there", bench.unload("/half")[1].read_bytes() == (room / "half").read_bytes())
    bench.lines("remove /large", "remove /half")
    bench.ended("a full image, reclaimed", bench.load(room / "half", "/again"), 0)


def interrupted(bench):
    """A load that the user ends keeps what it has done, and the next one goes on."""
    top, slow, begun = bench.room / "interrupted", bench.room / "slow", bench.room / "begun"
    make(top, "directory")
    slow.write_text(f"#!/bin/bash\nwhile IFS= read -r line; do echo \"$line\"; touch '{begun}'; sleep 1; done"
                    f" | '{bench.program}' \"$@\"\n")
    slow.chmod(0o755)
    words = [sys.executable, TOOLS / "load", "--program", slow, bench.image, top, "/interrupted"]
    with subprocess.Popen(words, stdout=subprocess.PIPE, stderr=subprocess.PIPE, text=True) as process:
        while not begun.exists() and process.poll() is None:
            time.sleep(0.05)
        process.send_signal(signal.SIGINT)
        out, err = process.communicate()
    bench.report("interrupted", (process.returncode, out, err) == (130, "", "load: interrupted\n"), f"{out!r} {err!r}")
    bench.ended("interrupted, and then again", bench.load(top, "/interrupted"), 0)
    bench.comes_back("interrupted, back", top, "/interrupted")


def large(bench):
    """More than a script may have goes to one run after another."""
    file = bench.room / "large"
    file.write_bytes(random.Random(5).randbytes(1_000_000 if is_slow(bench.program) else 10_000_000))
    bench.ended("a large file", bench.load(file, "/large"), 0)
    ended = bench.load(file, "/large")
    bench.ended("a large file, once more", ended, 0, "1 file or directory, 0 written, 0 removed\n")
    ended, new = bench.unload("/large")
    bench.report("a large file, back", new.read_bytes() == file.read_bytes(), str(ended))


class Changes:
    """Random changes of a tree of the host."""

    def __init__(self, top, seed):
        self.top, self.draws = os.fsencode(top), random.Random(seed)
        os.mkdir(self.top)

    def data(self):
        draws = self.draws
        return draws.choice([b"", bytes(draws.randrange(20_000)), draws.randbytes(draws.randrange(9_000)),
                             b"x" * draws.choice([1, 2_047, 2_048, 2_049, 4_095, 4_096, 4_097, 8_192]),
                             bytes(draws.randrange(9_000)) + b"five!" + bytes(draws.randrange(9_000))])

    def time(self, path):
        if self.draws.random() < 0.7:
            moment = self.draws.randrange(-(10**18), 2 * 10**18)
            os.utime(path, ns=(moment, moment), follow_symlinks=False)

    def edit(self, path):
        with open(path, "r+b") as file:
            size = file.seek(0, 2)
            file.seek(self.draws.randrange(size + 1))
            file.write(self.draws.choice([bytes(3_000), b"zz", self.draws.randbytes(50)]))
            if self.draws.random() < 0.5:
                file.truncate(self.draws.randrange(size + 3_000))

    def make(self, path):
        kind = self.draws.random()
        if kind < 0.3 and len(path) < len(self.top) + 200:
            os.mkdir(path)
        elif kind < 0.5:
            os.symlink(self.draws.choice([b"a", b"../x y", b"/tmp", b"q" * 1_000]), path)
        else:
            with open(path, "wb") as file:
                file.write(self.data())

    def once(self):
        path = os.path.join(self.draws.choice([base for base, _, _ in os.walk(self.top)]), self.draws.choice(NAMES))
        is_file, chance = os.path.isfile(path) and not os.path.islink(path), self.draws.random()
        if not os.path.lexists(path):
            self.make(path)
        elif is_file and chance < 0.5:
            self.edit(path)
        elif chance < 0.7 and not os.path.islink(path):
            os.chmod(path, self.draws.choice(MODES) | (0o700 if os.path.isdir(path) else 0))
        else:
            remove(path)
            if chance < 0.9:
                self.make(path)
        if os.path.lexists(path):
            self.time(path)


def changes(bench):
    """Random changes of a tree, loaded again after some of them each time."""
    for seed in range(1 if is_slow(bench.program) else 6):
        top, path = bench.room / f"changes{seed}", f"/changes{seed}"
        made = Changes(top, seed)
        for number in range(8):
            for _ in range(made.draws.randrange(1, 60)):
                made.once()
            bench.ended(f"changes {seed}, {number}", bench.load(top, path), 0)
            new = bench.comes_back(f"changes {seed}, {number}, back", top, path)
            shutil.rmtree(new)
        ended = bench.load(*["--quick"] * (seed % 2), top, path)
        bench.report(f"changes {seed}, once more", ", 0 written, 0 removed\n" in ended.out, str(ended))


def check(program, room, report):
    bench = Bench(program, room / "bench", report)
    for part in (again, kinds, removals, quick, holes, links, building, odd_names, left_out, long_paths, single, causes,
                 faults, interrupted, large, changes):
        part(bench)
    full(program, room / "full", report)
