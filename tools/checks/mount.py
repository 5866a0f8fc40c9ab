"""An image mounted by tools/mount: how it is called and how it ends, files that are open while their names go, clones,
names and links and times, a full image, a fault, and programs that nobody here wrote: git, make and gcc, sqlite, tar,
rsync."""
import os
import random
import shutil
import signal
import sqlite3
import time
from pathlib import Path

from calling import call, cause, new_image, script, tool
from mounting import Mount, difference, number_of, tree, why_not

CLONE = "user.betr.clone"


def write(path, data):
    Path(path).write_bytes(data)


def read(path):
    return Path(path).read_bytes()


def written_well(path, data):
    """Writes a file so that it is durable."""
    with open(path, "wb") as file:
        file.write(data)
        file.flush()
        os.fsync(file.fileno())


def well(report, what, done):
    """Tells that a call ended with status 0. Whether it did."""
    report(what, done.status == 0, str(done))
    return done.status == 0


# ---- how it is called, and how it ends


def words(program, room, report):
    """Wrong words, and what can't be mounted, told in one line; a mount that stays behind, and its end."""
    image, folder, other = new_image(program, room / "words", 24), room / "words-mounted", room / "other"
    folder.mkdir()
    other.mkdir()
    write(room / "no-image", b"text" * 40_000)
    tried = [("no words", [], 2), ("one word", [image], 2), ("three words", [image, folder, folder], 2),
             ("an image that isn't there", [room / "missing", folder], None),
             ("no image", [room / "no-image", folder], None),
             ("a folder that isn't there", [image, room / "missing"], 1), ("a file as a folder", [image, image], 1),
             ("an unmount of what isn't mounted", ["-u", folder], 1)]
    for what, given, status in tried:
        for more in ([], ["-f"]):
            done = tool("mount", "--program", program, *more, *given)
            wrong = cause(done, "mount")
            report(f"{what} {more}", wrong is None and status in (None, done.status), wrong or str(done))
    done = tool("mount", "--program", program, image, folder)
    if well(report, "a mount stays behind", done):
        report("a mount says nothing", (done.out, done.err) == ("", ""), str(done))
        write(folder / "a", b"text")
        done = tool("mount", "--program", program, image, folder)
        report("a folder on which one is mounted", "is mounted there" in done.err and done.status == 1, str(done))
        done = tool("mount", "--program", program, image, other)
        report("an image that is locked", "is locked by another run" in done.err and done.status == 3, str(done))
        report("what is mounted is listed", f"{image} {folder}\n" in tool("mount", "-l").out)
        well(report, "an unmount", tool("mount", "-u", folder))
        report("nothing is mounted after it", not os.path.ismount(folder))
    report("what was written is in the image", script(program, image, ["read /a 0 9"]) == ["ok 74657874"])


def ends(program, room, report):
    """A mount that is told to end, one that is killed, and one that stays busy."""
    with Mount(program, room, "ends") as mount:
        write(mount.path / "a", b"one")
        mount.process.send_signal(signal.SIGTERM)
        report("a signal ends it well", mount.process.wait(30) == 0)
        report("a signal unmounts", not os.path.ismount(mount.path))
    with Mount(program, room, "ends") as mount:
        report("what was done before a signal is kept", read(mount.path / "a") == b"one")
        written_well(mount.path / "b", b"kept")
        write(mount.path / "c", b"perhaps")
        mount.kill()
    with Mount(program, room, "ends") as mount:
        report("what was synced before a kill of all is kept", read(mount.path / "b") == b"kept")
        write(mount.path / "d", b"given")
        time.sleep(0.3)
        mount.kill(with_program=False)
    dead(program, room, report)
    kept(program, room, report)
    with Mount(program, room, "ends") as mount:
        report("what the program has is kept where the mount is killed", read(mount.path / "d") == b"given")
        with open(mount.path / "d", "rb"):
            done = tool("mount", "-u", mount.path)
            report("what is in use isn't unmounted", cause(done, "mount") is None and "busy" in done.err, str(done))
        report("it is, once it isn't in use", mount.end() == (0, 0), mount.said)


def dead(program, room, report):
    """A folder that a mount has left, which was killed."""
    image, folder = new_image(program, room / "dead", 24), room / "dead-mounted"
    folder.mkdir()
    with Mount(program, room, "dead") as mount:
        mount.process.kill()
        mount.process.wait()
        mount.wait()
        done = tool("mount", "--program", program, image, folder)
        is_told = cause(done, "mount") is None and "not connected" in done.err
        report("what a killed mount left is told", is_told, str(done))
        well(report, "what a killed mount left is unmounted", tool("mount", "-u", folder))
    report("it isn't mounted any more", not os.path.ismount(folder))


def kept(program, room, report):
    """What was done before a fsync of a file or a directory is there after a mount that was killed."""
    for name in ("file", "."):
        with Mount(program, room, "kept") as mount:
            write(mount.path / "file", b"bytes of " + name.encode())
            os.mkdir(mount.path / f"before-{len(name)}")
            handle = os.open(mount.path / name, os.O_RDONLY)
            os.fsync(handle)
            os.close(handle)
            mount.process.kill()
            mount.process.wait()
            mount.wait()
            well(report, "what a killed mount left is unmounted", tool("mount", "-u", mount.path))
        with Mount(program, room, "kept") as mount:
            found = read(mount.path / "file"), os.path.isdir(mount.path / f"before-{len(name)}")
            report(f"a fsync of {name} keeps all before it", found == (b"bytes of " + name.encode(), True), f"{found}")


def faults(program, room, report):
    """A program that ends in the midst of it: all is refused, and the directory can be unmounted."""
    with Mount(program, room, "faults") as mount:
        write(mount.path / "a", b"one")
        for process in mount.runs():
            os.kill(process, signal.SIGKILL)
        here = number_of(lambda: written_well(mount.path / "b", b"two"))[0]
        report("a fault is told to who writes", here == "EIO", str(here))
        for what, action in (("statvfs", lambda: os.statvfs(mount.path)), ("mkdir", lambda: os.mkdir(mount.path / "d")),
                             ("listing", lambda: os.listdir(mount.path))):
            here = number_of(action)[0]
            report(f"after a fault {what} is refused", here == "EIO", str(here))
        status, _ = mount.end()
        report("a fault is told at the end", status != 0 and "refuses all" in mount.said, f"{status} {mount.said}")


# ---- files whose names go while they are open


def handles(program, room, report):
    with Mount(program, room, "handles") as mount:
        folder = mount.path / "d"
        folder.mkdir()
        for name in ("removed", "replaced", "other"):
            write(folder / name, name.encode() * 1_000)
        removed, replaced = os.open(folder / "removed", os.O_RDWR), os.open(folder / "replaced", os.O_RDONLY)
        os.unlink(folder / "removed")
        os.rename(folder / "other", folder / "replaced")
        report("what was removed is read on", os.pread(removed, 9_999, 0) == b"removed" * 1_000)
        report("what was replaced is read on", os.pread(replaced, 9_999, 0) == b"replaced" * 1_000)
        os.pwrite(removed, b"changed", 0)
        os.ftruncate(removed, 9)
        report("what was removed is written on", os.pread(removed, 99, 0) == b"changedre")
        report("it has no name", os.fstat(removed).st_nlink == 0)
        report("nothing else is seen of it", os.listdir(mount.path) == ["d"] and os.listdir(folder) == ["replaced"])
        write(folder / "removed", b"new")
        report("a new one of its name is another", os.pread(removed, 99, 0) == b"changedre")
        report("the new one is as it is", read(folder / "removed") == b"new")
        os.fsync(removed)
        mount.kill(with_program=False)
        for handle in (removed, replaced):
            number_of(os.close, handle)
    listed = script(program, mount.image, ["list /"])
    report("a kill leaves what was hidden", "ok .betr-open/ " in str(listed), str(listed))
    with Mount(program, room, "handles") as mount:
        report("the new names are there", read(mount.path / "d/replaced") == b"other" * 1_000)
    listed = script(program, mount.image, ["list /"])
    report("the next mount empties it", "ok" in str(listed) and ".betr-open" not in str(listed), str(listed))


def folders(program, room, report):
    """Large folders, read while they are changed, and renames over files and folders."""
    with Mount(program, room, "folders") as mount:
        folder = mount.path / "many"
        folder.mkdir()
        names = [f"file-{at:04}" for at in range(2_500)]
        for name in names:
            write(folder / name, b"")
        report("a large folder is listed whole", sorted(os.listdir(folder)) == names)
    with Mount(program, room, "folders") as mount:
        folder = mount.path / "many"
        report("it is after another mount", sorted(os.listdir(folder)) == names)
        seen = []
        with os.scandir(folder) as entries:
            for at, entry in enumerate(entries):
                seen.append(entry.name)
                os.unlink(entry.path)
        report("a folder is emptied while it is read", sorted(seen) == names and not os.listdir(folder), str(len(seen)))
        (mount.path / "empty").mkdir()
        os.rename(folder, mount.path / "empty")
        report("a folder takes the place of an empty one", os.listdir(mount.path) == ["empty"])


# ---- clones


def clones(program, room, report):
    with Mount(program, room, "clones") as mount:
        source = mount.path / "source"
        (source / "sub").mkdir(parents=True)
        for at in range(300):
            write(source / "sub" / f"f{at}", b"x" * at)
        write(source / "open", b"")
        report("a clone isn't there before", not (mount.path / "copy").exists() and not (source / "inner").exists())
        with open(source / "open", "wb") as file:
            file.write(b"just written")
            file.flush()
            os.setxattr(source, CLONE, b"/copy")
        wrong = difference(tree(source), tree(mount.path / "copy"))
        report("a clone has all that was written", not wrong, wrong)
        write(source / "sub/f7", b"changed")
        report("it stays as it was", read(mount.path / "copy/sub/f7") == b"x" * 7)
        os.setxattr(source / "sub/f9", CLONE, b"/source/f9 too")
        report("a file is cloned", read(source / "f9 too") == b"x" * 9)
        os.setxattr(source, CLONE, b"/source/inner")
        report("a clone into itself", sorted(os.listdir(source / "inner")) == ["f9 too", "open", "sub"])
        write(source / "large", os.urandom(3_000_000))
        for name in ("sub/f250", "large"):
            with open(source / name, "rb") as file, open(source / "copied", "wb") as to:
                os.copy_file_range(file.fileno(), to.fileno(), 1 << 30)
            report(f"a copy of {name} is the same", read(source / "copied") == read(source / name))
        before = tree(mount.path)
        removed = os.open(source / "large", os.O_RDONLY)
        os.unlink(source / "large")
        os.setxattr(mount.path, CLONE, b"/whole")
        os.close(removed)
        del before["source/large"]
        wrong = difference(before, tree(mount.path / "whole"))
        report("a clone of all that is mounted", not wrong, wrong)
        before = tree(mount.path)
    with Mount(program, room, "clones") as mount:
        wrong = difference(before, tree(mount.path))
        report("clones are there after another mount", not wrong, wrong)
    listed = script(program, mount.image, ["list /", "list /whole"])
    report("nothing that was hidden is left", ".betr-open" not in str(listed) and "whole/" in str(listed), str(listed))


# ---- names, links, modes and times


def some_tree(path):
    """A tree with all that the convention keeps, 31 links among it."""
    path.mkdir()
    for at, name in enumerate(["a", "two words", "100%", "%20", "new\nline", "t\tab", "\u00e4\u00f6", "-x", "n" * 200]):
        (path / name).mkdir() if at % 3 == 2 else write(path / name, os.urandom(at * 3_000))
    write(path / "hole", b"")
    os.truncate(path / "hole", 200_000)
    for at in range(31):
        os.symlink(["a", "../x", "/no where", "missing", "100%"][at % 5], path / "100%" / f"link{at}")
    for at, mode in enumerate((0o000, 0o644, 0o4755, 0o1777, 0o2755, 0o400)):
        write(path / "100%" / f"mode{at}", b"m")
        os.chmod(path / "100%" / f"mode{at}", mode)
    for at, (where, kinds, files) in enumerate(os.walk(path, topdown=False)):
        for inner, name in enumerate(kinds + files):
            os.utime(os.path.join(where, name), ns=(0, 10**18 + inner * 1_234_567_891), follow_symlinks=False)
    os.utime(path, ns=(0, -5))


def listing(path):
    """What `find` tells of a tree, with modes, times and targets."""
    done = call(["find", ".", "-printf", r"%m %T@ %l %p\n"], folder=path)
    return sorted(done.out.splitlines())


def same(report, what, one, other):
    """Tells whether two trees are the same by what `find` tells."""
    differing = sorted(set(listing(one)) ^ set(listing(other)))
    report(what, not differing, str(differing)[:400])


def archive(program, room, report):
    """A tree by tar there and back, and by unload and load."""
    source, back = room / "tree", room / "back"
    some_tree(source)
    back.mkdir()
    well(report, "tar of a tree", call(["tar", "--format=posix", "-cf", room / "tree.tar", "-C", source, "."]))
    with Mount(program, room, "archive") as mount:
        inner = mount.path / "tree"
        inner.mkdir()
        well(report, "tar to a mount", call(["tar", "xpf", room / "tree.tar", "-C", inner]))
        same(report, "a tree comes as it was", inner, source)
    with Mount(program, room, "archive") as mount:
        inner = mount.path / "tree"
        same(report, "it is so after another mount", inner, source)
        well(report, "tar from a mount", call(["tar", "--format=posix", "-cf", room / "again.tar", "-C", inner, "."]))
    well(report, "tar to the host", call(["tar", "xpf", room / "again.tar", "-C", back]))
    same(report, "a tree comes back as it was", back, source)
    done = call(["diff", "-r", "--no-dereference", source, back])
    report("its bytes come back as they were", done.status == 0, str(done))
    done = tool("unload", "--program", program, mount.image, "/tree", room / "unloaded")
    well(report, "an unload of what was mounted", done)
    same(report, "an unload has the same", room / "unloaded", source)


def lines(program, room, report):
    """What lines have made, as a mount shows it."""
    image = new_image(program, room / "lines", 64)
    script(program, image, ["mkdir /d", "create /d/a", "write /d/a 5 6869", "create /d/b%20c", "create /d/100%",
                            "chmod /d/a 0600"])
    with Mount(program, room, "lines") as mount:
        report("names of lines", sorted(os.listdir(mount.path / "d")) == ["100%", "a", "b c"])
        report("bytes of lines", read(mount.path / "d/a") == b"\0\0\0\0\0hi")
        found = [oct(os.stat(mount.path / name).st_mode) for name in (".", "d", "d/a", "d/b c")]
        report("modes of lines", found == ["0o40755", "0o40755", "0o100600", "0o100644"], str(found))
        os.chmod(mount.path / "d/b c", 0)
        report("a mode of nothing", os.stat(mount.path / "d/b c").st_mode == 0o100000)
        write(mount.path / "d/new", b"new")
        with open(mount.path / "d/100%", "ab") as file:
            file.write(b"more")
    with Mount(program, room, "lines") as mount:
        report("a mode of nothing stays", os.stat(mount.path / "d/b c").st_mode == 0o100000)
        found = [oct(os.stat(mount.path / name).st_mode) for name in (".", "d", "d/a", "d/100%")]
        report("shown modes stay", found == ["0o40755", "0o40755", "0o100600", "0o100644"], str(found))


# ---- a full image


def full(program, room, report):
    with Mount(program, room, "full", 32) as mount:
        names, failed = [], None
        for at in range(200):
            failed = number_of(lambda: write(mount.path / f"f{at}", os.urandom(50_000)))[0]
            if failed:
                break
            names.append(f"f{at}")
        report("a full image is told", failed == "ENOSPC" and len(names) > 5, f"{failed} after {len(names)}")
        for name in names:
            report(f"{name} is whole on a full image", len(read(mount.path / name)) == 50_000)
        for name in names[::2]:
            os.unlink(mount.path / name)
        failed = [number_of(lambda: write(mount.path / "again", os.urandom(50_000)))[0] for _ in range(3)]
        report("there is room after files were removed", failed == [None] * 3, str(failed))
        kept = tree(mount.path)
        report("it ends well", mount.end() == (0, 0), mount.said)
    with Mount(program, room, "full") as mount:
        wrong = difference(kept, tree(mount.path))
        report("what a full image had is there", not wrong, wrong)


# ---- programs that nobody here wrote


def repository(path, run):
    """A repository of five commits on the host."""
    path.mkdir()
    run(path, "init", "-q")
    for at in range(5):
        for name in range(40):
            (path / f"d{name % 7}").mkdir(exist_ok=True)
            write(path / f"d{name % 7}/f{name}", f"{at} {name}\n".encode() * (name + 1) * 20)
        run(path, "add", "-A")
        run(path, "commit", "-qm", f"commit {at}")
    return path


def git(program, room, report):
    if not shutil.which("git"):
        report.skip("git", "there is no git")
        return
    environment = os.environ | {"GIT_CONFIG_NOSYSTEM": "1", "HOME": str(room)}
    for who in ("AUTHOR", "COMMITTER"):
        environment |= {f"GIT_{who}_NAME": "a", f"GIT_{who}_EMAIL": "a@b.c"}

    def run(folder, *given):
        return call(["git", *given], folder=folder, environment=environment)

    origin = repository(room / "origin", run)
    with Mount(program, room, "git") as mount:
        inner = mount.path / "cloned"
        if not well(report, "git clone", run(mount.path, "clone", "-q", origin, inner)):
            return
        well(report, "git fsck", run(inner, "fsck", "--strict"))
        write(inner / "new", b"new\n")
        well(report, "git add", run(inner, "add", "-A"))
        well(report, "git commit", run(inner, "commit", "-qm", "new"))
        well(report, "git gc", run(inner, "gc", "-q"))
        well(report, "git checkout", run(inner, "checkout", "-q", "HEAD~3"))
        well(report, "git checkout back", run(inner, "checkout", "-q", "-"))
        os.setxattr(inner, CLONE, b"/second")
        write(mount.path / "second/second", b"second\n")
        well(report, "git add in a clone", run(mount.path / "second", "add", "-A"))
        well(report, "git commit in a clone", run(mount.path / "second", "commit", "-qm", "second"))
        report("the other side stays", run(inner, "log", "-1", "--format=%s").out == "new\n")
    with Mount(program, room, "git") as mount:
        for name, last in (("cloned", "new\n"), ("second", "second\n")):
            well(report, f"git fsck of {name} after another mount", run(mount.path / name, "fsck", "--strict"))
            report(f"{name} is clean", run(mount.path / name, "status", "--porcelain").out == "")
            report(f"{name} has its commit", run(mount.path / name, "log", "-1", "--format=%s").out == last)


MAKEFILE = """OBJECTS = $(patsubst %.c,%.o,$(wildcard *.c))
program: $(OBJECTS)
\tgcc -o $@ $(OBJECTS)
%.o: %.c all.h
\tgcc -O1 -g -c -o $@ $<
\techo $@ >> made
"""


def sources(path, count=12):
    """A small program in C."""
    path.mkdir()
    write(path / "Makefile", MAKEFILE.encode())
    calls = [f"f{at}" for at in range(count)]
    write(path / "all.h", "".join(f"int {name}(int);\n" for name in calls).encode())
    for at, name in enumerate(calls):
        write(path / f"{name}.c", f'#include "all.h"\nint {name}(int a) {{ return a * {at} + 1; }}\n'.encode())
    write(path / "main.c", ('#include <stdio.h>\n#include "all.h"\nint main(void) { printf("%d\\n", '
                            + " + ".join(f"{name}(2)" for name in calls) + "); return 0; }\n").encode())


def build(program, room, report):
    """A build, and one in a clone, while the other side stays as it was."""
    if not shutil.which("make") or not shutil.which("gcc"):
        report.skip("a build", "there is no make or no gcc")
        return
    with Mount(program, room, "build") as mount:
        one, other = mount.path / "one", mount.path / "other"
        sources(one)
        well(report, "a build", call(["make", "-j4"], folder=one))
        report("what was built runs", call([one / "program"]).out == "144\n", str(call([one / "program"])))
        os.setxattr(one, CLONE, b"/other")
        before = tree(one)
        report("nothing is to be built in a clone", "up to date" in call(["make"], folder=other).out)
        os.unlink(other / "made")
        write(other / "f3.c", b'#include "all.h"\nint f3(int a) { return 1000; }\n')
        well(report, "a build in a clone", call(["make"], folder=other))
        report("it builds what is new alone", read(other / "made") == b"f3.o\n", str(read(other / "made")))
        report("it runs in the clone", call([other / "program"]).out == "1137\n", call([other / "program"]).out)
        wrong = difference(before, tree(one))
        report("the other side stays as it was", not wrong, wrong)
    with Mount(program, room, "build") as mount:
        for name in ("one", "other"):
            done = call(["make"], folder=mount.path / name)
            report(f"nothing is to be built in {name} after another mount", "up to date" in done.out, str(done))


def database(program, room, report):
    """SQLite with its journal and with its log, and what is left where all is killed."""
    for mode in ("delete", "wal"):
        with Mount(program, room, mode) as mount:
            kept = transactions(mount, mode, report)
            mount.kill()
        with Mount(program, room, mode) as mount:
            path = mount.path / "d.db"
            told = sqlite3.connect(path)
            found = told.execute("pragma integrity_check").fetchall()
            report(f"{mode}: the database is whole after a kill", found == [("ok",)], str(found))
            found = told.execute("select count(*) from t").fetchone()[0]
            report(f"{mode}: what was committed is there", found == kept, f"{found} and not {kept}")
            told.close()
            report(f"{mode}: it ends well", mount.end() == (0, 0), mount.said)


def transactions(mount, mode, report):
    """Makes transactions, the last one of which isn't committed. How many rows are committed."""
    base = sqlite3.connect(mount.path / "d.db", isolation_level=None)
    report(f"{mode}: the mode is taken", base.execute(f"pragma journal_mode={mode}").fetchone() == (mode,))
    base.execute("pragma synchronous=full")
    base.execute("create table t(a integer primary key, b blob)")
    for at in range(40):
        base.execute("begin")
        for row in range(25):
            base.execute("insert into t(b) values (randomblob(300))")
        base.execute("commit")
    base.execute("begin")
    for row in range(500):
        base.execute("insert into t(b) values (randomblob(3000))")
    time.sleep(0.2)
    return 40 * 25


def synchronized(program, room, report):
    """A tree by rsync there, once more after changes, and back."""
    if not shutil.which("rsync"):
        report.skip("rsync", "there is no rsync")
        return
    source = room / "synchronized-tree"
    some_tree(source)
    with Mount(program, room, "synchronized") as mount:
        inner = mount.path / "tree"
        well(report, "rsync to a mount", call(["rsync", "-a", f"{source}/", inner]))
        same(report, "rsync: a tree comes as it was", inner, source)
        os.unlink(source / "a")
        write(source / "100%" / "new", b"new")
        for folder in (source, source / "100%"):
            os.utime(folder, ns=(0, 10**18 + 77))  # It compares seconds alone.
        well(report, "rsync once more", call(["rsync", "-a", "--delete", f"{source}/", inner]))
        same(report, "rsync: a changed tree comes as it is", inner, source)
        well(report, "rsync back", call(["rsync", "-a", f"{inner}/", room / "synchronized-back"]))
        done = call(["diff", "-r", "--no-dereference", source, room / "synchronized-back"])
        report("rsync: a tree comes back", done.status == 0, str(done))


def random_writes(program, room, report):
    """Random writes and cuts of a large file, beside its bytes in memory, read back before and after another mount."""
    rng, kept = random.Random(2), bytearray()
    with Mount(program, room, "writes") as mount:
        with open(mount.path / "large", "w+b", buffering=0) as file:
            for at in range(1_500):
                place, size = rng.randrange(8_000_000), rng.choice([1, 512, 4_096, rng.randrange(200_000)])
                data = rng.randbytes(size) if at % 5 else bytes(size)
                kept += bytes(max(0, place - len(kept)))
                kept[place : place + size] = data
                os.pwrite(file.fileno(), data, place)
                if at % 100 == 99:
                    cut = rng.randrange(len(kept) * 3 // 4, len(kept))
                    del kept[cut:]
                    file.truncate(cut)
                    report(f"random writes: the file after {at + 1}", os.pread(file.fileno(), 9_000_000, 0) == kept)
    with Mount(program, room, "writes") as mount:
        report("random writes: the file after another mount", read(mount.path / "large") == kept)


SECTIONS = [words, ends, faults, handles, folders, clones, archive, synchronized, random_writes, lines, full, git,
            build, database]


def check(program, room, report):
    why = why_not(program, room)
    if why:
        report.skip("all", why)
        return
    for section in SECTIONS:
        section(program, room, report)
