"""What tools/btr does with the files of an image, a function a verb: it takes a session with the image and the words
that were given, prints what it found, and gives its status. Its docstring is what its `--help` prints."""
import os
import stat as modes
import subprocess
import sys
import threading
import time
from contextlib import contextmanager

import convention
import fuse
from mirrors import halves, has_mark, is_open
from nodes import SLOT
from session import (
    NOT_FOUND, WRONG_WORDS, Failed, Progress, Refused, batches, below, chosen, fault_of, named, names, read, reason, shown,
    stat, stats, write)
from trees import load, mkdir_parents, unload

# What a refusal says of a path, by its number.
REFUSALS = {
    1: "isn't there", 2: "is there already", 3: "the directory that it is to lie in isn't there",
    4: "is no directory", 5: "is a directory", 6: "can't be put into itself", 7: "can be neither removed nor moved",
    8: "would pass 2^30 bytes", 9: "is no path of at most 512 bytes", 10: "is no line"}
UNITS = "KMGT"
# The program's status where a check finds no tree, and what is wrong then, by the word that tells it.
NO_TREE = 10
WRONG = {
    "block": "no tree: block {} isn't what it has to be",
    "node": "no tree: the node {} isn't named as often as the table says, or the keys below it are none of a tree's",
    "limit": "more than {} keys: no more are looked at"}
# The attribute by which a mounted image is told to clone.
CLONE = b"user.betr.clone"


def out(text=b"", end=b"\n"):
    """Prints bytes as they are, and on a terminal only what can be shown."""
    text = text.encode() if isinstance(text, str) else text
    if sys.stdout.isatty():
        text = shown(text, sys.maxsize).encode()
    sys.stdout.buffer.write(text + end)


def tell(what, why):
    sys.stdout.flush()
    print(f"btr: {shown(os.fsencode(what), sys.maxsize)}: {why}", file=sys.stderr, flush=True)


def each(paths, work):
    """Does work for each path, and tells of each for which it is refused. The status is 1 where there is one."""
    status = 0
    for path in paths:
        try:
            status = work(path) or status
        except Refused as refused:
            tell(path, REFUSALS.get(refused.number, refused.name))
            status = 1
    return status


@contextmanager
def ticking(what):
    """Tells on a terminal how long something takes that can't tell how far it is."""
    progress, ended, begun = Progress(what), threading.Event(), time.monotonic()

    def tick():
        while not ended.wait(0.5):
            progress.tell(f"{time.monotonic() - begun:.0f} s")
    thread = threading.Thread(target=tick, daemon=True)
    thread.start()
    try:
        yield
    finally:
        ended.set()
        thread.join()
        progress.end()


def counted(count, one, more):
    return f"{count} {one if count == 1 else more}"


def sized(count, is_human):
    """A number of bytes, in few digits where that is asked."""
    if count < 0:
        return "-" + sized(-count, is_human)
    if not is_human or count < 1_024:
        return str(count)
    at = 0
    while count >= 1_024 and at < len(UNITS):
        count, at = count / 1_024, at + 1
    return (f"{count:.1f}" if count < 9.95 else f"{count:.0f}") + UNITS[at - 1]


def print_rows(rows):
    """Rows of texts, those of a column under each other at the right, and the last one of each row as it is."""
    widths = [max(map(len, column)) for column in zip(*[row[:-1] for row in rows])]
    for *cells, last in rows:
        out("".join(cell.rjust(width) + "  " for cell, width in zip(cells, widths)).encode() + os.fsencode(last))


def want(session, path):
    """What `stat` tells of a path, which has to be there."""
    found = stat(session, path)
    if found is None:
        raise Refused(b"stat " + path, NOT_FOUND, "not-found")
    return found


def name_of(path):
    return path.rsplit(b"/", 1)[1]


# ---- what is there

class Entry:
    """A name in a directory, with what `stat` tells of it, or None where its path is too long, and its time."""

    def __init__(self, path, name, found, time_):
        self.path, self.name, self.found, self.time = path, name, found, time_

    @property
    def is_dir(self):
        return self.found is not None and self.found.is_dir

    @property
    def is_link(self):
        return self.found is not None and convention.is_link(self.found)

    def shown(self, session):
        """Its name, a directory's with a slash and a link's with its target."""
        if self.is_link:
            return self.name + b" -> " + b"".join(read(session, self.path, min(self.found.size, 4_096)))
        return self.name + b"/" * self.is_dir

    def row(self, session, given):
        """The words of a long listing."""
        if self.found is None:
            return "?", "?", "", self.name
        kind = modes.S_IFDIR if self.is_dir else modes.S_IFLNK if self.is_link else modes.S_IFREG
        mode = 0o777 if self.is_link else convention.shown_mode(self.found, self.time is not None)
        size = "-" if self.is_dir else sized(self.found.size, given.human)
        return modes.filemode(kind | mode), size, when(self.time), self.shown(session)


def when(nanoseconds):
    """A time of the host, to the minute."""
    try:
        return "" if nanoseconds is None else time.strftime("%Y-%m-%d %H:%M", time.localtime(nanoseconds // 10**9))
    except (OverflowError, ValueError):
        return "?"


def entries(session, path, with_times=False, all_=False):
    """What a directory has, in the order of the names."""
    times = convention.times(session, path) or {} if with_times else {}
    found = (name.rstrip(b"/") for name in names(session, path))
    for batch in batches(name for name in found if all_ or not convention.is_own(name)):
        paths = [below(path, name) for name in batch]
        told = dict(zip([it for it in paths if len(it) <= 512], stats(session, [it for it in paths if len(it) <= 512])))
        for name, where in zip(batch, paths):
            yield Entry(where, name, told.get(where), times.get(name))


def ls(session, given):
    """usage: tools/btr ls [-lRah] IMAGE [PATH ..]

    Prints the names in directories of an image, or files, a line each, in the order of their bytes; without PATH those
    of `/`. A directory's name has a `/` at its end.

      -l  the mode, length and time of each before its name, and where a link leads after it
      -R  the directories below too
      -a  the tools' own files too, which keep the times
      -h  lengths as 1.5K and 3M
    """
    paths, begun = given.paths or [b"/"], []

    def one(path):
        found = want(session, path)
        if found.is_dir:
            return list_directory(session, given, path, begun, given.below or len(paths) > 1)
        times = convention.times(session, os.path.dirname(path)) or {} if given.long else {}
        print_entries(session, given, [Entry(path, path, found, times.get(name_of(path)))])
        begun.append(path)
        return 0
    return each(paths, one)


def print_entries(session, given, found):
    if given.long and found:
        print_rows([it.row(session, given) for it in found])
    for it in [] if given.long else found:
        out(it.name + b"/" * it.is_dir)


def list_directory(session, given, path, begun, has_head):
    """Lists a directory, and those below it where that is asked."""
    left, status = [path], 0
    while left:
        path = left.pop()
        if has_head:
            out(b"\n" * bool(begun) + path + b":")
        begun.append(path)
        inner = []
        for batch in batches(entries(session, path, given.long, given.all), 4_096):
            print_entries(session, given, batch)
            inner += [it.path for it in batch if it.is_dir]
            status = told_too_long(batch) or status
        left += reversed(inner) if given.below else []
    return status


def told_too_long(found):
    """Tells which paths no line can name. The status is 1 where there are any."""
    wrong = [it for it in found if it.found is None]
    for it in wrong:
        tell(it.path, REFUSALS[9])
    return int(bool(wrong))


def tree(session, given):
    """usage: tools/btr tree [-a] [-L DEPTH] IMAGE [PATH ..]

    Draws what is below directories of an image, at most DEPTH names deep, and counts it.

      -a  the tools' own files too
    """
    counts = [0, 0]

    def one(path):
        found = want(session, path)
        out(path)
        return draw(session, given, path, counts) if found.is_dir else 0
    status = each(given.paths or [b"/"], one)
    out()
    out(f"{counted(counts[0], 'directory', 'directories')}, {counted(counts[1], 'file', 'files')}")
    return status


def draw(session, given, path, counts):
    """Draws what is below a directory, from its first name on."""
    left, status = [("", list(entries(session, path, all_=given.all)), 0)], 0
    while left:
        front, found, at = left.pop()
        if at == len(found):
            continue
        left.append((front, found, at + 1))
        it, is_last = found[at], at + 1 == len(found)
        status = told_too_long([it]) or status
        out(front.encode() + ("└── " if is_last else "├── ").encode() + it.shown(session))
        counts[not it.is_dir] += 1
        if it.is_dir and (given.depth is None or len(left) < given.depth):
            left.append((front + ("    " if is_last else "│   "), list(entries(session, it.path, all_=given.all)), 0))
    return status


def cat(session, given):
    """usage: tools/btr cat IMAGE PATH ..

    Writes the bytes of files of an image, one after the other.
    """
    def one(path):
        for piece in read(session, path, want_file(session, path).size):
            sys.stdout.buffer.write(piece)
    return each(given.paths, one)


def want_file(session, path):
    found = want(session, path)
    if found.is_dir:
        raise Refused(b"read " + path, 5, "is-dir")
    return found


def df(session, given):
    """usage: tools/btr df [-h] IMAGE

    Prints how many bytes the slots of an image have, how many the last checkpoint has taken and left free, and how many
    slots these are.

      -h  bytes as 1.5K and 3M
    """
    [words] = session.do(b"df")
    free, all_ = int(words[1]), int(words[3])
    told = [("bytes", "taken", "free", "taken", "image")]
    told.append((*[sized(count * SLOT, given.human) for count in (all_, all_ - free, free)],
                 f"{100 * (all_ - free) / all_:.0f}%", os.fsencode(session.image)))
    told.append((*map(str, (all_, all_ - free, free)), "", b"slots"))
    print_rows(told)
    return 0


# ---- what is changed

def mkdir(session, given):
    """usage: tools/btr mkdir [-p] IMAGE PATH ..

    Makes directories in an image.

      -p  those above too, where they aren't there, and nothing where PATH is one
    """
    def one(path):
        if given.parents:
            mkdir_parents(session, path)
            found = stat(session, path)
            if found is not None and found.is_dir:
                return
        session.do(b"mkdir " + path)
    return each(given.paths, one)


def rm(session, given):
    """usage: tools/btr rm [-rf] IMAGE PATH ..

    Removes files of an image.

      -r  directories too, with all that is below them
      -f  says nothing of what isn't there
    """
    def one(path):
        found = stat(session, path)
        if found is None and given.force:
            return 0
        if found is not None and found.is_dir and not given.recursive:
            tell(path, "is a directory; -r removes it with all that is below it")
            return 1
        session.do(b"remove " + path)
        return 0
    return each(given.paths, one)


def target(session, a, b):
    """Where a path goes to: into a directory, by its name, where one is there."""
    found = stat(session, b)
    return below(b, name_of(a)) if found is not None and found.is_dir and a != b"/" else b


def cp(session, given):
    """usage: tools/btr cp IMAGE FROM TO
           tools/btr cp FROM TO

    Makes TO a copy of what is at FROM, with all that is below it, or puts the copy into TO, where that is a directory.
    It is a clone, which takes no longer for a directory of a million files than for one of ten. What is there already
    isn't replaced. Without IMAGE both are paths of the host, below a directory on which tools/mount has mounted an
    image.
    """
    return move(session, given, b"clone")


def cp_mounted(session, given):
    """A clone below a directory on which an image is mounted, from one path of the host to another one."""
    source, to = os.fsencode(os.path.realpath(session.image)), os.fsencode(given.to)
    if os.path.isdir(to):
        to = os.path.join(to, os.path.basename(source))
    to, top = os.path.join(os.path.realpath(os.path.dirname(to) or b"."), os.path.basename(to)), source
    while not os.path.ismount(top):
        top = os.path.dirname(top)
    if top not in fuse.mounts():
        raise Failed(f"{shown(source)}: no image is mounted there")
    if os.path.commonpath([top, to]) != top:
        raise Failed(f"{shown(to)}: lies elsewhere than {shown(source)}, whose image is mounted on {shown(top)}")
    os.setxattr(source, CLONE, b"/" + os.path.relpath(to, top))
    return 0


def mv(session, given):
    """usage: tools/btr mv IMAGE FROM TO

    Moves what is at FROM to TO, with all that is below it, or into TO, where that is a directory. A file takes the
    place of a file, and nothing else of what is there.
    """
    return move(session, given, b"rename")


def move(session, given, verb):
    def one(_):
        found = want(session, given.source)
        path = target(session, given.source, given.to)
        times = None if found.is_dir else convention.times(session, os.path.dirname(given.source))
        session.do(b"%s %s %s" % (verb, given.source, path))
        keep_time(session, (times or {}).get(name_of(given.source)), path)
        return 0
    try:
        return one(None)
    except Refused as refused:
        words = refused.line.split(b" ")
        tell(words[-1] if refused.number in (2, 3, 4) else words[1], REFUSALS.get(refused.number, refused.name))
        return 1


def keep_time(session, time_, path):
    """Puts the time of a file to those of the directory that it now lies in."""
    times = convention.times_path(os.path.dirname(path))
    if time_ is None or times is None:
        return
    found = stat(session, times)
    if found is None:
        session.do(b"create " + times)
    write(session, times, convention.time_line(name_of(path), time_), 0 if found is None else found.size)


def reclaim(session, given):
    """usage: tools/btr reclaim IMAGE

    Gives up what was removed from an image and still takes slots, and prints how many slots that gave back.
    """
    [before] = session.do(b"df")
    with ticking("reclaim"):
        session.do(b"reclaim")
    [now] = session.do(b"df")
    back = int(now[1]) - int(before[1])
    out(f"{counted(back, 'slot', 'slots')} of {now[3].decode()} given back, {now[1].decode()} are free")
    return 0


def called(session, *words):
    """A call of the program over the image that isn't a run: its status, and the last line that it wrote."""
    verb, *rest = words
    done = subprocess.run([chosen(session.program), verb, named(session.image), *rest], stdin=subprocess.DEVNULL,
                          stdout=subprocess.PIPE, check=False)
    return done.returncode, done.stdout.decode(errors="backslashreplace").strip("\n").split("\n")[-1]


def check(session, given):
    """usage: tools/btr check IMAGE

    Says whether an image has a tree: reads each node of its last checkpoint, and looks at how often each is named, at
    all keys, and at each command of the log. The image stays as it is. The status is 0 where it has one, 10 where it
    has none or more keys than are looked at, and else the program's.
    """
    with ticking("check"):
        status, said = called(session, "check")
    words = said.split(" ")
    if status == 0 and words[:2] == ["ok", "check"]:
        nodes, keys, count = (int(word) for word in words[3::2])
        out(f"a tree of {counted(nodes, 'node', 'nodes')} and {counted(keys, 'key', 'keys')}, "
            f"after {counted(count, 'command', 'commands')}")
        return 0
    if status == NO_TREE and words[:2] == ["no", "check"]:
        out(WRONG[words[2]].format(int(words[3])))
        return NO_TREE
    raise fault_of(session.image, status, said)


def new(session, given):
    """usage: tools/btr new IMAGE SLOTS

    Makes a new file an image of SLOTS slots of 65,536 bytes, 24 to 65,536 of them, or of so many bytes, as 64M or 1G,
    that holds `/` alone. With X+Y as IMAGE it makes both files, as a mirror. A file that is there stays as it is.
    """
    made = []
    try:
        for file in halves(session.image):
            os.close(os.open(file, os.O_CREAT | os.O_EXCL | os.O_WRONLY, 0o666))
            made.append(file)
        status, said = called(session, "format", str(given.slots))
        if status != 0:
            raise fault_of(session.image, status, said)
    except (OSError, Failed) as failure:
        for file in made:
            os.unlink(file)
        if isinstance(failure, FileExistsError):
            raise Failed(f"{failure.filename}: is there already, and is left as it is") from None
        raise
    return 0


def mark_of(file):
    """How the mark of a half is, or why that can't be told."""
    try:
        if not has_mark(os.path.getsize(file)):
            return "no half"
        return "open" if is_open(file) else "closed"
    except OSError as error:
        return reason(error)


def halves_of(session, given):
    """usage: tools/btr halves IMAGE

    Tells of each half of a mirror, IMAGE being X+Y, whether its mark is open: then it was used without the other one,
    which has less or is lost, and the next run of X+Y copies it. Nothing is written. The status is 0 where both are
    closed: the halves are equal but for what no sync kept. Else it is 1.
    """
    files = halves(session.image)
    if len(files) != 2:
        raise Failed(f"{session.image}: no two halves, as X+Y", WRONG_WORDS)
    marks = [mark_of(file) for file in files]
    print_rows([(mark, file) for mark, file in zip(marks, files)])
    return 0 if marks == ["closed", "closed"] else 1


# ---- in and out

FILES = ("file or directory", "files and directories")


def left_out(came):
    return f", {came.left_out} left out".encode() if came.left_out else b""


def put(session, given):
    """usage: tools/btr put [--keep] [--quick] [--parents] IMAGE SOURCE [PATH]

    Makes a path of an image equal to a file or a directory of the host, as tools/load does: what differs alone is
    written, and what isn't in the directory any more is removed. A file goes into PATH, where that is a directory, and
    so does what goes to a PATH that ends in `/`; without PATH it is the name of SOURCE in `/`.

      --keep     leaves what isn't in SOURCE any more
      --quick    takes a file whose length and time are those of the image's as the same
      --parents  makes the directories that PATH lies in, where they aren't there
    """
    source = os.fsencode(given.source)
    path, is_into = given.path or (b"/", True)
    if is_into:
        name = os.path.basename(os.path.realpath(source))
        path = below(path, convention.image_name(name))
        wrong = convention.why_no_name(name_of(path), path) if name else "no name for the image"
        if wrong:
            raise Failed(f"{shown(source)}: {wrong}")
    came = load(session, source, path, tell, given.keep, given.quick, given.parents)
    out(path + f": {counted(came.done, *FILES)}, {came.changed} written, {came.removed} removed".encode()
        + left_out(came))
    return 1 if came.left_out else 0


def get(session, given):
    """usage: tools/btr get IMAGE PATH [NEW]

    Makes a new file or directory of the host of what an image has at PATH, as tools/unload does. NEW is its name, or
    the directory into which it goes; without NEW it goes into this one.
    """
    new_ = os.fsencode(given.new or ".")
    if os.path.isdir(new_):
        name = convention.host_name(name_of(given.path)) or os.path.basename(os.fsencode(session.image)) + b".d"
        new_ = os.path.join(new_, name)
    came = unload(session, given.path, new_, tell)
    out(new_ + f": {counted(came.done, *FILES)}".encode() + left_out(came))
    return 1 if came.left_out else 0
