"""What tools/btr finds in the nodes of an image, a function a verb, as in tools/verbs.py: what paths take, which ones
share nodes, and what differs between two of them. All of it is read from the image's last checkpoint."""
import time
from itertools import islice

import convention
from changes import changes
from mirrors import read_from
from nodes import SLOT, Damaged, Image, children, record_at
from session import Failed, Full, Progress, Refused, below, is_locked
from sharing import Sharing, Usage
from verbs import REFUSALS, counted, each, out, print_rows, sized, tell, ticking

# As often an image is read that changes while it is read.
MOST_READS = 5
# The status of a comparison that nothing came of, as that of wrong words: 1 says that something differs.
NOT_COMPARED = 2


def settle(session, read_only):
    """Makes a checkpoint of what waits in the log, or tells that it waits."""
    if session.process is None:
        with Image(session.image) as image:
            waiting, is_others = image.waiting, is_locked(image.file)
        if read_only:
            tell_waiting(session.image, waiting, is_others)
        if read_only or not waiting and not is_others:
            return
    try:
        with ticking("checkpoint"):
            session.do(b"checkpoint")
    except Full as full:
        raise Failed(f"{full}; --read-only looks at the last checkpoint") from None
    except Failed as failure:
        if failure.fault == "device":
            raise Failed(f"{failure}; --read-only looks at its last checkpoint", failure.status) from None
        raise


def tell_waiting(image, waiting, is_others):
    if waiting:
        tell(image, f"{counted(waiting, 'command that waits', 'commands that wait')} in the log: not looked at")
    if is_others:
        tell(image, "what another run has done since its last checkpoint: not looked at")


def looked(session, given, work):
    """What work finds in the nodes of an image's last checkpoint, where no other one is made meanwhile."""
    settle(session, given.read_only)
    progress = Progress("nodes looked at")
    damage = Failed(f"{session.image}: changes all the time")
    for _ in range(MOST_READS):
        try:
            with Image(session.image) as image:
                found = work(image, progress)
                progress.end()
                if image.is_last():
                    return found
        except Damaged as damaged:
            with open(read_from(session.image), "rb") as file:
                if not is_locked(file):
                    raise
            damage = damaged
        time.sleep(0.05)
    raise damage


def want(image, path):
    """The record of a path, which has to be there."""
    found = record_at(image, path)
    if found is None:
        raise Refused(b"stat " + path, 1, "not-found")
    return found


def paths_below(image, path, depth, given):
    """A path and those below it that are told, each with whether it is a directory's and after those above it."""
    found, left = [], [(path, want(image, path), depth)]
    while left:
        path, record, depth = left.pop()
        found.append((path, record.is_dir))
        if record.is_dir and depth:
            inner = [(below(path, name), it, depth - 1) for name, it in children(image, path)
                     if (it.is_dir or given.all) and not convention.is_own(name)]
            left += reversed(inner)
    return found


def du(session, given):
    """usage: tools/btr du [-ans] [-d DEPTH] [-h] [--read-only] IMAGE [PATH ..]

    Prints what directories of an image take, at most DEPTH names deep (1), and without PATH those of `/`:

      own     bytes of keys, values and what waits, which nothing else shares
      shared  bytes that others share, as clones do
      back    bytes of the slots that removing it gives back, as the program does it: with a `reclaim` after it, and
              beside what one before it gives back. With a `-` it takes slots, since what others share is copied for it,
              or what waits in nodes goes down with it. A node that has something of a neighbour isn't given back, nor
              one that what others share still names. On an image with few free slots a `reclaim` may do less. It is
              looked for at the 1,000 largest paths that are told, and `?` stands for the others
      path    `(reclaim)` stands for what a reclaim would give back now, and `(held)` for slots of nodes that no path
              asks, and that are kept since nodes that are asked name them

      -a  files too
      -n  two numbers more before the path: the nodes that it alone asks, and those that others ask too
      -s  no directories below
      -h  bytes as 1.5K and 3M
      --read-only  makes no checkpoint of what waits in the log before, and looks at the last one
    """
    depth = 0 if given.alone else 1 if given.depth is None else given.depth

    def one(path):
        usage = looked(session, given, lambda image, progress: Usage(
            image, paths_below(image, path, depth, given), progress))
        print_usage(usage, path, given)
    return each(given.paths or [b"/"], one)


def print_usage(usage, path, given):
    def row(own, shared, back, path, *nodes):
        return (own, shared, back, *(nodes if given.nodes else ()), path)

    told = [row("own", "shared", "back", "path", "nodes", "others")]
    for it in usage.labels.values():
        back = "?" if it.back is None else sized(it.back * SLOT, given.human)
        told.append(row(sized(it.own, given.human), sized(it.shared, given.human), back, it.path,
                        str(it.slots), str(it.joint)))
    if path == b"/" and usage.back:
        told.append(row("0", "0", sized(usage.back * SLOT, given.human), "(reclaim)", "0", "0"))
    if path == b"/" and usage.held:
        told.append(row(sized(usage.held * SLOT, given.human), "0", "0", "(held)", str(usage.held), "0"))
    print_rows(told)


def shares(session, given):
    """usage: tools/btr shares [-h] [--read-only] IMAGE [PATH]

    Prints which paths of an image share nodes, each pair with how many these are and the bytes of their slots, those
    first that share most. With PATH it is the pairs of which one is PATH or below it. Without it each node is told once
    for each path that asks it beside the first one, so that of three clones of one another two pairs are told.

      -h  bytes as 1.5K and 3M
      --read-only  makes no checkpoint of what waits in the log before, and looks at the last one
    """
    def found(image, progress):
        want(image, given.path or b"/")
        return Sharing(image, given.path, progress).pairs()
    try:
        pairs = looked(session, given, found)
    except Refused as refused:
        tell(given.path, REFUSALS[refused.number])
        return 1
    if pairs:
        first = max(len(it.first) for it in pairs)
        print_rows([("nodes", "bytes", b"paths")] + [
            (str(it.nodes), sized(it.bytes, given.human), it.first.ljust(first) + b"  " + it.second) for it in pairs])
    return 0


def diff(session, given):
    """usage: tools/btr diff [-qa] [--brief] [--read-only] IMAGE A B

    Prints what differs between two paths of an image, a line for each path below them: `added` where B alone has it,
    `removed` where A alone has it, and `changed` with what changed of it: its bytes, its mode, or its kind, which is
    that of a file or of a link. The paths are those below A and B, `.` is the two themselves, and a directory's has a
    `/` at its end. What both share is passed over, so that two clones are compared in the time of what differs.

      -a           the tools' own files too, which keep the times
      -q           prints nothing
      --brief      nothing of what is below a directory that is added or removed
      --read-only  makes no checkpoint of what waits in the log before, and looks at the last one

    The status is 0 where nothing differs, 1 where something does, and 2 where A or B isn't there.
    """
    def found(image, progress):
        for path in (given.source, given.to):
            want(image, path)
        return list(islice(told_changes(image, given, progress), 1 if given.quiet else None))
    try:
        lines = looked(session, given, found)
    except Refused as refused:
        tell(refused.line.split(b" ")[1], REFUSALS[refused.number])
        return NOT_COMPARED
    for line in [] if given.quiet else lines:
        out(line)
    return 1 if lines else 0


def told_changes(image, given, progress):
    """A line for each change."""
    for it in changes(image, given.source, given.to, given.brief, progress):
        path = it.path[1:] or b"."
        if not given.all and convention.is_own(path.rsplit(b"/", 1)[-1]):
            continue
        both = it.old is not None and it.new is not None
        what = ("kind",) if both and convention.is_link(it.old) != convention.is_link(it.new) else it.what
        is_dir = any(record is not None and record.is_dir for record in (it.old, it.new))
        shown = path + b"/" * (is_dir and path != b".")
        yield b" ".join([it.kind.encode(), shown] + [",".join(what).encode()] * bool(what))
