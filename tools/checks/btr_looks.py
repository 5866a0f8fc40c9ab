"""`btr du`, `shares` and `diff`, which read an image's nodes: beside Python's own comparison of two trees that were
unloaded, and beside what `df` tells after a removal and a `reclaim`."""
import os
import random
import stat
from pathlib import Path
from types import SimpleNamespace

import changes
from btr import Bench
from calling import is_slow
from nodes import PUT, SLOT, Image, Scan, key_of
from session import Session
from sharing import Sharing

SEEDS, ROUNDS, LINES = 3, 5, 400
FILES, CHANGED = 100_000, 10
KINDS = ["write"] * 6 + ["create", "mkdir", "remove", "rename", "clone", "truncate", "chmod", "zeros"]


# ---- diff

def made(rng, top, count):
    """Lines that make a tree of directories and files, each with a mode."""
    lines, directories = [f"mkdir {top}", f"chmod {top} 0755"], [top]
    for number in range(count):
        path = f"{rng.choice(directories)}/{rng.choice('abc')}{number}"
        if rng.random() < 0.15:
            lines += [f"mkdir {path}", f"chmod {path} 0755"]
            directories.append(path)
        else:
            lines += [f"create {path}", f"chmod {path} 0{rng.choice(['644', '755', '600'])}"] + written(rng, path)
    return lines


def written(rng, path):
    """Lines that write some bytes to a file, or none."""
    return [f"write {path} {rng.choice([0, 0, 5, 1_000, 3_000])} {rng.randbytes(rng.randrange(1, 900)).hex()}"
            for _ in range(rng.randrange(3))]


class Changer:
    """Lines that change what is below two tops, as far as it is known what is there."""

    def __init__(self, bench, rng):
        self.bench, self.rng, self.count = bench, rng, 0

    def paths(self, top):
        """All that is below a top, from what `btr ls -R` tells."""
        found, at = [], None
        for line in self.bench.call("ls", "-R", top).out.splitlines():
            if line.endswith(":"):
                at = line[:-1]
            elif line:
                found.append(f"{at}/{line}")
        return found

    def lines(self, tops, count):
        return [line for _ in range(count) for line in self.line(self.rng.choice(tops))]

    def line(self, top):
        rng, found = self.rng, self.known[top]
        self.count += 1
        new, path = f"{self.directory()}/n{self.count}", rng.choice(found).rstrip("/")
        kind = rng.choice(KINDS)
        if kind in ("rename", "clone"):
            return [f"{kind} {path} {new}"]
        if kind == "create":
            return [f"create {new}", f"chmod {new} 0644", *written(rng, new)]
        if kind == "mkdir":
            return [f"mkdir {new}", f"chmod {new} 0700"]
        if kind == "zeros":
            return [f"write {path} {rng.randrange(2_000)} {'00' * rng.randrange(1, 50)}"]
        more = {"write": f" {rng.randrange(3_000)} {rng.randbytes(rng.randrange(1, 60)).hex()}", "remove": "",
                "truncate": f" {rng.choice([0, 10, 1_500, 5_000])}", "chmod": f" 0{rng.choice(['640', '711'])}"}
        return [f"{kind} {path}{more[kind]}"]

    def directory(self):
        found = [path for paths in self.known.values() for path in paths if path.endswith("/")]
        return self.rng.choice(found + ["/a/", "/b/"]).rstrip("/")

    def round(self, count):
        """Lines for both sides, most of which are accepted."""
        self.known = {top: self.paths(top) for top in ("/a", "/b")}
        return self.lines(["/a", "/b"], count)


def state(path):
    """What a path of the host is: its mode, and its bytes where it is a file."""
    found = os.lstat(path)
    if stat.S_ISDIR(found.st_mode):
        return stat.S_IMODE(found.st_mode), None
    with open(path, "rb") as file:
        return stat.S_IMODE(found.st_mode), file.read()


def tree(top):
    """All that is below a directory of the host, by its path from there."""
    found = {".": state(top)}
    for base, directories, files in os.walk(top):
        for name in directories + files:
            found[os.path.relpath(os.path.join(base, name), top)] = state(os.path.join(base, name))
    return found


def compared(one, other):
    """What `btr diff` is to print of two trees, in any order."""
    lines = set()
    for path in one.keys() | other.keys():
        old, new = one.get(path), other.get(path)
        is_kept = old is not None and new is not None and (old[1] is None) == (new[1] is None)
        if is_kept:
            what = ["bytes"] * (old[1] != new[1]) + ["mode"] * (old[0] != new[0])
            lines |= {f"changed {shown(path, new)} {','.join(what)}"} if what else set()
            continue
        lines |= {f"removed {shown(path, old)}"} if old is not None else set()
        lines |= {f"added {shown(path, new)}"} if new is not None else set()
    return lines


def shown(path, it):
    return path + "/" * (it[1] is None and path != ".")


def unloaded(bench, path, name):
    """A tree of the image, as the host has it."""
    ended = bench.call("get", path, name)
    if ended.status != 0:
        raise RuntimeError(str(ended))
    found = tree(bench.room / name)
    bench.call("df")
    os.rename(bench.room / name, bench.room / f"old-{name}")
    return found


def random_changes(program, room, report, seed):
    """Two clones that are changed at random, on both sides and from one to the other."""
    rng, bench = random.Random(seed), Bench(program, room / f"diff{seed}", report)
    bench.lines(*made(rng, "/a", 250), "checkpoint", "clone /a /b")
    changer = Changer(bench, rng)
    for number in range(ROUNDS):
        more = [[], ["checkpoint"], ["reclaim"]][number % 3]
        replies = bench.lines(*changer.round(LINES), *more)
        accepted = sum(reply == "ok" for reply in replies)
        report(f"diff, seed {seed}: lines", accepted > LINES // 3, f"{accepted} of {len(replies)}")
        if number == ROUNDS - 1:
            bench.lines("checkpoint")
            told_sharing(bench, f"seed {seed}")
        a, b = unloaded(bench, "/a", f"a{number}"), unloaded(bench, "/b", f"b{number}")
        for one, other, left, right in [("/a", "/b", a, b), ("/b", "/a", b, a)]:
            ended = bench.call("diff", one, other)
            found, wanted = ended.out.splitlines(), compared(left, right)
            wrong = sorted(set(found) ^ wanted)
            right = not wrong and len(found) == len(wanted) and ended.status == 1
            why = f"{ended.status} {len(wanted)} {wrong[:5]}"
            report(f"diff {one} {other}, seed {seed}, round {number}", right, why)
            in_order(bench, found, one, other)


def in_order(bench, found, one, other):
    """The lines are in the order of the paths, and --brief leaves out what is below a directory of one side alone."""
    paths = [line.split(" ")[1] for line in found]
    keys = [path.rstrip("/").split("/") for path in paths if path != "."]
    bench.report("diff is in order", keys == sorted(keys, key=lambda names: [name.encode() for name in names]))
    lonely = {path for line, path in zip(found, paths) if not line.startswith("changed") and path.endswith("/")}
    brief = bench.call("diff", "--brief", one, other).out.splitlines()
    wanted = [line for line, path in zip(found, paths) if not any(path != it and path.startswith(it) for it in lonely)]
    bench.report("diff --brief", brief == wanted, f"{sorted(set(brief) ^ set(wanted))[:5]}")


def diff_cases(program, room, report):
    """Kinds, links, roots and what isn't there."""
    bench = Bench(program, room / "cases", report)
    bench.lines("mkdir /a", "create /a/f", "mkdir /a/k", "create /a/k/x", "create /a/l", "write /a/l 0 61",
                "clone /a /b")
    bench.prints("", "diff", "/a", "/b")
    bench.prints("", "diff", "/a", "/a")
    bench.lines("remove /b/k", "create /b/k", "chmod /b/l 7000", "chmod /b 0711", "write /b/f 3000 00",
                "create /b/.betr-times")
    told = ["changed . mode", "changed f bytes", "removed k/", "added k", "removed k/x", "changed l kind"]
    bench.prints("\n".join(told) + "\n", "diff", "/a", "/b", status=1)
    bench.prints("\n".join(told[:4] + told[5:]) + "\n", "diff", "--brief", "/a", "/b", status=1)
    bench.prints("\n".join(told[:1] + ["added .betr-times"] + told[1:]) + "\n", "diff", "-a", "/a", "/b", status=1)
    bench.prints("", "diff", "-q", "/a", "/b", status=1)
    bench.prints("changed . bytes\n", "diff", "/a/f", "/b/f", status=1)
    bench.prints("removed .\nadded .\nadded x\n", "diff", "/b/k", "/a/k", status=1)
    bench.prints("", "diff", "/a", "/no", status=2, why="btr: /no: isn't there\n")
    bench.lines("truncate /a/f 3001")
    found = bench.call("diff", "/a/f", "/b/f")
    report("zeros that are stored on one side alone are no difference", found.status == 0, str(found))


def large(program, room, report):
    """Two clones of a large tree with few changes are compared in the time of what differs: few nodes are read."""
    bench, files = Bench(program, room / "large", report, slots=16_384), 2_000 if is_slow(program) else FILES
    with Session(program, bench.image) as session:
        session.do(b"mkdir /a", *[b"mkdir /a/%03d" % top for top in range((files + 999) // 1_000)])
        paths = [b"/a/%03d/file%d" % (number // 1_000, number) for number in range(files)]
        session.do(*[line for path in paths for line in (b"create " + path, b"write %s 0 616263" % path)])
        session.do(b"checkpoint", b"clone /a /b")
        chosen = random.Random(1).sample(paths, CHANGED)
        session.do(*[b"write /b%s 1 78" % path[2:] for path in chosen], b"checkpoint")
    with Image(bench.image) as image:
        found = [it.path for it in changes.changes(image, b"/a", b"/b")]
        report("the changes", found == sorted(path[2:] for path in chosen), str(found))
        read, all_ = image.node.cache_info().misses, len(image.table)
    report(f"{read} of {all_} nodes are read", read < 100, f"{read} of {all_}")


# ---- du and shares

def used(bench):
    """How many slots the last checkpoint has taken."""
    words = bench.lines("df")[0].split(" ")
    return int(words[4]) - int(words[2])


def taken(bench, *words):
    """What `btr du` tells, by path."""
    ended = bench.call("du", *words)
    rows = [line.split() for line in ended.out.splitlines()[1:]]
    return {path: SimpleNamespace(own=int(own), shared=int(shared), back=None if back == "?" else int(back) // SLOT)
            for own, shared, back, path in rows}


def directory(rng, top, count, pieces):
    """Lines that make a directory of so many files of so many pieces."""
    return [f"mkdir /{top}", *[line for number in range(count) for line in [
        f"create /{top}/f{number}",
        *[f"write /{top}/f{number} {2_048 * at} {rng.randbytes(2_000).hex()}" for at in range(pieces)]]]]


def du_cases(program, room, report):
    """What removing a path gives back is what `du` tells: directories apart, clones, and clones that were changed."""
    bench, rng = Bench(program, room / "du", report), random.Random(5)
    for top in "abc":
        bench.lines(*directory(rng, top, 60, 5))
    bench.lines("clone /a /d", "checkpoint", "clone /a /e",
                *[f"write /e/f{number} {number} {rng.randbytes(1_500).hex()}" for number in range(60)],
                "clone /e /g", "reclaim")
    found = taken(bench, "/")
    report("du: paths", list(found) == ["/"] + [f"/{top}" for top in "abcdeg"], f"{list(found)}")
    report("du: a clone has nothing of its own", found["/d"].own < 100 and found["/d"].back <= 1, f"{found['/d']}")
    report("du: what clones share", all(found[f"/{top}"].shared > 500_000 for top in "ad"), f"{found}")
    rows = [line.split() for line in bench.call("du", "-n").out.splitlines()]
    nodes = {row[-1]: (int(row[3]), int(row[4])) for row in rows[1:]}
    report("du -n: what it says beside the nodes is the same", [row[:3] + row[5:] for row in rows] == [
        line.split() for line in bench.call("du").out.splitlines()], f"{rows}")
    report("du -n: all nodes are the root directory's", nodes["/"][1] == 0 and nodes["/"][0] > nodes["/b"][0] > 5, f"{nodes}")
    report("du -n: clones ask the same nodes", all(nodes[f"/{top}"][1] > 20 > 2 > nodes[f"/{top}"][0] for top in "adeg"),
           f"{nodes}")
    report("du -n: what is alone asks few that others ask", nodes["/b"][0] > 20 > 10 > nodes["/b"][1], f"{nodes}")
    alone = {path: taken(bench, "-s", path)[path] for path in found}
    report("du: a path by itself", alone == found, f"{alone} {found}")
    report("du: what is alone", found["/b"].shared == 0 and found["/b"].own > 600_000, f"{found['/b']}")
    for path in ("/b", "/d", "/g", "/e", "/a"):
        told, before = taken(bench, "-s", path)[path].back, used(bench)
        bench.lines(f"remove {path}", "reclaim")
        back = before - used(bench)
        report(f"du: removing {path}", back == told, f"{told} told, {back} given back")
    left, alone = taken(bench, "/"), used(bench) * SLOT - 3_000_000
    report("du: what is left", list(left)[:2] == ["/", "/c"], f"{left}")
    report("du: what is held", "(held)" not in left or left["(held)"].own > alone, f"{left} {alone}")


def random_removals(program, room, report):
    """What du tells of directories of an image that was changed at random is what `df` tells."""
    rng, bench = random.Random(3), Bench(program, room / "removals", report)
    files = [f"/a/big{number}" for number in range(20)]
    bench.lines(*made(rng, "/a", 250), *[f"create {path}" for path in files], "checkpoint", "clone /a /b")
    changer = Changer(bench, rng)
    bench.lines(*changer.round(LINES), *[line for path in files for line in large_file(rng, path)], "clone /a /c",
                *changer.round(LINES // 4), "reclaim")
    found = taken(bench, "-d2", "/")
    paths = [path for path, it in found.items() if it.back and path.startswith("/") and len(path) > 3]
    removals(bench, rng.sample(paths, min(8, len(paths))) + ["/a", "/b", "/c"], found, "of random ones")


def large_file(rng, path):
    return [f"write {path} {2_048 * at} {rng.randbytes(2_000).hex()}" for at in range(30)]


def many_paths(program, room, report):
    """It is looked for at the 1,000 largest of many directories what removing them gives back."""
    rng, bench = random.Random(8), Bench(program, room / "many", report, slots=1_024)
    count = 100 if is_slow(program) else 1_005
    bench.lines("mkdir /t", *[line for number in range(count) for line in [
        f"mkdir /t/d{number}", f"create /t/d{number}/f",
        f"write /t/d{number}/f 0 {rng.randbytes(rng.randrange(1, 2_000)).hex()}"]], "clone /t/d7 /t/d7/d", "reclaim")
    found = taken(bench, "-d2", "/")
    unknown = sum(it.back is None for it in found.values())
    report("du: many paths", (len(found), unknown) == (count + 2, max(0, count + 2 - 1_000)), f"{len(found)} {unknown}")
    known = [path for path, it in found.items() if it.back is not None and path != "/"]
    removals(bench, rng.sample(known, 10), found, "of many")


def removals(bench, paths, found, label):
    """Removing each path, with the image as it was, gives back what was told of it."""
    image, kept, before = Path(bench.image), Path(bench.image).read_bytes(), used(bench)
    for path in paths:
        bench.lines(f"remove {path}", "reclaim")
        back, told = before - used(bench), found[path].back
        bench.report(f"du: removing {label} {path}", back == told, f"{told} told, {back} given back")
        image.write_bytes(kept)


def wasted(program, room, report):
    """What was removed and not yet reclaimed is told."""
    bench = Bench(program, room / "wasted", report)
    bench.lines(*directory(random.Random(6), "a", 40, 5), "checkpoint", "remove /a")
    found, before = taken(bench, "/"), used(bench)
    bench.lines("reclaim")
    back = before - used(bench)
    told = found["(reclaim)"].back if "(reclaim)" in found else 0
    report("what a reclaim gives back", back > 3 and told == back, f"{told} told, {back} given back")


def sharing(program, room, report):
    """Which paths share nodes."""
    bench, rng = Bench(program, room / "sharing", report), random.Random(7)
    bench.lines("mkdir /w", "mkdir /snap", *directory(rng, "w/src", 50, 1), "checkpoint",
                *directory(rng, "alone", 50, 1), "checkpoint")
    bench.prints("", "shares")
    bench.lines("clone /w /snap/one", "clone /w /snap/two", "write /w/src/f1 0 00", "checkpoint",
                "clone /w/src/f7 /alone/g", "sync")
    pairs = pairs_of(bench)
    report("shares", ("/snap/one", "/snap/two") in pairs and ("/snap/one", "/w") in pairs, f"{pairs}")
    pairs = pairs_of(bench, "/snap/one")
    report("shares of a path", {("/snap/one", "/w"), ("/snap/one", "/snap/two")} <= set(pairs), f"{pairs}")
    pairs = pairs_of(bench, "/alone")
    report("shares of a file", ("/alone/g", "/w/src/f7") in pairs, f"{pairs}")
    bench.prints("", "shares", "/no", status=1, why="btr: /no: isn't there\n")


def last_asked(image, key):
    """The node that decides what is at a key, and the key for which it is asked."""
    id_ = image.root
    while True:
        node = image.node(id_)
        part = node.ask(key) if node.level else None
        if part is None or part.child == 0 or any(of == key and one.tag == PUT for of, one in part.waits):
            return id_, key
        id_, key = part.child, part.source + key[part.drop:]


def groups_of(image):
    """The keys of the tree of which the same node decides for the same key, in groups of two or more."""
    found, scan = {}, Scan(image, image.whole())
    while it := scan.next():
        found.setdefault(last_asked(image, it[0]), []).append(it[0])
    return [keys for keys in found.values() if len(keys) > 1]


def reached(pairs, key):
    """The keys that pairs tell to be asked where a key is, also by way of others, at most some thousands."""
    known, left = {key}, [key]
    while left and len(known) < 5_000:
        key = left.pop(0)
        new = {second + key[len(first):] for first, second in pairs if key.startswith(first)} - known
        known |= new
        left += sorted(new)
    return known


def is_told(pairs, key):
    """Whether a key is below the second path of a pair."""
    return any(key.startswith(second) for _, second in pairs)


def told_sharing(bench, label):
    """Each two keys of which the same node decides lie below pairs that are told, and with a path below its pairs."""
    with Image(bench.image) as image:
        groups = groups_of(image)
        pairs = set(Sharing(image).found)
        both, wrong = pairs | {(b, a) for a, b in pairs}, []
        for keys in groups:
            wrong += [keys] if not set(keys) <= reached(both, keys[0]) else []
        bench.report(f"{label}: shares", not wrong, f"{len(wrong)} of {len(groups)} groups, {wrong[:1]}")
        for path in (b"/a", b"/b"):
            under, pairs = key_of(path), Sharing(image, path).found
            wrong = []
            for keys in groups:
                if any(key.startswith(under) for key in keys):
                    wrong += [key for key in keys if not key.startswith(under) and not is_told(pairs, key)]
            name = f"{label}: shares of {path.decode()}"
            bench.report(name, not wrong, f"{len(wrong)} of {len(groups)}, {wrong[:1]}")


def pairs_of(bench, *words):
    """The pairs that `btr shares` tells, with how many nodes they share."""
    rows = [line.split() for line in bench.call("shares", *words).out.splitlines()[1:]]
    return {(row[2], row[3]): int(row[0]) for row in rows}


# ---- the log, and other runs

def read_only(program, room, report):
    """What waits in the log is told, or written to the nodes first; another run doesn't hinder who only reads."""
    bench = Bench(program, room / "read", report)
    bench.lines("mkdir /a", "create /a/f", "checkpoint", "clone /a /b", "write /b/f 0 61")
    why = f"btr: {bench.image}: 2 commands that wait in the log: not looked at\n"
    bench.prints("", "diff", "--read-only", "/a", "/b", status=2, why=why + "btr: /b: isn't there\n")
    bench.prints("changed f bytes\n", "diff", "/a", "/b", status=1)
    bench.prints("changed f bytes\n", "diff", "--read-only", "/a", "/b", status=1)
    with Session(program, bench.image) as session:
        session.do(b"mkdir /c", b"sync")
        bench.refuses(3, "is locked by another run", "du")
        bench.refuses(3, "--read-only", "diff", "/a", "/b")
        ended = bench.call("diff", "--read-only", "/a", "/b")
        report("read-only beside another run", ended.out == "changed f bytes\n", str(ended))
        ended = bench.call("ls")
        report("ls beside another run", ended.status == 3 and "is locked by another run" in ended.err, str(ended))


def check(program, room, report):
    diff_cases(program, room, report)
    read_only(program, room, report)
    for seed in range(1 if is_slow(program) else SEEDS):
        random_changes(program, room, report, seed)
    du_cases(program, room, report)
    random_removals(program, room, report)
    many_paths(program, room, report)
    wasted(program, room, report)
    sharing(program, room, report)
    large(program, room, report)
