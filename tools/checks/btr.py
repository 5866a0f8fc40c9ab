"""`btr`: each verb, what it prints, its statuses and its causes."""
import os

from calling import cause, new_image, script, tool


class Bench:
    """An image, and calls of `btr` for it."""

    def __init__(self, program, room, report, slots=4_096):
        self.program, self.room, self.report = program, room, report
        room.mkdir(exist_ok=True)
        self.image = new_image(program, room / "image", slots)

    def call(self, verb, *words, image=None, **how):
        """A call of a verb. The image comes after the words that begin with `-`."""
        words = [str(word) for word in words]
        flags = [word for word in words if word.startswith("-")]
        rest = [word for word in words if not word.startswith("-")]
        return tool("btr", "--program", self.program, verb, *flags, image or self.image, *rest, folder=self.room, **how)

    def lines(self, *lines):
        return script(self.program, self.image, lines)

    def prints(self, wanted, verb, *words, status=0, why=""):
        """Whether a call prints this, and tells this on standard error."""
        ended = self.call(verb, *words)
        right = (ended.status, ended.out, ended.err) == (status, wanted, why)
        self.report(" ".join(map(str, [verb, *words])), right, f"{ended}, and not {wanted!r} {why!r}")

    def refuses(self, status, wanted, verb, *words, **how):
        """Whether a call tells in one line why it did nothing."""
        ended = self.call(verb, *words, **how)
        wrong = cause(ended, "btr")
        if not wrong and (ended.status != status or wanted not in ended.err):
            wrong = f"not status {status} and {wanted!r}: {ended}"
        self.report(" ".join(map(str, [verb, *words])) + f": {wanted}", not wrong, wrong or "")


TREE = ["mkdir /d", "chmod /d 0755", "create /d/a", "write /d/a 0 610a", "chmod /d/a 0644", "create /d/empty",
        "mkdir /d/e", "create /d/e/x", "write /d/e/x 5000 ff", "mkdir /d/e/f", "create /l", "write /l 0 642f61",
        "chmod /l 7000"]


def listings(bench):
    """`ls`, `tree` and `cat`."""
    bench.lines(*TREE)
    bench.prints("d/\nl\n", "ls")
    bench.prints("a\ne/\nempty\n", "ls", "/d")
    bench.prints("a\ne/\nempty\n", "ls", "d/")
    bench.prints("/d/a\n", "ls", "/d/a")
    bench.prints("/d:\na\ne/\nempty\n\n/d/e:\nf/\nx\n\n/d/e/f:\n", "ls", "-R", "/d")
    bench.prints("/d:\na\ne/\nempty\n\n/d/e:\nf/\nx\n", "ls", "/d", "/d/e")
    bench.prints("-rw-r--r--  2    a\ndrwxr-xr-x  -    e/\n-rw-r--r--  0    empty\n", "ls", "-l", "/d")
    bench.prints("drwxr-xr-x  -    d/\nlrwxrwxrwx  3    l -> d/a\n", "ls", "-l", "/")
    bench.prints("drwxr-xr-x     -    f/\n-rw-r--r--  4.9K    x\n", "ls", "-l", "-h", "/d/e")
    bench.prints("/d\n├── a\n├── e/\n│   ├── f/\n│   └── x\n└── empty\n\n2 directories, 3 files\n", "tree", "/d")
    bench.prints("/\n├── d/\n└── l -> d/a\n\n1 directory, 1 file\n", "tree", "-L1", "/")
    bench.prints("a\n", "cat", "/d/a")
    bench.prints("a\na\n", "cat", "d/a", "/d/empty", "/d/a")
    bench.prints("a\n", "cat", "/d", "/d/a", "/no", status=1, why="btr: /d: is a directory\nbtr: /no: isn't there\n")
    bench.prints("/d/e:\nf/\nx\n", "ls", "/no", "/d/e/", status=1, why="btr: /no: isn't there\n")
    large = bytes(range(1, 256)) * 100
    (bench.room / "large").write_bytes(large)
    bench.call("put", "large")
    ended = bench.call("cat", "/large")
    bench.report("cat /large", ended.out == large.decode(errors="backslashreplace"), f"{len(ended.out)} characters")


def many(bench):
    """A directory of more names than a listing has, and its names below a path of 512 bytes."""
    names = [f"n{number:04d}" for number in range(450)]
    bench.lines("mkdir /many", *[f"create /many/{name}" for name in names])
    bench.prints("".join(name + "\n" for name in names), "ls", "/many")
    long = "/" + "x" * 250 + "/" + "y" * 250
    bench.lines("mkdir /" + "x" * 250, "mkdir " + long, f"create {long}/file")
    bench.lines("rename /" + "x" * 250 + " /" + "z" * 255)
    long = "/" + "z" * 255 + "/" + "y" * 250
    ended = bench.call("ls", "-R", long)
    bench.report("a path of 512 bytes", (ended.status, ended.out.split("\n")[1]) == (0, "file"), str(ended))
    bench.lines(f"rename {long} /w", "mkdir /" + "v" * 255, "rename /w /" + "v" * 255 + "/" + "w" * 255)
    ended = bench.call("tree", "/" + "v" * 255)
    wrong = ended.status != 1 or "is no path of at most 512 bytes" not in ended.err or "file" not in ended.out
    bench.report("a path of more than 512 bytes", not wrong, str(ended))


def changed(bench):
    """`mkdir`, `rm`, `cp` and `mv`."""
    bench.prints("", "mkdir", "/m")
    bench.prints("", "mkdir", "-p", "/m", "/m/a/b/c")
    bench.prints("", "mkdir", "/m/x", "/m/a", "/no/x", status=1,
                 why="btr: /m/a: is there already\nbtr: /no/x: the directory that it is to lie in isn't there\n")
    bench.lines("create /m/f", "write /m/f 0 66", "create /m/a/b/g")
    bench.prints("", "cp", "/m/a", "/m/copy")
    bench.prints("b/\n", "ls", "/m/copy")
    bench.prints("", "cp", "/m/f", "/m/copy")
    bench.prints("b/\nf\n", "ls", "/m/copy")
    bench.prints("", "cp", "/m/f", "/m/copy", status=1, why="btr: /m/copy/f: is there already\n")
    bench.prints("", "cp", "/m/no", "/m/x2", status=1, why="btr: /m/no: isn't there\n")
    bench.prints("", "cp", "/m/f", "/no/x2", status=1,
                 why="btr: /no/x2: the directory that it is to lie in isn't there\n")
    bench.prints("", "mv", "/m/copy", "/m/moved")
    bench.prints("a/\nf\nmoved/\nx/\n", "ls", "/m")
    bench.prints("", "mv", "/m/moved/f", "/m/f")
    bench.prints("f", "cat", "/m/f")
    bench.prints("", "mv", "/m/f", "/m/moved")
    bench.prints("b/\nf\n", "ls", "/m/moved")
    bench.prints("", "mv", "/m", "/m/a", status=1, why="btr: /m: can't be put into itself\n")
    bench.prints("", "mv", "/", "/m", status=1, why="btr: /: can be neither removed nor moved\n")
    bench.prints("", "rm", "/m/a", "/m/no", "/m/moved/f", status=1,
                 why="btr: /m/a: is a directory; -r removes it with all that is below it\nbtr: /m/no: isn't there\n")
    bench.prints("", "rm", "-f", "-r", "/m/a", "/m/no")
    bench.prints("moved/\nx/\n", "ls", "/m")
    bench.prints("", "rm", "-r", "/", status=1, why="btr: /: can be neither removed nor moved\n")


def times(bench):
    """A file keeps its time where it is moved or copied."""
    file = bench.room / "timed"
    file.write_text("x")
    os.utime(file, (86_400 * 365, 86_400 * 365))
    bench.call("put", file)
    bench.prints("", "mkdir", "/t")
    bench.prints("", "cp", "/timed", "/t/copy")
    bench.prints("", "mv", "/timed", "/t")
    for name in ("copy", "timed"):
        bench.call("get", f"/t/{name}")
        found = (bench.room / name).stat().st_mtime
        bench.report(f"the time of {name}", found == 86_400 * 365, str(found))
        (bench.room / name).unlink()
    shown = bench.call("ls", "-l", "/t").out
    bench.report("ls tells times", shown.count(" 1971-01-01 ") == 2, shown)


def in_and_out(bench):
    """`put` and `get`."""
    top = bench.room / "source"
    (top / "inner").mkdir(parents=True)
    (top / "inner" / "file").write_text("1")
    (top / "a b").write_text("2")
    bench.prints("/source: 4 files and directories, 4 written, 0 removed\n", "put", top)
    (top / "a b").unlink()
    bench.prints("/source: 3 files and directories, 0 written, 0 removed\n", "put", "--keep", top)
    bench.prints("/source: 3 files and directories, 0 written, 1 removed\n", "put", top)
    bench.prints("/source/source: 3 files and directories, 3 written, 0 removed\n", "put", top, "/source/")
    bench.prints("/p/q: 3 files and directories, 3 written, 0 removed\n", "put", "--parents", top, "/p/q")
    bench.prints("/p/q/inner: 1 file or directory, 0 written, 0 removed\n", "put", top / "inner" / "file", "/p/q/inner")
    bench.prints("./q: 3 files and directories\n", "get", "/p/q")
    bench.report("get /p/q", (bench.room / "q" / "inner" / "file").read_text() == "1")
    bench.prints("new: 1 file or directory\n", "get", "/p/q/inner/file", "new")
    bench.report("get a file", (bench.room / "new").read_text() == "1")
    bench.prints("q/q: 3 files and directories\n", "get", "/p/q", "q")
    ended = bench.call("get", "/")
    bench.report("get /", ended.status == 0 and (bench.room / "image.d" / "p" / "q").is_dir(), str(ended))
    bench.refuses(1, "is there already", "get", "/p/q/inner/file", "new")
    bench.refuses(1, "not found", "get", "/p/no", "new2")
    bench.refuses(1, "no such file", "put", "nothing-here")
    os.mkfifo(top / "pipe")
    bench.refuses(1, "a pipe", "put", top)


def images(bench):
    """`new`, `df` and `reclaim`."""
    image = bench.room / "new-image"
    ended = bench.call("new", 24, image=image)
    bench.report("new", ended.status == 0 and image.stat().st_size == (132 + 16 * 24) * 4_096, str(ended))
    before = image.read_bytes()
    bench.refuses(1, "is there already", "new", 24, image=image)
    bench.report("new leaves what is there", image.read_bytes() == before)
    text = bench.room / "text"
    text.write_text("precious")
    bench.refuses(1, "is there already", "new", 4_096, image=text)
    bench.report("new leaves a text", text.read_text() == "precious")
    bench.report("new of 2M", bench.call("new", "2M", image=bench.room / "new2").status == 0)
    bench.report("its slots", script(bench.program, bench.room / "new2", ["df"]) == ["ok free 30 of 32"])
    bench.report("new -x", bench.call("new", 24, image="./-x").status == 0 and (bench.room / "-x").exists())
    bench.refuses(1, "no such file", "new", 24, image=bench.room / "no" / "image")
    ended = bench.call("df", image=image)
    found = ended.out.splitlines()
    right = ended.status == 0 and found[1].split() == ["1572864", "131072", "1441792", "8%", str(image)]
    bench.report("df", right and found[2].split() == ["24", "2", "22", "slots"], str(ended))
    bench.report("df -h", "1.5M" in bench.call("df", "-h", image=image).out)
    ended = bench.call("reclaim", image=image)
    bench.report("reclaim", ended.out == "0 slots of 24 given back, 22 are free\n", str(ended))


def causes(bench):
    """What can't be done is told in one line, with the status that says whose it is."""
    for verb, words in [("ls", []), ("cat", ["/x"]), ("rm", ["/x"]), ("mkdir", ["/x"]), ("df", []), ("tree", []),
                        ("cp", ["/x", "/y"]), ("mv", ["/x", "/y"]), ("get", ["/x"]), ("reclaim", []),
                        ("put", [bench.image, "/x"])]:
        bench.refuses(3, "no such file", verb, *words, image=bench.room / "none")
        bench.refuses(3, "is a directory", verb, *words, image=bench.room)
        bench.refuses(4, "no image", verb, *words, image=__file__)
    for verb, words in [("du", []), ("shares", []), ("diff", ["/x", "/y"])]:
        bench.refuses(1, "no such file", verb, *words, image=bench.room / "none")
        bench.refuses(1, "is a directory", verb, *words, image=bench.room)
        bench.refuses(4, "no image", verb, *words, image=__file__)
    for words in [["ls", "/a/../b"], ["ls", "-z"], ["cat"], ["mv", "/a"], ["new"], ["new", 23], ["new", "x"],
                  ["new", "1x"], ["new", 65_537], ["tree", "-Lx"], ["du", "-dx"], ["nothing"], ["rm"],
                  ["ls", "/.betr-times"], ["cp"], ["cp", "/a", "/b", "/c"]]:
        bench.refuses(2, "", *words)
    bench.refuses(1, "no image is mounted there", "cp", "new")
    for words in [[], ["--program"], ["ls"], ["-x", "ls"]]:
        ended = tool("btr", *words)
        bench.report(f"{words}", ended.status == 2 and not cause(ended, "btr"), str(ended))
    for words in [["--help"], ["ls", "--help"], ["shell", "--help"], ["new", "--help"]]:
        ended = tool("btr", *words, folder=bench.room)
        bench.report(f"{words}", ended.status == 0 and "usage: tools/btr" in ended.out and not ended.err, str(ended))


def full(program, room, report):
    """A full image is told, and gives room again."""
    bench = Bench(program, room / "full", report, slots=24)
    (bench.room / "big").write_bytes(os.urandom(3_000_000))
    bench.refuses(1, "full", "put", "big")
    ended = bench.call("rm", "/big")
    report("rm on a full image", ended.status == 0, str(ended))
    ended = bench.call("reclaim")
    report("reclaim on a full image", ended.status == 0 and not ended.out.startswith("0 "), str(ended))


def set_byte(image, block, place, byte):
    with open(image, "r+b") as file:
        file.seek(block * 4_096 + place)
        file.write(bytes([byte]))


def checked(bench):
    """`check`, of images with a tree and with none, which it leaves as they are."""
    bench.prints("a tree of 1 node and 1 key, after 0 commands\n", "check")
    bench.lines(*TREE)
    bench.prints(f"a tree of 1 node and 1 key, after {len(TREE)} commands\n", "check")
    bench.lines("checkpoint")
    bench.prints(f"a tree of 1 node and 11 keys, after {len(TREE)} commands\n", "check")
    for block, place, byte, wrong in (
            (147, 4_095, 1, "block 132 isn't what it has to be"),
            (148, 47, 2, "the node 1 isn't named as often as the table says, or the keys below it are none of a tree's"),
            (132, 41, 0x45, "the node 1 isn't named as often as the table says, or the keys below it are none of a tree's")):
        image = bench.room / f"wrong{block}"
        new_image(bench.program, image, 24)
        set_byte(image, block, place, byte)
        before = image.read_bytes()
        ended = bench.call("check", image=image)
        right = (ended.status, ended.out, ended.err) == (10, f"no tree: {wrong}\n", "")
        bench.report(f"check: {wrong}", right and image.read_bytes() == before, str(ended))
    bench.refuses(3, "no such file", "check", image=bench.room / "missing")


def check(program, room, report):
    for part in (listings, many, changed, times, in_and_out, images, checked, causes):
        part(Bench(program, room / part.__name__, report))
    full(program, room, report)
