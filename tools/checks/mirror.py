"""Two files that are one image: what `btr new`, `halves` and the verbs do with them, what reads their nodes, and why they can't be
used."""
import os

from calling import cause, tool
from mirrors import BLOCK, absolute, halves, read_from
from nodes import Image

SLOTS = "24"


class Mirror:
    """Two files in a folder, and what is done with them."""

    def __init__(self, program, room):
        self.program, self.first, self.second = program, str(room / "x"), str(room / "y")
        self.both = f"{self.first}+{self.second}"

    def call(self, verb, image, *words):
        return tool("btr", verb, "--program", self.program, image, *words)

    def sizes(self):
        return [os.path.getsize(file) for file in (self.first, self.second)]

    def marks(self):
        """What `halves` says of each file, by its status."""
        ended = self.call("halves", self.both)
        return ended.status, [line.strip().split("  ")[0] for line in ended.out.splitlines()]


def names(report):
    """Which files an image has, by its name."""
    for image, wanted in ("x", ["x"]), ("x+", ["x"]), ("x+y", ["x", "y"]), ("x+y+z", ["x", "y+z"]), ("a/x+b/y", ["a/x", "b/y"]):
        report(f"the files of {image}", halves(image) == wanted, str(halves(image)))
    here = os.getcwd()
    for image, wanted in ("x", f"{here}/x"), ("x+", f"{here}/x+"), ("x+y", f"{here}/x+{here}/y"), ("/x+/y", "/x+/y"):
        report(f"{image} from each directory", absolute(image) == (None if "+" in here else wanted), str(absolute(image)))


def made(mirror, room, report):
    """A mirror is made of two new files, and no file that is there is changed."""
    ended = mirror.call("new", mirror.both, SLOTS)
    size = (132 + 16 * int(SLOTS) + 1) * BLOCK
    report("new", ended.status == 0 and mirror.sizes() == [size, size], f"{ended} {mirror.sizes()}")
    report("halves", mirror.marks() == (0, ["closed", "closed"]), str(mirror.marks()))
    again = mirror.call("new", f"{room / 'new'}+{mirror.second}", SLOTS)
    report("new over a file", cause(again, "btr") is None and not (room / "new").exists(), str(again))
    file = room / "file"
    file.write_bytes(b"some bytes")
    report("put", mirror.call("put", mirror.both, str(file), "/f").status == 0)
    report("cat", mirror.call("cat", mirror.both, "/f").out == "some bytes")


def looked_at(mirror, report):
    """A half is read by each of its names, and the one with the only open mark where both are named."""
    mirror.call("reclaim", mirror.both)
    pictures = [tool("picture", image).out for image in (mirror.both, mirror.first, mirror.first + "+", mirror.second)]
    report("picture", len(set(pictures)) == 1 and "level 1" in pictures[0], f"{len(set(pictures))} pictures")
    for verb in ("du", "shares"):
        ended = mirror.call(verb, mirror.both)
        report(verb, ended.status == 0, str(ended))
    ended = mirror.call("check", mirror.both)
    report("check", ended.status == 0 and ended.out.startswith("a tree of "), str(ended))


def one_alone(mirror, report):
    """A half that was used alone is told, and read; the other one becomes its copy."""
    report("the second alone", mirror.call("mkdir", mirror.second + "+", "/d").status == 0)
    report("halves, one open", mirror.marks() == (1, ["closed", "open"]), str(mirror.marks()))
    report("which is read", read_from(mirror.both) == mirror.second, read_from(mirror.both))
    ended = mirror.call("ls", mirror.both)
    report("both again", ended.out.split() == [".betr-times", "d/", "f"] or ended.out.split() == ["d/", "f"], str(ended))
    report("halves again", mirror.marks() == (0, ["closed", "closed"]), str(mirror.marks()))
    with Image(mirror.first) as one, Image(mirror.second) as other:
        report("the same nodes", one.table == other.table and one.live == other.live)


def unfit(mirror, room, report):
    """What is no mirror is refused before the program writes to it."""
    plain = str(room / "plain")
    mirror.call("new", plain, SLOTS)
    before = open(plain, "rb").read()
    for image, told in ((plain + "+", "no half of a mirror"), (f"{mirror.first}+{plain}", "no half of a mirror"),
                        (f"{mirror.first}+{mirror.first}", "is both halves"), (f"{mirror.first}+{room / 'none'}", "no such file")):
        ended = mirror.call("ls", image)
        report(f"unfit: {told}", cause(ended, "btr") is None and told in ended.err, str(ended))
    report("an image that is no half stays", open(plain, "rb").read() == before)
    ended = mirror.call("ls", mirror.first)
    report("a half by its own name", ended.status == 4 and cause(ended, "btr") is None, str(ended))
    os.truncate(mirror.second, mirror.sizes()[0] - 16 * BLOCK)
    ended = mirror.call("ls", mirror.both)
    report("halves of two sizes", cause(ended, "btr") is None and "differ in size" in ended.err, str(ended))
    os.truncate(mirror.second, 0)
    report("an empty half", mirror.marks() == (1, ["closed", "no half"]), str(mirror.marks()))
    os.unlink(mirror.second)
    report("a missing half", mirror.marks() == (1, ["closed", "no such file or directory"]), str(mirror.marks()))
    ended = mirror.call("halves", mirror.first)
    report("halves of one file", ended.status == 2 and cause(ended, "btr") is None, str(ended))


def check(program, room, report):
    """The section of tools/check."""
    mirror = Mirror(program, room)
    names(report)
    made(mirror, room, report)
    looked_at(mirror, report)
    one_alone(mirror, report)
    unfit(mirror, room, report)
