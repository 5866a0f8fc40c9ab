"""Lines of scripts: which are read, which are refused and with which number, and what each command is answered, by the rules."""
import subprocess
import tempfile
from pathlib import Path

DONE, NOT_FOUND, EXISTS = b"ok", b"no 1 not-found", b"no 2 exists"
BAD_PATH, BAD_LINE = b"no 9 bad-path", b"no 10 bad-line"

# Lines that are read, of one run, and their replies.
READ = [
    (b"mkdir /a", DONE), (b"create /", EXISTS), (b"remove /a/b", NOT_FOUND), (b"stat /", b"ok dir 0000"), (b"list /", b"ok a/"),
    (b"list / b", b"ok"), (b"list / b/c", BAD_PATH), (b"rename /a /b", DONE), (b"clone / /a", DONE), (b"stat /a/b", b"ok dir 0000"),
    (b"truncate /a 0", b"no 5 is-dir"), (b"truncate /a 4294967295", b"no 5 is-dir"), (b"chmod / 0000", DONE), (b"chmod /a 7777", DONE),
    (b"stat /a", b"ok dir 7777"), (b"create /f", DONE), (b"truncate /f 4294967295", b"no 8 too-big"), (b"truncate /f 1073741825", b"no 8 too-big"),
    (b"truncate /f 1073741824", DONE), (b"stat /f", b"ok file 1073741824 0000"), (b"truncate /f 0", DONE), (b"write /f 1023 aAbB0f", DONE),
    (b"stat /f", b"ok file 1026 0000"), (b"read /f 1023 4096", b"ok aabb0f"), (b"read /f 0 4096", b"ok " + b"00" * 1023 + b"aabb0f"),
    (b"read /f 1026 1", b"ok"), (b"read /f 0 0", b"ok"), (b"write /a 1023 aAbB0f", b"no 5 is-dir"), (b"read /a 0 4096", b"no 5 is-dir"),
    (b"sync", DONE), (b"checkpoint", DONE), (b"reclaim", DONE), (b"walk", None), (b"df", None), (b"stop", DONE)]

# Lines that are refused, whatever their paths are.
BAD_LINES = [
    b"", b" ", b"mkdir", b"mkdir ", b"mkdir  /a", b" mkdir /a", b"mkdir /a ", b"mkdir /a /b", b"Mkdir /a", b"stop now", b"sync now",
    b"read /a 0 4097", b"read /a 0", b"read /a 0 1 2", b"truncate /a 01", b"truncate /a +1", b"truncate /a 4294967296",
    b"truncate /a 99999999999999999999999", b"truncate a 1x", b"chmod /a", b"chmod /a 644", b"chmod /a 06440", b"chmod /a 8000",
    b"chmod /a 064x", b"chmod /a 0/44", b"write /a 0 abc", b"write /a 0 ag", b"write a 0 a", b"write /a 0 "]

# Lines of which a word is no path or no name.
BAD_PATHS = [
    b"mkdir a", b"mkdir //", b"stat /a/", b"list / .", b"list / ..", b"list a b", b"rename /a b", b"clone a /b", b"chmod a 0644",
    b"write a 0 00"]

# Texts, and whether they are paths.
PATHS = [
    (b"/", True), (b"/a", True), (b"/a/b.c/...", True), (b"/\xc3\xa9/!", True), (b"/a/b/c/d/e/f/g/h/i/j", True), (b"a", False),
    (b"//", False), (b"/a/", False), (b"/a//b", False), (b"/.", False), (b"/a/..", False), (b"/a\x7f", False), (b"/a\0", False)]

# The lengths of paths of names of 255 bytes in a `stat`, and the replies: a path has at most 512 bytes, and a line 8,192.
LONG = [(256, NOT_FOUND), (512, NOT_FOUND), (514, BAD_PATH), (8187, BAD_PATH), (8188, BAD_LINE)]

# Each command once, and lines that are none.
COMMANDS = [
    (b"mkdir /d", DONE), (b"create /d/f", DONE), (b"write /d/f 2 6869", DONE), (b"clone /d /e", DONE), (b"truncate /e/f 3", DONE),
    (b"rename /e /g", DONE), (b"read /d/f 0 9", b"ok 00006869"), (b"stat /g/f", b"ok file 3 0000"), (b"list /", b"ok d/ g/"),
    (b"chmod /g 0755", DONE), (b"stat /g", b"ok dir 0755"), (b"rename /g/f /d/f", DONE), (b"stat /d/f", b"ok file 3 0000"),
    (b"remove /d", DONE), (b"stat /d", NOT_FOUND), (b"mkdir g", BAD_PATH), (b"mkdir", BAD_LINE)]

# Files and directories.
TREE = [
    (b"create /f", DONE), (b"create /g", DONE),
    # Names that begin with a moved one stay, also where a byte below `/` follows.
    (b"mkdir /d", DONE), (b"create /d/x", DONE), (b"create /dx", DONE), (b"create /d.x", DONE), (b"rename /d /e", DONE),
    (b"stat /d", NOT_FOUND), (b"stat /d/x", NOT_FOUND), (b"stat /dx", b"ok file 0 0000"), (b"stat /d.x", b"ok file 0 0000"),
    (b"stat /e/x", b"ok file 0 0000"),
    # Names come in the order of their bytes, and nothing of what is below them.
    (b"list /", b"ok d.x dx e/ f g"), (b"list / e", b"ok f g"), (b"list /e", b"ok x"), (b"list /f", b"no 4 not-dir"),
    (b"list /d", NOT_FOUND),
    # A clone into its own source copies the old tree.
    (b"clone /e /e/c", DONE), (b"stat /e/c/x", b"ok file 0 0000"), (b"stat /e/c/c", NOT_FOUND), (b"rename /e /e/z", b"no 6 inside"),
    (b"remove /e", DONE), (b"stat /e/c/x", NOT_FOUND), (b"remove /", b"no 7 root"), (b"mkdir /f/x", b"no 4 not-dir"),
    (b"mkdir /h/x", b"no 3 no-parent"), (b"read / 0 1", b"no 5 is-dir"),
    # A mode is one record; a file takes the place of another one.
    (b"chmod /f 0644", DONE), (b"stat /f", b"ok file 0 0644"), (b"write /g 1023 0203", DONE), (b"rename /f /g", DONE),
    (b"stat /g", b"ok file 0 0644"), (b"truncate /g 1026", DONE), (b"read /g 1023 3", b"ok 000000"), (b"stat /f", NOT_FOUND),
    (b"chmod /f 0644", NOT_FOUND)]


class Runs:
    """Runs of the program, each over an image of its own that is new."""

    def __init__(self, betr, report):
        self.betr, self.report = betr, report

    def replies(self, lines):
        """What a script of these lines is answered, line by line."""
        with tempfile.TemporaryDirectory(prefix="betr-lines-") as room:
            image = str(Path(room) / "img")
            subprocess.run([self.betr, "format", image, "24"], stdout=subprocess.PIPE, check=True)
            script = b"".join(line + b"\n" for line in lines)
            ran = subprocess.run([self.betr, "run", image], input=script, stdout=subprocess.PIPE, check=False)
            self.report(ran.returncode == 0, f"lines: a run from {lines[0]!r} on ends well")
            found = ran.stdout.split(b"\n")[:-1]
            self.report(len(found) == len(lines), f"lines: a run from {lines[0]!r} on has a reply to each")
            return found

    def rows(self, rows):
        """Holds the replies to lines against those wanted, where one is."""
        for (line, want), found in zip(rows, self.replies([line for line, _ in rows])):
            self.report(want in (None, found), f"lines: {line[:60]!r} is answered {found!r}")


def read_fault(reply):
    """The reply where it refuses a line as none or for a word that is no path, and else nothing."""
    return reply if reply in (BAD_PATH, BAD_LINE) else None


def paths(runs):
    """A path is found or not, and another text is no path."""
    found = runs.replies([b"stat " + text for text, _ in PATHS])
    for (text, is_path), reply in zip(PATHS, found):
        runs.report(read_fault(reply) == (None if is_path else BAD_PATH), f"lines: path {text!r}")


def long_path(length):
    """A path of so many bytes, of names of 255 bytes."""
    return (b"/" + b"a" * 255) * (length // 256) + (b"/" + b"a" * 255)[:length % 256]


def test(rows, report):
    """The section of `bin/test`."""
    runs = Runs(rows.betr, report)
    runs.rows(READ)
    runs.rows([(line, BAD_LINE) for line in BAD_LINES] + [(line, BAD_PATH) for line in BAD_PATHS])
    paths(runs)
    runs.rows([(b"stat " + long_path(length), want) for length, want in LONG])
    runs.rows(COMMANDS)
    runs.rows(TREE)
