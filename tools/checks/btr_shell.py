"""`btr shell`: replies in words and as JSON, verbs, statuses, and a terminal with completion and history."""
import fcntl
import json
import os
import pty
import select
import subprocess
import sys
import termios
import time

from btr import Bench
from calling import TOOLS

SCRIPT = """mkdir /d
mkdir /d
# nothing

create /d/f
write /d/f 0 68690a
write /d/f 10 ff
read /d/f 0 3
read /d/f 0 20
read /d/f 99 1
stat /d/f
stat /d
list /d
list /d/f
list / d
chmod /d/f 0644
clone /d /e
walk
df
stat /no
nonsense here
truncate /d/f 4294967295
ls -l /d
cat /d/f
cp /d/f /d/g
cp /d/f /d/g
ls -x
ls 'a
sync"""

WORDS = """ok
no: /d is there already (exists)
ok
ok
ok
hi
68690a00 00000000 0000ff
no bytes
a file of 11 bytes, mode 0000
a directory, mode 0000
f
no: /d/f is no directory (not-dir)
no names
ok
ok
4 visits of nodes in a tree 2 high
1022 of 1024 slots free
no: /no isn't there (not-found)
no: nonsense here is no line (bad-line)
no: /d/f would pass 2^30 bytes (too-big)
-rw-r--r--  11    f
hi
"""


def words(bench):
    ended = bench.call("shell", given=SCRIPT.encode())
    out = ended.out.splitlines()
    wanted = WORDS.splitlines()
    for line, (found, want) in enumerate(zip(out, wanted)):
        right = found == want or want.endswith("free") and found.endswith("slots free") or want.startswith("4 visits")
        bench.report(f"words, line {line}", right, f"{found!r}, and not {want!r}")
    bench.report("words, all lines", len(out) == len(wanted) + 1 and ended.status == 1, str(ended))
    causes = ended.err.splitlines()
    wanted = ["/d/g: is there already", "-x", "quotation"]
    bench.report("words, causes", len(causes) == 3 and all(map(str.__contains__, causes, wanted)), str(causes))


def as_json(bench):
    lines = ["mkdir /j", "mkdir /j", "stat /j", "create /j/f", "write /j/f 0 00ff", "read /j/f 0 9", "stat /j/f",
             "list /", "walk", "df", "ls", "", "sync"]
    ended = bench.call("shell", "--json", given="\n".join(lines).encode())
    found = [json.loads(line) for line in ended.out.splitlines()]
    wanted = [
        {"ok": True}, {"ok": False, "no": 2, "why": "exists"}, {"ok": True, "kind": "dir", "mode": "0000"},
        {"ok": True}, {"ok": True},
        {"ok": True, "hex": "00ff"}, {"ok": True, "kind": "file", "length": 2, "mode": "0000"},
        {"ok": True, "names": ["j/"], "more": False}, {"ok": True, "visits": 0, "height": 0},
        {"ok": True, "free": 1022, "slots": 1024}, {"ok": False, "no": 10, "why": "bad-line"},
        {"ok": False, "no": 10, "why": "bad-line"}, {"ok": True}]
    wanted = [{"line": line} | it for line, it in zip(lines, wanted)]
    wrong = [it for it in zip(found, wanted) if it[0] != it[1]]
    bench.report("JSON", found == wanted and ended.status == 1, f"{wrong} {ended}")
    made = b"mkdir /m\n" + b"".join(b"create /m/%d\n" % number for number in range(120))
    many = bench.call("shell", "--json", given=made + b"list /m")
    last = json.loads(many.out.splitlines()[-1])
    bench.report("JSON, more names", last["more"] and len(last["names"]) == 100 and many.status == 0, str(last))


def ends(bench):
    """-e, `stop`, `exit` and faults."""
    ended = bench.call("shell", "-e", given=b"mkdir /e\nmkdir /e\nmkdir /later\n")
    bench.report("-e", ended.status == 1 and len(ended.out.splitlines()) == 2, str(ended))
    ended = bench.call("shell", "-e", "--json", given=b"mkdir /e2\nmkdir /e2\nmkdir /later\n")
    bench.report("-e --json", ended.status == 1 and len(ended.out.splitlines()) == 2, str(ended))
    ended = bench.call("shell", "-e", given=b"mkdir /e3\nls /no\nmkdir /later\n")
    bench.report("-e of a verb", ended.status == 1 and ended.out == "ok\n", str(ended))
    for word in ("stop", "exit", "quit"):
        ended = bench.call("shell", given=f"mkdir /{word}\n{word}\nmkdir /later".encode())
        bench.report(word, ended.status == 0 and len(ended.out.splitlines()) == 1 + (word == "stop"), str(ended))
    bench.report("nothing after the end", bench.lines("stat /later", "stat /exit") == ["no 1 not-found", "ok dir 0000"])
    ended = bench.call("shell", given=b"")
    bench.report("an empty script", ended.status == 0 and not ended.out, str(ended))
    bench.refuses(3, "no such file", "shell", image=bench.room / "none", given=b"df\n")
    bench.refuses(4, "no image", "shell", image=__file__, given=b"df\n")
    ended = bench.call("shell", "--json", image=__file__, given=b"df\n")
    found = [json.loads(line) for line in ended.out.splitlines()]
    right = ended.status == 4 and found == [{"line": "df", "ok": False, "fault": "damaged 0"}]
    bench.report("JSON of a fault", right, str(ended))
    lines = ["mkdir /u", "create /u/f", "clone /u /v", "write /v/f 0 61", "diff /u /v", "du -s /u", "help df", "help"]
    ended = bench.call("shell", given="\n".join(lines).encode())
    wanted = ["changed f bytes", "own  shared", "tells how many slots are free", "and the verbs"]
    bench.report("verbs that look into nodes", all(it in ended.out for it in wanted), str(ended))


class Terminal:
    """A shell at a terminal."""

    def __init__(self, bench, home):
        words = [sys.executable, str(TOOLS / "btr"), "--program", bench.program, "shell", bench.image]
        self.end, end = pty.openpty()
        environment = os.environ | {"HOME": str(home), "TERM": "dumb", "COLUMNS": "80"}
        self.process = subprocess.Popen(
            words, stdin=end, stdout=end, stderr=end, env=environment, start_new_session=True,
            preexec_fn=lambda: fcntl.ioctl(0, termios.TIOCSCTTY, 0))
        os.close(end)
        self.read(b"> ")

    def read(self, until, seconds=60):
        """What it shows, up to some bytes."""
        found, last = b"", time.monotonic() + seconds
        while until not in found and time.monotonic() < last:
            if select.select([self.end], [], [], 0.1)[0]:
                try:
                    found += os.read(self.end, 65_536)
                except OSError:
                    break
        return found.decode(errors="replace").replace("\r", "")

    def type(self, text, until=b"> "):
        """Types a text once all that was to be shown is, since an interrupt goes before what was typed after it."""
        while select.select([self.end], [], [], 0.5)[0] and os.read(self.end, 65_536):
            pass
        os.write(self.end, text.encode())
        return self.read(until)

    def close(self):
        os.write(self.end, b"\x04")
        status = self.process.wait(20)
        os.close(self.end)
        return status


def terminal(bench):
    """Words and paths are completed, an interrupt gives up a line, and lines are kept."""
    bench.lines("mkdir /dir", "create /dir/only", "create /dir/other")
    home = bench.room / "home"
    home.mkdir()
    shell = Terminal(bench, home)
    cases = [("stat /dir\n", "a directory, mode 0000"), ("sta\t/di\t\n", "a directory, mode 0000"),
             ("stat /dir/on\t\n", "a file of 0 bytes"), ("mkdir /di", None), ("\x03", ""), ("no\n", "is no line"),
             ("help\n", "and the verbs"), ("ls /dir\n", "only"), ("mkdir /dir\n", "is there already")]
    for text, wanted in cases:
        if wanted is None:
            shell.type(text, text.encode())
            continue
        shown = shell.type(text)
        bench.report(f"terminal: {text!r}", wanted in shown, shown)
    status = shell.close()
    bench.report("terminal: its end", status == 0, f"status {status}")
    kept = (home / ".betr_history").read_text()
    bench.report("terminal: history", "stat /dir/only" in kept, kept)


def check(program, room, report):
    for part in (words, as_json, ends, terminal):
        part(Bench(program, room / part.__name__, report, slots=1_024))
