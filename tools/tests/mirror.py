"""A mirror of two devices: a half that fails at one call, or from one on, each in turn, and both; and two files, one of which is lost,
over the built program."""
import subprocess
import tempfile
from pathlib import Path

from faults import SHORT, SHORT_QUESTIONS, Script
from script import BLOCK_SIZE, TEARS, shown

SLOTS = 24

BLOCKS = 132 + 16 * SLOTS

# How many calls of each half the attach of two takes whose marks are closed, the second one becoming a copy of the first.
FIRST_CALLS, SECOND_CALLS = 7 + BLOCKS, 4 + BLOCKS

# What keeps the files of a mirror busy, so that it reads nodes again.
FILES = 90


class Mirrored(Script):
    """Lines on a mirror of two devices."""

    def begun(self):
        return [f"# {self.label}", f"-- members {self.slots}", f"-- format {self.slots}", "-- keep"]


def unseen(rows, report, script, hows):
    """A script that isn't stopped in any of these ways: it is answered and acknowledged as without a fault, and then both halves
    have all. How many calls the first half got in each."""
    parts = [script.run(*how) + script.ask() + ["-- alike"] for how in hows]
    calls = shown(rows, script.begun(), parts)
    for how, (done, asked) in zip(hows, calls):
        is_right = done.status == 0 and done.written == script.lines.replies and done.acks == script.acks(len(script.counts))
        report(is_right, f"mirror: {how}: status {done.status}, {done.written[-1:]}")
        report(asked.written == script.answers[script.counts[-1]], f"mirror: {how}: {asked.written}")
    return [done.calls for done, _asked in calls]


def stopped(rows, report, script, hows, lost=()):
    """A script that is cut off in each of these ways: it ends with the device's fault, and then, one half being lost, what was
    acknowledged is there."""
    parts = [script.run(*how) + [*lost] + script.ask() for how in hows]
    for how, (ended, asked) in zip(hows, shown(rows, script.begun(), parts)):
        wrong = script.wrong(ended, asked, ended.calls)
        report(wrong is None, f"mirror: {how} {lost}: {wrong}")


def devices(rows, report):
    """Two devices in memory."""
    script = Mirrored("a mirror", SLOTS, SHORT, SHORT_QUESTIONS)
    calls = script.calls(rows)
    report(calls is not None and calls > FIRST_CALLS + 100, f"mirror: {calls} calls")
    firsts = range(FIRST_CALLS + 1, (calls or FIRST_CALLS) + 1)[: 12 if rows.is_slow else None]
    made_calls = unseen(rows, report, script, [[f"-- fail {call}"] for call in firsts])
    # After a write or a barrier that failed, a half gets no other call. The second one is only written.
    writes = [call for call, made_call in zip(firsts, made_calls) if made_call == call]
    seconds = range(SECOND_CALLS + 1, SECOND_CALLS + len(writes) + 1)
    report(len(writes) > (0 if rows.is_slow else 60), f"mirror: {len(writes)} writes and barriers")
    unseen(rows, report, script, [[f"-- other fail {call}"] for call in seconds])
    unseen(rows, report, script, [[f"-- fuse {call} {TEARS[call % 5]}"] for call in firsts])
    unseen(rows, report, script, [[f"-- other fuse {call} {TEARS[call % 5]}"] for call in seconds])
    # Both stop in one call.
    stops = [[f"-- fuse {one} {TEARS[one % 5]}", f"-- other fuse {other} {TEARS[other * 2 % 5]}"] for one, other in zip(writes, seconds)]
    stopped(rows, report, script, stops)
    stopped(rows, report, script, stops, ["-- wipe", "-- swap"])
    stopped(rows, report, script, stops, ["-- swap", "-- wipe", "-- swap"])


class Files:
    """Two files of a mirror, in a temporary folder."""

    def __init__(self, betr):
        self.room = tempfile.TemporaryDirectory(prefix="betr-mirror-")
        self.betr, self.first, self.second = betr, Path(self.room.name) / "x", Path(self.room.name) / "y"
        self.both = f"{self.first}+{self.second}"

    def __enter__(self):
        return self

    def __exit__(self, *_):
        self.room.cleanup()

    def call(self, verb, image, *rest, lines=()):
        """The status of a call over these lines, and what it wrote."""
        script = "".join(line + "\n" for line in lines)
        done = subprocess.run([self.betr, verb, image, *map(str, rest)], input=script.encode(), stdout=subprocess.PIPE, check=False)
        return done.returncode, done.stdout.decode().split("\n")[:-1]

    def are_alike(self):
        """Whether both files have as many blocks, and the same but for the marks, which are closed."""
        one, other = self.first.read_bytes(), self.second.read_bytes()
        marks = one[-BLOCK_SIZE], other[-BLOCK_SIZE]
        return len(one) == (BLOCKS + 1) * BLOCK_SIZE and one[:-BLOCK_SIZE] == other[:-BLOCK_SIZE] and 1 not in marks

    def resize(self, file, size):
        with open(file, "r+b") as opened:
            opened.truncate(size)


def made(files, report):
    """A mirror is made, and one half alone of a member, and neither is an image by itself."""
    report(files.call("format", files.both, SLOTS) == (0, ["ok"]) and files.are_alike(), "mirror: two new files")
    report(files.call("run", files.both, lines=["mkdir /a", "sync"]) == (0, ["ok"] * 2) and files.are_alike(), "mirror: two files")
    report(files.call("run", str(files.first)) == (4, ["fault damaged 1"]), "mirror: a half by its own name")
    report(files.call("run", f"{files.first}+{files.first}") == (3, ["fault device"]), "mirror: a file that is both halves")
    report(files.call("run", f"{files.both}z") == (3, ["fault device"]), "mirror: a half that isn't there")
    report(files.call("run", files.both, lines=["list /"]) == (0, ["ok a/"]), "mirror: after names that are none of it")


def lost_between(files, report):
    """A half that is lost between two runs: the other one goes on alone, and the lost one becomes its copy."""
    size = files.first.stat().st_size
    files.resize(files.first, 0)
    report(files.call("run", files.both) == (4, ["fault damaged 0"]), "mirror: halves that differ in size")
    report(files.call("run", f"{files.second}+", lines=["mkdir /b"]) == (0, ["ok"]), "mirror: the other half alone")
    files.resize(files.first, size)
    found = files.call("run", files.both, lines=["list /"])
    report(found == (0, ["ok a/ b/"]) and files.are_alike(), f"mirror: a lost half is copied back: {found}")


def lost_within(files, report, is_slow):
    """A half that is truncated while a run has it: reads of it fail, and the replies are as without that."""
    count = 8 if is_slow else FILES
    piece = "5a" * 2_048
    lines = [f"create /a/{name}" for name in range(count)] + [f"write /a/{name} 0 {piece}" for name in range(count)] + ["checkpoint"]
    report(files.call("run", files.both, lines=lines) == (0, ["ok"] * len(lines)), "mirror: two files are filled")
    size, asked = files.first.stat().st_size, [f"read /a/{name} 0 2048" for name in range(count)] + ["mkdir /c", "stop"]
    with subprocess.Popen([files.betr, "run", files.both], stdin=subprocess.PIPE, stdout=subprocess.PIPE) as run:
        run.stdin.write(b"sync\n")
        run.stdin.flush()
        report(run.stdout.readline() == b"ok\n", "mirror: a run that goes on")
        files.resize(files.first, 0)
        run.stdin.write("".join(line + "\n" for line in asked).encode())
        run.stdin.close()
        found = run.stdout.read().decode().split("\n")[:-1]
        is_right = run.wait() == 0 and found == [f"ok {piece}"] * count + ["ok"] * 2
    report(is_right, "mirror: a half that is truncated in a run")
    files.resize(files.first, size)
    found = files.call("run", f"{files.second}+{files.first}", lines=["list /"])
    report(found == (0, ["ok a/ b/ c/"]) and files.are_alike(), f"mirror: a truncated half is copied back: {found}")


def test(rows, report):
    """The section of `bin/test`."""
    devices(rows, report)
    with Files(rows.betr) as files:
        made(files, report)
        lost_between(files, report)
        lost_within(files, report, rows.is_slow)
