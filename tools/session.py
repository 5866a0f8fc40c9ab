"""Runs of the program over an image, for the tools that stand beside this file: lines and their replies, what these
say, why a run ended, the words that a tool is called with, and how it tells its causes."""
import argparse
import errno
import fcntl
import functools
import os
import select
import signal
import stat as modes
import subprocess
import sys
import time
from pathlib import Path
from typing import NamedTuple, Optional

from mirrors import halves, unfit

TOP = Path(__file__).resolve().parent.parent
PROGRAM = str(TOP / "bin" / "betr")
CHOOSER = str(TOP / "bin" / "program")

GREATEST_SCRIPT = 16_777_216
GREATEST_PATH = 512
GREATEST_FILE = 1 << 30
# The most bytes that a line writes and that one reads, and the most names that a reply lists.
WRITE_PIECE, READ_PIECE, PAGE = 2_048, 4_096, 100
# As many lines are given at a time by what reads and writes files here.
BATCH = 256
SLOT = 65_536

(NOT_FOUND, EXISTS, NO_PARENT, NOT_DIR, IS_DIR, INSIDE, ROOT, TOO_BIG, BAD_PATH, BAD_LINE) = range(1, 11)

# The statuses of a tool: wrong words, and an end by the user.
WRONG_WORDS, INTERRUPTED = 2, 130


class Failed(Exception):
    """The program ended early, or an image or a line isn't as it has to be. `status` is the program's where it ended,
    and `fault` the words after `fault` of its last line, where it wrote one."""

    def __init__(self, text, status=1, fault=""):
        super().__init__(text)
        self.status, self.fault = status, fault


class Refused(Failed):
    """A line that the program refused: the number and the name of the refusal, and the line."""

    def __init__(self, line, number, name):
        super().__init__(f"{brief(line)}: no {number} {name}")
        self.line, self.number, self.name = line, number, name


class Full(Failed):
    """A line for which too few slots are free: as many are, and so many are needed."""

    def __init__(self, line, free, needed):
        super().__init__(f"{brief(line)}: full: {free} slots are free and {needed} are needed")
        self.line, self.free, self.needed = line, free, needed


def shown(text, most=80):
    """Bytes of a line, a path or a name as they can be shown."""
    told = text.decode(errors="backslashreplace")
    told = "".join(c if c.isprintable() else f"\\x{ord(c):02x}" for c in told)
    return told if len(told) <= most else told[: most - 2] + ".."


def brief(line):
    """A line as it can be shown, but for the bytes that it writes."""
    words = line.split(b" ")
    return shown(b" ".join(words[:3] if words[0] == b"write" else words))


def reason(error):
    """The system's own words for an error."""
    words = error.strerror or str(error)
    return words[:1].lower() + words[1:]


def cause(error):
    """An error of the host's files, in one line."""
    return f"{os.fsdecode(error.filename)}: {reason(error)}" if error.filename is not None else reason(error)


def is_locked(handle):
    """Whether another program has locked an open file, as a run does with its image."""
    try:
        fcntl.flock(handle, fcntl.LOCK_SH | fcntl.LOCK_NB)
    except OSError as error:
        return error.errno in (errno.EWOULDBLOCK, errno.EACCES)
    return False


def has_room(handle):
    """Whether the disk of an open file has room for one more slot, where the file still has holes."""
    found, disk = os.fstat(handle), os.fstatvfs(handle)
    free = disk.f_bfree if os.geteuid() == 0 else disk.f_bavail
    return found.st_blocks * 512 >= found.st_size or free * disk.f_frsize >= SLOT


# What is told where the system tells no reason.
FAILED = "the file failed"


def trouble(file):
    """Why a file can't be used as an image, by the system; without a reason that it tells, that it failed."""
    try:
        found = os.stat(file)
        if modes.S_ISDIR(found.st_mode):
            return "is a directory"
        if not modes.S_ISREG(found.st_mode):
            return "is no regular file"
        handle = os.open(file, os.O_RDWR)
    except OSError as error:
        return reason(error)
    try:
        if is_locked(handle):
            return "is locked by another run"
        return FAILED if has_room(handle) else "no space left on its device"
    finally:
        os.close(handle)


def troubled(image):
    """The file of an image that can't be used and why, or the image where no file of it has a reason."""
    found = [(half, trouble(half)) for half in halves(image)]
    return next((it for it in found if it[1] != FAILED), (image, FAILED))


def fault_of(image, status, said):
    """What is told of a run of an image that ended early, with this last line."""
    if said == "fault device":
        return Failed("{}: {} (fault device)".format(*troubled(image)), status, "device")
    if said.startswith("fault damaged "):
        return Failed(f"{image}: no image, or a damaged one ({said})", status, said[6:])
    if said.startswith("fault "):
        return Failed(f"{image}: {said}", status, said[6:])
    if status < 0:
        return Failed(f"{image}: the program was ended by {signal.Signals(-status).name}", 1)
    if status == WRONG_WORDS:
        return Failed(f"{image!r}: no name of an image", status)
    return Failed(f"{image}: the program ended with status {status}", status or 1)


@functools.cache
def chosen(program):
    """The file of a program: what bin/program chooses, once for all runs, where it is bin/betr."""
    if program != PROGRAM:
        return program
    found = subprocess.run([CHOOSER], stdin=subprocess.DEVNULL, stdout=subprocess.PIPE, text=True, check=False)
    if found.returncode != 0:
        raise Failed("no program", found.returncode)
    return found.stdout.rstrip("\n")


class Session:
    """Runs of the program over one image, one after the other: each takes as many lines as a script may have. When a
    run ends well, what it did is durable. An interrupt of the user doesn't reach the program, so that it ends well."""

    def __init__(self, program, image):
        self.program, self.image = program, os.fsdecode(image)
        self.process, self.taken, self.rest = None, 0, b""

    def __enter__(self):
        return self

    def __exit__(self, kind, *_):
        try:
            self.end()
        except Failed:
            if kind is None:
                raise

    def start(self):
        """Begins a run, where there is none."""
        if self.process is None:
            self.process, self.taken, self.rest = started([chosen(self.program), "run", named(self.image)]), 0, b""

    def ask(self, lines):
        """The replies to lines, as bytes without newlines. All lines are given at once; those that a run can't take any
        more go to a new one."""
        lines, replies = list(lines), []
        while len(replies) < len(lines):
            self.start()
            end = size = 0
            for line in lines[len(replies) :] if replies else lines:
                size += len(line) + 1
                if self.taken + size > GREATEST_SCRIPT:
                    break
                end += 1
            if end:
                replies += self._exchange(lines[len(replies) : len(replies) + end])
            if len(replies) < len(lines):
                self.end()
        if lines[-1:] == [b"stop"]:
            self.end()
        return replies

    def do(self, *lines):
        """Gives lines, each of which has to be accepted, and gives what they answered: the words after each `ok`."""
        return [answer(reply, line) for line, reply in zip(lines, self.ask(lines))]

    def _exchange(self, lines):
        """Writes lines and reads as many replies, so that neither side waits for the other."""
        text = b"\n".join(lines) + b"\n"
        if text.count(b"\n") != len(lines):
            raise Failed("a line has a newline in it")
        self.taken += len(text)
        left, replies, out = memoryview(text), [], self.process.stdout.fileno()
        while len(replies) < len(lines):
            left = self._write(left)
            data = self._read(out, left)
            if data is None:
                continue
            if not data:
                break
            *whole, self.rest = (self.rest + data).split(b"\n")
            replies += whole
        if len(replies) != len(lines) or not all(map(is_reply, replies[-1:])):
            raise self._ended(lines, replies)
        return replies

    def _write(self, left):
        """Writes as much as the program takes now, and gives what is left. Where it has ended, its last line tells."""
        try:
            while left:
                left = left[os.write(self.process.stdin.fileno(), left) :]
        except BlockingIOError:
            pass
        except BrokenPipeError:
            left = left[:0]
        return left

    def _read(self, out, left):
        """Some bytes of replies, none at their end, and None where the program first takes more lines."""
        if left:
            readable, _, _ = select.select([out], [self.process.stdin], [])
            if not readable:
                return None
        return os.read(out, SLOT)

    def _ended(self, lines, replies):
        """What is told of a run that ended before it had answered all lines."""
        at = next((at for at, reply in enumerate(replies) if not is_reply(reply)), len(replies))
        said = replies[at].decode(errors="backslashreplace") if at < len(replies) else ""
        status = self._close()[0]
        failure = fault_of(self.image, status, said)
        if failure.fault and failure.fault.split()[0] not in ("device", "damaged"):
            failure.args = (f"{failure} at {brief(lines[min(at, len(lines) - 1)])}",)
        return failure

    def _close(self):
        """Closes the run, waits for its end, and gives its status and what it wrote last."""
        process, self.process = self.process, None
        process.stdin.close()
        written = self.rest + process.stdout.read()
        process.stdout.close()
        return process.wait(), written

    def end(self):
        """Ends the run, which makes a last sync."""
        if self.process is not None:
            status, written = self._close()
            if status != 0:
                said = written.decode(errors="backslashreplace").strip("\n").split("\n")[-1]
                raise fault_of(self.image, status, said)


def named(image):
    """An image as a word for the program: not one for an option, and no mirror of files that are no halves."""
    if (why := unfit(image)) is not None:
        raise Failed(why)
    return "./" + image if image.startswith("-") else image


def started(words):
    """A program with a pipe to it, which takes what it can without waiting, and one from it."""
    try:
        process = subprocess.Popen(words, stdin=subprocess.PIPE, stdout=subprocess.PIPE, bufsize=0, process_group=0)
    except OSError as error:
        raise Failed(cause(error)) from None
    os.set_blocking(process.stdin.fileno(), False)
    return process


def is_reply(text):
    return text.startswith((b"ok", b"no ", b"full "))


def answer(reply, line=b""):
    """The words of a reply after its `ok`."""
    first, *words = reply.split(b" ")
    if first == b"ok":
        return words
    if first == b"no" and len(words) == 2:
        raise Refused(line, int(words[0]), words[1].decode())
    if first == b"full" and len(words) == 2:
        raise Full(line, *map(int, words))
    raise Failed(f"{brief(line)}: {shown(reply)}")


class Stat(NamedTuple):
    """What `stat` tells: the length of a file, None of a directory, and the mode."""

    size: Optional[int]
    mode: int

    @property
    def is_dir(self):
        return self.size is None


def told(words):
    """What the words after the `ok` of a `stat` tell."""
    return Stat(None if words[0] == b"dir" else int(words[1]), int(words[-1], 8))


def stats(session, paths):
    """What `stat` tells of each path, and None of each that isn't there."""
    lines, found = [b"stat " + path for path in paths], []
    for line, reply in zip(lines, session.ask(lines)):
        found.append(None if reply.startswith(b"no %d " % NOT_FOUND) else told(answer(reply, line)))
    return found


def stat(session, path):
    """What `stat` tells of a path, or None where it isn't there."""
    return stats(session, [path])[0]


def names(session, path, after=b""):
    """The names in a directory, in their order, from the one after `after` on; directories have a `/` at their end."""
    while True:
        line = b" ".join([b"list", path] + [after] * bool(after))
        found = answer(session.ask([line])[0], line)
        yield from found[:PAGE]
        if len(found) <= PAGE:
            return
        after = found[PAGE - 1].rstrip(b"/")


def read_lines(path, size, offset=0):
    """The lines that read so many bytes of a file from an offset on."""
    for at in range(offset, offset + size, READ_PIECE):
        yield b"read %s %d %d" % (path, at, min(READ_PIECE, offset + size - at))


def bytes_of(reply, line=b""):
    """The bytes that the reply to a `read` tells."""
    return bytes.fromhex((answer(reply, line) or [b""])[0].decode())


def read(session, path, size, offset=0):
    """The bytes of a file from an offset on, piece by piece, at most so many."""
    for lines in batches(read_lines(path, size, offset)):
        for line, reply in zip(lines, session.ask(lines)):
            yield bytes_of(reply, line)


def write_lines(path, data, offset=0):
    """The lines that write bytes into a file from an offset on."""
    for at in range(0, len(data), WRITE_PIECE):
        yield b"write %s %d %s" % (path, offset + at, data[at : at + WRITE_PIECE].hex().encode())


def write(session, path, data, offset=0):
    """Writes bytes into a file from an offset on."""
    for lines in batches(write_lines(path, data, offset)):
        session.do(*lines)


def batches(items, most=BATCH):
    """Items in lists of so many."""
    batch = []
    for item in items:
        batch.append(item)
        if len(batch) == most:
            yield batch
            batch = []
    if batch:
        yield batch


def below(path, name):
    """The path of a name in a directory."""
    return (b"" if path == b"/" else path) + b"/" + name


class Words(argparse.ArgumentParser):
    """Reads the words of a tool, whose docstring is what `--help` prints. Other words are told in one line, and the
    status is 2."""

    def __init__(self, doc, **settings):
        super().__init__(**settings)
        self.doc = doc

    def format_help(self):
        return self.doc.strip("\n") + "\n"

    def error(self, message):
        complain(self.prog, f"{message} (--help tells the words)")
        sys.exit(WRONG_WORDS)


def complain(tool, text):
    """Tells a cause in one line on standard error, in place of the progress that is shown there."""
    Progress.clear()
    print(f"{tool}: {text}", file=sys.stderr, flush=True)


def finished(tool, work):
    """The status of a tool that does this work, which gives its own; causes are told in one line."""
    try:
        status = work()
        sys.stdout.flush()
        return status
    except Failed as failure:
        complain(tool, failure)
        return failure.status
    except BrokenPipeError:  # Who reads what is printed has ended, and wants no more.
        os.dup2(os.open(os.devnull, os.O_WRONLY), sys.stdout.fileno())
        return 0
    except OSError as error:
        complain(tool, cause(error))
        return 1
    except subprocess.CalledProcessError as error:
        complain(tool, f"{' '.join(map(str, error.cmd))}: status {error.returncode}")
        return 1
    except KeyboardInterrupt:
        complain(tool, "interrupted")
        return INTERRUPTED


class Progress:
    """How far a tool is, on standard error where that is a terminal, from its second second on."""

    PATIENCE, PAUSE = 2.0, 0.1
    is_there = False  # Whether some progress stands in the terminal's last line.

    def __init__(self, what):
        self.what, self.shown = what, sys.stderr.isatty()
        self.next = time.monotonic() + self.PATIENCE

    def tell(self, done, of=None):
        if self.shown and time.monotonic() >= self.next:
            Progress.is_there, self.next = True, time.monotonic() + self.PAUSE
            of = "" if of is None else f" of {of}"
            print(f"\r{self.what}: {done}{of}\033[K", end="", file=sys.stderr, flush=True)

    @classmethod
    def clear(cls):
        """Takes what is shown out of the terminal's last line."""
        if Progress.is_there:
            Progress.is_there = False
            print("\r\033[K", end="", file=sys.stderr, flush=True)

    def end(self):
        self.clear()


def nanoseconds(process):
    """The processor time that a process has used."""
    return int(Path(f"/proc/{process.pid}/schedstat").read_text().split()[0])


def status(process, file, field):
    """A number that the kernel tells of a process, in its file `status` or `io`."""
    for line in Path(f"/proc/{process.pid}/{file}").read_text().splitlines():
        if line.startswith(field + ":"):
            return int(line.split()[1])
    return 0


DIGITS = "0123456789abcdefghijklmnopqrstuvwxyz"


def name(number):
    """Four digits to the base 36, since a script has at most 16,777,216 bytes; they rise with the number."""
    text = ""
    for _ in range(4):
        number, digit = divmod(number, 36)
        text = DIGITS[digit] + text
    return text


def files(directory, count):
    """The lines that make a directory of so many empty files."""
    return [f"mkdir {directory}"] + [f"create {directory}/{name(i)}" for i in range(count)]


def shuffled(count, of):
    """So many numbers below one, in no order, always the same."""
    return [(i * 2654435761) % of for i in range(count)]
