"""What the sections of mounts share: an image mounted on a folder, and whether that can be done here."""
import errno
import os
import signal
import subprocess
import sys
import time
from pathlib import Path

import fuse
from calling import TOOLS, new_image, tool
from session import is_locked

PATIENCE = 30.0


def why_not(program, room):
    """Why nothing can be mounted here, or None: where it can, it was tried."""
    if not os.path.exists(fuse.DEVICE):
        return f"there is no {fuse.DEVICE}"
    if os.geteuid() != 0 and fuse.helper() is None:
        return "there is no fusermount3, and this isn't root"
    folder = room / "tried"
    folder.mkdir()
    image = new_image(program, room / "tried-image", 24)
    done = tool("mount", "--program", program, image, folder)
    if done.status == 0:
        tool("mount", "-u", folder)
        return None
    return done.err.strip() if "ermitted" in done.err else None


class Mount:
    """An image that tools/mount mounts on a folder, in the foreground. It is made where it isn't there."""

    def __init__(self, program, room, name="image", slots=4_096, words=()):
        self.program, self.room, self.words = program, Path(room), list(words)
        self.image, self.path = self.room / name, self.room / f"{name}-mounted"
        if not self.image.exists():
            new_image(program, self.image, slots)
        self.path.mkdir(exist_ok=True)
        self.process, self.said = None, ""

    def __enter__(self):
        words = [sys.executable, TOOLS / "mount", "--program", self.program, "-f", *self.words, self.image, self.path]
        self.process = subprocess.Popen(words, stderr=subprocess.PIPE, text=True)
        end = time.monotonic() + PATIENCE
        while not os.path.ismount(self.path):
            if self.process.poll() is not None or time.monotonic() > end:
                raise RuntimeError(f"not mounted: {self.process.communicate()[1]!r}")
            time.sleep(0.005)
        return self

    def __exit__(self, *_):
        if self.process.poll() is None:
            self.end()
        self.process.stderr.close()

    def end(self):
        """Unmounts the folder, and gives the status of the mount and that of the tool that unmounted it."""
        done = tool("mount", "-u", self.path)
        try:
            self.said = self.process.communicate(timeout=PATIENCE)[1]
        except subprocess.TimeoutExpired:
            self.kill()
            return -9, done.status
        return self.process.returncode, done.status

    def runs(self):
        """The processes of the program over which it is mounted."""
        words = Path(f"/proc/{self.process.pid}/task/{self.process.pid}/children").read_text().split()
        return [int(word) for word in words]

    def kill(self, with_program=True):
        """Ends the mount, and the program with it, by SIGKILL, and unmounts what is left."""
        programs = self.runs() if with_program else []
        self.process.kill()
        for program in programs:
            os.kill(program, signal.SIGKILL)
        self.process.wait()
        fuse.unmount(str(self.path), is_lazy=True)
        self.wait()

    def wait(self):
        """Waits until the program has let the image go."""
        end = time.monotonic() + PATIENCE
        while time.monotonic() < end:
            with open(self.image, "rb") as file:
                if not is_locked(file):
                    return
            time.sleep(0.01)


def number_of(action, *arguments):
    """The name of the error that a call of the system ends in, or None, and what it gave."""
    try:
        return None, action(*arguments)
    except OSError as failure:
        return errno.errorcode.get(failure.errno, str(failure.errno)), None


def tree(path):
    """All names below a folder, each with its kind, mode and bytes or target, but for the folder's own."""
    found = {}
    for where, folders, files in os.walk(path):
        for name in folders + files:
            one = os.path.join(where, name)
            state = os.lstat(one)
            inner = os.path.relpath(one, path)
            if os.path.islink(one):
                found[inner] = ("link", os.readlink(one))
            elif os.path.isdir(one):
                found[inner] = ("folder", oct(state.st_mode))
            else:
                with open(one, "rb") as file:
                    found[inner] = ("file", oct(state.st_mode), file.read())
    return found


def difference(one, other):
    """Where two trees differ, in a few words, or an empty text."""
    names = sorted(name for name in one.keys() | other.keys() if one.get(name) != other.get(name))
    if not names:
        return ""
    name = names[0]
    return f"{len(names)} differ, the first one {name!r}: {str(one.get(name))[:120]} and {str(other.get(name))[:120]}"
