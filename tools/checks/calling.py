"""What the sections of tools/check share: how the tools and the program are called, and what they said."""
import os
import subprocess
import sys
from pathlib import Path
from typing import NamedTuple

import fuse

TOP = Path(__file__).resolve().parent.parent.parent
TOOLS = TOP / "tools"


class Ended(NamedTuple):
    """A call that ended: its status, and what it wrote, as text."""

    status: int
    out: str
    err: str

    def __str__(self):
        return f"status {self.status}, out {self.out[:300]!r}, err {self.err[:600]!r}"


def text(data):
    return (data or b"").decode(errors="backslashreplace")


def call(words, folder=None, given=b"", seconds=600, environment=None):
    """Runs words to their end. One that takes longer is ended, and then its status is -9."""
    try:
        done = subprocess.run([str(it) if isinstance(it, Path) else it for it in words], input=given, cwd=folder,
                              env=environment, stdout=subprocess.PIPE, stderr=subprocess.PIPE, timeout=seconds)
    except subprocess.TimeoutExpired as late:
        return Ended(-9, text(late.stdout), text(late.stderr) + f"\nnot done after {seconds} seconds")
    return Ended(done.returncode, text(done.stdout), text(done.stderr))


def tool(name, *words, **how):
    """Runs a tool of tools/ to its end."""
    return call([sys.executable, TOOLS / name, *words], **how)


def is_slow(program):
    """Whether a program isn't proved, which bin/program keeps in a folder `unproved`: a section then takes a part of
    its cases."""
    return "unproved" in Path(program).parts


def has_fuse():
    """Whether an image can be mounted here, as far as can be told before."""
    return Path(fuse.DEVICE).exists() and (os.geteuid() == 0 or fuse.helper() is not None)


def new_image(program, path, slots=4_096):
    """A new image, and its path as text."""
    done = call([program, "format", path, str(slots)])
    if done.status != 0:
        raise RuntimeError(f"format {path}: {done}")
    return str(path)


def script(program, image, lines):
    """The replies to lines, as texts: the run's last line is its fault, where there was one."""
    return call([program, "run", image], given="".join(line + "\n" for line in lines).encode()).out.splitlines()


def cause(ended, name):
    """What is wrong with how a tool told of what it couldn't do: it is to be one line that begins with its name, and no
    traceback. None where nothing is."""
    lines = ended.err.splitlines()
    if "Traceback" in ended.err:
        return f"a traceback, which ends in {lines[-1]!r}"
    if ended.status == 0:
        return f"status 0: {ended}"
    if len(lines) != 1:
        return f"{len(lines)} lines on standard error: {ended.err[:300]!r}"
    return None if lines[0].startswith(f"{name}: ") else f"it doesn't begin with its name: {lines[0]!r}"
