"""What an image can't hold, and what stands for it there: one convention for all tools, which docs/TOOLS.md tells.

- Names: a byte that can't be in a name of an image is escaped, as `%20`, and `%` itself as `%25`.
- Symbolic links: files of the mode 7000, whose bytes are the target.
- Times: each directory has a file `.betr-times` of them, for itself (`.`) and what isn't a directory in it.
- Names that begin with `.betr-` are the tools' own and are hidden.
"""
import re
import stat as modes

from session import GREATEST_PATH, below, read, stat

LINK_MODE = 0o7000
OWN = b".betr-"
TIMES = OWN + b"times"
# What has the mode 0000 in the image and no time there was made by lines, and gets these on the host.
NEW_FILE, NEW_DIRECTORY = 0o644, 0o755
GREATEST_NAME = 255

ODD = re.compile(rb"[\x00-\x20\x7f%]")
ODD_BUT_PERCENT = re.compile(rb"[\x00-\x20\x7f]")
ESCAPE = re.compile(rb"%(0[1-9A-F]|1[0-9A-F]|20|25|7F)")
TIME = re.compile(rb"(-?[0-9]{1,20}) ([^ ]+)")


def escaped(match):
    return b"%%%02X" % match[0][0]


def image_name(name):
    """The name in the image of a name of the host. It may have too many bytes there."""
    return ODD.sub(escaped, name)


def host_name(name):
    """The name on the host of a name in the image. What isn't an escape stays as it is."""
    return ESCAPE.sub(lambda match: bytes([int(match[1], 16)]), name)


def image_path(word):
    """The path in the image that a word of a tool says, or None where it says none. Spaces and control bytes may be
    there as they are, and a `/` at the end; a `%` is one of the image's name."""
    path = ODD_BUT_PERCENT.sub(escaped, word)
    path = path.rstrip(b"/") or path[:1]
    is_such = path.startswith(b"/") and len(path) <= GREATEST_PATH
    return path if is_such and (path == b"/" or all(map(is_name, path[1:].split(b"/")))) else None


def is_name(name):
    """Whether bytes that are escaped where they have to be are a name of an image that isn't the tools' own."""
    return 1 <= len(name) <= GREATEST_NAME and name not in (b".", b"..") and not is_own(name)


def is_own(name):
    """Whether a name in the image is one of the tools' own, which are hidden."""
    return name.startswith(OWN)


def why_not_held(found):
    """Why the image can't hold what the host's `lstat` found, or None where it can."""
    mode = found.st_mode
    if modes.S_ISLNK(mode) or modes.S_ISDIR(mode) or modes.S_ISREG(mode):
        return None
    kinds = {modes.S_IFSOCK: "a socket", modes.S_IFIFO: "a pipe", modes.S_IFCHR: "a device", modes.S_IFBLK: "a device"}
    return kinds.get(modes.S_IFMT(mode), "neither a file nor a directory")


def why_no_name(name, path):
    """Why a name and its path can't be in an image, or None where they can."""
    if is_own(name):
        return "a name that the tools keep for themselves"
    if len(name) > GREATEST_NAME:
        return "a name of more than 255 bytes"
    return "a path of more than 512 bytes" if len(path) > GREATEST_PATH else None


def is_link(found):
    """Whether what `stat` tells of a path of the image is a symbolic link."""
    return not found.is_dir and found.mode == LINK_MODE


def kept_mode(found):
    """The mode in the image of what the host's `lstat` found, and None of a file whose mode stands for links there."""
    if modes.S_ISLNK(found.st_mode):
        return LINK_MODE
    mode = modes.S_IMODE(found.st_mode)
    return None if mode == LINK_MODE and not modes.S_ISDIR(found.st_mode) else mode


def shown_mode(found, has_time):
    """The mode on the host of what `stat` tells of a path of the image, which isn't a link."""
    if found.mode or has_time:
        return found.mode
    return NEW_DIRECTORY if found.is_dir else NEW_FILE


def times_in(data):
    """The times that a file of them tells, in nanoseconds by name. Of two lines of a name the last one counts; what is
    no line of a time, or has no newline, is passed over."""
    found = {}
    for line in data.split(b"\n")[:-1]:
        if match := TIME.fullmatch(line):
            found[match[2]] = int(match[1])
    return found


def time_line(name, time):
    """A line of a file of times, with its newline."""
    return b"%d %s\n" % (time, name)


def times_text(times):
    """A file of times, with a line for each."""
    return b"".join(time_line(name, time) for name, time in sorted(times.items()))


def times_path(directory):
    """The path of the file of times of a directory of the image, or None where that would be too long."""
    path = below(directory, TIMES)
    return path if len(path) <= GREATEST_PATH else None


def times(session, directory, found=None):
    """The times that a directory of the image has, in nanoseconds by name, its own being that of `.`; None where it has
    no file of them. `found` is what `stat` tells of that file, where it has been asked."""
    path = times_path(directory)
    if path is not None and found is None:
        found = stat(session, path)
    if found is None or found.is_dir:
        return None
    return times_in(b"".join(read(session, path, found.size)))
