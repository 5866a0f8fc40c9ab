"""A plain map of paths, as docs/COMMANDS.md says it, and the replies of it.

It is written from the rules on that page alone, and shares nothing with the program or its definitions.
"""

REFUSALS = {
    1: "not-found", 2: "exists", 3: "no-parent", 4: "not-dir", 5: "is-dir",
    6: "inside", 7: "root", 8: "too-big", 9: "bad-path", 10: "bad-line",
}
(NOT_FOUND, EXISTS, NO_PARENT, NOT_DIR, IS_DIR, INSIDE, ROOT, TOO_BIG, BAD_PATH, BAD_LINE) = range(1, 11)

GREATEST_FILE = 1 << 30
# A file of at most so many bytes is copied and moved without a walk.
SMALL_FILE = 1_024
ROOT_PATH = ()


class Refused(Exception):
    """A line's refusal, by its number."""


def is_name(text):
    return 1 <= len(text) <= 255 and text not in (b".", b"..") and all(b > 0x20 and b not in (0x2F, 0x7F) for b in text)


def read_path(text):
    if text == b"/":
        return ROOT_PATH
    names = text[1:].split(b"/")
    if not text.startswith(b"/") or len(text) > 512 or not all(map(is_name, names)):
        raise Refused(BAD_PATH)
    return tuple(names)


def read_number(text, greatest=(1 << 32) - 1):
    if not text or text.strip(b"0123456789") or (len(text) > 1 and text.startswith(b"0")) or int(text) > greatest:
        raise Refused(BAD_LINE)
    return int(text)


def read_mode(text):
    if len(text) != 4 or text.strip(b"01234567"):
        raise Refused(BAD_LINE)
    return int(text, 8)


def read_hex(text):
    if not 2 <= len(text) <= 4096 or len(text) % 2 or text.strip(b"0123456789abcdefABCDEF"):
        raise Refused(BAD_LINE)
    return bytes.fromhex(text.decode())


def is_under(path, of):
    return path[: len(of)] == of


class PlainMap:
    """A map from paths to files. A directory has None, a file its bytes; each has a mode."""

    def __init__(self):
        self.entries = {ROOT_PATH: None}
        self.modes = {ROOT_PATH: 0}

    def want(self, path):
        if path not in self.entries:
            raise Refused(NOT_FOUND)

    def want_file(self, path):
        self.want(path)
        if self.entries[path] is None:
            raise Refused(IS_DIR)

    def want_new(self, path):
        if path in self.entries:
            raise Refused(EXISTS)
        self.want_parent(path)

    def want_parent(self, path):
        if path[:-1] not in self.entries:
            raise Refused(NO_PARENT)
        if self.entries[path[:-1]] is not None:
            raise Refused(NOT_DIR)

    def mkdir(self, p):
        path = read_path(p)
        self.want_new(path)
        self.entries[path], self.modes[path] = None, 0

    def create(self, p):
        path = read_path(p)
        self.want_new(path)
        self.entries[path], self.modes[path] = b"", 0

    def write(self, p, off, data):
        off, data = read_number(off), read_hex(data)
        path = read_path(p)
        self.want_file(path)
        end = off + len(data)
        if end > GREATEST_FILE:
            raise Refused(TOO_BIG)
        old = self.entries[path].ljust(off, b"\0")
        self.entries[path] = old[:off] + data + old[end:]

    def truncate(self, p, size):
        size = read_number(size)
        path = read_path(p)
        self.want_file(path)
        if size > GREATEST_FILE:
            raise Refused(TOO_BIG)
        self.entries[path] = self.entries[path][:size].ljust(size, b"\0")

    def remove(self, p):
        path = read_path(p)
        if path == ROOT_PATH:
            raise Refused(ROOT)
        self.want(path)
        self.entries, self.modes = (self.without(path, of) for of in (self.entries, self.modes))

    @staticmethod
    def without(path, of):
        return {q: v for q, v in of.items() if not is_under(q, path)}

    @staticmethod
    def copied(a, b, of):
        return {b + q[len(a):]: v for q, v in of.items() if is_under(q, a)}

    def rename(self, p, q):
        a, b = read_path(p), read_path(q)
        if a == ROOT_PATH:
            raise Refused(ROOT)
        self.want(a)
        if is_under(b, a):
            raise Refused(INSIDE)
        if b in self.entries and (self.entries[a] is None or self.entries[b] is None):
            raise Refused(EXISTS)
        self.want_parent(b)
        self.entries, self.modes = (self.without(a, of) | self.copied(a, b, of) for of in (self.entries, self.modes))

    def clone(self, p, q):
        a, b = read_path(p), read_path(q)
        self.want(a)
        self.want_new(b)
        self.entries, self.modes = (of | self.copied(a, b, of) for of in (self.entries, self.modes))

    def is_small(self, path):
        """Whether a path is a file's that is copied and moved without a walk."""
        entry = self.entries[path]
        return entry is not None and len(entry) <= SMALL_FILE

    def walks(self, line):
        """Whether a line, which is about to be accepted, is a clone or a rename of which `walk` tells."""
        verb, *words = line.split(b" ")
        if verb not in (b"clone", b"rename"):
            return False
        a, b = map(read_path, words)
        return not self.is_small(a) or b in self.entries and not self.is_small(b)

    def chmod(self, p, mode):
        mode = read_mode(mode)
        path = read_path(p)
        self.want(path)
        self.modes[path] = mode

    def read(self, p, off, size):
        off, size = read_number(off), read_number(size, 4096)
        path = read_path(p)
        self.want_file(path)
        return self.entries[path][off : off + size].hex().encode()

    def stat(self, p):
        path = read_path(p)
        self.want(path)
        entry = self.entries[path]
        return (b"dir" if entry is None else b"file %d" % len(entry)) + b" %04o" % self.modes[path]

    def list(self, p, after=None):
        if after is not None and not is_name(after):
            raise Refused(BAD_PATH)
        path = read_path(p)
        self.want(path)
        if self.entries[path] is not None:
            raise Refused(NOT_DIR)
        names = sorted(q[-1] for q in self.entries if q and q[:-1] == path and (after is None or q[-1] > after))
        words = [n + (b"/" if self.entries[path + (n,)] is None else b"") for n in names[:100]]
        return b" ".join(words + [b"+"] * (len(names) > 100))

    COMMANDS = {
        b"mkdir": (mkdir, 1, 1), b"create": (create, 1, 1), b"write": (write, 3, 3), b"truncate": (truncate, 2, 2),
        b"remove": (remove, 1, 1), b"rename": (rename, 2, 2), b"clone": (clone, 2, 2), b"read": (read, 3, 3),
        b"chmod": (chmod, 2, 2), b"stat": (stat, 1, 1), b"list": (list, 1, 2),
    }

    def reply(self, line):
        """The reply to a line that isn't `stop` or `walk`, without its newline."""
        verb, *words = line.split(b" ")
        try:
            if len(line) > 8192 or b"" in words or verb not in self.COMMANDS:
                raise Refused(BAD_LINE)
            command, least, most = self.COMMANDS[verb]
            if not least <= len(words) <= most:
                raise Refused(BAD_LINE)
            answer = command(self, *words)
            return b"ok " + answer if answer else b"ok"
        except Refused as refusal:
            number = refusal.args[0]
            return b"no %d %s" % (number, REFUSALS[number].encode())
