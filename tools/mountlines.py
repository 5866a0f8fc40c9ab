"""The lines that a mount gives the program: some wait for what is answered, and most of those that change files
don't."""
import collections
import fcntl
import os
import select

from session import GREATEST_SCRIPT, SLOT, Failed, Session, answer, brief, is_reply, shown

# So many bytes of lines are gathered before they are given, and so many may be unanswered.
GATHERED, WINDOW = 1 << 14, 1 << 18
# Where fewer slots are free, each line waits for its reply, so that its caller is told of a full image. What is free is
# looked at after so many bytes of lines: these and those that are unanswered never take so many slots.
ROOM, LOOK = 512, 1 << 17
# So often is a full image reclaimed at most for a line. Where that doesn't help, it is reclaimed again once something
# was removed, or after so many bytes of lines.
RECLAIMS, AGAIN = 4, 1 << 16
# What a pipe to the program takes, and one from it.
PIPE = 1 << 20
DF = b"df"


class Lines(Session):
    """A session whose lines can also be given without waiting for what is answered.

    A line that is *posted* is taken as done at once. So it has to be one that is accepted unless the image is full, and
    it waits yet where few slots are free. Where it is full after all, it is given again after a `reclaim`, with all
    that followed for the same path and what is below it; where that doesn't help, the session has failed."""

    def __init__(self, program, image):
        super().__init__(program, image)
        self.unsent, self.unsent_bytes = [], 0
        self.owed, self.owed_bytes, self.heard = collections.deque(), 0, []
        self.again, self.again_paths = [], set()
        self.free, self.slots, self.since_look, self.since_reclaim = 0, 0, 0, AGAIN
        self.is_changed = False

    def start(self):
        if self.process is not None:
            return
        super().start()
        for pipe in (self.process.stdin, self.process.stdout):
            try:
                fcntl.fcntl(pipe, fcntl.F_SETPIPE_SZ, PIPE)
            except OSError:
                pass  # It stays as it is.

    def end(self):
        if self.process is not None:
            self.settle()
        super().end()

    # ---- what is given and what is heard

    def ask(self, lines):
        """The replies to lines, which come after all that was posted: where something of that is to be given again,
        they are asked once more after it."""
        lines = list(lines)
        replies = super().ask(lines)
        if self.again:
            self.settle()
            replies = super().ask(lines)
        return replies

    def _exchange(self, lines):
        for line in lines:
            self._give(None, line)
        self._settle(0)
        heard, self.heard = self.heard, []
        return heard

    def _give(self, path, line):
        """Puts a line to those that are to be given. It has the path that it changes where nobody waits for it."""
        if b"\n" in line:
            raise Failed("a line has a newline in it")
        size = len(line) + 1
        self.unsent.append(line)
        self.owed.append((path, line))
        self.taken += size
        self.unsent_bytes += size
        self.owed_bytes += size

    def _settle(self, most):
        """Gives all that is to be given, and hears until lines of at most so many bytes are unanswered."""
        text = b"\n".join(self.unsent) + b"\n" if self.unsent else b""
        self.unsent, self.unsent_bytes, left = [], 0, memoryview(text)
        while left or (self.owed and self.owed_bytes > most):
            left = self._write(left)
            if left or self.owed_bytes > most:
                data = self._read(self.process.stdout.fileno(), left)
                if data is not None:
                    self._hear(data)

    def _hear(self, data):
        """Takes bytes of replies."""
        if not data:
            raise self._ended([self.owed[0][1]], [])
        *whole, self.rest = (self.rest + data).split(b"\n")
        for reply in whole:
            path, line = self.owed.popleft()
            self.owed_bytes -= len(line) + 1
            if not is_reply(reply):
                raise self._ended([line], [reply])
            if path is None:
                self.heard.append(reply)
            elif path is DF:
                self._looked(reply)
            elif reply != b"ok" or (self.again and self._is_again(path)):
                self.again_paths.add(path)
                self.again.append(line)

    def _is_again(self, path):
        """Whether a line for a path, or for what is above it, is to be given again."""
        while path and path not in self.again_paths:
            path = path.rpartition(b"/")[0]
        return bool(path)

    # ---- lines that change files

    def post(self, path, *lines):
        """Gives lines that change a path and are accepted unless the image is full."""
        if not self.has_room():
            self.change(*lines)
            return
        for line in lines:
            self._begin(len(line) + 1)
            self._give(path, line)
            self._count(line)
        if self.since_look > LOOK:
            self.since_look = 0
            self._give(DF, DF)
        if self.owed_bytes > WINDOW:
            self._settle(WINDOW // 2)
        elif self.unsent_bytes > GATHERED:
            self.push()

    def _begin(self, size):
        """Sees to it that the run takes so many bytes, and a `df` after them."""
        if self.process is not None and self.taken + size + 8 > GREATEST_SCRIPT:
            self.end()
        self.start()

    def _count(self, line):
        self.is_changed = True
        self.since_look += len(line)
        self.since_reclaim += len(line)

    def push(self):
        """Gives what was gathered, and hears what is there, without waiting for more."""
        self._settle(WINDOW)
        while self.owed and select.select([self.process.stdout], [], [], 0)[0]:
            self._hear(os.read(self.process.stdout.fileno(), SLOT))

    def settle(self):
        """Waits until all that was posted is done."""
        if self.process is not None:
            self._settle(0)
        lines, self.again, self.again_paths = self.again, [], set()
        if lines:
            self.ask([b"reclaim"])
        for line in lines:
            # One that is refused now is undone by one that was done since, which is given again too.
            reply = self.ask([line])[0]
            if reply.startswith(b"full "):
                raise Failed(f"{self.image}: what was done is lost from here on: {brief(line)}: {shown(reply)}")

    def change(self, *lines):
        """Gives lines that change files, and waits for their replies. Where one is full, it and those after it are
        given once more after a `reclaim`. So they are of one path, or one line."""
        self.settle()
        replies = self.ask(lines)
        if full_at(replies) is not None and self.since_reclaim >= AGAIN:
            replies = self._reclaim(lines, replies)
        for line, reply in zip(lines, replies):
            answer(reply, line)
            self._count(line)
        if self.since_look > LOOK:
            self.look()

    def _reclaim(self, lines, replies):
        """Gives up what isn't used any more, and gives lines again from the one that was full on: more than once, as
        long as that gives slots back. What is answered in the end."""
        last = -1
        for _ in range(RECLAIMS):
            self.ask([b"reclaim"])
            free, _ = self.look()
            if free <= last:
                break
            at, last = full_at(replies), free
            replies = replies[:at] + self.ask(lines[at:])
            if full_at(replies) is None:
                return replies
        self.since_reclaim = 0
        return replies

    def gives_back(self):
        """Tells that something is removed, so that slots may be reclaimed."""
        self.since_reclaim = AGAIN

    # ---- how much is free, and what is durable

    def has_room(self):
        """Whether many slots are free."""
        return self.free >= ROOM

    def look(self):
        """How many slots are free, and how many there are."""
        self.since_look = 0
        self._looked(self.ask([DF])[0])
        return self.free, self.slots

    def _looked(self, reply):
        words = answer(reply, DF)
        self.free, self.slots = int(words[1]), int(words[3])

    def sync(self):
        """Makes all that was given durable."""
        self.settle()
        self.do(b"sync")
        self.is_changed = False


def full_at(replies):
    """Which reply is the first that tells of a full image, or None."""
    return next((at for at, reply in enumerate(replies) if reply.startswith(b"full ")), None)
