"""What fails: a device at each of its calls in turn, and the power at each call, with each way of tearing.

After each the image is read again: it has the tree after as many commands as it counts, which are accepted ones, and
those among them that a sync, a checkpoint or a reclaiming kept. Slow programs are stopped at some of these calls.
"""
from rich import RICH, SLOTS
from script import KEEPING, TEARS, Lines, questions, shown

FAULT = "fault device"

# What acknowledges all commands that were accepted before it.
ACKNOWLEDGING = ("sync", "stop")

# A script of each step of the log and of checkpoints.
SHORT = Lines([
    "mkdir /a",
    "sync",
    "create /a/f",
    "write /a/f 0 41",
    "checkpoint",
    "clone /a /b",
    "sync",
    "rename /b /c",
    "reclaim",
    "remove /c",
    "stop",
])

SHORT_QUESTIONS = questions(["/", "/a", "/a/f", "/b", "/b/f", "/c", "/c/f"])

PIECES = 160

AFTER_PIECES = {
    40: ["clone /d /e"],
    100: ["remove /e/f"],
    110: ["checkpoint"],
    130: ["rename /d/f /e/g", "sync", "rename /e/g /d/f"],
    150: ["remove /e"],
    155: ["reclaim"],
}


def long_lines():
    """Pieces of a file, each at another place than the one before it, with other lines between: nodes flush, split and
    are written early."""
    lines = ["mkdir /d", "create /d/f"]
    for made in range(1, PIECES + 1):
        lines.append(f"write /d/f {made * 37 % PIECES * 2_048} {{{made:02x}*2048}}")
        lines += AFTER_PIECES.get(made, ["sync"] if made % 20 == 0 else [])
    return lines


LONG = Lines(long_lines())

LONG_QUESTIONS = questions(["/", "/d", "/d/f", "/e", "/e/f", "/e/g"])
LONG_QUESTIONS += [f"read /d/f {place * 2_048} 2048" for place in range(0, PIECES, 5)]

# Lines on the rich image, of which the first ones read nodes that no line has read before.
MORE = Lines([
    "stat /d/f",
    "read /h/f 90000 4096",
    "list /",
    "write /e/f 40000 aabb",
    "clone /d /k",
    "sync",
    "rename /h /l",
    "read /l/f 0 9",
    "checkpoint",
    "remove /e",
    "reclaim",
    "create /w",
    "truncate /k/f 3",
    "sync",
    "read /k/f 0 9",
], RICH.plain)

MORE_QUESTIONS = questions(["/", "/d", "/d/f", "/e", "/e/f", "/h/f", "/l/f", "/k", "/k/f", "/w"], ["0 9", "39000 4096"])


class Script:
    """Lines on an image, what they are answered, and what the questions are after so many commands."""

    def __init__(self, label, slots, lines, asked, before=None):
        self.label, self.slots, self.lines, self.asked = label, slots, lines, asked
        self.before = before.lines if before else []
        plain = before.after() if before else Lines([]).plain
        self.first, self.counts, self.answers = plain.accepted, [], {}
        self.answer(plain)
        for line in lines.lines:
            plain.reply(line)
            self.counts.append(plain.accepted)
            self.answer(plain)

    def answer(self, plain):
        if plain.accepted not in self.answers:
            self.answers[plain.accepted] = [plain.reply(line) for line in self.asked]

    def begun(self):
        """The rows that make the image and keep it."""
        made = ["-- run"] + [f"> {line}" for line in self.before] if self.before else []
        return [f"# {self.label}", f"-- slots {self.slots}"] + made + ["-- keep"]

    def run(self, *how):
        return ["-- back", "-- run", *how] + [f"> {line}" for line in self.lines.lines]

    def ask(self):
        return ["-- run"] + [f"> {line}" for line in self.asked]

    def acks(self, done):
        """What is acknowledged once so many of the lines were answered."""
        return [count for line, count in zip(self.lines.lines[:done], self.counts) if line in ACKNOWLEDGING]

    def calls(self, rows):
        """How many calls of the device the lines make where none fails, or None where they aren't answered or
        acknowledged rightly: the end of a script without `stop` acknowledges too."""
        last = rows.show("\n".join(self.begun() + self.run()) + "\n")[-1]
        acks = self.acks(len(self.counts)) + ([] if self.lines.lines[-1] == "stop" else self.counts[-1:])
        is_right = last.status == 0 and last.written == self.lines.replies and last.acks == acks
        return last.calls if is_right else None

    def wrong(self, stopped, asked, call):
        """What is wrong with a run that was stopped at this call of the device, after which it makes none, and with the
        run after it, if anything is."""
        replies = stopped.written[:-1]
        if stopped.calls != call:
            return f"{stopped.calls} calls"
        if stopped.status != 3 or stopped.written[-1:] != [FAULT]:
            return f"status {stopped.status}, {stopped.written[-1:]}"
        if replies != self.lines.replies[: len(replies)]:
            return f"replies {replies}"
        if stopped.acks != self.acks(len(replies)):
            return f"acks {stopped.acks}"
        kept, accepted = self.first, self.first
        for line, count in zip(self.lines.lines[: len(replies)], self.counts):
            accepted = count
            kept = count if line in KEEPING else kept
        if asked.status != 0 or len(asked.acks) != 1 or not kept <= asked.acks[0] <= accepted:
            return f"status {asked.status} after it, acks {asked.acks}, and {kept} to {accepted} commands"
        if asked.written != self.answers[asked.acks[0]]:
            differing = [pair for pair in zip(self.asked, asked.written, self.answers[asked.acks[0]]) if pair[1] != pair[2]]
            return f"after {asked.acks[0]} commands {differing}"
        return None

    def stopped(self, rows, report, hows):
        """Runs the lines once in each of these ways, each of which stops them, and asks what is left. At which lines
        they were stopped."""
        calls = shown(rows, self.begun(), [self.run(*how) + self.ask() for how in hows])
        for how, (stopped, asked) in zip(hows, calls):
            wrong = self.wrong(stopped, asked, int(how[0].split(" ")[2]))
            report(wrong is None, f"{self.label}: {how}: {wrong}")
        return {len(stopped.written) - 1 for stopped, _asked in calls}


def cut_off(rows, report, script, least, step, share):
    """A script that is cut off at every so many calls of the device, the power then being lost: each way of tearing in
    turn where that is more than one call, and else each at each call."""
    calls = script.calls(rows)
    report(calls is not None and calls >= least, f"{script.label}: {calls} calls")
    cuts = range(1, (calls or 0) + 1, step)
    hows = [[f"-- fuse {cut} {how}"] for index, cut in enumerate(cuts)
            for how in (TEARS if step == 1 else [TEARS[index % len(TEARS)]])]
    at = script.stopped(rows, report, rows.some(hows, share))
    early = sum(line in at for line, text in enumerate(script.lines.lines) if text.startswith("write "))
    report(step == 1 or rows.is_slow or early >= 5, f"{script.label}: {early} lines wrote nodes early")


def failing(rows, report, script, least):
    """A script whose device fails at one call, each in turn; then the power is lost, or isn't."""
    calls = script.calls(rows)
    report(calls is not None and calls >= least, f"{script.label}: {calls} calls")
    hows = [[f"-- fail {call}"] for call in range(1, (calls or 0) + 1)]
    hows += [[f"-- fail {call}", f"-- crash {TEARS[call % len(TEARS)]}"] for call in range(1, (calls or 0) + 1)]
    script.stopped(rows, report, rows.some(hows, 41))


def test(rows, report):
    cut_off(rows, report, Script("a short script", 24, SHORT, SHORT_QUESTIONS), 100, 1, 29)
    cut_off(rows, report, Script("a long script", 80, LONG, LONG_QUESTIONS), 500, 7, 9)
    failing(rows, report, Script("lines on a rich image", SLOTS, MORE, MORE_QUESTIONS, RICH), 300)
