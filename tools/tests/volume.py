"""A volume on an image, through the whole program: lines beside the plain map over new starts, what it keeps where it
is cut off at calls of the device, and what it says where slots are short."""
import re
import tempfile
from concurrent.futures import ThreadPoolExecutor

from plain import PlainMap
from script import TEARS, compare, given, is_full, new_image
from session import Session
import generated

SERVICES = ("sync", "checkpoint", "reclaim")
READS = ("read", "stat", "list")
PIECE = 4096


def reply_of(tree, line):
    """The reply of the plain map to a line, or `ok` to one that only keeps what was done."""
    return "ok" if line in SERVICES else tree.reply(line.encode()).decode()


def is_accepted(line, reply):
    """Whether a line is of a writing command that was accepted."""
    return reply == "ok" and line not in SERVICES and line.split(" ")[0] not in READS


def short(line):
    """A line as rows have it, with the digits of a write as one byte and its count."""
    found = re.fullmatch(r"(write \S+ \S+) ((..)\3+)", line)
    return f"{found[1]} {{{found[3]}*{len(found[2]) // 2}}}" if found else line


def script(lines):
    return given(map(short, lines))


def cut(passed, torn):
    """The directive by which the device passes on so many calls of a run, the power then being lost."""
    return f"-- fuse {passed + 1} {torn}\n"


def unsynced(lines):
    """The directive by which a run ends after these lines without a sync: its source fails after the last piece."""
    size = sum(len(line) + 1 for line in lines)
    return f"-- take {-(-size // PIECE) + 1}\n"


def written(call, status, last):
    """The replies before the last line of a call that ends so, or None where it doesn't."""
    is_such = call.status == status and call.written and call.written[-1] == last
    return call.written[:-1] if is_such else None


def calls_before(rows, scripts, slots):
    """How many calls of the device a run makes up to the end of the lines of each script, without the last sync."""
    calls = rows.show("".join(
        f"# calls\n-- slots {slots}\n-- run\n{unsynced(lines)}{script(lines)}" for lines in scripts))
    if any(call.written[-1:] != ["fault source"] for call in calls):
        raise ValueError("a run whose source fails ends otherwise")
    return [call.calls for call in calls]


class Kept:
    """What is so after each line of some: the replies, the accepted commands, and those that are durable."""

    def __init__(self, lines, questions):
        self.lines, self.questions, self.answers = lines, questions, {}
        self.replies, self.accepted, self.durable = [], [0], [0]
        tree = PlainMap()
        for line in lines:
            reply = reply_of(tree, line)
            self.replies.append(reply)
            self.accepted.append(self.accepted[-1] + is_accepted(line, reply))
            self.durable.append(self.accepted[-1] if line in SERVICES else self.durable[-1])

    def answered(self, count):
        """The answers to the questions after so many accepted commands."""
        if count not in self.answers:
            tree, end = PlainMap(), self.accepted.index(count)
            for line in self.lines[:end]:
                reply_of(tree, line)
            self.answers[count] = [reply_of(tree, question) for question in self.questions]
        return self.answers[count]

    def is_front(self, run, again):
        """Whether a run that was cut off left a front of the accepted commands that holds all that is durable."""
        replies = written(run, 3, "fault device")
        if replies is None or replies != self.replies[:len(replies)] or again.status != 0 or len(again.acks) != 1:
            return False
        count = again.acks[0]
        is_such = self.durable[len(replies)] <= count <= self.accepted[len(replies)]
        return is_such and again.written == self.answered(count)


def answers_alike(rows, report, folder):
    """3,000 lines with checkpoints and reclaimings, after which the tree is three nodes high, and a new start. Slow
    programs are given 300."""
    lines, tree = [], PlainMap()
    for made, line in enumerate(generated.lines(1, 300 if rows.is_slow else 3000), 1):
        lines += [line] + (["reclaim"] if made % 500 == 0 else ["checkpoint"] if made % 100 == 0 else [])
    image = new_image(rows, folder, "alike", 512)
    with Session(rows.betr, image) as session:
        replies = asked(session, lines)
        for line, reply in zip(lines, replies):
            report(reply == reply_of(tree, line), f"volume: lines and checkpoints: {line[:80]}: {reply[:80]}")
        walk = asked(session, ["walk"])[0].split()
        report(len(walk) == 5 and (rows.is_slow or int(walk[4]) >= 3), f"volume: the tree gets three nodes high: {walk}")
        answer_alike(session, report, tree, "after lines and checkpoints")
    with Session(rows.betr, image) as session:
        answer_alike(session, report, tree, "after lines, checkpoints and a new start")


def asked(session, lines):
    return [reply.decode() for reply in session.ask([line.encode() for line in lines])]


def answer_alike(session, report, tree, when):
    questions = generated.questions()
    for question, reply in zip(questions, asked(session, questions)):
        report(reply == reply_of(tree, question), f"volume: {when}: {question}: {reply[:80]}")


def early_nodes(rows, report):
    """Writes, for whose records a half of the log has room, write nodes early, under the first checkpoint and without a
    batch: each block before the slots stays as it was made, and slot 2, the first free one, has a node."""
    lines = ["create /f"] + [f"write /f {at * 2048} {'5a' * 2048}" for at in range(110)]
    stay = "-- begins 0 01\n-- bytes 1 16 0000000000000001\n" + "".join(
        f"-- begins {block} 00\n" for block in range(2, 132))
    end = f"-- status 5\n-- acks none\n{unsynced(lines + ['df'])}"
    replies = "".join(f"> {short(line)}\nok\n" for line in lines) + "> df\nok free 254 of 256\nfault source\n"
    begun = "# nodes are written early\n-- slots 256\n-- run\n"
    compare(rows, f"{begun}{end}{replies}{stay}-- bytes 164 0 42444e31\n", report)
    before, after = calls_before(rows, [lines[:1], lines], 256)
    report(after - before >= 16, f"volume: nodes are written early: {after - before} calls")


def calls_of_syncs(rows, report):
    """A sync with nothing waiting makes no call of the device, nor does one of the commands for whose records a half
    of the log has room; the next one does."""
    lines = ["mkdir /a", "sync"]
    calls = calls_before(rows, [lines, lines + ["sync"]], 24)
    report(calls[0] == calls[1], f"volume: a sync with nothing waiting makes no call: {calls}")
    name = "n" * 255
    lines = [f"mkdir /{name}", f"create /{name}/{name}"] + [
        f"write /{name}/{name} {at} {'5a' * 2048}" for at in range(99)]
    none, filled, past = calls_before(rows, [[], lines[:-1], lines], 256)
    report(none == filled < past, f"volume: calls of a log that fills: {none}, {filled}, {past}")


def cut_off_lines(rows, report):
    """600 lines with syncs and checkpoints, cut off at every fifth call of the device with each way of tearing; at
    fewer calls where the programs are slow."""
    lines = []
    for made, line in enumerate(generated.lines(5, 600), 1):
        lines += [line] + (["checkpoint"] if made % 200 == 0 else ["sync"] if made % 20 == 0 else [])
    kept = Kept(lines, generated.questions())
    before, after = calls_before(rows, [[], lines], 40)
    report(len(lines) == 630 and after - before >= 400, f"volume: lines that are cut off: {after - before} calls")
    stops = rows.some(range(before, after, 5), 29)
    texts = ["".join(cut_off_row(lines, kept.questions, 40, passed, torn) for passed in stops) for torn in TEARS]
    with ThreadPoolExecutor() as pool:
        shown = list(pool.map(rows.show, texts))
    for torn, calls in zip(TEARS, shown):
        counts = [again.acks[0] if again.acks else 0 for again in calls[1::2]]
        report(len(calls) == 2 * len(stops) and counts == sorted(counts), f"volume: a later cut leaves no less: {torn}")
        for passed, run, again in zip(stops, calls[::2], calls[1::2]):
            report(kept.is_front(run, again), f"volume: lines cut off after {passed} calls: {torn}")


def cut_off_row(lines, questions, slots, passed, torn):
    label = f"cut off after {passed} calls, {torn}"
    return f"# {label}\n-- slots {slots}\n-- run\n{cut(passed, torn)}{script(lines)}-- again\n{script(questions)}"


# What may be listed once so many of the lines were answered: what the last sync made durable, or the next one would.
SYNCED = ["mkdir /a", "sync", "mkdir /b", "sync"]
LEFT = [("ok", "ok a/"), ("ok", "ok a/"), ("ok a/", "ok a/ b/"), ("ok a/", "ok a/ b/"), ("ok a/ b/", "ok a/ b/")]


def stopped_syncs(rows, report):
    """Two syncs that are stopped at each call: the second directory is never there without the first one."""
    before, after = calls_before(rows, [[], SYNCED], 24)
    report(after - before == 10, f"volume: two syncs make ten calls: {after - before}")
    stops = rows.some([(passed, torn) for passed in range(before, after + 1) for torn in TEARS], 4)
    calls = rows.show("".join(cut_off_row(SYNCED, ["list /"], 24, *stop) for stop in stops))
    for (passed, torn), run, again in zip(stops, calls[::2], calls[1::2]):
        done = run.written.count("ok")
        is_such = (done == len(SYNCED)) == (passed == after) and again.status == 0
        report(is_such and len(again.written) == 1 and again.written[0] in LEFT[done],
               f"volume: a sync stopped after {passed} calls: {torn}: {again.written}")
    report(len(calls) == 2 * len(stops), "volume: stopped syncs were run")


def full_is_reclaimed(rows, report, folder, slots):
    """Writes go on until no slot is free for one; the file goes, and its slots are free again."""
    with Session(rows.betr, new_image(rows, folder, f"reclaimed{slots}", slots)) as session:
        replies = asked(session, ["mkdir /d", "create /d/f"])
        for at in range(1000):
            replies += asked(session, [f"write /d/f {at * 2048} {'5a' * 2048}"])
            if replies[-1] != "ok":
                break
        report(set(replies[:-1]) == {"ok"} and is_full(replies[-1]), f"volume: {slots} slots get full: {replies[-1]}")
        free, full = asked(session, ["df", "create /g"])
        report(is_full(full) and full.split()[1] == free.split()[2], f"volume: {slots} full slots: {free}, {full}")
        lines = ["remove /d", "reclaim", "checkpoint", "create /g", "list /"]
        report(asked(session, lines) == ["ok"] * 4 + ["ok g"], f"volume: {slots} full slots are reclaimed")


def full_lines(rows, report, folder, slots):
    """3,000 lines on so few slots that some find none free, each of which has a reclaiming after it, leave the tree of
    the others, which a new start finds too. Slow programs are given 300."""
    image, tree, full = new_image(rows, folder, f"full{slots}", slots), PlainMap(), 0
    with Session(rows.betr, image) as session:
        for line in generated.lines(3, 300 if rows.is_slow else 3000):
            reply = asked(session, [line])[0]
            if is_full(reply):
                full += 1
                asked(session, ["reclaim"])
            else:
                report(reply == reply_of(tree, line), f"volume: {slots} slots: {line[:80]}: {reply[:80]}")
        report(rows.is_slow or full >= 10, f"volume: {slots} slots were full {full} times")
        report(asked(session, ["checkpoint"]) == ["ok"], f"volume: {slots} slots have room for a checkpoint")
    with Session(rows.betr, image) as session:
        answer_alike(session, report, tree, f"{slots} slots, after a new start")


def test(rows, report):
    early_nodes(rows, report)
    calls_of_syncs(rows, report)
    stopped_syncs(rows, report)
    cut_off_lines(rows, report)
    with tempfile.TemporaryDirectory() as folder:
        answers_alike(rows, report, folder)
        for slots in (24, 40):
            full_is_reclaimed(rows, report, folder, slots)
            full_lines(rows, report, folder, slots)
