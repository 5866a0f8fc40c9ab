"""Runs of a shell in which one call of the device, the source or the sink fails, each such call in turn, and what they
leave; scripts that are cut off at each byte; walks, full images, long scripts and a bad slot. Slow programs are given
some of these calls and cuts.

What is wanted comes from docs/COMMANDS.md and docs/FORMAT.md. Where these leave a choice, as what a loss of power keeps
of commands that weren't acknowledged, each is right.
"""
import re
import subprocess
import tempfile
from pathlib import Path

from plain import PlainMap
from script import TEARS, Lines, given, is_full, new_image
from session import GREATEST_SCRIPT

# A file and its clone are written apart, and all is made durable.
SCRIPT = [
    "create /a", "write /a 0 01", "clone /a /b", "read /b 0 1", "write /a 0 02", "write /b 0 03",
    "read /a 0 1", "read /b 0 1", "sync", "checkpoint", "reclaim", "stop",
]
ACCEPTED = 5
SYNCED = 9
QUESTIONS = ["stat /a", "read /a 0 9", "stat /b", "read /b 0 9"]
TOOLS = Path(__file__).resolve().parent.parent


def replies(lines, begun=()):
    """The replies of the plain map to lines, after others."""
    return Lines([*begun, *lines]).replies[len(begun):]


REPLIES = replies(SCRIPT)
CHANGES = [line for line in SCRIPT if line.split(" ")[0] in ("create", "write", "clone")]
LEFT = [replies(QUESTIONS, CHANGES[:count]) for count in range(ACCEPTED + 1)]


def run_with(label, directives, tear):
    """A row: the script with these directives, a loss of power, and a run that asks what is left."""
    says = "".join(f"-- {directive}\n" for directive in [*directives, f"crash {tear}"])
    return f"# {label}\n-- run\n{says}{given(SCRIPT)}-- again\n{given(QUESTIONS)}"


def is_front(ran, then, last, more):
    """Whether a run wrote first replies and then this line, and a run after it finds what the first of the accepted
    commands left, at least those that were acknowledged, and at most those that were answered, and `more`."""
    done = len(ran.written) - len(last)
    if ran.written != REPLIES[:done] + last or bool(ran.acks) != (done + more >= SYNCED):
        return False
    least = ACCEPTED if ran.acks else 0
    most = sum(line in CHANGES for line in SCRIPT[:done + more])
    return then.status == 0 and then.written in LEFT[least : most + 1]


def pairs(shown):
    return zip(shown[::2], shown[1::2])


def each_call(rows, calls, directives):
    """For each call of the device, the run with what `directives` gives for it, and the run after it. The ways of
    tearing take turns."""
    texts = [run_with(f"call {call}", directives(call), TEARS[call % len(TEARS)])
             for call in rows.some(range(1, calls + 1), 13)]
    return [(ran, then) for ran, then in rows.show_each(texts)]


def is_last(ran):
    """Whether a run made no call of the device after the one that its label names, which failed."""
    return ran.label == f"call {ran.calls}"


def failing_device(rows, report):
    """Each failing call of the device, and a device that stops at each call."""
    whole = rows.show(run_with("no call fails", [], "old"))[0]
    report(whole.written == REPLIES and whole.status == 0 and whole.calls > 100, "the script without a failing call")
    for ran, then in each_call(rows, whole.calls, lambda call: [f"fail {call}"]):
        is_right = ran.status == 3 and ran.faults == 1 and is_front(ran, then, ["fault device"], 0) and is_last(ran)
        report(is_right, f"failing device: {ran.label}: {ran.status} {ran.calls} {ran.written} {then.written}")
    for ran, then in each_call(rows, whole.calls, lambda call: [f"fuse {call} {TEARS[call % len(TEARS)]}"]):
        is_right = ran.status == 3 and is_front(ran, then, ["fault device"], 0) and is_last(ran)
        report(is_right, f"stopped device: {ran.label}: {ran.status} {ran.calls} {ran.written} {then.written}")


def failing_takes(rows, report):
    """The script has 129 bytes, which are 19 takes of up to seven; after `stop` there is none."""
    takes = rows.some(range(1, 23), 6)
    text = "".join(run_with(f"take {take}", ["piece 7", f"take {take}"], "old") for take in takes)
    for take, (ran, then) in zip(takes, pairs(rows.show(text))):
        last, status = (["fault source"], 5) if take <= 19 else ([], 0)
        report(ran.status == status and is_front(ran, then, last, 0), f"failing take {take}: {ran.written} {then.written}")


def failing_puts(rows, report):
    """Each of the twelve replies is one put; the command whose reply isn't taken was executed."""
    puts = rows.some(range(1, 15), 4)
    text = "".join(run_with(f"put {put}", [f"put {put}"], "old") for put in puts)
    for put, (ran, then) in zip(puts, pairs(rows.show(text))):
        more, status = (1, 9) if put <= 12 else (0, 0)
        report(ran.status == status and is_front(ran, then, [], more), f"failing put {put}: {ran.written} {then.written}")


# A write over the border of a block, after zeros.
OVER_A_BORDER = ["create /f", "write /f 1022 616263", "stat /f", "read /f 1020 5", "read /f 1025 9"]


def cut_scripts(rows, report, lines):
    """A script that is cut off after each byte gives no fault, and its whole lines their replies."""
    script = "".join(line + "\n" for line in lines)
    cuts = rows.some(range(len(script) + 1), 11)
    shown = rows.show("".join(f"# cut {cut}\n-- run\n-- cut {cut}\n{given(lines)}" for cut in cuts))
    for cut, ran in zip(cuts, shown):
        want = replies(script[:cut].splitlines())
        report(ran.status == 0 and ran.written == want, f"the first {cut} bytes: {ran.written}, and not {want}")
    report(len(shown) == len(cuts), "as many rows as cuts")


# What may be listed once so many lines were answered by a run that was stopped: what the sync made durable, and what
# the run's end would.
STOPPED = ["mkdir /a", "sync", "mkdir /b"]
LISTED = [["ok"], ["ok", "ok a/"], ["ok a/"], ["ok a/", "ok a/ b/"]]


def stopped_run(rows, report):
    """A run with a sync between two lines, stopped at each call of the device: the second directory is never there
    without the first one, which is there from the sync's acknowledgement on."""
    whole = rows.show(f"# no call fails\n{given(STOPPED)}")[0]
    report(whole.status == 0 and whole.acks == [1, 2] and whole.calls > 10, f"a run with a sync: {whole.calls} {whole.acks}")
    texts = [f"# call {call}\n-- run\n-- fuse {call} {TEARS[call % len(TEARS)]}\n{given(STOPPED)}-- again\n> list /\n"
             for call in rows.some(range(1, whole.calls + 1), 7)]
    for ran, then in rows.show_each(texts):
        done = ran.written[:-1]
        is_right = ran.status == 3 and ran.written[-1:] == ["fault device"] and done == ["ok"] * len(done) and is_last(ran)
        is_right = is_right and ran.acks == [1] * (len(done) >= 2) and then.status == 0
        report(is_right and len(then.written) == 1 and then.written[0] in LISTED[len(done)],
               f"a run with a sync, stopped: {ran.label}: {ran.written} {ran.acks} {then.written}")


def failed_sync(rows, report):
    """A sync whose third write fails, that of the commit block, acknowledges nothing. Two writes and a barrier come
    before it, and before those the calls of a run that begins."""
    begun = rows.show("# no line\n-- run\n")[0].calls
    text = f"# a failed sync\n-- run\n-- fail {begun + 4}\n> mkdir /a\n> sync\n-- again\n> list /\n"
    ran, then = rows.show(text)
    report(ran.status == 3 and ran.written == ["ok", "fault device"] and ran.acks == [], "a failed sync")
    report(then.written in (["ok a/"], ["ok"]), "a run after a failed sync")


def short_walks(rows, report, slots):
    """Clones of the root visit few nodes, however often they are made."""
    lines = ["clone / /s1", "walk", "clone / /s2", "walk", "clone / /s3", "walk", "list /s3", "list /"]
    (ran,) = rows.show(f"# walks\n-- slots {slots}\n{given(lines)}")
    walks = [re.fullmatch(r"ok walk (\d+) of (\d+)", reply) for reply in ran.written[1:6:2]]
    report(all(walk and int(walk[2]) >= 2 and int(walk[1]) <= 5 * int(walk[2]) + 2 for walk in walks), f"{ran.written}")
    others = [reply for at, reply in enumerate(ran.written) if at not in (1, 3, 5)]
    report(others == ["ok", "ok", "ok", "ok s1/ s2/", "ok s1/ s2/ s3/"], f"clones of the root: {others}")


ROOM_AGAIN = ["remove /d", "reclaim", "checkpoint", "create /g", "list /"]


def full_image(rows, report, pieces, label):
    """An image that was full has room again once what was removed is reclaimed. How many lines were done before it was
    full."""
    lines = ["mkdir /d", "create /d/f"] + [f"write /d/f {2048 * at} {{5a*2048}}" for at in range(pieces)]
    (ran,) = rows.show(f"# full\n{given(lines + ROOM_AGAIN)}")
    writes, rest = ran.written[:-5], ran.written[-5:]
    done = next((at for at, reply in enumerate(writes) if reply != "ok"), len(writes))
    full = [re.fullmatch(r"full (\d+) (\d+)", reply) for reply in writes[done:]]
    report(ran.status == 0 and rest == ["ok", "ok", "ok", "ok", "ok g"], f"{label}: no room after it was reclaimed: {rest}")
    report(done > 10 and len(full) > 0 and len(ran.written) == len(lines) + 5, f"{label}: {done} lines done, {len(full)} full")
    report(all(told and int(told[1]) < int(told[2]) for told in full), f"{label}: another reply where it is full")
    return done


def full_images(rows, report):
    """The lines go on where it is full, or end with the first that has no room."""
    done = full_image(rows, report, 400, "a full image")
    report(full_image(rows, report, done - 1, "an image that gets full") == done, "the first line that has no room")


def worn_level(rows, report):
    """Clones of the root add a level each, at most, until a level is worn. A slow program makes a hundred of them,
    which wear none."""
    if rows.is_slow:
        (ran,) = rows.show("# clones\n-- slots 4200\n" + given(f"clone / /s{at}" for at in range(100)))
        report(ran.status == 0 and ran.written == ["ok"] * 100, f"a hundred clones: {ran.written[-1:]}")
        return
    (ran,) = rows.show("# worn\n-- slots 4200\n" + given(f"clone / /s{at}" for at in range(4000)))
    oks = ran.written[:-1]
    report(ran.status == 8 and ran.written[-1:] == ["fault worn level"], f"another fault: {ran.written[-1:]}")
    report(all(reply == "ok" for reply in oks) and len(oks) >= 999, f"{len(oks)} clones")


BAD_LINE, TOO_LONG = b"no 10 bad-line\n", b"fault too-long\n"


def outcome_of(rows, script):
    """The status of a run of this script on a new image, and what it writes."""
    with tempfile.TemporaryDirectory() as folder:
        image = new_image(rows, folder, "image", 24)
        run = subprocess.run([rows.betr, "run", image], input=script, stdout=subprocess.PIPE, check=False)
    return run.returncode, run.stdout


def long_scripts(rows, report):
    """A script of more than 16,777,216 bytes is too long; its complete lines before have their replies, and what has no
    newline is no line of it. Of a script that isn't too long the rest without a newline is its last line. The lines are
    empty, or 63 bytes long where the program is slow."""
    width = 64 if rows.is_slow else 1
    line, count = b"y" * (width - 1) + b"\n", GREATEST_SCRIPT // width
    for label, script, want in [
        ("complete lines and a byte", line * count + b"\n", (7, BAD_LINE * count + TOO_LONG)),
        ("complete lines", line * count, (0, BAD_LINE * count)),
        ("one byte too many without a newline", b"y" * (GREATEST_SCRIPT + 1), (7, TOO_LONG)),
        ("20,000,000 bytes without a newline", b"y" * 20_000_000, (7, TOO_LONG)),
        ("as many bytes as may be, without a newline", b"y" * GREATEST_SCRIPT, (0, BAD_LINE)),
    ]:
        status, written = outcome_of(rows, script)
        report((status, written) == want, f"a long script of {label}: status {status}, {written[-60:]}")


FILLED = re.compile(r"fill (\d+) ok (\d+) no (\d+) full (\d+)\n")
KINDS = ["ok", "no", "full"]

# Fills of seed 1 of which each line has room: how many lines are drawn, the slots of the image, and what is told. There
# are eight lines more, and the kinds of their replies are those of the plain map.
ROOMY_FILLS = [(500, 512, [508, 216, 292, 0]), (5000, 4096, [5008, 2691, 2317, 0])]


def filled(rows, folder, name, slots, count):
    """What a fill of seed 1 tells on a new image: how many lines it executed, and their replies by kind."""
    image = new_image(rows, folder, name, slots)
    run = subprocess.run([rows.betr, "fill", image, "1", str(count)], stdout=subprocess.PIPE, text=True, check=False)
    told = FILLED.fullmatch(run.stdout)
    return [int(number) for number in told.groups()] if told and run.returncode == 0 else []


def kinds_of(answers):
    """How many answers there are, and how many of each kind."""
    words = [answer.split(" ")[0] for answer in answers]
    return [len(words), *map(words.count, KINDS)]


class Tree(PlainMap):
    """The plain map, which can be asked whether it would accept a line of a writing command."""

    def would_accept(self, line):
        before = self.entries, self.modes
        self.entries, self.modes = dict(self.entries), dict(self.modes)
        answer = self.reply(line.encode())
        self.entries, self.modes = before
        return answer == b"ok" and not line.startswith("read ")


def is_answered(tree, line, answer):
    """Whether an answer is right beside the plain map: a line that is full is one that the map would accept, and the map
    stays."""
    if is_full(answer):
        return tree.would_accept(line)
    return tree.reply(line.encode()).decode() == answer


def lines_of_fills(count):
    """The lines of a fill of seed 1 that draws so many, by the rule alone."""
    told = subprocess.run([TOOLS / "lines", "1", str(8 + count)], stdout=subprocess.PIPE, text=True, check=True)
    return told.stdout.splitlines()


def roomy_fills(rows, report, folder):
    """A fill for which each line has room tells the kinds of the plain map's replies to its lines."""
    for count, slots, known in ROOMY_FILLS[:1] if rows.is_slow else ROOMY_FILLS:
        want = kinds_of(replies(lines_of_fills(count)))
        told = filled(rows, folder, f"roomy{count}", slots, count)
        report(told == want == known, f"a fill of {count} lines: {told}, and not {want}")


def full_fills(rows, report, folder):
    """A fill of 5,000 lines more, of which some have no room, tells the same on two new images of 256 slots: 5,008
    lines, and the kinds of the answers of a run of these lines, which are right beside the plain map. Slow programs
    make 200."""
    count = 200 if rows.is_slow else 5000
    lines, tree = lines_of_fills(count), Tree()
    image = new_image(rows, folder, "lines", 256)
    script = "".join(line + "\n" for line in lines)
    run = subprocess.run([rows.betr, "run", image], input=script, stdout=subprocess.PIPE, text=True, check=False)
    answers = run.stdout.splitlines()
    are_right = len(answers) == 8 + count and all(is_answered(tree, *pair) for pair in zip(lines, answers))
    report(run.returncode == 0 and are_right, f"the lines of a fill: {len(answers)} answers")
    want = kinds_of(answers)
    first, second = (filled(rows, folder, name, 256, count) for name in ("first", "second"))
    is_told = first == second == want and sum(want[1:]) == 8 + count and (rows.is_slow or want[3] > 0)
    report(is_told, f"fills: {first}, {second}, and not {want}")


def fills(rows, report):
    with tempfile.TemporaryDirectory() as folder:
        roomy_fills(rows, report, folder)
        full_fills(rows, report, folder)


def bad_slot(rows, report):
    """A run that reads a bad block after it has executed a line names it. Twenty blocks of a file are more than wait
    in the root, so that the image has one leaf, which begins with its name."""
    lines = ["create /a"] + [f"write /a {at * 1024} {{61*1024}}" for at in range(20)] + ["checkpoint"]
    made = f"# a leaf\n{given(lines)}"
    ran, image = rows.show(f"{made}-- image\n")
    report(ran.status == 0 and ran.written == ["ok"] * 22, f"twenty blocks: {ran.written}")
    slots = [132 + 16 * slot for slot in range(24)]
    leaves = [block for block in slots if image.block(block).startswith(b"BDN1\0\0\0\0")]
    report(len(leaves) == 1, f"leaves at {leaves}")
    for leaf in leaves:
        questions = given(["write /a 0 62", "read /a 0 4", "mkdir /c"])
        asked = f"-- again\n-- status 4\n{questions}ok\nfault damaged {leaf}\n"
        answered = "ok\n" * 22
        passed, differences = rows.differ(f"{made}{answered}-- set {leaf + 15} 4095 01\n{asked}")
        report(passed == 1 and not differences, f"a bad slot: {differences}")


def test(rows, report):
    failing_device(rows, report)
    failing_takes(rows, report)
    failing_puts(rows, report)
    cut_scripts(rows, report, SCRIPT)
    cut_scripts(rows, report, OVER_A_BORDER)
    stopped_run(rows, report)
    failed_sync(rows, report)
    short_walks(rows, report, 24)
    short_walks(rows, report, 256)
    full_images(rows, report)
    worn_level(rows, report)
    long_scripts(rows, report)
    fills(rows, report)
    bad_slot(rows, report)
