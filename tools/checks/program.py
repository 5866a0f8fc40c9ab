"""The program itself, as docs/COMMANDS.md says it: how runs end, that an image is locked while a run has it, and that a
run which is killed leaves the files as they were after one of its commands, with all that came before its last sync."""
import os
import random
import subprocess
from pathlib import Path

from calling import call, is_slow, new_image, script, tool
from plain import PlainMap
from session import Session, below, names, read, stat

GREATEST_SCRIPT = 16_777_216
KEEPING = ("sync", "checkpoint", "reclaim")


def endings(program, room, report):
    """Runs that end with each status that a script or a file can bring about."""
    image = new_image(program, room / "image", 24)
    (room / "text").write_text("no image\n" * 2_000)
    long_lines = (b"x" * 8_000 + b"\n") * (GREATEST_SCRIPT // 8_001 + 1)
    for words, given, status, last in (
        (["run", image], b"stat /\n", 0, "ok dir 0000"),
        (["run", image], b"", 0, ""),
        (["run"], b"", 2, None),
        (["format", room / "x", "23"], b"", 2, None),
        (["--help"], b"", 2, None),
        (["run", room / "missing"], b"stat /\n", 3, "fault device"),
        (["run", room], b"stat /\n", 3, "fault device"),
        (["run", room / "text"], b"stat /\n", 4, "fault damaged 0"),
        (["run", image], long_lines, 7, "fault too-long"),
    ):
        ended = call([program, *words], given=given)
        said = (ended.out.splitlines() or [""])[-1]
        right = ended.status == status and last in (None, said)
        report(f"{' '.join(str(word) for word in words)}: status {status}", right, f"status {ended.status}, {said!r}")


def files_that_fail(program, room, report):
    """A script that can't be read, replies that can't be written, and an image that another run has."""
    image = new_image(program, room / "other", 24)
    run = f"'{program}' run '{image}'"
    for how, status in ((f"{run} </", 5), (f"echo 'stat /' | {run} >/dev/full", 9)):
        ended = call(["bash", "-c", how])
        report(f"status {status}", ended.status == status, str(ended))
    with subprocess.Popen([program, "run", image], stdin=subprocess.PIPE, stdout=subprocess.PIPE) as run:
        run.stdin.write(b"stat /\n")
        run.stdin.flush()
        run.stdout.readline()
        ended = call([program, "run", image], given=b"stat /\n")
        report("an image is locked while a run has it", (ended.status, ended.out) == (3, "fault device\n"), str(ended))
        run.stdin.close()
        run.stdout.read()


def tree_of(program, image):
    """What an image holds: each path with the bytes of a file, and its mode."""
    entries, modes, left = {}, {}, [b"/"]
    with Session(program, image) as session:
        while left:
            path = left.pop()
            found, key = stat(session, path), tuple(path.split(b"/")[1:]) if path != b"/" else ()
            modes[key] = found.mode
            entries[key] = None if found.is_dir else b"".join(read(session, path, found.size))
            if found.is_dir:
                left += [below(path, name.rstrip(b"/")) for name in names(session, path)]
    return entries, modes


def states(lines):
    """What a plain map holds before each of these lines, and after the last one."""
    tree = PlainMap()
    yield dict(tree.entries), dict(tree.modes)
    for line in lines:
        if line not in KEEPING:
            tree.reply(line.encode())
        yield dict(tree.entries), dict(tree.modes)


def killed(program, image, lines, after):
    """Gives lines to a run that is killed when it has answered so many: how many it had answered."""
    text = Path(image + ".lines")
    text.write_text("".join(line + "\n" for line in lines))
    words = [program, "run", image]
    with open(text, "rb") as given, subprocess.Popen(words, stdin=given, stdout=subprocess.PIPE) as run:
        answered = [run.stdout.readline() for _ in range(after)]
        run.kill()
        answered += run.stdout.readlines()
    return sum(reply.endswith(b"\n") for reply in answered)


def kills(program, room, report):
    """Runs that are killed: each leaves a state after one of its lines, at the last sync that was answered or later."""
    chance, rounds, count = random.Random(9), *((3, 80) if is_slow(program) else (12, 400))
    for seed in range(1, rounds + 1):
        lines = tool("lines", str(seed), str(count)).out.splitlines()
        for at in range(count, 0, -20):
            lines.insert(at, chance.choice(KEEPING))
        image = new_image(program, room / f"killed{seed}", 256)
        answered = killed(program, image, lines, chance.randrange(1, len(lines)))
        kept = max((at for at in range(1, answered + 1) if lines[at - 1] in KEEPING), default=0)
        found, possible = tree_of(program, image), list(states(lines))[kept:]
        report(f"killed after {answered} replies", found in possible, f"{len(found[0])} paths, seed {seed}")
        os.unlink(image)


def kept(program, room, report):
    """A new run goes on where the last one ended."""
    image = new_image(program, room / "kept", 24)
    script(program, image, ["mkdir /a", "create /a/f", "write /a/f 3 6869", "clone /a /b", "chmod /b/f 0640"])
    replies = script(program, image, ["read /b/f 0 9", "stat /b/f", "list /", "remove /a", "read /b/f 0 9"])
    wanted = ["ok 0000006869", "ok file 5 0640", "ok a/ b/", "ok", "ok 0000006869"]
    report("a new run goes on where the last one ended", replies == wanted, f"{replies}")


def check(program, room, report):
    endings(program, room, report)
    files_that_fail(program, room, report)
    kept(program, room, report)
    kills(program, room, report)
