"""Clones, a full image and long paths: after each line each path reads as the plain map has it."""
from script import FULL, Lines, Plain, compare, given, is_full, questions


def reads(length):
    return [f"{place} 4096" for place in range(0, length, 4_096)]


def pieces(path, count):
    """Pieces of 2,048 bytes that follow each other."""
    return [f"write {path} {2_048 * at} {at:04x}{{5a*2046}}" for at in range(count)]


# A file is cloned with its directory, both are written, and the clone is cloned.
CLONES = [
    "clone /d /e",
    "write /e/f 5000 aabb",
    "write /d/f 1 ff",
    "checkpoint",
    "clone /e /d/c",
    "write /d/c/f 26000 99",
    "truncate /e/f 3",
    "rename /d/c /k",
    "chmod /k/f 0644",
    "create /e/g",
    "sync",
    "remove /d",
    "clone /k /e/d",
    "write /e/d/f 0 77",
    "remove /k/f",
    "reclaim",
    "mkdir /d",
    "clone /e/d/f /d/c",
    "sync",
]

CLONED = ["/", "/d", "/d/f", "/d/c", "/d/c/f", "/e", "/e/f", "/e/g", "/e/d", "/e/d/f", "/k", "/k/f"]

# A directory is renamed in which a path has the greatest length: N and M stand for names of 255 bytes.
LONG = [
    "mkdir /N",
    "create /N/N",
    "write /N/N 3000 0102",
    "checkpoint",
    "rename /N /M",
    "write /M/N 0 aa",
    "rename /M/N /M/M",
    "sync",
    "clone /M /N",
    "truncate /N/M 1",
    "remove /M",
    "reclaim",
]

LONG_PATHS = ["/", "/N", "/N/N", "/N/M", "/M", "/M/N", "/M/M"]


def with_names(texts):
    return [text.replace("N", "n" * 255).replace("M", "m" * 255) for text in texts]


def asked_after(lines, asked):
    """Lines, after each of which all is asked."""
    return [text for line in lines for text in [line] + asked]


def row(label, slots, lines):
    """A row of these lines, each with what the plain map replies."""
    told = Lines(lines)
    return "\n".join([f"# {label}", f"-- slots {slots}", "-- run"]
                     + [text for line, reply in zip(lines, told.replies) for text in ("> " + line, reply)]) + "\n"


# What a full image is given before it is full, and after it.
BEFORE = ["create /g", "write /g 0 0102", "mkdir /d", "create /d/f"]

RECLAIMED = ["remove /d", "reclaim", "checkpoint", "create /h", "write /h 0 0304", "sync"]

ASKED = questions(["/", "/d", "/g", "/h", "/d/f"], reads(4_096)) + [f"read /d/f {words}" for words in reads(262_144)]


def full(rows, report):
    """A file is written until too few slots are free; what was written is read, and its slots are reclaimed."""
    begun = "# a full image\n-- run\n"
    filling = BEFORE + pieces("/d/f", 1_000)
    written = rows.show(begun + given(filling))[-1].written
    count = next((at for at, reply in enumerate(written) if FULL.fullmatch(reply)), None)
    report(count is not None and count > 100, f"a full image: full after {count} lines")
    if count is None:
        return
    need = int(FULL.fullmatch(written[count])[2])
    report(is_full(written[count]) and need <= 24, f"a full image: {written[count]}")
    lines = filling[:count] + ASKED + RECLAIMED + ASKED
    plain = Plain()
    replies = [plain.reply(line) for line in lines]
    replies.insert(count, written[count])
    lines.insert(count, filling[count])
    found = rows.show(begun + given(lines))[-1]
    differing = [line for line, reply, want in zip(lines, found.written, replies) if reply != want]
    report(found.status == 0 and found.written == replies, f"a full image: {differing[:3]}")


def test(rows, report):
    made = ["mkdir /d", "create /d/f"] + pieces("/d/f", 12)
    asked = questions(CLONED, reads(28_672))
    compare(rows, row("clones read as before", 80, made + asked_after(CLONES, asked)), report)
    asked = with_names(questions(LONG_PATHS))
    compare(rows, row("long paths read as before", 24, asked_after(with_names(LONG), asked)), report)
    full(rows, report)
