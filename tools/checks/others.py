"""The tools that are for those who work on the program: each does what it says."""
import hashlib
import re

from calling import TOP, call, is_slow, new_image, script, tool

# A program whose replies to `stat` of a file are other ones.
OTHER_PROGRAM = """#!/bin/bash
set -o pipefail
'{program}' "$@" | sed 's/^ok file /ok fyle /'
"""


def comparing(program, room, report):
    """`compare` finds nothing in the program, and finds what another one says."""
    count = 3 if is_slow(program) else 100
    ended = tool("compare", "--program", program, "1", str(count))
    report("compare", (ended.status, ended.out) == (0, f"{count} scripts, 0 with other replies\n"), str(ended))
    other = room / "other"
    other.write_text(OTHER_PROGRAM.format(program=program))
    other.chmod(0o755)
    ended = tool("compare", "--program", other, "1", "3")
    found = re.search(r"seed \d: status 0\n  b'stat [^']*': b'ok fyle ", ended.out)
    report("compare over another program", ended.status == 1 and found is not None, str(ended))


def filling(program, room, report):
    """What `lines` prints is answered as a `fill` counts it."""
    count = 200 if is_slow(program) else 5_000
    told = call([program, "fill", new_image(program, room / "filled"), "5", str(count)])
    lines = tool("lines", "5", str(count + 8)).out.splitlines()
    replies = [reply.split()[0] for reply in script(program, new_image(program, room / "lines"), lines)]
    counts = " ".join(f"{word} {replies.count(word)}" for word in ("ok", "no", "full"))
    report("lines", told.out == f"fill {len(replies)} {counts}\n", f"{told.out!r}, and not {counts!r}")


def generated(room, report):
    """What `rows` and `streams` make is what the tests have."""
    data = TOP / "crates" / "rows_tree" / "data"
    for file, names in {"generated.rows": ["messages", "searches", "grafts", "reclaims", "scans"],
                        "pager_generated.rows": ["pager", "failing"]}.items():
        ended = tool("rows", *names)
        report(f"rows {' '.join(names)}", ended.out == (data / file).read_text(), f"{file} is another text")
    ended = tool("streams", room / "stream")
    data = (room / "stream").read_bytes()
    wanted = f"302 paths, {len(data)} bytes, {hashlib.sha256(data).hexdigest()}\n"
    report("streams", (ended.status, ended.out) == (0, wanted), str(ended))
    source = (TOP / "crates" / "rows_streams" / "src" / "generated.rt").read_text()
    digest = "".join(re.findall(r"0x([0-9a-f]{2})\b", source.partition("const DIGEST")[2].partition("];")[0]))
    report("streams is what the tests want", digest == hashlib.sha256(data).hexdigest(), f"they want {digest}")


def measuring(program, room, report):
    """`measure` prints a line for each measurement."""
    ended = tool("measure", "--program", program, "--folder", room, "format")
    report("measure", re.fullmatch(r"(format of \d+ slots: \d+ ms\n){2}", ended.out) is not None, str(ended))
    for words in ("--due", "--table"):
        ended = tool("plant", words)
        report(f"plant {words}", ended.status == 0 and not ended.err, str(ended))


def benching(program, room, report):
    """`bench` prints its table, and puts plots where they are wanted."""
    if is_slow(program):
        report.skip("bench", "the program isn't proved, and it would take too long")
        return
    (room / "plots").mkdir()
    ended = tool("bench", "--program", program, "--folder", room, room / "plots")
    rows = re.findall(r"^\| [^|]+ \| [\d,]+ (us|MB)? ?\|$", ended.out, re.MULTILINE)
    report("bench", ended.status == 0 and len(rows) > 12, str(ended))
    for name in ("clones.svg", "writes.svg"):
        file = room / "plots" / name
        drawn = file.exists() and file.read_text().rstrip().endswith("</svg>")
        report(f"bench draws {name}", drawn, "it isn't drawn")


def check(program, room, report):
    comparing(program, room, report)
    filling(program, room, report)
    generated(room, report)
    measuring(program, room, report)
    benching(program, room, report)
