"""What tools/session.py gives all tools: lines and replies over one run after another, files in pieces, names by pages,
and why a run ended."""
import os
import signal

from calling import is_slow, new_image
from session import (
    GREATEST_SCRIPT, Failed, Full, Refused, Session, Stat, answer, names, read, stat, stats, write)

# A program that writes a line and ends so.
ENDING = """#!/bin/sh
read line
echo "{said}"
{end}
"""


def raised(work, kind=Failed):
    """What work raised of this kind."""
    try:
        work()
    except kind as failure:
        return failure
    return None


def replies(session, report):
    """Lines, their replies, and what these say."""
    found = session.ask([b"mkdir /d", b"create /d/f", b"stat /d/f", b"stat /no", b"list /", b"nonsense"])
    wanted = [b"ok", b"ok", b"ok file 0 0000", b"no 1 not-found", b"ok d/", b"no 10 bad-line"]
    report("replies", found == wanted, str(found))
    report("no lines", session.ask([]) == [])
    refused = raised(lambda: session.do(b"stat /d", b"mkdir /no/d"), Refused)
    told = refused and (refused.number, refused.name, refused.line, refused.status)
    report("a refusal", told == (3, "no-parent", b"mkdir /no/d", 1), str(told))
    full = raised(lambda: answer(b"full 3 17", b"mkdir /x"), Full)
    report("a full image", full and (full.free, full.needed) == (3, 17), str(full))
    found = stats(session, [b"/d", b"/no", b"/d/f"])
    report("stats", found == [Stat(None, 0), None, Stat(0, 0)], str(found))
    refused = raised(lambda: stat(session, b"no path"), Refused)
    report("a bad path", refused and refused.number == 10, str(refused))
    two = raised(lambda: session.ask([b"stat /d\nstat /d"]))
    report("two lines in one", two is not None and session.ask([b"stat /d"]) == [b"ok dir 0000"], str(two))


def pieces(session, report):
    """Files in pieces, at each length about a limit."""
    for size in (0, 1, 2_047, 2_048, 2_049, 4_095, 4_096, 4_097, 600_000):
        data = bytes((number * number + size) % 251 for number in range(size))
        session.do(b"create /p")
        write(session, b"/p", data)
        back, part = b"".join(read(session, b"/p", size)), b"".join(read(session, b"/p", size // 2, size // 3))
        wanted = data[size // 3 : size // 3 + size // 2]
        report(f"{size} bytes", (back, part) == (data, wanted), f"{len(back)} {len(part)}")
        write(session, b"/p", b"xyz", size + 5)
        report(f"{size} bytes, and more", b"".join(read(session, b"/p", size + 9)) == data + bytes(5) + b"xyz")
        session.do(b"remove /p")


def pages(session, report):
    """Names by pages, also one that is a `+`."""
    for count in (0, 1, 99, 100, 101, 200, 350):
        wanted = sorted([b"n%03d" % number for number in range(count)] + [b"+"] * (count > 0))
        session.do(b"mkdir /n", *[(b"mkdir /n/" if name < b"n1" else b"create /n/") + name for name in wanted])
        found = list(names(session, b"/n"))
        wanted = [name + b"/" * (name < b"n1") for name in wanted]
        report(f"{count} names", found == wanted, f"{len(found)} names")
        found = list(names(session, b"/n", b"n1"))
        report(f"{count} names, the last ones", found == [name for name in wanted if name > b"n1"], str(found[:3]))
        session.do(b"remove /n")


def many_runs(session, report, is_slow_):
    """More lines than a script may have, at once and one after the other."""
    line = b"write /long %d " + b"61" * 2_000
    count = GREATEST_SCRIPT // 4_000 // (20 if is_slow_ else 1) + 100
    session.do(b"create /long")
    taken = session.process.pid
    found = session.ask([line % (number % 7) for number in range(count)])
    report("more than a script", found == [b"ok"] * count and (is_slow_ or session.process.pid != taken))
    for number in range(3 if is_slow_ else count):
        found = session.ask([line % (number % 7)])
        if found != [b"ok"]:
            break
    report("more than a script, one by one", found == [b"ok"] and stat(session, b"/long") == Stat(2_006, 0), str(found))
    report("after stop", session.ask([b"stop"]) == [b"ok"] and session.ask([b"stat /long"]) == [b"ok file 2006 0000"])


def ends(image, room, report):
    """Programs that end in each way."""
    for number, (said, end, status, fault, wanted) in enumerate([
            ("fault device", "exit 3", 3, "device", f"{image}: the file failed (fault device)"),
            ("fault damaged 17", "exit 4", 4, "damaged 17", f"{image}: no image, or a damaged one (fault damaged 17)"),
            ("fault memory", "exit 6", 6, "memory", f"{image}: fault memory at stat /"),
            ("fault worn level", "exit 8", 8, "worn level", f"{image}: fault worn level at stat /"),
            ("usage: something", "exit 2", 2, "", f"{image!r}: no name of an image"),
            ("", "exit 9", 9, "", f"{image}: the program ended with status 9"),
            ("", "exit 0", 1, "", f"{image}: the program ended with status 0"),
            ("", "kill -9 $$", 1, "", f"{image}: the program was ended by SIGKILL")]):
        program = room / f"ending{number}"
        program.write_text(ENDING.format(said=said, end=end))
        program.chmod(0o755)
        failure = raised(lambda: Session(str(program), image).ask([b"stat /"]))
        told = failure and (str(failure), failure.status, failure.fault)
        report(f"an end: {said or end}", told == (wanted, status, fault), str(told))
    program.write_text("#!/bin/sh\nread line\necho ok\ncat > /dev/null\necho fault device\nexit 3\n")
    failure = raised(lambda: with_session(str(program), image))
    report("a fault of the last sync", failure and (failure.status, failure.fault) == (3, "device"), str(failure))
    failure = raised(lambda: Session(str(room / "missing"), image).ask([b"stat /"]))
    report("no program", failure is not None and "no such file" in str(failure), str(failure))


def with_session(program, image):
    with Session(program, image) as session:
        session.ask([b"stat /"])


def reasons(program, image, room, report):
    """The system's reasons why an image can't be used."""
    (room / "folder").mkdir()
    (room / "link").symlink_to("nowhere")
    os.mkfifo(room / "pipe")
    cases = {"missing": "no such file or directory", "folder": "is a directory", "link": "no such file or directory",
             "image/below": "not a directory", "pipe": "is no regular file"}
    with Session(program, image) as first:
        first.ask([b"stat /"])
        failure = raised(lambda: with_session(program, image))
        report("locked", failure is not None and f"{image}: is locked by another run" in str(failure), str(failure))
        report("locked: the first run goes on", first.ask([b"create /while"]) == [b"ok"])
    for name, wanted in cases.items():
        failure = raised(lambda: with_session(program, str(room / name)))
        told = failure and (str(failure), failure.status)
        report(f"an image that is a {name}", told == (f"{room / name}: {wanted} (fault device)", 3), str(told))
    if os.geteuid() != 0:
        os.chmod(image, 0o444)
        failure = raised(lambda: with_session(program, image))
        report("no permission", failure is not None and "permission denied" in str(failure), str(failure))
        os.chmod(image, 0o644)
    else:
        report.skip("no permission", "root may write everything")
    failure = raised(lambda: with_session(program, ""))
    report("no name", failure is not None and failure.status == 2, str(failure))


def killed(program, image, report):
    """A run that is ended by others is told, and the next line begins a new one."""
    session = Session(program, image)
    session.do(b"create /synced", b"sync")
    os.kill(session.process.pid, signal.SIGKILL)
    failure = raised(lambda: session.ask([b"stat /"] * 3))
    report("a killed run", failure is not None and "SIGKILL" in str(failure), str(failure))
    report("after a killed run", session.ask([b"stat /synced"]) == [b"ok file 0 0000"])
    session.end()


def check(program, room, report):
    image = new_image(program, room / "image")
    with Session(program, image) as session:
        replies(session, report)
        pieces(session, report)
        pages(session, report)
        many_runs(session, report, is_slow(program))
    ends(image, room, report)
    reasons(program, image, room, report)
    killed(program, image, report)
    dashed = new_image(program, room / "dashed")
    os.rename(dashed, room / "-x")
    here = os.getcwd()
    os.chdir(room)
    try:
        report("a name that begins with -", raised(lambda: with_session(program, "-x")) is None)
    finally:
        os.chdir(here)
