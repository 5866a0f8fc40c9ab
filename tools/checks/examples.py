"""The examples of README.md, docs/ and examples/, run as they are printed.

An example is an indented or fenced block that has lines which begin with `$ `. Such a line is a command, with the lines
of its here-document and those after a `\\` at its end; the lines that follow are what it prints, and `...` there stands
for any lines. A command of which the block shows no output has to end with status 0, and may print no refusal and no
fault. The blocks of a page are run one after the other in one folder, as one who pastes them all does: it has what the
repository's top has, and the home, which is shown as `~`, has a small source tree `linux/fs`.
"""
import os
import re
import shutil

from calling import TOP, call, has_fuse, new_image, script
from plain import PlainMap

HERE_DOCUMENT = re.compile(r"<<-?\s*(['\"]?)(\w+)\1")
REFUSED = re.compile(r"^(no \d+ [a-z-]+|full \d+ \d+|fault .*)$", re.MULTILINE)
MARK = "the-end-of-a-command"


class Step:
    """A command of an example, and the lines that it is shown to print."""

    def __init__(self, command):
        self.command, self.said = [command], []
        found = HERE_DOCUMENT.search(command)
        self.until = found[2] if found else None

    def takes(self, line):
        """Takes a line that belongs to the command. False where it is printed."""
        if self.until is not None:
            self.command.append(line)
            self.until = None if line == self.until else self.until
            return True
        if self.command[-1].endswith("\\"):
            self.command.append(line)
            return True
        return False


def blocks(text):
    """The indented and the fenced blocks of a page, as lists of lines."""
    block, fenced = [], False
    for line in text.splitlines() + [""]:
        if line.startswith("```"):
            fenced = not fenced
        elif fenced or line.startswith("    "):
            block.append(line if fenced else line[4:])
            continue
        if block:
            yield block
        block = []


def steps(block):
    """The commands of a block, and none where it is no example."""
    out = []
    for line in block:
        if out and out[-1].takes(line):
            continue
        if line.startswith("$ "):
            out.append(Step(line[2:]))
        elif out:
            out[-1].said.append(line.rstrip())
    return out


def is_said(shown, printed):
    """Whether what was printed is as shown, where `...` stands for any lines."""
    parts = [r"(?:.*\n)*?" if line == "..." else re.escape(line) + r"\n" for line in shown]
    text = "".join(line.rstrip() + "\n" for line in printed.splitlines())
    return re.fullmatch("".join(parts), text) is not None


def wrong(step, status, printed):
    """What is wrong with how a command ended, or None."""
    shown = [line for line in step.said if line]
    refused = REFUSED.search(printed)
    if shown:
        lines = "\n".join(line for line in printed.splitlines() if line.strip())
        return None if is_said(shown, lines) else f"it printed {printed[:400]!r}, and not {shown}"
    if status != 0:
        return f"status {status}: {printed[:400]!r}"
    return f"it printed {refused[0]!r}" if refused else None


def working_folder(program, folder):
    """A folder that has what the repository's top has, and whose bin/betr runs the program."""
    for name in ("tools", "docs", "examples"):
        shutil.copytree(TOP / name, folder / name, ignore=shutil.ignore_patterns("__pycache__"))
    (folder / "bin").mkdir()
    shutil.copy(TOP / "README.md", folder)
    shutil.copy(TOP / "bin" / "betr", folder / "bin")
    chooser = folder / "bin" / "program"
    chooser.write_text(f"#!/bin/sh\necho '{program}'\n")
    chooser.chmod(0o755)


def source_tree(home):
    """A small source tree in place of the one that examples load."""
    for number in range(40):
        file = home / "linux" / "fs" / f"part{number % 4}" / f"file{number}.c"
        file.parent.mkdir(parents=True, exist_ok=True)
        file.write_text(f"int value_{number} = {number};\n" * (number * 20))
    (home / "linux" / "fs" / "Makefile").write_text("obj-y := part0/ part1/ part2/ part3/\n")


def run_block(block, folder, home):
    """Each command of a block, with its status and what it printed; None where the shell ended before it."""
    file, out = home / "block.sh", home / "block.out"
    lines = [f"exec >'{out}' 2>&1 </dev/null"]
    for step in block:
        lines += [*step.command, f"printf '\\n%s %d\\n' {MARK} $?"]
    file.write_text("\n".join(lines) + "\n")
    call(["bash", file], folder=folder, environment=os.environ | {"HOME": str(home), "LC_ALL": "C.UTF-8"})
    printed = out.read_text(errors="backslashreplace").replace(str(home), "~")
    pieces = re.split(rf"\n?{MARK} (\d+)\n", printed)
    for at, step in enumerate(block):
        done = 2 * at + 1 < len(pieces)
        yield (step, int(pieces[2 * at + 1]), pieces[2 * at]) if done else (step, None, pieces[-1])


def not_run(block):
    """Why a block can't be run here, or None."""
    for step in block:
        word = step.command[0].split()[0]
        if word in ("sudo", "apt", "apt-get"):
            return "it changes the system"
        if "/" not in word and "=" not in word and call(["bash", "-c", f"type {word}"]).status:
            return f"{word} isn't here"
        if word.endswith("tools/mount") and not has_fuse():
            return "FUSE isn't here"
    return None


def pages(program, room, report):
    """The examples of each page."""
    for page in [TOP / "README.md", TOP / "CONTRIBUTING.md", *sorted((TOP / "docs").glob("*.md"))]:
        examples = [found for found in map(steps, blocks(page.read_text())) if found]
        if not examples:
            continue
        folder, home = room / page.stem, room / f"home-{page.stem}"
        folder.mkdir()
        working_folder(program, folder)
        source_tree(home)
        for block in examples:
            why = not_run(block)
            if why:
                report.skip(f"{page.name}: {block[0].command[0]}", why)
                continue
            for step, status, printed in run_block(block, folder, home):
                why = wrong(step, status, printed)
                report(f"{page.name}: {step.command[0]}", why is None, why or "")


ROW = re.compile(r"\| `([^`]*)` \| .* \| `([^`]*)` \|")


def table(program, room, report):
    """The table of examples in docs/COMMANDS.md: its lines are one script on an image of 24 slots."""
    rows = ROW.findall((TOP / "docs" / "COMMANDS.md").read_text().partition("\n## Examples\n")[2])
    report("COMMANDS.md has a table of examples", len(rows) > 10, f"{len(rows)} rows")
    replies = script(program, new_image(program, room / "table", 24), [line for line, _ in rows])
    replies += [""] * (len(rows) - len(replies))
    for (line, wanted), reply in zip(rows, replies):
        report(f"COMMANDS.md: {line}", reply == wanted, f"{reply!r}, and not {wanted!r}")


def scripts(program, room, report):
    """The scripts of examples/, whose replies are those of the plain map."""
    for file in sorted((TOP / "examples").glob("*.betr")):
        lines, tree, wanted = file.read_text().splitlines(), PlainMap(), []
        for line in lines:
            kept = line in ("stop", "sync", "checkpoint", "reclaim")
            wanted.append("ok" if kept else tree.reply(line.encode()).decode())
            if line == "stop":
                break
        replies = script(program, new_image(program, room / file.name), lines)
        report(file.name, replies == wanted, f"{replies}, and not {wanted}")
        refused = [line for line, reply in zip(lines, replies) if reply.startswith("no 10 ")]
        report(f"{file.name}: no line is a bad one", not refused, str(refused))


def check(program, room, report):
    pages(program, room, report)
    table(program, room, report)
    scripts(program, room, report)
