"""The shell of tools/btr: lines of docs/COMMANDS.md and verbs of tools/btr over one run of the program, with replies in
words, or as JSON."""
import glob
import json
import os
import readline
import shlex
import shutil
import sys
from pathlib import Path

from session import Failed, Full, Refused, names, shown
from verbs import REFUSALS, counted, out

HISTORY, MOST_HISTORY = "~/.betr_history", 2_000
# As many names of a directory are looked at to complete a path.
MOST_NAMES = 2_000

LINES = {
    "mkdir": ("P", "makes an empty directory"),
    "create": ("P", "makes an empty file"),
    "write": ("P OFF HEX", "writes 1 to 2,048 bytes from OFF on"),
    "truncate": ("P LEN", "cuts the file to LEN bytes, or extends it with zeros"),
    "remove": ("P", "removes P and all below it"),
    "rename": ("A B", "moves A and all below it to B; a file takes the place of a file"),
    "clone": ("A B", "copies A and all below it to B"),
    "chmod": ("P MODE", "sets the mode of P, four octal digits"),
    "read": ("P OFF LEN", "reads at most LEN bytes, of at most 4,096, from OFF on"),
    "stat": ("P", "tells what is at P"),
    "list": ("P [AFTER]", "lists at most 100 names in a directory, those greater than AFTER"),
    "walk": ("", "tells what the last clone or rename cost"),
    "df": ("", "tells how many slots are free"),
    "sync": ("", "makes what was done durable"),
    "checkpoint": ("", "writes what was done to the nodes of the image"),
    "reclaim": ("", "gives up what was removed and still takes slots"),
    "stop": ("", "ends the run, after a sync"),
}
OWN = {"help": "tells all lines and verbs; help WORD tells more of one",
       "exit": "ends the shell, as the end of the input does"}


# ---- replies

def fields(verb, words):
    """What the words after an `ok` say, by name."""
    if verb == b"stat":
        length = {"length": int(words[1])} if len(words) == 3 else {}
        return {"kind": words[0].decode(), **length, "mode": words[-1].decode()}
    if verb == b"read":
        return {"hex": b"".join(words).decode()}
    if verb == b"list":
        return {"names": list(map(os.fsdecode, words[:100])), "more": len(words) > 100}
    if verb == b"walk":
        return {"visits": int(words[1]), "height": int(words[3])}
    return {"free": int(words[1]), "slots": int(words[3])} if verb == b"df" else {}


def as_json(line, reply):
    """A reply as a line of JSON."""
    first, *words = reply.split(b" ")
    found = {"line": os.fsdecode(line), "ok": first == b"ok"}
    if first == b"ok":
        found |= fields(line.split(b" ")[0], words)
    elif first == b"no":
        found |= {"no": int(words[0]), "why": words[1].decode()}
    elif first == b"full":
        found |= {"free": int(words[0]), "needed": int(words[1])}
    else:
        found |= {"fault": os.fsdecode(b" ".join(words))}
    return json.dumps(found)


def in_words(line, reply):
    """A reply in words."""
    first, *words = reply.split(b" ")
    if first == b"no":
        return b"no: " + about(line, int(words[0])) + b" (%s)" % words[1]
    if first == b"full":
        return (f"full: {counted(int(words[0]), 'slot is', 'slots are')} free and {words[1].decode()} are needed;"
                " reclaim may free some after a remove").encode()
    verb = line.split(b" ")[0]
    found = fields(verb, words)
    if verb == b"stat":
        what = f"a file of {counted(found['length'], 'byte', 'bytes')}" if "length" in found else "a directory"
        return f"{what}, mode {found['mode']}".encode()
    if verb == b"walk":
        return f"{counted(found['visits'], 'visit', 'visits')} of nodes in a tree {found['height']} high".encode()
    if verb == b"df":
        return f"{found['free']} of {found['slots']} slots free".encode()
    if verb == b"read":
        return as_text(bytes.fromhex(found["hex"]))
    return listed(words) if verb == b"list" else b"ok"


def about(line, number):
    """What a refusal says, with the path that it is about."""
    words = line.split(b" ")
    path = words[-1] if number in (2, 3) else words[1] if len(words) > 1 else line
    return (line if number == 10 else path) + b" " + REFUSALS[number].encode()


def as_text(data):
    """Bytes as text, where they are one, and else in hexadecimal digits."""
    if not data:
        return b"no bytes"
    try:
        if all(c.isprintable() or c in "\n\t" for c in data.decode()):
            return data.removesuffix(b"\n")
    except UnicodeDecodeError:
        pass
    return b"\n".join(data[at : at + 32].hex(" ", -4).encode() for at in range(0, len(data), 32))


def listed(words):
    """The names of a listing, on a terminal in lines of its width."""
    found, more = words[:100], len(words) > 100
    width = shutil.get_terminal_size().columns if sys.stdout.isatty() else 0
    lines = []
    for name in found:
        if lines and len(lines[-1]) + 2 + len(name) <= width:
            lines[-1] += b"  " + name
        else:
            lines.append(name)
    if more:
        lines.append(b"and more after " + found[-1].rstrip(b"/"))
    return b"\n".join(lines) if lines else b"no names"


# ---- words that are completed

class Completer:
    """Completes the first word of a line and the paths after it."""

    def __init__(self, session, verbs):
        self.session, self.words, self.found = session, sorted({*LINES, *verbs, *OWN}), []

    def __call__(self, text, state):
        try:
            if state == 0:
                self.found = self.complete(text, readline.get_line_buffer()[: readline.get_begidx()].split())
            return self.found[state] if state < len(self.found) else None
        except Failed:
            return None

    def complete(self, text, before):
        if not before:
            return [word + " " for word in self.words if word.startswith(text)]
        if before[0] == "help":
            return [word for word in self.words if word.startswith(text)]
        if before[0] == "put" and len(before) == 1 or before[0] == "get" and len(before) == 2:
            return [path + "/" * os.path.isdir(path) for path in sorted(glob.glob(glob.escape(text) + "*"))]
        return self.paths(text) if text.startswith("/") else []

    def paths(self, text):
        """The paths that begin so."""
        end = text.rfind("/") + 1
        directory, begun = os.fsencode(text[:end].rstrip("/") or "/"), os.fsencode(text[end:])
        found = []
        for at, name in enumerate(names(self.session, directory)):
            if at == MOST_NAMES:
                break
            if name.startswith(begun):
                found.append(text[:end] + os.fsdecode(name) + ("" if name.endswith(b"/") else " "))
        return found


# ---- the shell

class Shell:
    """Takes lines and verbs, and gives their replies."""

    def __init__(self, session, given, verbs, read_verb):
        self.session, self.given, self.verbs, self.read_verb = session, given, verbs, read_verb
        self.is_asked = sys.stdin.isatty() and not given.json
        self.refused = False

    def run(self):
        """Takes all lines. The status is 1 where one was refused, but for a person at a terminal."""
        self.session.start()
        for line in self.prompted() if self.is_asked else given_lines():
            if not self.take(line):
                break
        return int(self.refused and (self.given.ends or not self.is_asked))

    def prompted(self):
        """The lines that a person gives at a prompt."""
        history = Path(HISTORY).expanduser()
        readline.set_completer(Completer(self.session, self.verbs))
        readline.set_completer_delims(" ")
        readline.parse_and_bind("tab: complete")
        readline.set_history_length(MOST_HISTORY)
        try:
            readline.read_history_file(history)
        except OSError:
            pass  # There is none yet, or none that can be read.
        try:
            yield from map(tidied, asked(f"{os.path.basename(self.session.image)}> "))
        finally:
            try:
                readline.write_history_file(history)
            except OSError:
                pass  # A home that can't be written to keeps no history.

    def take(self, line):
        """Takes a line. False where it is the last one."""
        words = line.split()
        if not self.given.json and (not words or words[0].startswith(b"#")):
            return True
        first = os.fsdecode(words[0]) if words else ""
        if not self.given.json and first in ("exit", "quit"):
            return False
        is_well = self.own(first, line) if not self.given.json else self.line(line)
        sys.stdout.flush()
        self.refused = self.refused or not is_well
        return (is_well or not self.given.ends) and line != b"stop"

    def own(self, first, line):
        """A line, a verb, or a word of the shell. False where it is refused."""
        if first == "help":
            return self.help(os.fsdecode(line).split()[1:])
        if first in LINES and not any(word.startswith(b"-") for word in line.split()[1:]) or first not in self.verbs:
            return self.line(line)
        try:
            given = self.read_verb(shlex.split(os.fsdecode(line)))
            return given.work(self.session, given) == 0
        except ValueError as error:
            print(f"btr: {error}", file=sys.stderr)
        except SystemExit as end:
            return end.code == 0
        except (Refused, Full) as refused:
            print(f"btr: {refused}", file=sys.stderr)
        except Failed as failure:
            if self.session.process is None:
                raise
            print(f"btr: {failure}", file=sys.stderr)
        except OSError as error:
            print(f"btr: {error}", file=sys.stderr)
        return False

    def line(self, line):
        """A line of the program. False where it is refused."""
        try:
            [reply] = self.session.ask([line])
        except Failed as failure:
            if self.given.json and failure.fault:
                out(as_json(line, b"fault " + failure.fault.encode()))
            raise
        out(as_json(line, reply)) if self.given.json else print_lines(in_words(line, reply))
        return reply.startswith(b"ok")

    def help(self, words):
        for word in words:
            if word in LINES:
                print(f"{f'{word} {LINES[word][0]}'.strip()}: {LINES[word][1]}")
            elif word in self.verbs:
                self.own(word, os.fsencode(word) + b" --help")
            else:
                print(f"no line and no verb: {word}")
        if not words:
            rows = [(f"{word} {of}", what) for word, (of, what) in LINES.items()] + list(OWN.items())
            for of, what in rows:
                print(f"  {of:16}{what}")
            print(f"and the verbs {', '.join(sorted(set(self.verbs) - set(LINES)))}, whose IMAGE is left out")
        return True


def print_lines(text):
    for line in text.split(b"\n"):
        out(line)


def given_lines():
    """The lines of a script."""
    for line in sys.stdin.buffer:
        yield line.removesuffix(b"\n")


def tidied(line):
    """A line that a person gave, without the slashes and the space that completing leaves at the end of paths."""
    words = line.rstrip(b" ").split(b" ")
    return b" ".join(word.rstrip(b"/") or b"/" if word.startswith(b"/") else word for word in words)


def asked(prompt):
    """The lines that a person gives, up to the end of the input. An interrupt gives up the line that is begun."""
    while True:
        try:
            yield os.fsencode(input(prompt))
        except EOFError:
            print()
            return
        except KeyboardInterrupt:
            print()
