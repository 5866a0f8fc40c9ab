"""The words of tools/btr, and of the verbs in its shell: what each verb takes, and the function that does it."""
import argparse
import inspect
import os

import convention
import looks
import prompt
import verbs
from nodes import LEAST_SLOTS, MOST_SLOTS, SLOT
from session import PROGRAM, Words
from verbs import UNITS


def path(word):
    """A path of an image; the slash before it may be left out."""
    found = convention.image_path(os.fsencode(word if word.startswith("/") else "/" + word))
    if found is None:
        raise argparse.ArgumentTypeError(f"{word!r} is no path of an image")
    return found


def path_or_into(word):
    """A path of an image, and whether it ends in a slash."""
    return path(word), word.endswith("/")


def depth(word):
    if not word.isascii() or not word.isdigit():
        raise argparse.ArgumentTypeError(f"{word!r} is no depth")
    return int(word)


def slots(word):
    """A number of slots, or of bytes with a unit, as slots."""
    digits = word[:-1] if word[-1:] in tuple(UNITS) else word
    if not digits.isascii() or not digits.isdigit():
        raise argparse.ArgumentTypeError(f"{word!r} is neither a number of slots nor one of bytes, as 64M")
    count = int(digits) if digits == word else int(digits) * 1_024 ** (UNITS.index(word[-1]) + 1) // SLOT
    if not LEAST_SLOTS <= count <= MOST_SLOTS:
        raise argparse.ArgumentTypeError(f"{word!r} is none of {LEAST_SLOTS} to {MOST_SLOTS} slots of {SLOT} bytes")
    return count


def shell(session, given):
    """usage: tools/btr shell [-e] [--json] IMAGE

    Takes lines of docs/COMMANDS.md and verbs of tools/btr, whose IMAGE is left out, over one run of the program, and
    tells the replies in words. On a terminal it has a history, and completes words and paths; `help` tells what there
    is. Else it takes a script from standard input, in which empty lines and those that begin with `#` are passed over.

      -e      ends at the first line that is refused
      --json  takes the program's lines alone, and gives a line of JSON for each

    The status is 1 where a line was refused, but for the lines of a person at a terminal without -e.
    """
    return prompt.Shell(session, given, [verb for verb in VERBS if verb not in ("new", "check", "halves", "shell")], read_verb).run()


# Options with a name of their own that aren't told by a word, by what they are called in the code.
FLAGS = {
    "-a": "all", "-e": "ends", "-f": "force", "-h": "human", "-l": "long", "-n": "nodes", "-p": "parents", "-q": "quiet",
    "-R": "below", "-r": "recursive", "-s": "alone"}
DEPTHS = {"-d": "depth", "-L": "depth"}

# The function of each verb, its options, and its words: each with how often it comes and what reads it.
VERBS = {
    "new": (verbs.new, "", [("slots", None, slots)]),
    "ls": (verbs.ls, "-a -h -l -R", [("paths", "*", path)]),
    "tree": (verbs.tree, "-a -L", [("paths", "*", path)]),
    "cat": (verbs.cat, "", [("paths", "+", path)]),
    "put": (verbs.put, "--keep --quick --parents", [("source", None, str), ("path", "?", path_or_into)]),
    "get": (verbs.get, "", [("path", None, path), ("new", "?", str)]),
    "mkdir": (verbs.mkdir, "-p", [("paths", "+", path)]),
    "rm": (verbs.rm, "-f -r", [("paths", "+", path)]),
    "cp": (verbs.cp, "", [("source", None, path), ("to", None, path)]),
    "mv": (verbs.mv, "", [("source", None, path), ("to", None, path)]),
    "df": (verbs.df, "-h", []),
    "du": (looks.du, "-a -d -h -n -s --read-only", [("paths", "*", path)]),
    "shares": (looks.shares, "-h --read-only", [("path", "?", path)]),
    "diff": (looks.diff, "-a -q --brief --read-only", [("source", None, path), ("to", None, path)]),
    "reclaim": (verbs.reclaim, "", []),
    "check": (verbs.check, "", []),
    "halves": (verbs.halves_of, "", []),
    "shell": (shell, "-e --json", []),
}


def parser_of(verb):
    """What reads the words of a verb, but for its image."""
    work, options, words = VERBS[verb]
    parser = Words(inspect.cleandoc(work.__doc__), prog="btr", add_help=False)
    parser.add_argument("--help", action="help")
    parser.set_defaults(work=work)
    for option in options.split():
        if option in DEPTHS:
            parser.add_argument(option, dest=DEPTHS[option], type=depth)
        else:
            parser.add_argument(option, dest=FLAGS.get(option, option[2:].replace("-", "_")), action="store_true")
    return parser, words


def add_words(parser, words):
    for name, count, read in words:
        often = {"nargs": count} if count else {}
        parser.add_argument(name, type=read, **often, **({"default": []} if count == "*" else {}))


def read_words(doc, given):
    """The words of tools/btr, with the function of the verb as `work`."""
    top = Words(doc, prog="btr")
    top.add_argument("--program", default=PROGRAM)
    top.add_argument("verb")
    top.add_argument("rest", nargs=argparse.REMAINDER)
    found = top.parse_args(given)
    if found.verb not in VERBS:
        top.error(f"{found.verb!r} is no verb")
    parser, words = parser_of(found.verb)
    if found.verb == "cp" and len(found.rest) == 2 and found.rest[0] != "--program":
        parser.set_defaults(work=verbs.cp_mounted)
        words = [("to", None, str)]
    parser.add_argument("--program", default=found.program)
    parser.add_argument("image")
    add_words(parser, words)
    return parser.parse_intermixed_args(found.rest)


def read_verb(words):
    """The words of a verb in the shell, which has an image already."""
    parser, named = parser_of(words[0])
    add_words(parser, named)
    return parser.parse_intermixed_args(words[1:])
