"""Lines by a fixed rule, which make trees of each shape: names that begin others, files about the borders of blocks,
clones and renames over each other."""

PATHS = ["/", "/a", "/ab", "/a.b", "/a/a", "/a/ab", "/a/b", "/a/b/a", "/b", "/b/a", "/b/a/b", "/b/ab", "/ab/a", "/a.b/a"]
VERBS = ["mkdir"] * 3 + ["create"] * 2 + ["write"] * 3 + ["truncate"] * 2 + ["remove"] + ["rename"] * 3 + [
    "clone"] * 2 + ["chmod"] * 2 + ["read"] * 2 + ["stat"] * 2 + ["list", "after"]
PLACES = [0, 1, 5, 1022, 1023, 1024, 1025, 2047, 2048, 2049, 3000, 4096]
MODES = ["0000", "0644", "0755", "7777"]
BYTES = ["00", "07", "61", "ff"]
GREATEST_WRITE = 2048


class Numbers:
    """Numbers by a fixed rule, of 32 bits, of which the upper 16 pick one of several."""

    def __init__(self, state):
        self.state = state

    def pick(self, several):
        self.state = (self.state * 1664525 + 1013904223) % (1 << 32)
        return several[(self.state >> 16) % len(several)]


class Lines:
    """Lines by a fixed rule, as many as are asked for."""

    def __init__(self, seed):
        self.numbers = Numbers(seed)

    def digits(self):
        count = min(max(self.numbers.pick(PLACES), 1), GREATEST_WRITE)
        return self.numbers.pick(BYTES) * count

    def rest(self, verb):
        """What follows a verb and a path."""
        pick = self.numbers.pick
        if verb == "write":
            return f" {pick(PLACES)} {self.digits()}"
        if verb == "read":
            return f" {pick(PLACES)} {pick(PLACES)}"
        if verb == "truncate":
            return f" {pick(PLACES)}"
        if verb == "chmod":
            return f" {pick(MODES)}"
        if verb in ("rename", "clone"):
            return f" {pick(PATHS)}"
        return " a" if verb == "after" else ""

    def line(self):
        verb, path = self.numbers.pick(VERBS), self.numbers.pick(PATHS)
        return f"{'list' if verb == 'after' else verb} {path}{self.rest(verb)}"


def lines(seed, count):
    """The first lines of a seed."""
    made = Lines(seed)
    return [made.line() for _ in range(count)]


def questions():
    """What is asked of each path."""
    return [f"{verb} {path}{rest}" for path in PATHS
            for verb, rest in (("stat", ""), ("list", ""), ("read", " 0 4096"), ("read", " 4096 4096"))]
