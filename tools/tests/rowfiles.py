"""Runs rows of scripts, as text, through the program rows_betr, and reads what it prints."""
import os
import re
import subprocess
import tempfile
from concurrent.futures import ThreadPoolExecutor
from pathlib import Path

SHOWN = re.compile(r"= (.*) status (\d+) acks (none|\d+(?: \d+)*) calls (\d+) faults (\d+)")
COUNTED = re.compile(r"(\d+) rows passed, (\d+) failed")
DIFFERENCE = re.compile(r".*: found \".*\", not \".*\"")


class Call:
    """A call that was shown: its row's label, its status, the counts that it acknowledged, how many calls of the
    device it made, how many of them failed, and the lines that it wrote."""

    def __init__(self, told):
        self.label, self.status = told[1], int(told[2])
        self.acks = [] if told[3] == "none" else [int(count) for count in told[3].split(" ")]
        self.calls, self.faults, self.written = int(told[4]), int(told[5]), []


class Image:
    """The blocks of a device that was shown, of those that aren't zeros, each without the zeros at its end."""

    def __init__(self, label):
        self.label, self.blocks = label, {}

    def block(self, number):
        """The 4,096 bytes of a block."""
        return self.blocks.get(number, b"").ljust(4096, b"\0")


class Rows:
    """The two programs. `betr` is the path of the one, and `program` of the one that runs rows. They are slow where one
    of them isn't proved, which `bin/program` keeps in a folder `unproved`."""

    def __init__(self, betr, program):
        self.betr, self.program = betr, program
        self.is_slow = any("unproved" in Path(path).parts for path in (betr, program))

    def some(self, cases, share):
        """All of these cases, or each `share`th one, from the first on, where the programs are slow."""
        return list(cases)[:: share if self.is_slow else 1]

    def run(self, words, text, name):
        """What rows_betr prints for a text, in lines."""
        with tempfile.TemporaryDirectory() as folder:
            (Path(folder) / name).write_text(text)
            run = subprocess.run(
                [self.program, *words, name], cwd=folder, stdin=subprocess.DEVNULL, stdout=subprocess.PIPE, check=False
            )
        lines = run.stdout.decode().split("\n")
        counted = COUNTED.fullmatch(lines[-2]) if len(lines) > 1 else None
        if counted is None:
            raise RuntimeError(f"rows_betr ended with status {run.returncode}")
        return int(counted[1]), int(counted[2]), lines[:-2]

    def show(self, text, name="shown.rows"):
        """The calls and the images that a text shows, in their order. All calls are shown."""
        shown = []
        _passed, failed, lines = self.run(["--show"], text, name)
        for line in lines[:-1]:
            if line.startswith("| "):
                shown[-1].written.append(line[2:])
            elif line.startswith("@ "):
                _sign, block, text_of_block = line.split(" ")
                shown[-1].blocks[int(block)] = bytes.fromhex(text_of_block)
            elif line.startswith("@@ "):
                shown.append(Image(line[3:]))
            elif told := SHOWN.fullmatch(line):
                shown.append(Call(told))
            else:
                raise RuntimeError(f"not shown: {line[:300]}")
        if failed:
            raise RuntimeError(f"{failed} rows weren't shown")
        return shown

    def show_each(self, texts):
        """What each of many texts shows, in their order. As many as there are processors are run at once."""
        with ThreadPoolExecutor(os.cpu_count()) as pool:
            return list(pool.map(self.show, texts))

    def differ(self, text, name="compared.rows"):
        """How many rows of a text passed, and a line for each difference."""
        passed, failed, lines = self.run([], text, name)
        differences = [line for line in lines if DIFFERENCE.fullmatch(line)]
        if len(differences) < failed or (not differences and failed):
            differences.append(f"{name}: {failed} rows failed")
        return passed, differences
