"""The files of an image: one, or the two halves of a mirror, with their marks (docs/FORMAT.md)."""
import os
from pathlib import Path

BLOCK, SLOT_BLOCKS, FIRST_SLOT = 4_096, 16, 132


def is_mirror(image):
    """Whether an image's name is of one half or of two."""
    return "+" in os.fsdecode(image)


def halves(image):
    """The files of an image: of X+Y both, of X+ the first, of any other name the file of that name."""
    first, _, second = os.fsdecode(image).partition("+")
    return [first, second] if second else [first]


def absolute(image):
    """The name of the same image from each directory, or None where a directory's name would part the halves."""
    files = [os.path.abspath(half) for half in halves(image)]
    if any("+" in file for file in files[:1]):
        return None
    return "+".join(files + [""] * (is_mirror(image) and len(files) == 1))


def has_mark(size):
    """Whether a file of so many bytes has one block more than an image has."""
    return size // BLOCK > FIRST_SLOT and (size // BLOCK - FIRST_SLOT) % SLOT_BLOCKS == 1


def is_open(file):
    """Whether the mark of a half is open: its last whole block begins with a 1."""
    with open(file, "rb") as half:
        size = os.fstat(half.fileno()).st_size
        return os.pread(half.fileno(), 1, (size // BLOCK - 1) * BLOCK) == b"\1"


def read_from(image):
    """The file from which an image is read: of two halves the second one where only its mark is open, else the first."""
    files = halves(image)
    return files[1] if len(files) == 2 and is_open(files[1]) and not is_open(files[0]) else files[0]


def unfit(image):
    """Why files are no halves, or None: the program would take the last block of each for its mark, and write it."""
    if not is_mirror(image):
        return None
    files = [file for file in halves(image) if Path(file).is_file()]
    sizes = [os.path.getsize(file) // BLOCK for file in files]
    for file, size in zip(files, sizes):
        if size and not has_mark(size * BLOCK):
            return f"{file}: no half of a mirror, which has a block more than an image"
    if len(files) == 2 and os.path.samefile(*files):
        return f"{files[0]}: is both halves"
    if len(set(sizes)) > 1:
        return f"{image}: the halves differ in size"
    return None
