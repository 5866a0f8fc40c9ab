"""An image with clones, with nodes on two levels and with a batch, of 48 slots."""
import subprocess
import tempfile
from pathlib import Path

from script import BLOCK_SIZE, Lines, new_image

SLOTS = 48

PIECES = 60

RICH = Lines(
    ["mkdir /d", "create /d/f"]
    + [f"write /d/f {2_048 * place} {{5a*2048}}" for place in range(PIECES)]
    + ["create /g", "write /g 0 0102", "checkpoint", "clone /d /e", "write /e/f 0 ff", "clone /d /i", "mkdir /x", "checkpoint"]
    + ["mkdir /y", "write /g 1 03", "clone /e /h", "rename /x /z", "chmod /g 0644", "truncate /g 1", "remove /i", "sync"]
)


def image_of(rows):
    """The bytes of the image, which the program makes."""
    with tempfile.TemporaryDirectory() as folder:
        image = new_image(rows, folder, "image", SLOTS)
        script = "".join(line + "\n" for line in RICH.expanded())
        subprocess.run([rows.betr, "run", image], input=script.encode(), stdout=subprocess.DEVNULL, check=True)
        return Path(image).read_bytes()


def set_blocks(data):
    """Gives a blank image these bytes, block by block."""
    blocks = ((at // BLOCK_SIZE, data[at : at + BLOCK_SIZE].rstrip(b"\0")) for at in range(0, len(data), BLOCK_SIZE))
    return [f"-- set {block} 0 {bytes_.hex()}" for block, bytes_ in blocks if bytes_]
