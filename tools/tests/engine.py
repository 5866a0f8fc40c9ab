"""Formats and checkpoints, through the whole program: an image's first bytes, checkpoints in turn, and what they leave
where they are stopped at each call of the device, or at some of them where the programs are slow."""
from plain import PlainMap
from script import TEARS, compare
from volume import calls_before, cut, reply_of, script

BLOCK, SLOTS, BLOCKS = 4096, 24, 516
FIRST_LOG_BLOCK = 4


def number(value, width=8):
    return value.to_bytes(width, "big").hex()


# `BDSUPER1`, version 2, 24 slots, epoch 1, no commands, one slot of the table, slot 1.
SUPERBLOCK = b"BDSUPER1".hex() + number(2, 4) + number(24, 4) + number(1) + number(0) + number(1, 4) + number(1, 4)
# `BDN1`, level 1, one edge, one message; the edge without a child; and a Put of the record of `/`.
ROOT = b"BDN1".hex() + number(1, 4) * 3 + "00" * 18 + "01" + "00020000" + "0001" + "44"
# `BDTABLE1`, one entry, the next id 2, the root 1; and the entry of id 1, which is named once, with slot 0 and level 1.
TABLE = b"BDTABLE1".hex() + number(1) + number(2) + number(1) + number(1) + number(1) + number(0, 4) + number(1, 4)
# The blocks that have bytes before their zeros: the first superblock's commit block and body, and the first blocks of
# slots 0 and 1.
BEGUN = {0: "01", 1: SUPERBLOCK, 132: ROOT, 148: TABLE}
# The blocks that are zeros whatever the device had: the second superblock's commit block, the first one of the first
# log half, and the rest of slots 0 and 1.
ZEROS = [2, 4] + list(range(133, 148)) + list(range(149, 164))


def fresh_images(rows, report):
    """The bytes of a new image on a device that had one byte everywhere, or in some blocks where the programs are
    slow."""
    blocks = sorted({*BEGUN, *ZEROS, *rows.some(range(BLOCKS), 20)})
    for byte in ("00", "01", "ee"):
        full = f"{{{byte}*{BLOCK}}}"
        text = [f"# the bytes of a new image where all were {byte}", f"-- blank {SLOTS}"]
        text += [f"-- set {block} 0 {full}" for block in blocks]
        text += [f"-- format {SLOTS}", "ok"]
        for block in blocks:
            begun = BEGUN.get(block, "00" if block in ZEROS else None)
            text.append(f"-- begins {block} {begun}" if begun else f"-- bytes {block} 0 {full}")
        compare(rows, "\n".join(text) + "\n", report)


def ten_checkpoints(rows, report):
    """Ten checkpoints, each of a run of its own with a change before it, take turns: in the superblocks, and in the
    first four slots."""
    text = "# ten checkpoints take turns\n"
    for made in range(1, 11):
        text += f"-- run\n-- acks {made}\n> mkdir /d{made}\nok\n> checkpoint\nok\n> df\nok free 22 of 24\n"
        epoch = made + 1
        for body in (1, 3):
            of_body = epoch - (epoch % 2 != (body == 1))
            slot = 1 if body == 1 else 3
            text += f"-- begins {body - 1} 01\n-- bytes {body} 16 {number(of_body)}{number(of_body - 1)}"
            text += f"{number(1, 4)}{number(slot, 4)}{number(0, 4)}\n"
        text += "".join(f"-- begins {block} 00\n" for block in range(132 + 16 * 4, BLOCKS))
    compare(rows, text, report)


# Commands of each kind.
LINES = ["mkdir /a", "create /a/f", "write /a/f 0 6869", "clone /a /b", "rename /b/f /b/g", "chmod /b/g 0644",
         "truncate /a/f 1", "mkdir /c", "remove /c", "create /b/h"]
PIECES = [f"write /b/h {at * 2048} {f'{at % 251:02x}' * 2048}" for at in range(60)]
ASKED = ["list /", "list /a", "list /b", "stat /", "stat /a/f", "read /a/f 0 9", "stat /b/g", "read /b/g 0 9",
         "stat /b/h", "read /b/h 0 4096", "read /b/h 30000 4096"]


def alike(tree, lines):
    """Rows of lines with the replies of the plain map."""
    return "".join(f"{script([line])}{reply_of(tree, line)}\n" for line in lines)


def opened_again(rows, report):
    """A checkpoint of commands of each kind and of a file of 60 pieces is opened again. On 24 slots the commands have
    made checkpoints before it, and on 64 it is the first one."""
    for slots in (24, 64):
        tree = PlainMap()
        text = f"# a checkpoint of {slots} slots is opened again\n-- slots {slots}\n-- run\n-- acks 70\n"
        text += f"{alike(tree, LINES + PIECES)}> checkpoint\nok\n"
        if slots == 64:
            text += f"-- begins 2 01\n-- bytes 1 16 {number(1)}\n-- bytes 3 16 {number(2)}{number(70)}\n"
        compare(rows, f"{text}-- again\n-- acks 70\n{alike(tree, ASKED)}", report)


def large_file(rows, report):
    """What is written once more needs as many nodes, and the slots that only the checkpoint before the last one held
    are free again: on 48 slots, which have room for both, as many are free after each further round. Slow programs make
    two rounds."""
    tree, lines = PlainMap(), LINES + PIECES
    for _ in range(2 if rows.is_slow else 11):
        lines = lines + PIECES + ["checkpoint", "df"]
    call = rows.show(f"# a large file\n-- slots 48\n-- run\n{script(lines + ASKED)}")[-1]
    free = {reply for line, reply in zip(lines, call.written) if line == "df"}
    report(len(free) == 1 and free.pop().startswith("ok free "), "engine: a large file needs no more slots")
    for line, reply in zip(lines + ASKED, call.written):
        report(line == "df" or reply == reply_of(tree, line), f"engine: a large file: {line[:80]}: {reply[:80]}")
    report(call.status == 0 and len(call.written) == len(lines + ASKED), "engine: a large file was written")


MADE = ["mkdir /a", "mkdir /b", "mkdir /c"]


def stopped_checkpoints(rows, report):
    """A checkpoint that is stopped leaves the old tree or the new one: in the half without a superblock, with one that
    is committed, and with both committed."""
    for saves in range(len(MADE)):
        lines = [line for made in MADE[:saves] for line in (made, "checkpoint")] + [MADE[saves]]
        before, after = calls_before(rows, [lines, lines + ["checkpoint"]], SLOTS)
        report(after > before, f"engine: a checkpoint makes calls: {saves}")
        stops = rows.some([(passed, torn) for passed in range(before, after + 1) for torn in TEARS], 11)
        shown = rows.show("".join(stopped_row(lines + ["checkpoint"], *stop) for stop in stops))
        for (passed, torn), run, image, again in zip(stops, shown[::3], shown[1::3], shown[2::3]):
            is_done = run.written.count("ok") == len(lines) + 1
            is_old, is_new = (is_left(image, again, count) for count in (saves, saves + 1))
            report(is_done == (passed == after) and (is_new or is_old and not is_done),
                   f"engine: checkpoint {saves} stopped after {passed} calls: {torn}: {again.written}")
        report(len(shown) == 3 * len(stops), f"engine: stopped checkpoints were run: {saves}")


def stopped_row(lines, passed, torn):
    label = f"a checkpoint stopped after {passed} calls, {torn}"
    return f"# {label}\n-- run\n{cut(passed, torn)}{script(lines)}-- image\n-- again\n> list /\n"


def is_left(image, again, count):
    """Whether the checkpoint of so many commands is left: its superblock, the count, and what is listed."""
    body = 3 if count % 2 else 1
    committed, superblock = image.block(body - 1)[0], image.block(body).hex()
    is_such = committed == 1 and superblock[32:64] == number(count + 1) + number(count)
    return is_such and (again.acks, again.written) == ([count], [listed(count)])


def listed(count):
    """What is listed after so many of the directories were made."""
    return " ".join(["ok"] + [line.split("/")[1] + "/" for line in MADE[:count]])


def stopped_formats(rows, report):
    """A format that is stopped leaves the old tree, none or the new one, on zeros and on an image of another tree."""
    for has_image in (False, True):
        begun = "> mkdir /a\n> checkpoint\n" if has_image else f"-- blank {SLOTS}\n"
        every = rows.show(f"# a format\n{begun}-- format {SLOTS}\n")[-1].calls
        stops = rows.some([(passed, torn) for passed in range(every + 1) for torn in TEARS], 11)
        count = 3 if has_image else 2
        calls = rows.show("".join(
            f"# stopped after {passed} calls, {torn}\n{begun}-- format {SLOTS}\n{cut(passed, torn)}-- again\n> list /\n"
            for passed, torn in stops))
        for (passed, torn), made, again in zip(stops, calls[count - 2::count], calls[count - 1::count]):
            is_done, is_old = made.status == 0, has_image and again.written == ["ok a/"]
            is_such = again.written == ["ok"] or not is_done and (is_old or is_none(again))
            report(is_done == (passed == every) and is_such,
                   f"engine: a format stopped after {passed} calls: {torn}: {has_image}: {again.written}")
        report(len(calls) == count * len(stops), f"engine: stopped formats were run: {has_image}")


def is_none(call):
    """Whether a run finds no image: no superblock is committed, or one is damaged."""
    return call.status == 4 and call.written in [[f"fault damaged {block}"] for block in range(FIRST_LOG_BLOCK)]


def test(rows, report):
    fresh_images(rows, report)
    ten_checkpoints(rows, report)
    opened_again(rows, report)
    large_file(rows, report)
    stopped_checkpoints(rows, report)
    stopped_formats(rows, report)
