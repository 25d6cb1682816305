"""The parts of the test on look: maps of pairs of which is known by hand what is where."""
import collections
import fcntl
import os
import re
import shutil
import subprocess
import sys
import xml.etree.ElementTree as ElementTree

from setting import HERE, content, patch, same
from shell_parts import MADE
from talk_parts import LONGEST, talked

LOOK = os.path.join(os.path.dirname(HERE), "look")
PAGE = 4096
CELL = 12

# Of the pair that MADE makes, by hand: blocks 0 to 3 are tables, the root's page is block 4 and that of /mail block 5, the region
# has blocks 6 to 12, /mail/in has block 13, and /notes 25 pages and a block of their numbers.
USES_OF_MADE = {
    "superblock, bitmap, inodes": 4, "directory": 2, "file": 26, "block numbers of a file": 1, "region: header": 1,
    "region: undo pages": 3, "region: heap map": 1, "region: data": 2, "free": 216,
}
BLOCKS_OF_MADE = {
    0: "superblock", 1: "bitmap", 3: "inodes 33 to 64", 4: "/, page 0", 5: "/mail, page 0", 6: "/bank, header, page 0",
    7: "/bank, undo pages, page 1", 9: "/bank, undo pages, page 3", 10: "/bank, heap map, page 4", 12: "/bank, data, page 6",
    13: "/mail/in, page 0", 40: "free", 255: "free",
}


def looked(program, *words):
    """Looks at a pair, and returns the status and what is said on both streams, as lines."""
    words = [sys.executable, LOOK, *words, "--program", program]
    ended = subprocess.run(words, stdin=subprocess.DEVNULL, capture_output=True, timeout=LONGEST, check=False)
    return ended.returncode, ended.stdout.decode().splitlines(), ended.stderr.decode().splitlines()


def made(setting):
    """The pair that MADE makes."""
    files = setting.pair()
    same(talked(setting.program, files, MADE)[0], 0)
    return files


def counted(lines):
    """The counts of a legend: by what they are of, how many there are and how many are newer than the disk."""
    found = [re.fullmatch(r" {7}. +([0-9]+)  (.*?)(?:, ([0-9]+) newer than the disk)?", line) for line in lines]
    return {match[2]: (int(match[1]), int(match[3] or 0)) for match in found if match}


def halves(lines):
    """The lines on memory, and those on the disk."""
    at = next(place for place, line in enumerate(lines) if line.startswith("disk: "))
    return lines[:at], lines[at:]


def fresh(setting):
    """A pair of which nothing is in memory, by hand."""
    _, lines, _ = looked(setting.program, *setting.pair())
    memory, disk = halves(lines)
    same(counted(memory), {"memory's header and registry": (2, 0), "free": (80, 0), "scratch": (1, 0)})
    same(counted(disk), {"superblock, bitmap, inodes": (4, 0), "free": (252, 0)})
    same([line for line in disk if line.startswith(" " * 5 + "0 ")], ["     0 tttt" + "." * 60])
    same([line for line in memory if line.startswith("    64 ")], ["    64 " + "." * 18 + "x"])


def words(*numbers):
    """Numbers as the words of a file."""
    return b"".join(number.to_bytes(8, "little") for number in numbers)


def by_hand(setting):
    """Two pages in memory by hand: block 0 in frame 0, and block 1 of frame 2 in shadow page 4, newer than the disk."""
    image, disk = setting.pair()
    blocks = content(disk)
    patch(image, 32, words(1))
    patch(image, PAGE, words(1, 0, 0, PAGE, 0))
    patch(image, PAGE + 2 * 40, words(2**32 + 3, 0, 0, PAGE, 4))
    patch(image, PAGE * 18, blocks[:PAGE])
    patch(image, PAGE * (1 + 4), blocks[PAGE : 2 * PAGE])
    patch(disk, PAGE, bytes(PAGE))
    status, lines, _ = looked(setting.program, image, disk)
    memory, on_disk = halves(lines)
    same((status, memory[2]), (0, "memory: 83 pages, 64 frames, 1 scratch; gate 1"))
    same(counted(memory), {
        "memory's header and registry": (2, 0), "superblock, bitmap, inodes": (2, 1), "shadow page in use": (1, 1),
        "free": (77, 0), "scratch": (1, 0)})
    same(counted(on_disk), {"superblock, bitmap, inodes": (4, 1), "free": (252, 0)})
    same([line[7:] for line in memory if line.startswith("     0 ")], ["kk...S............t.T" + "." * 43])
    tells = "block 1: bitmap; frame 2, in shadow page 4, newer than the disk"
    same(looked(setting.program, image, disk, "--block", "1"), (0, [tells], []))
    same(looked(setting.program, image, disk, "--block", "2"), (0, ["block 2: inodes 1 to 32"], []))


def whose(setting):
    """Counts and owners of blocks by hand, and of frames those that `rio registry` lists."""
    files = made(setting)
    status, lines, said = looked(setting.program, *files)
    memory, disk = halves(lines)
    same((status, said), (0, []))
    same(lines[0], f"{files[0]}, {files[1]}: 3 dirs, 2 files, 1 regions; 36 blocks used, 216 free")
    same({use: count for use, (count, _) in counted(disk).items()}, USES_OF_MADE)
    registry = subprocess.run([setting.program, "registry", files[0]], capture_output=True, check=True)
    listed = registry.stdout.decode().splitlines()[1:]
    states = collections.Counter(line.split()[3] for line in listed)
    others = ("free", "scratch", "memory's header and registry", "shadow page in use")
    frames = [count for use, count in counted(memory).items() if use not in others]
    same((sum(count for count, _ in frames), sum(dirty for _, dirty in frames)), (len(listed), states["dirty"]))
    same(sum(dirty for _, dirty in counted(disk).values()), states["dirty"])
    same("       /bank: 2 data, 3 undo, 1 map; 0 of 128 heap units used" in lines, True)
    asked = [word for number in BLOCKS_OF_MADE for word in ("--block", str(number))]
    _, told, _ = looked(setting.program, *files, *asked)
    same([line.partition(";")[0] for line in told], [f"block {number}: {tells}" for number, tells in BLOCKS_OF_MADE.items()])


def heap(setting):
    """The units of a heap that are used, and a region of another run."""
    files = setting.pair()
    talked(setting.program, files, ["region /r 1 1", "begin /r", "alloc /r 3", "alloc /r 10", "free /r 0", "commit /r"])
    for _ in range(2):
        _, lines, _ = looked(setting.program, *files)
        same(lines[-3], "       /r: 1 data, 1 undo, 1 map; 10 of 64 heap units used")
        talked(setting.program, files, ["sync"])


def picture(setting):
    """The picture is well-formed, and each block is in one run of it, of the colour of its use."""
    files, name = made(setting), setting.path("svg")
    same(looked(setting.program, *files, "--svg", name), (0, [f"{name}: 83 pages and 256 blocks"], []))
    root = ElementTree.parse(name).getroot()
    space = {"svg": "http://www.w3.org/2000/svg"}
    cells = collections.Counter()
    for group in root.iterfind("svg:g", space):
        box = group.find("svg:rect", space)
        if group.find("svg:title", space).text.startswith("block "):
            cells[box.get("fill")] += int(box.get("width")) // CELL
    same(sorted(cells.values()), sorted(USES_OF_MADE.values()))
    texts = [text.text for text in root.iterfind("svg:text", space)]
    same("Disk: 256 blocks, 64 inodes, of them 6 used" in texts, True)
    same("/bank: 0 of 128 heap units used; 2 data, 3 undo, 1 map pages" in texts, True)


def large(setting):
    """Where there are too many blocks for a sign each, one stands for several."""
    _, lines, _ = looked(setting.program, *setting.pair("large"))
    same([line for line in lines if line.startswith("  1984 ")], ["  1984 " + "." * 64] * 2)
    image, disk = setting.path("image"), setting.path("disk")
    sizes = ["--frames", "32", "--blocks", "32768", "--inodes", "32", "--scratch", "1"]
    subprocess.run([setting.program, "format", image, disk, *sizes], stdout=subprocess.DEVNULL, check=True)
    _, lines, _ = looked(setting.program, image, disk)
    same("       each sign stands for 11: the one that most of them have" in lines, True)
    same(counted(halves(lines)[1]), {"superblock, bitmap, inodes": (3, 0), "free": (32765, 0)})


def refused(setting):
    """What cannot be looked at is told in a line, and nothing is written."""
    image, disk = setting.pair()
    missing, unmarked, short = (setting.path(name) for name in ("missing", "unmarked", "short"))
    shutil.copyfile(disk, unmarked)
    patch(unmarked, PAGE, b"\x0e")
    shutil.copyfile(image, short)
    os.truncate(short, 339_967)
    rows = [
        ((missing, disk), f"look: there is no file {missing}: `rio format` makes a pair"),
        ((image, missing), f"look: there is no file {missing}: `rio format` makes a pair"),
        ((disk, image), f"look: {disk} is no memory image: name the file IMAGE of `rio format` first, and DISK second"),
        ((image, setting.folder), f"look: {setting.folder} is no file, or an empty one: name the two files of `rio format`"),
        ((short, disk), f"look: {short} is damaged, or of another version: `rio registry` tells the rule that it breaks"),
        ((image, unmarked),
         "look: volume refused: rule 2 block 1: the two files are no pair, or one is damaged: take a copy of the pair"),
        ((image, disk, "--block", "256"), "look: there is no block 256: the last is 255"),
        ((image, disk, "--svg", "/nowhere/x"), "look: [Errno 2] No such file or directory: '/nowhere/x'"),
    ]
    for words, line in rows:
        same(looked(setting.program, *words), (1, [], [line]))
    with open(disk, "rb") as held:
        fcntl.flock(held, fcntl.LOCK_EX)
        same(looked(setting.program, image, disk), (1, [], [f"look: {disk} is in use by a run: end that first"]))


def parts():
    """The parts, each with what it says of itself."""
    return {
        "look: a fresh pair": fresh,
        "look: pages in memory by hand": by_hand,
        "look: whose each block is": whose,
        "look: a heap": heap,
        "look: a picture": picture,
        "look: many blocks": large,
        "look: what cannot be looked at": refused,
    }
