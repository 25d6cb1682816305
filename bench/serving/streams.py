"""The streams that `bench/served` counts: lines of one kind each, by how many rounds of them are run."""


def sizes(frames, blocks, inodes):
    """The options of a pair."""
    return ["--frames", str(frames), "--blocks", str(blocks), "--inodes", str(inodes), "--scratch", "1"]


# The pair that is served where a stream names no other; a large one, with a frame for each block; one with more inodes; and one
# with fewer frames.
SMALL = sizes(64, 256, 64)
LARGE = sizes(2048, 2048, 1024)
MANY_NAMES = sizes(2048, 2048, 8192)
NARROW = sizes(256, 2048, 1024)

PAGE_BYTES = 4096


def data(n, count):
    """The digits of so many bytes, each one more than the one before it, from n on."""
    first = n % 256
    return (bytes(range(256)) * (count // 256 + 2))[first : first + count].hex()


def small_writes(rounds):
    """64 bytes written in place."""
    before = ["create /f", f"write /f 0 {data(0, 4096)}"]
    return before, [f"write /f {64 * (n % 64)} {data(n, 64)}" for n in range(rounds)]


def kilobytes(rounds):
    """1 KiB written at 0 and read back, over 40 files in turn."""
    before = [f"create /f{k}" for k in range(40)] + [f"write /f{k} 0 {data(k, 1024)}" for k in range(40)]
    lines = []
    for n in range(rounds):
        lines += [f"write /f{n % 40} 0 {data(n, 1024)}", f"read /f{n % 40} 0 1024"]
    return before, lines


def mail_drop(rounds):
    """A mail of 2 KiB made, renamed, read and removed, among 60 names."""
    before = ["mkdir /m"] + [f"create /m/{k:06}" for k in range(60)]
    lines = []
    for n in range(rounds):
        lines += [f"create /m/t{n % 50}", f"write /m/t{n % 50} 0 {data(n, 2048)}", f"rename /m/t{n % 50} /m/n{n % 50}",
                  f"read /m/n{n % 50} 0 4096", f"unlink /m/n{n % 50}"]
    return before, lines


def directories(rounds):
    """A directory made, renamed and removed."""
    lines = []
    for n in range(rounds):
        lines += [f"mkdir /d{n % 9}", f"rename /d{n % 9} /e{n % 9}", f"rmdir /e{n % 9}"]
    return [], lines


def makings(rounds):
    """A file made and removed."""
    return [], [line for n in range(rounds) for line in (f"create /f{n % 9}", f"unlink /f{n % 9}")]


def sizes_of_a_file(smaller, larger):
    """A file brought to one size and to the other."""
    def stream(rounds):
        return ["create /f", f"truncate /f {smaller}"], [f"truncate /f {larger}", f"truncate /f {smaller}"] * rounds
    return stream


def stats(rounds):
    """What stands at each of 60 names in turn."""
    return [f"create /n{k:02}" for k in range(60)], [f"stat /n{n % 60:02}" for n in range(rounds)]


def deep_stats(rounds):
    """The same at paths of two names."""
    return ["mkdir /m"] + [f"create /m/f{k}" for k in range(40)], [f"stat /m/f{n % 40}" for n in range(rounds)]


def lists(rounds):
    """60 names listed."""
    return [f"create /n{k:02}" for k in range(60)], ["list /"] * rounds


def many_names(names, *lines):
    """Lines on each of so many names of one directory in turn. `{0}` stands for a name that is there, `{1}` for one that is not."""
    def stream(rounds):
        before = ["mkdir /m"] + [f"create /m/{k:06}" for k in range(names)]
        # By steps of 7, so that no name is next to the one before it.
        turns = ((f"/m/{7 * n % names:06}", f"/m/x{n % names:05}") for n in range(rounds))
        return before, [line.format(*turn) for turn in turns for line in lines]
    return stream


def wide_writes(rounds):
    """64 bytes written in place, in each page of 1,000 in turn."""
    return ["create /f", "truncate /f 4096000"], [f"write /f {4096 * (n * 7 % 1000)} {data(n, 64)}" for n in range(rounds)]


def transactions(before, first):
    """8 bytes changed in a transaction of their own, in the page from byte `first` of the region on."""
    def stream(rounds):
        lines = []
        for n in range(rounds):
            at = first + 8 * (n % 512)
            lines += ["begin /r", f"range /r {at} 8", f"put /r {at} {data(n, 8)}", "commit /r"]
        return before, lines
    return stream


def debits(rounds):
    """An account debited and another one credited, of 512 in a page, in a transaction of six requests."""
    lines = []
    for n in range(rounds):
        accounts = [8 * (n % 512), 8 * ((7 * n + 3) % 512)]
        lines += ["begin /r", *(f"range /r {at} 8" for at in accounts), *(f"put /r {at} {data(n, 8)}" for at in accounts), "commit /r"]
    return ["region /r 4 1"], lines


def open_beside():
    """A region beside 40 others with a transaction open on each, and beside 20 files."""
    before = ["region /r 4 1"] + [f"create /n{k:02}" for k in range(20)]
    for k in range(40):
        before += [f"region /o{k:02} 1 1", f"begin /o{k:02}"]
    return before


def page_puts(rounds):
    """20 ranges of 4 KiB in one transaction, each changed as soon as it is made."""
    lines = []
    for n in range(rounds):
        lines.append("begin /r")
        for k in range(20):
            lines += [f"range /r {4096 * (k % 4)} 4096", f"put /r {4096 * (k % 4)} {data(n + k, 4096)}"]
        lines.append("commit /r")
    return ["region /r 4 21"], lines


def page_transactions(end):
    """4 KiB changed in a transaction of their own, which is ended in this way."""
    def stream(rounds):
        lines = []
        for n in range(rounds):
            at = 4096 * (n % 4)
            lines += ["begin /r", f"range /r {at} 4096", f"put /r {at} {data(n, 4096)}", f"{end} /r"]
        return ["region /r 4 2"], lines
    return stream


def heap(before, at):
    """50 times in a transaction, a block of one unit taken and given back, which starts at byte `at`."""
    def stream(rounds):
        lines = []
        for _ in range(rounds):
            lines += ["begin /r"] + ["alloc /r 1", f"free /r {at}"] * 50 + ["commit /r"]
        return before, lines
    return stream


def full_pages(count):
    """A region of 300 data pages, the first so many of them in one block."""
    return ["region /r 300 2", "begin /r", f"alloc /r {64 * count}", "commit /r"]


def rewritten(pages, together):
    """A file of so many pages written over once in a round, so many whole pages a request."""
    def stream(rounds):
        lines = []
        for n in range(rounds):
            lines += [f"write /f {PAGE_BYTES * at} {data(n + at, PAGE_BYTES * together)}" for at in range(0, pages, together)]
        return ["create /f", f"truncate /f {PAGE_BYTES * pages}"], lines
    return stream


# The largest region that the small volume has room for, of 247 data pages, the first half of its units in a block.
HALF_FULL = ["region /r 247 1", "begin /r", "alloc /r 7904", "commit /r"]

# By name: the stream, how many rounds of it, and how many of what the name says one round has.
COMMON = {
    "a write of 64 bytes in place": (small_writes, 4000, 1),
    "a request of 1 KiB written and read": (kilobytes, 2000, 2),
    "a request of the mail drop": (mail_drop, 400, 5),
    "mkdir, rename, rmdir, each": (directories, 400, 3),
    "create and unlink, each": (makings, 400, 2),
    "truncate by a page, up and down, each": (sizes_of_a_file(100, 5000), 400, 2),
    "truncate within a page, up and down, each": (sizes_of_a_file(100, 3000), 400, 2),
    "a stat among 60 names": (stats, 3000, 1),
    "a list of 60 names": (lists, 1000, 1),
    "begin, range, put, commit of 8 bytes, each": (transactions(["region /r 4 1"], 0), 1000, 4),
    "a debit between two accounts, each of its six requests": (debits, 700, 6),
    "a range and a put of 4 KiB, the pair": (page_puts, 10, 20),
    "an alloc and a free of one unit, each": (heap(["region /r 4 1"], 0), 10, 100),
}

SMALL_ALONE = {
    "a stat at a path of two names": (deep_stats, 4000, 1),
    "begin, range, put, commit of 8 bytes in the last page of 200, each": (transactions(["region /r 200 1"], 4096 * 199), 1000, 4),
    "begin, range, put, commit of 8 bytes beside 40 others, each": (transactions(open_beside(), 0), 1000, 4),
    "a transaction of 4 KiB, committed, the four requests": (page_transactions("commit"), 200, 1),
    "a transaction of 4 KiB, aborted, the four requests": (page_transactions("abort"), 200, 1),
    "an alloc and a free of one unit in 247 data pages half full, each": (heap(HALF_FULL, 64 * 7904), 10, 100),
}

LARGE_ALONE = {
    "an alloc and a free of one unit behind 256 full pages, each": (heap(full_pages(256), PAGE_BYTES * 256), 10, 100),
    "a stat among 500 names": (many_names(500, "stat {0}"), 2000, 1),
    "a list of 500 names": (many_names(500, "list /m"), 100, 1),
    "a write of 64 bytes in 1,000 pages in turn": (wide_writes, 2000, 1),
}

# What may grow with the names of a directory: the lines of a round, by what they do. A renamed name is renamed back.
AMONG_NAMES = {
    "a stat": ["stat {0}"],
    "a stat that is refused": ["stat {1}"],
    "create and unlink, each": ["create {1}", "unlink {1}"],
    "rename, each": ["rename {0} {1}", "rename {1} {0}"],
}

# Among how many names that is done. 64 names fill one page and 4,096 fill 64, so one more takes a page.
NAMES = (16, 64, 4096, 4100)

# Files of twice as many pages as there are frames: the frames, their pair, rounds, and how many pages a request may write. So many
# rounds that some thirty requests come before those that count.
REWRITTEN = [(64, SMALL, 32, (1, 16, 128)), (256, NARROW, 16, (1, 16, 256))]


class Stream:
    """Lines of one kind: how many rounds of them, how many of what the name says one round has, and on which pair."""

    def __init__(self, name, lines, rounds, counted, pair=SMALL, pages=0):
        self.name, self.lines, self.rounds, self.counted, self.pair = name, lines, rounds, counted, pair
        # How many pages a round writes, each of which was let go since the round before; 0 where that is not looked at.
        self.pages = pages

    def refusals(self):
        """How many lines are to be refused in the first run: all of a stream whose name says so, else none."""
        return len(self.lines(self.rounds)[1]) if "refused" in self.name else 0


def all_streams():
    """All streams, in the order in which they are run."""
    yield from (Stream(name, *of) for part in (COMMON, SMALL_ALONE) for name, of in part.items())
    yield from (Stream(f"{name}, on 2,048 blocks", *of, LARGE) for part in (COMMON, LARGE_ALONE) for name, of in part.items())
    yield Stream("a write of 64 bytes in 1,000 pages in turn, on 2,048 blocks and 256 frames", wide_writes, 2000, 1, NARROW)
    for name, lines in AMONG_NAMES.items():
        for names in NAMES:
            yield Stream(f"{name}, among {names:,} names", many_names(names, *lines), 400, len(lines), MANY_NAMES)
    for frames, pair, rounds, requests in REWRITTEN:
        pages = 2 * frames
        for together in requests:
            name = f"a page written over in a file of twice {frames} frames, by {together} a request"
            yield Stream(name, rewritten(pages, together), rounds, pages, pair, pages)
