"""Paths of rio: what is below one, shown as a list or a tree, and read whole."""
import collections

from talklib.texts import of_them

# What a directory has: a name and its path as text, and what `stat` says of it.
Item = collections.namedtuple("Item", "name path stat")


def below(directory, name):
    """The path of a name in a directory."""
    return directory.rstrip("/") + "/" + name


def items_of(rio, directory):
    """What a directory has, in the order of names."""
    names = rio.list(directory)
    with rio.batch() as batch:
        replies = [batch.stat(below(directory, name)) for name in names]
    return [Item(name, below(directory, name), reply.result()) for name, reply in zip(names, replies)]


def walk(rio, directory):
    """Each item below a directory, a directory before what it has."""
    for item in items_of(rio, directory):
        yield item
        if item.stat.kind == "dir":
            yield from walk(rio, item.path)


def short_list(rio, path):
    """The names in a directory, a line each; a path that is no directory is its own list."""
    if rio.stat(path).kind != "dir":
        return path
    return "\n".join(item.name + mark(item.stat) for item in items_of(rio, path)) or of_them(0, "name")


def mark(stat):
    """What is shown behind a name for its kind."""
    return {"dir": "/", "file": "", "region": "@"}[stat.kind]


def long_list(rio, path):
    """Kind, inode and size beside each name."""
    stat = rio.stat(path)
    items = items_of(rio, path) if stat.kind == "dir" else [Item(path, path, stat)]
    width = max((len(str(item.stat.size)) for item in items), default=1)
    rows = [f"{item.stat.kind:<6} {item.stat.inode:>5} {item.stat.size:>{width}} {item.name}" for item in items]
    return "\n".join([of_them(len(items), "name"), *rows])


def tree(rio, path):
    """All that is below a path, with lines to it and sizes, and the sum."""
    items = []
    rows = branches(rio, path, "", items) if rio.stat(path).kind == "dir" else []
    count = collections.Counter(item.stat.kind for item in items)
    size = sum(item.stat.size for item in items if item.stat.kind != "dir")
    counts = [of_them(count["dir"], "directory", "directories"), of_them(count["file"], "file"), of_them(count["region"], "region")]
    return "\n".join([path, *rows, ", ".join([*counts, of_them(size, "byte")])])


def branches(rio, directory, front, seen):
    """The rows of a tree below a directory, each behind this front. What is seen is added to a list."""
    rows = []
    items = items_of(rio, directory)
    for item in items:
        seen.append(item)
        is_last = item is items[-1]
        size = "" if item.stat.kind == "dir" else f"  {item.stat.size}"
        rows.append(f"{front}{'`-- ' if is_last else '|-- '}{item.name}{mark(item.stat)}{size}")
        if item.stat.kind == "dir":
            rows += branches(rio, item.path, front + ("    " if is_last else "|   "), seen)
    return rows


def content(rio, path):
    """All bytes of a file, or of a region as they are now."""
    stat = rio.stat(path)
    if stat.kind != "region":
        return rio.read_all(path)
    return rio.memory(path)[:]
