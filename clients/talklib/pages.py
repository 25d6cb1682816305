"""What `help` says of each line, and the hint at a line that is none."""
import collections
import difflib

# What a line is good for, and of which kinds its words are, for completion: path, file, folder, word, or other.
Page = collections.namedtuple("Page", "forms tells kinds")

OWN = {
    "help": Page(["help", "help LINE"], "shows all lines, or what one of them is for", ["word"]),
    "ls": Page(["ls", "ls PATH", "ls -l PATH"], "shows the names in a directory, or with kind, inode and size", ["path", "path"]),
    "tree": Page(["tree", "tree PATH"], "shows all that is below a directory, with sizes", ["path"]),
    "cat": Page(["cat PATH"], "shows a file or a region, whole: its text, or its digits where it is no text", ["path"]),
    "df": Page(["df"], "shows how many blocks and inodes are used and free", []),
    "import": Page(
        ["import FOLDER PATH"], "copies all that is in a folder of the system into the directory PATH", ["folder", "path"]),
    "export": Page(["export PATH FOLDER"], "copies all that is below PATH into a new folder of the system", ["path", "folder"]),
}

REQUESTS = {
    "mkdir": Page(["mkdir PATH"], "makes an empty directory, and answers its inode", ["path"]),
    "create": Page(["create PATH"], "makes an empty file, and answers its inode", ["path"]),
    "write": Page(
        ["write PATH OFF HEX", 'write PATH OFF "TEXT"', 'write PATH "TEXT"'],
        "writes bytes from byte OFF of a file on; without OFF the text is all that the file has then", ["path"]),
    "read": Page(["read PATH OFF LEN"], "answers up to LEN bytes of a file from byte OFF on", ["path"]),
    "truncate": Page(["truncate PATH LEN"], "gives a file LEN bytes; what it grows by is zeros", ["path"]),
    "unlink": Page(["unlink PATH"], "removes a file or a region", ["path"]),
    "rmdir": Page(["rmdir PATH"], "removes an empty directory", ["path"]),
    "rename": Page(["rename PATH TO"], "moves a name; a file or region of the name TO is replaced", ["path", "path"]),
    "stat": Page(["stat PATH"], "answers inode, kind and size", ["path"]),
    "list": Page(["list PATH"], "answers the names in a directory", ["path"]),
    "sync": Page(["sync"], "does nothing: what is answered is kept", []),
    "region": Page(["region PATH D U"], "makes a region of D data pages and U undo pages, and answers its inode", ["path"]),
    "begin": Page(["begin PATH"], "opens a transaction on a region", ["path"]),
    "range": Page(["range PATH OFF LEN"], "says that the transaction may change these bytes, whole words of 8", ["path"]),
    "put": Page(
        ["put PATH OFF HEX", 'put PATH OFF "TEXT"', "put FILE PATH"],
        "changes bytes of a region within the ranges of its transaction; with a FILE copies that of the system to PATH",
        ["path or file", "path"]),
    "get": Page(
        ["get PATH OFF LEN", "get PATH", "get PATH FILE"],
        "answers bytes of a region; without OFF shows a file, whole, or copies it to a FILE of the system", ["path", "file"]),
    "alloc": Page(
        ["alloc PATH N"], "takes a block of N units of 64 bytes of a region's heap, and answers where it starts", ["path"]),
    "free": Page(["free PATH OFF"], "gives back the block that starts at byte OFF", ["path"]),
    "commit": Page(["commit PATH"], "ends the transaction, and keeps what it changed", ["path"]),
    "abort": Page(["abort PATH"], "ends the transaction, and puts back what was before it", ["path"]),
    "txns": Page(["txns"], "answers the inodes of the regions with an open transaction", []),
    "flush": Page(["flush K"], "writes the first K changed pages of memory to the disk", []),
    "wild": Page(["wild A V"], "stores the word V at word A of memory, as a program gone wild does", []),
    "arm": Page(["arm S A V"], "has such a store made after S further steps", []),
}

PAGES = {**REQUESTS, **OWN}


def page_of(word):
    """What `help WORD` shows, or the hint where there is no such line."""
    page = PAGES.get(word)
    if page is None:
        return hint(word)
    return "\n".join([*page.forms, f"    {page.tells}"])


def requests():
    """Each of rio's own lines in its first form, with what it is for."""
    return "\n".join(f"    {page.forms[0]:<25} {page.tells}" for page in REQUESTS.values())


def hint(line):
    """What may have been meant by a line that is none."""
    word = line.partition(" ")[0]
    if word in PAGES:
        return "its form is: " + ", or ".join(PAGES[word].forms)
    near = difflib.get_close_matches(word.lower(), PAGES, n=1)
    if near:
        return f"there is no line {word}: is {near[0]} meant? help {near[0]} tells its form"
    return f"there is no line {word}: help shows all"


# What to do where rio ends with a status.
ADVICE = {
    2: "the two files are different names, and neither begins with -",
    3: "the first file is no memory image, or not whole: name IMAGE and then DISK, or take a copy of the pair",
    4: "the two files are no pair, or one is damaged: name IMAGE and then DISK, or take a copy of the pair",
    5: "the disk failed at the beginning, and nothing is lost: see to the disk, and talk again",
    6: "there was no memory, and what was answered is kept: talk again where there is more",
    9: "rio could not answer: what was answered before is kept, talk again",
    10: "the machine has stopped as in a crash: what was answered is kept, talk again",
}


FILE_STATUS = 7


def advice(end):
    """What to do where rio has ended so, and not with status 0; '' where nothing is known of it."""
    if end.status < 0:
        return f"rio was killed by signal {-end.status}: what was answered is kept in the pair, talk again"
    if end.status == FILE_STATUS:
        return file_advice(end.last_line)
    return ADVICE.get(end.status, "")


def file_advice(last_line):
    """What to do where a file was not there, or was refused. A new pair is told of only where none is lost by it."""
    if last_line.startswith("no such file: "):
        return "look at the name; where there is no pair yet, rio format makes one"
    return (
        "another run has that file, or the system refused it: end that run, look at rights and room, and talk again; nothing is"
        " lost unless a line tells that the image could not be kept in step with memory"
    )
