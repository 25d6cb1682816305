"""What is installed, as a person and as programs use it, from another folder than the checkout."""
import os
import re
import shutil
import sys

from parts.rows import Skipped, holds, same
from tests.prefix import run

SIZES = ["--frames=64", "--blocks=256", "--inodes=64", "--scratch=1"]

PYTHON_CLIENT = """
from rio import Rio, check, format_pair
print(*format_pair("image", "disk", frames=64, blocks=256, inodes=64, scratch=1))
with Rio("image", "disk") as rio:
    print(rio.create("/notes"), rio.write("/notes", 0, b"hello"))
print(*check("image", "disk"))
"""

C_CLIENT = r"""
#include <rio.h>
#include <stdio.h>
int main(int count, char **words) {
    rio *r = rio_open(words[count - 1], "image", "disk");
    uint64_t inode = 0;
    int failed = rio_create(r, "/notes", &inode);
    printf("%d %d\n", failed, (int)inode);
    return rio_end(r);
}
"""


def needed(name):
    if shutil.which(name) is None:
        raise Skipped(f"there is no {name} here")


def commands(setting, *words, lines="", folder=None):
    """Runs `rio` with these words, as it is found in the search path."""
    return run(["sh", "-c", 'exec rio "$@"', "rio", *words], folder, lines, PATH=setting.search_path())


def a_day(setting):
    """A pair is made, served twice and looked at."""
    folder = setting.folder()
    formatted = commands(setting, "format", "image", "disk", *SIZES, folder=folder)
    same(formatted, (0, "formatted 83 pages 256 blocks\n", ""), "format")
    first = commands(setting, "serve", "image", "disk", lines="create /notes\nwrite /notes 0 68656c6c6f\n", folder=folder)
    same(first, (0, "ok 2\nok 5\n", ""), "the first run")
    second = commands(setting, "serve", "image", "disk", lines="read /notes 0 100\n", folder=folder)
    same(second, (0, "ok 68656c6c6f\n", ""), "the second run")
    looked = commands(setting, "check", "image", "disk", folder=folder)
    same(looked, (0, "sound dirs 1 files 1 regions 0 used 2 free 250\n", ""), "check")


def own_words(setting):
    """The version is that of the checkout, and --help shows the forms."""
    version = commands(setting, "--version")
    same(version, run([os.path.join(setting.top, "rio"), "--version"]), "the version")
    holds(re.fullmatch(r"rio [0-9.]+\n", version.said), f"the version is {version.said!r}")
    holds("\nrio serve IMAGE DISK [--stop N]\n" in commands(setting, "--help").said, "--help does not show the form of serve")


def through_links(setting):
    folder = setting.folder()
    os.symlink(os.path.relpath(setting.path("bin/rio"), folder), os.path.join(folder, "one"))
    os.symlink("one", os.path.join(folder, "two"))
    ended = run([os.path.join(folder, "two"), "format", "image", "disk", *SIZES], folder)
    same(ended, (0, "formatted 83 pages 256 blocks\n", ""), "format through a link to a link")


def manual_page(setting):
    """`man rio` finds the page of the prefix, and shows it."""
    needed("man")
    settings = {"PATH": setting.search_path(), "MANPATH": "", "MANWIDTH": "80"}
    found = run(["man", "-w", "rio"], **settings)
    same((found.status, found.said), (0, setting.path("share/man/man1/rio.1") + "\n"), "the page that is found")
    shown = run(["man", "rio"], **settings)
    same(shown.status, 0, f"the status of man, which told {shown.told!r},")
    holds("file server whose cache in memory is the permanent store" in shown.said, "man does not show the page")


def python_client(setting):
    """rio.py finds the launcher that it is installed with."""
    settings = {"PYTHONPATH": setting.path("share/rio/clients"), "PYTHONDONTWRITEBYTECODE": "1"}
    ended = run([sys.executable, "-c", PYTHON_CLIENT], setting.folder(), **settings)
    same(ended, (0, "83 256\n2 5\n1 1 0 2 250\n", ""), "what it printed")


def c_client(setting):
    """A program in C finds the header, and is compiled with the source."""
    needed("cc")
    folder = setting.folder()
    with open(os.path.join(folder, "program.c"), "w", encoding="ascii") as file:
        file.write(C_CLIENT)
    sources = ["program.c", setting.path("share/rio/clients/rio.c")]
    built = run(["cc", "-std=c11", "-I", setting.path("include"), "-o", "program", *sources], folder)
    same(built, (0, "", ""), "cc")
    same(commands(setting, "format", "image", "disk", *SIZES, folder=folder).status, 0, "the status of format")
    ended = run([os.path.join(folder, "program"), setting.path("bin/rio")], folder)
    same(ended, (0, "0 2\n", ""), "what the program printed")


def talk(setting):
    """The clients that are programs are found as rio-NAME."""
    folder = setting.folder()
    same(commands(setting, "format", "image", "disk", *SIZES, folder=folder).status, 0, "the status of format")
    ended = run(["rio-talk", "image", "disk"], folder, "create /notes\n", PATH=setting.search_path())
    same((ended.status, ended.said), (0, "ok 2\n"), "what talk shows")


def rows():
    """The rows by their names."""
    return {
        "format, serve and check": a_day,
        "--version and --help": own_words,
        "links": through_links,
        "man rio": manual_page,
        "the client in Python": python_client,
        "the client in C": c_client,
        "rio-talk": talk,
    }
