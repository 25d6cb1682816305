"""What an install makes, and what is left behind an uninstall."""
import os
import re
import shutil

from parts.rows import holds, same
from tests.prefix import names_below, run

# Of a whole install. The clients are looked for by themselves.
PLACED = [
    "bin/rio",
    "include/rio.h",
    "libexec/rio/launch.sh",
    "libexec/rio/rio",
    "libexec/rio/rio_held",
    "share/bash-completion/completions/rio",
    "share/doc/rio/README.md",
    "share/doc/rio/bench/README.md",
    "share/doc/rio/docs/GUIDE.md",
    "share/doc/rio/docs/compare.svg",
    "share/doc/rio/man/rio.1",
    "share/man/man1/rio.1",
    "share/rio/clients/rio.py",
    "share/rio/clients/rio.c",
    "share/zsh/site-functions/_rio",
]


def one_line(ended, begins):
    """A refusal: a status that is not 0, no output, and a line that begins so, behind which make may tell its own."""
    holds(ended.status != 0, "the status is 0")
    same(ended.said, "", "what was said")
    told = [line for line in ended.told.splitlines() if not line.startswith("make")]
    same(len(told), 1, f"the number of lines that were told, {told},")
    holds(told[0].startswith(begins), f"it told {told[0]!r}, and not {begins!r} with more")


def content(path):
    with open(path, encoding="utf-8") as file:
        return file.read()


def all_placed(setting):
    placed = names_below(setting.prefix)
    same([name for name in PLACED if name not in placed], [], "what is missing")
    tests = [name for name in placed if name.startswith("share/rio") and "test" in name]
    same(tests, [], "tests that are installed")
    for name in ("bin/rio", "libexec/rio/rio", "libexec/rio/rio_held", "share/rio/clients/talk"):
        holds(os.access(setting.path(name), os.X_OK), f"{name} cannot be run")


def links_lead_on(setting):
    """Each file that an installed document links is installed too."""
    top = setting.path("share/doc/rio")
    for name in names_below(top):
        if name.endswith(".md"):
            folder = os.path.dirname(os.path.join(top, name))
            linked = re.findall(r"\]\(([^)#]+)[^)]*\)", content(os.path.join(top, name)))
            same([to for to in linked if not os.path.isfile(os.path.join(folder, to))], [], f"what {name} links and is missing")


def uninstalled(setting):
    """Two installs, one over the other, and one uninstall: what others have put there stays, and nothing else."""
    prefix = setting.folder()
    os.makedirs(os.path.join(prefix, "share/man/man1"))
    with open(os.path.join(prefix, "share/man/man1/other.1"), "w", encoding="ascii") as file:
        file.write("a page of another\n")
    before = names_below(prefix)
    for _ in range(2):
        same(setting.make("install", PREFIX=prefix).status, 0, "the status of make install")
    os.mkdir(os.path.join(prefix, "share/rio/clients/__pycache__"))
    same(setting.make("uninstall", PREFIX=prefix).status, 0, "the status of make uninstall")
    same(names_below(prefix), before, "what is left")


def made_prefix(setting):
    """A prefix that was not there goes too."""
    above = setting.folder()
    for target in ("install", "uninstall"):
        same(setting.make(target, PREFIX=os.path.join(above, "new")).status, 0, f"the status of make {target}")
    same(names_below(above), [], "what is left")


def staged(setting):
    """By DESTDIR all is put below a folder, and runs there and where it is moved to."""
    stage, moved = setting.folder(), os.path.join(setting.folder(), "moved")
    same(setting.make("install", DESTDIR=stage, PREFIX="/usr/rio").status, 0, "the status of make install")
    holds(run([os.path.join(stage, "usr/rio/bin/rio"), "--version"]).said.startswith("rio "), "it does not run in the stage")
    shutil.move(os.path.join(stage, "usr/rio"), moved)
    same(run([os.path.join(moved, "bin/rio")]).status, 2, "the status with no words, where it was moved to")
    same(setting.make("uninstall", PREFIX=moved).status, 0, "the status of make uninstall")
    same(names_below(moved), [], "what is left")


def others_file(setting):
    """A file of another with one of the names stays, and nothing is installed beside it."""
    prefix = setting.folder()
    os.mkdir(os.path.join(prefix, "bin"))
    other = os.path.join(prefix, "bin/rio")
    with open(other, "w", encoding="ascii") as file:
        file.write("another rio\n")
    one_line(setting.make("install", PREFIX=prefix), f"install: {other} is there already")
    same(names_below(prefix), ["bin", "bin/rio"], "what is there")
    same(content(other), "another rio\n", "what is in it")


def no_folder(setting):
    """A prefix that cannot be made: a part of it is a file."""
    file = os.path.join(setting.folder(), "file")
    with open(file, "w", encoding="ascii") as made:
        made.write("no folder\n")
    one_line(setting.make("install", PREFIX=file + "/below"), "install: ")
    same(content(file), "no folder\n", "what is in the file")


def not_installed(setting):
    prefix = setting.folder()
    one_line(setting.make("uninstall", PREFIX=prefix), f"uninstall: rio is not installed below {prefix}")


def not_built(setting):
    """A checkout without programs: a line says what to run, and nothing is installed."""
    checkout, prefix = setting.folder(), setting.folder()
    for name in ("Makefile", "crates.txt"):
        shutil.copy(os.path.join(setting.top, name), checkout)
    for name in ("install", "launcher"):
        shutil.copytree(os.path.join(setting.top, name), os.path.join(checkout, name))
    ended = run(["make", "-s", "-C", checkout, "install", f"PREFIX={prefix}"])
    one_line(ended, "install: the programs are not built, or older than a source: run make first")
    same(names_below(prefix), [], "what is there")


def rows():
    """The rows by their names."""
    return {
        "all is there": all_placed,
        "links of the documents lead on": links_lead_on,
        "uninstall leaves what was there": uninstalled,
        "uninstall takes a new prefix away": made_prefix,
        "an install by DESTDIR runs where it is moved to": staged,
        "a file of another is not replaced": others_file,
        "a prefix that cannot be made": no_folder,
        "uninstall where nothing is installed": not_installed,
        "install of what is not built": not_built,
    }
