"""What the launcher says by itself, how it is found through links, and which program `serve` starts."""
import os
import re
import signal
import sys

from parts.asking import answered, ends_well, finds
from parts.pair import options
from parts.rows import holds, same
from parts.terminal import Terminal

SOUND = "sound dirs 1 files 0 regions 0 used 0 free 252\n"

SERVE_FORM = "rio: the form is: rio serve IMAGE DISK [--stop N] ("

# Words that are none of a command, and how the line begins that a person is told behind the usage line.
WRONG = {
    "no words": ((), "rio: the first word is no command"),
    "an unknown command": (("serves", "image", "disk"), "rio: the first word is no command"),
    "serve with one file": (("serve", "image"), SERVE_FORM),
    "serve with one file twice": (("serve", "image", "image"), SERVE_FORM),
    "serve with a stop that is no number": (("serve", "image", "disk", "--stop", "soon"), SERVE_FORM),
    "serve with a stop without a number": (("serve", "image", "disk", "--stop"), SERVE_FORM),
    "serve with a stop that begins with 0": (("serve", "image", "disk", "--stop", "0123"), SERVE_FORM),
    "serve with a stop of 19 digits": (("serve", "image", "disk", "--stop=1000000000000000000"), SERVE_FORM),
    "serve with -- as the number of its stop": (("serve", "image", "disk", "--stop", "--"), SERVE_FORM),
    "serve with two stops": (("serve", "image", "disk", "--stop", "1", "--stop=1"), SERVE_FORM),
    "serve with a stop behind --": (("serve", "--", "image", "disk", "--stop=1"), SERVE_FORM),
    "serve with -- twice": (("serve", "--", "--", "image", "disk"), SERVE_FORM),
    "serve with an empty name": (("serve", "image", ""), SERVE_FORM),
    "serve with an option that it has not": (("serve", "image", "disk", "--frames=32"), SERVE_FORM),
    "check with one file": (("check", "image"), "rio: the form is: rio check IMAGE DISK "),
    "registry with two files": (("registry", "image", "disk"), "rio: the form is: rio registry IMAGE "),
    "format with 40 inodes": (
        ("format", "image", "disk", *options((64, 256, 40, 1))),
        "rio: the form is: rio format IMAGE DISK --frames F --blocks B --inodes I --scratch C (F from 32 to 8192, ",
    ),
    "drill with no requests": (
        ("drill", "--seed", "1", "--boots", "1"),
        "rio: the form is: rio drill --seed N --boots B --requests R (N from 0 to 2147483647, ",
    ),
}

# A stop that no run of a row comes to.
FAR = "999999999999999999"

# The forms of words that serve takes.
RIGHT = {
    "serve": ("serve", "image", "disk"),
    "serve with -- before the files": ("serve", "--", "image", "disk"),
    "serve with -- between the files": ("serve", "image", "--", "disk"),
    "serve with -- behind the files": ("serve", "image", "disk", "--"),
    "serve with a stop in two words": ("serve", "image", "disk", "--stop", FAR),
    "serve with a stop in one word": ("serve", f"--stop={FAR}", "image", "disk"),
    "serve with a stop and --": ("serve", "--stop", FAR, "--", "image", "disk"),
}

# Runs its words in a terminal of which it leads the session, so that what they leave behind keeps the terminal. It tells the
# number of their process, and then how that ended.
LEADER = """
import subprocess, sys
run = subprocess.Popen(sys.argv[1:])
print(run.pid, flush=True)
print(run.wait(), flush=True)
sys.stdin.read()
"""


def becomes_the_program(words):
    """The row of right words: at a terminal a signal to the process that was begun ends the program, and not a shell above it."""

    def row(setting):
        pair = setting.pair()
        with Terminal([sys.executable, "-c", LEADER, pair.launcher, *words], pair.folder, pair.environment) as leader:
            process = int(leader.line())
            answered(leader, "create /notes", "ok 2")
            os.kill(process, signal.SIGTERM)
            same(leader.line(), str(-signal.SIGTERM), "how the process ended")
            same(pair.run("check", "image", "disk").status, 0, "the status of check as soon as it has")
            finds(pair, "notes")

    return row


def wrong_words(words, begins):
    """The row of wrong words: at a terminal a line tells the form that is wanted, and elsewhere the usage line stands alone."""

    def row(setting):
        pair = setting.pair()
        before = pair.digests()
        with pair.terminal(*words) as run:
            usage, hint = run.line(), run.line()
            same(run.rest(), "", "what was said behind it")
            same(run.status(), 2, "the status at a terminal")
        holds(usage.startswith("usage: rio format, serve"), f"the first line is {usage!r}")
        holds(hint.startswith(begins), f"the second line is {hint!r}, and not {begins!r} with more")
        same(pair.run(*words), (2, usage + "\n", ""), "what comes over pipes")
        same(pair.digests(), before, "the files")

    return row


def help_of_all(setting):
    """--help shows each command that the program's usage line names, and each of them has a help of its own."""
    pair = setting.pair()
    named = pair.run().said.removeprefix("usage: rio ").strip().split(", ")
    shown = pair.run("--help")
    same((shown.status, shown.told), (0, ""), "the status of --help, and what it told")
    for command in named:
        holds(f"\nrio {command} " in shown.said, f"--help does not show {command}")
        one = pair.run(command, "--help")
        same((one.status, one.told), (0, ""), f"the status of {command} --help, and what it told")
        holds(one.said.startswith(f"usage: rio {command} "), f"{command} --help shows {one.said!r}")
    same(pair.run("serves", "--help").status, 2, "the status of serves --help")


def version(setting):
    ended = setting.pair().run("--version")
    same((ended.status, ended.told), (0, ""), "the status, and what it told")
    holds(re.fullmatch(r"rio [0-9]+\.[0-9]+\.[0-9]+\n", ended.said), f"it said {ended.said!r}")


def links_to(launcher, folder):
    """Links to the launcher, by what they are. The folder gets them."""
    for name in ("bin", "bin/deep", "elsewhere", "with space"):
        os.mkdir(os.path.join(folder, name))
    real = os.path.realpath(folder)
    made = {
        "an absolute link": ("bin/absolute", launcher),
        "a relative link": ("bin/relative", os.path.relpath(launcher, os.path.join(real, "bin"))),
        "a link to a link": ("bin/twice", "relative"),
        "a link to a link in another folder": ("bin/deep/thrice", "../twice"),
        "a link in a folder with a space": ("with space/rio", "../bin/twice"),
        "a link in a linked folder": ("elsewhere/linked/thrice", None),
    }
    os.symlink("../bin/deep", os.path.join(folder, "elsewhere", "linked"))
    for path, target in made.values():
        if target is not None:
            os.symlink(target, os.path.join(folder, path))
    return {name: os.path.join(folder, path) for name, (path, _) in made.items()}


def links(setting):
    """The launcher is found through links of each kind, from another folder, and in the search path."""
    pair = setting.pair()
    made = links_to(os.path.realpath(pair.launcher), setting.folder())
    for name, link in made.items():
        same(pair.run("check", "image", "disk", launcher=link), (0, SOUND, ""), name)
    place = os.path.dirname(made["a link to a link"])
    ended = pair.run("-c", "twice check image disk", launcher="sh", PATH=place + os.pathsep + os.environ["PATH"])
    same(ended, (0, SOUND, ""), "a link in the search path")


def link_in_a_terminal(setting):
    """A run that is begun by a link answers in a terminal, too."""
    pair = setting.pair()
    made = links_to(os.path.realpath(pair.launcher), setting.folder())
    with Terminal([made["a link to a link"], "serve", "image", "disk"], pair.folder) as run:
        answered(run, "create /notes", "ok 2")
        ends_well(run)
    finds(pair, "notes")


def memory(setting, changes, **environment):
    """Whether IMAGE is changed by a request as soon as it is answered."""
    pair = setting.pair()
    before = pair.digests()["image"]
    with pair.terminal("serve", "image", "disk", **environment) as run:
        answered(run, "create /notes", "ok 2")
        same(pair.digests()["image"] != before, changes, "that IMAGE is changed behind a reply")
        ends_well(run)
    finds(pair, "notes")


def held_memory(setting):
    memory(setting, True)
    memory(setting, True, RIO_MEMORY="held")
    memory(setting, True, RIO_MEMORY="")


def plain_memory(setting):
    memory(setting, False, RIO_MEMORY="plain")


def unknown_memory(setting):
    pair = setting.pair()
    before = pair.digests()
    ended = pair.run("serve", "image", "disk", lines="create /notes\n", RIO_MEMORY="mapped")
    same((ended.status, ended.said), (64, ""), "the status, and what was said")
    holds(re.fullmatch(r"rio: RIO_MEMORY [^\n]*\n", ended.told), f"it told {ended.told!r}")
    same(pair.digests(), before, "the files")


def rows():
    """The rows by their names."""
    return {
        **{f"{name}: a person is told the form": wrong_words(*case) for name, case in WRONG.items()},
        **{f"{name}: a signal ends the program": becomes_the_program(case) for name, case in RIGHT.items()},
        "--help shows all commands": help_of_all,
        "--version": version,
        "links to the launcher": links,
        "a link to the launcher in a terminal": link_in_a_terminal,
        "serve holds memory in IMAGE": held_memory,
        "serve with RIO_MEMORY=plain": plain_memory,
        "serve with an unknown RIO_MEMORY": unknown_memory,
    }
