"""When the launcher builds, and what: in a checkout of a few crates, with a command rt that only notes its calls."""
import os
import shutil
import subprocess
import time

from parts.pair import clean_environment, run_words
from parts.rows import Skipped, holds, same
from parts.terminal import CTRL_C, Terminal

TOP = os.path.dirname(os.path.dirname(os.path.dirname(os.path.abspath(__file__))))

# The crate `other` is in no program.
CRATES = """# a comment: rio
base:
other: base
held: base
rio: base
rio_held: base held
"""

# It notes the crates that it is given, and leaves programs that print their names and words, unless it is told to fail.
RT = """#!/bin/sh
echo "$*:" $(ls crates) >>"$NOTES"
[ ! -e "$NOTES.slow" ] || sleep "$(cat "$NOTES.slow")"
[ ! -e "$NOTES.fails" ] || exit 1
for name in rio rio_held; do
    mkdir "crates/$name/out"
    printf '#!/bin/sh\\necho "%s $*"\\n' "$name" >"crates/$name/out/$name"
    chmod +x "crates/$name/out/$name"
done
"""

ONE_BUILD = ["ci: base held rio rio_held"]


class Checkout:
    """A checkout with the launcher, and the notes of the command rt."""

    def __init__(self, folder, rt=RT):
        self.folder = os.path.join(folder, "checkout")
        self.notes = os.path.join(folder, "notes")
        self.commands = os.path.join(folder, "commands")
        self.temporary = os.path.join(folder, "temporary")
        for made in (self.folder, self.commands, self.temporary):
            os.mkdir(made)
        shutil.copy(os.path.join(TOP, "rio"), self.folder)
        shutil.copytree(os.path.join(TOP, "launcher"), os.path.join(self.folder, "launcher"))
        self.write("HANDLES", "Handles allowed: none.\n")
        self.write("crates.txt", CRATES)
        for name in ("base", "other", "held", "rio", "rio_held"):
            self.write(f"crates/{name}/src/lib.rt", "")
        if rt:
            self.write("../commands/rt", rt)
            os.chmod(os.path.join(self.commands, "rt"), 0o755)

    def path(self, name):
        return os.path.join(self.folder, name)

    def write(self, name, text):
        os.makedirs(os.path.dirname(self.path(name)), exist_ok=True)
        with open(self.path(name), "w", encoding="ascii") as file:
            file.write(text)

    def edit(self, name):
        """Changes a source, some time behind what was done before."""
        time.sleep(0.05)
        self.write(name, "// changed\n")
        time.sleep(0.05)

    def environment(self):
        search = self.commands + os.pathsep + os.environ["PATH"]
        return {**clean_environment(), "PATH": search, "NOTES": self.notes, "TMPDIR": self.temporary}

    def run(self, *words, **settings):
        """Runs the launcher with these words: its status, and what it wrote."""
        return run_words([self.path("rio"), *words], self.folder, {**self.environment(), **settings})

    def builds(self):
        """The calls of rt, as they were noted."""
        if not os.path.exists(self.notes):
            return []
        with open(self.notes, encoding="ascii") as file:
            return file.read().splitlines()

    def programs(self):
        """Which of the programs are there."""
        return [name for name in ("rio", "rio_held") if os.path.exists(self.path(f"crates/{name}/out/{name}"))]


def checkout_of(setting):
    return Checkout(setting.folder())


def both_programs(setting):
    """One build makes both programs, of their crates alone. `serve` starts the one, and every other command the other."""
    checkout = checkout_of(setting)
    same(checkout.run("check", "a", "b c"), (0, "rio check a b c\n", ""), "check")
    same(checkout.run("serve", "a", "b"), (0, "rio_held serve a b\n", ""), "serve")
    same(checkout.run("serve", "a", "b", RIO_MEMORY="plain"), (0, "rio serve a b\n", ""), "serve over plain memory")
    same(checkout.run(), (0, "rio \n", ""), "no words")
    same(checkout.builds(), ONE_BUILD, "the builds")
    same(os.listdir(checkout.temporary), [], "copies that are left")


def own_words(setting):
    """What the launcher answers by itself needs no program."""
    checkout = checkout_of(setting)
    for words in (("--help",), ("--version",), ("serve", "--help")):
        same(checkout.run(*words).status, 0, f"the status of {words}")
    same(checkout.run("serve", "a", "b", RIO_MEMORY="mapped").status, 64, "the status with an unknown memory")
    same(checkout.builds(), [], "the builds")


def newer_source(setting):
    """A source of either program that is changed builds both anew, and one of no program does not."""
    checkout = checkout_of(setting)
    checkout.run("check")
    checkout.edit("crates/other/src/lib.rt")
    checkout.run("check")
    same(checkout.builds(), ONE_BUILD, "the builds behind a change of a crate of no program")
    for count, name in enumerate(("base/src/lib.rt", "held/src/lib.rt", "rio/src/new.rt"), 2):
        checkout.edit(f"crates/{name}")
        checkout.run("check")
        same(checkout.builds(), count * ONE_BUILD, f"the builds behind a change of {name}")
        checkout.run("serve")
        same(len(checkout.builds()), count, f"the number of builds behind a second run since a change of {name}")


def missing_program(setting):
    checkout = checkout_of(setting)
    checkout.run("check")
    for count, name in enumerate(("rio", "rio_held"), 2):
        os.remove(checkout.path(f"crates/{name}/out/{name}"))
        checkout.run("check")
        same((checkout.builds(), checkout.programs()), (count * ONE_BUILD, ["rio", "rio_held"]), f"without {name}, the builds")


def refused(ended, part):
    """Status 70, and a line that has this part."""
    same((ended.status, ended.said), (70, ""), "the status, and what was said")
    holds(ended.told.startswith("rio: ") and ended.told.count("\n") == 1 and part in ended.told, f"it told {ended.told!r}")


def failed_build(setting):
    """A build that fails leaves no program: the ones that were there are older than a source."""
    checkout = checkout_of(setting)
    checkout.run("check")
    checkout.edit("crates/base/src/lib.rt")
    checkout.write("../notes.fails", "")
    refused(checkout.run("check"), "build.log")
    same((checkout.programs(), os.listdir(checkout.temporary)), ([], []), "programs and copies that are left")
    os.remove(checkout.notes + ".fails")
    same(checkout.run("check").said, "rio check\n", "what is said behind a build that went well")


def no_rt(setting):
    checkout = Checkout(setting.folder(), rt=None)
    tools = os.path.join(checkout.commands, "tools")
    os.mkdir(tools)
    for name in "sh dirname readlink awk find head mkdir date stty cut flock".split():
        if shutil.which(name):
            os.symlink(shutil.which(name), os.path.join(tools, name))
    refused(checkout.run("check", PATH=tools), "no command rt")


def stopped_build(setting):
    """Ctrl-C ends a build, also one that `serve` began: no copy is left, and no program that is older than its sources."""
    checkout = checkout_of(setting)
    checkout.write("../notes.slow", "100")
    with Terminal([checkout.path("rio"), "serve", "a", "b"], checkout.folder, checkout.environment()) as run:
        until = time.monotonic() + 30
        while not checkout.builds() and time.monotonic() < until:
            time.sleep(0.05)
        run.type(CTRL_C)
        holds(run.status() in (130, -2), "the build goes on")
    same((checkout.programs(), os.listdir(checkout.temporary)), ([], []), "programs and copies that are left")


def two_at_once(setting):
    """Of two launchers that find no program one builds, and the other waits for it."""
    if shutil.which("flock") is None:
        raise Skipped("there is no flock here")
    checkout = checkout_of(setting)
    checkout.write("../notes.slow", "1")
    words = [checkout.path("rio"), "check"]
    first = subprocess.Popen(words, cwd=checkout.folder, env=checkout.environment(), stdout=subprocess.DEVNULL)
    second = checkout.run("check")
    same((first.wait(), second), (0, (0, "rio check\n", "")), "how the two ended")
    same(checkout.builds(), ONE_BUILD, "the builds")


def rows():
    """The rows by their names."""
    return {
        "a build makes both programs": both_programs,
        "what the launcher answers by itself needs no build": own_words,
        "a newer source builds both programs": newer_source,
        "a missing program builds both": missing_program,
        "a build that fails": failed_build,
        "a build without rt": no_rt,
        "Ctrl-C in a build": stopped_build,
        "two builds at once": two_at_once,
    }
