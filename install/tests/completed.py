"""What bash and zsh complete by the files that are installed."""
import os
import shutil

from parts.pair import clean_environment
from parts.rows import Skipped, same
from parts.terminal import CTRL_D, Terminal
from tests.prefix import run

# Words behind `rio`, of which the last is to be completed, and what bash offers, in the folder that `files` makes.
OFFERED = {
    "": ["format", "serve", "check", "registry", "drill", "--help", "--version"],
    "re": ["registry"],
    "--v": ["--version"],
    "format -": ["--frames", "--blocks", "--inodes", "--scratch"],
    "format --frames 64 image --b": ["--blocks"],
    "format --frames 64 image -": ["--blocks", "--inodes", "--scratch"],
    "format --frames 64 image d": ["disk", "disk two"],
    "format image disk --frames ": [],
    "format image disk --frames = ": [],
    "format image disk --frames = 64 ": ["--blocks", "--inodes", "--scratch"],
    "serve ": ["disk", "disk two", "image"],
    "serve im": ["image"],
    "serve image d": ["disk", "disk two"],
    "serve image disk ": ["--stop"],
    "serve --stop 5 im": ["image"],
    "serve image disk --stop 5 ": [],
    "registry im": ["image"],
    "registry image ": [],
    "drill ": ["--seed", "--boots", "--requests"],
    "drill --seed 7 --": ["--boots", "--requests"],
    "unknown ": [],
}

# What is typed before Tab, and the line behind it: in both shells, and the ends of an option.
TYPED = {
    "rio forma": "rio format ",
    "rio serve im": "rio serve image ",
    "rio serve image disk --st": "rio serve image disk --stop",
    "./rio chec": "./rio check ",
}

BASH_LINES = r"""
complete -p rio
while IFS= read -r line; do
    IFS=' ' read -ra COMP_WORDS <<<"rio $line"
    [[ $line != *' ' && -n $line ]] || COMP_WORDS+=('')
    COMP_CWORD=$((${#COMP_WORDS[@]} - 1))
    _rio
    printf '%s|' "${COMPREPLY[@]}"
    echo
done
"""

# What the shells read first. The keys Ctrl-X b show the line as it is, and empty it.
BASH_START = r"""
PS1= PS2=
bind 'set enable-bracketed-paste off'
shown() { printf '<%s>\n' "$READLINE_LINE"; READLINE_LINE=; }
bind -x '"\C-xb": shown'
. "$COMPLETION"
echo begun
"""

ZSH_START = r"""
PS1= PS2=
unsetopt prompt_sp
fpath=("$COMPLETION" $fpath)
autoload -Uz compinit && compinit -u -D
shown() { zle -I; print -r -- "<$BUFFER>"; BUFFER=; }
zle -N shown
bindkey '^Xb' shown
echo begun
"""


def files(setting):
    """A folder with the files that are completed."""
    folder = setting.folder()
    for name in ("image", "disk", "disk two"):
        with open(os.path.join(folder, name), "w", encoding="ascii"):
            pass
    return folder


def offered_by_bash(setting):
    """The function by itself, over words."""
    if shutil.which("bash") is None:
        raise Skipped("there is no bash here")
    script = f". '{setting.path('share/bash-completion/completions/rio')}'\n{BASH_LINES}"
    ended = run(["bash", "--norc", "-c", script], files(setting), "".join(line + "\n" for line in OFFERED), LC_ALL="C")
    same((ended.status, ended.told), (0, ""), "the status, and what was told")
    first, *others = ended.said.splitlines()
    same(first, "complete -F _rio rio", "what complete -p shows")
    got = [sorted(word for word in line.split("|") if word) for line in others]
    same(dict(zip(OFFERED, got)), {line: sorted(words) for line, words in OFFERED.items()}, "what is offered")


def line_with(shell, wanted):
    """Reads lines until one that has this in it."""
    line = shell.line()
    while wanted not in line:
        line = shell.line()
    return line


def typed_in(setting, words, settings):
    """Types each line of TYPED and Tab into a shell, and looks at the line that it has then."""
    if shutil.which(words[0]) is None:
        raise Skipped(f"there is no {words[0]} here")
    environment = {**clean_environment(), "TERM": "dumb", "HISTFILE": "", "LC_ALL": "C", **settings}
    with Terminal(words, files(setting), environment) as shell:
        line_with(shell, "begun")
        for typed, wanted in TYPED.items():
            shell.type(typed + "\t\x18b")
            got = line_with(shell, "<")
            same(got[got.index("<") :].rstrip(" =>\r"), f"<{wanted}".rstrip(), f"what {typed!r} becomes")
        shell.type(CTRL_D)


def start_file(setting, name, lines):
    """A file of this name in a folder of its own, with these lines."""
    path = os.path.join(setting.folder(), name)
    with open(path, "w", encoding="ascii") as file:
        file.write(lines)
    return path


def typed_in_bash(setting):
    start = start_file(setting, "start", BASH_START)
    completion = setting.path("share/bash-completion/completions/rio")
    typed_in(setting, ["bash", "--noprofile", "--rcfile", start, "-i"], {"COMPLETION": completion})


def typed_in_zsh(setting):
    folder = os.path.dirname(start_file(setting, ".zshrc", ZSH_START))
    typed_in(setting, ["zsh", "-d", "-i"], {"COMPLETION": setting.path("share/zsh/site-functions"), "ZDOTDIR": folder})


def rows():
    """The rows by their names."""
    return {
        "words that bash offers": offered_by_bash,
        "Tab in bash": typed_in_bash,
        "Tab in zsh": typed_in_zsh,
    }
