"""What a shell offers for the last word of a line, with the files in completions."""

import os
import pty
import subprocess
import tempfile

BASH = """
source completions/luntsegi.bash
cd "$1"
COMP_WORDS=("${@:2}")
COMP_CWORD=$(($# - 2))
_luntsegi
printf '%s\\n' "${COMPREPLY[@]}"
"""

# Notes what compadd would offer, except in calls by which other functions ask it for matches.
ZSH = """
PROMPT=
TMOUT=20
fpath=($COMPLETIONS $fpath)
autoload -Uz compinit
compinit -C -d $ZDOTDIR/functions
bindkey '^I' complete-word
zstyle ':completion:*' insert-tab false
compadd() {
    if [[ ${@[1,(i)(-|--)]} == *-(O|A|D)\\ * ]]; then
        builtin compadd "$@"
        return
    fi
    local -a hits
    builtin compadd -A hits "$@"
    print -rl -- $hits >> $OFFERED
    builtin compadd "$@"
}
comppostfuncs=(exit)
"""

# The home of each zsh, in which the first one leaves the names of its functions, since they take long to find.
HOME = tempfile.TemporaryDirectory()


def offered_by_bash(folder, words):
    run = subprocess.run(
        ["bash", "--norc", "-c", BASH, "bash", folder, *words], capture_output=True, text=True, check=True
    )
    return sorted(set(run.stdout.split()))


def offered_by_fish(folder, words):
    """Asks fish; after each thing that it offers it has a tab and what help says of it."""
    line = " ".join(["luntsegi", *words[1:]])
    script = f"source {os.path.abspath('completions/luntsegi.fish')}; cd $argv[1]; complete -C $argv[2]"
    run = subprocess.run(
        ["fish", "--no-config", "-c", script, folder, line], capture_output=True, text=True, check=True
    )
    return sorted({offered.split("\t")[0] for offered in run.stdout.splitlines()})


def offered_by_zsh(folder, words):
    """Types the words and a tab to a zsh on a terminal, and reads what it noted."""
    offered = os.path.join(HOME.name, "offered")
    for name, text in (".zshrc", ZSH), ("offered", ""):
        with open(os.path.join(HOME.name, name), "w", encoding="utf-8") as file:
            file.write(text)
    places = {"ZDOTDIR": HOME.name, "OFFERED": offered, "COMPLETIONS": os.path.abspath("completions")}
    child, terminal = pty.fork()
    if child == 0:
        os.chdir(folder)
        os.execvpe("zsh", ["zsh", "-d", "-i"], {**os.environ, **places})
    os.write(terminal, (" ".join(words) + "\t").encode())
    read_to_end(terminal)
    os.waitpid(child, 0)
    with open(offered, encoding="utf-8") as file:
        return sorted(set(file.read().split()))


def read_to_end(terminal):
    """Reads a terminal until its other end is closed."""
    try:
        while os.read(terminal, 4096):
            pass
    except OSError:
        pass
    os.close(terminal)
