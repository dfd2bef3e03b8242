"""Completes lines in a real shell: bash, zsh or fish. In place of lexicat and of lexicat-file runs
a script, which writes its arguments and its input into a file; what the shell asks of lexicat-file is
passed on to the program. A line is typed, then a tab and the end of the line, and the file shows what
was completed.
"""
import os
import pty
import re
import select
import shutil
import tempfile
import time

# What is typed before the tab, and what lexicat then gets, as a pattern: its arguments and input.
LINES = [
    ("lexicat sta", "args:status input:"),
    ("lexicat pick --sch", "args:pick --scheme=? input:"),
    ("lexicat lookup --d", "args:lookup --default=? input:"),
    ("lexicat pick --scheme e", "args:pick --scheme extended input:"),
    ("lexicat pick --scheme=b", "args:pick --scheme=basic input:"),
    ("lexicat status < zz", "args:status input:held"),
    ("lexicat status <zz", "args:status input:held"),
    ("lexicat export > zz", "args:export input:"),
    ("lexicat-file zz", "args:zz_file.json input:"),
    ("lexicat-file --wa", "args:--wait=? input:"),
    ("lexicat-file --wait 5 zz", "args:--wait 5 zz_file.json input:"),
    ("lexicat-file zz_file.json stat", "args:zz_file.json status input:"),
    ("lexicat-file --wait=5 zz_file.json upd", "args:--wait=5 zz_file.json update input:"),
    ("lexicat-file zz_file.json lookup --d", "args:zz_file.json lookup --default=? input:"),
    ("lexicat-file zz_file.json lookup --scheme e",
     "args:zz_file.json lookup --scheme extended input:"),
    ("lexicat-file --wait 5 zz_file.json put --la",
     "args:--wait 5 zz_file.json put --lang=? input:"),
    ("lexicat-file zz_file.json sync zz", "args:zz_file.json sync zz_file.json input:"),
    ("lexicat-file zz_file.json mer", "args:zz_file.json merge input:"),
    ("lexicat-file zz_file.json merge zz", "args:zz_file.json merge zz_file.json input:"),
    ("lexicat-file zz_file.json import zz", "args:zz_file.json import zz_file.json input:"),
    ("lexicat-file zz_file.json import --n", "args:zz_file.json import --now=? input:"),
    ("lexicat-file zz_file.json undo zz", "args:zz_file.json undo zz_file.json input:"),
    ("lexicat-file zz_file.json take --no-l", "args:zz_file.json take --no-limit input:"),
    ("lexicat-file zz_file.json delete --fo", "args:zz_file.json delete --force input:"),
    ("lexicat-file zz_file.json confirm --la", "args:zz_file.json confirm --lang=? input:"),
    ("lexicat-file zz_file.json take < zz", "args:zz_file.json take input:held"),
    ("lexicat-file yy_site.json log gr", "args:yy_site.json log greeting input:"),
    ("lexicat-file yy_site.json lookup --id go", "args:yy_site.json lookup --id good bye input:"),
    ("lexicat-file yy_site.json put --lang fr", "args:yy_site.json put --lang fr-ca input:"),
    ("lexicat-file yy_site.json put --lang=fr", "args:yy_site.json put --lang=fr-ca input:"),
    ("lexicat-file yy_site.json conflicts --mine greeting e",
     "args:yy_site.json conflicts --mine greeting en input:"),
]
SITE = """\
{"cells":[["good bye","fr-ca",1,"paris",0,["Au revoir"]],["greeting","en",2,"paris",0,["Hello"]]],\
"kind":"site","site":"paris","version":2}
"""

# What completes, in an order in which each finds what it needs later.
NAMES = ["lexicat-file", "lexicat"]

# How a shell is started, and how it takes the completions.
SETUP = {
    "bash": (
        ["bash", "--norc", "--noprofile", "-i"],
        ["PS1=; bind 'set enable-bracketed-paste off'",
         *(f". {{share}}/bash-completion/completions/{name}" for name in NAMES)],
    ),
    "zsh": (
        ["zsh", "-f", "-i"],
        ["unset zle_bracketed_paste; PS1=; setopt no_prompt_sp clobber",
         "fpath=({share}/zsh/site-functions $fpath); autoload -Uz compinit; compinit -u -D"],
    ),
    "fish": (
        ["fish", "--no-config", "-i"],
        ["function fish_prompt; end",
         *(f"source {{share}}/fish/vendor_completions.d/{name}.fish" for name in NAMES)],
    ),
}


# (the end of a shell that hangs)
MOST_SECONDS = 300
LEXICAT = """#!/bin/sh
[ "$1" != --complete ] || LEXICAT="$PROGRAMS/lexicat" exec "$PROGRAMS/lexicat-file" "$@"
if [ -t 0 ]; then held=; else held=$(cat); fi
echo "args:$* input:$held" >> "$SAID"
"""


def drain(terminal, seconds):
    """Reads what the shell prints, until it is silent for a while."""
    printed = b""
    while select.select([terminal], [], [], seconds)[0]:
        try:
            printed += os.read(terminal, 65536)
        except OSError:
            break
        if b"\x1b[c" in printed[-64:] or b"\x1b[0c" in printed[-64:]:
            os.write(terminal, b"\x1b[?6c")  # a terminal that is asked what it is
    return printed


def wait(terminal, typed, is_there):
    """Reads what the shell prints, until what was typed comes to something."""
    end, printed = time.monotonic() + MOST_SECONDS, b""
    while not is_there():
        printed += drain(terminal, 0.05)
        if time.monotonic() > end:
            raise TimeoutError(f"{typed!r} comes to nothing; the shell prints {printed!r}")


def said_by(shell, share, programs):
    """What lexicat got at each line."""
    room = tempfile.mkdtemp()
    said = os.path.join(room, "said")
    os.mkdir(os.path.join(room, "bin"))
    for name in NAMES:
        path = os.path.join(room, "bin", name)
        with open(path, "w", encoding="utf-8") as file:
            file.write(LEXICAT)
        os.chmod(path, 0o755)
    command, setup = SETUP[shell]
    process, terminal = pty.fork()
    if process == 0:
        os.chdir(room)
        os.environ.update(HOME=room, TERM="dumb", LC_ALL="C.UTF-8", SAID=said,
                          PROGRAMS=programs)
        os.environ.update(ZDOTDIR=room, XDG_CONFIG_HOME=room)
        os.environ["PATH"] = os.path.join(room, "bin") + ":" + os.environ["PATH"]
        os.execvp(command[0], command)
    try:
        done = os.path.join(room, "done")
        for line in setup:
            os.write(terminal, f"{line.format(share=share)}; touch {done}\n".encode())
            wait(terminal, line, lambda: os.path.exists(done))
            os.remove(done)
        got = []
        for typed, _ in LINES:
            with open(os.path.join(room, "zz_file.json"), "w", encoding="utf-8") as file:
                file.write("held")
            with open(os.path.join(room, "yy_site.json"), "w", encoding="utf-8") as file:
                file.write(SITE)
            open(said, "w", encoding="utf-8").close()
            os.write(terminal, typed.encode() + b"\t\n")
            wait(terminal, typed, lambda: os.path.getsize(said) > 0)
            with open(said, encoding="utf-8") as file:
                got.append(re.sub(r"\s+", " ", file.read()).strip())
            os.write(terminal, b"\x15")
            if typed.endswith("> zz"):
                files = sorted(name for name in os.listdir(room) if name.startswith("zz"))
                if files != ["zz_file.json"]:
                    got[-1] = f"wrote {' '.join(files)}"
        return got
    finally:
        os.close(terminal)
        os.kill(process, 9)
        os.waitpid(process, 0)
        shutil.rmtree(room, ignore_errors=True)


def faults_of(shell, share, programs):
    """What a shell completes otherwise than it has to, by the completions in a folder."""
    return [f"{typed!r} and a tab: {got!r}, wanted {wanted!r}"
            for (typed, wanted), got in zip(LINES, said_by(shell, share, programs)) if not re.fullmatch(wanted, got)]
