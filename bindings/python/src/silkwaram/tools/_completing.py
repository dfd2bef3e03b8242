"""What a shell offers after `lexicat-file`: a script for each shell, which asks the program itself, so
that the ids and the languages of the file that was just named are offered too."""
import re
from typing import Any, Dict, Iterator, List, Optional, Tuple

from ._command import run
from ._documents import rows_of

# What is printed if a name of a file is wanted: the shell knows those.
FILES = ":files"
# The bytes of a site that is read for its ids.
MOST = 2**24
BEFORE_SITE = {
    "--wait": "wait no longer for the lock", "--keep": "keep the lines of the log for so many days",
    "--completion": "print the completion for a shell", "--version": "print the version",
    "--help": "print help",
}
KINDS = {"--id": "id", "--lang": "lang", "--source": "lang", "--default": "lang"}

BASH = """\
# Completion of lexicat-file for bash: source this, or install it into bash-completion's folder.
_lexicat_file() {
    local found it
    COMPREPLY=()
    # After a redirection comes a file.
    case ${COMP_WORDS[COMP_CWORD-1]} in
        '<' | '>' | '>>' | '<>' | '>|' | '2>' | '2>>' | '&>' | '&>>') compopt -o default; return ;;
    esac
    mapfile -t found < <(lexicat-file --complete "${COMP_WORDS[@]:1:COMP_CWORD}" 2> /dev/null)
    if [[ ${found[0]-} == :files ]]; then
        compopt -o default 2> /dev/null
        return
    fi
    for it in "${found[@]%%$'\\t'*}"; do COMPREPLY+=("$(printf %q "$it")"); done
}
complete -F _lexicat_file lexicat-file
"""

ZSH = """\
#compdef lexicat-file
# Completion of lexicat-file for zsh: install it into a folder of $fpath.
_lexicat-file() {
    local -a found
    found=("${(@f)$(lexicat-file --complete "${(@Q)words[2,CURRENT]}" 2> /dev/null)}")
    if [[ $found[1] == :files ]]; then
        _files
    else
        found=("${(@)found//:/\\\\:}")
        found=("${(@)found/$'\\t'/:}")
        _describe lexicat-file found
    fi
}
if [[ $funcstack[1] == _lexicat-file ]]; then
    _lexicat-file "$@"
else
    compdef _lexicat-file lexicat-file
fi
"""

FISH = """\
# Completion of lexicat-file for fish: install it into fish's folder of completions.
function __lexicat_file
    set -l found (lexicat-file --complete (commandline -opc)[2..-1] (commandline -ct) 2> /dev/null)
    if test "$found[1]" = :files
        __fish_complete_path (commandline -ct)
    else
        string join \\n -- $found
    end
end
complete -c lexicat-file -f -a '(__lexicat_file)'
"""

SCRIPTS = {"bash": BASH, "zsh": ZSH, "fish": FISH}


def completions(words: List[str], commands: Dict[str, Any], own: Dict[str, str]) -> List[str]:
    """What fits the last of the words behind `lexicat-file`, each with what it is for behind a tab.
    `own` says what the commands are for that lexicat has not."""
    # (bash cuts words at "=": `--lang=de` comes as three)
    *before, word = [it for it in words if it != "="] + [""] * (words[-1:] in ([], ["="]))
    site = 0
    while site < len(before) and before[site].startswith("-"):
        site += 2 if before[site] in ("--wait", "--keep") else 1
    if site > len(before):
        return []
    if site == len(before):
        return _fitting(BEFORE_SITE, word) if word.startswith("-") else [FILES]
    path, *rest = before[site:]
    if not rest:
        known = _section(run(["--help"]).output, r"  ([a-z]+) +(\S.*)")
        about = {it[1]: it[2].lower() for it in known}
        return _fitting({it: own.get(it) or about.get(it, "") for it in commands}, word)
    command, *rest = rest
    if command not in commands:
        return []
    return _of_command(path, command, rest, word, commands[command])


class _Option:
    """An option of a command: how many words follow, which these may be, and what it is for."""

    def __init__(self, count: int, words: List[str], about: str) -> None:
        self.count, self.words, self.about = count, words, about


def _of_command(path: str, command: str, before: List[str], word: str, form: Any) -> List[str]:
    """What fits a word behind those of a command on the file at a path."""
    options = {it: _Option(count, [], "") for it, count in form.options.items()}
    if form.is_passed_on:
        options.update(_options_of(command))
    names = 0
    open_option: Optional[Tuple[str, int]] = None
    left = list(before)
    while left:
        given, *left = left
        option, equals, _ = given.partition("=")
        if option not in options:
            names += not given.startswith("-")
        elif not equals and len(left) < options[option].count:
            open_option, left = (option, len(left)), []
        elif not equals:
            left = left[options[option].count :]
    if open_option:
        option, place = open_option
        kind = ("id", "lang")[place] if options[option].count == 2 else KINDS.get(option, "")
        return _fitting(dict.fromkeys(options[option].words or _names_of(path, kind), ""), word)
    option, equals, value = word.partition("=")
    if equals and option in options:
        words = options[option].words or _names_of(path, KINDS.get(option, ""))
        return [f"{option}={it}" for it in _fitting(dict.fromkeys(words, ""), value)]
    if word.startswith("-"):
        return _fitting({**{name: it.about for name, it in options.items()}, "--help": ""}, word)
    kind = form.names[min(names, len(form.names) - 1)] if form.names else ""
    return [FILES] if kind == "file" else _fitting(dict.fromkeys(_names_of(path, kind), ""), word)


def _fitting(words: Dict[str, str], word: str) -> List[str]:
    """Those that begin with a word."""
    return [f"{it}\t{about}" if about else it for it, about in words.items() if it.startswith(word)]


def _section(output: bytes, line: str) -> Iterator["re.Match[str]"]:
    """The lines of a help that fit a pattern."""
    return re.finditer(rf"^{line}$", re.sub(r"\n {10,}", " ", output.decode()), re.M)


def _options_of(command: str) -> Dict[str, _Option]:
    """The options that lexicat has for a command, by its help."""
    found = {}
    lines = _section(run([command, "--help"]).output, r" +(--[\w-]+)( <\w+>)? *(.*)")
    for name, value, about in (it.groups() for it in lines):
        words = re.search(r" *\[possible values: (.*)\]", about)
        about = about.replace(words[0], "") if words else about
        found[name] = _Option(1 if value else 0, words[1].split(", ") if words else [], about)
    return found


def _names_of(path: str, kind: str = "") -> List[str]:
    """The ids or the languages of a site; nothing of a large file, or of none."""
    if not kind:
        return []
    try:
        with open(path, "rb") as file:
            document = file.read(MOST)
    except OSError:
        return []
    at = 0 if kind == "id" else 1
    try:
        return sorted({row[at] for row in rows_of(document) if row[5] is not None})
    except TypeError:
        return []
