#!/usr/bin/env python3
"""Sees that each command and each option of the help is on the manual's page and in the completions
that tools/completions makes, and that the manual has each refusal; and the same of the options of its
programs on files, and of the commands that lexicat-file takes. Bash, zsh, fish and mandoc look at
their own files too, and the shells complete some lines. Reads the help of build/lexicat and of the
programs beside it, or in the folder that PROGRAMS names. Needed: bash; zsh, fish and mandoc, each for
its own files.

The arguments of each command are compared with the completion of bash, and with the synopses of
man/lexicat.1 and docs/COMMAND.md: the names of the options in their order, which of them have to be
given, which take a value and its name, the words that the value may be, and the names of the other
arguments, which of them come once and which repeat.
"""
import atexit
import glob
import os
import re
import shutil
import subprocess
import sys
import tempfile

HERE = os.path.dirname(os.path.realpath(__file__))
sys.dont_write_bytecode = True
sys.path[:0] = [HERE, f"{HERE}/../lib", f"{HERE}/../../tools"]
import command_help  # noqa: E402
import completions_in_shells  # noqa: E402
import tap  # noqa: E402

ROOT = command_help.ROOT
BUILD = os.path.abspath(os.environ.get("PROGRAMS", f"{ROOT}/build"))
PROGRAMS = subprocess.check_output([f"{ROOT}/tools/programs", "--names"], text=True).split()
COMPLETIONS = tempfile.mkdtemp()
atexit.register(shutil.rmtree, COMPLETIONS)
# What lexicat-file has beside the commands, and the commands that have to do with no site.
OF_A_FILE = {"merge", "confirm", "undo", "log", "conflicts", "doctor", "restore"}
OF_NO_SITE = {"pick", "replay", "explain"}
faults = []
fault = faults.append


def read(path):
    with open(os.path.join(ROOT, path), encoding="utf-8") as file:
        return file.read()


def said_by(*words):
    """Runs a program over the files of the repository; what it says where it is not content."""
    how = {"stdout": subprocess.PIPE, "stderr": subprocess.STDOUT, "stdin": subprocess.DEVNULL}
    ran = subprocess.run(words, cwd=ROOT, text=True, check=False, **how)
    return [] if ran.returncode == 0 else [f"{words[0]}: {ran.stdout}"]


def forms_in_manual():
    """Returns the options and the arguments that the synopsis of the manual has of each command."""
    forms = {}
    synopsis = re.search(r"^\.Sh SYNOPSIS\n(.*?)^\.Sh", read("man/lexicat.1"), re.M | re.S)[1]
    for part in re.split(r"^\.Nm\n", synopsis, flags=re.M):
        options, arguments, commands = [], [], []
        for line in part.splitlines():
            option = re.match(r"\.(Op )?Fl -([\w-]+)(?: Ar (\w+))?$", line)
            if line.startswith(".Cm "):
                commands = line[len(".Cm "):].split(" | ")
            elif option:
                options.append((option[2], (option[3] or "").upper() or None, not option[1]))
            elif line.startswith(".Ar "):
                name, *rest = line[len(".Ar "):].split()
                arguments.append((name.upper(), rest == ["..."]))
        forms.update(dict.fromkeys(commands, (options, arguments)))
    return forms


def forms_in_reference():
    """Returns the same of the synopsis of docs/COMMAND.md."""
    forms = {}
    for line in re.findall(r"^lexicat ([a-z]+(?: .*)?)$", read("docs/COMMAND.md"), re.M):
        command, _, rest = line.partition(" ")
        options, arguments = [], []
        for given in re.findall(r"\[--[\w-]+[^]]*\]|--[\w-]+ \S+|\S+", rest):
            option = re.match(r"(\[)?--([\w-]+)(?: ([^\s\]]+))?", given)
            if option:
                options.append((option[2], option[3], not option[1]))
            elif not given.startswith("["):
                arguments.append((given.removesuffix(".."), given.endswith("..")))
        forms.setdefault(command, (options, arguments))
    return forms


def bash_offers(*words):
    """Returns what the completion of bash offers after these words."""
    script = (
        f'. {COMPLETIONS}/bash-completion/completions/lexicat; '
        'compopt() { :; }; COMP_WORDS=(lexicat "$@" ""); '
        'COMP_CWORD=$((${#COMP_WORDS[@]} - 1)); _lexicat; printf "%s\\n" "${COMPREPLY[@]}"')
    words = ["bash", "-c", script, "bash", *words]
    return set(subprocess.check_output(words, cwd=ROOT, text=True).split())


def check_arguments(forms):
    """Compares what the help has of each command with what else names its arguments."""

    def compare(what, said, shown):
        if said != shown:
            fault(f"{what} has {said}, and its help {shown}")

    manual, reference = forms_in_manual(), forms_in_reference()
    for command, (_, options, others) in forms.items():
        arguments = [(it.name, it.repeats) for it in others]
        named = [(it.name, it.value, it.is_required) for it in options]
        spelled = [(it.name, "|".join(it.words) or it.value, it.is_required) for it in options]
        for what, said, wanted in ("man", manual, named), ("docs/COMMAND.md", reference, spelled):
            compare(f"{what}: {command}", said.get(command), (wanted, arguments))
        offered = bash_offers(command)
        words = {word for it in others for word in it.words} | {f"--{it.name}" for it in options}
        compare(f"bash: {command}", offered, words | {"--help", "-h"})
        for it in options:
            # (after a flag the options are offered again)
            compare(f"bash: {command} --{it.name}", bash_offers(command, f"--{it.name}"),
                    set(it.words) if it.value else offered)


def check_command(lexicat, forms):
    """Checks what is said of the command as a whole, and each command and option in the manual."""
    if not forms:
        fault("the help names no command")
    if bash_offers() != {*forms, *command_help.options_in(command_help.help_of(lexicat))}:
        fault("bash: not the commands and options of the help")
    manual = read("man/lexicat.1")
    for command, form in forms.items():
        if f"\n.It Cm {command}\n" not in manual:
            fault(f"man: no {command}")
        for it in form.options:
            if not re.search(rf"^\.It Fl -{it.name}( |$)", manual, re.M):
                fault(f"man: no --{it.name}")
    for text in re.findall(r"^### \d+, .*\n\n`([^`]*)`", read("docs/REFUSALS.md"), re.M):
        if text not in manual:
            fault(f"man: no refusal '{text}'")


def check_program(program):
    """Checks that its manual has each option of its help, with a value where it has one."""
    text = command_help.help_of(f"{BUILD}/{program}")
    options = {it for it in command_help.options_in(text) if it.startswith("--")}
    with_value = set(re.findall(r"^ +(?:-\w, )?(--[a-z-]+) [A-Z]", text, re.M))
    manual = read(f"man/{program}.1")
    for option in options - {"--help", "--version"}:
        ending = " Ar " if option in with_value else "$"
        if not re.search(rf"^\.It Fl {option[1:]}{ending}", manual, re.M):
            fault(f"man: no {option} for {program}")


def check_commands_of_a_file(forms):
    """Checks that each command that has to do with a site is one of lexicat-file, with its options."""
    wanted = sorted({*forms, *OF_A_FILE} - OF_NO_SITE)
    text = command_help.help_of(f"{BUILD}/lexicat-file")
    if sorted(command_help.commands_in(text)) != wanted:
        fault("help of lexicat-file: not its commands")
    if sorted(offered_of_a_file("")) != wanted:
        fault("lexicat-file does not offer its commands")
    offered = {it for name in wanted for it in offered_of_a_file(name, "--")}
    offered |= {it for it in offered_by_file("--")}
    for option in command_help.options_in(text):
        if option.startswith("--") and option not in offered:
            fault(f"lexicat-file does not offer {option}")
    for command in wanted:
        of_lexicat = {f"--{it.name}" for it in forms[command].options} if command in forms else set()
        # (a summary or maps are read from files, and the limits are lexicat-file's own)
        if not of_lexicat <= {*offered_of_a_file(command, "--"), "--check-own"}:
            fault(f"lexicat-file does not offer all options of {command}")
        line = rf"^\.It Cm ([a-z]+ , )*{command}( ,| Ar| Op| Fl|$)"
        if not re.search(line, read("man/lexicat-file.1"), re.M):
            fault(f"man: no {command} in that of lexicat-file")


def offered_by_file(*words):
    """Returns what lexicat-file offers for the last of these words."""
    asked = [f"{BUILD}/lexicat-file", "--complete", *words]
    lines = subprocess.check_output(asked, text=True).splitlines()
    return [it.partition("\t")[0] for it in lines]


def offered_of_a_file(*words):
    """Returns the same behind the name of a file."""
    return offered_by_file("site.json", *words)


def compared(name, look, *words):
    """Reports what a look finds wrong."""
    faults.clear()
    look(*words)
    tap.report(name, faults)


def check_syntax(shell, files):
    """Has a shell look at its own files."""
    for path in glob.glob(f"{COMPLETIONS}/{files}"):
        faults.extend(said_by(shell, "-n", path))


def check_by_programs():
    """Has each shell look at its own files and complete lines, and mandoc look at the manual."""
    for shell, files in ("bash", "bash-*/*/*"), ("zsh", "zsh/*/*"), ("fish", "fish/*/*"):
        syntax, lines = f"the syntax of the files of {shell}", f"lines completed in {shell}"
        if shutil.which(shell):
            compared(syntax, check_syntax, shell, files)
            tap.check(lines, completions_in_shells.faults_of, shell, COMPLETIONS, BUILD)
        else:
            tap.lacks(syntax, shell)
            tap.lacks(lines, shell)
    lint = "the manual as mandoc reads it"
    if shutil.which("mandoc"):
        pages = sorted(glob.glob("man/*.[15]", root_dir=ROOT))
        tap.report(lint, said_by("mandoc", "-T", "lint", "-W", "warning", *pages))
    else:
        tap.lacks(lint, "mandoc")


def main():
    lexicat = f"{BUILD}/lexicat"
    tap.needs(lexicat, f"{BUILD}/lexicat-file", "bash")
    subprocess.run([f"{ROOT}/tools/completions", COMPLETIONS, BUILD], check=True)
    forms = command_help.forms_of(lexicat)
    compared("commands and options", check_command, lexicat, forms)
    compared("the arguments of each command", check_arguments, forms)
    for program in PROGRAMS:
        compared(f"the options of {program}", check_program, program)
    compared("the commands of lexicat-file", check_commands_of_a_file, forms)
    check_by_programs()
    tap.end()


if __name__ == "__main__":
    main()
