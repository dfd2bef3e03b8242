"""Reads what the help of the command and of its programs on files says of commands and arguments."""
import os
import re
import subprocess
from collections import namedtuple

ROOT = os.path.dirname(os.path.dirname(os.path.abspath(__file__)))
LEXICAT = os.path.join(ROOT, "build", "lexicat")

# An option without its two hyphens; the name of its value and the words that this may be, if any;
# whether it has to be given; what it is for.
Option = namedtuple("Option", "name value words is_required help")
# Another argument, by the name that the help has for it, and the words that it may be, if any.
Argument = namedtuple("Argument", "name repeats words")
# What a command takes, and what it is for.
Form = namedtuple("Form", "about options arguments")


def help_of(program, *words):
    """Returns what `--help` prints after these words."""
    run = subprocess.run([program, *words, "--help"], capture_output=True, text=True, check=True)
    return run.stdout


def section(text, name):
    """Returns the lines of a section of a help text, one for each argument."""
    found = re.search(rf"^{name}:\n((?: .*\n|\n(?= ))*)", text, re.M)
    return re.sub(r"\n {10,}", " ", found[1]).split("\n") if found else []


def options_in(text):
    """Returns the options that any help text has, with their hyphens, short ones too."""
    lines = re.findall(r"^ +(?:(-\w), )?(--[a-z-]+)", text, re.M)
    return {it for line in lines for it in line if it}


def commands_in(text):
    """Returns the commands that any help text has: a line, or a part of one, for each."""
    lines = re.findall(r"^  ([a-z]+(?:, [a-z]+)*)(?= |$)", text, re.M)
    return [name for line in lines for name in line.split(", ")]


def words_of(line):
    """Returns the words that a value may be, and the line without them."""
    found = re.search(r" *\[possible values: ([^]]*)\]", line)
    if not found:
        return [], line
    return found[1].split(", "), line.replace(found[0], "")


def form_of(text):
    """Returns what a command takes, by its help."""
    usage = re.search(r"^Usage: (?:cat [A-Z. ]+ \| )?lexicat \w+(.*?)(?: < [A-Z]+)?$", text, re.M)[1]
    options, arguments = [], []
    for line in section(text, "Options"):
        words, line = words_of(line)
        shown = re.match(r" +(?:-\w, )?--([\w-]+)(?: <(\w+)>)? *(.*)$", line)
        if shown and shown[1] != "help":
            required = bool(re.search(rf"--{shown[1]} <", usage))
            options.append(Option(shown[1], shown[2], words, required, shown[3]))
    for line in section(text, "Arguments"):
        words, line = words_of(line)
        shown = re.match(r" +<(\w+)>(\.\.\.)?", line)
        if shown:
            arguments.append(Argument(shown[1], bool(shown[2]), words))
    in_usage = re.findall(r"(?<!-)(?<!\w )<(\w+)>", re.sub(r"--[\w-]+ <\w+>", "", usage))
    if in_usage != [argument.name for argument in arguments]:
        raise ValueError(f"the usage has other arguments:{usage}")
    return Form(text.split("\n")[0], options, arguments)


def forms_of(lexicat):
    """Returns what each command takes, by its name, in the order of the help."""
    return {name: form_of(help_of(lexicat, name)) for name in commands_in(help_of(lexicat))}
