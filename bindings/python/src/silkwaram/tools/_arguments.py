"""Words of the command line, for the programs that look at them by Python's `argparse`."""
import argparse
import re
from typing import NoReturn

from ._maps import TAG
from ._shared import Program


class Arguments(argparse.ArgumentParser):
    """A parser that prints the help of a program, and what is wrong on one line."""

    def __init__(self, program: Program, **more: object) -> None:
        super().__init__(add_help=False, allow_abbrev=False, **more)  # type: ignore[arg-type]
        self.program = program
        self.add_argument("-h", "--help", action="help")

    def print_help(self, file: object = None) -> None:
        """Prints the help of the program."""
        self.program.help()

    def error(self, message: str) -> NoReturn:
        """Ends the program with what is wrong."""
        self.program.misused(message)


def language(word: str) -> str:
    """A language of the arguments, in lower case."""
    if not TAG.fullmatch(word):
        raise argparse.ArgumentTypeError(f"{word} is not a language tag")
    return word.lower()


def domain_name(word: str) -> str:
    """A domain of the arguments, which leaves room for a digest."""
    if not 0 < len(word.encode()) <= 56 or re.search(r"[/\x00-\x1f\x7f]|^@", word):
        raise argparse.ArgumentTypeError(f"{word} is not a domain")
    return word
