"""The command: its arguments, and what it does with files and maps."""
import argparse
import importlib
from typing import List, Optional

from .._arguments import Arguments, domain_name, language
from .._maps import Misfits, language_maps
from .._shared import print_text, read_file
from . import plurals
from ._program import PROGRAM
from .common import Found, Maps, Refused, Written, read_maps, tell, tell_left_out

MODULES = {
    "i18next": "i18next", "json": "i18next", "arb": "arb", "android": "android",
    "strings": "apple_strings", "stringsdict": "stringsdict", "xcstrings": "xcstrings",
    "properties": "java_properties", "csv": "csv_table", "xliff": "xliff1", "xliff2": "xliff2",
    "fluent": "fluent",
}
# The formats that have a source, those that have to have one, and those of all languages.
WITH_SOURCE = ("xliff", "xliff2", "xcstrings", "csv")
OF_SOURCE = WITH_SOURCE[:3]
OF_ALL = ("xcstrings", "csv")


def categories(words):
    """Plural categories of the arguments."""
    names = tuple(words.split())
    if not names or [name for name in plurals.ORDER if name in names] != list(names):
        raise argparse.ArgumentTypeError(f"{words!r} are not plural categories in their order")
    return names


def arguments(words):
    """What the words of the command line say."""
    parser = Arguments(PROGRAM)
    parser.add_argument("format", choices=MODULES, metavar="FORMAT")
    parser.add_argument("way", choices=("in", "out"), metavar="in or out")
    parser.add_argument("--lang", type=language)
    parser.add_argument("--source", type=language)
    parser.add_argument("--domain", type=domain_name)
    parser.add_argument("--plurals", type=categories)
    parser.add_argument("--flat", action="store_true")
    parser.add_argument("files", nargs="*", metavar="FILE")
    args = parser.parse_intermixed_args(words)
    if args.lang and args.lang == args.source:
        parser.error("--lang and --source are the same language")
    if args.flat and args.format != "i18next":
        parser.error("--flat is only for i18next")
    args.flat = args.flat or args.format == "json"
    if args.source and args.format not in WITH_SOURCE:
        parser.error(f"{args.format} has no --source")
    if args.way == "out":
        if len(args.files) > 1:
            parser.error("out takes the language maps of one file")
        if args.format not in OF_ALL and not args.lang:
            parser.error("out needs --lang")
        if args.format in OF_SOURCE and not args.source:
            parser.error(f"out needs --source for {args.format}")
    return args


def read(module, args):
    """Prints the language maps of files."""
    maps, misfits = Maps(), Misfits(tell)
    for name in args.files or [None]:
        data, shown = read_file(name), name or "standard input"
        found = Found(shown, args, misfits)
        try:
            module.read(data, shown, args, found)
        except RecursionError:
            raise Refused(f"{shown}: nested too deep") from None
        maps.add(found)
    tell_left_out(maps.left_out)
    print_text(language_maps(maps.labels))
    return misfits.status()


def write(module, args):
    """Prints a file of language maps."""
    out = Written(read_maps(args.files[0] if args.files else None), args, module.KEEPS)
    data = module.write(out, args)
    tell_left_out(out.left_out)
    print_text(data)
    return out.misfits.status()


def run(words):
    """Does what the words say."""
    args = arguments(words)
    module = importlib.import_module(f".{MODULES[args.format]}", __package__)
    return (read if args.way == "in" else write)(module, args)


def main(words: Optional[List[str]] = None) -> int:
    """Runs the program, and returns its status."""
    return PROGRAM.run(run, words)
