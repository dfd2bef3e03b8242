"""What the programs have in common: how they say what is wrong, what they print, texts and
times."""
import json
import os
import signal
import sys
import time
from typing import Callable, Iterable, List, NoReturn, Optional, Union

USAGE, REFUSED, NO_FILE, IN_USE = 2, 3, 4, 6
# The bytes that a command reads.
LIMIT = 67108864
MILLISECONDS_OF_A_DAY = 86_400_000

Bytes = Union[bytes, bytearray, memoryview]


class Fault(Exception):
    """Why a program ends: words for a person, and the status."""

    def __init__(self, words: str, status: int = NO_FILE) -> None:
        super().__init__(words)
        self.status = status


class Refused(Fault):
    """Why nothing is done."""

    def __init__(self, words: str, status: int = REFUSED) -> None:
        super().__init__(words, status)


class Program:
    """A program: its name, which is before each line that it writes to standard error, and its
    help."""

    def __init__(self, name: str, usage: str) -> None:
        self.name, self.usage = name, usage

    def tell(self, words: str) -> None:
        """Writes a line."""
        self.tell_bytes(f"{self.name}: {words}\n".encode("utf-8", "surrogateescape"))

    @staticmethod
    def tell_bytes(text: bytes) -> None:
        """Writes a text as it is. If standard error is closed, nothing is said."""
        try:
            write_all(2, text)
        except OSError:
            pass

    def misused(self, words: str) -> NoReturn:
        """Ends the program, as the words of the command line are wrong."""
        raise Fault(f"{words}; see {self.name} --help", USAGE)

    def help(self) -> int:
        """Prints the help of the program, and returns the status to end with."""
        print_text(self.usage.encode())
        return 0

    def run(self, work: Callable[[List[str]], int], words: Optional[List[str]]) -> int:
        """Runs the program on the words of the command line, and returns the status to end with."""
        words = sys.argv[1:] if words is None else words
        ends_by_signals()
        try:
            if words[:1] == ["--version"]:
                from .. import __version__

                print_text(f"{self.name} {__version__}\n".encode())
                return 0
            if words[:1] in (["-h"], ["--help"]):
                return self.help()
            return work(words)
        except Fault as fault:
            if str(fault):
                self.tell(str(fault))
            return fault.status
        except UnicodeEncodeError:
            self.tell("a text is not Unicode: it has half of a surrogate pair")
            return REFUSED
        except KeyboardInterrupt:
            return 130
        except MemoryError:
            self.tell("out of memory")
            return 5


def ends_by_signals() -> None:
    """Has a signal end the program by an exception, so that no new file is left."""

    def end(number: int, _: object) -> None:
        raise SystemExit(128 + number)

    for it in (signal.SIGHUP, signal.SIGTERM):
        if signal.getsignal(it) != signal.SIG_IGN:
            signal.signal(it, end)


def read_file(path: Optional[str], name: Optional[str] = None, most: int = -1) -> bytes:
    """The bytes of a file, or so many of them; of standard input if there is no path. What is wrong
    is said of a name."""
    try:
        with open(0 if path is None else path, "rb", closefd=path is not None) as file:
            return file.read(most)
    except OSError as fault:
        raise Fault(f"{name or path or 'standard input'}: {fault.strerror}") from None


def write_all(to: int, text: Bytes) -> None:
    """Writes a text whole to a descriptor."""
    left = memoryview(text)
    while left:
        left = left[os.write(to, left) :]


def print_text(text: Bytes) -> None:
    """Writes an answer to standard output."""
    try:
        write_all(1, text)
    except OSError as fault:
        raise Fault(f"standard output: {fault.strerror}") from None


def print_lines(lines: Iterable[str]) -> None:
    """Writes an answer of some lines to standard output."""
    print_text(encoded("".join(f"{it}\n" for it in lines)))


def expect_output() -> None:
    """Ends the program if no answer can be printed."""
    try:
        os.fstat(1)
    except OSError:
        raise Fault("standard output is closed") from None


def quoted(text: str) -> str:
    """A text on one line, in double quotes, with nothing that a terminal does not show; of a long
    one the beginning."""
    text = text if len(text) <= 200 else text[:200] + ".."
    return "".join(
        it if it.isprintable() else json.dumps(it)[1:-1]
        for it in json.dumps(text, ensure_ascii=False)
    )


def compact(value: object) -> str:
    """A value as compact JSON."""
    return json.dumps(value, ensure_ascii=False, separators=(",", ":"))


def encoded(text: str) -> bytes:
    """The bytes of a text, which may have half of a surrogate pair, as JSON can write one."""
    return text.encode("utf-8", "surrogatepass")


def clock() -> int:
    """The milliseconds since 1970."""
    return time.time_ns() // 1_000_000


def moment_of(milliseconds: int) -> str:
    """A time in milliseconds since 1970, as a person of this place reads it."""
    try:
        return time.strftime("%Y-%m-%d %H:%M", time.localtime(milliseconds / 1000))
    except (OverflowError, OSError, ValueError):
        return f"time {milliseconds}"


def count_of(number: int, one: str, more: Optional[str] = None) -> str:
    """A number of things, in words: `1 label`, `2 labels`."""
    return f"{number} {one if number == 1 else more or one + 's'}"
