"""The command `lexicat`: what docs/COMMAND.md says, by the proved command in this process."""
import sys
from typing import List, Optional

from ._command import run
from ._shared import LIMIT, write_all

READ_FAULT, WRITE_FAULT = 24, 25
FAILED, NO_MEMORY = 4, 5
OUTPUT, ERRORS = 1, 2


def main(words: Optional[List[str]] = None) -> int:
    """Runs the command, and returns its status."""
    words = sys.argv[1:] if words is None else words
    try:
        ran = run(words)
        if ran.reads_input:
            ran = run(words, _input())
    except MemoryError:
        return _fault(26, "out of memory", NO_MEMORY)
    except OSError:
        return _fault(READ_FAULT, "read fault", FAILED)
    try:
        write_all(OUTPUT, ran.output)
    except OSError:
        # (help and the version end as if they were read)
        return ran.status if not ran.reads_input and ran.status == 0 else _fault(
            WRITE_FAULT, "write fault", FAILED
        )
    try:
        write_all(ERRORS, ran.errors)
    except OSError:
        pass
    return ran.status


def _input() -> bytes:
    """Standard input, as far as the command looks at it: a byte more than it takes is enough."""
    with open(0, "rb", buffering=0, closefd=False) as given:
        parts, left = [], LIMIT + 1
        while left > 0:
            part = given.read(min(left, 1 << 20))
            if part is None:
                raise BlockingIOError
            if not part:
                break
            parts.append(part)
            left -= len(part)
    return b"".join(parts)


def _fault(number: int, words: str, status: int) -> int:
    try:
        write_all(ERRORS, f"refused {number}: {words}\n".encode())
    except OSError:
        pass
    return status


if __name__ == "__main__":
    sys.exit(main())
