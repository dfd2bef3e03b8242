"""Programs in children of one Python, which has read them once."""
import os
import sys
import traceback


# The kilobytes that the last child took at most.
peak = 0


def ended(main, words, data=b""):
    """The status that a program ends with over some words and an input, what it prints, and what it
    writes to standard error."""
    with open("input", "wb") as file:
        file.write(data)
    child = os.fork()
    if child == 0:
        os.dup2(os.open("input", os.O_RDONLY), 0)
        for number, name in ((1, "output"), (2, "errors")):
            os.dup2(os.open(name, os.O_WRONLY | os.O_CREAT | os.O_TRUNC), number)
        sys.argv[1:] = words
        status = 99
        try:
            status = main()
        except SystemExit as end:
            status = end.code
        except BaseException:
            traceback.print_exc()
        sys.stdout.flush()
        sys.stderr.flush()
        os._exit(status or 0)
    global peak
    _, status, used = os.wait4(child, 0)
    status, peak = os.WEXITSTATUS(status), used.ru_maxrss
    with open("output", "rb") as output, open("errors", errors="replace") as errors:
        return status, output.read(), errors.read()
