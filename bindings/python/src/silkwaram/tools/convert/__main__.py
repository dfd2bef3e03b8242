"""The program lexicat-convert, as `python -m silkwaram.tools.convert`."""
import sys

from .command import main

if __name__ == "__main__":
    sys.exit(main())
