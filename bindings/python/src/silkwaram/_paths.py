"""Where the libraries are."""
import os


def path_of(name: str, variable: str) -> str:
    """The library of a name that the environment names, else the one beside this file, else the
    loader's."""
    beside = os.path.join(os.path.dirname(os.path.abspath(__file__)), name)
    return os.environ.get(variable) or (beside if os.path.exists(beside) else name)
