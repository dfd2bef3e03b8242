"""The package with what was built, for tests in Python of its programs. A test imports this first.

It takes the libraries of build/lib, or those that SILKWARAM_LIBRARY and SILKWARAM_COMMAND_LIBRARY name;
PACKAGE names another folder of the package. The command LEXICAT has no part in it."""
import atexit
import os
import shutil
import sys
import tempfile

TESTS = os.path.dirname(os.path.realpath(__file__))
TOP = os.path.realpath(f"{TESTS}/../../../..")
PACKAGE = os.path.abspath(os.environ.get("PACKAGE") or f"{TOP}/bindings/python/src")
sys.path[:0] = [TESTS, f"{TOP}/tests/lib", PACKAGE]
import tap  # noqa: E402

LIBRARIES = {
    "SILKWARAM_LIBRARY": f"{TOP}/build/lib/libsilkwaram.so.0",
    "SILKWARAM_COMMAND_LIBRARY": f"{TOP}/build/lib/libsilkwaram-command.so.0",
}
for _name, _library in LIBRARIES.items():
    os.environ[_name] = os.path.abspath(os.environ.get(_name) or _library)
os.environ.pop("LEXICAT", None)
tap.needs(*map(os.environ.get, LIBRARIES))
# (what a test leaves, and the programs as they are compiled once)
room = tempfile.mkdtemp()
atexit.register(shutil.rmtree, room, ignore_errors=True)
sys.pycache_prefix = f"{room}/compiled"
os.environ.update(PYTHONPATH=PACKAGE, PYTHONPYCACHEPREFIX=sys.pycache_prefix)


def program(name, *words):
    """The words that run a program of the package, such as `file`."""
    return [sys.executable, "-m", f"silkwaram.tools.{name}", *words]
