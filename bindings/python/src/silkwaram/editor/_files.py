"""The files of the page, in memory, under one version."""
import gzip
import hashlib
import os
from typing import Dict, NamedTuple

HERE = os.path.dirname(os.path.realpath(__file__))
PAGE = os.path.join(HERE, "page")
# Where the module is: beside the page in a wheel, in build/browser of the sources, or elsewhere.
IN_SOURCES = os.path.normpath(os.path.join(HERE, "../../../../../build/browser"))
MODULE = ("silkwaram.mjs", "silkwaram.wasm")
WORKER = "offline.js"
TYPES = {
    ".html": "text/html; charset=utf-8",
    ".css": "text/css; charset=utf-8",
    ".js": "text/javascript; charset=utf-8",
    ".mjs": "text/javascript; charset=utf-8",
    ".wasm": "application/wasm",
    ".svg": "image/svg+xml",
}


class PageFile(NamedTuple):
    """A file of the page: its type, its bytes, those by gzip, and what names this state of it."""

    kind: str
    content: bytes
    packed: bytes
    tag: str


def _read(path: str) -> bytes:
    with open(path, "rb") as file:
        return file.read()


def _module_folder() -> str:
    named = os.environ.get("SILKWARAM_BROWSER")
    for folder in [named] if named else [PAGE, IN_SOURCES]:
        if all(os.path.isfile(os.path.join(folder, name)) for name in MODULE):
            return folder
    raise FileNotFoundError(
        f"there is no {MODULE[1]}: the wheel has it, or `make browser` makes it"
    )


def _file(name: str, content: bytes) -> PageFile:
    tag = f'"{hashlib.sha256(content).hexdigest()[:24]}"'
    return PageFile(TYPES[os.path.splitext(name)[1]], content, gzip.compress(content, 9), tag)


def page_files() -> Dict[str, PageFile]:
    """The files by their names. That of the service worker names all others, and their version."""
    contents = {
        name: _read(os.path.join(PAGE, name))
        for name in sorted(os.listdir(PAGE))
        if os.path.splitext(name)[1] in TYPES and name not in MODULE
    }
    folder = _module_folder()
    contents.update({name: _read(os.path.join(folder, name)) for name in MODULE})
    worker = contents.pop(WORKER)
    version = hashlib.sha256()
    for name in sorted(contents):
        version.update(f"{name} {len(contents[name])}\n".encode() + contents[name])
    version.update(worker)
    names = " ".join("./" if name == "index.html" else name for name in sorted(contents))
    worker = worker.replace(b"@VERSION@", version.hexdigest()[:16].encode())
    contents[WORKER] = worker.replace(b"@FILES@", names.encode())
    return {name: _file(name, content) for name, content in contents.items()}
