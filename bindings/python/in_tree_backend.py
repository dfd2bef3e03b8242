"""Builds the package with Python's standard library alone, so that an installation fetches nothing.

These are the calls of PEP 517 that pip makes. The wheel has the modules as they are, with the page
of the editor and the table of fallbacks. With the setting `library`, the path of libsilkwaram.so,
it has the library too, and bears the tag of the library's machine; that wants `readelf` of binutils.
With the setting `command`, the path of libsilkwaram-command.so, the programs run without another
library. With the setting `browser`, the folder that `make browser` builds, it has the module that
the editor's page runs. With the setting `licences`, a file that `tools/third-party` prints, it has
the licences of what is linked into the libraries:

    pip wheel --config-settings library=$PWD/build/lib/libsilkwaram.so \\
        --config-settings command=$PWD/build/lib/libsilkwaram-command.so \\
        --config-settings browser=$PWD/build/browser ./bindings/python

With the setting `portable`, the folder that `tools/portable` builds, both libraries are compiled for
this machine, by the compiler that CC names, or by cc, gcc or clang, with -O1 and CFLAGS: a minute or
two. The source package has that folder inside, so that it is the setting there. It is made with the
settings `portable`, `browser` and `licences`.
"""
import base64
import gzip
import hashlib
import io
import os
import re
import shlex
import shutil
import subprocess
import sys
import sysconfig
import tarfile
import tempfile
import zipfile

HERE = os.path.dirname(os.path.abspath(__file__))
NAME = "silkwaram"
LICENCES = ["LICENSE-APACHE", "LICENSE-MIT", "LICENSE-UNICODE"]
TABLE = "cldr.fallbacks"
# The libraries by the settings that name them.
SONAMES = {"library": "libsilkwaram.so.0", "command": "libsilkwaram-command.so.0"}
# The C of each.
PORTABLE = {"library": "silkwaram.c", "command": "silkwaram_command.c"}
COMPILERS = ("cc", "gcc", "clang")
# What the source package has beside this file, by the settings that name it in the repository.
BESIDE = {"portable": "portable", "browser": "browser", "licences": "THIRD-PARTY"}
GLIBC = (2, 17)
# The machines of a library, as readelf and a wheel name them.
MACHINES = {"Advanced Micro Devices X86-64": "x86_64", "AArch64": "aarch64"}
# What the editor's page is made of, and what of the module it runs.
PAGE = (".html", ".css", ".js", ".mjs", ".svg")
MODULE = ("silkwaram.mjs", "silkwaram.wasm")
# The first of January 1980, before which no date of a file in a wheel can be.
EPOCH = (1980, 1, 1, 0, 0, 0)


def read(path):
    with open(os.path.join(HERE, path), "rb") as it:
        return it.read()


def version():
    return re.search(rb'^__version__ = "(.*)"$', read("src/silkwaram/__init__.py"), re.M)[
        1
    ].decode()


def make_calls():
    """Makes the table of the calls, if this is in the repository: elsewhere it has to be here."""
    tool, made = os.path.join(HERE, "../../tools/calls"), os.path.join(HERE, f"src/{NAME}/_calls.py")
    if os.path.exists(tool):
        subprocess.run([sys.executable, tool, "python"], check=True)
    elif not os.path.exists(made):
        raise FileNotFoundError(f"{made} is not here: `make library` makes it in the repository")


def licences(settings):
    """The licence files of the repository, if this is there, and that of what is linked."""
    folders = [os.path.join(HERE, it) for it in ("", "../..", "../../data")]
    paths = [(name, os.path.join(it, name)) for name in LICENCES for it in folders]
    paths.append(("THIRD-PARTY", settings.get("licences", "")))
    return {name: read(path) for name, path in paths if os.path.isfile(path)}


def table():
    """The table of fallbacks in the repository, if this is there, or beside this file."""
    paths = [os.path.join(HERE, it, TABLE) for it in ("", "../../data")]
    return {TABLE: read(path) for path in paths if os.path.isfile(path)}


def metadata(licence_names):
    """The fields as pyproject.toml has them, and the page."""
    project = read("pyproject.toml").decode()
    value = lambda name: re.search(rf'^{name} = "(.*?)"', project, re.M)[1]
    classifiers = re.search(r"^classifiers = \[(.*?)\]", project, re.M | re.S)[1]
    maintainer = re.search(r'^maintainers = .* name = "(.*?)"', project, re.M)[1]
    head = [
        "Metadata-Version: 2.4",
        f"Name: {NAME}",
        f"Version: {version()}",
        f"Summary: {value('description')}",
        f"Maintainer: {maintainer}",
        f"License-Expression: {value('license')}",
        *[f"License-File: {it}" for it in licence_names],
        *[f"Classifier: {it}" for it in re.findall(r'"(.*?)"', classifiers)],
        f"Requires-Python: {value('requires-python')}",
        "Description-Content-Type: text/markdown",
    ]
    return ("\n".join(head) + "\n\n").encode() + read("README.md")


def modules():
    folder = os.path.join(HERE, "src", NAME)
    return sorted(
        os.path.relpath(os.path.join(path, it), folder)
        for path, _, files in os.walk(folder)
        for it in files
        if it.endswith((".py", ".typed", *PAGE)) and it not in MODULE
    )


def entry_points():
    """The programs that an installation makes, as pyproject.toml has them."""
    lines = re.findall(r'^(lexicat[a-z-]*) = "(.*)"$', read("pyproject.toml").decode(), re.M)
    return ("[console_scripts]\n" + "".join(f"{name} = {call}\n" for name, call in lines)).encode()


def library_tag(path, soname):
    """The tag of the machines that a library runs on; a ValueError where it wants more of them."""
    said = subprocess.run(
        ["readelf", "-hdVW", path],
        check=True,
        stdout=subprocess.PIPE,
        universal_newlines=True,
        env={**os.environ, "LC_ALL": "C"},
    ).stdout
    machine = MACHINES.get(re.search(r"^ *Machine: +(.*)$", said, re.M)[1])
    if not machine or f" soname: [{soname}]\n" not in said:
        raise ValueError(f"{path} is not {soname} for x86-64 or arm64")
    others = set(re.findall(r"\(NEEDED\) +Shared library: \[(.*)\]", said)) - {"libc.so.6"}
    if others:
        raise ValueError(f"{path} wants {', '.join(sorted(others))}, which not every machine has")
    versions = said.partition("Version needs section")[2]
    for wanted in re.findall(r"^ +0x\w+: +Name: (\S+)", versions, re.M):
        number = re.fullmatch(r"GLIBC_(\d+)\.(\d+)(?:\.\d+)?", wanted)
        if not number or (int(number[1]), int(number[2])) > GLIBC:
            raise ValueError(f"{path} wants {wanted}, and the tag says GLIBC_{GLIBC[0]}.{GLIBC[1]}")
    return f"manylinux_{GLIBC[0]}_{GLIBC[1]}_{machine}"


def own_tag():
    """The tag of this machine."""
    return re.sub(r"\W", "_", sysconfig.get_platform())


def compiled(folder):
    """The libraries of the C in a folder, for this machine."""
    named = os.environ.get("CC") or next(filter(shutil.which, COMPILERS), None)
    if not named:
        raise FileNotFoundError("there is no C compiler: install one, or name it by CC")
    flags = ["-O1", *shlex.split(os.environ.get("CFLAGS", "")), "-shared", "-fPIC"]
    words = [*shlex.split(named), *flags, *["-pthread"] * (os.name == "posix")]
    with tempfile.TemporaryDirectory() as room:
        made = {SONAMES[it]: os.path.join(room, SONAMES[it]) for it in PORTABLE}
        sources = [os.path.join(folder, it) for it in PORTABLE.values()]
        running = [
            subprocess.Popen([*words, "-o", to, source])
            for to, source in zip(made.values(), sources)
        ]
        if any([it.wait() for it in running]):
            raise RuntimeError(f"{named} did not compile the library")
        return {name: read(path) for name, path in made.items()}


def found_beside(config_settings):
    """The settings, with what the source package has beside this file."""
    beside = {name: os.path.join(HERE, it) for name, it in BESIDE.items()}
    here = {name: it for name, it in beside.items() if os.path.exists(it)}
    return {**here, **(config_settings or {})}


def build_sdist(sdist_directory, config_settings=None):
    settings, root = found_beside(config_settings), f"{NAME}-{version()}"
    lacking = [it for it in ("portable", "browser") if it not in settings]
    if lacking:
        raise FileNotFoundError(f"the source package wants the settings {' and '.join(lacking)}")
    make_calls()
    own = ["pyproject.toml", "in_tree_backend.py", "README.md"]
    files = {it: read(it) for it in [*own, *(f"src/{NAME}/{it}" for it in modules())]}
    portable, browser = settings["portable"], settings["browser"]
    names = os.listdir(portable)
    files.update({f"portable/{it}": read(os.path.join(portable, it)) for it in names})
    files.update({f"browser/{it}": read(os.path.join(browser, it)) for it in MODULE})
    found = licences(settings)
    files.update({**found, **table(), "PKG-INFO": metadata(found)})
    packed = io.BytesIO()
    with tarfile.open(fileobj=packed, mode="w", format=tarfile.PAX_FORMAT) as archive:
        for path, content in sorted(files.items()):
            entry = tarfile.TarInfo(f"{root}/{path}")
            entry.size, entry.mtime = len(content), 315532800
            archive.addfile(entry, io.BytesIO(content))
    with open(os.path.join(sdist_directory, f"{root}.tar.gz"), "wb") as it:
        it.write(gzip.compress(packed.getvalue(), mtime=0))
    return f"{root}.tar.gz"


def record_line(path, content):
    digest = base64.urlsafe_b64encode(hashlib.sha256(content).digest()).rstrip(b"=").decode()
    return f"{path},sha256={digest},{len(content)}\n"


def build_wheel(wheel_directory, config_settings=None, metadata_directory=None):
    settings, info = found_beside(config_settings), f"{NAME}-{version()}.dist-info"
    make_calls()
    files = {f"{NAME}/{it}": read(f"src/{NAME}/{it}") for it in modules()}
    files.update({f"{NAME}/{it}": content for it, content in table().items()})
    browser = settings.get("browser")
    if browser:
        files.update({f"{NAME}/editor/page/{it}": read(os.path.join(browser, it)) for it in MODULE})
    machines = "any"
    for setting, soname in SONAMES.items():
        library = settings.get(setting)
        if library:
            machines = library_tag(library, soname)
            files[f"{NAME}/{soname}"] = read(library)
    if "portable" in settings and machines == "any":
        machines = own_tag()
        made = compiled(settings["portable"])
        files.update({f"{NAME}/{it}": content for it, content in made.items()})
    files[f"{info}/entry_points.txt"] = entry_points()
    found = licences(settings)
    files.update({f"{info}/licenses/{it}": content for it, content in found.items()})
    files[f"{info}/METADATA"] = metadata(found)
    files[f"{info}/WHEEL"] = (
        "Wheel-Version: 1.0\nGenerator: silkwaram\n"
        f"Root-Is-Purelib: {'true' if machines == 'any' else 'false'}\nTag: py3-none-{machines}\n"
    ).encode()
    record = "".join(record_line(path, content) for path, content in files.items())
    files[f"{info}/RECORD"] = f"{record}{info}/RECORD,,\n".encode()
    name = f"{NAME}-{version()}-py3-none-{machines}.whl"
    with zipfile.ZipFile(os.path.join(wheel_directory, name), "w", zipfile.ZIP_DEFLATED) as wheel:
        for path, content in files.items():
            entry = zipfile.ZipInfo(path, EPOCH)
            entry.compress_type, entry.external_attr = zipfile.ZIP_DEFLATED, 0o644 << 16
            wheel.writestr(entry, content)
    return name
