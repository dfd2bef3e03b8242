#!/usr/bin/env python3
"""Asks other libraries the vectors, and writes peers.tsv: of each library and file of vectors how
many answers agree with one that is admitted, and how many differ. The last column says in what;
it is written by hand, and kept.

It takes what is there of Debian's packages python3-webob, python3-werkzeug, python3-django, libicu,
node-negotiator, default-jdk-headless, golang-go with golang-golang-x-text-dev, and rustc with
librust-oxilangtag-dev. A library that is not there keeps its rows.
"""
import glob
import json
import os
import re
import shutil
import subprocess
import sys
import tempfile

HERE = os.path.dirname(os.path.realpath(__file__))
TABLE = f"{HERE}/peers.tsv"
HEAD = ["library", "version", "vectors", "agree", "differ", "differs in"]
PYTHON = "/usr/bin/python3"
GO_PATH = "/usr/share/gocode"
CRATE = "/usr/share/cargo/registry/oxilangtag-*"
NEGOTIATOR = "/usr/share/nodejs/negotiator/package.json"


def said(*words, **how):
    """What a program prints; empty if it is not there."""
    if not shutil.which(words[0]):
        return ""
    return subprocess.run(words, capture_output=True, text=True, check=False, **how).stdout


def version_of_package(name):
    """The version of a package of Debian, without Debian's own part."""
    found = said("dpkg-query", "-W", "-f", "${db:Status-Status} ${Version}", name)
    version = re.match(r"installed (?:\d+:)?([^-+~]+)", found)
    return version[1] if version else ""


def java(room):
    words = ["javac", "-d", f"{room}/java", *glob.glob(f"{HERE}/java/*.java")]
    said(*words)
    return said("java", "-cp", f"{room}/java", "Run", f"{HERE}/vectors", "PeerLocale")


def go(room):
    program = f"{room}/go"
    environment = {**os.environ, "GOPATH": GO_PATH, "GO111MODULE": "off",
                   "GOCACHE": f"{room}/cache"}
    said("go", "build", "-o", program, f"{HERE}/go/run.go", f"{HERE}/go/peer_xtext.go",
         env=environment)
    return said(program, f"{HERE}/vectors")


def rust(room):
    source, program = glob.glob(CRATE)[0], f"{room}/rust"
    said("rustc", "--edition", "2018", "--crate-type", "rlib", "--crate-name", "oxilangtag",
         "-A", "warnings", "-o", f"{room}/liboxilangtag.rlib", f"{source}/src/lib.rs")
    said("rustc", "--edition", "2021", "-O", "--cfg", "oxilangtag", "-A", "warnings", "--extern",
         f"oxilangtag={room}/liboxilangtag.rlib", "-o", program, f"{HERE}/rust/run.rs")
    return said(program, f"{HERE}/vectors")


def python(name):
    return lambda _: said(PYTHON, "-B", f"{HERE}/python/run.py", f"{HERE}/python/peer_{name}.py")


def negotiator_version():
    if not os.path.exists(NEGOTIATOR):
        return ""
    with open(NEGOTIATOR, encoding="utf-8") as it:
        return json.load(it)["version"]


def java_version():
    found = re.search(r'java.version = (\S+)', subprocess.run(
        ["java", "-XshowSettings:properties", "-version"], capture_output=True, text=True,
        check=False).stderr) if shutil.which("javac") else None
    return found[1] if found else ""


# Of each library its version, and what runs its adapter.
PEERS = {
    "WebOb": (lambda: version_of_package("python3-webob"), python("webob")),
    "Werkzeug": (lambda: version_of_package("python3-werkzeug"), python("werkzeug")),
    "Django": (lambda: version_of_package("python3-django"), python("django")),
    "ICU": (lambda: version_of_package("libicu72"), python("icu")),
    "negotiator": (negotiator_version, lambda _: said(
        "node", f"{HERE}/node/run.mjs", f"{HERE}/node/peer_negotiator.mjs")),
    "Java's Locale": (java_version, java),
    "Go's x/text": (lambda: version_of_package("golang-golang-x-text-dev"), go),
    "oxilangtag": (lambda: version_of_package("librust-oxilangtag-dev"), rust),
}


def read_table():
    """The rows of the table, by library and vectors."""
    if not os.path.exists(TABLE):
        return {}
    with open(TABLE, encoding="utf-8") as it:
        rows = [line.rstrip("\n").split("\t") for line in it][1:]
    return {(row[0], row[2]): row for row in rows}


def main():
    before, rows = read_table(), []
    for library, (version_of, run) in PEERS.items():
        version = version_of()
        with tempfile.TemporaryDirectory() as room:
            given = run(room) if version else ""
        found = [line.split("\t") for line in given.splitlines() if line.count("\t") == 3]
        if not found:
            print(f"{library}: it is not there", file=sys.stderr)
            rows += [row for row in before.values() if row[0] == library]
        for name, agree, differ, _ in found:
            if agree != "0" or differ != "0":
                old = before.get((library, name), [""] * len(HEAD))
                rows.append([library, version, name, agree, differ, old[-1]])
    with open(TABLE, "w", encoding="utf-8") as it:
        it.writelines("\t".join(row) + "\n" for row in [HEAD, *rows])


if __name__ == "__main__":
    main()
