#!/usr/bin/env python3
"""Runs the runners of conformance/ with the program that each has in its own language: all vectors
agree. And each runner finds wrong answers: in a copy of the vectors five answers are altered, and
just these differ. Needed: node, javac and java, rustc, go; what is not there is skipped.
"""
import json
import os
import shutil
import subprocess
import sys
import tempfile

HERE = os.path.dirname(os.path.realpath(__file__))
SUITE = os.path.realpath(f"{HERE}/../../conformance")
sys.dont_write_bytecode = True
sys.path[:0] = [f"{HERE}/../lib", f"{SUITE}/python"]
import run  # noqa: E402
import tap  # noqa: E402

# Files with an answer that is altered, and what it becomes.
PLANTED = {"no-tags": {"language": "en"}, "basic-ranges": False, "fields": [["en", 999]],
           "extended-filtering": ["und"], "lookup": "und"}


def altered(folder):
    """Copies the vectors with five wrong answers, and returns their ids."""
    ids = []
    for name, subject, vectors in run.files():
        if name in PLANTED:
            it = next(it for it in vectors if "admits" not in it and it["answer"] is not False)
            it["answer"] = PLANTED[name]
            ids.append(it["id"])
        with open(f"{folder}/{name}.json", "w", encoding="utf-8") as file:
            json.dump({"subject": subject, "vectors": vectors}, file)
    return ids


def ran(words, wanted):
    """Runs a runner, and returns what it says and its status, or a fault."""
    given = subprocess.run(words, capture_output=True, text=True, check=False)
    if given.returncode != wanted:
        return "", [f"status {given.returncode}: {given.stderr}{given.stdout}"[:2000]]
    return given.stdout, []


def all_agree(words):
    said, faults = ran(words, 0)
    rows = [it.split("\t") for it in said.splitlines()]
    asked = {name: (int(agreed), int(left)) for name, agreed, _, left in rows}
    faults += [f"{name}: {asked.get(name)} of {len(vectors)}" for name, _, vectors in run.files()
               if asked.get(name) != (len(vectors), 0) and not faults]
    return faults or f"{sum(it for it, _ in asked.values())} vectors"


def finds(words, ids):
    said, faults = ran(words, 1)
    lines = [it for it in said.splitlines() if it.count("\t") != 3]
    faults += [f"{it} is not found" for it in ids if not any(it in one for one in lines)]
    if len(lines) != len(ids):
        faults.append(f"{len(lines)} answers differ, and {len(ids)} are wrong")
    return faults


def built(words):
    given = subprocess.run(words, capture_output=True, text=True, check=False)
    return [given.stderr] if given.returncode else []


def sources(folder, *names):
    return [f"{SUITE}/{folder}/{it}" for it in names]


def try_runner(language, programs, build, words):
    """Tries one runner: its programs, what builds it, and its words for a folder of vectors."""
    for it in programs:
        if not shutil.which(it):
            tap.lacks(f"the runner in {language}", it)
            return
    faults = built(build) if build else []
    if faults:
        tap.fail(f"the runner in {language} is built", *faults)
    else:
        tap.check(f"the runner in {language} agrees", all_agree, words(f"{SUITE}/vectors"))
        tap.check(f"the runner in {language} finds wrong answers", finds, words(folder), ids)


with tempfile.TemporaryDirectory() as room:
    folder = f"{room}/altered"
    os.mkdir(folder)
    ids = altered(folder)
    # (a home of its own, so that nothing is kept elsewhere)
    os.environ.update(GOCACHE=f"{room}/go-cache", GO111MODULE="off", GOFLAGS="")
    try_runner("Python", [], None, lambda it: [
        sys.executable, *sources("python", "run.py", "by_reference.py"), it])
    try_runner("JavaScript", ["node"], None, lambda it: [
        "node", *sources("node", "run.mjs", "plain.mjs"), it])
    try_runner("Java", ["javac", "java"],
               ["javac", "-d", f"{room}/java", *sources("java", "Run.java", "Plain.java")],
               lambda it: ["java", "-cp", f"{room}/java", "Run", it])
    try_runner("Rust", ["rustc"],
               ["rustc", "--edition", "2021", "-O", "-A", "warnings", "-o", f"{room}/rust",
                *sources("rust", "run.rs")],
               lambda it: [f"{room}/rust", it])
    try_runner("Go", ["go"],
               ["go", "build", "-o", f"{room}/go", *sources("go", "run.go", "plain.go")],
               lambda it: [f"{room}/go", it])
tap.end()
