#!/usr/bin/env python3
"""Asks a library the vectors, and prints of each file how many answers agree, how many differ, and
how many vectors it has no call for; then each answer that differs.

usage: run.py [ADAPTER.py [FOLDER]]    by default by_reference.py, which asks the second program,
                                       and the folder of the vectors

An adapter is a module with some of these functions, which the library answers:

    tag(text)                      the parts of a tag, or None
    basic_range(text), extended_range(text)                     whether it is one
    field(text)                    the items of a field, each a range and a weight in thousandths;
                                   or it raises Malformed(place), or Malformed()
                                   (True is for parts and items that the library does not tell)
    basic_filtering(field, tags), extended_filtering(ranges, tags)       the tags that match
    lookup(field, tags, default), extended_lookup(ranges, tags, default) a tag, or None

A list of basic ranges comes as a field with falling weights. A module that gives items by weight,
and not as they are written, has `ITEMS_HAVE_NO_ORDER = True`. The status is 1 if an answer
differs.
"""
import glob
import importlib.util
import json
import os
import sys
from concurrent.futures import ThreadPoolExecutor

HERE = os.path.dirname(os.path.realpath(__file__))
VECTORS = os.path.join(os.path.dirname(HERE), "vectors")
sys.path.insert(0, HERE)


class Malformed(Exception):
    """A field is malformed, at the place of an element, in bytes from 0, or the library does not
    say where."""

    def __init__(self, place=None):
        super().__init__(place)
        self.place = place


# (an adapter that imports `run` has to raise this very exception)
sys.modules.setdefault("run", sys.modules[__name__])


def field_of(vector):
    """The list of a vector as a field: a list of ranges is one of falling weights."""
    if "field" in vector:
        return vector["field"]
    return ", ".join(it if at == 0 else f"{it};q={(1000 - at) / 1000}"
                     for at, it in enumerate(vector["ranges"]))


CALLS = {
    "tags": lambda it, call: call("tag", it["tag"]),
    "basic-ranges": lambda it, call: call("basic_range", it["range"]),
    "extended-ranges": lambda it, call: call("extended_range", it["range"]),
    "fields": lambda it, call: call("field", it["field"]),
    "basic-filtering": lambda it, call: call("basic_filtering", field_of(it), it["tags"]),
    "extended-filtering": lambda it, call: call("extended_filtering", it["ranges"], it["tags"]),
    "lookup": lambda it, call: call("lookup", field_of(it), it["tags"], it.get("default")),
    "extended-lookup": lambda it, call: call(
        "extended_lookup", it["ranges"], it["tags"], it.get("default")),
}


def lowered(answer):
    """An answer without case; a set of tags has no order."""
    if isinstance(answer, str):
        return answer.lower()
    if isinstance(answer, list) and all(isinstance(it, str) for it in answer):
        return sorted({it.lower() for it in answer})
    return answer


def agrees(given, answer):
    """Whether what a library gave is an answer of a vector."""
    is_fault = isinstance(answer, dict) and bool(answer.keys() & {"malformed", "refused"})
    if isinstance(given, Malformed):
        return is_fault and given.place in (None, answer.get("malformed", given.place))
    if given is True and isinstance(answer, (dict, list)):
        return not is_fault
    if isinstance(given, list):
        given = [list(it) if isinstance(it, tuple) else it for it in given]
    return lowered(given) == lowered(answer)


def unordered(answer):
    """Items by their ranges and weights."""
    return sorted(map(list, answer)) if isinstance(answer, list) else answer


def asked(adapter, subject, vector):
    """What a library answers: NotImplemented where it has no call."""
    def call(name, *given):
        function = getattr(adapter, name, None)
        return function(*given) if function else NotImplemented
    try:
        return CALLS[subject](vector, call)
    except Malformed as fault:
        return fault


def files(folder=VECTORS):
    """The name, the subject and the vectors of each file."""
    for path in sorted(glob.glob(f"{folder}/*.json")):
        with open(path, encoding="utf-8") as it:
            document = json.load(it)
        yield os.path.basename(path)[:-len(".json")], document["subject"], document["vectors"]


def shown(given):
    if isinstance(given, Malformed):
        return json.dumps({"malformed": given.place})
    return json.dumps(given, default=repr)


def run(adapter, folder=VECTORS, threads=1, admits=True):
    """Of each file its name, how many answers agree, those that differ, and how many were not
    asked. Where others are not admitted, just the first answer of a vector agrees."""
    with ThreadPoolExecutor(threads) as pool:
        for name, subject, vectors in files(folder):
            answers = list(pool.map(lambda it: asked(adapter, subject, it), vectors))
            is_free = subject == "fields" and getattr(adapter, "ITEMS_HAVE_NO_ORDER", False)
            agreed, differing, left = 0, [], 0
            for vector, given in zip(vectors, answers):
                wanted = admits and vector.get("admits") or [vector["answer"]]
                if is_free:
                    given, wanted = unordered(given), [unordered(it) for it in wanted]
                if given is NotImplemented:
                    left += 1
                elif any(agrees(given, it) for it in wanted):
                    agreed += 1
                else:
                    question = {key: value for key, value in vector.items()
                                if key not in ("id", "answer", "admits", "choices", "section")}
                    differing.append(f"{vector['id']} {json.dumps(question)}: {shown(given)}, and"
                                     f" not {json.dumps(wanted)} ({vector['section']})")
            yield name, agreed, differing, left


def adapter_of(path):
    spec = importlib.util.spec_from_file_location("adapter", path)
    module = importlib.util.module_from_spec(spec)
    spec.loader.exec_module(module)
    return module


def main(path=f"{HERE}/by_reference.py", folder=VECTORS):
    found = list(run(adapter_of(path), folder))
    for name, agreed, differing, left in found:
        print(name, agreed, len(differing), left, sep="\t")
    for _, _, differing, _ in found:
        for it in differing:
            print(it)
    return any(differing for _, _, differing, _ in found)


if __name__ == "__main__":
    sys.exit(main(*sys.argv[1:]))
