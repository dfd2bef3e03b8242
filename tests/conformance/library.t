#!/usr/bin/env python3
"""Asks the library and the command, as they are built, the vectors of conformance/: each answer is
the first one that the vector admits. The items of a field are compared by what they decide: the
field filters the ranges that it names, taken as tags.

Takes build/lib/libsilkwaram.so, or the file that SILKWARAM_LIBRARY names, and build/lexicat, or the
command that LEXICAT names. It needs Python alone.
"""
import os
import sys

HERE = os.path.dirname(os.path.realpath(__file__))
TOP = os.path.realpath(f"{HERE}/../..")
SUITE = f"{TOP}/conformance"
sys.dont_write_bytecode = True
sys.path[:0] = [f"{HERE}/../lib", SUITE, f"{SUITE}/python"]
import reference  # noqa: E402
import run  # noqa: E402
import tap  # noqa: E402

BUILT = {"SILKWARAM_LIBRARY": "build/lib/libsilkwaram.so", "LEXICAT": "build/lexicat"}
for variable, path in BUILT.items():
    os.environ[variable] = os.path.abspath(os.environ.get(variable, f"{TOP}/{path}"))
    tap.needs(os.environ[variable])
# What cannot be asked: `@none`, and by the command also texts with a zero byte, and no tags at all.
MOST_LEFT = 20


def agrees(name):
    """How many answers of an adapter agree, or those that differ."""
    adapter = run.adapter_of(f"{SUITE}/python/{name}.py")
    faults, agreed, left = [], 0, 0
    for _, count, differing, more in run.run(adapter, threads=os.cpu_count(), admits=False):
        faults += differing
        agreed, left = agreed + count, left + more
    if left > MOST_LEFT:
        faults.append(f"{left} vectors are not asked")
    return faults or f"{agreed} vectors agree, {left} cannot be asked"


def decided(items, tags):
    """What a field decides of some tags: the weight of the longest range that matches, where that
    is not 0."""
    for tag in tags:
        matching = [it for it in items if reference.basic_match(it[0], tag)]
        weight = max(matching, key=lambda it: reference.specificity(it[0]))[1]
        if weight:
            yield tag, weight


def items_decide(file, lenient):
    """The fields of a file whose items decide otherwise than the library says."""
    import silkwaram  # (by_silkwaram.py has put it on the path)
    count = 0
    for name, _, vectors in run.files():
        for it in vectors if name == file else ():
            answers = it["admits"] if lenient else [it["answer"]]
            items = next((one for one in answers if isinstance(one, list)), None)
            if items is None:
                continue
            # (a range that is no tag, as `en-x`, becomes one with a subtag more)
            named = [one + more for one, _ in items for more in ("", "-zzz") if one != "*"]
            tags = [one for one in dict.fromkeys([*named, "qaa-zzz"]) if reference.parts_of(one)]
            tags = [one for one in tags if any(reference.basic_match(of, one) for of, _ in items)]
            found = silkwaram.filter_tags(it["field"], tags, lenient=lenient)
            given = {(one.tag, one.weight) for one in found}
            if given != set(decided(items, tags)):
                yield f"{it['id']}: {given}"
            count += len(tags)
    tap.note(f"{count} tags are decided")


tap.check("the library answers every vector so", agrees, "by_silkwaram")
tap.check("the items of fields decide as the library says",
          lambda: list(items_decide("fields", False)))
tap.check("those of malformed fields do so where the library skips what is malformed",
          lambda: list(items_decide("no-fields", True)))
tap.check("the command answers every vector so", agrees, "by_lexicat")
tap.end()
