#!/usr/bin/env python3
"""Sees that the vectors of conformance/ have their form, that the second program answers each of
them so, and that they take each line of it. Wrong programs are made of it by a single change each,
and a vector must find each of them. It needs Python alone.
"""
import ast
import dis
import json
import os
import re
import sys
import types

HERE = os.path.dirname(os.path.realpath(__file__))
SUITE = os.path.realpath(f"{HERE}/../../conformance")
sys.dont_write_bytecode = True
sys.path[:0] = [f"{HERE}/../lib", SUITE, f"{SUITE}/python"]
import make  # noqa: E402
import reference  # noqa: E402
import run  # noqa: E402
import tap  # noqa: E402

LEAST = 5000
SECTION = re.compile(r"RFC (4647|5646|9110) \d+(\.\d+)*")
MEMBERS = {"id", "answer", "section", "admits", "choices", *make.QUESTION}
# What a program gets wrong, in which subject, and the change of reference.py that makes one so.
WRONG = {
    "a tag with a singleton and nothing after it is read": (
        "tags", "(?:-[0-9a-wyz](?:-[a-z0-9]{2,8})+)*", "(?:-[0-9a-wyz](?:-[a-z0-9]{2,8})*)*"),
    "letters that are not ASCII are lowered": (
        "tags", 'return "".join(chr(ord(it) + 32) if "A" <= it <= "Z" else it for it in text)',
        "return text.lower()"),
    "digits that are not ASCII are digits": (
        "tags", "[0-9]{3}))?\"", "\\d{3}))?\""),
    "a line feed after a tag is ignored": (
        "tags", "found = LANGTAG.fullmatch(tag)", "found = LANGTAG.fullmatch(tag.rstrip('\\n'))"),
    "a fourth extlang is read": (
        "tags", "(?:-[a-z]{3}){1,3}", "(?:-[a-z]{3}){1,4}"),
    "a basic range has a wildcard beside other subtags": (
        "basic-ranges", "[A-Za-z]{1,8}(?:-[A-Za-z0-9]{1,8})*|",
        "[A-Za-z]{1,8}(?:-(?:[A-Za-z0-9]{1,8}|\\*))*|"),
    "a weight has four digits": (
        "fields", "0(?:\\.[0-9]{0,3})?|", "0(?:\\.[0-9]{0,4})?|"),
    "a weight of 1.5 is read": (
        "fields", "1(?:\\.0{0,3})?))?", "1(?:\\.[0-9]{0,3})?))?"),
    "blanks stand around the equals sign": (
        "fields", "[Qq]=(?P", "[Qq][ \\t]*=[ \\t]*(?P"),
    "empty elements are malformed": (
        "fields", "elif element:\n            places.append(place + piece.index(element[0]))",
        "elif element or field:\n            places.append(place)"),
    "de matches deu": (
        "basic-filtering", 'tag.startswith(one + "-")', "tag.startswith(one)"),
    "extended filtering skips a singleton": (
        "extended-filtering", "elif len(given[to]) == 1:  # D", "elif False:  # D"),
    "an inner wildcard is one subtag": (
        "extended-filtering", 'if wanted[at] == "*":  # A\n            at += 1',
        'if wanted[at] == "*" and to == len(given):\n            return False\n'
        '        if wanted[at] == "*":\n            at, to = at + 1, to + 1'),
    "truncation leaves a singleton at the end": (
        "lookup", "while subtags and len(subtags[-1]) == 1 and", "while False and"),
    "truncation removes no more than one singleton": (
        "lookup", "while subtags and len(subtags[-1]) == 1 and",
        "if subtags and len(subtags[-1]) == 1 and"),
    "lookup answers a longer tag": (
        "lookup", "            if text in available and",
        "            text = next((it for it in available if basic_match(text, it)), text)\n"
        "            if text in available and"),
    "lookup tries ranges as written": (
        "lookup", "key=lambda it: -it[1]), key", "key=lambda it: 0), key"),
    "the default comes before the second range": (
        "lookup", "    if default is None or held",
        "        break\n    if default is None or held"),
}


def read(path):
    with open(f"{SUITE}/{path}", encoding="utf-8") as it:
        return it.read()


def shape(vectors, lines):
    """What is wrong with the vectors of a file, each on a line."""
    if len(lines) != len(vectors) + 2:
        yield "a vector is not on a line of its own"
    for it in vectors:
        if not MEMBERS.issuperset(it) or not it.keys() >= {"id", "answer", "section"}:
            yield f"{it.get('id')} has other members"
        elif not SECTION.fullmatch(it["section"]):
            yield f"{it['id']} has the section {it['section']}"


def faults_of_shape(documents):
    found = [f"{name}: {it}" for name, subject, vectors, lines in documents
             for it in shape(vectors, lines)]
    ids = [it["id"] for _, _, vectors, _ in documents for it in vectors]
    found += [f"{it} is there twice" for it in set(ids) if ids.count(it) > 1] \
        if len(set(ids)) < len(ids) else []
    found += [f"{it['id']} is no id of its question" for _, subject, vectors, _ in documents
              for it in vectors if it["id"] != make.id_of(subject, it)]
    if len(ids) < LEAST:
        found.append(f"there are {len(ids)} vectors, and {LEAST} are wanted")
    return found


def faults_of_choices(documents):
    """Each choice is one of choices.json, which cites a section, and admits several answers."""
    choices, cited = json.loads(read("choices.json")), set()
    for name, it in choices.items():
        if not all(SECTION.fullmatch(one) for one in it["section"].split(", ")):
            yield f"{name} cites no section"
    for _, _, vectors, _ in documents:
        for it in vectors:
            names, admits = it.get("choices", []), it.get("admits", [it["answer"]])
            cited.update(names)
            if bool(names) != (len(admits) > 1) or admits[0] != it["answer"]:
                yield f"{it['id']} does not admit just what its choices leave"
            yield from (f"{it['id']} has the choice {one}" for one in names if one not in choices)
    yield from (f"no vector has the choice {it}" for it in choices.keys() - cited)


def faults_of_readme():
    """The page shows a vector that is one, and code that runs."""
    blocks = re.findall(r"^```(\w+)\n(.*?)^```", read("README.md"), re.M | re.S)
    lines = {line.rstrip(",") for _, _, _, lines in documents for line in lines}
    found = [f"it shows another vector: {it}" for kind, text in blocks if kind == "json"
             for it in text.splitlines() if it not in lines]
    asked = []

    def my_lookup(ranges, tags):
        asked.append(ranges)
        return reference.answer("lookup", {"ranges": ranges, "tags": tags})
    os.chdir(SUITE)
    for kind, text in blocks:
        if kind == "python":
            exec(text, {"my_lookup": my_lookup})
    return found or f"its code asks {len(asked)} vectors"


def differing(program, documents):
    """The vectors that a program answers otherwise, also in what it admits."""
    for _, subject, vectors, _ in documents:
        for it in vectors:
            answers, _ = program.admitted(subject, it)
            if answers != it.get("admits", [it["answer"]]):
                yield it["id"]


def codes_of(code):
    """The code of a source and of all its functions."""
    yield code
    for it in code.co_consts:
        if isinstance(it, types.CodeType):
            yield from codes_of(it)


def lines_not_taken():
    """The lines of the second program's functions that no vector takes."""
    whole = compile(read("reference.py"), reference.__file__, "exec")
    left = {it.co_name + str(it.co_firstlineno): {line for _, line in dis.findlinestarts(it)}
            for it in codes_of(whole) if it is not whole}

    def trace(frame, event, _):
        code = frame.f_code
        lines = left.get(code.co_name + str(code.co_firstlineno))
        if code.co_filename != reference.__file__ or not lines:
            return None
        if event in ("call", "line"):
            lines.discard(frame.f_lineno)
        return trace
    sys.settrace(trace)
    try:
        for _, subject, vectors, _ in documents:
            for it in vectors:
                reference.answer(subject, it)
    finally:
        sys.settrace(None)
    return [f"reference.py:{line}" for lines in left.values() for line in sorted(lines)]


def answers_wrongly(vector, subject, program):
    """Whether the answer that a program gives is none that the vector admits."""
    given = program.admitted(subject, vector)[0][0]
    return all(given != it for it in vector.get("admits", [vector["answer"]]))


def found_wrong(name, documents):
    """Which vector first finds a wrong program."""
    source, (subject, sound, wrong) = read("reference.py"), WRONG[name]
    if source.count(sound) != 1:
        return [f"reference.py has {source.count(sound)} times {sound}"]
    program = types.ModuleType("wrong")
    exec(compile(source.replace(sound, wrong), "wrong", "exec"), program.__dict__)
    for _, of, vectors, _ in documents:
        for it in vectors if of == subject else ():
            if answers_wrongly(it, subject, program):
                return f"{it['id']} finds it"
    return ["no vector finds it"]


def imports(source):
    """The modules that a source imports."""
    for it in ast.walk(ast.parse(source)):
        if isinstance(it, ast.Import):
            yield from (one.name for one in it.names)
        elif isinstance(it, ast.ImportFrom):
            yield it.module


documents = [(name, subject, vectors, read(f"vectors/{name}.json").splitlines())
             for name, subject, vectors in run.files()]
total = sum(len(vectors) for _, _, vectors, _ in documents)
tap.report("the form of the vectors", faults_of_shape(documents), f"{total} vectors")
tap.report("each choice cites its section", list(faults_of_choices(documents)))
tap.report("the second program answers all of them so", list(differing(reference, documents)))
tap.report("it imports nothing of the project",
           [it for it in imports(read("reference.py")) if it not in ("itertools", "re")])
tap.check("they take each line of it", lines_not_taken)
tap.check("what the page shows", faults_of_readme)
for name in WRONG:
    tap.check(f"a wrong program is found: {name}", found_wrong, name, documents)
tap.end()
