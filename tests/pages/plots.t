#!/usr/bin/env python3
"""Sees that README's plots and the tables beside them are what bench/beside/plots makes of the
figures that are kept.

Each figure that is changed, by one of its last digit that counts, has to change a picture or a
table; so none of these can be of other figures. The pictures are small and take nothing from
elsewhere (guides_text.t sees what else a picture has to have). It measures nothing, and needs
Python alone.
"""
import copy
import importlib.machinery
import importlib.util
import json
import os
import re
import sys

ROOT = os.path.realpath(f"{os.path.dirname(os.path.realpath(__file__))}/../..")
sys.dont_write_bytecode = True
sys.path.insert(0, f"{ROOT}/tests/lib")
import tap  # noqa: E402

loader = importlib.machinery.SourceFileLoader("plots", f"{ROOT}/bench/beside/plots")
plots = importlib.util.module_from_spec(importlib.util.spec_from_loader("plots", loader))
loader.exec_module(plots)

MOST_BYTES = 10_000
ELSEWHERE = re.compile(r"href|url\((?!#)|@import|<(?:script|image|foreignObject)\b")


def places_of(value, *place):
    """The places of the numbers in figures, each as the names and indices that lead to it."""
    if isinstance(value, (dict, list)):
        for name, it in value.items() if isinstance(value, dict) else enumerate(value):
            yield from places_of(it, *place, name)
    elif isinstance(value, (int, float)):
        yield place


def changed(figures, place):
    """The figures with another number at one place, whose third digit differs."""
    figures = copy.deepcopy(figures)
    *above, last = place
    within = figures
    for name in above:
        within = within[name]
    number = within[last]
    within[last] = number + 1 if isinstance(number, int) and number < 100 else number * 1.01
    if isinstance(number, int):
        within[last] = round(within[last])
    return figures


def unseen():
    """The figures that no picture and no table shows."""
    for place in places:
        if plots.drawn(changed(kept, place), page) == drawn:
            yield f"{plots.FIGURES}: {'/'.join(map(str, place))} can be changed"


def faults_of_picture(path):
    text = plots.read(path)
    if len(text.encode()) > MOST_BYTES:
        yield f"{path}: more than {MOST_BYTES} bytes"
    yield from (f"{path}: {it} takes something from elsewhere" for it in ELSEWHERE.findall(text))


kept, page = json.loads(plots.read(plots.FIGURES)), plots.read(plots.PAGE)
drawn = plots.drawn(kept, page)
places = list(places_of(kept))
tap.report("the pictures and the tables are those of the figures",
           [f"{path} is not what bench/beside/plots makes of {plots.FIGURES}"
            for path, text in drawn.items() if plots.read(path) != text])
tap.report("each figure that is changed changes them", list(unseen()), f"{len(places)} figures")
tap.report("the pictures are small, and take nothing from elsewhere",
           [it for path in (plots.TIME, plots.MEMORY) for it in faults_of_picture(path)])
tap.end()
