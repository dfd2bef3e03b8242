#!/usr/bin/env python3
"""Sees that include/silkwaram.h declares what front_c exports: each call with its result, and its
parameters in their order, by kind and name. It reads files and proves nothing, and needs Python
alone.
"""
import json
import os
import re
import subprocess
import sys

HERE = os.path.dirname(os.path.realpath(__file__))
sys.dont_write_bytecode = True
sys.path[:0] = [f"{HERE}/../lib", f"{HERE}/../../tools"]
import tap  # noqa: E402
from rattle_sources import ROOT, read  # noqa: E402

EXPORT = re.compile(r'^pub extern "C" fn (sw_\w+)\(([^)]*)\)(?: -> (\w+))?', re.M)
LIFETIME = re.compile(r"<'\w+>|'\w+ ")
# What the header calls the types of Rattle, and names some of which C++ has for itself.
KINDS = {
    "&[u8]": "text", "&mut [u8]": "room", "&mut SiteHandle": "sw_site", "&mut Told": "sw_told",
    "&Rules": "sw_rules", "&mut Rules": "sw_rules",
    "u32": "uint32_t", "u64": "uint64_t", "usize": "size_t", "i32": "int32_t", "": "void",
}
NAMES = {"default": "dflt", "old": "old_maps", "new": "new_maps"}


def exported():
    """The exports, as tools/calls has the calls of the header."""
    for name, given, result in EXPORT.findall(LIFETIME.sub("", read("crates/front_c/src/lib.rt"))):
        words = [it.strip().split(": ") for it in given.split(",") if it.strip()]
        parameters = [[KINDS[type], NAMES.get(it, it)] for it, type in words if type != "Global"]
        yield name, (KINDS[result], parameters)


def faults():
    """What the header and the exports have otherwise."""
    said = subprocess.run([f"{ROOT}/tools/calls", "json"], check=True, stdout=subprocess.PIPE)
    calls = json.loads(said.stdout)
    declared = {name: (it["result"], it["parameters"]) for name, it in calls.items()}
    exports = dict(exported())
    return [
        f"{it}: the header has {declared.get(it)}, and front_c {exports.get(it)}"
        for it in sorted({*declared, *exports})
        if declared.get(it) != exports.get(it)
    ]


tap.check("the header declares what the library exports", faults)
tap.end()
