"""Writes the steps of a workflow that run something, a file each, and the variables of all of them.

usage: steps.py WORKFLOW FOLDER    writes FOLDER/01.sh and so on, and FOLDER/env
"""
import os
import shlex
import sys

import yaml

with open(sys.argv[1], encoding="utf-8") as file:
    workflow = yaml.safe_load(file)
folder = sys.argv[2]
os.mkdir(folder)
(job,) = workflow["jobs"].values()
# (YAML takes the key `on` for the value true)
assert workflow[True] == ["push", "pull_request"]
assert workflow["permissions"] == {"contents": "read"}
assert workflow["defaults"] == {"run": {"shell": "bash"}} and "if" not in job
with open(f"{folder}/env", "w", encoding="utf-8") as file:
    for name, value in workflow["env"].items():
        print(f"{name}={shlex.quote(str(value))}", file=file)
checkout, *steps = job["steps"]
assert set(checkout) == {"uses"} and checkout["uses"].startswith("actions/checkout@")
for number, step in enumerate(steps, 1):
    assert set(step) == {"name", "run"} and "${{" not in step["run"], step
    with open(f"{folder}/{number:02}.sh", "w", encoding="utf-8") as file:
        file.write(step["run"])
