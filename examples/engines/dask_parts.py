#!/usr/bin/env python3
"""Takes all parts of a catalogue through all steps, by Dask.

    dask_parts.py SCHEDULER FOLDER      as tcp://10.0.0.1:8786; all workers see the folder, there

A task is all steps of a part. What a worker that died had at hand, or had done and nobody has asked
for, is done again by another, which steps.py allows. Needed: Dask (Debian's python3-distributed),
and at each worker what steps.py wants.
"""
import os
import sys

from dask.distributed import Client

import steps


def main(scheduler, folder):
    parts = sorted(os.listdir(f"{folder}/maps"))
    with Client(scheduler) as client:
        client.upload_file(steps.__file__)
        # (not pure: a task of this name that another run has done is of other files)
        folder = os.path.abspath(folder)
        tasks = client.map(steps.whole, parts, folder=folder, retries=3, pure=False)
        print(len(client.gather(tasks)), "parts")


if __name__ == "__main__":
    if len(sys.argv) != 3:
        sys.exit("usage: dask_parts.py SCHEDULER FOLDER")
    main(*sys.argv[1:])
