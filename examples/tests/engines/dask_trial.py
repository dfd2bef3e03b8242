"""Dask over examples/engines: a scheduler and three workers on loopback, of which one is killed by
-9 when a quarter of the parts is merged. All results have to be, byte for byte, those of plain
commands, at each moment at which one is in its place; and bundles those of the command.

usage: dask_trial.py ENGINES FOLDER PLAIN
"""
import contextlib
import glob
import hashlib
import json
import os
import shutil
import subprocess
import sys
import threading
import time

SECONDS = 900  # (in so many it hangs)

# So long no other part is merged than a quarter of them, and those that are begun.
HELD = """#!/bin/sh
while [ "$1" = sync ] && [ ! -e {room}/killed ] &&
    [ "$(ls {folder}/both | grep -c 'json$')" -ge {some} ]
do sleep 0.05; done
exec {lexicat} "$@"
"""


class Watch(threading.Thread):
    """Looks again and again at each result in its place: none may have another size than in the
    end."""

    def __init__(self, folder, plain):
        super().__init__(daemon=True)
        self.half, self.stopped = set(), False
        self.sizes = {}
        for path in glob.glob(f"{plain}/*/*.json"):
            name = os.path.relpath(path, plain)
            self.sizes[f"{folder}/{name}"] = os.path.getsize(path)

    def run(self):
        while not self.stopped:
            for path, size in self.sizes.items():
                with contextlib.suppress(FileNotFoundError):
                    if os.stat(path).st_size != size:
                        self.half.add(path)
            time.sleep(0.01)


def started(room, module, *words):
    with open(f"{room}/said", "ab") as said:
        return subprocess.Popen([sys.executable, "-m", f"distributed.cli.{module}", *words],
                                stdout=said, stderr=said, cwd=room)


def wait_for(holds, running, what):
    end = time.monotonic() + SECONDS
    while not holds():
        for it in running:
            assert it.poll() is None, f"ended too early, with {it.returncode}, before {what}"
        assert time.monotonic() < end, f"too long: {what}"
        time.sleep(0.01)


def hold_back(room, folder, some):
    """Puts a command before lexicat that merges no more than some parts until a worker was
    killed."""
    os.mkdir(f"{room}/bin")
    with open(f"{room}/bin/lexicat", "w") as file:
        file.write(HELD.format(room=room, folder=folder, some=some,
                               lexicat=shutil.which("lexicat")))
    os.chmod(f"{room}/bin/lexicat", 0o755)
    os.environ["PATH"] = f"{room}/bin:{os.environ['PATH']}"


def merged(folder):
    return len(glob.glob(f"{folder}/both/*.json"))


def compare(folder, plain):
    parts = os.listdir(f"{plain}/maps")
    for step in ("begun", "paris", "deltas", "taken", "tokyo", "both", "missing"):
        for part in parts:
            with open(f"{folder}/{step}/{part}", "rb") as it, \
                    open(f"{plain}/{step}/{part}", "rb") as wanted:
                assert it.read() == wanted.read(), f"{step}/{part} differs"
    # Some readers' bundles, as the command gives them.
    for part in parts:
        with open(f"{folder}/bundles/{part}") as it:
            lines = it.read().splitlines()
        assert len(lines) == int(os.environ["READERS"]), f"bundles/{part}: {len(lines)} lines"
        size, total, field = lines[len(part) % 7 + int(part[:2]) % 7].split(" ", 2)
        with open(f"{plain}/both/{part}", "rb") as it:
            site = it.readline()
        words = ["lexicat", "bundle", "--default", "en", field]
        bundle = json.loads(subprocess.run(words, input=site, stdout=subprocess.PIPE,
                                           check=True).stdout)
        text = json.dumps(bundle, ensure_ascii=False, separators=(",", ":")).encode()
        assert (int(size), total) == (len(text), hashlib.sha256(text).hexdigest()), \
            f"bundles/{part}: {field}"
    return len(parts)


def main(engines, folder, plain):
    room = f"{folder}-daemons"
    os.mkdir(room)
    os.environ["DASK_DISTRIBUTED__COMM__TIMEOUTS__CONNECT"] = "300s"
    known = f"{room}/scheduler.json"
    parts = len(os.listdir(f"{folder}/maps"))
    hold_back(room, folder, parts // 4)
    running = [started(room, "dask_scheduler", "--host", "127.0.0.1", "--port", "0",
                       "--dashboard-address", "127.0.0.1:0", "--no-dashboard",
                       "--scheduler-file", known)]
    watch = Watch(folder, plain)
    try:
        wait_for(lambda: os.path.exists(known), running, "a scheduler")
        for name in ("one", "two", "three"):
            running.append(started(room, "dask_worker", "--scheduler-file", known,
                                   "--host", "127.0.0.1", "--nthreads", "1", "--no-nanny",
                                   "--no-dashboard", "--memory-limit", "0", "--name", name,
                                   "--local-directory", f"{room}/{name}"))
        with open(known) as it:
            address = json.load(it)["address"]
        watch.start()
        program = subprocess.Popen([sys.executable, f"{engines}/dask_parts.py", address, folder],
                                   stdout=subprocess.PIPE)
        running.append(program)
        wait_for(lambda: merged(folder) >= parts // 4, running, "a quarter of the parts")
        killed = running.pop(2)
        killed.kill()
        killed.wait()
        done = merged(folder)
        with open(f"{room}/killed", "w"):
            pass
        assert done < parts, "the worker was killed too late"
        said = program.communicate(timeout=SECONDS)[0]
        running.remove(program)
        assert program.returncode == 0 and said == f"{parts} parts\n".encode(), \
            (program.returncode, said)
    except BaseException:
        with open(f"{room}/said") as it:
            print(it.read())
        raise
    finally:
        watch.stopped = True
        for it in reversed(running):
            it.kill()
            it.wait()
    watch.join()
    compared = compare(folder, plain)
    assert not watch.half, f"seen half-written: {sorted(watch.half)[:3]}"
    left = len(glob.glob(f"{folder}/*/*.new"))
    print(f"{compared} parts are as they have to be; killed when {done} were merged, "
          f"{left} halves left under other names")


main(*(os.path.abspath(it) for it in sys.argv[1:]))
