"""A step of examples/engines/steps.py that is killed by -9, or fails, in the middle leaves the
result of an earlier run as it was, and a part whose name leads elsewhere is refused. The command
here prints half of something, and then waits, fails or ends well.

usage: halves.py STEPS
"""
import glob
import os
import signal
import subprocess
import sys
import tempfile
import time

HALF = """#!/bin/sh
cat > /dev/null
printf half
while [ -e waits ]; do sleep 0.1; done
if [ ! -e works ]; then exit 3; fi
"""


def is_half_written():
    return any(os.path.getsize(it) for it in glob.glob("begun/*") if it != "begun/a.json")


def main(steps):
    os.chdir(room := tempfile.mkdtemp(dir=os.environ.get("TMPDIR")))
    for folder in ("maps", "begun", "bin"):
        os.mkdir(folder)
    for name, text in (("maps/a.json", "{}"), ("begun/a.json", "whole\n"), ("paris.json", ""),
                       ("waits", ""), ("bin/lexicat", HALF)):
        with open(name, "w") as file:
            file.write(text)
    os.chmod("bin/lexicat", 0o755)
    os.environ["PATH"] = f"{room}/bin:{os.environ['PATH']}"
    words = [sys.executable, steps, "begun", "a.json"]

    killed = subprocess.Popen(words, start_new_session=True)
    end = time.monotonic() + 600
    while (killed.poll() is None and not is_half_written()
           and open("begun/a.json").read() == "whole\n"):
        assert time.monotonic() < end, "nothing was written"
        time.sleep(0.01)
    os.killpg(killed.pid, signal.SIGKILL)
    assert killed.wait() == -signal.SIGKILL, killed.returncode
    assert open("begun/a.json").read() == "whole\n", "a killed step has half of its result in place"

    for left in glob.glob("begun/*.new"):
        os.unlink(left)
    os.unlink("waits")
    failed = subprocess.run(words, stderr=subprocess.PIPE)
    assert failed.returncode == 1 and b"status 3" in failed.stderr, failed
    assert open("begun/a.json").read() == "whole\n", "a failed step has changed its result"
    assert os.listdir("begun") == ["a.json"], "a failed step leaves a file"

    open("works", "w").close()
    for part in ("../maps/a.json", "/etc/passwd", ".", "", "$(touch bad).json",
                 "'; touch bad; '.json"):
        refused = subprocess.run([*words[:-1], part], stderr=subprocess.PIPE)
        assert refused.returncode == 1 and b"Traceback" not in refused.stderr, (part, refused)
    assert not os.path.exists("bad") and os.listdir("maps") == ["a.json"]
    assert open("maps/a.json").read() == "{}", "a part elsewhere is written"
    subprocess.run(words, check=True)
    assert open("begun/a.json").read() == "half", "a step that ends well has no result"
    print("the result of an earlier run stays")


main(os.path.abspath(sys.argv[1]))
