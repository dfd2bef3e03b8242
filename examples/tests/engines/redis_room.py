"""A redis-server of one's own, which listens at a socket in a folder alone, and offices beside
it."""
import os
import shutil
import subprocess
import sys
import time

import redis
import silkwaram

HERE = os.path.dirname(os.path.abspath(__file__))
STREAMS = os.path.join(HERE, "../../exchange/streams.py")
LOSSY = os.path.join(HERE, "lossy_office.py")
SECONDS = 300  # (in so many it hangs)


class Room:
    def __init__(self, folder, names):
        os.makedirs(f"{folder}/data")
        self.folder, self.names = folder, names
        self.url, self.running, self.process = f"unix://{folder}/socket", {}, None
        for name in names:
            with open(self.file(name), "wb") as file:
                file.write(silkwaram.Site.new(name).to_bytes())

    def __enter__(self):
        self.start_server()
        return self

    def __exit__(self, *_):
        for it in [*self.running.values(), self.process]:
            it.kill()
            it.wait()

    def file(self, name):
        return f"{self.folder}/{name}.json"

    def start_server(self):
        with open(f"{self.folder}/log", "ab") as log:
            self.process = subprocess.Popen(
                ["redis-server", "--port", "0", "--unixsocket", f"{self.folder}/socket", "--dir",
                 f"{self.folder}/data", "--appendonly", "yes", "--save", ""], stdout=log, stderr=log)
        self.client = redis.Redis.from_url(self.url)
        self.wait_for(self.answers, "a server")

    def answers(self):
        try:
            return self.client.ping()
        except redis.RedisError:
            return False

    def kill_server(self, with_data):
        """By -9; and all that it has kept is removed."""
        self.process.kill()
        self.process.wait()
        if with_data:
            shutil.rmtree(f"{self.folder}/data")
            os.mkdir(f"{self.folder}/data")

    def start(self, name, program=STREAMS):
        others = [it for it in self.names if it != name]
        with open(f"{self.folder}/said", "ab") as said:
            words = [sys.executable, program, self.url, self.file(name), *others]
            self.running[name] = subprocess.Popen(words, stderr=said)

    def kill(self, name):
        """By -9. One that has ended by itself is a fault."""
        it = self.running.pop(name)
        assert it.poll() is None, f"{name} has ended with {it.returncode}: {self.said()}"
        it.kill()
        it.wait()

    def said(self):
        with open(f"{self.folder}/said") as it:
            return it.read()[-3000:]

    def wait_for(self, holds, what, seconds=SECONDS):
        end = time.monotonic() + seconds
        while not holds():
            for name, it in self.running.items():
                assert it.poll() is None, f"{name} has ended with {it.returncode}: {self.said()}"
            assert time.monotonic() < end, f"too long: {what}: {self.said()}"
            time.sleep(0.02)

    def site(self, name):
        with open(self.file(name), "rb") as it:
            return silkwaram.Site.open(it.read())
