#!/usr/bin/env python3
"""Carries what an office edits to others, and theirs to it, by streams of Redis.

usage: streams.py URL SITE OTHER..      as redis://10.0.0.1:6379 oslo.json lima paris

Runs until it is stopped, and may be stopped in any way. SITE is the office's document, which others
edit meanwhile under its lock (silkwaram.edit, lexicat-file). The office has the name of its site,
and reads one stream, `for:NAME`. To each other it sends its summary now and then; to a summary it
answers with the delta that the sender lacks; a delta it takes, and acknowledges when the site is on
the disk. What was read and not acknowledged is read again after a start. What the server loses, up
to all that it has, the next summaries mend.

Whoever writes to the server can edit each label: it needs a password (rediss://:PASSWORD@HOST).
Needed: Debian's redis-server, python3-redis.
"""
import sys
import time

import redis
import silkwaram

DAY = 86_400_000  # milliseconds
MOST = 1000  # messages that wait in a stream; of more the oldest are lost


class Office:
    every = 5  # seconds from one summary to the next

    def __init__(self, url, file, others):
        self.server, self.file, self.others = redis.Redis.from_url(url), file, others
        with silkwaram.edit(file) as site:
            self.name = site.status().site
        self.stream, self.after, self.told = f"for:{self.name}", "0", None

    def work(self):
        """Exchanges until the server is away, or has lost this office's stream."""
        try:
            self.server.xgroup_create(self.stream, "office", id="0", mkstream=True)
        except redis.ResponseError as error:
            if not str(error).startswith("BUSYGROUP"):
                raise
        # What was read and not acknowledged comes first.
        self.after = "0"
        while True:
            if self.told is None or time.monotonic() > self.told + self.every:
                self.tell()
            self.receive()

    def tell(self):
        self.told = time.monotonic()
        with silkwaram.edit(self.file) as site:
            summary = site.summary()
        for other in self.others:
            self.send(other, "summary", summary)

    def send(self, to, kind, document):
        message = {"from": self.name, kind: document}
        self.server.xadd(f"for:{to}", message, maxlen=MOST, approximate=True)

    def receive(self):
        streams, wait = {self.stream: self.after}, int(self.every * 500)
        came = self.server.xreadgroup("office", self.name, streams, count=10, block=wait)
        messages = came[0][1] if came else []
        if not messages:
            self.after = ">"
        for number, message in messages:
            try:
                self.answer(message or {})
            except silkwaram.Refused as refusal:
                print(f"{self.name}: message {number.decode()}: {refusal}", file=sys.stderr)
            self.server.xack(self.stream, "office", number)
            self.server.xdel(self.stream, number)

    def answer(self, message):
        sender = message.get(b"from", b"").decode(errors="replace")
        if b"delta" in message:
            with silkwaram.edit(self.file) as site:
                site.take(message[b"delta"], not_after=time.time_ns() // 1_000_000 + DAY)
        elif b"summary" in message and sender in self.others:
            with silkwaram.edit(self.file) as site:
                delta = site.delta_for(message[b"summary"])
            self.send(sender, "delta", delta)


def serve(office):
    """Exchanges, and waits while the server is away."""
    said = None
    while True:
        try:
            office.work()
        except redis.RedisError as error:
            if str(error) != said:
                said = str(error)
                print(f"{office.name}: {said}", file=sys.stderr)
            time.sleep(office.every / 5)


if __name__ == "__main__":
    if len(sys.argv) < 4:
        sys.exit("usage: streams.py URL SITE OTHER..")
    serve(Office(sys.argv[1], sys.argv[2], sys.argv[3:]))
