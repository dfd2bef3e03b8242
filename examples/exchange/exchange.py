#!/usr/bin/env python3
"""Two sites that edit apart and exchange over queues, of which messages get lost and come twice.

usage: exchange.py [EDITS]      (200 edits a site where no number is given)

Each site runs in a thread of its own and knows the other by a queue alone. Now and then it sends
its summary; to a summary it answers with the delta that the other lacks; a delta it takes. A third
of the messages is lost and a third comes twice. At the end each sends its summary until both hold
the same cells.
"""
import queue
import random
import sys
import threading
import time

from silkwaram import Site

LANGUAGES = ["en", "fr", "de", "ja", "ar"]
MESSAGES = ["greeting", "title", "imprint", "news"]
SECONDS = 60
DAY = 86_400_000  # milliseconds


class Carrier:
    """A queue that loses a third of what is sent, and brings a third twice, until it is repaired."""

    def __init__(self, seed):
        self.queue, self.random, self.is_repaired = queue.Queue(), random.Random(seed), False

    def send(self, kind, text):
        for _ in range(1 if self.is_repaired else self.random.randrange(3)):
            self.queue.put((kind, text))

    def receive(self):
        while not self.queue.empty():
            yield self.queue.get()


def work(site, inbox, outbox, edits, seed):
    """Makes edits, and exchanges meanwhile."""
    chance = random.Random(seed)
    for at in range(edits):
        name, language = chance.choice(MESSAGES), chance.choice(LANGUAGES)
        if chance.random() < 0.1:
            site.delete(name, language)
        else:
            site.put(name, language, f"{name} {at} of {site.status().site}")
        if chance.random() < 0.05:
            outbox.send("summary", site.summary())
        exchange(site, inbox, outbox)


def exchange(site, inbox, outbox):
    """Answers what has come. A time far ahead of the clock is refused."""
    for kind, text in inbox.receive():
        if kind == "summary":
            outbox.send("delta", site.delta_for(text))
        else:
            site.take(text, not_after=time.time_ns() // 1_000_000 + DAY)


def main():
    edits = int(sys.argv[1]) if len(sys.argv) > 1 else 200
    sites = [Site.new("paris"), Site.new("tokyo")]
    boxes = [Carrier(1), Carrier(2)]
    threads = [
        threading.Thread(target=work, args=(sites[at], boxes[at], boxes[1 - at], edits, at))
        for at in (0, 1)
    ]
    for thread in threads:
        thread.start()
    for thread in threads:
        thread.join(SECONDS)
    for at in (0, 1):
        boxes[at].is_repaired = True
    for at in (0, 1):
        boxes[1 - at].send("summary", sites[at].summary())
    for _ in range(2):
        for at in (0, 1):
            exchange(sites[at], boxes[at], boxes[1 - at])
    differences = sites[0].changes(sites[1])
    print(f"{sites[0].status().cells} cells at each site, {len(differences)} differ")
    return 1 if differences else 0


if __name__ == "__main__":
    sys.exit(main())
