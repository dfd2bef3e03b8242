"""Five offices that edit apart and exchange over Redis, while a third of the messages is lost and a
third doubled, and offices and the server are killed by -9, once with all that the server has kept.
In the end each has to have what the edits come to: of each label the last writer's, reckoned here.

usage: five_offices.py FOLDER [EDITS]
"""
import os
import random
import sys
import time

import silkwaram
from redis_room import LOSSY, Room

NAMES = ["lima", "oslo", "paris", "quito", "tokyo"]
MESSAGES = ["__proto__", "a'b\"c", "=1+1", "m" * 128, "front-page", "news", "title", "imprint"]
LANGUAGES = ["ar", "de", "en", "fr", "ja"]


class Edits:
    """Edits that are made at the sites, and what they come to."""

    def __init__(self, room, chance):
        self.room, self.chance, self.last = room, chance, {}

    def make(self, name, moment):
        key = self.chance.choice(MESSAGES), self.chance.choice(LANGUAGES)
        text = None if self.chance.random() < 0.2 else f"{name} at {moment}"
        with silkwaram.edit(self.room.file(name)) as site:
            if text is None:
                site.delete(*key, now=moment)
            else:
                site.put(*key, text, now=moment)
        if moment > self.last.get(key, (0, None))[0]:
            self.last[key] = moment, text

    def labels(self):
        found = {}
        for (id, lang), (_, text) in self.last.items():
            if text is not None:
                found.setdefault(id, {})[lang] = text
        return found


def main(folder, count=240):
    chance = random.Random(f"{os.environ['SEED']} offices")
    with Room(folder, NAMES) as room:
        edits = Edits(room, chance)
        # With no carrier at all, by clocks that run apart: not the last to edit wins but the latest
        # time.
        moments = iter(chance.sample(range(1, 1000), 100))
        for name in chance.sample(NAMES, 5):
            for moment in sorted(next(moments) for _ in range(20)):
                edits.make(name, moment)
        for name in NAMES:
            room.start(name, LOSSY)
        for at in range(count):
            # (each time is later than all that the sites have, so that none is moved)
            edits.make(chance.choice(NAMES), 1000 + at)
            time.sleep(0.02)
            if at % 30 == 29:
                if at // 30 in (3, 6):
                    room.kill_server(with_data=at // 30 == 6)
                    time.sleep(0.2)
                    room.start_server()
                else:
                    name = chance.choice(NAMES)
                    room.kill(name)
                    room.start(name, LOSSY)
        wanted = edits.labels()
        room.wait_for(lambda: all(room.site(it).export() == wanted for it in NAMES),
                      "equal sites with what the edits come to")
        first = room.site(NAMES[0])
        room.wait_for(lambda: not any(first.changes(room.site(it)) for it in NAMES), "equal cells")
        sent = sum(room.client.xinfo_stream(f"for:{it}")["entries-added"] for it in NAMES)
        print(f"{len(edits.last)} cells after {count + 100} edits, 6 kills of an office and 2 of the "
              f"server; {sent} messages since the last")


main(sys.argv[1], *map(int, sys.argv[2:]))
