"""An office of examples/exchange/streams.py that is killed when it has read a delta and its site is
not yet on the disk: it takes the delta after its next start, though nobody sends anything again.
Then it is sent what is no message, and what it has to refuse.

usage: one_office.py FOLDER
"""
import os
import sys
import time

import silkwaram
from redis_room import Room

STREAM = "for:lima"


def has_read(room, number):
    return room.client.xinfo_groups(STREAM)[0]["last-delivered-id"] == number


def waits_for_lock(file):
    """Whether a program waits for the lock of a file, as the kernel has it."""
    number = f":{os.stat(file + '.lock').st_ino} "
    with open("/proc/locks") as locks:
        return any(" -> " in line and number in line for line in locks)


def is_done(room):
    """All messages were read and acknowledged."""
    group = room.client.xinfo_groups(STREAM)[0]
    last = room.client.xinfo_stream(STREAM)["last-generated-id"]
    return group["last-delivered-id"] == last and group["pending"] == 0


def is_killed_with_a_delta(room, oslo):
    """Kills the office when it has read a delta, and waits for the lock of its site to take it.
    False if it waits to tell its summary, and reads nothing."""
    with silkwaram.edit(room.file("lima")) as held:
        number = room.client.xadd(STREAM, {"from": "oslo", "delta": oslo.delta_for(held.summary())})
        room.wait_for(lambda: waits_for_lock(room.file("lima")), "that it waits for the lock")
        if has_read(room, number):
            pending = room.client.xinfo_groups(STREAM)[0]["pending"]
            room.kill("lima")
            assert pending == 1, "the office acknowledges a delta before its site has it"
            return True
        room.client.xdel(STREAM, number)
    return False


def is_killed_in_the_middle(room, oslo):
    room.start("lima")
    room.wait_for(lambda: room.client.exists("for:oslo"), "the first summary")
    while not is_killed_with_a_delta(room, oslo):
        time.sleep(0.1)
    assert room.site("lima").status().cells == 0, "the killed office has written"
    room.start("lima")
    room.wait_for(lambda: room.site("lima").export() == oslo.export(),
                  "the delta after the next start")
    room.wait_for(lambda: is_done(room), "its acknowledgement")
    assert room.client.xlen(STREAM) == 0, "what was acknowledged is kept"


def is_sent_anything(room, oslo):
    before = room.site("lima").to_bytes()
    summary = silkwaram.Site.new("oslo").summary()
    oslo.put("greeting", "ja", "cut", now=20)
    delta = oslo.delta_for(room.site("lima").summary())
    early = silkwaram.Site.new("oslo")
    early.put("greeting", "en", "far ahead", now=time.time_ns() // 1_000_000 + 10 * 86_400_000)
    far = early.delta_for(room.site("lima").summary())
    for message in (
        {"nothing": "known"},
        {"from": "oslo", "delta": delta[:-20]},
        {"from": "oslo", "delta": delta.replace(b'"to":"lima"', b'"to":"rome"')},
        {"from": "oslo", "delta": b"\xff\x00"},
        {"from": "oslo", "delta": far},
        {"from": "oslo", "delta": summary},
        {"from": "oslo", "summary": "{}"},
        {"from": "mallory", "summary": summary},
        {"from": b"\xff", "summary": summary},
        {"summary": summary},
    ):
        room.client.xadd(STREAM, message)
    room.wait_for(lambda: is_done(room), "the end of what is refused")
    assert room.site("lima").to_bytes() == before, "a refused message has changed the site"
    assert not room.client.exists("for:mallory", "for:", "for:\ufffd"), "a stranger is answered"
    assert room.said().count("refused") == 6, room.said()
    room.client.xadd(STREAM, {"from": "oslo", "delta": delta})
    room.wait_for(lambda: room.site("lima").export() == oslo.export(), "the next delta")


def main(folder):
    with Room(folder, ["lima", "oslo"]) as room:
        oslo = silkwaram.Site.new("oslo")
        oslo.put("greeting", "en", "Hello", now=10)
        is_killed_in_the_middle(room, oslo)
        is_sent_anything(room, oslo)
        print("takes what it had read, and nothing that it refuses")


main(sys.argv[1])
