"""An office of examples/exchange/streams.py a third of whose messages is lost, and a third doubled.
Of each SEED and site they are the same ones.

usage: lossy_office.py URL SITE OTHER..
"""
import os
import random
import sys

sys.path.insert(0, os.path.join(os.path.dirname(os.path.abspath(__file__)), "../../exchange"))
import streams  # noqa: E402


class LossyOffice(streams.Office):
    every = 0.3

    def send(self, *message):
        for _ in range(random.randrange(3)):
            super().send(*message)


random.seed(f"{os.environ['SEED']} {os.path.basename(sys.argv[2])}")
streams.serve(LossyOffice(sys.argv[1], sys.argv[2], sys.argv[3:]))
