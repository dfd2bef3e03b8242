"""What one check of a crate with mutants said of each function, by the rules of
tools/mutants/try."""
import re

import rattle_kit
from rattle_sources import functions_of, module_of

# A proof file that names what the mutant took away, and so says nothing of the contract. (The first
# two are of one message, whose middle is left out where it is long.)
ONLY_NAMES = re.compile(r"has no field|\(nearest: |is not in scope|has no `|was not admitted")
# How a build says that it ends without a verdict of proof.
NOT_BUILT = "rattle build: nothing was built"
# How the prover says that it gave up, and so knows no more of the goal.
GAVE_UP = "gave up at one of its limits"
# What is said of a function that is not proved, and of one that only calls what is not.
UNPROVED = re.compile(r"fn \S+: (?:not proved|no proof|could not tell)")
WAITS = r"(?:not proved|no proof)[;:] it (?:calls|passes) "
CALLS = re.compile(r"\bit (?:calls|passes) ")


class Said:
    """What one check said, line by line."""

    def __init__(self, crate, texts, ran, left_out):
        self.crate, self.texts, self.is_proved = crate, texts, ran.returncode == 0
        self.left_out = left_out
        lines = ran.stdout.rstrip("\n").split("\n")
        self.lines = [it for it in lines if not it.startswith(NOT_BUILT)]
        unread = [it for it in self.lines if rattle_kit.load_rt().unread(it, texts)]
        has_ended = self.lines[-1].startswith(("logic=not-proved", "only="))
        self.is_judged = self.is_proved or ran.returncode == 1 and has_ended and not unread
        self.unread = unread or self.lines[-3:]

    def is_of(self, mutant):
        """Returns whether the file that could not be read is the one that the mutant changes."""
        return any(it.startswith((f"{mutant.file}:", f"./{mutant.file}:")) for it in self.unread)

    def here(self, mutant):
        """Returns the function whose body the mutant changes, and a pattern of the prover's names
        for it and for what is in it."""
        here = functions_of(self.texts[mutant.file])[mutant.function[0]]
        module = module_of(mutant.file)
        module = f"{module}/" if module else ""
        # (the prover names a method by the module of its type, and a closure below its function)
        owner = here.proved_owner
        of = rf"(?:\w+/)*{owner}/" if owner else module
        below = rf"(?:\w+/)*fn/{owner}/" if owner else f"{module}fn/"
        return here, f"{of}{here.name}|{below}{here.name}/.*"

    def own(self, names):
        """Returns a pattern of how a line on the function begins."""
        return rf"fn {self.crate}::(?:{names.replace('/', '::')}): "

    def name_of(self, mutant):
        """Returns the prover's name for the function, below the crate, if a line has it."""
        own = re.compile(self.own(self.here(mutant)[1]))
        names = [it[0] for it in map(own.match, self.lines) if it]
        return min(names, key=len)[len(f"fn {self.crate}::") : -len(": ")] if names else None

    def verdict(self, mutant):
        """Returns 'refused' with the reason, 'not refused', 'waits' or 'open'."""
        here, names = self.here(mutant)
        proofs = re.compile(rf"(?:\./)?proofs/(?:{names})/\w+\.antt:\d+:\d+: error: (.*)")
        place = re.compile(rf"note: (?:\./)?{re.escape(mutant.file)}:(\d+):\d+: (.*)")
        waits = re.compile(self.own(names) + WAITS)
        proved = re.compile(self.own(names) + "proved")
        reasons = []
        for line in self.lines:
            at = place.match(line)
            if at and here.first <= int(at[1]) <= here.last and "not proved" in at[2]:
                reasons.append(f"{mutant.file}:{at[1]}: {at[2]}")
            at = proofs.match(line)
            if at and not ONLY_NAMES.search(at[1]):
                reasons.append(line)
        if reasons:
            return "refused", min(reasons, key=lambda it: GAVE_UP in it)
        if any(waits.match(it) for it in self.lines):
            return "waits", None
        return ("not refused" if any(proved.match(it) for it in self.lines) else "open"), None

    def has_hole(self, folder):
        """Returns whether the prover says of the proof in this folder just that it has a hole."""
        own = re.compile(rf"(?:\./)?{re.escape(folder)}/Proof\.antt:\d+:\d+: .*has-holes")
        other = re.compile(rf"(?:\./)?{re.escape(folder)}/Proof\.antt:\d+:\d+: error")
        has_own = any(own.match(it) for it in self.lines)
        return has_own and not any(other.match(it) for it in self.lines)

    def strays(self, mutants):
        """Returns the lines on functions that no mutant changes, and that are not proved though
        they call nothing of the kind."""
        changed = [re.compile(self.own(self.here(it)[1])) for it in mutants]
        changed += [re.compile(self.own(it)) for it in self.left_out]
        open_lines = [it for it in self.lines if UNPROVED.match(it) and not CALLS.search(it)]
        return [it for it in open_lines if not any(own.match(it) for own in changed)]
