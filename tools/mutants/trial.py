"""The trial of one crate's mutants in rounds, by the rules of tools/mutants/try."""
import collections
import functools
import itertools
import os
import shutil
import subprocess
import tempfile
import time
from concurrent.futures import ThreadPoolExecutor

import rattle_kit
import record
from said import GAVE_UP, Said
from texts import holes_of, left_out_of, texts_of_mutant, texts_with

rt = rattle_kit.load_rt()
# (the kit's own reader of a mutant knows no `fn:`)
rt.read_edit = texts_of_mutant


class TimeIsOver(Exception):
    """No check is begun any more."""


class Trial:
    """The trial of one crate's mutants, over work of its own that is kept from check to check."""

    def __init__(self, crate, mutants, kept, lanes, clock, is_from_nothing, record):
        self.crate, self.mutants, self.kept, self.lanes = crate, mutants, kept, lanes
        self.is_from_nothing, self.clock, self.record = is_from_nothing, clock, record
        self.passed, self.failed, self.rounds, self.tried_alone = 0, 0, 0, 0
        self.at_a_limit, self.by_record, self.left = 0, 0, []
        self.seconds, self.names, self.is_in_doubt = [], {}, False

    def say(self, text):
        """Prints a line of the crate."""
        print(f"mutants: {self.crate.name}{text}", flush=True)

    def report(self, mutant, is_refused, why, after=""):
        """Counts the verdict on a mutant, prints it, and notes it in the record if it is what it
        must be."""
        verdict = record.verdict_of(is_refused, GAVE_UP in why)
        is_well = is_refused != mutant.is_admitted
        self.passed, self.failed = self.passed + is_well, self.failed + (not is_well)
        self.at_a_limit += verdict == record.AT_A_LIMIT
        wanted = ", as it must be" if is_well else ": FAILED"
        self.say(f"/{mutant.name}: {verdict}{wanted}{after}: {why[:180]}")
        if self.record and is_well and verdict != record.AT_A_LIMIT:
            self.record.note(self.crate, mutant)

    def take_record(self, first, count):
        """Counts the mutants that the record has, and leaves the others to be tried, and those
        whose turn it is, by the place of the crate's first one among so many. The libraries below
        the crate have to be built."""
        new, due = [], []
        for place, it in enumerate(self.mutants, first):
            if not self.record.has(self.crate, it):
                new.append(it)
            elif self.record.is_due(place, count):
                due.append(it)
            else:
                self.by_record, self.passed = self.by_record + 1, self.passed + 1
                self.record.note(self.crate, it)
        self.mutants = new + due

    def check(self, texts, names=(), left_out={}):
        """Checks the crate with these texts in place of its own, or of it the functions that are
        named and what they call: once more, if the first check was ended from outside, as where
        memory runs out."""
        only = [word for name in names for word in ("--only", name)]
        check = rt.checked if only else functools.partial(built, left_out)
        flags = lambda jobs: ["--jobs", jobs, *only]
        call = self.timed(lambda jobs: check(self.crate, texts, flags(jobs), self.kept))
        ran = self.lanes.run(len(self.mutants), call)
        if ran.returncode not in (0, 1):
            self.say(f": a check ended with status {ran.returncode}, and is run once more")
            ran = self.lanes.run(len(self.mutants), call)
        return Said(self.crate.name, texts, ran, [it[len("proofs/") :] for it in left_out])

    def timed(self, call):
        """Returns the call so that its seconds are added up, each as often as it has jobs."""

        def timed_call(jobs):
            start = time.time()
            try:
                return call(jobs)
            finally:
                self.seconds.append((time.time() - start) * int(jobs))

        return timed_call

    def run(self):
        """Tries the mutants in rounds, and then those that no round could judge. Those that are not
        judged when the time is over are left."""
        queues = collections.OrderedDict()
        alone = [it for it in self.mutants if not it.function]
        for it in sorted(self.mutants, key=lambda it: not it.is_admitted):
            if it.function:
                queues.setdefault(it.key(), collections.deque()).append(it)
        try:
            while any(queues.values()):
                alone += self.one_round(queues)
            if (alone or self.is_in_doubt) and not self.check({}).is_proved:
                self.failed += 1
                self.say(": FAILED: the crate is not proved over the work that these checks kept")
                return
        except TimeIsOver:
            self.left = [*itertools.chain(*queues.values()), *alone]
            return
        with ThreadPoolExecutor(8) as pool:
            list(pool.map(self.one_alone, alone))

    def one_round(self, queues):
        """Tries the first mutant of each queue together, takes out those that are judged, and
        returns those to be tried alone."""
        chosen = list(filter(None, queues.values()))
        mutants = [it[0] for it in chosen]
        start, self.rounds = time.time(), self.rounds + 1
        said = self.said_of(mutants)
        if self.clock:
            self.clock.read(self.kept, start)
        if said.is_judged:
            counts, alone, unread = *self.judge(chosen, said), None
        else:
            unread = [it for it in chosen if said.is_of(it[0])] or chosen
            counts, alone = collections.Counter(), [it.popleft() for it in unread]
        self.say(
            f": round {self.rounds}: {len(chosen)} mutants, {counts['refused']} refused,"
            f" {counts['waits']} wait, {len(alone)} to be tried alone; {time.time() - start:.0f} s"
        )
        if unread:
            self.say(f": round {self.rounds} could not be judged: {said.unread[0][:300]}")
        for line in said.strays(mutants) if said.is_judged else []:
            self.is_in_doubt = True
            self.say(f": no mutant changes this function: {line[:200]}")
        return alone

    def said_of(self, mutants):
        """Checks the crate with these mutants, and returns what the check said. Beside an `rt ci`
        the first round leaves out what no mutant changes, and all is checked where that does not
        fit."""
        names = [self.names.get(it.key()) for it in mutants]
        names = names if all(names) else ()
        # (a later round proves what its functions call)
        is_first = self.rounds == 1 and self.is_from_nothing
        left_out = left_out_of(self.crate, mutants) if is_first else []
        texts = texts_with(self.crate, mutants, left_out)
        said = self.check(texts, names, holes_of(self.crate, left_out))
        unfit = [it.place for it in left_out if not said.has_hole(it.place)]
        if unfit or left_out and not said.is_judged:
            self.say(f": what is left out does not fit: {' '.join(unfit or said.unread)[:300]}")
            said = self.check(texts_with(self.crate, mutants), names)
        return said

    def judge(self, chosen, said):
        """Takes the mutants of a round from their queues, and returns how many have each verdict,
        and those to be tried alone. What waits stays in its queue, unless all wait."""
        for queue in chosen:
            self.names.setdefault(queue[0].key(), said.name_of(queue[0]))
        verdicts, alone = [(it, *said.verdict(it[0])) for it in chosen], []
        is_stuck = all(verdict == "waits" for _, verdict, _ in verdicts)
        for queue, verdict, why in verdicts:
            if verdict == "refused":
                after = self.clock.after(said.name_of(queue[0])) if self.clock else ""
                self.report(queue.popleft(), True, why, after)
            elif verdict == "not refused" and queue[0].is_admitted:
                proved = f"the function is proved in round {self.rounds}"
                self.report(queue.popleft(), False, proved)
            elif verdict != "waits" or is_stuck:
                alone.append(queue.popleft())
        return collections.Counter(verdict for _, verdict, _ in verdicts), alone

    def one_alone(self, mutant):
        """Tries a mutant by the kit's own function, over a copy of the kept work."""
        with tempfile.TemporaryDirectory(prefix="mutants-alone-") as room:
            kept = f"{room}/kept"
            copy_kept(self.kept, kept)
            try_it = lambda jobs: rt.must_fail(self.crate, mutant.path, ["--jobs", jobs], kept)
            call = self.timed(try_it)
            try:
                is_refused, text = self.one_verdict(call)
                if is_refused is None:
                    self.say(f"/{mutant.name}: is tried once more: {text}")
                    is_refused, text = self.one_verdict(call)
            except TimeIsOver:
                self.left.append(mutant)
                return
        self.tried_alone += 1
        # (where the prover meets a limit of its own there is no verdict)
        if is_refused is None:
            self.failed += 1
            self.say(f"/{mutant.name}: FAILED: {text}")
        else:
            self.report(mutant, is_refused, f"tried alone: {text.partition('.edit: ')[2]}")

    def one_verdict(self, call):
        """Returns whether the kit's own trial refuses the mutant, or None where it came to no
        verdict, and what it says. The earlier kit answers with a bool, of which False may be
        either."""
        came_to, text = self.lanes.run(len(self.mutants), call)
        if isinstance(came_to, bool):
            return (came_to if came_to or "NOT REFUSED" in text else None), text
        return {rt.REFUSED: True, rt.MISSED: False}.get(came_to), text


class Clock:
    """How long the prover took for each function in a check of one job. It writes a file of each
    module when it is done with it, those of one function after another, so the time between two
    files is that of the second."""

    def __init__(self):
        self.of_files = []

    def read(self, kept, start):
        """Reads the times of the files that were written since."""
        paths = (f"{folder}/{it}" for folder, _, files in os.walk(kept) for it in files)
        times = sorted((os.stat(it).st_mtime, os.path.basename(it)) for it in paths)
        times = [it for it in times if it[0] > start]
        # (after this file it reads the libraries again, for those that are not proved)
        after = [(one, two) for one, two in zip(times, times[1:]) if one[1] != "judged"]
        self.of_files = [(two[1], two[0] - one[0]) for one, two in after]

    def after(self, name):
        """Returns the seconds of a function, for a line of its mutant."""
        if not name:
            return ""
        own = f"-proofs.{name.replace('::', '.')}."
        return f", after {sum(it for file, it in self.of_files if own in file):.1f} s"


def built(left_out, crate, texts, flags, kept):
    """Checks a copy of the crate as `rt.checked` does, by a build, which takes no `--only`. It says
    of each function what a check says; but where one is not proved a check runs the prover once
    more, to print the proof files that it offers."""
    with tempfile.TemporaryDirectory(prefix="mutants-build-") as room:
        for part in rt.rtlib.PARTS:
            if os.path.isdir(f"{crate.folder}/{part}"):
                shutil.copytree(f"{crate.folder}/{part}", f"{room}/{part}")
        for path, text in texts.items():
            with open(f"{room}/{path}", "w", encoding="utf-8") as it:
                it.write(text)
        for folder, text in left_out.items():
            os.makedirs(f"{room}/{folder}", exist_ok=True)
            for it in os.scandir(f"{room}/{folder}"):
                if it.is_file():
                    os.remove(it)
            with open(f"{room}/{folder}/Proof.antt", "w", encoding="utf-8") as it:
                it.write(text)
        words = ["build", *crate.words(flags, keeps=False), "--incremental", kept]
        if not crate.makes_rlib():
            words += ["--toolchain", f"{rt.KIT}/toolchain"]
        whole = [*rt.rtlib.guarded(), rt.rtlib.RATTLE, *words, "-o", f"{room}/built"]
        how = {"stdin": subprocess.DEVNULL, "stdout": subprocess.PIPE, "stderr": subprocess.STDOUT}
        return subprocess.run(whole, cwd=room, errors="replace", **how)


def copy_kept(old, new):
    """Copies kept work, by links where the file system has them: the prover replaces its files,
    and writes none in place."""
    if subprocess.run(["cp", "-al", old, new], stderr=subprocess.DEVNULL).returncode:
        subprocess.run(["cp", "-a", old, new], check=True)
