"""One run over a catalogue: what is to be done, and what is taken over of what hosts told."""

import collections
import os
import tarfile

from batches import UNREADABLE, Planned, batches_with, hand_in, make_batch
from engines import wait
from files import OUT, REFUSED, RUN, STALE, STATES, Entry, read, say, sum_of

FEW = 20  # pairs: a batch is made smaller, so that each place gets one, down to these
ROUNDS = 3


class Update:
    """What is wanted (`keys`), what stands (`index`), and what two hosts didn't tell alike (`faults`)."""

    def __init__(self, sources, index, engine, args):
        self.sources, self.index, self.engine = sources, index, engine
        self.keys, self.faults = sources.keys(), {}
        self.all, self.alone, self.size = args.all, args.alone, args.batch

    def is_current(self, pair):
        return pair in self.index and self.index[pair].key == self.keys[pair]

    def to_recheck(self):
        """The pairs whose files have changed, or all, where sheet and certificate stand as they were accepted."""
        return [pair for pair, entry in self.index.items() if pair in self.keys and entry.answer != REFUSED
                and (self.all or not self.is_current(pair)) and self.index.is_as_accepted(pair)]

    def to_plan(self, others):
        """The pairs without an answer that stands, but for some that are under way."""
        return [pair for pair in self.keys if pair not in others and not (
            self.is_current(pair) and (self.index[pair].answer == REFUSED or pair.stands(OUT) and not self.all))]

    def planned(self):
        """The batches that a broken run had planned, where their keys still are the wanted ones."""
        return [batch for batch in batches_with("out") if batch.is_plan() and batch.has("in") and batch.planner()
                and all(self.keys.get(pair) == key for pair, key in batch.keys().items())]

    def clear(self, gone, planned):
        """Removes what is gone and what earlier runs left, and puts aside what isn't of the files as they are."""
        for pair in gone:
            pair.remove()
            del self.index[pair]
        for pair in self.index:
            if not self.is_current(pair):
                pair.move(OUT, STALE)
        self.index.rewrite()
        kept = {batch.path(ending) for batch in planned for ending in ("in", "out")}
        for path in {f"{RUN}/{name}" for name in os.listdir(RUN)} - kept:
            os.remove(path)

    def make_batches(self, kind, pairs):
        """The pairs are dealt out in turn, so that the batches weigh about the same."""
        size = min(self.size, max(FEW, -(-len(pairs) // self.engine.places)))
        count = -(-len(pairs) // size)
        return {make_batch(kind, pairs[i::count], self.keys, self.sources): pairs[i::count] for i in range(count)}

    def recheck_batches(self, pairs):
        """What stands of some pairs as batches of one planner each, as if they had just been planned."""
        groups = collections.defaultdict(list)
        for pair in pairs:
            entry = self.index[pair]
            groups["recheck" if entry.program == self.sources.program else "renew", entry.planner].append(pair)
        batches = {}
        for (kind, _), its in sorted(groups.items()):
            batches.update(self.make_batches(kind, its))
        for batch, its in batches.items():
            hand_in(batch, its, self.index)
        return list(batches)

    def run(self, command, batches):
        """Has each batch planned or checked, in some rounds for what is still missing."""
        ending = {"plan": "out", "check": "verdict"}[command]
        for _ in range(ROUNDS):
            todo = [batch for batch in batches if not batch.has(ending)]
            planners = {} if command == "plan" or self.alone else {batch: batch.planner() for batch in todo}
            runs = self.engine.start(command, todo, planners, ["alone"] if self.alone else []) if todo else []
            if not runs:
                return
            wait(self.engine, runs, command, lambda: [batch for batch in todo if not batch.has(ending)])

    def check(self, batches):
        self.run("check", batches)
        for batch in batches_with("verdict"):
            self.take_over(batch)

    def take_over(self, batch):
        """Takes over what two hosts told alike. A batch that can't be read is thrown away."""
        try:
            keys = batch.keys()
            checker, checked, verdicts = batch.verdicts()
            with tarfile.open(batch.path("out")) as tar:
                planned = Planned(tar)
                if checked != sum_of(read(batch.path("out"))) or (planned.planner == checker and not self.alone):
                    raise ValueError("it isn't what another host has checked")
                pairs = [pair for pair in verdicts if pair in keys and self.keys.get(pair) == keys[pair]]
                for pair in pairs:
                    status, words = verdicts[pair]
                    if status == planned.answers[pair][0] and status in STATES:
                        self.accept(pair, batch, planned, checker)
                    else:
                        self.reject(pair, batch, f"{words} (planned by {planned.planner}, checked by {checker})")
            self.index.append(pairs)
        except UNREADABLE as fault:
            say(f"a batch that can't be read is thrown away: {fault!r}")
        batch.remove()

    def accept(self, pair, batch, planned, checker):
        answer, words = planned.answers[pair]
        if batch.is_plan():
            pair.remove()
        else:
            pair.move(STALE, OUT)
        if batch.is_plan() and answer != REFUSED:
            planned.unpack(pair, pair.machine in self.sources.setups)
        sheet = "" if answer == REFUSED else sum_of(read(f"{OUT}/{pair.sheet()}"))
        self.index[pair] = Entry(self.keys[pair], answer, words, planned.planner, checker, sheet, self.sources.program)

    def reject(self, pair, batch, told):
        """A pair that was planned is a fault. Of what stood, nothing stands, and it is planned."""
        if batch.is_plan():
            self.faults[pair] = told
            return
        if self.is_current(pair):
            say(f"{pair.machine}/{pair.part}: a certificate that stood is refused: {told}")
        pair.remove()
        self.index.pop(pair, None)
