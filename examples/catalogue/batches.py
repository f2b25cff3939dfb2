"""Batches: what goes to a host in one job, and what comes back. Any of it may come from a broken host."""

import glob
import io
import os
import subprocess
import tarfile
from typing import NamedTuple

from files import OUT, RUN, STALE, Pair, lines, read, sum_of, write

# What a file that can't be read may lead to.
UNREADABLE = (ValueError, KeyError, AttributeError, FileNotFoundError, tarfile.TarError, subprocess.CalledProcessError)


def zstd(data, *words):
    return subprocess.run(["zstd", "-q", *words], input=data, stdout=subprocess.PIPE, check=True).stdout


def tar_of(files):
    data = io.BytesIO()
    with tarfile.open(fileobj=data, mode="w") as tar:
        for name, content in files.items():
            content = content.encode() if isinstance(content, str) else content
            member = tarfile.TarInfo(name)
            member.size = len(content)
            tar.addfile(member, io.BytesIO(content))
    return data.getvalue()


def rows(data):
    return [line.split("\t") for line in data.decode().splitlines()]


class Batch(NamedTuple):
    """The pairs of one job: NAME.in is what a host works from, NAME.out what it planned, NAME.verdict what another host
    found. The name has a kind before it: plan, recheck where files have changed, or renew where the program has."""

    name: str

    def path(self, ending):
        return f"{RUN}/{self.name}.{ending}"

    def has(self, ending):
        return os.path.exists(self.path(ending))

    def is_plan(self):
        return self.name.startswith("plan-")

    def keys(self):
        with tarfile.open(fileobj=io.BytesIO(zstd(read(self.path("in")), "-dc"))) as tar:
            return {Pair(part, machine): key for part, machine, key in rows(tar.extractfile("list").read())}

    def planner(self):
        """The host that planned it, or nothing where that can't be read."""
        try:
            with tarfile.open(self.path("out")) as tar:
                return tar.extractfile("planner").read().decode().strip()
        except UNREADABLE:
            return ""

    def verdicts(self):
        """The checker, the sum of the .out that it checked, and of each pair its status and what it found."""
        (checker, checked), *found = rows(read(self.path("verdict")))
        return checker, checked, {Pair(part, machine): (status, words) for part, machine, status, words in found}

    def remove(self):
        for ending in ("in", "out", "verdict"):
            if self.has(ending):
                os.remove(self.path(ending))


def batches_with(ending):
    return [Batch(os.path.basename(path)[:-len(ending) - 1]) for path in sorted(glob.glob(f"{RUN}/*-*.{ending}"))]


def make_batch(kind, pairs, keys, sources):
    """Writes what a host works from. The name is the sum of the content."""
    data = tar_of({"program": f"{sources.program}  -\n", "list": lines((*pair, keys[pair]) for pair in pairs),
                   **sources.files(pairs)})
    batch = Batch(f"{kind}-{sum_of(data)[:20]}")
    write(batch.path("in"), zstd(data, "-3"))
    return batch


def hand_in(batch, pairs, index):
    """Writes what stands of some pairs as if a host had just planned it."""
    files = {"planner": f"{index[pairs[0]].planner}\n",
             "answers": lines((*pair, index[pair].answer, index[pair].words) for pair in pairs)}
    for pair in pairs:
        top = OUT if pair.stands(OUT) else STALE
        files.update({name: read(f"{top}/{name}") for name in pair.files(top)})
    write(batch.path("out"), tar_of(files))


class Planned:
    """What a host planned: its answers with their words, and its files by name."""

    def __init__(self, tar):
        self.tar, self.files = tar, {member.name: member for member in tar if member.isfile()}
        self.planner = self.read("planner").decode().strip()
        self.answers = {Pair(part, machine): (answer, words)
                        for part, machine, answer, words in rows(self.read("answers"))}

    def read(self, name):
        return self.tar.extractfile(self.files[name]).read()

    def unpack(self, pair, has_setups):
        """Writes the sheet and the certificates of a pair under the names that they may have, and no other file."""
        certs = pair.certs()[1:] if has_setups else pair.certs()[:1]
        for name in (pair.sheet(), *certs):
            if name in self.files:
                write(f"{OUT}/{name}", self.read(name))
