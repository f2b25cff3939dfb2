"""The files of a catalogue's folder: what answers follow from, and what stands."""

import hashlib
import os
import subprocess
import sys
from typing import NamedTuple

OUT, RUN, STALE = "out", "out/run", "out/stale"
REFUSED = "3"
STATES = {"0": "planned", "1": "no plan", REFUSED: "refused"}  # by the program's status


def say(text):
    print(f"catalogue: {text}", file=sys.stderr, flush=True)


def stop(text):
    say(text)
    sys.exit(70)


def read(path):
    with open(path, "rb") as file:
        return file.read()


def write(path, data):
    """Writes a file anew, all of it or nothing."""
    os.makedirs(os.path.dirname(path), exist_ok=True)
    with open(path + ".new", "wb") as file:
        file.write(data.encode() if isinstance(data, str) else data)
    os.replace(path + ".new", path)


def sum_of(data):
    return hashlib.sha256(data).hexdigest()


def lines(rows):
    """Rows of words as lines with tabs between."""
    return "".join("\t".join(row) + "\n" for row in rows)


class Pair(NamedTuple):
    """A part on a machine."""

    part: str
    machine: str

    def sheet(self):
        return f"sheets/{self.machine}/{self.part}.txt"

    def certs(self):
        """The names that its certificates may have: that of the machine's own stages, and that of each setup."""
        cert = f"certs/{self.machine}/{self.part}.cert"
        return [f"{cert}.zst", *(f"{cert}.{setup}.zst" for setup in range(16))]

    def files(self, top):
        return [name for name in (self.sheet(), *self.certs()) if os.path.exists(f"{top}/{name}")]

    def stands(self, top):
        """Whether its sheet and a certificate are there."""
        return os.path.exists(f"{top}/{self.sheet()}") and any(os.path.exists(f"{top}/{name}") for name in self.certs())

    def move(self, source, target):
        for name in self.files(source):
            os.makedirs(os.path.dirname(f"{target}/{name}"), exist_ok=True)
            os.replace(f"{source}/{name}", f"{target}/{name}")

    def remove(self):
        for top in (OUT, STALE):
            for name in self.files(top):
                os.remove(f"{top}/{name}")


def names(folder):
    """The TOML files of a folder and of those in it, by their paths without the ending. Hidden ones don't count."""
    found = []
    for top, folders, files in os.walk(folder, followlinks=True):
        folders[:] = [name for name in folders if not name.startswith(".")]
        found += [os.path.relpath(os.path.join(top, name), folder)[:-5]
                  for name in files if name.endswith(".toml") and not name.startswith(".")]
    for name in found:
        if any(c < " " or "\ud800" <= c <= "\udfff" for c in name):
            stop(f"a name under {folder} isn't UTF-8 or has a control character: {name!r}")
    return sorted(found)


def has_setups(program):
    """Whether a program has the command: then it refuses these empty files, and doesn't answer with the usage text."""
    words = ["setups", "/dev/null", "/dev/null", "/dev/null", "/dev/null", "/dev/null/cert"]
    return subprocess.run([program, *words], stdout=subprocess.DEVNULL).returncode != 2


class Sources:
    """The files and the program from which all answers follow, each with the sum of its bytes when first read."""

    def __init__(self, program):
        self.sums = {}
        self.program = self.sum(program)
        self.parts, self.machines, self.setups = names("parts"), names("machines"), set(names("setups"))
        for machine in self.setups.difference(self.machines):
            stop(f"there is a setups/{machine}.toml and no machines/{machine}.toml")
        for machine in self.machines:
            if any(other.startswith(f"{machine}/") for other in self.machines):
                stop(f"machines/{machine}.toml has the name of a folder of machines, so sheets could share a name")
        if self.setups and not has_setups(program):
            say(f"the program has no command setups yet; planned on their own stages: {', '.join(sorted(self.setups))}")
            self.setups = set()

    def sum(self, path):
        self.sums[path] = sum_of(read(path))
        return self.sums[path]

    def of_machine(self, machine):
        return [f"machines/{machine}.toml", *([f"setups/{machine}.toml"] if machine in self.setups else [])]

    def keys(self):
        """Each pair with its key, the sum of all from which its answer follows."""
        rest = self.sum("tools.toml") + self.program
        of_machines = {machine: "".join(map(self.sum, self.of_machine(machine))) for machine in self.machines}
        of_parts = {part: self.sum(f"parts/{part}.toml") for part in self.parts}
        return {Pair(part, machine): sum_of(f"{own} {its} {rest}".encode())
                for part, own in of_parts.items() for machine, its in of_machines.items()}

    def files(self, pairs):
        """The files of some pairs, by name. Their bytes are those of the keys."""
        paths = {"tools.toml", *(f"parts/{pair.part}.toml" for pair in pairs)}
        for machine in {pair.machine for pair in pairs}:
            paths.update(self.of_machine(machine))
        files = {path: read(path) for path in sorted(paths)}
        for path, data in files.items():
            if sum_of(data) != self.sums[path]:
                stop(f"{path} has changed since this run began: run it again")
        return files


class Entry(NamedTuple):
    """What stands of a pair: its answer is the program's status, its words are the last line that was printed."""

    key: str
    answer: str
    words: str
    planner: str
    checker: str
    sheet: str  # the sum of the sheet
    program: str  # the sum of the program


NONE = Entry(*[""] * len(Entry._fields))


class Index(dict):
    """The entry of each pair that has an answer. In the file a pair's last line counts; one cut short is none."""

    PATH = f"{OUT}/index.tsv"

    def load(self):
        if not os.path.exists(self.PATH):
            return
        with open(self.PATH, newline="\n", encoding="utf-8") as file:
            for line in file:
                part, machine, *rest = line[:-1].split("\t")
                if line.endswith("\n") and len(rest) == len(NONE):
                    self[Pair(part, machine)] = Entry(*rest)
        for pair in [pair for pair, entry in self.items() if entry == NONE]:
            del self[pair]

    def append(self, pairs):
        with open(self.PATH, "a", newline="", encoding="utf-8") as file:
            file.write(lines((*pair, *self.get(pair, NONE)) for pair in pairs))

    def rewrite(self):
        write(self.PATH, lines((*pair, *entry) for pair, entry in sorted(self.items())))

    def is_as_accepted(self, pair):
        top = OUT if pair.stands(OUT) else STALE
        return pair.stands(top) and sum_of(read(f"{top}/{pair.sheet()}")) == self[pair].sheet
