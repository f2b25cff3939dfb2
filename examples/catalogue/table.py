"""The table of a catalogue's pairs, as CSV and as text."""

import collections
import csv
import io

from files import OUT, STATES, read, say, write

COLUMNS = ("part", "machine", "state", "cost", "setup", "words", "planned by", "checked by")
STATE_ORDER = (*STATES.values(), "open", "fault")


def best_setup(pair):
    """The name of the setup that a sheet of `setups` calls the best."""
    words = [line.split(" ") for line in read(f"{OUT}/{pair.sheet()}").decode().splitlines()]
    best = next(line[1] for line in words if line[0] == "best")
    return next(line[2] for line in words if line[0] == "try" and line[1] == best)


def row_of(update, pair):
    if not update.is_current(pair):
        told = update.faults.get(pair)
        return (*pair, "fault" if told else "open", "", "", told or "", "", "")
    entry = update.index[pair]
    state, cost, setup, words = STATES[entry.answer], "", "", ""
    if state == "planned":
        cost = entry.words.partition(" ")[2]
        setup = best_setup(pair) if pair.machine in update.sources.setups else ""
    if state == "refused":
        words = entry.words
    return (*pair, state, cost, setup, words, entry.planner, entry.checker)


def aligned(rows):
    """The first six columns side by side, with the costs at the right of theirs."""
    widths = [max(len(row[i]) for row in rows) if rows else 0 for i in range(6)]
    for row in rows:
        cells = [cell.rjust(width) if i == 3 else cell.ljust(width) for i, (cell, width) in enumerate(zip(row, widths))]
        yield "  ".join(cells).rstrip() + "\n"


def write_table(update):
    """Writes the table, and gives the number of pairs without an answer."""
    rows = [row_of(update, pair) for pair in sorted(update.keys)]
    text = io.StringIO()
    csv.writer(text, lineterminator="\n").writerows([COLUMNS, *rows])
    write(f"{OUT}/table.csv", text.getvalue())
    counts = collections.Counter(row[2] for row in rows)
    summary = f"{len(rows)} pairs: " + ", ".join(f"{counts[state]} {state}" for state in STATE_ORDER if counts[state])
    write(f"{OUT}/table.txt", "".join([summary, "\n\n", *aligned(rows)]))
    say(f"{summary}; the table is {OUT}/table.txt")
    return counts["open"] + counts["fault"]
