"""Certificates for the cases of this folder: jobs, rows and limits by parts, and the list to which cases are added."""
import checker

CASES = []  # (section, name, text, folder of files or None, what it decides)
TABLES = []  # (section, name, texts of one table or of two that are merged, what it decides)
SECTION = [""]

U = ("web 100000 60000", "north 0 N 0 100000 30000 up", "south 0 S 0 100000 30000 up")
LEG = ("base 100000 50000", "leg 0 N 0 100000 30000 up")
BLOCK = ((-20000, -8000, -60000, 0), (-8000, 8000, -60000, -8000), (8000, 20000, -60000, 0))
GAUGE = (5000, 600000, 5000, 10000, 10000, 20000, 10000, 10000)
PRICES = (100, 20, 30, 60, 80, 40)
OVERLOAD = (2, 1)
FREE = (0, 0)


# ---- certificates ----

def words(*values):
    return " ".join(map(str, values))


def stage(x0=200000, pieces=(100000,), x1=None, punch="P100 100000 6000", punch_boxes=(), die="D16 60000 16000 11000", die_boxes=(), load=OVERLOAD):
    end = x0 + sum(pieces) if x1 is None else x1
    return [
        f"stage {x0} {end}",
        f"punch {punch}", *(f"box {words(*box)}" for box in punch_boxes),
        f"die {die}", *(f"box {words(*box)}" for box in die_boxes),
        f"pieces {words(*pieces)}",
        f"load {words(*load)}",
    ]


def job(faces=LEG, part="S235 2000 2000 1919", bed=(0, 3000000), frames=(), upper=(), lower=(), uncovered=5000, gauge=GAUGE, cost=PRICES, gang=0, force=0, fine=None, stages=None):
    """The lines of a job: by itself that of an L section, on one stage without a box, of which each stroke is refused by its load."""
    return [
        f"part {part}", *(f"face {face}" for face in faces),
        f"bed {words(*bed)}", *(f"frame {words(*frame)}" for frame in frames),
        *(f"upper {words(*box)}" for box in upper), *(f"lower {words(*box)}" for box in lower),
        f"uncovered {uncovered}", f"gauge {words(*gauge)}", f"cost {words(*cost)}", f"gang {gang}", f"force {force}", *([] if fine is None else [f"fine {fine}"]),
        *(line for one in stages or [stage()] for line in one),
    ]


def changed(lines, *changes):
    """The lines with, for each change, the first line that begins with a text in place of it another, or none."""
    lines = list(lines)
    for old, *new in changes:
        at = next(i for i, line in enumerate(lines) if line.startswith(old))
        lines[at:at + 1] = new
    return lines


def text(lines, claim, steps=(), rows=(), version=2):
    """A certificate. A row is its words, and the words of its notes."""
    told = [f"brake-cert {version}", *lines, f"claim {claim}", *(f"step {step}" for step in steps)]
    for row, notes in rows:
        told += [f"row {row}", *(f"x {note}" for note in notes)]
    return "".join(f"{line}\n" for line in [*told, "end"]).encode()


def table(lines, *rows):
    """A table. A row is its words, and the words of its notes."""
    return text(lines, 0, rows=rows).replace(b"brake-cert 2", b"brake-table 1").replace(b"claim 0\n", b"")


def read(lines):
    return checker.Job(checker.Lines("".join(f"{line}\n" for line in lines).encode() + b"\n"), 2)


def actions(one, mask):
    return [f"{b} {'PC'[back]} {s}" for b in one.bends if checker.is_lead(one, mask, b) for back in (0, 1) for s in range(len(one.stages))]


def refused_row(one, mask, key=None, notes=(), without=()):
    """A row of worth none, each of whose actions has the note that is given or else its load, but for some without a note."""
    given = {" ".join(note.split()[:3]): note for note in notes}
    return f"{key or f'{mask} 0 0'} none", [given.get(action, f"{action} 9") for action in actions(one, mask) if action not in without]


def noted(lines, *notes):
    """A certificate that there is no plan, with these notes, each (mask, its words)."""
    lines = list(lines)
    one = read(lines)
    rows = [refused_row(one, 0, notes=[note for mask, note in notes if mask == 0])]
    for mask in sorted({mask for mask, _ in notes if mask != 0}):
        rows.append((f"{mask} 0 0 0", [note for m, note in notes if m == mask]))
    return text(lines, "none", rows=rows)


def stepped(lines, claim, *steps):
    return text(lines, claim, steps)


# ---- the list of cases ----

def section(title):
    SECTION[0] = title


def case(name, certificate, what, files=None):
    assert all(name != other for _, other, _, _, _ in CASES), name
    CASES.append((SECTION[0], name, certificate, files, what))


def table_case(name, what, *tables):
    assert all(name != other for _, other, _, _ in TABLES), name
    TABLES.append((SECTION[0], name, tables, what))


def last_where(holds, low, high):
    """The greatest number from low on for which the test still says what it says of low; it says otherwise of high."""
    wanted = holds(low)
    assert holds(high) != wanted, "no limit"
    step = 1 if high > low else -1
    while abs(high - low) > 1:
        middle = (low + high) // 2
        low, high = (middle, high) if holds(middle) == wanted else (low, middle)
    return low, low + step


def limit(name, make, low, high, what):
    """Two certificates beside one another: the last number at which the answer is that of low, and the next."""
    here, there = last_where(lambda n: checker.check(make(n)), low, high)
    case(f"{name}_at", make(here), what[0])
    case(f"{name}_past", make(there), what[1])
