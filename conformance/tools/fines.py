"""Cases of fine covers: the line of the depth, and pieces that are looked at by their halves."""
from certs import BLOCK, FREE, U, case, changed, job, noted, read, refused_row, section, stage, text
from meetings import doubled, hooks

# what decides; direction of a hook, side at the back, whether the obstacle is a lower one, box, quarter, the obstacle, depth, and changes
HALVES = (
    ("at depth 2 each quarter of the piece is clear, and at depth 1 a half isn't", "down", "P", True, 2, 4, (24033, 41857, -3987, 0), 2, None),
    ("one micrometre more: one quarter isn't clear", "down", "P", True, 2, 4, (24033, 41857, -3988, 0), 2, None),
    ("the same at depth 1: one half isn't clear", "down", "P", True, 2, 4, (24033, 41857, -3988, 0), 1, None),
    ("and at depth 3 it's free", "down", "P", True, 2, 4, (24033, 41857, -3988, 0), 3, None),
    ("the side in z is the longer one, so z is cut", "up", "C", False, 1, 1, (-15516, -3000, 2753, 60228), 2, None),
    ("one micrometre more, and m is a floor", "up", "C", False, 1, 1, (-15516, -3000, 2753, 60229), 2, None),
    ("the upper half begins where the lower one ends", "down", "C", True, 2, 4, (-25424, 2833, -77111, -52129), 2, None),
    ("m is a floor below zero too", "down", "C", False, 1, 4, (-88188, -59494, 26204, 66660), 2, None),
    ("a square piece, Q = t: of two equal sides y is cut", "down", "P", False, 13, 4, (26111, 52276, 41036, 90437), 1, (("part", "part S235 2000 2000 2000"),)),
    ("m of a piece in quarter 2 is a floor, here of an odd sum below zero", "up", "P", False, 2, 2, (-25724, -11916, 46549, 81545), 1, (("face lip", "face lip 1 N 0 100000 99999 up"),)),
    ("a piece in quarter 3 with an odd sum", "down", "P", True, 2, 3, (31945, 74228, -35871, -2300), 1, (("face lip", "face lip 1 N 0 100000 99999 down"),)),
)


def lines():
    section("Fine covers: the line of the depth")
    plain = job()
    one = read(plain)
    good = lambda lines, **parts: text(lines, "none", rows=[refused_row(one, 0)], **parts)
    for name, lines, what in (
        ("fine_1", job(fine=1), "D from 1"), ("fine_12", job(fine=12), "to 12"), ("fine_0", job(fine=0), "`fine 0` makes no valid job: a depth of 0 has no line"),
        ("fine_13", job(fine=13), "nor does 13"), ("fine_minus", job(fine=-1), "nor a depth below 0"), ("fine_zero_first", job(fine="01"), "D has one spelling"),
        ("fine_no_word", job(fine=""), "one word"), ("fine_two_words", job(fine="1 1"), "and not two"),
        ("fine_twice", changed(plain, ("force", "force 0", "fine 1", "fine 1")), "one line"),
        ("fine_before_force", changed(plain, ("force", "fine 1", "force 0")), "directly behind the force"),
        ("fine_before_gang", changed(plain, ("gang", "fine 1", "gang 0")), "and nowhere else"),
        ("fine_behind_stage", [*plain, "fine 1"], "also not behind the stages"),
    ):
        case(name, good(lines), what)
    old = [line for line in job(fine=1, stages=[stage(load=(0, 0))]) if line.split()[0] not in ("gang", "force", "load")]
    case("version_1_fine", text(old, "none", version=1), "version 1 has no line of the depth")


def halves():
    section("Fine covers: pieces by their halves")
    for number, (what, direction, back, lower, box, quarter, r, depth, changes) in enumerate(HALVES, 1):
        lines = changed(hooks(direction, [r], lower), ("force", "force 0", f"fine {depth}"))
        if changes:
            lines = changed(lines, *changes)
        case(f"halves_{number}", noted(lines, (3, f"3 {back} 0 {6 if lower else 4} {box} {quarter} 0")), f"reason {6 if lower else 4}: {what}")
    for number, (lengths, back, front, box, quarter, other, depth, what) in enumerate(SELF, 1):
        for d in (depth, depth - 1):
            lines = doubled(lengths, back, front)
            if d:
                lines = changed(lines, ("force", "force 0", f"fine {d}"))
            case(f"halves_self_{number}_depth_{d}", noted(lines, (27, f"3 P 0 7 {box} {quarter} {other}")), f"reason 7: {what}, at depth {d}")
    noses()
    high()


# lengths and directions of a doubled part, box, quarter, other box, depth
SELF = (
    ((73500, 35500, 47000, 62500, 84000), "down", "up", 1, 4, 5, 1, "the halves turn by a fourth"),
    ((11000, 64500, 14500, 33000, 71000), "down", "down", 0, 4, 5, 1, "the piece is free by its halves"),
    ((61500, 83500, 67000, 40500, 17000), "up", "up", 2, 1, 4, 3, "free by its eighths"),
)


def noses():
    """An upright wall in quarter 2 of which each half would be clear of the nose by itself, in another way each."""
    for depth in (0, 1):
        lines = job(("web 100000 60000", "north 0 N 0 100000 40000 up", "lip 1 N 0 100000 90000 up", "drop 2 N 0 100000 20000 up", "south 0 S 0 100000 30000 up"), fine=depth or None, stages=[stage(punch="P100 1000000 27000", die="D16 60000 16000 0")])
        case(f"halves_nose_{depth}", noted(lines, (7, "4 P 0 5 3 2 0")), f"a nose is tested by the whole piece's cover, at depth {depth}")


def high():
    """A corner that hangs deeper than the sheet is thick, of which an upper half doesn't, over a sunk box that this half alone meets."""
    for depth in (0, 2, 3):
        lines = job(("web 100000 60000", "north 0 N 0 100000 30000 down", "south 0 S 0 100000 30000 up"), "S235 2000 2000 2500", fine=depth or None, stages=[stage(die="D16 60000 16000 0", die_boxes=[(24169, 54169, -20000, 0)])])
        case(f"halves_high_{depth}", noted(lines, (1, "2 P 0 6 13 4 0")), f"it is the whole piece that doesn't lie high, and so it's tested, at depth {depth}")


def files():
    section("Fine covers: with the files")
    lines = job(U, upper=[(0, 3000000, -60000, 60000, 0, 300000)], lower=[(0, 3000000, -30000, 30000, -300000, 0)], stages=[stage(load=FREE, punch_boxes=[(-6000, 6000, 6000, 100000)], die_boxes=BLOCK)])
    steps = ["2 P 0 1 1", "1 C 0 1 1"]
    proof = [("0 0 0 200", []), ("1 0 0 130", ["2 P 0 8"]), ("2 0 0 100", [])]
    deep = lambda depth: text(changed(lines, ("force", "force 0", f"fine {depth}")), "200", steps, proof)
    case("files_fine", deep(2), "a certificate of the files' depth", "fine")
    case("files_other_depth", deep(1), "one of another depth is of another job, also where no answer differs", "fine")
    case("files_no_depth", text(lines, "200", steps, proof), "so is one of depth 0", "fine")
    case("files_depth_0", deep(2), "and one of depth 2 where the files say nothing", "u_channel")


def all_cases():
    for cases in (lines, halves, files):
        cases()
