"""Cases of the reasons 1, 2, 3 and 9, of where a part lies along the bed, and of the order of reasons."""
from certs import FREE, LEG, OVERLOAD, U, case, changed, job, limit, noted, section, stage, stepped


def both(name, make, low, high, what, note, free=None):
    """Four certificates at one limit: a note of the reason that doesn't hold and one that does, and a step that is free and one that is hit."""
    limit(name, lambda n: noted(make(n, (2, 1)), (0, note)), low, high, (f"{what}: at the limit it doesn't hold", "one past it does"))
    if free:
        limit(f"{name}_step", lambda n: stepped(make(n, FREE), 100, free), low, high, ("a step there is free of it", "and one past it is hit"))


def spans():
    section("Reason 1: is the bend covered")
    def of_length(n, load=(2, 1), **parts):
        return job((f"base {n} 50000", f"leg 0 N 0 {n} 30000 up"), stages=[stage(load=load)], **parts)
    both("span", of_length, 100000, 120000, "the span is longer than the stage and twice U", "1 C 0 1", "1 C 0 1 1")
    both("span_without_u", lambda n, load: of_length(n, load, uncovered=0), 90000, 120000, "the same with U = 0", "1 C 0 1")
    gap = lambda n, load: job((f"base {n} 50000", "one 0 N 0 20000 30000 up", f"two 0 N {n - 20000} 20000 30000 up"), stages=[stage(load=load)], gang=1)
    both("span_of_a_gang", gap, 100000, 120000, "the span of a gang runs from its first line to its last, gaps included", "1 C 0 1")
    case("span_of_one_of_a_gang", noted(gap(110001, (2, 1)), (2, "1 C 0 1")), "with bend 2 folded the group is bend 1 alone, and its line is short")
    short = lambda n, load: job((f"base {n} 50000", f"leg 0 N 0 {n} 30000 up", "a 1 E 2000 20000 20000 up", "b 1 W 2000 20000 20000 up"), stages=[stage(load=load)])
    both("span_of_a_core", short, 100000, 120000, "the line runs over the child's core, which loses Q at its E and W sides", "1 C 0 1")
    mid = lambda n, load: job((f"base 200000 50000", f"leg 0 N 30000 {n} 30000 up"), stages=[stage(load=load)])
    both("span_of_a_narrow_flange", mid, 100000, 120000, "it is the child's line and not the parent's side", "1 C 0 1")


def rests():
    section("Reason 2: is there rest on the die")
    for name, note, faces, low, high, what in (
        ("rest_child_back", "1 C 0 2 B", lambda n: ("base 100000 50000", f"leg 0 N 0 100000 {n} up"), 30000, 5000, "the child's core is shorter than LEAST; `C` has it in the back half"),
        ("rest_child_front", "1 P 0 2 F", lambda n: ("base 100000 50000", f"leg 0 N 0 100000 {n} up"), 30000, 5000, "`P` has it in the front half"),
        ("rest_parent_front", "1 C 0 2 F", lambda n: (f"base 100000 {n}", "leg 0 N 0 100000 30000 up"), 50000, 5000, "the parent's core across a side N is its length"),
        ("rest_parent_back", "1 P 0 2 B", lambda n: (f"base 100000 {n}", "leg 0 N 0 100000 30000 up"), 50000, 5000, "with `P` it lies in the back half"),
        ("rest_parent_S", "1 C 0 2 F", lambda n: (f"base 100000 {n}", "leg 0 S 0 100000 30000 up"), 50000, 5000, "so across a side S"),
        ("rest_parent_E", "1 C 0 2 F", lambda n: (f"base {n} 50000", "leg 0 E 0 50000 30000 up"), 50000, 5000, "across a side E its width"),
        ("rest_parent_W", "1 C 0 2 F", lambda n: (f"base {n} 50000", "leg 0 W 0 50000 30000 up"), 50000, 5000, "so across a side W"),
        ("rest_core_of_two_sides", "1 C 0 2 F", lambda n: (f"base 100000 {n}", "leg 0 N 0 100000 30000 up", "foot 0 S 0 100000 30000 up"), 50000, 5000, "of the core, which loses Q at both sides"),
        ("rest_child_lip", "1 C 0 2 B", lambda n: ("base 100000 50000", f"leg 0 N 0 100000 {n} up", "lip 1 N 0 100000 30000 up"), 50000, 5000, "so of a child with a lip"),
    ):
        both(name, lambda n, load, faces=faces: job(faces(n), stages=[stage(load=load)]), low, high, what, note)
    either = job(("base 100000 50000", "leg 0 N 0 100000 10000 up"), stages=[stage(load=FREE)])
    case("rest_first", stepped(changed(either, ("face base", "face base 100000 10000")), 100, "1 C 0 1 1"), "both halves lack rest: B is told before F")
    case("rest_other_half", noted(job(("base 100000 50000", "leg 0 N 0 100000 10000 up")), (0, "1 C 0 2 F")), "the child is short, and the parent isn't: `2 F` doesn't hold with `C`")
    case("rest_other_half_back", noted(job(("base 100000 50000", "leg 0 N 0 100000 10000 up")), (0, "1 P 0 2 B")), "nor `2 B` with `P`")
    gang = ("web 100000 60000", "one 0 N 0 40000 30000 up", "two 0 N 50000 40000 10000 up")
    case("rest_in_a_gang", noted(job(gang, gang=1), (0, "1 C 0 2 B")), "one short child of a gang is enough")
    case("rest_without_gangs", noted(job(gang), (0, "1 C 0 2 B")), "without gangs bend 1 is bent alone, and its child isn't short")
    two = [stage(), stage(x0=400000, die="D16 60000 16000 29000")]
    case("rest_of_the_stage", noted(job(stages=two), (0, "1 C 1 2 B")), "LEAST is that of the stage in use")
    case("rest_of_another_stage", noted(job(stages=two), (0, "1 C 0 2 B")), "and not that of another")


def frames():
    section("Reason 3: side frames")
    for name, make, low, high, note, what in (
        ("frame_before", lambda n, load: job(frames=[(0, n)], stages=[stage(load=load)]), 100000, 250000, "1 C 0 3 0", "a frame that ends where a box begins, at x = 200,000"),
        ("frame_behind", lambda n, load: job(frames=[(n, 900000)], stages=[stage(load=load)]), 400000, 250000, "1 C 0 3 0", "one that begins where the box ends"),
        ("frame_last", lambda n, load: job(frames=[(0, 1), (2, 3), (0, n)], stages=[stage(load=load)]), 100000, 250000, "1 C 0 3 1", "the last of several"),
    ):
        both(name, make, low, high, what, note, "1 C 0 1 1" if note.endswith("0") else None)
    folded = lambda n, load: job(U, frames=[(0, n)], stages=[stage(load=load)])
    limit("frame_corner", lambda n: noted(folded(n, (2, 1)), (1, "2 P 0 3 13")), 100000, 250000, ("the corner of a folded bend has a box too, 13 for bend 1", "which a frame meets"))
    case("frame_no_corner", noted(folded(250000, (2, 1)), (1, "2 P 0 3 14")), "bend 2 is flat there, and has no corner")
    side = lambda n: job(("web 100000 60000", "east 0 E 5000 50000 30000 up", "south 0 S 5000 90000 30000 up"), frames=[(n, 900000)])
    limit("frame_corner_across", lambda n: noted(side(n), (1, "2 P 0 3 13")), 400000, 250000, ("the corner of a flange on the side E reaches to the outside edge of the parent", "which a frame meets"))
    lipped = lambda n: job(("web 100000 60000", "north 0 N 0 100000 30000 up", "lip 1 E 2000 20000 20000 up", "south 0 S 0 100000 30000 up"), frames=[(n, 900000)])
    limit("frame_corner_of_a_core", lambda n: noted(lipped(n), (1, "3 P 0 3 13")), 400000, 250000, ("a corner is as long as its bend's line, which ends Q earlier where the child's E side is bent", "and a frame meets it"))
    tabs = lambda n: job(("web 100000 60000", "one 0 N 0 30000 30000 up", "two 0 N 50000 40000 30000 up"), frames=[(0, n)], gang=1)
    limit("frame_gang", lambda n: noted(tabs(n), (0, "1 C 0 3 1")), 100000, 250000, ("the span of a gang lies in the middle of its stage, and not its lead's line", "seen by a frame"))
    for name, n, what in (("even", 100000, "as long as the stage"), ("longer_by_1", 100001, "longer by 1: xs is X0 - 1, as the floor of -1/2"), ("longer_by_2", 100002, "by 2: X0 - 1"), ("longer_by_3", 100003, "by 3: X0 - 2"), ("shorter_by_1", 99999, "shorter by 1: X0"), ("shorter_by_2", 99998, "by 2: X0 + 1")):
        make = lambda x, n=n: noted(job((f"base {n} 50000", f"leg 0 N 0 {n} 30000 up"), frames=[(0, x)]), (0, "1 C 0 3 0"))
        limit(f"centred_{name}", make, 100000, 250000, (f"the span in the middle of its stage, {what}", "seen by a frame"))
    for side, direction, back, low_end in (("N", "up", "C", True), ("N", "up", "P", False), ("N", "down", "C", False), ("N", "down", "P", True), ("S", "up", "C", True), ("E", "up", "C", True), ("W", "down", "C", False), ("E", "down", "P", True)):
        long = 60000 if side in "NS" else 40000
        make = lambda x, side=side, direction=direction, back=back: noted(job(("base 60000 40000", f"leg 0 {side} 0 20000 30000 {direction}"), frames=[(0, x)], stages=[stage()]), (0, f"1 {back} 0 3 0"))
        what = f"a flange of 20,000 at the start of a side {side} of {long}, {direction}, `{back}`: the parent reaches {'to the right' if low_end else 'to the left'} of the span"
        limit(f"pose_x_{side}_{direction}_{back}", make, 100000, 250000, (what, "one past it"))


def loads():
    section("Reason 9: the load")
    def loaded(load, force=0, faces=LEG, gang=0):
        return noted(job(faces, stages=[stage(load=load)], force=force, gang=gang), (0, "1 P 0 9"))
    for name, certificate, what in (
        ("load_at_its_limit", loaded((300, 300)), "a load at its limit is no reason"), ("load_above_its_limit", loaded((301, 300)), "one above it is"),
        ("load_without_limit", loaded((1000000, 0)), "a limit of 0 is none"), ("no_load", loaded((0, 1), 1), "a load of 0 is none, whatever limit and force say"),
        ("force_reached", loaded((300, 0), 30000), "300 N/mm over 100 mm are 30,000 N: the force is enough"), ("force_passed", loaded((300, 0), 29999), "and 1 less isn't"),
        ("force_0", loaded((300, 0)), "a force of 0 is no limit"),
    ):
        case(name, certificate, what)
    long = lambda n, load: job((f"base {n} 50000", f"leg 0 N 0 {n} 30000 up"), stages=[stage(load=(300, 0))], force=29000)
    limit("force_by_length", lambda n: noted(long(n, None), (0, "1 C 0 9")), 90000, 110000, ("the length of the line in micrometres times the load is at most 1000 times the force", "one micrometre longer"))
    gang = ("base 100000 50000", "one 0 N 0 30000 30000 up", "two 0 N 70000 30000 30000 up")
    case("force_of_a_gang", loaded((300, 0), 18000, gang, 1), "the lines of a gang are summed: 60 mm, and not the span of 100")
    case("force_of_a_gang_passed", loaded((300, 0), 17999, gang, 1), "here they need 1 N more")
    case("force_of_one_bend", loaded((300, 0), 9000, gang, 0), "without gangs bend 1 alone has 30 mm")


def orders():
    section("The first reason")
    hit = lambda lines, *steps: stepped(lines, 100, *steps)
    load = (2, 1)
    short = ("base 120000 50000", "leg 0 N 0 120000 10000 up")
    die = [(7999, 30000, -20000, 0)]
    punch = [(-40000, 40000, 1, 30000)]
    for name, lines, what in (
        ("first_1_2", job(short, stages=[stage(load=load)]), "1 before 2"),
        ("first_2_3", job(("base 100000 50000", "leg 0 N 0 100000 10000 up"), frames=[(0, 900000)], stages=[stage(load=load)]), "2 before 3"),
        ("first_2_F_3", job(("base 100000 10000", "leg 0 N 0 100000 50000 up"), frames=[(0, 900000)], stages=[stage(load=load)]), "2 F before 3"),
        ("first_3_4", job(frames=[(0, 900000)], stages=[stage(punch_boxes=punch, load=load)]), "3 before 4, and its least box"),
        ("first_4_6", job(stages=[stage(punch_boxes=punch, die_boxes=die, load=load)]), "4 before 6, and its least box, which is of the front half"),
        ("first_6_9", job(stages=[stage(die_boxes=die, load=load)]), "6 before 9"),
        ("first_9", job(gauge=(99999, 600000, 5000, 10000, 10000, 20000, 10000, 10000)), "9 before 8: the load is told, though no pair is legal"),
        ("first_8", job(gauge=(99999, 600000, 5000, 10000, 10000, 20000, 10000, 10000), stages=[stage(load=FREE)]), "8 alone isn't told of a step: its own pair isn't legal"),
    ):
        case(name, hit(lines, "1 C 0 1 1"), what)
    behind(hit)


def behind(hit):
    """A hook that is folded at a stage where nothing stands around, and a last stroke at one with tools."""
    faces = ("web 100000 60000", "south 0 S 0 100000 70000 up", "north 0 N 0 100000 40000 up", "lip 2 N 0 100000 {} up")
    clean = stage(punch="P100 1000000 0", die="D16 60000 16000 0", load=FREE)
    hook = lambda boxes=(), dies=(), nose=0, load=FREE, lip=100000: job([face.format(lip) for face in faces], stages=[clean, stage(x0=600000, punch=f"P100 1000000 {nose}", die="D16 60000 16000 0", punch_boxes=boxes, die_boxes=dies, load=load)])
    small, high, both_quarters, low = (500000, 500001, 0, 1), (-10000, 10000, 20000, 45000), (-60000, 60000, 20000, 45000), (40000, 70000, -60000, 0)
    for name, lines, what in (
        ("first_quarter", hook([small, high]), "of several quarters the least: the lip meets the obstacle in the quarters 1 and 2"),
        ("first_box", hook([both_quarters], lip=70000), "of several boxes the least, here the web, whatever its quarter"),
        ("first_index", hook([small, high, (-9000, 9000, 21000, 45000)]), "of several obstacles the least index: here 1 before 2"),
        ("first_4_5", hook([high], nose=90000), "4 before 5"),
        ("first_4_of_a_later_box", hook([(-30000, -20000, 30000, 45000)], nose=42000), "4 before 5 also where 5 holds of a lesser box: number by number, and not box by box"),
        ("first_5", hook(nose=90000), "5, and its least box and quarter"),
        ("first_5_6", hook(dies=[(7999, 30000, -20000, 0)], nose=90000), "5 before 6"),
        ("first_4_7", hook([high]), "4 before 7"),
        ("first_6_7", hook(dies=[(7999, 30000, -20000, 0)]), "6 before 7"),
        ("first_7", hook(), "7, where nothing stands around"),
        ("first_7_9", hook(load=OVERLOAD), "7 before 9"),
        ("first_none", hook(lip=30000), "a short lip meets nothing; the gauge isn't legal, since face 2 stands upright"),
    ):
        case(name, hit(lines, "2 C 0 3 3", "3 C 0 3 3", "1 P 1 2 2"), what)


def along():
    for cases in (spans, rests, frames):
        cases()


def whole():
    for cases in (loads, orders):
        cases()
