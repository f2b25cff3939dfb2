"""Cases of what makes a job valid: each range at its ends and one past them, and how the part unfolds."""
from certs import GAUGE, LEG, PRICES, case, changed, job, limit, read, refused_row, section, stage, text

PLAIN = list(job())
NOTES = [refused_row(read(PLAIN), 0)]
WIDE = 10000000
FAR = 20000000


def judged(name, lines, what):
    """A certificate that is good where the job is valid."""
    case(name, text(lines, "none", rows=NOTES), what)


def ends(name, low, high, make, what):
    """Both ends of a range, and one past each."""
    for place, number in (("least", low), ("below", low - 1), ("greatest", high), ("above", high + 1)):
        judged(f"{name}_{place}", make(number), f"{what}: {'not ' if place in ('below', 'above') else ''}{number}")


def line_of(name, words, at, base=PLAIN):
    """The job with another number in a line."""
    def make(number):
        told = [name, *map(str, words)]
        told[1 + at] = str(number)
        return changed(base, (f"{name} ", " ".join(told)))
    return make


def replaced(values, at, number):
    return [number if i == at else value for i, value in enumerate(values)]


def sheets():
    section("A valid job: the part")
    big = ("base 10000000 10000000", "leg 0 N 0 10000000 10000000 up")
    wide = [stage(pieces=[10000000])]
    for name, part, what in (
        ("thickness_2", "S235 2 1 1", "T from 2"), ("thickness_0", "S235 0 1 1", "not 0"), ("thickness_50000", "S235 50000 50000 100000", "to 50,000"),
        ("thickness_50002", "S235 50002 50000 100000", "not above"), ("thickness_odd", "S235 2001 2000 1919", "T is even"), ("thickness_minus", "S235 -2 1 1", "not below 0"),
        ("radius_0", "S235 2000 0 1919", "R from 1"), ("radius_50001", "S235 2000 50001 1919", "to 50,000"),
        ("q_half_of_t", "S235 2000 2000 1000", "Q from T/2"), ("q_below_half_of_t", "S235 2000 2000 999", "not below"),
        ("q_100000", "S235 2000 2000 100000", "Q to 100,000"), ("q_100001", "S235 2000 2000 100001", "not above"),
    ):
        faces = big if int(part.split()[3]) > 9000 else LEG
        judged(name, list(job(faces, part, bed=(0, FAR), stages=wide if faces is big else None)), what)
    for name, faces, what in (
        ("names_differ", ("base 100000 50000", "base 0 N 0 100000 30000 up"), "the names of faces differ"),
        ("width_0", ("base 100000 50000", "leg 0 N 0 0 30000 up"), "W from 1"), ("length_0", ("base 100000 50000", "leg 0 N 0 100000 0 up"), "L from 1"),
        ("width_minus", ("base -100000 50000", "leg 0 E 0 50000 30000 up"), "not below 0"),
        ("at_minus", ("base 100000 50000", "leg 0 N -1 100000 30000 up"), "AT from 0"),
        ("past_the_side", ("base 100000 50000", "leg 0 N 1 100000 30000 up"), "AT + W is at most the side's length"),
        ("past_a_side_E", ("base 100000 50000", "leg 0 E 0 50001 30000 up"), "which on E is the face's L"),
        ("whole_side_E", ("base 100000 50000", "leg 0 E 0 50000 30000 up"), "up to the end"),
        ("past_a_side_W", ("base 100000 50000", "leg 0 W 1 50000 30000 up"), "so on W"),
        ("past_a_side_S", ("base 50000 100000", "leg 0 S 0 50001 30000 up"), "and on S it is W again"),
        ("face_10000000", ("base 10000000 10000000", "leg 0 N 0 10000000 10000000 up"), "W and L to 10,000,000"),
        ("length_10000001", ("base 100000 50000", "leg 0 N 0 100000 10000001 up"), "L not above"),
        ("width_10000001", ("base 10000001 50000", "leg 0 N 0 100000 30000 up"), "W not above"),
    ):
        judged(name, list(job(faces, stages=[stage(pieces=[10000000])], bed=(0, FAR))), what)
    for name, faces, what in (
        ("at_minus_by_the_core", ("base 100000 50000", "leg 0 N -1 60000 30000 up", "lip 1 W 2000 20000 20000 up"), "AT from 0 also where the line, which begins Q later, lies within the core"),
        ("past_the_side_by_the_core", ("base 100000 50000", "leg 0 N 40001 60000 30000 up", "lip 1 E 2000 20000 20000 up"), "and so at the side's end"),
        ("at_the_side_by_the_core", ("base 100000 50000", "leg 0 N 40000 60000 30000 up", "lip 1 E 2000 20000 20000 up"), "up to the end"),
    ):
        lines = job(faces)
        case(name, text(lines, "none", rows=[refused_row(read(lines), 0)]), what)
    two = ("base 100000 50000", "leg 0 N 0 100000 30000 up")
    for name, face, what in (("on_side_S_of_face_0", "lip 0 S 0 100000 30000 up", "a face may stand on S of face 0"), ("on_side_S_of_a_flange", "lip 1 S 0 100000 30000 up", "and of no other face")):
        lines = list(job((*two, face)))
        case(name, text(lines, "none", rows=[refused_row(read(lines), 0)]), what)


def unfolding():
    section("A valid job: cores, lines and the flat part")
    for name, faces, what in (
        ("core_1", ("base 100000 1920", "leg 0 N 0 100000 1920 up"), "a core has a size of 1 at least: here Q is 1919, and 1 is left of both"),
        ("child_core_0", ("base 100000 50000", "leg 0 N 0 100000 1919 up"), "nothing is left of the child, which loses Q at its S side"),
        ("parent_core_0", ("base 100000 1919", "leg 0 N 0 100000 30000 up"), "nothing of the parent's length"),
        ("parent_width_0", ("base 1919 50000", "leg 0 E 0 50000 30000 up"), "nothing of the parent's width"),
        ("parent_width_1", ("base 1920 50000", "leg 0 E 0 50000 30000 up"), "and here 1"),
        ("lost_once", ("base 100000 1920", "one 0 N 0 40000 30000 up", "two 0 N 60000 40000 30000 up"), "two flanges on one side: Q is lost there once"),
        ("lost_on_both_sides", ("base 100000 3838", "one 0 N 0 100000 30000 up", "two 0 S 0 100000 30000 up"), "on two sides: twice, here nothing is left"),
        ("left_by_both_sides", ("base 100000 3839", "one 0 N 0 100000 30000 up", "two 0 S 0 100000 30000 up"), "and here 1"),
    ):
        lines = list(job(faces))
        case(name, text(lines, "none", rows=[refused_row(read(lines), 0)]), what)
    corners()
    for name, faces, what in (
        ("line_by_the_childs_core", ("base 100000 50000", "one 0 W 15000 20000 30000 up", "two 0 N 0 98081 30000 up", "lip 2 W 2000 20000 20000 up"), "the line runs over the child's core: it begins Q later where the child's W side is bent, and so within the parent's core"),
        ("line_by_the_childs_core_at_E", ("base 100000 50000", "one 0 E 15000 20000 30000 up", "two 0 N 1919 98081 30000 up", "lip 2 E 2000 20000 20000 up"), "the same at its E side"),
    ):
        lines = list(job(faces))
        case(name, text(lines, "none", rows=[refused_row(read(lines), 0)]), what)
    limit("flat", flaps, 10000, 40000, ("two flaps in one corner touch where the part lies flat", "and here they overlap by one"))
    limit("flat_across", across, 10000, 40000, ("the same with the flap's place", "and here they overlap by one"))


def corners():
    """Lines that begin and end where the parent's core does, on each side, beside a flange on the side before it or behind it."""
    for side, before, behind in (("N", "W", "E"), ("E", "N", "S"), ("S", "E", "W"), ("W", "S", "N")):
        length = 100000 if side in "NS" else 50000
        for name, other, at, width, what in (
            ("begins_at_the_core", before, 1919, length - 1919, "a line may begin where the parent's core does"), ("begins_before_the_core", before, 1918, length - 1918, "and no earlier"),
            ("ends_at_the_core", behind, 0, length - 1919, "it may end where the core does"), ("ends_behind_the_core", behind, 0, length - 1918, "and no later"),
        ):
            lines = list(job(("base 100000 50000", f"one 0 {other} 15000 20000 30000 up", f"two 0 {side} {at} {width} 30000 up")))
            case(f"line_on_{side}_{name}", text(lines, "none", rows=[refused_row(read(lines), 0)]), f"side {side}: {what}")


def flaps(length):
    lines = list(job(("base 100000 50000", "one 0 N 10000 80000 40000 up", "lip 1 E 0 38000 30000 up", "two 0 E 15000 20000 60000 up", f"low 3 W 2000 58000 {length} up")))
    return text(lines, "none", rows=[refused_row(read(lines), 0)])


def across(width):
    lines = list(job(("base 100000 50000", "one 0 N 10000 80000 40000 up", f"lip 1 E 0 38000 {width} up", "two 0 E 15000 20000 60000 up", "low 3 W 20000 40000 50000 up")))
    return text(lines, "none", rows=[refused_row(read(lines), 0)])


def machine():
    section("A valid job: the machine")
    for name, change, what in (
        ("bed_farthest", ("bed", f"bed {-FAR} {FAR}"), "the bed within 20,000,000 of 0"), ("bed_below", ("bed", f"bed {-FAR - 1} {FAR}"), "not below"), ("bed_above", ("bed", f"bed {-FAR} {FAR + 1}"), "not above"),
        ("bed_turned", ("bed", "bed 3000000 0"), "X0 < X1"), ("frame_empty", ("bed", "bed 0 3000000", "frame 0 0"), "X0 < X1 of a frame"),
        ("frame_farthest", ("bed", "bed 0 3000000", f"frame {-FAR} {FAR}"), "frames within 20,000,000"), ("frame_below", ("bed", "bed 0 3000000", f"frame {-FAR - 1} 0"), "not below"),
        ("frame_above", ("bed", "bed 0 3000000", f"frame 0 {FAR + 1}"), "not above"),
        ("upper_farthest", ("bed", "bed 0 3000000", f"upper {-FAR} {FAR} {-FAR} {FAR} 0 {FAR}"), "upper boxes within 20,000,000"),
        ("lower_farthest", ("bed", "bed 0 3000000", f"lower {-FAR} {FAR} {-FAR} {FAR} {-FAR} 0"), "lower ones too"),
        ("upper_below_0", ("bed", "bed 0 3000000", "upper 0 1 0 1 -1 1"), "z from 0 in `upper`"), ("lower_above_0", ("bed", "bed 0 3000000", "lower 0 1 0 1 -1 1"), "z to 0 in `lower`"),
    ):
        judged(name, changed(PLAIN, change), what)
    for at in range(6):
        for kind, box in (("upper", (-5, 5, -5, 5, 0, 5)), ("lower", (-5, 5, -5, 5, -5, 0))):
            past = {0: -FAR - 1, 2: -FAR - 1, 4: -FAR - 1, 1: FAR + 1, 3: FAR + 1, 5: FAR + 1}[at]
            if (kind, at) not in (("upper", 4), ("lower", 5)):
                judged(f"{kind}_word_{at}_past", changed(PLAIN, ("bed", "bed 0 3000000", f"{kind} {' '.join(map(str, replaced(box, at, past)))}")), f"word {at + 1} of a line `{kind}`: not past 20,000,000")
            if at % 2 == 0:
                judged(f"{kind}_word_{at}_empty", changed(PLAIN, ("bed", "bed 0 3000000", f"{kind} {' '.join(map(str, replaced(box, at, box[at + 1])))}")), f"word {at + 1} of a line `{kind}` is below the next one")
    ends("uncovered", 0, 1000000, line_of("uncovered", (0,), 0), "U")
    for at, word in enumerate(("near", "far", "inset", "finger", "gap", "depth", "above", "below")):
        ends(f"gauge_{word}", 1 if word in ("finger", "depth") else 0, WIDE, line_of("gauge", GAUGE, at), word.upper())
    judged("near_above_far", line_of("gauge", GAUGE, 0)(600001), "NEAR may be above FAR")
    for at, word in enumerate(("stroke", "quarter", "half", "flip", "roll", "stage")):
        ends(f"cost_{word}", 0, 1000000, line_of("cost", PRICES, at), word.upper())
    ends("gang", 0, 1, line_of("gang", (0,), 0), "G")
    ends("force", 0, 100000000, line_of("force", (0,), 0), "F")


def stages():
    section("A valid job: the stages")
    def with_stage(**parts):
        return list(job(bed=parts.pop("bed", (0, 3000000)), stages=[stage(**parts)]))
    far = (-FAR, FAR)
    for name, lines, what in (
        ("stage_x0_least", with_stage(bed=far, x0=-FAR), "X0 from -20,000,000"),
        ("stage_longer", with_stage(x1=300001), "X1 is X0 plus the sum of the pieces"), ("stage_shorter", with_stage(x1=299999), "neither more nor less"),
        ("stage_two_pieces", with_stage(pieces=(60000, 40000)), "of two pieces"),
        ("piece_0", with_stage(pieces=(100000, 0)), "a piece from 1"), ("piece_1", with_stage(pieces=(99999, 1)), "1 is one"),
        ("piece_minus", with_stage(pieces=(100001, -1)), "none below 0"),
        ("piece_10000000", with_stage(bed=far, pieces=(WIDE,)), "to 10,000,000"), ("piece_10000001", with_stage(bed=far, pieces=(WIDE + 1,)), "not above"),
        ("stage_at_the_beds_start", with_stage(bed=(200000, 3000000)), "a stage may begin where the bed does"), ("stage_before_the_bed", with_stage(bed=(200001, 3000000)), "and no earlier"),
        ("stage_at_the_beds_end", with_stage(bed=(0, 300000)), "it may end where the bed does"), ("stage_behind_the_bed", with_stage(bed=(0, 299999)), "and no later"),
        ("load_least", with_stage(load=(2, 0)), "LIMIT from 0; a load without a limit refuses nothing"), ("load_below", with_stage(load=(-1, 1)), "L not below 0"), ("limit_below", with_stage(load=(2, -1)), "LIMIT not below 0"),
        ("load_greatest", with_stage(load=(1000000, 999999)), "L to 1,000,000"), ("load_above", with_stage(load=(1000001, 1)), "not above"),
        ("limit_above", with_stage(load=(2, 1000001)), "LIMIT to 1,000,000"),
    ):
        judged(name, lines, what)
    punches(with_stage)
    dies(with_stage)
    beside()


def punches(with_stage):
    for name, parts, what in (
        ("punch_height_1", dict(punch="P 1 1"), "HEIGHT of a punch from 1; NOSE up to it"), ("punch_height_0", dict(punch="P 0 0"), "not 0"),
        ("punch_height_greatest", dict(punch="P 1000000 0"), "to 1,000,000"), ("punch_height_above", dict(punch="P 1000001 0"), "not above"),
        ("nose_below", dict(punch="P 100000 -1"), "NOSE from 0"), ("nose_above", dict(punch="P 100000 100001"), "to HEIGHT"), ("nose_greatest", dict(punch="P 100000 100000"), "which it may reach"),
        ("punch_box_farthest", dict(punch_boxes=[(-1000000, 1000000, 0, 100000)]), "a punch's box: y within 1,000,000, z from 0 to HEIGHT"),
        ("punch_box_y0", dict(punch_boxes=[(-1000001, 0, 0, 1)]), "y not below"), ("punch_box_y1", dict(punch_boxes=[(0, 1000001, 0, 1)]), "y not above"),
        ("punch_box_z0", dict(punch_boxes=[(0, 1, -1, 1)]), "z not below 0"), ("punch_box_z1", dict(punch_boxes=[(0, 1, 0, 100001)]), "z not above HEIGHT"),
        ("punch_box_flat", dict(punch_boxes=[(0, 1, 5, 5)]), "Z0 < Z1"), ("punch_box_thin", dict(punch_boxes=[(5, 5, 0, 1)]), "Y0 < Y1"),
    ):
        judged(name, with_stage(**parts), what)


def dies(with_stage):
    for name, parts, what in (
        ("die_height_1", dict(die="D 1 2 0"), "HEIGHT of a die from 1, V from 2, LEAST from 0"), ("die_height_0", dict(die="D 0 2 0"), "not 0"),
        ("die_height_greatest", dict(die="D 1000000 1000000 1000000"), "each to 1,000,000"), ("die_height_above", dict(die="D 1000001 2 0"), "HEIGHT not above"),
        ("v_odd", dict(die="D 60000 16001 11000"), "V is even"), ("v_0", dict(die="D 60000 0 11000"), "not 0"), ("v_above", dict(die="D 60000 1000002 11000"), "not above"),
        ("least_below", dict(die="D 60000 16000 -1"), "LEAST not below 0"), ("least_above", dict(die="D 60000 16000 1000001"), "not above"),
        ("die_box_farthest", dict(die_boxes=[(-1000000, 1000000, -60000, 0)]), "a die's box: y within 1,000,000, z from -HEIGHT to 0"),
        ("die_box_y0", dict(die_boxes=[(-1000001, 0, -1, 0)]), "y not below"), ("die_box_y1", dict(die_boxes=[(0, 1000001, -1, 0)]), "y not above"),
        ("die_box_z0", dict(die_boxes=[(0, 1, -60001, 0)]), "z not below -HEIGHT"), ("die_box_z1", dict(die_boxes=[(0, 1, -1, 1)]), "z not above 0"),
        ("die_box_flat", dict(die_boxes=[(0, 1, -5, -5)]), "Z0 < Z1"), ("die_box_thin", dict(die_boxes=[(5, 5, -1, 0)]), "Y0 < Y1"),
    ):
        judged(name, with_stage(**parts), what)


def beside():
    def two(x0, **parts):
        lines = list(job(bed=(-FAR, FAR), stages=[stage(), stage(x0=x0, **parts)]))
        return text(lines, "none", rows=[refused_row(read(lines), 0)])
    for name, certificate, what in (
        ("stages_touch", two(300000), "stages may touch"), ("stages_overlap", two(299999), "and not overlap"), ("stages_touch_before", two(100000), "the order of the stages plays no part"),
        ("stages_overlap_before", two(100001), "here they overlap by one"), ("stage_x0_greatest", two(FAR, pieces=(1,)), "the bed ends at 20,000,000, so no stage begins there"),
        ("punches_unequal", two(400000, punch="P100 100001 6000"), "all punches have one HEIGHT"), ("dies_unequal", two(400000, die="D16 60001 16000 11000"), "and all dies"),
        ("tools_differ", two(400000, punch="P100 100000 5000", die="D16 60000 12000 8000"), "all else may differ, under one name too"),
    ):
        case(name, certificate, what)


def all_cases():
    for cases in (sheets, unfolding, machine, stages):
        cases()
