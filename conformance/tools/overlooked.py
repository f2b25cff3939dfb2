"""Cases that tell wrong checkers apart which pass all others: what is easily overlooked, part by part."""
import checker
from certs import FREE, LEG, U, case, job, noted, read, refused_row, section, stage, text

THICK = "S235 2000 2000 2000"
TWO = (dict(), dict(x0=400000))
FAR = [(900000, 900001, i, i + 1) for i in range(8)]


def stages(*parts):
    return [stage(**part) for part in parts]


def none(lines, *rows, start=()):
    """A certificate that there is no plan: the start's row with every action noted but for some, and other rows."""
    return text(lines, "none", rows=[refused_row(read(lines), 0, without=start), *rows])


def jobs():
    section("Overlooked: jobs")
    for x0, what in ((299999, "each two stages are asked for an overlap, also where another lies between them in the list"), (300000, "stages that touch, with another between them in the list")):
        case(f"stages_{'overlap' if x0 < 300000 else 'touch'}_apart", text(job(stages=stages({}, dict(x0=500000), dict(x0=x0))), "none" if x0 < 300000 else 0), what)
    for name, other, what in (("two_flanges", "north", "the names of two flanges differ too"), ("the_root", "web", "and each from that of face 0")):
        case(f"names_of_{name}", text(job((*U[:2], U[2].replace("south", other))), "none"), what)
    free = [line for line in job(cost=(0,) * 6) if line.split()[0] not in ("gang", "force", "load")]
    case("version_1_claim_0_without_steps", text(free, 0, version=1), "version 1 has a step for each bend also where the claim is 0")


def reading():
    section("Overlooked: boxes that aren't there")
    for kind in "4567":
        for box, what in ((24, "box 24 is read in a note of reason {0}, and doesn't hold where it isn't there"), (25, "box 25 isn't read in a note of reason {0}")):
            case(f"note_box_{box}_of_{kind}", noted(job(U), (1, f"2 P 0 {kind} {box} 1 0")), what.format(kind))


def gangs():
    section("Overlooked: gangs and loads")
    turned = ("base 100000 50000", "right 0 N 60000 40000 30000 up", "left 0 N 0 40000 30000 up")
    for pieces in (99999, 100000):
        lines = job(turned, uncovered=0, gang=1, stages=stages(dict(pieces=(pieces,))))
        case(f"span_of_a_gang_turned_{pieces}", text(lines, "none", rows=[("0 0 0 none", ["1 P 0 1", "1 C 0 9"])]), "the span of a gang whose lead stands farther along the side than the other bend")
    lip = ("base 100000 50000", "leg 0 N 0 100000 30000 up", "lip 1 E 5000 20000 20000 up")
    for force in (98080, 98081):
        case(f"load_by_the_line_{force}", text(job(lip, force=force, stages=stages(dict(load=(1000, 0)))), "none", rows=[("0 0 0 0", ["1 P 0 9"])]), "the load is that of the bend's line, which is shorter here than the flange is wide")
    rest = ("base 100000 50000", "left 0 N 0 40000 15000 up", "right 0 N 60000 40000 30000 up")
    for force in (39999, 40000):
        case(f"load_of_the_rest_of_a_gang_{force}", text(job(rest, gang=1, force=force, stages=stages(dict(load=(1000, 0)))), "none", rows=[("1 0 0 0", ["2 P 0 9"])]), "a mate that is folded adds nothing to the load")
    for least in (28081, 28082):
        case(f"rest_of_the_rest_of_a_gang_{least}", text(job(rest, gang=1, stages=stages(dict(die=f"D16 60000 16000 {least}"))), "none", rows=[("1 0 0 0", ["2 C 0 2 B"])]), "nor is the least length asked of a mate that is folded")
    for most in (1, 2):
        case(f"limit_of_its_stage_{most}", text(job(stages=stages({}, dict(x0=400000, load=(2, most)))), "none", rows=[("0 0 0 0", ["1 P 1 9"])]), "the limit is that of the stroke's own stage")


def rays():
    section("Overlooked: rays, halves and quarters")
    low = ("base 100000 50000", "leg 0 N 0 100000 16000 up")
    for top in (9999, 10000):
        lines = job(low, THICK, stages=stages(dict(punch_boxes=[(10000, 20000, top, 20000)])))
        case(f"ray_at_far_{top}", text(lines, "none", rows=[("0 0 0 none", ["1 P 0 9", "1 C 0 4 1 4 0"])]), "a ray that meets an edge exactly at the outer circle is clear")
    over = ("web 100000 24000", "flange 0 S 0 100000 20000 up", "wall 0 N 0 100000 19000 up", "lip 2 N 0 100000 25000 up")
    for top in (9000, 9001):
        case(f"ray_at_near_{top}", noted(job(over, THICK, stages=stages(dict(punch_boxes=[(-1000, 13000, 0, top)]))), (6, "1 P 0 4 3 1 0")), "a ray that meets an edge exactly at the inner circle is clear")
    for top in (14999, 15000):
        case(f"cut_at_0_{top}", noted(job(over, THICK, stages=stages(dict(punch_boxes=[(0, 1, 0, top)]))), (6, "1 P 0 4 3 1 0")), "a piece is cut at y = 0 exactly: its inner circle goes through the point above the bend line")
    for end in (5987842, 5987843, 5987844):
        lines = job(wall(2000, 1406111, 6227133, 738909), THICK, upper=[(-1000000, 4000000, 0, 20000000, end - 100000, 7000000)])
        case(f"ray_just_within_far_{end}", noted(lines, (2, "1 P 0 4 2 1 0")), "what is compared of a point of a ray doesn't fit numbers of floating point")
    curled = ("base 100000 50000", "leg 0 N 0 100000 15000 up", "wall 1 N 0 100000 20000 down", "lip 2 N 0 100000 18000 down", "foot 3 N 0 100000 12000 up")
    for z in (-16762, -16761):
        lines = job(curled, THICK, stages=stages(dict(die="D16 60000 2 0", die_boxes=[(15350, 15400, z, z + 100)])))
        case(f"quarter_3_greatest_{'meets' if z == -16762 else 'clear'}", noted(lines, (14, "1 C 0 6 4 3 0")), "the greatest angle of a piece in quarter 3")
    for fine in (0, 1):
        walled(f"halves_of_two_{fine}", 2, 1, 3, 2, (-1, 0, 3, 4), fine, "a piece of 2 by 2 has halves")
    for fine in (0, 1):
        walled(f"halves_of_a_low_one_{fine}", 2000, 20, 10000, 1, (5500, 5520, 5796, 5900), fine, "a piece of which one side is 1 has halves")
    for fine in (11, 12):
        walled(f"halves_twelve_{fine}", 2000, 2000, 650000, 46000, (-20000, 20000, 86155, 190000), fine, "a piece that is free at depth 12 alone", 200000)
    front = ("web 100000 40000", "flange 0 N 0 100000 15000 up", "wall 0 S 0 100000 19000 up", "lip 2 N 0 100000 70000 up")
    for above in (15000, 15001):
        case(f"finger_under_a_front_lip_{above}", noted(job(front, THICK, gauge=(5000, 600000, 5000, 10000, 10000, 20000, above, 10000)), (6, "1 C 0 8")), "a finger meets boxes of the front half too")


def wall(t, y0, y1, z1):
    """A part of which the wall on E lies at y0 to y1 and up to z1 in the strokes of bend 1."""
    return f"base 100000 {max(50000, y1 + 3 * t)}", f"leg 0 N 0 {100000 - t} 30000 up", f"wall 0 E {t + y0} {y1 - y0} {z1 + t} up"


def walled(name, t, y0, y1, z1, box, fine, what, height=100000):
    lines = job(wall(t, y0, y1, z1), f"S235 {t} 2000 {t}", fine=fine or None, stages=stages(dict(punch=f"P100 {height} 0", punch_boxes=[box])))
    case(name, noted(lines, (2, "1 P 0 4 2 1 0")), f"{what}: at depth {fine}")


def many():
    section("Overlooked: bend 12, and the last of many")
    twelve = ("base 240000 50000", *(f"f{i} 0 N {20000 * (i - 1)} 20000 30000 up" for i in range(1, 12)), "f12 0 E 5000 40000 30000 up")
    case("row_of_bend_12", text(job(twelve), "none", rows=[refused_row(read(job(twelve)), 2048)]), "a mask of 2048: bend 12 alone is folded, and has no action")
    for at, what in (((480000, 600000), "the corner of bend 12 ends where the frame begins"), ((479999, 600000), "and reaches into it")):
        case(f"corner_of_bend_12_{'past' if at[0] == 480000 else 'at'}", text(job(twelve, frames=[at]), "none", rows=[("2048 0 0 0", ["1 C 0 3 24"])]), what)
    for end, what in ((478000, "face 12 folded begins where the frame ends"), (478001, "and reaches into it")):
        case(f"face_12_folded_{'past' if end == 478000 else 'at'}", text(job(twelve, frames=[(300000, end)]), "none", rows=[("2048 0 0 0", ["1 C 0 3 12"])]), what)
    lines = job(twelve, "S235 2000 2000 2500", frames=[(477600, 477900)], stages=stages(dict(load=FREE)))
    case("first_corner_of_bend_12", text(lines, 0, ["12 P 0 0 0", "1 C 0 1 1"]), "the first reason may be that of box 24, the corner of bend 12")
    low = ("base 100000 50000", "leg 0 N 0 100000 16000 up")
    upper = [(0, 3000000, 10000000 + i, 15000000, 0, 1) for i in range(16)]
    for top in (9999, 10000):
        case(f"upper_index_63_{top}", text(job(low, THICK, upper=upper, stages=six((10000, 20000, top, 20000))), 100, ["1 C 5 1 1"]), "the last of 64 boxes of the upper group")
    for nose in (1414, 1415):
        case(f"nose_of_stage_5_{nose}", text(job(wall(2000, 2000, 40000, 10000), THICK, stages=six(FAR[7], nose)), "none", rows=[("2 0 0 0", ["1 P 5 5 2 1 5"])]), "the nose of the last of six stages")
    odd = ("base 100000 50000", "leg 0 N 0 99999 30000 up")
    for end in (-300000, -299999):
        case(f"floor_below_0_{'past' if end == -300000 else 'at'}", text(job(odd, bed=(-3000000, 3000000), frames=[(-400000, end)], stages=stages(dict(x0=-300000))), "none", rows=[("0 0 0 0", ["1 C 0 3 1"])]), "half of what a stage is longer than the span is a floor, of the difference and not of a sum below 0")


def six(last, nose=0):
    """Six stages of eight boxes each, of which the last has one that counts, and a nose."""
    return stages(*(dict(x0=200000 + 100000 * i, load=FREE, punch=f"P100 100000 {nose if i == 5 else 0}", punch_boxes=FAR if i < 5 else [*FAR[:7], last]) for i in range(6)))


def prices():
    section("Overlooked: prices and the start")
    free = job(U, stages=stages(dict(load=FREE)))
    for claim, what in ((230, "a change of attitude is priced from the attitude before it, not from the first one"), (260, "so the second stroke of this plan turns nothing")):
        case(f"second_turn_{claim}", text(free, claim, ["1 P 0 2 2", "2 C 0 2 2"]), what)
    leg = ("base 100000 50000", "leg 0 E 0 50000 30000 up")
    for worth in (119, 120):
        case(f"start_worth_{worth}", text(job(leg, stages=stages(dict(load=FREE))), 120, ["1 C 0 1 1"], [(f"0 0 0 {worth}", [])]), "what is proved of the start has to reach the claim, and one less doesn't")
    for side, attitude in (("N", 16), ("E", 17)):
        lines = job(("base 100000 60000", f"leg 0 {side} 10000 30000 40000 up", "lip 1 N 5000 20000 15000 up"))
        case(f"row_at_the_strokes_attitude_{attitude}", text(lines, "none", rows=[(f"1 {attitude} 0 101", [])]), "from the stroke's own attitude it turns nothing: no row of more than a stroke is closed")
    lines = job(U, stages=stages(*TWO))
    one = read(lines)
    rows = [refused_row(one, 0)]
    for attitude in range(24):
        worth = checker.step_cost(one, [1, attitude, 0], checker.attitude_of(one, 1, 2, 0), 1)
        rows.append((f"1 {attitude} 0 {worth}", [note for note in refused_row(one, 1)[1] if not note.startswith("2 P 1 ")]))
    case("way_from_each_attitude", text(lines, "none", rows=rows), "the way to another stage is paid from every attitude")
    case("way_from_each_attitude_past", text(lines, "none", rows=[*rows[:9], (f"1 8 0 {int(rows[9][0].split()[3]) + 1}", rows[9][1]), *rows[10:]]), "one more isn't closed, here at attitude 8")


def rows():
    section("Overlooked: rows")
    lines = job(U, stages=stages(*TWO))
    one = read(lines)
    start = refused_row(one, 0, without=["1 C 1"])
    for at, name, what in ((0, "another", "an action that leads to stage 1 isn't closed by the row of stage 0"), (1, "that", "but by that of stage 1")):
        case(f"row_at_{name}_stage", text(lines, "none", rows=[start, refused_row(one, 1, f"1 0 {at}")]), what)
    short = ("web 100000 60000", "north 0 N 30000 40000 30000 up", "south 0 S 0 100000 30000 up")
    for worth in (200, 201):
        case(f"bound_by_the_stage_{worth}", text(job(short, uncovered=0, stages=stages(dict(pieces=(50000,), load=FREE), dict(x0=400000, load=FREE))), "none", rows=[(f"0 0 0 {worth}", [])]), "the bound depends on the key's stage, not on its mask alone")
    arm = job(("base 100000 50000", "leg 0 N 0 90000 30000 up", "arm 0 E 5000 40000 60000 up"), frames=[(320000, 400000)])
    case("note_that_holds_no_more", text(arm, "none", rows=[refused_row(read(arm), 0, notes=["1 C 0 3 2"]), ("2 0 0 0", ["1 C 0 3 2"])]), "a note that holds in one row needn't hold in a row of another mask")
    leg = job(LEG, stages=stages(*TWO))
    case("start_at_another_stage", text(leg, "none", rows=[refused_row(read(leg), 0, "0 0 1")]), "the start is at stage 0: a row of stage 1 proves nothing of it")


def all_cases():
    for cases in (jobs, reading, gangs, rays, many, prices, rows):
        cases()
