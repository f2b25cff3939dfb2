"""Cases of boxes, covers and obstacles: of the reasons 4 to 7."""
import checker
from certs import U, case, changed, job, limit, noted, read, section, stage

DOWN = ("web 100000 60000", "north 0 N 0 100000 30000 down", "south 0 S 0 100000 30000 down")
WAYS = ("its corners lie clockwise of the lower ray", "its corners lie counterclockwise of the upper ray", "its special points lie beyond the outer circle", "its special points lie within the inner circle")
# the reason, quarter, side at the back and way; the direction of a hook, and the box; an obstacle that is clear in this way alone, and one that is met
MEETINGS = (
    (4, 1, "P", 1, "up", 2, (-125280, -40035, 10027, 40035), (-125280, -40034, 10027, 40035)),
    (4, 1, "P", 2, "up", 1, (62592, 144158, 27693, 51404), (62591, 144158, 27693, 51404)),
    (4, 1, "P", 3, "up", 1, (-46437, 22912, 4654, 51098), (-46437, 22913, 4654, 51098)),
    (4, 1, "C", 1, "up", 2, (39223, 86325, 24099, 39223), (39223, 86325, 24099, 39224)),
    (4, 1, "C", 2, "up", 1, (-63220, -17503, 66169, 94163), (-63220, -17503, 66168, 94163)),
    (4, 1, "C", 3, "up", 1, (-24393, 67805, 32708, 50408), (-24394, 67805, 32708, 50408)),
    (4, 2, "P", 0, "up", 2, (0, 42167, 31426, 85003), (-1, 42167, 31426, 85003)),
    (4, 2, "P", 2, "up", 2, (-44196, -35564, 44082, 81520), (-44196, -35563, 44082, 81520)),
    (4, 2, "P", 3, "up", 2, (-12126, 38590, 22350, 33896), (-12127, 38590, 22350, 33896)),
    (4, 2, "C", 0, "up", 2, (-105001, 0, 7433, 61482), (-105001, 1, 7433, 61482)),
    (4, 2, "C", 2, "up", 2, (55701, 121695, 10271, 30506), (55700, 121695, 10271, 30506)),
    (4, 2, "C", 3, "up", 2, (-14664, 10856, 1641, 34324), (-14664, 10856, 1641, 34325)),
    (4, 4, "P", 1, "up", 0, (-54851, 26585, 26585, 67369), (-54851, 26586, 26585, 67369)),
    (4, 4, "P", 2, "up", 0, (55973, 114184, 5864, 63254), (55972, 114184, 5864, 63254)),
    (4, 4, "P", 3, "up", 1, (-7472, 39597, 28216, 64762), (-7472, 39598, 28216, 64762)),
    (4, 4, "C", 1, "up", 0, (-33334, -22741, 33334, 99445), (-33334, -22741, 33333, 99445)),
    (4, 4, "C", 2, "up", 0, (-57164, -34153, 39795, 112262), (-57164, -34153, 39794, 112262)),
    (4, 4, "C", 3, "up", 1, (-39597, 26238, 24007, 76185), (-39598, 26238, 24007, 76185)),
    (6, 2, "P", 2, "up", 2, (-133424, -56640, -61589, -5788), (-133424, -56639, -61589, -5788)),
    (6, 2, "P", 3, "up", 2, (-35496, 53690, -43643, 0), (-35497, 53690, -43643, 0)),
    (6, 2, "C", 1, "up", 2, (-31929, 49790, -57716, -9830), (-31929, 49791, -57716, -9830)),
    (6, 2, "C", 2, "up", 2, (56627, 96201, -26907, -7213), (56626, 96201, -26907, -7213)),
    (6, 2, "C", 3, "up", 2, (-27803, 35786, -35192, -2082), (-27803, 35787, -35192, -2082)),
    (6, 3, "P", 1, "down", 2, (27166, 77620, -25166, 0), (27165, 77620, -25166, 0)),
    (6, 3, "P", 2, "down", 2, (-59635, -39393, -111027, -48570), (-59635, -39393, -111027, -48569)),
    (6, 3, "P", 3, "down", 2, (-19364, 26075, -25642, 0), (-19364, 26075, -25643, 0)),
    (6, 3, "C", 1, "down", 2, (-38083, -35123, -33123, 0), (-38083, -35123, -33124, 0)),
    (6, 3, "C", 2, "down", 2, (43010, 92816, -58421, -44504), (43009, 92816, -58421, -44504)),
    (6, 3, "C", 3, "down", 2, (5435, 16436, -32261, -581), (5435, 16436, -32262, -581)),
    (6, 4, "P", 0, "down", 2, (-35449, 0, -56049, 0), (-35449, 1, -56049, 0)),
    (6, 4, "P", 2, "down", 1, (49752, 84993, -94291, -45093), (49752, 84993, -94291, -45092)),
    (6, 4, "P", 3, "down", 1, (-2022, 48714, -25687, 0), (-2022, 48715, -25687, 0)),
    (6, 4, "C", 0, "down", 2, (0, 107737, -39619, 0), (-1, 107737, -39619, 0)),
    (6, 4, "C", 2, "down", 1, (-140174, -69520, -4683, 0), (-140174, -69519, -4683, 0)),
    (6, 4, "C", 3, "down", 1, (-46334, 37278, -52832, 0), (-46335, 37278, -52832, 0)),
)
# quarter, way, then lengths and directions of a doubled part, the length that is changed, the boxes, and its numbers: clear, and hit
SELF = (
    (1, 1, (6500, 50500, 17500, 58000, 25500), "up", "up", 2, 1, 5, 30081, 30080),
    (1, 2, (26000, 59000, 78000, 38000, 22500), "up", "up", 4, 2, 5, 25174, 25175),
    (1, 3, (65500, 46500, 54500, 60000, 73000), "up", "up", 1, 2, 4, 11781, 11782),
    (2, 2, (53500, 75500, 62500, 70000, 40000), "up", "up", 2, 2, 4, 58393, 58392),
    (2, 3, (53500, 75500, 62500, 70000, 40000), "up", "up", 2, 2, 3, 53216, 53217),
    (3, 2, (34000, 68500, 30500, 20500, 79000), "down", "down", 3, 2, 5, 37585, 37584),
    (3, 3, (89500, 79500, 22000, 45000, 32500), "down", "up", 0, 2, 3, 8712, 8711),
    (4, 0, (40000, 76000, 87000, 54000, 57000), "down", "down", 4, 2, 5, 85081, 85082),
    (4, 1, (66000, 65000, 30000, 60000, 61500), "down", "up", 2, 13, 5, 63419, 63418),
    (4, 2, (68500, 9500, 45000, 63000, 76500), "up", "down", 3, 0, 5, 58279, 58278),
    (4, 3, (77500, 29000, 63000, 59000, 73000), "down", "down", 2, 2, 5, 19681, 19680),
)
HOOK = ("web 100000 60000", "north 0 N 0 100000 40000 {d}", "lip 1 N 0 100000 100000 {d}", "south 0 S 0 100000 30000 up")


def hooks(direction, obstacles=(), lower=False, load=(2, 1), v=16000):
    """A part with a hook over or under its last bend, which is bend 3; the obstacles are boxes of the punch, or of the die."""
    faces = [face.format(d=direction) for face in HOOK]
    tools = {"die_boxes": obstacles} if lower else {"punch_boxes": obstacles}
    return job(faces, stages=[stage(load=load, punch="P100 1000000 0", die=f"D16 1000000 {v} 0", **tools)])


def meetings():
    section("Reasons 4 and 6: when a piece meets an obstacle")
    for kind, quarter, back, way, direction, box, clear, hit in MEETINGS:
        half = "B" if back == "P" else "F"
        note = f"3 {back} 0 {kind} {box} {quarter} 0"
        name = f"meets_{kind}_quarter_{quarter}_{half}_way_{way + 1}"
        case(f"{name}_clear", noted(hooks(direction, [clear], kind == 6), (3, note)), f"reason {kind}, quarter {quarter}, half {half}: clear since {WAYS[way]}")
        case(f"{name}_hit", noted(hooks(direction, [hit], kind == 6), (3, note)), "one farther it isn't")


# what a ray meets: direction of a hook, side at the back, whether the obstacle is a lower one, box, quarter, and the obstacle
RAYS = (
    ("on a level below", "down", "P", True, 1, 4, (31000, 119000, -87000, -34000)),
    ("on a level above", "down", "P", False, 3, 4, (-76000, 6000, 14000, 19000)),
    ("on the lower of two levels", "down", "C", False, 13, 4, (-49000, 29000, 34000, 46000)),
    ("on a level, but only the ray's other half", "down", "C", False, 2, 3, (-10000, 64000, 6000, 41000)),
    ("on a side behind", "up", "C", False, 2, 1, (18000, 41000, 12000, 91000)),
    ("on a side before", "down", "C", True, 14, 4, (-59000, -56000, -117000, -33000)),
    ("on the nearer of two sides", "up", "P", False, 1, 1, (7000, 14000, 54000, 69000)),
    ("on the farther side", "up", "C", False, 2, 1, (-140000, -53000, 29000, 92000)),
    ("on a side, but only the ray's other half", "down", "P", True, 14, 4, (-84000, -8000, -27000, 0)),
)


def rays():
    for number, (what, direction, back, lower, box, quarter, r) in enumerate(RAYS, 1):
        case(f"ray_{number}", noted(hooks(direction, [r], lower), (3, f"3 {back} 0 {6 if lower else 4} {box} {quarter} 0")), f"a ray of the cover meets the obstacle {what}")


def touching():
    """Obstacles that touch a cover in each of the four ways, and that reach one micrometre into it."""
    cover = checker.Cover(checker.Stroke(read(hooks("up")), 3, 3, 0, 0).moving(2, 1), 1, 45)
    y1, z0 = cover.lower
    top = (-cover.upper[0] + cover.upper[1]) // 2
    assert cover.near2 == z0 * z0 and z0 % 5 == 0
    high = lambda r: noted(hooks("up", [r]), (3, "3 P 0 4 2 1 0"))
    flat = lambda r: noted(job(stages=[stage(die="D16 60000 16000 0", die_boxes=[r])]), (0, "1 C 0 6 1 4 0"))
    for name, make, clear, hit, what in (
        ("lower_ray", flat, (-10000, 0, -20000, 0), (-10000, 1, -20000, 0), "the lower ray, which points down"),
        ("upper_ray", high, (-60000, -30000, 0, 30000), (-60000, -30000, 0, 30001), "the upper ray, at (-30000, 30000)"),
        ("outer_circle", high, (top, top + 30000, y1, y1 + 30000), (top - 1, top + 30000, y1, y1 + 30000), "the outer circle, with a corner as far away as the piece's farthest"),
        ("inner_circle", high, (-z0 * 3 // 5, 0, 0, z0 * 4 // 5), (-z0 * 3 // 5, 0, 0, z0 * 4 // 5 + 1), "the inner circle, with a corner as far away as the piece's nearest"),
    ):
        case(f"touching_{name}", make(clear), f"an obstacle that touches {what}: clear")
        case(f"reaching_{name}", make(hit), "one micrometre more")


def widenings():
    """A wall of a sheet of which Q is above, at and below t, and obstacles behind it and before it."""
    for q, what in ((2500, "Q above t: W = 500"), (2000, "Q = t: W = 0"), (1500, "Q below t: W = 500")):
        make = lambda r, q=q: noted(changed(hooks("up", [r]), ("part", f"part S235 2000 2000 {q}")), (3, "3 P 0 4 1 1 0"))
        limit(f"widening_behind_{q}", lambda n: make((n, n + 10000, 10000, 20000)), 90000, 50000, (f"{what}, seen by an obstacle behind the wall", "one nearer"))
        limit(f"widening_before_{q}", lambda n: make((n - 10000, n, 0, 5000)), 30000, 56000, (f"{what}, seen by one before it", "one farther"))


def noses():
    section("Reason 5: when a piece meets a nose")
    outwards = lambda nose: noted(job(("web 100000 30000", "north 0 N 0 100000 31919 up", "lip 1 N 0 100000 30000 down", "south 0 S 0 100000 30000 up"), stages=[stage(punch=f"P100 1000000 {nose}", die="D16 60000 16000 0")]), (3, "3 P 0 5 2 1 0"))
    case("nose_touched", outwards(27919), "a piece whose nearest corner is the nose's corner, at (27919, 27919): clear")
    case("nose_reached", outwards(27920), "a nose larger by 1 is met")
    drop = lambda n, nose, d="up": job(("web 100000 60000", f"north 0 N 0 100000 40000 {d}", f"lip 1 N 0 100000 {n} {d}", f"drop 2 N 0 100000 20000 {d}", "south 0 S 0 100000 30000 up"), stages=[stage(punch=f"P100 1000000 {nose}", die="D16 60000 16000 0")])
    for back, half in (("P", "B"), ("C", "F")):
        for quarter in (1, 2):
            make = lambda n, quarter=quarter, back=back: noted(drop(100000, n), (7, f"4 {back} 0 5 2 {quarter} 0"))
            limit(f"nose_{half}_quarter_{quarter}", make, 0, 100000, (f"half {half}, quarter {quarter}: the inner circle of the piece passes the nose's corners", "a nose larger by 1 is met"))
        make = lambda n, back=back: noted(drop(n, 90000), (7, f"4 {back} 0 5 3 2 0"))
        limit(f"nose_{half}_left", make, 120000, 70000, (f"half {half}: a piece in quarter 2 whose lower ray is past the left diagonal", "and one that isn't"))
        for quarter in (3, 4):
            case(f"nose_{half}_quarter_{quarter}", noted(drop(100000, 1000000, "down"), (7, f"4 {back} 0 5 2 {quarter} 0")), f"a piece in quarter {quarter} is clear of every nose, since its lower ray points downwards or to the left")
    case("nose_0", noted(drop(100000, 0), (7, "4 P 0 5 2 1 0")), "a nose of 0 is met by nothing")
    beside = lambda x, which: noted(job(("web 300000 60000", "north 0 N 0 300000 40000 up", "lip 1 N 0 300000 100000 up", "south 0 S 100000 100000 30000 up"), stages=[stage(x0=600000, punch="P100 1000000 0"), stage(x0=x, pieces=(50000,), punch="P100 1000000 90000")]), (3, f"3 P 0 5 2 1 {which}"))
    limit("nose_beside", lambda x: beside(x, 1), 900000, 750000, ("the nose of another stage, where the box doesn't reach over it", "where it does by 1"))
    case("nose_of_the_stage_alone", beside(750000, 0), "each nose has its own size: that of the stage in use is 0")


def obstacles():
    section("What stands around: places, indices, mirrors and sunk boxes")
    up = lambda **parts: job([face.format(d="up") for face in HOOK], **parts)
    tools = dict(punch="P100 1000000 0", die="D16 60000 16000 0")
    box = (-10000, 10000, 20000, 30000)
    hit = lambda lines, words: noted(lines, (3, f"3 P 0 {words}"))
    high = lambda n, **parts: up(upper=[(0, 3000000, -10000, 10000, 0, 50000)], stages=[stage(punch=f"P100 {n} 0", **parts)])
    limit("machine_raised", lambda n: hit(high(n), "4 2 1 0"), 1000, 400000, ("an upper box of the machine stands on top of the punches, here met", "and higher by 1 clear"))
    low = lambda n: noted(job([face.format(d="down") for face in HOOK], lower=[(0, 3000000, -10000, 10000, -40000, 0)], stages=[stage(punch="P100 1000000 0", die=f"D16 {n} 16000 0")]), (3, "3 P 0 6 2 4 0"))
    limit("machine_lowered", low, 20000, 400000, ("a lower box of the machine stands under the dies, here met", "and lower by 1 clear"))
    punch = dict(punch="P100 45000 0", punch_boxes=[(-1, 1, 0, 1), (-10000, 10000, 20000, 45000)])
    die = dict(die="D16 45000 16000 0", die_boxes=[(-1, 1, -1, 0), (-10000, 10000, -45000, -20000)])
    beam = [(0, 100, -10, 10, 0, 10), (0, 3000000, -10000, 10000, 0, 50000)]
    bed = [(0, 100, -10, 10, -10, 0), (0, 3000000, -10000, 10000, -50000, 0)]
    upper = lambda width: job([f"web {width} 60000", f"north 0 N 0 {width} 40000 up", f"lip 1 N 0 {width} 100000 up", f"south 0 S 0 {width} 30000 up"], upper=beam, stages=[stage(**punch), stage(x0=300000, **punch)])
    lower = lambda width: job([f"web {width} 60000", f"north 0 N 0 {width} 40000 down", f"lip 1 N 0 {width} 100000 down", f"south 0 S 0 {width} 30000 up"], lower=bed, stages=[stage(**die), stage(x0=300000, **die)])
    told = ("the machine's first box, elsewhere along the bed", "the machine's second box", "the first box of stage 0's tool, too small", "its second box", "the first of stage 1's", "the second of stage 1's", "past the last")
    for index, what in enumerate(told):
        case(f"upper_index_{index}", hit(upper(100000), f"4 2 1 {index}"), f"index {index} of the upper group: {what}")
        case(f"lower_index_{index}", hit(lower(100000), f"6 2 4 {index}"), f"index {index} of the lower group: {what}")
    case("upper_of_another_stage", hit(upper(105000), "4 2 1 5"), "a part that reaches over stage 1: its punch stands in the way too")
    case("lower_of_another_stage", hit(lower(105000), "6 2 4 5"), "so does its die")
    huge = job(stages=[stage(die="D 1000000 1000000 0", die_boxes=[(-1000000, 1000000, -1000000, 0)])])
    case("around_the_origin", noted(huge, (0, "1 C 0 6 1 4 0")), "an obstacle that holds the whole cover, far from all its edges: the origin is a special point")
    x_range = lambda x1: hit(up(upper=[(0, x1, -10000, 10000, 0, 50000)], stages=[stage(punch="P100 20000 0")]), "4 2 1 0")
    limit("upper_along_the_bed", x_range, 100000, 250000, ("an upper box that ends where the part begins", "and one longer by 1"))
    for half, back in (("B", "P"), ("F", "C")):
        for name, one in (("behind", (30000, 40000, 20000, 30000)), ("before", (-40000, -30000, 20000, 30000))):
            case(f"mirror_{half}_{name}", noted(up(stages=[stage(punch_boxes=[one], **tools)]), (3, f"3 {back} 0 4 2 1 0")), f"an obstacle {name} the bend line, and the hook in half {half}: the front half is looked at in a mirror, with the obstacle")
    absent()
    sunk()


def absent():
    """Reasons that name a box that isn't there, beside obstacles that are."""
    lines = job([face.format(d="up") for face in HOOK], stages=[stage(punch_boxes=[(-10000, 10000, 20000, 45000)], punch="P100 1000000 90000", die="D16 60000 16000 0", die_boxes=[(-10000, 10000, -60000, -7000)])])
    for box, what in ((12, "face 12, which the part hasn't"), (15, "the corner of bend 3, which is flat")):
        for kind, rest in ((4, "1 0"), (5, "1 0"), (6, "4 0"), (7, "1 3")):
            case(f"absent_{box}_{kind}", noted(lines, (3, f"3 P 0 {kind} {box} {rest}")), f"reason {kind} of {what}")
        case(f"absent_other_{box}", noted(lines, (3, f"3 P 0 7 2 1 {box}")), f"reason 7 against {what}")


def sunk():
    flat = lambda one, v=16000, q=1919, **parts: job(part=f"S235 2000 2000 {q}", stages=[stage(die=f"D16 60000 {v} 0", die_boxes=[one], **parts)])
    for name, make, low, high, what in (
        ("sunk_behind", lambda n: flat((n, 30000, -20000, 0)), 8000, 0, "a box that begins at V/2 is sunk, and the flat sheet isn't tested against it"),
        ("sunk_before", lambda n: flat((-30000, n, -20000, 0)), -8000, 0, "one that ends at -V/2"),
        ("sunk_deep", lambda n: flat((-5000, 5000, -20000, n)), -8000, 0, "one whose top lies at -V/2"),
    ):
        note = "1 C 0 6 0 4 0" if name == "sunk_before" else "1 C 0 6 1 4 0"
        limit(name, lambda n, make=make, note=note: noted(make(n), (0, note)), low, high, (f"{what}: not told", "at the next number it isn't sunk"))
    two = [stage(die="D16 60000 16000 0", die_boxes=[(8000, 30000, -20000, 0)]), stage(x0=300000, die="D24 60000 24000 0")]
    case("sunk_at_stage_0", noted(job(stages=two), (0, "1 C 0 6 1 4 0")), "sunk by the V of the stage in use, here 16,000")
    case("sunk_at_stage_1", noted(job(("base 105000 50000", "leg 0 N 0 105000 30000 up"), stages=two), (0, "1 C 1 6 1 4 0")), "at stage 1, whose V is 24,000, the same box isn't sunk, and the flange reaches over it")
    case("sunk_by_v", noted(flat((8000, 30000, -20000, 0), 16002), (0, "1 C 0 6 1 4 0")), "V wider by 2: the box of stage 0 isn't sunk there")
    down = lambda q: noted(job(("web 100000 60000", "north 0 N 0 100000 30000 down", "south 0 S 0 100000 30000 up"), f"S235 2000 2000 {q}", stages=[stage(die="D16 60000 16000 0", die_boxes=[(40000, 70000, -20000, 0)])]), (1, "2 P 0 6 13 4 0"))
    limit("deep_piece", down, 2000, 2100, ("a corner that hangs no deeper than the sheet is thick, z0 = -Q = -t: not tested against a sunk box", "deeper by 1 it is"))
    case("sunk_and_upright", noted(job(U, stages=[stage(die="D16 60000 16000 0", die_boxes=[(40000, 70000, -20000, 0)])]), (1, "2 P 0 6 1 1 0")), "a piece in quarter 1 isn't tested against sunk boxes, also where their raised shape would meet it")
    case("raised_and_upright", noted(job(U, stages=[stage(die="D16 60000 16000 0", die_boxes=[(7999, 70000, -20000, 0)])]), (1, "2 P 0 6 1 1 0")), "here the box isn't sunk, and the piece meets it")
    case("sunk_and_hanging", noted(job(DOWN[:2] + U[2:], stages=[stage(die="D16 60000 16000 0", die_boxes=[(40000, 70000, -20000, 0)])]), (1, "2 P 0 6 1 4 0")), "a hanging flange is tested against sunk boxes")


def selves():
    section("Reason 7: when the halves of the part meet")
    for quarter, way, *found in SELF:
        lengths, back, front, at, box, other, clear, hit = found
        parts = [doubled([n if i == at else length for i, length in enumerate(lengths)], back, front) for n in (clear, hit)]
        note = (27, f"3 P 0 7 {box} {quarter} {other}")
        name = f"self_quarter_{quarter}_way_{way + 1}"
        case(f"{name}_clear", noted(parts[0], note), f"reason 7, quarter {quarter}: clear since {WAYS[way]}")
        case(f"{name}_hit", noted(parts[1], note), "one farther it isn't")
        case(f"{name}_turned", noted(parts[1], (27, f"3 P 0 7 {other} {quarter} {box}")), "the first box is of the back half, and the other of the front half")
        case(f"{name}_front", noted(parts[1], (27, f"3 C 0 7 {box} {quarter} {other}")), "with the other side at the back the halves are turned")


def doubled(lengths, back, front):
    """A part with a hook on either side of its bend 3, which is bent last."""
    north, lip, south, foot, toe = lengths
    faces = ("web 100000 60000", f"north 0 N 0 100000 {north} {back}", f"lip 1 N 0 100000 {lip} {back}", f"south 0 S 0 100000 {south} up", f"foot 3 N 0 100000 {foot} {front}", f"toe 4 N 0 100000 {toe} {front}")
    return job(faces, stages=[stage(punch="P100 1000000 0", die="D16 60000 16000 0")])


def all_cases():
    for cases in (meetings, widenings, rays, touching, noses, obstacles, selves):
        cases()
