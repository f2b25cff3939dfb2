"""Cases of the gauge, and of reason 8."""
from certs import FREE, GAUGE, LEG, case, changed, job, limit, noted, section, stage, stepped


def gauges():
    section("Reason 8 and the gauge")
    def ruled(at, number, faces=LEG, **parts):
        return job(faces, gauge=[number if i == at else value for i, value in enumerate(GAUGE)], stages=[stage(load=FREE)], **parts)
    fits = ("the pair is legal", "and at the next number it isn't")
    for name, at, low, high, step, what in (
        ("near", 0, 5000, 50000, "1 C 0 1 1", "NEAR is at most g, the far edge of the leg"), ("far", 1, 600000, 5000, "1 C 0 1 1", "FAR is at least g"),
        ("far_parent", 1, 600000, 5000, "1 P 0 0 0", "with `P` g is the far edge of the base"), ("gap", 4, 10000, 90000, "1 C 0 1 1", "between the fingers there is GAP at least"),
        ("inset", 2, 5000, 90000, "1 C 0 1 1", "and INSET and FINGER take their room from both ends"), ("finger", 3, 10000, 90000, "1 C 0 1 1", "FINGER, with a gap"),
    ):
        make = lambda n, at=at, step=step: stepped(changed(ruled(at, n), ("cost", "cost 100 0 0 0 0 0")), 100, step)
        limit(f"gauge_{name}", make, low, high, (f"{what}: {fits[0]}", fits[1]))
        note = lambda n, at=at, step=step: noted(changed(ruled(at, n), ("load 0 0", "load 2 1")), (0, f"{step[:5]} 8"))
        limit(f"gauge_{name}_note", note, low, high, ("a note of reason 8 doesn't hold where a pair is legal", "and holds where none is"))
    two_fingers(ruled, fits)
    flats()
    between()
    apart()
    fingers()


def two_fingers(ruled, fits):
    tabs = ("web 100000 60000", "one 0 N 0 45000 30000 up", "two 0 N 55000 45000 30000 up", "south 0 S 0 100000 30000 up")
    free = (("cost", "cost 100 0 0 0 0 0"),)
    for step, what in (("3 P 0 1 2", "the left finger at face 1, the right one at face 2; the answer is that bends are left flat"), ("3 P 0 2 1", "the other way round the fingers would cross"), ("3 P 0 1 1", "both at one face"), ("3 P 0 1 0", "the web's far edge is another"), ("3 P 0 3 3", "a face of the front half isn't legal")):
        name = step.split()
        case(f"pair_{name[3]}_{name[4]}", stepped(changed(ruled(4, 0, tabs), *free), 300, step), f"two tabs at the back: {what}")
    for name, at, what in (("inset", 2, "the finger stays within its own face: INSET and FINGER"), ("finger", 3, "so by FINGER")):
        make = lambda n, at=at: stepped(changed(ruled(at, n, tabs), *free, (f"gauge", f"gauge {' '.join(map(str, [n if i == at else 0 if i == 4 else value for i, value in enumerate(GAUGE)]))}")), 300, "3 P 0 1 2")
        limit(f"pair_{name}", make, 5000, 60000, (f"{what}: {fits[0]}", fits[1]))
    long = ("web 100000 60000", "one 0 N 0 45000 30000 up", "two 0 N 55000 45000 30001 up", "south 0 S 0 100000 30000 up")
    case("pair_unequal", stepped(changed(ruled(4, 0, long), *free), 300, "3 P 0 1 2"), "the far edges have to be equal: here by 1 they aren't")
    narrow = ("web 100000 60000", "one 0 N 0 14000 30000 up", "two 0 N 55000 45000 30000 up", "south 0 S 0 100000 30000 up")
    case("narrow_left", stepped(changed(ruled(4, 0, narrow), *free), 300, "3 P 0 1 2"), "a left finger that doesn't find room on its own narrow face")
    case("narrow_alone", stepped(changed(ruled(4, 0, narrow), *free), 300, "3 P 0 2 2"), "both on the wide one")
    other = ("web 100000 60000", "one 0 N 0 45000 30000 up", "two 0 N 86000 14000 30000 up", "south 0 S 0 100000 30000 up")
    case("narrow_right", stepped(changed(ruled(4, 0, other), *free), 300, "3 P 0 1 2"), "a right finger that doesn't")


def flats():
    zero = ("gauge", "gauge 0 600000 5000 10000 10000 20000 10000 10000")
    free = ("cost", "cost 100 0 0 0 0 0")
    plain = changed(job(stages=[stage(load=FREE)]), zero, free)
    even = job(("web 100000 60000", "one 0 N 0 45000 3838 up", "two 0 N 55000 45000 30000 up", "south 0 S 0 100000 30000 up"), gauge=(5000, 600000, 5000, 10000, 0, 20000, 10000, 10000), cost=(100, 0, 0, 0, 0, 0), stages=[stage(load=FREE, punch="P100 100000 0", die="D16 60000 16000 0")])
    for left, right, what in ((1, 1, "the flat tab for both fingers"), (1, 2, "an upright tab with the same far edge isn't legal for the right finger"), (2, 1, "nor for the left one")):
        case(f"upright_even_{left}_{right}", stepped(even, 300, "2 C 0 2 2", f"3 P 0 {left} {right}"), what)
    odd = changed(even, ("face one", "face one 0 N 0 45000 30000 up"), ("face two", "face two 0 N 55000 45000 3838 up"))
    case("upright_even_left", stepped(odd, 300, "1 C 0 1 1", "3 P 0 1 2"), "an upright tab isn't legal for the left finger, beside a flat one for the right finger")
    case("upright_even_alone", stepped(odd, 300, "1 C 0 1 1", "3 P 0 2 2"), "and here the flat one has both")
    for left, right, back, what in ((0, 0, "C", "a face of the front half ends at the line, g = 0, and isn't legal"), (1, 1, "P", "so with `P`")):
        case(f"front_face_{back}", stepped(plain, 100, f"1 {back} 0 {left} {right}"), what)
    down = job(("base 100000 50000", "leg 0 N 0 100000 30000 down"), stages=[stage(load=FREE)], cost=(100, 0, 0, 0, 0, 0))
    narrow = job(("base 100000 50000", "leg 0 N 40000 20000 30000 up"), stages=[stage(load=FREE)])
    case("front_face_beside_the_leg", stepped(changed(narrow, zero, free), 100, "1 C 0 0 0"), "nor where the leg is narrow, so that the fingers would stand free beside it")
    case("flat_upside_down", stepped(down, 100, "1 C 0 1 1"), "a part that is turned over lies flat too: its z axis points down")
    step = job(("web 100000 60000", "north 0 N 0 100000 30000 up", "far 1 N 0 100000 40000 down", "south 0 S 0 100000 30000 up"), stages=[stage(load=FREE)], cost=(100, 0, 0, 0, 0, 0))
    case("parallel_and_higher", stepped(step, 300, "1 C 0 2 2", "2 C 0 2 2", "3 P 0 2 2"), "a face that lies parallel to the sheet and higher isn't flat in its plane")
    case("upright", stepped(step, 300, "1 C 0 2 2", "2 C 0 2 2", "3 P 0 1 1"), "nor is an upright one")


def between():
    """An upright face whose box lies between the sheet's surfaces all the same: it is as high as the sheet is thick."""
    faces = lambda length: ("web 100000 60000", f"north 0 N 0 100000 {length} up", "lip 1 N 0 100000 30000 down", "drop 2 N 0 100000 3919 down", "south 0 S 0 100000 30000 up")
    case("upright_between", noted(job(faces(3919)), (7, "4 P 0 8")), "an upright face, from z = -t to 0, isn't flat: no pair is legal, and reason 8 holds")
    case("level_between", noted(job(("web 100000 60000", "north 0 N 0 100000 30000 up", "south 0 S 0 100000 30000 up")), (0, "2 P 0 8")), "a face that is level there is: reason 8 doesn't hold")


def apart():
    """Pairs that are the only legal ones, told by a note of reason 8 that doesn't hold."""
    for name, at, other, what in (("apart", 0, 70000, "two tabs, each too narrow for both fingers: a pair of different faces is legal"), ("apart_turned", 70000, 0, "the left finger at the face of the greater number")):
        tabs = ("web 100000 60000", f"one 0 N {at} 30000 30000 up", f"two 0 N {other} 30000 30000 up", "south 0 S 0 100000 30000 up")
        case(name, noted(job(tabs), (0, "3 P 0 8")), f"{what}, and reason 8 doesn't hold")
    tab = lambda above: noted(job(("web 100000 60000", "south 0 S 0 100000 30000 up", "tab 0 N 0 30000 30000 up"), "S235 2000 2000 2500", gauge=(5000, 600000, 5000, 10000, 10000, 20000, above, 10000)), (2, "1 P 0 8"))
    case("corner_in_the_way", tab(0), "a finger that would stand in the corner of a folded tab, and in no face: Q is above t, and ABOVE is 0")
    case("corner_beside", noted(job(("web 100000 60000", "south 0 S 0 100000 30000 up", "tab 0 N 40000 20000 30000 up"), "S235 2000 2000 2500"), (2, "1 P 0 8")), "between the fingers it isn't in the way")


def fingers():
    """Limits at which the box of a finger touches the part, and at which it runs into it."""
    def walled(at, number, direction="up", lip=30000):
        """A web with a wall that reaches behind its far edge, and a lip on that wall behind the right finger."""
        faces = ("web 100000 60000", "south 0 S 5000 90000 30000 up", f"east 0 E 0 55000 30000 {direction}", f"further 2 W 3000 20000 20000 {direction}", f"lip 3 N 0 20000 {lip} {direction}")
        gauge = [number if i == at else value for i, value in enumerate((5000, 600000, 5000, 10000, 10000, 30000, 10000, 10000))]
        return noted(job(faces, gauge=gauge), (10, "1 P 0 8"))
    for name, at, low, high, direction, what in (
        ("above", 6, 0, 40000, "up", "ABOVE the sheet up to a lip that stands behind the web"), ("below", 7, 0, 40000, "down", "BELOW it down to one that hangs there"),
        ("depth", 5, 1, 40000, "up", "DEPTH up to that lip"), ("inset", 2, 30000, 5000, "up", "INSET: the finger beside the lip"),
    ):
        make = lambda n, at=at, direction=direction: walled(at, n, direction)
        limit(f"finger_{name}", make, low, high, (f"{what}: touching is legal, and reason 8 doesn't hold", "one micrometre more isn't, and it holds"))
    limit("finger_beside", lambda n: walled(2, 5000, "up", n), 5000, 60000, ("a lip that ends where the right finger does", "one longer by 1"))
    limit("finger_left", lambda n: walled(2, 25000, "up", n), 5000, 70000, ("fingers farther from the ends", "the lip reaches the right one"))
    west = lambda n: ("web 100000 60000", "south 0 S 5000 90000 30000 up", "west 0 W 5000 55000 30000 up", "further 2 E 7000 20000 20000 up", f"lip 3 N 0 20000 {n} up")
    limit("finger_left_beside", lambda n: noted(job(west(n), gauge=(5000, 600000, 5000, 10000, 10000, 30000, 10000, 10000)), (10, "1 P 0 8")), 5000, 60000, ("a lip beside the left finger", "one longer by 1"))


def all_cases():
    gauges()
