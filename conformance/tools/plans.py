"""Cases of attitudes, prices, the bound, rows, and what a checker does with steps and claims."""
import itertools

import checker
from certs import BLOCK, FREE, U, case, changed, job, read, refused_row, section, stage, text

OTHER = {"N": "S", "S": "N", "E": "W", "W": "E"}
PRICES = (100, 20, 30, 60, 80, 7)

def parts_of_three():
    """Parts with a flange, a lip on it, and a third flange opposite, in all directions."""
    for side, lip, d, e in itertools.product("NESW", "NEW", ("up", "down"), ("up", "down")):
        width = 100000 if side in "NS" else 60000
        at, room = (0, width) if lip == "N" else (2000, 25000)
        yield side, lip, d, e, job(("web 100000 60000", f"flange 0 {side} 0 {width} 30000 {d}", f"lip 1 {lip} {at} {room} 30000 {e}", f"third 0 {OTHER[side]} 0 {width} 30000 up"))


def reached(lines, mask):
    """What each action at a mask leads to, as (action, its next key)."""
    one = read(lines)
    for b in one.bends:
        if checker.is_lead(one, mask, b):
            for back in (0, 1):
                yield f"{b} {'PC'[back]} 0", checker.next_key(one, [mask, 0, 0], b, back, 0)


def attitudes():
    section("Attitudes: the turn of face 0 in each stroke")
    missing = set(range(24))
    for side, lip, d, e, lines in parts_of_three():
        found = [(action, key) for action, key in reached(lines, 1) if key[1] in missing]
        if len(found) < 2 and len(missing) > 4 or not found:
            continue
        missing -= {key[1] for _, key in found}
        attitude_case(f"attitude_{side}_{d}_{lip}_{e}", lines, 1, found, f"the lip on side {lip} ({e}) of a flange on side {side} ({d})")
        if not missing:
            break
    for d, (side, width) in itertools.product(("up", "down"), (("N", 100000), ("E", 60000), ("S", 100000), ("W", 60000))):
        lines = job(("web 100000 60000", f"flange 0 {side} 0 {width} 30000 {d}", f"third 0 {OTHER[side]} 0 {width} 30000 up"))
        found = [(action, key) for action, key in reached(lines, 0) if action[0] == "1"]
        missing -= {key[1] for _, key in found}
        attitude_case(f"attitude_of_a_flange_{side}_{d}", lines, 0, found, f"a flange on side {side}, {d}")
    assert not missing


def attitude_case(name, lines, mask, found, what):
    """Accepted exactly where each of these actions leads to the key that has a row: nothing else proves the row at the mask."""
    one = read(lines)
    rows = [refused_row(one, 0, without=[action for action, _ in found] if mask == 0 else ())]
    if mask:
        rows.append(refused_row(one, mask, without=[action for action, _ in found]))
    keys = sorted({tuple(key) for _, key in found})
    rows += [refused_row(one, key[0], " ".join(map(str, key))) for key in keys]
    numbers = ", ".join(str(key[1]) for _, key in found)
    case(name, text(lines, "none", rows=rows), f"{what}: attitudes {numbers}")
    wrong = rows[-1][0].split()
    wrong[1] = str((int(wrong[1]) + 1) % 24)
    others = [row for row in rows[:-1] if not row[0].startswith(" ".join(wrong[:3]))]
    case(f"{name}_other", text(lines, "none", rows=sorted([*others, (" ".join(wrong), rows[-1][1])], key=lambda row: [int(word) for word in row[0].split()[:3]])), "with the last row at another attitude an action leads to no row")


def turns():
    section("What a change of attitude costs")
    for back in (0, 1):
        lines = job(cost=PRICES)
        one = read(lines)
        rows = [refused_row(one, 0)]
        for old in range(1, 24):
            cost = checker.step_cost(one, [0, old, 0], checker.attitude_of(one, 0, 1, back), 0)
            rows.append((f"0 {old} 0 {cost}", [f"1 {'CP'[back]} 0 9"]))
        case(f"prices_from_each_attitude_{'PC'[back]}", text(lines, "none", rows=rows), f"the price of the turn from each attitude to that of the stroke with {'PC'[back]}, as worths that are closed exactly")
        new = checker.attitude_of(one, 0, 1, back)
        for kind, price in zip(("none", "quarter", "half", "flip", "roll"), (0, *PRICES[1:5])):
            old = next((old for old in range(1, 24) if checker.turn_price(one, old, new) == price), None)
            if old:
                told = [(" ".join([*row[0].split()[:3], str(int(row[0].split()[3]) + 1)]), row[1]) if row[0].startswith(f"0 {old} ") else row for row in rows]
                case(f"price_of_{kind}_{'PC'[back]}", text(lines, "none", rows=told), f"from attitude {old}, {kind}: one more isn't closed")
    order()


def order():
    """An action of which the two ways to put the turns together differ in price."""
    for side, lip, d, e, lines in parts_of_three():
        one = read(changed(lines, ("cost", "cost 100 20 30 60 80 7")))
        for b, back in itertools.product((2, 3), (0, 1)):
            new = checker.attitude_of(one, 1, b, back)
            for old in range(24):
                turned = checker.product(checker.inverse(checker.ATTITUDES[old]), checker.ATTITUDES[new])
                price = checker.turn_price(one, 0, checker.ATTITUDES.index(turned))
                if price <= checker.turn_price(one, old, new):
                    continue
                told = checker.step_cost(one, [1, old, 0], new, 0) + checker.bound(one, checker.next_key(one, [1, old, 0], b, back, 0))
                action = f"{b} {'PC'[back]} 0"
                lines = changed(lines, ("cost", "cost 100 20 30 60 80 7"))
                notes = [note for note in refused_row(one, 1)[1] if not note.startswith(action)]
                for more, name, what in ((0, "order_of_turns", "the change is the new attitude after the inverse of the old one, and not the other way round"), (1, "order_of_turns_past", "one more isn't closed")):
                    case(name, text(lines, "none", rows=[refused_row(one, 0), (f"1 {old} 0 {told + more}", notes)]), what)
                return


def stages():
    section("Stages: the way between them, and the bound")
    short = dict(die="D16 60000 16000 11000", pieces=(60000,))
    three = [stage(), stage(x0=400000, **short), stage(x0=600000)]
    lines = job(U, stages=three, cost=PRICES)
    one = read(lines)
    start = refused_row(one, 0)
    exact = lambda key, without, value: text(lines, "none", rows=[start, (f"{key} {value}", [note for note in refused_row(one, int(key.split()[0]))[1] if " ".join(note.split()[:3]) not in without])])
    for name, key, action, new, what in (
        ("way_0", "1 0 0", "2 P 0", 0, "the same stage: no way"), ("way_2", "1 0 0", "2 P 2", 2, "from stage 0 to 2: twice the price"), ("way_back", "1 0 2", "2 P 0", 0, "and back"), ("way_1", "1 0 2", "2 P 1", 1, "to the next one"),
    ):
        closed(name, exact, one, key, action, what)
    for name, key, action, what in (("first_stroke", "0 2 2", "1 P 0", "before the first stroke no way is paid, whatever stage a key names; the turn is"),):
        early = lambda key, without, value: text(lines, "none", rows=[start, (f"{key} {value}", [note for note in start[1] if " ".join(note.split()[:3]) not in without])])
        closed(name, early, one, key, action, what)
    bounds()


def closed(name, make, one, key, action, what):
    """A row whose one action without a note is closed exactly, and one that says one more."""
    mask, old, last = map(int, key.split())
    b, back, where = action.split()
    new = checker.next_key(one, [mask, old, last], int(b), "PC".index(back), int(where))
    value = checker.step_cost(one, [mask, old, last], new[1], int(where)) + (checker.bound(one, new) if new[0] != one.full else 0)
    case(name, make(key, [action], value), what)
    case(f"{name}_past", make(key, [action], value + 1), "one more isn't closed")


FOUR = ("web 100000 100000", "north 0 N 0 100000 30000 up", "south 0 S 0 100000 30000 up", "small 2 N 0 40000 20000 up", "other 2 N 50000 40000 20000 up")


def wide(n):
    return (f"web {n} 60000", f"north 0 N 0 {n} 30000 up", f"south 0 S 0 {n} 30000 up")


def deep(n):
    return ("web 100000 60000", "north 0 N 0 100000 30000 up", f"south 0 S 0 100000 {n} up")


def bounds():
    big = stage(die="D40 60000 40000 25000")
    for name, faces, stages_, gang, key, action, what in (
        ("bound_strokes", U, [stage()], 0, "0 0 0", "1 C 0", "a stroke for each lead left"),
        ("bound_far", U, [stage(pieces=(20000,)), stage(x0=400000, pieces=(20000,)), stage(x0=600000)], 0, "0 0 0", "1 C 0", "and the way to the nearest stage that meets the lead's group: the first ones are too short"),
        ("bound_flange", FOUR, [big, stage(x0=400000, die="D40 60000 40000 25000"), stage(x0=600000, die="D40 60000 40000 5000")], 0, "0 0 0", "1 C 0", "or its least flange doesn't fit, by the child's core"),
        ("bound_greatest", FOUR, [big, stage(x0=400000, die="D40 60000 40000 25000"), stage(x0=600000, die="D40 60000 40000 5000")], 0, "1 0 0", "2 C 0", "the greatest over the leads left, and not their sum"),
        ("bound_none_meets", U, [stage(pieces=(20000,)), stage(x0=400000, pieces=(20000,))], 0, "0 0 0", "1 C 0", "a lead that no stage meets has the way 0"),
        ("bound_nearest", U, [stage(), stage(x0=400000, pieces=(20000,)), stage(x0=600000, pieces=(20000,)), stage(x0=700000)], 0, "0 0 0", "1 C 2", "the nearest of those that meet it, whichever side it lies"),
        ("bound_narrow", ("web 100000 60000", "north 0 N 50000 50000 30000 up", "south 0 S 0 100000 30000 up"), [stage(), stage(x0=400000, pieces=(300000,))], 0, "0 0 0", "2 C 0", "whether a line fits looks at its length, and not at where it lies"),
        ("bound_u_at", wide(110000), [stage(), stage(x0=400000, pieces=(300000,))], 0, "0 0 0", "1 C 0", "a line as long as the stage and twice U fits"),
        ("bound_u_beyond", wide(110001), [stage(), stage(x0=400000, pieces=(300000,))], 0, "0 0 0", "1 C 0", "one longer by 1 doesn't"),
        ("bound_least_at", deep(12919), [stage(), stage(x0=400000, die="D16 60000 16000 0")], 0, "0 0 0", "1 C 0", "a core as long as LEAST fits"),
        ("bound_least_below", deep(12918), [stage(), stage(x0=400000, die="D16 60000 16000 0")], 0, "0 0 0", "1 C 0", "one shorter by 1 doesn't"),
        ("bound_parent", ("web 100000 12000", "one 0 N 0 90000 30000 up", "two 1 E 2000 20000 30000 up"), [stage(), stage(x0=400000, die="D16 60000 16000 0")], 0, "0 0 0", "2 C 0", "of both cores, also the parent's of the lead that is left"),
        ("bound_gangs", FOUR, [stage(die="D16 60000 16000 5000")], 1, "0 0 0", "1 C 0", "with gangs a stroke for each lead, not for each bend"),
        ("bound_gang_span", FOUR, [stage(pieces=(60000,), die="D16 60000 16000 5000"), stage(x0=400000, die="D16 60000 16000 5000")], 1, "3 0 0", "3 C 0", "nothing is left behind the gang"),
        ("bound_gang_way", FOUR, [stage(pieces=(60000,), die="D16 60000 16000 5000"), stage(x0=400000, die="D16 60000 16000 5000")], 1, "1 0 0", "2 C 0", "a gang's group is met where its whole span is"),
        ("bound_no_gang_way", FOUR, [stage(pieces=(60000,), die="D16 60000 16000 5000"), stage(x0=400000, die="D16 60000 16000 5000")], 0, "1 0 0", "2 C 0", "without gangs each of them is met by the short stage"),
        ("bound_load", U, [stage(), stage(x0=400000, load=FREE)], 0, "0 0 0", "1 C 0", "whether a stage meets a group doesn't look at the load"),
    ):
        lines = job(faces, stages=stages_, gang=gang, cost=PRICES)
        one = read(lines)
        if any(s.load == 0 for s in one.stages):
            lines = changed(lines, ("load 0 0", "load 3 2"))
            one = read(lines)
        def make(key, without, value, lines=lines, one=one):
            mask = int(key.split()[0])
            row = (f"{key} {value}", [note for note in refused_row(one, mask)[1] if " ".join(note.split()[:3]) not in without])
            return text(lines, "none", rows=[row] if key == "0 0 0" else [refused_row(one, 0), row])
        closed(name, make, one, key, action, what)


def rows():
    section("Rows, notes and what they prove")
    lines = job(U)
    one = read(lines)
    at = {mask: refused_row(one, mask) for mask in (0, 1, 2)}
    only = lambda mask, kept: (at[mask][0], [note for note in at[mask][1] if note.split()[0] + note.split()[1] in kept])
    case("all_noted", text(lines, "none", rows=[at[0]]), "a note for each action at the start: no plan")
    case("no_row", text(lines, "none"), "no row: nothing but the bound is proved of the start")
    case("row_elsewhere", text(lines, "none", rows=[(f"0 1 0 none", at[0][1])]), "a row at another attitude proves nothing of the start")
    case("note_missing", text(lines, "none", rows=[only(0, ("1P", "1C", "2P"))]), "the last action has no note and isn't closed: Blocked is above each number")
    case("closed_by_a_row", text(lines, "none", rows=[only(0, ("1P", "1C", "2P")), ("2 2 0 none", at[2][1])]), "it leads to mask 2 in attitude 2, of which a row proves Blocked")
    case("closed_by_another_row", text(lines, "none", rows=[only(0, ("1P", "1C", "2P")), ("2 3 0 none", at[2][1])]), "a row at another attitude doesn't")
    case("worth_0", text(lines, "none", rows=[at[0], ("1 0 0 0", [])]), "a worth of 0 is closed by every action")
    case("full_is_0", text(lines, "none", rows=[at[0], ("1 0 0 100", ["2 P 0 9"])]), "at the full mask nothing is proved: 100 for the stroke, and 30 for the turn")
    case("full_is_0_past", text(lines, "none", rows=[at[0], ("1 0 0 131", ["2 P 0 9"])]), "and no more")
    case("first_fault_by_row", text(lines, "none", rows=[only(0, ("1C", "2P", "2C")), ("1 0 0 none", [])]), "of two faults that of the earlier row is told")
    case("first_fault_by_action", text(lines, "none", rows=[(at[0][0], ["1 P 0 9", "2 P 0 1", "2 C 0 9"])]), "of two in one row that of the lesser action, here one that isn't closed")
    case("first_fault_a_note", text(lines, "none", rows=[(at[0][0], ["1 P 0 1", "2 P 0 9", "2 C 0 9"])]), "and here a note that doesn't hold")
    case("note_and_closed", text(lines, "none", rows=[at[0], ("1 0 0 0", ["2 P 0 1", "2 C 0 9"])]), "a note has to hold, though the action would be closed without it")
    case("not_the_first_reason", text(job(U, frames=[(0, 900000)]), "none", rows=[at[0]]), "a note's reason needn't be the first that holds")
    two = job(U, stages=[stage(), stage(x0=400000, load=FREE)])
    more = read(two)
    whole = refused_row(more, 0)
    case("action_number", text(two, "none", rows=[(whole[0], [note for note in whole[1] if note.split()[2] == "0"])]), "the action of bend 1, `P`, stage 1 has the number 1")
    case("action_number_2", text(two, "none", rows=[(whole[0], ["1 P 0 9", "1 P 1 9", "1 C 0 9"])]), "its note doesn't hold: number 1")
    case("claim_by_the_bound", text(job(U, cost=(0, 0, 0, 0, 0, 0), stages=[stage(load=FREE)]), "0", ["2 P 0 1 1", "1 C 0 1 1"]), "a claim that the bound proves needs no row")


def claims():
    section("Steps and claims")
    free = [stage(load=FREE)]
    lines = job(U, stages=free)
    steps = ["2 P 0 1 1", "1 C 0 1 1"]
    proof = [("0 0 0 200", []), ("1 0 0 130", ["2 P 0 8"]), ("2 0 0 100", [])]
    case("u_channel", text(lines, "200", steps, proof), "a U channel and its proof")
    case("one_bend", text(job(stages=free), "100", ["1 C 0 1 1"]), "one bend: the bound is its cost")
    case("no_bend", text(job(("base 100000 50000",), stages=free), "0"), "a part without a bend: the empty plan costs nothing")
    case("no_bend_claimed", text(job(("base 100000 50000",), stages=free), "1"), "and not 1")
    case("no_bend_no_plan", text(job(("base 100000 50000",), stages=free), "none"), "nor is there no plan")
    case("no_bend_with_a_row", text(job(("base 100000 50000",), stages=free), "0", rows=[("0 0 0 0", [])]), "its mask 0 is full, and has no row")
    case("claim_lower", text(lines, "199", steps, proof), "the costs don't sum up to a lower claim")
    case("claim_higher", text(lines, "201", steps, proof), "nor to a higher one")
    case("dearer_plan", text(lines, "230", ["1 C 0 1 1", "2 C 0 2 2"], proof), "a plan that isn't the cheapest: more is claimed than is proved")
    far = job(U, stages=[stage(pieces=(20000,), load=FREE), stage(x0=400000, load=FREE)])
    case("start_without_a_way", text(far, "230", ["1 C 1 1 1", "2 C 1 2 2"]), "the bound of the start counts no way to the far stage, so it proves 200")
    case("proved_too_little", text(lines, "200", steps, [("0 0 0 199", []), *proof[1:]]), "the bound proves 200 of the start beside a row of 199")
    case("not_proved", text(lines, "200", ["1 C 0 1 1", "2 P 0 1 1"], proof), "a step without a legal gauge")
    case("step_folded", text(lines, "200", [steps[0], steps[0]], proof), "a step that folds a folded bend")
    case("step_left_flat", text(lines, "200", steps[:1], proof), "a bend is left flat")
    case("no_step", text(lines, "200", (), proof), "no step: both are")
    case("left_flat_and_cost", text(lines, "100", steps[:1], proof), "that is told before the cost")
    case("cost_and_rows", text(lines, "201", steps, [("0 0 0 none", [])]), "the cost is told before the rows")
    case("rows_and_claim", text(lines, "230", ["1 C 0 1 1", "2 C 0 2 2"], [("0 0 0 201", []), *proof[1:]]), "the rows before what is proved")
    case("step_before_left_flat", text(lines, "200", ["1 C 0 2 2"], proof), "and a step before all")
    case("any_legal_pair", text(job(("web 100000 60000", "one 0 N 0 100000 30000 up", "two 0 S 0 45000 30000 up", "three 0 S 55000 45000 30000 up"), stages=free, gauge=(5000, 600000, 5000, 10000, 10000, 20000, 10000, 10000), cost=(100, 0, 0, 0, 0, 0)), "300", ["1 P 0 3 3", "2 C 0 2 2", "3 C 0 3 3"]), "in step 0 a legal pair that isn't the first: 2 2 is legal too")
    gangs()


def gangs():
    tabs = ("web 100000 60000", "one 0 N 0 45000 30000 up", "two 0 N 55000 45000 30000 up", "south 0 S 0 100000 30000 up")
    free = [stage(load=FREE)]
    lines = job(tabs, stages=free, gang=1, cost=(100, 0, 0, 0, 0, 0))
    case("gang", text(lines, "200", ["3 P 0 1 1", "1 C 0 1 1"]), "one stroke for both tabs")
    case("gang_pair", text(lines, "200", ["3 P 0 1 1", "1 C 0 1 2"]), "all children of a gang are of the child's half: a finger at each")
    case("gang_pair_second", text(lines, "200", ["3 P 0 1 1", "1 C 0 2 2"]), "or both at the second")
    case("gang_by_its_second", text(lines, "200", ["3 P 0 1 1", "2 C 0 1 1"]), "a gang is named by its lead")
    case("gang_folded", text(lines, "200", ["1 C 0 1 1", "2 C 0 2 2", "3 C 0 3 3"]), "both are folded by it")
    case("gang_apart", text(changed(lines, ("gang", "gang 0")), "300", ["3 P 0 1 1", "1 C 0 1 1", "2 C 0 2 2"]), "without gangs each by itself, and then the folded tab stands in the nose's way")
    case("gang_and_flat", text(changed(lines, ("gang", "gang 0")), "200", ["3 P 0 1 1", "1 C 0 1 1"]), "so here one is left flat")
    late = read(job(tabs, gang=1))
    case("gang_in_part_folded", text(job(tabs, gang=1), "none", rows=[refused_row(late, 0), ("1 0 0 0", ["2 P 0 9", "3 P 0 9"])]), "where bend 1 is folded, bend 2 leads, alone")




def files():
    section("With the files")
    lines = changed(job(U, upper=[(0, 3000000, -60000, 60000, 0, 300000)], lower=[(0, 3000000, -30000, 30000, -300000, 0)], stages=[stage(load=FREE, punch_boxes=[(-6000, 6000, 6000, 100000)], die_boxes=BLOCK)]))
    steps = ["2 P 0 1 1", "1 C 0 1 1"]
    proof = [("0 0 0 200", []), ("1 0 0 130", ["2 P 0 8"]), ("2 0 0 100", [])]
    good = text(lines, "200", steps, proof)
    first = text([line for line in lines if line.split()[0] not in ("gang", "force", "load")], "200", steps, proof, version=1)
    case("files_own", good, "a certificate of the files' own job", "u_channel")
    case("files_version_1", first, "one in version 1 of the same job", "u_channel")
    for name, change, what in (
        ("q", ("part", "part S235 2000 2000 1920"), "Q comes from the tools file"), ("price", ("cost", "cost 100 20 30 60 80 41"), "a price that plays no part is another job all the same"),
        ("name", ("face north", "face nord 0 N 0 100000 30000 up"), "so is another name"), ("bed", ("bed", "bed 0 3000001"), "and a longer bed"), ("tool", ("punch", "punch P101 100000 6000"), "and another tool's name"),
        ("box", ("upper", "upper 0 3000000 -60000 60000 0 300001"), "and another box"),
    ):
        case(f"files_other_{name}", text(changed(lines, change), "200", steps, proof), what, "u_channel")
    case("files_other_and_bad", text(changed(lines, ("bed", "bed 0 3000001")), "201", steps, proof), "a certificate that isn't accepted is refused for itself, whatever its job", "u_channel")
    case("files_refused", good, "the files are refused before the certificate is read: the thickness is odd", "odd")
    case("files_refused_and_bad", b"", "whatever the certificate is", "odd")
    loaded = changed(lines, ("load", "load 300 400"))
    case("files_loads", text(loaded, "200", steps, proof), "L is that of the loads' row, and LIMIT the lesser of punch and die", "loads")
    case("files_other_limit", text(changed(loaded, ("load", "load 300 500")), "200", steps, proof), "the greater limit is another job", "loads")
    case("files_no_load", good, "so is none", "loads")
    case("files_limit_alone", text(changed(lines, ("load", "load 0 500")), "200", steps, proof), "a limit of one tool alone, and no loads", "limit")


def all_cases():
    for cases in (attitudes, turns, stages, rows, claims, files):
        cases()
