"""Cases of tables: their texts, their rows, and two that are merged."""
from checker import next_key
from certs import FREE, U, changed, job, read, refused_row, section, stage, table, table_case

LINES = list(job(U))  # each stroke is refused by its load
ONE = read(LINES)
FREE_LINES = list(job(U, stages=[stage(load=FREE)]))
TWO_STAGES = list(job(U, stages=[stage(), stage(x0=400000)]))
PLAIN = table(LINES, refused_row(ONE, 0))
# the rows of worth none at the keys to which the actions of the start lead
NEXT = [refused_row(ONE, key[0], " ".join(map(str, key))) for key in sorted({tuple(next_key(ONE, [0, 0, 0], b, back, 0)) for b in (1, 2) for back in (0, 1)})]
NO_ROW = table(LINES)


def edited(text, old, new):
    assert text.count(old) >= 1, old
    return text.replace(old, new, 1)


def texts():
    section("The text of a table")
    table_case("plain", "the table from which most of these are made: a U channel of which each stroke is refused by its load", PLAIN)
    table_case("no_row", "a table may have no row, and then the bound alone is proved", NO_ROW)
    for name, old, new, what in (
        ("version_2", b"brake-table 1", b"brake-table 2", "the first line is `brake-table 1`"),
        ("first_line_of_a_certificate", b"brake-table 1", b"brake-cert 2", "and not that of a certificate"),
        ("no_gang", b"gang 0\n", b"", "each line of the job has its place"),
        ("claim", b"row 0", b"claim none\nrow 0", "there is no claim"),
        ("step", b"row 0", b"step 1 P 0 0 0\nrow 0", "and no step"),
        ("note_before_the_rows", b"row 0", b"x 1 P 0 9\nrow 0", "a note stands behind a row"),
        ("zero_first", b"row 0 0", b"row 00 0", "a number has no 0 before other digits"),
        ("end_missing", b"end\n", b"", "the last line is `end`"),
        ("end_not_whole", b"end\n", b"end", "which is whole"),
        ("line_behind", b"end\n", b"end\nend\n", "and nothing follows it"),
        ("byte_behind", b"end\n", b"end\nx", "not even a part of a line"),
    ):
        table_case(name, what, edited(PLAIN, old, new))
    old = [line for line in LINES if line.split()[0] not in ("gang", "force", "load")]
    table_case("job_of_version_1", "the job's lines are those of version 2", table(old, ("0 0 0 200", [])))
    wrong = table(changed(LINES, ("uncovered", "uncovered -1")), refused_row(ONE, 0))
    table_case("invalid_job", "a job that isn't valid is told at the first row", wrong)
    table_case("invalid_job_without_rows", "or at `end`, where there is no row", table(changed(LINES, ("uncovered", "uncovered -1"))))
    table_case("invalid_job_and_wrong_row", "where that line may not stand there, it is told first", edited(wrong, b"row 0 0", b"row 00 0"))
    table_case("invalid_job_and_note", "so is a note in its place", edited(wrong, b"row 0", b"x 1 P 0 9\nrow 0"))
    table_case("invalid_job_and_wrong_note", "behind that line nothing is looked at", edited(wrong, b"x 1 P 0 9", b"x 1 P 0 09"))
    table_case("invalid_job_cut", "a first line behind the job's that isn't whole: the text ends too early", wrong[: wrong.index(b"row 0") + 9])
    table_case("first_row_cut", "so where the job is valid", PLAIN[: PLAIN.index(b"row 0") + 9])


def rows():
    section("The lines of rows and notes")
    for name, lines, told, what in (
        ("row_of_the_full_mask", LINES, [("3 0 0 0", [])], "the set of all bends has no row"),
        ("row_attitude_24", LINES, [("1 24 0 0", [])], "attitudes are 0 to 23"),
        ("row_attitude_23", LINES, [("1 23 0 0", [])], "23 is one"),
        ("row_stage_1", LINES, [("1 0 1 0", [])], "stages are the job's"),
        ("row_worth_greatest", LINES, [("0 1 0 1000000000", [f"{b} {back} 0 9" for b in (1, 2) for back in "PC"])], "a worth of 1,000,000,000 is read"),
        ("row_worth_too_great", LINES, [("0 1 0 1000000001", [])], "and none above it"),
        ("rows_by_mask", LINES, [("2 0 0 0", []), ("1 0 0 0", [])], "rows go up by mask"),
        ("rows_by_attitude", LINES, [("1 2 0 0", []), ("1 1 0 0", [])], "then by attitude"),
        ("rows_by_stage", TWO_STAGES, [("1 0 1 0", []), ("1 0 0 0", [])], "then by stage"),
        ("rows_in_order", TWO_STAGES, [("1 0 1 0", []), ("1 1 0 0", []), ("2 0 0 0", [])], "here they go up"),
        ("row_twice", LINES, [("1 0 0 0", []), ("1 0 0 5", [])], "a key has one row, told at the second"),
        ("note_of_a_folded_bend", LINES, [("1 0 0 0", ["1 P 0 9"])], "a note's bend isn't folded at its row"),
        ("notes_out_of_order", LINES, [("1 0 0 0", ["2 C 0 9", "2 P 0 9"])], "notes go up by action"),
        ("note_twice", LINES, [("1 0 0 0", ["2 P 0 9", "2 P 0 9"])], "one note for an action"),
        ("note_reason_10", LINES, [("1 0 0 0", ["2 P 0 10"])], "reasons are 1 to 9"),
    ):
        table_case(name, what, table(lines, *told))
    gangs = list(job(("web 100000 60000", "one 0 N 0 40000 30000 up", "two 0 N 50000 40000 30000 up", "three 0 S 0 100000 30000 up"), gang=1))
    table_case("note_of_no_lead", "with gangs a note's bend leads its group", table(gangs, ("4 0 0 0", ["2 P 0 9"])))
    table_case("note_of_a_lead", "the least bend of the group leads it", table(gangs, ("4 0 0 0", ["1 P 0 9"])))
    table_case("one_bend", "the only row of a part with one bend is that of the start", table(list(job()), refused_row(read(list(job())), 0)))
    table_case("no_bend", "a part without bends has no row: nothing has to be done, and 0 is proved", table(list(job(("base 100000 50000",)))))


def conditions():
    section("What rows have to meet")
    for name, told, what in (
        ("worth_of_the_bound", [("0 0 0 200", [])], "each action is closed by the bound of the next key"),
        ("worth_above", [("0 0 0 201", [])], "one more isn't: the first action that isn't closed is told"),
        ("worth_below_the_bound", [("0 0 0 1", [])], "a worth below the bound does no harm, and the bound is proved"),
        ("false_note", [("0 0 0 200", ["2 P 0 8"])], "a note whose reason doesn't hold is told, also where its action is closed"),
        ("closed_by_the_next_row", [("1 0 0 130", ["2 P 0 8"])], "bend 2 with the parent at the back can't be gauged, and with the child it costs 130"),
        ("one_more_than_closed", [("1 0 0 131", ["2 P 0 8"])], "one more isn't closed"),
        ("note_missing", [("1 0 0 130", [])], "without the note it isn't either, and that action is told"),
        ("worth_none_without_notes", [("1 0 0 none", ["2 P 0 8"])], "none is above every cost"),
        ("second_row_fails", [("0 0 0 200", []), ("1 0 0 131", ["2 P 0 8"])], "rows are counted from 0"),
        ("both_rows_fail", [("0 0 0 201", []), ("1 0 0 130", ["2 P 0 9"])], "the first row that fails is told, here by an action that isn't closed"),
        ("note_fails_before", [("1 0 0 131", ["2 P 0 9"])], "in a row the first action that fails is told, here by its note"),
        ("note_fails_behind", [("1 0 0 131", ["2 C 0 9"])], "and here by the worth"),
        ("row_where_no_plan_leads", [("1 7 0 160", ["2 P 0 8"])], "a row may be one to which no plan leads"),
        ("last_row_fails", [("0 0 0 200", []), ("1 0 0 130", ["2 P 0 8"]), ("2 5 0 161", ["1 P 0 8"])], "the last row is looked at as well"),
    ):
        table_case(name, what, table(FREE_LINES, *told))
    table_case("reason_that_is_not_the_first", "a reason that holds may be noted, also where another one is the first", table(LINES, ("1 0 0 0", ["2 P 0 8", "2 C 0 9"])))
    table_case("none_by_rows", "none at the start is closed by rows of none at all keys to which an action leads", table(LINES, ("0 0 0 none", []), *NEXT))
    table_case("none_but_for_one_row", "and isn't where one of them is missing", table(LINES, ("0 0 0 none", []), *NEXT[:-1]))


def merged():
    section("Two tables that are merged")
    one, two = ("1 0 0 130", ["2 P 0 8"]), ("2 0 0 100", ["1 P 0 8"])
    a, b = table(FREE_LINES, one), table(FREE_LINES, two)
    table_case("merged_keys", "the keys of both", a, b)
    table_case("merged_keys_turned", "in the order of the keys, whatever that of the tables", b, a)
    table_case("merged_with_itself", "a table merged with itself is itself", a, a)
    table_case("merged_with_no_row", "a table merged with one without rows is itself", a, table(FREE_LINES))
    low = table(FREE_LINES, ("1 0 0 100", []))
    table_case("merged_greater_first", "of two worths the greater one, with its notes", a, low)
    table_case("merged_greater_second", "in either order", low, a)
    noted = table(FREE_LINES, ("1 0 0 100", ["2 P 0 8"]))
    table_case("merged_lesser_with_notes", "the notes of the lesser worth are dropped", noted, table(FREE_LINES, ("1 0 0 120", ["2 P 0 8"])))
    bare = table(LINES, ("0 0 0 200", []))
    more = table(LINES, ("0 0 0 201", [f"{b} {back} 0 9" for b in (1, 2) for back in "PC"]))
    table_case("merged_notes_of_the_greater", "the greater worth's notes alone", more, table(LINES, ("0 0 0 200", ["1 P 0 9"])))
    table_case("merged_no_note_of_the_lesser", "and none of the lesser one, wherever it stands", table(LINES, ("1 0 0 100", ["2 C 0 9"])), table(LINES, ("1 0 0 130", ["2 P 0 9"])))
    table_case("merged_settles_nothing", "no row is settled anew: the start's worth stays, though the other table's rows of none would raise it", table(LINES, ("0 0 0 200", [])), table(LINES, *NEXT))
    table_case("merged_none_and_number", "none is greater than every number", table(LINES, refused_row(ONE, 0)), more)
    table_case("merged_notes_united", "at equal worth the notes of both", table(LINES, ("0 0 0 200", ["1 P 0 9"])), table(LINES, ("0 0 0 200", ["2 C 0 9"])))
    table_case("merged_notes_and_none", "also where one has none", bare, table(LINES, ("0 0 0 200", ["2 C 0 9"])))
    for name, first, second, what in (
        ("merged_reason_9_before_8", "2 P 0 8", "2 P 0 9", "of two reasons for one action the first: 9 comes before 8"),
        ("merged_reason_8_behind_9", "2 P 0 9", "2 P 0 8", "in either order"),
    ):
        table_case(name, what, table(LINES, ("1 0 0 100", [first])), table(LINES, ("1 0 0 100", [second])))
    reasons()
    refusals(a, b)


def reasons():
    """Reasons of one kind go by their words: of a channel between whose walls two boxes of a punch stand, and of a die that is too wide."""
    tall = list(job(("web 100000 60000", "north 0 N 0 100000 80000 up", "south 0 S 0 100000 80000 up"), stages=[stage(punch_boxes=[(-20000, 20000, 6000, 100000), (-6000, 6000, 6000, 100000)], load=FREE)]))
    many = changed(tall, ("punch", "punch P100 100000 6000", *["box -6000 6000 6000 100000"] * 6), ("uncovered", *["upper 0 3000000 -60000 60000 0 300000"] * 3, "uncovered 5000"))
    short = list(job(("web 100000 60000", "north 0 N 0 100000 10000 up", "south 0 S 0 100000 10000 up"), stages=[stage(die="D16 60000 16000 60000")]))
    for name, lines, first, second, what in (
        ("merged_by_index", tall, "2 P 0 4 1 1 0", "2 P 0 4 1 1 1", "of two reasons of one kind that with the lesser words"),
        ("merged_by_index_turned", tall, "2 P 0 4 1 1 1", "2 P 0 4 1 1 0", "in either order"),
        ("merged_by_number", many, "2 P 0 4 1 1 10", "2 P 0 4 1 1 9", "as numbers: 9 before 10"),
        ("merged_by_half", short, "2 P 0 2 F", "2 P 0 2 B", "`B` before `F`"),
        ("merged_by_kind", short, "2 P 0 9", "2 P 0 2 F", "and a lesser kind before a greater one"),
    ):
        table_case(name, what, table(lines, ("1 0 0 100", [first])), table(lines, ("1 0 0 100", [second])))


def refusals(a, b):
    bad, cut = table(FREE_LINES, ("1 0 0 131", ["2 P 0 8"])), a[:-4]
    other = table(changed(FREE_LINES, ("uncovered", "uncovered 5001")), ("1 0 0 130", ["2 P 0 8"]))
    table_case("merged_other_job", "two tables of one job alone are merged", a, other)
    table_case("merged_other_name", "a name is part of the job", a, table(changed(FREE_LINES, ("part S235", "part S236 2000 2000 1919"))))
    table_case("merged_first_refused", "the first table is checked", bad, b)
    table_case("merged_second_refused", "and the second one", b, bad)
    table_case("merged_both_refused", "the first is checked before the second is read", bad, cut)
    table_case("merged_second_cut", "the number is that of the file word", a, cut)
    table_case("merged_second_refused_of_another_job", "both are checked before their jobs are compared", a, edited(other, b"130", b"131"))


def all_cases():
    for cases in (texts, rows, conditions, merged):
        cases()
