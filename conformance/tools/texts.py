"""Cases of spelling, of lines and their order, and of the reader's refusals."""
from certs import LEG, U, case, changed, job, noted, read, refused_row, section, stage, text

PLAIN = list(job())
GOOD = noted(PLAIN)


def edited(old, new, certificate=GOOD):
    assert certificate.count(old) >= 1, old
    return certificate.replace(old, new, 1)


def spellings():
    section("Words and their spelling")
    case("plain", GOOD, "the certificate from which most of these are made: an L section of which both strokes are refused by their load")
    for name, old, new, what in (
        ("zero_first", b"claim none", b"claim 0100", "a number has no 0 before other digits"),
        ("zero_first_in_a_job", b"uncovered 5000", b"uncovered 05000", "nor has a signed one"),
        ("plus", b"uncovered 5000", b"uncovered +5000", "there is no plus sign"),
        ("minus_zero", b"frame 0", b"frame -0", "0 has no minus sign"),
        ("minus_claim", b"claim none", b"claim -1", "a claim has no sign"),
        ("minus_mask", b"row 0 0", b"row -0 0", "nor has a mask"),
        ("digits_18", b"uncovered 5000", b"uncovered 100000000000000000", "18 digits are a number, here one out of range"),
        ("digits_19", b"uncovered 5000", b"uncovered 1000000000000000000", "19 digits are none"),
        ("digits_18_minus", b"uncovered 5000", b"uncovered -100000000000000000", "a sign isn't one of the 18 digits"),
        ("no_number", b"uncovered 5000", b"uncovered 5e3", "digits alone"),
        ("blank_at_end", b"force 0\n", b"force 0 \n", "no blank at the end of a line"),
        ("blank_at_end_of_end", b"end\n", b"end \n", "nor behind `end`"),
        ("two_blanks", b"gang 0", b"gang  0", "one space between words"),
        ("blank_first", b"gang 0", b" gang 0", "none before the keyword"),
        ("tab", b"gang 0", b"gang\t0", "a tab is no space"),
        ("carriage_return", b"gang 0\n", b"gang 0\r\n", "a line ends with a line feed alone"),
        ("empty_line", b"gang 0\n", b"\ngang 0\n", "no empty line"),
        ("nul", b"gang 0", b"gang 0\0", "no other byte"),
        ("capital", b"gang 0", b"Gang 0", "keywords are small"),
        ("name_of_24", b"S235", b"A" * 24, "a name has up to 24 bytes"),
        ("name_of_25", b"S235", b"A" * 25, "and not 25"),
        ("name_of_any_visible_byte", b"S235", b"!~#\"'\\", "from 33 to 126"),
        ("name_with_127", b"S235", b"S\x7f235", "127 is none of them"),
        ("name_beyond_ascii", b"S235", "Stäbe".encode(), "nor is one above"),
        ("no_name", b"part S235", b"part ", "a name isn't empty"),
        ("side_small", b"0 N 0", b"0 n 0", "sides are capital letters"),
        ("direction_capital", b" up", b" UP", "directions are small"),
        ("back_small", b"x 1 P", b"x 1 p", "so are none of the sides at the back"),
    ):
        certificate = noted(job(frames=[(0, 1)])) if name == "minus_zero" else GOOD
        case(name, edited(old, new, certificate), what)


def ends():
    section("The end of a text, and what is told first")
    case("empty", b"", "a text of no byte has no whole `end`")
    case("first_line_alone", b"brake-cert 2\n", "nor has this one")
    case("first_line_not_whole", b"brake-cert 2", "a line without its line feed isn't looked at")
    case("last_line_feed_missing", GOOD[:-1], "`end` without its line feed isn't whole")
    case("cut_in_a_wrong_line", GOOD[: GOOD.index(b"bed")] + b"bad 0", "a wrong line that isn't whole is no wrong line")
    case("byte_behind", GOOD + b"\n", "no byte follows `end`")
    case("line_behind", GOOD + b"end\n", "nor a line")
    case("not_whole_behind", GOOD + b"x", "nor a part of one")
    for name, line in (("version_3", b"brake-cert 3"), ("version_02", b"brake-cert 02"), ("table_file", b"brake-table 1"), ("no_version", b"brake-cert"), ("two_versions", b"brake-cert 2 2")):
        case(name, edited(b"brake-cert 2", line), "the first line is `brake-cert 1` or `brake-cert 2`, and nothing else")
    wrong = noted(changed(PLAIN, ("uncovered", "uncovered -1")))
    case("invalid_job", wrong, "a job's number out of range makes no valid job, told at the claim")
    case("invalid_job_and_wrong_line_before", edited(b"gang 0", b"gang x", wrong), "a wrong line before the claim is told first")
    case("invalid_job_and_wrong_claim", edited(b"claim none", b"claim 01", wrong), "so is a wrong claim line")
    case("invalid_job_and_wrong_line_behind", edited(b"end\n", b"ende\n", wrong), "behind the claim nothing is looked at")
    case("invalid_job_cut_before_the_claim", wrong[: wrong.index(b"\nrow")], "a claim that isn't whole: the text ends too early")
    case("invalid_job_cut_behind_the_claim", wrong[: wrong.index(b"row")], "a whole claim: the job is told")


def job_lines():
    section("The job's lines: their words, their order and their number")
    for name, change, what in (
        ("word_missing", ("gauge", "gauge 5000 600000 5000 10000 10000 20000 10000"), "a word too few"),
        ("word_too_many", ("gauge", "gauge 5000 600000 5000 10000 10000 20000 10000 10000 1"), "a word too many"),
        ("no_face", ("face base",), "face 0 stands behind the part"),
        ("face_0_on_a_face", ("face base", "face base 0 N 0 100000 50000 up"), "face 0 stands on none"),
        ("on_itself", ("face leg", "face leg 1 N 0 100000 30000 up"), "ON is less than the face's own number: told as a line"),
        ("on_signed", ("face leg", "face leg -0 N 0 100000 30000 up"), "ON has no sign"),
        ("on_a_name", ("face leg", "face leg base N 0 100000 30000 up"), "ON is a number and no name"),
        ("bed_missing", ("bed",), "each line has its place"),
        ("bed_twice", ("bed", "bed 0 3000000", "bed 0 3000000"), "and stands once"),
        ("uncovered_missing", ("uncovered",), "each line has its place"),
        ("gauge_missing", ("gauge",), "each line has its place"),
        ("cost_missing", ("cost",), "each line has its place"),
        ("gang_missing", ("gang",), "version 2 has a line of gangs"),
        ("force_missing", ("force",), "one of the force"),
        ("load_missing", ("load",), "and one of each stage's load"),
        ("punch_missing", ("punch",), "each line has its place"),
        ("die_missing", ("die",), "each line has its place"),
        ("pieces_missing", ("pieces",), "each line has its place"),
        ("gang_behind_force", ("gang 0", "force 0", "gang 0"), "each line has its place"),
        ("no_pieces", ("pieces", "pieces"), "a `pieces` line has at least one number"),
        ("pieces_of_33", ("pieces", "pieces" + " 3125" * 33), "and at most 32"),
        ("pieces_of_32", ("pieces", "pieces" + " 3125" * 32), "32 pieces are read"),
        ("frames_4", ("bed", "bed 0 3000000", *["frame 0 1"] * 4), "4 frames are read"),
        ("frames_5", ("bed", "bed 0 3000000", *["frame 0 1"] * 5), "and not 5"),
        ("upper_16", ("bed", "bed 0 3000000", *["upper 0 1 0 1 0 1"] * 16), "16 upper boxes are read"),
        ("upper_17", ("bed", "bed 0 3000000", *["upper 0 1 0 1 0 1"] * 17), "and not 17"),
        ("lower_16", ("bed", "bed 0 3000000", *["lower 0 1 0 1 -1 0"] * 16), "16 lower boxes are read"),
        ("lower_17", ("bed", "bed 0 3000000", *["lower 0 1 0 1 -1 0"] * 17), "and not 17"),
        ("upper_before_frame", ("bed", "bed 0 3000000", "upper 0 1 0 1 0 1", "frame 0 1"), "frames stand before upper boxes"),
        ("lower_before_upper", ("bed", "bed 0 3000000", "lower 0 1 0 1 -1 0", "upper 0 1 0 1 0 1"), "and these before lower ones"),
        ("boxes_8", ("punch", "punch P100 100000 6000", *["box 0 1 0 1"] * 8), "8 boxes of a punch are read"),
        ("boxes_9", ("punch", "punch P100 100000 6000", *["box 0 1 0 1"] * 9), "and not 9"),
        ("die_boxes_8", ("die", "die D16 60000 16000 11000", *["box 0 1 -1 0"] * 8), "8 boxes of a die are read"),
        ("die_boxes_9", ("die", "die D16 60000 16000 11000", *["box 0 1 -1 0"] * 9), "and not 9"),
    ):
        case(name, text(changed(PLAIN, change), "none", rows=[refused_row(read(PLAIN), 0)]), what)
    many = ["base 1000000 50000", *(f"f{i} 0 N {i * 20000} 10000 30000 up" for i in range(1, 13))]
    case("faces_13", noted(job(many)), "13 faces are read")
    case("faces_14", edited(b"bed", b"face f13 0 N 300000 10000 30000 up\nbed", noted(job(many))), "and not 14")
    six = list(job(stages=[stage(x0=200000 * i) for i in range(6)]))
    case("stages_6", noted(six), "6 stages are read")
    case("stages_7", text([*six, *stage(x0=1200000)], "none", rows=[refused_row(read(six), 0)]), "and not 7")
    case("stages_0", text([line for line in PLAIN if line.split()[0] not in ("stage", "punch", "die", "pieces", "load")], "none"), "no stage is read, and makes no valid job")




def plan_lines():
    section("The lines behind the job")
    lines = list(job(U))
    one = read(lines)
    rows = [refused_row(one, 0), ("1 0 0 0", [])]
    good = text(lines, "none", rows=rows)
    case("two_rows", good, "the certificate from which these are made: two bends, and rows at the masks 0 and 1")
    claim = text(lines, "1000000000")
    case("claim_greatest", claim, "a claim of 1,000,000,000 is read")
    case("claim_too_great", edited(b"000000\nend", b"000001\nend", claim), "and none above it")
    case("claim_missing", edited(b"claim none\n", b"", good), "behind the job stands the claim")
    case("claim_twice", edited(b"claim none\n", b"claim none\nclaim none\n", good), "once")
    case("step_behind_none", edited(b"claim none\n", b"claim none\nstep 1 P 0 0 0\n", good), "no step behind `claim none`")
    case("steps_3", text(lines, "1", ["1 P 0 0 0"] * 3), "at most a step for each bend")
    case("step_behind_row", text(lines, "1", rows=[("0 0 0 0", [])]).replace(b"end", b"step 1 P 0 0 0\nend"), "steps stand before rows")
    for name, step in (("bend_0", "0 P 0 0 0"), ("bend_3", "3 P 0 0 0"), ("stage_1", "1 P 1 0 0"), ("left_3", "1 P 0 3 0"), ("right_3", "1 P 0 0 3"), ("back_B", "1 B 0 0 0"), ("face_signed", "1 P 0 0 -0")):
        case(f"step_{name}", text(lines, "1", [step]), "a word of a step out of range is told as a line")
    for name, row, what in (
        ("mask_full", "3 0 0 0", "the full mask has no row"), ("attitude_24", "1 24 0 0", "attitudes are 0 to 23"), ("attitude_23", "1 23 0 0", "23 is one"),
        ("stage_1", "1 0 1 0", "stages are the job's"), ("value_greatest", "1 0 0 1000000000", "a worth of 1,000,000,000 is read"),
        ("value_too_great", "1 0 0 1000000001", "and none above it"), ("value_signed", "1 0 0 -1", "a worth has no sign"), ("value_missing", "1 0 0", "a row has four words"),
    ):
        case(f"row_{name}", text(lines, "none", rows=[rows[0], (row, [])]), what)
    for name, first, second, what in (
        ("mask", "2 0 0 0", "1 0 0 0", "rows go up by mask"), ("attitude", "1 2 0 0", "1 1 0 0", "then by attitude"),
        ("key_twice", "1 1 0 0", "1 1 0 5", "two rows of one key, told at the second"), ("attitude_before_mask", "1 5 0 0", "2 1 0 0", "the mask goes before the attitude"),
    ):
        case(f"rows_{name}", text(lines, "none", rows=[rows[0], (first, []), (second, [])]), what)
    two = list(job(U, stages=[stage(), stage(x0=400000)]))
    for name, first, second, what in (("stage", "1 0 1 0", "1 0 0 0", "then by stage"), ("stage_up", "1 0 0 0", "1 0 1 0", "here they go up"), ("attitude_before_stage", "1 1 1 0", "1 2 0 0", "the attitude goes before the stage"), ("attitude_back", "1 2 0 0", "1 1 1 0", "and here it goes down")):
        case(f"rows_{name}", text(two, "none", rows=[refused_row(read(two), 0), (first, []), (second, [])]), what)
    notes(lines, two)


def notes(lines, two):
    for name, note, what in (
        ("reason_0", "2 P 0 0", "reasons are 1 to 9"), ("reason_10", "2 P 0 10", "reasons are 1 to 9"), ("reason_missing", "2 P 0", "a note has a reason"),
        ("bend_0", "0 P 0 9", "bends are 1 to n"), ("bend_3", "3 P 0 9", "bends are 1 to n"), ("stage_1", "2 P 1 9", "stages are the job's"),
        ("half_missing", "2 P 0 2", "reason 2 names a half"), ("half_A", "2 P 0 2 A", "`B` or `F`"), ("half_small", "2 P 0 2 b", "in capital letters"),
        ("word_behind_1", "2 P 0 1 0", "reason 1 names nothing"), ("word_behind_8", "2 P 0 8 0", "nor does 8"), ("word_behind_9", "2 P 0 9 0", "nor does 9"),
        ("box_missing", "2 P 0 3", "reason 3 names a box"), ("box_25", "2 P 0 3 25", "boxes are 0 to 24"), ("box_24", "2 P 0 3 24", "24 is read, though no such box is there"),
        ("quarter_0", "2 P 0 4 0 0 0", "quarters are 1 to 4"), ("quarter_5", "2 P 0 4 0 5 0", "quarters are 1 to 4"), ("quarter_4", "2 P 0 4 0 4 0", "4 is one"),
        ("index_64", "2 P 0 4 0 1 64", "indices are 0 to 63"), ("index_63", "2 P 0 4 0 1 63", "63 is read, though no such obstacle is there"),
        ("lower_index_64", "2 P 0 6 0 1 64", "so of the lower group"), ("lower_index_63", "2 P 0 6 0 1 63", "so of the lower group"),
        ("nose_stage_1", "2 P 0 5 0 1 1", "the stage of a nose is the job's, told as a line"), ("nose_stage_0", "2 P 0 5 0 1 0", "0 is one"),
        ("other_25", "2 P 0 7 0 1 25", "both numbers of reason 7 are boxes"), ("other_24", "2 P 0 7 0 1 24", "24 is read"),
        ("arguments_2", "2 P 0 4 0 1", "reason 4 names three things"), ("arguments_4", "2 P 0 4 0 1 0 0", "and no more"),
        ("corner_not_there", "2 P 0 3 14", "the corner of a flat bend is read, and isn't there"),
        ("face_not_there", "2 P 0 3 3", "so is a face that the part hasn't"),
    ):
        case(f"note_{name}", noted(lines, (1, note)), what)
    case("note_of_a_folded_bend", noted(lines, (1, "1 P 0 9")), "a note's bend isn't folded at its row")
    case("note_before_the_rows", edited(b"row 0", b"x 1 P 0 9\nrow 0", noted(lines)), "a note stands behind a row")
    case("notes_in_order", noted(lines, (1, "2 P 0 9"), (1, "2 C 0 9")), "notes go up by action")
    case("notes_out_of_order", noted(lines, (1, "2 C 0 9"), (1, "2 P 0 9")), "`P` before `C`")
    case("note_twice", noted(lines, (1, "2 P 0 9"), (1, "2 P 0 9")), "one note for an action")
    case("notes_by_stage", noted(two, (1, "2 P 1 9"), (1, "2 C 0 9")), "the side at the back goes before the stage")
    case("notes_stage_back", noted(two, (1, "2 P 1 9"), (1, "2 P 0 9")), "then by stage")
    gangs = list(job(("web 100000 60000", "one 0 N 0 40000 30000 up", "two 0 N 50000 40000 30000 up", "three 0 S 0 100000 30000 up"), gang=1))
    case("note_of_no_lead", noted(gangs, (4, "2 P 0 9")), "with gangs a note's bend leads its group")
    case("note_of_a_lead", noted(gangs, (4, "1 P 0 9")), "the least bend of the group leads it")
    case("note_of_a_late_lead", noted(gangs, (1, "2 P 0 9")), "where that is folded, the next one leads")
    case("note_without_gangs", noted(changed(gangs, ("gang", "gang 0")), (4, "2 P 0 9")), "without gangs each flat bend leads")
    case("note_on_another_side", noted(gangs, (1, "3 P 0 9")), "a bend of another side is no mate")
    down = list(job(("web 100000 60000", "one 0 N 0 40000 30000 up", "two 0 N 50000 40000 30000 down", "three 0 S 0 100000 30000 up"), gang=1))
    case("note_of_another_direction", noted(down, (4, "2 P 0 9")), "nor is one of another direction")
    apart = list(job(("web 100000 60000", "one 0 N 0 100000 30000 up", "two 1 N 0 100000 30000 up", "three 0 S 0 100000 30000 up"), gang=1))
    case("note_on_another_face", noted(apart, (4, "2 P 0 9")), "nor is one on another face")


def versions():
    section("Version 1")
    lines = [line for line in job(U, stages=[stage(load=(0, 0))]) if line.split()[0] not in ("gang", "force", "load")]
    plan = ["1 P 0 2 2", "2 P 0 1 1"]
    whole = text(lines, "1000", plan, version=1)
    case("version_1", text([line for line in job(LEG, stages=[stage(load=(0, 0))]) if line.split()[0] not in ("gang", "force", "load")], "100", ["1 C 0 1 1"], version=1), "a good certificate in version 1")
    case("version_1_none", text(lines, "none", version=1), "`claim none` needs no step")
    case("version_1_steps", whole, "a step for each bend is read; here the second isn't legal")
    case("version_1_too_few", text(lines, "1000", plan[:1], version=1), "with fewer steps `end` may not stand")
    case("version_1_too_few_and_a_row", text(lines, "1000", plan[:1], [("0 0 0 0", [])], version=1), "nor may a row")
    case("version_2_too_few", text(list(job(U, stages=[stage(load=(0, 0))])), "1000", plan[:1]), "in version 2 that is a matter of the check: a bend is left flat")
    case("version_1_too_many", text(lines, "1000", [*plan, plan[0]], version=1), "one step more than bends")
    case("version_1_gang", text(changed(lines, ("cost", "cost 100 20 30 60 80 40", "gang 0")), "none", version=1), "version 1 has no line of gangs")
    case("version_1_force", text(changed(lines, ("cost", "cost 100 20 30 60 80 40", "force 0")), "none", version=1), "none of the force")
    case("version_1_load", text([*lines, "load 0 0"], "none", version=1), "none of loads")
    case("version_1_reason_9", text(lines, "none", rows=[("0 0 0 0", ["1 P 0 9"])], version=1), "a note of reason 9 is read, and never holds")
    case("version_1_gangs", text([line for line in job(("web 100000 60000", "one 0 N 0 40000 30000 up", "two 0 N 50000 40000 30000 up")) if line.split()[0] not in ("gang", "force", "load")], "none", rows=[("0 0 0 0", ["2 P 0 2 B"])], version=1), "its job has no gangs, so bend 2 leads beside bend 1")


def all_cases():
    for cases in (spellings, ends, job_lines, plan_lines, versions):
        cases()
