"""Faults that the tests of names along lines have to see: the file, what stands there, what stands
in its place, and the test. (That 800 streets are fast enough is seen by the clock alone.)
"""

LINES = "tools/maplabel_tools/lines/"
CHAINS, CHOOSING, FITS = LINES + "chains.py", LINES + "choosing.py", LINES + "fits.py"
JOINING, MAKING, REPORT = LINES + "joining.py", LINES + "making.py", LINES + "report.py"
POOLS, WISH, WRITTEN = LINES + "pools.py", LINES + "wish.py", LINES + "written.py"
TOOL = "tools/lines"
ALONG = "python/maplabel_kit/along/"
CURVE, LAY, ROOM = ALONG + "curve.py", ALONG + "lay.py", ALONG + "room.py"
SCRIPTS, LABELS = ALONG + "scripts.py", "python/maplabel_kit/labels.py"
HIGHER = "HEIGHT: label.name.height + 3,"
NEARER = "far = 0.8 * self.spacings[level] * self.scales[level]"
AWAY = "away = how.name.height / 2 + self.wish.gap + how.further"
HERE_AND_THERE = "x0, y0 = round(label.place[0]) + 4000, round(label.place[1])"

SPOILT = (
    (
        WRITTEN,
        "HEIGHT: label.name.height,",
        HIGHER,
        "lines.Bends.test_all_are_drawn_turned_at_full_height",
    ),
    (LABELS, "Fraction(until),", "Fraction(most),", "lines.Rivers.test_no_two_overlap"),
    (
        MAKING,
        "kept |= inner",
        "kept |= {one.id for one in members}",
        "lines.Streets.test_each_place_is_shown_in_one_range",
    ),
    (
        WRITTEN,
        "behind = max(last + 1, priority or 0)",
        "behind = 0",
        "lines.Rivers.test_other_names_are_as_before",
    ),
    (
        WRITTEN,
        "x0, y0 = round(label.place[0]), round(label.place[1])",
        HERE_AND_THERE,
        "lines.Bends.test_anchors_lie_on_the_lines",
    ),
    (
        CHOOSING,
        "far = self.spacings[level] * self.scales[level]",
        NEARER,
        "lines.Rivers.test_names_of_one_text_keep_apart",
    ),
    (
        WISH,
        "GROWTH = 1.26",
        "GROWTH = 0.5",
        "lines.Rivers.test_the_deepest_zoom_is_not_half_of_all",
    ),
    (
        WRITTEN,
        'f"margin = {wish.margin}",',
        '"margin = 1",',
        "lines.Bends.test_classes_have_room_for_a_halo_and_stand_last",
    ),
    (
        MAKING,
        "return dict(sorted(groups.items()))",
        "return dict(sorted(groups.items(), key=lambda one: hash(one[0])))",
        "lines.Streets.test_a_second_run_writes_the_same_bytes",
    ),
    (
        WRITTEN,
        "y0 + height * ref + ref // 2",
        "y0 + height * ref + ref",
        "lines.Streets.test_boxes_are_as_planned",
    ),
    (
        POOLS,
        "(distances >= self.far).all(axis=1)",
        "(distances >= 0 * self.far).all(axis=1)",
        "lines.Streets.test_parts_of_a_street_are_joined",
    ),
    (
        MAKING,
        'if feature.kind != "line" or name is None',
        'if feature.kind != "line" or name in (None, "Rhine")',
        "lines.Rivers.test_each_river_has_a_name",
    ),
    (CHOOSING, AWAY, "away = 0.0", "lines.Rivers.test_names_stand_beside_the_river"),
    (
        CHOOSING,
        "if found or self.open or not self.room[level].has_others():",
        "if True:",
        "lines.Dense.test_the_rhine_has_a_name_among_towns",
    ),
    (
        FITS,
        "UPRIGHT = 85.0",
        "UPRIGHT = 95.0",
        "lines.Steep.test_upright_names_stand_beside_their_lines",
    ),
    (
        WRITTEN,
        "properties[SPACING] = label.name.tracking",
        "properties[SPACING] = label.name.tracking + 1",
        "lines.Spaced.test_letters_are_spaced_and_as_high_as_told",
    ),
    (
        JOINING,
        "lines[number] if is_forward else lines[number][::-1]",
        "lines[number]",
        "lines.Joining.test_parts_become_the_whole",
    ),
    (
        JOINING,
        "in sorted(_meetings(given, snap)):",
        "in sorted(_meetings(given, snap), reverse=True):",
        "lines.Joining.test_at_a_junction_the_straightest_go_on",
    ),
    (
        MAKING,
        "text = written.without_line_classes(given)",
        "text = given",
        "lines.Words.test_own_classes_of_lines_are_replaced",
    ),
    (
        MAKING,
        " or (has_classes and kind is None)",
        "",
        "lines.Words.test_lines_without_a_class_are_left",
    ),
    (
        MAKING,
        "if properties.get(key) == value",
        "if value",
        "lines.Words.test_names_carry_what_their_lines_share",
    ),
    (
        WRITTEN,
        "priorities[1] if least else priorities[0]",
        "priorities[0]",
        "lines.Words.test_priority_is_for_names_that_stay",
    ),
    (MAKING, "    if own:\n", "    if False:\n", "lines.Words.test_what_cannot_be_used"),
    (
        MAKING,
        "if not names[-1].has_ink():",
        "if False:",
        "lines.Words.test_names_without_ink_are_left",
    ),
    (
        TOOL,
        "not int(match[1]) <= int(match[2]) <= DEEPEST",
        "int(match[2]) > DEEPEST",
        "lines.Words.test_wrong_words",
    ),
    (REPORT, "found.runs += is_whole(text)", "found.runs += 0", "lines.Report.test_counts"),
    (
        REPORT,
        "if one.priority <= last.priority",
        "if one.priority < last.priority",
        "lines.Report.test_classes_that_hide_others_for_good",
    ),
    (
        ROOM,
        "out = max(0.0, self.left - least, most - self.right)",
        "out = 0.0",
        "along.Rooms.test_lack_is_that_of_the_points",
    ),
    (
        CURVE,
        "angle = math.atan(line[1]) if line else 0.0",
        "angle = 0.0",
        "along.Curves.test_a_straight_line_has_its_angle",
    ),
    (
        CURVE,
        "reach = max(abs(u) for u, _ in turned)",
        "reach = 5.0",
        "along.Curves.test_an_arc_is_followed",
    ),
    (
        LAY,
        "after = curve.step(u, letter.wide * height)",
        "after = curve.step(u, letter.wide * height * 1.01)",
        "along.Curves.test_letters_stand_evenly",
    ),
    (CURVE, "(3, 1.1))", "(3, 9.1))", "along.Curves.test_a_zigzag_has_no_curve"),
    (CURVE, "> 3 * wide", "> 30 * wide", "along.Curves.test_a_column_is_upright"),
    (
        LAY,
        "range(height, least - 1, -1)",
        "range(height - 1, least - 1, -1)",
        "along.Heights.test_the_greatest_height_that_fits",
    ),
    (
        LAY,
        "LEAST, LEAST_WHOLE = 0.7, 0.4",
        "LEAST, LEAST_WHOLE = 0.1, 0.1",
        "along.Heights.test_too_small_is_none",
    ),
    (
        LAY,
        "MOST_TURN = 15.0",
        "MOST_TURN = 25.0",
        "along.Heights.test_a_turn_of_more_than_15_degrees_is_none",
    ),
    (
        LAY,
        "return boxes[inked[0] : inked[-1] + 1] if inked else boxes",
        "return boxes",
        "along.Heights.test_spaces_beside_a_name_take_no_part",
    ),
    (
        LAY,
        "return min(own, size), min(",
        "return own, min(",
        "along.Heights.test_what_a_feature_tells",
    ),
    (SCRIPTS, '"HEBREW",', "", "along.Scripts.test_runs_that_are_written_whole"),
    (SCRIPTS, '"KHMER",', "", "along.Scripts.test_the_page_has_the_same_scripts"),
    (
        SCRIPTS,
        '("Mn", "Me", "Mc")',
        '("Me", "Mc")',
        "along.Scripts.test_marks_stay_with_their_letters",
    ),
)
