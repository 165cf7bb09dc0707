#!/usr/bin/env python3
"""Brings the names of definitions and lemmas to snake case, once, when the repository moved to rattle-kit-13f.

usage: tools/respell.py [FOLDER]    the top of a checkout (this one where none is named)

A name is replaced only as a whole word. Functions of src/, strings, and the names that Rattle makes of a function's
code (its goals, loops and steps) are not in the table.
"""

import os
import re
import sys

# old name, new name; `_lem` where a lemma would have the name of what it is about
TABLE = """
    Reading-law ReadingLaw
    a-clock a_clock
    above-nothing above_nothing
    abs-add abs_add
    accepted-prepended accepted_prepended
    act-back act_back
    act-good act_good
    act-line act_line
    act-on act_on
    act-refused act_refused
    actLine act_line
    actOf act_of
    acts-are acts_are
    acts-back acts_back
    acts-count acts_count
    acts-first acts_first
    acts-left acts_left
    acts-on acts_on_lem
    acts-performed acts_performed
    acts-refused acts_refused
    actsBehind acts_behind
    actsOn acts_on
    after-channels after_channels
    after-clocks after_clocks
    after-counters after_counters
    after-places after_places
    all-good all_good
    all-rows all_rows
    allDigits all_digits
    allInName all_in_name
    among-middle among_middle
    among-push among_push
    anew-ok anew_ok
    anew-on anew_on
    any-onward any_onward
    at-among at_among
    at-index at_index
    at-most-is at_most_is
    at-onces at_onces
    bad-acts bad_acts
    bad-sections bad_sections
    bare-folded bare_folded
    begins-not begins_not
    behind-back behind_back
    behindName behind_name
    below-nothing below_nothing
    below-ok below_ok
    beneath-down beneath_down
    between-fine between_fine
    between-ok between_ok
    between-whole between_whole
    bound-set bound_set
    by-column by_column
    by-pieces by_pieces
    channels-are channels_are
    channels-law channels_law
    clockCondition clock_condition
    clockTest clock_test
    clocks-are clocks_are
    clocks-law clocks_law
    closed-prop closed_prop
    column-copied-next column_copied_next
    column-of column_of
    column-within column_within
    cond-ok cond_ok
    copied-reset copied_reset
    copied-sound copied_sound
    counted-ok counted_ok
    counter-bad counter_bad
    counter-good counter_good
    counter-grows counter_grows
    counter-ok counter_ok
    counter-on counter_on
    counterCondition counter_condition
    counterFields counter_fields
    counterLine counter_line
    counterName counter_name
    counterOf counter_of
    counterTest counter_test
    counters-are counters_are
    counters-law counters_law
    cut-finer cut_finer
    cut-one cut_one
    cut-self cut_self
    cut-some cut_some
    declared-ok declared_ok
    declared-on declared_on
    declaredAnew declared_anew
    digitsUpTo digits_up_to
    directionOf direction_of
    distinct-front distinct_front
    distinct-law distinct_law
    distinct-onces distinct_onces
    due-line due_line
    due-no-values due_no_values
    edge-bad edge_bad
    edge-ends edge_ends
    edge-full edge_full
    edge-good edge_good
    edge-keeps edge_keeps
    edge-line edge_line_lem
    edge-one edge_one
    edge-under edge_under
    edgeFields edge_fields
    edgeLine edge_line
    edges-law edges_law
    edges-with edges_with
    ends-bad ends_bad
    endsFields ends_fields
    entry-same entry_same
    err-ok err_ok
    err-same err_same
    every-entry every_entry
    fault-number fault_number
    few-parts few_parts
    fields-there fields_there
    fine-laws fine_laws
    fine-proper fine_proper
    finer-some finer_some
    fireAct fire_act
    first-is first_is
    firstPiece first_piece
    freed-next freed_next
    freed-passed freed_passed
    freed-sound freed_sound
    from-channels from_channels
    from-clocks from_clocks
    from-counters from_counters
    from-edges from_edges
    from-none from_none
    from-zero-down from_zero_down
    getD-listed get_d_listed
    goOn go_on
    good-acts good_acts
    good-is good_is
    greater-whole greater_whole
    half-or half_or
    half-past half_past
    half-small half_small
    holds-some holds_some
    holds-tight holds_tight
    in-columns in_columns
    inName in_name
    inTime in_time
    isDigit is_digit
    isLower is_lower
    isName is_name
    keeps-in keeps_in
    keeps-out keeps_out
    known-or-new known_or_new
    knownPlace known_place
    last-piece last_piece
    later-is later_is
    later-low later_low
    later-none later_none
    later-up later_up
    laterPieces later_pieces
    le-law le_law
    leftLength left_length
    length-is length_is
    length-listed length_listed
    length-onces length_onces
    less-keeps less_keeps
    less-than less_than
    less-than-meets less_than_meets
    less-than-proper less_than_proper
    less-whole less_whole
    limit-laws limit_laws
    limit-of limit_of
    line-back line_back
    line-of line_of_lem
    line-one line_one
    line-there line_there
    lined-ok lined_ok
    lines-back lines_back
    lines-law lines_law
    lines-there lines_there
    lines-with lines_with
    looked-more looked_more
    lookedUp looked_up
    map-set map_set
    meetAct meet_act
    meets-same meets_same
    morePieces more_pieces
    name-bytes name_bytes
    name-grows name_grows
    name-on name_on
    name-pieces name_pieces
    nameBack name_back
    nameFront name_front
    nameLine name_line
    names-law names_law
    names-ok names_ok
    names-on names_on
    newPlace new_place
    nil-cons nil_cons
    no-later no_later
    not-above not_above
    not-large not_large
    not-space not_space
    notBelow not_below
    nothing-wanted nothing_wanted
    numberOn number_on
    of-fine of_fine
    of-whole of_whole
    onGood on_good
    onLine on_line
    one-bad one_bad
    only-empty only_empty
    onward-law onward_law
    opening-bare opening_bare
    other-ok other_ok
    outcome-of outcome_of
    over-up over_up
    part-back part_back
    part-bad part_bad
    part-form part_form
    part-there part_there
    passed-back passed_back
    passed-closed passed_closed
    passed-holds passed_holds
    passed-near passed_near
    passed-shaped passed_shaped
    pinAct pin_act
    place-bad place_bad
    place-full place_full
    place-good place_good
    place-line place_line_lem
    placeAct place_act
    placeFields place_fields
    placeKey place_key
    placeLine place_line
    placePosition place_position
    places-are places_are
    places-law places_law
    pos-times pos_times
    prepended-ok prepended_ok
    proper-add proper_add
    proper-low proper_low
    proper-new proper_new
    proper-none proper_none
    proper-nought proper_nought
    proper-up proper_up
    proper-via proper_via
    read-entry read_entry
    readPieces read_pieces
    reading-back reading_back
    reading-law reading_law
    reading-of reading_of
    reading-on reading_on
    refused-far refused_far
    refused-on refused_on
    refused-some refused_some
    refused-text refused_text
    relationFront relation_front
    reset-back reset_back
    reset-closed reset_closed
    reset-holds reset_holds
    reset-on reset_on
    reset-shaped reset_shaped
    room-ok room_ok
    row-copied-next row_copied_next
    rows-law rows_law
    same-finer same_finer
    same-sym same_sym
    same-ticks same_ticks
    same-trans same_trans
    sameFlaw same_flaw
    section-back section_back
    section-on section_on
    sections-on sections_on_lem
    sectionsOn sections_on
    shaped-agree shaped_agree
    shows-after shows_after
    shows-before shows_before
    shows-past shows_past
    shows-refined shows_refined
    shows-zeroed-other shows_zeroed_other
    shows-zeroed-same shows_zeroed_same
    size-add size_add
    size-asked size_asked
    some-times some_times
    some-wanted some_wanted
    spread-more spread_more
    staying-ok staying_ok
    still-shaped still_shaped
    tight-agree tight_agree
    tightened-closed tightened_closed
    tightened-members tightened_members
    time-back time_back
    time-good time_good
    time-is time_is
    timeLine time_line
    timeOf time_of
    timeParts time_parts
    timeWord time_word
    timed-bare timed_bare
    times-le times_le
    times-negated times_negated
    times-negative times_negative
    times-pos times_pos
    times-regroup times_regroup
    times-spread times_spread
    to-none-after to_none_after
    told-entry told_entry
    told-members told_members
    told-tight told_tight
    under-in under_in
    under-out under_out
    updateOf update_of
    upto-proper upto_proper
    value-ok value_ok
    valueLine value_line
    waitAct wait_act
    whole-laws whole_laws
    whole-piece whole_piece
    whole-proper whole_proper
    with-ok with_ok
    with-others with_others
    withActs with_acts
    withChannels with_channels
    withClocks with_clocks
    withCounters with_counters
    withEdge with_edge
    withEdges with_edges
    withPlace with_place
    withPlaces with_places
    withTime with_time
    without-le without_le
    without-same without_same
    without-shows without_shows
    wordAct word_act
    zero-or-less zero_or_less
    zeros-hold zeros_hold
    zeros-readings zeros_readings
    zeros-shaped zeros_shaped
    zeros-sound zeros_sound
"""

# the refusal relation of one crate and what is said with it are types, so they begin with a capital; another crate has
# definitions of these names that are none
REFUSALS = {"refused": "Refused", "accepted": "Accepted"}
REFUSALS_IN = ("differences", "limits", "tables", "base_tests", "walkthrough")

# `meets` is a label of a record and, as a definition, a type
MET = re.compile(r"(?<![\w.'-])meets(?![\w'-])(?! : B →| =)")

LEMMAS = {"show": {"on_line": "on_line_lem"}}

WORD = r"(?<![\w'-])({})(?![\w'-])"


def words(table):
    return re.compile(WORD.format("|".join(sorted(map(re.escape, table), key=len, reverse=True))))


def turn(path, text, crate, everywhere, pattern):
    ghost = path.endswith((".antt", ".rt"))
    if crate in LEMMAS and path.endswith(".antt"):
        text = words(LEMMAS[crate]).sub(lambda m: LEMMAS[crate][m.group(1)], text)
    text = pattern.sub(lambda m: everywhere[m.group(1)], text)
    if not ghost:
        return text
    lines = []
    for line in text.split("\n"):
        code, mark, comment = line.partition("--" if path.endswith(".antt") else "//")
        if path.endswith(".rt") and '"' in code:  # a string: what is printed stays as it is
            lines.append(line)
            continue
        if crate in REFUSALS_IN:
            code = words(REFUSALS).sub(lambda m: REFUSALS[m.group(1)], code)
        code = MET.sub("IsMet", code)
        lines.append(code + mark + comment)
    return "\n".join(lines)


def main():
    top = sys.argv[1] if len(sys.argv) > 1 else os.path.join(os.path.dirname(os.path.abspath(__file__)), "..")
    everywhere = dict(line.split() for line in TABLE.strip().splitlines())
    pattern = words(everywhere)
    for folder, dirs, files in os.walk(os.path.join(top, "crates")):
        dirs[:] = sorted(d for d in dirs if d != "out")
        crate = os.path.relpath(folder, os.path.join(top, "crates")).split(os.sep)[0]
        for name in sorted(files):
            if not name.endswith((".antt", ".rt", ".edit")):
                continue
            path = os.path.join(folder, name)
            with open(path, encoding="utf-8") as source:
                text = source.read()
            new = turn(path, text, crate, everywhere, pattern)
            if new != text:
                with open(path, "w", encoding="utf-8") as target:
                    target.write(new)


main()
