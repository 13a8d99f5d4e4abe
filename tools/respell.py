#!/usr/bin/env python3
"""Brings the names of definitions and lemmas to the spelling of today's Rattle: words in snake case.

Run once, at the top of the repository, after the kit's own script for older repositories. It goes over the files of
specs/, proofs/ and src/, where only clauses have such names, and over names in backquotes in README.md and docs/. Strings,
comments and the names of functions, outputs and inputs stay. A dash stays where it joins the names of two definitions, as in
`placed-map`. A lemma that would fall together with a definition has `_lem` behind it.
"""
import glob
import re

# the old name and the new one
TABLE = """
all-bytes all_bytes, all-four all_four, all-kept all_kept, allCharged all_charged, allElapsed all_elapsed
any-mapped any_mapped, any-there any_there_lem, anyThere any_there, applies-first applies_first, at-content at_content
at-distance at_distance, at-empty at_empty, at-jitter at_jitter, at-now at_now, at-period at_period
at-refused at_refused, at-setup at_setup, at-short at_short, at-unknown at_unknown, behind-all behind_all
behind-here behind_here, behind-none behind_none, behind-start behind_start, behind-table behind_table
beyond-found beyond_found, bit-small bit_small, bit-tells bit_tells, bitMap bit_map, bitsChecked bits_checked
body-forth body_forth, body-laid body_laid, break-even break_even, break-even-stated break_even_stated
burst-kept burst_kept, burstOf burst_of, burstRead burst_read, by-step by_step, byte-there byte_there
byteRead byte_read, calledFor called_for, capacity-stated capacity_stated, charged-left charged_left
charged-proper charged_proper, contentLines content_lines, contentOf content_of, continued-is continued_is
continues-is continues_is, counter-of counter_of, counterFor counter_for, countersOf counters_of, cursorOf cursor_of
defaultBreakEven default_break_even, defaultCapacity default_capacity, densest-continues densest_continues
digit-back digit_back, digit-more digit_more, digitOf digit_of, digits-end digits_end, distanceRead distance_read
div-at-least div_at_least, div-at-most div_at_most, div-more div_more, div-wider div_wider, each-found each_found
elapsed-counted elapsed_counted, elapsed-left elapsed_left, elapsed-proper elapsed_proper, elapsedBy elapsed_by
emptyThere empty_there, exact-of exact_of, exact-said exact_said, exact-sheet exact_sheet, false-within false_within
field-judged field_judged, fieldRead field_read, fields-by fields_by, fieldsAfter fields_after, fieldsIn fields_in
figure-back figure_back, figure-forth figure_forth, figure-long figure_long, figure-or figure_or_lem
figure-rest figure_rest, figure-some figure_some, figure-together figure_together, figure-width figure_width
figureBytes figure_bytes, figureIn figure_in, figureLine figure_line, figureLines figure_lines, figureOf figure_of
figureOr figure_or, figurePlaced figure_placed, figureRead figure_read, first-free first_free
firstBeyond first_beyond, firstBeyond-append first_beyond-append, firstByte first_byte, firstPair first_pair
found-each found_each, four-lines four_lines, free-at free_at, fresh-good fresh_good, fresh-promised fresh_promised
from-map from_map, full-left full_left, getD-mapped get_or-mapped, getD-placed get_or-placed, has-stairs has_stairs
in-use-at in_use_at, in-use-four in_use_four, inOneByte in_one_byte, inTwoBytes in_two_bytes, inUse in_use
is-full is_full, judged-as judged_as, judged-good judged_good, keeps-is keeps_is, keeps-under keeps_under
kept-burst kept_burst, known-not known_not, lacking-left lacking_left, laid-taken laid_taken, last-forth last_forth
last-tick last_tick, least-C least_c, least-there least_there, leastBound least_bound, left-all left_all
left-fits left_fits, left-more left_more, lesser-assoc lesser_assoc, lesser-none lesser_none, level-alike level_alike
level-later level_later, level-more level_more, level-raised level_raised, lowest-broken lowest_broken
lowestEmpty lowest_empty, mapped-some mapped_some, more-div more_div, most-told most_told
mostBreakEven most_break_even, mostBurst most_burst, mostCapacity most_capacity, mostStep most_step, moved-if moved_if
never-more never_more, next-digit next_digit, no-stairs no_stairs, none-asked none_asked
none-brings-more none_brings_more, not-below not_below, not-both not_both, not-empty not_empty
not-unknown not_unknown, nothing-came nothing_came, nothing-is-some nothing_is_some, numeralFrom numeral_from
old-more old_more, one-asked one_asked, pair-there pair_there, pairRead pair_read, past-past past_past
proper-for proper_for, recordFault record_fault, refusalOf refusal_of, refused-told refused_told
reportLines report_lines, said-first said_first, sample-good sample_good, sampled-is sampled_is
setup-judged setup_judged, setupRead setup_read, sheet-asked sheet_asked_lem, sheet-exact sheet_exact
sheetAsked sheet_asked, sheetContent sheet_content, sheetFault sheet_fault, sheetRead sheet_read
since-start since_start, single-level single_level, slotted-in-use slotted_in_use, slotted-sound slotted_sound
some-burst some_burst, some-is-nothing some_is_nothing, some-stands some_stands, some-step some_step
some-there some_there, some-token some_token, someStaircase some_staircase, stair-back stair_back
stair-forth stair_forth, stair-judged stair_judged, stair-long stair_long, stair-of stair_of_lem
stair-rest stair_rest, stair-some stair_some, stair-together stair_together, stair-width stair_width
stairBytes stair_bytes, stairIn stair_in, stairLine stair_line, stairLines stair_lines, stairOf stair_of
stairPlaced stair_placed, stairRead stair_read, staircaseOf staircase_of, staircasesOf staircases_of
stairs-no stairs_no, stairsOf stairs_of, steps-bring steps_bring, steps-bring-later steps_bring_later
steps-under steps_under, table-judged table_judged, tableRead table_read, tableWidth table_width
tabledRead tabled_read, taken-told taken_told, tick-good tick_good, token-is token_is, told-C told_c
true-within true_within, two-forth two_forth, twoBytes two_bytes, under-keeps under_keeps, under-most under_most
untilFull until_full, widths-of widths_of, within-false within_false, within-true within_true
"""
NAMES = dict(row.split() for row in TABLE.replace("\n", ",").split(",") if row.strip())

# a name of antt, a string, or the rest of a line from a comment on
TOKEN = re.compile(r'"(?:\\.|[^"\\])*"|(?:--|//).*|[^\s(){}\[\],;.:"`∷]+')


def respelled(text):
    return TOKEN.sub(lambda m: NAMES.get(m.group(0), m.group(0)), text)


def rewrite(path, change):
    with open(path, encoding="utf-8") as file:
        old = file.read()
    new = change(old)
    if new != old:
        with open(path, "w", encoding="utf-8") as file:
            file.write(new)


def specification(text):
    # std has the word for which the repository had a name of its own
    text = text.replace("option_map as mappedSome", "option_map").replace("mappedSome", "option_map")
    return "".join(line if line.startswith("-- ") else respelled(line) for line in text.splitlines(keepends=True))


def page(text):
    return re.sub(r"`[^`\n]*`", lambda m: respelled(m.group(0)), text)


for path in glob.glob("crates/*/specs/**/*.antt", recursive=True) + glob.glob("crates/*/proofs/**/*.antt", recursive=True):
    rewrite(path, specification)
for path in glob.glob("crates/*/src/**/*.rt", recursive=True):
    rewrite(path, specification)
for path in glob.glob("docs/*.md") + ["README.md"]:
    rewrite(path, page)
