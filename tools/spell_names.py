#!/usr/bin/env python3
"""Spells the repository's own definitions, lemmas and record fields as Rattle's library does: words in snake case, a dash
only between two names.

usage: python3 tools/spell_names.py     at the top, once, after the toolchain's port.py

It renames in specs/, proofs/, the clauses of src/ and the pages of docs/. Functions of src/, exported names, strings,
inputs and outputs keep their names. A name after a dot is one of Rattle's making unless it is a field of a record here.
"""

import glob
import os
import re

# Names that would fall together with another one in the same file.
IN_DAYFILE_PROOFS = {"after_stop": "after_stop_lem"}

# Fields of records, which a dot may stand before.
FIELDS = set(
    """
admits-join
demand-budget
demand-two-refused
drive-279
drive-280
extension-of-join
extension-width
hours-under-a-travel-layer
join-associative
join-commutative
join-width
leg-count
long-way-home
next-join
next-sound
next-width
no-leg-home
other-tables
serve-budget
spare-leg-from
spare-leg-to
spare-stop
start-width
stop-count
the-day-survives
travel-budget
travel-two-refused
travel-two-until-339
travel-two-until-340
verdict-of-join
verdict-of-start
""".split()
)

NAMES = dict(
    line.split()
    for line in """
a-leg a_leg
a-number a_number
acceptedBy accepted_by
accepts-all accepts_all
admits-join admits_join
after-leg after_leg_lem
after-number after_number
afterByte after_byte
afterLeg after_leg
afterRow after_row
afterStop after_stop
afterStop-join after_stop-join
afterStop-sound after_stop-sound
all-along all_along
all-front all_front
all-span all_span
all-stops all_stops
all-written all_written
allLate all_late
and-true and_true
answer-unmarked answer_unmarked
answered-refused answered_refused
areStops are_stops
areStops-in are_stops_in
areStops-parts are_stops_parts
areStops-takeOut are_stops-take_out
as-form-sound as_form-sound
asForm as_form
at-depot at_depot
at-hole at_hole
at-number at_number
at-start at_start
back-extension back_extension
back-join back_join
both-answer both_answer
both-judged both_judged
both-row both_row
bothAccept both_accept
boundedLate bounded_late
boundedStops bounded_stops
broken-run broken_run
brokenWord broken_word
byte-sound byte_sound
byte-there byte_there
carrying-keeps carrying_keeps
carrying-lawful carrying_lawful
changed-all changed_all
changed-first changed_first
changed-more changed_more
changed-put changed_put
checking-all checking_all
checking-first checking_first
checking-next checking_next
choosing-all choosing_all
choosing-more choosing_more
chose-marked chose_marked
chose-plain chose_plain
chosen-found chosen_found
chosenBy chosen_by
count-is count_is
count-steps count_steps
counted-below counted_below
counting-keeps counting_keeps
counting-lawful counting_lawful
day-answer day_answer_lem
day-granted day_granted
day-list day_list_lem
day-over-cleared day_over_cleared
day-short day_short
dayAnswer day_answer
dayIn day_in
dayLines day_lines
dayList day_list
dayOf day_of
dayText day_text
days-of-sets days_of_sets
demand-budget demand_budget
demand-two-refused demand_two_refused
depot-put depot_put
digit-written digit_written
digitRun digit_run
digitRun-le digit_run_le
digitRun-more digit_run-more
digitRun-none digit_run-none
digitRun-stops digit_run_stops
digits-of-run digits_of_run
distinct-in distinct_in
distinct-rest distinct_rest
distinct-takeOut distinct-take_out
drive-279 drive_279
drive-280 drive_280
drivenOf driven_of
driving-keeps driving_keeps
driving-lawful driving_lawful
drop-extension drop_extension
drop-put drop_put
dropped-absent dropped_absent
dropped-elsewhere dropped_elsewhere
dropped-free dropped_free
dropped-there dropped_there
due-short due_short
eight-routes eight_routes
either-join either_join
every-each every_each
every-joined every_joined
expected-form expected_form
extended-onto extended_onto
extension-of-join extension_of_join
extension-width extension_width
failing-each failing_each
failing-fails failing_fails
failing-further failing_further
failing-has failing_has
failing-here failing_here
failing-joined failing_joined
failing-map failing_map
failing-none failing_none
few-holes few_holes
few-stops few_stops
fewEnough few_enough
fewLate few_late
figureAnswer figure_answer
figureMade figure_made
filled-agrees filled_agrees
filled-same filled_same
filled-short filled_short
filledUp filled_up
first-chosen first_chosen
first-complete first_complete
first-leg first_leg
first-marked first_marked
first-narrow first_narrow
first-parsed first_parsed
first-refused first_refused
first-side first_side
first-sound first_sound
first-yes first_yes
firstBroken first_broken
firstDay first_day
firstDay-by-days first_day_by_days
firstDay-chosen first_day-chosen
firstDay-none-given first_day-none_given
firstDay-unmarked first_day_unmarked
firstDayGiven first_day_given
firstFailing first_failing
firstLine first_line
firstNo first_no
firstNo-append first_no-append
firstNo-stops first_no_stops
fitsIn fits_in
follows-form follows_form
form-due form_due_lem
formDue form_due
found-further found_further
found-placed found_placed
free-nowhere free_nowhere
from-leg-part from_leg_part
from-stop-part from_stop_part
from-the-start from_the_start
front-extension front_extension
front-is front_is
front-join front_join
front-wide front_wide
getD-dropped get_d_dropped
getD-greater get_d_greater
good-line good_line
greater-all greater_all
greater-associative greater_associative
greater-commutative greater_commutative
greatestCapacity greatest_capacity
greatestLimit greatest_limit
head-short head_short
headA head_a
headLines head_lines
holds-fewer holds_fewer
holds-in holds_in
holds-others holds_others
holds-putIn holds-put_in
holds-taken holds_taken
holes-at-byte holes_at_byte
holes-at-hole holes_at_hole
hourOf hour_of
hours-keep hours_keep
hours-lawful hours_lawful
hours-under-a-travel-layer hours_under_a_travel_layer
in-form in_form_lem
inForm in_form
inTime in_time
inTime-join in_time-join
inside-at inside_at
is-valid is_valid
isBudget is_budget
isCount is_count
isNothing is_nothing
isQuantity is_quantity
isRoute is_route
isSome-failing is_some_failing
isSome-firstDay is_some-first_day
isSome-mapped is_some-mapped
isStop is_stop
isTime is_time
join-associative join_associative
join-commutative join_commutative
join-crosswise join_crosswise
join-width join_width
joinLower join_lower
joinLower-at join_lower_at
joinLower-keeps join_lower_keeps
joinLower-own join_lower_own
joined-append joined_append
judged-unmarked judged_unmarked
judgedAnswer judged_answer
judgedList judged_list
keepsAll keeps_all
kept-by-set kept_by_set
lateLegs late_legs
lateOf late_of
latestBeginning latest_beginning
laws-below laws_below
layered-judges layered_judges
layered-lawful layered_lawful
layeredExtension layered_extension
layeredJoin layered_join
layeredStart layered_start
layeredVerdict layered_verdict
layeredWidth layered_width
leastLate least_late
leb-max leb_max
left-falls left_falls
leg-back leg_back
leg-count leg_count
leg-first leg_first
leg-forth leg_forth
leg-kept leg_kept
leg-part leg_part
leg-put leg_put
leg-short leg_short
leg-step leg_step
legAt leg_at
legDue leg_due
legLine leg_line
legOf leg_of
legOfTime leg_of_time
legRecords leg_records
legs-later legs_later
legs-short legs_short
legsA legs_a
legsFrom legs_from
length-decimal-step length_decimal_step
length-firstDay length-first_day
length-next length_next
length-rowAt length-row_at
length-sides length_sides
length-stepCount length-step_count
length-steps length_steps
length-takeOut length-take_out
length-unlessBroken length-unless_broken
limitAnswer limit_answer
line-fits line_fits
line-in-form line_in_form
line-short line_short
line-text line_text_lem
lineDue line_due
lineEnd line_end
lineText line_text
list-unmarked list_unmarked
long-way-home long_way_home
lowLate low_late
map-along map_along
map-unions map_unions
marked-first marked_first
marks-of marks_of
marksOver marks_over
mostLate most_late
mostSteps most_steps
mostStops most_stops
must-mark must_mark
neverOverloaded never_overloaded
next-byte next_byte
next-join next_join
next-number next_number
next-shifted next_shifted
next-sound next_sound
next-wide next_wide
next-width next_width
nextRow next_row
nextRow-join next_row-join
nextRow-same next_row_same
nextRow-sized next_row_sized
no-day no_day
no-form-reads no_form_reads
no-leg no_leg_lem
no-leg-home no_leg_home
no-legs no_legs
no-stops no_stops_lem
noHead no_head
noLeg no_leg
noStop no_stop
noStops no_stops
none-earlier none_earlier
none-failing none_failing
none-refused none_refused
not-both not_both
not-standing not_standing
nothing-due nothing_due
number-before number_before
number-complete number_complete
number-sound number_sound
number-told number_told
numeral-in-form numeral_in_form
of-join of_join
off-plan off_plan
on-plan on_plan
onTime on_time
one-step one_step
one-stop one_stop
oneBit one_bit
only-there only_there
onto-at onto_at
onto-extension onto_extension
other-form other_form
other-stays other_stays
other-tables other_tables
other-turn other_turn
others-dropped others_dropped
others-placed others_placed
outside-bounds outside_bounds
over-cleared over_cleared
ownVerdict own_verdict
pair-granted pair_granted
pair-granted-both pair_granted_both
pair-lawful pair_lawful
pair-lawful-at pair_lawful_at
pairExtension pair_extension
pairJoin pair_join
pairVerdict pair_verdict
pairWidth pair_width
part-all part_all
part-written part_written
passes-for passes_for
peakOf peak_of
pickedBefore picked_before
pickedOf picked_of
placed-elsewhere placed_elsewhere
placed-there placed_there
placing-all placing_all
placing-apart placing_apart
placing-first placing_first
placing-next placing_next
placing-room placing_room
placing-stops placing_stops
placing-within placing_within
planNumber plan_number
planned-all planned_all
planned-on planned_on
plannedTravel planned_travel
productAccepts product_accepts
productDay product_day
productLayers product_layers
productWidth product_width
range-cong range_cong
range-next range_next
range-of range_of
range-put range_put
read-stops read_stops
readLine read_line
readNumber read_number
readOn-ge read_on_ge
readOn-more read_on-more
reads-back reads_back
recursion-lawful recursion_lawful
refusedLine refused_line
rest-accepted rest_accepted
rest-is rest_is
rest-refused rest_refused
rest-wide rest_wide
restsInTime rests_in_time
room-left room_left
room-tells room_tells
roomOnTheWay room_on_the_way
roomQuestions room_questions
route-number route_number
route-place route_place
route-stops route_stops
route-told route_told
routeAnswer route_answer
routeCount route_count
routeFrom route_from
routeOf route_of
routeWith route_with
routesIn routes_in
routesOf routes_of
row-granted row_granted
row-part row_part
rowAnswer row_answer
rowAt-join row_at-join
rowAt-next row_at_next
rowAt-rows row_at-rows
rowAt-run row_at_run
run-accepted run_accepted
run-all run_all
run-shifted run_shifted
run-sides run_sides
run-throughout run_throughout
run-wide run_wide
run-width run_width
runRows run_rows
same-form same_form
same-goes same_goes
same-list same_list
same-window same_window
scan-complete scan_complete
scan-sound scan_sound
scenarios-by-days scenarios_by_days
second-narrow second_narrow
second-side second_side
serve-budget serve_budget
sets-long sets_long
short-route short_route
short-steps short_steps
short-template short_template
side-judged side_judged
size-all size_all
size-append size_append
size-one size_one
size-span size_span
sized-at sized_at
sized-join sized_join
sized-marked sized_marked
sized-next sized_next
sized-plain sized_plain
small-figures small_figures
small-set small_set
some-unless some_unless
something-due something_due
sound-put sound_put
sound-stop sound_stop_lem
soundLeg sound_leg
soundStop sound_stop
span-first span_first
spare-leg-from spare_leg_from
spare-leg-to spare_leg_to
spare-stop spare_stop
split-tells split_tells
standing-dropped standing_dropped
standing-placed standing_placed
stands-further stands_further
stands-there stands_there
standsIn stands_in
start-width start_width
stepCount step_count
steps-none steps_none
steps-some steps_some
stepsFit steps_fit
stepsFrom steps_from
stop-at stop_at_lem
stop-back stop_back
stop-count stop_count
stop-first stop_first
stop-forth stop_forth
stop-kept stop_kept
stop-part stop_part
stop-put stop_put
stopDue stop_due
stopLine stop_line
stopOf stop_of
stopRecords stop_records
stops-dropped stops_dropped
stops-placed stops_placed
stops-short stops_short
stopsA stops_a
stopsAlone stops_alone
stopsFrom stops_from
stopsOf stops_of
stored-dropped stored_dropped
stored-placed stored_placed
stored-set stored_set
subjectDue subject_due
sum-narrow sum_narrow
survives-by-days survives_by_days
survives-none-given survives-none_given
survives-unmarked survives_unmarked
survivesGiven survives_given
survivesIn survives_in
table-lengths table_lengths
table-short table_short
table-steps table_steps
table-stops table_stops
tablesFit tables_fit
take-extension take_extension
takeOut take_out
takeOut-absent take_out_absent
takeOut-append take_out-append
ten-digits ten_digits
ten-numbers ten_numbers
text-of-line text_of_line
the-day-survives the_day_survives
the-figure the_figure
the-route the_route
three-keep three_keep
threeAccept three_accept
toDeliver to_deliver
travel-budget travel_budget
travel-home travel_home
travel-on travel_on
travel-two-refused travel_two_refused
travel-two-until-339 travel_two_until_339
travel-two-until-340 travel_two_until_340
travelOf travel_of
turn-passes turn_passes
turn-reads turn_reads
two-questions two_questions
two-words two_words
union-unmarked union_unmarked
unions-joined unions_joined
unlessBroken unless_broken
unlessBroken-join unless_broken-join
upto-takeOut upto_take_out
valid-lines valid_lines
value-small value_small
verdict-join verdict_join
verdict-of-join verdict_of_join
verdict-of-run verdict_of_run
verdict-of-start verdict_of_start
walk-home walk_home
walk-on walk_on
whole-day whole_day
windowOnly window_only
with-dropped with_dropped
with-head with_head
with-others-dropped with_others_dropped
with-others-placed with_others_placed
with-placed with_placed
with-stop with_stop
withBudgets with_budgets
within-sound within_sound
withinLimit within_limit
withinLimits within_limits
workRows work_rows
worldOf world_of
writeNumber write_number
written-size written_size
zeros-after zeros_after
zeros-put zeros_put
""".strip().splitlines()
)

TOKEN = re.compile(r"(\.?)([A-Za-z_][A-Za-z0-9_'\u2080-\u2089-]*)")


def spelled(text, names):
    def one(m):
        dot, name = m.groups()
        if dot and "-" in name and name not in FIELDS:
            return m.group(0)
        return dot + names.get(name, name)

    return TOKEN.sub(one, text)


def main():
    top = os.path.dirname(os.path.dirname(os.path.abspath(__file__)))
    files = []
    for pattern in ("crates/*/specs/**/*.antt", "crates/*/proofs/**/*.antt", "crates/*/src/**/*.rt", "docs/*.md", "README.md"):
        files += glob.glob(os.path.join(top, pattern), recursive=True)
    for path in sorted(files):
        names = dict(NAMES)
        if "crates/dayfile/proofs/" in path:
            names.update(IN_DAYFILE_PROOFS)
        with open(path, encoding="utf-8") as f:
            old = f.read()
        new = spelled(old, names)
        if new != old:
            with open(path, "w", encoding="utf-8") as f:
                f.write(new)


if __name__ == "__main__":
    main()
